#!/usr/bin/env python3
"""Compares the pages that list the public calls, docs/CALLS.md and the CALLING.md of `mq`, with the
sources.

Each line of their ```rust blocks is a signature of the sources, in the form that the head of CALLS.md
says, and the crate `mq` re-exports the types that it names. Each public call of the types below,
and each name that `mq` re-exports, has a place on a page; a call that refuses, in such a block. The
refusals of a table of CALLS.md are those that the comment of each function of its section names, or
the variants of its error, in that order; a call that is another one with more around it need not
name them again. Each clause of a sentence 'Proved' is one of the section's functions. The last line
counts.
"""
import re
import sys
from pathlib import Path

CRATES = Path(__file__).resolve().parent.parent / "crates"
PAGES = [CRATES.parent / "docs" / "CALLS.md", CRATES / "mq" / "CALLING.md"]
TYPES = ["System", "OneThread", "Seat", "Caller", "LocalCaller", "LocalQueues", "Moments"]
# Errors whose variants stand in the order of the refusals.
ERRORS = ["DraftError", "SysError", "WorkersError"]
# Calls that are another one of their section: by a caller, or with an end of the wait.
LIKE_ANOTHER = re.compile(r"(Local)?Caller::|.*_(within|many)$")
# What a signature names of the language.
KNOWN = ["Result", "Option", "Vec", "VecDeque", "Answer", "Value", "Global"]
# Parameters of nearly every call, which a signature shows without their types.
PLAIN = {"rt: &R": "rt", "alloc: Global": "alloc", "system: &System<P, N>": "system",
         "seat: &mut Seat<N>": "seat", "seat: &Seat<N>": "seat",
         "config: Config": "config", "id: Id": "id",
         "key: i32": "key", "mtype: i64": "mtype", "msgtyp: i64": "msgtyp", "tag: u64": "tag",
         "len: u64": "len", "size: u64": "size", "moment: u64": "moment", "bytes: &[u8]": "bytes",
         "patience: &mut T": "patience", "message: Message<'_>": "message",
         "selection: Selection": "selection", "options: ReceiveOptions": "options"}


def handed_on():
    """The names that `mq` re-exports, and the sources of the crates that they are from."""
    text = (CRATES / "mq" / "src" / "lib.rt").read_text()
    uses = re.findall(r"pub use ([\w:]+)::(?:(\w+)|\{([^}]*)\});", text)
    names = {it.strip() for _, one, more in uses for it in (one or more).split(",") if it.strip()}
    crates = {path.split("::")[0] for path, _, _ in uses} | {"mq"}
    files = [it for crate in sorted(crates) for it in sorted((CRATES / crate).glob("src/**/*.rt"))]
    return names, [it.read_text() for it in files]


def shown(text, owner):
    """A signature as the page has it."""
    text = re.sub(r"\s+", " ", text).strip()
    text = re.sub(r"^pub (?:const )?fn (\w+)(<.*?>)?\(", r"\1(", text)
    text = re.sub(r"\( | ?, ?\)", lambda it: it.group().strip(" ,"), text)
    text = re.sub(r"'\w+,? ", "", text)
    for long, short in PLAIN.items():
        text = text.replace(long, short)
    return f"{owner}::{text}" if owner else text


def functions(sources):
    """Of each public function its signature, its comment and the names of its clauses."""
    found = {}
    for lines in (it.splitlines() for it in sources):
        owner = ""
        for at, line in enumerate(lines):
            if begun := re.match(r"impl(?:<.*?>)? (?:.* for )?(\w+)", line):
                owner = begun.group(1)
            if not (begun := re.match(r"(    )?pub (?:const )?fn (\w+)", line)):
                continue
            rest = "\n".join(lines[at:])
            head = re.split(r"\n\s*(?=requires\b|ensures\b|\{)| \{\}?\n", rest, maxsplit=1)[0]
            body = re.split(r"^\s*\{$", rest, maxsplit=1, flags=re.M)[0][len(head):]
            clauses = re.findall(r"^\s*ensures (\w+) \{", body, re.M)
            doc = []
            while re.match(r"\s*(//|#\[)", lines[at - 1]):
                at -= 1
                doc[:0] = re.findall(r"^\s*/// (.*)", lines[at])
            name = "::".join(it for it in (begun.group(1) and owner, begun.group(2)) if it)
            if re.match(r"\s*(requires|ensures)\b", body) is None:
                clauses = []
            found[name] = (shown(head, begun.group(1) and owner), " ".join(doc), clauses)
    return found


def refusals(signature, doc, sources):
    """What a function refuses, as its comment or its error's type has it, or None."""
    for sentence in re.split(r"(?<=\.)\s+", doc):
        if re.match(r"(Only )?E[A-Z0-9]{3,}\b", sentence) and "refusals of" not in sentence:
            return re.findall(r"\bE[A-Z0-9]{3,}\b", sentence)
    error = re.search(r", (\w+)>$", signature)
    if not error or error.group(1) not in ERRORS:
        return None
    enum = rf"^pub enum {error.group(1)} \{{\n(.*?)^\}}"
    bodies = [it.group(1) for it in (re.search(enum, text, re.M | re.S) for text in sources) if it]
    return re.findall(r"^    (\w+),", bodies[0], re.M)


def must_name(name, signature):
    """Whether a call's comment, or its error, has to name what it refuses."""
    return "-> Result<" in signature and not LIKE_ANOTHER.match(name)


def main():
    names, sources = handed_on()
    calls = functions(sources)
    refused = {name: refusals(it[0], it[1], sources) for name, it in calls.items()}
    by_text = {it[0]: name for name, it in calls.items()}
    page, rest = (it.read_text() for it in PAGES)
    types = {it for text in PLAIN for it in re.findall(r"\b[A-Z]\w+", text)} - {"Global"}
    checks = [(it in names, f"mq does not hand on {it}") for it in sorted(types)]
    placed = set()
    for section in re.split(r"^## ", page + rest, flags=re.M)[1:]:
        title = section.splitlines()[0]
        lines = [it for block in re.findall(r"```rust\n(.*?)```", section, re.S)
                 for it in block.splitlines()]
        checks += [(it in by_text, f"no such signature: {it}") for it in lines]
        checks += [(it in names or it in KNOWN, f"{title}: mq does not hand on {it}")
                   for line in lines for it in re.findall(r"\b[A-Z]\w+", line)]
        own = [by_text[it] for it in lines if it in by_text]
        placed |= set(own)
        table = re.search(r"^\| Refuses.*\n\|[-| ]*\n((?:\|.*\n)*)", section, re.M)
        told = re.findall(r"^\| `(\w+)`", table.group(1), re.M) if table else []
        checks += [(refused[it] == told, f"{title}: {it} refuses {refused[it]}, not {told}")
                   for it in own
                   if section in page and (refused[it] or must_name(it, calls[it][0]))]
        clauses = {clause for name in own for clause in calls[name][2]}
        checks += [(it in clauses, f"{title}: no clause `{it}`")
                   for said in re.findall(r"\bProved[^.]*", section)
                   for it in re.findall(r"`([a-z_]+)`", said) if it not in calls]
    text = re.sub(r"```.*?```", "", page + rest, flags=re.S)
    told = set(re.findall(r"[\w:]+", " ".join(re.findall(r"`([^`\n]+)`", text))))
    wanted = names | {it for it in calls if it.split("::")[0] in TYPES and "::" in it}
    checks += [(it in placed or it in told and not refused.get(it), f"{it} has no place")
               for it in sorted(wanted)]
    failed = [said for passed, said in checks if not passed]
    for said in failed:
        print(f"calls: FAILED: {said}")
    print(f"calls: {len(checks) - len(failed)} passed, {len(failed)} failed")
    return 1 if failed or not checks else 0


if __name__ == "__main__":
    sys.exit(main())
