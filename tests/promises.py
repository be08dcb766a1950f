#!/usr/bin/env python3
"""Compares docs/PROMISES.md with the sources. Each function, clause and test that it names must be
there, and each mutant must be in a function, or seen by a test, that a row names, and be
written as .ci/edits.py says. Each public function of which a clause says what it returns or leaves
must have a mistake planted in it.

A row has three columns: the promise, the functions with their clauses, and the tests. In the
second, each part up to a `;` names crates, or means those of the part before; then functions, where
a type, a trait or a module stands for all that it has; and behind a colon clauses. Each of the
crates has each of the functions, and in one of them each clause. `answer.done` is the field `done`
of a record that the clause `answer` cites, itself or by what it cites. A mistake that must not
compile names no function: a row names one of its file.

A clause carries what a row promises: each function that the row names ensures something, itself or
by its trait, has a clause that the row names, which may be one that its callers prove, or a planted
mistake that the prover refuses. In the section `What only tests see` each row names a test, and no
other section says that something is only tested.

First it must find each fault of promises_cases.py. The last line counts these, the names and the
mistakes.
"""
import re
import sys
import tempfile
from pathlib import Path

TOP = Path(__file__).parent.parent
sys.dont_write_bytecode = True
sys.path.insert(0, str(TOP / ".ci"))
from edits import FUNCTION as BODY, all_edits, changed_body  # noqa: E402
from promises_cases import CASES, write  # noqa: E402

ONLY_TESTED = "What only tests see"
NAME = re.compile(r"`([^`]+)`")
BLOCK = re.compile(r"(?m)^ *(?:pub(?:\(\w+\))? )?(impl|trait)\b((?:\[[^]]*\]|[^{;])*)\{")
FUNCTION = re.compile(r"\bfn\s+(\w+)")
CLAUSE = re.compile(r"\b(?:ensures|requires)\*?\s+(\w+)\s*\{([^{}]*)")
# What comes before a contract, and a clause of it up to its brace.
BEFORE_CONTRACT = re.compile(r"[^{]*?\n\s*(?=(?:ensures|requires)\b)")
CLAUSE_HEAD = re.compile(r"\s*(ensures|requires)\*?\b[^{]*")
RECORD = re.compile(r"(?ms)^pub record (\w+)(.*?)(?=^\S|\Z)")
ABBREVIATION = re.compile(r"(?ms)^abbrev pub (\w+) :(.*?)(?=^(?:pub|abbrev|--|use)|\Z)")
FIELD = re.compile(r"(?m)^  pub (\w+) :")
TEST = re.compile(r"#\[test\]\s*(?:#\[[^\]]*\]\s*)*(?:pub )?fn (\w+)")
TABLE = re.compile(r"(?m)^table (\w+)$")
# A law, or what holds of each value: its body does nothing.
NOTHING = re.compile(r"\{\s*(?:let _ = [^;]*;\s*)?\}")
# Public functions with no wrong body that compiles, by crate and module: they begin with nothing, take
# apart or hand on what there is one of, or only call what their proof names.
ONE_BODY = {"mq caller::into_seat", "mq_arena locked::into_state", "mq_arena parts::empty",
            "mq_arena text::into_block", "mq_select queue::new", "mq_select room::new", "mq_message message::into_body",
            "mq_queue state::base", "mq_system slot::holds", "mq_system tally::close",
            "mq_table keys::new"}
# Comments, strings and characters, which may hold braces.
QUOTED = re.compile(r"//[^\n]*|b?\"(?:\\.|[^\"\\])*\"|b?'(?:\\.[^']*|[^'\\])'", re.S)


class Function:
    """A function: its file, its module, type and trait, its name, its clauses with their texts, and
    whether it ensures something, itself or, once all are read, by its trait."""

    def __init__(self, file, homes, name, clauses, ensures):
        self.file, self.homes, self.name, self.clauses = file, homes, name, clauses
        self.ensures = ensures

    def is_called(self, path):
        """Whether this path of the page is its own, or that of a home of it."""
        *front, last = path.split("::")
        return last in self.homes or last == self.name and self.homes.issuperset(front)

    def is_printed(self, path):
        """Whether this is its path as a check prints it, where a trait's name, or arguments, may
        stand behind the type's, which begins with a great letter, or is a tuple."""
        *front, last = path.split("::")
        own = re.sub(r"^Tuple\d", "", front[-1]).lower() if front else ""
        return last == self.name and any(not own or own.startswith(it.lower()) for it in self.homes)


def masked(text):
    """The text with comments, strings and characters blanked out."""
    return QUOTED.sub(lambda found: re.sub(r"[^\n]", " ", found[0]), text)


def closing(text, at):
    """The place behind the brace that closes the one at this place."""
    depth = 0
    for place in range(at, len(text)):
        depth += {"{": 1, "}": -1}.get(text[place], 0)
        if depth == 0:
            return place + 1
    return len(text)


def homes_of(head):
    """The type and the trait of a block with this head."""
    head = re.sub(r"\bwhere\b.*", "", head, flags=re.S)
    while re.search(r"<[^<>]*>", head):
        head = re.sub(r"<[^<>]*>", " ", head)
    return {it.rpartition("::")[2] for it in re.findall(r"\w+(?:::\w+)*", head)} - {"for"}


def ensures_in(text, start, end):
    """Whether the contract of the function whose signature stands here ensures something."""
    begun = BEFORE_CONTRACT.match(text, start, end)
    place = begun.end() if begun else end
    while clause := CLAUSE_HEAD.match(text, place, end):
        if clause[1] == "ensures":
            return True
        place = closing(text, clause.end())
    return False


def functions_in(folder, path, of_traits):
    """The functions of a file, those of traits with no body too. To the last are added the traits'
    functions that ensure something, each as its trait and its name."""
    text = masked(path.read_text())
    blocks = [(it.start(), closing(text, it.end() - 1), it[1], homes_of(it[2]))
              for it in BLOCK.finditer(text)]
    found = list(FUNCTION.finditer(text))
    for it, following in zip(found, [*found[1:], None]):
        own = [(kind, homes) for start, end, kind, homes in blocks if start < it.start() < end]
        kind, homes = own[0] if own else ("", set())
        end = following.start() if following else len(text)
        said = dict(CLAUSE.findall(text, it.end(), end))
        ensures = ensures_in(text, it.end(), end)
        if kind == "trait" and ensures:
            of_traits.update((home, it[1]) for home in homes)
        yield Function(str(path.relative_to(folder)), homes | {path.stem}, it[1], said, ensures)


def all_functions(crates):
    """The functions of each crate."""
    of_traits = set()
    functions = {name: [it for path in sorted(folder.glob("src/**/*.rt"))
                        for it in functions_in(folder, path, of_traits)]
                 for name, folder in crates.items()}
    for it in (it for own in functions.values() for it in own):
        it.ensures = it.ensures or any((home, it.name) in of_traits for home in it.homes)
    return functions


def definitions(top):
    """The definitions of all crates: by their names the fields and the names that each cites."""
    found = {}
    for path in top.glob("crates/*/specs/*.antt"):
        text = path.read_text()
        for name, body in [*RECORD.findall(text), *ABBREVIATION.findall(text)]:
            fields, cited = found.setdefault(name, (set(), set()))
            fields.update(FIELD.findall(body))
            cited.update(re.findall(r"\w+", body))
    return found


def has_field(text, field, defined):
    """Whether what a clause cites, itself or by what that cites, is a record with this field."""
    new, seen = set(re.findall(r"\w+", text)) & defined.keys(), set()
    while new:
        seen |= new
        if any(field in defined[it][0] for it in new):
            return True
        new = {by for it in new for by in defined[it][1] & defined.keys()} - seen
    return False


def says(function, clause, defined):
    """Whether the function has this clause, or this field of what a clause cites."""
    name, _, field = clause.partition(".")
    said = function.clauses.get(name)
    return said is not None and (not field or has_field(said, field, defined))


def rows(top):
    """The rows of all tables, each as the section that it stands in and its columns."""
    section = ""
    for line in (top / "docs" / "PROMISES.md").read_text().splitlines():
        if line.startswith("## "):
            section = line.removeprefix("## ")
        if line.startswith("| ") and not line.startswith("| Promise |"):
            yield section, [it.strip() for it in line.strip("|").split("|")]


def read_part(part):
    """The names of a part before its colon, and those behind it."""
    plain = NAME.sub(lambda found: found[0].replace(":", "."), part)
    at = plain.find(":") if ":" in plain else len(part)
    return NAME.findall(part[:at]), NAME.findall(part[at:])


def read_functions(cell, functions, defined):
    """Of each function that a row's second column names, the crate, the name, what is called so, and
    whether the row names a clause of it; and what the column names that is not there."""
    crates, found, missing = [], [], []
    for part in cell.split(";"):
        names, clauses = read_part(part)
        crates = [it for it in names if it in functions] or crates
        names = [it for it in names if it not in functions]
        for crate in crates:
            called = {name: [it for it in functions[crate] if it.is_called(name)] for name in names}
            found += [(crate, name, own, any(says(by, it, defined) for by in own for it in clauses))
                      for name, own in called.items() if own]
            missing += [f"{crate} {name}" for name, own in called.items() if not own]
            missing += [f"{crate} {it}" for it in clauses
                        if not any(says(by, it, defined) for own in called.values() for by in own)]
    return found, missing


def faults_of_row(section, promise, found, tests, refused):
    """What is wrong with how a row's promise is carried: by clauses, or by tests alone."""
    if section == ONLY_TESTED:
        if not tests:
            yield f"no test sees: {promise}"
        return
    if "only tested" in promise:
        yield f"this is only tested, and does not stand there: {promise}"
    if not found:
        yield f"no function is named of: {promise}"
    for crate, name, called, is_named in found:
        if not is_named and not any(it.ensures or it in refused for it in called):
            yield f"no clause of {crate} {name} carries: {promise}"


def is_promised(edit, functions, named, tests):
    """Whether a row names the function of a mistake, or the test that sees it."""
    if "test" in edit.head:
        return edit.head["test"].rpartition("::")[2] in tests
    ours = functions[edit.crate]
    near = [it for it in ours if it.file == edit.file]
    if "function" in edit.head:
        near, ours = ([it for it in by if it.is_printed(edit.head["function"])] for by in (near, ours))
    return not named.isdisjoint(near or ours)


def refused_in(edits, functions):
    """The functions with a planted mistake that a goal of theirs refuses."""
    return {by for it in edits if "function" in it.head for by in functions[it.crate]
            if by.file == it.file and by.is_printed(it.head["function"])}


def fault_of(edit):
    """What is wrong with the texts of an edit, or None."""
    try:
        edit.texts()
    except ValueError as wrong:
        return f"{edit.label}: {wrong}"
    return None


def public_bodies(crates, edits):
    """The public functions whose clauses say what they answer or leave, by crate and module, and
    whether a mistake is planted in each."""
    planted = [it for it in edits if it.kind == "planted"]
    changed = {(it.crate, it.file, (changed_body(*it.texts()) or [None])[0]) for it in planted}
    for crate, folder in crates.items():
        for path in sorted(folder.glob("src/**/*.rt")):
            file = str(path.relative_to(folder))
            for number, it in enumerate(BODY.finditer(path.read_text())):
                is_told = re.search(r"\bpub (?:const )?fn\b", it["head"]) and "ensures" in it["head"]
                if is_told and not NOTHING.fullmatch(it["body"]):
                    label = f"{crate} {path.stem}::{it['name']}"
                    yield label, (crate, file, number) in changed


def compared(top, one_body):
    """How many names and mistakes of this repository are right, and what is wrong with others. These
    of its public functions have no wrong body."""
    crates = {path.name: path for path in sorted(top.glob("crates/*"))}
    functions, defined = all_functions(crates), definitions(top)
    there = {it for path in top.glob("crates/*/src/**/*.rt") for it in TEST.findall(path.read_text())}
    there |= {it for path in top.glob("tests/*.sh") for it in TABLE.findall(path.read_text())}
    try:
        edits = all_edits(top)
    except ValueError as refused:
        return 0, str(refused).splitlines()
    wrong = [it for it in map(fault_of, edits) if it]
    if wrong:
        return 0, wrong
    refused = refused_in(edits, functions)
    named, tests, names = set(), set(), 0
    for section, row in rows(top):
        if len(row) != 3:
            wrong.append(f"a row has {len(row)} columns: {row[0]}")
            continue
        promise, functions_named, seen_by = row
        found, missing = read_functions(functions_named, functions, defined)
        of_tests = NAME.findall(seen_by)
        missing += [it for it in of_tests if it not in there and not (top / it).is_file()]
        named.update(it for _, _, called, _ in found for it in called)
        tests.update(of_tests)
        names += len(NAME.findall(functions_named)) + len(of_tests) - len(missing)
        wrong += [f"there is no {it}, of which a row speaks: {promise}" for it in missing]
        wrong += faults_of_row(section, promise, found, of_tests, refused)
    without = [it for it in edits if not is_promised(it, functions, named, tests)]
    wrong += [f"no row names what {it.label} is planted in" for it in without]
    bodies = [*public_bodies(crates, edits)]
    bare = {label for label, is_planted in bodies if not is_planted}
    wrong += [f"no mistake is planted in {it}" for it in sorted(bare - one_body)]
    wrong += [f"{it} is not a function without a planted mistake" for it in sorted(one_body - bare)]
    return names + len(edits) - len(without) + len(bodies) - len(bare - one_body), wrong


def faults_of_case(case):
    """What is wrong with what is found in a small repository with this one fault."""
    changes, wanted = CASES[case]
    with tempfile.TemporaryDirectory() as folder:
        write(Path(folder), changes)
        _, wrong = compared(Path(folder), set())
    if [it for it in wrong if not (wanted and it.startswith(wanted))] or bool(wrong) != bool(wanted):
        yield f"{case}: {wrong}"


def main():
    wrong = [it for case in CASES for it in faults_of_case(case)]
    cases = len(CASES) - len(wrong)
    passed, more = compared(TOP, ONE_BODY)
    wrong += more
    for line in wrong:
        print(f"promises: {line}")
    print(f"promises: {passed + cases} passed, {len(wrong)} failed")
    return not wrong


if __name__ == "__main__":
    sys.exit(0 if main() else 1)
