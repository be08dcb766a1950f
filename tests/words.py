#!/usr/bin/env -S python3 -B
"""Checks that pages and comments speak the words of the field.

A term of the glossary's left column is a public name: of an item, a field or a definition. Those
that are not, and the everyday words of `EVERYDAY`, stand in at most 20 lines outside the glossary,
each of which `KEPT` has with its reason. Code in backquotes does not count, nor do code blocks.

The last line is 'words: N passed, M failed': the files, and what is wrong with them."""
import re
import subprocess
import sys
from pathlib import Path

TOP = Path(__file__).resolve().parent.parent
GLOSSARY = "docs/GLOSSARY.md"
MOST = 20

# Words for which the field has another.
EVERYDAY = {
    r"com(e|es|ing) home|came home|at home|strays?": "free, foreign",
    r"com(e|es|ing) (back|so far)|came": "return, arrive, register",
    r"look(s|ed|ing)?(?![- ]?ups?\b)": "poll, check, search",
    r"told|tell(s|ing)?": "report, print, prove, learn",
    r"(keep|keeps|kept) away": "back off",
    r"hand(s|ed|ing)? (out|back)": "return",
    r"wants?|wanted": "need, require",
    r"who waits|what waits|whoever|nobody": "waiter, pending messages, any thread, no thread",
    r"there and back": "round trip",
    r"go(es)? on|went on": "continue",
    r"cuts? off": "drain",
}

# What is left, by the file and words of its line, and why.
KEPT = {
    ("CONTRIBUTING.md", "## A planted mistake"): "the name of the files and of the command",
    ("docs/TESTING.md", "## Planted mistakes"): "the same",
    ("docs/MODEL.md", "Answer, Look, Texts"): "a module of specs/",
    ("docs/MODEL.md", "A **told** list"): "`ToldList`, which it explains",
    ("docs/MODEL.md", "A script of threads **wants**"): "a definition, which it explains",
}

# Where a line's comment begins, by the name's ending; of the rest all is read.
COMMENTS = {
    ".rt": r"//[/!]?", ".antt": r"--", ".py": r"#", ".sh": r"(^|\s)#", "": r"(^|\s)#",
    ".c": r"//|/\*|^ ?\*", ".h": r"//|/\*|^ ?\*",
}
PAGES = (".md", ".1", ".3")


def files():
    """The pages, and the sources whose comments are read."""
    for name in subprocess.check_output(["git", "ls-files"], cwd=TOP, text=True).split():
        path = TOP / name
        is_script = path.suffix == "" and name.startswith(".ci/")
        if (path.suffix in (*PAGES, *COMMENTS) and (path.suffix or is_script)
                and name not in (GLOSSARY, "tests/words.py")):
            yield name, path


def said(name, path):
    """The words of a file, line by line: of a source those of its comments and its docstrings."""
    is_code = is_doc = False
    for number, line in enumerate(path.read_text().splitlines(), 1):
        text = line
        if path.suffix == ".md":
            fences = line.lstrip().startswith("```")
            is_code ^= fences
            text = "" if is_code or fences else line
        elif path.suffix not in PAGES:
            found = re.search(COMMENTS[path.suffix], line)
            text = line[found.end():] if found else ""
            if path.suffix == ".py" or line.startswith('"""'):
                quotes = line.count('"""')
                text = line if is_doc or quotes else text
                is_doc ^= quotes == 1
        yield number, re.sub(r"`[^`]*`|\"[^\"]*\"", "", text)


def names():
    """All public names, as words that are joined."""
    found = set()
    for path in (TOP / "crates").glob("*/src/**/*.rt"):
        text = path.read_text()
        found |= set(re.findall(r"\bpub (?:const |unsafe )?(?:fn |struct |enum |trait |type |const )?(\w+)", text))
        found |= set(re.findall(r"^    (\w+)(?: \{|\(.*\),|,)$", text, re.M))
        found |= set(re.findall(r"^    (?:ghost|fn|type) (\w+)", text, re.M))
    for path in (TOP / "crates").glob("*/specs/**/*.antt"):
        found.add(path.stem)
        found |= set(re.findall(r"\bpub (?:record |abbrev |data )?(\S+?)\s*[:{(]", path.read_text()))
    return {it.replace("_", "").lower() for it in found}


def terms():
    """The words of the glossary's left column that are no public names."""
    known = names()
    for line in (TOP / GLOSSARY).read_text().splitlines():
        cells = line.split("|")
        if len(cells) < 3 or cells[1].strip() in ("Here", "") or set(cells[1]) <= set("-: "):
            continue
        words = re.split(r"[,;()]", cells[1].replace("`", ""))
        words = [it.strip() for it in words if it.strip()]
        # A row whose other words are names explains the one that is none by them.
        if not any(it.replace(" ", "").replace("_", "").lower() in known for it in words):
            yield from words


def main():
    searched = {rf"{re.escape(it)}s?": "the glossary" for it in terms()} | EVERYDAY
    pattern = re.compile("|".join(rf"\b(?:{it})\b" for it in searched), re.I)
    count, wrong, left = 0, [], {it: 0 for it in KEPT}
    for name, path in files():
        count += 1
        for number, text in said(name, path):
            found = pattern.search(text)
            if not found:
                continue
            key = next((it for it in KEPT if it[0] == name and it[1] in text), None)
            if key:
                left[key] += 1
            else:
                wrong.append(f"{name}:{number}: {found[0]!r}: {text.strip()}")
    wrong += [f"{name} no longer has {text!r}" for (name, text), lines in left.items() if not lines]
    if sum(left.values()) > MOST:
        wrong.append(f"{sum(left.values())} lines are kept, and {MOST} may be")
    for it in wrong:
        print("words:", it)
    print(f"words: {count} passed, {len(wrong)} failed")
    return bool(wrong)


if __name__ == "__main__":
    sys.exit(main())
