"""The edits of the crates' files: crates/NAME/planted.edits has a crate's mutants, and
must-not-compile.edits those that the compiler must refuse, in each file by name:

    == set_keeps_the_larger_quota
    function: QueueState::set
    file: src/change.rt
    old: a text of the file
    new: the text in its place

Behind its name, which no other has, an edit has lines `WORD: TEXT`: an `error`, a `function` or a
`test`, which must see it; a `goal`, or how many `threads` the test may have; the `file` below the
crate's folder; and pairs of `old` and `new`. Each old text stands once in the file as the pairs
before left it. Else: a ValueError."""
import itertools
import re
import sys
from collections import Counter

KINDS = ("planted", "must-not-compile")
# A function that has a body, in the layout of `rt fmt`: the body begins on a line that is as far in
# as the function's own, and ends with that line, or else with the next brace as far in.
FUNCTION = re.compile(
    r"""(?mx)^(?P<head>(?P<in>\ *)(?:pub(?:\(\w+\))?\ )?(?:const\ |extern\ "C"\ )?fn\ (?P<name>\w+)
    (?:.*?|(?:.*\n(?!.*\bfn\ \w))+?(?P=in)(?:[^\s{].*?)?))
    (?P<body>\{.*\}$|\{\n(?:.*\n)*?(?P=in)\}$)"""
)


class Edit:
    def __init__(self, path, name, text):
        self.folder, self.crate, self.kind = path.parent, path.parent.name, path.stem
        self.name, self.label = name, f"{self.crate}/{name}"
        lines = [it.partition(":") for it in text.splitlines() if it.strip()]
        words, texts = [it[0] for it in lines], [it[2].removeprefix(" ") for it in lines]
        count = words.index("old") if "old" in words else len(words)
        self.head, self.file = dict(zip(words[:count], texts)), texts[count - 1] if count else ""
        self.pairs = list(zip(texts[count::2], texts[count + 1 :: 2]))
        first, *more = words[:count] or [""]
        heads = (["file"], ["goal", "file"], ["threads", "file"])
        is_head = first in ("error", "function", "test") and more in heads
        is_right = is_head and words[count:] == ["old", "new"] * max(1, len(self.pairs))
        wrong = "it is empty" if not lines else "it is not written as an edit is"
        self.wrong = None if is_right and re.fullmatch(r"\w+", name) else wrong

    def texts(self):
        """The text of its file, and that with this edit."""
        if not (self.folder / self.file).is_file():
            raise ValueError(f"there is no file {self.file}")
        before = after = (self.folder / self.file).read_text()
        for old, new in self.pairs:
            if not old or after.count(old) != 1:
                raise ValueError(f"its text stands {after.count(old)} times in {self.file}: {old}")
            after = after.replace(old, new)
        return before, after


def edits_in(path):
    """The edits of a file; what is wrong with each is noted in it."""
    before, *parts = re.split(r"(?m)^==[ \t]*", path.read_text())
    if before.strip() or path.stem not in KINDS:
        raise ValueError(f"{path} is not one of {KINDS}, or begins with no line `== NAME`")
    names_and_texts = (it.partition("\n")[::2] for it in parts)
    edits = [Edit(path, name.rstrip(), text) for name, text in names_and_texts]
    for one, other in zip(edits, edits[1:]):
        if other.name < one.name:
            other.wrong = other.wrong or f"it stands behind {one.name}, and edits stand by name"
    return edits


def all_edits(top):
    """The edits of all crates, by crate, kind and name. A ValueError says what is wrong with any,
    but for the texts of its file."""
    edits = [it for path in sorted(top.glob("crates/*/*.edits")) for it in edits_in(path)]
    often = Counter(it.name for it in edits)
    wrong = [f"{it.label}: {it.wrong}" for it in edits if it.wrong]
    wrong += [f"{name}: {count} edits have this name" for name, count in often.items() if count > 1]
    # Those of must-fail the toolchain reads.
    lost = [it for it in top.glob("crates/*/*/*.edit") if it.parent.name != "must-fail"]
    wrong += [f"{it.relative_to(top)}: it belongs in {it.parent.name}.edits" for it in lost]
    if wrong:
        raise ValueError("\n".join(wrong))
    return edits


def edits_of(top, kind, crates=()):
    """The edits of this kind, of these crates or of all. Ends the program where any is wrong."""
    try:
        edits = all_edits(top)
    except ValueError as wrong:
        sys.exit(str(wrong))
    return [it for it in edits if it.kind == kind and (not crates or it.crate in crates)]


def tell(part, found, well, there):
    """Says by label why each edit failed, or, at None, that all is well; how many of those that are
    there were tried; and last the counts."""
    for label, wrong in sorted(found.items()):
        print(f"{label}: {f'FAILED: {wrong}' if wrong else well}")
    failed = sum(map(bool, found.values()))
    print(f"{part}: {sum(it in there for it in found)} of {len(there)} tried")
    print(f"{part}: {len(found) - failed} passed, {failed} failed")
    return failed


def changed_body(before, after):
    """Of the function whose body alone differs between two texts of a file, which one of the file
    it is, its name, and its body then; None where nothing differs, or anything else."""
    pairs = zip(FUNCTION.finditer(before), FUNCTION.finditer(after)) if before != after else ()
    for number, (old, new) in enumerate(pairs):
        same_head = before[: old.start("body")] == after[: new.start("body")]
        if same_head and before[old.end() :] == after[new.end() :]:
            return number, new["name"], new["body"]
    return None


def with_bodies(source, body):
    """A file's text where each function has the body that is made of its number and of itself."""
    numbers = itertools.count()
    return FUNCTION.sub(lambda it: it["head"] + body(next(numbers), it), source)
