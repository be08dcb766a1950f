#!/usr/bin/env python3
"""Draws the picture of docs/MAP.md out of crates.txt, or compares it with that: `tests/map.py --draw`
writes docs/pictures/crates.svg, and `tests/map.py` checks that the file is what would be written,
and that the page has a row for each crate that is no test.

A line goes down from a crate to each that it stands on, but for those that it reaches by way of
another.

Each crate of the picture has a README.md of at most 16 lines, the first its name. What `- Public:`
names is public in its sources, what `- Stands on:` names is in its line of crates.txt, and a block
of rust stands in a source of it word for word, where `// ..` stands for words without a brace. A
library has both, names that are public and a block. The last line counts.
"""
import re
import sys
from fnmatch import fnmatch
from pathlib import Path

TOP = Path(__file__).resolve().parent.parent
PICTURE, PAGE = TOP / "docs" / "pictures" / "crates.svg", TOP / "docs" / "MAP.md"
# In pixels: of a box, and from the middle of one to that of the next, across and down.
WIDTH, HEIGHT, ACROSS, DOWN = 112, 24, 136, 64
HEAD = """<svg xmlns="http://www.w3.org/2000/svg" width="{0}" height="{1}" viewBox="0 0 {0} {1}" \
font-family="sans-serif" font-size="13" text-anchor="middle">
<rect width="{0}" height="{1}" fill="white"/>
"""
LINE = '<line x1="{}" y1="{}" x2="{}" y2="{}" stroke="#555555"/>\n'
BOX = ('<rect x="{}" y="{}" width="{}" height="{}" rx="4" fill="#e8eef5" stroke="#1f5fa8"/>\n'
       '<text x="{}" y="{}">{}</text>\n')
# Of a README: the most lines, and where a name is public.
MOST_LINES = 16
PUBLIC = r'\bpub (?:extern "C" )?(?:const|enum|fn|mod|struct|trait|type) %s\b'


def libraries():
    """Each crate, with all that it stands on."""
    lines = re.findall(r"(?m)^(\w+)[^:#\n]*:(.*)", (TOP / "crates.txt").read_text())
    return {name: used.split() for name, used in lines}


def crates():
    """Each crate, with those of the repository that it stands on."""
    uses = libraries()
    return {name: [it for it in used if it in uses] for name, used in uses.items()}


def products():
    """The same crates, without tests and programs that measure."""
    return {name: used for name, used in crates().items()
            if not fnmatch(name, "*_tests") and not fnmatch(name, "bench*")}


def reached(uses, name):
    """The crates that one stands on, by way of others too."""
    return {*uses[name], *(it for other in uses[name] for it in reached(uses, other))}


def direct(uses):
    """The same crates, without those that are reached by way of another."""
    return {name: [it for it in used if not any(it in reached(uses, other) for other in used)]
            for name, used in uses.items()}


def depths(uses):
    """How far each crate lies below those that nothing stands on."""
    users = {name: [it for it in uses if name in uses[it]] for name in uses}

    def depth(name):
        return max((depth(it) + 1 for it in users[name]), default=0)

    return {name: depth(name) for name in uses}


def with_bends(uses):
    """The same crates, and where a line passes a row, a bend in its place: the crate that it leads
    to, and the row."""
    depth, bent = depths(uses), {name: [] for name in uses}
    for name, used in uses.items():
        for below in used:
            way = [name, *((below, name, at) for at in range(depth[name] + 1, depth[below])), below]
            for upper, lower in zip(way, way[1:]):
                bent.setdefault(upper, []).append(lower)
    return bent


def places(uses):
    """Where the middle of each box or bend is: in the row of its depth, each beside its
    neighbours."""
    depth = depths(uses)
    near = {name: used + [it for it in uses if name in uses[it]] for name, used in uses.items()}
    rows = [[it for it in uses if depth[it] == at] for at in range(max(depth.values()) + 1)]
    across = {name: at for row in rows for at, name in enumerate(row)}
    for _ in range(20):
        for row in rows:
            wanted = {name: sum(across[it] for it in near[name]) / len(near[name]) for name in row}
            row.sort(key=wanted.get)
            first = sum(wanted.values()) / len(row) - (len(row) - 1) / 2
            across.update({name: first + at for at, name in enumerate(row)})
    left = min(across.values())
    return {name: (round((across[name] - left + 0.5) * ACROSS), round((depth[name] + 0.5) * DOWN))
            for name in uses}


def drawn():
    """The picture."""
    shown = products()
    uses = with_bends(direct(shown))
    place = places(uses)
    text = HEAD.format(max(x for x, _ in place.values()) + ACROSS // 2,
                       max(y for _, y in place.values()) + DOWN // 2)
    for name, used in uses.items():
        x, y = place[name]
        for below in (place[it] for it in used):
            text += LINE.format(x, y, *below)
    for name in shown:
        x, y = place[name]
        text += BOX.format(x - WIDTH // 2, y - HEIGHT // 2, WIDTH, HEIGHT, x, y + 5, name)
    return text + "</svg>\n"


def stands_in(quote, sources):
    """Whether the words of a quote stand in one of these sources."""
    parts = [re.escape(" ".join(it.split())) for it in quote.split("// ..")]
    return any(re.search("[^{}]*?".join(parts), it) for it in sources)


def named(text, label):
    """What the line of a README with this label names."""
    return re.findall(r"`([\w:]+)`", "".join(re.findall(rf"(?m)^- {label}: .*", text)))


def faults_of(name, used):
    """What is wrong with the README of a crate, which stands on these."""
    folder = TOP / "crates" / name
    page = folder / "README.md"
    if not page.is_file():
        return ["is not there"]
    text = page.read_text()
    sources = [" ".join(it.read_text().split()) for it in folder.glob("src/**/*.rt")]
    public = [part for it in named(text, "Public") for part in it.split("::")]
    quotes = re.findall(r"(?ms)^```rust\n(.*?)^```$", text)
    faults = [] if text.startswith(f"# {name}\n") else ["does not begin with its name"]
    if text.count("\n") > MOST_LINES:
        faults.append(f"has more than {MOST_LINES} lines")
    if (folder / "src" / "lib.rt").is_file() and not (public and quotes):
        faults.append("names nothing that is public, or quotes nothing")
    faults += [f"names `{it}`, which is not public" for it in public
               if not any(re.search(PUBLIC % it, source) for source in sources)]
    faults += [f"names `{it}`, which crates.txt does not" for it in named(text, "Stands on")
               if it not in used]
    faults += [f"quotes what stands in no source: {it.strip().splitlines()[0]}" for it in quotes
               if not stands_in(it, sources)]
    return faults


def main():
    if sys.argv[1:] == ["--draw"]:
        PICTURE.write_text(drawn())
        return 0
    rows = re.findall(r"(?m)^\| (`.*?) \|", PAGE.read_text())
    patterns = [it for row in rows for it in re.findall(r"`([\w*]+)`", row)]
    wrong = [f"docs/MAP.md has no row of {name}" for name in crates()
             if not any(fnmatch(name, it) for it in patterns)]
    if not PICTURE.is_file() or PICTURE.read_text() != drawn():
        wrong.append("docs/pictures/crates.svg is not what crates.txt says: tests/map.py --draw")
    for name in products():
        if faults := faults_of(name, libraries()[name]):
            wrong.append(f"crates/{name}/README.md {'; '.join(faults)}")
    for fault in wrong:
        print(f"FAILED: {fault}")
    passed = len(crates()) + 1 + len(products()) - len(wrong)
    print(f"map: {passed} passed, {len(wrong)} failed")
    return len(wrong)


if __name__ == "__main__":
    sys.exit(1 if main() else 0)
