#!/usr/bin/env -S python3 -B
"""Reads pictures of runs, SVG files or standard input, and prints what is wrong with them.

    tests/picture.py [FILE ..]

Each is well-formed XML, 1,200 pixels wide, with a title, styles for light and dark, and no script,
link or font from outside; all is drawn within its edges, no text is smaller than 10 pixels, each
mark has a title, and the bars of a lane do not overlap."""
import re
import sys
import xml.etree.ElementTree as tree

SVG = "{http://www.w3.org/2000/svg}"
NUMBER = re.compile(r"-?\d+(?:\.\d+)?")
BAR = re.compile(r"M(\d+) (\d+)h(\d+)v(\d+)h-(\d+)z")
ELEMENTS = {"svg", "title", "style", "rect", "text", "path", "g"}
# How large a picture of 10,000 entries may be.
LIMIT = 1_000_000


def faults_of_elements(root):
    for element in root.iter():
        name = element.tag.removeprefix(SVG)
        if name not in ELEMENTS:
            yield f"an element {name}"
        for key, value in element.attrib.items():
            if key.startswith("on") or "href" in key or "url(" in value:
                yield f"an attribute {key}={value}"
    style = "".join(element.text or "" for element in root.iter(SVG + "style"))
    if "prefers-color-scheme:dark" not in style or "@import" in style or "url(" in style:
        yield "its style"
    sizes = [float(size) for size in re.findall(r"(\d+(?:\.\d+)?)px", style)]
    if min(sizes, default=0) < 10:
        yield "a text smaller than 10 pixels"


def faults_of_places(root, height):
    for element in root.iter():
        x = element.get("x")
        if x and not 0 <= float(x) <= 1200:
            yield f"x={x}"
        for number in re.findall(r"[MH](\d+)", element.get("d", "")):
            if not 0 <= int(number) <= 1200:
                yield f"a path at {number}"
    for group in root.iter(SVG + "g"):
        top = int(NUMBER.findall(group.get("transform"))[1])
        if not 0 <= top <= height:
            yield f"a band at {top}"


def faults_of_bars(band):
    ends = {}
    for path in band.iter(SVG + "path"):
        title = path.find(SVG + "title")
        bar = BAR.fullmatch(path.get("d"))
        if title is None and path.get("class") not in ("q", "s"):
            yield f"a mark with no title: {path.get('d')}"
        if not bar:
            continue
        x, y, width = (int(part) for part in bar.groups()[:3])
        # (bars narrower than a column have the column's width)
        if x + 1 < ends.get(y, 0):
            yield f"bars that overlap at {x}"
        ends[y] = x + width
        if not re.match(r"type -?\d+, \d+ bytes?, tag \d+, from seat |\d+ messages$", title.text):
            yield f"a title {title.text}"


def faults_of(text):
    root = tree.fromstring(text)
    height = int(root.get("height"))
    if root.get("width") != "1200" or root.get("viewBox") != f"0 0 1200 {height}":
        yield "its size"
    title = root.find(SVG + "title")
    if not re.fullmatch(r"\d+ queues?, \d+ messages?, \d+ refusals?", title.text):
        yield f"its title {title.text}"
    if len(text) > LIMIT:
        yield f"{len(text)} bytes"
    yield from faults_of_elements(root)
    yield from faults_of_places(root, height)
    for band in root.iter(SVG + "g"):
        yield from faults_of_bars(band)


def main():
    names = sys.argv[1:] or ["/dev/stdin"]
    wrong = 0
    for name in names:
        with open(name, "rb") as file:
            for fault in faults_of(file.read()):
                print(f"{name}: {fault}")
                wrong += 1
    print(f"{len(names)} pictures, {wrong} faults")
    sys.exit(min(wrong, 1))


main()
