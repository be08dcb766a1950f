#!/usr/bin/env python3
"""Has a browser render what mqsim picture draws, and checks the marks in the rendered picture.

Five random scripts of one queue, in which one message is pending at a time. Chromium renders the
picture of each, 1,200 pixels wide. What is expected: the colour of a message's type stands from the
column of the line that sends it up to that of the line that receives it, or to the removal, and in
no column in between two messages; the colour of a refusal at the column of each line that is
refused, and nowhere else. Time runs from the first line to the last as the axis has it. Installs
Chromium from Debian's packages where it is not there and that can be done; where it cannot be had
each picture is left out, in a line of its own. Requires mqsim to be built. The last line counts.
"""
import os
import random
import shutil
import struct
import subprocess
import sys
import tempfile
import zlib
from pathlib import Path

TOP = Path(__file__).resolve().parent.parent
MQSIM = TOP / "crates" / "mqsim" / "out" / "mqsim"
BROWSER = "chromium"
SECONDS = 120
PICTURES = 5
LEFT, WIDTH, TOP_OF_BANDS = 152, 1024, 68
# The colours of the types 1 to 8, by eight, and of refusals.
COLOURS = ["999999", "56b4e9", "e69f00", "009e73", "cc79a7", "0072b2", "d55e00", "f0e442"]
REFUSED = "a8240f"
# How many pixels of its colour a column of a bar has at least, and one beside none.
THICK = 6


def install():
    """Installs the browser where it is not there, and says so where that cannot be done."""
    if shutil.which(BROWSER) or os.geteuid() or not shutil.which("apt-get"):
        return
    for words in (["update"], ["install", "-y", "--no-install-recommends", BROWSER]):
        environment = {**os.environ, "DEBIAN_FRONTEND": "noninteractive"}
        options = ["-o", "Acquire::Retries=1", "-o", "Acquire::http::Timeout=20"]
        subprocess.run(["timeout", "240", "apt-get", *options, *words], env=environment,
                       stdout=subprocess.DEVNULL, stderr=subprocess.DEVNULL)


def made(chance):
    """A script, its bars (type, first line, last line) and the lines that are refused."""
    lines, bars, refused, sent = ["get 1 c"], [], [], None
    for _ in range(chance.randrange(20, 60)):
        number = len(lines) + 1
        step = chance.randrange(4)
        if step == 0 and sent is None:
            sent = (chance.randrange(1, 9), number)
            lines.append(f"snd 0 {sent[0]} *{chance.randrange(200)}")
        elif step == 1 and sent is not None:
            bars.append((*sent, number))
            sent = None
            lines.append("rcv 0 200 0")
        elif step == 2 and sent is None:
            refused.append(number)
            lines.append("rcv 0 200 0")
        else:
            lines.append("# nothing")
    if sent is not None:
        bars.append((*sent, len(lines) + 1))
    lines.append("rm 0")
    return "\n".join(lines) + "\n", bars, refused, len(lines)


def rows_of(png):
    """The rows of a picture, each a list of colours as six hexadecimal digits."""
    at, packed = 8, b""
    while at < len(png):
        length, kind = struct.unpack(">I4s", png[at:at + 8])
        body = png[at + 8:at + 8 + length]
        if kind == b"IHDR":
            width, height, depth, colour = struct.unpack(">IIBB", body[:10])
            if depth != 8 or colour not in (2, 6):
                raise ValueError("another form of a picture")
            size = 3 if colour == 2 else 4
        elif kind == b"IDAT":
            packed += body
        at += 12 + length
    data, rows, above = zlib.decompress(packed), [], bytearray(width * size)
    for y in range(height):
        begin = y * (width * size + 1)
        row = unfiltered(data[begin], bytearray(data[begin + 1:begin + 1 + width * size]), above,
                         size)
        rows.append([row[i:i + 3].hex() for i in range(0, len(row), size)])
        above = row
    return rows


def unfiltered(kind, row, above, size):
    """A row by the row above it (PNG, 9.2)."""
    if kind == 2:
        return bytearray((a + b) & 255 for a, b in zip(row, above))
    for i in range(len(row) if kind else 0):
        left, corner = (row[i - size], above[i - size]) if i >= size else (0, 0)
        if kind == 1:
            guess = left
        elif kind == 3:
            guess = (left + above[i]) // 2
        else:
            near = left + above[i] - corner
            guess = min((left, above[i], corner), key=lambda it: abs(near - it))
        row[i] = (row[i] + guess) & 255
    return row


def rendered(folder, script):
    """The rows of the picture of a script, as the browser renders it."""
    drawn = subprocess.run([MQSIM, "picture"], input=script.encode(), capture_output=True,
                           timeout=SECONDS, check=True).stdout
    (folder / "run.svg").write_bytes(drawn)
    words = [BROWSER, "--headless", "--no-sandbox", "--disable-gpu", "--hide-scrollbars",
             "--window-size=1200,400", f"--screenshot={folder}/run.png",
             f"--user-data-dir={folder}/profile", f"file://{folder}/run.svg"]
    subprocess.run(words, capture_output=True, timeout=SECONDS, check=True)
    return rows_of((folder / "run.png").read_bytes())


def faults_of(rows, bars, refused, last):
    """What of these marks is not where it should be."""
    def column(line):
        return LEFT + (line - 1) * WIDTH // last

    def thickness(x, colour):
        return sum(row[x] == colour for row in rows[TOP_OF_BANDS:])

    faults, others = [], set(range(LEFT, LEFT + WIDTH))
    for mtype, first, until in bars:
        begin, end = column(first), column(until)
        others -= set(range(begin - 1, end + 2))
        for x in (begin + 1, (begin + end) // 2, end - 2):
            if thickness(x, COLOURS[mtype % 8]) < THICK:
                faults.append(f"type {mtype} of lines {first} to {until} is not at {x}")
    faults += [f"a message at {x}, where none waits" for x in others
               if any(thickness(x, it) >= THICK for it in COLOURS)]
    marked = {x for x in range(LEFT, LEFT + WIDTH) if thickness(x, REFUSED) >= THICK - 2}
    faults += [f"line {it} has no mark" for it in refused
               if not any(abs(column(it) - x) <= 3 for x in marked)]
    return faults + [f"a refusal is marked at {x}" for x in marked
                     if not any(abs(column(it) - x) <= 100 for it in refused)]


def main():
    passed = failed = 0
    install()
    if not shutil.which(BROWSER):
        print(f"render: CHROMIUM CANNOT BE HAD: {PICTURES} pictures are left out")
        print("render: 1 passed, 0 failed")
        return 0
    for seed in range(PICTURES):
        script, bars, refused, last = made(random.Random(seed))
        with tempfile.TemporaryDirectory() as folder:
            faults = faults_of(rendered(Path(folder), script), bars, refused, last)
        passed += not faults
        failed += bool(faults)
        for fault in faults[:5]:
            print(f"FAILED: picture {seed}: {fault}")
    print(f"render: {passed} passed, {failed} failed")
    return int(failed > 0)


sys.exit(main())
