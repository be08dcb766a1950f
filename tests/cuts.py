#!/usr/bin/env python3
"""Runs mqsim over serial scripts with `cut` lines at random places, and with a comment in the place
of each.

The scripts are all of serial_tables.sh and of tests/scripts, and 500 random ones. What is expected
of the two runs of each:
- every line that is no cut has the same answer, word for word, and both end in the same way;
- each cut of a slot begins where the cut of that slot before it ended, the first at entry 0;
- of a random script, all that script_model.py says that it writes.
Requires mqsim to be built. Prints the scripts that fail; the last line counts.
"""
import base64
import concurrent.futures
import os
import random
import re
import subprocess
import sys

sys.dont_write_bytecode = True
import script_model  # noqa: E402  (after the line that keeps Python from writing beside it)

TOP = os.path.dirname(os.path.dirname(os.path.abspath(__file__)))
PROGRAM = f"{TOP}/crates/mqsim/out/mqsim"
SECONDS = 60
RANDOM_SCRIPTS = 500
LEAST_STORED = 100
CUT = re.compile(rb"cut from (\d+) to (\d+)")

# Writes the words of each case of serial_tables.sh, a tab, and its script in base64.
STORED = r"""table() { :; }
case_of() { printf '%s\t%s\n' "$1" "$(printf "$2" | base64 -w 0)"; }
{ source tests/serial_tables.sh; } 2> /dev/null"""

# A cut that is well formed.
OWN_CUT = re.compile(rb"cut ([0-9]|[1-5][0-9]|6[0-3])\r?")


def stored_scripts():
    """The words and the script of each case, without its own cuts."""
    told = subprocess.run(["bash", "-c", STORED], cwd=TOP, capture_output=True, check=True,
                          timeout=SECONDS).stdout
    folder = f"{TOP}/tests/scripts"
    stored = []
    for case in told.decode().splitlines():
        words, script = case.split("\t")
        stored.append((words.split(), base64.b64decode(script)))
    for name in sorted(os.listdir(folder)):
        with open(f"{folder}/{name}", "rb") as script:
            stored.append(([], script.read()))
    for words, script in stored:
        yield words, b"\n".join(line for line in script.split(b"\n")
                                if not OWN_CUT.fullmatch(line))


def random_line(dice):
    """A line over the first queues of the first slots."""
    key, mtype = dice.randrange(-1, 3), dice.randrange(-3, 6)
    ident = dice.choice((0, 0, 0, 1, 2, 64, 65, 128))
    return dice.choice((
        f"get {key} c", f"get {key}", "get 0 c", f"get {key} cx", f"rm {ident}", f"stat {ident}",
        f"snd {ident} {abs(mtype)} ={'x' * dice.randrange(9)}",
        f"snd {ident} {abs(mtype) + 1} *{dice.randrange(3000)}",
        f"snd {ident} {abs(mtype) + 1} =text", f"rcv {ident} 9 {mtype}", f"rcv {ident} 9 0 n",
        f"rcv {ident} 5000 {mtype} e", f"set {ident} {dice.randrange(20000)}",
        f"seat {dice.randrange(1, 17)}", "ipcs", "ipcs -q", "ipcs -q x", "ipcs -l", "info", "arena",
        "# nothing said"))


def random_script(dice):
    lines = ["get 1 c", "get 0 c"] + [random_line(dice) for _ in range(dice.randrange(5, 60))]
    return "".join(f"{line}\n" for line in lines).encode()


def with_cuts(dice, script, slots):
    """The script with cuts at random places, and with a comment in the place of each."""
    lines = script.split(b"\n")
    cut, plain = [], []
    for line in lines:
        while dice.random() < 0.3:
            cut.append(b"cut %d" % dice.choice((0, 0, 0, dice.randrange(slots))))
            plain.append(b"#")
        cut.append(line)
        plain.append(line)
    return b"\n".join(cut), b"\n".join(plain)


def run(words, script):
    ended = subprocess.run([PROGRAM, *words], input=script, capture_output=True, timeout=SECONDS)
    return ended.stdout, ended.stderr, ended.returncode


def slots_cut(script, fault):
    """The slots of the cuts of a script, in their order, up to the line that its fault names."""
    named = re.match(rb"mqsim: line (\d+):", fault)
    lines = script_model.lines_of(script)[:int(named[1]) - 1 if named else None]
    return [int(line[4:]) for line in lines if re.fullmatch(rb"cut [0-9]+", line)]


def is_right(case):
    """Whether both runs of a case end as expected, and what is to be printed of it if not."""
    words, script, plain, of_model = case
    (told, fault, status), (wanted, *ended) = run(words, script), run(words, plain)
    lines = told.split(b"\n")
    cuts = [CUT.fullmatch(line) for line in lines if CUT.fullmatch(line)]
    others = b"\n".join(line for line in lines if not CUT.fullmatch(line))
    slots, ends = slots_cut(script, fault), {}
    chained = len(slots) == len(cuts)
    for slot, cut in zip(slots, cuts):
        first, end = int(cut[1]), int(cut[2])
        chained = chained and ends.get(slot, 0) == first <= end
        ends[slot] = end
    good = others == wanted and [fault, status] == ended and chained
    if of_model:
        good = good and (told, fault, status) == script_model.transcript(script)
    return good, f"{words} {script[:300]!r}: {told[:300]!r}, {fault!r}, {status}"


def main():
    seed = 20261125
    dice = random.Random(seed)
    cases = []
    for words, script in stored_scripts():
        slots = int(words[words.index("--slots") + 1]) if "--slots" in words else 16
        cases.append((words, *with_cuts(dice, script, slots), False))
    stored = len(cases)
    for _ in range(RANDOM_SCRIPTS):
        cases.append(([], *with_cuts(dice, random_script(dice), script_model.SLOTS), True))
    right = wrong = 0
    with concurrent.futures.ThreadPoolExecutor(len(os.sched_getaffinity(0))) as pool:
        for good, said in pool.map(is_right, cases):
            right += good
            wrong += not good
            if not good and wrong <= 5:
                print(f"cuts: {said[:900]}")
    if stored < LEAST_STORED:
        print(f"cuts: only {stored} stored scripts were read")
        wrong += 1
    print(f"cuts: {right} passed, {wrong} failed")
    return 1 if wrong else 0


if __name__ == "__main__":
    sys.exit(main())
