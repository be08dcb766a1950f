#!/bin/bash
# Counts the instructions and the atomic operations of a text of no bytes, by function:
# `bench/lines.sh [TEXTS] [PROGRAM WORD..]`, for one seat that sends and receives by turns, where the
# queue is a list; and for two threads through one queue, of which the first sends and the second
# receives, where that list is mostly long. A PROGRAM, as a peer, is counted in place of these; a word {}
# stands for the number of texts. A figure is the difference of two runs, by the texts that one makes
# more. An operation is atomic that locks its line; a load is a plain one, and a store that no load
# may pass is an exchange. Requires valgrind and objdump.
# Which cache lines bounce between processors `perf c2c` would report. Mostly a virtual machine
# counts no memory events, as those where this was written, so it is left out.
set -euo pipefail
cd "$(dirname "$0")/.."
[ $# -gt 1 ] || (cd crates/bench && rt run > /dev/null)
folder=$(mktemp -d)
trap 'rm -rf "$folder"' EXIT
python3 - "$folder" "${1:-2000}" "${@:2}" <<'PYTHON'
import collections
import functools
import glob
import re
import subprocess
import sys

FOLDER, TEXTS, PROGRAM = sys.argv[1], int(sys.argv[2]), sys.argv[3:]
BENCH = ["crates/bench/out/bench", "system"]
RUNS = {
    "one seat by turns": [*BENCH, "alone", "0", "{}", "2"],
    "two threads": [*BENCH, "flow", "0", "{}", "1", "1", "16384"],
}
# Functions of fewer instructions a text are summed up.
LEAST = 2
ATOMIC = re.compile(r"^ *([0-9a-f]+):\t(?:lock |xchg .*\()", re.MULTILINE)


@functools.cache
def atomic_in(program):
    """The addresses of a program's instructions that lock a line."""
    command = ["objdump", "-d", "--no-show-raw-insn", program]
    text = subprocess.run(command, capture_output=True, text=True).stdout
    return {int(address, 16) for address in ATOMIC.findall(text)}


def executed(path):
    """How many instructions a thread ran and how many of them lock a line, by function."""
    every, atomic = collections.Counter(), collections.Counter()
    names, name, program, at, is_call = {}, "", "", 0, False
    for line in open(path):
        if named := re.match(r"c?(fn|ob)=(\(\d+\))(?: (.*))?", line):
            kind, number, text = named.groups()
            names.setdefault((kind, number), text)
            if line.startswith("fn="):
                name = names[kind, number]
            elif line.startswith("ob="):
                program = names[kind, number]
        elif line.startswith("calls="):
            is_call = True
        elif cost := re.match(r"(0x[0-9a-f]+|[+-]\d+|\*) \S+ (\d+)", line):
            place, count = cost.groups()
            if place != "*":
                at = int(place, 16) if place.startswith("0x") else at + int(place)
            if not is_call:
                every[name] += int(count)
                atomic[name] += int(count) * (at in atomic_in(program))
            is_call = False
    return every, atomic


def profile(words, texts):
    """What each thread of a run executed, by the thread's number."""
    out = f"{FOLDER}/out.{texts}"
    command = ["valgrind", "--tool=callgrind", "--separate-threads=yes", "--dump-instr=yes",
               f"--callgrind-out-file={out}"]
    command += [word.replace("{}", str(texts)) for word in words]
    subprocess.run(command, check=True, capture_output=True)
    return {path[-2:]: executed(path) for path in glob.glob(f"{out}-*")}


def show(title, words):
    few, many = profile(words, TEXTS), profile(words, 6 * TEXTS)
    for thread in sorted(many):
        every, atomic = ({name: (more[name] - less[name]) / (5 * TEXTS) for name in more}
                         for more, less in zip(many[thread], few[thread]))
        if sum(every.values()) < LEAST:
            continue
        print(f"{title}, thread {thread}, of a text:\n{'instructions':>12}{'atomic':>8}")
        shown = sorted((name for name in every if every[name] >= LEAST), key=every.get, reverse=True)
        rest = [name for name in every if every[name] < LEAST]
        for names, text in [*(([name], name) for name in shown), (rest, "in all others"),
                            (every, "in all")]:
            print(f"{sum(every[it] for it in names):12.1f}{sum(atomic[it] for it in names):8.2f}  {text}")
    sys.stdout.flush()


for title, words in ({PROGRAM[0]: PROGRAM} if PROGRAM else RUNS).items():
    show(title, words)
PYTHON
