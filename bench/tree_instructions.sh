#!/bin/bash
# Counts the instructions of one page allocated and freed, at heights 5 and 10, in an arena that is
# empty, half full, or full but for its last page: `bench/tree_instructions.sh`. Requires valgrind.
# A figure is the difference of two runs of the program, by the pairs that one makes more. Fails if
# a pair at height 10 takes more instructions than the target of its arena, or more than 2.5 times
# those at height 5.
set -euo pipefail
cd "$(dirname "$0")/.."
(cd crates/bench && rt run > /dev/null)
python3 - <<'PYTHON'
import re
import subprocess
import sys

PROGRAM = ["crates/bench/out/bench", "tree"]
FREE = {"empty": lambda pages: pages, "half": lambda pages: pages // 2, "last": lambda pages: 1}
WANTED = {"empty": 250, "half": 200, "last": 400}
FEW, MORE = 1000, 11000


def collected(height, state, pairs):
    command = ["valgrind", "--tool=callgrind", "--callgrind-out-file=/dev/null"]
    command += [*PROGRAM, str(height), str(pairs), state]
    run = subprocess.run(command, check=True, capture_output=True, text=True)
    expected = f"{pairs} of {pairs} pairs met, {FREE[state](2 ** height)} pages free\n"
    assert run.stdout == expected, run.stdout
    return int(re.search(r"Collected : (\d+)", run.stderr)[1])


def pair(height, state):
    more = collected(height, state, MORE) - collected(height, state, FEW)
    return more / (MORE - FEW)


missed = 0
print("arena      height 5  height 10  ratio")
for state in FREE:
    low, high = pair(5, state), pair(10, state)
    over = high > WANTED[state] or high > 2.5 * low
    missed += over
    print(f"{state:9}  {low:8.0f}  {high:9.0f}  {high / low:5.2f}{'  over' if over else ''}")
sys.exit("over what is wanted, or 2.5 times those at height 5" if missed else 0)
PYTHON
