#!/bin/bash
# Counts the instructions of one message that is sent and one that is received behind other pending
# messages, in the waiting list of a queue: `bench/index.sh`. By callgrind, as the difference of two
# runs. Few messages are in a list: fails where the pair behind 8 or fewer takes more than 30 beside
# the plain list's, 24 of which branch on the form. Many are in layers: fails where the pair behind
# 16,000 messages of 1, of 100 and of 16,000 types takes more than three times the one behind 33
# messages, the first number of which none is kept in a small list, and where that behind 16,000 of
# 1 type takes more than twice the plain list's behind none. Beside them it prints how many times
# that is. Requires valgrind.
set -euo pipefail
cd "$(dirname "$0")/.."
(cd crates/bench && rt run > /dev/null)
folder=$(mktemp -d)
trap 'rm -rf "$folder"' EXIT
python3 - "$folder" <<'PYTHON'
import re
import subprocess
import sys

FOLDER = sys.argv[1]
PROGRAM = ["crates/bench/out/bench", "waiting"]
SELECTIONS = ("any", "exact", "except", "upto")
MANY = 16000
TYPES = (1, 100, MANY)
FEW = (0, 1, 2, 4, 8)
# The first number of messages behind which the pair's own makes more than are kept in a small list.
IN_LAYERS = 33
# How many more than the list's instructions those behind few may be.
BESIDE_A_LIST = 30
# How many times the instructions behind the first of many those behind 16,000 may be.
MOST = 3
# How many times the list's instructions behind none those behind 16,000 of one type may be.
OF_ONE_TYPE = 2


def counted(body, waiting, types, selection, pairs):
    """How many instructions a run takes."""
    command = ["valgrind", "--tool=callgrind", f"--callgrind-out-file={FOLDER}/callgrind", *PROGRAM,
               body, str(waiting), str(types), selection, str(pairs)]
    run = subprocess.run(command, check=True, capture_output=True, text=True)
    return int(re.search(r"Collected : (\d+)", run.stderr).group(1))


def instructions(body, waiting, types, selection):
    """The instructions of a pair."""
    few, many = 1000, 5000
    difference = (counted(body, waiting, types, selection, many)
                  - counted(body, waiting, types, selection, few))
    return difference / (many - few)


missed = 0
for waiting in FEW:
    for selection in SELECTIONS:
        list_, index = (instructions(body, waiting, 1, selection) for body in ("list", "index"))
        over = index > BESIDE_A_LIST + list_
        missed += over
        print(f"{selection}, behind {waiting} of 1 type: list {list_:.0f}, index {index:.0f}, "
              f"{index / list_:.2f} times{' MISSED' if over else ''}", flush=True)
none = instructions("list", 0, 1, "any")
for selection in SELECTIONS:
    for types in TYPES:
        first = instructions("index", IN_LAYERS, types, selection)
        behind = instructions("index", MANY, types, selection)
        over = behind > MOST * first or types == 1 and behind > OF_ONE_TYPE * none
        missed += over
        print(f"{selection}, {types} types: {first:.0f} behind {IN_LAYERS}, {behind:.0f} behind {MANY}, "
              f"{behind / first:.2f} times{' MISSED' if over else ''}; {behind / none:.1f} times the "
              f"list's {none:.0f} behind none", flush=True)
print(f"index: {missed} bounds missed")
sys.exit(missed > 0)
PYTHON
