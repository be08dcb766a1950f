#!/bin/bash
# The cost of a cut of a log, by the entries since the cut before and by the pending messages, and
# whether a long run with cuts stays in its memory: `bench/cut.sh [ROUNDS]`. Time of a cut is that of
# a run with cuts less that of the same run without, where the entries are few, as a median of rounds
# in which both take turns; instructions by callgrind. The long run sends and receives 10 million
# texts and cuts after each 100,000 entries.
# Fails nothing. Requires valgrind, and for the times an idle machine.
set -euo pipefail
cd "$(dirname "$0")/.."
(cd crates/bench && rt run > /dev/null)
folder=$(mktemp -d)
trap 'rm -rf "$folder"' EXIT
python3 - "${1:-21}" "$folder" <<'PYTHON'
import os
import re
import statistics
import subprocess
import sys
import time

ROUNDS, FOLDER = int(sys.argv[1]), sys.argv[2]
OURS = ["crates/bench/out/bench", "cycle", "16"]
SIZES = [(entries, waiting) for entries in (0, 1_000, 100_000) for waiting in (0, 1_000)]


def run(*words):
    subprocess.run([*OURS, *map(str, words)], check=True, stdout=subprocess.DEVNULL)


def seconds(*words):
    begin = time.perf_counter()
    run(*words)
    return time.perf_counter() - begin


def instructions(*words):
    out = f"{FOLDER}/callgrind"
    done = subprocess.run(["valgrind", "--tool=callgrind", f"--callgrind-out-file={out}", *OURS,
                           *map(str, words)], check=True, capture_output=True, text=True)
    return int(re.search(r"Collected : (\d+)", done.stderr)[1])


print("entries waiting: ns a cut, instructions a cut")
for entries, waiting in SIZES:
    cuts = max(20, 2_000_000 // max(entries, 1_000))
    differences = []
    for _ in range(ROUNDS):
        with_cuts = seconds(entries // 2, waiting, cuts, 1)
        without = seconds(entries // 2, waiting, cuts, 0)
        differences.append((with_cuts - without) / cuts * 1e9)
    few = 4
    count = lambda rounds, cuts: instructions(entries // 2, waiting, rounds, cuts)
    counted = (count(2 * few, 1) - count(few, 1) - count(2 * few, 0) + count(few, 0)) / few
    print(f"{entries:7,} {waiting:5,}: {statistics.median(differences):12,.0f} {counted:12,.0f}")

process = subprocess.Popen([*OURS, "50000", "0", "200", "1"], stdout=subprocess.DEVNULL)
seen = []
while process.poll() is None:
    try:
        with open(f"/proc/{process.pid}/statm") as file:
            seen.append(int(file.read().split()[1]) * os.sysconf("SC_PAGE_SIZE") / 2**20)
    except (OSError, IndexError):
        pass
    time.sleep(0.05)
tenth = max(1, len(seen) // 10)
print(f"10,000,000 texts with cuts: at most {max(seen):.1f} MiB of resident memory; in the first "
      f"tenth {max(seen[:tenth]):.1f}, in the last {max(seen[-tenth:]):.1f}")
PYTHON
