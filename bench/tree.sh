#!/bin/bash
# Times lend and give (allocate and free) of one page in a half full arena, at heights 2 to 10:
# `bench/tree.sh [PAIRS] [ROUNDS]`.
# The heights take turns within a round; the table has the median of the rounds. Fails if a pair at
# height 10 takes more than 2.5 times as long as one at height 5.
set -euo pipefail
cd "$(dirname "$0")/.."
(cd crates/bench && rt run > /dev/null)
python3 - "${1:-2000000}" "${2:-7}" <<'PYTHON'
import statistics
import subprocess
import sys
import time

pairs, rounds = int(sys.argv[1]), int(sys.argv[2])
heights = range(2, 11)
times = {height: [] for height in heights}
for _ in range(rounds):
    for height in heights:
        command = ["crates/bench/out/bench", "tree", str(height), str(pairs)]
        begin = time.perf_counter()
        line = subprocess.run(command, check=True, capture_output=True, text=True).stdout
        times[height].append(time.perf_counter() - begin)
        expected = f"{pairs} of {pairs} pairs met, {2 ** (height - 1)} pages free\n"
        assert line == expected, line
medians = {height: statistics.median(times[height]) / pairs * 1e9 for height in heights}
print("height  ns a pair")
for height in heights:
    print(f"{height:6}  {medians[height]:9.1f}")
ratio = medians[10] / medians[5]
print(f"height 10 to height 5: {ratio:.2f}")
sys.exit(0 if ratio <= 2.5 else "over 2.5")
PYTHON
