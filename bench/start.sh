#!/bin/bash
# What it takes to make a queue system and to close it again, with no call between: one of one
# thread, and one of 16 seats, at heights 6, 8 and 10: `bench/start.sh [ROUNDS]`. Instructions by
# callgrind; the time of the first one that a program makes, and of one more, as medians of rounds in
# which the sizes take turns; and the memory of the process while it is there, less what it has
# without one.
# Fails nothing. Requires valgrind, and for the times an idle machine.
set -euo pipefail
cd "$(dirname "$0")/.."
(cd crates/bench && rt run > /dev/null)
folder=$(mktemp -d)
trap 'rm -rf "$folder"' EXIT
python3 - "${1:-301}" "$folder" <<'PYTHON'
import os
import re
import statistics
import subprocess
import sys
import time

ROUNDS, FOLDER = int(sys.argv[1]), sys.argv[2]
OURS = ["crates/bench/out/bench", "start"]
SIZES = [(body, height) for body in ("one", "system") for height in (6, 8, 10)]
MORE = 100


def run(body, height, count, *words):
    line = subprocess.run([*OURS, body, str(height), str(count), *words], check=True,
                          capture_output=True, text=True).stdout
    assert line.endswith(f"{count} made\n"), line
    return line


def seconds(body, height, count):
    begin = time.perf_counter()
    run(body, height, count)
    return time.perf_counter() - begin


def microseconds():
    """The medians of each size for the first one, and for one more."""
    first, more = ({size: [] for size in SIZES} for _ in range(2))
    for turn in range(ROUNDS):
        for size in SIZES if turn % 2 == 0 else reversed(SIZES):
            none, one, many = (seconds(*size, count) for count in (0, 1, 1 + MORE))
            first[size].append((one - none) * 1e6)
            more[size].append((many - one) / MORE * 1e6)
    return {size: (statistics.median(first[size]), statistics.median(more[size]))
            for size in SIZES}


def instructions(body, height):
    """How many one more takes."""
    def counted(count):
        command = ["valgrind", "--tool=callgrind", f"--callgrind-out-file={FOLDER}/callgrind",
                   *OURS, body, str(height), str(count)]
        error = subprocess.run(command, check=True, capture_output=True, text=True).stderr
        return int(re.search(r"Collected : (\d+)", error).group(1))
    return (counted(11) - counted(1)) / 10


def kibibytes(body, height):
    """The memory of a process that holds one, but for what it maps of files, which swings; the
    median of some runs."""
    found = [int(re.search(r"^Anonymous: +(\d+) kB", run(body, height, 1, "memory"), re.M).group(1))
             for _ in range(9)]
    return statistics.median(found)


def main():
    print("load average at the start:", *(f"{load:.2f}" for load in os.getloadavg()))
    print(f"{'body':8}{'height':>6}{'instructions':>14}{'first us':>10}{'one more us':>13}"
          f"{'KiB':>7}")
    times, none = microseconds(), kibibytes("none", 0)
    for body, height in SIZES:
        first, more = times[body, height]
        print(f"{body:8}{height:6}{instructions(body, height):14,.0f}{first:10.0f}{more:13.0f}"
              f"{kibibytes(body, height) - none:7,.0f}", flush=True)


main()
PYTHON
