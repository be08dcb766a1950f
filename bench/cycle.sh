#!/bin/bash
# Counts and times one text that is drafted with its bytes, sent, received and spent, at height 10
# with nothing else allocated: `bench/cycle.sh [CYCLES] [ROUNDS] [PICTURE]`, at least 15 rounds.
# Instructions by callgrind, as the difference of two runs. Times as medians of rounds in which it
# and kernel_cycle, which sends and receives on a queue of the kernel, take turns; what a run of no
# cycles takes is left out. Fails where a length takes more instructions than its target, and where
# one of 65,536 bytes takes more than 0.35 of the kernel's time; the other times are printed beside
# the target ratio, and fail nothing.
# Raises the kernel's limits while it runs, where it may. With a PICTURE it writes what it found to
# the file of that name with .txt in place of .svg, and draws that by gnuplot.
# Requires valgrind and cc.
set -euo pipefail
cd "$(dirname "$0")/.."
(cd crates/bench && rt run > /dev/null)
. bench/kernel_limits.sh
folder=$(mktemp -d)
trap 'restore_limits; rm -rf "$folder"' EXIT
cc -O2 -Wall -Wextra -o "$folder/kernel_cycle" bench/kernel_cycle.c
raise_limits
PYTHONPATH=bench PYTHONDONTWRITEBYTECODE=1 python3 - "${1:-100000}" "${2:-15}" "$folder" \
    "${3:-}" <<'PYTHON'
import os
import re
import statistics
import subprocess
import sys
import time

import picture

CYCLES, ROUNDS, FOLDER, PICTURE = int(sys.argv[1]), int(sys.argv[2]), sys.argv[3], sys.argv[4]
OURS = ("crates/bench/out/bench", "cycle")
KERNELS = (f"{FOLDER}/kernel_cycle",)
LENGTHS = (0, *(2**k for k in range(4, 17)))
# The target instructions of a cycle, within 2 percent; and the greatest ratio to the kernel's time,
# of which the last one must be met.
COUNTED = {0: 274, 16: 716, 1024: 747, 8192: 2164}
WANTED = {0: 0.25, 16: 0.25, 1024: 0.25, 8192: 0.25, 65536: 0.35}
COLUMNS = ("bytes", "instructions", "ns", "kernel_ns", "kernel_calls")


def most_of_a_call():
    """The longest text that the kernel takes in one call."""
    with open("/proc/sys/kernel/msgmax") as file:
        return int(file.read())


def run(program, length, cycles):
    """Seconds of one run, whose answer is looked at."""
    most = [str(most_of_a_call())] if program == KERNELS else []
    begin = time.perf_counter()
    line = subprocess.run([*program, str(length), str(cycles), *most], check=True,
                          capture_output=True, text=True).stdout
    seconds = time.perf_counter() - begin
    assert line.startswith(f"{length * cycles} bytes came"), line
    return seconds


def counted(length, cycles):
    """How many instructions a run takes."""
    command = ["valgrind", "--tool=callgrind", f"--callgrind-out-file={FOLDER}/callgrind", *OURS,
               str(length), str(cycles)]
    error = subprocess.run(command, check=True, capture_output=True, text=True).stderr
    return int(re.search(r"Collected : (\d+)", error).group(1))


def instructions(length):
    few, many = 1000, 5000
    return (counted(length, many) - counted(length, few)) / (many - few)


def nanoseconds(length):
    """The medians of both programs for one cycle."""
    times = {OURS: [], KERNELS: []}
    for turn in range(ROUNDS):
        for program in (OURS, KERNELS) if turn % 2 == 0 else (KERNELS, OURS):
            empty = run(program, length, 0)
            times[program].append((run(program, length, CYCLES) - empty) / CYCLES * 1e9)
    return statistics.median(times[OURS]), statistics.median(times[KERNELS])


def row_of(length):
    """Measures a length, prints its row, and gives it with how many bounds are missed."""
    count, (ours, kernels) = instructions(length), nanoseconds(length)
    wanted, ratio = WANTED.get(length), ours / kernels
    over = length in COUNTED and count > 1.02 * COUNTED[length]
    slow = length == max(WANTED) and ratio > wanted
    print(f"{length:6}{count:14,.0f}{COUNTED.get(length, ''):>8}{ours:9.0f}{kernels:11.0f}"
          f"{ratio:7.2f}{wanted or '':>8}{'  over what is wanted' if over or slow else ''}",
          flush=True)
    calls = max(1, -(-length // most_of_a_call()))
    return (length, round(count), round(ours), round(kernels), calls), over + slow


def draw(rows):
    """Writes the rows to a file beside the picture, and draws it from there."""
    path = PICTURE.removesuffix(".svg") + ".txt"
    picture.write_table(path, COLUMNS, rows)
    found = [(row["bytes"], row["ns"], row["kernel_ns"]) for row in picture.read_table(path)]
    picture.steps(PICTURE, [("OneThread", 1), ("Linux", 3)], found, "bytes of a text",
                  "ns to send a text and receive it")


def main():
    if ROUNDS < 15:
        sys.exit("at least 15 rounds")
    print("load average at the start:", *(f"{load:.2f}" for load in os.getloadavg()))
    print(f"{'bytes':>6}{'instructions':>14}{'wanted':>8}{'ns':>9}{'kernel ns':>11}{'ratio':>7}"
          f"{'wanted':>8}")
    found = [row_of(length) for length in LENGTHS]
    if PICTURE:
        draw([row for row, _ in found])
    missed = sum(count for _, count in found)
    sys.exit(f"{missed} over what is wanted" if missed else 0)


main()
PYTHON
