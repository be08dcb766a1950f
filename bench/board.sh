#!/bin/bash
# Times what a board costs: `bench/board.sh [COUNT] [ROUNDS]`, at least 15 rounds.
# An event that is prepared and published, with 1, 2 and 16 readers, which is what a change costs
# more than without a board; a read that finds something new, and one that does not, beside IPC_STAT
# of a queue of the kernel. Times are medians of rounds in which the programs take turns; what a run
# of no events or reads takes is left out, and of a read that finds something new its two events. The
# times are printed beside their targets, and fail nothing.
# Fails where the memory of a board grows with the events: ten times as many may take 256 kB more.
# Requires cc and GNU time.
set -euo pipefail
cd "$(dirname "$0")/.."
(cd crates/bench && rt run > /dev/null)
folder=$(mktemp -d)
trap 'rm -rf "$folder"' EXIT
cc -O2 -Wall -Wextra -o "$folder/kernel_stat" bench/kernel_stat.c
python3 - "${1:-1000000}" "${2:-15}" "$folder" <<'PYTHON'
import os
import statistics
import subprocess
import sys
import time

COUNT, ROUNDS, FOLDER = int(sys.argv[1]), int(sys.argv[2]), sys.argv[3]
OURS = ["crates/bench/out/bench", "board"]
KERNELS = [f"{FOLDER}/kernel_stat"]
# The target of an event, in nanoseconds at most, by the number of readers.
EVENTS = {1: 85, 2: 85, 16: 85}
READ, NEWS, RATIO = 6, 85, 0.1
# The most kilobytes that ten times as many events may take more.
GROWTH = 256


def run(command, count):
    """Seconds of one run."""
    begin = time.perf_counter()
    subprocess.run([*command, str(count)], check=True, capture_output=True)
    return time.perf_counter() - begin


def nanoseconds(commands):
    """The median of each command for one event or read."""
    times = [[] for _ in commands]
    for turn in range(ROUNDS):
        places = range(len(commands)) if turn % 2 == 0 else reversed(range(len(commands)))
        for place in places:
            empty = run(commands[place], 0)
            times[place].append((run(commands[place], COUNT) - empty) / COUNT * 1e9)
    return [statistics.median(some) for some in times]


def kilobytes(readers, count):
    """The most memory that a run has. GNU time starts it, since what the kernel tells of a child of
    this process begins with the memory of this one."""
    command = ["/usr/bin/time", "-f", "%M", *OURS, "events", str(readers), str(count)]
    return int(subprocess.run(command, check=True, capture_output=True, text=True).stderr)


def main():
    if ROUNDS < 15:
        sys.exit("at least 15 rounds")
    print("load average at the start:", *(f"{load:.2f}" for load in os.getloadavg()))
    found = nanoseconds([[*OURS, "events", str(readers)] for readers in EVENTS])
    print(f"{'readers':>8}{'event ns':>10}{'wanted':>8}{'kB':>8}{'kB of 10 times as many':>24}")
    grown = 0
    for (readers, wanted), event in zip(EVENTS.items(), found):
        few, many = kilobytes(readers, COUNT // 10), kilobytes(readers, COUNT)
        grown += many > few + GROWTH
        print(f"{readers:8}{event:10.0f}{wanted:8}{few:8}{many:24}"
              f"{'  grows' if many > few + GROWTH else ''}")
    read, kernels, event, both = nanoseconds(
        [[*OURS, "reads", "2"], KERNELS, [*OURS, "events", "2"], [*OURS, "news", "2"]])
    print(f"a read with nothing new {read:.1f} ns (wanted {READ}), with news {2 * (both - event):.0f} "
          f"ns (wanted {NEWS}), IPC_STAT of the kernel {kernels:.0f} ns, ratio {read / kernels:.3f} "
          f"(wanted {RATIO})")
    sys.exit(f"the memory of {grown} boards grows" if grown else 0)


main()
PYTHON
