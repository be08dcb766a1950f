#!/bin/bash
# Times one empty message that is sent and received by its type behind others of as many types:
# `bench/waiting.sh [ROUNDS] [PICTURE]`, in the plain list, in the waiting list of a queue, and in one
# of the kernel's queues. Times are medians of rounds in which the three take turns; what a run of no
# pairs takes is left out. Fails where behind 15,999 messages the queue's list takes more than 0.02 of
# the kernel's time. Draws the picture by gnuplot; without a name it draws none. Requires cc.
set -euo pipefail
cd "$(dirname "$0")/.."
(cd crates/bench && rt run > /dev/null)
folder=$(mktemp -d)
trap 'rm -rf "$folder"' EXIT
cc -O2 -Wall -Wextra -o "$folder/kernel_waiting" bench/kernel_waiting.c
PYTHONPATH=bench PYTHONDONTWRITEBYTECODE=1 python3 - "${1:-15}" "${2:-}" "$folder" <<'PYTHON'
import os
import statistics
import subprocess
import sys
import time

import picture

ROUNDS, PICTURE, FOLDER = int(sys.argv[1]), sys.argv[2], sys.argv[3]
OURS = ["crates/bench/out/bench", "waiting"]
KERNELS = f"{FOLDER}/kernel_waiting"
WAITING = (1, 2, 4, 8, 16, 31, 33, 64, 128, 256, 512, 1024, 2048, 4096, 8192, 15999)
BODIES = ("list", "index", "kernel")
WANTED = 0.02


def command(body, waiting, pairs):
    if body == "kernel":
        return [KERNELS, str(waiting), str(pairs)]
    return [*OURS, body, str(waiting), str(waiting), "last", str(pairs)]


def run(body, waiting, pairs):
    """Seconds of one run, whose answer is looked at."""
    words = command(body, waiting, pairs)
    begin = time.perf_counter()
    line = subprocess.run(words, check=True, capture_output=True, text=True).stdout
    seconds = time.perf_counter() - begin
    came = int(line.split()[0])
    assert came == pairs, line
    return seconds


def nanoseconds(waiting):
    """The medians of the three for one pair."""
    pairs = {"list": max(1000, 40_000_000 // (waiting + 400)), "index": 100_000,
             "kernel": max(1000, 10_000_000 // (waiting + 400))}
    times = {body: [] for body in BODIES}
    for turn in range(ROUNDS):
        for i in range(len(BODIES)):
            body = BODIES[(turn + i) % len(BODIES)]
            empty = run(body, waiting, 0)
            times[body].append((run(body, waiting, pairs[body]) - empty) / pairs[body] * 1e9)
    return [statistics.median(times[body]) for body in BODIES]


def main():
    print("load average at the start:", *(f"{load:.2f}" for load in os.getloadavg()))
    print(f"{'waiting':>8}{'list ns':>10}{'index ns':>10}{'kernel ns':>11}{'index/kernel':>14}")
    rows = []
    for waiting in WAITING:
        rows.append(nanoseconds(waiting))
        list_, index, kernel = rows[-1]
        print(f"{waiting:8}{list_:10.0f}{index:10.0f}{kernel:11.0f}{index / kernel:14.4f}",
              flush=True)
    if PICTURE:
        names = ["the plain list", "the waiting list of a queue", "Linux"]
        picture.lines(PICTURE, names, [(it, *row) for it, row in zip(WAITING, rows)],
                      "messages that wait, each of another type",
                      "ns to send a message and receive it by its type")
    over = rows[-1][1] > WANTED * rows[-1][2]
    print(f"waiting: {int(over)} bounds missed")
    sys.exit(over)


main()
PYTHON
