#!/bin/bash
# Times System: one text that a seat drafts, sends, receives and spends, among 2 seats and among 16,
# beside the same cycle of OneThread and of the kernel's queues; a round trip of one between two
# threads, each waiting for the other, beside two threads on the kernel's queues; and the figures
# that a seat asks for while 0, 2 and 8 others send and receive, beside IPC_STAT of a queue of the
# kernel: `bench/system.sh [CYCLES] [ROUNDS]`, at least 15 rounds. Medians of rounds in which the
# programs take turns; what a run of no cycles takes is left out. Each time is printed beside its
# target; the status is 1 where one is missed. Raises the kernel's limits while it runs, where it
# may. Requires cc, and an idle machine.
set -euo pipefail
cd "$(dirname "$0")/.."
(cd crates/bench && rt run > /dev/null)
. bench/kernel_limits.sh
folder=$(mktemp -d)
trap 'restore_limits; rm -rf "$folder"' EXIT
for program in kernel_cycle kernel_two kernel_stat; do
    cc -O2 -Wall -Wextra -pthread -o "$folder/$program" "bench/$program.c"
done
raise_limits
PYTHONPATH=bench PYTHONDONTWRITEBYTECODE=1 python3 - "${1:-100000}" "${2:-15}" "$folder" <<'PYTHON'
import sys

from timing import medians, most_of_a_call, say_load, seconds

CYCLES, ROUNDS, FOLDER = int(sys.argv[1]), int(sys.argv[2]), sys.argv[3]
BENCH = "crates/bench/out/bench"
# The greatest ratio to the kernel's time: of a text of 1,024 bytes by the number of seats, of a
# round trip, and of the figures.
OF_CYCLE, BACK, STAT = {2: 0.75, 16: 1.0}, 0.4, 0.1
MOST = most_of_a_call()


def nanoseconds(cycles, **commands):
    """The median of each command for one cycle, where a command is its words for a number of them."""
    def run(words):
        return lambda n: seconds(words(n), n)
    return medians({name: (cycles, run(words)) for name, words in commands.items()}, ROUNDS)


def cycles_of(size):
    """The median of a cycle among 2 seats, among 16, by OneThread, and by the kernel."""
    return nanoseconds(
        CYCLES,
        two=lambda n: [BENCH, "system", "alone", size, n, 2],
        sixteen=lambda n: [BENCH, "system", "alone", size, n, 16],
        one=lambda n: [BENCH, "cycle", size, n],
        kernel=lambda n: [f"{FOLDER}/kernel_cycle", size, n, MOST],
    )


def row(head, found, wanted):
    """Prints the row of a system beside the kernel; whether its ratio is missed."""
    of_kernel = found["ours"] / found["kernel"]
    print(f"{head:6}{found['ours']:11.0f}{found['kernel']:11.0f}{of_kernel:7.2f}{wanted or '':>8}",
          flush=True)
    return wanted is not None and of_kernel > wanted


def main():
    if ROUNDS < 15:
        sys.exit("at least 15 rounds")
    say_load()
    missed = 0
    print(f"{'bytes':>6}{'2 seats ns':>12}{'16 seats ns':>13}{'OneThread ns':>14}{'kernel ns':>11}"
          f"{'2 seats':>9}{'wanted':>8}{'16 seats':>10}{'wanted':>8}")
    for size in (0, 16, 1024, 8192, 65536):
        two, sixteen, one, kernel = cycles_of(size).values()
        wanted = OF_CYCLE if size == 1024 else {}
        ratios = {2: two / kernel, 16: sixteen / kernel}
        missed += sum(ratios[seats] > most for seats, most in wanted.items())
        print(f"{size:6}{two:12.0f}{sixteen:13.0f}{one:14.0f}{kernel:11.0f}"
              f"{ratios[2]:9.2f}{wanted.get(2, ''):>8}{ratios[16]:10.2f}{wanted.get(16, ''):>8}",
              flush=True)
    print(f"{'two':>6}{'System ns':>11}{'kernel ns':>11}{'ratio':>7}{'wanted':>8}")
    for size in (0, 8192, 65536):
        found = nanoseconds(CYCLES // 5, ours=lambda n: [BENCH, "system", "two", size, n],
                            kernel=lambda n: [f"{FOLDER}/kernel_two", size, n, MOST])
        missed += row(size, found, BACK if size <= 8192 else None)
    print(f"{'stat':>6}{'System ns':>11}{'kernel ns':>11}{'ratio':>7}{'wanted':>8}")
    for senders in (0, 2, 8):
        found = nanoseconds(CYCLES * 5, ours=lambda n: [BENCH, "stat", n, senders],
                            kernel=lambda n: [f"{FOLDER}/kernel_stat", n])
        missed += row(senders, found, STAT)
    sys.exit(f"{missed} missed" if missed else 0)


main()
PYTHON
