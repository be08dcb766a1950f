#!/bin/bash
# Times threads that pass texts through queues, by the library alone, beside the kernel's queues and a
# mutex with two condition variables over a ring of heap buffers: `bench/threads.sh [TEXTS] [ROUNDS]
# [PICTURE]`, at least 9 rounds. Rows: so many that send and so many that receive through one queue;
# threads each of which sends and receives by turns in a queue of its own; one that sends to four by
# types of their own; two with one text in a round trip; and 16 threads in one queue. In rows
# `by 16` one call of the library sends, or receives, up to 16 texts, beside the others' times by calls
# of one. The library retains its logs, as by default, and in the column `cut` cuts each after 4,000
# entries, as a server that runs long does. Where they can, `mqsim threads`, a bounded channel of
# Rust's standard library and crossbeam_channel are timed beside them. A queue has the quota 16,384, or
# twice a longer text. Medians of rounds in each of which all programs do all rows; what a run of no
# texts takes is left out. The library's ratios are printed beside their targets, with ! where one is
# missed, and the status is 1 where one with retained logs is. Draws the picture by gnuplot; without a
# name it draws none. Raises the kernel's limits while it runs, where it may.
# Times mqsim and bench as they lie in crates/*/out, and builds one that does not. Requires cc,
# rustc, and an idle machine.
set -euo pipefail
cd "$(dirname "$0")/.."
for program in mqsim bench; do
    [ -x "crates/$program/out/$program" ] \
        || (cd "crates/$program" && rt run < /dev/null > /dev/null)
done
. bench/kernel_limits.sh
folder=$(mktemp -d)
trap 'restore_limits; rm -rf "$folder"' EXIT
cc -O2 -Wall -Wextra -pthread -o "$folder/peer_threads" bench/peer_threads.c
rustc -O -o "$folder/peer_channel" bench/peer_channel.rs
raise_limits
PYTHONPATH=bench PYTHONDONTWRITEBYTECODE=1 python3 - "${1:-40000}" "${2:-9}" "$folder" \
    "${3:-}" <<'PYTHON'
import sys
from typing import NamedTuple

import picture
from timing import medians, most_of_a_call, ratio, say_load, seconds

TEXTS, ROUNDS, FOLDER, PICTURE = int(sys.argv[1]), int(sys.argv[2]), sys.argv[3], sys.argv[4]
BENCH, MQSIM = "crates/bench/out/bench", "crates/mqsim/out/mqsim"
PROGRAMS = {"mqsim": "mqsim", "library": "library", "cut": "library, logs cut", "kernel": "Linux",
            "mutex": "a mutex and a ring", "channel": "a channel of Rust",
            "crossbeam": "a channel of crossbeam"}
OURS, PEERS = ("library", "cut"), ("kernel", "mutex")
# After how many entries a log is cut.
ENTRIES = 4000
MOST = most_of_a_call()
MOST_A_LINE = 100_000
# The most of a peer's time by the bytes of a text: of the kernel's through one queue, and of a ring's.
# 16 threads are more than there are processors.
ONE_QUEUE = {0: 0.9, 1000: 0.9, 8192: 0.8, 65536: 0.6}
OWN_QUEUES, BACK, MANY_THREADS = 0.8, 0.35, 1.0
OF_RING = {0: 2.0, 8192: 1.0, 65536: 1.0}
# How many texts a call of several has, and the most of a peer's time by calls of one: through one
# queue of the kernel's and of a ring's, and of a ring's by a thread alone.
EACH = 16
BY_BATCHES, BY_BATCHES_OF_RING, ALONE_OF_RING = 0.35, {1000: 1.0}, 3.0
# How many times the texts a second of one own queue four must make.
FOUR_QUEUES = 3.0


class Row(NamedTuple):
    """Threads that do what a word of `bench system` says, with texts of one length, of which a count
    is so many in all; by calls of several where `one` is the same row by calls of one."""
    head: str
    word: str
    senders: int
    receivers: int
    length: int
    count: int
    texts: int
    of_kernel: float | None
    of_ring: float | None = None
    one: "Row | None" = None

    def quota(self):
        return max(16384, 2 * self.length)

    def words(self, count):
        return [self.word, self.length, count, self.senders, self.receivers, self.quota()]


def rows():
    def flow(side, length, wanted):
        return Row(f"{side}x{side}", "flow", side, side, length, TEXTS // side, side, wanted)

    def by_batches(one, of_kernel, of_ring):
        return one._replace(head=f"{one.head} by {EACH}", of_kernel=of_kernel, of_ring=of_ring,
                            one=one)

    made = [flow(side, *it) for side in (1, 2, 4) for it in ONE_QUEUE.items()]
    made += [flow(8, length, MANY_THREADS) for length in (0, 1000)]
    made += [Row("1x4 by types", "types", 1, 4, length, TEXTS // 4, 4, ONE_QUEUE[length])
             for length in (0, 1000)]
    made += [Row(f"own queues {threads}", "own", threads, threads, length, 4 * TEXTS, threads,
                 OWN_QUEUES)
             for threads in (1, 2, 4) for length in (0, 1000)]
    made += [Row("back", "two", 1, 1, length, TEXTS // 10, 1, BACK) for length in (0, 1000, 8192)]
    made = [row._replace(of_ring=OF_RING.get(row.length)) for row in made]
    short = [row for row in made if row.length in (0, 1000)]
    made += [by_batches(row, BY_BATCHES, BY_BATCHES_OF_RING.get(row.length))
             for row in short if row.word == "flow" and row.senders <= 4]
    made += [by_batches(row, None, ALONE_OF_RING if row.senders == 1 else None)
             for row in short if row.word == "own" and row.senders != 2]
    return made


def lines(word, count, length=None):
    """The lines of a section that put or take so many texts."""
    made = []
    while count > 0:
        some = min(count, MOST_A_LINE)
        made.append(f"{word} {some}" if length is None else f"{word} {some} {length}")
        count -= some
    return made


def script(row, count):
    """What `mqsim threads` reads for a row."""
    if row.word == "two":
        here = ["worker"] + [f"put 0 1 1 {row.length}", "take 1 0 1"] * count
        there = ["worker"] + ["take 0 0 1", f"put 1 1 1 {row.length}"] * count
        return "\n".join(["get 0 c", "get 0 c", *here, *there]) + "\n"
    puts = ["worker", *lines("put 0 1", count, row.length)] * row.senders
    takes = ["worker", *lines("take 0 0", count)] * row.receivers
    return "\n".join(["get 0 c", f"set 0 {row.quota()}", *puts, *takes]) + "\n"


def run_of(name, row, count):
    """The seconds of a run of so many texts."""
    words = row.words(count)
    if name == "mqsim":
        return seconds([MQSIM, "threads", "--height", "10"], script=script(row, count))
    library = [BENCH, "batches", *words, EACH] if row.one else [BENCH, "system", *words]
    command = {
        "library": library,
        "cut": [*library, ENTRIES],
        "kernel": [f"{FOLDER}/peer_threads", "kernel", *words, MOST],
        "mutex": [f"{FOLDER}/peer_threads", "mutex", *words],
        "channel": [f"{FOLDER}/peer_channel", *words],
        "crossbeam": [BENCH, "channel", *words],
    }[name]
    return seconds(command, count)


def names_of(row):
    """The programs that do a row: `mqsim` has at most 15 workers, and a channel no types. No other
    than the library has calls of several."""
    if row.one:
        return [*OURS]
    return list(PROGRAMS) if row.word in ("flow", "two") and row.senders <= 4 else [*OURS, *PEERS]


def measured(all_rows):
    """The nanoseconds of each row's programs for one text, at least one."""
    runs = {(row, name): (row.count, lambda count, row=row, name=name: run_of(name, row, count))
            for row in all_rows for name in names_of(row)}
    found = medians(runs, ROUNDS)
    times = {row: {name: max(1, found[row, name] / row.texts) for name in names_of(row)}
             for row in all_rows}
    return {row: {**times.get(row.one, {}), **times[row]} for row in all_rows}


def show(row, found):
    """Prints a row; how many of its ratios with retained logs are missed."""
    head = f"{row.head}, {row.length}"
    wanted = (row.of_kernel, row.of_ring)
    cells = {name: [ratio(found[name] / found[peer], most) for peer, most in zip(PEERS, wanted)]
             for name in OURS}
    print(f"{head:25}" + "".join(f"{found[name]:10.0f}" if name in found else f"{'-':>10}"
                                 for name in PROGRAMS)
          + "".join(f"  {text:17}" for name in OURS for text, _ in cells[name]), flush=True)
    return sum(is_missed for _, is_missed in cells["library"])


def show_growth(found):
    """Prints how many texts a second four own queues make beside one; how many ratios are missed."""
    missed = 0
    a_second = {(row.senders, row.length): 1e9 / times["library"]
                for row, times in found.items() if row.word == "own" and not row.one}
    for length in (0, 1000):
        one, four = a_second[1, length], a_second[4, length]
        text, is_missed = ratio(four / one, FOUR_QUEUES, least=True)
        print(f"texts a second of {length} bytes in own queues: one {one:,.0f}, four {four:,.0f},{text}")
        missed += is_missed
    return missed


def main():
    if ROUNDS < 9:
        sys.exit("at least 9 rounds")
    say_load("nanoseconds a text, and the library's ratios (wanted)")
    found = measured(rows())
    print(f"{'':25}" + "".join(f"{name:>10}" for name in PROGRAMS)
          + "".join(f"  {f'{name} of {peer}':17}" for name in OURS for peer in PEERS))
    missed = sum(show(row, times) for row, times in found.items()) + show_growth(found)
    if PICTURE:
        several = {row.one: times["library"] for row, times in found.items() if row.one}
        drawn = [name for name in PROGRAMS if name != "cut"]
        picture.bars(PICTURE, [*(PROGRAMS[name] for name in drawn), f"library, {EACH} by a call"],
                     [(f"{row.head}, {row.length} bytes", *(times[name] for name in drawn),
                       several.get(row))
                      for row, times in found.items() if len(times) == len(PROGRAMS)
                      and not row.one],
                     "nanoseconds a text")
    sys.exit(f"{missed} missed" if missed else 0)


main()
PYTHON
