#!/bin/bash
# Times threads that pass texts through the queues of the C library of face/, beside the kernel's:
# `bench/face_threads.sh [TEXTS] [ROUNDS] [PICTURE] [OTHER]`, at least 5 rounds. Rows: so many that
# send and so many that receive through one queue; four threads each of which sends and receives by
# turns in a queue of its own; two with one text in a round trip; one thread alone; and a
# thousand waiters in one queue, each for a type of its own, to which another sends. A queue has
# the quota 131,072, or as much as the kernel gives. OTHER is a libcivdrax.a of another commit,
# timed beside them. Medians of rounds in which they take turns; what a run of no texts takes is
# left out. The library's ratios are printed beside their targets, with ! where one is missed, and
# the status is 1 then. Draws the picture by gnuplot; without a name it draws none. Raises the
# kernel's limits while it runs, where it may. Times the library as it lies in face/out, and builds
# it where it is not there. Requires cc, and an idle machine.
set -euo pipefail
cd "$(dirname "$0")/.."
[ -e face/out/libcivdrax.a ] || make -s -C face > /dev/null
. bench/kernel_limits.sh
folder=$(mktemp -d)
trap 'restore_limits; rm -rf "$folder"' EXIT
# Both programs with the calls of the kernel, and with those of the library $2.
build() {
    cc -O2 -Wall -Wextra -o "$folder/$1" bench/peer_threads.c "${@:2}" -pthread
    cc -O2 -Wall -Wextra -o "$folder/$1-waiters" bench/peer_waiters.c "${@:2}" -pthread
}
over() {
    build "$1" -include face/civdrax.h -Dmsgget=civdrax_msgget -Dmsgsnd=civdrax_msgsnd \
        -Dmsgrcv=civdrax_msgrcv -Dmsgctl=civdrax_msgctl "$2"
}
build kernel
over library face/out/libcivdrax.a
[ $# -lt 4 ] || over other "$4"
raise_limits
PYTHONPATH=bench PYTHONDONTWRITEBYTECODE=1 python3 - "${1:-40000}" "${2:-9}" "$folder" \
    "${3:-}" <<'PYTHON'
import os
import subprocess
import sys
from typing import NamedTuple

import picture
from timing import medians, ratio, say_load, seconds

TEXTS, ROUNDS, FOLDER, PICTURE = int(sys.argv[1]), int(sys.argv[2]), *sys.argv[3:]
NAMES = [name for name in ("kernel", "library", "other") if os.path.exists(f"{FOLDER}/{name}")]
LENGTHS = (0, 1000, 8192)
QUOTA = 131072
# The most of the kernel's time: through one queue, in queues of their own, of one thread, and where
# a thousand wait.
ONE_QUEUE, OWN_QUEUES, ONE_THREAD, WAITERS = 1.0, 0.9, 0.65, 2.0


class Row(NamedTuple):
    """Threads that do what a word of `peer_threads` says, with texts of one length, of which a count
    is so many in all."""
    head: str
    word: str
    threads: int
    length: int
    count: int
    texts: int
    wanted: float | None

    def run_of(self, name, count):
        """The seconds of a run of so many texts; of those that wait what they tell themselves."""
        if self.word == "waiters":
            command = [f"{FOLDER}/{name}-waiters", str(self.threads)]
            said = subprocess.run(command, check=True, stdout=subprocess.PIPE) if count else None
            return int(said.stdout) / 1e9 if said else 0
        return seconds([f"{FOLDER}/{name}", "kernel", self.word, self.length, count, self.threads,
                        self.threads, QUOTA], count)


def rows():
    made = [Row(f"{side}x{side}", "flow", side, length, TEXTS // side, side, ONE_QUEUE)
            for side in (1, 2, 4) for length in LENGTHS]
    made += [Row("own queues 4", "own", 4, length, 2 * TEXTS, 4, OWN_QUEUES) for length in LENGTHS]
    made += [Row("back", "two", 1, length, TEXTS // 4, 1, None) for length in LENGTHS]
    made.append(Row("one thread", "own", 1, 16, 4 * TEXTS, 1, ONE_THREAD))
    return [*made, Row("waiters", "waiters", 1000, 0, 1, 1, WAITERS)]


def main():
    if ROUNDS < 5:
        sys.exit("at least 5 rounds")
    say_load("nanoseconds a text, and the ratios (wanted)")
    runs = {(row, name): (row.count, lambda count, row=row, name=name: row.run_of(name, count))
            for row in rows() for name in NAMES}
    found, missed, bars = medians(runs, ROUNDS), 0, []
    print(f"{'':20}" + "".join(f"{name:>10}" for name in NAMES) + "  of the kernel"
          + "  of the other" * ("other" in NAMES))
    for row in rows():
        times = {name: found[row, name] / row.texts for name in NAMES}
        text, is_missed = ratio(times["library"] / times["kernel"], row.wanted)
        missed += is_missed
        bars.append((f"{row.head}, {row.length:,}", times["library"], times["kernel"]))
        if "other" in NAMES:
            text += f"  {times['library'] / times['other']:6.2f}"
        print(f"{row.head + ', ' + str(row.length):20}"
              + "".join(f"{times[name]:10.0f}" for name in NAMES) + "  " + text, flush=True)
    if PICTURE:
        picture.bars(PICTURE, ["C library", "Linux"], bars, "nanoseconds a text")
    sys.exit(f"{missed} missed" if missed else 0)


main()
PYTHON
