#!/usr/bin/env python3
"""Runs the server of three threads, which cuts its logs as they grow, and checks its memory bound.

It answers 200,000 requests and then 1,000,000, cutting each of its two logs after 100,000 entries.
Each run must report all entries, end before its timeout, and take no more resident memory than
BOUND; and the long one no more than a few cuts' worth above the short one. Requires example_server to
be built. Prints each run's memory; the last line counts.
"""
import os
import subprocess
import sys
import time

TOP = os.path.dirname(os.path.dirname(os.path.abspath(__file__)))
PROGRAM = f"{TOP}/crates/example_server/out/example_server"
EVERY = 100_000
SHORT, LONG = 200_000, 1_000_000
# In MiB: the arena has 1.3, and each of two logs up to 131,072 events of 48 bytes, half as
# much again while it grows, and again what a cut returns until it is dropped.
BOUND = 40
MORE = 16
# Large memory that is freed is unmapped at once. Else each thread's heap keeps some of it, as the C
# library sees fit: the same run then takes 20 to 43 MiB.
HEAP = {"MALLOC_MMAP_THRESHOLD_": "65536"}
SECONDS = 240


def run(requests):
    """What the program prints, its status, and its greatest resident memory in MiB."""
    begun = time.monotonic()
    how = {"stdout": subprocess.PIPE, "env": {**os.environ, **HEAP}}
    # The memory of `timeout` is counted as the most of its own and the program's.
    words = ["timeout", str(SECONDS), PROGRAM, str(requests), str(EVERY)]
    with subprocess.Popen(words, **how) as process:
        told = process.stdout.read().decode()
        _, status, used = os.wait4(process.pid, 0)
        process.returncode = os.waitstatus_to_exitcode(status)
    memory = used.ru_maxrss / 1024
    seconds = time.monotonic() - begun
    print(f"{requests:,} requests: {memory:.1f} MiB of resident memory, {seconds:.0f} s")
    return told, process.returncode, memory, seconds


def main():
    checks = []
    memories = []
    for requests in (SHORT, LONG):
        told, status, memory, seconds = run(requests)
        wanted = f"{requests} requests, {4 * requests + 5} entries\n"
        memories.append(memory)
        checks += [
            (f"{requests} requests answer {told!r}, status {status}",
             (told, status) == (wanted, 0)),
            (f"{requests} requests take {memory:.1f} MiB, over {BOUND}", memory <= BOUND),
            (f"{requests} requests take {seconds:.0f} s, over {SECONDS}", seconds <= SECONDS),
        ]
    checks.append((f"memory grows with the requests: {memories}",
                   memories[1] <= memories[0] + MORE))
    failed = [what for what, holds in checks if not holds]
    for what in failed:
        print(what)
    print(f"server: {len(checks) - len(failed)} passed, {len(failed)} failed")
    return 1 if failed else 0


if __name__ == "__main__":
    sys.exit(main())
