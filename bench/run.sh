#!/bin/bash
# Times mqsim against the kernel's System V message queues on the same scripts:
# `bench/run.sh [MQSIM] [ROUNDS]`, at least 7 rounds.
# The two programs take turns within a round; the table has the medians, and the ratio of mqsim's
# lines a second to the kernel's. The target is a ratio of 1.6 with one queue, by sends and receives
# alone and by all calls, and of 1.4 with 8 queues in an arena of height 10. Fails, with status 1,
# where a ratio is less, and where the answers differ in more than process ids and times. A script
# that MQSIM does not support yet is left out, and so is the one with texts to 65,536 bytes where
# the kernel's limits, which are raised while it runs, cannot be.
set -euo pipefail
top=$(realpath "$(dirname "$0")/..")
mqsim=$(realpath -m "${1:-$top/crates/mqsim/out/mqsim}")
if [ ! -x "$mqsim" ]; then
    echo "$mqsim is not there: build it with 'rt run' in crates/mqsim" >&2
    exit 1
fi
cd "$top"
. bench/kernel_limits.sh
folder=$(mktemp -d)
trap 'restore_limits; rm -rf "$folder"' EXIT
cc -O2 -Wall -Wextra -o "$folder/kernel_queues" bench/kernel_queues.c
raise_limits
python3 - "$mqsim" "${2:-9}" "$folder" <<'PYTHON'
import itertools
import os
import statistics
import subprocess
import sys
import time

MQSIM, ROUNDS, FOLDER = sys.argv[1], int(sys.argv[2]), sys.argv[3]
KERNEL = [f"{FOLDER}/kernel_queues"]
SEED = "1"
# Name, arguments of script.py, options of mqsim, the target (at least), the longest text.
SCRIPTS = [
    ("1 queue, snd and rcv", ["--calls", "snd,rcv"], [], 1.6, 8192),
    ("1 queue, all calls", [], [], 1.6, 8192),
    ("8 queues, height 10", ["--queues", "8", "--height", "10"], ["--height", "10"], 1.4, 8192),
    ("8 queues, to 65,536 B", ["--queues", "8", "--height", "10"], ["--height", "10"], None, 65536),
]


def kernel_takes(longest):
    """Whether the kernel's limits are enough for such texts and a quota of twice as many bytes."""
    for name, wanted in (("msgmax", longest), ("msgmnb", 2 * longest)):
        with open(f"/proc/sys/kernel/{name}") as file:
            if int(file.read()) < wanted:
                return False
    return True


def answers(command, path):
    """A run's answer lines, status and standard error."""
    with open(path) as script:
        run = subprocess.run(command, stdin=script, capture_output=True, text=True)
    return run.stdout.splitlines(), run.returncode, run.stderr.strip()


def seconds(command, path):
    with open(path) as script:
        begin = time.perf_counter()
        subprocess.run(command, stdin=script, stdout=subprocess.DEVNULL, check=True)
        return time.perf_counter() - begin


def medians(ours, path):
    """The median seconds of mqsim and of the kernel's queues, which take turns at being first."""
    times = {0: [], 1: []}
    commands = {0: ours, 1: KERNEL}
    for turn in range(ROUNDS):
        for which in (0, 1) if turn % 2 == 0 else (1, 0):
            times[which].append(seconds(commands[which], path))
    return statistics.median(times[0]), statistics.median(times[1])


def normal(line):
    """A line whose process ids and times are just none or some."""
    if not line.startswith("qnum "):
        return line
    words = line.split(" ")
    return " ".join(words[:6] + ["some" if word.isdigit() and word != "0" else word
                                 for word in words[6:]])


def differences(ours, kernels):
    """What tells the two lists of answers apart, at most a few lines."""
    pairs = itertools.zip_longest(map(normal, ours), map(normal, kernels), fillvalue="nothing")
    found = [f"answer {number}: mqsim {a[:80]}, the kernel's queues {b[:80]}"
             for number, (a, b) in enumerate(pairs, 1) if a != b]
    if len(ours) != len(kernels):
        found.insert(0, f"{len(ours)} answers of mqsim, {len(kernels)} of the kernel's queues")
    return found[:5]


def not_taken(lines, status, error):
    """Why mqsim does not take the script yet, or None."""
    if status == 1:
        return error
    made = itertools.takewhile(lambda line: not line.startswith("msg "), lines)
    return "it makes no more queues" if status == 0 and "ENOSPC" in made else None


def make_script(number, arguments):
    path = f"{FOLDER}/script{number}"
    with open(path, "w") as file:
        subprocess.run(["bench/script.py", SEED, *arguments], stdout=file, check=True)
    return path


def judge(name, ours, path):
    """Whether the script can be timed: not where mqsim does not take it. Ends at a difference."""
    lines, status, error = answers(ours, path)
    reason = not_taken(lines, status, error)
    if reason:
        print(f"{name}: left out: {reason}")
        return False
    if status != 0:
        sys.exit(f"{name}: mqsim ended with status {status}: {error}")
    kernels, status, error = answers(KERNEL, path)
    if status != 0:
        sys.exit(f"{name}: kernel_queues ended with status {status}: {error}")
    found = differences(lines, kernels)
    if found:
        sys.exit("\n".join([f"{name}: the answers differ", *found]))
    return True


def measure(name, ours, path, wanted):
    """Times the script and prints its row. Whether mqsim is as fast as is wanted."""
    with open(path) as file:
        count = sum(1 for _ in file)
    our_time, kernel_time = medians(ours, path)
    ratio = kernel_time / our_time
    fast = wanted is None or ratio >= wanted
    print(f"{name:22}{count:7}{count / our_time:16,.0f}{count / kernel_time:16,.0f}"
          f"{ratio:8.2f}{wanted or '':>8}{'' if fast else '  missed'}")
    return fast


def main():
    if ROUNDS < 7:
        sys.exit("at least 7 rounds")
    print("load average at the start:", *(f"{load:.2f}" for load in os.getloadavg()))
    understood = answers([MQSIM, "serial"], "/dev/null")[1] == 0
    program = [MQSIM, "serial"] if understood else [MQSIM]
    empty = [f"{median * 1000:.1f} ms" for median in medians(program, "/dev/null")]
    print(f"an empty script: mqsim {empty[0]}, the kernel's queues {empty[1]}; it is in all times")
    print(f"{'script':22}{'lines':>7}{'mqsim lines/s':>16}{'kernel lines/s':>16}{'ratio':>8}{'wanted':>8}")
    measured = missed = 0
    for number, (name, arguments, options, wanted, longest) in enumerate(SCRIPTS):
        if not kernel_takes(longest):
            print(f"{name}: left out: the kernel takes no texts of {longest} bytes")
            continue
        path = make_script(number, [*arguments, "--longest", str(longest)])
        ours = program + options if understood else program
        if judge(name, ours, path):
            missed += not measure(name, ours, path, wanted)
            measured += 1
    if measured == 0:
        sys.exit("no script was measured")
    if missed:
        sys.exit(f"{missed} of {measured} ratios are less than wanted")


main()
PYTHON
