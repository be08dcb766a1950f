"""Times programs in rounds in which they take turns."""
import os
import statistics
import subprocess
import time


def say_load(what="nanoseconds"):
    print("load average at the start:", *(f"{load:.2f}" for load in os.getloadavg()),
          f"on {os.cpu_count()} processors; {what}", flush=True)


def most_of_a_call():
    """The longest text that the kernel takes in one call."""
    with open("/proc/sys/kernel/msgmax") as file:
        return int(file.read())


def seconds(command, cycles=0, script=""):
    """The time of one run. Where it makes some cycles, the first number that it prints is
    checked."""
    start = time.perf_counter()
    said = subprocess.run([*map(str, command)], input=script, check=True, text=True,
                          stdout=subprocess.PIPE).stdout
    spent = time.perf_counter() - start
    assert cycles == 0 or int(said.split()[0]) % cycles == 0, said
    return spent


def medians(runs, rounds):
    """The median of each run's nanoseconds for a cycle. A run has a name, by which it is found in
    `runs` and in the answer, how many cycles it makes, and a function that gives the seconds of so
    many cycles. What a run of no cycles takes is left out."""
    times = {name: [] for name in runs}
    for turn in range(rounds):
        for name in runs if turn % 2 == 0 else reversed(runs):
            cycles, run = runs[name]
            empty = run(0)
            times[name].append((run(cycles) - empty) / cycles * 1e9)
    return {name: statistics.median(each) for name, each in times.items()}


def ratio(found, wanted, least=False):
    """A ratio beside its target, to be printed, and whether it is missed: it is to be at most
    that, or at least. None where there is no target."""
    missed = wanted is not None and (found < wanted if least else found > wanted)
    return f"{found:6.2f}{'!' if missed else ' '}({wanted or '-'})", missed
