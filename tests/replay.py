#!/usr/bin/env python3
"""Runs the test of mq_tests in which sixteen threads call at once in three slots, and checks
that each reply is what the lists say that the slots leave.

The judge is replay_model.py. First it must find each made-up mistake of replay_cases.py and
replay_batch_cases.py, and nothing wrong in what is right there. Then each round of the test is run
8 times in whatever schedules, and 4 times with all its threads on one processor; and some
rounds with an allocation refused, another each time, or with one of each few. Each run must end
within a minute, and each of its replies must be right; where an allocation is refused, it may say
instead that memory ran out. In each way in which a call of several texts may end one must have
ended in some run. Requires the test to be built, and `cc`. Prints the cases and the runs that fail;
the last line counts them.
"""
import gc
import os
import subprocess
import sys
import tempfile

sys.dont_write_bytecode = True
from refused_calls import NO_MEMORY, TOP, program_of  # noqa: E402  (after that line)
from replay_batch_cases import BATCH_CASES  # noqa: E402
from replay_cases import CASES  # noqa: E402
from replay_model import Flaw, done_by, judge, round_of  # noqa: E402

TEST = [program_of("mq_tests"), "replay::runs::each_reply_is_that_of_the_slots_list"]
ENDED = "\ntest result: ok\n"
ROUNDS = 4
RUNS = 8
ALONE = 4
SECONDS = 60
# The status that a run is given which does not end.
HANGS = 124
# Each so many of the allocations that are made while the threads call are refused, and at least and
# at most so many of them.
STEP = 90
LEAST, MOST = 15, 60
# Of how many allocations one is refused, in a run each.
OFTEN = range(6, 14)
# How a call of several texts may end, behind none that was done or behind some.
ENDS = {f"{kind}, {end} behind {done}" for kind, ends in {
    "SendTexts": {"none": ("All", "EINVAL", "EIDRM", "EAGAIN", "ENOMEM"),
                  "some": ("All", "EINVAL", "EAGAIN", "ENOMEM")},
    "ReceiveTexts": {"none": ("All", "EINVAL", "EIDRM", "ENOMSG", "E2BIG", "ENOMEM"),
                     "some": ("All", "ENOMSG", "E2BIG", "ENOMEM")},
}.items() for done, words in ends.items() for end in words}


def flaw_of(printed, met=None):
    """What is wrong with a round that was printed so, or None. Adds to `met` how its calls of
    several texts ended."""
    try:
        told = round_of(printed)
        judge(told)
        if met is not None:
            met.update(filter(None, map(end_of, (it for seat in told.seats for it in seat.calls))))
    except Flaw as flaw:
        return flaw
    except (AttributeError, LookupError, TypeError, ValueError) as error:
        return f"not as a round is printed: {error!r}"
    return None


def end_of(call):
    """How a call of several texts ended, or None for another."""
    if (done := done_by(call)) is None:
        return None
    ended = call.answer[-1]
    return (f"{call.asked.kind}, {ended if ended == 'All' else ended[1]} "
            f"behind {'some' if done else 'none'}")


def run_of(number, before=(), more=()):
    """A run of the round with this number."""
    command = [*before, *TEST, str(number)]
    try:
        return subprocess.run(command, env={**os.environ, **dict(more)}, capture_output=True,
                              text=True, timeout=SECONDS)
    except subprocess.TimeoutExpired:
        return subprocess.CompletedProcess(command, HANGS, "", f"not ended after {SECONDS} s")


def flaw_of_run(run, met):
    """What is wrong with a run, or None."""
    if run.returncode != 0 or not run.stdout.endswith(ENDED):
        said = " ".join((run.stderr + run.stdout[-300:]).split())[:300]
        return f"status {run.returncode}: {said}"
    flaw = flaw_of(run.stdout.removesuffix(ENDED), met)
    return f"{flaw}: {flaw.meaning}" if isinstance(flaw, Flaw) else flaw


def has_no_memory(run):
    return run.returncode not in (0, HANGS) and NO_MEMORY.search(run.stderr) is not None


def cases():
    """Each case, with how the judge fails in it, or None."""
    for place, (told, otherwise, wanted) in enumerate((*CASES, *BATCH_CASES)):
        found = flaw_of("\n".join({**told, **otherwise}.values()))
        wrong = (str(found) if found else None) != wanted
        yield f"case {place}", f"found: {found}, wanted: {wanted}" if wrong else None


def runs(met):
    """Each run of a round, with what is wrong with it, or None."""
    alone = ("taskset", "-c", str(min(os.sched_getaffinity(0))))
    for number in range(ROUNDS):
        for run in range(RUNS):
            yield f"round {number}, run {run}", flaw_of_run(run_of(number), met)
        for run in range(ALONE):
            wrong = flaw_of_run(run_of(number, alone), met)
            yield f"round {number}, run {run} on one processor", wrong


def refused_runs(folder, met):
    """Each run with an allocation refused, or several, with what is wrong with it, or None."""
    shim, mark = f"{folder}/refuse.so", f"{folder}/mark"
    subprocess.run(["cc", "-shared", "-fPIC", "-O1", "-o", shim, f"{TOP}/tests/refuse_nth.c",
                    "-ldl"], check=True)

    def refused(number, nth, step=0):
        return run_of(number, more={"REFUSE_NTH": str(nth), "REFUSE_STEP": str(step),
                                    "REFUSE_MARK": f"{mark}{nth}", "LD_PRELOAD": shim})

    # Without each of the first allocations the threads do not begin.
    made, nth = 0, 1
    while has_no_memory(ended := refused(0, nth)):
        yield f"allocation {nth} refused", None
        made, nth = nth, nth + nth // 4 + 1
    yield f"allocation {nth} refused", flaw_of_run(ended, met)
    for step in OFTEN:
        number = step % ROUNDS
        ended = refused(number, nth, step)
        wrong = None if has_no_memory(ended) else flaw_of_run(ended, met)
        yield f"round {number}, allocation {nth} and each {step}th behind it refused", wrong
    for run in range(MOST):
        nth, number = made + STEP * (run + 1), run % ROUNDS
        ended = refused(number, nth)
        if not os.path.exists(f"{mark}{nth}"):
            yield "allocations refused", None if run >= LEAST else f"only {run} runs"
            return
        wrong = None if has_no_memory(ended) else flaw_of_run(ended, met)
        yield f"round {number}, allocation {nth} refused", wrong


def ends(met):
    """How calls of several texts ended in some run, with those ends that no run had, or None."""
    yield "ends", f"never met: {', '.join(sorted(ENDS - met))}" if ENDS - met else None


def main():
    # What is read has no cycles.
    gc.disable()
    passed = failed = 0
    met = set()
    with tempfile.TemporaryDirectory() as folder:
        for tried in (cases(), runs(met), refused_runs(folder, met), ends(met)):
            for name, wrong in tried:
                passed, failed = passed + (not wrong), failed + bool(wrong)
                if wrong:
                    print(f"replay: {name}: {wrong}")
    print(f"replay: {passed} passed, {failed} failed")
    return 1 if failed or not passed else 0


if __name__ == "__main__":
    sys.exit(main())
