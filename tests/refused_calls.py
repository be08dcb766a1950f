#!/usr/bin/env python3
"""Runs each test with its Nth allocation refused, for N from 1 until it makes fewer; of a test that
makes more than 600, or takes long, and so repeats what it does, some of the later ones.

`tests/refused_calls.py [CRATE ..]`, or without a name for every crate that has tests. A test makes
a call that is out of memory once more, so each run must end in one of these ways: all its checks
passed, which says that the call made again answered as if nothing had happened; or, where it does
not make the call twice, the test says in a line of its own that memory ran out, which it does only
where a call has answered so. A run that does not end fails, and so does a test that fails where
nothing is refused, and one that makes no allocation and is not listed here as such. Tests whose
threads wait for what another thread does are left out where that thread may end out of memory
without having done it: they wait for good then, as they must. Requires the tests to be built, as
crates/CRATE/out/CRATE_tests, and `cc`. Prints the runs that fail, and which tests took longest; the
last line counts.
"""
import collections
import concurrent.futures
import glob
import itertools
import os
import re
import subprocess
import sys
import tempfile
import time

TOP = os.path.dirname(os.path.dirname(os.path.abspath(__file__)))
# The lines of which a test that is out of memory has one: what the error of such a call prints, by
# itself, behind the words of an `expect`, or as the test's result.
NO_MEMORY = re.compile(
    r"(?m)^(?:out of memory|ENOMEM|(?:[\w ]+: )?(?:Err\()?"
    r"(?:AllocError|Memory|Kind\(OutOfMemory\)|(?:AllocFailed|SpawnError) \{ \.\. \})\)?)$"
)
# The lines that a test prints where what is out of memory returns no such error: a thread that was
# not made.
UNTOLD = {
    "mq_cli_tests record::a_recorded_threads_script_keeps_the_refusals_of_its_main_part": (
        r"an entry is missing, or a worker found no memory"
    ),
    "mq_tests values::a_thread_adds_the_numbers_that_another_sends": r"a thread cannot be made",
    "mq_text_tests threads::each_half_is_filled_by_a_thread_of_its_own": (
        r"no memory for the count of threads"
    ),
    "mq_text_tests threads::each_half_is_written_while_the_other_is": (
        r"one half is written after the other, or there is no memory for a thread"
    ),
}
# The failures of a test that are printed; the others are only counted.
TOLD = 3
# The allocations that are refused one by one, as far as a lane gets in so many seconds; beyond
# them the steps grow.
EACH = 600
PATIENCE = 10
# The runs of a test that are tried side by side, and those of all tests. Of those of tests whose
# threads wait, most use no processor.
LANES = 4
ALL_LANES = 4 * len(os.sched_getaffinity(0))
# The tests that are named as those that took longest.
LONGEST = 5
# The seconds after which a run counts as one that hangs.
SECONDS = 300
# The status that such a run is given.
HANGS = 124
# What is left out: a writer that waits until a reader is inside, and workers of scripts, each of which
# waits for what another worker sends or removes.
WAIT_FOR_OTHERS = {
    "mq_board_tests stopped::the_next_but_one_change_waits_for_a_reader_inside",
    "mq_cli_tests threads::worked::two_pairs_of_workers_hand_on_all",
    "mq_cli_tests threads::worked::a_removal_ends_a_wait",
    "mq_cli_tests threads::worked::a_removal_ends_a_wait_with_a_timeout",
    "mq_cli_tests threads::worked::a_step_that_is_served_before_its_end_is_done",
}
# The tests that may make no allocation.
MAKE_NONE = {
    "mq_caller_tests seats::a_system_out_of_its_limits_is_not_made",
    "mq_local_caller_tests programs::a_size_out_of_its_limits_is_refused_before_the_program_runs",
    "mq_local_tests face::layout::a_call_has_the_numbers_of_the_struct",
    "mq_local_tests face::layout::an_answer_has_the_numbers_of_the_struct",
    "mq_local_tests face::layout::the_flags_and_commands_are_those_of_linux",
    "mq_local_tests limits::a_configuration_past_a_bound_is_refused",
    "mq_local_tests names::a_refusal_is_named_as_in_the_manual",
    "mq_local_tests names::each_layers_refusal_has_its_errno",
    "mq_queue_tests lists::a_msgtyp_is_read_as_the_manual_says",
    "mq_queue_tests table::keys::an_id_is_its_slot_and_seq_up_to_the_bounds",
    "mq_system_tests shared::no_parts_are_opened_for_no_slot",
    "mq_system_tests waiters::a_patience_says_how_long_it_waits",
    "mq_system_tests waiters::a_wait_does_not_take_twice_its_time",
    "mq_system_tests waiters::a_wait_has_left_what_its_clock_says",
    "mq_system_tests waiters::a_waiter_woken_before_it_parks_does_not_park",
    "mq_system_tests waiters::a_wait_that_timed_out_is_not_woken_twice",
    "mq_system_tests worked::a_size_out_of_its_limits_is_refused",
    "mq_tests printed::each_refusal_becomes_an_errno_with_the_words_of_strerror",
    "mq_tests two::two_workers_at_one_seat_are_refused",
    "mq_cli_tests workers::refusals::an_empty_plan_makes_no_call",
}


def crates_with_tests():
    """The names of the crates with a `#[test]`."""
    sources = glob.glob(f"{TOP}/crates/*/src/**/*.rt", recursive=True)
    tested = [source for source in sources if "#[test]" in open(source, encoding="utf-8").read()]
    return sorted({os.path.relpath(source, f"{TOP}/crates").split(os.sep)[0] for source in tested})


def program_of(crate):
    return f"{TOP}/crates/{crate}/out/{crate}_tests"


def tests_of(crate):
    """The names of a crate's tests; none where they are not built."""
    try:
        listed = subprocess.run([program_of(crate), "--list"], capture_output=True, text=True)
    except OSError:
        return []
    names = [line[:-6] for line in listed.stdout.splitlines() if line.endswith(": test")]
    return [name for name in names if f"{crate} {name}" not in WAIT_FOR_OTHERS]


def run_of(command, shim, mark, nth):
    """The run whose Nth allocation is refused, and whether it made as many."""
    if os.path.exists(mark):
        os.unlink(mark)
    refusal = {"REFUSE_NTH": str(nth), "REFUSE_MARK": mark, "LD_PRELOAD": shim}
    limits = {"env": {**os.environ, **refusal}, "timeout": SECONDS}
    try:
        run = subprocess.run(command, capture_output=True, text=True, **limits)
    except subprocess.TimeoutExpired:
        return subprocess.CompletedProcess(command, HANGS, "", f"not ended after {SECONDS} s"), True
    return run, os.path.exists(mark)


def allocations(lane, begun):
    """The numbers that are refused in a lane, one after another."""
    nth = lane + 1
    while True:
        yield nth
        each = nth < EACH and time.monotonic() - begun < PATIENCE
        nth += LANES if each else max(LANES, LANES * nth // 32)


def is_untold(test, run):
    """Whether a test that gets no such error prints what it prints then."""
    said = UNTOLD.get(test)
    return said is not None and any(re.fullmatch(said, it) for it in run.stderr.splitlines())


def flaw(test, run, nth, was_refused):
    """What is wrong with a run, or None."""
    said = " ".join((run.stdout + run.stderr).split())[:300]
    if not was_refused and run.returncode != 0:
        return f"nothing refused: status {run.returncode}: {said}"
    if nth == 1 and not was_refused and test not in MAKE_NONE:
        return "it makes no allocation"
    if run.returncode == 0 or NO_MEMORY.search(run.stderr) or is_untold(test, run):
        return None
    return f"allocation {nth}: status {run.returncode}: {said}"


def judge(crate, test, lane, shim, mark):
    """How many of the runs of a lane ended well, what is to be printed of the others, and the
    time."""
    begun = time.monotonic()
    passed = 0
    wrong = []
    for nth in allocations(lane, begun):
        run, was_refused = run_of([program_of(crate), test], shim, mark, nth)
        found = flaw(f"{crate} {test}", run, nth, was_refused)
        if found:
            wrong.append(f"refused_calls: {crate} {test}, {found}")
        else:
            passed += was_refused
        if not was_refused or run.returncode == HANGS:
            break
    return passed, wrong, time.monotonic() - begun


def main():
    crates = sys.argv[1:] or crates_with_tests()
    tests = [(crate, test) for crate in crates for test in tests_of(crate)]
    passed = failed = 0
    for crate in crates:
        if not any(crate == tested for tested, _ in tests):
            failed += 1
            print(f"refused_calls: {crate} has no tests built")
    with tempfile.TemporaryDirectory() as folder:
        shim = f"{folder}/refuse.so"
        subprocess.run(["cc", "-shared", "-fPIC", "-O1", "-o", shim, f"{TOP}/tests/refuse_nth.c",
                        "-ldl"], check=True)
        times = collections.Counter()
        with concurrent.futures.ThreadPoolExecutor(ALL_LANES) as pool:
            marks = (f"{folder}/mark{count}" for count in itertools.count())
            ends = [(tested, pool.submit(judge, *tested, lane, shim, next(marks)))
                    for tested in tests for lane in range(LANES)]
            for tested, end in ends:
                right, others, seconds = end.result()
                passed, failed = passed + right, failed + len(others)
                times[" ".join(tested)] += seconds
                print(*others[:TOLD], sep="\n", end="\n" if others else "")
    if passed + failed == 0:
        failed += 1
        print("refused_calls: no allocation of any test was refused")
    longest = (f"{test} {seconds:.0f} s" for test, seconds in times.most_common(LONGEST))
    print(f"refused_calls: {times.total():.0f} s in all lanes, longest {', '.join(longest)}")
    print(f"refused_calls: {passed} passed, {failed} failed")
    return 1 if failed else 0


if __name__ == "__main__":
    sys.exit(main())
