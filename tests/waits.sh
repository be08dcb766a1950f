#!/usr/bin/env bash
# Runs three tests of mq_waits_tests on one, two and four processors, or as many as there are: two
# threads that allocate one page in turn, 20,000 times each; the same where each caches the page;
# and eight threads that make 100,000 calls, each with a wait of 0 to 2 ms.
#
#   tests/waits.sh [RUNS]    each of them RUNS times: once, if not given; ten times are 200,000 turns
#                            of each thread and a million calls
#
# A run fails that makes no progress for a while, or is not over in ten minutes. Requires the tests
# to be built. Prints the runs that fail; the last line counts the runs.
source "$(dirname "$0")/cases.sh"
runs=${1:-1}
tests=crates/mq_waits_tests/out/mq_waits_tests_tests
# The processors that this process may use, and how many of them a run has.
mapfile -t processors < <(python3 -c 'import os; print(*sorted(os.sched_getaffinity(0)), sep="\n")')
for many in 1 2 4; do
    some=$(IFS=,; echo "${processors[*]:0:many}")
    for name in drafts::two_threads_take_{one_page_in_turn,a_page_that_each_caches} \
        crowd::calls_whose_waits_end_lose_no_message; do
        for ((run = 1; run <= runs; run++)); do
            status=0
            timeout 600 taskset -c "$some" "$tests" "$name" > "$seen/out" 2>&1 || status=$?
            [ "$status" -eq 0 ] && grep -qx 'test result: ok' "$seen/out"
            count $? "$name, run $run on processors $some: status $status," \
                "$(tr '\n' ' ' < "$seen/out" | head -c 300)"
        done
    done
done
at_least $((9 * runs))
echo "waits: $passed passed, $failed failed"
[ "$failed" -eq 0 ]
