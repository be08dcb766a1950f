#!/usr/bin/env bash
# Runs mqsim over each script of tests/scripts, three of examples/ and its own first one, without
# words and with those of the list below, and over each of serial_tables.sh with its own words, with
# its Nth allocation refused, for N from 1 until a run makes fewer. Each run must end in one of these
# ways:
#   status 2, `out of memory` on standard error and nothing written: the words were not read;
#   status 5, `mqsim: out of memory` and a prefix of the answers written;
#   as where none is refused, all written, where a growth had a fallback.
# Scripts of workers, each of which receives only what it has sent itself, are tried so too. Their
# runs may end as above, or in one of these ways; what is written never depends on a worker's time:
#   status 6, `mqsim: thread not started` and the answers of the main part written;
#   status 0, and of just one worker it is reported that it ended with ENOMEM: it has then sent and
#   received no more than it should, the others have done all, the slots have as many entries as
#   that, and all pages are free.
# A run that does not end within a minute, where workers may wait, or else within a minute of a
# processor's time, is stopped, and fails. So does a script of which no allocation is refused, or whose
# answers are others where none is. Requires mqsim to be built, and `cc`. Prints the runs that
# fail; the last line counts.
set -uo pipefail
cd "$(dirname "$0")/.."
program=crates/mqsim/out/mqsim

# Whether just one of the workers that `out` reports ran out of memory, and all the rest is as it
# must be: of each slot the entries but those that are sent or received are as in `whole`.
one_worker_lacked() {
    awk '
        $1 == "worker" && FNR == NR { sent[$2] = $4; received[$2] = $6; next }
        $1 == "slot" && FNR == NR { other[$2] = $4 - $6 - $8; next }
        FNR == NR { whole[FNR] = $0; next }
        $1 == "worker" && $10 == "ENOMEM" {
            lacked++
            if ($8 != "yes" || $4 > sent[$2] || $6 > received[$2] || $6 > $4) wrong++
        }
        $1 == "worker" && $10 != "ENOMEM" {
            if ($8 != "yes" || $10 != "done" || $4 != sent[$2] || $6 != received[$2]) wrong++
        }
        $1 == "worker" { more += $4; taken += $6; next }
        $1 == "slot" {
            more -= $6; taken -= $8
            if ($4 - $6 - $8 != other[$2] || $10 != $6 - $8) wrong++
            next
        }
        whole[FNR] != $0 { wrong++ }
        END { exit !(lacked == 1 && !wrong && more == 0 && taken == 0) }
    ' "$seen/whole" "$seen/out" && [ ! -s "$seen/err" ] \
        && [ "$(wc -l < "$seen/out")" -eq "$(wc -l < "$seen/whole")" ]
}

# Whether what was written is a prefix of the answers. It starts no more than one program, since
# this is checked for each run.
is_prefix() {
    local said
    cmp "$seen/out" "$seen/whole" > "$seen/differ" 2> "$seen/end" && return
    read -r said < "$seen/end" && [[ $said = "cmp: EOF on $seen/out"* ]]
}

# Whether the one line on standard error is $1.
is_said() {
    local lines
    mapfile -t lines < "$seen/err"
    [ "${#lines[@]}" -eq 1 ] && [ "${lines[0]}" = "$1" ]
}

# Whether the run that has ended with status $1 may end so.
is_right() {
    if [ "$1" -eq "$usual" ] && [ "$1" -lt 124 ] && cmp -s "$seen/out" "$seen/whole"; then
        return 0
    fi
    case $1 in
        0) [ "${list[0]-}" = threads ] && one_worker_lacked ;;
        6) [ "${list[0]-}" = threads ] && sed '/^worker/,$d' "$seen/whole" | cmp -s - "$seen/out" \
            && is_said "mqsim: thread not started" ;;
        2) [ ! -s "$seen/out" ] \
            && grep -qx '\(mqsim: command line\|error\): out of memory' "$seen/err" ;;
        5) is_prefix && is_said "mqsim: out of memory" ;;
        *) false ;;
    esac
}

# All runs of the script $2 with the words $3, in the folder $1: writes `PASSED FAILED` to `counts`.
# Where a file $4 is given, it has the answers of the run in which none is refused.
try() {
    seen=$1
    local list usual=0 status n passed=0 failed=0
    read -ra list <<< "$3"
    # Only workers may wait for good. What stops them makes allocations of its own, and would take
    # longer than most other runs.
    ulimit -t 60
    local bounded=() preload=$shim
    [ "${list[0]-}" != threads ] || { bounded=(timeout 60 env "LD_PRELOAD=$shim") preload=; }
    "${bounded[@]}" "$program" "${list[@]}" < "$2" > "$seen/whole" 2> "$seen/err" || usual=$?
    for ((n = 1; n < 10000; n++)); do
        status=0
        LD_PRELOAD=$preload REFUSE_NTH=$n REFUSE_MARK="$seen/mark$n" "${bounded[@]}" \
            "$program" "${list[@]}" < "$2" > "$seen/out" 2> "$seen/err" || status=$?
        if is_right "$status"; then
            passed=$((passed + 1))
        else
            failed=$((failed + 1))
            echo "allocations: mqsim $3 < $2, allocation $n: status $status"
            # A run that was stopped is not tried again.
            [ "$status" -lt 124 ] || break
        fi
        [ -e "$seen/mark$n" ] || break
    done
    if [ "$n" -eq 1 ] && [ ! -e "$seen/mark1" ]; then
        failed=$((failed + 1))
        echo "allocations: mqsim $3 < $2: no allocation was refused"
    fi
    if [ -n "${4-}" ] && ! cmp -s "$4" "$seen/whole"; then
        failed=$((failed + 1))
        echo "allocations: mqsim $3 < $2: other answers where none is refused"
    fi
    echo "$passed $failed" > "$seen/counts"
}

folder=$(mktemp -d)
trap 'rm -rf "$folder"' EXIT
shim=$folder/refuse.so
cc -shared -fPIC -O1 -o "$shim" tests/refuse_nth.c -ldl || exit 1
jobs=0

# Tries the script $1 with the words $2 beside the others, as many as there are processors. Its
# answers are in the file $3, where one is given.
begin() {
    jobs=$((jobs + 1))
    mkdir "$folder/$jobs"
    while [ "$(jobs -rp | wc -l)" -ge "$(nproc)" ]; do
        wait -n
    done
    try "$folder/$jobs" "$1" "$2" "${3-}" &
}

table() {
    :
}

case_of() {
    printf "$2" > "$folder/script-$jobs"
    printf "$3" > "$folder/answers-$jobs"
    begin "$folder/script-$jobs" "$1" "$folder/answers-$jobs"
}

# Workers that each receive what they have sent: a type each, a queue each, and more than one type
# each.
printf 'get 0 c\n' > "$folder/types"
printf 'get 9 c\nset 0 3000\nget 0 c\nget 0\n' > "$folder/queues"
printf 'worker\nput 0 1 5 1000\ntake 0 1 5\nworker\nput 0 2 5 1000\ntake 0 2 5\n' >> "$folder/types"
for k in 0 1 2; do
    printf 'worker\n'
    printf "put $k %d 2 800\ntake $k 0 2\nput $k 7 1 0\ntake $k -9 1\n" {1..9}
done >> "$folder/queues"
# Texts whose drafts take memory, in an arena that has a block for each of them at any time.
printf 'get 0 c\nworker\nput 0 1 2 8193\ntake 0 1 2\nworker\nput 0 2 1 65536\ntake 0 2 1\n' \
    > "$folder/long"
begin "$folder/types" threads
begin "$folder/types" 'threads --height 4 --slots 1 --last-seq 0'
begin "$folder/queues" 'threads --slots 64'
begin "$folder/long" 'threads --height 7'

source tests/serial_tables.sh || exit 1
for words in '' 'serial --height 6 --slots 16 --last-seq 32767' 'serial --height 2 --slots 2'; do
    for script in crates/mqsim/stdin tests/scripts/* examples/{keys,pages,quota}; do
        begin "$script" "$words"
    done
done
for words in trace picture; do
    for script in crates/mqsim/stdin examples/quota; do
        begin "$script" "$words"
    done
done
# These read no script.
begin /dev/null '--help'
begin /dev/null 'serial --height 11'
wait
passed=0
failed=0
for ((job = 1; job <= jobs; job++)); do
    read -r right wrong < "$folder/$job/counts" || { right=0; wrong=1; }
    passed=$((passed + right))
    failed=$((failed + wrong))
done
if [ $((passed + failed)) -lt 14100 ]; then
    echo "allocations: of at least 14,100 runs only $((passed + failed)) were made"
    failed=$((failed + 1))
fi
echo "allocations: $passed passed, $failed failed"
[ "$failed" -eq 0 ]
