#!/usr/bin/env bash
# Runs mqsim over each script of threads_tables.sh, 20 times, in whatever schedule, beside
# other scripts, and 3 times with all its threads on one processor; each run must end, with status 0
# and with the answers that are known in every schedule. Requires mqsim to be built. Prints the
# first run of a case that fails; the last line counts the runs.
source "$(dirname "$0")/cases.sh"
runs=20
alone=3
# The first processor that this process may use.
processor=$(awk '/^Cpus_allowed_list/ { split($2, list, /[,-]/); print list[1] }' /proc/self/status)
cases=0

# What is known of the answers on standard input, by the kind $1 of the case: in `exact` all of them,
# in `sums` and `parts` the workers' lines added up, and in `parts` of a slot only its other entries.
# $2 has the ends that a worker may have in a case of the kind `parts`.
known() {
    [ "$1" != exact ] || { cat; return; }
    awk -v kind="$1" -v may="$2" '
        $1 == "worker" {
            sent += $4; received += $6; ends[$10]++; count++
            if ($8 != "yes") print
            if (kind == "parts" && index(" " may " ", " " $10 " ") == 0) print
            next
        }
        $1 == "slot" {
            left_sent += $6; left_received += $8
            if (kind == "parts") print $1, $2, "other", $4 - $6 - $8, "left", $10
        }
        $1 != "slot" || kind == "sums" { print }
        END {
            if (sent != left_sent || received != left_received) print "not as the slots say"
            if (kind == "parts") { print "workers", count; exit }
            line = "sent " sent + 0 " received " received + 0
            for (k = split("done EINVAL EIDRM ENOMEM", names, " "); k > 0; k--)
                if (names[k] in ends) line = line " " names[k] " " ends[names[k]]
            print line
        }'
}

# All runs of the case in the folder $1: writes `PASSED FAILED` to `counts` there.
try() {
    cd "$1" || exit 1
    local run status passed=0 failed=0 kind ends times words place
    read -r kind times ends < kind
    read -ra words < words
    for ((run = 1; run <= times + alone; run++)); do
        place=()
        [ "$run" -le "$times" ] || place=(taskset -c "$processor")
        status=0
        "${place[@]}" "$program" "${words[@]}" < script > out 2> err || status=$?
        known "$kind" "$ends" < out > seen
        if [ "$status" -eq 0 ] && [ ! -s err ] && cmp -s wanted seen; then
            passed=$((passed + 1))
            continue
        fi
        failed=$((failed + 1))
        [ "$failed" -gt 1 ] || echo "threads: $(cat name), run $run: status $status," \
            "$(diff wanted seen | head -5), standard error: $(head -c 300 err)"
        # A run that hangs is not tried again.
        [ "$status" -ne 124 ] || break
    done
    echo "$passed $failed" > counts
}

# Tries the case that was defined last, beside as many as there are processors.
begin() {
    [ "$cases" -gt 0 ] || return 0
    while [ "$(jobs -rp | wc -l)" -ge "$(nproc)" ]; do
        wait -n
    done
    (try "$folder") &
}

table() {
    property=$1
}

case_of() {
    begin
    cases=$((cases + 1))
    folder=$seen/$cases
    mkdir "$folder"
    seat=1
    kind=${2-exact}
    echo "$property, case $cases: mqsim $1" > "$folder/name"
    echo "$1" > "$folder/words"
    echo "$kind ${3-$runs} ${*:4}" > "$folder/kind"
    exec 7> "$folder/script" 8> "$folder/wanted"
}

main() {
    while [ $# -gt 0 ]; do
        echo "$1" >&7
        echo "$2" >&8
        shift 2
    done
}

worker() {
    seat=$((seat + 1))
    printf '%s\n' worker "${@:4}" >&7
    [ "$kind" != exact ] || echo "worker $seat sent $1 received $2 order yes end $3" >&8
}

slot() {
    if [ "$kind" = parts ]; then
        echo "slot $1 other $2 left $5" >&8
    else
        echo "slot $1 events $2 sent $3 received $4 left $5" >&8
    fi
}

pages() {
    echo "pages $1 free $1" >&8
    [ "$kind" != parts ] || echo "workers $((seat - 1))" >&8
}

sums() {
    echo "sent $1 received $2${3+ ${*:3}}" >&8
}

source tests/threads_tables.sh || exit 1
begin
wait
passed=0
failed=0
for ((k = 1; k <= cases; k++)); do
    read -r right wrong < "$seen/$k/counts" || { right=0; wrong=1; }
    passed=$((passed + right))
    failed=$((failed + wrong))
done
at_least 1200
echo "threads: $passed passed, $failed failed"
[ "$failed" -eq 0 ]
