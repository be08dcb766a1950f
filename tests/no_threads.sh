#!/usr/bin/env bash
# Runs programs that work on several threads as a process that may make no thread, or fewer than
# they need, and with each allocation refused in turn. Where a thread cannot be made the program
# must say so, end by itself, and have written nothing of what its workers do. Only root may run a
# program as another user, for whom the bound holds; another user tries the allocations alone.
# Requires the programs to be built, and `cc`. Prints the runs that fail; the last line counts.
set -uo pipefail
cd "$(dirname "$0")/.."
folder=$(mktemp -d)
trap 'rm -rf "$folder"' EXIT
chmod 755 "$folder"
passed=0
failed=0
# A user's number that no other process has.
nobody=61234
# The seconds after which a run counts as one that hangs.
seconds=20

# Counts a case, which passed if $1 is 0, and else is printed with the words from $2 on.
count() {
    if [ "$1" -eq 0 ]; then
        passed=$((passed + 1))
    else
        failed=$((failed + 1))
        echo "no_threads: ${*:2}"
    fi
}

# Puts the program $1 where any user may run it.
place() {
    cp "crates/$1/out/$1" "$folder/$1" && chmod 755 "$folder/$1"
}

# Runs the words from $3 on, with the file $2 as input, as a user of whom $1 threads may be at a
# time, the first one among them: leaves what is written in `out` and `err`.
bounded() {
    timeout "$seconds" setpriv --reuid="$nobody" --clear-groups prlimit --nproc="$1" "${@:3}" \
        < "$2" > "$folder/out" 2> "$folder/err"
}

# Checks that a run with at most $1 threads ends with status $2, the line $3 on standard error and
# just the file $4 on standard output; its input is the file $5, and then come its words.
refuses() {
    local status=0
    bounded "$1" "$5" "${@:6}" || status=$?
    [ "$status" -eq "$2" ] && grep -qxF -e "$3" "$folder/err" && cmp -s "$folder/out" "$4"
    count $? "at most $1 threads: ${*:6}: status $status, $(head -c 200 "$folder/err")"
}

# Checks that a run with at most $1 threads ends well, and writes the file $2.
runs() {
    local status=0
    bounded "$1" "$3" "${@:4}" || status=$?
    [ "$status" -eq 0 ] && cmp -s "$folder/out" "$2"
    count $? "at most $1 threads: ${*:4}: status $status, $(head -c 200 "$folder/err")"
}

# With the Nth allocation refused the words from $2 on must end, and write the file $1 or nothing: each
# of the first hundred, and each from the 2,001st on, where nearly all pages of the arena are
# made, until a run makes fewer. Some must be refused to the calls of workers.
allocations() {
    local status n calls=0
    for ((n = 1; n < 10000; n += n == 100 ? 1901 : 1)); do
        status=0
        rm -f "$folder/mark"
        REFUSE_NTH=$n REFUSE_MARK="$folder/mark" LD_PRELOAD="$folder/refuse.so" \
            timeout "$seconds" "${@:2}" < /dev/null > "$folder/out" 2> "$folder/err" || status=$?
        if [ "$status" -eq 0 ]; then
            cmp -s "$folder/out" "$1"
        else
            [ "$status" -lt 124 ] && [ ! -s "$folder/out" ]
        fi
        count $? "allocation $n refused: ${*:2}: status $status, $(head -c 200 "$folder/err")"
        [ -e "$folder/mark" ] || break
        ! grep -q '^Error: Call(' "$folder/err" || calls=$((calls + 1))
    done
    [ "$calls" -ge 20 ] && [ "$n" -lt 10000 ]
    count $? "of $n allocations only $calls were refused to calls of workers"
}

# A server and two clients, of ten requests, each of whose logs is cut after five entries.
place example_server || exit 1
hello=("$folder/example_server" 10 5)
stored=$folder/stored
echo '10 requests, 45 entries' > "$stored"
cc -shared -fPIC -O1 -o "$folder/refuse.so" tests/refuse_nth.c -ldl || exit 1
allocations "$stored" "${hello[@]}"
if [ "$(id -u)" -eq 0 ]; then
    for threads in 1 2 3; do
        refuses "$threads" 1 'Error: Workers(Thread)' /dev/null /dev/null "${hello[@]}"
    done
    runs 4 "$stored" /dev/null "${hello[@]}"
fi

# mqsim, where it runs scripts of workers: fifteen, of whom fourteen wait for what the last one
# sends. Where a thread is missing, what the main part answered is all that is written.
if [ "$(id -u)" -eq 0 ]; then
    place mqsim \
        && timeout "$seconds" "$folder/mqsim" threads < /dev/null > "$folder/out" 2> "$folder/err"
    count $? "mqsim threads, with an empty script: $(head -c 200 "$folder/err")"
    {
        printf 'get 0 c\n'
        for _ in {1..14}; do
            printf 'worker\ntake 0 1 1\n'
        done
        printf 'worker\nput 0 1 14 10\n'
    } > "$folder/script"
    printf 'id 0\n' > "$folder/main"
    timeout "$seconds" "$folder/mqsim" threads < "$folder/script" > "$folder/whole"
    for threads in 1 2 6 15; do
        refuses "$threads" 6 'mqsim: thread not started' "$folder/main" "$folder/script" \
            "$folder/mqsim" threads
    done
    runs 16 "$folder/whole" "$folder/script" "$folder/mqsim" threads
else
    echo "no_threads: left out are the bounds on threads, which root alone can try"
fi
echo "no_threads: $passed passed, $failed failed"
[ "$failed" -eq 0 ]
