#!/usr/bin/env bash
# The C part in face/: builds it from nothing and runs the C programs of face/tests against the
# static and the shared library, also with the sanitizers of the compiler; then random scripts of
# calls of each client, in C, Perl, PHP and Python, over the kernel and over these queues by the
# preloaded library: the answers must be the same, each client must fail where the preloaded calls
# answer ENOSYS, and each must have made its calls here; and of each a program whose waits signals
# end, which must wait for ever where none is sent. A client whose package is not there is left out,
# and said to be, in a line of its own and in the last but one; tests/face_clients.sh installs them.
# Requires the crates to be proved by `rt ci`, and `cc`. Prints the runs that fail; the last line
# counts.
set -uo pipefail
cd "$(dirname "$0")/.."
folder=$(mktemp -d)
trap 'rm -rf "$folder"' EXIT
passed=0
failed=0
left_out=0
# The seconds after which a run counts as one that hangs.
seconds=300
# The random scripts of each client, and the random calls with damaged arguments.
scripts=300
damaged=1000000
messages=10000000
# The texts that are sent and received under signals, and the threads that are cancelled a second.
texts=200000
cancels=100
# The most lines that the C part may have.
most_lines=850
# The tests that are run as they are, also with the sanitizers.
tests=(calls parts stack waits signals midst turns late forks wakes threads memory)
warnings=(-std=gnu11 -Wall -Wextra -Werror -Wno-nonnull)
preload=$PWD/face/out/libcivdrax_preload.so

# Counts a case, which passed if $1 is 0, and else is printed with the words from $2 on.
count() {
    if [ "$1" -eq 0 ]; then
        passed=$((passed + 1))
    else
        failed=$((failed + 1))
        echo "face: ${*:2}"
    fi
}

# Runs a test program, with its words, and adds the checks that it counts in its last line: one that
# counts none has failed.
checks() {
    local status=0 told=0
    timeout "$seconds" "$@" > "$folder/out" 2> "$folder/err" || status=$?
    if [[ $(tail -n 1 "$folder/out") =~ ^([0-9]+)\ passed,\ ([0-9]+)\ failed$ ]]; then
        passed=$((passed + BASH_REMATCH[1]))
        failed=$((failed + BASH_REMATCH[2]))
        told=$((BASH_REMATCH[1] + BASH_REMATCH[2]))
        [ "${BASH_REMATCH[2]}" -eq 0 ] || head -n 5 "$folder/err"
    else
        head -n 5 "$folder/err"
    fi
    [ "$status" -eq 0 ] && [ "$told" -gt 0 ]
    count $? "$*: status $status, $told checks"
}

build() {
    rm -rf face/out
    make -C face CFLAGS='-O2 -g -Wall -Wextra -Werror' \
        prove='../.ci/repository.py library civdrax' > "$folder/made" 2>&1
    local status=$?
    count $status "make -C face: $(tail -n 3 "$folder/made")"
    [ $status -eq 0 ] || { echo "$passed passed, $failed failed"; exit 1; }
    local lines
    lines=$(cat face/*.c face/*.h | wc -l)
    [ "$lines" -le "$most_lines" ]
    count $? "the C part has $lines lines"
}

# Checks that the library $1 exports just these names.
names() {
    local seen
    seen=$(nm "${@:2}" --defined-only "$1" | grep ' T ' | cut -d ' ' -f 3 | sed 's/@.*//' | sort \
        | tr '\n' ' ')
    [ "$seen" = "$wanted" ]
    count $? "$1 shows $seen"
}

library_names() {
    local own='civdrax_msgctl civdrax_msgget civdrax_msgrcv civdrax_msgsnd civdrax_print '
    own+='civdrax_timedrcv civdrax_timedsnd '
    wanted=$own names face/out/libcivdrax.a
    wanted=$own names face/out/libcivdrax.so -D
    wanted="${own}dlopen msgctl msgget msgrcv msgsnd " names face/out/libcivdrax_preload.so -D
}

# Compiles the test $1 as $2, with the words from $3 on.
compile() {
    cc "${warnings[@]}" -O1 -g -o "$2" "face/tests/$1.c" "${@:3}" -pthread
    count $? "face/tests/$1.c does not compile"
}

programs() {
    local test calls
    for test in "${tests[@]}" damaged many stress; do
        compile "$test" "$folder/$test" face/out/libcivdrax.a
    done
    for test in "${tests[@]}"; do
        checks "$folder/$test"
    done
    checks "$folder/damaged" "$damaged"
    checks "$folder/many" "$messages"
    checks "$folder/stress" "$texts"
    checks "$folder/stress" "$texts" "$cancels"
    # A program finds the library in any folder, though its path was given relative to this one.
    compile calls "$folder/shared" face/out/libcivdrax.so "-Wl,-rpath,$PWD/face/out"
    checks env -C / "$folder/shared"
    # The test of several threads is right over the kernel too; 80,000 messages are sent and
    # received.
    compile threads "$folder/kernel_threads" -Dcivdrax_msgget=msgget -Dcivdrax_msgsnd=msgsnd \
        -Dcivdrax_msgrcv=msgrcv -Dcivdrax_msgctl=msgctl
    checks "$folder/kernel_threads"
    checks env CIVDRAX_COUNT="$folder/count" LD_PRELOAD="$preload" "$folder/kernel_threads"
    calls=$(cat "$folder/count")
    [ "${calls:-0}" -ge 160000 ]
    count $? "face/tests/threads.c has made only ${calls:-0} calls here"
}

# What else the preloaded library does. The child counts its one call, and then its parent four.
preloaded() {
    local calls
    rm -f "$folder/count"
    compile preloaded "$folder/opened.so" -shared -fPIC -DOPENED
    compile preloaded "$folder/preloaded" -Wl,--enable-new-dtags "-Wl,-rpath,$folder" -ldl
    checks env CIVDRAX_COUNT="$folder/count" LD_PRELOAD="$preload" "$folder/preloaded"
    calls=$(tr '\n' ' ' < "$folder/count")
    [ "$calls" = '1 4 ' ]
    count $? "face/tests/preloaded.c has made calls here: $calls"
}

# The printed table, also by the shared library and with the sanitizers; with each allocation refused
# in turn nothing is printed, or all of it.
table() {
    local n it
    compile table "$folder/table" face/out/libcivdrax.a
    compile table "$folder/shared_table" face/out/libcivdrax.so "-Wl,-rpath,$PWD/face/out"
    compile table "$folder/sanitized_table" -fsanitize=address,undefined \
        -fno-sanitize-recover=all face/print.c face/out/libcivdrax.a
    for it in "$folder"/{,shared_,sanitized_}table; do
        checks "$it"
        grep 'LEFT OUT' "$folder/out"
    done
    for ((n = 1; n < 1000; n++)); do
        rm -f "$folder/mark"
        CIVDRAX_HEIGHT=0 CIVDRAX_SLOTS=1 REFUSE_NTH=$n REFUSE_MARK="$folder/mark" \
            LD_PRELOAD="$folder/refuse.so" "$folder/table" again > "$folder/out" 2> "$folder/err"
        count $? "the table with allocation $n refused: $(head -n 1 "$folder/err")"
        [ -e "$folder/mark" ] || break
    done
    [ "$n" -gt 10 ] && [ "$n" -lt 1000 ]
    count $? "of the table $n allocations were refused"
}

# What `make install` writes.
installed() {
    tests/face_install.sh > "$folder/installed" 2>&1
    sed '$d' "$folder/installed"
    [[ $(tail -n 1 "$folder/installed") =~ ([0-9]+)\ passed,\ ([0-9]+)\ failed$ ]]
    count $? "tests/face_install.sh: $(tail -n 1 "$folder/installed")"
    passed=$((passed + ${BASH_REMATCH[1]:-0}))
    failed=$((failed + ${BASH_REMATCH[2]:-0}))
}

# The header is C++ too.
plus_plus() {
    if ! command -v g++ > /dev/null; then
        echo 'face: LEFT OUT: civdrax.h as C++: g++ is not here'
        return
    fi
    g++ -Wall -Wextra -Werror -pedantic -Iface -x c++ - -x none face/out/libcivdrax.a -pthread \
        -o "$folder/plus_plus" <<< '#include <civdrax.h>
        int main() { return civdrax_msgctl(civdrax_msgget(7, IPC_CREAT), IPC_RMID, nullptr); }' \
        && "$folder/plus_plus"
    count $? "a C++ program with civdrax.h fails"
}

# Builds the C part and the tests from $3 on into the folder $1, with the sanitizers $2.
sanitize() {
    local test heap
    heap="$(dirname "$(rt doc)")/c/liblibc_c.a"
    local flags=(-O1 -g "-fsanitize=$2" -fno-sanitize-recover=all) to=$folder/$1
    mkdir "$to"
    cc "${warnings[@]}" "${flags[@]}" -fcf-protection=none -fPIC -shared -o "$to/libcivdrax.so" \
        face/civdrax.c crates/civdrax/out/libcivdrax.a "$heap" -Wl,--wrap=read,--wrap=write \
        -Wl,--version-script=face/civdrax.map -pthread
    count $? "the C part does not compile with the sanitizers $2"
    for test in "${@:3}"; do
        cc "${warnings[@]}" "${flags[@]}" -o "$to/$test" "face/tests/$test.c" \
            -L"$to" -lcivdrax "-Wl,-rpath,$to" -pthread
        count $? "face/tests/$test.c does not compile with the sanitizers $2"
    done
}

# With the sanitizers of addresses and undefined behaviour, and, where many threads call, that of
# races, in the C part and in the tests.
sanitized() {
    local test
    sanitize addresses address,undefined "${tests[@]}" damaged
    for test in "${tests[@]}"; do
        checks "$folder/addresses/$test"
    done
    checks "$folder/addresses/damaged" "$damaged"
    sanitize races thread threads stress
    checks "$folder/races/threads"
    checks "$folder/races/stress" $((texts / 20)) "$cancels"
}

# With each allocation refused in turn.
allocations() {
    local n status
    cc -shared -fPIC -O1 -o "$folder/refuse.so" tests/refuse_nth.c -ldl || exit 1
    for ((n = 1; n < 1000; n++)); do
        status=0
        rm -f "$folder/mark"
        REFUSE_NTH=$n REFUSE_MARK="$folder/mark" LD_PRELOAD="$folder/refuse.so" \
            timeout "$seconds" "$folder/memory" > "$folder/out" 2> "$folder/err" || status=$?
        count "$status" "allocation $n refused: $(head -n 1 "$folder/err")"
        [ -e "$folder/mark" ] || break
    done
    [ "$n" -gt 20 ]
    count $? "only $n allocations were refused"
}

# Checks that with the size $1=$2 no call is answered, and a line says why.
refuses_size() {
    env "$1=$2" "$folder/calls" > "$folder/out" 2> "$folder/err"
    [ $? -eq 1 ] && grep -q "^civdrax: $1 is '$2': a number from" "$folder/err" \
        && grep -q 'errno 38' "$folder/err"
    count $? "$1='$2': $(head -n 1 "$folder/err")"
}

sizes() {
    local value
    for value in 11 x -1 '' 3x ' 3' 99999999999999999999; do
        refuses_size CIVDRAX_HEIGHT "$value"
    done
    for value in 0 65 -1 '' y; do
        refuses_size CIVDRAX_SLOTS "$value"
    done
    # That line is in no file of the program's own.
    compile standard_error "$folder/standard_error" face/out/libcivdrax.a
    checks "$folder/standard_error"
    compile standard_error "$folder/shared_error" face/out/libcivdrax.so \
        "-Wl,-rpath,$PWD/face/out"
    checks "$folder/shared_error"
    CIVDRAX_SLOTS=4 CIVDRAX_HEIGHT=6 checks "$folder/threads"
    CIVDRAX_SLOTS=1 CIVDRAX_HEIGHT=2 checks "$folder/threads"
}

# The scripts of the client $1, which the words from $2 on run: over the kernel, over these queues,
# and where each call answers ENOSYS.
client() {
    local status=0 calls
    rm -f "$folder/count"
    timeout "$seconds" "${@:2}" 1 "$scripts" > "$folder/kernel" 2> "$folder/err"
    count $? "$1 over the kernel: $(head -n 1 "$folder/err")"
    timeout "$seconds" env CIVDRAX_COUNT="$folder/count" LD_PRELOAD="$preload" \
        "${@:2}" 1 "$scripts" > "$folder/here" 2> "$folder/err"
    count $? "$1 over these queues: $(head -n 1 "$folder/err")"
    python3 - "$folder/kernel" "$folder/here" > "$folder/compared" <<'PYTHON'
import sys

parts = [open(name, encoding="utf-8").read().split("seed ")[1:] for name in sys.argv[1:]]
same = sum(one == other for one, other in zip(*parts))
print(same, max(map(len, parts)) - same)
PYTHON
    read -r same other < "$folder/compared"
    passed=$((passed + same))
    failed=$((failed + other))
    [ "$same" -ge "$scripts" ]
    count $? "$1: $same scripts are answered alike, $other are not"
    calls=$(cat "$folder/count")
    [ "${calls:-0}" -ge $((scripts * 20)) ]
    count $? "$1 has made only ${calls:-0} calls here"
    timeout "$seconds" env LD_PRELOAD="$folder/enosys.so" "${@:2}" 1 1 > "$folder/out" 2>&1 \
        || status=$?
    [ "$status" -ne 0 ] && [ "$status" -lt 124 ]
    count $? "$1 does not fail where each call answers ENOSYS"
    echo "face: $1: $same scripts alike, $calls calls here"
}

# A client whose package is there, as the words from $3 on say; else it is left out.
client_of() {
    if "${@:3}" > "$folder/out" 2>&1; then
        client "$1" $2
    else
        left_out=$((left_out + 1))
        echo "face: LEFT OUT: $scripts scripts of $1: its package is not here"
    fi
}

clients() {
    cc "${warnings[@]}" -shared -fPIC -o "$folder/enosys.so" face/tests/enosys.c -ldl
    count $? "face/tests/enosys.c does not compile"
    compile script "$folder/script"
    client C "$folder/script"
    [ "$(grep -c EINTR "$folder/here")" -ge "$scripts" ]
    count $? "a signal ended only $(grep -c EINTR "$folder/here") calls of C"
    client_of Perl 'perl face/tests/script.pl' perl -MIPC::SysV -MIPC::Msg -e 1
    client_of PHP 'php face/tests/script.php' \
        php -r 'exit(function_exists("msg_get_queue") ? 0 : 1);'
    client_of Python '/usr/bin/python3 face/tests/script.py' /usr/bin/python3 -c 'import sysv_ipc'
}

# The client $1 by the words from $2 on, whose waits signals end, beside others: over the kernel,
# over these queues, and where no signal is sent, which the watchdog has to end.
start_to_end() {
    local it=$folder/ends/$1
    { timeout 30 "${@:2}"; echo "status $?"; } > "$it.kernel" 2>&1 &
    { timeout 30 env CIVDRAX_COUNT="$it.count" LD_PRELOAD="$preload" "${@:2}"
        echo "status $?"; } > "$it.here" 2>&1 &
    { timeout 3 env LD_PRELOAD="$preload" "${@:2}" control
        echo "status $?"; } > "$it.control" 2>&1 &
}

has_ended() {
    local it=$folder/ends/$1
    [ "$(tail -n 1 "$it.here")" = 'status 0' ] && cmp "$it.kernel" "$it.here" > "$folder/out"
    count $? "$1 does not end as over the kernel: $(tr '\n' ',' < "$it.here")"
    [ "$(cat "$it.control")" = 'status 124' ]
    count $? "$1 ends where no signal comes: $(tr '\n' ',' < "$it.control")"
    [ "$(awk '{ all += $1 } END { print all + 0 }' "$it.count")" -ge 5 ]
    count $? "$1 has made too few calls here"
}

# Programs that signals end. A client whose package is not there was reported by then.
ends() {
    local names=(C) name
    mkdir "$folder/ends"
    compile ends "$folder/ends/c"
    start_to_end C "$folder/ends/c"
    perl -MIPC::SysV -e 1 2> "$folder/err" && names+=(Perl) \
        && start_to_end Perl perl face/tests/ends.pl
    php -r 'exit(function_exists("msg_get_queue") && function_exists("pcntl_alarm") ? 0 : 1);' \
        > "$folder/out" 2>&1 && names+=(PHP) && start_to_end PHP php face/tests/ends.php
    /usr/bin/python3 -c 'import sysv_ipc' 2> "$folder/err" && names+=(Python) \
        && start_to_end Python /usr/bin/python3 face/tests/ends.py
    wait
    for name in "${names[@]}"; do has_ended "$name"; done
    echo "face: ended by signals: ${names[*]}"
}

build
library_names
programs
preloaded
installed
plus_plus
sanitized
allocations
table
sizes
clients
ends
echo "face: $left_out clients left out"
echo "face: $passed passed, $failed failed"
[ "$failed" -eq 0 ]
