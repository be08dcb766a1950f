#!/usr/bin/env bash
# The exit statuses of mqsim, each with all that is written to standard output and standard error.
# Status 5 is tried by allocations.sh, and the mistakes that a command line can have by
# command_lines.sh. Requires mqsim to be built. Prints the cases that fail; the last line counts.
#
# Of the wrong bodies that the proofs let through it finds these, each of which was tried:
#   a fault is not named on standard error;
#   the result of a run is ignored (`told(rt, Ok(()))`);
#   a help that could not be written ends with 0.
source "$(dirname "$0")/cases.sh"

# The case $1 has ended with the status $?; it must be $2, with $3 and $4 on the two outputs.
ended() {
    local status=$?
    [ "$status" -eq "$2" ] && printf "$3" | cmp -s - "$seen/out" \
        && printf "$4" | cmp -s - "$seen/err"
    count $? "$1: status $status, standard error: $(head -c 300 "$seen/err")"
    : > "$seen/out"
    : > "$seen/err"
}

# Runs the script that $1 spells, with the words from $2 on.
run() {
    printf "$1" | "$program" "${@:2}" > "$seen/out" 2> "$seen/err"
}

# A pipe whose reader is closed, as file descriptor 6.
mkfifo "$seen/pipe"
exec 5<> "$seen/pipe" 6> "$seen/pipe" 5<&-

# No fault.
run 'get 0 c\nget 0\n';         ended 'a run' 0 'id 0\nid 1\n' ''
run '';                         ended 'an empty script' 0 '' ''
run 'get 1\nrm 0\n';            ended 'refused calls' 0 'ENOENT\nEINVAL\n' ''

# A script that is not well formed: the answers of the lines before it, its number and its cause.
long=$(printf '#%.0s' {1..4097})
for line in "$long long" 'get\t0 byte' 'get words' 'get\0400\040cx\040 words' 'get\0400x number'; do
    cause=${line##* }
    line=${line% *}
    run "$line"
    ended "$cause in line 1" 1 '' "mqsim: line 1: $cause\n"
    run "get 0 c\n\n# a note\nget 0 c\n$line\nget 0 c\n"
    ended "$cause in line 5" 1 'id 0\nid 1\n' "mqsim: line 5: $cause\n"
done
{ echo 'get 0 c'; yes '#' | head -c 1048568; } > "$seen/script"
"$program" < "$seen/script" > "$seen/out" 2> "$seen/err"
ended '1,048,576 bytes' 0 'id 0\n' ''
echo >> "$seen/script"
"$program" < "$seen/script" > "$seen/out" 2> "$seen/err"
ended '1,048,577 bytes' 1 '' 'mqsim: script too long\n'

# A read that fails.
"$program" < / > "$seen/out" 2> "$seen/err"
ended 'a directory as standard input' 3 '' 'mqsim: read failed\n'
"$program" <&- > "$seen/out" 2> "$seen/err"
ended 'no standard input' 3 '' 'mqsim: read failed\n'

# A script's file: it is run as standard input is, with the same faults, and where it cannot be
# opened the fault has its name. A second line says which words are subcommands.
missing="mqsim: $seen/missing: No such file or directory (os error 2)\\n"
missing+="mqsim: a word that is no command names a script's file\\n"
for words in '' serial; do
    printf 'get 0 c\nget\n' > "$seen/file"
    "$program" $words "$seen/file" > "$seen/out" 2> "$seen/err"
    ended "a file with a fault, after '$words'" 1 'id 0\n' 'mqsim: line 2: words\n'
    : > "$seen/file"
    "$program" $words "$seen/file" > "$seen/out" 2> "$seen/err"
    ended "an empty file, after '$words'" 0 '' ''
    "$program" $words "$seen/script" > "$seen/out" 2> "$seen/err"
    ended "a file of 1,048,577 bytes, after '$words'" 1 '' 'mqsim: script too long\n'
    "$program" $words "$seen/missing" > "$seen/out" 2> "$seen/err"
    ended "a file that is not there, after '$words'" 2 '' "$missing"
    "$program" $words "$seen" > "$seen/out" 2> "$seen/err"
    ended "a directory, after '$words'" 2 '' "mqsim: $seen: is a directory\n"
    "$program" $words /proc/self/mem > "$seen/out" 2> "$seen/err"
    ended "a file whose read fails, after '$words'" 3 '' 'mqsim: read failed\n'
done

# A write that fails: of one answer, of many, after a fault of the script, and of the help.
yes ipcs | head -1000 > "$seen/many"
for script in 'get 0 c\n' 'get 0 c\nget\n' "$(cat "$seen/many")"; do
    printf "$script" | "$program" > /dev/full 2> "$seen/err"
    ended 'a full device' 4 '' 'mqsim: write failed\n'
    printf "$script" | "$program" >&- 2> "$seen/err"
    ended 'no standard output' 4 '' 'mqsim: write failed\n'
    printf "$script" | "$program" >&6 2> "$seen/err"
    ended 'a reader that has gone' 4 '' 'mqsim: write failed\n'
done
for words in --help 'help serial'; do
    "$program" $words > /dev/full 2> "$seen/err"
    ended 'the help to a full device' 4 '' 'mqsim: write failed\n'
    "$program" $words >&- 2> "$seen/err"
    ended 'the help to no standard output' 4 '' 'mqsim: write failed\n'
done

# A threads script: no fault, a line that is not well formed, which is found before anything is run,
# a read and a write that fail, and threads that cannot be made. That last one is status 6: a limit
# on the address space lets the program start, and leaves no room for the stacks of 15 threads.
pair='get 0 c\nworker\nput 0 1 3 10\nworker\ntake 0 1 3\n'
told='id 0\nworker 2 sent 3 received 0 order yes end done\n'
told+='worker 3 sent 0 received 3 order yes end done\n'
told+='slot 0 events 7 sent 3 received 3 left 0\npages 64 free 64\n'
run "$pair" threads;            ended 'a run of threads' 0 "$told" ''
printf "$pair" > "$seen/file"
"$program" threads "$seen/file" > "$seen/out" 2> "$seen/err"
ended 'a run of threads of a file' 0 "$told" ''
"$program" threads "$seen" > "$seen/out" 2> "$seen/err"
ended 'a directory after threads' 2 '' "mqsim: $seen: is a directory\n"
run '' threads;                 ended 'an empty threads script' 0 'pages 64 free 64\n' ''
run 'put 0 1 1 1\n' threads;    ended 'put in the main part' 1 '' 'mqsim: line 1: words\n'
run "${pair}get 0 c\n" threads; ended 'get in a section' 1 '' 'mqsim: line 6: words\n'
run "${pair}rm 01\n" threads;   ended 'a number in a section' 1 '' 'mqsim: line 6: number\n'
run "$(printf 'worker\\n%.0s' {1..16})" threads
ended 'a sixteenth worker' 1 '' 'mqsim: line 16: words\n'
"$program" threads < / > "$seen/out" 2> "$seen/err"
ended 'a directory as standard input of threads' 3 '' 'mqsim: read failed\n'
printf "$pair" | "$program" threads > /dev/full 2> "$seen/err"
ended 'threads to a full device' 4 '' 'mqsim: write failed\n'
{ echo 'get 0 c'; yes worker | head -15; } > "$seen/script"
(ulimit -v 60000; exec "$program" threads < "$seen/script" > "$seen/out" 2> "$seen/err")
ended 'no room for threads' 6 'id 0\n' 'mqsim: thread not started\n'

# A picture or a trace: a line that is not well formed, before which nothing is written, a script that
# is too long, a read and a write that fail, and threads that cannot be made.
for words in picture trace 'picture --threads' 'trace --threads'; do
    run 'get 0 c\nget\n' $words; ended "a fault, after $words" 1 '' 'mqsim: line 2: words\n'
    { yes '#' | head -c 1048577; } | "$program" $words > "$seen/out" 2> "$seen/err"
    ended "1,048,577 bytes, after $words" 1 '' 'mqsim: script too long\n'
    "$program" $words < / > "$seen/out" 2> "$seen/err"
    ended "a directory as standard input, after $words" 3 '' 'mqsim: read failed\n'
    : > "$seen/out"
    printf 'get 0 c\n' | "$program" $words > /dev/full 2> "$seen/err"
    ended "a full device, after $words" 4 '' 'mqsim: write failed\n'
done
(ulimit -v 60000; exec "$program" trace --threads < "$seen/script" > "$seen/out" 2> "$seen/err")
ended 'no room for threads that are traced' 6 '' 'mqsim: thread not started\n'

# A script that is typed at a terminal has its end reported there, and a serial one has a prompt.
# Prints what the terminal shows of a script that is typed there, of the program with the words of
# the table, and ends with its status.
typed() {
    python3 - crates/mqsim/out/mqsim "$@" <<'PYTHON'
import os, pty, signal, sys
child, terminal = pty.fork()
if child == 0:
    signal.alarm(60)
    os.execv(sys.argv[1], sys.argv[1:])
os.write(terminal, b"get 0 c\n\x04")
shown = b""
while True:
    try:
        part = os.read(terminal, 4096)
    except OSError:
        break
    if not part:
        break
    shown += part
sys.stdout.buffer.write(shown.replace(b"\r", b""))
sys.exit(os.waitstatus_to_exitcode(os.waitpid(child, 0)[1]))
PYTHON
}
hint='^mqsim: type .*, then Ctrl-D (their lines: mqsim --help)$'
echo arena > "$seen/file"
#   hints  answer      words
while read -r hints answer words; do
    typed $words > "$seen/out"
    status=$?
    [ "$status" -eq 0 ] && [ "$(grep -c "$hint" "$seen/out")" -eq "$hints" ] \
        && grep -q "^\(> \)\?${answer/_/ }" "$seen/out"
    count $? "typed, with '$words': status $status, shown: $(head -c 300 "$seen/out")"
done <<END
    1      id_0
    1      id_0        -
    1      id_0        serial --height 3
    1      id_0        threads
    0      pages_64    $seen/file
END
: > "$seen/out"
: > "$seen/err"

# A standard error that accepts nothing changes no status and no answer.
printf 'get 0 c\nget\n' > "$seen/script"
"$program" < "$seen/script" 2> /dev/full > "$seen/out"
ended 'status 1 with a full standard error' 1 'id 0\n' ''
"$program" < "$seen/script" 2>&- > "$seen/out"
ended 'status 1 with no standard error' 1 'id 0\n' ''
printf 'get 0 c\n' | "$program" 2>&- > "$seen/out"
ended 'status 0 with no standard error' 0 'id 0\n' ''
"$program" < / 2> /dev/full > "$seen/out"
ended 'status 3 with a full standard error' 3 '' ''
"$program" nonsense 2> /dev/full > "$seen/out" < /dev/null
ended 'status 2 with a full standard error' 2 '' ''
"$program" nonsense 2>&- > "$seen/out" < /dev/null
ended 'status 2 with no standard error' 2 '' ''

echo "statuses: $passed passed, $failed failed"
[ "$failed" -eq 0 ]
