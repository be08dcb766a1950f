#!/usr/bin/env bash
# The command lines of mqsim: what each is answered, and what each option does.
# Requires mqsim to be built. Prints the cases that fail; the last line counts.
#
# Of the wrong bodies that the proofs let through it finds these, each of which was tried:
#   the parser's error is not printed;
#   an option that was read is ignored
#     (`Config { height: SCRIPT_DEFAULTS.height, ..options_of(given) }`);
#   the parser's range of an option is narrower (`.range(1..=63)`);
#   words without a subcommand have another default.
source "$(dirname "$0")/cases.sh"

# Counts a run with the words from $2 on, which was right if $1 is 0.
ran() {
    count "$1" "mqsim$(printf ' %q' "${@:2}"): status $status," \
        "standard error: $(head -c 300 "$seen/err")"
}

# The table of the words, on a script of the one line `arena`: the status; what is on standard
# output, `none`, `help`, `version`, or `pages N`, the arena that the script saw; what is on
# standard error, `none`, `error` (the parser's), `fault` (the program's own) or `file` (of a
# script's file that cannot be opened); and the words. Where no script is run, or the words name its
# file, standard input must not have been read.
echo arena > "$seen/script"

# The version, which the program, its page, the C part and the packages have.
version=$(sed -n 's/^## \([0-9.]*\).*/\1/p' CHANGELOG.md | head -n 1)

# Whether the file $2 has what $1 says.
has() {
    case $1 in
        none) [ ! -s "$2" ] ;;
        help) grep -q '^Usage: mqsim' "$2" ;;
        version) [ "$(cat "$2")" = "mqsim $version" ] ;;
        error) grep -q '^error: ' "$2" ;;
        fault) grep -q '^mqsim: command line: ' "$2" ;;
        file) grep -q '^mqsim: .*: ' "$2" ;;
        trace) [ "$(head -c 2 "$2")" = '{"' ] ;;
        picture) head -n 2 "$2" | grep -q '<svg ' ;;
        pages\ *) [ "$(wc -l < "$2")" -eq 1 ] && grep -q "^$1 " "$2" ;;
    esac
}

run() {
    local left=$seen/script
    [[ $2 =~ ^(pages|trace|picture) ]] && left=/dev/null
    leaves "$left" "$@"
}

# The same, of words that name the script's file, or one that cannot be opened.
file() {
    leaves "$seen/script" "$@"
}

# The same, where of standard input what the file $1 has must be left.
leaves() {
    {
        "$program" "${@:5}" > "$seen/out" 2> "$seen/err"
        status=$?
        cat > "$seen/left"
    } < "$seen/script"
    [ "$status" -eq "$2" ] && has "$3" "$seen/out" && has "$4" "$seen/err" \
        && cmp -s "$seen/left" "$1"
    ran $? "${@:5}"
}

#   status  output       error  words
run 0       'pages 64'   none
run 0       'pages 64'   none   serial
run 0       'pages 8'    none   serial --height 3
run 0       'pages 1'    none   serial --height=0
run 0       'pages 1024' none   serial --height 10
run 0       'pages 64'   none   serial --slots 1 --last-seq 0
run 0       'pages 64'   none   serial --slots 64 --last-seq 32767
run 0       'pages 4'    none   serial --last-seq 1 --slots 2 --height 2
run 0       'pages 8'    none   serial --height +3
run 0       'pages 128'  none   serial --height 007
run 0       'pages 64'   none   --
run 0       'pages 64'   none   serial --
run 0       'pages 64'   none   -
run 0       'pages 64'   none   serial -
run 0       'pages 8'    none   serial --height 3 -
run 0       trace        none   trace
run 0       trace        none   trace --height 3 --slots 2 --last-seq 1 -
run 0       picture      none   picture
run 0       picture      none   picture --slots 64

# Scripts in files, one with a name that a subcommand has, and one with a name like an option's.
for name in file serial -file; do
    cp "$seen/script" "$seen/$name"
done
: > "$seen/empty"
cd "$seen"
file 0      'pages 64'   none   file
file 0      'pages 64'   none   "$seen/file"
file 0      'pages 64'   none   ./serial
file 0      'pages 64'   none   -- serial
file 0      'pages 64'   none   -- -file
file 0      'pages 64'   none   serial file
file 0      'pages 64'   none   serial serial
file 0      'pages 8'    none   serial --height 3 file
file 0      'pages 8'    none   serial file --height 3
file 0      none         none   empty
file 0      'pages 64'   none   threads empty
file 0      'pages 8'    none   threads --height 3 empty
file 0      trace        none   trace file
file 0      trace        none   trace --threads empty
file 0      picture      none   picture file
file 0      picture      none   picture --height 3 empty --threads
file 2      none         file   trace missing
file 2      none         file   picture .
file 2      none         error  picture file extra
file 2      none         error  serial --threads file
file 2      none         error  trace -i
file 2      none         file   missing
file 2      none         file   Serial
file 2      none         file   ''
file 2      none         file   serial missing
file 2      none         file   threads missing
file 2      none         file   threads serial/script
file 2      none         file   .
file 2      none         file   serial .
file 2      none         error  file extra
file 2      none         error  file serial
file 2      none         error  file --height 3
file 2      none         error  -file
file 2      none         error  serial file extra
file 2      none         error  serial --height 11 file
cd - > /dev/null

run 2       none         error  serial --height 11
run 2       none         error  serial --slots 0
run 2       none         error  serial --slots 65
run 2       none         error  serial --last-seq 32768
run 2       none         error  serial --last-seq 18446744073709551616
run 2       none         error  serial --height -1
run 2       none         error  serial --height=-1
run 2       none         error  serial --height x
run 2       none         error  serial --height 3.0
run 2       none         error  serial --height ''
run 2       none         error  serial --height
run 2       none         error  serial --height 3 --height 3
run 2       none         error  serial --seats 16
run 2       none         error  serial -H 3
run 2       none         error  threads --height 11
run 2       none         error  threads --slots 0
run 2       none         error  threads --last-seq 32768
run 2       none         error  threads --height
run 2       none         error  trace --height 11
run 2       none         error  picture --slots 0
run 2       none         error  picture --threads=1
run 2       none         error  --threads
run 2       none         error  --height 3 threads
run 2       none         error  --height 3 serial
run 2       none         error  --height 3
run 2       none         fault  serial $'\xff'
run 2       none         error  help nonsense

run 0       help         none   --help
run 0       help         none   -h
run 0       help         none   help
run 0       help         none   help serial
run 0       help         none   serial --help
run 0       help         none   serial --height 3 --help
run 0       help         none   help threads
run 0       help         none   threads --help
run 0       help         none   threads --slots 3 --help
run 0       help         none   picture --help
run 0       help         none   help trace
run 0       version      none   --version
run 0       version      none   -V
for it in 'crates/mqsim/mqsim.1:.Os Civdrax %s' 'face/civdrax.3:.Os Civdrax %s' \
    'face/civdrax.h:#define CIVDRAX_VERSION "%s"' 'face/Makefile:version := %s' \
    'debian/changelog:civdrax (%s) '; do
    printf -v line "${it#*:}" "$version"
    grep -q -F -e "$line" "${it%%:*}"
    count $? "${it%%:*} has no line $line"
done

# What the help has, of the command line and of both kinds of scripts.
shows() {
    "$program" $1 > "$seen/out" 2> "$seen/err"
    status=$?
    for name in "${@:2}"; do
        grep -q -e "$name" "$seen/out"
        ran $? "$1" "($name)"
    done
}
serial=('get KEY' 'snd ID' 'rcv ID' 'stat ID' 'set ID' 'rm ID' 'cut SLOT' '^  ipcs  ' \
    'ipcs -q \[x\]' 'ipcs -l' info arena 'seat S')
sections=(worker 'put ID' 'take ID' 'rm ID' 'or forever' 'within MS' Ctrl-D)
causes=('^  long ' '^  byte ' '^  words ' '^  number ')
for words in --help -h help; do
    shows "$words" SCRIPT --height --slots --last-seq serial threads '^  picture ' '^  trace ' \
        docs/SCRIPT.md "${serial[@]}" \
        "${sections[@]}" "${causes[@]}"
done
shows 'serial --help' SCRIPT --height --slots --last-seq
shows 'threads --help' SCRIPT --height --slots --last-seq "${sections[@]}"
shows 'picture --help' SCRIPT --height --slots --last-seq --threads
shows 'trace --help' SCRIPT --height --slots --last-seq --threads

# The example that the help has can be pasted.
example=$("$program" --help | sed -n 's/^ *\(printf .*\) | mqsim$/\1/p')
eval "$example" | "$program" > "$seen/out" 2> "$seen/err"
status=$?
printf '%s\n' 'id 0' 'at 1' 'msg 1 seat 1 tag 2 len 5 =hello' | cmp -s - "$seen/out"
ran $? "after $example"

# An unknown option is answered by the one that is close to it, which is the first word here.
close() {
    "$program" "${@:2}" < /dev/null > "$seen/out" 2> "$seen/err"
    status=$?
    [ "$status" -eq 2 ] && grep -q -e "^  tip: a similar argument exists: '$1'" "$seen/err"
    ran $? "${@:2}"
}
close --height    serial --heigth 3
close --slots     threads --slot 3
close --last-seq  serial --lastseq 3

# What each option does. The words from $1 on run a script that is in the file `script`, and must
# answer what is in the file `wanted`.
effect() {
    "$program" "$@" < "$seen/script" > "$seen/out" 2> "$seen/err"
    status=$?
    [ "$status" -eq 0 ] && [ ! -s "$seen/err" ] && cmp -s "$seen/out" "$seen/wanted"
    ran $? "$@"
}

# A height is the arena's: 2^H pages, of which the largest block has order H.
height() {
    local pages=$((1 << $1))
    echo arena > "$seen/script"
    echo "pages $pages free $pages largest $1" > "$seen/wanted"
    effect "${@:2}"
}
height 6
height 6  serial
for height in 0 1 5 6 7 10; do
    height $height serial --height $height
done

# Of S slots, S + 1 queues find the last one used up.
slots() {
    yes 'get 0 c' | head -$(($1 + 1)) > "$seen/script"
    { seq -f 'id %.0f' 0 $(($1 - 1)); echo ENOSPC; } > "$seen/wanted"
    effect "${@:2}"
}
slots 16
slots 16  serial
for slots in 1 2 16 40 63 64; do
    slots $slots serial --slots $slots
done

# In a slot whose last queue has seq Q, Q + 1 queues are made and removed, and no other. The first
# word says how many slots there are: all but slot 0 keep their first queue.
last_seq() {
    local others=$(($1 - 1))
    {
        yes 'get 0 c' | head -"$1"
        seq -f $'rm %.0f\nget 0 c' 0 64 $((64 * $2))
    } > "$seen/script"
    {
        seq -f 'id %.0f' 0 $others
        for ((seq = 1; seq <= $2; seq++)); do
            echo "at $((2 * seq - 1)) events 2"
            echo "id $((64 * seq))"
        done
        echo "at $((2 * $2 + 1)) events 2"
        echo ENOSPC
    } > "$seen/wanted"
    effect "${@:3}"
}
last_seq 16 32767
last_seq 16 32767  serial
for last in 0 1 1000 32766 32767; do
    last_seq 1 $last serial --slots 1 --last-seq $last
done

# The same options after threads: the pages, the slots, and the queues of a slot.
: > "$seen/script"
echo 'pages 64 free 64' > "$seen/wanted"
effect threads
effect threads -
echo 'pages 8 free 8' > "$seen/wanted"
effect threads --height 3
yes 'get 0 c' | head -3 > "$seen/script"
printf '%s\n' 'id 0' 'id 1' ENOSPC > "$seen/wanted"
for slot in 0 1; do
    echo "slot $slot events 1 sent 0 received 0 left 0"
done >> "$seen/wanted"
echo 'pages 64 free 64' >> "$seen/wanted"
effect threads --slots 2
# A slot whose last queue has seq 0: the next id was never given.
printf '%s\n' 'get 0 c' worker 'rm 0' worker 'put 64 1 1 1' > "$seen/script"
{
    echo 'id 0'
    echo 'worker 2 sent 0 received 0 order yes end done'
    echo 'worker 3 sent 0 received 0 order yes end EINVAL'
    echo 'slot 0 events 2 sent 0 received 0 left 0'
    echo 'pages 64 free 64'
} > "$seen/wanted"
effect threads --slots 1 --last-seq 0

echo "command_lines: $passed passed, $failed failed"
[ "$failed" -eq 0 ]
