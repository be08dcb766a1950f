#!/usr/bin/env bash
# Runs mqsim over each script of serial_tables.sh, over texts that just fit and just do not fit a
# block, and over a script that uses a slot up, and compares its answers: all of both outputs, and
# status 1 where a line is not well formed, else 0. The tables of ipcs(1) are beside those of
# the installed one. Requires mqsim to be built. Prints the cases that fail; the last line counts.
source "$(dirname "$0")/cases.sh"

table() {
    property=$1
}

case_of() {
    local words status=0
    read -ra words <<< "$1"
    printf "$2" | "$program" "${words[@]}" > "$seen/out" 2> "$seen/err" || status=$?
    printf "$3" > "$seen/wanted"
    printf "${4-}" > "$seen/fault"
    [ "$status" -eq $(($# > 3)) ] && cmp -s "$seen/out" "$seen/wanted" \
        && cmp -s "$seen/err" "$seen/fault"
    count $? "$property: mqsim $1 <<< '${2:0:200}': status $status," \
        "$(diff "$seen/wanted" "$seen/out" | head -3 | cut -c 1-200)," \
        "standard error: $(head -c 300 "$seen/err")"
}

source tests/serial_tables.sh || exit 1

table a_text_is_answered_whole
letters=$(printf 'abcdefghijklmnopqrstuvwxyz%.0s' {1..2521})
for length in 8192 8193 16384 16385 32768 32769 65536; do
    answer="msg 1 seat 1 tag 2 len $length =${letters:0:length}"
    case_of 'serial --height 6' \
        "get 0 c\nsnd 0 1 *$length\nrcv 0 $length 0\narena\n" \
        "id 0\nat 1\n$answer\npages 64 free 64 largest 6\n"
done

# A slot has 32,768 queues, one after another, and then no more; the last id is 2,097,088.
table a_slot_is_used_up
case_of 'serial --slots 1' \
    "$(awk 'BEGIN { for (k = 0; k < 32768; k++) printf "get 0 c\\nrm %d\\n", 64 * k }')get 0 c\n" \
    "$(awk 'BEGIN { for (k = 0; k < 32768; k++) \
        printf "id %d\\nat %d events 2\\n", 64 * k, 2 * k + 1 }')ENOSPC\n"
# The titles, the names of the columns and the labels are those of the installed ipcs of util-linux.
table tables_have_the_words_of_ipcs
words_of() {
    head -n 3 "$1"
    sed -n '/Messages Limits/,/^$/s/[0-9]*$//p' "$2"
}
if ipcs --version 2> /dev/null | grep -q util-linux; then
    LC_ALL=C ipcs -q > "$seen/queues"
    LC_ALL=C ipcs -l > "$seen/limits"
    words_of "$seen/queues" "$seen/limits" > "$seen/wanted"
    printf 'ipcs -q x\nipcs -l\n' | "$program" > "$seen/tables"
    words_of "$seen/tables" "$seen/tables" > "$seen/out"
    [ "$(wc -l < "$seen/out")" -eq 8 ] && cmp -s "$seen/out" "$seen/wanted"
    count $? "$property: $(diff "$seen/wanted" "$seen/out" | head -3)"
else
    echo "serial: LEFT OUT: the tables beside those of ipcs of util-linux, which is not here"
fi
at_least 203
echo "serial: $passed passed, $failed failed"
[ "$failed" -eq 0 ]
