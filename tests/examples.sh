#!/usr/bin/env bash
# Runs mqsim over each script of examples/ and compares its output with the answers beside it, with
# the words of NAME.args where there are some, and with the picture, where there is one; and checks
# that README's first script, examples/first and the script that the gate runs the program on are
# the same. Then it has tests/blocks.py try each code block of README.md, CONTRIBUTING.md and docs/,
# and checks that the pages are no longer than they may be. Requires mqsim to be built, and builds
# face/ where it is not. Prints the cases that fail; the last line counts.
source "$(dirname "$0")/cases.sh"

for script in examples/*; do
    [[ $script == *.* ]] && continue
    words=()
    [ -e "$script.args" ] && mapfile -t words < "$script.args"
    "$program" "${words[@]}" < "$script" > "$seen/out" 2> "$seen/err"
    [ $? -eq 0 ] && [ ! -s "$seen/err" ] && cmp -s "$seen/out" "$script.stdout"
    count $? "$script has other answers: $(diff "$seen/out" "$script.stdout" | head -3)"
    # A picture of the run, where there is one: it is of a serial script.
    [ -e "$script.svg" ] || continue
    "$program" picture "${words[@]:1}" < "$script" 2>&1 | cmp -s - "$script.svg"
    count $? "$script.svg is not the picture of $script"
done

# In the README's block each line has a call, what it does, and its answer, with two spaces at
# least between them.
sed -n '/^## A first script/,/^## /p' README.md | sed -n '/^```/,/^```/p' | grep -v '^```' \
    > "$seen/block"
sed 's/  .*//' "$seen/block" > "$seen/first"
sed 's/.*  //' "$seen/block" > "$seen/first.stdout"
for pair in 'first stdin' 'first.stdout stdout'; do
    read -r name given <<< "$pair"
    cmp -s "$seen/$name" "examples/$name" && [ -s "$seen/$name" ]
    count $? "examples/$name is not the README's first script"
    cmp -s "$seen/$name" "crates/mqsim/$given"
    count $? "crates/mqsim/$given is not the README's first script"
done

[ -e face/out/libcivdrax.a ] && [ -e face/out/libcivdrax_preload.so ] \
    || make -C face > "$seen/made" 2>&1
count $? "make -C face: $(tail -n 3 "$seen/made" 2> "$seen/err")"
tests/blocks.py > "$seen/blocks" 2>&1
cat "$seen/blocks"
if [[ $(tail -n 1 "$seen/blocks") =~ ^blocks:\ ([0-9]+)\ passed,\ ([0-9]+)\ failed$ ]]; then
    passed=$((passed + BASH_REMATCH[1]))
    failed=$((failed + BASH_REMATCH[2]))
else
    count 1 "tests/blocks.py did not come to its end"
fi

# Checks that standard input has at most $1 lines, words or bytes, as $2 counts them.
at_most() {
    local length
    length=$(wc "$2")
    [ "$length" -le "$1" ]
    count $? "$3 has $length by wc $2, of at most $1"
}
at_most 190 -l README.md < README.md
at_most 11264 -c README.md < README.md
at_most 22000 -w 'docs/*.md, CALLING.md and CONTRIBUTING.md' \
    < <(cat docs/*.md crates/mq/CALLING.md CONTRIBUTING.md)

at_least 30
echo "examples: $passed passed, $failed failed"
[ "$failed" -eq 0 ]
