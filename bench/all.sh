#!/usr/bin/env bash
# Runs the scripts behind the tables and pictures of docs/PERFORMANCE.md, docs/C.md and this folder's
# README, one after another, with the words that those were measured by:
#
#     bench/all.sh FOLDER [NAME ..]     all, or those of these names: what NAME.sh prints is in
#                                       FOLDER/NAME.out, and its picture in FOLDER/NAME.svg
#     bench/all.sh --list               prints the calls, and makes none
#
# The pictures and cycle.txt belong in docs/pictures. Where one fails, the others run none the less,
# and the status is 1. Requires what each requires, and an idle machine.
set -uo pipefail
[ $# -gt 0 ] || { echo "usage: bench/all.sh --list | FOLDER [NAME ..]" >&2 && exit 2; }
folder=$(realpath -m -- "$1") failed=0
cd "$(dirname "$0")/.."

# The calls, where '' is what a script takes if not given, and SVG its picture.
calls() {
    cat << 'END'
tree_instructions
cycle '' '' SVG
system
threads 20000 9 SVG
board
index
waiting '' SVG
run '' 101
cut
face
face_threads '' '' SVG
start
END
}

[ "$1" = --list ] && folder=FOLDER || mkdir -p "$folder" || exit
while read -r name words; do
    [ $# -eq 1 ] || [[ " ${*:2} " == *" $name "* ]] || continue
    call="bench/$name.sh${words:+ ${words/SVG/$(printf %q "$folder/$name.svg")}}"
    echo "$call > $folder/$name.out"
    [ "$1" != --list ] || continue
    bash -c "$call" > "$folder/$name.out" 2>&1 < /dev/null
    status=$?
    [ "$status" -eq 0 ] || { failed=1 && echo "FAILED: status $status"; }
done < <(calls)
exit "$failed"
