#!/bin/bash
# Times a pair of calls, msgsnd and msgrcv, through the C library of face/ and on a queue of the
# kernel, one thread, at 0 and at 1,000 bytes: `bench/face.sh [ROUNDS] [PAIRS]`, at least 15 rounds,
# in which they take turns. Fails where a median is over 0.6 of the kernel's. Requires `rt` and cc.
set -euo pipefail
cd "$(dirname "$0")/.."
make -s -C face > /dev/null
folder=$(mktemp -d)
trap 'rm -rf "$folder"' EXIT
cc -O2 -Wall -Wextra -Werror -o "$folder/face_pair" bench/face_pair.c face/out/libcivdrax.a -pthread
echo "load average at the start: $(cut -d ' ' -f 1-3 /proc/loadavg) on $(nproc) processors"
"$folder/face_pair" "${1:-31}" "${2:-50000}"
