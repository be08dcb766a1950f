# What the scripts of this folder that try mqsim share, each of which sources it: they run at the
# top of the repository, keep what the program writes in a folder that goes with them, and count
# their cases. A run of the program that does not end within a minute is stopped, with status 124.
set -uo pipefail
cd "$(dirname "$0")/.."
seen=$(mktemp -d)
trap 'rm -rf "$seen"' EXIT
program=$seen/mqsim
printf '#!/bin/sh\nexec timeout 60 %q "$@"\n' "$PWD/crates/mqsim/out/mqsim" > "$program"
chmod +x "$program"
passed=0
failed=0

# Fails where fewer than $1 cases were counted, as when a table was not read.
at_least() {
    [ $((passed + failed)) -ge "$1" ] || count 1 "of at least $1 cases only $((passed + failed)) were tried"
}

# Counts a case, which passed if $1 is 0, and else is printed with the words from $2 on.
count() {
    if [ "$1" -eq 0 ]; then
        passed=$((passed + 1))
    else
        failed=$((failed + 1))
        echo "$(basename "$0" .sh): ${*:2}"
    fi
}
