#!/usr/bin/env bash
# Runs mqsim, which `rt try` builds without proofs, over each script of serial_tables.sh and of
# examples/, and compares their answers on standard output. Prints the cases that fail; the last
# line counts.
source "$(dirname "$0")/cases.sh"
cases=$seen/cases
mkdir "$cases"

table() {
    property=$1
}

case_of() {
    local number
    number=$(find "$cases" -name "${property}_*.args" | wc -l)
    printf '%s\n' ${1:-serial} > "$cases/${property}_$number.args"
    printf "$2" > "$cases/${property}_$number"
    printf "$3" > "$cases/${property}_$number.stdout"
}

source tests/serial_tables.sh || exit 1
for script in examples/*.stdout; do
    name=$(basename "$script" .stdout)
    cp "examples/$name" "$script" "$cases"
    if [ -e "examples/$name.args" ]; then cp "examples/$name.args" "$cases"; fi
done
(cd crates/mqsim && rt try --cases "$cases") > "$seen/out" 2>&1
while read -r name said; do
    [[ $said == run=ended\ *\ output=expected\ * ]]
    count $? "$name: $said"
done < <(sed -n 's/^case=//p' "$seen/out")
[ "$passed" -gt 0 ] || tail -n 20 "$seen/out"
at_least 185
echo "tried: $passed passed, $failed failed"
[ "$failed" -eq 0 ]
