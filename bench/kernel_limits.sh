# The kernel's limits of its message queues, to be sourced: `raise_limits` raises them to those of
# the project where they are less and the machine allows it, and says whether a text of 65,536 bytes
# is one call of the kernel then; `restore_limits`, for a trap, restores what was there.
limits=/proc/sys/kernel
msgmax=$(cat "$limits/msgmax")
msgmnb=$(cat "$limits/msgmnb")

write_limit() {
    { echo "$2" > "$limits/$1"; } 2> /dev/null || true
}

raise_limits() {
    [ "$msgmax" -ge 65536 ] || write_limit msgmax 65536
    [ "$msgmnb" -ge 131072 ] || write_limit msgmnb 131072
    if [ "$(cat "$limits/msgmax")" -ge 65536 ] && [ "$(cat "$limits/msgmnb")" -ge 131072 ]; then
        echo "the kernel takes 65,536 bytes in one call: msgmax was $msgmax and msgmnb $msgmnb"
    else
        restore_limits
        echo "the kernel's msgmax $msgmax and msgmnb $msgmnb cannot be raised here: of a longer" \
            "text it takes pieces of $msgmax bytes, a call each"
    fi
}

restore_limits() {
    [ "$(cat "$limits/msgmax")" = "$msgmax" ] || write_limit msgmax "$msgmax"
    [ "$(cat "$limits/msgmnb")" = "$msgmnb" ] || write_limit msgmnb "$msgmnb"
}
