# Threads scripts, each of which ends in every schedule, with what is known then of what it writes.
# threads.sh defines these and sources this file:
#   table NAME                      the property of the cases that follow
#   case_of WORDS [KIND [RUNS [END ..]]]
#                                   a case begins: mqsim with these words. Its KIND is `exact`; or
#                                   `sums`, where only what the workers' lines add up to is known;
#                                   or `parts`, where only these ENDs are known, how many workers
#                                   there are, and that their lines add up to those of the slots
#   main LINE ANSWER ..             lines of the main part, each with its answer
#   worker SENT RECEIVED END [LINE ..]
#                                   a section, and what is printed of its worker
#   slot K EVENTS SENT RECEIVED LEFT
#                                   what is printed of a slot; in `parts` EVENTS are those that are
#                                   neither sent nor received
#   pages COUNT                     so many pages, all free
#   sums SENT RECEIVED END COUNT .. in `sums`, after the pages: all that was sent and received, and
#                                   how many workers ended so: ENOMEM, EIDRM, EINVAL, done
# A worker that ends early may let another wait for good, so here no worker waits for what a refusal
# could keep another from doing; and where texts need pages, there are enough for all that can be
# drafted, waiting and received at once, unless the case is of pages that are used up. The first
# quota lets more wait than the 64 pages of the default arena hold: where much is sent, the main
# part sets a lower one.

# Makes $1 queues, one in each slot, of the quota $2 where it is given.
queues() {
    local k
    for ((k = 0; k < $1; k++)); do
        main 'get 0 c' "id $k"
        [ $# -lt 2 ] || main "set $k $2" 'at 1'
    done
}

# Writes the words from $2 on as lines, $1 times over.
turns() {
    local n
    for ((n = 0; n < $1; n++)); do
        printf '%s\n' "${@:2}"
    done
}

table pairs_hand_on_all
# Seven pairs in one queue, each by its own type, and one worker by itself.
case_of threads
main 'get 9 c' 'id 0' 'set 0 16384' 'at 1'
for type in {1..7}; do
    worker 200 0 done "put 0 $type 200 1000"
    worker 0 200 done "take 0 $type 200"
done
worker 5 5 done 'put 0 8 5 1000' 'take 0 8 5'
slot 0 2812 1405 1405 0
pages 64
# Three queues; in each, two senders of one type and one of another, and a receiver of each.
case_of threads
queues 3 16384
for k in 0 1 2; do
    worker 100 0 done "put $k 3 100 1000"
    worker 100 0 done "put $k 3 100 1000"
    worker 100 0 done "put $k 5 60 1000" "put $k 4 40 1000"
    worker 0 200 done "take $k 3 200"
    worker 0 100 done "take $k 5 60" "take $k 4 40"
done
for k in 0 1 2; do
    slot "$k" 602 300 300 0
done
pages 64
# Eight senders to seven receivers of any type.
case_of threads
queues 1 16384
for type in {1..8}; do
    worker 70 0 done "put 0 $type 70 1000"
done
for _ in {1..7}; do
    worker 0 80 done 'take 0 0 80'
done
slot 0 1122 560 560 0
pages 64
# Types up to a bound, beside one type above it, at both ends of the types.
case_of threads
queues 1 16384
for type in 1 2 3 4 5 6; do
    worker 50 0 done "put 0 $type 50 900"
done
worker 50 0 done 'put 0 9223372036854775807 50 1000'
for _ in 1 2 3; do
    worker 0 100 done 'take 0 -6 100'
done
worker 0 50 done 'take 0 9223372036854775807 50'
slot 0 702 350 350 0
pages 64
case_of threads
queues 1 16384
worker 50 0 done 'put 0 9223372036854775807 50 1000'
worker 50 0 done 'put 0 1 50 1000'
worker 0 100 done 'take 0 -9223372036854775808 100'
slot 0 202 100 100 0
pages 64
# Each sends and then receives, in one queue and of one type: a waiter finds what another sent.
case_of threads
queues 1
mapfile -t lines < <(turns 100 'put 0 1 1 10' 'take 0 1 1')
for _ in {1..15}; do
    worker 100 100 done "${lines[@]}"
done
slot 0 3001 1500 1500 0
pages 64
# A queue with room for one message, for seven pairs at once.
case_of threads
main 'get 0 c' 'id 0' 'set 0 1' 'at 1'
for type in {1..7}; do
    worker 50 0 done "put 0 $type 50 1"
    worker 0 50 done "take 0 $type 50"
done
slot 0 702 350 350 0
pages 64
# Texts of no bytes, of which ten have room, so that a few are received by one call; and texts of
# which some have bytes, of which sixteen may wait, be drafted behind these, and be received at once.
case_of threads
main 'get 0 c' 'id 0' 'set 0 10' 'at 1'
for type in 1 2 3; do
    worker 2000 0 done "put 0 $type 2000 0"
    worker 0 2000 done "take 0 $type 1000" "take 0 $type 1000"
done
slot 0 12002 6000 6000 0
pages 64
case_of threads
queues 1 16384
for type in 1 2; do
    worker 300 0 done "put 0 $type 100 0" "put 0 $type 100 1000" "put 0 $type 100 0"
    worker 0 300 done "take 0 $type 300"
done
slot 0 1202 600 600 0
pages 64

table workers_in_a_row_and_in_a_ring
# A row of 15 over 14 queues, with a step for each message.
case_of 'threads --height 8'
queues 14 16384
worker 60 0 done 'put 0 1 60 1000'
for k in {1..13}; do
    mapfile -t lines < <(turns 60 "take $((k - 1)) 0 1" "put $k 1 1 1000")
    worker 60 60 done "${lines[@]}"
done
worker 0 60 done 'take 13 0 60'
for k in {0..13}; do
    slot "$k" 122 60 60 0
done
pages 256
# A ring of 15, over queues and over types, that forwards one text, over one page.
case_of 'threads --height 0'
queues 15
mapfile -t lines < <(turns 20 'put 1 1 1 1024' 'take 0 0 1')
worker 20 20 done "${lines[@]}"
for k in {1..14}; do
    mapfile -t lines < <(turns 20 "take $k 0 1" "put $(((k + 1) % 15)) 1 1 1024")
    worker 20 20 done "${lines[@]}"
done
for k in {0..14}; do
    slot "$k" 41 20 20 0
done
pages 1
case_of 'threads --height 0 --slots 1'
queues 1
mapfile -t lines < <(turns 20 'put 0 2 1 1' 'take 0 1 1')
worker 20 20 done "${lines[@]}"
for k in {2..15}; do
    mapfile -t lines < <(turns 20 "take 0 $k 1" "put 0 $((k % 15 + 1)) 1 1")
    worker 20 20 done "${lines[@]}"
done
slot 0 601 300 300 0
pages 1

table all_slots_are_used
# Fifteen send to each of 64 queues, and receive there what another sent.
case_of 'threads --slots 64 --height 10'
queues 64
for type in {1..15}; do
    lines=()
    for k in {0..63}; do
        lines+=("put $k $type 1 1000")
    done
    for k in {0..63}; do
        lines+=("take $k $((type % 15 + 1)) 1")
    done
    worker 64 64 done "${lines[@]}"
done
for k in {0..63}; do
    slot "$k" 31 15 15 0
done
pages 1024
# Each of 64 queues is removed, some while others wait in them.
case_of 'threads --slots 64 --height 0'
queues 64
for k in {0..6}; do
    worker 0 0 EIDRM "take $((9 * k)) $((k + 1)) 1" 'put 0 1 1 1'
done
for k in {0..7}; do
    mapfile -t lines < <(seq -f 'rm %g' $((8 * k)) $((8 * k + 7)))
    worker 0 0 done "${lines[@]}"
done
for k in {0..63}; do
    slot "$k" 2 0 0 0
done
pages 1
# 960 pages are pending, in 60 queues without room for more, in blocks of one page and of eight; and
# in eight queues, all but one of them full, in blocks of 16, 32 and 64.
case_of 'threads --slots 64 --height 10'
queues 64 16384
for k in {0..14}; do
    mapfile -t lines < <(seq -f 'put %g 7 16 1024' $((4 * k)) $((4 * k + 3)))
    worker 64 0 done "${lines[@]}"
done
for k in {0..59}; do
    slot "$k" 18 16 0 16
done
for k in {60..63}; do
    slot "$k" 2 0 0 0
done
pages 1024
case_of 'threads --slots 64 --height 10'
queues 60 16384
for k in {0..14}; do
    worker 8 0 done "put $((4 * k)) 7 2 8192" "put $((4 * k + 1)) 7 2 4097" \
        "put $((4 * k + 2)) 7 2 8000" "put $((4 * k + 3)) 7 2 8191"
done
for k in {0..59}; do
    slot "$k" 4 2 0 2
done
pages 1024
case_of 'threads --height 10'
queues 8
for k in {0..14}; do
    count=$((1 << k / 2 % 3))
    worker "$count" 0 done "put $((k / 2)) 7 $count $((65536 / count))"
done
for k in {0..6}; do
    count=$((2 << k % 3))
    slot "$k" $((count + 1)) "$count" 0 "$count"
done
slot 7 3 2 0 2
pages 1024
# Blocks of every size, in queues with room for so few that there is always a block: the arena has
# 128 runs of eight pages and 16 of 64, and fewer blocks than that are allocated at a time.
case_of 'threads --height 10'
queues 5 16384
main 'set 0 8' 'at 2'
k=0
for length in 1 1025 2049 4097 8192; do
    worker 80 0 done "put $k 1 80 $length"
    worker 0 40 done "take $k 0 40"
    worker 0 40 done "take $k -1 40"
    k=$((k + 1))
done
slot 0 163 80 80 0
for k in {1..4}; do
    slot "$k" 162 80 80 0
done
pages 1024
case_of 'threads --height 10'
queues 3
main 'set 0 32768' 'at 1' 'set 1 65536' 'at 1' 'set 2 131072' 'at 1'
k=0
for length in 16384 32768 65536; do
    worker 80 0 done "put $k 1 80 $length"
    worker 0 40 done "take $k 0 40"
    worker 0 40 done "take $k -1 40"
    k=$((k + 1))
done
for k in 0 1 2; do
    slot "$k" 162 80 80 0
done
pages 1024

table scripts_at_their_bounds_are_run
# Texts of no bytes need no page: two forward many over one page, which a third has; and the most
# that a line may forward.
case_of 'threads --height 0'
queues 2
main 'set 0 16384' 'at 1'
worker 20000 0 done 'put 0 1 20000 0'
worker 0 20000 done 'take 0 1 20000'
worker 1 0 done 'put 1 1 1 1024'
slot 0 40002 20000 20000 0
slot 1 2 1 0 1
pages 1
case_of 'threads --height 0 --slots 1 --last-seq 0' exact 1
queues 1
worker 100000 0 done 'put 0 1 100000 0'
worker 0 100000 done 'take 0 0 100000'
slot 0 200001 100000 100000 0
pages 1
# A section of 2,000 lines.
case_of threads
queues 1
mapfile -t lines < <(turns 1000 'put 0 1 1 0' 'take 0 1 1')
worker 1000 1000 done "${lines[@]}"
slot 0 2001 1000 1000 0
pages 64
# 1,048,576 bytes, lines of 4,096, and keys, types and quotas at both their ends.
case_of 'threads --slots 2 --height 10'
main 'get -2147483648 cx' 'id 0' 'get 2147483647 cx' 'id 1' 'get 2147483647' 'id 1' \
    'set 1 131072' 'at 1' 'set 1 18446744073709551615' EPERM 'set 4294967295 0' EINVAL
for k in {1..14}; do
    worker 2 1 done 'put 1 9223372036854775807 1 65536' 'put 0 1 1 0' \
        'take 1 -9223372036854775808 1'
done
worker 0 14 done 'take 0 9223372036854775807 0' 'take 0 -1 14'
slot 0 29 14 14 0
slot 1 30 14 14 0
pages 1024
printf -v line '%*s' 4096
line=${line// /#}
for ((k = $(stat -c %s "$folder/script"); k <= 1048576 - 4097; k += 4097)); do
    echo "$line" >&7
done
printf '%s' "${line:0:1048576-k}" >&7

table a_worker_ends_at_its_first_refusal
# By no other errno than these can a worker end whose lines have no `within`: it waits where a
# serial script answers EAGAIN or ENOMSG, receives texts of any size, and neither makes a queue nor
# sets a quota.
case_of threads
queues 1
for line in 'put 0 0 1 0' 'put 0 -1 1 1' 'put 0 -9223372036854775808 1 1' 'put 1 1 1 1' \
    'put 64 1 1 1' 'put 63 1 1 1' 'put 4294967295 1 1 1' 'put 0 1 1 65537' \
    'put 0 1 1 18446744073709551615' 'take 1 0 1' 'take 64 0 1' 'take 4294967295 0 1' 'rm 1' \
    'rm 64'; do
    worker 3 1 EINVAL 'put 0 1 3 1' 'take 0 1 1' "$line" 'put 0 1 1 1' 'rm 0'
done
worker 2 2 done 'put 0 2 2 1' 'put 9 0 0 65537' 'take 9 0 0' 'take 0 2 2'
slot 0 61 44 16 28
pages 64
case_of threads
queues 3
worker 1 0 EIDRM 'put 0 1 1 1' 'rm 0' 'put 0 1 1 1' 'put 1 1 1 1'
worker 1 0 EIDRM 'put 1 1 1 1' 'rm 1' 'take 1 1 1' 'put 2 1 1 1'
worker 1 0 EIDRM 'put 2 1 1 1' 'rm 2' 'rm 2' 'put 0 1 1 1'
for k in 0 1 2; do
    slot "$k" 3 1 0 0
done
pages 64
# A put without `within` waits for no page, however many its text takes.
case_of threads
queues 1 131072
worker 1 0 ENOMEM 'put 0 1 1 65536' 'put 0 1 1 8192' 'rm 0'
slot 0 3 1 0 1
pages 64
# A text is made before the id and the type are checked.
case_of 'threads --height 0'
queues 1
worker 1 0 ENOMEM 'put 0 1 1 1' 'put 9 0 1 1'
slot 0 2 1 0 1
pages 1

table a_step_ends_where_its_waits_do
# Fifteen that time out: waiting for a message, for room, and with a timeout of 0. The lines
# behind are not run.
case_of threads
queues 1
for k in {1..7}; do
    worker 0 0 ENOMSG "take 0 $k 5 within 20" 'put 0 9 1 1' 'rm 0'
    worker 0 0 ENOMSG "take 0 -$k 1 within 0" 'put 0 9 1 1' 'rm 0'
done
worker 0 0 ENOMSG 'take 0 0 100000 within 1' 'rm 0'
slot 0 1 0 0 0
pages 64
case_of threads
main 'get 0 c' 'id 0' 'set 0 0' 'at 1'
for k in {1..7}; do
    worker 0 0 EAGAIN "put 0 $k 5 1024 within 20" 'rm 0'
    worker 0 0 EAGAIN "put 0 $k 1 0 within 0" 'rm 0'
done
slot 0 2 0 0 0
pages 64
# What is there in time is received, and one deadline holds for the whole line.
case_of threads
queues 1
for k in {1..15}; do
    worker 3 3 ENOMSG "put 0 $k 3 10" "take 0 $k 100000 within 20" 'rm 0'
done
slot 0 91 45 45 0
pages 64
# Room for three messages of fifty bytes.
case_of threads
main 'get 0 c' 'id 0' 'set 0 150' 'at 1'
worker 3 0 EAGAIN 'put 0 1 100000 50 within 20' 'rm 0'
slot 0 5 3 0 3
pages 64
# A call that need not wait does not time out, and a refusal that no wait can mend is immediate.
case_of threads
queues 1
worker 5 5 done 'put 0 1 5 1000 within 0' 'take 0 1 5 within 0' 'take 0 7 0 within 0'
worker 0 0 EINVAL 'put 0 0 1 1 within 1000000'
worker 0 0 EINVAL 'put 0 1 1 65537 within 1000000'
worker 0 0 EINVAL 'take 64 0 1 within 1000000'
slot 0 11 5 5 0
pages 64
# Pages that are not freed in time, and an arena that never has as many.
case_of 'threads --height 0'
queues 1
worker 1 0 ENOMEM 'put 0 1 1 1' 'put 0 1 1 1 within 20' 'rm 0'
slot 0 2 1 0 1
pages 1
case_of 'threads --height 3'
queues 1
worker 1 0 ENOMEM 'put 0 1 1 8192 within 0' 'put 0 1 1 8192 within 20'
worker 0 0 ENOMEM 'put 0 1 1 8193 within 1000000'
slot 0 2 1 0 1
pages 8
# And pages, room and messages that do.
case_of 'threads --height 0'
queues 1
for k in {1..7}; do
    worker 50 0 done "put 0 $k 50 1024 within 1000000"
    worker 0 50 done "take 0 $k 50 within 1000000"
done
slot 0 701 350 350 0
pages 1
case_of threads
queues 1 16384
for k in {1..7}; do
    worker 200 0 done "put 0 $k 200 1000 within 1000000"
    worker 0 200 done "take 0 $k 200 within 1000000"
done
slot 0 2802 1400 1400 0
pages 64
case_of threads
queues 1
worker 50 0 done 'put 0 1 50 65536 within 1000000'
worker 0 50 done 'take 0 1 50 within 1000000'
slot 0 101 50 50 0
pages 64
# A queue is removed while fourteen wait with a long timeout, and while others send and receive with
# a short one.
case_of threads
main 'get 0 c' 'id 0' 'set 0 0' 'at 1'
for k in {1..7}; do
    worker 0 0 EIDRM "take 0 $k 1 within 1000000"
    worker 0 0 EIDRM "put 0 $k 1 1000 within 1000000"
done
worker 0 0 done 'rm 0'
slot 0 3 0 0 0
pages 64
case_of threads parts 20 done EIDRM EAGAIN ENOMSG
queues 2 16384
worker - - - 'put 1 2 100 0' 'take 1 2 100' 'put 1 1 1 0' 'put 0 1 100000 1000 within 1'
for _ in {1..6}; do
    worker - - - 'put 0 1 1000 1000 within 1'
done
for _ in {1..7}; do
    worker - - - 'take 0 1 100000 within 1'
done
worker - - - 'take 1 1 1' 'rm 0'
slot 0 3 - - 0
slot 1 2 - - 0
pages 64

table an_arena_is_used_up
# Fifteen that send to queues with room for all, until there is no page for the next text.
case_of 'threads --height 0' sums
queues 1
for _ in {1..15}; do
    worker - - - 'put 0 1 1 1'
done
slot 0 2 1 0 1
pages 1
sums 1 0 ENOMEM 14 done 1
case_of 'threads --height 2' sums
queues 1
for k in {1..15}; do
    worker - - - "put 0 $k 5 1024"
done
slot 0 5 4 0 4
pages 4
sums 4 0 ENOMEM 15
case_of 'threads --height 10' sums
queues 1
for k in {1..15}; do
    worker - - - "put 0 $k 100000 1"
done
slot 0 1025 1024 0 1024
pages 1024
sums 1024 0 ENOMEM 15
# Blocks of two to 64 pages.
for block in '3 1025 4' '4 4096 4' '3 8192 1' '4 8192 2' '6 8193 4' '6 16384 4' '7 16385 4' \
    '6 32768 2' '6 32769 1' '6 65536 1' '7 65536 2'; do
    read -r height length count <<< "$block"
    case_of "threads --height $height" sums
    queues 1
    for k in {1..15}; do
        worker - - - "put 0 1 1 $length"
    done
    slot 0 $((count + 1)) "$count" 0 "$count"
    pages $((1 << height))
    sums "$count" 0 ENOMEM $((15 - count)) done "$count"
done

table a_wait_in_a_queue_that_is_removed_answers_eidrm
# No call can send or receive; one that is too late answers the same.
case_of threads exact 100
main 'get 0 c' 'id 0' 'set 0 0' 'at 1'
worker 0 0 EIDRM 'take 0 5 1'
worker 0 0 EIDRM 'put 0 1 1 10'
worker 0 0 done 'rm 0'
slot 0 3 0 0 0
pages 64
case_of threads exact 50
main 'get 0 c' 'id 0' 'set 0 0' 'at 1'
for k in {1..7}; do
    worker 0 0 EIDRM "take 0 $k 1"
    worker 0 0 EIDRM "put 0 $k 1 1000"
done
worker 0 0 done 'rm 0'
slot 0 3 0 0 0
pages 64
# Fourteen announce themselves before they wait, and then the queue is removed.
case_of threads exact 50
queues 2
main 'set 0 0' 'at 1'
for k in {1..7}; do
    worker 1 0 EIDRM 'put 1 1 1 0' "take 0 $k 1"
    worker 1 0 EIDRM 'put 1 1 1 0' "put 0 $k 1 1000"
done
worker 0 14 done 'take 1 1 14' 'rm 0'
slot 0 3 0 0 0
slot 1 29 14 14 0
pages 64
# Texts are pending in the queue, and are freed.
case_of threads exact 50
queues 2
for k in {1..14}; do
    worker 2 0 EIDRM "put 0 $k 1 1000" 'put 1 1 1 0' "take 0 99 1"
done
worker 0 14 done 'take 1 1 14' 'rm 0'
slot 0 16 14 0 0
slot 1 29 14 14 0
pages 64
# Fifteen remove one queue.
case_of threads sums
queues 1
for _ in {1..15}; do
    worker - - - 'rm 0'
done
slot 0 2 0 0 0
pages 64
sums 0 0 EIDRM 14 done 1
# A message is sent and the queue removed at once.
case_of threads parts 100 done EIDRM
queues 1
worker - - - 'take 0 5 1'
worker - - - 'put 0 5 1 1000'
worker - - - 'rm 0'
slot 0 2 - - 0
pages 64
# One queue is removed under seven senders, the first of which says so after 50 texts, and seven
# that receive more than the others send; or each of three is, at once or in the midst.
case_of threads parts 20 done EIDRM
queues 2 16384
worker - - - 'put 0 1 50 1000' 'put 1 1 1 0' 'put 0 1 100000 1000'
for _ in {1..6}; do
    worker - - - 'put 0 1 100000 1000'
done
for _ in {1..7}; do
    worker - - - 'take 0 1 100000'
done
worker - - - 'take 1 1 1' 'rm 0'
slot 0 3 - - 0
slot 1 2 - - 0
pages 64
case_of 'threads --height 7' parts 20 done EIDRM
queues 3 16384
for k in 0 1 2; do
    worker - - - "put $k 1 2000 1000"
    worker - - - "put $k 2 2000 2000"
    worker - - - "take $k 0 2000"
    worker - - - "take $k -1 2000"
done
worker - - - 'rm 0' 'rm 1' 'rm 2'
slot 0 3 - - 0
slot 1 3 - - 0
slot 2 3 - - 0
pages 128
