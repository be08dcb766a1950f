# Scripts with what they write, which serial.sh runs and allocations.sh runs with each allocation
# refused. Either defines these and then sources this file:
#   table NAME              the property of the cases that follow
#   case_of WORDS SCRIPT OUTPUT [FAULT]
#                           mqsim with these words, a script, what it writes, and, where a line is
#                           not well formed, what it says of that on standard error, all for printf

table a_receipt_makes_room_by_as_much_as_was_sent
case_of 'serial --height 8' \
    'get 0 c\nsnd 0 1 *65536\nsnd 0 1 *65536\nrcv 0 1 0 n\nsnd 0 1 *65536\nsnd 0 1 =a\n' \
    'id 0\nat 1\nat 2\nmsg 1 seat 1 tag 2 len 65536 =a\nat 4\nEAGAIN\n'

table a_size_of_zero_takes_an_empty_text_or_cuts
case_of '' \
    'get 0 c\nsnd 0 1 =\nsnd 0 1 *65536\nsnd 0 1 =\nrcv 0 0 0 n\nrcv 0 0 0\nrcv 0 0 0 n\nrcv 0 0 0\nrcv 0 0 0 n\nsnd 0 1 =\n' \
    'id 0\nat 1\nat 2\nat 3\nmsg 1 seat 1 tag 2 len 0 =\nE2BIG\nmsg 1 seat 1 tag 3 len 65536 =\nmsg 1 seat 1 tag 4 len 0 =\nENOMSG\nat 7\n'

# Below 1 no type is accepted, and from 1 on each; the greatest size and bound accept any.
table the_first_type_and_the_last_are_taken
case_of '' \
    'get 0 c\nsnd 0 0 *65537\nsnd 0 -9223372036854775808 =\nsnd 0 9223372036854775807 =ab\nsnd 0 1 =abc\nrcv 0 18446744073709551615 -9223372036854775808\n' \
    'id 0\nEINVAL\nEINVAL\nat 1\nat 2\nmsg 1 seat 1 tag 5 len 3 =abc\n'

table the_lowest_type_comes_first_in_the_order_of_sending
case_of '' \
    'get 0 c\nsnd 0 3 =a\nsnd 0 1 =ab\nsnd 0 2 =abc\nsnd 0 1 =abcd\nrcv 0 4 -2\nrcv 0 3 -2\nrcv 0 4 -2\nrcv 0 4 1\nrcv 0 4 3 e\n' \
    'id 0\nat 1\nat 2\nat 3\nat 4\nmsg 1 seat 1 tag 3 len 2 =ab\nE2BIG\nmsg 1 seat 1 tag 5 len 4 =abcd\nENOMSG\nmsg 2 seat 1 tag 4 len 3 =abc\n'

# The quota is full when it is set; then one text is empty after another.
table a_quota_limits_bytes_and_messages
case_of '' \
    'get 0 c\nsnd 0 1 =ab\nsnd 0 1 =cd\nset 0 4\nsnd 0 1 =ef\nsnd 0 1 =\nsnd 0 1 =\nsnd 0 1 =\n' \
    'id 0\nat 1\nat 2\nat 3\nEAGAIN\nat 4\nat 5\nEAGAIN\n'

# Until it is under its quota; and so is an empty queue with none.
table a_queue_over_a_lowered_quota_refuses_an_empty_text
case_of '' \
    'get 0 c\nsnd 0 1 =abcdef\nset 0 4\nsnd 0 1 =\nrcv 0 6 0\nsnd 0 1 =\nset 0 131073\nset 0 131072\nset 0 0\nsnd 0 1 =\n' \
    'id 0\nat 1\nat 2\nEAGAIN\nmsg 1 seat 1 tag 2 len 6 =abcdef\nat 4\nEPERM\nat 5\nat 6\nEAGAIN\n'

# It is an entry all the same.
table a_quota_is_set_to_what_it_is
case_of '' \
    'get 0 c\nset 0 131072\nset 0 131072\nsnd 0 1 =a\n' \
    'id 0\nat 1\nat 2\nat 3\n'

table a_received_text_is_the_front_of_what_was_sent
case_of '' \
    'get 7 c\nseat 3\nsnd 0 5 =hello\nseat 4\nrcv 0 2 0 n\nstat 0\n' \
    'id 0\nat 1\nmsg 5 seat 3 tag 3 len 5 =he\nqnum 0 cbytes 0 qbytes 131072 lspid 3 lrpid 4 stime 3 rtime 5 ctime 1\n'

table refusals_leave_a_new_queue
case_of '' \
    'get 7 c\nstat 0\nsnd 0 0 =a\nsnd 0 1 *65537\nrcv 0 9 0 n\nset 0 131073\nstat 0\nsnd 0 1 =a\n' \
    'id 0\nqnum 0 cbytes 0 qbytes 131072 lspid 0 lrpid 0 stime 0 rtime 0 ctime 1\nEINVAL\nEINVAL\nENOMSG\nEPERM\nqnum 0 cbytes 0 qbytes 131072 lspid 0 lrpid 0 stime 0 rtime 0 ctime 1\nat 1\n'

# Of the queues of the last slot, each of which is made at the line after 63 others and eight lines
# and more for each queue before it.
table an_id_is_never_given_then_live_then_removed_for_good
script=$(printf 'get 0 c\\n%.0s' {0..62})
answers=$(printf 'id %d\\n' {0..62})
line=63
for id in 63 127 191 255; do
    script+="stat $id\nget 0 c\nstat $id\nstat $((id + 64))\nstat 4294967295\n"
    answers+="EINVAL\nid $id\nqnum 0 cbytes 0 qbytes 131072 lspid 0 lrpid 0 stime 0 rtime 0 "
    answers+="ctime $((line + 2))\nEINVAL\nEINVAL\n"
    for ((earlier = 63; earlier < id; earlier += 64)); do
        script+="stat $earlier\n"
        answers+='EIDRM\n'
        line=$((line + 1))
    done
    script+="rm $id\nstat $id\n"
    answers+="at $((id / 64 * 2 + 1)) events 2\nEIDRM\n"
    line=$((line + 7))
done
case_of 'serial --height 0 --slots 64' "$script" "$answers"

# Three queues of the last slot, and no more; one that is there takes no other beside it.
table a_slot_takes_as_many_queues_as_its_seqs_allow
case_of 'serial --height 0 --slots 64 --last-seq 2' \
    "$(printf 'get 0 c\\n%.0s' {0..62})get 0 c\nget 0 c\nrm 63\nget 7 c\nrm 127\nrm 127\nget -2147483648 c\nrm 191\nget 0 c\n" \
    "$(printf 'id %d\\n' {0..62})id 63\nENOSPC\nat 1 events 2\nid 127\nat 3 events 2\nEIDRM\nid 191\nat 5 events 2\nENOSPC\n"

table a_removed_queues_quota_is_not_the_next_ones
case_of 'serial --height 0 --slots 6' \
    'get 0 c\nget 0 c\nget 0 c\nget 0 c\nget 0 c\nget 1 c\nset 5 0\nsnd 5 1 =\nset 5 131073\nrm 5\nget 1 c\nsnd 69 0 =a\nsnd 69 1 =\n' \
    'id 0\nid 1\nid 2\nid 3\nid 4\nid 5\nat 1\nEAGAIN\nEPERM\nat 2 events 3\nid 69\nEINVAL\nat 4\n'

table a_quota_holds_over_a_cut
case_of 'serial --height 2 --slots 6' \
    'get 0 c\nget 0 c\nget 0 c\nget 0 c\nget 0 c\nget 1 c\nset 5 7\nsnd 5 1 =abcde\ncut 5\nsnd 5 1 =fgh\nsnd 5 1 =ij\ncut 5\nrcv 5 4 0\nrcv 5 5 0\nsnd 5 1 =klmno\nrcv 5 2 0\n' \
    'id 0\nid 1\nid 2\nid 3\nid 4\nid 5\nat 1\nat 2\ncut from 0 to 3\nEAGAIN\nat 3\ncut from 3 to 4\nE2BIG\nmsg 1 seat 1 tag 8 len 5 =abcde\nat 5\nmsg 1 seat 1 tag 11 len 2 =ij\n'

table each_script_writes_its_answers
case_of '' \
    '' \
    ''
case_of '' \
    '\n\n# nothing said\n' \
    ''
case_of '' \
    'get 0 c\nsnd 0 5 =hello\nrcv 0 100 0\n' \
    'id 0\nat 1\nmsg 5 seat 1 tag 2 len 5 =hello\n'
# Words of a text keep their spaces; the last line needs no end.
case_of '' \
    'get 0 c\nsnd 0 1 = two  words \nrcv 0 12 0' \
    'id 0\nat 1\nmsg 1 seat 1 tag 2 len 12 = two  words \n'
# One CR is the line's end; a second one is a byte of the line.
case_of '' \
    'get 0 c\r\nsnd 0 1 =a\r\n\r\nrcv 0 1 0\r' \
    'id 0\nat 1\nmsg 1 seat 1 tag 2 len 1 =a\n'
case_of '' \
    'get 0 c\r\r\n' \
    '' \
    'mqsim: line 1: byte\n'
# Each refusal, which leaves all as it was.
case_of '' \
    'snd 0 1 =a\nrcv 0 1 0\nget 0 c\nget 0 c\nsnd 1 1 =a\nrcv 4294967295 1 0\n' \
    'EINVAL\nEINVAL\nid 0\nid 1\nat 1\nEINVAL\n'
case_of '' \
    'get 0 c\nrcv 0 9 0\nsnd 0 0 =a\nsnd 0 -9223372036854775808 =a\nsnd 0 1 =\n' \
    'id 0\nENOMSG\nEINVAL\nEINVAL\nat 1\n'
case_of '' \
    'get 0 c\nsnd 0 9223372036854775807 =ab\nsnd 0 2 =c\nrcv 0 1 0\nrcv 0 2 0\nrcv 0 0 0\nrcv 0 1 0\n' \
    'id 0\nat 1\nat 2\nE2BIG\nmsg 9223372036854775807 seat 1 tag 2 len 2 =ab\nE2BIG\nmsg 2 seat 1 tag 3 len 1 =c\n'
# A comment counts as a line, and has no answer.
case_of '' \
    '# made\nget 0 c\n#snd 0\nsnd 0 1 =a\nrcv 0 1 0\n' \
    'id 0\nat 1\nmsg 1 seat 1 tag 4 len 1 =a\n'
# The lowest type up to a bound; of one type the message that was sent first.
case_of '' \
    'get 0 c\nsnd 0 3 =c\nsnd 0 1 =a\nsnd 0 2 =b\nsnd 0 1 =z\nrcv 0 9 -2\nrcv 0 9 -2\nrcv 0 9 -2\nrcv 0 9 -2\n' \
    'id 0\nat 1\nat 2\nat 3\nat 4\nmsg 1 seat 1 tag 3 len 1 =a\nmsg 1 seat 1 tag 5 len 1 =z\nmsg 2 seat 1 tag 4 len 1 =b\nENOMSG\n'
# The bounds of the types.
case_of '' \
    'get 0 c\nsnd 0 9223372036854775807 =m\nrcv 0 9 -9223372036854775807\nsnd 0 9223372036854775807 =m\nsnd 0 8 =k\nrcv 0 9 -9223372036854775808\nrcv 0 9 -9223372036854775808\n' \
    'id 0\nat 1\nmsg 9223372036854775807 seat 1 tag 2 len 1 =m\nat 3\nat 4\nmsg 8 seat 1 tag 5 len 1 =k\nmsg 9223372036854775807 seat 1 tag 4 len 1 =m\n'
# All but one type; MSG_EXCEPT says nothing at 0 and below.
case_of '' \
    'get 0 c\nsnd 0 7 =a\nsnd 0 5 =b\nsnd 0 7 =c\nsnd 0 4 =d\nrcv 0 9 7 e\nrcv 0 9 7 e\nrcv 0 9 7 e\nrcv 0 9 0 e\nrcv 0 9 -7 e\n' \
    'id 0\nat 1\nat 2\nat 3\nat 4\nmsg 5 seat 1 tag 3 len 1 =b\nmsg 4 seat 1 tag 5 len 1 =d\nENOMSG\nmsg 7 seat 1 tag 2 len 1 =a\nmsg 7 seat 1 tag 4 len 1 =c\n'
# A text that is longer than the size stays, or is truncated.
case_of '' \
    'get 0 c\nsnd 0 1 =hello\nrcv 0 3 0\nrcv 0 3 0 n\nsnd 0 1 =hello\nrcv 0 0 0 n\nsnd 0 2 =\nrcv 0 0 0 n\n' \
    'id 0\nat 1\nE2BIG\nmsg 1 seat 1 tag 2 len 5 =hel\nat 3\nmsg 1 seat 1 tag 5 len 5 =\nat 5\nmsg 2 seat 1 tag 7 len 0 =\n'
# Both flags.
case_of '' \
    'get 0 c\nsnd 0 1 =long\nsnd 0 2 =longer\nrcv 0 4 1 en\n' \
    'id 0\nat 1\nat 2\nmsg 2 seat 1 tag 3 len 6 =long\n'
# The quota is bytes and messages; an empty text still has room beside full bytes.
case_of '' \
    'get 0 c\nset 0 16384\nsnd 0 1 *8192\nsnd 0 1 *8192\nsnd 0 1 =a\nsnd 0 1 =\n' \
    'id 0\nat 1\nat 2\nat 3\nEAGAIN\nat 4\n'
case_of 'serial --height 8' \
    'get 0 c\nsnd 0 1 *65536\nsnd 0 1 *65536\nsnd 0 1 =a\nsnd 0 1 =\n' \
    'id 0\nat 1\nat 2\nEAGAIN\nat 3\n'
# A text over the limit is refused before it is made, whatever the id and the type.
case_of '' \
    'snd 0 1 *65537\nget 0 c\nsnd 0 1 *18446744073709551615\nsnd 9 0 *65537\nsnd 0 1 *0\nsnd 0 1 *28\nrcv 0 99 0\nrcv 0 99 0\n' \
    'EINVAL\nid 0\nEINVAL\nEINVAL\nat 1\nat 2\nmsg 1 seat 1 tag 5 len 0 =\nmsg 1 seat 1 tag 6 len 28 =abcdefghijklmnopqrstuvwxyzab\n'
# Each seat sends as itself.
case_of '' \
    'seat 16\nget 0 c\nsnd 0 1 =a\nseat 2\nrcv 0 1 0\nsnd 0 1 =b\nseat 1\nrcv 0 1 0\n' \
    'id 0\nat 1\nmsg 1 seat 16 tag 3 len 1 =a\nat 3\nmsg 1 seat 2 tag 6 len 1 =b\n'
# E2BIG does not skip to a later message that fits.
case_of '' \
    'get 0 c\nsnd 0 1 =long\nsnd 0 1 =s\nrcv 0 1 1\nrcv 0 1 -1\nrcv 0 1 9 e\nrcv 0 4 1\n' \
    'id 0\nat 1\nat 2\nE2BIG\nE2BIG\nE2BIG\nmsg 1 seat 1 tag 2 len 4 =long\n'
case_of '' \
    'get 0 c\nrcv 0 9 9223372036854775808\n' \
    'id 0\n' \
    'mqsim: line 2: number\n'
# The first line that is not well formed ends the run.
case_of '' \
    'get 0 c\nrcv 0 9\nget 0 c\n' \
    'id 0\n' \
    'mqsim: line 2: words\n'
case_of '' \
    'get 0 c\nsnd 0 01 =a\nsnd 0 1 =a\n' \
    'id 0\n' \
    'mqsim: line 2: number\n'

table each_arena_lends_as_it_must
case_of 'serial --height 6' \
    'arena' \
    'pages 64 free 64 largest 6\n'
case_of 'serial --height 6' \
    'get 0 c\nsnd 0 1 =hello\nrcv 0 3 0\nrcv 0 3 0 n\nsnd 0 1 =hello\nrcv 0 0 0 n\narena\n' \
    'id 0\nat 1\nE2BIG\nmsg 1 seat 1 tag 2 len 5 =hel\nat 3\nmsg 1 seat 1 tag 5 len 5 =\npages 64 free 64 largest 6\n'
case_of 'serial --height 6' \
    'get 0 c\nsnd 0 1 *0\narena\nsnd 0 1 *1\nsnd 0 1 *1024\nsnd 0 1 *1025\nsnd 0 1 *2049\nsnd 0 1 *8192\narena\nsnd 0 1 *65537\n' \
    'id 0\nat 1\npages 64 free 64 largest 6\nat 2\nat 3\nat 4\nat 5\nat 6\npages 64 free 48 largest 5\nEINVAL\n'
# Blocks of 16, 32 and 64 pages: which one a length takes, where it lies, and when none fits.
case_of 'serial --height 6' \
    'get 0 c\nsnd 0 1 *8193\narena\nsnd 0 1 *65537\nsnd 0 1 *32769\nsnd 0 1 *32768\narena\nset 0 131073\nset 0 131072\n' \
    'id 0\nat 1\npages 64 free 48 largest 5\nEINVAL\nENOMEM\nat 2\npages 64 free 16 largest 4\nEPERM\nat 3\n'
case_of 'serial --height 7' \
    'get 0 c\nsnd 0 1 *16384\narena\nsnd 0 1 *16385\narena\nsnd 0 1 *8193\narena\nsnd 0 1 *32769\narena\n' \
    'id 0\nat 1\npages 128 free 112 largest 6\nat 2\npages 128 free 80 largest 6\nat 3\npages 128 free 64 largest 6\nat 4\npages 128 free 0 largest none\n'
# The longest text takes all 64 pages, which are freed where it is truncated and where its queue is
# removed.
case_of 'serial --height 6' \
    'get 0 c\nsnd 0 1 *65536\narena\nsnd 0 1 =a\nsnd 0 1 =\nrcv 0 65535 0\nrcv 0 28 0 n\narena\nsnd 0 1 *65536\nrm 0\narena\n' \
    'id 0\nat 1\npages 64 free 0 largest none\nENOMEM\nat 2\nE2BIG\nmsg 1 seat 1 tag 2 len 65536 =abcdefghijklmnopqrstuvwxyzab\npages 64 free 64 largest 6\nat 4\nat 5 events 6\npages 64 free 64 largest 6\n'
# One page: a text that finds no run of pages is refused, an empty one needs none.
case_of 'serial --height 0' \
    'get 0 c\nsnd 0 1 =a\nsnd 0 1 =b\nsnd 0 1 =\nrcv 0 9 0\nsnd 0 1 =b\narena\n' \
    'id 0\nat 1\nENOMEM\nat 2\nmsg 1 seat 1 tag 2 len 1 =a\nat 4\npages 1 free 0 largest none\n'
# Pages are free, but no two buddies are.
case_of 'serial --height 2' \
    'get 0 c\nsnd 0 1 =a\nsnd 0 2 =b\nsnd 0 3 =c\nsnd 0 4 =d\nrcv 0 9 1\nrcv 0 9 3\narena\nsnd 0 5 *1025\nrcv 0 9 2\nsnd 0 5 *1025\n' \
    'id 0\nat 1\nat 2\nat 3\nat 4\nmsg 1 seat 1 tag 2 len 1 =a\nmsg 3 seat 1 tag 4 len 1 =c\npages 4 free 2 largest 0\nENOMEM\nmsg 2 seat 1 tag 3 len 1 =b\nat 8\n'
# The text is made first, so its refusal comes before that of the id and of the type.
case_of 'serial --height 0' \
    'get 0 c\nsnd 0 1 =a\nsnd 9 0 *1\nsnd 9 0 *65537\nsnd 9 0 =\nrcv 0 1 0\nsnd 9 1 =b\narena\n' \
    'id 0\nat 1\nENOMEM\nEINVAL\nEINVAL\nmsg 1 seat 1 tag 2 len 1 =a\nEINVAL\npages 1 free 1 largest 0\n'

table each_change_of_a_queue_is_seen
# The quota limits bytes and messages; an empty text counts as a message.
case_of '' \
    'get 0 c\nset 0 4\nsnd 0 1 =ab\nsnd 0 1 =cd\nsnd 0 1 =ef\nsnd 0 1 =\nsnd 0 1 =\nsnd 0 1 =\n' \
    'id 0\nat 1\nat 2\nat 3\nEAGAIN\nat 4\nat 5\nEAGAIN\n'
# A queue over its quota accepts nothing, and accepts again once it is under.
case_of '' \
    'get 0 c\nsnd 0 1 =abcdef\nset 0 4\nsnd 0 1 =\nrcv 0 9 0\nsnd 0 1 =\nset 0 131073\nset 0 0\nrcv 0 9 0\nsnd 0 1 =\n' \
    'id 0\nat 1\nat 2\nEAGAIN\nmsg 1 seat 1 tag 2 len 6 =abcdef\nat 4\nEPERM\nat 5\nmsg 1 seat 1 tag 6 len 0 =\nEAGAIN\n'
# The greatest quota is accepted, the next one and the greatest number are not.
case_of '' \
    'get 0 c\nset 0 131072\nset 0 131073\nset 0 18446744073709551615\nset 1 0\n' \
    'id 0\nat 1\nEPERM\nEPERM\nEINVAL\n'
# A removal frees the pages of all pending messages, and no call finds the queue again.
case_of '' \
    'get 0 c\nsnd 0 1 *3000\nsnd 0 1 *3000\nsnd 0 2 =x\nrm 0\narena\nsnd 0 1 =a\nrcv 0 9 0\nstat 0\nsnd 5 1 =a\n' \
    'id 0\nat 1\nat 2\nat 3\nat 4 events 5\npages 64 free 64 largest 6\nEIDRM\nEIDRM\nEIDRM\nEINVAL\n'
# A type below 1 is refused before the id is checked; a removed id is not reused.
case_of '' \
    'rm 0\nset 0 1\nstat 0\nget 0 c\nrm 0\nsnd 0 0 =a\nsnd 0 1 =a\nset 0 131073\nrm 0\nget 0 c\nrm 1\narena\n' \
    'EINVAL\nEINVAL\nEINVAL\nid 0\nat 1 events 2\nEINVAL\nEIDRM\nEIDRM\nEIDRM\nid 64\nEINVAL\npages 64 free 64 largest 6\n'
# The figures, and who changed the queue last and when.
case_of '' \
    'get 0 c\nsnd 0 5 =hello\nstat 0\nset 0 100\nrcv 0 5 -9\nstat 0\n' \
    'id 0\nat 1\nqnum 1 cbytes 5 qbytes 131072 lspid 1 lrpid 0 stime 2 rtime 0 ctime 1\nat 2\nmsg 5 seat 1 tag 2 len 5 =hello\nqnum 0 cbytes 0 qbytes 100 lspid 1 lrpid 1 stime 2 rtime 5 ctime 4\n'
# A refused call leaves the figures; the same quota can be set once more.
case_of '' \
    'seat 3\nget 0 c\nseat 4\nsnd 0 1 =abc\nseat 5\nsnd 0 0 =a\nrcv 0 2 0\nrcv 0 9 2\nset 0 131073\nstat 0\nset 0 131072\nstat 0\n' \
    'id 0\nat 1\nEINVAL\nE2BIG\nENOMSG\nEPERM\nqnum 1 cbytes 3 qbytes 131072 lspid 4 lrpid 0 stime 4 rtime 0 ctime 2\nat 2\nqnum 1 cbytes 3 qbytes 131072 lspid 4 lrpid 0 stime 4 rtime 0 ctime 11\n'
# A truncated text frees the room of its whole length.
case_of '' \
    'get 0 c\nset 0 5\nsnd 0 1 =hello\nrcv 0 1 0 n\nstat 0\nsnd 0 1 =world\n' \
    'id 0\nat 1\nat 2\nmsg 1 seat 1 tag 3 len 5 =h\nqnum 0 cbytes 0 qbytes 5 lspid 1 lrpid 1 stime 3 rtime 4 ctime 2\nat 4\n'
# A queue may be left with messages at the end of a run.
case_of '' \
    'get 0 c\nsnd 0 1 *65536\nset 0 0' \
    'id 0\nat 1\nat 2\n'

table a_cut_is_told_and_changes_no_other_answer
# Messages are pending at a cut, a removed queue's log is listed whole, and there is no slot 16.
case_of '' \
    'get 0 c\nsnd 0 5 =hello\nsnd 0 6 =x\ncut 0\ncut 0\nrcv 0 9 6\nstat 0\ncut 0\nrm 0\ncut 0\nget 0 c\nsnd 64 1 =n\ncut 16\n' \
    'id 0\nat 1\nat 2\ncut from 0 to 3\ncut from 3 to 3\nmsg 6 seat 1 tag 3 len 1 =x\nqnum 1 cbytes 5 qbytes 131072 lspid 1 lrpid 1 stime 3 rtime 6 ctime 1\ncut from 3 to 4\nat 4 events 5\ncut from 4 to 5\nid 64\nat 6\nEINVAL\n'
# A slot that was never used has nothing to drain; the last slot is 63, and slots are drained one by one.
case_of 'serial --slots 64' \
    'cut 0\ncut 63\nget 0 c\nget 0 c\ncut 1\ncut 0\nsnd 1 1 =a\ncut 1\ncut 0\n' \
    'cut from 0 to 0\ncut from 0 to 0\nid 0\nid 1\ncut from 0 to 1\ncut from 0 to 1\nat 1\ncut from 1 to 2\ncut from 1 to 1\n'
# The key, the quota and the row of a queue stay, and the ids of a slot are counted on.
case_of 'serial --slots 2 --last-seq 1' \
    'get -7 c\nset 0 3\nsnd 0 1 =abc\ncut 0\nget -7\nget -7 cx\nsnd 0 1 =d\nipcs\nrm 0\ncut 0\nstat 0\nget -7\nget -7 c\ncut 0\nrm 64\nget 0 c\nget 0 c\nstat 64\n' \
    'id 0\nat 1\nat 2\ncut from 0 to 3\nid 0\nEEXIST\nEAGAIN\nslot      id         key   qnum  cbytes  qbytes lspid lrpid\n   0       0          -7      1       3       3     1     0\nat 3 events 4\ncut from 3 to 4\nEIDRM\nENOENT\nid 64\ncut from 4 to 5\nat 5 events 2\nid 1\nENOSPC\nEIDRM\n'
# Pending messages are received after it as before it, and their pages are freed.
case_of 'serial --height 2' \
    'get 0 c\nsnd 0 2 =b\nsnd 0 1 =a\nsnd 0 3 *1025\ncut 0\narena\nrcv 0 9 -2\ncut 0\nrcv 0 1 3\nrcv 0 9 3 e\nrm 0\narena\n' \
    'id 0\nat 1\nat 2\nat 3\ncut from 0 to 4\npages 4 free 0 largest none\nmsg 1 seat 1 tag 3 len 1 =a\ncut from 4 to 5\nE2BIG\nmsg 2 seat 1 tag 2 len 1 =b\nat 6 events 7\npages 4 free 4 largest 2\n'

table each_system_gives_ids_and_keys_as_it_must
# Keys and their flags; a slot whose queue is removed has the next id.
case_of 'serial --slots 1 --last-seq 32767' \
    'get 9\nget 9 c\nget 9 cx\nget 9\nget 8 c\nrm 0\nget 9 c\nstat 0\nsnd 64 1 =n\nrm 1\nget 9 c\n' \
    'ENOENT\nid 0\nEEXIST\nid 0\nENOSPC\nat 1 events 2\nid 64\nEIDRM\nat 3\nEINVAL\nid 64\n'
# A table of the live queues, and seats that send and receive.
case_of 'serial --slots 16 --last-seq 32767' \
    'get 9 c\nseat 3\nsnd 0 5 =hello\nget 0 c\nipcs\nseat 2\nrcv 0 9 5\nstat 0\n' \
    'id 0\nat 1\nid 1\nslot      id         key   qnum  cbytes  qbytes lspid lrpid\n   0       0           9      1       5  131072     3     0\n   1       1           0      0       0  131072     0     0\nmsg 5 seat 3 tag 3 len 5 =hello\nqnum 0 cbytes 0 qbytes 131072 lspid 3 lrpid 2 stime 3 rtime 7 ctime 1\n'
# A slot is used up; its ids stay removed, and the next one was never given.
case_of 'serial --slots 1 --last-seq 1' \
    'get 0 c\nrm 0\nsnd 0 0 =a\nsnd 0 -1 =a\nsnd 0 1 =a\nget 0 c\nrm 64\nget 0 c\nrm 64\nrm 128\n' \
    'id 0\nat 1 events 2\nEINVAL\nEINVAL\nEIDRM\nid 64\nat 3 events 2\nENOSPC\nEIDRM\nEINVAL\n'
# Each slot has one queue, and is used up with it; an old id is removed for good.
case_of 'serial --slots 2 --last-seq 0' \
    'get 0 c\nget 0 c\nrm 0\nget 0 c\nrm 1\nget 0 c\nsnd 1 1 =a\n' \
    'id 0\nid 1\nat 1 events 2\nENOSPC\nat 1 events 2\nENOSPC\nEIDRM\n'
# No queue, and one that was removed, have no row.
case_of 'serial --slots 2 --last-seq 32767' \
    'ipcs\nget 7 c\nget 8 c\nrm 0\nipcs\nrm 1\nipcs\n' \
    'slot      id         key   qnum  cbytes  qbytes lspid lrpid\nid 0\nid 1\nat 1 events 2\nslot      id         key   qnum  cbytes  qbytes lspid lrpid\n   1       1           8      0       0  131072     0     0\nat 1 events 2\nslot      id         key   qnum  cbytes  qbytes lspid lrpid\n'
# What is in use, of all queues together: the pending messages of the live ones, and none of
# another.
case_of 'serial --slots 3 --height 2' \
    'info\nget 7 c\nget 8 c\nget 9 c\nsnd 0 1 =abc\nsnd 2 1 =de\nsnd 2 1 =\nsnd 1 1 =x\nrm 1\ninfo\nrcv 2 9 0\nrm 0\ninfo\ninfo 0\n' \
    'queues 0 messages 0 bytes 0 slots 3 pages 4 msgmax 65536 msgmnb 131072\nid 0\nid 1\nid 2\nat 1\nat 1\nat 2\nat 1\nat 2 events 3\nqueues 2 messages 3 bytes 5 slots 3 pages 4 msgmax 65536 msgmnb 131072\nmsg 1 seat 1 tag 6 len 2 =de\nat 2 events 3\nqueues 1 messages 1 bytes 0 slots 3 pages 4 msgmax 65536 msgmnb 131072\n' 'mqsim: line 14: words\n'
# The least slot that is free is taken; key 0 never finds a queue.
case_of 'serial --slots 3 --last-seq 32767' \
    'get 0 c\nget 0 cx\nget 0 c\nget 0 c\nget 0\nrm 1\nrm 0\nget 0\nget 0 x\n' \
    'id 0\nid 1\nid 2\nENOSPC\nENOSPC\nat 1 events 2\nat 1 events 2\nid 64\nid 65\n'
# IPC_EXCL says nothing alone; the bounds of a key.
case_of 'serial --slots 4 --last-seq 32767' \
    'get 5 x\nget -2147483648 cx\nget 2147483647 cx\nget -1 c\nget -2147483648 x\nget 2147483647\nget -1\nget -1 cx\nipcs\n' \
    'ENOENT\nid 0\nid 1\nid 2\nid 0\nid 1\nid 2\nEEXIST\nslot      id         key   qnum  cbytes  qbytes lspid lrpid\n   0       0 -2147483648      0       0  131072     0     0\n   1       1  2147483647      0       0  131072     0     0\n   2       2          -1      0       0  131072     0     0\n'
# A key that is removed is forgotten, and the others are still found.
case_of 'serial --slots 4 --last-seq 32767' \
    'get 1 c\nget 0 c\nget 3 c\nrm 1\nget 3\nget 1\nrm 0\nget 1\nget 3\nget 1 c\n' \
    'id 0\nid 1\nid 2\nat 1 events 2\nid 2\nid 0\nat 1 events 2\nENOENT\nid 2\nid 64\n'
# Ids past the slots, and the greatest number; entries continue in the slot.
case_of 'serial --slots 2 --last-seq 2' \
    'get 0 c\nstat 2\nstat 63\nstat 4294967295\nrm 0\nget 0 c\nsnd 64 1 =a\nrcv 64 9 0\nset 64 5\nrm 64\nget 0 c\nstat 0\nstat 64\nstat 192\n' \
    'id 0\nEINVAL\nEINVAL\nEINVAL\nat 1 events 2\nid 64\nat 3\nmsg 1 seat 1 tag 7 len 1 =a\nat 5\nat 6 events 5\nid 128\nEIDRM\nEIDRM\nEINVAL\n'
# The messages of two queues do not mix.
case_of 'serial --slots 2 --last-seq 0' \
    'get 0 c\nget 0 c\nsnd 0 1 =a\nsnd 1 1 =b\nrcv 1 9 0\nrcv 1 9 0\nrcv 0 9 0\nrm 0\nget 0 c\n' \
    'id 0\nid 1\nat 1\nat 1\nmsg 1 seat 1 tag 4 len 1 =b\nENOMSG\nmsg 1 seat 1 tag 3 len 1 =a\nat 3 events 4\nENOSPC\n'

table tables_are_those_of_ipcs
# No queue, a removed one, and the limits by the slots of the run.
case_of 'serial --slots 2 --last-seq 32767' \
    'ipcs -q\nipcs -l\nget 7 c\nrm 0\nipcs -q x\nipcs -q\n' \
    '\n------ Message Queues --------\nkey        msqid      owner      perms      used-bytes   messages    \n\n\n------ Messages Limits --------\nmax queues system wide = 2\nmax size of message (bytes) = 65536\ndefault max size of queue (bytes) = 131072\n\nid 0\nat 1 events 2\n\n------ Message Queues --------\nkey        msqid      owner      perms      used-bytes   messages    \n\n\n------ Message Queues --------\nkey        msqid      owner      perms      used-bytes   messages    \n\n'
# Negative keys, key 0, the bounds of a key, and what is pending; the ids of queues that were made later.
case_of 'serial --slots 16' \
    'get 7 c\nget 0 c\nget 5 c\nrm 2\nget -2147483648 c\nget 2147483647 c\nget -1 c\nseat 3\nsnd 1 5 =hello\nsnd 1 5 =worlds\nipcs -q\nipcs -q x\n' \
    'id 0\nid 1\nid 2\nat 1 events 2\nid 66\nid 3\nid 4\nat 1\nat 2\n\n------ Message Queues --------\nkey        msqid      owner      perms      used-bytes   messages    \n7          0          -          666        0            0           \n0          1          -          666        11           2           \n-2147483648 66         -          666        0            0           \n2147483647 3          -          666        0            0           \n-1         4          -          666        0            0           \n\n\n------ Message Queues --------\nkey        msqid      owner      perms      used-bytes   messages    \n0x00000007 0          -          666        0            0           \n0x00000000 1          -          666        11           2           \n0x80000000 66         -          666        0            0           \n0x7fffffff 3          -          666        0            0           \n0xffffffff 4          -          666        0            0           \n\n'
# All slots are in use; a cut changes no table, a receipt does.
case_of 'serial --slots 4' \
    'get 1 c\nget 2 c\nget 3 c\nget 4 c\nget 5 c\nsnd 3 1 *4096\ncut 3\nipcs -q x\nrcv 3 0 0 n\nrm 1\nipcs -q\nipcs\nipcs -l\n' \
    'id 0\nid 1\nid 2\nid 3\nENOSPC\nat 1\ncut from 0 to 2\n\n------ Message Queues --------\nkey        msqid      owner      perms      used-bytes   messages    \n0x00000001 0          -          666        0            0           \n0x00000002 1          -          666        0            0           \n0x00000003 2          -          666        0            0           \n0x00000004 3          -          666        4096         1           \n\nmsg 1 seat 1 tag 6 len 4096 =\nat 1 events 2\n\n------ Message Queues --------\nkey        msqid      owner      perms      used-bytes   messages    \n1          0          -          666        0            0           \n3          2          -          666        0            0           \n4          3          -          666        0            0           \n\nslot      id         key   qnum  cbytes  qbytes lspid lrpid\n   0       0           1      0       0  131072     0     0\n   2       2           3      0       0  131072     0     0\n   3       3           4      0       0  131072     1     1\n\n------ Messages Limits --------\nmax queues system wide = 4\nmax size of message (bytes) = 65536\ndefault max size of queue (bytes) = 131072\n\n'

table an_id_is_never_given_then_live_then_removed
# Each removal's entry has the entry at which its queue was made.
case_of 'serial --height 0 --slots 2' \
    'stat 0\nget 5 c\nstat 0\nstat 64\nstat 1\nget 0\nstat 1\nrm 0\nstat 0\nstat 64\nget 5 c\nstat 0\nstat 64\nstat 128\nrm 64\nget 6 c\nstat 0\nstat 64\nstat 128\nstat 192\nstat 1\nrm 128\nrm 1\n' \
    'EINVAL\nid 0\nqnum 0 cbytes 0 qbytes 131072 lspid 0 lrpid 0 stime 0 rtime 0 ctime 2\nEINVAL\nEINVAL\nid 1\nqnum 0 cbytes 0 qbytes 131072 lspid 0 lrpid 0 stime 0 rtime 0 ctime 6\nat 1 events 2\nEIDRM\nEINVAL\nid 64\nEIDRM\nqnum 0 cbytes 0 qbytes 131072 lspid 0 lrpid 0 stime 0 rtime 0 ctime 11\nEINVAL\nat 3 events 2\nid 128\nEIDRM\nEIDRM\nqnum 0 cbytes 0 qbytes 131072 lspid 0 lrpid 0 stime 0 rtime 0 ctime 16\nEINVAL\nqnum 0 cbytes 0 qbytes 131072 lspid 0 lrpid 0 stime 0 rtime 0 ctime 6\nat 5 events 2\nat 1 events 2\n'

table an_id_past_the_slots_was_never_given
case_of 'serial --height 0 --slots 2 --last-seq 9' \
    'get 5 c\nget 6 c\nstat 2\nstat 63\nstat 4294967295\nsnd 2 1 =a\nsnd 63 1 =\nsnd 4294967295 1 =a\nrcv 2 9 0\nrcv 4294967295 9 0\nset 63 1\nset 4294967295 131073\nrm 66\nrm 4294967295\nrm 0\nrm 1\narena\n' \
    'id 0\nid 1\nEINVAL\nEINVAL\nEINVAL\nEINVAL\nEINVAL\nEINVAL\nEINVAL\nEINVAL\nEINVAL\nEINVAL\nEINVAL\nEINVAL\nat 1 events 2\nat 1 events 2\npages 1 free 1 largest 0\n'
# The last id is of the last slot.
case_of 'serial --height 0 --slots 64' \
    'rm 63\nrm 4294967295\nset 4294967295 1\nsnd 4294967295 1 =a\nstat 4294967295\ncut 63\n' \
    'EINVAL\nEINVAL\nEINVAL\nEINVAL\nEINVAL\ncut from 0 to 0\n'

table a_refused_call_changes_nothing
# Of a queue that is empty, full, too long to be received, removed and never given.
case_of 'serial --height 0 --slots 1 --last-seq 9' \
    'rm 0\nget 5 c\nrcv 0 9 0\nset 0 131073\nset 0 2\nsnd 0 1 =abc\nsnd 0 1 =ab\nrcv 0 1 0\nstat 0\nrcv 0 2 0\nrm 0\nsnd 0 1 =ab\nrcv 0 2 0\nset 0 131073\nrm 0\nsnd 64 1 =ab\nrcv 64 2 0\nrm 4294967232\nsnd 0 0 =ab\nsnd 0 -9223372036854775808 =ab\ncut 0\narena\n' \
    'EINVAL\nid 0\nENOMSG\nEPERM\nat 1\nEAGAIN\nat 2\nE2BIG\nqnum 1 cbytes 2 qbytes 2 lspid 1 lrpid 0 stime 7 rtime 0 ctime 5\nmsg 1 seat 1 tag 7 len 2 =ab\nat 4 events 5\nEIDRM\nEIDRM\nEIDRM\nEIDRM\nEINVAL\nEINVAL\nEINVAL\nEINVAL\nEINVAL\ncut from 0 to 5\npages 1 free 1 largest 0\n'
# A text that is not made is not sent.
case_of 'serial --height 0 --slots 1 --last-seq 9' \
    'get 0 c\nsnd 0 0 *65537\nsnd 0 0 *65536\nsnd 0 1 *1\nsnd 0 1 *1\nsnd 0 1 *0\nstat 0\n' \
    'id 0\nEINVAL\nENOMEM\nat 1\nENOMEM\nat 2\nqnum 2 cbytes 1 qbytes 131072 lspid 1 lrpid 0 stime 6 rtime 0 ctime 1\n'

table a_slot_is_used_up_after_its_last_seq
case_of 'serial --height 0 --slots 1 --last-seq 1' \
    'get 0 c\nrm 0\nget 9 c\nrm 64\nget 9 c\nget 0 c\nstat 0\nstat 64\nstat 128\n' \
    'id 0\nat 1 events 2\nid 64\nat 3 events 2\nENOSPC\nENOSPC\nEIDRM\nEIDRM\nEINVAL\n'
case_of 'serial --height 0 --slots 2 --last-seq 0' \
    'get 0 c\nrm 0\nget 0 c\nrm 1\nget 0 c\n' \
    'id 0\nat 1 events 2\nid 1\nat 1 events 2\nENOSPC\n'

table the_least_free_slot_is_taken
case_of 'serial --height 0 --slots 3 --last-seq 9' \
    'get 0 c\nget 0 c\nget 0 c\nrm 2\nrm 1\nget 0 c\nrm 0\nget 0 c\nget 0 c\nrm 64\nrm 65\nrm 66\n' \
    'id 0\nid 1\nid 2\nat 1 events 2\nat 1 events 2\nid 65\nat 1 events 2\nid 64\nid 66\nat 3 events 2\nat 3 events 2\nat 3 events 2\n'

table a_key_is_found_or_made_as_the_flags_say
# Alone, IPC_EXCL says nothing. What is found is not made again: there is no entry between.
case_of 'serial --height 0 --slots 1 --last-seq 9' \
    'get 9\nget 9 c\nget 9 cx\nget 9\nget 9 c\nget 8 c\nget 9 x\nget 8 x\nget 0\nrm 0\nget 9\nget 9 c\nstat 0\nstat 1\nstat 64\nstat 128\nget 9\nrm 64\n' \
    'ENOENT\nid 0\nEEXIST\nid 0\nid 0\nENOSPC\nid 0\nENOENT\nENOSPC\nat 1 events 2\nENOENT\nid 64\nEIDRM\nEINVAL\nqnum 0 cbytes 0 qbytes 131072 lspid 0 lrpid 0 stime 0 rtime 0 ctime 12\nEINVAL\nid 64\nat 3 events 2\n'
# IPC_PRIVATE makes a queue at each call.
case_of 'serial --height 0 --slots 4 --last-seq 9' \
    'get 0\nget 0 cx\nget 0 x\nget 0 c\nget 0 c\nget 0\nrm 0\nrm 1\nrm 2\nrm 3\n' \
    'id 0\nid 1\nid 2\nid 3\nENOSPC\nENOSPC\nat 1 events 2\nat 1 events 2\nat 1 events 2\nat 1 events 2\n'

table each_key_keeps_its_own_queue
# The removal of a queue without a key frees no key, and of one with a key that one alone.
case_of 'serial --height 0 --slots 4 --last-seq 9' \
    'get -2147483648 c\nget 2147483647 cx\nget 0 c\nget -1 c\nget -2147483648\nget 2147483647\nget -1\nrm 2\nget -2147483648 c\nget 2147483647 c\nget -1\nrm 1\nget 2147483647\nget -2147483648\nget -1 cx\nget 1 c\nget 2147483647 c\nget 2147483647\nget 2 c\nrm 0\nrm 3\nrm 65\nrm 66\n' \
    'id 0\nid 1\nid 2\nid 3\nid 0\nid 1\nid 3\nat 1 events 2\nid 0\nid 1\nid 3\nat 1 events 2\nENOENT\nid 0\nEEXIST\nid 65\nid 66\nid 66\nENOSPC\nat 1 events 2\nat 1 events 2\nat 3 events 2\nat 3 events 2\n'

table a_queue_is_made_filled_shown_and_removed
case_of 'serial --height 0 --slots 1 --last-seq 9' \
    'get 0 cx\nseat 2\nrcv 0 9 0\nseat 1\nsnd 0 0 =hi\narena\nsnd 0 1 =hi\nstat 0\nipcs\narena\nrm 0\narena\nstat 0\nipcs\ncut 0\n' \
    'id 0\nENOMSG\nEINVAL\npages 1 free 1 largest 0\nat 1\nqnum 1 cbytes 2 qbytes 131072 lspid 1 lrpid 0 stime 7 rtime 0 ctime 1\nslot      id         key   qnum  cbytes  qbytes lspid lrpid\n   0       0           0      1       2  131072     1     0\npages 1 free 0 largest none\nat 2 events 3\npages 1 free 1 largest 0\nEIDRM\nslot      id         key   qnum  cbytes  qbytes lspid lrpid\ncut from 0 to 3\n'
# Each row shows its own slot.
case_of 'serial --height 0 --slots 3 --last-seq 9' \
    'get 0\nget -8 cx\nsnd 1 1 =hi\nipcs\nstat 0\nstat 1\nstat 2\n' \
    'id 0\nid 1\nat 1\nslot      id         key   qnum  cbytes  qbytes lspid lrpid\n   0       0           0      0       0  131072     0     0\n   1       1          -8      1       2  131072     1     0\nqnum 0 cbytes 0 qbytes 131072 lspid 0 lrpid 0 stime 0 rtime 0 ctime 1\nqnum 1 cbytes 2 qbytes 131072 lspid 1 lrpid 0 stime 3 rtime 0 ctime 2\nEINVAL\n'
# The messages pending at the end are of two queues; a third was removed, and a slot never used.
case_of 'serial --height 3 --slots 4 --last-seq 9' \
    'get 5 c\nsnd 0 1 =gone\nrm 0\nget 5 c\nget 6 c\nget 7 c\nrm 1\nsnd 64 1 =one\nsnd 64 1 =two\nsnd 2 1 =outside\nsnd 2 1 =four\narena\nseat 2\nrcv 2 9 0\narena\ncut 0\ncut 1\ncut 2\ncut 3\n' \
    'id 0\nat 1\nat 2 events 3\nid 64\nid 1\nid 2\nat 1 events 2\nat 4\nat 5\nat 1\nat 2\npages 8 free 4 largest 2\nmsg 1 seat 1 tag 10 len 7 =outside\npages 8 free 5 largest 2\ncut from 0 to 6\ncut from 0 to 2\ncut from 0 to 4\ncut from 0 to 0\n'

table what_waits_outlives_cuts
case_of 'serial --height 1 --slots 2 --last-seq 9' \
    'cut 0\nget 9 cx\nsnd 0 1 =one\nsnd 0 2 =four\ncut 0\nget 9\nstat 0\nipcs\ncut 0\nget 9\nstat 0\nipcs\nseat 2\nrcv 0 9 0\ncut 0\nget 9\nstat 0\nipcs\nseat 1\nsnd 0 1 =two\ncut 1\narena\ncut 0\n' \
    'cut from 0 to 0\nid 0\nat 1\nat 2\ncut from 0 to 3\nid 0\nqnum 2 cbytes 7 qbytes 131072 lspid 1 lrpid 0 stime 4 rtime 0 ctime 2\nslot      id         key   qnum  cbytes  qbytes lspid lrpid\n   0       0           9      2       7  131072     1     0\ncut from 3 to 3\nid 0\nqnum 2 cbytes 7 qbytes 131072 lspid 1 lrpid 0 stime 4 rtime 0 ctime 2\nslot      id         key   qnum  cbytes  qbytes lspid lrpid\n   0       0           9      2       7  131072     1     0\nmsg 1 seat 1 tag 3 len 3 =one\ncut from 3 to 4\nid 0\nqnum 1 cbytes 4 qbytes 131072 lspid 1 lrpid 2 stime 4 rtime 14 ctime 2\nslot      id         key   qnum  cbytes  qbytes lspid lrpid\n   0       0           9      1       4  131072     1     2\nat 4\ncut from 0 to 0\npages 2 free 0 largest none\ncut from 4 to 5\n'
# A removed queue's entries are counted with those that were drained.
case_of 'serial --height 1 --slots 2 --last-seq 9' \
    'get 9 cx\nsnd 0 1 =one\nsnd 0 2 =four\ncut 0\ncut 0\nseat 2\nrcv 0 9 0\nseat 1\nrm 0\narena\ncut 0\n' \
    'id 0\nat 1\nat 2\ncut from 0 to 3\ncut from 3 to 3\nmsg 1 seat 1 tag 2 len 3 =one\nat 4 events 5\npages 2 free 2 largest 1\ncut from 3 to 5\n'

table entries_and_ids_count_on_over_cuts
case_of 'serial --height 0 --slots 1 --last-seq 9' \
    'cut 0\nget 9 c\nsnd 0 1 =abc\ncut 0\ncut 0\nget 9 cx\nstat 0\nrcv 0 9 0\nsnd 0 2 =four\ncut 0\nset 0 100\nrm 0\nstat 0\nget 9\nget 8 c\nsnd 64 1 =\ncut 0\ncut 0\nrm 64\ncut 0\ncut 0\nget 8 c\nrm 128\n' \
    'cut from 0 to 0\nid 0\nat 1\ncut from 0 to 2\ncut from 2 to 2\nEEXIST\nqnum 1 cbytes 3 qbytes 131072 lspid 1 lrpid 0 stime 3 rtime 0 ctime 2\nmsg 1 seat 1 tag 3 len 3 =abc\nat 3\ncut from 2 to 4\nat 4\nat 5 events 6\nEIDRM\nENOENT\nid 64\nat 7\ncut from 4 to 8\ncut from 8 to 8\nat 8 events 3\ncut from 8 to 9\ncut from 9 to 9\nid 128\nat 10 events 2\n'

table a_text_takes_the_smallest_block
script='get 0 c\n'
answers='id 0\n'
line=1
for beside in '0 64 6' '1 63 5' '1024 63 5' '1025 62 5' '2048 62 5' '2049 60 5' '4096 60 5' \
    '4097 56 5' '8192 56 5' '8193 48 5' '16384 48 5' '16385 32 5' '32768 32 5' '32769 0 none' \
    '65536 0 none'; do
    read -r length free largest <<< "$beside"
    script+="snd 0 1 *$length\narena\nrcv 0 0 0 n\narena\n"
    answers+="at $((line / 2 + 1))\npages 64 free $free largest $largest\n"
    answers+="msg 1 seat 1 tag $((line + 1)) len $length =\npages 64 free 64 largest 6\n"
    line=$((line + 4))
done
case_of 'serial --height 6 --slots 1 --last-seq 9' "$script" "$answers"

table a_text_is_refused_where_it_is_too_long_or_no_run_is_free
case_of 'serial --height 3 --slots 1 --last-seq 9' \
    'get 0 c\nsnd 0 1 *1\narena\nsnd 0 1 *8192\nsnd 0 1 *65537\nrcv 0 9 0\nsnd 0 1 *8192\narena\nsnd 0 1 *1\nsnd 0 1 *8193\nsnd 0 1 *65536\nsnd 0 1 *65537\nsnd 0 1 *18446744073709551615\nsnd 0 2 *0\nrcv 0 0 2\nrcv 0 0 0 n\narena\n' \
    'id 0\nat 1\npages 8 free 7 largest 2\nENOMEM\nEINVAL\nmsg 1 seat 1 tag 2 len 1 =a\nat 3\npages 8 free 0 largest none\nENOMEM\nENOMEM\nENOMEM\nEINVAL\nEINVAL\nat 4\nmsg 2 seat 1 tag 14 len 0 =\nmsg 1 seat 1 tag 7 len 8192 =\npages 8 free 8 largest 3\n'
# Beside a page of 64 the longest text has no run, and one of half its length has one.
case_of 'serial --height 6 --slots 1 --last-seq 9' \
    'get 0 c\nsnd 0 1 *1\nsnd 0 1 *65536\nsnd 0 1 *32769\nsnd 0 2 *32768\nsnd 0 1 *16385\nsnd 0 3 *8193\nsnd 0 1 *8193\narena\nrcv 0 1 1\nrcv 0 0 3 n\nrcv 0 0 2 n\narena\nsnd 0 1 *65536\narena\nrcv 0 0 0 n\narena\n' \
    'id 0\nat 1\nENOMEM\nENOMEM\nat 2\nENOMEM\nat 3\nENOMEM\npages 64 free 15 largest 3\nmsg 1 seat 1 tag 2 len 1 =a\nmsg 3 seat 1 tag 7 len 8193 =\nmsg 2 seat 1 tag 5 len 32768 =\npages 64 free 64 largest 6\nat 7\npages 64 free 0 largest none\nmsg 1 seat 1 tag 14 len 65536 =\npages 64 free 64 largest 6\n'

table each_flag_of_msgrcv_does_its_own
case_of 'serial --height 2 --slots 1 --last-seq 9' \
    'get 0 c\nsnd 0 2 *4\nsnd 0 1 *3\nsnd 0 1 *0\narena\nseat 2\nrcv 0 9 -2\nrcv 0 9 1 e\nrcv 0 9 1 e\nrcv 0 1 1 n\narena\nset 0 9\n' \
    'id 0\nat 1\nat 2\nat 3\npages 4 free 2 largest 1\nmsg 1 seat 1 tag 3 len 3 =abc\nmsg 2 seat 1 tag 2 len 4 =abcd\nENOMSG\nmsg 1 seat 1 tag 4 len 0 =\npages 4 free 4 largest 2\nat 7\n'
# A truncated text reports its whole length, and its page is freed.
case_of 'serial --height 1 --slots 1 --last-seq 9' \
    'get 9 c\nsnd 0 1 =before\nsnd 0 3 =hello\nrcv 0 9 1\narena\nseat 2\nrcv 0 4 0\nrcv 0 2 0 n\narena\n' \
    'id 0\nat 1\nat 2\nmsg 1 seat 1 tag 2 len 6 =before\npages 2 free 1 largest 0\nE2BIG\nmsg 3 seat 1 tag 3 len 5 =he\npages 2 free 2 largest 1\n'

# Forty messages of five types, of which one has a text that takes all pages; after twenty receipts
# the log is drained.
table a_list_of_calls_is_answered_over_cuts
script='get 9 c\nget 0 c\n'
answers='id 0\nid 1\n'
for place in {0..39}; do
    script+="snd 0 $((place % 5 + 1)) *$((place == 17 ? 8193 : 0))\n"
    answers+="at $((place + 1))\n"
done
script+='cut 0\nseat 2\n'
answers+='cut from 0 to 41\n'
for place in {0..39}; do
    sent=$((place % 8 * 5 + place / 8))
    length=$((sent == 17 ? 8193 : 0))
    script+="rcv 0 $length $((sent % 5 + 1))\n"
    answers+="msg $((sent % 5 + 1)) seat 1 tag $((sent + 3)) len $length "
    answers+="=$(printf 'abcdefghijklmnopqrstuvwxyz%.0s' {1..316} | head -c $length)\n"
    if [ "$place" -eq 19 ]; then
        script+='cut 0\n'
        answers+='cut from 41 to 61\n'
    fi
done
case_of 'serial --height 4 --slots 2 --last-seq 1' \
    "${script}seat 1\nset 0 100\nstat 0\nrm 0\ncut 0\nget 9 c\ncut 0\n" \
    "${answers}at 81\nqnum 0 cbytes 0 qbytes 100 lspid 1 lrpid 2 stime 42 rtime 85 ctime 87\nat 82 events 83\ncut from 61 to 83\nid 64\ncut from 83 to 84\n"

table a_line_that_is_not_well_formed_has_its_cause
case_of 'serial --height 0' '\tget 0 c' '' 'mqsim: line 1: byte\n'
case_of 'serial --height 0' 'get 0 c\177' '' 'mqsim: line 1: byte\n'
case_of 'serial --height 0' '# caf\303\251' '' 'mqsim: line 1: byte\n'
case_of 'serial --height 0' 'get 0 c\000' '' 'mqsim: line 1: byte\n'
case_of 'serial --height 0' 'get\t0 c' '' 'mqsim: line 1: byte\n'
case_of 'serial --height 0' ' ' '' 'mqsim: line 1: words\n'
case_of 'serial --height 0' ' get 0 c' '' 'mqsim: line 1: words\n'
case_of 'serial --height 0' 'get 0 c ' '' 'mqsim: line 1: words\n'
case_of 'serial --height 0' 'get  0 c' '' 'mqsim: line 1: words\n'
case_of 'serial --height 0' 'GET 0 c' '' 'mqsim: line 1: words\n'
case_of 'serial --height 0' 'got 0 c' '' 'mqsim: line 1: words\n'
case_of 'serial --height 0' 'get' '' 'mqsim: line 1: words\n'
case_of 'serial --height 0' 'get 0 c c' '' 'mqsim: line 1: words\n'
case_of 'serial --height 0' 'get 0 xc' '' 'mqsim: line 1: words\n'
case_of 'serial --height 0' 'get 0 C' '' 'mqsim: line 1: words\n'
case_of 'serial --height 0' 'get x cc' '' 'mqsim: line 1: words\n'
case_of 'serial --height 0' 'get 5 c ' '' 'mqsim: line 1: words\n'
case_of 'serial --height 0' 'get x c' '' 'mqsim: line 1: number\n'
case_of 'serial --height 0' 'get 2147483648' '' 'mqsim: line 1: number\n'
case_of 'serial --height 0' 'get -2147483649 c' '' 'mqsim: line 1: number\n'
case_of 'serial --height 0' 'get +5' '' 'mqsim: line 1: number\n'
case_of 'serial --height 0' 'ipcs 0' '' 'mqsim: line 1: words\n'
case_of 'serial --height 0' 'ipcs ' '' 'mqsim: line 1: words\n'
case_of 'serial --height 0' 'ipcs x' '' 'mqsim: line 1: words\n'
case_of 'serial --height 0' 'ipcs q' '' 'mqsim: line 1: words\n'
case_of 'serial --height 0' 'ipcs -x' '' 'mqsim: line 1: words\n'
case_of 'serial --height 0' 'ipcs -Q' '' 'mqsim: line 1: words\n'
case_of 'serial --height 0' 'ipcs -lq' '' 'mqsim: line 1: words\n'
case_of 'serial --height 0' 'ipcs -qx' '' 'mqsim: line 1: words\n'
case_of 'serial --height 0' 'ipcs -q c' '' 'mqsim: line 1: words\n'
case_of 'serial --height 0' 'ipcs -q X' '' 'mqsim: line 1: words\n'
case_of 'serial --height 0' 'ipcs -q x x' '' 'mqsim: line 1: words\n'
case_of 'serial --height 0' 'ipcs -q ' '' 'mqsim: line 1: words\n'
case_of 'serial --height 0' 'ipcs -q  x' '' 'mqsim: line 1: words\n'
case_of 'serial --height 0' 'ipcs -q x ' '' 'mqsim: line 1: words\n'
case_of 'serial --height 0' 'ipcs -l x' '' 'mqsim: line 1: words\n'
case_of 'serial --height 0' 'ipcs -l -q' '' 'mqsim: line 1: words\n'
case_of 'serial --height 0' 'ipcs -l ' '' 'mqsim: line 1: words\n'
case_of 'serial --height 0' 'get -0 c' '' 'mqsim: line 1: number\n'
case_of 'serial --height 0' 'get 00 c' '' 'mqsim: line 1: number\n'
case_of 'serial --height 0' 'snd' '' 'mqsim: line 1: words\n'
case_of 'serial --height 0' 'snd 0 5' '' 'mqsim: line 1: words\n'
case_of 'serial --height 0' 'snd 0 5 ' '' 'mqsim: line 1: words\n'
case_of 'serial --height 0' 'snd 0 5 hello' '' 'mqsim: line 1: words\n'
case_of 'serial --height 0' 'snd 0 5  =hello' '' 'mqsim: line 1: words\n'
case_of 'serial --height 0' 'snd  5 =hello' '' 'mqsim: line 1: words\n'
case_of 'serial --height 0' 'snd 0 5 *5 ' '' 'mqsim: line 1: words\n'
case_of 'serial --height 0' 'snd 0 5 *5 5' '' 'mqsim: line 1: words\n'
case_of 'serial --height 0' 'snd x 5 hello' '' 'mqsim: line 1: words\n'
case_of 'serial --height 0' 'snd 0 5 *' '' 'mqsim: line 1: number\n'
case_of 'serial --height 0' 'snd 0 5 *05' '' 'mqsim: line 1: number\n'
case_of 'serial --height 0' 'snd 0 5 *-1' '' 'mqsim: line 1: number\n'
case_of 'serial --height 0' 'snd 0 5 *18446744073709551616' '' 'mqsim: line 1: number\n'
case_of 'serial --height 0' 'snd 0 =a =b' '' 'mqsim: line 1: number\n'
case_of 'serial --height 0' 'snd 4294967296 5 =a' '' 'mqsim: line 1: number\n'
case_of 'serial --height 0' 'snd -1 5 =a' '' 'mqsim: line 1: number\n'
case_of 'serial --height 0' 'snd 0 9223372036854775808 =a' '' 'mqsim: line 1: number\n'
case_of 'serial --height 0' 'snd 0 -9223372036854775809 =a' '' 'mqsim: line 1: number\n'
case_of 'serial --height 0' 'snd 0 -0 =a' '' 'mqsim: line 1: number\n'
case_of 'serial --height 0' 'snd 0 -01 =a' '' 'mqsim: line 1: number\n'
case_of 'serial --height 0' 'snd 0 +1 =a' '' 'mqsim: line 1: number\n'
case_of 'serial --height 0' 'snd 0 1a =a' '' 'mqsim: line 1: number\n'
case_of 'serial --height 0' 'rcv 0 18446744073709551616 0' '' 'mqsim: line 1: number\n'
case_of 'serial --height 0' 'rcv 0 9 -9223372036854775809' '' 'mqsim: line 1: number\n'
case_of 'serial --height 0' 'rcv 0 9' '' 'mqsim: line 1: words\n'
case_of 'serial --height 0' 'rcv 0 9 0 ne' '' 'mqsim: line 1: words\n'
case_of 'serial --height 0' 'rcv 0 9 x ne' '' 'mqsim: line 1: words\n'
case_of 'serial --height 0' 'rcv 0 9 0 e n' '' 'mqsim: line 1: words\n'
case_of 'serial --height 0' 'rcv 0  0' '' 'mqsim: line 1: words\n'
case_of 'serial --height 0' 'seat' '' 'mqsim: line 1: words\n'
case_of 'serial --height 0' 'seat 1 2' '' 'mqsim: line 1: words\n'
case_of 'serial --height 0' 'seat 0' '' 'mqsim: line 1: number\n'
case_of 'serial --height 0' 'seat 17' '' 'mqsim: line 1: number\n'
case_of 'serial --height 0' 'seat 01' '' 'mqsim: line 1: number\n'
case_of 'serial --height 0' 'set 0' '' 'mqsim: line 1: words\n'
case_of 'serial --height 0' 'set 0 1 2' '' 'mqsim: line 1: words\n'
case_of 'serial --height 0' 'set x ' '' 'mqsim: line 1: words\n'
case_of 'serial --height 0' 'set 0 -1' '' 'mqsim: line 1: number\n'
case_of 'serial --height 0' 'set 0 18446744073709551616' '' 'mqsim: line 1: number\n'
case_of 'serial --height 0' 'set 4294967296 1' '' 'mqsim: line 1: number\n'
case_of 'serial --height 0' 'rm' '' 'mqsim: line 1: words\n'
case_of 'serial --height 0' 'rm 0 0' '' 'mqsim: line 1: words\n'
case_of 'serial --height 0' 'rm 00' '' 'mqsim: line 1: number\n'
case_of 'serial --height 0' 'rm 4294967296' '' 'mqsim: line 1: number\n'
case_of 'serial --height 0' 'cut' '' 'mqsim: line 1: words\n'
case_of 'serial --height 0' 'cut ' '' 'mqsim: line 1: words\n'
case_of 'serial --height 0' 'cut 0 0' '' 'mqsim: line 1: words\n'
case_of 'serial --height 0' 'cut  0' '' 'mqsim: line 1: words\n'
case_of 'serial --height 0' 'cut 64' '' 'mqsim: line 1: number\n'
case_of 'serial --height 0' 'cut 00' '' 'mqsim: line 1: number\n'
case_of 'serial --height 0' 'cut -1' '' 'mqsim: line 1: number\n'
case_of 'serial --height 0' 'cut x' '' 'mqsim: line 1: number\n'
case_of 'serial --height 0' 'stat' '' 'mqsim: line 1: words\n'
case_of 'serial --height 0' 'stat 0 0' '' 'mqsim: line 1: words\n'
case_of 'serial --height 0' 'stat -1' '' 'mqsim: line 1: number\n'
case_of 'serial --height 0' 'stat 4294967296' '' 'mqsim: line 1: number\n'

table a_line_is_long_past_its_limit
longest=$(printf '#%.0s' {1..4096})
case_of 'serial --height 0' "$longest" ''
case_of 'serial --height 0' "$longest\r\n" ''
case_of 'serial --height 0' "$longest#" '' 'mqsim: line 1: long\n'
case_of 'serial --height 0' "$longest#\r\n" '' 'mqsim: line 1: long\n'
