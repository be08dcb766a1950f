"""Made-up mistakes that the judge of replay_model.py must find: rounds as they would be printed, in
named pieces, and pieces that are changed."""

MADE = "Made { seat: 1, moment: 10, key: 5 }"
SENT = "Sent { seat: 1, moment: 11, tag: 11, mtype: 2, length: 3 }"
SENT_TOO = "Sent { seat: 2, moment: 21, tag: 21, mtype: 1, length: 4 }"
RECEIVED = ("Received { seat: 2, moment: 23, place: 2, selection: UpTo(2), size: 9, "
            "noerror: false }")
CHANGED = "Changed { seat: 1, moment: 12, qbytes: 100 }"
REMOVED = "Removed { seat: 2, moment: 26 }"

# The messages where a log is cut: the one pending after the receipt, and the one received.
FIRST = "Header { place: 1, seat: 1, tag: 11, mtype: 2, length: 3 }"
SECOND = "Header { place: 2, seat: 2, tag: 21, mtype: 1, length: 4 }"


def figures(qnum, cbytes, qbytes, stime, rtime, ctime, lspid, lrpid):
    return (f"Figures {{ qnum: {qnum}, cbytes: {cbytes}, qbytes: {qbytes}, stime: {stime}, "
            f"rtime: {rtime}, ctime: {ctime}, lspid: {lspid}, lrpid: {lrpid} }}")


def row(made, live, key, shown):
    return f"BoardRow {{ made: {made}, live: {live}, key: {key}, figures: {shown} }}"


def get(create, exclusive):
    return f"Get {{ key: 5, flags: GetFlags {{ create: {create}, exclusive: {exclusive} }} }}"


def send(mtype, tag, length):
    return f"Send {{ id: 0, mtype: {mtype}, tag: {tag}, length: {length}, nowait: true }}"


def receive(size, msgtyp, nowait="true"):
    return (f"Receive {{ id: 0, size: {size}, msgtyp: {msgtyp}, except: false, noerror: false, "
            f"nowait: {nowait} }}")


def handed(tag=21, came=4, as_sent="true"):
    return (f"Handed(Handed {{ entry: 3, mtype: 1, sender: 2, tag: {tag}, length: 4, "
            f"came: {came}, as_sent: {as_sent} }})")


def call(moment, asked, answer):
    return f"Call {{ moment: {moment}, asked: {asked}, answer: {answer} }}"


def part(line, first, made, past, last, *more):
    """What a cut, or the end, of slot 0 prints."""
    lists = (f"[{', '.join(events)}]" for events in (past, last))
    return f"{line}(0, {', '.join(map(str, (first, made, *lists, *more)))})"


def base(places, shown, *waiting):
    return "".join(f"Some({header})\n" for header in waiting) + f"Base({places}, {shown})\n"


# What is shown after the first sending, after both, after the receipt, and at the end.
AFTER_SENDING = figures(1, 3, 131072, 11, 0, 10, 1, 0)
AFTER_BOTH = figures(2, 7, 131072, 21, 0, 10, 2, 0)
AFTER_RECEIPT = figures(1, 3, 131072, 21, 23, 10, 2, 2)
AT_THE_END = figures(1, 3, 100, 21, 23, 12, 2, 2)
NO_ROW = row(0, "false", 0, figures(0, 0, 0, 0, 0, 0, 0, 0))

NEW, OLD = get("true", "true"), get("false", "false")
RECEIVE, SEVENTH, SHORT = receive(9, -2), receive(9, 7), receive(2, 0)
SET, STAT = "Set { id: 0, qbytes: 100 }", "Stat { id: 0 }"


def reporting(first):
    return call(13, "Report", f"Rows([{first}, {NO_ROW}, {NO_ROW}])")


# In slot 0 a queue is made, two messages are sent, the second is received, and a quota is set.
REPLIES = {
    "pages": "Pages(1024)",
    "seat 1": "Seat(1, [3, 0, 0])",
    "making": call(10, NEW, "Got(0, Some(0))"),
    "sending": call(11, send(2, 11, 3), "Done(1)"),
    "setting": call(12, SET, "Done(4)"),
    "reporting": reporting(row(1, "true", 5, AT_THE_END)),
    "seat 2": "Seat(2, [2, 0, 0])",
    "finding": call(20, OLD, "Got(0, None)"),
    "sending too": call(21, send(1, 21, 4), "Done(2)"),
    "showing": call(22, STAT, f"Shown({AFTER_BOTH})"),
    "receiving": call(23, RECEIVE, handed()),
    "receiving none": call(24, SEVENTH, "Refused(ENOMSG, Some(5))"),
    "receiving short": call(25, SHORT, "Refused(E2BIG, Some(5))"),
    "end": part("End", 0, 0, [], [MADE, SENT, SENT_TOO, RECEIVED, CHANGED], 1),
    "end 1": "End(1, 0, 0, [], [], 0)",
    "end 2": "End(2, 0, 0, [], [], 0)",
}

AFTER_THREE = base(3, AFTER_BOTH, FIRST, SECOND)
AFTER_FOUR = base(4, AFTER_RECEIPT, FIRST)

# The same, but that both seats cut the slot, one behind three entries, the other behind four and
# once more there, and that the queue is removed at the end.
CUTS = {
    "pages": "Pages(1024)",
    "seat 2": "Seat(2, [3, 0, 0])",
    **{name: REPLIES[name] for name in ("finding", "sending too", "showing", "receiving")},
    "cutting too": call(0, "Cut { slot: 0 }", "Cut(4)"),
    **{name: REPLIES[name] for name in ("receiving none", "receiving short")},
    "removing": call(26, "Remove { id: 0 }", "Removed(5)"),
    "log": f"{AFTER_FOUR}Log([{CHANGED}, {REMOVED}])",
    "second cut": AFTER_THREE + part("Cut", 3, 1, [], [RECEIVED]),
    "third cut": AFTER_FOUR + part("Cut", 4, 1, [], []),
    "seat 1": "Seat(1, [3, 0, 0])",
    **{name: REPLIES[name] for name in ("making", "sending")},
    "cutting": call(0, "Cut { slot: 0 }", "Cut(3)"),
    **{name: REPLIES[name] for name in ("setting", "reporting")},
    "first cut": part("Cut", 0, 0, [], [MADE, SENT, SENT_TOO]),
    "end": AFTER_FOUR + part("End", 4, 1, [CHANGED, REMOVED], [], 0),
    "end 1": "End(1, 0, 0, [], [], 0)",
    "end 2": "End(2, 0, 0, [], [], 0)",
}

# What is printed, which pieces are changed, and what is wrong then, if anything is.
CASES = (
    (REPLIES, {}, None),
    (REPLIES, {"receiving none": call(24, RECEIVE, "Refused(ENOMEM, Some(5))")}, None),
    (CUTS, {}, None),
    # An entry goes back, or is another's.
    (REPLIES, {"setting": call(12, SET, "Done(1)")}, "seat 1, call 2: entry goes back"),
    (REPLIES, {"setting": call(12, SET, "Done(3)")}, "seat 1, call 2: other event"),
    (REPLIES, {"setting": call(12, SET, "Done(9)")}, "seat 1, call 2: no entry"),
    (REPLIES, {"receiving none": call(24, SEVENTH, "Refused(ENOMSG, Some(3))")},
     "seat 2, call 4: entry goes back"),
    (REPLIES, {"receiving none": call(24, SEVENTH, "Refused(ENOMSG, Some(6))")},
     "seat 2, call 4: no entry"),
    # What was shown before is shown again, or what never was so.
    (REPLIES, {"showing": call(22, STAT, f"Shown({AFTER_SENDING})")},
     "seat 2, call 2: never shown"),
    (REPLIES, {"showing": call(22, STAT, "Refused(EIDRM, None)")}, "seat 2, call 2: never shown"),
    (REPLIES, {"reporting": reporting(NO_ROW)}, "seat 1, call 3: never shown"),
    (REPLIES, {"reporting": reporting(row(1, "true", 6, AT_THE_END))},
     "seat 1, call 3: never shown"),
    # A refusal is another.
    (REPLIES, {"receiving none": call(24, RECEIVE, "Refused(ENOMSG, Some(5))")},
     "seat 2, call 4: other refusal"),
    (REPLIES, {"receiving none": call(24, SEVENTH, "Refused(ENOMEM, Some(5))")},
     "seat 2, call 4: other refusal"),
    (REPLIES, {"receiving none": call(24, receive(9, 7, "false"), "Refused(ENOMSG, Some(5))")},
     "seat 2, call 4: did not wait"),
    (REPLIES, {"receiving none": call(24, SEVENTH, "Refused(EINVAL, None)")},
     "seat 2, call 4: not early"),
    (REPLIES, {"receiving none": call(24, "Remove { id: 63 }", "Refused(EINVAL, Some(5))")},
     "seat 2, call 4: not early"),
    # A message is another, or none could be picked.
    (REPLIES, {"receiving": call(23, RECEIVE, handed(tag=11))}, "seat 2, call 3: other message"),
    (REPLIES, {"receiving": call(23, RECEIVE, handed(came=3))}, "seat 2, call 3: other length"),
    (REPLIES, {"receiving": call(23, RECEIVE, handed(as_sent="false"))},
     "seat 2, call 3: other bytes"),
    (REPLIES, {"receiving": call(23, SEVENTH, handed())}, "seat 2, call 3: was refused"),
    # An answer of msgget is another.
    (REPLIES, {"finding": call(20, OLD, "Got(64, None)")}, "seat 2, call 0: other key"),
    (REPLIES, {"finding": call(20, NEW, "Got(0, None)")}, "seat 2, call 0: other flags"),
    (REPLIES, {"making": call(10, NEW, "Got(64, Some(0))")}, "seat 1, call 0: other id"),
    (REPLIES, {"making": call(10, NEW, "Got(2, Some(0))")}, "seat 1, call 0: other slot"),
    (REPLIES, {"reporting": call(13, NEW, "Refused(ENOSPC, None)")},
     "seat 1, call 3: other slot"),
    (REPLIES, {"reporting": call(13, OLD, "Refused(ENOENT, None)")}, "seat 1, call 3: other key"),
    # A call has the answer to another.
    (REPLIES, {"setting": call(12, SET, "Got(0, None)")}, "seat 1, call 2: other call"),
    # All replies together: a message is received twice, an event is of no call or of no seat, a
    # page is lost, or a slot.
    (REPLIES, {"receiving none": call(24, RECEIVE, handed())}, "twice"),
    (REPLIES, {"setting": call(12, "Stat { id: 1 }", "Refused(EINVAL, None)")},
     "seat 1, slot 0: counts"),
    (REPLIES, {"seat 1": "Seat(1, [4, 0, 0])"}, "seat 1, slot 0: counts"),
    (REPLIES, {"end 2": "End(2, 0, 0, [], [Made { seat: 3, moment: 30, key: 0 }], 0)"},
     "slot 2: entries"),
    (REPLIES, {"pages": "Pages(1023)"}, "page"),
    (REPLIES, {"end 2": ""}, "slots"),
    # A cut forgets its last entry, or returns one twice.
    (CUTS, {"first cut": part("Cut", 0, 0, [], [MADE, SENT])}, "slot 0: gap"),
    (CUTS, {"first cut": part("Cut", 0, 0, [], [MADE, SENT, SENT_TOO, SENT_TOO])}, "slot 0: gap"),
    # A cut counts no making before it.
    (CUTS, {"third cut": AFTER_FOUR + part("Cut", 4, 0, [], [])}, "slot 0: part"),
    # The base of a cut lacks a pending message, has another one, or is printed where no queue was.
    (CUTS, {"second cut": base(3, AFTER_BOTH, FIRST) + part("Cut", 3, 1, [], [RECEIVED])},
     "slot 0: part"),
    (CUTS, {"third cut": base(4, AFTER_RECEIPT, SECOND) + part("Cut", 4, 1, [], [])},
     "slot 0: part"),
    (CUTS, {"first cut": base(0, AFTER_BOTH) + part("Cut", 0, 0, [], [MADE, SENT, SENT_TOO])},
     "slot 0: part"),
    # The end begins an entry too early, has no base, or has its removed queue as a live one.
    (CUTS, {"end": AFTER_FOUR + part("End", 3, 1, [CHANGED, REMOVED], [], 0)}, "slot 0: gap"),
    (CUTS, {"end": part("End", 4, 1, [CHANGED, REMOVED], [], 0)}, "slot 0: part"),
    (CUTS, {"end": AFTER_FOUR + part("End", 4, 1, [], [CHANGED, REMOVED], 0)}, "slot 0: part"),
    # A message is left that was removed.
    (CUTS, {"end": AFTER_FOUR + part("End", 4, 1, [CHANGED, REMOVED], [], 1)}, "slot 0: left"),
    # The log of the removed queue lacks a pending message, has an entry less, or one place less.
    (CUTS, {"log": f"{base(4, AFTER_RECEIPT)}Log([{CHANGED}, {REMOVED}])"}, "seat 2: log"),
    (CUTS, {"log": f"{AFTER_FOUR}Log([{CHANGED}])"}, "seat 2: log"),
    (CUTS, {"log": f"{base(3, AFTER_RECEIPT, FIRST)}Log([{CHANGED}, {REMOVED}])"}, "seat 2: log"),
    # A cut is answered after fewer entries than its seat has seen, or after too many.
    (CUTS, {"cutting": call(0, "Cut { slot: 0 }", "Cut(1)")}, "seat 1, call 2: entry goes back"),
    (CUTS, {"cutting": call(0, "Cut { slot: 0 }", "Cut(7)")}, "seat 1, call 2: no entry"),
)
