"""A judge of what many threads were answered, by what the slots list at the end. It was written
from the definitions of docs/MODEL.md and the manual, apart from the program.

A slot is replayed event by event. Then each seat's calls are gone through in its order: what an
answer says must be so after some number of the slot's events, no fewer than the seat had seen, and
a change must be the event at the entry that it answers. At last each event is of one call.

What the test program prints is read so: a value with fields has them as attributes, and its name as
`kind`; one with values in brackets is a list that begins with its name; a name alone is a string.
"""
import collections
import functools
import json
import re
from types import SimpleNamespace

SLOTS, LAST_SEQ, PAGES = 3, 9999, 1024
MSGMAX, MSGMNB, MAX_BATCH = 65536, 131072, 64

# What can be wrong with a reply.
FAULTS = {
    "other call": "it has an answer to another call",
    "no entry": "its slot is not there, or has fewer entries",
    "entry goes back": "its entry is one that the seat had seen before",
    "was refused": "what stood before its entry refuses the call",
    "other event": "another event stands at its entry",
    "other message": "its message is not the one that the selection names",
    "other length": "its text has not as many bytes as were sent and asked for",
    "other bytes": "its text has other bytes",
    "other refusal": "what stood before its entry gives another refusal, or none",
    "not early": "it is refused by its arguments alone, which allow it, or the other way round",
    "did not wait": "it is refused where it was to wait",
    "not in turn": "its texts are not at consecutive entries, or the next is refused at another",
    "other count": "it did more texts than it was to, or fewer and none was refused",
    "other rest": "what came back are not the letters behind those that were sent",
    "never shown": "its row or its figures were not to be seen any more, or never",
    "other flags": "its flags allow no such answer of msgget",
    "other key": "its key was there, or was not",
    "other slot": "its slot was not free, or a lower one was",
    "other id": "its id has another seq, or no slot",
}
# What can be wrong with all replies together.
FLAWS = {
    "page": "a page is lost",
    "slots": "there is another number of slots",
    "counts": "a seat has more or fewer changes in a slot than it counted, or than the slot lists",
    "entries": "a slot lists a change of no seat",
    "gap": "what was cut off of a slot, and what it kept, leave a gap or stand there twice",
    "part": "a cut of a slot, or its end, tells of the entries before it what they do not say, or "
            "is parted at another entry",
    "log": "the log of a removed queue is not what the slot lists of it",
    "twice": "a message was received twice",
    "left": "the slot has another end than what it leaves",
}


class Fault(Exception):
    """What is wrong with a reply, by its name."""


class Flaw(Exception):
    """What is wrong with a round: its name, where that is, and what it means."""

    def __init__(self, name, where="", meaning=None):
        super().__init__(f"{where}{name}")
        self.meaning = meaning or FLAWS[name]


@functools.cache
def written(word):
    """What is written in JSON for a word that was printed, where a name and its brace are one."""
    word = re.sub(r"\bSome\((\d+)\)", r"\1", word).replace("None", "null")
    word = re.sub(r"\b(?!(?:true|false|null)\b)([A-Za-z]\w*)", r'"\1"', word)
    word = re.sub(r'("\w+")\{', r'{"kind":\1,', word)
    return re.sub(r'("\w+")\(', r"[\1,", word).replace(")", "]")


def values_of(text):
    """The values that `{:?}` has printed, one in each line."""
    words = text.replace(" {", "{").split(" ")
    lines = " ".join(map(written, words)).split("\n")
    values = ",".join(line for line in lines if line)
    return json.loads(f"[{values}]", object_hook=lambda fields: SimpleNamespace(**fields))


def round_of(text):
    """The round that was printed: its free pages, its seats, and the ends of its slots."""
    told = SimpleNamespace(free_pages=None, seats=[], ends=[])
    waiting, base = [], None
    for value in values_of(text):
        match value:
            case SimpleNamespace():
                told.seats[-1].calls.append(value)
            case ["Pages", free_pages]:
                told.free_pages = free_pages
            case ["Seat", number, counts]:
                told.seats.append(SimpleNamespace(number=number, counts=counts, calls=[], logs=[],
                                                  cuts=[]))
            # What a log had where it was cut is printed before what it belongs to.
            case ["Some", header]:
                waiting.append(header)
            case ["Base", places, figures]:
                base = SimpleNamespace(places=places, figures=figures, waiting=waiting)
                waiting = []
            case ["Log", tail]:
                told.seats[-1].logs.append(SimpleNamespace(base=base, tail=tail))
                base = None
            case ["Cut", slot, *part]:
                told.seats[-1].cuts.append(Part(slot, base, *part))
                base = None
            case ["End", slot, *part, left]:
                told.ends.append((Part(slot, base, *part), left))
                base = None
            case _:
                raise ValueError(f"no line of a round: {value}")
    return told


class Part:
    """A part of a slot's list: what a cut returned, or what was kept to the end. It has the number
    of entries before it, how many of these are makings, and the base of the queue that they leave,
    or None."""

    def __init__(self, slot, base, first, made, past, last):
        self.slot, self.base, self.first, self.made, self.past = slot, base, first, made, past
        self.events = past + last
        self.end = first + len(self.events)


def record(kind, **fields):
    return SimpleNamespace(kind=kind, **fields)


def changed(old, **fields):
    """The record with these fields in place of its own."""
    return SimpleNamespace(**{**vars(old), **fields})


NO_FIGURES = record("Figures", qnum=0, cbytes=0, qbytes=0, stime=0, rtime=0, ctime=0, lspid=0,
                    lrpid=0)


def selection_of(asked):
    """What a msgtyp selects, with MSG_EXCEPT or without."""
    if asked.msgtyp == 0:
        return "Any"
    if asked.msgtyp < 0:
        return ["UpTo", -asked.msgtyp]
    return ["Except" if getattr(asked, "except") else "Exact", asked.msgtyp]


def msgtyp_of(selection):
    """The msgtyp that selects so, and whether MSG_EXCEPT does; or None where no message has such a
    type."""
    match selection:
        case "Any":
            return 0, False
        case ["Exact" | "Except" as name, mtype] if mtype > 0:
            return mtype, name == "Except"
        case ["UpTo", bound] if 0 < bound <= 2 ** 63:
            return -bound, False
    return None


def pick(waiting, selection):
    """The first pending message that the selection matches, or None."""
    match selection:
        case "Any":
            named = waiting
        case ["Exact", mtype]:
            named = (message for message in waiting if message.mtype == mtype)
        case ["Except", mtype]:
            named = (message for message in waiting if message.mtype != mtype)
        case ["UpTo", bound]:
            types = (message.mtype for message in waiting if message.mtype <= bound)
            lowest = min(types, default=None)
            named = (message for message in waiting if message.mtype == lowest)
    return next(iter(named), None)


class State:
    """A slot after the first of its events: what a report shows of it, the entry of the last
    making, and the pending messages, oldest first."""

    def __init__(self, row, begun, waiting):
        self.row, self.begun, self.waiting = row, begun, waiting

    def after(self, entry, event):
        """The state after one more event, which is the slot's at this entry."""
        row, begun, waiting, figures = self.row, self.begun, self.waiting, self.row.figures
        match event.kind:
            case "Made":
                row = changed(row, made=row.made + 1, live=True, key=event.key)
                figures = changed(NO_FIGURES, qbytes=MSGMNB, ctime=event.moment)
                begun, waiting = entry, []
            case "Sent":
                figures = changed(figures, stime=event.moment, lspid=event.seat)
                header = record("Header", place=entry - begun, seat=event.seat, tag=event.tag,
                                mtype=event.mtype, length=event.length)
                waiting = [*waiting, header]
            case "Received":
                figures = changed(figures, rtime=event.moment, lrpid=event.seat)
                waiting = [message for message in waiting if message.place != event.place]
            case "Changed":
                figures = changed(figures, ctime=event.moment, qbytes=event.qbytes)
            case "Removed":
                row, figures, waiting = changed(row, live=False, key=0), NO_FIGURES, []
        length = sum(message.length for message in waiting)
        figures = changed(figures, qnum=len(waiting), cbytes=length)
        return State(changed(row, figures=figures), begun, waiting)

    def is_free(self):
        """Whether a queue can be made here."""
        return not self.row.live and self.row.made <= LAST_SEQ

    def has_key(self, key):
        return self.row.live and self.row.key == key

    def id_refusal(self, number):
        """Why an id of this slot is refused, or None."""
        seq = number // 64
        if seq >= self.row.made:
            return "EINVAL"
        return None if self.row.live and self.row.made == seq + 1 else "EIDRM"

    def refusal(self, asked):
        """Why this call is refused here, or None."""
        if asked.kind in ("Get", "Cut"):
            return None
        refusal = self.id_refusal(asked.id)
        if refusal is None and asked.kind == "Set" and asked.qbytes > MSGMNB:
            return "EPERM"
        if refusal is None and asked.kind == "Send":
            return self.sending_refusal(asked)
        if refusal is None and asked.kind == "Receive":
            return self.receipt_refusal(asked)
        return refusal

    def sending_refusal(self, asked):
        if asked.mtype < 1 or asked.length > MSGMAX:
            return "EINVAL"
        figures = self.row.figures
        most = max(figures.cbytes + asked.length, figures.qnum + 1)
        return None if most <= figures.qbytes else "EAGAIN"

    def receipt_refusal(self, asked):
        message = pick(self.waiting, selection_of(asked))
        if message is None:
            return "ENOMSG"
        return "E2BIG" if message.length > asked.size and not asked.noerror else None

    def event(self, seat, moment, asked):
        """The event of this call, which is not refused here."""
        by = {"seat": seat, "moment": moment}
        match asked.kind:
            case "Get":
                return record("Made", **by, key=asked.key)
            case "Send":
                return record("Sent", **by, tag=asked.tag, mtype=asked.mtype, length=asked.length)
            case "Receive":
                selection = selection_of(asked)
                return record("Received", **by, place=pick(self.waiting, selection).place,
                              selection=selection, size=asked.size, noerror=asked.noerror)
            case "Set":
                return record("Changed", **by, qbytes=asked.qbytes)
            case "Remove":
                return record("Removed", **by)

    def is_base(self, base, places):
        """Whether this is what is kept of the last queue's log where it is cut here, so many
        entries after its making."""
        return (base.places == places and base.figures == self.row.figures
                and base.waiting == self.waiting)

    def is_known(self, part):
        """Whether a part that begins here has what was known before it."""
        if part.base is None:
            based = not self.row.live
        else:
            based = self.row.live and self.is_base(part.base, part.first - self.begun)
        return based and self.row.made == part.made


EMPTY = State(record("BoardRow", made=0, live=False, key=0, figures=NO_FIGURES), 0, [])


class History:
    """All that happened in a slot; the state after each number of events, from 0; after how many it
    was cut; and how many are each seat's."""

    def __init__(self, slot, cuts, end):
        """The list of these parts, which must stand one behind the other."""
        self.events, self.cuts, self.states = [], [], [EMPTY]
        for part in sorted((cut for cut in cuts if cut.events), key=lambda cut: cut.first):
            self.add(slot, part)
            self.cuts.append(len(self.events))
        self.add(slot, end)
        for entry, event in enumerate(self.events):
            self.states.append(self.states[-1].after(entry, event))
        self.by_seat = collections.Counter(event.seat for event in self.events)

    def add(self, slot, part):
        if part.first != len(self.events):
            raise Flaw("gap", f"slot {slot}: ")
        self.events += part.events

    def least(self, first, is_so):
        """The least number of events, no less than this, after which something is so, or None."""
        for number in range(first, len(self.states)):
            if is_so(self.states[number]):
                return number
        return None

    def is_log(self, entry, log):
        """Whether this is the log of the queue that the event at this entry removes: what was cut
        off by then is counted, and the rest is there."""
        begun = self.states[entry].begun
        first = max([begun] + [cut for cut in self.cuts if cut <= entry])
        told = self.states[first].is_base(log.base, first - begun)
        return told and log.tail == self.events[first:entry + 1]

    def is_told(self, part):
        """Whether a part has of the events before it what they say, and is parted where the queue
        begins that it leaves."""
        if part.end >= len(self.states):
            return False
        after = self.states[part.end]
        begun = after.begun if after.row.live else part.end
        parted = max(begun - part.first, 0) == len(part.past)
        return parted and self.states[part.first].is_known(part)


class Seen:
    """What a seat must have seen, call by call: of each slot at least so many events. And how many
    changes its calls made."""

    def __init__(self, number, histories):
        self.number, self.histories = number, histories
        self.known, self.changes = [0] * SLOTS, [0] * SLOTS

    def knows(self, slot, entry):
        """It has now seen so much of the slot, and maybe more."""
        self.known[slot] = max(self.known[slot], entry)

    def state(self, slot, entry):
        """The slot's state after so many events, which the seat may see."""
        if slot >= SLOTS or entry >= len(self.histories[slot].states):
            raise Fault("no entry")
        return self.histories[slot].states[entry]

    def new_state(self, slot, entry):
        """The same of an entry that is not one of those which the seat has seen."""
        if slot < SLOTS and entry < self.known[slot]:
            raise Fault("entry goes back")
        return self.state(slot, entry)

    def saw(self, slot, is_so, fault):
        """The slot showed something, no earlier than what the seat had seen of it."""
        entry = None if slot >= SLOTS else self.histories[slot].least(self.known[slot], is_so)
        if entry is None:
            raise Fault(fault)
        self.known[slot] = entry

    def made(self, slot, entry, call):
        """A change stands at this entry: it is the call's, and what was there before allows it."""
        state = self.new_state(slot, entry)
        if state.refusal(call.asked) is not None:
            raise Fault("was refused")
        events = self.histories[slot].events[entry:entry + 1]
        if events != [state.event(self.number, call.moment, call.asked)]:
            raise Fault("other event")
        self.knows(slot, entry + 1)
        self.changes[slot] += 1

    def handed(self, call, handed):
        """A message was returned: the one that the selection picks."""
        slot = slot_of(call.asked)
        message = pick(self.state(slot, handed.entry).waiting, selection_of(call.asked))
        if message is None:
            raise Fault("was refused")
        sent = (message.mtype, message.seat, message.tag, message.length)
        if (handed.mtype, handed.sender, handed.tag, handed.length) != sent:
            raise Fault("other message")
        if handed.came != min(message.length, call.asked.size):
            raise Fault("other length")
        if not handed.as_sent:
            raise Fault("other bytes")
        self.made(slot, handed.entry, call)

    def sent_texts(self, call, first, left, ended):
        """Letters were sent by one call, as by so many of msgsnd; the others were returned."""
        letters, done = call.asked.letters, done_by(call)
        if done < 0 or letters[done:] != left:
            raise Fault("other rest")
        if (first is None) != (done == 0):
            raise Fault("not in turn")
        for place, letter in enumerate(letters[:done]):
            asked = sending_of(call.asked, letter, place)
            self.made(slot_of(asked), first + place, changed(call, asked=asked))
        self.ended(ended, done, min(len(letters), MAX_BATCH), (first or 0) + done,
                   left and sending_of(call.asked, left[0], done))

    def handed_texts(self, call, handed, ended):
        """Texts were received by one call, as by so many of msgrcv."""
        if msgtyp_of(call.asked.selection) is None:
            if handed or ended != ["Refused", "EINVAL", None]:
                raise Fault("not early")
            return
        # Out of memory for the list of texts, before any queue was read.
        if not handed and ended == ["Refused", "ENOMEM", None]:
            return
        first = handed[0].entry if handed else 0
        for place, message in enumerate(handed):
            if message.entry != first + place:
                raise Fault("not in turn")
            self.handed(changed(call, asked=receipt_of(call.asked, place)), message)
        self.ended(ended, len(handed), min(call.asked.most, MAX_BATCH), first + len(handed),
                   receipt_of(call.asked, len(handed)))

    def ended(self, ended, done, most, entry, asked):
        """A call of several texts did so many, up to this entry, and at most so many; then none was
        left to do, or the next call of one, this, was refused."""
        if done > most or (done == most) != (ended == "All"):
            raise Fault("other count")
        match ended:
            case ["Refused", errno, at]:
                if done and at not in (None, entry):
                    raise Fault("not in turn")
                self.refused(asked, errno, at)

    def refused(self, asked, errno, entry):
        """A call of a queue was refused, after so many entries where that is printed."""
        if is_early(asked) != (entry is None) or entry is None and errno != "EINVAL":
            raise Fault("not early")
        if entry is None:
            return
        slot = slot_of(asked)
        if (self.new_state(slot, entry).refusal(asked) or "ENOMEM") != errno:
            raise Fault("other refusal")
        waits = {"Send": "EAGAIN", "Receive": "ENOMSG"}
        if errno == waits.get(asked.kind) and not asked.nowait:
            raise Fault("did not wait")
        self.knows(slot, entry)

    def found(self, asked, number):
        """msgget has found a queue."""
        if asked.key == 0 or asked.flags.create and asked.flags.exclusive:
            raise Fault("other flags")
        made = number // 64 + 1
        self.saw(number % 64, lambda it: it.has_key(asked.key) and it.row.made == made, "other key")

    def new_queue(self, call, number, entry):
        """msgget has made a queue, in the first slot that was free."""
        slot, key = number % 64, call.asked.key
        state = self.state(slot, entry)
        if key != 0 and not call.asked.flags.create:
            raise Fault("other flags")
        if state.row.made != number // 64:
            raise Fault("other id")
        if not state.is_free():
            raise Fault("other slot")
        before = self.known.copy()
        self.saw_taken(slot)
        self.lacked(before, key)
        self.made(slot, entry, call)

    def not_got(self, asked, errno):
        """msgget was refused."""
        key, flags, before = asked.key, asked.flags, self.known.copy()
        may_make = key == 0 or flags.create
        allowed = {"EEXIST": key != 0 and flags.create and flags.exclusive, "ENOENT": not may_make,
                   "ENOSPC": may_make, "ENOMEM": may_make}
        if not allowed.get(errno, False):
            raise Fault("other flags")
        if errno == "EEXIST":
            self.had(key)
        if errno == "ENOSPC":
            self.saw_taken(SLOTS)
        if errno in ("ENOSPC", "ENOENT"):
            self.lacked(before, key)

    def saw_taken(self, count):
        """In none of the first slots, as many as this, could a queue be made."""
        for slot in range(count):
            self.saw(slot, lambda state: not state.is_free(), "other slot")

    def lacked(self, before, key):
        """No slot had a queue with this key, unless it is 0, at some time of a call before which so
        much was seen. What else the call showed may have been at another time."""
        if key == 0:
            return
        for slot, first in enumerate(before):
            entry = self.histories[slot].least(first, lambda state: not state.has_key(key))
            if entry is None:
                raise Fault("other key")
            self.knows(slot, entry)

    def had(self, key):
        """A slot had a queue with this key. Which one is not printed, so nothing more is seen."""
        least = (history.least(first, lambda state: state.has_key(key))
                 for history, first in zip(self.histories, self.known))
        if all(entry is None for entry in least):
            raise Fault("other key")

    def shown(self, asked, answer):
        """IPC_STAT has answered with figures, or with a refusal."""
        if not is_early(asked):
            self.saw(slot_of(asked), lambda state:
                     answer == (state.id_refusal(asked.id) or state.row.figures), "never shown")
        elif answer != "EINVAL":
            raise Fault("not early")

    def rows(self, rows):
        """A report has shown these rows."""
        for slot, row in enumerate(rows):
            self.saw(slot, lambda state: state.row == row, "never shown")

    def cut(self, slot, end):
        """A slot was cut that had so many entries. What was returned is judged with all cuts."""
        self.new_state(slot, end)
        self.knows(slot, end)

    def take_in(self, call):
        """Replays a call with its answer, where it is right; else says its fault."""
        asked = call.asked
        match kind_of(asked), call.answer:
            case "Get", ["Got", number, None]:
                self.found(asked, number)
            case "Get", ["Got", number, entry]:
                self.new_queue(call, number, entry)
            case "Get", ["Refused", errno, None]:
                self.not_got(asked, errno)
            case "Stat", ["Shown", answer] | ["Refused", answer, None]:
                self.shown(asked, answer)
            case "Report", ["Rows", rows]:
                self.rows(rows)
            case "Cut", ["Cut", end]:
                self.cut(asked.slot, end)
            case "Receive", ["Handed", handed]:
                self.handed(call, handed)
            case "SendTexts", ["SentTexts", first, left, ended]:
                self.sent_texts(call, first, left, ended)
            case "ReceiveTexts", ["HandedTexts", handed, ended]:
                self.handed_texts(call, handed, ended)
            case ("Send" | "Set", ["Done", entry]) | ("Remove", ["Removed", entry]):
                self.made(slot_of(asked), entry, call)
            case "Send" | "Receive" | "Set" | "Remove" | "Cut", ["Refused", errno, entry]:
                self.refused(asked, errno, entry)
            case _:
                raise Fault("other call")


def kind_of(asked):
    return asked if isinstance(asked, str) else asked.kind


def slot_of(asked):
    return asked.slot if asked.kind == "Cut" else asked.id % 64


def is_early(asked):
    """Whether the arguments alone refuse the call of a queue."""
    return slot_of(asked) >= SLOTS or asked.kind == "Send" and asked.mtype < 1


def may_not_wait(asked, place):
    """Whether a call of several texts does not wait for the one at this place: it waits for the
    first alone."""
    return place > 0 or asked.how_long != "Forever"


def sending_of(asked, letter, place):
    """The call of msgsnd for this letter of a call of several."""
    return record("Send", id=asked.id, mtype=letter.mtype, tag=letter.tag, length=letter.length,
                  nowait=may_not_wait(asked, place))


def receipt_of(asked, place):
    """The call of msgrcv for the text at this place of a call of several."""
    msgtyp, is_except = msgtyp_of(asked.selection)
    return record("Receive", id=asked.id, size=asked.size, msgtyp=msgtyp,
                  noerror=asked.noerror, nowait=may_not_wait(asked, place), **{"except": is_except})


def handed_by(call):
    """The messages that a call returned."""
    match call.answer:
        case ["Handed", handed]:
            return [handed]
        case ["HandedTexts", handed, _]:
            return handed
    return []


def done_by(call):
    """How many texts a call of several sent or received, or None for another call."""
    match call.answer:
        case ["SentTexts", _, left, _]:
            return len(call.asked.letters) - len(left)
        case ["HandedTexts", handed, _]:
            return len(handed)
    return None


def judge_calls(seat, histories):
    """What the seat has seen at the end, where each of its calls is right."""
    seen = Seen(seat.number, histories)
    for place, call in enumerate(seat.calls):
        try:
            seen.take_in(call)
        except Fault as fault:
            name = str(fault)
            raise Flaw(name, f"seat {seat.number}, call {place}: ", FAULTS[name]) from None
    return seen


def judge_seat(seat, histories):
    """How many changes the seat's calls made in each slot, where each call is right, each change is
    counted and listed, and the log of each queue that it removed is what the slot lists."""
    seen = judge_calls(seat, histories)
    for slot, history in enumerate(histories):
        if not seat.counts[slot] == seen.changes[slot] == history.by_seat[seat.number]:
            raise Flaw("counts", f"seat {seat.number}, slot {slot}: ")
    removals = [call for call in seat.calls if call.answer[0] == "Removed"]
    if len(removals) != len(seat.logs):
        raise Flaw("log", f"seat {seat.number}: ")
    for call, log in zip(removals, seat.logs):
        if not histories[slot_of(call.asked)].is_log(call.answer[1], log):
            raise Flaw("log", f"seat {seat.number}: ")
    return seen.changes


def judge(told):
    """Finds what is wrong with a round, if anything is."""
    if told.free_pages != PAGES:
        raise Flaw("page")
    if [end.slot for end, _ in told.ends] != list(range(SLOTS)):
        raise Flaw("slots")
    cuts = [[cut for seat in told.seats for cut in seat.cuts if cut.slot == slot]
            for slot in range(SLOTS)]
    histories = [History(slot, cuts[slot], end) for slot, (end, _) in enumerate(told.ends)]
    tags = [handed.tag for seat in told.seats for call in seat.calls for handed in handed_by(call)]
    if len(set(tags)) != len(tags):
        raise Flaw("twice")
    changes = [judge_seat(seat, histories) for seat in told.seats]
    for slot, history in enumerate(histories):
        # Each event is of one call, and no two calls have one.
        if sum(made[slot] for made in changes) != len(history.events):
            raise Flaw("entries", f"slot {slot}: ")
    for slot, (end, left) in enumerate(told.ends):
        if not all(histories[slot].is_told(part) for part in [*cuts[slot], end]):
            raise Flaw("part", f"slot {slot}: ")
        if len(histories[slot].states[-1].waiting) != left:
            raise Flaw("left", f"slot {slot}: ")
