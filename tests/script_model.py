"""A model of serial scripts by docs/SCRIPT.md, written apart from the program: what a script writes
with the default options, and how it ends."""
import re

SLOTS, LAST_SEQ, PAGES = 16, 32767, 64
MSGMAX, MSGMNB = 65536, 131072
LETTERS = b"abcdefghijklmnopqrstuvwxyz"
COLUMNS = (("slot", 4), ("id", 8), ("key", 12), ("qnum", 7), ("cbytes", 8), ("qbytes", 8),
           ("lspid", 6), ("lrpid", 6))


class IllFormed(Exception):
    """A line that is not well formed, by its cause."""


class Refused(Exception):
    """A call that is refused, by its errno."""


def number(word, least, greatest):
    digits = rb"0|-?[1-9][0-9]*" if least < 0 else rb"0|[1-9][0-9]*"
    if not re.fullmatch(digits, word) or not least <= int(word) <= greatest:
        raise IllFormed("number")
    return int(word)


def id_of(word):
    return number(word, 0, 2**32 - 1)


def type_of(word):
    return number(word, -(2**63), 2**63 - 1)


def size_of(word):
    return number(word, 0, 2**64 - 1)


def key_of(word):
    return number(word, -(2**31), 2**31 - 1)


def slot_of(word):
    return number(word, 0, 63)


def seat_of(word):
    return number(word, 1, 16)


def text_of(word):
    """The bytes of a text, or the length of one that is too long."""
    if word[:1] == b"=":
        return word[1:]
    length = size_of(word[1:])
    return length if length > MSGMAX else (LETTERS * (MSGMAX // 26 + 1))[:length]


# Each command: the readings of its words, and what may follow: flags, or options.
FORMS = {
    b"seat": ((seat_of,), ()), b"get": ((key_of,), (b"c", b"x", b"cx")),
    b"snd": ((id_of, type_of, text_of), ()),
    b"rcv": ((id_of, size_of, type_of), (b"e", b"n", b"en")),
    b"set": ((id_of, size_of), ()), b"rm": ((id_of,), ()), b"stat": ((id_of,), ()),
    b"cut": ((slot_of,), ()), b"ipcs": ((), (b"-q", b"-q x", b"-l")), b"info": ((), ()),
    b"arena": ((), ()),
}


def command_of(line):
    """The command of a line, its values and its flags; None of a line that says nothing."""
    if len(line) > 4096:
        raise IllFormed("long")
    if any(byte < 0x20 or byte > 0x7e for byte in line):
        raise IllFormed("byte")
    if line == b"" or line[:1] == b"#":
        return None
    words = line.split(b" ", 3)
    if not (words[0] == b"snd" and len(words) == 4 and words[3][:1] == b"="):
        words = line.split(b" ")
    readings, flags = FORMS.get(words[0], (None, None))
    if b"" in words or readings is None:
        raise IllFormed("words")
    more = b" ".join(words[1 + len(readings):])
    if len(words) < 1 + len(readings) or more and more not in flags:
        raise IllFormed("words")
    if words[0] == b"snd" and words[3][:1] not in (b"=", b"*"):
        raise IllFormed("words")
    values = [reading(word) for reading, word in zip(readings, words[1:])]
    return words[0].decode(), values, more.decode()


class Queue:
    def __init__(self, key, entry, moment):
        self.key, self.entry, self.events, self.waiting = key, entry, 1, []
        self.qbytes, self.ctime = MSGMNB, moment
        self.lspid = self.lrpid = self.stime = self.rtime = 0

    def event(self):
        """One event more; returns its entry in the slot."""
        self.events += 1
        return self.entry + self.events - 1

    def cbytes(self):
        return sum(len(message[3]) for message in self.waiting)


class Run:
    """A run of a script over one slot list for each slot."""

    def __init__(self):
        self.seat = 1
        self.made = [0] * SLOTS
        self.entries = [0] * SLOTS
        self.cut_off = [0] * SLOTS
        self.live = [None] * SLOTS
        self.page_used = [False] * PAGES

    def queue(self, number_of_id):
        seq, slot = divmod(number_of_id, 64)
        if slot >= SLOTS or seq >= self.made[slot]:
            raise Refused("EINVAL")
        if self.live[slot] is None or seq + 1 < self.made[slot]:
            raise Refused("EIDRM")
        return self.live[slot]

    def lend(self, length):
        """The pages of a text, as a range."""
        if length == 0:
            return range(0)
        count = 1
        while count * 1024 < length:
            count *= 2
        for start in range(0, PAGES, count):
            if not any(self.page_used[start:start + count]):
                self.page_used[start:start + count] = [True] * count
                return range(start, start + count)
        raise Refused("ENOMEM")

    def give(self, pages):
        for page in pages:
            self.page_used[page] = False

    def do_seat(self, _moment, _flags, seat):
        self.seat = seat

    def do_get(self, moment, flags, key):
        for slot, queue in enumerate(self.live):
            if key != 0 and queue is not None and queue.key == key:
                if flags == "cx":
                    raise Refused("EEXIST")
                return f"id {(self.made[slot] - 1) * 64 + slot}"
        if key != 0 and "c" not in flags:
            raise Refused("ENOENT")
        for slot, queue in enumerate(self.live):
            if queue is None and self.made[slot] <= LAST_SEQ:
                self.live[slot] = Queue(key, self.entries[slot], moment)
                self.made[slot] += 1
                return f"id {(self.made[slot] - 1) * 64 + slot}"
        raise Refused("ENOSPC")

    def do_snd(self, moment, _flags, number_of_id, mtype, text):
        if isinstance(text, int):
            raise Refused("EINVAL")
        pages = self.lend(len(text))
        try:
            if mtype < 1:
                raise Refused("EINVAL")
            queue = self.queue(number_of_id)
            if max(queue.cbytes() + len(text), len(queue.waiting) + 1) > queue.qbytes:
                raise Refused("EAGAIN")
        except Refused:
            self.give(pages)
            raise
        queue.waiting.append((mtype, self.seat, moment, text, pages))
        queue.lspid, queue.stime = self.seat, moment
        return f"at {queue.event()}"

    def do_rcv(self, moment, flags, number_of_id, size, msgtyp):
        queue = self.queue(number_of_id)
        fits = [message for message in queue.waiting
                if msgtyp == 0 or (msgtyp > 0 and (message[0] == msgtyp) != ("e" in flags))
                or (msgtyp < 0 and message[0] <= -msgtyp)]
        if not fits:
            raise Refused("ENOMSG")
        message = min(fits, key=lambda found: found[0]) if msgtyp < 0 else fits[0]
        mtype, sender, tag, text, pages = message
        if len(text) > size and "n" not in flags:
            raise Refused("E2BIG")
        queue.waiting.remove(message)
        self.give(pages)
        queue.lrpid, queue.rtime = self.seat, moment
        queue.event()
        return f"msg {mtype} seat {sender} tag {tag} len {len(text)} =" + text[:size].decode()

    def do_set(self, moment, _flags, number_of_id, qbytes):
        queue = self.queue(number_of_id)
        if qbytes > MSGMNB:
            raise Refused("EPERM")
        queue.qbytes, queue.ctime = qbytes, moment
        return f"at {queue.event()}"

    def do_rm(self, _moment, _flags, number_of_id):
        queue = self.queue(number_of_id)
        entry = queue.event()
        slot = number_of_id % 64
        for message in queue.waiting:
            self.give(message[4])
        self.live[slot], self.entries[slot] = None, entry + 1
        return f"at {entry} events {queue.events}"

    def do_stat(self, _moment, _flags, number_of_id):
        queue = self.queue(number_of_id)
        return (f"qnum {len(queue.waiting)} cbytes {queue.cbytes()} qbytes {queue.qbytes} "
                f"lspid {queue.lspid} lrpid {queue.lrpid} stime {queue.stime} "
                f"rtime {queue.rtime} ctime {queue.ctime}")

    def do_cut(self, _moment, _flags, slot):
        if slot >= SLOTS:
            raise Refused("EINVAL")
        queue, first = self.live[slot], self.cut_off[slot]
        self.cut_off[slot] = self.entries[slot] if queue is None else queue.entry + queue.events
        return f"cut from {first} to {self.cut_off[slot]}"

    def do_ipcs(self, _moment, options):
        if options == "-l":
            return ("\n------ Messages Limits --------\n"
                    f"max queues system wide = {SLOTS}\nmax size of message (bytes) = {MSGMAX}\n"
                    f"default max size of queue (bytes) = {MSGMNB}\n")
        if options != "":
            return self.queues_table("%-10d" if options == "-q" else "0x%08x")
        rows = [[name for name, _ in COLUMNS]]
        for slot, queue in enumerate(self.live):
            if queue is not None:
                rows.append([slot, (self.made[slot] - 1) * 64 + slot, queue.key,
                             len(queue.waiting), queue.cbytes(), queue.qbytes, queue.lspid,
                             queue.lrpid])
        return "\n".join("".join(str(value).rjust(width) for value, (_, width)
                                 in zip(row, COLUMNS)) for row in rows)

    def queues_table(self, key_form):
        """The table of ipcs(1), with keys in this form, but for the end of its last line."""
        lines = ["", "------ Message Queues --------",
                 "%-10s %-10s %-10s %-10s %-12s %-12s"
                 % ("key", "msqid", "owner", "perms", "used-bytes", "messages")]
        for slot, queue in enumerate(self.live):
            if queue is not None:
                key = queue.key if key_form == "%-10d" else queue.key % 2**32
                lines.append(f"{key_form} %-10d %-10s %-10o %-12d %-12d"
                             % (key, (self.made[slot] - 1) * 64 + slot, "-", 0o666,
                                queue.cbytes(), len(queue.waiting)))
        return "\n".join(lines) + "\n"

    def do_info(self, _moment, _flags):
        there = [queue for queue in self.live if queue is not None]
        messages, size = (sum(counts) for counts in
                          ([len(queue.waiting) for queue in there],
                           [queue.cbytes() for queue in there]))
        return (f"queues {len(there)} messages {messages} bytes {size} slots {SLOTS} pages {PAGES} "
                f"msgmax {MSGMAX} msgmnb {MSGMNB}")

    def do_arena(self, _moment, _flags):
        free = self.page_used.count(False)
        largest = "none"
        for order in range(7):
            count = 1 << order
            if any(not any(self.page_used[start:start + count])
                   for start in range(0, PAGES, count)):
                largest = order
        return f"pages {PAGES} free {free} largest {largest}"


def lines_of(script):
    """The lines of a script, each without its end."""
    lines = script.split(b"\n")
    if lines[-1] == b"":
        lines.pop()
    return [line[:-1] if line.endswith(b"\r") else line for line in lines]


def transcript(script):
    """What the script writes, the line on standard error or none, and the status."""
    if len(script) > 1 << 20:
        return b"", b"mqsim: script too long\n", 1
    run = Run()
    written = []
    for place, line in enumerate(lines_of(script), 1):
        try:
            command = command_of(line)
            if command is not None:
                name, values, flags = command
                answer = getattr(run, f"do_{name}")(place, flags, *values)
                written += [] if answer is None else [answer]
        except Refused as refusal:
            written.append(str(refusal))
        except IllFormed as cause:
            fault = f"mqsim: line {place}: {cause}\n"
            return "".join(f"{line}\n" for line in written).encode(), fault.encode(), 1
    return "".join(f"{line}\n" for line in written).encode(), b"", 0
