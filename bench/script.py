#!/usr/bin/env python3
"""Writes a script for mqsim that bench/kernel_queues.c answers alike.

`bench/script.py SEED [--queues Q] [--calls snd,rcv,set,stat] [--height H] [--longest L] [--bytes B]`.
The same arguments always give the same script. It makes Q queues with a quota of twice L, then
sends texts of at most L bytes, receives, sets quotas and asks for figures, near B bytes in all. A
text and its header have L bytes at most. Most calls succeed; some answer EAGAIN, ENOMSG, E2BIG or
EINVAL. The queues and the arena of 2^H pages are followed along, for two reasons: no text is sent
for which there are no pages, since the kernel has no arena; and none that fits the quota only
without the 16 bytes that kernel_queues.c puts before each text.
"""
import argparse
import math
import random

HEADER = 16
PAGE = 1024
DEEPEST = 48
PRINTABLE = "".join(map(chr, range(0x20, 0x7F)))
TYPES = [1, 2, 3, 4, 5, 6, 7, 8, 2**31, 2**63 - 1]


class Arena:
    """The allocated pages: a block is the least aligned run that is free."""

    def __init__(self, height):
        self.pages = 2**height
        self.lent = 0

    def take(self, length):
        """The block of a text, as the bits of its pages, or None where none fits."""
        if length == 0:
            return 0
        count = 1
        while count * PAGE < length:
            count *= 2
        for start in range(0, self.pages - count + 1, count):
            block = (2**count - 1) << start
            if self.lent & block == 0:
                self.lent |= block
                return block
        return None

    def give(self, block):
        self.lent &= ~block


class Queue:
    """The pending messages, as (type, length, block), and the quota."""

    def __init__(self, number, quota):
        self.number = number
        self.quota = quota
        self.bytes = 0
        self.waiting = []
        self.wanted = 0

    def fits(self, length):
        """Whether a text fits, and whether it does with its header and those of pending
        messages."""
        count = len(self.waiting) + 1
        total = self.bytes + length
        return total <= self.quota, total + HEADER * count <= self.quota

    def selected(self, msgtyp, except_type):
        """The place of the message that a receive selects, or None."""
        types = [message[0] for message in self.waiting]
        if msgtyp < 0:
            low = min(types, default=0)
            return types.index(low) if types and low <= -msgtyp else None
        if msgtyp == 0:
            named = types
        elif except_type:
            named = [a_type for a_type in types if a_type != msgtyp]
        else:
            named = [a_type for a_type in types if a_type == msgtyp]
        return types.index(named[0]) if named else None


class Writer:
    """Writes the lines, each as the queues stand."""

    def __init__(self, options):
        self.random = random.Random(options.seed)
        self.arena = Arena(options.height)
        self.longest = options.longest - HEADER
        self.quotas = options.longest, 2 * options.longest
        self.queues = [Queue(number, self.quotas[1]) for number in range(options.queues)]
        self.calls = options.calls.split(",")

    def chance(self, one_in):
        return self.random.randrange(one_in) == 0

    def first_lines(self):
        for queue in self.queues:
            yield "get 0 c"
            yield f"set {queue.number} {queue.quota}"

    def next_line(self):
        queue = self.random.choice(self.queues)
        if self.chance(128):
            return f"seat {self.random.randrange(1, 17)}"
        if "set" in self.calls and self.chance(64):
            return self.set(queue)
        if "stat" in self.calls and self.chance(24):
            return f"stat {queue.number}"
        if self.chance(64):
            queue.wanted = self.random.randrange(DEEPEST)
        wants_more = len(queue.waiting) < queue.wanted
        if self.random.randrange(100) < (65 if wants_more else 40):
            return self.send(queue)
        return self.receive(queue)

    def set(self, queue):
        queue.quota = self.random.randint(*self.quotas)
        return f"set {queue.number} {queue.quota}"

    def text(self):
        """A text's word and its length."""
        if self.chance(12):
            length = int(2 ** self.random.uniform(0, math.log2(self.quotas[0])))
            return f"*{min(length, self.longest)}", min(length, self.longest)
        length = self.random.randrange(65)
        return "=" + "".join(self.random.choices(PRINTABLE, k=length)), length

    def send(self, queue):
        word, length = self.text()
        fits, fits_with_headers = queue.fits(length)
        block = self.arena.take(length)
        if block is None:
            return self.receive(queue)
        if fits != fits_with_headers:
            self.arena.give(block)
            return self.receive(queue)
        a_type = self.random.choice([0, -1] if self.chance(256) else TYPES)
        if fits and a_type > 0:
            queue.waiting.append((a_type, length, block))
            queue.bytes += length
        else:
            self.arena.give(block)
        return f"snd {queue.number} {a_type} {word}"

    def message_type(self, queue):
        """The type of a message, mostly of a pending one."""
        if queue.waiting and not self.chance(16):
            return self.random.choice(queue.waiting)[0]
        return self.random.choice(TYPES)

    def selection(self, queue):
        """A msgtyp and whether MSG_EXCEPT is given."""
        kind = self.random.randrange(8)
        if kind < 4:
            return 0, False
        a_type = self.message_type(queue)
        return (-a_type, False) if kind < 6 else (a_type, kind == 7)

    def size(self, queue, place):
        """A size, mostly enough, and whether MSG_NOERROR is given."""
        length = queue.waiting[place][1] if place is not None else 0
        kind = self.random.randrange(16)
        if kind == 0:
            return self.random.randrange(length + 1), not self.chance(3)
        return (length if kind < 4 else self.longest), kind % 4 == 0

    def receive(self, queue):
        msgtyp, except_type = self.selection(queue)
        place = queue.selected(msgtyp, except_type)
        size, noerror = self.size(queue, place)
        if place is not None and (noerror or queue.waiting[place][1] <= size):
            _, length, block = queue.waiting.pop(place)
            queue.bytes -= length
            self.arena.give(block)
        flags = "e" * except_type + "n" * noerror
        return f"rcv {queue.number} {size} {msgtyp} {flags}".rstrip()


def write_script(options):
    """The script's lines, as one text of at most `options.bytes` bytes."""
    writer = Writer(options)
    lines = list(writer.first_lines())
    left = options.bytes - sum(len(line) + 1 for line in lines)
    while True:
        line = writer.next_line()
        left -= len(line) + 1
        if left < 0:
            return "\n".join(lines) + "\n"
        lines.append(line)


def main():
    parser = argparse.ArgumentParser(description="Writes a script for mqsim.")
    parser.add_argument("seed", type=int)
    parser.add_argument("--queues", type=int, default=1)
    parser.add_argument("--calls", default="snd,rcv,set,stat")
    parser.add_argument("--height", type=int, default=6)
    parser.add_argument("--longest", type=int, default=8192)
    parser.add_argument("--bytes", type=int, default=1048576)
    print(write_script(parser.parse_args()), end="")


if __name__ == "__main__":
    main()
