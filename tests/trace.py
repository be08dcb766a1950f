#!/usr/bin/env python3
"""Runs mqsim trace and mqsim picture over random scripts, beside mqsim serial.

The scripts are random ones, one in eight with a byte replaced, and some threads scripts. What is
expected of each:
- Python's parsers read the trace and the picture, and the picture is an SVG;
- the trace has one event for each answer of `mqsim serial` that reports a change or a refusal,
  and no other: at the line, by the seat, of the queue and the entry that the script and the answer
  have; a refusal has its errno, its call and its id;
- a message stops pending under the id with which it began to, at the line of its receipt;
- of a script that is not well formed nothing is written, and the fault and the status are those of
  `mqsim serial`;
- of a threads script the trace has, slot by slot, what `mqsim threads` prints of it;
- a script of 10,000 lines is drawn within 2 s of a processor and 64 MiB, to at most 1 MB.
Requires mqsim to be built. Prints the scripts that fail; the last line counts.
"""
import collections
import concurrent.futures
import json
import os
import random
import re
import subprocess
import sys
import tempfile
import xml.etree.ElementTree

sys.dont_write_bytecode = True
import cuts  # noqa: E402  (after the line that keeps Python from writing beside it)
import script_model  # noqa: E402

TOP = os.path.dirname(os.path.dirname(os.path.abspath(__file__)))
PROGRAM = f"{TOP}/crates/mqsim/out/mqsim"
SECONDS = 60
RANDOM_SCRIPTS = 1000
THREADS_SCRIPTS = 40
# Of a long script: its lines, and what a picture may take, in seconds of a processor and in KiB, and
# have, in bytes.
LONG_LINES, LONG_SECONDS, LONG_MEMORY, LONG_PICTURE = 10_000, 2, 65_536, 1_000_000
CALLS = {b"get": "msgget", b"snd": "msgsnd", b"rcv": "msgrcv", b"set": "IPC_SET", b"rm": "IPC_RMID",
         b"stat": "IPC_STAT", b"cut": "cut"}
INSTANTS = {b"get": "made", b"set": "quota", b"rm": "removed"}
NAMES_NO_ID = (b"get", b"cut")
SLOT = re.compile(rb"slot (\d+) events (\d+) sent (\d+) received (\d+) left \d+")

# What happened at a line: the kind of the record, its name, its process and thread, its entry.
Event = collections.namedtuple("Event", "ph name pid tid entry")


class Wrong(Exception):
    """What a run has that is not expected."""


def run(words, script):
    ended = subprocess.run([PROGRAM, *words], input=script, capture_output=True, timeout=SECONDS)
    return ended.stdout, ended.stderr, ended.returncode


def answered(script, answers):
    """The number and the words of each line, the seat that calls, and its answer."""
    left, seat = collections.deque(answers.decode().splitlines()), 1
    for number, line in enumerate(script_model.lines_of(script), 1):
        words = line.split(b" ")
        if line[:1] in (b"", b"#"):
            continue
        if words[0] == b"seat":
            seat = int(words[1])
            continue
        answer = left.popleft()
        # A table: of `ipcs` the lines behind its first, with an option those up to the empty one.
        while words == [b"ipcs"] and left and left[0].startswith(" "):
            left.popleft()
        while words[0] == b"ipcs" and words[1:] and left.popleft():
            pass
        yield number, words, seat, answer
    if left:
        raise Wrong(f"answers that no line has: {list(left)}")


def events_wanted(script, answers):
    """The event of each line that has one, and the line at which each received message was sent."""
    events, sent_at, made, entries = {}, {}, set(), collections.Counter()
    for number, words, seat, answer in answered(script, answers):
        name, told = words[0], answer.split(" ")
        if re.fullmatch("E[0-9A-Z]+", answer):
            events[number] = Event("i", answer, 0, seat, None)
            continue
        queue = int(told[1]) if name == b"get" else None
        if name in (b"snd", b"rcv", b"set", b"rm"):
            queue = int(words[1])
        if queue is None or queue in made and name == b"get":
            continue
        made.add(queue)
        entry = entries[queue % 64]
        entries[queue % 64] += 1
        if told[0] == "at" and int(told[1]) != entry:
            raise Wrong(f"line {number} is answered {answer}, as its {entry}th entry")
        if name == b"snd":
            ph, title = "b", f"type {words[2].decode()}"
        elif name == b"rcv":
            ph, title, sent_at[number] = "e", f"type {told[1]}", int(told[5])
        else:
            ph, title = "i", INSTANTS[name]
        events[number] = Event(ph, title, queue + 1, seat, entry)
    return events, sent_at


def records_of(trace, *kinds):
    return [record for record in json.loads(trace)["traceEvents"] if record["ph"] in kinds]


def check_trace(script, answers, trace):
    wanted, sent_at = events_wanted(script, answers)
    records = records_of(trace, "i", "b", "e")
    found = {record["ts"]: Event(record["ph"], record["name"], record["pid"], record["tid"],
                                 record["args"].get("entry")) for record in records}
    if len(found) != len(records) or found != wanted:
        others = {line: (found.get(line), wanted.get(line)) for line in found.keys() | wanted.keys()
                  if found.get(line) != wanted.get(line)}
        raise Wrong(f"{len(records)} events; found and wanted: {others}")
    begun = {record["id"]: record["ts"] for record in records if record["ph"] == "b"}
    lines = script_model.lines_of(script)
    for record in records:
        if record["ph"] == "e" and begun.get(record["id"]) != sent_at[record["ts"]]:
            raise Wrong(f"what was received is not what was sent: {record}")
        if record["pid"] == 0:
            words = lines[record["ts"] - 1].split(b" ")
            named = None if words[0] in NAMES_NO_ID else int(words[1])
            if (record["args"]["call"], record["args"].get("id")) != (CALLS[words[0]], named):
                raise Wrong(f"another call: {record}")


def check_picture(picture):
    root = xml.etree.ElementTree.fromstring(picture)
    if root.tag != "{http://www.w3.org/2000/svg}svg":
        raise Wrong(f"the picture begins with {root.tag}")


def check_serial(script):
    answers, *ended = run(["serial"], script)
    for words in (["trace"], ["picture"]):
        drawn, *other = run(words, script)
        if other != ended:
            raise Wrong(f"{words} ends with {other}, not {ended}")
        if ended[1] != 0:
            if drawn:
                raise Wrong(f"{words} writes {drawn[:200]}")
        elif words == ["trace"]:
            check_trace(script, answers, drawn)
        else:
            check_picture(drawn)


def check_long(script):
    with tempfile.TemporaryFile() as lines, tempfile.TemporaryFile() as drawn:
        lines.write(script)
        lines.seek(0)
        process = subprocess.Popen([PROGRAM, "picture"], stdin=lines, stdout=drawn)
        _, status, used = os.wait4(process.pid, 0)
        process.returncode = os.waitstatus_to_exitcode(status)
        drawn.seek(0)
        picture = drawn.read()
    seconds = used.ru_utime + used.ru_stime
    print(f"{LONG_LINES:,} lines: {seconds:.2f} s, {used.ru_maxrss // 1024} MiB, "
          f"{len(picture) // 1000} kB")
    check_picture(picture)
    if (process.returncode or seconds > LONG_SECONDS or used.ru_maxrss > LONG_MEMORY
            or len(picture) > LONG_PICTURE):
        raise Wrong(f"{process.returncode}, {seconds} s, {used.ru_maxrss} KiB, {len(picture)}")


def long_script(dice):
    """So many lines: sends and receives in four queues, some of them refused where one is full."""
    lines = [f"get {key} c" for key in range(1, 5)] + ["set 3 200"]
    for queue in dice.choices(range(4), k=LONG_LINES - len(lines)):
        lines.append(dice.choice((f"snd {queue} {dice.randrange(1, 9)} *{dice.randrange(60)}",
                                  f"rcv {queue} 100 {dice.randrange(-4, 3)}")))
    return "".join(f"{line}\n" for line in lines).encode()


def counts_told(answers):
    """The events, sendings and receipts of each slot, as `mqsim threads` prints them."""
    return {int(slot): tuple(map(int, counts)) for slot, *counts in SLOT.findall(answers)}


def counts_drawn(trace):
    counts = collections.defaultdict(lambda: [0, 0, 0])
    for record in records_of(trace, "i", "b", "e"):
        if record["pid"] != 0:
            of_slot = counts[(record["pid"] - 1) % 64]
            of_slot[0] += 1
            of_slot[1] += record["ph"] == "b"
            of_slot[2] += record["ph"] == "e"
    return {slot: tuple(of_slot) for slot, of_slot in counts.items()}


def check_threads(script):
    # Of so many pages there are some for all texts, so that no worker ends before the last of them.
    pages = ["--height", "10"]
    answers, *ended = run(["threads", *pages], script)
    trace, *traced = run(["trace", "--threads", *pages], script)
    picture, *drawn = run(["picture", *pages, "--threads"], script)
    if not ended == traced == drawn == [b"", 0]:
        raise Wrong(f"ended with {ended}, {traced} and {drawn}")
    if counts_told(answers) != counts_drawn(trace):
        raise Wrong(f"drawn is {counts_drawn(trace)}, not {counts_told(answers)}")
    refused = [(record["ts"], record["name"]) for record in records_of(trace, "i")
               if record["pid"] == 0]
    main = script.split(b"worker\n")[0]
    if refused != [(number, answer) for number, _, _, answer
                   in answered(main, b"\n".join(answers.split(b"\n")[:main.count(b"\n")]))
                   if answer.startswith("E")]:
        raise Wrong(f"refused is {refused}")
    check_picture(picture)


def threads_script(dice):
    """A script all of whose sections end, in whatever order they are served."""
    main = ["get 1", "get 1 c", "get 2 c", "get 2 cx", f"set 0 {dice.randrange(4096, 20000)}",
            f"set {dice.randrange(2)} {dice.choice((20000, 200000))}"]
    sections = []
    for queue in range(2):
        for mtype in range(1, dice.randrange(2, 4)):
            count, length = dice.randrange(60), dice.randrange(2000)
            sections += [f"worker\nput {queue} {mtype} {count} {length}",
                         f"worker\ntake {queue} {mtype} {count}"]
    dice.shuffle(sections)
    return "".join(f"{line}\n" for line in main + sections).encode()


def damaged(dice, script):
    place = dice.randrange(len(script))
    return script[:place] + bytes([dice.choice(b"\x00\x200-cx")]) + script[place + 1:]


def is_right(case):
    """Whether a script's runs are as expected, and what is to be printed of it if not."""
    check, script = case
    try:
        check(script)
    except (Wrong, ValueError, KeyError, IndexError, subprocess.TimeoutExpired,
            xml.etree.ElementTree.ParseError) as wrong:
        return False, f"{script[:600]!r}: {wrong!r}"
    return True, ""


def main():
    dice = random.Random(20261130)
    # Before all others: the memory of a program's parent counts as that program's.
    cases = [(check_long, long_script(dice))]
    cases += [(check_serial, b""), (check_serial, b"arena"), (check_serial, b"nothing")]
    for place in range(RANDOM_SCRIPTS - 3):
        script, _ = cuts.with_cuts(dice, cuts.random_script(dice), script_model.SLOTS)
        cases.append((check_serial, damaged(dice, script) if place % 8 == 0 else script))
    cases += [(check_threads, threads_script(dice)) for _ in range(THREADS_SCRIPTS)]
    right = wrong = 0
    with concurrent.futures.ThreadPoolExecutor(len(os.sched_getaffinity(0))) as pool:
        for good, said in pool.map(is_right, cases):
            right += good
            wrong += not good
            if not good and wrong <= 5:
                print(f"trace: {said[:1500]}")
    print(f"trace: {right} passed, {wrong} failed")
    return 1 if wrong else 0


if __name__ == "__main__":
    sys.exit(main())
