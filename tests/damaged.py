#!/usr/bin/env python3
"""Runs mqsim over damaged scripts, and over readers and writers that fail.

What is expected of each run:
- of a serial script, damaged or not, all that script_model.py says that it writes: the answers of
  the lines before the first that is not well formed, that line's number and cause, the status. The
  scripts are two whole ones; each prefix of them; and each of them with each byte in turn replaced
  by each of six others;
- of a threads script with one byte that no line may have: that line's number, `byte`, status 1,
  and nothing written. (With another byte it may be a script that blocks forever.)
- where the reader fails at its kth call, for every k, with one byte or more a call: status 3,
  `mqsim: read failed`, and nothing written; where it fails later than the last call, all as ever;
- where the writer accepts k bytes and then fails, or accepts nothing, for every k: status 4,
  `mqsim: write failed`, and the first k bytes of what is written else; where it has room for all,
  status 0.
The readers and writers are those of failing_io.c, preloaded before the program. Requires mqsim to
be built, and `cc`. Prints the runs that fail; the last line counts.
"""
import collections
import concurrent.futures
import os
import subprocess
import sys
import tempfile

sys.dont_write_bytecode = True
import script_model  # noqa: E402  (after the line that keeps Python from writing beside it)

TOP = os.path.dirname(os.path.dirname(os.path.abspath(__file__)))
PROGRAM = f"{TOP}/crates/mqsim/out/mqsim"
SECONDS = 60
OTHER_BYTES = b"\x00\x0d\x200-\xff"

SELECTIONS = b"""get 0 c
snd 0 3 =c
snd 0 1 =a
snd 0 2 =b
snd 0 1 =z
rcv 0 9 -2
rcv 0 9 -2
rcv 0 9 -2
rcv 0 9 -2
"""

REMOVAL = b"""get 0 c
snd 0 1 *3000
snd 0 1 *3000
snd 0 2 =x
ipcs -q
ipcs -q x
ipcs -l
rm 0
arena
snd 0 1 =a
rcv 0 9 0
stat 0
snd 5 1 =a
"""

PAIRS = b"""get 9 c
set 0 16384
worker
put 0 1 100 1000
worker
put 0 2 100 1000
worker
take 0 1 100
worker
take 0 2 100 within 1000000
"""

PAIRS_TOLD = b"""id 0
at 1
worker 2 sent 100 received 0 order yes end done
worker 3 sent 100 received 0 order yes end done
worker 4 sent 0 received 100 order yes end done
worker 5 sent 0 received 100 order yes end done
slot 0 events 402 sent 200 received 200 left 0
pages 64 free 64
"""

LONGEST = (b"#" * 4095 + b"\n") * 256

READ_FAILED = (b"", b"mqsim: read failed\n", 3)

# A run: the set that it is counted in, the program's words, its input, what its reader and writer
# do, and what is expected: both outputs and the status.
Case = collections.namedtuple("Case", "table words script faults wanted")


def write_failed(whole, room):
    if room < len(whole):
        return whole[:room], b"mqsim: write failed\n", 4
    return whole, b"", 0


def scripts_that_are_damaged():
    serial = ["serial"]
    for script in (SELECTIONS, REMOVAL):
        for end in range(len(script) + 1):
            part = script[:end]
            yield Case("prefixes", serial, part, {}, script_model.transcript(part))
        for place in range(len(script)):
            for byte in OTHER_BYTES:
                other = script[:place] + bytes([byte]) + script[place + 1:]
                yield Case("bytes", serial, other, {}, script_model.transcript(other))
    for place in range(len(PAIRS)):
        line = PAIRS[:place].count(b"\n") + 1
        for byte in b"\x00\x7f\xff":
            other = PAIRS[:place] + bytes([byte]) + PAIRS[place + 1:]
            fault = f"mqsim: line {line}: byte\n".encode()
            yield Case("bytes of a threads script", ["threads"], other, {}, (b"", fault, 1))


def readers_that_fail():
    for words, script, told in ((["serial"], SELECTIONS, script_model.transcript(SELECTIONS)),
                                (["serial"], REMOVAL, script_model.transcript(REMOVAL)),
                                (["threads"], PAIRS, (PAIRS_TOLD, b"", 0))):
        for size in (1, 7):
            # One call more finds the end.
            calls = -(-len(script) // size) + 1
            for k in range(1, calls + 2):
                faults = {"READ_BYTES": size, "READ_FAILS": k}
                wanted = READ_FAILED if k <= calls else told
                yield Case("readers", words, script, faults, wanted)


def writers_that_fail():
    for words, script, whole in ((["serial"], SELECTIONS, script_model.transcript(SELECTIONS)[0]),
                                 (["serial"], REMOVAL, script_model.transcript(REMOVAL)[0]),
                                 (["threads"], PAIRS, PAIRS_TOLD)):
        for ends in ("error", "nothing"):
            for room in range(len(whole) + 1):
                faults = {"WRITE_TAKES": room, "WRITE_ENDS": ends}
                yield Case("writers", words, script, faults, write_failed(whole, room))


def scripts_at_their_edges():
    too_long = (b"", b"mqsim: script too long\n", 1)
    for words, nothing in ((["serial"], b""), (["threads"], b"pages 64 free 64\n")):
        whole = (nothing, b"", 0)
        for script, wanted in ((b"\r\n", whole), (LONGEST, whole), (LONGEST + b"#", too_long),
                               (b"get 0 c\r\r\n", (b"", b"mqsim: line 1: byte\n", 1)),
                               (b"get 0 c\r\n", (b"id 0\n", b"", 0))):
            if script == b"get 0 c\r\n" and words == ["threads"]:
                told = b"id 0\nslot 0 events 1 sent 0 received 0 left 0\npages 64 free 64\n"
                wanted = (told, b"", 0)
            yield Case("edges", words, script, {}, wanted)
            yield Case("edges", words, script, {"READ_BYTES": 1}, wanted)
        yield Case("edges", words, LONGEST, {"READ_FAILS": 1}, READ_FAILED)


def is_right(case, shim):
    """Whether a run ends as expected, and what is to be printed of it if not."""
    environment = dict(os.environ)
    if case.faults:
        environment |= {name: str(value) for name, value in case.faults.items()}
        environment["LD_PRELOAD"] = shim
    command = [PROGRAM, *case.words]
    try:
        run = subprocess.run(command, input=case.script, capture_output=True, env=environment,
                             timeout=SECONDS)
    except subprocess.TimeoutExpired:
        return False, f"{case.table}: {case.script[:200]!r} {case.faults}: does not end"
    ended = (run.stdout, run.stderr, run.returncode)
    return ended == case.wanted, (f"{case.table}: {case.script[:200]!r} {case.faults}: {ended}, "
                                  f"and not {case.wanted}")


def main():
    cases = [*scripts_that_are_damaged(), *readers_that_fail(), *writers_that_fail(),
             *scripts_at_their_edges()]
    right, wrong = collections.Counter(), collections.Counter()
    with tempfile.TemporaryDirectory() as folder:
        shim = f"{folder}/failing_io.so"
        subprocess.run(["cc", "-shared", "-fPIC", "-O1", "-o", shim, f"{TOP}/tests/failing_io.c",
                        "-ldl"], check=True)
        with concurrent.futures.ThreadPoolExecutor(len(os.sched_getaffinity(0))) as pool:
            for case, (good, said) in zip(cases, pool.map(lambda c: is_right(c, shim), cases)):
                (right if good else wrong)[case.table] += 1
                if not good and wrong[case.table] <= 3:
                    print(f"damaged: {said[:600]}")
    for table in right | wrong:
        print(f"damaged: {table}: {right[table]} of {right[table] + wrong[table]}")
    print(f"damaged: {right.total()} passed, {wrong.total()} failed")
    return 1 if wrong else 0


if __name__ == "__main__":
    sys.exit(main())
