#!/usr/bin/env python3
"""Types scripts line by line at `mqsim`, over pipes and at a terminal of the system's own.

Each line must be answered before the next is typed, a line that is not well formed must be named and
skipped, answers must be on standard output and prompts on standard error. Requires
crates/mqsim/out/mqsim. Prints what fails; the last line counts the checks.
"""
import os
import pty
import select
import subprocess
import sys
import time

TOP = os.path.dirname(os.path.dirname(os.path.abspath(__file__)))
PROGRAM = f"{TOP}/crates/mqsim/out/mqsim"
# Lines, and what each is answered.
LINES = [
    ("get 7 c", "id 0\n"),
    ("snd 0 1 =hello", "at 1\n"),
    ("", ""),
    ("rcv 0", "line 4: words\n"),
    ("rcv 0 9 0x", "line 5: number\n"),
    ("x" * 5000, "line 6: long\n"),
    ("rcv 0 9 0", "msg 1 seat 1 tag 2 len 5 =hello\n"),
    ("rcv 0 9 0", "ENOMSG\n"),
]
# The timeouts, in seconds, of an answer and of a run.
PATIENCE = 20
passed = failed = 0


def check(right, what):
    """Counts one check."""
    global passed, failed
    passed, failed = passed + bool(right), failed + (not right)
    if not right:
        print(f"prompt: {what}")


def read_until(source, end):
    """What is read from a file until it ends so, or until a timeout without input."""
    seen = b""
    begun = time.monotonic()
    while not seen.endswith(end) and time.monotonic() - begun < PATIENCE:
        if select.select([source], [], [], 0.1)[0]:
            try:
                some = os.read(source, 65536)
            except OSError:
                break
            if not some:
                break
            seen += some
    return seen.decode()


def start(words, source=subprocess.PIPE, prompts=subprocess.PIPE):
    pipes = {"stdin": source, "stdout": subprocess.PIPE, "stderr": prompts}
    return subprocess.Popen([PROGRAM, *words], **pipes)


def ended(words, **pipes):
    """A run that ends by itself."""
    return subprocess.run([PROGRAM, *words], timeout=PATIENCE, **pipes)


def over_pipes(words):
    """Types at a pipe, and waits for each answer."""
    run = start(words)
    for line, answer in LINES:
        asked = read_until(run.stderr.fileno(), b"> ")
        check(asked == "> ", f"{words}: before {line[:9]!r} stands {asked!r}")
        run.stdin.write(f"{line}\n".encode())
        run.stdin.flush()
        if answer:
            said = read_until(run.stdout.fileno(), answer.encode())
            check(said == answer, f"{words}: {line[:9]!r} is answered {said!r}")
    said, asked = run.communicate(b"stat 0", timeout=PATIENCE)
    check(said.startswith(b"qnum 0 ") and said.endswith(b"\n"), f"{words}: the last line: {said!r}")
    check(asked == b"> > ", f"{words}: the last prompts: {asked!r}")
    check(run.returncode == 0, f"{words}: status {run.returncode}")


def at_a_terminal(words):
    """Types at a terminal, which shows the prompts as well; the answers go through a pipe."""
    ours, theirs = pty.openpty()
    run = start(words, theirs, theirs)
    os.close(theirs)
    first = read_until(ours, b"> ")
    check("Ctrl-D" in first, f"{words}: it begins with {first!r}")
    os.write(ours, b"get 7 c\n")
    said = read_until(run.stdout.fileno(), b"\n")
    check(said == "id 0\n", f"{words}: get is answered {said!r}")
    shown = read_until(ours, b"> ")
    check(shown.endswith("> "), f"{words}: the next prompt is {shown!r}")
    os.write(ours, b"\x04")
    said, _ = run.communicate(timeout=PATIENCE)
    check((said, run.returncode) == (b"", 0), f"{words}: at Ctrl-D: {said!r}, {run.returncode}")
    os.close(ours)


def threads_at_a_terminal():
    """A threads script is read whole, and a terminal at which it is typed shows so."""
    ours, theirs = pty.openpty()
    run = start(["threads"], theirs, theirs)
    os.close(theirs)
    told = read_until(ours, b"\n")
    check("Ctrl-D" in told, f"threads: it begins with {told!r}")
    os.write(ours, b"get 7 c\n\x04")
    said, _ = run.communicate(timeout=PATIENCE)
    told = said.startswith(b"id 0\n") and said.endswith(b"pages 64 free 64\n")
    check(told, f"threads: {said!r}")
    check(run.returncode == 0, f"threads: status {run.returncode}")
    os.close(ours)


def progress():
    """What shows how long threads have run: standard error where it is a terminal, and nothing else;
    at the end it is taken away."""
    script = b"get 7 c\nworker\ntake 0 9 1 within 3500\n"
    ours, theirs = pty.openpty()
    run = start(["threads"], prompts=theirs)
    os.close(theirs)
    said, _ = run.communicate(script, timeout=PATIENCE)
    shown = read_until(ours, b"\r\r").replace(" " * 40, "")
    # Two seconds at least, and as many more as it is late.
    seconds = range(1, max(2, shown.count("mqsim")) + 1)
    wanted = "".join(f"mqsim: running for {it} s\r" for it in seconds)
    check(shown == f"{wanted}\r", f"progress: {shown!r}")
    os.close(ours)
    piped = ended(["threads"], input=script, capture_output=True)
    check((said, piped.stderr) == (piped.stdout, b""), f"progress over a pipe: {piped}")


def ends():
    """How runs end that do not reach the end of what is typed."""
    file = ended(["-i", "script"], capture_output=True, text=True)
    check(file.returncode == 2 and "SCRIPT" in file.stderr, f"-i and a file: {file}")
    threads = ended(["threads", "-i"], capture_output=True, text=True)
    check(threads.returncode == 2 and "-i" in threads.stderr, f"threads -i: {threads}")
    # No process reads the pipe any more.
    reader, writer = os.pipe()
    os.close(reader)
    full = ended(["-i"], input=b"get 7 c\narena\n", stdout=writer, stderr=subprocess.PIPE)
    os.close(writer)
    check(full.returncode == 4 and full.stderr.endswith(b"write failed\n"), f"a closed pipe: {full}")
    # Standard input is open for writing alone.
    with open(os.devnull, "wb") as null:
        closed = ended(["-i"], stdin=null, capture_output=True)
    check(closed.returncode == 3 and closed.stderr.endswith(b"read failed\n"), f"no input: {closed}")
    size = ended(["serial", "-i", "--height", "0"], input=b"arena\n", capture_output=True)
    check(size.stdout == b"pages 1 free 1 largest 0\n", f"one page: {size}")


def main():
    over_pipes(["-i"])
    over_pipes(["--interactive"])
    over_pipes(["serial", "-i", "--slots", "3"])
    at_a_terminal([])
    at_a_terminal(["serial"])
    threads_at_a_terminal()
    progress()
    ends()
    print(f"prompt: {passed} passed, {failed} failed")
    return 1 if failed else 0


if __name__ == "__main__":
    sys.exit(main())
