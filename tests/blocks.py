#!/usr/bin/env python3
"""Tries each code block of README.md, CONTRIBUTING.md and docs/*.md, so that no page shows what the
gate does not.

- rust: of README a whole crates/*/src/main.rt, which the gate proves and runs; of other pages lines
  of a source of crates/, one after the other, where a line `// ..` stands for lines left out. Those
  of docs/CALLS.md are signatures, which tests/calls.py compares.
- c: lines of a file of face/, which tests/face.sh compiles; else it is compiled with the C library
  and run, as the body of a `main` where it has none.
- python: run over the preloaded library.
- sh: a line that names a part of the gate, or what it runs itself, must name what is there. The
  other lines of a block run together, after the lines `export` of the page's earlier blocks, beside
  the C block before it as hello.c.
- of no language: a script of mqsim is run. Its answers stand beside it, two spaces off at least, or
  in the block behind it. All other such blocks, and those of `text`, are pictures and forms.

Comments `prints ..` of a block say, line by line, all that its run may print. A block whose package
is not here is left out, in a line of its own. Requires mqsim and face/ to be built. The last line
counts.
"""
import os
import re
import subprocess
import sys
import tempfile
from collections import namedtuple
from pathlib import Path

TOP = Path(__file__).resolve().parent.parent
FACE = TOP / "face"
MQSIM = TOP / "crates" / "mqsim" / "out" / "mqsim"
SECONDS = 60
PYTHON = "/usr/bin/python3"
# What checks whether the package of a client is here.
CLIENTS = {"perl": ["perl", "-MIPC::SysV", "-MIPC::Msg", "-e", "1"],
           "php": ["php", "-r", "exit(function_exists('msg_get_queue') ? 0 : 1);"],
           "python3": [PYTHON, "-c", "import sysv_ipc"]}
# The first words of a script's lines, and how its answers begin.
COMMANDS = "seat get arena snd set rm stat cut ipcs info rcv worker put take".split()
ANSWER = re.compile(r"(id|at|msg|qnum|queues|cut from|pages|slot|worker) .*\d|E[A-Z0-9]+$")
# What the gate runs itself, or is a part of it: a crate, a folder to make, or a script.
PART = re.compile(r"\(?(?:cd (crates/\w+) && )?(?:rt\b|make -C (\w+)|((?:\.ci|bench|tests)/[\w.]+))")

Block = namedtuple("Block", "page line section language lines")


def blocks(page):
    """The blocks of a page, in their order."""
    found, section, lines = [], "", None
    for number, line in enumerate(page.read_text().splitlines(), 1):
        fence = re.match(r"```(\w*)\s*$", line)
        if fence and lines is None:
            lines = []
            found.append(Block(page, number, section, fence.group(1), lines))
        elif fence:
            lines = None
        elif lines is not None:
            lines.append(line)
        elif line.startswith("#"):
            section = line
    return found


def fault_of(words, wanted=None, text="", **more):
    """What is wrong with a run, of which these lines are expected."""
    try:
        done = subprocess.run(words, input=text, capture_output=True, text=True, timeout=SECONDS,
                              check=False, **more)
    except (OSError, subprocess.TimeoutExpired) as error:
        return str(error)
    if done.returncode:
        return f"status {done.returncode}: {done.stderr.strip()[:200]}"
    return "" if wanted in (None, done.stdout.splitlines()) else f"prints {done.stdout!r}"


def fault_over_preload(words, wanted, folder, **env):
    """What is wrong with a run over the preloaded library, which must see a call."""
    env = {**os.environ, **env, "CIVDRAX_COUNT": str(folder / "count")}
    fault = fault_of(words, wanted, cwd=folder, env=env)
    counted = (folder / "count").read_text().split() if (folder / "count").exists() else []
    return fault or ("" if sum(map(int, counted)) else "makes no call over the preloaded library")


def prints(block):
    """The lines that a block's comments expect of its run, if there are such."""
    return re.findall(r"(?://|#) prints (.*)", "\n".join(block.lines)) or None


def stands_in(block, files):
    """Whether a block has lines of one of these files, however far they are indented."""
    parts = re.split(r"\n?// \.\.\n", "\n".join(it.strip() for it in block.lines))
    shape = re.compile(r"\n(?:.*\n)*?".join(re.escape(it) for it in parts) + r"\n")
    return any(shape.search("".join(it.strip() + "\n" for it in path.open())) for path in files)


def rust(block):
    if block.page.name == "README.md":
        text = "\n".join(block.lines) + "\n"
        whole = any(it.read_text() == text for it in TOP.glob("crates/*/src/main.rt"))
        return "" if whole else "is no crates/*/src/main.rt"
    return "" if stands_in(block, TOP.glob("crates/*/src/**/*.rt")) else "stands in no source"


def c_program(block, folder):
    if stands_in(block, FACE.glob("**/*.[ch]")):
        return ""
    text = "\n".join(block.lines)
    if not re.search(r"\bmain\(", text):
        heads = "".join(f"#include {it}\n" for it in ("<stdio.h>", "<string.h>", '"civdrax.h"'))
        text = f"{heads}int main(void) {{\n{text}\nreturn 0;\n}}"
    (folder / "block.c").write_text(text + "\n")
    words = ["cc", "-std=gnu11", "-Wall", "-Wextra", "-Werror", f"-I{FACE}", "-o", "block",
             "block.c", FACE / "out" / "libcivdrax.a", "-pthread"]
    return fault_of(words, cwd=folder) or fault_of([folder / "block"], prints(block))


def shell(block, before, folder):
    """Tries a block of shell, before which its page has these; None where its package is not here."""
    own = []
    for line in block.lines:
        part = PART.match(line)
        for name in part.groups() if part else []:
            if name and not (TOP / name).exists():
                return f"{name} is not there"
        own += [] if part else [line]
    for client, words in CLIENTS.items():
        if any(it.startswith(f"{client} ") for it in own) and fault_of(words):
            return None
    for it in before:
        if it.language == "c":
            (folder / "hello.c").write_text("\n".join(it.lines) + "\n")
    for name in ("face", "crates", "examples"):
        if not (folder / name).exists():
            (folder / name).symlink_to(TOP / name)
    exports = [line for it in before if it.language == "sh" for line in it.lines
               if line.startswith("export ")]
    path = f"{MQSIM.parent}:/usr/bin:{os.environ['PATH']}"
    words = ["bash", "-euc", "\n".join(exports + own)]
    if not own or own == [it for it in own if it.startswith("export ")]:
        return ""
    if "LD_PRELOAD=" in words[-1]:
        return fault_over_preload(words, prints(block), folder, PATH=path)
    return fault_of(words, prints(block), cwd=folder, env={**os.environ, "PATH": path})


def script(block, behind):
    """Tries a script of mqsim, behind which its page has this block."""
    lines, wanted = block.lines, None
    if all("  " in it for it in lines):
        wanted = [re.sub(r".*  ", "", it) for it in lines]
        lines = [re.sub(r"  .*", "", it) for it in lines]
    elif behind and behind.section == block.section and ANSWER.match("".join(behind.lines[:1])):
        wanted = behind.lines
    kind = "threads" if any(it.split(" ")[0] in ("worker", "put") for it in lines) else "serial"
    return fault_of([MQSIM, kind], wanted, "\n".join(lines) + "\n")


def is_tried(block):
    """Whether a block is neither a picture, a form, a script's answers nor a list of signatures."""
    if block.language:
        return block.language != "text" and (block.language, block.page.name) != ("rust", "CALLS.md")
    first = "".join(block.lines[:1]).split("  ")[0]
    return first.split(" ")[0] in COMMANDS and not ANSWER.match(first)


def fault_in(page, at, folder):
    """What is wrong with a block of a page; None where its package is not here."""
    block = page[at]
    if block.language == "rust":
        return rust(block)
    if block.language == "c":
        return c_program(block, folder)
    if block.language == "sh":
        return shell(block, page[:at], folder)
    if block.language == "python":
        words, preload = [PYTHON, "-c", "\n".join(block.lines)], FACE / "out/libcivdrax_preload.so"
        return None if fault_of(CLIENTS["python3"]) else fault_over_preload(
            words, prints(block), folder, LD_PRELOAD=str(preload))
    if block.language:
        return f"nothing is known of `{block.language}`"
    return script(block, next((it for it in page[at + 1:] if not it.language), None))


def main():
    passed = failed = 0
    for path in [TOP / "README.md", TOP / "CONTRIBUTING.md", *sorted((TOP / "docs").glob("*.md"))]:
        page = blocks(path)
        for at, block in enumerate(page):
            if not is_tried(block):
                continue
            with tempfile.TemporaryDirectory() as folder:
                fault = fault_in(page, at, Path(folder))
            place = f"{path.relative_to(TOP)}:{block.line}"
            if fault is None:
                print(f"blocks: LEFT OUT: {place}: its package is not here")
                continue
            passed, failed = passed + (not fault), failed + bool(fault)
            if fault:
                print(f"blocks: FAILED: {place}: {fault}")
    print(f"blocks: {passed} passed, {failed} failed")
    return 1 if failed or not passed else 0


if __name__ == "__main__":
    sys.exit(main())
