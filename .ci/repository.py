#!/usr/bin/env -S python3 -B
"""The crates of the repository, what a check of one is passed, and what `rt ci` has made of them.

    .ci/repository.py library NAME        proves and builds the static library of a crate over what
        `rt ci` has left, as crates/NAME/out/libNAME.a; `rt lib` would prove all this once more
    .ci/repository.py wait FILE NAME ..     waits until the `rt ci` that runs has made these crates,
        where `tests` are the tests of all; or FILE is there, which says that it has ended
    .ci/repository.py changed FOLDER        prints the crates whose src/, specs/ or proofs/ differ
        from what landed last; copies these and what they stand on to a new folder, where `rt ci`
        proves them; says on standard error which crates above are not proved"""
import shutil
import subprocess
import sys
import time
from pathlib import Path

TOP = Path(__file__).resolve().parent.parent
# The seconds after which what was made is whole: a library is put there file by file.
SETTLED = 3


class Crates:
    def __init__(self, top):
        page = subprocess.run(["rt", "doc"], capture_output=True, text=True, check=True).stdout
        self.top, self.kit, self.uses = top, Path(page.strip()).parent, {}
        for line in (top / "crates.txt").read_text().splitlines():
            name, colon, names = line.partition("#")[0].partition(":")
            if colon:
                self.uses[name.split()[0]] = names.split()

    def below(self, name):
        """The crates of the repository that this one stands on."""
        own = [it for it in self.uses[name] if it in self.uses]
        return {*own, *(it for dep in own for it in self.below(dep))}

    def libraries(self, name):
        """The folder that has the library of a crate, or of the toolchain."""
        return f"{self.top}/crates/{name}/out/rlib" if name in self.uses else f"{self.kit}/rlibs"

    def words(self, verb, name):
        """The toolchain's call on a crate, over the libraries that lie in the crates' folders."""
        is_program = (self.top / "crates" / name / "src" / "main.rt").is_file()
        words = [f"{self.kit}/bin/rattle", verb, "--crate-name", name]
        words += ["src/main.rt" if is_program else "src/lib.rt"]
        words += ["--antt-project", f"{self.kit}/rattle/logic/antt-project.json"]
        words += ["--logic-built", f"{self.kit}/logic_built", "--jobs", "1", "--links", f"{name}="]
        for it in ["std", *self.uses[name]]:
            words += ["--extern", f"{it}={self.libraries(it)}/{it}.rlib"]
        for it in ["std", *sorted(self.below(name))]:
            words += ["-L", f"dependency={self.libraries(it)}"]
        return words

    def library(self, name):
        (self.top / "crates" / name / "out").mkdir(exist_ok=True)
        words = [*self.words("build", name), "--crate-type", "staticlib", "--backend", "llvm"]
        words += ["--toolchain", f"{self.kit}/toolchain", "-o", f"out/lib{name}.a"]
        return subprocess.run(words, cwd=self.top / "crates" / name).returncode

    def made(self, name):
        """What `rt ci` makes of a crate: its program; its tests, if it is of tests; its library."""
        folder = self.top / "crates" / name
        if (folder / "src" / "main.rt").is_file():
            return folder / "out" / name
        return self.tests(name) if name.endswith("_tests") else folder / f"out/rlib/{name}.rlib"

    def tests(self, name):
        """Where `rt ci` leaves the program of a crate's tests."""
        return self.top / "crates" / name / "out" / f"{name}_tests"

    def with_tests(self):
        """The crates that have tests."""
        sources = lambda name: (self.top / "crates" / name / "src").glob("**/*.rt")
        return [it for it in self.uses if any("#[test]" in own.read_text() for own in sources(it))]


def is_whole(path):
    """Whether what is made at this path is there, and no file of it is new."""
    try:
        last = max(it.stat().st_ctime for it in [path, *path.rglob("*")])
    except OSError:
        return False
    return time.time() - last > SETTLED


def wait(crates, end, names):
    """Waits until `rt ci` has made these crates, or the file is there that says that it ended."""
    paths = [crates.made(it) for it in names if it != "tests"]
    paths += [crates.tests(it) for it in crates.with_tests() if "tests" in names]
    # An error where the folder is gone, as when the gate was stopped.
    while paths and end.parent.stat() and not end.exists():
        time.sleep(1)
        paths = [it for it in paths if not is_whole(it)]


def changed(*parts):
    """The crates of which such a file differs from what landed last (origin's HEAD, or, where that
    is the commit here, the commit before)."""
    git = lambda *words: subprocess.check_output(["git", *words], cwd=TOP, text=True).split()
    landed = git("for-each-ref", "--format=%(objectname)", "refs/remotes/origin/HEAD")
    landed = "HEAD~1" if landed in ([], git("rev-parse", "HEAD")) else landed[0]
    places = [f"crates/*/{it}" for it in parts]
    files = git("diff", "--name-only", landed, "--", *places)
    files += git("ls-files", "--others", "--exclude-standard", "--", *places)
    return {it.split("/")[1] for it in files}


def copy_changed(crates, folder):
    """Copies the changed crates, and those below, as a repository of their own. Says which."""
    names = changed("src/*", "specs/*", "proofs/*") & crates.uses.keys()
    kept = {*names, *(it for name in names for it in crates.below(name))}
    above = [it for it in crates.uses if it not in kept and crates.below(it) & names]
    for part in (".ci", *(f"crates/{it}" for it in kept)):
        shutil.copytree(TOP / part, folder / part, ignore=shutil.ignore_patterns("out"))
    shutil.copy(TOP / "HANDLES", folder)
    # By this `rt ci` takes it for one.
    (folder / ".git").mkdir()
    lines = (TOP / "crates.txt").read_text().splitlines(keepends=True)
    own = [it for it in lines if (it.partition(":")[0].split() or [""])[0] in kept]
    (folder / "crates.txt").write_text("".join(own))
    print(*sorted(names))
    if above:
        print("NOT proved, since they stand above what changed:", *above, file=sys.stderr)


if __name__ == "__main__":
    verb, *given = sys.argv[1:]
    if verb == "library":
        sys.exit(Crates(TOP).library(*given))
    elif verb == "wait":
        wait(Crates(TOP), Path(given[0]), given[1:])
    elif verb == "changed":
        copy_changed(Crates(TOP), Path(given[0]))
