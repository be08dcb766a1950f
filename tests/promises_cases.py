"""A small repository whose page of promises is right, and the faults that promises.py must find."""

FILES = {
    "crates/one/src/lib.rt": """//! A count, and its waiters.
pub trait Grows {
    /// By one.
    fn grow(&mut self) -> u64
        ensures answer { result ≡ self.old + 1 };
}

pub struct Count(u64);

impl Count {
    pub fn next(&self) -> u64
        requires { self < 9 }
        ensures answer { result ≡ self + 1 }
    {
        self.0 + 1
    }

    /// No clause says that it wakes somebody.
    pub fn wake(&self, is: bool) -> Option<u8> {
        is.then(|| 1)
    }

    /// What it is lent may not be dropped.
    pub fn end(self) {
        self.give_back()
    }
}

impl Grows for Count {
    fn grow(&mut self) -> u64 {
        self.0 += 1;
        self.0
    }
}

#[test]
fn a_count_grows(rt: HostRuntime) {}

#[test]
fn a_waiter_is_woken(rt: HostRuntime) {}
""",
    "crates/one/planted.edits": """== a_count_is_kept_at_the_end
function: Count::end
file: src/lib.rt
old: self.give_back()
new: {}

== a_count_stays
function: Count::next
file: src/lib.rt
old: self.0 + 1
new: self.0 + 0
""",
    "crates/two/planted.edits": """== nobody_is_woken
test: one waits::a_waiter_is_woken
file: src/lib.rt
old: wakes();
new:
""",
    "crates/two/src/lib.rt": "//! Wakes.\nfn wake_all() {\n    wakes();\n}\n",
    "docs/PROMISES.md": """# Promises

## Counts

| Promise | Function: clause | Test |
|---|---|---|
| A count grows by one | `one` `Count::next`: `answer`; `grow` | `a_count_grows` |
| Nothing is kept | `one` `Count::end` | `a_count_grows` |

## What only tests see

| Promise | Function: clause | Test |
|---|---|---|
| A waiter is woken | `one` `wake`; `two` `wake_all` | `a_waiter_is_woken` |
""",
}
ONE, TWO = "crates/one/planted.edits", "crates/two/planted.edits"
KEPT, STAYS = FILES[ONE].split("\n\n")
PAGE, WAKE = "docs/PROMISES.md", "| A waiter is woken | `one` `wake`; `two` `wake_all` |"
ROW = "| A count grows by one | `one` `Count::next`: `answer`; `grow` | `a_count_grows` |\n"

# The changes, each a file, a text of it and what stands in its place; and how all that is printed
# of the fault begins, where it is one. With no text the file gets this one, or where it is None
# goes.
CASES = {
    "all is right": ([], None),
    "a function has no clause": (
        [(PAGE, ROW, f"{ROW}| A wake is one | `one` `wake` | `a_waiter_is_woken` |\n")],
        "no clause of one wake carries: A wake is one"),
    "a mistake at the end shows nothing": (
        [(ONE, None, STAYS)],
        "no clause of one Count::end carries: Nothing is kept"),
    "a promise has no function": (
        [(PAGE, ROW, f"{ROW}| All is well | all | `a_count_grows` |\n")],
        "no function is named of: All is well"),
    "a promise is only tested": (
        [(PAGE, "grows by one |", "grows by one (only tested) |")],
        "this is only tested, and does not stand there: A count grows"),
    "no test sees it": (
        [(PAGE, WAKE, f"| All wake | `one` `wake` | |\n{WAKE}")], "no test sees: All wake"),
    "two mistakes of a file have one name": (
        [(ONE, None, f"{FILES[ONE]}\n{STAYS}")], "a_count_stays: 2 edits have this name"),
    "a mistake of another crate has its name": (
        [(ONE, "== a_count_stays", "== nobody_is_woken")],
        "nobody_is_woken: 2 edits have this name"),
    "a mistake is empty": (
        [(ONE, "== a_count_s", "== a_count\n\n== a_count_s")], "one/a_count: it is empty"),
    "a mistake lacks a line": (
        [(TWO, "new:\n", "")], "two/nobody_is_woken: it is not written as an edit is"),
    "a mistake's place is not by its name": (
        [(ONE, "== a_count_stays", "== a_clock_stays")],
        "one/a_clock_stays: it stands behind a_count_is_kept_at_the_end"),
    "a mistake has a file of its own": (
        [("crates/two/planted/one.edit", None, "file: src/lib.rt\n")],
        "crates/two/planted/one.edit: it belongs in planted.edits"),
    "a mistake's text is gone": (
        [(TWO, "old: wakes();", "old: sleeps();")],
        "two/nobody_is_woken: its text stands 0 times in src/lib.rt: sleeps();"),
    "a mistake's text is there twice": (
        [(TWO, "old: wakes();", "old: ake")],
        "two/nobody_is_woken: its text stands 3 times in src/lib.rt: ake"),
    "a mistake's file is gone": (
        [(TWO, "src/lib.rt", "src/wake.rt")], "two/nobody_is_woken: there is no file src/wake.rt"),
    "a clause is gone": (
        [(PAGE, ": `answer`", ": `answers`")], "there is no one answers, of which a row speaks"),
    "a test is gone": (
        [(PAGE, "| `a_count_grows` |\n| N", "| `a_count_shrinks` |\n| N")],
        "there is no a_count_shrinks, of which a row speaks"),
    "a public function has no mistake": (
        [(ONE, None, KEPT)],
        "no mistake is planted in one lib::next"),
    "no row names a mistake's test": (
        [(PAGE, "`a_waiter_is_woken`", "`a_count_grows`")],
        "no row names what two/nobody_is_woken is planted in"),
}


def write(top, changes):
    """Writes the repository, with these changes, below this folder."""
    texts = dict(FILES)
    for file, old, new in changes:
        if old is None:
            texts[file] = new
        elif texts[file].count(old) == 1:
            texts[file] = texts[file].replace(old, new)
        else:
            raise ValueError(f"a case's text stands {texts[file].count(old)} times: {old}")
    for file, text in texts.items():
        if text is not None:
            (top / file).parent.mkdir(parents=True, exist_ok=True)
            (top / file).write_text(text)
