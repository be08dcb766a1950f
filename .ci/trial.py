"""A small crate with mistakes, on which `.ci/planted --self-test` shows what it finds out."""

SOURCE = """//! Functions and a constant.
#![tactic(auto)]
ghost use Rattle.std.specs.Prelude.{◌≡◌, ◌+◌, ◌<◌};
pub const MOST: u8 = 9;
pub fn the_most()
    ensures { MOST ≡ 9 }
{}
pub fn next(n: u8) -> u8
    requires { n < 9 }
    ensures { result ≡ n + 1 }
{ n + 1 }
pub fn after_next(n: u8) -> u8
    requires { n < 8 }
    ensures { result ≡ n + 2 }
{ next(n) + 1 }
"""
ANSWERS = """use Rattle.std.proofs.Common.{arith}
use Rattle.trial.proofs.after_next.Goals as goal

pub returns : goal.returns
returns c = omega (arith, c.next.ensures)
"""
# The mistakes: how what is said of each begins; its function; the text, and what it becomes.
NEXT, AFTER = "function: next", "function: after_next"
MISTAKES = {
    "a_mistake": ("refused", NEXT, "{ n + 1 }", "{ n + 2 }"),
    "a_right_body": ("it is still proved", NEXT, "{ n + 1 }", "{ 1 + n }"),
    "a_mistake_over_a_call": ("refused", AFTER, "next(n) + 1", "next(n) + 2"),
    "a_right_body_over_a_call": ("no goal of it", AFTER, "next(n) + 1", "1 + next(n)"),
    "a_value_of_a_constant": ("refused", "function: the_most", "MOST: u8 = 9", "MOST: u8 = 8"),
    "another_function_is_named": ("it does not change after", AFTER, "{ n + 1 }", "{ n + 2 }"),
    "a_clause_is_changed": ("it changes no one body", NEXT, "result ≡ n + 1", "result ≡ n"),
    "its_text_is_not_there": ("its text stands 0 times", NEXT, "{ n + 7 }", "{ n + 8 }"),
    "a_name_is_unknown": ("the check did not reach next", NEXT, "{ n + 1 }", "{ m + 1 }"),
    "an_error_is_given": ("refused", "error: unknown-name", "{ n + 1 }", "{ m + 1 }"),
    "it_compiles": ("the compiler's errors", "error: unknown-name", "{ n + 1 }", "{ 1 + n }"),
    "only_a_name_is_gone": ("a proof file names", AFTER, "next(n) +", "let one = next(n); one +"),
}


def write(top):
    """Writes the crate and its mistakes below this folder."""
    texts = {"crates.txt": "trial:\n", "crates/trial/src/lib.rt": SOURCE,
             "crates/trial/proofs/after_next/Answers.antt": ANSWERS}
    mistakes = (f"== {name}\n{head}\nfile: src/lib.rt\nold: {old}\nnew: {new}\n"
                for name, (_, head, old, new) in sorted(MISTAKES.items()))
    texts["crates/trial/planted.edits"] = "\n".join(mistakes)
    for path, text in texts.items():
        (top / path).parent.mkdir(parents=True, exist_ok=True)
        (top / path).write_text(text)
