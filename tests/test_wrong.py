#!/usr/bin/env python3
"""tests/wrong: which edits apply, and which refusals count. Prints 'N passed, M failed' last; exit status 1 where one failed."""
import contextlib
import importlib.machinery
import importlib.util
import io
import os
import sys
import tempfile

from programs import TOP, Cases

CASES = Cases()


def the_tool():
    loader = importlib.machinery.SourceFileLoader("wrong", os.path.join(TOP, "tests", "wrong"))
    module = importlib.util.module_from_spec(importlib.util.spec_from_loader("wrong", loader))
    loader.exec_module(module)
    return module


WRONG = the_tool()
REFUSED = "refused, as it must be"
AWAY = " (only because a proof file names what the edit took away, so this says little of the contract: change a value and keep the names)"
LIMIT = " (only by a limit of the prover, which gave no verdict, so this says less of the contract: choose a change that it refuses sooner)"
FACT = "proofs/f/Answers.antt:9:13: error: `returns`: not equal"


def judged(said):
    """How many edits count as passed and as failed after what rt said of one."""
    WRONG.CASES = Cases()
    with contextlib.redirect_stdout(io.StringIO()):
        WRONG.judge("x/y", said)
    return WRONG.CASES.passed, WRONG.CASES.failed


def error(text):
    return f"{REFUSED}: proofs/f/Answers.antt:9:13: error: {text}"


REFUSALS = [
    ("a fact fails", f"{REFUSED}: {FACT}", True),
    ("a function that search does not close, with no error of a file", REFUSED, True),
    ("the crate is still proved", "NOT REFUSED: the crate is still proved with this edit (one that means the same ..)", False),
    ("it did not reach the prover", "BAD EDIT: it did not reach the prover; the first lines of what it said: | src/lib.rt:1:1: error: expected an item", False),
    ("status 1 without the prover's word", "NOT TRIED: its check ended with status 1, so nothing is known of it: run this again", False),
    ("a goal that the edited code has no more", error("module `Rattle.x.proofs.f.Goals` has no `add` that can be named from here"), False),
    ("a name that is not in scope", error("`size` is not in scope"), False),
    ("a name that is not in scope, told with its function", error("`f_spec`: `size` is not in scope"), False),
    ("a step that the edited code has no more", error("record `x.Lts.After-if` has no field `if2`"), False),
    ("what depends on a lemma that was rejected", error("4 declarations that depend on `head`, which was rejected, were not checked: returns"), False),
    ("goals in another order", error("expected type `x.Goals.add`, but this has type `x.Goals.returns`"), False),
    ("unfit behind the name of a lemma", error("`f_spec`: it has no goal that can be named from here"), False),
    ("unfit in every error", f"{REFUSED}{AWAY}: proofs/f/Answers.antt:9:13: error: `f`: module `x.Goals` has no `add`", False),
    ("a fact fails beside a proof file that is unfit", f"{REFUSED}: {FACT}", True),
    ("an edit that writes no definition", f"{REFUSED}: specs/Y.antt:3:1: error: expected a type", False),
    ("a check that did not end", "NOT TRIED: its check was killed, most likely for memory, so nothing is known of it: run this again", False),
    ("a limit of the prover", f"{REFUSED}{LIMIT}: {FACT}", False),
    ("an edit of which rt says nothing", "", False),
    ("words that rt has not had so far", f"{REFUSED}, nearly", False),
]

LOG = """\
== x
fn x::f: proved
rt: x proved
rt: must-fail x/one.edit: refused, as it must be: proofs/f/Answers.antt:9:13: error: `returns`: not equal
rt: must-fail x/two.edit: BAD EDIT: it did not reach the prover; the first lines of what it said:
src/lib.rt:1:1: error: expected an item
rt: must-fail x/three.edit: refused, as it must be
rt: ok; handles allowed: none; must-fail edits: 2 refused, 1 bad
3 passed, 0 failed
"""
SAID = {
    ("x", "one"): "refused, as it must be: proofs/f/Answers.antt:9:13: error: `returns`: not equal",
    ("x", "two"): "BAD EDIT: it did not reach the prover; the first lines of what it said: | src/lib.rt:1:1: error: expected an item",
    ("x", "three"): "refused, as it must be",
}

EDITS = [
    ("one pair", "file: src/lib.rt\nold: one\nnew: two\n", "two three three\n"),
    ("a comment, and an empty new text", "why\nfile: src/lib.rt\nold: one \nnew:\n", "three three\n"),
    ("two pairs of one file", "file: src/lib.rt\nold: one\nnew: 1\nold: 1 t\nnew: T\n", "Three three\n"),
    ("an old text that is not there", "file: src/lib.rt\nold: four\nnew: two\n", None),
    ("an old text that stands twice", "file: src/lib.rt\nold: three\nnew: two\n", None),
    ("no old text", "file: src/lib.rt\nnew: two\n", None),
    ("no file of the crate", "file: src/main.rt\nold: one\nnew: two\n", None),
    ("no file named", "old: one\nnew: two\n", None),
    ("an edit of a proof", "file: proofs/f/Answers.antt\nold: one\nnew: two\n", None),
    ("a file outside the crate", "file: src/../../lib.rt\nold: one\nnew: two\n", None),
    ("no pair", "file: src/lib.rt\n", None),
]


def applied(text):
    """What an edit makes of a file, or None where it does not apply and the file is as it was."""
    with tempfile.TemporaryDirectory() as top:
        for folder in ("src", "proofs/f"):
            os.makedirs(os.path.join(top, folder))
        for name in ("src/lib.rt", "proofs/f/Answers.antt"):
            with open(os.path.join(top, name), "w", encoding="utf-8") as f:
                f.write("one three three\n")
        edit = os.path.join(top, "x.edit")
        with open(edit, "w", encoding="utf-8") as f:
            f.write(text)
        try:
            return WRONG.applied(edit, top)["src/lib.rt"]
        except WRONG.BadEdit:
            return None


CASES.expect("what rt prints of each edit", WRONG.said_of_edits(LOG) == SAID, WRONG.said_of_edits(LOG))
for what, said, counts in REFUSALS:
    found = judged(said)
    CASES.expect(f"{what}: {'passed' if counts else 'failed'}", found == ((1, 0) if counts else (0, 1)), f"passed, failed: {found}")
for what, text, want in EDITS:
    found = applied(text)
    CASES.expect(f"{what}: {want!r}", found == want, repr(found))
sys.exit(CASES.tally())
