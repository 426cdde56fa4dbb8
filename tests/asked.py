#!/usr/bin/env python3
"""Tells whether each wrong body that tests/asked.txt names is there, changes code by one fault, and was refused by a clause: so
that none is struck, weakened or refused for another reason to pay for something else. All others have to change code that
is there, too. What the prover said of the edits stands in the log of `rt ci` that .ci/run names in HEAVY_GATE_LOG; where there
is none, that part is skipped.

usage: tests/asked.py
"""
import os
import re
import shutil
import unittest
from pathlib import Path

import programs

ASKED = programs.TOP / "tests" / "asked.txt"
LOG = os.environ.get("HEAVY_GATE_LOG", "")
SAID = r"^(?:rt: )?must-fail {name}\.edit: (.*)$"


def names_in(text: str) -> list[str]:
    """The edits that the lines of a list begin with, as crate/name."""
    return [line.split()[0] for line in text.splitlines() if line.strip() and not line.startswith("#")]


def path_of(name: str, top: Path) -> Path:
    """Where the edit of this name stands."""
    crate, edit = name.split("/")
    return top / "crates" / crate / "must-fail" / f"{edit}.edit"


def why_bad(name: str, top: Path, room: str) -> str:
    """Why the edit is none that counts: it is missing, it changes no code, or it can't be applied; else an empty text."""
    edit = path_of(name, top)
    if not edit.is_file():
        return "it isn't there"
    files = re.findall(r"^file: (.*)$", edit.read_text(), re.MULTILINE)
    if not files or not all(it.startswith("src/") for it in files):
        return "it changes something else than code"
    copy = Path(room, name)
    shutil.copytree(edit.parent.parent / "src", copy / "src")
    applied = programs.run([str(programs.TOP / "bin" / "apply-edit"), str(edit), str(copy)], env=dict(os.environ))
    return applied.err.decode() if applied.status else ""


def why_not_refused(name: str, log: str) -> str:
    """What speaks against a clause having refused the edit, by the log of a run; else an empty text."""
    said = re.findall(SAID.format(name=re.escape(name)), log, re.MULTILINE)
    if not said:
        return "the run didn't try it"
    if not all(it.startswith("refused, as it must be") for it in said):
        return said[0]
    return next((it for it in said if "as it must be (only" in it), "")


class Asked(programs.Checks):
    """The wrong bodies that were asked for by name."""

    def test_edits(self) -> None:
        names = names_in(ASKED.read_text())
        self.check("there are names", len(names) > 40, names)
        self.check("each stands once", len(set(names)) == len(names), names)
        for name in names:
            why = why_bad(name, programs.TOP, self.room)
            self.check(name, not why, why)

    def test_all_edits(self) -> None:
        """Each edit of the repository can be applied: what it changes stands there once."""
        edits = sorted(programs.TOP.glob("crates/*/must-fail/*.edit"))
        self.check("there are edits", len(edits) > 100, len(edits))
        for edit in edits:
            name = f"{edit.parent.parent.name}/{edit.stem}"
            why = why_bad(name, programs.TOP, self.room)
            self.check(name, not why, why)

    @unittest.skipUnless(LOG, "wants the log of rt ci, which .ci/run names")
    def test_refusals(self) -> None:
        log = Path(LOG).read_text(errors="replace")
        for name in names_in(ASKED.read_text()):
            why = why_not_refused(name, log)
            self.check(name, not why, why)

    def test_faults(self) -> None:
        """One that is struck, changes a proof, can't be applied, or isn't refused by a clause is found."""
        crate = Path(self.room, "top", "crates", "a")
        for part in ("src", "must-fail"):
            (crate / part).mkdir(parents=True)
        (crate / "src" / "lib.rt").write_text("let one = 1;\n")
        for name, text in (
            ("good", "file: src/lib.rt\nold: 1\nnew: 2\n"), ("proof", "file: proofs/A.antt\nold: 1\nnew: 2\n"),
            ("stale", "file: src/lib.rt\nold: 3\nnew: 2\n"),
        ):
            (crate / "must-fail" / f"{name}.edit").write_text(text)
        top = Path(self.room, "top")
        for name, wanted in (("good", ""), ("struck", "it isn't there"), ("proof", "else than code"), ("stale", "0 times")):
            why = why_bad(f"a/{name}", top, self.room)
            self.check(name, (wanted in why) if wanted else not why, why)
        line = "rt: must-fail a/b.edit: refused, as it must be"
        for log, wanted in (
            (f"{line}: note: src/lib.rt:1:1: it is not proved\n", ""), ("", "didn't try"), (f"{line} (only because a proof file names\n", "(only"),
            ("rt: must-fail a/b.edit: BAD EDIT: no\n", "BAD"), ("rt: must-fail a/b.edit: NOT REFUSED: still proved\n", "NOT"),
            (f"{line} (only by a limit of the prover\n", "(only"), ("rt: must-fail a/bb.edit: refused, as it must be\n", "didn't try"),
        ):
            why = why_not_refused("a/b", log)
            self.check(log or "no line", (wanted in why) if wanted else not why, why)


if __name__ == "__main__":
    programs.run_tests("asked")
