#!/usr/bin/env python3
"""Checks a crate of one function by bin/check, in a repository that has that crate alone: the crate, an edit that the
prover refuses, one that it doesn't, one that can't be applied, and wrong words. And looks at what bin/try hands to
`rt try`, by a stand-in.

usage: tests/check_try.py
"""
import os
import shutil
import subprocess
import unittest
from pathlib import Path

import programs

CRATE = "small"
FUNCTION = b"fn small::lesser"
LESSER = """//! The lesser of two numbers.
#![tactic(auto)]

ghost use Rattle.std.specs.Prelude.{◌≡◌, ◌≤◌, ◌⊎◌};

/// Gives the lesser of two numbers.
pub fn lesser(one: u64, other: u64) -> u64
    ensures is_least { (result ≤ one) × (result ≤ other) }
    ensures is_one { (result ≡ one) ⊎ (result ≡ other) }
{
    if one < other {
        return one;
    }
    other
}
"""
# an edit that the clause refuses, one that changes nothing of what the crate does, and one whose text stands nowhere
EDITS = {
    "greater": "file: src/lib.rt\nold: return one;\nnew: return other;\n",
    "harmless": "file: src/lib.rt\nold: if one < other\nnew: if one <= other\n",
    "gone": "file: src/lib.rt\nold: no such text\nnew: another\n",
}
# A source, and what is changed in it, each with the function around it, if there is one.
SOURCE = """use std::fmt;

const TEXT: &str = "a";

pub fn first() -> u8 {
    1
}

impl<'a, T: Ord> Holder<'a, T> {
    pub(crate) const fn second(&self) -> u8 {
        2
    }
}

unsafe impl<T> fmt::Display for Holder<'_, T> {
    fn fmt(&self) -> u8 {
        3
    }
}

fn last() -> u8 {
    4
}
"""
CHANGES = {
    '"a"': [], "    1": ["crate::file::first"], "pub fn first": ["crate::file::first"], "        2": ["crate::file::Holder::second"],
    "        3": ["crate::file::HolderDisplay::fmt"], "    4": ["crate::file::last"], "use std::fmt": [],
}
# Notes its words, and the files that it is given.
RT = """#!/bin/sh
[ "$1" != doc ] || { echo "$KIT"; exit; }
pwd >> "$ROOM/said"
for word; do echo "$word" >> "$ROOM/said"; done
cat > "$ROOM/input"
echo "planted" >&2
echo "run=ended status=3 runners=1 races=unchecked proved=no" >&2
echo "a,6"
exit 3
"""


class Check(programs.Checks):
    """bin/check, over one crate that stands on no other of the repository."""

    def setUp(self) -> None:
        super().setUp()
        self.top = Path(self.room, "copy")
        shutil.copytree(programs.TOP / "bin", self.top / "bin")
        self.crate = self.top / "crates" / CRATE
        for folder in ("src", "must-fail"):
            (self.crate / folder).mkdir(parents=True)
        self.source = self.crate / "src" / "lib.rt"
        self.source.write_text(LESSER)
        (self.top / "crates.txt").write_text(f"{CRATE}:\n")

    def run_check(self, *words: str) -> programs.Ended:
        return programs.run([str(self.top / "bin" / "check"), *words], env=dict(os.environ))

    def test_check(self) -> None:
        """A crate is proved; the next check of it takes what that kept; a fault in a body is told with its clause."""
        ended = self.run_check(CRATE)
        self.check("a first check", ended.status == 0 and b"heavy: small is proved, " in ended.err, ended)
        self.check("what is proved is not listed", b"\nfn " not in ended.out, ended.out)
        self.check("it finds nothing kept", b"modules loaded=0 " in ended.out, ended.out)
        ended = self.run_check(CRATE)
        self.check("the next takes what was kept", ended.status == 0 and b" checked=0\n" in ended.out, ended)
        for name, text in EDITS.items():
            (self.crate / "must-fail" / f"{name}.edit").write_text(text)
        ended = self.run_check(CRATE, "--edit", "greater")
        told = b"greater.edit: refused, as it must be" in ended.err and b"1 refused, 0 not" in ended.err
        self.check("an edit is refused", ended.status == 0 and told, ended)
        self.check("by a clause of its function", FUNCTION in ended.out and b"is_least" in ended.out, ended.out)
        ended = self.run_check(CRATE, "--edit", "harmless")
        self.check("one that isn't", ended.status == 1 and b"harmless.edit: NOT REFUSED" in ended.err, ended)
        ended = self.run_check(CRATE, "--edit", "gone")
        self.check("one that can't be applied", ended.status == 1 and b"0 times, and not once" in ended.err, ended)
        ended = self.run_check(CRATE)
        self.check("edits leave the crate's work", ended.status == 0 and b" checked=0\n" in ended.out, ended)
        self.source.write_text(LESSER.replace("return one;", "return other;"))
        ended = self.run_check(CRATE, "--only", "small::lesser")
        told = FUNCTION in ended.out and b"is_least" in ended.out
        self.check("a fault is told", ended.status == 1 and told and b"is NOT proved" in ended.err, ended)

    @unittest.skipUnless(shutil.which("git"), "what the last commit has wants git")
    def test_changed_functions(self) -> None:
        """The functions around what is changed in a source, by the names that the prover knows them by."""
        folder = self.top / "crates" / "crate" / "src"
        folder.mkdir(parents=True)
        for name in ("file.rt", "lib.rt"):
            (folder / name).write_text(SOURCE)
        changed = [str(self.top / "bin" / "changed-functions"), "crate"]
        ended = programs.run(changed, env=dict(os.environ))
        self.check("without a commit", (ended.status, ended.out) == (0, b""), ended)
        git = ["git", "-c", "user.name=A", "-c", "user.email=a@b.example"]
        for words in (["init", "-q"], ["add", "-A"], ["commit", "-q", "-m", "A commit"]):
            subprocess.run([*git, *words], cwd=self.top, check=True, capture_output=True)
        for text, names in CHANGES.items():
            (folder / "file.rt").write_text(SOURCE.replace(text, f"{text} // changed", 1))
            ended = programs.run(changed, env=dict(os.environ))
            self.check(f"around {text!r}", (ended.status, ended.out.decode().split()) == (0, names), ended)
        (folder / "file.rt").write_text(SOURCE)
        (folder / "lib.rt").write_text(SOURCE.replace("4", "5").replace("1", "6"))
        ended = programs.run(changed, env=dict(os.environ))
        self.check("in a root file", ended.out == b"crate::first\ncrate::last\n", ended)

    def test_usage(self) -> None:
        for words in ([], ["--edit"], ["no_crate"], [CRATE, "--edit"], [CRATE, "--jobs", "0"], [CRATE, "--edit", "nowhere"]):
            ended = self.run_check(*words)
            self.check(f"usage: {words}", ended.status == 2 and ended.err.startswith(b"heavy: "), ended)


class Try(programs.Checks):
    """bin/try, by a stand-in of rt."""

    def test_words(self) -> None:
        folder = Path(self.room, "a folder")
        for file in ("four.csv", "x=1.csv", "below/four.csv", "stdin"):
            (folder / file).parent.mkdir(parents=True, exist_ok=True)
            (folder / file).write_text("a,1\n")
        tools = Path(self.room, "tools")
        tools.mkdir()
        (tools / "rt").write_text(RT)
        (tools / "rt").chmod(0o755)
        env = {**os.environ, "ROOM": self.room, "KIT": self.room, "PATH": f"{tools}:{os.environ['PATH']}"}
        words = ["report", "--k", "2", "four.csv", "--plan=below/four.csv", "x=1.csv", str(folder / "four.csv"), "stdin", "nofile"]
        given = ["report", "--k", "2", "four.csv", "--plan=below/four.csv", "file3", "file4", "file5", "nofile"]
        names = {"four.csv": "four.csv", "below/four.csv": "below/four.csv", "file3": "x=1.csv", "file4": "four.csv", "file5": "stdin"}
        ended = programs.run([str(programs.TOP / "bin" / "try"), *words], b"b,2\n", env, cwd=folder)
        said = Path(self.room, "said").read_text().splitlines()
        data = [word for name, file in names.items() for word in ("--data", f"{name}={folder / file}")]
        self.check("the words", said == [str(programs.TOP / "crates" / "heavy_cli"), "try", *data, "--", *given], said)
        self.check("standard input", Path(self.room, "input").read_bytes() == b"b,2\n")
        self.check("status and output", (ended.status, ended.out) == (3, b"a,6\n"), ended)
        self.check("what it tells", b"nothing is proved by this run, which is slow" in ended.err, ended.err)
        self.check("what the program tells", ended.err.endswith(b"planted\n") and b"run=ended" not in ended.err, ended.err)
        ended = programs.run([str(programs.TOP / "bin" / "try")], env=env)
        self.check("no words", ended.status == 2 and b"usage: bin/try WORD.." in ended.err, ended)


if __name__ == "__main__":
    programs.run_tests("check_try")
