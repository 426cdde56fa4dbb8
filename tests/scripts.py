#!/usr/bin/env python3
"""Reads the repository's own shell scripts by shellcheck, and tries .ci/run, tests/run and .ci/setup by stand-ins: what they
count, how many provers run, what is installed, and that a part which can't be had fails the gate where CI is set; and what
.ci/budget finds over the budget. Looks that tests/run has all scripts of this folder, and that each can be run by its name.
Counts the phrases of tests/words.txt in the pages and in the comments of the crates' code.

usage: tests/scripts.py
"""
import contextlib
import io
import os
import re
import shutil
import subprocess
import unittest
from importlib.machinery import SourceFileLoader
from importlib.util import module_from_spec, spec_from_loader
from pathlib import Path

import programs

# Debian's packages of stand-ins: apt-get notes its words, and has what the file `registry` names.
APT = """#!/bin/bash
echo "$*" >> "$ROOM/asked"
case " $* " in *" update "*) exit 0 ;; esac
for word; do
  case $word in
    -* | *=* | install | update) ;;
    *) grep -qx "$word" "$ROOM/registry" || { echo "E: no package $word" >&2; exit 100; } ;;
  esac
done
for word; do case $word in strace) cp "$ROOM/apt/apt-get" "$ROOM/apt/strace" ;; esac; done
"""


def shell_scripts() -> list[str]:
    """The scripts of a shell that git knows, or that are new."""
    words = ["git", "ls-files", "--cached", "--others", "--exclude-standard"]
    listed = subprocess.run(words, cwd=programs.TOP, capture_output=True, text=True, check=True).stdout.split("\n")
    files = [name for name in listed if name and (programs.TOP / name).is_file()]
    return [name for name in files if (programs.TOP / name).read_bytes()[:30].startswith((b"#!/bin/sh", b"#!/usr/bin/env bash"))]


def paragraph(text: str) -> str:
    """The text in one line."""
    return " ".join(text.split())


def pages() -> list[str]:
    """The pages outside crates/, each in one line. What CHANGELOG.md says of a release stays as it was, and is left out."""
    tops = [path for path in programs.TOP.iterdir() if path.name not in ("crates", ".git")]
    found = [file for top in tops for file in [top, *top.rglob("*.md")] if file.suffix == ".md"]
    files = [file for file in found if "out" not in file.relative_to(programs.TOP).parts]
    return [paragraph(re.split(r"^## \[\d", file.read_text(), flags=re.MULTILINE)[0]) for file in files]


def comments_of(text: str) -> list[str]:
    """The doc comments of a file of Rattle, each in one line."""
    blocks = re.findall(r"(?:^ *//[/!].*\n)+", text, re.MULTILINE)
    return [paragraph(re.sub(r"^ *//[/!]", "", block, flags=re.MULTILINE)) for block in blocks]


def times(phrase: str, texts: list[str]) -> int:
    """How often a phrase stands in texts, as whole words, in capitals or not."""
    return sum(len(re.findall(rf"\b{re.escape(phrase)}\b", text, re.IGNORECASE)) for text in texts)


class Scripts(programs.Checks):
    """The scripts that build, install and test."""

    @unittest.skipUnless(shutil.which("shellcheck") and (programs.TOP / ".git").exists(), "wants shellcheck, and a clone")
    def test_shellcheck(self) -> None:
        names = shell_scripts()
        self.check("there are scripts", len(names) > 10, names)
        ended = subprocess.run(["shellcheck", "-x", *names], cwd=programs.TOP, capture_output=True, text=True)
        self.check("shellcheck finds nothing", ended.returncode == 0, ended.stdout)

    def test_words(self) -> None:
        """A phrase that was mended doesn't come back: it stands at most as often as tests/words.txt says."""
        sources = (programs.TOP / "crates").glob("*/src/**/*.rt")
        texts = {"pages": pages(), "comments": [it for file in sources for it in comments_of(file.read_text())]}
        lines = (programs.TOP / "tests" / "words.txt").read_text().splitlines()
        rows = [line.split(maxsplit=2) for line in lines if not line.startswith("#")]
        self.check("there are phrases, pages and comments", rows and len(texts["pages"]) > 10 and len(texts["comments"]) > 500)
        for *most, phrase in rows:
            for (place, there), allowed in zip(texts.items(), map(int, most)):
                found = times(phrase, there)
                self.check(f"{phrase!r} in the {place}", found <= allowed, f"{found} times, and {allowed} are allowed")
        planted = comments_of("/// So\n    /// many, so manyfold.\nlet a = \"so many\";\n/// Or so\n\n/// many\n")
        self.check("a phrase over two lines", times("so many", planted) == 1, planted)

    def run_gate(self, env: dict[str, str], proofs: str, tests: str, setup: int, status: int = 0) -> programs.Ended:
        """The gate over stand-ins that print these closing lines, with a setup that ends so, and proofs and tests that end so."""
        top = Path(self.room, "gate")
        for name, text in (
            (".ci/budget", f"echo \"$RT_JOBS provers\"; echo '{proofs}'; exit {status}"),
            ("bin/test", f"echo '{tests}'; exit {status}"), (".ci/setup", f"echo set up; exit {setup}"),
        ):
            (top / name).parent.mkdir(parents=True, exist_ok=True)
            (top / name).write_text(f"#!/bin/sh\n{text}\n")
            (top / name).chmod(0o755)
        for name in (".ci/run", "bin/build.bash"):
            (top / name).parent.mkdir(exist_ok=True)
            shutil.copy(programs.TOP / name, top / name)
        return programs.run([str(top / ".ci" / "run")], env={"PATH": os.environ["PATH"], **env})

    def test_gate(self) -> None:
        """What the gate's last line adds up, and when it sets the machine up."""
        for name, env, proofs, tests, setup, wanted in [
            ("all is well", {}, "100 passed, 0 failed", "20 passed, 0 failed, 0 skipped", 1, (0, b"120 passed, 0 failed, 0 skipped")),
            ("in CI", {"CI": "true"}, "100 passed, 0 failed", "20 passed, 0 failed, 0 skipped", 0, (0, b"120 passed, 0 failed, 0 skipped")),
            ("skipped", {}, "100 passed, 0 failed", "20 passed, 0 failed, 7 skipped", 0, (0, b"120 passed, 0 failed, 7 skipped")),
            ("failed", {}, "90 passed, 10 failed", "18 passed, 2 failed, 0 skipped", 0, (0, b"108 passed, 12 failed, 0 skipped")),
            ("a part is missing in CI", {"CI": "1"}, "100 passed, 0 failed", "20 passed, 0 failed, 1 skipped", 1,
             (1, b"120 passed, 1 failed, 1 skipped")),
        ]:
            ended = self.run_gate(env, proofs, tests, setup)
            last = ended.out.splitlines()[-1]
            self.check(name, (ended.status, last) == wanted, ended)
            self.check(f"setting up: {name}", ended.out.startswith(b"set up\n") == ("CI" in env), ended.out)
        for name, proofs, tests, wanted in [
            ("both parts fail", "90 passed, 10 failed", "18 passed, 2 failed, 0 skipped", b"108 passed, 12 failed, 0 skipped"),
            ("both fail untold", "cut off", "the build failed", b"0 passed, 2 failed, 0 skipped"),
        ]:
            ended = self.run_gate({}, proofs, tests, 0, status=1)
            self.check(name, (ended.status, ended.out.splitlines()[-1]) == (1, wanted), ended)

    def test_dates(self) -> None:
        """What `rt ci` proved and built counts as built from its sources, whatever dates it left, unless it failed."""
        top = Path(self.room, "gate")
        places = ["one/src/lib.rt", "one/out/rlib/one.rlib/format", "two/src/main.rt", "two/out/two"]
        for place in places:
            (top / "crates" / place).parent.mkdir(parents=True)
            (top / "crates" / place).write_text("")
        (top / "crates.txt").write_text("one:\ntwo: one\n")
        for status, wanted in [(1, [places[1], places[3]]), (0, [])]:
            for place in places:
                os.utime(top / "crates" / place, (10**9 - 9, 10**9 - 9) if "/out/" in place else None)
            self.run_gate({}, "1 passed, 0 failed", "1 passed, 0 failed, 0 skipped", 0, status)
            times = {place: (top / "crates" / place).stat().st_mtime for place in places}
            sources = max(time for place, time in times.items() if "/src/" in place)
            old = [place for place, time in times.items() if "/out/" in place and time < sources]
            self.check(f"what is older than its sources behind rt ci with status {status}", old == wanted, times)

    def test_provers(self) -> None:
        """How many provers the gate runs at once: no more than there are processors, or as many as it is asked for."""
        for env, allowed in [({}, range(1, len(os.sched_getaffinity(0)) + 1)), ({"RT_JOBS": "90"}, [90])]:
            ended = self.run_gate(env, "1 passed, 0 failed", "1 passed, 0 failed, 0 skipped", 0)
            number, _, said = ended.out.partition(b" ")
            self.check(f"provers by {env}", int(number) in allowed and said.startswith(b"provers\n"), ended)

    def test_budget(self) -> None:
        """What is over the budget, on a machine of any speed."""
        loader = SourceFileLoader("budget", str(programs.TOP / ".ci" / "budget"))
        budget = module_from_spec(spec_from_loader("budget", loader))
        loader.exec_module(budget)
        allowed = {(f"crate{number}", "edits"): 4.0 for number in range(20)}
        slow = {part: 8.0 for part in allowed}
        few = dict(list(allowed.items())[:8])
        for name, run, crate7, minute, total, is_over in [
            ("a machine of the budget's speed", allowed, 5.5, "1.00", "81.5", "5.5 of 4.0"),
            ("one of half the speed", slow, 11.0, "2.00", "81.5", "11.0 of 8.0"),
            ("one of half the speed, within the budget", slow, 8.5, "2.00", "80.2", None),
            ("a run of few parts", few, 11.0, "1.00", "39.0", "11.0 of 4.0"),
        ]:
            wanted = [f"takes {minute} here, so this is {total} minutes of the budget\n"]
            wanted += [f"over the budget: crate7, edits: {is_over}\n"] if is_over else []
            out = io.StringIO()
            with contextlib.redirect_stdout(out):
                budget.tell({**run, ("crate7", "edits"): crate7}, allowed)
            said = out.getvalue()
            self.check(name, said.endswith("".join(wanted)), said)

    def test_listed(self) -> None:
        """tests/run has each script of this folder, as often as it is there, and each of them can be run by its name."""
        folder = programs.TOP / "tests"
        listed = programs.run([str(folder / "run"), "--list"], env=dict(os.environ)).out.decode().splitlines()
        texts = {file: file.read_text() for file in folder.glob("*.py")}
        found = {file for file, text in texts.items() if text.startswith("#!") or '__name__ == "__main__"' in text}
        # it runs one of the others
        names = sorted(file.name for file in found if file.name != "on_static.py")
        self.check("tests/run has all scripts", sorted(line.split()[0] for line in listed) == names, (listed, names))
        wrong = [file.name for file in found if not (os.access(file, os.X_OK) and texts[file].startswith("#!/usr/bin/env python3\n"))]
        self.check("each can be run by its name", wrong == [], wrong)

    def test_run(self) -> None:
        """What tests/run counts of what scripts print and end with, and what it hands to them."""
        top = Path(self.room, "tests")
        top.mkdir()
        run, env = str(top / "run"), dict(os.environ)
        shutil.copy(programs.TOP / "tests" / "run", run)
        for name, status, line in [
            ("good.py", 0, "good: 3 passed, 0 failed, 1 skipped"), ("bad.py", 1, "bad: 2 passed, 1 failed, 0 skipped"),
            ("none.py", programs.SKIPPED, "none: 0 passed, 0 failed, 2 skipped"),
        ]:
            (top / name).write_text(f"import sys\nprint(sys.argv[1:])\nprint('{line}')\nsys.exit({status})\n")
        for words, handed, wanted in [
            (["good.py"], b"[]", (0, b"1 passed, 0 failed, 1 skipped")),
            (["good.py", "none.py"], b"[]", (0, b"1 passed, 0 failed, 3 skipped")),
            (["good.py", "bad.py", "none.py"], b"[]", (1, b"1 passed, 1 failed, 3 skipped")),
            (["good.py 7", "--only", "a", "b"], b"['7', '--only', 'a', 'b']", (0, b"1 passed, 0 failed, 1 skipped")),
        ]:
            ended = programs.run([run, *words], env=env)
            lines = ended.out.splitlines()
            self.check(f"tests/run of {words}", (ended.status, lines[-1], lines[0]) == (*wanted, handed), ended)
        ended = programs.run([run, "--list", "good.py 7", "bad.py"], env=env)
        self.check("what would be run", (ended.status, ended.out) == (0, b"good.py 7\nbad.py\n"), ended)
        for words in (["no.py"], ["--onyl", "a"], ["--only", "a"], ["good.py", "--only"]):
            ended = programs.run([run, *words], env=env)
            self.check(f"wrong words: {words}", (ended.status, ended.out) == (2, b"") and ended.err, ended)

    @unittest.skipUnless(os.geteuid() == 0, "installing wants root")
    def test_setup(self) -> None:
        """What is missing is asked for, and what can't be had is told. One command is hidden, which the stand-in has or not."""
        tools = Path(self.room, "apt")
        tools.mkdir()
        (tools / "apt-get").write_text(APT)
        (tools / "apt-get").chmod(0o755)
        for folder in ("/usr/local/sbin", "/usr/local/bin", "/usr/sbin", "/usr/bin", "/sbin", "/bin"):
            for file in Path(folder).glob("*"):
                if file.name not in ("strace", "apt-get") and not (tools / file.name).exists():
                    (tools / file.name).symlink_to(file)
        env = {"PATH": str(tools), "ROOM": self.room}
        setup = str(programs.TOP / ".ci" / "setup")
        Path(self.room, "registry").write_text("")
        ended = programs.run([setup], env=env)
        last = ended.out.splitlines()[-1]
        told = last.startswith(b"setup: missing: ") and b" strace" in b" " + last.removeprefix(b"setup: missing:")
        self.check("a registry without it", ended.status == 1 and told, ended)
        Path(self.room, "registry").write_text("strace\n")
        programs.run([setup], env=env)
        asked = Path(self.room, "asked").read_text()
        self.check("it is asked for by its name", " strace" in asked and "update" in asked, asked)
        self.check("it is there then", (tools / "strace").exists(), asked)


if __name__ == "__main__":
    programs.run_tests("scripts")
