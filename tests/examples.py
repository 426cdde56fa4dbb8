#!/usr/bin/env python3
"""Runs the examples of the program's help, of the man page and of the pages, and compares what they print.

An example is a block of lines indented by four spaces (in the man page, between .EX and .EE) with a line that begins
with `$ `: what stands behind it is run by bash, and has to print the lines below it and nothing else. The blocks of a
page are run in order in one folder, which has the folder examples/, the program as `heavy` and as bin/heavy, bin/try, a
stand-in for ssh that runs the words here, and where nfdump is installed a folder flows/ with what its nfcapd wrote of the
flows of examples/flows.csv.

Of other blocks, that of python/README.md is Python over the library for C, which is run where that was built, or all
that it stands on; Rattle in the README stands in the sources, word for word; a drawing needs nothing; and each line of any
other begins with a command, which has to be there with the options that are shown.

usage: tests/examples.py
"""
import ast
import csv
import os
import re
import shutil
import socket
import struct
import subprocess
import sys
import tempfile
import time
from pathlib import Path

import programs

# what an example may use where it is installed, by the words that tell so
TOOLS = {**{rf"\b{tool}\b": tool for tool in ("awk", "cut", "jq", "mlr", "nfdump")}, r"one_file\.sh|many_machines\.sh": "parallel", r"over_dask\.py": "dask"}
PAGES = ["README.md", *sorted(str(page.relative_to(programs.TOP)) for page in programs.TOP.glob("examples/*/README.md"))]
FENCED = re.compile(r"^```rust\n(.*?)^```$", re.MULTILINE | re.DOTALL)
SSH = '#!/bin/sh\nshift\nexec sh -c "$*"\n'
DAYS = {"monday.csv": b"10.0.0.1,5\n10.0.0.2,1\n", "tuesday.csv": b"10.0.0.1,2\n"}
# what bin/try tells before it runs the program
UNPROVED = b"heavy: nothing is proved by this run, which is slow: it compiles the program and keeps nothing; " \
    b"bin/heavy proves it\n"
# what the lines of Python over these days give
GIVEN = {
    "heavy.report('monday.csv', k=100)": "[Row(key=b'10.0.0.1', weight=5), Row(key=b'10.0.0.2', weight=1)]",
    "heavy.top('monday.csv', 10)": "[Row(key=b'10.0.0.1', weight=5), Row(key=b'10.0.0.2', weight=1)]",
    "week.ask('10.0.0.1')": "(7, 7)",
    "week.top(1)": "[Bounds(key=b'10.0.0.1', low=7, high=7)]",
    "week.heavy_hitters('1/4', certain=True)": "[Bounds(key=b'10.0.0.1', low=7, high=7)]",
    "week.heavy_hitters('1/4', certain=False)": "[Bounds(key=b'10.0.0.1', low=7, high=7)]",
    "week.confirm(records, threshold='1/4')": "[Row(key=b'10.0.0.1', weight=7)]",
    "(len(visits), visits.total, visits.slack)": "(3, 11, 0)",
    "('10.0.0.3' in visits, visits['10.0.0.2'].low)": "(True, 5)",
    "list(visits)": "['10.0.0.1', '10.0.0.2', '10.0.0.3']",
    "visits.rows()": "[Bounds(key='10.0.0.1', low=5, high=5), Bounds(key='10.0.0.2', low=5, high=5), Bounds(key='10.0.0.3', low=1, high=1)]",
    "dict(visits.items())": "{'10.0.0.1': Interval(low=5, high=5), '10.0.0.2': Interval(low=5, high=5), '10.0.0.3': Interval(low=1, high=1)}",
    "visits.confirm_items(['10.0.0.1', '10.0.0.2', '10.0.0.3'], [5, 5, 1], threshold=0.25)":
        "[Row(key='10.0.0.1', weight=5), Row(key='10.0.0.2', weight=5)]",
    "cells.estimate('10.0.0.1')": "2",
    "heavy.report(b'host bytes\\na 512\\nb -\\na 2\\n', k=1, layout=log, text=True)": "[Row(key='a', weight=514)]",
    "heavy.report(b'a,0.25\\nb,3\\n', k=1, layout=prices)": "[Row(key=b'b', weight=Decimal('3.00'))]",
    "heavy.pandas.report(frame, 'client', 'bytes', k=100)": "[['10.0.0.1', 7], ['10.0.0.2', 1]]",
    "heavy.dask.report(frames, 'client', 'bytes', k=100)": "[Row(key='10.0.0.1', weight=7), Row(key='10.0.0.2', weight=1)]",
}
# what those lines stand on, beside the days, and a frame told by its rows
BEFORE = """
import dask.dataframe, pandas
frame = pandas.DataFrame({"client": ["10.0.0.1", "10.0.0.2", "10.0.0.1"], "bytes": [5, 1, 2]})
frames = dask.dataframe.from_pandas(frame, npartitions=2)
def told(value):
    return value.values.tolist() if isinstance(value, pandas.DataFrame) else value
"""


def installed(tool: str) -> bool:
    if tool == "dask":
        words = ["/usr/bin/python3", "-c", "import distributed"]
        there = os.path.exists(words[0]) and subprocess.run(words, capture_output=True).returncode == 0
        return there and programs.has_library()
    return shutil.which(tool) is not None


def wanting(command: str) -> set[str]:
    """What a command uses that is not installed."""
    return {tool for word, tool in TOOLS.items() if re.search(word, command) and not installed(tool)}


def netflow() -> bytes:
    """The flows of examples/flows.csv, as a router reports them: a packet of NetFlow version 5."""
    with open(programs.TOP / "examples" / "flows.csv", newline="") as file:
        rows = [*csv.DictReader(file)]
    packet = struct.pack("!HHIIIIBBH", 5, len(rows), 9000, 1795328710, 0, 0, 0, 0, 0)
    for row in rows:
        addresses = socket.inet_aton(row["sa"]) + socket.inet_aton(row["da"]) + bytes(4)
        counts = struct.pack("!HHIIII", 1, 2, int(row["ipkt"]), int(row["ibyt"]), 1000, 8000)
        ends = struct.pack("!HHBBBB", int(row["sp"]), int(row["dp"]), 0, 0, getattr(socket, f"IPPROTO_{row['pr']}"), 0)
        packet += addresses + counts + ends + bytes(8)
    return packet


def capture(folder: Path) -> None:
    """Has nfcapd write the flows that it is sent into this folder."""
    folder.mkdir()
    log = folder.parent / "nfcapd.log"

    def waited(for_words: str) -> None:
        end = time.monotonic() + 60
        while for_words not in log.read_text():
            if time.monotonic() > end or nfcapd.poll() is not None:
                raise TimeoutError(f"nfcapd has not said {for_words!r}, but {log.read_text()!r}")
            time.sleep(0.05)

    with socket.socket(socket.AF_INET, socket.SOCK_DGRAM) as sender, open(log, "wb") as said:
        with socket.socket(socket.AF_INET, socket.SOCK_DGRAM) as free:
            free.bind(("127.0.0.1", 0))
            place = free.getsockname()
        words = ["nfcapd", "-b", place[0], "-p", str(place[1]), "-w", str(folder)]
        nfcapd = subprocess.Popen(words, stdin=subprocess.DEVNULL, stdout=said, stderr=said)
        try:
            waited("Startup nfcapd")
            sender.sendto(netflow(), place)
            waited("New exporter")
        finally:
            nfcapd.terminate()
            nfcapd.wait(60)


def blocks_of(text: str) -> list[list[str]]:
    """The blocks of a text that have a line to type, without the indentation."""
    blocks = re.findall(r"(?:^    .*\n?)+", FENCED.sub("", text), re.MULTILINE)
    lines = [[line[4:] for line in block.splitlines()] for block in blocks]
    return [block for block in lines if any(line.startswith("$ ") for line in block)]


def others_of(text: str) -> list[list[str]]:
    """The other blocks, each with those that only blank lines keep from it."""
    blocks = re.findall(r"^    .*\n(?:^(?:    .*)?\n(?=(?:\n*)    |\n))*(?:^    .*\n)?", FENCED.sub("", text), re.MULTILINE)
    lines = [[line[4:] for line in block.splitlines() if line] for block in blocks]
    return [block for block in lines if not any(line.startswith("$ ") for line in block)]


def man_blocks_of(page: str) -> list[list[str]]:
    blocks = re.findall(r"^\.EX\n(.*?)^\.EE$", page, re.MULTILINE | re.DOTALL)
    return [block.replace("\\-", "-").replace("\\e", "\\").splitlines() for block in blocks]


def steps_of(block: list[str]) -> list[tuple[str, str]]:
    """Each command of a block with what it prints."""
    steps: list[tuple[str, str]] = []
    for line in block:
        if line.startswith("$ "):
            steps.append((line[2:], ""))
        elif steps:
            command, printed = steps[-1]
            steps[-1] = (command, f"{printed}{line}\n")
    return steps


def faults_of(blocks: list[list[str]]) -> list[str]:
    """What the blocks of a page print that they do not show, or show and do not print."""
    faults = []
    with tempfile.TemporaryDirectory() as room:
        folder = Path(room)
        (folder / "bin").mkdir()
        (folder / "bin" / "heavy").symlink_to(programs.built("heavy_cli"))
        (folder / "bin" / "try").symlink_to(programs.TOP / "bin" / "try")
        (folder / "bin" / "ssh").write_text(SSH)
        (folder / "bin" / "ssh").chmod(0o755)
        shutil.copytree(programs.TOP / "examples", folder / "examples")
        env = {"PATH": f"{room}/bin:{os.environ['PATH']}", "HOME": room, "LC_ALL": "C"}
        if any("over_dask" in command for block in blocks for command, _ in steps_of(block)) and installed("dask"):
            programs.install_library(f"{room}/usr", programs.compilers()[0])
            env |= {"LIBHEAVY": f"{room}/usr/lib/libheavy.so.1", "PYTHONPATH": str(programs.TOP / "python")}
        if any("nfdump" in command for block in blocks for command, _ in steps_of(block)) and installed("nfdump"):
            capture(folder / "flows")
        for command, printed in (step for block in blocks for step in steps_of(block)):
            if wanting(command):
                continue
            ended = programs.run(["bash", "-c", command], env=env, cwd=room)
            said = ended.err
            if command.startswith("bin/try "):
                said = said.removeprefix(UNPROVED)
            if (ended.status, ended.out.decode(), said) != (0, printed, b""):
                faults.append(f"{command!r} gives {ended}, and shows {printed!r}")
    return faults


def pages(program: str) -> dict[str, list[list[str]]]:
    """The blocks of each page."""
    def help(*words: str) -> str:
        return programs.run([program, *words, "--help"]).out.decode()

    commands = re.search(r"^Commands:\n((?:  .*\n)+)", help(), re.MULTILINE)
    names = re.findall(r"^  ([a-z]+) ", commands[1] if commands else "", re.MULTILINE)
    texts = {"heavy --help": help(), **{f"heavy {name} --help": help(name) for name in names if name != "help"}}
    found = {page: blocks_of(text) for page, text in texts.items()}
    found["man/heavy.1"] = man_blocks_of((programs.TOP / "man" / "heavy.1").read_text())
    for page in ["docs/WALK.md", "docs/TASKS.md", *PAGES]:
        found[page] = blocks_of((programs.TOP / page).read_text())
    return found


def command_faults(line: str) -> list[str]:
    """What a line that shows a command shows that is not there."""
    words = re.split(r"\s{2,}|\s#", line)[0].split()
    options = [word for word in words if word.startswith("--")]
    name = words[0]
    if name == "rt":
        guide = Path(subprocess.run(["rt", "doc"], capture_output=True, text=True, check=True).stdout.split()[-1]).read_text()
        ended = programs.run(["rt", "help"], env=dict(os.environ))
        text = guide + ended.out.decode() + ended.err.decode()
        wanted = [f"rt {words[1]}", *options] if f"rt {words[1]}" in text else [words[1], *options]
    elif name == "dask":
        text = programs.run(["/usr/bin/python3", "-m", "dask", words[1], "--help"], env=dict(os.environ)).out.decode()
        wanted = ["Options:", *options]
    else:
        places = [programs.TOP / name, programs.TOP / "examples" / "machines" / name]
        there = [place for place in places if place.is_file()]
        text, wanted = (there[0].read_text(), options) if there else ("", [name])
    return [word for word in wanted if not re.search(rf"(?<![\w-]){re.escape(word)}(?![\w-])", text)]


def without_spaces(text: str) -> str:
    return re.sub(r",?\s+|,(?=\))", "", text)


class Examples(programs.Checks):
    """The examples of the help, of the man page and of the pages."""

    def test_pages(self) -> None:
        """Each example prints what its page shows; one that shows too much or too little is found."""
        found = pages(programs.built("heavy_cli"))
        self.check("help names commands", len(found) > 3, list(found))
        for page, blocks in found.items():
            self.check(f"{page} has examples", bool(blocks) and all(steps_of(block) for block in blocks), blocks)
            faults = faults_of(blocks)
            self.check(f"the examples of {page}", not faults, "; ".join(faults))
            for command in (step[0] for block in blocks for step in steps_of(block) if wanting(step[0])):
                with self.subTest(command):
                    self.skipTest(f"wants {', '.join(wanting(command))}")
        drifted = [[*block, "one line more"] for block in found["heavy --help"]]
        self.check("an example that shows too much", faults_of(drifted), "not found")
        drifted = [block[:1] for block in found["heavy --help"]]
        self.check("an example that shows too little", faults_of(drifted), "not found")

    def test_commands(self) -> None:
        """What the pages show beside examples."""
        for page in ["CONTRIBUTING.md", *PAGES]:
            for block in others_of((programs.TOP / page).read_text()):
                if any("──" in line for line in block):
                    continue
                for line in block:
                    with self.subTest(line):
                        if line.startswith("dask ") and not installed("dask"):
                            self.skipTest("wants dask")
                        faults = command_faults(line)
                        self.assertFalse(faults, f"{page}: {faults}")
        for line in ("rt chekc", "rt check --onyl PATH", "tests/run --onyl", "tests/runs", "over_dask.py --schedluer A"):
            self.check(f"{line!r} is not found to be there", command_faults(line))

    def test_measurements(self) -> None:
        """The tables of bench/README.md are those of the files in bench/results."""
        ended = programs.run([sys.executable, "-B", str(programs.TOP / "bench" / "measured.py")], env=dict(os.environ))
        self.check("the tables of bench/README.md", ended.status == 0, ended)

    def test_rattle(self) -> None:
        """The README's Rattle stands in the sources."""
        shown = FENCED.findall((programs.TOP / "README.md").read_text())
        sources = "".join(without_spaces(path.read_text()) for path in sorted(programs.TOP.glob("crates/*/src/**/*.rt")))
        self.check("the README has Rattle", len(shown) == 1, shown)
        for text in shown:
            self.check("the README's Rattle is in the sources", without_spaces(text) in sources, text)
            drifted = text.replace("≢", "≡")
            self.check("Rattle that is not in the sources", without_spaces(drifted) not in sources, drifted)

    def test_python(self) -> None:
        """The lines of Python of python/README.md, each with what it gives."""
        blocks = [block for block in others_of((programs.TOP / "python" / "README.md").read_text()) if "import heavy" in block]
        self.check("python/README.md has lines of Python", len(blocks) == 3, blocks)
        shown = ast.parse("\n".join(line for block in blocks for line in block)).body
        values = [ast.unparse(step) for step in shown if isinstance(step, ast.Expr)]
        changing = {value for value in values if value.startswith(("visits.update", "cells.update"))}
        self.check("each is one that is compared", {*values} - changing == {*GIVEN}, {*values} - changing ^ {*GIVEN})
        python = programs.python_with("pandas", "dask.dataframe")
        if not programs.has_library() or not python:
            self.skipTest("the lines of Python want the library for C, pandas and dask")
        with tempfile.TemporaryDirectory() as room:
            ended = programs.install_library(f"{room}/usr", programs.compilers()[0])
            self.check("the library for C is there", ended.status == 0, ended)
            for name, text in DAYS.items():
                Path(room, name).write_bytes(text)
            saved = programs.run([programs.built("heavy_cli"), "summarise", "--k", "100"], DAYS["tuesday.csv"]).out
            Path(room, "tuesday.heavy").write_bytes(saved)
            steps = [f"print(repr(told({ast.unparse(s)})))" if isinstance(s, ast.Expr) else ast.unparse(s) for s in shown]
            program = "\n".join([BEFORE, f"records = {b''.join(DAYS.values())!r}", *steps])
            env = {**os.environ, "LIBHEAVY": f"{room}/usr/lib/libheavy.so.1", "PYTHONPATH": str(programs.TOP / "python")}
            ended = programs.run([python, "-B", "-c", program], env=env, cwd=room)
            printed = dict(zip(values, ended.out.decode().splitlines()))
            self.check("the lines of Python", ended.status == 0, ended)
            for value, given in GIVEN.items():
                self.check(f"{value} of python/README.md", printed.get(value) == given, printed.get(value))


if __name__ == "__main__":
    programs.run_tests("examples")
