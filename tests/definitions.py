#!/usr/bin/env python3
"""docs/DEFINITIONS.md is made of the definitions in specs/: the words that the contracts cite, each with the comment above
it, crate by crate and file by file. Compares the page with the definitions, or writes it.

usage: tests/definitions.py [--write]
"""
import re
import sys
from dataclasses import dataclass
from pathlib import Path

import programs

PAGE = programs.TOP / "docs" / "DEFINITIONS.md"
HEAD = """# Definitions

What the contracts cite, crate by crate and file by file. Numbers are whole numbers without a bound, and a key is the
list of its bytes. This page is made of the comments above the definitions, by `tests/definitions.py --write`, and the
gate compares them.
"""
DEFINITION = re.compile(r"^(?:abbrev pub|unfoldable pub|pub (?:record|data)|pub)\s+([^\s:({]+)", re.MULTILINE)
COMMENT = re.compile(r"^-- ?(.*)$")
# (what a definition is, what it becomes): each is a drift that has to be found
DRIFTS = [("-- the largest total weight", "-- the largest total weights"), ("abbrev pub max_total", "abbrev pub most_total")]


@dataclass
class Definition:
    name: str
    meaning: str


def crates() -> list[str]:
    """The crates in the order of docs/LAYERS.md, the lowest first."""
    rows = re.findall(r"^\| `(\w+)` \|", (programs.TOP / "docs" / "LAYERS.md").read_text(), re.MULTILINE)
    return [name for name in rows if (programs.TOP / "crates" / name / "specs").is_dir()]


def comment_above(lines: list[str], at: int) -> str:
    """The comment that ends right above a line."""
    words: list[str] = []
    while at > 0 and (found := COMMENT.match(lines[at - 1])):
        words.insert(0, found[1].strip())
        at -= 1
    return " ".join(words)


def definitions_of(text: str) -> list[Definition]:
    """The public definitions of a file. One without a comment belongs to the one above it."""
    lines, found = text.splitlines(), []
    for at, line in enumerate(lines):
        if named := DEFINITION.match(line):
            found.append(Definition(named[1], comment_above(lines, at)))
    return found


def rows_of(definitions: list[Definition]) -> list[str]:
    """A row for each definition; those without a comment stand in the row above them."""
    rows: list[tuple[list[str], str]] = []
    for it in definitions:
        if it.meaning or not rows:
            rows.append(([], it.meaning))
        rows[-1][0].append(f"`{it.name}`")
    return [f"| {', '.join(names)} | {meaning.replace('|', chr(92) + '|')} |" for names, meaning in rows]


def page_of(texts: dict[str, dict[str, str]]) -> str:
    """The page of each crate's files by their names."""
    parts = [HEAD]
    for crate, files in texts.items():
        parts.append(f"\n## {crate}\n")
        for name, text in files.items():
            if found := definitions_of(text):
                head = comment_above(["", *text.splitlines(), ""], 1 + len(re.match(r"(?:--.*\n)*", text)[0].splitlines()))
                parts.append(f"\n### {name}\n\n{head}\n\n| word | meaning |\n|---|---|\n" + "\n".join(rows_of(found)) + "\n")
    return "".join(parts)


def texts_now() -> dict[str, dict[str, str]]:
    found = {}
    for crate in crates():
        folder = programs.TOP / "crates" / crate / "specs"
        files = sorted(path for path in folder.rglob("*.antt") if path.name != "Lib.antt")
        found[crate] = {path.stem: path.read_text() for path in files}
    return found


class Definitions(programs.Checks):
    """The page beside the definitions."""

    def test_page(self) -> None:
        texts = texts_now()
        same = PAGE.read_text() == page_of(texts)
        self.check("docs/DEFINITIONS.md is as tests/definitions.py --write makes it", same, "not so")

    def test_drifts(self) -> None:
        texts = texts_now()
        weights = texts["hh_stream"]["Weights"]
        for old, new in DRIFTS:
            self.check(f"{old!r} stands once", weights.count(old) == 1, weights.count(old))
            drifted = {**texts, "hh_stream": {**texts["hh_stream"], "Weights": weights.replace(old, new)}}
            self.check(f"{new!r} is found", page_of(drifted) != PAGE.read_text(), "not found")


if __name__ == "__main__":
    if sys.argv[1:] == ["--write"]:
        PAGE.write_text(page_of(texts_now()))
    else:
        programs.run_tests("definitions")
