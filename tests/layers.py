#!/usr/bin/env python3
"""docs/LAYERS.md has a row for each crate of crates.txt, in its order: what may stand in it, by hand, and what it stands right
on, which is made of crates.txt. Compares the table with crates.txt, or writes it.

usage: tests/layers.py [--write]
"""
import re
import sys

import programs

PAGE = programs.TOP / "docs" / "LAYERS.md"
ROW = re.compile(r"^\| `(\w+)` \| (.*) \| .* \|$", re.MULTILINE)
ROWS = re.compile(r"(?:^\| `.*\n)+", re.MULTILINE)
# (what a line of crates.txt or of the page is, what it becomes): each is a drift that has to be found
DRIFTS_OF_CRATES = [("hh_summaries: hh_stream", "hh_summaries:"), ("hh_shared:", "hh_new:\nhh_shared:")]
DRIFTS_OF_PAGE = [("| `atomic_table` |", "| none |"), ("| `hh_shared` |", "| `hh_share` |")]


def crates_of(text: str) -> dict[str, list[str]]:
    """Each crate of crates.txt with those that it uses."""
    lines = [line.partition(":") for line in text.splitlines()]
    return {head.split()[0]: words.split() for head, _, words in lines}


def below(name: str, crates: dict[str, list[str]]) -> set[str]:
    """All that a crate uses, and what that uses."""
    used = crates.get(name, [])
    return {*used, *(it for word in used for it in below(word, crates))}


def right_below(name: str, crates: dict[str, list[str]]) -> str:
    """What a crate stands right on: the crates that none of the others that it uses has below it, and those of the toolchain."""
    used = crates[name]
    ours = [word for word in used if word in crates and not any(word in below(it, crates) for it in used)]
    return ", ".join([*ours, *(f"`{word}`" for word in used if word not in crates)]) or "none"


def made(page: str, crates: dict[str, list[str]]) -> str:
    """The page with the table as these crates are. A crate without a row gets one that says nothing."""
    sentences = dict(ROW.findall(page))
    rows = [f"| `{name}` | {sentences.get(name, '')} | {right_below(name, crates)} |\n" for name in crates]
    return ROWS.sub(lambda _: "".join(rows), page, count=1)


class Layers(programs.Checks):
    """The page beside crates.txt."""

    def test_page(self) -> None:
        text, page = (programs.TOP / "crates.txt").read_text(), PAGE.read_text()
        self.check("docs/LAYERS.md is as tests/layers.py --write makes it", page == made(page, crates_of(text)), "not so")
        empty = [name for name, sentence in ROW.findall(page) if not sentence.strip()]
        self.check("docs/LAYERS.md says what may stand in each crate", not empty, empty)
        for old, new in DRIFTS_OF_CRATES:
            self.check(f"{old!r} stands once", text.count(old) == 1, text.count(old))
            self.check(f"{new!r} is found", made(page, crates_of(text.replace(old, new))) != page, "not found")
        for old, new in DRIFTS_OF_PAGE:
            drifted = page.replace(old, new, 1)
            self.check(f"{new!r} is found", drifted != page and made(drifted, crates_of(text)) != drifted, "not found")


if __name__ == "__main__":
    if sys.argv[1:] == ["--write"]:
        PAGE.write_text(made(PAGE.read_text(), crates_of((programs.TOP / "crates.txt").read_text())))
    else:
        programs.run_tests("layers")
