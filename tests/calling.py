#!/usr/bin/env python3
"""Each library has a page CALLING.md for its callers in Rattle: a caller, which is a function of
crates/heavy_example/src/callers.rt, and what the library offers, with its contracts. docs/CALLS.md has the first sentence above
each call of all libraries. All are made of the sources. Compares the pages with these, or writes what is made.

usage: tests/calling.py [--write]
"""
import re
import sys

import programs

CRATES = programs.TOP / "crates"
CALLERS = CRATES / "heavy_example" / "src" / "callers.rt"
CALLS = programs.TOP / "docs" / "CALLS.md"
# each library with the function that calls it
LIBRARIES = {
    "hh_faults": "status_of_records", "hh_stream": "stream_of_one", "hh_summaries": "slack_of_both",
    "hh_tally": "tally_of_both",
    "hh_counters": "bounds_of", "hh_countmin": "is_rare", "hh_saved": "summary_in", "hh_seals": "sealed_summary", "hh_json": "client_and_bytes", "hh_records": "total_of_records",
    "hh_rows": "rows_as_json", "hh_pieces": "ends_a_record", "hh_shared": "add_once", "hh_workers": "plan_of_three",
    "hh_pool": "heavy_keys", "hh_commands": "facts_of", "hh_library": "with_item",
    "hh_files": "table_of_files", "heavy": "saved_summary",
}
# the calls that `heavy` had in its first version, and how many others it may hand on
FIRST_CALLS = {
    "read_stream", "run_report", "report_text", "write_report", "put", "summary_bytes", "table_bytes", "merge_bytes", "ask_bytes",
    "confirm", "confirm_bytes",
}
MOST_OTHERS = 16
MADE = re.compile(r"^## A caller\n.*", re.MULTILINE | re.DOTALL)
OWNER = re.compile(r"^(?P<shown>pub trait|impl)(?:<[^{]*?>)? (?P<name>\w+)[^{]*\{$")
CLAUSE = re.compile(r" *(?:requires|ensures)\b")


def declaration_at(lines: list[str], at: int) -> list[str]:
    """The signature and the clauses of the function that begins in this line."""
    indent, depth, has_clause, found = len(lines[at]) - len(lines[at].lstrip()), 0, False, []
    for line in (it[indent:].rstrip() for it in lines[at:]):
        if found and line in ("{", "{}"):
            break
        has_clause = has_clause or CLAUSE.match(line) is not None
        depth += (line.count("{") - line.count("}")) * has_clause
        ends = line.endswith((" {", "{}")) if not has_clause else depth == 0 and line.endswith(";")
        if line and not line.lstrip().startswith("//"):
            found.append(re.sub(r"(?: \{\}?|;)$", "", line) if ends else line)
        if ends or (not has_clause and line.endswith(";")):
            break
    return found


def calls_of(text: str, offered: set[str]) -> list[tuple[str, int]]:
    """The functions of a file that the crate offers, those of its types and traits under their names: each with its line."""
    found, owner, in_trait = [], "", False
    for at, line in enumerate(text.splitlines()):
        if head := OWNER.match(line):
            owner, in_trait = "" if " for " in line else head["name"], head["shown"] == "pub trait"
        elif line == "}":
            owner, in_trait = "", False
        name = re.match(r"(?:pub fn|    pub fn|    fn) (\w+)", line)
        if not name or (line.startswith("    fn") and not in_trait):
            continue
        if (owner if line.startswith(" ") else name[1]) in offered:
            found.append((f"{owner}::{name[1]}" if owner else name[1], at))
    return found


def declarations_of(text: str, offered: set[str]) -> list[str]:
    """The declarations of these functions."""
    lines, found = text.splitlines(), []
    for name, at in calls_of(text, offered):
        shown = declaration_at(lines, at)
        shown[0] = re.sub(r"^(?:pub )?fn \w+", f"fn {name}", shown[0])
        found.append("\n".join(shown))
    return found


def sentence_above(lines: list[str], at: int) -> str:
    """The first sentence of the comment above a function, without its links."""
    start = at
    while start > 0 and lines[start - 1].lstrip().startswith(("///", "#[")):
        start -= 1
    words = [line.strip().removeprefix("///").strip() for line in lines[start:at] if line.lstrip().startswith("///")]
    text = " ".join(words[: words.index("")] if "" in words else words)
    text = re.sub(r"\[(`[^`]*`)\](?:\([^)]*\))?", r"\1", text)
    return re.split(r"(?<=[.:]) (?=[A-Z`])", text)[0].rstrip(":").replace("|", "\\|")


def sentences_of(crate: str) -> str:
    """The part of docs/CALLS.md on a crate, or nothing where no call of it has a comment."""
    rows = []
    for path in sorted((CRATES / crate / "src").rglob("*.rt")):
        text = path.read_text()
        rows += [(name, sentence_above(text.splitlines(), at)) for name, at in calls_of(text, offered_by(crate))]
    shown = [f"| `{name}` | {sentence} |\n" for name, sentence in rows if sentence]
    return f"\n## {crate}\n\n| call | what it does |\n|---|---|\n{''.join(shown)}" if shown else ""


def made_calls() -> str:
    """docs/CALLS.md."""
    head = "# Calls\n\nEach public call of the libraries, by crate and file, with the first sentence of the comment above it. What is promised\nof a call is its contract, in CALLING.md of its crate. `tests/calling.py --write` makes this page.\n"
    return head + "".join(sentences_of(crate) for crate in LIBRARIES)


def offered_by(crate: str) -> set[str]:
    """The names that a crate offers: what its root hands on, and its laws."""
    source = CRATES / crate / "src"
    names = re.findall(r"\w+", " ".join(re.findall(r"^pub use ([^;]*);", (source / "lib.rt").read_text(), re.MULTILINE)))
    laws = source / "laws.rt"
    return {*names, *(re.findall(r"^pub fn (\w+)", laws.read_text(), re.MULTILINE) if laws.exists() else [])}


def handed_on() -> set[str]:
    """The calls of the crates below that `heavy` hands on."""
    uses = re.findall(r"^pub use \w+::([^;]*);", (CRATES / "heavy" / "src" / "lib.rt").read_text(), re.MULTILINE)
    return {name for use in uses for name in re.findall(r"\w+", use) if name[0].islower()}


def caller_of(name: str) -> str:
    """A caller, with the comment above it."""
    text = CALLERS.read_text()
    at = text.index(f"pub fn {name}")
    return text[text.rindex("\n\n", 0, at) + 2 : text.index("\n}\n", at) + 3]


def made_of(crate: str) -> str:
    """The parts of a page that are made: the caller, and the contracts file by file."""
    parts = [f"## A caller\n\n```rust\n{caller_of(LIBRARIES[crate])}```\n\n## Contracts\n"]
    for path in sorted((CRATES / crate / "src").rglob("*.rt")):
        if shown := declarations_of(path.read_text(), offered_by(crate)):
            parts.append(f"\n`{path.relative_to(CRATES / crate)}`\n\n```text\n" + "\n".join(shown) + "\n```\n")
    return "".join(parts)


class Calling(programs.Checks):
    """The pages beside the sources."""

    def test_pages(self) -> None:
        for crate in LIBRARIES:
            text = (CRATES / crate / "CALLING.md").read_text()
            same = MADE.findall(text) == [made_of(crate)]
            self.check(f"{crate}/CALLING.md is as tests/calling.py --write makes it", same, "not so")
            self.check(f"a drift in {crate}/CALLING.md", MADE.findall(text.replace("ensures", "ensure", 1)) != [made_of(crate)])
            self.check(f"{crate}/CALLING.md has contracts", made_of(crate).count("\nfn ") > 0)

    def test_calls(self) -> None:
        self.check("docs/CALLS.md is as tests/calling.py --write makes it", CALLS.read_text() == made_calls(), "not so")
        self.check("docs/CALLS.md has calls", made_calls().count("\n| `") > 100)

    def test_handed_on(self) -> None:
        others = handed_on() - FIRST_CALLS
        self.check("heavy hands on its first calls", FIRST_CALLS <= handed_on(), f"not {sorted(FIRST_CALLS - handed_on())}")
        self.check(f"heavy hands on at most {MOST_OTHERS} calls besides", len(others) <= MOST_OTHERS, f"{len(others)}: {sorted(others)}")


if __name__ == "__main__":
    if sys.argv[1:] == ["--write"]:
        for name in LIBRARIES:
            page = CRATES / name / "CALLING.md"
            page.write_text(page.read_text()[: page.read_text().index("## A caller")] + made_of(name))
        CALLS.write_text(made_calls())
    else:
        programs.run_tests("calling")
