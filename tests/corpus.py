"""The kept corpus, tests/corpus: chosen texts of records and saved files, and each that a random test ever failed on. A line
of its INDEX names a file, the options that say where its keys and weights stand, if any, and why it is kept:

    columns/tab.csv --delimiter \\t --key 2 --weight 1: a tab between fields

Each run of the random tests reads them first. Their answers are those of tests/reference.py.
"""
import shlex
from dataclasses import dataclass
from pathlib import Path

FOLDER = Path(__file__).resolve().parent / "corpus"


@dataclass(frozen=True)
class Kept:
    """A file that is kept: its name, its options, why, and its bytes."""

    name: str
    words: list[str]
    why: str
    data: bytes


def kept() -> list[Kept]:
    """All that is kept, as the INDEX has it. A file without a line, or a line without a file or a reason, is an error."""
    found = []
    for line in (FOLDER / "INDEX").read_text().splitlines():
        named, _, why = line.partition(": ")
        name, *words = shlex.split(named.replace("\\", "\\\\"))
        found.append(Kept(name, words, why, (FOLDER / name).read_bytes()))
    names = sorted(one.name for one in found)
    there = sorted(str(path.relative_to(FOLDER)) for path in FOLDER.glob("*/*"))
    if names != there or not all(one.why for one in found):
        raise ValueError(f"tests/corpus/INDEX: {set(names) ^ set(there) or 'a name twice, or a line without a reason'}")
    return found


def kept_in(folder: str) -> list[Kept]:
    """What is kept in one of its folders: records, columns or saved."""
    return [one for one in kept() if one.name.startswith(f"{folder}/")]
