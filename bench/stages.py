#!/usr/bin/env python3
"""Times the stages of a report by one thread, beside plain Rust that does the same: medians of interleaved runs, in nanoseconds
a record, on records by Zipf's law and on keys that are all different.

usage: bench/stages.py [RUNS [COUNT]]      (9 runs of 1,000,000 records where none are given)

Bytes are read, 64 KiB at once; all else is timed over a text in memory. What is timed has all stages before it in it, so a
stage is a difference: the scan finds each record and its key, a number is its weight, the look-up adds it to a tally, and the
second pass counts the keys that can be heavy, with a scan and numbers of its own. Wants a machine that does nothing else.
"""
import statistics
import subprocess
import sys
import tempfile
from pathlib import Path

import programs
from report import SHAPES

K = 100
# (a stage, what is timed, what of it is other stages)
STAGES = (
    ("read", "bytes", None), ("scan", "scan", None), ("number", "number", "scan"), ("look-up", "tally", "number"),
    ("second pass", "count", None),
)


def nanoseconds(command: list[str], path: Path) -> int:
    """What a run prints."""
    with open(path, "rb") as source:
        return int(subprocess.run(command, stdin=source, stdout=subprocess.PIPE, check=True).stdout)


def timed(commands: dict[str, list[str]], path: Path, runs: int) -> dict[tuple[str, str], float]:
    """The median of each program's nanoseconds, by its name and what is timed."""
    times: dict[tuple[str, str], list[int]] = {(name, timed): [] for name in commands for _, timed, _ in STAGES}
    for _ in range(runs):
        for (name, what), all_times in times.items():
            all_times.append(nanoseconds([*commands[name], what, str(K)], path))
    return {key: statistics.median(all_times) for key, all_times in times.items()}


def show(shape: str, medians: dict[tuple[str, str], float], count: int) -> None:
    """Prints the stages of each program, a record's."""
    names = list(dict.fromkeys(name for name, _ in medians))
    print(f"{SHAPES[shape]:32}" + "".join(f"{name:>14}" for name in names))
    for stage, what, other in STAGES:
        parts = [medians[name, what] - (medians[name, other] if other else 0) for name in names]
        print(f"  {stage:30}" + "".join(f"{part / count:11.1f} ns" for part in parts), flush=True)


def main() -> None:
    words = [int(word) for word in sys.argv[1:]]
    runs, count = (words + [9, 1_000_000][len(words):])[:2]
    with tempfile.TemporaryDirectory() as folder:
        room = Path(folder)
        commands = {"heavy": [programs.heavy_bench()]}
        if plain := programs.plain(room):
            commands["plain Rust"] = [plain, "stage"]
        print(f"{count} records, medians of {runs} runs, k = {K}")
        for shape in ("zipf", "different"):
            show(shape, timed(commands, programs.records(room, shape, count), runs), count)


main()
