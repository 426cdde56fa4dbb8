#!/usr/bin/env python3
"""Processor time of `heavy summarise` by columns, beside plain Rust that reads the same columns over the crate `csv`, and
of `heavy summarise` without columns, beside another build of it.

usage: bench/columns.py [RUNS [OTHER]]

10^6 records of ten columns with the key in the third and the weight in the seventh, by Zipf's law and with all keys
different, and the same records as a key and a weight alone. OTHER is the other program, as one that was built of an
older commit. Prints medians and ratios.
"""
import csv
import statistics
import sys
import tempfile
from pathlib import Path

import passes
import programs

OTHERS = ("2026-11-25 14:00:00", "192.0.2.1", "443", "TCP", "...AP.SF", "0.125", "a name", "-")


def in_columns(room: Path, path: Path) -> Path:
    """The records of a file, each among eight other fields."""
    found = room / f"{path.name}-columns"
    with open(path, newline="") as source, open(found, "w", newline="") as out:
        rows = csv.writer(out, lineterminator="\n")
        one, two, *more = OTHERS
        rows.writerows([one, two, key, *more[:3], weight, *more[3:]] for key, weight in csv.reader(source))
    return found


def compare(runs: int, path: Path, commands: dict[str, list[str]]) -> None:
    """Prints what each command takes, and its ratio to the last one."""
    times: dict[str, list[float]] = {name: [] for name in commands}
    for _ in range(runs):
        for name, command in commands.items():
            used, _ = passes.seconds(command, path)
            times[name].append(used)
    last = times[[*commands][-1]]
    for name, each in times.items():
        ratio = statistics.median(one / two for one, two in zip(each, last))
        print(f"  {name:12} {statistics.median(each):7.3f} s   {ratio:5.2f}", flush=True)


def main() -> None:
    runs, others = int((sys.argv[1:] or ["11"])[0]), sys.argv[2:]
    heavy = [programs.heavy(), "summarise", "--k", "100"]
    with tempfile.TemporaryDirectory() as folder:
        room = Path(folder)
        plain = programs.plain(room)
        for shape in ("zipf", "different"):
            path = programs.records(room, shape)
            print(f"{shape}, a key and a weight")
            compare(runs, path, {"heavy": heavy} | {"other": [other, *heavy[1:]] for other in others[:1]})
            print(f"{shape}, ten columns")
            beside = {"plain Rust": [plain, "columns", "100", "3", "7"]} if plain else {}
            compare(runs, in_columns(room, path), {"heavy": [*heavy, "--key", "3", "--weight", "7"]} | beside)


if __name__ == "__main__":
    main()
