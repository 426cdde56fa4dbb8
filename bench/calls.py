#!/usr/bin/env python3
"""Times the calls that a report is made of, beside plain Rust, and prints medians of interleaved runs.

usage: bench/calls.py [RUNS] [--write]

Prints for each call, file and k the nanoseconds an item (for `merge`: microseconds a merge; for `save` and
`load`, which write and read a saved summary: nanoseconds a counter), those of bench/plain where it has the
call, and the ratio. Needs rustc for the plain program; without it that column is empty. --write runs `bucket_saving`
alone, and also writes bench/results/adds.csv.
"""
import statistics
import subprocess
import sys
import tempfile
from pathlib import Path

import measured
import programs

FEW = 100_000
MANY = 1_000_000
SIZES = [10, 100, 1_000, 10_000, 65_535]
# keys of one length each: records, keys, and the bytes of a key
LENGTHS = [("uniform", 20_000, 10_000, length) for length in (8, 24, 64, 255, 4096)]

# (call, file, values of k)
ROWS = [
    ("read", ("zipf", MANY, 100_000, 0), [1]),
    ("read", ("different", MANY, 0, 0), [1]),
    *[("table", ("uniform", MANY, 100_000, length), [1]) for length in (4, 16, 64)],
    ("of_items", ("zipf", FEW, 100_000, 0), [10, 100, 1_000, 65_535]),
    ("of_items", ("different", FEW, 0, 0), [10, 100, 1_000, 65_535]),
    ("merge", ("different", MANY, 0, 0), [10, 100, 1_000, 65_535]),
    ("bucket_saving", ("zipf", MANY, 100_000, 0), SIZES),
    ("bucket_saving", ("uniform", MANY, 200_000, 0), SIZES),
    ("space_saving", ("zipf", FEW, 100_000, 0), [10, 100, 1_000, 10_000]),
    ("space_saving", ("uniform", FEW, 200_000, 0), [10, 100, 1_000, 10_000]),
    *[(call, shape, [10_000]) for call in ("read", "bucket_saving", "table", "save", "load") for shape in LENGTHS],
]
# what bench/results/adds.csv calls the files of `bucket_saving`
ADDS = {"zipf": "Zipf", "uniform": "uniform"}
# what the plain program calls it
IN_PLAIN = {"read": ["time", "read"], "table": ["time", "table"], "bucket_saving": ["time", "ss"]}


def once(command: list[str], path: Path) -> int:
    with open(path, "rb") as source:
        run = subprocess.run(command, stdin=source, capture_output=True, check=True)
    return int(run.stdout)


def main() -> None:
    words = [word for word in sys.argv[1:] if word != "--write"]
    runs, writes, ratios = int(words[0]) if words else 5, "--write" in sys.argv, []
    with tempfile.TemporaryDirectory() as folder:
        room = Path(folder)
        heavy, plain = programs.heavy_bench(), programs.plain(room)
        print(f"{'call':15} {'records':28} {'k':>6} {'heavy':>9} {'plain':>9} {'ratio':>6}")
        for call, shape, sizes in ROWS:
            if writes and (call, sizes) != ("bucket_saving", SIZES):
                continue
            path = programs.records(room, *shape)
            for k in sizes:
                commands = {"heavy": [heavy, call, str(k)]}
                if plain and call in IN_PLAIN:
                    commands["plain"] = [plain, *IN_PLAIN[call], str(k)]
                times: dict[str, list[int]] = {name: [] for name in commands}
                for _ in range(runs):
                    for name, command in commands.items():
                        times[name].append(once(command, path))
                medians = {name: statistics.median(all) for name, all in times.items()}
                unit = 1000 if call == "merge" else 1
                cells = f"{medians['heavy'] / unit:9.0f}"
                if "plain" in medians:
                    cells += f" {medians['plain']:9.0f} {medians['heavy'] / medians['plain']:6.2f}"
                    each = [ours / theirs for ours, theirs in zip(times["heavy"], times["plain"])]
                    ratios.append((ADDS.get(shape[0], shape[0]), f"k = {k:,}", "map with a heap", each))
                print(f"{call:15} {path.name:28} {k:6} {cells}", flush=True)
    if writes:
        measured.write("adds", ratios)


main()
