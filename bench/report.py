#!/usr/bin/env python3
"""Times `heavy report` beside mawk (or awk) and plain Rust, interleaved, on three files of 10^6 records.

usage: bench/report.py [RUNS] [--write]

Prints medians in seconds, and ratios: to the awk's, to those of plain Rust in the same shape with as many workers, and
to those of a hash group-by in plain Rust, with one thread and with as many. --write also writes bench/results/report.csv.
"""
import shutil
import statistics
import subprocess
import sys
import tempfile
import time
from pathlib import Path

import measured
import programs

GROUP_BY = "{ w[$1] += $2; n += $2 } END { for (x in w) if (101 * w[x] > n) print x \",\" w[x] }"
WORKERS = (1, 2, 4)
# what the ratios are to, each by its name in the tables; {} is the number of workers
BESIDE = (
    ("awk", "mawk"),
    ("plain {}", "plain Rust"),
    ("group", "hash group-by"),
    ("groups {}", "hash group-by, as many threads"),
)
# the files, each by its name in the tables
SHAPES = {"zipf": "Zipf", "uniform": "uniform", "different": "all different"}


def commands(room: Path) -> dict[str, list[str]]:
    """What is run, by name."""
    heavy, plain = programs.heavy(), programs.plain(room)
    found = {f"heavy {n}": [heavy, "report", "--k", "100", "--workers", str(n)] for n in WORKERS}
    if plain:
        found |= {f"plain {n}": [plain, "report", "100", str(n)] for n in WORKERS}
        found |= {f"groups {n}": [plain, "groups", "100", str(n)] for n in WORKERS}
        found["group"] = [plain, "group", "100"]
    awk = shutil.which("mawk") or shutil.which("awk")
    if awk:
        found["awk"] = [awk, "-F,", GROUP_BY]
    return found


def once(command: list[str], path: Path) -> float:
    with open(path, "rb") as source:
        start = time.perf_counter()
        subprocess.run(command, stdin=source, stdout=subprocess.DEVNULL, check=True)
        return time.perf_counter() - start


def main() -> None:
    words = [word for word in sys.argv[1:] if word != "--write"]
    runs, ratios = int(words[0]) if words else 7, []
    with tempfile.TemporaryDirectory() as folder:
        room = Path(folder)
        all_commands = commands(room)
        for shape in SHAPES:
            path = programs.records(room, shape)
            times: dict[str, list[float]] = {name: [] for name in all_commands}
            for _ in range(runs):
                for name, command in all_commands.items():
                    times[name].append(once(command, path))
            medians = {name: statistics.median(all) for name, all in times.items()}
            for n in WORKERS:
                for other, name in BESIDE:
                    other = other.format(n)
                    if other in times:
                        program = f"{n} worker" + "s" * (n > 1)
                        of_runs = [one / two for one, two in zip(times[f"heavy {n}"], times[other])]
                        ratios.append((SHAPES[shape], program, name, of_runs))
            print(shape)
            for name, median in medians.items():
                line = f"  {name:8} {median:7.3f} s"
                if "awk" in medians:
                    line += f"   {median / medians['awk']:5.2f} of awk"
                same = "plain " + name[-1]
                if name.startswith("heavy") and same in medians:
                    line += f"   {median / medians[same]:5.2f} of plain   {median / medians['group']:5.2f} of group"
                print(line, flush=True)
    if "--write" in sys.argv:
        measured.write("report", ratios)


if __name__ == "__main__":
    main()
