#!/usr/bin/env python3
"""Times `heavy report` of logs beside the tools that one takes for them, interleaved, by the clock: JSON lines beside jq,
Miller and Python's json, and whole lines beside sort and uniq, and mawk.

usage: bench/logs.py [RUNS [LINES]]

10^6 objects of 136 bytes with a path, by Zipf's law, and its bytes; and LINES lines, 10^7 by default, that are those paths.
Prints medians in seconds, and the ratio of each median to that of the fastest other tool.
"""
import json
import random
import shutil
import statistics
import subprocess
import sys
import tempfile
import time
from pathlib import Path

import programs

OBJECTS = 1_000_000
LENGTH = 136
PATHS = 100_000
# written at once
BLOCK = 100_000
GROUP_BY = "{ w[$1] += $2 } END { for (key in w) print key \",\" w[key] }"
PYTHON = """import collections, json, sys
weights = collections.Counter()
for line in sys.stdin.buffer:
    record = json.loads(line)
    weights[record["path"]] += record["bytes"]
for key, weight in weights.items():
    print(key, weight, sep=",")"""
SORT = "LC_ALL=C sort \"$0\" | uniq -c | sort -rn"
MAWK = "{ n[$0]++ } END { for (line in n) print n[line], line }"


def paths(draw: random.Random, count: int) -> list[str]:
    """Paths by Zipf's law."""
    total, sums = 0.0, []
    for rank in range(1, PATHS + 1):
        total += 1.0 / rank
        sums.append(total)
    return [f"/shop/item/{rank}" for rank in draw.choices(range(PATHS), cum_weights=sums, k=count)]


def line_of(draw: random.Random, path: str) -> str:
    """An object as a server's log has it, of one length."""
    record = {"time": "2026-11-25T14:03:07.125Z", "status": 200, "method": "GET", "path": path,
              "bytes": draw.randint(1, 99_999), "agent": ""}
    record["agent"] = "x" * max(0, LENGTH - len(json.dumps(record)))
    return json.dumps(record)


def write(path: Path, count: int, as_objects: bool) -> Path:
    """The file of this number of objects, or of lines."""
    draw = random.Random(20_261_128)
    with open(path, "w") as out:
        for _ in range(0, count, BLOCK):
            block = paths(draw, BLOCK)
            lines = (line_of(draw, it) for it in block) if as_objects else block
            out.writelines(f"{line}\n" for line in lines)
    return path


def once(command: list[str]) -> float:
    """The time that goes by while a command runs."""
    start = time.perf_counter()
    subprocess.run(command, stdout=subprocess.DEVNULL, check=True)
    return time.perf_counter() - start


def compare(runs: int, own: dict[str, list[str]], others: dict[str, list[str]]) -> None:
    """Prints the median of each command, and its ratio to that of the fastest other one."""
    times: dict[str, list[float]] = {name: [] for name in own | others}
    for _ in range(runs):
        for name, command in (own | others).items():
            times[name].append(once(command))
    medians = {name: statistics.median(each) for name, each in times.items()}
    least = min(medians[name] for name in others)
    for name, median in medians.items():
        print(f"  {name:12} {median:7.2f} s   {median / least:5.2f}", flush=True)


def there(commands: dict[str, list[str]]) -> dict[str, list[str]]:
    """Those whose program is installed."""
    return {name: words for name, words in commands.items() if shutil.which(words[0])}


def main() -> None:
    runs, lines = [int(word) for word in sys.argv[1:]] + [5, 10_000_000][len(sys.argv) - 1:]
    with tempfile.TemporaryDirectory() as folder:
        objects = write(Path(folder, "objects"), OBJECTS, True)
        report = [programs.heavy(), "report", "--k", "100"]
        print(f"{OBJECTS} objects, {objects.stat().st_size // OBJECTS} bytes each")
        words = ["--json", "--key", "path", "--weight", "bytes", str(objects)]
        shell = ["sh", "-c", f"{sys.executable} -c '{PYTHON}' < {objects}"]
        compare(runs, {f"heavy {n}": [*report, "--workers", str(n), *words] for n in (1, 4)}, there({
            "jq, mawk": ["sh", "-c", f"jq -r '[.path, .bytes] | @tsv' {objects} | mawk '{GROUP_BY}'"],
            "Miller": ["mlr", "--ijsonl", "--ocsv", "stats1", "-a", "sum", "-f", "bytes", "-g", "path", str(objects)],
            "Python": shell,
        }))
        flat = write(Path(folder, "lines"), lines, False)
        print(f"{lines} lines")
        compare(runs, {f"heavy {n}": [*report, "--workers", str(n), "--lines", str(flat)] for n in (1, 4)}, there({
            "sort, uniq": ["sh", "-c", SORT, str(flat)],
            "mawk": ["mawk", MAWK, str(flat)],
        }))


if __name__ == "__main__":
    main()
