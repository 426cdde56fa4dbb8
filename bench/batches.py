#!/usr/bin/env python3
"""Times `heavy report FILE` by tallies beside group-bys, mawk and unproved Rust in batches, and `summarise` by workers beside
one thread: medians of interleaved runs, on records by Zipf's law and on keys that are all different.

usage: bench/batches.py [RUNS [COUNT..]]      (9 runs of 1,000,000 and of 10,000,000 records where none are given)

Prints for each count the seconds of each program, then the ratios, then which pass took what: `total` is the text read, split
and its numbers read, `summarise --workers N` is the first pass and its cut, and what `report` takes beyond that is the second.
Then peak memory, as the system tells it while a program runs, and how many bytes a report reads of a file, by the system's own
count: of one with few keys, which is read once, and of one with many. Wants a machine that does nothing else.
"""
import shutil
import statistics
import subprocess
import sys
import tempfile
import time
from pathlib import Path

import programs
from report import GROUP_BY, SHAPES

K = 100
WORKERS = (1, 4)
# (what is timed, what it is set beside)
RATIOS = (
    ("heavy 4", "group-by 4"), ("heavy 4", "group-by"), ("heavy 1", "group-by"), ("heavy 1", "batches 1"), ("heavy 4", "batches 4"),
    ("heavy 4", "mawk"), ("summarise 4", "summarise 1"),
)
# k, and how long keys are
PEAKS = ((100, 24), (10_000, 24), (100, 4096))


def commands(room: Path, path: Path) -> dict[str, list[str]]:
    """What is run, by name. All but heavy read standard input."""
    heavy, plain = programs.heavy(), programs.plain(room)
    found = {}
    for n in WORKERS:
        found[f"heavy {n}"] = [heavy, "report", "--k", str(K), "--workers", str(n), str(path)]
        found[f"summarise {n}"] = [heavy, "summarise", "--k", str(K), "--workers", str(n), str(path)]
        if plain:
            found[f"batches {n}"] = [plain, "batches", str(K), str(n)]
            found[f"total {n}"] = [plain, "total", str(n)]
    if plain:
        found |= {"group-by": [plain, "group", str(K)], "group-by 4": [plain, "groups", str(K), "4"]}
    awk = shutil.which("mawk") or shutil.which("awk")
    return found | ({"mawk": [awk, "-F,", GROUP_BY]} if awk else {})


def once(command: list[str], path: Path) -> float:
    with open(path, "rb") as source:
        start = time.perf_counter()
        subprocess.run(command, stdin=source, stdout=subprocess.DEVNULL, check=True)
        return time.perf_counter() - start


def timed(room: Path, shape: str, count: int, runs: int) -> dict[str, float]:
    """The median of each program's seconds."""
    path = programs.records(room, shape, count)
    all_commands = commands(room, path)
    times: dict[str, list[float]] = {name: [] for name in all_commands}
    for _ in range(runs):
        for name, command in all_commands.items():
            times[name].append(once(command, path))
    return {name: statistics.median(all) for name, all in times.items()}


def watched(command: list[str], path: Path) -> tuple[float, int]:
    """The peak memory of a run in megabytes, and how many bytes it asked the system for, each as last seen while it ran."""
    peak, read = 0, 0
    with open(path, "rb") as source:
        running = subprocess.Popen(command, stdin=source, stdout=subprocess.DEVNULL)
        while running.poll() is None:
            try:
                status = Path(f"/proc/{running.pid}/status").read_text()
                counts = Path(f"/proc/{running.pid}/io").read_text()
            except OSError:
                continue  # it has just ended
            peak = next((int(line.split()[1]) for line in status.splitlines() if line.startswith("VmHWM")), peak)
            read = int(counts.split()[1]) or read
            time.sleep(0.0002)
    return peak / 1024, read


def different(room: Path, length: int, count: int) -> Path:
    """A file of keys of so many bytes, all different."""
    path = room / f"different-{length}-{count}"
    if not path.exists():
        with open(path, "wb") as out:
            out.writelines(b"%0*d,%d\n" % (length, number, number % 100 + 1) for number in range(count))
    return path


def few(room: Path, keys: int, count: int) -> Path:
    """A file of so many keys in turn."""
    path = room / f"few-{keys}-{count}"
    if not path.exists():
        with open(path, "wb") as out:
            out.writelines(b"key%d,%d\n" % (number % keys, number % 100 + 1) for number in range(count))
    return path


def main() -> None:
    runs, *counts = [int(word) for word in sys.argv[1:]] or [9]
    with tempfile.TemporaryDirectory() as folder:
        room = Path(folder)
        for count in counts or [1_000_000, 10_000_000]:
            found = {shape: timed(room, shape, count, runs) for shape in ("zipf", "different")}
            print(f"{count} records, medians of {runs} runs: {', '.join(SHAPES[shape] for shape in found)}")
            for name in found["zipf"]:
                print(f"  {name:28}" + "".join(f"{times[name]:9.3f} s" for times in found.values()))
            for one, other in RATIOS:
                if other in found["zipf"]:
                    print(f"  {one + ' to ' + other:28}" + "".join(f"{times[one] / times[other]:11.2f}" for times in found.values()))
            for n in WORKERS:
                for name, whole, part in (("first pass and cut", f"summarise {n}", None), ("second pass", f"heavy {n}", f"summarise {n}")):
                    cells = "".join(f"{times[whole] - (times[part] if part else 0):9.3f} s" for times in found.values())
                    print(f"  {f'{name}, {n} of them':28}{cells}", flush=True)
        heavy = programs.heavy()
        for k, length in PEAKS:
            path = different(room, length, 100_000 if length > 24 else 2_000_000)
            peak, _ = watched([heavy, "report", "--k", str(k), str(path)], path)
            print(f"report of keys of {length} bytes, k = {k}: {peak:.1f} MB at most", flush=True)
        path = programs.records(room, "zipf", 10_000_000)
        for megabytes in (1_000_000, 64):
            words = [heavy, "report", "--k", str(K), "--memory", str(megabytes)]
            peak, _ = watched(words, path)
            length = path.stat().st_size / 2**20
            print(f"report of {length:.0f} MB of a pipe, --memory {megabytes}: {peak:.1f} MB at most", flush=True)
        for name, path in (("3,000 keys", few(room, 3_000, 1_000_000)), ("all different", programs.records(room, "different", 1_000_000))):
            _, read = watched([heavy, "report", str(path)], path)
            print(f"report of a file, {name}: reads {read / path.stat().st_size:.2f} times its length", flush=True)


main()
