#!/usr/bin/env python3
"""Processor time, elapsed time and peak memory of `heavy summarise`, `table` and `confirm`, beside plain Rust that keeps no
record either, and beside mawk (or awk), which groups by key. All read standard input, but for `table FILE` and `confirm
FILE`, whose four workers read a file: they are set beside plain Rust, which has one thread, by elapsed time too.

usage: bench/passes.py [RUNS] [--write]

On 10^6 and 10^7 records, by Zipf's law and with all keys different. Prints medians, and ratios to plain Rust. --write
also writes bench/results/passes.csv, of 10^6 records.
"""
import os
import shutil
import statistics
import subprocess
import sys
import tempfile
import time
from pathlib import Path

import measured
import programs

GROUP_BY = "{ w[$1] += $2; n += $2 } END { for (x in w) if (101 * w[x] > n) print x \",\" w[x] }"


def many(room: Path, shape: str) -> Path:
    """A file of 10^7 records: the Zipf records ten times, or keys that are all different."""
    path = room / f"{shape}-10000000"
    with open(path, "wb") as out:
        for turn in range(10):
            if shape == "zipf":
                out.write(programs.records(room, shape).read_bytes())
            else:
                numbers = range(turn * 1_000_000, (turn + 1) * 1_000_000)
                out.write("".join(f"key{number},{number % 100 + 1}\n" for number in numbers).encode())
    return path


def seconds(command: list[str], path: Path) -> tuple[float, float]:
    """The processor time of a run, and the time that goes by."""
    begun = time.monotonic()
    with open(path, "rb") as source:
        running = subprocess.Popen(command, stdin=source, stdout=subprocess.DEVNULL)
        _, status, used = os.wait4(running.pid, 0)
    if status != 0:
        raise SystemExit(f"{command} ended with {status}")
    return used.ru_utime + used.ru_stime, time.monotonic() - begun


def megabytes(command: list[str], path: Path) -> float:
    """The peak memory of a run, as the system tells it while the program runs."""
    peak = 0
    with open(path, "rb") as source:
        running = subprocess.Popen(command, stdin=source, stdout=subprocess.DEVNULL)
        while running.poll() is None:
            status = Path(f"/proc/{running.pid}/status").read_text()
            peak = next((int(line.split()[1]) for line in status.splitlines() if line.startswith("VmHWM")), peak)
            time.sleep(0.002)
    return peak / 1024


def commands(room: Path, path: Path) -> dict[str, list[str]]:
    """What is run, by name; the program in plain Rust has the name with `plain` before it."""
    heavy, plain = programs.heavy(), programs.plain(room)
    summary, keys = room / "summary", room / "keys"
    with open(path, "rb") as source, open(summary, "wb") as out:
        subprocess.run([heavy, "summarise", "--k", "100"], stdin=source, stdout=out, check=True)
    found = {
        "summarise": [heavy, "summarise", "--k", "100"],
        "summarise ss": [heavy, "summarise", "--k", "100", "--method", "ss"],
        "table": [heavy, "table"],
        "confirm": [heavy, "confirm", str(summary)],
        "table FILE": [heavy, "table", "--workers", "4", str(path)],
        "confirm FILE": [heavy, "confirm", "--workers", "4", str(summary), str(path)],
    }
    if plain:
        with open(path, "rb") as source, open(keys, "wb") as out:
            subprocess.run([plain, "ss", "100"], stdin=source, stdout=out, check=True)
        found |= {
            "plain summarise": [plain, "mg", "100"],
            "plain summarise ss": [plain, "ss", "100"],
            "plain table": [plain, "table"],
            "plain confirm": [plain, "confirm", str(keys)],
        }
    awk = shutil.which("mawk") or shutil.which("awk")
    if awk:
        found["awk"] = [awk, "-F,", GROUP_BY]
    return found


def compare(room: Path, path: Path, runs: int) -> dict[str, list[float]]:
    """Prints what each command takes, and returns the processor times of its runs."""
    all_commands = commands(room, path)
    times: dict[str, list[tuple[float, float]]] = {name: [] for name in all_commands}
    for _ in range(runs):
        for name, command in all_commands.items():
            times[name].append(seconds(command, path))
    medians = {name: [statistics.median(part) for part in zip(*all)] for name, all in times.items()}
    for name, (used, elapsed) in medians.items():
        line = f"  {name:18} {used:7.3f} s, {elapsed:7.3f} s elapsed {megabytes(all_commands[name], path):8.1f} MB"
        if beside := medians.get(f"plain {name.removesuffix(' FILE')}"):
            line += f"   {used / beside[0]:5.2f} of plain, {elapsed / beside[1]:5.2f} elapsed"
        print(line, flush=True)
    return {name: [used for used, _ in all] for name, all in times.items()}


def ratios_of(records: str, times: dict[str, list[float]]) -> list[tuple[str, str, str, list[float]]]:
    """The ratios of each command's runs to those beside it."""
    found = []
    for command in ("summarise", "summarise ss", "table", "confirm"):
        name = f"`{command.replace(' ss', ' --method ss')}`"
        for other, beside in ((f"plain {command}", "plain Rust"), ("awk", "mawk")):
            if other in times:
                found.append((records, name, beside, [one / two for one, two in zip(times[command], times[other])]))
    return found


def main() -> None:
    words = [word for word in sys.argv[1:] if word != "--write"]
    runs, ratios = int(words[0]) if words else 5, []
    with tempfile.TemporaryDirectory() as folder:
        room = Path(folder)
        for shape, name in (("zipf", "Zipf"), ("different", "all different")):
            print(shape)
            ratios += ratios_of(name, compare(room, programs.records(room, shape), runs))
            print(many(room, shape).name)
            compare(room, many(room, shape), 1)
    if "--write" in sys.argv:
        measured.write("passes", ratios)


if __name__ == "__main__":
    main()
