#!/usr/bin/env python3
"""Draws the figures of docs/figures from runs that it makes: time and peak memory by the number of records, and the
error of estimates by k beside the proved bound. Needs matplotlib (Debian: python3-matplotlib, with /usr/bin/python3);
costs also wants rustc, mawk (or awk), and a machine that does nothing else. `memory` draws that figure alone, on any.

usage: bench/figures.py costs|memory|error [FOLDER]

With FOLDER the files of records are kept there, 3 GB of them, for the next run.
"""
import os
import shutil
import statistics
import subprocess
import sys
import tempfile
import time
from pathlib import Path

import matplotlib

matplotlib.use("svg")
matplotlib.rcParams["svg.hashsalt"] = "heavy"
import matplotlib.pyplot as plt

import programs

sys.path.insert(0, str(programs.TOP / "tests"))
import reference

FIGURES = programs.TOP / "docs" / "figures"
COUNTS = [100_000, 1_000_000, 10_000_000, 100_000_000]
# a program that keeps what grows with the records is run on no more of them than fit in some gigabytes
MOST_KEPT = 10_000_000
KS = [10, 30, 100, 300, 1_000, 3_000, 10_000, 30_000, 65_535]
RECORDS = 1_000_000
# how often each program runs on a few records, of which the median counts; on more it runs once
RUNS = 3
MOST_OFTEN = 1_000_000
MOST_LOAD = 3.0
GROUP_BY = "{ w[$1] += $2; n += $2 } END { for (x in w) if (101 * w[x] > n) print x \",\" w[x] }"
SHAPES = {"zipf": "100,000 keys by Zipf's law", "different": "all keys different"}
# colours that differ also in lightness, and a mark for each
STYLES = {
    "heavy report FILE, 4 workers": ("#0072b2", "o", "-"),
    "heavy summarise, then confirm": ("#56b4e9", "v", "-"),
    "heavy report < FILE, 4 workers": ("#d55e00", "s", "--"),
    "plain Rust, group-by": ("#009e73", "^", "-."),
    "plain Rust, group-by with 4 threads": ("#117733", "P", "-."),
    "mawk, group-by": ("#555555", "D", ":"),
}
# those of the errors
MARKS = [("#0072b2", "o", "-"), ("#d55e00", "s", "--"), ("#009e73", "^", "-.")]


def measured(command: list[str], path: Path) -> tuple[float, float]:
    """The time in seconds and the peak memory in megabytes of a run, as the system tells it while the program runs."""
    peak, begun = 0, time.monotonic()
    with open(path, "rb") as source:
        running = subprocess.Popen(command, stdin=source, stdout=subprocess.DEVNULL)
        while running.poll() is None:
            status = Path(f"/proc/{running.pid}/status").read_text()
            peak = next((int(line.split()[1]) for line in status.splitlines() if line.startswith("VmHWM")), peak)
            time.sleep(0.0005)
    if running.returncode != 0:
        raise SystemExit(f"{command} ended with {running.returncode}")
    return time.monotonic() - begun, peak / 1024


def two_passes(summary: list[str], confirm: list[str], path: Path, saved: Path) -> tuple[float, float]:
    """The time of both passes, and the peak memory of either."""
    with open(path, "rb") as source, open(saved, "wb") as out:
        subprocess.run(summary, stdin=source, stdout=out, check=True)
    runs = [measured(summary, path), measured(confirm, path)]
    return sum(run[0] for run in runs), max(run[1] for run in runs)


Costs = dict[str, list[tuple[float, float]]]


def costs(room: Path, shape: str, plain: str, awk: str) -> Costs:
    """For each program the medians of time and memory, by the number of records."""
    heavy, saved = programs.heavy(), room / "saved"
    found: Costs = {}
    for count in COUNTS:
        path = programs.records(room, shape, count)
        ways = {
            "heavy summarise, then confirm": lambda: two_passes(
                [heavy, "summarise"], [heavy, "confirm", str(saved)], path, saved
            ),
            "heavy report FILE, 4 workers": lambda: measured([heavy, "report", str(path)], path),
        }
        if count <= MOST_KEPT:
            ways["heavy report < FILE, 4 workers"] = lambda: measured([heavy, "report"], path)
            ways["plain Rust, group-by with 4 threads"] = lambda: measured([plain, "groups", "100", "4"], path)
        if count <= MOST_KEPT or shape == "zipf":
            ways["mawk, group-by"] = lambda: measured([awk, "-F,", GROUP_BY], path)
            ways["plain Rust, group-by"] = lambda: measured([plain, "group", "100"], path)
        all: dict[str, list[tuple[float, float]]] = {name: [] for name in ways}
        for _ in range(RUNS if count <= MOST_OFTEN else 1):
            for name, way in ways.items():
                all[name].append(way())
        for name, made in all.items():
            medians = tuple(statistics.median(run[i] for run in made) for i in range(2))
            found.setdefault(name, []).append(medians)
            print(f"{shape} {count:>9} {name:30} {medians[0]:8.3f} s {medians[1]:8.1f} MB", flush=True)
    return found


def panel(axes, title: str, across: str, up: str) -> None:
    axes.set_xscale("log")
    axes.set_yscale("log")
    axes.set_title(title, fontsize=10)
    axes.set_xlabel(across)
    axes.set_ylabel(up)
    axes.grid(True, which="major", color="#dddddd", linewidth=0.6)


def draw(name: str, figure, handles: list) -> None:
    """Saves a figure on white ground, which can be read on light and dark pages."""
    figure.legend(handles=handles, loc="lower center", ncol=2, frameon=False)
    FIGURES.mkdir(parents=True, exist_ok=True)
    figure.savefig(FIGURES / f"{name}.svg", facecolor="white", metadata={"Date": None})
    print(FIGURES / f"{name}.svg")


def draw_by_records(found: dict[str, Costs], name: str, which: int, up: str) -> None:
    """Time or memory, the first or second number of a run, by the number of records, a panel for each shape."""
    figure, panels = plt.subplots(1, 2, figsize=(9, 4.6), sharey=True)
    for axes, (shape, title) in zip(panels, SHAPES.items()):
        for label, medians in found[shape].items():
            colour, mark, dash = STYLES[label]
            values = [median[which] for median in medians]
            axes.plot(COUNTS[: len(values)], values, color=colour, marker=mark, linestyle=dash, label=label)
        panel(axes, title, "records", up)
    figure.tight_layout(rect=(0, 0.12, 1, 1))
    draw(name, figure, panels[0].get_legend_handles_labels()[0])


def draw_memory(room: Path) -> dict[str, Costs]:
    """The figure of memory, and what was found for it."""
    plain, awk = programs.plain(room), shutil.which("mawk") or shutil.which("awk")
    if not plain or not awk:
        raise SystemExit("rustc and mawk are wanted")
    found = {shape: costs(room, shape, plain, awk) for shape in SHAPES}
    draw_by_records(found, "memory", 1, "peak memory in MB")
    return found


def draw_costs(room: Path) -> None:
    """The figures of memory and time."""
    if os.getloadavg()[0] > MOST_LOAD:
        raise SystemExit(f"the load is {os.getloadavg()[0]}: times of a busy machine say nothing")
    draw_by_records(draw_memory(room), "time", 0, "seconds")


def errors(path: Path, k: int, weights: dict[bytes, int]) -> tuple[int, int, int]:
    """The bound for any stream of this total, the bound that the summary tells, and the greatest real error."""
    words = [programs.heavy(), "summarise", "--k", str(k)]
    with open(path, "rb") as source:
        saved = subprocess.run(words, stdin=source, capture_output=True, check=True).stdout
    summary = reference.read(saved)
    bound = summary.slack()
    real = [weight - summary.counters.get(key, 0) for key, weight in weights.items()]
    if min(real) < 0 or max(real) > bound:
        raise SystemExit(f"k = {k}: an error of {min(real)} or {max(real)} beyond the bound {bound}")
    found = summary.total // (k + 1), bound, max(real)
    print(f"{path.name} k {k:>6}: bounds {found[0]} and {bound}, greatest error {max(real)}", flush=True)
    return found


def draw_errors(room: Path) -> None:
    """The error of estimates by k."""
    names = ["bound for any stream: total / (k + 1)", "bound that the summary tells", "greatest real error"]
    figure, panels = plt.subplots(1, 2, figsize=(9, 4.6), sharey=True)
    for axes, (shape, title) in zip(panels, SHAPES.items()):
        path = programs.records(room, shape, RECORDS)
        weights: dict[bytes, int] = {}
        for line in path.read_bytes().splitlines():
            key, weight = line.split(b",")
            weights[key] = weights.get(key, 0) + int(weight)
        found = [errors(path, k, weights) for k in KS]
        for name, values, (colour, mark, dash) in zip(names, zip(*found), MARKS):
            # where two lines lie on one another both marks are seen
            hollow = {"fillstyle": "none", "markersize": 10} if mark == "s" else {}
            axes.plot(KS, values, color=colour, marker=mark, linestyle=dash, label=name, **hollow)
        panel(axes, title, "k", "weight")
    figure.tight_layout(rect=(0, 0.12, 1, 1))
    draw("error", figure, panels[0].get_legend_handles_labels()[0])


def main() -> None:
    with tempfile.TemporaryDirectory() as folder:
        kept = Path(sys.argv[2]) if len(sys.argv) > 2 else Path(folder)
        {"costs": draw_costs, "memory": draw_memory, "error": draw_errors}[sys.argv[1]](kept)


main()
