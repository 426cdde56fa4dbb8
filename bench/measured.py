#!/usr/bin/env python3
"""Measurements as data, and the tables of bench/README.md that are made from it.

bench/results/NAME.csv has a row for each program, its records and what it was set beside: the commit and the machine, how many
runs there were, and of the ratios of interleaved runs the median and both quartiles. bench/report.py, bench/passes.py and
bench/calls.py write these files where their last word is --write.

usage: bench/measured.py [--write]

Writes the tables, or says which one is not as its data.
"""
import csv
import os
import re
import statistics
import subprocess
import sys
from collections.abc import Iterable
from pathlib import Path

TOP = Path(__file__).resolve().parent.parent
PAGE = TOP / "bench" / "README.md"
RESULTS = TOP / "bench" / "results"
COLUMNS = ["commit", "machine", "runs", "records", "program", "beside", "lower", "median", "upper"]
# each table: what names a row, and what a column
TABLES = {
    "report": (["records", "program"], ["beside"]),
    "passes": (["program"], ["records", "beside"]),
    "adds": (["records"], ["program"]),
}
MADE = re.compile(r"(<!-- made of results/(\w+)\.csv -->\n)(.*?)(<!-- end -->)", re.DOTALL)


def machine() -> str:
    """The processor, how many there are, and the load, which should be low."""
    model = re.search(r"^model name\s*: (.*)$", Path("/proc/cpuinfo").read_text(), re.MULTILINE)
    return f"{os.cpu_count()} x {model[1] if model else 'unknown'}, load {os.getloadavg()[0]:.1f}"


def write(name: str, ratios: Iterable[tuple[str, str, str, list[float]]]) -> None:
    """Writes what was measured: the records, the program, what it was set beside, and the ratio of each run."""
    words = ["git", "-C", str(TOP), "rev-parse", "--short", "HEAD"]
    commit = subprocess.run(words, capture_output=True, text=True, check=True).stdout.strip()
    RESULTS.mkdir(exist_ok=True)
    with open(RESULTS / f"{name}.csv", "w", newline="") as out:
        rows = csv.writer(out, lineterminator="\n")
        rows.writerow(COLUMNS)
        for records, program, beside, all_ratios in ratios:
            quartiles = [f"{it:.2f}" for it in statistics.quantiles(all_ratios, n=4)]
            rows.writerow([commit, machine(), len(all_ratios), records, program, beside, *quartiles])


def table_of(name: str) -> str:
    """The table that is made of a file."""
    with open(RESULTS / f"{name}.csv", newline="") as source:
        rows = list(csv.DictReader(source))
    of_row, of_column = TABLES[name]
    named = lambda row, parts: tuple(row[part] for part in parts)
    lines = list(dict.fromkeys(named(row, of_row) for row in rows))
    columns = list(dict.fromkeys(named(row, of_column) for row in rows))
    cells = {}
    for row in rows:
        spread = f"{row['median']} ({row['lower']} to {row['upper']})"
        cells[named(row, of_row), named(row, of_column)] = spread
    head = "| " + " | ".join([*of_row, *map(": ".join, columns)]) + " |\n"
    rule = "|" + "---|" * (len(of_row) + len(columns)) + "\n"
    return head + rule + "".join(
        "| " + " | ".join([*line, *(cells.get((line, column), "") for column in columns)]) + " |\n" for line in lines)


def page() -> str:
    """The page with its tables as the data has them."""
    return MADE.sub(lambda found: found[1] + table_of(found[2]) + found[4], PAGE.read_text())


def main() -> None:
    if sys.argv[1:] == ["--write"]:
        PAGE.write_text(page())
    elif page() != PAGE.read_text():
        sys.exit("bench/README.md: a table is not as its data; bench/measured.py --write makes it")


if __name__ == "__main__":
    main()
