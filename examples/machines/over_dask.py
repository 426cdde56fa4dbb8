#!/usr/bin/env python3
"""Prints the report of `heavy report` over the records of all parts, which are read where they lie: the workers of Dask's
distributed scheduler summarise and condense them, by the module heavy.dask.

usage: over_dask.py [--scheduler ADDRESS] [OPTION]... K PART...

A PART is a path that each worker can read, or HOST:PATH where only the workers at the address HOST can. Without a
scheduler the workers are this machine's cores. Each machine has the module `heavy`, as by its wheel.

An OPTION is one of `heavy report` that says how records are read or which rows are printed; -k N stands for K.
"""
import argparse
import contextlib
import csv
import logging
import os
import re
import sys
from pathlib import Path

import dask
from dask.delayed import Delayed
from dask.distributed import Client, LocalCluster

sys.path.append(str(Path(__file__).resolve().parent.parent.parent / "python"))
import heavy  # noqa: E402

ROW = re.compile(rb'((?:"(?:[^"]|"")*"|[^",\r\n]*),([0-9.]+))\n')


def number(word: str) -> int:
    """A number in digits alone."""
    if not re.fullmatch("[0-9]+", word):
        raise ValueError(word)
    return int(word)


def options() -> argparse.Namespace:
    """The options, K and the parts, as the program takes options."""
    usage = "over_dask.py [--scheduler ADDRESS] [OPTION]... K PART..."
    words = argparse.ArgumentParser(usage=usage, allow_abbrev=False)
    words.add_argument("--scheduler")
    words.add_argument("-k", "--k", type=number)
    words.add_argument("-t", "--threshold")
    words.add_argument("-n", "--top", type=number)
    words.add_argument("--share", action="store_true")
    words.add_argument("-d", "--delimiter", default=",")
    words.add_argument("-H", "--header", action="store_true")
    words.add_argument("--key")
    words.add_argument("--weight")
    words.add_argument("--allow-zero", action="store_true")
    words.add_argument("--decimals", type=number, default=0)
    words.add_argument("parts", nargs="+")
    given = words.parse_args()
    try:
        given.k = number(given.parts.pop(0)) if given.k is None else given.k
    except ValueError as error:
        words.error(f"K has to be a number, not {str(error)!r}")
    if not given.parts:
        words.error("a part is wanted")
    return given


def layout_of(given: argparse.Namespace) -> heavy.Layout:
    """How records are read. The columns of a key are a record of CSV."""
    return heavy.Layout(
        delimiter=b"\t" if given.delimiter == r"\t" else os.fsencode(given.delimiter),
        header=given.header,
        key=None if given.key is None else next(csv.reader([given.key])),
        weight=given.weight,
        decimals=given.decimals,
        allow_zero=given.allow_zero,
    )


def part_of(word: str) -> Delayed:
    """A part, for the workers at its address if it has one. No host begins with a slash."""
    host, colon, path = word.partition(":")
    has_host = colon and not word.startswith("/")
    with dask.annotate(workers=[host]) if has_host else contextlib.nullcontext():
        return dask.delayed(str)(path if has_host else word)


def share(weight: bytes, total: int) -> bytes:
    """The share of the total that a weight is, in percent with four digits, rounded down: both count in the same units."""
    percents, rest = divmod(int(weight.replace(b".", b"")) * 10**6 // total, 10**4)
    return b",%d.%04d" % (percents, rest)


def report(given: argparse.Namespace, layout: heavy.Layout) -> bytes:
    """The rows that are asked for. For shares all parts are read once more, since the total isn't in the rows."""
    parts = [*map(part_of, given.parts)]
    text = heavy.dask.report_csv(parts, k=given.k, threshold=given.threshold, layout=layout)
    rows = ROW.findall(text)[: given.top]
    total = heavy.dask.summary(parts, k=1, layout=layout).total if given.share and rows else 0
    return b"".join(row + (share(weight, total) if given.share else b"") + b"\n" for row, weight in rows)


def main() -> None:
    given = options()
    try:
        layout = layout_of(given)
        # of no records there are no rows
        heavy.report_csv(b"", given.k, given.threshold, layout=layout)
    except ValueError as refused:
        print(f"over_dask: {refused}", file=sys.stderr)
        sys.exit(2)
    # whoever starts workers stops them before the scheduler, as closing a LocalCluster does
    cluster = given.scheduler or LocalCluster(
        threads_per_worker=1, dashboard_address="127.0.0.1:0", silence_logs=logging.ERROR
    )
    try:
        with Client(cluster):
            sys.stdout.buffer.write(report(given, layout))
    except heavy.HeavyError as refused:
        print(f"over_dask: {refused}" if refused.part is None else f"over_dask: {refused.part}: {refused}", file=sys.stderr)
        sys.exit(refused.status)
    except OSError as error:
        print(f"over_dask: {error}", file=sys.stderr)
        sys.exit(1)
    finally:
        if not given.scheduler:
            cluster.close()


if __name__ == "__main__":
    main()
