#!/usr/bin/env python3
"""Summarises the lines of a pipe minute by minute, and tells after each minute what came in the last hour.

usage: COMMAND | examples/stream.py FOLDER [K [SECONDS]]

Each line is a key. After each minute, or so many SECONDS, the summary of its lines is saved in FOLDER, where the last
sixty stay, also when this is started anew. They are merged, and the rows `key,low,high` of the merge are printed, with a
blank line behind them. So is what came last where the input ends. The library is found as python/README.md says.
"""
import os
import select
import sys
import time
from pathlib import Path
from typing import Iterator

sys.path.insert(0, str(Path(__file__).resolve().parent.parent / "python"))
import heavy  # noqa: E402


def summaries(k: int, seconds: float) -> Iterator[heavy.Summary]:
    """The summary of the lines of each minute, until the input ends. A line that is no key is left out."""
    summary, rest, end = heavy.Summary(k=k), b"", time.monotonic() + seconds
    read = b"\n"
    while read:
        wait = end - time.monotonic()
        if wait <= 0:
            yield summary
            summary, end = heavy.Summary(k=k), end + seconds
        elif select.select([0], [], [], wait)[0]:
            read = os.read(0, 1 << 16)
            *lines, rest = (rest + read).split(b"\n") if read else [rest, b""]
            summary.update_many(line for line in lines if 1 <= len(line) <= 4096)
    yield summary


def main() -> None:
    if not 2 <= len(sys.argv) <= 4:
        sys.exit("usage: COMMAND | examples/stream.py FOLDER [K [SECONDS]]")
    folder, k, seconds = (sys.argv[1:] + ["100", "60"][len(sys.argv) - 2 :])[:3]
    os.makedirs(folder, exist_ok=True)
    for summary in summaries(int(k), float(seconds)):
        summary.save(Path(folder, f"{time.time_ns():020}.heavy"))
        saved = sorted(Path(folder).glob("*.heavy"))
        for old in saved[:-60]:
            old.unlink()
        hour = heavy.merge(map(heavy.Summary.load, saved[-60:]))
        sys.stdout.buffer.write(hour.list_csv() + b"\n")
        sys.stdout.flush()


if __name__ == "__main__":
    main()
