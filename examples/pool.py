#!/usr/bin/env python3
"""Prints the report of a file of records, which the processes of a pool read part by part: what `heavy report` prints.

usage: examples/pool.py FILE [K [PROCESSES]]

Each process summarises its part; the summaries are merged; each process condenses its part by what was merged, and the
condensed parts are confirmed together. Only summaries and condensed records go from one process to another. The parts
are cut after line feeds, so no key may have one. The library is found as python/README.md says, as by
LIBHEAVY=/usr/local/lib/libheavy.so.1.
"""
import multiprocessing
import sys
from functools import partial
from pathlib import Path

sys.path.insert(0, str(Path(__file__).resolve().parent.parent / "python"))
import heavy  # noqa: E402

Part = tuple[str, int, int]  # a file, and from where to where


def parts_of(path: str, count: int) -> list[Part]:
    """The file in so many parts of whole lines."""
    cuts = [0]
    with open(path, "rb") as file:
        size = file.seek(0, 2)
        for i in range(1, count):
            file.seek(max(size * i // count, cuts[-1]))
            file.readline()
            cuts.append(file.tell())
    cuts.append(size)
    return [(path, begin, end) for begin, end in zip(cuts, cuts[1:])]


def records_of(part: Part) -> bytes:
    path, begin, end = part
    with open(path, "rb") as file:
        file.seek(begin)
        return file.read(end - begin)


def summarise(k: int, part: Part) -> bytes:
    return heavy.Summary.of_csv(records_of(part), k).to_bytes()


def condense(summary: bytes, part: Part) -> bytes:
    return heavy.Summary(summary).condense(records_of(part))


def report(path: str, k: int, processes: int) -> bytes:
    parts = parts_of(path, processes)
    # spawned, not forked: the library may not be called in the forked child of a process with threads
    with multiprocessing.get_context("spawn").Pool(processes) as pool:
        whole = heavy.merge(*map(heavy.Summary, pool.map(partial(summarise, k), parts)))
        condensed = pool.map(partial(condense, whole.to_bytes()), parts)
    return whole.confirm_csv(b"".join(condensed))


def main() -> None:
    if not 2 <= len(sys.argv) <= 4:
        sys.exit("usage: examples/pool.py FILE [K [PROCESSES]]")
    path, k, processes = (sys.argv[1:] + ["100", "4"][len(sys.argv) - 2 :])[:3]
    try:
        sys.stdout.buffer.write(report(path, int(k), int(processes)))
    except heavy.HeavyError as error:
        print(f"heavy: {error}", file=sys.stderr)
        sys.exit(error.status)


if __name__ == "__main__":
    main()
