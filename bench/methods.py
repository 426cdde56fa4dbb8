#!/usr/bin/env python3
"""Times `heavy summarise --k 65535` by both methods, on streams that make counters change hands.

usage: bench/methods.py [RUNS [RECORDS]]

Each stream first fills all counters, and then goes on with RECORDS records. Both methods have to save the same bytes. Prints the
processor time of each method's median in seconds, with the runs interleaved, and the ratio of the greater to the lesser; the
last line has the largest ratio.
"""
import itertools
import os
import random
import statistics
import subprocess
import sys
import tempfile
from collections.abc import Callable, Iterator
from pathlib import Path

import programs

K = 65_535
# the most that one method may take of the time of the other
MOST = 1.1
METHODS = ("mg", "ss")
Records = Iterator[tuple[str, int]]


def light_newcomers() -> Records:
    """Each newcomer is lighter than the least counter."""
    return ((f"new{place}", 1) for place in itertools.count())


def heavy_newcomers() -> Records:
    """Each newcomer is heavier than all counters."""
    return ((f"new{place}", 10**6 + place) for place in itertools.count())


def turns() -> Records:
    """One key more than there are counters, in turn: with Space-Saving each comes just after it was dropped."""
    return ((f"turn{place % (K + 2)}", 100) for place in itertools.count())


def hits_between() -> Records:
    """A newcomer behind each hit of a key that has a counter, so that keys have to move before one is dropped."""
    return ((f"new{place}", 1) if place % 2 else (f"old{place % K}", 1000) for place in itertools.count())


def falling_weights() -> Records:
    """Newcomers whose weights fall, so that the last one has the least counter."""
    return ((f"new{place}", max(1, 10**6 - place)) for place in itertools.count())


STREAMS: dict[str, Callable[[], Records]] = {
    "light newcomers": light_newcomers, "heavy newcomers": heavy_newcomers, "keys in turn": turns,
    "hits between newcomers": hits_between, "falling weights": falling_weights,
}


def write_stream(path: Path, stream: Records, records: int) -> None:
    """Writes keys that take all counters, in an order without meaning, and then the records of a stream."""
    places = list(range(K + 1))
    random.Random(1).shuffle(places)
    with open(path, "w", encoding="ascii") as file:
        file.writelines(f"old{place},{100 + place % 7}\n" for place in places)
        file.writelines(f"{key},{weight}\n" for key, weight in itertools.islice(stream, records))


def processor_seconds(words: list[str], saved: Path) -> float:
    with open(saved, "wb") as out:
        process = subprocess.Popen(words, stdout=out)
        _, status, used = os.wait4(process.pid, 0)
    process.returncode = os.waitstatus_to_exitcode(status)
    assert process.returncode == 0, words
    return used.ru_utime + used.ru_stime


def main() -> None:
    numbers = [int(word) for word in sys.argv[1:]]
    runs, records = (numbers + [5, 200_000][len(numbers):])[:2]
    heavy, worst = programs.heavy(), 0.0
    with tempfile.TemporaryDirectory() as folder:
        path = Path(folder) / "records.csv"
        saved = [Path(folder) / method for method in METHODS]
        for name, stream in STREAMS.items():
            write_stream(path, stream(), records)
            words = [[heavy, "summarise", "--k", str(K), "--method", method, str(path)] for method in METHODS]
            times = [[processor_seconds(*run) for run in zip(words, saved)] for _ in range(runs)]
            assert saved[0].read_bytes() == saved[1].read_bytes(), name
            one, other = (statistics.median(side) for side in zip(*times))
            ratio = max(one, other) / min(one, other)
            worst = max(worst, ratio)
            print(f"{name}: mg {one:.3f} s, ss {other:.3f} s, {ratio:.2f}", flush=True)
    print(f"the largest ratio is {worst:.2f}, and {MOST} is the most")


if __name__ == "__main__":
    main()
