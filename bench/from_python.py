#!/usr/bin/env python3
"""Times the calls of the Python module beside collections.Counter, pandas' groupby and DataSketches, where these are
installed, over three streams of items: by Zipf's law over 100,000 keys, all different, and over 100 keys. Prints a table of
medians: how often the processor time of what stands beside is that of ours, run by run, which are interleaved.

usage: bench/from_python.py [RUNS [ROWS]]

There are 5 runs over 600,000 items, if nothing else is said, and k is 1,000. The column of Arrow strings is one of pyarrow,
or where that isn't installed the same buffers through Arrow's C interface.
"""
import collections
import csv
import ctypes
import itertools
import random
import statistics
import sys
import tempfile
import time
from pathlib import Path
from typing import Any, Callable

import programs

K = 1_000
PARTS = 1_000  # summaries that are merged
STREAMS = ("Zipf", "all different", "few keys")
Cell = Callable[[], Any]


class Arrow:
    """Texts as Arrow's C interface gives them."""

    def __init__(self, heavy: Any, texts: list[str]) -> None:
        data = [text.encode() for text in texts]
        offsets = [0, *itertools.accumulate(map(len, data))]
        self.held = ctypes.create_string_buffer(b"".join(data)), (ctypes.c_int32 * len(offsets))(*offsets)
        places = (ctypes.c_void_p * 3)(None, ctypes.addressof(self.held[1]), ctypes.addressof(self.held[0]))
        self.array = heavy._columns._ArrowArray(length=len(texts), n_buffers=3, buffers=places)
        self.schema = heavy._columns._ArrowSchema(format=b"u")

    def __arrow_c_array__(self, requested: object = None) -> tuple[object, object]:
        new = ctypes.pythonapi.PyCapsule_New
        new.restype, new.argtypes = ctypes.py_object, [ctypes.c_void_p, ctypes.c_char_p, ctypes.c_void_p]
        return tuple(new(ctypes.addressof(it), name, None) for it, name in (
            (self.schema, b"arrow_schema"), (self.array, b"arrow_array"),
        ))


def module(name: str) -> Any:
    """A module, where it is installed."""
    try:
        return __import__(name)
    except ImportError:
        return None


def arrow(heavy: Any, texts: list[str]) -> Any:
    pyarrow = module("pyarrow")
    return pyarrow.array(texts) if pyarrow else Arrow(heavy, texts)


def grown(heavy: Any, *words: Any) -> Any:
    summary = heavy.Summary(k=K)
    summary.update_many(*words)
    return summary


def updated(summary: Any, texts: list[str]) -> None:
    for text in texts:
        summary.update(text)


def counted(texts: list[str]) -> None:
    counter: dict[str, int] = {}
    for text in texts:
        counter[text] = counter.get(text, 0) + 1


def of_csv(path: Path) -> Any:
    counter: collections.Counter[str] = collections.Counter()
    with open(path, newline="") as file:
        for key, weight in csv.reader(file):
            counter[key] += int(weight)
    return counter


def added(counters: list[Any]) -> Any:
    whole: collections.Counter[str] = collections.Counter()
    for counter in counters:
        whole.update(counter)
    return whole


def sketched(sketches: Any, texts: list[str]) -> Any:
    sketch = sketches.frequent_strings_sketch(10)
    for text in texts:
        sketch.update(text)
    return sketch


def united(sketches: Any, parts: list[Any]) -> Any:
    sketch = sketches.frequent_strings_sketch(10)
    for part in parts:
        sketch.merge(part)
    return sketch


def rows(heavy: Any, texts: list[str], weights: list[int], path: Path) -> dict[str, dict[str, Cell]]:
    """What is timed: for each call ours first, and then what stands beside it."""
    pandas, sketches = module("pandas"), module("datasketches")
    counter = collections.Counter(texts)
    summary = grown(heavy, texts)
    parts = [texts[at::PARTS] for at in range(PARTS)]
    summaries, counters = [grown(heavy, part) for part in parts], [*map(collections.Counter, parts)]
    made: dict[str, dict[str, Cell]] = {
        "update in a loop": {"heavy": lambda: updated(heavy.Summary(k=K), texts), "dict": lambda: counted(texts)},
        "update_many of a list": {"heavy": lambda: grown(heavy, texts), "Counter": lambda: collections.Counter(texts)},
        "update_many of a Counter": {"heavy": lambda: grown(heavy, counter), "Counter": lambda: counter + counter},
        "of_csv": {"heavy": lambda: heavy.Summary.of_csv(path, K), "csv, Counter": lambda: of_csv(path)},
        "top(10)": {"heavy": lambda: summary.copy().top(10), "Counter": lambda: counter.most_common(10)},
        f"merge of {PARTS:,}": {"heavy": lambda: heavy.merge(summaries), "Counter": lambda: added(counters)},
    }
    if sketches:
        made["update in a loop"]["DataSketches"] = lambda: sketched(sketches, texts)
        frequent = [sketched(sketches, part) for part in parts]
        made[f"merge of {PARTS:,}"]["DataSketches"] = lambda: united(sketches, frequent)
    if pandas:
        frame = pandas.DataFrame({"key": pandas.Series(texts, dtype=object), "weight": weights})
        group = {"groupby": lambda: frame.groupby("key")["weight"].sum()}
        strings = arrow(heavy, texts)
        made["update_many of objects"] = {"heavy": lambda: grown(heavy, frame["key"], frame["weight"]), **group}
        made["update_many of Arrow strings"] = {"heavy": lambda: grown(heavy, strings, frame["weight"]), **group}
        made["heavy.pandas.report"] = {"heavy": lambda: heavy.pandas.report(frame, "key", "weight", K), **group}
        made["of_csv"]["read_csv, groupby"] = lambda: pandas.read_csv(path, names=["key", "weight"]).groupby("key")["weight"].sum()
    return made


def stream(kind: str, many: int, draw: random.Random) -> list[str]:
    """So many keys of a stream."""
    different = {"Zipf": 100_000, "all different": many, "few keys": 100}[kind]
    keys = [f"10.{i >> 16}.{i >> 8 & 255}.{i & 255}" for i in range(different)]
    if different == many:
        return draw.sample(keys, many)
    return draw.choices(keys, [1 / (rank + 1) for rank in range(different)], k=many)


def ratios(cells: dict[str, Cell], runs: int) -> dict[str, float]:
    """For each that stands beside, the median of how often its time is in that of the first, run by run."""
    times: dict[str, list[float]] = {name: [] for name in cells}
    for _ in range(runs):
        for name, cell in cells.items():
            begin = time.process_time()
            cell()
            times[name].append(time.process_time() - begin)
    ours, *others = times
    return {name: statistics.median(one / two for one, two in zip(times[ours], times[name])) for name in others}


def measured(heavy: Any, room: Path, kind: str, runs: int, many: int) -> dict[tuple[str, str], float]:
    """The ratios of all calls over a stream."""
    draw = random.Random(1)
    texts, path = stream(kind, many, draw), room / "records.csv"
    weights = [draw.randrange(1, 1500) for _ in texts]
    path.write_text("".join(f"{key},{weight}\n" for key, weight in zip(texts, weights)))
    timed = {call: ratios(cells, runs) for call, cells in rows(heavy, texts, weights, path).items()}
    return {(call, name): ratio for call, beside in timed.items() for name, ratio in beside.items()}


def main() -> None:
    runs, many = ([int(word) for word in sys.argv[1:]] + [5, 600_000][len(sys.argv) - 1 :])[:2]
    with tempfile.TemporaryDirectory() as folder:
        room = Path(folder)
        if not programs.library(room):
            sys.exit("bench/from_python.py wants a compiler of C")
        import heavy

        columns = [measured(heavy, room, kind, runs, many) for kind in STREAMS]
    print(f"| call | beside | {' | '.join(STREAMS)} |\n|---|---|{'---|' * len(STREAMS)}")
    for call, name in columns[0]:
        print(f"| {call} | {name} | {' | '.join(f'{column[call, name]:.2f}' for column in columns)} |")


if __name__ == "__main__":
    main()
