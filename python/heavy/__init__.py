"""The heavy keys of weighted records: summaries, merges, questions and exact reports, over the library `libheavy.so.1`.

    heavy.report("monday.csv", k=100)             # the heavy keys with their weights, exact
    heavy.top("monday.csv", 10)                   # the ten greatest keys, exact
    summary = heavy.Summary.of_csv("monday.csv", k=100)
    both = heavy.merge(summary, heavy.Summary(saved))
    both.update("10.0.0.1", 5)                    # one item more; heavy.Summary(k=100) begins empty
    both.update_many({"10.0.0.1": 5})             # many: keys, keys and weights, or a mapping
    both.ask(b"10.0.0.1")                         # (least, most)
    both["10.0.0.1"].low                          # a mapping from keys to the least and the most
    both.top(10)                                  # rows of a key, its least and its most
    both.confirm(records)                         # rows of a key and its weight, exact
    both.condense(part)                           # fewer records that confirm the same

What is given as bytes may be any object with the buffer protocol, or an open binary file, which is read to its end.
Records may also be in a file that a str or a path names, in any `Layout`. Keys and weights may be arrays of numpy, columns
of pandas, or what Arrow's interface gives; none of these libraries is needed. `heavy.pandas` reports the heavy keys of a
frame, and `heavy.dask` those of a collection.

What has the wrong type is a `TypeError`, and a wrong value a `ValueError`: a `HeavyError`, with the program's text and
exit status, where the library refuses it. Any thread may make any call: each object has a lock of its own, so that its
changes are made one after the other, and a read finds what is there between two of them. The library is looked for where
LIBHEAVY says, in this folder, and then where the system looks.
"""
import re as _re
from pathlib import Path as _Path

from . import dask, pandas
from ._faults import Cause, Kind
from ._files import Info, Summary, Table, merge, report, report_csv, top, top_csv
from ._library import HeavyError
from ._options import Layout
from ._records import Bounds, Interval, Row
from ._window import Window

__all__ = [
    "Bounds", "Cause", "HeavyError", "Info", "Interval", "Kind", "Layout", "Row", "Summary", "Table", "Window", "merge", "report",
    "report_csv", "top", "top_csv",
]

for _public in (
    Bounds, Cause, HeavyError, Info, Interval, Kind, Layout, Row, Summary, Table, Window, merge, report, report_csv, top, top_csv,
):
    _public.__module__ = __name__


def _version() -> str:
    """The version that a wheel has beside this file, or in the sources that of the library's header."""
    folder = _Path(__file__).resolve().parent
    if (folder / "VERSION").exists():
        return (folder / "VERSION").read_text().strip()
    header = folder.parent.parent / "include" / "heavy.h"
    found = _re.search(r'^#define HEAVY_RELEASE "(.*)"', header.read_text(), _re.M) if header.exists() else None
    return found[1] if found else "unknown"


__version__ = _version()
