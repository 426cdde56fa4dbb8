"""Exact reports of the columns of a frame of pandas.

    heavy.pandas.report(frame, "client", "bytes", k=100)
    heavy.pandas.report(frame, ["host", "path"])          # several columns are one key
"""
from __future__ import annotations

import csv
import importlib
import io
from typing import Any, List

from ._columns import ANY, items_of
from ._files import Summary
from ._options import Threshold, share_of

__all__ = ["report"]


def report(frame: Any, key: Any, weight: Any = None, k: int = 100, threshold: Threshold = None) -> Any:
    """The keys of a frame's column that weigh more than the total divided by k + 1, or more than a share of it that is at
    least that, as a frame: the column of keys, and that of their exact weights, by falling weight and then by rising key.
    Weights are those of another column of integers, or 1 each in a column `weight`, which is called `count` where a column of
    the key is called so. Keys are texts, or bytes. A list of columns, which have texts, is one key: the CSV text of their
    fields, in whose order equal weights are. The frame has these columns, and then that of the weights.

    >>> import pandas
    >>> frame = pandas.DataFrame({"client": ["a", "b", "a"], "bytes": [5, 2, 1]})
    >>> report(frame, "client", "bytes", k=1)
      client  bytes
    0      a      6
    >>> report(frame, ["client", "client"], k=1)
    Traceback (most recent call last):
    ValueError: key must name different columns, not ['client', 'client']
    """
    pandas = importlib.import_module("pandas")
    if not isinstance(frame, pandas.DataFrame):
        raise TypeError(f"a DataFrame of pandas is required, not {type(frame).__name__!r}")
    names = key if isinstance(key, list) else [key]
    if not names or len(dict.fromkeys(names)) < len(names):
        raise ValueError(f"key must name {'different columns' if names else 'a column'}, not {key!r}")
    keys = _joined(frame, names) if len(names) > 1 else _column(frame, names[0])
    # a report doesn't depend on the order of items, so equal keys may be one
    items = items_of(keys, None if weight is None else _column(frame, weight), ANY)
    share = share_of(threshold)
    summary = Summary(k=k, text=items.columns.text)
    summary._add(items)
    rows = summary._confirm(items, share)
    last = next(name for name in ("weight", "count", "total") if name not in names) if weight is None else weight
    told = [(*_fields_of(row.key), row.weight) for row in rows] if len(names) > 1 else rows
    return pandas.DataFrame(told, columns=[*names, last])


def _joined(frame: Any, names: List[Any]) -> Any:
    """The CSV text of each row's fields, as a column."""
    pandas = importlib.import_module("pandas")
    columns = [_field_texts(name, _column(frame, name)) for name in names]
    whole = columns[0]
    for column in columns[1:]:
        whole = whole + "," + column
    return pandas.Series(whole, dtype=object)


def _field_texts(name: Any, column: Any) -> Any:
    """The fields of a column of texts as CSV has them, each different one made once."""
    pandas, numpy = importlib.import_module("pandas"), importlib.import_module("numpy")
    codes, different = pandas.factorize(column, use_na_sentinel=True)
    fields = numpy.empty(len(different), dtype=object)
    for code, text in enumerate(different):
        if not isinstance(text, str):
            told = f"keys[{codes.tolist().index(code)}]: column {name!r} must have texts, not {type(text).__name__!r}"
            raise TypeError(f"{told}; of numbers give their texts, as frame.astype(str)")
        fields[code] = '"' + text.replace('"', '""') + '"' if any(it in text for it in '",\r\n') else text
    if (codes < 0).any():
        raise TypeError(f"keys[{codes.tolist().index(-1)}]: column {name!r} must have texts, and has no value there")
    return fields[codes]


def _fields_of(key: str) -> List[str]:
    """The fields of a CSV text."""
    return next(csv.reader(io.StringIO(key, newline="")))


def _column(frame: Any, name: Any) -> Any:
    """A column of a frame, by its name."""
    if name not in frame.columns:
        raise KeyError(f"the frame has no column {name!r}, but {', '.join(map(repr, frame.columns))}")
    column = frame[name]
    if column.ndim != 1:
        raise KeyError(f"the frame has more than one column {name!r}")
    return column
