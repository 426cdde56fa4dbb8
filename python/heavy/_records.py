"""Records as they are read: buffers, open files and named ones, whole or in parts; and the rows that a report prints."""
from __future__ import annotations

import contextlib
import io
import os
import re
from decimal import Decimal
from typing import Any, BinaryIO, Callable, Iterator, NamedTuple, NoReturn, Union

from . import _columns
from ._faults import Kind
from ._library import BAD_RECORD, SMALL, Handle, HeavyError, calls, lent, say
from ._options import Layout, lines_in

Given = Union[bytes, bytearray, memoryview, BinaryIO]
Named = Union[str, "os.PathLike[str]"]
Records = Union[Given, Named]

_FIRST, _CHUNK = 1 << 24, 1 << 20  # bytes of a file of records that are read at first, and then at a time
_NO_NUMBER = "an Interval is no number, but the two bounds of a weight; take its low or its high"
_ROW = re.compile(rb'(?:"((?:[^"]|"")*)"|([^",\r\n]*)),([0-9.]+)\n')


class Row(NamedTuple):
    """A key, and what it weighs: a number, or a `Decimal` where records have decimals."""

    key: Any
    weight: Any


class Interval(NamedTuple):
    """The least and the most that a key can weigh, ordered by the least and then by the most. It is no number: a sum or a
    difference with it, as a Counter makes them, is a `TypeError` that says what to take.

    >>> summary = Summary.of_csv(b"a,5\\nb,2\\n", k=1)
    >>> summary["a"]
    Interval(low=3, high=5)
    >>> sum(summary.values())
    Traceback (most recent call last):
    TypeError: an Interval is no number, but the two bounds of a weight; take its low or its high
    """

    low: int
    high: int

    def __add__(self, other: object) -> NoReturn:
        raise TypeError(_NO_NUMBER)

    def __radd__(self, other: object) -> NoReturn:
        raise TypeError(_NO_NUMBER)

    def __sub__(self, other: object) -> NoReturn:
        raise TypeError(_NO_NUMBER)

    def __rsub__(self, other: object) -> NoReturn:
        raise TypeError(_NO_NUMBER)


class Bounds(NamedTuple):
    """A key, and the least and the most that it can weigh."""

    key: Any
    low: int
    high: int


def bytes_of(given: Given) -> bytes:
    """What a buffer holds, or a file still has."""
    read = getattr(given, "read", None)
    held = given if read is None else read()
    if isinstance(held, bytes):
        return held
    if _columns.columns_named(held) is not None:
        kind = type(held).__name__
        raise TypeError(f"a bytes-like object is required, not {kind!r}; heavy.pandas.report takes a frame and its columns")
    try:
        view = memoryview(held)
    except TypeError:
        advice = "" if isinstance(held, str) else "; update_many takes keys and weights"
        raise TypeError(f"a bytes-like object is required, not {type(held).__name__!r}{advice}") from None
    if view.ndim == 0:
        raise TypeError(f"a bytes-like object is required, not {type(held).__name__!r}")
    return bytes(view)


def records_in(given: Records) -> bytes:
    """What a named file holds, or a buffer, or an open file still has."""
    if isinstance(given, (str, os.PathLike)):
        with open(given, "rb") as file:
            return file.read()
    return bytes_of(given)


def is_file(records: Records) -> bool:
    """Whether records stand in a file, named or open, which can be read in parts."""
    return isinstance(records, (str, os.PathLike)) or hasattr(records, "read")


def whole_records(text: bytes, layout: Layout) -> int:
    """How many bytes of a part of a text are whole records, behind which the text may be cut before a line feed."""
    return int(calls.heavy_whole_records(*lent(text), layout._separator[0]))


def parts_read(records: Records, layout: Layout) -> Iterator[bytes]:
    """Records in parts of whole ones. A file is read 16 megabytes at first and then one at a time, and more where a record is
    longer."""
    if isinstance(records, (str, os.PathLike)):
        with open(records, "rb") as file:
            yield from parts_read(file, layout)
        return
    read: Callable[[int], bytes] = getattr(records, "read", None) or io.BytesIO(bytes_of(records)).read
    held, wanted = bytearray(), _FIRST
    while True:
        more = bytes_of(read(_CHUNK))
        held += more
        if more and len(held) < wanted:
            continue
        rest = bytes(held)
        cut = whole_records(rest, layout) if more else len(rest)
        if cut:
            yield rest[:cut]
            del held[:cut]
        if not more:
            return
        wanted = _CHUNK if cut else 2 * len(held)


def parts_of(text: bytes, count: int, layout: Layout) -> list[bytes]:
    """A text in at most `count` parts of whole records, in order, each with the header in front."""
    cuts = [0]
    for i in range(1, count):
        cuts.append(cuts[-1] + whole_records(text[cuts[-1] : len(text) * i // count], layout))
    parts = [text[begin:end] for begin, end in zip(cuts, [*cuts[1:], len(text)]) if begin < end]
    header = layout._header_of(text)
    return [*parts[:1], *(header + part for part in parts[1:])] or [b""]


def with_text(saved: bytes, text: bytes, layout: Layout) -> bytes:
    """A saved file with the records of a text added."""
    value = Handle.loaded(saved)
    value.make(calls.heavy_update_records, *lent(text), *layout._words())
    return value.saved(guess=len(saved) + SMALL)


def with_records(saved: bytes, records: Records, layout: Layout) -> bytes:
    """A saved file with records added, or the refusal of the first bad one, by its number among all."""
    before, lines, header, last, value = 0, 0, b"", b"", None
    for part in parts_read(records, layout):
        value = value or Handle.loaded(saved)
        lines -= last == b"\r" and part[:1] == b"\n"  # one line's end, in two parts
        text = header + part
        try:
            value.make(calls.heavy_update_records, *lent(text), *layout._words())
        except HeavyError as refused:
            told = _among_all(value.saved(), text, before, refused, layout) if value.info().total else refused
            raise placed(told, records, part, layout, before, lines, not header) from None
        header = header or layout._header_of(part)
        before += layout._count(text) - (1 if header else 0)
        lines, last = lines + lines_in(part), part[-1:]
    return value.saved(guess=len(saved) + SMALL) if value else saved


def placed(
    refused: HeavyError, records: Records, part: bytes, layout: Layout, before: int = 0, lines: int = 0, first: bool = True
) -> HeavyError:
    """The refusal of records that says where the bad one stands, in a part behind so many records and lines."""
    if refused.kind is Kind.BAD_RECORD:
        found = layout._line_of(part, refused.number - before + (1 if first and layout.header else 0))
        refused.line = None if found is None else lines + found
    if refused.kind in (Kind.BAD_RECORD, Kind.NO_COLUMN):
        refused.path = records if isinstance(records, (str, os.PathLike)) else None
        place = [] if refused.path is None else [os.fsdecode(refused.path)]
        place += [] if refused.line is None else [f"line {refused.line}"]
        say(refused, ", ".join(place)) if place else None
    return refused


@contextlib.contextmanager
def placing(records: Records, text: bytes, layout: Layout) -> Iterator[None]:
    """Has a refusal of records, which are this text, say where the bad one stands."""
    try:
        yield
    except HeavyError as refused:
        placed(refused, records, text, layout)
        raise


def _among_all(saved: bytes, text: bytes, before: int, refused: HeavyError, layout: Layout) -> HeavyError:
    """The refusal of a part, by its number among all records. Within a part the library tests the records first and then
    the total, so the first record is sought by which the part is refused."""
    status, kind, cause, number = refused.numbers
    if kind != BAD_RECORD:
        return refused
    records = layout._records_of(text)
    header = records.pop(0) if layout.header and records else b""
    low, number = 0, len(records)
    while low + 1 < number:
        middle = (low + number) // 2
        try:
            with_text(saved, header + b"\n" + b"\n".join(records[:middle]), layout)
            low = middle
        except HeavyError as sooner:
            number, cause = middle, sooner.numbers[2]
    return HeavyError(status, kind, cause, before + number)


def rows_of(text: bytes, as_text: bool) -> list[Row]:
    """The rows of a report's text."""
    rows = []
    for quoted, plain, weight in _ROW.findall(text):
        key = quoted.replace(b'""', b'"') or plain
        number = Decimal(weight.decode()) if b"." in weight else int(weight)
        rows.append(Row(_columns.text_of_bytes(key) if as_text else key, number))
    return rows
