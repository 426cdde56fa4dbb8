"""Saved files as objects: summaries, tables, their merge, and the report that two passes make."""
from __future__ import annotations

import array
import copy
import ctypes
import html
import importlib
import itertools
import math
import os
import secrets
import struct
from collections.abc import ItemsView, Mapping, ValuesView
from concurrent.futures import ThreadPoolExecutor
from pathlib import Path
from typing import Any, Dict, Iterable, Iterator, List, NamedTuple, Optional, Tuple, TypeVar, overload

from ._columns import ANY, Columns, Items, Key, Keys, batches_of, bytes_of_key, columns_of, comes_by_batches, integer_of_weight
from ._columns import items_of, lent_items, sum_of, text_of_bytes
from ._growing import Growing
from ._library import BAD_METHOD, BAD_RECORD, BAD_THRESHOLD, LARGE, MAX_KEY, MAX_TOTAL, MIXED_KINDS, NOT_COUNTERS, REFUSED
from ._library import SMALL, TABLE, TOTAL_TOO_LARGE, USAGE, Entry, Handle, HeavyError, Pair, answer, calls
from ._library import flag, integer, joined, lent, random_words, say_added, word
from ._lock import WITHIN, Lock, changing, reading
from ._options import PLAIN, Layout, Threshold, error_of, share_of
from ._records import Bounds, Given, Interval, Named, Records, Row, bytes_of, is_file, parts_of, placing, records_in
from ._records import rows_of, with_records

_COLUMN_BATCH = 1 << 20  # items of a column that the library adds at once
_METHODS = ("mg", "ss")
_MOST_KEYS, _WIDEST, _DEEPEST = 65535, 65536, 16  # the largest k, width and depth
_SHOWN = 20  # the most rows that a notebook shows
File = TypeVar("File", bound="_File")


class Info(NamedTuple):
    """What is in a saved file. What its kind has not is None."""

    version: int
    kind: str
    total: int
    k: Optional[int] = None
    keys: Optional[int] = None
    counters: Optional[int] = None
    slack: Optional[int] = None
    depth: Optional[int] = None
    width: Optional[int] = None


def _info(saved: bytes) -> Info:
    """What is in a saved file."""
    words, version = Handle.loaded(saved).info(), saved[3:4].decode("latin-1")
    if words.kind == TABLE:
        return Info(int(version), "table", words.total, depth=words.depth, width=words.width)
    return Info(int(version), "summary", words.total, words.k, words.keys, words.counters, words.slack)


def _asked_of(saved: bytes, key: bytes) -> Tuple[int, int]:
    """The least and the most that a key's weight can be, by a saved file."""
    both = Pair()
    Handle.loaded(saved).make(calls.heavy_ask, *lent(key), ctypes.byref(both))
    return both.low, both.high


def _with_items(saved: bytes, columns: Columns, weights: Any) -> bytes:
    """A saved file with these items added, at most `_COLUMN_BATCH` at a time."""
    data, ends, text = columns
    value = Handle.loaded(saved)
    for start in range(0, len(ends), _COLUMN_BATCH):
        base = int(ends[start - 1]) if start else 0
        part = ends[start : start + _COLUMN_BATCH]
        if base:
            part = array.array("Q", [end - base for end in part.tolist()])
        words = data if len(part) == len(ends) else columns.between(base, base + int(part[-1]))
        numbers = None if weights is None else weights[start : start + _COLUMN_BATCH]
        value.make(calls.heavy_update_items, *lent_items(Columns(words, part, text), numbers))
    return value.saved(guess=len(saved) + min(len(data) + 10 * len(ends), LARGE))


def _empty(k: int) -> bytes:
    """The saved summary of no items."""
    return Handle(calls.heavy_new_summary, word("k", k), random_words()).saved(guess=17)


def _empty_table(width: int, depth: int, seed: int) -> bytes:
    """The saved table of no items."""
    shape, drawn = (word("width", width), word("depth", depth)), integer("seed", seed)
    if not 0 <= drawn < 2**64:
        raise ValueError("seed must be from 0 to 2^64 - 1")
    room = 26 + min(shape[1], 16) * (16 + 8 * min(shape[0], 65536))
    return Handle(calls.heavy_new_table, *shape, drawn).saved(guess=room)


class _File:
    """A saved file: its bytes, or from the first item on that comes by itself the value of it that grows. Who sets `_value` owns
    the lock and holds its mutex, as does who uses one that grows. A read takes the bytes once, and then needs no lock."""

    _row = ""  # what only a file of this kind has in its description
    _other: Tuple[int, int] = (0, 0)  # the numbers of the refusal of another kind

    def __init__(self, saved: Given) -> None:
        self._value: bytes | Growing = bytes_of(saved)
        self._known: Tuple[Any, Any] = (None, None)  # the file's bytes, and what they say
        self._lock = Lock()

    def __getstate__(self) -> Dict[str, Any]:
        return self._state(self.to_bytes())

    def __setstate__(self, state: Dict[str, Any]) -> None:
        self.__dict__.update(state)
        self._lock = Lock()

    def _state(self, saved: bytes) -> Dict[str, Any]:
        """What another object has of this one, with these bytes: neither the lock nor what was read of other bytes."""
        state = {**self.__dict__, "_value": saved, "_known": (None, None)}
        del state["_lock"]
        return state

    @classmethod
    def load(cls: type[File], path: Named) -> File:
        """The file that is at this path.

        >>> import tempfile
        >>> with tempfile.TemporaryDirectory() as folder:
        ...     Summary.of_csv(b"a,5\\n").save(f"{folder}/a.heavy")
        ...     Summary.load(f"{folder}/a.heavy").ask("a")
        (5, 5)
        """
        with open(path, "rb") as file:
            return cls(file)

    def save(self, path: Named) -> None:
        """Writes the file's bytes to this path. Who reads there meanwhile reads the old file or the new one, whole."""
        whole = self.to_bytes()
        place = Path(path)
        beside = place.parent / f".{place.name}.{secrets.token_hex(8)}"
        try:
            with open(beside, "xb") as file:
                file.write(whole)
                file.flush()
                os.fsync(file.fileno())
            os.replace(beside, place)
        except BaseException:
            beside.unlink(missing_ok=True)
            raise

    def to_bytes(self) -> bytes:
        """The file's bytes with all items, as the program writes them.

        >>> Summary(Summary.of_csv(b"a,5\\n").to_bytes()).ask("a")
        (5, 5)
        """
        value = self._value
        if isinstance(value, bytes):
            return value
        with self._lock.mutex:
            value = self._value
            return value if isinstance(value, bytes) else value.to_bytes()

    def _set(self, saved: bytes) -> None:
        """Makes these the file's bytes. The caller owns the lock."""
        with self._lock.mutex:
            self._value = saved

    def _grown(self) -> Growing:
        """The file's value, which has to be of this kind, as it grows from now on. The caller owns the lock."""
        self._told()
        self._value = value = Growing(self.to_bytes())
        return value

    def copy(self: File) -> File:
        """A copy, which grows by itself.

        >>> summary = Summary.of_csv(b"a,5\\n")
        >>> other = summary.copy()
        >>> other.update("a")
        >>> summary.total, other.total
        (5, 6)
        """
        return copy.copy(self)

    def describe(self) -> Info:
        """What is in the file.

        >>> Table.of_csv(b"a,5\\n", 8, 2).describe().total
        5
        """
        return self._described(self.to_bytes())

    def _described(self, saved: bytes) -> Info:
        """What is in the file whose bytes are these."""
        known = self._known
        if known[0] is not saved:
            self._known = known = saved, _info(saved)
        found: Info = known[1]
        return found

    def describe_csv(self) -> bytes:
        """What is in the file, in the rows `name,value` that `heavy describe` prints.

        >>> Table.of_csv(b"a,5\\n", 8, 2).describe_csv().splitlines()[-3:]
        [b'depth,2', b'width,8', b'total,5']
        """
        info = self.describe()
        names = ("depth", "width", "total") if info.kind == "table" else ("k", "keys", "total", "counters", "slack")
        rows = [("version", info.version), ("kind", info.kind), *((name, getattr(info, name)) for name in names)]
        return "".join(f"{name},{value}\n" for name, value in rows).encode()

    def ask(self, key: Key) -> Tuple[int, int]:
        """The least and the most that a key's weight in the stream can be. A text is its bytes in UTF-8.

        >>> Summary.of_csv(b"a,5\\nb,2\\n", k=1).ask("a")
        (3, 5)
        """
        held = bytes_of_key(key)
        with self._lock.mutex:
            value = self._value
            if isinstance(value, Growing):
                return value.ask(held)
        return _asked_of(self.to_bytes(), held)

    def ask_many(self, keys: Iterable[Key]) -> List[Tuple[int, int]]:
        """What `ask` says of each of these keys, in order. The file is read once.

        >>> Summary.of_csv(b"a,5\\nb,2\\n").ask_many(["b", "c"])
        [(2, 2), (0, 0)]
        """
        words = columns_of(keys).words()
        value = Handle.loaded(self.to_bytes())
        out, count = value.given(calls.heavy_ask_items, *joined(words), of=Pair, guess=len(words))
        return [(low, high) for low, high in struct.iter_unpack("=QQ", memoryview(out).cast("B")[: 16 * count])]

    def update(self, key: Key, weight: int = 1) -> None:
        """Adds one item: what `update_many` does with one key and one weight, but with no copy of the file.

        >>> summary = Summary()
        >>> summary.update("a")
        >>> summary.update(b"a", 4)
        >>> summary.ask("a")
        (5, 5)
        """
        # bytes and int are most of what comes, and are tested here alone
        held = key if type(key) is bytes and 1 <= len(key) <= MAX_KEY else bytes_of_key(key)
        number = weight if type(weight) is int and 1 <= weight <= MAX_TOTAL else integer_of_weight(weight)
        lock = self._lock
        with lock.mutex:
            if lock.owner is not None:
                lock.wait()
            lock.owner = WITHIN
            try:
                value = self._value
                (value if isinstance(value, Growing) else self._grown()).add(held, number)
            finally:
                lock.owner = None

    def update_many(self, keys: Keys, weights: Iterable[int] | None = None, *, skip_zero: bool = False) -> None:
        """Adds an item for each of these keys, in order, with as many weights, or else of weight 1 each; or the keys and
        weights of a mapping, such as a Counter. A text is its bytes in UTF-8. Keys and weights may be arrays of numpy,
        columns of pandas, or what Arrow's interface gives. Each call of more than one item goes through the whole file: for a few
        items `update` is faster.

        What is no key or no integer is a `TypeError`, and a key or a weight outside of the limits, or another number of
        weights, a `ValueError`, each with the index in keys or weights. A total above 2^63 - 1 is a `HeavyError` with the
        item's number from 1 on. After a refusal none of these items is added. With `skip_zero` an item of weight 0 adds nothing,
        and is no fault.

        Keys of which nothing tells how many they are, as those of an iterator, may go on for any length, with little memory.
        They are added in batches of some ten thousands, each whole or not at all, and items of other threads may come between
        two. Where something is raised, `added` of it is the number of items of this call that are added, those of all batches
        before. Where there are some, its text says so, or its note from Python 3.11 on.

        >>> summary = Summary()
        >>> summary.update_many(["a", b"b"], [5, 3])
        >>> summary.update_many({"a": 2, "c": 1})
        >>> summary.update_many(["c", ""])
        Traceback (most recent call last):
        ValueError: keys[1]: a key must have 1 to 4096 bytes, not 0
        >>> summary.total
        11
        """
        if isinstance(keys, _File):
            raise TypeError(f"keys is a {type(keys).__name__}, which is merged, as by +=")
        skip_zero = flag("skip_zero", skip_zero)
        if comes_by_batches(keys):
            self._add_batches(batches_of(keys, weights, skip_zero))
        elif not hasattr(keys, "to_numpy") or not self._add(items_of(keys, weights, self._room(), skip_zero), ordered=True):
            self._add(items_of(keys, weights, 0, skip_zero))

    def _add_batches(self, batches: Iterator[Items]) -> None:
        """Adds batches of items. What is raised says how many items were added."""
        added = 0
        try:
            for items in batches:
                self._add(items)
                added += items.many
        except HeavyError as refused:
            status, kind, cause, number = refused.numbers
            told = HeavyError(status, kind, cause, number + (added if kind == BAD_RECORD else 0))
            say_added(told, added)
            raise told from None
        except BaseException as raised:
            say_added(raised, added)
            raise

    def _room(self) -> int:
        """How many different keys may come in any order for the same bytes."""
        return ANY

    def _add(self, items: Items, ordered: bool = False) -> bool:
        """Adds items that were checked, and tells whether it did: not those with equal keys as one where they have to be added in
        order, and other threads have left them too little room."""
        with changing(self._lock):
            if ordered and self._room() < len(items.columns.ends) < items.many:
                return False
            if items.many == len(items.columns.ends) == 1:
                self._add_one(items.columns.between(0, int(items.columns.ends[0])), 1 if items.weights is None else int(items.weights[0]))
                return True
            self._check_total(items.many, items.given)
            self._set(self._with(items))
            return True

    def _add_one(self, key: bytes, weight: int) -> None:
        """Adds an item with no copy of the file. The caller owns the lock."""
        with self._lock.mutex:
            value = self._value
            (value if isinstance(value, Growing) else self._grown()).add(key, weight)

    def _with(self, items: Items) -> bytes:
        """The file's bytes with items added."""
        return _with_items(self.to_bytes(), items.columns, items.weights)

    def update_csv(self, records: Records, *, layout: Layout = PLAIN) -> None:
        """Adds CSV records `key,weight`, or those of another layout, in order. A file is read some megabytes at a time. After a
        refusal, which has the record's number, none of them is added.

        >>> summary = Summary.of_csv(b"a,5\\n")
        >>> summary.update_csv(b"a,2\\nb\\n")
        >>> summary.entries()
        [(b'a', 7), (b'b', 1)]
        """
        with changing(self._lock):
            self._set(with_records(self.to_bytes(), records, layout))

    def _check_total(self, count: int, weights: Any) -> None:
        """Refuses the first of `count` items more that makes the total too large."""
        before = self.total
        if before + (count if weights is None else sum_of(weights)) > MAX_TOTAL:
            added = itertools.repeat(1) if weights is None else weights.tolist()
            totals = itertools.accumulate(added, initial=before)
            number = next(i for i, reached in enumerate(totals) if reached > MAX_TOTAL)
            raise HeavyError(REFUSED, BAD_RECORD, TOTAL_TOO_LARGE, number)

    def _like(self: File, saved: bytes) -> File:
        """Another file of this kind, whose keys come back as this one's do."""
        made = type(self).__new__(type(self))
        made.__setstate__(self._state(saved))
        return made

    def __add__(self: File, other: File) -> File:
        """The merge with another file of its kind.

        >>> (Summary.of_csv(b"a,5\\n") + Summary.of_csv(b"a,2\\nb\\n")).entries()
        [(b'a', 7), (b'b', 1)]
        """
        if type(other) is not type(self):
            return NotImplemented
        return merge(self, other)

    def __radd__(self: File, other: int) -> File:
        """A copy, where `sum` begins with 0.

        >>> sum([Summary.of_csv(b"a,5\\n"), Summary.of_csv(b"a,2\\nb\\n")]).total
        8
        """
        if type(other) is not int or other != 0:
            return NotImplemented
        return self.copy()

    def __iadd__(self: File, other: File) -> File:
        """Becomes the merge with another file of its kind, or is as it was where that is refused. `|=` does the same.

        >>> summary = Summary.of_csv(b"a,5\\n")
        >>> summary += Summary.of_csv(b"a,2\\nb\\n")
        >>> summary.entries()
        [(b'a', 7), (b'b', 1)]
        """
        if type(other) is not type(self):
            return NotImplemented
        with changing(self._lock, other._lock):
            self._set(merge(self, other).to_bytes())
        return self

    __ior__ = __iadd__

    def _told(self, saved: bytes | None = None) -> Info:
        """What is in the file, which has to be of this kind: as it is now, or as these bytes are."""
        info = self._described(self.to_bytes() if saved is None else saved)
        if getattr(info, self._row) is None:
            raise HeavyError(REFUSED, self._other[0], 0, self._other[1])
        return info

    @property
    def total(self) -> int:
        """The weight of all items.

        >>> Summary.of_csv(b"a,5\\nb\\n").total
        6
        """
        return self._told().total

    def __eq__(self, other: object) -> bool:
        """Whether both are of one kind, and saved as the same bytes.

        >>> Summary.of_csv(b"a\\nb\\n") == Summary.of_csv(b"b\\na\\n")
        True
        """
        if not isinstance(other, type(self)):
            return NotImplemented
        with reading([self._lock, other._lock]):
            return self.to_bytes() == other.to_bytes()

    __hash__ = None  # type: ignore[assignment]


class _Items(ItemsView[Any, Interval]):
    """The keys and intervals of a summary. An iteration has them as they were when it began."""

    _mapping: Summary

    def __iter__(self) -> Iterator[Tuple[Any, Interval]]:
        return iter([(row.key, Interval(row.low, row.high)) for row in self._mapping.rows()])


class _Values(ValuesView[Interval]):
    """The intervals of a summary. An iteration has them as they were when it began."""

    _mapping: Summary

    def __iter__(self) -> Iterator[Interval]:
        return iter([Interval(row.low, row.high) for row in self._mapping.rows()])

    def __contains__(self, value: object) -> bool:
        return any(value == one for one in self)


class Summary(_File, Mapping[Any, Interval]):
    """A summary of counters: a saved one, or with k alone a new one of no items, which grows by `update`.

    It is a mapping from the keys that have a counter to the least and the most of their weights, by falling low and then by
    rising key. Keys come back as bytes, or with `text` as str. An iteration, over `items` or `values` too, has what was there
    when it began. `dict(summary)` and `Counter(summary)` ask key by key: where other threads change the summary meanwhile,
    `dict(summary.items())` is of one time. `rows` has rows of a key, its least and its most.

    >>> summary = Summary(k=2, text=True)
    >>> summary.update_many(["a", "b", "a"])
    >>> summary
    <heavy.Summary k=2 total=3 keys=2 slack=0>
    >>> list(summary), "a" in summary, "c" in summary
    (['a', 'b'], True, False)
    >>> summary["a"]
    Interval(low=2, high=2)
    >>> dict(summary.items()) == dict(summary)
    True
    """

    _row, _other = "k", (NOT_COUNTERS, 0)

    @overload
    def __init__(self, saved: Given, *, text: bool = False) -> None: ...

    @overload
    def __init__(self, *, k: int = 100, text: bool = False) -> None: ...

    def __init__(self, saved: Any = ..., *, k: int | None = None, text: bool = False) -> None:
        """A file's bytes as they are, tested where they are used; or else the summary of no items with k counters.

        >>> Summary(k=5).to_bytes() == Summary.of_csv(b"", k=5).to_bytes()
        True
        """
        if saved is ...:
            saved = _empty(100 if k is None else k)
        elif k is not None:
            raise TypeError("a saved summary has a k of its own")
        super().__init__(saved)
        self.text = bool(text)
        self._rows: Tuple[Any, Any] = (None, None)  # the file's bytes, and its rows by key
        self._asked: Any = None  # the file's bytes of which a key was asked last, with no rows

    def _state(self, saved: bytes) -> Dict[str, Any]:
        return {**super()._state(saved), "_rows": (None, None), "_asked": None}

    @classmethod
    def for_error(cls, error: Any, *, text: bool = False) -> Summary:
        """The summary of no items with the least k by which a key's weight is never more than this share of the total above its
        counter. The share is given as a threshold is, or as any float. A share for which k would be too large is a
        `ValueError` with that k.

        >>> Summary.for_error("1/1000")
        <heavy.Summary k=999 total=0 keys=0 slack=0>
        """
        k = max(math.ceil(1 / error_of("error", error)) - 1, 1)
        if k > _MOST_KEYS:
            raise ValueError(f"an error of {error} wants a k of {k}, and the largest is {_MOST_KEYS}")
        return cls(k=k, text=text)

    @classmethod
    def of_csv(
        cls, records: Records, k: int = 100, method: str = "mg", *, layout: Layout = PLAIN, text: bool = False
    ) -> Summary:
        """The summary of CSV records `key,weight`, or those of another layout, with k counters. The methods "mg" and "ss"
        give the same bytes. A file is read as `update_csv` reads it.

        >>> Summary.of_csv(b"a,5\\nb,2\\n", k=2).entries()
        [(b'a', 5), (b'b', 2)]
        """
        if method not in _METHODS:
            raise HeavyError(USAGE, BAD_METHOD, 0, 0)
        made = cls(_empty(k), text=text)
        made.update_csv(records if is_file(records) else records_in(records), layout=layout)
        return made

    @classmethod
    def load(cls, path: Named, *, text: bool = False) -> Summary:
        """The summary that was saved to this path.

        >>> import tempfile
        >>> with tempfile.TemporaryDirectory() as folder:
        ...     Summary.of_csv(b"a,5\\n").save(f"{folder}/a.heavy")
        ...     [*Summary.load(f"{folder}/a.heavy", text=True)]
        ['a']
        """
        made = super().load(path)
        made.text = bool(text)
        return made

    @property
    def k(self) -> int:
        """The most keys that have a counter.

        >>> Summary(k=7).k
        7
        """
        return self._number("k")

    @property
    def slack(self) -> int:
        """By how much a key's weight can be above its counter.

        >>> Summary.of_csv(b"a,5\\nb,2\\n", k=1).slack
        2
        """
        return self._number("slack")

    def _room(self) -> int:
        # where no counter is lowered each is the sum of its key's weights
        info = self._told()
        return (info.k or 0) - (info.keys or 0)

    def _number(self, name: str) -> int:
        return int(getattr(self._told(), name))

    def _by_key(self, saved: bytes | None = None) -> Dict[bytes, Bounds]:
        """The rows by the bytes of their keys, by falling low and then by rising key: as they are now, or of these bytes."""
        saved = self.to_bytes() if saved is None else saved
        text, known = self.text, self._rows
        if known[0] is not saved or known[1].text != text:
            slack = self._told(saved).slack or 0
            ordered = sorted(_entries(saved), key=lambda entry: (-entry[1], entry[0]))
            rows = {key: Bounds(_key(key, text), low, low + slack) for key, low in ordered}
            self._rows = known = saved, _Rows(text, rows)
        found: Dict[bytes, Bounds] = known[1].rows
        return found

    def __len__(self) -> int:
        """How many keys have a counter.

        >>> len(Summary.of_csv(b"a,5\\nb\\na\\n"))
        2
        """
        return self._number("keys")

    def __bool__(self) -> bool:
        """A summary is true, as any object; one of no keys too."""
        return True

    def __iter__(self) -> Iterator[Any]:
        """The keys that have a counter, by falling low and then by rising key.

        >>> [*Summary.of_csv(b"b\\na,5\\n")]
        [b'a', b'b']
        """
        return iter([row.key for row in self.rows()])

    def __contains__(self, key: Any) -> bool:
        """Whether a key has a counter.

        >>> "a" in Summary.of_csv(b"a,5\\n")
        True
        """
        return self.get(key) is not None

    def __getitem__(self, key: Key) -> Interval:
        """The least and the most that a key with a counter weighs; of another key a `KeyError`. `ask` tells those of any key.

        >>> Summary.of_csv(b"b\\na,5\\n")["a"]
        Interval(low=5, high=5)
        """
        found = self.get(key)
        if found is None:
            raise KeyError(key)
        return found

    @overload
    def get(self, key: Key) -> Optional[Interval]: ...

    @overload
    def get(self, key: Key, default: Any) -> Any: ...

    def get(self, key: Key, default: Any = None) -> Any:
        """The least and the most that a key with a counter weighs, or else the default.

        >>> Summary.of_csv(b"a,5\\n").get("b", 0)
        0
        """
        try:
            held = bytes_of_key(key)
        except ValueError:  # no key has so many bytes
            return default
        with self._lock.mutex:
            value = self._value
            if isinstance(value, Growing) and value.is_asked(self._rows[0]):
                low, high = value.ask(held)
                return Interval(low, high) if low else default
        saved = self.to_bytes()
        if isinstance(value, Growing) or self._rows[0] is saved or self._asked is saved:
            row = self._by_key(saved).get(held)
            return default if row is None else Interval(row.low, row.high)
        self._told(saved)
        low, high = _asked_of(saved, held)
        self._asked = saved  # rows of all keys are made at the next question, if the file is the same then
        return Interval(low, high) if low else default

    def items(self) -> ItemsView[Any, Interval]:
        """The keys that have a counter, each with the least and the most of its weight, as a view.

        >>> [*Summary.of_csv(b"b\\na,5\\n").items()]
        [(b'a', Interval(low=5, high=5)), (b'b', Interval(low=1, high=1))]
        """
        return _Items(self)

    def values(self) -> ValuesView[Interval]:
        """The least and the most of the weight of each key that has a counter, as a view.

        >>> [*Summary.of_csv(b"b\\na,5\\n").values()]
        [Interval(low=5, high=5), Interval(low=1, high=1)]
        """
        return _Values(self)

    def rows(self) -> List[Bounds]:
        """The rows of the keys that have a counter, each with the least and the most of its weight, by falling low and then
        by rising key.

        >>> Summary.of_csv(b"b\\na,5\\n").rows()
        [Bounds(key=b'a', low=5, high=5), Bounds(key=b'b', low=1, high=1)]
        """
        return [*self._by_key().values()]

    def list_csv(self) -> bytes:
        """What `rows` has, as `heavy list` prints it.

        >>> Summary.of_csv(b"a,2\\nb,5\\n").list_csv()
        b'b,5,5\\na,2,2\\n'
        """
        return Handle.loaded(self.to_bytes()).answer(calls.heavy_list, guess=SMALL)

    def top(self, n: int) -> List[Bounds]:
        """The first n of `rows`.

        >>> Summary.of_csv(b"b\\na,5\\n", text=True).top(1)
        [Bounds(key='a', low=5, high=5)]
        """
        return self.rows()[: _counted("n", n)]

    def heavy_hitters(self, threshold: Threshold = None, *, certain: bool) -> List[Bounds]:
        """Those of `rows` for keys that weigh more than a share of the total, 1/(k + 1) if none is given, as far as the summary
        tells. `certain` has to be said. With certain=True each of them weighs more, since its low does; other keys may too, and
        are left out. With certain=False all keys that weigh more are there, since their high does; some of them may weigh less.
        `report` and `confirm` tell which do.

        >>> summary = Summary.of_csv(b"a,5\\nb,2\\nc,1\\n", k=2, text=True)
        >>> summary.rows()
        [Bounds(key='a', low=4, high=5), Bounds(key='b', low=1, high=2)]
        >>> [row.key for row in summary.heavy_hitters("1/2", certain=True)]
        []
        >>> [row.key for row in summary.heavy_hitters("1/2", certain=False)]
        ['a']
        """
        certain = flag("certain", certain)
        saved = self.to_bytes()
        info = self._told(saved)
        p, q = self._share(threshold, info.k or 0)
        least = p * info.total
        return [row for row in self._by_key(saved).values() if (row.low if certain else row.high) * q > least]

    def _share(self, threshold: Threshold, k: int) -> Tuple[int, int]:
        """A share of at least 1/(k + 1), which is that of no threshold."""
        p, q = share_of(threshold)
        if not p:
            return 1, k + 1
        if p * (k + 1) < q:
            raise HeavyError(USAGE, BAD_THRESHOLD, 0, 0)
        return p, q

    def to_frame(self) -> Any:
        """What `rows` has, as a frame of pandas with the columns key, low and high."""
        return importlib.import_module("pandas").DataFrame(self.rows(), columns=[*Bounds._fields])

    def entries(self) -> List[Tuple[Any, int]]:
        """The keys that have a counter, by rising key, each with its counter.

        >>> Summary.of_csv(b"b,5\\na,2\\n").entries()
        [(b'a', 2), (b'b', 5)]
        """
        text = self.text
        return [(_key(key, text), counter) for key, counter in _entries(self.to_bytes())]

    def __repr__(self) -> str:
        """What is in the summary, or how its file is refused.

        >>> Summary.of_csv(b"a,5\\n"), Summary(b"HHS")
        (<heavy.Summary k=100 total=5 keys=1 slack=0>, <heavy.Summary file 1: truncated>)
        """
        try:
            info = self._told()
            return f"<heavy.Summary k={info.k} total={info.total} keys={info.keys} slack={info.slack}>"
        except HeavyError as refused:
            return f"<heavy.Summary {refused}>"

    def _repr_html_(self) -> str:
        """The first rows, as a notebook shows them."""
        saved, text = self.to_bytes(), self.text
        try:
            info, rows = self._told(saved), [*self._by_key(saved).values()]
        except HeavyError:
            return f"<p>{html.escape(repr(self))}</p>"
        lines = ""
        for row in rows[:_SHOWN]:
            key = html.escape(row.key if text else row.key.decode("utf-8", "backslashreplace"))
            lines += f"<tr><td>{key}</td><td>{row.low}</td><td>{row.high}</td></tr>"
        left = f", the first {_SHOWN} of them" if len(rows) > _SHOWN else ""
        told = f"k={info.k} total={info.total} keys={info.keys}{left} slack={info.slack}"
        head = "<thead><tr><th>key</th><th>low</th><th>high</th></tr></thead>"
        return f"<table><caption>heavy.Summary {told}</caption>{head}<tbody>{lines}</tbody></table>"

    def confirm(self, records: Records, threshold: Threshold = None, *, layout: Layout = PLAIN) -> List[Row]:
        """The exact report of the summary's keys that are heavy in these records, which are those that were summarised:
        above a share of the total of at least 1/(k + 1), or above just that, by falling weight and then by rising key.
        Records with another total, or with a key whose weight is outside its bounds, are refused.

        >>> Summary.of_csv(b"a,5\\nb,2\\n", k=2, text=True).confirm(b"a,5\\nb,2\\n", "1/2")
        [Row(key='a', weight=5)]
        """
        return rows_of(self.confirm_csv(records, threshold, layout=layout), self.text)

    def confirm_csv(self, records: Records, threshold: Threshold = None, *, layout: Layout = PLAIN) -> bytes:
        """The rows of `confirm`, as `heavy confirm` prints them.

        >>> Summary.of_csv(b"a,5\\nb,2\\n", k=2).confirm_csv(b"a,5\\nb,2\\n", "1/2")
        b'a,5\\n'
        """
        share, text = share_of(threshold), records_in(records)
        with placing(records, text, layout):
            return self._confirmed(text, share, layout)

    def _confirmed(self, text: bytes, share: Tuple[int, int], layout: Layout) -> bytes:
        """The rows of a report of records."""
        value = Handle.loaded(self.to_bytes())
        return value.answer(calls.heavy_confirm_records, *lent(text), *layout._words(), *share, guess=SMALL)

    def condense(self, records: Records, *, layout: Layout = PLAIN) -> bytes:
        """CSV records that confirm the same: the weight of each key of the summary that comes, and in one more that of all
        others. So parts are condensed one by one, and confirmed together, joined in any order.

        >>> Summary.of_csv(b"a,5\\nb,2\\n", k=1).condense(b"b,1\\na,1\\nb,1\\n")
        b'a,1\\nothers,2\\n'
        """
        text = records_in(records)
        value = Handle.loaded(self.to_bytes())
        with placing(records, text, layout):
            return value.answer(calls.heavy_condense_records, *lent(text), *layout._words(), guess=SMALL)

    def confirm_items(
        self, keys: Keys, weights: Iterable[int] | None = None, threshold: Threshold = None, *, skip_zero: bool = False
    ) -> List[Row]:
        """What `confirm` gives of items in memory, which are as `update_many` takes them.

        >>> Summary.of_csv(b"a,5\\nb,2\\n", k=2).confirm_items(["a", "b", "a"], [4, 2, 1])
        [Row(key=b'a', weight=5)]
        """
        return self._confirm(items_of(keys, weights, ANY, flag("skip_zero", skip_zero)), share_of(threshold))

    def _confirm(self, items: Items, share: Tuple[int, int]) -> List[Row]:
        """The report of items that were checked."""
        return rows_of(self._confirmed(self._condensed(items), share, PLAIN), self.text)

    def _condensed(self, items: Items) -> bytes:
        """Records that confirm the same as items that were checked."""
        value = Handle.loaded(self.to_bytes())
        return value.answer(calls.heavy_condense_items, *lent_items(items.columns, items.weights), guess=SMALL)

    def condense_items(self, keys: Keys, weights: Iterable[int] | None = None, *, skip_zero: bool = False) -> bytes:
        """What `condense` gives of items in memory, which are as `update_many` takes them: so a second pass goes over
        parts of a stream, and what comes of them is confirmed together, joined in any order.

        >>> summary = Summary.of_csv(b"a,5\\nb,2\\n", k=1)
        >>> summary.confirm(summary.condense_items(["a", "b"], [3, 2]) + summary.condense_items({"a": 2}))
        [Row(key=b'a', weight=5)]
        """
        return self._condensed(items_of(keys, weights, ANY, flag("skip_zero", skip_zero)))


def _counted(name: str, number: Any) -> int:
    """A number from 0 on."""
    count = integer(name, number)
    if count < 0:
        raise ValueError(f"{name} must be at least 0, not {count}")
    return count


def _key(key: bytes, text: bool) -> Any:
    """A key as it comes back."""
    return text_of_bytes(key) if text else key


class _Rows(NamedTuple):
    """The rows of a summary by the bytes of their keys, and whether their keys are texts."""

    text: bool
    rows: Dict[bytes, Bounds]


def _entries(saved: bytes) -> List[Tuple[bytes, int]]:
    """The keys and counters of a saved summary, by rising key."""
    value = Handle.loaded(saved)
    out, count = value.given(calls.heavy_entries, of=Entry, guess=len(saved) // 16 + 1)
    saved = saved if saved[:4] == b"HHS2" else value.saved()  # where the places are
    places = struct.iter_unpack("=QQQ", memoryview(out).cast("B")[: 24 * count])
    return [(saved[start : start + size], counter) for start, size, counter in places]


class Table(_File):
    """A saved Count-Min table: one that was saved, or else a new one of no items, which grows by `update`. It has as many
    rows of cells as its depth, with the hash family that is drawn from the seed.

    >>> table = Table(width=64, depth=3)
    >>> table.update_many(["a", "b", "a"], [5, 1, 2])
    >>> table
    <heavy.Table width=64 depth=3 total=8>
    >>> table.estimate("a")
    7
    """

    _row, _other = "width", (MIXED_KINDS, 1)

    @overload
    def __init__(self, saved: Given) -> None: ...

    @overload
    def __init__(self, *, width: int = 1024, depth: int = 4, seed: int = 0) -> None: ...

    def __init__(
        self, saved: Any = ..., *, width: int | None = None, depth: int | None = None, seed: int | None = None
    ) -> None:
        """A file's bytes as they are, tested where they are used; or else the table of no items.

        >>> Table(width=8).to_bytes() == Table.of_csv(b"", width=8).to_bytes()
        True
        """
        if saved is ...:
            saved = _empty_table(1024 if width is None else width, 4 if depth is None else depth, 0 if seed is None else seed)
        elif not width is depth is seed is None:
            raise TypeError("a saved table has a width, a depth and a hash family of its own")
        super().__init__(saved)

    @property
    def width(self) -> int:
        """How many cells a row has.

        >>> Table().width
        1024
        """
        return int(self._told().width or 0)

    @property
    def depth(self) -> int:
        """How many rows there are.

        >>> Table().depth
        4
        """
        return int(self._told().depth or 0)

    @classmethod
    def for_error(cls, error: Any, chance: Any, *, seed: int = 0) -> Table:
        """The table of no items whose estimate of a key is more than this share of the total too high with at most this chance,
        by the textbook: a width of e / error and a depth of ln(1 / chance), rounded up. Nothing here proves that; what is proved is
        that no estimate is below the weight. Both are given as a threshold is, or as any float. Where the width or the depth
        would be too large, that is a `ValueError` with it.

        >>> Table.for_error("1/100", "1/100")
        <heavy.Table width=272 depth=5 total=0>
        """
        shares = error_of("error", error), error_of("chance", chance)
        width, depth = math.ceil(math.e / shares[0]), max(math.ceil(-math.log(shares[1])), 1)
        if width > _WIDEST:
            raise ValueError(f"an error of {error} wants a width of {width}, and the largest is {_WIDEST}")
        if depth > _DEEPEST:
            raise ValueError(f"a chance of {chance} wants a depth of {depth}, and the largest is {_DEEPEST}")
        return cls(width=width, depth=depth, seed=seed)

    @property
    def error(self) -> float:
        """By what share of the total an estimate may be too high, but for a chance of exp(-depth): e / width. That is the
        textbook's, and nothing here proves it.

        >>> round(Table(width=1000).error, 6)
        0.002718
        """
        return math.e / self.width

    def estimate(self, key: Key) -> int:
        """The least of the key's cells: at least its weight.

        >>> Table.of_csv(b"a,5\\na\\n").estimate("a")
        6
        """
        return self.ask(key)[1]

    def __repr__(self) -> str:
        """What is in the table, or how its file is refused.

        >>> Table(width=8, depth=2), Table(b"HHS")
        (<heavy.Table width=8 depth=2 total=0>, <heavy.Table file 1: truncated>)
        """
        try:
            info = self._told()
            return f"<heavy.Table width={info.width} depth={info.depth} total={info.total}>"
        except HeavyError as refused:
            return f"<heavy.Table {refused}>"

    @classmethod
    def of_csv(
        cls, records: Records, width: int = 1024, depth: int = 4, seed: int = 0, *, layout: Layout = PLAIN
    ) -> Table:
        """The table of CSV records `key,weight`, or those of another layout, with the hash family that is drawn from the
        seed. A file is read as `update_csv` reads it.

        >>> Table.of_csv(b"a,5\\na\\n").ask("a")
        (0, 6)
        """
        made = cls(_empty_table(width, depth, seed))
        made.update_csv(records if is_file(records) else records_in(records), layout=layout)
        return made


def _merged(files: List[bytes]) -> bytes:
    """The merge of saved files. A refusal has the number of the file."""
    value, sizes = Handle.loaded(files[0]), [len(file) for file in files]
    for index, file in enumerate(files[1:]):
        try:
            value.make(calls.heavy_merge_saved, *lent(file))
        except HeavyError as refused:
            status, kind, cause, number = refused.numbers
            raise HeavyError(status, kind, cause, number + index if number else 0) from None
    return value.saved(guess=max(min(sum(sizes), LARGE), max(sizes)))


def merge(first: File | Iterable[File], *others: File) -> File:
    """The merge of saved files of one kind, given one by one or as one iterable of them. The answer is of their kind too,
    and files are numbered from 1 in a refusal.

    >>> days = [Summary.of_csv(b"a,5\\n"), Summary.of_csv(b"a,2\\nb,1\\n")]
    >>> merge(*days).entries(), merge(days).ask("a")
    ([(b'a', 7), (b'b', 1)], (7, 7))
    """
    one: Any = first
    listed: List[File] = [one, *others] if others or isinstance(one, _File) else [*one]
    for index, file in enumerate(listed):
        if not isinstance(file, _File):
            raise TypeError(f"files[{index}] must be a Summary or a Table, not {type(file).__name__!r}")
    if not listed:
        raise ValueError("there is no file to merge")
    with reading([file._lock for file in listed]):
        files = [file.to_bytes() for file in listed]
    return listed[0]._like(_merged(files))


def report(
    records: Records, k: int = 100, threshold: Threshold = None, workers: int = 1, *,
    layout: Layout = PLAIN, text: bool = False,
) -> List[Row]:
    """The keys of CSV records `key,weight`, or those of another layout, that weigh more than the total divided by k + 1, or
    more than a share of it that is at least that: `"1/20"`, a pair (1, 20), a Fraction, or a float such as 0.5. Each has its
    exact weight, by falling weight and then by rising key. The rows are those of the program's `report`, whatever the
    number of workers, which are threads.

    >>> report(b"a,5\\nb,2\\na,1\\n", k=1)
    [Row(key=b'a', weight=6)]
    >>> report(b"a,5\\nb,2\\na,1\\n", k=2, threshold="1/2", workers=2, text=True)
    [Row(key='a', weight=6)]
    """
    return rows_of(report_csv(records, k, threshold, workers, layout=layout), text)


def report_csv(
    records: Records, k: int = 100, threshold: Threshold = None, workers: int = 1, *, layout: Layout = PLAIN
) -> bytes:
    """The rows of `report`, as `heavy report` prints them.

    >>> report_csv(b"a,5\\nb,2\\na,1\\n", k=1)
    b'a,6\\n'
    """
    count = integer("workers", workers)
    if count < 1:
        raise ValueError("there must be a worker")
    share = share_of(threshold)
    whole = records_in(records)
    with placing(records, whole, layout):
        return _reported(whole, word("k", k), share, min(count, 64), layout)


def _reported(whole: bytes, k: int, share: Tuple[int, int], count: int, layout: Layout) -> bytes:
    """The rows of a report of a text, which so many threads read in parts."""
    parts = parts_of(whole, count, layout)
    if len(parts) == 1:
        return answer(calls.heavy_report, *lent(whole), *layout._words(), k, *share, random_words(), guess=SMALL)
    try:
        with ThreadPoolExecutor(len(parts)) as pool:
            summary = merge(pool.map(lambda part: Summary.of_csv(part, k, layout=layout), parts))
            condensed = b"".join(pool.map(lambda part: summary.condense(part, layout=layout), parts))
        return summary._confirmed(condensed, share, Layout(decimals=layout.decimals))
    except HeavyError:  # told again with the number that the record has among all
        return _reported(whole, k, share, 1, layout)


def top(records: Records, n: int = 10, *, memory: int = 256, layout: Layout = PLAIN, text: bool = False) -> List[Row]:
    """The n keys of CSV records `key,weight`, or those of another layout, that weigh the most, or all where they are fewer. Each
    has its exact weight, by falling weight and then by rising key. Counters take so many megabytes of memory. Where these leave
    open which keys are the greatest, that is a `HeavyError`, whose `number` is how many are certain. The rows are those of the
    program's `top`.

    >>> top(b"a,5\\nb,2\\na,1\\nc,2\\n", 2)
    [Row(key=b'a', weight=6), Row(key=b'b', weight=2)]
    """
    return rows_of(top_csv(records, n, memory=memory, layout=layout), text)


def top_csv(records: Records, n: int = 10, *, memory: int = 256, layout: Layout = PLAIN) -> bytes:
    """The rows of `top`, as `heavy top` prints them.

    >>> top_csv(b"a,5\\nb,2\\na,1\\n", 1)
    b'a,6\\n'
    """
    count, room = (min(_counted(name, it), 2**64 - 1) for name, it in (("n", n), ("memory", memory)))
    room = min(room * 1_000_000, 2**64 - 1)
    whole = records_in(records)
    with placing(records, whole, layout):
        words = *lent(whole), *layout._words(), count, room, random_words()
        return answer(calls.heavy_top, *words, guess=SMALL)
