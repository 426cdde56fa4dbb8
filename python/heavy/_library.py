"""The calls of libheavy.so.1, why they refuse, and the rooms that their answers are written to."""
from __future__ import annotations

import contextlib
import ctypes
import itertools
import operator
import os
import secrets
import weakref
from pathlib import Path
from typing import Any, Callable

from ._faults import Cause, Kind

_VERSION = 1
DONE, USAGE, REFUSED, TOO_SMALL = 0, 2, 3, 5
BAD_K, BAD_METHOD, BAD_RECORD, MIXED_KINDS, NOT_COUNTERS = 2, 7, 9, 11, 14
BAD_THRESHOLD, BAD_DELIMITER = 19, 22
TOTAL_TOO_LARGE = 6  # a cause of BAD_RECORD
TABLE = 2  # a kind of file
MAX_KEY, MAX_TOTAL = 4096, 2**63 - 1
SMALL, LARGE = 1 << 16, 1 << 20  # bytes of rooms that are tried first


_KINDS, _CAUSES = {kind.value for kind in Kind}, {cause.value for cause in Cause}


class HeavyError(ValueError):
    """A refusal by the library: of a record, a saved file, an option such as k, or for want of memory.

    Its text is the program's, in Python's words, and `status` the program's exit status: 2 an option, 3 a record, a file or a
    key, 4 memory. `kind` is a `Kind`, and `cause` a `Cause`, or None where the kind says all. `number` is that of the record,
    the file or the key, from 1 on, or how many of the greatest keys are certain, or else 0. The others are None where there is
    nothing to tell: `path` names the file of a record, `line` is the line from 1 on where the record begins, and from Python
    3.11 on a note has both. `part` is the path, or else the number from 0 on, of the part of a collection of Dask whose records
    are refused. `added` is how many items of an `update_many` by batches are added all the same.
    """

    path: Any = None
    line: int | None = None
    part: Any = None
    added: Any = None

    def __init__(self, status: int, kind: int, cause: int, number: int) -> None:
        self.status = status
        self.kind = Kind(kind) if kind in _KINDS else None
        self.cause = Cause((kind, cause)) if (kind, cause) in _CAUSES else None
        self.number = number
        text = _text_of(Fault(kind, cause, number))
        text = text.replace("with header 1,", "with header=True,").replace("must be no quote", "must be one byte, and no quote")
        super().__init__(text)
        self.numbers = (status, kind, cause, number)

    def __reduce__(self) -> tuple[type[HeavyError], tuple[int, int, int, int], dict[str, Any]]:
        return HeavyError, self.numbers, self.__dict__


def added_so_far(added: int) -> str:
    """What is said of a call whose first items are added."""
    return f"the first {added} items of this call are added, and no other"


def say_added(raised: BaseException, added: int) -> None:
    """Has what was raised within a call say how many of the call's items are added: as `added`, and where there are some in a
    note, if the text doesn't say it."""
    with contextlib.suppress(AttributeError):
        setattr(raised, "added", added)
    if added and added_so_far(added) not in str(raised):
        say(raised, added_so_far(added))


def say(raised: BaseException, told: str) -> None:
    """Gives what was raised a note, from Python 3.11 on, which has notes."""
    if hasattr(raised, "add_note"):
        raised.add_note(told)


class Fault(ctypes.Structure):
    _fields_ = [("kind", ctypes.c_uint32), ("cause", ctypes.c_uint32), ("number", ctypes.c_uint64)]


class Pair(ctypes.Structure):
    """The bounds of a key."""

    _fields_ = [("low", ctypes.c_uint64), ("high", ctypes.c_uint64)]


class Entry(ctypes.Structure):
    """Where a key lies in a saved summary, and its counter."""

    _fields_ = [("start", ctypes.c_size_t), ("len", ctypes.c_size_t), ("counter", ctypes.c_uint64)]


class LayoutWords(ctypes.Structure):
    """How records are laid out, beside the columns."""

    _fields_ = [
        ("delimiter", ctypes.c_uint8), ("header", ctypes.c_uint8), ("allow_zero", ctypes.c_uint8),
        ("decimals", ctypes.c_uint8), ("has_weight", ctypes.c_uint32),
    ]


class HashWords(ctypes.Structure):
    """The words by which keys are hashed."""

    _fields_ = [("words", ctypes.c_uint64 * 2)]


class InfoWords(ctypes.Structure):
    """What is in a value."""

    _fields_ = [(name, ctypes.c_uint64) for name in ("kind", "total", "k", "keys", "counters", "slack", "width", "depth")]


_READ, _SIZE, _NUMBER, _FAULT = ctypes.c_void_p, ctypes.c_size_t, ctypes.c_uint64, ctypes.POINTER(Fault)
_OUT: list[Any] = [ctypes.c_void_p, _SIZE, ctypes.POINTER(_SIZE), _FAULT]


def _loaded() -> ctypes.CDLL:
    """The library that LIBHEAVY names, or the one beside this file, or else the system's."""
    beside = Path(__file__).resolve().parent / "libheavy.so.1"
    named = os.environ.get("LIBHEAVY")
    library = ctypes.CDLL(named or (str(beside) if beside.exists() else "libheavy.so.1"))
    version = library.heavy_version
    version.argtypes, version.restype = [], ctypes.c_uint32
    if version() != _VERSION:
        raise ImportError(f"libheavy has interface {version()}, and this module is for {_VERSION}")
    _type_calls(library)
    library.heavy_whole_records.argtypes, library.heavy_whole_records.restype = [_READ, _SIZE, ctypes.c_uint8], _SIZE
    # To add an item takes less than to wait for other threads, so that call keeps Python's lock, where there is one. Python would
    # take longer to compare the arguments with their types than to add an item.
    setattr(library, "heavy_update", ctypes.PYFUNCTYPE(ctypes.c_uint32)(("heavy_update", library)))
    setattr(library, "heavy_free", ctypes.PYFUNCTYPE(None, ctypes.c_void_p)(("heavy_free", library)))
    return library


def _type_calls(library: ctypes.CDLL) -> None:
    """Gives the calls their types. Other threads run meanwhile. `_lock` keeps two threads from one value."""
    value, hashed, made = ctypes.c_void_p, ctypes.POINTER(HashWords), ctypes.POINTER(ctypes.c_void_p)
    keys = [_READ, _SIZE, ctypes.POINTER(_NUMBER), _SIZE]
    items = [*keys, ctypes.POINTER(_NUMBER), _SIZE]
    records = [_READ, _SIZE, ctypes.POINTER(LayoutWords), *keys]
    for name, words in {
        "heavy_strerror": [_FAULT, *_OUT[:3]],
        "heavy_new_summary": [made, _NUMBER, hashed, _FAULT],
        "heavy_new_table": [made, _NUMBER, _NUMBER, _NUMBER, _FAULT],
        "heavy_load": [made, _READ, _SIZE, hashed, _FAULT],
        "heavy_save": [value, *_OUT],
        "heavy_update_items": [value, *items, _FAULT],
        "heavy_update_records": [value, *records, _FAULT],
        "heavy_merge_saved": [value, _READ, _SIZE, _FAULT],
        "heavy_ask": [value, _READ, _SIZE, ctypes.POINTER(Pair), _FAULT],
        "heavy_ask_items": [value, *keys, *_OUT],
        "heavy_info": [value, ctypes.POINTER(InfoWords), _FAULT],
        "heavy_entries": [value, *_OUT],
        "heavy_list": [value, *_OUT],
        "heavy_confirm_records": [value, *records, _NUMBER, _NUMBER, *_OUT],
        "heavy_condense_records": [value, *records, *_OUT],
        "heavy_condense_items": [value, *items, *_OUT],
        "heavy_report": [*records, _NUMBER, _NUMBER, _NUMBER, hashed, *_OUT],
        "heavy_top": [*records, _NUMBER, _NUMBER, hashed, *_OUT],
    }.items():
        getattr(library, name).argtypes = words
        getattr(library, name).restype = ctypes.c_uint32


calls = _loaded()


def _text_of(fault: Fault) -> str:
    """The text that the program has for a fault."""
    out, needed = ctypes.create_string_buffer(128), ctypes.c_size_t()
    if calls.heavy_strerror(ctypes.byref(fault), out, len(out), ctypes.byref(needed)) != DONE:
        return "out of memory"
    return out.raw[: needed.value].decode()


def integer(name: str, number: Any) -> int:
    """An integer of any kind, as numpy's are."""
    if not hasattr(number, "__index__"):
        raise TypeError(f"{name} must be an integer, not {type(number).__name__!r}")
    return operator.index(number)


def is_flag(value: Any) -> bool:
    """Whether this is a truth value, of Python or of numpy."""
    kind = type(value)
    return kind is bool or kind.__module__ == "numpy" and kind.__name__ in ("bool", "bool_")


def flag(name: str, value: Any) -> bool:
    """A truth value as Python has it."""
    if not is_flag(value):
        raise TypeError(f"{name} must be True or False, not {type(value).__name__!r}")
    return bool(value)


def word(name: str, number: Any) -> int:
    """An integer as 64 bits hold it, or where they don't the largest, which each option refuses."""
    held = integer(name, number)
    return held if 0 <= held < 2**64 else 2**64 - 1


def random_words() -> Any:
    """Words by which keys are hashed, so that nobody can choose keys that collide. No answer depends on them."""
    return ctypes.byref(HashWords((secrets.randbits(64) | 1, secrets.randbits(64))))


def lent(held: bytes | ctypes.Array[ctypes.c_char]) -> tuple[ctypes.c_void_p, int]:
    """A pointer and a length."""
    return ctypes.cast(ctypes.c_char_p(held) if isinstance(held, bytes) else held, ctypes.c_void_p), len(held)


def joined(parts: list[bytes]) -> tuple[ctypes.c_void_p, int, ctypes.Array[ctypes.c_uint64], int]:
    """Parts as one slice, and where they end in it as another."""
    ends = (ctypes.c_uint64 * len(parts))(*itertools.accumulate(map(len, parts)))
    return *lent(b"".join(parts)), ends, len(parts)


def checked(status: int, fault: Fault) -> None:
    """Raises what a call was refused for, where it was."""
    if status != DONE:
        raise HeavyError(status, fault.kind, fault.cause, fault.number)


def given(call: Callable[..., int], *words: object, of: Any, guess: int) -> tuple[Any, int]:
    """An array, and how much of it a call fills: in a room for `guess` elements, or else for as many as the call says."""
    needed, fault, size = ctypes.c_size_t(), Fault(), max(guess, 1)
    while True:
        out = (of * size)()
        status = call(*words, out, size, ctypes.byref(needed), ctypes.byref(fault))
        if status != TOO_SMALL:
            checked(status, fault)
            return out, needed.value
        size = needed.value


def answer(call: Callable[..., int], *words: object, guess: int) -> bytes:
    """The bytes that a call gives."""
    out, size = given(call, *words, of=ctypes.c_char, guess=guess)
    return ctypes.string_at(out, size)


class Handle:
    """A summary or a table in the library's memory, which is given back when this object goes. Who makes a call keeps others
    from it."""

    def __init__(self, make: Callable[..., int], *words: object) -> None:
        self._fault = Fault()
        self._value = ctypes.c_void_p()
        checked(make(ctypes.byref(self._value), *words, ctypes.byref(self._fault)), self._fault)
        weakref.finalize(self, calls.heavy_free, self._value)

    @classmethod
    def loaded(cls, saved: bytes) -> Handle:
        """The value of a saved file."""
        return cls(calls.heavy_load, *lent(saved), random_words())

    def make(self, call: Callable[..., int], *words: object) -> None:
        """Makes a call that answers by its status alone, or by what it is lent."""
        checked(call(self._value, *words, ctypes.byref(self._fault)), self._fault)

    def given(self, call: Callable[..., int], *words: object, of: Any, guess: int) -> tuple[Any, int]:
        """An array, and how much of it a call fills."""
        return given(call, self._value, *words, of=of, guess=guess)

    def answer(self, call: Callable[..., int], *words: object, guess: int) -> bytes:
        """The bytes that a call gives."""
        return answer(call, self._value, *words, guess=guess)

    def info(self) -> InfoWords:
        """What is in the value."""
        words = InfoWords()
        self.make(calls.heavy_info, ctypes.byref(words))
        return words

    def saved(self, guess: int = SMALL) -> bytes:
        """The saved file of the value."""
        return self.answer(calls.heavy_save, guess=guess)
