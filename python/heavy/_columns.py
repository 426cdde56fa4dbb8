"""Keys and weights as the library takes them: the bytes of all keys, where each ends, and a number for each."""
from __future__ import annotations

import array
import copy
import ctypes
import datetime
import decimal
import itertools
import numbers
import operator
import re
import sys
from collections.abc import Mapping, Set
from typing import Any, Callable, Iterable, Iterator, NamedTuple, TypeVar, Union

from ._library import MAX_KEY, MAX_TOTAL, added_so_far, is_flag, lent

Key = Union[bytes, bytearray, memoryview, str]
Keys = Union[Iterable[Key], Mapping[Any, int]]  # an iterable of keys, or a mapping from keys to weights

_FRAMES = {"DataFrame", "LazyFrame", "RecordBatch", "Table"}  # what libraries call what has columns


class Columns(NamedTuple):
    """Keys one after the other, where each ends (numbers of 64 bits), and whether all of them were `str`. The keys of an array
    of Arrow lie where they are, and keep it."""

    data: bytes | ctypes.Array[ctypes.c_char]
    ends: Any
    text: bool

    def words(self, most: int | None = None) -> list[bytes]:
        """The keys, or the first ones, one by one."""
        ends = self.ends[:most].tolist()
        return [self.between(start, end) for start, end in zip([0, *ends], ends)]

    def between(self, start: int, end: int) -> bytes:
        """The bytes of all keys from one place to another."""
        return memoryview(self.data)[start:end].tobytes()


def bytes_of_text(key: str) -> bytes:
    """The bytes of a text in UTF-8, or those that `text_of_bytes` made it of."""
    try:
        return key.encode("utf-8", "surrogateescape")
    except UnicodeEncodeError:
        raise ValueError("a key must be a text that UTF-8 has") from None


def text_of_bytes(key: bytes) -> str:
    """The text that these bytes are in UTF-8; bytes that are none stand for themselves, as in the names of files."""
    return key.decode("utf-8", "surrogateescape")


def _advice(key: Any) -> str:
    """What to do in place of giving this as a key."""
    if isinstance(key, (numbers.Number, decimal.Decimal)):
        return "; of a number give its text, as str(number)"
    if isinstance(key, (datetime.date, datetime.time, datetime.timedelta)):
        return "; of a date or a time give its text, as str(key)"
    if isinstance(key, Mapping):
        return "; update_many takes the keys and weights of a mapping"
    if isinstance(key, (tuple, list)):
        return "; keys and their weights are given apart, or as a mapping"
    names = columns_named(key)
    return "" if names is None else f"; {_one_of(names)}"


def bytes_of_key(key: Key) -> bytes:
    """The bytes of a key that an item can have."""
    if isinstance(key, str):
        held = bytes_of_text(key)
    elif isinstance(key, (bytes, bytearray, memoryview)):
        held = bytes(key)
    else:
        raise TypeError(f"a key must be bytes or str, not {type(key).__name__!r}{_advice(key)}")
    if not 1 <= len(held) <= MAX_KEY:
        raise _refused_key(len(held))
    return held


def _refused_key(size: int) -> ValueError:
    return ValueError(f"a key must have 1 to {MAX_KEY} bytes, not {size}")


def integer_of_weight(weight: int, least: int = 1) -> int:
    """A weight that an item can have, or 0 where that is the least."""
    if is_flag(weight) or not hasattr(weight, "__index__"):
        advice = "; take its low or its high" if hasattr(weight, "low") else ""
        raise TypeError(f"a weight must be an integer, not {type(weight).__name__!r}{advice}")
    number = operator.index(weight)
    if not least <= number <= MAX_TOTAL:
        raise ValueError(f"a weight must be from {least} to 2^63 - 1, not {number}")
    return number


def _integer_or_zero(weight: int) -> int:
    """A weight that an item can have, or 0."""
    return integer_of_weight(weight, 0)


def columns_named(given: Any) -> list[Any] | None:
    """The names of a frame's columns, whatever library it is of; None of what is no frame."""
    if type(given).__name__ not in _FRAMES:
        return None
    names = getattr(given, "column_names", None)
    if names is None:
        names = getattr(given, "columns", None)
    return None if names is None else [*names]


def _one_of(names: list[Any]) -> str:
    return f"give one of its columns, as frame[{names[0]!r}]" if names else "it has no columns"


_Unchecked = TypeVar("_Unchecked")
_Checked = TypeVar("_Checked")


def _all_checked(
    name: str, check: Callable[[_Unchecked], _Checked], given: Iterable[_Unchecked], names: list[Any] | None = None
) -> list[_Checked]:
    """What a check gives of each of these. Its refusal has the first one's index, from 0 on, or name."""
    done: list[_Checked] = []
    for one in given:
        try:
            done.append(check(one))
        except (TypeError, ValueError) as refused:
            where = len(done) if names is None else repr(names[len(done)])
            raise type(refused)(f"{name}[{where}]: {refused}") from None
    return done


def _numpy() -> Any:
    """numpy, where something has loaded it."""
    return sys.modules.get("numpy")


def _sizes(words: Iterable[Any], count: int) -> Any:
    """The lengths of all of these, as numbers of 64 bits."""
    numpy = _numpy()
    return numpy.fromiter(map(len, words), numpy.uint64, count) if numpy else array.array("Q", map(len, words))


def _ends(sizes: Any) -> Any:
    """Where each key ends, if it begins where the one before it ends. The first size that no key has is refused."""
    _check_sizes(sizes)
    if isinstance(sizes, array.array):
        return array.array("Q", itertools.accumulate(sizes))
    numpy = _numpy()
    return numpy.cumsum(sizes, dtype=numpy.uint64)


def _check_sizes(sizes: Any) -> None:
    """Refuses the first of these sizes that no key has."""
    least, most = _least_and_most(sizes) if len(sizes) else (1, 1)
    if not 1 <= least <= most <= MAX_KEY:
        index = next(i for i, size in enumerate(sizes) if not 1 <= size <= MAX_KEY)
        raise ValueError(f"keys[{index}]: {_refused_key(int(sizes[index]))}")


def _least_and_most(values: Any) -> tuple[int, int]:
    """The least and the most of some numbers."""
    return (min(values), max(values)) if isinstance(values, array.array) else (int(values.min()), int(values.max()))


def _columns_of_list(keys: list[Any]) -> Columns:
    """The columns of a list of keys: joined at once where they are all of one kind."""
    columns = _joined_texts(keys)
    if columns is not None:
        return columns
    kinds = set(map(type, keys))
    words = keys if kinds == {bytes} else _all_checked("keys", bytes_of_key, keys)
    return Columns(b"".join(words), _ends(_sizes(words, len(words))), bool(kinds) and all(issubclass(it, str) for it in kinds))


def _joined_texts(keys: list[Any]) -> Columns | None:
    """The columns of a list of texts, with no step of Python for each; None where there is another key, or no such way."""
    numpy = _numpy()
    try:
        lines = "\n".join(keys).encode()
    except (TypeError, UnicodeEncodeError):
        return None
    breaks = numpy.flatnonzero(numpy.frombuffer(lines, numpy.uint8) == 10) if numpy else ()
    if len(breaks) + 1 == len(keys):
        sizes = numpy.diff(breaks, prepend=-1, append=len(lines)) - 1 if numpy else array.array("Q", [len(lines)])
    elif lines.isascii() and keys:
        sizes = _sizes(keys, len(keys))
    else:
        return None
    return Columns("".join(keys).encode(), _ends(sizes), True)


class _ArrowSchema(ctypes.Structure):
    _fields_ = [
        ("format", ctypes.c_char_p), ("name", ctypes.c_char_p), ("metadata", ctypes.c_char_p), ("flags", ctypes.c_int64),
        ("n_children", ctypes.c_int64), ("children", ctypes.c_void_p), ("dictionary", ctypes.c_void_p),
        ("release", ctypes.c_void_p), ("private_data", ctypes.c_void_p),
    ]


class _ArrowArray(ctypes.Structure):
    _fields_ = [
        ("length", ctypes.c_int64), ("null_count", ctypes.c_int64), ("offset", ctypes.c_int64),
        ("n_buffers", ctypes.c_int64), ("n_children", ctypes.c_int64), ("buffers", ctypes.POINTER(ctypes.c_void_p)),
        ("children", ctypes.c_void_p), ("dictionary", ctypes.c_void_p), ("release", ctypes.c_void_p),
        ("private_data", ctypes.c_void_p),
    ]


class _ArrowStream(ctypes.Structure):
    _fields_ = [
        ("get_schema", ctypes.CFUNCTYPE(ctypes.c_int, ctypes.c_void_p, ctypes.POINTER(_ArrowSchema))),
        ("get_next", ctypes.CFUNCTYPE(ctypes.c_int, ctypes.c_void_p, ctypes.POINTER(_ArrowArray))),
        ("get_last_error", ctypes.c_void_p), ("release", ctypes.c_void_p), ("private_data", ctypes.c_void_p),
    ]


# what Arrow's letters for integers are in the module `array`, and those for texts' and bytes' offsets
_ARROW_INTEGERS = {b"c": "b", b"C": "B", b"s": "h", b"S": "H", b"i": "i", b"I": "I", b"l": "q", b"L": "Q"}
_ARROW_OFFSETS = {b"u": "i", b"z": "i", b"U": "q", b"Z": "q"}
# kinds of texts and bytes that are taken value by value, as their library gives them
_ARROW_OTHERS = {b"vu", b"vz", b"dictionary"}
_RELEASE = ctypes.CFUNCTYPE(None, ctypes.c_void_p)


def _pointer(capsule: Any, name: bytes) -> int:
    """Where the structure of a capsule lies."""
    pointer = ctypes.pythonapi.PyCapsule_GetPointer
    pointer.restype, pointer.argtypes = ctypes.c_void_p, [ctypes.py_object, ctypes.c_char_p]
    return pointer(capsule, name) or 0


def _released(structure: Any) -> None:
    """Gives back what a structure holds that a stream filled."""
    if structure.release:
        _RELEASE(structure.release)(ctypes.addressof(structure))


class _Arrow(NamedTuple):
    """An array by Arrow's C interface, and the letter of its kind. What owns its memory is None where that is soon given back."""

    format: bytes
    array: _ArrowArray
    owner: Any = None

    def first_null(self) -> int | None:
        """The index of the first place that has no value."""
        if self.array.null_count == 0 or not self.array.buffers[0]:
            return None
        first = self.array.offset
        bits = ctypes.string_at(self.array.buffers[0], (first + self.array.length + 7) // 8)
        missing = (i for i in range(self.array.length) if not bits[(first + i) // 8] >> (first + i) % 8 & 1)
        return next(missing, None)

    def numbers(self, buffer: int, code: str, count: int) -> Any:
        """The first `count` numbers of a buffer, from this array's offset on: with numpy where they lie, while the array is."""
        size, place = array.array(code).itemsize, self.array.buffers[buffer]
        held: Any = (ctypes.c_char * (count * size)).from_address(place + self.array.offset * size) if count and place else b""
        numpy = _numpy()
        return numpy.frombuffer(held, code) if numpy else array.array(code, bytes(held))

    def bytes_at(self, place: int, size: int) -> bytes | ctypes.Array[ctypes.c_char]:
        """Bytes of this array, with no copy where something owns them."""
        if self.owner is None:
            return ctypes.string_at(place, size)
        held = (ctypes.c_char * size).from_address(place)
        held.owner = self.owner  # type: ignore[attr-defined]
        return held

    def columns(self) -> Columns:
        """Its texts, or bytes."""
        if self.format not in _ARROW_OFFSETS:
            advice = "; of numbers give their texts" if self.format in _ARROW_INTEGERS or self.format in b"efg" else ""
            raise TypeError(f"keys must be texts or bytes, not Arrow's {self.format.decode()!r}{advice}")
        null = self.first_null()
        if null is not None:
            raise TypeError(f"keys[{null}]: a key must be bytes or str, not null")
        if not self.array.length:
            return Columns(b"", array.array("Q"), self.format in b"uU")
        offsets = self.numbers(1, _ARROW_OFFSETS[self.format], self.array.length + 1)
        first, last = int(offsets[0]), int(offsets[-1])
        data = self.bytes_at(self.array.buffers[2] + first, last - first) if last > first else b""
        if isinstance(offsets, array.array):
            ends = _ends(array.array("Q", map(operator.sub, offsets[1:], offsets)))
        else:
            numpy = _numpy()
            _check_sizes(numpy.diff(offsets))
            ends = numpy.subtract(offsets[1:], first, dtype="i8").view("u8")
        return Columns(data, ends, self.format in b"uU")

    def integers(self) -> Any:
        """Its integers."""
        if self.format not in _ARROW_INTEGERS:
            raise TypeError(f"weights must be integers, not Arrow's {self.format.decode()!r}")
        null = self.first_null()
        if null is not None:
            raise TypeError(f"weights[{null}]: a weight must be an integer, not null")
        return copy.copy(self.numbers(1, _ARROW_INTEGERS[self.format], self.array.length))


def _is_pandas(given: Any) -> bool:
    return type(given).__module__.split(".")[0] == "pandas"


def _arrow_of(given: Any) -> Any:
    """What a column of pandas holds where that is pyarrow's, and else None; what is no column of pandas as it is."""
    if not _is_pandas(given):
        return given
    kind = getattr(given, "dtype", None)
    is_arrow = getattr(kind, "storage", "") == "pyarrow" or hasattr(kind, "pyarrow_dtype")
    return getattr(given, "array", given).__arrow_array__() if is_arrow else None


_Taken = TypeVar("_Taken")


def _arrow_parts(given: Any, take: Callable[[_Arrow], _Taken]) -> list[_Taken] | None:
    """What is taken of an array of Arrow, or of each of those in a stream. None of what is neither, or of another kind of
    text."""
    given = _arrow_of(given)
    if hasattr(given, "__arrow_c_array__"):
        capsules = given.__arrow_c_array__()  # they free the array when they go
        schema = _ArrowSchema.from_address(_pointer(capsules[0], b"arrow_schema"))
        if _format(schema) in _ARROW_OTHERS:
            return None
        return [take(_Arrow(_format(schema), _ArrowArray.from_address(_pointer(capsules[1], b"arrow_array")), (given, capsules)))]
    if hasattr(given, "__arrow_c_stream__"):
        return _stream_parts(given.__arrow_c_stream__(), take)
    return None


def _format(schema: _ArrowSchema) -> bytes:
    return b"dictionary" if schema.dictionary else bytes(schema.format)


def _stream_parts(capsule: Any, take: Callable[[_Arrow], _Taken]) -> list[_Taken] | None:
    """What is taken of each array of a stream, or None of another kind of text."""
    stream = _ArrowStream.from_address(_pointer(capsule, b"arrow_array_stream"))
    schema = _ArrowSchema()
    parts: list[_Taken] = []
    if stream.get_schema(ctypes.addressof(stream), ctypes.byref(schema)):
        raise ValueError("the stream of Arrow could not be read")
    try:
        while _format(schema) not in _ARROW_OTHERS:
            one = _ArrowArray()
            if stream.get_next(ctypes.addressof(stream), ctypes.byref(one)):
                raise ValueError("the stream of Arrow could not be read")
            if not one.release:
                return parts
            try:
                parts.append(take(_Arrow(_format(schema), one)))
            finally:
                _released(one)
        return None
    finally:
        _released(schema)


def _joined_columns(parts: list[Columns]) -> Columns:
    """The columns of parts, one behind the other."""
    if len(parts) == 1:
        return parts[0]
    ends, base = array.array("Q"), 0
    for part in parts:
        ends.extend(base + end for end in part.ends.tolist())
        base += len(part.data)
    return Columns(b"".join(part.data for part in parts), ends, bool(parts) and all(part.text for part in parts))


def _array_of(given: Any) -> Any:
    """The numpy array that this is, or that a pandas Series has; else None."""
    if _is_pandas(given) and hasattr(given, "to_numpy"):
        given = given.to_numpy()
    return given if type(given).__module__ == "numpy" and getattr(given, "ndim", 0) == 1 else None


def _numpy_columns(texts: Any) -> Columns:
    """The columns of a numpy array of bytes of one width, without the NULs behind each, as numpy has it."""
    numpy = _numpy()
    width = texts.dtype.itemsize
    if not len(texts) or not width:
        return Columns(b"", _ends(numpy.zeros(len(texts), numpy.uint64)), False)
    table = numpy.ascontiguousarray(texts).view(numpy.uint8).reshape(len(texts), width)
    written = table != 0
    sizes = width - written[:, ::-1].argmax(axis=1)
    sizes[(sizes == width) & ~written[:, -1]] = 0
    ends = _ends(sizes)
    if numpy.count_nonzero(written) < ends[-1]:
        written = numpy.arange(width) < sizes[:, None]  # a NUL stands within a key
    return Columns(table[written].tobytes(), ends, False)


def _is_iterable(given: Any) -> bool:
    return hasattr(given, "__iter__") or hasattr(given, "__getitem__")


def columns_of(keys: Any) -> Columns:
    """The columns of keys, all of them checked."""
    names = columns_named(keys)
    if names is not None:
        raise TypeError(f"keys must be an iterable of keys, not a {type(keys).__name__}; {_one_of(names)}")
    parts = _arrow_parts(keys, _Arrow.columns)
    if parts is not None:
        return _joined_columns(parts)
    texts = _array_of(keys)
    if texts is None:
        if isinstance(keys, (str, bytes, bytearray, memoryview)) or not _is_iterable(keys):
            raise TypeError(f"keys must be an iterable of keys, not {type(keys).__name__!r}")
        return _columns_of_list(keys.to_pylist() if hasattr(keys, "to_pylist") else [*keys])
    if texts.dtype.kind in "iufcb" and len(texts):
        advice = "of numbers give keys.astype(str)" + (", of weights by key keys.to_dict()" if hasattr(keys, "to_dict") else "")
        raise TypeError(f"keys[0]: a key must be bytes or str, not '{texts.dtype}'; {advice}")
    if texts.dtype.kind in "mM" and len(texts):
        raise TypeError(f"keys[0]: a key must be bytes or str, not '{texts.dtype}'; of dates and times give keys.astype(str)")
    return _numpy_columns(texts) if texts.dtype.kind == "S" else _columns_of_list(texts.tolist())


def _values_of(given: Any) -> Any:
    """The integers of an array of another library, as an array; what is no such array as it is."""
    parts = _arrow_parts(given, _Arrow.integers)
    if parts is not None:
        numpy = _numpy()
        return numpy.concatenate(parts) if numpy and parts else [*itertools.chain.from_iterable(parts)]
    values = _array_of(given)
    if values is None:
        return given
    if values.dtype.kind in "mM":
        raise TypeError(f"weights must be integers, not of {values.dtype}")
    return values if values.dtype.kind in "iu" else values.tolist()


def _is_integers(values: Any) -> bool:
    """Whether this is an array of integers, by numpy or by Python's module."""
    if isinstance(values, array.array):
        return values.typecode in "bBhHiIlLqQ"
    numpy = _numpy()
    return bool(numpy) and isinstance(values, numpy.ndarray) and values.ndim == 1 and values.dtype.kind in "iu"


def _words_of(values: Any) -> Any:
    """Positive integers of numpy as numbers of 64 bits, one after the other: the same memory where they are that."""
    numpy = _numpy()
    own = numpy.ascontiguousarray(values)
    return own.view("u8") if own.dtype in ("=i8", "=u8") else own.astype("=u8")


def _weights_in(weights: Any) -> Any:
    """Weights as an iterable of them, where they are one."""
    frame = columns_named(weights)
    if frame is not None:
        raise TypeError(f"weights must be an iterable of integers, not a {type(weights).__name__}; {_one_of(frame)}")
    if isinstance(weights, Mapping):
        raise TypeError("weights must be an iterable of integers, not a mapping; give that in place of keys")
    values = _values_of(weights)
    if isinstance(values, (str, bytes, bytearray, Set)) or not _is_iterable(values):
        raise TypeError(f"weights must be an iterable of integers, not {type(values).__name__!r}")
    return values


def numbers_of(weights: Any, count: int, names: list[Any] | None = None, zero: bool = False) -> Any:
    """As many weights as there are keys, all of them checked, or None for 1 each; with `zero` there may be some of 0. Weights
    may go on for ever: one too many is enough to refuse them."""
    if weights is None:
        return None
    values = _weights_in(weights)
    if _is_integers(values):
        least, most = _least_and_most(values) if len(values) else (0, 0)
        if len(values) == count and (0 if zero else 1) <= least <= most <= MAX_TOTAL:
            return array.array("Q", values) if isinstance(values, array.array) else _words_of(values)
        values = values.tolist()
    given = itertools.islice(values, count + 1)
    check: Callable[[int], int] = integer_of_weight
    if zero:
        check = _integer_or_zero
    checked = array.array("Q", _all_checked("weights", check, given, names))
    if len(checked) != count:
        told = "more" if len(checked) > count else "fewer"
        raise ValueError(f"there are {told} weights than keys, which are {count}")
    return checked


class Items(NamedTuple):
    """Items as they are added, and the weights that were given of how many keys: more, where equal keys are one item."""

    columns: Columns
    weights: Any
    given: Any
    many: int


def _items(columns: Columns, numbers: Any) -> Items:
    """Items of these keys and weights, but for those of weight 0."""
    count = len(columns.ends)
    if numbers is None or not count or _least_and_most(numbers)[0]:
        return Items(columns, numbers, numbers, count)
    weights = numbers.tolist()
    left = _columns_of_list([word for word, weight in zip(columns.words(), weights) if weight])
    return Items(left._replace(text=columns.text), array.array("Q", filter(None, weights)), numbers, count)


def items_of(keys: Any, weights: Any, room: int = 0, skip_zero: bool = False) -> Items:
    """Keys and weights, all of them checked: those given, or those of a mapping. Equal keys of a column of pandas or pyarrow
    are one item where the different ones are at most `room`. With `skip_zero` items of weight 0 are left out."""
    if isinstance(keys, Mapping):
        if weights is not None:
            raise TypeError(f"keys is a {type(keys).__name__}, which has weights of its own; give none beside it")
        columns = columns_of([*keys])
        numbers = numbers_of([*keys.values()], len(columns.ends), [*keys], skip_zero)
    else:
        is_column = hasattr(keys, "to_numpy") and columns_named(keys) is None
        together = _together(keys, weights, room) if room and is_column else None
        if together is not None:
            return together
        columns = columns_of(keys)
        numbers = numbers_of(weights, len(columns.ends), None, skip_zero)
    return _items(columns, numbers)


_BATCH, _BATCH_BYTES = 1 << 16, 1 << 22  # how many keys, or bytes of keys, a batch has
_BLOCK = 1 << 12  # how many keys of it are read at once


def comes_by_batches(keys: Any) -> bool:
    """Whether these are keys of which nothing tells how many they are, as those of an iterator."""
    whole = ("__len__", "__arrow_c_array__", "__arrow_c_stream__", "to_pylist")
    if not hasattr(keys, "__iter__") or columns_named(keys) is not None or _is_pandas(keys):
        return False
    return not any(hasattr(keys, name) for name in whole)


def _next_batch(first: list[Any], keys: Iterator[Any]) -> list[Any]:
    """The first key and the next ones, of which fewer are read where they are long."""
    batch, block, size = [], first, 0
    while block:
        batch += block
        size += sum(len(key) for key in block if hasattr(key, "__len__"))
        wanted = min(_BLOCK, _BATCH - len(batch)) if size < _BATCH_BYTES else 0
        block = [*itertools.islice(keys, wanted)]
    return batch


def batches_of(keys: Iterable[Any], weights: Any, skip_zero: bool) -> Iterator[Items]:
    """Keys and weights in batches, in order, each of them checked before it comes. The last one comes once no weight is left."""
    coming, numbers, before = iter(keys), None if weights is None else iter(_weights_in(weights)), 0
    first = [*itertools.islice(coming, 1)]
    while True:
        batch = _next_batch(first, coming)
        first = [*itertools.islice(coming, 1)]
        count = len(batch)
        given = None if numbers is None else [*itertools.islice(numbers, count if first else count + 1)]
        try:
            columns = columns_of(batch)
            if given is not None and len(given) != count:
                told = "more" if len(given) > count else "fewer"
                raise ValueError(f"there are {told} weights than keys, which are {before + count}{' or more' if first else ''}")
            checked = numbers_of(given, count, None, skip_zero)
        except (TypeError, ValueError) as refused:
            raise _among_all(refused, before) from None
        del batch, given
        yield _items(columns, checked)
        before += count
        if not first:
            return


def _among_all(refused: TypeError | ValueError, before: int) -> Exception:
    """The refusal of a batch, with the index that the key or the weight has among all, and how many items are added."""
    told = re.sub(r"^(keys|weights)\[(\d+)\]", lambda found: f"{found[1]}[{int(found[2]) + before}]", str(refused))
    return type(refused)(f"{told}; {added_so_far(before)}" if before else told)


def _together(keys: Any, weights: Any, room: int) -> Items | None:
    """The items of a column of pandas or pyarrow with equal keys as one, at the first one's place. None where they are more
    than `room`, or where something is to be refused."""
    if not 1000 < len(keys) < 2**27 or not hasattr([] if weights is None else weights, "__len__"):
        return None
    try:
        codes, columns = _coded(keys, room) or (None, None)
        numbers = numbers_of(weights, len(keys))
    except (TypeError, ValueError):
        return None
    if codes is None or columns is None or len(columns.ends) > room or codes.dtype.kind not in "iu" or codes.min() < 0:
        return None
    if numbers is not None and sum_of(numbers) > MAX_TOTAL:
        return None
    return Items(columns, _sums(codes, numbers, len(columns.ends)), numbers, len(keys))


def _coded(keys: Any, room: int) -> tuple[Any, Columns] | None:
    """The different keys of a column, in the order of their first places, and for each key which of them it is; None where
    the library of the column can't tell, or where they are soon more than `room`."""
    given = _arrow_of(keys)
    if hasattr(given, "dictionary_encode"):
        coded = (given.combine_chunks() if hasattr(given, "combine_chunks") else given).dictionary_encode()
        return coded.indices.to_numpy(zero_copy_only=False), columns_of(coded.dictionary)
    pandas: Any = sys.modules.get("pandas")
    texts = _array_of(keys) if pandas and _is_pandas(keys) else None
    if texts is None or texts.dtype.kind != "O" or len(set(texts[:20_000].tolist())) > room:
        return None
    codes, different = pandas.factorize(texts)
    return codes, _columns_of_list(different.tolist())


def _sums(codes: Any, numbers: Any, count: int) -> Any:
    """The sums of the numbers of each code, exactly: of fewer than 2^27 numbers a float holds those of 26 bits."""
    numpy = _numpy()
    if numbers is None:
        return numpy.bincount(codes, minlength=count).astype(numpy.uint64)
    numbers, sums = numpy.asarray(numbers, numpy.uint64), numpy.zeros(count, numpy.uint64)
    for shift in (0, 26, 52):
        part = (numbers >> numpy.uint64(shift)) & numpy.uint64(2**26 - 1)
        if part.any():
            sums += numpy.bincount(codes, part.astype(float), count).astype(numpy.uint64) << numpy.uint64(shift)
    return sums


def sum_of(numbers: Any) -> int:
    """The sum of numbers of 64 bits."""
    if isinstance(numbers, array.array):
        return sum(numbers)
    if not len(numbers) or int(numbers.max()) * len(numbers) < 2**64:
        return int(numbers.sum())
    return (int((numbers >> 32).sum()) << 32) + int((numbers & 0xFFFFFFFF).sum())


def _lent_numbers(numbers: Any) -> tuple[Any, int]:
    """Numbers of 64 bits as an array, never null, and how many they are."""
    if numbers is None or not len(numbers):
        return (ctypes.c_uint64 * 1)(), 0
    if isinstance(numbers, array.array):
        return (ctypes.c_uint64 * len(numbers)).from_buffer(numbers), len(numbers)
    return numbers.ctypes.data_as(ctypes.POINTER(ctypes.c_uint64)), len(numbers)


def lent_items(columns: Columns, numbers: Any) -> tuple[Any, ...]:
    """Items as a call takes them."""
    return *lent(columns.data), *_lent_numbers(columns.ends), *_lent_numbers(numbers)


ANY = 2**63  # a room for any number of different keys
