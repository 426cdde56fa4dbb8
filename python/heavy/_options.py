"""How records are laid out, and above which share of the total keys are heavy."""
from __future__ import annotations

import contextlib
import ctypes
import functools
import itertools
import numbers
import re
from dataclasses import dataclass, fields
from decimal import Decimal
from fractions import Fraction
from typing import Any, Optional, Sequence, SupportsFloat, Tuple, Union

from ._library import BAD_DELIMITER, BAD_THRESHOLD, USAGE, HeavyError, LayoutWords, flag, integer, is_flag, joined
from ._library import word

Threshold = Union[None, str, Fraction, Decimal, float, SupportsFloat, Tuple[int, int]]
Column = Union[int, str, bytes]

_MARK = b"\xef\xbb\xbf"
_MOST = 2**32  # the largest q of a share p/q


def share_of(threshold: Threshold) -> tuple[int, int]:
    """The share p/q that a threshold is, or 0 and 0 for none.

    >>> share_of("1/10"), share_of("0.1"), share_of("10%"), share_of(0.25), share_of(None)
    ((1, 10), (1, 10), (1, 10), (1, 4), (0, 0))
    >>> share_of(0.1)
    Traceback (most recent call last):
    ValueError: the threshold 0.1 is not exactly 1/10; write '1/10' or Fraction(1, 10)
    """
    if threshold is None:
        return 0, 0
    if isinstance(threshold, tuple):
        if len(threshold) != 2:
            raise ValueError(f"a threshold is a pair (p, q), not {len(threshold)} numbers")
        p, q = word("p", threshold[0]), word("q", threshold[1])
    elif isinstance(threshold, str):
        p, q = _share_of_text("a threshold", threshold)
    else:
        share = _fraction_of(threshold)
        p, q = share.numerator, share.denominator
    if not 1 <= p <= q <= _MOST:
        raise HeavyError(USAGE, BAD_THRESHOLD, 0, 0)
    return p, q


def _share_of_text(name: str, text: str) -> tuple[int, int]:
    """The numbers of a text P/Q, or of one with a point or a percent sign, which is exact too."""
    if re.fullmatch(r"[0-9]+/[0-9]+", text):
        p, q = text.split("/")
        return int(p), int(q)
    if not re.fullmatch(r"([0-9]+\.?[0-9]*|\.[0-9]+)%?", text):
        raise ValueError(f"{name} is a text as '1/4', '0.25' or '25%', not {text!r}")
    share = Fraction(text[:-1]) / 100 if text.endswith("%") else Fraction(text)
    return share.numerator, share.denominator


def error_of(name: str, share: Any) -> Fraction:
    """A share above 0 and at most 1, in all ways in which a threshold is given, and any float as the number that it is."""
    p, q = 0, 1
    if isinstance(share, str):
        p, q = _share_of_text(f"the {name}", share)
    elif isinstance(share, tuple) and len(share) == 2:
        p, q = integer("p", share[0]), integer("q", share[1])
    elif isinstance(share, numbers.Rational) and not is_flag(share):
        p, q = int(share.numerator), int(share.denominator)
    elif isinstance(share, (numbers.Real, Decimal)) and not is_flag(share):
        with contextlib.suppress(ValueError, OverflowError):
            p, q = Fraction(share if isinstance(share, Decimal) else float(share)).as_integer_ratio()
    if not 0 < p <= q:
        raise ValueError(f"{name} must be a share above 0 and at most 1, as '1/1000', not {share!r}")
    return Fraction(p, q)


def _fraction_of(threshold: Any) -> Fraction:
    """The fraction that a number is. A float that is none with a small denominator is refused."""
    if is_flag(threshold) or not isinstance(threshold, (numbers.Real, Decimal)):
        raise TypeError(f"a threshold is a text 'P/Q', a pair, a Fraction or a float, not {type(threshold).__name__!r}")
    try:
        if isinstance(threshold, Decimal):
            return Fraction(threshold)
        if isinstance(threshold, numbers.Rational):
            return Fraction(int(threshold.numerator), int(threshold.denominator))
        rounded = float(threshold)
        share = Fraction(rounded)
    except (ValueError, OverflowError):
        raise ValueError(f"a threshold is a share, not {threshold!r}") from None
    meant = share.limit_denominator(10**6)
    if meant != share and _is_rounded(meant, threshold):
        raise ValueError(f"the threshold {threshold} is not exactly {meant}; write '{meant}' or {meant!r}")
    if share.denominator > _MOST or rounded != threshold:
        raise ValueError(f"the threshold {threshold} is no fraction with a small denominator; write it as 'P/Q'")
    return share


def _is_rounded(meant: Fraction, threshold: Any) -> bool:
    """Whether a fraction, as a number of the threshold's kind, is the threshold."""
    return bool(type(threshold)(float(meant)) == threshold)


@dataclass(frozen=True, repr=False)
class Layout:
    """How the records of a text are laid out, as the program's options say it.

    `delimiter` is the character between two fields. With `header` the first record names the columns, and is none. `key`
    and `weight` are columns, each a number from 1 on or, with a header, a name; several columns, as `["host", "path"]`,
    are one key, which is the CSV text of their fields. Without either, a record is a key and its weight; without `weight`
    alone, each record weighs 1; without `key` alone, that is column 1. With `decimals` a weight may have a point and up to
    so many digits behind it, from 0 to 9: summaries count units of the last one, and rows have a `Decimal`. With
    `allow_zero` a weight of 0 or `-` adds nothing and is no fault.

    >>> log = Layout(delimiter=" ", header=True, key="host", weight="bytes", allow_zero=True)
    >>> report(b"host bytes\\na 5\\nb -\\na 2\\n", k=1, layout=log)
    [Row(key=b'a', weight=7)]
    """

    delimiter: Union[str, bytes] = ","
    header: bool = False
    key: Union[None, Column, Sequence[Column]] = None
    weight: Optional[Column] = None
    decimals: int = 0
    allow_zero: bool = False

    def __post_init__(self) -> None:
        for name in ("header", "allow_zero"):
            object.__setattr__(self, name, flag(name, getattr(self, name)))
        object.__setattr__(self, "decimals", integer("decimals", self.decimals))
        if not 0 <= self.decimals <= 9:
            raise ValueError(f"decimals must be 0 to 9, not {self.decimals}")
        if isinstance(self.key, list):
            object.__setattr__(self, "key", tuple(self.key))
        self._separator, self._columns  # what is no option is refused here

    def __repr__(self) -> str:
        told = ((field.name, getattr(self, field.name), field.default) for field in fields(self))
        return f"Layout({', '.join(f'{name}={value!r}' for name, value, default in told if value != default)})"

    @property
    def _separator(self) -> bytes:
        """The byte between two fields."""
        if not isinstance(self.delimiter, (str, bytes)):
            raise TypeError(f"delimiter must be a character, not {type(self.delimiter).__name__!r}")
        held = self.delimiter.encode() if isinstance(self.delimiter, str) else self.delimiter
        if len(held) != 1 or held in b'"\r\n':
            raise HeavyError(USAGE, BAD_DELIMITER, 0, 0)
        return held

    @property
    def _columns(self) -> list[bytes]:
        """The columns of the key, and after them that of the weight."""
        keys: Any = self.key
        listed = [] if keys is None else keys if isinstance(keys, tuple) else [keys]
        if not listed and keys is not None:
            raise ValueError("key must name a column")
        return [_column("key", it) for it in listed] + ([] if self.weight is None else [_column("weight", self.weight)])

    def _words(self) -> tuple[Any, ...]:
        """The layout as a call takes it."""
        layout = LayoutWords(self._separator[0], self.header, self.allow_zero, self.decimals, self.weight is not None)
        return ctypes.byref(layout), *joined(self._columns)

    def _records_of(self, part: bytes) -> list[bytes]:
        """The records of a part of a text, each as its bytes."""
        record, _ = _patterns(self._separator)
        return record.findall(part[len(_MARK) :] if part.startswith(_MARK) else part)

    def _line_of(self, part: bytes, number: int) -> int | None:
        """The line on which the record of a part of a text begins that has this number, from 1 on, with a header among them."""
        record, _ = _patterns(self._separator)
        begin = len(_MARK) if part.startswith(_MARK) else 0
        found = next(itertools.islice(record.finditer(part, begin), number - 1, None), None)
        return None if found is None else lines_in(part[: found.start()]) + 1

    def _count(self, part: bytes) -> int:
        """How many records a part of a text has. Where a quote stands only at a field's ends or twice in one, each other
        run between quotes is outside them, and its lines are records."""
        text = part[len(_MARK) :] if part.startswith(_MARK) else part
        if not any(it in text for it in (b'"', b"\r", b"\n\n")):
            return text.count(b"\n") + (text[-1:] not in b"\n") - text.startswith(b"\n")
        _, quote_in_a_field = _patterns(self._separator)
        runs = text.split(b'"')
        outside = b'"'.join(runs[::2])
        if len(runs) % 2 == 0 or quote_in_a_field.search(outside):
            return len(self._records_of(part))
        return sum(map(bool, outside.replace(b"\r", b"\n").split(b"\n")))

    def _header_of(self, part: bytes) -> bytes:
        """The header that a text's first part begins with, or nothing."""
        record, _ = _patterns(self._separator)
        found = record.search(part, len(_MARK) if part.startswith(_MARK) else 0) if self.header else None
        return found[0] if found else b""


def lines_in(text: bytes) -> int:
    """How many lines end in a text, by CR, LF or both."""
    return text.count(b"\n") + text.count(b"\r") - text.count(b"\r\n")


def _column(name: str, column: Any) -> bytes:
    """A column's number in digits, or its name."""
    if isinstance(column, str):
        return column.encode("utf-8", "surrogateescape")
    if isinstance(column, bytes):
        return column
    if isinstance(column, bool) or not hasattr(column, "__index__"):
        raise TypeError(f"{name} must be a column's number or name, not {type(column).__name__!r}")
    return b"%d" % max(integer(name, column), 0)


@functools.lru_cache(maxsize=16)
def _patterns(separator: bytes) -> tuple[re.Pattern[bytes], re.Pattern[bytes]]:
    """What matches a record, and a quote within a field that has none around it."""
    one = re.escape(separator)
    field = rb'(?:"[^"]*(?:""[^"]*)*(?:"[^%s\r\n]*)?|[^"%s\r\n][^%s\r\n]*)?' % (one, one, one)
    return re.compile(rb"(?=[^\r\n])" + field + rb"(?:" + one + field + rb")*"), re.compile(rb'[^%s\r\n"]"' % one)


PLAIN = Layout()
