"""Why the library refuses, in the words of its header."""
from __future__ import annotations

import enum


class Kind(enum.IntEnum):
    """What a `HeavyError` is about: the names and numbers of the library's header, without `HEAVY_`.

    >>> try:
    ...     Summary(k=0)
    ... except HeavyError as refused:
    ...     print(refused.kind is Kind.BAD_K, refused.cause)
    True None
    """

    BAD_DEPTH = 1
    BAD_K = 2
    BAD_WIDTH = 4
    BAD_METHOD = 7
    BAD_RECORD = 9
    BAD_FILE = 10
    MIXED_KINDS = 11
    CANNOT_MERGE = 12
    BAD_KEY = 13
    NOT_COUNTERS = 14
    TOTAL_DIFFERS = 15
    NO_MEMORY = 18
    BAD_THRESHOLD = 19
    BAD_END = 20
    BAD_WEIGHT_COUNT = 21
    BAD_DELIMITER = 22
    BAD_COLUMN = 23
    NO_COLUMN = 24
    WEIGHT_OUTSIDE = 25
    BAD_LAYOUT = 26
    TOP_UNCERTAIN = 27
    NO_VALUE = 28
    REPORT_UNCERTAIN = 29


class Cause(enum.Enum):
    """What is wrong with a record, a saved file, a merge or a key: the names of the library's header, without `HEAVY_`. Each has
    the number of its kind, and its own within that.

    >>> try:
    ...     Summary.of_csv(b"a,5\\nb,0\\n")
    ... except HeavyError as refused:
    ...     print(refused.kind is Kind.BAD_RECORD, refused.cause is Cause.RECORD_ZERO_WEIGHT, refused.line)
    True True 2
    """

    RECORD_FIELD_COUNT = (9, 1)
    RECORD_EMPTY_KEY = (9, 2)
    RECORD_KEY_TOO_LONG = (9, 3)
    RECORD_BAD_WEIGHT = (9, 4)
    RECORD_ZERO_WEIGHT = (9, 5)
    RECORD_TOTAL_TOO_LARGE = (9, 6)
    FILE_TRUNCATED = (10, 1)
    FILE_BAD_MAGIC = (10, 2)
    FILE_BAD_KIND = (10, 3)
    FILE_BAD_K = (10, 4)
    FILE_BAD_COUNT = (10, 5)
    FILE_BAD_KEY = (10, 6)
    FILE_KEY_ORDER = (10, 7)
    FILE_BAD_COUNTER = (10, 8)
    FILE_SUM_TOO_LARGE = (10, 9)
    FILE_BAD_WIDTH = (10, 10)
    FILE_BAD_DEPTH = (10, 11)
    FILE_BAD_COEFFICIENT = (10, 12)
    FILE_TOTAL_TOO_LARGE = (10, 13)
    FILE_ROW_SUM = (10, 14)
    FILE_TRAILING = (10, 15)
    FILE_DAMAGED = (10, 17)
    FILE_BAD_DECIMALS = (10, 18)
    MERGE_DIFFERENT_K = (12, 1)
    MERGE_DIFFERENT_FAMILY = (12, 2)
    MERGE_DIFFERENT_WIDTH = (12, 3)
    MERGE_TOTAL_TOO_LARGE = (12, 4)
    KEY_EMPTY = (13, 1)
    KEY_TOO_LONG = (13, 2)
