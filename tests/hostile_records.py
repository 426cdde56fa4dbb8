#!/usr/bin/env python3
"""Feeds mutated records to `report`, `summarise`, `table`, `confirm` and `condense`, and compares what they say with
tests/reference.py: the same items, or the same first bad record with its number and cause.

usage: tests/hostile_records.py [CASES [SEED [FIRST]]]

Reads the records of tests/corpus first. Prints the seed, and for a case that differs the command that repeats it.
"""
import functools

import corpus
import hostile
import programs
import reference

FIELDS = [
    b"a", b"b", b"c", b"ab", b"", b'"a,b"', b'"a""b"', b'"a\nb"', b'"a\r\nb"', b'a"b', b'"a"b', b"\xff", b"\0", b" a",
    b"\xef\xbb\xbfa", b"k" * 256, b"k" * 4096, b"k" * 4097, b"\xff" * 4096, b'"', b'""',
    b"k" * 16_385, b'"' + b'""' * 16_384 + b'"', b'"' + b"k\n" * 9_000, b'"k"' + b"k" * 17_000,
]
WEIGHTS = [
    b"1", b"2", b"3", b"7", b"0", b"00", b"007", b"-1", b"+1", b"1.0", b" 1", b"1 ", b"", b'"5"', b"x", b"9" * 20,
    b"9" * 21, b"0" * 20, b"0" * 19 + b"1", b"0" * 20 + b"1", b"9223372036854775807", b"9223372036854775806",
]
ENDS = [b"\n", b"\n", b"\n", b"\r\n", b"\r", b"\n\n", b""]
PIECES = [b",", b'"', b"\n", b"\r", b"\r\n", b"\0", b"\xff", b"\xef\xbb\xbf", b"0", b"9", b" ", b'""']


# Records whose summaries condense others, with keys that need quotes, begin with a byte order mark or are names of others
OTHER_KEYS = [
    b"a\nb\nc\n", b'"a,b"\n"a""b"\nab\n', b"x\n\xef\xbb\xbfa\n", b"others\nothers1\na\n", b'"a\nb"\n"a\r\nb"\n', b"",
]


def record(draw) -> bytes:
    fields = [draw.choice(FIELDS)] if draw.random() < 0.15 else [draw.choice(FIELDS[:4])]
    if draw.random() < 0.8:
        fields.append(draw.choice(WEIGHTS) if draw.random() < 0.15 else draw.choice(WEIGHTS[:4]))
    if draw.random() < 0.02:
        fields.append(b"1")
    return b",".join(fields)


def text(draw) -> bytes:
    parts = [b"\xef\xbb\xbf"] if draw.random() < 0.05 else []
    for _ in range(draw.randrange(12)):
        parts += [record(draw), draw.choice(ENDS)]
    data = bytearray(b"".join(parts))
    for _ in range(draw.choice([0, 0, 1, 1, 2])):
        hostile.mutate(draw, data, PIECES)
    return bytes(data)


@functools.lru_cache
def empty_table(options: tuple[str, ...]) -> bytes:
    """The table of no record, whose family these options draw."""
    return programs.run([programs.built("heavy_cli"), "table", *options]).out


def table(text, empty: bytes, reader=reference.items_of) -> bytes:
    """The table of these records by the family of an empty one."""
    items = reader(text)
    made = reference.read(empty)
    made.total = reference.total_of(items)
    for key, weight in items:
        for row, place in zip(made.cells, reference.places(made, key)):
            row[place] += weight
    return reference.written(made)


def case(draw) -> hostile.Case:
    given, k = text(draw), draw.choice([1, 2, 3, 9, 65535])
    options = ["--k", str(k)]
    match draw.randrange(6):
        case 0:
            method = draw.choice(["mg", "ss"])
            expected = reference.answer(reference.summarise, given, k)
            return hostile.Case(["summarise", *options, "--method", method], [], [], given, expected)
        case 1:
            status, saved, said = reference.answer(reference.summarise, given, k)
            if status == 0:
                return hostile.Case(["confirm"], [saved], [], given, reference.compared(reference.confirm, saved, given, True))
        case 2:
            saved = reference.summarise(draw.choice(OTHER_KEYS), k)
            expected = reference.compared(reference.condense, saved, given, True)
            return hostile.Case(["condense"], [saved], [], given, expected)
        case 3:
            words = ("--width", draw.choice(["1", "5", "8"]), "--depth", draw.choice("13"), "--seed", draw.choice("07"))
            expected = reference.answer(table, given, empty_table(words))
            return hostile.Case(["table", *words], [], [], given, expected)
    share = draw.choice([None, None, b"1/2", b"2/3", b"1/10", b"0001/3", b"1/0", b"1/4294967296", b"x"])
    if share is not None:
        options += ["--threshold", share.decode()]
    options += ["--workers", draw.choice("123"), "--pieces", draw.choice("125"), "--width", "8", "--depth", "1"]
    return hostile.Case(["report", *options], [], [], given, reference.answer(reference.report, given, k, share))


def cases_of(kept: corpus.Kept) -> list[hostile.Case]:
    """Each command that reads records, on a text that is kept."""
    given, words = kept.data, ("--width", "5", "--depth", "3", "--seed", "7")
    made = [
        hostile.Case(["report", "--width", "8", *how], [], [], given, reference.answer(reference.report, given, k, share))
        for how, k, share in [
            (["--k", "2", "--workers", "2"], 2, None), (["--k", "9", "--workers", "3", "--pieces", "5"], 9, None),
            (["--k", "9", "--threshold", "1/2", "--workers", "1"], 9, b"1/2"),
        ]
    ]
    for method in ("mg", "ss"):
        expected = reference.answer(reference.summarise, given, 2)
        made.append(hostile.Case(["summarise", "--k", "2", "--method", method], [], [], given, expected))
    made.append(hostile.Case(["table", *words], [], [], given, reference.answer(table, given, empty_table(words))))
    for other in (OTHER_KEYS[2], OTHER_KEYS[3]):
        saved = reference.summarise(other, 9)
        made.append(hostile.Case(["condense"], [saved], [], given, reference.compared(reference.condense, saved, given, True)))
    status, saved, _ = reference.answer(reference.summarise, given, 3)
    saved = saved if status == 0 else reference.summarise(b"a", 3)
    return [*made, hostile.Case(["confirm"], [saved], [], given, reference.compared(reference.confirm, saved, given, True))]


class HostileRecords(hostile.Hostile):
    def test_kept(self) -> None:
        self.try_kept(corpus.kept_in("records"), cases_of)

    def test_cases(self) -> None:
        self.try_cases(case)


if __name__ == "__main__":
    programs.run_tests("hostile records")
