#!/usr/bin/env python3
"""Runs the program by its command line: each command, each option's default and effect, each refusal and its
status, and words that are no text.

usage: tests/command_line.py
"""
import ast
import csv
import fcntl
import io
import json
import os
import random
import re
import resource
import subprocess
import tempfile
from functools import partial
from pathlib import Path

import programs
import reference

RECORDS = b"a,5\nb,3\nc,2\na,1\n"
# 150 keys of rising weight: more than the 100 counters that are the default.
MANY = b"".join(b"k%d,%d\n" % (i, i) for i in range(1, 151))
# two keys above a hundred-and-first part of the total, one of them above a third
SKEWED = b"big,600\nmiddle,50\n" + b"".join(b"s%d,2\n" % i for i in range(150))

# Texts, k, and their reports. A k of 65,535 lists each key of a small total.
REPORTS = [
    (b"a\nb\nc\n", 2, b""), (b"a\nb\nb\n", 2, b"b,2\n"), (b"x,9223372036854775807\n", 2, b"x,9223372036854775807\n"),
    (b'"a,b",3\n', 1, b'"a,b",3\n'), (b"b,2\na,2\n", 3, b"a,2\nb,2\n"), (b"a\nb\na\n", 1, b"a,2\n"),
    (b"a,5\r\nb,3\r\n", 2, b"a,5\nb,3\n"), (b"a,5\nb,3\na,1\n", 65_535, b"a,6\nb,3\n"),
    (b"a,5\rb,3\r", 65_535, b"a,5\nb,3\n"), (b"a,5\nb,3", 65_535, b"a,5\nb,3\n"), (b"\xef\xbb\xbfa,5\n", 65_535, b"a,5\n"),
    (b"\n\r\na,5\n\n\r\rb,3\n\n", 65_535, b"a,5\nb,3\n"), (b" a ,5\n", 65_535, b" a ,5\n"),
    (b'"a,b",5\n"c""d",3\n', 65_535, b'"a,b",5\n"c""d",3\n'), (b"\xff", 65_535, b"\xff,1\n"),
    (b'"e\nf",2\n"g\r\nh"\n', 65_535, b'"e\nf",2\n"g\r\nh",1\n'),
    (b"\0,2\na\0b\n\0\0\n", 65_535, b"\0,2\n\0\0,1\na\0b,1\n"),
    (b"\n" * 10_000_000 + b"a,5", 65_535, b"a,5\n"), (b"a\n" * 70_000, 1, b"a,70000\n"),
]
# Texts that have no report, the number of the first bad record, and why it is bad.
BAD_RECORDS = [
    (b"a,0\n", 1, "zero weight"), (b",4\n", 1, "empty key"), (b"a,1,2\n", 1, "wrong number of fields"),
    (b"a,-1\n", 1, "bad weight"), (b"a,\n", 1, "bad weight"), (b",x\n", 1, "empty key"),
    (b",,\n", 1, "wrong number of fields"), (b"x" * 4097 + b"\n", 1, "key too long"),
    (b"a,99999999999999999999\n", 1, "total too large"), (b"a,9223372036854775808\n", 1, "total too large"),
    (b"a,1\nb,000000000000000000001\n", 2, "bad weight"), (b"x,9223372036854775807\ny,1\n", 2, "total too large"),
    (b"a\nb,2\nc,1x\n,\n", 3, "bad weight"), (b"a\n" * 70_000 + b"a,0\n", 70_001, "zero weight"),
    (b"x" * 10_000_000, 1, "key too long"), (b"," * 10_000_000, 1, "wrong number of fields"),
    (b'"' * 10_000_000, 1, "key too long"), (b"a," + b"0" * 10_000_000, 1, "bad weight"),
]
# The records of a summary with one key, which weighs as much as can be, other records, and these condensed.
CONDENSED = [
    (b"a,%d", b"", b""), (b"a,%d", RECORDS, b"a,6\nothers,5\n"), (b"a,%d", b"a\na", b"a,2\n"), (b"a,%d", b"b,3\nc", b"others,4\n"),
    (b"others,%d", b"others,2\na,3", b"others,2\nothers1,3\n"), (b'"a,b",%d', b'"a,b",2', b'"a,b",2\n'),
    (b"\xef\xbb\xbf\xef\xbb\xbfa,%d", b"b\n\xef\xbb\xbfa,2\n", b'"\xef\xbb\xbfa",2\nothers,1\n'),
    (b"a,%d", b"a,9223372036854775807", b"a,9223372036854775807\n"),
]

# Keys that the forms of rows write differently, by falling weight: as CSV has them, as TSV and as JSON. The byte order mark is
# text of its key.
FORMS = [
    (b'"a,b"', b"a,b", b'"a,b"', 90), (b'"say ""hi"""', b'"say ""hi"""', rb'"say \"hi\""', 80),
    (b"tab\there", b'"tab\there"', rb'"tab\u0009here"', 70), (b'"line\nfeed"', b'"line\nfeed"', rb'"line\u000afeed"', 60),
    (b"\x01\x7f", b"\x01\x7f", rb'"\u0001\u007f"', 50), (b"back\\slash", b"back\\slash", rb'"back\\slash"', 45),
    (b"\xc3\xa9\xf0\x9f\x98\x80", b"\xc3\xa9\xf0\x9f\x98\x80", b'"\xc3\xa9\xf0\x9f\x98\x80"', 40),
    (b"\xc3\xa9\xffq", b"\xc3\xa9\xffq", rb'"\udcc3\udca9\udcffq"', 30),
    (b"\xef\xbb\xbfmark", b"\xef\xbb\xbfmark", b'"\xef\xbb\xbfmark"', 20),
]
FORMS_RECORDS = b"".join(b"%s,%d\n" % (key, weight) for key, _, _, weight in FORMS)

COMMANDS = ["report", "top", "summarise", "table", "merge", "ask", "list", "describe", "condense", "confirm"]

# in a command's help: an option with a number, its range and its default
RANGE = re.compile(rb"(--[a-z]+) <N>\n +.* from (\d+) to (\d+) \[default: (\d+)\]\n")

# what is said of a bad record: its number, its file's name, its line, and how it begins
PLACE = re.compile(rb'heavy: record (\d+): [a-z ]+\n  (\d), line (\d+), "(.*)"(?:\.\.)?: [^\n]+\n')

# a check's name is its command line, cut to so many characters
LONGEST_NAME = 120


def table_in(ended: tuple[int, bytes, bytes]) -> reference.Table | None:
    """The table that a run wrote, if it wrote one."""
    status, data, _ = ended
    if status != 0:
        return None
    try:
        saved = reference.read(data)
    except reference.Refused:
        return None
    return saved if isinstance(saved, reference.Table) else None


def cells_of(table: reference.Table, items: list[reference.Item]) -> list[list[int]]:
    """The cells that a table of this shape and family has for these items."""
    cells = [[0] * table.width for _ in table.rows]
    for key, weight in items:
        for row, place in zip(cells, reference.places(table, key)):
            row[place] += weight
    return cells


def watched(program: str, library: str, words: list, given: bytes) -> list[int]:
    """What a run starts and asks for: 0 for each thread, and the bytes of each request of at least 4,096."""
    ear, mouth = os.pipe()
    env = {"LD_PRELOAD": library, "WATCH_FROM": "4096", "WATCH_TOLD_ON": str(mouth)}
    ended = programs.run([program, *words], given, env, pass_fds=(mouth,))
    os.close(mouth)
    with open(ear, "rb") as told:
        numbers = sorted(map(int, told.read().split()))
    return numbers if ended.status == 0 else []


def on_terminal(words: list, given: bytes, room: str) -> tuple[int, bytes]:
    """The status of a run whose standard error is a terminal, and what it said there."""
    ear, mouth = os.openpty()
    ended = programs.run(words, given, cwd=room, stderr=mouth)
    os.close(mouth)
    said = b""
    try:
        while part := os.read(ear, 4096):
            said += part
    except OSError:
        pass  # a terminal ends by a fault where no one has it open
    os.close(ear)
    return ended.status, said.replace(b"\r\n", b"\n")


def saved_bytes(*fields: str) -> bytes:
    """The bytes of these fields in hexadecimal."""
    return bytes.fromhex("".join(fields))


# A summary with a 4 and b 1, k = 2 and total 11, and the empty one, in version 1, and the first one in version 2.
ONE = saved_bytes("48485331 01 0002 000000000000000b 0002 01 61 0000000000000004 01 62 0000000000000001")
EMPTY = saved_bytes("48485331 01 0002 0000000000000000 0000")
ONE_IN_2 = saved_bytes("48485332 01 0002 000000000000000b 0002 0001 61 0000000000000004 0001 62 0000000000000001")
# A family by which the cells can be found by hand, and the cells of a 5, e 2 and b 1; the same table in version 2.
FAMILY = "00000004 02 0000000000000100 0000000000000001 0000000000000000 0000000000000003 0000000000000001"
CELLS = "000000000000000000000000000000000000000000000007 0000000000000001"
OTHER_CELLS = "000000000000000000000000000000000000000000000001 0000000000000007"
TABLE = saved_bytes("48485331 02", FAMILY, "0000000000000008", CELLS, OTHER_CELLS)
TABLE_IN_2 = b"HHS2" + TABLE[4:]
# What the first makes of a summary with b 2 and c 3.
MERGED = saved_bytes("48485332 01 0002 0000000000000010 0001 0001 61 0000000000000001")


def table_of_one(weight: int, places: tuple[int, int]) -> bytes:
    """The table of one item of this family, in version 1."""
    cells = [reference.number(weight * (place == at), 8) for at in places for place in range(4)]
    return b"".join([saved_bytes("48485331 02", FAMILY), reference.number(weight, 8), *cells])


class CommandLine(programs.Checks):
    """Runs command lines in a folder with saved files."""

    def setUp(self) -> None:
        super().setUp()
        self.program = programs.built("heavy_cli")

    def heavy(self, words: list, given: bytes = RECORDS) -> tuple[int, bytes, bytes]:
        ended = programs.run([self.program, *words], given, cwd=self.room)
        return ended.status, ended.out, ended.err

    def save(self, name: str | bytes, words: list, given: bytes = RECORDS) -> bytes:
        data = self.heavy(words, given)[1]
        Path(self.room, os.fsdecode(name)).write_bytes(data)
        return data

    def expect(self, words: list, expected: tuple[int, bytes, bytes], given: bytes = RECORDS) -> None:
        found = self.heavy(words, given)
        name = " ".join(os.fsdecode(word) for word in words)
        self.check(name[:LONGEST_NAME], found == expected, (found, expected))

    def refuses(self, words: list, text: str, status: int = 2, given: bytes = RECORDS) -> None:
        self.expect(words, (status, b"", f"heavy: {text}\n".encode()), given)

    def test_records(self) -> None:
        """The commands that read records, by their defaults and their options."""
        self.expect(["report"], reference.answer(reference.report, SKEWED, 100), SKEWED)
        self.expect(["report", "--k", "2"], (0, b"a,6\n", b""))
        self.expect(["report", "--k", "9"], (0, b"a,6\nb,3\nc,2\n", b""))
        self.expect(["report", "--k=2"], (0, b"a,6\n", b""))
        self.expect(["report", "--k", "2"], (0, b"", b""), b"")
        for words in (["--workers", "1"], ["--pieces", "7"], ["--tree", "chain"], ["--seed", "9"], ["--depth", "16"]):
            self.expect(["report", "--k", "2", *words], (0, b"a,6\n", b""))
        for method in ([], ["--method", "mg"], ["--method", "ss"]):
            expected = reference.answer(reference.summarise, MANY, 100)
            self.expect(["summarise", *method], expected, MANY)
            for workers in ([], ["--workers", "1"], ["--workers", "4"]):
                self.expect(["summarise", "--k", "2", *method, *workers], (0, ONE_IN_2, b""))

    def test_top(self) -> None:
        """The greatest keys, by hand: ties by rising key, all keys where they are fewer, and options of rows and of records."""
        tied, shares = b"b,2\na,2\nc,1\n", b"a,6,54.5454\nb,3,27.2727\n"
        for words, text, rows in [
            (["1"], RECORDS, b"a,6\n"), (["2"], RECORDS, b"a,6\nb,3\n"), (["3"], RECORDS, b"a,6\nb,3\nc,2\n"),
            (["9"], RECORDS, b"a,6\nb,3\nc,2\n"), (["18446744073709551615"], RECORDS, b"a,6\nb,3\nc,2\n"),
            (["1"], tied, b"a,2\n"), (["2"], tied, b"a,2\nb,2\n"), (["3"], tied, b"a,2\nb,2\nc,1\n"), (["5"], b"", b""),
            (["1", "-"], RECORDS, b"a,6\n"), (["--workers", "1", "1"], RECORDS, b"a,6\n"), (["--share", "2"], RECORDS, shares),
            (["--names", "--output", "tsv", "1"], RECORDS, b"key\tweight\na\t6\n"),
            (["-Hd;", "--key", "k", "--weight", "w", "1"], b"k;w\nx;5\ny;7\n", b"y,7\n"),
            (["--decimals", "1", "1"], b"a,0.5\nb,0.4\n", b"a,0.5\n"), (["--allow-zero", "2"], b"a,0\nb,4\n", b"b,4\n"),
        ]:
            self.expect(["top", *words], (0, rows, b""), text)
        self.refuses(["top", "--workers", "0", "1"], "workers must be 1 to 64")
        self.refuses(["top", "1"], "record 2: zero weight", 3, b"a,5\nb,0\n")
        for words in ([], ["0"], ["-1"], ["x"], ["1.5"], ["18446744073709551616"], ["--top", "2", "1"]):
            status, out, err = self.heavy(["top", *words])
            self.check(f"top {words}", (status, out, err[:6]) == (2, b"", b"error:"), err)

    def test_top_left_open(self) -> None:
        """Of one key more than a megabyte has counters for, which all weigh 1, none is certain; of as many all are. A key that
        weighs more is certain. How many workers there are decides nothing."""
        ones = [b"k%06d\n" % number for number in range(7_813)]
        few = ["top", "--explain", "--memory", "1"]
        told = "of the greatest keys only %d are certain\n  the next key weighs at most 1: a --memory above 1 leaves less open"
        self.expect([*few, "2"], (0, b"k000001,1\nk000002,1\n", b""), b"".join(ones[1:]))
        for workers in "1248":
            self.refuses([*few, "--workers", workers, "1"], told % 0, 3, b"".join(ones))
        self.expect(["top", "2"], (0, b"k000000,1\nk000001,1\n", b""), b"".join(ones))
        self.expect([*few, "1"], (0, b"big,2\n", b""), b"".join(ones) + b"big,2\n")
        self.refuses([*few, "2"], told % 1, 3, b"".join(ones) + b"big,2\n")
        self.expect(["top", "2"], (0, b"big,2\nk000000,1\n", b""), b"".join(ones) + b"big,2\n")

    def test_report_once(self) -> None:
        """A report by one reading has the rows that any has. Where a key that can be heavy comes after counters were lowered, it is
        refused, with how many keys are certain; a key that comes before, and stays, is certain. More memory lowers later."""
        few = b"".join(b"k%06d\n" % number for number in range(3_000))
        told = "of the heavy keys only %d are certain\n  %s can be heavy: a --memory above %s leaves fewer, and none are left without --once"
        self.expect(["report", "--once", "--k", "2"], (0, b"a,6\n", b""))
        self.expect(["report", "--once", "--k", "9", "--threshold", "1/4", "--share"], (0, b"a,6,54.5454\nb,3,27.2727\n", b""))
        self.expect(["report", "--once", "--pieces", "2", "--workers", "1", "--k", "2"], (0, b"a,6\n", b""))
        self.expect(["report", "--once", "--memory", "0", "--k", "2"], (0, b"early,3000\n", b""), b"early,3000\n" + few)
        late = b"early,9000\n" + few + b"late,9000\nlater,8000\n"
        for memory in "01":
            rows = b"early,9000\nlate,9000\nlater,8000\n"
            words = ["report", "--explain", "--once", "--memory", memory, "--k", "9"]
            if memory == "0":
                self.refuses(words, told % (1, "2 more keys", 0), 3, late)
            else:
                self.expect(words, (0, rows, b""), late)
        self.refuses(["report", "--explain", "--once", "--memory", "0", "--k", "2"], told % (0, "1 more key", 0), 3, few + b"late,9000\n")
        self.refuses(["report", "--once", "--k", "0", "missing"], "file 1: could not be read\n  missing: No such file or directory", 1)
        self.refuses(["report", "--once", "--k", "0"], "k must be 1 to 65535", 2)
        self.refuses(["report", "--once"], "record 2: zero weight", 3, b"a,5\nb,0\n")

    def test_letters(self) -> None:
        """Options by their letters, with the value in the same word or in the next, and several in one word."""
        for words in (["-k", "2"], ["-k2"], ["-k=2"]):
            self.expect(["report", *words], (0, b"a,6\n", b""))
            self.expect(["summarise", *words], (0, ONE_IN_2, b""))
        self.expect(["report", "-k100"], (0, b"a,6\nb,3\nc,2\n", b""))
        self.expect(["report", "-k100", "-n", "2"], (0, b"a,6\nb,3\n", b""))
        self.expect(["report", "-k9", "-t", "1/4", "-n1"], (0, b"a,6\n", b""))
        self.expect(["report", "-k9", "-t1/4", "-"], (0, b"a,6\nb,3\n", b""))
        for words, text in [
            (["-d", ";"], b"a;5\n"), (["-d;"], b"a;5\n"), (["-d-"], b"a-5\n"), (["--delimiter=-"], b"a-5\n"), (["-d", "\\t"], b"a\t5\n"),
            (["-H"], b"x,y\na,5\n"), (["-Hd;", "--key", "x", "--weight", "y"], b"x;y\na;5\n"),
        ]:
            self.expect(["report", *words], (0, b"a,5\n", b""), text)
            self.expect(["summarise", *words], (0, reference.summarise(b"a,5\n", 100), b""), text)
            table = table_in(self.heavy(["table", *words], text))
            shape = table and (table.width, len(table.rows), table.total)
            right = shape == (1024, 4, 5) and table.cells == cells_of(table, [(b"a", 5)])
            self.check(f"table {words}", right, shape)
        self.save("day", ["summarise", "-k9"])
        self.expect(["confirm", "-n1", "-t1/4", "day"], (0, b"a,6\n", b""))
        self.expect(["condense", "-Hd;", "day"], (0, b"a,5\n", b""), b"x;y\na;5\n")
        for words, option in [
            (["report", "-k", "1", "--k", "2"], "--k <N>"), (["report", "-n1", "-n1"], "--top <N>"), (["table", "-HH"], "--header"),
        ]:
            status, out, err = self.heavy(words)
            said = f"error: the argument '{option}' cannot be used multiple times\n".encode()
            self.check(f"{words}", (status, out, err.startswith(said)) == (2, b"", True), err)
        for words in (["report", "-k"], ["report", "-x"], ["table", "-k", "1"], ["merge", "-H", "day"], ["ask", "-n1", "day", "a"]):
            status, out, err = self.heavy(words)
            self.check(f"{words}", (status, out, err[:6]) == (2, b"", b"error:"), err)

    def test_column_names(self) -> None:
        """Names in quotes, as CSV has them, and words without quotes."""
        text = b'"Last, First",City,"a ""b""",n\n"Ng, Al",Bern,x,5\n"Ng, Al",Bern,y,3\n'
        plain = b'x"y,City,n\na,Bern,5\n'
        for key, given, rows in [
            ('"Last, First"', text, b'"Ng, Al",8\n'), ('"Last, First",City', text, b'"""Ng, Al"",Bern",8\n'),
            ('City,"Last, First"', text, b'"Bern,""Ng, Al""",8\n'), ('"a ""b"""', text, b"x,5\ny,3\n"), ('"City"', text, b"Bern,8\n"),
            ('"City', text, b"Bern,8\n"), ('"Ci"ty', text, b"Bern,8\n"), ('"2","3"', text, b'"Bern,x",5\n"Bern,y",3\n'),
            ("City,3", text, b'"Bern,x",5\n"Bern,y",3\n'), ('x"y', plain, b"a,5\n"), ('x"y,City', plain, b'"a,Bern",5\n'),
        ]:
            self.expect(["report", "-H", "--key", key, "--weight", "n"], (0, rows, b""), given)
            self.expect(["report", "-H", f"--key={key}", "--weight", "n"], (0, rows, b""), given)
        columns = r'"Last, First", "City", "a \"b\"", "n"'
        for key, missing in [
            ("Last, First", "Last"), ('"Last","First"', "Last"), ('"Last, First",', ""), ('""', ""), ('"a "b""', r'a b\"\"'),
        ]:
            said = f'the header has no such column\n  standard input has no column "{missing}"; its header has {columns}'
            self.refuses(["report", "-H", "--key", key, "--weight", "n"], said, 3, text)

    def test_texts(self) -> None:
        """Texts with their reports, with the first record that is bad, and condensed, each written by hand."""
        for text, k, rows in REPORTS:
            self.expect(["report", "--k", str(k)], (0, rows, b""), text)
        for text, number, cause in BAD_RECORDS:
            self.refuses(["report", "--k", "2"], f"record {number}: {cause}", 3, text)
        for key, text, condensed in CONDENSED:
            self.save("one", ["summarise", "--k", "2"], key % (2**63 - 1))
            self.expect(["condense", "one"], (0, condensed, b""), text)

    def test_thresholds(self) -> None:
        """A share of one's own, what lies at exactly that share, and texts that name none."""
        rows = [
            (2, RECORDS, ["1/2", "01/02", "0000000001/0000000002", "1/3", "5/11"], b"a,6\n"),
            (2, RECORDS, ["2/3", "1/1", "4294967296/4294967296", "6/11"], b""),
            (9, RECORDS, ["1/10"], b"a,6\nb,3\nc,2\n"),
            (9, RECORDS, ["1/4", "3/12"], b"a,6\nb,3\n"),
            (2, b"a\nb\n", ["1/2"], b""),
        ]
        for k, given, shares, report in rows:
            for share in shares:
                self.expect(["report", "--k", str(k), "--threshold", share], (0, report, b""), given)
        text = "threshold must be P/Q with 1 <= P <= Q <= 4294967296 and P*(K+1) >= Q"
        wrong = ["0/0", "3/2", "4294967297/4294967297", "00000000001/1", "1", "1/", "1/2/3", "", "/", "/2", "1/4", "0.01"]
        wrong += ["0/1", "1/0", "9999999999/9999999999", "1/00000000001", "50%", " 1/2", "1/2 ", "+1/2", "1/+2"]
        for share in [*wrong, b"\xff/1"]:
            self.refuses(["report", "--k", "2", "--threshold", share], text)
        self.refuses(["report", "--k", "9", "--threshold", "1/11"], text)

    def test_rows(self) -> None:
        """At most the first rows, and a third column with shares, by hand."""
        self.save("day", ["summarise", "--k", "9"])
        rows, shared = [b"a,6\n", b"b,3\n", b"c,2\n"], [b"a,6,54.5454\n", b"b,3,27.2727\n", b"c,2,18.1818\n"]
        for words in (["report", "--k", "9"], ["confirm", "day"]):
            for top in (0, 1, 2, 3, 4, 2**64 - 1):
                self.expect([*words, "--top", str(top)], (0, b"".join(rows[:top]), b""))
                self.expect([*words, "--share", f"--top={top}"], (0, b"".join(shared[:top]), b""))
            self.expect([*words, "--share"], (0, b"".join(shared), b""))
            self.expect([*words, "--threshold", "1/4", "--share", "--top", "1"], (0, shared[0], b""))
        for given, report in [
            (b"", b""), (b"a\n", b"a,1,100.0000\n"), (b"a\nb\nc\n", b"a,1,33.3333\nb,1,33.3333\nc,1,33.3333\n"),
            (b"x,9223372036854775807\n", b"x,9223372036854775807,100.0000\n"),
            (b"x,9223372036854775806\ny,1\n", b"x,9223372036854775806,99.9999\n"),
            (b"b,65534\na\n", b"b,65534,99.9984\na,1,0.0015\n"), (b'"a,b",1\nc,99\n', b'c,99,99.0000\n"a,b",1,1.0000\n'),
            (b"a,20001\nb,999999\nc,79980000\n", b"c,79980000,98.7407\nb,999999,1.2345\na,20001,0.0246\n"),
        ]:
            self.expect(["report", "--k", "65535", "--share"], (0, report, b""), given)

    def test_tables(self) -> None:
        """A table's width, depth and seed stand in its file; its cells are those of the records."""
        shapes = [
            ([], 1024, 4), (["--width", "8"], 8, 4), (["--depth", "2"], 1024, 2), (["--seed", "7"], 1024, 4),
            (["--width", "1", "--depth", "16"], 1, 16),
        ]
        for words, width, depth in shapes:
            ended = self.heavy(["table", *words])
            table = table_in(ended)
            shape = table and (table.width, len(table.rows))
            items = reference.items_of(RECORDS)
            holds = shape == (width, depth) and (table.total, table.cells) == (11, cells_of(table, items))
            self.check(f"table {' '.join(words)}", holds, f"status {ended[0]}, width and depth {shape}, {ended[2]}")
        ended = [self.heavy(["table", *words]) for words in ([], ["--seed", "0"], ["--seed", "7"])]
        tables = [table_in(one) for one in ended]
        is_0 = all(tables) and ended[0] == ended[1] and tables[0].z != tables[2].z
        self.check("the default seed is 0", is_0, [one[0] for one in ended])

    def test_refused_options(self) -> None:
        """Each option out of range, and the order in which they are tested."""
        faults = [
            ("--depth", ["0", "17"], "depth must be 1 to 16"),
            ("--k", ["0", "65536", "18446744073709551615"], "k must be 1 to 65535"),
            ("--workers", ["0", "65"], "workers must be 1 to 64"),
            ("--width", ["0", "65537"], "width must be 1 to 65536"),
            ("--threshold", ["1/0"], "threshold must be P/Q with 1 <= P <= Q <= 4294967296 and P*(K+1) >= Q"),
            ("--pieces", ["0", "1025"], "pieces must be 1 to 1024"),
        ]
        for option, numbers, text in faults:
            for number in numbers:
                self.refuses(["report", option, number], text, given=b"bad,record,here\n")
        for i in range(len(faults)):
            words = [word for option, numbers, _ in reversed(faults[i:]) for word in (option, numbers[0])]
            self.refuses(["report", *words, "--tree", "("], faults[i][2])
        self.refuses(["summarise", "--k", "0"], faults[1][2])
        self.refuses(["summarise", "--k", "0", "--method", "MG"], "method must be mg or ss")
        self.refuses(["table", "--width", "0", "--depth", "0"], faults[0][2])
        self.refuses(["table", "--width", "0"], faults[3][2])

    def test_trees(self) -> None:
        """Plans, also the longest and the deepest, and one that is no text."""
        chain = "0"
        for piece in range(1, 1024):
            chain = f"({chain} {piece})"
        most = ["report", "--k", "2", "--pieces", "1024"]
        for tree in (chain, "chain", "balanced"):
            self.expect([*most, "--tree", tree], (0, b"a,6\n", b""))
        self.refuses([*most, "--tree", "(" * 1024], "tree: syntax at byte 1023")
        three = ["report", "--k", "2", "--pieces", "3", "--tree"]
        for tree in ("((0 1) 2)", "(0 (2 1))", "chain", "balanced"):
            self.expect([*three, tree], (0, b"a,6\n", b""))
        self.refuses([*three, "(0 (1 1))"], "tree: piece 1 twice")
        self.refuses([*three, "(0 1)"], "tree: piece 2 missing")
        self.refuses([*three, "(0 3)"], "tree: no piece 3")
        self.refuses([*three, "(2 (3 2))"], "tree: no piece 3")
        self.refuses([*three, "(2 (2 3))"], "tree: piece 2 twice")
        self.refuses([*three, "(0 0)"], "tree: piece 0 twice")
        wrong = [("(0", 2), ("(0 1))", 5), ("(0  1)", 3), ("", 0), ("Chain", 0), (b"\xff", 0), ("01", 1), ("12345", 4), ("x", 0)]
        for tree, at in wrong:
            self.refuses([*three, tree], f"tree: syntax at byte {at}")

    def test_files(self) -> None:
        """The commands on files, in their order, and with words that are no text or begin with a dash."""
        files = [self.save(f"{i}.heavy", ["summarise", "--k", "2"], b"%c,%d\nq,1\n" % (97 + i, i + 3)) for i in range(3)]
        names = ["0.heavy", "1.heavy", "2.heavy"]
        for order in ([0], [0, 1], [1, 0], [2, 0, 1], [0, 0, 0]):
            expected = reference.answer(reference.merge, [files[i] for i in order])
            self.expect(["merge", *(names[i] for i in order)], expected)
        self.save("k3", ["summarise", "--k", "3"])
        self.save("table", ["table", "--width", "8"])
        self.refuses(["merge", "0.heavy", "1.heavy", "k3"], "file 3: another k", 3)
        self.refuses(["merge", "0.heavy", "table"], "file 2: another kind", 3)
        self.refuses(["merge", "0.heavy", "none"], "file 2: could not be read", 1)
        keys = [b"c", b"a", b"", b"x" * 4097, b"\xff", b"-a", b"a,b", "ä".encode(), b"\xf4\x8f\xbc\x80"]
        for given in ([keys[0], keys[1]], keys[4:], keys[2:4], [keys[1], keys[3], keys[2]]):
            self.expect(["ask", "2.heavy", "--", *given], reference.answer(reference.ask, files[2], given))
        saved = self.save("-four", ["summarise", "--k", "2"])
        self.expect(["ask", "--", "-four", "-a"], reference.answer(reference.ask, saved, [b"-a"]))
        self.expect(["confirm", "--", "-four"], (0, b"a,6\n", b""))
        self.expect(["merge", "--", "-four", "0.heavy"], reference.answer(reference.merge, [saved, files[0]]))
        self.refuses(["confirm", "--", "-four"], "file 1: its total is not the input's", 3, b"a,5\n")
        self.refuses(["confirm", "table"], "file 1: not a counter summary", 3)
        self.expect(["condense", "--", "-four"], (0, b"b,3\nothers,1\n", b""), b"x\nb,3\n")
        self.expect(["condense", "--", "-four"], (0, b"", b""), b"")
        self.refuses(["condense", "--", "-four"], "record 2: zero weight", 3, b"a,5\nb,0\n")
        self.refuses(["condense", "table"], "file 1: not a counter summary", 3)
        self.refuses(["ask", b"\xff", "a"], "file 1: could not be read", 1)
        # inputs are opened before the numbers of options are tested
        for words in (["report", "--k", "0"], ["report", "--workers", "0"], ["top", "--workers", "0", "1"]):
            found = self.heavy([*words, "none"])
            unopened = (found[0], programs.first_line(found[2])) == (1, b"heavy: file 1: could not be read\n")
            self.check(f"{words} of a file that isn't there", unopened, found)
            self.check(f"{words} of one that is", self.heavy([*words, "0.heavy"])[0] == 2)
        for name in ("--k", "--help", "--progress"):
            for command in (["condense"], ["confirm"], ["merge", "0.heavy"]):
                place = len(command)
                self.refuses([*command[:1], "--", *command[1:], name], f"file {place}: could not be read", 1)
            self.save(name, ["summarise", "--k", "2"])
            self.expect(["merge", "--", name], (0, saved, b""))
            self.expect(["confirm", "--", name], (0, b"a,6\n", b""))
            self.expect(["condense", "--", name], (0, b"b,3\n", b""), b"b,3\n")
            self.expect(["ask", "--", name, name, "a"], (0, name.encode() + b",0,2\na,4,6\n", b""))

    def test_contradicted(self) -> None:
        """Records whose keys weigh less than the summary's low or more than its high: a fault that has written nothing, or on
        standard input with no option of records the same rows and a line on standard error."""
        outside, more = "file 1: a key's weight in the input is outside its bounds", 'day has "%s" from %s to %s, and the records have %s'
        three = b"a,x,5\nb,y,3\nc,x,2\na,y,1\n"
        files = {"four": RECORDS, "three": three, "other": b"z,5\ny,3\nx,2\nz,1\n", "much": b"a,7\nb,3\nc,1\n", "part": b"a,6\nb\n"}
        for name, data in files.items():
            Path(self.room, name).write_bytes(data)
        self.save("day", ["summarise", "--k", "2"])
        key, column = ["--key", "1", "--weight", "3"], ["--key", "2", "--weight", "3"]
        # a weighs 4 to 6, and b 1 to 3
        for words, rows in [
            (["confirm", "day", "four"], b"a,6\n"), (["confirm", *key, "day", "three"], b"a,6\n"), (["condense", "day", "part"], b"a,6\nb,1\n"),
            (["condense", *column, "day", "three"], b"others,11\n"), (["condense", *key, "day", "three"], b"a,6\nb,3\nothers,2\n"),
            (["condense", "day", "other"], b"others,11\n"), (["confirm", "--allow-zero", "day"], b"a,6\n"), (["confirm", "day", "-"], b"a,6\n"),
        ]:
            self.expect(words, (0, rows, b""))
        for words, given, told in [
            (["confirm", *column, "day", "three"], b"", ("a", 4, 6, 0)), (["confirm", *column, "day"], three, ("a", 4, 6, 0)),
            (["confirm", "day", "other"], b"", ("a", 4, 6, 0)), (["confirm", "day", "-"], files["other"], ("a", 4, 6, 0)),
            (["confirm", "day", "much"], b"", ("a", 4, 6, 7)), (["confirm", "--workers", "1", "day", "much"], b"", ("a", 4, 6, 7)),
            (["confirm", "--delimiter", ",", "day"], b"a,5\nb,4\nc,2\n", ("b", 1, 3, 4)), (["condense", "day", "much"], b"", ("a", 4, 6, 7)),
            (["condense", "--allow-zero", "day"], b"a,0\nb,4\n", ("b", 1, 3, 4)), (["condense", "day", "-", "part"], b"b,3\n", ("b", 1, 3, 4)),
        ]:
            self.refuses(words, outside, 3, given)
            self.tells(words, more % told, 3, given)
        for words, given, rows, told in [
            (["confirm", "day"], files["other"], b"", ("a", 4, 6, 0)), (["confirm", "day"], files["much"], b"a,7\n", ("a", 4, 6, 7)),
            (["confirm", "--top", "1", "--threshold", "1/3", "day"], b"b,9\na,2\n", b"b,9\n", ("a", 4, 6, 2)),
            (["condense", "day"], b"b,9\n", b"b,9\n", ("b", 1, 3, 9)), (["condense", "--workers", "2", "day"], b"x\nb,4\n", b"b,4\nothers,1\n", ("b", 1, 3, 4)),
        ]:
            said = f"heavy: note: these aren't the records that were summarised: {more % told}\n".encode()
            self.expect(words, (0, rows, said), given)
        self.save("day", ["summarise", "--k", "2", "--decimals", "2"], b"a,0.05\nb,0.03\nc,0.02\na,0.01\n")
        self.tells(["confirm", "--decimals", "2", "day"], more % ("a", "0.04", "0.06", "0.11"), 3, b"a,0.11\n")
        self.save("day", ["summarise", "--k", "2"], b'"\x1b[1m"\n')
        self.tells(["confirm", "--key", "1", "day"], more % ("\\x1b[1m", 1, 1, 0), 3, b"b\n")

    def test_hidden_options(self) -> None:
        """Options of a report that its rows don't show. Without an option of a plan the workers start once where there are at
        most 4,096 keys of 4 MiB, or no other key can be heavy than those that came before that; and once more where one came late.
        With such an option, each of two passes starts them; a worker's table takes 8 bytes for each cell, and the shared words are
        those cells and a claim for each piece. The second pass counts the same keys whatever the table, and so whatever the seed."""
        library = programs.preloaded("watch.c", self.room)
        for words, count, late, threads in [
            ([], 4, False, 4), (["--workers", "6"], 4, False, 6), (["--k", "65535"], 4, False, 4), ([], 4095, True, 4), ([], 4097, False, 4),
            ([], 4097, True, 8), (["--workers", "1"], 4097, True, 2), (["--k", "2048"], 4097, True, 4), (["--k", "2048"], 4099, True, 8),
        ]:
            text = b"".join(b"k%d\n" % number for number in range(count)) + b"late,9000\n" * late
            told = watched(self.program, library, ["report", *words], text)
            self.check(f"report {' '.join(words)} of {count} keys, {late}", told.count(0) == threads, told)
        for count, threads in ((1023, 1), (1025, 2)):
            text = b"".join(b"%04096d\n" % number for number in range(count)) + b"late,9000\n"
            told = watched(self.program, library, ["report", "--workers", "1"], text)
            self.check(f"report of {count} keys of the most bytes", told.count(0) == threads, told)
        for words, workers, pieces, cells in [
            (["--pieces", "19"], 4, 19, 1024 * 4), (["--workers", "5", "--pieces", "27"], 5, 27, 1024 * 4),
            (["--width", "1100"], 4, 4, 1100 * 4), (["--depth", "12"], 4, 4, 1024 * 12), (["--seed", "3"], 4, 4, 1024 * 4),
            (["--width", "1300", "--depth", "3"], 4, 4, 1300 * 3),
            (["--workers", "4", "--pieces", "4", "--width", "1024", "--depth", "4"], 4, 4, 1024 * 4),
            (["--pieces", "3", "--tree", "((0 1) 2)"], 4, 3, 1024 * 4), (["--tree", "chain"], 4, 4, 1024 * 4),
        ]:
            told = watched(self.program, library, ["report", *words], RECORDS)
            found = (told.count(0), 8 * cells in told, 8 * (cells + pieces) in told)
            self.check(f"report {' '.join(words)}", found == (2 * workers, True, True), told)
        many = b"".join(b"k%d,%d\n" % (number, 1 + number % 7) for number in range(5000))
        options = ["report", "--k", "3000", "--workers", "1", "--width", "4096", "--depth", "1"]
        plain, *told = [watched(self.program, library, options + words, many) for words in ([], ["--seed", "7"], ["--seed", str(2**64 - 1)])]
        self.check("the keys that a plan's report counts are the same by each seed", plain != [] and told == [plain] * 2, (plain, told))

    def test_file_workers(self) -> None:
        """How many threads a command starts that reads records once: the workers where all of them are in files that are not
        empty, and else none."""
        library = programs.preloaded("watch.c", self.room)
        self.save("saved", ["summarise", "--k", "2"])
        one, two, empty = [f"{self.room}/{name}" for name in ("one", "two", "empty")]
        for path, text in ((one, RECORDS[:8]), (two, RECORDS[8:]), (empty, b"")):
            Path(path).write_bytes(text)
        saved = f"{self.room}/saved"
        for command, default in ((["summarise"], 0), (["table"], 4), (["condense", saved], 4), (["confirm", saved], 4)):
            for words, given, threads in [
                ([one, two], b"", default), (["--workers", "6", one, two], b"", 6), (["--workers", "6", one, "-"], RECORDS[8:], 0),
                ([one, two, empty], b"", 0), ([], RECORDS, 0),
            ]:
                status = self.heavy([*command, *words], given)[0]
                told = watched(self.program, library, [*command, *words], given)
                self.check(f"{command[0]} {' '.join(words)}", (status, told.count(0)) == (0, threads), (status, told))

    def test_report_workers(self) -> None:
        """How many threads a report of six files starts: the workers of one pass, and of two by a plan, which may have fewer
        pieces than there are files."""
        library = programs.preloaded("watch.c", self.room)
        paths = [f"{self.room}/{place}" for place in range(6)]
        for path in paths:
            Path(path).write_bytes(RECORDS)
        for words, threads in (([], 4), (["--pieces", "2", "--workers", "3"], 6), (["--pieces", "2", "--tree", "(0 1)"], 8)):
            command = ["report", "--k", "2", *words, *paths]
            status, out = self.heavy(command)[:2]
            told = watched(self.program, library, command, b"")
            self.check(" ".join(words), (status, out, told.count(0)) == (0, b"a,36\n", threads), (status, out, told))

    def test_vectors(self) -> None:
        """Files of version 1 and 2 byte by byte: what is merged, asked and confirmed of them, and what is refused."""
        other_family = TABLE[:49] + b"\x02" + TABLE[50:]
        files = {
            "one": ONE, "two": ONE_IN_2, "table": TABLE, "table2": TABLE_IN_2, "other": other_family, "byte": b"H",
            "a4b1": ONE, "b2c3": saved_bytes("48485331 01 0002 0000000000000005 0002 01 62 0000000000000002"
                                             "01 63 0000000000000003"),
            "k3": EMPTY[:6] + b"\x03" + EMPTY[7:], "full": EMPTY[:7] + saved_bytes("7fffffffffffffff") + EMPTY[15:],
            "empty": EMPTY, "magic": b"HHS3", "kind": b"HHS1\x03",
            "a": table_of_one(5, (2, 3)), "e": table_of_one(2, (2, 3)), "b": table_of_one(1, (3, 2)),
        }
        for name, data in files.items():
            Path(self.room, name).write_bytes(data)
        doubled = saved_bytes("48485332 01 0002 0000000000000016 0002 0001 61 0000000000000008 0001 62 0000000000000002")
        for names, merged in [
            (["one"], ONE_IN_2), (["two"], ONE_IN_2), (["table"], TABLE_IN_2), (["table2"], TABLE_IN_2),
            (["one", "one"], doubled), (["one", "two"], doubled), (["a", "e", "b"], TABLE_IN_2),
            (["empty"], b"HHS2" + EMPTY[4:]), (["a4b1", "empty", "b2c3"], MERGED), (["a4b1", "b2c3"], MERGED),
        ]:
            self.expect(["merge", *names], (0, merged, b""))
        Path(self.room, "doubled").write_bytes(doubled)
        Path(self.room, "whole").write_bytes(self.heavy(["merge", "a", "e", "b"])[1])
        self.expect(["ask", "doubled", "a"], (0, b"a,8,12\n", b""))
        for name in ("one", "two"):
            self.expect(["ask", name, "a", "z"], (0, b"a,4,6\nz,0,2\n", b""))
            self.expect(["ask", name, '"', "a"], (0, b'"""",0,2\na,4,6\n', b""))
            self.expect(["confirm", name], (0, b"a,6\n", b""))
            self.refuses(["confirm", name], "file 1: its total is not the input's", 3, b"a,5\n")
            self.refuses(["ask", name, "a", ""], "key 2: empty", 3)
            self.refuses(["ask", name, "x" * 4097], "key 1: too long", 3)
        for name in ("table", "table2", "whole"):
            self.expect(["ask", name, "a", "b"], (0, b"a,0,7\nb,0,1\n", b""))
            self.refuses(["confirm", name], "file 1: not a counter summary", 3)
            self.refuses(["merge", "one", name], "file 2: another kind", 3)
            self.refuses(["merge", name, "other"], "file 2: another hash family", 3)
        self.refuses(["merge", "one", "k3"], "file 2: another k", 3)
        self.refuses(["merge", "one", "full"], "file 2: total too large", 3)
        self.refuses(["merge", "one", "byte"], "file 2: truncated", 3)
        self.refuses(["merge", "one", "table", "byte"], "file 2: another kind", 3)
        self.refuses(["merge", "table", "table", "one"], "file 3: another kind", 3)
        self.refuses(["merge", "magic", "table", "byte"], "file 1: bad magic", 3)
        self.refuses(["ask", "kind", ""], "file 1: bad kind", 3)
        self.refuses(["ask", "table", "x" * 4097, ""], "key 1: too long", 3)

    def test_tables_by_hand(self) -> None:
        """A table of a seed, whose family is known, and tables of one row, which merge or don't."""
        self.save("drawn", ["table", "--width", "4", "--depth", "2", "--seed", "7"], b"a,5\ne,2\nb,1\n")
        data = Path(self.room, "drawn").read_bytes()
        table = reference.read(data)
        rows = [(1961435785107874384, 490517405503193563), (1568216229337355262, 2152610774340793925)]
        holds = (data[:4], len(data), table.z, table.rows, table.total) == (b"HHS2", 122, 9351779398707216, rows, 8)
        self.check("the table of seed 7", holds, table)
        asked = self.heavy(["ask", "drawn", "a", "e", "b"])[1].split()
        estimates = [int(row.split(b",")[2]) for row in asked]
        self.check("estimates of the table of seed 7", all(map(int.__ge__, estimates, (5, 2, 1))), asked)
        for name, width, cells in (("one", 1, [1]), ("wide", 2, [1, 0]), ("most", 1, [2**63 - 1])):
            saved = reference.Table(width, 256, [(1, 0)], sum(cells), [cells])
            Path(self.room, name).write_bytes(reference.written(saved))
        two = reference.written(reference.Table(1, 256, [(1, 0)], 2, [[2]]))
        self.expect(["merge", "one", "one"], (0, two, b""))
        self.refuses(["merge", "one", "wide"], "file 2: another width", 3)
        self.refuses(["merge", "one", "most"], "file 2: total too large", 3)

    def test_longest_keys(self) -> None:
        """Keys of one byte up to the most, in summaries of both methods and in both versions, and keys of one byte more."""
        for size in (1, 24, 25, 255, 256, 4096):
            key = b"x" * size
            summary, lightest = reference.Summary(1, 9, {key: 9}), reference.Summary(1, 1, {key: 1})
            for method in ("mg", "ss"):
                words = ["summarise", "--k", "1", "--method", method]
                self.expect(words, (0, reference.written(summary), b""), key + b",9\n")
                self.expect(words, (0, reference.written(lightest), b""), key + b"\n")
            self.expect(["report", "--k", "1"], (0, key + b",1\n", b""), key + b",1\n")
            self.check(f"a key of {size} bytes takes as many", len(reference.written(summary)) == 17 + 2 + size + 8)
            for magic, (_, longest) in reference.VERSIONS.items():
                if size <= longest:
                    Path(self.room, "key").write_bytes(reference.written(summary, magic))
                    self.expect(["ask", "key", key], (0, key + b",9,9\n", b""))

    def test_longest_key_alone(self) -> None:
        """The longest key with weight 1: the summary that is saved of it, byte by byte, and what is read of that."""
        key = b"x" * 4096
        saved = saved_bytes("48485332 01 0001 0000000000000001 0001 1000") + key + saved_bytes("0000000000000001")
        self.check("its summary has 4123 bytes", len(saved) == 4123, len(saved))
        self.expect(["summarise", "--k", "1"], (0, saved, b""), key + b"\n")
        Path(self.room, "longest").write_bytes(saved)
        self.expect(["merge", "longest"], (0, saved, b""))
        self.expect(["ask", "longest", key], (0, key + b",1,1\n", b""))
        self.expect(["list", "longest"], (0, key + b",1,1\n", b""))
        self.expect(["confirm", "longest"], (0, key + b",1\n", b""), key + b"\n")

    def test_digits_and_bytes(self) -> None:
        """A weight of 20 digits, and keys of bytes that are no text, up to the longest."""
        self.expect(["report"], (0, b"a,1\n", b""), b"a,00000000000000000001\n")
        for key in (b"\xff", b"\xff" * 255, b"\xff" * 256, b"\xff" * 4096):
            self.expect(["report"], (0, key + b",1\n", b""), key + b"\n")
        self.refuses(["report"], "record 1: key too long", 3, b"\xff" * 4097 + b"\n")
        self.refuses(["summarise", "--method", "x"], "method must be mg or ss")

    def tells(self, words: list, more: str, status: int, given: bytes = RECORDS) -> None:
        """A fault is one line, and two on a terminal and with --explain."""
        plain = self.heavy(words, given)
        both = plain[2] + (f"  {more}\n".encode() if more else b"")
        name = f"more about {words}"
        self.check(f"{name}: one line", (plain[0], plain[2].count(b"\n")) == (status, 1), plain)
        explained = self.heavy([*words[:1], "--explain", *words[1:]], given)
        self.check(f"{name}: --explain", explained == (status, b"", both), (explained, both))
        terminal = on_terminal([self.program, *words], given, self.room)
        self.check(f"{name}: on a terminal", terminal == (status, both), (terminal, both))

    def names(self, words: list, more: str, status: int, given: bytes = RECORDS) -> None:
        """A fault of records that files or options name has a second line, always."""
        plain = self.heavy(words, given)
        both = programs.first_line(plain[2]) + f"  {more}\n".encode()
        self.check(f"two lines about {words}", plain == (status, b"", both), (plain, both))
        explained = self.heavy([*words[:1], "--explain", *words[1:]], given)
        self.check(f"two lines about {words}: --explain", explained == plain, (explained, both))
        terminal = on_terminal([self.program, *words], given, self.room)
        self.check(f"two lines about {words}: on a terminal", terminal == (status, both), (terminal, both))

    def test_more_about_faults(self) -> None:
        """The second line of each fault that has one, and faults without."""
        weight = "a weight is a whole number from 1 on"
        for text, place, more in [
            (b"key,weight\na,1\n", '1, "key,weight"', f"{weight}; is the first line a header? --header; has it a point? --decimals"),
            (b"a,1.5\n", '1, "a,1.5"', f"{weight}; is the first line a header? --header; has it a point? --decimals"),
            (b"a,0\n", '1, "a,0"', f"{weight}; --allow-zero takes 0"), (b"\na\n\nb,-\n", '4, "b,-"', "--allow-zero takes a weight of -, as 0"),
            (b"a,1,2\n", '1, "a,1,2"', "a record is key,weight or a key alone; --key and --weight choose columns"),
            (b",1\n", '1, ",1"', "a key has 1 to 4096 bytes"), (b"k" * 4097, f'1, "{"k" * 60}"..', "a key has 1 to 4096 bytes"),
            (b"a,9223372036854775807\nb\n", '2, "b"', "all weights together are at most 9223372036854775807"),
        ]:
            for command in (["report"], ["summarise"], ["table"]):
                self.tells(command, f"standard input, line {place}: {more}", 3, text)
        behind = "a weight has at most as many digits behind a point as --decimals says; is the first line a header? --header"
        for text, more in [
            (b"a,1.25", behind), (b"k,w", behind), (b"a,0.0", "a weight is more than 0; --allow-zero takes 0"),
            (b"a,922337203685477580.8", "all weights together are at most 9223372036854775807 of the last decimal"),
        ]:
            self.names(["report", "--decimals", "1"], f'standard input, line 1, "{text.decode()}": {more}', 3, text + b"\n")
        self.save("day", ["summarise", "--k", "2"])
        self.save("table", ["table", "--width", "8"])
        self.save("k3", ["summarise", "--k", "3"])
        for share, more in [
            ("1/100", "1/100 needs a k of 99 or more"), ("2/7", "2/7 needs a k of 3 or more"),
            ("1/65536", "1/65536 needs a k of 65535 or more"), ("1/65537", None), ("3/2", None), ("", None), ("%", None), (".", None),
            ("0", None), ("0%", None), ("101%", None), ("1.5", None), ("5 %", None), ("0.0000000005", None), ("1e-2", None),
            ("5%", "5% is written 1/20"), ("0.05", "0.05 is written 1/20"), (".05", ".05 is written 1/20"), ("50%", "50% is written 1/2"),
            ("2.5%", "2.5% is written 1/40"), ("100%", "100% is written 1/1"), ("0.3", "0.3 is written 3/10"), ("1", "1 is written 1/1"),
            ("33.33%", "33.33% is written 3333/10000"), ("0.10", "0.10 is written 1/10"), ("12.5%", "12.5% is written 1/8"),
        ]:
            told = more or "a share is two whole numbers, as 1/50, from 1/65536 to 1/1"
            self.tells(["report", "--k", "2", "--threshold", share], told, 2)
            told += ", and the summary has a k of its own" if more and "needs" in more else ""
            self.tells(["confirm", "--threshold", share, "day"], told, 2)
        self.tells(["confirm", "day"], "day has 11, and the records have 5", 3, b"a,5\n")
        self.tells(["confirm", "table"], "table is a Count-Min table", 3)
        self.tells(["list", "table"], "table is a Count-Min table", 3)
        self.tells(["merge", "day", "k3"], "k3: k is 3, and 2 in day", 3)
        self.tells(["merge", "day", "day", "table"], "table is a table of width 8 and depth 4, and day is a summary with k 2", 3)
        self.save("wide", ["table", "--width", "9"])
        self.save("seven", ["table", "--width", "8", "--seed", "7"])
        self.save("most", ["summarise", "--k", "2"], b"a,9223372036854775807\n")
        self.save("deep", ["table", "--width", "8", "--depth", "5"])
        self.save("full", ["table", "--width", "8"], b"a,9223372036854775807\n")
        self.tells(["merge", "table", "wide"], "wide: width is 9, and 8 in table", 3)
        self.tells(["merge", "table", "table", "seven"], "seven: its seed is another than that of table", 3)
        self.tells(["merge", "table", "deep"], "deep: depth is 5, and 4 in table", 3)
        above = "its total is 9223372036854775807, and %d before it: together they are above 9223372036854775807"
        self.tells(["merge", "day", "most"], f"most: {above % 11}", 3)
        self.tells(["merge", "day", "day", "most"], f"most: {above % 22}", 3)
        self.tells(["merge", "table", "full"], f"full: {above % 11}", 3)
        files = {
            "none": (b"", "is empty"), "text": (RECORDS, "looks like text: `heavy summarise` saves records of such"),
            "short": (b"HHS2\x01", "begins as a saved file, and is damaged or cut off"), "bytes": (b"\0\1", "looks like no saved file"),
            "later": (b"HHS3\x01", "is a saved file of a version that isn't known here"),
            "sealed": (b"HVY1\x02", "begins as a sealed file, and is damaged or cut off"),
            "later_seal": (b"HVY2\x02", "is a sealed file of a version that isn't known here"),
            "gz": (b"\x1f\x8b\x08\0", "looks like gzip: `gzip -dc` unpacks it"), "zip": (b"PK\3\4", "looks like a zip archive"),
            "zst": (b"\x28\xb5\x2f\xfd", "looks like zstd: `zstd -dc` unpacks it"), "bz2": (b"BZh9", "looks like bzip2: `bzip2 -dc` unpacks it"),
            "xz": (b"\xfd7zXZ\0", "looks like xz: `xz -dc` unpacks it"),
            "wide": (b"\xff\xfea\0", "looks like UTF-16: `iconv -f UTF-16 -t UTF-8` makes it UTF-8"),
        }
        for name, (data, looks) in files.items():
            Path(self.room, name).write_bytes(data)
            self.tells(["list", name], f"{name} {looks}", 3)
            self.tells(["merge", "day", name], f"{name} {looks}", 3)
        for words, status in [
            (["report", "--k", "0"], 2), (["report", "--tree", "("], 2), (["ask", "day", ""], 3), (["summarise", "--method", "x"], 2),
        ]:
            self.tells(words, "", status)

    def test_more_about_bad_records(self) -> None:
        """Of a record in a file, on standard input or in a pipe, the name, the line, and the first 60 bytes, where the record
        ends in the first 65,536 bytes of what can't be read again; else what a record has to be."""
        wanted = "a weight is a whole number from 1 on; is the first line a header? --header; has it a point? --decimals"
        alone = "a key has 1 to 4096 bytes"
        long, marked = b"k" * 70_000, b"\xef\xbb\xbf"
        files = {
            "good": b"a,1\nb\n", "bad": b"a,1\n\n\r\nb,x\nc,y\n", "last": b"a\rb\rc,",
            "quoted": b'"a\nb",2\r\n\r\n"c\r\nd""",x\r\n',
            "long": b"\n" * 65_535 + b"a,1\n" + long, "edge": b"\n" * 65_534 + b"b,xy\n", "sixty": b"a\n" + b"b" * 58 + b",x\n",
            "more": b"a\n" + b"b" * 59 + b",x\n", "mark": marked + b'"a\nb"\n\xff\t"\x1b[1m\\,x\n', "none": b"\n\r\n",
            "marks": marked, "ä,b\n": b"a,\n", "names": b"who;how;n\na;b;1\n\nc;\"d\ne\";x\n", "empty": b"",
        }
        for name, data in files.items():
            Path(self.room, name).write_bytes(data)
        semicolons = ["--delimiter", ";", "--header", "--key", "who", "--weight", "n"]
        for words, place in [
            (["bad"], 'bad, line 4, "b,x"'), (["good", "bad"], 'bad, line 4, "b,x"'),
            (["empty", "none", "bad"], 'bad, line 4, "b,x"'),
            (["good", "good", "marks", "bad", "good"], 'bad, line 4, "b,x"'), (["--header", "bad"], 'bad, line 4, "b,x"'),
            (["--header", "good", "bad"], 'bad, line 4, "b,x"'),
            (["--header", "empty", "none", "good", "bad"], 'bad, line 4, "b,x"'),
            (["quoted"], r'quoted, line 4, "\"c\r\nd\"\"\",x"'), (["good", "last"], 'last, line 3, "c,"'),
            (["sixty"], f'sixty, line 2, "{"b" * 58},x"'), (["more"], f'more, line 2, "{"b" * 59},"..'),
            (["mark"], r'mark, line 3, "\xff\t\"\x1b[1m\\,x"'), (["ä,b\n"], r'ä,b\n, line 1, "a,"'),
            ([*semicolons, "names"], r'names, line 4, "c;\"d\ne\";x"'), (["./bad"], './bad, line 4, "b,x"'),
            ([*semicolons, "names", "names"], r'names, line 4, "c;\"d\ne\";x"'),
        ]:
            for command in (["report"], ["summarise", "--k", "2"], ["table"]):
                self.names([*command, *words], f"{place}: {wanted}", 3)
        self.names(["report", "good", "long"], f'long, line 65537, "{"k" * 60}"..: {alone}', 3)
        self.names(["report", "edge"], f'edge, line 65535, "b,xy": {wanted}', 3)
        for command in (["report"], ["summarise"], ["table"]):
            self.names([*command, "good", "-", "bad"], f'bad, line 4, "b,x": {wanted}', 3, b"q\n")
            self.names([*command, "-"], f'standard input, line 1, "q,": {wanted}', 3, b"q,\n")
            self.names([*command, "good", "-"], f'standard input, line 3, "q,": {wanted}', 3, marked + b"\r\n\nq,\n")
            self.names([*command, "bad", "-"], f'bad, line 4, "b,x": {wanted}', 3)
            self.names([*command, *semicolons], r'standard input, line 4, "c;\"d\ne\";x": ' + wanted, 3, files["names"])
            # what stands past the bytes that are kept, and what begins in them and doesn't end there
            kept = b"\n" * 65_532 + b"b,x\n"
            self.names([*command, "-"], f'standard input, line 65533, "b,x": {wanted}', 3, kept + b"c,y\n")
            self.names([*command, "-"], f'standard input, line 65534, "b,x": {wanted}', 3, b"\n" + kept[:-1])
            self.names([*command, "-"], wanted, 3, b"\n" + kept)
            self.names([*command, "-"], wanted, 3, b"a" * 4096 + b"\n" + kept)
            self.names([*command, "-", "bad"], wanted, 3, b"a\n" * 40_000)
        self.save("day", ["summarise", "--k", "2"])
        for command in ("confirm", "condense"):
            self.names([command, "day", "bad"], f'bad, line 4, "b,x": {wanted}', 3)
            self.names([command, "day", "good", "bad"], f'bad, line 4, "b,x": {wanted}', 3)
            self.names([command, "--header", "day"], f'standard input, line 2, "b,x": {wanted}', 3, b"k,w\nb,x\n")
            self.names([command, "day", "-"], f'standard input, line 2, "b,x": {wanted}', 3, b"a,1\nb,x\n")
        said = self.of_pipe(b"a,1\nb,x\n")
        told = re.fullmatch(rb'heavy: record 2: bad weight\n  /dev/fd/\d+, line 2, "b,x": (.*)\n', said)
        self.check("the begin of a pipe is kept", told and told[1] == wanted.encode(), said)

    def test_more_about_columns(self) -> None:
        """A column that is missing, fields that are too few, a weight of -, and records of other formats."""
        files = {
            "flows": b'\xef\xbb\xbfhost,"bytes, sent",n\r\nx,5,1\r\n', "other": b"\nHost;n\nx;5\n", "empty": b"", "two": b"a,1\nb\nc,2\n",
            "dash": b"x a 5\ny a -\n", "dashes": b'k,w\na,"-"\n', "late": b"q" * 70 + b",-\n", "json": b'{"a":1,"b":2}\n',
            "list": b"a,1\n[1,2,3]\n", "gz": b"\x1f\x8b\x08\0,,,\n", "zst": b"\x28\xb5\x2f\xfd,1,2\n", "wide": b"\xff\xfea\0,\0\x31\0\n\0",
            "big": b"\xfe\xff\0a\0,\0,\0\n", "a\x1bb": b"host\nx\n", "short": b"k,w\na\n",
            "texts": b'{"a":"x"}\n',
        }
        for name, data in files.items():
            Path(self.room, name).write_bytes(data)
        self.save("day", ["summarise", "--k", "2"])
        named = 'flows has no column "%s"; its header has "host", "bytes, sent", "n"'
        for words, more in [
            (["-H", "--key", "Host", "flows"], named % "Host"), (["-H", "--key", "host,n,m", "flows"], named % "m"),
            (["-H", "--key", "host", "--weight", "bytes", "flows"], named % "bytes"), (["-H", "--weight", "w", "flows"], named % "w"),
            (["-H", "--key", "host", "empty", "flows", "other"], 'other has no column "host"; its header has "Host;n"'),
            (["-Hd;", "--key", "n,host", "other", "flows"], 'other has no column "host"; its header has "Host", "n"'),
            (["-H", "--key", "n", "a\x1bb"], 'a\\u{1b}b has no column "n"; its header has "host"'),
        ]:
            for command in (["report"], ["summarise"], ["table"]):
                self.names([*command, *words], more, 3)
        self.names(["confirm", "-H", "--key", "m", "day", "flows"], named % "m", 3)
        for command in (["report"], ["summarise"], ["table"], ["confirm", "day"]):
            for name in ([], ["-"]):
                more = 'standard input has no column "m"; its header has "host", "bytes, sent", "n"'
                self.names([*command[:1], "-H", "--key", "m", *command[1:], *name], more, 3, files["flows"])
        self.names(["report", "-H", "--key", "n", "flows", "-"], 'standard input has no column "n"; its header has "host"', 3, b"host\n")
        long = b"q" * 65_536 + b",w\na,1\n"
        self.refuses(["report", "-H", "--key", "m", "-"], "the header has no such column", 3, long)
        self.names(["report", "--key", "3", "-"], "a record has each column that --key and --weight name", 3, long)
        weight = "a weight is a whole number from 1 on; is the first line a header? --header; has it a point? --decimals"
        for words, more in [
            (["--key", "3", "two"], 'two, line 1, "a,1": it has 2 fields, and --key names column 3'),
            (["--key", "2", "two"], 'two, line 2, "b": it has 1 field, and --key names column 2'),
            (["--key", "1,002", "--weight", "4", "two"], 'two, line 1, "a,1": it has 2 fields, and --weight names column 4'),
            (["--key", "1", "--weight", "2", "two"], 'two, line 2, "b": it has 1 field, and --weight names column 2'),
            (["-H", "--weight", "w", "short"], 'short, line 2, "a": it has 1 field, and --weight names column 2, "w"'),
            (["-H", "--key", "w,k", "short"], 'short, line 2, "a": it has 1 field, and --key names column 2, "w"'),
            (["-d ", "--key", "1", "--weight", "3", "dash"], 'dash, line 2, "y a -": --allow-zero takes a weight of -, as 0'),
            (["-H", "--weight", "w", "dashes"], 'dashes, line 2, "a,\\"-\\"": --allow-zero takes a weight of -, as 0'),
            (["--json", "--key", "a", "--weight", "a", "texts"],
             'texts, line 1, "{\\"a\\":\\"x\\"}": a record is an object with each member that --key and --weight name: '
             "a key is a text, a number, true or false, and a weight is a number"),
            (["late"], f'late, line 1, "{"q" * 60}"..: --allow-zero takes a weight of -, as 0'),
            (["-d ", "--key", "3", "--weight", "2", "dash"], f'dash, line 1, "x a 5": {weight}'),
            (["json"], 'json, line 1, "{\\"a\\":1,\\"b\\":2}": looks like JSON, and a record is CSV; --json reads an object a line'),
            (["list"], 'list, line 2, "[1,2,3]": looks like JSON, and a record is CSV; --json reads an object a line'),
            (["gz"], "gz looks like gzip: `gzip -dc` unpacks it"), (["zst"], "zst looks like zstd: `zstd -dc` unpacks it"),
            (["wide"], "wide looks like UTF-16: `iconv -f UTF-16 -t UTF-8` makes it UTF-8"),
            (["big"], "big looks like UTF-16: `iconv -f UTF-16 -t UTF-8` makes it UTF-8"),
        ]:
            for command in (["report"], ["summarise"], ["condense"]):
                saved = ["day"] if command == ["condense"] else []
                place = words.index(words[-1]) if saved else 0
                self.names([*command, *words[:place], *saved, *words[place:]], more, 3)
                name = words[-1]
                self.names([*command, *words[:-1], *saved, "-"], more.replace(name, "standard input", 1), 3, files[name])

    def test_places_behind_empty_inputs(self) -> None:
        """A bad record has its file and its line behind inputs that can't be read again: where all that they gave is kept."""
        wanted = "a weight is a whole number from 1 on; is the first line a header? --header; has it a point? --decimals"
        Path(self.room, "bad").write_bytes(b"a,1\n\n\r\nb,x\nc,y\n")
        self.save("day", ["summarise", "--k", "2"])
        for command in (["report"], ["summarise"], ["table"], ["confirm", "day"], ["condense", "day"], ["report", "--pieces", "2"]):
            for files in (["/dev/null", "bad"], ["/dev/null", "-", "bad"], ["-", "-", "/dev/null", "bad"]):
                self.names([*command, *files], f'bad, line 4, "b,x": {wanted}', 3, b"")
            self.names([*command, "/dev/null", "-"], f'standard input, line 2, "b,x": {wanted}', 3, b"a,1\nb,x\n")
            self.names([*command, "-", "-", "bad"], f'bad, line 4, "b,x": {wanted}', 3, b"a,1\nq\n")
        for before, number in ((b"", 2), (b"q,3\n", 3), (b"q\n" * 30_000, 30_002)):
            said = self.of_pipe(b"a,1\nb,x\n", before)
            told = re.fullmatch(rb'heavy: record (\d+): bad weight\n  /dev/fd/(\d+), line 2, "b,x": (.*)\n', said)
            self.check(f"a second pipe behind {len(before)} bytes", told and (int(told[1]), told[3]) == (number, wanted.encode()), said)
        said = self.of_pipe(b"a,1\nb,x\n", b"q\n" * 32_770)
        self.check("a second pipe behind more than is kept", said == b"heavy: record 32772: bad weight\n  %s\n" % wanted.encode(), said)

    def test_columns_of_other_formats(self) -> None:
        """A column that is missing, and fields that are too few, where no field is quoted; a column's number as it was given."""
        files = {"padded": b"  host   n \n x  5\n", "quotes": b'ho"st,n\nx,5\n', "lined": b"a line, whole\nx\n", "two": b"a,1\n"}
        for name, data in files.items():
            Path(self.room, name).write_bytes(data)
        most = "99999999999999999999"
        for words, more in [
            (["-H", "--squeeze", "--key", "m", "padded"], 'padded has no column "m"; its header has "host", "n"'),
            (["-H", "--no-quotes", "--key", "m", "quotes"], r'quotes has no column "m"; its header has "ho\"st", "n"'),
            (["-H", "--no-quotes", "--delimiter", '"', "--key", "m", "quotes"], 'quotes has no column "m"; its header has "ho", "st,n"'),
            (["-H", "--lines", "--key", "m", "lined"], 'lined has no column "m"; its header has "a line, whole"'),
            (["--squeeze", "--key", "3", "padded"], 'padded, line 1, "  host   n ": it has 2 fields, and --key names column 3'),
            (["--no-quotes", "--key", "3", "two"], 'two, line 1, "a,1": it has 2 fields, and --key names column 3'),
            (["--lines", "--key", "2", "two"], 'two, line 1, "a,1": it has 1 field, and --key names column 2'),
            (["--key", most, "two"], f'two, line 1, "a,1": it has 2 fields, and --key names column {most}'),
            (["--key", "1", "--weight", f"00{most}", "two"], f'two, line 1, "a,1": it has 2 fields, and --weight names column {most}'),
        ]:
            for command in (["report"], ["summarise"], ["table"]):
                self.names([*command, *words], more, 3)
                place = more.replace(words[-1], "standard input", 1)
                self.names([*command, *words[:-1], "-"], place, 3, files[words[-1]])

    def test_long_headers(self) -> None:
        """Of a header the names are shown up to 200 bytes, and cut between characters."""
        for header, shown in [
            (",".join(f"h{number:03}" for number in range(999)), ", ".join(f'"h{number:03}"' for number in range(25)) + ", .."),
            (",".join(f"h{number:03}" for number in range(25)), ", ".join(f'"h{number:03}"' for number in range(25))),
            ("q" * 200, f'"{"q" * 200}"'), ("q" * 201, f'"{"q" * 200}"..'), ("x" + "é" * 150, f'"x{"é" * 99}"..'),
            ("é" * 99 + ",a", f'"{"é" * 99}", ..'),
        ]:
            Path(self.room, "long").write_bytes(header.encode() + b"\nx\n")
            self.names(["report", "-H", "--key", "m", "long"], f'long has no column "m"; its header has {shown}', 3)

    def test_reasons_of_devices(self) -> None:
        """Why standard input can't be read, and a file whose length says more than it has."""
        ended = programs.run(["sh", "-c", '"$@" < /', "", self.program, "report", "--explain"], cwd=self.room)
        said = b"heavy: input could not be read\n  standard input: Is a directory\n"
        self.check("standard input that is a folder", (ended.status, ended.out, ended.err) == (1, b"", said), ended)
        ear, mouth = os.pipe()
        os.set_blocking(ear, False)
        ended = programs.run([self.program, "report", "--explain"], stdin=ear)
        os.close(ear)
        os.close(mouth)
        said = b"heavy: input could not be read\n  standard input: Resource temporarily unavailable\n"
        self.check("standard input that isn't waited for", (ended.status, ended.out, ended.err) == (1, b"", said), ended)
        path = "/sys/kernel/mm/transparent_hugepage/enabled"
        if os.path.exists(path) and os.path.getsize(path) > len(Path(path).read_bytes()):
            for command in (["report"], ["summarise"], ["table"]):
                self.names([*command, path], f"{path}: it has fewer bytes than its length says; `cat` reads it into a pipe", 1)

    def test_saved_standard_input(self) -> None:
        """A saved file that is standard input, once, whatever file has the name -, and its faults."""
        saved = self.save("day", ["summarise", "--k", "2"])
        Path(self.room, "four").write_bytes(RECORDS)
        Path(self.room, "-").write_bytes(b"a,1\n")
        doubled = self.heavy(["merge", "day", "day"])[1]
        described = b"version,2\nkind,summary\nk,2\nkeys,2\ntotal,11\ncounters,5\nslack,2\n"
        for words, answer in [
            (["merge", "-"], saved), (["merge", "day", "-"], doubled), (["merge", "-", "day"], doubled), (["ask", "-", "a"], b"a,4,6\n"),
            (["list", "-"], b"a,4,6\nb,1,3\n"), (["describe", "-"], described), (["confirm", "-", "four"], b"a,6\n"),
            (["condense", "-", "four"], b"a,6\nb,3\nothers,2\n"),
        ]:
            self.expect(words, (0, answer, b""), saved)
        ended = programs.run(["sh", "-c", '"$0" merge day day | "$0" ask - a', self.program], cwd=self.room)
        self.check("a merged file that is asked", (ended.status, ended.out, ended.err) == (0, b"a,8,12\n", b""), ended)
        self.tells(["merge", "-", "-"], "standard input was taken by a file before it", 3, saved)
        self.refuses(["merge", "day", "-", "day", "-"], "file 4: truncated", 3, saved)
        self.tells(["confirm", "-", "-"], "standard input has 11, and the records have 0", 3, saved)
        self.tells(["confirm", "-"], "standard input has 11, and the records have 0", 3, saved)
        self.tells(["list", "-"], "standard input looks like text: `heavy summarise` saves records of such", 3)
        self.tells(["merge", "-", "day"], "standard input is empty", 3, b"")
        self.tells(["list", "./-"], "./- looks like text: `heavy summarise` saves records of such", 3, saved)
        table = self.save("table", ["table", "--width", "8"])
        self.tells(["list", "-"], "standard input is a Count-Min table", 3, table)
        self.tells(["merge", "day", "-"], "standard input is a table of width 8 and depth 4, and day is a summary with k 2", 3, table)
        self.tells(["merge", "-", "day"], "day is a summary with k 2, and standard input is a table of width 8 and depth 4", 3, table)
        other = self.save("k3", ["summarise", "--k", "3"])
        self.tells(["merge", "day", "-"], "standard input: k is 3, and 2 in day", 3, other)
        self.tells(["merge", "-", "day"], "day: k is 2, and 3 in standard input", 3, other)
        for more, said in (([], b""), (["--explain"], b"  standard input: Is a directory\n")):
            ended = programs.run(["sh", "-c", '"$@" < /', "", self.program, "list", *more, "-"], cwd=self.room)
            wanted = (1, b"", b"heavy: file 1: could not be read\n" + said)
            self.check(f"a saved file that is a folder, {more}", (ended.status, ended.out, ended.err) == wanted, ended)

    def test_places_of_records(self) -> None:
        """Of random texts in files: a bad record that is put at the place that is told, with nothing behind it, has the same
        number, and what stood there begins as was told."""
        seed = int.from_bytes(os.urandom(4))
        print(f"places of seed {seed}", flush=True)
        draws, found = random.Random(seed), 0
        for _ in range(150):
            texts = [bytes(draws.choices(b'ab1,;"\n\r', (6, 4, 6, 5, 2, 2, 5, 2), k=draws.randrange(1, 90))) for _ in range(3)]
            texts[0] = draws.choice([b"", b"\xef\xbb\xbf"]) + texts[0]
            options = ["--explain", *draws.choice([[], ["--header"], ["--delimiter", ";"]])]
            told = self.of_files(options, texts)
            if place := PLACE.fullmatch(told):
                found += 1
                number, name, line, begin = place.groups()
                ends = [0, *(end.end() for end in re.finditer(rb"\r\n|\r|\n", texts[int(name)]))]
                at = ends[int(line) - 1]
                rest = texts[int(name)][at:].removeprefix(b"\xef\xbb\xbf" if at == 0 else b"")
                again = self.of_files(options, [*texts[:int(name)], texts[int(name)][:at] + b'""'])
                said = ast.literal_eval(f'b"{begin.decode()}"')
                holds = again.split(b":")[:2] == told.split(b":")[:2] and rest.startswith(said) and said[:1] not in b"\r\n"
                self.check(f"the place of a record of {texts} with {options}", holds, (told, again))
            else:
                self.check("a fault of a record has a place", not told.startswith(b"heavy: record"), told)
        self.check("many places", found > 50, found)

    def of_files(self, options: list[str], texts: list[bytes]) -> bytes:
        """What a report of these texts in files says on standard error."""
        for number, text in enumerate(texts):
            Path(self.room, str(number)).write_bytes(text)
        return self.heavy(["report", *options, *map(str, range(len(texts)))])[2]

    def of_pipe(self, text: bytes, before: bytes | None = None) -> bytes:
        """What a report of the file of a pipe says of its fault, or of two of them."""
        ears = []
        for given in (before, text):
            if given is not None:
                ear, mouth = os.pipe()
                fcntl.fcntl(mouth, fcntl.F_SETPIPE_SZ, 1 << 17)
                os.write(mouth, given)
                os.close(mouth)
                ears.append(ear)
        ended = programs.run([self.program, "report", "--explain", *(f"/dev/fd/{ear}" for ear in ears)], pass_fds=ears)
        for ear in ears:
            os.close(ear)
        return ended.err

    def notes(self, words: list, note: str, given: bytes = b"") -> None:
        """A run with status 0 says nothing on standard error, but for a note on a terminal and with --explain."""
        plain, said = self.heavy(words, given), f"heavy: note: {note}\n".encode() if note else b""
        name = f"a note about {words}, {given[:40]!r}"
        self.check(f"{name}: none", (plain[0], plain[2]) == (0, b""), plain)
        explained = self.heavy([*words[:1], "--explain", *words[1:]], given)
        self.check(f"{name}: --explain", explained == (0, plain[1], said), (explained, said))
        terminal = on_terminal([self.program, *words], given, self.room)
        self.check(f"{name}: on a terminal", terminal == (0, said), (terminal, said))

    def test_notes_about_formats(self) -> None:
        """Records without a second field where another delimiter stands in most lines, and a quote that stays open."""
        other = "no record has a second field, and most lines have a %s: --delimiter '%s'"
        tab, semicolon, bar = other % ("tab", r"\t"), other % ("semicolon", ";"), other % ("bar", "|")
        objects = "most lines begin with {: --json --key NAME reads objects"
        opened, buffer = "a quote is open at the end of standard input", b"k,1\n" * 16_383
        for text, note in [
            (b"", ""), (b"a\nb\n", ""), (RECORDS, ""), (b"a\t1\n", tab), (b"a\t1\nb\t2\nc\n", tab), (b"a\t1\nb\n", ""),
            (b"a\nb\nc\t", ""), (b"a\nb\t\nc\t", tab), (b"a;1\nb;2", semicolon), (b"a|1\r\n\r\nb|2\r\n", bar),
            (b"a|1\rb|2\rc\r", bar), (b"a;1\tx\n", tab), (b"a;1|x\n", semicolon), (b"a;1\nb,1\n", ""), (b"a,1\nb;1\nc;1", ""),
            (b"a;1\nb;2\n" * 50_000, semicolon), (b"a;1\n" * 50_000 + b"b,1\n", semicolon), (b"a;1\n" * 16_000 + b"b,1\n", ""),
            (b'"a;b"\n', semicolon), (b"a|" * 2000, bar),
            (b";\n" * 3 + b"|\n" * 2, semicolon), (b"a\tb\n" + b"\n" * 70_000, tab), (b"a;" * 2000 + b"\nb\nc\n", ""),
            (b'a,1\n"b,2\nc,3\n', opened), (b'a,1\nb"\n', ""), (b'"a""b"\n', ""), (b'"a"\n', ""), (b'"a"', ""), (b'"a""', opened),
            (b'a,"1', opened), (b"a,1\n" * 50_000 + b'"b', opened), (b'a,1\n"' + b"b" * 4000 + b'"\n', ""),
            (buffer + b'abc,"1', opened), (buffer + b'abcd"\n', ""), (buffer + b'abc\n"b', opened), (buffer + b'"bc"""\n', ""),
            (b'"a;b', f"{semicolon}\nheavy: note: {opened}"), (b'a;"b', semicolon),
            (b'{"a":1}\n{"a":2}\nx\n', objects), (b'{"a":1}\nx\n', ""), (b'x{\n', ""), (b'{"a":"b;c"}\n', objects),
        ]:
            self.notes(["summarise", "--k", "2"], note, text)
        commands = [["report"], ["table", "--width", "2"], ["report", "-"], ["report", "--header"], ["report", "--allow-zero"]]
        for command in commands:
            self.notes(command, tab, b"a\t1\nb\t2\n")
            self.notes(command, opened, b'a,b\n"b\n' if "--header" in command else b'a\n"b,1\n')
        for words, text, note in [
            (["--delimiter", "\\t"], b"a\t1\n", ""), (["--delimiter", ";"], b"a\tb\n", ""), (["--key", "1"], b"a;1\n", ""),
            (["--weight", "1"], b'"1', opened), (["--delimiter", ","], b'"a', opened), (["--delimiter", ";"], b'a,"b\n', ""),
            (["--delimiter", ";", "--key", "1"], b'a;"b', opened), (["--key", "1"], b'\xef\xbb\xbf"x,"\n', ""),
        ]:
            self.notes(["report", *words], note, text)
        marked = b"\xef\xbb\xbf"
        for text, note in [(b'"x,"\n', ""), (b'"x,', opened), (b'"x', opened), (b'x"\n', ""), (b"", "")]:
            self.notes(["summarise"], note, marked + text)
        files = {"one": b"a;1\n", "two": b"b;1\nc;2\n", "op\ten": b'a,1\n"b', "plain": b"a,1\n", "keys": b"a\n" * 3}
        for name, data in files.items():
            Path(self.room, name).write_bytes(data)
        day = self.save("day", ["summarise"], b"a;1\nb;1\nc;2\n")
        self.check("a summary of three", day != b"")
        for words, note in [
            (["one", "two"], semicolon), (["two", "keys"], ""), (["one", "plain"], ""), (["op\ten"], opened[:30] + r"op\ten"),
            (["plain", "op\ten", "one"], opened[:30] + r"op\ten"),
        ]:
            self.notes(["report", *words], note)
        Path(self.room, "long").write_bytes(b"key,1\n" * 3_000_000 + b'"b')
        self.notes(["report", "long"], opened[:30] + "long")
        self.notes(["confirm", "day", "one", "two"], semicolon)
        self.notes(["condense", "day", "plain", "op\ten"], opened[:30] + r"op\ten")
        for words in (["list", "day"], ["describe", "day"], ["ask", "day", "a;1"], ["merge", "day"]):
            self.notes(words, "")
        self.tells(["report"], r'standard input, line 1, "\"": a key has 1 to 4096 bytes', 3, b'"')
        self.tells(["report"], r'standard input, line 2, "\"\"": a key has 1 to 4096 bytes', 3, b"a;1\n\"\"\n")

    def test_notes_about_few_keys(self) -> None:
        """A report of fewer keys than rows were asked for, or of none, says how many there are, and what shows more."""
        text = b"a,6\nb,3\nc,1\n"
        two, names = "2 keys weigh more than 1/10 of the total: --k 99 shows those above 1/100", ["--names"]
        one = "1 key weighs more than 1/2 of the total: --k 19 shows those above 1/20"
        none, greatest = "no key weighs more than %s of the total: %s", ", and `heavy top 1` shows the greatest"
        for words, note in [
            (["--k", "9"], ""), (["--k", "9", "--top", "2"], ""), (["--k", "9", "--top", "3"], two), (["--k", "1"], ""),
            (["--k", "1", "--top", "2"], one), (["--k", "9", "--top", "3", *names], two), (["--k", "9", "--top", "2", *names], ""),
            (["--k", "9", "--top", "3", *names, "--output", "json"], two), (["--k", "9", "--top", "3", *names, "--output", "tsv"], two),
            (["--threshold", "9/10"], none % ("9/10", "a smaller --threshold shows more" + greatest)), (["--threshold", "1/2"], ""),
            (["--k", "9999", "--top", "4"], "3 keys weigh more than 1/10000 of the total: --k 65535 shows those above 1/65536"),
            (["--k", "65535", "--top", "4"], "3 keys weigh more than 1/65536 of the total: `heavy top 4` shows the greatest"),
            (["--k", "9", "--threshold", "1/10", "--top", "3"],
             "2 keys weigh more than 1/10 of the total: a larger --k with a smaller --threshold shows more"),
            (["--k", "9", "--threshold", "2/20", "--top", "3"],
             "2 keys weigh more than 2/20 of the total: a larger --k with a smaller --threshold shows more"),
            (["--k", "9", "--threshold", "1/9", "--top", "3"], "2 keys weigh more than 1/9 of the total: a smaller --threshold shows more"),
            (["--k", "65535", "--threshold", "1/65536", "--top", "4"],
             "3 keys weigh more than 1/65536 of the total: `heavy top 4` shows the greatest"),
        ]:
            self.notes(["report", *words], note, text)
        self.notes(["report", "--k", "1"], none % ("1/2", "--k 19 shows those above 1/20" + greatest), b"a\nb\n")
        self.notes(["report", "--k", "1", "--top", "1"], "", b'"a\nb"\n')
        Path(self.room, "empty").write_bytes(b"")
        Path(self.room, "header").write_bytes(b'\n"k\nl",w\n\n')
        for words, given in [
            ([], b""), ([], b"\n\r\n"), (["-H"], b"k,w\n"), (["--pieces", "2"], b""), (["--threshold", "1/2"], b""), (["--top", "9"], b""),
            (["empty"], b""), (["-H", "header"], b""), (["-H", "header", "empty", "-"], b"k"), (["--names"], b""),
        ]:
            self.notes(["report", *words], "there are no records", given)
        self.notes(["report", "--top", "0"], "")
        self.notes(["report", "-H", "--k", "1", "header", "-"], none % ("1/2", "--k 19 shows those above 1/20" + greatest), b"k\na\nb\n")
        self.save("day", ["summarise", "--k", "2"])
        self.save("even", ["summarise", "--k", "1"], b"a\nb\n")
        self.save("nothing", ["summarise"], b"")
        shows = "`heavy top 1` shows the greatest"
        for words, note, given in [
            (["day"], "", RECORDS), (["--threshold", "3/5", "day"], none % ("3/5", shows), RECORDS), (["even"], none % ("1/2", shows), b"b\na\n"),
            (["--threshold", "1/2", *names, "even"], none % ("1/2", shows), b"b\na\n"), (["nothing"], "there are no records", b""),
            (["-n", "3", "-t", "3/5", "day"], none % ("3/5", shows.replace("1", "3")), RECORDS), (["-n", "0", "-t", "3/5", "day"], "", RECORDS),
            (["-n", "2", "day"], "", RECORDS),
        ]:
            self.notes(["confirm", *words], note, given)

    def test_notes_about_last_records(self) -> None:
        """A last record that begins with a quote and has more than 100 lines, in the last 65,536 bytes: one line, always."""
        note = "heavy: note: the last record of %s begins with a quote and has %d lines, %d bytes: a quote that isn't closed takes all that follows\n"
        rows = b'"b,1\n' + b"c,1\n" * 100
        wide, long = b'"' + b"y" * 65_532 + b'",kk', b'"x,1\n' + b"c,1\n" * 16_381
        second, quoted = ["--key", "2"], b'"a","1"\n' * 30_000
        cases = [
            ([], b"a,1\n" + rows, (101, 405)), ([], rows, (101, 405)), ([], b"\xef\xbb\xbf" + rows, (101, 405)),
            ([], b"\n\r\n" + rows.replace(b"\n", b"\r\n"), (101, 506)), ([], rows.replace(b"\n", b"\r"), (101, 405)),
            ([], b"a,1\n" + rows[:-4], None), ([], b"a,1\n" + rows + b'"', (102, 406)), ([], rows + b'"\n\n\n', (102, 406)),
            ([], rows + b'"\na,1', None), ([], rows + b'"\n"a",1', None), ([], b'b"' + rows, None), ([], b"a\n" * 300, None),
            (second, wide, None), (second, b"x,k\n" + long + b'",k', (16_383, 65_532)), (second, long + b'",kkkkk', (16_383, 65_536)),
            (second, b"x,k\n" + long + b'",kkkk', (16_383, 65_535)), (second, b"x,k\n" + long + b'",kkkkk', None),
            (second, b'x,"' + b"\n" * 200 + b'"\n', None), (second, b'"x,1\n' + b"c,1\n" * 50_000 + b'",k\n', None),
            (second, b"x,k\n" * 20_000 + b'",\n' + b"\n" * 100 + b'",k', None), (second, b'"x\n",k\n' * 20_000 + rows + b'",k', (102, 408)),
            (second, b'"x,1\n' + b"c,1\n" * 50_000 + b'",k\ny,k\n', None), (second, b'"x","k"\n' + b"c,1\n" * 50_000, None),
            (second, quoted, None), (second, quoted + b'"b,1\n' + b"c,1\n" * 100 + b'",k', (102, 408)),
            (second, b"x,k\n" * 20_000 + b'"' + b"\n" * 100 + b'",k\n' + b"x,k\n" * 50_000, None), (second, b'a"b,k\n' * 30_000, None),
            (["-d;", *second], b'"a;\n' + b"\n" * 100 + b'";k', (102, 107)), ([], b"", None),
        ]
        summary = self.save("one", ["summarise", "-k", "1"], b"x\n")
        self.check("a summary of one key", summary != b"")
        for number, (words, text, size) in enumerate(cases):
            Path(self.room, f"{number}.csv").write_bytes(text)
            Path(self.room, "plain.csv").write_bytes(b"z;1\n" if "-d;" in words else b"z,1\n")
            for command in (["report"], ["summarise"], ["summarise", "--workers", "3"], ["table"], ["condense", "one"]):
                name = f"{number}.csv"
                said = (note % (name, *size)).replace(" 1 lines", " 1 line").encode() if size else b""
                for files, given in (([name], b""), ([name, "plain.csv"], b""), (["plain.csv", name], b""), (["-"], text), ([], text)):
                    shown = said if files and files != ["-"] else said.replace(name.encode(), b"standard input")
                    status, _, err = self.heavy([command[0], *words, *command[1:], *files], given)
                    where = f"the last record of case {number}, {command} {files}"
                    self.check(where, (status, err) == (0, shown), (status, err[:300], shown))
        Path(self.room, "two.csv").write_bytes(rows)
        found = self.heavy(["report", "two.csv", "0.csv"])
        self.check("the first of two", found[2] == (note % ("two.csv", 101, 405)).encode(), found[2])
        found = self.heavy(["report", "two.csv", "none.csv"])
        self.check("none beside a fault", found[2].startswith(b"heavy: file 2: could not be read\n") and b"note" not in found[2], found)
        terminal = on_terminal([self.program, "report", "two.csv"], b"", self.room)
        both = b"heavy: note: a quote is open at the end of two.csv\n" + (note % ("two.csv", 101, 405)).encode()
        self.check("on a terminal too", terminal == (0, both), terminal)

    def test_last_records_of_random_texts(self) -> None:
        """Of texts of random records the last one is reported by its own bytes and lines, or isn't; by workers, and by one thread.
        A long one isn't where it has more than the last 65,536 bytes of a longer text, and needn't be where these leave open
        how it began."""
        seed = int.from_bytes(os.urandom(4))
        print(f"last records of seed {seed}", flush=True)
        draws, reported = random.Random(seed), 0

        def drawn(count: int) -> bytes:
            inside = b"".join(draws.choices([b"y", b"\n", b"\r\n", b"\r", b'""', b",k\n", b"z" * 40], (3, 3, 2, 1, 1, 2, 3), k=count))
            return b'"' + inside.removeprefix(b'""') + b'",k'

        for number in range(40):
            kinds = [b"x,k", b'a"b,k', b'"a ""b"" c","k"', b'"d",k', drawn(5), b'e"",k']
            rows = draws.choices(kinds, (5, 1, 3, 2, 1, 1), k=draws.choice([0, 1, 40, 4_000, 30_000]))
            rows += [drawn(draws.choice([100, 130, 2_000, 20_000])) for _ in range(draws.randrange(2))]
            rows += draws.choices(kinds, k=draws.choice([0, 0, 0, 1, 3_000])) + [drawn(draws.choice([1, 150, 300, 600, 2_000, 9_000]))] * draws.randrange(2)
            end = draws.choice([b"", b"\n", b"\r\n\n"])
            text = draws.choice([b"", b"\xef\xbb\xbf"]) + b"\n".join(rows) + end
            last = rows[-1] if rows else b""
            lines = 1 + len(re.findall(rb"\r\n|\r|\n", last))
            note = ""
            if last[:1] == b'"' and lines > 100 and len(last + end) <= 65_536:
                note = f"begins with a quote and has {lines} line{'s' * (lines > 1)}, {len(last)} bytes: "
                note += "a quote that isn't closed takes all that follows\n"
            path = Path(self.room, "drawn")
            path.write_bytes(text)
            for words, given, name in [
                (["table", "--width", "1", "--key", "2", "--workers", "3", "drawn"], b"", "drawn"), (["report", "--key", "2", "drawn"], b"", "drawn"),
                (["summarise", "--key", "2"], text, "standard input"),
            ]:
                status, _, err = self.heavy(words, given)
                wanted = f"heavy: note: the last record of {name} {note}".encode() if note else b""
                is_right = err == wanted or (err == b"" and len(text) > 65_536)
                self.check(f"the last record of text {number} of seed {seed}, {words[0]}", status == 0 and is_right, (status, err, wanted))
                reported += err != b""
        self.check("some last records are reported", 0 < reported < 120, reported)

    def test_more_about_words(self) -> None:
        """A k where the summary has one of its own, and help of `help`."""
        own = b"  the summary has a k of its own, which `heavy describe` tells\n"
        for command, words, said in [
            ("confirm", ["--k", "10"], True), ("confirm", ["--k=10", "day"], True), ("condense", ["day", "--k", "10"], True),
            ("condense", ["--header", "--k"], True), ("confirm", ["--key", "1", "--no"], False),
            ("condense", ["--kk", "1"], False), ("confirm", ["--no", "--", "--k"], False), ("confirm", ["--k1"], False),
            ("merge", ["--k", "1", "day"], False),
            ("ask", ["--k", "1", "day", "a"], False), ("table", ["--k", "2"], False), ("confirm", [], False),
            ("condense", ["--top"], False), ("report", ["--k"], False), ("nothing", ["--k", "1"], False),
            ("confirm", ["-k", "10"], True), ("condense", ["day", "-k10"], True), ("confirm", ["-w"], False), ("merge", ["-k1", "day"], False),
        ]:
            plain = self.heavy([command, *words])
            name = f"{command} {' '.join(words)}"
            clap = (plain[0], plain[1], plain[2][:6], own in plain[2]) == (2, b"", b"error:", False)
            self.check(f"{name}: as clap says", clap, plain)
            both = plain[2] + (own if said else b"")
            if command != "nothing" and "--" not in words:
                found = self.heavy([command, "--explain", *words])
                self.check(f"{name}: --explain", (found[0], found[2].endswith(own)) == (2, said), found)
            terminal = on_terminal([self.program, command, *words], RECORDS, self.room)
            self.check(f"{name}: on a terminal", terminal == (2, both), (terminal, both))
        for words, same in [
            (["help", "--help"], ["--help"]), (["help", "-h"], ["-h"]), (["help", "report", "--help"], ["report", "--help"]),
            (["help", "confirm", "-h"], ["confirm", "-h"]),
        ]:
            found, help_of = self.heavy(words), self.heavy(same)
            self.check(f"{words}", found == help_of and found[0] == 0 and b"Usage: heavy" in found[1], (found, help_of))
        for words in (["help", "nothing", "--help"], ["help", "nothing"], ["help", "--help", "report"]):
            found = self.heavy(words)
            self.check(f"{words}: no help", found[0] == 2 and found[1] == b"" and found[2] != b"", found)

    def test_unknown_letters(self) -> None:
        """An unknown letter isn't advised to be a value, but for a key of `ask`."""
        for words, advised in [
            (["report", "-x"], False), (["summarise", "-w", "4"], False), (["table", "-k", "1"], False), (["confirm", "-Hx", "day"], False),
            (["merge", "-q", "day"], False), (["list", "-a", "day"], False), (["ask", "day", "-a"], True), (["ask", "-n", "day"], True),
        ]:
            status, out, err = self.heavy(words)
            letter = next(word for word in words if word[:1] == "-")[-1]
            said = f"error: unexpected argument '-{letter}' found\n\n"
            lines = b"  tip: to pass '-%s' as a value, use '-- -%s'\n\nUsage: " % (letter.encode(), letter.encode()) if advised else b"Usage: "
            self.check(f"{words}", (status, out, err.startswith(said.encode() + lines)) == (2, b"", True), err)

    def test_control_characters(self) -> None:
        """Words that `clap` refuses are told so that a terminal finds no command in them."""
        for words, shown in [
            (["report", "--\x1b[31m"], "--\\u{1b}[31m"), (["\x1b[2J"], "\\u{1b}[2J"), (["report", "--k", "1\x07"], "1\\u{7}"),
            (["report", "--method\r"], "--method\\r"), (["report", "--ä"], "--ä"),
        ]:
            status, out, err = self.heavy(words)
            escaped = not any(byte < 32 and byte != 10 for byte in err) and shown.encode() in err
            self.check(f"{words}: shown", (status, out, escaped) == (2, b"", True), err)

    def test_more_about_unread_files(self) -> None:
        """The name of a file that can't be read and the system's reason; a name has no command for a terminal."""
        Path(self.room, "folder").mkdir()
        for name, said in [
            ("missing", "missing: No such file or directory"), ("folder", "folder: Is a directory"),
            ("a\x1b[31mb", "a\\u{1b}[31mb: No such file or directory"), ("ä it's", "ä it's: No such file or directory"),
            ("missing/day", "missing/day: No such file or directory"), (b"\xff", "\\xff: its name isn't UTF-8"),
        ]:
            for words in (["list", name], ["describe", name], ["ask", name, "a"], ["condense", name], ["confirm", name]):
                self.tells(words, said, 1)
        self.save("day", ["summarise"])
        self.tells(["merge", "day", "day", "missing"], "missing: No such file or directory", 1)
        for words in (["report"], ["summarise"], ["table"], ["condense", "day"], ["confirm", "day"]):
            self.names([*words, "folder"], "folder: Is a directory", 1)
            self.names([*words, "day", "missing"], "missing: No such file or directory", 1)
            self.names([*words, b"\xff"], "\\xff: its name isn't UTF-8", 1)
        self.tells(["list", "--decimals", "2", "missing"], "missing: No such file or directory", 1)
        ended = programs.run(["sh", "-c", '"$@" < /', "", self.program, "report", "-"], cwd=self.room)
        said = b"heavy: file 1: could not be read\n  standard input: Is a directory\n"
        self.check("standard input that is a folder", (ended.status, ended.out, ended.err) == (1, b"", said), ended)

    def test_reasons_that_are_gone(self) -> None:
        """What was in the way of a file when it was tried is told, though it is gone by then; and a pipe that is refused isn't
        opened again."""
        names = [f"{number}.csv" for number in range(1, 20)]
        for name in names:
            Path(self.room, name).write_bytes(RECORDS)
        self.save("day", ["summarise"])
        few = partial(resource.setrlimit, resource.RLIMIT_NOFILE, (12, 12))
        for words in (["report"], ["table"], ["summarise"], ["confirm", "day"]):
            ended = programs.run([self.program, *words[:1], "--explain", *words[1:], *names], cwd=self.room, preexec_fn=few)
            said = rb"heavy: file (\d+): could not be read\n  (\d+)\.csv: Too many open files\n"
            told = re.fullmatch(said, ended.err)
            number = len(words) - 1
            same = told is not None and int(told[1]) == int(told[2]) + number
            self.check(f"{words[0]} with too many open files", (ended.status, ended.out, same) == (1, b"", True), ended)
        pipe = f"{self.room}/pipe"
        os.mkfifo(pipe)
        for command in (["list"], ["describe"], ["merge", "day"]):
            feeder = subprocess.Popen(["cp", f"{self.room}/1.csv", pipe], stderr=subprocess.DEVNULL)
            found = self.heavy([*command[:1], "--explain", *command[1:], pipe])
            feeder.wait()
            self.check(f"{command[0]} of a pipe", found == (3, b"", b"heavy: file %d: bad magic\n" % len(command)), found)
            feeder = subprocess.Popen(["cp", f"{self.room}/1.csv", pipe], stderr=subprocess.DEVNULL)
            terminal = on_terminal([self.program, *command, pipe], b"", self.room)
            feeder.wait()
            self.check(f"{command[0]} of a pipe, on a terminal", terminal == found[::2], (terminal, found))
        for words, number in [
            (["describe", "/dev/zero"], 1), (["list", "/dev/zero"], 1), (["ask", "/dev/zero", "a"], 1), (["merge", "day", "/dev/zero"], 2),
            (["merge", "/dev/zero", "day"], 1), (["condense", "/dev/zero"], 1), (["confirm", "/dev/zero", "1.csv"], 1),
        ]:
            self.tells(words, "", 3)
            self.refuses(words, f"file {number}: bad magic", 3)

    def test_forms_of_keys(self) -> None:
        """Keys of all kinds in each form, by hand; and what Python's readers of CSV and JSON read of them."""
        every = ["report", "--k", "65535"]
        self.expect(every, (0, FORMS_RECORDS, b""), FORMS_RECORDS)
        self.expect([*every, "--output", "csv"], (0, FORMS_RECORDS, b""), FORMS_RECORDS)
        tabs = b"".join(b"%s\t%d\n" % (key, weight) for _, key, _, weight in FORMS)
        self.expect([*every, "--output=tsv"], (0, tabs, b""), FORMS_RECORDS)
        objects = b"".join(b'{"key":%s,"weight":%d}\n' % (key, weight) for _, _, key, weight in FORMS)
        self.expect([*every, "--output", "json"], (0, objects, b""), FORMS_RECORDS)
        self.expect([*every, "--names"], (0, b"key,weight\n" + FORMS_RECORDS, b""), FORMS_RECORDS)
        self.expect([*every, "--names", "--output", "tsv"], (0, b"key\tweight\n" + tabs, b""), FORMS_RECORDS)
        self.expect([*every, "--names", "--output", "json"], (0, objects, b""), FORMS_RECORDS)

        def by_csv(words: list[str], delimiter: str) -> list[tuple[bytes, int]]:
            text = os.fsdecode(self.heavy([*every, *words], FORMS_RECORDS)[1])
            rows = csv.reader(io.StringIO(text, newline=""), delimiter=delimiter)
            return [(os.fsencode(key), int(weight)) for key, weight in rows]

        lines = self.heavy([*every, "--output", "json"], FORMS_RECORDS)[1].decode().split("\n")
        read = [(os.fsencode(it["key"]), it["weight"]) for it in map(json.loads, lines[:-1])]
        self.check("each form has the same rows", by_csv([], ",") == by_csv(["--output", "tsv"], "\t") == read, read)

    def test_forms_of_reports(self) -> None:
        """Reports in each form: with shares, of decimals, the first rows, none, by a plan and of files."""
        json_form = ["--output", "json"]
        shared = b'{"key":"a","weight":6,"share":54.5454}\n{"key":"b","weight":3,"share":27.2727}\n'
        self.expect(["report", "--k", "4", "--share", *json_form], (0, shared, b""))
        tabs = b"key\tweight\tshare\na\t6\t54.5454\nb\t3\t27.2727\n"
        self.expect(["report", "--k", "4", "--share", "--names", "--output", "tsv"], (0, tabs, b""))
        self.expect(["report", "--k", "4", "--share", "--names", "-n1"], (0, b"key,weight,share\na,6,54.5454\n", b""))
        self.expect(["report", "--names", "--top", "0"], (0, b"key,weight\n", b""))
        self.expect(["report", "--names", "--share"], (0, b"key,weight,share\n", b""), b"")
        self.expect(["report", "--names", "--output", "tsv"], (0, b"key\tweight\n", b""), b"")
        self.expect(["report", *json_form], (0, b"", b""), b"")
        decimals = b'{"key":"a","weight":92233720368547758.07}\n'
        self.expect(["report", "--decimals", "2", *json_form], (0, decimals, b""), b"a,92233720368547758.07\n")
        most = b'{"key":"a","weight":9223372036854775807}\n'
        self.expect(["report", *json_form], (0, most, b""), b"a,9223372036854775807\n")
        self.expect(["report", "--k", "2", "--tree", "chain", *json_form], (0, b'{"key":"a","weight":6}\n', b""))
        Path(self.room, "day.csv").write_bytes(RECORDS)
        twice = b'{"key":"a","weight":12}\n'
        self.expect(["report", "--k", "2", *json_form, "day.csv", "day.csv"], (0, twice, b""))
        self.expect(["report", "--k", "2", *json_form], (3, b"", b"heavy: record 2: zero weight\n"), b"a,5\nb,0\n")
        self.refuses(["report", "--k", "0", *json_form], "k must be 1 to 65535")
        with open("/dev/full", "wb") as full:
            for words in (json_form, ["--names"], ["--output", "tsv"]):
                ended = programs.run([self.program, "report", *words], RECORDS, stdout=full)
                told = (ended.status, ended.err)
                self.check(f"report {words} on a full device", told == (1, b"heavy: output could not be written\n"), told)

    def test_forms_of_saved(self) -> None:
        """The rows of the other commands in each form."""
        self.save("day", ["summarise", "--k", "2"])
        self.save("forms", ["summarise", "--k", "65535"], FORMS_RECORDS)
        self.save("table", ["table", "--width", "2", "--depth", "1"])
        self.save("mark", ["summarise", "--k", "2"], b"\xef\xbb\xbf\xef\xbb\xbfa,2\n")
        forms = (["--names"], ["--names", "--output", "tsv"], ["--output", "json"])
        for words, given, rows in [
            (["ask", "day", "a", "z,"], RECORDS, [b'key,low,high\na,4,6\n"z,",0,2\n', b"key\tlow\thigh\na\t4\t6\nz,\t0\t2\n",
                b'{"key":"a","low":4,"high":6}\n{"key":"z,","low":0,"high":2}\n']),
            (["ask", "--decimals", "1", "day", "a"], RECORDS, [b"key,low,high\na,0.4,0.6\n", b"key\tlow\thigh\na\t0.4\t0.6\n",
                b'{"key":"a","low":0.4,"high":0.6}\n']),
            (["list", "day"], RECORDS, [b"key,low,high\na,4,6\nb,1,3\n", b"key\tlow\thigh\na\t4\t6\nb\t1\t3\n",
                b'{"key":"a","low":4,"high":6}\n{"key":"b","low":1,"high":3}\n']),
            (["list", "--decimals", "3", "mark"], RECORDS, [b"key,low,high\n\xef\xbb\xbfa,0.002,0.002\n",
                b"key\tlow\thigh\n\xef\xbb\xbfa\t0.002\t0.002\n", b'{"key":"\xef\xbb\xbfa","low":0.002,"high":0.002}\n']),
            (["condense", "day"], RECORDS, [b"key,weight\na,6\nb,3\nothers,2\n", b"key\tweight\na\t6\nb\t3\nothers\t2\n",
                b'{"key":"a","weight":6}\n{"key":"b","weight":3}\n{"key":"others","weight":2}\n']),
            (["condense", "--decimals", "1", "mark"], b"\xef\xbb\xbf\xef\xbb\xbfa,.2\n", [b'key,weight\n"\xef\xbb\xbfa",0.2\n',
                b"key\tweight\n\xef\xbb\xbfa\t0.2\n", b'{"key":"\xef\xbb\xbfa","weight":0.2}\n']),
            (["confirm", "day"], RECORDS, [b"key,weight\na,6\n", b"key\tweight\na\t6\n", b'{"key":"a","weight":6}\n']),
            (["confirm", "--share", "-n1", "day"], RECORDS, [b"key,weight,share\na,6,54.5454\n", b"key\tweight\tshare\na\t6\t54.5454\n",
                b'{"key":"a","weight":6,"share":54.5454}\n']),
            (["describe", "table"], RECORDS, [b"name,value\nversion,2\nkind,table\ndepth,1\nwidth,2\ntotal,11\n",
                b"name\tvalue\nversion\t2\nkind\ttable\ndepth\t1\nwidth\t2\ntotal\t11\n",
                b'{"name":"version","value":2}\n{"name":"kind","value":"table"}\n{"name":"depth","value":1}\n'
                b'{"name":"width","value":2}\n{"name":"total","value":11}\n']),
        ]:
            for form, expected in zip(forms, rows):
                self.expect([words[0], *form, *words[1:]], (0, expected, b""), given)
            plain = rows[0].split(b"\n", 1)[1]
            self.expect(words, (0, plain, b""), given)
            self.expect([words[0], "--output=csv", *words[1:]], (0, plain, b""), given)
        found = self.heavy(["list", "--output", "json", "forms"])[1].decode().split("\n")[:-1]
        keys = [os.fsencode(json.loads(line)["key"]) for line in found]
        wanted = [key for (key,) in csv.reader(io.StringIO("".join(os.fsdecode(it[0]) + "\n" for it in FORMS), newline=""))]
        self.check("list has the keys of all kinds", keys == [os.fsencode(key) for key in wanted], keys)
        for command in ("summarise", "table"):
            for word in ("--output", "--names"):
                err = self.heavy([command, word])[2]
                self.check(f"{command} {word}", err.startswith(f"error: unexpected argument '{word}' found".encode()), err)

    def test_kinds(self) -> None:
        """What clap says of each kind of fault."""
        other, missing = "unexpected argument '%s' found", "the following required arguments were not provided:"
        for words, text in [
            ([], "'heavy' requires a subcommand but one was not provided"), (["no"], "unrecognized subcommand 'no'"),
            (["--k", "2"], other % "--k"), (["report", "--no"], other % "--no"),
            (["describe", "one", "two"], other % "two"), (["list", "one", "two"], other % "two"),
            (["report", "--method", "mg"], other % "--method"), (["summarise", "--width", "2"], other % "--width"),
            (["table", "--k", "2"], other % "--k"), (["merge", "--header", "one"], other % "--header"),
            (["ask", "--key", "1", "one", "a"], other % "--key"), (["merge", "--progress", "one"], other % "--progress"),
            (["ask", "--progress", "one", "a"], other % "--progress"),
            (["report", "--k"], "a value is required for '--k <N>' but none was supplied"),
            *((words, "a value is required for '--bad-as <KEY>' but none was supplied") for words in [
                ["report", "--bad-as", ""], ["top", "--bad-as=", "1"], ["confirm", "--bad-as", "", "day"]]),
            (["report", "--k", "x"], "invalid value 'x' for '--k <N>'"),
            (["report", "--k", str(2**64)], f"invalid value '{2**64}' for '--k <N>'"),
            (["report", "--top", "x"], "invalid value 'x' for '--top <N>'"), (["table", "--share"], other % "--share"),
            *((words, "invalid value 'xml' for '--output <FORM>'\n  [possible values: csv, tsv, json]\n") for words in [
                ["report", "--output", "xml"], ["confirm", "--output=xml", "day"], ["condense", "--output=xml", "day"],
                ["ask", "--output=xml", "day", "a"], ["list", "--output=xml", "day"], ["describe", "--output=xml", "day"]]),
            (["list", "--output", "CSV", "day"], "invalid value 'CSV' for '--output <FORM>'"),
            (["report", "--output"], "a value is required for '--output <FORM>' but none was supplied"),
            (["merge", "--output", "csv", "day"], other % "--output"), (["merge", "--names", "day"], other % "--names"),
            (["report", "--share", "--share"], "the argument '--share' cannot be used multiple times"),
            (["report", "--k", "1", "--k", "2"], "the argument '--k <N>' cannot be used multiple times"),
            (["merge"], missing), (["ask", "file"], missing), (["condense"], missing), (["confirm"], missing),
        ]:
            status, out, err = self.heavy(words)
            said = err.startswith(f"error: {text}".encode())
            self.check(f"clap on {words}", (status, out, said) == (2, b"", True), (status, out, err))
        for words in (["help"], ["table", "--help"]):
            status, out, err = self.heavy(words)
            self.check(f"{words}", (status, err) == (0, b"") and b"Usage: heavy" in out, (status, out, err))

    def test_usage(self) -> None:
        """Faults of the command line are clap's, with status 2; help has status 0."""
        wrong = [
            [], ["nothing"], ["report", "--nothing"], ["report", "--k", "x"], ["report", "--k", "-1"], ["report", "--k"],
            ["report", "--k", "18446744073709551616"], ["merge"], ["ask", "0.heavy"], ["confirm"], ["condense"],
            ["report", "--key"], ["report", "--delimiter"], ["list", "0.heavy", "1.heavy"], ["ask", "0.heavy", "-a"],
            [b"\xff"], ["report", "--k", b"\xff"],
        ]
        for words in wrong:
            status, out, err = self.heavy(words)
            self.check(f"usage: {words}", (status, out) == (2, b"") and err != b"", (status, out, err))
        for words in ([], *([name] for name in COMMANDS)):
            status, out, err = self.heavy([*words, "--help"])
            self.check(f"help: {words}", (status, err) == (0, b"") and b"Usage: heavy" in out, (status, err))

    def test_help(self) -> None:
        """What help tells: statuses and an example everywhere, ranges and defaults as they are, and the version."""
        for words in ([], *([name] for name in COMMANDS)):
            out = self.heavy([*words, "--help"])[1]
            tells = all(text in out for text in (b"Exit status: 0 ", b"\nExample:\n    $ "))
            tells = tells and all(b"%d " % status in out.split(b"Exit status:")[1] for status in range(5))
            self.check(f"{words} --help tells statuses and an example", tells, out)
            self.check(f"{words} -h is shorter", len(self.heavy([*words, "-h"])[1]) < len(out))
        for words in (["--version"], ["-V"]):
            status, out, err = self.heavy(words)
            said = (status, err) == (0, b"") and re.fullmatch(rb"heavy \d+\.\d+\.\d+\n", out)
            self.check(f"{words}", said, (status, out, err))
        for command, count in (("report", 6), ("summarise", 2), ("table", 4)):
            ranges = RANGE.findall(self.heavy([command, "--help"])[1])
            self.check(f"{command} --help has ranges", len(ranges) == count, ranges)
            plain = self.heavy([command])
            for option, *numbers in ranges:
                least, most, default = map(int, numbers)
                taken = [self.heavy([command, option, str(number)])[0] for number in (least, most)]
                refused = [self.heavy([command, option, str(number)])[0] for number in (least - 1, most + 1)]
                self.check(f"{command} {option} is taken in its range", taken == [0, 0], taken)
                self.check(f"{command} {option} is refused beyond it", refused == [2, 2], refused)
                same = self.heavy([command, option, str(default)]) == plain
                self.check(f"{command} {option} has the default that help tells", same and plain[0] == 0, plain)


if __name__ == "__main__":
    programs.run_tests("command line")
