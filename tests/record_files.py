#!/usr/bin/env python3
"""Reads files of records in columns of one's own: by rows whose answers were found by hand, and by random files and
options, whose answers a second reader finds over Python's csv.

usage: tests/record_files.py [CASES [SEED [FIRST]]]

Reads the records of tests/corpus first. Prints the seed, and for a case that differs the command that repeats it.
"""
import csv
import io
import os
import re
from dataclasses import dataclass, field
from fractions import Fraction
from pathlib import Path
from random import Random

import corpus
import hostile
import hostile_records
import json_reader
import programs
import reference

BAD_DELIMITER = "delimiter must be one byte or \\t, and no quote, CR or LF"
BAD_COLUMN = "columns must be numbers from 1 on or, with --header, names"
NO_COLUMN = "the header has no such column"
MARK = b"\xef\xbb\xbf"
LARGEST = b"9223372036854775807"

# ---- the second reader


@dataclass
class Layout:
    """The words that say where keys and weights stand."""

    delimiter: bytes | None = None
    has_header: bool = False
    key: list[bytes] = field(default_factory=list)
    weight: bytes | None = None
    allow_zero: bool = False
    decimals: int = 0
    form: bytes = b""
    until: bytes = b""
    prefix: int | None = None
    bad_as: bytes | None = None


@dataclass
class Records:
    """Texts of records by the place of each among the files; None is a file that is missing."""

    layout: Layout
    texts: dict[int, bytes | None]


def delimiter_of(word: bytes | None, form: bytes = b"") -> str:
    if word is None:
        return " " if form == b"--squeeze" else ","
    if word == b"\\t":
        return "\t"
    if word == b'"' and form:
        return '"'
    if len(word) != 1 or word in b'"\r\n':
        raise reference.Refused(BAD_DELIMITER, 2)
    return word.decode("latin-1")


def column_of(word: bytes, has_header: bool) -> int | str:
    """The place of a column from 0 on, or its name. Digits alone are a number, however many there are."""
    if re.fullmatch(rb"[0-9]+", word):
        if int(word) > 0:
            return int(word) - 1
    elif has_header:
        return word.decode("latin-1")
    raise reference.Refused(BAD_COLUMN, 2)


def fields_of(text: bytes, delimiter: str) -> list[list[str]]:
    """The records of a text by Python's csv, each byte as a character. Of what it reads in another way than ours it has to
    be told: it has lines from a StringIO that leaves CR, LF and CRLF as they are and ends a line at each; an empty line is
    an empty list; and a byte order mark is taken off here. Older ones refuse NUL, which no case has."""
    lines = io.StringIO(text.removeprefix(MARK).decode("latin-1"), newline="")
    return [record for record in csv.reader(lines, delimiter=delimiter) if record]


def records_of(text: bytes, layout: Layout) -> list[list[str]]:
    """The records of a text by a layout's form."""
    delimiter = delimiter_of(layout.delimiter, layout.form)
    if not layout.form:
        return fields_of(text, delimiter)
    lines = [line for line in re.split("[\r\n]", text.removeprefix(MARK).decode("latin-1")) if line]
    if layout.form == b"--lines":
        return [[line] for line in lines]
    rows = [line.split(delimiter) for line in lines]
    return [[one for one in row if one] for row in rows] if layout.form == b"--squeeze" else rows


def place_of(column: int | str, header: list[str]) -> int:
    if isinstance(column, int):
        return column
    if column not in header:
        raise reference.Refused(NO_COLUMN)
    return header.index(column)


def key_text(fields: list[str]) -> str:
    """The key that some fields are. A line's end of CR and LF puts fields with either in quotes."""
    if len(fields) == 1:
        return fields[0]
    line = io.StringIO(newline="")
    csv.writer(line, lineterminator="\r\n").writerow(fields)
    return line.getvalue().removesuffix("\r\n")


def part_of(field: str, layout: Layout) -> str:
    """The part of a key's last field that counts."""
    ends = [place for place, byte in enumerate(field) if byte in layout.until.decode("latin-1")]
    return field[: min([len(field), *ends])][: layout.prefix]


def parts_of(record: list[str], key: list[int], weight: int | None, layout: Layout) -> tuple[str, str] | None:
    """A record's key and weight, or None where it lacks a field. Without places it is a key or a key and a weight."""
    if not key:
        return (part_of(record[0], layout), (record + ["1"])[1]) if len(record) in (1, 2) else None
    if max([*key, weight or 0]) >= len(record):
        return None
    fields = [record[place] for place in key]
    fields[-1] = part_of(fields[-1], layout)
    return key_text(fields), "1" if weight is None else record[weight]


def members_in(text: bytes, layout: Layout) -> list[tuple[str, str] | None]:
    """The records of a text of objects, a line each. A header is a line that is passed over."""
    lines = [line for line in re.split(rb"[\r\n]", text.removeprefix(MARK)) if line]
    rows = [json_reader.fields(layout.key, layout.weight, line) for line in lines[layout.has_header :]]
    key, weight = list(range(len(layout.key))), None if layout.weight is None else len(layout.key)
    return [parts_of([one.decode("latin-1") for one in row], key, weight, layout) for row in rows]


def parts_in(text: bytes, layout: Layout) -> list[tuple[str, str] | None]:
    """The records of a text by its own header."""
    if layout.form == b"--json":
        return members_in(text, layout)
    rows = records_of(text, layout)
    header = []
    if layout.has_header:
        if not rows:
            return []
        header, *rows = rows
    key = [place_of(column_of(word, layout.has_header), header) for word in layout.key]
    if layout.weight is None:
        return [parts_of(row, key, None, layout) for row in rows]
    weight = place_of(column_of(layout.weight, layout.has_header), header)
    return [parts_of(row, key or [0], weight, layout) for row in rows]


def weight_in(written: str, layout: Layout) -> int | None:
    """The weight that a field writes, if it writes one, in units of the last decimal: a fraction, times a power of ten."""
    if layout.allow_zero and written == "-":
        return 0
    pointed = rf"|[0-9]{{0,20}}\.[0-9]{{1,{layout.decimals}}}" if layout.decimals else ""
    return int(Fraction(written) * 10**layout.decimals) if re.fullmatch(f"[0-9]{{1,20}}{pointed}", written) else None


def check_key(word: bytes | None) -> None:
    """What bad records count as is a key."""
    if word is not None and not 1 <= len(word) <= 4096:
        raise reference.Refused("key 1: too long" if word else "key 1: empty")


def read(records: Records) -> tuple[list[reference.Item], int]:
    """The stream of some texts and the number of bad records that count as a key, or the first refusal: of the words, of a
    missing file, of a header, of a record."""
    layout = records.layout
    delimiter_of(layout.delimiter, layout.form)
    if layout.form == b"--json" and not layout.key:
        raise reference.Refused(BAD_COLUMN, 2)
    for word in [*layout.key, *([] if layout.weight is None else [layout.weight])] if layout.form != b"--json" else []:
        column_of(word, layout.has_header)
    check_key(layout.bad_as)
    for place, text in records.texts.items():
        if text is None:
            raise reference.Refused(f"file {place}: could not be read", 1)
    rows = [parts for text in records.texts.values() for parts in parts_in(text, layout)]
    items: list[reference.Item] = []
    total = bad = 0
    for number, parts in enumerate(rows, 1):
        cause = None
        key, written = parts or ("", "")
        weight = weight_in(written, layout)
        if parts is None:
            cause = "wrong number of fields"
        elif not 1 <= len(key) <= 4096:
            cause = "key too long" if key else "empty key"
        elif weight is None:
            cause = "bad weight"
        elif weight == 0:
            cause = None if layout.allow_zero else "zero weight"
        elif total + weight > 2**63 - 1:
            cause = "total too large"
        if cause and cause != "total too large" and layout.bad_as is not None:
            key, weight, bad = layout.bad_as.decode("latin-1"), 10**layout.decimals, bad + 1
            cause = "total too large" if total + weight > 2**63 - 1 else None
        if cause:
            raise reference.Refused(f"record {number}: {cause}")
        if weight:
            items.append((key.encode("latin-1"), weight))
            total += weight
    return items, bad


def items_of(records: Records) -> list[reference.Item]:
    """The stream of some texts, or the first refusal."""
    return read(records)[0]


def bad_line(bad: int, key: bytes | None) -> bytes:
    """What standard error says of the bad records at the end."""
    said = b"%d record%s could not be read and count%s as " % (bad, b"" if bad == 1 else b"s", b"s" if bad == 1 else b"")
    return b"heavy: " + said + reference.shown(key or b"") + b"\n" if bad else b""


def with_bad(expected: tuple[int, bytes, bytes], records: Records) -> tuple[int, bytes, bytes]:
    """What a command says that is expected to answer so, with the line on the bad records."""
    status, out, err = expected
    return (0, out, bad_line(read(records)[1], records.layout.bad_as) + err) if status == 0 else expected


# ---- random cases

DELIMITERS = [b",", b";", b"\\t", b"\t", b" ", b"|", b":", b"-", b"\\", b"'", b"0", b"a", b"\xff", b"\x80"]
BAD_DELIMITERS = [b"", b'"', b"\r", b"\n", b",,", b"\\n", b"\\tt", "é".encode(), b"\\t\\t"]
NAMES = [b"a", b"b", b"key", b"bytes", b"x y", b"2", b"0", b"\xe9", b'n"q', b"-", b"", b"12345678901", b"a;b", b"l\nf"]
OTHER_COLUMNS = [b"0", b"00", b"x", b"", b"99999999999", b"9999999999", b"+1", b"1.0", b" 1", b"-1", b"\xff", b"A"]
KEYS = [b"a", b"b", b"c", b"d"]
OTHER_KEYS = [
    b"a,b", b'"', b'q"q', b'"a"', b"l\nf", b"c\rr", b"e\r\nf", b" a", b"a ", b"", b"", b"-", b"\xff", b"\xc3\xa9",
    MARK + b"a", b"a;b", b"a\tb", b"\\t", b"'", b"k" * 2047, b"k" * 2048, b"k" * 4096, b"k" * 4097, b"\x85",
    b"\x0b\x0c\x1c\x1e",
]
WEIGHTS = [b"1", b"2", b"3", b"7"]
ZEROS = [b"0", b"-", b"00", b"-", b"0" * 20]
OTHER_WEIGHTS = [
    b"007", b"+1", b"-1", b"--", b"1.0", b" 1", b"1 ", b"", b"x", b"\xb2", b"9" * 20, b"9" * 21, b"0" * 19 + b"1",
    b"0" * 20 + b"1", b"0" * 21, LARGEST, b"9223372036854775806", b"4611686018427387904",
]
DECIMALS = [
    b"0.1", b"0.125", b".5", b"2.0", b"1.000000001", b"0.000000001", b"00.10", b"3.75", b"0.0", b"0.000000000", b".0",
    b"5.", b".", b"..5", b"1.5.5", b"1,5", b"-0.5", b"+0.5", b"1.5 ", b"1.-", b"-.", b"1e3", b"0.1234567890", b"x.5", b"1.x",
    b"9" * 20 + b".9", b"9" * 21 + b".9", b"0" * 20 + b".1", b"0" * 21 + b".1", b"9223372036.854775807", b"9223372036.854775808",
    b"922337203685477580.7", b"922337203685477580.8", b"4611686018.427387904",
]
ENDS = [b"\n", b"\n", b"\r\n", b"\r"]
PIECES = [b",", b'"', b'""', b"\n", b"\r", b"\r\n", b"\xff", MARK, b"0", b"-", b" ", b"\t", b";"]


def spelled(draw: Random, data: bytes, delimiter: bytes) -> bytes:
    """A field as a text may write it: in quotes where it has to, and sometimes where it hasn't."""
    wants = any(byte in b"\r\n" + delimiter for byte in data) or data.startswith(b'"')
    if not wants and draw.random() < 0.85:
        return data
    if data and draw.random() < 0.05:
        # what stands behind the quotes is the field's too
        return b'"' + data.replace(b'"', b'""') + b'"' + draw.choice([b"z", b' "', b"z\"y"]).replace(delimiter, b"")
    return b'"' + data.replace(b'"', b'""') + b'"'


def some_weight(draw: Random, layout: Layout) -> bytes:
    chance = draw.random()
    if chance < (0.2 if layout.allow_zero else 0.01):
        return draw.choice(ZEROS)
    if chance > (0.7 if layout.decimals else 0.99):
        return draw.choice(DECIMALS[: 9 if draw.random() < 0.97 else None])
    return draw.choice(OTHER_WEIGHTS) if draw.random() > 0.985 else draw.choice(WEIGHTS)


def some_key(draw: Random) -> bytes:
    return draw.choice(KEYS) if draw.random() < 0.85 else draw.choice(OTHER_KEYS)


def some_record(draw: Random, layout: Layout, count: int, weight: int | None) -> list[bytes]:
    """A record of so many columns, one of which may be a weight, or of more and sometimes of fewer."""
    if not layout.key and layout.weight is None:
        count = 3 if draw.random() < 0.01 else draw.choice([1, 2, 2])
        weight = 1
    elif draw.random() < 0.2:
        count += draw.randrange(1, 3)
    elif draw.random() < 0.02:
        count = draw.randrange(1, count + 1)
    return [some_weight(draw, layout) if place == weight else some_key(draw) for place in range(count)]


def some_text(draw: Random, layout: Layout, names: list[bytes]) -> bytes:
    """A text with these columns, in their order or in another."""
    if draw.random() < 0.1:
        return draw.choice([b"", b"", b"\n", b"\r\n\n", MARK])
    try:
        byte = delimiter_of(layout.delimiter, layout.form).encode("latin-1")
    except reference.Refused:
        byte = b","
    rows, columns = [], list(names)
    if layout.has_header:
        if draw.random() < 0.3:
            draw.shuffle(columns)
        rows.append(columns)
    weight = None
    if layout.weight in columns:
        weight = columns.index(layout.weight)
    if re.fullmatch(rb"[0-9]+", layout.weight or b""):
        weight = int(layout.weight) - 1
    rows += [some_record(draw, layout, len(columns), weight) for _ in range(draw.randrange(9))]
    end = draw.choice(ENDS)
    parts = [MARK] if draw.random() < 0.1 else []
    for row in rows:
        padding = byte * draw.choice([1, 1, 2, 3]) if layout.form == b"--squeeze" else byte
        parts += [padding.join(spelled(draw, one, byte) for one in row), end * draw.choice([1] * 9 + [2])]
    if draw.random() < 0.4:
        parts.append(b"")
        parts[-2 if rows else -1] = b""
    data = bytearray(b"".join(parts))
    if draw.random() < 0.15:
        hostile.mutate(draw, data, [*PIECES, byte])
    return bytes(data).replace(b"\0", b"n")


def some_unquoted_text(draw: Random, delimiter: bytes | None) -> bytes:
    """A text of keys and weights with no quote, which is read line by line."""
    try:
        byte = delimiter_of(delimiter).encode("latin-1")
    except reference.Refused:
        byte = b","
    parts = [MARK] if draw.random() < 0.2 else []
    for _ in range(draw.randrange(12)):
        count = draw.choice([1, 2, 2, 2]) if draw.random() < 0.98 else draw.choice([0, 3, 4])
        row = [draw.choice(KEYS) if draw.random() < 0.95 else draw.choice(OTHER_KEYS)]
        row += [draw.choice(WEIGHTS) if draw.random() < 0.97 else draw.choice(OTHER_WEIGHTS) for _ in range(count - 1)]
        parts += [byte.join(row) if count else b"", draw.choice(ENDS) * draw.choice([1] * 6 + [2, 3])]
    if draw.random() < 0.5:
        parts = parts[:-1]
    return b"".join(parts).replace(b'"', b"").replace(b"\0", b"n")


def some_column(draw: Random, has_header: bool, names: list[bytes]) -> bytes:
    if draw.random() < 0.02:
        return draw.choice(OTHER_COLUMNS)
    if has_header and draw.random() < 0.6:
        return draw.choice(names)
    return draw.choice([b"%d", b"%d", b"%d", b"%02d", b"%010d"]) % draw.randrange(1, len(names) + 1)


def some_bad_key(draw: Random) -> bytes | None:
    """What bad records count as, where they do: a new key, or one of the records."""
    if draw.random() < 0.7:
        return None
    return b"k" * 4097 if draw.random() < 0.02 else draw.choice([b"bad", b"a", b"-", b"x y", b"\xff", b"k" * 4096])


def some_layout(draw: Random, names: list[bytes]) -> Layout:
    has_header = draw.random() < 0.5
    layout = Layout(None, has_header, allow_zero=draw.random() < 0.4)
    if draw.random() < 0.4:
        layout.decimals = draw.choice([0, 1, 2, 3, 3, 6, 9, 9])
    if draw.random() < 0.6:
        layout.delimiter = draw.choice(BAD_DELIMITERS if draw.random() < 0.02 else DELIMITERS)
    if draw.random() < 0.4:
        layout.form = draw.choice([b"--no-quotes", b"--squeeze", b"--lines"])
    if draw.random() < 0.2:
        layout.until = draw.choice([b"?", b"b", b"/?#", b'"', b",", b"kq", b"a\xff;"])
    if draw.random() < 0.2:
        layout.prefix = draw.choice([1, 1, 2, 3, 2047, 4096, 2**64 - 1])
    if draw.random() < 0.7:
        columns = [some_column(draw, has_header, names) for _ in range(draw.choice([1, 1, 1, 2, 2, 3]))]
        layout.key = [column for column in columns if b"," not in column]
    if draw.random() < 0.6:
        layout.weight = some_column(draw, has_header, names)
    layout.bad_as = some_bad_key(draw)
    return layout


def json_layout(draw: Random) -> Layout:
    """A layout of objects."""
    key = [draw.choice(json_reader.KEYS) for _ in range(draw.choice([0] + [1] * 9 + [2, 2, 3]))]
    layout = Layout(None, draw.random() < 0.1, key, form=b"--json", allow_zero=draw.random() < 0.2)
    if draw.random() < 0.7:
        layout.weight = draw.choice(json_reader.WEIGHTS)
    if draw.random() < 0.3:
        layout.decimals = draw.choice([1, 3])
    if draw.random() < 0.2:
        layout.until, layout.prefix = draw.choice([b"?", b"k", b'"', b""]), draw.choice([None, 1, 2, 4096])
    layout.bad_as = some_bad_key(draw)
    return layout


def words_of(draw: Random, layout: Layout) -> list[bytes]:
    """The options that say a layout, in some order. A word that begins with a hyphen is joined to its option."""
    groups = []
    if layout.delimiter is not None:
        groups.append([b"--delimiter", layout.delimiter])
    if layout.has_header:
        groups.append([b"--header"])
    if layout.allow_zero:
        groups.append([b"--allow-zero"])
    if layout.form:
        groups.append([layout.form])
    if layout.until:
        groups.append([b"--until", layout.until])
    if layout.prefix is not None:
        groups.append([b"--prefix", b"%d" % layout.prefix])
    if layout.bad_as is not None:
        groups.append([b"--bad-as=-"] if layout.bad_as == b"-" else [b"--bad-as", layout.bad_as])
    if layout.decimals or draw.random() < 0.1:
        groups.append([b"--decimals", b"%d" % layout.decimals])
    keys = [b",".join(layout.key)] if layout.key and draw.random() < 0.7 else layout.key
    named = [(b"--key", word) for word in keys]
    if layout.weight is not None:
        named.append((b"--weight", layout.weight))
    chosen = [[option + b"=" + word] if word.startswith(b"-") else [option, word] for option, word in named]
    if draw.random() < 0.5:
        return [word for group in groups + chosen for word in group]
    return [word for group in chosen + groups for word in group]


def some_files(draw: Random, texts: list[bytes]) -> tuple[list[bytes | str], list[bytes | None], bytes]:
    """The words of files with these texts, one of which may be standard input, what each reads as, and standard input."""
    if not texts:
        return [], [], b"unread\n"
    if len(texts) == 1 and draw.random() < 0.4:
        return [], list(texts), texts[0]
    words: list[bytes | str] = list(texts)
    read: list[bytes | None] = list(texts)
    given = b"un,re,ad\n"
    if draw.random() < 0.3:
        place = draw.randrange(len(texts))
        words[place], given = "-", texts[place]
    if draw.random() < 0.02:
        place = draw.randrange(len(texts))
        words[place], read[place] = "/nonexistent", None
    return words, read, given


def case(draw: Random) -> hostile.Case:
    names = [draw.choice(NAMES) for _ in range(draw.randrange(1, 6))]
    layout = some_layout(draw, names)
    texts = [some_text(draw, layout, names) for _ in range(draw.choice([1, 1, 2, 2, 3, 5]))]
    if draw.random() < 0.3:
        plain = Layout(layout.delimiter, False, allow_zero=layout.allow_zero, decimals=layout.decimals, form=layout.form)
        layout, plain.bad_as = plain, layout.bad_as
        texts = [some_unquoted_text(draw, layout.delimiter) for _ in texts]
    if draw.random() < 0.2:
        layout = json_layout(draw)
        texts = [json_reader.text(draw, ENDS) for _ in texts]
    files, read, given = some_files(draw, texts)
    kind, k = draw.randrange(6), draw.choice([1, 2, 3, 9, 65535])
    records = Records(layout, dict(enumerate(read, 2 if kind in (1, 2) else 1)))
    options, told = words_of(draw, layout), {"reader": items_of}
    workers = ["--workers", draw.choice("123")]
    is_plain = not files and layout == Layout()
    match kind:
        case 0:
            words = ["summarise", "--k", str(k), "--method", draw.choice(["mg", "ss"]), *options]
            expected = reference.answer(reference.summarise, records, k, **told)
            return hostile.Case(words, files, [], given, with_bad(expected, records))
        case 1:
            status, saved, _ = reference.answer(reference.summarise, records, k, **told)
            saved = saved if status == 0 else reference.summarise(b"a", k)
            expected = reference.compared(reference.confirm, saved, records, is_plain, **told, decimals=layout.decimals)
            return hostile.Case(["confirm", *workers, *options], [saved, *files], [], given, with_bad(expected, records))
        case 2:
            saved = reference.summarise(draw.choice([b"a\nb", b"a\n", b'"a,b"\nothers', b""]), k)
            expected = reference.compared(reference.condense, saved, records, is_plain, **told, decimals=layout.decimals)
            return hostile.Case(["condense", *workers, *options], [saved, *files], [], given, with_bad(expected, records))
        case 3:
            words = ("--width", draw.choice("158"), "--depth", draw.choice("13"), "--seed", draw.choice("07"))
            expected = reference.answer(hostile_records.table, records, hostile_records.empty_table(words), **told)
            return hostile.Case(["table", *workers, *words, *options], files, [], given, with_bad(expected, records))
    words = ["report", "--k", str(k), *workers, "--pieces", draw.choice("125"), "--width", "8"]
    expected = reference.answer(reference.report, records, k, **told, decimals=layout.decimals)
    return hostile.Case([*words, *options], files, [], given, with_bad(expected, records))


def layout_of(words: list[str]) -> Layout:
    """The layout that the options of a kept file say."""
    layout, left = Layout(), [word.encode() for word in words]
    while left:
        match left.pop(0):
            case b"--header":
                layout.has_header = True
            case b"--allow-zero":
                layout.allow_zero = True
            case b"--delimiter":
                layout.delimiter = left.pop(0)
            case b"--key":
                layout.key = left.pop(0).split(b",")
            case b"--weight":
                layout.weight = left.pop(0)
            case b"--decimals":
                layout.decimals = int(left.pop(0))
            case b"--no-quotes" | b"--squeeze" | b"--lines" | b"--json" as form:
                layout.form = form
            case b"--until":
                layout.until = left.pop(0)
            case b"--prefix":
                layout.prefix = int(left.pop(0))
            case b"--bad-as":
                layout.bad_as = left.pop(0)
            case word:
                raise ValueError(f"no option of records: {word}")
    return layout


def cases_of(kept: corpus.Kept) -> list[hostile.Case]:
    """A report, a summary and a confirmation of a file that is kept, and a report of it twice."""
    layout, texts, few = layout_of(kept.words), [kept.data], ["--workers", "2"]
    how = {"reader": items_of, "decimals": layout.decimals}
    made = []
    for files in (texts, texts * 2):
        expected = reference.answer(reference.report, Records(layout, dict(enumerate(files, 1))), 9, **how)
        made.append(hostile.Case(["report", "--k", "9", "--width", "8", *few, *kept.words], files, [], b"", expected))
    status, saved, said = reference.answer(reference.summarise, Records(layout, dict(enumerate(texts, 1))), 9, items_of)
    made.append(hostile.Case(["summarise", "--k", "9", *kept.words], texts, [], b"", (status, saved, said)))
    saved = saved if status == 0 else reference.summarise(b"a", 9)
    expected = reference.answer(reference.confirm, saved, Records(layout, dict(enumerate(texts, 2))), **how)
    return [*made, hostile.Case(["confirm", *few, *kept.words], [saved, *texts], [], b"", expected)]


class RandomFiles(hostile.Hostile):
    def test_kept(self) -> None:
        self.try_kept([*corpus.kept_in("columns"), *corpus.kept_in("records")], cases_of)

    def test_cases(self) -> None:
        self.try_cases(case)


# ---- rows by hand

# An access log in the combined format, read with a space between fields. The time has a space and no quotes, so it is
# columns 4 and 5; the request has quotes, so it is column 6 with all its spaces; 7 is the status, 8 the bytes, 9 and 10 the
# referrer and the agent.
LOG = (
    b'10.0.0.1 - - [25/Nov/2026:15:00:00 +0000] "GET / HTTP/1.1" 200 512 "-" "curl/8.5.0"\n'
    b'10.0.0.2 - ann [25/Nov/2026:15:00:01 +0000] "GET /a b  c.html HTTP/1.1" 200 2048 "http://x.example/ y" "M/5 (X; L)"\n'
    b'10.0.0.1 - - [25/Nov/2026:15:00:02 +0000] "GET /same HTTP/1.1" 304 - "-" "curl/8.5.0"\n'
    b'10.0.0.1 - - [25/Nov/2026:15:00:03 +0000] "GET /?q=\\x22 ""x y"" HTTP/1.1" 200 88 "-" "a ""b"" c"\n'
)
# A quote behind a backslash ends the quotes, since csv knows no backslash: the request is columns 6 and 7, and the status
# comes in column 8.
BACKSLASH = b'10.0.0.3 - - [25/Nov/2026:15:00:04 +0000] "GET /\\"q\\" HTTP/1.1" 200 64 "-" "curl/8.5.0"\n'
FLOWS = (
    b"ts,te,td,sa,da,sp,dp,pr,flg,ipkt,ibyt\n"
    b"2026-11-25 14:00:00,2026-11-25 14:00:01,1.000,192.0.2.1,198.51.100.7,4711,443,TCP,...AP.SF,10,1500\n"
    b"2026-11-25 14:00:00,2026-11-25 14:00:02,2.000,192.0.2.2,198.51.100.7,4712,443,TCP,...AP.SF,3,180\n"
    b"2026-11-25 14:00:05,2026-11-25 14:00:05,0.000,192.0.2.1,198.51.100.8,53,53,UDP,........,1,20\n"
)
MORE_FLOWS = b"ibyt,sa,extra\r\n300,192.0.2.2,x\r\n7,192.0.2.9,y"
ALL_FLOWS = b"192.0.2.1,1520\n192.0.2.2,480\n192.0.2.9,7\n"
# the requests of the log by rising bytes, each once
REQUESTS = (
    b'GET / HTTP/1.1,1\n"GET /?q=\\x22 ""x y"" HTTP/1.1",1\nGET /a b  c.html HTTP/1.1,1\nGET /same HTTP/1.1,1\n'
)
PAIRS = b'"192.0.2.1,198.51.100.7",1500\n"192.0.2.2,198.51.100.7",180\n"192.0.2.1,198.51.100.8",20\n'
TURNED = b'"198.51.100.7,192.0.2.1",10\n"198.51.100.7,192.0.2.2",3\n"198.51.100.8,192.0.2.1",1\n'
SUMMARY = b"Summary\nflows,bytes,packets,avg_bps,avg_pps,avg_bpp\n3,1700,14,2720,2,121\n"
SIZES = b'4096\t./a\n12\t./a/x, y\n0\t./empty\n5\t./say "hi"\n8209\t.\n'
SIZED = b'.,8209\n./a,4096\n"./a/x, y",12\n"./say ""hi""",5\n'
TWO_KEYS = b'1,2,3,"a,b",c\n1,2,3,a,"b,c"\n1,2,3,"a,b",c\n'
LOG_WORDS = ["--delimiter", " ", "--key", "1", "--allow-zero", "--weight"]
SIZE_WORDS = ["--delimiter", "\\t", "--weight", "1", "--key", "2"]

PRICES = b"a,0.125\nb,3\na,.5\nc,2.75\n"
BAD_DECIMALS = [
    b"5.", b".", b"..5", b".5.", b"1.2.3", b"-1.5", b"+1.5", b" 1.5", b"1.5 ", b"1e2", b"1.x", b"x.1", b"1.-", b"0x1.8",
    b"1.234", b"0" * 21 + b".5",
]

# Options, texts, and the report of them.
REPORTS = [
    ([*LOG_WORDS, "8"], [LOG], b"10.0.0.2,2048\n10.0.0.1,600\n"),
    (["--delimiter", " ", "--key", "6"], [LOG], REQUESTS),
    ([*LOG_WORDS, "8"], [BACKSLASH], b"10.0.0.3,200\n"),
    ([*LOG_WORDS, "9"], [BACKSLASH], b"10.0.0.3,64\n"),
    (["--header", "--key", "sa", "--weight", "ibyt"], [FLOWS], b"192.0.2.1,1520\n192.0.2.2,180\n"),
    (["--header", "--key", "4", "--weight", "11"], [FLOWS], b"192.0.2.1,1520\n192.0.2.2,180\n"),
    (["--header", "--key", "sa"], [FLOWS], b"192.0.2.1,2\n192.0.2.2,1\n"),
    (["--header", "--key", "sa,da", "--weight", "ibyt"], [FLOWS], PAIRS),
    (["--header", "--key=da", "--key=sa", "--weight", "10"], [FLOWS], TURNED),
    (["--header", "--key", "sa", "--weight", "ibyt"], [FLOWS, MORE_FLOWS], ALL_FLOWS),
    (["--header", "--key", "sa", "--weight", "ibyt"], [MORE_FLOWS, b"", b"\n\r\n", FLOWS], ALL_FLOWS),
    ([*SIZE_WORDS, "--allow-zero"], [SIZES], SIZED),
    (["--delimiter", "\t", *SIZE_WORDS[2:], "--allow-zero"], [SIZES], SIZED),
    (["--key", "4,5"], [TWO_KEYS], b'"""a,b"",c",2\n"a,""b,c""",1\n'),
    (["--key", "4", "--key", "5"], [TWO_KEYS], b'"""a,b"",c",2\n"a,""b,c""",1\n'),
    (["--key", "5,4"], [TWO_KEYS], b'"c,""a,b""",2\n"""b,c"",a",1\n'),
    (["--key", "1,1"], [b"a\n"], b'"a,a",1\n'),
    # none of the fields is quoted alone, and a quote is
    (["--key", "1,2"], [b",,x\n"], b'",",1\n'),
    (["--key", "1,2"], [b'"a""b",c\n"a\nb",\n'], b'"""a\nb"",",1\n"""a""""b"",c",1\n'),
    (["--delimiter", ";", "--key", "1,2"], [b"a,b;c\n"], b'"""a,b"",c",1\n'),
    (["--delimiter", ";", "--key", "1,2"], [b'"a;b";c\n'], b'"a;b,c",1\n'),
    (["--key", "1,2"], [b"k" * 2048 + b"," + b"k" * 2047], b'"' + b"k" * 2048 + b"," + b"k" * 2047 + b'",1\n'),
    # files are texts of their own
    ([], [b"a,1", b"b,2\n"], b"b,2\na,1\n"), ([], [b"a", b"b"], b"a,1\nb,1\n"), ([], [b'"a', b'b"\n'], b'a,1\n"b""",1\n'),
    ([], [b"a\r", b"\nb"], b"a,1\nb,1\n"), ([], [b"b\n", MARK + b"b\n"], b"b,2\n"),
    ([], [b"a,5\n", b"", b"a,2"], b"a,7\n"), ([], [b"", b""], b""),
    (["--header"], [b"", b"k,w\na,5", b"k\na,2\n"], b"a,7\n"), (["--header"], [b"a,5\n"], b""),
    (["--header", "--key", "k"], [MARK + b"k\na"], b"a,1\n"), (["--header", "--key", "k"], [b'\n"k",w\na,b'], b"a,1\n"),
    # which column: of two names the first, digits a number, and a weight alone beside column 1
    (["--header", "--key", "k"], [b"x,k,k\n1,2,3\n"], b"2,1\n"), (["--header", "--key", "1"], [b"2,1\na,b\n"], b"a,1\n"),
    (["--header", "--key", "K"], [b"k,K\na,b\n"], b"b,1\n"),
    (["--header", "--weight", "a,b"], [b'k,"a,b"\nx,5\n'], b"x,5\n"),
    (["--header", "--key", ""], [b"k,\na,b\n"], b"b,1\n"), (["--header", "--key=-k"], [b"k,-k\na,b\n"], b"b,1\n"),
    (["--header", "--key", b"\xff"], [b"k,\xff\na,b\n"], b"b,1\n"),
    (["--header", "--key", "äß"], ["k,äß\na,b\n".encode()], b"b,1\n"),
    (["--weight", "2"], [b"a,5,x\nb,3\n"], b"a,5\nb,3\n"), (["--weight", "1"], [b"5,a\n"], b"5,5\n"),
    (["--key", "1"], [b"a,5\nb\na,x,y\n"], b"a,2\nb,1\n"),
    (["--key", "001", "--weight", "0000000002"], [b"a,5\n"], b"a,5\n"),
    (["--key", "00000000002", "--weight", "1"], [b"5,a\n2,b\n"], b"a,5\nb,2\n"),
    (["--key", "0" * 300 + "2"], [b"5,a\n"], b"a,1\n"),
    (["--header", "--key", "00000000002"], [b"00000000002,w\n5,a\n"], b"a,1\n"),
    (["--header", "--key", "12345678901"], [b"12345678901\n"], b""),
    # delimiters
    (["--delimiter=-"], [b"a-5\nb,c-2\n"], b'a,5\n"b,c",2\n'), (["--delimiter", "\\"], [b"a\\5\n"], b"a,5\n"),
    (["--delimiter", b"\xff"], [b"a\xff5\n"], b"a,5\n"), (["--delimiter", ","], [b"a,5\n"], b"a,5\n"),
    (["--delimiter", "|"], [b'"a|b"|5\n'], b"a|b,5\n"), (["--delimiter", "t"], [b"at5\n"], b"a,5\n"),
    # NUL, which no random case has
    (["--key", "2"], [b"a,\0b\n\0,\0\n"], b"\0,1\n\0b,1\n"),
    # weights of 0
    (["--allow-zero"], [b"a,0\nb,-\nc,00000000000000000000\nd,1\n"], b"d,1\n"), (["--allow-zero"], [b"a,0\n"], b""),
    (["--allow-zero"], [b'a,"-"\na\n'], b"a,1\n"), (["--allow-zero", "--weight", "2"], [b"-,3\n"], b"-,3\n"),
    (["--allow-zero"], [b"x," + LARGEST, b"y,0\nz,-"], b"x," + LARGEST + b"\n"),
    # digits behind a point
    (["--decimals", "3"], [PRICES], b"b,3.000\nc,2.750\na,0.625\n"), (["--decimals", "0"], [b"a,5\n"], b"a,5\n"),
    (["--decimals", "3", "--top", "1", "--share"], [PRICES], b"b,3.000,47.0588\n"),
    (["--decimals", "+01"], [b"a,0.5\nb\n"], b"b,1.0\na,0.5\n"), (["--decimals", "2"], [b"1.5,2.5\n"], b"1.5,2.50\n"),
    (["--decimals", "9"], [b"a,9223372036.854775807\n"], b"a,9223372036.854775807\n"),
    (["--decimals", "9"], [b"a,.000000001\n"], b"a,0.000000001\n"),
    (["--decimals", "1"], [b"a,922337203685477580.7\n"], b"a,922337203685477580.7\n"),
    (["--decimals", "2", "--allow-zero"], [b"a,0.00\nb,-\nc,.0\nd,0.01\n"], b"d,0.01\n"),
    (["--decimals", "2", "--weight", "2"], [b'a,"1.5",x\nb,2,y\n'], b"b,2.00\na,1.50\n"),
    (["--decimals", "2", "--key", "1"], [b"a,1.5\nb\na,x\n"], b"a,2.00\nb,1.00\n"),
    (["--decimals", "3"], [b"a," + b"0" * 20 + b".001\n"], b"a,0.001\n"),
    (["--decimals", "2", "--delimiter", "."], [b"a.5\n"], b"a,5.00\n"),
    # a quote is a byte as any other
    (["--no-quotes"], [b'"a,5\nb,2\n"a,1'], b'"""a",6\nb,2\n'), (["--no-quotes", "--key", "2"], [b'x,"y\nz,"y\n'], b'"""y",2\n'),
    (["--no-quotes", "--delimiter", '"', "--key", "2"], [BACKSLASH], b"GET /\\,1\n"),
    (["--no-quotes", "--header", "--key", '"""n"""'], [b'"n",w\n"a,b\n'], b'"""a",1\n'),
    # several delimiters are one, and those at a line's ends none
    (["--squeeze", "--key", "2", "--weight", "1"], [b"   12 a\n 3   b \n4 a   \n"], b"a,16\nb,3\n"),
    (["--squeeze"], [b"  a   5\nb\n\n  a\n"], b"a,6\nb,1\n"), (["--squeeze", "-d", ";"], [b";;a;;5\n"], b"a,5\n"),
    (["--squeeze", "-H", "--key", "CMD", "--weight", "PID"], [b"  PID TTY CMD\n    7 ?   sh\n   12 ?   sh\n"], b"sh,19\n"),
    # a line is a key
    (["--lines"], [b'a,1\n"x\na,1\r\n\n b'], b'"a,1",2\n b,1\n"""x",1\n'), (["--lines"], [MARK + b"a\0b\na\0b\n"], b"a\0b,2\n"),
    (["--lines", "--prefix", "1"], [b"ab\nac\nb\n"], b"a,2\nb,1\n"),
    # an object is a record
    (["--json", "--key", "a", "--weight", "n"], [b'{"n": 5, "a": "x"}\n{"a":"\\u0078","n":2}\n\n{"a":1,"n":1}\r\n{"n":1,"a":"1"}'], b"x,7\n1,2\n"),
    (["--json", "--key", "/o/a,t"], [b'{"o":{"a":"x"},"t":true}\n{"t":1.10,"o":{"a":2}}\n'], b'"2,1.10",1\n"x,true",1\n'),
    (["--json", "--key", "a", "--weight", "/n/1", "--decimals", "1"], [b'{"a":"x","n":[0,2.5]}\n{"n":[7,1],"a":"x"}\n'], b"x,3.5\n"),
    (["--json", "--key", "t", "--prefix", "13"], [b'{"t":"2026-11-28T06:25"}\n{"t":"2026-11-28T06:59"}\n'], b"2026-11-28T06,2\n"),
    (["--json", "--key", "a"], [b'{"a":"x","a":"y"}\n{"a":"' + b"k" * 4096 + b'"}\n'], b"k" * 4096 + b",1\ny,1\n"),
    # a part of a key's last column
    (["--until", "?#"], [b"/a?b,5\n/a#c,2\n/a,1\n/b?,1\n"], b"/a,8\n/b,1\n"), (["--prefix", "2"], [b"abc,5\nabd,2\na,1\n"], b"ab,7\na,1\n"),
    (["--key", "1,2", "--prefix", "1"], [b"xy,ab\nxy,ac\nxz,a\n"], b'"xy,a",2\n"xz,a",1\n'),
    (["--key", "2", "--until", ":", "--prefix", "3"], [b"x,abcd:e\nx,ab:c\n"], b"ab,1\nabc,1\n"),
    (["--prefix", "18446744073709551615"], [b"abc\n"], b"abc,1\n"), (["--prefix", "4096"], [b"k" * 5000], b"k" * 4096 + b",1\n"),
    (["--until", "k"], [b"a" + b"k" * 99999 + b",3\n"], b"a,3\n"),
    (["--decimals", "2", "--delimiter", ";"], [b"a;1.5\n", b"a;.25"], b"a,1.75\n"),
]

# Columns that no record has, about the largest numbers of 32 and of 64 bits and past them.
MANY_DIGITS = [
    "9999999999", "12345678901", "4294967297", "18446744073709551615", "18446744073709551616", "18446744073709551617", "9" * 300,
]

# Options, texts, and the first record that is refused, with the cause.
BAD_RECORDS = [
    ([*LOG_WORDS, "10"], [LOG], 1, "bad weight"), ([*LOG_WORDS, "11"], [LOG], 1, "wrong number of fields"),
    (["--delimiter", " ", "--key", "1", "--weight", "8"], [LOG], 3, "bad weight"),
    (["--header", "--key", "sa", "--weight", "ibyt"], [FLOWS + SUMMARY], 4, "wrong number of fields"),
    (["--header", "--key", "sa", "--weight", "te"], [FLOWS], 1, "bad weight"), (SIZE_WORDS, [SIZES], 3, "zero weight"),
    (["--header", "--key", "12"], [FLOWS], 1, "wrong number of fields"), ([], [b"a", b"b\nc,0"], 3, "zero weight"),
    (["--header"], [b"k,w\na,1", b"k,w\nb,2\nc,x"], 3, "bad weight"), ([], [b"a\n", b",1"], 2, "empty key"),
    ([], [b"x," + LARGEST, b"y"], 2, "total too large"),
    (["--allow-zero"], [b"x,0", b"y," + LARGEST, b"z"], 3, "total too large"),
    (["--key", "2"], [b"a,b\na\n"], 2, "wrong number of fields"), (["--key", "1"], [b"a\n,b\n"], 2, "empty key"),
    *((["--key", digits], [b"a,1\n"], 1, "wrong number of fields") for digits in MANY_DIGITS),
    *((["--header", "--weight", digits], [b"%s\na\n" % digits.encode()], 1, "wrong number of fields") for digits in MANY_DIGITS),
    (["--weight", "3"], [b",x\n"], 1, "wrong number of fields"),
    (["--weight", "2"], [b",x\n"], 1, "empty key"), (["--weight", "2"], [b"k" * 4097 + b",x\n"], 1, "key too long"),
    (["--weight", "2"], [b"k" * 4096 + b",x\n"], 1, "bad weight"), (["--weight", "2"], [b"a," + b"0" * 21], 1, "bad weight"),
    (["--weight", "2"], [b"a,-\n"], 1, "bad weight"), (["--allow-zero", "--weight", "2"], [b"a,--\n"], 1, "bad weight"),
    (["--allow-zero", "--weight", "2"], [b"a,\n"], 1, "bad weight"), (["--allow-zero"], [b",0\n"], 1, "empty key"),
    (["--allow-zero"], [b"a,0,0\n"], 1, "wrong number of fields"), (["--allow-zero"], [b"a,-0\n"], 1, "bad weight"),
    (["--allow-zero"], [b"k" * 4097 + b",-"], 1, "key too long"),
    (["--key", "1,2"], [b"k" * 2048 + b"," + b"k" * 2048], 1, "key too long"),
    (["--key", "1,2"], [b"k" * 2046 + b',"' + b"k" * 2046 + b',k"'], 1, "key too long"),
    (["--decimals", "2"], [b"a,1.50\nb,.75\n", b"c,1.500\n"], 3, "bad weight"),
    *((["--decimals", "2"], [b"a," + weight], 1, "bad weight") for weight in BAD_DECIMALS),
    *((["--decimals", "0"], [b"a," + weight], 1, "bad weight") for weight in [*BAD_DECIMALS, b"1.5", b".5", b"0.0"]),
    *(([], [b"a," + weight], 1, "bad weight") for weight in [*BAD_DECIMALS, b"1.5", b".5", b"0.0"]),
    *((["--json", "--key", "a", "--weight", "n"], [b'{"a":"x","n":1}\n' + line], 2, "wrong number of fields") for line in [
        b'{"a":"x"}', b'{"n":1}', b'{"a":null,"n":1}', b'{"a":["x"],"n":1}', b'{"a":"x","n":"1"}', b'[{"a":"x","n":1}]', b"a,1", b'{"a":"\\ud800","n":1}',
        b'{"a":"x","n":1', b'{"a":"\xff","n":1}', b'{"a":NaN,"n":1}',
    ]),
    *((["--json", "--key", "a", "--weight", "n"], [b'{"a":"x","n":%s}' % weight], 1, "bad weight") for weight in [b"1.5", b"1e3", b"-1"]),
    (["--json", "--key", "a"], [b'{"a":""}'], 1, "empty key"), (["--json", "--key", "a"], [b'{"a":"' + b"k" * 4097 + b'"}'], 1, "key too long"),
    (["--squeeze"], [b"a 1\n   \n"], 2, "wrong number of fields"), (["--no-quotes"], [b'"a,b",1\n'], 1, "wrong number of fields"),
    (["--lines", "--key", "2"], [b"a,b\n"], 1, "wrong number of fields"), (["--until", "?"], [b"a\n?b\n"], 2, "empty key"),
    (["--prefix", "0"], [b"a\n"], 1, "empty key"), (["--lines"], [b"a\n" + b"k" * 4097], 2, "key too long"),
    (["--decimals", "2"], [b"a,1,5\n"], 1, "wrong number of fields"), (["--decimals", "2"], [b",1.5\n"], 1, "empty key"),
    (["--decimals", "2"], [b"a,0.00\n"], 1, "zero weight"), (["--decimals", "2"], [b"a,-\n"], 1, "bad weight"),
    (["--decimals", "9"], [b"a,9223372036.854775808\n"], 1, "total too large"),
    (["--decimals", "9"], [b"a," + LARGEST], 1, "total too large"),
    (["--decimals", "1"], [b"a," + b"9" * 20 + b".9"], 1, "total too large"),
    (["--decimals", "3"], [b"a,9223372036854775.807\nb,.001\n"], 2, "total too large"),
    (["--decimals", "3"], [b"a,9223372036854775\nb\n"], 2, "total too large"),
]

# Options beside --bad-as bad, texts, the report of them, and how many records are bad.
BAD_AS = [
    # an empty key, one too long, a bad weight, a weight of 0 and a wrong number of fields
    ([], [b"a,7\n,9\n" + b"k" * 4097 + b",9\na,x\na,0\na,1,1\nb,6\n"], b"a,7\nb,6\nbad,5\n", 5),
    (["--allow-zero"], [b"a,7\na,0\na,-\n,0\nb,x\n"], b"a,7\nbad,2\n", 2), ([], [b"a\nb\n"], b"a,1\nb,1\n", 0),
    # one bad record, a key that records have too, and a total that is the largest
    ([], [b"bad,4\nbad,x\n"], b"bad,5\n", 1), ([], [b"x,9223372036854775806\ny,x\n"], b"x,9223372036854775806\n", 1),
    # a header, columns, several files, and digits behind a point, of which a bad record has none
    (["--header", "--key", "k", "--weight", "w"], [b"k,w\na,2\nb\n", b"w,k\nx,a\n3,\n"], b"bad,3\na,2\n", 3),
    (["--key", "1,2"], [b"a\na,b\n\n" + b"k" * 5000 + b",b\n"], b'bad,2\n"a,b",1\n', 2),
    (["--decimals", "2"], [b"a,1.5\na,1.505\nb,0.00\n,1\n"], b"bad,3.00\na,1.50\n", 3),
    # lines, columns that are padded, quotes as other bytes, a part of a key, and objects
    (["--lines"], [b"a\n" + b"k" * 4097 + b"\na\n"], b"a,2\nbad,1\n", 1), (["--squeeze"], [b" a 1\n   \na 2 3\n"], b"bad,2\na,1\n", 2),
    (["--no-quotes"], [b'"a,b",1\n"c,2\n'], b'"""c",2\nbad,1\n', 1), (["--until", "?"], [b"a?x\n?b\n"], b"a,1\nbad,1\n", 1),
    (["--json", "--key", "a", "--weight", "n"], [b'{"a":"x","n":3}\n{"n":1}\nx\n{"a":"x","n":1.5}\n[]\n'], b"bad,4\nx,3\n", 4),
    # a long field of which no more is kept than a key may have
    ([], [b"k" * 99_999 + b",1\na," + b"0" * 99_999 + b"\n"], b"bad,2\n", 2), ([], [b'"' + b"k" * 99_999 + b'",1\na'], b"a,1\nbad,1\n", 1),
]

# Options beside --bad-as bad, texts, and what is refused all the same: a total that is too large, by a record or by what
# it counts as, and a column that a header lacks.
NOT_AS_BAD = [
    ([], [b"x,9223372036854775807\ny\n"], "record 2: total too large"), ([], [b"x,9223372036854775807\ny,x\n"], "record 2: total too large"),
    (["--decimals", "1"], [b",\nx,922337203685477579.7\n,\n"], "record 3: total too large"), ([], [b"x\n,\ny," + b"9" * 20 + b"\n"], "record 3: total too large"),
    (["--header", "--key", "x"], [b"a,b\n1,2\n"], NO_COLUMN),
]

# Options that are refused, whatever the records.
NO_DELIMITERS = ["", '"', "\r", "\n", ",,", "\\n", "\\tt", "ä", "tab", b"\xff\xff"]
NO_KEYS = ["", "0", "00", "x", "1,", ",1", "1,x", "1,0", "+1", "1.0", " 1", "0" * 11]
NO_WEIGHTS = ["", "0", "x", "1,2", "0" * 300, b"\xff"]
BAD_OPTIONS = [
    *((["--delimiter", word], BAD_DELIMITER) for word in NO_DELIMITERS),
    *((["--key", word], BAD_COLUMN) for word in NO_KEYS),
    *((["--weight", word], BAD_COLUMN) for word in NO_WEIGHTS),
    *((["--header", option, "0"], BAD_COLUMN) for option in ("--key", "--weight")),
    (["--header", "--key", "a,0"], BAD_COLUMN), (["--header", "--key=a", "--key=000"], BAD_COLUMN),
    (["--key=-1"], BAD_COLUMN), (["--json"], BAD_COLUMN), (["--json", "--weight", "n"], BAD_COLUMN),
    (["--delimiter", "", "--key", "0"], BAD_DELIMITER),
]

# Options, texts of which a header lacks a column: also where a record of a file before it is bad.
NO_COLUMNS = [
    (["--key", "x"], [b"a,b\n1,2\n"]), (["--key", "a,x"], [b"a,b\n1,2\n"]), (["--weight", "x"], [b"a,b\n1,2\n"]),
    (["--key", "a", "--weight", "x"], [b"a,b\n"]), (["--key", "x", "--weight", "a"], [b"a,b\n"]), (["--key", "A"], [b"a\n"]),
    (["--key", " a"], [b"a\n"]), (["--key", "a"], [b" a\n"]), (["--key", "a"], [b"a\n1\n", b"b\n1\n"]),
    (["--key", "a", "--weight", "w"], [b"a,w\n1,0\n", b"a,b\n"]),
    (["--key", "a", "--weight", "w"], [b"a,w\nx\n", b"", b"w,b\n"]),
]


def some_plain_rows(draw: Random) -> bytes:
    """Records of a key, a column that is not read and a weight, most of them of one key."""
    rows = [(draw.choice(KEYS + KEYS[:1] * 6), draw.randrange(1, 9)) for _ in range(40)]
    return b"".join(b"%s,x,%d\n" % row for row in rows)


# each command that reads records, behind a saved file where it has one
COMMANDS = (["report"], ["summarise"], ["table"], ["condense", "saved"], ["confirm", "saved"])


class RecordFiles(programs.Checks):
    """Runs the program in a folder over files of records."""

    def setUp(self) -> None:
        super().setUp()
        self.program = programs.built("heavy_cli")

    def heavy(self, words: list, given: bytes = b"un,re,ad\n", **how) -> tuple[int, bytes, bytes]:
        ended = programs.run([self.program, *words], given, cwd=self.room, **how)
        return ended.status, ended.out, ended.err

    def expect(self, words: list, expected: tuple[int, bytes, bytes], given: bytes = b"un,re,ad\n", **how) -> None:
        status, out, err = self.heavy(words, given, **how)
        found = status, out, err if expected[2].count(b"\n") > 1 else programs.first_line(err)
        self.check(" ".join(os.fsdecode(word) for word in words)[:120], found == expected, (found, expected))

    def refuses(self, words: list, text: str, status: int, given: bytes = b"un,re,ad\n", **how) -> None:
        self.expect(words, (status, b"", f"heavy: {text}\n".encode()), given, **how)

    def save(self, texts: list[bytes]) -> list[str]:
        names = [f"{place}.csv" for place in range(1, len(texts) + 1)]
        for name, text in zip(names, texts):
            Path(self.room, name).write_bytes(text)
        return names

    def save_summary(self, text: bytes) -> None:
        Path(self.room, "saved").write_bytes(reference.summarise(text, 2))

    def test_reports(self) -> None:
        """Texts with their reports: as files, the last as standard input, and one without a word for it."""
        for options, texts, report in REPORTS:
            names = self.save(texts)
            words = ["report", "--k", "65535", *options]
            self.expect([*words, *names], (0, report, b""))
            self.expect([*words, *names[:-1], "-"], (0, report, b""), texts[-1])
            if len(texts) == 1:
                self.expect(words, (0, report, b""), texts[0])

    def test_bad_records(self) -> None:
        """The first record that is refused, by each command, numbered over all files without their headers."""
        self.save_summary(b"a")
        for options, texts, number, cause in BAD_RECORDS:
            names = self.save(texts)
            for command in COMMANDS:
                self.refuses([*command, *options, *names], f"record {number}: {cause}", 3)
            self.refuses(["report", *options, *names[:-1], "-"], f"record {number}: {cause}", 3, texts[-1])

    def test_bad_as(self) -> None:
        """Records that count as a key since they are bad, and how many they are, by files, pipes and workers."""
        for options, texts, report, bad in BAD_AS:
            names, said = self.save(texts), bad_line(bad, b"bad")
            for workers in ("1", "3"):
                words = ["report", "--k", "65535", "--workers", workers, *options, "--bad-as", "bad"]
                self.expect([*words, *names], (0, report, said))
                self.expect([*words, *names[:-1], "-"], (0, report, said), texts[-1])
        for options, texts, text in NOT_AS_BAD:
            names = self.save(texts)
            for command in (["report"], ["report", "--workers", "1"], ["summarise"], ["table"], ["top", "3"]):
                self.refuses([*command, *options, "--bad-as", "bad", *names], text, 3)
        for command in (["report"], ["summarise"], ["table"], ["top", "3"]):
            self.refuses([*command, "--bad-as", "k" * 4097, "none"], "key 1: too long", 3)
        self.refuses(["report", "--bad-as", "bad", "none"], "file 1: could not be read", 1)
        folder = os.open(self.room, os.O_RDONLY)
        self.refuses(["report", "--bad-as", "bad"], "input could not be read", 1, stdin=folder)
        os.close(folder)

    def test_bad_as_by_commands(self) -> None:
        """Each command counts a bad record once, also where it reads files twice or in pieces."""
        text = b"".join(b"%s,%d\n" % (b"ab"[i % 2 : i % 2 + 1] if i % 3 else b"", i % 7) for i in range(60_000))
        items, bad = read(Records(Layout(bad_as=b"c"), {1: text}))
        mended = b"".join(b"%s,%d\n" % item for item in items)
        names, said = self.save([text, mended]), bad_line(bad, b"c")
        self.check("there are bad records in each piece", bad > 20_000, bad)
        self.save_summary(mended)
        for command in (
            ["report", "--k", "9"], ["report", "--k", "1", "--pieces", "2"], ["summarise", "--k", "9"], ["table", "--width", "9"],
            ["top", "1"], ["top", "9"], ["confirm", "saved"], ["condense", "saved"],
        ):
            for workers in ("1", "2", "4"):
                words = [command[0], "--workers", workers, *command[1:]]
                whole = self.heavy([*words, names[1]])
                self.check(f"{words} has an answer", whole[0] == 0, whole)
                self.expect([*words, "--bad-as", "c", names[0]], (0, whole[1], said))
                self.expect([*words, "--bad-as", "c", *([] if "saved" in words else ["-"])], (0, whole[1], said), text)

    def test_bad_as_of_many_keys(self) -> None:
        """A bad record counts once where counters are lost, and the records are read again: by a report behind 4,096 keys, by
        the greatest keys behind 131,072, and behind as many as have room in a megabyte."""
        keys = b"".join(b"k%06d\n" % number for number in range(150_000))
        bad = b",\n" * 300
        names = self.save([b"a,1000\n" + keys + bad + b"b,900\nb,x\n", bad + keys[: 8 * 6_000] + b"a,1000\n"])
        rows = b"a,1000\nb,900\nbad,301\n"
        for words, name, expected, count in (
            (["report", "--k", "600"], names[0], rows, 301),
            (["report", "--k", "50"], names[1], b"a,1000\nbad,300\n", 300),
            (["top", "3", "--memory", "1"], names[0], rows, 301), (["top", "3"], names[0], rows, 301),
        ):
            for workers in ("1", "2", "4"):
                self.expect([*words, "--workers", workers, "--bad-as", "bad", name], (0, expected, bad_line(count, b"bad")))

    def test_decimals(self) -> None:
        """Saved files of weights with a point, by hand: 0.625, 3 and 2.75 of 6.375 are two counters of 2.375 and 2.125."""
        saved, names = "prices", self.save([PRICES, b"b,3\n", b"a,.625\nc,2.750\n"])
        three = ["--decimals", "3"]
        status, data, _ = self.heavy(["summarise", "--k", "2", *three, names[0]])
        Path(self.room, saved).write_bytes(data)
        whole = reference.summarise(b"a,125\nb,3000\na,500\nc,2750\n", 2)
        self.check("a summary counts in units", (status, data) == (0, whole), data)
        self.expect(["ask", *three, saved, "a", "b", "1.5"], (0, b"a,0.000,0.625\nb,2.375,3.000\n1.5,0.000,0.625\n", b""))
        self.expect(["ask", saved, "b", "--decimals=1"], (0, b"b,237.5,300.0\n", b""))
        self.expect(["ask", "--decimals", "0", saved, "a", "b"], (0, b"a,0,625\nb,2375,3000\n", b""))
        self.expect(["list", *three, saved], (0, b"b,2.375,3.000\nc,2.125,2.750\n", b""))
        self.expect(["list", "--decimals", "9", saved], (0, b"b,0.000002375,0.000003000\nc,0.000002125,0.000002750\n", b""))
        self.expect(["list", saved], (0, b"b,2375,3000\nc,2125,2750\n", b""))
        condensed = b"b,3.000\nc,2.750\nothers,0.625\n"
        self.expect(["condense", *three, saved, names[0]], (0, condensed, b""))
        for given in (PRICES, condensed):
            self.expect(["confirm", *three, saved], (0, b"b,3.000\nc,2.750\n", b""), given)
            self.expect(["confirm", *three, "--share", "--top=1", saved], (0, b"b,3.000,47.0588\n", b""), given)
        self.expect(["confirm", *three, saved, *names[1:]], (0, b"b,3.000\nc,2.750\n", b""))
        more = b"heavy: file 1: its total is not the input's\n  prices has 0.06375, and the records have 6.37500\n"
        self.expect(["confirm", "--explain", "--decimals", "5", saved, names[0]], (3, b"", more))
        Path(self.room, "table").write_bytes(self.heavy(["table", "--width", "64", *three, names[0]])[1])
        self.expect(["ask", "table", "a", *three], (0, b"a,0.000,0.625\n", b""))
        commands = [*COMMANDS, ["ask", "saved", "a"], ["list", "saved"]]
        self.save_summary(b"a")
        for command in commands:
            for word in ("10", "255", "256", "-1", "x", "", "1.0", "18446744073709551616"):
                status, out, err = self.heavy([*command, f"--decimals={word}"])
                told = b"--decimals <D>" in err and err.startswith(b"error: ")
                self.check(f"{command}: {word!r} decimals", (status, out, told) == (2, b"", True), (status, out, err))

    def test_refused_options(self) -> None:
        """Delimiters and columns that are none, and columns that a header lacks."""
        self.save_summary(b"a")
        for options, text in BAD_OPTIONS:
            names = self.save([b"a,0\n"])
            for command in COMMANDS:
                self.refuses([*command, *options, *names], text, 2)
                self.refuses([*command, *options], text, 2)
        for options, texts in NO_COLUMNS:
            names = self.save(texts)
            for command in COMMANDS:
                self.refuses([*command, "--header", *options, *names], NO_COLUMN, 3)
            self.refuses(["report", "--header", *options, *names[:-1], "-"], NO_COLUMN, 3, texts[-1])

    def test_unread_files(self) -> None:
        """The number of a file that is missing, is a folder or has a name that is no text, and standard input's."""
        self.save_summary(b"a\nb")
        self.save([b"a\n", b"b\n", b"a,0\n"])
        Path(self.room, "folder").mkdir()
        for name in ("none", "folder", b"\xff", "1.csv/none", ""):
            for command in ("report", "summarise", "table"):
                for words, number in [([name], 1), (["1.csv", name], 2), (["1.csv", "2.csv", "-", name, "1.csv"], 4)]:
                    self.refuses([command, *words], f"file {number}: could not be read", 1, b"c\n")
            for command in ("condense", "confirm"):
                for words, number in [([name], 1), ([name, "none"], 1), (["saved", name], 2), (["saved", "1.csv", name], 3)]:
                    self.refuses([command, *words], f"file {number}: could not be read", 1)
            self.refuses(["report", "--header", "1.csv", name], "file 2: could not be read", 1)
        # it is told before a record is read
        self.refuses(["report", "3.csv", "none"], "file 2: could not be read", 1)
        self.refuses(["report", "--", "-x"], "file 1: could not be read", 1)
        folder = os.open(self.room, os.O_RDONLY)
        for words, text in [
            (["report"], "input could not be read"), (["report", "-"], "file 1: could not be read"),
            (["report", "1.csv", "-"], "file 2: could not be read"), (["confirm", "saved"], "input could not be read"),
            (["confirm", "saved", "1.csv", "2.csv", "-"], "file 4: could not be read"),
        ]:
            self.refuses(words, text, 1, stdin=folder)
        os.close(folder)

    def test_standard_input(self) -> None:
        """Standard input where no file is named and where `-` is, and not where only files are."""
        self.save([b"a,1", b"b,2"])
        report = ["report", "--k", "9"]
        self.expect(report, (0, b"c,4\n", b""), b"c,4")
        self.expect([*report, "-"], (0, b"c,4\n", b""), b"c,4")
        self.expect([*report, "1.csv", "2.csv"], (0, b"b,2\na,1\n", b""), b"c,4")
        for names in ("- 1.csv 2.csv", "1.csv - 2.csv", "1.csv 2.csv -", "-- 1.csv 2.csv -"):
            self.expect([*report, *names.split()], (0, b"c,4\nb,2\na,1\n", b""), b"c,4")
        self.expect([*report, "1.csv", "1.csv"], (0, b"a,2\n", b""))
        # named twice it is read once, by the first, although each file's header is read before the records
        large = b"k,w\n" + b"".join(b"key%d,1\n" % (i % 5) for i in range(50_000))
        rows = b"".join(b"key%d,10000\n" % i for i in range(5))
        self.expect([*report, "--header", "--key", "1", "-", "-"], (0, rows, b""), large)
        Path(self.room, "-").write_bytes(b"d,9\n")
        self.expect([*report, "./-"], (0, b"d,9\n", b""))
        self.expect([*report, "1.csv", "--top", "1", "2.csv", "--delimiter", ","], (0, b"b,2\n", b""))

    def test_large_files(self) -> None:
        """Files of many records, many files, and headers and fields longer than what is read at once."""
        count = 50_000
        many = [b"".join(b"%d,k%d,2\n" % (i, i % 3 + place) for i in range(count)) for place in range(3)]
        names = self.save(many)
        weights: dict[bytes, int] = {}
        for place in range(3):
            for i in range(count):
                weights[b"k%d" % (i % 3 + place)] = weights.get(b"k%d" % (i % 3 + place), 0) + 2
        report = reference.rows_text(sorted(weights.items(), key=lambda row: (-row[1], row[0])))
        words = ["report", "--k", "99", "--key", "2", "--weight", "3"]
        self.expect([*words, *names], (0, report, b""))
        self.expect([*words, names[0], "-", names[2]], (0, report, b""), many[1])
        self.refuses([*words, *names, "-"], f"record {3 * count + 1}: wrong number of fields", 3, b"x")
        names = self.save([b"a,%d\n" % i for i in range(1, 301)])
        self.expect(["report", *names], (0, b"a,%d\n" % (300 * 301 // 2), b""))
        names = self.save([b"x" * 200_000 + b",k\n" + b"y" * 200_000 + b",a\n"] * 2)
        self.expect(["report", "--header", "--key", "k", *names], (0, b"a,2\n", b""))

    def test_joined(self) -> None:
        """The commands give the same bytes over files and over these joined, which a header stands in front of once."""
        draw = Random(1)
        for turn in range(12):
            header, options = b"", ["--weight", "3"]
            if turn % 2:
                header, options = b"k,x,w\n", ["--header", "--key", "k", "--weight", "w"]
            texts = [some_plain_rows(draw) for _ in range(3)]
            joined = b"".join(texts)
            self.save_summary(joined.replace(b",x", b""))
            names = self.save([header + text for text in texts])
            for command in (
                ["confirm", *options, "saved"], ["condense", *options, "saved"], ["summarise", "--k", "3", *options],
                ["table", "--width", "9", *options], ["report", "--k", "5", *options],
            ):
                whole = self.heavy(command, header + joined)
                self.check(f"{command[0]} of turn {turn} has an answer", (whole[0], whole[1] != b"") == (0, True), whole)
                self.expect([*command, *names], whole)
                self.expect([*command, *names[:1], "-", *names[2:]], whole, header + texts[1])


if __name__ == "__main__":
    programs.run_tests("record files")
