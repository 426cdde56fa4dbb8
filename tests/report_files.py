#!/usr/bin/env python3
"""Texts and files that workers read in pieces: by `report` twice, by `table`, `condense` and `confirm` once. What comes out
is set beside rows that were found by hand, beside a report of one piece by one thread, beside what the same texts give from
standard input and from pipes, and beside what a second reader finds.

usage: tests/report_files.py [CASES [SEED]]

Reads the records of tests/corpus first, each again and again. Prints the seed, how many cases ran and differed, of each kind.
Each case has a seed of its own, one more than the case before it, and one that fails is told with the command that repeats
it.
"""
import os
import signal
import sys
import threading
import time
from collections.abc import Iterator
from functools import partial
from pathlib import Path
from random import Random

import corpus
import programs
import reference

# a piece of a file has at least so many bytes, but for its last
LEAST = 65_536
SECONDS = 60
KEYS = [b"a", b"b", b"web", b"x,y", b'say ""so""', b"two\nlines", b"end\r\nof", b"\xef\xbb\xbfmark", b"k" * 300]
RECORDS = b"a,5\nb,3\nc,2\na,1\n"
# what woven texts are made of, again and again, and what then comes somewhere in between
WEFT = [
    b"a,5\n", b"b,7\r\n", b"c\r", b"web,2\n", b'"x,y",3\n', b'"two\nlines",2\r\n', b'"say ""so""",4\n', b'"\n",1\n',
    b'"end\r\nof",6\n', b'mid"dle,1\n', b'"a"b,2\n', b"\xef\xbb\xbfmark,1\n", b'"\xef\xbb\xbf",8\n', b"\n", b"\r\n\r", b"\n\n",
]
STITCHES = [b"\n", b"\r", b"\r\n", b"\xef\xbb\xbf", b'""', b"k" * 300, b"1"]
FAULTS = [b'"', b",", b"a,0\n", b",7\n", b"\n,\n", b"a,9223372036854775807\n", b'\n"open']
# how the random texts are read, of which none is refused before a file is opened
LAYOUTS = [
    [], [], ["--allow-zero"], ["--header"], ["--decimals", "2"], ["--key", "1"], ["--delimiter", ";"],
    ["--header", "--key", "1", "--decimals", "3"], ["--key", "1", "--weight", "2"],
]


def quoted(key: bytes) -> bytes:
    """The key as csv writes it: in quotes where it has to stand in them."""
    return b'"%s"' % key if any(byte in key for byte in b',"\n\r') else key


def record(random: Random, keys: list[bytes]) -> bytes:
    """A record and the end of its line."""
    key = random.choice(keys) if random.random() < 0.7 else b"key%d" % random.randrange(5000)
    weight = b"" if random.random() < 0.2 else b",%d" % random.randrange(1, 1000)
    return quoted(key) + weight + random.choice([b"\n", b"\n", b"\n", b"\r\n", b"\r", b"\n\n"])


def text_of(random: Random) -> bytes:
    """A text of some pieces, or of none. One in four has a fault somewhere, one in three no line feed at its end."""
    least = random.choice([0, 0, 100, LEAST, 3 * LEAST])
    keys = random.sample(KEYS, random.randrange(1, len(KEYS)))
    parts, length = [], 0
    while length < least:
        parts.append(record(random, keys))
        length += len(parts[-1])
    if parts and random.random() < 0.25:
        fault = random.choice([b"a,b,c\n", b",7\n", b"a,0\n", b"a,x\n", b'"open', b"a,9223372036854775807\n"])
        parts.insert(random.randrange(len(parts) + 1), fault)
    text = b"".join(parts)
    return text.rstrip(b"\r\n") if random.random() < 0.33 else text


def woven(random: Random) -> bytes:
    """A text of one to five pieces: some records, again and again, with a few bytes more somewhere, of which one in four may be
    a fault."""
    unit = b"".join(random.choices(WEFT, k=random.randrange(1, 30)))
    text = bytearray(unit * (random.randrange(LEAST, 5 * LEAST) // len(unit) + 1))
    for _ in range(random.randrange(4)):
        place = random.randrange(len(text) + 1)
        text[place:place] = random.choice(FAULTS if random.random() < 0.25 else STITCHES)
    return bytes(text)


def rows_wanted(random: Random) -> list[str]:
    """Options of the rows that `confirm` prints of a summary with 3 counters, each in every other case."""
    options = [["--share"], ["--top", random.choice("0123")], ["--threshold", random.choice(["1/4", "1/3", "1/2", "1/1"])]]
    return [word for option in options if random.random() < 0.5 for word in option]


def feed(path: str, text: bytes) -> None:
    """Writes the text into a pipe, of which a refused run reads no more."""
    try:
        Path(path).write_bytes(text)
    except BrokenPipeError:
        pass


def piped(words: list[str], texts: list[bytes], room: str, **how) -> programs.Ended:
    """The run over the texts as named pipes. All are opened first, so each has a writer of its own."""
    paths = [f"{room}/pipe{place}" for place in range(len(texts))]
    writers = []
    for path, text in zip(paths, texts):
        os.mkfifo(path)
        writer = threading.Thread(target=feed, args=(path, text), daemon=True)
        writer.start()
        writers.append(writer)
    ended = programs.run([*words, *paths], **how)
    for writer in writers:
        writer.join(10)
    for path in paths:
        os.unlink(path)
    return ended


def chosen() -> tuple[int, int]:
    """The number of cases and the seed, as the command line has them."""
    cases = int(sys.argv[1]) if len(sys.argv) > 1 else 60
    return cases, int(sys.argv[2]) if len(sys.argv) > 2 else time.time_ns() % 1_000_000_007


def drawn_cases() -> Iterator[tuple[Random, str]]:
    """The cases that are drawn: each with random numbers of its own, and the command that repeats it."""
    cases, seed = chosen()
    for own in range(seed, seed + cases):
        yield Random(own), f"tests/report_files.py 1 {own}"


def same(here: programs.Ended, there: programs.Ended) -> bool:
    """Whether two runs ended alike, and said the same in the first line."""
    said = programs.first_line(here.err), programs.first_line(there.err)
    return (here.status, here.out, said[0]) == (there.status, there.out, said[1])


class ReportFiles(programs.Checks):
    """Reports of files."""

    def files(self, *texts: bytes) -> list[str]:
        paths = [f"{self.room}/{place}.csv" for place in range(len(texts))]
        for path, text in zip(paths, texts):
            Path(path).write_bytes(text)
        return paths

    def test_rows(self) -> None:
        """Files by hand: one after the other, empty ones, and one that doesn't end in a line feed."""
        program = programs.built("heavy_cli")
        rows = [
            ([b"a,5\nb,3\n", b"c,2\na,1\n"], b"a,6\n"),
            ([b"a,5\nb,3", b"c,2\na,1"], b"a,6\n"),
            ([b"", b"a,5\nb,3\nc,2\na,1\n", b""], b"a,6\n"),
            ([b"", b""], b""),
            ([b'"a\nb",5\nc\n'], b'"a\nb",5\n'),
        ]
        for texts, wanted in rows:
            for workers in ("1", "4"):
                ended = programs.run([program, "report", "--k", "2", "--workers", workers, *self.files(*texts)])
                self.check(f"{texts} by {workers}", (ended.status, ended.out) == (0, wanted), ended)

    def test_pipes_among_files(self) -> None:
        """A pipe and standard input among the files are read once, where they are named."""
        program = programs.built("heavy_cli")
        [path] = self.files(b"a,5\nb,3\n")
        ended = programs.run([program, "report", "--k", "2", path, "-"], b"c,2\na,1\n")
        self.check("standard input behind a file", (ended.status, ended.out) == (0, b"a,6\n"), ended)
        ended = programs.run([program, "report", "--k", "2", "-", path, "-"], b"c,2\na,1\n")
        self.check("standard input named twice", (ended.status, ended.out) == (0, b"a,6\n"), ended)
        ended = piped([program, "report", "--k", "2"], [b"a,5\nb,3\n", b"c,2\na,1\n"], self.room)
        self.check("named pipes", (ended.status, ended.out) == (0, b"a,6\n"), ended)
        stopped = {"preexec_fn": partial(signal.alarm, SECONDS)}  # a pipe that is opened once more may wait for ever
        ended = piped([program, "report", "--k", "2", "--explain"], [b"a\tb\n", b'a\tb\n"open'], self.room, **stopped)
        told = b"heavy: note: a quote is open at the end of %s/pipe1\n" % os.fsencode(self.room)
        self.check("named pipes that look like another format", ended.status == 0 and ended.err.endswith(told), ended)

    def test_unread_files(self) -> None:
        """A file that can't be read is told by its place, and nothing is printed."""
        program = programs.built("heavy_cli")
        [path] = self.files(b"a,5\nb,3\n")
        for words, number in (([path, self.room], 2), ([self.room, path], 1), ([path, f"{self.room}/none"], 2)):
            ended = programs.run([program, "report", *words])
            told = b"heavy: file %d: could not be read\n" % number
            said = programs.first_line(ended.err)
            self.check(str(words), (ended.status, ended.out, said) == (1, b"", told), ended)

    def test_kept(self) -> None:
        """Each text that is kept, so often that workers read it in pieces, reads as the reference reads it."""
        program = programs.built("heavy_cli")
        kept = corpus.kept_in("records")
        self.check("there are kept texts", len(kept) > 20, len(kept))
        for file in kept:
            text = file.data * (2 * LEAST // len(file.data) + 1 if file.data else 1)
            wanted = reference.answer(reference.report, text, 3)
            for workers in ("1", "4"):
                words = [program, "report", "--k", "3", "--workers", workers]
                for ended in (programs.run([*words, *self.files(text)]), programs.run(words, text)):
                    holds = (ended.status, ended.out, programs.first_line(ended.err)) == wanted
                    self.check(f"{file.name} by {workers}", holds, (file.why, ended, wanted))

    def test_random_files(self) -> None:
        """A file reads as the same text from standard input does, whatever it has; and several files as the pipes do."""
        program = programs.built("heavy_cli")
        cases, seed = chosen()
        differed = 0
        for random, again in drawn_cases():
            options = ["--k", random.choice(["1", "3", "100"]), "--workers", random.choice(["1", "2", "4"])]
            words = [program, "report", *options, "--pieces", random.choice(["1", "3", "4", "16"])]
            texts = [text_of(random) for _ in range(random.randrange(1, 6))]
            one = self.files(texts[0])
            said = same(programs.run([*words, *one]), programs.run(words, texts[0]))
            here, there = programs.run([*words, *self.files(*texts)]), piped(words, texts, self.room)
            holds = said and same(here, there)
            differed += not holds
            self.check(f"again by {again}", holds, (words, texts, here, there))
        print(f"seed {seed}: {cases} cases of reports, {differed} differ")


class ReportTexts(programs.Checks):
    """Reports of standard input."""

    def test_random_texts(self) -> None:
        """Workers that read a text in pieces find what one thread finds in the whole of it, and tell the same of a fault."""
        program = programs.built("heavy_cli")
        cases, seed = chosen()
        differed, refused = 0, 0
        for random, again in drawn_cases():
            text, words = woven(random), [program, "report", "--k", random.choice(["1", "3", "20"])]
            here = programs.run([*words, "--workers", random.choice(["1", "2", "3", "4"])], text)
            there = programs.run([*words, "--workers", "1", "--pieces", "1", "--tree", "0"], text)
            refused += here.status != 0
            differed += not same(here, there)
            self.check(f"again by {again}", same(here, there), (words, text, here, there))
        print(f"seed {seed}: {cases} texts, {refused} of them refused, {differed} differ")


class OnePassFiles(programs.Checks):
    """Tables of files, and files that are condensed and confirmed."""

    files = ReportFiles.files

    def setUp(self) -> None:
        super().setUp()
        self.program = programs.built("heavy_cli")

    def saved(self, name: str, words: list[str], text: bytes) -> str:
        """The path of what these words save of a text."""
        path = f"{self.room}/{name}"
        Path(path).write_bytes(programs.run([self.program, *words], text).out)
        return path

    def by_file(self, saved: str) -> list[list[str]]:
        """The three commands, two of them by a saved summary."""
        return [["table"], ["condense", saved], ["confirm", saved]]

    def test_files_without_a_size(self) -> None:
        """A file of the kernel, whose size is 0, is read whole by each command."""
        saved = self.saved("saved", ["summarise", "--k", "2"], b"Linux\n")
        table = programs.run([self.program, "table"], b"Linux\n").out
        wanted = [b"Linux,1\n", Path(saved).read_bytes(), table, b"Linux,1\n", b"Linux,1\n"]
        for words, out in zip([["report"], ["summarise", "--k", "2"], *self.by_file(saved)], wanted):
            ended = programs.run([self.program, *words, "/proc/sys/kernel/ostype"])
            self.check(f"{words[0]} of a file without a size", (ended.status, ended.out) == (0, out), ended)

    def test_rows(self) -> None:
        """Four records in files, by hand: some end in no line feed, and with an empty one among them one thread reads."""
        commands = self.by_file(self.saved("saved", ["summarise", "--k", "2"], RECORDS))
        table = programs.run([self.program, "table"], RECORDS).out
        for texts in [
            [RECORDS], [RECORDS[:-1]], [b"a,5\nb,3\n", b"c,2\na,1\n"], [b"a,5\nb,3", b"c,2\na,1"],
            [b"a,5\n", b"b,3\n", b"c,2\n", b"a\n"], [b"", b"a,5\nb,3\nc,2\na,1\n", b""],
        ]:
            for words, wanted in zip(commands, (table, b"a,6\nb,3\nothers,2\n", b"a,6\n")):
                for workers in ("1", "4", "64"):
                    ended = programs.run([self.program, *words[:1], "--workers", workers, *words[1:], *self.files(*texts)])
                    said = f"{words[0]} of {texts} by {workers}"
                    self.check(said, (ended.status, ended.out, ended.err) == (0, wanted, b""), ended)

    def test_many_files(self) -> None:
        """Each of six files counts, of records and of saved ones that are merged, by hand."""
        texts = [b"%c,%d\n" % (97 + place, place + 1) for place in range(6)]
        summaries = [self.saved(f"s{place}", ["summarise", "--k", "9"], text) for place, text in enumerate(texts)]
        tables = [self.saved(f"t{place}", ["table"], text) for place, text in enumerate(texts)]
        merged = self.saved("merged", ["merge", *summaries], b"")
        rows, table = b"f,6\ne,5\nd,4\nc,3\n", programs.run([self.program, "table"], b"".join(texts)).out
        other, files = self.saved("other", ["summarise", "--k", "8"], b""), self.files(*texts)
        for words, status, out, err in [
            (["list", merged], 0, b"f,6,6\ne,5,5\nd,4,4\nc,3,3\nb,2,2\na,1,1\n", b""), (["merge", *tables], 0, table, b""),
            (["table", *files], 0, table, b""), (["summarise", "--k", "9", *files], 0, Path(merged).read_bytes(), b""),
            (["report", "--k", "9", *files], 0, rows, b""), (["confirm", merged, *files], 0, rows, b""),
            (["condense", merged, *files], 0, b"a,1\nb,2\nc,3\nd,4\ne,5\nf,6\n", b""),
            (["merge", *summaries[:4], other, summaries[5]], 3, b"", b"heavy: file 5: another k\n"),
            (["merge", *summaries[:3], f"{self.room}/none"], 1, b"", b"heavy: file 4: could not be read\n"),
        ]:
            ended = programs.run([self.program, *words])
            holds = (ended.status, ended.out, programs.first_line(ended.err)) == (status, out, err)
            self.check(f"{words[0]} of many files", holds, (words, ended))

    def test_refused(self) -> None:
        """A number of workers out of its range is refused, whoever reads; what is tested before it and behind it."""
        saved, table = self.saved("saved", ["summarise", "--k", "2"], RECORDS), self.saved("table", ["table"], RECORDS)
        files, none = self.files(b"a,5\n", b"b,0\n"), f"{self.room}/none"
        workers, share = b"workers must be 1 to 64", b"threshold must be P/Q with 1 <= P <= Q <= 4294967296 and P*(K+1) >= Q"
        for words, status, text in [
            (["summarise"], 2, workers), (["summarise", "--k", "0"], 2, b"k must be 1 to 65535"),
            (["summarise", "--k", "0", "--method", "x"], 2, b"method must be mg or ss"),
            (["table"], 2, workers), (["table", "--depth", "0", "--width", "0"], 2, b"depth must be 1 to 16"),
            (["table", "--width", "0"], 2, b"width must be 1 to 65536"), (["condense", saved], 2, workers),
            (["condense", table], 3, b"file 1: not a counter summary"), (["confirm", saved], 2, workers),
            (["confirm", table], 3, b"file 1: not a counter summary"), (["confirm", "--threshold", "1/4", saved], 2, share),
        ]:
            for number in ("0", "65", "18446744073709551615"):
                for paths in (files, [*files, "-"], []):
                    ended = programs.run([self.program, *words, *paths, "--workers", number], b"c,0\n")
                    holds = (ended.status, ended.out, ended.err) == (status, b"", b"heavy: %s\n" % text)
                    self.check(f"{words} of {paths} by {number}", holds, ended)
        for place, words in ((3, ["summarise"]), (3, ["table"]), (4, ["condense", saved]), (4, ["confirm", saved])):
            ended = programs.run([self.program, *words, *files, none, "--workers", "0"])
            told = b"heavy: file %d: could not be read\n" % place
            said = programs.first_line(ended.err)
            self.check(f"{words} of a file that is missing", (ended.status, ended.out, said) == (1, b"", told), ended)

    def test_random_files(self) -> None:
        """Files read as pipes with the same texts do, whatever these have, however they are read, and by a summary of them or
        of other records."""
        cases, seed = chosen()
        differed = 0
        other, of_them = self.saved("other", ["summarise", "--k", "3"], b"a,1\nweb,2\n"), f"{self.room}/saved"
        for random, again in drawn_cases():
            texts = [text_of(random) for _ in range(random.randrange(1, 6))]
            if random.random() < 0.8:  # with an empty file among them one thread reads
                texts = [text or record(random, KEYS) for text in texts]
            layout, workers = random.choice(LAYOUTS), random.choice(["4", "4", "1", "9"])
            summary = piped([self.program, "summarise", "--k", "3", *layout], texts, self.room)
            Path(of_them).write_bytes(summary.out)
            for words in self.by_file(other if summary.status != 0 or random.random() < 0.1 else of_them):
                words = [self.program, *words, *layout, *(rows_wanted(random) if words[0] == "confirm" else [])]
                here = programs.run([*words, "--workers", workers, *self.files(*texts)])
                there = piped(words, texts, self.room)
                differed += not same(here, there)
                self.check(f"{words[1]}, again by {again}", same(here, there), (words, workers, texts, here, there))
        print(f"seed {seed}: {cases} cases of table, condense and confirm, {differed} differ")


# what the drawn texts are separated by
DELIMITERS = [b",", b";", b"\t", b"|", b":", b" ", b"=", b"9", b"\xff"]
LONG = 360_000
MANY_LINES = 100_000


def long_field(random: Random, delimiter: bytes) -> bytes:
    """A field of 360 KB: plain, or in quotes with what has to stand in them."""
    kinds = [b"x", b"\0", b"7", b'x"', b'""', b"\n", b"a\r", b"b\r\n", delimiter]
    unit = random.choice(kinds)
    field = unit * (LONG // len(unit))
    return field if random.random() < 0.3 else b'"%s"' % field.replace(b'"', b'""')


def drawn_record(random: Random, delimiter: bytes, by_column: bool) -> bytes:
    """A record without the end of its line: a key and mostly a weight; by column also fields that no column names."""
    key = random.choice(KEYS) if random.random() < 0.7 else b"key%d" % random.randrange(5000)
    fields = [b'"%s"' % key if delimiter in key or random.random() < 0.05 else quoted(key)]
    if by_column or random.random() < 0.8:
        fields.append(b"%d" % random.randrange(1, 1000))
    if by_column:
        fields += [quoted(random.choice(KEYS)) for _ in range(random.randrange(3))]
    return delimiter.join(fields)


def drawn_odd(random: Random, delimiter: bytes, by_column: bool, end: bytes) -> bytes:
    """What stands once in a text: a long field, many blank lines, a mark, a quote, or a fault."""
    long = long_field(random, delimiter)
    odd = [
        end * MANY_LINES, delimiter.join([b"k", b"1", long]) + end, long + delimiter + b"1" + end, b"\xef\xbb\xbf",
        b"a" + delimiter + long + end, b'mid"dle' + end, b'"', b"\0" + end, b"a" + delimiter + b"0" + end, delimiter + end,
        b"a" + delimiter + b"9223372036854775807" + end, b'"x"y' + delimiter + b"3" + end,
    ]
    return random.choice(odd[:2] * 3 + odd if by_column else odd[:1] * 4 + odd)


def drawn_text(random: Random, delimiter: bytes, by_column: bool) -> bytes:
    """A text whose lines end in one way or in several, with a mark in front or without, and often something odd in it."""
    ends = random.choice([[b"\n"], [b"\r\n"], [b"\r"], [b"\n", b"\r", b"\r\n", b"\n\n"]])
    count = random.choice([0, 1, 5, 50, 50, 500, 500, 8_000, 20_000])
    parts = [drawn_record(random, delimiter, by_column) + random.choice(ends) for _ in range(count)]
    for _ in range(random.choice([0, 0, 1, 1, 2])):
        parts.insert(random.randrange(len(parts) + 1), drawn_odd(random, delimiter, by_column, random.choice(ends)))
    text = (b"\xef\xbb\xbf" if random.random() < 0.25 else b"") + b"".join(parts)
    if random.random() < 0.1:
        text += b'"open' + random.choice(ends)
    return text.rstrip(b"\r\n") if random.random() < 0.33 else text


class DrawnFiles(programs.Checks):
    """Files of many kinds, whose answers a second reader finds."""

    files = ReportFiles.files

    def ended(self, random: Random, words: list[str], texts: list[bytes]) -> programs.Ended:
        """The run over the texts as files or as named pipes, or over one text on standard input."""
        how = random.random()
        if how < 0.2:
            return piped(words, texts, self.room)
        if how < 0.4 and len(texts) == 1:
            return programs.run(words, texts[0])
        return programs.run([*words, *self.files(*texts)])

    def test_drawn_files(self) -> None:
        """Reports and summaries of files, and what a summary confirms and condenses of them."""
        program, saved = programs.built("heavy_cli"), f"{self.room}/saved"
        cases, seed = chosen()
        differed, refused = 0, 0
        for random, again in drawn_cases():
            delimiter, by_column, k = random.choice([b",", *DELIMITERS]), random.random() < 0.4, random.choice([1, 3, 100])
            texts = [drawn_text(random, delimiter, by_column) for _ in range(random.choice([1, 1, 1, 2, 3]))]
            records = [record for text in texts for record in reference.fields_of(text, delimiter)]
            stream = partial(reference.items_of_records, by_column=by_column)
            layout = [b"--delimiter", b"\\t" if delimiter == b"\t" else delimiter] if delimiter != b"," else []
            layout += ["--key", "1", "--weight", "2"] if by_column else []
            workers = ["--workers", random.choice(["1", "2", "4"])]
            method = random.choice([[], ["--method", "ss"]])
            summary = reference.answer(reference.summarise, records, k, reader=stream)
            Path(saved).write_bytes(summary[1])
            runs = [
                (["report", "--k", str(k), *workers, *layout], reference.answer(reference.report, records, k, reader=stream)),
                (["summarise", "--k", str(k), *method, *layout], summary),
            ]
            if summary[0] == 0:
                runs += [
                    ([name, *workers, *layout, saved], reference.answer(command, summary[1], records, reader=stream))
                    for name, command in (("confirm", reference.confirm), ("condense", reference.condense))
                ]
            for words, (status, out, err) in runs:
                ended = self.ended(random, [program, *words], texts)
                said = programs.first_line(b"".join(line for line in ended.err.splitlines(True) if b": note: " not in line))
                holds = (ended.status, ended.out, said) == (status, out, err)
                differed += not holds
                self.check(f"{words[0]}, again by {again}", holds, (words, ended.status, ended.err, status, err))
            refused += summary[0] != 0
        print(f"seed {seed}: {cases} cases of drawn files, {refused} of them refused, {differed} runs differ")


if __name__ == "__main__":
    programs.run_tests("report files")
