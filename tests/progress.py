#!/usr/bin/env python3
"""Asks each command that reads records to tell how far it is: what it tells of a pipe and of a file, how often, and
that it answers the same. Without the option nothing is told. The clock moves as a test says, so that no line depends on how
fast a machine is.

usage: tests/progress.py
"""
import array
import fcntl
import itertools
import os
import re
import subprocess
import termios
import time
from pathlib import Path

import programs

READ = rb"heavy: (\d+\.\d) MB and (\d+) records read, \d+\.\d MB/s"
PIPE = re.compile(READ + rb"\n")
FILE = re.compile(READ + rb", (\d+) % of (\d+\.\d) MB, \d+ s left\n")
# of files that are named, which workers read
NAMED = re.compile(rb"heavy: \d+\.\d MB read( in two passes)?, \d+\.\d MB/s(?:, (\d+) % of (\d+\.\d) MB, \d+ s left)?\n")
PART = b"".join(b"key%d,%d\n" % (number % 977, number) for number in range(1, 20_000))
# bytes that are read at once
AT_ONCE = 65_536
# milliseconds by which a look at the clock moves it, one at each read: so that a second has passed at every third read
STEP, LOOKS = 400, 3
# a part that a pipe takes whole, and how many are written
SMALL, STEPS = b"key0001,1\n" * 5_000, 14


def megabytes(count: int) -> bytes:
    return b"%d.%d MB" % (count // 1_000_000, count % 1_000_000 // 100_000)


def line(text: bytes, read: int, millis: int, size: int | None = None) -> bytes:
    """What is told when so many bytes of a text were read after so many milliseconds, and of a file with its size."""
    records = text.count(b"\n", 0, read) + (text[read - 1 : read] not in (b"", b"\n"))
    told = b"heavy: %b and %d records read, %b/s" % (megabytes(read), records, megabytes(read * 1000 // millis))
    if size and read < size:
        left = (size - read) * millis // read // 1000
        told += b", %d %% of %b, %d s left" % (read * 100 // size, megabytes(size), left)
    return told + b"\n"


def are_told(told: list[bytes], wanted: list[bytes]) -> bool:
    """Whether these lines are told. The last one comes at each read that finds the end, of which some readers make two."""
    count, whole = len(wanted), wanted[-1].partition(b", ")[0]
    return told[:count] == wanted and all(line.partition(b", ")[0] == whole for line in told[count:]) and len(told) <= count + 1


def waited(what: str, holds) -> None:
    """Waits until it holds."""
    for _ in range(programs.HANGS * 1000):
        if holds():
            return
        time.sleep(0.001)
    raise TimeoutError(f"waited in vain for {what}")


def unread(pipe: int) -> int:
    """How many bytes of a pipe nobody has read yet."""
    count = array.array("i", [0])
    fcntl.ioctl(pipe, termios.FIONREAD, count)
    return count[0]


# the commands that read records and no saved file
COMMANDS = {"report": ["report"], "summarise": ["summarise"], "table": ["table"]}


def read_to(text: bytes) -> list[int]:
    """The places to which a text is read, from the first read on: a window of 64 KiB is filled behind what it holds of a record
    that isn't whole, with the line feed before it."""
    places, held = [0], 0
    while places[-1] < len(text):
        places.append(min(len(text), places[-1] + AT_ONCE - held))
        held = places[-1] - text.rindex(b"\n", 0, places[-1])
    return places


class Progress(programs.Checks):
    """What `--progress` tells."""

    def setUp(self) -> None:
        super().setUp()
        self.program = programs.built("heavy_cli")
        self.clock = programs.preloaded("clock.c", self.room)

    def at(self, step: int) -> dict[str, str]:
        """The environment of a run whose clock moves so."""
        return {"LD_PRELOAD": self.clock, "CLOCK_STEP": str(step)}

    def by_summary(self, text: bytes) -> dict[str, list[str]]:
        """The commands that read records by a saved summary, which is of this text."""
        file = f"{self.room}/summary"
        Path(file).write_bytes(programs.run([self.program, "summarise"], text).out)
        return {name: [name, file] for name in ("condense", "confirm")}

    def fed(self, words: list[str], parts: list[bytes], step: int) -> list[bytes]:
        """What a run tells whose standard input is a pipe, and that reads each of these parts at once."""
        running = subprocess.Popen([self.program, *words, "--progress"], stdin=subprocess.PIPE, stdout=subprocess.DEVNULL,
                                   stderr=subprocess.PIPE, env=self.at(step), bufsize=0)
        for part in parts:
            running.stdin.write(part)
            waited("the reader of a pipe", lambda: unread(running.stdin.fileno()) == 0 or running.poll() is not None)
        return running.communicate(timeout=programs.HANGS)[1].splitlines(keepends=True)

    def test_layouts(self) -> None:
        """Records are counted as they are read: between fields of one's own, without a header, and behind a byte order mark."""
        for words, text, number in [
            ([], b"a,1\nb\n\n", 2), (["--header"], b"k,w\na,1\nb,2\n", 2), (["--header"], b"k\n", 0), (["--header"], b"", 0),
            (["--delimiter", ";", "--key", "2"], b'x;"a\nb"\ny;"c\n"\n', 2), (["--delimiter", "\\t", "--key", "2"], b'x\t"a\n\nb"\n', 1),
            ([], b'\xef\xbb\xbf"a\nb",1\n', 1), ([], b"\xef\xbb\xbf", 0), ([], b"\xef\xbb\xbfa", 1), ([], b"\xef\xbb\nb\n", 2),
        ]:
            ended = programs.run([self.program, "summarise", "--progress", *words], text)
            told = PIPE.fullmatch(ended.err.splitlines(keepends=True)[-1]) if ended.err else None
            self.check(f"{words} {text}", (ended.status, told and int(told[2])) == (0, number), ended)

    def test_answers(self) -> None:
        """The same answer with the option and without it, also for records that are refused; one line at the end, where no time
        passes."""
        for text in (PART, PART + b"bad,record,here\n", b""):
            for name, words in {**COMMANDS, **self.by_summary(PART)}.items():
                plain = programs.run([self.program, *words], text)
                told = programs.run([self.program, *words, "--progress"], text, self.at(0))
                same = (plain.status, plain.out) == (told.status, told.out)
                self.check(f"{name} answers the same", same, (plain.status, told.status))
                rest = PIPE.sub(b"", told.err)
                self.check(f"{name} tells faults the same", rest == plain.err, (told.err, plain.err))
                self.check(f"{name} tells nothing unasked", (plain.err == b"") == (plain.status == 0), plain.err)
                if text == PART:
                    size = b"%d.%d" % (len(text) // 1_000_000, len(text) % 1_000_000 // 100_000)
                    self.check(f"{name} tells the whole", PIPE.findall(told.err) == [(size, b"19999")], told.err)

    def test_counts(self) -> None:
        """How many records are counted as their bytes come: a line feed in quotes ends none, an empty line is none, and one
        that has begun is one."""
        for text, count in [
            (b"", b"0"), (b"a", b"1"), (b"a,1\n", b"1"), (b"a,1\nb,2", b"2"), (b"a,1\r\nb,2\r\n", b"2"),
            (b"\n\na\n\n\nb\n\n", b"2"), (b'"a\nb",1\nc,2\n', b"2"), (b'"a""\n""b",1\nc,2\n', b"2"),
            (b'a"b\nc"d\n', b"2"), (b'"a"b\nc\n', b"2"),
        ]:
            ended = programs.run([self.program, "table", "--progress"], text, self.at(0))
            told = {found for _, found in PIPE.findall(ended.err)}
            self.check(f"records counted in {text}", (ended.status, told) == (0, {count}), ended.err)
        for first, second in [(b'a,"1\n', b'"\nb,2\n'), (b",", b"\n,\n")]:
            told = self.fed(["table"], [first, second], 1000)
            found = [read[2] for read in map(PIPE.fullmatch, told) if read]
            self.check(f"records counted in {first + second}, which are refused", found[:2] == [b"1", b"2"], told)

    def test_pipes(self) -> None:
        """A pipe, into each command that reads records once: a line a second, and one at the end, with no share."""
        whole = SMALL * STEPS
        reads = [number * len(SMALL) for number in range(LOOKS, STEPS + 1, LOOKS)]
        wanted = [line(whole, read, STEP * read // len(SMALL)) for read in reads] + [line(whole, len(whole), STEP * (STEPS + 1))]
        # 14 parts of 50,000 bytes: after the third, at 1.2 seconds, and after their end, at 6 seconds
        by_hand = [b"heavy: 0.1 MB and 15000 records read, 0.1 MB/s\n", b"heavy: 0.7 MB and 70000 records read, 0.1 MB/s\n"]
        self.check("what is wanted of a pipe", [wanted[0], wanted[-1]] == by_hand and len(wanted) == 5, wanted)
        for name, words in {"summarise": ["summarise"], **self.by_summary(whole)}.items():
            told = self.fed(words, [SMALL] * STEPS, STEP)
            self.check(f"{name} tells of a pipe", are_told(told, wanted), told)

    def test_file(self) -> None:
        """A file, as the standard input of each command: the share that is read, and the time left, once a second, and the whole
        at the end."""
        text = PART * 20
        size, places = len(text), read_to(text)
        reads = len(places) - 1
        wanted = [line(text, places[number], STEP * number, size) for number in range(LOOKS, reads + 1, LOOKS)]
        wanted.append(line(text, size, STEP * (reads + 1), size))
        # of 4,931,460 bytes some 196,600 after the third read, at 1.2 seconds; the others take 28.9 seconds at that rate
        by_hand = b" records read, 0.1 MB/s, 3 % of 4.9 MB, 28 s left\n"
        self.check("what is wanted of a file", wanted[0].startswith(b"heavy: 0.1 MB and ") and wanted[0].endswith(by_hand), wanted[0])
        path = Path(self.room, "many.csv")
        path.write_bytes(text)
        for name, words in {"summarise": ["summarise"], "table": ["table"], **self.by_summary(text)}.items():
            told = self.told_of(words, path)
            self.check(f"{name} tells of a file", are_told(told, wanted), told)
        # a report reads less at once in the beginning
        for words in (["report"], ["report", "--memory", "0"]):
            told = self.told_of(words, path)
            shares = [found for found in map(FILE.fullmatch, told) if found]
            ends = [one.startswith(b"heavy: 4.9 MB and 399980 records read, ") for one in told[len(shares) :]]
            right = len(shares) > 1 and {found[4] for found in shares} == {b"4.9"} and ends and all(ends)
            self.check(f"{words} tells of a file", right, told)

    def test_several_inputs(self) -> None:
        """Several inputs that one thread reads are one: the share, the time left and the records are those of all. A pipe among
        them leaves no share."""
        text = PART * 7
        size, count = 3 * len(text), 3 * 7 * 19_999
        paths = [Path(self.room, f"{number}.csv") for number in range(3)]
        for path in paths:
            path.write_bytes(text)
        empty = Path(self.room, "empty")
        empty.write_bytes(b"")
        whole = b"heavy: %b and %d records read, " % (megabytes(size), count)
        for words, files in [
            (["summarise"], paths), (["summarise"], [paths[0], empty, *paths[1:], empty]), (["table"], [empty, *paths]),
            (["report", "--pieces", "2"], paths),
        ]:
            ended = programs.run([self.program, *words, "--progress", *map(str, files)], env=self.at(STEP))
            lines = ended.err.splitlines(keepends=True)
            found = [read for read in map(FILE.fullmatch, lines) if read]
            name = f"{words} of {len(files)} files"
            self.check(f"{name}: each share is of all", found and {read[4] for read in found} == {megabytes(size)[:-3]}, lines)
            for what, places in (("share", 3), ("records", 2), ("bytes", 1)):
                told = [float(read[places]) for read in found]
                self.check(f"{name}: the {what} grow", all(one <= next for one, next in itertools.pairwise(told)), told)
            # of 81 reads with bytes each third looks at the clock when a second has passed
            self.check(f"{name}: a line a second", len(found) > 20, len(found))
            rest = lines[len(found) :]
            self.check(f"{name}: the whole at the end", rest and all(line.startswith(whole) for line in rest) and len(rest) < 6, lines)
        ended = programs.run(["sh", "-c", 'cat "$2" | "$1" summarise --progress "$2" - "$3"', "", self.program, *map(str, paths[:2])],
                             env={**os.environ, **self.at(0)})
        told = b"heavy: %b and %d records read, " % (megabytes(size), count)
        self.check("with a pipe among them", ended.err.startswith(told) and b"%" not in ended.err, ended.err)

    def test_summarise_workers(self) -> None:
        """A summary of a named file: two workers or more tell the share of one pass, and one counts its records."""
        many = Path(self.room, "many.csv")
        many.write_bytes(PART * 20)
        words = [self.program, "summarise"]
        self.try_named_file("summarise", [*words, "--k", "2000"], many, 1, ("2", "3"))
        for alone in ([], ["--workers", "1"]):
            ended = programs.run([*words, *alone, "--progress", str(many)], env=self.at(STEP))
            lines = ended.err.splitlines(keepends=True)
            shares = [read for read in map(FILE.fullmatch, lines) if read]
            self.check(f"summarise {alone} counts its records", len(shares) > 5 and {read[4] for read in shares} == {b"4.9"}, lines)

    def told_of(self, words: list[str], path: Path) -> list[bytes]:
        """What a run tells whose standard input is this file."""
        with open(path, "rb") as records:
            ended = programs.run([self.program, *words, "--progress"], env=self.at(STEP), stdin=records)
        self.check(f"{words} ends well", ended.status == 0, ended.err)
        return ended.err.splitlines(keepends=True)

    def test_named_file(self) -> None:
        """A file that is named, which workers read: the share of one pass, or of the two of a report, and the same answer."""
        many = Path(self.room, "many.csv")
        many.write_bytes(PART * 20)
        for name, words in {**COMMANDS, **self.by_summary(PART * 20)}.items():
            if name != "summarise":
                self.try_named_file(name, [self.program, *words], many, 2 if name == "report" else 1)

    def try_named_file(self, name: str, words: list[str], path: Path, passes: int, numbers: tuple[str, ...] = ("1", "3")) -> None:
        size = path.stat().st_size * passes
        wanted = (b" in two passes" if passes == 2 else None, b"%d.%d" % (size // 1_000_000, size % 1_000_000 // 100_000))
        plain = programs.run([*words, str(path)])
        for workers in numbers:
            told = programs.run([*words, "--workers", workers, "--progress", str(path)], env=self.at(STEP))
            lines = told.err.splitlines(keepends=True)
            found = [read for read in map(NAMED.fullmatch, lines) if read and read[2]]
            right = len(found) > 5 and all((read[1], read[3]) == wanted for read in found)
            self.check(f"{name} of a named file by {workers} tells its share", right, lines)
            # several workers may tell in another order than they read
            shares = [int(read[2]) for read in found]
            grows = workers != "1" or all(one <= next for one, next in itertools.pairwise(shares))
            self.check(f"{name} of a named file by {workers} tells more each time", grows and max(shares) < 100, shares)
            self.check(f"{name} of a named file by {workers} tells nothing else", all(map(NAMED.fullmatch, lines)), lines)
            self.check(f"{name} of a named file by {workers} answers the same", (told.status, told.out) == (0, plain.out), told.status)
        self.check(f"{name} of a named file tells nothing unasked", (plain.status, plain.err) == (0, b""), plain)


if __name__ == "__main__":
    programs.run_tests("progress")
