#!/usr/bin/env python3
"""Runs each command over a file that is changed before any one of its reads: appended to, made shorter, replaced by name, or
written to in place. A file that grows is read to a record's end; of one that was changed otherwise nothing is said.

usage: tests/changing_files.py
"""
import os
import subprocess
import tempfile
from collections.abc import Callable
from dataclasses import dataclass
from pathlib import Path

import programs

# Records that end in the midst of one, and what a writer then adds: the rest of it, and one more. The first have more keys
# than a report keeps in one pass, so that it reads twice; the others are long enough for two pieces.
KEYS = [b"k%04d" % number for number in range(4_200)]
HEAVY = b"a,9000\nb,9000\n"
MANY_KEYS = HEAVY + b"".join(b"%s,1\n" % key for key in KEYS) + b"c,900"
TWO_PIECES = HEAVY + b"".join(b"%s,1,%s\n" % (key, b"x" * 60) for key in KEYS[:2_000]) + b"c,900"
REST, LATER = b"0\n", b"d,99999\n"
MOST_READS = 200


@dataclass(frozen=True)
class Change:
    """What is done to a file."""

    name: str
    make: Callable[[Path], None]
    # whether the file grows, and whether its bytes are those that it had
    grows: bool = False
    keeps: bool = False


def add(path: Path, data: bytes) -> None:
    with open(path, "ab") as file:
        file.write(data)


def shorten(path: Path) -> None:
    os.truncate(path, path.stat().st_size - 1)


def empty(path: Path) -> None:
    os.truncate(path, 0)


def replace(path: Path) -> None:
    other = path.with_name("other")
    other.write_bytes(b"z,1\n")
    os.replace(other, path)


def put(path: Path, at: int, data: bytes) -> None:
    with open(path, "r+b") as file:
        file.seek(at)
        file.write(data)


CHANGES = [
    Change("appended to", lambda path: add(path, REST + LATER), grows=True),
    Change("made shorter", shorten),
    Change("emptied", empty),
    Change("replaced by name", replace, keeps=True),
    Change("written to in place", lambda path: put(path, len(b"a,"), b"8")),
    Change("with two keys of one weight exchanged", lambda path: put(path, 0, b"b,9000\na,9000\n")),
]

HALF_A_LINE = Change("given half a line", lambda path: add(path, b"d,99"), keeps=True)

# Records that end within quotes, and the rest of the last one.
IN_QUOTES, REST_OF_QUOTES = HEAVY + b'"one\ntwo', b'\nthree",9000\n'
QUOTES_CLOSED = Change("appended to within quotes", lambda path: add(path, REST_OF_QUOTES + LATER), grows=True)
# More of the last record, which isn't whole then either.
STILL_A_HALF = Change("given more of its last line", lambda path: add(path, b"0"))
STILL_QUOTED = Change("given a line feed within quotes", lambda path: add(path, b"\nthree"))


@dataclass(frozen=True)
class Command:
    """A command over the file, with the number that a fault of it tells."""

    name: str
    words: list[str]
    number: int = 1


class Changing(programs.Checks):
    """Files that are changed while they are read."""

    def setUp(self) -> None:
        super().setUp()
        self.program = programs.built("heavy_cli")
        self.library = programs.preloaded("pause.c", self.room)
        self.saved = f"{self.room}/saved"
        self.other = f"{self.room}/first.csv"
        Path(self.other).write_bytes(b"a,1\n")
        self.path = Path(self.room, "records.csv")

    def run_on(self, words: list[str], at: int, change: Change | None) -> tuple[bool, tuple[int, bytes, bytes]]:
        """Whether the run was stopped at the read with this number, where the file is changed, and what it said."""
        env = {"LD_PRELOAD": self.library, "PAUSE_AT": str(at)}
        with tempfile.TemporaryFile() as out, tempfile.TemporaryFile() as err:
            process = subprocess.Popen([self.program, *words], env=env, stdin=subprocess.DEVNULL, stdout=out, stderr=err)
            _, status = os.waitpid(process.pid, os.WUNTRACED)
            stopped = os.WIFSTOPPED(status)
            if stopped:
                if change:
                    change.make(self.path)
                os.kill(process.pid, 18)
                _, status = os.waitpid(process.pid, 0)
            process.returncode = os.waitstatus_to_exitcode(status)
            out.seek(0)
            err.seek(0)
            return stopped, (process.returncode, out.read(), programs.first_line(err.read()))

    def plain(self, words: list[str], text: bytes) -> tuple[int, bytes, bytes]:
        """What the program says of a file that stays as it is."""
        self.write(text)
        return self.run_on(words, 0, None)[1]

    def write(self, text: bytes) -> None:
        # it is an old file, so that its time changes wherever it is written to
        self.path.unlink(missing_ok=True)
        self.path.write_bytes(text)
        os.utime(self.path, (1_000_000_000, 1_000_000_000))

    def said_after(self, command: Command, text: bytes, change: Change) -> list[tuple[int, bytes, bytes]]:
        """What is said with the change before each read in turn, for as many reads as there are."""
        found = []
        for at in range(1, MOST_READS):
            self.write(text)
            stopped, said = self.run_on(command.words, at, change)
            if not stopped:
                break
            found.append(said)
        name = f"{command.name} of a file that is {change.name}: it is read, and comes to an end"
        self.check(name, 1 < len(found) < MOST_READS - 1, len(found))
        return found

    def check_change(self, command: Command, text: bytes, change: Change, rest: bytes = REST) -> None:
        """The change before each read, where the last record goes on with the rest."""
        name = f"{command.name} of a file that is {change.name}"
        short, grown = self.plain(command.words, text), self.plain(command.words, text + rest)
        refused = (1, b"", b"heavy: file %d: could not be read\n" % command.number)
        self.check(f"{command.name} of both", grown[0] == 0 and short != grown, (short, grown))
        found = self.said_after(command, text, change)
        if change.grows:
            self.check(f"{name}: its last line is read whole where that came before it", found[0] == grown, found[0])
            others = [(at, said) for at, said in enumerate(found, 1) if said not in (short, grown)]
            self.check(f"{name}: and else as it was", not others, others[:2])
        else:
            # the last reads of a run with an answer, one for each file, are for notes: by then it is written
            notes = (2 if self.other in command.words else 1) if short[0] == 0 else 0
            wanted = [short if change.keeps else refused] * (len(found) - notes) + [short] * notes
            others = [(at, said) for at, said in enumerate(found, 1) if said != wanted[at - 1]]
            self.check(name, not others, others[:2])

    def check_changes(self, commands: list[Command], text: bytes) -> None:
        for command in commands:
            for change in CHANGES:
                self.check_change(command, text, change)

    def commands(self, layout: list[str], text: bytes, rest: bytes = REST) -> list[Command]:
        """Each command that reads records, by workers and by one thread. The saved summary is of the records with the whole
        last one."""
        self.write(text + rest)
        path = str(self.path)
        made = self.run_on(["summarise", "--k", "5", *layout, path], 0, None)[1]
        Path(self.saved).write_bytes(made[1])
        return [
            Command("report", ["report", "--k", "5", *layout, path]),
            Command("report of two files", ["report", "--k", "5", *layout, self.other, path], 2),
            Command("report by a plan", ["report", "--k", "5", "--pieces", "2", *layout, path]),
            Command("summarise", ["summarise", "--k", "5", *layout, path]),
            Command("summarise by workers", ["summarise", "--k", "5", "--workers", "2", *layout, path]),
            Command("table", ["table", *layout, path]),
            Command("condense", ["condense", *layout, self.saved, path], 2),
            Command("confirm", ["confirm", *layout, self.saved, path], 2),
        ]

    def test_many_keys(self) -> None:
        """Files of more keys than a report keeps, which it reads twice."""
        self.check_changes(self.commands([], MANY_KEYS), MANY_KEYS)

    def test_half_lines(self) -> None:
        """A file that ends in a line feed, to which half a line is added, is read as it was."""
        text = MANY_KEYS + REST
        for command in self.commands([], MANY_KEYS):
            wanted = self.plain(command.words, text)
            others = [said for said in self.said_after(command, text, HALF_A_LINE) if said != wanted]
            self.check(f"{command.name} of a file that is given half a line", not others and wanted[0] == 0, others[:2])

    def test_quotes(self) -> None:
        """A file that ends within quotes is read to where the record ends, if it has grown to there."""
        for command in self.commands([], IN_QUOTES, REST_OF_QUOTES):
            self.check_change(command, IN_QUOTES, QUOTES_CLOSED, REST_OF_QUOTES)
        self.write(IN_QUOTES)
        said = self.run_on(["report", "--k", "50", str(self.path)], 1, QUOTES_CLOSED)[1]
        self.check("a row of the whole record", said == (0, b'a,9000\nb,9000\n"one\ntwo\nthree",9000\n', b""), said)

    def test_half_records(self) -> None:
        """A file whose last record isn't whole yet when the reader comes there is refused."""
        for text, change in ((MANY_KEYS, STILL_A_HALF), (IN_QUOTES, STILL_QUOTED)):
            for command in self.commands([], text):
                refused = (1, b"", b"heavy: file %d: could not be read\n" % command.number)
                short, found = self.plain(command.words, text), self.said_after(command, text, change)
                name = f"{command.name} of a file that is {change.name}"
                self.check(f"{name}: it is refused", found[0] == refused, found[0])
                others = [said for said in found if said not in (short, refused)]
                self.check(f"{name}, or read as it was before", not others, others[:2])

    def test_another_text(self) -> None:
        """Of a file whose bytes are others in a later reading, of the same size and with the old time, `top` and `report` say
        what they had before or have since, or that it could not be read: never the greatest keys of the one with weights of
        the other. They come late, so that the file is read again to count them."""
        before = b"".join(b"%s,1\n" % key for key in KEYS) + b"a,5000\nz,1000\n"
        since = before.replace(b"a,5000", b"a,6000").replace(b"z,1000", b"z,9000")

        def rewrite(path: Path) -> None:
            put(path, 0, since)
            os.utime(path, (1_000_000_000, 1_000_000_000))

        path = str(self.path)
        for words, rows in (
            (["top", "--memory", "0", "1", path], [b"a,5000\n", b"z,9000\n"]),
            (["report", "--k", "5", path], [b"a,5000\n", b"z,9000\na,6000\n"]),
        ):
            for workers in "14":
                command = Command(words[0], [words[0], "--workers", workers, *words[1:]])
                either = [self.plain(command.words, text) for text in (before, since)]
                self.check(f"{command.name} of both", [said[1] for said in either] == rows, either)
                found = self.said_after(command, before, Change("another with the old time", rewrite))
                refused = [said for said in found if said[:2] == (1, b"")]
                others = [(at, said) for at, said in enumerate(found, 1) if said not in either and said not in refused]
                said = (len(refused), others[:2])
                self.check(f"{command.name} of a file that is another", bool(refused) and not others, said)

    def test_pieces(self) -> None:
        """Files of two pieces."""
        layout = ["--key", "1", "--weight", "2"]
        self.check_changes(self.commands(layout, TWO_PIECES), TWO_PIECES)


if __name__ == "__main__":
    programs.run_tests("changing_files")
