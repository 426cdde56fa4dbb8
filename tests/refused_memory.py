#!/usr/bin/env python3
"""Runs each public call, and each command of the program, with its first request for memory refused, then the
second, and so on until a run meets no refusal.

usage: tests/refused_memory.py

Each run has to answer as with ample memory, or to answer Memory and leave everything as it was, after which the
same call answers as ever. The calls that take no memory have to meet no refusal at all.
"""
import os
import re
from collections.abc import Iterable
from concurrent.futures import ThreadPoolExecutor
from functools import partial
from pathlib import Path

import hostile_records
import programs
import reference

# The program heavy_oom marks a call by requests of these sizes.
MARKS = {"REFUSE_FROM": "100003", "REFUSE_TO": "100019"}

# The public calls that can answer Memory, by crate, but for those that only a command of the program makes, or a call for C.
CALLS = {
    "hh_stream": [
        "Key::new", "Key::of_bytes", "Key::copy", "Stream::push", "Cutting::even", "Cutting::by_lengths",
    ],
    "hh_counters": [
        "Summary::add", "Summary::add with room left", "Summary::of_items", "Summary::merge", "SpaceSaving::add",
        "SpaceSaving::add with room left", "SpaceSaving::into_summary", "BucketSaving::new", "BucketSaving::add",
        "BucketSaving::add new bucket", "BucketSaving::add with room left", "BucketSaving::add moving a key",
        "BucketSaving::into_summary", "Candidates::of", "Candidates::select",
    ],
    "hh_countmin": ["Family::from_parts", "Family::draw", "Family::copy", "Table::new"],
    "hh_saved": ["read", "write"],
    "hh_shared": ["SharedSums::new", "SharedSums::close"],
    "hh_pool": [
        "Plan::chain", "Plan::balanced", "Plan::parse", "merge_by", "analyse", "first_pass", "first_pass_sequentially",
        "second_pass", "second_pass_sequentially",
    ],
    "heavy": [
        "confirm", "read_stream", "report_text", "write_report", "run_report", "summary_bytes",
        "summary_bytes by Space-Saving", "table_bytes", "merge_bytes", "ask_bytes", "confirm_bytes",
    ],
}

# Calls that take no memory, many in one run.
TAKE_NONE = {
    "hh_stream": ["Key and Stream readers", "Cutting readers"],
    "hh_counters": [
        "Summary::new", "Summary::from_entries", "Summary readers", "Candidates readers", "SpaceSaving::new",
        "SpaceSaving readers", "BucketSaving readers", "SpaceSaving::add monitored", "BucketSaving::add monitored",
    ],
    "hh_countmin": ["Family readers", "Table::from_cells", "Table::add and merge", "Table readers"],
    "hh_saved": ["read of heads"],
    "hh_shared": ["SharedSums seats"],
    "hh_pool": ["Plan, Options and OpenGate"],
    "heavy": ["put"],
}

# What some calls answer with keys of one byte, worked out by hand: summaries and files of a 4, b 1 of 11, the report of a 6.
SAVED = "484853320100020000000000000%s000200016100000000000000%s000162000000000000000%s"
ANSWERS = {
    "Summary::add with room left": "k 4 total 15 sum 15 slack 0: 61 6 6 62 3 3 63 2 2 64 4 4 ",
    "SpaceSaving::add with room left": "k 3 total 15 len 4 least 2: 6 3 2 4 ",
    "BucketSaving::add with room left": "k 3 total 15 len 4 least 2: 6 3 2 4 ",
    "Candidates::of": "61 62 ",
    "Candidates::select": "61 6 ",
    "Plan::chain": "4",
    "Plan::balanced": "4",
    "Plan::parse": "4",
    "merge_by": "k 2 total 22 sum 10 slack 4: 61 8 8 62 2 2 ",
    "read of heads": "4",
    "read_stream": "len 4 total 11: 61 5 62 3 63 2 61 1 ",
    "report_text": b"a,6\n".hex(),
    "write_report": b"a,6\n".ljust(48, b"\0").hex(),
    "run_report": b"a,6\n".ljust(48, b"\0").hex(),
    "summary_bytes": SAVED % ("00b", "04", 1),
    "summary_bytes by Space-Saving": SAVED % ("00b", "04", 1),
    "merge_bytes": SAVED % ("016", "08", 2),
    "ask_bytes": b"a,4,6\nz,0,2\n".hex(),
    "confirm_bytes": b"a,6\n".hex(),
    "Key and Stream readers": "0 4 11 true true true",
}

# How many lines tell what was lent to a call before it is made.
LENT = {
    "Stream::push": 2, "Summary::add": 1, "Summary::add with room left": 1, "Summary::merge": 2, "SpaceSaving::add": 1,
    "SpaceSaving::add with room left": 1, "SpaceSaving::into_summary": 1, "SpaceSaving::add monitored": 1,
    "BucketSaving::add": 1, "BucketSaving::add new bucket": 1, "BucketSaving::add with room left": 1,
    "BucketSaving::add moving a key": 1, "BucketSaving::add monitored": 1, "BucketSaving::into_summary": 1,
    "write_report": 1, "run_report": 1,
}

RECORDS = b"a,5\nb,3\nc,2\na,1\n"
LONG_RECORDS = RECORDS.replace(b"a", b"a" * 40).replace(b"b", b"b" * 40).replace(b"c", b"c" * 40)
OUT_OF_MEMORY = b"heavy: out of memory\n"
# the file that has the version of the program
VERSION = programs.TOP / "crates" / "heavy_arguments" / "src" / "arguments.rt"
# what --progress tells of few records, where their end was read
PROGRESS = b"heavy: 0.0 MB and 4 records read, 0.0 MB/s\n"
A, B = b"a" * 40, b"b" * 40
# what stands in each help
USAGE = b"Usage: heavy"


class Refusing:
    """Runs programs under the library that refuses, and keeps what was wrong."""

    def __init__(self, library: str) -> None:
        self.library = library
        self.runs = 0
        self.wrong: dict[str, list[str]] = {}

    def run(self, words: list[str], at: int, given: bytes, marks: dict[str, str]) -> tuple[programs.Ended, bool]:
        """The run in which request number `at` is refused, none for 0, and whether one was."""
        ear, mouth = os.pipe()
        try:
            env = {"LD_PRELOAD": self.library, "REFUSE_AT": str(at), "REFUSE_TOLD_ON": str(mouth), **marks}
            ended = programs.run(words, given, env, pass_fds=(mouth,))
        finally:
            os.close(mouth)
        told = os.read(ear, 64)
        os.close(ear)
        self.runs += 1
        return ended, told != b""

    def tell(self, words: list[str], at: int, said: object) -> None:
        self.wrong.setdefault(" ".join(words[1:]), []).append(f"request {at} refused: {said}")

    def in_turn(self, words: list[str], given: bytes, marks: dict[str, str], is_lawful) -> int:
        """Refuses request 1, 2, and so on; the number of requests that a run makes."""
        ample, _ = self.run(words, 0, given, marks)
        for at in range(1, 1_000_000):
            ended, was_refused = self.run(words, at, given, marks)
            if not is_lawful(ample, ended):
                self.tell(words, at, (ended.status, ended.out[-300:], ended.err[-300:]))
            if not was_refused:
                return at - 1
        return 0


def same(ample: programs.Ended, ended: programs.Ended) -> bool:
    return (ended.status, ended.out, ended.err) == (ample.status, ample.out, ample.err)


def is_lawful_call(name: str, ample: programs.Ended, ended: programs.Ended) -> bool:
    """The ample answer, or Memory with everything as it was, and then the ample answer."""
    if ample.status != 0 or b"answer " not in ample.out:
        return False
    lent = b"".join(ample.out.splitlines(keepends=True)[: LENT.get(name, 0)])
    again = lent + b"memory\n" + ample.out
    return same(ample, ended) or (ended.status, ended.out, ended.err) == (0, again, b"")


def same_fault(ample: programs.Ended, ended: programs.Ended) -> bool:
    """The ample answer, but that of the lines that explain a fault, behind its own, the place may be missing, or all."""
    fault, *lines = ended.err.splitlines() or [b""]
    ample_fault, *ample_lines = ample.err.splitlines() or [b""]
    explained = all(any(whole.endswith(line.strip()) for whole in ample_lines) for line in lines)
    return (ended.status, ended.out, fault, explained) == (ample.status, ample.out, ample_fault, True)


def is_lawful_run(ample: programs.Ended, ended: programs.Ended) -> bool:
    """The ample answer, or status 4 with its line and nothing on standard output. Where the ample run tells progress,
    one without memory may have told it before."""
    memory = [OUT_OF_MEMORY] + [PROGRESS + OUT_OF_MEMORY] * (ample.err == PROGRESS)
    return same_fault(ample, ended) or (ended.status, ended.out) == (4, b"") and ended.err in memory


# A command with what it reads, and what it has to answer with ample memory: its status, standard output, and how standard error
# begins.
Row = tuple[list[str], bytes, tuple[int, bytes, bytes]]


def is_known(ended: programs.Ended, known: tuple[int, bytes, bytes]) -> bool:
    """Whether a run answers what is known of it: of help that it is one, and of standard error how it begins."""
    status, out, err = known
    answers = USAGE in ended.out if out == USAGE else ended.out == out
    told = USAGE in ended.err if err == USAGE else ended.err.startswith(err)
    return ended.status == status and answers and told and (err != b"" or ended.err == b"")


def of_records(records: str, bad: str) -> list[Row]:
    """The commands that read records."""
    long, both = reference.summarise(LONG_RECORDS, 2), (3, b"", b"heavy: record 6: zero weight\n")
    return [
        (["report", "--k", "2"], RECORDS, (0, b"a,6\n", b"")),
        (["report", "--k", "2", "--workers", "2", "--tree", "((0 1) (2 3))"], LONG_RECORDS, (0, A + b",6\n", b"")),
        (["report", "--k", "2", "--tree", "chain"], LONG_RECORDS, (0, A + b",6\n", b"")),
        (["report", "--k", "0"], RECORDS, (2, b"", b"heavy: k must be 1 to 65535\n")),
        (["report", "--k", "2"], b"a,0\n", (3, b"", b"heavy: record 1: zero weight\n")),
        (["report", "--k", "2", "--workers", "2", records, records], b"", (0, A + b",12\n", b"")),
        (["report", "--k", "2", records, "-"], RECORDS, (0, b"", b"")),
        (["report", "--k", "2", records, bad], b"", both),
        (["report", "--k", "2", "--output", "json", "--names"], LONG_RECORDS, (0, b'{"key":"%b","weight":6}\n' % A, b"")),
        (["report", "--k", "2", "--output", "tsv", "--names"], RECORDS, (0, b"key\tweight\na\t6\n", b"")),
        (["summarise", "--k", "2"], LONG_RECORDS, (0, long, b"")),
        (["summarise", "--k", "2", "--method", "ss"], LONG_RECORDS, (0, long, b"")),
        (["summarise", "--method", "no"], RECORDS, (2, b"", b"heavy: method must be mg or ss\n")),
        (["report", "--k", "2", "--progress"], RECORDS, (0, b"a,6\n", PROGRESS)),
        (["summarise", "--k", "2", "--progress"], RECORDS, (0, reference.summarise(RECORDS, 2), PROGRESS)),
    ]


def of_layouts(room: str, records: str) -> list[Row]:
    """The greatest keys, and commands that read records in layouts that aren't plain."""
    columns = f"{room}/columns.tsv"
    Path(columns).write_bytes(b"bytes\thost\n5\t%b\n3\tb\n" % A)
    objects, padded, lines = b'{"h":"a","n":5}\n{"n":3,"h":"b"}\n', b"  5 a\n 3   b\n1 a \n", b'a\n"b,c\na\n'
    return [
        (["top", "2"], LONG_RECORDS, (0, A + b",6\n" + B + b",3\n", b"")),
        (["top", "--workers", "2", "2", records, records], b"", (0, A + b",12\n" + B + b",6\n", b"")),
        (["report", "--k", "2", "-d", "\\t", "-H", "--key", "host", "--weight", "bytes", columns], b"",
         (0, A + b",5\nb,3\n", b"")),
        (["summarise", "--k", "2", "--json", "--key", "h", "--weight", "n"], objects,
         (0, reference.summarise(b"a,5\nb,3\n", 2), b"")),
        (["report", "--k", "2", "--squeeze", "--key", "2", "--weight", "1"], padded, (0, b"a,6\n", b"")),
        (["report", "--k", "2", "--lines"], lines, (0, b"a,2\n", b"")),
        (["top", "1", "--lines"], lines, (0, b"a,2\n", b"")),
    ]


def of_tables(room: str, records: str, empty: bytes) -> list[Row]:
    """The commands that make tables or read them, by the family of an empty one."""
    words, path = ["table", "--depth", "2", "--width", "4"], f"{room}/table"
    table = hostile_records.table(RECORDS, empty)
    Path(path).write_bytes(table)
    return [
        (words, LONG_RECORDS, (0, hostile_records.table(LONG_RECORDS, empty), b"")),
        ([*words, "--workers", "2", records, records], b"", (0, hostile_records.table(LONG_RECORDS * 2, empty), b"")),
        (["merge", path, path], b"", (0, reference.merge([table, table]), b"")),
        (["ask", path, "a"], b"", (0, reference.ask(table, [b"a"]), b"")),
        (["describe", path], b"", (0, reference.describe(table), b"")),
    ]


def of_summaries(room: str, records: str, bad: str) -> list[Row]:
    """The commands that read summaries. Beside them stands the table of the others."""
    saved, long, twice, table = (f"{room}/{name}" for name in ("summary", "long", "twice", "table"))
    short, whole = reference.summarise(RECORDS, 2), reference.summarise(LONG_RECORDS, 2)
    for path, data in ((saved, short), (long, whole), (twice, reference.summarise(LONG_RECORDS * 2, 2))):
        Path(path).write_bytes(data)
    outside = reference.compared(reference.condense, whole, LONG_RECORDS * 2, False)
    return [
        (["merge", saved, saved], b"", (0, reference.merge([short, short]), b"")),
        (["merge", long, long], b"", (0, reference.merge([whole, whole]), b"")),
        (["merge", "-o", f"{room}/new", saved, saved], b"", (0, b"", b"")),
        (["ask", "-", "a"], short, (0, b"a,4,6\n", b"")),
        (["merge", saved, table], b"", (3, b"", b"heavy: file 2: another kind\n")),
        (["merge", f"{room}/none"], b"", (1, b"", b"heavy: file 1: could not be read\n")),
        (["ask", saved, "a", "z" * 40], b"", (0, b"a,4,6\n" + b"z" * 40 + b",0,2\n", b"")),
        (["ask", long, "a" * 40], b"", (0, A + b",4,6\n", b"")),
        (["list", saved], b"", (0, b"a,4,6\nb,1,3\n", b"")),
        (["list", long], b"", (0, A + b",4,6\n" + B + b",1,3\n", b"")),
        (["list", "--output", "json", long], b"",
         (0, b'{"key":"%b","low":4,"high":6}\n{"key":"%b","low":1,"high":3}\n' % (A, B), b"")),
        (["list", "--names", long], b"", (0, b"key,low,high\n" + A + b",4,6\n" + B + b",1,3\n", b"")),
        (["describe", saved], b"", (0, reference.describe(short), b"")),
        (["condense", saved], RECORDS, (0, reference.condense(short, RECORDS), b"")),
        (["condense", long], LONG_RECORDS, (0, reference.condense(whole, LONG_RECORDS), b"")),
        (["condense", "--workers", "2", long, records, records], b"", outside),
        (["confirm", saved], RECORDS, (0, b"a,6\n", b"")),
        (["confirm", long], LONG_RECORDS, (0, A + b",6\n", b"")),
        (["confirm", "--workers", "2", twice, records, records], b"", (0, A + b",12\n", b"")),
        (["confirm", "--workers", "2", twice, records, bad], b"", (3, b"", b"heavy: record 6: zero weight\n")),
        (["confirm", "--threshold", "1/2", saved], RECORDS, (0, b"a,6\n", b"")),
        (["ask", saved], b"", (2, b"", b"error: the following required arguments were not provided:")),
    ]


def of_words() -> list[Row]:
    """The command lines that are read, and nothing else."""
    version = re.search(r'^const VERSION: &str = "(.*)";$', VERSION.read_text(), re.M)[1]
    return [
        (["--help"], b"", (0, USAGE, b"")),
        (["--version"], b"", (0, f"heavy {version}\n".encode(), b"")),
        (["report", "--help"], b"", (0, USAGE, b"")),
        (["help", "report", "--help"], b"", (0, USAGE, b"")),
        (["report", "--nothing"], b"", (2, b"", b"error: unexpected argument '--nothing' found")),
        ([], b"", (2, b"", USAGE)),
    ]


def command_rows(program: str, room: str) -> list[Row]:
    """Command lines, each with its input and what is known of its answer; their files are written."""
    records, bad = f"{room}/records.csv", f"{room}/bad.csv"
    Path(records).write_bytes(LONG_RECORDS)
    Path(bad).write_bytes(b"a,5\nb,0\n")
    empty = programs.run([program, "table", "--depth", "2", "--width", "4"]).out
    return [
        *of_records(records, bad), *of_layouts(room, records), *of_tables(room, records, empty),
        *of_summaries(room, records, bad), *of_words(),
    ]


def refuse_command(refusing: Refusing, program: str, row: Row) -> None:
    """Runs a command of a program with each request for memory refused in turn, from the first one of the process on. With
    ample memory it makes some, and answers what is known."""
    (words, given, known), whole = row, [program, *row[0]]
    ample, _ = refusing.run(whole, 0, given, {})
    if not is_known(ample, known):
        refusing.tell(whole, 0, f"{ample} in place of {known}")
    if refusing.in_turn(whole, given, {}, is_lawful_run) == 0:
        refusing.tell(whole, 0, "it took no memory, so nothing was tried")


class RefusedMemory(programs.Checks):
    """Calls and command lines, with each request for memory refused in turn."""

    def setUp(self) -> None:
        super().setUp()
        self.refusing = Refusing(programs.preloaded("refuse.c", self.room))
        self.memory, self.program = programs.built("heavy_oom"), programs.built("heavy_cli")

    def check_all(self, rows: Iterable[Iterable[str]]) -> None:
        """That nothing was wrong with any of these rows of words."""
        for name in map(" ".join, rows):
            self.check(name, name not in self.refusing.wrong, self.refusing.wrong.get(name))
        print(f"refused memory: {self.refusing.runs} runs", flush=True)

    def test_calls(self) -> None:
        """All calls with short and with long keys."""
        can = [(of, name) for of, names in CALLS.items() for name in names]
        none = [(of, name) for of, names in TAKE_NONE.items() for name in names]
        rows = [(of, name, length) for of, name in can + none for length in ("short", "long")]

        def requests(row: tuple[str, str, str]) -> int:
            return self.refusing.in_turn([self.memory, *row], b"", MARKS, partial(is_lawful_call, row[1]))

        with ThreadPoolExecutor() as pool:
            made = dict(zip(rows, pool.map(requests, rows)))
        for of, name, length in rows:
            has_short_key = length == "short" and name in ("Key::new", "Key::of_bytes", "Key::copy")
            if made[of, name, length] > 0 and (has_short_key or (of, name) in none):
                self.refusing.tell([self.memory, of, name, length], 0, "it took memory")
            if made[of, name, "long"] == 0 and (of, name) in can and name != "SpaceSaving::into_summary":
                self.refusing.tell([self.memory, of, name, length], 0, "it took no memory, so nothing was tried")
            ample, _ = self.refusing.run([self.memory, of, name, length], 0, b"", MARKS)
            if length == "short" and name in ANSWERS and not ample.out.endswith(f"answer {ANSWERS[name]}\n".encode()):
                self.refusing.tell([self.memory, of, name, length], 0, f"it answers {ample.out!r}")
        self.check_all(rows)

    def test_many_keys(self) -> None:
        """Confirming the summary of 20,000 long keys makes no request for each key."""
        words = [self.memory, "heavy", "confirm many keys", "long"]
        ample, _ = self.refusing.run(words, 0, b"", MARKS)
        ended, was_refused = self.refusing.run(words, 41, b"", MARKS)
        if ample.out != b"answer \n" or not same(ample, ended) or was_refused:
            self.refusing.tell(words, 41, ended)
        self.check_all([words[1:]])

    def test_first_piece(self) -> None:
        """Of the refused runs of an analysis by one worker, most stop in the first pass over the first piece, of 2,000 keys of
        two bytes: so it is done by the worker, once, after one call of the gate."""
        words = [self.memory, "hh_pool", "analyse many keys", "short"]
        ample, _ = self.refusing.run(words, 0, b"", MARKS)
        once = more = 0
        for at in range(1, 1_000_000):
            ended, was_refused = self.refusing.run(words, at, b"", MARKS)
            if not was_refused:
                break
            first, _, rest = ended.out.partition(b"\n")
            if first.startswith(b"memory after ") and rest == ample.out:
                calls = int(first.split()[2])
                once, more = once + (calls == 1), more + (calls > 1)
            elif not same(ample, ended):
                self.refusing.tell(words, at, ended)
        if not (ample.out.endswith(b"answer 4 \n") and once > 500 and more < 250):
            self.refusing.tell(words, 0, f"{once} runs stopped after one call of the gate, {more} after more: {ample}")
        self.check_all([words[1:]])

    def test_commands(self) -> None:
        """All commands, from the first request of the process on."""
        rows = command_rows(self.program, self.room)
        with ThreadPoolExecutor() as pool:
            list(pool.map(partial(refuse_command, self.refusing, self.program), rows))
        self.check_all(words for words, _, _ in rows)


if __name__ == "__main__":
    programs.run_tests("refused memory")
