#!/usr/bin/env python3
"""Reports and summaries that workers make by tallies of the pieces that they read. A report is set beside the one that a
single thread makes by a plan, and a summary beside the weights that a second reader finds: its bounds hold for each key, and
it is merged, asked, listed and confirmed as any.

usage: tests/tallies.py [CASES [SEED]]

Prints the seed, how many cases ran and differed, of each kind. Each case has a seed of its own, one more than the case
before it, and one that fails is told with the command that repeats it.
"""
import os
import shutil
import sys
import time
from collections.abc import Iterator
from pathlib import Path
from random import Random

import programs
import reference
from report_files import LAYOUTS, RECORDS, quoted, text_of, woven

LONGEST = 4096
# the most keys that a tally keeps, and the most bytes of them
ROOM, MOST_BYTES = 4096, 4 * 1024 * 1024
# what is refused, or reads in another way, where it stands among records
ODD = [b'"', b'"open', b",", b"a,0\n", b"a,-\n", b",7\n", b"a,b,c\n", b"a,x\n", b"a,9223372036854775807\n", b"\xef\xbb\xbf", b"\r"]


def chosen() -> tuple[int, int]:
    """The number of cases and the seed, as the command line has them."""
    cases = int(sys.argv[1]) if len(sys.argv) > 1 else 60
    return cases, int(sys.argv[2]) if len(sys.argv) > 2 else time.time_ns() % 1_000_000_007


def drawn_cases(cases: int, seed: int) -> Iterator[tuple[Random, str]]:
    """The cases that are drawn: each with random numbers of its own, and the command that repeats it."""
    for own in range(seed, seed + cases):
        yield Random(own), f"tests/tallies.py 1 {own}"


def key_of(number: int, longest: int) -> bytes:
    """The key with this number, which has up to so many bytes: commas or ends of lines in some."""
    inside = (b"k", b"k", b"k", b"k", b",", b"\n", b"\r\n")[number % 7]
    return (b"%d" % number + inside * LONGEST)[: 1 + number * 7919 % longest]


def counts_of(random: Random) -> tuple[int, int, int]:
    """How many records a text has, of how many keys, and how long these are. One text in a hundred has more bytes of keys than
    a tally keeps."""
    if random.random() < 0.01:
        return 3 * MOST_BYTES // LONGEST, 4 * MOST_BYTES // LONGEST, LONGEST
    longest = random.choice([1, 2, 8, 24, 24, 255, LONGEST])
    count = random.choice([0, 1, 5, 50, 500, 500, 500, 9_000, 20_000])
    if longest > 24:
        count = min(count, 100)
    return count, random.choice([3, 100, 3 * ROOM]), longest


def keyed(random: Random) -> bytes:
    """A text of records by few keys or many, of which one in four has something odd somewhere."""
    count, keys, longest = counts_of(random)
    decimals = random.random() < 0.2
    end = random.choice([b"\n", b"\n", b"\r\n"])
    parts = []
    for _ in range(count):
        key = key_of(int(keys ** random.random()) if keys < count else random.randrange(keys), longest)
        weight = b"" if random.random() < 0.2 else b",%d" % random.randrange(1, 1000)
        parts.append(quoted(key) + weight + (b".5" if decimals and weight else b"") + end)
    if random.random() < 0.25:
        parts.insert(random.randrange(len(parts) + 1), random.choice(ODD))
    text = b"".join(parts)
    return text[: random.randrange(len(text) + 1)] if random.random() < 0.1 else text


def drawn_text(random: Random) -> bytes:
    """A text of any kind."""
    return random.choices([keyed, text_of, woven], [8, 2, 1])[0](random)


def honest(summary: reference.Summary, items: list[reference.Item], k: int) -> bool:
    """Whether a summary with k counters bounds the weight of each key as one that is made item by item does."""
    weights, counters = reference.weights_of(items), summary.counters
    lacking = summary.total - sum(counters.values())
    return (
        (summary.k, summary.total) == (k, reference.total_of(items))
        and len(counters) <= k
        and all(counter <= weights.get(key, 0) for key, counter in counters.items())
        and all((k + 1) * (weight - counters.get(key, 0)) <= lacking for key, weight in weights.items())
    )


class Tallies(programs.Checks):
    """What workers tally."""

    def setUp(self) -> None:
        super().setUp()
        self.program = programs.built("heavy_cli")

    def saved(self, name: str, data: bytes) -> str:
        Path(self.room, name).write_bytes(data)
        return f"{self.room}/{name}"

    def files(self, texts: list[bytes]) -> list[str]:
        return [self.saved(f"{place}.csv", text) for place, text in enumerate(texts)]

    def heavy(self, *words: str | bytes) -> tuple[int, bytes, bytes]:
        ended = programs.run([self.program, *words])
        return ended.status, ended.out, programs.first_line(ended.err)

    def test_by_hand(self) -> None:
        """The summary of four records, which one thread makes and workers do; and records that are refused."""
        wanted = reference.written(reference.Summary(2, 11, {b"a": 4, b"b": 1}))
        for texts in ([RECORDS], [RECORDS[:8], RECORDS[8:]], [b"a,5\nb,3", b"c,2\na,1"], [b"", RECORDS], [b"a,5\n", b"b,3\n", b"c,2\n", b"a\n"]):
            for words in ([], ["--workers", "1"], ["--workers", "2"], ["--workers", "64"], ["--method", "ss", "--workers", "4"]):
                found = self.heavy("summarise", "--k", "2", *words, *self.files(texts))
                self.check(f"{words} of {texts}", found == (0, wanted, b""), found)
        refused = (3, b"", b"heavy: record 3: zero weight\n")
        found = self.heavy("summarise", "--workers", "3", *self.files([b"a,5\nb,3\n", b"c,0\n", b"d,0\n"]))
        self.check("a record that is refused", found == refused, found)
        found = self.heavy("summarise", "--method", "x", "--k", "0", "--workers", "0", *self.files([b"c,0\n"]))
        self.check("a method that is refused", found == (2, b"", b"heavy: method must be mg or ss\n"), found)

    def test_room(self) -> None:
        """Keys that are as many as a tally keeps have exact counters, and of one more something is lost: all weigh the same,
        so no summary of them has a counter. With more bytes than a tally keeps it is the same."""
        most = MOST_BYTES // LONGEST
        for count, longest in ((ROOM, 9), (ROOM + 1, 9), (most, LONGEST), (most + 1, LONGEST)):
            keys = [b"%0*d" % (longest, number) for number in range(count)]
            text = b"".join(key + b"\n" for key in keys)
            for words in (["report", "--k", "1"], ["report", "--k", "1", "--pieces", "3"]):
                found = self.heavy(*words, *self.files([text]))
                self.check(f"{words} of {count} keys", found == (0, b"", b""), found)
            wanted = reference.written(reference.Summary(7, count, {}))
            found = self.heavy("summarise", "--k", "7", "--workers", "2", *self.files([text]))
            self.check(f"a summary of {count} keys", found == (0, wanted, b""), found)
            heavy = self.heavy("report", "--k", "1", *self.files([text + keys[0] + b",%d\n" % (count + 1)]))
            self.check(f"the heaviest of {count} keys", heavy == (0, keys[0] + b",%d\n" % (count + 2), b""), heavy)

    def reads(self, *words: str) -> tuple[list[int], bytes]:
        """How many bytes the system gave a run in each reading, and what it printed."""
        log = self.saved("log", b"")
        traced = ["strace", "-f", "-qq", "-e", "trace=read,pread64", "-o", log, self.program, *words]
        ended = programs.run(traced, env=dict(os.environ))
        results = [line.rpartition(b"= ")[2] for line in Path(log).read_bytes().splitlines()]
        return [int(result) for result in results if result.isdigit()], ended.out

    def bytes_read(self, *words: str) -> tuple[int, bytes]:
        """How many bytes the system counts as read by a run, and what it printed."""
        counts, out = self.reads(*words)
        return sum(counts), out

    def want_strace(self) -> None:
        if not shutil.which("strace") or programs.run(["strace", "-qq", "-o", "/dev/null", "true"], env=dict(os.environ)).status != 0:
            self.skipTest("what is read wants strace, and leave to trace")

    def test_readings(self) -> None:
        """A report reads a file once where each key that can be heavy has kept its counter since before any was lost, and
        twice where one came late, or lost its counter and came again. It is exact all the same. So do the greatest keys."""
        self.want_strace()
        others = [b"other%015d,1\n" % number for number in range(10 * ROOM)]
        early = [b"early,%d\n" % (number % 9 + 1) for number in range(2 * ROOM)]
        late = [b"late,%d\n" % (number % 9 + 1) for number in range(2 * ROOM)]
        sum_of = sum(number % 9 + 1 for number in range(2 * ROOM))
        known, counted = b"early,%d\n" % sum_of, b"late,%d\n" % sum_of
        for name, parts, times, rows in [
            ("a key that comes first", [*early, *others], 1, known),
            ("one that comes last", [*others, *late], 2, counted),
            ("one that comes again", [b"late,1\n", *others, *late], 2, b"late,%d\n" % (sum_of + 1)),
            ("both", [*early, *others, *late], 2, known + counted),
            ("no heavy key", others, 1, b""),
        ]:
            text = b"".join(parts)
            commands = [["report", "--k", "9"]] + ([["top", "--memory", "1", str(rows.count(b"\n"))]] if rows else [])
            for words in commands:
                read, out = self.bytes_read(*words, "--workers", "1", *self.files([text]))
                self.check(f"{words[0]} of {name}", out == rows, out)
                self.check(f"{words[0]} reads {name} {times} times", times <= read / len(text) < times + 0.5, read / len(text))

    def test_readings_of_long_records(self) -> None:
        """A record that is longer than what is held of a text is read in large parts, whatever is held when it begins."""
        self.want_strace()
        for length in (17_000, 200_000):
            text = b"".join(b"a,%s,3\n" % (b"x" * size) for size in (length, 300_000))
            counts, out = self.reads("report", "--key", "1", "--weight", "3", "--no-quotes", "--pieces", "1", *self.files([text]))
            self.check(f"a long record behind {length} bytes", out == b"a,6\n" and len(counts) < 100, (out, len(counts)))

    def test_readings_for_notes(self) -> None:
        """For notes nothing but the ends of a file is read again: with --explain one worker reads a long file once."""
        self.want_strace()
        for name, row in (("plain", b"other%015d,1\n"), ("quoted", b'"other%015d",1\n')):
            text = b"early,%d\n" % (200 * ROOM) + b"".join(row % number for number in range(120 * ROOM))
            paths = self.files([text])
            for words in (["report"], ["summarise"], ["table"], ["report", "--pieces", "2"]):
                words = [*words, "--workers", "1"]
                plain, told = (self.bytes_read(*words, *more, *paths)[0] for more in ([], ["--explain"]))
                self.check(f"{words} reads {name} records once", 1 <= told / len(text) <= 1.05, told / len(text))
                self.check(f"{words} reads no more than the first bytes for --explain", told - plain <= 65_536, told - plain)

    def test_reports(self) -> None:
        """A report by tallies has the rows and the refusals of that which one thread makes by a plan."""
        cases, seed = chosen()
        differed, refused, printed = 0, 0, 0
        for random, again in drawn_cases(cases, seed):
            texts = [drawn_text(random) for _ in range(random.choice([1, 1, 1, 2, 3]))]
            words = ["--k", random.choice(["1", "3", "20", "100", "5000"]), *random.choice(LAYOUTS)]
            if random.random() < 0.3:
                words += random.choice([["--top", "3"], ["--share"], ["--threshold", "1/2"]])
            paths = self.files(texts)
            here = self.heavy("report", *words, "--workers", random.choice(["1", "2", "4", "64"]), *paths)
            there = self.heavy("report", *words, "--workers", "1", "--pieces", "1", *paths)
            differed += here != there
            refused += there[0] != 0
            printed += there[1] != b""
            self.check(f"again by {again}", here == there, (words, [text[:200] for text in texts], here, there))
        print(f"seed {seed}: {cases} cases of reports, {refused} refused, {printed} with rows, {differed} differ")

    def test_reports_once(self) -> None:
        """A report by one reading has the rows of any, or is refused where these can't be certain."""
        cases, seed = chosen()
        printed, open_ones = 0, 0
        for random, again in drawn_cases(cases, seed):
            texts = [drawn_text(random) for _ in range(random.choice([1, 1, 2]))]
            words = ["--k", random.choice(["1", "3", "20", "100", "5000"]), *random.choice(LAYOUTS)]
            paths = self.files(texts)
            once = self.heavy("report", *words, "--once", "--memory", random.choice(["0", "1", "9"]), *paths)
            again_read = self.heavy("report", *words, "--workers", "1", *paths)
            is_open = once[0] == 3 and once[1] == b"" and once[2].startswith(b"heavy: of the heavy keys only ")
            self.check(f"again by {again}", once == again_read or is_open and again_read[0] == 0, (words, [text[:200] for text in texts], once))
            printed += once[1] != b""
            open_ones += is_open
        print(f"seed {seed}: {cases} cases of reports by one reading, {printed} with rows, {open_ones} left open")

    def test_summaries(self) -> None:
        """What workers summarise bounds each weight, and is merged, asked, listed and confirmed as any."""
        cases, seed = chosen()
        cases = (cases + 2) // 3
        wrong, refused = 0, 0
        for random, again in drawn_cases(cases, seed):
            texts, k = [drawn_text(random) for _ in range(random.choice([1, 1, 2, 3]))], random.choice([1, 3, 100, 5000])
            paths, words = self.files(texts), ["summarise", "--k", str(k)]
            one = self.heavy(*words, *paths)
            found = self.heavy(*words, "--workers", random.choice(["2", "4", "9"]), *paths)
            holds = found == one if one[0] != 0 else self.is_summary(found, one[1], texts, paths, k)
            wrong += not holds
            refused += one[0] != 0
            self.check(f"again by {again}", holds, (words, [text[:200] for text in texts], found, one))
        print(f"seed {seed}: {cases} cases of summaries, {refused} refused, {wrong} wrong")

    def is_summary(self, found: tuple[int, bytes, bytes], one: bytes, texts: list[bytes], paths: list[str], k: int) -> bool:
        """Whether this run made a summary of the files, which serves as another of them does."""
        status, data, said = found
        if (status, said) != (0, b""):
            return False
        items = [item for text in texts for item in reference.items_of(text)]
        keys = [key for key, _ in items[:2] if key not in (b"-", b"--") and b"\0" not in key] + [b"none"]
        this, other = self.saved("this", data), self.saved("other", one)
        rows = reference.rows_text(reference.heavy(items, 1, k + 1))
        return (
            honest(reference.read(data), items, k)
            and self.heavy("confirm", this, *paths) == (0, rows, b"")
            and self.heavy("merge", this, other) == reference.answer(reference.merge, [data, one])
            and self.heavy("list", this) == reference.answer(reference.list_keys, data)
            and self.heavy("ask", this, "--", *keys) == reference.answer(reference.ask, data, keys)
        )


if __name__ == "__main__":
    programs.run_tests("tallies")
