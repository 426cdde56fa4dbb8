#!/usr/bin/env python3
"""Splits random records into parts, summarises each, merges the summaries by random trees, condenses each part by what was
merged, and confirms the condensed parts together: the report has to be that of all records, as `heavy report` prints
it. A part left out or doubled has to be noticed by its weight, and what is not noticed is shown.

usage: tests/machines.py [CASES [SEED]]

Prints the seed, and how many cases passed.
"""
import os
import random
import sys
import tempfile
from concurrent.futures import ThreadPoolExecutor
from pathlib import Path

import programs
import reference

KEYS = [b"a", b"b", b"c", b"d", b"ab", b"others", b"others1", b"others2", b'"a,b"', b'"a""b"', b'"a\nb"', b"\xff", b"k" * 40]
# a text of records loses a byte order mark at its start, so a key that begins with one stands elsewhere
MARKED = b"\xef\xbb\xbfa"
DIFFERS = (3, b"", b"heavy: file 1: its total is not the input's\n")
OUTSIDE = b"heavy: file 1: a key's weight in the input is outside its bounds\n"


def part(draw: random.Random) -> bytes:
    """The records of one machine, which may have none."""
    some = draw.sample(KEYS, draw.randrange(1, len(KEYS)))
    rows = [b"%s,%d\n" % (draw.choice(some), draw.choice([1, 1, 2, 9, 2**40])) for _ in range(draw.choice([0, 1, 5, 40]))]
    rows += [b"%s,3\n" % MARKED] * (bool(rows) and draw.random() < 0.5)
    return b"".join(rows)


class Machines:
    """Parts of a stream, each with a folder of its own, and the four lines of the recipe."""

    def __init__(self, program: str, room: str, parts: list[bytes], k: int) -> None:
        self.program, self.room, self.parts, self.k = program, room, parts, k

    def said(self, words: list[str], given: bytes = b"") -> tuple[int, bytes, bytes]:
        ended = programs.run([self.program, *words], given)
        return ended.status, ended.out, ended.err

    def made(self, words: list[str], given: bytes = b"") -> bytes:
        status, out, err = self.said(words, given)
        if status != 0:
            raise AssertionError((words, status, err))
        return out

    def saved(self, name: str, data: bytes) -> str:
        path = Path(self.room, name)
        path.write_bytes(data)
        return str(path)

    def merged(self, draw: random.Random) -> str:
        """The file that a random tree of merges makes of the parts' summaries, in a random order."""
        options = ["summarise", "--k", str(self.k)]
        files = [self.saved(f"{i}.heavy", self.made(options, text)) for i, text in enumerate(self.parts)]
        draw.shuffle(files)
        number = 0
        while len(files) > 1:
            at = draw.randrange(len(files))
            some = files[at : at + draw.choice([2, 2, 3])]
            files[at : at + len(some)] = [self.saved(f"merged{number}", self.made(["merge", *some]))]
            draw.shuffle(files)
            number += 1
        return files[0]

    def confirmed(self, summary: str, condensed: list[bytes], *words: str) -> tuple[int, bytes, bytes]:
        return self.said(["confirm", *words, summary], b"".join(condensed))


def share(draw: random.Random, k: int) -> str:
    """A share P/Q of at least 1/(k + 1)."""
    q = draw.randrange(1, 4 * k + 9)
    return f"{draw.randint(-(-q // (k + 1)), q)}/{q}"


def tried(program: str, seed: int) -> str | None:
    """What was wrong with a case, if anything."""
    draw = random.Random(seed)
    parts, k = [part(draw) for _ in range(draw.randrange(1, 6))], draw.choice([1, 2, 3, 5, 100])
    with tempfile.TemporaryDirectory() as room:
        machines = Machines(program, room, parts, k)
        summary = machines.merged(draw)
        # by an option of records a key outside its bounds would be refused
        condensed = [machines.made(["condense", "--delimiter", ",", summary], text) for text in parts]
        report = machines.made(["report", "--k", str(k), "--width", "8"], b"".join(parts))
        expected = reference.report(b"".join(parts), k)
        draw.shuffle(condensed)
        found = machines.confirmed(summary, condensed)
        if not found == (0, report, b"") == (0, expected, b""):
            return f"{found} in place of {report} and {expected}, of {parts}"
        above = share(draw, k)
        words = ["--threshold", above]
        report = machines.made(["report", "--k", str(k), *words], b"".join(parts))
        expected = reference.report(b"".join(parts), k, above.encode())
        found = machines.confirmed(summary, condensed, "--delimiter", ",", *words)
        if not found == (0, report, b"") == (0, expected, b""):
            return f"above {above}: {found} in place of {report} and {expected}, of {parts}"
        at = draw.randrange(len(condensed))
        report = reference.report(b"".join(parts), k)
        for name, some in (("left out", condensed[:at] + condensed[at + 1 :]), ("doubled", [*condensed, condensed[at]])):
            found, wanted = machines.confirmed(summary, some), DIFFERS if condensed[at] else (0, report, b"")
            if found != wanted:
                return f"a part {name}: {found} in place of {wanted}"
    return None


class SeveralMachines(programs.Checks):
    """Parts of records on several machines."""

    def setUp(self) -> None:
        super().setUp()
        self.program = programs.built("heavy_cli")

    def test_cases(self) -> None:
        """So many cases, each of a seed."""
        cases = int(sys.argv[1]) if len(sys.argv) > 1 else 100
        first = int(sys.argv[2]) if len(sys.argv) > 2 else random.randrange(2**30)
        print(f"machines: seed {first}", flush=True)
        seeds = range(first, first + cases)
        with ThreadPoolExecutor(os.cpu_count()) as pool:
            for seed, wrong in zip(seeds, pool.map(lambda seed: tried(self.program, seed), seeds)):
                self.check(f"case of seed {seed}", wrong is None, wrong)

    def test_outside_bounds(self) -> None:
        """What the total can't tell, and the bounds do: a part that another summary condensed, and one part lost and another
        doubled."""
        machines = Machines(self.program, self.room, [b"a,6\n", b"b,6\n"], 3)
        other = machines.saved("other", machines.made(["summarise", "--k", "3"], b"b,1\n"))
        summary = machines.merged(random.Random(0))
        one, two = [machines.made(["condense", summary], text) for text in machines.parts]
        strange = machines.made(["condense", other], machines.parts[0])
        note = "heavy: note: these aren't the records that were summarised: %s has \"a\" from 6 to 6, and the records have %d\n"
        for name, condensed, rows, weight in [
            ("a part by another summary", [strange, two], b"b,6\n", 0), ("one part lost and one doubled", [one, one], b"a,12\n", 12),
        ]:
            self.check(name, machines.confirmed(summary, condensed) == (0, rows, (note % (summary, weight)).encode()))
            found = machines.confirmed(summary, condensed, "--delimiter", ",")
            self.check(f"{name}, refused", found == (3, b"", OUTSIDE), found)


if __name__ == "__main__":
    programs.run_tests("machines")
