#!/usr/bin/env python3
"""Lists and describes saved files, and confirms summaries above shares of one's own, and prints first rows and
shares, beside the reference: worked cases,
refusals in their order, and random records on one machine and on several.

usage: tests/answers.py [CASES [SEED]]
"""
import random
import sys
from pathlib import Path

import programs
import reference

RECORDS = b"a,5\nb,3\nc,2\na,1\n"
KEYS = [b"a", b"b", b"c", b"ab", b"others", b'"a,b"', b"\xff", b"k" * 300]
BAD_SHARE = "threshold must be P/Q with 1 <= P <= Q <= 4294967296 and P*(K+1) >= Q"
CASES = int(sys.argv[1]) if len(sys.argv) > 1 else 300
SEED = int(sys.argv[2]) if len(sys.argv) > 2 else 7


def records(draw: random.Random) -> bytes:
    some = draw.sample(KEYS, draw.randrange(1, len(KEYS)))
    rows = (b"%s,%d\n" % (draw.choice(some), draw.choice([1, 1, 2, 9, 2**40])) for _ in range(draw.choice([0, 1, 5, 40])))
    return b"".join(rows)


def share(draw: random.Random) -> bytes:
    q = draw.choice([1, 2, 3, 10, 101, 2**32])
    return b"%d/%d" % (draw.randrange(0, q + 2), q)


class Answers(programs.Checks):
    """Each check is a run of the program."""

    def setUp(self) -> None:
        super().setUp()
        self.program = programs.built("heavy_cli")

    def run_heavy(self, words: list, given: bytes = b"") -> tuple[int, bytes, bytes]:
        ended = programs.run([self.program, *words], given, cwd=self.room)
        return ended.status, ended.out, ended.err

    def save(self, name: str, words: list, given: bytes = b"") -> bytes:
        status, out, err = self.run_heavy(words, given)
        self.check(f"{words} saves", (status, err) == (0, b""), (status, err))
        Path(self.room, name).write_bytes(out)
        return out

    def expect(self, words: list, expected: tuple[int, bytes, bytes], given: bytes = b"") -> None:
        found = self.run_heavy(words, given)
        self.check(f"{words} on {given[:80]!r}", found == expected, (found, expected))

    def refuses(self, words: list, text: str, status: int, given: bytes = b"") -> None:
        self.expect(words, (status, b"", f"heavy: {text}\n".encode()), given)

    def test_list_by_hand(self) -> None:
        self.save("day", ["summarise", "--k", "2"], RECORDS)
        self.expect(["list", "day"], (0, b"a,4,6\nb,1,3\n", b""))
        self.save("even", ["summarise", "--k", "5"], b"b,2\na,2\nc,7\n\"d,e\",2\n")
        self.expect(["list", "even"], (0, b'c,7,7\na,2,2\nb,2,2\n"d,e",2,2\n', b""))
        self.save("none", ["summarise"])
        self.expect(["list", "none"], (0, b"", b""))

    def test_list_refuses(self) -> None:
        self.save("table", ["table", "--width", "8"], RECORDS)
        self.refuses(["list", "table"], "file 1: not a counter summary", 3)
        self.refuses(["list", "missing"], "file 1: could not be read", 1)
        Path(self.room, "short").write_bytes(b"HHS2")
        self.refuses(["list", "short"], "file 1: truncated", 3)

    def test_describe_by_hand(self) -> None:
        day = self.save("day", ["summarise", "--k", "2"], RECORDS)
        facts = b"kind,summary\nk,2\nkeys,2\ntotal,11\ncounters,5\nslack,2\n"
        self.expect(["describe", "day"], (0, b"version,2\n" + facts, b""))
        Path(self.room, "old").write_bytes(reference.written(reference.read(day), b"HHS1"))
        self.expect(["describe", "old"], (0, b"version,1\n" + facts, b""))
        self.save("table", ["table", "--width", "8", "--depth", "3"], RECORDS)
        facts = b"version,2\nkind,table\ndepth,3\nwidth,8\ntotal,11\n"
        self.expect(["describe", "table"], (0, facts, b""))
        self.refuses(["describe", "missing"], "file 1: could not be read", 1)
        Path(self.room, "short").write_bytes(b"HHS2")
        self.refuses(["describe", "short"], "file 1: truncated", 3)

    def test_confirm_above_by_hand(self) -> None:
        self.save("day", ["summarise", "--k", "9"], RECORDS)
        for given, rows in [("1/10", b"a,6\nb,3\nc,2\n"), ("1/4", b"a,6\nb,3\n"), ("6/11", b""), ("5/11", b"a,6\n")]:
            self.expect(["confirm", "--threshold", given, "day"], (0, rows, b""), RECORDS)

    def test_confirm_above_refuses_in_order(self) -> None:
        self.save("day", ["summarise", "--k", "2"], RECORDS)
        self.save("table", ["table", "--width", "8"], RECORDS)
        bad = ["confirm", "--threshold", "1/4"]
        self.refuses([*bad, "missing"], "file 1: could not be read", 1, b"a,0\n")
        self.refuses([*bad, "table"], "file 1: not a counter summary", 3, b"a,0\n")
        for given in ("1/4", "0/1", "x", ""):
            self.refuses(["confirm", "--threshold", given, "day"], BAD_SHARE, 2, b"a,0\n")
        self.refuses(["confirm", "--threshold", "1/2", "day"], "record 1: zero weight", 3, b"a,0\n")
        self.refuses(["confirm", "--threshold", "1/2", "day"], "file 1: its total is not the input's", 3, b"a,5\n")

    def test_random_records(self) -> None:
        draw = random.Random(SEED)
        for _ in range(CASES):
            text, k, above = records(draw), draw.choice([1, 2, 3, 5, 100]), share(draw)
            saved = self.save("day", ["summarise", "--k", str(k)], text)
            listed = reference.answer(reference.list_keys, saved)
            self.expect(["list", "day"], listed)
            keys = [fields[0] for fields in reference.fields_of(b"\n" + listed[1])]
            if keys:
                self.expect(["ask", "day", "--", *keys], listed)
            self.expect(["describe", "day"], reference.answer(reference.describe, saved))
            confirmed = reference.answer(reference.confirm, saved, text, above)
            self.expect(["confirm", "--threshold", above, "day"], confirmed, text)

    def test_random_rows(self) -> None:
        draw = random.Random(SEED + 2)
        for _ in range(CASES):
            text, k, above = records(draw), draw.choice([1, 2, 5, 100]), share(draw)
            top, shared = draw.choice([None, 0, 1, 2, 7]), draw.random() < 0.7
            words = [*([] if top is None else ["--top", str(top)]), *["--share"] * shared, "--threshold", above]
            printed = reference.answer(reference.report, text, k, above, top, shared)
            self.expect(["report", "--k", str(k), *words], printed, text)
            saved = self.save("day", ["summarise", "--k", str(k)], text)
            printed = reference.answer(reference.confirm, saved, text, above, top, shared)
            self.expect(["confirm", *words, "day"], printed, text)

    def test_random_machines(self) -> None:
        draw = random.Random(SEED + 1)
        for _ in range(CASES // 10):
            parts, k, above = [records(draw) for _ in range(3)], draw.choice([1, 2, 5]), share(draw)
            for number, part in enumerate(parts):
                self.save(str(number), ["summarise", "--k", str(k)], part)
            self.save("all", ["merge", "0", "1", "2"])
            condensed = b"".join(self.run_heavy(["condense", "all"], part)[1] for part in parts)
            whole = reference.answer(reference.report, b"".join(parts), k, above)
            self.expect(["confirm", "--threshold", above, "all"], whole, condensed)


if __name__ == "__main__":
    programs.run_tests("answers")
