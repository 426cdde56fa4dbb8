#!/usr/bin/env python3
"""Runs the program at the ends of its ranges: most counters, most cells, many files, many words, all bytes in words,
many records, and readers that are interrupted or would block. What it has to say is counted by hand.

usage: tests/full_size.py
"""
import os
import re
import subprocess
import tempfile
from pathlib import Path
from typing import BinaryIO

import programs
import reference

RECORDS = b"a,5\nb,3\nc,2\na,1\n"
MOST_K = 65_535
# how many parts a text has that is read part by part, and fewer reads than so many are made besides, most to start a program
PARTS, STARTING = 64, 32


def reads_of(words: list[str], records: BinaryIO | int, status: int = 0) -> int:
    """How many reads a program makes by the kernel's count, from its start to its end, with these records on standard input.
    It ends with this status."""
    running = subprocess.Popen(words, stdin=records, stdout=subprocess.DEVNULL, stderr=subprocess.DEVNULL)
    os.waitid(os.P_PID, running.pid, os.WEXITED | os.WNOWAIT)
    counted = re.search(r"syscr: (\d+)", Path(f"/proc/{running.pid}/io").read_text())
    assert running.wait() == status, words
    return int(counted[1])


class FullSize(programs.Checks):
    """Runs the program in a folder, and compares what it says."""

    def setUp(self) -> None:
        super().setUp()
        self.program = programs.built("heavy_cli")

    def heavy(self, words: list, given: bytes = b"", **how) -> programs.Ended:
        return programs.run([self.program, *words], given, cwd=self.room, **how)

    def save(self, name: str, data: bytes) -> str:
        Path(self.room, name).write_bytes(data)
        return name

    def expect(self, name: str, words: list, out: bytes, given: bytes = b"", **how) -> None:
        ended = self.heavy(words, given, **how)
        said = (ended.status, len(ended.out), ended.out[:200], ended.err[:200])
        self.check(name, (ended.status, ended.out, ended.err) == (0, out, b""), said)

    def refuses(self, name: str, words: list, status: int, text: str, given: bytes = b"") -> None:
        ended = self.heavy(words, given)
        said = (ended.status, ended.out[:200], ended.err[:200])
        self.check(name, said == (status, b"", f"heavy: {text}\n".encode()), said)

    def test_most_counters(self) -> None:
        """k = 65,535: as many keys of weight 3, and one of weight 1. The total is 196,606, of which 3 * 65,536 is more and
        65,536 less, so all but the one are heavy. The summary drops the one and lowers each other by 1."""
        keys = [b"%05d" % number for number in range(MOST_K)]
        records = [key + b",3\n" for key in keys]
        text = b"".join(records) + b"z,1\n"
        options = ["--k", str(MOST_K)]
        self.expect("most rows of a report", ["report", *options], b"".join(records), b"z,1\n" + b"".join(records[::-1]))
        summary = reference.Summary(MOST_K, 3 * MOST_K + 1, {key: 2 for key in keys})
        name = self.save("most", reference.written(summary))
        for method in ("mg", "ss"):
            words = ["summarise", *options, "--method", method]
            self.expect(f"most counters by {method}", words, reference.written(summary), text)
        merged = reference.Summary(MOST_K, 2 * summary.total, {key: 4 for key in keys})
        self.expect("most counters merged", ["merge", name, name], reference.written(merged))
        # the slack is (196,606 - 131,070) / 65,536 = 1
        self.expect("most rows of ask", ["ask", name, *keys], b"".join(key + b",2,3\n" for key in keys))
        self.expect("most rows of confirm", ["confirm", name], b"".join(records), text)
        self.expect("most records of condense", ["condense", name], b"".join(records) + b"others,1\n", text)

    def test_lighter_newcomers(self) -> None:
        """k = 65,535: as many keys of weight 60,000, and 50,000 others of weight 1, each of which lowers all counters by 1."""
        keys = [b"%05d" % number for number in range(MOST_K)]
        text = b"".join(key + b",60000\n" for key in keys) + b"".join(b"new%d\n" % number for number in range(50_000))
        summary = reference.Summary(MOST_K, 60_000 * MOST_K + 50_000, {key: 10_000 for key in keys})
        for method in ("mg", "ss"):
            words = ["summarise", "--k", str(MOST_K), "--method", method]
            self.expect(f"lighter newcomers by {method}", words, reference.written(summary), text)

    def test_keys_with_one_end(self) -> None:
        """20,000 keys whose last eight bytes are those that a hash by multiplying has at 0: each is a row, once."""
        end = (0x9E37_79B9_7F4A_7C15).to_bytes(8, "little")
        keys = [b"%08d" % (number * 7919 % 20_000) + end for number in range(20_000)]
        text, rows = b"".join(key + b"\n" for key in keys), b"".join(key + b",1\n" for key in sorted(keys))
        self.expect("a report of keys with one end", ["report", "--k", str(MOST_K)], rows, text)
        summary = reference.written(reference.Summary(MOST_K, 20_000, {key: 1 for key in keys}))
        for method in ("mg", "ss"):
            words = ["summarise", "--k", str(MOST_K), "--method", method]
            self.expect(f"a summary of keys with one end by {method}", words, summary, text)
        name = self.save("ends", summary)
        self.expect("keys with one end confirmed", ["confirm", name], rows, text)
        self.expect("keys with one end condensed", ["condense", name], rows, text)

    def test_most_cells(self) -> None:
        """A table of 16 rows of 65,536 cells, written, read back and merged: each row has each key at its place."""
        items = [(b"key%d" % number, number + 1) for number in range(300)]
        text = b"".join(b"%b,%d\n" % item for item in items)
        ended = self.heavy(["table", "--width", "65536", "--depth", "16", "--seed", "3"], text)
        self.check("most cells", (ended.status, len(ended.out)) == (0, 282 + 16 * 65_536 * 8), ended.err)
        table = reference.read(ended.out)
        for (key, weight) in items:
            for row, place in zip(table.cells, reference.places(table, key)):
                row[place] -= weight
        self.check("each cell is its keys' weights", not any(map(any, table.cells)) and table.total == 45_150)
        name = self.save("table", ended.out)
        asked = self.heavy(["ask", name, *(key for key, _ in items)]).out.splitlines()
        told = [tuple(map(int, row.split(b",")[1:])) for row in asked]
        self.check("estimates of a read table", told == [(0, weight) for _, weight in items], told[:5])
        cells = reference.read(ended.out).cells
        doubled = reference.Table(65_536, table.z, table.rows, 2 * table.total, [[2 * it for it in row] for row in cells])
        self.expect("most cells merged", ["merge", name, name], reference.written(doubled))

    def test_many_files(self) -> None:
        """1,000 files, each with a key of its own and one that all have. Then one is missing, and one has another k."""
        names, counters = [], {b"all": 0}
        for number in range(1, 1001):
            own = {b"own%d" % number: number, b"all": 1}
            counters = {**counters, b"own%d" % number: number, b"all": number}
            summary = reference.Summary(2000, number + 1, own)
            names.append(self.save(f"{number}.heavy", reference.written(summary)))
        merged = reference.written(reference.Summary(2000, 501_500, counters))
        self.expect("1,000 files", ["merge", *names], merged)
        self.save("other", reference.written(reference.Summary(3, 0, {})))
        for place in (3, 17, 18, 19, 256, 257, 300, 1000):
            for name, status, text in (("none", 1, "could not be read"), ("other", 3, "another k")):
                files = [*names[: place - 1], name, *names[place:]]
                self.refuses(f"file {place} of 1,000 is {name}", ["merge", *files], status, f"file {place}: {text}")
        self.refuses("one of three files is missing", ["merge", *names[:2], "none"], 1, "file 3: could not be read")

    def test_many_words(self) -> None:
        """5,000 keys in another order, each with bounds of its own; keys 256, 257 and 5,000 are refused."""
        keys = [b"key%d" % (number * 7919 % 5000) for number in range(5000)]
        counters = {key: number + 1 for number, key in enumerate(keys)}
        name = self.save("many", reference.written(reference.Summary(5000, sum(counters.values()), counters)))
        rows = b"".join(b"%b,%d,%d\n" % (key, counters[key], counters[key]) for key in keys)
        self.expect("5,000 keys", ["ask", name, *keys], rows)
        for place in (256, 257, 5000):
            words = [*keys[: place - 1], b"", *keys[place:]]
            self.refuses(f"key {place} of 5,000 is empty", ["ask", name, *words], 3, f"key {place}: empty")

    def test_all_bytes(self) -> None:
        """Each byte that a word can have, alone, behind another, before another and in a word of all; each key has a
        counter of its own. The byte 0 stands in keys of records alone."""
        each = [bytes([byte]) for byte in range(1, 256)]
        texts = [*each, *(b"a" + text for text in each), *(text + b"\xff" for text in each), b"".join(each)]
        texts.append(b"".join(each) * 16)
        counters = {text: number + 1 for number, text in enumerate(texts)}
        counters[b"\0"], counters[b"a\0"] = 5000, 6000
        saved = reference.written(reference.Summary(1000, sum(counters.values()), counters))
        name = self.save("bytes", saved)
        self.expect("all bytes in words", ["ask", name, "--", *texts], reference.ask(saved, texts))
        text = reference.rows_text([*counters.items()])
        self.expect("all bytes in records", ["confirm", name], reference.confirm(saved, text), text)

    def test_many_records(self) -> None:
        """10^7 records of 100 keys: each of 10 heavy ones comes 910,000 times, and each other 10,000 times."""
        block = b"".join(b"heavy%d,%d\n" % (number, number + 1) for number in range(10)) * 91
        block += b"".join(b"light%d\n" % (number * 3 % 90) for number in range(90))
        text = block * 10_000
        self.check("10,000,000 records", text.count(b"\n") == 10_000_000, text.count(b"\n"))
        rows = b"".join(b"heavy%d,%d\n" % (number, 910_000 * (number + 1)) for number in reversed(range(10)))
        self.expect("a report of 10,000,000 records", ["report"], rows, text)

    def test_other_names(self) -> None:
        """All other keys together have a name that the summary has not, with the least number."""
        names = [b"others", *(b"others%d" % number for number in range(1, 10))]
        for count in range(len(names) + 1):
            summary = reference.Summary(20, 2 * count, {name: 2 for name in names[:count]})
            name = self.save(f"others{count}", reference.written(summary))
            free = [*names, b"others10"][count]
            given = b"".join(key + b",2\n" for key in names[:count]) + b"x,7\ny,4\n"
            rows = b"".join(key + b",2\n" for key in sorted(names[:count])) + free + b",11\n"
            self.expect(f"the name of others beside {count}", ["condense", name], rows, given)

    def test_reads(self) -> None:
        """One thread reads 65,536 bytes at once, so it makes 64 reads of 64 times as many, and one or two at their end. It makes
        no others where a quote is open at the very end."""
        closed, path = b"keyed,1\n" * (PARTS * 65_536 // 8), Path(self.room, "records.csv")
        for name, text in (("records", closed), ("an open quote", closed[:-8] + b'"opened\n')):
            path.write_bytes(text)
            for words in (["summarise", str(path)], ["summarise"], ["table"], ["report", "--pieces", "1", "--memory", "0"]):
                with open(path, "rb") as records:
                    reads = reads_of([self.program, *words], records)
                self.check(f"{words[0]} of {name}: {reads} reads", PARTS < reads < PARTS + STARTING, reads)

    def test_readers(self) -> None:
        """A reader that is interrupted 100,000 times reads on. One that is always interrupted is a fault, and so is one that
        would block, which isn't asked again."""
        library = programs.preloaded("interrupt.c", self.room)
        counters = self.save("four.heavy", reference.summarise(RECORDS, 2))
        for words, out in [
            (["report", "--k", "2"], b"a,6\n"),
            (["summarise", "--k", "2"], reference.summarise(RECORDS, 2)),
            (["condense", counters], b"a,6\nb,3\nothers,2\n"),
            (["confirm", counters], b"a,6\n"),
        ]:
            ear, mouth = os.pipe()
            env = {"LD_PRELOAD": library, "INTERRUPTS": "100000", "INTERRUPTS_TOLD_ON": str(mouth)}
            self.expect(f"{words[0]} of an interrupted reader", words, out, RECORDS, env=env, pass_fds=(mouth,))
            os.close(mouth)
            told = os.read(ear, 64)
            os.close(ear)
            self.check(f"the reader of {words[0]} was interrupted", told == b"all\n", told)
        for words in (["report"], ["summarise"], ["table"]):
            ear, mouth = os.pipe()
            os.write(mouth, b"a,5\n")
            os.close(mouth)
            ended = self.heavy(words, stdin=ear, env={"LD_PRELOAD": library, "INTERRUPTS": str(10**15)})
            os.close(ear)
            said = (ended.status, ended.out, ended.err)
            right = said == (1, b"", b"heavy: input could not be read\n")
            self.check(f"{words[0]} of a reader that is always interrupted", right, said)
        for words in (["report"], ["summarise"], ["table"]):
            ear, mouth = os.pipe()
            os.set_blocking(ear, False)
            os.write(mouth, b"a,5\n")
            ended = self.heavy(words, stdin=ear)
            said = (ended.status, ended.out, ended.err)
            self.check(f"{words[0]} of a reader that would block", said == (1, b"", b"heavy: input could not be read\n"), said)
            os.write(mouth, b"a,5\n")
            reads = reads_of([self.program, *words], ear, 1)
            self.check(f"{words[0]} of a reader that would block makes {reads} reads", reads < STARTING, reads)
            os.close(ear)
            os.close(mouth)


if __name__ == "__main__":
    programs.run_tests("full size")
