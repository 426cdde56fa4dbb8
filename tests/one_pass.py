#!/usr/bin/env python3
"""Summarises, tabulates, condenses and confirms few and many records, and has workers tabulate, condense, confirm and report
those of a file, with limited address space: none of them needs more for many records than for few, or for a long field than
for a short one, and the greatest of many long keys no more than those of few. What they answer is checked beside.

usage: tests/one_pass.py
"""
import resource
from functools import partial
from pathlib import Path

import programs
import reference

FEW, MANY = 10_000, 1_000_000
KILOBYTE = 1024
STEP, MORE, MOST = 256, 4096, 128 * 1024  # kilobytes; what two workers hold at once differs by chance
SHORT_FIELD, LONG_FIELD = 200_000, 20_000_000
# of a file, in bytes: more than a worker holds of a piece, and much more
SHORT_FILE = 3_000_000
COLUMNS = ["--key", "1", "--weight", "2"]
# Texts with a place for something long, which one part makes again and again: the status of a run, its options, and the part.
LONG_TEXTS = {
    "a field that no column names": (0, COLUMNS, b"a,3,%s\nb,4\n", b"x"),
    "a quoted field that none names": (0, COLUMNS, b'a,3,"%s"\nb,4\n', b"x\n"),
    "a key": (3, [], b"%s,3\n", b"x"),
    "a weight": (3, [], b"a,%s1\n", b"0"),
    "NULs": (3, [], b"%s", b"\0"),
    "quotes": (3, [], b"%s", b'"'),
    "a quote that stays open": (3, [], b'a,3\n"%s', b"b,4\n"),
    "fields": (3, [], b"%s\n", b","),
    "fields that no column names": (0, COLUMNS, b"a,3,%s\nb,4\n", b","),
    "quoted fields that none names": (0, COLUMNS, b'a,3,"x"%s\nb,4\n', b',""'),
    "fields where quotes are none": (0, [*COLUMNS, "--no-quotes"], b"a,3,%s\nb,4\n", b',"'),
    "squeezed fields": (0, [*COLUMNS, "--squeeze", "--delimiter", ","], b"a,3%s\nb,4\n", b",x"),
    "delimiters that are one": (0, [*COLUMNS, "--squeeze", "--delimiter", ","], b"a%s,3\nb,4\n", b","),
    "fields behind a part of the key": (0, [*COLUMNS, "--prefix", "1"], b"a,3,%s\nb,4\n", b","),
    "records that end in CR": (3, [], b"%sb,x\n", b"a,1\r"),
}


def records(number: int) -> bytes:
    """Keys that are all different, but that each hundredth record has the same."""
    return b"".join(b"heavy,7\n" if i % 100 == 0 else b"key%d,%d\n" % (i, i % 5 + 1) for i in range(number))


def within(words: list[str], text: bytes, kilobytes: int) -> programs.Ended:
    """The run with so much address space."""
    limit = partial(resource.setrlimit, resource.RLIMIT_AS, (kilobytes * KILOBYTE,) * 2)
    return programs.run(words, text, preexec_fn=limit)


class OnePass(programs.Checks):
    """Commands that keep no record."""

    def test_bounded_memory(self) -> None:
        """Many records take what few take, and answers are the same."""
        program = programs.built("heavy_cli")
        few, many = records(FEW), records(MANY)
        for name, text in (("few", few), ("many", many)):
            Path(self.room, name).write_bytes(programs.run([program, "summarise", "--k", "100"], text).out)
            Path(self.room, f"{name}.csv").write_bytes(text)
        commands = {
            "summarise": lambda of: ["summarise", "--k", "100"],
            "summarise by ss": lambda of: ["summarise", "--k", "100", "--method", "ss"],
            "table": lambda of: ["table"],
            "condense": lambda of: ["condense", f"{self.room}/{of}"],
            "confirm": lambda of: ["confirm", f"{self.room}/{of}"],
            "table FILE": lambda of: ["table", "--workers", "2", f"{self.room}/{of}.csv"],
            "condense FILE": lambda of: ["condense", "--workers", "2", f"{self.room}/{of}", f"{self.room}/{of}.csv"],
            "confirm FILE": lambda of: ["confirm", "--workers", "2", f"{self.room}/{of}", f"{self.room}/{of}.csv"],
            "report": lambda of: ["report", "--workers", "2", f"{self.room}/{of}.csv"],
            "report of a pipe": lambda of: ["report", "--workers", "2", "--memory", "0"],
            "report --once": lambda of: ["report", "--once", "--memory", "1"],
        }
        for name, words in commands.items():
            ample = programs.run([program, *words("many")], many)
            self.check(f"{name} of many records", ample.status == 0, ample.err)
            enough = range(STEP, MOST, STEP)
            least = next((size for size in enough if within([program, *words("few")], few, size).status == 0), MOST)
            limited = within([program, *words("many")], many, least + MORE)
            said = f"{least} KB are enough for few records, and 1 MB more was not for many: {limited.err!r}"
            self.check(f"{name} in bounded memory", least < MOST and limited.out == ample.out, said)
        for name in ("table", "condense", "confirm"):
            here = programs.run([program, *commands[f"{name} FILE"]("many")])
            there = programs.run([program, *commands[name]("many")], many)
            self.check(f"{name} of a file as of standard input", here.out == there.out, (here.status, here.err))
        rows = programs.run([program, *commands["report"]("many")]).out
        self.check("the heavy key of a file", rows == b"heavy,%d\n" % (MANY // 100 * 7), rows)
        rows = programs.run([program, *commands["report --once"]("many")], many).out
        self.check("the heavy key by one reading", rows == b"heavy,%d\n" % (MANY // 100 * 7), rows)
        rows = programs.run([program, *commands["confirm"]("many")], many).out
        self.check("the heavy key", rows == b"heavy,%d\n" % (MANY // 100 * 7), rows)
        fewer = programs.run([program, *commands["condense"]("many")], many).out
        self.check("at most a row more than counters", 0 < fewer.count(b"\n") <= 101, fewer)
        rows = programs.run([program, *commands["confirm"]("many")], fewer).out
        self.check("the heavy key in condensed records", rows == b"heavy,%d\n" % (MANY // 100 * 7), rows)

    def test_lines_that_end_in_cr(self) -> None:
        """Files whose lines end in CR alone, which one thread reads in the end, take no more memory where they are longer."""
        program = programs.built("heavy_cli")
        few, many = records(MANY // 4).replace(b"\n", b"\r"), records(MANY).replace(b"\n", b"\r")
        for name, text in (("few", few), ("many", many)):
            Path(self.room, name).write_bytes(programs.run([program, "summarise", "--k", "100"], text).out)
            Path(self.room, f"{name}.csv").write_bytes(text)
        for name, by_summary in (("report", False), ("table", False), ("confirm", True), ("condense", True)):
            runs = []
            for of in ("few", "many"):
                saved = [f"{self.room}/{of}"] if by_summary else []
                runs.append([program, name, "--workers", "2", *saved, f"{self.room}/{of}.csv"])
            ample = programs.run(runs[1])
            self.check(f"{name} of many records that end in CR", ample.status == 0, ample.err)
            least = next((size for size in range(STEP, MOST, STEP) if within(runs[0], b"", size).status == 0), MOST)
            limited = within(runs[1], b"", least + MORE)
            said = f"{least} KB are enough for few records, and 1 MB more was not for many: {limited.err!r}"
            self.check(f"{name} of CR in bounded memory", least < MOST and limited.out == ample.out, said)
            with_feeds = Path(self.room, "feeds.csv")
            with_feeds.write_bytes(many.replace(b"\r", b"\n"))
            there = programs.run([*runs[1][:-1], str(with_feeds)])
            self.check(f"{name} as with line feeds", ample.out == there.out, there.err)

    def test_top_of_long_keys(self) -> None:
        """The greatest of many long keys, for which --memory has no room, take no more memory than those of few."""
        program = programs.built("heavy_cli")
        for name, count in (("few", 2_000), ("many", 20_000)):
            long = b"".join(b"%04096d,1\n" % number for number in range(count))
            Path(self.room, f"{name}.csv").write_bytes(b"heavy,90000\n" + long)
        for workers in "14":
            few, many = ([program, "top", "--memory", "1", "--workers", workers, "1", f"{self.room}/{of}.csv"] for of in ("few", "many"))
            least = next((size for size in range(STEP, MOST, STEP) if within(few, b"", size).status == 0), MOST)
            limited = within(many, b"", least + MORE)
            said = f"{least} KB are enough for few keys, and {MORE} KB more were not for many: {limited.err!r}"
            self.check(f"top of long keys by {workers}", least < MOST and limited.out == b"heavy,90000\n", said)

    def test_long_fields(self) -> None:
        """A record takes no more memory where a field of it is longer, whether it is refused or not."""
        program = programs.built("heavy_cli")
        for name, (status, options, text, part) in LONG_TEXTS.items():
            words = ["summarise", "--k", "9", *options]
            few, many = (text % (part * (size // len(part))) for size in (SHORT_FIELD, LONG_FIELD))
            ample = programs.run([program, *words], many)
            self.check(f"{name}: the status", ample.status == status, ample)
            enough = range(STEP, MOST, STEP)
            least = next((size for size in enough if within([program, *words], few, size).status == status), MOST)
            limited = within([program, *words], many, least + MORE)
            said = f"{least} KB are enough for a short field, and 4 MB more was not for a long one: {limited.err!r}"
            ends = limited.status == status and limited.out == ample.out
            self.check(f"{name}: in bounded memory", least < MOST and ends, said)

    def test_long_fields_of_files(self) -> None:
        """A file's record takes no more memory either, whether one thread or workers read it, and nor does the second line of a
        fault, which the file is read again for."""
        program, few, many = programs.built("heavy_cli"), f"{self.room}/few.csv", f"{self.room}/many.csv"
        late = {"a fault after many records": (3, [], b"%sb,x\n", b"a,1\n")}
        summary = reference.written(reference.Summary(9, 7, {b"a": 3, b"b": 4}))
        commands = ((["summarise"], summary), (["report", "--workers", "2"], b"b,4\na,3\n"))
        for name, (status, options, text, part) in (LONG_TEXTS | late).items():
            for path, size in ((few, SHORT_FILE), (many, LONG_FIELD)):
                Path(path).write_bytes(text % (part * (size // len(part))))
            for command, out in commands:
                words = [program, *command, "--k", "9", *options]
                ample = programs.run([*words, many])
                found = (ample.status, ample.out, ample.err.count(b"\n"))
                self.check(f"{command[0]} of a file, {name}", found == ((0, out, 0) if status == 0 else (status, b"", 2)), ample)
                enough = range(STEP, MOST, STEP)
                least = next((size for size in enough if within([*words, few], b"", size).status == status), MOST)
                limited = within([*words, many], b"", least + MORE)
                same = (limited.status, limited.out, limited.err) == (ample.status, ample.out, ample.err)
                said = f"{least} KB are enough for a short field, and 4 MB more was not for a long one: {limited.err!r}"
                self.check(f"{command[0]} of a file, {name}: in bounded memory", least < MOST and same, said)


if __name__ == "__main__":
    programs.run_tests("one pass")
