#!/usr/bin/env python3
"""Feeds random and mutated saved files of both versions to `ask`, `merge`, `confirm` and `condense`, and compares what they say with
tests/reference.py: a file has to be accepted exactly where it is the encoding of something, and else the fault
is the first from the left.

usage: tests/hostile_files.py [CASES [SEED [FIRST]]]

Reads the saved files of tests/corpus first. Prints the seed, and for a case that differs the command that repeats it.
"""
import corpus
import hostile
import programs
import reference
from reference import PRIME, Summary, Table

NUMBERS = [0, 1, 2, 3, 255, 256, 2**16 - 1, 2**16, 2**31, PRIME - 1, PRIME, 2**63 - 1, 2**63, 2**64 - 1]
LENGTHS = [0, 1, 255, 256, 4095, 4096, 4097]
PIECES = [n.to_bytes(8, "big") for n in NUMBERS] + [n.to_bytes(2, "big") for n in LENGTHS] + list(reference.VERSIONS)
KEYS = [b"a", b"b", b"c", b"ab", b"z", b"\0", b"\xff", b"a,b", b'"', b"\r\n", b"k" * 30]
LONG_KEYS = [b"k" * 255, b"k" * 256, b"k" * 4096]
RECORDS = b"a,5\nb,3\nc,2\na,1\n"


def summary(draw, longest: int) -> Summary:
    k = draw.choice([1, 2, 3, 5, 65535])
    some = KEYS + LONG_KEYS if draw.random() < 0.3 else KEYS
    keys = [key for key in draw.sample(some, draw.randrange(min(k, len(some)) + 1)) if len(key) <= longest]
    counters = {key: draw.choice([1, 2, 5, 2**40]) for key in keys}
    total = max(sum(counters.values()), draw.choice([0, 11, 2**62, 2**63 - 1]))
    return Summary(k, total, counters)


def table(draw) -> Table:
    width, depth = draw.choice([1, 2, 4, 7]), draw.choice([1, 2, 16])
    total = draw.choice([0, 8, 2**63 - 1])
    cells = []
    for _ in range(depth):
        first = draw.randrange(total + 1)
        cells.append([first] + [0] * (width - 1))
        cells[-1][draw.randrange(width)] += total - first
    rows = [(draw.randrange(1, PRIME), draw.randrange(PRIME)) for _ in range(depth)]
    return Table(width, draw.randrange(1, PRIME), rows, total, cells)


def file(draw) -> bytes:
    """A saved file with up to three faults, or bytes of no meaning."""
    if draw.random() < 0.02:
        return draw.randbytes(draw.randrange(60))
    magic = draw.choice(list(reference.VERSIONS))
    saved = summary(draw, reference.VERSIONS[magic][1]) if draw.random() < 0.6 else table(draw)
    data = bytearray(reference.written(saved, magic))
    for _ in range(draw.choice([0, 1, 1, 1, 2, 3])):
        hostile.mutate(draw, data, PIECES)
    return bytes(data)


def case(draw) -> hostile.Case:
    data = file(draw)
    match draw.randrange(5):
        case 0:
            magic = draw.choice(list(reference.VERSIONS))
            other = reference.written(reference.misra_gries(reference.items_of(RECORDS), 2), magic)
            files = [data, other] if draw.random() < 0.5 else [other, data]
            return hostile.Case(["merge"], files, [], b"", reference.answer(reference.merge, files))
        case 1:
            return hostile.Case(["merge"], [data, data], [], b"", reference.answer(reference.merge, [data, data]))
        case 2:
            return hostile.Case(["confirm"], [data], [], RECORDS, reference.compared(reference.confirm, data, RECORDS, True))
        case 3:
            return hostile.Case(["condense"], [data], [], RECORDS, reference.compared(reference.condense, data, RECORDS, True))
    keys = draw.sample([*KEYS, *LONG_KEYS, b"k" * 4097], 2)
    keys = [key for key in keys if 0 not in key] or [b"a"]
    return hostile.Case(["ask"], [data], keys, b"", reference.answer(reference.ask, data, keys))


def cases_of(kept: corpus.Kept) -> list[hostile.Case]:
    """Each command that reads a saved file, on one that is kept."""
    data, keys = kept.data, [b"a", b"others", b"k" * 255, b"\xff"]
    other = reference.written(reference.misra_gries(reference.items_of(RECORDS), 2))
    made = [
        hostile.Case(["merge"], files, [], b"", reference.answer(reference.merge, files))
        for files in ([data, data], [data, other], [other, data])
    ]
    for name, command in (("list", reference.list_keys), ("describe", reference.describe)):
        made.append(hostile.Case([name], [data], [], b"", reference.answer(command, data)))
    for name, command in (("confirm", reference.confirm), ("condense", reference.condense)):
        made.append(hostile.Case([name], [data], [], RECORDS, reference.compared(command, data, RECORDS, True)))
    return [*made, hostile.Case(["ask"], [data], keys, b"", reference.answer(reference.ask, data, keys))]


class HostileFiles(hostile.Hostile):
    def test_kept(self) -> None:
        self.try_kept(corpus.kept_in("saved"), cases_of)

    def test_cases(self) -> None:
        self.try_cases(case)


if __name__ == "__main__":
    programs.run_tests("hostile files")
