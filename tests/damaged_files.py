#!/usr/bin/env python3
"""Feeds damaged saved files of both versions, and sealed ones, to each command that reads them: each proper prefix of each worked
file, each with a byte more, and each with one field spoiled; of sealed files each with a bit of any byte turned over, and damage
behind a good seal. What has to come is written here by hand.

usage: tests/damaged_files.py
"""
import tempfile
from pathlib import Path

import programs
import reference

RECORDS = b"a,5\nb,3\nc,2\na,1\n"

# the summary of k = 2 with total 11 and the counters a 4, b 1, in version 1 and 2
SUMMARY_1 = "48485331 01 0002 000000000000000b 0002 01 61 0000000000000004 01 62 0000000000000001"
SUMMARY_2 = "48485332 01 0002 000000000000000b 0002 0001 61 0000000000000004 0001 62 0000000000000001"
# the table of a 5, e 2, b 1 with two rows of four cells; the versions differ in the magic alone
TABLE_1 = (
    "48485331 02 00000004 02 0000000000000100 0000000000000001 0000000000000000 0000000000000003 0000000000000001"
    " 0000000000000008 0000000000000000 0000000000000000 0000000000000007 0000000000000001"
    " 0000000000000000 0000000000000000 0000000000000001 0000000000000007"
)
TABLE_2 = TABLE_1.replace("48485331", "48485332")
MERGED_1 = "48485331 01 0002 0000000000000010 0001 01 61 0000000000000001"
MERGED_2 = "48485332 01 0002 0000000000000010 0001 0001 61 0000000000000001"
EMPTY_1 = "48485331 01 0002 0000000000000000 0000"
EMPTY_2 = "48485332 01 0002 0000000000000000 0000"
WORKED = [SUMMARY_1, SUMMARY_2, TABLE_1, TABLE_2, MERGED_1, MERGED_2, EMPTY_1, EMPTY_2]
# a summary of k = 1 with one key of so many bytes, whose length is spelled so
LONG = "48485332 01 0001 0000000000000009 0001 {length} {key} 0000000000000009"

# The number of a field from 0 on, what stands there, and the fault: in both versions of the summary, ...
SPOILED_SUMMARY = [
    (0, "49485331", "bad magic"),
    (0, "48485330", "bad magic"),
    (0, "48485333", "bad magic"),
    (1, "03", "bad kind"),
    (1, "00", "bad kind"),
    (2, "0000", "bad k"),
    (3, "8000000000000000", "total too large"),
    (4, "0003", "bad count"),
    (9, "61", "keys out of order"),
    (10, "0000000000000000", "bad counter"),
    (7, "000000000000000b", "counters above total"),
    (7, "ffffffffffffffff", "counters above total"),
]
# ... in one of them, ...
SPOILED_LENGTH = [
    (SUMMARY_1, 5, "00", "bad key"),
    (SUMMARY_1, 8, "00", "bad key"),
    (SUMMARY_2, 5, "0000", "bad key"),
    (SUMMARY_2, 5, "1001", "bad key"),
    (SUMMARY_2, 5, "ffff", "bad key"),
    (SUMMARY_2, 5, "1000", "truncated"),
    (SUMMARY_2, 8, "0000", "bad key"),
    (SUMMARY_2, 8, "1001", "bad key"),
    # a length of one byte is 0, and one of two bytes 0x0161
    (SUMMARY_2, 0, "48485331", "bad key"),
    (SUMMARY_1, 0, "48485332", "truncated"),
]
# ... and in both versions of the table.
SPOILED_TABLE = [
    (0, "48485333", "bad magic"),
    (1, "03", "bad kind"),
    (2, "00000000", "bad width"),
    (2, "00010001", "bad width"),
    (3, "00", "bad depth"),
    (3, "11", "bad depth"),
    (4, "0000000000000000", "bad coefficient"),
    (5, "0000000000000000", "bad coefficient"),
    (6, "1fffffffffffffff", "bad coefficient"),
    (12, "0000000000000006", "row does not sum to total"),
    (9, "0000000000000009", "row does not sum to total"),
    (9, "8000000000000000", "total too large"),
]

# A row of cells, and one whose sum is 2^64 + 8.
ROW = "0000000000000000 0000000000000000 0000000000000007 0000000000000001"
WRAPPED = "ffffffffffffffff 0000000000000009 0000000000000000 0000000000000000"

# Heads that promise far more than follows, entries exchanged, and keys of more bytes than a version can say.
WHOLE = [
    ("48485331 01 ffff 0000000000000000 ffff", "truncated"),
    ("48485332 01 ffff 0000000000000000 ffff", "truncated"),
    ("48485331 02 00010000 10", "truncated"),
    ("48485332 02 00010000 10", "truncated"),
    ("48485331 01 0002 000000000000000b 0002 01 62 0000000000000001 01 61 0000000000000004", "keys out of order"),
    ("48485332 01 0002 000000000000000b 0002 0001 62 0000000000000001 0001 61 0000000000000004", "keys out of order"),
    (TABLE_1.replace(ROW, WRAPPED), "row does not sum to total"),
    (TABLE_2.replace(ROW, WRAPPED), "row does not sum to total"),
    (LONG.format(length="1001", key="61" * 4097), "bad key"),
    # with a length of one byte the key is 00, and its counter begins with 61
    (LONG.format(length="0100", key="61" * 256).replace("48485332", "48485331"), "counters above total"),
]


def with_field(text: str, field: int, spoiled: str) -> bytes:
    """The file with another field."""
    fields = text.split()
    fields[field] = spoiled
    return bytes.fromhex("".join(fields))


def damaged() -> list[tuple[bytes, str]]:
    """The damaged files, each with its fault."""
    files = [(bytes.fromhex(text), fault) for text, fault in WHOLE]
    for field, spoiled, fault in SPOILED_SUMMARY:
        files += [(with_field(text, field, spoiled), fault) for text in (SUMMARY_1, SUMMARY_2)]
    for field, spoiled, fault in SPOILED_TABLE:
        files += [(with_field(text, field, spoiled), fault) for text in (TABLE_1, TABLE_2)]
    files += [(with_field(text, field, spoiled), fault) for text, field, spoiled, fault in SPOILED_LENGTH]
    for text in WORKED:
        whole = bytes.fromhex(text)
        files += [(whole[:end], "truncated") for end in range(len(whole))]
        files += [(whole + bytes([more]), "trailing bytes") for more in (0, 0xFF)]
    return files


def damaged_seals() -> list[tuple[bytes, str]]:
    """The damaged sealed files, and those whose seal is good around what is no saved file, each with its fault."""
    spelling, damage = bytes.fromhex(SUMMARY_2), "damaged: its checksum is another"
    whole = reference.sealed(0, spelling)
    files = [(whole[:end], "truncated" if end < 37 else damage) for end in range(len(whole))]
    files += [(whole + bytes([more]), damage) for more in (0, 0x0A, 0xFF)]
    for at, byte in enumerate(whole):
        turned = whole[:at] + bytes([byte ^ 1 << at % 8]) + whole[at + 1:]
        files.append((turned, "bad magic" if at < 4 else damage))
    files += [(reference.sealed(decimals, spelling), "bad decimals") for decimals in (10, 255)]
    files += [(reference.sealed(0, spelling[:end]), "truncated") for end in range(len(spelling))]
    files += [(reference.sealed(0, spelling + b"\0"), "trailing bytes"), (reference.sealed(0, whole), "bad magic")]
    return files + [(reference.sealed(0, with_field(SUMMARY_2, at, spoiled)), fault) for at, spoiled, fault in SPOILED_SUMMARY]


class DamagedFiles(programs.Checks):
    """Damaged files, each refused with its fault."""

    def setUp(self) -> None:
        super().setUp()
        self.program, self.path = programs.built("heavy_cli"), f"{self.room}/file"

    def test_damaged(self) -> None:
        """Each damaged file, by each command that reads one."""
        good = f"{self.room}/good"
        Path(good).write_bytes(bytes.fromhex(SUMMARY_1))
        for data, fault in damaged() + damaged_seals():
            Path(self.path).write_bytes(data)
            commands = [["ask", self.path, "a"], ["merge", self.path], ["condense", self.path], ["confirm", self.path]]
            for words, place in [*((words, 1) for words in commands), (["merge", good, self.path], 2)]:
                ended = programs.run([self.program, *words], RECORDS)
                expected = (3, b"", f"heavy: file {place}: {fault}\n".encode())
                found = (ended.status, ended.out, ended.err)
                self.check(f"{words[0]} of {data.hex()}", found == expected, (found, expected))

    def test_damage_comes_first(self) -> None:
        """All files are read before any is opened, and all opened before any is read field by field."""
        files = {"good": bytes.fromhex(SUMMARY_2), "short": b"HHS2", "damaged": reference.sealed(0, b"HHS2")[:-1]}
        for name, data in files.items():
            Path(self.room, name).write_bytes(data)
        for words, status, fault in [
            (["good", "short", "damaged"], 3, b"file 3: damaged: its checksum is another"), (["damaged", "missing"], 1, b"file 2: could not be read"),
        ]:
            ended = programs.run([self.program, "merge", *words], cwd=self.room)
            self.check(f"merge of {words}", (ended.status, ended.out, ended.err) == (status, b"", b"heavy: %s\n" % fault), ended)

    def test_sealed(self) -> None:
        """A sealed file answers as what it seals, and merges with files that aren't sealed."""
        for text in WORKED:
            spelling = bytes.fromhex(text)
            files = {"plain": spelling, "sealed": reference.sealed(0, spelling)}
            for name, data in files.items():
                Path(self.room, name).write_bytes(data)
            for words in (["merge"], ["ask", "-"], ["list"], ["condense"], ["confirm"], ["merge", "plain"]):
                said = []
                for name in files:
                    given = [words[0], *words[1:], name] if words[1:] != ["-"] else [words[0], name, "a"]
                    ended = programs.run([self.program, *given], RECORDS, cwd=self.room)
                    said.append((ended.status, ended.out, ended.err))
                self.check(f"{words} of {text}, sealed", said[0] == said[1], said)

    def test_undamaged(self) -> None:
        """Whole files of both versions: each merges to the spelling of version 2 and answers alike."""
        answers = [b"a,4,6\nz,0,2\n", b"a,0,7\nz,0,1\n", b"a,1,6\nz,0,5\n", b"a,0,0\nz,0,0\n"]
        for first, second, answer in zip(WORKED[::2], WORKED[1::2], answers):
            for text in (first, second):
                Path(self.path).write_bytes(bytes.fromhex(text))
                for words, out in [(["merge", self.path], bytes.fromhex(second)), (["ask", self.path, "a", "z"], answer)]:
                    ended = programs.run([self.program, *words])
                    self.check(f"{words[0]} of {text}", (ended.status, ended.out, ended.err) == (0, out, b""), ended)


if __name__ == "__main__":
    programs.run_tests("damaged files")
