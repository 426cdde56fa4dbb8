#!/usr/bin/env python3
"""Runs each command with -o FILE, where FILE is replaced by the whole answer or, after a fault or a kill, is as it was: and
no other file stands beside it, but where the program was killed.

usage: tests/new_files.py
"""
import os
import random
import resource
import shutil
import signal
import socket
import stat
import subprocess
import time
from functools import partial
from pathlib import Path

import programs
from devices import short_files

RECORDS = b"a,5\nb,3\nc,2\na,1\n"
OLD = b"what stood here before\n"
KILLS = 200
NOT_WRITTEN = b"heavy: output could not be written\n"
# what each command prints of the records, or of their summary
BY_HAND = {
    "report": (["report", "--k", "2"], b"a,6\n"), "top": (["top", "2"], b"a,6\nb,3\n"),
    "ask": (["ask", "SUMMARY", "a", "z"], b"a,4,6\nz,0,2\n"), "list": (["list", "SUMMARY"], b"a,4,6\nb,1,3\n"),
    "describe": (["describe", "SUMMARY"], b"version,2\nkind,summary\nk,2\nkeys,2\ntotal,11\ncounters,5\nslack,2\n"),
    "condense": (["condense", "SUMMARY"], b"a,6\nb,3\nothers,2\n"), "confirm": (["confirm", "SUMMARY"], b"a,6\n"),
    "no rows": (["confirm", "--threshold", "3/5", "SUMMARY"], b""),
}
# those whose answer is a saved file, which is what they print
SAVED = [["summarise", "--k", "2"], ["table", "--width", "3", "--depth", "2"], ["merge", "SUMMARY"]]


class NewFiles(programs.Checks):
    """Files that are replaced by an answer."""

    def setUp(self) -> None:
        super().setUp()
        os.chmod(self.room, 0o755)
        # some runs are nobody's, who has to reach the program
        self.program = shutil.copy(programs.built("heavy_cli"), f"{self.room}/heavy")
        os.chmod(self.program, 0o755)
        self.summary = f"{self.room}/summary"
        Path(self.summary).write_bytes(programs.run([self.program, "summarise", "--k", "2"], RECORDS).out)
        self.folder = Path(self.room, "folder")
        self.folder.mkdir()
        self.file = self.folder / "day"

    def printing(self, command: list[str]) -> list[str]:
        """The program with this command."""
        return [self.program, *(self.summary if word == "SUMMARY" else word for word in command)]

    def words(self, command: list[str], file: object = None) -> list[str]:
        """The same with its answer in this file, or the test's own."""
        return [*self.printing(command)[:2], "-o", str(file or self.file), *self.printing(command)[2:]]

    def names(self) -> list[str]:
        return sorted(os.listdir(self.folder))

    def stands(self, name: str, ended: programs.Ended, wanted: tuple[int, bytes], held: bytes | None = OLD) -> None:
        """The run ended so, with this on standard error and nothing on standard output, and the folder has the file alone,
        with these bytes, or nothing at all."""
        found = (ended.status, ended.err)
        self.check(name, found == wanted and ended.out == b"", ended)
        self.check(f"{name}: what stands there", self.names() == ([] if held is None else [self.file.name]), self.names())
        if held is not None:
            self.check(f"{name}: its bytes", self.file.read_bytes() == held, self.file.read_bytes()[:200])

    def test_answers(self) -> None:
        """Each command's answer in a new file, in one that was there, and by the option's long name."""
        saved = [(words[0], words, programs.run(self.printing(words), RECORDS).out) for words in SAVED]
        for name, words, answer in [*((name, *row) for name, row in BY_HAND.items()), *saved]:
            self.file.unlink(missing_ok=True)
            self.stands(f"{name} to a new file", programs.run(self.words(words), RECORDS), (0, b""), answer)
            self.file.write_bytes(OLD)
            self.stands(f"{name} in place of a file", programs.run(self.words(words), RECORDS), (0, b""), answer)
        whole = self.words(["report", "--k", "2"])
        whole[2:4] = [f"--out={self.file}"]
        self.stands("by the long name", programs.run(whole, RECORDS), (0, b""), b"a,6\n")
        self.stands("with standard output closed", programs.run(["sh", "-c", 'exec "$@" >&-', "", *whole], RECORDS), (0, b""), b"a,6\n")
        ended = programs.run([self.program, "report", "--k", "2", "-o", "day"], RECORDS, cwd=self.folder)
        self.stands("a name alone", ended, (0, b""), b"a,6\n")
        shutil.copy(self.summary, self.file)
        twice = programs.run([self.program, "merge", self.summary, self.summary]).out
        self.stands("merged into one of its own files", programs.run(self.words(["merge", str(self.file), self.summary])), (0, b""), twice)

    def test_mode(self) -> None:
        """The new file has the mode of any new file, whatever the old one's, also one that can't be written to."""
        for before, mask, wanted in ((None, "022", 0o644), (0o444, "027", 0o640), (0o600, "000", 0o666)):
            self.file.unlink(missing_ok=True)
            if before is not None:
                self.file.write_bytes(OLD)
                self.file.chmod(before)
            words = ["sh", "-c", f'umask {mask}; exec "$@"', "", *self.words(["report", "--k", "2"])]
            self.stands(f"a file of mode {before}", programs.run(words, RECORDS), (0, b""), b"a,6\n")
            mode = stat.S_IMODE(self.file.stat().st_mode)
            self.check(f"mode behind umask {mask}", mode == wanted, oct(mode))

    def test_refused(self) -> None:
        """Commands that are refused leave the file and the folder as they were."""
        wrong = Path(self.room, "wrong")
        wrong.write_bytes(b"HHS1\x03")
        for held in (OLD, None):
            if held is None:
                self.file.unlink()
            else:
                self.file.write_bytes(held)
            for words, given, wanted in [
                (["report"], b"a,5\nb,0\n", (3, b"heavy: record 2: zero weight\n")),
                (["summarise", "--k", "0"], RECORDS, (2, b"heavy: k must be 1 to 65535\n")),
                (["merge", "SUMMARY", str(wrong)], b"", (3, b"heavy: file 2: bad kind\n")),
                (["ask", "SUMMARY", ""], b"", (3, b"heavy: key 1: empty\n")),
                (["list", f"{self.room}/none"], b"", (1, b"heavy: file 1: could not be read\n")),
                (["confirm", "SUMMARY"], b"a,5\n", (3, b"heavy: file 1: its total is not the input's\n")),
            ]:
                self.stands(f"{' '.join(words[:1])} that is refused, over {held}", programs.run(self.words(words), given), wanted, held)

    def test_no_files(self) -> None:
        """What is no file is refused, and stays what it is; so is a name that says none."""
        pipe, ear = self.folder / "pipe", socket.socket(socket.AF_UNIX)
        os.mkfifo(pipe)
        ear.bind(str(self.folder / "socket"))
        before = self.names()
        for name, kind in [
            ("/dev/null", "is a device"), ("/dev/full", "is a device"), (pipe, "is a pipe"), (self.folder, "is a folder"),
            (f"{self.folder}/", "is a folder"), (".", "is a folder"), (self.folder / "socket", "is a socket"),
            ("-", "stands for a standard stream"),
        ]:
            ended = programs.run(self.words(["report", "--k", "2"], name), RECORDS, cwd=self.folder)
            wanted = (2, b"", f"heavy: --out takes a file, and {name} {kind}\n".encode())
            self.check(f"the answer to {name}", (ended.status, ended.out, ended.err) == wanted, ended)
        ended = programs.run(["sh", "-c", 'exec "$@" | cat', "", *self.words(["report"], "/dev/stdout")], RECORDS)
        self.check("the answer to standard output by its name", ended.err == b"heavy: --out takes a file, and /dev/stdout is a pipe\n", ended)
        self.check("all stand there as before", self.names() == before and stat.S_ISFIFO(pipe.stat().st_mode), self.names())
        ear.close()
        for words in (["report", "-o"], ["report", "-o", ""], ["report", "-o", "x", "--out", "y"]):
            ended = programs.run([self.program, *words], RECORDS, cwd=self.folder)
            self.check(f"usage of {words[1:]}", (ended.status, ended.out) == (2, b"") and self.names() == before, ended)

    def test_folders(self) -> None:
        """A folder that isn't there, or in which no file may be made, is reported before anything is read, and so is a name that
        no call can open."""
        closed = self.folder / "closed"
        nobody = {"user": 65534, "group": 65534, "extra_groups": []} if os.geteuid() == 0 else {}
        closed.mkdir(0o755)
        (closed / "day").write_bytes(OLD)
        os.chmod(self.folder, 0o755)
        os.chmod(closed, 0o755 if nobody else 0o555)
        for name, reason in [
            (self.folder / "none" / "day", b"No such file or directory"), (closed / "day", b"Permission denied"),
            (closed / "other", b"Permission denied"), (Path(self.summary, "day"), b"Not a directory"),
            (os.fsdecode(b"%s/\xff" % bytes(self.folder)), b"its name isn't UTF-8"),
        ]:
            for given in (RECORDS, b"b,0\n"):
                ended = programs.run(self.words(["report"], name), given, **nobody)
                shown = bytes(self.folder) + b"/\\xff" if b"UTF-8" in reason else os.fsencode(name)
                wanted = (1, b"", NOT_WRITTEN + b"  %s: %s\n" % (shown, reason))
                self.check(f"the answer to {name!r}, {given!r}", (ended.status, ended.out, ended.err) == wanted, ended)
        self.check("what stands in the folders", (self.names(), os.listdir(closed)) == (["closed"], ["day"]), self.names())
        self.check("the file is as it was", (closed / "day").read_bytes() == OLD)

    def test_links(self) -> None:
        """Where the name is a link, the file that it leads to is replaced, or made; another name of the same file keeps what it has."""
        away = Path(self.room, "away")
        away.mkdir()
        for name, to, at in [
            ("link", "../away/one", away / "one"), ("whole", str(away / "two"), away / "two"), ("more", "link", away / "one"),
            ("new", "../away/three", away / "three"),
        ]:
            if name != "new":
                at.write_bytes(OLD)
            (self.folder / name).symlink_to(to)
            ended = programs.run(self.words(["report", "--k", "2"], f"folder/{name}"), RECORDS, cwd=self.room)
            held = (os.readlink(self.folder / name), at.read_bytes(), at.is_symlink())
            self.check(f"the answer to the link {name}", (ended.status, ended.err, held) == (0, b"", (to, b"a,6\n", False)), (ended, held))
        found = self.names(), sorted(os.listdir(away))
        self.check("what stands there", found == (["link", "more", "new", "whole"], ["one", "three", "two"]), found)
        (self.folder / "round").symlink_to("round")
        ended = programs.run(self.words(["report"], self.folder / "round"), RECORDS)
        wanted = (1, NOT_WRITTEN + b"  %s/round: Too many levels of symbolic links\n" % bytes(self.folder))
        self.check("the answer to a link to itself", (ended.status, ended.err) == wanted, ended)
        other = away / "other"
        other.hardlink_to(away / "one")
        programs.run(self.words(["report", "--k", "9"], away / "one"), RECORDS)
        self.check("another name of the file", (other.read_bytes(), (away / "one").read_bytes()) == (b"a,6\n", b"a,6\nb,3\nc,2\n"))

    def large(self) -> tuple[str, bytes]:
        """A saved summary of 4 MB, and its bytes."""
        path = f"{self.room}/large"
        text = b"".join(b"%04d%s,9\n" % (number, b"x" * 4_000) for number in range(1_000))
        Path(path).write_bytes(programs.run([self.program, "summarise", "--k", "1000"], text).out)
        return path, Path(path).read_bytes()

    def test_limits(self) -> None:
        """A limit on the size of files, by a fault or by a signal, and a full disk: the file is as it was."""
        path, _ = self.large()
        self.file.write_bytes(OLD)
        for limit in (1_000, 65_536, 4_000_000):  # what is printed on standard error is shorter
            ended = programs.run(self.words(["merge", path]), preexec_fn=partial(short_files, limit))
            self.stands(f"files of at most {limit} bytes", ended, (1, NOT_WRITTEN + b"  %s: File too large\n" % bytes(self.file)))
        ended = programs.run(self.words(["merge", path]), preexec_fn=lambda: resource.setrlimit(resource.RLIMIT_FSIZE, (65_536, 65_536)))
        self.check("the signal of a limit", ended.status == -signal.SIGXFSZ and self.file.read_bytes() == OLD, ended)

    def test_full_disk(self) -> None:
        """A disk that is full."""
        mount = ["mount", "-t", "tmpfs", "-o", "size=1m", "none", str(self.folder)]
        if os.geteuid() != 0 or programs.run(mount, env=dict(os.environ)).status != 0:
            self.skipTest("a full disk wants leave to mount one")
        self.addCleanup(subprocess.run, ["umount", str(self.folder)], check=True)
        path, _ = self.large()
        self.file.write_bytes(OLD)
        ended = programs.run(self.words(["merge", path]))
        self.stands("a full disk", ended, (1, NOT_WRITTEN + b"  %s: No space left on device\n" % bytes(self.file)))
        self.stands("a disk with room again", programs.run(self.words(["report", "--k", "2"]), RECORDS), (0, b""), b"a,6\n")

    def test_kills(self) -> None:
        """Killed at any time the program leaves the old file or the whole new one."""
        path, new = self.large()
        words, start = self.words(["merge", path]), time.monotonic()
        programs.run(words)
        takes, chosen, held = time.monotonic() - start, random.Random(1), set()
        for number in range(KILLS):
            self.file.write_bytes(OLD)
            run = subprocess.Popen(words, env={})
            try:
                run.wait(chosen.uniform(0, 1.2 * takes))
            except subprocess.TimeoutExpired:
                run.kill()
            run.wait()
            found = self.file.read_bytes()
            self.check(f"kill {number}", found in (OLD, new), (len(found), found[:100]))
            held.add(found == new)
            others = [name for name in self.names() if name != self.file.name]
            self.check(f"what kill {number} leaves", all(name.startswith(".heavy-") for name in others) and len(others) <= 1, others)
            for name in others:
                (self.folder / name).unlink()
        self.check("some were killed before the file was replaced", False in held, held)

    def test_calls(self) -> None:
        """What is asked of the system: the new file is written, flushed to the disk, and only then given the name."""
        log, trace = Path(self.room, "log"), ["strace", "-f", "-qq", "-e", "trace=open,openat,write,fsync,rename,unlink"]
        if not shutil.which("strace") or programs.run([*trace, "-o", "/dev/null", "true"], env=dict(os.environ)).status != 0:
            self.skipTest("what is asked of the system wants strace, and leave to trace")
        ended = programs.run([*trace, "-o", str(log), *self.words(["report", "--k", "2"])], RECORDS, env=dict(os.environ))
        self.stands("a run that is traced", ended, (0, b""), b"a,6\n")
        calls = [line.split(None, 1)[1] for line in log.read_text().splitlines()]
        # the last new file, behind the one that shows whether one can be made
        made = max(place for place, call in enumerate(calls) if call.startswith("open") and "/.heavy-" in call and "O_CREAT" in call)
        beside, number = calls[made].split('"')[1], calls[made].rsplit("= ", 1)[1]
        behind = [call for call in calls[made:] if beside in call or call.startswith((f"write({number},", f"fsync({number})"))]
        self.check("it is made anew", "O_EXCL" in behind[0] and "0666" in behind[0] and Path(beside).parent == self.folder, behind)
        kinds = [call.split("(")[0] for call in behind[1:]]
        self.check("it is written, flushed and renamed", kinds == ["write", "fsync", "rename"] and str(self.file) in behind[-1], behind)


if __name__ == "__main__":
    programs.run_tests("new_files")
