#!/usr/bin/env python3
"""Runs the program over devices that fail, and with threads and address space that run out: each time one line
`heavy: TEXT` on standard error, its status, and no report told as whole.

usage: tests/devices.py
"""
import os
import resource
import shutil
import signal
import stat
import subprocess
import tempfile
import tty
from functools import partial
from pathlib import Path

import programs

RECORDS = b"a,5\nb,3\nc,2\na,1\n"
REPORT = ["report", "--k", "2"]
NOT_READ = (1, b"", b"heavy: input could not be read\n")
NOT_WRITTEN = (1, b"", b"heavy: output could not be written\n")
NO_MEMORY = (4, b"", b"heavy: out of memory\n")
FILE_1 = (1, b"", b"heavy: file 1: could not be read\n")

# The stack that is said to be enough, in KiB; and what takes most of it: objects within an object, and a plan of many pieces.
STACK = 512
NESTED = b'{"x":' + b'{"a":' * 127 + b"1" + b"}" * 127 + b',"a":"z","n":7}\n'
CHAIN = ["--pieces", "1024", "--tree", "chain"]


def said(ended: programs.Ended) -> tuple[int, bytes, bytes]:
    return ended.status, ended.out, programs.first_line(ended.err)


def shell(script: str, words: list[str], given: bytes = RECORDS, **how) -> tuple[int, bytes, bytes]:
    """What the program said under a line of the shell, in which "$@" is the program with its words."""
    return said(programs.run(["sh", "-c", script, "", *words], given, **how))


def short_files(limit: int | None) -> None:
    """Has each file of this process end at `limit` bytes, if there is one: a write beyond fails."""
    if limit is not None:
        signal.signal(signal.SIGXFSZ, signal.SIG_IGN)
        resource.setrlimit(resource.RLIMIT_FSIZE, (limit, limit))


class Devices(programs.Checks):
    """Devices that fail, and threads and address space that run out."""

    def setUp(self) -> None:
        super().setUp()
        # some runs are nobody's, who has to reach the program
        os.chmod(self.room, 0o755)
        self.program = shutil.copy(programs.built("heavy_cli"), f"{self.room}/heavy")
        os.chmod(self.program, stat.S_IRWXU | stat.S_IXOTH | stat.S_IROTH)
        self.summary = f"{self.room}/summary"
        Path(self.summary).write_bytes(programs.run([self.program, "summarise", "--k", "2"], RECORDS).out)

    def test_inputs(self) -> None:
        """Every command that reads records, where they can't be read."""
        by_file = [["condense", self.summary], ["confirm", self.summary]]
        commands = [REPORT, ["summarise"], ["summarise", "--method", "ss"], ["table"], *by_file]
        for command in commands:
            for name, redirection in [("closed", "<&-"), ("a directory", "< /"), ("an I/O error", "< /proc/self/mem")]:
                found = shell(f'"$@" {redirection}', [self.program, *command])
                self.check(f"{command[0]} with {name} as standard input", found == NOT_READ, found)

    def test_inputs_that_fail_in_the_middle(self) -> None:
        """Every command that reads records, where their device fails behind some of them: these are judged first."""
        by_file = [["condense", self.summary], ["confirm", self.summary]]
        for command in [REPORT, [*REPORT, "--memory", "0"], [*REPORT, "--pieces", "4"], ["summarise"], ["table"], *by_file]:
            number = 1 + (command[-1] == self.summary)
            fails = (1, b"", b"heavy: file %d: could not be read\n" % number)
            bad = (3, b"", b"heavy: record 2: zero weight\n")
            for text, files, wanted in [
                (b"a,5\nb,3\n", [], NOT_READ), (b"a,5\nb,0\n", [], bad), (b"a,5\nb,3\n", ["-", "/dev/null"], fails),
                (b"a,5\nb,0\n", ["-", "/dev/null"], bad),
            ]:
                ear, mouth = os.openpty()  # reads fail behind what was written, once the other end is closed
                tty.setraw(mouth)
                os.write(mouth, text)
                os.close(mouth)
                found = said(programs.run([self.program, *command, *files], stdin=ear))
                os.close(ear)
                self.check(f"{command[0]} of {text} and {files}", found == wanted, found)

    def test_kept_pipes(self) -> None:
        """A pipe that is longer than may be kept in memory goes to a file that leaves no name, and its fault is a device's."""
        text = b"".join(b"key%d,%d\n" % (i % 700, i % 5 + 1) for i in range(200_000))
        folder = f"{self.room}/temporary"
        os.mkdir(folder)
        words = [self.program, "report", "--k", "800"]
        wanted = said(programs.run(words, text))
        self.check("report of a pipe", wanted[0] == 0 and wanted[1].count(b"\n") == 420, wanted[1][:200])
        for megabytes in ("0", "1", "2", "3", "18446744073709551615"):
            found = said(programs.run([*words, "--memory", megabytes], text, env=os.environ | {"TMPDIR": folder}))
            self.check(f"report of a pipe, {megabytes} MB in memory", found == wanted, found[1:][:200])
        self.check("no file is left", os.listdir(folder) == [], os.listdir(folder))
        for name, environment, limit, reason in (
            ("no folder", {"TMPDIR": f"{folder}/none"}, None, b"No such file or directory"),
            ("a full folder", {"TMPDIR": folder}, 65_536, b"File too large"),
        ):
            second = f"  the temporary folder {environment['TMPDIR']}: ".encode() + reason + b"\n"
            for more in ([], ["--explain"]):
                ended = programs.run(
                    [*words, "--memory", "1", *more], text, env=os.environ | environment, preexec_fn=partial(short_files, limit)
                )
                found = (ended.status, ended.out, ended.err)
                self.check(f"report of a pipe, {name} {more}", found == (1, b"", b"heavy: input could not be read\n" + second), found)
        self.check("no file is left of a fault", os.listdir(folder) == [], os.listdir(folder))

    def test_closed_streams(self) -> None:
        """A file that is opened is never taken for a standard stream that is closed, and a closed stream is a fault."""
        four, other = f"{self.room}/four.csv", f"{self.room}/other.csv"
        for path, text in ((four, RECORDS), (other, b"b,9\n")):
            Path(path).write_bytes(text)
        reads = [["report", "--k", "2"], ["summarise"], ["table"], ["condense", self.summary], ["confirm", self.summary]]
        for command in reads:
            number = 2 + (command[-1] == self.summary)
            untold = (1, b"", f"heavy: file {number}: could not be read\n".encode())
            words = [self.program, *command, four, "-"]
            for redirection in ("<&-", "<&- 3<&-"):
                found = shell(f'"$@" {redirection}', words)
                self.check(f"{command[0]} of a file and closed standard input", found == untold, found)
            found = shell('"$@" <&-', words[:-1])
            same = said(programs.run(words[:-1]))
            self.check(f"{command[0]} of a file alone", found == same and found[0] == 0, (found, same))
            found = shell('"$@" <&- >&- 2>&-', words[:-1])
            self.check(f"{command[0]} with nothing open", found == (1, b"", b""), found)
            found = shell('"$@" >&-', words[:-1])
            self.check(f"{command[0]} with standard output closed", found == NOT_WRITTEN, found)
            found = shell('"$@" 2>&-', words[:-1])
            self.check(f"{command[0]} with standard error closed", found == same, found)
            found = shell('"$@" <&-', [*words[:-1], "/dev/stdin"])
            self.check(f"{command[0]} of a file and closed standard input by its name", found == same, found)
        for path in (four, other):
            text = Path(path).read_bytes()
            self.check(f"{path} is as it was", text in (RECORDS, b"b,9\n"), text)

    def test_closed_streams_of_saved_files(self) -> None:
        """A saved file that is opened is never taken for a stream that is closed, and standard input by its name is empty then."""
        day = self.summary
        for command, more, number in [
            (["merge"], [], 1), (["merge", day], [], 2), (["ask"], ["a"], 1), (["list"], [], 1), (["describe"], [], 1),
            (["condense"], [day], 1), (["confirm"], [day], 1),
        ]:
            found = shell('"$@" <&-', [self.program, *command, "/dev/stdin", *more])
            cut_off = (3, b"", b"heavy: file %d: truncated\n" % number)
            self.check(f"{command[0]} of closed standard input by its name, {number}", found == cut_off, found)
        for command, rows in [
            (["merge", day], Path(day).read_bytes()), (["ask", day, "a"], b"a,4,6\n"), (["list", day], b"a,4,6\nb,1,3\n"),
            (["describe", day], b"version,2\nkind,summary\nk,2\nkeys,2\ntotal,11\ncounters,5\nslack,2\n"),
        ]:
            words = [self.program, *command]
            for redirection, wanted in [
                ("<&-", (0, rows, b"")), ("<&- 2>&-", (0, rows, b"")), ("<&- >&-", NOT_WRITTEN), ("<&- >&- 2>&-", (1, b"", b"")),
            ]:
                found = shell(f'"$@" {redirection}', words)
                self.check(f"{command[0]} with {redirection}", found == wanted, found)

    def test_unread_inputs(self) -> None:
        """What is tested before the records are read, where they can't be."""
        wrong, table = f"{self.room}/wrong", f"{self.room}/table"
        Path(wrong).write_bytes(b"HHS1\x03")
        Path(table).write_bytes(programs.run([self.program, "table", "--width", "4"], RECORDS).out)
        for words, status, text in [
            (["report", "--depth", "17"], 2, "depth must be 1 to 16"), (["report", "--k", "0"], 2, "k must be 1 to 65535"),
            (["report", "--workers", "65"], 2, "workers must be 1 to 64"),
            (["report", "--width", "0"], 2, "width must be 1 to 65536"), (["report", "--pieces", "0"], 2, "pieces must be 1 to 1024"),
            (["report", "--threshold", "1/4", "--k", "2"], 2, "threshold must be P/Q with 1 <= P <= Q <= 4294967296 and P*(K+1) >= Q"),
            (["report", "--tree", "(0 1)"], 2, "tree: piece 2 missing"), (["summarise", "--k", "65536"], 2, "k must be 1 to 65535"),
            (["summarise", "--k", "0", "--method", "ss"], 2, "k must be 1 to 65535"),
            (["table", "--depth", "0", "--width", "0"], 2, "depth must be 1 to 16"),
            (["table", "--depth", "16", "--width", "65537"], 2, "width must be 1 to 65536"),
            (["condense", wrong], 3, "file 1: bad kind"), (["confirm", wrong], 3, "file 1: bad kind"),
            (["condense", table], 3, "file 1: not a counter summary"), (["confirm", table], 3, "file 1: not a counter summary"),
        ]:
            found = shell('"$@" < /', [self.program, *words])
            self.check(" ".join(words), found == (status, b"", f"heavy: {text}\n".encode()), found)

    def test_outputs(self) -> None:
        """Every command, where its answer can't be written."""
        by_file = [["merge", self.summary], ["ask", self.summary, "a"], ["condense", self.summary], ["confirm", self.summary]]
        commands = [REPORT, ["summarise"], ["table"], *by_file]
        for command in [*commands, ["--help"], ["report", "--help"]]:
            for name, redirection in [("closed", ">&-"), ("full", "> /dev/full")]:
                found = shell(f'"$@" {redirection}', [self.program, *command])
                self.check(f"{command[0]} with standard output {name}", found == NOT_WRITTEN, found)
            ear, mouth = os.pipe()
            os.close(ear)
            found = said(programs.run([self.program, *command], RECORDS, stdout=mouth, restore_signals=False))
            os.close(mouth)
            self.check(f"{command[0]} into a closed pipe", found == NOT_WRITTEN, found)

    def test_refused_before_written(self) -> None:
        """Every command that reads records, where one is bad and the answer couldn't be written either."""
        by_file = [["condense", self.summary], ["confirm", self.summary]]
        for command in [REPORT, ["summarise"], ["summarise", "--method", "ss"], ["table"], ["top", "1"], *by_file]:
            found = shell('"$@" > /dev/full', [self.program, *command], b"a,5\nb,0\n")
            wanted = (3, b"", b"heavy: record 2: zero weight\n")
            self.check(f"{command[0]} of a bad record into a full device", found == wanted, found)

    def test_limit_on_files(self) -> None:
        """A write beyond a limit on the size of files ends the program by a signal, and where that is ignored is a fault."""
        for before, status in (("", -signal.SIGXFSZ), ("trap '' XFSZ; ", 1)):
            ended = programs.run(["sh", "-c", f'{before}ulimit -f 0; exec "$@"', "", self.program, *REPORT], RECORDS)
            self.check(f"a limit on files, {before}", (ended.status, ended.out) == (status, b""), ended)

    def test_small_stacks(self) -> None:
        """Each command in a stack of 512 KiB: a report of objects that nest as deep as they may, and by a plan that is a
        chain, too."""
        path = f"{self.room}/records"
        Path(path).write_bytes(b"a,5\nb,3\n" + b"".join(b"%d\n" % number for number in range(2_000)))
        for words, given, rows in [
            (["report", "--k", "500", path], b"", b"a,5\n"), (["top", "2", path], b"", b"a,5\nb,3\n"),
            (["report", "--k", "500", *CHAIN, path], b"", b"a,5\n"),
            (["report", "--json", "--key", "a", "--weight", "n"], NESTED, b"z,7\n"),
            (["report", "--k", "2", "--explain", "--output", "tsv"], b'"a",5\n', b"a\t5\n"), (["report", "--squeeze", "--key", "2"], b" a  b \n", b"b,1\n"),
            (["confirm", self.summary], RECORDS, b"a,6\n"), (["condense", self.summary], RECORDS, b"a,6\nb,3\nothers,2\n"),
            (["ask", self.summary, "a"], b"", b"a,4,6\n"), (["list", self.summary], b"", b"a,4,6\nb,1,3\n"),
        ]:
            found = shell(f'ulimit -Ss {STACK}; exec "$@"', [self.program, *words], given)
            self.check(f"{words[0]} in {STACK} KiB of stack", found == (0, rows, b""), found)
        made = [self.program, "summarise", "--k", "2"], [self.program, "merge", self.summary], [self.program, "table", "--width", "9"]
        for words in made:
            found = shell(f'ulimit -Ss {STACK}; exec "$@"', words)
            self.check(f"{words[1]} in {STACK} KiB of stack", found == said(programs.run(words, RECORDS)) and not found[0], found)

    def test_unread_files(self) -> None:
        """A damaged saved file and one that can't be read: the latter is told, since all are read before the first is judged."""
        wrong, none = f"{self.room}/wrong", f"{self.room}/none"
        Path(wrong).write_bytes(b"HHS1\x03")
        for files, wanted in [
            ([wrong, none], (1, b"", b"heavy: file 2: could not be read\n")),
            ([self.summary, wrong, none], (1, b"", b"heavy: file 3: could not be read\n")),
            ([wrong, self.summary], (3, b"", b"heavy: file 1: bad kind\n")),
        ]:
            found = said(programs.run([self.program, "merge", *files]))
            self.check(f"merge of {len(files)} files, {wanted[2]!r}", found == wanted, found)

    def test_files(self) -> None:
        """Saved files that can't be read, and one that comes through a pipe."""
        for command in (["merge"], ["ask"], ["condense"], ["confirm"]):
            for path in (f"{self.room}/none", self.room, f"{self.summary}/below"):
                words = [self.program, *command, path] + ["a"] * (command == ["ask"])
                found = said(programs.run(words, RECORDS))
                self.check(f"{command[0]} of {path}", found == FILE_1, found)
        found = said(programs.run([self.program, "merge", self.summary, f"{self.room}/none"]))
        self.check("merge with a second file missing", found == (1, b"", FILE_1[2].replace(b"1", b"2")), found)
        pipe = f"{self.room}/pipe"
        os.mkfifo(pipe)
        feeder = subprocess.Popen(["cp", self.summary, pipe])
        found = said(programs.run([self.program, "ask", pipe, "a"]))
        feeder.wait()
        self.check("ask of a pipe", found == (0, b"a,4,6\n", b""), found)

    def test_system(self) -> None:
        """What a report asks of the system: it opens its files for reading and nothing for writing, has no socket, and starts
        no program."""
        words = ["strace", "-f", "-qq", "-e", "trace=execve,open,openat,creat,unlink,unlinkat,rename,socket,connect"]
        if not shutil.which("strace") or programs.run([*words, "-o", "/dev/null", "true"], env=dict(os.environ)).status != 0:
            self.skipTest("what is asked of the system wants strace, and leave to trace")
        log, file = Path(self.room, "log"), Path(self.room, "four.csv")
        file.write_bytes(RECORDS)
        ended = programs.run([*words, "-o", str(log), self.program, *REPORT, str(file)], env=dict(os.environ))
        self.check("a report that is traced", said(ended) == (0, b"a,6\n", b""), ended)
        calls = [line.split(None, 1)[1] for line in log.read_text().splitlines()]
        opened = [call for call in calls if call.startswith("open") and str(file) in call]
        self.check("its file is opened", opened and all("O_RDONLY" in call for call in opened), calls)
        others = [call for call in calls if not call.startswith("open") or "O_WRONLY" in call or "O_RDWR" in call]
        self.check("and nothing else is asked", len(others) == 1 and others[0].startswith("execve("), others)

    def test_threads(self) -> None:
        """Threads and address space that the system refuses: the report, or out of memory."""
        words = [self.program, *REPORT, "--workers", "64", "--pieces", "64"]
        report, least, most = (0, b"a,6\n", b""), 4_000, 8_000_000
        for kilobytes in (*range(least, 600_000, 12_000), most):
            found = shell(f'ulimit -v {kilobytes}; exec "$@"', words)
            allowed = {least: [NO_MEMORY], most: [report]}.get(kilobytes, [NO_MEMORY, report])
            self.check(f"64 workers in {kilobytes} kB", found in allowed, found)
        # no limit on threads holds for root
        nobody = {"user": 65534, "group": 65534, "extra_groups": []} if os.geteuid() == 0 else {}
        alone = {"preexec_fn": lambda: resource.setrlimit(resource.RLIMIT_NPROC, (1, 1)), **nobody}
        found = said(programs.run(words, RECORDS, **alone))
        self.check("64 workers, and no thread to be had", found == NO_MEMORY, found)
        path = Path(self.room, "records.csv")
        path.write_bytes(RECORDS)
        for command in (["table"], ["condense", self.summary], ["confirm", self.summary]):
            found = said(programs.run([self.program, *command, str(path)], **alone))
            self.check(f"{command[0]} of a file, and no thread to be had", found == NO_MEMORY, found)


if __name__ == "__main__":
    programs.run_tests("devices")
