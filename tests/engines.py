#!/usr/bin/env python3
"""Runs the scripts of examples/machines over random records: what they print has to be what `heavy report` prints over all
records, by its options for records and rows too. GNU parallel reaches its machines through a stand-in for ssh, which runs the
words here, and loses a machine in either round. Over Dask, workers are started as that folder's README does it, and one is
killed by its process id while it reads a part, in each of the two passes, as is one of a LocalCluster of three, over a
dataframe, a bag and delayed parts.

usage: tests/engines.py [SEED]

Where an engine isn't installed its test is skipped.
"""
import contextlib
import functools
import glob
import itertools
import json
import os
import random
import shutil
import signal
import subprocess
import sys
import threading
import time
import unittest
from collections.abc import Callable, Iterator
from contextlib import contextmanager
from pathlib import Path

import programs
import reference

EXAMPLES = programs.TOP / "examples" / "machines"
K = 20
PARTS = 8
# long enough for two busy cores; Dask itself tries for 30 s to reach a worker that is gone
SECONDS = 300
# Stands on the path before the program: notes the command and its input, and does what the file `rule` says of them.
WATCHED = r"""#!/bin/sh
input=$(readlink /proc/$$/fd/0)
echo "$1 $input" >> "$ROOM/log"
fails= status=
. "$ROOM/rule"
if [ "$1 $input" = "$fails" ]; then
  echo "heavy: planted" >&2
  exit "$status"
fi
exec "$HEAVY" "$@"
"""
# Notes the machine, and runs the words here: where the rule says so, those of the second round by another summary. A machine
# that is lost is cut off in the middle of what it writes, as ssh is then, once or each time.
SSH = """#!/bin/sh
echo "$1" >> "$ROOM/hosts"
host=$1
shift
swapped= lost= once=
. "$ROOM/rule"
case "$swapped:$*" in
  /*:*"heavy condense"*) exec sh -c "$*" < "$swapped" ;;
esac
case "$lost:$host:$*" in
  "$host "*":$host:"*"heavy ${lost#* } "*)
    if [ -z "$once" ] || mkdir "$ROOM/failed" 2> /dev/null; then
      sh -c "$*" | head -c 20
      echo "ssh: $host is lost" >&2
      exit 255
    fi
    ;;
esac
exec sh -c "$*"
"""
# How Tables are read, with names that a shell has to be kept from reading, and which of their rows are wanted.
RECORDS = ["-Hd", ";", "--key", '"it\'s, $HOME",path', "--weight={#} s", "--allow-zero", "--decimals", "3"]
ROWS = ["--share", "-t", "1/40", "--top=4"]
NAMES = [b"day", b"it's, $HOME", b"{#} s", b"path"]
# What workers load the parts by: the items of a file of records, its frame, and its counter.
LOADING = """
import collections, csv, pandas

def items(path):
    with open(path, newline="", encoding="utf-8", errors="surrogateescape") as file:
        return [(key, int(weight)) for key, weight in csv.reader(file)]

def frame(path):
    return pandas.DataFrame(items(path), columns=["key", "weight"])

def counter(path):
    counted = collections.Counter()
    for key, weight in items(path):
        counted[key] += weight
    return counted
"""
# The module over a cluster of three workers on this machine, each a process of its own: a report of each kind of collection in
# turn. Of each it tells the workers' process numbers before it, and its rows.
COLLECTIONS = """
import json, logging, os, sys
import dask, dask.bag, dask.dataframe
from dask.distributed import Client, LocalCluster
import heavy, loading

def collection(kind, paths):
    loads = [dask.delayed(getattr(loading, kind))(path) for path in paths]
    if kind == "frame":
        meta = loading.pandas.DataFrame({"key": ["a"], "weight": [1]})
        return dask.dataframe.from_delayed(loads, meta=meta, verify_meta=False), "key", "weight"
    return (dask.bag.from_delayed(loads), 0, 1) if kind == "items" else (loads,)

if __name__ == "__main__":
    k, cases = json.loads(sys.argv[1])
    with LocalCluster(n_workers=3, threads_per_worker=1, dashboard_address="127.0.0.1:0", silence_logs=logging.ERROR) as cluster:
        with Client(cluster) as client:
            for kind, paths in cases:
                client.wait_for_workers(3)
                workers = [*client.run(os.getpid).values()]
                rows = heavy.dask.report_csv(*collection(kind, paths), k=k)
                print(json.dumps([workers, rows.decode("latin-1")]), flush=True)
"""


# Waits until Dask's scheduler at an address has a task for which no worker is there.
WAITS = """
import sys, time, distributed

def waiting(dask_scheduler):
    return sum(task.state == "no-worker" for task in dask_scheduler.tasks.values())

client = distributed.Client(sys.argv[1])
while not client.run_on_scheduler(waiting):
    time.sleep(0.1)
"""


class Pipe:
    """A part that is a pipe, which a worker opens in each pass. One of those that open it is killed."""

    def __init__(self, path: Path, text: bytes, victim: int) -> None:
        self.path, self.text, self.victim = path, text, victim
        self.readers: list[int] = []  # the processes that opened it, in order
        os.mkfifo(path)
        threading.Thread(target=self.feed, daemon=True).start()

    def holders(self) -> list[int]:
        """The other processes that have it open."""
        found = set()
        for place in glob.glob("/proc/[0-9]*/fd/*"):
            with contextlib.suppress(OSError):
                if os.readlink(place) == str(self.path):
                    found.add(int(place.split("/")[2]))
        return sorted(found - {os.getpid()})

    def feed(self) -> None:
        while self.path.exists():
            # the room may go while this waits for the pipe's end
            with contextlib.suppress(BrokenPipeError, FileNotFoundError), open(self.path, "wb") as pipe:
                waited("the pipe's reader", self.holders)
                self.readers += self.holders()
                if len(self.readers) == self.victim:
                    os.kill(self.readers[-1], signal.SIGKILL)
                else:
                    pipe.write(self.text)
            waited("the pipe's end", lambda: not self.holders())


def waited(what: str, holds) -> None:
    """Waits until it holds."""
    end = time.monotonic() + SECONDS
    while not holds():
        if time.monotonic() > end:
            raise TimeoutError(f"waited in vain for {what}")
        time.sleep(0.1)


def stop(processes: list[subprocess.Popen]) -> None:
    """Asks processes to end, and ends those that don't."""
    for process in processes:
        process.terminate()
    for process in processes:
        try:
            process.wait(SECONDS)
        except subprocess.TimeoutExpired:
            process.kill()
            process.wait()


class Room:
    """A folder with the parts of a stream, and with `heavy` and `ssh` on the path."""

    def __init__(self, room: str, seed: int) -> None:
        self.path, self.seed = Path(room), seed
        draw = random.Random(seed)
        keys = [b"%d" % i for i in range(300)] + [b'"a,b"', b"others", b"\xff"]
        self.parts: list[Path] = []
        records = b""
        for i in range(PARTS):
            # a name that a shell has to be kept from reading
            part = self.path / f"part {i} 'a' $b.csv"
            drawn = draw.choices(keys, weights=[1 / (rank + 1) for rank in range(len(keys))], k=draw.randrange(200, 600))
            text = b"".join(b"%s,%d\n" % (key, draw.randrange(1, 100)) for key in drawn)
            if i == PARTS - 1:
                # heavy in all, and in no other part: its summary alone has the key
                text += b"last,99\n" * 150
            part.write_bytes(text)
            self.parts.append(part)
            records += text
        self.whole = self.path / "all.csv"
        self.whole.write_bytes(records)
        program = programs.built("heavy_cli")
        bin = self.path / "bin"
        bin.mkdir()
        for name, text in (("heavy", WATCHED), ("ssh", SSH)):
            (bin / name).write_text(text)
            (bin / name).chmod(0o755)
        self.env = {**os.environ, "ROOM": room, "HEAVY": program, "PATH": f"{bin}:{os.environ['PATH']}", "LC_ALL": "C"}
        # a worker that is killed leaves its folders here
        rest = self.path / "the rest"
        rest.mkdir()
        self.env["TMPDIR"] = str(rest)
        self.forget()
        report = programs.run([program, "report", "--k", str(K)], records)
        self.report = (report.status, report.out)
        self.expected = (0, reference.report(records, K))
        # one part more, with a key that has a line feed and a path that has a colon
        self.fed = self.path / "fed:9.csv"
        self.fed.write_bytes(b'"a\nb",9000\n' * 3)
        self.expected_fed = (0, reference.report(records + self.fed.read_bytes(), K))

    def forget(self, rule: str = "") -> None:
        """Begins a new case, in which the program follows this rule."""
        if (self.path / "failed").exists():
            (self.path / "failed").rmdir()
        for name in ("log", "hosts"):
            (self.path / name).unlink(missing_ok=True)
        (self.path / "rule").write_text(f"{rule}\n")

    def lines(self, name: str) -> list[str]:
        path = self.path / name
        return path.read_text().splitlines() if path.exists() else []

    def times(self, command: str, part: Path | None = None) -> int:
        """How often the program was run with this command, on this part or on any."""
        runs = [line.split(" ", 1) for line in self.lines("log")]
        return sum(words[0] == command and part in (None, Path(words[1])) for words in runs)

    def run(self, words: list[str | Path], folder: Path | None = None) -> subprocess.CompletedProcess:
        """Runs a script to its end, or kills it when it takes too long."""
        how = {"env": self.env, "cwd": folder or self.path, "stdin": subprocess.DEVNULL, "capture_output": True}
        return subprocess.run([str(word) for word in words], timeout=SECONDS, **how)

    def start(self, words: list[str], log: str) -> subprocess.Popen:
        with open(self.path / log, "ab") as said:
            return subprocess.Popen(words, env=self.env, cwd=self.path, stdout=said, stderr=said)


class Tables:
    """Parts with a header, a key of two columns and decimals, and the reports of them."""

    def __init__(self, room: Room) -> None:
        draw = random.Random(room.seed)
        hosts = [b"a", b"o'neil", b"b;c", b'd "e"', b"{}"]
        self.items: list[tuple[bytes, int]] = []
        self.parts: list[Path] = []
        whole = b"\n" + table_line(NAMES)
        for i in range(3):
            rows = []
            for _ in range(draw.randrange(60, 90)):
                host, path = draw.choice(hosts), draw.choice([b"/", b"/one,two", b"/three"])
                units = draw.choice([0, 1, 500, 12250, draw.randrange(1, 90000)])
                # a point may have no digit before it
                weight = draw.choice([b"-", b"0"]) if units == 0 else reference.number_text(units, 3).removeprefix(b"0")
                rows.append([b"%d" % i, host, weight, path])
                if units:
                    self.items.append((reference.row_text(host, path).removesuffix(b"\n"), units))
            # columns are found by name, in whatever order a part has them
            order = draw.sample(range(4), 4)
            text = b"".join(table_line([row[at] for at in order]) for row in [NAMES, *rows])
            self.parts.append(room.path / f"table {i}.csv")
            self.parts[-1].write_bytes(text)
            whole += b"".join(map(table_line, rows))
        self.whole = room.path / "tables.csv"
        self.whole.write_bytes(whole)
        total = reference.total_of(self.items)
        # each case has options, what says k to a script, and the report
        self.cases = [
            ([*RECORDS], ["60"], reference.printed_rows(reference.heavy(self.items, 1, 61), total, None, False, 3)),
            ([*ROWS, *RECORDS], ["-k60", "--"], reference.printed_rows(reference.heavy(self.items, 1, 40), total, 4, True, 3)),
        ]

    def try_all(self, test: programs.Checks, room: Room, name: str, words: list[str | Path], parts: list[str | Path]) -> None:
        """Each case by a script, and by the program."""
        for options, k, expected in self.cases:
            report = programs.run([room.env["HEAVY"], "report", *options, "-k60", *map(str, self.parts)])
            test.check(f"the report of tables {options}", (report.status, report.out) == (0, expected), (report, expected))
            ended = room.run([*words, *options, *k, *parts])
            test.check(f"{name} over tables {options}", gave(ended) == (0, expected), (ended, expected))


def table_line(fields: list[bytes]) -> bytes:
    """A line of a table with semicolons, in which a field with a quote or a semicolon is quoted."""
    quoted = [b'"' + field.replace(b'"', b'""') + b'"' if any(it in field for it in b';"') else field for field in fields]
    return b";".join(quoted) + b"\n"


def gave(ended: subprocess.CompletedProcess) -> tuple[int, bytes]:
    """How a script ended, as what is expected of it is written."""
    return ended.returncode, ended.stdout


def tried(test: programs.Checks, room: Room, name: str, case: Callable[[], None]) -> None:
    """Tries a case. What stops it is a failed check, told with the last lines of what Dask said."""
    try:
        case()
    except Exception as error:
        last = [line for log in ("scheduler.log", "workers.log") for line in room.lines(log)[-20:]]
        test.check(name, False, "\n".join([repr(error), *last]))


def try_parallel(test: programs.Checks, room: Room) -> None:
    """The scripts over GNU parallel."""
    bad = room.path / "bad.csv"
    bad.write_bytes(b"a,0\n")
    one_file, machines = EXAMPLES / "one_file.sh", EXAMPLES / "many_machines.sh"
    ended = room.run([one_file, str(K), room.whole])
    test.check("one file", gave(ended) == room.expected == room.report, ended)
    cores = len(os.sched_getaffinity(0))
    test.check("one file in parts", room.times("summarise") == room.times("condense") >= cores, room.lines("log"))
    ended = room.run([one_file, str(K), bad])
    test.check("a bad file", gave(ended) == (3, b"") and b"record 1: zero weight" in ended.stderr, ended)
    (room.path / "empty").touch()
    ended = room.run([one_file, str(K), room.path / "empty"])
    test.check("an empty file", gave(ended) == (0, b""), ended)
    places = [f"{'two' if i % 2 else 'one'}:{part}" for i, part in enumerate(room.parts)]
    room.forget()
    ended = room.run([machines, str(K), *places])
    test.check("many machines", gave(ended) == room.expected == room.report, ended)
    hosts = sorted(["one", "two"] * PARTS)
    test.check("each part on its machine, twice", sorted(room.lines("hosts")) == hosts, room.lines("hosts"))
    ended = room.run([machines, str(K), *places, f"one:{room.fed}"])
    test.check("a line feed in a key, a colon in a path", gave(ended) == room.expected_fed, ended)
    ended = room.run([machines, str(K), *places, f"two:{bad}"])
    told = b"record 1: zero weight" in ended.stderr and b"bad.csv" in ended.stderr
    test.check("a bad part", gave(ended) == (3, b"") and told, ended)
    room.forget(f'fails="condense {quoted(room.parts[2])}" status=3')
    ended = room.run([machines, str(K), *places])
    test.check("a fault in the second round", gave(ended) == (3, b""), ended)
    try_lost(test, room, places)
    room.forget()
    try_options(test, room)
    room.forget()
    other = room.path / "other"
    other.write_bytes(programs.run([room.env["HEAVY"], "summarise", "--k", str(K)], b"a,1\n").out)
    room.forget(f'swapped="{other}"')
    ended = room.run([machines, str(K), *places])
    test.check("another summary on a machine", ended.returncode != 0 and ended.stdout == b"", ended)
    test.check("is not condensed by there", room.times("summarise") == PARTS and room.times("condense") == 0, room.lines("log"))


def try_options(test: programs.Checks, room: Room) -> None:
    """The scripts over GNU parallel with options."""
    one_file, machines = EXAMPLES / "one_file.sh", EXAMPLES / "many_machines.sh"
    tables = Tables(room)
    tables.try_all(test, room, "one file", [one_file], [tables.whole])
    cores = len(os.sched_getaffinity(0))
    test.check("one table in parts", room.times("summarise") == room.times("condense") >= 2 * cores, room.lines("log"))
    places = [f"{'two' if i % 2 else 'one'}:{part}" for i, part in enumerate(tables.parts)]
    tables.try_all(test, room, "many machines", [machines], places)
    # what has another content in the second round, of the same weight
    weight = sum(int(line.rsplit(b",", 1)[1]) for line in room.parts[-1].read_bytes().splitlines())
    (room.path / "changed").write_bytes(b"changed,%d\n" % weight)
    room.forget(f'if [ "$1 $input" = "condense {quoted(room.parts[-1])}" ]; then exec < "$ROOM/changed"; fi')
    ended = room.run([machines, str(K), *[f"one:{part}" for part in room.parts]])
    told = b"outside its bounds" in ended.stderr
    test.check("a part that was changed between the rounds", gave(ended) == (3, b"") and told, ended)
    room.forget()
    for name, text in [("a header alone", table_line(NAMES)), ("a header without a line feed", table_line(NAMES)[:-1])]:
        (room.path / "head").write_bytes(text)
        ended = room.run([one_file, *RECORDS, "60", room.path / "head"])
        test.check(name, gave(ended) == (0, b"") and ended.stderr == b"", ended)
    ended = room.run(["bash", "-c", '"$0" -k2 <(echo a; echo b; echo a)', one_file])
    test.check("a pipe", gave(ended) == (0, b"a,2\n"), ended)
    room.forget()
    for words, told in [
        (["-t", "1/100", "60"], b"heavy: threshold must be P/Q"), (["-k3", "-k", "4"], b"'--k <N>' cannot be used multiple times"),
        (["-d", "ab", "60"], b"heavy: delimiter must be one byte"), (["--workers=2", "60"], b"usage: many_machines.sh "),
        (["60", "-H"], b"usage: many_machines.sh "), (["60", "-oA:b"], b"usage: many_machines.sh "), (["-H"], b"usage: many_machines.sh "),
    ]:
        ended = room.run([machines, *words, *places[: words != ["-H"]]])
        test.check(f"{words} are refused", gave(ended) == (2, b"") and told in ended.stderr, ended)
    test.check("before a machine is reached", not room.lines("hosts"), room.lines("hosts"))


def try_lost(test: programs.Checks, room: Room, places: list[str]) -> None:
    """A machine that is lost in either round, for once and for good."""
    machines = EXAMPLES / "many_machines.sh"
    for command in ("summarise", "condense"):
        room.forget(f'lost="two {command}" once=yes')
        ended = room.run([machines, str(K), *places])
        test.check(f"a machine lost once in {command}", gave(ended) == room.expected == room.report, ended)
        test.check(f"its part is done again in {command}", len(room.lines("hosts")) == 2 * PARTS + 1, room.lines("hosts"))
        room.forget(f'lost="two {command}"')
        ended = room.run([machines, str(K), *places])
        told = b"ssh: two is lost" in ended.stderr and ended.stderr.count(b"This job failed") > 0
        test.check(f"a machine lost for good in {command}", gave(ended) == (255, b"") and told, ended)


def quoted(part: Path) -> str:
    """A path as it stands between double quotes in a shell's file."""
    return str(part).replace("$", "\\$")


class Dask:
    """A scheduler on this machine, its workers, and the example over them, by the Python that has Dask and by the module."""

    def __init__(self, python: str, room: Room) -> None:
        self.python, self.room, self.count = python, room, 0
        self.file = room.path / "scheduler.json"
        words = [*self.words("scheduler"), "--port", "0", "--scheduler-file", str(self.file)]
        self.scheduler = room.start(words, "scheduler.log")
        self.address = ""

    def wait(self) -> None:
        """Waits until the scheduler tells its address: its file is there before it is written."""

        def is_told() -> bool:
            try:
                self.address = json.loads(self.file.read_text())["address"]
            except (FileNotFoundError, json.JSONDecodeError):
                return False
            return True

        waited("Dask's scheduler", is_told)

    def words(self, what: str) -> list[str]:
        return [self.python, "-m", "distributed.cli.dask_" + what, "--host", "127.0.0.1", "--no-dashboard"]

    @contextmanager
    def two_workers(self) -> Iterator[list[subprocess.Popen]]:
        """Two workers, each of which is the process that was started."""
        workers = []
        try:
            for _ in range(2):
                self.count += 1
                words = [self.address, "--no-nanny", "--nthreads", "1", "--local-directory", f"worker{self.count}"]
                workers.append(self.room.start([*self.words("worker"), *words], "workers.log"))
            asked = f"import distributed\ndistributed.Client({self.address!r}).wait_for_workers(2, timeout={SECONDS})"
            self.room.run([self.python, "-c", asked]).check_returncode()
            yield workers
        finally:
            stop(workers)

    def example(self, parts: list[str | Path]) -> list[str]:
        script = str(EXAMPLES / "over_dask.py")
        return [self.python, script, "--scheduler", self.address, str(K), *[str(part) for part in parts]]


def kill_a_worker(test: programs.Checks, dask: Dask, number: int) -> None:
    """A worker is killed while it reads a part in this pass."""
    room = dask.room
    pipe = Pipe(room.path / f"pipe{number}", room.parts[-1].read_bytes(), number)
    with dask.two_workers() as workers, open(room.path / "out", "wb") as out:
        words = dask.example([*room.parts[:-1], pipe.path])
        example = subprocess.Popen(words, env=room.env, cwd=room.path, stdout=out)
        try:
            status = example.wait(SECONDS)
        finally:
            example.kill()
            example.wait()
        pids = {worker.pid for worker in workers}
        test.check("workers read the part", len(pipe.readers) == 3 and set(pipe.readers) == pids, (pipe.readers, pids))
        ended = {worker.pid: worker.poll() for worker in workers}
        test.check("one of them was killed", ended[pipe.readers[number - 1]] == -signal.SIGKILL, ended)
    printed = (room.path / "out").read_bytes()
    test.check(f"a worker killed in pass {number}", (status, printed) == room.expected == room.report, (status, printed))


def try_faults(test: programs.Checks, dask: Dask) -> None:
    """What is told of a part that is refused."""
    room = dask.room
    bad = room.path / "bad.csv"
    bad.write_bytes(b"a,1\nb,0\n")
    ended = room.run(dask.example([*room.parts, bad]))
    told = f"over_dask: {bad}: record 2: zero weight\n".encode()
    test.check("a bad part", gave(ended) == (3, b"") and told in ended.stderr, ended)
    ended = room.run([*dask.example([])[:-1], "0", *room.parts])
    test.check("a bad k", gave(ended) == (2, b"") and b"over_dask: k must be 1 to 65535\n" in ended.stderr, ended)


def try_places(test: programs.Checks, dask: Dask) -> None:
    """Parts that no worker has, and that some have."""
    room = dask.room
    ended = room.run(dask.example([*room.parts, "/nowhere/part.csv"]))
    told = b"over_dask: [Errno 2] No such file or directory: '/nowhere/part.csv'" in ended.stderr
    test.check("a part that isn't there", gave(ended) == (1, b"") and told, ended)
    places = [f"127.0.0.1:{part}" for part in room.parts]
    ended = room.run(dask.example(places))
    test.check("parts at an address", gave(ended) == room.expected == room.report, ended)
    here, there = (Pipe(room.path / name, b"a,1\n", 0) for name in ("here", "there"))
    example = subprocess.Popen(dask.example([here.path, f"10.0.0.9:{there.path}"]), env=room.env, cwd=room.path)
    try:
        waited("the other part", lambda: here.readers)
        room.run([dask.python, "-c", WAITS, dask.address]).check_returncode()
        test.check("a part waits for a worker at its address", example.poll() is None and not there.readers, there.readers)
    finally:
        example.kill()
        example.wait()


def try_tables(test: programs.Checks, dask: Dask) -> None:
    """The example with options, and some that are refused."""
    tables = Tables(dask.room)
    script = [dask.python, EXAMPLES / "over_dask.py", "--scheduler", dask.address]
    tables.try_all(test, dask.room, "Dask", script, tables.parts)
    for words, told in [
        (["-t", "1/100", "60"], b"over_dask: threshold must be P/Q"), (["-t", "five", "60"], b"not 'five'"),
        (["-d", "ab", "60"], b"over_dask: delimiter must be one byte"), (["--workers=2", "60"], b"unrecognized arguments: --workers=2"),
    ]:
        ended = dask.room.run([*script, *words, tables.whole])
        test.check(f"Dask: {words} are refused", gave(ended) == (2, b"") and told in ended.stderr, ended)


def try_two_workers(test: programs.Checks, dask: Dask) -> None:
    """The cases in which no worker is lost. The last one leaves a part that no worker can read."""
    with dask.two_workers():
        for case in (try_faults, try_tables, try_places):
            tried(test, dask.room, case.__name__, functools.partial(case, test, dask))


def try_alone(test: programs.Checks, python: str, room: Room) -> None:
    """The example without a scheduler."""
    ended = room.run([python, EXAMPLES / "over_dask.py", str(K), *room.parts, room.fed])
    test.check("over Dask on one machine", gave(ended) == room.expected_fed, ended)


def try_collections(test: programs.Checks, python: str, room: Room) -> None:
    """A cluster of three workers on one machine, of which one is killed while it loads a part, for each kind of part in each
    pass."""
    script, text = room.path / "collections_of_dask.py", room.parts[-1].read_bytes()
    script.write_text(COLLECTIONS)
    (room.path / "loading.py").write_text(LOADING)
    kinds = [*itertools.product(("frame", "items", "counter"), (1, 2))]
    pipes = [Pipe(room.path / f"{kind}{number}", text, number) for kind, number in kinds]
    cases = [(kind, [*map(str, room.parts[:-1]), str(pipe.path)]) for (kind, _), pipe in zip(kinds, pipes)]
    env = {**room.env, "PYTHONPATH": f"{room.path}:{programs.TOP / 'python'}"}
    # a cluster that ends beside a worker that starts anew says so on standard error
    with open(room.path / "workers.log", "ab") as said:
        how = {"env": env, "cwd": room.path, "stdin": subprocess.DEVNULL, "stdout": subprocess.PIPE, "stderr": said}
        ran = subprocess.run([python, str(script), json.dumps([K, cases])], timeout=len(cases) * SECONDS, **how)
    test.check("the collections of Dask", ran.returncode == 0, ran)
    for (kind, number), pipe, line in itertools.zip_longest(kinds, pipes, ran.stdout.splitlines(), fillvalue=b'[[], ""]'):
        name, (workers, rows) = f"{kind}{number}", json.loads(line)
        killed = pipe.readers[number - 1 :][:1]
        test.check(f"{name}: one of three workers is killed", len(workers) == 3 and {*killed} & {*workers}, (killed, workers))
        test.check(f"{name}: its part is loaded again", len(pipe.readers) >= 3, pipe.readers)
        test.check(f"{name}: the report", rows.encode("latin-1") == room.expected[1], rows)


def try_dask(test: programs.Checks, python: str, room: Room) -> None:
    """The example and the module over Dask, case by case."""
    ended = programs.install_library(f"{room.path}/usr", programs.compilers()[0])
    test.check("the library for C is there", ended.status == 0, ended)
    room.env |= {"LIBHEAVY": f"{room.path}/usr/lib/libheavy.so.1", "PYTHONPATH": str(programs.TOP / "python")}
    tried(test, room, "Dask alone", lambda: try_alone(test, python, room))
    tried(test, room, "collections", lambda: try_collections(test, python, room))
    dask = Dask(python, room)

    try:
        tried(test, room, "Dask's scheduler", dask.wait)
        if dask.address:
            tried(test, room, "a worker killed in the first pass", lambda: kill_a_worker(test, dask, 1))
            tried(test, room, "a worker killed in the second pass", lambda: kill_a_worker(test, dask, 2))
            tried(test, room, "two workers", lambda: try_two_workers(test, dask))
    finally:
        stop([dask.scheduler])


class Engines(programs.Checks):
    """The scripts of examples/machines, over random records."""

    def setUp(self) -> None:
        super().setUp()
        seed = int(sys.argv[1]) if len(sys.argv) > 1 else random.randrange(2**30)
        print(f"engines: seed {seed}", flush=True)
        self.records = Room(self.room, seed)
        self.check("the report", self.records.report == self.records.expected != self.records.expected_fed, self.records.report)

    @unittest.skipUnless(shutil.which("parallel"), "the scripts over GNU parallel want parallel")
    def test_parallel(self) -> None:
        tried(self, self.records, "parallel", lambda: try_parallel(self, self.records))

    def test_dask(self) -> None:
        python = programs.python_with("distributed", "pandas")
        if not python or not programs.has_library():
            self.skipTest("the script over Dask wants python3-distributed, python3-pandas and the library for C")
        try_dask(self, python, self.records)


if __name__ == "__main__":
    programs.run_tests("engines")
