#!/usr/bin/env python3
"""Installs the built program and runs what was installed; and builds by stand-ins of the toolchain: what the build
says, which crates it proves side by side, that it proves no crate that is proved, that one build is enough for two that
begin at once, that none runs where nothing is to be built, and that one that is interrupted or fails leaves no process.
The library for C is installed of what the stand-in leaves, and left out where there is no C compiler; it is built over
the crates that `rt ci` left, where they are as it left them. bin/test builds what the scripts use that it runs, and says
how long that takes; and a script that is run by itself builds a program that is older than its sources.

usage: tests/install.py
"""
import ctypes
import os
import pty
import re
import shutil
import signal
import subprocess
import tempfile
import time
from pathlib import Path

import header
import programs

RECORDS = b"a,5\nb,3\nc,2\na,1\n"
INSTALLED = {
    "bin/heavy": 0o755,
    "share/man/man1/heavy.1": 0o644,
    "share/bash-completion/completions/heavy": 0o644,
    "share/zsh/vendor-completions/_heavy": 0o644,
    "share/fish/vendor_completions.d/heavy.fish": 0o644,
}
LIBRARY = [
    "include/heavy.h", "lib/libheavy.a", "lib/libheavy.so.1", "lib/libheavy.so", "lib/pkgconfig/heavy.pc",
]
LEFT_OUT = b"heavy: the library for C is left out: it needs a C compiler, cc or what CC names, and ar\n"
# what the scripts call, besides a C compiler and ar
TOOLS = [
    "bash", "env", "dirname", "readlink", "awk", "find", "sed", "cp", "chmod", "mv", "mkdir", "mktemp", "rm", "ln",
    "cat", "tail", "touch", "sleep", "sh", "sort", "nproc", "nice",
]
# rt, which only tells where the toolchain is.
STAND_IN = """#!/bin/sh
echo "$KIT/START-HERE.md"
"""
# The compiler of that toolchain. It tells what rattle tells, notes what it does, and leaves a library, or of the program
# an object. Of a slow crate it waits, with a process below it, until the file GO is there or those of ALL have begun; and a
# crate that fails fails once such a process was noted, where there are slow ones. It waits at most SOON seconds.
COMPILER = """#!/usr/bin/env bash
echo "$*" >> "$CALLS"
while [ $# -gt 0 ]; do
  case $1 in
    --crate-name) name=$2 ;;
    --jobs) jobs=$2 ;;
    -o) made=$2 ;;
  esac
  shift
done
case $name in
  heavy_cli) echo run >> "$RUNS" ;;
  heavy_ffi) echo lib >> "$RUNS" ;;
  heavy_oom) echo calls >> "$RUNS" ;;
esac
echo "begin $name --jobs $jobs" >> "$PROOFS"
is_late() { [ "$SECONDS" -gt "$SOON" ]; }
all_begun() {
  [ -n "$ALL" ] || return 1
  for one in $ALL; do grep -q "^begin $one " "$PROOFS" || return 1; done
}
if [[ " $SLOW " == *" $name "* ]]; then
  { until [ -e "$GO" ] || all_begun || is_late; do sleep 0.05; done; } &
  echo $! >> "$CHILDREN"
  wait
fi
if [ "$name" = "$FAILING" ] && [ -n "$SLOW" ]; then until [ -s "$CHILDREN" ] || is_late; do sleep 0.05; done; fi
echo "end $name" >> "$PROOFS"
echo "the stand-in's last line"
[ "$name" != "$FAILING" ] || exit 1
case $name in
  heavy_cli | heavy_oom) [ "$OUTCOME" = 0 ] || exit "$OUTCOME"; touch "$made" ;;
  heavy_ffi) [ "$OUTCOME" = 0 ] || exit "$OUTCOME"; cp "$KIT/calls.a" "$made" ;;
  *) mkdir -p "$made"; touch "$made/format" ;;
esac
"""
# Its linker, which leaves a program.
LINKER = """#!/usr/bin/env bash
while [ "$1" != -o ]; do shift; done
printf '#!/bin/sh\\necho "built: $*"\\n' > "$2"
chmod +x "$2"
"""
BEGIN = b"heavy: proving and building the program, once and after each change of its sources\n"
SOON = 600  # seconds, after which what hasn't come doesn't come


class Copy:
    """The scripts with one source, in a folder of their own, and a stand-in of rt on the path."""

    def __init__(self, room: str, name: str) -> None:
        self.top = Path(room, name)
        shutil.copytree(programs.TOP / "bin", self.top / "bin")
        shutil.copy(programs.TOP / "crates.txt", self.top)
        for line in (self.top / "crates.txt").read_text().splitlines():
            crate = line.split(":")[0].split()[0]
            source = self.source_of(crate)
            source.parent.mkdir(parents=True)
            source.write_text("// a crate\n")
        self.source = self.source_of("heavy_cli")
        names = ("runs", "children", "proofs", "calls")
        self.runs, self.children, self.proofs, self.calls = (self.top / name for name in names)
        self.go = self.top / "go"
        tools, self.kit = self.top / "tools", self.top / "kit"
        for place, text in (
            (tools / "rt", STAND_IN), (tools / "nproc", "#!/bin/sh\necho $PROCESSORS\n"),
            (self.kit / "bin" / "rattle", COMPILER), (self.kit / "bin" / "rattle-link", LINKER),
        ):
            place.parent.mkdir(parents=True, exist_ok=True)
            place.write_text(text)
            place.chmod(0o755)
        self.path = f"{tools}:{os.environ['PATH']}"

    def source_of(self, crate: str) -> Path:
        """The one source of a crate, of which a program has another name."""
        return self.top / "crates" / crate / "src" / ("main.rt" if crate in ("heavy_cli", "heavy_oom") else "lib.rt")

    def environment(
        self, outcome: int = 0, path: str | None = None, slow: str = "", all_of: str = "", failing: str = "", processors: int = 4,
    ) -> dict[str, str]:
        """What the stand-ins hear: how the program's build ends, which crates wait, and for which others, and which one fails."""
        return {
            "PATH": path or self.path, "RUNS": str(self.runs), "CHILDREN": str(self.children), "GO": str(self.go), "ALL": all_of,
            "PROOFS": str(self.proofs), "CALLS": str(self.calls), "OUTCOME": str(outcome), "KIT": str(self.kit),
            "SLOW": slow, "FAILING": failing, "PROCESSORS": str(processors), "SOON": str(SOON),
        }

    def add_library(self) -> None:
        """What bin/install needs besides the program: the other files, and a kit with two archives, of C."""
        for folder in ("include", "man", "completions"):
            shutil.copytree(programs.TOP / folder, self.top / folder)
        arguments = Path("crates", "heavy_arguments", "src", "arguments.rt")
        shutil.copy(programs.TOP / arguments, self.top / arguments)
        (self.kit / "c").mkdir()
        proved = [name.replace("heavy_", "proved_") for name in header.calls()]
        sources = {"calls": "".join(f"int {name}(void) {{ return 7; }}\n" for name in (*proved, "hidden"))}
        sources["c/liblibc_c"] = "int helper(void) { return 8; }\n"
        for name, text in sources.items():
            (self.kit / f"{name}.c").write_text(text)
            # not calls.o, which bin/library.bash puts beside it
            subprocess.run(["cc", "-fPIC", "-c", f"{name}.c", "-o", f"{name}_stand_in.o"], cwd=self.kit, check=True)
            subprocess.run(["ar", "rcs", f"{name}.a", f"{name}_stand_in.o"], cwd=self.kit, check=True)

    def add_tests(self) -> None:
        """What bin/test needs: a kit with archives, and scripts that tell their names and words, of which one names the library
        for C, and one the program with the public calls."""
        (self.kit / "c").mkdir()
        for file in ("calls.a", "c/liblibc_c.a"):
            (self.kit / file).touch()
        folder = self.top / "tests"
        folder.mkdir()
        shutil.copy(programs.TOP / "tests" / "run", folder)
        for file in (programs.TOP / "tests").glob("*.py"):
            used = {"library.py": "install_library", "refused_memory.py": "heavy_oom"}.get(file.name, "")
            (folder / file.name).write_text(f"# {used}\nimport sys\nprint(*sys.argv)\n")

    def test(self, *words: str, **how) -> tuple[programs.Ended, list[str]]:
        """bin/test, and what it built."""
        self.runs.unlink(missing_ok=True)
        ended = programs.run([str(self.top / "bin" / "test"), *words], env=self.environment(**how))
        return ended, self.runs.read_text().split() if self.runs.exists() else []

    def install(self, prefix: str, destdir: str = "", **how) -> programs.Ended:
        env = {**self.environment(**how), "DESTDIR": destdir}
        return programs.run([str(self.top / "bin" / "install"), prefix], env=env)

    def start(self, stderr: int = subprocess.PIPE, preexec_fn=None, **named) -> subprocess.Popen:
        """`bin/heavy report` in this environment."""
        how = {"stdin": subprocess.DEVNULL, "stdout": subprocess.PIPE, "stderr": stderr, "preexec_fn": preexec_fn}
        how["env"] = self.environment(**named)
        return subprocess.Popen([self.top / "bin" / "heavy", "report"], **how)

    def run(self, **how) -> tuple[int, bytes, bytes]:
        started = self.start(**how)
        out, err = started.communicate(timeout=SOON)
        return started.returncode, out, err

    def run_until(self, told: bytes, **how) -> tuple[int, bytes, bytes]:
        """The same, of which slow crates take until a line on standard error has these bytes."""
        started = self.start(**how)
        lines = [started.stderr.readline()]
        while lines[-1] and told not in lines[-1]:
            lines.append(started.stderr.readline())
        self.go.touch()
        out, err = started.communicate(timeout=SOON)
        return started.returncode, out, b"".join(lines) + err

    def builds(self) -> int:
        return len(self.runs.read_text().split()) if self.runs.exists() else 0

    def begun(self) -> list[str]:
        """The crates whose proof was begun, since the last such call."""
        found = sorted(line.split()[1] for line in self.proof_lines() if line.startswith("begin"))
        self.proofs.unlink(missing_ok=True)
        return found

    def proof_lines(self) -> list[str]:
        """What the stand-in noted of proofs."""
        return self.proofs.read_text().splitlines() if self.proofs.exists() else []

    def waits_for_child(self, count: int = 1) -> list[int]:
        """The processes that the stand-ins started, once there are so many."""
        for _ in range(SOON * 20):
            if self.children.exists() and self.children.read_text().count("\n") >= count:
                return [int(child) for child in self.children.read_text().split()]
            time.sleep(0.05)
        raise TimeoutError("the stand-in was not started")


def runs(process: int) -> bool:
    """Whether the process is there, and more than a record of its end."""
    try:
        return Path(f"/proc/{process}/stat").read_text().rpartition(")")[2].split()[0] != "Z"
    except FileNotFoundError:
        return False


def ends(process: int) -> bool:
    """Whether the process ends soon."""
    for _ in range(SOON * 20):
        if not runs(process):
            return True
        time.sleep(0.05)
    return False


def no_compiler(tools: Path) -> str:
    """A path with what the scripts call, but without rt, a C compiler and ar."""
    tools.mkdir()
    for name in TOOLS:
        (tools / name).symlink_to(shutil.which(name))
    return str(tools)


def crates_below(name: str) -> list[str]:
    """The crates of the repository that this one stands on, by crates.txt."""
    lines = (line.split(":") for line in (programs.TOP / "crates.txt").read_text().splitlines())
    direct = {head.split()[0]: words.split() for head, words in lines}
    return [it for dep in direct[name] if dep in direct for it in (*crates_below(dep), dep)]


class Install(programs.Checks):
    """The first build, and what is installed."""

    def test_builds(self) -> None:
        """A first build says what it does; the next run builds nothing and says nothing; a changed source is built."""
        copy = Copy(self.room, "builds")
        status, out, err = copy.run_until(b"proving hh_stream", slow="hh_stream")
        self.check("a first build runs the program", (status, out) == (0, b"built: report\n"), (status, out, err))
        self.check("it says at once what it does", err.startswith(BEGIN), err)
        begun, crates = copy.begun(), sorted({*crates_below("heavy_cli"), "heavy_cli"})
        told = f"heavy: proving hh_stream, crate 1 of {len(crates)}, ".encode()
        self.check("it tells the crate", told in err, err)
        timed = re.search(rb"a first build takes about (\d+) min on 4 processors; ", err)
        slower = re.search(rb"a first build takes about (\d+) min on 1 processor; ", Copy(self.room, "one").run(processors=1)[2])
        self.check("it tells how long it takes", timed and slower and int(slower[1]) > 2 * int(timed[1]) > 0, (err, slower))
        self.check("it has a line for each crate", b"\r" not in err and err.count(b"hh_stream") == 1, err)
        self.check("each crate is proved once", begun == crates, (begun, crates))
        found = copy.run()
        self.check("a built program is run without a word", found == (0, b"built: report\n", b""), found)
        self.check("it was built once", copy.builds() == 1, copy.builds())
        later = time.time() + 5
        os.utime(copy.source, (later, later))
        status, out, err = copy.run()
        self.check("a changed source is built", (status, copy.builds()) == (0, 2) and err.startswith(BEGIN), err)
        begun = copy.begun()
        self.check("no crate below it is proved again", begun == ["heavy_cli"], begun)
        source = copy.source_of("hh_saved")
        os.utime(source, (later + 5, later + 5))
        status, _, err = copy.run()
        begun, above = copy.begun(), [crate for crate in crates if {crate, *crates_below(crate)} & {"hh_saved"}]
        self.check("a changed crate is proved, and those above it", (status, begun) == (0, above), (begun, above, err))
        shutil.rmtree(copy.top / "crates" / "hh_stream" / "out")
        os.utime(source, (0, 0))
        os.utime(copy.source, (later + 10, later + 10))
        status, _, err = copy.run()
        begun, above = copy.begun(), [crate for crate in crates if {crate, *crates_below(crate)} & {"hh_stream"}]
        self.check("a crate that is gone is proved, and those above it", (status, begun) == (0, above), (begun, above, err))

    def test_order(self) -> None:
        """Crates that don't stand on each other are proved at once, and each after those below it; one at a time on one
        processor."""
        one, other = ["hh_counters", "hh_countmin", "hh_records"], ["hh_pool", "hh_saved"]
        for processors, slow in ((4, one), (4, other), (1, ["hh_countmin"])):
            name = f"{processors} with {slow}"
            copy, how = Copy(self.room, f"order{len(slow)}"), {"slow": " ".join(slow), "processors": processors}
            if processors == 4:
                # each of the slow ones takes until all of them have begun, so that the build ends soon if they are proved at once
                status, out, err = copy.run(all_of=how["slow"], **how)
            else:
                status, out, err = copy.run_until(b"proving hh_countmin", **how)
            lines = [line.split() for line in copy.proof_lines()]
            self.check(f"a build on {name}", (status, out) == (0, b"built: report\n"), (status, out, err))
            at = {(words[0], words[1]): place for place, words in enumerate(lines)}
            after = all(at["end", it] < at["begin", name] for _, name in at for it in crates_below(name))
            self.check(f"crates below come first on {name}", after, lines)
            met = all(at["begin", a] < at["end", b] for a in slow for b in slow)
            # one at a time
            alone = [words[0] for words in lines] == ["begin", "end"] * (len(lines) // 2)
            self.check(f"proved at once on {name}", met and alone == (processors == 1), lines)
            jobs = {words[1]: int(words[3]) for words in lines if words[0] == "begin"}
            self.check(f"jobs on {name}", max(jobs.values()) == processors, jobs)

    def test_failures(self) -> None:
        """A build that fails shows the end of its log, and where the whole is; no toolchain is told as such."""
        copy = Copy(self.room, "failures")
        status, out, err = copy.run(outcome=3)
        log = os.fsencode(copy.top / "crates" / "heavy_cli" / "build.log")
        told = b"the build failed; the last lines of " + log in err and b"the stand-in's last line\n" in err
        self.check("a failed build", (status, out) == (1, b"") and told, (status, out, err))
        beside = Copy(self.room, "beside")
        started = beside.start(slow="hh_summaries hh_saved", failing="hh_countmin")
        out, err = started.communicate(timeout=SOON)
        log = os.fsencode(beside.top / "crates" / "hh_countmin" / "build.log")
        told = b"the build failed; the last lines of " + log in err and b"the stand-in's last line\n" in err
        self.check("a crate that fails", (started.returncode, out) == (1, b"") and told, (started.returncode, out, err))
        children = beside.waits_for_child()
        self.check("the crate beside it ends", len(children) == 1 and ends(children[0]), children)
        begun = [line for line in beside.proof_lines() if line.startswith("begin hh_saved")]
        self.check("no crate above it is begun", begun == [] and beside.builds() == 0, begun)
        found = copy.run(path=no_compiler(copy.top / "others"))
        self.check("no toolchain", found == (1, b"", b"heavy: the toolchain's command, rt, is not on the path\n"), found)

    def test_interrupts(self) -> None:
        """An interrupted build ends what it started, and the next one builds."""
        for number, slow, count in (
            (signal.SIGINT, "hh_counters hh_countmin", 2), (signal.SIGTERM, "hh_stream", 1),
            (signal.SIGHUP, "heavy_cli", 1),
        ):
            copy = Copy(self.room, number.name)
            # a process that is started in the background of a shell may have these signals ignored; not this one
            started = copy.start(slow=slow, preexec_fn=lambda: signal.signal(number, signal.SIG_DFL))
            children = copy.waits_for_child(count)
            started.send_signal(number)
            _, err = started.communicate(timeout=SOON)
            status = started.returncode
            self.check(f"{number.name} ends the build", status == 128 + number and b"interrupted" in err, (status, err))
            self.check(f"{number.name} leaves no process", all(map(ends, children)), children)
            status, out, err = copy.run()
            self.check(f"the build after {number.name}", (status, out) == (0, b"built: report\n"), (status, out, err))

    def test_two(self) -> None:
        """Two that begin at once build once, and one that waits can be interrupted."""
        if not shutil.which("flock"):
            self.skipTest("two builds at once want flock")
        copy = Copy(self.room, "two")
        first = copy.start(slow="hh_stream")
        copy.waits_for_child()
        said = b"heavy: another build runs in " + os.fsencode(copy.top) + b"; waiting for its end\n"
        waits = copy.start()
        heard = waits.stderr.readline()
        waits.terminate()
        waits.communicate(timeout=SOON)
        self.check("the wait is interrupted", (heard, waits.returncode) == (said, 143), (heard, waits.returncode))
        second = copy.start()
        heard = second.stderr.readline()
        copy.go.touch()
        out, err = second.communicate(timeout=SOON)
        found = (second.returncode, out, heard + err)
        self.check("the second waits", found == (0, b"built: report\n", said), found)
        out = first.communicate(timeout=SOON)[0]
        self.check("both run one build", (out, copy.builds()) == (b"built: report\n", 1), (out, copy.builds()))

    def test_terminal(self) -> None:
        """On a terminal one line tells how far the build is, and is written over."""
        copy = Copy(self.room, "terminal")
        terminal, side = pty.openpty()
        started = copy.start(stderr=side, slow="hh_stream")
        os.close(side)
        line = rb"\r\x1b\[Kheavy: \d+:\d\d min, \d+ of \d+ crates proved, [a-z_, ]*hh_stream"
        said, told = b"", 0
        try:
            while part := os.read(terminal, 4096):
                said += part
                told = len(re.findall(line, said))
                if told > 1:
                    copy.go.touch()
        except OSError:
            pass  # the other side is closed
        os.close(terminal)
        out = started.communicate(timeout=SOON)[0]
        said = said.replace(b"\r\n", b"\n")
        self.check("a terminal's line is written over", out == b"built: report\n" and told > 1, said)
        self.check("nothing of it is left", said.count(b"\n") == 3 and b"\r\x1b[Kheavy: built in " in said, said)

    def test_library(self) -> None:
        """The library is built and installed beside the program, with the program's version; a failed build is told; where
        there is no compiler, it is left out, and that is told."""
        if not shutil.which("cc") or not shutil.which("ar"):
            self.skipTest("the library wants cc and ar")
        copy = Copy(self.room, "library")
        copy.add_library()
        files = [*INSTALLED, *LIBRARY]
        ended = copy.install("/usr/", destdir=f"{self.room}/all")
        told = b"".join(os.fsencode(f"{self.room}/all/usr/{file}\n") for file in files)
        self.check("program and library are told", (ended.status, ended.out) == (0, told), ended)
        there = [file for file in files if Path(self.room, "all", "usr", file).exists()]
        self.check("program and library are there", there == files, there)
        version = programs.run([programs.built("heavy_cli"), "--version"]).out.split()[-1]
        described = Path(self.room, "all", "usr", LIBRARY[-1]).read_bytes().splitlines()
        self.check("the program's version", b"Version: " + version in described, described)
        self.check("no DESTDIR in what pkg-config tells", described[0] == b"prefix=/usr", described)
        same = Path(self.room, "all", "usr", LIBRARY[0]).read_bytes() == (programs.TOP / LIBRARY[0]).read_bytes()
        self.check("the header is installed", same)
        shared = ctypes.CDLL(f"{self.room}/all/usr/lib/libheavy.so.1")
        shown = [name for name in (*header.calls(), "hidden", "helper") if hasattr(shared, name)]
        self.check("the shared library shows the calls and nothing else", shown == [*header.calls()], shown)
        ended = copy.install(f"{self.room}/again")
        runs = copy.runs.read_text().split()
        self.check("what was built is not built again", (ended.status, runs) == (0, ["run", "lib"]), (ended, runs))
        later = time.time() + 5
        os.utime(copy.source, (later, later))
        ended = copy.install(f"{self.room}/newer")
        runs = copy.runs.read_text().split()
        self.check("a source of the program alone", (ended.status, runs) == (0, ["run", "lib", "run"]), (ended, runs))
        copy.top.joinpath("crates", "heavy_ffi", "out", "libheavy_ffi.a").unlink()
        os.utime(copy.top / "crates" / "heavy_cli" / "out" / "heavy_cli", (later + 5, later + 5))
        ended = copy.install(f"{self.room}/failed", outcome=3)
        told = b"the stand-in's last line\n" in ended.err
        self.check("a failed build of the library", ended.status == 1 and told, ended)
        ended = copy.install(f"{self.room}/without", path=no_compiler(copy.top / "others"))
        told = b"".join(os.fsencode(f"{self.room}/without/{file}\n") for file in INSTALLED)
        self.check("no compiler", (ended.status, ended.out, ended.err) == (0, told, LEFT_OUT), ended)

    def test_over_gate(self) -> None:
        """The library is built over the crates that `rt ci` left; one with a newer source is proved, and those above it."""
        copy = Copy(self.room, "gate")
        (copy.kit / "c").mkdir()
        for file in ("calls.a", "c/liblibc_c.a"):
            (copy.kit / file).touch()
        scripts = "".join(f". {copy.top}/bin/{name}.bash; " for name in ("build", "library"))
        crates = copy.top / "crates"
        listed = programs.run(["bash", "-c", f"{scripts} crates_of heavy_ffi"], env=copy.environment())
        below = listed.out.decode().split()[:-1]
        places = {name: crates / name / "out" / "rlib" for name in below}
        # a source that is older than what was made of it
        copy.source_of("hh_saved").touch()
        for name, place in places.items():
            (place / f"{name}.rlib").mkdir(parents=True)
            (place / f"{name}.rlib" / "format").touch()
        above = sorted(name for name in below if {name, *crates_below(name)} & {"hh_saved"})
        built = places["hh_saved"] / "hh_saved.rlib" / "format"
        for name, change, wanted in [
            ("as the gate left them", lambda: None, []),
            ("with a newer source", lambda: os.utime(built, (0, 0)), above),
        ]:
            change()
            ended = [programs.run(["bash", "-c", f"{scripts} build_library"], env=copy.environment()) for _ in range(2)]
            begun, runs = copy.begun(), copy.runs.read_text().split()
            well = [it.status for it in ended] == [0, 0] and runs == ["lib"]
            self.check(f"crates {name}", well and begun == sorted([*wanted, "heavy_ffi"]), (ended, begun))
            words = [f"dependency={place}" for place in places.values()]
            words += [f"hh_commands={places['hh_commands']}/hh_commands.rlib", f"std={copy.kit}/rlibs/std.rlib"]
            calls = copy.calls.read_text().splitlines()
            self.check(f"what it is built over {name}", not {*words} - {*calls[-1].split()}, calls)
            copy.runs.unlink()
            (crates / "heavy_ffi" / "out" / "libheavy_ffi.a").unlink()

    def test_tests(self) -> None:
        """bin/test builds what the scripts use that it runs, says first how long that takes, and runs them."""
        copy = Copy(self.room, "tests")
        copy.add_tests()
        first = rb"heavy: the tests take %b; what they use is built before, the first time in about (\d+) min on 4 processors\n"
        named, whole = rb"minutes at most", rb"about (?:\d+) min on 4 processors"
        ended, built = copy.test("answers.py 7", "--only", "some")
        one = re.match(first % named, ended.err)
        self.check("one script", (ended.status, built, bool(one)) == (0, ["run"], True), (ended, built))
        ran = ended.out.splitlines()
        right = ran[0] == b"answers.py 7 --only some" and ran[-1] == b"1 passed, 0 failed, 0 skipped"
        self.check("its words, and the last line", right, ran)
        ended, built = copy.test()
        scripts = programs.run([str(programs.TOP / "tests" / "run"), "--list"], env=dict(os.environ)).out.splitlines()
        more = re.match(first % whole, ended.err)
        self.check("all scripts", (ended.status, built, bool(more)) == (0, ["lib", "calls"], True), (ended, built))
        self.check("the library takes longer", one and more and int(more[1]) > int(one[1]) > 0, (one, more))
        ran = [line for line in ended.out.splitlines() if b" took " not in line]
        self.check("they are run", ran == [*scripts, b"%d passed, 0 failed, 0 skipped" % len(scripts)], ran)
        ended, built = copy.test()
        said = re.fullmatch(rb"heavy: the tests take %b\n" % whole, ended.err)
        self.check("nothing is built again", (ended.status, built, bool(said)) == (0, [], True), (ended, built))
        later = time.time() + 5
        os.utime(copy.source_of("heavy_oom"), (later, later))
        for words, wanted in [(["answers.py"], []), (["refused_memory.py"], ["calls"])]:
            ended, built = copy.test(*words)
            self.check(f"{words} with a newer source of the calls", (ended.status, built) == (0, wanted), (ended, built))
        os.utime(copy.source, (later, later))
        ended, built = copy.test("no.py")
        self.check("no such script", (ended.status, ended.out, built) == (2, b"", []), (ended, built))
        ended, built = copy.test("answers.py", outcome=3)
        told = b"the build failed; the last lines of " in ended.err
        self.check("a failed build", (ended.status, ended.out, told) == (1, b"", True), (ended, built))

    def test_stale_program(self) -> None:
        """A script that is run by itself finds the program as its sources are: it is built first, or the script fails, told so
        once."""
        copy = Copy(self.room, "stale")
        (copy.top / "tests").mkdir()
        shutil.copy(programs.TOP / "tests" / "programs.py", copy.top / "tests")
        script, path = copy.top / "tests" / "asks.py", os.fsencode(copy.top / "crates" / "heavy_cli" / "out" / "heavy_cli")
        script.write_text("import programs\nfor _ in range(2):\n    try:\n        print(programs.built('heavy_cli'))\n"
                          "    except SystemExit as why:\n        print(why)\n")
        untold = b"the program of heavy_cli is not built as its sources are; bin/test builds it\n"
        for name, outcome, runs, wanted in [
            ("not built", 0, 1, 2 * (path + b"\n")), ("as its sources are", 0, 1, 2 * (path + b"\n")),
            ("with a source that fails", 3, 2, 2 * untold), ("with a newer source", 0, 3, 2 * (path + b"\n")),
        ]:
            if outcome:
                os.utime(copy.source, (time.time() + 5,) * 2)
            ended = programs.run(["python3", str(script)], env=copy.environment(outcome=outcome))
            self.check(f"a program {name}", (ended.status, ended.out, copy.builds()) == (0, wanted, runs), (ended, copy.builds()))

    def test_install(self) -> None:
        """All files are where Debian has them, and the installed program answers. The library is left out, which takes long
        to build."""
        programs.built("heavy_cli")
        install = str(programs.TOP / "bin" / "install")
        path = {"PATH": no_compiler(Path(self.room, "no_compiler"))}
        for name, env, prefix, root in [
            ("a prefix", path, f"{self.room}/usr", f"{self.room}/usr"),
            ("a prefix with a slash", path, f"{self.room}/slash/", f"{self.room}/slash"),
            ("a prefix below DESTDIR", {**path, "DESTDIR": f"{self.room}/destdir"}, "/usr", f"{self.room}/destdir/usr"),
        ]:
            ended = programs.run([install, prefix], env=env)
            told = b"".join(os.fsencode(f"{root}/{file}\n") for file in INSTALLED)
            self.check(f"{name} is told", (ended.status, ended.out, ended.err) == (0, told, LEFT_OUT), ended)
            modes = {file: Path(root, file).stat().st_mode & 0o777 for file in INSTALLED if Path(root, file).exists()}
            self.check(f"{name} has all files", modes == INSTALLED, modes)
            found = programs.run([f"{root}/bin/heavy", "report", "--k", "2"], RECORDS)
            self.check(f"the program in {name}", (found.status, found.out) == (0, b"a,6\n"), found)
        for words in ([], ["usr"], ["/usr", "/opt"]):
            ended = programs.run([install, *words], env=path)
            self.check(f"usage: {words}", ended.status == 2 and b"usage: bin/install PREFIX" in ended.err, ended)


if __name__ == "__main__":
    programs.run_tests("install")
