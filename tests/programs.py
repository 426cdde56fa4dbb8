"""The built programs, and how a test runs one."""
import functools
import os
import shutil
import subprocess
import sys
import tempfile
import unittest
from dataclasses import dataclass
from pathlib import Path

TOP = Path(__file__).resolve().parent.parent
# The toolchain's clang as a compiler of C, which is there where no other is.
CC = TOP / "tests" / "c" / "cc"
# the status of a script all of whose tests were skipped
SKIPPED = 77
# A run that hasn't ended after so many seconds hangs: none comes near, on any machine. Nothing else of a run is timed.
HANGS = 3600


def only() -> list[str] | None:
    """The words behind --only on the command line of a script, which are taken away: it makes the tests whose names have
    one of them."""
    if "--only" not in sys.argv:
        return None
    at = sys.argv.index("--only")
    words, sys.argv[at:] = sys.argv[at + 1 :], []
    return [f"*{word}*" for word in words]


ONLY = only()
# a name that is no UTF-8 is printed too, with its bytes escaped
sys.stdout.reconfigure(errors="backslashreplace")


@functools.cache
def is_built(crate: str) -> bool:
    """Whether the program of a crate is built as its sources are: else it is proved and built first, which tells what it does
    and why it fails, once."""
    words = ["bash", "-c", f'. "{TOP}/bin/build.bash"; build_program "$0"', crate]
    return subprocess.run(words, stdin=subprocess.DEVNULL).returncode == 0


def built(crate: str) -> str:
    """The program of a crate, as its sources are."""
    if not is_built(crate):
        sys.exit(f"the program of {crate} is not built as its sources are; bin/test builds it")
    return str(TOP / "crates" / crate / "out" / crate)


def clang() -> str:
    """The toolchain's own clang."""
    guide = subprocess.run(["rt", "doc"], capture_output=True, text=True, check=True).stdout.split()[-1]
    return str(Path(guide).parent / "toolchain" / "bin" / "clang")


def preloaded(source: str, room: str) -> str:
    """A library to preload, compiled from a file beside this one."""
    library = f"{room}/{Path(source).stem}.so"
    compiler = clang()
    linker = str(Path(compiler).parent / "ld.lld")
    words = ["-shared", "-fPIC", "-O1", "-nostdlib", f"--ld-path={linker}", "-o", library]
    subprocess.run([compiler, *words, str(TOP / "tests" / source)], check=True)
    return library


def python_with(*modules: str) -> str | None:
    """A Python that has these modules: this one, or that of the system, for which Debian packs them."""
    for python in (sys.executable, "/usr/bin/python3"):
        words = [python, "-c", f"import {', '.join(modules)}"]
        if shutil.which(python) and subprocess.run(words, capture_output=True).returncode == 0:
            return python
    return None


def has_library() -> bool:
    """Whether the library for C was built, or all that it stands on: bin/test leaves the one, and `rt ci` the other."""
    places = ("heavy_ffi/out/libheavy_ffi.a", "hh_commands/out/rlib/hh_commands.rlib")
    return any((TOP / "crates" / place).exists() for place in places)


@dataclass(frozen=True)
class Ended:
    """How a run ended."""

    status: int
    out: bytes
    err: bytes


def first_line(err: bytes) -> bytes:
    """The first line of what a run wrote on standard error, but for the note on a long last record. The second line of a
    fault of records names the file and the reason."""
    lines = [line for line in err.splitlines(True) if b" begins with a quote and has " not in line]
    return lines[0] if lines else b""


def run(words: list[bytes | str], given: bytes = b"", env: dict[str, str] | None = None, **how) -> Ended:
    """Runs a program on these bytes to its end. One that hangs is killed, and raises."""
    with tempfile.TemporaryFile() as stdin, tempfile.TemporaryFile() as out, tempfile.TemporaryFile() as err:
        stdin.write(given)
        stdin.seek(0)
        how = {"stdin": stdin, "stdout": out, "stderr": err, **how}
        status = subprocess.run(words, env=env or {}, timeout=HANGS, **how).returncode
        out.seek(0)
        err.seek(0)
        return Ended(status, out.read(), err.read())


def makes_programs(compiler: str) -> bool:
    """Whether this compiler of C is there, with the headers and the libraries that it needs."""
    if not shutil.which(compiler):
        return False
    with tempfile.TemporaryDirectory() as room:
        words = [compiler, "-include", "pthread.h", "-xc", "-", "-pthread", "-o", f"{room}/program"]
        return run(words, b"int main(void) { return 0; }\n", dict(os.environ)).status == 0


def compilers() -> list[str]:
    """The machine's compilers of C, and the toolchain's."""
    return [*filter(makes_programs, ("clang", "gcc")), str(CC)]


def install_library(prefix: str, compiler: str) -> Ended:
    """Installs the library for C, made by this compiler, and by the toolchain's ar where there is no other; and first
    proves and builds it where that is needed."""
    ar = shutil.which("ar") or str(Path(clang()).parent / "llvm-ar")
    return run([str(TOP / "bin" / "install-library"), prefix], env={**os.environ, "CC": compiler, "AR": ar})


class Checks(unittest.TestCase):
    """Tests of the built programs, each in a folder of its own. Each check is a subtest, so that those behind one that fails
    are made too."""

    def setUp(self) -> None:
        self.room = self.enterContext(tempfile.TemporaryDirectory())

    def check(self, name: str, holds: object, said: object = "") -> None:
        with self.subTest(name):
            self.assertTrue(holds, said)


class Counted(unittest.TextTestResult):
    """Counts the checks that passed."""

    passed = 0

    def addSubTest(self, test, subtest, err) -> None:
        super().addSubTest(test, subtest, err)
        self.passed += err is None


def run_tests(name: str) -> None:
    """Runs the tests of the script. Its last line tells how many checks passed and failed, and how many tests were skipped;
    the lines above it tell why. The status is 1 where one failed or none was made, and SKIPPED where none was made for want
    of what the tests need."""
    unittest.defaultTestLoader.testNamePatterns = ONLY
    suite = unittest.defaultTestLoader.loadTestsFromModule(sys.modules["__main__"])
    with open(os.devnull, "w") as nowhere:
        result = unittest.TextTestRunner(nowhere, resultclass=Counted).run(suite)
    for test, why in result.failures + result.errors:
        print(f"FAILED: {test}: {why}", flush=True)
    for test, why in result.skipped:
        print(f"SKIPPED: {test}: {why}", flush=True)
    failed, skipped = len(result.failures) + len(result.errors), len(result.skipped)
    print(f"{name}: {result.passed} passed, {failed} failed, {skipped} skipped", flush=True)
    if result.passed == 0:
        sys.exit(SKIPPED if skipped and not failed else 1)
    sys.exit(1 if failed else 0)
