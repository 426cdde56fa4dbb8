#!/usr/bin/env python3
"""Compares the header of the library for C with the definitions. Then installs the library and tries it from C, C++, Rust and
Python: every call with answers known by hand, under the sanitizers of addresses and of undefined behaviour; each request for
memory refused in turn; the Python module against the program; a pool of processes; and a stream. All of it by clang and by gcc
where they are there, and by the toolchain's own clang, which needs neither a compiler nor headers of the machine.

usage: tests/library.py

bin/install-library builds the library where bin/test hasn't: in a few minutes after `rt ci` or `bin/heavy`. Where none of them
left the crates that it stands on, to prove them all takes long, so the header alone is compared, and that is said.
"""
import itertools
import os
import re
import shutil
import subprocess
import sys
import tempfile
import unittest
from pathlib import Path

import header
import programs

C = programs.TOP / "tests" / "c"
INSTALLED = [
    "include/heavy.h", "lib/libheavy.a", "lib/libheavy.so.1", "lib/libheavy.so", "lib/pkgconfig/heavy.pc",
]
# Headers that say another thing than the library, by what they say in place of what.
DRIFTS = [
    ("#define HEAVY_BAD_K 2u", "#define HEAVY_BAD_K 3u"),
    ("#define HEAVY_TOO_SMALL 5u", "#define HEAVY_TOO_SMALL 6u"),
    ("#define HEAVY_NO_VALUE 28u", "#define HEAVY_NO_VALUE 29u"),
    ("#define HEAVY_FILE_TRAILING 15u\n", ""),
    ("#define HEAVY_MAX_KEY 4096u", "#define HEAVY_MAX_KEY 4095u"),
    ("(size_t)8 * (depth) * (width)", "(size_t)8 * (depth)"),
    ("    uint32_t kind;\n    uint32_t cause;\n", "    uint32_t cause;\n    uint32_t kind;\n"),
    ("    uint64_t counter;\n", "    int64_t counter;\n"),
    ("uint32_t heavy_ask(struct heavy *heavy", "uint32_t heavy_ask(const struct heavy *heavy"),
    ("uint32_t heavy_load(struct heavy **heavy", "uint32_t heavy_load(struct heavy *heavy"),
    ("uint64_t width, uint64_t depth, uint64_t seed", "uint64_t depth, uint64_t width, uint64_t seed"),
    ("#define HEAVY_BAD_END 20u", "#define HEAVY_BAD_END 21u"),
    ("uint64_t p,\n                               uint64_t q", "uint64_t q,\n                               uint64_t p"),
    ("const uint64_t *ends,", "const size_t *ends,"),
    ("size_t key_len, struct heavy_bounds *bounds", "size_t key_len, struct heavy_bounds *both"),
    ("size_t heavy_whole_records(", "uint32_t heavy_whole_records("),
    ("#define HEAVY_BAD_LAYOUT 26u", "#define HEAVY_BAD_LAYOUT 27u"),
    ("#define HEAVY_TABLE 2u", "#define HEAVY_TABLE 3u"),
    ("    uint8_t header;", "    uint16_t header;"),
    ("    uint64_t slack; ", "    uint32_t slack; "),
    ("    uint64_t words[2];", "    uint64_t words[1];"),
    ("void heavy_free(", "uint32_t heavy_free("),
]


def compiled(compiler: str, source: str, prefix: str, room: str, *words: str) -> str | None:
    """The program of a file of C, or None where this compiler can't make it."""
    program = f"{room}/{Path(source).stem}"
    common = ["-std=c11", "-Wall", "-Wextra", "-Werror", "-g", f"-I{prefix}/include"]
    made = subprocess.run(
        [compiler, *common, *words, str(C / source), f"{prefix}/lib/libheavy.a", "-pthread", "-o", program],
        capture_output=True, text=True,
    )
    if made.returncode != 0 and "-fsanitize" not in " ".join(words):
        print(made.stderr, file=sys.stderr, flush=True)
    return program if made.returncode == 0 else None


class Library(programs.Checks):
    """The library for C, and its callers."""

    def test_usage(self) -> None:
        """What bin/install-library says of other words."""
        for words in ([], ["usr"], ["/usr", "/opt"]):
            ended = programs.run([str(programs.TOP / "bin" / "install-library"), *words], env=dict(os.environ))
            self.check(f"usage: {words}", ended.status == 2 and b"usage: bin/install-library" in ended.err, ended)

    @unittest.skipUnless(programs.has_library(), "the library is not built, nor what it stands on")
    def test_compilers(self) -> None:
        """The library by each compiler of C that is here."""
        compilers = programs.compilers()
        print(f"library: tried by {', '.join(compilers)}", flush=True)
        for compiler in compilers:
            self.try_library(compiler)
        self.try_memory(compilers[0], f"{self.room}/{Path(compilers[0]).name}/usr")

    def test_header(self) -> None:
        """Each number, structure and call of the header is the library's, and it has no others; drifts are found."""
        text = (programs.TOP / "include" / "heavy.h").read_text()
        holds, said = header.compiles(text, self.room)
        self.check("the header says what the library is", holds, said)
        named = set(re.findall(r"^#define (HEAVY_\w+) \d+u", text, re.M))
        others = named ^ set(header.numbers())
        self.check("the header has these numbers and no others", not others, others)
        declared = sorted(header.declarations(text))
        self.check("the header has these calls and no others", declared == sorted(header.calls()), declared)
        for old, new in DRIFTS:
            drifted = text.replace(old, new)
            self.check(f"a header with {new!r} in place of {old!r} is found",
                        drifted != text and not header.compiles(drifted, self.room)[0])

    def try_c(self, compiler: str, prefix: str) -> None:
        """The calls, random sequences of them, and the calls without memory."""
        sanitized = ["-fsanitize=address,undefined", "-fno-sanitize-recover=all"]
        if compiled(compiler, "calls.c", prefix, self.room, *sanitized) is None:
            print(f"library: {compiler} has no sanitizers; the calls are tried without", flush=True)
            sanitized = []
        for source in ("handles.c", "calls.c", "records.c", "sequences.c", "memory.c"):
            words = ["-fno-builtin"] if source == "memory.c" else sanitized
            made = compiled(compiler, source, prefix, self.room, *words)
            ended = programs.run([made]) if made else None
            self.check(f"{source}, by {compiler}", ended is not None and (ended.status, ended.err) == (0, b""), ended)

    def try_example(self, compiler: str, prefix: str) -> None:
        """The program of docs/C.md reports, and tells a fault as the program does."""
        (source,) = re.findall(r"^```c\n(.*?)^```$", (programs.TOP / "docs" / "C.md").read_text(), re.M | re.S)
        Path(self.room, "report.c").write_text(source)
        made = compiled(compiler, f"{self.room}/report.c", prefix, self.room)
        for text, wanted in [
            (b"client;bytes\n10.0.0.1;5\n10.0.0.2;1\n10.0.0.1;2\n", (0, b"10.0.0.1,7\n10.0.0.2,1\n", b"")),
            (b"client;bytes\n10.0.0.1;5\n10.0.0.2;0\n", (3, b"", b"heavy: record 2: zero weight\n")),
            (b"client;octets\n10.0.0.1;5\n", (3, b"", b"heavy: the header has no such column\n")),
        ]:
            ended = programs.run([made], text) if made else None
            right = ended is not None and (ended.status, ended.out, ended.err) == wanted
            self.check(f"the example of docs/C.md, by {compiler}", right, ended)

    def try_callers(self, compiler: str, prefix: str) -> None:
        """A caller in C++ and one in Rust, over the header's calls: 1 is taken from no counter, and each key's bounds are one."""
        wanted, places = (0, b"a,6,6\nb,3,3\nrecord 1: empty key\n", b""), [f"{prefix}/lib/libheavy.a", "-pthread"]
        for name, caller, words in (
            ("C++", {"gcc": "g++", "clang": "clang++"}.get(Path(compiler).name), ["-Wall", "-Wextra", "-Werror", f"-I{prefix}/include"]),
            ("Rust", "rustc", ["--edition", "2021", "-D", "warnings", "-C", f"link-arg={prefix}/lib/libheavy.a"]),
        ):
            with self.subTest(f"a caller in {name}"):
                if not caller or not shutil.which(caller):
                    self.skipTest(f"a caller in {name} wants its compiler, beside {Path(compiler).name}")
                source, program = C / ("caller.rs" if name == "Rust" else "caller.cpp"), f"{self.room}/caller"
                libraries = [] if name == "Rust" else places
                made = programs.run([caller, *words, str(source), *libraries, "-o", program], env=dict(os.environ))
                self.assertEqual((made.status, made.err), (0, b""), made)
                ended = programs.run([program])
                self.assertEqual((ended.status, ended.out, ended.err), wanted, ended)

    def try_memory(self, compiler: str, prefix: str) -> None:
        """The calls under valgrind: no byte is read that was not written, and all memory is given back."""
        for source in ("handles.c", "calls.c"):
            with self.subTest(f"valgrind, {source}"):
                if not shutil.which("valgrind"):
                    self.skipTest("memory that is not given back wants valgrind")
                program = compiled(compiler, source, prefix, self.room, "-g0")
                words = ["valgrind", "--quiet", "--error-exitcode=99", "--leak-check=full", program]
                ended = programs.run(words, env=dict(os.environ)) if program else None
                self.assertTrue(ended is not None and (ended.status, ended.err) == (0, b""), ended)

    def try_python(self, prefix: str) -> None:
        """The module's own tests, by a Python that has the arrays which it takes."""
        env = {**os.environ, "HEAVY": programs.built("heavy_cli"), "LIBHEAVY": f"{prefix}/lib/libheavy.so.1"}
        python = programs.python_with("numpy", "pandas")
        with self.subTest("arrays"):
            if not python:
                self.skipTest("arrays of numpy and pandas want both")
        words = [python or sys.executable, "-B", "-m", "unittest", "-v", "test_heavy"]
        ran = subprocess.run(words, cwd=programs.TOP / "python", env=env, capture_output=True, text=True)
        self.check("the Python module", ran.returncode == 0, ran.stderr)
        skipped, counted = re.findall(r"skipped (['\"])(.*)\1$", ran.stderr, re.M), re.search(r"skipped=(\d+)", ran.stderr)
        self.check("what it skips is told", len(skipped) == int(counted[1] if counted else 0), ran.stderr)
        for _, why in skipped:
            with self.subTest("the Python module"):
                self.skipTest(why)
        arrays = [why for _, why in skipped if why.startswith(("numpy ", "pandas "))]
        self.check("its arrays", not python or not arrays, skipped)

    def try_pool(self, prefix: str) -> None:
        """The example of a pool of processes prints the program's report, in any number of parts, and its refusals."""
        env = {**os.environ, "LIBHEAVY": f"{prefix}/lib/libheavy.so.1"}
        words = [sys.executable, "-B", str(programs.TOP / "examples" / "pool.py")]
        records = b"".join(b"key%d,%d\n" % (i * i % 13, i % 7 + 1) for i in range(5000))
        for name, text in (("records", records), ("bad", records + b"a,0\n")):
            Path(self.room, name).write_bytes(text)
        wanted = programs.run([programs.built("heavy_cli"), "report", "--k", "20"], records).out
        for processes in ("1", "4"):
            ended = programs.run([*words, f"{self.room}/records", "20", processes], env=env)
            right = (ended.status, ended.out) == (0, wanted) and wanted.count(b"\n") > 3
            self.check(f"a pool of {processes}", right, ended)
        ended = programs.run([*words, f"{self.room}/bad", "20", "1"], env=env)
        told = b"heavy: record 5001: zero weight\n"
        self.check("a pool's refusal", (ended.status, ended.out, ended.err) == (3, b"", told), ended)

    def try_stream(self, prefix: str) -> None:
        """The example of a stream tells all that came, in whatever minutes, and nothing of those before the last sixty."""
        env = {**os.environ, "LIBHEAVY": f"{prefix}/lib/libheavy.so.1"}
        words = [sys.executable, "-B", str(programs.TOP / "examples" / "stream.py")]
        with tempfile.TemporaryDirectory() as folder:
            one = programs.run([*words, folder, "9", "60"], b"a\nb\na\n\n" + b"x" * 5000 + b"\nc", env=env)
            self.check("a minute", (one.status, one.out) == (0, b"a,2,2\nb,1,1\nc,1,1\n\n"), one)
            both = programs.run([*words, folder, "9"], b"c\nc\n", env=env)
            self.check("a minute more", (both.status, both.out) == (0, b"c,3,3\na,2,2\nb,1,1\n\n"), both)
            with subprocess.Popen([*words, folder, "9", "0.2"], stdin=subprocess.PIPE, stdout=subprocess.PIPE, env=env) as ran:
                for text, row in ((b"d\nd", b"d,1,1\n"), (b"d\n", b"dd,1,1\n")):
                    ran.stdin.write(text)
                    ran.stdin.flush()
                    lines = itertools.islice(iter(ran.stdout.readline, b""), 1000)
                    self.check("a part of a stream", row in lines, row)
                ran.stdin.write(b"d\ne")
                ran.stdin.close()
                told = ran.stdout.read()
            last = b"\nc,3,3\na,2,2\nd,2,2\nb,1,1\ndd,1,1\ne,1,1\n\n"
            self.check("the last part", ran.returncode == 0 and told.endswith(last), told)
            later = programs.run([programs.built("heavy_cli"), "summarise", "--k", "9"], b"x\n").out
            for i in range(59):
                Path(folder, f"{10**19 + i}.heavy").write_bytes(later)
            hour = programs.run([*words, folder, "9"], b"y\n", env=env)
            left = len(os.listdir(folder))
            self.check("sixty minutes", (hour.status, hour.out, left) == (0, b"x,59,59\ny,1,1\n\n", 60), (hour, left))

    def try_symbols(self, prefix: str) -> None:
        """Both libraries show their calls alone."""
        words = ["llvm-nm", "-D", "--defined-only", "--format=posix", f"{prefix}/lib/libheavy.so.1"]
        shown = subprocess.run(words, executable=programs.clang(), capture_output=True, text=True, check=True).stdout
        names = sorted(line.split("@")[0] for line in shown.splitlines() if " T " in line)
        self.check("the shared library's names", names == sorted(header.calls()) and len(names) <= 26, names)
        with self.subTest("names of the static library"):
            if not (shutil.which("ld") and shutil.which("objcopy")):
                self.skipTest("a static library with no names but its calls wants ld and objcopy")
            words = ["llvm-nm", "--extern-only", "--defined-only", "--format=just-symbols", f"{prefix}/lib/libheavy.a"]
            shown = subprocess.run(words, executable=programs.clang(), capture_output=True, text=True, check=True).stdout
            names = sorted(line for line in shown.split() if not line.endswith(":"))
            self.assertEqual(names, sorted(header.calls()))

    def try_library(self, compiler: str) -> None:
        """The library as this compiler makes it, and its callers."""
        prefix = f"{self.room}/{Path(compiler).name}/usr"
        ended = programs.install_library(prefix, compiler)
        told = "".join(f"{prefix}/{file}\n" for file in INSTALLED).encode()
        self.check(f"what is installed by {compiler} is told", (ended.status, ended.out) == (0, told), ended)
        if ended.status != 0:
            return
        self.check("all is there", all(Path(prefix, file).exists() for file in INSTALLED))
        self.try_symbols(prefix)
        self.try_c(compiler, prefix)
        self.try_example(compiler, prefix)
        self.try_callers(compiler, prefix)
        self.try_python(prefix)
        self.try_pool(prefix)
        self.try_stream(prefix)


if __name__ == "__main__":
    programs.run_tests("library")
