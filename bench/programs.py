"""The programs and the files that the measurements use."""
import os
import shutil
import subprocess
import sys
from pathlib import Path

TOP = Path(__file__).resolve().parent.parent


def heavy() -> str:
    """The program `heavy`, built, without the script that looks for newer sources each time."""
    subprocess.run([TOP / "bin" / "heavy", "--help"], stdout=subprocess.DEVNULL, check=True)
    return str(TOP / "crates" / "heavy_cli" / "out" / "heavy_cli")


def heavy_bench() -> str:
    """The program that times single calls, which is proved and built first where its sources are newer."""
    words = ["bash", "-c", f'. "{TOP}/bin/build.bash"; build_program heavy_bench']
    subprocess.run(words, stdin=subprocess.DEVNULL, check=True)
    return str(TOP / "crates" / "heavy_bench" / "out" / "heavy_bench")


def library(room: Path) -> bool:
    """Makes the library for C in this room, for the module `heavy` of python/, where the machine has a compiler of C and
    LIBHEAVY names none that is made."""
    if "LIBHEAVY" not in os.environ:
        prefix = room / "library"
        if subprocess.run([TOP / "bin" / "install-library", prefix], stdout=subprocess.DEVNULL).returncode != 0:
            return False
        os.environ["LIBHEAVY"] = str(prefix / "lib" / "libheavy.so.1")
    sys.path.insert(0, str(TOP / "python"))
    return True


def plain(room: Path) -> str | None:
    """The program in plain Rust, built: over the crate `csv` where cargo has it, else with a reader of the same rules;
    none where there is no rustc."""
    if not shutil.which("rustc"):
        return None
    source, program = TOP / "bench" / "plain", room / "plain"
    if not program.exists() and not with_csv(source, room):
        subprocess.run(["rustc", "-O", "--edition", "2021", "-o", program, source / "src" / "main.rs"], check=True)
    return str(program)


def with_csv(source: Path, room: Path) -> bool:
    """Builds the plain program over the crate `csv`, from crates that Debian's packages install (librust-csv-dev) or that
    cargo has, with no network."""
    package = room / "plain-source"
    shutil.copytree(source, package)
    crates = Path("/usr/share/cargo/registry")
    words = ["cargo", "build", "--release", "--offline", "--features", "csv"]
    if crates.is_dir():
        words += ["--config", "source.crates-io.replace-with='debian'", "--config", f"source.debian.directory='{crates}'"]
    if not shutil.which("cargo") or subprocess.run(words, cwd=package, capture_output=True).returncode != 0:
        return False
    shutil.copy(package / "target" / "release" / "plain", room / "plain")
    return True


def records(room: Path, *shape: object) -> Path:
    """The file that zipf.py makes of these words, made on its first use."""
    words = [str(word) for word in shape]
    path = room / "-".join(words)
    if not path.exists():
        with open(path, "wb") as out:
            subprocess.run([sys.executable, TOP / "bench" / "zipf.py", *words], stdout=out, check=True)
    return path
