#!/usr/bin/env python3
"""The time of the scripts of examples/machines, beside `heavy report` in one process.

usage: bench/machines.py [RUNS [RECORDS [PARTS]]]

5 interleaved runs over 2,000,000 records by Zipf's law in 16 parts, k = 100. Each has to print the very bytes of `heavy
report`. Prints medians by the clock, and ratios to `heavy report`. The machines that ssh would reach are this one, so that
all engines have the same cores. Dask is timed as the script starts it, and over workers that wait already. What isn't
installed is left out.
"""
import json
import os
import shutil
import statistics
import subprocess
import sys
import tempfile
import time
from pathlib import Path

import programs

EXAMPLES = programs.TOP / "examples" / "machines"
# Debian packs Dask for this one
PYTHON = "/usr/bin/python3"
DASK = [PYTHON, "-m", "dask"]
SSH = '#!/bin/sh\nshift\nexec sh -c "$*"\n'
K = "100"


def parts_of(room: Path, path: Path, count: int) -> list[str]:
    """The files of so many parts of a file, of as many records each."""
    lines = path.read_bytes().splitlines(keepends=True)
    parts = [room / f"part{i}.csv" for i in range(count)]
    for i, part in enumerate(parts):
        part.write_bytes(b"".join(lines[len(lines) * i // count : len(lines) * (i + 1) // count]))
    return [str(part) for part in parts]


def workers(room: Path, env: dict[str, str]) -> tuple[str, list[subprocess.Popen]]:
    """The address of a scheduler, and what to stop, in order: a worker for each core, and then the scheduler."""
    file = room / "scheduler.json"
    how = {"env": env, "cwd": room, "stdout": subprocess.DEVNULL, "stderr": subprocess.DEVNULL}
    words = ["--host", "127.0.0.1", "--no-dashboard"]
    scheduler = subprocess.Popen([*DASK, "scheduler", *words, "--port", "0", "--scheduler-file", file], **how)
    while not file.exists():
        time.sleep(0.1)
    address = json.loads(file.read_text())["address"]
    cores = os.cpu_count() or 1
    started = [
        subprocess.Popen([*DASK, "worker", address, *words, "--no-nanny", "--nthreads", "1", "--local-directory", f"{i}"], **how)
        for i in range(cores)
    ]
    asked = f"from dask.distributed import Client\nClient({address!r}).wait_for_workers({cores}, timeout=60)"
    subprocess.run([PYTHON, "-c", asked], check=True)
    return address, [*started, scheduler]


def commands(whole: Path, parts: list[str], address: str | None) -> dict[str, list[str]]:
    """What is run, by name; the first is what all are beside."""
    found = {"heavy report": ["heavy", "report", "--k", K], "heavy report, 1 worker": ["heavy", "report", "--k", K, "--workers", "1"]}
    if shutil.which("parallel"):
        found["one_file.sh"] = [str(EXAMPLES / "one_file.sh"), K, str(whole)]
        found["many_machines.sh"] = [str(EXAMPLES / "many_machines.sh"), K, *[f"here:{part}" for part in parts]]
    if address:
        script = [PYTHON, str(EXAMPLES / "over_dask.py")]
        found["over_dask.py"] = [*script, K, *parts]
        found["over_dask.py --scheduler"] = [*script, "--scheduler", address, K, *parts]
    return found


def timed(command: list[str], whole: Path, env: dict[str, str]) -> tuple[float, bytes]:
    """The seconds of a run, and what it printed."""
    with open(whole, "rb") as records:
        start = time.monotonic()
        ended = subprocess.run(command, stdin=records, stdout=subprocess.PIPE, env=env, check=True)
        return time.monotonic() - start, ended.stdout


def measured(commands: dict[str, list[str]], runs: int, whole: Path, env: dict[str, str]) -> None:
    times: dict[str, list[float]] = {name: [] for name in commands}
    report = None
    for _ in range(runs):
        for name, command in commands.items():
            seconds, printed = timed(command, whole, env)
            report = report or printed
            if printed != report:
                sys.exit(f"{name} prints another report")
            times[name].append(seconds)
    medians = {name: statistics.median(seconds) for name, seconds in times.items()}
    for name, seconds in medians.items():
        print(f"{name:26}{seconds:8.2f} s{seconds / medians['heavy report']:8.2f}", flush=True)
    print(f"all print the same {len(report)} bytes")


def main() -> None:
    runs, records, count = [int(word) for word in sys.argv[1:4]] + [5, 2_000_000, 16][len(sys.argv[1:4]) :]
    with tempfile.TemporaryDirectory() as folder:
        room = Path(folder)
        (room / "bin").mkdir()
        (room / "bin" / "heavy").symlink_to(programs.heavy())
        (room / "bin" / "ssh").write_text(SSH)
        (room / "bin" / "ssh").chmod(0o755)
        # the script over Dask stands on the Python module, and that on the library
        has_library = programs.library(room)
        env = {**os.environ, "PATH": f"{room}/bin:{os.environ['PATH']}", "PYTHONPATH": str(programs.TOP / "python")}
        whole = programs.records(room, "zipf", records)
        parts = parts_of(room, whole, count)
        dask = os.path.exists(PYTHON) and subprocess.run([PYTHON, "-c", "import distributed"], capture_output=True).returncode == 0
        address, running = workers(room, env) if dask and has_library else (None, [])
        try:
            measured(commands(whole, parts, address), runs, whole, env)
        finally:
            for process in running:
                process.terminate()
                process.wait()


main()
