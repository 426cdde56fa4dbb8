#!/usr/bin/env python3
"""Runs another script of this folder on a static program, in place of the built one. Nothing can be preloaded into that,
so where something is, a static program runs that has the same file of C linked in.

usage: tests/on_static.py SCRIPT PROGRAM HOOKED [TEST]

TEST is how the tests begin that are run, if not all.
"""
import runpy
import sys
import unittest
from pathlib import Path

import programs

run = programs.run


def run_static(words: list, given: bytes = b"", env: dict | None = None, **how) -> programs.Ended:
    return run([(env or {}).get("LD_PRELOAD", words[0]), *words[1:]], given, env, **how)


def main() -> None:
    script, program, hooked, *tests = sys.argv[1:]
    programs.run = run_static
    programs.built = lambda crate: program
    programs.preloaded = lambda source, room: hooked
    for name in tests:
        unittest.defaultTestLoader.testMethodPrefix = name
    runpy.run_path(str(Path(__file__).with_name(script)), run_name="__main__")


if __name__ == "__main__":
    main()
