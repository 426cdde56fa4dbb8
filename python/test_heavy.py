"""The module against the program, whose path HEAVY has: the same bytes, and the same texts of refusals. With the variable
SEQUENCES, as SEQUENCES=20000, that many random sequences of calls are made in place of 300."""
from __future__ import annotations

import array
import collections
import collections.abc
import contextlib
import copy
import ctypes
import datetime
import doctest
import functools
import importlib.util
import io
import itertools
import os
import pickle
import pydoc
import random
import re
import shutil
import subprocess
import sys
import tempfile
import threading
import types
import unittest
import weakref
from decimal import Decimal
from fractions import Fraction
from pathlib import Path
from unittest import mock

import heavy

RECORDS = b"a,5\nb,3\nc,2\na,1\n"
OTHERS = b'"x,y",7\n\xff,2\na\n'


def program(*words: str, given: bytes = b"") -> subprocess.CompletedProcess:
    return subprocess.run([os.environ["HEAVY"], *words], input=given, capture_output=True)


def has(*modules: str) -> bool:
    """Whether these modules are here."""
    return all(importlib.util.find_spec(module) is not None for module in modules)


class Pages(unittest.TestCase):
    """What a reader of the module sees."""

    def test_examples(self) -> None:
        """The examples of the docstrings give what they show."""
        finder, runner = doctest.DocTestFinder(), doctest.DocTestRunner()
        for module, names, wanted in (
            (heavy, heavy.__all__, ()), (heavy._options, ["share_of"], ()), (heavy.pandas, heavy.pandas.__all__, ("pandas",)),
            (heavy.dask, heavy.dask.__all__, ("dask", "pandas")),
        ):
            with self.subTest(module.__name__):
                if not has(*wanted):
                    self.skipTest(f"the examples of {module.__name__} want {' and '.join(wanted)}")
                for name in names:
                    for example in finder.find(getattr(module, name), name, module=False, globs={**vars(heavy), **vars(module)}):
                        runner.run(example)
        self.assertEqual((runner.failures, runner.tries > 40), (0, True))

    def test_names(self) -> None:
        """The module has the names that it lists, each of them with a docstring, and the version of the header."""
        for name in heavy.__all__:
            self.assertTrue(getattr(heavy, name).__doc__, name)
            self.assertEqual(getattr(heavy, name).__module__, "heavy")
        space: dict[str, object] = {}
        exec("from heavy import *", space)
        self.assertEqual(set(heavy.__all__), set(space) - {"__builtins__"})
        header = Path(__file__).resolve().parent.parent / "include" / "heavy.h"
        if header.exists():
            self.assertIn(f'#define HEAVY_RELEASE "{heavy.__version__}"', header.read_text())

    def test_installing_the_sources(self) -> None:
        """Where pip is given the sources, which have no library, it is told what to run."""
        setup = Path(__file__).resolve().parent / "setup.py"
        if not setup.exists():
            self.skipTest("the sources are not here")
        with tempfile.TemporaryDirectory() as room:
            ran = subprocess.run([sys.executable, str(setup), "egg_info"], cwd=room, capture_output=True, text=True)
        told = "heavy: the shared library is not beside the sources; run `bin/wheel DIR` in the repository, and then " \
            "`pip install DIR/heavy-*.whl`\n"
        self.assertEqual((ran.returncode, ran.stdout, ran.stderr), (1, "", told))

    def test_pydoc(self) -> None:
        """pydoc prints one page: the names that the module lists, their public calls, and no private one."""
        page = pydoc.plain(pydoc.render_doc(heavy))
        for name in heavy.__all__:
            self.assertIn(name, page)
        for call in ("update_many(", "heavy_hitters(", "to_frame(", "confirm_csv(", "of_csv("):
            self.assertIn(call, page)
        self.assertIn(f"VERSION\n    {heavy.__version__}\n", page)
        tuples = {"_asdict", "_make", "_replace"}  # what named tuples have
        self.assertEqual(set(re.findall(r"^ [ |]*(_[a-z]\w*)\(", page, re.M)) - tuples, set())
        self.assertNotIn(" object at 0x", page)

    @unittest.skipUnless(has("mypy"), "mypy is not here")
    def test_types(self) -> None:
        """mypy --strict finds nothing in the module, and finds what callers confuse."""
        sources = Path(heavy.__file__).parent
        with tempfile.TemporaryDirectory() as room:
            caller = Path(room, "caller.py")
            caller.write_text(
                "import heavy\nsummary = heavy.Summary(k=5)\nsummary.update_many(['a'], [1])\nsummary.update_many({'a': 1})\n"
                "both: heavy.Summary = summary + summary\nlow: int = both.top(1)[0].low + both['a'].low\nsummary.update(5)\n"
                "heavy.merge(summary, heavy.Table()).entries()\n"
            )
            words = [sys.executable, "-m", "mypy", "--strict", "--cache-dir", room]
            ran = subprocess.run([*words, str(sources)], cwd=sources.parent, capture_output=True, text=True)
            self.assertEqual(ran.returncode, 0, ran.stdout + ran.stderr)
            env = {**os.environ, "MYPYPATH": str(sources.parent)}
            ran = subprocess.run([*words, str(caller)], cwd=room, env=env, capture_output=True, text=True)
            faults = [line for line in ran.stdout.splitlines() if "error:" in line]
            self.assertEqual([re.search(r":(\d+): error", line)[1] for line in faults][:1], ["7"], ran.stdout)

    @unittest.skipUnless(shutil.which("ruff"), "ruff is not here")
    def test_ruff(self) -> None:
        ran = subprocess.run(["ruff", "check", "--line-length", "130", str(Path(heavy.__file__).parent)], capture_output=True, text=True)
        self.assertEqual(ran.returncode, 0, ran.stdout)


def added(keys: bytes, ends: list[int], weights: list[int]) -> list[tuple[bytes, int]] | tuple[int, int]:
    """What heavy_update_items makes of no items with k 5: the entries, or else the fault's kind and number."""
    value = heavy._library.Handle.loaded(heavy.Summary(k=5).to_bytes())
    lent = [(ctypes.c_uint64 * len(numbers))(*numbers) for numbers in (ends, weights)]
    try:
        value.make(heavy._library.calls.heavy_update_items, *heavy._library.lent(keys), lent[0], len(ends), lent[1], len(weights))
    except heavy.HeavyError as refused:
        return refused.numbers[1], refused.numbers[3]
    return heavy.Summary(value.saved()).entries()


class Index:
    """An integer of another kind, as numpy's are."""

    def __init__(self, number: int) -> None:
        self.number = number

    def __index__(self) -> int:
        return self.number


def in_parts(size: int) -> object:
    """Has files read `size` bytes at a time."""
    return mock.patch.multiple(heavy._records, _CHUNK=size, _FIRST=size)


def updated(file: heavy.Summary | heavy.Table, *items: tuple[str, int]) -> heavy.Summary | heavy.Table:
    """The file after an update by each of these items."""
    for item in items:
        file.update(*item)
    return file


def counted_by_hand(items: list[tuple[str, int]], k: int) -> list[tuple[bytes, int]]:
    """The counters that Misra and Gries have after these items, by rising key."""
    counters: dict[bytes, int] = {}
    for text, weight in items:
        key = text.encode()
        counters[key] = counters.get(key, 0) + weight
        if len(counters) > k:
            least = min(counters.values())
            counters = {key: counter - least for key, counter in counters.items() if counter > least}
    return sorted(counters.items())


def of_records() -> list[heavy.Summary]:
    """The summary of RECORDS with k 2, as a saved file and as a value that grows."""
    return [heavy.Summary.of_csv(RECORDS, 2), updated(heavy.Summary(k=2), ("a", 5), ("b", 3), ("c", 2), ("a", 1))]


class Growing(unittest.TestCase):
    """Summaries that begin empty and grow by items."""

    def test_library_adds_what_is_lent(self) -> None:
        # an end, a weight, and the last item: each changes what comes out
        self.assertEqual(added(b"abcabc", [2, 3, 6], [5, 3, 2]), [(b"ab", 5), (b"abc", 2), (b"c", 3)])
        self.assertEqual(added(b"abcabc", [1, 3, 6], [5, 3, 2]), [(b"a", 5), (b"abc", 2), (b"bc", 3)])
        self.assertEqual(added(b"abcabc", [2, 3, 6], [5, 4, 2]), [(b"ab", 5), (b"abc", 2), (b"c", 4)])
        self.assertEqual(added(b"abcabc", [2, 3], [5, 3]), [(b"ab", 5), (b"c", 3)])
        self.assertEqual(added(b"abcabc", [2, 3, 6], []), [(b"ab", 1), (b"abc", 1), (b"c", 1)])
        self.assertEqual(added(b"abcabc", [2, 1, 6], [5, 3, 2]), (20, 2))
        self.assertEqual(added(b"abcabc", [2, 3, 7], [5, 3, 2]), (20, 3))
        self.assertEqual(added(b"abcabc", [2, 3, 6], [5, 3]), (21, 0))
        summary = heavy.Summary(k=5)
        summary.update_many([b"ab", "c", bytearray(b"abc")], [5, 3, 2])
        self.assertEqual(summary.entries(), [(b"ab", 5), (b"abc", 2), (b"c", 3)])

    def test_empty(self) -> None:
        for summary, k in ((heavy.Summary(), 100), (heavy.Summary(k=7), 7), (heavy.Summary(k=65535), 65535)):
            self.assertEqual((summary.k, summary.total, summary.slack, len(summary)), (k, 0, 0, 0))
            self.assertEqual(summary.to_bytes(), program("summarise", "--k", str(k)).stdout)
            self.assertEqual((summary.rows(), bool(summary), summary.ask("a")), ([], True, (0, 0)))
        for k in (0, 65536):
            with self.assertRaisesRegex(heavy.HeavyError, "k must be 1 to 65535"):
                heavy.Summary(k=k)
        for words, named in (((), {"k": 2.0}), ((None,), {}), ((5,), {}), ((b"",), {"k": 5})):
            self.assertRaises(TypeError, heavy.Summary, *words, **named)

    def test_items(self) -> None:
        # the records of RECORDS: 2 is taken from each of three counters at c, which a total of 11 and a slack of 2 tell
        summary = heavy.Summary(k=2)
        summary.update("a", 5)
        summary.update_many(iter(["b", b"c"]), (Index(3), Index(2)))
        summary.update(memoryview(b"a"))
        self.assertEqual((summary.total, summary.slack, len(summary)), (11, 2, 2))
        self.assertEqual(summary.rows(), [(b"a", 4, 6), (b"b", 1, 3)])
        self.assertEqual(summary, heavy.Summary.of_csv(RECORDS, 2))
        self.assertEqual(repr(summary), "<heavy.Summary k=2 total=11 keys=2 slack=2>")
        summary.update_many(["é", "é"])
        # 1 is taken at the first: b has 0 and goes, a has 3, and the first é leaves nothing; the second stays
        self.assertEqual(summary.rows(), [(b"a", 3, 6), ("é".encode(), 1, 4)])
        summary.update_many([])
        self.assertEqual(summary.total, 13)

    def test_refused_items(self) -> None:
        long, largest = b"x" * 4097, 2**63 - 1
        for keys, weights, kind, text in (
            (["a", 5], None, TypeError, r"^keys\[1\]: .*'int'"), (["a", "b", None], None, TypeError, r"^keys\[2\]"),
            (b"ab", None, TypeError, "'bytes'"), ("ab", None, TypeError, "'str'"), (5, None, TypeError, "iterable"),
            (["a", ""], None, ValueError, r"^keys\[1\]: .* not 0$"), ([long], None, ValueError, r"^keys\[0\]: .* not 4097$"),
            (["a", "\ud800"], None, ValueError, r"^keys\[1\]: .*UTF-8"), ("ab", [1, 1], TypeError, "'str'"),
            (["a", "b"], [1, True], TypeError, r"^weights\[1\]: .*'bool'"), (["a"], [1.0], TypeError, r"^weights\[0\]"),
            (["a", "b"], [1, float("nan")], TypeError, r"^weights\[1\]: .*'float'"),
            (["a"], ["1"], TypeError, r"^weights\[0\]"),
            (["a", "b"], [1, 0], ValueError, r"^weights\[1\]: .* not 0$"), (["a"], [-1], ValueError, r"^weights\[0\]"),
            (["a", "b"], [1, 2**63], ValueError, r"^weights\[1\]"), (["a", "b"], [1], ValueError, "fewer weights .* 2$"),
            (["a", "b"], itertools.repeat(1), ValueError, "more weights .* 2$"),
            (["a", "b", "c"], [1, largest, 1], heavy.HeavyError, "^record 2: total too large$"),
            (["a", "b"], [largest - 11, 1], heavy.HeavyError, "^record 2: total too large$"),
        ):
            for summary in of_records():
                with self.subTest(text):
                    self.assertRaisesRegex(kind, text, summary.update_many, keys, weights)
                    self.assertEqual((summary, summary.total), (heavy.Summary.of_csv(RECORDS, 2), 11))

    def test_refused_item(self) -> None:
        for summary in of_records():
            for key, weight, kind, text in (
                (5, 1, TypeError, "'int'"), ("", 1, ValueError, "not 0$"), (b"x" * 4097, 1, ValueError, "not 4097$"),
                ("a", True, TypeError, "'bool'"), ("a", 1.0, TypeError, "'float'"), ("a", 0, ValueError, "not 0$"),
                ("a", 2**63, ValueError, "2\\^63 - 1"), ("a", 2**63 - 11, heavy.HeavyError, "^record 1: total too large$"),
            ):
                self.assertRaisesRegex(kind, text, summary.update, key, weight)
            self.assertEqual((summary, summary.total), (heavy.Summary.of_csv(RECORDS, 2), 11))
            summary.update(b"x" * 4096, 2**63 - 12)
            self.assertEqual((summary.total, summary.slack), (2**63 - 1, 3))

    def test_other_files_are_refused(self) -> None:
        table = heavy.Summary(heavy.Table.of_csv(RECORDS).to_bytes())
        other = heavy.Table(heavy.Summary.of_csv(RECORDS).to_bytes())
        for call in (lambda: other.update("a"), lambda: other.width, lambda: other.total):
            self.assertRaisesRegex(heavy.HeavyError, "^file 1: another kind$", call)
        for file, text in ((table, "file 1: not a counter summary"), (heavy.Summary(b"HHS"), "file 1: truncated")):
            calls = [lambda: file.update("a"), lambda: file.update_many([]), lambda: list(file), lambda: len(file)]
            for call in [*calls, lambda: file.k, lambda: file.total, lambda: file.slack]:
                with self.assertRaises(heavy.HeavyError) as caught:
                    call()
                self.assertEqual((str(caught.exception), caught.exception.status), (text, 3))
            self.assertEqual(repr(file), f"<heavy.Summary {text}>")

    def test_merged_in_place(self) -> None:
        summary, other = heavy.Summary(k=3), heavy.Summary(k=3)
        summary.update_many("a b a".split())
        other.update("a", 7)
        same = summary
        summary += other
        self.assertIs(summary, same)
        self.assertEqual((summary.rows(), summary.total), ([(b"a", 9, 9), (b"b", 1, 1)], 10))
        summary += summary
        self.assertEqual(summary.entries(), [(b"a", 18), (b"b", 2)])
        with self.assertRaisesRegex(heavy.HeavyError, "file 2: another k"):
            summary += heavy.Summary(k=4)
        for wrong in (heavy.Table.of_csv(RECORDS), b"", 5):
            with self.assertRaises(TypeError):
                summary += wrong
        self.assertEqual((summary.entries(), summary.total), ([(b"a", 18), (b"b", 2)], 20))

    def test_copies_and_equals(self) -> None:
        summary = heavy.Summary(k=3)
        summary.update("a")
        for copied in (copy.copy, copy.deepcopy, lambda given: pickle.loads(pickle.dumps(given))):
            again = copied(summary)
            self.assertEqual(again, summary)
            again.update("b")
            self.assertNotEqual(again, summary)
            summary.update("b")
            self.assertEqual((again, again.total), (summary, summary.total))
        self.assertEqual(summary.entries(), [(b"a", 1), (b"b", 3)])
        self.assertNotEqual(summary, summary.to_bytes())
        self.assertRaises(TypeError, hash, summary)

    def test_no_memory(self) -> None:
        """Where the library has no memory nothing of the call is added, and what was added before is still there."""
        def refused(*words: object) -> int:
            words[-1]._obj.kind = 18
            return 4

        for make in (lambda: heavy.Summary(k=5), lambda: heavy.Table(width=8, depth=2)):
            before = updated(make(), ("a", 1), ("b", 1))
            for name, call in (
                ("heavy_load", lambda it: it.copy().update("c")), ("heavy_update", lambda it: it.update("c")),
                ("heavy_save", heavy.Summary.to_bytes), ("heavy_update_items", lambda it: it.update_many([*"cde"])),
                ("heavy_merge_saved", lambda it: it.__iadd__(before)),
            ):
                grown = updated(make(), ("a", 1), ("b", 1))
                with self.subTest(name), mock.patch.object(heavy._library.calls, name, refused):
                    self.assertRaisesRegex(heavy.HeavyError, "^out of memory$", call, grown)
                self.assertEqual((grown, grown.total), (before, 2), name)

    def test_updates_copy_no_file(self) -> None:
        """An update makes one call; the file is written where its bytes are asked for."""
        for file in (heavy.Summary(k=9), heavy.Table(width=8)):
            counted: collections.Counter[str] = collections.Counter()
            with contextlib.ExitStack() as stack:
                for name in ("heavy_update", "heavy_save", "heavy_update_items"):
                    call = getattr(heavy._library.calls, name)

                    def tallied(*words: object, name: str = name, call: object = call) -> int:
                        counted[name] += 1
                        return call(*words)

                    stack.enter_context(mock.patch.object(heavy._library.calls, name, tallied))
                updated(file, *[("a", 1), ("b", 2)] * 50)
                self.assertEqual(counted, {"heavy_update": 100})
                self.assertEqual((file.total, file.ask("b")[1], file.describe().total), (150, 100, 150))
                updated(file, ("c", 5))
                self.assertEqual((file.total, file.copy().total), (155, 155))
                self.assertEqual(counted, {"heavy_update": 101, "heavy_save": 2})

    def test_all_calls_see_updates(self) -> None:
        """What was added item by item is seen by each call, as by a file of these bytes."""
        for step in range(1, 5):
            items = [("a", 5), ("b", 3), ("c", 2), ("a", 1)][:step]
            records = "".join(f"{key},{weight}\n" for key, weight in items).encode()
            keys, weights = zip(*items)
            for ask in (
                heavy.Summary.to_bytes, lambda it: it.copy(), copy.deepcopy, lambda it: pickle.loads(pickle.dumps(it)), repr, len, list,
                lambda it: it.total, lambda it: (it.k, it.slack), heavy.Summary.describe, heavy.Summary.describe_csv,
                heavy.Summary.list_csv, heavy.Summary.items, heavy.Summary.entries, lambda it: it.top(1), lambda it: it.ask("a"),
                lambda it: it.ask_many(["a", "b"]), lambda it: it["a"], lambda it: it.confirm(records),
                lambda it: it.confirm_items(keys, weights), lambda it: it.condense(records), lambda it: it.condense_items(keys, weights),
                lambda it: it + it, lambda it: sum([it]), lambda it: heavy.merge(it), lambda it: it.__ior__(it.copy()),
                lambda it: it.update_many(["z"]) or it, lambda it: it.update_csv(b"z\n") or it, lambda it: it.update("z") or it,
            ):
                one, whole = updated(heavy.Summary(k=2), *items), heavy.Summary.of_csv(records, 2)
                self.assertEqual(one, whole)
                self.assertEqual(ask(updated(heavy.Summary(k=2), *items)), ask(whole))

    def test_memory_is_given_back(self) -> None:
        """The library has a value until its summary goes, or has items that came otherwise; of a file that is refused it has none."""
        for change, stays in (
            (lambda it: it.update_many(["b", "c"]), 0), (lambda it: it.update_many(["b"]), 1), (lambda it: it.update_csv(b"b\n"), 0), (lambda it: it.__iadd__(heavy.Summary(k=5)), 0),
            (heavy.Summary.to_bytes, 1), (copy.copy, 1), (pickle.dumps, 1), (lambda it: it.update("b"), 1),
            (lambda it: self.assertRaises(ValueError, it.update, "a", 2**63 - 1), 1),
        ):
            summary = updated(heavy.Summary(k=5), ("a", 1))
            held = weakref.ref(summary._value)
            change(summary)
            self.assertEqual(held() is not None, bool(stays))
            del summary
            self.assertIsNone(held())
        freed: list[object] = []
        with mock.patch.object(heavy._library.calls, "heavy_free", freed.append):
            value = heavy._library.Handle.loaded(heavy.Summary(k=5).to_bytes())
            freed.clear()
            at = value._value
            del value
            self.assertRaisesRegex(heavy.HeavyError, "truncated", heavy._growing.Growing, b"HHS")
        self.assertEqual(freed, [at])
        heavy._library.calls.heavy_free(at)

    def test_many_items(self) -> None:
        keys = [b"%d" % (i * i % 997) for i in range(20_000)]
        whole = heavy.Summary.of_csv(b"\n".join(keys), 50)
        one, many = heavy.Summary(k=50), heavy.Summary(k=50)
        many.update_many(keys)
        for key in keys:
            one.update(key)
        self.assertEqual((one, many), (whole, whole))

    def test_beside_a_dictionary(self) -> None:
        """300 random sequences of calls: each estimate is right for the exact weight, and the totals are the same."""
        for seed in range(300):
            drawn = random.Random(seed)
            with self.subTest(seed):
                summary, exact = heavy.Summary(k=drawn.choice([1, 2, 3, 10])), {}
                for _ in range(drawn.randint(1, 30)):
                    summary = self.grown(summary, exact, drawn)
                self.assertEqual(summary.total, sum(exact.values()))
                slack, keys = summary.slack, [*exact, b"nobody"]
                for key, (low, high) in zip(keys, summary.ask_many(keys)):
                    weight = exact.get(key, 0)
                    self.assertTrue(weight - slack <= low <= weight <= high, (seed, key))

    def grown(self, summary: heavy.Summary, exact: dict[bytes, int], drawn: random.Random) -> heavy.Summary:
        """The summary after a random call, and the dictionary after the same."""
        items = [(b"%d" % int(drawn.expovariate(0.2)), drawn.randint(1, 9)) for _ in range(drawn.randint(0, 20))]
        keys, weights = [key for key, _ in items], [weight for _, weight in items]
        call = drawn.randrange(5)
        if call == 0:
            for key, weight in items:
                summary.update(key, weight)
        elif call == 1:
            summary.update_many(iter(keys), weights)
        elif call == 2:
            other = heavy.Summary(k=summary.k)
            other.update_many([key.decode() for key in keys], weights)
            summary = heavy.merge([summary, other])
        elif call == 3:
            records = b"".join(b"%s,%d\n" % item for item in items)
            summary += heavy.Summary.of_csv(records, summary.k)
        else:
            return heavy.Summary(io.BytesIO(summary.to_bytes()))
        for key, weight in items:
            exact[key] = exact.get(key, 0) + weight
        return summary


class Batches(unittest.TestCase):
    """Items of an iterator, which are added in batches."""

    def in_batches(self, items: int, size: int = 1 << 22) -> object:
        return mock.patch.multiple(heavy._columns, _BATCH=items, _BATCH_BYTES=size, _BLOCK=max(items // 2, 1))

    def test_all_are_added(self) -> None:
        """Iterators give the counters that their items have one by one, whatever the batches, and whatever gives the weights."""
        draw = random.Random(94)
        for many in (0, 1, 2, 3, 4, 5, 8, 9, 40, 41):
            items = [(f"k{int(draw.expovariate(0.2))}", draw.randint(1, 9)) for _ in range(many)]
            keys, weights = [key for key, _ in items], [weight for _, weight in items]
            for size in (1, 2, 4, 8):
                for given in (iter(weights), weights, array.array("i", weights), (weight for weight in weights)):
                    with self.subTest(many=many, size=size), self.in_batches(size):
                        summary, table = heavy.Summary(k=5), heavy.Table(width=64)
                        summary.update_many((key for key in keys), given)
                        self.assertEqual((summary.entries(), summary.total), (counted_by_hand(items, 5), sum(weights)))
                        table.update_many(map(str.encode, keys), weights)
                        self.assertEqual(table.total, sum(weights))
                        summary.update_many(iter(keys))
                        self.assertEqual(summary.total, sum(weights) + many)

    def test_calls_of_the_library(self) -> None:
        """The library is called once a batch: at so many items, or so many bytes, and once for what is known at once."""
        texts, call, sizes = [f"{number:04}" for number in range(20)], heavy._library.calls.heavy_update_items, []

        def counted(*words: object) -> int:
            sizes.append(words[4])
            return call(*words)

        with mock.patch.object(heavy._library.calls, "heavy_update_items", counted):
            for items, size, given, wanted in (
                (8, 1 << 22, iter(texts), [8, 8, 4]), (8, 16, iter(texts), [5, 5, 5, 5]), (8, 1 << 22, texts, [20]),
                (20, 1 << 22, iter(texts), [20]), (8, 1 << 22, dict.fromkeys(texts, 1), [20]), (8, 1 << 22, {*texts}, [20]),
            ):
                sizes.clear()
                with self.in_batches(items, size):
                    heavy.Summary().update_many(given)
                self.assertEqual(sizes, wanted)

    def test_little_is_held(self) -> None:
        """No more keys are held than those of two batches, however many come."""
        held = [0, 0]

        class Text(str):
            def __init__(self, text: str) -> None:
                held[0] += 1
                held[1] = max(held)

            def __del__(self) -> None:
                held[0] -= 1

        summary = heavy.Summary(k=3)
        with self.in_batches(10):
            summary.update_many(Text(f"k{number % 7}") for number in range(5000))
        self.assertEqual((summary.total, held[0]), (5000, 0))
        self.assertLessEqual(held[1], 21)

    def test_refusals(self) -> None:
        """A batch is added whole or not at all, and what is raised says how many items were added before."""
        def until(many: int, error: type[BaseException], *words: object) -> object:
            def keys() -> object:
                for number in range(many):
                    yield f"k{number % 3}"
                raise error(*words)

            return keys

        largest = 2**63 - 1
        for keys, weights, kind, text, added in (
            (["a"] * 9 + [""], None, ValueError, r"^keys\[9\]: a key must have 1 to 4096 bytes, not 0$", 8),
            (["a"] * 5 + [5], None, TypeError, r"^keys\[5\]: .*'int'; of a number", 4),
            (["a"] * 3 + [5], None, TypeError, r"^keys\[3\]: .*'int'; of a number", 0),
            (["a"] * 12, [1] * 11 + [0], ValueError, r"^weights\[11\]: .* not 0$", 8),
            (["a"] * 12, [1] * 6 + ["x"] * 6, TypeError, r"^weights\[6\]: .*'str'$", 4),
            (["a"] * 12, [1] * 11, ValueError, "^there are fewer weights than keys, which are 12$", 8),
            (["a"] * 12, [1] * 6, ValueError, "^there are fewer weights than keys, which are 8 or more$", 4),
            (["a"] * 12, itertools.repeat(1), ValueError, "^there are more weights than keys, which are 12$", 8),
            (["a"] * 10, [1] * 11, ValueError, "^there are more weights than keys, which are 10$", 8),
            (["a"] * 4, [1] * 5, ValueError, "^there are more weights than keys, which are 4$", 0),
            ([], [1], ValueError, "^there are more weights than keys, which are 0$", 0),
            (["a"] * 7, [1] * 6 + [largest - 11], heavy.HeavyError, "^record 7: total too large$", 4),
            (until(11, UnicodeDecodeError, "utf-8", b"x", 0, 1, "no"), None, UnicodeDecodeError, "^'utf-8' codec .* no$", 8),
            (until(11, OSError, "unplugged"), None, OSError, "^unplugged$", 8), (until(3, KeyboardInterrupt, "stop"), None, KeyboardInterrupt, "stop", 0),
            (["a"], {"a": 1}, TypeError, "^weights must be .* mapping", 0), (["a"], 5, TypeError, "^weights must be", 0),
        ):
            for file in (heavy.Summary.of_csv(RECORDS, 2), updated(heavy.Table(), ("z", 11))):
                with self.subTest(text), self.in_batches(4):
                    with self.assertRaises(kind) as caught:
                        file.update_many(keys() if callable(keys) else iter(keys), weights)
                    told = f"the first {added} items of this call are added, and no other"
                    said, noted = str(caught.exception), getattr(caught.exception, "__notes__", [])
                    in_text = bool(added) and kind in (TypeError, ValueError)
                    self.assertEqual(said.endswith(f"; {told}"), in_text)
                    self.assertRegex(said[: -len(told) - 2] if in_text else said, text)
                    self.assertEqual(noted, [told] if added and not in_text and hasattr(caught.exception, "add_note") else [])
                    self.assertEqual((file.total, caught.exception.added), (11 + added, added))
        summary = heavy.Summary.of_csv(RECORDS, 2)
        with self.in_batches(4), self.assertRaises(heavy.HeavyError) as caught:
            summary.update_many(iter("aaaaaab"), [1] * 6 + [largest])
        again = pickle.loads(pickle.dumps(caught.exception))
        self.assertEqual((again.added, again.number, heavy.HeavyError.added), (4, 7, None))


class Frame:
    """A frame of a library that is not here, as Arrow's tables are."""

    def __init__(self, *names: str) -> None:
        self.column_names = [*names]

    def __iter__(self) -> object:
        return iter(self.column_names)


Frame.__name__ = "RecordBatch"


def frames() -> list[object]:
    """A frame of each library that is here, and of one that is not, each with the columns a and b."""
    made: list[object] = [Frame("a", "b")]
    if has("pandas"):
        import pandas

        made.append(pandas.DataFrame({"a": ["x", "y"], "b": [1, 2]}))
    if has("dask", "pandas"):
        import dask.dataframe

        made.append(dask.dataframe.from_pandas(made[1], npartitions=1))
    return made


def integers() -> list[type]:
    """The kinds of integers that are here."""
    kinds: list[type] = [int, Index]
    if has("numpy"):
        import numpy

        kinds += [numpy.int64, numpy.uint8, numpy.uint64, numpy.int16]
    return kinds


def reals() -> list[type]:
    """The kinds of floats that are here: of numpy's the one of 32 bits stands first."""
    if not has("numpy"):
        return [float]
    import numpy

    return [numpy.float32, float, numpy.float64, numpy.float16, numpy.longdouble]


class Misuses(unittest.TestCase):
    """What a caller gets wrong: nothing of it is dropped in silence, and each message says what to do."""

    def refused(self, kind: type[Exception], text: str, call: object, *words: object) -> None:
        self.assertRaisesRegex(kind, text, call, *words)
        self.assertEqual((self.summary, self.summary.total), (heavy.Summary.of_csv(RECORDS, 2), 11))

    def setUp(self) -> None:
        self.summary = heavy.Summary.of_csv(RECORDS, 2)

    def many(self) -> list[object]:
        """The calls that take keys and weights."""
        table = heavy.Table()
        return [self.summary.update_many, table.update_many, self.summary.confirm_items, self.summary.condense_items]

    def test_mappings(self) -> None:
        counted = collections.Counter({"a": 6, b"b": 3, "c": 2})
        for given in (counted, dict(counted), types.MappingProxyType(counted), collections.OrderedDict(counted)):
            summary = heavy.Summary(k=5)
            summary.update_many(given)
            self.assertEqual(summary.entries(), [(b"a", 6), (b"b", 3), (b"c", 2)])
            table = heavy.Table(width=64)
            table.update_many(given)
            self.assertEqual(table, heavy.Table.of_csv(RECORDS, 64))
            self.assertEqual(self.summary.confirm_items(given), [(b"a", 6)])
            self.assertEqual(self.summary.condense_items(given), self.summary.condense(RECORDS))
            for call in self.many():
                self.refused(TypeError, f"^keys is a {type(given).__name__}, which has weights of its own", call, given, [1, 1, 1])
                self.refused(TypeError, "^weights must be .* mapping; give that in place of keys$", call, ["a"], given)
        for given, kind, text in (
            ({"a": 5, "b": 0}, ValueError, r"^weights\['b'\]: .* not 0$"), ({"a": -1}, ValueError, r"^weights\['a'\]: .* not -1$"),
            ({"a": 1.5}, TypeError, r"^weights\['a'\]: .*'float'$"), ({"a": 1, "": 1}, ValueError, r"^keys\[1\]: .* not 0$"),
            ({1: 2}, TypeError, r"^keys\[0\]: .*'int'; of a number give its text, as str\(number\)$"),
        ):
            for call in self.many():
                self.refused(kind, text, call, given)

    def test_frames(self) -> None:
        for frame in frames():
            name = type(frame).__name__
            advice = rf"{name}; give one of its columns, as frame\['a'\]$"
            for call in [*self.many(), self.summary.ask_many]:
                self.refused(TypeError, f"^keys must be an iterable of keys, not a {advice}", call, frame)
            for call in self.many():
                self.refused(TypeError, f"^weights must be an iterable of integers, not a {advice}", call, ["a", "b"], frame)
            for call in (self.summary.update, self.summary.ask, self.summary.get, self.summary.__getitem__, self.summary.__contains__):
                self.refused(TypeError, f"^a key must be bytes or str, not '{name}'; give one of its columns", call, frame)
            for call in (
                self.summary.update_csv, self.summary.confirm, self.summary.condense, heavy.report, heavy.report_csv,
                heavy.Summary.of_csv, heavy.Table.of_csv, heavy.Summary, heavy.Table,
            ):
                self.refused(TypeError, f"not '{name}'; heavy.pandas.report takes a frame and its columns$", call, frame)

    def test_numbers_as_keys(self) -> None:
        for number in [5, 5.0, True, Decimal(5), Fraction(5), 5j, *(kind(5) for kind in integers()[2:])]:
            text = rf"a key must be bytes or str, not '{type(number).__name__}'; of a number give its text, as str\(number\)$"
            for call in [*self.many(), self.summary.ask_many]:
                self.refused(TypeError, rf"^keys\[1\]: {text}", call, ["a", number])
            for call in (self.summary.update, self.summary.ask, self.summary.get, self.summary.__getitem__, self.summary.__contains__):
                self.refused(TypeError, f"^{text}", call, number)

    def test_weights_of_zero(self) -> None:
        """With skip_zero an item of weight 0 adds nothing; without it is refused, as is any other wrong weight always."""
        keys, weights = [*"abzca"], [5, 3, 0, 2, 1]
        given: list[tuple[object, object]] = [
            (keys, weights), (tuple(keys), iter(weights)), (keys, array.array("i", weights)), ({"a": 6, "b": 3, "z": 0, "c": 2}, None),
        ]
        if has("numpy", "pandas"):
            import numpy
            import pandas

            given += [(numpy.array([b"a", b"b", b"z", b"c", b"a"]), numpy.array(weights)), (pandas.Series(keys), pandas.Series(weights))]
            given += [(pandas.Series(keys * 300), pandas.Series(weights * 300))]
        for keys_given, weights_given in given:
            many = 300 if len(keys_given) == 1500 else 1
            listed = [*weights_given] if weights_given is not None else None
            summary, table = heavy.Summary(k=5), heavy.Table(width=64)
            for file in (summary, table):
                file.update_many(keys_given, listed if not hasattr(weights_given, "dtype") else weights_given, skip_zero=True)
                self.assertEqual((file.total, file.ask("z")), (11 * many, (0, 0)))
            rows = [(b"a", 6 * many), (b"b", 3 * many), (b"c", 2 * many)]
            self.assertEqual(summary.entries(), rows)
            self.assertEqual(summary.confirm_items(keys_given, listed, skip_zero=True), rows)  # each above a sixth of 11
            self.assertEqual(summary.condense_items(keys_given, listed, skip_zero=True), b"a,%d\nb,%d\nc,%d\n" % (6 * many, 3 * many, 2 * many))
            for call in (summary.update_many, table.update_many, summary.confirm_items, summary.condense_items):
                self.assertRaisesRegex(ValueError, r"^weights\[(2|'z')\]: a weight must be from 1 to 2\^63 - 1, not 0$", call, keys_given, listed)
        for kind in (iter, list):
            summary = heavy.Summary.of_csv(RECORDS, 2)
            summary.update_many(kind(["z", "y"]), [0, 0], skip_zero=True)
            self.assertEqual(summary, heavy.Summary.of_csv(RECORDS, 2))
            for wrong, error, text in (
                ([0, -1], ValueError, r"^weights\[1\]: a weight must be from 0 to 2\^63 - 1, not -1$"), ([0, False], TypeError, r"^weights\[1\]: .*'bool'"),
                ([0, 2**63 - 11], heavy.HeavyError, "^record 2: total too large$"), ([0], ValueError, "^there are fewer weights"),
            ):
                with self.assertRaisesRegex(error, text):
                    summary.update_many(kind(["z", "y"]), wrong, skip_zero=True)
            with self.assertRaisesRegex(ValueError, r"^keys\[0\]: a key must have 1 to 4096 bytes, not 0$"):
                summary.update_many(kind([""]), [0], skip_zero=True)
            self.assertRaisesRegex(TypeError, "^skip_zero must be True or False, not 'int'$", lambda: summary.update_many(kind("a"), skip_zero=1))
            self.assertEqual(summary, heavy.Summary.of_csv(RECORDS, 2))

    def test_times_as_keys(self) -> None:
        day = datetime.date(2026, 11, 30)
        for time in (day, datetime.datetime(2026, 11, 30, 22), datetime.time(22), datetime.timedelta(5)):
            text = rf"a key must be bytes or str, not '{type(time).__name__}'; of a date or a time give its text, as str\(key\)$"
            for call in [*self.many(), self.summary.ask_many]:
                self.refused(TypeError, rf"^keys\[1\]: {text}", call, ["a", time])
            for call in (self.summary.update, self.summary.ask, self.summary.__getitem__):
                self.refused(TypeError, f"^{text}", call, time)
        if not has("numpy", "pandas"):
            self.skipTest("numpy and pandas are not here")
        import numpy
        import pandas

        for times in (numpy.array([day, day], dtype="M8[D]"), pandas.Series(pandas.to_datetime([day, day])), numpy.array([5], dtype="m8[s]")):
            for call in self.many():
                text = rf"^keys\[0\]: a key must be bytes or str, not '{re.escape(str(times.dtype))}'; of dates and times give keys.astype\(str\)$"
                self.refused(TypeError, text, call, times)
            summary = heavy.Summary(k=5)
            summary.update_many(times.astype(str))
            self.assertEqual(summary.total, len(times))

    def test_integers(self) -> None:
        """Integers of any kind are weights, and options too."""
        for kind in integers():
            self.assertEqual(heavy.Summary(k=kind(2)), heavy.Summary(k=2))
            summary = heavy.Summary.of_csv(b"", kind(2))
            summary.update("a", kind(5))
            summary.update_many(["b", "c"], [kind(3), kind(2)])
            summary.update_many({"a": kind(1)})
            self.assertEqual(summary, heavy.Summary.of_csv(RECORDS, 2))
            weights = [kind(weight) for weight in (5, 3, 2, 1)]
            self.assertEqual(summary.confirm_items("a b c a".split(), weights, (kind(1), kind(2))), [(b"a", 6)])
            self.assertEqual(summary.condense_items("a b c a".split(), weights), summary.condense(RECORDS))
            self.assertEqual(summary.top(kind(1)), [(b"a", 4, 6)])
            layout = heavy.Layout(key=kind(1), weight=kind(2), decimals=kind(0))
            self.assertEqual(heavy.Summary.of_csv(b"a,5\nb,3\nc,2\na,1\n", 2, layout=layout), summary)
            self.assertEqual(heavy.report(RECORDS, kind(2), workers=kind(2)), [(b"a", 6)])
            table = heavy.Table(width=kind(8), depth=kind(2), seed=kind(7))
            table.update("a", kind(5))
            self.assertEqual(table, heavy.Table.of_csv(b"a,5\n", kind(8), kind(2), kind(7)))

    def test_other_keys_and_weights(self) -> None:
        for call in self.many():
            for keys, text in (
                ([("a", 5)], r"^keys\[0\]: .*'tuple'; keys and their weights are given apart, or as a mapping$"),
                ([collections.Counter("ab")], r"^keys\[0\]: .*'Counter'; update_many takes the keys and weights of a mapping$"),
                (5, "^keys must be an iterable of keys, not 'int'$"), (None, "^keys must be an iterable of keys, not 'NoneType'$"),
            ):
                self.refused(TypeError, text, call, keys)
            for weights in (5, b"\1\2", "12", {1, 2}, frozenset([1, 2])):
                text = f"^weights must be an iterable of integers, not '{type(weights).__name__}'$"
                self.refused(TypeError, text, call, ["a", "b"], weights)
        for file in (heavy.Summary(), heavy.Table()):
            self.refused(TypeError, f"^keys is a {type(file).__name__}, which is merged", self.summary.update_many, file)
        self.refused(TypeError, "'Counter'; update_many takes", self.summary.update, collections.Counter("a"))
        for call in (self.summary.update_csv, heavy.report, heavy.Summary.of_csv, heavy.Summary, self.summary.confirm):
            self.refused(TypeError, "not 'Counter'; update_many takes keys and weights$", call, collections.Counter("a"))

    def test_one_kind_of_error(self) -> None:
        """A wrong value is refused in the same way wherever it is given."""
        summary, table = self.summary, heavy.Table()
        for key, size in (("", 0), (b"x" * 4097, 4097)):
            text = f"a key must have 1 to 4096 bytes, not {size}$"
            for call in (summary.update, table.update, summary.ask, table.ask, table.estimate):
                self.refused(ValueError, f"^{text}", call, key)
            for call in [*self.many(), summary.ask_many, table.ask_many]:
                self.refused(ValueError, rf"^keys\[1\]: {text}", call, ["a", key])
        for k in (0, 65536, -1, 2**64, 2**64 + 1):
            for call in (
                lambda: heavy.Summary(k=k), lambda: heavy.Summary.of_csv(RECORDS, k), lambda: heavy.report(RECORDS, k),
                lambda: heavy.report_csv(RECORDS, k, workers=2),
            ):
                self.refused(heavy.HeavyError, "^k must be 1 to 65535$", call)
        for width in (0, 65537, -1, 2**64):
            for call in (lambda: heavy.Table(width=width), lambda: heavy.Table.of_csv(RECORDS, width)):
                self.refused(heavy.HeavyError, "^width must be 1 to 65536$", call)
        for call in (lambda: heavy.Table(seed=-1), lambda: heavy.Table.of_csv(RECORDS, seed=2**64)):
            self.refused(ValueError, "^seed must be", call)
        for k in (2.0, "2", None):
            self.refused(TypeError, f"^k must be an integer, not '{type(k).__name__}'$", heavy.report, RECORDS, k)
        self.assertTrue(issubclass(heavy.HeavyError, ValueError))

    def test_thresholds(self) -> None:
        # of a total of 11 a has 6, b 3 and c 2
        for threshold, wanted in (
            ((6, 11), []), ("6/11", []), (Fraction(6, 11), []), ((1, 2), [b"a"]), ("1/2", [b"a"]), (Fraction(1, 2), [b"a"]),
            (0.5, [b"a"]), (Decimal("0.5"), [b"a"]), (1, []), (1.0, []), ("2/4", [b"a"]), ("3/11", [b"a"]), (None, [b"a"]),
            ("1/4", [b"a", b"b"]), (0.25, [b"a", b"b"]), (Decimal("0.25"), [b"a", b"b"]), ("0.25", [b"a", b"b"]), ("25%", [b"a", b"b"]),
            (".5", [b"a"]), ("0.50", [b"a"]), ("27.2%", [b"a", b"b"]), ("27.3%", [b"a"]), ("100%", []), ("1", []), ("1.", []),
            *((kind(0.25), [b"a", b"b"]) for kind in reals()), *((kind(1), []) for kind in integers() if kind is not Index),
        ):
            summary = heavy.Summary.of_csv(RECORDS, 3 if threshold is not None else 2)
            with self.subTest(threshold):
                self.assertEqual([row.key for row in heavy.report(RECORDS, summary.k, threshold)], wanted)
                self.assertEqual([row.key for row in summary.confirm(RECORDS, threshold)], wanted)
                self.assertEqual([row.key for row in summary.confirm_items({"a": 6, "b": 3, "c": 2}, None, threshold)], wanted)
                self.assertEqual([row.key for row in summary.heavy_hitters(threshold, certain=True)], wanted)
        for threshold, kind, text in (
            (0.1, ValueError, r"^the threshold 0.1 is not exactly 1/10; write '1/10' or Fraction\(1, 10\)$"),
            (0.05, ValueError, r"write '1/20' or Fraction\(1, 20\)$"), (1 / 3, ValueError, r"write '1/3' or"),
            (2**-40 * 1.1, ValueError, "no fraction with a small denominator; write it as 'P/Q'$"),
            ("0.1", heavy.HeavyError, "^threshold must be P/Q"), ("5%", heavy.HeavyError, "^threshold must be P/Q"),
            *((text, ValueError, rf"^a threshold is a text as '1/4', '0.25' or '25%', not {re.escape(repr(text))}$") for text in (
                "a tenth", "", "%", ".", "1/2%", "-0.5", "0,5", "1e-1", " 0.5", "0.5 ", "1 / 2", "0.5%%", "nan", "1_0%", "٢٥%")),
            *((kind(0.1), ValueError, r"is not exactly 1/10; write '1/10' or Fraction\(1, 10\)$") for kind in reals()[:2]),
            *((kind(1 / 3), ValueError, "write '1/3' or") for kind in reals()[:2]), *((kind("nan"), ValueError, "share") for kind in reals()),
            ("1/0", heavy.HeavyError, "^threshold must be P/Q"), (0, heavy.HeavyError, "^threshold must"),
            (float("nan"), ValueError, "^a threshold is a share, not nan$"), (float("inf"), ValueError, "share"),
            (True, TypeError, "'bool'"), ([1, 2], TypeError, "'list'"), (b"1/2", TypeError, "'bytes'"), ((1,), ValueError, "pair"),
            ((1, 2.0), TypeError, "^q must be an integer, not 'float'$"), ((-1, 2), heavy.HeavyError, "^threshold must be P/Q"),
            ((1, 2**64 + 2), heavy.HeavyError, "^threshold must"), ((3, 2), heavy.HeavyError, "^threshold must"),
            ("1/4", heavy.HeavyError, "^threshold must be P/Q"), (Decimal("0.1"), heavy.HeavyError, "^threshold must be P/Q"),
            (1.5, heavy.HeavyError, "^threshold must"), (-0.5, heavy.HeavyError, "^threshold must"),
        ):
            for call in (
                lambda: heavy.report(RECORDS, 2, threshold), lambda: heavy.report_csv(RECORDS, 2, threshold, 3),
                lambda: self.summary.confirm(RECORDS, threshold), lambda: self.summary.confirm_csv(RECORDS, threshold),
                lambda: self.summary.confirm_items("aaaaaabbbcc" and [*"aaaaaabbbcc"], None, threshold),
                lambda: self.summary.heavy_hitters(threshold, certain=True), lambda: self.summary.heavy_hitters(threshold, certain=False),
            ):
                with self.subTest(threshold):
                    self.refused(kind, text, call)


class Mappings(unittest.TestCase):
    """A summary as the mapping that it is."""

    def test_keys_with_a_counter(self) -> None:
        # at c each of three counters loses 2, so a has 4 and b 1, each of at most 2 more
        summary = heavy.Summary.of_csv(RECORDS, 2)
        for key in ("a", b"a", bytearray(b"a"), memoryview(b"a")):
            self.assertTrue(key in summary)
            self.assertEqual((summary[key], summary[key].low, summary[key].high), ((4, 6), 4, 6))
            self.assertEqual(summary.get(key), summary[key])
        for key in ("c", b"nobody", "", "x" * 4097, "\ud800"):
            self.assertFalse(key in summary)
            self.assertRaises(KeyError, summary.__getitem__, key)
            self.assertEqual((summary.get(key), summary.get(key, 5)), (None, 5))
        self.assertEqual([*summary], [b"a", b"b"])
        self.assertEqual(([*summary.keys()], len(summary), len(summary.items()), len(summary.values())), ([b"a", b"b"], 2, 2, 2))
        self.assertEqual(summary.rows(), [(b"a", 4, 6), (b"b", 1, 3)])
        self.assertEqual(summary.rows()[0]._asdict(), {"key": b"a", "low": 4, "high": 6})
        for file in (heavy.Summary(b"HHS"), heavy.Summary(heavy.Table().to_bytes())):
            for call in (lambda: "a" in file, lambda: file["a"], lambda: [*file], lambda: [*file.items()], file.rows, lambda: file.top(1)):
                self.assertRaises(heavy.HeavyError, call)

    def test_any_mapping(self) -> None:
        """A summary does what any mapping does, with a weight's two bounds as values; where one number is wanted, it says so."""
        for text, a, b in ((False, b"a", b"b"), (True, "a", "b")):
            summary, wanted = heavy.Summary.of_csv(RECORDS, 2, text=text), {a: (4, 6), b: (1, 3)}
            self.assertIsInstance(summary, collections.abc.Mapping)
            for made in (dict(summary), dict(summary.items()), {**summary}, dict(zip(summary.keys(), summary.values())), {} | {**summary}):
                self.assertEqual((made, [*made]), (wanted, [a, b]))
            self.assertEqual((summary.keys() & {a, "z"}, summary.keys() == {a, b}), ({a}, True))
            self.assertEqual([(a, (4, 6)) in summary.items(), (a, 4) in summary.items(), (4, 6) in summary.values(), 4 in summary.values()],
                             [True, False, True, False])
            self.assertEqual(collections.Counter(summary).most_common(1), [(a, (4, 6))])
            self.assertEqual(max(summary.items(), key=lambda item: item[1]), (a, (4, 6)))
            self.assertEqual(collections.ChainMap({}, summary)[b].high, 3)
            self.assertEqual(collections.Counter({key: found.low for key, found in summary.items()}), {a: 4, b: 1})
            again = summary.items(), summary.values(), summary.keys()
            summary.update("c", 9)
            # c comes to b's place: of the counters 4, 1 and 9 each loses 1
            self.assertEqual([*again[0]], [(summary.rows()[0].key, (8, 11)), (a, (3, 6))])
            self.assertEqual([[*again[1]], [*again[2]]], [[(8, 11), (3, 6)], [*summary]])
        counted, whole = collections.Counter("ab"), heavy.Summary.of_csv(b"a,5\n", text=True)
        for call in (
            lambda: collections.Counter(whole) + counted, lambda: counted + collections.Counter(whole), lambda: counted.update(whole),
            lambda: collections.Counter(whole) - counted, lambda: counted - collections.Counter(whole), lambda: sum(whole.values()),
            lambda: counted.subtract(whole), lambda: sum(collections.Counter(whole).values()),
        ):
            self.assertRaisesRegex(TypeError, "^an Interval is no number, .*; take its low or its high$", call)
        for call in (whole.confirm_items, whole.condense_items, lambda given: whole.update_many({**given})):
            self.assertRaisesRegex(TypeError, r"^weights\['a'\]: .* not 'Interval'; take its low or its high$", call, whole)
        self.assertEqual(whole.total, 5)
        self.assertEqual(pickle.loads(pickle.dumps(whole["a"])), heavy.Interval(5, 5))

    def test_iterations_beside_changes(self) -> None:
        """An iteration has what was there when it began."""
        summary = heavy.Summary.of_csv(RECORDS, 2, text=True)
        for begin, wanted in (
            (iter, ["a", "b"]), (lambda it: iter(it.keys()), ["a", "b"]), (lambda it: iter(it.values()), [(4, 6), (1, 3)]),
            (lambda it: iter(it.items()), [("a", (4, 6)), ("b", (1, 3))]),
        ):
            grown = summary.copy()
            begun = begin(grown)
            found = [next(begun)]
            grown.update("z", 100)
            self.assertEqual((found + [*begun], "b" in grown), (wanted, False))

    def test_rows_are_made_for_many_questions(self) -> None:
        """The first question after a change makes no rows of all keys, and many behind it make them once."""
        entries = heavy._files._entries
        for make in (lambda it: it.update("a", 5), lambda it: it.update_many(["a", "b"], [5, 1])):
            summary, found = heavy.Summary.of_csv(RECORDS, 2), []
            with mock.patch.object(heavy._files, "_entries", lambda saved: found.append(1) or entries(saved)):
                for number in range(3):
                    make(summary)
                    # a has 4 of 6, and gets 5 at a time
                    self.assertEqual((summary["a"], found), ((9 + 5 * number, 11 + 5 * number), [1] * number))
                    for _ in range(20):
                        self.assertEqual(("zz" in summary, "b" in summary, summary.get("c", 7)), (False, True, 7))
                    self.assertEqual(found, [1] * (number + 1))

    def test_one_item_copies_no_file(self) -> None:
        """update_many of one item does what update does, and is refused as it is."""
        for file in (heavy.Summary(k=9), heavy.Table(width=64)):
            with mock.patch.object(heavy._library.calls, "heavy_update_items", side_effect=AssertionError):
                for given in ((["a"],), ({"a": 5},), (iter(["b"]), [3]), (("a",), array.array("B", [2]))):
                    file.update_many(*given)
                self.assertRaisesRegex(heavy.HeavyError, "^record 1: total too large$", file.update_many, ["a"], [2**63 - 11])
            self.assertEqual((file.total, file.ask("a")[1], file.ask("b")[1]), (11, 8, 3))

    def test_what_was_asked_before(self) -> None:
        """What a summary remembers of its rows goes with the next item, of whatever call."""
        summary = heavy.Summary(k=5)
        changes = [
            lambda: summary.update("a"), lambda: summary.update_many(["b", "a"]), lambda: summary.update_many([*"abc"] * 5000),
            lambda: summary.update_csv(b"d,7\n"), lambda: summary.__iadd__(heavy.Summary.of_csv(b"e,9\n", 5)),
        ]
        for change in changes:
            before = summary.copy()
            self.assertEqual([*before], [*summary])
            change()
            again = heavy.Summary(summary.to_bytes())
            self.assertEqual((summary.rows(), summary.describe(), summary.total), (again.rows(), again.describe(), again.total))
            self.assertNotEqual(summary.rows(), before.rows())

    def test_top(self) -> None:
        summary = heavy.Summary.of_csv(b"b,2\nc,7\na,2\nd,1\n", 9)
        rows = [(b"c", 7, 7), (b"a", 2, 2), (b"b", 2, 2), (b"d", 1, 1)]
        for n in (0, 1, 2, 3, 4, 9):
            self.assertEqual(summary.top(n), rows[:n])
        self.assertRaisesRegex(ValueError, "^n must be at least 0, not -1$", summary.top, -1)
        self.assertRaisesRegex(TypeError, "^n must be an integer, not 'float'$", summary.top, 2.0)

    def test_heavy_hitters(self) -> None:
        """Of those that are certain each weighs more than the share, and those that are not are all that can."""
        # of 11 in all: a weighs 4 to 6, b 1 to 3
        summary = heavy.Summary.of_csv(RECORDS, 2)
        for share, certain, possible in (
            (None, "a", "a"), ("4/11", "", "a"), ("5/11", "", "a"), ("6/11", "", ""), ("1/3", "a", "a"), ("1/1", "", ""),
        ):
            self.assertEqual([row.key.decode() for row in summary.heavy_hitters(share, certain=True)], [*certain], share)
            self.assertEqual([row.key.decode() for row in summary.heavy_hitters(share, certain=False)], [*possible], share)
        draw = random.Random(11)
        for _ in range(200):
            k = draw.randrange(1, 9)
            items = [(b"%d" % int(draw.expovariate(0.3)), draw.randint(1, 9)) for _ in range(draw.randint(0, 60))]
            exact: collections.Counter[bytes] = collections.Counter()
            for key, weight in items:
                exact[key] += weight
            summary = heavy.Summary(k=k)
            summary.update_many([key for key, _ in items], [weight for _, weight in items])
            share = Fraction(draw.randint(1, k + 1), k + 1)
            heavier = {key for key, weight in exact.items() if weight > share * sum(exact.values())}
            certain = {row.key for row in summary.heavy_hitters(share, certain=True)}
            possible = {row.key for row in summary.heavy_hitters(share, certain=False)}
            self.assertTrue(certain <= heavier <= possible, (items, k, share))
        for given in (1, 0, None, "yes"):
            text = f"^certain must be True or False, not '{type(given).__name__}'$"
            self.assertRaisesRegex(TypeError, text, lambda: summary.heavy_hitters(certain=given))
        for words in ((), ("1/2",)):
            self.assertRaisesRegex(TypeError, "missing 1 required .*'certain'$", summary.heavy_hitters, *words)
        self.assertRaises(TypeError, summary.heavy_hitters, "1/2", True)

    def test_truth_values(self) -> None:
        """numpy's truth values are Python's."""
        if not has("numpy"):
            self.skipTest("numpy is not here")
        import numpy

        # of 11 in all a weighs 4 to 6: more than 4/11 only perhaps
        summary = heavy.Summary.of_csv(RECORDS, 2)
        for value, keys in ((True, []), (False, [b"a"])):
            self.assertEqual([row.key for row in summary.heavy_hitters("4/11", certain=numpy.bool_(value))], keys)
            layout = heavy.Layout(header=numpy.bool_(value), allow_zero=numpy.bool_(value))
            self.assertEqual((layout, repr(layout)), (heavy.Layout(header=value, allow_zero=value), repr(heavy.Layout(header=value, allow_zero=value))))
        self.assertEqual(heavy.report(b"h,w\na,5\nb,0\n", 1, layout=heavy.Layout(header=numpy.True_, allow_zero=numpy.True_)), [(b"a", 5)])
        self.assertRaisesRegex(TypeError, "^a weight must be an integer, not 'bool_?'$", summary.update, "a", numpy.True_)
        self.assertRaisesRegex(TypeError, r"^weights\[0\]: a weight must be an integer, not 'bool", summary.update_many, ["a"], [numpy.True_])

    def test_sums(self) -> None:
        days = [heavy.Summary.of_csv(b"a,%d\nb\n" % day, 5) for day in range(1, 4)]
        for whole in (sum(days), days[0] + days[1] + days[2], heavy.merge(days)):
            self.assertEqual((whole.entries(), whole.total), ([(b"a", 6), (b"b", 3)], 9))
        self.assertEqual([day.total for day in days], [2, 3, 4])
        one = sum(days[:1])
        one.update("a")
        self.assertEqual((one.total, days[0].total), (3, 2))
        same = whole = days[0].copy()
        whole |= days[1]
        self.assertEqual((whole is same, whole), (True, days[0] + days[1]))
        tables = [heavy.Table.of_csv(RECORDS, 8), heavy.Table.of_csv(OTHERS, 8)]
        self.assertEqual(sum(tables), heavy.Table.of_csv(RECORDS + OTHERS, 8))
        for other in (heavy.Table(), 0, 1, None, b""):
            self.assertRaises(TypeError, lambda: days[0] + other)
        for other in (1, None, b"", False):
            self.assertRaises(TypeError, lambda: other + days[0])
        self.assertRaisesRegex(heavy.HeavyError, "^file 2: another k$", lambda: days[0] + heavy.Summary(k=4))

    def test_frame(self) -> None:
        if not has("pandas"):
            self.skipTest("pandas is not here")
        for summary in (heavy.Summary.of_csv(RECORDS, 2, text=True), heavy.Summary(k=2)):
            frame = summary.to_frame()
            self.assertEqual([*frame.columns], ["key", "low", "high"])
            self.assertEqual([*frame.itertuples(index=False, name=None)], summary.rows())


class Rows(unittest.TestCase):
    """What comes back: named rows, with keys as they went in, or the bytes that the program prints."""

    def test_rows(self) -> None:
        summary = heavy.Summary.of_csv(RECORDS, 2)
        for rows in (heavy.report(RECORDS, 2), summary.confirm(RECORDS), summary.confirm_items({"a": 6, "b": 3, "c": 2})):
            self.assertEqual(rows, [heavy.Row(b"a", 6)])
            self.assertEqual((rows[0].key, rows[0].weight), (b"a", 6))
        wanted = {"version": 2, "kind": "summary", "total": 11, "k": 2, "keys": 2, "counters": 5, "slack": 2}
        self.assertEqual(summary.describe(), heavy.Info(**wanted))
        self.assertEqual((summary.describe().width, summary.describe().slack), (None, 2))
        table = heavy.Table.of_csv(RECORDS, 8, 2).describe()
        self.assertEqual((table.kind, table.total, table.width, table.depth, table.k), ("table", 11, 8, 2, None))

    def test_bytes(self) -> None:
        summary = heavy.Summary.of_csv(OTHERS, 9)
        self.assertEqual(heavy.report_csv(OTHERS, 9), program("report", "--k", "9", given=OTHERS).stdout)
        self.assertEqual(summary.confirm_csv(OTHERS), heavy.report_csv(OTHERS, 9))
        self.assertEqual(summary.list_csv(), b'"x,y",7,7\n\xff,2,2\na,1,1\n')
        with self.assertRaisesRegex(heavy.HeavyError, "record 1: zero weight"):
            heavy.report_csv(b"a,0\n")

    def test_texts(self) -> None:
        """With `text` keys come back as str, and what is no UTF-8 as Python has such names; it goes in again as it came."""
        records = "é,5\na,3\n".encode() + b"\xff\xc3,2\n"
        texts = ["é", "a", "\udcff\udcc3"]
        summary = heavy.Summary.of_csv(records, 5, text=True)
        with tempfile.TemporaryDirectory() as room:
            summary.save(Path(room, "saved"))
            loaded = heavy.Summary.load(Path(room, "saved"), text=True)
        for made in (
            summary, summary.copy(), loaded, heavy.Summary(summary.to_bytes(), text=True), heavy.merge(summary),
            summary + heavy.Summary(k=5), sum([summary]), pickle.loads(pickle.dumps(summary)),
        ):
            self.assertEqual((made.text, [*made]), (True, texts))
            self.assertEqual([row.key for row in made.top(9)], texts)
            self.assertEqual([row.key for row in made.confirm(records)], texts)
            self.assertEqual([row.key for row in made.confirm_items({"é": 5, "a": 3, b"\xff\xc3": 2})], texts)
            self.assertEqual(made.entries(), [("a", 3), ("é", 5), ("\udcff\udcc3", 2)])
        again = heavy.Summary(k=5, text=True)
        again.update_many([*summary], [5, 3, 2])
        again.update(texts[2])
        self.assertEqual((again.ask(texts[2]), again["é"], texts[2] in again), ((3, 3), (5, 5), True))
        self.assertEqual([row.key for row in heavy.report(records, 9, text=True)], texts)
        summary.text = False
        self.assertEqual([*summary], [text.encode("utf-8", "surrogateescape") for text in texts])
        self.assertEqual([row.key for row in heavy.report(records, 9)], [*summary])


class Frames(unittest.TestCase):
    """Reports of the columns of a frame."""

    def setUp(self) -> None:
        if not has("pandas"):
            self.skipTest("pandas is not here")
        import pandas

        self.pandas = pandas

    def test_reports(self) -> None:
        draw = random.Random(5)
        for rows in (0, 1, 500):
            keys = [f"k{int(draw.expovariate(0.2))}" for _ in range(rows)]
            weights = [draw.randint(1, 99) for _ in range(rows)]
            frame = self.pandas.DataFrame({"client": self.pandas.Series(keys, dtype=object), "bytes": weights, "other": weights})
            frame = frame.astype({"bytes": "int64"})
            for k, threshold in ((1, None), (9, None), (9, "1/5"), (9, 0.5)):
                for weight in ("bytes", None):
                    sums = frame.groupby("client")[weight].sum() if weight else frame.groupby("client").size()
                    least = Fraction(int(sums.sum())) * (Fraction(threshold or "1/%d" % (k + 1)))
                    wanted = sorted(((-int(all), key) for key, all in sums.items() if all > least))
                    found = heavy.pandas.report(frame, "client", weight, k, threshold)
                    self.assertEqual([*found.columns], ["client", weight or "weight"])
                    self.assertEqual([*found.itertuples(index=False, name=None)], [(key, -all) for all, key in wanted])
        frame = self.pandas.DataFrame({"a": [b"x", b"y", b"x"]})
        self.assertEqual([*heavy.pandas.report(frame, "a", k=2).itertuples(index=False, name=None)], [(b"x", 2)])

    def test_several_columns(self) -> None:
        """Columns of texts are one key, and come back as columns, whatever is in them."""
        draw = random.Random(12)
        texts = ["", "a", "é", 'b"', "c,d", "e\nf", "\r", '"', ",", "g\r\nh"]
        for rows in (0, 1, 300, 3000):
            pairs = [(draw.choice(texts), draw.choice(texts[:4]), draw.randint(1, 9)) for _ in range(rows)]
            frame = self.pandas.DataFrame(pairs, columns=["host", "path", "bytes"]).astype({"bytes": "int64"})
            for kind in (object, "string", "category"):
                given = frame.astype({"host": kind, "path": object})
                for weight, k, threshold in (("bytes", 50, None), (None, 20, None), ("bytes", 30, "1/20")):
                    sums: collections.Counter[tuple[str, str]] = collections.Counter()
                    for host, path, size in pairs:
                        sums[host, path] += size if weight else 1
                    least = sum(sums.values()) * Fraction(threshold or f"1/{k + 1}")
                    wanted = {(host, path, all) for (host, path), all in sums.items() if all > least}
                    found = heavy.pandas.report(given, ["host", "path"], weight, k, threshold)
                    self.assertEqual([*found.columns], ["host", "path", weight or "weight"])
                    told = [*found.itertuples(index=False, name=None)]
                    self.assertEqual((len(told), {*told}), (len(wanted), wanted))
                    self.assertEqual([row[2] for row in told], sorted((row[2] for row in told), reverse=True))
        three = self.pandas.DataFrame([("a", "b", "c")] * 2 + [("a", "b", "d")], columns=[*"xyz"])
        self.assertEqual(heavy.pandas.report(three, [*"xyz"], k=2).values.tolist(), [["a", "b", "c", 2]])
        self.assertEqual(heavy.pandas.report(three, ["z"], k=2).values.tolist(), [["c", 2]])

    def test_a_key_called_weight(self) -> None:
        """The column of counts has another name than those of the key."""
        frame = self.pandas.DataFrame({"weight": ["x", "x", "y"], "count": ["u", "u", "v"], "n": [1, 2, 9]})
        for key, weight, columns, rows in (
            ("weight", None, ["weight", "count"], [["x", 2]]), ("count", None, ["count", "weight"], [["u", 2]]),
            (["weight", "count"], None, ["weight", "count", "total"], [["x", "u", 2]]), ("weight", "n", ["weight", "n"], [["y", 9]]),
        ):
            found = heavy.pandas.report(frame, key, weight, 1)
            self.assertEqual(([*found.columns], found.values.tolist()), (columns, rows))

    def test_refusals(self) -> None:
        frame = self.pandas.DataFrame({"a": ["x", "y"], "b": [1, 2], "c": [0.5, 1], "d": [1, 0], "e": ["x", None]})
        for words, kind, text in (
            ((frame, "z"), KeyError, "the frame has no column 'z', but 'a', 'b'"), ((frame, "a", "z"), KeyError, "no column 'z'"),
            ((frame, "b"), TypeError, r"^keys\[0\]: .*'int64'; of numbers"), ((frame, "a", "c"), TypeError, r"^weights\[0\]: .*'float'"),
            ((frame, "a", "d"), ValueError, r"^weights\[1\]: .* not 0$"), ((frame, "e"), TypeError, r"^keys\[1\]: .*'NoneType'"),
            ((frame, "a", "b", 0), heavy.HeavyError, "^k must"), ((frame, "a", "b", 1, "1/3"), heavy.HeavyError, "^threshold must"),
            ((frame, "a", "b", 1, 0.7), ValueError, "write '7/10'"), (({"a": ["x"]}, "a"), TypeError, "DataFrame of pandas .*'dict'$"),
            ((self.pandas.DataFrame([[1, 2]], columns=["a", "a"]), "a"), KeyError, "more than one column 'a'"),
            ((frame, []), ValueError, r"^key must name a column, not \[\]$"), ((frame, ["a", "a"]), ValueError, "^key must name different columns"),
            ((frame, ["a", "z"]), KeyError, "no column 'z'"), ((frame, ["a", "e"]), TypeError, r"^keys\[1\]: column 'e' must have texts, and has no value"),
            ((frame, ["a", "b"]), TypeError, r"^keys\[0\]: column 'b' must have texts, not 'int'; of numbers give their texts"),
            ((self.pandas.DataFrame({"a": ["x", "x" * 4095], "b": ["", "y"]}), ["a", "b"]), ValueError, r"^keys\[1\]: .* not 4097$"),
        ):
            self.assertRaisesRegex(kind, text, heavy.pandas.report, *words)


def loaded(part: object) -> object:
    """A part, as a worker loads it."""
    return part


class Collections(unittest.TestCase):
    """Summaries and reports of Dask's collections, by its threads; tests/engines.py has a cluster."""

    def setUp(self) -> None:
        if not has("dask", "pandas"):
            self.skipTest("dask and pandas are not here")
        import dask
        import dask.bag
        import dask.dataframe
        import pandas

        self.dask, self.pandas = dask, pandas
        draw = random.Random(17)
        self.items = [(f"k{int(draw.expovariate(0.1))}", draw.randint(1, 99)) for _ in range(900)]
        self.exact: collections.Counter[str] = collections.Counter()
        for key, weight in self.items:
            self.exact[key] += weight
        self.parts = [self.items[at : at + 75] for at in range(0, 900, 75)]

    def rows(self, k: int, share: Fraction | None = None) -> list[tuple[str, int]]:
        least = sum(self.exact.values()) * (share or Fraction(1, k + 1))
        return sorted(((key, weight) for key, weight in self.exact.items() if weight > least), key=lambda row: (-row[1], row[0]))

    def collections(self) -> list[tuple[object, ...]]:
        """The same items as collections of each kind, each with what tells its keys and weights."""
        frame = self.pandas.DataFrame(self.items, columns=["client", "bytes"])
        lines = [b"".join(b"%s,%d\n" % (key.encode(), weight) for key, weight in part) for part in self.parts]
        one = self.dask.delayed(loaded)
        counters = [collections.Counter() for _ in self.parts]
        for counter, part in zip(counters, self.parts):
            for key, weight in part:
                counter[key] += weight
        return [
            (self.dask.dataframe.from_pandas(frame, npartitions=12), "client", "bytes"),
            (self.dask.bag.from_sequence(self.items, npartitions=12), 0, 1),
            (self.dask.bag.from_sequence([{"c": key, "b": weight} for key, weight in self.items], npartitions=7), "c", "b"),
            (self.dask.bag.from_sequence(self.items, npartitions=3), lambda item: item[0], lambda item: item[1]),
            ([one(part) for part in self.parts], 0, 1), (one(self.items), 0, 1),
            ([one(self.pandas.DataFrame(part, columns=["client", "bytes"])) for part in self.parts], "client", "bytes"),
            ([one(dict(counter)) for counter in counters],), ([one(text) for text in lines],),
        ]

    def test_reports(self) -> None:
        for number, (collection, *words) in enumerate(self.collections()):
            with self.subTest(number):
                for k, threshold in ((20, None), (5, "1/4"), (1, None)):
                    text = True if number == 8 else None  # CSV's keys are bytes, if nothing is said
                    found = heavy.dask.report(collection, *words, k=k, threshold=threshold, text=text)
                    self.assertEqual(found, self.rows(k, Fraction(threshold) if threshold else None))
                summary = heavy.dask.summary(collection, *words, k=1000)
                self.assertEqual(summary.total, sum(self.exact.values()))
                self.assertEqual({row.key: row.low for row in summary.rows()}, {
                    key if number != 8 else key.encode(): weight for key, weight in self.exact.items()
                })

    def test_layouts(self) -> None:
        """Parts that are records have a layout, and a refusal names its part."""
        one, layout = self.dask.delayed(loaded), heavy.Layout(delimiter=";", header=True, decimals=1)
        with tempfile.TemporaryDirectory() as room:
            path = Path(room, "part")
            path.write_bytes(b"h;w\na;1\n")
            # of 4.5 in all a has 2.5
            parts = [one(b"h;w\na;1.5\nb;2\n"), one(path)]
            self.assertEqual(heavy.dask.report(parts, k=1, layout=layout), [(b"a", Decimal("2.5"))])
            self.assertEqual(heavy.dask.report_csv(parts, k=1, layout=layout), b"a,2.5\n")
            self.assertEqual(heavy.dask.summary(parts, k=1, layout=layout).total, 45)
            path.write_bytes(b"h;w\na;1\nb;0\n")
            for given, named in (([*parts], path), ([parts[0], one(path.read_bytes())], 1)):
                with self.assertRaisesRegex(heavy.HeavyError, "^record 2: zero weight$") as caught:
                    heavy.dask.report(given, layout=layout)
                self.assertEqual((caught.exception.part, pickle.loads(pickle.dumps(caught.exception)).part), (named, named))

    def test_counts(self) -> None:
        keys = [key for key, _ in self.items]
        counted = collections.Counter(keys)
        wanted = sorted(((key, times) for key, times in counted.items() if times > Fraction(900, 21)), key=lambda row: (-row[1], row[0]))
        series = self.dask.dataframe.from_pandas(self.pandas.Series(keys), npartitions=5)
        for given in (series, self.dask.bag.from_sequence(keys, npartitions=9)):
            self.assertEqual(heavy.dask.report(given, k=20), wanted)
        held = [key.encode() for key in keys]
        bag = self.dask.bag.from_sequence(held, npartitions=2)
        self.assertEqual(heavy.dask.report(bag, k=20), [(key.encode(), times) for key, times in wanted])
        self.assertEqual(heavy.dask.report(bag, k=20, text=True), wanted)

    def test_refusals(self) -> None:
        frame = self.pandas.DataFrame(self.items, columns=["client", "bytes"])
        frames, bag = self.dask.dataframe.from_pandas(frame, npartitions=2), self.dask.bag.from_sequence(self.items)
        one = self.dask.delayed(loaded)
        for words, kind, text in (
            ((frames,), TypeError, "key must be a column of the frame: one of 'client', 'bytes'"),
            ((frames, "z"), KeyError, "no column 'z', but 'client', 'bytes'"), ((frames, "client", "z"), KeyError, "no column 'z'"),
            ((frames, "bytes"), TypeError, r"keys\[0\]: .* of numbers"), ((bag,), TypeError, r"keys\[0\]: .*'tuple'"),
            (([one(frame)],), TypeError, "key must be a column"), (([frame], "client"), TypeError, r"^collection\[0\] must be a part"),
            (([],), ValueError, "^there is no part$"), ((bag, 0, 1, 0), heavy.HeavyError, "^k must be 1 to 65535$"),
            (([one({"a": 1, "b": 0})],), ValueError, r"weights\['b'\]"), (([one(b"a,1\nb,0\n")],), heavy.HeavyError, "record 2: zero weight"),
        ):
            for call in (heavy.dask.summary, heavy.dask.report):
                self.assertRaisesRegex(kind, text, call, *words)
        self.assertRaisesRegex(heavy.HeavyError, "^threshold must", heavy.dask.report, bag, 0, 1, 2, "1/4")
        changing = iter([["a", "b"], ["a"]])
        part = self.dask.delayed(lambda: next(changing), pure=False)()
        self.assertRaisesRegex(heavy.HeavyError, "total is not", heavy.dask.report, [part])


class Sequence:
    """A random sequence of calls on a summary and a table, beside a dictionary that is exact."""

    def __init__(self, seed: int) -> None:
        self.draw = random.Random(seed)
        self.k = self.draw.choice([1, 2, 3, 10, 100])
        self.summary, self.table = heavy.Summary(k=self.k, text=True), heavy.Table(width=8, depth=2, seed=seed)
        self.exact: collections.Counter[str] = collections.Counter()

    def items(self) -> tuple[list[str], list[int]]:
        many = self.draw.choice([0, 1, 3, 20, 20, 200])
        keys = [self.draw.choice("é,\"\n") * (number % 3) + str(number) for number in self.drawn(many)]
        return keys, [self.draw.randint(1, 9) for _ in keys]

    def drawn(self, many: int) -> list[int]:
        return [int(self.draw.expovariate(0.2)) for _ in range(many)]

    def run(self) -> None:
        calls = [self.update, self.update_many, self.mapping, self.merged, self.added, self.records, self.saved, self.refused]
        for _ in range(self.draw.randint(1, 12)):
            self.draw.choice(calls)(*self.items())
            if self.draw.random() < 0.3:
                self.check()
        self.check()

    def count(self, keys: list[str], weights: list[int]) -> None:
        for key, weight in zip(keys, weights):
            self.exact[key] += weight

    def update(self, keys: list[str], weights: list[int]) -> None:
        for key, weight in zip(keys, weights):
            self.summary.update(key, weight)
            self.table.update(key.encode(), weight)
        self.count(keys, weights)

    def update_many(self, keys: list[str], weights: list[int]) -> None:
        self.summary.update_many(iter(keys), weights)
        self.table.update_many([key.encode() for key in keys], array.array("i", weights))
        self.count(keys, weights)

    def mapping(self, keys: list[str], weights: list[int]) -> None:
        counted: collections.Counter[str] = collections.Counter()
        for key, weight in zip(keys, weights):
            counted[key] += weight
        self.summary.update_many(counted)
        self.table.update_many(counted)
        self.exact.update(counted)

    def others(self, keys: list[str], weights: list[int]) -> tuple[heavy.Summary, heavy.Table]:
        summary, table = heavy.Summary(k=self.k), self.table.copy()
        summary.update_many(keys, weights)
        table.update_many(keys, weights)
        return summary, table

    def merged(self, keys: list[str], weights: list[int]) -> None:
        summary, self.table = self.others(keys, weights)
        self.summary = self.draw.choice([lambda: self.summary + summary, lambda: heavy.merge([self.summary, summary])])()
        self.count(keys, weights)

    def added(self, keys: list[str], weights: list[int]) -> None:
        summary, self.table = self.others(keys, weights)
        if self.draw.random() < 0.5:
            self.summary += summary
        else:
            self.summary |= summary
        self.count(keys, weights)

    def records(self, keys: list[str], weights: list[int]) -> None:
        quoted = ['"%s"' % key.replace('"', '""') for key in keys]
        text = "".join(f"{key},{weight}\n" for key, weight in zip(quoted, weights)).encode()
        self.summary.update_csv(io.BytesIO(text) if self.draw.random() < 0.5 else text)
        self.table.update_csv(text)
        self.count(keys, weights)

    def saved(self, keys: list[str], weights: list[int]) -> None:
        again = self.draw.choice([
            copy.copy, copy.deepcopy, heavy.Summary.copy, lambda given: pickle.loads(pickle.dumps(given)),
            lambda given: heavy.Summary(given.to_bytes(), text=True),
        ])
        self.summary = again(self.summary)

    def refused(self, keys: list[str], weights: list[int]) -> None:
        """What is refused leaves all as it was."""
        total, largest = self.summary.total, 2**63 - 1
        for call in self.draw.sample([
            lambda: self.summary.update_many([*keys, ""], [*weights, 1]), lambda: self.summary.update_many(keys, [*weights, 1]),
            lambda: self.summary.update_many([*keys, 5]), lambda: self.summary.update("a", 0), lambda: self.summary.update(5),
            lambda: self.summary.update_csv(b"a,5\nb,0\n"), lambda: self.summary.update_many({"a": 1, "b": largest}),
            lambda: self.summary.__iadd__(heavy.Summary(k=self.k + 1)), lambda: self.summary.confirm_items(["a"], [largest - total]),
        ], 3):
            try:
                call()
            except (TypeError, ValueError):
                continue
            raise AssertionError("nothing was refused")

    def check(self) -> None:
        """What the summary and the table say is right for the exact weights."""
        total = sum(self.exact.values())
        assert self.summary.total == self.table.total == total, "totals"
        slack, rows = self.summary.slack, self.summary.rows()
        assert slack * (self.k + 1) <= total and len(rows) == len(self.summary) <= self.k, "slack"
        assert rows == sorted(rows, key=lambda row: (-row.low, row.key.encode())), "order"
        assert slack == (total - sum(row.low for row in rows)) // (self.k + 1), "the slack is what the counters lack"
        for row in rows:
            assert row.low <= self.exact[row.key] <= row.high == row.low + slack, row
        keys = [*self.exact, "nobody"]
        for key, (low, high) in zip(keys, self.summary.ask_many(keys)):
            assert low <= self.exact[key] <= high and (key in self.summary) == (low > 0), key
            assert self.table.estimate(key) >= self.exact[key], key
        del self.exact["nobody"]
        assert rows[:2] == self.summary.top(2), "top"
        heavier = [(key, weight) for key, weight in self.exact.items() if weight * (self.k + 1) > total]
        wanted = sorted(heavier, key=lambda row: (-row[1], row[0].encode()))
        assert self.summary.confirm_items(self.exact) == wanted, "confirmed"


class Threads(unittest.TestCase):
    """Random sequences of calls, by threads that each have a summary and a table of their own: some hundreds, or as many as
    the variable SEQUENCES has."""

    def test_sequences(self) -> None:
        many, failed = int(os.environ.get("SEQUENCES", "300")), []

        def work(first: int) -> None:
            for seed in range(first, many, 4):
                try:
                    Sequence(seed).run()
                except BaseException as error:
                    failed.append((seed, repr(error)))

        threads = [threading.Thread(target=work, args=(first,)) for first in range(4)]
        for thread in threads:
            thread.start()
        for thread in threads:
            thread.join()
        self.assertEqual(failed, [])


def at_once(*works: object) -> list[BaseException]:
    """What these raise, each of them run by a thread of its own, where Python changes threads as often as it can."""
    raised: list[BaseException] = []
    begun, interval = threading.Barrier(len(works)), sys.getswitchinterval()

    def run(work: object) -> None:
        begun.wait()
        try:
            work()
        except BaseException as error:
            raised.append(error)

    threads = [threading.Thread(target=run, args=(work,)) for work in works]
    sys.setswitchinterval(1e-6)
    try:
        for thread in threads:
            thread.start()
        for thread in threads:
            thread.join()
    finally:
        sys.setswitchinterval(interval)
    return raised


def times(many: int, call: object) -> object:
    """What makes a call so often."""
    return lambda: [call() for _ in range(many)]


class OneObject(unittest.TestCase):
    """One summary or table that eight threads use at once."""

    # what adds 5 of a and 3 of b
    CHANGES = {
        "update": lambda it, other: updated(it, ("a", 5), ("b", 3)),
        "update_many": lambda it, other: it.update_many(["a", "b", "a"], [1, 3, 4]),
        "update_many of a mapping": lambda it, other: it.update_many({"a": 5, "b": 3}),
        "update_many of an iterator": lambda it, other: it.update_many(iter(["a", "b"]), iter([5, 3])),
        "update_csv": lambda it, other: it.update_csv(b"a,5\nb,3\n"),
        "update_csv of a file": lambda it, other: it.update_csv(io.BytesIO(b"a,5\nb,3\n")),
        "+=": lambda it, other: it.__iadd__(other),
        "|=": lambda it, other: it.__ior__(other),
    }

    def made(self) -> list[tuple[heavy.Summary | heavy.Table, heavy.Summary | heavy.Table]]:
        """A summary and a table, each with another that has 5 of a and 3 of b."""
        return [
            (heavy.Summary(k=5), heavy.Summary.of_csv(b"a,5\nb,3\n", 5)),
            (heavy.Table(width=64), heavy.Table.of_csv(b"a,5\nb,3\n", 64)),
        ]

    def test_changes(self) -> None:
        """No change is lost, whatever call eight threads make."""
        for name, change in self.CHANGES.items():
            for file, other in self.made():
                with self.subTest(name, file=file):
                    works = [times(50, lambda: change(file, other))] * 8
                    self.assertEqual(at_once(*works), [])
                    self.assertEqual((file.total, file.ask("a")[1], file.ask("b")[1]), (3200, 2000, 1200))

    def test_other_changes(self) -> None:
        """No change is lost where eight threads make eight calls, and other threads read."""
        for file, other in self.made():
            works = [times(100, functools.partial(change, file, other)) for change in self.CHANGES.values()]
            reads = [times(100, file.to_bytes), times(100, lambda: file.ask("a")), times(100, file.copy)]
            self.assertEqual((len(works), at_once(*works, *reads)), (8, []))
            self.assertEqual((file.total, file.ask("a")[1], file.ask("b")[1]), (6400, 4000, 2400))

    def test_random_changes(self) -> None:
        """Random changes by eight threads: the totals are exact, and each weight is within its bounds."""
        for seed in range(20):
            summary, table = heavy.Summary(k=10), heavy.Table(width=8, depth=2)
            exact = [collections.Counter() for _ in range(8)]

            def work(number: int) -> None:
                draw = random.Random(f"{seed} {number}")
                for _ in range(20):
                    counted = collections.Counter(f"k{int(draw.expovariate(0.1))}" for _ in range(draw.randrange(1, 30)))
                    exact[number].update(counted)
                    self.random_change(draw, summary, table, counted)

            with self.subTest(seed):
                self.assertEqual(at_once(*(functools.partial(work, number) for number in range(8))), [])
                whole = sum(exact, collections.Counter())
                self.assertEqual((summary.total, table.total), (sum(whole.values()),) * 2)
                for key, weight in whole.items():
                    low, high = summary.ask(key)
                    self.assertTrue(low <= weight <= high and table.estimate(key) >= weight, key)

    def random_change(
        self, draw: random.Random, summary: heavy.Summary, table: heavy.Table, counted: collections.Counter[str]
    ) -> None:
        """Adds what was counted to both, in one of the ways."""
        way = draw.randrange(4)
        for file, other in ((summary, heavy.Summary(k=10)), (table, heavy.Table(width=8, depth=2))):
            if way == 0:
                updated(file, *counted.items())
            elif way == 1:
                file.update_many(counted)
            elif way == 2:
                file.update_csv("".join(f"{key},{weight}\n" for key, weight in counted.items()).encode())
            else:
                other.update_many(counted)
                file += other

    def test_two_objects(self) -> None:
        """`a += b` beside `b += a` gives what one after the other gives, in some order, and no two wait for each other."""
        for make in (lambda: heavy.Summary.of_csv(b"a\n", 3), lambda: heavy.Table.of_csv(b"a\n", 8, 2)):
            for _ in range(5):
                first, second = make(), make()
                works = [times(5, lambda: first.__iadd__(second))] * 4 + [times(5, lambda: second.__iadd__(first))] * 4
                self.assertEqual(at_once(*works), [])
                # the larger total is that of the last change: taken back step by step, both begin with 1
                one, two, taken = first.total, second.total, [0, 0]
                while one != two:
                    taken[one < two] += 1
                    one, two = (one - two, two) if one > two else (one, two - one)
                self.assertEqual((one, two, taken), (1, 1, [20, 20]))

    def test_itself(self) -> None:
        """`a += a` doubles it, by one thread and by eight."""
        for file in (heavy.Summary.of_csv(b"a,3\n", 3), heavy.Table.of_csv(b"a,3\n", 8, 2)):
            file += file
            self.assertEqual((file.total, heavy.merge(file, file).total, (file + file).total, file == file), (6, 12, 12, True))
            self.assertEqual(at_once(*[times(4, lambda: file.__iadd__(file))] * 8), [])
            self.assertEqual((file.total, file.ask("a")[1]), (6 * 2**32, 6 * 2**32))

    def test_two_at_one_time(self) -> None:
        """A merge has its files as they are at one time."""
        twice = {key: heavy.Summary.of_csv(f"{key},2\n".encode(), 3) for key in "ab"}

        def ahead(file: heavy.Summary) -> int:
            return file.ask("a")[0] - file.ask("b")[0]

        for name, change in {
            "update": lambda it, key: it.update(key, 2), "update_many": lambda it, key: it.update_many([key, key]),
            "update_many of one": lambda it, key: it.update_many([key], [2]), "update_csv": lambda it, key: it.update_csv(f"{key},2\n".encode()),
            "+=": lambda it, key: it.__iadd__(twice[key]),
        }.items():
            first, second, found = heavy.Summary(k=3), heavy.Summary(k=3), set()
            add = [times(1000, lambda: (change(first, "a"), change(second, "b")))]
            reads = [lambda: found.add(ahead(heavy.merge(second, first))), lambda: found.add(ahead(first + second))] * 2
            with self.subTest(name):
                self.assertEqual(at_once(*add, *(times(400, read) for read in reads)), [])
                # a is added first, so that it is ahead by what one call adds or by nothing
                self.assertTrue(found <= {0, 2}, found)
                self.assertEqual((ahead(first + second), first.total, second.total), (0, 2000, 2000))

    def test_values_are_set_under_the_mutex(self) -> None:
        """A value is set while no other thread reads several objects at one time: each read holds their mutexes."""
        for kind in (heavy.Summary, heavy.Table):
            set_: list[bool] = []

            class Watched(kind):
                def __setattr__(self, name: str, value: object) -> None:
                    if name == "_value" and "_lock" in self.__dict__:
                        thread = threading.Thread(target=self.look)
                        thread.start()
                        thread.join()
                    super().__setattr__(name, value)

                def look(self) -> None:
                    set_.append(self._lock.mutex.acquire(blocking=False))
                    if set_[-1]:
                        self._lock.mutex.release()

            other = Watched(kind.of_csv(b"a,5\nb,3\n").to_bytes())
            for name, change in self.CHANGES.items():
                set_.clear()
                with self.subTest(name):
                    change(Watched(), other)
                    self.assertEqual((len(set_) > 0, any(set_)), (True, False))

    READS = {
        "rows": lambda it: {row.key: row.low for row in it.rows()},
        "items": lambda it: {key: found.low for key, found in it.items()},
        "entries": lambda it: dict(it.entries()),
        "top": lambda it: {row.key: row.low for row in it.top(3)},
        "list_csv": lambda it: {row.key: row.weight for row in heavy._records.rows_of(re.sub(b",[0-9]+\n", b"\n", it.list_csv()), True)},
        "ask_many": lambda it: dict(zip("abc", (low for low, _ in it.ask_many([*"abc"])))),
        "to_bytes": lambda it: dict(heavy.Summary(it.to_bytes(), text=True).entries()),
        "copy": lambda it: dict(it.copy().entries()),
        "deepcopy": lambda it: dict(copy.deepcopy(it).entries()),
        "pickle": lambda it: dict(pickle.loads(pickle.dumps(it)).entries()),
        "sum": lambda it: dict(sum([it]).entries()),
        "merge": lambda it: dict(heavy.merge(it).entries()),
    }

    def test_reads(self) -> None:
        """Each read finds what was there between two changes: as many of a as of b, which are added together."""
        for name, read in self.READS.items():
            summary = heavy.Summary(k=5, text=True)
            summary.update_many({"a": 1, "b": 1, "c": 1})
            wrong: list[object] = []

            def look() -> None:
                found = read(summary)
                if found["a"] != found["b"] or not 1 <= found["c"] <= 301:
                    wrong.append(found)

            works = [times(50, lambda: summary.update_many({"a": 1, "b": 1}))] * 3 + [times(100, lambda: summary.update("c"))] * 3
            with self.subTest(name):
                self.assertEqual((at_once(*works, *[times(50, look)] * 2), wrong), ([], []))
                self.assertEqual(read(summary), {"a": 151, "b": 151, "c": 301})

    def test_numbers_that_belong_together(self) -> None:
        """What a read says of a summary in several numbers is of one time."""
        summary, table = heavy.Summary(k=5, text=True), heavy.Table(width=8)
        for file in (summary, table):
            file.update_many({"a": 1, "b": 1})
        wrong: list[object] = []

        def look() -> None:
            told, cells = summary.describe(), repr(table)
            if told.counters != told.total or told.total % 2 or told.keys != 2 or not re.fullmatch(r".* total=\d*[02468]>", cells):
                wrong.append((told, cells))
            # neither is above a half; one would be, were the total older than the rows
            if summary.heavy_hitters("1/2", certain=True) or len(summary.heavy_hitters("1/4", certain=False)) != 2:
                wrong.append(summary.rows())
            if re.fullmatch(r"<heavy.Summary k=5 total=\d*[02468] keys=2 slack=0>", repr(summary)) is None:
                wrong.append(repr(summary))

        works = [times(100, lambda: [file.update_many({"a": 1, "b": 1}) for file in (summary, table)])] * 4
        self.assertEqual((at_once(*works, *[times(100, look)] * 4), wrong), ([], []))
        self.assertEqual((summary.total, table.total), (802, 802))


class Asking:
    """A file of records that makes a call each time it is read."""

    def __init__(self, call: object) -> None:
        self.call, self.held = call, io.BytesIO(b"a,5\nb,3\n")

    def read(self, size: int) -> bytes:
        self.call()
        return self.held.read(size)


class LongChanges(unittest.TestCase):
    """A change that reads a file while other calls come."""

    def test_reads_go_on(self) -> None:
        """While a file is read other threads find what was there before, and a copy may be changed."""
        for file in (heavy.Summary.of_csv(b"z,9\n", 5), updated(heavy.Summary(k=5), ("z", 9)), heavy.Table.of_csv(b"z,9\n", 64)):
            found: list[object] = []

            def look() -> None:
                found.append((file.total, file.ask("a")[1], updated(file.copy(), ("z", 1)).total, (file + file).total, file == file))

            def ask() -> None:
                thread = threading.Thread(target=look)
                thread.start()
                thread.join()
                look()

            file.update_csv(Asking(ask))
            self.assertGreater(len(found), 3)
            self.assertEqual(set(found), {(9, 0, 10, 18, True)})
            self.assertEqual((file.total, file.ask("a")[1], file.ask("b")[1]), (17, 5, 3))

    def test_other_changes_wait(self) -> None:
        """A change by another thread is made once the file was read, and is not lost."""
        for make in (lambda: heavy.Summary(k=5), lambda: heavy.Table(width=64)):
            for change, added in (
                (lambda it: it.update("z"), 1), (lambda it: it.update_many(["z", "z"]), 2), (lambda it: it.update_csv(b"z,7\n"), 7),
                (lambda it: it.__iadd__(updated(make(), ("z", 4))), 4), (lambda it: updated(make(), ("z", 4)).__iadd__(it), 0),
            ):
                file, threads = make(), []

                def begin() -> None:
                    if not threads:
                        threads.append(threading.Thread(target=change, args=(file,)))
                        threads[0].start()

                file.update_csv(Asking(begin))
                threads[0].join()
                self.assertEqual((file.total, file.ask("z")[1], file.ask("a")[1]), (8 + added, added, 5))

    def test_a_change_within_one(self) -> None:
        """A change within another of the same object, by one thread, is refused, and the object is as it was and can be changed."""
        for make in (lambda: heavy.Summary(k=5), lambda: heavy.Table(width=64)):
            for change in (
                lambda it: it.update("z"), lambda it: it.update_many(["z"]), lambda it: it.update_csv(b"z\n"),
                lambda it: it.__iadd__(make()), lambda it: make().__iadd__(it), lambda it: it.__iadd__(it),
            ):
                file = updated(make(), ("y", 2))
                text = "^this thread is changing the object already; change it again once that call is done$"
                self.assertRaisesRegex(RuntimeError, text, file.update_csv, Asking(lambda: change(file)))
                self.assertEqual((file.total, updated(file, ("y", 3)).total), (2, 5))
                call = heavy._library.calls.heavy_update
                with mock.patch.object(heavy._library.calls, "heavy_update", lambda *words: [change(file), call(*words)][1]):
                    self.assertRaisesRegex(RuntimeError, text, file.update, "y")
                self.assertEqual((file.total, updated(file, ("y", 3)).total), (5, 8))

    def test_interrupts(self) -> None:
        """What a file's read raises leaves the object as it was, for other calls to change."""
        def interrupt() -> None:
            raise KeyboardInterrupt

        for file in (updated(heavy.Summary(k=5), ("y", 2)), updated(heavy.Table(width=64), ("y", 2))):
            for call in (lambda: file.update_csv(Asking(interrupt)), lambda: file.update_many(map(lambda key: interrupt(), "ab"))):
                self.assertRaises(KeyboardInterrupt, call)
            self.assertEqual(at_once(*[lambda: file.update("y")] * 8), [])
            self.assertEqual((file.total, file.ask("y")[1]), (10, 10))

    def test_items_may_ask(self) -> None:
        """Keys and weights are taken before anything is changed, so an iterable of them may use the same object."""
        for file in (heavy.Summary(k=5), heavy.Table(width=64)):
            def keys() -> object:
                for key in "ab":
                    file.update("z")
                    yield f"{key}{file.total}"

            file.update_many(keys(), (file.total for _ in "ab"))
            # z twice, and then a1 and b2, each of a weight that is the total then
            self.assertEqual([file.ask(key)[1] for key in ("z", "a1", "b2")], [2, 2, 2])
            self.assertEqual(file.total, 6)

    def test_columns_beside_others(self) -> None:
        """Equal keys of a column are one item only where no counter is lowered, also where others take the room meanwhile."""
        if not has("pandas"):
            self.skipTest("pandas is not here")
        import pandas

        texts = [*"abc"] * 400 + ["a"] * 100
        column = pandas.Series(texts, dtype=object)
        for others, room in ((0, 3), (1, 3), (2, 3), (3, 3)):
            summary, items_of = heavy.Summary(k=3), heavy._files.items_of

            def taken(*words: object) -> object:
                found = items_of(*words)
                with mock.patch.object(heavy._files, "items_of", items_of):
                    if summary.total < others:
                        summary.update_many([f"x{number}" for number in range(others)])
                return found

            with mock.patch.object(heavy._files, "items_of", taken):
                summary.update_many(column)
            items = [*((f"x{number}", 1) for number in range(others)), *((text, 1) for text in texts)]
            self.assertEqual(summary.entries(), counted_by_hand(items, 3))

    def test_saves(self) -> None:
        """Eight threads save and load one path: each load is whole, and the rights of the file are those that the process gives."""
        with tempfile.TemporaryDirectory() as room:
            path = Path(room, "saved")
            summary = heavy.Summary.of_csv(RECORDS, 2)
            summary.save(path)
            found: list[object] = []
            works = [times(30, lambda: summary.save(path))] * 4 + [times(30, lambda: found.append(heavy.Summary.load(path).entries()))] * 4
            self.assertEqual(at_once(*works), [])
            self.assertEqual((len(found), [rows for rows in found if rows != [(b"a", 4), (b"b", 1)]]), (120, []))
            self.assertEqual(os.listdir(room), ["saved"])
            before = os.umask(0o027)
            try:
                with mock.patch.object(os, "umask", side_effect=AssertionError):  # it is one for all threads
                    summary.save(path)
            finally:
                os.umask(before)
            self.assertEqual(path.stat().st_mode & 0o777, 0o640)


class GrowingTables(unittest.TestCase):
    """Tables that begin empty and grow by items."""

    def test_empty(self) -> None:
        for table, width, depth, seed in (
            (heavy.Table(), 1024, 4, 0), (heavy.Table(width=7, depth=2, seed=9), 7, 2, 9), (heavy.Table(depth=16), 1024, 16, 0),
        ):
            self.assertEqual((table.width, table.depth, table.total, table.estimate("a")), (width, depth, 0, 0))
            words = ("--width", str(width), "--depth", str(depth), "--seed", str(seed))
            self.assertEqual(table.to_bytes(), program("table", *words).stdout)
        for named, text in (({"depth": 0, "width": 0}, "depth"), ({"depth": 17}, "depth"), ({"width": 65537}, "width")):
            self.assertRaisesRegex(heavy.HeavyError, f"^{text} must be", heavy.Table, **named)
        for words, named in (((), {"width": 2.0}), ((None,), {}), ((b"",), {"width": 5}), ((b"",), {"seed": 0})):
            self.assertRaises(TypeError, heavy.Table, *words, **named)

    def test_items(self) -> None:
        table = heavy.Table(width=8, depth=3)
        table.update("a", 5)
        table.update_many(["b", b"c"], [3, 2])
        table.update("a")
        self.assertEqual(table, heavy.Table.of_csv(RECORDS, 8, 3))
        self.assertEqual((table.total, repr(table)), (11, "<heavy.Table width=8 depth=3 total=11>"))
        for keys, weights, kind in ((["a", ""], None, ValueError), (["a"], [2**63 - 11], heavy.HeavyError)):
            self.assertRaises(kind, table.update_many, keys, weights)
            self.assertRaises(kind, table.update, keys[-1], weights and weights[0] or 1)
        self.assertEqual(table, heavy.Table.of_csv(RECORDS, 8, 3))
        table += heavy.Table.of_csv(OTHERS, 8, 3)
        self.assertEqual(table, heavy.Table.of_csv(RECORDS + OTHERS, 8, 3))
        with self.assertRaises(TypeError):
            table += heavy.Summary()
        self.assertNotEqual(heavy.Table(), heavy.Summary())

    def test_beside_a_dictionary(self) -> None:
        """100 random sequences of calls: no estimate is below the exact weight, and the bytes are the program's."""
        for seed in range(100):
            drawn, exact = random.Random(seed), {}
            table = heavy.Table(width=8, depth=2, seed=seed)
            for _ in range(drawn.randint(1, 20)):
                items = [(b"%d" % int(drawn.expovariate(0.2)), drawn.randint(1, 9)) for _ in range(drawn.randint(0, 9))]
                other = table if drawn.random() < 0.5 else heavy.Table(width=8, depth=2, seed=seed)
                other.update_many([key for key, _ in items], [weight for _, weight in items])
                table = table if other is table else heavy.merge(table, other)
                for key, weight in items:
                    exact[key] = exact.get(key, 0) + weight
            records = b"".join(b"%s,%d\n" % item for item in exact.items())
            self.assertEqual(table, heavy.Table.of_csv(records, 8, 2, seed))
            for key, weight in exact.items():
                self.assertGreaterEqual(table.estimate(key), weight)


class Sizes(unittest.TestCase):
    """Summaries and tables by the error that is wanted, windows, and what a notebook shows."""

    def test_summaries(self) -> None:
        """k is the least whose k + 1 times the error is at least the whole, so that no slack is above that share of the total."""
        for error, k in (
            ("1/1000", 999), ("0.1%", 999), ("0.001", 999), ((1, 1000), 999), (Fraction(1, 1000), 999), (Decimal("0.001"), 999),
            ("1/3", 2), ("2/5", 2), ("3/7", 2), (0.5, 1), (0.25, 3), (1, 1), ("1/1", 1), ("3/4", 1), ("1/65536", 65535),
            # a float below a third wants one counter more, since it is just that number
            (1 / 3, 3), *((kind(0.25), 3) for kind in reals()),
        ):
            made = heavy.Summary.for_error(error, text=True)
            self.assertEqual((made.k, made.total, made.text, heavy.Summary.for_error(error).text), (k, 0, True, False), error)
        draw = random.Random(5)
        for error in ("1/7", "3/20", "1/50"):
            summary = heavy.Summary.for_error(error)
            summary.update_many(f"k{int(draw.expovariate(0.02))}" for _ in range(3000))
            self.assertTrue(0 < summary.slack <= Fraction(error) * 3000, error)
        self.assertRaisesRegex(ValueError, "^an error of 1/65537 wants a k of 65536, and the largest is 65535$", heavy.Summary.for_error, "1/65537")

    def test_tables(self) -> None:
        # e is 2.71828, and of the logarithms that of 10 is 2.30259, of 100 4.60517 and of e 1
        for error, chance, width, depth in (
            ("1/100", "1/100", 272, 5), ("1%", "10%", 272, 3), (0.5, 0.5, 6, 1), (1, 1, 3, 1), ("1/10", "1/1000000", 28, 14),
            ("1/24109", "1/3", 65536, 2), (Decimal("0.01"), Fraction(1, 100), 272, 5),
        ):
            made = heavy.Table.for_error(error, chance, seed=7)
            self.assertEqual((made.width, made.depth, made), (width, depth, heavy.Table(width=width, depth=depth, seed=7)))
        for width, error in ((1, 2.718281828), (1000, 0.002718281828), (65536, 0.00004147769)):
            self.assertAlmostEqual(heavy.Table(width=width).error, error, 9)
        for words, text in (
            (("1/24110", "1/3"), "^an error of 1/24110 wants a width of 65538, and the largest is 65536$"),
            (("1/10", "1/10000000"), "^a chance of 1/10000000 wants a depth of 17, and the largest is 16$"),
        ):
            self.assertRaisesRegex(ValueError, text, heavy.Table.for_error, *words)

    def test_estimates(self) -> None:
        """Of the estimates of 3,000 keys a few are too high at the most, as the textbook has it."""
        draw = random.Random(15)
        exact = collections.Counter(f"k{int(draw.expovariate(0.002))}" for _ in range(20_000))
        table = heavy.Table.for_error("1/100", "1/100", seed=3)
        table.update_many(exact)
        above = [key for key, weight in exact.items() if table.estimate(key) - weight > 200]
        self.assertTrue(len(exact) > 1000 and len(above) <= len(exact) / 100, above)

    def test_refusals(self) -> None:
        for share in (0, 0.0, -0.5, 1.5, 2, "2/1", "0/5", "0", (0, 5), (2, 1), (1, 0), "1/0", float("nan"), float("inf"), None, True, [1, 2], b"1/2"):
            for call, name in (
                (heavy.Summary.for_error, "error"), (lambda it: heavy.Table.for_error(it, "1/2"), "error"),
                (lambda it: heavy.Table.for_error("1/2", it), "chance"),
            ):
                text = f"^{name} must be a share above 0 and at most 1, as '1/1000', not {re.escape(repr(share))}$"
                self.assertRaisesRegex(ValueError, text, call, share)
        self.assertRaisesRegex(ValueError, "^the error is a text as '1/4', '0.25' or '25%', not 'a tenth'$", heavy.Summary.for_error, "a tenth")

    def test_windows(self) -> None:
        """A window has the items of its last buckets, beside a list of Counters."""
        draw = random.Random(60)
        for buckets in (1, 2, 5):
            window, counted = heavy.Window(k=30, buckets=buckets, text=True), [collections.Counter()]
            for _ in range(200):
                keys = [f"k{draw.randrange(20)}" for _ in range(draw.randrange(9))]
                if draw.random() < 0.3:
                    window.roll()
                    counted = [*counted, collections.Counter()][-buckets:]
                window.update_many(draw.choice([keys, iter(keys)]))
                window.update("k0", 3)
                counted[-1].update([*keys, "k0", "k0", "k0"])
                whole = sum(counted, collections.Counter())
                self.assertEqual({key: found.low for key, found in window.merged().items()}, whole)
                self.assertEqual((window.merged().total, len(window), window.buckets, window.k), (sum(whole.values()), len(counted), buckets, 30))
        window.update_many(["z", "y"], [5, 0], skip_zero=True)
        again = pickle.loads(pickle.dumps(window))
        for made in (again, copy.copy(window), copy.deepcopy(window)):
            made.update("z")
            made.roll()
            self.assertEqual((window.merged().ask("z"), made.merged().ask("z")), ((5, 5), (6, 6)))
        self.assertEqual(repr(heavy.Window(k=3, buckets=2)), "<heavy.Window k=3 buckets=2 total=0>")
        self.assertTrue(window)
        for words, kind, text in (
            ({"buckets": 0}, ValueError, "^buckets must be at least 1, not 0$"), ({"buckets": 2.0}, TypeError, "^buckets must be an integer"),
            ({"k": 0}, heavy.HeavyError, "^k must be 1 to 65535$"),
        ):
            self.assertRaisesRegex(kind, text, lambda: heavy.Window(**words))

    def test_the_bound_of_windows(self) -> None:
        """The slack of what is merged is at most the total divided by k + 1, and each weight is within its bounds."""
        draw, window, counted = random.Random(61), heavy.Window(k=9, buckets=4, text=True), [collections.Counter()]
        for _ in range(60):
            keys = [f"k{int(draw.expovariate(0.05))}" for _ in range(100)]
            window.roll()
            window.update_many(keys)
            counted = [*counted, collections.Counter(keys)][-4:]
            whole, merged = sum(counted, collections.Counter()), window.merged()
            self.assertTrue(0 < merged.slack * 10 <= sum(whole.values()) == merged.total)
            for key, weight in whole.items():
                low, high = merged.ask(key)
                self.assertTrue(low <= weight <= high)

    def test_windows_of_threads(self) -> None:
        """No item is lost where eight threads add to a window, some roll it and others ask."""
        window = heavy.Window(k=9, buckets=1000)
        works = [times(50, lambda: window.update("a", 2))] * 4 + [times(50, lambda: window.update_many(["a", "b"]))] * 4
        self.assertEqual(at_once(*works, *[times(20, window.roll)] * 3, times(20, window.merged)), [])
        self.assertEqual((window.merged().ask("a"), window.merged().ask("b"), len(window)), ((600, 600), (200, 200), 61))

    def test_notebooks(self) -> None:
        head = "<thead><tr><th>key</th><th>low</th><th>high</th></tr></thead>"
        for given, text, wanted in (
            (b"<b>&,5\n\xff,3\n", False,
             f"<table><caption>heavy.Summary k=100 total=8 keys=2 slack=0</caption>{head}<tbody><tr><td>&lt;b&gt;&amp;</td><td>5</td><td>5</td></tr>"
             "<tr><td>\\xff</td><td>3</td><td>3</td></tr></tbody></table>"),
            ("é,1\n".encode(), True, f"<table><caption>heavy.Summary k=100 total=1 keys=1 slack=0</caption>{head}"
             "<tbody><tr><td>é</td><td>1</td><td>1</td></tr></tbody></table>"),
        ):
            self.assertEqual(heavy.Summary.of_csv(given, text=text)._repr_html_(), wanted)
        shown = heavy.Summary.of_csv(b"".join(b"k%d,%d\n" % (number, 100 - number) for number in range(21)))._repr_html_()
        self.assertIn("keys=21, the first 20 of them slack=0</caption>", shown)
        self.assertEqual((shown.count("<tr>"), "<td>k19</td>" in shown, "<td>k20</td>" in shown), (21, True, False))
        self.assertEqual(heavy.Summary(b"HHS")._repr_html_(), "<p>&lt;heavy.Summary file 1: truncated&gt;</p>")


class Arrow:
    """An array as Arrow's C interface gives it, from buffers that this object keeps."""

    def __init__(self, letter: bytes, length: int, *buffers: bytes | None, offset: int = 0, nulls: int = 0) -> None:
        self.held = [None if it is None else ctypes.create_string_buffer(it, len(it)) for it in buffers]
        places = (ctypes.c_void_p * len(buffers))(*(it and ctypes.addressof(it) for it in self.held))
        self.array = heavy._columns._ArrowArray(length=length, null_count=nulls, offset=offset, n_buffers=len(buffers), buffers=places)
        self.schema = heavy._columns._ArrowSchema(format=letter)

    def __arrow_c_array__(self, requested: object = None) -> tuple[object, object]:
        made = ctypes.pythonapi.PyCapsule_New
        made.restype, made.argtypes = ctypes.py_object, [ctypes.c_void_p, ctypes.c_char_p, ctypes.c_void_p]
        return (
            made(ctypes.addressof(self.schema), b"arrow_schema", None), made(ctypes.addressof(self.array), b"arrow_array", None)
        )


class ArrowStream:
    """Arrays one behind the other, as Arrow's C interface for streams gives them."""

    def __init__(self, *arrays: Arrow, fails: bool = False) -> None:
        kinds, freed = heavy._columns, ctypes.CFUNCTYPE(None, ctypes.c_void_p)
        self.arrays, self.left, self.held = arrays, [*arrays], 0
        self.frees = [freed(lambda place: self.free(kinds._ArrowSchema, place)), freed(lambda place: self.free(kinds._ArrowArray, place))]

        def schema(_: object, out: object) -> int:
            self.fill(out, arrays[0].schema if arrays else kinds._ArrowSchema(format=b"u"), self.frees[0])
            return 0

        def following(_: object, out: object) -> int:
            if fails and len(self.left) == 1:
                return 5
            if self.left:
                self.fill(out, self.left.pop(0).array, self.frees[1])
            return 0

        fields = dict(kinds._ArrowStream._fields_)
        self.stream = kinds._ArrowStream(fields["get_schema"](schema), fields["get_next"](following))

    def fill(self, out: object, given: object, free: object) -> None:
        ctypes.memmove(out, ctypes.addressof(given), ctypes.sizeof(given))
        out.contents.release = ctypes.cast(free, ctypes.c_void_p).value
        self.held += 1

    def free(self, kind: type, place: int) -> None:
        kind.from_address(place).release = None
        self.held -= 1

    def __arrow_c_stream__(self, requested: object = None) -> object:
        made = ctypes.pythonapi.PyCapsule_New
        made.restype, made.argtypes = ctypes.py_object, [ctypes.c_void_p, ctypes.c_char_p, ctypes.c_void_p]
        return made(ctypes.addressof(self.stream), b"arrow_array_stream", None)


def packed(code: str, *numbers: int) -> bytes:
    return array.array(code, numbers).tobytes()


class Arrays(unittest.TestCase):
    """Arrays of other libraries, which are handed over whole."""

    def given(self, keys: object, weights: object = None) -> list[tuple[bytes, int]]:
        summary = heavy.Summary(k=9)
        summary.update_many(keys, weights)
        return summary.entries()

    def refused(self, kind: type[Exception], text: str, keys: object, weights: object = None) -> None:
        summary = heavy.Summary.of_csv(RECORDS, 2)
        self.assertRaisesRegex(kind, text, summary.update_many, keys, weights)
        self.assertEqual((summary, summary.total), (heavy.Summary.of_csv(RECORDS, 2), 11))

    def test_arrow(self) -> None:
        for many in (1, 2, 1 << 20):
            with mock.patch.object(heavy._files, "_COLUMN_BATCH", many):
                for letter, code in ((b"u", "i"), (b"z", "i"), (b"U", "q"), (b"Z", "q")):
                    keys = Arrow(letter, 3, None, packed(code, 0, 2, 3, 6), b"abcabc")
                    self.assertEqual(self.given(keys), [(b"ab", 1), (b"abc", 1), (b"c", 1)])
                    self.assertEqual(self.given(keys, [5, 3, 2]), [(b"ab", 5), (b"abc", 2), (b"c", 3)])
                    part = Arrow(letter, 2, None, packed(code, 0, 2, 3, 6), b"abcabc", offset=1)
                    self.assertEqual(self.given(part, [5, 3]), [(b"abc", 3), (b"c", 5)])
        self.assertEqual(self.given(Arrow(b"u", 0, None, None, None)), [])
        for letter, code in ((b"c", "b"), (b"S", "H"), (b"i", "i"), (b"l", "q"), (b"L", "Q")):
            weights = Arrow(letter, 2, None, packed(code, 7, 5, 3), offset=1)
            self.assertEqual(self.given(["a", "b"], weights), [(b"a", 5), (b"b", 3)])

    def test_streams_of_arrow(self) -> None:
        texts = [Arrow(b"u", 2, None, packed("i", 0, 2, 3), b"abc"), Arrow(b"u", 0, None, None, None),
                 Arrow(b"u", 2, None, packed("i", 0, 2, 3, 6), b"abcabc", offset=1)]
        numbers = [Arrow(b"l", 1, None, packed("q", 5)), Arrow(b"l", 3, None, packed("q", 3, 2, 1))]
        keys, weights = ArrowStream(*texts), ArrowStream(*numbers)
        self.assertEqual(self.given(keys, weights), [(b"ab", 5), (b"abc", 1), (b"c", 5)])
        self.assertEqual((keys.held, weights.held), (0, 0))
        self.assertEqual(self.given(ArrowStream()), [])
        self.assertEqual(self.given(ArrowStream(texts[0])), [(b"ab", 1), (b"c", 1)])
        for failing in (ArrowStream(*texts, fails=True), ArrowStream(Arrow(b"l", 1, None, packed("q", 1)))):
            self.refused((ValueError, TypeError), "stream of Arrow could not be read|Arrow's 'l'", failing)
            self.assertEqual(failing.held, 0)

    def test_other_texts_of_arrow(self) -> None:
        """Views of texts, and texts with a dictionary, are taken value by value, as their library gives them."""

        class Views(ArrowStream):
            def __iter__(self) -> object:
                return iter(["ab", "c", "ab"])

        class Values(Arrow):
            def to_pylist(self) -> list[str]:
                return ["ab", "c", "ab"]

            def __iter__(self) -> object:
                raise AssertionError("it is not iterated")

        views = Views(Arrow(b"vu", 3, None))
        for given in (views, Values(b"vz", 3, None)):
            self.assertEqual(self.given(given, [5, 3, 2]), [(b"ab", 7), (b"c", 3)])
        self.assertEqual(views.held, 0)

    def test_column_of_arrow(self) -> None:
        """A column of pandas whose texts are pyarrow's is handed over by Arrow's interface."""

        class Column:
            """A column of texts that are pyarrow's."""

            __module__ = "pandas.core.series"
            dtype = types.SimpleNamespace(storage="pyarrow")

            def __arrow_array__(self) -> object:
                return ArrowStream(Arrow(b"U", 2, None, packed("q", 0, 2, 3), b"abc"))

            def __iter__(self) -> object:
                raise AssertionError("it is not iterated")

        class Within(Column):
            __module__ = "pandas.core.series"
            dtype = types.SimpleNamespace(pyarrow_dtype="string")
            array, __arrow_array__ = Column(), None

        class Other(Column):
            """A column that isn't pyarrow's, which gives an Arrow interface only where pyarrow is there."""

            __module__ = "pandas.core.series"
            dtype = types.SimpleNamespace(storage="python")

            def __arrow_c_stream__(self) -> object:
                raise ImportError("pyarrow is not here")

            def __iter__(self) -> object:
                return iter(["ab", "c"])

        for column in (Column(), Within(), Other()):
            self.assertEqual(self.given(column, [5, 3]), [(b"ab", 5), (b"c", 3)])

    def test_refused_arrow(self) -> None:
        texts = packed("i", 0, 1, 2, 3), b"abc"
        # of the places 1, 2 and 3 the third has no value
        self.refused(TypeError, r"^keys\[1\]: .*null", Arrow(b"u", 2, b"\x03", *texts, offset=1, nulls=1))
        self.refused(TypeError, r"^keys\[1\]: .*null", Arrow(b"u", 2, b"\x03", *texts, offset=1, nulls=-1))
        self.assertEqual(self.given(Arrow(b"u", 2, b"\x06", *texts, offset=1, nulls=-1)), [(b"b", 1), (b"c", 1)])
        self.refused(ValueError, r"^keys\[1\]: .* not 0$", Arrow(b"u", 3, None, packed("i", 0, 1, 1, 2), b"ab"))
        self.refused(ValueError, r"^keys\[0\]: .* not 4097$", Arrow(b"u", 1, None, packed("i", 0, 4097), b"x" * 4097))
        self.refused(TypeError, "Arrow's 'l'; of numbers give their texts$", Arrow(b"l", 1, None, packed("q", 1)))
        self.refused(TypeError, "Arrow's 'g'", ["a"], Arrow(b"g", 1, None, b"\0" * 8))
        self.refused(TypeError, r"^weights\[0\]: .*null", ["a"], Arrow(b"l", 1, b"\0", packed("q", 1), nulls=1))
        self.refused(ValueError, r"^weights\[1\]: .* not -1$", ["a", "b"], Arrow(b"l", 2, None, packed("q", 1, -1)))
        self.refused(ValueError, "fewer weights", ["a", "b"], Arrow(b"l", 1, None, packed("q", 1)))

    def test_numpy(self) -> None:
        try:
            import numpy
        except ImportError:
            self.skipTest("numpy is not here")
        for kind in ("S3", "S9", object):
            keys = numpy.array([b"ab", b"c", b"abc", b"c"], dtype=kind)
            self.assertEqual(self.given(keys), [(b"ab", 1), (b"abc", 1), (b"c", 2)])
            self.assertEqual(self.given(keys[::-2], numpy.array([5, 3])), [(b"c", 8)])
        self.assertEqual(self.given(numpy.array([b"a\0b", b"cd\0"])), [(b"a\0b", 1), (b"cd", 1)])
        self.assertEqual(self.given(numpy.array([b"\0b", b"cd", b"e"])), [(b"\0b", 1), (b"cd", 1), (b"e", 1)])
        self.refused(ValueError, r"^keys\[0\]: .* not 0$", numpy.array([b""]))
        self.refused(ValueError, r"^keys\[1\]: .* not 4097$", numpy.array([b"a", b"x" * 4097]))
        self.assertEqual(self.given(numpy.array(["é", "z"])), [(b"z", 1), ("é".encode(), 1)])
        for kind in ("i1", "u2", "<i4", ">i8", "u8"):
            self.assertEqual(self.given(["a", "b"], numpy.array([5, 3], dtype=kind)), [(b"a", 5), (b"b", 3)])
        self.assertEqual(self.given(numpy.array([], dtype="S3"), numpy.array([], dtype="i8")), [])
        for keys, weights, kind, text in (
            (numpy.array([b"a", b""]), None, ValueError, r"^keys\[1\]: .* not 0$"),
            (numpy.array([1, 2]), None, TypeError, r"^keys\[0\]: .* not 'int64'; of numbers give keys.astype\(str\)$"),
            (numpy.array([0.5]), None, TypeError, r"^keys\[0\]: .* not 'float64'; of numbers give keys.astype\(str\)$"),
            (numpy.array([[b"a"], [b"b"]]), None, TypeError, r"^keys\[0\]: .*'ndarray'"),
            (["a", "b"], numpy.array([1, -1]), ValueError, r"^weights\[1\]: .* not -1$"),
            (["a", "b"], numpy.array([1, 2**63], dtype="u8"), ValueError, r"^weights\[1\]"),
            (["a", "b"], numpy.array([1.0, 2.5]), TypeError, r"^weights\[0\]: .*'float'"),
            (["a"], numpy.array([True]), TypeError, r"^weights\[0\]: .*'bool'"),
            (["a"], numpy.array([5], dtype="m8[s]"), TypeError, "timedelta"),
            (["a", "b"], numpy.array([1, 2, 3]), ValueError, "more weights"),
        ):
            self.refused(kind, text, keys, weights)

    def test_pandas(self) -> None:
        try:
            import pandas
        except ImportError:
            self.skipTest("pandas is not here")
        for kind in (object, "string", "category"):
            keys = pandas.Series(["ab", "c", "ab"], index=[7, 5, 3], dtype=kind)
            self.assertEqual(self.given(keys, pandas.Series([5, 3, 2])), [(b"ab", 7), (b"c", 3)])
        self.refused(TypeError, r"^keys\[1\]", pandas.Series(["a", None]))
        sums = pandas.DataFrame({"a": ["x", "y", "x"], "b": [1, 2, 3]}).groupby("a")["b"].sum()
        self.refused(TypeError, r"'int64'; of numbers give keys.astype\(str\), of weights by key keys.to_dict\(\)$", sums)
        self.assertEqual(self.given(sums.to_dict()), [(b"x", 4), (b"y", 2)])
        self.refused(TypeError, r"^weights\[1\]", ["a", "b"], pandas.Series([1, None], dtype=object))
        self.refused(TypeError, r"^weights\[0\]: .*'float'", ["a", "b"], pandas.Series([1, None]))


    def test_equal_keys_of_a_column(self) -> None:
        """A column of pandas gives the bytes of its items in order, whether equal keys are counted together or not."""
        try:
            import pandas
        except ImportError:
            self.skipTest("pandas is not here")
        draw = random.Random(23)
        for number in range(40):
            k, different = draw.choice([3, 50, 5000]), draw.choice([1, 3, 49, 50, 51, 3000])
            texts = [draw.choice("aé") + str(draw.randrange(different)) for _ in range(2000)]
            weights = draw.choice([None, [draw.randint(1, 9) for _ in texts], [draw.randint(1, 2**51) for _ in texts]])
            column = pandas.Series(texts, dtype=draw.choice([object, "string", "category"]))
            with self.subTest(k=k, different=different):
                before = [b"x%d" % draw.randrange(different) for _ in range(draw.randrange(60))]
                one, other, cells, others = heavy.Summary(k=k), heavy.Summary(k=k), heavy.Table(width=8), heavy.Table(width=8)
                for made, items in ((one, column), (other, texts), (cells, column), (others, texts)):
                    made.update_many(before)
                    made.update_many(items, weights if items is texts or weights is None else pandas.Series(weights))
                self.assertEqual((one, one.total, cells, cells.total), (other, other.total, others, others.total))
                whole = heavy.Summary(k=k)
                whole.update_many(texts, weights)
                self.assertEqual(whole.confirm_items(column, weights), whole.confirm_items(texts, weights))
                self.assertEqual(whole.condense_items(column, weights), whole.condense_items(texts, weights))
        largest = 2**63 - 1
        for keys, weights, kind, text in (
            ([*"ab"] * 999 + [""], None, ValueError, r"^keys\[1998\]: .* not 0$"), ([*"ab"] * 999 + [5], None, TypeError, r"^keys\[1998\]: .*'int'"),
            ([*"ab"] * 999 + [None], None, TypeError, r"^keys\[1998\]: .*'NoneType'"), ([*"ab"] * 999 + [[]], None, TypeError, r"^keys\[1998\]"),
            (["a"] * 2000, [1] * 1999, ValueError, "fewer weights .* 2000$"), (["a"] * 2000, [1] * 1999 + [0], ValueError, r"^weights\[1999\]"),
            (["a"] * 2000, iter([1] * 1999), ValueError, "fewer weights .* 2000$"),
            (["a"] * 2000, [1] * 1999 + [largest - 11], heavy.HeavyError, "^record 2000: total too large$"),
        ):
            self.refused(kind, text, pandas.Series(keys, dtype=object), weights)

    def test_column_with_a_dictionary(self) -> None:
        """A column that its library encodes by a dictionary gives the bytes of its items in order too."""
        if not has("numpy"):
            self.skipTest("numpy is not here")
        import numpy

        def arrow(texts: list[str]) -> Arrow:
            return Arrow(b"u", len(texts), None, packed("i", 0, *itertools.accumulate(map(len, texts))), "".join(texts).encode())

        class Coded:
            """An array as pyarrow has it."""

            def __init__(self, texts: list[str]) -> None:
                self.texts, self.asked = texts, 0

            def __len__(self) -> int:
                return len(self.texts)

            def to_numpy(self) -> None:
                raise AssertionError("its values are taken one by one")

            def combine_chunks(self) -> object:
                return self

            def dictionary_encode(self) -> object:
                different = [*dict.fromkeys(self.texts)]
                codes = numpy.array([different.index(text) for text in self.texts], dtype=numpy.int32)
                return types.SimpleNamespace(
                    indices=types.SimpleNamespace(to_numpy=lambda zero_copy_only: codes), dictionary=arrow(different)
                )

            def __arrow_c_array__(self) -> object:
                self.asked, self.held = self.asked + 1, arrow(self.texts)
                return self.held.__arrow_c_array__()

        draw = random.Random(31)
        texts = [f"k{draw.randrange(40)}" for _ in range(1500)]
        weights = numpy.array([draw.randint(1, 99) for _ in texts])
        for k, asked in ((100, 0), (5, 1)):
            one, other, column = heavy.Summary(k=k), heavy.Summary(k=k), Coded(texts)
            one.update_many(column, weights)
            other.update_many(texts, weights.tolist())
            self.assertEqual((one, one.total, column.asked), (other, other.total, asked))
            self.assertEqual(one.confirm_items(column, weights), other.confirm_items(texts, weights.tolist()))
            self.assertEqual(column.asked, asked)
        self.refused(ValueError, r"^keys\[1499\]: .* not 0$", Coded([*texts[1:], ""]))

    def test_many_different_keys(self) -> None:
        """Many different keys give the counters of their items one by one, whatever is in them, and what was there before."""
        draw = random.Random(41)
        for change in ("", "\ufeff", ",", "\n", "\0", "é", "x" * 4000):
            texts = [str(draw.randrange(10 ** draw.randrange(1, 9))) for _ in range(1000)]
            texts[draw.choice([0, 700, 999])] += change
            texts[0] = change + texts[0]
            for weights in (None, [draw.randint(1, 9) for _ in texts], [draw.randint(1, 2**51) for _ in texts]):
                for before in ([], [("b", 3)]):
                    items = [*before, *zip(texts, weights or itertools.repeat(1))]
                    one, many = updated(heavy.Summary(k=200), *items), updated(heavy.Summary(k=200), *before)
                    many.update_many(texts, weights)
                    counters = counted_by_hand(items, 200)
                    self.assertEqual((many.entries(), many.total), (counters, sum(weight for _, weight in items)), (change, before))
                    self.assertEqual(one, many, (change, before))

    def test_texts_with_breaks(self) -> None:
        """Texts are told apart whatever stands in them."""
        for texts in (["a\n", "b"], ["a", "\n", "\nb\n"], ["é", "\n"], ["a", ""], ["\n\n"], ["é", "ü" * 2048], ["a", "\udcff"]):
            for kind in (list, iter, tuple):
                summary = heavy.Summary(k=9)
                if "" in texts:
                    self.assertRaisesRegex(ValueError, r"^keys\[1\]: .* not 0$", summary.update_many, kind(texts))
                    continue
                summary.update_many(kind(texts))
                self.assertEqual(summary.entries(), [(text.encode("utf-8", "surrogateescape"), 1) for text in sorted(
                    texts, key=lambda text: text.encode("utf-8", "surrogateescape"))])
        self.assertRaisesRegex(ValueError, r"^keys\[1\]: .* not 4098$", heavy.Summary().update_many, ["é", "ü" * 2049])


class Reports(unittest.TestCase):
    def test_records_that_contradict(self) -> None:
        """Records of the same total in which a key weighs other than the summary says are refused, as are parts above it."""
        # a weighs 5, b 2: no counter was lowered, so each low is the high
        summary = heavy.Summary.of_csv(b"a,5\nb,2\n", 2)
        for call in (
            lambda: summary.confirm(b"b,5\na,2\n"), lambda: summary.confirm_csv(b"c,7\n"), lambda: summary.condense(b"b,3\n"),
            lambda: summary.confirm_items({"b": 5, "a": 2}), lambda: summary.confirm_items(["c"], [7]),
            lambda: summary.confirm(summary.condense_items({"a": 2, "b": 5})),
        ):
            with self.assertRaisesRegex(heavy.HeavyError, "a key's weight in the input is outside its bounds$") as caught:
                call()
            self.assertEqual(caught.exception.status, 3)
        self.assertEqual(summary.confirm_items({"a": 5, "b": 2}), [(b"a", 5)])

    def test_items_are_confirmed(self) -> None:
        summary = heavy.Summary.of_csv(RECORDS, 2)
        keys, weights = ["a", b"b", "c", "a"], [5, 3, 2, 1]
        self.assertEqual(summary.confirm_items(keys, weights), heavy.report(RECORDS, 2))
        self.assertEqual(summary.confirm_items(keys, weights, (1, 2)), [(b"a", 6)])
        self.assertEqual(summary.condense_items(keys, weights), summary.condense(RECORDS))
        parts = summary.condense_items(keys[:2], weights[:2]) + summary.condense_items(keys[2:], weights[2:])
        self.assertEqual(summary.confirm_csv(parts), summary.confirm_csv(RECORDS))
        with self.assertRaisesRegex(heavy.HeavyError, "total is not"):
            summary.confirm_items(keys)
        with self.assertRaisesRegex(heavy.HeavyError, "threshold must be"):
            summary.confirm_items(keys, weights, (1, 4))
        for call in (summary.condense_items, summary.confirm_items):
            self.assertRaisesRegex(ValueError, r"^keys\[1\]", call, ["a", ""])
        with self.assertRaisesRegex(heavy.HeavyError, "record 2: total too large"):
            summary.condense_items(["a", "b"], [2**63 - 1, 1])

    def test_reports(self) -> None:
        records = b"".join(b"key%d,%d\n" % (i * i % 13, i % 7 + 1) for i in range(5000))
        with tempfile.TemporaryDirectory() as room:
            path = Path(room, "records")
            for text in (records, RECORDS, OTHERS, b"", b'"a\n""b",5\nb\n', records + b"\n\xef\xbb\xbfa,7\n" * 900):
                path.write_bytes(text)
                for words, share in (([], None), (["--threshold", "1/4"], (1, 4))):
                    ran = program("report", "--k", "5", *words, given=text)
                    wanted = heavy._records.rows_of(ran.stdout, False)
                    self.assertEqual(ran.returncode, 0)
                    for given in (text, path, str(path)):
                        for workers in (1, 2, 3, 64):
                            self.assertEqual(heavy.report(given, 5, share, workers), wanted)
            self.assertEqual(heavy.report(b'"a\n""b",5\nb,2\n', 5), [(b'a\n"b', 5), (b"b", 2)])
            bad = records + b"a,0\n"
            for workers in (1, 4):
                for k, share, text in ((5, None, "record 5001: zero weight"), (0, None, "k must"), (5, (1, 7), "threshold must")):
                    given = bad if share is None else records
                    self.assertRaisesRegex(heavy.HeavyError, f"^{text}", heavy.report, given, k, share, workers)
            self.assertRaises(ValueError, heavy.report, RECORDS, 5, None, 0)

    def test_tops(self) -> None:
        """The greatest keys are the program's, of bytes and of a file, and refused where fewer are certain."""
        with tempfile.TemporaryDirectory() as room:
            path = Path(room, "records")
            for text in (RECORDS, OTHERS, b"", b'"a\n""b",5\nb\n'):
                path.write_bytes(text)
                for n in (1, 2, 9):
                    rows = program("top", str(n), given=text).stdout
                    for given in (text, path, str(path)):
                        self.assertEqual(heavy.top_csv(given, n), rows)
                        self.assertEqual(heavy.top(given, n), heavy._records.rows_of(rows, False))
        self.assertEqual(heavy.top(RECORDS, 0), [])
        self.assertEqual(heavy.top(b"k;w\na;0.5\nb;3\n", 1, layout=heavy.Layout(delimiter=";", header=True, key="k", weight="w", decimals=1),
                                   text=True), [("b", 3)])
        many = b"a,60000\n" + b"".join(b"k%d\n" % number for number in range(15000))
        with self.assertRaisesRegex(heavy.HeavyError, "^of the greatest keys only 1 are certain") as refused:
            heavy.top(many, 3, memory=0)
        self.assertEqual((refused.exception.kind, refused.exception.number), (heavy.Kind.TOP_UNCERTAIN, 1))
        self.assertEqual(heavy.top(many, 1, memory=0), [(b"a", 60000)])
        self.assertEqual(heavy.top(many, 3), [(b"a", 60000), (b"k0", 1), (b"k1", 1)])
        self.assertRaisesRegex(heavy.HeavyError, "^record 2: zero weight", heavy.top, b"a\nb,0\n")
        self.assertRaisesRegex(ValueError, "^n must be at least 0", heavy.top, RECORDS, -1)
        self.assertRaisesRegex(ValueError, "^memory must be at least 0", heavy.top, RECORDS, 1, memory=-1)

    def test_records_in_parts(self) -> None:
        """Records are added a few bytes at a time as all of them are, and refused by the same numbers."""
        mark, largest = b"\xef\xbb\xbf", 2**63 - 1
        texts = [
            RECORDS, OTHERS, b"", b"\n\n", b"a\r\nb\rc,2", mark + b"a\n" + mark + b"a\n", b"a\n" * 9 + mark + b"b\n" * 9,
            b'a\nb\n"x\ny",2\nc\n"a"', b"a\n\n\nb,0\nc\n", b"a\nb,1,1\nc\n", b"a\nb\n,1\n", b"a\nb,x", b"x" * 5000 + b"\na",
            b"a,%d\nb\nc,0\n" % largest, b"a\nb,%d\nc\n" % largest, b"a\nb\n\nc,%d\nd\ne,0\n" % (largest - 2),
        ]
        for text in texts:
            for size in (1, 2, 5, 1 << 20):
                for given in (text, io.BytesIO(text)):
                    with self.subTest(text=text, size=size), in_parts(size):
                        grown, cells = heavy.Summary(k=3), heavy.Table(width=8, depth=2)
                        try:
                            whole = heavy.Summary.of_csv(text, 3)
                        except heavy.HeavyError as refused:
                            self.assertRaisesRegex(heavy.HeavyError, f"^{refused}$", grown.update_csv, given)
                            self.assertEqual(grown, heavy.Summary(k=3))
                            continue
                        grown.update_csv(given)
                        cells.update_csv(text)
                        self.assertEqual((grown, cells), (whole, heavy.Table.of_csv(text, 8, 2)))
        self.assertRaises(TypeError, heavy.Summary().update_csv, io.StringIO("a"))

    def test_quoted_records_in_parts(self) -> None:
        """Files with quotes, and with line feeds in them, are read in parts as the program reads the whole: whatever the
        parts' ends, and by as many threads."""
        draw = random.Random(36)
        keys = [b"a", b"b,c", b"d\ne", b'f"\n"g', b"\r", b"\xef\xbb\xbfh", b'"', b"i\r\n" * 3, b"jj"]
        ends = [b"\n", b"\n", b"\r\n", b"\r", b"\n\n"]
        with tempfile.TemporaryDirectory() as room:
            for size in range(1, 61):
                path, text = Path(room, "records"), draw.choice([b"", b"", b"\xef\xbb\xbf", b"\n"])
                for _ in range(draw.randrange(30)):
                    key = draw.choice(keys)
                    quoted = b'"%s"' % key.replace(b'"', b'""') if key != b"a" or draw.randrange(2) else key
                    text += quoted + draw.choice([b"", b",%d" % draw.randrange(1, 9), b',"5"']) + draw.choice(ends)
                path.write_bytes(text)
                with self.subTest(text=text, size=size), in_parts(size):
                    grown = heavy.Summary(k=3)
                    grown.update_csv(path)
                    self.assertEqual(grown.to_bytes(), program("summarise", "--k", "3", str(path)).stdout)
                    rows = heavy.report(path, 3, workers=draw.randrange(2, 9))
                    self.assertEqual(rows, heavy._records.rows_of(program("report", "--k", "3", given=text).stdout, False))

    def test_odd_quotes_in_parts(self) -> None:
        """Texts of any quotes are read in parts as they are at once, or refused by the same number."""
        draw = random.Random(37)
        for size in range(1, 301):
            text = bytes(draw.choice(b'aab,",""\r\n\n2') for _ in range(draw.randrange(40)))
            with self.subTest(text=text, size=size), in_parts(draw.randrange(1, 9)):
                grown = heavy.Summary(k=3)
                try:
                    whole = heavy.Summary.of_csv(text, 3)
                except heavy.HeavyError as refused:
                    self.assertRaisesRegex(heavy.HeavyError, f"^{refused}$", grown.update_csv, io.BytesIO(text))
                    continue
                grown.update_csv(io.BytesIO(text))
                self.assertEqual(grown, whole)

    def test_lists_are_entries_and_answers(self) -> None:
        """The list of a summary, its entries and what it answers of each key say the same."""
        draw = random.Random(7)
        for k in (1, 3, 50):
            text = b"".join(b"k%d,%d\n" % (draw.randrange(40), draw.randrange(1, 9)) for _ in range(300))
            summary = heavy.Summary.of_csv(text, k)
            rows = summary.rows()
            self.assertEqual(sorted((key, low) for key, low, _ in rows), sorted(summary.entries()))
            self.assertEqual([(low, high) for _, low, high in rows], summary.ask_many([key for key, _, _ in rows]))

    def test_paths(self) -> None:
        with tempfile.TemporaryDirectory() as room:
            path = Path(room, "records")
            path.write_bytes(RECORDS)
            for given in (path, str(path)):
                for make in (heavy.Summary.of_csv, heavy.Table.of_csv):
                    self.assertEqual(make(given, 3), make(RECORDS, 3))
                summary = heavy.Summary.of_csv(given)
                self.assertEqual(summary.confirm_csv(given), summary.confirm_csv(RECORDS))
                self.assertEqual(summary.condense(given), summary.condense(RECORDS))
                summary.update_csv(given)
                self.assertEqual(summary, heavy.Summary.of_csv(RECORDS * 2))
            saved = Path(room, "saved")
            for file in (heavy.Summary.of_csv(RECORDS), heavy.Table.of_csv(RECORDS)):
                file.save(saved)
                self.assertEqual(type(file).load(str(saved)), file)
            self.assertEqual(sorted(os.listdir(room)), ["records", "saved"])
            self.assertRaises(FileNotFoundError, summary.save, Path(room, "none", "saved"))
            self.assertRaises(IsADirectoryError, summary.save, room)
            self.assertEqual(sorted(os.listdir(room)), ["records", "saved"])


class Layouts(unittest.TestCase):
    """Records of any layout, as the program reads them by its options."""

    # texts, layouts, and the program's words for them
    CASES = [
        (b"a;5\nb;3\nc;2\na\n", {"delimiter": ";"}, ["--delimiter", ";"]),
        (b"a\t5\nb\t3\n", {"delimiter": "\t"}, ["--delimiter", "\\t"]),
        (b"a-5\nb-3\n", {"delimiter": b"-"}, ["--delimiter=-"]),
        (b"host,bytes\na,5\nb,3\nc,2\na,1\n", {"header": True}, ["--header"]),
        (b"\xef\xbb\xbfhost,bytes\na,5\nb,3\nc,2\na,1\n", {"header": True, "key": "host"}, ["--header", "--key", "host"]),
        (b'x,"the\nhost",y\n1,a,5\n2,b,3\n1,a,2\n', {"header": True, "key": "the\nhost", "weight": "y"},
         ["--header", "--key", "the\nhost", "--weight", "y"]),
        (b"5,x,a\n3,y,b\n2,x,c\n1,z,a\n", {"key": 3, "weight": 1}, ["--key", "3", "--weight", "1"]),
        (b"5,x,a\n3,y,b\n2,x,c\n1,x,a\n", {"key": [3, 2], "weight": 1}, ["--key", "3,2", "--weight", "1"]),
        (b"a,5\nb,3\na,9\n", {"key": 1}, ["--key", "1"]), (b"a,x,5\nb,y,3\n", {"weight": 3}, ["--weight", "3"]),
        (b"a,0.25\nb,3\na,.5\nc,1\n", {"decimals": 2}, ["--decimals", "2"]),
        (b"a,0\nb,-\na,5\nc,1\n", {"allow_zero": True}, ["--allow-zero"]),
        (b'h b\n"a a" 5\nb -\n"a ""a" 1.5\n\nb 2\n', {"delimiter": " ", "header": True, "decimals": 1, "allow_zero": True},
         ["--delimiter", " ", "--header", "--decimals", "1", "--allow-zero"]),
        (b"", {"header": True, "key": "a"}, ["--header", "--key", "a"]), (b"h\n", {"header": True}, ["--header"]),
    ]

    def test_beside_the_program(self) -> None:
        for text, options, words in self.CASES:
            layout = heavy.Layout(**options)
            for size in (1, 2, 5, 1 << 20):
                with self.subTest(text=text, size=size), in_parts(size):
                    whole = program("summarise", "--k", "2", *words, given=text)
                    self.assertEqual(whole.returncode, 0, whole.stderr)
                    summary = heavy.Summary.of_csv(text, 2, layout=layout)
                    self.assertEqual(summary.to_bytes(), whole.stdout)
                    parts, cells = heavy.Summary(k=2), heavy.Table(width=8, depth=2)
                    parts.update_csv(io.BytesIO(text), layout=layout)
                    cells.update_csv(io.BytesIO(text), layout=layout)
                    self.assertEqual(parts, summary)
                    self.assertEqual(cells, heavy.Table.of_csv(text, 8, 2, layout=layout))
                    self.assertEqual(cells.to_bytes(), program("table", "--width", "8", "--depth", "2", *words, given=text).stdout)
            with self.subTest(text=text), tempfile.TemporaryDirectory() as room:
                saved, records = Path(room, "saved"), Path(room, "records")
                summary.save(saved)
                records.write_bytes(text)
                for k, share, more in ((2, None, []), (9, "1/4", ["--threshold", "1/4"])):
                    rows = program("report", "--k", str(k), *more, *words, given=text).stdout
                    for workers in (1, 2, 3):
                        self.assertEqual(heavy.report_csv(records, k, share, workers, layout=layout), rows)
                found = program("confirm", str(saved), *words, given=text)
                self.assertEqual((summary.confirm_csv(records, layout=layout), found.returncode), (found.stdout, 0))
                found = program("condense", str(saved), *words, given=text)
                self.assertEqual((summary.condense(text, layout=layout), found.returncode), (found.stdout, 0))

    def test_rows(self) -> None:
        layout = heavy.Layout(key=[3, 2], weight=1, decimals=1)
        records = b"5,x,a\n.3,y,b\n1.5,x,a\n2,x,c\n"
        self.assertEqual(heavy.report(records, 2, layout=layout, text=True), [("a,x", Decimal("6.5"))])
        # a summary counts tenths
        self.assertEqual(heavy.Summary.of_csv(records, 9, layout=layout).rows()[0], (b"a,x", 65, 65))

    def test_refusals(self) -> None:
        for text, options, words in (
            (b"a,1\n", {"key": "a"}, ["--key", "a"]), (b"a,1\n", {"key": 0}, ["--key", "0"]), (b"a,1\n", {"weight": -3}, ["--key", "0"]),
            (b"h\na\n", {"header": True, "key": "z"}, ["--header", "--key", "z"]), (b"a,1\n", {"key": 2, "weight": 3}, ["--key", "2", "--weight", "3"]),
            (b"h,w\na,1\nb,0\n", {"header": True}, ["--header"]), (b"h,w\na,1\nb,2,3\n", {"header": True}, ["--header"]),
            (b"a;1\nb;x\n", {"delimiter": ";"}, ["--delimiter", ";"]), (b"a,1.25\n", {"decimals": 1}, ["--decimals", "1"]),
            (b"a,1\nb,-\n", {"decimals": 1}, ["--decimals", "1"]), (b"a,1\n,-\n", {"allow_zero": True}, ["--allow-zero"]),
        ):
            layout, ran = heavy.Layout(**options), program("summarise", "--k", "2", *words, given=text)
            summary = heavy.Summary(k=2)
            for call in (
                lambda: heavy.Summary.of_csv(text, 2, layout=layout), lambda: heavy.Table.of_csv(text, layout=layout),
                lambda: summary.update_csv(io.BytesIO(text), layout=layout), lambda: heavy.report(text, 2, layout=layout),
                lambda: heavy.report_csv(text, 2, workers=3, layout=layout), lambda: summary.confirm(text, layout=layout),
                lambda: summary.condense(text, layout=layout),
            ):
                with self.subTest(text=text, options=options), in_parts(3):
                    with self.assertRaises(heavy.HeavyError) as caught:
                        call()
                    told = (f"heavy: {caught.exception}\n".encode(), caught.exception.status)
                    line = ran.stderr.splitlines(keepends=True)[0].replace(b"--header", b"header=True")
                    self.assertEqual(told, (line, ran.returncode))
            self.assertEqual(summary, heavy.Summary(k=2))

    def test_options(self) -> None:
        for options, kind, text in (
            ({"delimiter": "ab"}, heavy.HeavyError, "^delimiter must be one byte, and no quote, CR or LF$"), ({"delimiter": "é"}, heavy.HeavyError, "^delimiter"),
            ({"delimiter": '"'}, heavy.HeavyError, "^delimiter"), ({"delimiter": "\n"}, heavy.HeavyError, "^delimiter"),
            ({"delimiter": ""}, heavy.HeavyError, "^delimiter"), ({"delimiter": 44}, TypeError, "^delimiter must be a character, not 'int'"),
            ({"header": "host"}, TypeError, "^header must be True or False, not 'str'"), ({"header": 0}, TypeError, "^header"),
            ({"allow_zero": 1}, TypeError, "^allow_zero must be"), ({"decimals": 2.0}, TypeError, "^decimals must be an integer"),
            ({"key": 1.5}, TypeError, "^key must be a column's number or name, not 'float'"), ({"key": True}, TypeError, "^key must"),
            ({"key": []}, ValueError, "^key must name a column"), ({"weight": [1]}, TypeError, "^weight must be a column's number"),
            ({"delimeter": ";"}, TypeError, "delimeter"),
        ):
            self.assertRaisesRegex(kind, text, lambda: heavy.Layout(**options))
        for decimals in (-1, 10, 300):
            self.assertRaisesRegex(ValueError, f"^decimals must be 0 to 9, not {decimals}$", heavy.Layout, decimals=decimals)
        layout = heavy.Layout(delimiter=";", key="a", header=True)
        self.assertEqual((layout, hash(layout)), (heavy.Layout(";", True, "a"), hash(heavy.Layout(";", True, "a"))))
        self.assertEqual(pickle.loads(pickle.dumps(layout)), layout)

    def test_random_words(self) -> None:
        """Each value has random words to hash by, and no answer depends on them."""
        drawn = [tuple(heavy._library.random_words()._obj.words) for _ in range(20)]
        self.assertEqual((len(set(drawn)), (0, 0) in drawn), (20, False))
        self.assertEqual(len({heavy.report_csv(OTHERS, 9) for _ in range(20)}), 1)


class Places(unittest.TestCase):
    """Where a bad record stands, and what is wrong with it, as numbers and names."""

    # texts, layouts, the number of the bad record, its line, and what is wrong with it
    BAD = [
        (b"a,5\nb,0\n", {}, 2, 2, "RECORD_ZERO_WEIGHT"), (b"a,5\n\n\nb,x\n", {}, 2, 4, "RECORD_BAD_WEIGHT"),
        (b"a\r\n\r\nb\rc,1,2\n", {}, 3, 4, "RECORD_FIELD_COUNT"), (b'"a\n\nb",5\n"c\rd"\n,5\n', {}, 3, 6, "RECORD_EMPTY_KEY"),
        (b"\xef\xbb\xbfa,0\n", {}, 1, 1, "RECORD_ZERO_WEIGHT"), (b"h,w\n\na,1\nb,0\n", {"header": True}, 2, 4, "RECORD_ZERO_WEIGHT"),
        (b'"h\nh";w\na;1\nb;0\n', {"header": True, "delimiter": ";"}, 2, 4, "RECORD_ZERO_WEIGHT"),
        (b"\n\nh,w\na,1\nb,1\nc,1\nd,0\n", {"header": True}, 4, 7, "RECORD_ZERO_WEIGHT"),
        (b"a\n" * 40 + b"x" * 4097 + b"\n", {}, 41, 41, "RECORD_KEY_TOO_LONG"),
        (b"a,9223372036854775807\n\nb\n", {}, 2, 3, "RECORD_TOTAL_TOO_LARGE"),
    ]

    def test_records(self) -> None:
        """Each call that reads records tells the path and the line, whatever parts they are read in."""
        with tempfile.TemporaryDirectory() as room:
            path = Path(room, "records")
            for text, options, number, line, cause in self.BAD:
                path.write_bytes(text)
                layout = heavy.Layout(**options)
                for given, named in ((text, None), (io.BytesIO(text), None), (str(path), str(path)), (path, path)):
                    for call in (
                        lambda: heavy.Summary.of_csv(given, layout=layout), lambda: heavy.Table.of_csv(given, layout=layout),
                        lambda: heavy.Summary(k=5).update_csv(given, layout=layout), lambda: heavy.report(given, layout=layout),
                        lambda: heavy.report(given, workers=3, layout=layout), lambda: heavy.Summary(k=5).condense(given, layout=layout),
                        lambda: heavy.Summary(k=5).confirm(given, layout=layout),
                    ):
                        for size in (2, 1 << 20):
                            given.seek(0) if isinstance(given, io.BytesIO) else None
                            with self.subTest(text=text, size=size), in_parts(size), self.assertRaises(heavy.HeavyError) as caught:
                                call()
                            again = pickle.loads(pickle.dumps(caught.exception))
                            for found in (caught.exception, again):
                                self.assertEqual((found.number, found.line, found.path), (number, line, named), text)
                                self.assertEqual((found.kind, found.cause), (heavy.Kind.BAD_RECORD, heavy.Cause[cause]))
                            told = f"line {line}" if named is None else f"{named}, line {line}"
                            noted = [told] if hasattr(caught.exception, "add_note") else []
                            self.assertEqual(getattr(caught.exception, "__notes__", []), noted)

    def test_lines_of_the_program(self) -> None:
        """The line is that which the program tells of the same records."""
        draw = random.Random(7)
        with tempfile.TemporaryDirectory() as room:
            path = Path(room, "records")
            for size in range(1, 41):
                text = b"".join(draw.choice([b"a", b"b,2", b'"c\n"', b'"d\r\n,",3', b""]) + draw.choice([b"\n", b"\r\n", b"\r"]) for _ in range(size))
                path.write_bytes(text + b"e,0\n" + text)
                ran = program("summarise", "--explain", str(path))
                with in_parts(size), self.assertRaises(heavy.HeavyError) as caught:
                    heavy.Summary.of_csv(path)
                self.assertIn(f", line {caught.exception.line}, ".encode(), ran.stderr)

    def test_other_faults(self) -> None:
        """What has no line has none, and a missing column has the path."""
        with tempfile.TemporaryDirectory() as room:
            path = Path(room, "records")
            path.write_bytes(b"h,w\na,1\n")
            layout = heavy.Layout(header=True, key="z")
            for call in (lambda: heavy.Summary.of_csv(path, layout=layout), lambda: heavy.report(path, layout=layout)):
                with self.assertRaises(heavy.HeavyError) as caught:
                    call()
                found = caught.exception
                self.assertEqual((found.kind, found.cause, found.path, found.line), (heavy.Kind.NO_COLUMN, None, path, None))
        summary, table = heavy.Summary.of_csv(RECORDS, 2), heavy.Table()
        for call, kind, cause in (
            (lambda: heavy.Summary(k=0), "BAD_K", None), (lambda: heavy.Table(depth=0), "BAD_DEPTH", None),
            (lambda: heavy.Table(width=0), "BAD_WIDTH", None), (lambda: heavy.Summary.of_csv(b"", method="x"), "BAD_METHOD", None),
            (lambda: heavy.Summary(b"HHS").k, "BAD_FILE", "FILE_TRUNCATED"), (lambda: heavy.Summary(b"x" * 99).k, "BAD_FILE", "FILE_BAD_MAGIC"),
            (lambda: summary + heavy.Summary(k=3), "CANNOT_MERGE", "MERGE_DIFFERENT_K"),
            (lambda: table + heavy.Table(width=8), "CANNOT_MERGE", "MERGE_DIFFERENT_WIDTH"),
            (lambda: table + heavy.Table(seed=1), "CANNOT_MERGE", "MERGE_DIFFERENT_FAMILY"),
            (lambda: heavy.merge(summary, table), "MIXED_KINDS", None), (lambda: heavy.Summary(table.to_bytes()).k, "NOT_COUNTERS", None),
            (lambda: summary.confirm(b"a\n"), "TOTAL_DIFFERS", None), (lambda: summary.confirm(b"b,11\n"), "WEIGHT_OUTSIDE", None),
            (lambda: summary.confirm(RECORDS, "1/9"), "BAD_THRESHOLD", None), (lambda: heavy.Layout(delimiter=""), "BAD_DELIMITER", None),
            (lambda: heavy.report(b"", layout=heavy.Layout(key="a")), "BAD_COLUMN", None),
            (lambda: summary.update("a", 2**63 - 1), "BAD_RECORD", "RECORD_TOTAL_TOO_LARGE"),
        ):
            with self.subTest(kind), self.assertRaises(heavy.HeavyError) as caught:
                call()
            found = caught.exception
            self.assertEqual((found.kind, found.cause), (heavy.Kind[kind], cause and heavy.Cause[cause]))
            self.assertEqual((found.path, found.line), (None, None))

    def test_numbers_of_the_header(self) -> None:
        """Kinds and causes are those of the library's header."""
        header = Path(__file__).resolve().parent.parent / "include" / "heavy.h"
        if not header.exists():
            self.skipTest("the header is not here")
        numbers = {name: int(number) for name, number in re.findall(r"^#define HEAVY_(\w+) (\d+)u", header.read_text(), re.M)}
        groups = {"RECORD": "BAD_RECORD", "FILE": "BAD_FILE", "MERGE": "CANNOT_MERGE", "KEY": "BAD_KEY"}
        causes = {name: (numbers[groups[name.split("_")[0]]], number) for name, number in numbers.items() if name.split("_")[0] in groups}
        self.assertEqual({cause.name: cause.value for cause in heavy.Cause}, causes)
        others = {"VERSION", "DONE", "DEVICE", "USAGE", "REFUSED", "MEMORY", "TOO_SMALL", "MISRA_GRIES", "SPACE_SAVING", "SUMMARY", "TABLE", "MAX_KEY", "MAX_K"}
        self.assertEqual({kind.name: kind.value for kind in heavy.Kind}, {
            name: number for name, number in numbers.items() if name not in causes and name not in others
        })


class Same(unittest.TestCase):
    def saved(self, file: heavy.Summary | heavy.Table, room: str, name: str) -> str:
        path = Path(room, name)
        path.write_bytes(file.to_bytes())
        return str(path)

    def test_summaries(self) -> None:
        for method in ("mg", "ss"):
            ran = program("summarise", "--k", "2", "--method", method, given=RECORDS)
            for given in (RECORDS, bytearray(RECORDS), memoryview(RECORDS), io.BytesIO(RECORDS)):
                self.assertEqual(heavy.Summary.of_csv(given, 2, method).to_bytes(), ran.stdout)

    def test_large_summary(self) -> None:
        records = b"".join(b"key %d %s\n" % (i, b"x" * 60) for i in range(3000))
        ran = program("summarise", "--k", "5000", given=records)
        self.assertGreater(len(ran.stdout), 1 << 16)
        self.assertEqual(heavy.Summary.of_csv(records, 5000).to_bytes(), ran.stdout)

    def test_text_above_16_megabytes(self) -> None:
        # of the total of 1,500,003 b has just a third
        records = b"a,00000000000002\nb,00000000000001\n" * 500_001
        self.assertGreater(len(records), 1 << 24)
        summary = heavy.Summary.of_csv(records, 2)
        self.assertEqual(summary.entries(), [(b"a", 1_000_002), (b"b", 500_001)])
        self.assertEqual(summary.confirm_csv(records), b"a,1000002\n")

    def test_more_than_65_536_keys(self) -> None:
        keys = [b"%d" % number for number in range(70_000)]
        answers = heavy.Summary.of_csv(b"69999,5\n1,2\n", 2).ask_many(keys)
        self.assertEqual(len(answers), 70_000)
        told = {key: answer for key, answer in zip(keys, answers) if answer != (0, 0)}
        self.assertEqual(told, {b"1": (2, 2), b"69999": (5, 5)})
        # 70,000 keys of weight 1, and one of just more than all of them
        records = b"\n".join(keys) + b"\nx,70001\n"
        self.assertEqual(heavy.Summary.of_csv(records, 1, "ss").confirm_csv(records), b"x,70001\n")

    def test_tables(self) -> None:
        ran = program("table", "--depth", "2", "--width", "8", "--seed", "7", given=RECORDS)
        self.assertEqual(heavy.Table.of_csv(RECORDS, 8, 2, 7).to_bytes(), ran.stdout)

    def test_merges(self) -> None:
        with tempfile.TemporaryDirectory() as room:
            for make in (heavy.Summary.of_csv, heavy.Table.of_csv):
                files = [make(records, 3) for records in (RECORDS, OTHERS, b"", RECORDS)]
                paths = [self.saved(file, room, str(i)) for i, file in enumerate(files)]
                for count in (1, 2, 4):
                    ran = program("merge", *paths[:count])
                    self.assertEqual(heavy.merge(*files[:count]).to_bytes(), ran.stdout)

    def test_answers(self) -> None:
        with tempfile.TemporaryDirectory() as room:
            for file in (heavy.Summary.of_csv(RECORDS, 2), heavy.Table.of_csv(RECORDS, 2, 2)):
                for key in ("a", "z"):
                    low, high = file.ask(key)
                    ran = program("ask", self.saved(file, room, "file"), key)
                    self.assertEqual(f"{key},{low},{high}\n".encode(), ran.stdout)

    def test_many_answers(self) -> None:
        keys = ["a", b"b", bytearray(b"c"), "nobody", "a", "é"]
        for file in (heavy.Summary.of_csv(RECORDS, 2), heavy.Table.of_csv(RECORDS, 2, 2)):
            self.assertEqual(file.ask_many(keys), [file.ask(key) for key in keys])
            self.assertEqual(file.ask_many(iter(keys)), file.ask_many(keys))
            self.assertEqual(file.ask_many([]), [])
        # 2 is taken from each of three counters at c: a has 3 and then 4, b has 1; of the total of 11 at most 2 for each
        self.assertEqual(heavy.Summary.of_csv(RECORDS, 2).ask_many([*"abz"]), [(4, 6), (1, 3), (0, 2)])

    def test_entries(self) -> None:
        self.assertEqual(heavy.Summary.of_csv(RECORDS, 2).entries(), [(b"a", 4), (b"b", 1)])
        self.assertEqual(heavy.Summary.of_csv(OTHERS, 3).entries(), [(b"a", 1), (b"x,y", 7), (b"\xff", 2)])
        self.assertEqual(heavy.Summary.of_csv(b"", 2).entries(), [])
        # version 1: k 2, a total of 9, and two entries, whose keys' lengths have one byte
        first = b"HHS1\1\0\2" + (9).to_bytes(8, "big") + b"\0\2\1b" + (3).to_bytes(8, "big")
        first += b"\2cd" + (5).to_bytes(8, "big")
        self.assertEqual(heavy.Summary(first).entries(), [(b"b", 3), (b"cd", 5)])
        records = b"".join(b"%04d%s,%d\n" % (i, b"x" * (i % 90), i + 1) for i in range(5000))
        wanted = [(b"%04d%s" % (i, b"x" * (i % 90)), i + 1) for i in range(5000)]
        self.assertEqual(heavy.Summary.of_csv(records, 5000).entries(), wanted)

    def test_condensed(self) -> None:
        with tempfile.TemporaryDirectory() as room:
            for records in (RECORDS, OTHERS, b""):
                whole = heavy.Summary.of_csv(RECORDS + OTHERS, 2)
                ran = program("condense", self.saved(whole, room, "file"), given=records)
                self.assertEqual((whole.condense(records), ran.returncode), (ran.stdout, 0))
            parts = whole.condense(OTHERS) + whole.condense(RECORDS)
            self.assertEqual(whole.confirm_csv(parts), whole.confirm_csv(RECORDS + OTHERS))

    def test_rooms(self) -> None:
        # the sizes that the header's bounds tell: of a full summary whose keys have 4,096 bytes, and of tables
        records = b"".join(b"%04d%s\n" % (i, b"x" * 4092) for i in range(300))
        self.assertEqual(len(heavy.Summary.of_csv(records, 300).to_bytes()), 17 + 300 * 4106)
        for width, depth in ((1, 1), (7, 3), (1024, 4)):
            self.assertEqual(len(heavy.Table.of_csv(RECORDS, width, depth).to_bytes()), 26 + depth * (16 + 8 * width))

    def test_confirmations(self) -> None:
        with tempfile.TemporaryDirectory() as room:
            for records in (RECORDS, OTHERS, b""):
                summary = heavy.Summary.of_csv(records, 2)
                ran = program("confirm", self.saved(summary, room, "file"), given=records)
                self.assertEqual((summary.confirm_csv(records), ran.returncode), (ran.stdout, 0))

    def test_lists_and_descriptions(self) -> None:
        with tempfile.TemporaryDirectory() as room:
            for file in (heavy.Summary.of_csv(RECORDS, 2), heavy.Table.of_csv(RECORDS, 2, 2)):
                self.assertEqual(file.describe_csv(), program("describe", self.saved(file, room, "file")).stdout)
            summary = heavy.Summary.of_csv(OTHERS, 3)
            self.assertEqual(summary.list_csv(), program("list", self.saved(summary, room, "file")).stdout)

    def test_thresholds(self) -> None:
        summary = heavy.Summary.of_csv(RECORDS, 2)
        with tempfile.TemporaryDirectory() as room:
            path = self.saved(summary, room, "file")
            for p, q in ((1, 3), (1, 2), (6, 11), (1, 1)):
                ran = program("confirm", "--threshold", f"{p}/{q}", path, given=RECORDS)
                self.assertEqual((summary.confirm_csv(RECORDS, threshold=(p, q)), ran.returncode), (ran.stdout, 0))
            for p, q in ((1, 4), (0, 1), (2, 1)):
                ran = program("confirm", "--threshold", f"{p}/{q}", path, given=RECORDS)
                self.refused(lambda: summary.confirm_csv(RECORDS, (p, q)), ran)

    def refused(self, call, ran: subprocess.CompletedProcess) -> None:
        with self.assertRaises(heavy.HeavyError) as caught:
            call()
        told = (f"heavy: {caught.exception}\n".encode(), caught.exception.status)
        self.assertEqual(told, (ran.stderr, ran.returncode))

    def test_refusals_are_pickled(self) -> None:
        for records, text in ((b"a\na,0\n", "record 2: zero weight"), (b",1\n", "record 1: empty key")):
            with self.assertRaises(heavy.HeavyError) as caught:
                heavy.Summary.of_csv(records)
            again = pickle.loads(pickle.dumps(caught.exception))
            self.assertEqual((str(again), again.status, again.number), (text, 3, int(text.split()[1][0])))

    def test_refused_options_and_records(self) -> None:
        of_csv = heavy.Summary.of_csv
        for k in (0, 65536):
            self.refused(lambda: of_csv(RECORDS, k), program("summarise", "--k", str(k)))
        self.refused(lambda: of_csv(RECORDS, 0, "no"), program("summarise", "--k", "0", "--method", "no"))
        for width, depth in ((0, 0), (0, 1), (65537, 16), (1, 17)):
            ran = program("table", "--width", str(width), "--depth", str(depth))
            self.refused(lambda: heavy.Table.of_csv(b"", width, depth), ran)
        long = b"x" * 4097
        for records in (b"a,1,2\n", b"a\n,1\n", long, b"a,x\n", b"a,0\n", b"a,9223372036854775807\na\n"):
            self.refused(lambda: of_csv(records, 2), program("summarise", "--k", "2", given=records))
        self.assertRaises(ValueError, of_csv, RECORDS, 2**64 + 1)
        self.assertRaises(ValueError, of_csv, RECORDS, -1)

    def test_refused_files(self) -> None:
        good, table = heavy.Summary.of_csv(RECORDS, 2), heavy.Table.of_csv(RECORDS, 2, 2)
        other, wide = heavy.Summary.of_csv(RECORDS, 3), heavy.Table.of_csv(RECORDS, 4, 2)
        drawn, full = heavy.Table.of_csv(RECORDS, 2, 2, 1), heavy.Summary.of_csv(b"a,9223372036854775807\n", 2)
        damaged = [heavy.Summary(good.to_bytes()[:i]) for i in range(len(good.to_bytes()))]
        for place in range(len(good.to_bytes())):
            for bits in (1, 255):
                copy = bytearray(good.to_bytes())
                copy[place] ^= bits
                damaged.append(heavy.Summary(copy))
        damaged.append(heavy.Summary(good.to_bytes() + b"x"))
        pairs = [(good, table), (table, good), (good, other), (table, wide), (table, drawn), (good, full)]
        with tempfile.TemporaryDirectory() as room:
            for first, second in pairs:
                ran = program("merge", self.saved(first, room, "1"), self.saved(second, room, "2"))
                self.refused(lambda: heavy.merge(first, second), ran)
            for file in damaged:
                ran = program("ask", self.saved(file, room, "1"), "a")
                if ran.returncode != 0:
                    self.refused(lambda: file.ask("a"), ran)
                    self.refused(lambda: file.ask_many(["a", "b"]), ran)
            # a key is refused before the file is read
            self.assertRaisesRegex(ValueError, r"^keys\[0\]: a key must have", damaged[0].ask_many, [""])
            for file in (heavy.Summary(table.to_bytes()), damaged[20]):
                ran = program("condense", self.saved(file, room, "1"), given=b"a\n")
                self.refused(lambda: file.condense(b"a\n"), ran)
                self.refused(file.entries, ran)
            ran = program("condense", self.saved(good, room, "1"), given=b"a\nb,0\n")
            self.refused(lambda: good.condense(b"a\nb,0\n"), ran)
            for file in (heavy.Summary(table.to_bytes()), good):
                ran = program("confirm", self.saved(file, room, "1"), given=b"a\n")
                self.refused(lambda: file.confirm_csv(b"a\n"), ran)

    def test_merge_of_a_list(self) -> None:
        files = [heavy.Summary.of_csv(RECORDS, 3), heavy.Summary.of_csv(OTHERS, 3)]
        whole = heavy.merge(*files).to_bytes()
        for given in (files, tuple(files), iter(files)):
            self.assertEqual(heavy.merge(given).to_bytes(), whole)
        self.assertIsInstance(heavy.merge([heavy.Table.of_csv(RECORDS)]), heavy.Table)
        self.assertRaisesRegex(ValueError, "no file", heavy.merge, [])
        self.assertRaisesRegex(TypeError, r"files\[1\]", heavy.merge, [files[0], b""])
        self.assertRaisesRegex(TypeError, r"files\[0\]", heavy.merge, files, files[0])

    def test_arguments_of_other_types(self) -> None:
        class Named:
            def __bytes__(self) -> bytes:
                return b"a,1\n"

        good = heavy.Summary.of_csv(RECORDS)
        for given in (5, None, [97], Named(), io.StringIO("a,1\n")):
            for call in (heavy.Summary.of_csv, heavy.Table.of_csv, heavy.Summary, good.confirm, good.condense, heavy.report):
                self.assertRaises(TypeError, call, given)
        for call in (heavy.Summary, heavy.Table):
            self.assertRaises(TypeError, call, "a,1\n")
        self.assertRaises(FileNotFoundError, heavy.Summary.of_csv, "a,1\n")
        self.assertEqual(heavy.Summary.of_csv(array.array("b", b"a,1\n")).entries(), [(b"a", 1)])
        for key in (5, None, [97], Named()):
            self.assertRaises(TypeError, good.ask, key)
            self.assertRaises(TypeError, good.ask_many, ["a", key])
        for number in (2.0, "2", None):
            self.assertRaises(TypeError, heavy.Summary.of_csv, RECORDS, number)
            self.assertRaises(TypeError, heavy.Table.of_csv, RECORDS, number)


if __name__ == "__main__":
    unittest.main()
