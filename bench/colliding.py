#!/usr/bin/env python3
"""Times the program and the library on keys that are chosen to collide, beside random keys of the same lengths.

usage: bench/colliding.py [--library] [RUNS [COUNT..]]

With --library it times the library alone, that which LIBHEAVY names or else one that it builds.

Whoever chose these keys knows how keys are hashed and the words that all runs have, and not those of one run. Each set has one
hash under the former, which the script computes by itself. `old` is the set for the hasher that stood here before. Prints the
processor time of each run's median in seconds, beside random keys, and the ratio; the last line has the largest ratio.
"""
import itertools
import os
import random
import statistics
import subprocess
import sys
import tempfile
import time
from collections.abc import Callable, Iterator
from pathlib import Path

import programs

# the words that all runs have, and the number that the older hasher multiplied by
START, FACTOR, MULTIPLIER = 0x243F6A8885A308D3, 0x13198A2E03707344, 0x9E3779B97F4A7C15
MASK = 2**64 - 1
K = 65_535
COUNTS = (10_000, 20_000, 200_000)
# the most that keys which collide may take of the time of others
MOST = 1.5
# a number with many divisors, by its primes and how often each divides it
POWERS = {2: 6, 3: 4, 5: 3, 7: 2, **{prime: 1 for prime in (11, 13, 17, 19, 23, 29, 31, 37, 41, 43)}}


def turned(word: int, by: int) -> int:
    by %= 64
    return (word << by | word >> (64 - by)) & MASK


def hash_of(key: bytes) -> int:
    """The hash of a key of 8 bytes or more under the words that all runs have."""

    def word(at: int) -> int:
        return int.from_bytes(key[at : at + 8], "little")

    def step(state: int, at: int) -> int:
        product = (state ^ word(at)) * (FACTOR ^ word(at + 8))
        return product & MASK ^ product >> 64

    state = turned(START, len(key))
    for block in range((len(key) - 1) // 16):
        state = step(state, 16 * block)
    if len(key) >= 16:
        return step(state, len(key) - 16)
    product = (state ^ word(0)) * (FACTOR ^ word(len(key) - 8))
    return product & MASK ^ product >> 64


def numbered(draw: random.Random) -> Iterator[bytes]:
    """Different words of 8 bytes."""
    return (draw.getrandbits(64).to_bytes(8, "little") for _ in itertools.count())


def equal_ends(draw: random.Random) -> Iterator[bytes]:
    """Keys of 24 bytes whose last word makes the last product 0."""
    return (one + other + FACTOR.to_bytes(8, "little") for one, other in zip(numbered(draw), numbered(draw)))


def equal_beginnings(draw: random.Random) -> Iterator[bytes]:
    """Keys of 32 bytes whose first word makes the first product 0, whatever the second is; the rest is one."""
    first, rest = turned(START, 32).to_bytes(8, "little"), draw.randbytes(16).translate(SAFE)
    return (first + other + rest for other in numbered(draw))


def cancelling(draw: random.Random) -> Iterator[bytes]:
    """Keys of 16 bytes whose two words differ from key to key, so that the product is one number."""
    divisors = [1]
    for prime, power in POWERS.items():
        divisors = [divisor * prime**often for divisor in divisors for often in range(power + 1)]
    draw.shuffle(divisors)
    whole = max(divisors)
    for one in divisors:
        if max(one, whole // one) <= MASK:
            words = (one ^ turned(START, 16), whole // one ^ FACTOR)
            yield b"".join(word.to_bytes(8, "little") for word in words)


def old(draw: random.Random) -> Iterator[bytes]:
    """Keys of 16 bytes whose last word made the last product of the older hasher 0."""
    return (one + MULTIPLIER.to_bytes(8, "little") for one in numbered(draw))


SETS: dict[str, Callable[[random.Random], Iterator[bytes]]] = {
    "equal ends": equal_ends, "equal beginnings": equal_beginnings, "differences that cancel": cancelling, "old": old,
}
# no byte that has to stand in quotes
SAFE = bytes(65 if byte in b',"\r\n' else byte for byte in range(256))


def taken(keys: Iterator[bytes], count: int) -> list[bytes]:
    """So many different keys that need no quotes."""
    found: dict[bytes, None] = {}
    for key in keys:
        if key.translate(SAFE) == key:
            found[key] = None
        if len(found) == count:
            return list(found)
    sys.exit(f"there are only {len(found)} such keys")


def text_of(draw: random.Random, keys: list[bytes]) -> bytes:
    """Records in which each key comes twice."""
    records = [key + b",%d\n" % draw.randrange(1, 100) for key in 2 * keys]
    draw.shuffle(records)
    return b"".join(records)


def processor_seconds(words: list[str]) -> float:
    process = subprocess.Popen(words, stdout=subprocess.DEVNULL)
    _, status, used = os.wait4(process.pid, 0)
    process.returncode = os.waitstatus_to_exitcode(status)
    assert process.returncode == 0, words
    return used.ru_utime + used.ru_stime


def program_runs(heavy: str, path: Path) -> dict[str, Callable[[], float]]:
    """What the program does with records, by name."""
    saved = path.with_suffix(".heavy")
    k = ["--k", str(K)]
    saved.write_bytes(subprocess.run([heavy, "summarise", *k, path], stdout=subprocess.PIPE, check=True).stdout)
    words = {
        "report": ["report", *k, path], "report of one piece": ["report", *k, "--workers", "1", "--pieces", "1", path],
        "summarise": ["summarise", *k, path], "summarise by ss": ["summarise", *k, "--method", "ss", path],
        "confirm": ["confirm", saved, path], "condense": ["condense", saved, path],
    }
    return {name: lambda given=given: processor_seconds([heavy, *map(str, given)]) for name, given in words.items()}


def library_runs(path: Path) -> dict[str, Callable[[], float]]:
    """What Python does over the library for C: each call of the module is one or more of C."""
    import heavy

    text = path.read_bytes()
    summary = heavy.Summary.of_csv(text, k=K)
    keys, weights = zip(*(line.rsplit(b",", 1) for line in text.split(b"\n") if line))
    items = list(keys), list(map(int, weights))
    calls = {
        "C and Python: summarise": lambda: heavy.Summary.of_csv(text, k=K),
        "C and Python: summarise by ss": lambda: heavy.Summary.of_csv(text, k=K, method="ss"),
        "C and Python: update_many": lambda: heavy.Summary(k=K).update_many(*items),
        "C and Python: report": lambda: heavy.report_csv(text, k=K),
        "C and Python: confirm": lambda: summary.confirm(text),
        "C and Python: condense": lambda: summary.condense(text),
        "C and Python: confirm_items": lambda: summary.confirm_items(*items),
        "C and Python: condense_items": lambda: summary.condense_items(*items),
    }

    def timed(call: Callable[[], object]) -> float:
        start = time.process_time()
        call()
        return time.process_time() - start

    return {name: lambda call=call: timed(call) for name, call in calls.items()}


def main() -> None:
    numbers = [int(word) for word in sys.argv[1:] if word != "--library"]
    runs, counts = numbers[0] if numbers else 5, numbers[1:] or COUNTS
    heavy, worst = None if "--library" in sys.argv else programs.heavy(), 0.0
    with tempfile.TemporaryDirectory() as folder:
        room = Path(folder)
        with_library = programs.library(room)
        if not (heavy or with_library):
            sys.exit("there is no library to time")
        for name, count in itertools.product(SETS, counts):
            draw = random.Random(count)
            keys = taken(SETS[name](draw), count)
            assert name == "old" or len({hash_of(key) for key in keys}) == 1
            others = taken((draw.randbytes(len(keys[0])) for _ in itertools.count()), count)
            sides = []
            for side, given in (("colliding", keys), ("random", others)):
                path = room / f"{side}.csv"
                path.write_bytes(text_of(random.Random(1), given))
                sides.append((program_runs(heavy, path) if heavy else {}) | (library_runs(path) if with_library else {}))
            for what, run in sides[0].items():
                times = [(run(), sides[1][what]()) for _ in range(runs)]
                one, other = (statistics.median(side) for side in zip(*times))
                worst = max(worst, one / other)
                print(f"{name}, {count:7} keys, {what}: {one:.3f} s beside {other:.3f} s, {one / other:.2f}", flush=True)
    print(f"the largest ratio is {worst:.2f}, and {MOST} is the most")


if __name__ == "__main__":
    main()
