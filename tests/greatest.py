#!/usr/bin/env python3
"""The greatest keys of records, by 1 to 8 workers, set beside an exact dictionary: of few keys, of keys that tie at the last
place that is printed, of long keys, and of more keys than --memory has room for. There the program may refuse. Then what it says
is compared with the dictionary, and each number of workers says the same.

usage: tests/greatest.py [CASES [SEED]]

Prints the seed, how many cases ran, how many of them were refused and how many differed. Each case has a seed of its own, one
more than the case before it, and one that fails is told with the command that repeats it.
"""
import re
import sys
import time
from collections import Counter
from pathlib import Path
from random import Random

import programs
from report_files import quoted

# how many keys a worker has counters for, before one worker has all memory
FIRST_KEYS = 131_072
# a key for each so many bytes of memory, and the keys that are kept whatever bytes they have
KEY, WHOLE_KEY = 128, 4_000
LEAST_MEMORY, MEGABYTE = 256_000, 1_000_000
# what a refusal says, and its second line
REFUSED = re.compile(
    rb"heavy: of the greatest keys only (\d+) are certain\n"
    rb"  the next key weighs at most (\d+): a --memory above (\d+) leaves less open\n"
)
SPECIAL = [b"a,b", b'say "so"', b"two\nlines", b"k" * 300, b"k" * 4_096, b"\xff"]


def chosen() -> tuple[int, int]:
    """The number of cases and the seed, as the command line has them."""
    cases = int(sys.argv[1]) if len(sys.argv) > 1 else 200
    return cases, int(sys.argv[2]) if len(sys.argv) > 2 else time.time_ns() % 1_000_000_007


def few_items(random: Random) -> list[tuple[bytes, int]]:
    """Items of few keys, whose weights are small, so that many keys tie."""
    keys = [b"%d" % number for number in range(random.choice([1, 3, 30, 300]))] + random.sample(SPECIAL, 2)
    most = random.choice([1, 2, 5, 1000])
    return [(random.choice(keys), random.randint(1, most)) for _ in range(random.choice([0, 1, 10, 300, 20_000]))]


def room_for(megabytes: int) -> int:
    """How many short keys have room in so much memory."""
    return max(LEAST_MEMORY, megabytes * MEGABYTE) // KEY


def whole_in(megabytes: int) -> int:
    """How many keys are kept in it, whatever bytes they have."""
    return min(2 * 65_536, max(LEAST_MEMORY, megabytes * MEGABYTE) // WHOLE_KEY)


def many_items(random: Random) -> list[tuple[bytes, int]]:
    """Items of about as many keys as a megabyte has room for, or a worker at first, or of more, with some that weigh more."""
    count = random.choice([room_for(1)] * 9 + [FIRST_KEYS]) + random.choice([-1, 0, 1, 2, 1_000, 20_000])
    items = [(b"%d" % number, random.choice([1, 1, 1, 2])) for number in range(count)]
    items += [(b"big%d" % number, random.choice([3, 10, 10, 1_000])) for number in range(random.choice([0, 1, 20]))]
    random.shuffle(items)
    return items


def long_items(random: Random) -> list[tuple[bytes, int]]:
    """Items of long keys, about as many as a megabyte has room for, or more, with some that weigh more."""
    size, count = random.choice([100, 500, 4_096]), whole_in(1) + random.choice([-1, 0, 1, 2, 300])
    items = [((b"%d" % number).rjust(size, b"x"), random.choice([1, 1, 2])) for number in range(count)]
    items += [((b"big%d" % number).ljust(size, b"y"), random.choice([3, 100])) for number in range(random.choice([0, 1, 5]))]
    random.shuffle(items)
    return items


def ranked(items: list[tuple[bytes, int]]) -> list[tuple[bytes, int]]:
    """All keys with their weights, by falling weight and then by rising key."""
    weights: Counter[bytes] = Counter()
    for key, weight in items:
        weights[key] += weight
    return sorted(weights.items(), key=lambda entry: (-entry[1], entry[0]))


def place_of(random: Random, rows: list[tuple[bytes, int]]) -> int:
    """How many keys are asked for: often so that the last of them ties with the next one."""
    ties = [n for n in range(1, len(rows)) if rows[n - 1][1] == rows[n][1]]
    if ties and random.random() < 0.6:
        return random.choice(ties)
    return random.choice([1, 2, 10, len(rows), len(rows) + 1, 2**64 - 1]) or 1


def text_of(rows: list[tuple[bytes, int]]) -> bytes:
    """The rows as the program prints them."""
    return b"".join(b"%s,%d\n" % (quoted(key.replace(b'"', b'""')), weight) for key, weight in rows)


def fits(rows: list[tuple[bytes, int]], megabytes: int) -> bool:
    """Whether there are counters for all keys in so much memory."""
    size = sum(len(key) for key, _ in rows)
    quarter = max(LEAST_MEMORY, megabytes * MEGABYTE) // 4
    return len(rows) <= whole_in(megabytes) or (len(rows) <= room_for(megabytes) and size <= quarter)


def is_right(ended: programs.Ended, n: int, rows: list[tuple[bytes, int]], megabytes: int) -> bool:
    """Whether a run printed the n first rows; or refused them, where there are more keys than fit in memory."""
    if ended.status == 0:
        return ended.out == text_of(rows[:n]) and ended.err == b""
    told = REFUSED.fullmatch(ended.err)
    if ended.status != 3 or ended.out != b"" or told is None or fits(rows, megabytes):
        return False
    certain, most = int(told[1]), int(told[2])
    above = sum(weight > most for _, weight in rows)
    little = whole_in(megabytes) // 2 * most <= sum(weight for _, weight in rows)
    return certain == above and certain < n and 0 < most and little and int(told[3]) == megabytes


class Greatest(programs.Checks):
    """The greatest keys, beside a dictionary."""

    def test_drawn(self) -> None:
        """Items that are drawn, in one file or in several, or on standard input, by three numbers of workers."""
        program = programs.built("heavy_cli")
        cases, seed = chosen()
        refused = differed = 0
        for own in range(seed, seed + cases):
            random = Random(own)
            items = random.choices([few_items, many_items, long_items], [4, 3, 1])[0](random)
            rows = ranked(items)
            n = place_of(random, rows)
            # by default there is memory for more keys than come
            memory, megabytes = random.choice([([], 256), (["--memory", "1"], 1), (["--memory", "0"], 0)])
            count = random.choice([0, 1, 1, 3])
            paths = [f"{self.room}/{place}.csv" for place in range(count)]
            for place, path in enumerate(paths):
                Path(path).write_bytes(text_of(items[place::count]))
            text = b"" if paths else text_of(items)
            workers = random.sample(range(1, 9), 3)
            words = [program, "top", "--explain", *memory, str(n), *paths]
            runs = [programs.run([*words, "--workers", str(each)], text) for each in workers]
            holds = all(is_right(ended, n, rows, megabytes) and ended == runs[0] for ended in runs)
            refused += runs[0].status != 0
            differed += not holds
            said = [(ended.status, ended.out[:200], ended.err[:200]) for ended in runs]
            self.check(f"top {n}, again by tests/greatest.py 1 {own}", holds, (workers, memory, said))
        print(f"seed {seed}: {cases} cases, {refused} of them refused, {differed} differ")

    def test_grown(self) -> None:
        """Counters that grow until the greatest keys are certain, or as far as --memory lets them: for all workers together."""
        program = programs.built("heavy_cli")
        equal = [(b"%d" % number, 1) for number in range(200_000)]
        more = [(b"%d" % number, 1) for number in range(400_000)]
        # ten keys that weigh as much as their own number of others do, behind as many keys
        behind = [(b"%d" % number, 1) for number in range(400_000)] + [(b"big%d" % number, 3) for number in range(10)]
        path = Path(f"{self.room}/grown.csv")
        for items, n, megabytes, workers, grows in (
            (equal, 10, 256, 4, True),
            (equal, 10, 256, 1, True),
            (equal, 100_000, 256, 2, True),
            (equal, 300_000, 128, 4, True),
            (equal, 10, 1, 4, False),
            (equal, 10, 1, 1, False),
            (more, 10, 64, 4, True),
            (more, 10, 64, 1, True),
            (more, 10, 50, 4, False),
            (more, 10, 50, 1, False),
            (behind, 11, 64, 1, True),
            (behind, 11, 40, 1, False),
            (behind, 11, 40, 4, False),
        ):
            words = ["--memory", str(megabytes), "--workers", str(workers)]
            rows = ranked(items)
            path.write_bytes(text_of(items))
            for named, text in (([str(path)], b""), ([], text_of(items))):
                ended = programs.run([program, "top", "--explain", *words, str(n), *named], text)
                holds = is_right(ended, n, rows, megabytes) and (ended.status == 0) == grows
                self.check(f"top {n} {' '.join(words)}", holds, (named, ended.status, ended.out[:200], ended.err[:200]))


if __name__ == "__main__":
    programs.run_tests("greatest")
