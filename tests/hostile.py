"""How hostile input is made, and how what the program says of it is compared."""
import os
import sys
import time
from collections.abc import Callable
from concurrent.futures import ThreadPoolExecutor
from dataclasses import dataclass
from random import Random

import corpus
import programs
import reference

# No run has more address space.
KILOBYTES = "100000"
LIMITED = ["sh", "-c", 'ulimit -v "$0"; exec "$@"', KILOBYTES]


@dataclass
class Case:
    """A command with files, words behind them and an input, and what it has to say: its status, standard output and
    standard error. A text among the files is a word that names one."""

    command: list[bytes | str]
    files: list[bytes | str]
    words: list[bytes]
    given: bytes
    expected: tuple[int, bytes, bytes]


def mutate(draw: Random, data: bytearray, pieces: list[bytes]) -> None:
    """Changes some bytes: one flipped, a piece put over or between, a part cut out, doubled or exchanged."""
    at = draw.randrange(len(data) + 1)
    end = min(len(data), at + draw.choice([1, 1, 2, 8, 9, 16]))
    match draw.randrange(7):
        case 0 if data:
            data[at % len(data)] ^= 1 << draw.randrange(8)
        case 1:
            piece = draw.choice(pieces)
            data[at : at + len(piece)] = piece
        case 2:
            data[at:at] = draw.choice(pieces)
        case 3:
            del data[at:end]
        case 4:
            data[at:at] = data[at:end]
        case 5:
            del data[at:]
        case 6 if data:
            data[at % len(data)] = draw.choice([0, 1, 2, 16, 17, 0x49, 0x7F, 0x80, 0xFF])


def ran(program: str, room: str, number: int, case: Case) -> str | None:
    """What was wrong with a run, if anything."""
    files = {f"{room}/{number}-{i}": data for i, data in enumerate(case.files)}
    saved = {path: data for path, data in files.items() if isinstance(data, bytes)}
    for path, data in saved.items():
        with open(path, "wb") as file:
            file.write(data)
    paths = [path if path in saved else data for path, data in files.items()]
    ended = programs.run([*LIMITED, program, *case.command, *paths, "--", *case.words], case.given)
    for path in saved:
        os.remove(path)
    said = (ended.status, ended.out, programs.first_line(ended.err))
    status, out, err = case.expected
    expected = (status, out, err.replace(reference.SAVED, f"{room}/{number}-0".encode()))
    if said != expected:
        return f"{said} in place of {expected}"
    return None


def chosen(cases: int) -> tuple[range, int]:
    """The numbers of the cases and the seed, as the command line has them: CASES [SEED [FIRST]]."""
    words = [int(word) for word in sys.argv[1:4]]
    if words:
        cases = words[0]
    seed = words[1] if len(words) > 1 else time.time_ns() % 1_000_000_007
    first = words[2] if len(words) > 2 else 0
    return range(first, first + cases), seed


def again(seed: int, number: int, test: str) -> str:
    """The command that makes this case alone once more."""
    return f"repeat it by: tests/{os.path.basename(sys.argv[0])} 1 {seed} {number} --only {test}"


class Hostile(programs.Checks):
    """What is kept in the corpus, and then cases of a seed, as `case` makes them; a script takes them as its words."""

    def try_kept(self, kept: list[corpus.Kept], cases_of: Callable[[corpus.Kept], list[Case]]) -> None:
        """Tries what these cases make of each file that is kept."""
        program = programs.built("heavy_cli")
        self.check("there are kept files", len(kept) > 20, len(kept))

        def one(numbered: tuple[int, tuple[corpus.Kept, Case]]) -> tuple[corpus.Kept, Case, str | None]:
            number, (file, made) = numbered
            return file, made, ran(program, self.room, number, made)

        with ThreadPoolExecutor() as pool:
            for file, made, wrong in pool.map(one, enumerate((file, made) for file in kept for made in cases_of(file))):
                self.check(f"{file.name} by {made.command}", wrong is None, f"{file.why}: {made}: {wrong}")

    def try_cases(self, case: Callable[[Random], Case]) -> None:
        numbers, seed = chosen(2_000)
        print(f"{len(numbers)} cases of seed {seed}", flush=True)
        program = programs.built("heavy_cli")

        def one(number: int) -> tuple[int, Case, str | None]:
            made = case(Random(f"{seed}/{number}"))
            return number, made, ran(program, self.room, number, made)

        with ThreadPoolExecutor() as pool:
            for number, made, wrong in pool.map(one, numbers):
                said = f"{again(seed, number, 'test_cases')}\n{made}: {wrong}"
                self.check(f"case {number} of seed {seed}", wrong is None, said)
