#!/usr/bin/env python3
"""Writes N records key,weight to standard output: Zipf-distributed keys, uniform or all different ones.

usage: zipf.py zipf|uniform|different [N] [KEYS] [LENGTH]

1,000,000 records over 100,000 keys; the seed is fixed. With LENGTH each key is a number of so many
digits to the base 36, else `key` and a decimal number.
"""
import random
import sys

DIGITS = "0123456789abcdefghijklmnopqrstuvwxyz"
# so many records are written at once
BLOCK = 100_000


def word(number: int, length: int) -> str:
    """The number as so many digits to the base 36, or as `key` and a decimal number."""
    if length == 0:
        return f"key{number}"
    digits = ""
    while number > 0:
        number, digit = divmod(number, 36)
        digits = DIGITS[digit] + digits
    return digits.rjust(length, "0")


def zipf_ranks(draw: random.Random, count: int, keys: int) -> list[int]:
    total, sums = 0.0, []
    for rank in range(1, keys + 1):
        total += 1.0 / rank
        sums.append(total)
    return draw.choices(range(keys), cum_weights=sums, k=count)


def main() -> None:
    shape, *numbers = sys.argv[1:]
    count, keys, length = [int(number) for number in numbers] + [1_000_000, 100_000, 0][len(numbers):]
    draw = random.Random(20_260_101)
    if shape == "different":
        ranks = range(count)
    elif shape == "uniform":
        ranks = draw.choices(range(keys), k=count)
    else:
        ranks = zipf_ranks(draw, count, keys)
    for first in range(0, count, BLOCK):
        part = ranks[first : first + BLOCK]
        sys.stdout.write("".join(f"{word(rank, length)},{draw.randint(1, 100)}\n" for rank in part))


main()
