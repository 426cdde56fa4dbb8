"""The fields of records that are lines of JSON, read by Python's json, and such lines by chance."""
import json
from random import Random

DEEPEST = 128
KEYS = [b"a", b"b", b"x y", "é".encode(), b"a/b", b"~", b"/o/a", b"/o/n", b"/l/0", b"/a~1b", b"/~0", b"/o/o/b"]
WEIGHTS = [b"n", b"/o/n", b"/l/1"]
STRINGS = ["x", "y", "", "a b", "a,b", 'q"q', "1", "true", "é", "😀", "l\nf", "back\\slash", "k" * 4097, "?a", "kq"]
NUMBERS = ["0", "1", "2", "7", "12", "-0", "-1", "1.5", "0.25", "1e3", "1.10", "9223372036854775807", "01", "1.", "+1", "NaN"]
BAD = [
    "", "{}", "[]", "null", "1", '"a"', '{"a":1}x', '{"a":"\\ud800","b":1}', '{"a":1,}', '{"a"}', "{'a':1}", '{"a":"\x01"}', "\\x7b",
    '{"a":' + "[" * 126 + "]" * 126 + "}", '{"a":1,"b":' + "[" * 128 + "]" * 128 + "}",
]


class Object(list):
    """An object, as its pairs."""


class Number(str):
    """A number, as it is spelled."""


def refuse(word: str) -> None:
    """Refuses a constant that JSON doesn't have."""
    raise ValueError(word)


def is_sound(value: object) -> bool:
    """Whether no string of a value has a lone surrogate, and no part of it stands too deep."""
    left = [(value, 1)]
    while left:
        inner, level = left.pop()
        if isinstance(inner, list):
            if level > DEEPEST:
                return False
            parts = [part for pair in inner for part in pair] if isinstance(inner, Object) else inner
            left += [(part, level + 1) for part in parts]
        elif isinstance(inner, str) and any("\ud800" <= one <= "\udfff" for one in inner):
            return False
    return True


def object_in(line: bytes) -> Object | None:
    """The object that a line is."""
    hooks = {"object_pairs_hook": Object, "parse_int": Number, "parse_float": Number, "parse_constant": refuse}
    try:
        value = json.loads(line.decode(), **hooks)
    except (ValueError, RecursionError):
        return None
    return value if isinstance(value, Object) and is_sound(value) else None


def member(value: object, name: bytes) -> object:
    """The last member of an object that has this name."""
    found = [inner for other, inner in value if other.encode() == name] if isinstance(value, Object) else []
    return found[-1] if found else None


def item(value: list[object], part: bytes) -> object:
    """The item of an array that a part of a pointer numbers."""
    is_number = part.isdigit() and (part == b"0" or part[:1] != b"0")
    return value[int(part)] if is_number and int(part) < len(value) else None


def named(value: object, name: bytes) -> object:
    """The value that a name or a pointer leads to."""
    if not name.startswith(b"/"):
        return member(value, name)
    for part in name[1:].split(b"/"):
        if isinstance(value, list) and not isinstance(value, Object):
            value = item(value, part)
        else:
            value = member(value, part.replace(b"~1", b"/").replace(b"~0", b"~"))
    return value


def fields(names: list[bytes], weight: bytes | None, line: bytes) -> list[bytes]:
    """The texts of the members of a line that names name, and that of the weight, or none."""
    value = object_in(line)
    if value is None:
        return []
    found = [named(value, name) for name in names]
    found = [str(one).lower() if isinstance(one, bool) else one for one in found]
    if weight is not None:
        number = named(value, weight)
        found.append(number if isinstance(number, Number) else None)
    return [one.encode() for one in found] if all(isinstance(one, str) for one in found) else []


# ---- lines by chance


def spelled(draw: Random, text: str) -> str:
    """A string as a line may spell it."""
    whole = json.dumps(text, ensure_ascii=draw.random() < 0.5)
    return whole.replace("a", "\\u0061") if draw.random() < 0.2 else whole


def scalar(draw: Random) -> str:
    """A value that is a key, but for a few."""
    if draw.random() < 0.03:
        return draw.choice(["null", "[1]", "{}", draw.choice(NUMBERS)])
    chance = draw.random()
    if chance < 0.6:
        return spelled(draw, draw.choice(STRINGS[:2] if draw.random() < 0.8 else STRINGS))
    return draw.choice(["1", "2", "1.10", "-1", "1e3"]) if chance < 0.9 else draw.choice(["true", "false"])


def number(draw: Random) -> str:
    """A value that is a weight, but for a few."""
    return draw.choice(["1", "2", "3", "7"]) if draw.random() < 0.97 else draw.choice([*NUMBERS, '"1"', "null"])


def spelled_object(draw: Random, pairs: list[tuple[str, str]]) -> str:
    """An object with these members in any order, some of them twice or not at all."""
    kept = [pair for pair in pairs if draw.random() < 0.995]
    if draw.random() < 0.1:
        kept.append(draw.choice(pairs))
    draw.shuffle(kept)
    blank = draw.choice(["", "", " ", "\t"])
    inner = f",{blank}".join(f"{spelled(draw, name)}{blank}:{blank}{value}" for name, value in kept)
    return "{" + blank + inner + blank + "}"


def line(draw: Random) -> bytes:
    """A line that has all members of KEYS and WEIGHTS, but for a few."""
    if draw.random() < 0.01:
        return draw.choice(BAD).encode(errors="surrogatepass")
    deep = spelled_object(draw, [("b", scalar(draw))])
    inner = spelled_object(draw, [("a", scalar(draw)), ("n", number(draw)), ("o", deep)])
    array = f"[{scalar(draw)}, {number(draw)}]"
    names = ["a", "b", "x y", "é", "a/b", "~"]
    return spelled_object(draw, [*((name, scalar(draw)) for name in names), ("n", number(draw)), ("o", inner), ("l", array)]).encode()


def text(draw: Random, ends: list[bytes]) -> bytes:
    """A text of such lines, of which some bytes may be others."""
    parts = [part for _ in range(draw.randrange(9)) for part in (line(draw), draw.choice(ends))]
    return b"".join(parts[:-1] if draw.random() < 0.4 else parts)
