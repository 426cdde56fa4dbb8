"""What the program has to answer, written a second time: a reader of records and of saved files, Misra-Gries, and
the commands. It follows docs/FORMATS.md and shares nothing with the program."""
import hashlib
import re
from dataclasses import dataclass

MAX_TOTAL = 2**63 - 1
MAX_KEY = 4096
PRIME = 2**61 - 1

# The magic of each version of saved files, with how many bytes the length of a key has, and the most that it says.
VERSIONS = {b"HHS1": (1, 255), b"HHS2": (2, MAX_KEY)}
NEWEST = b"HHS2"

Item = tuple[bytes, int]


# the name of a saved file in what is said of it
SAVED = b"\0saved\0"
OUTSIDE = "file 1: a key's weight in the input is outside its bounds"


class Refused(Exception):
    """A refusal: its text and its exit status."""

    def __init__(self, text: str, status: int = 3) -> None:
        super().__init__(text)
        self.text = text
        self.status = status


# ---- records


def fields_of(text: bytes, delimiter: bytes = b",") -> list[list[bytes]]:
    """The records of a text, as csv reads them by default: fields may be quoted, a line ends by a carriage return, a
    line feed or both, and a line without bytes is none. A byte order mark in front is left out."""
    text = text.removeprefix(b"\xef\xbb\xbf")
    ends = re.compile(b"[%s\r\n]" % re.escape(delimiter))
    records: list[list[bytes]] = []
    at, end = 0, len(text)
    while True:
        while at < end and text[at] in b"\r\n":
            at += 1
        if at >= end:
            return records
        record, is_open = [], True
        while is_open:
            field = bytearray()
            if text[at : at + 1] == b'"':
                at += 1
                while at < end:
                    quote = text.find(b'"', at)
                    quote = end if quote < 0 else quote
                    field += text[at:quote]
                    at = quote + 1
                    if text[at : at + 1] != b'"':
                        break
                    field.append(0x22)
                    at += 1
            found = ends.search(text, at)
            stop = found.start() if found else end
            field += text[at:stop]
            record.append(bytes(field))
            is_open = text[stop : stop + 1] == delimiter
            at = stop + 1
        records.append(record)


def items_of_records(records: list[list[bytes]], by_column: bool = False) -> list[Item]:
    """The stream of some records, or the refusal of the first bad one. A record is a key and, where it has a second field,
    its weight; by column it has both, and what else it has is passed over."""
    items: list[Item] = []
    total = 0
    for number, record in enumerate(records, 1):
        cause, weight = None, 1
        if len(record) < 2 if by_column else len(record) > 2:
            cause = "wrong number of fields"
        elif not record[0]:
            cause = "empty key"
        elif len(record[0]) > MAX_KEY:
            cause = "key too long"
        elif len(record) >= 2 and not (1 <= len(record[1]) <= 20 and all(b in b"0123456789" for b in record[1])):
            cause = "bad weight"
        else:
            weight = int(record[1]) if len(record) >= 2 else 1
            if weight == 0:
                cause = "zero weight"
            elif total + weight > MAX_TOTAL:
                cause = "total too large"
        if cause:
            raise Refused(f"record {number}: {cause}")
        items.append((record[0], weight))
        total += weight
    return items


def items_of(text: bytes) -> list[Item]:
    """The stream of a text, or the refusal of its first bad record."""
    return items_of_records(fields_of(text))


def weights_of(items: list[Item]) -> dict[bytes, int]:
    weights: dict[bytes, int] = {}
    for key, weight in items:
        weights[key] = weights.get(key, 0) + weight
    return weights


def total_of(items: list[Item]) -> int:
    return sum(weight for _, weight in items)


# ---- reports


def field_text(field: bytes) -> bytes:
    if any(byte in b',"\r\n' for byte in field):
        return b'"' + field.replace(b'"', b'""') + b'"'
    return field


def number_text(number: int, decimals: int) -> bytes:
    """A number with so many of its last digits behind a point."""
    digits = str(number).rjust(decimals + 1, "0")
    return (f"{digits[:-decimals]}.{digits[-decimals:]}" if decimals else digits).encode()


def row_text(*fields: bytes | int, decimals: int = 0) -> bytes:
    texts = [number_text(field, decimals) if isinstance(field, int) else field_text(field) for field in fields]
    return b",".join(texts) + b"\n"


def rows_text(rows: list[Item], decimals: int = 0) -> bytes:
    return b"".join(row_text(key, weight, decimals=decimals) for key, weight in rows)


def percent(weight: int, total: int) -> bytes:
    """The weight's share of the total in percent with four digits, each found by dividing what is left."""
    whole, left = divmod(100 * weight, total)
    digits = []
    for _ in range(4):
        digit, left = divmod(10 * left, total)
        digits.append(digit)
    return b"%d.%d%d%d%d" % (whole, *digits)


def printed_rows(rows: list[Item], total: int, top: int | None, shared: bool, decimals: int) -> bytes:
    """At most the first rows, with shares of the total or without."""
    first = rows if top is None else rows[:top]
    shares = [[percent(weight, total)] * shared for _, weight in first]
    return b"".join(row_text(*row, *share, decimals=decimals) for row, share in zip(first, shares))


def heavy(items: list[Item], p: int, q: int) -> list[Item]:
    """The keys with more than p/q of the total, by falling weight and then by rising key."""
    total = total_of(items)
    rows = [(key, weight) for key, weight in weights_of(items).items() if q * weight > p * total]
    return sorted(rows, key=lambda row: (-row[1], row[0]))


# ---- summaries


@dataclass
class Summary:
    k: int
    total: int
    counters: dict[bytes, int]

    def slack(self) -> int:
        return (self.total - sum(self.counters.values())) // (self.k + 1)


@dataclass
class Table:
    width: int
    z: int
    rows: list[tuple[int, int]]
    total: int
    cells: list[list[int]]


def cut(counters: dict[bytes, int], k: int) -> dict[bytes, int]:
    """The counters less the largest but k, those above 0."""
    ranked = sorted(counters.values(), reverse=True)
    level = ranked[k] if len(ranked) > k else 0
    return {key: counter - level for key, counter in counters.items() if counter > level}


def misra_gries(items: list[Item], k: int) -> Summary:
    counters: dict[bytes, int] = {}
    for key, weight in items:
        counters[key] = counters.get(key, 0) + weight
        if len(counters) > k:
            counters = cut(counters, k)
    return Summary(k, total_of(items), counters)


def places(table: Table, key: bytes) -> list[int]:
    """The cell of a key in each row."""
    fingerprint = 0
    for byte in key:
        fingerprint = (fingerprint * table.z + byte + 1) % PRIME
    return [(a * fingerprint + b) % PRIME % table.width for a, b in table.rows]


def estimate(table: Table, key: bytes) -> int:
    return min(row[place] for row, place in zip(table.cells, places(table, key)))


# ---- saved files


def number(value: int, size: int) -> bytes:
    return value.to_bytes(size, "big")


def written(saved: Summary | Table, magic: bytes = NEWEST) -> bytes:
    """The spelling in a version, whose keys are no longer than the version allows."""
    if isinstance(saved, Summary):
        parts = [magic, b"\x01", number(saved.k, 2), number(saved.total, 8), number(len(saved.counters), 2)]
        for key in sorted(saved.counters):
            parts += [number(len(key), VERSIONS[magic][0]), key, number(saved.counters[key], 8)]
        return b"".join(parts)
    parts = [magic, b"\x02", number(saved.width, 4), number(len(saved.rows), 1), number(saved.z, 8)]
    parts += [number(a, 8) + number(b, 8) for a, b in saved.rows]
    parts.append(number(saved.total, 8))
    parts += [number(cell, 8) for row in saved.cells for cell in row]
    return b"".join(parts)


class Fields:
    """Bytes read field by field."""

    def __init__(self, data: bytes) -> None:
        self.data = data
        self.at = 0

    def take(self, size: int) -> bytes:
        if len(self.data) - self.at < size:
            raise Refused("truncated")
        self.at += size
        return self.data[self.at - size : self.at]

    def number(self, size: int, holds, fault: str) -> int:
        value = int.from_bytes(self.take(size), "big")
        if not holds(value):
            raise Refused(fault)
        return value


def read_summary(fields: Fields, magic: bytes) -> Summary:
    size, longest = VERSIONS[magic]
    k = fields.number(2, lambda n: n > 0, "bad k")
    total = fields.number(8, lambda n: n <= MAX_TOTAL, "total too large")
    count = fields.number(2, lambda n: n <= k, "bad count")
    counters: dict[bytes, int] = {}
    before, added = b"", 0
    for _ in range(count):
        key = fields.take(fields.number(size, lambda n: 1 <= n <= longest, "bad key"))
        if key <= before:
            raise Refused("keys out of order")
        counter = fields.number(8, lambda n: n > 0, "bad counter")
        before, added = key, added + counter
        if added > total:
            raise Refused("counters above total")
        counters[key] = counter
    return Summary(k, total, counters)


def read_table(fields: Fields) -> Table:
    width = fields.number(4, lambda n: 1 <= n <= 65536, "bad width")
    depth = fields.number(1, lambda n: 1 <= n <= 16, "bad depth")
    family = Fields(fields.take(8 + 16 * depth))
    z = int.from_bytes(family.take(8), "big")
    rows = [(int.from_bytes(family.take(8), "big"), int.from_bytes(family.take(8), "big")) for _ in range(depth)]
    if not (1 <= z < PRIME and all(1 <= a < PRIME and b < PRIME for a, b in rows)):
        raise Refused("bad coefficient")
    total = fields.number(8, lambda n: n <= MAX_TOTAL, "total too large")
    cells = []
    for _ in range(depth):
        row = Fields(fields.take(8 * width))
        cells.append([int.from_bytes(row.take(8), "big") for _ in range(width)])
        if sum(cells[-1]) != total:
            raise Refused("row does not sum to total")
    return Table(width, z, rows, total, cells)


def sealed(decimals: int, spelling: bytes) -> bytes:
    """The sealed file of a spelling with these decimals."""
    covered = b"HVY1" + bytes([decimals]) + spelling
    return covered + hashlib.sha256(covered).digest()


def read(data: bytes) -> Summary | Table:
    """The value that the bytes spell in a version, or the first fault from the left."""
    fields = Fields(data)
    magic = fields.take(4)
    if magic not in VERSIONS:
        raise Refused("bad magic")
    kind = fields.number(1, lambda n: n in (1, 2), "bad kind")
    saved = read_summary(fields, magic) if kind == 1 else read_table(fields)
    if fields.at < len(data):
        raise Refused("trailing bytes")
    return saved


def read_file(data: bytes, place: int = 1) -> Summary | Table:
    try:
        return read(data)
    except Refused as fault:
        raise Refused(f"file {place}: {fault.text}") from None


# ---- commands. Those that read records take the reader of these too.


def share_of(text: bytes, k: int) -> tuple[int, int]:
    """The share P/Q that a text names."""
    numbers = text.split(b"/")
    if len(numbers) == 2 and all(1 <= len(one) <= 10 and all(b in b"0123456789" for b in one) for one in numbers):
        p, q = int(numbers[0]), int(numbers[1])
        if 1 <= p <= q <= 2**32 and p * (k + 1) >= q:
            return p, q
    raise Refused("threshold must be P/Q with 1 <= P <= Q <= 4294967296 and P*(K+1) >= Q", 2)


def report(
    text, k: int, share: bytes | None = None, top: int | None = None, shared: bool = False, reader=items_of, decimals: int = 0
) -> bytes:
    p, q = (1, k + 1) if share is None else share_of(share, k)
    items = reader(text)
    return printed_rows(heavy(items, p, q), total_of(items), top, shared, decimals)


def summarise(text, k: int, reader=items_of) -> bytes:
    return written(misra_gries(reader(text), k))


def ask(data: bytes, keys: list[bytes]) -> bytes:
    saved = read_file(data)
    for place, key in enumerate(keys, 1):
        if not key:
            raise Refused(f"key {place}: empty")
        if len(key) > MAX_KEY:
            raise Refused(f"key {place}: too long")
    rows = []
    for key in keys:
        if isinstance(saved, Summary):
            low = saved.counters.get(key, 0)
            rows.append(row_text(key, low, low + saved.slack()))
        else:
            rows.append(row_text(key, 0, estimate(saved, key)))
    return b"".join(rows)


def merge_two(one: Summary | Table, other: Summary | Table, place: int) -> Summary | Table:
    def refuse(cause: str) -> None:
        raise Refused(f"file {place}: {cause}")

    if type(one) is not type(other):
        refuse("another kind")
    if isinstance(one, Summary):
        if one.k != other.k:
            refuse("another k")
        if one.total + other.total > MAX_TOTAL:
            refuse("total too large")
        added = dict(one.counters)
        for key, counter in other.counters.items():
            added[key] = added.get(key, 0) + counter
        return Summary(one.k, one.total + other.total, cut(added, one.k))
    if (one.z, one.rows) != (other.z, other.rows):
        refuse("another hash family")
    if one.width != other.width:
        refuse("another width")
    if one.total + other.total > MAX_TOTAL:
        refuse("total too large")
    cells = [[a + b for a, b in zip(*rows)] for rows in zip(one.cells, other.cells)]
    return Table(one.width, one.z, one.rows, one.total + other.total, cells)


def merge(files: list[bytes]) -> bytes:
    merged = read_file(files[0])
    for place, data in enumerate(files[1:], 2):
        merged = merge_two(merged, read_file(data, place), place)
    return written(merged)


def list_keys(data: bytes) -> bytes:
    saved = read_file(data)
    if not isinstance(saved, Summary):
        raise Refused("file 1: not a counter summary")
    ranked = sorted(saved.counters.items(), key=lambda entry: (-entry[1], entry[0]))
    return b"".join(row_text(key, low, low + saved.slack()) for key, low in ranked)


def describe(data: bytes) -> bytes:
    saved = read_file(data)
    facts: list[tuple[bytes, bytes | int]] = [(b"version", int(data[3:4])), (b"kind", b"table")]
    if isinstance(saved, Summary):
        sum_of_counters = sum(saved.counters.values())
        facts[1] = (b"kind", b"summary")
        facts += [(b"k", saved.k), (b"keys", len(saved.counters)), (b"total", saved.total)]
        facts += [(b"counters", sum_of_counters), (b"slack", (saved.total - sum_of_counters) // (saved.k + 1))]
    else:
        facts += [(b"depth", len(saved.rows)), (b"width", saved.width), (b"total", saved.total)]
    return b"".join(row_text(*fact) for fact in facts)


def outside(saved: Summary, items: list[Item], low: bool) -> tuple[bytes, int, int, int] | None:
    """The first key of a summary that weighs more in items than it can, or, where `low` is asked for, less: with the least
    and the most that it weighs, and its weight."""
    weights = dict.fromkeys(saved.counters, 0)
    for key, weight in items:
        if key in weights:
            weights[key] += weight
    bounds = [(key, least, least + saved.slack(), weights[key]) for key, least in sorted(saved.counters.items())]
    return next((it for it in bounds if it[3] > it[2] or (low and it[3] < it[1])), None)


def confirm(
    data: bytes, text, share: bytes | None = None, top: int | None = None, shared: bool = False, reader=items_of, decimals: int = 0,
    refuses: bool = False,
) -> bytes:
    saved = read_file(data)
    if not isinstance(saved, Summary):
        raise Refused("file 1: not a counter summary")
    p, q = (1, saved.k + 1) if share is None else share_of(share, saved.k)
    items = reader(text)
    if total_of(items) != saved.total:
        raise Refused("file 1: its total is not the input's")
    if refuses and outside(saved, items, True) is not None:
        raise Refused(OUTSIDE)
    rows = [row for row in heavy(items, p, q) if row[0] in saved.counters]
    return printed_rows(rows, saved.total, top, shared, decimals)


def leading_row(key: bytes, weight: int, decimals: int) -> bytes:
    """A row whose key is in quotes where a reader would take a byte order mark off it."""
    row = rows_text([(key, weight)], decimals)
    return b'"%s"%s' % (key, row[len(key):]) if row.startswith(b"\xef\xbb\xbf") else row


def condense(data: bytes, text, reader=items_of, decimals: int = 0, refuses: bool = False) -> bytes:
    saved = read_file(data)
    if not isinstance(saved, Summary):
        raise Refused("file 1: not a counter summary")
    weights: dict[bytes, int] = {}
    others = 0
    items = list(reader(text))
    if refuses and outside(saved, items, False) is not None:
        raise Refused(OUTSIDE)
    for key, weight in items:
        if key in saved.counters:
            weights[key] = weights.get(key, 0) + weight
        else:
            others += weight
    rows = sorted(weights.items())
    if others > 0:
        names = (b"others%s" % (b"%d" % number if number else b"") for number in range(len(saved.counters) + 1))
        rows.append((next(name for name in names if name not in saved.counters), others))
    return leading_row(*rows[0], decimals) + rows_text(rows[1:], decimals) if rows else b""


def answer(command, *given, **how) -> tuple[int, bytes, bytes]:
    """The status, standard output and standard error of a command."""
    try:
        return 0, command(*given, **how), b""
    except Refused as fault:
        return fault.status, b"", f"heavy: {fault.text}\n".encode()


def shown(key: bytes) -> bytes:
    """A key as the program says it: bytes that no terminal shows, quotes and backslashes are escaped."""
    short = {9: b"\\t", 10: b"\\n", 13: b"\\r", 34: b'\\"', 39: b"\\'", 92: b"\\\\"}
    return b"".join(short.get(byte) or (b"%c" % byte if 32 <= byte < 127 else b"\\x%02x" % byte) for byte in key)


def compared(command, data: bytes, text, is_plain: bool, **how) -> tuple[int, bytes, bytes]:
    """The answer of `confirm` or `condense`: of plain records on standard input with a note, where a key is outside its
    bounds. There the name of the saved file is SAVED."""
    answered = answer(command, data, text, refuses=not is_plain, **how)
    if answered[0] != 0 or not is_plain:
        return answered
    saved = read_file(data)
    found = outside(saved, how.get("reader", items_of)(text), command is confirm)
    if found is None:
        return answered
    key, *numbers = found
    said = b"heavy: note: these aren't the records that were summarised: %s" % SAVED
    return 0, answered[1], said + b' has "%s" from %d to %d, and the records have %d\n' % (shown(key), *numbers)
