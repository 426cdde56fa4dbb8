#!/usr/bin/env python3
"""Runs two programs on the same random cases, and prints each case on which they differ: in what they write to standard
output, in their status, or, where that is not 0, in the first line of standard error.

usage: bench/beside.py OLD NEW texts|verbs|commands FIRST COUNT [PROCESSES]

A case is known by its number, from FIRST on, so that one that differs is run again by itself. `texts` has one command over
texts with quotes, cuts, marks and faults; `verbs` has the six commands that read records, over pipes, files and both; and
`commands` has command lines of all commands, with faults in options, saved files and records. A summary by several
workers is not the same in each run, so that of such a one the status alone counts.
"""
import multiprocessing
import os
import random
import shutil
import subprocess
import sys
import tempfile

KEYS = [b"a", b"b", b"c", b"key", b"alpha", b"beta", b"10.0.0.1", b"x y", b"\xff\xfe", b"caf\xc3\xa9", b"_", b"0", b"7"]
FORMS = ["csv", "tsv", "json"]
COMMANDS = ["report", "top", "summarise", "table", "merge", "ask", "list", "describe", "condense", "confirm"]
# The shape of plain records.
PLAIN = {"good": True, "quotes": False, "json": False, "header": False, "decimals": 0, "delimiter": b",", "columns": 2, "weight": 1,
         "names": [b"key", b"weight", b"third", b"fourth"]}
SAME = "same"  # the name of the summary of the case's own records
READERS = ["report", "top", "summarise", "table", "confirm", "condense"]


def random_key(rng, good=True):
    kind = rng.random()
    if not good and kind < 0.01:
        return b""
    if kind < 0.75:
        return rng.choice(KEYS)
    if kind < 0.97:
        return b"k%d" % rng.randrange(60)
    return bytes([rng.randrange(97, 123)]) * rng.choice([50, 300, 2000, 4096] if good else [300, 4097, 5000, 20000, 70000])


def random_weight(rng, good):
    if good or rng.random() < 0.97:
        return b"%d" % rng.choice([1, 2, 3, 10, 99, rng.randrange(1, 10**6)])
    return rng.choice([b"0", b"-1", b"+5", b" 3", b"3 ", b"1e3", b"x", b"", b"1.5", b"0.25", b".5", b"007", b"18446744073709551615",
                       b"18446744073709551616", b"9223372036854775807", b"1\x00"])


def quoted(rng, field, delimiter):
    """Quotes a field, mostly as it should be."""
    if rng.random() < 0.6:
        return field
    inner = field + rng.choice([b"", b"", delimiter, b"\n", b"\r\n", b'""'])
    return b'"' + inner + b'"' if rng.random() < 0.97 else rng.choice([b'"' + inner, inner + b'"', b'"' + inner + b'"z', b'a"b"'])


def random_record(rng, columns, delimiter, shape):
    fields = []
    for place in range(columns):
        field = random_weight(rng, shape["good"]) if place == shape["weight"] else random_key(rng, shape["good"])
        if shape["decimals"] and place == shape["weight"] and rng.random() < 0.5:
            field += b".%d" % rng.randrange(10 ** shape["decimals"])
        fields.append(quoted(rng, field, delimiter) if shape["quotes"] else field)
    if not shape["good"] and rng.random() < 0.02:
        fields = fields[: rng.randrange(columns + 1)] + [b""] * rng.choice([0, 0, 1, 40])
    return delimiter.join(fields)


def json_record(rng, shape):
    if not shape["good"] and rng.random() < 0.03:
        return rng.choice([b"{", b"[]", b"{}", b'{"key":1', b"null", b'{"key":[1]}', b'{"key":"a","weight":"x"}'])
    key = rng.choice([b'"a"', b'"b"', b'"k%d"' % rng.randrange(50), b"7", b"true", b"null", b'"\\u00e9"', b'"\\n"', b'"a\\"b"'])
    members = [b'"key":' + key, b'"weight":' + random_weight(rng, shape["good"])]
    if rng.random() < 0.3:
        members.append(b'"other":{"key":[1,2,{"weight":3}]}')
    if rng.random() < 0.3:
        rng.shuffle(members)
    return b"{" + rng.choice([b",", b", "]).join(members) + b"}"


def random_text(rng, words, shape):
    """A text of records for the layout that the words name."""
    delimiter = shape["delimiter"]
    end = rng.choice([b"\n", b"\n", b"\n", b"\r\n", b"\r"])
    records = []
    if shape["header"]:
        records.append(delimiter.join(shape["names"]))
    for _ in range(rng.choice([0, 1, 3, 10, 40, 150])):
        if shape["json"]:
            records.append(json_record(rng, shape))
        else:
            records.append(random_record(rng, shape["columns"], delimiter, shape))
        if rng.random() < 0.02:
            records.append(b"" if shape["good"] else rng.choice([b"", b" ", b"\r", delimiter]))
    text = end.join(records) + rng.choice([end, end, end, b"", b"\n\n", b"\r"])
    if rng.random() < 0.05:
        text = b"\xef\xbb\xbf" + text
    if rng.random() < 0.03:
        text *= rng.choice([2, 20, 200])
        text = text[:600_000]
    return text


def random_layout(rng):
    """Words that name a layout, and the shape of texts for it."""
    words, shape = [], dict(PLAIN, good=rng.random() < 0.6, quotes=rng.random() < 0.5)
    kind = rng.random()
    if kind < 0.12:
        words.append("--lines")
        shape["columns"], shape["weight"] = 1, -1
    elif kind < 0.24:
        words.append("--json")
        shape["json"] = True
        words += ["--key", "key"] + (["--weight", "weight"] if rng.random() < 0.8 else [])
    else:
        if rng.random() < 0.3:
            shape["delimiter"] = rng.choice([b";", b"|", b"\t", b" "])
            words += ["-d", {b"\t": "\\t"}.get(shape["delimiter"], shape["delimiter"].decode())]
        if kind < 0.45:
            words.append(rng.choice(["--no-quotes", "--squeeze"]))
            shape["quotes"] = shape["quotes"] and rng.random() < 0.2
        shape["columns"] = rng.choice([1, 2, 2, 2, 3, 4])
        if shape["columns"] > 2 or rng.random() < 0.2:
            shape["header"] = rng.random() < 0.5
            words += ["-H"] if shape["header"] else []
            names = ["key", "third", "weight"] if shape["header"] and rng.random() < 0.7 else ["1", "3", "2"]
            for _ in range(rng.choice([1, 1, 2])):
                words += ["--key", rng.choice(names if rng.random() < 0.1 else names[: max(1, shape["columns"] - 1)])]
            words += ["--weight", names[2] if rng.random() < 0.95 else rng.choice(names)] if rng.random() < 0.6 else []
        if rng.random() < 0.3:
            shape["decimals"] = rng.randrange(1, 4)
            words += ["--decimals", str(shape["decimals"])]
    words += ["--allow-zero"] if rng.random() < 0.3 else []
    words += ["--bad-as", rng.choice(["?", "a", "bad"])] if rng.random() < 0.2 else []
    words += ["--until", rng.choice([".", "0", "ab", ""])] if rng.random() < 0.15 else []
    words += ["--prefix", str(rng.choice([0, 1, 2, 100]))] if rng.random() < 0.15 else []
    return words, shape


def row_words(rng):
    words = ["--output", rng.choice(FORMS)] if rng.random() < 0.3 else []
    return words + (["--names"] if rng.random() < 0.3 else [])


def summary_words(rng):
    return rng.choice([[], ["-k", str(rng.choice([1, 2, 3, 5, 10, 100, 1000]))]])


def reading_words(rng, verb, saved):
    """Words of a command that reads records, before those of its layout and its files."""
    words = [verb, "--workers", str(rng.choice([1, 1, 2, 3, 4]))]
    if verb == "report":
        words += summary_words(rng) if rng.random() < 0.8 else ["-t", rng.choice(["1/10", "1/3", "2/7"])]
        words += row_words(rng) + (["--share"] if rng.random() < 0.3 else [])
        words += ["-n", str(rng.randrange(4))] if rng.random() < 0.2 else []
        words += ["--memory", str(rng.choice([1, 2, 8]))] if rng.random() < 0.3 else []
        words += ["--pieces", str(rng.randrange(1, 9))] if rng.random() < 0.2 else []
        words += ["--tree", rng.choice(["balanced", "chain"])] if rng.random() < 0.2 else []
    elif verb == "top":
        words += row_words(rng) + (["--share"] if rng.random() < 0.3 else []) + [str(rng.choice([1, 2, 5, 20]))]
    elif verb == "summarise":
        words += summary_words(rng) + (["--method", rng.choice(["mg", "ss"])] if rng.random() < 0.4 else [])
    elif verb == "table":
        words += ["--width", str(rng.choice([1, 7, 64])), "--depth", str(rng.choice([1, 3])), "--seed", str(rng.randrange(3))]
    else:
        words += row_words(rng) + (["-t", rng.choice(["1/10", "1/3"])] if verb == "confirm" and rng.random() < 0.4 else [])
        words += [SAME if rng.random() < 0.8 else rng.choice(saved)]
    return words


def texts(rng, saved):
    layout, shape = random_layout(rng)
    words = reading_words(rng, rng.choice(READERS), saved)
    count = rng.choice([0, 1, 1, 2, 3])
    files = {f"f{place}": random_text(rng, layout, shape) for place in range(count)}
    # options stand before what names files
    return words[:1] + layout + words[1:] + list(files), files, random_text(rng, layout, shape) if not count else b""


def verbs(rng, saved):
    layout, shape = random_layout(rng) if rng.random() < 0.3 else ([], dict(PLAIN, good=rng.random() < 0.9))
    words = reading_words(rng, rng.choice(READERS), saved)
    count = rng.choice([0, 1, 2, 4])
    files = {f"f{place}": random_text(rng, layout, shape) for place in range(count)}
    names = list(files)
    if rng.random() < 0.4:
        names.insert(rng.randrange(count + 1), "-")
    return words[:1] + layout + words[1:] + names, files, random_text(rng, layout, shape)


def commands(rng, saved):
    verb = rng.choice(COMMANDS + ["help", "nothing", "--version"] if rng.random() < 0.05 else COMMANDS)
    layout, shape = random_layout(rng)
    files = {"r0": random_text(rng, layout, shape), "r1": random_text(rng, layout, shape)}
    some_saved = lambda: rng.choice(saved + ["missing", "r0"] if rng.random() < 0.2 else saved)
    if verb in READERS:
        words = reading_words(rng, verb, saved)
        words = words[:1] + (layout if rng.random() < 0.6 else []) + words[1:] + rng.choice([[], ["r0"], ["r0", "r1"], ["-", "r0"], ["missing"]])
    elif verb == "merge":
        words = [verb] + [some_saved() for _ in range(rng.choice([0, 1, 2, 3, 5]))]
    elif verb == "ask":
        words = [verb] + row_words(rng) + [some_saved()] + [random_key(rng)[:200].decode("latin-1").replace("\0", "") for _ in range(rng.randrange(4))]
    else:
        words = [verb] + row_words(rng) + [some_saved() for _ in range(rng.choice([0, 1, 1, 1, 1, 2]))]
    if rng.random() < 0.25:
        wrong = rng.choice([["--k", "0"], ["--k", "x"], ["--top", "-1"], ["--workers", "0"], ["--output", "xml"], ["--decimals", "20"], ["--width", "0"],
                            ["-d", "ab"], ["--key", ""], ["--what"], ["--k"], ["--threshold", "2"], ["-t", "0/1"], ["--seed", "99999999999999999999"],
                            ["--prefix", "x"], ["--method", "zz"], ["--tree", "oak"], ["--json", "--lines"], ["--explain"], ["--", "--k"],
                            ["--memory", "0"], ["--pieces", "0"], ["--depth", "0"], ["--names", "--names"], ["--decimals", "2"]])
        place = rng.randrange(1, len(words) + 1)
        words[place:place] = wrong
    return words, files, files["r0"]


def saved_files(program, folder):
    """Makes the saved files that cases name: summaries, tables, and such as are damaged."""
    rng = random.Random("saved")
    names = []
    for number, words in enumerate([["summarise", "-k", "2"], ["summarise", "-k", "5"], ["summarise", "-k", "5"], ["summarise", "-k", "100"], ["summarise"],
                                    ["table", "--width", "7"], ["table", "--width", "7", "--seed", "1"], ["table", "--width", "64", "--depth", "3"]]):
        text = b"\n".join(random_record(rng, 2, b",", PLAIN) for _ in range(150)) + b"\n"
        made = subprocess.run([program, *words, "--workers", "1"], input=text, stdout=subprocess.PIPE, stderr=subprocess.DEVNULL, check=True).stdout
        versions = [made]
        if number % 3 == 0:
            versions += [made[: len(made) // 2], made + b"x", made[:9] + bytes([made[9] ^ 4]) + made[10:]]
        for version, content in enumerate(versions):
            names.append(f"s{number}_{version}")
            with open(os.path.join(folder, names[-1]), "wb") as file:
                file.write(content)
    return names


def save_same(program, words, folder, given):
    """Saves the summary of the records that the words name under the name SAME."""
    place = words.index(SAME)
    layout = list(words[1:place])
    for option, values in (("--output", 1), ("-t", 1), ("--names", 0)):
        if option in layout:
            at = layout.index(option)
            layout[at : at + 1 + values] = []
    made = subprocess.run([program, "summarise", *layout, *words[place + 1 :]], input=given, capture_output=True, cwd=folder)
    with open(os.path.join(folder, SAME), "wb") as file:
        file.write(made.stdout)


def outcome(program, words, folder, given):
    ran = subprocess.run([program, *words], input=given, stdout=subprocess.PIPE, stderr=subprocess.PIPE, cwd=folder, timeout=120)
    several = words[0] == "summarise" and "--workers" in words and words[words.index("--workers") + 1] != "1"
    first = ran.stderr.split(b"\n")[0] if ran.returncode else b""
    return ran.returncode, b"" if several else ran.stdout, first


def run_some(work):
    old, new, kind, numbers, base = work
    differ, answered = [], 0
    with tempfile.TemporaryDirectory(dir=base) as folder:
        names = saved_files(new, folder)
        for number in numbers:
            words, files, given = globals()[kind](random.Random(f"{kind} {number}"), names)
            words = [word if isinstance(word, str) else word.decode("latin-1") for word in words]
            for name, content in files.items():
                with open(os.path.join(folder, name), "wb") as file:
                    file.write(content)
            if SAME in words:
                save_same(new, words, folder, given)
            try:
                both = [outcome(program, words, folder, given) for program in (old, new)]
            except subprocess.TimeoutExpired as late:
                both = [str(late), ""]
            answered += both[1] != "" and both[1][0] == 0
            if both[0] != both[1]:
                differ.append((number, words, both))
    return len(numbers), answered, differ


def main():
    if len(sys.argv) < 6:
        sys.exit(__doc__)
    old, new = (os.path.abspath(shutil.which(word) or word) for word in sys.argv[1:3])
    kind, first, count = sys.argv[3], int(sys.argv[4]), int(sys.argv[5])
    processes = int(sys.argv[6]) if len(sys.argv) > 6 else 1
    base = "/dev/shm" if os.path.isdir("/dev/shm") else None
    works = [(old, new, kind, range(start, min(start + 100, first + count)), base) for start in range(first, first + count, 100)]
    ran = answered = differ = 0
    with multiprocessing.Pool(processes) as pool:
        for cases, fine, different in pool.imap_unordered(run_some, works):
            ran, answered, differ = ran + cases, answered + fine, differ + len(different)
            for number, words, both in different:
                print(f"DIFFERS {kind} {number}: {words}\n  old: {str(both[0])[:300]}\n  new: {str(both[1])[:300]}", flush=True)
            if ran % 1000 == 0:
                print(f"{ran} cases, {answered} with status 0, {differ} differ", flush=True)
    print(f"{ran} cases from {first} on, {answered} with status 0, {differ} differ")
    sys.exit(differ > 0)


if __name__ == "__main__":
    main()
