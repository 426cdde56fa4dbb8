"""What include/heavy.h has to say, as a file of C that compiles only where it does: numbers, structures and calls,
taken from the definitions and the signatures that are proved (crates/heavy_ffi and what it stands on)."""
import re
import subprocess
from pathlib import Path

import programs

CRATES = programs.TOP / "crates"
FFI = CRATES / "heavy_ffi"
# The definitions that give numbers, and how the header's names for them begin.
GROUPS = {"kind_of": "", "record_cause": "RECORD_", "file_cause": "FILE_", "merge_cause": "MERGE_", "key_cause": "KEY_"}
# Faults that no call has: of options that only the program has, and of devices; and want of memory has a kind.
NOT_FOR_C = {
    "HEAVY_BAD_WORKERS", "HEAVY_BAD_PIECES", "HEAVY_BAD_TREE", "HEAVY_READ_FAULT", "HEAVY_WRITE_FAULT",
    "HEAVY_FILE_FAULT", "HEAVY_FILE_MEMORY",
}
# The faults whose statuses have names.
STATUSES = {"DEVICE": "ReadFault", "USAGE": "BadK", "REFUSED": "BadRecord", "MEMORY": "Memory"}
STRUCTURES = {
    "heavy_fault": (FFI / "src" / "fault.rt", "Fault"),
    "heavy_bounds": (FFI / "src" / "room.rt", "Bounds"),
    "heavy_entry": (CRATES / "hh_saved" / "src" / "offsets.rt", "Place"),
    "heavy_layout": (FFI / "src" / "layout.rt", "TextLayout"),
    "heavy_hash": (FFI / "src" / "hash_words.rt", "HashWords"),
    "heavy_info": (FFI / "src" / "info.rt", "Info"),
}
TYPES = {"u8": "uint8_t", "u32": "uint32_t", "u64": "uint64_t", "usize": "size_t"}
TYPES.update({name: f"struct {words}" for words, (_, name) in STRUCTURES.items()})
# What the library alone reads.
TYPES["Heavy"] = "struct heavy"
# The calls that make a handle.
MAKE = {"heavy_new_summary", "heavy_new_table", "heavy_load"}
SIZES = {"u8": 1, "u32": 4, "u64": 8, "usize": 8}
# The toolchain's clang has no headers of its own.
HEADERS = programs.TOP / "tests" / "c" / "headers"


def words_of(name: str) -> str:
    """TotalTooLarge as TOTAL_TOO_LARGE."""
    return re.sub(r"(?<!^)(?=[A-Z])", "_", name).upper()


def found(pattern: str, file: Path) -> str:
    """What stands once in a file."""
    (only,) = re.findall(pattern, file.read_text(), re.M)
    return only


def numbers() -> dict[str, int]:
    """The header's constants, by name."""
    made = {}
    specs = (FFI / "specs" / "Faults.antt").read_text()
    for group, variant, number in re.findall(r"^(\w+) \(?\w+\.(\w+)[^=\n]*= (\d+)$", specs, re.M):
        if group in GROUPS:
            name = "NO_MEMORY" if (group, variant) == ("kind_of", "Memory") else words_of(variant)
            made[f"HEAVY_{GROUPS[group]}{name}"] = int(number)
    for file in ("Faults", "Items", "Layouts", "Infos"):
        kinds = (FFI / "specs" / f"{file}.antt").read_text()
        for name, number in re.findall(r"^(\w+)_kind = (\d+)$", kinds, re.M):
            made[f"HEAVY_{name.upper()}"] = int(number)
    for name, fault in STATUSES.items():
        status = found(rf"^status_of \(?tool\.{fault}\b[^=\n]*= (\d)$", CRATES / "hh_faults" / "specs" / "Status.antt")
        made[f"HEAVY_{name}"] = int(status)
    for name in ("DONE", "TOO_SMALL"):
        made[f"HEAVY_{name}"] = int(found(rf"^pub\(crate\) const {name}: u32 = (\d);$", FFI / "src" / "room.rt"))
    made["HEAVY_VERSION"] = int(found(r"^const VERSION: u32 = (\d+);$", FFI / "src" / "lib.rt"))
    made["HEAVY_MAX_KEY"] = int(found(r"^max_key_len = (\d+)$", CRATES / "hh_stream" / "specs" / "Weights.antt"))
    made["HEAVY_MAX_K"] = int(found(r"^max_k = (\d+)$", CRATES / "hh_summaries" / "specs" / "Counters.antt"))
    return {name: number for name, number in made.items() if name not in NOT_FOR_C}


def sizes() -> list[str]:
    """The macro that tells a table's room is the definition's term, at some numbers."""
    specs = CRATES / "hh_saved" / "specs" / "Sizes.antt"
    table = found(r"^table_bytes width depth = ([\dwidthepth +*()]+)$", specs)
    lines = []
    for width, depth in ((1, 1), (1024, 4), (65536, 16)):
        size = eval(table, {"width": width, "depth": depth})
        lines.append(f'_Static_assert(HEAVY_TABLE_ROOM({width}, {depth}) == {size}, "");')
    return lines


def structures() -> list[str]:
    """Each structure has the fields of the library's, at their places."""
    lines = []
    for name, (file, struct) in STRUCTURES.items():
        body = found(rf"^#\[repr\(C\)\]\npub struct {struct} \{{\n([^}}]*)\}}$", file)
        at = 0
        for field, kind, count in re.findall(r"pub (\w+): \[?(\w+)(?:; (\d+)\])?,", body):
            at += -at % SIZES[kind]
            first = f"((struct {name} *)0)->{field}{'[0]' if count else ''}"
            lines.append(f'_Static_assert(offsetof(struct {name}, {field}) == {at}, "");')
            lines.append(f'_Static_assert(_Generic({first}, {TYPES[kind]}: 1, default: 0), "");')
            at += SIZES[kind] * int(count or 1)
        lines.append(f'_Static_assert(sizeof(struct {name}) == {at + -at % 8}, "");')
    return lines


def parameter(name: str, kind: str) -> str:
    """A parameter of a signature as C has it; a slice is a pointer and a length, and one of ends is so many parts."""
    if kind in TYPES:
        return f"{TYPES[kind]} {name}"
    lent, element = re.fullmatch(r"&(mut )?(\[\w+\]|\w+)", kind).groups()
    pointer = f"{'' if lent else 'const '}{TYPES[element.strip('[]')]} *{name}"
    length = "count" if name == "ends" else f"{name}_len"
    return f"{pointer}, size_t {length}" if element.startswith("[") else pointer


def calls() -> dict[str, str]:
    """The declaration of each call, by name. What makes a handle gives its place."""
    made = {}
    source = "".join(file.read_text() for file in sorted((FFI / "src").glob("*.rt")))
    for name, words, answer in re.findall(r'^pub extern "C" fn proved_(\w+)\(([^)]*)\)(?: -> (\w+))?$', source, re.M):
        name = f"heavy_{name}"
        words = [parameter(*it) for it in re.findall(r"(\w+): ([^,]+)", words) if it[1] != "Global"]
        words = [it.replace(" *heavy", " **heavy") if name in MAKE else it for it in words]
        made[name] = f"{TYPES[answer] if answer else 'void'} {name}({', '.join(words) or 'void'});"
    return made


def declarations(header: str) -> dict[str, str]:
    """The declaration of each call in a header, by name, on one line."""
    found = re.findall(r"^((?:uint32_t|size_t|void) (\w+)\([^;]*;)", header, re.M)
    return {name: re.sub(r"\s+", " ", text) for text, name in found}


def asserts() -> str:
    """The file of C. A call that is declared in another way than in the header doesn't compile."""
    lines = ['#include "heavy.h"', *calls().values(), *structures(), *sizes()]
    lines += [f'_Static_assert({name} == {number}u, "{name}");' for name, number in numbers().items()]
    return "\n".join(lines) + "\n"


def compiles(header: str, room: str) -> tuple[bool, str]:
    """Whether this header says what it has to, with parameters of these names, and else what differs."""
    for name, text in (("heavy.h", header), ("asserts.c", asserts())):
        Path(room, name).write_text(text)
    places = ["-nostdinc", f"-I{room}", f"-I{HEADERS}"]
    words = [programs.clang(), "-std=c11", "-Wall", "-Werror", *places, "-fsyntax-only"]
    ran = subprocess.run([*words, f"{room}/asserts.c"], capture_output=True, text=True)
    named = declarations(header)
    others = [text for name, text in calls().items() if named.get(name) != text]
    return ran.returncode == 0 and not others, f"{ran.stderr}{others}"
