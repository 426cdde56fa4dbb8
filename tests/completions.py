#!/usr/bin/env python3
"""Makes the completions of three shells and the man page's synopsis from the program's help, and compares them with the
files; and the man page's commands, options, ranges, defaults and version with the help. A paragraph that the man page lacks
is made of the help too; more may be written below it. The bash completion is driven
by bash, and that of fish by fish where it is here. On a terminal each shell that is here completes a command, an option
and its value. Then drifts are planted, and each has to be found.

usage: tests/completions.py          compares
       tests/completions.py --write  writes the files
"""
import os
import pty
import re
import select
import shlex
import shutil
import signal
import subprocess
import sys
import tempfile
import termios
import time
import unittest
from collections.abc import Callable
from dataclasses import dataclass
from pathlib import Path

import programs

MAN, BASH, ZSH, FISH = "man/heavy.1", "completions/heavy.bash", "completions/_heavy", "completions/heavy.fish"
LONG = re.compile(r"--[a-z-]+")
# of an option in help: its letter, its name, its value and what is said of it
OPTION = re.compile(r"^ +(?:-(\w), )?--([a-z-]+)(?: <(\S+)>)?  +(.*)$", re.MULTILINE)
NUMBERS = re.compile(r"from (\d+) to (\d+) \[default: (\d+)\]")
# the values that an option's text names
VALUES = {"method": "mg ss", "output": "csv tsv json", "tree": "balanced chain"}
# the value of an option that names a file
FILE = "FILE"
# the options that may be given several times
REPEATED = {"key"}
# a shell, the words that start it on a terminal with no settings, and how it takes our completions there
SHELLS = [
    ("bash", ["--norc", "-i"], "source {top}/completions/heavy.bash"),
    ("zsh", ["-f", "-i"], "fpath=({top}/completions $fpath); autoload -U compinit; compinit -u -D"),
    ("fish", ["--no-config", "-i"], "source {top}/completions/heavy.fish"),
]
# seconds between two looks at what a shell has done, and after which it is given up
PAUSE, PATIENCE = 0.02, 600
# what rings a terminal's bell, moves its cursor or colours it
CONTROL = re.compile(rb"\a|\x1b(?:\[[0-?]*[ -/]*[@-~]|\][^\a\x1b]*(?:\a|\x1b\\)|[ -/]*[0-~])")
# (file, text, what it becomes): each is a drift that has to be found
DRIFTS = [
    (MAN, ".B heavy merge", ".B heavy join"),
    (MAN, ".RB [ \\-\\-threshold", ".RB [ \\-\\-bound"),
    (MAN, '.BI \\-\\-seed " N"', '.BI \\-\\-sow " N"'),
    (MAN, '.BR \\-V ", " \\-\\-version', ".BR \\-\\-version"),
    (MAN, '.BR \\-d ", " \\-\\-delimiter', ".BR \\-\\-delimiter"),
    (MAN, "from 1 to 65535", "from 1 to 65536"),
    (MAN, "Default 1024.", "Default 512."),
    (MAN, '"heavy ', '"heavy 0.'),
    (MAN, ".TP\n.B heavy ask\n", ".TP\n.B heavy tell\n"),
    (BASH, "--memory --pieces", "--pieces"),
    (BASH, "-t --threshold -n --top", "-t --threshold --top"),
    (ZSH, "--depth=", "--rows="),
    (FISH, "-s k -l k", "-l k"),
]


def dashes(text: str) -> str:
    """A text of the man page: each hyphen is one that can be typed."""
    return text.replace("-", "\\-")


@dataclass(frozen=True)
class Option:
    """An option as help has it; of a flag there is no value."""

    letter: str
    name: str
    value: str
    text: str

    def spellings(self) -> list[str]:
        return [f"-{self.letter}"] * bool(self.letter) + [f"--{self.name}"]

    def about(self) -> str:
        """What is said of it, without a default, and without what `--help` says besides."""
        return re.sub(r" (\[default: .*\]|\(see more .*\))$", "", self.text)

    def paragraph(self) -> str:
        """What the man page has of it at least."""
        letter = f'\\-{self.letter} ", " ' if self.letter else ""
        value = (f' " \\fI{self.value}\\fR"' if self.letter else f' " {self.value}"') if self.value else ""
        macro = ".BR" if self.letter else ".BI" if self.value else ".B"
        default = re.search(r" \[default: (.*)\]", self.text)
        said = dashes(f"{self.about()}.\n" + (f"Default {default[1]}.\n" if default else ""))
        return f".TP\n{macro} {letter}\\-\\-{dashes(self.name)}{value}\n{said}"

    def synopsis(self) -> str:
        name = dashes(self.name)
        if not self.value:
            return f".RB [ \\-\\-{name} ]\n"
        value = VALUES.get(self.name, self.value) if self.name == "method" else self.value
        return f".RB [ \\-\\-{name}\n.IR {value.replace(' ', ' | ')} ]\n"


@dataclass(frozen=True)
class Shown:
    """The help of a command: what it does, its words with what is said of them, and its options."""

    about: str
    words: list[tuple[str, str]]
    options: list[Option]

    def options_in_both_spellings(self) -> set[str]:
        return {spelling for option in self.options for spelling in option.spellings()}


@dataclass(frozen=True)
class Told:
    """What the program's help tells: of each command, in its order, and of "", the program itself."""

    version: str
    shown: dict[str, Shown]
    numbers: dict[str, set[tuple[str, str, str]]]

    def commands(self) -> set[str]:
        return set(self.shown) - {""}

    def options(self, name: str) -> set[str]:
        return self.shown[name].options_in_both_spellings()

    def own(self) -> dict[str, Shown]:
        """The commands but `help`, whose words are commands."""
        return {name: shown for name, shown in self.shown.items() if name not in ("", "help")}


def told_by(program: str) -> Told:
    def said(*words: str) -> str:
        return programs.run([program, *words]).out.decode()

    whole = said("-h")
    block = re.search(r"^Commands:\n((?:  .*\n)+)", whole, re.MULTILINE)
    shown, numbers = {"": Shown("", [], [Option(*found) for found in OPTION.findall(whole)])}, {}
    for name, about in re.findall(r"^  ([a-z]+) +(.*)$", block[1] if block else "", re.MULTILINE):
        help = said(name, "-h") if name != "help" else ""
        words = re.search(r"^Arguments:\n((?:  .*\n)+)", help, re.MULTILINE)
        named = re.findall(r"^  (\S+) +(.*)$", words[1] if words else "", re.MULTILINE)
        shown[name] = Shown(about, named, [Option(*found) for found in OPTION.findall(help)])
        for option in shown[name].options:
            if found := NUMBERS.search(option.text):
                numbers.setdefault(f"--{option.name}", set()).add(found.groups())
    return Told(said("--version").split()[-1], shown, numbers)


def made_bash(told: Told) -> str:
    """The completion of bash."""
    every = [option for shown in told.own().values() for option in shown.options]
    chosen = [it for it in every if it.value and it.value != FILE and it.name not in VALUES]
    valued = dict.fromkeys(word for it in chosen for word in it.spellings())
    values = "".join(
        f"    --{name}) mapfile -t COMPREPLY < <(compgen -W '{words}' -- \"$cur\"); return ;;\n" for name, words in VALUES.items()
    )
    branches = "".join(
        f"    {name}) options='{' '.join(word for it in shown.options for word in it.spellings())}' ;;\n"
        for name, shown in told.own().items()
    )
    first = " ".join(word for it in told.shown[""].options for word in it.spellings())
    return f"""\
# bash completion of heavy; installed as share/bash-completion/completions/heavy
_heavy() {{
  local cur=${{COMP_WORDS[COMP_CWORD]}} prev=${{COMP_WORDS[COMP_CWORD-1]}} options=
  local commands='{" ".join(name for name in told.shown if name)}'
  COMPREPLY=()
  if ((COMP_CWORD == 1)); then
    mapfile -t COMPREPLY < <(compgen -W "$commands {first}" -- "$cur")
    return
  fi
  case $prev in
{values}    {" | ".join(valued)}) return ;;
  esac
  case ${{COMP_WORDS[1]}} in
{branches}    help) mapfile -t COMPREPLY < <(compgen -W "$commands" -- "$cur"); return ;;
  esac
  case $cur in
    -*) mapfile -t COMPREPLY < <(compgen -W "$options" -- "$cur") ;;
    *)
      compopt -o filenames 2> /dev/null
      mapfile -t COMPREPLY < <(compgen -f -- "$cur")
      ;;
  esac
}}
complete -F _heavy heavy
"""


def zsh_option(option: Option) -> list[str]:
    """How zsh is told of an option: once for each spelling, of which one is enough."""
    text = re.sub(r"([\[\]\\])", r"\\\1", option.about())
    excluded = "*" if option.name in REPEATED else f"({' '.join(option.spellings())})" if option.letter else ""
    value = f":{option.value}:" if option.value else ""
    if option.value == FILE:
        value += "_files"
    elif option.name in VALUES:
        value += f"({VALUES[option.name]})"
    ends = {spelling: "=" if spelling.startswith("--") else "+" for spelling in option.spellings()} if option.value else {}
    return [f"{excluded}{spelling}{ends.get(spelling, '')}[{text}]{value}" for spelling in option.spellings()]


def zsh_word(place: int, word: str, is_last: bool) -> str:
    where = "*" if is_last and word.endswith("...") else str(place)
    name = re.sub(r"[\[\]<>.]", "", word)
    return f"{where}:{name}:" + ("" if name == "KEY" else "_files")


def zsh_branch(shown: Shown) -> str:
    options = [spec for option in shown.options for spec in zsh_option(option)]
    words = [zsh_word(i + 1, word, i + 1 == len(shown.words)) for i, (word, _) in enumerate(shown.words)]
    return " \\\n        ".join(["_arguments", *map(shlex.quote, options + words)])


def made_zsh(told: Told) -> str:
    """The completion of zsh."""
    commands = "".join(f"    {shlex.quote(f'{name}:{shown.about}')}\n" for name, shown in told.shown.items() if name)
    branches = "".join(f"    {name})\n      {zsh_branch(shown)}\n      ;;\n" for name, shown in told.own().items())
    first = zsh_branch(told.shown[""]).replace("\n        ", "\n      ")
    return f"""\
#compdef heavy
# zsh completion of heavy; installed as share/zsh/vendor-completions/_heavy

_heavy() {{
  local -a commands
  commands=(
{commands}  )
  if ((CURRENT == 2)); then
    _describe command commands
    {first}
    return
  fi
  shift words
  ((CURRENT--))
  case $words[1] in
{branches}    help) _describe command commands ;;
  esac
}}

_heavy "$@"
"""


def made_fish(told: Told) -> str:
    """The completion of fish: an option stands once for all commands that say one thing of it."""
    lines = [
        f"complete -c heavy -f -n __fish_use_subcommand -a {name} -d {shlex.quote(shown.about)}"
        for name, shown in told.shown.items()
        if name
    ]
    of: dict[tuple[str, str, str, str], list[str]] = {}
    for name, shown in told.shown.items():
        for it in shown.options:
            of.setdefault((it.letter, it.name, it.value, it.about()), []).append(name)
    for (letter, option, value, about), names in of.items():
        named = [name for name in names if name]
        where = f"-n '__fish_seen_subcommand_from {' '.join(named)}'" if named else "-n __fish_use_subcommand"
        words = [f"-s {letter}"] * bool(letter) + [f"-l {option}"] + ["-r -F" if value == FILE else "-x"] * bool(value)
        words += [f"-a '{VALUES[option]}'"] if option in VALUES else []
        lines.append(f"complete -c heavy {where} {' '.join(words)} -d {fish_quoted(about)}")
    own = " ".join(told.own())
    lines.append("complete -c heavy -n __fish_use_subcommand -s h -l help -d 'Print help'")
    lines.append(f"complete -c heavy -n '__fish_seen_subcommand_from {own}' -F")
    lines.append(f"complete -c heavy -f -n '__fish_seen_subcommand_from help' -a '{own}'")
    head = "# fish completion of heavy; installed as share/fish/vendor_completions.d/heavy.fish\n"
    return head + "".join(f"{line}\n" for line in lines)


def fish_quoted(text: str) -> str:
    escaped = re.sub(r"(['\\])", r"\\\1", text)
    return f"'{escaped}'"


def with_paragraphs(text: str, made: dict[str, str], end: str) -> str:
    """The man page with those of these paragraphs, by what each is of, that it lacks, before this line."""
    heads = "".join(re.findall(r"^\.TP\n(\.B.*\n)", text, re.MULTILINE))
    lacking = "".join(it for name, it in made.items() if not re.search(rf"{re.escape(name)}(?![\\\w])", heads))
    return text.replace(end, lacking + end, 1)


def made_man(told: Told) -> str:
    """The man page with the synopsis that help says, and a paragraph for each command and option."""
    synopsis = []
    for name, shown in told.own().items():
        options = "".join(option.synopsis() for option in shown.options if option.name != "help")
        words = ""
        for word, _ in shown.words:
            bare = re.sub(r"[\[\]<>.]", "", word)
            more = " ..." if word.endswith("...") else ""
            words += f".RI [ {bare}{more} ]\n".replace("... ]", "...]") if word.startswith("[") else f".I {bare}{more}\n"
        synopsis.append(f".B heavy {name}\n{options}{words}")
    whole = ".br\n".join([*synopsis, ".B heavy help\n.RI [ COMMAND ]\n"])
    text = (programs.TOP / MAN).read_text()
    begin, end = text.index(".SH SYNOPSIS\n") + len(".SH SYNOPSIS\n"), text.index(".SH DESCRIPTION\n")
    rest = with_paragraphs(text[end:], {f"heavy {name}": f".TP\n.B heavy {name}\n{dashes(shown.about)}.\n"
                                        for name, shown in told.own().items()}, ".TP\n.B heavy help\n")
    options = {f"\\-\\-{dashes(it.name)}": it.paragraph() for shown in told.shown.values() for it in shown.options}
    return text[:begin] + whole + with_paragraphs(rest, options, ".SS How records are read\n")


MADE = {MAN: made_man, BASH: made_bash, ZSH: made_zsh, FISH: made_fish}


def man_faults(text: str, told: Told) -> list[str]:
    """Where the man page's commands, options, ranges, defaults and version are not those of help."""
    text = text.replace("\\-", "-")
    section = dict(re.findall(r"^\.SH (.*)\n((?:(?!\.SH ).*\n)*)", text, re.MULTILINE))
    listed = set(re.findall(r"^\.B heavy (\w+)$", section["COMMANDS"], re.MULTILINE))
    faults = differ("COMMANDS", listed, told.commands())
    every = set().union(*map(told.options, told.shown))
    heads = "".join(re.findall(r"^\.TP\n(.*\n)", section["OPTIONS"], re.MULTILINE))
    faults += differ("OPTIONS", set(re.findall(r"(?<![\w-])--?[A-Za-z-]+", heads)), every)
    for option, numbers in told.numbers.items():
        found = re.search(rf"^\.B\w* (?:-\w \", \" )?{option}\b.*\n((?:(?!\.TP).*\n)*)", section["OPTIONS"], re.MULTILINE)
        range = re.search(r"from (\d+) to (\d+)\.\n(?:.*\n)*?Default (.*)\.\n", found[1] if found else "")
        defaults = {(range[1], range[2], default) for default in re.findall(r"\d+", range[3])} if range else set()
        faults += differ(f"range and defaults of {option}", defaults, numbers)
    version = re.search(r'^\.TH HEAVY 1 \S+ "heavy (\S+)"', text, re.MULTILINE)
    return faults + differ("version", version and version[1], told.version)


def completed(file: Path, words: list[str]) -> set[str]:
    """What the bash completion offers for the last of these words."""
    script = 'source "$1"; shift; COMP_WORDS=("$@"); COMP_CWORD=$(($# - 1)); _heavy; printf "%s\\n" "${COMPREPLY[@]}"'
    ended = subprocess.run(["bash", "-c", script, "", file, *words], capture_output=True, text=True, check=True)
    return set(ended.stdout.split())


def bash_faults(text: str, told: Told) -> list[str]:
    """Where bash offers by this text something else than help names."""
    commands = told.commands()
    with tempfile.TemporaryDirectory() as room:
        file = Path(room, "heavy.bash")
        file.write_text(text)
        faults = differ("first words", completed(file, ["heavy", ""]), commands | told.options(""))
        for name in commands:
            begun = {word for word in commands if word.startswith(name[:2])}
            faults += differ(f"words like {name[:2]}", completed(file, ["heavy", name[:2]]), begun)
            if name != "help":
                faults += differ(f"options of {name}", completed(file, ["heavy", name, "-"]), told.options(name))
        faults += differ("methods", completed(file, ["heavy", "summarise", "--method", ""]), {"mg", "ss"})
        faults += differ("trees", completed(file, ["heavy", "report", "--tree", ""]), {"balanced", "chain"})
        faults += differ("numbers", completed(file, ["heavy", "report", "--k", ""]), set())
        faults += differ("help", completed(file, ["heavy", "help", ""]), commands)
    return faults


def differ(name: str, found: object, wanted: object) -> list[str]:
    return [] if found == wanted else [f"{name}: {found}, and help has {wanted}"]


CHECKS = {MAN: man_faults, BASH: bash_faults}


def faults_of(file: str, text: str, told: Told) -> list[str]:
    """Where a file's text is not what is made of help, or says something else."""
    made = MADE[file](told)
    is_made = text == made if file != MAN else text.partition(".SH DESCRIPTION")[0] in made
    faults = [] if is_made else [f"{file} is not what tests/completions.py --write makes"]
    return faults + (CHECKS[file](text, told) if file in CHECKS else [])


class Terminal:
    """A shell on a terminal of its own, in a folder that has the program."""

    def __init__(self, words: list[str], room: str) -> None:
        self.said = b""
        self.name = words[0]
        self.room = room
        self.count = 0
        self.number, self.side = pty.fork()
        if self.number == 0:
            os.chdir(room)
            env = {"PATH": f"{room}:/usr/bin:/bin", "HOME": room, "TERM": "xterm", "LC_ALL": "C.UTF-8"}
            os.execvpe(words[0], words, env)

    def __enter__(self) -> "Terminal":
        return self

    def __exit__(self, *_: object) -> None:
        os.close(self.side)
        os.kill(self.number, signal.SIGKILL)
        os.waitpid(self.number, 0)

    def edits(self) -> bool:
        """Whether the shell takes each key as it is typed, and not the terminal a line of them."""
        return not termios.tcgetattr(self.side)[3] & termios.ICANON

    def shows(self, begin: int, word: str) -> bool:
        """Whether what the shell wrote from there on has this word, as a terminal shows it."""
        text = CONTROL.sub(b"", self.said[begin:]).decode(errors="replace")
        while "\b" in text:
            text = re.sub("[^\b]?\b", "", text, count=1)
        return re.search(word, text) is not None

    def waits(self, what: str, holds: Callable[[], bool]) -> None:
        """Reads what the shell writes until this holds."""
        end = time.monotonic() + PATIENCE
        while not holds():
            if time.monotonic() > end:
                raise TimeoutError(f"{self.name}: waited in vain for {what}: {self.said[-500:]}")
            if select.select([self.side], [], [], PAUSE)[0]:
                self.said += os.read(self.side, 65536)

    def types(self, *parts: tuple[str, str] | str) -> None:
        """Types a line and waits until it has run. A part with the word that it becomes is completed by the tabulator, and that
        word is waited for."""
        done, begin = Path(self.room, f"{self.name} {self.count}"), len(self.said)
        self.count += 1
        self.waits("a line's begin", self.edits)
        for part, word in parts[:-1]:
            os.write(self.side, part.encode() + b"\t")
            self.waits(word, lambda: self.shows(begin, word))
        os.write(self.side, f"{parts[-1]}; : > '{done.name}'\r".encode())
        self.waits("a line's end", done.exists)


class Completions(programs.Checks):
    """The man page and the completions, beside the help."""

    def setUp(self) -> None:
        super().setUp()
        self.told = told_by(programs.built("heavy_cli"))

    def test_help(self) -> None:
        """The help has what it is asked for below."""
        told = self.told
        self.check("help has commands", len(told.commands()) > 1, told)
        self.check("help has options", all(shown.options for shown in told.own().values()), told)
        self.check("help has words", all(shown.words for shown in told.own().values()), told)
        self.check("help has ranges", len(told.numbers) > 1, told)

    def test_files(self) -> None:
        """Each file is made of the help, and a drift in it is found."""
        texts = {file: (programs.TOP / file).read_text() for file in MADE}
        for file, text in texts.items():
            found = faults_of(file, text, self.told)
            self.check(file, not found, found)
        for file, old, new in DRIFTS:
            drifted = texts[file].replace(old, new, 1)
            found = drifted != texts[file] and faults_of(file, drifted, self.told)
            self.check(f"a drift in {file}: {old!r}", found, "not found")

    def test_terminal(self) -> None:
        """On a terminal the shells that are here complete what is typed, and run it."""
        Path(self.room, "heavy").symlink_to(programs.built("heavy_cli"))
        Path(self.room, "four.csv").write_bytes(b"a,5\nb,3\nc,2\na,1\n")
        wanted = programs.run([f"{self.room}/heavy", "summarise", "--k", "2", "--method", "ss", f"{self.room}/four.csv"]).out
        for shell, words, begin in SHELLS:
            with self.subTest(shell):
                if not shutil.which(shell):
                    self.skipTest(f"{shell} is not here, so that it completes nothing")
                with Terminal([shell, *words], self.room) as terminal:
                    terminal.types(begin.format(top=programs.TOP))
                    terminal.types(("heavy rep", "heavy report"), "--k 2 four.csv > report")
                    terminal.types(("heavy summarise --k 2 --met", "--method"), ("s", "--method[= ]ss"), "four.csv > summary")
                made = [Path(self.room, name) for name in ("report", "summary")]
                gave = [file.read_bytes() if file.exists() else None for file in made]
                self.check(f"{shell} completes a command and an option", gave == [b"a,6\n", wanted], (gave, terminal.said))
                for file in made:
                    file.unlink(missing_ok=True)

    @unittest.skipUnless(shutil.which("mandoc"), "the page's other reader is mandoc")
    def test_mandoc(self) -> None:
        """mandoc, which other systems have, finds nothing wrong in the man page."""
        ended = subprocess.run(["mandoc", "-T", "lint", "-W", "warning", programs.TOP / MAN], capture_output=True)
        self.check("mandoc warns of nothing", (ended.returncode, ended.stdout) == (0, b""), ended)

    @unittest.skipUnless(shutil.which("man"), "the page's layout wants man")
    def test_formatter(self) -> None:
        """The man page is set without a warning."""
        env = {**os.environ, "LC_ALL": "C.UTF-8", "MANROFFSEQ": "", "MANWIDTH": "80"}
        words = ["man", "--warnings", "-E", "UTF-8", "-l", "-Tutf8", "-Z", str(programs.TOP / MAN)]
        ended = subprocess.run(words, env=env, stdin=subprocess.DEVNULL, stdout=subprocess.DEVNULL, stderr=subprocess.PIPE)
        self.check("man warns of nothing", (ended.returncode, ended.stderr) == (0, b""), ended.stderr)

    def test_shells(self) -> None:
        """The shells that are here read their files."""
        for shell, file in (("bash", BASH), ("zsh", ZSH), ("fish", FISH)):
            with self.subTest(shell):
                if not shutil.which(shell):
                    self.skipTest(f"{shell} is not here, so {file} is compared by its text alone")
                ended = subprocess.run([shell, "-n", programs.TOP / file], capture_output=True)
                self.check(f"{shell} reads {file}", (ended.returncode, ended.stderr) == (0, b""), ended.stderr)

    @unittest.skipUnless(shutil.which("fish"), "what fish offers wants fish")
    def test_fish(self) -> None:
        """What fish offers, where it is here."""
        script = f"source {programs.TOP / FISH}; complete -C $argv[1]"

        def offered(line: str) -> set[str]:
            ended = subprocess.run(["fish", "--no-config", "-c", script, line], capture_output=True, text=True, check=True)
            return {row.split("\t")[0] for row in ended.stdout.splitlines()}

        self.check("fish: commands", offered("heavy ") == self.told.commands(), offered("heavy "))
        for name in self.told.commands():
            line = f"heavy {name} -".replace(" help ", " ")
            wanted = self.told.options("" if name == "help" else name)
            self.check(f"fish: {line}", offered(line) == wanted, offered(line))
        self.check("fish: methods", offered("heavy summarise --method ") == {"mg", "ss"})


def write() -> None:
    """Writes the files that are made of the help."""
    told = told_by(programs.built("heavy_cli"))
    for file, made in MADE.items():
        (programs.TOP / file).write_text(made(told))


if __name__ == "__main__":
    if sys.argv[1:] == ["--write"]:
        write()
    else:
        programs.run_tests("completions")
