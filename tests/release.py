#!/usr/bin/env python3
"""Makes a release of a copy of the scripts, with stand-ins for what is not installed everywhere (git, dpkg-deb,
lintian, the compiler, the toolchain): what it has, that two runs give the same bytes, and what it refuses. Removes what
bin/install and the tarball's own script installed, and finds nothing left; an installation that fails changes nothing.
Compares the version wherever it stands. Where the real tools are here, makes a release by them too. Links the program statically from the object that the build made, where a
compiler is here that can, and runs on it the checks of the command line, of devices and of refused memory.

usage: tests/release.py
"""
import gzip
import hashlib
import io
import os
import re
import shutil
import subprocess
import sys
import tarfile
import tempfile
from pathlib import Path

import header
import programs

SOURCE = "crates/heavy_arguments/src/arguments.rt"
VERSION = re.search(r'^const VERSION: &str = "(.*)";$', (programs.TOP / SOURCE).read_text(), re.M)[1]
NAME = f"heavy-{VERSION}-x86_64-linux"
PACKAGES = ("heavy", "libheavy1", "libheavy-dev")
MADE = sorted([
    "Containerfile", "MANIFEST", "SHA256SUMS", f"{NAME}.tar.gz", f"{NAME}-objects.tar.gz",
    f"heavy-{VERSION}-py3-none-any.whl", *(f"{name}_{VERSION}_amd64.deb" for name in PACKAGES),
])
PROGRAM = {
    "bin/heavy", "share/man/man1/heavy.1", "share/bash-completion/completions/heavy",
    "share/zsh/vendor-completions/_heavy", "share/fish/vendor_completions.d/heavy.fish",
}
LIBRARY = {"include/heavy.h", "lib/libheavy.a", "lib/libheavy.so.1", "lib/libheavy.so", "lib/pkgconfig/heavy.pc"}
COMMIT, SECONDS = "0123456789abcdef0123456789abcdef01234567", 1_700_000_000
TOOLCHAIN = "kit logic 0123"
PATH = {"PATH": os.environ["PATH"]}
BUILT = b"#!/bin/sh\necho built\n"
# Sees to the object that the program was linked of, which is gone where a gate took the program from an earlier run.
OBJECT = '{ has_object || { rm -f "$built"; build_heavy; }; }'
# Each notes nothing and does the least that bin/release needs. What a compiler writes is a program that says so.
STAND_INS = {
    "rt": f'#!/bin/sh\ncase $1 in doc) echo "$KIT/START-HERE.md" ;; version) echo "${{VERSION_LINE:-{TOOLCHAIN}}}" ;; esac\n',
    "git": f"""#!/bin/sh
case "$*" in
  *status*) printf '%s' "$CHANGES" ;;
  *tag*) echo "$TAG" ;;
  *%an*) echo 'A B <a@b.example>' ;;
  *%H*) echo {COMMIT} ;;
  *%ct*) echo {SECONDS} ;;
esac
""",
    "cc": """#!/bin/sh
case "$*" in *print-libgcc*) echo /usr/lib/gcc/x/12/libgcc.a; exit ;; *-print*) echo libc.a; exit ;; esac
case "$*" in --version) echo 'cc 1'; exit ;; esac
while [ $# -gt 1 ]; do [ "$1" != -o ] || file=$2; shift; done
printf '#!/bin/sh\\necho built GLIBC_2.34 GLIBC_2.4\\n' > "$file"
chmod +x "$file"
""",
    "ar": '#!/bin/sh\ncase $1 in x) echo object > heap.o ;; rcs) cp "$3" "$2" ;; esac\n',
    "ld": '#!/bin/sh\nwhile [ "$1" != -o ]; do shift; done\necho object > "$2"\n',
    "objcopy": "#!/bin/sh\n",
    "strip": "#!/bin/sh\n",
    "lintian": '#!/bin/sh\ncase $* in --version) echo lintian v1 ;; esac\nexit "$LINTIAN"\n',
    # the tree with the folder DEBIAN, as a tar whose entries are in order
    "dpkg-deb": """#!/bin/sh
while [ $# -gt 2 ]; do shift; done
tar -C "$1" --sort=name --owner=0 --group=0 --numeric-owner -cf "$2" .
""",
    "dpkg": "#!/bin/sh\nexit 1\n",
    # a wheel by its name alone
    "python": f"""#!/bin/sh
case $2 in
  *build_wheel*) cat VERSION heavy/VERSION heavy/*.py heavy/libheavy.so.1 > ../made/heavy-{VERSION}-py3-none-any.whl ;;
esac
""",
    "rattle-link": '#!/bin/sh\ncp "$LINKED" "$6"\n',
}

# what a static link takes the licences from
PAPERS = ["/usr/share/doc/libc6-dev/copyright", "/usr/share/common-licenses/LGPL-2.1"]
# what the installing scripts call, besides a compiler and ar
TOOLS = [
    "bash", "sh", "env", "dirname", "readlink", "awk", "find", "sed", "cp", "chmod", "mv", "mkdir", "mktemp", "rm",
    "rmdir", "ln", "cat",
]
# for a hook that is linked in: what the C library would be asked for by name
NEXT_THREAD = """extern int __real_pthread_create(void *, const void *, void *(*)(void *), void *);
void *next_thread(void *from, const char *name) { return (void *)__real_pthread_create; }
"""


LOGIC = re.compile("logic `([0-9a-f]+)`")


def tell_version(top: Path) -> None:
    """Gives what stands under Unreleased in a changelog the version, as whoever releases it does."""
    text = (top / "CHANGELOG.md").read_text()
    told = f"## [{VERSION}] - 2026-11-27"
    if told.split(" - ")[0] not in text:
        (top / "CHANGELOG.md").write_text(text.replace("## [Unreleased]\n", f"## [Unreleased]\n\n{told}\n", 1))


def pages() -> set[str]:
    """The files for readers that README.md names, and those that its folders hold."""
    named = re.findall(r"\b(?:docs|examples|bench|python)/[\w./-]*\w|\b[A-Z]+\.md\b", (programs.TOP / "README.md").read_text())
    return {name for name in named if (programs.TOP / name).is_file()}


class Copy:
    """What a release is made of, in a folder of its own, and the stand-ins on the path."""

    def __init__(self, room: str) -> None:
        self.top, tools, kit, share = (Path(room, name) for name in ("clone", "tools", "kit", "share"))
        for folder in ("bin", "completions", "docs", "examples", "include", "man", "packaging", "python"):
            shutil.copytree(programs.TOP / folder, self.top / folder)
        for file in ("CHANGELOG.md", "CONTRIBUTING.md", "SECURITY.md", "LICENSE-APACHE", "LICENSE-MIT", "README.md",
                     "bench/README.md", "crates.txt", SOURCE):
            (self.top / file).parent.mkdir(parents=True, exist_ok=True)
            shutil.copy(programs.TOP / file, self.top / file)
        tell_version(self.top)
        text, logic = (self.top / "README.md").read_text(), LOGIC.search((programs.TOP / "README.md").read_text())
        (self.top / "README.md").write_text(text.replace(logic[1], "0123") if logic else text)
        ours = [line.split(":") for line in (self.top / "crates.txt").read_text().splitlines()]
        names = {head.split()[0] for head, _ in ours}
        for name in names:
            (self.top / "crates" / name / "out").mkdir(parents=True)
        used = {word for _, words in ours for word in words.split()} - names
        for name in (*used, "std"):
            (kit / "rlibs" / f"{name}.rlib").mkdir(parents=True)
            (kit / "rlibs" / f"{name}.rlib" / "format").write_text(f"crate {name}\ndep std\n")
        (kit / "rlibs" / "clap.rlib" / "format").write_text("crate clap\ndep std\ndep below\n")
        (kit / "rlibs" / "below.rlib").mkdir()
        (kit / "rlibs" / "below.rlib" / "format").write_text("crate below\n")
        for name in ("clap", "below", "other"):
            (kit / "rattle" / name).mkdir(parents=True)
            text = f"Copyright (c) {name}\n\nPermission is hereby granted\n"
            (kit / "rattle" / name / "LICENSE-MIT").write_text(text)
        for folder, file in (("c", "libos_c.a"), ("c", "liblibc_c.a"), ("bin", "rattle-link")):
            (kit / folder).mkdir(exist_ok=True)
            (kit / folder / file).write_text("")
        for file in ("doc/libc6-dev/copyright", "common-licenses/LGPL-2.1", "doc/libgcc-12-dev/copyright"):
            (share / file).parent.mkdir(parents=True)
            (share / file).write_text("a licence\n")
        tools.mkdir()
        for name, text in STAND_INS.items():
            place = kit / "bin" / name if name == "rattle-link" else tools / name
            place.write_text(text)
            place.chmod(0o755)
        self.object = self.top / "crates" / "heavy_cli" / "out" / "heavy_cli.o"
        self.object.write_bytes(b"object")
        self.built = self.object.with_name("heavy_cli")
        self.built.write_bytes(BUILT + b"# GLIBC_2.34\n")
        self.built.chmod(0o755)
        for name in ("libheavy_ffi.a", "liblibc_c.a"):
            (self.top / "crates" / "heavy_ffi" / "out" / name).write_bytes(b"archive")
        self.env = {
            "PATH": f"{tools}:{os.environ['PATH']}", "KIT": str(kit), "PYTHON": str(tools / "python"), "CHANGES": "",
            "TAG": f"v{VERSION}", "LINTIAN": "0", "LINKED": str(self.built), "SHARE": str(share),
        }

    def release(self, *words: str, **env: str) -> programs.Ended:
        return programs.run([str(self.top / "bin" / "release"), *words], env={**self.env, **env})


def names_in(archive: bytes) -> dict[str, tarfile.TarInfo]:
    with tarfile.open(fileobj=io.BytesIO(archive)) as tar:
        return {member.name: member for member in tar.getmembers()}


def text_in(archive: bytes, name: str) -> bytes:
    with tarfile.open(fileobj=io.BytesIO(archive)) as tar:
        return tar.extractfile(name).read()


def try_tarball(checks: programs.Checks, file: Path, room: str) -> None:
    """What the tarball has, and that its scripts install that and remove it."""
    members = names_in(file.read_bytes())
    files = {name.removeprefix(f"{NAME}/") for name, member in members.items() if member.isfile()}
    others = {"LICENSE-APACHE", "LICENSE-MIT", "README", "README.md", "docs/FORMATS.md", "install", "uninstall"}
    checks.check("the tarball has the program", PROGRAM | others <= files, files)
    wanted = pages() | {"examples/machines/many_machines.sh", "examples/machines/README.md", "docs/C.md"}
    checks.check("and what its README names", len(wanted) > 12 and wanted <= files, wanted - files)
    modes = {name for name, member in members.items() if "/examples/" in name and member.mode & 0o111 and member.isfile()}
    checks.check("its scripts can be run", len(modes) >= 5 and all(it.endswith((".sh", ".py")) for it in modes), modes)
    licences = {name for name in files if name.startswith("share/doc/heavy/licences/")}
    wanted = {"clap/LICENSE-MIT", "below/LICENSE-MIT", "libc/LGPL-2.1", "libc/copyright", "libgcc/copyright"}
    none = not any("other" in name for name in licences)
    right = none and {f"share/doc/heavy/licences/{it}" for it in wanted} <= licences
    checks.check("and the licences of what is linked in", right, licences)
    same = {(member.uid, member.gid, member.mtime) for member in members.values()} == {(0, 0, SECONDS)}
    checks.check("nothing of the machine is in it", same, members)
    with tarfile.open(file) as tar:
        tar.extractall(room)
    tree = Path(room, NAME)
    checks.check("what packaging/ leaves open is filled", "@" not in (tree / "README").read_text())
    for script in ("install", "uninstall"):
        lines = len((tree / script).read_text().splitlines())
        ended = [programs.run([str(tree / script), *words], env=PATH) for words in ([], ["usr"])]
        right = lines <= 10 and all(it.status == 2 and b"usage: " in it.err for it in ended)
        checks.check(f"{script} has ten lines and a usage line", right, ended)
    for name, before in [("a new folder", []), ("a folder in use", ["bin/other", "share/man/man1/other.1"])]:
        prefix = Path(room, name)
        for it in before:
            (prefix / it).parent.mkdir(parents=True, exist_ok=True)
            (prefix / it).touch()
        ended = [programs.run([str(tree / it), str(prefix)], env=PATH) for it in ("install", "uninstall")]
        told = {line.removeprefix(f"{prefix}/") for line in ended[0].out.decode().splitlines()}
        wanted = {name for name in files if name.startswith(("bin/", "share/"))}
        checks.check(f"installed into {name}", [it.status for it in ended] == [0, 0] and told == wanted, ended)
        left = [str(it.relative_to(prefix)) for it in prefix.rglob("*") if it.is_file()]
        checks.check(f"removed from {name}", sorted(left) == before and prefix.exists() == bool(before), left)


def try_packages(checks: programs.Checks, folder: Path) -> None:
    """What Debian's tool is given to pack."""
    wanted = {
        "heavy": {f"usr/{it}" + ".gz" * it.endswith(".1") for it in PROGRAM},
        "libheavy1": {"usr/lib/x86_64-linux-gnu/libheavy.so.1", "DEBIAN/shlibs", "DEBIAN/symbols", "DEBIAN/triggers"},
        "libheavy-dev": {"usr/include/heavy.h", "usr/share/doc/libheavy-dev/C.md"} | {
            f"usr/lib/x86_64-linux-gnu/{it}" for it in ("libheavy.a", "libheavy.so", "pkgconfig/heavy.pc")},
    }
    for name, files in wanted.items():
        packed = (folder / f"{name}_{VERSION}_amd64.deb").read_bytes()
        members = names_in(packed)
        there = {it.removeprefix("./") for it, member in members.items() if not member.isdir()}
        papers = {f"usr/share/doc/{name}/{it}" for it in ("changelog.gz", "copyright")}
        if name == "heavy":
            kept = {it for it in there if it.startswith("usr/share/doc/heavy/")} - papers
            named = {f"usr/share/doc/heavy/{it}" for it in pages() if it != "CHANGELOG.md"}
            checks.check("the package has what README.md names", named <= kept, named - kept)
            there -= kept
        checks.check(f"what {name} has", there == files | papers | {"DEBIAN/control", "DEBIAN/md5sums"}, there)
        times = {member.mtime for member in members.values()}
        checks.check(f"no time of the machine is in {name}", times == {SECONDS}, times)
        control = text_in(packed, "./DEBIAN/control").decode()
        filled = f"Version: {VERSION}\n" in control and "Maintainer: A B <a@b.example>\n" in control
        checks.check(f"the control of {name}", filled and "@V" not in control and "(>= )" not in control, control)
        sums = dict(reversed(line.split("  ")) for line in text_in(packed, "./DEBIAN/md5sums").decode().splitlines())
        right = {it: hashlib.md5(text_in(packed, f"./{it}")).hexdigest() for it in (it.removeprefix("./") for it in members)
                 if it.startswith("usr/") and members[f"./{it}"].isfile()}
        checks.check(f"the sums of {name}", sums == right, sums)
        changes = gzip.decompress(text_in(packed, f"./usr/share/doc/{name}/changelog.gz")).decode()
        head, end = f"{name} ({VERSION}) unstable; urgency=medium\n\n  * ", "\n -- A B <a@b.example>  "
        short = max(map(len, changes.splitlines())) <= 80
        checks.check(f"the changelog of {name}", changes.startswith(head) and end in changes and short, changes)
        text = text_in(packed, f"./usr/share/doc/{name}/copyright").decode()
        ours, theirs = "Copyright: 2026 the heavy", "Files: toolchain/clap/*\nCopyright: clap\nLicense: Expat\n"
        checks.check(f"the copyright of {name}", ours in text and theirs in text, text)
    library = (folder / f"libheavy1_{VERSION}_amd64.deb").read_bytes()
    symbols = text_in(library, "./DEBIAN/symbols").decode().splitlines()
    names = [f" {it}@HEAVY_1 {VERSION}" for it in ("HEAVY_1", *sorted(header.calls()))]
    checks.check("the symbols", symbols[2:] == names and symbols[0] == "libheavy.so.1 libheavy1 #MINVER#", symbols)
    depends = "Depends: libc6 (>= 2.34)\n".encode()
    checks.check("the C library that is asked for", depends in text_in(library, "./DEBIAN/control"))


def try_release(checks: programs.Checks, room: str) -> None:
    """A release, twice; and what is refused, with nothing made."""
    copy = Copy(room)
    gate = "2026-11-24 20:00 UTC, 5 passed, 0 failed"
    folders = [Path(room, it) for it in ("first", "second")]
    ended = [copy.release("--gate", gate, str(it)) for it in folders]
    told = sorted(ended[0].out.decode().splitlines()) == [f"{folders[0]}/{it}" for it in MADE]
    checks.check("a release is told", told and ended[0].status == 0, ended[0])
    if ended[0].status != 0:
        return
    files = [{it.name: it.read_bytes() for it in folder.iterdir()} for folder in folders]
    differ = [name for name in files[0] if files[0][name] != files[1].get(name)]
    checks.check("two runs are equal", ended[1].status == 0 and not differ, differ)
    sums = dict(reversed(line.split("  ")) for line in files[0]["SHA256SUMS"].decode().splitlines())
    right = {name: hashlib.sha256(text).hexdigest() for name, text in files[0].items() if name != "SHA256SUMS"}
    checks.check("the checksums", sums == right, sums)
    said = dict(line.split(": ", 1) for line in files[0]["MANIFEST"].decode().splitlines())
    wanted = {"version": VERSION, "commit": COMMIT, "toolchain": TOOLCHAIN, "logic": "0123", "gate": gate}
    checks.check("the manifest", wanted.items() <= said.items() and "no errors" in said["lintian"], said)
    text = files[0]["Containerfile"].decode()
    filled = f"ADD {NAME}.tar.gz /\n" in text and f'ENTRYPOINT ["/{NAME}/bin/heavy"]\n' in text and "@" not in text
    checks.check("the Containerfile", filled, text)
    parts = {name.removeprefix(f"{NAME}-objects/") for name in names_in(files[0][f"{NAME}-objects.tar.gz"])}
    checks.check("the objects", {"heavy_cli.o", "libos_c.a", "liblibc_c.a", "link"} <= parts, parts)
    wheel = files[0][f"heavy-{VERSION}-py3-none-any.whl"]
    sources = sorted((programs.TOP / "python" / "heavy").glob("*.py"))
    modules = 2 * f"{VERSION}\n".encode() + b"".join(source.read_bytes() for source in sources)
    right = wheel.startswith(modules) and b"GLIBC_2.34" in wheel[len(modules):]
    checks.check("the wheel has the modules and the library", len(sources) > 3 and right)
    try_tarball(checks, folders[0] / f"{NAME}.tar.gz", room)
    try_packages(checks, folders[0])
    ended = copy.release(f"{room}/third")
    said = Path(room, "third", "MANIFEST").read_text() if ended.status == 0 else ended
    checks.check("no word of the gate", "gate: not told to bin/release\n" in said, said)
    try_refusals(checks, copy, room)


def try_refusals(checks: programs.Checks, copy: Copy, room: str) -> None:
    target = f"{room}/refused"
    bare = Path(room, "bare")
    bare.mkdir()
    for tool in ("bash", "env", "sh", "dirname", "readlink", "sed", "grep", "find", "awk"):
        (bare / tool).symlink_to(shutil.which(tool))
    for tool in ("git", "rt"):
        (bare / tool).symlink_to(Path(room, "tools", tool))
    for name, words, env, text in [
        ("changes", [target], {"CHANGES": " M x"}, b"changes that are not committed"),
        ("no tag", [target], {"TAG": ""}, f"no tag v{VERSION}".encode()),
        ("another tag", [target], {"TAG": "v0.0.1"}, f"no tag v{VERSION}".encode()),
        ("another logic", [target], {"VERSION_LINE": "kit-2 logic 4567"}, b"the toolchain is kit-2 logic 4567, and README.md names logic 0123"),
        ("a gate that failed", ["--gate", "10 passed, 10 failed", target], {}, b"the gate failed"),
        ("a folder in the clone", [str(copy.top / "release")], {}, b"a release lies outside"),
        ("a folder in use", [f"{room}/first"], {}, b"not an empty folder"),
        ("faults that lintian finds", [target], {"LINTIAN": "1"}, b"lintian found faults"),
        ("an object of another program", [target], {"LINKED": "/dev/null"}, b"the object of which"),
        ("no tools", [target], {"PATH": str(bare)}, b" is missing; docs/RELEASING.md"),
        ("no setuptools", [target], {"PYTHON": "/bin/false"}, b"python3-setuptools"),
    ]:
        ended = copy.release(*words, **env)
        checks.check(f"refused: {name}", ended.status == 1 and text in ended.err and not Path(target).exists(), ended)
    ended = copy.release(target, VERSION_LINE="kit-of-before logic 0123")
    said = Path(target, "MANIFEST").read_text() if ended.status == 0 else ended
    checks.check("another kit of that logic", "toolchain: kit-of-before logic 0123\n" in said, said)
    shutil.rmtree(target, ignore_errors=True)
    changelog = copy.top / "CHANGELOG.md"
    text = changelog.read_text()
    changelog.write_text(text.replace("## [Unreleased]\n", "## [Unreleased]\n\n### Added\n\n- A thing.\n", 1))
    ended = copy.release(target)
    told = b"CHANGELOG.md has entries under Unreleased" in ended.err
    checks.check("refused: entries under Unreleased", ended.status == 1 and told and not Path(target).exists(), ended)
    changelog.write_text(text)
    for words in ([], ["--gate", target], ["--nothing", target], [target, target], [""]):
        ended = copy.release(*words)
        checks.check(f"usage: {words}", ended.status == 2 and b"usage: bin/release" in ended.err, ended)


def try_uninstall(checks: programs.Checks, room: str) -> None:
    """What was installed of a built clone, without the toolchain, is removed, and what others have stays."""
    copy = Copy(f"{room}/uninstall")
    install, uninstall = (str(copy.top / "bin" / it) for it in ("install", "uninstall"))
    tools = Path(room, "no_toolchain")
    tools.mkdir()
    for tool in TOOLS:
        (tools / tool).symlink_to(shutil.which(tool))
    for tool in ("cc", "ar", "ld", "objcopy"):
        (tools / tool).symlink_to(Path(room, "uninstall", "tools", tool))
    env = {"PATH": str(tools)}
    others = ["bin/other", "lib/pkgconfig/other.pc"]
    for name, before, destdir in [("new", [], ""), ("used", others, ""), ("below", [], room)]:
        prefix = Path(room, name)
        for it in before:
            (prefix / it).parent.mkdir(parents=True, exist_ok=True)
            (prefix / it).touch()
        with_destdir = {**env, "DESTDIR": destdir}
        word = f"/{name}" if destdir else str(prefix)
        ended = programs.run([install, word], env=with_destdir)
        told = {line.removeprefix(f"{prefix}/") for line in ended.out.decode().splitlines()}
        whole = (ended.status, told, ended.err) == (0, PROGRAM | LIBRARY, b"")
        checks.check(f"{name}: installed without rt", whole, ended)
        removed = programs.run([uninstall, word], env=with_destdir)
        right = (removed.status, removed.out, removed.err) == (0, ended.out, b"")
        left = sorted(str(it.relative_to(prefix)) for it in prefix.rglob("*") if it.is_file())
        checks.check(f"{name}: removed", right and left == before and prefix.exists() == bool(before), (removed, left))
        again = programs.run([uninstall, word], env=with_destdir)
        checks.check(f"{name}: nothing is left to remove", (again.status, again.out, again.err) == (0, b"", b""), again)
    try_failures(checks, room, copy, tools)


def try_failures(checks: programs.Checks, room: str, copy: Copy, tools: Path) -> None:
    """An installation that fails leaves all as it was. A library that can't be built is left out."""
    prefix, install, env = Path(room, "failed"), str(copy.top / "bin" / "install"), {"PATH": str(tools)}
    (prefix / "lib" / "pkgconfig" / "heavy.pc").mkdir(parents=True)
    (prefix / "bin").mkdir()
    (prefix / "bin" / "heavy").write_text("of before")
    before = sorted(map(str, prefix.rglob("*")))
    ended = programs.run([install, str(prefix)], env=env)
    after = sorted(map(str, prefix.rglob("*")))
    said = f"heavy: {prefix}/lib/pkgconfig/heavy.pc is a folder\nheavy: nothing was installed\n".encode()
    told = (ended.status, ended.out, ended.err) == (1, b"", said)
    same = after == before and (prefix / "bin" / "heavy").read_text() == "of before"
    checks.check("a failed installation changes nothing", told and same, (ended, after))
    (tools / "mv").unlink()
    (tools / "mv").write_text(f'#!/bin/sh\ncase $* in *heavy.pc.new*) exit 1 ;; esac\nexec {shutil.which("mv")} "$@"\n')
    (tools / "mv").chmod(0o755)
    (prefix / "lib" / "pkgconfig" / "heavy.pc").rmdir()
    before = sorted(map(str, prefix.rglob("*")))
    ended = programs.run([install, str(prefix)], env=env)
    after = sorted(map(str, prefix.rglob("*")))
    same = after == before and (prefix / "bin" / "heavy").read_text() == "of before"
    told = (ended.status, ended.out, ended.err) == (1, b"", b"heavy: nothing was installed\n")
    checks.check("what fails at the last file is undone", told and same, (ended, after))
    os.remove(copy.top / "crates" / "heavy_ffi" / "out" / "libheavy_ffi.a")
    (tools / "mv").unlink()
    (tools / "mv").symlink_to(shutil.which("mv"))
    ended = programs.run([install, f"{room}/without"], env=env)
    told = b"it is not built, and the toolchain's command, rt, is not on the path\n"
    told = b"heavy: the library for C is left out: " + told
    left = {line.removeprefix(f"{room}/without/") for line in ended.out.decode().splitlines()}
    checks.check("a library that isn't built", (ended.status, left, ended.err) == (0, PROGRAM, told), ended)


def try_help(checks: programs.Checks) -> None:
    for name in ("bin/install", "bin/install-library", "bin/uninstall", "bin/release", "bin/wheel", "bin/test", "tests/run"):
        ended = programs.run([str(programs.TOP / name), "--help"], env=PATH)
        right = (ended.status, ended.err) == (0, b"") and f"\nusage: {name} ".encode() in ended.out
        checks.check(f"{name} --help", right and b"set -" not in ended.out, ended)
    for name, words in (("one_file.sh", ["2"]), ("many_machines.sh", ["2"]), ("many_machines.sh", [])):
        ended = programs.run([str(programs.TOP / "examples" / "machines" / name), *words], env=PATH)
        checks.check(f"{name} {words}", (ended.status, ended.out) == (2, b"") and b"usage: " in ended.err, ended)
    page = (programs.TOP / "docs" / "RELEASING.md").read_text()
    shown = [line.split() for line in re.findall(r"^    (bin/.*)$", page, re.M)]
    checks.check("docs/RELEASING.md shows commands", len(shown) > 2, shown)
    for name, *words in shown:
        text = (programs.TOP / name).read_text() if (programs.TOP / name).is_file() else ""
        absent = [word for word in words if word.startswith("--") and word not in text]
        checks.check(f"docs/RELEASING.md: {name}", text and not absent, absent)


def try_versions(checks: programs.Checks) -> None:
    """The version stands in the program's sources, and wherever else it stands it is the same."""
    def found(file: str, pattern: str) -> str | None:
        match = re.search(pattern, (programs.TOP / file).read_text(), re.M)
        return match and match[1]

    told = {
        "the program": programs.run([programs.built("heavy_cli"), "--version"]).out.split()[-1].decode(),
        "the man page": found("man/heavy.1", r'^\.TH HEAVY 1 \S+ "heavy (\S+)"'),
        "the header": found("include/heavy.h", r'^#define HEAVY_RELEASE "(.*)"$'),
        "the library": found("crates/heavy_ffi/src/lib.rt", r'^const RELEASE: &\[u8\] = b"(.*)";$'),
        "the changelog": found("CHANGELOG.md", r"^## \[(\d.*)\] - \d{4}-\d\d-\d\d$"),
        "examples/machines": found("examples/machines/README.md", r"heavy-(\d+\.\d+\.\d+)-x86_64-linux/"),
        "examples/machines, of Debian": found("examples/machines/README.md", r"heavy_(\d+\.\d+\.\d+)_amd64\.deb"),
    }
    # before the first release it tells none
    told["the changelog"] = told["the changelog"] or VERSION
    for name, version in told.items():
        checks.check(f"the version of {name}", version == VERSION, version)
    numbers = [str(file.relative_to(programs.TOP)) for folder in ("packaging", "python", "bin")
               for file in (programs.TOP / folder).rglob("*")
               if file.is_file() and file.suffix != ".pyc" and VERSION in file.read_text()]
    checks.check("what is filled in has no version of its own", not numbers, numbers)


def script(words: str) -> list[str]:
    """A line of bash over what bin/release calls."""
    load = " ".join(f'. "{programs.TOP}/bin/{name}.bash";' for name in ("build", "library", "static"))
    return ["bash", "-c", f"set -eu; {load} {words}", ""]


def link_static(program: str, *words: str) -> programs.Ended:
    return programs.run([*script('link_static "$@"'), program, *words], env=dict(os.environ))


def link_hooked(program: str, source: str, room: str) -> programs.Ended:
    """Links the static program with a file of C that is preloaded elsewhere, which stands before the C library."""
    Path(room, "next.c").write_text(NEXT_THREAD)
    words = ["-Dpthread_create=__wrap_pthread_create", "-Ddlsym=next_thread"] if source == "watch.c" else []
    compiled = ["cc", "-w", "-O1", *words, "-c", str(programs.TOP / "tests" / source), "-o", f"{program}.o"]
    beside = ["cc", "-O1", "-c", f"{room}/next.c", "-o", f"{room}/next.o"]
    for made in (compiled, beside):
        ended = programs.run(made, env=dict(os.environ))
        if ended.status != 0:
            return ended
    after = [f"{room}/next.o", "-Wl,--wrap=pthread_create"] if source == "watch.c" else []
    return link_static(program, f"{program}.o", *after, "-Wl,-z,muldefs")


def try_real(room: str) -> tuple[programs.Ended, Path]:
    """Releases the files that git knows, over what was built of them, from a clone of its own with a commit and a tag."""
    top, made = Path(room, "tree"), Path(room, "made")
    listed = subprocess.run(["git", "ls-files", "-z", "--cached", "--others", "--exclude-standard"], cwd=programs.TOP, capture_output=True)
    for name in filter(None, listed.stdout.decode().split("\0")):
        if (programs.TOP / name).is_file():
            (top / name).parent.mkdir(parents=True, exist_ok=True)
            shutil.copy2(programs.TOP / name, top / name)
    for place in (programs.TOP / "crates").glob("*/out"):
        (top / place.relative_to(programs.TOP)).symlink_to(place)
    tell_version(top)
    # a link is no folder, which .gitignore names
    (top / ".git" / "info").mkdir(parents=True)
    git = ["git", "-c", "user.name=A B", "-c", "user.email=a@b.example", "-c", "init.defaultBranch=main"]
    for words in (["init", "-q"], ["add", "-A", "--", ":!crates/*/out"], ["commit", "-q", "-m", "A release"], ["tag", f"v{VERSION}"]):
        subprocess.run([*git, *words], cwd=top, check=True, capture_output=True)
    (top / ".git" / "info" / "exclude").write_text("crates/*/out\n")
    env = {**os.environ, "PYTHON": "/usr/bin/python3"}
    return programs.run([str(top / "bin" / "release"), str(made)], env=env), made


class Release(programs.Checks):
    """A release, and what installs and removes what is in it."""

    def test_release(self) -> None:
        try_release(self, f"{self.room}/release")

    def test_real(self) -> None:
        """A release by the real tools, of the built program and library in a clone that is tagged for it: lintian finds
        nothing, and the program runs."""
        wants = programs.run(script(f"{OBJECT} && is_library_built"), env=dict(os.environ)).status != 0
        tools = [name for name in ("git", "dpkg-deb", "lintian", "cc", "ar", "strip") if not shutil.which(name)]
        papers = [file for file in PAPERS if not Path(file).exists()]
        modules = subprocess.run(["/usr/bin/python3", "-c", "import setuptools, wheel"], capture_output=True).returncode
        if wants or tools or papers or modules:
            self.skipTest(f"wants {tools or papers or 'what the build leaves of the program and the library, and setuptools'}")
        ended, made = try_real(self.room)
        said = dict(line.split(": ", 1) for line in (made / "MANIFEST").read_text().splitlines()) if ended.status == 0 else {}
        self.check("a release by real tools", ended.status == 0, ended)
        self.check("lintian found nothing", "no errors and no warnings" in said.get("lintian", ""), said)
        subprocess.run(["tar", "-xzf", made / f"{NAME}.tar.gz", "-C", self.room])
        ran = programs.run([f"{self.room}/{NAME}/bin/heavy", "report", "--k", "2", f"{self.room}/{NAME}/examples/four.csv"])
        self.check("its program on its example", (ran.status, ran.out) == (0, b"a,6\n"), ran)

    def test_uninstall(self) -> None:
        try_uninstall(self, self.room)

    def test_help(self) -> None:
        try_help(self)

    def test_versions(self) -> None:
        try_versions(self)

    def test_static(self) -> None:
        """The static program, from the object that the build made, in the checks of the program."""
        built = programs.built("heavy_cli")
        for wanted, what in [
            (OBJECT, "the object that the built program was linked of"),
            ("links_static", "a compiler that links statically"),
        ]:
            if programs.run(script(wanted), env=dict(os.environ)).status != 0:
                self.skipTest(f"for want of {what}")
        program, refusing, watching = (f"{self.room}/{name}" for name in ("heavy", "refusing", "watching"))
        made = [link_static(program)]
        made += [link_hooked(file, hook, self.room) for file, hook in ((refusing, "refuse.c"), (watching, "watch.c"))]
        self.check("the static program is linked", [it.status for it in made] == [0, 0, 0], made)
        asks = [sorted(set(re.findall(rb"NEEDED|INTERP", subprocess.run(
            ["llvm-objdump", "--private-headers", file], executable=programs.clang(), capture_output=True).stdout)))
            for file in (built, program)]
        self.check("it asks for no library and no loader", asks == [[b"INTERP", b"NEEDED"], []], asks)
        for name, *more in [
            ("command_line.py", watching), ("devices.py", watching), ("refused_memory.py", refusing, "test_commands"),
        ]:
            words = [sys.executable, "-B", "on_static.py", name, program, *more]
            ran = subprocess.run(words, cwd=programs.TOP / "tests", capture_output=True, text=True)
            passed = re.search(r"^.*: (\d+) passed, 0 failed, \d+ skipped$", ran.stdout, re.M)
            right = ran.returncode == 0 and passed and int(passed[1]) > 20
            self.check(f"{name} of the static program", right, ran.stdout + ran.stderr)


if __name__ == "__main__":
    programs.run_tests("release")
