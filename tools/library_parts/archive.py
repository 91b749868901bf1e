"""Builds crates/in_process: the archive for x86-64, and the module that LLVM was given for it."""
import hashlib
import os
import shlex
import shutil
import subprocess
import sys
import tempfile
from pathlib import Path

from rbg_parts import words

ROOT = words.ROOT
CRATE = ROOT / "crates/in_process"
# a clang that keeps the module that it is given, and then does its work; it is started with no environment
KEEPS = """#!/bin/sh
for word in "$@"; do case $word in *.bc|*.ll) cp -- "$word" {kept} ;; esac; done
exec {clang} "$@"
"""


class Failed(Exception):
    """Why something is not made."""


class Unbuilt(Exception):
    """A library is missing."""


def run(*command, **how):
    """What a command prints; one that fails ends the work."""
    done = subprocess.run(list(map(str, command)), stdout=subprocess.PIPE, stderr=subprocess.STDOUT, text=True, check=False, **how)
    if done.returncode:
        raise Failed(f"{Path(command[0]).name} failed:\n{done.stdout[-1500:]}")
    return done.stdout


def kit():
    """The toolchain's folder."""
    if not shutil.which("rt"):
        raise Failed("the Rattle toolchain's command 'rt' is not on the PATH")
    return Path(run("rt", "doc").strip()).parent


def described(kit_folder):
    """The crate as the toolchain sees it."""
    sys.path.insert(0, str(kit_folder / "bin"))
    import rtlib

    os.chdir(CRATE)
    return rtlib.Crate(str(CRATE), rtlib.root_above(str(CRATE)), {})


def sum_of(crates):
    """Tells sources apart, by their names and contents."""
    found = hashlib.sha256()
    for folder in sorted(Path(crate.folder) for crate in crates):
        for part in ("src", "specs", "proofs"):
            for file in sorted((folder / part).rglob("*")):
                if file.suffix in (".rt", ".antt"):
                    found.update(f"{file.relative_to(ROOT)}\n".encode() + file.read_bytes())
    return found.hexdigest()


def toolchain_that_keeps(kit_folder, room):
    """A folder like the toolchain's, whose clang keeps what it is given."""
    made = room / "toolchain"
    (made / "bin").mkdir(parents=True)
    (made / "lib").symlink_to(kit_folder / "toolchain/lib")
    for tool in (kit_folder / "toolchain/bin").iterdir():
        if tool.name != "clang":
            (made / "bin" / tool.name).symlink_to(tool)
    paths = {"kept": room / "module.bc", "clang": kit_folder / "toolchain/bin/clang"}
    (made / "bin/clang").write_text(KEEPS.format(**{name: shlex.quote(str(path)) for name, path in paths.items()}))
    (made / "bin/clang").chmod(0o755)
    return made


def build(kit_folder, crate, to):
    """Proves the crate over the libraries that are there, and compiles it."""
    with tempfile.TemporaryDirectory() as name:
        room = Path(name)
        options = [*crate.words(["--jobs", "1"]), "--toolchain", toolchain_that_keeps(kit_folder, room)]
        options += ["--incremental", "out/incremental", "--backend", "llvm", "-o", room / "in_process.a"]
        run(kit_folder / "bin/rattle", "build", *options)
        if not (room / "module.bc").exists():
            raise Failed("the toolchain handed no module to its clang")
        for file in ("in_process.a", "module.bc"):
            shutil.copyfile(room / file, to / file)


def made(kit_folder, builds):
    """The folder with `in_process.a` and `module.bc`, made anew if they are not of the sources as they are. Libraries that are missing are
    built first, or end the work."""
    crate = described(kit_folder)
    to = CRATE / "out/library"
    to.mkdir(parents=True, exist_ok=True)
    stamp, now = to / "made_from", sum_of([crate, *crate.below()])
    if stamp.exists() and stamp.read_text() == now:
        return to
    missing = [it.name for it in crate.below() if not os.path.isdir(it.rlib)]
    if missing and not builds:
        raise Unbuilt(f"{missing[0]} is not built")
    if builds:
        print("library: proving and building crates/in_process, with what it uses, if that is not built", file=sys.stderr)
        run("rt", "lib", cwd=CRATE)
    build(kit_folder, crate, to)
    stamp.write_text(now)
    return to


def main(doc, make):
    """Reads the words of a command that makes something, and makes it."""
    asked = words.parser(doc)
    asked.add_argument("folder", nargs="?", type=Path, default=ROOT / "library/out")
    asked.add_argument("--built", action="store_true")
    asked = asked.parse_args()
    folder = asked.folder.absolute()
    try:
        folder.mkdir(parents=True, exist_ok=True)
        make(folder, not asked.built)
    except Unbuilt as missing:
        words.fail(3, missing)
    except (Failed, OSError) as error:
        words.fail(1, error)
    return 0
