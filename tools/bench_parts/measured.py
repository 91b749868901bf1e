"""Runs of a program: what it printed, and how long it took."""
from __future__ import annotations

import os
import resource
import subprocess
import sys
import tempfile
import time
from dataclasses import dataclass
from pathlib import Path


class Failed(Exception):
    """A run that did not do what it should, in words."""


@dataclass(frozen=True)
class Taken:
    """So much was done, in so many seconds of processor time and by the clock."""

    count: int
    cpu: float
    clock: float

    def less(self, other: Taken) -> Taken:
        """Without the time of another run, which this one has in it."""
        return Taken(self.count, self.cpu - other.cpu, self.clock - other.clock)


@dataclass(frozen=True)
class Run:
    """What a run printed, and how long it took."""

    output: str
    errors: str
    cpu: float
    clock: float

    def taken(self, count: int) -> Taken:
        return Taken(count, self.cpu, self.clock)


def tell(message: str) -> None:
    print(f"bench: {message}", file=sys.stderr, flush=True)


def awaited(process: subprocess.Popen) -> tuple[int, resource.struct_rusage]:
    """How a process ended, and what it used; it does not outlive this one if that is ended meanwhile."""
    try:
        _, status, usage = os.wait4(process.pid, 0)
    except BaseException:
        process.kill()
        raise
    return status, usage


def run(words: list[str], given: str = "", statuses: tuple[int, ...] = (0,)) -> Run:
    """Runs a program on these lines, until it ends with one of these; they and its output lie in files, so that nothing waits for another process."""
    with tempfile.TemporaryFile("w+") as lines, tempfile.TemporaryFile("w+") as out, tempfile.TemporaryFile("w+") as told:
        lines.write(given)
        lines.seek(0)
        began = time.monotonic()
        process = subprocess.Popen(words, stdin=lines, stdout=out, stderr=told)
        status, usage = awaited(process)
        clock = time.monotonic() - began
        process.returncode = os.waitstatus_to_exitcode(status)
        out.seek(0)
        told.seek(0)
        output, errors = out.read(), told.read()
    if process.returncode not in statuses:
        last = (errors.splitlines() or output.splitlines() or ["nothing"])[-1]
        raise Failed(f"{Path(words[0]).name} ended with status {process.returncode}, and told {last[:90]}")
    return Run(output, errors, usage.ru_utime + usage.ru_stime, clock)


def number_behind(word: str, line: str) -> int:
    """The number behind a word of a line, as 7 behind `units` in `units 7 known 7 ..`."""
    found = line.split()
    if word not in found[:-1] or not found[found.index(word) + 1].isdigit():
        raise Failed(f"there is no number behind `{word}` in: {line.strip()[:60] or 'nothing'}")
    return int(found[found.index(word) + 1])


def units_of(output: str) -> int:
    """All units that the lines of an output tell."""
    lines = output.splitlines()
    if not lines:
        raise Failed("nothing was printed")
    return sum(number_behind("units", line) for line in lines)


class Programs:
    """The built programs: those of one folder, or those that stand in crates/*/out."""

    def __init__(self, root: Path, folder: Path | None):
        self.root, self.folder = root, folder

    def place(self, name: str) -> Path:
        return self.folder / name if self.folder else self.root / "crates" / name / "out" / name

    def path(self, name: str) -> str | None:
        """Where a program is; one that is not there is told of."""
        place = self.place(name).absolute()
        if place.is_file() and os.access(place, os.X_OK):
            return str(place)
        tell(f"without {name}: {place} is not there")
        return None


def compiled(source: Path, folder: Path, library: str | None) -> str | None:
    """A C program over a library, `LMDB` or `SQLite`, or over none; one that cannot be compiled is told of."""
    program = folder / f"{source.stem}_{library or 'C'}"
    links = {"LMDB": ["-DLMDB", "-llmdb"], "SQLite": ["-DSQLITE", "-lsqlite3"], None: []}[library]
    try:
        done = subprocess.run(["cc", "-O2", str(source), "-o", str(program), *links], stderr=subprocess.DEVNULL, check=False)
    except FileNotFoundError:
        done = None
    if done is None or done.returncode:
        tell(f"without {library or 'C in memory'}: {source.name} cannot be compiled{f' with the library of {library}' if library else ''}")
        return None
    return str(program)
