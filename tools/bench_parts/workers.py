"""Who works a graph: each makes one run, and tells how long it took."""
from __future__ import annotations

import contextlib
from collections.abc import Callable, Iterator
from dataclasses import dataclass
from pathlib import Path

from .graphs import BATCH, Graph
from .measured import Programs, Taken, compiled, run, units_of

KEPT = 64
LIBRARIES = ("LMDB", "SQLite", None)
PROGRAMS = ("solver_main", "bench")
PROGRAM = "the program"
HERE = Path(__file__).resolve().parent


@dataclass(frozen=True)
class Worker:
    """Somebody who makes a run; `before` says that it is of the other build."""

    who: str
    once: Callable[[], Taken]
    before: bool = False


def remove(folder: Path, name: str) -> None:
    """Removes a file and those that a library put beside it."""
    for file in folder.glob(f"{name}*"):
        file.unlink()


@contextlib.contextmanager
def new_file(folder: Path, name: str) -> Iterator[Path]:
    """The path of a file that is not there, and is removed afterwards."""
    remove(folder, name)
    try:
        yield folder / name
    finally:
        remove(folder, name)


def new_table(program: str, graph: Graph, table: Path) -> None:
    """A table with the game of a graph, of which nothing is worked."""
    game = table.with_suffix(".rbg")
    game.write_text(graph.text)
    run([program, "create", str(table), "--pages", str(graph.pages)])
    run([program, "load", str(table), str(game)])


def worked(program: str, graph: Graph, table: Path) -> Taken:
    """One session of lines `work 256` on a new table."""
    new_table(program, graph, table)
    done = run([program, "session", str(table)], f"work {BATCH}\n" * graph.commits)
    return done.taken(units_of(done.output))


def session(program: str, graph: Graph, folder: Path) -> Taken:
    with new_file(folder, "session.table") as table:
        return worked(program, graph, table)


def store(program: str, graph: Graph, folder: Path) -> Taken:
    """The count by `bench store`, which knows the moves beforehand."""
    with new_file(folder, "store.table") as table:
        with table.open("wb") as file:
            file.truncate(4096 * graph.pages)
        done = run([program, "store", str(table), str(graph.last), str(KEPT)], "\n" * graph.commits)
        return done.taken(units_of(done.output))


def moves(program: str, graph: Graph, folder: Path) -> Taken:
    """The game by `bench speed`, with the table in memory."""
    with new_file(folder, "moves.rbg") as game:
        game.write_text(graph.text)
        done = run([program, "speed", str(game), str(BATCH * graph.commits)])
        return done.taken(units_of(done.output))


def rival(program: str, graph: Graph, file: Path) -> Taken:
    """The game by graph.c, over a library or in memory."""
    done = run([program, *graph.words, str(graph.length), str(graph.units), str(file)])
    return done.taken(units_of(done.output))


def new_rival(program: str, graph: Graph, folder: Path) -> Taken:
    with new_file(folder, "rival.table") as file:
        return rival(program, graph, file)


class Workers:
    """All who are there: the programs of this build and of the other one, and the C programs."""

    def __init__(self, programs: Programs, before: Programs | None, folder: Path):
        self.folder = folder
        builds = [(programs, False), *([(before, True)] if before else [])]
        self.built = {name: [(build.path(name), is_before) for build, is_before in builds] for name in PROGRAMS}
        self.compiled = {library: compiled(HERE / "graph.c", folder, library) for library in LIBRARIES}

    def programs(self, name: str) -> list[tuple[str, bool]]:
        """Where a program of both builds is, as far as it is there."""
        return [(path, is_before) for path, is_before in self.built[name] if path]

    def rivals(self) -> list[tuple[str, str]]:
        """The C programs that are there, each with its name."""
        return [(library or "C in memory", path) for library, path in self.compiled.items() if path]

    def of_program(self, name: str, who: str, once: Callable[[str], Taken]) -> list[Worker]:
        """The runs of a program of both builds."""
        return [Worker(who, lambda path=path: once(path), is_before) for path, is_before in self.programs(name)]

    def of_graph(self, graph: Graph) -> list[Worker]:
        """All who work a graph."""
        found = self.of_program("solver_main", PROGRAM, lambda path: session(path, graph, self.folder))
        if graph.last is not None:
            found += self.of_program("bench", "the store alone", lambda path: store(path, graph, self.folder))
        found += self.of_program("bench", "the moves alone", lambda path: moves(path, graph, self.folder))
        return found + [Worker(who, lambda path=path: new_rival(path, graph, self.folder)) for who, path in self.rivals()]
