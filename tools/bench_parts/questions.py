"""Rows of opening a finished table, and of asking it."""
from __future__ import annotations

import contextlib
from collections.abc import Callable, Iterator
from pathlib import Path

from .graphs import BATCH, Graph, count
from .measured import Failed, Taken, number_behind, run
from .rows import Rows, Runs
from .workers import LIBRARIES, PROGRAM, Worker, remove, rival, worked

# a table for each who made one, and whether by the other build
Tables = dict[tuple[str, bool], Path]


def opened(program: str, table: Path, known: int) -> Taken:
    """A session that is asked nothing but how far the table is."""
    done = run([program, "session", str(table)], "status\n")
    if number_behind("known", done.output) != known:
        raise Failed(f"the table says {done.output.strip()[:60]}")
    return done.taken(known)


def audited(program: str, table: Path, known: int) -> Taken:
    done = run([program, "audit", str(table)])
    if done.output != "audit right finished\n":
        raise Failed(f"the audit says {done.output.strip()[:60]}")
    return done.taken(known)


def listed(program: str, table: Path, known: int, lines: int) -> Taken:
    """So many lines `list A 256`, all through the table and again."""
    blocks = known // BATCH
    asked = "".join(f"list {BATCH * (line % blocks)} {BATCH}\n" for line in range(lines))
    done = run([program, "session", str(table)], asked)
    rows = done.output.count("\n")
    if rows != BATCH * lines:
        raise Failed(f"{BATCH * lines} rows were asked for, and {rows} came")
    return done.taken(rows)


def lined(program: str, table: Path, known: int, lines: int) -> Taken:
    """So many lines `line N`, of positions from the start on."""
    asked = "".join(f"line {known * line // (2 * lines)}\n" for line in range(lines))
    done = run([program, "session", str(table)], asked)
    replies = done.output.splitlines()
    if len(replies) != lines or not all(reply.startswith("line ") for reply in replies):
        raise Failed(f"a line was answered {replies[-1][:60] if replies else 'by nothing'}")
    return done.taken(sum(len(reply.split()) - 1 for reply in replies))


def checked(program: str, file: Path, known: int) -> Taken:
    """A library goes through all that it keeps."""
    done = run([program, "check", str(file)])
    if number_behind("positions", done.output) != known:
        raise Failed(f"a check found {done.output.strip()[:60]}")
    return done.taken(known)


def least(runs: list[Taken]) -> Taken:
    """The least processor time and the least time by the clock of some runs."""
    return Taken(runs[0].count, min(run.cpu for run in runs), min(run.clock for run in runs))


def without_opening(runs: Runs, opening: Runs) -> Runs:
    """Runs of sessions, without what the same program took to open the table."""
    took = {one.before: least(taken) for one, taken in opening.items() if one.who == PROGRAM}
    return {one: [run.less(took[one.before]) for run in taken] for one, taken in runs.items() if one.before in took}


class Questions:
    """Rows of a finished table of the count, which each program and each library made for itself."""

    def __init__(self, rows: Rows, known: int):
        self.rows, self.known, self.tables = rows, known, {}
        self.open, self.audit = f"open {known:,} positions", f"audit {known:,} positions"
        self.list, self.line = f"list of {known:,}, rows", f"line of {known:,}, positions"

    def print_all(self, with_sessions: bool) -> None:
        """Prints the rows of opening and auditing, and perhaps those of what a session answers."""
        names = [self.open, self.audit, *([self.list, self.line] if with_sessions else [])]
        if not any(self.rows.is_wanted(what, who) for what in names for who in (PROGRAM, *LIBRARIES[:2])):
            return
        with finished_tables(self.rows, count(self.known)) as self.tables:
            opening = self.rows.in_turn(self.open, self.programs(opened) + self.libraries())
            self.rows.print_rows(self.open, opening)
            self.ask(self.audit, audited)
            if with_sessions:
                some = 40 if self.rows.quick else 4_000
                self.ask(self.list, lambda *table: listed(*table, some), opening)
                self.ask(self.line, lambda *table: lined(*table, 4), opening)

    def ask(self, what: str, once: Callable[[str, Path, int], Taken], opening: Runs | None = None) -> None:
        """The row of one question; if a session answers it, without its opening."""
        runs = self.rows.in_turn(what, self.programs(once) if self.rows.is_wanted(what, PROGRAM) else [])
        self.rows.print_rows(what, without_opening(runs, opening) if opening else runs)

    def programs(self, once: Callable[[str, Path, int], Taken]) -> list[Worker]:
        """Who asks the tables of the programs."""
        found = []
        for path, is_before in self.rows.workers.programs("solver_main"):
            file = self.tables.get((PROGRAM, is_before))
            if file:
                found.append(Worker(PROGRAM, lambda path=path, file=file: once(path, file, self.known), is_before))
        return found

    def libraries(self) -> list[Worker]:
        """The libraries, which go through all that they keep."""
        there = [(who, path, self.tables[who, False]) for who, path in self.rows.workers.rivals() if (who, False) in self.tables]
        return [Worker(who, lambda path=path, file=file: checked(path, file, self.known)) for who, path, file in there]


@contextlib.contextmanager
def finished_tables(rows: Rows, graph: Graph) -> Iterator[Tables]:
    """The same graph worked to its end by each program and library, in files that are removed afterwards."""
    makers = [(PROGRAM, is_before, path, worked) for path, is_before in rows.workers.programs("solver_main")]
    makers += [(who, False, path, rival) for who, path in rows.workers.rivals() if who in LIBRARIES]
    tables: Tables = {}
    try:
        for at, (who, is_before, path, make) in enumerate(makers):
            try:
                make(path, graph, rows.folder / f"finished{at}")
                tables[who, is_before] = rows.folder / f"finished{at}"
            except Failed as failed:
                rows.tell_failure(f"{graph.name}, {who}, to be opened: {failed}")
        yield tables
    finally:
        remove(rows.folder, "finished")
