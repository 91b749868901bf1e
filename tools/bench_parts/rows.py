"""The rows of the table: who is measured, in turn, and what is printed of it."""
from __future__ import annotations

from . import table
from .graphs import Graph
from .measured import Failed, Taken, tell
from .workers import Worker, Workers

ROUNDS = 5
Runs = dict[Worker, list[Taken]]


class Rows:
    """Prints rows as they are measured, and remembers whether somebody failed."""

    def __init__(self, everybody: Workers, quick: bool, only: str):
        self.workers, self.folder = everybody, everybody.folder
        self.quick, self.only = quick, only.lower()
        self.with_before = any(is_before for _, is_before in everybody.built["solver_main"])
        self.failed, self.printed = False, 0

    def is_wanted(self, what: str, who: str) -> bool:
        return self.only in f"{what}, {who}".lower()

    def chosen(self, what: str, all_of_them: list[Worker]) -> list[Worker]:
        """Those whose rows are wanted, and LMDB, which the others are compared with; nobody, if no row is wanted."""
        wanted = [one for one in all_of_them if self.is_wanted(what, one.who)]
        return [one for one in all_of_them if one in wanted or one.who == "LMDB"] if wanted else []

    def in_turn(self, what: str, all_of_them: list[Worker]) -> Runs:
        """Each makes one run, then each the next; who fails makes no more, and is told of."""
        runs: Runs = {one: [] for one in all_of_them}
        for _ in range(1 if self.quick else ROUNDS):
            for one in list(runs):
                try:
                    runs[one].append(one.once())
                except Failed as failed:
                    self.tell_failure(f"{what}, {one.who}{', before' if one.before else ''}: {failed}")
                    del runs[one]
        return runs

    def tell_failure(self, message: str) -> None:
        tell(message)
        self.failed = True

    def are_alike(self, what: str, runs: Runs) -> None:
        """All did as much, or it is told."""
        counts = {f"{one.who} {taken[0].count:,}" for one, taken in runs.items()}
        if len({taken[0].count for taken in runs.values()}) > 1:
            self.tell_failure(f"{what}: not all did as much: {', '.join(sorted(counts))}")

    def print_rows(self, what: str, runs: Runs) -> None:
        """A row for each who was measured."""
        found = {(one.who, one.before): table.best(taken) for one, taken in runs.items()}
        for who in dict.fromkeys(one.who for one in runs):
            if self.is_wanted(what, who):
                now, before = found.get((who, False)), found.get((who, True))
                print(table.text(table.row(what, who, now, found.get(("LMDB", False)), before, self.with_before)), flush=True)
                self.printed += 1

    def graph(self, graph: Graph) -> None:
        """The rows of one graph."""
        chosen = self.chosen(graph.name, self.workers.of_graph(graph))
        runs = self.in_turn(graph.name, chosen)
        self.are_alike(graph.name, runs)
        self.print_rows(graph.name, runs)
