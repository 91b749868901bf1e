"""The one table: its rows, and what is told of some runs."""
from __future__ import annotations

from dataclasses import dataclass

from .measured import Taken

HEAD = ("what", "who", "a second of processor time", "a second by the clock", "of LMDB", "spread")
HEAD_BEFORE = ("before", "times")
WIDTHS = (32, 16, 26, 21, 7, 6, 9, 5)
NOTHING = "-"


@dataclass(frozen=True)
class Best:
    """The least of some runs: how much in a second, and by how much the slowest was slower."""

    by_cpu: float
    by_clock: float
    spread: float | None


def best(runs: list[Taken]) -> Best:
    """What is told of runs that did the same."""
    times = [run.cpu for run in runs]
    return Best(rate(runs[0].count, min(times)), rate(runs[0].count, min(run.clock for run in runs)), spread(times))


def rate(count: int, seconds: float) -> float:
    """How many in a second; no less than a microsecond is believed."""
    return count / max(seconds, 1e-6)


def spread(times: list[float]) -> float | None:
    """By how much the longest time is longer than the least, in percent; nothing of a single one."""
    return 100 * (max(times) / max(min(times), 1e-6) - 1) if len(times) > 1 else None


def ratio(one: Best | None, other: Best | None) -> str:
    """How many times as fast the one is as the other, by processor time."""
    return f"{one.by_cpu / other.by_cpu:.2f}" if one and other else NOTHING


def row(what: str, who: str, now: Best | None, lmdb: Best | None, before: Best | None, with_before: bool) -> tuple[str, ...]:
    """The cells of a row."""
    cells = (NOTHING, NOTHING, NOTHING, NOTHING)
    if now:
        cells = (f"{now.by_cpu:,.0f}", f"{now.by_clock:,.0f}", ratio(now, lmdb), NOTHING if now.spread is None else f"{now.spread:.0f} %")
    if with_before:
        cells += (f"{before.by_cpu:,.0f}" if before else NOTHING, ratio(now, before))
    return (what, who, *cells)


def text(cells: tuple[str, ...]) -> str:
    """A row as Markdown: words at the left, figures at the right."""
    padded = [f"{cell:<{WIDTHS[at]}}" if at < 2 else f"{cell:>{WIDTHS[at]}}" for at, cell in enumerate(cells)]
    return "| " + " | ".join(padded) + " |"


def head(with_before: bool) -> str:
    """The two lines above the rows."""
    names = HEAD + (HEAD_BEFORE if with_before else ())
    rule = ["-" * (WIDTHS[at] + 2) if at < 2 else "-" * (WIDTHS[at] + 1) + ":" for at in range(len(names))]
    return text(names) + "\n|" + "|".join(rule) + "|"
