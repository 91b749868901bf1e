"""The graphs that are worked."""
from __future__ import annotations

import subprocess
import sys
from dataclasses import dataclass
from pathlib import Path

from rbg_parts import estimate, play

ROOT = Path(__file__).resolve().parent.parent.parent
BATCH = 256
# bounds that are never used, so that a position has 14 bytes, as `bench store` has them
COUNT = """#players = white(1), black(1)
#pieces = e
#variables = p(1000000), q(1000000), r(1000000), s(1000000), t(255), n({bound})
#board = v[e]{{}}
#rules = [$white=1] ->white ([$n=n+1] ->white)*
"""


@dataclass(frozen=True)
class Graph:
    """A game that is worked for so many units or to its end: its text, and the words by which graph.c knows it."""

    name: str
    text: str
    words: tuple[str, str]
    units: int
    pages: int
    last: int | None = None

    @property
    def commits(self) -> int:
        """How many commands of 256 units reach the units."""
        return -(-self.units // BATCH)

    @property
    def length(self) -> int:
        """The bytes of a position."""
        return estimate.packed_length(play.play_of(self.text.encode()))


def text_of(name: str) -> str:
    return (ROOT / f"games/{name}.rbg").read_text()


def count(positions: int) -> Graph:
    """A count with so many positions, 14 bytes each up to 131,071 of them, and then 15."""
    text = COUNT.format(bound=positions - 2)
    pages = max(256, positions // 6)
    return Graph(f"count of {positions:,}", text, ("count", str(positions - 2)), 2 * positions, pages, positions - 1)


def breakthrough(units: int) -> Graph:
    """Breakthrough 4 wide and 6 high, by the rules of games/breakthrough.rbg."""
    grid = [sys.executable, str(ROOT / "tools/grid"), "4", "6", "w=1", "b=6"]
    board = subprocess.run(grid, stdout=subprocess.PIPE, text=True, check=True).stdout
    text = text_of("breakthrough")
    text = text[: text.index("#board")] + board + text[text.index("#rules") :]
    return Graph(f"breakthrough 4x6, {units:,} units", text, ("break", "4x6"), units, max(1024, units * 2 // 3))


def tower(units: int) -> Graph:
    return Graph(f"tower, {units:,} units", text_of("connect_three_tower"), ("connect", "3x10"), units, max(1024, units * 2 // 5))


def all_graphs(quick: bool) -> list[Graph]:
    """The graphs of the table; those of a quick one take seconds."""
    counted, towered, broken = (2_000, 5_000, 2_000) if quick else (100_000, 300_000, 100_000)
    return [
        count(counted),
        tower(towered),
        breakthrough(broken),
        Graph("tic-tac-toe", text_of("tictactoe"), ("free", "3x3"), 9_889, 2_048),
        Graph("rook", text_of("rook"), ("rook", "4x4"), 6_664, 2_048),
    ]
