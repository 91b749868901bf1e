"""How many positions a game may have, and how many pages a table of them takes."""
from __future__ import annotations

import random
import time
from collections import Counter

from .play import TooLong, TooWide

SEED = 20261127
MOST_PAGES, MOST_POSITIONS = 1048576, 16777216


def packed_length(play):
    """Bytes of a packed position (docs/FORMAT.md)."""
    game = play.game
    bits = (len(game.pieces) - 1).bit_length() * len(game.vertices) + sum(bound.bit_length() for _, bound in game.values)
    bits += (len(game.vertices) - 1).bit_length() + 2 + len(game.actions).bit_length()
    return max(1, (bits + 7) // 8)


def pages_in_use(play, positions, per):
    """About how many pages the trees of so many positions take, with so many moves each.

    The leaves of positions and edges are two thirds full, those of records and of the order nearly full.
    """
    length, leaf, pages = packed_length(play), 4092, 0.0
    trees = ((positions, length + 4, 0.66), (positions, length + 20, 0.95), (positions * per, 8, 0.66), (positions, 8, 0.95))
    for entries, size, full in trees:
        pages += entries / max(1, int(full * (leaf // size))) * 1.02 + 1
    return int(pages + (len(play.game.text) + leaf - 1) // leaf + 1)


def pages_of(play, positions, per):
    """Pages to give a table: those in use, and those that a command of 256 units changes, beside the old ones; a round number."""
    used = pages_in_use(play, positions, per)
    wanted = int(1.1 * used) + min(used, int(256 * (3 + 2 * per))) + 16
    step = max(16, 1 << max(0, wanted.bit_length() - 3))
    return min(MOST_PAGES, max(64, -(-wanted // step) * step))


def rounded(count):
    """The number with two digits that count."""
    unit = 10 ** max(0, len(str(count)) - 2)
    return round(count / unit) * unit


def met_by_chance(play, graph, seconds, most_moves=60):
    """How often random plays from positions that are not expanded meet each position that is not known."""
    chance, counts, begins = random.Random(SEED), Counter(), graph.positions[len(graph.successors) :]
    play.ends = time.monotonic() + seconds
    try:
        while begins and time.monotonic() < play.ends:
            position = chance.choice(begins)
            for _ in range(most_moves):
                moves = play.moves(position)
                if not moves:
                    break
                position = chance.choice(moves).to
                if position not in graph.number:
                    counts[position] += 1
    except TooLong:
        pass
    finally:
        play.ends = None
    return counts


def by_rare_ones(counts):
    """How many there are of what was met so often, by how many were met once and twice; None where many were met once."""
    met, times = sum(counts.values()), Counter(counts.values())
    if met < 100 or times[1] > met / 4:
        return None
    return len(counts) + times[1] * (times[1] - 1) // (2 * (times[2] + 1))


def guess(play, graph, seconds):
    """About how many positions a game has that was explored in part, and from how many to how many; None if random plays do not tell."""
    try:
        counts = met_by_chance(play, graph, seconds)
    except TooWide:
        return None
    beyond = by_rare_ones(counts)
    if beyond is None:
        return None
    found = len(graph.positions)
    return found + beyond, found + len(counts), min(MOST_POSITIONS, (found + beyond) * 3 // 2)
