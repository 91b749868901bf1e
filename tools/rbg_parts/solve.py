"""A second program that solves a game: textbook retrograde analysis in memory, apart from the proved one and far slower."""
from __future__ import annotations

import time

from .play import TooLong


class Graph:
    """Positions as far as they were found, in the order in which the program numbers them, and where their moves lead."""

    def __init__(self, play):
        self.play = play
        self.positions = [play.start()]
        self.number = {self.positions[0]: 0}
        self.successors = []
        # how many positions are at most so many moves from the start
        self.layers = [1]

    @property
    def is_whole(self):
        return len(self.successors) == len(self.positions)

    def expand(self):
        """Finds the moves of the first position that is not expanded; they are answered."""
        moves = self.play.moves(self.positions[len(self.successors)])
        after = []
        for move in moves:
            at = self.number.setdefault(move.to, len(self.positions))
            if at == len(self.positions):
                self.positions.append(move.to)
            after.append(at)
        self.successors.append(after)
        if len(self.successors) == self.layers[-1]:
            self.layers.append(len(self.positions))
        return moves

    def explore(self, most_positions, seconds):
        """Expands positions until so many are expanded, the time is over, in the midst of a search too, or nothing is left."""
        self.play.ends = time.monotonic() + seconds
        try:
            while not self.is_whole and len(self.successors) < most_positions and time.monotonic() < self.play.ends:
                self.expand()
        except TooLong:
            pass
        finally:
            self.play.ends = None


def values(graph):
    """The winner, 0 for a drawn position, and the distance of each position of a whole graph."""
    play, positions = graph.play, graph.positions
    movers = [play.role(position) for position in positions]
    found = [(0, 0)] * len(positions)
    left = [len(after) for after in graph.successors]
    before = [[] for _ in positions]
    for number, after in enumerate(graph.successors):
        for to in after:
            before[to].append(number)
    order = []
    for number, after in enumerate(graph.successors):
        winner = play.ahead(positions[number]) if not after else 0
        if winner:
            found[number] = (winner, 0)
            order.append(number)
    for number in order:
        winner, distance = found[number]
        for one in before[number]:
            left[one] -= 1
            if not found[one][0] and (movers[one] == winner or left[one] == 0):
                found[one] = (winner, distance + 1)
                order.append(one)
    return found
