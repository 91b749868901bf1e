"""How a game is to play, by its table: who wins, how many moves there are, and how easily a result is thrown away."""
from __future__ import annotations

from array import array

import rbgtable

from . import fields, progress

DRAWN, OPEN = 0, 3
# a main line that nobody wins is followed so far
MOST_LINE = 200


class Balance:
    """A table, read once. Players are 1 and 2, the keeper is 0, as in the game's `Play`."""

    def __init__(self, table, play):
        self.table, self.play = table, play
        # how many positions have each value, and the first of them
        self.counts, self.first = {}, {}
        self.winners = bytearray()
        # 0 for drawn, 1 for open, else the winner from 0 and twice the distance, and two more
        self.codes = array("Q")
        sides, codes = {}, {}
        reading = progress.Told("positions", table.counts.known)
        for number, reply in enumerate(table.listed()):
            told = reply.partition(" ")[2]
            if told not in sides:
                value = rbgtable.value_of(told.split(" "))
                sides[told] = (value, 1 + play.players.index(value.winner) if value.winner else OPEN if value.is_open else DRAWN)
                codes[told] = 2 + 2 * value.distance + sides[told][1] - 1 if value.winner else int(value.is_open)
                self.first[value] = number
                self.counts[value] = 0
            value, side = sides[told]
            self.counts[value] += 1
            self.winners.append(side)
            self.codes.append(codes[told])
            if number % 4096 == 0:
                reading.tell(number)

    def number(self, holds):
        return sum(count for value, count in self.counts.items() if holds(value))

    def distances(self):
        """The distances at which anybody wins, each with the number of positions that each player wins there."""
        found = {}
        for value, count in self.counts.items():
            if value.winner:
                found.setdefault(value.distance, [0, 0])[self.play.players.index(value.winner)] += count
        return [{"distance": distance, "wins": wins} for distance, wins in sorted(found.items())]

    def longest(self):
        """The first position of those with the greatest distance; None if nobody wins any."""
        won = [(-value.distance, number) for value, number in self.first.items() if value.winner]
        return min(won)[1] if won else None

    def summary(self):
        """What `tools/stats` tells, as data. Lists of two have the players' order."""
        value, far = self.table.value(0), self.longest()
        found = {**fields.of_counts(self.table.counts), "pages": fields.of_pages(self.table.pages)}
        found.update(players=self.play.players, start=fields.of_value(value))
        found["wins"] = [self.number(lambda value, name=name: value.winner == name) for name in self.play.players]
        found["drawn"] = self.number(lambda value: not value.winner and not value.is_open)
        found["open"] = self.number(lambda value: value.is_open)
        found["distances"] = self.distances()
        found["longest"] = far if far is None else {"number": far, **fields.of_value(self.table.value(far)), "line": self.table.line(far)}
        return found

    def more(self):
        """What --more adds to it."""
        turns, keeps = [Turns(), Turns(), Turns()], [Keeps(), Keeps(), Keeps()]
        roles = {name: 1 + at for at, name in enumerate(self.play.players)}
        expanded = self.table.counts.expanded
        for number, text in enumerate(self.table.ask_all(f"show {number}" for number in range(expanded))):
            role = roles.get(text.partition(" ")[0], 0)
            after = self.table.successors(number)
            turns[role].add(after)
            keeps[role].add(self.kept(number, role, after))
        return {
            "turns": [vars(one) for one in turns[1:]],
            "keeps": [one.told() for one in keeps[1:]],
            "first_moves": self.first_moves(),
            "main_line": self.main_line(),
        }

    def kept(self, number, role, after):
        """How many moves keep what who has the turn has, of how many; None where there is nothing to keep or to choose, or a move is open."""
        mine = self.winners[number]
        if mine not in (role, DRAWN) or len(after) < 2:
            return None
        sides = [self.winners[to] for to in after]
        return None if OPEN in sides else (sides.count(mine), len(sides))

    def first_moves(self):
        """Of the first position in which a player has the turn: who that is, the value, and how many moves keep it."""
        number, met = 0, set()
        while self.table.show(number).startswith(">> ") and number not in met:
            met.add(number)
            after = self.table.successors(number)
            if len(after) != 1:
                return None
            number = after[0]
        after = self.table.successors(number)
        kept = sum(self.winners[to] == self.winners[number] for to in after)
        turn = self.table.show(number).partition(" ")[0]
        return {"number": number, "turn": turn, **fields.of_value(self.table.value(number)), "moves": len(after), "keep": kept}

    def main_line(self):
        """The positions along best moves from the start, up to the first one that comes again."""
        if self.table.value(0).winner:
            return self.table.line(0)
        line, best = [0], self.best(0)
        while best is not None and best not in line and len(line) < MOST_LINE:
            line.append(best)
            best = self.best(best)
        return line

    def best(self, number):
        """Where a best move leads; None where there is none, or the search for moves is too wide."""
        try:
            move = self.table.best(number)
        except rbgtable.Refused as refused:
            if refused.code != "S4":
                raise
            return None
        return move.number if move else None


class Turns:
    """The positions in which one player has the turn."""

    def __init__(self):
        self.positions = self.moves = self.most = self.forced = self.ended = 0

    def add(self, after):
        self.positions += 1
        self.moves += len(after)
        self.most = max(self.most, len(after))
        self.forced += len(after) == 1
        self.ended += not after


class Keeps:
    """The positions in which a player has a win or a draw to keep, and moves to choose from."""

    def __init__(self):
        self.positions = self.by_one_move = 0
        self.lost = 0.0

    def add(self, kept):
        if kept:
            keep, moves = kept
            self.positions += 1
            self.by_one_move += keep == 1
            self.lost += (moves - keep) / moves

    def told(self):
        """With the share that a move by chance throws away, over all these positions."""
        share = round(self.lost / self.positions, 4) if self.positions else None
        return {"positions": self.positions, "by_one_move": self.by_one_move, "thrown_away": share}
