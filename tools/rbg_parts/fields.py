"""Positions, values and counts as data: the columns of CSV, and the objects of --json, whose fields have one name in all tools."""
from __future__ import annotations

import json

import rbgtable

# the columns that each position has in CSV, before those of its vertices and values and behind them
BEFORE, BEHIND = ["number", "turn", "place", "vertex"], ["winner", "moves"]


def of_value(value):
    """The fields of a value: as the program prints it, and in parts."""
    return {"value": str(value), "winner": value.winner, "distance": value.distance if value.winner else None}


def of_text(play, text):
    """The fields of a position's text; `play` is its game."""
    turn, place, vertex, pieces, values = text.split(" ")
    board, amounts = zip(play.names, pieces.split(",")), zip((name for name, _ in play.game.values), map(int, values.split(",")))
    return {"text": text, "turn": turn, "place": int(place), "vertex": vertex, "board": dict(board), "values": dict(amounts)}


def of_position(play, number, text, value):
    """The fields of a position that a table has."""
    return {"number": number, **of_text(play, text), **of_value(value)}


def of_move(play, move):
    """The fields of a move that a table tells: the position that it leads to, a short name, what it does, and that by numbers."""
    word = " ".join(f"{number}@{vertex}" for number, vertex in move.word)
    return {**of_position(play, move.number, move.text, move.value), "name": move.name, "does": play.names_of(move.word), "word": word}


def of_counts(counts):
    return {"known": counts.known, "expanded": counts.expanded, "settled": counts.settled, "processed": counts.processed, "finished": counts.is_finished}


def of_pages(pages):
    return {"all": pages.all, "used": pages.used, "free": pages.free}


def columns(play):
    """The columns of positions. A vertex, score or variable that is called as a column before it, but for case, has a number behind it."""
    found = []
    used = {name: 1 for name in [*BEFORE, *BEHIND, "edges"]}
    for name in [*play.names, *(name for name, _ in play.game.values)]:
        mine = name
        while mine.lower() in used:
            used[name.lower()] += 1
            mine = f"{name}_{used[name.lower()]}"
        used[mine.lower()] = 1
        found.append(mine)
    return [*BEFORE, *found, *BEHIND]


def csv_row(reply, text):
    """A line of `list`, and the text of that position if it is wanted, as a row of CSV; names have letters, digits and `_` alone."""
    number, winner, *distance = reply.split(" ")
    moves = distance[1] if distance else ""
    return f"{number},{text.replace(' ', ',')},{winner},{moves}" if text else f"{number},{winner},{moves}"


class JsonRows:
    """The same as an object in JSON, by a pattern into which names and numbers are put: that is much faster than to make each object."""

    def __init__(self, play):
        board = ", ".join(f'"{name}": "%s"' for name in play.names)
        values = ", ".join(f'"{name}": %s' for name, _ in play.game.values)
        # most positions have a value that many have
        self.values = {}
        self.position = f'"turn": "%s", "place": %s, "vertex": "%s", "board": {{{board}}}, "values": {{{values}}}, '

    def row(self, reply, text):
        number, _, value = reply.partition(" ")
        told = self.values.get(value)
        if told is None:
            told = self.values[value] = json.dumps(of_value(rbgtable.value_of(value.split(" "))))[1:]
        position = self.position % tuple(text.replace(" ", ",").split(",")) if text else ""
        return f'{{"number": {number}, {position}{told}'
