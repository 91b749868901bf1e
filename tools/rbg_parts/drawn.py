"""Boards that are drawn in letters, as tools/board prints them or as one types them, read back."""
from __future__ import annotations

import re

from . import boards


class NoBoard(Exception):
    """Why a text is no drawing of the game's board."""


def read(names, pieces, text):
    """What stands on each vertex by a drawing; `names` are those of the vertices, `pieces` those of the game."""
    lines = [line.rstrip() for line in text.splitlines() if line.strip() and not line.startswith("position ")]
    cells = of_grid(names, lines) if boards.places(names) else of_rows(names, lines)
    empty = next((piece for piece in pieces if piece in boards.EMPTY), None)
    found = []
    for name in names:
        piece = cells.pop(name, None)
        piece = empty or piece if piece == "." else piece
        if piece is None:
            raise NoBoard(f"nothing tells what stands on {name}")
        if piece not in pieces:
            raise NoBoard(f"no piece is called `{piece}`, which stands on {name}")
        found.append(piece)
    if cells:
        raise NoBoard(f"the board has no vertex {', '.join(cells)}")
    return found


def put(cells, name, piece):
    if name in cells:
        raise NoBoard(f"{name} stands twice")
    cells[name] = piece


def of_rows(names, lines):
    """Of a board that is no grid: a vertex and its piece in each line."""
    cells = {}
    for line in lines:
        parts = line.split()
        if len(parts) != 2 or parts[0] not in names:
            raise NoBoard(f"a line has a vertex and what stands there: {line}")
        put(cells, *parts)
    return cells


def of_grid(names, lines):
    """Of a grid: a line for each row, its number first; then the letters of the columns, which may be left out. Where a row has fewer
    vertices than there are columns, each of its pieces stands below, or above, the letter of its column, unless each vertex has one."""
    columns, _ = boards.axes(names)
    at = {letter: place for place, letter in marks(lines.pop())} if lines and lines[-1].split() == columns else {}
    cells = {}
    for line in lines:
        (_, row), *found = marks(line) or [(0, "")]
        mine = [letter for letter in columns if f"{letter}{row}" in names]
        if not mine:
            raise NoBoard(f"a line begins with the number of a row: {line}")
        by_place = {at.get(letter): letter for letter in mine}
        for order, (place, piece) in enumerate(found):
            letter = mine[order] if len(found) == len(mine) else by_place.get(place)
            if letter is None:
                raise NoBoard(f"row {row} has {len(mine)} vertices: {line}")
            put(cells, f"{letter}{row}", piece)
    return cells


def marks(line):
    """Where each word of a line begins, and the word."""
    return [(match.start(), match[0]) for match in re.finditer(r"\S+", line)]
