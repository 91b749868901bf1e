"""How the board of a game is drawn: in letters, and as an SVG picture."""
from __future__ import annotations

import html
import re

import rbgtable

GRID_NAME = re.compile(r"([A-Za-z])([0-9]{1,3})")
EMPTY = rbgtable.EMPTY
# names of colours that a piece or a player may have
NAMED = {
    "white": "#f7f5ee", "black": "#2b2b2b", "red": "#d0342c", "yellow": "#f2d024", "green": "#3f8f4f", "blue": "#2f62b5", "orange": "#e8872b",
    "purple": "#7d4fa5", "brown": "#7a4f2a", "gold": "#d9b13b", "silver": "#c3c7cb", "pink": "#efa9bd", "gray": "#8f8f8f", "grey": "#8f8f8f",
}
# the discs of the pieces that the first player puts, of those that the second one puts, and of the others
COLOURS = {
    1: ("#f7f5ee", "#ffe2a0", "#cfe4f7", "#dcefd2", "#f4d3df"),
    2: ("#2b2b2b", "#7a2a1f", "#1f3f7a", "#24572f", "#58306b"),
    0: ("#b5793a", "#3d8a94", "#a8464f", "#7c8a3d", "#8d6fb0"),
}


def places(names):
    """The column and the row of each vertex from the top left, if each is named by a letter and a number; else None."""
    found = [GRID_NAME.fullmatch(name) for name in names]
    if not all(found):
        return None
    columns = sorted({match[1] for match in found})
    rows = sorted({int(match[2]) for match in found}, reverse=True)
    spots = [(columns.index(match[1]), rows.index(int(match[2]))) for match in found]
    return spots if len(set(spots)) == len(spots) and len(rows) <= 64 else None


def letters(names, pieces):
    """The lines of a board, `pieces` being what stands on each vertex: a grid, or one vertex a row."""
    shown = ["." if piece in EMPTY else piece for piece in pieces]
    spots = places(names)
    if spots is None:
        wide = max(map(len, names))
        return [f"{name:{wide}}  {piece}" for name, piece in zip(names, shown)]
    wide = max(map(len, shown))
    at = dict(zip(spots, shown))
    columns, rows = axes(names)
    digits = max(len(str(row)) for row in rows)
    lines = []
    for y, row in enumerate(rows):
        cells = "".join(f" {at.get((x, y), ''):{wide}}" for x in range(len(columns)))
        lines.append(f"{row:{digits}}{cells}".rstrip())
    lines.append((" " * digits + "".join(f" {column:{wide}}" for column in columns)).rstrip())
    return lines


def axes(names):
    """The letters of the columns from the left, and the numbers of the rows from the top."""
    found = [GRID_NAME.fullmatch(name) for name in names]
    return sorted({match[1] for match in found}), sorted({int(match[2]) for match in found}, reverse=True)


def movers(play):
    """The roles that may do each action: those to whom a switch gave the turn from which a way leads to it."""
    follow = play.follow
    found, todo = [set() for _ in follow.actions], []

    def reach(role, actions):
        for at in actions:
            if role not in found[at]:
                found[at].add(role)
                todo.append((role, at))

    reach(0, follow.first)
    for at, action in enumerate(follow.actions):
        if action.kind == "switch":
            reach(play.role_of(action), follow.next[at])
    while todo:
        role, at = todo.pop()
        if follow.actions[at].kind != "switch":
            reach(role, follow.next[at])
    return found


def named_colour(piece, roles, players):
    """The colour that a piece has by its name, or by that of the player who alone puts it; None if neither is the name of one."""
    owners = [players[role - 1] for role in roles if role and len(roles) == 1]
    return next((NAMED[name.lower()] for name in (piece, *owners) if name.lower() in NAMED), None)


def colours(play):
    """A colour for each piece that is not empty: that of its name or its player, if it is one; else light for those that the first player
    alone puts, dark for those of the second one."""
    put = {}
    for action, roles in zip(play.follow.actions, movers(play)):
        if action.kind == "off":
            put.setdefault(action.what.text, set()).update(roles)
    found, used = {}, {0: 0, 1: 0, 2: 0}
    for piece in (name.text for name in play.game.pieces):
        if piece not in EMPTY:
            roles = put.get(piece, set())
            side = next(iter(roles)) if len(roles) == 1 else 0
            named = named_colour(piece, roles, play.players)
            is_new = named not in found.values()
            found[piece] = named if named and is_new else COLOURS[side][used[side] % len(COLOURS[side])]
            used[side] += 1
    return found


def is_light(colour):
    red, green, blue = (int(colour[at : at + 2], 16) for at in (1, 3, 5))
    return 3 * red + 6 * green + blue > 1280


def disc(x, y, piece, colour):
    ink = "#111" if is_light(colour) else "#fff"
    size = 17 if len(piece) < 2 else 13 if len(piece) < 4 else 8
    return (
        f'<circle cx="{x}" cy="{y}" r="15" fill="{colour}" stroke="#222" stroke-width="1.5"/>'
        f'<text x="{x}" y="{y}" dy="0.36em" font-size="{size}" fill="{ink}">{html.escape(piece)}</text>'
    )


def svg(names, pieces, colour, title):
    """A picture of a board: squares where the vertices make a grid, else fields with their names. `colour` is that of each piece."""
    spots = places(names)
    is_grid = spots is not None
    if not is_grid:
        spots = [(at % 8, at // 8) for at in range(len(names))]
    columns, rows = max(x for x, _ in spots) + 1, max(y for _, y in spots) + 1
    step, left = (40, 20) if is_grid else (56, 4)
    high = 40 if is_grid else 56
    parts = [
        f'<svg xmlns="http://www.w3.org/2000/svg" viewBox="0 0 {left + columns * step + 4} {rows * high + 24}" '
        f'width="{left + columns * step + 4}" height="{rows * high + 24}" font-family="sans-serif" text-anchor="middle" role="img">',
        f"<title>{html.escape(title)}</title>",
    ]
    for (x, y), name, piece in zip(spots, names, pieces):
        px, py = left + x * step, 4 + y * high
        shade = "#d9c9a8" if (x + y) % 2 else "#efe4cc"
        parts.append(f'<rect x="{px}" y="{py}" width="{step}" height="40" fill="{shade}" stroke="#8a7a5c"/>')
        if piece not in EMPTY:
            parts.append(disc(px + step / 2, py + 20, piece, colour.get(piece, "#9a9a9a")))
        if not is_grid:
            parts.append(f'<text x="{px + step / 2}" y="{py + 51}" font-size="10" fill="#555">{html.escape(name)}</text>')
    if is_grid:
        of_columns, of_rows = axes(names)
        beside = [(10, 4 + y * 40 + 25, row) for y, row in enumerate(of_rows)]
        beside += [(left + x * 40 + 20, rows * 40 + 19, column) for x, column in enumerate(of_columns)]
        parts += [f'<text x="{x}" y="{y}" font-size="13" fill="#555">{name}</text>' for x, y, name in beside]
    return "\n".join([*parts, "</svg>"])
