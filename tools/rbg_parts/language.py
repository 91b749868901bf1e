"""Reads a game text of docs/LANGUAGE.md a second time, apart from the program, for the tools.

`read(text)` gives a `Game`, or raises a `Fault` with the program's code and the byte that it is at.
"""
from __future__ import annotations

from .grammar import Reader
from .syntax import SECTIONS, Action, Fault, Game, Star, actions_in, line_and_byte, names_in, tokens_of

__all__ = ["Fault", "Game", "line_and_byte", "read"]

LIMITS = {"vertices": 128, "labels": 64, "pieces": 64, "variables": 32}
MOST_BYTES, MOST_NESTING, MOST_ACTIONS, MOST_NUMBER, MOST_SIZE = 65536, 64, 4096, 1000000, 1 << 62


def check_nesting(tokens):
    depth = 0
    for token in tokens:
        if token.is_sign and token.text in "([{":
            depth += 1
        elif token.is_sign and token.text in ")]}":
            depth = max(0, depth - 1)
        if depth > MOST_NESTING:
            raise Fault("G7", token.at, f"brackets stand in one another more than {MOST_NESTING} deep")


def size_of(expression, bounds):
    """The size of an expression; over the limit at once where a part or a beginning is."""
    kind, what = expression
    if kind == "number":
        return what
    if kind == "value":
        return bounds.get(what.text, 0)
    if kind == "minus":
        return size_of(what, bounds)
    size = 0 if kind == "sum" else 1
    for part in what:
        more = size_of(part[1] if kind == "sum" else part, bounds)
        size = size + more if kind == "sum" else size * more
        if size > MOST_SIZE or more > MOST_SIZE:
            return MOST_SIZE + 1
    return size


def number_actions(tree, actions):
    """Gives the actions outside patterns their numbers, from 1, in the order of the text."""
    if isinstance(tree, Action):
        actions.append(tree)
        tree.number = len(actions)
    else:
        for part in [tree.inner] if isinstance(tree, Star) else tree.parts:
            number_actions(part, actions)


def section_faults(reader):
    seen = set()
    for title, at, _ in reader.sections:
        if title in seen:
            yield Fault("G2", at, f"#{title} stands twice")
        seen.add(title)
    for title in SECTIONS:
        if title not in seen and title != "variables":
            yield Fault("G2", len(reader.text), f"there is no #{title}")


def unknown_names(game):
    """Names that are not declared as what they are used for."""
    players = {name.text for name, _ in game.players}
    known = {
        "piece": {name.text for name in game.pieces},
        "vertex": {vertex.name.text for vertex in game.vertices},
        "label": set(game.labels),
        "player": players,
        "variable or player": players | {name.text for name, _ in game.variables},
    }
    used = []
    for vertex in game.vertices:
        used.append(("piece", vertex.piece))
        used += [("vertex", target) for _, target in vertex.arrows]
    for action in actions_in(game.rules):
        used += names_of(action)
    for kind, name in used:
        if name.text not in known[kind]:
            yield Fault("G4", name.at, f"no {kind} is called `{name.text}`", name.text, kind)


def names_of(action):
    """The names that an action has, each with its kind."""
    if action.kind == "shift":
        return [("label", action.what)]
    if action.kind == "on":
        return [("piece", name) for name in action.what]
    if action.kind == "off":
        return [("piece", action.what)]
    if action.kind == "switch":
        return [("player", action.what)] if action.what else []
    if action.kind == "assign":
        return [("variable or player", name) for name in [action.what[0], *names_in(action.what[1])]]
    if action.kind == "compare":
        return [("variable or player", name) for side in (action.what[0], action.what[2]) for name in names_in(side)]
    return []


def repeated_names(game):
    groups = [
        [name for name, _ in game.players + game.variables],
        game.pieces,
        [vertex.name for vertex in game.vertices],
        *[[label for label, _ in vertex.arrows] for vertex in game.vertices],
    ]
    for group in groups:
        seen = set()
        for name in group:
            if name.text in seen:
                yield Fault("G5", name.at, f"`{name.text}` is declared twice")
            seen.add(name.text)


def too_much(game):
    counts = {"vertices": len(game.vertices), "labels": len(game.labels), "pieces": len(game.pieces), "variables": len(game.variables)}
    for what, count in counts.items():
        if count > LIMITS[what]:
            yield Fault("G7", 0, f"there are {count} {what}, and at most {LIMITS[what]} are allowed")
    count = sum(1 for _ in actions_in(game.rules))
    if count > MOST_ACTIONS:
        yield Fault("G7", 0, f"there are {count} actions, and at most {MOST_ACTIONS:,} are allowed")


def all_faults(reader, game):
    """What is wrong with a text that is in the grammar."""
    if len(game.players) != 2:
        yield Fault("G3", game.section_at["players"], f"there are {len(game.players)} players, and not two")
    yield from unknown_names(game)
    yield from repeated_names(game)
    for number, at in reader.literals:
        if number > MOST_NUMBER:
            yield Fault("G6", at, "this number is over 1,000,000")
    yield from too_much(game)
    bounds = dict(game.values)
    for expression, at in reader.expressions:
        if size_of(expression, bounds) > MOST_SIZE:
            yield Fault("G8", at, "this can grow past 2^62")
    for action in actions_in(game.rules):
        if action.kind == "pattern":
            for within in actions_in(action.inner):
                if within.kind == "switch":
                    yield Fault("G9", within.at, "a pattern has a switch in it")


def read(text):
    """The game of a text."""
    if len(text) > MOST_BYTES:
        raise Fault("G7", MOST_BYTES, "the text is longer than 65,536 bytes")
    tokens = tokens_of(text)
    check_nesting(tokens)
    reader = Reader(text, tokens)
    reader.whole()
    faults = sorted(section_faults(reader), key=lambda fault: fault.at)
    if faults:
        raise faults[0]
    game = Game(text)
    for title, at, body in reader.sections:
        game.section_at[title] = at
        setattr(game, {"board": "vertices"}.get(title, title), body)
    number_actions(game.rules, game.actions)
    faults = sorted(all_faults(reader, game), key=lambda fault: (fault.code, fault.at))
    if faults:
        raise faults[0]
    return game
