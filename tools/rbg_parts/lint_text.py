"""What a game's text alone shows of rules that may not mean what they should."""
from __future__ import annotations

from .syntax import Action, Chain, Star, Sum, actions_in, names_in


def warnings(game):
    """Pairs of a byte in the text and a warning."""
    yield from scores(game)
    yield from variables(game)
    yield from pieces(game)
    yield from labels(game)
    yield from choices(game, game.rules)


def written(game):
    """The names that some assignment sets."""
    return {action.what[0].text for action in actions_in(game.rules) if action.kind == "assign"}


def names_of(names):
    return [name.text for name in names]


def only_nought(game):
    """The players whose score no assignment sets to anything but the number 0."""
    more = {
        action.what[0].text
        for action in actions_in(game.rules)
        if action.kind == "assign" and action.what[1] != ("number", 0)
    }
    return {name.text for name, _ in game.players} - more


def stars_in(tree):
    """The parts of the rules that are repeated."""
    if isinstance(tree, Star):
        yield tree
    if not isinstance(tree, Action):
        for part in [tree.inner] if isinstance(tree, Star) else tree.parts:
            yield from stars_in(part)


def scores(game):
    """L1: a score that is never set, or never to more than 0."""
    names = [name for name, bound in game.players if bound > 0]
    known = written(game)
    if names and not known & {name.text for name, _ in game.players}:
        yield game.section_at["players"], "L1 no score is ever set, so that every play is drawn"
        return
    nought = only_nought(game)
    if names and set(names_of(names)) & known and set(names_of(names)) <= nought:
        yield game.section_at["players"], "L1 no score is ever more than 0, so that every play is drawn"
        return
    for name in names:
        if name.text in nought and name.text in known:
            yield name.at, f"L1 {name.text} is only ever given 0, so that {name.text} never wins; is that meant, the bound 0 says so: `{name.text}(0)`"
    repeated = {
        action.what[0].text
        for star in stars_in(game.rules)
        for action in actions_in(star.inner)
        if action.kind == "assign"
    }
    for name in names:
        others = {other.text for other, _ in game.players if other.text != name.text}
        if name.text not in known and others & repeated:
            yield name.at, (
                f"L1 the score of {name.text} is never set, so that {name.text} never wins; is that meant, "
                f"the bound 0 says so: `{name.text}(0)`"
            )


def variables(game):
    """L2: a variable that is never set, or never asked."""
    known, asked = written(game), set()
    for action in actions_in(game.rules):
        if action.kind == "assign":
            asked |= {name.text for name in names_in(action.what[1])}
        elif action.kind == "compare":
            asked |= {name.text for side in (action.what[0], action.what[2]) for name in names_in(side)}
    for name, _ in game.variables:
        if name.text not in known:
            yield name.at, f"L2 the variable {name.text} is never set: it is 0 for ever"
        elif name.text not in asked:
            yield name.at, f"L2 the variable {name.text} is set and never asked: positions that differ in it alone are counted apart"


def pieces(game):
    """L3: a piece that never stands on the board."""
    there = {vertex.piece.text for vertex in game.vertices}
    there |= {action.what.text for action in actions_in(game.rules) if action.kind == "off"}
    for name in game.pieces:
        if name.text not in there:
            why = f"it is not there at the start, and no `[{name.text}]` puts it"
            yield name.at, f"L3 the piece {name.text} never stands on the board: {why}"


def labels(game):
    """L4: a label along which nothing ever goes."""
    used = {action.what.text for action in actions_in(game.rules) if action.kind == "shift"}
    told = set()
    for vertex in game.vertices:
        for label, _ in vertex.arrows:
            if label.text not in used and label.text not in told:
                told.add(label.text)
                yield label.at, f"L4 the rules never go along the label {label.text}"


def leading_pattern(game, tree):
    """The pattern that a branch begins with, and the words of what it asks."""
    head = tree.parts[0] if isinstance(tree, Chain) else tree
    if isinstance(head, Action) and head.kind == "pattern":
        return head, game.source(head)[2:-1].split()
    return None, []


def is_part(short, long):
    """Whether the one list stands in the other, but not at its beginning."""
    return any(long[at : at + len(short)] == short for at in range(1, len(long) - len(short) + 1))


def choices(game, tree):
    """L5: a choice by `{? ..}` and `{! ..}` of which the one asks only an end or a middle of what the other asks."""
    if isinstance(tree, Action):
        return
    if isinstance(tree, Sum) and len(tree.parts) == 2:
        (first, asked), (second, refused) = (leading_pattern(game, part) for part in tree.parts)
        if first and second and first.what != second.what:
            asked, refused = plain(asked), plain(refused)
            if is_part(asked, refused) or is_part(refused, asked):
                yield second.at, f"L5 this is not the other case of `{game.source(first)}`: the two patterns ask different things"
    for part in [tree.inner] if isinstance(tree, Star) else tree.parts:
        yield from choices(game, part)


def plain(words):
    """The words without parentheses, which may be needed or not."""
    return [word for word in "".join(f"{word} " for word in words).replace("(", " ").replace(")", " ").split() if word != "*"]
