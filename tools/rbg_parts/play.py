"""The moves of a game, found apart from the program: for the tools, which show and compare."""
from __future__ import annotations

import time
from typing import NamedTuple

import rbgtable

from . import language
from .syntax import Action, Star, Sum

MOST_CONFIGURATIONS = 65536
# so many answers of patterns are remembered: with all of them a text could fill the memory
MOST_KNOWN = 1 << 18


class Position(NamedTuple):
    """A position: the place in the rules tells who has the turn. Pieces and vertices are counted from 0."""

    board: bytes
    values: tuple
    vertex: int
    place: int


class Move(NamedTuple):
    """What a move does, as pairs of an action's number and a vertex, and the position that it leads to."""

    word: tuple
    to: Position


class TooWide(Exception):
    """A search reaches more configurations than the program allows (S4), the one that it begins with among them."""


class TooLong(Exception):
    """A search has not ended in the time that it was given."""


def members(mask):
    """The numbers of the bits of a set of actions, ascending."""
    digits = bin(mask)[:1:-1]
    return [at for at, digit in enumerate(digits) if digit == "1"]


class Follow:
    """Which actions of an expression can begin a word, follow one another, and end one.

    While the expression is walked, a set of actions is a number with a bit for each: the sets of a text of 4,096 actions have millions
    of members, and are joined again for each `*`.
    """

    def __init__(self, tree):
        self.actions = []
        self.after = []
        first, last, self.empty = self.walk(tree)
        self.first, self.last = members(first), set(members(last))
        # most actions have the same ones behind them as others: each list is made once
        lists = {mask: members(mask) for mask in set(self.after)}
        self.next = [lists[mask] for mask in self.after]

    def walk(self, tree):
        if isinstance(tree, Action):
            self.actions.append(tree)
            self.after.append(0)
            only = 1 << len(self.actions) - 1
            return only, only, False
        if isinstance(tree, Star):
            first, last, _ = self.walk(tree.inner)
            self.join(last, first)
            return first, last, True
        if isinstance(tree, Sum):
            first = last = 0
            found = [self.walk(part) for part in tree.parts]
            for more_first, more_last, _ in found:
                first, last = first | more_first, last | more_last
            return first, last, any(empty for _, _, empty in found)
        return self.walk_chain(tree.parts)

    def walk_chain(self, parts):
        first, last, empty = self.walk(parts[0])
        for part in parts[1:]:
            more_first, more_last, more_empty = self.walk(part)
            self.join(last, more_first)
            if empty:
                first |= more_first
            last = last | more_last if more_empty else more_last
            empty = empty and more_empty
        return first, last, empty

    def join(self, last, first):
        for before in members(last):
            self.after[before] |= first


def calculated(expression, values):
    kind, what = expression
    if kind == "number":
        return what
    if kind == "value":
        return values[what]
    if kind == "minus":
        return -calculated(what, values)
    if kind == "sum":
        return sum(sign * calculated(term, values) for sign, term in what)
    result = 1
    for factor in what:
        result *= calculated(factor, values)
    return result


class Play:
    """A game, made ready for its moves to be found."""

    def __init__(self, game, goal=0):
        self.game, self.goal = game, goal
        self.pieces = {name.text: at for at, name in enumerate(game.pieces)}
        self.vertices = {vertex.name.text: at for at, vertex in enumerate(game.vertices)}
        self.value_at = {name: at for at, (name, _) in enumerate(game.values)}
        self.names = [vertex.name.text for vertex in game.vertices]
        self.players = [name.text for name, _ in game.players]
        self.follow = Follow(game.rules)
        self.known = {}
        # when a search for moves has to have ended, by the clock that never goes back
        self.ends = None
        self.steps = [self.step_of(action) for action in self.follow.actions]
        self.begins = [action.kind == "switch" for action in self.follow.actions]

    def start(self):
        board = bytes(self.pieces[vertex.piece.text] for vertex in self.game.vertices)
        return Position(board, (0,) * len(self.value_at), 0, 0)

    def role(self, position):
        """Who has the turn: 0 the keeper, 1 the first player, 2 the second."""
        if position.place == 0:
            return 0
        return self.role_of(self.game.actions[position.place - 1])

    def role_of(self, action):
        return 1 + self.players.index(action.what.text) if action.what else 0

    def ahead(self, position):
        """Which player has the greater score, 1 or 2, or alone has as much as the goal, if there is one; 0 for nobody."""
        first, second = position.values[:2]
        if self.goal:
            first, second = first >= self.goal, second >= self.goal
        return 1 if first > second else 2 if second > first else 0

    # an action as a function of a state (board, values, vertex), which gives the next state, or None

    def step_of(self, action):
        return getattr(self, "step_" + action.kind)(action)

    def step_shift(self, action):
        leads = [None] * len(self.vertices)
        for at, vertex in enumerate(self.game.vertices):
            for label, target in vertex.arrows:
                if label.text == action.what.text:
                    leads[at] = self.vertices[target.text]

        def step(state):
            to = leads[state[2]]
            return None if to is None else (state[0], state[1], to)

        return step

    def step_on(self, action):
        wanted = frozenset(self.pieces[name.text] for name in action.what)
        return lambda state: state if state[0][state[2]] in wanted else None

    def step_off(self, action):
        piece = bytes([self.pieces[action.what.text]])
        return lambda state: (state[0][: state[2]] + piece + state[0][state[2] + 1 :], state[1], state[2])

    def placed(self, expression):
        """The expression with places of values in it, not names."""
        kind, what = expression
        if kind == "value":
            return ("value", self.value_at[what.text])
        if kind == "minus":
            return (kind, self.placed(what))
        if kind == "sum":
            return (kind, [(sign, self.placed(term)) for sign, term in what])
        return (kind, [self.placed(factor) for factor in what]) if kind == "product" else expression

    def step_assign(self, action):
        at, expression = self.value_at[action.what[0].text], self.placed(action.what[1])
        bound = self.game.values[at][1]

        def step(state):
            value = calculated(expression, state[1])
            if not 0 <= value <= bound:
                return None
            return (state[0], state[1][:at] + (value,) + state[1][at + 1 :], state[2])

        return step

    def step_compare(self, action):
        left, sign, right = self.placed(action.what[0]), action.what[1], self.placed(action.what[2])
        holds = {
            "==": lambda a, b: a == b,
            "!=": lambda a, b: a != b,
            "<=": lambda a, b: a <= b,
            ">=": lambda a, b: a >= b,
            "<": lambda a, b: a < b,
            ">": lambda a, b: a > b,
        }[sign]
        return lambda state: state if holds(calculated(left, state[1]), calculated(right, state[1])) else None

    def step_switch(self, _):
        return lambda state: state

    def step_pattern(self, action):
        follow, wanted = Follow(action.inner), action.what
        steps = [self.step_of(inner) for inner in follow.actions]
        mark = id(action)

        def step(state):
            key = (mark, state)
            found = self.known.get(key)
            if found is None:
                found = follow.empty or self.has_word(follow, steps, state)
                if len(self.known) >= MOST_KNOWN:
                    self.known.clear()
                self.known[key] = found
            return state if found == wanted else None

        return step

    def check_time(self):
        if self.ends is not None and time.monotonic() > self.ends:
            raise TooLong()

    def has_word(self, follow, steps, begin):
        """Whether some word of a pattern is legal from a state; the search ends with the first one, and the program's does not."""
        todo, seen = [(begin, None)], set()
        while todo:
            self.check_time()
            state, last = todo.pop()
            for action in follow.first if last is None else follow.next[last]:
                to = steps[action](state)
                if to is None or (action, to) in seen:
                    continue
                if action in follow.last:
                    return True
                seen.add((action, to))
                if len(seen) >= MOST_CONFIGURATIONS:
                    raise TooWide()
                todo.append((to, action))
        return False

    def moves(self, position):
        """The moves of a position in packed order, each with the shortest of its words that comes first in the dictionary."""
        self.known = {}
        begin = (position.board, position.values, position.vertex)
        after = self.follow.first if position.place == 0 else self.follow.next[position.place - 1]
        came, found, at = [(begin, None, None)], {}, 0
        seen = set()
        while at < len(came):
            self.check_time()
            state, last, _ = came[at]
            for action in after if last is None else self.follow.next[last]:
                to = self.steps[action](state)
                if to is None or (action, to) in seen:
                    continue
                seen.add((action, to))
                if len(seen) >= MOST_CONFIGURATIONS:
                    raise TooWide()
                if self.begins[action]:
                    found.setdefault(Position(to[0], to[1], to[2], action + 1), (at, action))
                else:
                    came.append((to, action, at))
            at += 1
        moves = [Move(self.word(came, *way), to) for to, way in found.items()]
        return sorted(moves, key=lambda move: (*move.to[:3], self.role(move.to), move.to.place))

    def word(self, came, at, action):
        """What is changed along a way, from its end back to its begin."""
        done = [(action + 1, came[at][0][2])]
        while came[at][1] is not None:
            _, action, before = came[at]
            if self.follow.actions[action].kind in ("off", "assign"):
                done.append((action + 1, came[before][0][2]))
            at = before
        return tuple(reversed(done))

    def show(self, position):
        """The text of a position, as `show` prints it."""
        role = self.role(position)
        pieces = ",".join(self.game.pieces[piece].text for piece in position.board)
        values = ",".join(map(str, position.values))
        return f"{self.players[role - 1] if role else '>>'} {position.place} {self.names[position.vertex]} {pieces} {values}"

    def position(self, text):
        """The position that a text of `show` says; a ValueError where there is none."""
        try:
            _, place, vertex, pieces, values = text.split(" ")
            board = bytes(self.pieces[piece] for piece in pieces.split(","))
            found = Position(board, tuple(map(int, values.split(","))), self.vertices[vertex], int(place))
        except KeyError as error:
            raise ValueError(f"no name of this game: {error}") from error
        in_bounds = all(0 <= value <= bound for value, (_, bound) in zip(found.values, self.game.values))
        counts = (len(board), len(found.values)) == (len(self.vertices), len(self.game.values))
        at_switch = found.place == 0 or (found.place <= len(self.game.actions) and self.game.actions[found.place - 1].kind == "switch")
        if not (in_bounds and counts and at_switch and self.show(found) == text):
            raise ValueError(f"no position of this game: {text}")
        return found

    def naming(self):
        """What gives moves of this game their short names."""
        return rbgtable.Naming(self.names, list(self.value_at))

    def deeds(self, word):
        """What a move does but for its switch and the scores that it sets; all of it if nothing else is left."""

        def sets_a_score(action):
            return action.kind == "assign" and action.what[0].text in self.players

        return [pair for pair in word[:-1] if not sets_a_score(self.game.actions[pair[0] - 1])] or word

    def say(self, word):
        """What a move does, as `NUMBER@VERTEX`."""
        return " ".join(f"{number}@{self.names[vertex]}" for number, vertex in word)

    def name(self, word):
        """What a move does, by the text of its actions."""
        return " ".join(f"{one_action(self.game, self.game.actions[number - 1])}@{self.names[vertex]}" for number, vertex in word)

    def names_of(self, word):
        """The same for a word whose vertices are names, as `rbgsolve` prints it; scores that are set are left out."""
        return self.name(self.deeds([(number, self.names.index(vertex)) for number, vertex in word]))


def one_action(game, action):
    """The text of one action: of a list of assignments that one alone."""
    text = game.source(action)
    return "[$ " + text.strip("[]$ ").rstrip(",") + "]" if action.kind == "assign" else text


def play_of(text):
    return Play(language.read(text))
