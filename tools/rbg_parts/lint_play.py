"""What the first positions and random plays of a game show of rules that may not mean what they should."""
from __future__ import annotations

import random
import time

from . import lint_text
from .play import TooLong, TooWide
from .syntax import Action, Star, actions_in

SEED = 20261127
# so many random plays that one player wins are no chance
MOST_PLAYS = 20


class Seen:
    """The positions that some plays reach: from the start on by layers, and along random plays; each with its moves."""

    def __init__(self, play, most):
        self.play, self.most = play, most
        self.moves = {}
        self.choice = None
        # how many random plays have ended so: nobody, the first player and the second ahead
        self.ends = [0, 0, 0]
        self.wide = self.late = False

    def look(self, position):
        """The moves of a position; of one that is new they are kept, until there are enough."""
        if position not in self.moves:
            moves = self.play.moves(position)
            self.moves[position] = moves
            if len(moves) > 1 and self.play.role(position) == 0 and not self.choice:
                self.choice = position
        return self.moves[position]

    def collect(self, seconds):
        """A half by layers, the rest by random plays; none that would be found later than in so many seconds."""
        self.play.ends = time.monotonic() + seconds
        try:
            todo = [self.play.start()]
            met = set(todo)
            for position in todo:
                if len(self.moves) >= self.most // 2:
                    break
                for move in self.look(position):
                    if move.to not in met:
                        met.add(move.to)
                        todo.append(move.to)
            self.wander(random.Random(SEED))
        except TooWide:
            self.wide = True
        except TooLong:
            self.late = True
        finally:
            self.play.ends = None

    def wander(self, chance):
        steps = 0
        while len(self.moves) < self.most and steps < 20 * self.most:
            position, length = self.play.start(), 0
            while length < 200 and len(self.moves) < self.most:
                moves = self.look(position)
                steps, length = steps + 1, length + 1
                if not moves:
                    self.ends[self.play.ahead(position)] += 1
                    break
                position = chance.choice(moves).to
            steps += 1


def role_name(play, role):
    return play.players[role - 1] if role else "the keeper"


def warnings(play, most, seconds):
    """The positions that were seen, and pairs of a byte in the text and a warning."""
    seen = Seen(play, most)
    seen.collect(seconds)
    return seen, list(found_in(play, seen))


def found_in(play, seen):
    game = play.game
    rules = game.section_at["rules"]
    if seen.wide:
        yield rules, "S4 a search for moves reaches more than 65,536 configurations: such games are not solved"
        return
    if seen.choice:
        yield rules, choice(play, seen)
    yield from idle_roles(play, seen, rules)
    yield from alike(play, seen, rules)
    yield from leads(play, seen)
    yield from one_sided(play, seen, rules)


def one_sided(play, seen, rules):
    """L10: one player who wins each random play, though the other one is given points too."""
    plays, never = sum(seen.ends), lint_text.only_nought(play.game)
    for role in (1, 2):
        can_lose = play.game.players[2 - role][1] > 0 and play.players[2 - role] not in never
        if can_lose and plays >= MOST_PLAYS and seen.ends[role] == plays and len(seen.moves) >= MOST_PLAYS and not seen.choice:
            name, other = play.players[role - 1], play.players[2 - role]
            yield rules, f"L10 {name} won all {plays:,} random plays: does a rule let {other} win?"


def choice(play, seen):
    """S3: the keeper can choose."""
    moves = seen.moves[seen.choice]
    shown = "".join(f"\n    {play.name(move.word)} => {play.show(move.to)}" for move in moves[:2])
    return f"S3 the keeper can choose at `{play.show(seen.choice)}`: such games are not solved. Two of its {len(moves)} ways are{shown}"


def idle_roles(play, seen, rules):
    """L6: a side that never has a move, or never the turn."""
    start = play.start()
    if start not in seen.moves:
        return
    if not seen.moves[start]:
        yield rules, "L6 there is no move at all: the play has ended at its start"
        return
    for role in (1, 2):
        turns = [moves for position, moves in seen.moves.items() if play.role(position) == role]
        name = play.players[role - 1]
        if not turns and len(seen.moves) > 4:
            yield rules, f"L6 {name} never has the turn, in {len(seen.moves):,} positions that were looked at"
        elif turns and not any(turns) and len(turns) > 4:
            yield rules, f"L6 {name} never has a move, in {len(turns):,} positions with the turn that were looked at"


def alike(play, seen, rules):
    """L7, L8: positions that differ in the current vertex alone, or in the place in the rules alone."""
    positions = list(seen.moves)
    if len(positions) < 50:
        return
    for code, leave, what, remedy in (
        ("L7", "vertex", "the current vertex", "is a `home` missing before a `->`?"),
        ("L8", "place", "the place in the rules", "is one player's `->` written in several branches?"),
    ):
        groups = {}
        for position in positions:
            key = (play.role(position), *position._replace(**{leave: 0}))
            groups.setdefault(key, []).append(position)
        more = len(positions) - len(groups)
        if 10 * more > len(positions):
            pair = next(group for group in groups.values() if len(group) > 1)
            yield rules, (
                f"{code} {more:,} of {len(positions):,} positions that were looked at differ from another one in {what} alone, as\n"
                f"    {play.show(pair[0])}\n    {play.show(pair[1])}\n    {remedy}"
            )


def leads(play, seen):
    """L9: a play that goes on after a score was set that nothing takes back."""
    game = play.game
    setters = [action for action in actions_in(game.rules) if action.kind == "assign" and action.what[0].text in play.players]
    if any(not is_lead(action) for action in setters):
        return
    for role, (name, _) in enumerate(game.players, 1):
        mine = [action for action in setters if action.what[0].text == name.text]
        for position, moves in seen.moves.items():
            if mine and moves and play.ahead(position) == role and is_repeated(game.rules, mine):
                yield mine[0].at, (
                    f"L9 play goes on after the score of {name.text} was set, and no rule takes it back, as at\n    {play.show(position)}\n"
                    f"    does each turn begin with a guard, as `{{$ {name.text} == 0}}`?"
                )
                break


def is_lead(action):
    """Whether an assignment sets a number greater than 0."""
    kind, what = action.what[1]
    return kind == "number" and what > 0


def is_repeated(tree, actions):
    """Whether each of the actions stands in a part of the rules that is repeated."""
    within = set()

    def walk(tree, repeated):
        if isinstance(tree, Action):
            if repeated:
                within.add(id(tree))
            return
        for part in [tree.inner] if isinstance(tree, Star) else tree.parts:
            walk(part, repeated or isinstance(tree, Star))

    walk(tree, False)
    return all(id(action) in within for action in actions)
