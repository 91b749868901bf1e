"""A certificate (docs/FORMAT.md), checked by the moves of the second program."""
from __future__ import annotations

import base64
import binascii
from typing import NamedTuple

from . import language
from .play import Play, TooWide

FIRST_LINE = "rbgsolve certificate 1"
MOST_NUMBER = (1 << 32) - 1
MOST_GOAL = 1000000


class Wrong(Exception):
    """Why a certificate is refused: the program's code, the line, and a sentence."""

    def __init__(self, code, line, message):
        super().__init__(f"line {line}: {message}")
        self.code, self.line = code, line


class Packing:
    """Positions of a game as bits: each field in the fewest that its greatest value needs."""

    def __init__(self, play):
        self.play, game = play, play.game
        pieces, bounds = len(game.pieces) - 1, [bound for _, bound in game.values]
        self.most = [pieces] * len(game.vertices) + bounds + [len(game.vertices) - 1, 2, len(game.actions)]
        self.widths = [most.bit_length() for most in self.most]
        self.length = (sum(self.widths) + 7) // 8

    def pack(self, position):
        number, role = 0, self.play.role(position)
        for width, field in zip(self.widths, [*position.board, *position.values, position.vertex, role, position.place]):
            number = number << width | field
        return (number << (8 * self.length - sum(self.widths))).to_bytes(self.length, "big")

    def unpack(self, packed):
        """The fields of a position, by their bits; None where these bytes are none's."""
        padding = 8 * self.length - sum(self.widths)
        number = int.from_bytes(packed, "big")
        if len(packed) != self.length or number & ((1 << padding) - 1):
            return None
        number >>= padding
        fields = []
        for width in reversed(self.widths):
            fields.append(number & ((1 << width) - 1))
            number >>= width
        fields.reverse()
        return fields if all(field <= most for field, most in zip(fields, self.most)) else None


def letters(packed):
    """Bytes by base 64, without `=` at the end."""
    return base64.b64encode(packed).decode("ascii").rstrip("=")


def packed_of(written):
    """The bytes that these letters write, in the one way in which they are written."""
    try:
        packed = base64.b64decode(written + "=" * (-len(written) % 4), validate=True)
    except (binascii.Error, ValueError):
        return None
    return packed if letters(packed) == written else None


class Lines:
    """The lines of a certificate, one after another."""

    def __init__(self, certificate):
        self.bytes, self.at, self.line = certificate, 0, 0

    def next(self):
        """The next line, without its end; None behind the last."""
        if self.at >= len(self.bytes):
            return None
        end = self.bytes.find(b"\n", self.at)
        end = len(self.bytes) if end < 0 else end
        line = self.bytes[self.at : end]
        self.at, self.line = end + 1, self.line + 1
        return line

    def behind(self, words):
        """What stands behind these words on the next line."""
        line = self.next()
        if line is None or not line.startswith(words):
            raise Wrong("C1", self.line + (line is None), f"`{words.decode()}` has to stand here")
        return line[len(words) :]

    def text(self, length):
        text = self.bytes[self.at : self.at + length]
        if len(text) < length or self.bytes[self.at + length : self.at + length + 1] != b"\n":
            raise Wrong("C1", self.line, "the text has another length")
        self.at, self.line = self.at + length + 1, self.line + text.count(b"\n") + 1
        return text


def number_in(digits, line):
    """The number that these bytes write."""
    if not digits.isdigit() or len(digits) > 1 and digits[:1] == b"0" or int(digits) > MOST_NUMBER:
        raise Wrong("C1", line, "this is no number")
    return int(digits)


class Shown(NamedTuple):
    """What a certificate shows: the position, its value, and how many positions were looked at."""

    position: str
    value: str
    looked: int


class Check:
    """A certificate that is looked at, by the moves of the second program."""

    def __init__(self, certificate, game=None):
        self.lines = Lines(certificate)
        if self.lines.behind(FIRST_LINE.encode()):
            raise Wrong("C1", 1, "this is no certificate of this version")
        goal, length = 0, self.lines.next() or b""
        if length.startswith(b"goal "):
            goal, length = number_in(length[5:], self.lines.line), self.lines.next() or b""
            if not 1 <= goal <= MOST_GOAL:
                raise Wrong("C1", self.lines.line - 1, "this is no goal")
        if not length.startswith(b"text "):
            raise Wrong("C1", self.lines.line, "`text` has to stand here")
        at, text = self.lines.line, self.lines.text(number_in(length[5:], self.lines.line))
        try:
            self.play = Play(language.read(text), goal)
        except language.Fault as fault:
            raise Wrong("C2", at, f"the text is no game: {fault.code}") from fault
        if game is not None and game != text:
            raise Wrong("C3", at, "it is about another game")
        self.packing, self.positions = Packing(self.play), {}
        self.read_claim()

    def read_claim(self):
        try:
            self.text = self.lines.behind(b"position ").decode("ascii")
            self.at = self.packing.pack(self.play.position(self.text))
        except ValueError as error:
            raise Wrong("C4", self.lines.line, "this is no position of the game") from error
        self.value = self.lines.behind(b"value ").decode("ascii", "replace")
        self.winner, self.moves = None, None
        if self.value != "drawn":
            self.winner, _, moves = self.value.partition(" in ")
            if self.winner not in self.play.players:
                raise Wrong("C1", self.lines.line, "this is no value")
            self.moves = number_in(moves.encode(), self.lines.line)

    def read_list(self, manner, player):
        """The ranks of a list by the bits of positions, the first line of them, and the line of each."""
        if self.lines.next() != b"" or self.lines.next() != f"{manner} {player}".encode():
            raise Wrong("C1", self.lines.line, f"a list `{manner} {player}` has to stand here")
        ranks, last = {}, b""
        while self.lines.bytes[self.lines.at : self.lines.at + 1] not in (b"", b"\n"):
            line = self.lines.next()
            bits, _, rank = line.partition(b" ")
            rank = 1 if manner == "never" else number_in(rank, self.lines.line)
            packed = packed_of((line if manner == "never" else bits).decode("ascii", "replace"))
            if packed is None:
                raise Wrong("C1", self.lines.line, "this is no line of a list")
            self.positions[packed] = self.position_of(packed)
            if ranks and packed <= last:
                raise Wrong("C1", self.lines.line, "this does not come behind the line before it")
            ranks[packed], last = (rank, self.lines.line), packed
        return ranks

    def position_of(self, packed):
        fields = self.packing.unpack(packed)
        if fields is None:
            raise Wrong("C4", self.lines.line, "this is no position of the game")
        play, game = self.play, self.play.game
        board, (*values, vertex, role, place) = fields[: len(game.vertices)], fields[len(game.vertices) :]
        name = [">>", *play.players][role]
        pieces = ",".join(game.pieces[piece].text for piece in board)
        try:
            return play.position(f"{name} {place} {play.names[vertex]} {pieces} {','.join(map(str, values))}")
        except ValueError:
            # a place that no play comes to: it has no moves that the second program knows, and stands in no list for a reason
            raise Wrong("C4", self.lines.line, "play comes to no such position") from None

    def run(self):
        """What it shows."""
        players = self.play.players
        wanted = [("at most", self.winner), ("at least", self.winner)] if self.winner else [("never", player) for player in players]
        lists = [(manner, player, self.lines.line + 2, self.read_list(manner, player)) for manner, player in wanted]
        if self.lines.at < len(self.lines.bytes):
            raise Wrong("C1", self.lines.line + 1, "nothing has to stand here")
        # the two lists of a win show it together, and each of a draw by itself
        for part in [lists] if self.winner else [[one] for one in lists]:
            for manner, player, _, ranks in part:
                for packed, (rank, at) in ranks.items():
                    self.look(manner, players.index(player) + 1, ranks, packed, rank, at)
            for manner, _, line, ranks in part:
                self.look_for_position(manner, line, ranks)
        return Shown(self.text, self.value, sum(len(ranks) for _, _, _, ranks in lists))

    def look_for_position(self, manner, line, ranks):
        """Whether the position of the head stands in a list with such a rank as shows its value."""
        rank = ranks.get(self.at, (None, 0))[0]
        shows = {"at most": rank == self.moves, "at least": rank is not None and rank >= (self.moves or 0), "never": rank is not None}
        if not (shows[manner] or manner == "at least" and self.moves == 0):
            raise Wrong("C6", line, "this list does not show the value")

    def look(self, manner, player, ranks, packed, rank, line):
        """Whether a line follows from the others of its list."""
        position = self.positions[packed]
        try:
            after = [self.packing.pack(move.to) for move in self.play.moves(position)]
        except TooWide:
            raise Wrong("C7", line, "the search for the moves reaches too many configurations") from None
        has_turn = self.play.role(position) == player
        if manner == "at most":
            good = [to in ranks and ranks[to][0] < rank for to in after]
            follows = (any(good) if has_turn else all(good)) if after else self.play.ahead(position) == player
        else:
            need = 1 if manner == "never" else rank - 1
            good = [need <= 0 or to in ranks and ranks[to][0] >= need for to in after]
            follows = (all(good) if has_turn else any(good)) if after else self.play.ahead(position) != player
            follows = follows or rank == 0
        if not follows:
            raise Wrong("C5", line, "this does not follow from the other lines of its list")


def check(certificate, game=None):
    """What a certificate shows; `Wrong`, where it shows nothing. With the text of a game it has to be about that one."""
    return Check(certificate, game).run()
