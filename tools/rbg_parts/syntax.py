"""A game text as data: tokens, actions and trees, each with its place in the text."""
from __future__ import annotations

import re
from dataclasses import dataclass, field

SECTIONS = ("players", "pieces", "variables", "board", "rules")
TOKEN = re.compile(rb"[ \t\r\n]+|//[^\n]*|(->>|->|==|!=|<=|>=|[<>=#,:()\[\]{}*+\-$?!])|([A-Za-z0-9_]+)")
COMMENT = re.compile(rb"//[^\n]*")
COMPARISONS = ("==", "!=", "<=", ">=", "<", ">")
CLOSES = {"(": ")", "[": "]", "{": "}"}


class Fault(Exception):
    """Why a text is no game: a code, the byte from 0 that it is at, and a sentence. `wanted` is the kind of name that is missing."""

    def __init__(self, code, at, message, name="", wanted=""):
        super().__init__(message)
        self.code, self.at, self.message, self.name, self.wanted = code, at, message, name, wanted


@dataclass
class Token:
    text: str
    at: int
    is_sign: bool

    @property
    def is_name(self):
        return not self.is_sign and not self.text.isdigit()

    @property
    def end(self):
        return self.at + len(self.text)


@dataclass
class Action:
    """One action: its kind, what it speaks of, and where it stands in the text. `number` is 0 in a pattern."""

    kind: str
    what: object
    at: int
    end: int
    number: int = 0
    inner: object = None


@dataclass
class Sum:
    parts: list


@dataclass
class Chain:
    parts: list


@dataclass
class Star:
    inner: object


@dataclass
class Name:
    text: str
    at: int


@dataclass
class Vertex:
    name: Name
    piece: Name
    arrows: list


@dataclass
class Game:
    """What a text says, with places in it. `players` and `variables` are pairs of a name and a bound."""

    text: bytes
    players: list = field(default_factory=list)
    pieces: list = field(default_factory=list)
    variables: list = field(default_factory=list)
    vertices: list = field(default_factory=list)
    rules: object = None
    actions: list = field(default_factory=list)
    section_at: dict = field(default_factory=dict)

    @property
    def labels(self):
        return list(dict.fromkeys(label.text for vertex in self.vertices for label, _ in vertex.arrows))

    @property
    def values(self):
        """Names and bounds of all values: the scores first."""
        return [(name.text, bound) for name, bound in self.players + self.variables]

    def source(self, action):
        """The text of an action, in one line and without comments, which may have any bytes."""
        return " ".join(COMMENT.sub(b" ", self.text[action.at : action.end]).decode("ascii").split())


def line_and_byte(text, at):
    """The line and the byte of that line, each from 1."""
    before = text[:at]
    return before.count(b"\n") + 1, at - (before.rfind(b"\n") + 1) + 1


def tokens_of(text):
    found, at = [], 0
    while at < len(text):
        match = TOKEN.match(text, at)
        if not match:
            byte = text[at : at + 1]
            shown = f"`{byte.decode()}`" if 33 <= byte[0] <= 126 else f"the byte {byte[0]}"
            raise Fault("G1", at, f"nothing in a game text begins with {shown}")
        if match[1] or match[2]:
            found.append(Token(match[0].decode(), at, bool(match[1])))
        at = match.end()
    return found


def actions_in(tree):
    """All actions of a tree, those in patterns too, each behind what it stands in."""
    if isinstance(tree, Action):
        yield tree
        if tree.inner is not None:
            yield from actions_in(tree.inner)
    else:
        for part in [tree.inner] if isinstance(tree, Star) else tree.parts:
            yield from actions_in(part)


def names_in(expression):
    kind, what = expression
    if kind == "value":
        yield what
    elif kind == "sum":
        for _, term in what:
            yield from names_in(term)
    elif kind == "product":
        for factor in what:
            yield from names_in(factor)
    elif kind == "minus":
        yield from names_in(what)
