"""The boards that the high-level language makes: rectangle, hexagon and cuboid, as lists of vertices with their labels."""
from __future__ import annotations

from .macros import Token, is_sign

LABELS = {"rectangle": 4, "hexagon": 6, "cuboid": 6}
LETTERS = "abcdefghijklmnopqrstuvwxyz"
# where the labels lead, in the order in which they are given: by columns to the right, rows down and layers back
STRAIGHT = ((0, -1), (0, 1), (-1, 0), (1, 0))
ROUND = ((-1, -1), (0, -1), (1, 0), (1, 1), (0, 1), (-1, 0))
MOST_FIELDS = 4096


class Fields:
    """What stands in brackets behind the labels of a board, read in order."""

    def __init__(self, tokens, at, maker):
        self.tokens, self.at, self.maker, self.count = tokens, at, maker, 0

    def wrong(self, message):
        return (self.tokens[self.at] if self.at < len(self.tokens) else self.tokens[-1]).wrong(message)

    def skip_comma(self):
        if is_sign(self.tokens, self.at, ","):
            self.at += 1

    def rows(self):
        """Rows one behind the other, commas between them or not."""
        found = []
        while is_sign(self.tokens, self.at, "["):
            found.append(self.row())
            self.skip_comma()
        if not found:
            raise self.wrong(f"the rows of a {self.maker.text} stand in brackets, as `[e,e,e]`")
        return found

    def row(self):
        """The names in one pair of brackets; None for a `#`, a field that the board has not."""
        self.at += 1
        found = []
        while True:
            if is_sign(self.tokens, self.at, "#"):
                found.append(None)
            elif self.at < len(self.tokens) and self.tokens[self.at].is_name:
                found.append(self.tokens[self.at])
            else:
                raise self.wrong("in a row stand names of pieces, or `#` for a field that is not there, with commas between them")
            self.at += 1
            self.count += 1
            if self.count > MOST_FIELDS:
                raise self.wrong("a board has 128 vertices at most")
            if is_sign(self.tokens, self.at, "]"):
                self.at += 1
                return found
            if not is_sign(self.tokens, self.at, ","):
                raise self.wrong("in a row commas stand between the fields, and a `]` behind them")
            self.at += 1

    def layers(self):
        found = []
        while is_sign(self.tokens, self.at, "[", "{"):
            closes = {"[": "]", "{": "}"}[self.tokens[self.at].text]
            self.at += 1
            found.append(self.rows())
            if not is_sign(self.tokens, self.at, closes):
                raise self.wrong(f"a layer of rows ends with `{closes}`")
            self.at += 1
            self.skip_comma()
        if not found:
            raise self.wrong("the layers of a cuboid stand in brackets, and in each of them its rows")
        return found


def made(tokens):
    """The tokens of a #board section with each vertex listed; those of one that makes no board are as they were."""
    if len(tokens) < 2 or tokens[0].text not in LABELS or not is_sign(tokens, 1, "("):
        return tokens
    maker = tokens[0]
    labels, at = [], 2
    while at < len(tokens) and tokens[at].is_name and len(labels) < LABELS[maker.text]:
        labels.append(tokens[at])
        if not is_sign(tokens, at + 1, ","):
            break
        at += 2
    if len(labels) < LABELS[maker.text] or len({label.text for label in labels}) < len(labels):
        raise maker.wrong(f"a {maker.text} has {LABELS[maker.text]} labels, each with a name of its own, and then rows")
    fields = Fields(tokens, at, maker)
    vertices = {"rectangle": rectangle, "hexagon": hexagon, "cuboid": cuboid}[maker.text](fields, labels)
    if not is_sign(tokens, fields.at, ")") or fields.at + 1 < len(tokens):
        raise fields.wrong(f"`{maker.text}(..)` is the whole board")
    if not 1 <= len(vertices) <= 128:
        raise maker.wrong(f"a board has 1 to 128 vertices, and this one has {len(vertices)}")
    return listed(vertices, labels, maker)


def even(rows, fields, wide):
    for number, row in enumerate(rows, 1):
        if len(row) != wide:
            raise fields.wrong(f"row {number} has {len(row)} fields, and the first one {wide}: `#` stands for a field that is not there")


def column(number):
    return LETTERS[number] if number < len(LETTERS) else f"x{number + 1}y"


def rectangle(fields, labels):
    """Vertices by column and row from the top left, each with its name, its piece and where its labels lead."""
    rows = fields.rows()
    even(rows, fields, len(rows[0]))
    cells = {(x, y): piece for y, row in enumerate(rows) for x, piece in enumerate(row) if piece}
    names = {place: f"{column(place[0])}{len(rows) - place[1]}" for place in cells}
    return linked(cells, names, STRAIGHT)


def hexagon(fields, labels):
    """Rows that grow by one field and then shrink by one; the lines that go up to the right are the columns."""
    rows, cells, before = fields.rows(), {}, None
    begin = 0
    for y, row in enumerate(rows):
        if before is not None:
            if abs(len(row) - before) != 1:
                raise fields.wrong(f"row {y + 1} of a hexagon has {len(row)} fields: each has one more or one less than the row above it")
            begin += len(row) < before
        before = len(row)
        cells.update({(begin + x, y): piece for x, piece in enumerate(row) if piece})
    names = {place: f"{column(place[0])}{len(rows) - place[1]}" for place in cells}
    return linked(cells, names, ROUND)


def cuboid(fields, labels):
    layers = fields.layers()
    for rows in layers:
        even(rows, fields, len(layers[0][0]))
        if len(rows) != len(layers[0]):
            raise fields.wrong("each layer has as many rows as the first one")
    cells = {(x, y, z): piece for z, rows in enumerate(layers) for y, row in enumerate(rows) for x, piece in enumerate(row) if piece}
    high = len(layers[0])
    names = {place: f"{column(place[0])}{high - place[1]}_{place[2] + 1}" for place in cells}
    return linked(cells, names, (*((*step, 0) for step in STRAIGHT), (0, 0, -1), (0, 0, 1)))


def linked(cells, names, steps):
    """Each vertex in the order of the text: its name, its piece, and the name to which each label leads, or None."""
    ways = {place: [tuple(at + by for at, by in zip(place, step)) for step in steps] for place in cells}
    return [(names[place], piece, [names.get(to) for to in ways[place]]) for place, piece in cells.items()]


def listed(vertices, labels, maker):
    found = []

    def put(*parts):
        for part in parts:
            found.append(part if isinstance(part, Token) else Token(part, maker.at, not part[0].isalnum(), maker.calls))

    for name, piece, ways in vertices:
        put(name, "[", piece, "]", "{")
        arrows = [(label, to) for label, to in zip(labels, ways) if to]
        for number, (label, to) in enumerate(arrows):
            put(*([","] if number else []), label, ":", to)
        put("}")
    return found
