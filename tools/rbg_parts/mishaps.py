"""What may have been meant by a text that is no game."""
from __future__ import annotations

import re

from .grammar import Reader
from .syntax import CLOSES, SECTIONS, Fault, line_and_byte, tokens_of

# how a text of the project of origin begins with macros and board makers
MACRO = re.compile(rb"^[ \t]*#[ \t]*([A-Za-z0-9_]+)[ \t]*(?:(\([^)\n]*\))[ \t]*)?=", re.M)
MOST_LETTERS = 64
MAKER = re.compile(rb"\b(rectangle|hexagon|cuboid)[A-Za-z]*[ \t]*\(")


def hints(text, fault):
    """Lines for people about a fault: what stands there, and what may have been meant."""
    yield from shown(text, fault.at)
    if text.startswith(b"RBGTABLE"):
        yield "this is a table and not a game's text; `rbgsolve session` asks it"
        return
    if text.startswith(b"\xef\xbb\xbf"):
        yield "the file begins with a byte order mark, which some editors write: save it as UTF-8 without one"
        return
    if text[:2] in (b"\xff\xfe", b"\xfe\xff"):
        yield "the file is written in UTF-16: save it as ASCII or UTF-8"
        return
    if is_high_level(text):
        yield "this looks like the language with macros, or with boards that are made: `tools/expand` makes a text of it that is read here"
        return
    if b"/*" in text[: fault.at + 2]:
        yield "comments go from `//` to the end of the line; there are none from `/*` to `*/`"
    if fault.code == "G1":
        yield from opened(text, fault)
    if fault.name:
        yield from meant(text, fault)


def shown(text, at):
    """The line of a byte, and a caret below it."""
    if text.startswith(b"RBGTABLE"):
        return
    begin = text.rfind(b"\n", 0, at) + 1
    end = text.find(b"\n", at)
    line = text[begin : len(text) if end < 0 else end].rstrip(b"\r")
    if not line.strip():
        return
    cut = max(0, at - begin - 60)
    yield masked(line[cut : cut + 110])
    yield " " * len(masked(line[cut : at - begin])) + "^"


def masked(line):
    """Some bytes as they can be shown: a `?` for what a terminal would take for a command."""
    text = line.decode("utf-8", "replace").replace("\t", " ")
    return "".join(letter if letter.isprintable() else "?" for letter in text)


def masked_lines(text):
    """A whole text as it can be shown."""
    return b"\n".join(masked(line).encode("utf-8", "replace") for line in text.split(b"\n"))


def is_high_level(text):
    plain = re.sub(rb"//[^\n]*", b"", text)
    titles = [(match[1].decode(), bool(match[2])) for match in MACRO.finditer(plain)]
    return bool(MAKER.search(plain)) or any(title not in SECTIONS and (given or b";" in plain) for title, given in titles)


def opened(text, fault):
    """Where brackets were opened that are not closed up to the fault."""
    try:
        tokens = tokens_of(text)
    except Fault:
        return
    still = []
    for token in tokens:
        if token.at >= fault.at:
            break
        if token.is_sign and token.text in CLOSES:
            still.append(token)
        elif token.is_sign and still and token.text == CLOSES[still[-1].text]:
            still.pop()
    met = next((token for token in tokens if token.at >= fault.at), None)
    if still and (met is None or met.text in (")", "]", "}", "#")):
        line, byte = line_and_byte(text, still[-1].at)
        yield f"the `{still[-1].text}` of line {line}, byte {byte}, is open here"
    elif not still and met is not None and met.text in (")", "]", "}"):
        yield f"no `{next(key for key, value in CLOSES.items() if value == met.text)}` is open here"


def distance(first, second):
    """How many letters have to be changed, put in, left out, or changed with their neighbours."""
    before, row = None, list(range(len(second) + 1))
    for at, letter in enumerate(first, 1):
        older, before, row = before, row, [at]
        for to, other in enumerate(second, 1):
            least = min(before[to] + 1, row[to - 1] + 1, before[to - 1] + (letter != other))
            if older and at > 1 and to > 1 and letter == second[to - 2] and first[at - 2] == other:
                least = min(least, older[to - 2] + 1)
            row.append(least)
    return row[-1]


def names_by_kind(text):
    """Each name of a text that is in the grammar, with the kinds that it is declared as."""
    reader = Reader(text, tokens_of(text))
    reader.whole()
    found = {"piece": [], "vertex": [], "label": [], "player": [], "variable or player": []}
    for title, _, body in reader.sections:
        if title in ("players", "variables"):
            found["variable or player"] += [name.text for name, _ in body]
        if title == "players":
            found["player"] += [name.text for name, _ in body]
        if title == "pieces":
            found["piece"] += [name.text for name in body]
        if title == "board":
            found["vertex"] += [vertex.name.text for vertex in body]
            found["label"] += [label.text for vertex in body for label, _ in vertex.arrows]
    return found


def meant(text, fault):
    """Names near the one that is not known, and what else it is the name of."""
    if fault.wanted == "section":
        names, others = list(SECTIONS), {}
    else:
        others = names_by_kind(text)
        names = others[fault.wanted]
    most = 1 if len(fault.name) < 5 else 2
    # a name of which nobody mistypes a letter or two is not compared, nor one that is longer or shorter by more
    alike = [name for name in names if abs(len(name) - len(fault.name)) <= most and len(name) <= MOST_LETTERS]
    near = sorted({(distance(fault.name.lower(), name.lower()), name) for name in alike})
    if near and near[0][0] <= most and near[0][0] < len(fault.name):
        yield f"did you mean `{near[0][1]}`?"
    for kind, known in others.items():
        if kind != fault.wanted and fault.name in known and kind != "variable or player":
            yield f"`{fault.name}` is a {kind}, and stands here in the place of a {fault.wanted}"
