"""A text of the published high-level language as one of docs/LANGUAGE.md, or the reason why it has no place there."""
from __future__ import annotations

import re
from bisect import bisect_right

from . import language, makers
from .macros import NoPlace, Text, Token, is_sign
from .syntax import SECTIONS

WIDTH = 118
COMMENT = re.compile(rb"\A(?:[ \t]*(?://[^\n]*)?\n)*")
# signs of the language that none of the profile's actions has
OTHERS = {
    "/": "a division has no place in the profile, whose expressions have `+`, `-` and `*`",
    "^": "a power has no place in the profile: write it out",
    "%": "a remainder has no place in the profile",
    "&": "conditions are one behind the other in the profile: write `{$ ..} {$ ..}`",
    "|": "of two ways one is meant by `(.. + ..)` in the profile",
    ";": "a `;` stands between the arguments of a macro, and no macro of this name is there",
    "@": "nothing in the profile is written with `@`",
}


class Written:
    """A text that is being written, with the token out of which each part came."""

    def __init__(self):
        self.parts, self.size, self.begins, self.tokens = [], 0, [], []

    def put(self, text, token=None):
        if token is not None:
            self.begins.append(self.size)
            self.tokens.append(token)
        self.parts.append(text)
        self.size += len(text.encode())

    def text(self):
        return "".join(self.parts).encode()

    def token_at(self, byte):
        """The token in which a byte of the text is, or the last one before it."""
        at = bisect_right(self.begins, byte) - 1
        return self.tokens[at] if at >= 0 else None


def expanded(source):
    """The text of a game without macros and made boards; `NoPlace` where it has none."""
    text = Text(source)
    sections = {title: text.expanded(title) for title in SECTIONS if title in text.sections}
    for title, tokens in sections.items():
        for at, token in enumerate(tokens):
            if token.is_sign and token.text in OTHERS:
                raise token.wrong(OTHERS[token.text])
            if title == "rules" and is_sign(tokens, at, "$") and not is_sign(tokens, at - 1, "[", "{"):
                raise token.wrong("tags of moves have no place in the profile, in which a move is told by its actions")
    if "board" in sections:
        sections["board"] = makers.made(sections["board"])
    if "rules" in sections:
        sections["rules"] = without_idle(sections["rules"], sections.get("pieces", []))
    written = write(source, sections)
    check(written, text)
    return written.text()


def without_idle(tokens, pieces):
    """The rules with `{all pieces}` for each `.`, the action that does nothing."""
    found = []
    for token in tokens:
        if token.is_sign and token.text == ".":
            every = [Token(one.text, token.at, one.is_sign, token.calls) for one in pieces]
            found += [Token("{", token.at, True, token.calls), *every, Token("}", token.at, True, token.calls)]
        else:
            found.append(token)
    return found


def check(written, text):
    """Reads what was written; a fault is told where it stands in the source."""
    try:
        language.read(written.text())
    except language.Fault as fault:
        token = written.token_at(fault.at)
        message = f"{fault.code} {fault.message}"
        known = text.macros.get(fault.name)
        if known:
            message = f"the macro `{fault.name}` takes {' or '.join(map(str, sorted(known)))} arguments, and stands here without them"
        if token is None or fault.at >= written.size:
            raise NoPlace(text.end, message) from None
        raise token.wrong(message) from None


def write(source, sections):
    written = Written()
    head = COMMENT.match(source)[0].decode("utf-8", "replace").strip()
    if head:
        written.put("\n".join(line.strip() for line in head.splitlines()) + "\n")
    for title, tokens in sections.items():
        name = f"#{title} ="
        written.put(name, tokens[0] if tokens else None)
        if title == "board":
            write_board(written, tokens)
        elif title == "rules":
            write_rules(written, tokens)
        else:
            write_line(written, tokens, " ")
        written.put("\n")
    return written


def write_line(written, tokens, before):
    """Tokens in one line, behind what stands before the first."""
    for at, token in enumerate(tokens):
        written.put(before if at == 0 else gap(tokens, at))
        written.put(token.text, token)


def write_board(written, tokens):
    """A vertex a line."""
    begin = 0
    for at, token in enumerate(tokens):
        if is_sign(tokens, at, "}"):
            line = tokens[begin : at + 1]
            write_line(written, line[1:] if is_sign(line, 0, ",") else line, "\n    ")
            begin = at + 1
    write_line(written, tokens[begin:], "\n    ")


def write_rules(written, tokens):
    """A line for what stands before each switch, and more where that is long; what fits into half a line is not cut."""
    deep, room, whole, multiply = 1, 0, 0, products(tokens)
    for at, token in enumerate(tokens):
        deep -= is_sign(tokens, at, ")")
        space = gap(tokens, at, multiply)
        end = end_of_group(tokens, at)
        long = sum(len(part.text) + 1 for part in tokens[at:end])
        is_cut = is_sign(tokens, at, "->", "->>") or (space and room + len(space) + long > WIDTH)
        if at >= whole and (room == 0 or is_cut):
            space = "\n" + "    " * deep
            room = len(space) - 1
        else:
            room += len(space)
        if is_sign(tokens, at, "{", "[") or (long <= WIDTH // 2 and not has_switch(tokens[at:end])):
            whole = max(whole, end)
        written.put(space)
        written.put(token.text, token)
        room += len(token.text)
        deep += is_sign(tokens, at, "(")


def has_switch(tokens):
    return any(is_sign(tokens, at, "->", "->>") for at in range(len(tokens)))


def end_of_group(tokens, at):
    """The place behind the brackets that open here and the star behind them; behind a token that opens none, no more than half a line on."""
    open_, length = 0, 0
    for end in range(at, len(tokens)):
        open_ += is_sign(tokens, end, "(", "[", "{") - is_sign(tokens, end, ")", "]", "}")
        length += len(tokens[end].text) + 1
        if open_ <= 0 or length > WIDTH:
            return end + 1 + is_sign(tokens, end + 1, "*")
    return len(tokens)


def gap(tokens, at, multiply=()):
    """What stands between a token and the one before it; `multiply` are the places of the `*` that are no star."""
    if at == 0:
        return ""
    before, token = tokens[at - 1], tokens[at]
    if token.is_sign and token.text in (")", "]", "}", ",", ":"):
        return ""
    if token.is_sign and token.text == "*" and at not in multiply:
        return ""
    if before.is_sign and before.text in ("(", "[", "{", "->") and token.text != "$":
        return ""
    if token.text in ("$", "?", "!") and before.text in ("{", "["):
        return ""
    if is_sign(tokens, at, "(") and at + 1 < len(tokens) and tokens[at + 1].text.isdigit() and is_sign(tokens, at + 2, ")"):
        return ""
    if token.is_sign and token.text in ("[", "{") and before.is_name and in_board(tokens):
        return ""
    if is_sign(tokens, at - 1, "]") and token.text == "{" and in_board(tokens):
        return ""
    return " "


def products(tokens):
    """The places of the `*` that multiply: they stand in a comparison or an assignment."""
    found, open_ = set(), []
    for at, token in enumerate(tokens):
        if is_sign(tokens, at, "[", "{"):
            open_.append(is_sign(tokens, at + 1, "$"))
        elif is_sign(tokens, at, "]", "}") and open_:
            open_.pop()
        elif is_sign(tokens, at, "*") and open_ and open_[-1]:
            found.add(at)
    return found


def in_board(tokens):
    """Whether these are the tokens of one vertex."""
    return is_sign(tokens, 1, "[") and not is_sign(tokens, 2, "$") and is_sign(tokens, 3, "]") and is_sign(tokens, 4, "{")
