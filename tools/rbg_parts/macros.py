"""The published high-level language as tokens: its macros are expanded here, each token keeping the place that it came from."""
from __future__ import annotations

import re
from dataclasses import dataclass, field

from .syntax import SECTIONS

TOKEN = re.compile(rb"[ \t\r\n]+|//[^\n]*|/\*|(->>|->|==|!=|<=|>=|[<>=#,:;~()\[\]{}*+\-$?!./^&|%@])|([A-Za-z0-9_]+)")
OPENS, CLOSES = {"(": ")", "[": "]", "{": "}"}, {")", "]", "}"}
# so many tokens are looked at in all before a text is given up, and macros may stand in one another so deep
MOST_TOKENS, MOST_DEPTH = 200000, 64


class NoPlace(Exception):
    """Why a text cannot be expanded: the byte that it is at, a sentence, and the macros that were being expanded, from outside in."""

    def __init__(self, at, message, calls=()):
        super().__init__(message)
        self.at, self.message, self.calls = at, message, calls


@dataclass(frozen=True)
class Token:
    """A word or a sign; `calls` are the macros out of which it came, each with the byte at which it is called."""

    text: str
    at: int
    is_sign: bool
    calls: tuple = ()

    @property
    def is_name(self):
        return not self.is_sign and not self.text.isdigit()

    def wrong(self, message):
        return NoPlace(self.at, message, self.calls)


@dataclass
class Macro:
    name: Token
    names: list
    body: list = field(default_factory=list)


def tokens_of(text):
    """The tokens of a text without its comments."""
    found, at = [], 0
    while at < len(text):
        match = TOKEN.match(text, at)
        if not match:
            byte = text[at : at + 1]
            shown = f"`{byte.decode()}`" if 33 <= byte[0] <= 126 else f"the byte {byte[0]}"
            raise NoPlace(at, f"nothing in a game text begins with {shown}")
        if match[1] or match[2]:
            found.append(Token(match[0].decode(), at, bool(match[1])))
        at = match.end()
        if match[0] == b"/*":
            end = text.find(b"*/", at)
            if end < 0:
                raise NoPlace(match.start(), "this comment is not closed by `*/`")
            at = end + 2
    return found


def is_sign(tokens, at, *signs):
    return at < len(tokens) and tokens[at].is_sign and tokens[at].text in signs


def begins_section(tokens, at):
    """Whether `#name =` or `#name(..) =` stands here; a `#` by itself is a field that a board leaves out."""
    return is_sign(tokens, at, "#") and at + 2 < len(tokens) and tokens[at + 1].is_name and is_sign(tokens, at + 2, "=", "(")


class Text:
    """The sections and the macros of a text."""

    def __init__(self, text):
        tokens = tokens_of(text)
        self.sections, self.macros, self.spent = {}, {}, 0
        self.end = len(text)
        at = 0
        while at < len(tokens):
            if not begins_section(tokens, at):
                raise tokens[at].wrong(f"`{tokens[at].text}` stands outside of the sections, which begin as `#rules =` or `#macro(a; b) =`")
            name, at = tokens[at + 1], at + 2
            names, at = self.parameters(tokens, at) if is_sign(tokens, at, "(") else ([], at)
            if not is_sign(tokens, at, "="):
                raise name.wrong(f"behind `#{name.text}` a `=` is wanted")
            begin = at = at + 1
            while at < len(tokens) and not begins_section(tokens, at):
                at += 1
            self.define(name, names, tokens[begin:at])

    @staticmethod
    def parameters(tokens, at):
        """The names between the parentheses of a macro, and where they end."""
        names, at = [], at + 1
        while at < len(tokens) and tokens[at].is_name:
            names.append(tokens[at].text)
            if not is_sign(tokens, at + 1, ";"):
                break
            at += 2
        if not names or not is_sign(tokens, at + 1, ")"):
            where = tokens[min(at + 1, len(tokens) - 1)]
            raise where.wrong("the names of a macro's arguments stand in parentheses, with `;` between them")
        return names, at + 2

    def define(self, name, names, body):
        if name.text in SECTIONS:
            if names:
                raise name.wrong(f"`#{name.text}` is a section, and takes no arguments")
            if name.text in self.sections:
                raise name.wrong(f"#{name.text} stands twice")
            self.sections[name.text] = (name, body)
            return
        known = self.macros.setdefault(name.text, {})
        if len(names) in known:
            raise name.wrong(f"the macro `{name.text}` with {many(len(names))} stands twice")
        if len(set(names)) < len(names):
            raise name.wrong(f"the macro `{name.text}` has two arguments with one name")
        known[len(names)] = Macro(name, names, body)

    def expanded(self, title):
        """The tokens of a section without macros."""
        return self.expand(joined(self.sections[title][1]), ())

    def spend(self, count, token):
        self.spent += count
        if self.spent > MOST_TOKENS:
            raise token.wrong("the macros make a text that is far longer than one of a game may be")

    def expand(self, tokens, active):
        """Tokens with each call of a macro replaced by its body; `active` are the macros in whose bodies they stand."""
        found, at = [], 0
        while at < len(tokens):
            token = tokens[at]
            self.spend(1, token)
            macro, given, at = self.called(tokens, at)
            if macro is None:
                found.append(token)
                continue
            if any(one is macro for one in active):
                raise token.wrong(f"the macro `{token.text}` stands in itself")
            if len(active) >= MOST_DEPTH:
                raise token.wrong(f"macros stand in one another more than {MOST_DEPTH} deep")
            given = [self.expand(part, active) for part in given]
            found += self.expand(joined(self.body(macro, given, token)), (*active, macro))
        return found

    def called(self, tokens, at):
        """The macro that is called here, what is given to it, and where the call ends; None where no macro is."""
        token = tokens[at]
        known = self.macros.get(token.text) if token.is_name else None
        if not known:
            return None, [], at + 1
        if is_sign(tokens, at + 1, "(") and any(known):
            given, end = arguments(tokens, at + 1)
            if len(given) in known:
                return known[len(given)], given, end
            if 0 not in known:
                counts = " or ".join(str(count) for count in sorted(known))
                raise token.wrong(f"the macro `{token.text}` takes {counts} arguments, and is given {len(given)}")
        # one that wants arguments and has none may be an argument itself, and is called where it comes to stand
        return known.get(0), [], at + 1

    def body(self, macro, given, call):
        """The body of a macro with what is given for its arguments."""
        by_name, found, calls = dict(zip(macro.names, given)), [], (*call.calls, (macro.name.text, call.at))
        for token in macro.body:
            part = by_name.get(token.text) if token.is_name else None
            part = [Token(token.text, token.at, token.is_sign, calls)] if part is None else part
            self.spend(len(part), call)
            found += part
        return found


def many(count):
    return "no argument" if count == 0 else "one argument" if count == 1 else f"{count} arguments"


def arguments(tokens, at):
    """What is given to a macro between the parenthesis that stands here and its other one, and where that ends."""
    parts, open_, begin = [[]], [], tokens[at]
    while at < len(tokens):
        token = tokens[at]
        if token.is_sign and token.text in OPENS:
            open_.append(OPENS[token.text])
        elif token.is_sign and token.text in CLOSES:
            if token.text != open_.pop():
                raise token.wrong(f"`{token.text}` closes nothing that is open here")
            if not open_:
                return [part[1:] if number == 0 else part for number, part in enumerate(parts)], at + 1
        if token.is_sign and token.text == ";" and len(open_) == 1:
            parts.append([])
        else:
            parts[-1].append(token)
        at += 1
    raise begin.wrong("this parenthesis is not closed")


def joined(tokens):
    """Tokens with what stands round each `~` made one."""
    found, at = [], 0
    while at < len(tokens):
        if not is_sign(tokens, at, "~"):
            found.append(tokens[at])
            at += 1
            continue
        behind = tokens[at + 1] if at + 1 < len(tokens) else None
        if not found or found[-1].is_sign or behind is None or behind.is_sign:
            raise tokens[at].wrong("`~` joins a name or a number and the one behind it")
        before = found.pop()
        found.append(Token(before.text + behind.text, before.at, False, before.calls))
        at += 2
    return found
