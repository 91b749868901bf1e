"""Words and brackets of the definitions' language, and of the clauses that are written in it."""
from __future__ import annotations

import re
from dataclasses import dataclass

OPENING = {"(": ")", "{": "}", "⟦": "⟧"}
CLOSING = set(OPENING.values())

SPEC_TOKEN = re.compile(
    r'(?P<skip>\s+|--[^\n]*)|(?P<token>"(?:[^"\\]|\\.)*"|[(){}⟦⟧,;.]|[^\s(){}⟦⟧,;."]+)'
)
CLAUSE_TOKEN = re.compile(
    r'(?P<skip>\s+|//[^\n]*)|(?P<token>"(?:[^"\\]|\\.)*"|[(){}⟦⟧,;.]|[^\s(){}⟦⟧,;."]+)'
)


@dataclass(frozen=True)
class Token:
    text: str
    line: int  # of the file, from 0
    column: int
    glued: bool  # nothing stands between it and the token before
    leads: bool  # the first one of its line

    @property
    def is_word(self) -> bool:
        return self.text[0] not in '(){}⟦⟧,;."'


def tokens_of(text: str, line: int, pattern: re.Pattern[str] = SPEC_TOKEN) -> list[Token]:
    """The tokens of a text that begins on this line of its file."""
    found: list[Token] = []
    start_of_line, end, leads = 0, -1, True
    for match in pattern.finditer(text):
        piece = match.group()
        if match.group("token"):
            found.append(Token(piece, line, match.start() - start_of_line, match.start() == end, leads))
            end, leads = match.end(), False
        breaks = piece.count("\n")
        if breaks:
            line += breaks
            start_of_line = match.start() + piece.rindex("\n") + 1
            leads = True
    return found


def closing(tokens: list[Token], at: int) -> int:
    """Where the bracket that opens at this index closes."""
    depth = 0
    for index in range(at, len(tokens)):
        if tokens[index].text in OPENING:
            depth += 1
        elif tokens[index].text in CLOSING:
            depth -= 1
            if depth == 0:
                return index
    raise ValueError(f"line {tokens[at].line + 1}: this bracket does not close")


def first_at_top(tokens: list[Token], word: str, start: int = 0) -> int:
    """The index of the first such token outside of brackets; -1 where there is none."""
    index = start
    while index < len(tokens):
        if tokens[index].text == word:
            return index
        if tokens[index].text in OPENING:
            index = closing(tokens, index)
        index += 1
    return -1


def split_at_top(tokens: list[Token], word: str) -> list[list[Token]]:
    """The runs of tokens between such tokens outside of brackets."""
    parts: list[list[Token]] = []
    start = 0
    while (at := first_at_top(tokens, word, start)) >= 0:
        parts.append(tokens[start:at])
        start = at + 1
    parts.append(tokens[start:])
    return [part for part in parts if part]


def chain_at(tokens: list[Token], at: int) -> tuple[list[str], int]:
    """The names that follow one another with a point between, as in `a.b.c`, and the index behind them."""
    names, at = [tokens[at].text], at + 1
    while at + 1 < len(tokens) and tokens[at].text == "." and tokens[at].glued and tokens[at + 1].glued and tokens[at + 1].is_word:
        names.append(tokens[at + 1].text)
        at += 2
    return names, at


def chunks(tokens: list[Token]) -> list[list[Token]]:
    """The tokens cut where a line begins as far left as the first of them does."""
    found: list[list[Token]] = []
    for token in tokens:
        if not found or (token.leads and token.column <= found[0][0].column and token.text[0] not in ")}]⟧"):
            found.append([])
        found[-1].append(token)
    return found
