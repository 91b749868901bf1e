"""The grammar of game texts (docs/LANGUAGE.md), one method for each rule of it."""
from __future__ import annotations

from .syntax import COMPARISONS, SECTIONS, Action, Chain, Fault, Name, Star, Sum, Vertex


class Reader:
    """The grammar, one method for each rule of it."""

    def __init__(self, text, tokens):
        self.text, self.tokens, self.place = text, tokens, 0
        self.sections, self.literals, self.expressions, self.switches = [], [], [], []

    def sign(self, *signs):
        """Whether one of these signs stands next."""
        return self.place < len(self.tokens) and self.tokens[self.place].is_sign and self.tokens[self.place].text in signs

    def wrong(self):
        if self.place >= len(self.tokens):
            raise Fault("G1", len(self.text), "the text ends too early")
        token = self.tokens[self.place]
        raise Fault("G1", token.at, f"`{token.text}` does not fit here")

    def take(self, sign):
        if not self.sign(sign):
            self.wrong()
        self.place += 1
        return self.tokens[self.place - 1]

    def name(self):
        if self.place >= len(self.tokens) or not self.tokens[self.place].is_name:
            self.wrong()
        self.place += 1
        return Name(self.tokens[self.place - 1].text, self.tokens[self.place - 1].at)

    def number(self):
        if self.place >= len(self.tokens) or self.tokens[self.place].is_sign or self.tokens[self.place].is_name:
            self.wrong()
        token = self.tokens[self.place]
        self.place += 1
        # a number of any length is read, and of one that is far over the bound no more than that counts
        digits = token.text.lstrip("0")
        found = int(digits[:10] or 0)
        self.literals.append((found, token.at))
        return found

    def listed(self, one):
        parts = [one()]
        while self.sign(","):
            self.place += 1
            parts.append(one())
        return parts

    def whole(self):
        while self.place < len(self.tokens):
            at = self.take("#").at
            title = self.name()
            if title.text not in SECTIONS:
                raise Fault("G1", title.at, f"`{title.text}` is no section: there are #{', #'.join(SECTIONS)}", title.text, "section")
            self.take("=")
            self.sections.append((title.text, at, self.body(title.text)))

    def body(self, title):
        if title == "players":
            return self.listed(self.declared)
        if title == "pieces":
            return self.listed(self.name)
        if title == "variables":
            return self.listed(self.declared) if self.place < len(self.tokens) and not self.sign("#") else []
        return self.board() if title == "board" else self.sum()

    def declared(self):
        name = self.name()
        self.take("(")
        bound = self.number()
        self.take(")")
        return name, bound

    def board(self):
        vertices = [self.vertex()]
        while self.sign(",") or (self.place < len(self.tokens) and not self.sign("#")):
            if self.sign(","):
                self.place += 1
            vertices.append(self.vertex())
        return vertices

    def vertex(self):
        name = self.name()
        self.take("[")
        piece = self.name()
        self.take("]")
        self.take("{")
        arrows = [] if self.sign("}") else self.listed(self.arrow)
        self.take("}")
        return Vertex(name, piece, arrows)

    def arrow(self):
        label = self.name()
        self.take(":")
        return label, self.name()

    def sum(self):
        parts = [self.chain()]
        while self.sign("+"):
            self.place += 1
            parts.append(self.chain())
        return parts[0] if len(parts) == 1 else Sum(parts)

    def chain(self):
        parts = [self.element()]
        while self.place < len(self.tokens) and (self.sign("(", "[", "{", "->", "->>") or self.tokens[self.place].is_name):
            parts.append(self.element())
        return parts[0] if len(parts) == 1 else Chain(parts)

    def element(self):
        if self.sign("("):
            self.place += 1
            inner = self.sum()
            self.take(")")
        else:
            inner = self.action()
        if self.sign("*"):
            self.place += 1
            return Star(inner)
        return inner

    def action(self):
        begin = self.place
        if self.sign("{"):
            return self.braces(begin)
        if self.sign("["):
            return self.brackets(begin)
        if self.sign("->", "->>"):
            self.place += 1
            role = self.name() if self.tokens[begin].text == "->" else None
            found = self.made("switch", role, begin)
            self.switches.append(found)
            return found
        return self.made("shift", self.name(), begin)

    def made(self, kind, what, begin, inner=None):
        return Action(kind, what, self.tokens[begin].at, self.tokens[self.place - 1].end, inner=inner)

    def braces(self, begin):
        self.take("{")
        if self.sign("$"):
            self.place += 1
            left, at = self.expression(), self.place
            if not self.sign(*COMPARISONS):
                self.wrong()
            self.place += 1
            right = self.expression()
            self.take("}")
            return self.made("compare", (left, self.tokens[at].text, right), begin)
        if self.sign("?", "!"):
            wanted = self.tokens[self.place].text == "?"
            self.place += 1
            inner = self.sum()
            self.take("}")
            return self.made("pattern", wanted, begin, inner)
        names = [] if self.sign("}") else self.listed(self.name)
        self.take("}")
        return self.made("on", names, begin)

    def brackets(self, begin):
        self.take("[")
        if not self.sign("$"):
            piece = self.name()
            self.take("]")
            return self.made("off", piece, begin)
        self.place += 1
        parts = self.listed(self.assignment)
        self.take("]")
        parts[0].at, parts[-1].end = self.tokens[begin].at, self.tokens[self.place - 1].end
        return parts[0] if len(parts) == 1 else Chain(parts)

    def assignment(self):
        begin = self.place
        name = self.name()
        self.take("=")
        return self.made("assign", (name, self.expression()), begin)

    def expression(self):
        begin = self.tokens[self.place].at if self.place < len(self.tokens) else len(self.text)
        found = self.expression_within()
        self.expressions.append((found, begin))
        return found

    def expression_within(self):
        terms = [(1, self.term())]
        while self.sign("+", "-"):
            self.place += 1
            terms.append((1 if self.tokens[self.place - 1].text == "+" else -1, self.term()))
        return terms[0][1] if len(terms) == 1 else ("sum", terms)

    def term(self):
        factors = [self.factor()]
        while self.sign("*"):
            self.place += 1
            factors.append(self.factor())
        return factors[0] if len(factors) == 1 else ("product", factors)

    def factor(self):
        if self.sign("-"):
            self.place += 1
            return ("minus", self.atom())
        return self.atom()

    def atom(self):
        if self.sign("("):
            self.place += 1
            inner = self.expression_within()
            self.take(")")
            return inner
        if self.place < len(self.tokens) and self.tokens[self.place].is_name:
            return ("value", self.name())
        return ("number", self.number())
