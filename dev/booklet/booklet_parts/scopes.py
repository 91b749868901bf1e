"""Which names of a text are bound in it, and what the others stand for."""
from __future__ import annotations

from typing import Callable

from booklet_parts.definition import Bounded, Constructor, Definition, Library, Namespace, Proof, Uses
from booklet_parts.tokens import OPENING, Token, chain_at, chunks, closing, first_at_top, split_at_top

Locals = dict[str, object]

# of the language itself: these need no import
BUILT_IN = set("Type Unit tt ⊥ ¬ × → λ record let in where do ← = : _ | ↦ [ ] elim absurd omega cc ∥ ∥₁".split())
# constructors of the toolchain's library, which are no variables where they stand in a pattern
LIBRARY_CONSTRUCTORS = set("zero suc true false [] ◌∷◌ None Some Ok Err refl inl inr pos negsuc tt ◌,◌".split())


class Scope:
    """What names stand for outside of a text: by the imports of its file, and by what stands beside it there."""

    def __init__(self, names: dict[str, object], outer: "Scope | None" = None) -> None:
        self.names = names
        self.outer = outer
        self.parts = {part: name for name in names if "◌" in name for part in name.split("◌") if part}

    def look_up(self, word: str) -> object | None:
        found = self.names.get(word)
        if found is None and word in self.parts:
            found = self.names[self.parts[word]]
        if found is None and self.outer is not None:
            return self.outer.look_up(word)
        return found


class Walker:
    """Goes through tokens once and collects what they use."""

    def __init__(self, scope: Scope, ghosts: Callable, instances: Callable | None = None) -> None:
        self.scope = scope
        self.ghosts = ghosts
        self.instances = instances
        self.uses = Uses()

    # ---- single names

    def use(self, target: object, rest: list[str], word: str) -> object | None:
        """Notes what is used; gives what the first name stands for, where members can be taken of it."""
        if isinstance(target, Definition):
            self.uses.add(target)
            self.uses.constructors |= {(target.key, name) for name in rest[:1] if name in target.constructors}
        elif isinstance(target, Constructor):
            for made in target.definitions:
                self.uses.add(made)
                self.uses.constructors.add((made.key, target.name))
        elif isinstance(target, Library):
            self.uses.library.add(target.name)
        elif isinstance(target, Proof):
            self.uses.proofs.add(target.name)
        elif isinstance(target, Namespace):
            inner = target.look_up(rest[0]) if rest else None
            if inner is None:
                self.uses.unknown.add(".".join([word] + rest))
            else:
                self.use(inner, rest[1:], rest[0])
        elif isinstance(target, Bounded):
            member = self.ghosts(target, rest) if rest else None
            if isinstance(member, Definition):
                self.uses.add(member)
            elif rest and member is None:
                self.uses.unknown.add(".".join([word] + rest))
        return target

    def word(self, names: list[str], inside: Locals) -> object | None:
        first = names[0]
        if first in inside:
            tag = inside[first]
            return self.use(tag, names[1:], first) if tag is not None and len(names) > 1 else None
        if first in BUILT_IN or first[0].isdigit():
            return None
        target = self.scope.look_up(first)
        if target is None:
            self.uses.unknown.add(first)
            return None
        return self.use(target, names[1:], first)

    def is_constructor(self, word: str) -> bool:
        target = self.scope.look_up(word)
        if isinstance(target, Library):
            return target.name.rsplit(".", 1)[1] in LIBRARY_CONSTRUCTORS
        return isinstance(target, Constructor)

    # ---- what binds

    def pattern(self, tokens: list[Token], inside: Locals, own: set[str]) -> Locals:
        """The variables of a pattern; its constructors are used."""
        bound: Locals = {}
        at = 0
        while at < len(tokens):
            token = tokens[at]
            if not token.is_word:
                at += 1
                continue
            names, behind = chain_at(tokens, at)
            at = behind
            if names[0] in own or names[0][0].isdigit() or names[0] in BUILT_IN:
                continue
            if len(names) > 1 or self.is_constructor(names[0]):
                self.word(names, inside)
            else:
                bound[names[0]] = None
        return {**inside, **bound}

    def binder(self, group: list[Token], inside: Locals) -> Locals | None:
        """The names of `x y : T` with what can be taken of them; None where the group binds nothing."""
        colon = first_at_top(group, ":")
        if colon <= 0 or not all(token.is_word and token.text not in BUILT_IN - {"_"} for token in group[:colon]):
            return None
        self.walk(group[colon + 1 :], inside)
        head = self.scope.look_up(group[colon + 1].text)
        tag = head if isinstance(head, Bounded) else None
        return {**inside, **{token.text: tag for token in group[:colon]}}

    def lambda_binders(self, tokens: list[Token], at: int, inside: Locals) -> tuple[Locals, int]:
        """Behind λ: the names up to the point."""
        while tokens[at].text != ".":
            if tokens[at].text in OPENING:
                end = closing(tokens, at)
                group = tokens[at + 1 : end]
                inside = self.binder(group, inside) or self.pattern(group, inside, set())
                at = end
            else:
                inside = {**inside, tokens[at].text: None}
            at += 1
        return inside, at + 1

    def let(self, tokens: list[Token], at: int, inside: Locals) -> tuple[Locals, int]:
        """Behind `let`: what it names is bound behind its `in`."""
        end, depth = at, 0
        while depth or tokens[end].text != "in":
            depth += {"let": 1, "in": -1}.get(tokens[end].text, 0)
            end = closing(tokens, end) + 1 if tokens[end].text in OPENING else end + 1
        part = tokens[at:end]
        equals = first_at_top(part, "=")
        colon = first_at_top(part[:equals], ":")
        bound = self.pattern(part[: colon if colon >= 0 else equals], inside, set())
        if colon >= 0:
            self.walk(part[colon + 1 : equals], inside)
        self.walk(part[equals + 1 :], bound)
        return bound, end + 1

    def record(self, tokens: list[Token], at: int, inside: Locals) -> int:
        """Behind `record`: an old record perhaps, and fields with their values."""
        if tokens[at].text == "(":
            end = closing(tokens, at)
            self.walk(tokens[at + 1 : end], inside)
            at = end + 1
        elif tokens[at].text != "{":
            names, at = chain_at(tokens, at)
            self.word(names, inside)
        end = closing(tokens, at)
        for part in split_at_top(tokens[at + 1 : end], ";"):
            equals = first_at_top(part, "=")
            self.walk(part[equals + 1 :], inside)
        return end + 1

    # ---- terms and types

    def walk(self, tokens: list[Token], inside: Locals) -> None:
        """A term or a type: what a binder binds holds to the end of its bracket."""
        outer, at = inside, 0
        while at < len(tokens):
            token = tokens[at]
            if token.text in OPENING:
                at, inside = self.group(tokens, at, inside)
            elif token.text == "λ":
                inside, at = self.lambda_binders(tokens, at + 1, inside)
            elif token.text == "let":
                inside, at = self.let(tokens, at + 1, inside)
            elif token.text == "record":
                at = self.record(tokens, at + 1, inside)
            elif token.text == "|":
                end = first_at_top(tokens, "↦", at)
                inside, at = self.pattern(tokens[at + 1 : end], outer, set()), end + 1
            elif token.text == "." and token.glued and at + 1 < len(tokens):
                at += 2  # a field of what stands before
            elif token.is_word:
                if at + 1 < len(tokens) and tokens[at + 1].text == "←":
                    inside, at = {**inside, token.text: None}, at + 2
                    continue
                names, at = chain_at(tokens, at)
                self.word(names, inside)
            else:
                inside = outer if token.text == "," else inside
                at += 1

    def group(self, tokens: list[Token], at: int, inside: Locals) -> tuple[int, Locals]:
        end = closing(tokens, at)
        inner = tokens[at + 1 : end]
        if tokens[at].text == "⟦" and self.instances is not None:
            names = [token.text for token in tokens[end + 2 : end + 3]]
            self.instances(self.uses, inner, names)
            return end + 3, inside
        if end + 1 < len(tokens) and tokens[end + 1].text == "←":
            return end + 2, self.pattern(inner, inside, set())
        bound = self.binder(inner, inside)
        if bound is None:
            self.walk(inner, inside)
        return end + 1, inside if bound is None else bound

    # ---- definitions

    def equations(self, parts: list[list[Token]], inside: Locals, own: set[str]) -> None:
        """Signatures and equations, each a run of tokens."""
        for part in parts:
            colon, equals = first_at_top(part, ":"), first_at_top(part, "=")
            if colon >= 0 and (equals < 0 or colon < equals):
                self.walk(part[colon + 1 :], inside)
            elif equals >= 0:
                bound = self.pattern(part[:equals], inside, own)
                where = first_at_top(part, "where", equals)
                body, rest = (part[equals + 1 :], []) if where < 0 else (part[equals + 1 : where], part[where + 1 :])
                helpers = chunks(rest)
                named = {helper[0].text for helper in helpers}
                bound = {**bound, **dict.fromkeys(named)}
                self.walk(body, bound)
                self.equations(helpers, bound, named)

    def telescope(self, tokens: list[Token], inside: Locals) -> Locals:
        """The parameters of a record, a data type or a module."""
        at = 0
        while at < len(tokens):
            end = closing(tokens, at)
            bound = self.binder(tokens[at + 1 : end], inside)
            inside, at = inside if bound is None else bound, end + 1
        return inside
