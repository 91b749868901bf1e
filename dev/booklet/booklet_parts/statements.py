"""What is stated in public: the contracts of functions, found by their names."""
from __future__ import annotations

import re
from dataclasses import dataclass
from pathlib import Path

from booklet_parts import rust
from booklet_parts.definition import Definition, Uses
from booklet_parts.project import Project, Trait
from booklet_parts.rust import Item, Source
from booklet_parts.tokens import CLAUSE_TOKEN, tokens_of


class Unfound(Exception):
    """A name that nothing in the project has."""


@dataclass
class Statement:
    """A function with its contract, as it stands in a source of the program."""

    source: Source
    around: Item | None  # the implementation or the trait that it stands in
    item: Item

    @property
    def place(self) -> str:
        return f"{self.source.path}:{self.item.start + 1}"

    @property
    def above(self) -> str:
        return "" if self.around is None else self.source.lines[self.around.start].rstrip()

    @property
    def is_provided(self) -> bool:
        """Whether it is a function of a trait that has a body there."""
        return self.around is not None and self.around.kind == "trait" and self.source.code[self.item.end - 1].rstrip().endswith("}")

    @property
    def text(self) -> list[str]:
        """The doc comment, the head and the clauses."""
        signature = rust.signature_of(self.source, self.item)
        lines = self.source.lines[self.item.above : signature.end]
        last = len(self.source.code[signature.end - 1].rstrip())
        if lines[-1][:last].endswith(" {") and not signature.clauses:
            lines = [*lines[:-1], lines[-1][: last - 2]]
        return [line.rstrip() for line in lines if not line.strip().startswith("#[")]

    def uses(self, project: Project) -> Uses:
        """What the clauses use, and the types that the head names; that of the result only where a clause speaks of the result."""
        signature = rust.signature_of(self.source, self.item)
        speaks_of_result = any(re.search(r"\bresult\b", text) for text, _ in signature.clauses)
        head = signature.head if speaks_of_result else signature.head.rpartition("->")[0] or signature.head
        heads = [head] if self.around is None else [self.source.code[self.around.start], head]
        walker = project.clause_walker(self.source, self.around, heads)
        for text, line in signature.clauses:
            walker.walk(tokens_of(text, line, CLAUSE_TOKEN), dict.fromkeys(signature.parameters))
        for head in heads:
            walker.uses.merge(project.types_in(self.source, head))
        walker.uses.unexplained_in(self.place)
        return walker.uses


def functions_of(source: Source) -> list[Statement]:
    """All functions of a source, those of implementations and traits too."""
    found = [Statement(source, None, item) for item in source.items if item.kind == "fn"]
    for item in source.items:
        if item.kind in ("impl", "trait"):
            found += [Statement(source, item, member) for member in item.members if member.kind == "fn"]
    return found


def is_public(statement: Statement) -> bool:
    around = statement.around
    return around.is_public if around is not None and around.kind == "trait" else statement.item.is_public


def module_of(path: str) -> str:
    """The module of this source."""
    return ".".join(Path(path).with_suffix("").parts[3:])


def is_exported(project: Project, statement: Statement) -> bool:
    """Whether another crate can call it: by a public module, or by a name, its own or its type's, that the crate hands on."""
    source, around = statement.source, statement.around
    exports = project.exports[source.crate]
    if around is None:
        return statement.item.is_public and exports.has(source.module, statement.item.name)
    if around.kind == "trait":
        return around.is_public and exports.has(source.module, around.name)
    head = source.lines[around.start]
    of = project.rust_name(source, rust.public_name(head))
    in_module = module_of(of.path) if isinstance(of, Definition) else source.module
    return exports.has(in_module, rust.public_name(head)) and (statement.item.is_public or rust.trait_name(head) != "")


def owner(statement: Statement) -> str:
    """The type or the trait that a function is of."""
    if statement.around is None:
        return ""
    if statement.around.kind == "trait":
        return statement.around.name
    return rust.public_name(statement.above)


def statements_named(project: Project, name: str) -> list[Statement]:
    """The functions that `CRATE::MODULE::FN`, `CRATE::TYPE::METHOD` or `CRATE::TYPE` names."""
    crate, *rest = name.split("::")
    if crate not in project.crates or not 1 <= len(rest) <= 2:
        raise Unfound(f"{name} is no name: CRATE::MODULE::FN, CRATE::TYPE::METHOD or CRATE::TYPE is wanted, with a crate of crates.txt")
    every = [one for key, source in sorted(project.sources.items()) if key[0] == crate for one in functions_of(source)]
    public = [one for one in every if is_public(one)]
    if len(rest) == 2:
        found = [one for one in public if one.item.name == rest[1] and rest[0] == (owner(one) or one.source.module)]
    else:
        found = [one for one in public if owner(one) == rest[0]] or [one for one in public if not owner(one) and one.item.name == rest[0]]
    if not found:
        raise Unfound(f"no public function is {name}")
    return found


def public_uses(project: Project, crate: str) -> Uses:
    """What the contracts of a crate use which other crates see: of functions, traits, types with their invariants, and implementations."""
    uses = Uses()
    for (of, _), source in sorted(project.sources.items()):
        if of != crate:
            continue
        for statement in functions_of(source):
            if is_exported(project, statement):
                uses.merge(statement.uses(project))
        for item in source.items:
            if item.kind in ("struct", "enum", "type") and item.is_public and project.exports[crate].has(source.module, item.name):
                uses.add(project.types[source.crate, source.module, item.name])
            for member in item.members:
                if member.kind == "ghost" and is_stated(project, source, item, member):
                    uses.merge(project.resolve_member(source, item, member))
    return uses


def is_stated(project: Project, source: Source, item: Item, member: Item) -> bool:
    """Whether a ghost member says something to readers: one of a public trait does, and one of an implementation where it says what
    something is; what it proves of a law of its trait is no statement."""
    if item.kind != "impl":
        return item.kind == "trait" and item.is_public
    trait = project.rust_name(source, rust.trait_name(source.lines[item.start]))
    if not isinstance(trait, Trait):
        return True
    declared = next((found for one in (trait, *project.above(trait)) if (found := project.ghosts.get((one, member.name)))), None)
    return declared is None or not is_law(declared)


def is_law(declared: Definition) -> bool:
    """A ghost member that is a law begins with what it holds for: `{ (image : Image) → ... }`."""
    return "".join(declared.text).split("{", 1)[1].lstrip().startswith("(") and "→ Type 0 }" not in declared.text[-1]
