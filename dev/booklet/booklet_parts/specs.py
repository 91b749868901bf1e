"""Reading a file of definitions: what it imports, and the definitions in it."""
from __future__ import annotations

import re
from dataclasses import dataclass, field

from booklet_parts.definition import Context, Definition
from booklet_parts.scopes import Walker
from booklet_parts.tokens import SPEC_TOKEN, chunks, first_at_top, tokens_of

IMPORT = re.compile(r"\buse\s+([\w.-]+)(?:\.\{([^}]*)\}|\s+as\s+(\S+?)|())\s*;?\s*$")
SIGNATURE = re.compile(r"\s*((?:abbrev|unfoldable|opaque)\s+)?(pub\s+)?(\S+)\s+:(?:\s|$)")
TYPE = re.compile(r"\s*(pub\s+)?(record|data)\s+(\S+)")
BLOCK = re.compile(r"\s*(module\b|mutual$|(abbrev|unfoldable)\s+mutual$)")


@dataclass(frozen=True)
class Import:
    path: str  # `Rattle.CRATE.specs.Module`
    names: tuple[tuple[str, str], ...]  # the name there, and the name here
    alias: str  # of the whole module, where it is imported under a name


@dataclass
class SpecModule:
    crate: str
    name: str  # `Held`, or `aid.Ready`
    path: str
    imports: list[Import] = field(default_factory=list)
    definitions: list[Definition] = field(default_factory=list)


def import_of(line: str) -> Import | None:
    """The import on this line, if there is one."""
    match = IMPORT.search(line)
    if match is None:
        return None
    path, names, alias = match.group(1), match.group(2), match.group(3)
    pairs = []
    for name in (names or "").split(","):
        words = name.split()
        if words:
            pairs.append((words[0], words[-1]))
    return Import(path, tuple(pairs), alias or "")


def indent_of(line: str) -> int:
    return len(line) - len(line.lstrip())


class Reader:
    """Cuts the lines of a file into definitions."""

    def __init__(self, module: SpecModule, lines: list[str]) -> None:
        self.module = module
        self.lines = lines

    def block(self, start: int, end: int, indent: int, context: tuple[Context, ...]) -> None:
        """The definitions on these lines, whose first lines have this indent."""
        at, comment = start, start
        while at < end:
            line = self.lines[at]
            if not line.strip():
                at, comment = at + 1, at + 1
            elif line.lstrip().startswith("--"):
                at += 1
            elif line.lstrip().startswith(("use ", "pub mod ", "pub use ")):
                found = import_of(line)
                if found is not None:
                    self.module.imports.append(found)
                at, comment = at + 1, at + 1
            else:
                at = comment = self.item(comment, at, end, indent, context)

    def item(self, comment: int, at: int, end: int, indent: int, context: tuple[Context, ...]) -> int:
        """One definition, or one block of them; the line behind it."""
        line = self.lines[at]
        if BLOCK.match(line):
            head = at
            while not re.search(r"(where|mutual)$", self.lines[head].rstrip()):
                head += 1
            behind = self.deeper(head + 1, end, indent)
            body = next(self.lines[n] for n in range(head + 1, behind) if self.lines[n].strip())
            above = Context(at, tuple(text.rstrip() for text in self.lines[comment : head + 1]))
            self.block(head + 1, behind, indent_of(body), context + (above,))
            return behind
        first = at
        if line.lstrip().startswith("infix"):
            at += 1
        match = TYPE.match(self.lines[at])
        if match:
            behind = self.deeper(at + 1, end, indent)
            self.add(comment, first, behind, match.group(3), match.group(2), context)
            return behind
        match = SIGNATURE.match(self.lines[at])
        if match is None:
            raise ValueError(f"{self.module.path}:{at + 1}: this line begins no definition: {line.strip()}")
        behind = self.deeper(at + 1, end, indent)
        while self.is_equation(behind, end, indent, match.group(3)):
            while self.lines[behind].lstrip().startswith(("--", "unfolding ")):
                behind += 1
            behind = self.deeper(behind + 1, end, indent)
        kind = (match.group(1) or "function").strip()
        self.add(comment, first, behind, match.group(3), kind, context)
        return behind

    def deeper(self, at: int, end: int, indent: int) -> int:
        """Behind the lines from here on that stand deeper."""
        last = at
        while at < end:
            if self.lines[at].strip():
                if indent_of(self.lines[at]) <= indent and not self.lines[at].lstrip().startswith(("}", ")", "]")):
                    break
                last = at + 1
            at += 1
        return last

    def is_equation(self, at: int, end: int, indent: int, name: str) -> bool:
        """Whether an equation of this name comes next; a comment may stand before it."""
        while at < end and self.lines[at].lstrip().startswith(("--", "unfolding ")):
            at += 1
        if at >= end or indent_of(self.lines[at]) != indent or SIGNATURE.match(self.lines[at]) or TYPE.match(self.lines[at]):
            return False
        words = self.lines[at].split()
        return bool(words) and (words[0] == name or "◌" in name and any(part in words for part in name.split("◌") if part))

    def add(self, comment: int, first: int, end: int, name: str, kind: str, context: tuple[Context, ...]) -> None:
        above = [line.rstrip() for line in self.lines[comment:first]]
        text = [line.rstrip() for line in self.lines[first:end]]
        made = Definition(self.module.crate, self.module.path, first + 1, name, kind, above, text, context)
        if kind == "data":
            made.constructors = {part[0].text for part in parts_of(made)[1:]}
        self.module.definitions.append(made)


def read_module(crate: str, name: str, path: str, text: str) -> SpecModule:
    module = SpecModule(crate, name, path)
    lines = text.split("\n")
    Reader(module, lines).block(0, len(lines), 0, ())
    return module


def parts_of(made: Definition) -> list[list]:
    """The tokens of a definition: its head, and then its fields, constructors or equations."""
    tokens = tokens_of("\n".join(made.text), made.line - 1, SPEC_TOKEN)
    if made.kind not in ("record", "data"):
        return chunks([token for token in tokens])
    where = first_at_top(tokens, "where")
    head, body = (tokens, []) if where < 0 else (tokens[:where], tokens[where + 1 :])
    return [head] + [[token for token in part if token.text != "pub"] for part in chunks(body)]


def walk_definition(made: Definition, walker: Walker) -> None:
    """Goes through all of a definition, and through the parameters that stand above it."""
    inside: dict[str, object] = {}
    for above in made.context:
        tokens = tokens_of("\n".join(above.text), 0, SPEC_TOKEN)
        if tokens[0].text == "module":
            inside = walker.telescope(tokens[2 : first_at_top(tokens, "where")], inside)
    parts = parts_of(made)
    if made.kind not in ("record", "data"):
        parts = [part for part in parts if not part[0].text.startswith(("infix", "unfolding"))]
        own = {made.name} | {part for part in made.name.split("◌") if part and "◌" in made.name}
        walker.equations(parts, inside, own)
        return
    head = parts[0]
    start = next(index for index, token in enumerate(head) if token.text == made.name) + 1
    colon = first_at_top(head, ":", start)
    inside = walker.telescope(head[start:colon], inside)
    walker.walk(head[colon + 1 :], inside)
    for part in parts[1:]:
        colon = first_at_top(part, ":")
        walker.walk(part[colon + 1 :], inside)
        if made.kind == "record":
            inside = {**inside, **{token.text: None for token in part[:colon]}}
