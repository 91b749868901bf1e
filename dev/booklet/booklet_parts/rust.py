"""Reading a source file of the program: its types, traits, functions, and what is stated of them."""
from __future__ import annotations

import re
from dataclasses import dataclass, field

from booklet_parts.specs import Import, import_of, indent_of

NOISE = re.compile(r'//[^\n]*|b?r#+".*?"#+|b?"(?:[^"\\]|\\.)*"|b?\'(?:[^\'\\\n]|\\[^\n]{1,8}?)\'', re.S)
ITEM = re.compile(
    r"(?P<public>pub(?P<part>\([a-z]+\))?\s+)?(?:unsafe\s+|const\s+(?=fn))*"
    r"(?P<kind>ghost use|ghost|struct|enum|trait|impl|type|const|static|fn|mod|use)\b\s*(?P<name>\w*)"
)
CLAUSE = re.compile(r"\s*(requires|ensures)\b\s*(\w*)\s*\{")


@dataclass
class Item:
    """Something that the program declares: its lines, and what it is."""

    kind: str
    name: str
    is_public: bool
    above: int  # the line of its doc comment
    start: int
    end: int
    members: list["Item"] = field(default_factory=list)
    imports: list[Import] = field(default_factory=list)


@dataclass
class Source:
    crate: str
    module: str  # the name of the file
    path: str
    lines: list[str]
    code: list[str]  # the same lines without comments and the insides of strings
    items: list[Item]
    imports: list[Import]
    names: dict[str, list[str]]  # what `use` names here: the path of each


@dataclass
class Exports:
    """What other crates see of a crate: its public modules, and names of the others that it hands on."""

    modules: set[str]
    names: set[tuple[str, str]]  # the module and the name

    def has(self, module: str, name: str) -> bool:
        return module in self.modules or (module, name) in self.names


def exports_of(texts: dict[str, str]) -> Exports:
    """What the sources of a crate hand on, each by the path of its module."""
    modules, names = {"lib", "main"}, set()
    for module in sorted(texts, key=lambda module: (module not in ("lib", "main"), module.count("."), module)):
        if module not in modules:
            continue
        before = "" if module in ("lib", "main") else f"{module}."
        modules |= {before + name for name in re.findall(r"^pub mod (\w+);", texts[module], re.M)}
        for path, name, group in re.findall(r"^pub use ([\w:]+)::(?:(\w+)|\{([^}]*)\});", texts[module], re.M):
            handed = [name] if name else [part.split(" as ")[0].strip() for part in group.split(",")]
            names |= {(before + path.removeprefix("crate::").replace("::", "."), one) for one in handed}
    return Exports(modules, names)


def blank(match: re.Match[str]) -> str:
    return re.sub(r"[^\n]", " ", match.group())


def items_in(lines: list[str], code: list[str], start: int, end: int, indent: int) -> list[Item]:
    """The items on these lines whose first lines have this indent."""
    found: list[Item] = []
    above, at = -1, start
    while at < end:
        text = lines[at].strip()
        if not text or text.startswith("//!"):
            above, at = -1, at + 1
        elif text.startswith(("//", "#[", "#![")):
            above = at if above < 0 else above
            at = attribute_end(code, at)
        else:
            behind = item_end(lines, code, at, end, indent)
            match = ITEM.match(code[at].strip())
            if match:
                public = bool(match.group("public")) and not match.group("part")
                found.append(Item(match.group("kind"), match.group("name"), public, at if above < 0 else above, at, behind))
            above, at = -1, behind
    return found


def attribute_end(code: list[str], at: int) -> int:
    depth = 0
    while True:
        depth += code[at].count("[") - code[at].count("]")
        at += 1
        if depth <= 0:
            return at


def item_end(lines: list[str], code: list[str], at: int, end: int, indent: int) -> int:
    """Behind the item that begins on this line. No comma ends a function: its bounds may stand below it, behind `where`."""
    depth = 0
    ends = (";",) if re.match(r"\s*(pub(\([a-z]+\))?\s+)?(const\s+)?fn\b", code[at]) else (";", ",")
    while at < end:
        text = code[at].rstrip()
        depth += sum(text.count(sign) for sign in "({[") - sum(text.count(sign) for sign in ")}]")
        closes = text.endswith(ends) or (indent_of(lines[at]) == indent and text.endswith("}"))
        at += 1
        if depth <= 0 and closes:
            break
    return at


def read_source(crate: str, module: str, path: str, text: str) -> Source:
    lines = text.split("\n")
    code = NOISE.sub(blank, text).split("\n")
    items = items_in(lines, code, 0, len(lines), 0)
    for item in items:
        if item.kind in ("impl", "trait", "struct", "enum") and item.end - item.start > 1:
            item.members = items_in(lines, code, first_inside(code, item), item.end - 1, 4)
            item.imports = imports_of(lines, [member for member in item.members if member.kind == "ghost use"])
    names: dict[str, list[str]] = {}
    for item in items:
        if item.kind == "use":
            tree = " ".join(code[item.start : item.end])
            spread(re.sub(r"^\s*(pub(\([a-z]+\))?\s+)?use\s+|;\s*$", "", tree).strip(), [], names)
    ghost_uses = [item for item in items if item.kind == "ghost use"]
    return Source(crate, module, path, lines, code, items, imports_of(lines, ghost_uses), names)


def first_inside(code: list[str], item: Item) -> int:
    """The line behind the one that opens the item's body."""
    at = item.start
    while not code[at].rstrip().endswith("{"):
        at += 1
    return at + 1


def imports_of(lines: list[str], items: list[Item]) -> list[Import]:
    found = [import_of(" ".join(line.strip() for line in lines[item.start : item.end])) for item in items]
    return [one for one in found if one is not None]


def spread(tree: str, before: list[str], names: dict[str, list[str]]) -> None:
    """The names that the tree of a `use` brings, as in `a::{b, c::d as e}`."""
    tree = tree.strip()
    match = re.fullmatch(r"(.*?)(?:::)?\{(.*)\}", tree, re.S)
    if match:
        path = before + [part for part in match.group(1).split("::") if part]
        depth, part = 0, ""
        for sign in match.group(2) + ",":
            depth += {"{": 1, "}": -1}.get(sign, 0)
            if sign == "," and depth == 0:
                if part.strip():
                    spread(part, path, names)
                part = ""
            else:
                part += sign
        return
    words = tree.split(" as ")
    path = before + [part.strip() for part in words[0].split("::")]
    if path[-1] == "self":
        path.pop()
    names[words[-1].strip() if len(words) > 1 else path[-1]] = path


# ---- functions


@dataclass
class Signature:
    """A function up to its body."""

    head: str
    clauses: list[tuple[str, int]]  # the text in the braces, and its line
    end: int  # the line behind the last one that states something
    parameters: list[str]


def balanced(text: str, at: int, pair: str = "{}") -> int:
    """Behind the bracket that opens at this place."""
    depth = 0
    while True:
        depth += {pair[0]: 1, pair[1]: -1}.get(text[at], 0)
        at += 1
        if depth == 0:
            return at


def signature_of(source: Source, item: Item) -> Signature:
    code = "\n".join(source.code[item.start : item.end])
    full = "\n".join(source.lines[item.start : item.end])
    clauses: list[tuple[str, int]] = []
    at = head_end = end_of_head(code)
    last = len(code[:at].rstrip())
    while found := CLAUSE.match(code, at):
        brace = found.end() - 1
        at = balanced(code, brace)
        clauses.append((full[brace + 1 : at - 1], item.start + full[: brace + 1].count("\n")))
        last = at
    head = code[:head_end]
    return Signature(head, clauses, item.start + code[:last].count("\n") + 1, parameters_of(head))


def end_of_head(code: str) -> int:
    """Where the first clause, the body or the semicolon of a function stands."""
    for match in re.finditer(r"[(\[]|[{;]|\b(?:requires|ensures)\b", code):
        if match.group() in "([":
            continue
        before = code[: match.start()]
        if before.count("(") == before.count(")") and before.count("[") == before.count("]"):
            return match.start()
    return len(code)


def parameters_of(head: str) -> list[str]:
    """The names of what a function takes, and of what it gives."""
    name = re.search(r"\bfn\s+\w+\s*", head).end()
    at = balanced_angles(head, name) if head[name] == "<" else name
    inside = head[at + 1 : balanced(head, at, "()") - 1]
    return re.findall(r"(?:^|[,(])\s*(?:mut\s+)?([a-z_]\w*)\s*(?=:(?!:)|,)", inside) + ["self", "result"]


def balanced_angles(text: str, at: int) -> int:
    """Behind the angle bracket that opens at this place; an arrow is none."""
    depth = 0
    while True:
        if text[at] == "<":
            depth += 1
        elif text[at] == ">" and text[at - 1] not in "-=":
            depth -= 1
        at += 1
        if depth == 0:
            return at


def bounds_of(head: str) -> dict[str, list[str]]:
    """The variables of a head, a type with the traits that bind it, a constant with none: `<F: GameFile, const LAYOUT: u32>`."""
    found: dict[str, list[str]] = {}
    match = re.match(r"\s*(?:pub(?:\([a-z]+\))?\s+)?(?:impl|(?:const\s+)?(?:struct|enum|trait|type|fn)\s+\w+)\s*<", head)
    if not match:
        return found
    inside = head[match.end() : balanced_angles(head, match.end() - 1) - 1]
    depth, part = 0, ""
    for sign in inside + ",":
        depth += {"<": 1, ">": -1, "(": 1, ")": -1}.get(sign, 0)
        if sign == "," and depth <= 0:
            name, _, traits = part.partition(":")
            is_constant, name = name.strip().startswith("const "), name.strip().removeprefix("const ").strip()
            if re.fullmatch(r"[A-Z]\w*", name):
                found[name] = [] if is_constant else [re.sub(r"<.*", "", one).strip() for one in traits.split("+") if one.strip()]
            part = ""
        else:
            part += sign
    return found


def public_name(line: str) -> str:
    """The type that an `impl` is of: `impl<F: GameFile> Table for FileSolver<F> {` gives `FileSolver`."""
    rest = line.strip()[len("impl") :]
    if rest.startswith("<"):
        rest = rest[balanced_angles(rest, 0) :]
    target = rest.split(" for ")[-1]
    return re.match(r"\s*&?(?:'\w+\s+)?\[?(?:\w+::)*(\w+)", target).group(1)


def trait_name(line: str) -> str:
    """The trait that an `impl` is of; empty where it is none."""
    rest = line.strip()[len("impl") :]
    if rest.startswith("<"):
        rest = rest[balanced_angles(rest, 0) :]
    parts = rest.split(" for ")
    return re.match(r"\s*(?:\w+::)*(\w+)", parts[0]).group(1) if len(parts) > 1 else ""
