"""All sources of the project, and what each name in them stands for."""
from __future__ import annotations

import re
from dataclasses import dataclass
from pathlib import Path

from booklet_parts import rust, specs
from booklet_parts.definition import Bounded, Constructor, Context, Definition, Library, Namespace, Proof, Uses
from booklet_parts.rust import Exports, Item, Source
from booklet_parts.scopes import Scope, Walker
from booklet_parts.specs import Import, SpecModule
from booklet_parts.tokens import CLAUSE_TOKEN, tokens_of

TYPES = ("struct", "enum", "type", "const", "static")
PRELUDE = ("Option", "Some", "None", "Result", "Ok", "Err", "usize")  # what each source of the program has without `use`
MODEL = ("Value", "view", "invariant")  # what the model of a type states


@dataclass(frozen=True)
class Trait:
    crate: str
    module: str
    name: str


class External:
    """A name of the program that comes from no crate of the project."""


EXTERNAL = External()


def crates_in_order(text: str) -> list[str]:
    """The crates of crates.txt, each behind those that it uses, and else in the order of the file."""
    uses: dict[str, list[str]] = {}
    for line in text.split("\n"):
        if line.strip() and not line.startswith("#"):
            name, _, rest = line.partition(":")
            uses[name.strip()] = rest.split()
    order: list[str] = []
    while len(order) < len(uses):
        order.append(next(name for name in uses if name not in order and all(used in order or used not in uses for used in uses[name])))
    return order


def inside(module: str, name: str) -> str:
    """The path of the module of this name in a module."""
    return name if module in ("lib", "main") else f"{module}.{name}"


class Project:
    def __init__(self, root: Path) -> None:
        self.root = root
        self.crates = crates_in_order((root / "crates.txt").read_text(encoding="utf-8"))
        self.specs: dict[tuple[str, str], SpecModule] = {}
        self.sources: dict[tuple[str, str], Source] = {}
        self.types: dict[tuple[str, str, str], Definition] = {}
        self.ghosts: dict[tuple[Trait, str], Definition] = {}
        self.impl_ghosts: dict[tuple[tuple[str, int], Trait, str], Definition] = {}
        self.scopes: dict[str, Scope] = {}
        self.exports: dict[str, Exports] = {}
        for crate in self.crates:
            self.read(crate)
        for source in self.sources.values():
            self.declare(source)
        for source in self.sources.values():
            self.implement(source)

    # ---- reading

    def read(self, crate: str) -> None:
        folder = self.root / "crates" / crate
        for path in sorted((folder / "specs").rglob("*.antt")):
            name = ".".join(path.relative_to(folder / "specs").with_suffix("").parts)
            place = path.relative_to(self.root).as_posix()
            module = specs.read_module(crate, name, place, path.read_text(encoding="utf-8"))
            self.specs[crate, name] = module
            for made in module.definitions:
                made.resolve = lambda made, module=module: self.resolve_spec(made, module)
        texts: dict[str, str] = {}
        for path in sorted((folder / "src").rglob("*.rt")):
            place = path.relative_to(self.root).as_posix()
            module = ".".join(path.relative_to(folder / "src").with_suffix("").parts)
            texts[module] = path.read_text(encoding="utf-8")
            self.sources[crate, module] = rust.read_source(crate, module, place, texts[module])
        self.exports[crate] = rust.exports_of(texts)

    def declare(self, source: Source) -> None:
        """Makes definitions of the types of a source, and of the ghost members of its traits."""
        for item in source.items:
            if item.kind in TYPES and item.name not in ("_", ""):
                made = self.define(source, item, item.kind, ())
                made.resolve = lambda made, item=item, source=source: self.resolve_type(item, source)
                if item.kind == "enum":
                    inside = source.code[item.start : item.end]
                    made.constructors = {found.group(1) for line in inside if (found := re.match(r" {4}([A-Z]\w*)", line))}
                self.add_model(made, source, item)
                self.types[source.crate, source.module, item.name] = made
            if item.kind == "trait":
                head = Context(item.start, (source.lines[item.start].rstrip(),))
                for member in item.members:
                    if member.kind == "ghost":
                        made = self.define(source, member, "ghost", (head,))
                        made.resolve = lambda made, member=member, item=item, source=source: self.resolve_member(source, item, member)
                        self.ghosts[Trait(source.crate, source.module, item.name), member.name] = made

    def define(self, source: Source, item: Item, kind: str, context: tuple[Context, ...]) -> Definition:
        above = [line.rstrip() for line in source.lines[item.above : item.start] if line.strip().startswith("//")]
        inside = [line.rstrip() for line in source.lines[item.start : item.end]]
        text = [line for line in inside if line and not line.strip().startswith(("#[", "ghost use"))]
        return Definition(source.crate, source.path, item.start + 1, item.name, kind, above, text, context)

    def add_model(self, made: Definition, source: Source, item: Item) -> None:
        """What a value of the type stands for belongs to its declaration."""
        for impl in source.items:
            head = source.lines[impl.start]
            if impl.kind == "impl" and rust.trait_name(head) == "Model" and rust.public_name(head) == item.name:
                made.text += ["", head.rstrip()]
                for member in impl.members:
                    if member.name in MODEL:
                        made.text += [line.rstrip() for line in source.lines[member.above : member.end] if line.strip()]
                made.text.append("}")

    def implement(self, source: Source) -> None:
        """Makes definitions of what implementations say of the ghost members of their traits."""
        for item in source.items:
            head = source.lines[item.start].rstrip()
            if item.kind != "impl" or rust.trait_name(head) == "Model":
                continue
            of, trait = self.rust_name(source, rust.public_name(head)), self.rust_name(source, rust.trait_name(head))
            for member in item.members:
                if member.kind == "ghost" and isinstance(of, Definition):
                    made = self.define(source, member, "ghost", (Context(item.start, (head,)),))
                    made.resolve = lambda made, member=member, item=item, source=source: self.resolve_member(source, item, member)
                    key = trait if isinstance(trait, Trait) else Trait("", "", rust.trait_name(head))
                    self.impl_ghosts[of.key, key, member.name] = made

    # ---- names of the definitions' language

    def imported(self, one: Import) -> dict[str, object]:
        """What the names of an import stand for."""
        path = one.path.split(".")
        if path[0] != "Rattle" or path[1] not in self.crates:
            return {here: Library(f"{one.path}.{there}") for there, here in one.names}
        if path[2] == "proofs":
            return {here: Proof(f"{one.path}.{there}") for there, here in one.names}
        if path[3] in ("declared", "contracts"):
            return self.declared(path, one)
        module = self.specs.get((path[1], ".".join(path[3:])))
        if module is None:
            return {}
        names = self.module_names(module)
        if one.alias:
            return {one.alias: Namespace(names.get)}
        return {here: names[there] for there, here in one.names if there in names}

    def declared(self, path: list[str], one: Import) -> dict[str, object]:
        """Names of a type of the program, of its variants, of its constants, or of a trait."""
        crate = path[1]
        # a module may stand in another: the longest path that is one
        end = next((end for end in range(len(path) - 1, 4, -1) if (crate, ".".join(path[4:end])) in self.sources), 5)
        module, name = ".".join(path[4:end]), path[end]
        if any(there == "Ghosts" for there, _ in one.names):
            return {here: Bounded((Trait(crate, module, name),)) for _, here in one.names}
        if name == "TheConstants":
            return {here: self.types[crate, module, there] for there, here in one.names if (crate, module, there) in self.types}
        made = self.types.get((crate, module, name))
        if made is None:
            return {}
        if path[end + 1 :] == ["TheVariants"]:
            variants = {word: Constructor((made,), word) for word in made.constructors}
            if one.alias:
                return {one.alias: Namespace(variants.get)}
            return {here: variants[there] for there, here in one.names if there in variants}
        return {here: made for _, here in one.names}

    def module_names(self, module: SpecModule) -> dict[str, object]:
        names: dict[str, object] = {}
        for made in module.definitions:
            for word in made.constructors:
                before = names.get(word)
                names[word] = Constructor((*(before.definitions if isinstance(before, Constructor) else ()), made), word)
        names.update({made.name: made for made in module.definitions})
        return names

    def spec_scope(self, module: SpecModule) -> Scope:
        if module.path not in self.scopes:
            names: dict[str, object] = {}
            for one in module.imports:
                names.update(self.imported(one))
            names.update(self.module_names(module))
            self.scopes[module.path] = Scope(names)
        return self.scopes[module.path]

    def resolve_spec(self, made: Definition, module: SpecModule) -> Uses:
        walker = Walker(self.spec_scope(module), self.ghost_of)
        specs.walk_definition(made, walker)
        walker.uses.definitions.pop(made.key, None)
        return walker.uses

    # ---- names of the program

    def rust_name(self, source: Source, name: str, seen: tuple[str, ...] = ()) -> object:
        """What a name in a source of the program stands for."""
        if (source.crate, source.module, name) in self.types:
            return self.types[source.crate, source.module, name]
        if any(item.kind == "trait" and item.name == name for item in source.items):
            return Trait(source.crate, source.module, name)
        path = source.names.get(name)
        step = f"{source.path}:{name}"
        if path is None or step in seen:
            return EXTERNAL
        return self.rust_path(source, path, seen + (step,))

    def rust_path(self, source: Source, path: list[str], seen: tuple[str, ...] = ()) -> object:
        crate, module, rest = source.crate, source.module, path
        if path[0] == "crate":
            module, rest = "lib", path[1:]
        elif path[0] == "super":
            module, rest = module.rpartition(".")[0] or "lib", path[1:]
        elif path[0] == "self":
            rest = path[1:]
        elif (crate, inside(module, path[0])) in self.sources and len(path) > 1:
            pass  # a module of this one, even where a crate has the same name
        elif path[0] in self.crates:
            crate, module, rest = path[0], "lib" if (path[0], "lib") in self.sources else "main", path[1:]
        else:
            return EXTERNAL
        while len(rest) > 1 and (crate, inside(module, rest[0])) in self.sources:
            module, rest = inside(module, rest[0]), rest[1:]
        found = self.sources.get((crate, module))
        return self.rust_name(found, rest[0], seen) if found is not None and rest else EXTERNAL

    def types_in(self, source: Source, text: str) -> Uses:
        """The types of the project that a text of the program names."""
        uses = Uses()
        for match in re.finditer(r"[A-Za-z_]\w*(?:::[A-Za-z_]\w*)*", text):
            path = match.group().split("::")
            target = self.rust_name(source, path[0])
            if target is EXTERNAL and len(path) > 1:
                target = self.rust_path(source, path)
            if isinstance(target, Definition) and (path[-1][0].isupper() or len(path) > 1):
                uses.add(target)
        return uses

    def member_of(self, trait: Trait, name: str) -> Definition | None:
        """The ghost member of a trait or of one that it extends."""
        if (trait, name) in self.ghosts:
            return self.ghosts[trait, name]
        return next((found for above in self.above(trait) if (found := self.member_of(above, name))), None)

    def item_of(self, trait: Trait) -> tuple[Source, Item]:
        source = self.sources[trait.crate, trait.module]
        return source, next(item for item in source.items if item.kind == "trait" and item.name == trait.name)

    def traits_named(self, source: Source, text: str) -> tuple[Trait, ...]:
        found = (self.rust_name(source, word) for word in re.findall(r"[A-Za-z]\w*", text))
        return tuple(one for one in found if isinstance(one, Trait))

    def above(self, trait: Trait) -> tuple[Trait, ...]:
        source, item = self.item_of(trait)
        return self.traits_named(source, source.code[item.start].partition(":")[2])

    def ghost_of(self, target: Bounded, names: list[str]) -> Definition | None | bool:
        """The ghost member that `F.stores` or `F.Device.disk` names; True for a type alone, or a member from the toolchain's library."""
        for trait in target.traits:
            if trait is EXTERNAL:
                return True
            found = self.member_of(trait, names[0])
            if found is not None:
                return found
            for one in (trait, *self.above(trait)):
                source, item = self.item_of(one)
                for member in item.members:
                    if member.kind == "type" and member.name == names[0]:
                        bounds = self.traits_named(source, source.code[member.start].partition(":")[2])
                        return self.ghost_of(Bounded(bounds), names[1:]) if len(names) > 1 else True
        return None

    # ---- what is stated in the program

    def clause_scope(self, source: Source, item: Item | None, heads: list[str]) -> Scope:
        """What names stand for in a clause: by the file, by what it stands in, and by type variables."""
        outer: dict[str, object] = {word: Library(f"Rattle.core.{word}") for word in PRELUDE}
        for word in [*source.names, *(one.name for one in source.items if one.kind in TYPES or one.kind == "trait")]:
            outer[word] = self.rust_name(source, word)
        for one in source.imports:
            outer.update(self.imported(one))
        inner: dict[str, object] = {}
        if item is not None:
            for one in item.imports:
                inner.update(self.imported(one))
            if item.kind == "trait":
                own = Trait(source.crate, source.module, item.name)
                inner.update({member.name: self.ghosts[own, member.name] for member in item.members if member.kind == "ghost"})
                inner["Self"] = Bounded((own,))
            elif item.kind == "impl":
                inner["Self"] = self.rust_name(source, rust.public_name(source.lines[item.start]))
        for head in heads:
            for name, traits in rust.bounds_of(head).items():
                bound = [self.rust_name(source, trait) for trait in traits]
                own = [one for one in bound if isinstance(one, Trait)]
                inner[name] = Bounded((*own, *(one for one in bound if one is EXTERNAL)))
        return Scope(inner, Scope(outer))

    def clause_walker(self, source: Source, item: Item | None, heads: list[str]) -> Walker:
        scope = self.clause_scope(source, item, heads)
        return Walker(scope, self.ghost_of, lambda uses, inner, names: self.instance(source, uses, inner, names))

    def instance(self, source: Source, uses: Uses, inner: list, names: list[str]) -> None:
        """`⟦<Type as Trait>⟧.member`: the member, and what the implementation says of it."""
        text = " ".join(token.text for token in inner)
        match = re.match(r"<\s*(\w+).*\bas\s+(\w+)", text)
        of, trait = (self.rust_name(source, word) for word in match.groups()) if match else (None, None)
        member = self.member_of(trait, names[0]) if isinstance(trait, Trait) and names else None
        if not isinstance(of, Definition) or member is None:
            uses.unknown.add(f"⟦{text}⟧." + ".".join(names))
            return
        uses.add(of)
        uses.add(member)
        for one in (trait, *self.above(trait)):
            if (of.key, one, names[0]) in self.impl_ghosts:
                uses.add(self.impl_ghosts[of.key, one, names[0]])

    def resolve_member(self, source: Source, item: Item, member: Item) -> Uses:
        """A ghost member of a trait, a struct or an implementation."""
        walker = self.clause_walker(source, item, [source.code[item.start]])
        text = "\n".join(source.lines[member.start : member.end])
        brace = text.index("{")
        end = rust.balanced(text, brace) - 1
        tokens = tokens_of(text[brace + 1 : end], member.start, CLAUSE_TOKEN)
        fields = re.findall(r"^\s*(?:pub(?:\([a-z]+\))?\s+)?(?:ghost\s+)?(\w+):", "\n".join(source.code[item.start : item.end]), re.M)
        walker.walk(tokens, dict.fromkeys(fields) if item.kind == "struct" else {})
        return walker.uses

    def resolve_type(self, item: Item, source: Source) -> Uses:
        """A type of the program: its fields, its invariants, and what a value of it stands for."""
        ghosts = [member for member in item.members if member.kind == "ghost"]
        hidden = {line for member in ghosts for line in range(member.start, member.end)}
        lines = [source.code[at] for at in range(item.start, item.end) if at not in hidden and not source.code[at].strip().startswith("#[")]
        if item.kind == "enum":
            lines = [re.sub(r"^ {4}[A-Z]\w*", "", line) for line in lines]
        uses = self.types_in(source, "\n".join(lines))
        for member in ghosts:
            uses.merge(self.resolve_member(source, item, member))
        for impl in source.items:
            head = source.lines[impl.start]
            if impl.kind == "impl" and rust.trait_name(head) == "Model" and rust.public_name(head) == item.name:
                for member in impl.members:
                    if member.name in MODEL:
                        uses.merge(self.resolve_member(source, impl, member))
        own = self.types[source.crate, source.module, item.name]
        uses.definitions.pop(own.key, None)
        return uses
