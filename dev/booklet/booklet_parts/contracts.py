"""The clauses of the calls that crates offer, and what two states of the sources differ by in them."""
from __future__ import annotations

import re
from collections import Counter
from dataclasses import dataclass, field

from booklet_parts import rust
from booklet_parts.definition import Definition, Uses
from booklet_parts.order import reached
from booklet_parts.project import Project
from booklet_parts.statements import Statement, functions_of, is_exported, is_stated, owner

CLAUSE = re.compile(r"^\s*(requires|ensures)\s+(?:(\w+)\s+)?\{", re.M)


@dataclass(frozen=True)
class Clause:
    """What a call asks or promises, or a ghost member of a trait: its kind, its name, if it has one, and its words."""

    kind: str
    name: str
    text: str

    @property
    def head(self) -> str:
        return f"{self.kind} {self.name}".strip()


@dataclass
class Call:
    """A call, or what a trait says beside its calls, with its clauses and all that these use."""

    clauses: list[Clause]
    uses: Uses


@dataclass
class Difference:
    """What has become of the clauses of a call: how many are the same, those that are gone, those that are new, and those whose words
    have changed or whose name has, each as it was and as it is."""

    same: int = 0
    gone: list[Clause] = field(default_factory=list)
    new: list[Clause] = field(default_factory=list)
    changed: list[tuple[Clause, Clause]] = field(default_factory=list)
    renamed: list[tuple[Clause, Clause]] = field(default_factory=list)

    @property
    def is_none(self) -> bool:
        return not (self.gone or self.new or self.changed or self.renamed)


def words_of(text: str) -> str:
    """A text on one line, without the comments of its own."""
    return " ".join(re.sub(r"//.*", "", text).split())


def clauses_of(statement: Statement) -> list[Clause]:
    text = "\n".join(statement.text)
    found = []
    for match in CLAUSE.finditer(text):
        end = rust.balanced(text, match.end() - 1)
        found.append(Clause(match[1], match[2] or "", words_of(text[match.end() : end - 1])))
    return found


def calls_of(project: Project, crate: str) -> dict[str, Call]:
    """The calls that a crate offers, by the names of their modules or types and their own; what an implementation of a trait says anew
    stands under its type. The ghost members of a trait stand together under its name."""
    found: dict[str, Call] = {}
    for (of, _), source in sorted(project.sources.items()):
        if of != crate:
            continue
        for statement in functions_of(source):
            clauses = clauses_of(statement)
            if is_exported(project, statement) and (clauses or not is_of_a_trait(statement)):
                whose = owner(statement) or source.module
                found["::".join(part for part in (whose, statement.item.name) if part != "lib")] = Call(clauses, statement.uses(project))
        for item in source.items:
            ghosts = [member for member in item.members if member.kind == "ghost" and is_stated(project, source, item, member)]
            if item.kind == "trait" and ghosts and project.exports[crate].has(source.module, item.name):
                uses = Uses()
                for member in ghosts:
                    uses.merge(project.resolve_member(source, item, member))
                texts = ("\n".join(source.lines[member.start : member.end]) for member in ghosts)
                members = [Clause("ghost", member.name, words_of(text)) for member, text in zip(ghosts, texts)]
                found[item.name] = Call(members, uses)
    return found


def is_of_a_trait(statement: Statement) -> bool:
    around = statement.around
    return around is not None and around.kind == "impl" and rust.trait_name(statement.above) != ""


def difference(old: list[Clause], new: list[Clause]) -> Difference:
    """What has become of these clauses. One is the same where kind, name and words are; of one kind and name, it has changed; of one kind
    and the same words, it has another name."""
    same = Counter(old) & Counter(new)
    gone, added = list((Counter(old) - same).elements()), list((Counter(new) - same).elements())
    found = Difference(same.total())
    for pairs, alike in ((found.renamed, lambda was, now: was.text == now.text), (found.changed, lambda was, now: was.name == now.name)):
        for was in list(gone):
            now = next((one for one in added if one.kind == was.kind and alike(was, one)), None)
            if now is not None:
                pairs.append((was, now))
                gone.remove(was)
                added.remove(now)
    found.gone, found.new = gone, added
    return found


def rested_on(calls: list[Call]) -> dict[tuple[str, str], Definition]:
    """All definitions that the clauses of these calls rest on, by file and name."""
    uses = Uses()
    for call in calls:
        uses.merge(call.uses)
    return {(made.path, made.name): made for made in reached(uses).definitions.values()}


def changed_definitions(old: list[Call], new: list[Call]) -> list[str]:
    """The definitions that clauses rest on before and now, and whose words differ, each as FILE NAME."""
    before, now = rested_on(old), rested_on(new)
    return sorted(f"{path} {name}" for path, name in before.keys() & now.keys() if text_of(before[path, name]) != text_of(now[path, name]))


def text_of(made: Definition) -> str:
    """The words of a definition, with the heads of the blocks that it stands in; comments say nothing."""
    lines = [line for above in made.context for line in above.text] + made.text
    return " ".join(" ".join(line for line in lines if not line.lstrip().startswith(("--", "//"))).split())
