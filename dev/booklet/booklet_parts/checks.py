"""What the gate asks of the booklet, and which definitions nothing public rests on."""
from __future__ import annotations

import re
from collections import Counter

from booklet_parts.definition import Definition, Uses
from booklet_parts.order import reached
from booklet_parts.printing import HEADING, Booklet
from booklet_parts.project import Project
from booklet_parts.statements import public_uses

OPEN = ("commands", "run", "queries", "replies")  # the sources of `solver` that state what a solver does
IMPORTED = re.compile(r"ghost use Rattle\.(\w+)\.specs\.([\w.]+?)\.\{([^}]*)\};")
DEFINES = r"^\s*(?:(?:abbrev|unfoldable)\s+)?(?:pub\s+)?(?:(?:record|data|struct|enum|trait|type)\s+)?{}(?:\s+:|[\s(<{{,;]|$)"
DECLARES = re.compile(r"^\s*(?:abbrev|unfoldable|infix|pub record|pub data|record|data|pub struct|pub enum|struct|enum|ghost)\b")


def faults_of(project: Project, booklet: Booklet, text: str) -> list[str]:
    """What is wrong with a booklet, one sentence each."""
    found = [f"nothing explains the name {word}." for word in sorted(booklet.uses.unknown)]
    for (file, line), count in Counter(declared_in(text)).items():
        if count > 1:
            found.append(f"{file} is printed {count} times with the definition `{line.strip()}`.")
    for key, count in Counter(made.key for made in booklet.definitions).items():
        if count > 1:
            found.append(f"the definition at {key[0]}:{key[1]} is printed {count} times.")
    sections = by_file(text)
    for module in OPEN:
        path = project.root / "crates" / "solver" / "src" / f"{module}.rt"
        for crate, place, name in cited(path.read_text(encoding="utf-8")):
            file = file_of(project, crate, place)
            if crate in project.crates and not is_defined(sections.get(file, ""), name):
                found.append(f"a contract in crates/solver/src/{module}.rt cites `{name}`, whose definition in {file} is not printed.")
    return found


def declared_in(text: str) -> list[tuple[str, str]]:
    """The lines of a booklet that begin a definition, each with its file; those of what is stated are none."""
    found, file = [], ""
    for line in text.split("\n"):
        if line.startswith(HEADING):
            file = line[len(HEADING) :]
        elif DECLARES.match(line) and not line.endswith("mutual"):
            found.append((file, line))
    return found


def by_file(text: str) -> dict[str, str]:
    sections: dict[str, str] = {}
    file = ""
    for line in text.split("\n"):
        if line.startswith(HEADING):
            file = line[len(HEADING) :]
        else:
            sections[file] = sections.get(file, "") + line + "\n"
    return sections


def file_of(project: Project, crate: str, place: str) -> str:
    parts = place.split(".")
    if parts[0] == "declared":
        end = next((end for end in range(len(parts), 1, -1) if (crate, ".".join(parts[1:end])) in project.sources), 2)
        return f"crates/{crate}/src/{'/'.join(parts[1:end])}.rt"
    return f"crates/{crate}/specs/{'/'.join(parts)}.antt"


def is_defined(section: str, name: str) -> bool:
    return re.search(DEFINES.format(re.escape(name)), section, re.M) is not None


def cited(text: str) -> list[tuple[str, str, str]]:
    """The names that a source imports and that a public contract in it has as a word: the crate, the module and the name there."""
    contracts = ""
    for part in re.split(r"^(?=\s*(?:pub(?:\(\w+\))? )?fn )", text, flags=re.M)[1:]:
        if part.lstrip().startswith("pub fn "):
            contracts += re.split(r"^ *\{|^ *\}$", part, maxsplit=1, flags=re.M)[0]
    words = set(re.findall(r"[^\s(){}.,;]+", contracts))
    found = []
    for crate, place, names in IMPORTED.findall(text):
        for name in names.split(","):
            there, here = name.split()[0], name.split()[-1]
            if here in words:
                found.append((crate, place, there))
    return found


def unused(project: Project, chosen: list[str]) -> dict[str, list[Definition]]:
    """For each crate, the definitions of its specs that no public contract of any crate rests on."""
    uses = Uses()
    for crate in project.crates:
        uses.merge(public_uses(project, crate))
    used = reached(uses).definitions
    found: dict[str, list[Definition]] = {}
    for (crate, name), module in sorted(project.specs.items()):
        if crate in chosen and not name.startswith("aid"):
            found.setdefault(crate, []).extend(made for made in module.definitions if made.key not in used)
    return found
