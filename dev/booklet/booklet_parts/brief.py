"""The booklet in brief: what no law of it speaks of is left out, what texts say stands apart, and lines have 100 columns."""
from __future__ import annotations

import re
import textwrap
from dataclasses import dataclass, replace

from booklet_parts.definition import Definition, Uses
from booklet_parts.project import Project

TYPES = ("struct", "enum")
WIDTH = 100
SIGNS = ("→ ", "× ", "⊎ ", "↔ ", "{")  # before which a line is cut


@dataclass(frozen=True)
class Rules:
    """What is not printed in whole, by the names of types of the program: of an enumeration in `cases` those cases alone that are named,
    of a type in `heads` its head alone, of one in `bare` not what it keeps to; and the definitions with which a chapter begins that
    stands apart."""

    cases: tuple[str, ...]
    heads: tuple[str, ...]
    bare: tuple[str, ...]
    apart: tuple[str, ...]


@dataclass
class Parts:
    """The definitions of the booklet, those of the chapter that stands apart, and what the former use."""

    here: dict[tuple[str, int], Definition]
    apart: dict[tuple[str, int], Definition]
    uses: Uses  # of those that are printed here


def parts_of(project: Project, uses: Uses, rules: Rules) -> Parts:
    """What these uses rest on. An enumeration of which the chapter apart names more cases stands in both, each time with those named there."""
    here, named = all_named(project, uses, rules, rules.apart)
    every, all_the_names = all_named(project, uses, rules, ())
    more = {key for key, _ in all_the_names - named if every.definitions[key].name in rules.cases}
    apart = {key: shortened(made, rules, all_the_names) for key, made in every.definitions.items() if key not in here.definitions or key in more}
    return Parts({key: shortened(made, rules, named) for key, made in here.definitions.items()}, apart, here)


def all_named(project: Project, uses: Uses, rules: Rules, without: tuple[str, ...]) -> tuple[Uses, set]:
    """All that is used, and the cases that are named by it; these are known once all is found, so it is looked for until none is new."""
    named: set[tuple[tuple[str, int], str]] = set()
    while True:
        found = gone_through(project, uses, rules, named, without)
        if found.constructors == named:
            return found, named
        named = found.constructors


def gone_through(project: Project, uses: Uses, rules: Rules, named: set, without: tuple[str, ...]) -> Uses:
    """All that is used, and all that this uses in turn, but through definitions with the names that are left out."""
    found = Uses()
    found.merge(uses)
    waiting = list(uses.definitions.values())
    while waiting:
        made = waiting.pop()
        if made.name not in without:
            own = uses_of(project, made, rules, named)
            waiting += [one for key, one in own.definitions.items() if key not in found.definitions]
            found.merge(own)
    found.definitions = {key: made for key, made in found.definitions.items() if made.name not in without}
    return found


def uses_of(project: Project, made: Definition, rules: Rules, named: set) -> Uses:
    """What a definition uses as it is printed."""
    if made.name not in (*rules.cases, *rules.heads, *rules.bare) or made.kind not in TYPES:
        return made.uses
    source = next(one for one in project.sources.values() if one.path == made.path)
    lines = chosen_lines(made, rules, named)
    return project.types_in(source, "\n".join(re.sub(r"//.*|^ {4}[A-Z]\w*", "", line) for line in lines[1:]))


def shortened(made: Definition, rules: Rules, named: set) -> Definition:
    """The definition as it is printed."""
    return replace(made, text=on_one_line(with_comments_behind(chosen_lines(made, rules, named)))) if made.kind in TYPES else made


def chosen_lines(made: Definition, rules: Rules, named: set) -> list[str]:
    """The lines of a type that are printed."""
    if made.name in rules.heads:
        return [made.text[0].removesuffix(" {") + " { .. }"]
    if made.name in rules.bare:
        return [line for line in made.text if not line.strip().startswith("ghost ")]
    if made.name in rules.cases:
        return with_cases(made.text, {name for key, name in named if key == made.key})
    return made.text


def with_cases(text: list[str], names: set[str]) -> list[str]:
    """An enumeration with these of its cases, each with its comment, and how many there are beside them."""
    kept, comment, others = [text[0]], [], 0
    for line in text[1:-1]:
        case = re.match(r" {4}([A-Z]\w*)", line)
        if case is None:
            comment.append(line)
            continue
        if case[1] in names:
            kept += [*comment, line]
        else:
            others += 1
        comment = []
    return [*kept, *([f"    // and {others} more"] if others else []), text[-1]]


def with_comments_behind(text: list[str]) -> list[str]:
    """An enumeration with the comment of each case behind it, where there is room."""
    found: list[str] = []
    for line in text:
        before = found[-1].strip() if found else ""
        if before.startswith("/// ") and re.match(r" {4}[A-Z]", line) and len(line) + len(before) + 1 <= WIDTH:
            found[-1] = f"{line} //{before.removeprefix('///')}"
        else:
            found.append(line)
    return found


def on_one_line(text: list[str]) -> list[str]:
    """A type on one line, where no comment stands in it and there is room."""
    line = " ".join(part.strip() for part in text).replace(", }", " }")
    return [line] if "//" not in line and len(line) <= WIDTH else text


# ---- lines of 100 columns


def fitted(lines: list[str]) -> list[str]:
    """The lines, none of them longer. Comments are filled anew, and so is a line with those behind it that go on with it."""
    found: list[str] = []
    at = 0
    while at < len(lines):
        sign = sign_of(lines[at])
        behind = at + 1
        while behind < len(lines) and (sign_of(lines[behind]) == sign if sign else goes_on(lines[at], lines[behind])):
            behind += 1
        found += filled(lines[at:behind], sign) if sign else cut(" ".join([lines[at], *(line.strip() for line in lines[at + 1 : behind])]))
        at = behind
    return found


def sign_of(line: str) -> str:
    """What a comment that has a line for itself begins with, with the spaces before it."""
    match = re.match(r"\s*(?:--|///|//)(?= \S)", line)
    return match.group() if match else ""


def goes_on(first: str, line: str) -> bool:
    """Whether a line that stands deeper goes on with the first one: it begins with a sign, or all of it is what the first one defines."""
    deeper = len(line) - len(line.lstrip()) > len(first) - len(first.lstrip())
    return deeper and (line.lstrip().startswith(SIGNS) or first.endswith(" =") and len(first) + len(line.strip()) < WIDTH)


def filled(block: list[str], sign: str) -> list[str]:
    text = " ".join(line[len(sign) :].strip() for line in block)
    return textwrap.wrap(text, WIDTH, initial_indent=sign + " ", subsequent_indent=sign + " ", break_on_hyphens=False, break_long_words=False)


def cut(line: str) -> list[str]:
    """A line in parts: each next one begins with a sign, where there is one in the second half of the room, and stands deeper."""
    found = []
    indent = " " * (len(line) - len(line.lstrip()) + 4)
    while len(line) > WIDTH:
        at = max(line.rfind(f" {sign}", WIDTH // 2, WIDTH) for sign in SIGNS)
        at = at if at > 0 else line.rfind(" ", len(indent) + 8, WIDTH)
        if at < 0:
            break
        found.append(line[:at])
        line = indent + line[at + 1 :]
    return [*found, line]
