"""The booklet as text."""
from __future__ import annotations

import textwrap
from dataclasses import dataclass, field

from booklet_parts.brief import WIDTH, fitted
from booklet_parts.definition import Context, Definition, Uses
from booklet_parts.order import reached, reading_order
from booklet_parts.project import Project
from booklet_parts.statements import Statement

CHAPTER = "######## "
HEADING = "==== "


@dataclass
class Chapter:
    """Some statements, and the definitions that they rest on and no chapter before has; the statements stand first where sentences open it."""

    title: str
    statements: list[Statement]
    definitions: list[Definition] = field(default_factory=list)
    opening: list[str] = field(default_factory=list)


@dataclass
class Booklet:
    chapters: list[Chapter]
    uses: Uses

    @property
    def definitions(self) -> list[Definition]:
        return [made for chapter in self.chapters for made in chapter.definitions]


def booklet_of(project: Project, parts: list[tuple[str, list[Statement]]]) -> Booklet:
    """The booklet with these chapters, each with its title and its statements."""
    every = Uses()
    chapters: list[Chapter] = []
    for title, statements in parts:
        uses = Uses()
        for statement in statements:
            uses.merge(statement.uses(project))
        found = reached(uses)
        new = {key: made for key, made in found.definitions.items() if key not in every.definitions}
        every.merge(found)
        chapters.append(Chapter(title, statements, reading_order(new, project.crates)))
    return Booklet(chapters, every)


def definition_lines(definitions: list[Definition]) -> list[str]:
    """The definitions under the headings of their files, each run under what holds for all of it."""
    lines: list[str] = []
    file, context = "", ()
    for made in definitions:
        same = 0
        while made.path == file and same < min(len(context), len(made.context)) and context[same] == made.context[same]:
            same += 1
        lines += closed(context[same:])
        if made.path != file:
            lines += ["", HEADING + made.path]
        lines.append("")
        for above in made.context[same:]:
            lines += above.text
        file, context = made.path, made.context
        lines += [*made.comment, *made.text]
    return lines + closed(context)


def closed(contexts: tuple[Context, ...]) -> list[str]:
    """The braces of what ends here: those of traits and implementations."""
    return ["}" for above in reversed(contexts) if above.text[-1].endswith("{")]


def statement_lines(statements: list[Statement]) -> list[str]:
    lines: list[str] = []
    before: Statement | None = None
    for statement in statements:
        same = before is not None and before.source is statement.source
        if before is not None and not (same and before.around is statement.around):
            lines += ["}"] if before.above else []
        if not same:
            lines += ["", HEADING + statement.source.path]
        lines.append("")
        if statement.above and (not same or before.around is not statement.around):
            lines.append(statement.above)
        lines += statement.text
        before = statement
    return lines + (["}"] if before is not None and before.above else [])


def library_paragraph(names: set[str], width: int = 120) -> list[str]:
    if not names:
        return []
    shown = sorted({name.removeprefix("Rattle.") for name in names})
    groups: dict[str, list[str]] = {}
    for name in shown:
        module, _, word = name.rpartition(".")
        groups.setdefault(module, []).append(word)
    text = "; ".join(f"{module}: {', '.join(words)}" for module, words in sorted(groups.items()))
    return ["", *textwrap.wrap(f"from the toolchain's library: {text}.", width, break_on_hyphens=False)]


def totals(definitions: list[Definition]) -> str:
    return f"{len(definitions)} definitions, {sum(made.lines for made in definitions)} lines"


def fitted_print(booklet: Booklet) -> str:
    """A booklet of one chapter that sentences open, in lines of 100 columns; it counts all of them, but for blank lines and headings."""
    chapter = booklet.chapters[0]
    lines = [*chapter.opening]
    if chapter.statements:
        lines += [*statement_lines(chapter.statements), "", CHAPTER + "what it rests on"]
    lines = [*fitted([*lines, *definition_lines(chapter.definitions)]), *library_paragraph(booklet.uses.library, WIDTH)]
    count = sum(1 for line in lines if line.strip() and not line.startswith((HEADING, CHAPTER)))
    return "\n".join([*lines, "", f"{len(chapter.definitions)} definitions, {count} lines"]) + "\n"


def printed(booklet: Booklet) -> str:
    """The whole booklet."""
    lines: list[str] = []
    for chapter in booklet.chapters:
        if len(booklet.chapters) > 1:
            lines += ["", CHAPTER + chapter.title]
        lines += definition_lines(chapter.definitions)
        if chapter.statements:
            lines += ["", CHAPTER + "what is stated"]
            lines += statement_lines(chapter.statements)
    lines += library_paragraph(booklet.uses.library)
    if booklet.uses.proofs:
        lines += ["", "from proofs, which say nothing here: " + ", ".join(sorted(booklet.uses.proofs)) + "."]
    lines += ["", totals(booklet.definitions)]
    return "\n".join(lines).strip("\n") + "\n"


def table(definitions: list[Definition], crates: list[str]) -> str:
    """How many definitions and lines each crate has."""
    rows = []
    for crate in crates:
        some = [made for made in definitions if made.crate == crate]
        if some:
            rows.append((crate, str(len(some)), str(sum(made.lines for made in some))))
    rows.append(("sum", str(len(definitions)), str(sum(made.lines for made in definitions))))
    width = max(len(row[0]) for row in rows)
    lines = [f"{'crate':<{width}}  definitions  lines"]
    lines += [f"{name:<{width}}  {count:>11}  {size:>5}" for name, count, size in rows]
    return "\n".join(lines) + "\n"
