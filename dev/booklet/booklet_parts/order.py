"""What a statement rests on, in the order in which it is read."""
from __future__ import annotations

from booklet_parts.definition import Definition, Uses

Key = tuple[str, int]


def reached(uses: Uses) -> Uses:
    """All that is used, and all that this uses in turn."""
    found = Uses()
    found.merge(uses)
    waiting = list(uses.definitions.values())
    while waiting:
        made = waiting.pop()
        waiting += [one for key, one in made.uses.definitions.items() if key not in found.definitions]
        found.merge(made.uses)
    return found


def knots(definitions: dict[Key, Definition]) -> list[list[Definition]]:
    """The definitions, those together that use one another."""
    number: dict[Key, int] = {}
    low: dict[Key, int] = {}
    stack: list[Key] = []
    found: list[list[Definition]] = []
    for root in sorted(definitions):
        if root in number:
            continue
        work: list[tuple[Key, list[Key]]] = []
        enter(root, definitions, number, low, stack, work)
        while work:
            key, rest = work[-1]
            if rest:
                one = rest.pop()
                if one not in number:
                    enter(one, definitions, number, low, stack, work)
                elif one in stack:
                    low[key] = min(low[key], number[one])
                continue
            work.pop()
            if work:
                low[work[-1][0]] = min(low[work[-1][0]], low[key])
            if low[key] == number[key]:
                cut = stack.index(key)
                found.append([definitions[one] for one in sorted(stack[cut:])])
                del stack[cut:]
    return found


def enter(key: Key, definitions: dict[Key, Definition], number: dict, low: dict, stack: list[Key], work: list) -> None:
    number[key] = low[key] = len(number)
    stack.append(key)
    work.append((key, [one for one in sorted(definitions[key].uses.definitions, reverse=True) if one in definitions]))


def reading_order(definitions: dict[Key, Definition], crates: list[str]) -> list[Definition]:
    """What a definition uses comes before it; else by crate, by file, and by place. A file is not left before its end where
    nothing else has to come first."""
    units = knots(definitions)
    of = {made.key: index for index, unit in enumerate(units) for made in unit}
    needs = [{of[key] for made in unit for key in made.uses.definitions if key in of} - {index} for index, unit in enumerate(units)]
    left = set(range(len(units)))
    order: list[Definition] = []
    file = ""
    while left:
        ready = [index for index in left if not needs[index] & left]
        here = [index for index in ready if units[index][0].path == file]
        if not here:
            first = min(crates.index(units[index][0].crate) for index in ready)
            ready = [index for index in ready if crates.index(units[index][0].crate) == first]
            file = next_file(ready, units, needs, left)
            here = [index for index in ready if units[index][0].path == file]
        chosen = min(here, key=lambda index: units[index][0].line)
        order += units[chosen]
        left.discard(chosen)
    return order


def next_file(ready: list[int], units: list[list[Definition]], needs: list[set[int]], left: set[int]) -> str:
    """The first file that can be printed to its end, or else the first one."""
    files = sorted({units[index][0].path for index in ready})
    for file in files:
        inside = {index for index in left if units[index][0].path == file}
        if all(needs[index] & left <= inside for index in inside):
            return file
    return files[0]
