"""What is printed once each: a definition, from which file it is, and what its text is."""
from __future__ import annotations

from dataclasses import dataclass, field
from typing import Callable


@dataclass(frozen=True)
class Context:
    """The head of a block, which stands above what is in it and holds for it: of a module, of a trait, or `mutual`."""

    line: int
    text: tuple[str, ...]  # with the comment above it


@dataclass
class Definition:
    """A definition of a spec, a type of the program, or a ghost member of a trait or of an implementation."""

    crate: str
    path: str  # from the root of the repository
    line: int  # of its first line behind the comments, from 1
    name: str
    kind: str
    comment: list[str]
    text: list[str]
    context: tuple[Context, ...] = ()
    constructors: set[str] = field(default_factory=set)
    resolve: Callable[["Definition"], "Uses"] | None = None
    found: "Uses | None" = None

    @property
    def key(self) -> tuple[str, int]:
        return (self.path, self.line)

    @property
    def place(self) -> str:
        return f"{self.path}:{self.line}"

    @property
    def lines(self) -> int:
        return sum(1 for line in self.comment + self.text if line.strip())

    @property
    def uses(self) -> "Uses":
        if self.found is None:
            self.found = Uses()
            if self.resolve is not None:
                self.found = self.resolve(self)
                self.found.unexplained_in(self.place)
        return self.found


class Uses:
    """What a text uses: definitions, and which constructors of them by name, names of the toolchain's library, names from proofs; and
    words that nothing explains."""

    def __init__(self) -> None:
        self.definitions: dict[tuple[str, int], Definition] = {}
        self.constructors: set[tuple[tuple[str, int], str]] = set()
        self.library: set[str] = set()
        self.proofs: set[str] = set()
        self.unknown: set[str] = set()  # each with its place

    def unexplained_in(self, place: str) -> None:
        """Gives the words that nothing explains their place."""
        self.unknown = {word if " in " in word else f"`{word}` in {place}" for word in self.unknown}

    def add(self, definition: Definition) -> None:
        self.definitions.setdefault(definition.key, definition)

    def merge(self, other: "Uses") -> None:
        for definition in other.definitions.values():
            self.add(definition)
        self.constructors |= other.constructors
        self.library |= other.library
        self.proofs |= other.proofs
        self.unknown |= other.unknown


# what a name stands for, where it stands for something else than one definition


@dataclass(frozen=True)
class Library:
    name: str


@dataclass(frozen=True)
class Proof:
    name: str


@dataclass(frozen=True)
class Bounded:
    """A type variable, or the ghosts of a trait: the members of these traits can be taken of it."""

    traits: tuple["object", ...]


@dataclass(frozen=True)
class Namespace:
    """The names of a module, or the variants of a type."""

    look_up: Callable[[str], "object | None"]


@dataclass(frozen=True)
class Constructor:
    """A constructor of a type; of several where types of one module have one of the same name."""

    definitions: tuple[Definition, ...]
    name: str
