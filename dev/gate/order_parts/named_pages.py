"""Which pages of a table's file the root in force names: those of the text's chain and of the four trees (docs/FORMAT.md)."""
from __future__ import annotations

import struct

PAGE, PART = 4096, 4092
GATE, SLOTS = 512, 1024
# where the slot has the root page of each tree, and how long a key of it is, in bytes beside those of a packed position
TREES = {44: (0, 1), 48: (4, 0), 52: (8, 0), 56: (4, 0)}


class Unreadable(Exception):
    """The root in force is none of layout 3, or does not spell a chain and four trees of pages that are each named once."""


class Named:
    """The pages that were met, each of them once."""

    def __init__(self, image, capacity):
        self.image, self.capacity, self.pages = image, capacity, set()

    def page(self, number):
        """The bytes of a page that is named."""
        if not 0 < number < self.capacity or number in self.pages:
            raise Unreadable(f"the root in force names page {number}, which is not there, or named twice")
        self.pages.add(number)
        return self.image[PAGE * number : PAGE * (number + 1)]

    def chain(self, number, length):
        for _ in range(0, length, PART):
            number = struct.unpack(">I", self.page(number)[:4])[0]

    def tree(self, root, key):
        """The pages of a tree whose keys have so many bytes."""
        todo = [root] if root else []
        while todo:
            found = self.page(todo.pop())
            count = struct.unpack(">H", found[2:4])[0]
            if found[0] not in (1, 2) or 4 + count * (key + 4) > PAGE and found[0] == 2:
                raise Unreadable("a page of a tree is neither a leaf nor an inner page")
            if found[0] == 2:
                ends = range(4 + key, 4 + count * (key + 4), key + 4)
                todo += [struct.unpack(">I", found[end : end + 4])[0] for end in ends]


def named_pages(image):
    """The numbers of the pages that the root in force of a table's bytes names."""
    slot = SLOTS + 512 * (image[GATE] & 1)
    layout, packing = struct.unpack(">II", image[slot : slot + 8])
    if layout != 3 or packing > 2:
        raise Unreadable("the root in force is none of layout 3")
    first, length, packed = struct.unpack(">III", image[slot + 16 : slot + 28])
    named = Named(image, struct.unpack(">I", image[slot + 68 : slot + 72])[0])
    if packing:
        named.chain(first, length)
        for at, (fixed, positions) in TREES.items():
            named.tree(struct.unpack(">I", image[slot + at : slot + at + 4])[0], fixed + positions * packed)
    return named.pages
