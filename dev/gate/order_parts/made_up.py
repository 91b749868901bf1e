"""Made-up traces for the self-test of dev/gate/order_of_writes."""
from __future__ import annotations

import re
import struct

from .named_pages import PAGE

SECTOR = 512
# traces are written in words: `wAT,LENGTH` writes what an empty table has there, `wAT,LENGTH:WHAT` something of MADE_UP, `s` and `d` sync
# the table and its data, `folder` its folder, `r` is a reply, and so on
WORDS = {
    "s": "fsync(6</t/table>) = 0",
    "d": "fdatasync(6</t/table>) = 0",
    "bad": "fsync(6</t/table>) = -1 EIO (Input/output error)",
    "lock": "flock(6</t/table>, LOCK_EX|LOCK_NB) = 0",
    "taken": "flock(6</t/table>, LOCK_EX|LOCK_NB) = -1 EAGAIN (Resource temporarily unavailable)",
    "made": 'openat(AT_FDCWD</t>, "table", O_RDWR|O_CREAT|O_EXCL, 0666) = 6</t/table>',
    "length": "ftruncate(6</t/table>, 131072) = 0",
    "folder": "fsync(5</t>) = 0",
    "r": 'write(1</dev/pts/0>, ""..., 54) = 54',
    "elsewhere": 'pwrite64(7</t/other>, ""..., 512, 512) = 512',
    "other": "fsync(7</t/other>) = 0",
    "short": 'pwrite64(6</t/table>, ""..., 4096, 8192) = 512',
    "cut": 'openat(AT_FDCWD</t>, "table", O_RDWR|O_TRUNC) = 6</t/table>',
    "mapped": "mmap(NULL, 4096, PROT_READ|PROT_WRITE, MAP_SHARED, 6</t/table>, 0) = 0x7f0000000000",
    "copied": "copy_file_range(7</t/other>, NULL, 6</t/table>, NULL, 4096, 0) = 4096",
    "append": 'write(6</t/table>, ""..., 512) = 512',
}
# a run on a table whose gate picks the first slot, so that the other one, at 1536, is the spare one
RIGHT = [
    "lock s r",
    "lock s w4096,4096 w8192,4096 w1536,512 s w512,512 s r",
    "lock d w1536,512 w8192,4096 w4096,8192 d w512,512 d r",
    "lock s w4096,4096 w1536,512 s w512,512 s r w8192,4096 w1024,512 s w512,512 s r r s",
    "lock s w8192,512 w1536,512 elsewhere s other w512,512 elsewhere s r",
]
WRONG = [
    ("lock s w4096,4096 w1536,512 w512,512 s r", "together with the spare slot"),
    ("lock s w4096,4096 w1536,512 s w512,512 r", "while sectors wait"),
    ("lock s w4096,4096 w1536,512 other w512,512 s r", "together with the spare slot"),
    ("lock s w4096,4096 w1536,512 w512,512 r", "while sectors wait"),
    ("lock s w512,512 s w4096,4096 w1536,512 s r", "before the spare slot"),
    ("lock s w4096,4096 w512,1536 s r", "together with the spare slot"),
    ("lock s w1536,512 s w512,512 w4096,4096 s r", "more than the gate"),
    ("lock s w1536,512 s w4096,4096 s w512,512 s r", "more than the gate"),
    ("lock s w4096,4096 s w1536,512 s w512,512 s r", "before the spare slot"),
    ("lock s w4096,4096 w1024,512 s w512,512 s r", "before the spare slot"),
    ("lock s w4096,4096 w1536,512 s w512,512 s r w8192,4096 w1536,512 s w512,512 s r", "before the spare slot"),
    ("lock w4096,4096 s w1536,512 s w512,512 s r", "before the first sync"),
    ("s w4096,4096 w1536,512 s w512,512 s r", "before it is locked"),
    ("taken s w4096,4096 w1536,512 s w512,512 s r", "before it is locked"),
    ("lock s w4096,4096 w1536,512 s r w512,512 s", "before the gate"),
    ("lock s w4096,4096 w1536,512 s w512,512 s r w8192,4096", "the run ends while sectors wait"),
    ("lock s w4096,4096 w0,512 w1536,512 s w512,512 s r", "together with the spare slot"),
    ("lock s w4096,4096 w2048,512 w1536,512 s w512,512 s r", "together with the spare slot"),
    ("lock s w4096,100 w1536,512 s w512,512 s r", "whole sectors"),
    ("lock s short w1536,512 s w512,512 s r", "to its end"),
    ("lock s append w1536,512 s w512,512 s r", "changes the file"),
    ("lock s length w1536,512 s w512,512 s r", "changes the file"),
    ("cut lock s r", "cut as it is opened"),
    ("lock s mapped r", "not known"),
    ("lock s copied r", "not known"),
    ("lock s w4096,4096 w1536,512 bad w512,512 s r", "a sync failed"),
]
RIGHT_CREATE = ["made lock length folder s w1024,1024 w512,512 s w0,512 s s r", "lock length folder s w512,1536 d w0,512 d r"]
WRONG_CREATE = [
    ("made lock length folder s w0,2048 s r", "in one go"),
    ("made lock length folder s w1024,1024 w512,512 w0,512 s r", "in one go"),
    ("made lock length folder s w0,512 s w1024,1024 w512,512 s r", "in one go"),
    ("made lock length folder s w1024,1024 s w512,512 s w0,512 s r", "in one go"),
    ("made lock length folder s w1024,1024 w512,512 s w0,512 r s", "while sectors wait"),
    ("made lock length folder s w1024,1024 w512,512 s r w0,512 s", "before the table is made"),
    ("made lock length s w1024,1024 w512,512 s w0,512 s r", "before the folder"),
    ("folder made lock length s w1024,1024 w512,512 s w0,512 s r", "before the folder"),
    ("made length lock folder s w1024,1024 w512,512 s w0,512 s r", "changes the file"),
    ("made lock length folder w1024,1024 w512,512 s w0,512 s r", "before the first sync"),
]


def slot_of(*pages):
    """A root slot: without a game; or with the first page of a text of two pages, and the root pages of the four trees."""
    if not pages:
        return struct.pack(">II60xI440x", 3, 0, 16)
    chain, *trees = pages
    return struct.pack(">IIQIIIIIIIIIIIQI440x", 3, 2, 1, chain, 5000, 2, 1, 1, 1, 1, *trees, 1, 16)


def held_table():
    """A table of 16 pages: the text on the pages 1 and 2, the positions on 3 with 4 and 5 below it, the other trees on 6, 7 and 8."""
    pages = [b"RBGTABLE".ljust(2 * SECTOR, b"\0") + slot_of(1, 3, 6, 7, 8) + slot_of(), struct.pack(">I", 2), b"\0"]
    pages += [struct.pack(">BxHHIHI", 2, 2, 1, 4, 2, 5)] + 5 * [b"\1\0\0\1"]
    return b"".join(page.ljust(PAGE, b"\0") for page in pages) + bytes(7 * PAGE)


EMPTY_TABLE = b"RBGTABLE".ljust(2 * SECTOR, b"\0") + slot_of() + slot_of() + bytes(15 * PAGE)
MADE_UP = {
    "moved": slot_of(1, 3, 9, 7, 8),  # as held_table, with the records on page 9
    "back": slot_of(1, 3, 6, 7, 8),
    "twice": slot_of(1, 3, 3, 7, 8),
    "beyond": slot_of(1, 3, 16, 7, 8),
    "old": struct.pack(">I508x", 2),
    "as_it_was": bytes(SECTOR),
    "leaf": b"\1\0\0\1".ljust(PAGE, b"\0"),
}
FIRST = "lock s w36864,4096:leaf w1536,512:moved s w512,512 s r "
RIGHT_HELD = [FIRST, FIRST + "w24576,4096:leaf w1024,512:back s w512,512 s r", FIRST + "w24576,4096 w40960,512 w1024,512:moved s w512,512 s r"]
WRONG_HELD = [(f"lock s w{PAGE * page},512 w1536,512:moved s w512,512 s r", f"page {page} is written") for page in range(1, 9)] + [
    (FIRST + "w36864,4096:leaf w1024,512:back s w512,512 s r", "page 9 is written"),
    (FIRST + "w16896,512 w1024,512:back s w512,512 s r", "page 4 is written"),
    ("lock s w1536,512:twice s w512,512 s r", "page 3, which is not there, or named twice"),
    ("lock s w1536,512:beyond s w512,512 s r", "page 16, which is not there"),
    ("lock s w1536,512:moved s w512,512 s r", "neither a leaf nor an inner page"),
    ("lock s w1536,512:old s w512,512 s r", "none of layout 3"),
    ("lock s w36864,4096:leaf w1536,512:moved s w512,512:as_it_was s r", "the gate is written as it was"),
]


def written(at, length, what, gate):
    """What a made-up trace writes: something of MADE_UP, or what an empty table has there, with this gate."""
    if what:
        return MADE_UP[what]
    return (EMPTY_TABLE[:SECTOR] + bytes([gate]) + EMPTY_TABLE[SECTOR + 1 :])[at : at + length]


def trace_of(words, image):
    """The lines that strace would tell; each write of the gate alone picks the other slot, but of a table that is made."""
    lines, gate = [], 0 if image else None
    for word in words.split():
        at = re.fullmatch(r"w(\d+),(\d+)(?::(\w+))?", word)
        if not at:
            lines.append(f"4711 {WORDS[word]}")
            continue
        gate = 1 - gate if gate is not None and at[1] == at[2] == "512" else gate
        data = written(int(at[1]), int(at[2]), at[3], gate or 0)
        text = "".join(f"\\{byte:o}" if not 48 <= after <= 55 else f"\\{byte:03o}" for byte, after in zip(data, [*data[1:], 0]))
        lines.append(f'4711 pwrite64(6</t/table>, "{text}", {at[2]}, {at[1]}) = {at[2]}')
    return lines


def right_traces():
    """Traces in their order, each with the bytes of the table before it; None where it is made."""
    for traces, image in ((RIGHT, EMPTY_TABLE), (RIGHT_CREATE, None), (RIGHT_HELD, held_table())):
        yield from ((words, image) for words in traces)


def wrong_traces():
    """Traces that are not in their order, each with what is wrong and the bytes of the table before it."""
    for traces, image in ((WRONG, EMPTY_TABLE), (WRONG_CREATE, None), (WRONG_HELD, held_table())):
        yield from ((words, fault, image) for words, fault in traces)
