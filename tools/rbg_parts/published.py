"""A folder with a table for others: what is in it, and the numbers of its README.md, which tools/trust compares with the table."""
from __future__ import annotations

import fcntl
import hashlib
import lzma
import os
import re
import stat
import subprocess

import rbgtable

from . import fields, language, progress, words
from .balance import Balance
from .play import Play

SUMS, README, GAME, TABLE, PAGE, CERTIFICATE = "SHA256SUMS", "README.md", "game.rbg", "game.table.xz", "page.html", "certificate"
AT_ONCE, BLOCK = 2048, 1 << 20
# the head of the first column of the table in README.md
HEAD = "what"
# a table has so many pages at most, and what unpacks it takes so much memory at most
MOST_BYTES, MOST_MEMORY = 4096 << 20, 256 << 20
SUM = re.compile(r"([0-9a-f]{64})  ([A-Za-z0-9_.]{1,64})")
ROW = re.compile(r"\| ([a-z][A-Za-z0-9_ ]*) \| ([^|]*) \|")


class Wrong(Exception):
    """Why a folder is not to be trusted."""


def sum_of_file(path):
    found = hashlib.sha256()
    with open(path, "rb") as file:
        while block := file.read(BLOCK):
            found.update(block)
    return found.hexdigest()


def sum_of_rows(table, play):
    """The sum of what `tools/export --positions` prints: who makes the table in another way has the same."""
    found = hashlib.sha256((",".join(fields.columns(play)) + "\n").encode())
    known = table.counts.known
    told = progress.Told("rows", known)
    for begin in range(0, known, AT_ONCE):
        end = min(begin + AT_ONCE, known)
        texts = table.ask_all(f"show {number}" for number in range(begin, end))
        found.update("".join(f"{fields.csv_row(reply, text)}\n" for reply, text in zip(table.listed(begin, end), texts)).encode())
        told.tell(end)
    return found.hexdigest()


def numbers(table, goal):
    """The rows of README.md that a table answers for, by their names."""
    play = Play(language.read(table.game))
    found = Balance(table, play).summary()
    longest = found["longest"]
    rows = {"at the start": found["start"]["value"], "goal": goal or "none", "positions": f"{found['known']:,}"}
    rows["state"] = "finished" if found["finished"] else f"open, {found['expanded']:,} expanded, {found['settled']:,} settled"
    rows.update({f"won by {name}": f"{count:,}" for name, count in zip(found["players"], found["wins"])})
    rows.update({"drawn": f"{found['drawn']:,}", "not known": f"{found['open']:,}"})
    rows["longest win"] = f"{longest['value']}, from position {longest['number']:,}" if longest else "none"
    rows["sum of the game"] = hashlib.sha256(table.game).hexdigest()
    rows["sum of the rows"] = sum_of_rows(table, play)
    return rows


def kit():
    """The kit that the sources name, as README.md or PROVED has it."""
    for name, pattern in (("PROVED", r"proved with: (.*)"), ("README.md", r"Proved with `([^`]*)`")):
        try:
            match = re.search(pattern, (words.ROOT / name).read_text(encoding="utf-8", errors="replace"))
        except OSError:
            continue
        if match:
            return match[1].strip().replace("|", " ")
    return "not told"


def rows_of(text):
    """The rows of the table in a README.md, by their names; one that stands twice, or is of another form, is wrong."""
    found = {}
    for line in text.splitlines():
        match = ROW.fullmatch(line)
        if match and match[1] == HEAD:
            continue
        if match and match[1] in found:
            raise Wrong(f"{README}: `{match[1]}` stands twice")
        if match:
            found[match[1]] = match[2]
    return found


def pack(source, target):
    """A table's file as its xz, under the lock with which one looks at it."""
    if not words.is_table(source):
        words.fail(1, f"{source}: this is no table")
    told = progress.Told("packing", os.path.getsize(source))
    with open(source, "rb") as file, lzma.open(target, "wb", preset=6) as packed:
        try:
            fcntl.flock(file, fcntl.LOCK_SH | fcntl.LOCK_NB)
        except BlockingIOError:
            words.fail(4, f"{source}: another run has the table: wait for its end")
        while block := file.read(BLOCK):
            packed.write(block)
            told.tell(file.tell())


def unpack(source, target):
    """The file that an xz has, with holes for what is zero; one that is no xz, or longer than any table, is wrong."""
    unpacking, done, told = lzma.LZMADecompressor(lzma.FORMAT_XZ, memlimit=MOST_MEMORY), 0, progress.Told("unpacking")
    try:
        with open(source, "rb") as packed, open(target, "wb") as file:
            while not unpacking.eof:
                block = packed.read(BLOCK) if unpacking.needs_input else b""
                if unpacking.needs_input and not block:
                    raise Wrong(f"{TABLE} ends too early")
                data = unpacking.decompress(block, BLOCK)
                done += len(data)
                if done > MOST_BYTES:
                    raise Wrong(f"{TABLE} is longer than any table")
                if data.strip(b"\0"):
                    file.write(data)
                else:
                    file.seek(len(data), os.SEEK_CUR)
                told.tell(done)
            file.truncate(done)
            if unpacking.unused_data or packed.read(1):
                raise Wrong(f"{TABLE} has something behind its end")
    except lzma.LZMAError as error:
        raise Wrong(f"{TABLE}: {error}") from None


def write_sums(folder):
    names = sorted(name for name in os.listdir(folder) if name != SUMS)
    with open(os.path.join(folder, SUMS), "w", encoding="ascii") as file:
        file.writelines(f"{sum_of_file(os.path.join(folder, name))}  {name}\n" for name in names)


def check_sums(folder):
    """The names of the files in the sums. Each has its sum, and there is no other file."""
    sums = {}
    for line in read_text(folder, SUMS).splitlines():
        match = SUM.fullmatch(line)
        if not match or match[2] in sums or match[2] in (SUMS, ".", ".."):
            raise Wrong(f"{SUMS}: this is no line of sums: {line[:80]!a}")
        sums[match[2]] = match[1]
    there = set(os.listdir(folder)) - {SUMS}
    for name in sorted(there ^ set(sums)):
        raise Wrong(f"{name!a} " + (f"is not in {SUMS}" if name in there else "is not there"))
    for name in (README, GAME, TABLE):
        if name not in sums:
            raise Wrong(f"{name} is not there")
    for name, wanted in sums.items():
        path = regular(folder, name)
        if sum_of_file(path) != wanted:
            raise Wrong(f"{name} is not what its sum says")
    return list(sums)


def regular(folder, name):
    """The path of a file in the folder; a link or a device is wrong."""
    path = os.path.join(folder, name)
    try:
        kind = os.lstat(path).st_mode
    except FileNotFoundError:
        raise Wrong(f"{name} is not there") from None
    if not stat.S_ISREG(kind):
        raise Wrong(f"{name} is no file, but a link or a folder")
    return path


def read_text(folder, name, most=1 << 20):
    with open(regular(folder, name), "rb") as file:
        return file.read(most).decode("utf-8", "replace")


def certifier(word):
    """The command for `certify TABLE` or `check CERTIFICATE`, where this checkout or its program has one."""
    tool = words.ROOT / "tools" / word
    if os.access(tool, os.X_OK):
        return [str(tool), "--"]
    ran = subprocess.run([words.program(), "--help"], stdin=subprocess.DEVNULL, capture_output=True, check=False)
    return [words.program(), word, "--"] if re.search(rf"(?m)^  {word}\b", ran.stdout.decode("utf-8", "replace")) else None


def goal_of(name):
    with open(name, "rb") as file:
        root = rbgtable.root_of(file)
    return root.goal if root else 0
