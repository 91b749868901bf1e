"""`tools/bench trees`: maps that are trees of pages, beside those of SQLite and LMDB."""
from __future__ import annotations

from pathlib import Path

from .measured import Failed, Programs, compiled, number_behind, run
from .workers import HERE, remove

KEYS = [1_000, 10_000, 100_000, 1_000_000]
HEAD = ("where", "keys", "microseconds a put", "pages a put", "puts a second", "gets a second")


def row(where: str, keys: int, times: str, counts: str = "") -> str:
    """A row, from the words `put MICROSECONDS get MICROSECONDS ..` that a program prints, and perhaps its sectors written."""
    put, get = (max(1, number_behind(word, times)) for word in ("put", "get"))
    pages = f"{number_behind('written', counts) / 8 / keys:.2f}" if counts else "-"
    cells = (where, f"{keys:,}", f"{put / keys:.2f}", pages, f"{keys * 1e6 / put:,.0f}", f"{keys * 1e6 / get:,.0f}")
    return "| " + " | ".join(cells) + " |"


def of_program(program: str, folder: Path, keys: int) -> None:
    """Rows of a disk in memory and of a file."""
    table = folder / "tree.table"
    for where, words in (("memory", []), ("file", [str(table)])):
        with table.open("wb") as file:
            file.truncate(4096 * (keys // 100 + 2_000))
        done = run([program, "tree", str(keys), *words])
        print(row(where, keys, done.errors, done.output), flush=True)
    remove(folder, table.name)


def of_rival(name: str, program: str, folder: Path, keys: int) -> None:
    done = run([program, str(keys), str(folder / "base")])
    print(row(f"file, {name}", keys, done.output), flush=True)
    remove(folder, "base")


def tell(programs: Programs, folder: Path, counts: list[int]) -> int:
    """Prints a row for each number of keys and each map."""
    program = programs.path("bench")
    rivals = {name: compiled(HERE / "map.c", folder, name) for name in ("SQLite", "LMDB")}
    print("| " + " | ".join(HEAD) + " |\n" + "|---" * len(HEAD) + "|")
    for keys in counts:
        if program:
            of_program(program, folder, keys)
        for name, path in rivals.items():
            if path:
                of_rival(name, path, folder, keys)
    if not program and not any(rivals.values()):
        raise Failed("there is nothing to measure")
    return 0
