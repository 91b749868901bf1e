"""`tools/bench commits`: the calls to the file in one commit of 256 units."""
from __future__ import annotations

import re
import shutil
from collections import Counter
from pathlib import Path

from .graphs import BATCH, all_graphs
from .measured import Failed, Programs, run
from .workers import new_file, new_table

COMMITS = 8
WORKED = (10, 300)
CALLS = "read,readv,pread64,preadv,write,writev,pwrite64,pwritev,fsync,fdatasync,sync_file_range"
HEAD = ("game", "units before", "reads", "writes", "syncs", "KiB written")


def counted(log: str) -> Counter:
    """Reads, writes and syncs that a log of strace tells, and the bytes written."""
    found: Counter = Counter()
    for name, answer in re.findall(r"^(?:\d+ +)?(\w+)\(.*\) += (-?\d+)", log, re.M):
        kind = "reads" if "read" in name else "writes" if "write" in name else "syncs"
        found[kind] += 1
        found["bytes"] += max(0, int(answer)) if kind == "writes" else 0
    return found


def traced(program: str, table: Path, lines: str) -> Counter:
    """The calls to a table of a session over it."""
    log = table.with_suffix(".calls")
    run(["strace", "-f", "-qq", "-e", f"trace={CALLS}", "-P", str(table), "-o", str(log), program, "session", str(table)], lines)
    return counted(log.read_text(errors="replace"))


def a_commit(program: str, table: Path) -> dict[str, float]:
    """The calls of one commit: of a session that works, without those of one that is only opened."""
    opening = traced(program, table, "status\n")
    working = traced(program, table, f"work {BATCH}\n" * COMMITS)
    return {kind: (working[kind] - opening[kind]) / COMMITS for kind in ("reads", "writes", "syncs", "bytes")}


def tell(programs: Programs, folder: Path) -> int:
    """Prints a row for each great graph, early and later."""
    program = programs.path("solver_main")
    if not program:
        return 1
    if not shutil.which("strace"):
        raise Failed("there is no strace")
    print("| " + " | ".join(HEAD) + " |\n" + "|---" * len(HEAD) + "|")
    for graph in all_graphs(quick=False)[:3]:
        for commits in WORKED:
            with new_file(folder, "commits.table") as table:
                new_table(program, graph, table)
                run([program, "session", str(table)], f"work {BATCH}\n" * commits)
                calls = a_commit(program, table)
            cells = [f"{calls[kind]:,.1f}" for kind in ("reads", "writes", "syncs")]
            print(f"| {graph.name} | {BATCH * commits:,} | {' | '.join(cells)} | {calls['bytes'] / 1024:,.0f} |", flush=True)
    return 0
