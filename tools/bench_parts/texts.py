"""`tools/bench texts`: moves where the text or its searches are the greatest."""
from __future__ import annotations

from pathlib import Path

from .graphs import ROOT
from .measured import Programs, run

HEAD = "#players = white(1), black(1) #pieces = e #variables = n({bound}) #board = v[e]{{}} #rules = "
ROUNDS = 3


def text(rules: str, bound: int = 32_767) -> str:
    return HEAD.format(bound=bound) + rules


TEXTS = {
    "a game of three lines, `take`": (ROOT / "games/take.rbg").read_text(),
    "a sum of 32,701 terms": text("{$ 1" + "+1" * 32_700 + " > 0} ->white"),
    "a product of 32,701 factors": text("{$ 1" + "*1" * 32_700 + " == 1} ->white"),
    "a comment of 65,402 bytes": text("//" + "x" * 65_400 + "\n->white"),
    "a choice of 4,095 actions": text("(" + "[e]+" * 4_094 + " {e}) ->white"),
    "a star over 4,095 actions": text("(" + "{e}+" * 4_094 + " {e})* ->white"),
    "a search that is just too wide": text("([$n=n+1])* ->white", 32_768),
    "a pattern of 65,536 configurations": text("{? ([$n=n+1])*} ->white", 65_535),
}


def tell(programs: Programs, folder: Path) -> int:
    """Prints the least processor time of `moves` for each text."""
    program = programs.path("solver_main")
    if not program:
        return 1
    print("| text | bytes | milliseconds of processor time |\n|---|---|---|")
    game = folder / "game.rbg"
    for name, contents in TEXTS.items():
        game.write_text(contents)
        # a search that is too wide is refused, with status 1
        times = [run([program, "moves", str(game)], statuses=(0, 1)).cpu for _ in range(ROUNDS)]
        print(f"| {name} | {len(contents.encode()):,} | {1000 * min(times):.1f} |", flush=True)
    return 0
