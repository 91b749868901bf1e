"""The HTML page of tools/report: the player of page/ beside the positions of a table, packed."""
from __future__ import annotations

import base64
import html
import struct
import zlib
from array import array
from pathlib import Path

from . import boards, language, progress, scripts
from .balance import Balance
from .play import Play

# each behind those that it imports
MODULES = ("game_text", "board", "moves", "unpacked", "packed", "player", "report")
AT_ONCE = 4096


def kept(table, most, moves):
    """The positions that can be gone on from, and within how many moves of the start all are; None if all positions are."""
    if table.counts.known <= most and moves is None:
        return set(range(table.counts.known)), None
    met, layer, depth = {0}, [0], 0
    while layer and (moves is None or depth < moves):
        behind = list(dict.fromkeys(to for number in layer for to in table.successors(number) if to not in met))
        if not behind:
            return met, None
        if moves is None and len(met) + len(behind) > most:
            break
        met.update(behind)
        layer, depth = behind, depth + 1
    return met, depth


def packed_numbers(numbers):
    """Numbers in a column: seven bits in each byte, the lowest first, and the highest bit where more follow."""
    found = bytearray()
    for number in numbers:
        while number > 127:
            found.append(128 | number & 127)
            number >>= 7
        found.append(number)
    return bytes(found)


def steps(numbers):
    """By how much each of the numbers, which grow, is greater than the one before."""
    last = 0
    for number in numbers:
        yield number - last
        last = number


class Columns:
    """The positions that are in the page, a column for each thing that is told of them (page/packed.mjs reads them)."""

    def __init__(self, table, play, balance, walked):
        self.table, self.play, self.balance, self.walked = table, play, balance, walked
        self.shown = sorted({*walked, *(to for number in walked for to in table.successors(number))})
        self.places, self.at_places = {}, array("I")
        self.pieces, self.amounts = [], []
        told = progress.Told("positions", len(self.shown))
        for begin in range(0, len(self.shown), AT_ONCE):
            for text in table.ask_all(f"show {number}" for number in self.shown[begin : begin + AT_ONCE]):
                self.add(text)
            told.tell(begin)

    def add(self, text):
        place, pieces, values = text.rsplit(" ", 2)
        self.at_places.append(self.places.setdefault(place, len(self.places)))
        self.pieces.append(bytes(map(self.play.pieces.__getitem__, pieces.split(","))))
        self.amounts.append(tuple(map(int, values.split(","))))

    def moves(self):
        """One more than how many moves each position has, 0 where they are left out; and where they lead."""
        counts, to = [], bytearray()
        place = {number: at for at, number in enumerate(self.shown)}
        told = progress.Told("moves", len(self.shown))
        for at, number in enumerate(self.shown):
            behind = sorted(map(place.__getitem__, self.table.successors(number))) if number in self.walked else None
            counts.append(0 if behind is None else 1 + len(behind))
            to += packed_numbers(steps(behind or ()))
            told.tell(at)
        return packed_numbers(counts), bytes(to)

    def packed(self):
        """All columns, each behind its length, in base64 of what zlib makes of them."""
        columns = [
            packed_numbers(steps(self.shown)),
            packed_numbers(self.at_places),
            b"".join(bytes(column) for column in zip(*self.pieces)),
            packed_numbers(amount for column in zip(*self.amounts) for amount in column),
            packed_numbers(map(self.balance.codes.__getitem__, self.shown)),
            *self.moves(),
        ]
        whole = b"".join(struct.pack(">I", len(column)) + column for column in columns)
        return base64.b64encode(zlib.compress(whole, 9)).decode()


def statistics(found):
    """Who wins how often, in the form that page/worker.mjs counts."""
    wins = {name: [] for name in found["players"]}
    for row in found["distances"]:
        for name, count in zip(found["players"], row["wins"]):
            wins[name] += [0] * (row["distance"] - len(wins[name])) + [count] if row["distance"] < 100000 else []
    longest = found["longest"]
    longest = longest and {name: longest[name] for name in ("number", "winner", "distance")}
    return {"known": found["known"], "drawn": found["drawn"], "open": found["open"], "wins": wins, "longest": longest}


def extent(known, shown, walked, depth):
    if len(walked) == known:
        return f"All {known:,} positions can be walked through."
    reach = "some" if depth is None else f"those within {depth} moves of the start"
    return f"Of {known:,} positions {reach}, and those of the longest win and of best play, {len(walked):,} in all, can be walked through, {shown:,} looked at."


def made(table, name, most, moves):
    """The page of a table."""
    play = Play(language.read(table.game))
    balance = Balance(table, play)
    found, main = balance.summary(), balance.main_line()
    walked, depth = kept(table, most, moves)
    longest = found["longest"]["line"] if found["longest"] else []
    walked.update(longest, main)
    columns = Columns(table, play, balance, walked)
    text = play.game.text.decode("utf-8", "replace")
    data = {"game": text, "colours": boards.colours(play), "columns": columns.packed(), "places": list(columns.places)}
    data.update({"longest": longest, "main": main, "statistics": statistics(found)})
    state = "finished" if table.counts.is_finished else "worked on still"
    script = scripts.written(scripts.script(MODULES), {"RBG_DATA": scripts.literal(data)})
    fields = {
        "TITLE": html.escape(Path(name).name),
        "STYLE": scripts.part("page.css"),
        "PLAYER": scripts.part("player.html"),
        "STATE": html.escape(f"{table.counts.known:,} positions, {state}; the start is {table.value(0)}"),
        "EXTENT": extent(table.counts.known, len(columns.shown), walked, depth),
        "GAME": html.escape(text),
        "SCRIPT": script,
    }
    return scripts.filled("report.html", fields)
