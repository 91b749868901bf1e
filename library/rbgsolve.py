"""The proved solver in this process: librbgsolve.so, which tools/library makes, by ctypes.

    import rbgsolve

    print(rbgsolve.moves(open("take.rbg").read()), end="")          # 1@v 2@v => white 2 v e 0,0,3
    with rbgsolve.Table.of_game(open("take.rbg").read(), pages=16) as table:
        print(table.solve())                                        # known 7 expanded 7 settled 7 processed 7 finished
        print(table.value(0))                                       # black in 3
        open("take.table", "wb").write(table.bytes())

The library is looked for beside this file, or is the one that RBGSOLVE_LIBRARY names. What is refused raises `Refused`, with the
program's code; what finds no memory raises `MemoryError`. docs/COMMANDS.md has the lines, rbgsolve.h what each call does.
"""
from __future__ import annotations

import ctypes
import os
import threading
from ctypes import POINTER, byref, c_bool, c_char, c_char_p, c_size_t, c_uint8, c_uint32, c_uint64, c_void_p

PAGE = 4096
NO_GOAL, NO_TEXT, NO_MEMORY, TOO_LONG, NOT_OPEN = 2, 4, 5, 6, 7
# as many bytes as most answers have; a longer one is asked for again
MOST = 1 << 16

_library = ctypes.CDLL(os.environ.get("RBGSOLVE_LIBRARY")
                       or os.path.join(os.path.dirname(os.path.abspath(__file__)), "librbgsolve.so"))


class _Room(ctypes.Structure):
    _fields_ = [("at", c_void_p)]


_READ = [c_char_p, c_size_t]
_WRITTEN = [POINTER(c_char), c_size_t]
_TEXT = [*_WRITTEN, POINTER(c_size_t)]
for _name, _words in {
    "moves": [*_READ, *_TEXT],
    "moves_at": [*_READ, *_READ, *_TEXT],
    "actions": [*_READ, *_TEXT],
    "fault": [*_READ, *_TEXT],
    "check": [*_READ, *_READ, c_bool, *_TEXT],
    "create": [*_WRITTEN, *_TEXT],
    "load": [*_WRITTEN, *_READ, c_uint32, *_TEXT],
    "audit": [*_WRITTEN, *_TEXT],
    "grow": [*_WRITTEN, c_size_t, *_TEXT],
    "migrate": [*_WRITTEN, *_TEXT],
    "session": [*_WRITTEN, *_READ, *_TEXT],
    "look": [*_WRITTEN, *_READ, *_TEXT],
    "room_new": [POINTER(c_void_p)],
    "room_free": [_Room],
    "open": [POINTER(_Room), *_READ, POINTER(c_uint64), *_TEXT],
    "lines": [POINTER(_Room), c_uint64, c_bool, *_READ, POINTER(c_size_t)],
    "answers": [POINTER(_Room), c_uint64, *_TEXT],
    "bytes": [POINTER(_Room), c_uint64, *_TEXT],
    "close": [POINTER(_Room), c_uint64],
}.items():
    _call = getattr(_library, f"rbg_{_name}")
    _call.restype, _call.argtypes = (None if _name == "room_free" else c_uint8), _words


class Refused(Exception):
    """A refusal: the code, as `E4` or `S7`, where there is one, and the exit status that the program has for it."""

    def __init__(self, message, status):
        super().__init__(message)
        word, _, code = message.partition(" ")
        self.code, self.status = code if word == "refused" else "", status


def _bytes(text):
    return text.encode() if isinstance(text, str) else bytes(text)


def _read(text):
    return text, len(text)


def _written(table):
    return (c_char * len(table)).from_buffer(table), len(table)


def _asked(name, *words, most=MOST):
    """The status and the text of a call, which is made again where the text is longer than there was room for."""
    while True:
        out, count = ctypes.create_string_buffer(max(most, 1)), c_size_t()
        status = getattr(_library, f"rbg_{name}")(*words, out, most, byref(count))
        if count.value <= most:
            return status, out.raw[: count.value]
        most = count.value


def _told(status, text):
    """The text of a call that was done; what was refused raises."""
    if status == NO_MEMORY or status == NO_TEXT and not text:
        raise MemoryError("the solver found no memory")
    if status == NO_GOAL:
        raise ValueError("a goal has 1 to 1,000,000 points")
    if status == NOT_OPEN:
        raise ValueError("the table is closed")
    if status and not text.startswith(b"wrong"):
        raise Refused(text.decode().strip(), status)
    return text.decode()


def moves(game):
    """The moves of the start of a game, one a line, as `rbgsolve moves` prints them."""
    return _told(*_asked("moves", *_read(_bytes(game))))


def moves_at(game, position):
    """The moves of the position with this text."""
    return _told(*_asked("moves_at", *_read(_bytes(game)), *_read(_bytes(position))))


def actions(game):
    """The numbered actions of a game's rules, as `rbgsolve actions` prints them."""
    return _told(*_asked("actions", *_read(_bytes(game))))


def fault(game):
    """Where and why a text is no game, as (line, column, code, message); None where it is one."""
    status, text = _asked("fault", *_read(_bytes(game)))
    if status == NO_MEMORY:
        raise MemoryError("the solver found no memory")
    if not status:
        return None
    line, column, code, message = text.decode().split(" ", 3)
    return int(line), int(column), code, message


def check(certificate, game=None):
    """What a certificate shows, as `rbgsolve check` prints it; of this game, if one is given."""
    return _told(*_asked("check", *_read(_bytes(certificate)), *_read(_bytes(game or b"")), game is not None))


def audit(table):
    """`right ..` or `wrong ..`, of the bytes of a table."""
    return _told(*_asked("audit", *_written(bytearray(table)))).strip()


def migrated(table):
    """The bytes of a table of an earlier layout in today's."""
    table = bytearray(table)
    _told(*_asked("migrate", *_written(table)))
    return bytes(table)


class Table:
    """A table that is open in this process. Different threads may ask: one at a time is answered."""

    def __init__(self, table):
        """The table of these bytes, which are copied."""
        self._lock, self._room, self._number = threading.RLock(), None, c_uint64()
        room = _Room()
        at = c_void_p()
        if _library.rbg_room_new(byref(at)):
            raise MemoryError("the solver found no memory")
        room.at = at.value
        self._room = room
        try:
            self._open(bytes(table))
        except BaseException:
            self.close()
            raise

    @classmethod
    def of_game(cls, game, pages=64, goal=0):
        """A new table of so many pages, with the game of this text loaded, and a goal of so many points, or none."""
        table = bytearray(PAGE * pages)
        _told(*_asked("create", *_written(table)))
        _told(*_asked("load", *_written(table), *_read(_bytes(game)), goal))
        return cls(table)

    def __enter__(self):
        return self

    def __exit__(self, *_):
        self.close()

    def __del__(self):
        if getattr(self, "_room", None):
            self.close()

    def close(self):
        """Lets go of the table. What was not taken by `bytes` is gone."""
        with self._lock:
            if self._room:
                _library.rbg_room_free(self._room)
                self._room = None

    def _open(self, table):
        _told(*_asked("open", byref(self._room), *_read(table), byref(self._number)))

    def _at(self):
        if not self._room:
            raise ValueError("the table is closed")
        return byref(self._room), self._number

    def _lines(self, looks, lines):
        with self._lock:
            text, count = _bytes(lines), c_size_t()
            status = _library.rbg_lines(*self._at(), looks, *_read(text), byref(count))
            if status == NOT_OPEN:
                raise ValueError("the table is closed")
            _, answers = _asked("answers", *self._at(), most=count.value)
            if status == NO_MEMORY or status == NO_TEXT:
                raise MemoryError(f"the solver found no memory after: {answers.decode()}")
            return answers.decode()

    def lines(self, lines):
        """The answers to lines of a session, refusals among them."""
        return self._lines(False, lines)

    def look(self, lines):
        """The answers to lines that only look."""
        return self._lines(True, lines)

    def _answer(self, line):
        answer = self.look(f"{line}\n").rstrip("\n")
        if answer.startswith("refused"):
            raise Refused(answer, 1)
        return answer

    def value(self, number):
        """Who wins the position with this number and in how many moves, or `drawn` or `open`."""
        return self._answer(f"value {number}")

    def value_at(self, text):
        """The value of the position with this text; nothing where it is not known."""
        try:
            return self._answer(f"value-of {text}")
        except Refused as refused:
            if refused.code == "S7":
                return None
            raise

    def values_at(self, texts):
        """The values of the positions with these texts, in order, by one call; nothing for each that is not known."""
        asked = [f"value-of {text}\n" for text in texts]
        answers = self.look("".join(asked)).splitlines()
        return [None if answer.startswith("refused") else answer for answer in answers]

    def moves(self, number):
        """The lines of the moves of a position, the best first."""
        answer = self._answer(f"moves {number}")
        return [] if answer == "ended" else answer.splitlines()

    def show(self, number):
        """The text of a position."""
        return self._answer(f"show {number}")

    def status(self):
        """How far the table is."""
        return self._answer("status")

    def solve(self, at_once=64):
        """Works until the table is finished, and says how far it is. A table that is full is refused with E7: `grow` it."""
        while True:
            last = self.lines("work 256\n" * at_once).splitlines()[-1]
            if last.startswith("refused"):
                raise Refused(last, 1)
            if last.endswith("finished"):
                return last.partition(" known ")[2].join(("known ", ""))

    def bytes(self):
        """The bytes of the table, as a file of it has them."""
        with self._lock:
            status, table = _asked("bytes", *self._at(), most=MOST)
            if status:
                _told(status, b"")
            return table

    def audit(self):
        """`right ..` or `wrong ..`"""
        return audit(self.bytes())

    def grow(self, pages):
        """Gives the table so many pages, more than it has."""
        with self._lock:
            had = self.bytes()
            table = bytearray(PAGE * pages)
            if len(table) < len(had):
                raise Refused("refused E6", 1)
            table[: len(had)] = had
            _told(*_asked("grow", *_written(table), len(had)))
            _library.rbg_close(*self._at())
            self._open(bytes(table))
