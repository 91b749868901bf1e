"""Asks a table of rbgsolve from Python: one file, which may be copied, with nothing beside it but the program or its library.

    import rbgtable

    with rbgtable.Table("chomp.table") as table:
        print(table.counts)                       # known 67 expanded 67 settled 67 processed 67 finished
        print(table.value(0))                     # first in 8
        print(table.find("second 21 a1 p,c,c,c,c,c,e,e,c,c,e,e 1,0"))         # 7
        for move in table.moves(1):               # best first
            print(move.number, move.value, move.word, move.text)
        for row in table.rows():                  # each position: number, text, value
            print(row.number, row.text, row.value)
    print(rbgtable.solve("chomp.rbg").best(1))    # solves a game, and gives a best move

Values, texts, lines, moves and the game's text are the answers of `rbgsolve look` (docs/COMMANDS.md), which writes nothing:
many may look at a table at once, but none while a run works on it. Where all edges are wanted, `successors` reads them
from the file's bytes (docs/FORMAT.md), as they are when it is first called. What cannot be answered raises `Refused`, with the
program's code and sentence.

A table is asked in this process where the module of the solver's library is there (rbgsolve.py, with librbgsolve.so beside it),
else by the program, which is started for it. The answers are the same. docs/PYTHON.md tells the rest.

Threads may share a `Table`: their questions are answered one after the other. Two that ask much at once are each answered
sooner by a `Table` of their own.
"""
from __future__ import annotations

import fcntl
import io
import os
import re
import struct
import subprocess
import sysconfig
import tempfile
import threading
import time
from array import array
from contextlib import contextmanager
from typing import NamedTuple

PAGE = 4096
# how the piece is called that stands where nothing stands
EMPTY = ("e", "empty")
# so many bytes of lines are sent before their replies are read: they fit into a pipe, so that neither side waits for the other for ever
AT_ONCE = 4000
# the game's text has so many bytes at most
MOST_TEXT = 65536
# a table with more bytes is left to the program, which does not read it whole
MOST_IN_PROCESS = 1 << 28
# a table has so many pages at most; one that is made here begins with few
MOST_PAGES, FIRST_PAGES = 1048576, 64
MOST_GOAL = 1000000
# what ends a session, with the status that the program has for it
ENDS = {"E1": 4, "E4": 3, "E8": 5, "G10": 5}
# a reply that refuses a line: no text of a position and no value looks like it, whatever the players are called
REFUSAL = re.compile(r"refused ([EGS][0-9]+)( .*)?")


class Refused(Exception):
    """A refusal: the code, as `E4` or `S7`, the exit status that the program has for it, and the sentence that it told.
    A session that could not begin, as another run has the table, has no code, and the sentence tells why."""

    def __init__(self, message, code="", status=1, told=""):
        super().__init__(f"{message}: {told}" if told else message)
        self.message, self.code, self.status, self.told = message, code, status, told


class Value(NamedTuple):
    """What a table says of a position: the winner's name and in how many moves, or no winner: `drawn` or `open`."""

    winner: str | None
    distance: int
    is_open: bool

    def __str__(self):
        return f"{self.winner} in {self.distance}" if self.winner else "open" if self.is_open else "drawn"


class Row(NamedTuple):
    number: int
    text: str
    value: Value


class Move(NamedTuple):
    """A move: the number and the value of the position that it leads to, what it does, the text of that position, and a short name, which
    no other move of its position has. The word is pairs of the number of an action and the vertex where it is done; a position that is not
    known has no number, and is open."""

    number: int | None
    value: Value
    word: tuple[tuple[int, str], ...]
    text: str
    name: str = ""


class Counts(NamedTuple):
    known: int
    expanded: int
    settled: int
    processed: int
    is_finished: bool

    def __str__(self):
        names = ("known", "expanded", "settled", "processed")
        return " ".join(f"{name} {count}" for name, count in zip(names, self)) + (" finished" if self.is_finished else " open")


class Pages(NamedTuple):
    """How many pages a table has, how many of them are used, and how many free."""

    all: int
    used: int
    free: int

    def __str__(self):
        return f"pages {self.all} used {self.used} free {self.free}"


class Root(NamedTuple):
    """The fields of a root slot that are used here."""

    layout: int
    packing: int
    text_page: int
    text_bytes: int
    known: int
    edges_page: int
    edges: int
    capacity: int
    goal: int


def batches(lines):
    """The lines, as many at once as fit into a pipe."""
    batch, size = [], 0
    for line in lines:
        if batch and size + len(line) > AT_ONCE:
            yield batch
            batch, size = [], 0
        batch.append(line)
        size += len(line) + 1
    if batch:
        yield batch


def counts_of(reply):
    """What a reply to `status` or `work` says."""
    words = reply.split()[-9:]
    return Counts(*map(int, words[1:8:2]), words[8] == "finished")


def pages_of(reply):
    """What a reply to `pages` says."""
    return Pages(*map(int, reply.split()[1::2]))


def value_of(words):
    if words in (["drawn"], ["open"]):
        return Value(None, 0, words == ["open"])
    return Value(words[0], int(words[2]), False)


def reply_if_known(reply):
    """A reply, or None where it refuses since no such position is known."""
    if not isinstance(reply, Refused):
        return reply
    if reply.code != "S7":
        raise reply
    return None


def move_of(line):
    """The move that a line of `moves N` tells: NUMBER VALUE MOVE => POSITION."""
    told, _, text = line.partition(" => ")
    number, *words = told.split(" ")
    value, word = (words[:3], words[3:]) if words[1:2] == ["in"] else (words[:1], words[1:])
    pairs = (part.partition("@") for part in word)
    return Move(None if number == "?" else int(number), value_of(value), tuple((int(action), vertex) for action, _, vertex in pairs), text)


class Naming:
    """Short names of moves, from the texts of the positions before and behind them: `R b3-a3` and `R b3xc3` for a piece that goes, and takes;
    `x b2` for one that is put, `x@c2` where more is done; `b off c2` for one that is taken away; else what changes of the values, as
    `heap 3 to 1`. page/moves.mjs makes the same names."""

    def __init__(self, vertices, values):
        self.vertices, self.values = vertices, values

    def names(self, before, texts):
        """The names of the moves of a position to these; of those that have one name, the second by the order of the texts has #2, and so on."""
        used, found = {}, {}
        for text in sorted(texts):
            name = self.plain(before, text)
            used[name] = used.get(name, 0) + 1
            found[text] = name if used[name] == 1 else f"{name} #{used[name]}"
        return [found[text] for text in texts]

    def plain(self, before, after):
        _, _, _, pieces, values = before.split(" ")
        _, _, vertex, pieces_behind, values_behind = after.split(" ")
        if pieces != pieces_behind:
            changed = zip(self.vertices, pieces.split(","), pieces_behind.split(","))
            return on_board([change for change in changed if change[1] != change[2]])
        amounts = [*zip(self.values, values.split(","), values_behind.split(","))]
        # what is no score tells more than the two scores do
        for some in (amounts[2:], amounts[:2]):
            changed = ", ".join(f"{name} {was} to {now}" for name, was, now in some if was != now)
            if changed:
                return changed
        return f"to {vertex}"


def on_board(changed):
    """The name of a move that changes these vertices, each with the piece before and behind."""
    left = [(vertex, was) for vertex, was, now in changed if now in EMPTY]
    came = [(vertex, was, now) for vertex, was, now in changed if now not in EMPTY]
    gone, goes, puts = dict.fromkeys(vertex for vertex, _ in left), [], []
    for vertex, was, now in came:
        begins = [begin for begin, piece in left if piece == now]
        if len(begins) == 1 and [piece for _, _, piece in came].count(now) == 1:
            goes.append(f"{now} {begins[0]}{'-' if was in EMPTY else 'x'}{vertex}")
            del gone[begins[0]]
        else:
            puts.append((now, vertex))
    away = {}
    for vertex, piece in left:
        if vertex in gone:
            away.setdefault(piece, []).append(vertex)
    if len(puts) == 1 and not goes and not away:
        return " ".join(puts[0])
    return " ".join([*goes, *map("@".join, puts), *(f"{piece} off {' '.join(vertices)}" for piece, vertices in away.items())])


def library():
    """The module of the solver's library, if there is one that loads."""
    try:
        import rbgsolve
    except (ImportError, OSError, AttributeError):
        return None
    # a folder of that name is a module without anything in it
    return rbgsolve if hasattr(rbgsolve, "Table") else None


def found_program():
    """The program where none is named: that of the variable RBGSOLVE_PROGRAM; of the checkout, the release or the installation in whose folder
    tools/ this file lies; of this Python's scripts; or of the PATH."""
    named = os.environ.get("RBGSOLVE_PROGRAM")
    if named:
        return named
    folder, within = os.path.split(os.path.dirname(os.path.realpath(__file__)))
    # in a checkout ./rbgsolve is a script, which looks at each call whether the program is built
    ours = "crates/solver_main/out/solver_main" if os.path.isdir(os.path.join(folder, "crates")) else "rbgsolve"
    beside = [os.path.join(folder, ours)] if within == "tools" else [os.path.join(folder, within, "bin", "rbgsolve")]
    for path in [*beside, os.path.join(sysconfig.get_path("scripts"), "rbgsolve")]:
        if os.path.isfile(path) and os.access(path, os.X_OK):
            return path
    return "rbgsolve"


def no_program(words, error):
    """The refusal where a program cannot be started."""
    hint = "" if os.path.dirname(words[0]) else ": name the program, or let the variable RBGSOLVE_PROGRAM name it"
    return Refused(f"{os.fsdecode(words[0])}: {error.strerror}{hint}", status=2)


def words_of(program):
    """The words that start a program: one name, or a list."""
    if program is None:
        program = found_program()
    return [program] if isinstance(program, (str, bytes, os.PathLike)) else list(program)


def no_memory(name):
    return Refused(f"{name}: refused E8", "E8", 5)


class InProcess:
    """A table in this process, with as much of a Popen as a `Table` asks: lines go to `stdin`, and their replies come from `stdout`."""

    def __init__(self, table, lock=None):
        self.stdin = self.stdout = self
        # the table, and the file that is locked as long as it is asked
        self.table, self.lock = table, lock
        self.replies, self.status = io.BytesIO(), 0

    @classmethod
    def of_file(cls, module, name):
        """The table of a file, which is read whole, under the lock that `rbgsolve look` takes."""
        try:
            file = open(name, "rb")
        except OSError as error:
            raise Refused(f"{name}: refused E1", "E1", 4, error.strerror) from error
        try:
            fcntl.flock(file, fcntl.LOCK_SH | fcntl.LOCK_NB)
            return cls(module.Table(file.read()), file)
        except BlockingIOError:
            file.close()
            told = f"rbgsolve: another run has {name}; two at once would lose work, so wait for its end"
            raise Refused(f"{name}: the session ended", status=4, told=told) from None
        except module.Refused as refused:
            file.close()
            raise Refused(f"{name}: {refused}", refused.code, refused.status) from None
        except MemoryError:
            file.close()
            raise no_memory(name) from None
        except BaseException:
            file.close()
            raise

    def write(self, lines):
        try:
            self.replies = io.BytesIO(self.table.look(lines).encode())
        except MemoryError:
            self.replies = io.BytesIO(b"refused E8\n")

    def flush(self):
        """What was written is answered."""

    def readline(self):
        reply = self.replies.readline()
        self.status = ENDS.get(reply.decode().removeprefix("refused ").rstrip("\n"), self.status)
        return reply

    def close(self):
        self.table.close()
        if self.lock:
            self.lock.close()

    def wait(self):
        return self.status


class Table:
    """A table that is asked. `program` is the words that start rbgsolve, one name or a list; where it is left out, the table is asked in
    this process if the library is there, else by the program that is found."""

    def __init__(self, file, program=None):
        self.file = os.fspath(file)
        module = library() if program is None and self._is_small() else None
        if module:
            self._begin(InProcess.of_file(module, self.file))
        else:
            self._begin_program(words_of(program))

    @classmethod
    def _of(cls, name, process):
        """The table of a process that is begun, which no file has."""
        made = cls.__new__(cls)
        made.file = name
        made._begin(process)
        return made

    def _is_small(self):
        return not os.path.exists(self.file) or (os.path.isfile(self.file) and os.path.getsize(self.file) <= MOST_IN_PROCESS)

    def _begin_program(self, program):
        try:
            # standard error goes to a file: a pipe that nobody reads would fill up, and stop the program
            told = tempfile.TemporaryFile()
        except OSError as error:
            raise Refused(f"no file for a while can be made: {error.strerror}", status=4) from error
        try:
            process = subprocess.Popen(
                [*program, "look", "--", self.file], stdin=subprocess.PIPE, stdout=subprocess.PIPE, stderr=told
            )
        except OSError as error:
            told.close()
            raise no_program(program, error) from error
        self._begin(process, told, program)

    def _begin(self, process, told=None, program=None):
        self._process, self._told, self._program = process, told, program
        self._successors, self._game, self._naming, self._boards, self._room = None, None, None, None, None
        self._lock, self._has_ended = threading.RLock(), False
        # where the sentences begin that belong to the lines that are answered: to the first line, all of them
        self._told_before = None
        try:
            reply = self.ask("status")
            if reply == "no game":
                raise Refused(f"{self.file}: no game is loaded", "S1")
            self.counts = counts_of(reply)
        except BaseException:
            self.close()
            raise

    @property
    def is_in_process(self):
        """Whether it is asked in this process, and not by the program."""
        return isinstance(self._process, InProcess)

    def __enter__(self):
        return self

    def __exit__(self, *_):
        self.close()

    def close(self):
        """Ends the session."""
        with self._lock:
            self._end_input()
            self._process.stdout.close()
            self._process.wait()
            if self._told:
                self._told.close()
            if self._room:
                self._room.cleanup()

    def _end_input(self):
        self._has_ended = True
        try:
            self._process.stdin.close()
        except OSError:
            pass  # the session ended before it had read all lines

    # lines and replies

    def ask(self, line):
        """The reply to a line that has one line of reply."""
        return next(iter(self.ask_all([line])))

    def ask_all(self, lines, replies=1):
        """The replies to lines that have so many lines of reply each; a line that is refused ends them by `Refused`."""
        for batch in batches(lines):
            yield from self._answered(batch, replies)

    @contextmanager
    def _one_at_a_time(self):
        """Keeps other threads waiting. A question that is broken off, as by ctrl-C, ends the session: its replies would be taken for others."""
        with self._lock:
            try:
                yield
            except Refused:
                raise
            except BaseException:
                self._end_input()
                raise

    def _answered(self, lines, replies):
        """The replies to some lines. All are read before the first is handed out: other questions may come between two of them."""
        with self._one_at_a_time():
            found = self._exchange(lines, replies)
        for reply in found:
            if isinstance(reply, Refused):
                raise reply
            yield reply

    def _exchange(self, lines, replies):
        """The replies to some lines, with a `Refused` in the place of those of a line that is refused."""
        self._send(lines)
        found = []
        for line in lines:
            for _ in range(replies if isinstance(replies, int) else replies(line)):
                try:
                    found.append(self._reply())
                except Refused as refused:
                    found.append(refused)
                    break  # that line has no other reply
            if self._has_ended:
                break
        return found

    def _send(self, lines):
        """Sends some lines; one with a line feed in it would be two, and each later question would have the reply to another one."""
        for line in lines:
            if "\n" in line:
                raise Refused(f"{self.file}: a line feed stands in a question: {line!r}", status=2)
        if self._has_ended:
            raise Refused(f"{self.file}: the session has ended")
        if self._told:
            self._told_before = 0 if self._told_before is None else os.fstat(self._told.fileno()).st_size
        try:
            self._process.stdin.write(("\n".join(lines) + "\n").encode("utf-8", "surrogateescape"))
            self._process.stdin.flush()
        except (OSError, ValueError):
            pass  # the session has ended: its last reply tells why

    def _reply(self):
        reply = self._process.stdout.readline().decode("utf-8", "replace").rstrip("\n")
        if reply and not reply.startswith(("refused ", "usage")):
            return reply
        refusal = REFUSAL.fullmatch(reply)
        if reply and reply != "usage" and not refusal:
            return reply
        code, status = refusal[1] if refusal else "", 2 if reply == "usage" else 1
        if not reply or code in ENDS:
            self._end_input()
            status = self._process.wait() or 1
        told = "" if reply == "usage" or not self._told else self._told_since()
        raise Refused(f"{self.file}: {reply or 'the session ended'}", code, status, told)

    def _told_since(self):
        """The first sentence on standard error since the lines that are answered were sent; the last one of a session that has ended."""
        file, ends = self._told.fileno(), time.monotonic() + 0.2
        while True:
            # the program writes where the file stands, so that reading may not move it
            told = os.pread(file, os.fstat(file).st_size, self._told_before)
            # a session that goes on writes the sentence behind the reply: it comes at once
            if self._has_ended or b"\n" in told or time.monotonic() > ends:
                break
            time.sleep(0.0001)
        lines = told.decode("utf-8", "replace").splitlines()
        return lines[-1 if self._has_ended else 0] if lines else ""

    # questions

    def value(self, number):
        """Who wins a position, and in how many moves."""
        return value_of(self.ask(f"value {number}").split())

    def show(self, number):
        """The text of a position."""
        return self.ask(f"show {number}")

    def find(self, text):
        """The number of the position with this text, or None if it is not known."""
        return next(iter(self.find_all([text])))

    def find_all(self, texts):
        """The numbers of the positions with these texts, in their order, and None for each that is not known."""
        return [None if reply is None else int(reply.split(" ")[1]) for reply in self._if_known("find", texts)]

    def _if_known(self, word, texts):
        """The replies to a word with each of these texts behind it, and None for each that is not known."""
        for batch in batches(f"{word} {text}" for text in texts):
            with self._one_at_a_time():
                replies = self._exchange(batch, 1)
            yield from map(reply_if_known, replies)

    def line(self, number):
        """The numbers along a shortest win from a position."""
        return [int(word) for word in self.ask(f"line {number}").split()[1:]]

    def listed(self, begin=0, end=None):
        """The lines `NUMBER VALUE` of the positions from `begin` on, up to the one before `end`: the fastest way to all values."""
        end = self.counts.known if end is None else min(end, self.counts.known)
        blocks = (f"list {at} {min(256, end - at)}" for at in range(begin, end, 256))
        yield from self.ask_all(blocks, lambda line: int(line.split()[2]))

    def values(self, begin=0, end=None):
        """The values of the positions from `begin` on, up to the one before `end`."""
        for reply in self.listed(begin, end):
            yield value_of(reply.split()[1:])

    def rows(self, begin=0, end=None):
        """Number, text and value of the positions from `begin` on, up to the one before `end`."""
        end = self.counts.known if end is None else min(end, self.counts.known)
        for block in range(begin, end, 256):
            last = min(block + 256, end)
            values = list(self.values(block, last))
            texts = self.ask_all(f"show {number}" for number in range(block, last))
            for number, text, value in zip(range(block, last), texts, values):
                yield Row(number, text, value)

    def value_at(self, text):
        """The value of the position with this text, or None if it is not known."""
        return next(iter(self.values_at([text])))

    def values_at(self, texts):
        """The values of the positions with these texts, in their order, and None for each that is not known."""
        return [None if reply is None else value_of(reply.split(" ")) for reply in self._if_known("value-of", texts)]

    def moves(self, number):
        """The moves of a position, best first for who has the turn: won soonest, drawn, open, lost latest."""
        with self._one_at_a_time():
            # how many lines the reply has is not known before: it ends where that to `status` begins
            self._send([f"moves {number}", "status", f"show {number}"])
            try:
                found = [self._reply()]
            except Refused:
                self._skip(2)
                raise
            while " => " in found[-1] or found[-1] == "ended":
                found.append(self._reply())
            before = self._reply()
        moves = [move_of(line) for line in found[:-1] if line != "ended"]
        names = self.naming.names(before, [move.text for move in moves])
        return [move._replace(name=name) for move, name in zip(moves, names)]

    def _skip(self, lines):
        """Reads the replies to so many lines behind one that is refused."""
        for _ in range(lines):
            try:
                if not self._has_ended:
                    self._reply()
            except Refused:
                pass  # what is refused there is so for the cause that is told already

    @property
    def naming(self):
        """What gives moves of this game their short names."""
        if self._naming is None:
            values = [name for section in ("players", "variables") for name in re.findall(r"(\w+)\s*\(", self._section(section))]
            self._naming = Naming(self.vertices, values)
        return self._naming

    def best(self, number):
        """A best move of a position, or None where it has no move."""
        return next(iter(self.moves(number)), None)

    # boards

    @property
    def vertices(self):
        """The names of the vertices, in the order in which texts have what stands on them."""
        return re.findall(r"(\w+)\s*\[[^]]*\]\s*\{[^}]*\}", self._section("board"))

    def _section(self, title):
        """A section of the game's text, without comments; nothing where there is none."""
        text = re.sub(rb"//[^\n]*", b" ", self.game).decode("utf-8", "replace")
        found = re.search(rf"#\s*{title}\s*=([^#]*)", text)
        return found[1] if found else ""

    def numbers_at(self, board, turn):
        """The numbers of the positions with this board in which `turn` (a player, or `>>` for the keeper) has the turn. The board is what
        stands on each vertex: a list, or a mapping by vertex. The first such question reads the texts of all positions."""
        vertices = self.vertices
        if hasattr(board, "keys"):
            wrong = sorted(set(vertices) ^ set(board))
            pieces = [board.get(name) for name in vertices]
        else:
            pieces = board.split(",") if isinstance(board, str) else list(board)
            wrong = [] if len(pieces) == len(vertices) else [f"{len(pieces)} pieces"]
        if wrong:
            raise ValueError(f"a board has a piece for each of {', '.join(vertices)}, and for no other: {', '.join(map(str, wrong))}")
        with self._lock:
            if self._boards is None:
                self._boards = self._numbers_by_board()
            return list(self._boards.get(f"{turn} {','.join(pieces)}", ()))

    def _numbers_by_board(self):
        found = {}
        texts = self.ask_all(f"show {number}" for number in range(self.counts.known))
        for number, text in enumerate(texts):
            role, _, _, pieces, _ = text.split(" ")
            found.setdefault(f"{role} {pieces}", array("I")).append(number)
        return found

    def at(self, board, turn):
        """The number of the position with this board and this turn (as `numbers_at` has them), or None if none is known. Of several, which
        differ in the place in the rules, the current vertex, the scores or the variables, the first that was found; where their values
        differ, that would be a guess, and `Refused` names them."""
        numbers = self.numbers_at(board, turn)
        values = set(value_of(reply.split()) for reply in self.ask_all(f"value {number}" for number in numbers))
        if len(values) > 1:
            raise Refused(f"{self.file}: positions with this board have different values: {', '.join(map(str, numbers))}")
        return numbers[0] if numbers else None

    @property
    def pages(self):
        """How many pages the table has, how many of them are used, and how many free."""
        return pages_of(self.ask("pages"))

    @property
    def game(self):
        """The text of the table's game."""
        with self._lock:
            if self._game is None:
                self._game = self._asked_game()
            return self._game

    def _asked_game(self):
        if self.is_in_process:
            file = self._bytes()
            return text_of(file, root_of(file))
        # a session of its own: the text may have any bytes, so that no line tells where it ends
        return ran(self.file, [*self._program, "look", "--", self.file], b"game\n")

    def _bytes(self):
        """The bytes of the table, as a file to be read."""
        return io.BytesIO(self._process.table.bytes()) if self.is_in_process else open(self.file, "rb")

    # what the file's bytes tell

    def successors(self, number):
        """The numbers that the moves of a position lead to."""
        if not 0 <= number < self.counts.known:
            raise Refused(f"{self.file}: refused S7: there is no position {number}", "S7")
        with self._lock:
            if self._successors is None:
                self._successors = self._read_successors()
            begins, to = self._successors
        return list(to[begins[number] : begins[number + 1]])


    def _read_successors(self):
        with self._bytes() as file:
            try:
                return successors_in(file, root_of(file))
            except (ValueError, IndexError, OverflowError, struct.error) as error:
                raise Refused(f"{self.file}: refused E4", "E4", 3, "the tree of edges is damaged") from error


def ran(name, words, given=b""):
    """What the program prints on these words; `name` is what it is asked about."""
    try:
        done = subprocess.run(words, input=given, capture_output=True, check=False)
    except OSError as error:
        raise no_program(words, error) from error
    refusal = REFUSAL.fullmatch(done.stdout.decode("utf-8", "replace").strip())
    if done.returncode or refusal:
        told = done.stderr.decode("utf-8", "replace").strip()
        raise Refused(f"{name}: {refusal[0] if refusal else 'no answer'}", refusal[1] if refusal else "", done.returncode or 1, told)
    return done.stdout


# solving


def solve(game, file=None, goal=0, tell=None, program=None):
    """The table of the game of a text's file, worked to its end. It is kept in `file`, or for as long as it is open; `goal` is how many
    points win, if not more than the other has; `tell` is called with the `Counts` behind each step. A file that is there is gone on with,
    if it has this game and goal. Without `file`, and without a `program`, it is solved in this process where the library is there."""
    if not 0 <= goal <= MOST_GOAL:
        raise ValueError(f"a goal has 1 to {MOST_GOAL:,} points, or is 0 for none: {goal}")
    module = library() if program is None and file is None else None
    if module:
        return solved_in_process(module, os.fspath(game), goal, tell)
    room = tempfile.TemporaryDirectory(prefix="rbgtable") if file is None else None
    try:
        program = words_of(program)
        name = os.path.join(room.name, "solved.table") if room else os.fspath(file)
        prepare(program, name, os.fspath(game), goal)
        work(program, name, tell)
        table = Table(name, program)
    except BaseException:
        if room:
            room.cleanup()
        raise
    table._room = room
    return table


def read_game(game):
    try:
        with open(game, "rb") as file:
            return file.read(MOST_TEXT + 1)
    except OSError as error:
        raise Refused(f"{game}: refused E1", "E1", 4, error.strerror) from error


def solved_in_process(module, game, goal, tell):
    pages = FIRST_PAGES
    try:
        table = module.Table.of_game(read_game(game), pages, goal)
        while True:
            reply = table.lines("work 256\n").rstrip("\n")
            if reply == "refused E7" and pages < MOST_PAGES:
                pages *= 2
                table.grow(pages)
            elif reply.startswith("refused"):
                raise module.Refused(reply, 1)
            elif tell:
                tell(counts_of(reply))
            if reply.endswith(" finished"):
                return Table._of(game, InProcess(table))
    except module.Refused as refused:
        raise Refused(f"{game}: {refused}", refused.code.partition(" ")[0], refused.status) from None
    except MemoryError:
        raise no_memory(game) from None


def prepare(program, name, game, goal):
    """Makes the table of a game, or sees that the one that is there is it."""
    load = [*program, "load", *(["--goal", str(goal)] if goal else []), "--", name, game]
    if not os.path.exists(name):
        ran(name, [*program, "create", "--pages", str(FIRST_PAGES), "--", name])
        try:
            ran(game, load)
        except Refused:
            os.unlink(name)
            raise
        return
    try:
        with Table(name, program) as table, open(name, "rb") as file:
            same = table.game == read_game(game) and root_of(file).goal == goal
    except Refused as refused:
        if refused.code != "S1":
            raise
        ran(game, load)
        return
    if not same:
        raise Refused(f"{name}: a table is there, with another game or goal")


def work(program, name, tell):
    """Works a table to its end, with more pages where they run out."""
    while True:
        reply, status, told = worked(program, name, tell)
        if reply.endswith(" finished"):
            return
        with open(name, "rb") as file:
            pages = root_of(file).capacity
        if reply != "refused E7" or pages >= MOST_PAGES:
            refusal = REFUSAL.fullmatch(reply)
            raise Refused(f"{name}: {reply if refusal else 'the session ended'}", refusal[1] if refusal else "", status or 1, told)
        ran(name, [*program, "grow", "--pages", str(min(2 * pages, MOST_PAGES)), "--", name])


def worked(program, name, tell):
    """The last reply of a session that works as long as it can, its status, and its last sentence."""
    with tempfile.TemporaryFile() as told, subprocess.Popen(
        [*program, "session", "--", name], stdin=subprocess.PIPE, stdout=subprocess.PIPE, stderr=told
    ) as session:
        reply = ""
        while not reply.endswith(" finished") and not reply.startswith("refused"):
            try:
                session.stdin.write(b"work 256\n")
                session.stdin.flush()
            except OSError:
                pass  # the session has ended: its last reply tells why
            reply = session.stdout.readline().decode("utf-8", "replace").rstrip("\n")
            if not reply:
                break
            if tell and reply.startswith("units "):
                tell(counts_of(reply))
        try:
            session.stdin.close()
        except OSError:
            pass
        status = session.wait()
        sentences = os.pread(told.fileno(), os.fstat(told.fileno()).st_size, 0).decode("utf-8", "replace").splitlines()
        return reply, status, sentences[-1] if sentences else ""


# the file's bytes


def root_of(file):
    """The root that the gate picks; None if the file is no table, or its layout none of 2 and 3."""
    file.seek(0)
    if file.read(8) != b"RBGTABLE":
        return None
    file.seek(512)
    gate = file.read(1)
    file.seek(1024 + 512 * (gate[0] & 1) if gate else 1024)
    slot = file.read(512)
    if len(slot) < 512:
        return None
    layout, packing, _, chain, text, _, known, *_ = struct.unpack(">IIQIIIIIII", slot[:44])
    edges_page, _, edges, capacity, goal = struct.unpack(">IIQII", slot[52:76])
    if layout == 2:
        capacity, goal = min(file.seek(0, os.SEEK_END) // PAGE, 1048576), 0
    return Root(layout, packing, chain, text, known, edges_page, edges, capacity, goal) if layout in (2, 3) else None


def page_of(file, page):
    file.seek(PAGE * page)
    return file.read(PAGE)


def text_of(file, root):
    """The text in a table's chain; refused where the chain has not as many whole pages as that takes, so that any file may be asked."""
    text, page = b"", root.text_page
    while len(text) < min(root.text_bytes, MOST_TEXT):
        found = page_of(file, page)
        if not page or len(found) < PAGE:
            break
        text += found[4:]
        page = struct.unpack(">I", found[:4])[0]
    if len(text) < root.text_bytes:
        raise Refused(f"{os.fsdecode(file.name)}: refused E4", "E4", 3, "the chain of the text is damaged")
    return text[: root.text_bytes]


def edge_leaves(file, page, seen):
    """The numbers in the leaves of a tree of edges: the one that is led to, the one that leads there, and so on. `seen` gets its pages:
    one that comes twice is no tree's."""
    if not page:
        return
    if page in seen:
        raise ValueError(f"page {page} stands twice in the tree of edges")
    seen.add(page)
    bytes_ = page_of(file, page)
    count = struct.unpack(">H", bytes_[2:4])[0]
    if bytes_[0] == 1:
        yield struct.unpack(f">{2 * count}I", bytes_[4 : 4 + 8 * count])
        return
    for at in range(count):
        yield from edge_leaves(file, struct.unpack(">I", bytes_[12 + 12 * at : 16 + 12 * at])[0], seen)


def successors_in(file, root):
    """Where the successors of each number begin, and all of them in that order."""
    begins = array("I", bytes(4 * (root.known + 1)))
    leaves = list(edge_leaves(file, root.edges_page, set()))
    for leaf in leaves:
        for before in leaf[1::2]:
            begins[before + 1] += 1
    for number in range(root.known):
        begins[number + 1] += begins[number]
    places, to = array("I", begins), array("I", bytes(4 * root.edges))
    for leaf in leaves:
        for after, before in zip(leaf[::2], leaf[1::2]):
            to[places[before]] = after
            places[before] += 1
    return begins, to
