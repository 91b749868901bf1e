"""rbgtable.py over tables that the program made: in this process, and by the program."""
import functools
import importlib.util
import os
import subprocess
import threading
import time
from unittest import mock

import rbgtable
from rbg_parts import words

from . import stand_in
from .common import GAMES, ROOT, Case

WHERE = ROOT / "rbgsolve"


@functools.cache
def library():
    """The module of the solver's library where it is built, else what stands in for it."""
    made = ROOT / "library/out/rbgsolve.py"
    if not made.with_name("librbgsolve.so").exists():
        return stand_in
    found = importlib.util.spec_from_file_location("rbgsolve", made)
    module = importlib.util.module_from_spec(found)
    found.loader.exec_module(module)
    return module


class Questions:
    """Questions that are answered alike both ways. `asked` opens a table."""

    def opened(self, game):
        return self.asked(self.table(game))

    def test_take(self):
        """The rows of take, as transcripts/ROWS.md has them."""
        with self.opened("take") as table:
            self.assertEqual(str(table.counts), "known 7 expanded 7 settled 7 processed 7 finished")
            self.assertEqual(str(table.pages), "pages 64 used 6 free 58")
            self.assertEqual([str(value) for value in table.values()], [
                "black in 3", "black in 2", "black in 1", "black in 1", "black in 0", "white in 1", "white in 0"])
            self.assertEqual(table.show(1), "white 2 v e 0,0,3")
            self.assertEqual(table.find("white 2 v e 0,0,3"), 1)
            self.assertIsNone(table.find("white 2 v e 0,0,2"))
            self.assertEqual(table.line(0), [0, 1, 2, 4])
            self.assertEqual(table.game, (GAMES / "take.rbg").read_bytes())
            self.assertEqual([row.number for row in table.rows(2, 5)], [2, 3, 4])
            # black wins soonest by taking what is left
            self.assertEqual([(move.number, str(move.value)) for move in table.moves(3)], [(4, "black in 0"), (5, "white in 1")])
            self.assertEqual(table.moves(3)[0].word, ((9, "v"), (10, "v"), (11, "v"), (2, "v")))
            self.assertEqual(table.moves(6), [])
            with self.assertRaises(rbgtable.Refused):
                table.moves(7)
            self.assertEqual(str(table.value_at("white 2 v e 0,0,3")), "black in 2")
            self.assertIsNone(table.value_at("white 2 v e 1,1,3"))

    def test_a_drawn_position_has_its_best_move(self):
        with self.opened("tictactoe") as table:
            self.assertEqual(str(table.value(2)), "drawn")
            moves = table.moves(2)
            self.assertEqual(len(moves), 8)
            self.assertEqual(str(moves[0].value), "drawn")
            # nought has the turn: what is drawn comes before what cross wins, and a longer loss before a shorter one
            losses = [move.value.distance for move in moves if move.value.winner]
            self.assertTrue(all(move.value.winner == "cross" for move in moves if move.value.winner))
            self.assertEqual([bool(move.value.winner) for move in moves], sorted(bool(move.value.winner) for move in moves))
            self.assertEqual(losses, sorted(losses, reverse=True))

    def test_successors_of_a_tree_of_several_pages(self):
        """All edges of a table with inner pages are those of the second program."""
        from rbg_parts import play, solve

        graph = solve.Graph(play.play_of((GAMES / "small_checkers.rbg").read_bytes()))
        graph.explore(10**6, 60)
        with self.opened("small_checkers") as table:
            self.assertEqual(table.counts.known, len(graph.positions))
            for number, after in enumerate(graph.successors):
                self.assertEqual(sorted(table.successors(number)), sorted(after))

    def test_refusals_do_not_stop_the_session(self):
        """More refusals than a pipe of standard error has room for."""
        with self.opened("take") as table:
            for number in range(self.refusals):
                with self.assertRaises(rbgtable.Refused) as raised:
                    table.value(100 + number)
                self.assertEqual((raised.exception.code, raised.exception.status), ("S7", 1))
                if not table.is_in_process:
                    self.assertIn("no such position is known", raised.exception.told)
            with self.assertRaises(rbgtable.Refused) as raised:
                table.ask("value zero")
            self.assertEqual((raised.exception.status, str(raised.exception)), (2, f"{table.file}: usage"))
            with self.assertRaises(rbgtable.Refused) as raised:
                table.find("nonsense")
            self.assertEqual(raised.exception.code, "S10")
            self.assertEqual(str(table.value(0)), "black in 3")
            with self.assertRaises(rbgtable.Refused):
                table.successors(7)

    def test_many_lines_at_once(self):
        """More lines and replies than pipes have room for."""
        with self.opened("chomp") as table:
            replies = list(table.ask_all(f"show {number % 67}" for number in range(20000)))
            self.assertEqual(len(replies), 20000)
            self.assertEqual(replies[66], table.show(66))
            blocks = list(table.ask_all((f"list 0 {count}" for count in (1, 67) * 500), lambda line: int(line.split()[2])))
            self.assertEqual(len(blocks), 500 * 68)

    def test_questions_between_others_and_behind_a_refusal(self):
        with self.opened("chomp") as table:
            rows = table.rows()
            self.assertEqual(next(rows).number, 0)
            self.assertEqual(str(table.value(1)), "first in 7")
            self.assertEqual(next(rows).text, table.show(1))
            found = []
            with self.assertRaises(rbgtable.Refused):
                for reply in table.ask_all(["value 0", "value 67", "value 1"]):
                    found.append(reply)
            self.assertEqual(found, ["first in 8"])
            with self.assertRaises(rbgtable.Refused):
                list(table.ask_all(["list 0 3", "list 67 3", "list 0 3"], 3))
            self.assertEqual(str(table.value(1)), "first in 7")

    def test_files_that_are_not_opened(self):
        for name, text, code, status in (("empty", b"", "E2", 1), ("other", b"x" * 70000, "E2", 1), ("none", None, "E1", 4)):
            if text is not None:
                self.file(name, text)
            with self.assertRaises(rbgtable.Refused) as raised:
                self.asked(self.folder / name)
            self.assertEqual((raised.exception.code, raised.exception.status), (code, status), name)
        with self.assertRaises(rbgtable.Refused) as raised:
            rbgtable.Table(self.folder / "none", "/no/such/program")
        self.assertEqual(raised.exception.status, 2)
        subprocess.run([WHERE, "create", self.folder / "new", "--pages", "16"], stdout=subprocess.DEVNULL, check=True)
        with self.assertRaises(rbgtable.Refused) as raised:
            self.asked(self.folder / "new")
        self.assertEqual(raised.exception.code, "S1")

    def test_a_damaged_table_and_one_of_an_earlier_layout(self):
        path = self.table("take")
        data = bytearray(path.read_bytes())
        slot = 1024 + 512 * (data[512] & 1)
        data[slot + 3] = 9
        with self.assertRaises(rbgtable.Refused) as raised:
            self.asked(self.file("damaged", bytes(data)))
        self.assertEqual((raised.exception.code, raised.exception.status), ("E4", 3))
        data[slot + 3] = 2
        with self.assertRaises(rbgtable.Refused) as raised:
            self.asked(self.file("earlier", bytes(data)))
        self.assertEqual((raised.exception.code, raised.exception.status), ("E5", 1))

    def test_many_look_and_none_while_a_session_works(self):
        path = self.table("take")
        with self.asked(path) as one, self.asked(path) as other:
            self.assertEqual(one.value(0), other.value(0))
        with subprocess.Popen([WHERE, "session", "--", path], stdin=subprocess.PIPE, stdout=subprocess.PIPE) as session:
            session.stdin.write(b"status\n")
            session.stdin.flush()
            self.assertTrue(session.stdout.readline())
            with self.assertRaises(rbgtable.Refused) as raised:
                self.asked(path)
            self.assertEqual(raised.exception.status, 4)

    def test_a_line_feed_is_no_part_of_a_question(self):
        with self.opened("take") as table:
            for text in ("x\nshow 5", "\n", "white 2 v e 0,0,3\n"):
                for question in (table.find, table.value_at, table.ask):
                    with self.assertRaises(rbgtable.Refused) as raised:
                        question(text)
                    self.assertIn("line feed", str(raised.exception))
            self.assertEqual(table.show(0), ">> 0 v e 0,0,0")
        status, out, err = self.ran("moves", self.folder / "take.table", "white 2\nshow 5")
        self.assertEqual((status, out), (2, ""))
        self.assertRegex(err, r"\Amoves: .*line feed.*\n\Z")
        self.assertEqual(self.ran("moves", self.folder / "take.table", b"\xff".decode("utf-8", "surrogateescape"))[0], 1)

    def test_threads_share_a_table(self):
        found = []

        def ask(table, at):
            for _ in range(25):
                moves = [move.number for move in table.moves(at % 7)]
                found.append((at % 7, table.show(at % 7), str(table.value(at % 7)), sorted(moves), len(list(table.rows()))))

        with self.opened("take") as table:
            wanted = {(n, table.show(n), str(table.value(n)), tuple(sorted(table.successors(n))), 7) for n in range(4)}
            threads = [threading.Thread(target=ask, args=(table, at), daemon=True) for at in range(4)]
            for thread in threads:
                thread.start()
            for thread in threads:
                thread.join(60)
            self.assertFalse(any(thread.is_alive() for thread in threads))
        self.assertEqual(len(found), 100)
        self.assertEqual({(n, text, value, tuple(moves), rows) for n, text, value, moves, rows in found}, wanted)

    def test_a_session_that_is_closed(self):
        table = self.opened("take")
        table.close()
        with self.assertRaises(rbgtable.Refused):
            table.value(0)

    def test_players_with_the_names_of_replies(self):
        """Take, by players who are called `refused` and `open`: their names are no refusals and no values."""
        text = (GAMES / "take.rbg").read_text().replace("white", "refused").replace("black", "open")
        self.file("named.rbg", text)
        self.assertEqual(self.ran("solve", "named.rbg")[0], 0)
        with self.asked(self.folder / "named.table") as table:
            self.assertEqual([str(value) for value in table.values()], [
                "open in 3", "open in 2", "open in 1", "open in 1", "open in 0", "refused in 1", "refused in 0"])
            self.assertEqual(table.show(1), "refused 2 v e 0,0,3")
            self.assertEqual([str(move.value) for move in table.moves(3)], ["open in 0", "refused in 1"])
        for words_ in (["moves", "named.table", "3"], ["board", "named.table", "1"], ["report", "named.table"], ["play", "named.table"],
                       ["second_opinion", "named.rbg", "--table", "named.table"], ["trust", "named.table", "named.rbg"]):
            self.assertEqual(self.ran(*words_)[0], 0, words_)
        status, out, _ = self.ran("stats", "named.table")
        rows = [line.split()[:2] for line in out.splitlines()[3:7]]
        self.assertEqual((status, rows), (0, [["refused", "2"], ["open", "5"], ["drawn", "0"], ["open", "0"]]))
        self.assertIn("the longest win: position 0, open in 3\n", out)
        self.assertEqual(self.ran("export", "named.table")[1].splitlines()[1:3], ["0,open,3", "1,open,2"])

    def test_boards(self):
        with self.opened("chomp") as table:
            self.assertEqual(table.vertices, [f"{column}{row}" for row in "123" for column in "abcd"])
            # position 7 as docs and tools/board show it
            pieces = ["p", "c", "c", "c", "c", "c", "e", "e", "c", "c", "e", "e"]
            self.assertEqual(table.at(pieces, "second"), 7)
            self.assertEqual(table.at(dict(zip(table.vertices, pieces)), "second"), 7)
            self.assertEqual(table.at(",".join(pieces), "second"), 7)
            self.assertNotEqual(table.at(pieces, "first"), 7)
            self.assertIsNone(table.at(["e"] * 12, "first"))
            for wrong in (["p"], {"a1": "p"}, {**dict(zip(table.vertices, pieces)), "e1": "e"}):
                with self.assertRaises(ValueError):
                    table.at(wrong, "second")

    def test_several_positions_with_one_board(self):
        """In take the heap is no part of the board: white has the turn in positions of three values."""
        with self.opened("take") as table:
            self.assertEqual(table.numbers_at(["e"], "white"), [1, 4, 5])
            with self.assertRaises(rbgtable.Refused) as raised:
                table.at(["e"], "white")
            self.assertIn("1, 4, 5", str(raised.exception))
            self.assertEqual(table.at(["e"], ">>"), 0)

    def test_many_values_and_a_best_move(self):
        with self.opened("take") as table:
            texts = ["white 2 v e 0,0,3", "white 2 v e 1,1,3", "black 7 v e 1,0,0"] * 500
            self.assertEqual([str(value) for value in table.values_at(texts)], ["black in 2", "None", "white in 0"] * 500)
            self.assertEqual(table.values_at([]), [])
            with self.assertRaises(rbgtable.Refused) as raised:
                table.values_at(["white 2 v e 0,0,3", "nonsense", "white 2 v e 0,0,3"])
            self.assertEqual(raised.exception.code, "S10")
            self.assertEqual(table.best(3).number, 4)
            self.assertIsNone(table.best(6))

    def test_a_game_text_with_bytes_that_are_no_utf_8(self):
        text = (GAMES / "take.rbg").read_bytes() + b"// \xff #board\n"
        self.file("bytes.rbg", text)
        self.assertEqual(self.ran("solve", "bytes.rbg")[0], 0)
        with self.asked(self.folder / "bytes.table") as table:
            self.assertEqual(table.game, text)
            self.assertEqual(table.vertices, ["v"])

    def test_solving(self):
        """In memory or in a file, with a goal, with more pages than it begins with, and what is no game."""
        seen = []
        with self.solved(GAMES / "take.rbg", tell=seen.append) as table:
            self.assertEqual((str(table.value(0)), seen[-1], table.successors(3)), ("black in 3", table.counts, [4, 5]))
            self.assertEqual(table.game, (GAMES / "take.rbg").read_bytes())
        with self.assertRaises(rbgtable.Refused):
            table.value(0)
        self.file("no.rbg", "#players = white(1)\n")
        for name, code in (("no.rbg", "G2"), ("none.rbg", "E1")):
            with self.assertRaises(rbgtable.Refused) as raised:
                self.solved(self.folder / name)
            self.assertEqual(raised.exception.code, code)
        for goal in (-1, 1000001):
            with self.assertRaises(ValueError):
                self.solved(GAMES / "take.rbg", goal=goal)
        # either player has a point or none: nobody has two
        with self.solved(GAMES / "take.rbg", goal=1) as table:
            self.assertEqual(str(table.value(0)), "black in 3")
        with mock.patch.object(rbgtable, "FIRST_PAGES", 16), self.solved(GAMES / "chomp.rbg") as table:
            self.assertEqual(str(table.value(0)), "first in 8")


class InProcess(Questions, Case):
    """Without a program that is named the table is asked in this process."""

    refusals = 20

    def setUp(self):
        super().setUp()
        self.enterContext(mock.patch.object(rbgtable, "library", library))

    def asked(self, path):
        table = rbgtable.Table(path)
        self.assertTrue(table.is_in_process)
        return table

    def solved(self, game, **more):
        table = rbgtable.solve(game, **more)
        self.assertTrue(table.is_in_process)
        return table

    def test_a_large_table_is_left_to_the_program(self):
        path = self.table("take")
        with mock.patch.object(rbgtable, "MOST_IN_PROCESS", 1), rbgtable.Table(path) as table:
            self.assertFalse(table.is_in_process)
            self.assertEqual(str(table.value(0)), "black in 3")

    def test_want_of_memory(self):
        with self.opened("take") as table, mock.patch.object(table._process.table, "look", side_effect=MemoryError):
            with self.assertRaises(rbgtable.Refused) as raised:
                table.value(0)
            self.assertEqual((raised.exception.code, raised.exception.status), ("E8", 5))
        with mock.patch.object(library().Table, "__init__", side_effect=MemoryError):
            for question in (lambda: rbgtable.Table(table.file), lambda: rbgtable.solve(GAMES / "take.rbg")):
                with self.assertRaises(rbgtable.Refused) as raised:
                    question()
                self.assertEqual((raised.exception.code, raised.exception.status), ("E8", 5))


class ByProgram(Questions, Case):
    """The program is named, and answers. What depends on a process is asked of it alone."""

    refusals = 2000

    def asked(self, path):
        return rbgtable.Table(path, WHERE)

    def solved(self, game, **more):
        return rbgtable.solve(game, program=WHERE, **more)

    def test_a_table_in_no_file_goes_with_it(self):
        with self.solved(GAMES / "take.rbg") as table:
            self.assertTrue(os.path.exists(table.file))
        self.assertFalse(os.path.exists(os.path.dirname(table.file)))

    def test_a_table_in_a_file_is_gone_on_with(self):
        path = self.folder / "kept.table"
        for goal in (0, 0, 1):
            if goal:
                with self.assertRaises(rbgtable.Refused) as raised:
                    self.solved(GAMES / "take.rbg", file=path, goal=goal)
                self.assertIn("another game or goal", str(raised.exception))
            else:
                with self.solved(GAMES / "take.rbg", file=path) as table:
                    self.assertEqual((str(table.value(0)), table.file), ("black in 3", str(path)))
        with self.assertRaises(rbgtable.Refused):
            self.solved(GAMES / "chomp.rbg", file=path)
        self.file("no.rbg", "#players = white(1)\n")
        with self.assertRaises(rbgtable.Refused):
            self.solved(self.folder / "no.rbg", file=self.folder / "new.table")
        self.assertFalse((self.folder / "new.table").exists())
        self.assertEqual(self.ran("trust", path, GAMES / "take.rbg")[0], 0)

    def test_a_program_that_ends_before_the_first_line_is_sent(self):
        """Its sentence and its status are those of the refusal."""

        class Slow(rbgtable.Table):
            def _send(self, lines):
                time.sleep(0.2)
                super()._send(lines)

        script = "#!/bin/sh\necho 'rbgsolve: another run has it' >&2\nexit 4\n"
        self.file("ended", script).chmod(0o755)
        self.file("deaf", script.replace("exit", "exec <&-; sleep 0.4; exit")).chmod(0o755)
        for name in ("ended", "deaf"):
            for table in (Slow, rbgtable.Table):
                with self.assertRaises(rbgtable.Refused) as raised:
                    table("some.table", self.folder / name)
                self.assertEqual((raised.exception.status, raised.exception.told), (4, "rbgsolve: another run has it"), (name, table))

    def test_tools_say_why_a_table_is_not_asked(self):
        """The program's sentence, once and alone, however fast the program is."""
        path = self.table("take")
        with subprocess.Popen([WHERE, "session", "--", path], stdin=subprocess.PIPE, stdout=subprocess.PIPE) as session:
            session.stdin.write(b"status\n")
            session.stdin.flush()
            self.assertTrue(session.stdout.readline())
            for words_ in (["moves", path, "1"], ["stats", path], ["export", path]) * 4:
                ran = subprocess.run([ROOT / "tools" / words_[0], *words_[1:]], capture_output=True, check=False)
                self.assertEqual((ran.returncode, ran.stdout), (4, b""), words_)
                self.assertRegex(ran.stderr.decode(), r"\A.*another run has .*\n\Z")

    def test_tools_that_ask_share_the_table(self):
        """While somebody looks at it."""
        with self.opened("take") as table:
            path, game = table.file, GAMES / "take.rbg"
            for words_ in (["stats", path], ["export", path], ["moves", path, "1"], ["board", path, "1"], ["report", path], ["play", path],
                           ["trust", path, game], ["second_opinion", game, "--table", path], ["new_table", game, path]):
                status, _, err = self.ran(*words_)
                self.assertEqual(status, 0, (words_, err))
            self.assertEqual(str(table.value(0)), "black in 3")

    def test_a_question_that_is_broken_off(self):
        """As by ctrl-C: what it was told is no answer to the next question."""

        class BrokenOff(rbgtable.Table):
            def _reply(self):
                raise KeyboardInterrupt

        for question in ("show", "moves"):
            with self.opened("take") as table:
                self.assertEqual(table.show(1), "white 2 v e 0,0,3")
                table.__class__ = BrokenOff
                with self.assertRaises(KeyboardInterrupt):
                    getattr(table, question)(2)
                table.__class__ = rbgtable.Table
                with self.assertRaises(rbgtable.Refused):
                    table.show(3)

    def test_pages_by_words(self):
        self.assertEqual([words.pages(word) for word in ("16", "64M", "1G", "8K")], [16, 16384, 262144, 2])
        self.assertTrue(os.access(WHERE, os.X_OK))
