"""The library for programs in other languages: what is made in this process is what the program makes."""
import ctypes
import os
import shutil
import subprocess
import sys
import threading
import unittest

from .common import GAMES, ROOT, Case

OUT = ROOT / "library" / "out"


def setUpModule():
    make("library")
    sys.path.insert(0, str(OUT))


def make(tool):
    """Makes the library or the module, over the libraries that are built here."""
    if not shutil.which("rt"):
        raise unittest.SkipTest("there is no toolchain")
    ran = subprocess.run([ROOT / "tools" / tool, "--built"], check=False, stderr=subprocess.PIPE)
    if ran.returncode == 3:
        print("library: not all libraries are built here, so that it was not tried", file=sys.stderr)
        raise unittest.SkipTest("a library is not built")
    if ran.returncode:
        raise AssertionError(ran.stderr.decode())


class Library(Case):
    def setUp(self):
        super().setUp()
        import rbgsolve

        self.rbgsolve = rbgsolve

    def game(self, name):
        return (GAMES / f"{name}.rbg").read_bytes()

    def program(self, *words, given=b""):
        words = [ROOT / "rbgsolve", *map(str, words)]
        return subprocess.run(words, cwd=self.folder, input=given, capture_output=True, check=False, timeout=120)

    def test_tables_are_those_of_the_program(self):
        for name, pages in (("take", 16), ("tictactoe", 1024)):
            with self.subTest(name), self.rbgsolve.Table.of_game(self.game(name), pages) as table:
                self.program("create", "made.table", "--pages", pages)
                self.program("load", "made.table", GAMES / f"{name}.rbg")
                lines = b"work 256\n" * 64
                told = self.program("session", "made.table", given=lines).stdout.decode()
                self.assertTrue(told.endswith("finished\n"))
                self.assertEqual(table.lines(lines), told)
                self.assertEqual(table.bytes(), (self.folder / "made.table").read_bytes())
                self.assertEqual(table.audit() + "\n", self.program("audit", "made.table").stdout.decode())
                (self.folder / "made.table").unlink()

    def test_values_of_take(self):
        """The rows of take, as transcripts/ROWS.md has them."""
        with self.rbgsolve.Table.of_game(self.game("take"), 16) as table:
            self.assertEqual(table.value(0), "open")
            self.assertEqual(table.solve(), "known 7 expanded 7 settled 7 processed 7 finished")
            self.assertEqual([table.value(n) for n in range(7)], [
                "black in 3", "black in 2", "black in 1", "black in 1", "black in 0", "white in 1", "white in 0"])
            self.assertEqual(table.show(1), "white 2 v e 0,0,3")
            self.assertEqual(table.values_at(["white 2 v e 0,0,3", "white 2 v e 0,0,2"]), ["black in 2", None])
            self.assertEqual(table.moves(3), [
                "4 black in 0 9@v 10@v 11@v 2@v => white 2 v e 0,1,0", "5 white in 1 8@v 10@v 11@v 2@v => white 2 v e 0,1,1"])
            self.assertEqual(table.moves(6), [])
            with self.assertRaises(self.rbgsolve.Refused) as refused:
                table.value(7)
            self.assertEqual(refused.exception.code, "S7")

    def test_texts(self):
        game = self.game("take")
        self.assertEqual(self.rbgsolve.moves(game), "1@v 2@v => white 2 v e 0,0,3\n")
        for words, told in ((["moves", "--at", "white 2 v e 0,0,3"], self.rbgsolve.moves_at(game, "white 2 v e 0,0,3")),
                            (["actions"], self.rbgsolve.actions(game))):
            self.assertEqual(told, self.program(words[0], GAMES / "take.rbg", *words[1:]).stdout.decode())
        for bad, code in ((b"", "G2"), (bytes(range(256)), "G1"), (b"#players = \xff", "G1")):
            with self.assertRaises(self.rbgsolve.Refused) as refused:
                self.rbgsolve.moves(bad)
            self.assertEqual(refused.exception.code, code)

    def test_a_certificate(self):
        self.program("create", self.folder / "take.table", "--pages", "16")
        self.program("load", self.folder / "take.table", GAMES / "take.rbg")
        self.program("session", self.folder / "take.table", given=b"work 256\n")
        certificate = self.program("certify", self.folder / "take.table").stdout
        told = self.program("check", self.file("take.certificate", certificate)).stdout.decode()
        self.assertTrue(told.startswith("certified black in 3\n"))
        self.assertEqual(self.rbgsolve.check(certificate), told)
        self.assertEqual(self.rbgsolve.check(certificate, self.game("take")), told)
        for bad, game in ((certificate, self.game("nim")), (certificate, b""), (certificate[:-2], None), (b"", None), (bytes(range(256)), None)):
            words = [self.file("bad.certificate", bad)] + ([self.file("other.rbg", game)] if game is not None else [])
            with self.assertRaises(self.rbgsolve.Refused) as refused:
                self.rbgsolve.check(bad, game)
            self.assertEqual(self.program("check", *words).stdout.decode(), f"refused {refused.exception.code}\n")

    def test_where_a_text_is_no_game(self):
        game = self.game("take")
        self.assertIsNone(self.rbgsolve.fault(game))
        for bad, at in ((b"", (1, 1, "G2")), (game.replace(b"#players", b"#players \xff", 1), None)):
            line, column, code, message = self.rbgsolve.fault(bad)
            program = self.program("moves", self.file("bad.rbg", bad))
            self.assertEqual(program.stdout.decode(), f"refused {code}\n")
            self.assertEqual(program.stderr.decode(), f"{self.folder}/bad.rbg:{line}:{column}: {message}\n")
            if at:
                self.assertEqual((line, column, code), at)

    def test_bytes_that_are_no_table(self):
        for bad, code in ((b"", "E2"), (b"x" * 5000, "E2"), (bytes(65536), "E2")):
            with self.assertRaises(self.rbgsolve.Refused) as refused:
                self.rbgsolve.Table(bad)
            self.assertEqual(refused.exception.code, code)

    def test_a_table_that_is_full_grows(self):
        with self.rbgsolve.Table.of_game(self.game("tictactoe"), 32) as table:
            with self.assertRaises(self.rbgsolve.Refused) as refused:
                table.solve()
            self.assertEqual(refused.exception.code, "E7")
            table.grow(1024)
            self.assertEqual(table.solve(), "known 5479 expanded 5479 settled 5479 processed 5479 finished"[:10] + table.status()[10:])
            self.assertEqual(table.value(0), "drawn")

    def test_a_goal(self):
        with self.assertRaises(ValueError):
            self.rbgsolve.Table.of_game(self.game("take"), 16, goal=1_000_001)

    def test_too_little_room_changes_nothing(self):
        library, before = self.rbgsolve._library, bytearray(65536)
        out, count = ctypes.create_string_buffer(4), ctypes.c_size_t()
        table = bytearray(before)
        status = library.rbg_create(*self.rbgsolve._written(table), out, 4, ctypes.byref(count))
        self.assertEqual((status, count.value, out.raw, table), (self.rbgsolve.TOO_LONG, len("created\n"), bytes(4), before))

    def test_a_number_that_was_given_back_is_refused(self):
        rbgsolve, library = self.rbgsolve, self.rbgsolve._library
        with rbgsolve.Table.of_game(self.game("take"), 16) as table:
            made = table.bytes()
            room, old = table._at()
            self.assertEqual(library.rbg_close(room, old), 0)
            self.assertEqual(library.rbg_close(room, old), rbgsolve.NOT_OPEN)
            table._open(made)
            self.assertNotEqual(table._number.value, 0)
            count, out = ctypes.c_size_t(), ctypes.create_string_buffer(64)
            for number in (0, 2, 2**64 - 1):
                number = ctypes.c_uint64(number)
                self.assertEqual(library.rbg_lines(room, number, False, b"status\n", 7, ctypes.byref(count)), rbgsolve.NOT_OPEN)
                self.assertEqual(library.rbg_answers(room, number, out, 64, ctypes.byref(count)), rbgsolve.NOT_OPEN)
                self.assertEqual(library.rbg_bytes(room, number, out, 64, ctypes.byref(count)), rbgsolve.NOT_OPEN)
            self.assertEqual(table.value(0), "open")

    def test_answers_wait_until_they_are_taken(self):
        rbgsolve, library = self.rbgsolve, self.rbgsolve._library
        with rbgsolve.Table.of_game(self.game("take"), 16) as table:
            count, out = ctypes.c_size_t(), ctypes.create_string_buffer(64)
            for _ in range(2):
                library.rbg_lines(*table._at(), False, b"value 0\n", 8, ctypes.byref(count))
            self.assertEqual(count.value, len("open\nopen\n"))
            self.assertEqual(library.rbg_answers(*table._at(), out, 3, ctypes.byref(count)), rbgsolve.TOO_LONG)
            self.assertEqual(library.rbg_answers(*table._at(), out, 64, ctypes.byref(count)), 0)
            self.assertEqual(out.raw[: count.value], b"open\nopen\n")
            self.assertEqual(library.rbg_answers(*table._at(), out, 64, ctypes.byref(count)), 0)
            self.assertEqual(count.value, 0)

    def test_threads(self):
        """Many threads ask one table and tables of their own."""
        with self.rbgsolve.Table.of_game(self.game("take"), 16) as table:
            table.solve()
            told = []

            def ask():
                for _ in range(200):
                    told.append(table.value(0))
                with self.rbgsolve.Table(table.bytes()) as own:
                    told.append(own.value(0))

            threads = [threading.Thread(target=ask) for _ in range(4)]
            for thread in threads:
                thread.start()
            for thread in threads:
                thread.join()
            self.assertEqual(set(told), {"black in 3"})
            self.assertEqual(len(told), 804)


class Wasm(Case):
    def test_tables_are_those_of_the_program(self):
        """The WebAssembly module in node makes the tables that the program makes."""
        for tool in ("node", "wasm-opt"):
            if not shutil.which(tool):
                self.skipTest(f"there is no {tool}")
        make("wasm")
        self.file("made.mjs", MADE_IN_NODE)
        for name, pages in (("take", 16), ("tictactoe", 1024)):
            with self.subTest(name):
                words = ["node", "made.mjs", OUT, GAMES / f"{name}.rbg", str(pages), "wasm.table"]
                told = subprocess.run(words, cwd=self.folder, capture_output=True, check=True, timeout=120).stdout.decode()
                rbgsolve = [ROOT / "rbgsolve"]
                made = self.folder / "made.table"
                subprocess.run([*rbgsolve, "create", made, "--pages", str(pages)], check=True, capture_output=True)
                subprocess.run([*rbgsolve, "load", made, GAMES / f"{name}.rbg"], check=True, capture_output=True)
                subprocess.run([*rbgsolve, "session", made], input=b"work 256\n" * 64, check=True, capture_output=True)
                value = subprocess.run([*rbgsolve, "look", made], input=b"value 0\n", check=True, capture_output=True)
                self.assertEqual(told, value.stdout.decode())
                self.assertEqual((self.folder / "wasm.table").read_bytes(), made.read_bytes())
                made.unlink()


MADE_IN_NODE = """
import fs from "node:fs";
const [folder, game, pages, made] = process.argv.slice(2);
const { load } = await import(`${folder}/rbgsolve.mjs`);
const solver = await load(fs.readFileSync(`${folder}/rbgsolve.wasm`));
const table = solver.table(fs.readFileSync(game, "utf8"), Number(pages));
table.lines("work 256\\n".repeat(64));
console.log(table.value(0));
fs.writeFileSync(made, table.bytes());
"""
