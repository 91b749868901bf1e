"""Tools under odd input: texts that try to make them run for ever, or to write to the terminal, and streams that are not there."""
import os
import subprocess
import time

from rbg_parts import language, play

from .common import GAMES, ROOT, Case

HEAD = "#players = white(1), black(1)\n#pieces = e\n#variables = {}\n#board = v[e]{{}}\n#rules = "
# for each of ten thousand states one search goes through, another one goes through as many: the last condition is never met
SEARCHES = HEAD.format("x(99), y(99), z(99), w(99)") + (
    "->white ([$ x = x + 1] + [$ y = y + 1])* {? ([$ z = z + 1] + [$ w = w + 1])* {$ z + w == 999}} ->black {$ x == 1} ->white"
)
# each of 4,000 alternatives follows each other one, and is joined to them again by each star
STARS = HEAD.format("x(9)") + "->white " + "(" * 60 + " + ".join(["{e}"] * 4000) + ")*" * 60 + " ->black {$ x == 1} ->white"


class Texts(Case):
    def took(self, *words):
        begin = time.monotonic()
        done = self.ran(*words)
        return done, time.monotonic() - begin

    def test_searches_that_take_long(self):
        self.file("searches.rbg", SEARCHES)
        (status, _, err), seconds = self.took("lint", "--seconds", "1", "searches.rbg")
        self.assertEqual(status, 1)
        self.assertIn("searches for moves take long: 1 of 1,000 positions were looked at in 1 s", err)
        self.assertLess(seconds, 20)
        (status, out, _), seconds = self.took("size", "--seconds", "1", "--plain", "searches.rbg")
        self.assertEqual((status, out.split()[1]), (0, "least"))
        self.assertLess(seconds, 20)
        for words in (["moves", "searches.rbg", "white 1 v e 0,0,0,0,0,0"], ["second_opinion", "searches.rbg"]):
            (status, out, err), seconds = self.took(*words, "--seconds", "1")
            self.assertEqual((status, out), (1, ""))
            self.assertRegex(err, r"longer than it may|1 s are over, and 2 positions found")
            self.assertLess(seconds, 20)
        (status, out, err), seconds = self.took("play", "--random", "searches.rbg", "9" * 18, "1", "--seconds", "1")
        self.assertEqual((status, out.splitlines()[0]), (1, "white 0 of 0 plays"))
        self.assertIn("1 s are over, and 0 of 999,999,999,999,999,999 plays made; --seconds gives more", err)
        self.assertLess(seconds, 20)
        for tool in ("lint", "moves", "second_opinion"):
            for number in ("0", "-1", "nan", "1e9"):
                self.assertEqual(self.ran(tool, f"--seconds={number}", "searches.rbg")[0], 2, (tool, number))
        status, _, err = self.ran("second_opinion", GAMES / "tictactoe.rbg", "--positions", "1000")
        self.assertEqual((status, "over 1,000 positions" in err), (1, True))

    def test_stars_of_stars(self):
        (_, out, _), seconds = self.took("lint", "--positions", "9", "--seconds", "5", self.file("stars.rbg", STARS))
        self.assertNotIn("S4", out)
        self.assertLess(seconds, 40)
        follow = play.play_of(STARS.encode()).follow
        # from each alternative to each, and to the switch behind them
        self.assertEqual((len(follow.next[1]), follow.next[1][0], follow.next[4000][-1]), (4001, 1, 4001))

    def test_hints_about_long_lines(self):
        names = f"#players = white(1), black(1)\n#pieces = e, {'a' * 30000}\n#board = v[{'b' * 30000}]{{}}\n#rules = ->white"
        for text in ("#a" + " " * 65000, names):
            (status, _, _), seconds = self.took("lint", self.file("long.rbg", text))
            self.assertEqual(status, 1)
            self.assertLess(seconds, 20)

    def test_numbers_of_any_length(self):
        text = (GAMES / "take.rbg").read_text()
        self.assertEqual(self.ran("lint", self.file("zeros.rbg", text.replace("heap(3)", f"heap({'0' * 5000}3)")))[0], 0)
        status, out, _ = self.ran("lint", self.file("nines.rbg", text.replace("heap(3)", f"heap({'9' * 5000})")))
        self.assertEqual(status, 1)
        self.assertIn("G6 this number is over 1,000,000\n", out)
        self.assertEqual(language.read(text.replace("heap(3)", f"heap({'0' * 5000}3)").encode()).variables[0][1], 3)
        self.assertEqual(self.ran("moves", GAMES / "take.rbg", f"white 2 v e 0,0,{'3' * 5000}")[0], 1)
        self.assertEqual(self.ran("play", "--random", GAMES / "take.rbg", "9" * 5000, "1")[0], 2)

    def test_files_without_an_end(self):
        for words in (["lint", "/dev/zero"], ["size", "/dev/zero"], ["moves", "/dev/zero"], ["moves", "--actions", "/dev/zero"]):
            (status, _, _), seconds = self.took(*words)
            self.assertEqual(status, 1, words)
            self.assertLess(seconds, 20)

    def test_no_byte_of_a_text_moves_the_cursor(self):
        """Neither in the line that is shown with a fault, nor in the text of an action."""
        escape = "\x1b]0;title\x07\x1b[31m\x9b31m\u202e"
        text = HEAD.format("x(9)") + f"->white [$ x // {escape}\n = 1 // {escape}\n] ->grey // {escape}"
        status, out, _ = self.ran("lint", self.file("escapes.rbg", text))
        self.assertEqual(status, 1)
        self.assertIn("G4", out)
        self.assertIn("    ] ->grey // ?]0;title??[31m?31m?\n        ^\n", out)
        self.file("escapes.rbg", text.replace("->grey", "->black"))
        position = "white 1 v e 0,0,0"
        for words in (["--actions", "escapes.rbg"], ["escapes.rbg"], ["escapes.rbg", position], ["escapes.rbg", "--words"], ["escapes.rbg", position, "--words"]):
            status, out, _ = self.ran("moves", *words)
            self.assertEqual(status, 0)
            self.assertEqual([letter for letter in out if not letter.isprintable() and letter != "\n"], [], words)
        self.assertIn("[$ x = 1]", out)


class Tables(Case):
    """Tables that somebody wrote to make a tool run for ever, or end in a traceback."""

    def changed(self, *changes):
        """A finished table of take with other numbers in its root slot, each at a byte of the slot."""
        data = bytearray(self.table("take").read_bytes())
        slot = 1024 + 512 * (data[512] & 1)
        for at, number in changes:
            data[slot + at : slot + at + 4] = number.to_bytes(4, "big")
        return self.file("hostile.table", bytes(data)), slot

    def refused(self, path, status, code):
        for words in (["trust", "--text", path], ["trust", path, GAMES / "take.rbg"], ["stats", path], ["export", path], ["report", path]):
            begin = time.monotonic()
            done = self.ran(*words)
            self.assertEqual(done[:2], (status, ""), words)
            self.assertIn(code, done[2])
            self.assertLess(time.monotonic() - begin, 20)
        status, out, err = self.ran("new_table", GAMES / "take.rbg", path)
        self.assertEqual((status, out), (1, ""))
        self.assertIn("a table is there, which is damaged" if code == "E4" else "migrate", err)

    def test_a_text_without_an_end(self):
        path, _ = self.changed((20, 2**32 - 1))
        self.refused(path, 3, "E4")

    def test_a_chain_in_a_ring(self):
        """The text has two pages by its length, and its first page is also the next one."""
        path, slot = self.changed((20, 5000))
        data = bytearray(path.read_bytes())
        page = int.from_bytes(data[slot + 16 : slot + 20], "big")
        data[4096 * page : 4096 * page + 4] = page.to_bytes(4, "big")
        path.write_bytes(data)
        self.refused(path, 3, "E4")

    def test_pages_that_are_not_there(self):
        path, _ = self.changed((16, 2**32 - 1), (44, 2**32 - 1))
        self.refused(path, 3, "E4")

    def test_an_earlier_layout_is_read_as_far_as_it_is_whole(self):
        path, slot = self.changed((0, 2))
        status, out, _ = self.ran("trust", "--text", path)
        self.assertEqual((status, out), (0, (GAMES / "take.rbg").read_text()))
        for at, number in ((16, 2**32 - 1), (16, 0), (20, 2**32 - 1)):
            data = bytearray(path.read_bytes())
            data[slot + at : slot + at + 4] = number.to_bytes(4, "big")
            status, out, err = self.ran("trust", "--text", self.file("cut.table", bytes(data)))
            self.assertEqual((status, out), (3, ""))
            self.assertIn("E4", err)

    def test_a_distance_of_four_thousand_millions(self):
        """The last record, that of number 6, says so: the chart has a row for each distance that there is."""
        path, slot = self.changed()
        data = bytearray(path.read_bytes())
        record = 4096 * int.from_bytes(data[slot + 48 : slot + 52], "big") + 4 + 22 * 6 + 6
        self.assertEqual(data[record + 4 : record + 8], bytes(4))
        data[record + 4 : record + 8] = b"\xff" * 4
        path.write_bytes(data)
        for tool in ("stats", "report"):
            begin = time.monotonic()
            status, out, err = self.ran(tool, path)
            self.assertLess(time.monotonic() - begin, 20)
            self.assertNotIn("Traceback", err)
            if status == 0:
                self.assertIn("4294967295", out)

    def test_a_page_is_not_written_over_a_table(self):
        table = self.table("take")
        before = table.read_bytes()
        self.file("other.table", before)
        (self.folder / "link").symlink_to(table)
        for name in ("take.table", "other.table", "link", self.folder / "take.table"):
            status, out, err = self.ran("report", table, "-o", name)
            self.assertEqual((status, out), (2, ""))
            self.assertIn("is a table", err)
        self.assertEqual((table.read_bytes(), (self.folder / "other.table").read_bytes()), (before, before))


class Streams(Case):
    def shell(self, line, **here):
        done = subprocess.run(["sh", "-c", line], cwd=self.folder, env={**os.environ, **here}, capture_output=True, check=False, timeout=60)
        return done.returncode, done.stdout, done.stderr.decode()

    def test_no_input_and_input_that_is_no_text(self):
        self.table("take")
        wanted = self.shell(f"{ROOT}/tools/play take.table </dev/null")
        self.assertEqual((wanted[0], wanted[2]), (0, ""))
        self.assertEqual(self.shell(f"{ROOT}/tools/play take.table <&-"), wanted)
        status, out, err = self.shell(f"printf '\\377\\n99999\\nq\\n' | {ROOT}/tools/play take.table")
        self.assertEqual((status, err), (0, ""))
        self.assertIn(b"a number or a name makes that move", out)

    def test_an_output_in_ascii(self):
        text = (GAMES / "take.rbg").read_text() + "// \u00e9\n"
        self.file("caf\u00e9.rbg", text)
        self.assertEqual(self.ran("solve", "caf\u00e9.rbg")[0], 0)
        for here in ({"PYTHONIOENCODING": "ascii"}, {"LC_ALL": "C", "PYTHONUTF8": "0", "PYTHONCOERCECLOCALE": "0"}):
            status, out, err = self.shell(f"{ROOT}/tools/report caf\u00e9.table", **here)
            self.assertEqual((status, err), (0, ""))
            self.assertIn("// \u00e9\n".encode(), out)
            status, out, err = self.shell(f"{ROOT}/tools/trust caf\u00e9.table caf\u00e9.rbg", **here)
            self.assertEqual((status, err), (0, ""))
            self.assertTrue(out.startswith(b"audit right finished, of caf"))
            self.file("no.rbg", "#\u00e9")
            status, _, err = self.shell(f"{ROOT}/tools/lint no.rbg", **here)
            self.assertEqual((status, err), (1, ""))

    def test_no_room_for_what_is_kept_for_a_while(self):
        self.table("take")
        script = "import tempfile, runpy, sys\ndef none(*_, **__): raise FileNotFoundError(2, 'No usable temporary directory found')\n"
        script += f"tempfile.TemporaryFile = none\nsys.argv = ['board', 'take.table', '1']\nsys.path.insert(0, '{ROOT}/tools')\n"
        script += f"runpy.run_path('{ROOT}/tools/board', run_name='__main__')\n"
        self.file("without.py", script)
        status, out, err = self.shell("python3 without.py")
        self.assertEqual((status, out), (4, b""))
        self.assertRegex(err, r"\Aboard: no file for a while can be made: .*\n\Z")

    def test_a_reader_that_has_gone(self):
        """Behind a pipe, and beside another run: no signal, and no word of Python's."""
        self.table("chomp")
        for tool in ("export", "stats", "report"):
            done = subprocess.Popen([ROOT / "tools" / tool, "chomp.table"], cwd=self.folder, stdout=subprocess.PIPE, stderr=subprocess.PIPE)
            done.stdout.close()
            err = done.stderr.read().decode()
            self.assertIn(done.wait(), (0, 4))
            self.assertNotIn("BrokenPipe", err)
