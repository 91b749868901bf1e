"""The second reading of texts, and the second program's moves and values, are those of the documents and of the program."""
import re
import subprocess
import sys

from rbg_parts import language, play, solve

from .common import GAMES, ROOT, Case


def rows_of_texts():
    """The rows of transcripts/TEXTS.md, as dev/gate/check_texts reads them."""
    tool = ROOT / "dev/gate/check_texts"
    source = tool.read_text().rpartition("sys.exit(main")[0]
    names = {"__name__": "check_texts", "__file__": str(tool)}
    exec(compile(source, "check_texts", "exec"), names)
    return list(names["rows_of"](ROOT / "transcripts/TEXTS.md"))


class Language(Case):
    def test_codes_of_texts(self):
        rows = rows_of_texts()
        self.assertGreater(len(rows), 100)
        for number, wanted, text in rows:
            try:
                language.read(text)
                found = "ok"
            except language.Fault as fault:
                found = fault.code
            self.assertEqual(found, wanted, f"transcripts/TEXTS.md:{number}")

    def test_places_of_faults_are_the_programs(self):
        for line in ("{stone} [stoen]", "->white )", "->grey", "[$ n = 1000001]", "{? ->white}"):
            text = "#players = white(1), black(1) #variables = n(9)\n#pieces = stone #board = v[stone]{}\n#rules = ->white " + line
            path = self.file("text.rbg", text)
            told = subprocess.run([ROOT / "rbgsolve", "moves", path], capture_output=True, check=False).stderr.decode()
            with self.assertRaises(language.Fault) as raised:
                language.read(text.encode())
            place = language.line_and_byte(text.encode(), raised.exception.at)
            self.assertEqual(tuple(map(int, re.search(r":(\d+):(\d+): ", told).groups())), place, line)

    def test_moves_of_starts_are_the_programs(self):
        for path in sorted(GAMES.glob("*.rbg")):
            game = play.play_of(path.read_bytes())
            lines = [f"{game.say(move.word)} => {game.show(move.to)}" for move in game.moves(game.start())]
            told = subprocess.run([ROOT / "rbgsolve", "moves", path], capture_output=True, check=True).stdout.decode()
            self.assertEqual(lines, told.splitlines(), path.name)

    def test_take_has_seven_positions(self):
        game = play.play_of((GAMES / "take.rbg").read_bytes())
        graph = solve.Graph(game)
        while not graph.is_whole:
            graph.expand()
        self.assertEqual(graph.successors, [[1], [2, 3], [4], [4, 5], [], [6], []])
        self.assertEqual(solve.values(graph), [(2, 3), (2, 2), (2, 1), (2, 1), (2, 0), (1, 1), (1, 0)])

    def test_tables_are_those_of_the_second_program(self):
        for game in ("take", "fork", "nim", "chomp", "pong_hau_ki"):
            status, out, err = self.ran("second_opinion", GAMES / f"{game}.rbg", "--table", self.table(game))
            self.assertEqual(status, 0, out + err)
        # with a goal of two points white wins by one way of two, and with one of three nobody wins
        for goal, value in (("2", "white in 2"), ("3", "drawn")):
            table = self.folder / f"goal_{goal}.table"
            self.assertEqual(self.ran("new_table", GAMES / "goal.rbg", table, "--goal", goal)[0], 0)
            self.assertEqual(self.ran("solve", table)[0], 0)
            status, out, _ = self.ran("second_opinion", GAMES / "goal.rbg", "--goal", goal, "--table", table)
            self.assertEqual((status, out.rpartition(", ")[2]), (0, f"{value}\n"))
        self.assertEqual(self.ran("second_opinion", GAMES / "goal.rbg", "--table", table)[0], 1)
        status, out, _ = self.ran("second_opinion", GAMES / "nim.rbg", "--table", self.folder / "chomp.table")
        self.assertEqual((status, out.count("\n")), (1, 2))


sys.dont_write_bytecode = True
