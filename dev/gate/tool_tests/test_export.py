"""What tools/export prints of positions, and the fields of --json, which have one name in all tools."""
import csv
import io
import json
import shutil
import subprocess

from .common import GAMES, ROOT, Case

# a vertex, a score and a variable that are called as columns, and two vertices that differ in case alone
CLASHES = """
#players = turn(1), black(1)
#pieces = e, winner
#variables = moves(2), a1(1)
#board = number[e]{up: a1, home: number} a1[winner]{up: A1, home: number} A1[e]{home: number}
#rules = ->turn [winner] [$ moves = 2] [$ turn = 1] ->black
"""


class Rows(Case):
    def test_positions_of_take(self):
        """The rows of take, as transcripts/ROWS.md has them, and where the moves lead."""
        table = self.table("take")
        status, out, err = self.ran("export", table, "--positions", "--edges")
        self.assertEqual((status, err), (0, "7 of 7 rows\n"))
        self.assertEqual(out.splitlines(), [
            "number,turn,place,vertex,v,white,black,heap,winner,moves,edges",
            "0,>>,0,v,e,0,0,0,black,3,1",
            "1,white,2,v,e,0,0,3,black,2,2 3",
            "2,black,7,v,e,1,0,1,black,1,4",
            "3,black,7,v,e,1,0,2,black,1,4 5",
            "4,white,2,v,e,0,1,0,black,0,",
            "5,white,2,v,e,0,1,1,white,1,6",
            "6,black,7,v,e,1,0,0,white,0,",
        ])
        self.assertEqual(self.ran("export", table, "--positions", "--edges", "--csv")[1], out)
        self.assertEqual(self.ran("export", table)[1].splitlines()[:2], ["number,winner,moves", "0,black,3"])
        self.assertEqual(self.ran("export", table, "--edges")[1].splitlines()[1:3], ["0,black,3,1", "1,black,2,2 3"])

    def test_json(self):
        table = self.table("take")
        status, out, _ = self.ran("export", table, "--positions", "--json", "--edges")
        rows = [json.loads(line) for line in out.splitlines()]
        self.assertEqual((status, len(rows)), (0, 7))
        self.assertEqual(rows[3], {
            "number": 3, "turn": "black", "place": 7, "vertex": "v", "board": {"v": "e"}, "values": {"white": 1, "black": 0, "heap": 2},
            "value": "black in 1", "winner": "black", "distance": 1, "edges": [4, 5],
        })
        rows = [json.loads(line) for line in self.ran("export", table, "--json")[1].splitlines()]
        self.assertEqual(rows[6], {"number": 6, "value": "white in 0", "winner": "white", "distance": 0})
        self.assertEqual(self.ran("export", table, "--json", "--csv")[0], 2)

    def test_drawn_and_open(self):
        status, out, _ = self.ran("export", self.table("small_checkers"), "--json")
        self.assertEqual(json.loads(out.splitlines()[1]), {"number": 1, "value": "drawn", "winner": None, "distance": None})
        self.assertEqual(self.ran("new_table", GAMES / "take.rbg", "new.table")[0], 0)
        self.assertEqual(self.ran("export", "new.table", "--positions")[1].splitlines()[1:], ["0,>>,0,v,e,0,0,0,open,"])
        self.assertEqual(json.loads(self.ran("export", "new.table", "--json")[1])["value"], "open")

    def test_names_that_are_columns(self):
        self.file("clashes.rbg", CLASHES)
        self.assertEqual(self.ran("solve", "clashes.rbg")[0], 0)
        status, out, _ = self.ran("export", "clashes.table", "--positions")
        head, *rows = csv.reader(io.StringIO(out))
        self.assertEqual(head, ["number", "turn", "place", "vertex", "number_2", "a1", "A1_2", "turn_2", "black", "moves_2", "a1_3", "winner", "moves"])
        self.assertEqual(rows[-1], ["2", "black", "5", "number", "winner", "winner", "e", "1", "0", "2", "0", "turn", "0"])
        row = json.loads(self.ran("export", "clashes.table", "--positions", "--json")[1].splitlines()[-1])
        self.assertEqual(row["board"], {"number": "winner", "a1": "winner", "A1": "e"})
        self.assertEqual(row["values"], {"turn": 1, "black": 0, "moves": 2, "a1": 0})

    def test_a_database_and_a_data_frame(self):
        """As docs/GUIDE.md shows it."""
        self.table("chomp")
        (self.folder / "chomp.csv").write_text(self.ran("export", "chomp.table", "--positions")[1])
        if shutil.which("sqlite3"):
            asked = "SELECT count(*), max(moves) FROM positions WHERE turn = 'second' AND c3 = 'e' AND winner = 'first'"
            done = subprocess.run(["sqlite3", "chomp.db", ".import --csv chomp.csv positions", asked], cwd=self.folder, capture_output=True, check=True)
            rows = [json.loads(line) for line in self.ran("export", "chomp.table", "--positions", "--json")[1].splitlines()]
            fit = [row for row in rows if row["turn"] == "second" and row["board"]["c3"] == "e" and row["winner"] == "first"]
            self.assertEqual(done.stdout.decode(), f"{len(fit)}|{max(row['distance'] for row in fit)}\n")
        try:
            import pandas
        except ImportError:
            return
        rows = pandas.read_csv(self.folder / "chomp.csv")
        self.assertEqual((len(rows), rows["winner"][0], rows["moves"][0]), (67, "first", 8))

    def test_edges_are_the_moves(self):
        table = self.table("small_checkers")
        rows = [json.loads(line) for line in self.ran("export", table, "--edges", "--json")[1].splitlines()]
        for number in (0, 1, 1000, 2409):
            moves = json.loads(self.ran("moves", table, number, "--json")[1])["moves"]
            self.assertEqual(sorted(rows[number]["edges"]), sorted(move["number"] for move in moves))


class Json(Case):
    """One thing has one name in what the tools print by --json."""

    def printed(self, *words, status=0):
        done = self.ran(*words, "--json")
        self.assertEqual(done[0], status, done[2])
        return [json.loads(line) for line in done[1].splitlines()]

    def test_a_position_and_its_moves(self):
        table = self.table("take")
        wanted = {
            "number": 3, "text": "black 7 v e 1,0,2", "turn": "black", "place": 7, "vertex": "v", "board": {"v": "e"},
            "values": {"white": 1, "black": 0, "heap": 2}, "value": "black in 1", "winner": "black", "distance": 1,
        }
        self.assertEqual(self.printed("board", table, 3), [wanted])
        (found,) = self.printed("moves", table, 3)
        moves = found.pop("moves")
        self.assertEqual(found, wanted)
        self.assertEqual([(move["number"], move["winner"], move["distance"]) for move in moves], [(4, "black", 0), (5, "white", 1)])
        self.assertEqual((moves[0]["does"], moves[0]["text"], moves[0]["turn"]), ("[$ heap=heap-2]@v", "white 2 v e 0,1,0", "white"))
        self.assertEqual(self.ran("board", table, 3, "--json", "--svg")[0], 2)
        row = self.printed("export", table, "--positions")[3]
        self.assertEqual({**row, "text": wanted["text"]}, wanted)

    def test_a_move_that_is_not_known(self):
        self.ran("new_table", GAMES / "take.rbg", "new.table")
        (found,) = self.printed("moves", "new.table", 0)
        (move,) = found["moves"]
        self.assertEqual((move["number"], move["value"], move["winner"]), (None, "open", None))

    def test_a_game(self):
        wanted = {"positions": 67, "how": "all", "range": [67, 67], "pages": 64, "found": 67, "edges_each": 4.96}
        # the first column alone is left of each bar that has it whole and something more: 19 bars, of which each player has 18 to move at
        wanted["unit_pages"] = 49 * (3 * 18 + 2) + 1
        self.assertEqual(self.printed("size", GAMES / "chomp.rbg"), [wanted])
        name = "a\"<b>,\n.rbg"
        self.file(name, "#players = white(1), black(1)\n#pieces = e\n#board = v[e]{}\n#rules = ->grey")
        (found,) = self.printed("lint", name, status=1)
        self.assertEqual((found["file"], found["line"], found["byte"], found["code"]), (name, 4, 12, "G4"))
        self.assertEqual(found["more"][:2], ["#rules = ->grey", "           ^"])


class Odd(Case):
    def test_a_damaged_tree_of_edges(self):
        """Its root leads to itself, to a page that is not there, or is a leaf of numbers that are too great."""
        data = self.table("small_checkers").read_bytes()
        slot = 1024 + 512 * (data[512] & 1)
        page = int.from_bytes(data[slot + 52 : slot + 56], "big")
        inner = bytearray(data[4096 * page : 4096 * page + 4096])
        self.assertEqual(inner[0], 2)
        ring, gone, great = bytearray(inner), bytearray(inner), bytearray(b"\1\0\0\2" + b"\xff" * 4092)
        ring[12:16], gone[12:16] = page.to_bytes(4, "big"), b"\xff" * 4
        for wrong in (ring, gone, great):
            self.file("wrong.table", data[: 4096 * page] + bytes(wrong) + data[4096 * page + 4096 :])
            status, _, err = self.ran("export", "wrong.table", "--edges")
            self.assertEqual(status, 3, err)
            self.assertIn("E4", err)
            self.assertNotIn("Traceback", err)

    def test_what_is_no_table(self):
        self.file("other", b"SQLite format 3\0" + bytes(8192))
        for words in (["--positions"], ["--json", "--edges"]):
            status, out, err = self.ran("export", "other", *words)
            self.assertEqual((status, out), (1, ""))
            self.assertIn("E2", err)

    def test_a_reader_that_has_gone(self):
        self.table("small_checkers")
        for options in ("--positions", "--positions --json --edges"):
            line = f"{ROOT}/tools/export small_checkers.table {options} | head -n 1"
            done = subprocess.run(["sh", "-c", line], cwd=self.folder, capture_output=True, check=False, timeout=60)
            self.assertEqual(done.stdout.count(b"\n"), 1)
            self.assertNotIn(b"Traceback", done.stderr)
