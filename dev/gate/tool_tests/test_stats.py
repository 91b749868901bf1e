"""What tools/stats tells: of one table, of two, and how balanced a game is."""
import json

from .common import GAMES, Case


class Stats(Case):
    def told(self, *words):
        status, out, err = self.ran("stats", *words)
        self.assertEqual((status, err), (0, ""))
        return out

    def test_take(self):
        """By hand: white has the turn in 1, 4 and 5, with two moves, none and one; black in 2, 3 and 6, with one, two and none. In 3 black wins
        by taking both stones, and loses by taking one."""
        table = self.table("take")
        lines = self.told(table, "--more").splitlines()
        at = lines.index("the first moves: white has 2 in position 1, and 2 of them keep its value, black in 2")
        self.assertEqual(lines[at + 1 : at + 7], [
            "white: 1.50 moves each in 3 positions, 2 at most; 1 forced, 1 ended",
            "black: 1.50 moves each in 3 positions, 2 at most; 1 forced, 1 ended",
            "white: something to keep in 0 positions, by one move alone in 0; nothing to throw away",
            "black: something to keep in 1 positions, by one move alone in 1; a move by chance throws it away in 50.0 %",
            "",
            "the main line:",
        ])
        self.assertEqual([line.split()[0] for line in lines[at + 7 :]], ["0", "1", "2", "4"])
        self.assertEqual("\n".join(lines[: at - 1]) + "\n", self.told(table))

    def test_json(self):
        found = json.loads(self.told(self.table("take"), "--more", "--json"))
        self.assertEqual((found["known"], found["finished"], found["players"], found["wins"]), (7, True, ["white", "black"], [2, 5]))
        # the system page, the text, and a leaf of each of the four trees
        self.assertEqual(found["pages"], {"all": 64, "used": 6, "free": 58})
        self.assertEqual(found["start"], {"value": "black in 3", "winner": "black", "distance": 3})
        self.assertEqual(found["distances"], [{"distance": at, "wins": wins} for at, wins in enumerate(([1, 1], [1, 2], [0, 1], [0, 1]))])
        self.assertEqual((found["longest"]["number"], found["longest"]["line"], found["main_line"]), (0, [0, 1, 2, 4], [0, 1, 2, 4]))
        self.assertEqual(found["keeps"], [{"positions": 0, "by_one_move": 0, "thrown_away": None}, {"positions": 1, "by_one_move": 1, "thrown_away": 0.5}])
        self.assertEqual(found["turns"][1], {"positions": 3, "moves": 3, "most": 2, "forced": 1, "ended": 1})

    def test_a_drawn_game(self):
        """Tic-tac-toe: each of nine first moves draws, and so do best moves of both, to a full board."""
        found = json.loads(self.told(self.table("tictactoe"), "--more", "--json"))
        self.assertEqual((found["first_moves"]["turn"], found["first_moves"]["moves"], found["first_moves"]["keep"]), ("cross", 9, 9))
        self.assertEqual((found["start"]["value"], found["start"]["distance"], len(found["main_line"])), ("drawn", None, 11))

    def test_two_tables(self):
        take, chomp = self.table("take"), self.table("chomp")
        lines = self.told(take, chomp, "--more").splitlines()
        self.assertEqual(lines[0].split(), [str(take), str(chomp)])
        rows = [line.split() for line in lines]
        self.assertIn(["positions", "7", "67"], rows)
        self.assertIn(["pages", "used", "6", "of", "64", "6", "of", "64"], rows)
        self.assertIn(["the", "first", "player", "white", "first"], rows)
        self.assertIn(["the", "start", "black", "in", "3", "first", "in", "8"], rows)
        self.assertIn(["moves", "of", "the", "main", "line", "3", "8"], rows)
        self.assertEqual(len({len(line) for line in lines}), 1)
        self.assertNotIn("forced", self.told(take, chomp))
        self.assertEqual(self.ran("stats", take, chomp, take)[0], 2)
        self.assertEqual(self.ran("stats", take, chomp, "--json")[0], 2)

    def test_tables_that_are_worked_on(self):
        self.ran("new_table", GAMES / "take.rbg", "new.table")
        lines = self.told("new.table", "--more").splitlines()
        self.assertIn("no position is won so far as the table knows", lines)
        self.assertIn("white: 0.00 moves each in 0 positions, 0 at most; 0 forced, 0 ended", lines)
        found = json.loads(self.told("new.table", "--more", "--json"))
        self.assertEqual((found["first_moves"], found["longest"], found["main_line"], found["open"]), (None, None, [0], 1))

    def test_what_is_no_table(self):
        self.file("other", b"SQLite format 3\0" + bytes(8192))
        for words in (["other", "--more"], ["other", "--json"], [self.table("take"), "other"]):
            status, out, err = self.ran("stats", *words)
            self.assertEqual((status, out), (1, ""))
            self.assertIn("E2", err)
