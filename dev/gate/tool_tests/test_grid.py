"""Boards that tools/grid writes."""
from rbg_parts import language

from .common import GAMES, Case


class Grid(Case):
    def board(self, *words):
        status, out, err = self.ran("grid", *words)
        self.assertEqual((status, err), (0, ""))
        return out

    def test_two_by_two(self):
        self.assertEqual(
            self.board(2, 2, "w=a1", "b=b2", "--diagonals"),
            "#board =\n"
            "    a1[w]{right: b1, up: a2, ne: b2, next: b1, home: a1}\n"
            "    b1[e]{left: a1, up: b2, nw: a2, next: a2, home: a1}\n"
            "    a2[e]{right: b2, down: a1, se: b1, next: b2, home: a1}\n"
            "    b2[b]{left: a2, down: b1, sw: a1, home: a1}\n",
        )

    def test_dark_squares_rows_and_no_walk(self):
        self.assertEqual(self.board(2, 2, "--only", "dark", "w=1", "--no-walk"), "#board =\n    a1[w]{ne: b2}\n    b2[e]{sw: a1}\n")

    def test_the_boards_of_games(self):
        for name, words in (
            ("large/little_tablut", (4, 4, "K=b2", "d=c2", "a=a3,d3,c4")),
            ("large/small_teeko", (4, 4, "--diagonals")),
            ("large/rook_5x5", (5, 5, "K=a1", "R=b1", "k=d4", "--diagonals")),
        ):
            text = (GAMES / f"{name}.rbg").read_text()
            self.assertIn(self.board(*words), text, name)

    def test_a_game_with_such_a_board_is_read(self):
        text = "#players = white(1), black(1)\n#pieces = none, w\n" + self.board(11, 11, "w=f", "--empty", "none") + "#rules = ->white"
        self.assertEqual(len(language.read(text.encode()).vertices), 121)

    def test_what_is_refused(self):
        boards = ((12, 11), (0, 3), (27, 1), ("x", 3), (1, 1, "--only", "light"))
        for words in (*boards, (3, 3, "w"), (3, 3, "w=d1"), (3, 3, "w=a1", "b=a1"), (3, 3, "1=a1")):
            status, out, err = self.ran("grid", *words)
            self.assertEqual((status, out), (2, ""), words)
            self.assertTrue(err.startswith("grid: "), words)
