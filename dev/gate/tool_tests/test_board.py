"""Boards that tools/board draws, moves that tools/moves shows, plays of tools/play, and what tools/trust says."""
import json
from xml.dom import minidom

from rbg_parts import boards, play

from .common import GAMES, Case


class Board(Case):
    def test_a_grid(self):
        table = self.table("chomp")
        wanted = "position 7: second has the turn; first 1, second 0; first in 6\n\n3 c c . .\n2 c c . .\n1 p c c c\n  a b c d\n"
        self.assertEqual(self.ran("board", table, 7), (0, wanted, ""))
        self.assertEqual(self.ran("board", table, 7, "--game", GAMES / "chomp.rbg"), (0, wanted, ""))

    def test_no_grid(self):
        status, out, _ = self.ran("board", self.table("pong_hau_ki"), 1)
        self.assertEqual(status, 0)
        self.assertEqual(out.split("\n\n")[1], "nw   b\nne   b\nmid  .\nsw   w\nse   w\n")

    def test_the_whole_text_is_compared(self):
        """Two games with one start and other rules are told apart."""
        text = (GAMES / "chomp.rbg").read_bytes()
        other = self.file("other.rbg", text.replace(b"[$ first = 1, second = 0]", b"[$ first = 0, second = 1]"))
        status, out, err = self.ran("board", self.table("chomp"), 1, "--game", other)
        self.assertEqual((status, out), (1, ""))
        self.assertIn("they differ from line 27, byte 20 ", err)

    def test_what_is_refused(self):
        table = self.table("take")
        self.assertEqual(self.ran("board", table, 7)[0], 1)
        self.assertEqual(self.ran("board", table, "one")[0], 2)
        self.assertEqual(self.ran("board", "none.table", 1)[0], 4)
        self.assertEqual(self.ran("board", table, 1, "--game", "none.rbg")[0], 4)

    def test_a_picture(self):
        for game, count in (("chomp", 12), ("take", 1)):
            status, out, _ = self.ran("board", self.table(game), 1, "--svg")
            self.assertEqual(status, 0)
            self.assertEqual(len(minidom.parseString(out).getElementsByTagName("rect")), count)

    def test_colours_tell_whose_a_piece_is(self):
        colours = boards.colours(play.play_of((GAMES / "rook.rbg").read_bytes()))
        self.assertTrue({colours["K"], colours["R"]} < set(boards.COLOURS[1]))
        self.assertEqual(colours["k"], boards.COLOURS[2][0])
        self.assertNotIn("e", colours)


class Trust(Case):
    def test_the_game_that_is_meant(self):
        table, game = self.table("chomp"), GAMES / "chomp.rbg"
        self.assertEqual(self.ran("trust", table, game), (0, f"audit right finished, of {game}\n", ""))
        done = self.ran("trust", "--text", table)
        self.assertEqual((done[0], done[1]), (0, game.read_text()))

    def test_another_game(self):
        text = (GAMES / "chomp.rbg").read_bytes()
        other = self.file("other.rbg", text.replace(b"[$ first = 1, second = 0]", b"[$ first = 0, second = 1]"))
        status, out, _ = self.ran("trust", self.table("chomp"), other)
        self.assertEqual((status, out), (1, f"another game: {self.folder}/chomp.table and {other} differ from line 27 on\n"))
        longer = self.file("longer.rbg", text + b"\n// more")
        self.assertEqual(self.ran("trust", self.folder / "chomp.table", longer)[0], 1)

    def test_a_wrong_table_and_a_goal(self):
        """A record's distance is changed, as transcripts/AUDITS.md does it; a goal is told."""
        self.assertEqual(self.ran("new_table", GAMES / "goal.rbg", "--goal", "2")[0], 0)
        status, out, _ = self.ran("trust", "goal.table", GAMES / "goal.rbg")
        self.assertEqual((status, out), (0, f"audit right open, of {GAMES}/goal.rbg with a goal of 2\n"))
        data = bytearray(self.table("take").read_bytes())
        slot = 1024 + 512 * (data[512] & 1)
        records = 4096 * int.from_bytes(data[slot + 48 : slot + 52], "big")
        data[records + 4 + 22 * 5 + 6 + 7] = 2
        wrong = self.file("wrong.table", bytes(data))
        self.assertEqual(self.ran("trust", wrong, GAMES / "take.rbg")[:2], (1, "audit wrong 5 A6\n"))

    def test_what_is_refused(self):
        table = self.table("take")
        self.assertEqual(self.ran("trust", table)[0], 2)
        self.assertEqual(self.ran("trust", "--text", table, GAMES / "take.rbg")[0], 2)
        self.assertEqual(self.ran("trust", GAMES / "take.rbg", GAMES / "take.rbg")[0], 1)


class Moves(Case):
    def test_of_a_drawn_position_the_best_first(self):
        """The moves of small checkers from its start: two draw, one loses."""
        table = self.table("small_checkers")
        status, out, err = self.ran("moves", table, 1)
        self.assertEqual((status, err), (0, ""))
        lines = out.splitlines()
        self.assertEqual(lines[0], "white 1 a1 w,w,e,e,e,e,b,b 0,0    drawn")
        self.assertEqual([line.split("  ")[1].strip() for line in lines[1:]], ["drawn", "drawn", "black in 5"])
        self.assertTrue(lines[1].endswith("  w a1-b2"))
        self.assertIn("[e]@a1 [w]@b2", self.ran("moves", table, 1, "--words")[1].splitlines()[1])
        status, out, _ = self.ran("moves", table, 1, "--json")
        found = json.loads(out)
        self.assertEqual((found["value"], [move["value"] for move in found["moves"]]), ("drawn", ["drawn", "drawn", "black in 5"]))

    def test_by_numbers_and_of_a_game_alone(self):
        table, game = self.table("small_checkers"), GAMES / "small_checkers.rbg"
        word = self.ran("moves", table, 1, "--numbers")[1].splitlines()[1].split("  ")[-1]
        self.assertRegex(word, r"\A([0-9]+@[a-d][1-4] ?)+\Z")
        self.assertIn(f"{word} => ", self.ran("moves", game, "white 1 a1 w,w,e,e,e,e,b,b 0,0", "--numbers")[1])
        told = json.loads(self.ran("moves", table, 1, "--json")[1])["moves"]
        alone = json.loads(self.ran("moves", game, "white 1 a1 w,w,e,e,e,e,b,b 0,0", "--json")[1])["moves"]
        key = lambda move: (move["text"], move["turn"], move["place"], move["board"], move["values"], move["name"], move["word"])
        self.assertEqual(sorted(map(key, told), key=str), sorted(map(key, alone), key=str))
        for words in (["--words", "--numbers"], ["--json", "--numbers"], ["--numbers", "--actions"]):
            self.assertEqual(self.ran("moves", game, *words)[0], 2)

    def test_positions_that_are_not_known_whole(self):
        table = self.table("small_checkers")
        whole = self.ran("moves", table, "white 1 a1 w,w,e,e,e,e,b,b 0,0")
        self.assertEqual(whole[0], 0)
        self.assertEqual(self.ran("moves", table, "white * * w,w,e,e,e,e,b,b *"), whole)
        self.assertEqual(self.ran("moves", table, "white * a1 w,w,e,e,e,e,b,b 0,*"), whole)
        # after the first move of white: a1 to b2, c1 to d2, or c1 to b2
        status, out, _ = self.ran("moves", table, "black * * *,*,*,*,e,e,b,b 1,0")
        self.assertEqual([int(line.split()[0]) for line in out.splitlines()], [2, 3, 4])
        self.assertEqual(self.ran("moves", table, "white * * *")[:2], (1, ""))
        # what no position can have is looked for in vain, however it is written
        wrong = ("grey * * * *", "white 999 * * *", "white * z9 * *", "white * * w,w *", "white * * x,w,e,e,e,e,b,b *", "white * * * 0,-1", "white * * * 00,*")
        for text in wrong:
            self.assertEqual(self.ran("moves", table, text)[:2], (1, ""), text)
        # the few texts that fit are looked up, and many are found by a look at each row: both find the same
        some = self.ran("moves", table, "* * * w,w,e,e,e,e,b,b *")
        self.assertEqual(some[1].splitlines()[0], "0  >> 0 a1 w,w,e,e,e,e,b,b 0,0    drawn")
        self.assertEqual(self.ran("moves", table, "* * * *,*,e,e,e,e,b,b *")[1].splitlines()[:2], some[1].splitlines())
        status, out, err = self.ran("moves", table, "* * * * *")
        self.assertEqual((status, len(out.splitlines())), (1, 100))
        self.assertIn("more than 100", err)
        self.assertEqual(self.ran("moves", table, "white 2 a1 w,w,e,e,e,e,b,b 0,0")[:2], (1, ""))
        self.assertEqual(self.ran("moves", table, "nonsense")[:2], (1, ""))
        self.assertEqual(self.ran("moves", table)[0], 2)

    def test_of_a_text(self):
        """White takes one or two of three."""
        wanted = (
            "[$ heap=heap-2]@v [$ white=1]@v [$ black=0]@v ->black@v => black 7 v e 1,0,1\n"
            "[$ heap=heap-1]@v [$ white=1]@v [$ black=0]@v ->black@v => black 7 v e 1,0,2\n"
        )
        self.assertEqual(self.ran("moves", GAMES / "take.rbg", "white 2 v e 0,0,3", "--words"), (0, wanted, ""))
        short = "heap 3 to 1 => black 7 v e 1,0,1\nheap 3 to 2 => black 7 v e 1,0,2\n"
        self.assertEqual(self.ran("moves", GAMES / "take.rbg", "white 2 v e 0,0,3"), (0, short, ""))
        self.assertEqual(self.ran("moves", GAMES / "take.rbg", "white 2 v e 0,0,0")[:2], (0, "ended\n"))
        start = "[$ heap=3]@v ->white@v => white 2 v e 0,0,3\n"
        self.assertEqual(self.ran("moves", GAMES / "take.rbg", "--words")[:2], (0, start))

    def test_texts_that_are_no_position(self):
        texts = ["", "white 2", "black 2 v e 0,0,3", "white 2 v e 0,0,4", "white 3 v e 0,0,3"]
        for text in [*texts, "white 2 w e 0,0,3", "white 02 v e 0,0,3", "white 99 v e 0,0,3"]:
            status, out, err = self.ran("moves", GAMES / "take.rbg", text)
            self.assertEqual((status, out), (1, ""), text)
            self.assertIn("no position", err)

    def test_actions(self):
        status, out, _ = self.ran("moves", "--actions", GAMES / "take.rbg")
        self.assertEqual((status, len(out.splitlines())), (0, 11))
        self.assertEqual(out.splitlines()[1], "   2 3:104  ->white")


class Play(Case):
    def played(self, game, lines, *more):
        status, out, err = self.ran("play", self.table(game), *more, given=lines.encode())
        self.assertEqual((status, err), (0, ""))
        return [block.splitlines() for block in out.strip("\n").split("\n\n")]

    def test_best_moves_to_the_end(self):
        """Chomp is won by who begins: the best moves of both take eight moves with the keeper's."""
        blocks = self.played("chomp", "b\n" * 8 + "v\nq\nb\n")
        self.assertEqual(len(blocks), 10)
        self.assertEqual(blocks[0][0], "position 0: the keeper has the turn; first 0, second 0")
        self.assertEqual(blocks[0][-1], "   1  to a1")
        self.assertEqual(blocks[8][0], "position 41: second has the turn; first 1, second 0")
        self.assertEqual(blocks[8][-1], "the play has ended")
        self.assertEqual(blocks[9][0], "position 41: second has the turn; first 1, second 0; first in 0")

    def test_moves_back_and_values(self):
        blocks = self.played("small_checkers", "1\nv\n1\nu\ng 3\ng 9999\nx\n7\n")
        self.assertEqual(blocks[0][1:5], ["4   b   b", "3 .   .", "2   .   .", "1 w   w"])
        lines = ["   1  w a1-b2    drawn", "   2  w c1-b2    drawn", "   3  w c1-d2    black in 5"]
        self.assertEqual(blocks[2][-3:], lines)
        lines = ["   1  [e]@a1 [w]@b2    drawn", "   2  [e]@c1 [w]@b2    drawn", "   3  [e]@c1 [w]@d2    black in 5"]
        self.assertEqual(self.played("small_checkers", "", "--from", "1", "--values", "--words")[0][-3:], lines)
        self.assertTrue(blocks[3][0].startswith("position 2: black has the turn"))
        self.assertTrue(blocks[4][0].startswith("position 1: white has the turn"))
        self.assertTrue(blocks[5][0].startswith("position 3: black has the turn"))
        self.assertEqual(blocks[5][-1], "there is no position 9999: 0 to 2409 are known")
        self.assertTrue(blocks[6][-1].startswith("a number or a name makes that move"))

    def test_moves_by_name(self):
        blocks = self.played("small_checkers", "g 1\nw  c1-d2\nw c1-d2\n")
        self.assertEqual([block[0].split(":")[0] for block in blocks], ["position 0", "position 1", "position 3", "position 3"])

    def test_from_a_position(self):
        blocks = self.played("take", "", "--from", "6", "--values")
        self.assertEqual(blocks[0][0], "position 6: black has the turn; white 1, black 0, heap 0; white in 0")
        self.assertEqual(self.ran("play", self.folder / "take.table", "--from", "7")[0], 1)

    def test_by_chance(self):
        """With the keeper's move white wins a game of takes in four moves, and black in three."""
        status, out, err = self.ran("play", "--random", GAMES / "take.rbg", 40, 3)
        self.assertEqual((status, err), (0, ""))
        white, black, nobody = out.splitlines()
        self.assertRegex(white, r"^white [0-9]+ of 40 plays, 4 moves$")
        self.assertRegex(black, r"^black [0-9]+ of 40 plays, 3 moves$")
        self.assertEqual(nobody, "nobody 0 of 40 plays")
        self.assertEqual(int(white.split()[1]) + int(black.split()[1]), 40)
        self.assertEqual(self.ran("play", "--random", GAMES / "take.rbg", "x", 3)[0], 2)
        self.assertEqual(self.ran("play")[0], 2)
