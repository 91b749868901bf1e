"""Short names of moves, the same in the tools and on the page, and boards that are drawn."""
import json
import shutil
import subprocess

import rbgtable
from rbg_parts import boards, drawn, play

from .common import GAMES, ROOT, Case

SQUARES = ["a1", "b1", "c1", "a2", "b2", "c2"]
# boards before and behind a move on these squares, and its name
NAMES = [
    ("R e e e e e", "e e e R e e", "R a1-a2"),
    ("R e e p e e", "e e e R e e", "R a1xa2"),
    ("e e e e e e", "e x e e e e", "x b1"),
    ("e x e e e e", "e o e e e e", "o b1"),
    ("w e e e e e", "e x e e w e", "w a1-b2 x@b1"),
    ("w b e e e e", "e e w e e e", "w a1-c1 b off b1"),
    ("p e e e e e", "e e e Q e e", "Q@a2 p off a1"),
    ("c c c e e e", "c e e e e e", "c off b1 c1"),
    ("c d c e e e", "e e e e e e", "c off a1 c1 d off b1"),
    ("w w e e e e", "e e w w e e", "w@c1 w@a2 w off a1 b1"),
    ("R p e e e e", "p R e e e e", "p@a1 R@b1"),
    ("e e e e e e", "x o e e e e", "x@a1 o@b1"),
    ("K R e e e e", "e e K R e e", "K a1-c1 R b1-a2"),
]
# names of each move of each position, by the page
IN_NODE = """
import fs from "node:fs";
const [folder, game, asked] = process.argv.slice(2);
const { readGame, readPosition } = await import(`${folder}/game_text.mjs`);
const { nameMoves, readMove } = await import(`${folder}/moves.mjs`);
const text = readGame(fs.readFileSync(game, "utf8"));
const rows = JSON.parse(fs.readFileSync(asked, "utf8"));
const names = rows.map(({ text: before, moves }) => nameMoves(text, readPosition(before), moves.map(readMove)).map((move) => move.name));
console.log(JSON.stringify(names));
"""
HOLES = """
#players = white(1), black(1)
#pieces = empty, w, king
#board = b1[w]{up: b2} a2[empty]{right: b2} b2[empty]{up: b3} b3[king]{}
#rules = ->white {w} [empty] up {empty} [w] ({? up} + {! up}) [$ white = 1] ->black
"""


class Names(Case):
    def test_by_hand(self):
        naming = rbgtable.Naming(SQUARES, ["white", "black", "heap", "turn"])
        for before, behind, name in NAMES:
            texts = [f"white 1 a1 {board.replace(' ', ',')} 0,0,0,0" for board in (before, behind)]
            self.assertEqual(naming.plain(*texts), name)
        for before, behind, name in (
            ("0,0,3,0", "1,0,1,0", "heap 3 to 1"),
            ("0,0,0,0", "1,0,0,0", "white 0 to 1"),
            ("0,0,3,1", "0,1,2,0", "heap 3 to 2, turn 1 to 0"),
            ("0,0,0,0", "0,0,0,0", "to c2"),
        ):
            self.assertEqual(naming.plain(f"white 1 a1 e,e,e,e,e,e {before}", f"black 2 c2 e,e,e,e,e,e {behind}"), name)

    def test_moves_with_one_name(self):
        """Numbered by the texts of the positions, whatever the order of the moves."""
        naming = rbgtable.Naming(["a1"], ["white", "black"])
        texts = ["black 2 a1 w 1,0", "black 2 a1 w 0,0", "black 2 a1 b 0,0", "black 3 a1 w 0,0"]
        self.assertEqual(naming.names("white 1 a1 e 0,0", texts), ["w a1 #2", "w a1", "b a1", "w a1 #3"])
        self.assertEqual(naming.names("white 1 a1 e 0,0", texts[::-1]), ["w a1 #3", "b a1", "w a1", "w a1 #2"])
        self.assertEqual(naming.names("white 1 a1 e 0,0", []), [])

    def test_names_of_tables(self):
        """No two moves of a position have one name, the text of a position and of a game tells as much as the table, and the page says the same."""
        for game in ("take", "chomp", "small_checkers", "pong_hau_ki", "cat_and_mouse", "dodgem"):
            path = self.table(game)
            with rbgtable.Table(path, ROOT / "rbgsolve") as table:
                numbers = range(0, table.counts.known, max(1, table.counts.known // 150))
                texts = [table.show(number) for number in numbers]
                lines = [[f"{move.number} {move.value} 1@a => {move.text}" for move in table.moves(number)] for number in numbers]
                names = [[move.name for move in table.moves(number)] for number in numbers]
            self.assertTrue(all(len(set(some)) == len(some) for some in names), game)
            self.assertEqual(table.naming.values, list(play.play_of((GAMES / f"{game}.rbg").read_bytes()).value_at))
            if shutil.which("node"):
                self.file("named.mjs", IN_NODE)
                self.file("asked.json", json.dumps([{"text": text, "moves": some} for text, some in zip(texts, lines)]))
                words = ["node", "named.mjs", ROOT / "page", GAMES / f"{game}.rbg", "asked.json"]
                done = subprocess.run(words, cwd=self.folder, capture_output=True, check=False)
                self.assertEqual(done.returncode, 0, done.stderr.decode())
                self.assertEqual(json.loads(done.stdout), names, game)


class Drawn(Case):
    def test_what_board_draws_is_read(self):
        """A board of each game, drawn and read back; of a grid also without the letters, and with any blanks between pieces."""
        for path in sorted(GAMES.glob("*.rbg")):
            game = play.play_of(path.read_bytes())
            pieces = game.show(game.start()).split(" ")[3].split(",")
            lines = boards.letters(game.names, pieces)
            self.assertEqual(drawn.read(game.names, list(game.pieces), "\n".join(["position 3: x", "", *lines])), pieces, path.name)
            columns = boards.axes(game.names)[0] if boards.places(game.names) else []
            if columns and len(columns) * len(boards.axes(game.names)[1]) == len(game.names):
                loose = "\n".join("   ".join(line.split()) for line in lines[:-1])
                self.assertEqual(drawn.read(game.names, list(game.pieces), loose), pieces, path.name)

    def test_a_position_by_its_board(self):
        table = self.table("small_checkers")
        wanted = self.ran("moves", table, 1)
        board = b"4   b   b\n3 .   .\n2   .   .\n1 w   w\n  a b c d\n"
        self.assertEqual(self.ran("moves", table, "white", given=board), wanted)
        self.assertEqual(self.ran("moves", table, "white", given=self.ran("board", table, 1)[1].encode()), wanted)
        self.assertEqual(self.ran("moves", table, ">>", given=self.ran("board", table, 0)[1].encode())[1].split(" ")[0], ">>")
        status, out, err = self.ran("moves", table, "black", given=board.replace(b"w   w", b"w   b"))
        self.assertEqual((status, out), (1, ""))
        self.assertIn("no known position of black has this board", err)

    def test_several_positions_have_one_board(self):
        """In take all of them; with more values than are tried the table's positions are looked at."""
        table = self.table("take")
        status, out, _ = self.ran("moves", table, "white", given=b"v e\n")
        self.assertEqual((status, [line.split()[0] for line in out.splitlines()]), (0, ["1", "4", "5"]))
        text = (GAMES / "take.rbg").read_text().replace("heap(3)", "heap(1000000)")
        self.file("great.rbg", text)
        self.assertEqual(self.ran("solve", "great.rbg")[0], 0)
        self.assertEqual(self.ran("moves", "great.table", "white", given=b"v .\n")[:2], (0, out))

    def test_a_board_with_holes(self):
        self.file("holes.rbg", HOLES)
        self.assertEqual(self.ran("solve", "holes.rbg")[0], 0)
        status, out, _ = self.ran("board", "holes.table", 1)
        board = "\n".join(out.splitlines()[2:])
        self.assertEqual(board, "3      king\n2 .    .\n1      w\n  a    b")
        for some in (board, "3 king\n2 . .\n1 w\n", "3      king\n2 . .\n1      w\n  a    b\n"):
            status, out, err = self.ran("moves", "holes.table", "white", given=some.encode())
            self.assertEqual((status, err), (0, ""), some)
            self.assertTrue(out.endswith("  w b1-b2\n"), out)

    def test_what_is_no_board(self):
        table = self.table("chomp")
        good = self.ran("board", table, 7)[1].partition("\n\n")[2]
        for board, why in (
            ("", "nothing tells what stands on a1"),
            ("\xff\x00", "number of a row"),
            (good.replace("p", "q"), "no piece is called `q`"),
            (good.replace("1 p c c c\n", ""), "nothing tells what stands on a1"),
            (good.replace("1 p c c c", "1 p c c"), "nothing tells what stands on d1"),
            (good.replace("1 p c c c", "1 p c c").replace("  a b c d\n", ""), "row 1 has 4 vertices"),
            (good.replace("1 p c c c", "1 p c c c c"), "row 1 has 4 vertices"),
            (good.replace("1 p", "2 p"), "stands twice"),
            (good.replace("1 p", "9 p"), "number of a row"),
            (good.replace("1 p", "1 ?"), "no piece is called `?`"),
            (good.replace("p", "<b>,\""), "no piece is called `<b>,\"`"),
        ):
            status, out, err = self.ran("moves", table, "second", given=board.encode("latin-1"))
            self.assertEqual((status, out), (1, ""), board)
            self.assertIn(why, err)
        row = self.ran("moves", self.table("pong_hau_ki"), "white", given=b"nowhere e\n")
        self.assertEqual(row[:2], (1, ""))
