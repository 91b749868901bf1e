"""Warnings of tools/lint: none on the games of games/, and each where it is meant."""
from .common import GAMES, Case

HEAD = "#players = white(1), black(1)\n#pieces = e, w, b\n"
LINE = "#board = a1[w]{right: b1, home: a1} b1[e]{right: c1, left: a1, home: a1} c1[b]{left: b1, home: a1}\n"
# a game on one vertex, with these variables
ONE = "#players = white(1), black(1) #pieces = e #variables = {} #board = v[e]{{}}\n#rules = "


class Lint(Case):
    def codes(self, text, *more):
        """The codes of the warnings of a text, in order, and all that was printed."""
        path = self.file("game.rbg", text)
        status, out, _ = self.ran("lint", path, *more)
        codes = [line.split(": ", 1)[1].split()[0] for line in out.splitlines() if not line.startswith(" ")]
        self.assertEqual(status, 1 if codes else 0)
        return codes, out

    def test_games_have_no_warning(self):
        games = sorted([*GAMES.glob("*.rbg"), *GAMES.glob("large/*.rbg")])
        self.assertGreater(len(games), 25)
        status, out, err = self.ran("lint", "--positions", 300, *games)
        self.assertEqual((status, out), (0, ""))
        self.assertEqual(err.count("nothing found"), len(games))

    def test_a_score_that_is_never_set(self):
        rules = "#rules = ->white ({w} [e] right {e} [w] home [$ white = 1] ->black {b} [e] left {e} [b] home ->white)*"
        codes, out = self.codes(HEAD + LINE + rules)
        self.assertIn("game.rbg:1:22: L1 the score of black is never set", out)
        self.assertEqual(codes[0], "L1")

    def test_a_player_who_only_ever_gets_nought(self):
        """By a slip black's turn gives the win to white: nothing else looks wrong, and every play is white's."""
        turn = "[$ n = n - 1] [$ white = 1, black = 0]"
        rules = f"[$ n = 9] ->white ({turn} ([$ n = n - 1] + {{$ n > 0}}) ->black [$ n = n - 1] [$ white = 1] ->white)*"
        codes, out = self.codes(ONE.format("n(9)") + rules)
        self.assertEqual(codes, ["L1"])
        self.assertIn("game.rbg:1:22: L1 black is only ever given 0, so that black never wins", out)
        # a bound of 0 says that it is meant
        self.assertEqual(self.codes(ONE.replace("black(1)", "black(0)").format("n(9)") + rules)[0], [])
        _, out = self.codes(ONE.format("n(9)") + "->white [$ white = 0, black = 0] ->black")
        self.assertIn("L1 no score is ever more than 0, so that every play is drawn", out)

    def test_a_player_who_wins_each_play_by_chance(self):
        """Black would win with nine points, but there are eight turns."""
        turn = "([$ n = n + 1] + [$ n = n + 1, k = k + 1])"
        rules = f"->white ({{$ n < 8}} {turn} [$ white = 1, black = 0] ->black {turn} ({{$ k < 9}} + {{$ k >= 9}} [$ white = 0, black = 1]) ->white)*"
        codes, out = self.codes(ONE.format("n(9), k(9)") + rules)
        self.assertEqual(codes, ["L10"])
        self.assertRegex(out, r"L10 white won all [\d,]+ random plays: does a rule let black win\?")

    def test_no_score_at_all(self):
        _, out = self.codes(HEAD + LINE + "#rules = ->white {w} [e] right {e} [w] left ->black")
        self.assertIn("L1 no score is ever set", out)

    def test_variables_pieces_and_labels(self):
        text = (
            "#players = white(1), black(1)\n#pieces = e, w, b\n#variables = x(1), y(1)\n#board = a1[w]{up: a2} a2[e]{down: a1}\n"
            "#rules = ->white {w} {$ x == 0} [$ y = 1, white = 1, black = 0] up {e} [w] ->black"
        )
        codes, out = self.codes(text)
        self.assertEqual(codes, ["L1", "L3", "L2", "L2", "L4"])
        for part in ("piece b never stands", "variable x is never set", "variable y is set and never asked", "label down"):
            self.assertIn(part, out)

    def test_the_naive_game(self):
        """A first attempt at a game, with four slips: no home, a score that is never set, play after a line, and the wrong other case."""
        board = "".join(
            f"a{n}[e]{{next: a{n + 1}, r: a{n + 1}}} " if n < 7 else f"a{n}[e]{{next: a1}}\n" for n in range(1, 8)
        )
        turn = "(next)* {e} [w] ({? (next)* {w} r {w} r {w}} [$ white = 1] + {! {w} r {w}})"
        codes, _ = self.codes(HEAD + "#board = " + board + f"#rules = (->white {turn} ->black (next)* {{e}} [b])*")
        for code in ("L1", "L5", "L7", "L9"):
            self.assertIn(code, codes)

    def test_the_keeper_chooses(self):
        codes, out = self.codes(ONE.format("d(2)") + "([$ d = 1] + [$ d = 2]) ->white {$ d > 0} [$ white = 1] ->black {}")
        self.assertEqual(codes, ["S3"])
        self.assertIn("[$ d = 1]@v ->white@v => white 3 v e 0,0,1\n    [$ d = 2]@v ->white@v => white 3 v e 0,0,2\n", out)

    def test_a_place_for_each_branch(self):
        white, black = "[$ n = n - 1] [$ white = 1, black = 0]", "[$ n = n - 1] [$ white = 0, black = 1]"
        codes, _ = self.codes(ONE.format("n(99)") + f"[$ n = 99] ->white ({white} (->black + ->black) {black} ->white)*")
        # the plays have one length, so that one player wins them all
        self.assertEqual(codes, ["L8", "L10"])

    def test_a_search_that_is_too_wide(self):
        rules = "[$ x = x + 1]* [$ y = y + 1]* ->white [$ white = 1] ->black [$ black = 1] ->white {$ x + y > 0}"
        self.assertEqual(self.codes(ONE.format("x(999), y(999)") + rules)[0], ["S4"])


class Faults(Case):
    """What may have been meant by a text that is no game."""

    def told(self, text, name="text.rbg"):
        status, out, _ = self.ran("lint", self.file(name, text))
        self.assertEqual(status, 1)
        return out

    def test_did_you_mean(self):
        text = (GAMES / "take.rbg").read_text()
        self.assertIn("G4 no variable or player is called `haep`\n", self.told(text.replace("heap-2", "haep-2")))
        self.assertIn("    did you mean `heap`?\n", self.told(text.replace("heap-2", "haep-2")))
        self.assertIn("    did you mean `variables`?\n", self.told(text.replace("#variables", "#varaibles")))
        self.assertIn("`v` is a vertex, and stands here in the place of a piece", self.told(text.replace("([$heap=heap-1]", "({v}")))

    def test_an_open_parenthesis_is_told_where_it_was_opened(self):
        text = "#players = white(1), black(1)\n#pieces = e\n#board = v[e]{}\n#rules = ->white (\n  ({e} + {e}\n  ->black\n)*\n"
        self.assertIn("G1 the text ends too early\n", self.told(text))
        self.assertIn("    the `(` of line 4, byte 18, is open here\n", self.told(text))
        self.assertIn("    no `(` is open here\n", self.told(text.replace("({e} + {e}", "{e}) )")))

    def test_a_byte_order_mark(self):
        out = self.told(b"\xef\xbb\xbf" + (GAMES / "take.rbg").read_bytes())
        self.assertIn("text.rbg:1:1: G1 nothing in a game text begins with the byte 239\n", out)
        self.assertIn("byte order mark", out)

    def test_a_table_and_the_language_with_macros(self):
        self.assertIn("this is a table", self.told(b"RBGTABLE" + bytes(4088)))
        high = "#players = white(1), black(1)\n#pieces = e\n#variables =\n#board = rectangle(up,down,left,right,[e,e])\n"
        high += "#anyCell = (up* + down*)(left* + right*)\n#rules = ->white anyCell"
        self.assertIn("the language with macros", self.told(high))

    def test_the_line_and_a_caret(self):
        out = self.told("#players = white(1), black(1)\n#pieces = e\n#board = v[e]{}\n#rules = ->grey")
        self.assertIn("    #rules = ->grey\n" + " " * 15 + "^\n", out)
