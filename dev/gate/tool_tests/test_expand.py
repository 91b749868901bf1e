"""Games of the high-level language that tools/expand turns into texts of the profile."""
import subprocess
import time

from rbg_parts import expansion, language, macros, play, solve

from .common import GAMES, ROOT, Case

HEAD = "#players = white(1), black(1)\n#pieces = e, w, b\n#variables =\n"
# two men each on a strip: who steps onto the other one's man takes it; written with macros, and by hand
MACROS = HEAD + """#board = rectangle(up,down,left,right,[w,e,e,b])
#ahead(me; my; other) = (left* + right*) {my} [e] me~Way {e, other} [my] left* {! left}
#turn(me; opp; my; other) = ahead(me; my; other) [$ me = 1, opp = 0] ->opp
#whiteWay = right
#blackWay = left
#rules = ->white (turn(white; black; w; b) turn(black; white; b; w))*
"""
BY_HAND = HEAD + """#board = a1[w]{right: b1} b1[e]{left: a1, right: c1} c1[e]{left: b1, right: d1} d1[b]{left: c1}
#rules = ->white ( (left* + right*) {w} [e] right {e, b} [w] left* {! left} [$ white = 1, black = 0] ->black
    (left* + right*) {b} [e] left {e, w} [b] left* {! left} [$ black = 1, white = 0] ->white )*
"""


def found(text):
    """All positions of a game and where their moves lead."""
    graph = solve.Graph(play.play_of(text))
    while not graph.is_whole:
        graph.expand()
    return [graph.play.show(position) for position in graph.positions], graph.successors, solve.values(graph)


def board(text):
    """The vertices that a board has: name, piece, and arrows."""
    rules = "\n#rules = ->white"
    game = language.read(expansion.expanded((HEAD + "#board = " + text + rules).encode()))
    return {vertex.name.text: (vertex.piece.text, {label.text: to.text for label, to in vertex.arrows}) for vertex in game.vertices}


class Expand(Case):
    def refused(self, text, *parts):
        status, out, err = self.ran("expand", self.file("high.rbg", text))
        self.assertEqual((status, out), (1, ""), text)
        self.assertNotIn("Traceback", err)
        for part in parts:
            self.assertIn(part, err)
        self.assertRegex(err.splitlines()[0], r"high\.rbg:\d+:\d+: ")

    def test_moves_are_those_of_a_game_that_is_expanded_by_hand(self):
        status, out, err = self.ran("expand", self.file("high.rbg", MACROS))
        self.assertEqual((status, err), (0, ""))
        self.assertEqual(found(out.encode()), found(BY_HAND.encode()))

    def test_the_games_of_the_folder(self):
        names = sorted(path.name for path in (GAMES / "high").glob("*.rbg"))
        self.assertGreater(len(names), 2)
        for name in names:
            status, out, err = self.ran("expand", GAMES / "high" / name)
            self.assertEqual((status, err), (0, ""), name)
            game = next(path for path in (GAMES / name, GAMES / "large" / name) if path.exists())
            self.assertEqual(out, game.read_text(), name)

    def test_the_program_reads_what_is_written(self):
        path = self.folder / "low.rbg"
        self.assertEqual(self.ran("expand", self.file("high.rbg", MACROS), "-o", path), (0, "", ""))
        told = subprocess.run([ROOT / "rbgsolve", "actions", path], capture_output=True, check=True).stdout.decode()
        self.assertIn(" white = 1\n", told)
        told = subprocess.run([ROOT / "rbgsolve", "moves", path], capture_output=True, check=True).stdout.decode()
        self.assertEqual(told.count("\n"), 1)

    def test_boards(self):
        self.assertEqual(
            board("rectangle(n,s,w,e,[w,b],[#,e])"),
            {"a2": ("w", {"e": "b2"}), "b2": ("b", {"s": "b1", "w": "a2"}), "b1": ("e", {"n": "b2"})},
        )
        ring = board("hexagon(nw,ne,r,se,sw,l,[e,e][e,w,e][e,e])")
        self.assertEqual(list(ring), ["a3", "b3", "a2", "b2", "c2", "b1", "c1"])
        self.assertEqual(ring["b2"], ("w", {"nw": "a3", "ne": "b3", "r": "c2", "se": "c1", "sw": "b1", "l": "a2"}))
        for name, (_, arrows) in ring.items():
            for label, to in arrows.items():
                back = {"nw": "se", "ne": "sw", "r": "l", "se": "nw", "sw": "ne", "l": "r"}[label]
                self.assertEqual(ring[to][1][back], name)
        cube = board("cuboid(u,d,l,r,f,b,[[e,w][e,e]],{[e,e][b,e]})")
        self.assertEqual(cube["b2_1"], ("w", {"d": "b1_1", "l": "a2_1", "b": "b2_2"}))
        self.assertEqual(cube["a1_2"], ("b", {"u": "a2_2", "r": "b1_2", "f": "a1_1"}))

    def test_macros(self):
        def rules(text, more=""):
            game = language.read(expansion.expanded((HEAD + "#board = v[e]{a: v, ab: v}\n" + text + more).encode()))
            return [game.source(action) for action in game.actions]

        self.assertEqual(rules("#f = a\n#f(x) = ab x\n#rules = f a f(f)"), ["a", "a", "ab", "a"])
        self.assertEqual(rules("#rules = g(f; a)\n#g(h; x) = h(x) h(h(x))\n#f(x) = x {e}"), ["a", "{e}", "a", "{e}", "{e}"])
        self.assertEqual(rules("#rules = one(a; b)\n#one(x; y) = x~y {$ 1~2 > 0}"), ["ab", "{$ 12 > 0}"])
        self.assertEqual(rules("#rules = . /* + b */ a // b"), ["{e, w, b}", "a"])

    def test_what_has_no_place(self):
        one, play_ = HEAD + "#board = v[e]{a: v}\n", "#rules = ->white\n"
        self.refused(one + "#f = {$ 4 / 2 > 0}\n#rules = f a", ":5:11: a division has no place", "    #f = {$ 4 / 2 > 0}", "in the macro `f`, which ")
        self.refused(one + "#rules = a $ index a", "tags of moves")
        self.refused(one + "#rules = a ^ 3", "a power has no place")
        self.refused(one + "#f = g\n#g = f\n#rules = f", "stands in itself")
        self.refused(one + "#f(x) = x\n#rules = f(a; a)", "takes 1 arguments, and is given 2")
        self.refused(one + "#f(x) = x\n#rules = a f", "the macro `f` takes 1 arguments, and stands here without them")
        self.refused(one + "#f(x; x) = x\n#rules = a", "two arguments with one name")
        self.refused(one + "#f(x) = x\n#f(y) = y\n#rules = a", "stands twice")
        self.refused(one + "#f(x = x\n#rules = a", "the names of a macro's arguments")
        self.refused(one + "#f(x) = x\n#rules = f(a", "this parenthesis is not closed")
        self.refused(one + "#rules = a~(a)", "`~` joins")
        self.refused(one + "#rules = b", ":5:10: G4 no label is called `b`")
        self.refused(one + play_ + "#rules = a", "#rules stands twice")
        self.refused(one, "there is no #rules")
        self.refused("rules", "outside of the sections")
        self.refused(HEAD.replace("black(1)", "black(1), red(1)") + "#board = v[e]{}\n" + play_, "G3 there are 3 players")
        for text, told in (
            ("rectangle(u,d,l,r,[e,e][e])", "row 2 has 1 fields"),
            ("rectangle(u,d,l,[e,e])", "a rectangle has 4 labels"),
            ("rectangle(u,d,u,r,[e,e])", "a rectangle has 4 labels"),
            ("rectangle(u,d,l,r)", "the rows of a rectangle stand in brackets"),
            ("rectangle(u,d,l,r,[e,[e])", "in a row"),
            ("rectangle(u,d,l,r,[#])", "this one has 0"),
            ("rectangle(u,d,l,r,[e]) e", "is the whole board"),
            ("hexagon(a,b,c,d,f,g,[e,e][e,e])", "one more or one less"),
            ("cuboid(u,d,l,r,f,b,[e])", "rows of a cuboid"),
        ):
            self.refused(HEAD + f"#board = {text}\n" + play_, told)
        row = "[" + ",".join(["e"] * 12) + "]"
        self.refused(HEAD + f"#board = rectangle(u,d,l,r,{row * 11})\n" + play_, "this one has 132")

    def test_texts_that_try_to_make_it_run_for_ever(self):
        one = HEAD + "#board = v[e]{a: v}\n"
        doubled = "".join(f"#m{at} = m{at + 1} m{at + 1}\n" for at in range(60)) + "#m60 = a\n#rules = m0"
        nothing = "#n(x) =\n" + "".join(f"#m{at} = n(m{at + 1} m{at + 1})\n" for at in range(60)) + "#m60 = a\n#rules = m0 a"
        chain = "".join(f"#m{at} = m{at + 1}\n" for at in range(3000)) + "#m3000 = a\n#rules = m0"
        wide = f"#w(x) = {'x ' * 9000}\n#rules = w({'a ' * 9000})"
        calls, stars = "#rules = " + "f(" * 20000 + "\n#f(x) = x", "#rules = b" + " a*" * 20000
        deep = "#rules = " + "(" * 64 + "a " * 30000 + ")" * 64
        for text in (doubled, nothing, chain, wide, "#rules = " + "(" * 30000, "/* " * 20000, calls, "#" * 60000, stars, deep):
            begin = time.monotonic()
            self.refused(one + text)
            self.assertLess(time.monotonic() - begin, 20)

    def test_odd_files(self):
        self.refused(b"RBGTABLE" + bytes(4088))
        self.refused(b"\xff\xfe#")
        self.refused(b"")
        self.refused("#rules = \x1b[31m")
        status, _, err = self.ran("expand", self.file("long.rbg", "a" * 70000))
        self.assertEqual((status, err.count("longer than 65,536 bytes")), (1, 1))
        self.assertEqual(self.ran("expand", "none.rbg")[0], 4)
        path = self.file("high.rbg", MACROS)
        self.assertEqual(self.ran("expand", path, "-o", "high.rbg")[0], 2)
        self.assertEqual(self.ran("expand", path, "-o", self.file("a.table", b"RBGTABLE" + bytes(99)))[0], 2)
        self.assertEqual(self.ran("expand", path, "-o", "no/folder")[0], 4)
        done = subprocess.run(["sh", "-c", f"{ROOT}/tools/expand high.rbg | true; exit 0"], cwd=self.folder, capture_output=True, check=True)
        self.assertEqual(done.stderr, b"")

    def test_windows_line_ends_and_comments_that_are_kept(self):
        text = "// one\r\n// two\r\n" + MACROS.replace("\n", "\r\n")
        out = expansion.expanded(text.encode())
        self.assertTrue(out.startswith(b"// one\n// two\n#players"))
        self.assertNotIn(b"\r", out)
        with self.assertRaises(macros.NoPlace):
            expansion.expanded(b"#players = a(1) /* open")
