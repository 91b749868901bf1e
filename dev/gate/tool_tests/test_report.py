"""Pages of tools/report: what stands in them, and what node, and Chromium if it is there, make of them."""
import json
import re
import shutil
import subprocess
import sys

from .common import GAMES, ROOT, Case

CHROMIUM = shutil.which("chromium") or shutil.which("chromium-browser")
NODE = shutil.which("node")
# walks by the best moves as long as there are any, and tells what is seen
WALK = """
const [dom, page, hash, most] = process.argv.slice(2);
const { opened } = await import(dom);
const at = await opened(page, hash);
const pause = () => new Promise((go) => setTimeout(go, 5));
const seen = () => ({
    said: at("said").textContent,
    moves: at("moves").children.map((row) => [row.className, row.textContent]),
    circles: at("board").all("circle").map((circle) => circle.attributes.fill ?? "field"),
    lines: at("board").all("line").length,
    letters: at("board").all("text").map((text) => text.textContent),
});
const found = { first: seen(), steps: 0, main: at("main-line").children.length, longest: at("longest-line").children.length };
while (!at("best").disabled && found.steps < Number(most)) {
    await at("best").onclick();
    await pause();
    found.steps += 1;
}
found.last = seen();
found.statistics = at("statistics").children[0].children.map((row) => row.children.map((cell) => cell.textContent));
console.log(JSON.stringify(found));
process.exit(0);
"""


class Report(Case):
    def page(self, game, *more):
        status, _, err = self.ran("report", self.table(game), "-o", "page.html", *more)
        self.assertEqual(status, 0, err)
        return (self.folder / "page.html").read_text(encoding="utf-8")

    def walked(self, hash_="", most=200):
        """What the page of the folder shows at first, and behind its best moves."""
        if not NODE:
            self.skipTest("there is no node, so that the page was not looked at")
        words = [NODE, self.file("walk.mjs", WALK), ROOT / "dev/gate/tool_tests/dom.mjs", self.folder / "page.html", hash_, str(most)]
        done = subprocess.run(words, capture_output=True, check=False, timeout=100)
        self.assertEqual(done.returncode, 0, done.stderr.decode())
        return json.loads(done.stdout)

    def seen(self, anchor):
        """The page as Chromium makes it, with position `anchor` shown."""
        words = [CHROMIUM, "--headless", "--no-sandbox", "--disable-gpu", f"--user-data-dir={self.folder}/chromium"]
        words += ["--virtual-time-budget=4000", "--dump-dom", f"file://{self.folder}/page.html#{anchor}"]
        return subprocess.run(words, capture_output=True, check=True, timeout=100).stdout.decode()

    def test_take(self):
        text = self.page("take")
        self.assertIn("7 positions, finished; the start is black in 3. All 7 positions can be walked through.", text)
        # nothing is fetched from anywhere
        self.assertNotRegex(text.replace("http://www.w3.org/2000/svg", ""), r"https?://|src=|<link")
        found = self.walked()
        # behind the keeper's turn, with names as those of tools/moves
        self.assertEqual(found["first"]["said"], "position 1: white to move; black in 2; white 0, black 0, heap 3")
        self.assertEqual(found["first"]["moves"], [["loss", "heap 3 to 1: black in 1"], ["loss", "heap 3 to 2: black in 1"]])
        self.assertEqual((found["main"], found["longest"]), (4, 4))
        self.assertEqual(found["last"]["said"], "position 4: the play has ended; black in 0; white 0, black 1, heap 0")

    def test_moves_have_their_short_names_best_first(self):
        self.page("small_checkers")
        moves = self.walked(most=0)["first"]["moves"]
        self.assertEqual([kind for kind, _ in moves], ["draw", "draw", "loss"])
        told = [line.split("  ")[-1] for line in self.ran("moves", "small_checkers.table", 1)[1].splitlines()[1:]]
        self.assertEqual(sorted(text.partition(": ")[0] for _, text in moves), sorted(told))

    def test_totals_are_those_of_stats(self):
        self.page("chomp")
        rows = [row[:2] for row in self.walked()["statistics"]]
        self.assertEqual(rows, [["first wins", "34"], ["second wins", "33"], ["drawn", "0"], ["open", "0"]])

    def test_coordinates_lines_and_colours(self):
        self.page("connect_three")
        found = self.walked("#2", 1)
        self.assertEqual(found["first"]["said"].partition(";")[0], "position 2: yellow to move")
        self.assertEqual(found["first"]["letters"], ["r", "3", "2", "1", "a", "b", "c", "d"])
        self.assertEqual(found["first"]["circles"], ["#d0342c"])
        self.page("pong_hau_ki")
        found = self.walked()["first"]
        self.assertEqual((found["lines"], found["circles"].count("field"), found["circles"].count("#f7f5ee")), (7, 5, 2))

    def test_positions_near_the_start_and_the_main_line(self):
        text = self.page("chomp", "--most", "20")
        self.assertIn("Of 67 positions those within 2 moves of the start, and those of the longest win and of best play", text)
        found = self.walked()
        self.assertEqual(found["steps"], 7)
        self.assertEqual(found["last"]["said"].partition(":")[2].partition(";")[0], " the play has ended")
        # a move may lead out of the page, which is told there
        self.page("connect_three", "--most", "20")
        whole = self.walked("#500", 0)["first"]["said"]
        self.assertEqual(whole, "position 500: refused: it is not in this page")
        told = [self.walked(f"#{number}", 0)["first"]["said"] for number in range(10, 30)]
        self.assertTrue(any("how it goes on is not in this page" in one for one in told), told)
        self.page("breakthrough", "--moves", "1")
        found = self.walked()
        self.assertIn("the play has ended; white in 0", found["last"]["said"])

    def test_many_positions_in_few_bytes(self):
        self.assertLess(len(self.page("breakthrough")), 200000)

    def test_names_in_a_text_do_not_end_the_script(self):
        text = "// </script><script>alert(1)</script> {{DATA}} RBG_DATA \u2028\n#players = white(1), black(1) #pieces = e #board = v[e]{}\n"
        text += "#rules = ->white [$ white = 1] ->black {}"
        self.file("odd.rbg", text)
        self.assertEqual(self.ran("solve", "odd.rbg")[0], 0)
        status, out, _ = self.ran("report", "odd.table", "-o", "page.html")
        self.assertEqual((status, out), (0, ""))
        out = (self.folder / "page.html").read_text(encoding="utf-8")
        self.assertEqual(out.count("</script>"), 1)
        self.assertIn("&lt;/script&gt;&lt;script&gt;alert(1)&lt;/script&gt; {{DATA}} RBG_DATA", out)
        self.assertIn("position 1: white to move", self.walked()["first"]["said"])

    def test_a_table_that_is_worked_on_still(self):
        self.assertEqual(self.ran("new_table", GAMES / "chomp.rbg", "open.table")[0], 0)
        self.assertEqual(self.ran("report", "open.table", "-o", "page.html")[0], 0)
        self.assertEqual(self.walked()["first"]["said"], "position 0: the keeper moves; open; first 0, second 0")

    def test_what_is_refused(self):
        self.assertEqual(self.ran("report", "none.table")[0], 4)
        table = self.table("take")
        self.assertEqual(self.ran("report", table, "--most", "0")[0], 2)
        self.assertEqual(self.ran("report", table, "-o", "no/folder/page.html")[0], 4)

    def test_in_a_browser(self):
        if not CHROMIUM:
            print("report: there is no chromium, so that the pages were looked at by node alone", file=sys.stderr)
            return
        for game, anchor, wanted in (
            ("tictactoe", 11, {"win": 3, "draw": 4, "loss": 0, "first": "cross in 4"}),
            ("chomp", 7, {"win": 0, "draw": 0, "loss": 7, "first": "first in 5"}),
            ("small_checkers", 1, {"win": 0, "draw": 2, "loss": 1, "first": "drawn"}),
        ):
            self.page(game)
            moves = re.search(r'<ol id="moves">(.*?)</ol>', self.seen(anchor), re.S)[1]
            for kind in ("win", "draw", "loss"):
                self.assertEqual(moves.count(f'class="{kind}"'), wanted[kind], (game, kind))
            self.assertIn(f": {wanted['first']}<", moves, game)
