"""What tools/size tells, and tables that are made with so many pages."""
import json
import re
from collections import Counter

from rbg_parts import estimate, play, solve

from .common import GAMES, Case


class Size(Case):
    def test_a_game_that_is_found_whole(self):
        status, out, _ = self.ran("size", GAMES / "chomp.rbg")
        self.assertEqual(status, 0)
        self.assertEqual(out, "67 positions, all within 5 moves of the start; 4.96 moves a position\n--pages 64 (0.25 MiB)\n")

    def test_a_game_that_is_not(self):
        status, out, _ = self.ran("size", "--seconds", "1", GAMES / "connect_three_tower.rbg")
        self.assertEqual(status, 0)
        self.assertTrue(out.startswith("at least "), out)
        status, out, _ = self.ran("size", "--seconds", "1", "--plain", GAMES / "connect_three_tower.rbg")
        count, how, pages = out.split()
        self.assertIn(how, ("about", "least"))
        self.assertGreater(int(pages), 64)
        self.assertGreater(int(count), 100)

    def test_packed_lengths(self):
        """As docs/FORMAT.md has it: take in 2 bytes; chomp in 3 x 12 bits of pieces, 2 of scores, 4 of the vertex, 2 and 7."""
        lengths = {"take": 2, "chomp": 5}
        for name, length in lengths.items():
            self.assertEqual(estimate.packed_length(play.play_of((GAMES / f"{name}.rbg").read_bytes())), length)

    def test_by_how_many_were_met_once_and_twice(self):
        # of 70 positions 20 were met once, 10 twice, and 40 thrice
        counts = Counter({at: 1 if at < 20 else 2 if at < 30 else 3 for at in range(70)})
        self.assertEqual(estimate.by_rare_ones(counts), 70 + 20 * 19 // 22)
        self.assertIsNone(estimate.by_rare_ones(Counter(range(200))))
        self.assertIsNone(estimate.by_rare_ones(Counter()))

    def test_numbers_are_less_than_a_factor_of_two_off(self):
        known = re.findall(r"^\| `([a-z0-9_/]+)` \| [^|]* \| ([0-9,]+) \|", (GAMES / "README.md").read_text(), re.M)
        self.assertGreater(len(known), 25)
        for name, positions in known:
            positions = int(positions.replace(",", ""))
            if positions < 3000:
                continue
            # how much is found in so many seconds hangs on what else the machine does
            found = (self.estimate(name, seconds) for seconds in ("0.5", "5"))
            self.assertTrue(any(self.is_near(out, positions) for out in found), (name, positions))

    def estimate(self, name, seconds):
        return json.loads(self.ran("size", "--seconds", seconds, "--json", GAMES / f"{name}.rbg")[1])

    def is_near(self, out, positions):
        if out["how"] == "about":
            return positions / 2 < out["positions"] < 2 * positions and out["range"][0] <= positions <= out["range"][1]
        return out["how"] != "all" or out["positions"] == positions

    def test_pages_that_are_enough_for_a_unit(self):
        # in take two moves lead from a position at most, and two to one
        self.assertEqual(self.estimate("take", "1")["unit_pages"], 49 * (3 * 2 + 2) + 1)

    def test_a_number_that_is_told(self):
        game = play.play_of((GAMES / "fox_and_hounds.rbg").read_bytes())
        graph = solve.Graph(game)
        graph.explore(8000, 60)
        count, least, most = estimate.guess(game, graph, 5)
        self.assertTrue(10358 / 2 < count < 2 * 10358 and least <= 10358 <= most, (count, least, most))

    def test_numbers_are_not_over_what_a_table_holds(self):
        game = play.play_of((GAMES / "take.rbg").read_bytes())
        self.assertLessEqual(estimate.pages_of(game, estimate.MOST_POSITIONS, 60), estimate.MOST_PAGES)

    def test_what_is_no_game(self):
        path = self.file("text.rbg", "#players = white(1)")
        self.assertEqual(self.ran("size", path)[0], 1)
        self.assertEqual(self.ran("size", "--seconds", "0", path)[0], 2)

    def test_layers(self):
        graph = solve.Graph(play.play_of((GAMES / "take.rbg").read_bytes()))
        graph.explore(100, 10)
        self.assertEqual(graph.layers, [1, 2, 4, 6, 7, 7])


class NewTable(Case):
    def test_a_game_is_solved_from_its_text(self):
        status, out, err = self.ran("solve", "--audit", GAMES / "chomp.rbg")
        self.assertEqual((status, out), (0, "units 134 known 67 expanded 67 settled 67 processed 67 finished\naudit right finished\n"))
        self.assertIn("new_table: chomp.table: 64 pages", err)
        status, out, err = self.ran("solve", GAMES / "chomp.rbg")
        self.assertEqual((status, out), (0, "units 0 known 67 expanded 67 settled 67 processed 67 finished\n"))
        self.assertIn("is there with this game", err)

    def test_a_table_of_another_game_is_left(self):
        self.table("chomp")
        before = (self.folder / "chomp.table").read_bytes()
        status, out, err = self.ran("new_table", GAMES / "nim.rbg", "chomp.table")
        self.assertEqual((status, out), (1, ""))
        self.assertIn("another game", err)
        self.assertEqual(self.ran("new_table", GAMES / "chomp.rbg", "chomp.table", "--goal", "1")[0], 1)
        self.assertEqual((self.folder / "chomp.table").read_bytes(), before)

    def test_a_file_that_is_no_table_is_left(self):
        self.file("nim.table", "a letter")
        status, out, _ = self.ran("new_table", GAMES / "nim.rbg")
        self.assertEqual((status, out), (1, ""))
        self.assertEqual((self.folder / "nim.table").read_text(), "a letter")

    def test_pages_by_number_and_by_bytes(self):
        self.assertEqual(self.ran("new_table", GAMES / "nim.rbg", "a b.table", "--pages", "32")[:2], (0, "a b.table\n"))
        self.assertEqual((self.folder / "a b.table").stat().st_size, 32 * 4096)
        self.assertEqual(self.ran("new_table", GAMES / "nim.rbg", "-c", "--pages", "1M")[0], 2)
        self.assertEqual(self.ran("new_table", "--pages", "1M", "--", GAMES / "nim.rbg", "-c")[:2], (0, "-c\n"))
        self.assertEqual((self.folder / "-c").stat().st_size, 2**20)
        self.assertEqual(self.ran("new_table", GAMES / "nim.rbg", "d", "--pages", "15")[0], 1)
        self.assertEqual(self.ran("new_table", GAMES / "nim.rbg", "d", "--pages", "many")[0], 2)
