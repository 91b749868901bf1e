"""Folders with a table for others, what tools/trust says of them when they are changed, and tables in few pages."""
import hashlib
import lzma
import os
import subprocess

from .common import GAMES, ROOT, Case


class Publish(Case):
    def published(self, game="chomp", *more):
        self.table(game)
        status, out, err = self.ran("publish", f"{game}.table", "-o", "there", *more)
        self.assertEqual(status, 0, out + err)
        return self.folder / "there"

    def sums_again(self, folder):
        """Makes the sums fit what is in the folder."""
        names = sorted(path.name for path in folder.iterdir() if path.name != "SHA256SUMS")
        lines = [f"{hashlib.sha256((folder / name).read_bytes()).hexdigest()}  {name}\n" for name in names]
        (folder / "SHA256SUMS").write_text("".join(lines))

    def wrong(self, folder, *parts):
        status, out, err = self.ran("trust", folder)
        self.assertEqual(status, 1, out + err)
        self.assertNotIn("Traceback", err)
        for part in parts:
            self.assertIn(part, out + err)

    def test_a_folder_and_what_trust_says_of_it(self):
        folder = self.published()
        self.assertLessEqual({"README.md", "SHA256SUMS", "game.rbg", "game.table.xz", "page.html"}, {path.name for path in folder.iterdir()})
        self.assertEqual((folder / "game.rbg").read_bytes(), (GAMES / "chomp.rbg").read_bytes())
        text = (folder / "README.md").read_text()
        for row in ("at the start | first in 8", "positions | 67", "won by first | 34", "longest win | first in 8, from position 0",
                    "verdict | audit right finished", "state | finished"):
            self.assertIn(f"| {row} |\n", text)
        rows = self.ran("export", "chomp.table", "--positions")[1]
        self.assertIn(f"| sum of the rows | {hashlib.sha256(rows.encode()).hexdigest()} |", text)
        status, out, err = self.ran("trust", folder, GAMES / "chomp.rbg")
        self.assertEqual(status, 0, out + err)
        self.assertIn("audit right finished\n", out)
        self.assertIn("numbers: 12 of README.md are those of the table\n", out)
        self.assertIn("not checked: kit of the sources, made by, and what page.html shows\n", out)
        self.assertEqual(self.ran("trust", folder)[0], 0)
        self.assertEqual(subprocess.run(["sha256sum", "-c", "--quiet", "SHA256SUMS"], cwd=folder, check=False).returncode, 0)
        status, out, _ = self.ran("trust", folder, GAMES / "take.rbg")
        self.assertEqual((status, "another game" in out), (1, True))

    def test_what_is_changed_is_found(self):
        folder = self.published("take", "--no-page")
        kept = {path.name: path.read_bytes() for path in folder.iterdir()}

        def back():
            for path in folder.iterdir():
                path.unlink()
            for name, data in kept.items():
                (folder / name).write_bytes(data)

        for name in kept:
            (folder / name).write_bytes(kept[name] + b"\n")
            self.wrong(folder)
            (folder / name).unlink()
            self.wrong(folder, "is not there")
            back()
        (folder / "more").write_text("more")
        self.wrong(folder, "'more' is not in SHA256SUMS")
        (folder / "more").unlink()
        (folder / "README.md").write_bytes(kept["README.md"].replace(b"positions | 7 |", b"positions | 8 |"))
        self.sums_again(folder)
        self.wrong(folder, "README.md says '8' of `positions`, and the table '7'")
        (folder / "README.md").write_bytes(kept["README.md"] + b"| positions | 7 |\n")
        self.sums_again(folder)
        self.wrong(folder, "stands twice")
        back()
        (folder / "game.rbg").write_bytes(kept["game.rbg"].replace(b"heap(3)", b"heap(4)"))
        self.sums_again(folder)
        self.wrong(folder, "another game: game.table.xz and ")
        back()
        table = bytearray(lzma.decompress(kept["game.table.xz"]))
        slot = 1024 + 512 * (table[512] & 1)
        record = 4096 * int.from_bytes(table[slot + 48 : slot + 52], "big") + 4 + 6
        table[record + 7] = 9
        (folder / "game.table.xz").write_bytes(lzma.compress(bytes(table)))
        self.sums_again(folder)
        self.wrong(folder, "audit wrong 0 A6")
        for data, told in (
            (b"this is a text, and no xz", "Input format not supported"),
            (kept["game.table.xz"][:-30], "ends too early"),
            (kept["game.table.xz"] * 2, "something behind its end"),
            (lzma.compress(b"no table"), ""),
        ):
            (folder / "game.table.xz").write_bytes(data)
            self.sums_again(folder)
            status, out, err = self.ran("trust", folder)
            self.assertNotEqual(status, 0)
            self.assertIn(told, out)
            self.assertNotIn("Traceback", err)
        back()
        (folder / "README.md").unlink()
        (folder / "README.md").symlink_to("/dev/zero")
        self.wrong(folder, "is no file, but a link")
        for line in ("../take.table", "a\x1b[31m", "README.md/.."):
            back()
            with open(folder / "SHA256SUMS", "a", encoding="utf-8") as file:
                file.write(f"{'0' * 64}  {line}\n")
            self.wrong(folder, "no line of sums" if "/" in line or "\x1b" in line else "")
            self.assertNotIn("\x1b", self.ran("trust", folder)[1])

    def test_names_that_could_be_taken_for_markup(self):
        name = '<b>|`"x,y"`.table'
        self.table("take").rename(self.folder / name)
        status, out, err = self.ran("publish", name, "-o", "a folder")
        self.assertEqual(status, 0, out + err)
        text = (self.folder / "a folder/README.md").read_text()
        self.assertTrue(text.startswith("# _b____x_y__\n"), text[:40])
        self.assertNotIn("<b>", text + (self.folder / "a folder/page.html").read_text())
        self.assertEqual(self.ran("trust", "a folder")[0], 0)

    def test_what_is_not_published(self):
        self.table("take")
        self.assertEqual(self.ran("publish", "take.table", "-o", "take.table")[0], 1)
        self.assertEqual(self.ran("publish", "take.table")[0], 2)
        self.assertEqual(self.ran("publish", "none.table", "-o", "there")[0], 4)
        self.assertEqual(self.ran("publish", "take.table", "-o", "no/there")[0], 4)
        self.assertEqual(self.ran("publish", self.file("text", "no table"), "-o", "there")[0], 1)
        data = bytearray((self.folder / "take.table").read_bytes())
        slot = 1024 + 512 * (data[512] & 1)
        data[4096 * int.from_bytes(data[slot + 48 : slot + 52], "big") + 4 + 6 + 7] = 9
        status, _, err = self.ran("publish", self.file("wrong.table", bytes(data)), "-o", "there")
        self.assertEqual((status, "audit wrong 0 A6" in err), (1, True), err)
        session = subprocess.Popen([ROOT / "rbgsolve", "session", "take.table"], cwd=self.folder, stdin=subprocess.PIPE, stdout=subprocess.PIPE)
        session.stdin.write(b"status\n")
        session.stdin.flush()
        session.stdout.readline()
        status, _, err = self.ran("publish", "take.table", "-o", "there")
        session.communicate()
        self.assertEqual((status, "another run has the table" in err), (4, True), err)
        # nothing is left behind
        self.assertEqual(sorted(os.listdir(self.folder)), ["take.table", "text", "wrong.table"])

    def test_a_table_that_is_not_finished_and_one_with_a_goal(self):
        self.assertEqual(self.ran("new_table", GAMES / "goal.rbg", "goal.table", "--goal", "2")[0], 0)
        status, out, err = self.ran("publish", "goal.table", "-o", "open")
        self.assertEqual(status, 0, out + err)
        text = (self.folder / "open/README.md").read_text()
        self.assertIn("| goal | 2 |\n", text)
        self.assertIn("| state | open, 0 expanded, 0 settled |\n", text)
        self.assertIn("| longest win | none |\n", text)
        self.assertEqual(self.ran("trust", "open")[0], 0)


class Shrink(Case):
    def test_a_table_in_few_pages(self):
        self.assertEqual(self.ran("new_table", GAMES / "hexapawn.rbg", "t.table", "--pages", "4M")[0], 0)
        self.assertEqual(self.ran("solve", "t.table")[0], 0)
        status, out, err = self.ran("shrink", "t.table", "-o", "small.table")
        self.assertEqual(status, 0, out + err)
        self.assertRegex(out, r"\Asmall\.table: [0-9]+ pages in the place of 1024\n\Z")
        self.assertLess((self.folder / "small.table").stat().st_size, 2**18)
        self.assertEqual(self.ran("export", "small.table", "--positions")[1], self.ran("export", "t.table", "--positions")[1])
        self.assertEqual(self.ran("trust", "small.table", GAMES / "hexapawn.rbg")[0], 0)
        self.assertEqual(self.ran("shrink", "t.table", "-o", "small.table")[0], 1)

    def test_what_is_refused(self):
        self.assertEqual(self.ran("new_table", GAMES / "goal.rbg", "goal.table", "--goal", "2")[0], 0)
        status, _, err = self.ran("shrink", "goal.table", "-o", "small.table")
        self.assertEqual((status, "is not finished" in err), (1, True))
        self.assertEqual(self.ran("shrink", "none.table", "-o", "small.table")[0], 4)
        self.assertEqual(self.ran("shrink", "goal.table")[0], 2)
        self.assertEqual(self.ran("solve", "goal.table")[0], 0)
        status, out, _ = self.ran("shrink", "goal.table", "-o", "small.table")
        self.assertEqual((status, out), (0, "small.table: 16 pages in the place of 64\n"))
        self.assertEqual(self.ran("trust", "small.table", GAMES / "goal.rbg")[1], f"audit right finished, of {GAMES / 'goal.rbg'} with a goal of 2\n")
        self.assertEqual(sorted(os.listdir(self.folder)), ["goal.table", "small.table"])
