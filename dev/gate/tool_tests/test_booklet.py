"""The headline in brief as dev/booklet/booklet prints it: short lines, each definition once, and nothing left out but what it says."""
import re
from collections import Counter

from .common import Case

LAW = "pub fn the_headline_in_brief<S: SavedTable>()"
MADE = re.compile(r"^ *(?:abbrev |unfoldable )?pub (?:record |data |struct |enum )?([A-Z]\w*)(?: :| \(| \{|<|;)")


class Booklet(Case):
    def printed(self, *words):
        status, out, err = self.ran("dev/booklet/booklet", *words)
        self.assertEqual((status, err), (0, ""))
        return out.splitlines()

    def made(self, lines):
        """The names that are defined, each with its file."""
        found, file = [], ""
        for line in lines:
            file = line.removeprefix("==== ") if line.startswith("==== ") else file
            if match := MADE.match(line):
                found.append((file, match[1]))
        return found

    def test_lines(self):
        for words, most in (((), 930), (("--text",), 950)):
            lines = self.printed(*words)
            self.assertEqual([line for line in lines if len(line) > 100], [])
            counted = sum(1 for line in lines[:-1] if line.strip() and not line.startswith(("==== ", "######## ")))
            self.assertTrue(lines[-1].endswith(f" definitions, {counted} lines"))
            self.assertLessEqual(counted, most, words)

    def test_it_begins_with_the_law_and_who_keeps_it(self):
        lines = self.printed()
        self.assertLess(lines.index("impl<F: GameFile> SavedTable for FileSolver<F>"), 15)
        self.assertLess(lines.index(LAW), 30)

    def test_each_definition_once_here_or_in_the_chapter_about_texts(self):
        here, apart = self.made(self.printed()), self.made(self.printed("--text"))
        # of the faults the chapter names others than the law
        self.assertEqual([name for (_, name), count in Counter(here + apart).items() if count > 1], ["SolverFault"])
        self.assertTrue({"Shown", "MayLeave", "AllSynced", "WonIn", "Game", "BriefHistory", "SolverFault"} <= {name for _, name in here})
        self.assertTrue({"Parses", "Means", "Sign", "Token", "Fault", "IsSuccessor", "MayRefuse"} <= {name for _, name in apart})

    def test_what_is_left_out_is_said(self):
        lines = self.printed()
        self.assertIn("pub struct KnownMoves { .. }", lines)
        whole = " ".join(lines)
        self.assertIn("`read_page`, `write_page`, `page_in_memory` and `edit_page` have a body in the trait", whole)
        self.assertNotRegex(whole, r"fn (read_page|write_page|page_in_memory|edit_page)\b")
        self.assertRegex("\n".join(lines), r"pub enum SolverFault \{[^}]*    OutOfMemory, // E8\n[^}]*    // and \d+ more\n\}")
