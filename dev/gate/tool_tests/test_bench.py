"""What tools/bench reads of programs, what its table says of some runs, and that its C programs know their games."""
import os
import shutil
import unittest

from bench_parts import commits, graphs, measured, table, trees
from bench_parts.measured import Failed, Taken

from .common import ROOT, Case

GRAPH = ROOT / "tools/bench_parts/graph.c"
# an answer of a session, as docs/COMMANDS.md has it
OPEN = "units 256 known 300 expanded 256 settled 40 processed 0 open\n"
FINISHED = "units 14 known 7 expanded 7 settled 7 processed 7 finished\n"


class Reading(Case):
    def test_units_of_all_lines_are_added_up(self):
        self.assertEqual(measured.units_of(OPEN + OPEN + FINISHED), 256 + 256 + 14)

    def test_an_answer_without_units_is_told(self):
        for output in ("", OPEN + "refused E7\n", "units\n", "units many known 3\n"):
            with self.assertRaises(Failed, msg=output):
                measured.units_of(output)

    def test_the_number_behind_a_word(self):
        self.assertEqual(measured.number_behind("known", OPEN), 300)
        self.assertEqual(measured.number_behind("positions", "positions 5479\n"), 5479)

    def test_a_run_is_timed_and_given_its_lines(self):
        done = measured.run(["sh", "-c", "cat; echo told >&2"], "one\ntwo\n")
        self.assertEqual((done.output, done.errors), ("one\ntwo\n", "told\n"))
        self.assertGreater(done.clock, 0)
        with self.assertRaisesRegex(Failed, "sh ended with status 3, and told why"):
            measured.run(["sh", "-c", "echo why >&2; exit 3"])
        self.assertEqual(measured.run(["sh", "-c", "exit 1"], statuses=(0, 1)).output, "")

    def test_calls_in_a_log(self):
        log = (
            '71 pread64(3, "\\0"..., 4096, 8192) = 4096\n'
            '71 pwrite64(3, "\\1"..., 4096, 4096) = 4096\n'
            '71 pwritev(3, [{iov_base="", iov_len=512}], 1, 0) = 512\n'
            "71 fdatasync(3)      = 0\n"
            "71 fsync(3) = 0\n"
        )
        self.assertEqual(commits.counted(log), {"reads": 1, "writes": 2, "syncs": 2, "bytes": 4608})

    def test_a_row_of_maps(self):
        """1,000 keys: put in 8,000 microseconds, so 8 each and 125,000 a second; 16,000 sectors are 2,000 pages."""
        told = trees.row("file", 1_000, "put 8000 get 2000 through 5\n", "keys 1000 written 16000\n")
        self.assertEqual(told, "| file | 1,000 | 8.00 | 2.00 | 125,000 | 500,000 |")


class Table(Case):
    def test_the_fastest_of_some_runs(self):
        """1,000 units in 0.5, 0.25 and 0.4 seconds: 4,000 a second, and the slowest took twice as long as the fastest."""
        best = table.best([Taken(1_000, 0.5, 2.0), Taken(1_000, 0.25, 4.0), Taken(1_000, 0.4, 1.0)])
        self.assertEqual((best.by_cpu, best.by_clock), (4_000, 1_000))
        self.assertAlmostEqual(best.spread, 100)
        self.assertIsNone(table.best([Taken(1_000, 0.5, 2.0)]).spread)

    def test_a_row(self):
        now, lmdb = table.Best(3_000, 1_500, 12.4), table.Best(4_000, 2_000, 3)
        self.assertEqual(
            table.row("rook", "the program", now, lmdb, None, False),
            ("rook", "the program", "3,000", "1,500", "0.75", "12 %"),
        )
        self.assertEqual(table.row("rook", "the program", now, None, None, False)[4], "-")

    def test_a_row_with_another_build(self):
        """3,000 beside 2,000 before are 1.5 times as many."""
        now, before = table.Best(3_000, 1_500, None), table.Best(2_000, 1_000, 5)
        told = table.row("rook", "the program", now, None, before, True)
        self.assertEqual(told, ("rook", "the program", "3,000", "1,500", "-", "-", "2,000", "1.50"))
        told = table.row("rook", "the program", None, None, before, True)
        self.assertEqual(told[2:], ("-", "-", "-", "-", "2,000", "-"))

    def test_lines_are_markdown_of_one_width(self):
        best = table.Best(1_234_567, 2, 100)
        for with_before in (False, True):
            row = table.text(table.row("breakthrough 4x6, 100,000 units", "the store alone", best, best, best, with_before))
            lines = [*table.head(with_before).splitlines(), row]
            self.assertEqual(len({len(line) for line in lines}), 1, lines)
            self.assertEqual({line.count("|") for line in lines}, {9 if with_before else 7})

    def test_time_without_that_of_another_run(self):
        self.assertEqual(Taken(10, 0.75, 3).less(Taken(99, 0.25, 1)), Taken(10, 0.5, 2))


class Graphs(Case):
    def test_positions_have_as_many_bytes_as_in_tables(self):
        """Of the count 5 bounds of 20, 20, 20, 20 and 8 bits, 17 of the number, 2 scores, 2 and 3 of the turn: 112 bits."""
        lengths = {graph.name: graph.length for graph in graphs.all_graphs(quick=False)}
        self.assertEqual(list(lengths.values()), [14, 10, 8, 4, 6])
        self.assertEqual(list(lengths)[0], "count of 100,000")

    def test_commands_that_reach_the_units(self):
        self.assertEqual([graph.commits for graph in graphs.all_graphs(quick=False)], [782, 1172, 391, 39, 27])

    @unittest.skipUnless(shutil.which("cc"), "there is no C compiler")
    def test_the_c_program_knows_the_games(self):
        """The numbers of games/README.md, which others counted."""
        program = measured.compiled(GRAPH, self.folder, None)
        for words, counts in (
            (("free", "3x3", "4"), (5_479, 9_889)),
            (("rook", "4x4", "6"), (3_794, 6_664)),
            (("rook", "5x5", "8"), (18_418, 33_720)),
            (("connect", "4x3", "5"), (7_158, 13_989)),
            (("break", "3x4", "5"), (10_690, 21_380)),
            (("count", "98", "14"), (100, 200)),
        ):
            told = measured.run([program, *words, "100000000", "no_file"]).output
            self.assertEqual((measured.number_behind("known", told), measured.number_behind("units", told)), counts, words)

    @unittest.skipUnless(shutil.which("cc"), "there is no C compiler")
    def test_a_limit_ends_behind_a_commit(self):
        program = measured.compiled(GRAPH, self.folder, None)
        told = measured.run([program, "break", "4x6", "8", "1000", "no_file"]).output
        self.assertEqual(measured.number_behind("units", told), 1_024)


class Command(Case):
    def built(self):
        """A folder with the program, and nothing else of those that are measured."""
        (self.folder / "built").mkdir()
        (self.folder / "built/solver_main").symlink_to(os.environ["RBGSOLVE_PROGRAM"])
        return ("--programs", self.folder / "built", "--folder", self.folder)

    def test_a_quick_table(self):
        status, out, err = self.ran("bench", "--quick", "--only", "rook", *self.built())
        self.assertEqual(status, 0, err)
        self.assertIn("without bench", err)
        rows = [line.split("|")[1:3] for line in out.splitlines() if line.startswith("| rook")]
        self.assertEqual([cell.strip() for cell in rows[0]], ["rook", "the program"])

    def test_a_build_beside_itself(self):
        status, out, err = self.ran("bench", "--quick", "--only", "of 2,000, ", *self.built(), "--before", self.folder / "built")
        self.assertEqual(status, 0, err)
        self.assertEqual(len([line for line in out.splitlines() if "the program" in line and line.count("|") == 9]), 3, out)

    def test_a_run_that_fails_is_told(self):
        (self.folder / "built").mkdir()
        path = self.folder / "built/solver_main"
        path.write_text("#!/bin/sh\necho refused E1\nexit 4\n")
        path.chmod(0o755)
        status, _, err = self.ran("bench", "--quick", "--only", "rook, the program", "--programs", "built", "--folder", ".")
        self.assertEqual(status, 1)
        self.assertIn("rook, the program: solver_main ended with status 4, and told refused E1", err)

    def test_a_word_that_no_row_has(self):
        status, _, err = self.ran("bench", "--quick", "--only", "chess", *self.built())
        self.assertEqual(status, 1)
        self.assertIn("no row could be measured that has 'chess'", err)

    def test_words(self):
        status, out, err = self.ran("bench", "--help")
        self.assertEqual((status, err), (0, ""))
        self.assertIn("Exit status", out)
        for words in (["--bogus"], ["scale"], ["--before", "nowhere"], ["packings", "3"], ["trees", "--quick"], ["trees", "0"]):
            status, out, err = self.ran("bench", *words)
            self.assertEqual((status, out), (2, ""), words)
            self.assertTrue(err)
