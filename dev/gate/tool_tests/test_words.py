"""Help without a program is that of the program, and each tool has help and refuses words that are no command."""
import os
import subprocess

from .common import ROOT, Case

TOOLS = ("ask", "board", "expand", "export", "grid", "lint", "migrate", "moves", "new_table", "play", "publish", "report", "second_opinion", "shrink")
TOOLS += ("size", "solve", "stats", "trust")
# what users run in a checkout alone
OF_CHECKOUTS = ("bench", "kept", "library", "page", "wasm")


class Words(Case):
    def test_first_words_are_those_of_the_program(self):
        status, out, _ = self.ran("first_words", "--check", os.environ["RBGSOLVE_PROGRAM"])
        self.assertEqual((status, out), (0, ""))

    def test_words_that_need_the_program(self):
        for words in (["moves", "take.rbg"], ["session"], ["--bogus", "create"], ["--"], [], ["sesion"], ["help", "sesion"]):
            self.assertEqual(self.ran("first_words", *words), (100, "", ""))

    def test_each_way_to_ask_for_help(self):
        for words in (["help"], ["-h"], ["help", "load"], ["load", "-h"], ["-V"]):
            here, there = self.ran("first_words", *words), self.ran("./rbgsolve", *words)
            self.assertEqual((here[0], here[2]), (0, ""), words)
            # of `-h` the program gives a shorter form
            self.assertTrue(here[1] == there[1] or words[-1] == "-h", words)

    def test_output_that_cannot_be_written(self):
        with open("/dev/full", "wb") as full:
            done = subprocess.run([ROOT / "tools/first_words", "--help"], stdout=full, check=False)
        self.assertEqual(done.returncode, 4)

    def test_each_tool_has_help(self):
        for tool in TOOLS + OF_CHECKOUTS:
            status, out, err = self.ran(tool, "--help")
            self.assertEqual((status, err), (0, ""), tool)
            self.assertIn(f"tools/{tool}", out)
            self.assertIn("Exit status", out)

    def test_each_tool_tells_its_version(self):
        told = subprocess.run([ROOT / "rbgsolve", "--version"], capture_output=True, check=True).stdout.decode().strip()
        self.assertRegex(told, r"^rbgsolve [0-9.]+$")
        for tool in TOOLS + OF_CHECKOUTS:
            self.assertEqual(self.ran(tool, "--version"), (0, f"{tool} ({told})\n", ""))

    def test_each_tool_tells_in_one_line_which_words_are_no_command(self):
        for tool in TOOLS:
            for words in ([], ["--bogus"], ["a", "--bogus"], ["--bogus=3", "a"], ["-q"]):
                status, out, err = self.ran(tool, *words)
                self.assertEqual((status, out), (2, ""), (tool, words))
                option = next((word for word in words if word.startswith("-")), "")
                self.assertRegex(err, rf"\A{tool}: .*{option}.*; `tools/{tool} --help` tells what can be done\n\Z")
            if tool != "lint":
                self.assertEqual(self.ran(tool, "a", "b", "c", "d")[:2], (2, ""), tool)

    def test_what_developers_run_does_so_too(self):
        for path in ROOT.glob("dev/*/*"):
            if path.is_file() and os.access(path, os.X_OK):
                tool = str(path.relative_to(ROOT))
                status, out, err = self.ran(tool, "--help")
                self.assertEqual((status, err), (0, ""), tool)
                self.assertIn(tool, out)
                self.assertIn("Exit status", out)
                status, out, err = self.ran(tool, "--bogus")
                self.assertEqual((status, out), (2, ""), tool)
                self.assertTrue(err, tool)

    def test_a_tool_that_is_installed_tells_its_name_there(self):
        (self.folder / "rbgsolve-new-table").symlink_to(ROOT / "tools/new_table")
        for words, status in (("--help", 0), ("--bogus", 2), ("--version", 0)):
            done = subprocess.run([self.folder / "rbgsolve-new-table", words], capture_output=True, check=False)
            told = (done.stdout + done.stderr).decode()
            self.assertEqual(done.returncode, status, told)
            self.assertIn("rbgsolve-new-table ", told)
            self.assertNotIn("tools/", told)

    def test_an_output_that_fails_or_is_closed(self):
        for tool in TOOLS:
            for words in (f"{tool} --help >/dev/full", f"{tool} --help >&-", f"{tool} --version >/dev/full"):
                done = subprocess.run(["sh", "-c", f"exec {ROOT}/tools/{words}"], stderr=subprocess.PIPE, check=False)
                self.assertEqual(done.returncode, 4, words)
                self.assertRegex(done.stderr.decode(), rf"\A{tool}: the output: .*\n\Z")

    def test_a_file_that_cannot_be_read(self):
        for tool in ("lint", "size", "second_opinion", "new_table", "trust", "expand"):
            status, out, err = self.ran(tool, "no_such_file", *(["game"] if tool == "trust" else []))
            self.assertEqual((status, out), (4, ""), tool)
            self.assertIn("no_such_file", err)
