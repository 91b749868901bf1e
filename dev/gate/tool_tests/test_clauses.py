"""Clauses of two small states of one crate, compared, and a revision that is compared with itself."""
import subprocess

from .common import ROOT, Case

BEFORE = """//! A counter.
ghost use Rattle.counter.specs.Counts.{IsCount, Small};

/// How many there are.
pub fn count(of: u32) -> u32
    requires few { of ≤ 9 }
    ensures is { IsCount of result }
    ensures least { 1 ≤ result }
    ensures most { result ≤ of }
{
    of
}

/// None are left.
pub fn clear(of: u32) -> u32
    ensures { result ≡ 0 }
{
    of - of
}

fn private(of: u32) -> u32
    ensures same { result ≡ of }
{
    of
}

/// What counts.
pub trait Counting {
    /// Whether it is small.
    ghost small: { Self → Small };

    /// How many it has.
    fn length(&self) -> u32
        ensures { result ≤ 9 };
}
"""
AFTER = (
    BEFORE.replace("    ensures least { 1 ≤ result }\n    ensures most { result ≤ of }", "    ensures at_least { 1 ≤ result }\n    ensures most { result ≤ of + 1 }")
    .replace("/// None are left.\npub fn clear(of: u32) -> u32\n    ensures { result ≡ 0 }", "pub fn empty(of: u32) -> u32\n    ensures { result ≡ 0 }")
    .replace("    ensures same { result ≡ of }", "    ensures other { result ≡ of }")
    .replace("        ensures { result ≤ 9 };", "        ensures {\n            result ≤ 9\n        }\n        ensures some { 1 ≤ result };")
)
SPECS = "use Rattle.std.specs.Prelude.{ℕ, ◌≡◌}\n\n-- it is that many\nabbrev pub IsCount : ℕ → ℕ → Type 0\nIsCount of n = n ≡ of\n\n"
SPECS += "-- a small one\npub record Small : Type 0 where\n  pub least : ℕ\n"
WANTED = """counter
  Counting::length
    new      ensures some { 1 ≤ result }
  clear (gone)
    gone     ensures { result ≡ 0 }
  count
    changed  ensures most { result ≤ of }
      to     ensures most { result ≤ of + 1 }
    renamed  ensures least { 1 ≤ result }
      to     ensures at_least { 1 ≤ result }
  empty (new)
    new      ensures { result ≡ 0 }
  definition crates/counter/specs/Counts.antt IsCount
"""


class Clauses(Case):
    def sources(self, name, source, specs):
        folder = self.folder / name / "crates" / "counter"
        (folder / "src").mkdir(parents=True)
        (folder / "specs").mkdir()
        (folder / "src" / "lib.rt").write_text(source)
        (folder / "specs" / "Counts.antt").write_text(specs)
        (folder / "specs" / "Lib.antt").write_text("pub mod Counts\n")
        (self.folder / name / "crates.txt").write_text("counter:\n")
        return self.folder / name

    def test_what_has_become_of_each(self):
        old, new = self.sources("old", BEFORE, SPECS), self.sources("new", AFTER, SPECS.replace("n ≡ of", "of ≡ n"))
        status, out, err = self.ran("dev/gate/clauses", old, new)
        self.assertEqual((status, err), (1, ""))
        text, row = out.split("\n\n")
        self.assertEqual(text + "\n", WANTED)
        # calls in both, gone and new; clauses the same, gone, changed, renamed and new; definitions
        self.assertEqual(row.splitlines()[1].split(), ["counter", *"3 1 1 4 1 1 1 2 1".split()])

    def test_what_is_the_same(self):
        old, new = (self.sources(name, BEFORE, specs) for name, specs in (("old", SPECS), ("new", SPECS.replace("that many", "so many"))))
        status, out, err = self.ran("dev/gate/clauses", old, new, "counter")
        self.assertEqual((status, err, len(out.splitlines())), (0, "", 2))
        status, out, _ = self.ran("dev/gate/clauses", old, new, "--same")
        self.assertIn("  count\n    same     requires few { of ≤ 9 }\n    same     ensures is { IsCount of result }\n", out)
        self.assertEqual(status, 0)

    def test_a_new_clause_alone_is_no_fault(self):
        old = self.sources("old", BEFORE, SPECS)
        new = self.sources("new", BEFORE.replace("    ensures most", "    ensures odd { result % 2 ≡ 1 }\n    ensures most"), SPECS)
        self.assertEqual(self.ran("dev/gate/clauses", old, new)[0], 0)

    def test_a_revision(self):
        if subprocess.run(["git", "-C", ROOT, "rev-parse", "HEAD"], capture_output=True, check=False).returncode:
            self.skipTest("these sources are no checkout of git")
        status, out, err = self.ran("dev/gate/clauses", "HEAD", "HEAD", "sector_disk")
        self.assertEqual((status, err), (0, ""))
        self.assertTrue(out.splitlines()[1].startswith("sector_disk "))

    def test_what_is_refused(self):
        old = self.sources("old", BEFORE, SPECS)
        for words, wrong in (((old, "no-such-revision"), "no revision"), ((old, old, "other"), "no crate other"), ((old, old, "--more"), "no option")):
            status, out, err = self.ran("dev/gate/clauses", *words)
            self.assertEqual((status, out), (2, ""), words)
            self.assertIn(wrong, err)
            self.assertTrue(err.startswith("clauses: "))
