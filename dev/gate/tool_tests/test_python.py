"""The package for Python: it is installed without a network, and does what docs/PYTHON.md shows."""
import os
import re
import subprocess
import sys
import tempfile
import tomllib
import zipfile
from pathlib import Path

from .common import GAMES, ROOT, Case


def example():
    """The test of docs/PYTHON.md."""
    text = (ROOT / "docs/PYTHON.md").read_text().partition("`test_chomp.py`")[2].partition("\n## ")[0]
    lines = [line.removeprefix("    ") for line in text.splitlines() if line.startswith("    ") or not line]
    return "\n".join(lines).strip("\n") + "\n"


class Installed(Case):
    """In an environment of its own."""

    @classmethod
    def setUpClass(cls):
        cls.shared = tempfile.TemporaryDirectory()
        cls.addClassCleanup(cls.shared.cleanup)
        cls.place = Path(cls.shared.name) / "v"
        subprocess.run([sys.executable, "-m", "venv", cls.place], check=True)
        pip = [cls.place / "bin/python", "-m", "pip", "--disable-pip-version-check", "install", "--no-index", ROOT / "python"]
        done = subprocess.run(pip, cwd=cls.place, capture_output=True, check=False)
        assert done.returncode == 0, done.stderr.decode()

    def python(self, *words, **more):
        """What the Python of the environment prints, without a variable or a folder of the checkout."""
        here = {name: value for name, value in os.environ.items() if not name.startswith(("RBGSOLVE", "PYTHON"))}
        done = subprocess.run([self.place / "bin/python", *words], cwd=self.folder, env={**here, **more}, capture_output=True, check=False)
        self.assertEqual(done.returncode, 0, done.stderr.decode())
        return done.stdout.decode()

    def test_a_game_is_solved_and_a_table_asked(self):
        self.table("take")
        script = "import rbgtable\nprint(rbgtable.__file__)\n"
        script += f"with rbgtable.solve('{GAMES}/take.rbg') as table: print(table.value(0), table.best(3).number, table.is_in_process)\n"
        script += "with rbgtable.Table('take.table') as table: print(table.value(0), table.at(['e'], '>>'))\n"
        script += f"with rbgtable.solve('{GAMES}/take.rbg', 'new.table') as table: print(table.line(0))\n"
        script += "print(rbgtable.Table('new.table', rbgtable.found_program()).value(0))\n"
        where, *lines = self.python("-c", script).splitlines()
        self.assertTrue(where.startswith(str(self.place)), where)
        has_library = (ROOT / "library/out/librbgsolve.so").exists()
        self.assertEqual(lines, [f"black in 3 4 {has_library}", "black in 3 0", "[0, 1, 2, 4]", "black in 3"])

    def test_the_program_is_a_command(self):
        told = subprocess.run([self.place / "bin/rbgsolve", "--version"], capture_output=True, check=True).stdout.decode()
        version = tomllib.loads((ROOT / "python/pyproject.toml").read_text())["project"]["version"]
        self.assertEqual(told, f"rbgsolve {version}\n")
        self.assertEqual(self.python("-c", "import rbgtable; print(rbgtable.found_program())").strip(), str(self.place / "bin/rbgsolve"))
        self.assertEqual(self.python("-c", "import rbgtable; print(rbgtable.found_program())", RBGSOLVE_PROGRAM="mine"), "mine\n")

    def test_the_example_of_the_documents(self):
        """By pytest, if it is there; else its functions are called."""
        text = example()
        self.assertLessEqual(len([line for line in text.splitlines() if line]), 10)
        (self.folder / "games").symlink_to(GAMES)
        for choice, passes in (("moves[0]", True), ("moves[-1]", False)):
            self.file("test_chomp.py", text.replace("moves[0]", choice))
            try:
                import pytest  # noqa: F401
            except ImportError:
                self.file("run.py", "import test_chomp\ntest_chomp.test_the_first_player_keeps_the_win()\n")
                words = ["run.py"]
            else:
                words = ["-m", "pytest", "-q", "test_chomp.py"]
            here = {**os.environ, "PYTHONPATH": f"{self.folder}:{ROOT}/tools"}
            done = subprocess.run([sys.executable, *words], cwd=self.folder, env=here, capture_output=True, check=False)
            self.assertEqual(done.returncode == 0, passes, done.stderr.decode())
            if not passes:
                self.assertIn(b"AssertionError", done.stdout + done.stderr)

    def test_a_module_without_a_program_says_so(self):
        script = "import rbgtable\nrbgtable.library = lambda: None\ntry: rbgtable.Table('take.table')\n"
        script += "except rbgtable.Refused as refused: print(refused.status, refused)\n"
        (self.place / "bin/rbgsolve").rename(self.place / "bin/away")
        self.addCleanup((self.place / "bin/away").rename, self.place / "bin/rbgsolve")
        self.assertRegex(self.python("-c", script, PATH="/usr/bin"), r"\A2 rbgsolve: No such file or directory: .*RBGSOLVE_PROGRAM.*\n\Z")


class Wheels(Case):
    """What backend.py puts into a wheel, in a release and where nothing is built."""

    def made(self, *files):
        for name in ("python/backend.py", "python/pyproject.toml", "tools/rbgtable.py", *files):
            path = self.folder / name
            path.parent.mkdir(parents=True, exist_ok=True)
            path.write_bytes((ROOT / name).read_bytes() if (ROOT / name).is_file() and name not in files else b"\x7fELF")
        here = {name: value for name, value in os.environ.items() if name != "RBGSOLVE_PROGRAM"}
        script = f"import sys; sys.path.insert(0, {str(self.folder / 'python')!r}); import backend; print(backend.build_wheel('.'))"
        name = subprocess.run([sys.executable, "-c", script], cwd=self.folder, env=here, capture_output=True, check=True).stdout.decode().strip()
        with zipfile.ZipFile(self.folder / name) as wheel:
            inner = wheel.namelist()
            self.assertEqual(len(wheel.read(inner[-1]).decode().splitlines()), len(inner))
        return name, [name for name in inner if ".dist-info" not in name]

    def test_nothing_is_built(self):
        self.assertEqual(self.made(), ("rbgsolve-0.1.0-py3-none-any.whl", ["rbgtable.py"]))

    def test_a_release(self):
        name, inner = self.made("rbgsolve", "library/rbgsolve.py", "library/librbgsolve.so")
        self.assertEqual(name, "rbgsolve-0.1.0-py3-none-linux_x86_64.whl")
        self.assertEqual(inner, ["rbgtable.py", "rbgsolve.py", "librbgsolve.so", "rbgsolve-0.1.0.data/scripts/rbgsolve"])

    def test_a_checkout(self):
        """./rbgsolve there is a script, and not the program."""
        _, inner = self.made("rbgsolve", "crates/solver_main/out/solver_main")
        self.assertEqual(inner, ["rbgtable.py", "rbgsolve-0.1.0.data/scripts/rbgsolve"])
        (self.folder / "crates/solver_main/out/solver_main").unlink()
        self.assertEqual(self.made("rbgsolve")[1], ["rbgtable.py"])
