"""Certificates: the value of the start of each game is certified by both programs, and what is changed in one is refused, or no less true."""
import os
import re
import subprocess

from rbg_parts import certificate

from .common import GAMES, Case

# so many lines of each certificate are changed, one at a time; what takes more than seconds to solve is left out
CHANGED, LEFT_OUT = 40, ("connect_three_tower",)


def games():
    """The games of games/README.md that are solved in seconds, with the value of the start."""
    for line in (GAMES / "README.md").read_text().splitlines():
        row = re.match(r"\| `([a-z_]+)` \|[^|]*\|[^|]*\| ([^|]*) \|", line)
        if row and row[1] not in LEFT_OUT:
            yield row[1], row[2]


def head_and_lists(text):
    """A certificate in two parts: up to the line of the value, and the lines of the lists."""
    lines = certificate.Lines(text)
    lines.next()
    lines.text(int(lines.behind(b"text ")))
    lines.behind(b"position ")
    lines.behind(b"value ")
    return text[: lines.at], text[lines.at :].split(b"\n")


def changes(lists):
    """The lines of the lists with one of them changed: a rank that says more, a position left out, a position twice."""
    listed, more = [], 0
    for at, line in enumerate(lists):
        if line.startswith((b"at most ", b"at least ", b"never ")):
            more = 1 if line.startswith(b"at least ") else -1
        elif line:
            listed.append((at, more))
    for at, more in listed[:: max(1, len(listed) // CHANGED)]:
        bits, _, rank = lists[at].partition(b" ")
        if rank and int(rank) + more >= 0:
            yield f"the rank of {at}", [*lists[:at], b"%s %d" % (bits, int(rank) + more), *lists[at + 1 :]]
        yield f"{at} left out", [*lists[:at], *lists[at + 1 :]]
        yield f"{at} twice", [*lists[: at + 1], *lists[at:]]


class Certificates(Case):
    def asked(self, *words):
        """Exit status, output and error output of the program."""
        words = [os.environ["RBGSOLVE_PROGRAM"], *map(str, words)]
        done = subprocess.run(words, cwd=self.folder, capture_output=True, check=False, timeout=120)
        return done.returncode, done.stdout.decode(), done.stderr.decode()

    def check(self, text, *game):
        """The same of its check of a certificate."""
        return self.asked("check", self.file("one.certificate", text), *game)

    def made(self, game, number=0):
        """The certificate of a position of a game."""
        table = self.folder / f"{game}.table"
        status, out, err = self.asked("certify", table if table.exists() else self.table(game), number)
        self.assertEqual(status, 0, err)
        self.assertRegex(err, rf"{game}\.table: {len(out)} bytes, [0-9]+ positions in the lists\n")
        return out.encode()

    def second(self, text, game):
        """What the second program says of a certificate."""
        return self.ran("second_opinion", GAMES / f"{game}.rbg", "--certificate", self.file("one.certificate", text))

    def test_the_start_of_each_game_is_certified(self):
        for game, value in games():
            text = self.made(game)
            status, out, err = self.check(text, GAMES / f"{game}.rbg")
            self.assertEqual((status, err, out.split("\n")[0]), (0, "", f"certified {value}"), game)
            self.assertEqual(self.second(text, game), (0, out, ""), game)
            self.look_at_changes(game, *head_and_lists(text))

    def look_at_changes(self, game, head, lists):
        """Each change is refused by both programs with one code, or accepted by both: the value that it then shows is the table's."""
        refused = 0
        for name, changed in changes(lists):
            text = head + b"\n".join(changed)
            status, out, _ = self.check(text)
            try:
                shown = certificate.check(text)
                wanted = f"certified {shown.value}\nposition {shown.position}\nlooked {shown.looked}\n"
            except certificate.Wrong as wrong:
                wanted = f"refused {wrong.code}\n"
            self.assertEqual((status, out), (int(wanted.startswith("refused")), wanted), (game, name))
            refused += status
        self.assertGreater(refused, 0, game)

    def test_what_is_claimed_is_changed(self):
        text = self.made("take")
        for old, new, code in (
            (b"value black in 3", b"value black in 2", "C6"), (b"value black in 3", b"value black in 4", "C6"),
            (b"value black in 3", b"value white in 3", "C1"), (b"value black in 3", b"value drawn", "C1"),
            (b"value black in 3", b"value black in 03", "C1"), (b"position >> 0 v e 0,0,0", b"position >> 0 v e 0,0,2", "C6"),
            (b"position >> 0 v e 0,0,0", b"position >> 0 v e 0,0,4", "C4"), (b"certificate 1", b"certificate 2", "C1"),
            (b"#players", b"#playerz", "C2"), (b"text ", b"text 1", "C1"), (b"text ", b"goal 2\ntext ", "C5"),
            (b"text ", b"goal 0\ntext ", "C1"), (b"at most black", b"at most white", "C1"), (b"at least black", b"at most black", "C1"),
        ):
            changed = text.replace(old, new, 1)
            self.assertNotEqual(changed, text)
            status, out, err = self.check(changed)
            self.assertEqual((status, out), (1, f"refused {code}\n"), (old, new))
            self.assertRegex(err, r"one\.certificate:[0-9]+: ", (old, new))

    def test_another_game(self):
        text = self.made("take")
        self.assertEqual(self.check(text, GAMES / "nim.rbg")[:2], (1, "refused C3\n"))
        self.assertEqual(self.second(text, "nim")[:2], (1, "refused C3\n"))

    def test_a_draw_is_shown_for_both_players(self):
        head, lists = head_and_lists(self.made("pong_hau_ki"))
        second = lists.index(b"", 1)
        for part in (lists[:second], lists[:second] * 2):
            self.assertEqual(self.check(head + b"\n".join([*part, b""]))[:2], (1, "refused C1\n"))

    def test_any_bytes(self):
        text = self.made("nim")
        for cut in range(0, len(text) - 1, 7):
            self.assertEqual(self.check(text[:cut])[0], 1, cut)
        for given in (b"", b"\n", b"\0" * 1000, b"rbgsolve certificate 1\ntext 4294967295\n", text + b"\n", text + text):
            self.assertEqual(self.check(given)[:2], (1, "refused C1\n"))
        self.assertEqual(self.check(text[:-1])[0], 0)

    def test_a_table_with_a_goal(self):
        status, _, err = self.ran("solve", "--goal", 2, GAMES / "goal.rbg")
        self.assertEqual(status, 0, err)
        text = self.made("goal")
        self.assertIn(b"\ngoal 2\n", text)
        self.assertEqual(self.check(text)[0], 0)
        self.assertEqual(self.second(text, "goal")[0], 0)

    def test_what_has_no_certificate(self):
        self.asked("create", "open.table", "--pages", 16)
        self.assertEqual(self.asked("certify", "open.table")[:2], (1, "refused S1\n"))
        self.asked("load", "open.table", GAMES / "take.rbg")
        self.assertEqual(self.asked("certify", "open.table")[:2], (1, "refused S8\n"))
        self.assertEqual(self.asked("certify", "open.table", 1)[:2], (1, "refused S7\n"))
        self.assertEqual(self.asked("certify", "no.table")[:2], (4, "refused E1\n"))
        for number in ("-1", "x", "4294967296", "00000000000"):
            self.assertEqual(self.asked("certify", "open.table", number)[:2], (2, ""), number)

    def test_any_position_has_one(self):
        for number in range(7):
            self.assertEqual(self.check(self.made("take", number))[0], 0, number)
