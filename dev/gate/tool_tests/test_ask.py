"""Questions that are answered by objects in JSON, and a migration that tells how long it works."""
import json

from .common import GAMES, Case


class Ask(Case):
    def asked(self, table, lines):
        status, out, err = self.ran("ask", table, given=lines.encode())
        self.assertEqual((status, err), (0, ""))
        return [json.loads(line) for line in out.splitlines()]

    def test_each_line_has_one_object(self):
        table = self.table("take")
        answers = self.asked(table, "status\nvalue 0\n\nline 0\nlist 5 9\nvalue 7\nnonsense\nquit\nvalue 1\n")
        self.assertEqual(answers[0], {"known": 7, "expanded": 7, "settled": 7, "processed": 7, "finished": True})
        self.assertEqual(answers[1], {"number": 0, "value": "black in 3", "winner": "black", "distance": 3})
        self.assertEqual(answers[2], {"number": 0, "line": [0, 1, 2, 4]})
        self.assertEqual([row["number"] for row in answers[3]["rows"]], [5, 6])
        self.assertEqual((answers[4]["refused"], answers[5]), ("S7", {"refused": "usage"}))
        self.assertEqual(len(answers), 6)

    def test_a_text_is_a_position_and_back(self):
        table = self.table("take")
        (shown,) = self.asked(table, "show 4\n")
        self.assertEqual(shown["text"], "white 2 v e 0,1,0")
        self.assertEqual((shown["turn"], shown["place"], shown["vertex"], shown["board"]), ("white", 2, "v", {"v": "e"}))
        answers = self.asked(table, f"find {shown['text']}\nvalue-of {shown['text']}\nfind nothing\n")
        self.assertEqual(answers[0], {"number": 4, "text": shown["text"]})
        self.assertEqual(answers[1], {"text": shown["text"], "value": "black in 0", "winner": "black", "distance": 0})
        self.assertIn("refused", answers[2])

    def test_moves_are_those_of_the_other_tool(self):
        table = self.table("take")
        answers = self.asked(table, "moves 3\nmoves 4\nmoves 9\ngame\n")
        self.assertEqual(json.loads(self.ran("moves", table, 3, "--json")[1]), answers[0])
        self.assertEqual([move["number"] for move in answers[0]["moves"]], [4, 5])
        self.assertEqual((answers[1]["moves"], answers[2]["refused"]), ([], "S7"))
        self.assertEqual(answers[3]["game"].encode(), (GAMES / "take.rbg").read_bytes())

    def test_what_is_no_table(self):
        self.assertEqual(self.ran("ask", self.file("some.table", "text"))[:2], (1, ""))
        self.assertEqual(self.ran("ask", "no.table")[:2], (4, ""))


class Migrate(Case):
    def test_what_the_program_prints_is_printed(self):
        self.assertEqual(self.ran("migrate", self.table("take")), (0, "current\n", ""))
        status, out, err = self.ran("migrate", "no.table")
        self.assertEqual((status, out), (4, "refused E1\n"))
        self.assertIn("no.table", err)
