"""Stands in for the module of the solver's library where that is not built: the same calls, each answered by the program."""
import os
import subprocess
import tempfile


class Refused(Exception):
    def __init__(self, message, status):
        super().__init__(message)
        self.code, self.status = message.removeprefix("refused "), status


class Table:
    def __init__(self, data):
        self._room = tempfile.TemporaryDirectory()
        self._file = os.path.join(self._room.name, "a.table")
        with open(self._file, "wb") as file:
            file.write(data)
        try:
            self._done("look")
        except Refused:
            self.close()
            raise

    @classmethod
    def of_game(cls, game, pages=64, goal=0):
        with tempfile.TemporaryDirectory() as room:
            table, text = os.path.join(room, "a.table"), os.path.join(room, "a.rbg")
            with open(text, "wb") as file:
                file.write(game)
            asked(b"", "create", table, "--pages", str(pages))
            asked(b"", "load", *(["--goal", str(goal)] if goal else []), table, text)
            with open(table, "rb") as file:
                return cls(file.read())

    def _done(self, *words, given=b""):
        return asked(given, words[0], self._file, *words[1:])

    def look(self, lines):
        return self._done("look", given=lines)

    def lines(self, lines):
        return self._done("session", given=lines.encode())

    def grow(self, pages):
        self._done("grow", "--pages", str(pages))

    def bytes(self):
        with open(self._file, "rb") as file:
            return file.read()

    def close(self):
        self._room.cleanup()


def asked(given, *words):
    """What the program answers; a command that is refused raises, and a line that is refused does not."""
    done = subprocess.run([os.environ["RBGSOLVE_PROGRAM"], *words], input=given, capture_output=True, check=False)
    answer = done.stdout.decode()
    if done.returncode and not given:
        raise Refused(answer.strip(), done.returncode)
    return answer
