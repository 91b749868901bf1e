"""One session of the program that works on a table, line after line."""
from __future__ import annotations

import signal
import subprocess

from . import words


def be_deaf():
    """A session does not hear the interrupt of the tool that began it: it ends with its input, after a whole reply."""
    signal.signal(signal.SIGINT, signal.SIG_IGN)
    signal.signal(signal.SIGTERM, signal.SIG_IGN)


class Session:
    """A session: lines are sent one by one, each when the one before it is answered."""

    def __init__(self, program, table):
        try:
            self.process = subprocess.Popen(
                [program, "session", "--", table], stdin=subprocess.PIPE, stdout=subprocess.PIPE, preexec_fn=be_deaf
            )
        except OSError as error:
            words.fail(2, f"{program}: {error.strerror}")
        self.last = ""

    def __enter__(self):
        return self

    def __exit__(self, *_):
        # one that was not ended is given up in the midst of its line, which leaves the table as it was
        if self.process.poll() is None:
            self.process.kill()
            self.process.wait()

    def ask(self, line):
        """The reply to a line that has one; nothing if the session has ended."""
        try:
            self.process.stdin.write(line.encode() + b"\n")
            self.process.stdin.flush()
        except OSError:
            pass  # it has ended: what it said last is read below
        reply = self.process.stdout.readline().decode().rstrip("\n")
        self.last = reply or self.last
        return reply

    def question(self, line, lines=1):
        """The reply to a line that asks, of so many lines where it is not refused; what the session said last is not touched by it."""
        last, reply = self.last, self.ask(line)
        found = [reply] if reply else []
        while reply and reply.partition(" ")[0] not in ("refused", "usage") and len(found) < lines:
            found.append(self.process.stdout.readline().decode().rstrip("\n"))
        self.last = last if reply else self.last
        return found

    def end(self):
        """Ends the session: its exit status."""
        try:
            self.process.stdin.close()
        except OSError:
            pass
        for line in self.process.stdout.read().decode().splitlines():
            self.last = line
        status = self.process.wait()
        return status if status >= 0 else 128 - status
