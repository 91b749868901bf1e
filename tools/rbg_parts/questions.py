"""Questions on standard input, answered by a session between two lines of its work."""
from __future__ import annotations

import os
import re
import select
import time

import rbgtable

# what only asks; the reply to `list A B` has B lines, or as many as there are known positions from A on
ASKS = re.compile(r"status|pages|(?:value|line|show) [0-9]{1,10}|list ([0-9]{1,10}) ([0-9]{1,3})|find \S.*")
MOST_BYTES = 70000
# so long is answered before the work goes on
SECONDS = 0.5


class Questions:
    """Lines of the input, as far as they are there."""

    def __init__(self, file, tell):
        self.file, self.tell, self.left, self.has_ended, self.stops = file.fileno(), tell, b"", False, False

    def lines(self, wait):
        """The whole lines that have come, within so many seconds if there is none."""
        while b"\n" not in self.left and not self.has_ended:
            if not select.select([self.file], [], [], wait)[0]:
                return
            read = os.read(self.file, 65536)
            self.has_ended = not read
            self.left += read if read else b"\n" if self.left else b""
            if len(self.left) > MOST_BYTES and b"\n" not in self.left:
                self.left = b"x" * 99
        while b"\n" in self.left:
            line, _, self.left = self.left.partition(b"\n")
            yield line.decode("utf-8", "replace").strip()

    def answer(self, session, wait=0):
        """Answers what has come, for a while; `stop` ends the work."""
        until = time.monotonic() + SECONDS
        for line in self.lines(wait):
            if line == "stop":
                self.stops = True
                return
            if line:
                self.tell("\n".join(self.replies(session, line)))
            if time.monotonic() > until:
                return

    @staticmethod
    def replies(session, line):
        match = ASKS.fullmatch(line)
        if not match:
            return ["usage"]
        known = rbgtable.counts_of(session.last).known
        return session.question(line, min(int(match[2]), known - int(match[1])) if match[1] else 1)
