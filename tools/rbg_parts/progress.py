"""How far something is, told once a second on standard error."""
from __future__ import annotations

import subprocess
import time

from . import words


class Told:
    """Tells once a second how far something is, on standard error."""

    def __init__(self, what, whole=0, unit=""):
        self.what, self.whole, self.unit = what, whole, unit
        self.begun = self.last = time.monotonic()

    def tell(self, done=None):
        now = time.monotonic()
        if now < self.last + 1 or done == 0:
            return
        self.last = now
        if done is None:
            far = f"{now - self.begun:.0f} s so far"
        elif not self.whole:
            far = f"{done:,}{self.unit} in {now - self.begun:.0f} s"
        else:
            left = (now - self.begun) * (self.whole - done) / max(done, 1)
            far = f"{done:,} of {self.whole:,}, about {left:.0f} s left"
        words.say(f"{self.what}: {far}")


def waited(command, what, done=None, unit="", **streams):
    """Exit status and output of a program that tells nothing itself: for how long it has been at work is told for it, and how much is done
    where `done` says so; None where that is not known yet."""
    told = Told(what, unit=unit)
    return words.ran(command, lambda: told.tell(done() if done else None), stdout=subprocess.PIPE, **streams)
