"""The modules of page/ as one script in a page, and values in it."""
from __future__ import annotations

import json
import re
from pathlib import Path

PARTS = Path(__file__).resolve().parent.parent.parent / "page"


def script(names):
    """Modules as one script, without lines that only comment: what they import of one another stands before it."""
    text = "\n".join((PARTS / f"{name}.mjs").read_text(encoding="utf-8") for name in names)
    text = re.sub(r"^ *//.*\n", "", text, flags=re.M)
    text = re.sub(r"^import [^;]*;\n", "", text, flags=re.M)
    return re.sub(r"^export ", "", text, flags=re.M)


def literal(value):
    """A value for a script that stands in HTML: nothing in it ends the script."""
    return json.dumps(value, separators=(",", ":")).replace("<", "\\u003c").replace("\u2028", "\\u2028").replace("\u2029", "\\u2029")


def filled(template, parts):
    """A page of page/ with what stands for each {{NAME}} in it; of a part that is put in nothing is replaced."""
    text = (PARTS / template).read_text(encoding="utf-8")
    return re.sub(r"\{\{([A-Z]+)\}\}", lambda name: parts[name[1]], text)


def written(text, values):
    """A script with values in the place of their names."""
    return re.sub(r"\b(RBG_[A-Z]+)\b", lambda name: values[name[0]], text)


def part(name):
    return (PARTS / name).read_text(encoding="utf-8")
