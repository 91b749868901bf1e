"""What the tools have in common: their words, files, and how they end."""
from __future__ import annotations

import argparse
import codecs
import os
import re
import shutil
import signal
import subprocess
import sys
from pathlib import Path

import rbgtable

from . import language, mishaps
from .play import TooLong, TooWide

ROOT = Path(__file__).resolve().parent.parent.parent


def command():
    """The tool by its path from the top, as tools/NAME."""
    path = Path(sys.argv[0]).resolve()
    return str(path.relative_to(ROOT)) if path.is_relative_to(ROOT) else f"tools/{path.name}"


# as it was called: ./install gives a tool the name rbgsolve-NAME
NAME = Path(sys.argv[0]).name
COMMAND = NAME if NAME.startswith("rbgsolve-") else command()
# a text with more bytes is none of a game; of a file no more are read than tell so
MOST_READ = language.MOST_BYTES + 1


class Parser(argparse.ArgumentParser):
    """Words of a command line; what is wrong with them is told in one line with the tool's name in front, and status 2."""

    def error(self, message):
        wrong = [word for word in self.words if word.startswith("-") and not self.is_known(word)]
        usage(f"there is no option {wrong[0]}" if wrong else message)

    def parse_known_args(self, args=None, namespace=None):
        self.words = list(sys.argv[1:] if args is None else args)
        if "--" in self.words:
            self.words = self.words[: self.words.index("--")]
        return super().parse_known_args(args, namespace)

    def is_known(self, word):
        """Whether a word that begins with a hyphen is an option, or a number, or the hyphen alone."""
        name = word.partition("=")[0] if word.startswith("--") else word[:2]
        return name in self._option_string_actions or re.fullmatch(r"-[0-9.]*", word)

    def format_help(self):
        return as_it_is_called(self.description)

    def _print_message(self, message, file=None):
        # that of argparse is silent where the output fails
        (file or sys.stderr).write(message)


class Version(argparse.Action):
    """The option that prints the tool's name and the program's version."""

    def __call__(self, *_):
        print(f"{NAME} ({version()})")
        sys.stdout.flush()
        sys.exit(0)


def parser(doc):
    made = Parser(description=doc, allow_abbrev=False)
    made.add_argument("--version", action=Version, nargs=0)
    return made


def as_it_is_called(text):
    """A text that names tools, with the names that they have where ./install put them, if this one has such a name."""
    if COMMAND != NAME:
        return text
    return re.sub(r"\btools/([a-z_]+)", lambda match: "rbgsolve-" + match[1].replace("_", "-"), text)


def version():
    """The name and the version of the program."""
    try:
        ran = subprocess.run([program(), "--version"], stdin=subprocess.DEVNULL, stdout=subprocess.PIPE, check=False)
    except OSError as error:
        fail(2, f"{program()}: {error.strerror}")
    if ran.returncode:
        fail(2, f"{program()} is no program that tells its version")
    return ran.stdout.decode("utf-8", "replace").strip()


def usage(message):
    """Ends the tool for words that are no command."""
    print(f"{NAME}: {message}; `{COMMAND} --help` tells what can be done", file=sys.stderr)
    sys.exit(2)


def pages(word):
    """How many pages of 4,096 bytes a word asks for: a number of them, or of bytes with K, M or G behind it, as 64M."""
    match = re.fullmatch(r"([0-9]{1,10})([KMG]?)", word)
    if not match:
        raise argparse.ArgumentTypeError(f"this is no number of pages: {word}")
    return int(match[1]) * {"": 1, "K": 2**10, "M": 2**20, "G": 2**30}[match[2]] // (4096 if match[2] else 1)


def executable(word):
    """A program that is named, by its whole path."""
    path = os.path.abspath(word)
    if not os.path.isfile(path) or not os.access(path, os.X_OK):
        raise argparse.ArgumentTypeError(f"this is no program: {word}")
    return path


def seconds(word):
    """How long something may take."""
    if not re.fullmatch(r"[0-9]{1,5}([.][0-9]{1,6})?|[.][0-9]{1,6}", word) or not 0 < float(word) <= 86400:
        raise argparse.ArgumentTypeError(f"the number behind --seconds is over 0, and 86,400 at most: {word}")
    return float(word)


def fail(status, message):
    say(message)
    sys.exit(status)


def say(message):
    """A line on standard error."""
    print(f"{NAME}: {message}", file=sys.stderr)


def contents(name):
    """The bytes of a text's file, no more than tell that it is too long; a file that cannot be read ends the tool with status 4."""
    try:
        with open(name, "rb") as file:
            return file.read(MOST_READ)
    except OSError as error:
        fail(4, f"{name}: {error.strerror}")


def game(name):
    """The game of a file; a text that is none ends the tool with status 1, and the reason."""
    text = contents(name)
    try:
        return language.read(text)
    except language.Fault as fault:
        print(f"{place(name, text, fault.at)}: {fault.code} {fault.message}", file=sys.stderr)
        for line in mishaps.hints(text, fault):
            print(f"    {line}", file=sys.stderr)
        sys.exit(1)


def first_difference(mine, text):
    """The line and the byte of it, from 1, from which on two texts differ."""
    at = next((at for at, (one, other) in enumerate(zip(mine, text)) if one != other), min(len(mine), len(text)))
    return language.line_and_byte(text, at)


def place(name, text, at):
    """FILE:LINE:BYTE."""
    line, byte = language.line_and_byte(text, at)
    return f"{name}:{line}:{byte}"


def is_table(name):
    """Whether a file begins as a table does; one that cannot be read ends the tool with status 4."""
    try:
        with open(name, "rb") as file:
            return file.read(8) == b"RBGTABLE"
    except OSError as error:
        fail(4, f"{name}: {error.strerror}")


def program():
    """What starts the program that is asked: ./rbgsolve of the repository, or tools/with_words where RBGSOLVE_PROGRAM names one."""
    named = os.environ.get("RBGSOLVE_PROGRAM")
    if named and not shutil.which(named):
        fail(2, f"{named}: RBGSOLVE_PROGRAM names no program that can be started")
    return str(ROOT / ("tools/with_words" if named else "rbgsolve"))


def built_program():
    """The program, where it is built; where it is the repository's and is not, standard error says how it is built, and the tool ends with
    status 4. Whether it is built is looked up once for all that a tool asks it."""
    if not os.environ.get("RBGSOLVE_PROGRAM") and (ROOT / "build").is_file():
        status, _ = ran([ROOT / "build", "--check"], stdout=sys.stderr)
        if status:
            sys.exit(4)
        os.environ["RBGSOLVE_PROGRAM"] = str(ROOT / "crates/solver_main/out/solver_main")
    return program()


def ran(words, tell=None, **streams):
    """Exit status and output of a program that is run; what ends this tool, as TERM, ends it too. `tell` is called once a second meanwhile."""
    before = signal.signal(signal.SIGTERM, lambda *_: sys.exit(128 + signal.SIGTERM))
    try:
        running = subprocess.Popen(words, stdin=subprocess.DEVNULL, **streams)
    except OSError as error:
        fail(2, f"{words[0]}: {error.strerror}")
    try:
        output = finished(running, tell)
    except BaseException:
        running.terminate()
        running.wait()
        raise
    finally:
        signal.signal(signal.SIGTERM, before)
    return running.returncode if running.returncode >= 0 else 128 - running.returncode, output


def finished(running, tell):
    """The output of a program that runs to its end."""
    while True:
        try:
            return running.communicate(timeout=1 if tell else None)[0]
        except subprocess.TimeoutExpired:
            tell()


def table(name):
    """A table that is asked through the program; its refusals end the tool."""
    return asked(rbgtable.Table, name, built_program())


def asked(question, *given):
    """The answer to a question; what is refused ends the tool."""
    try:
        return question(*given)
    except rbgtable.Refused as refused:
        refuse(refused)


def refuse(refused):
    """Ends the tool for what was refused: by the program's sentence, and where that has a code, by its reply too."""
    if refused.told:
        print(refused.told, file=sys.stderr)
    if refused.code or not refused.told:
        print(f"{NAME}: {refused.message}", file=sys.stderr)
    sys.exit(refused.status)


def as_it_can_be_shown(error):
    """What is written in the place of letters that the output has not: the bytes of a file's name as they are, else their codes."""
    part = error.object[error.start : error.end]
    if all("\udc80" <= letter <= "\udcff" for letter in part):
        return part.encode("ascii", "surrogateescape"), error.end
    return codecs.lookup_error("backslashreplace")(error)


def open_streams():
    """Gives a tool the streams that it was started without, so that no file takes their place; without an output it ends."""
    closed = []
    for number in range(3):
        try:
            os.fstat(number)
        except OSError:
            os.open(os.devnull, os.O_RDWR)
            closed.append(number)
    sys.stdin = sys.stdin or open(0, encoding="utf-8")
    sys.stderr = sys.stderr or open(2, "w", encoding="utf-8")
    if 1 in closed:
        fail(4, "the output: it is closed")
    sys.stdin.reconfigure(errors="replace")
    codecs.register_error("as it can be shown", as_it_can_be_shown)
    sys.stdout.reconfigure(errors="as it can be shown")
    sys.stderr.reconfigure(errors="as it can be shown")


def ended(main):
    """The status with which a tool ends; what it printed is written out behind this, so that an output that fails is told."""
    try:
        return main()
    except SystemExit as end:
        return end.code


def run(main):
    """Runs a tool: a reader that has gone ends it without a word, want of memory with status 5."""
    open_streams()
    try:
        status = ended(main)
        sys.stdout.flush()
        sys.exit(status)
    except BrokenPipeError:
        os.dup2(os.open(os.devnull, os.O_WRONLY), 1)
        sys.exit(4)
    except rbgtable.Refused as refused:
        refuse(refused)
    except TooWide:
        fail(1, "a search for moves reaches more than 65,536 configurations (S4)")
    except TooLong:
        fail(1, "a search for moves takes longer than it may; --seconds gives it more")
    except language.Fault as fault:
        fail(1, f"the table's game is none that the tools can read: {fault.code} {fault.message}")
    except MemoryError:
        fail(5, "memory ran out")
    except OSError as error:
        fail(4, f"{error.filename or 'the output'}: {error.strerror}")
    except KeyboardInterrupt:
        sys.exit(130)
