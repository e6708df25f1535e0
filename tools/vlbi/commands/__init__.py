"""The commands around the correlator `vlbi`: `main` of each module is one. They import what they need once they know what is asked."""
from __future__ import annotations

import argparse
import os
import shutil
import sys
import time
from collections.abc import Callable, Sequence
from typing import Any

import vlbi
from vlbi.faults import Fault


class PrintFolder(argparse.Action):
    """The option `--where`: the folder that Python has to search for the package."""

    def __call__(self, parser: argparse.ArgumentParser, namespace: argparse.Namespace, values: str | Sequence[Any] | None,
                 option_string: str | None = None) -> None:
        print(os.path.dirname(os.path.dirname(os.path.abspath(vlbi.__file__))))
        parser.exit()


def parser_of(name: str, description: str) -> argparse.ArgumentParser:
    """A parser with what all commands have alike."""
    parser = argparse.ArgumentParser(prog=name, description=description, epilog=f"`man {name}` says more.", allow_abbrev=False)
    parser.add_argument("--version", action="version", version=f"%(prog)s {vlbi.__version__}")
    parser.add_argument("--where", action=PrintFolder, nargs=0, help="print the folder that PYTHONPATH has to name for Python to find the package vlbi")
    return parser


def whole_number(least: int, greatest: int) -> Callable[[str], int]:
    """Reads an option's whole number of this range."""
    def number(word: str) -> int:
        found = int(word)
        if not least <= found <= greatest:
            raise argparse.ArgumentTypeError(f"{word} is not {least} to {greatest}")
        return found

    number.__name__ = "number"  # as argparse calls it where the word is none
    return number


def told(name: str, work: Callable[[], int]) -> int:
    """The exit status of a command's work; what is wrong is a line on standard error, and the status 1."""
    try:
        return work()
    except Fault as fault:
        words = str(fault)
    except ModuleNotFoundError as error:
        if error.name is None or error.name.split(".")[0] == "vlbi":
            raise
        package = error.name.split(".")[0]
        words = f"needs the Python package {package}: Debian's python3-{package}"
    except OSError as error:
        words = f"{error.filename}: {error.strerror}" if error.filename else str(error.strerror or error)
    except KeyboardInterrupt:
        print(f"{name}: interrupted", file=sys.stderr)
        return 130
    print(f"{name}: {words}", file=sys.stderr)
    return 1


class Progress:
    """Says on standard error how far a command is: in a terminal in one line that changes, else in a line each ten seconds.

    name, what  the command, and what is counted
    """

    EVERY, EVERY_SHOWN = 10.0, 0.2  # seconds between two lines, and between two changes of one

    def __init__(self, name: str, what: str, quiet: bool = False) -> None:
        self.name, self.what, self.quiet = name, what, quiet
        self.shown = sys.stderr.isatty()
        self.last = time.monotonic()

    def say(self, done: float, of: float) -> None:
        """So many of so many are done."""
        now, whole = time.monotonic(), done >= of
        if self.quiet or now - self.last < (self.EVERY_SHOWN if self.shown else self.EVERY) and not (whole and self.shown):
            return
        self.last = now
        words = f"{self.name}: {done:.1f} of {of:g} {self.what}" if isinstance(done, float) else f"{self.name}: {done} of {of} {self.what}"
        print(f"\r{words}" if self.shown else words, end="\n" if whole or not self.shown else "", file=sys.stderr, flush=True)


def program(asked: str | None = None) -> str | None:
    """The path of the program `vlbi`: the one that is asked for, or that beside this command, or the first on the path; None where there is none."""
    if asked is not None:
        if not os.access(asked, os.X_OK) or os.path.isdir(asked):
            raise Fault("it is no program", asked)
        return os.path.abspath(asked)
    beside = os.path.join(os.path.dirname(os.path.realpath(sys.argv[0])), "vlbi")
    return beside if os.access(beside, os.X_OK) and os.path.isfile(beside) else shutil.which("vlbi")
