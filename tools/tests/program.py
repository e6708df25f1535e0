"""The program that tests run: VLBI is its path, VLBI_COMMANDS the commands that it has to have."""
from __future__ import annotations

import os
import subprocess

import pytest

PROGRAM = os.environ.get("VLBI", "")
COMMANDS = os.environ.get("VLBI_COMMANDS", "").split()
WORDS = {"dump": ("file",), "gen": ("--seed", "7", "--seconds", "1", "--workers", "1", "--piece", "64")}


def call(*words: str, folder: str | os.PathLike[str] | None = None) -> tuple[int, bytes, bytes]:
    """Runs the program in a folder: its status, standard output and standard error."""
    done = subprocess.run([PROGRAM, *words], cwd=folder, capture_output=True)
    return done.returncode, done.stdout, done.stderr


def needs(command: str) -> None:
    """Goes on where the program has to have this command; else the program must not know it, and the test is skipped."""
    if not PROGRAM:
        pytest.skip("VLBI names no program")
    if command not in COMMANDS:
        answer = call("journal", command, *WORDS.get(command, ()))
        assert answer == (2, b"", b"vlbi: words: UnknownCommand\n"), f"the program has {command} now: name it in .ci/tools"
        pytest.skip(f"the program has no command {command}")
