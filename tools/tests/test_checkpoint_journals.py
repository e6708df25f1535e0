"""The table of journals, by the bytes of their files alone."""
from __future__ import annotations

from pathlib import Path

import checkpoint_journals

CASES = Path(__file__).resolve().parents[2] / "crates" / "journal_cases"


def test_what_is_printed_for_the_table() -> None:
    asked = (CASES / "stdin").read_text().splitlines()
    answers = list(checkpoint_journals.answers(asked))
    assert answers == (CASES / "stdout").read_text().splitlines()
    assert len(answers) > 2000


def test_a_file_by_hand() -> None:
    """One record of two cells behind the head gate, the identity of a job with the text `x`, and an open gate."""
    record = "00000000 0000000000000000 0000000000000000 0200000000000000"
    cells = "0000000000000000 feffffffffffffff 0100000000000000 0000000000000000 feffffffffffffff 0200000000000000"
    file = bytes.fromhex("01 564c42494a524e32 0000000000000000 0100000000000000 0000000000000000 78 01" + record + cells + "00")
    job = checkpoint_journals.Job(checkpoint_journals.identity(b"", b"x", []), 5, 2, 2, [checkpoint_journals.Scan(7, 1, 1)])
    disk = checkpoint_journals.Disk(b"")
    assert checkpoint_journals.bring(job, disk, 2, 1) == ("opened 0, kept 1, next 0 0 2", True)
    assert disk.seen == file
    assert checkpoint_journals.look(job, file) == "look 1, next 0 0 2"
    assert checkpoint_journals.look(job, file[:-1]) == "look: other at 111, kept none, ours none"


def test_a_part_by_hand() -> None:
    """The same of its part with the integration 1 alone, whose identity has another mark and two numbers more."""
    record = "00000000 0100000000000000 0500000000000000 0700000000000000"
    cells = "0f00000000000000 f9ffffffffffffff 0100000000000000 0f00000000000000 f9ffffffffffffff 0200000000000000"
    numbers = "0100000000000000 0200000000000000 0000000000000000 0100000000000000 0000000000000000"
    file = bytes.fromhex("01 564c424953484431" + numbers + "78 01" + record + cells + "00")
    job = checkpoint_journals.Job(checkpoint_journals.identity(b"", b"x", []), 5, 2, 2, [checkpoint_journals.Scan(7, 1, 1)])
    disk = checkpoint_journals.Disk(b"")
    assert checkpoint_journals.bring(checkpoint_journals.Part(job, 1, 2), disk, 2) == ("opened 0, kept 1, next none", True)
    assert disk.seen == file
    assert checkpoint_journals.look(checkpoint_journals.Part(job, 1, 2), file[:8] + b"2" + file[9:]) == "look: other at 8, kept 32, ours 31"
    assert checkpoint_journals.look(job, file) == "look: other at 5, kept 53, ours 4a"
    assert checkpoint_journals.look(checkpoint_journals.Part(job, 0, 2), file) == "look: other at 9, kept 01, ours 00"
