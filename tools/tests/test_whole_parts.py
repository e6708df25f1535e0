"""The parts of jobs of the table of whole calls, by the definitions alone."""
from __future__ import annotations

import struct
from pathlib import Path

import whole_calls
import whole_parts

CASES = Path(__file__).resolve().parents[2] / "crates" / "vlbi_cases"
LINES = (CASES / "stdin").read_text().splitlines()
TOLD = (CASES / "stdout").read_text().splitlines()
GATE = 248  # place of the first gate in a journal of a part of the table's first job, 232 in one of the job

# The cells of each integration of 16 samples of that job, whose samples are all +3: the first one has no partner at lag -1.
CELLS = ["87 00*7 00*8 0f 00*7  90 00*7 00*8 10 00*7", *["90 00*7 00*8 10 00*7  90 00*7 00*8 10 00*7"] * 3]


def test_what_is_printed_of_parts() -> None:
    """All answers to the lines of parts stand before those to merges."""
    answers = list(whole_parts.answers(LINES))
    end = next(number for number, line in enumerate(TOLD) if line.startswith("parts of four integrations that are merged: "))
    assert TOLD[end - len(answers) : end] == answers
    assert len(answers) > 100


def calls_of(name: str) -> whole_parts.Calls:
    """Calls over the files of a case."""
    return next(whole_parts.Calls(files) for at, files, _, _ in whole_calls.Table().asked(LINES) if at == name)


def summed(name: str, *words: str) -> bytes:
    """The journal that a call of one worker makes of an empty one."""
    answer, _, image = calls_of(name).called([words[0], *words[1:], "--workers", "1", "--piece", "64"], b"")
    assert answer.startswith("0 ")
    return image


def part(name: str, begin: int, end: int, *words: str) -> bytes:
    return summed(name, "shard", *words, "--from", str(begin), "--to", str(end))


def number_text(numbers: list[int]) -> bytes:
    return struct.pack(f"<{len(numbers)}Q", *numbers)


def test_journals_by_hand() -> None:
    """Of the first two integrations of four, and of the last two: 403 bytes each."""
    for begin in (0, 2):
        image = part("the first two integrations of four", begin, begin + 2, "--job", "j")
        ranges = [struct.pack("<IQQQ", 0, m, 16 * m, 16 * m + 16) for m in (begin, begin + 1)]
        cells = [whole_calls.runs(",".join(CELLS[m].split())) for m in (begin, begin + 1)]
        assert len(image) == 403
        assert image[:49] == b"\1VLBISHD1" + number_text([begin, begin + 2, 0, 183, 2])
        assert image[49:65] == number_text([80, 80]) and image[65:75] == b"lags 2\nint" and image[:GATE].endswith(b"band X 0 U\n")
        assert image[GATE:] == b"\1" + ranges[0] + cells[0] + b"\1" + ranges[1] + cells[1] + b"\0"


def test_parts_have_the_records_of_the_job() -> None:
    """Those of two parts, one behind the other, are those of both as one part, and of a run."""
    name = "the first two integrations of four"
    records = {ends: part(name, *ends, "--job", "j")[GATE:-1] for ends in ((0, 1), (0, 2), (2, 4), (1, 4), (0, 4))}
    run = summed(name, "run", "--job", "j")
    assert records[0, 2] + records[2, 4] == records[0, 1] + records[1, 4] == records[0, 4] == run[GATE - 16 : -1]


def test_a_part_of_several_scans_by_hand() -> None:
    """Its epochs of at most 20 samples, in scans of 40, 64, 0 and 50 samples and integrations of 24."""
    name = "a part that begins within one scan and ends within another"
    image = part(name, 3, 6, "--job", "j")
    gate = 1 + 8 + 16 + 24 + 16 + len(calls_of(name).files["j"])
    rows = [image[at : at + 29] for at in range(gate, len(image) - 1, 29 + 8 * 24)]
    epochs = [(1, 1, 24, 44), (1, 1, 44, 48), (1, 2, 48, 64), (3, 0, 0, 20), (3, 0, 20, 24)]
    assert rows == [b"\1" + struct.pack("<IQQQ", *epoch) for epoch in epochs]


def test_a_part_of_a_scheduled_job_by_hand() -> None:
    """The second integration of the first scan, and the first one of the next scan that has a baseline."""
    name = "a part of a job beside a schedule"
    files = calls_of(name).files
    front = b"\1VLBISHD1" + number_text([1, 3, len(files["part.vex"]), len(files["k"]), 2, 240, 240]) + files["part.vex"] + files["k"]
    cells = [struct.pack("<6Q", 216, 0, 24, 216, 0, 24), struct.pack("<6Q", 275, 0, 39, 280, 0, 40)]
    ranges = [struct.pack("<IQQQ", 0, 1, 40, 64), struct.pack("<IQQQ", 1, 0, 0, 40)]
    image = part(name, 1, 3, "--job", "k", "--vex", "part.vex")
    assert image == front + b"\1" + ranges[0] + cells[0] + b"\1" + ranges[1] + cells[1] + b"\0"


def test_the_last_integration_of_a_long_job_by_hand() -> None:
    """In four epochs, without a sample."""
    image = part("the last integration of a long job", 134217727, 134217728, "--job", "j", "--epoch", "16")
    begins = [8589934592 - 64 + 16 * number for number in range(4)]
    rows = [b"\1" + struct.pack("<IQQQ", 0, 134217727, begin, begin + 16) + bytes(48) for begin in begins]
    assert image.endswith(b"band X 0 U\n" + b"".join(rows) + b"\0")
