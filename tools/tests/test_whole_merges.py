"""The merges of the table of whole calls, by the definitions alone."""
from __future__ import annotations

import struct
from pathlib import Path

import merged_journals
import turning_jobs
import whole_calls
import whole_merges
import whole_parts
from checkpoint_journals import Epoch, Job, Kept, Place, Scan

CASES = Path(__file__).resolve().parents[2] / "crates" / "vlbi_cases"
LINES = (CASES / "stdin").read_text().splitlines()
TOLD = (CASES / "stdout").read_text().splitlines()
NAME = "parts of four integrations that are merged"
GATE = 248  # place of the first gate in a journal of a part of that job
RECORD = 29 + 48  # bytes of a record with its gate

# The record file of that job: the head, four integrations of two cells each, and the end.
HEAD = b"VLBIVIS1" + struct.pack("<IQQ", 2, 16, 64) + b"\2\0\0\0\1\0A\1\0B" + b"\1\0\0\0\1\0X\1\0X" + b"\1\0\0\0\1\0S"
HEAD += struct.pack("<QQIII", 1262304000, 64, 1, 0, 1)
CELLS = [[(135, 0, 15), (144, 0, 16)], *[[(144, 0, 16)] * 2] * 3]
RECORDS = HEAD + b"".join(
    struct.pack("<BIQII", 1, 0, m, 0, 0) + b"".join(struct.pack("<qqQ", *cell) for cell in cells) for m, cells in enumerate(CELLS)
) + struct.pack("<BQ", 255, 4)


def test_what_is_printed_of_merges() -> None:
    """All answers to the lines of merges stand before those to the random jobs."""
    answers = list(whole_merges.answers(LINES))
    end = next(number for number, line in enumerate(TOLD) if line.startswith("random job 1, "))
    assert TOLD[end - len(answers) : end] == answers
    assert len(answers) > 300


def test_random_parts_have_the_records_of_plain() -> None:
    """The calls of merges are the last ones of a random job. In most of them the byte that is set is told, and in most the part that lacks."""
    told = [[line.partition(": ")[2] for line in TOLD if line.startswith(f"random job {number + 1}, ")] for number in turning_jobs.MERGES]
    ends = [answers[-turning_jobs.MERGED :] for answers in told]
    assert all(plain == whole and plain.startswith("0 ") for plain, *_, whole, _, _, _ in ends)
    beside, lacking = [end[-3] for end in ends], [end[-1] for end in ends]
    assert sum(answer.startswith("14 vlbi: merge: Differs ") for answer in beside) > 20
    assert sum(answer.startswith("14 vlbi: merge: Uncovered ") for answer in lacking) > 10


def calls_over(**files: bytes) -> whole_merges.Merges:
    """Calls over the job of four integrations and these files."""
    there = next(files for at, files, _, _ in whole_calls.Table().asked(LINES) if at == NAME)
    return whole_merges.Merges({**there, **files})


def part(begin: int, end: int, *words: str) -> bytes:
    """The journal of a part of that job."""
    shard = ["shard", "--job", "j", "--workers", "1", "--piece", "64", "--from", str(begin), "--to", str(end), *words]
    answer, _, image = calls_over().called(shard, b"")
    assert answer == f"0 15 bytes | shard {begin} {end} done"
    return image


def changed(image: bytes, at: int, byte: int) -> bytes:
    assert image[at] != byte
    return image[:at] + bytes([byte]) + image[at + 1 :]


def merged(*images: bytes) -> str:
    """What a merge of these answers, as the files a, b and so on."""
    names = [chr(ord("a") + number) for number in range(len(images))]
    answer, pieces, journal = calls_over(**dict(zip(names, images))).called(["merge", *names, "--job", "j"], b"own")
    assert (pieces, journal) == (0, b"own")
    return answer.removeprefix("14 vlbi: merge: ")


WHOLE = whole_calls.told(RECORDS, [cell for cells in CELLS for cell in cells])


def test_records_by_hand() -> None:
    """Of two halves, of parts that overlap, and of parts by epochs of other lengths."""
    assert len(RECORDS) == 368
    low, high = part(0, 2), part(2, 4)
    assert merged(low, high) == merged(high, low, low) == WHOLE
    assert merged(part(0, 3), part(1, 4)) == merged(part(0, 3, "--epoch", "7"), part(1, 4, "--epoch", "5")) == WHOLE
    assert merged(low) == "Uncovered 2"
    assert merged(high) == "Uncovered 0"
    calls = calls_over(low=low, high=high)
    assert calls.records(["merge", "--job", "j", "low", "high"]) == RECORDS
    assert calls.records(["merge", "--job", "j", "low"]) == b""


def test_other_cells_by_hand() -> None:
    """The first place counts, and there the first journal that differs from the first one."""
    first, other = part(0, 3), part(1, 4)
    body = GATE + 29
    lag0, lag1, later = changed(other, body + 24, 0x91), changed(other, body, 0x91), changed(other, body + RECORD, 0x91)
    assert merged(first, lag1) == "Differs 1 0 -1 144 0 16 145 0 16"
    assert merged(lag1, first) == "Differs 1 0 -1 145 0 16 144 0 16"
    assert merged(first, lag0) == "Differs 1 0 0 144 0 16 145 0 16"
    assert merged(first, lag0, lag1) == "Differs 1 0 -1 144 0 16 145 0 16"
    assert merged(first, later) == "Differs 2 0 -1 144 0 16 145 0 16"
    assert merged(first, changed(lag1, body, 0x92), lag1) == "Differs 1 0 -1 144 0 16 146 0 16"
    assert merged(part(1, 2), lag1) == "Uncovered 0"
    assert merged(part(0, 2), part(1, 2), lag1) == "Differs 1 0 -1 144 0 16 145 0 16"
    assert "cells 135,0,15 144,0,16 145,0,16 144" in merged(lag1, part(0, 1))


def test_files_that_are_no_journal_of_a_part() -> None:
    image, rest = part(0, 2), part(2, 4)
    run = calls_over().called(["run", "--job", "j", "--workers", "1", "--piece", "64"], b"")[2]
    assert merged(run) == "NotShard a at byte 5"
    assert merged(rest, image[:9]) == "NotShard b at byte 9"
    places = {1: "1", 8: "8", 9: "253", 16: "9", 24: "9", 25: "25", GATE - 1: "247", GATE + 1: "249", GATE + 5: "253"}
    assert {at: merged(changed(image, at, image[at] + 1)) for at in places} == {at: f"NotShard a at byte {place}" for at, place in places.items()}
    assert merged(changed(image, 17, 1), rest) == "Uncovered 1"
    assert merged(changed(image, 17, 4), rest) == WHOLE
    for number in (0, 5, 255):
        assert merged(changed(image, 17, number), rest) == "NotShard a at byte 9"
    for blank in (b"", b"\0", b"\1", b"\2" + image[1:]):
        assert merged(blank) == "Uncovered 0"
        assert merged(blank, image, rest) == WHOLE
    for length in range(2, len(image)):
        assert merged(image[:length], rest) == f"NotShard a at byte {length}"


def test_an_integration_is_covered_from_its_first_sample_to_its_last() -> None:
    job = Job(b"", 16, 16, 2, [Scan(40, 1, 1)])
    place = Place(0, 1, 16)

    def kept(*ranges: tuple[int, int, int]) -> list[Kept]:
        return [Kept(Epoch(0, *one), []) for one in ranges]

    assert merged_journals.covers(job, kept((1, 16, 32)), place)
    assert merged_journals.covers(job, kept((0, 0, 16), (1, 16, 20), (1, 20, 32), (2, 32, 36)), place)
    assert merged_journals.covers(job, kept((2, 32, 40)), Place(0, 2, 32))
    for ranges in ((), ((1, 16, 31),), ((1, 16, 20),), ((0, 0, 16), (2, 32, 40))):
        assert not merged_journals.covers(job, kept(*ranges), place)


def test_sums_wrap_at_64_bits() -> None:
    epochs = [Kept(Epoch(0, 0, at, at + 8), [cell]) for at, cell in ((0, (2**63 - 1, -(2**63), 2**64 - 1)), (8, (1, -1, 3)))]
    assert merged_journals.cells_in(epochs, Place(0, 0, 0)) == [(-(2**63), 2**63 - 1, 2)]


def test_words_and_files() -> None:
    calls = calls_over(a=b"", b=b"\1VLBIVIS1")
    answers = {
        "merge|--job|j": "2 vlbi: words: Option",
        "merge|a": "2 vlbi: words: Option",
        "merge|--job|j|--job|j|a": "2 vlbi: words: Option",
        "merge|a|--job": "2 vlbi: words: Option",
        "merge|a|--job|j|--epoch|1": "2 vlbi: words: Option",
        "merge|--vex|c|a|--job|j": "11 vlbi: no file c",
        "merge|--job|none|c": "11 vlbi: no file none",
        "merge|b|c|--job|j|d": "11 vlbi: no file c",
        "merge|a|b|--job|j": "14 vlbi: merge: NotShard b at byte 5",
    }
    assert {line: calls.answer(line.split("|"), b"") for line in answers} == answers


def test_lines_behind_those_of_parts() -> None:
    before, lines = whole_merges.section(LINES)
    assert before[-len(whole_parts.section(LINES)[1]) :] == whole_parts.section(LINES)[1]
    assert lines[0] == whole_merges.FIRST
