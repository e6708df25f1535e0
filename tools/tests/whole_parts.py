"""What the table of whole calls, `crates/vlbi_cases`, prints of parts of jobs, by the definitions alone.

    whole_parts.py < crates/vlbi_cases/stdin     what is printed for the lines of parts

These lines are those from `FIRST` on, up to `PAST`. Calls of them are of `shard`, and beside it of `run`, `status` and `plain`.
"""
from __future__ import annotations

import sys
from collections.abc import Callable, Iterator, Sequence
from typing import Optional

import by_definition
import whole_calls
import whole_journals
from by_definition import Cell, Files
from checkpoint_journals import FILLS, MOST_CALLS, Disk, DiskFault, Epoch, Job, Part
from whole_journals import SummedJob

FIRST = "# Parts of jobs, each summed into a journal of its own: tools/tests/whole_parts.py says by the definitions what is printed for these lines."
PAST = "# Journals of parts that are merged: tools/tests/whole_merges.py says by the definitions what is printed for these lines."
RANGES = {"--epoch": (1, 4194304), "--workers": (1, 64), "--piece": (64, 4194304), "--from": (0, 2**64 - 1), "--to": (0, 2**64 - 1)}
NEEDED = {"plain": ["--job"], "status": ["--job"], "run": ["--job", "--workers", "--piece"]}
NEEDED["shard"] = [*NEEDED["run"], "--from", "--to"]
MOST_EPOCHS = 2**32
LONG = 2**20  # samples; the recordings of a longer scan are before all that is summed
OPENED = 10  # calls of the disk in which a run makes a journal of an empty file
KEPT = 6  # calls in which it keeps an epoch

# Jobs that are refused, by the names of their files, and recordings that have no frame of their station.
REFUSED = {"none": "11 vlbi: no file none", "jw": "4 vlbi: job: Range in line 1", "jl": "6 vlbi: limit: load 402653184"}
FOREIGN = {"noise.vdif": "5 vlbi: recording: B Length"}
# The lines by which a job without the schedule would state the same scans.
INLINE = {"part.vex": "rate 64\nscan No1 2010y001d00h00m00s 64\nscan No3 2010y001d00h00m20s 64\nband X 16 U\n"}


class LateJob(SummedJob):
    """A job whose recordings are before all that is summed."""

    def rule(self, epoch: Epoch) -> list[Cell]:
        return [(0, 0, 0)] * self.count(epoch)


class Calls:
    """Calls over the files of a case."""

    def __init__(self, files: Files) -> None:
        self.files = files
        self.jobs: dict[tuple[str, str], SummedJob] = {}

    def called(self, words: Sequence[str], image: bytes) -> tuple[str, int, bytes]:
        """What a call answers over a journal, the pieces that are worked on, and the journal that it leaves."""
        refused = words_fault(words) or self.refused(words)
        if refused:
            return refused, 0, image
        job, records = self.job(words), ""
        if words[0] in ("plain", "run"):
            records = whole_calls.told(*by_definition.records(job.plan, self.files))
        return (records, 0, image) if words[0] == "plain" else whole_journals.call(job, image, list(words), records)

    def answer(self, words: Sequence[str], image: bytes) -> str:
        return self.called(words, image)[0]

    def refused(self, words: Sequence[str]) -> Optional[str]:
        """What is wrong with the files or the range of a call."""
        given = given_by(words)
        schedule = given.get("--vex", "")
        if schedule and schedule not in self.files:
            return f"11 vlbi: no file {schedule}"
        if given["--job"] in REFUSED:
            return REFUSED[given["--job"]]
        job = self.job(words)
        epochs = job.left(job.first(), int(given.get("--epoch", job.epoch)))
        if epochs > MOST_EPOCHS:
            return f"6 vlbi: limit: epochs {epochs}"
        if words[0] == "shard" and int(given["--to"]) > job.integrations():
            return f"6 vlbi: limit: shard {int(given['--to'])}"
        names = names_of(job.plan)
        foreign = [FOREIGN[name] for name in names if name in FOREIGN and words[0] != "status"]
        return next(iter([*self.missing(names), *foreign]), None)

    def missing(self, names: Sequence[str]) -> list[str]:
        """What is said of files that are not there."""
        return [f"11 vlbi: no file {name}" for name in names if name not in self.files]

    def job(self, words: Sequence[str]) -> SummedJob:
        """The job of a call; recordings that are not there are empty."""
        given = given_by(words)
        name, schedule = given["--job"], given.get("--vex", "")
        if (name, schedule) not in self.jobs:
            text, inline = self.files[name], INLINE.get(schedule, "")
            plan = by_definition.Job(text.decode() + inline)
            files = {**dict.fromkeys(names_of(plan), b""), **self.files}
            kind = LateJob if max(scan.samples for scan in plan.scans) > LONG else SummedJob
            self.jobs[name, schedule] = kind(text, files, self.files.get(schedule, b""), inline)
        return self.jobs[name, schedule]

    def summed(self, words: Sequence[str]) -> tuple[Job, int]:
        """The job or the part that a call of `run` or `shard` sums, and the samples of its epochs."""
        given, job = given_by(words), self.job(words)
        samples = int(given.get("--epoch", job.epoch))
        return (Part(job, int(given["--from"]), int(given["--to"])) if words[0] == "shard" else job), samples

    def failed(self, words: Sequence[str], disk: Disk) -> bool:
        """Makes such a call over a disk, and says whether the disk failed."""
        job, samples = self.summed(words)
        try:
            whole_journals.run(job, disk, samples)
        except DiskFault:
            return True
        return False


def given_by(words: Sequence[str]) -> dict[str, str]:
    return dict(zip(words[1::2], words[2::2]))


def names_of(plan: by_definition.Job) -> list[str]:
    """The names of a job's recordings."""
    return [name for station in plan.stations.values() for name in station.files]


def words_fault(words: Sequence[str]) -> Optional[str]:
    """What is wrong with the words of a call, in which each option stands before its value."""
    names, given = words[1::2], given_by(words)
    known = {*NEEDED[words[0]], "--vex", *([] if words[0] == "plain" else ["--epoch"])}
    if len(given) < len(names) or not known.issuperset(names) or not set(NEEDED[words[0]]).issubset(names):
        return "2 vlbi: words: Option"
    for name, (least, most) in RANGES.items():
        text = given.get(name, str(least))
        if not (text.isascii() and text.isdigit() and len(text) <= 20 and least <= int(text) <= most):
            return "2 vlbi: words: Value"
    is_part = words[0] == "shard"
    return "2 vlbi: words: Value" if is_part and int(given["--from"]) >= int(given["--to"]) else None


def words_of(rest: str) -> list[str]:
    return rest.split("|")[1:]


# What is printed for each kind of line, behind the name of its case.

def stops(calls: Calls, rest: str, table: whole_calls.Table) -> Iterator[str]:
    """Over each image that a stop of the disk may leave the second call is done."""
    first, second = (words_of(one) for one in rest.split(" => "))
    whole = calls.answer(first, table.journal)
    for stop in range(MOST_CALLS):
        disk = Disk(table.journal, range(stop, MOST_CALLS))
        if not calls.failed(first, disk):
            break
        assert all(calls.answer(second, disk.image(*fill)) == whole for fill in FILLS)
    yield f", each stop: done again, then {whole}"


def disk(calls: Calls, rest: str, table: whole_calls.Table) -> Iterator[str]:
    """Where a journal is opened each call of its disk may fail, and behind it the call is done."""
    words = words_of(rest)
    whole = calls.answer(words, table.journal)
    if whole.startswith("0 "):
        assert all(calls.answer(words, one) == whole for one in left_by_disk(calls, words, table.journal))
    is_opened = whole.startswith(("0 ", "10 "))
    yield f", each disk call failing: {'faults' if is_opened else 'none'}, then {whole}"


def left(calls: Calls, rest: str, table: whole_calls.Table) -> Iterator[str]:
    """What the second call answers over the journals that the first one leaves, each answer once."""
    device, _, both = rest.partition(" ")
    first, second = (words_of(one) for one in both.split(" => "))
    call = {"shelf": "read", "disk": "disk call", "output": "write"}[device]
    journals = {"shelf": left_by_shelf, "disk": left_by_disk, "output": left_by_output}[device](calls, first, table.journal)
    yield from (f", left by a {call} failing: {answer}" for answer in dict.fromkeys(calls.answer(second, one) for one in journals))
    yield f", each {call} failing: faults, then {calls.answer(first, table.journal)}"


def left_by_disk(calls: Calls, words: Sequence[str], image: bytes) -> Iterator[bytes]:
    """The journals that a call leaves with one call of the disk failing, from the first one on."""
    for number in range(MOST_CALLS):
        one = Disk(image, (number,))
        if not calls.failed(words, one):
            return
        yield one.seen


def left_by_shelf(calls: Calls, words: Sequence[str], image: bytes) -> Iterator[bytes]:
    """The same of the shelf: nothing is written before the job is read, and while an epoch is read that before the last one is kept."""
    job, samples = calls.summed(words)
    yield image
    whole = Disk(image)
    epochs = whole_journals.run(job, whole, samples)
    for kept in range(max(len(epochs) - 1, 1)):
        yield whole.seen[: job.size(epochs[:kept]) - 1] + b"\0"


def left_by_output(calls: Calls, words: Sequence[str], image: bytes) -> Iterator[bytes]:
    yield calls.called(words, image)[2]


def fail(calls: Calls, rest: str, table: whole_calls.Table) -> Iterator[str]:
    """A call of the disk of an empty journal, while that is opened or an epoch appended."""
    number = int(rest.split()[0])
    assert not table.journal
    kept = f", {(number - OPENED) // KEPT} epochs kept" if number >= OPENED else ""
    yield f", disk call {number} failing: 8 vlbi: journal fault{kept}"


def stop(calls: Calls, rest: str, table: whole_calls.Table) -> Iterator[str]:
    """A write of the output, of which each takes so many bytes."""
    first, _, line = rest.partition(" ")
    whole = calls.answer(words_of(line), table.journal)
    text = f"{whole.partition('| ')[2]}\n".encode()
    written = text[: int(first) * table.most]
    shown = f"9 vlbi: write fault {len(written)} bytes {whole_calls.shown(written)}" if written != text else whole
    yield f", write {first} failing: {shown}"


def broken(calls: Calls, rest: str, table: whole_calls.Table) -> Iterator[str]:
    """Two calls of the shelf read the job; the recordings come behind the range."""
    first, _, line = rest.partition(" ")
    whole = calls.answer(words_of(line), table.journal)
    is_told = int(first) >= 2 and whole.startswith("6 ")
    yield f", reads from {first} on failing: {whole if is_told else '7 vlbi: read fault'}"


def each(what: str) -> Callable[[Calls, str, whole_calls.Table], Iterator[str]]:
    """Each call of a device fails once."""
    return lambda calls, rest, table: iter([f", each {what} failing: faults, then {calls.answer(words_of(rest), table.journal)}"])


def meets(calls: Calls, rest: str, table: whole_calls.Table) -> Iterator[str]:
    yield f", met true: {calls.answer(words_of(rest), b'')}"


def show(calls: Calls, rest: str, table: whole_calls.Table) -> Iterator[str]:
    yield f", journal: {whole_journals.shown(table.journal)}"


def call(calls: Calls, rest: str, table: whole_calls.Table) -> Iterator[str]:
    answer, _, table.journal = calls.called(words_of(rest), table.journal)
    yield f": {answer}"


def count(calls: Calls, rest: str, table: whole_calls.Table) -> Iterator[str]:
    answer, pieces, table.journal = calls.called(words_of(rest), table.journal)
    yield f", {pieces} pieces: {answer}"


LINES = {
    "call": call, "count": count, "show": show, "meets": meets, "stops": stops, "disk": disk, "left": left, "fail": fail, "stop": stop, "broken": broken,
    "reads": each("read"), "writes": each("write"),
}


def section(lines: list[str]) -> tuple[list[str], list[str]]:
    """The lines of the table before those of parts, and these."""
    first = lines.index(FIRST)
    return lines[:first], lines[first : lines.index(PAST)]


def answers(lines: list[str]) -> Iterator[str]:
    """What is printed for the lines of parts."""
    table = whole_calls.Table()
    before, asked = section(lines)
    for _ in table.asked(before):
        pass
    calls = Calls({})
    for name, files, word, rest in table.asked(asked):
        if files != calls.files:
            calls = Calls(files)
        yield from (f"{name}{told}" for told in LINES[word](calls, rest, table))


if __name__ == "__main__":
    print("\n".join(answers(sys.stdin.read().splitlines())))
