"""Journals, by the bytes of their files alone: what is printed for the table `crates/journal_cases`.

It has the form of a file, what an opening and an append write and when they sync, and what a crash may leave. It shares no line with the
program and needs nothing beside Python.

    checkpoint_journals.py < crates/journal_cases/stdin > crates/journal_cases/stdout
"""
from __future__ import annotations

import hashlib
import itertools
import struct
import sys
from collections.abc import Container, Iterable, Iterator
from dataclasses import dataclass, field
from typing import NamedTuple, Optional

import broken_texts
import whole_calls

LONGEST = 4_194_304  # samples of an epoch
MOST_CALLS = 1_000  # of a disk in a case
MARK = bytes(16) + b"\xff" * 8
FILLS = [(fill, length) for fill in (0, 1, 7) for length in ("short", "long")]

Cell = tuple[int, int, int]


class Place(NamedTuple):
    """A sample of an integration of a scan."""

    scan: int
    m: int
    sample: int


class Epoch(NamedTuple):
    """The samples from `begin` up to, not including, `end` of an integration of a scan."""

    scan: int
    m: int
    begin: int
    end: int

    def __str__(self) -> str:
        return f"{self.scan}:{self.m}:{self.begin}-{self.end}"


class Scan(NamedTuple):
    samples: int
    products: int
    baselines: int


class Kept(NamedTuple):
    """An epoch that a journal keeps, and its cells."""

    epoch: Epoch
    cells: list[Cell]


class DiskFault(Exception):
    """A call of the disk failed."""

    def __str__(self) -> str:
        return "disk fault"


class Other(Exception):
    """A file of another job: the first place that differs, and this job's byte there."""

    def __init__(self, image: bytes, at: int, ours: bytes = b"") -> None:
        super().__init__(at)
        self.at = at
        self.kept = image[at : at + 1].hex() or "none"
        self.ours = ours.hex() or "none"

    def __str__(self) -> str:
        return self.told(str(self.at))

    def told(self, place: str) -> str:
        return f"other at {place}, kept {self.kept}, ours {self.ours}"


@dataclass
class Job:
    """A job: the bytes that name it, the samples of an integration and of an epoch by its own line, its lags and its scans."""

    identity: bytes
    integration: int
    epoch: int
    lags: int
    scans: list[Scan]

    def first(self, scan: int = 0) -> Optional[Place]:
        """The first sample from a scan on."""
        return next((Place(number, 0, 0) for number in range(scan, len(self.scans)) if self.scans[number].samples), None)

    def cut(self, place: Place, samples: int) -> Epoch:
        """The epoch from a place on, of so many samples or up to its integration's end."""
        return Epoch(*place, min(place.sample + samples, self.end(place)))

    def end(self, place: Place) -> int:
        """The end of a place's integration."""
        return min((place.m + 1) * self.integration, self.scans[place.scan].samples)

    def after(self, epoch: Epoch) -> Optional[Place]:
        """The place behind an epoch."""
        scan, m, _, end = epoch
        if end == self.scans[scan].samples:
            return self.first(scan + 1)
        return Place(scan, m + (end == (m + 1) * self.integration), end)

    def count(self, epoch: Epoch) -> int:
        """The number of an epoch's cells."""
        scan = self.scans[epoch.scan]
        return scan.products * scan.baselines * self.lags

    def rule(self, epoch: Epoch) -> list[Cell]:
        """The cells that the table has of an epoch."""
        return [(1000 * epoch.scan + 10 * epoch.m + epoch.begin, -epoch.end, number + 1) for number in range(self.count(epoch))]

    def walk(self, place: Optional[Place], samples: int) -> list[Epoch]:
        """The epochs of so many samples from a place on."""
        epochs = []
        while place is not None:
            epochs.append(self.cut(place, samples))
            place = self.after(epochs[-1])
        return epochs

    def size(self, epochs: list[Epoch]) -> int:
        """The bytes of a journal that keeps these epochs: with the two gates of one that keeps none."""
        return 2 + len(self.identity) + sum(29 + 24 * self.count(epoch) for epoch in epochs)

    def integrations(self) -> int:
        """How many integrations there are, through all scans."""
        return sum(parts(scan.samples, self.integration) for scan in self.scans)

    def begins(self, begin: int, end: int) -> Iterator[Place]:
        """The places at which the integrations begin that have a number from one up to, not including, another."""
        for number, scan in enumerate(self.scans):
            count = parts(scan.samples, self.integration)
            yield from (Place(number, m, m * self.integration) for m in range(max(begin, 0), min(end, count)))
            begin, end = begin - count, end - count


class Part(Job):
    """A part of a job: its integrations from a number up to, not including, another, counted from 0 through all scans."""

    def __init__(self, job: Job, begin: int, end: int) -> None:
        super().__init__(part_identity(job.identity, begin, end), job.integration, job.epoch, job.lags, job.scans)
        self.job = job
        self.places = list(job.begins(begin, end))

    def rule(self, epoch: Epoch) -> list[Cell]:
        return self.job.rule(epoch)

    def first(self, scan: int = 0) -> Optional[Place]:
        return next((place for place in self.places if place.scan >= scan), None)

    def after(self, epoch: Epoch) -> Optional[Place]:
        if epoch.end < self.end(Place(*epoch[:3])):
            return Place(epoch.scan, epoch.m, epoch.end)
        return next((place for place in self.places if place[:2] > epoch[:2]), None)


def parts(samples: int, most: int) -> int:
    """How many parts of at most so many samples there are."""
    return -(-samples // most)


def little(number: int) -> bytes:
    return struct.pack("<Q", number)


def identity(schedule: bytes, text: bytes, recordings: list[int]) -> bytes:
    numbers = [len(schedule), len(text), len(recordings), *recordings]
    return b"VLBIJRN2" + b"".join(map(little, numbers)) + schedule + text


def part_identity(named: bytes, begin: int, end: int) -> bytes:
    """That of a part of a job of this identity: of its integrations from a number up to, not including, another, counted through all scans."""
    return b"VLBISHD1" + little(begin) + little(end) + named[8:]


def of_old(named: bytes) -> bytes:
    """An identity as it stands in an old journal."""
    return b"VLBIJRN1" + named[8:]


def body(cells: Iterable[Cell]) -> bytes:
    return b"".join(struct.pack("<qqQ", *cell) for cell in cells)


def ranged_record(job: Job, epoch: Epoch) -> bytes:
    return struct.pack("<IQQQ", *epoch) + body(job.rule(epoch))


def old_journal(job: Job, count: int) -> bytes:
    """An old journal that keeps the first epochs of the job, cut by the job's own line."""
    records, place = b"", job.first()
    for _ in range(count):
        assert place is not None
        epoch = job.cut(place, job.epoch)
        records += b"\1" + body(job.rule(epoch))
        place = job.after(epoch)
    return b"\1" + of_old(job.identity) + records + b"\0"


@dataclass
class Journal:
    """What a file keeps, the place that is due behind it, the gate there, and whether a record behind that carries its range."""

    kept: list[Kept]
    due: Optional[Place]
    gate: int
    ranged: bool

    def __str__(self) -> str:
        return f"{len(self.kept)}, {told_place(self.due)}"


def told_place(place: Optional[Place]) -> str:
    return "next none" if place is None else "next {} {} {}".format(*place)


def find(job: Job, image: bytes) -> Optional[Journal]:
    """What a file keeps; none where it is blank."""
    if len(image) <= 1 or image[0] != 1:
        return None
    is_old = image[8:9] == b"1" and job.identity[7:8] == b"2"  # no journal of a part is old
    at = difference(image, 1, of_old(job.identity) if is_old else job.identity)
    if at is not None:
        raise Other(image, at, job.identity[at - 1 : at])
    journal = Journal([], job.first(), 1 + len(job.identity), not is_old)
    while True:
        has(image, journal.gate)
        if journal.due is None or image[journal.gate] != 1:
            return journal
        take_thing(job, image, journal, journal.due)


def difference(image: bytes, first: int, ours: bytes) -> Optional[int]:
    """The first place where a file has not these bytes, which begin at a place of it."""
    return next((at for at, one in enumerate(ours, first) if image[at : at + 1] != bytes([one])), None)


def has(image: bytes, at: int) -> None:
    """A place behind the identity that has to be there; where it is past the file's end, that end is the fault."""
    if at >= len(image):
        raise Other(image, len(image))


def take_thing(job: Job, image: bytes, journal: Journal, due: Place) -> None:
    """Goes past what stands behind an open gate: a record, or the mark of an old journal."""
    at = journal.gate + 1
    if journal.ranged:
        epoch, begin = range_at(job, image, at, due), at + 28
    else:
        has(image, at + 23)
        if image[at + 16 : at + 24] == b"\xff" * 8:
            journal.gate, journal.ranged = at + 24, True
            return
        epoch, begin = job.cut(due, job.epoch), at
    end = begin + 24 * job.count(epoch)
    has(image, end - 1)
    journal.kept.append(Kept(epoch, [(re, im, count) for re, im, count in struct.iter_unpack("<qqQ", image[begin:end])]))
    journal.due, journal.gate = job.after(epoch), end


def range_at(job: Job, image: bytes, at: int, due: Place) -> Epoch:
    """The range of a record that stands at a place, where an epoch from `due` on is due."""
    ours = struct.pack("<IQQ", *due)
    other = difference(image, at, ours)
    if other is not None:
        has(image, other)
        raise Other(image, other, ours[other - at : other - at + 1])
    has(image, at + 27)
    end = int.from_bytes(image[at + 20 : at + 28], "little")
    if not due.sample < end <= job.cut(due, LONGEST).end:
        raise Other(image, at + 20)
    return Epoch(*due, end)


def look(job: Job, image: bytes) -> str:
    try:
        return f"look {find(job, image) or Journal([], job.first(), 0, True)}"
    except Other as other:
        return f"look: {other}"


@dataclass
class Disk:
    """A file, and what a crash may leave of it: its length since the last sync is at least and at most so many bytes, and each byte may be
    any in the ranges that were written since. Some calls fail, by their numbers."""

    seen: bytes
    failing: Container[int] = ()
    calls: int = 0
    least: int = 0
    most: int = 0
    torn: list[range] = field(default_factory=list)

    def __post_init__(self) -> None:
        self.least = self.most = len(self.seen)

    def call(self) -> None:
        self.calls += 1
        if self.calls - 1 in self.failing:
            raise DiskFault

    def write(self, at: int, data: bytes) -> None:
        end = at + len(data)
        self.torn.append(range(at, end))
        self.most = max(self.most, end)
        self.call()
        self.seen = self.seen[:at] + bytes(max(0, at - len(self.seen))) + data + self.seen[end:]

    def cut(self, size: int) -> None:
        self.least = min(self.least, size)
        self.call()
        self.seen = self.seen[:size]

    def sync(self) -> None:
        self.call()
        self.least = self.most = len(self.seen)
        self.torn = []

    def image(self, fill: int, length: str) -> bytes:
        """What a crash may leave: each byte that may be any is `fill`, and the file as short or as long as it may be."""
        size = self.most if length == "long" else self.least
        return bytes(fill if at >= self.least or any(at in run for run in self.torn) else self.seen[at] for at in range(size))


def open_journal(job: Job, disk: Disk) -> Journal:
    disk.sync()
    journal = find(job, disk.seen)
    if journal is None:
        begin(job, disk)
        return Journal([], job.first(), 1 + len(job.identity), True)
    if not journal.ranged and journal.due is not None:
        keep(disk, journal.gate, MARK)
        journal.gate, journal.ranged = journal.gate + 1 + len(MARK), True
    return journal


def begin(job: Job, disk: Disk) -> None:
    """A blank file becomes a journal with no epoch."""
    if len(disk.seen) <= 1:
        disk.write(0, b"\0")
    else:
        disk.cut(1)
    disk.sync()
    disk.write(1, job.identity + b"\0")
    disk.sync()
    disk.write(0, b"\1")
    disk.sync()


def keep(disk: Disk, gate: int, thing: bytes) -> None:
    """What stands behind a gate that is then opened."""
    disk.write(gate + 1, thing + b"\0")
    disk.sync()
    disk.write(gate, b"\1")
    disk.sync()


def append(job: Job, disk: Disk, journal: Journal, samples: int) -> Epoch:
    """Appends the next epoch of so many samples."""
    assert journal.due is not None
    epoch = job.cut(journal.due, samples)
    record = ranged_record(job, epoch)
    keep(disk, journal.gate, record)
    journal.kept.append(Kept(epoch, job.rule(epoch)))
    journal.due, journal.gate = job.after(epoch), journal.gate + 1 + len(record)
    return epoch


def bring(job: Job, disk: Disk, samples: int, most: int = MOST_CALLS) -> tuple[str, bool]:
    """A run that opens the journal and appends at most so many epochs of so many samples: how it went, and whether nothing failed."""
    try:
        journal = open_journal(job, disk)
    except (DiskFault, Other) as fault:
        return str(fault), False
    first = len(journal.kept)
    try:
        for _ in range(most):
            if journal.due is None:
                break
            append(job, disk, journal, samples)
    except DiskFault:
        return f"opened {first}, kept {journal}, failed", False
    return f"opened {first}, kept {journal}", True


def told_epochs(job: Job, kept: Iterable[Kept]) -> str:
    """The ranges of epochs, and where their cells are not those of the table's rule."""
    told = [f"{one.epoch}{'' if one.cells == job.rule(one.epoch) else ' of other cells'}" for one in kept]
    return f": {' '.join(told)}" if told else ""


def again(job: Job, disk: Disk, samples: int) -> str:
    """A look at a disk, the journal opened on it, and its file when epochs of so many samples are appended."""
    told = look(job, disk.seen)
    try:
        journal = open_journal(job, disk)
    except Other as other:
        return f"{told}, {other}"
    told += f", opened {journal}{told_epochs(job, journal.kept)}"
    while journal.due is not None:
        append(job, disk, journal, samples)
    return f"{told}, then {len(journal.kept)} epochs, {len(disk.seen)} bytes, {hashlib.md5(disk.seen).hexdigest()}"


def told_images(answers: list[str]) -> Iterator[str]:
    """What is said of each of the six images, in one line where it is the same."""
    if len(set(answers)) == 1:
        yield f"    each image: {answers[0]}"
    else:
        yield from (f"    fill {fill} {length}: {answer}" for (fill, length), answer in zip(FILLS, answers))


def stopped(job: Job, file: bytes, samples: int, other: int) -> Iterator[list[str]]:
    """What each stop of the disk leaves, and where nothing stops it."""
    for stop in range(MOST_CALLS):
        disk = Disk(file, range(stop, MOST_CALLS))
        told, done = bring(job, disk, samples)
        yield [f"  {told}", *told_images([again(job, Disk(disk.image(*fill)), other) for fill in FILLS])]
        if done:
            return


def failing(job: Job, file: bytes, samples: int, other: int) -> Iterator[list[str]]:
    """What each fault of the disk leaves, up to the last one."""
    for call in range(MOST_CALLS):
        disk = Disk(file, (call,))
        told, done = bring(job, disk, samples)
        if done:
            yield [f"  {told}"]
            return
        images = told_images([look(job, disk.image(*fill)) for fill in FILLS])
        yield [f"  {told}", *images, f"    the same disk: {again(job, disk, other)}"]


def without_repeats(blocks: Iterable[list[str]]) -> Iterator[str]:
    """The lines of blocks, where equal blocks in a row stand once."""
    for block, _ in itertools.groupby(blocks):
        yield from block


def broken_answer(job: Job, text: bytes, new: bytes) -> str:
    """What a broken journal keeps, and what an opening leaves of it."""
    disk = Disk(text)
    try:
        journal = open_journal(job, disk)
    except Other as other:
        told = other.told("the end" if other.at == len(text) else str(other.at))
        return f"{told}, {left(text, disk.seen, new)}"
    return f"kept {journal}{told_epochs(job, journal.kept)}, {left(text, disk.seen, new)}"


def left(text: bytes, file: bytes, new: bytes) -> str:
    if file == text:
        return "the file stays"
    if file == new:
        return "a new file"
    places = [at for at in range(max(len(file), len(text))) if file[at : at + 1] != text[at : at + 1]]
    return f"bytes {places[0]} to {places[-1]} written"


def broken(job: Job, text: bytes) -> Iterator[str]:
    disk = Disk(b"")
    open_journal(job, disk)
    yield f"broken journal, {len(text)} bytes"
    texts = itertools.chain(broken_texts.fronts(text), [("prefix", len(text), text)], broken_texts.changed(text))
    yield from broken_texts.runs((words, place, broken_answer(job, one, disk.seen)) for words, place, one in texts)


def read(job: Job, file: bytes) -> tuple[list[str], bytes]:
    """What is read back of each epoch, and the file that the opening leaves."""
    disk = Disk(file)
    try:
        journal = open_journal(job, disk)
    except Other as other:
        return [f"read: {other}"], file
    cells = [f"  {one.epoch}" + "".join(" {},{},{}".format(*cell) for cell in one.cells) for one in journal.kept]
    return [f"read {journal}", *cells, "  again: the same"], disk.seen


def mixed(job: Job, file: bytes, samples: int) -> tuple[list[str], bytes]:
    """Epochs that are appended and read by turns, and the file that this leaves."""
    disk = Disk(file)
    journal = open_journal(job, disk)
    lines, done = [f"mixed {journal}"], 0
    while journal.due is not None:
        epoch = append(job, disk, journal, samples)
        lines.append(f"  appended {epoch}, read {journal.kept[done].epoch}")
        done += 1
    lines.append(f"  then read{told_epochs(job, journal.kept[done:])}")
    lines.append(f"  again{told_epochs(job, journal.kept)}")
    return lines, disk.seen


def retried(job: Job, file: bytes) -> str:
    """Epochs that are read with each call of the disk failing once, and read again behind the fault."""
    journal = find(job, file)
    assert journal is not None and journal.kept
    return f"retried{told_epochs(job, journal.kept)}, behind each fault the same"


def answers(lines: Iterable[str]) -> Iterator[str]:
    """What is printed for the lines of a table."""
    case = Case()
    for line in lines:
        word, _, rest = line.partition(" ")
        if word == "case":
            case = Case()
            yield rest
        elif line and not line.startswith("#"):
            yield from case.answer(word, rest)


@dataclass
class Case:
    """The texts and the recordings since the last job, that job, and the file."""

    schedule: bytes = b""
    text: bytes = b""
    recordings: list[int] = field(default_factory=list)
    job: Job = field(default_factory=lambda: Job(b"", 1, 1, 2, []))
    file: bytes = b""

    def answer(self, word: str, rest: str) -> Iterator[str]:
        if word in ("show", "look", "stops", "fails", "broken", "retry"):
            yield from self.told(word, [int(one) for one in rest.split()])
        elif word in ("open", "run", "read", "mixed"):
            yield from self.brought(word, [int(one) for one in rest.split()])
        else:
            self.describe(word, rest)

    def told(self, word: str, numbers: list[int]) -> Iterator[str]:
        """An answer that leaves the file as it is."""
        if word == "show":
            yield f"file: {len(self.file)} bytes {self.file.hex()}"
        elif word == "look":
            yield look(self.job, self.file)
        elif word == "broken":
            yield from broken(self.job, self.file)
        elif word == "retry":
            yield retried(self.job, self.file)
        else:
            samples, other = numbers
            blocks = stopped if word == "stops" else failing
            yield f"{word} {samples}, then {other}"
            yield from without_repeats(blocks(self.job, self.file, samples, other))

    def brought(self, word: str, numbers: list[int]) -> Iterator[str]:
        """An answer that leaves another file."""
        if word == "read":
            lines, self.file = read(self.job, self.file)
        elif word == "mixed":
            lines, self.file = mixed(self.job, self.file, *numbers)
        else:
            disk = Disk(self.file)
            lines = [bring(self.job, disk, *numbers)[0] if word == "run" else opened(self.job, disk)]
            self.file = disk.seen
        yield from lines

    def describe(self, word: str, rest: str) -> None:
        """A line of a job or a file."""
        if word == "schedule":
            self.schedule += rest.encode() + b"\n"
        elif word in ("line", "text"):
            self.text += rest.encode() + (b"\n" if word == "line" else b"")
        elif word == "recordings":
            self.recordings = [int(one) for one in rest.split()]
        elif word == "job":
            self.end_job(rest.split())
        elif word == "part":
            self.job = Part(self.job, *map(int, rest.split()))
        elif word == "old":
            self.file = old_journal(self.job, int(rest))
        elif word == "bytes":
            self.file += whole_calls.runs(rest)
        elif word == "byte":
            place, one = rest.split()
            self.file = self.file[: int(place)] + bytes.fromhex(one) + self.file[int(place) + 1 :]
        elif word == "cut":
            self.file = self.file[: int(rest)]
        else:
            raise ValueError(word)

    def end_job(self, words: list[str]) -> None:
        scans = [Scan(*map(int, word.split(","))) for word in words[3:]]
        named = identity(self.schedule, self.text, self.recordings)
        integration, epoch, lags = map(int, words[:3])
        self.job = Job(named, integration, epoch, lags, scans)
        self.schedule, self.text, self.recordings = b"", b"", []


def opened(job: Job, disk: Disk) -> str:
    try:
        return f"opened {open_journal(job, disk)}"
    except Other as other:
        return str(other)


if __name__ == "__main__":
    print("\n".join(answers(sys.stdin.read().splitlines())))
