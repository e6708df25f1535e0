"""The journals of whole calls, by the definitions alone: what the table `crates/vlbi_cases` says of them.

It knows the form of a journal by `checkpoint_journals` and the sums of an epoch by `by_definition`, and shares no line with the program.
"""
from __future__ import annotations

import hashlib
from typing import Optional

import by_definition
from by_definition import Cell, Files
from checkpoint_journals import Disk, Epoch, Job, Other, Part, Place, Scan, append, find, identity, open_journal, parts

SHOWN = 400  # bytes of a journal; a longer one is told by its digest


class SummedJob(Job):
    """A job, and the cells of each epoch as its files have them."""

    def __init__(self, text: bytes, files: Optional[Files] = None, schedule: bytes = b"", inline: str = "") -> None:
        """Without files, its recordings are empty. With a schedule, `inline` has the lines by which a job without it states the same scans."""
        self.plan = by_definition.Job(text.decode() + inline)
        names = [name for station in self.plan.stations.values() for name in station.files]
        self.files = dict.fromkeys(names, b"") if files is None else files
        self.sums: dict[Epoch, list[Cell]] = {}
        self.values: dict[int, list[dict[str, list[by_definition.Value | None]]]] = {}
        baselines, numbers = len(by_definition.baselines(self.plan)), self.plan.numbers
        scans = [Scan(scan.samples if baselines else 0, len(self.plan.products), baselines) for scan in self.plan.scans]
        super().__init__(identity(schedule, text, [len(self.files[name]) for name in names]), numbers["integration"], numbers["epoch"], numbers["lags"], scans)

    def rule(self, epoch: Epoch) -> list[Cell]:
        """The cells of an epoch: by product, baseline and lag, over the samples of its range."""
        if epoch not in self.sums:
            known, lags = self.known(epoch.scan), range(-self.lags // 2, self.lags // 2)
            pairs = [(known[a][x], known[b][y]) for x, y in self.plan.products for a, b in by_definition.baselines(self.plan)]
            self.sums[epoch] = [by_definition.cell(one, other, epoch.begin, epoch.end, lag) for one, other in pairs for lag in lags]
        return self.sums[epoch]

    def known(self, number: int) -> list[dict[str, list[by_definition.Value | None]]]:
        """The values of a scan by station and channel."""
        if number not in self.values:
            scan, channels = self.plan.scans[number], {x for pair in self.plan.products for x in pair}
            stations = self.plan.stations.values()
            self.values[number] = [{x: by_definition.values(self.plan, one, x, scan, self.files) for x in channels} for one in stations]
        return self.values[number]

    def left(self, place: Optional[Place], samples: int) -> int:
        """How many epochs of so many samples there are from a place on."""
        if place is None:
            return 0
        end = self.end(place)
        rest = [self.scans[place.scan].samples - end, *(scan.samples for scan in self.scans[place.scan + 1 :])]
        whole = sum(one // self.integration * parts(self.integration, samples) + parts(one % self.integration, samples) for one in rest)
        return parts(end - place.sample, samples) + whole


def told_line(line: str) -> str:
    """What is printed of a call that gives a line."""
    return f"0 {len(line) + 1} bytes | {line}"


def told_other(other: Other) -> str:
    return f"10 vlbi: other journal at byte {other.at}: kept {other.kept}, ours {other.ours}"


def status(job: SummedJob, image: bytes, samples: int) -> str:
    """What `status` answers over a journal, with epochs of so many samples."""
    try:
        journal = find(job, image)
    except Other as other:
        return told_other(other)
    kept, due = (0, job.first()) if journal is None else (len(journal.kept), journal.due)
    return told_line(f"{kept} of {kept + job.left(due, samples)} epochs kept")


def run(job: Job, disk: Disk, samples: int) -> list[Epoch]:
    """Opens the journal on a disk, and sums the epochs that it lacks, of so many samples."""
    journal = open_journal(job, disk)
    summed = []
    while journal.due is not None:
        summed.append(append(job, disk, journal, samples))
    return summed


def pieces(job: Job, epoch: Epoch, samples: int) -> int:
    """The pieces of an epoch, of at most so many samples."""
    scan = job.scans[epoch.scan]
    return scan.products * scan.baselines * parts(epoch.end - epoch.begin, samples)


def call(job: SummedJob, image: bytes, words: list[str], records: str) -> tuple[str, int, bytes]:
    """What a call of `run`, `status` or `shard` with these words answers over a journal, where this is the answer with the job's records; the
    pieces that are worked on; and the journal that it leaves."""
    given = dict(zip(words[1::2], words[2::2]))
    samples, disk = int(given.get("--epoch", job.epoch)), Disk(image)
    if words[0] == "status":
        return status(job, image, samples), 0, image
    asked: Job = job
    if words[0] == "shard":
        begin, end = int(given["--from"]), int(given["--to"])
        if end > job.integrations():
            return f"6 vlbi: limit: shard {end}", 0, image
        asked, records = Part(job, begin, end), told_line(f"shard {begin} {end} done")
    try:
        summed = run(asked, disk, samples)
    except Other as other:
        return told_other(other), 0, disk.seen
    return records, sum(pieces(job, one, int(given["--piece"])) for one in summed), disk.seen


def shown(journal: bytes) -> str:
    """What is printed of a journal."""
    return f"{len(journal)} bytes " + (f"hex {journal.hex()}" if len(journal) <= SHOWN else f"md5 {hashlib.md5(journal).hexdigest()}")
