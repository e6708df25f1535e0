"""A job and its schedule together: the scans that are correlated, and in each the parts and channels of the stations.

    asked = joined.read("job.txt", "sky.vex")
    for scan in asked.scans:
        print(scan.name, scan.start, {key: (stay.begin, stay.end) for key, stay in scan.stays.items()})

It is no judge of a job: that is `vlbi JOURNAL check`.
"""
from __future__ import annotations

import dataclasses
from collections.abc import Sequence

from vlbi import job as jobs
from vlbi import vex
from vlbi.faults import Fault
from vlbi.job import JobFault
from vlbi.recording import Shape


@dataclasses.dataclass(frozen=True)
class Line:
    """A line of a job: its number from 1, its word, the fields behind."""

    number: int
    word: str
    fields: tuple[str, ...]

    def __str__(self) -> str:
        return " ".join((self.word, *self.fields))


@dataclasses.dataclass(frozen=True)
class Stay:
    """A station's part of a scan: its first sample and that behind its last, and sky frequency and sideband of each of its channels."""

    begin: int
    end: int
    bands: dict[str, tuple[int, str]]


@dataclasses.dataclass(frozen=True, eq=False)
class Scan:
    """A scan with a baseline: its name, its start in seconds since 1970-01-01, its samples, its baselines' keys, a Stay of each of its stations."""

    name: str
    start: int
    samples: int
    baselines: tuple[tuple[str, str], ...]
    stays: dict[str, Stay]


@dataclasses.dataclass(frozen=True)
class Asked:
    """A job with its schedule.

    path, schedule  their files; no schedule where the job states its scans itself
    lines           the job's Lines
    by_word         the same by their words, as `job.job_lines` gives them
    plan            what the job comes to, a job.Plan
    rate            samples a second
    shapes          the Shape of each station, in the job's order
    files           the names of each station's recordings, each with its Line
    scans           the Scans that are correlated
    """

    path: str
    schedule: str | None
    lines: tuple[Line, ...]
    by_word: dict[str, list[list[str]]]
    plan: jobs.Plan
    rate: int
    shapes: dict[str, Shape]
    files: dict[str, list[tuple[str, Line]]]
    scans: tuple[Scan, ...]

    def of_word(self, word: str, *fields: str) -> list[Line]:
        """The Lines of a word whose first fields are these."""
        return [line for line in self.lines if line.word == word and line.fields[:len(fields)] == fields]

    def line_of(self, word: str, *fields: str) -> Line | None:
        """The first of them; None where there is none."""
        return next(iter(self.of_word(word, *fields)), None)


def read(path: str, schedule: str | None = None) -> Asked:
    """The Asked of a job and its schedule, named by their paths; Fault where they cannot be read as such, OSError where a file cannot."""
    with open(path, "rb") as file:
        text = file.read()
    read_schedule = vex.read(schedule) if schedule is not None else None
    try:
        return of_text(path, schedule, text, read_schedule)
    except (Fault, ValueError, LookupError) as error:
        if isinstance(error, Fault):
            error.name_file(path)
            raise
        raise JobFault(f"the job: {error}", path) from error


def of_text(path: str, schedule: str | None, text: bytes, read_schedule: vex.Schedule | None) -> Asked:
    """The same of a job's text."""
    lines = tuple(Line(number, fields[0], tuple(fields[1:])) for number, fields in jobs.numbered_lines(text))
    by_word = jobs.job_lines(text)
    shapes = {line.fields[0]: shape_of(line.fields) for line in lines if line.word == "station"}
    files: dict[str, list[tuple[str, Line]]] = {key: [] for key in shapes}
    for line in lines:
        if line.word == "file":
            files[line.fields[0]].append((line.fields[1], line))
    if read_schedule is not None:
        rate, scans = scheduled(read_schedule, tuple(shapes))
    else:
        rate, scans = inline(by_word, tuple(shapes))
    plan = jobs.plan_of(by_word, [(scan.name, {key: stay.end for key, stay in scan.stays.items()}) for scan in scans])
    planned = {scan.name: scan for scan in plan.scans}
    keys = plan.stations
    correlated = tuple(
        dataclasses.replace(scan, samples=planned[scan.name].samples, baselines=tuple((keys[a], keys[b]) for a, b in planned[scan.name].baselines))
        for scan in scans if scan.name in planned
    )
    return Asked(path, schedule, lines, by_word, plan, rate, shapes, files, correlated)


def shape_of(fields: Sequence[str]) -> Shape:
    """The Shape of the fields of a `station` line."""
    number, bits, channels, frame = (jobs.whole(one) for one in fields[1:5])
    return Shape(fields[0], number, bits, channels, frame, "legacy" in fields[5:])


def scheduled(schedule: vex.Schedule, keys: Sequence[str]) -> tuple[int, list[Scan]]:
    """Rate and scans of a schedule, of these stations alone."""
    rates = [one.setup.rate for scan in schedule.scans for one in scan.passes if one.key in keys]
    if not rates:
        raise JobFault(f"none of the stations {', '.join(keys) or '(there is none)'} is in a scan of the schedule")

    def stay(one: vex.Pass) -> Stay:
        bands = {channel.name: (channel.hertz, channel.side) for channel in one.setup.channels}
        return Stay(one.begin * one.setup.rate // 10 ** 6, one.end * one.setup.rate // 10 ** 6, bands)

    return rates[0], [Scan(scan.name, scan.start, 0, (), {one.key: stay(one) for one in scan.passes if one.key in keys}) for scan in schedule.scans]


def inline(lines: dict[str, list[list[str]]], keys: Sequence[str]) -> tuple[int, list[Scan]]:
    """Rate and scans of a job that states them itself."""
    bands = {name: (jobs.whole(hertz), side) for name, hertz, side in lines.get("band", [])}
    scans = [
        Scan(name, vex.second_of(when), 0, (), {key: Stay(0, jobs.whole(samples), bands) for key in keys})
        for name, when, samples in lines.get("scan", [])
    ]
    return jobs.only_number(lines, "rate"), scans
