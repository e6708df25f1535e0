"""A job whose recordings have more slots than a job may have: split by its scans, and its record files joined.

    texts = splitting.split(joined.read("job.txt", "sky.vex"), text)
    with open("night.vis", "wb") as out:
        splitting.join(["job0.vis", "job1.vis"], ("Ef", "Wb"), out)
"""
from __future__ import annotations

import dataclasses
import struct
from collections.abc import Iterator, Sequence
from typing import BinaryIO

import numpy
from numpy.typing import NDArray

from vlbi import records, refusal, words
from vlbi.coverage import Night
from vlbi.faults import Fault
from vlbi.joined import Asked, Scan
from vlbi.recording import Integers, Shape, Words, agreeing, by_thread, headers
from vlbi.records import Data, content

LOOKED = 32       # headers that are looked at at each end of a recording
COPIED = 1 << 16  # records that are copied in one go
OF_STATION = ("station", "file", "chan", "clock", "poly")

Span = tuple[float, float]


@dataclasses.dataclass(frozen=True)
class Kept:
    """A recording of a job: its station's key, the number of its line, its slots, and the seconds from which and up to which it goes.

    times  None where they are not known: it stays in every job
    """

    key: str
    line: int
    slots: int
    times: Span | None


def split(asked: Asked, text: bytes, most: int = words.MOST_SLOTS) -> list[bytes]:
    """The text of a job in texts of jobs whose recordings have at most so many slots: itself, or some of its scans each; Fault where a scan has more."""
    files = list(recordings(asked))
    if sum(one.slots for one in files) <= most:
        return [text]
    return [text_of(asked, text, scans, needed) for scans, needed in groups(asked, files, most)]


def recordings(asked: Asked) -> Iterator[Kept]:
    """The recordings that a job names."""
    for key, named in asked.files.items():
        for path, line in named:
            slots, times = (0, None) if refusal.why_not(path) else look(path, asked.shapes[key], asked.rate)
            yield Kept(key, line.number, slots, times)


def look(path: str, shape: Shape, rate: int) -> tuple[int, Span | None]:
    """The slots of a recording, and its seconds by the headers at its ends; None where none there agrees with the shape."""
    with open(path, "rb") as file:
        data = content(file)
    slots, a_second = len(data) // shape.frame, max(rate // max(shape.samples, 1), 1)
    first, last = (numbers_at(data, shape, place, min(LOOKED, slots), a_second) for place in (0, max(slots - LOOKED, 0)))
    if len(first) == 0 or len(last) == 0:
        return slots, None
    return slots, (int(first.min()) / a_second, (int(last.max()) + 1) / a_second)


def numbers_at(data: Data, shape: Shape, first: int, many: int, a_second: int) -> Integers:
    """The numbers of the frames of so many slots that agree with the shape, also of those marked invalid: frames since 1970-01-01."""
    found: Words = headers(data, shape, first, many)
    there = found[agreeing(found, shape, a_second)]
    there[:, 0] &= 0x7FFFFFFF
    return numpy.concatenate([numpy.zeros(0, numpy.int64), *by_thread(there, a_second).values()])


def groups(asked: Asked, files: Sequence[Kept], most: int) -> Iterator[tuple[list[Scan], set[Kept]]]:
    """The scans in groups, each with the recordings that it needs: as many as go into a job."""
    night = Night(asked)
    group: list[Scan] = []
    together: set[Kept] = set()
    for scan in asked.scans:
        own = needed(night, scan, files)
        if slots_of(own) > most:
            raise Fault(f"the recordings of scan {scan.name} alone have {slots_of(own)} slots, and a job may have {most}: cut the scan in the schedule, "
                        "and its recordings too", asked.path)
        if slots_of(together | own) > most:
            yield group, together
            group, together = [], set()
        group, together = [*group, scan], together | own
    if group:
        yield group, together


def slots_of(files: set[Kept]) -> int:
    return sum(one.slots for one in files)


def needed(night: Night, scan: Scan, files: Sequence[Kept]) -> set[Kept]:
    """The recordings that may hold something of a scan, at its stations' delays."""
    spans = {key: span(night, scan, key) for key in scan.stays}
    return {one for one in files if one.times is None or one.key in spans and one.times[0] < spans[one.key][1] and one.times[1] > spans[one.key][0]}


def span(night: Night, scan: Scan, key: str) -> Span:
    """The seconds in which a station's recording has its part of a scan."""
    edges = numpy.array([scan.stays[key].begin, scan.stays[key].end], numpy.float64)
    first, last = scan.start + (edges + night.late(scan, key, edges)) / night.asked.rate
    return float(first), float(last)


def text_of(asked: Asked, text: bytes, scans: Sequence[Scan], files: set[Kept]) -> bytes:
    """The text of a job of some scans: without the lines of stations that are in none of them, and of files that they do not need."""
    keys, numbers = {key for scan in scans for key in scan.stays}, {one.line for one in files}
    left_out = {
        line.number for line in asked.lines
        if line.word == "take" or line.word in OF_STATION and line.fields[0] not in keys or line.word == "file" and line.number not in numbers
    }
    channels = {line.fields[1] for line in asked.lines if line.word == "chan" and line.number not in left_out}
    for product in asked.plan.products:
        for channel in product:
            if channel not in channels:
                raise Fault(f"no station of scan {scans[0].name} has the channel {channel} of the product {' '.join(product)}: make a job of it by hand",
                            asked.path)
    lines = [line for number, line in enumerate(text.rstrip(b"\n").split(b"\n"), 1) if number not in left_out]
    return b"".join(line + b"\n" for line in [*lines, *(b"take " + scan.name.encode("latin-1") for scan in scans)])


# Record files

def join(paths: Sequence[str], stations: Sequence[str], out: BinaryIO) -> None:
    """Writes one record file of several, whose scans follow one another; Fault where they are not of one job.

    stations  the keys of all stations, in the order that each file has those of its own
    """
    found = [records.read(path) for path in paths]
    for path, one in zip(paths, found):
        if alike(one.head) != alike(found[0].head) or [key for key in stations if key in one.head.stations] != list(one.head.stations):
            raise Fault("it has other lags, integrations, rate, products or stations", path)
    scans = [(one.head, scan) for one in found for scan in one.scans]
    head = found[0].head
    out.write(records.MAGIC + struct.pack("<IQQI", head.lags, head.integration, head.rate, len(stations)) + b"".join(map(name, stations)))
    out.write(struct.pack("<I", len(head.products)) + b"".join(name(x) + name(y) for x, y in head.products) + struct.pack("<I", len(scans)))
    for own, scan in scans:
        out.write(name(scan.name) + struct.pack("<QQI", scan.start, scan.samples, len(scan.baselines)))
        out.writelines(struct.pack("<II", *(stations.index(own.stations[one]) for one in pair)) for pair in scan.baselines)
    count = first = 0
    for path, one in zip(paths, found):
        for rows in rows_of(path, head.lags):
            rows["scan"] += first
            out.write(rows.tobytes())
            count += len(rows)
        first += len(one.scans)
    out.write(struct.pack("<BQ", 0xFF, count))


def alike(head: records.Head) -> tuple[object, ...]:
    """What all record files of a job have alike."""
    return head.lags, head.integration, head.rate, head.products


def name(text: str) -> bytes:
    raw = text.encode("utf-8", "surrogateescape")
    return struct.pack("<H", len(raw)) + raw


def rows_of(path: str, lags: int) -> Iterator[NDArray[numpy.void]]:
    """Copies of a file's records, some at a time."""
    with open(path, "rb") as file:
        front = records.Front(content(file))
    front.magic()
    records.read_scans(front, records.read_head(front))
    row = numpy.dtype([*records.PLACE.descr, ("cells", f"V{lags * records.CELL.itemsize}")])
    count = (len(front.data) - front.at) // row.itemsize
    for begin in range(0, count, COPIED):
        yield numpy.ndarray((min(COPIED, count - begin),), row, front.data, front.at + begin * row.itemsize).copy()
