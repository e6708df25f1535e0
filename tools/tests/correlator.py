"""A second correlator, in numpy, by the definitions of docs/MODEL.md and docs/FORMATS.md: the records of small jobs, without the program.

    correlator.py JOB [SCHEDULE] > RECORDS
    correlator.py --phase PHASES JOB [SCHEDULE] > TEXT

With a text of phases it makes the text of the cells of bins. It takes jobs that the program accepts, and shares no line with it nor with
`vlbi.simulate`. Tests compare it with stored record files of the program, and measure with it where there is no program.
"""
from __future__ import annotations

import calendar
import os
import struct
import sys
from collections.abc import Iterator
from dataclasses import dataclass, field
import numpy
from numpy.typing import NDArray

from vlbi import vex

Integers = NDArray[numpy.int64]
Complexes = NDArray[numpy.complex128]
Entry = tuple[int, list[int]]  # a second, and what counts from it on
Values = tuple[Complexes, NDArray[numpy.float64]]
COSINE = numpy.array([1, 1, 1, 0, 0, -1, -1, -1, -1, -1, -1, 0, 0, 1, 1, 1], numpy.float64)


@dataclass
class Station:
    """A station of a job: the fields of its lines."""

    number: int
    bits: int
    channels: int
    frame: int
    legacy: bool
    files: list[str] = field(default_factory=list)
    places: dict[str, tuple[int, int]] = field(default_factory=dict)
    clocks: list[Entry] = field(default_factory=list)
    polys: list[Entry] = field(default_factory=list)

    @property
    def head(self) -> int:
        return 16 if self.legacy else 32

    @property
    def frame_samples(self) -> int:
        return (self.frame - self.head) * 8 // (self.bits * self.channels)


@dataclass
class Part:
    """A station's part of a scan in samples, and its channels: name to sky frequency and sideband."""

    begin: int
    end: int
    bands: dict[str, tuple[int, str]]


@dataclass
class Scan:
    name: str
    start: int
    samples: int
    parts: dict[str, Part]


class Job:
    """A job's lines, and its scans by the schedule or by itself."""

    def __init__(self, text: bytes, schedule: bytes | None) -> None:
        self.numbers = {"knot": 32768}
        self.auto = False
        self.stations: dict[str, Station] = {}
        self.products: list[tuple[str, str]] = []
        self.taken: set[str] = set()
        self.own: list[tuple[str, int, int]] = []
        self.bands: dict[str, tuple[int, str]] = {}
        for line in text.decode("latin-1").splitlines():
            fields = line.split("#")[0].split()
            if fields:
                self.take(fields[0], fields[1:])
        if schedule is None:
            self.rate = self.numbers["rate"]
            self.scans = [
                Scan(name, start, samples, {key: Part(0, samples, self.bands) for key in self.stations}) for name, start, samples in self.own
            ]
        else:
            read = vex.from_bytes(schedule).scans
            self.rate = next(one.setup.rate for scan in read for one in scan.passes if one.key in self.stations)
            self.scans = [self.of_schedule(scan) for scan in read]
        self.scans = [scan for scan in self.scans if scan.parts and (not self.taken or scan.name in self.taken)]

    def take(self, word: str, fields: list[str]) -> None:
        if word in ("lags", "integration", "epoch", "knot", "rate"):
            self.numbers[word] = int(fields[0])
        elif word == "auto":
            self.auto = True
        elif word == "station":
            number, bits, channels, frame = (int(one) for one in fields[1:5])
            self.stations[fields[0]] = Station(number, bits, channels, frame, "legacy" in fields)
        elif word == "file":
            self.stations[fields[0]].files.append(fields[1])
        elif word == "chan":
            self.stations[fields[0]].places[fields[1]] = (int(fields[2]), int(fields[3]))
        elif word in ("clock", "poly"):
            station = self.stations[fields[0]]
            (station.clocks if word == "clock" else station.polys).append((vex.second_of(fields[1]), [int(one) for one in fields[2:]]))
        elif word == "product":
            self.products.append((fields[0], fields[1]))
        elif word == "take":
            self.taken.add(fields[0])
        elif word == "scan":
            self.own.append((fields[0], vex.second_of(fields[1]), int(fields[2])))
        elif word == "band":
            self.bands[fields[0]] = (int(fields[1]), fields[2])

    def of_schedule(self, scan: vex.Scan) -> Scan:
        parts = {
            one.key: Part(
                one.begin * self.rate // 10 ** 6, one.end * self.rate // 10 ** 6, {ch.name: (ch.hertz, ch.side) for ch in one.setup.channels}
            )
            for one in scan.passes if one.key in self.stations
        }
        return Scan(scan.name, scan.start, max((part.end for part in parts.values()), default=0), parts)


class Phases:
    """A text of phases: how many bins a turn has, and the entries of the phase in 2^-32 turn."""

    def __init__(self, text: bytes) -> None:
        rows = [fields for fields in (line.split("#")[0].split() for line in text.decode("latin-1").splitlines()) if fields]
        (self.count,) = (int(fields[1]) for fields in rows if fields[0] == "bins")
        self.entries = sorted((vex.second_of(fields[1]), [int(one) for one in fields[2:]]) for fields in rows if fields[0] == "phase")

    def bins(self, job: Job, scan: Scan) -> Integers:
        """The bin at each sample of a scan."""
        return self.count * (along(job, scan, self.entries, []) % 2 ** 32) // 2 ** 32

    def rows(self, job: Job, scan: Scan) -> Iterator[tuple[int, bytes, NDArray[numpy.float64]]]:
        """Of each bin the mark of its records, its number in them, and 1 for each sample of the scan that is of it, else 0."""
        bins = self.bins(job, scan)
        return ((2, struct.pack("<I", one), (bins == one).astype(numpy.float64)) for one in range(self.count))


def slots(station: Station, folder: str) -> Iterator[tuple[int, int, int, bytes]]:
    """Second, frame number, thread and data of each slot of a station that agrees and is valid, in the order of its files."""
    for name in station.files:
        with open(os.path.join(folder, name), "rb") as file:
            text = file.read()
        for at in range(0, len(text) - station.frame + 1, station.frame):
            words = struct.unpack_from("<4I", text, at)
            agrees = (
                words[0] >> 30 & 1 == station.legacy and words[2] & 0xFFFFFF == station.frame // 8 and 1 << (words[2] >> 24 & 31) == station.channels
                and words[3] >> 31 == 0 and (words[3] >> 26 & 31) + 1 == station.bits and words[3] & 0xFFFF == station.number
            )
            if agrees and words[0] >> 31 == 0:
                epoch = words[1] >> 24 & 63
                second = calendar.timegm((2000 + epoch // 2, 7 if epoch % 2 else 1, 1, 0, 0, 0)) + (words[0] & 0x3FFFFFFF)
                yield second, words[1] & 0xFFFFFF, words[3] >> 16 & 1023, text[at + station.head:at + station.frame]


def levels(station: Station, channel: str, scan: Scan, rate: int, first: int, past: int, folder: str) -> NDArray[numpy.float64]:
    """The levels of a channel's samples from place `first` up to `past`, 0 where there is none."""
    found = numpy.zeros(past - first)
    thread, index = station.places[channel]
    size = station.frame_samples
    for second, number, of_thread, data in slots(station, folder):
        place = (second - scan.start) * rate + number * size
        if of_thread != thread or not first - size < place < past or number >= rate // size:
            continue
        octets = numpy.frombuffer(data, numpy.uint8)
        shifts = numpy.arange(0, 8, station.bits, dtype=numpy.uint8)
        codes = (octets[:, None] >> shifts & ((1 << station.bits) - 1)).ravel().reshape(-1, station.channels)[:, index]
        made = 2.0 * codes - ((1 << station.bits) - 1)
        begin, end = max(place, first), min(place + size, past)
        room = found[begin - first:end - first]
        numpy.copyto(room, made[begin - place:end - place], where=room == 0)  # the first slot that holds a sample counts
    return found


def delays(job: Job, station: Station, scan: Scan) -> Integers:
    """The delay at each sample of a scan in 2^-32 sample."""
    return along(job, scan, sorted(station.polys) or [(scan.start, [0])], sorted(station.clocks))


def along(job: Job, scan: Scan, polys: list[Entry], clocks: list[Entry]) -> Integers:
    """Where these entries of polynomials and clocks have come to at each sample of a scan, by rising seconds."""
    knot, rate = job.numbers["knot"], job.rate
    found = numpy.zeros(scan.samples, numpy.int64)
    for entry, (when, coefficients) in enumerate(polys):
        begin = max(0, (when - scan.start) * rate) if entry > 0 else 0
        end = min(scan.samples, (polys[entry + 1][0] - scan.start) * rate) if entry + 1 < len(polys) else scan.samples
        if begin >= end:
            continue
        clock = max((one for one in clocks if one[0] <= when), default=(when, [0, 0]))

        def at_knot(j: int) -> int:
            total = 0
            for coefficient in reversed(coefficients):
                total = coefficient + total * j // 2 ** 24
            return total + clock[1][0] + clock[1][1] * ((when - clock[0]) * rate + j * knot) // rate

        behind = numpy.arange(begin, end, dtype=numpy.int64) - (when - scan.start) * rate
        number, rest = behind // knot, behind % knot
        first = int(number[0])
        at = numpy.array([at_knot(j) for j in range(first, int(number[-1]) + 2)], numpy.int64)
        found[begin:end] = at[number - first] + (at[number - first + 1] - at[number - first]) * rest // knot
    return found


def values(job: Job, key: str, channel: str, scan: Scan, folder: str) -> Values:
    """The values of a station's channel at each sample of a scan, and 1 where there is one, else 0 for both."""
    station, part = job.stations[key], scan.parts[key]
    none = numpy.zeros(scan.samples, numpy.complex128), numpy.zeros(scan.samples)
    if channel not in station.places or channel not in part.bands or scan.samples == 0:
        return none
    delay = delays(job, station, scan)
    places = numpy.arange(scan.samples, dtype=numpy.int64) + (delay + 2 ** 31) // 2 ** 32
    first, past = int(places.min()), int(places.max()) + 1
    taken = levels(station, channel, scan, job.rate, first, past, folder)[places - first]
    taken[:part.begin] = 0
    taken[part.end:] = 0
    hertz, side = part.bands[channel]
    sector = sectors(delay, hertz if side == "U" else -hertz, job.rate * 2 ** 32)
    return taken * (COSINE[sector] + 1j * COSINE[(sector + 12) % 16]), (taken != 0).astype(numpy.float64)


def sectors(delay: Integers, hertz: int, turn: int) -> Integers:
    """16 * hertz * delay / turn, modulo 16, of each delay: the product modulo a turn digit by digit, so that nothing passes 63 bits."""
    digit = min(62 - turn.bit_length(), 8)
    assert digit >= 4
    left = delay % turn
    rest = numpy.zeros_like(delay)
    for place in reversed(range(0, turn.bit_length(), digit)):
        rest = ((rest << digit) + hertz * (left >> place & ((1 << digit) - 1))) % turn
    return 16 * rest // turn


def name(text: str) -> bytes:
    raw = text.encode("utf-8", "surrogateescape")
    return struct.pack("<H", len(raw)) + raw


def listed_scans(job: Job) -> list[tuple[Scan, list[tuple[int, int]]]]:
    """The scans that have a baseline, each with its baselines."""
    keys = list(job.stations)
    listed = []
    for scan in job.scans:
        standing = [number for number, key in enumerate(keys) if key in scan.parts]
        baselines = [(a, b) for a in standing for b in standing if a < b or a == b and job.auto]
        if baselines:
            listed.append((scan, baselines))
    return listed


def head(job: Job) -> bytes:
    """What a record file has behind its mark and before its records."""
    listed = listed_scans(job)
    parts = [struct.pack("<IQQI", job.numbers["lags"], job.numbers["integration"], job.rate, len(job.stations)), *map(name, job.stations)]
    parts += [struct.pack("<I", len(job.products)), *(name(x) + name(y) for x, y in job.products), struct.pack("<I", len(listed))]
    for scan, baselines in listed:
        parts.append(name(scan.name) + struct.pack("<QQI", scan.start, scan.samples, len(baselines)))
        parts += [struct.pack("<II", a, b) for a, b in baselines]
    return b"".join(parts)


def records(job: Job, folder: str, phases: Phases | None = None) -> bytes:
    """The record file of a job; with phases the text of the cells of bins."""
    lags, integration = job.numbers["lags"], job.numbers["integration"]
    keys, listed = list(job.stations), listed_scans(job)
    parts = [b"VLBIVIS1" if phases is None else b"VLBIBIN1" + struct.pack("<I", phases.count), head(job)]
    count = 0
    for number, (scan, baselines) in enumerate(listed):
        known = {(key, channel): values(job, key, channel, scan, folder) for key in scan.parts for pair in job.products for channel in pair}
        rows = [(1, b"", numpy.ones(scan.samples))] if phases is None else list(phases.rows(job, scan))
        for m, begin in enumerate(range(0, scan.samples, integration)):
            for p, (x, y) in enumerate(job.products):
                for q, (a, b) in enumerate(baselines):
                    for mark, behind, counts in rows:
                        (value, there), second = known[keys[a], x], known[keys[b], y]
                        cells = cells_of((value * counts, there * counts), second, begin, min(begin + integration, scan.samples), lags)
                        parts += [struct.pack("<BIQII", mark, number, m, p, q), behind, cells]
                        count += 1
    return b"".join([*parts, struct.pack("<BQ", 255, count)])


def cells_of(first: Values, second: Values, begin: int, end: int, lags: int) -> bytes:
    """The cells of the samples from `begin` up to `end` of a baseline's first station, by rising lag."""
    cells = numpy.zeros(lags, numpy.dtype([("re", "<i8"), ("im", "<i8"), ("count", "<u8")]))
    for place, lag in enumerate(range(-lags // 2, lags // 2)):
        low, high = max(begin, -lag), min(end, len(first[0]) - lag)
        if low < high:
            product = numpy.vdot(second[0][low + lag:high + lag], first[0][low:high])
            cells[place] = round(product.real), round(product.imag), round(float(first[1][low:high] @ second[1][low + lag:high + lag]))
    return cells.tobytes()


def correlate(folder: str, job: str, schedule: str | None = None, phases: str | None = None) -> bytes:
    """The record file of the job of this name in a folder; with a text of phases the text of the cells of its bins."""
    text, of_schedule, of_phases = (None if path is None else read(os.path.join(folder, path)) for path in (job, schedule, phases))
    assert text is not None
    return records(Job(text, of_schedule), folder, None if of_phases is None else Phases(of_phases))


def read(path: str) -> bytes:
    with open(path, "rb") as file:
        return file.read()


if __name__ == "__main__":
    by_phase = sys.argv[1] == "--phase"
    job_name, *others = sys.argv[3:] if by_phase else sys.argv[1:]
    sys.stdout.buffer.write(correlate(".", job_name, others[0] if others else None, sys.argv[2] if by_phase else None))
