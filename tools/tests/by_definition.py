"""The records of small jobs by the definitions of docs/MODEL.md, number by number, in whole numbers of Python alone.

It takes jobs that have their scans themselves and that the program accepts. It shares no line with the program, with `correlator` or with the
package `vlbi`, and needs nothing beside Python.
"""
from __future__ import annotations

import calendar
import functools
import re
import struct
from collections.abc import Iterable, Iterator
from dataclasses import dataclass, field

Files = dict[str, bytes]
Value = tuple[int, int]
Cell = tuple[int, int, int]
COSINE = (1, 1, 1, 0, 0, -1, -1, -1, -1, -1, -1, 0, 0, 1, 1, 1)


def second_of(text: str) -> int:
    """The second of a time `YYYYyDDDdHHhMMmSSs`."""
    year, day, hour, minute, second = (int(part) for part in re.findall(r"\d+", text)[:5])
    return calendar.timegm((year, 1, 1, hour, minute, second)) + (day - 1) * 86400


@dataclass
class Station:
    """A station of a job: the fields of its lines."""

    ident: int
    bits: int
    chans: int
    frame: int
    legacy: bool
    files: list[str] = field(default_factory=list)
    places: dict[str, tuple[int, int]] = field(default_factory=dict)
    clocks: list[tuple[int, list[int]]] = field(default_factory=list)
    polys: list[tuple[int, list[int]]] = field(default_factory=list)

    @property
    def head(self) -> int:
        return 16 if self.legacy else 32

    @property
    def frame_samples(self) -> int:
        return 8 * (self.frame - self.head) // (self.bits * self.chans)


@dataclass
class Scan:
    name: str
    start: int
    samples: int


class Job:
    """A job's lines."""

    def __init__(self, text: str) -> None:
        self.numbers = {"knot": 32768}
        self.auto = False
        self.stations: dict[str, Station] = {}
        self.products: list[tuple[str, str]] = []
        self.taken: set[str] = set()
        self.scans: list[Scan] = []
        self.bands: dict[str, tuple[int, str]] = {}
        for line in text.splitlines():
            fields = line.split("#")[0].split()
            if fields:
                self.take(fields[0], fields[1:])
        self.scans = [scan for scan in self.scans if not self.taken or scan.name in self.taken]

    def take(self, word: str, fields: list[str]) -> None:
        if word in ("lags", "integration", "epoch", "knot", "rate"):
            self.numbers[word] = int(fields[0])
        elif word == "auto":
            self.auto = True
        elif word == "station":
            ident, bits, chans, frame = (int(one) for one in fields[1:5])
            self.stations[fields[0]] = Station(ident, bits, chans, frame, "legacy" in fields)
        elif word == "file":
            self.stations[fields[0]].files.append(fields[1])
        elif word == "chan":
            self.stations[fields[0]].places[fields[1]] = (int(fields[2]), int(fields[3]))
        elif word == "clock":
            self.stations[fields[0]].clocks.append((second_of(fields[1]), [int(one) for one in fields[2:]]))
        elif word == "poly":
            self.stations[fields[0]].polys.append((second_of(fields[1]), [int(one) for one in fields[2:]]))
        elif word == "product":
            self.products.append((fields[0], fields[1]))
        elif word == "take":
            self.taken.add(fields[0])
        elif word == "scan":
            self.scans.append(Scan(fields[0], second_of(fields[1]), int(fields[2])))
        elif word == "band":
            self.bands[fields[0]] = (int(fields[1]), fields[2])
        else:
            raise ValueError(f"no line of these jobs: {word}")


def slots(station: Station, files: Files) -> Iterator[bytes]:
    for name in station.files:
        for at in range(0, len(files[name]) - station.frame + 1, station.frame):
            yield files[name][at : at + station.frame]


def bits_of(word: int, high: int, low: int) -> int:
    return (word >> low) % (1 << high - low + 1)


def samples(station: Station, channel: str, scan: Scan, rate: int, files: Files) -> dict[int, int]:
    """The samples of a channel by their places in a scan: of several slots that cover a place the first counts."""
    thread, index = station.places[channel]
    found: dict[int, int] = {}
    for slot in slots(station, files):
        words = struct.unpack_from("<4I", slot)
        epoch, number = bits_of(words[1], 29, 24), bits_of(words[1], 23, 0)
        agrees = (
            bits_of(words[0], 30, 30) == station.legacy and bits_of(words[2], 23, 0) * 8 == station.frame
            and 2 ** bits_of(words[2], 28, 24) == station.chans and bits_of(words[3], 31, 31) == 0
            and bits_of(words[3], 30, 26) + 1 == station.bits and bits_of(words[3], 15, 0) == station.ident
            and number < rate // station.frame_samples
        )
        if not agrees or bits_of(words[0], 31, 31) == 1 or bits_of(words[3], 25, 16) != thread:
            continue
        second = calendar.timegm((2000 + epoch // 2, 7 if epoch % 2 else 1, 1, 0, 0, 0)) + bits_of(words[0], 29, 0)
        place = (second - scan.start) * rate + number * station.frame_samples
        for i in range(station.frame_samples):
            bit = (i * station.chans + index) * station.bits
            code = slot[station.head + bit // 8] >> bit % 8 & (2**station.bits - 1)
            found.setdefault(place + i, 2 * code - (2**station.bits - 1))
    return found


def track(job: Job, polys: list[tuple[int, list[int]]], clocks: list[tuple[int, list[int]]], scan: Scan) -> list[int]:
    """What entries come to at each number of a scan, with clocks added, in 2^-32 of a unit."""
    rate, knot = job.numbers["rate"], job.numbers["knot"]

    @functools.cache
    def at_knot(when: int, j: int) -> int:
        total = 0
        for coefficient in reversed(dict(polys)[when]):
            total = coefficient + total * j // 2**24
        since, (offset, drift) = max([one for one in clocks if one[0] <= when] or [(when, [0, 0])])
        return total + offset + drift * ((when - since) * rate + j * knot) // rate

    def at(n: int) -> int:
        when = max(second for second, _ in polys if second <= scan.start + n // rate)
        j, r = divmod((scan.start - when) * rate + n, knot)
        return at_knot(when, j) + (at_knot(when, j + 1) - at_knot(when, j)) * r // knot

    return [at(n) for n in range(scan.samples)]


def delays(job: Job, station: Station, scan: Scan) -> list[int]:
    """The delay at each number of a scan, in 2^-32 sample."""
    return track(job, station.polys or [(scan.start, [0])], station.clocks, scan)


@dataclass
class Pulse:
    """The bins of a turn of a pulse, and the entries of its phase, in 2^-32 turn."""

    bins: int
    phases: list[tuple[int, list[int]]]


def pulse(text: str) -> Pulse:
    """What a text of phases says that the program accepts."""
    rows = [line.split("#")[0].split() for line in text.splitlines()]
    bins = next(int(row[1]) for row in rows if row[:1] == ["bins"])
    return Pulse(bins, [(second_of(row[1]), [int(one) for one in row[2:]]) for row in rows if row[:1] == ["phase"]])


def bins_of(job: Job, pulsed: Pulse, scan: Scan) -> list[int]:
    """The bin of each number of a scan: which part of a turn the phase is in, of so many."""
    return [phase % 2**32 * pulsed.bins // 2**32 for phase in track(job, pulsed.phases, [], scan)]


def values(job: Job, station: Station, channel: str, scan: Scan, files: Files) -> list[Value | None]:
    """The value of a station's channel at each number of a scan."""
    if channel not in station.places or channel not in job.bands:
        return [None] * scan.samples
    rate = job.numbers["rate"]
    hertz, side = job.bands[channel]
    there = samples(station, channel, scan, rate, files)
    found: list[Value | None] = []
    for n, delay in enumerate(delays(job, station, scan)):
        sample = there.get(n + (delay + 2**31) // 2**32)
        sector = 16 * (hertz if side == "U" else -hertz) * delay // (rate * 2**32) % 16
        found.append(None if sample is None else (sample * COSINE[sector], sample * COSINE[(sector + 12) % 16]))
    return found


def cell(first: list[Value | None], second: list[Value | None], begin: int, end: int, lag: int) -> Cell:
    """The cell of the numbers from `begin` up to `end` at a lag."""
    re = im = count = 0
    for n in range(max(begin, -lag), min(end, len(first) - lag)):
        a, b = first[n], second[n + lag]
        if a is not None and b is not None:
            re += a[0] * b[0] + a[1] * b[1]
            im += a[1] * b[0] - a[0] * b[1]
            count += 1
    return re, im, count


def name(text: str) -> bytes:
    return struct.pack("<H", len(text.encode())) + text.encode()


def baselines(job: Job) -> list[tuple[int, int]]:
    numbers = range(len(job.stations))
    return [(a, b) for a in numbers for b in numbers if a < b or a == b and job.auto]


def head(job: Job) -> bytes:
    return b"VLBIVIS1" + fields(job)


def fields(job: Job) -> bytes:
    """A head behind its mark."""
    parts = [struct.pack("<IQQ", job.numbers["lags"], job.numbers["integration"], job.numbers["rate"])]
    parts += [struct.pack("<I", len(job.stations)), *map(name, job.stations)]
    scans = job.scans if baselines(job) else []
    parts += [struct.pack("<I", len(job.products)), *(name(x) + name(y) for x, y in job.products), struct.pack("<I", len(scans))]
    for scan in scans:
        parts += [name(scan.name), struct.pack("<QQI", scan.start, scan.samples, len(baselines(job)))]
        parts += [struct.pack("<II", a, b) for a, b in baselines(job)]
    return b"".join(parts)


def record_file(job: Job, integrations: Iterable[tuple[int, int, list[Cell]]]) -> tuple[bytes, list[Cell]]:
    """The record file of a job, and its cells: of each integration of a scan they are given by product, baseline and lag."""
    lags, pairs = job.numbers["lags"], len(baselines(job))
    parts, found, count = [head(job)], [], 0
    for number, m, cells in integrations:
        for group, begin in enumerate(range(0, len(cells), lags)):
            parts.append(struct.pack("<BIQII", 1, number, m, *divmod(group, pairs)))
            parts += [struct.pack("<qqQ", *one) for one in cells[begin : begin + lags]]
            count += 1
        found += cells
    return b"".join([*parts, struct.pack("<BQ", 255, count)]), found


def sums(job: Job, files: Files) -> Iterator[tuple[int, int, list[Cell]]]:
    """The number of each scan, that of each integration in it, and its cells."""
    lags, integration, stations = job.numbers["lags"], job.numbers["integration"], list(job.stations.values())
    pairs = [(x, y, a, b) for x, y in job.products for a, b in baselines(job)]
    for number, scan in enumerate(job.scans):
        known = [{x: values(job, station, x, scan, files) for pair in job.products for x in pair} for station in stations]
        for m, begin in enumerate(range(0, scan.samples, integration)):
            end = min(begin + integration, scan.samples)
            yield number, m, [cell(known[a][x], known[b][y], begin, end, lag) for x, y, a, b in pairs for lag in range(-lags // 2, lags // 2)]


def records(job: Job, files: Files) -> tuple[bytes, list[Cell]]:
    """The record file of a job, and its cells."""
    return record_file(job, sums(job, files))


def bin_records(job: Job, files: Files, pulsed: Pulse) -> tuple[bytes, list[list[Cell]]]:
    """The text of the cells of a pulse's bins, of a job that has a baseline, and for each cell of its record file those of its bins."""
    lags, integration, stations = job.numbers["lags"], job.numbers["integration"], list(job.stations.values())
    parts, cells, count = [b"VLBIBIN1", struct.pack("<I", pulsed.bins), fields(job)], [], 0
    for number, scan in enumerate(job.scans):
        known = [{x: values(job, station, x, scan, files) for pair in job.products for x in pair} for station in stations]
        bins = bins_of(job, pulsed, scan)
        for m, begin in enumerate(range(0, scan.samples, integration)):
            end = min(begin + integration, scan.samples)
            for p, (x, y) in enumerate(job.products):
                for q, (a, b) in enumerate(baselines(job)):
                    made = []
                    for own in range(pulsed.bins):
                        first = [value if bins[n] == own else None for n, value in enumerate(known[a][x])]
                        made.append([cell(first, known[b][y], begin, end, lag) for lag in range(-lags // 2, lags // 2)])
                        parts += [struct.pack("<BIQIII", 2, number, m, p, q, own), *(struct.pack("<qqQ", *one) for one in made[-1])]
                        count += 1
                    cells += [list(one) for one in zip(*made)]
    return b"".join([*parts, struct.pack("<BQ", 255, count)]), cells
