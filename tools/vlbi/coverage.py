"""Which samples of a job's scans its recordings have, by the headers of their frames and the job's delays.

    night = coverage.Night(joined.read("job.txt", "sky.vex"))
    night.share(night.asked.scans[0], "Ef", "CH01")
"""
from __future__ import annotations

import dataclasses
import functools
import math
import os

import numpy
from numpy.typing import NDArray

from vlbi import job as jobs
from vlbi import recording, refusal, rotation, vex, words
from vlbi.joined import Asked, Scan
from vlbi.recording import Recording

Reals = NDArray[numpy.float64]


@dataclasses.dataclass(frozen=True, eq=False)
class Covered:
    """The samples of a station's channel in a scan that are there: stretches from each of `begins` up to that of `ends`, rising."""

    begins: Reals
    ends: Reals

    @property
    def samples(self) -> float:
        return float((self.ends - self.begins).sum())

    def upto(self, places: Reals) -> Reals:
        """How many of them are before each place."""
        if len(self.begins) == 0:
            return numpy.zeros_like(places)
        sums = numpy.concatenate([[0.0], numpy.cumsum(self.ends - self.begins)])
        number = numpy.searchsorted(self.begins, places, side="right")
        inside = numpy.where(number > 0, numpy.maximum(self.ends[number - 1] - places, 0.0), 0.0)
        found: Reals = sums[number] - inside
        return found

    def shared(self, other: Covered, apart: float) -> float:
        """How many of them stand within so many samples of one of the other's, or more."""
        return float((other.upto(self.ends + apart) - other.upto(self.begins - apart)).sum())


class Night:
    """A job with its recordings, which are looked at when they are asked for."""

    def __init__(self, asked: Asked) -> None:
        self.asked = asked
        self.delays = rotation.Delays(asked.by_word, asked.rate)
        self.seen: dict[tuple[Scan, str, int], Covered] = {}
        self.channels = list(dict.fromkeys(channel for product in asked.plan.products for channel in product))

    @functools.cached_property
    def slots(self) -> int:
        """The slots of all recordings that are there."""
        return sum(
            os.path.getsize(path) // self.asked.shapes[key].frame
            for key, files in self.asked.files.items() for path, _ in files if os.path.isfile(path)
        )

    @functools.cached_property
    def recordings(self) -> dict[str, list[Recording]]:
        """The Recordings of each station that can be read; of more slots than a job may have only the first and the last of each."""
        ends = self.slots > words.MOST_SLOTS
        return {
            key: [recording.look(path, self.asked.shapes[key], self.asked.rate, ends) for path, _ in files if not refusal.why_not(path)]
            for key, files in self.asked.files.items()
        }

    def place(self, key: str, channel: str) -> tuple[int, int] | None:
        """Thread and index of a station's channel; None where no line says them."""
        line = self.asked.line_of("chan", key, channel)
        return (jobs.whole(line.fields[2]), jobs.whole(line.fields[3])) if line else None

    def late(self, scan: Scan, key: str, samples: Reals) -> Reals:
        """A station's delay in samples at samples of a scan."""
        seconds = samples / self.asked.rate
        return self.delays.samples(key, scan.start, numpy.stack([seconds, seconds], axis=1))[:, 0]

    def covered(self, scan: Scan, key: str, channel: str) -> Covered:
        """The samples of a station's channel in a scan that are there."""
        stay, place = scan.stays[key], self.place(key, channel)
        if place is None or channel not in stay.bands or stay.end <= stay.begin:
            return Covered(numpy.zeros(0), numpy.zeros(0))
        if (scan, key, place[0]) not in self.seen:
            self.seen[scan, key, place[0]] = self.covered_by(scan, key, place[0])
        return self.seen[scan, key, place[0]]

    def covered_by(self, scan: Scan, key: str, thread: int) -> Covered:
        """The same of all channels of a thread."""
        stay, size = scan.stays[key], self.asked.shapes[key].samples
        a_second = max(self.asked.rate // max(size, 1), 1)
        places = ((recording.joined(self.recordings[key], thread) - scan.start * a_second) * size).astype(numpy.float64)
        furthest = abs(self.late(scan, key, numpy.array([stay.begin, (stay.begin + stay.end) / 2, stay.end], numpy.float64))).max() + size
        places = places[(places + size > stay.begin - furthest) & (places < stay.end + furthest)]
        begins, ends = (edge - numpy.round(self.late(scan, key, edge - self.late(scan, key, edge))) for edge in (places, places + size))
        begins, ends = numpy.maximum(begins, stay.begin), numpy.minimum(ends, stay.end)
        if len(begins) > 1:
            ends[:-1] = numpy.minimum(ends[:-1], begins[1:])
        there = ends > begins
        return Covered(begins[there], ends[there])

    def share(self, scan: Scan, key: str, channel: str) -> float:
        """The part of a station's samples in a scan that are there, 0 to 1."""
        stay = scan.stays[key]
        return self.covered(scan, key, channel).samples / max(stay.end - stay.begin, 1)

    def overlaps(self, one: Recording, scan: Scan, key: str) -> bool:
        """Whether a recording's time has something of a station's part of a scan, at its delays."""
        if one.times is None or key not in scan.stays:
            return False
        edges = numpy.array([scan.stays[key].begin, scan.stays[key].end], numpy.float64)
        first, last = scan.start + (edges + self.late(scan, key, edges)) / self.asked.rate
        return bool(one.times[0] < last and one.times[1] > first)

    def has_pairs(self, scan: Scan, baseline: tuple[str, str], product: tuple[str, str]) -> bool:
        """Whether a baseline and product have any pair of samples at any lag."""
        first, second = (self.covered(scan, key, channel) for key, channel in zip(baseline, product))
        return first.shared(second, self.asked.plan.lags / 2) > 0


def moment(second: float) -> str:
    """A time, with thousandths of a second where it has such."""
    whole = math.floor(second + 0.0005)
    rest = round((second - whole) * 1000)
    return vex.vex_time(whole) if rest <= 0 else vex.vex_time(whole).removesuffix("s") + f".{rest:03d}s"
