"""The recordings that the stations of a schedule make, while they and the sources move as on the sky.

    night = scheduled.Night(schedule, schedule.scans)
    night.write("day")

writes into the folder `day` a recording KEY.vdif of each station, from the begin of its part of each scan to the end, and stations.txt, a job
that lacks the clocks and delays. When each wave comes `vlbi.wavefront` says; how far a clock is ahead, the schedule. In each scan the stations
have noise of its own in common, the source's. It is the command `vlbi-simulate --sky`.
"""
from __future__ import annotations

import contextlib
import dataclasses
import os
from collections.abc import Callable, Sequence
from typing import NamedTuple

import numpy

from vlbi import vex, wavefront
from vlbi.faults import Fault
from vlbi.simulate import (
    MOST_CHANNELS, MOST_STATIONS, CommonNoise, Pulse, Reals, Receiver, blocks, check_key, check_parts, head_lines, no_progress, station_lines,
)
from vlbi.vdif import Frames, Recording, reference_epoch


@dataclasses.dataclass(frozen=True)
class Asked:
    """What a schedule does not say, as `simulate.Sky` has it; `air` is whether the dry atmosphere is there, and all sources pulse alike."""

    common: float = 0.1
    bits: int = 2
    missing: float = 0.0
    invalid: float = 0.0
    seed: int = 1
    air: bool = True
    pulse: Pulse | None = None


class Part(NamedTuple):
    """A station's part of a scan: its pass, and its first sample and the one behind its last, in whole frames behind the scan's start."""

    one: vex.Pass
    first: int
    past: int


class Night:
    """Scans of a schedule that are recorded; Fault, which names the schedule, where they cannot be.

    scans   by time
    keys    the stations, in the order in which they come
    names   the names of each one's channels
    """

    def __init__(self, schedule: vex.Schedule, scans: Sequence[vex.Scan], asked: Asked = Asked()) -> None:
        check_parts(asked.common, asked.missing, asked.invalid)
        self.schedule, self.asked = schedule, asked
        self.scans = sorted(scans, key=lambda scan: scan.start)
        self.keys = vex.chosen_stations(schedule, scans, ())
        self.rate = vex.rate_of(schedule, scans, self.keys)
        self.names: dict[str, tuple[str, ...]] = {}
        try:
            for scan in self.scans:
                self.check(scan)
            channels = len(next(iter(self.names.values())))
            self.frames = Frames(self.rate, channels, asked.bits, channels & (channels - 1) != 0)
            self.check_sizes(channels)
            self.check_times()
        except Fault as fault:
            fault.name_file(schedule.path)
            raise

    def check(self, scan: vex.Scan) -> None:
        """Takes the channels of a scan's stations; Fault where it has no source, or where its channels are not those of other scans."""
        reference_epoch(scan.start)
        if not scan.sources:
            raise Fault(f"scan {scan.name} has no source")
        for one in scan.passes:
            check_key(one.key)
            names = tuple(channel.name for channel in one.setup.channels)
            if self.names.setdefault(one.key, names) != names:
                raise Fault(f"station {one.key} has other channels in scan {scan.name} than before")
            for channel in one.setup.channels:
                if 2 * channel.bandwidth != self.rate:
                    raise Fault(f"channel {channel.name} of scan {scan.name} has a bandwidth that is not half of the {self.rate} samples a second")

    def check_sizes(self, channels: int) -> None:
        if any(len(names) != channels for names in self.names.values()):
            raise Fault("the stations have not all the same number of channels")
        if not 1 <= channels <= MOST_CHANNELS or len(self.keys) > MOST_STATIONS:
            raise Fault(f"the program takes at most {MOST_STATIONS} stations and {MOST_CHANNELS} channels, and one at least")

    def check_times(self) -> None:
        """Fault where a station is in two scans at once."""
        end: dict[str, int] = {}
        for scan in self.scans:
            for part in self.parts(scan):
                if scan.start * self.rate + part.first < end.get(part.one.key, 0):
                    raise Fault(f"station {part.one.key} is in scan {scan.name} and the one before it at once")
                end[part.one.key] = scan.start * self.rate + part.past

    def parts(self, scan: vex.Scan) -> list[Part]:
        """The Parts of a scan."""
        size = self.frames.samples
        return [
            Part(one, one.begin * self.rate // 10 ** 6 // size * size, -(-one.end * self.rate // (10 ** 6 * size)) * size) for one in scan.passes
        ]

    def length(self, scan: vex.Scan) -> int:
        """The sample behind the last one of a scan."""
        return max((part.past for part in self.parts(scan)), default=0)

    @property
    def seconds(self) -> float:
        """The seconds of all scans."""
        return sum(self.length(scan) for scan in self.scans) / self.rate

    def job_text(self, lags: int = 64, integration: int | None = None, auto: bool = False) -> str:
        """A job of these recordings without clocks and delays, which go behind it; an integration has a second where not said."""
        lines = head_lines(lags, self.rate if integration is None else integration, len(self.keys) * self.frames.channels, auto)
        for number, key in enumerate(self.keys, 1):
            lines += station_lines(self.frames, number, key, self.names[key])
        products = dict.fromkeys(name for names in self.names.values() for name in names)
        lines += [f"product {name} {name}" for name in products]
        if len(self.scans) < len(self.schedule.scans):
            lines += [f"take {scan.name}" for scan in self.scans]
        return "\n".join(lines) + "\n"

    def write(self, folder: str, text: str, progress: Callable[[float], None] = no_progress) -> list[str]:
        """Writes the recordings, and this text as stations.txt, into a folder, which is made where it is not there; the paths of the files.

        progress  is told again and again how many seconds are made
        """
        fronts = [self.arrivals(scan) for scan in self.scans]
        os.makedirs(folder, exist_ok=True)
        paths = [os.path.join(folder, "stations.txt"), *(os.path.join(folder, f"{key}.vdif") for key in self.keys)]
        with open(paths[0], "w") as out:
            out.write(text)
        asked, made = self.asked, 0.0
        with contextlib.ExitStack() as stack:
            files = [stack.enter_context(open(path, "wb")) for path in paths[1:]]
            writers = {
                key: (Recording(self.frames, number, file, asked.missing, asked.invalid, asked.seed), Receiver(number, asked.common, asked.bits, asked.seed))
                for number, (key, file) in enumerate(zip(self.keys, files), 1)
            }
            for number, scan in enumerate(self.scans):
                self.write_scan(number, fronts[number], writers, lambda seconds: progress(made + seconds))
                made += self.length(scan) / self.rate
        return paths

    def arrivals(self, scan: vex.Scan) -> dict[str, Arrival]:
        """Of each station of a scan, when it gets the wave."""
        source = self.schedule.source(scan.sources[0])
        try:
            return {one.key: Arrival(self.schedule, one.key, source, scan.start, self.asked.air) for one in scan.passes}
        except Fault as fault:
            fault.name_file(self.schedule.path)
            raise

    def write_scan(
        self, number: int, fronts: dict[str, Arrival], writers: dict[str, tuple[Recording, Receiver]], progress: Callable[[float], None]
    ) -> None:
        """Adds the recordings of the scan of this number, block by block of whole frames."""
        scan, frames, pulse = self.scans[number], self.frames, self.asked.pulse
        gate = pulse.gate(scan.start, self.scans[0].start) if pulse else None
        parts = self.parts(scan)
        seen = list(dict.fromkeys((channel.hertz, channel.side) for part in parts for channel in part.one.setup.channels))
        noise = {band: CommonNoise(self.asked.seed + 2 ** 32 * (number + 1), place) for place, band in enumerate(seen)}
        for part in parts:
            writers[part.one.key][0].go_to(scan.start, part.first // frames.samples)
        for first, past in blocks(frames, min((part.first for part in parts), default=0), self.length(scan)):
            for part in parts:
                recorded = numpy.arange(max(first, part.first), min(past, part.past), dtype=numpy.float64)
                if len(recorded):
                    recording, receiver = writers[part.one.key]
                    bands = [(channel.hertz, channel.side) for channel in part.one.setup.channels]
                    lead = fronts[part.one.key].lead(recorded / self.rate)
                    wave = recorded - lead * self.rate
                    on = gate.is_on(wave / self.rate) if gate else None
                    recording.add(receiver.codes([noise[band] for band in bands], bands, wave, lead, on))
            progress(past / self.rate)


class Arrival:
    """When a station gets the wave of a scan, by its own clock."""

    def __init__(self, schedule: vex.Schedule, key: str, source: vex.Source, start: int, air: bool) -> None:
        self.front = wavefront.Front(schedule, key, source, start, air)
        self.start = start
        self.clocks = sorted(schedule.clocks(key), key=lambda clock: clock.since)

    def lead(self, clock: Reals) -> Reals:
        """How much later the clock says than it is when the wave passes the centre of the earth, in seconds; at rising seconds of the clock behind
        the scan's start."""
        early = self.early(clock)
        return early + self.front.late(clock - early)

    def early(self, seconds: Reals) -> Reals:
        """How far the clock is ahead, in seconds: before the first of the schedule's clocks it is that one's, and without any none."""
        if not self.clocks:
            return numpy.zeros_like(seconds)
        table = numpy.array([(clock.since - self.start, clock.early + clock.rate * (self.start - clock.at), clock.rate) for clock in self.clocks])
        counts = table[numpy.maximum(numpy.searchsorted(table[:, 0], seconds, side="right") - 1, 0)]
        early: Reals = counts[:, 1] + counts[:, 2] * seconds
        return early
