"""Recordings with a true fringe: noise that all stations have in common, always or in pulses, each station's own noise, delays and clocks.

    sky = simulate.Sky((simulate.Station("Ef"), simulate.Station("Wb", delay=(4.95e-6, 1e-8), clock=(2.5e-6,))))
    simulate.simulate(sky, "day")

writes into the folder `day` a recording KEY.vdif of each station, the schedule sky.vex, the job job.txt, which takes the delays and
clocks out, and the job blind.txt, which knows nothing of them. It is the command `vlbi-simulate`.
"""
from __future__ import annotations

import contextlib
import dataclasses
import functools
import os
import re
from collections.abc import Callable, Iterator, Sequence
from fractions import Fraction
from typing import BinaryIO

import numpy
from numpy.typing import NDArray

from vlbi import job as jobs
from vlbi import quantiser
from vlbi.faults import Fault
from vlbi.vdif import Codes, Frames, Recording, reference_epoch

Reals = NDArray[numpy.float64]
Complexes = NDArray[numpy.complex128]
Bools = NDArray[numpy.bool_]

BLOCK = 1 << 16     # samples that are made at once
FINER = 4           # places between two samples at which the common noise is computed, before it is read between them
MOST_STATIONS = 32
MOST_CHANNELS = 64
MOST_LAGS = 1024
MOST_LOAD = 2 ** 28  # stations times channels times samples of an epoch
MOST_EPOCH = 1 << 20


class SkyFault(Fault):
    """A sky that cannot be simulated, or that the program `vlbi` would refuse."""


def no_progress(seconds: float) -> None:
    """Says nothing of how many seconds are made."""


@dataclasses.dataclass(frozen=True)
class Station:
    """A station: its key, and the delay and the clock's lead in seconds, each by powers of the seconds since the scan's start."""

    key: str
    delay: tuple[float, ...] = (0.0,)
    clock: tuple[float, ...] = (0.0,)

    def lead(self, seconds: Reals) -> Reals:
        """Delay and clock together in seconds; seconds and answer are arrays of float64."""
        return polynomial(self.delay, seconds) + polynomial(self.clock, seconds)


def polynomial(coefficients: tuple[float, ...], places: Reals) -> Reals:
    """The polynomial of these coefficients, that of the power 0 first, at each place."""
    total = numpy.zeros_like(places)
    for coefficient in reversed(coefficients):
        total = total * places + coefficient
    return total


@dataclasses.dataclass(frozen=True)
class Pulse:
    """A source that pulses: it is on from each whole phase on for a part of the period, as a pulsar without dispersion.

    period      seconds from a pulse to the next at the epoch
    duty        the part of a period in which it is on, 0 to 1
    epoch       the time at which the phase is 0 and a pulse begins, in seconds since 1970-01-01; None for the start of the first scan
    derivative  seconds that the period gains in each second

    Its time is that of the wave at the place against which the stations' delays are counted. `job.phase_line` says these phases to a job.
    """

    period: jobs.Number
    duty: float = 0.1
    epoch: jobs.Number | None = None
    derivative: jobs.Number = 0

    def __post_init__(self) -> None:
        check_parts(self.duty)
        jobs.phase_turns(0, self.period, self.derivative, 0)

    def turns(self, start: int, first: int) -> tuple[Fraction, ...]:
        """The phase in turns by powers of the seconds since a scan's start, where the first scan starts at the second `first`; exact."""
        return jobs.phase_turns(start, self.period, self.derivative, first if self.epoch is None else self.epoch)

    def gate(self, start: int, first: int) -> Gate:
        """The Gate of a scan that starts at a second, where the first scan starts at the second `first`."""
        turns = self.turns(start, first)
        return Gate((float(turns[0] % 1), *map(float, turns[1:])), self.duty)


class Gate:
    """When a source is on in a scan.

    turns  the coefficients of its phase in turns, by powers of the seconds since the scan's start
    duty   the part of a turn in which it is on
    """

    def __init__(self, turns: tuple[float, ...], duty: float) -> None:
        self.turns, self.duty = turns, duty

    def is_on(self, seconds: Reals) -> Bools:
        """Whether it is on at each of these seconds behind the scan's start."""
        phase = polynomial(self.turns, seconds)
        past = phase - numpy.floor(phase)
        on: Bools = numpy.where(past < 1, past, 0) < self.duty  # a phase just below 0 may be a whole turn past -1
        return on


@dataclasses.dataclass(frozen=True)
class Sky:
    """What is simulated.

    stations   the Stations
    rate       samples a second
    seconds    whole seconds of the scan, from `start`, a whole second since 1970-01-01
    channels   their number; their bands of rate / 2 hertz lie side by side, and the edge of the first is at the sky frequency `frequency`
    sideband   "U" or "L" of all channels, or a letter for each: a band goes up from its edge, or down
    common     the part of each station's power that all have in common, 0 to 1
    bits       1, 2 or 4
    apart      whether each channel has a thread of its own
    missing, invalid  the parts of the frames that are left out, and that are marked invalid
    seed       of all noise
    pulse      when the stations have noise in common; None for always
    """

    stations: tuple[Station, ...]
    rate: int = 2_000_000
    seconds: int = 10
    start: int = jobs.second_of("2010y001d00h00m00s")
    channels: int = 1
    frequency: int = 8_400_000_000
    sideband: str = "U"
    common: float = 0.1
    bits: int = 2
    apart: bool = False
    missing: float = 0.0
    invalid: float = 0.0
    seed: int = 1
    pulse: Pulse | None = None

    def __post_init__(self) -> None:
        if not self.stations or min(self.rate, self.seconds, self.channels) < 1:
            raise SkyFault("there are no stations, samples, seconds or channels")
        if len(self.stations) > MOST_STATIONS or self.channels > MOST_CHANNELS:
            raise SkyFault(f"the program takes at most {MOST_STATIONS} stations and {MOST_CHANNELS} channels")
        self.check_keys()
        if self.bits not in quantiser.BITS:
            raise SkyFault(f"a sample has 1, 2 or 4 bits, not {self.bits}")
        if not re.fullmatch("[UL]+", self.sideband) or len(self.sideband) not in (1, self.channels):
            raise SkyFault(f"sidebands are U or L, one for all channels or one for each of {self.channels}: {self.sideband}")
        check_parts(self.common, self.missing, self.invalid)
        if min(self.frequencies) < 0 or max(self.frequencies) >= 2 ** 40:
            raise SkyFault(f"a sky frequency past its range, 0 to 2^40 - 1 hertz: {min(self.frequencies)} to {max(self.frequencies)}")

    def check_keys(self) -> None:
        """SkyFault where two stations have one key, or where a key is no name of a file and no word of a job and a schedule."""
        keys = [station.key for station in self.stations]
        for number, key in enumerate(keys):
            check_key(key)
            if key in keys[:number]:
                raise SkyFault(f"two stations have the key {key}")

    @property
    def names(self) -> tuple[str, ...]:
        """The channels' names."""
        return tuple(f"CH{number:02}" for number in range(1, self.channels + 1))

    @property
    def sides(self) -> str:
        """The channels' sidebands, a letter for each."""
        return self.sideband if len(self.sideband) == self.channels else self.sideband * self.channels

    @property
    def bandwidth(self) -> int:
        """The bandwidth of a channel in hertz."""
        return self.rate // 2

    @property
    def frequencies(self) -> tuple[int, ...]:
        """The sky frequencies of the channels' edges in hertz: the lower end of a band in the upper sideband, the upper end in the lower."""
        lowest = self.frequency - (self.sides[0] == "L") * self.bandwidth
        return tuple(lowest + (number + (side == "L")) * self.bandwidth for number, side in enumerate(self.sides))

    @property
    def frames(self) -> Frames:
        """What all frames have alike."""
        return Frames(self.rate, self.channels, self.bits, self.apart)

    def model_lines(self, station: Station) -> list[str]:
        """The `clock` and the `poly` line of a station, for the job's knot."""
        drift = station.clock[1] if len(station.clock) > 1 else 0
        return [
            jobs.clock_line(station.key, self.start, station.clock[0] * 1e6, drift, self.rate),
            jobs.poly_line(station.key, self.start, station.delay, self.rate, self.knot),
        ]

    @property
    def knot(self) -> int:
        """The job's knot: the largest with which a job can hold the delays of all stations, and `phase` lines the phases of the pulse."""
        knot = jobs.largest_knot([station.delay for station in self.stations], self.rate)
        if knot is None or jobs.knot_seconds(knot, self.rate) <= self.seconds:
            raise SkyFault("no job can hold these delays over the whole scan")
        if self.pulse is None:
            return knot
        of_pulse = jobs.largest_phase_knot([self.pulse.turns(self.start, self.start)], self.rate)
        if of_pulse is None or jobs.knot_seconds(of_pulse, self.rate) <= self.seconds:
            raise SkyFault("no phase line can hold the phases of this pulse over the whole scan")
        return min(knot, of_pulse)


def check_parts(*parts: float) -> None:
    """SkyFault where one of these is no part of a whole."""
    if not all(0 <= part <= 1 for part in parts):
        raise SkyFault("a part lies between 0 and 1")


def check_key(key: str) -> None:
    """SkyFault where a station's key is no name of a file, and no word of a job and a schedule."""
    if not re.fullmatch(r"[A-Za-z0-9_][A-Za-z0-9_.+-]{0,63}", key):
        raise SkyFault(f"a station's key is made of letters, digits, _, and behind the first . + -: {key!r}")


class CommonNoise:
    """The noise that all stations have in common in one channel: a complex signal of the band 0 to rate / 2, of power 1.

    It is periodic noise of its own in each block of BLOCK samples, and defined between the samples too.
    """

    def __init__(self, seed: int, channel: int) -> None:
        self.seed = seed
        self.channel = channel
        self.block: Callable[[int], NDArray[numpy.complex64]] = functools.lru_cache(maxsize=8)(self.make_block)

    def make_block(self, number: int) -> NDArray[numpy.complex64]:
        """The signal of a block, its band moved to -rate/4 to rate/4: complex64 of FINER places a sample, and three more around."""
        # a block may come before the scan's start
        random = numpy.random.default_rng([self.seed, self.channel, number + 2 ** 32])
        half = BLOCK // 4
        spectrum = numpy.zeros(FINER * BLOCK, numpy.complex128)
        parts = random.standard_normal((2, 2 * half)) / numpy.sqrt(4 * half)
        spectrum[:half], spectrum[-half:] = numpy.split(parts[0] + 1j * parts[1], 2)
        places = numpy.fft.ifft(spectrum, norm="forward").astype(numpy.complex64)
        return numpy.concatenate([places[-1:], places, places[:2]])

    def at(self, samples: Reals) -> Complexes:
        """The signal at places in samples, float64 and rising: complex128 of the same shape."""
        numbers = numpy.floor(samples / BLOCK).astype(numpy.int64)
        return numpy.concatenate([self.inside(samples[numbers == number], number) for number in range(numbers[0], numbers[-1] + 1)])

    def inside(self, samples: Reals, number: int) -> Complexes:
        """The signal at places that lie in one block, by the cubic through the four places about each."""
        samples = samples - number * float(BLOCK)
        places = samples * FINER
        first = numpy.minimum(places.astype(numpy.int64), FINER * BLOCK - 1)
        t = (places - first).astype(numpy.float32)
        block = self.block(int(number))
        value = block[first] * (-t * (t - 1) * (t - 2) / 6)
        value += block[first + 1] * ((t + 1) * (t - 1) * (t - 2) / 2)
        value += block[first + 2] * (-(t + 1) * t * (t - 2) / 2)
        value += block[first + 3] * ((t + 1) * t * (t - 1) / 6)
        moved: Complexes = value * numpy.exp(0.5j * numpy.pi * samples)
        return moved


def wave_at(sky: Sky, station: Station, recorded: Reals) -> tuple[Reals, Reals]:
    """The place in samples of the wave that a station records at its samples, and what its clock and delay have come to by then.

    recorded  float64: numbers of recorded samples from the scan's start
    Both answers are float64 of its shape; the second is in seconds, and `rate` times it lies between the two places.
    """
    wave, lead = recorded, numpy.zeros_like(recorded)
    for _ in range(4):
        lead = station.lead(wave / sky.rate)
        wave = recorded - lead * sky.rate
    return wave, lead


def in_common(common: CommonNoise, wave: Reals, lead: Reals, hertz: int, side: str) -> Reals:
    """The part of a station's samples that it has in common with the others, of power 1, in a channel with its edge at a sky frequency.

    wave, lead  as `wave_at` says them, float64 of the shape of the answer
    """
    sign = 1 if side == "U" else -1
    turns = numpy.mod(hertz * lead, 1.0)
    seen: Reals = numpy.sqrt(2) * (common.at(wave) * numpy.exp(-2j * numpy.pi * sign * turns)).real
    return seen


def codes_of(voltage: Reals, bits: int) -> Codes:
    """The codes of samples of power 1, uint8: 0 is the most negative level."""
    return numpy.digitize(voltage, quantiser.thresholds(bits)).astype(numpy.uint8)


class Receiver:
    """A station's samples: the part that it has in common with the others, its own noise, and its levels.

    number  that of the station
    common  the part of its power that all have in common
    """

    def __init__(self, number: int, common: float, bits: int, seed: int) -> None:
        self.common, self.bits = common, bits
        self.random = numpy.random.default_rng([seed, 2 ** 21 + number - 1])

    def codes(
        self, noise: Sequence[CommonNoise], bands: Sequence[tuple[int, str]], wave: Reals, lead: Reals, on: Bools | None = None
    ) -> Codes:
        """The codes of the samples of this wave, uint8 of the shape (complete samples, channels).

        noise, bands  of each channel the noise in common, and its edge's sky frequency and sideband
        wave, lead    as `wave_at` says them
        on            whether the source is on at each sample; None where it always is. The levels stay those of the power that it then has
        """
        codes = numpy.empty((len(wave), len(bands)), numpy.uint8)
        for channel, (shared, (hertz, side)) in enumerate(zip(noise, bands)):
            seen = in_common(shared, wave, lead, hertz, side)
            if on is not None:
                seen = numpy.where(on, seen, 0.0)
            own = self.random.standard_normal(len(wave))
            codes[:, channel] = codes_of(numpy.sqrt(self.common) * seen + numpy.sqrt(1 - self.common) * own, self.bits)
        return codes


def write_recordings(sky: Sky, folder: str, progress: Callable[[float], None] = no_progress) -> None:
    """Writes the recording of each station into a folder, block by block of whole frames; `progress` is told the seconds that are made."""
    common = [CommonNoise(sky.seed, channel) for channel in range(sky.channels)]
    with contextlib.ExitStack() as stack:
        files = [stack.enter_context(open(os.path.join(folder, f"{station.key}.vdif"), "wb")) for station in sky.stations]
        write_blocks(sky, common, files, progress)


def write_blocks(sky: Sky, common: list[CommonNoise], files: Sequence[BinaryIO], progress: Callable[[float], None]) -> None:
    """Writes the recordings into these open files, with this common noise of each channel."""
    frames, bands = sky.frames, list(zip(sky.frequencies, sky.sides))
    recordings = [Recording(frames, number, file, sky.missing, sky.invalid, sky.seed) for number, file in enumerate(files, 1)]
    receivers = [Receiver(number, sky.common, sky.bits, sky.seed) for number in range(1, len(files) + 1)]
    gate = sky.pulse.gate(sky.start, sky.start) if sky.pulse else None
    for recording in recordings:
        recording.go_to(sky.start, 0)
    for first, past in blocks(frames, 0, sky.rate * sky.seconds):
        recorded = numpy.arange(first, past, dtype=numpy.float64)
        for station, recording, receiver in zip(sky.stations, recordings, receivers):
            wave, lead = wave_at(sky, station, recorded)
            recording.add(receiver.codes(common, bands, wave, lead, gate.is_on(wave / sky.rate) if gate else None))
        progress(past / sky.rate)


def blocks(frames: Frames, first: int, past: int) -> Iterator[tuple[int, int]]:
    """The first samples, and those behind the last ones, of blocks of whole frames from `first` up to `past`."""
    step = max(1, BLOCK // frames.samples) * frames.samples
    for begin in range(first, past, step):
        yield begin, min(begin + step, past)


def schedule_text(sky: Sky) -> str:
    """The VEX schedule: one scan, in which all stations observe one source in all channels."""
    channels = "".join(
        f"  chan_def = : {hertz / 1e6:.6f} MHz : {side} : {sky.bandwidth / 1e6:.6f} MHz : &{name} : &BBC{number:02} : &NoCal;\n"
        for number, (name, hertz, side) in enumerate(zip(sky.names, sky.frequencies, sky.sides), 1)
    )
    stations = "".join(f"  station = {station.key} : 0 sec : {sky.seconds} sec;\n" for station in sky.stations)
    return f"""VEX_rev = 1.5;
* Made by vlbi-simulate.
$MODE;
def M;
  ref $FREQ = F;
enddef;
$FREQ;
def F;
  sample_rate = {sky.rate / 1e6:.6f} Ms/sec;
{channels}enddef;
$SCHED;
scan No0001;
  start = {jobs.vex_time(sky.start)};
  mode = M;
{stations}endscan;
"""


def job_text(sky: Sky, lags: int, integration: int, model: bool = True, auto: bool = False) -> str:
    """The job's text; with `model` it has the delays and clocks of the stations, with `auto` the stations with themselves too."""
    lines = [*head_lines(lags, integration, len(sky.stations) * sky.channels, auto), f"knot {sky.knot}"]
    for number, station in enumerate(sky.stations, 1):
        lines += station_lines(sky.frames, number, station.key, sky.names)
        if model:
            lines += sky.model_lines(station)
    lines += [f"product {name} {name}" for name in sky.names]
    return "\n".join(lines) + "\n"


def head_lines(lags: int, integration: int, streams: int, auto: bool) -> list[str]:
    """The job's lines `lags`, `integration`, `epoch` and `auto`, for so many channels of all stations; SkyFault where the program takes no such job."""
    if lags % 2 != 0 or not 2 <= lags <= MOST_LAGS:
        raise SkyFault(f"the number of lags is even, 2 to {MOST_LAGS}: {lags}")
    if not 1 <= integration <= 2 ** 36:
        raise SkyFault(f"an integration has 1 to 2^36 samples: {integration}")
    epoch = min(integration, MOST_EPOCH, MOST_LOAD // streams)
    return [f"lags {lags}", f"integration {integration}", f"epoch {epoch}", *["auto"] * auto]


def station_lines(frames: Frames, number: int, key: str, names: Sequence[str]) -> list[str]:
    """The job's lines `station`, `file` and `chan` of a station with channels of these names, in the order in which it records them."""
    lines = [f"station {key} {number} {frames.bits} {frames.in_frame} {frames.size}", f"file {key} {key}.vdif"]
    for channel, name in enumerate(names):
        lines.append(f"chan {key} {name} {channel} 0" if frames.apart else f"chan {key} {name} 0 {channel}")
    return lines


def simulate(
    sky: Sky,
    folder: str,
    lags: int = 64,
    integration: int | None = None,
    blind_integration: int | None = None,
    auto: bool = False,
    progress: Callable[[float], None] = no_progress,
) -> list[str]:
    """Writes schedule, both jobs and recordings into a folder, which is made where it is not there; the paths of these files.

    integration        samples, of the job that takes the delays out; an eighth of a second where not said
    blind_integration  samples, of the job that does not; a 500th of a second, in which a fringe of up to 250 hertz stands
    progress           is told again and again how many seconds are made

    SkyFault, before anything is written, where the program would refuse the job.
    """
    texts = {
        "sky.vex": schedule_text(sky),
        "job.txt": job_text(sky, lags, max(sky.rate // 8, 1) if integration is None else integration, auto=auto),
        "blind.txt": job_text(sky, lags, max(sky.rate // 500, 1) if blind_integration is None else blind_integration, model=False, auto=auto),
    }
    reference_epoch(sky.start)
    os.makedirs(folder, exist_ok=True)
    for name, text in texts.items():
        with open(os.path.join(folder, name), "w") as out:
            out.write(text)
    write_recordings(sky, folder, progress)
    return [os.path.join(folder, name) for name in (*texts, *(f"{station.key}.vdif" for station in sky.stations))]
