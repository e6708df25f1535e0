"""From a schedule to the delays and clocks of a job: the lines `knot`, `clock` and `poly` for each station and scan.

    parts = model.parts_of(schedule, schedule.scans, ("Ef", "Wb"))
    fits = [origin.fit(one) for part in parts for one in model.cut(part, 300, ())]
    knot = model.knot_of(fits, rate)

An origin says what the delays are: `vlbi.delay.Theory` works them out, `vlbi.im.Given` reads them from a file. A delay is in seconds, by
powers of the seconds behind its part's begin, and positive where the station gets the wave later than the centre of the earth. Its time is
that at which the wave front is at the centre: sample `n` of a scan is the wave that is there `n` samples behind the scan's start.
"""
from __future__ import annotations

import dataclasses
import fractions
import math
from collections.abc import Callable, Iterable, Iterator, Mapping, Sequence
from typing import Protocol

import numpy
from numpy.typing import NDArray

from vlbi import job as jobs
from vlbi import vex
from vlbi.faults import Fault

Reals = NDArray[numpy.float64]

GOOD = 1e-14             # seconds: a fit that is as near has terms enough
WANTED = 1e-12           # seconds: what a fit should be near
WANTED_WHOLE = 1e-11     # seconds: what whole numbers and knots may add
NODES = 16
CHECKED = 25             # places of a part at which a fit is compared
KNOTS_TRIED = 8          # places of a part at which whole numbers are compared
LEAST_ROWS = 4           # rows of a table for each part: as many as a cubic needs
CHEBYSHEV = ((1,), (0, 1), (-1, 0, 2), (0, -3, 0, 4), (1, 0, -8, 0, 8), (0, 5, 0, -20, 0, 16))  # the first six polynomials


@dataclasses.dataclass(frozen=True)
class Part:
    """A stretch of time in which a station needs a delay for one source.

    target        the name of the source's def
    begin, end    seconds since 1970-01-01, the first a whole one
    first, last   the seconds between which the station observes
    """

    key: str
    scan: str
    target: str
    source: vex.Source
    begin: int
    end: float
    first: float
    last: float

    @property
    def seconds(self) -> float:
        return self.end - self.begin

    def __str__(self) -> str:
        return f"{self.key} {self.scan} {vex.vex_time(self.begin)}"


@dataclasses.dataclass(frozen=True)
class Fit:
    """The delay of a part as a polynomial, and the greatest difference from what it stands for, in seconds."""

    part: Part
    coefficients: tuple[float, ...]
    residual: float


class Origin(Protocol):
    """Where delays are from."""

    @property
    def words(self) -> str:
        """What they are, in words."""

    @property
    def notes(self) -> Sequence[str]:
        """What is to be said of the parts so far, a line each."""

    def cuts(self, part: Part) -> Sequence[int]:
        """The seconds at which a polynomial of a part has to begin."""

    def fit(self, part: Part) -> Fit:
        """The delay of a part that has been cut there."""

    def places(self, part: Part, behind: Reals) -> tuple[Reals, Reals]:
        """The delay in seconds, and u, v, w in metres for each, so many seconds behind the part's begin."""


# Parts

def parts_of(schedule: vex.Schedule, scans: Sequence[vex.Scan], keys: Sequence[str]) -> list[Part]:
    """A Part for each station and scan, by time: from the scan's start to its end, or to where the station's next part begins."""
    made = [part for key in keys for part in of_station(schedule, scans, key)]
    return sorted(made, key=lambda part: (part.begin, keys.index(part.key)))


def of_station(schedule: vex.Schedule, scans: Sequence[vex.Scan], key: str) -> list[Part]:
    """The Parts of a station, each cut where the next one begins; Fault where it observes in two scans at once."""
    made: list[Part] = []
    for scan in sorted(scans, key=lambda scan: scan.start):
        for one in (one for one in scan.passes if one.key == key):
            first, last = (scan.start + microseconds / 10 ** 6 for microseconds in (one.begin, one.end))
            end = scan.start + max(other.end for other in scan.passes) / 10 ** 6
            begin = max([scan.start, *(math.ceil(before.last) for before in made)])
            if begin > first:
                raise Fault(f"station {key} is in the scans {made[-1].scan} and {scan.name} at once", schedule.path)
            made[-1:] = [dataclasses.replace(before, end=min(before.end, float(begin))) for before in made[-1:]]
            target = target_of(schedule, scan)
            made.append(Part(key, scan.name, target, schedule.source(target), begin, end, first, last))
    return [part for part in made if part.end > part.begin]


def target_of(schedule: vex.Schedule, scan: vex.Scan) -> str:
    """The first source of a scan, by the name of its def; Fault where it has none."""
    if not scan.sources:
        raise Fault(f"scan {scan.name} has no source", schedule.path)
    return scan.sources[0]


def all_cut(parts: Sequence[Part], longest: int, at: Callable[[Part], Iterable[int]]) -> list[Part]:
    """All parts, each cut, by time."""
    return sorted((one for part in parts for one in cut(part, longest, at(part))), key=lambda one: one.begin)


def cut(part: Part, longest: int, at: Iterable[int]) -> list[Part]:
    """The part in parts of at most so many seconds, which begin at these seconds too."""
    begins: list[int] = []
    edges = [part.begin, *sorted({second for second in at if part.begin < second < part.end}), part.end]
    for begin, end in zip(edges, edges[1:]):
        many = math.ceil((end - begin) / longest)
        begins += range(int(begin), math.ceil(end), math.ceil((end - begin) / many))
    return [dataclasses.replace(part, begin=begin, end=end) for begin, end in zip(begins, [*map(float, begins[1:]), part.end])]


# Polynomials

def fitted(part: Part, late: Callable[[Reals], Reals]) -> Fit:
    """The Fit of a delay, which is a function of the seconds behind the part's begin, by as few of six terms as come near."""
    span = max(part.seconds, 1.0)
    angles = (numpy.arange(NODES) + 0.5) * math.pi / NODES
    checked = numpy.linspace(0.0, span, CHECKED)
    values = late(numpy.concatenate([(numpy.cos(angles) + 1) / 2 * span, checked]))
    series = [float((values[:NODES] * numpy.cos(number * angles)).sum()) * (2 if number else 1) / NODES for number in range(jobs.MOST_TERMS)]
    best = Fit(part, (), math.inf)
    for terms in range(1, jobs.MOST_TERMS + 1):
        coefficients = of_seconds(of_powers(series[:terms]), span)
        residual = float(numpy.abs(polynomial(coefficients, checked) - values[NODES:]).max())
        if residual < best.residual:
            best = Fit(part, coefficients, residual)
        if residual <= GOOD:
            break
    return best


def of_powers(series: Sequence[float]) -> list[float]:
    """A series of Chebyshev polynomials by powers."""
    return [math.fsum(value * CHEBYSHEV[number][power] for number, value in enumerate(series) if power <= number) for power in range(len(series))]


def of_seconds(coefficients: Sequence[float], span: float) -> tuple[float, ...]:
    """A polynomial of -1 to 1 over a span of seconds, by powers of the seconds behind its begin."""
    def of_power(down: int) -> float:
        signed = (coefficients[power] * math.comb(power, down) * (-1.0) ** (power - down) for power in range(down, len(coefficients)))
        return float(math.fsum(signed) * (2 / span) ** down)

    return tuple(of_power(power) for power in range(len(coefficients)))


def polynomial(coefficients: Sequence[float], seconds: Reals) -> Reals:
    """The value of a polynomial at each of these seconds."""
    total = numpy.zeros_like(seconds)
    for coefficient in reversed(coefficients):
        total = total * seconds + coefficient
    return total


def knot_of(fits: Sequence[Fit], rate: int) -> int:
    """The knot of a job that holds all these polynomials; Fault where none is short enough."""
    knot = jobs.largest_knot([fit.coefficients for fit in fits], rate)
    if knot is None:
        raise Fault("a delay is past what any knot of a job can hold")
    return knot


def whole_numbers(fit: Fit, rate: int, knot: int) -> float:
    """The greatest difference in seconds of what a job makes of a polynomial, in whole numbers and by straight lines between knots."""
    counts = jobs.poly_counts(fit.coefficients, rate, knot)
    exact = [jobs.exact(coefficient) for coefficient in fit.coefficients]
    last = int(fit.part.seconds * rate) // knot
    greatest = fractions.Fraction(0)
    for number in sorted({last * place // KNOTS_TRIED for place in range(KNOTS_TRIED + 1)}):
        for sample in (number * knot, number * knot + knot // 2, number * knot + knot - 1):
            found = fractions.Fraction(jobs.poly_value(counts, knot, sample), rate * 2 ** 32)
            greatest = max(greatest, abs(found - value_at(exact, fractions.Fraction(sample, rate))))
    return float(greatest)


def value_at(coefficients: Sequence[fractions.Fraction], seconds: fractions.Fraction) -> fractions.Fraction:
    total = fractions.Fraction(0)
    for coefficient in reversed(coefficients):
        total = total * seconds + coefficient
    return total


# Clocks

def clock_seconds(schedule: vex.Schedule, key: str) -> list[int]:
    """The seconds from which on a station's clocks count."""
    return [math.floor(clock.since) for clock in schedule.clocks(key)]


def clocks_of(schedule: vex.Schedule, parts: Sequence[Part], rate: int) -> dict[str, list[str]]:
    """The `clock` lines of each station of these parts."""
    begins: dict[str, list[int]] = {}
    for part in parts:
        begins.setdefault(part.key, []).append(part.begin)
    return {key: clock_lines(schedule, key, begins[key], rate) for key in sorted(begins)}


def clock_lines(schedule: vex.Schedule, key: str, begins: Sequence[int], rate: int) -> list[str]:
    """The `clock` lines of a station, none where the schedule has no clock of it; Fault where none counts at the first of these seconds.

    begins  the seconds at which its parts begin: each has a line, since a job rounds a drift, and what that comes to grows with the time since
    """
    clocks = {math.floor(clock.since): clock for clock in schedule.clocks(key)}
    if not clocks:
        return []
    first = min(begins)
    if min(clocks) > first:
        raise Fault(f"the clock of station {key} counts from {vex.vex_time(min(clocks))} on, and its first scan is before that", schedule.path)
    lines = []
    for when in sorted({*begins, *(since for since in clocks if since > first)}):
        clock = clocks[max(since for since in clocks if since <= when)]
        early = jobs.exact(clock.early) + jobs.exact(clock.rate) * (when - jobs.exact(clock.at))
        lines.append(jobs.clock_line(key, when, str(early * 10 ** 6), clock.rate, rate))
    return lines


# Texts

def job_part(words: str, clocks: Mapping[str, Sequence[str]], fits: Sequence[Fit], rate: int, knot: int) -> str:
    """The lines of a job: its knot, and for each station its clocks, which are given, and its polynomials."""
    lines = [f"# Delays and clocks for {rate} samples a second, which stand behind the lines `station` of a job", f"# {words}", f"knot {knot}"]
    for key, own in clocks.items():
        lines += own
        lines += [jobs.poly_line(key, fit.part.begin, fit.coefficients, rate, knot) for fit in fits if fit.part.key == key]
    return "\n".join(lines) + "\n"


def table(origin: Origin, parts: Sequence[Part], step: int) -> Iterator[str]:
    """The lines of the table of delays and places: a row each `step` seconds of a part, from its begin past its end, four at least."""
    yield f"# {origin.words}"
    yield "# station source time delay(s) u(m) v(m) w(m)"
    for part in parts:
        rows = max(LEAST_ROWS, math.ceil(part.seconds / step) + 1)
        delays, places = origin.places(part, numpy.arange(rows) * float(step))
        for row in range(rows):
            u, v, w = places[row]
            yield f"{part.key} {part.target} {vex.vex_time(part.begin + row * step)} {delays[row]:.13e} {u:.4f} {v:.4f} {w:.4f}"
