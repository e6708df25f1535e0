"""What whole delays and the three-level fringe rotation of the correlator `vlbi` leave of a correlation, by the delays that a job takes out.

    delays = rotation.Delays(job.job_lines(text), rate)
    late = delays.samples("Wb", scan.start, edges)
    rotation.gain(late * (hertz / rate))
    rotation.rests(late, numpy.arange(32) / 64)

A station's value is its sample times a cosine and a sine of three levels. Of that product the part counts which turns as the fringe does.
The sample is the one at the nearest whole delay, which is up to half a sample early or late.
"""
from __future__ import annotations

from collections.abc import Callable

import numpy
from numpy.typing import NDArray

from vlbi import job as jobs
from vlbi import vex

Reals = NDArray[numpy.float64]
Complexes = NDArray[numpy.complex128]
Entry = tuple[int, list[int]]  # a second since 1970-01-01 and the numbers of its line

SECTORS = 16
COSINE = numpy.array([1, 1, 1, 0, 0, -1, -1, -1, -1, -1, -1, 0, 0, 1, 1, 1], numpy.float64)
LEVELS: Complexes = COSINE + 1j * COSINE[(numpy.arange(SECTORS) + 12) % SECTORS]
SQUARES: Reals = LEVELS.real ** 2 + LEVELS.imag ** 2
STANDS = 1e-6  # turns below which a fringe does not turn


class Delays:
    """The delays of a job's stations, with their clocks, as its `poly` and `clock` lines say.

    lines  the job's lines, as `job.job_lines` gives them
    rate   samples a second
    """

    def __init__(self, lines: dict[str, list[list[str]]], rate: int) -> None:
        self.rate = rate
        self.knot = jobs.only_number(lines, "knot") if "knot" in lines else jobs.KNOT
        self.polys = entries(lines, "poly")
        self.clocks = entries(lines, "clock")

    def samples(self, key: str, start: int, edges: Reals) -> Reals:
        """A station's delay in samples, float64 (N, 2), at the begin and the end of stretches in which one polynomial is in force.

        start  a second since 1970-01-01
        edges  float64 (N, 2): begins and ends of the stretches, in seconds behind `start`
        """
        polys = self.polys.get(key) or [(start, [0])]
        middles = edges.mean(axis=1)
        number = numpy.searchsorted([when - start for when, _ in polys], middles, side="right") - 1
        found = numpy.zeros(edges.shape)
        for one in numpy.unique(number):
            when, coefficients = polys[max(int(one), 0)]
            here = number == one
            found[here] = self.of_entry(key, when, coefficients, edges[here] + (start - when))
        return found / 2 ** 32

    def of_entry(self, key: str, when: int, coefficients: list[int], seconds: Reals) -> Reals:
        """A polynomial and the clock that is in force at its second, in 2^-32 sample, so many seconds behind it."""
        places = seconds * (self.rate / (self.knot * jobs.KNOTS))
        total: Reals = numpy.zeros_like(seconds)
        for coefficient in reversed(coefficients):
            total = total * places + float(coefficient)
        since, (offset, drift) = max((one for one in self.clocks.get(key, []) if one[0] <= when), default=(when, [0, 0]))
        clock: Reals = float(offset) + float(drift) * (seconds + float(when - since))
        return total + clock


def entries(lines: dict[str, list[list[str]]], word: str) -> dict[str, list[Entry]]:
    """The `poly` or `clock` lines of each station, by rising time."""
    found: dict[str, list[Entry]] = {}
    for fields in lines.get(word, []):
        found.setdefault(fields[0], []).append((vex.second_of(fields[1]), [jobs.whole(one) for one in fields[2:]]))
    return {key: sorted(rows) for key, rows in found.items()}


def stretches(begins: Reals, ends: Reals, many: int) -> Reals:
    """Each of these times in so many equal stretches: float64 (N * many, 2) of their begins and ends."""
    places = begins[:, None] + (ends - begins)[:, None] * (numpy.arange(many + 1) / many)
    found: Reals = numpy.stack([places[:, :-1], places[:, 1:]], axis=-1).reshape(-1, 2)
    return found


def gain(turns: Reals) -> Complexes:
    """The mean of the rotation, turned back by the exact fringe: complex128 (N,), about 1.176 where the fringe turns fast.

    turns  float64 (N, 2): the fringe in turns at the begin and the end of each stretch, between which it turns evenly
    """
    return mean_over(turns, fringe_integral, turned_back)


def turned_back(places: Reals) -> Complexes:
    """The rotation at each place in turns, turned back by the exact fringe."""
    found: Complexes = LEVELS[sector(places)] * numpy.exp(-2j * numpy.pi * places)
    return found


def power(turns: Reals) -> Reals:
    """The mean square of the rotation, 1.5 where the fringe turns fast: float64 (N,)."""
    squares = mean_over(turns, power_integral, lambda places: SQUARES[sector(places)] + 0j)
    return squares.real


def rests(late: Reals, places: Reals) -> Complexes:
    """What whole delays leave at these places in the recorded band: complex128 (N, K), the mean turn of a wave that is up to half a sample early.

    late    float64 (N, 2): the delay in samples at the begin and the end of each stretch, between which it changes evenly
    places  float64 (K,) or (N, K): frequencies in turns a sample
    """
    def value(delays: Reals) -> Complexes:
        found: Complexes = numpy.exp(-2j * numpy.pi * places * (delays - numpy.floor(delays + 0.5))[..., None])
        return found

    def integral(delays: Reals) -> Complexes:
        whole = numpy.floor(delays + 0.5)
        rest = (delays - whole)[..., None]
        # from -1/2 to the rest, of exp(-2 pi i places x)
        middle, half = (rest - 0.5) / 2, (rest + 0.5) / 2
        found: Complexes = whole[..., None] * numpy.sinc(places) + 2 * half * numpy.sinc(2 * half * places) * numpy.exp(-2j * numpy.pi * places * middle)
        return found

    return mean_over(late, integral, value)


def mean_over(turns: Reals, integral: Callable[[Reals], Complexes], value: Callable[[Reals], Complexes]) -> Complexes:
    """The mean of a function of period 1 over each stretch, by its integral; its value where the stretch has no length."""
    begins = turns[:, 0] - numpy.floor(turns[:, 0])
    change = turns[:, 1] - turns[:, 0]
    stands = abs(change) < STANDS
    moved, held = integral(begins + change) - integral(begins), value(begins)
    further = (1,) * (held.ndim - 1)  # a function may have more than one value at a place
    found: Complexes = numpy.where(stands.reshape(-1, *further), held, moved / numpy.where(stands, 1, change).reshape(-1, *further))
    return found


def sector(places: Reals) -> NDArray[numpy.int64]:
    """The sector of each place in turns, 0 to 15."""
    found: NDArray[numpy.int64] = numpy.floor(places * SECTORS).astype(numpy.int64) % SECTORS
    return found


def fringe_integral(places: Reals) -> Complexes:
    """The integral of the rotation, turned back by the exact fringe, from 0 up to each place in turns."""
    edges = numpy.exp(-2j * numpy.pi * numpy.arange(SECTORS + 1) / SECTORS) / (2j * numpy.pi)
    whole = numpy.concatenate([[0], numpy.cumsum(LEVELS * (edges[:-1] - edges[1:]))])
    here = sector(places)
    inside = LEVELS[here] * (edges[here] - numpy.exp(-2j * numpy.pi * places) / (2j * numpy.pi))
    found: Complexes = numpy.floor(places) * whole[SECTORS] + whole[here] + inside
    return found


def power_integral(places: Reals) -> Complexes:
    """The integral of the rotation's square from 0 up to each place in turns."""
    whole = numpy.concatenate([[0], numpy.cumsum(SQUARES)]) / SECTORS
    here = sector(places)
    rest = places - numpy.floor(places) - here / SECTORS
    found: Complexes = numpy.floor(places) * whole[SECTORS] + whole[here] + SQUARES[here] * rest + 0j
    return found
