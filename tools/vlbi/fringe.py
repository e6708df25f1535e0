"""The fringe of a baseline and product in the records of the correlator `vlbi`: its lag, residual rate and signal to noise.

    found = fringe.of(scan, product, baseline)

A positive lag says that the second station got the wave later, or its clock is further ahead, than the job says. The phase of a
cell turns by the sky frequency times the rate at which that grows (upper sideband; the other way in the lower one).
"""
from __future__ import annotations

import dataclasses

import numpy
from numpy.typing import NDArray

from vlbi.records import Scan

Reals = NDArray[numpy.float64]
Complexes = NDArray[numpy.complex128]

PADDING = 4           # rates for one that the scan's length tells apart
MOST_CELLS = 1 << 24  # cells of a map up to which it has them
FEW = 64              # cells of a map of which no noise can be told
NEAR = 4              # lags to either side of a peak in which its band is seen


@dataclasses.dataclass(frozen=True, eq=False)
class Fringe:
    """The map of lag against residual rate, and its peak.

    lags       float64 (L,): the lags in samples
    rates      float64 (K,): residual rates in hertz, rising through 0
    map        float64 (K, L): the amplitude of the mean product of levels, its phase turned back at each rate
    lag        the peak's lag in samples, between lags by a parabola
    rate       the peak's residual rate in hertz, between rates by a parabola
    amplitude  the mean product at the nearest lag, its phase turned back at this rate
    phase      its phase in degrees, at the middle of the scan
    noise      the standard deviation of the noise's real part, by the map's median; NaN where the map has few cells
    """

    lags: Reals = dataclasses.field(repr=False)
    rates: Reals = dataclasses.field(repr=False)
    map: Reals = dataclasses.field(repr=False)
    lag: float
    rate: float
    amplitude: float
    phase: float
    noise: float

    @property
    def snr(self) -> float:
        """The peak's amplitude over the standard deviation of the noise's real part; NaN where the noise is not known."""
        return self.amplitude / self.noise if self.noise > 0 else float("nan")

    @property
    def nearest(self) -> int:
        """The number of the lag, from 0, that is nearest to the peak."""
        return int(numpy.abs(self.lags - self.lag).argmin())


def of(scan: Scan, product: int, baseline: int) -> Fringe:
    """The Fringe of a product and a baseline, numbers from 0, of a Scan of a record file; all NaN where it has no pair."""
    cells = scan.cells[:, product, baseline]
    sums = cells["re"] + 1j * cells["im"]
    pairs = numpy.maximum(cells["count"].sum(axis=0, dtype=numpy.float64), 1)
    step = scan.head.integration / scan.head.rate
    turned, rates = transform(sums, step)
    heights = numpy.abs(turned) / pairs
    lags = scan.head.lag_numbers.astype(numpy.float64)
    nan = float("nan")
    if not has_pairs(scan, product, baseline):
        return Fringe(lags, rates, heights, nan, nan, nan, nan, nan)
    k, l = divmod(int(heights.argmax()), heights.shape[1])
    lag = lags[l] + vertex(heights[k], l)
    rate = rates[k] + vertex(heights[:, l], k, around=True) * (rates[1] - rates[0] if len(rates) > 1 else 0.0)
    mean = (sums[:, l] * back(scan.times, rate)).sum() / pairs[l]
    noise = numpy.median(heights) / numpy.sqrt(2 * numpy.log(2)) if sums.size >= FEW else nan
    return Fringe(lags, rates, heights, float(lag), float(rate), float(abs(mean)), float(numpy.angle(mean, deg=True)), float(noise))


def has_pairs(scan: Scan, product: int, baseline: int) -> bool:
    """Whether any cell of a product and a baseline has a pair."""
    return bool(scan.cells["count"][:, product, baseline].any())


def back(times: Reals, rate: float) -> Complexes:
    """The factors that turn a phase back at a rate in hertz, about the middle of these times in seconds: complex128 of their shape."""
    factors: Complexes = numpy.exp(-2j * numpy.pi * rate * (times - times.mean()))
    return factors


def is_mirrored(scan: Scan, product: int, baseline: int, rate: float) -> bool:
    """Whether the fringe at a residual rate in hertz is the mirror image of the one in the band.

    Samples are real, so each fringe is there twice, turning either way about what the job takes out, the two of one amplitude where an
    integration holds no turn of what lies between them. In the band the phase falls from lag to lag, in the mirror image it rises.
    """
    cells = scan.cells[:, product, baseline]
    turned = ((cells["re"] + 1j * cells["im"]) * back(scan.times, rate)[:, None]).sum(axis=0)
    peak = int(numpy.abs(turned).argmax())
    near = turned[max(0, peak - NEAR):peak + NEAR + 1]
    return bool((near[1:] * near[:-1].conj()).sum().imag > 0)


def power(scan: Scan, station: int, channel: str) -> float:
    """The mean square of a station's values in a channel, over a scan; NaN where the station was not correlated with itself.

    station  its number from 0
    channel  its name
    """
    if (station, station) not in scan.baselines or (channel, channel) not in scan.head.products:
        return float("nan")
    product = scan.head.products.index((channel, channel))
    cells = scan.cells[:, product, scan.baselines.index((station, station)), scan.head.lags // 2]
    pairs = cells["count"].sum(dtype=numpy.float64)
    return float(cells["re"].sum(dtype=numpy.float64) / pairs) if pairs > 0 else float("nan")


def transform(sums: Complexes, step: float) -> tuple[Complexes, Reals]:
    """The sums over the integrations turned back at each rate, complex128 (K, L), and the rates in hertz, float64 (K,).

    sums  complex128 (M, L), one integration each `step` seconds; one integration has the one rate 0
    """
    count = len(sums)
    if count <= 1:
        return sums.copy(), numpy.zeros(count)
    places = count * (PADDING if sums.size * PADDING <= MOST_CELLS else 1)
    turned = numpy.fft.fft(sums, places, axis=0)
    rates = numpy.fft.fftfreq(places, step)
    return numpy.fft.fftshift(turned, axes=0), numpy.fft.fftshift(rates)


def vertex(heights: Reals, at: int, around: bool = False) -> float:
    """How far the top of the parabola over a highest place and its two neighbours is from that place, -0.5 to 0.5.

    around  whether the last place is a neighbour of the first; else a place at the end is its own top
    """
    if len(heights) < 3 or not around and not 0 < at < len(heights) - 1:
        return 0.0
    before, top, behind = heights[at - 1], heights[at], heights[(at + 1) % len(heights)]
    bend = before - 2 * top + behind
    return float((before - behind) / (2 * bend)) if bend < 0 else 0.0
