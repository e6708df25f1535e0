"""What the correlator should find of a simulated fringe, from first principles: no number here comes from a program's output.

A station's samples are a voltage of power 1 in one of 2, 4 or 16 levels; a value is a sample times the three-level cosine and sine of a
phase; a cell is the mean of a value times the other one's conjugate. Of two voltages with the correlation r, the mean product of the
levels is the integral from 0 to r of the density of both voltages at each two thresholds, times the steps of the levels there (Price).
"""
from __future__ import annotations

import numpy
from numpy.typing import ArrayLike, NDArray

Reals = NDArray[numpy.float64]
Complexes = NDArray[numpy.complex128]

NODES, WEIGHTS = numpy.polynomial.legendre.leggauss(24)  # type: ignore[no-untyped-call]
PHASES = (numpy.arange(720) + 0.5) / 720


BEST = {1: 1.0, 2: 0.9957, 4: 0.3352}


def thresholds(bits: int, step: float | None = None) -> tuple[float, ...]:
    """The thresholds of a quantiser in standard deviations, one step from each other: at each its levels rise by 2."""
    half = 2 ** (bits - 1)
    return tuple(number * (step or BEST[bits]) for number in range(1 - half, half))


def level_product(r: ArrayLike, bits: int) -> Reals:
    """The mean product of the levels of two voltages of power 1 with the correlation r, an array of float64 in -1 to 1."""
    all_r = numpy.asarray(r, numpy.float64)
    rho = all_r[..., None] * (NODES + 1) / 2
    density = numpy.zeros(rho.shape)
    for s in thresholds(bits):
        for t in thresholds(bits):
            density += numpy.exp(-(s * s - 2 * rho * s * t + t * t) / (2 * (1 - rho ** 2))) / (2 * numpy.pi * numpy.sqrt(1 - rho ** 2))
    product: Reals = (density * WEIGHTS).sum(axis=-1) * all_r / 2 * 4
    return product


def level_power(bits: int, step: float | None = None) -> float:
    """The mean square of levels: the square of each times the probability of a voltage between its thresholds."""
    inside = [normal_between(t) for t in thresholds(bits, step) if t > 0] + [1.0]
    parts = numpy.diff([0.0, *inside])
    return float((parts * numpy.arange(1, 2 ** bits, 2) ** 2).sum())


def normal_between(t: float) -> float:
    """The probability that a voltage of power 1 lies between -t and t."""
    places = t * (NODES + 1) / 2
    return float((numpy.exp(-places ** 2 / 2) * WEIGHTS).sum() * t / 2 * 2 / numpy.sqrt(2 * numpy.pi))


def efficiency(bits: int, step: float | None = None) -> float:
    """The part of the signal to noise of two voltages of little correlation that their levels have.

    The mean of the levels' product rises with the correlation by the square of their mean slope, the sum of the density at each threshold times the
    step of the levels there; its spread without a correlation is their mean square. Of the voltages both are 1.
    """
    slope = sum(2 * numpy.exp(-t * t / 2) / numpy.sqrt(2 * numpy.pi) for t in thresholds(bits, step))
    return float(slope ** 2 / level_power(bits, step))


def best_step(bits: int) -> float:
    """The step of the thresholds at which the efficiency is greatest."""
    low, high = 0.1, 2.0
    for _ in range(60):  # it has one peak there
        third = (high - low) / 3
        if efficiency(bits, low + third) < efficiency(bits, high - third):
            low += third
        else:
            high -= third
    return low


def three_levels(turns: ArrayLike) -> Complexes:
    """The three-level cosine and sine of a phase in turns, as cosine + i sine: 1, 0 or -1 by sixteenths of a turn."""
    cosine = numpy.array([1, 1, 1, 0, 0, -1, -1, -1, -1, -1, -1, 0, 0, 1, 1, 1])
    sector = numpy.floor(numpy.asarray(turns) * 16).astype(numpy.int64)
    both: Complexes = cosine[sector % 16] + 1j * cosine[(sector + 12) % 16]
    return both


def coherence(samples: ArrayLike) -> Complexes:
    """How far band-limited noise resembles itself so many samples later: complex, of the band 0 to half the sample rate."""
    late = numpy.asarray(samples, numpy.float64)
    resemblance: Complexes = numpy.sinc(late / 2) * numpy.exp(0.5j * numpy.pi * late)
    return resemblance


def loss_of_rests(stations: int, band: float = 0.5) -> float:
    """The part of the amplitude that is lost where so many stations of a baseline, 1 or 2, have rests of a sample that run through -1/2 to 1/2.

    band  the band's width in turns a sample: 1/2 where there are no more samples than it needs
    """
    turns = band * (NODES + 1) / 2
    return float(1 - (numpy.sinc(turns) ** stations * WEIGHTS).sum() / 2)


def loss_in_each(stations: int) -> float:
    """The same where each rest is seen by itself, and the phase that it makes is turned back: by the mean of |coherence|."""
    if stations == 1:
        return float(1 - (abs(coherence((NODES + 1) / 4)) * WEIGHTS).sum() / 2)
    # a difference of two rests lies between -1 and 1, and is the rarer the larger it is
    places = (NODES + 1) / 2
    return float(1 - (abs(coherence(places)) * (1 - places) * WEIGHTS).sum())


def rotated_amplitude(common: float, residuals: Reals, bits: int, both: bool = False) -> float:
    """The amplitude at the lag nearest to a fringe that a job takes out, fast against its integrations.

    common     the part of the power that the stations have in common
    residuals  delays in samples that whole samples leave over, each as often as any other
    both       whether both stations' values turn, at rates of their own; else the first one's stand
    """
    total = 0j
    for residual in residuals:
        seen = level_product(common * (coherence(residual) * numpy.exp(2j * numpy.pi * PHASES)).real, bits)
        if both:
            first = PHASES[::15]
            turned = (three_levels(first)[:, None] * numpy.conj(three_levels(first[:, None] - PHASES))).mean(axis=0)
        else:
            turned = numpy.conj(three_levels(-PHASES))
        total += (seen * numpy.conj(turned)).mean()
    return float(abs(total)) / len(residuals)


def blind_amplitude(common: float, residuals: Reals, bits: int, turns: float) -> float:
    """The amplitude at the lag nearest to a fringe that nobody takes out, turned back at its rate.

    turns  of the fringe in one integration
    """
    total = 0j
    for residual in residuals:
        seen = level_product(common * (coherence(residual) * numpy.exp(2j * numpy.pi * PHASES)).real, bits)
        total += (seen * numpy.exp(-2j * numpy.pi * PHASES)).mean()
    return float(abs(total) / len(residuals) * numpy.sinc(turns))
