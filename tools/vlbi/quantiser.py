"""Levels of samples: their thresholds, and what they leave of a correlation.

    codes = numpy.digitize(voltage, quantiser.thresholds(4))
    correlation = mean / quantiser.gain(4) ** 2

A voltage of power 1 with noise of a normal law is one of 2, 4 or 16 levels -1, 1 or -3 .. 3 or -15 .. 15, each 2 above the one before. The
thresholds between them lie side by side at one step, in standard deviations; that of one bit lies at 0.
"""
from __future__ import annotations

import math

BITS = (1, 2, 4)
BEST = {1: 0.0, 2: 0.9957, 4: 0.3352}  # the steps of the greatest signal to noise, of which one bit has none


def thresholds(bits: int) -> tuple[float, ...]:
    """The thresholds of the greatest signal to noise, rising."""
    return tuple(number * BEST[bits] for number in range(1 - 2 ** (bits - 1), 2 ** (bits - 1)))


def gain(bits: int, step: float | None = None) -> float:
    """The mean slope of levels against the voltage, at the best step where none is said.

    The mean product of two stations' levels is the product of both gains times their correlation, where that is weak.
    """
    step = BEST[bits] if step is None else step
    slopes = sum(math.exp(-(number * step) ** 2 / 2) for number in range(1, 2 ** (bits - 1)))
    return (1 + 2 * slopes) * 2 / math.sqrt(2 * math.pi)


def power(bits: int, step: float | None = None) -> float:
    """The mean square of levels, at the best step where none is said: it grows by 8k at the k-th threshold to either side."""
    step = BEST[bits] if step is None else step
    return 1 + sum(8 * number * past(number * step) for number in range(1, 2 ** (bits - 1)))


def efficiency(bits: int, step: float | None = None) -> float:
    """The part of a weak correlation's signal to noise that levels leave: that of their product over the root mean squares, to the voltages'."""
    return gain(bits, step) ** 2 / power(bits, step)


def past(threshold: float) -> float:
    """The part of the samples further than a threshold from 0."""
    return math.erfc(threshold / math.sqrt(2))


def step_of(bits: int, square: float) -> float:
    """The step at which the levels of two or four bits have this mean square; the best one where none has it."""
    if not 1 < square < (2 ** bits - 1) ** 2:
        return BEST[bits]
    low, high = 0.0, 40.0  # the mean square falls as the step grows
    for _ in range(100):
        middle = (low + high) / 2
        low, high = (middle, high) if power(bits, middle) > square else (low, middle)
    return low


def outer_part(bits: int, square: float) -> float:
    """The part of two or four bits' samples at the outer levels, where the levels have this mean square."""
    if not 1 < square < (2 ** bits - 1) ** 2:
        return float(square > 1)
    return past((2 ** (bits - 1) - 1) * step_of(bits, square))
