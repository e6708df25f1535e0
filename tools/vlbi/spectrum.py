"""Spectra from the sums over lags of the correlator `vlbi`.

    spectrum.of_lags(scan.means(product, baseline), "U", 32)

A cell at lag `l` is the mean of the first station's value times the conjugate of the second one's, `l` samples later. A wave that comes
`d` samples later at the second station stands at lag `d`, and in the spectrum turns the phase by +2 pi times the frequency times that
delay, in either sideband.
"""
from __future__ import annotations

import fractions

import numpy
from numpy.typing import NDArray

Complexes = NDArray[numpy.complex128]


def channels(lags: int, rate: int, bandwidth: int | None = None) -> int:
    """The number of a spectrum's channels that lie in the band.

    lags       L: the spectrum has L channels of rate / L hertz, and of those the L / 2 from frequency 0 on are of real samples' one-sided band;
               the others hold its mirror image
    rate       samples a second
    bandwidth  of the band in hertz, where it may be less than half the rate: channels past it hold none of it
    """
    whole = lags // 2
    if bandwidth is None:
        return whole
    return max(1, min(whole, int(fractions.Fraction(bandwidth * lags, rate))))


def of_lags(means: Complexes, side: str, many: int) -> Complexes:
    """The channels in the band of the spectra of these lags, complex128 (.., K) from (.., L), by rising sky frequency.

    means  by rising lag from -L/2 on, along the last axis
    side   `U` or `L`: what was recorded at the frequency f is at the sky frequency F + f or F - f
    many   K, the number of channels, as `channels` says
    """
    size = means.shape[-1]
    found: Complexes = numpy.fft.ifft(numpy.fft.ifftshift(means, axes=-1), axis=-1)[..., :many] * size
    return found if side == "U" else numpy.conj(found)[..., ::-1]


def first_channel(hertz: int, side: str, many: int, width: float) -> float:
    """The sky frequency of the first of these channels, of so many hertz each, of a band with its edge at this one: the lowest."""
    return float(hertz) if side == "U" else hertz - (many - 1) * width
