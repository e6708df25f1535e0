"""The dry atmosphere: by how much it makes a wave late at a station.

The delay at the zenith is Saastamoinen's (IERS Conventions 2010, 9.4), with the pressure of the standard atmosphere at the station's height;
the mapping to an elevation is Niell's of 1996, by latitude, height and day of the year. Water is left out: some 0.1 m at the zenith.
"""
from __future__ import annotations

import math

import numpy
from numpy.typing import NDArray

Reals = NDArray[numpy.float64]

LIGHT = 299792458.0
LOWEST = math.radians(1.0)  # the elevation at which the delay of all lower ones is held

# Niell's table 3: for the latitudes 15, 30, 45, 60 and 75 degrees a, b and c, and how far the seasons take them
LATITUDES = numpy.radians([15.0, 30.0, 45.0, 60.0, 75.0])
MEANS = numpy.array([
    [1.2769934e-3, 1.2683230e-3, 1.2465397e-3, 1.2196049e-3, 1.2045996e-3],
    [2.9153695e-3, 2.9152299e-3, 2.9288445e-3, 2.9022565e-3, 2.9024912e-3],
    [62.610505e-3, 62.837393e-3, 63.721774e-3, 63.824265e-3, 64.258455e-3],
])
SEASONS = numpy.array([
    [0.0, 1.2709626e-5, 2.6523662e-5, 3.4000452e-5, 4.1202191e-5],
    [0.0, 2.1414979e-5, 3.0160779e-5, 7.2562722e-5, 11.723375e-5],
    [0.0, 9.0128400e-5, 4.3497037e-5, 84.795348e-5, 170.37206e-5],
])
HEIGHT = (2.53e-5, 5.49e-3, 1.14e-3)
COLDEST = 28.0  # day of the year, in the north


def pressure(height: float) -> float:
    """The pressure of the standard atmosphere in hectopascals, at a height in metres."""
    return float(1013.25 * (1 - 2.25577e-5 * height) ** 5.25588)


def zenith(hectopascals: float, latitude: float, height: float) -> float:
    """Saastamoinen's delay at the zenith in metres; latitude in radians, height in metres."""
    return 0.0022768 * hectopascals / (1 - 0.00266 * math.cos(2 * latitude) - 0.28e-6 * height)


def fraction(sine: Reals, a: float, b: float, c: float) -> Reals:
    """Marini's continued fraction at the sine of an elevation, 1 at the zenith."""
    top = 1 + a / (1 + b / (1 + c))
    found: Reals = top / (sine + a / (sine + b / (sine + c)))
    return found


def mapping(sine: Reals, latitude: float, height: float, day: float) -> Reals:
    """Niell's dry mapping at the sine of an elevation: latitude in radians, height in metres, the day of the year."""
    phase = (day - COLDEST) / 365.25 + (0.5 if latitude < 0 else 0.0)
    season = math.cos(2 * math.pi * phase)
    a, b, c = (
        float(numpy.interp(abs(latitude), LATITUDES, mean) - numpy.interp(abs(latitude), LATITUDES, swing) * season)
        for mean, swing in zip(MEANS, SEASONS)
    )
    return fraction(sine, a, b, c) + (1 / sine - fraction(sine, *HEIGHT)) * (height / 1000)


def delay(sine: Reals, latitude: float, height: float, day: float) -> Reals:
    """The dry delay in seconds; below one degree it is that of one degree."""
    held = numpy.maximum(sine, math.sin(LOWEST))
    found: Reals = zenith(pressure(height), latitude, height) / LIGHT * mapping(held, latitude, height, day)
    return found
