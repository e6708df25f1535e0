"""The earth in space: how it is turned, how it moves about the sun, and where the bodies stand that bend the way of a wave.

    orientation = earth.of_schedule(schedule) or earth.of_tables()
    frames = earth.frames(earth.Moments(second, numpy.arange(0.0, 60.0)), orientation)

Precession and nutation are those of IAU 2006/2000A and the earth's rotation angle that of IAU 2000, by the library ERFA; so are the places
and velocities of the earth (its `epv00`), of the moon (`moon98`) and of the planets (`plan94`).
"""
from __future__ import annotations

import dataclasses
import functools
import math
import time

import erfa
import numpy
from numpy.typing import NDArray

from vlbi import vex
from vlbi.faults import Fault

Reals = NDArray[numpy.float64]

DAY = 86400.0
UNIX_DAY = 2440587.5         # the Julian day with which 1970-01-01 begins
UNIX_MJD = 40587
LEAPS_MJD = 41317            # 1972-01-01
TT_TAI = 32.184              # seconds
LIGHT = 299792458.0          # metres a second
UNIT = 149597870700.0        # metres in an astronomical unit
TURN_RATE = 2 * math.pi * 1.00273781191135448 / DAY  # radians of the earth's rotation angle in a second of UT1
MOST_UT1_UTC = 1.0           # seconds
ARC_SECOND = math.pi / 648000
POINTS = 4                   # days of a table of which a value between them is made

# the product of the constant of gravity and the mass, in m^3/s^2
EARTH_MASS = 3.986004418e14
SUN_MASS = 1.32712440041e20
MOON_MASS = 4.9028e12
PLANETS = {2: 3.24858592e14, 4: 4.282837e13, 5: 1.26712764e17, 6: 3.7940585e16, 7: 5.794548e15, 8: 6.836535e15}  # by number from the sun


@dataclasses.dataclass(frozen=True)
class Moments:
    """Moments of UTC: seconds `behind` a whole second `begin` since 1970-01-01."""

    begin: int
    behind: Reals

    @property
    def midnight(self) -> float:
        """The Julian day with which the day of `begin` begins."""
        return UNIX_DAY + self.begin // 86400

    @property
    def utc(self) -> Reals:
        """Days behind that midnight."""
        passed: Reals = (self.begin % 86400 + self.behind) / DAY
        return passed

    @property
    def tt(self) -> Reals:
        """The same in terrestrial time."""
        return self.utc + (self.tai_utc + TT_TAI) / DAY

    @property
    def tai_utc(self) -> float:
        """Seconds by which TAI is ahead at `begin`, from ERFA's table of leap seconds."""
        return tai_utc(self.begin)

    @property
    def mjd(self) -> Reals:
        """Modified Julian days."""
        return self.begin // 86400 + UNIX_MJD + self.utc


def tai_utc(second: int) -> float:
    """Seconds by which TAI is ahead of UTC at a second since 1970-01-01; Fault before 1972."""
    day = second // 86400 + UNIX_MJD
    if day < LEAPS_MJD:
        raise Fault(f"the year {time.gmtime(second)[0]} is before the leap seconds")
    return float(leaps(numpy.array([day]))[0])


def leaps(days: Reals) -> Reals:
    """The same at modified Julian days."""
    table = erfa.leap_seconds.get()
    begins = erfa.cal2jd(table["year"], table["month"], 1)[1]
    found: Reals = table["tai_utc"][numpy.searchsorted(begins, days, side="right") - 1]
    return found


# Orientation

@dataclasses.dataclass(frozen=True)
class Orientation:
    """How the earth is turned on some days, and between them.

    origin   where it is from, in words
    days     modified Julian days, rising
    ut1_tai  seconds
    pole     x and y of the pole in radians, for each day
    shift    what is added to the celestial pole's X and Y of the model in radians, for each day
    """

    origin: str
    days: Reals
    ut1_tai: Reals
    pole: Reals
    shift: Reals

    def at(self, moments: Moments) -> tuple[Reals, Reals, Reals]:
        """UT1-UTC in seconds, the pole and the shift at these moments; Fault where the days do not reach, or UT1-UTC is above a second."""
        when = moments.mjd
        if when.min() < self.days[0] or when.max() > self.days[-1]:
            raise Fault(f"the earth orientation {self.origin} goes from MJD {self.days[0]:g} to {self.days[-1]:g}, which lacks {when.max():.2f}")
        ut1_utc = between(self.days, self.ut1_tai, when) + moments.tai_utc
        if numpy.abs(ut1_utc).max() > MOST_UT1_UTC:
            raise Fault(f"by the earth orientation {self.origin} UT1-UTC is {ut1_utc[0]:.3f} seconds: are UT1-UTC and TAI-UTC right?")
        return ut1_utc, between(self.days, self.pole, when), between(self.days, self.shift, when)


def between(days: Reals, values: Reals, when: Reals) -> Reals:
    """The values of some days at these moments: by the polynomial through the four days about each, or through all where they are fewer."""
    many = min(POINTS, len(days))
    first = numpy.clip(numpy.searchsorted(days, when, side="right") - many // 2, 0, len(days) - many)
    about = days[first[:, None] + numpy.arange(many)]
    total = numpy.zeros((len(when), *values.shape[1:]))
    for one in range(many):
        others = [other for other in range(many) if other != one]
        weight = numpy.ones(len(when))
        for other in others:
            weight = weight * (when - about[:, other]) / (about[:, one] - about[:, other])
        total += (weight * values[first + one].T).T
    return total


def of_schedule(schedule: vex.Schedule) -> Orientation | None:
    """The Orientation that the block `$EOP` of a schedule states; None where it states none."""
    found = schedule.earth_orientation
    if not found:
        return None
    return Orientation(
        f"of $EOP in {schedule.path}" if schedule.path else "of $EOP",
        numpy.array([one.day for one in found]),
        numpy.array([one.ut1_utc - one.tai_utc for one in found]),
        numpy.array([(one.pole_x, one.pole_y) for one in found]),
        numpy.zeros((len(found), 2)),
    )


def of_tables() -> Orientation:
    """The Orientation of the tables of the IERS that come with astropy; nothing is fetched."""
    import astropy
    from astropy.utils import iers

    with iers.conf.set_temp("auto_download", False):
        table = iers.IERS_Auto.open()
    columns = {
        name: numpy.array(getattr(table[name], "unmasked", table[name]).to_value(unit), numpy.float64) for name, unit in IERS_UNITS.items()
    }
    known = numpy.all([numpy.isfinite(columns[name]) for name in ("MJD", "UT1_UTC", "PM_x", "PM_y")], axis=0) & (columns["MJD"] > FIRST_MJD)
    columns = {name: numpy.nan_to_num(values[known]) for name, values in columns.items()}
    return Orientation(
        f"of the IERS in astropy {astropy.__version__}",
        columns["MJD"],
        columns["UT1_UTC"] - leaps(columns["MJD"]),
        numpy.stack([columns["PM_x"], columns["PM_y"]], axis=1),
        numpy.stack([columns["dX_2000A"], columns["dY_2000A"]], axis=1),
    )


FIRST_MJD = 44239  # 1980: what is before it is not read
IERS_UNITS = {"MJD": "d", "UT1_UTC": "s", "PM_x": "rad", "PM_y": "rad", "dX_2000A": "rad", "dY_2000A": "rad"}


# Frames

@dataclasses.dataclass(frozen=True)
class Body:
    """A body: its mass times the constant of gravity, and its barycentric position and velocity at each moment, in metres and seconds."""

    mass: float
    position: Reals
    velocity: Reals


@dataclasses.dataclass(frozen=True)
class Frames:
    """What the earth and the bodies do at some moments, in metres and seconds; celestial axes are those of the GCRS, which are those of J2000.

    celestial           takes earth-fixed to celestial axes: a matrix for each moment
    axis                the celestial pole, about which the earth turns
    position, velocity  of the earth, against the barycentre
    bodies              all but the earth
    """

    celestial: Reals
    axis: Reals
    position: Reals
    velocity: Reals
    bodies: tuple[Body, ...]

    def turned(self, place: Reals) -> Reals:
        """An earth-fixed vector in celestial axes, at each moment."""
        found: Reals = self.celestial @ place
        return found

    def moved(self, place: Reals) -> Reals:
        """The velocity of these celestial vectors, which turn with the earth."""
        return TURN_RATE * numpy.cross(self.axis, place)

    @functools.cached_property
    def potential(self) -> Reals:
        """The potential of all bodies but the earth at its centre, in m^2/s^2."""
        found: Reals = numpy.sum([body.mass / length(body.position - self.position) for body in self.bodies], axis=0)
        return found


def length(vectors: Reals) -> Reals:
    """The length of each vector."""
    found: Reals = numpy.sqrt(numpy.sum(vectors * vectors, axis=-1))
    return found


def frames(moments: Moments, orientation: Orientation) -> Frames:
    """The Frames of these moments."""
    ut1_utc, pole, shift = orientation.at(moments)
    day, tt = moments.midnight, moments.tt
    x, y, s = erfa.xys06a(day, tt)
    inner = erfa.c2ixys(x + shift[:, 0], y + shift[:, 1], s)
    angle = erfa.era00(day, moments.utc + ut1_utc / DAY)
    to_earth = erfa.c2tcio(inner, angle, erfa.pom00(pole[:, 0], pole[:, 1], erfa.sp00(day, tt)))
    about_sun, about_barycentre = erfa.epv00(day, tt)
    position, velocity = metres(about_barycentre)
    return Frames(numpy.swapaxes(to_earth, -1, -2), inner[:, 2, :], position, velocity, bodies(day, tt, position, velocity, metres(about_sun)))


def bodies(day: float, tt: Reals, position: Reals, velocity: Reals, about_sun: tuple[Reals, Reals]) -> tuple[Body, ...]:
    """The sun, the moon and the planets, from the earth's barycentric place and velocity and those about the sun."""
    sun = Body(SUN_MASS, position - about_sun[0], velocity - about_sun[1])
    made = [sun]
    for mass, origin, found in [
        (MOON_MASS, (position, velocity), metres(erfa.moon98(day, tt))),
        *((mass, (sun.position, sun.velocity), metres(erfa.plan94(day, tt, number))) for number, mass in PLANETS.items()),
    ]:
        made.append(Body(mass, origin[0] + found[0], origin[1] + found[1]))
    return tuple(made)


def metres(found: NDArray[numpy.void]) -> tuple[Reals, Reals]:
    """Place and velocity as ERFA has them, in metres and seconds."""
    return found["p"] * UNIT, found["v"] * (UNIT / DAY)
