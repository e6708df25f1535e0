"""When a wave front that a telescope receives is at the centre of the earth: the equation of the front, solved as it stands.

    front = wavefront.Front(schedule, "Ef", schedule.source("3C84"), start)
    late = front.late(numpy.arange(0.0, 60.0))

The recordings that `vlbi-simulate --sky` makes stand on it. It has nothing in common with the delays of a job (`vlbi.delay`) but the reader
of schedules, so that one tells of the other's faults. There a formula says the delay at the moment at which the front is at the centre; here
a telescope's place and time are taken to the barycentre, where the front is a plane that both meet, and the moment is the telescope's. The
earth turns by its equinox and the sidereal time, sun and earth retard the wave, an axis that is off moves the telescope, and air weighs.
"""
from __future__ import annotations

import functools
import math
import warnings

import erfa
import numpy
from astropy import units
from astropy.coordinates import EarthLocation, get_body_barycentric, get_body_barycentric_posvel
from astropy.time import Time, TimeDelta
from astropy.utils import iers
from numpy.polynomial import Chebyshev, Polynomial
from numpy.typing import NDArray

from vlbi import vex
from vlbi.faults import Fault

with warnings.catch_warnings():
    # a list of leap seconds that is past its day, read at its first use: the library ERFA has one of its own
    warnings.simplefilter("ignore", iers.IERSStaleWarning)
    Time(0.0, format="unix").tai

Reals = NDArray[numpy.float64]

C = 299792458.0
SUN = 1.32712440041e20     # the constant of gravity times the mass, m^3/s^2
EARTH = 3.986004418e14
RADIUS = 6378136.6         # metres: where the earth's retardation of its centre is counted from
NEAR = 4                   # days of a schedule's earth orientation through which a curve goes
PIECE = 16.0               # seconds of one polynomial
DEGREE = 6
AIR_GAS = 287.05           # joules a kilogram and kelvin
REFRACTION = 77.604e-8     # kelvins a pascal: how much dry air slows the wave
HALF_HEIGHT = 7300.0       # metres above the telescope at which the weight of its air is


class Front:
    """The wave of a source, as one telescope of a schedule meets it.

    start  the second since 1970-01-01 from which seconds are counted
    air    whether the dry atmosphere is there
    """

    def __init__(self, schedule: vex.Schedule, key: str, source: vex.Source, start: int, air: bool = True) -> None:
        if source.frame not in ("J2000", "ICRF", "ICRS"):
            raise Fault(f"source {source.name} is in the frame {source.frame}, not in J2000", schedule.path)
        self.schedule, self.start, self.air = schedule, start, air
        self.to: Reals = erfa.s2c(source.right_ascension, source.declination)
        self.place = place_of(schedule.site(key), start)
        self.ground = Ground(self.place)
        mount = schedule.antenna(key)
        self.offset, self.axis = mount.offset, self.ground.axis(mount.axes)
        self.piece = functools.lru_cache(maxsize=8)(self.make_piece)

    def late(self, seconds: Reals) -> Reals:
        """How much later than the centre of the earth the telescope meets the front, in seconds, for fronts that it meets at these rising moments."""
        numbers = numpy.floor(seconds / PIECE)
        return numpy.concatenate([self.piece(number)(seconds[numbers == number]) for number in numpy.unique(numbers)])

    def make_piece(self, number: float) -> Chebyshev:
        """The polynomial of one stretch of PIECE seconds."""
        made: Chebyshev = Chebyshev.interpolate(self.exact, DEGREE, domain=[number * PIECE, (number + 1) * PIECE])  # type: ignore[no-untyped-call]
        return made

    def exact(self, seconds: Reals) -> Reals:
        """The same at each moment by itself."""
        time = Time(self.start, format="unix") + TimeDelta(seconds, format="sec")
        earth, velocity = get_body_barycentric_posvel("earth", time, ephemeris="builtin")
        beta = velocity.xyz.to_value(units.m / units.s).T / C
        from_sun = (earth - get_body_barycentric("sun", time, ephemeris="builtin")).xyz.to_value(units.m).T
        to_earth = turned(time, *orientation(self.schedule, time))
        apparent = numpy.einsum("nij,nj->ni", to_earth, unit(self.to + beta))
        received = numpy.einsum("nji,nj->ni", to_earth, self.place + self.lean(apparent))
        met = meeting(self.to, received, beta, from_sun)
        return met + self.ground.air(apparent @ self.ground.up) / C if self.air else met

    def lean(self, apparent: Reals) -> Reals:
        """Where an axis that is off takes the telescope from its place, for each direction: to the source's side, across the axis that stands."""
        across = apparent - (apparent @ self.axis)[:, None] * self.axis
        return self.offset * unit(across) if self.offset else numpy.zeros_like(apparent)


def meeting(to: Reals, received: Reals, beta: Reals, from_sun: Reals) -> Reals:
    """How much later than the earth's centre a point meets a plane wave, in seconds of the earth's time, at each moment of the point.

    to        the unit vector to the source
    received  the point against the earth's centre, in celestial axes and the earth's metres
    beta      the earth's velocity in parts of that of light
    from_sun  the earth's centre against the sun
    """
    distance = norm(from_sun)
    well = SUN / (distance * C * C)
    # the point by the clock and the rods of the barycentre
    ahead = numpy.sum(beta * received, axis=1)
    there = received * (1 - well)[:, None] + beta * ahead[:, None] / 2
    station = from_sun + there
    retarded = 2 * SUN / C ** 3 * numpy.log((distance + from_sun @ to) / (norm(station) + station @ to))
    retarded += 2 * EARTH / C ** 3 * numpy.log(RADIUS / (norm(received) + received @ to))
    # the front passes the centre as much later as the point lies nearer, while the centre goes on towards the source or away
    nearer = (ahead + there @ to) / C - retarded
    found: Reals = -nearer / (1 + beta @ to) * (1 - well - numpy.sum(beta * beta, axis=1) / 2)
    return found


def unit(vectors: Reals) -> Reals:
    """The unit vectors of these directions."""
    return vectors / norm(vectors)[:, None]


def norm(vectors: Reals) -> Reals:
    found: Reals = numpy.linalg.norm(vectors, axis=-1)
    return found


# The earth

def place_of(site: vex.Site, start: int) -> Reals:
    """The place of a site on a day, earth-fixed in metres."""
    place = numpy.array(site.position)
    if site.velocity is not None and site.epoch is not None:
        place = place + numpy.array(site.velocity) * (Time(start, format="unix").mjd - site.epoch) / 365.25
    return place


def orientation(schedule: vex.Schedule, time: Time) -> tuple[Reals, Reals, Reals]:
    """UT1-UTC in seconds and the pole's x and y in radians, of the schedule, or where it has none of the tables of astropy."""
    days = numpy.array([row.day for row in schedule.earth_orientation])
    if not len(days):
        return of_tables(time)
    if time.mjd.min() < days[0] or time.mjd.max() > days[-1]:
        raise Fault(f"$EOP has the days {days[0]:g} to {days[-1]:g}, which lack {time.mjd.mean():.2f}", schedule.path)
    near = numpy.sort(numpy.argsort(abs(days - time.mjd.mean()), kind="stable")[:NEAR])
    rows = [schedule.earth_orientation[place] for place in near]
    columns = [[row.ut1_utc - row.tai_utc for row in rows], [row.pole_x for row in rows], [row.pole_y for row in rows]]
    ut1_tai, x, y = (Polynomial.fit(days[near], column, len(near) - 1)(time.mjd) for column in columns)  # type: ignore[no-untyped-call]
    return ut1_tai + numpy.round((time.tai.mjd - time.utc.mjd) * 86400), x, y


def of_tables(time: Time) -> tuple[Reals, Reals, Reals]:
    """The same of the tables that come with astropy; nothing is fetched."""
    with iers.conf.set_temp("auto_download", False):
        table = iers.IERS_Auto.open()
    try:
        x, y = table.pm_xy(time)
        return table.ut1_utc(time).to_value("s"), x.to_value("rad"), y.to_value("rad")
    except iers.IERSRangeError:
        raise Fault(f"the earth orientation of astropy does not reach to MJD {time.mjd.mean():.2f}") from None


def turned(time: Time, ut1_utc: Reals, x: Reals, y: Reals) -> Reals:
    """What takes celestial to earth-fixed axes, a matrix for each moment: by the equinox and Greenwich's sidereal time."""
    time.delta_ut1_utc = ut1_utc
    tt, ut1 = time.tt, time.ut1
    found: Reals = erfa.c2teqx(
        erfa.pnm06a(tt.jd1, tt.jd2),
        erfa.gst06a(ut1.jd1, ut1.jd2, tt.jd1, tt.jd2),
        erfa.pom00(x, y, erfa.sp00(tt.jd1, tt.jd2)),
    )
    return found


class Ground:
    """The ground under a place: the unit vectors `up`, `north` and `east`, earth-fixed, and what air stands on it."""

    def __init__(self, place: Reals) -> None:
        longitude, self.latitude, height = EarthLocation.from_geocentric(*place, unit=units.m).geodetic
        self.height = float(height.to_value(units.m))
        self.up: Reals = erfa.s2c(longitude.rad, self.latitude.rad)
        self.east: Reals = erfa.s2c(longitude.rad + math.pi / 2, 0.0)
        self.north: Reals = numpy.cross(self.up, self.east)

    def axis(self, axes: tuple[str, str]) -> Reals:
        """The unit vector of the axis that stands, of a mount with these axes."""
        standing = {("az", "el"): self.up, ("ha", "dec"): numpy.array([0.0, 0.0, 1.0]), ("x", "yns"): self.north, ("x", "yew"): self.east}
        if axes not in standing:
            raise Fault(f"axes that are not known: {' : '.join(axes)}")
        return standing[axes]

    def air(self, sine: Reals) -> Reals:
        """How much longer the dry air makes the way in metres, at the sine of each elevation: the weight of the air above, Berg's pressure
        and Chao's mapping; a source below one degree counts as at one."""
        pressure = 101325 * (1 - 2.26e-5 * self.height) ** 5.225
        gravity = 9.780327 * (1 + 5.3024e-3 * math.sin(self.latitude.rad) ** 2) - 3.086e-6 * (self.height + HALF_HEIGHT)
        elevation = numpy.arcsin(numpy.maximum(sine, math.sin(math.radians(1.0))))
        found: Reals = REFRACTION * AIR_GAS * pressure / gravity / (numpy.sin(elevation) + 0.00143 / (numpy.tan(elevation) + 0.0445))
        return found
