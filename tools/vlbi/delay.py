"""The delay of a wave from a far source: how much later than at the centre of the earth it is at a station.

    antenna = delay.antenna_of(schedule, "Ef", second)
    late = delay.late(antenna, delay.direction(source), frames, day_of_year)

The consensus model of the IERS Conventions (2010), chapter 11, with the centre of the earth as its first station: the delay is a function of
the moment at which the wave front is at the centre, and positive where the station gets it later. It has the gravity of sun, moon, planets
and earth, the offset of the antenna's axes, and the dry atmosphere. Coordinates are those of an ITRF and delays those of a clock on earth, as
analyses have them.

Left out, with what each comes to: the solid earth's tide (0.3 m, 1 ns), water (0.1 to 0.3 m at the zenith), the pressure of the day
(0.1 m), ocean loading (0.05 m), the daily tides of the earth's rotation (0.02 m), the ionosphere, and the antenna's own bending.
"""
from __future__ import annotations

import dataclasses
import functools
import math
import time

import erfa
import numpy

from vlbi import atmosphere, earth, model, vex
from vlbi.earth import DAY, EARTH_MASS, LIGHT, UNIX_MJD, Frames, Reals, length
from vlbi.faults import Fault

EARTH_RADIUS = 6378136.6  # metres: where the part of the earth's own gravity is counted from
FRAMES = ("J2000", "ICRF", "ICRS")
MOUNTS = (("az", "el"), ("ha", "dec"), ("x", "yns"), ("x", "yew"))
GRS80 = 2                 # ERFA's number for it


@dataclasses.dataclass(frozen=True)
class Antenna:
    """An antenna: what is earth-fixed of it.

    place   its position in metres
    up      the unit vector of the vertical
    fixed   the unit vector of the axis that does not move
    offset  metres between the axes
    latitude, height  in radians and metres, above the ellipsoid
    """

    key: str
    place: Reals
    up: Reals
    fixed: Reals
    offset: float
    latitude: float
    height: float


def antenna_of(schedule: vex.Schedule, key: str, second: int) -> Antenna:
    """The Antenna of a station of a schedule at a second since 1970-01-01; Fault where its site or mount cannot be had."""
    site, mount = schedule.site(key), schedule.antenna(key)
    place = numpy.array(site.position)
    if site.velocity is not None and site.epoch is not None:
        place = place + numpy.array(site.velocity) * (second / DAY + UNIX_MJD - site.epoch) / 365.25
    longitude, latitude, height = (float(one) for one in erfa.gc2gd(GRS80, place))
    if not -1000 < height < 10000:
        raise Fault(f"site {site.name} of station {key} is {height / 1000:.0f} km above the ground", schedule.path)
    if mount.axes not in MOUNTS:
        raise Fault(f"antenna {mount.name} of station {key} has axes that are not known: {' : '.join(mount.axes)}", schedule.path)
    return Antenna(key, place, upward(longitude, latitude), fixed_axis(mount.axes, longitude, latitude), mount.offset, latitude, height)


def upward(longitude: float, latitude: float) -> Reals:
    return numpy.array([math.cos(latitude) * math.cos(longitude), math.cos(latitude) * math.sin(longitude), math.sin(latitude)])


def fixed_axis(axes: tuple[str, str], longitude: float, latitude: float) -> Reals:
    """The unit vector of the axis that does not move: vertical, that of the earth, north or east."""
    east = numpy.array([-math.sin(longitude), math.cos(longitude), 0.0])
    vertical = upward(longitude, latitude)
    pole = numpy.array([0.0, 0.0, 1.0])
    return {("az", "el"): vertical, ("ha", "dec"): pole, ("x", "yns"): numpy.cross(vertical, east), ("x", "yew"): east}[axes]


def direction(source: vex.Source) -> Reals:
    """The unit vector to a source; Fault where its frame is not J2000."""
    if source.frame not in FRAMES:
        raise Fault(f"source {source.name} is in the frame {source.frame}; {', '.join(FRAMES)} are known")
    cosine = math.cos(source.declination)
    right_ascension = source.right_ascension
    return numpy.array([cosine * math.cos(right_ascension), cosine * math.sin(right_ascension), math.sin(source.declination)])


def vacuum(to: Reals, place: Reals, motion: Reals, velocity: Reals, potential: Reals, bent: Reals) -> Reals:
    """The delay without atmosphere in seconds (11.9), at each moment.

    to             the unit vector to the source
    place, motion  of the station in celestial axes, against the earth's centre
    velocity       of the earth
    potential      of all bodies but the earth, at its centre
    bent           the part of gravity (11.7), in seconds
    """
    far = place @ to / LIGHT
    along = velocity @ to / LIGHT
    slow = 1 - 2 * potential / LIGHT ** 2 - dot(velocity, velocity) / (2 * LIGHT ** 2) - dot(velocity, motion) / LIGHT ** 2
    found: Reals = (bent - far * slow - dot(velocity, place) / LIGHT ** 2 * (1 + along / 2)) / (1 + along + motion @ to / LIGHT)
    return found


def dot(first: Reals, second: Reals) -> Reals:
    """The scalar product of each two vectors."""
    found: Reals = numpy.sum(first * second, axis=-1)
    return found


def bent_by_all(to: Reals, place: Reals, frames: Frames) -> Reals:
    """How much later gravity makes the wave at the station than at the earth's centre, in seconds (11.1 to 11.7).

    The earth's own part at its centre, where the formula has none, is that at the height of its radius, for all stations alike.
    """
    total: Reals = 2 * EARTH_MASS / LIGHT ** 3 * numpy.log(EARTH_RADIUS / (length(place) + place @ to))
    later = -(place @ to / LIGHT)
    for body in frames.bodies:
        # where the body was as the wave passed it, and no later than now
        passed = numpy.maximum((body.position - frames.position) @ to / LIGHT, 0.0)
        centre = frames.position - (body.position - body.velocity * passed[:, None])
        station = centre + place + frames.velocity * later[:, None]
        total = total + 2 * body.mass / LIGHT ** 3 * numpy.log((length(centre) + centre @ to) / (length(station) + station @ to))
    return total


def seen(to: Reals, velocity: Reals) -> Reals:
    """The direction in which an antenna of these velocities sees the source: a unit vector for each (11.13)."""
    moved: Reals = to + velocity / LIGHT - to * (velocity @ to / LIGHT)[:, None]
    return moved / length(moved)[:, None]


def elevation_sine(antenna: Antenna, to: Reals, frames: Frames) -> Reals:
    """The sine of the elevation, without the bending of the air."""
    motion = frames.moved(frames.turned(antenna.place))
    return dot(seen(to, frames.velocity + motion), frames.turned(antenna.up))


def late(antenna: Antenna, to: Reals, frames: Frames, day_of_year: float | None) -> Reals:
    """How much later than at the centre of the earth the wave is at an antenna, in seconds; without a day it is without the atmosphere."""
    place = frames.turned(antenna.place)
    motion = frames.moved(place)
    total = vacuum(to, place, motion, frames.velocity, frames.potential, bent_by_all(to, place, frames))
    apparent = seen(to, frames.velocity + motion)
    across = 1 - dot(apparent, frames.turned(antenna.fixed)) ** 2
    total = total - antenna.offset / LIGHT * numpy.sqrt(numpy.maximum(across, 0.0))
    if day_of_year is not None:
        sine = dot(apparent, frames.turned(antenna.up))
        total = total + atmosphere.delay(sine, antenna.latitude, antenna.height, day_of_year)
    return total


def projected(antenna: Antenna, source: vex.Source, frames: Frames) -> Reals:
    """u, v and w in metres at each moment: the antenna's position in J2000 axes to the east and the north of the source, and towards it."""
    a, d = source.right_ascension, source.declination
    axes = numpy.array([
        [-math.sin(a), math.cos(a), 0.0],
        [-math.sin(d) * math.cos(a), -math.sin(d) * math.sin(a), math.cos(d)],
        [math.cos(d) * math.cos(a), math.cos(d) * math.sin(a), math.sin(d)],
    ])
    found: Reals = frames.turned(antenna.place) @ axes.T
    return found


class Theory:
    """Delays that are worked out, for `vlbi.model`.

    air  whether with the atmosphere
    """

    def __init__(self, schedule: vex.Schedule, orientation: earth.Orientation, air: bool = True) -> None:
        self.schedule = schedule
        self.orientation = orientation
        self.air = air
        self.keys: dict[str, None] = {}  # the stations so far
        self.low: dict[tuple[str, str], float] = {}  # the lowest sine for a station and a scan in which the atmosphere is held
        self.antenna = functools.lru_cache(maxsize=None)(functools.partial(antenna_of, schedule))
        self.frames_at = functools.lru_cache(maxsize=4)(self.make_frames)

    @property
    def words(self) -> str:
        air = "with the dry atmosphere" if self.air else "without atmosphere"
        return f"IERS Conventions 2010 against the centre of the earth, {air}; earth orientation {self.orientation.origin}"

    @property
    def notes(self) -> tuple[str, ...]:
        held = (
            f"station {key} observes in scan {scan} down to {math.degrees(math.asin(sine)):.1f} degrees: its atmosphere is held at that of one degree"
            for (key, scan), sine in self.low.items()
        )
        still = (
            f"station {key} has a site_velocity and no site_position_epoch: it stands still"
            for key in self.keys if self.schedule.site(key).velocity is not None and self.schedule.site(key).epoch is None
        )
        return (*held, *still)

    def cuts(self, part: model.Part) -> tuple[int, ...]:
        return ()

    def make_frames(self, begin: int, behind: tuple[float, ...]) -> Frames:
        return earth.frames(earth.Moments(begin, numpy.array(behind)), self.orientation)

    def fit(self, part: model.Part) -> model.Fit:
        self.keys[part.key] = None
        return model.fitted(part, functools.partial(self.late, part))

    def late(self, part: model.Part, behind: Reals) -> Reals:
        """The delay so many seconds behind the part's begin."""
        frames = self.frames_at(part.begin, tuple(behind.tolist()))
        antenna, to = self.antenna(part.key, part.begin), direction(part.source)
        self.look_down(part, behind, elevation_sine(antenna, to, frames))
        return late(antenna, to, frames, time.gmtime(part.begin).tm_yday if self.air else None)

    def look_down(self, part: model.Part, behind: Reals, sine: Reals) -> None:
        """Keeps how low the source is while the station observes, where that is too low for the atmosphere."""
        observed = sine[(part.begin + behind >= part.first) & (part.begin + behind <= part.last)]
        if self.air and len(observed) and observed.min() < math.sin(atmosphere.LOWEST):
            self.low[part.key, part.scan] = min(self.low.get((part.key, part.scan), 1.0), float(observed.min()))

    def places(self, part: model.Part, behind: Reals) -> tuple[Reals, Reals]:
        """The delay, and u, v and w."""
        antenna = self.antenna(part.key, part.begin)
        return self.late(part, behind), projected(antenna, part.source, self.frames_at(part.begin, tuple(behind.tolist())))
