"""Where stations are as a source sees them: u towards the east, v towards the north, w towards the source.

    place = geometry.read_table("model.txt.uvw")
    place.uvw("Ef", target, seconds)

A table is one of `vlbi-model`: lines of a station, the name of a source's def, a time, a delay in seconds, and u, v and w in metres. Where
there is none, `Computed` works them out.
"""
from __future__ import annotations

import dataclasses
import functools
import math
from collections.abc import Mapping, Sequence
from typing import Protocol

import erfa
import numpy
from numpy.typing import NDArray

from vlbi import earth, vex
from vlbi.earth import DAY, UNIX_MJD
from vlbi.faults import Fault

Reals = NDArray[numpy.float64]

YEAR = 365.25    # days
STEP = 10.0      # seconds between the moments from which all others are made by cubics
LEAST_ROWS = 4
UNKNOWN = "that nobody says: 0"  # the origin of an orientation that is none


@dataclasses.dataclass(frozen=True)
class Target:
    """What stations look at: a source, and the name of its def in the schedule."""

    name: str
    source: vex.Source


class Geometry(Protocol):
    """Something that knows u, v and w."""

    def uvw(self, key: str, target: Target, seconds: Reals) -> Reals:
        """u, v, w of a station in metres, float64 (N, 3), at these seconds since 1970-01-01, which rise."""


# Computed

@dataclasses.dataclass(frozen=True)
class Computed:
    """u, v and w from the stations' sites and the earth's orientation, with respect to its centre.

    They are those of straight rays: the earth's own motion, which changes them by up to one part in ten thousand, is left out.
    """

    sites: Mapping[str, vex.Site]
    orientation: earth.Orientation

    def uvw(self, key: str, target: Target, seconds: Reals) -> Reals:
        begin = math.floor(seconds.min())
        behind = numpy.arange(max(LEAST_ROWS, math.ceil((seconds.max() - begin) / STEP) + 1)) * STEP
        frames = earth.frames(earth.Moments(begin, behind), self.orientation)
        there = frames.turned(position(self.sites[key], begin / DAY + UNIX_MJD))
        return cubic(begin + behind, there @ axes(target.source).T, seconds)


def orientation_of(schedule: vex.Schedule | None, first: int, last: int) -> earth.Orientation:
    """The earth's orientation from one second since 1970-01-01 to another: that of `$EOP`, of astropy's tables, or where none reaches 0."""
    days = first / DAY + UNIX_MJD, last / DAY + UNIX_MJD
    stated = earth.of_schedule(schedule) if schedule is not None else None
    for found in (stated or tables(), tables()):
        if found.days[0] <= days[0] and days[1] <= found.days[-1]:
            return found
    none = numpy.zeros((2, 2))
    return earth.Orientation(UNKNOWN, numpy.array(days), numpy.full(2, -earth.tai_utc(first)), none, none)


@functools.lru_cache(maxsize=1)
def tables() -> earth.Orientation:
    """The orientation of astropy's tables, which are read once."""
    return earth.of_tables()


def position(site: vex.Site, day: float) -> Reals:
    """Where a site is on a modified Julian day: earth-fixed x, y, z in metres."""
    moved = numpy.array(site.velocity or (0, 0, 0)) * ((day - site.epoch) / YEAR if site.epoch is not None else 0)
    found: Reals = numpy.array(site.position) + moved
    return found


def axes(source: vex.Source) -> Reals:
    """The directions of u, v and w, a row each."""
    a, d = source.right_ascension, source.declination
    return numpy.array([
        [-math.sin(a), math.cos(a), 0.0],
        [-math.sin(d) * math.cos(a), -math.sin(d) * math.sin(a), math.cos(d)],
        [math.cos(d) * math.cos(a), math.cos(d) * math.sin(a), math.sin(d)],
    ])


@dataclasses.dataclass(frozen=True)
class Day:
    """What tables of stations and sources say of a day, at its first second.

    sidereal          the apparent sidereal time at Greenwich in degrees
    ut1_utc, tai_utc  seconds
    pole              x and y in arc seconds
    """

    sidereal: float
    ut1_utc: float
    tai_utc: float
    pole: tuple[float, float]


def day_of(second: int, orientation: earth.Orientation) -> Day:
    """The Day that begins with this second since 1970-01-01."""
    moments = earth.Moments(second, numpy.zeros(1))
    ut1_utc, pole, _ = orientation.at(moments)
    midnight, utc = moments.midnight, float(moments.utc[0])
    turned = erfa.gst06a(midnight, utc + float(ut1_utc[0]) / DAY, midnight, float(moments.tt[0]))
    x, y = pole[0] / earth.ARC_SECOND
    return Day(math.degrees(turned), float(ut1_utc[0]), moments.tai_utc, (float(x), float(y)))


def apparent(source: vex.Source, second: int) -> tuple[float, float]:
    """The apparent right ascension and declination of a source in degrees, at a second since 1970-01-01."""
    moments = earth.Moments(second, numpy.zeros(1))
    right, declination, equinoxes = erfa.atci13(source.right_ascension, source.declination, 0, 0, 0, 0, moments.midnight, float(moments.tt[0]))
    return math.degrees(erfa.anp(right - equinoxes)), math.degrees(declination)


# From a table

@dataclasses.dataclass(frozen=True)
class Table:
    """u, v and w from the rows of a table, by the cubic through the four about each time.

    runs  of each station and name of a def the runs of rows that follow one another evenly: seconds since 1970-01-01, and u, v, w in metres
    """

    path: str
    runs: Mapping[tuple[str, str], Sequence[tuple[Reals, Reals]]]

    def uvw(self, key: str, target: Target, seconds: Reals) -> Reals:
        found = numpy.full((len(seconds), 3), numpy.nan)
        for times, places in self.runs.get((key, target.name), ()):
            inside = (times[0] <= seconds) & (seconds <= times[-1])
            if inside.any():
                found[inside] = cubic(times, places, seconds[inside])
        lacking = seconds[numpy.isnan(found[:, 0])]
        if len(lacking):
            raise Fault(f"no rows of station {key} and source {target.name} at {vex.vex_time(int(lacking[0]))}", self.path)
        return found


def cubic(times: Reals, places: Reals, seconds: Reals) -> Reals:
    """The places at these seconds, by the cubic through the four rows about each, or through all where they are fewer."""
    many = min(4, len(times))
    first = numpy.clip(numpy.searchsorted(times, seconds, side="right") - many // 2, 0, len(times) - many)
    about = first[:, None] + numpy.arange(many)
    total = numpy.zeros((len(seconds), 3))
    for one in range(many):
        weight = numpy.ones(len(seconds))
        for other in range(many):
            if other != one:
                weight *= (seconds - times[about[:, other]]) / (times[about[:, one]] - times[about[:, other]])
        total += weight[:, None] * places[about[:, one]]
    return total


def read_table(path: str) -> Table:
    """The Table at a path; Fault where a line is none of a table, OSError where it cannot be read."""
    runs: dict[tuple[str, str], list[list[tuple[float, list[float]]]]] = {}
    before = None
    with open(path, encoding="utf-8", errors="surrogateescape") as file:
        for number, line in enumerate(file, 1):
            fields = line.split("#")[0].split()
            if fields:
                try:
                    key, target, when, _, *place = fields
                    row = vex.loose_second(when), [float(one) for one in place]
                    if len(place) != 3:
                        raise ValueError
                except ValueError:
                    raise Fault(f"line {number} is no row of station, source, time, delay, u, v and w", path) from None
                rows = runs.setdefault((key, target), [[]])
                if before == (key, target) and even(rows[-1], row[0]):
                    rows[-1].append(row)
                else:
                    rows.append([row])
                before = key, target
    return Table(path, {
        names: [(numpy.array([when for when, _ in run]), numpy.array([place for _, place in run])) for run in many if run] for names, many in runs.items()
    })


def even(run: Sequence[tuple[float, list[float]]], when: float) -> bool:
    """Whether a row at this time follows a run evenly."""
    if len(run) < 2:
        return len(run) == 1 and when > run[0][0]
    return abs((when - run[-1][0]) - (run[1][0] - run[0][0])) < 1e-6
