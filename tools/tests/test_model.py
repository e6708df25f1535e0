"""`vlbi.model` and what it stands on: the delay of a wave at a station, the earth, the atmosphere, the lines of a job."""
from __future__ import annotations

import dataclasses
import decimal
import fractions
import math
import re
from collections.abc import Iterator
from pathlib import Path

import numpy
import pytest

pytest.importorskip("erfa")

import correlator
from vlbi import atmosphere, delay, earth, fringe, im, model, records, simulate, vex
from vlbi import job as jobs
from vlbi.commands import model as command
from vlbi.faults import Fault

LIGHT = 299792458
PICO = 1e-12

NIGHT = """VEX_rev = 1.5;
$STATION;
def Ef; ref $SITE = EFLSBERG; ref $ANTENNA = EFLSBERG; ref $CLOCK = Ef; enddef;
def Sh; ref $SITE = SESHAN25; ref $ANTENNA = SESHAN25; enddef;
$SITE;
def EFLSBERG; site_position = 4033947.2355 m : 486990.7943 m : 4900431.0017 m;
  site_velocity = -0.0143 m/yr : 0.0170 m/yr : 0.0102 m/yr; site_position_epoch = 51544; enddef;
def SESHAN25; site_position = -2831687.2000 m : 4675733.9000 m : 3275327.7000 m; enddef;
$ANTENNA;
def EFLSBERG; axis_type = az : el; axis_offset = 0.013 m; enddef;
def SESHAN25; axis_type = az : el; axis_offset = -0.006 m; enddef;
$SOURCE;
def 3C84; source_name = 0316+413; ra = 03h19m48.1600956s; dec = 41d30'42.104043"; ref_coord_frame = J2000; enddef;
$CLOCK;
def Ef; clock_early = 2010y115d00h00m00s : 1.25 usec : 2010y115d08h00m00s : 1e-12; clock_early = 2010y115d08h30m10s : 2 usec; enddef;
$EOP;
def A; TAI-UTC = 34 sec; eop_ref_epoch = 2010y113d; num_eop_points = 5; eop_interval = 24 hr;
  ut1-utc = -0.0109741 sec : -0.0127474 sec : -0.0146273 sec : -0.0165350 sec : -0.0183205 sec;
  x_wobble = -0.069994 asec : -0.070343 asec : -0.070748 asec : -0.071127 asec : -0.070811 asec;
  y_wobble = 0.371843 asec : 0.374067 asec : 0.376327 asec : 0.378538 asec : 0.380923 asec; enddef;
$MODE;
def M; ref $FREQ = F; enddef;
$FREQ;
def F; sample_rate = 2 Ms/sec; chan_def = : 8400.00 MHz : U : 1 MHz : &CH01; enddef;
$SCHED;
scan No0001; start = 2010y115d08h29m00s; mode = M; source = 3C84;
  station = Ef : 0 sec : 200 sec; station = Sh : 10 sec : 240 sec; endscan;
scan No0002; start = 2010y115d08h32m30s; mode = M; source = 3C84;
  station = Ef : 0 sec : 60 sec; station = Sh : 45 sec : 60 sec; endscan;
"""


def night() -> vex.Schedule:
    return vex.from_bytes(NIGHT.encode(), "night.vex")


def theory(air: bool = False) -> delay.Theory:
    orientation = earth.of_schedule(night())
    assert orientation is not None
    return delay.Theory(night(), orientation, air)


def all_parts() -> list[model.Part]:
    return model.parts_of(night(), night().scans, ("Ef", "Sh"))


# The delay in a vacuum

Exact = list[decimal.Decimal]


def exact(vector: list[float]) -> Exact:
    return [decimal.Decimal(one) for one in vector]


def times(first: Exact, second: Exact) -> decimal.Decimal:
    return sum((a * b for a, b in zip(first, second)), decimal.Decimal(0))


def barycentric(t: decimal.Decimal, x: Exact, velocity: Exact, potential: decimal.Decimal) -> tuple[decimal.Decimal, Exact]:
    """Time and place at the barycentre of an event at the earth: the boost of special relativity, then the rates of a clock and a rod in a potential."""
    c = decimal.Decimal(LIGHT)
    gamma = 1 / (1 - times(velocity, velocity) / c ** 2).sqrt()
    along = times(velocity, x)
    place = [a + v * ((gamma - 1) * along / times(velocity, velocity) + gamma * t) for a, v in zip(x, velocity)]
    return gamma * (t + along / c ** 2) * (1 + potential / c ** 2), [one * (1 - potential / c ** 2) for one in place]


def met(to: Exact, x: Exact, motion: Exact, velocity: Exact, potential: decimal.Decimal, bent: decimal.Decimal) -> decimal.Decimal:
    """When, by a clock at the earth's centre, a plane wave meets a station that moves: it is at the centre at 0. Solved in 50 digits."""
    def before(t: decimal.Decimal) -> decimal.Decimal:
        when, place = barycentric(t, [a + t * v for a, v in zip(x, motion)], velocity, potential)
        return when + times(to, place) / LIGHT - bent

    low, high = before(decimal.Decimal(0)), before(decimal.Decimal(1))
    return -low / (high - low)  # a straight line: nothing here is accelerated


@pytest.mark.parametrize("right_ascension, declination", [(0.1, 0.7), (2.0, -0.3), (3.3, 1.2), (4.4, 0.0), (5.9, -1.3)])
def test_a_plane_wave_meets_moving_stations(right_ascension: float, declination: float) -> None:
    """The formula for the vacuum is within 0.1 ps of the equation of the wave front, for two stations and for their difference.

    It leaves out the cube of v / c, 0.03 ps.
    """
    to = [math.cos(declination) * math.cos(right_ascension), math.cos(declination) * math.sin(right_ascension), math.sin(declination)]
    velocity, potential, bent = [-17300.0, -22400.0, -9710.0], 8.87e8, 3.1e-10
    stations = [([4033947.2355, 486990.7943, 4900431.0017], [-35.5, 294.2, 0.02]), ([-2831687.2, 4675733.9, 3275327.7], [-341.0, -206.5, 0.01])]
    with decimal.localcontext() as context:
        context.prec = 50
        length = times(exact(to), exact(to)).sqrt()
        unit = [one / length for one in exact(to)]
        due = [met(unit, exact(x), exact(w), exact(velocity), decimal.Decimal(potential), decimal.Decimal(bent)) for x, w in stations]
    found = [
        float(delay.vacuum(numpy.array(to), *(numpy.array([one]) for one in (x, w, velocity, potential, bent)))[0]) for x, w in stations
    ]
    for here, there in zip(found, due):
        assert abs(here - float(there)) < 0.1 * PICO
    assert abs(found[1] - found[0] - float(due[1] - due[0])) < 0.1 * PICO
    assert max(abs(one) for one in found) > 1e-3


def longer_way(mass: float, to: earth.Reals, centre: earth.Reals, station: earth.Reals) -> float:
    """By how much gravity makes the way to a station longer in seconds than that to the centre: 2 GM / c^3 times the integral of 1 / distance along
    each way, by the trapezium rule; both places are against the body."""
    least = math.sqrt(float(centre @ centre - (centre @ to) ** 2))
    u = numpy.linspace(math.asinh(float(centre @ to) / least), math.asinh(1e18 / least), 200_001)
    ways = least * numpy.sinh(u)[:, None] * to
    foot = centre - (centre @ to) * to
    first, second = foot + ways, foot + (station - centre) + ways
    one, other = numpy.sqrt((first ** 2).sum(1)), numpy.sqrt((second ** 2).sum(1))
    grown = ((station - centre) * (first + second)).sum(1) / (one * other * (one + other))  # 1 / one - 1 / other
    values = -grown * least * numpy.cosh(u)
    return float(2 * mass / LIGHT ** 3 * ((values[1:] + values[:-1]) / 2 * numpy.diff(u)).sum())


@pytest.mark.parametrize("off", [2.0, 30.0, 90.0, 170.0])
def test_gravity_is_the_integral_along_the_way(off: float) -> None:
    """The sun at some degrees off the source, and no other body; the earth's own part has a formula of its own."""
    to = numpy.array([1.0, 0.0, 0.0])
    angle = math.radians(off)
    sun = 1.496e11 * numpy.array([math.cos(angle), math.sin(angle), 0.0])
    place = numpy.array([[-2831687.2, 4675733.9, 3275327.7]])
    still = numpy.zeros((1, 3))
    body = earth.Body(earth.SUN_MASS, sun[None, :], still)
    frames = earth.Frames(numpy.eye(3)[None], still, still, still, (body,))
    own = 2 * earth.EARTH_MASS / LIGHT ** 3 * math.log(delay.EARTH_RADIUS / (float(numpy.linalg.norm(place)) + float(place[0, 0])))
    due = longer_way(earth.SUN_MASS, to, -sun, place[0] - sun)
    assert delay.bent_by_all(to, place, frames)[0] - own == pytest.approx(due, abs=0.01 * PICO, rel=1e-5)
    assert abs(due) > (1e-9 if off == 2.0 else 1e-13)


def test_a_source_at_the_zenith_is_early() -> None:
    """Its wave is at the station before it is at the centre of the earth, by the way between: the delay is negative, and w is positive."""
    moments = earth.Moments(vex.second_of("2010y115d08h29m00s"), numpy.array([0.0]))
    frames = earth.frames(moments, theory().orientation)
    antenna = delay.antenna_of(night(), "Ef", moments.begin)
    up = frames.turned(antenna.up)[0]
    source = vex.Source("zenith", math.atan2(up[1], up[0]), math.asin(up[2]), "J2000")
    found = delay.late(antenna, delay.direction(source), frames, None)[0]
    radius = float(numpy.linalg.norm(antenna.place))
    assert found == pytest.approx(-radius / LIGHT, rel=2e-4)
    assert delay.projected(antenna, source, frames)[0, 2] == pytest.approx(radius, rel=1e-5)
    assert delay.late(antenna, delay.direction(source), frames, 115.0)[0] - found == pytest.approx(2.3 / LIGHT, rel=0.06)


def test_axes_that_do_not_meet() -> None:
    """An offset K takes K / c times the sine of the angle between source and fixed axis from the delay."""
    moments = earth.Moments(vex.second_of("2010y115d08h29m00s"), numpy.array([0.0]))
    frames = earth.frames(moments, theory().orientation)
    to = delay.direction(night().source("3C84"))
    text = NIGHT.replace("axis_type = az : el; axis_offset = 0.013 m", "axis_type = {}; axis_offset = {} m")
    sine = float(delay.elevation_sine(delay.antenna_of(night(), "Ef", moments.begin), to, frames)[0])
    for axes, across in (("az : el", math.sqrt(1 - sine ** 2)), ("ha : dec", math.cos(math.radians(41.54))), ("x : yew", None), ("x : yns", None)):
        late = [
            delay.late(delay.antenna_of(vex.from_bytes(text.format(axes, offset).encode()), "Ef", moments.begin), to, frames, None)[0] for offset in (0, 6)
        ]
        assert 0 <= late[0] - late[1] <= 6 / LIGHT
        if across is not None:
            assert late[0] - late[1] == pytest.approx(6 / LIGHT * across, rel=1e-3)  # 3C84 stood at 41.54 degrees on that day
    with pytest.raises(Fault, match="night.vex: antenna EFLSBERG of station Ef has axes that are not known: alt : az"):
        delay.antenna_of(vex.from_bytes(text.format("alt : az", 6).encode(), "night.vex"), "Ef", moments.begin)


# The earth

def test_between_days() -> None:
    """A cubic through four days is itself between them; two days have a line."""
    days = numpy.arange(10.0)
    when = numpy.array([0.0, 0.3, 4.5, 8.99, 9.0])
    assert earth.between(days, days ** 3 - days, when) == pytest.approx(when ** 3 - when, abs=1e-11)
    assert earth.between(days[:2], numpy.stack([days[:2], -days[:2]], 1), when[:2]) == pytest.approx(numpy.stack([when[:2], -when[:2]], 1))


def test_orientation_that_does_not_reach() -> None:
    late = vex.from_bytes(NIGHT.replace("2010y113d", "2010y213d").encode(), "night.vex")
    orientation = earth.of_schedule(late)
    assert orientation is not None
    with pytest.raises(Fault, match="the earth orientation of .EOP in night.vex goes from MJD 55409 to 55413, which lacks 55311.35"):
        orientation.at(earth.Moments(vex.second_of("2010y115d08h29m00s"), numpy.zeros(1)))
    wrong = earth.of_schedule(vex.from_bytes(NIGHT.replace("TAI-UTC = 34", "TAI-UTC = 32").encode()))
    assert wrong is not None
    with pytest.raises(Fault, match="UT1-UTC is 1.985 seconds: are UT1-UTC and TAI-UTC right"):
        wrong.at(earth.Moments(vex.second_of("2010y115d08h29m00s"), numpy.zeros(1)))


def test_leap_seconds() -> None:
    for time, due in (("1972y001d00h00m00s", 10), ("2008y366d23h59m59s", 33), ("2009y001d00h00m00s", 34), ("2030y001d00h00m00s", 37)):
        assert earth.tai_utc(vex.second_of(time)) == due
    with pytest.raises(Fault, match="the year 1971 is before the leap seconds"):
        earth.tai_utc(vex.second_of("1971y365d00h00m00s"))


def test_tables_of_the_iers() -> None:
    """The schedule's earth orientation is that of the tables, to what it is rounded to; and the delays are nearly the same."""
    pytest.importorskip("astropy")
    tables, stated = earth.of_tables(), theory().orientation
    moments = earth.Moments(vex.second_of("2010y115d08h29m00s"), numpy.linspace(0.0, 60.0, 4))
    for found, due, most in zip(tables.at(moments), stated.at(moments), (1e-7, 1e-6 * earth.ARC_SECOND, 1e-3 * earth.ARC_SECOND)):
        assert numpy.abs(found - due).max() < most
    assert numpy.abs(tables.at(moments)[2]).max() == pytest.approx(0.16e-3 * earth.ARC_SECOND, rel=0.1)  # that day's, as the IERS has it
    assert "astropy" in tables.origin
    part = all_parts()[0]
    late = [delay.Theory(night(), one).late(part, numpy.array([0.0]))[0] for one in (tables, stated)]
    assert abs(late[0] - late[1]) < 20 * PICO  # 0.2 milliarcseconds of the earth's radius are 6 millimetres


def test_against_astropy() -> None:
    """Place and velocity of a station in celestial axes; between days astropy has straight lines, which moves it by 2 millimetres here."""
    pytest.importorskip("astropy")
    from astropy.coordinates import EarthLocation
    from astropy.time import Time
    from astropy.utils import iers

    moments = earth.Moments(vex.second_of("2010y115d08h29m00s"), numpy.array([0.0]))
    site = night().site("Ef").position
    with iers.conf.set_temp("auto_download", False):
        place, velocity = EarthLocation.from_geocentric(*site, unit="m").get_gcrs_posvel(Time(moments.begin, format="unix"))
    frames = earth.frames(moments, theory().orientation)
    found = frames.turned(numpy.array(site))
    assert numpy.abs(found[0] - place.xyz.to_value("m")).max() < 5e-3
    assert numpy.abs(frames.moved(found)[0] - velocity.xyz.to_value("m/s")).max() < 1e-6


def test_against_casacore() -> None:
    """u, v, w of a baseline of 8,200 km by casacore's measures.

    Casacore has a baseline against the apparent source: it turns it by the angle of aberration from there to the source of J2000, 18 arc seconds
    here, which is 700 m in w and 9 m in u. Here a baseline is not turned. Turned in the same way it agrees within 3 m, 0.08 arc seconds: casacore's
    nutation is that of IAU 1980 without what was found since, some 0.05, and it has the bending by the sun, 0.014. Debian's casacore has no table of
    UT1 and the pole, which are 0 for both; the frame's position is at the pole, where nothing moves in a day.
    """
    measures = pytest.importorskip("casacore.measures").measures()
    source, places = night().source("3C84"), [night().site(key).position for key in ("Ef", "Sh")]
    between = numpy.array(places[1]) - numpy.array(places[0])
    try:
        measures.do_frame(measures.epoch("UTC", "2010/04/25/08:29:00"))
        measures.do_frame(measures.direction("J2000", f"{source.right_ascension!r} rad", f"{source.declination!r} rad"))
        measures.do_frame(measures.position("ITRF", "0 m", "1 m", "6356752 m"))
        due = measures.to_uvw(measures.baseline("ITRF", *(f"{one!r} m" for one in between.tolist())))["xyz"].get_value()
    except RuntimeError as error:
        pytest.skip(f"casacore lacks its tables: {error}")
    still = numpy.array([55310.0, 55312.0]), numpy.array([-34.0, -34.0]), numpy.zeros((2, 2)), numpy.zeros((2, 2))
    frames = earth.frames(earth.Moments(vex.second_of("2010y115d08h29m00s"), numpy.zeros(1)), earth.Orientation("none", *still))
    antenna = dataclasses.replace(delay.antenna_of(night(), "Ef", 0), place=between)
    found = delay.projected(antenna, source, frames)[0]
    assert numpy.abs(found - due).max() == pytest.approx(700, abs=10)
    to, apparent = delay.direction(source), delay.seen(delay.direction(source), frames.velocity)[0]
    turned = dataclasses.replace(antenna, place=frames.celestial[0].T @ turned_with(apparent, to, frames.turned(between)[0]))
    assert numpy.abs(delay.projected(turned, source, frames)[0] - due).max() < 3.0


def turned_with(begin: earth.Reals, end: earth.Reals, vector: earth.Reals) -> earth.Reals:
    """A vector, turned by the small turn that takes one direction to another."""
    return vector + numpy.cross(numpy.cross(begin, end), vector)


# The atmosphere

def test_published_numbers_of_the_mapping() -> None:
    """Green Bank on 12 August 2009 at a zenith distance of 1.278564131 rad, as in the test cases that the IERS Conventions (2010) print for other
    mappings to the dry atmosphere: 3.425245519 by GMF (at 844.715 m) and 3.425088088 by VMF1 (at 824.17 m). Niell's agrees with both in a
    few parts of 100,000."""
    sine = numpy.array([math.cos(1.278564131)])
    for height, due in ((844.715, 3.425245519), (824.17, 3.425088088)):
        assert atmosphere.mapping(sine, 0.6708665767, height, 224.0)[0] == pytest.approx(due, rel=5e-5)


def test_the_mapping_in_its_table() -> None:
    """At 45 degrees and sea level, a quarter of a year behind the coldest day, the coefficients are those of Niell's table 3; at the zenith it is 1."""
    a, b, c = 1.2465397e-3, 2.9288445e-3, 63.721774e-3
    sine = math.sin(math.radians(5))
    due = (1 + a / (1 + b / (1 + c))) / (sine + a / (sine + b / (sine + c)))
    assert due == pytest.approx(10.129, abs=1e-3)
    for latitude in (math.pi / 4, -math.pi / 4):
        assert atmosphere.mapping(numpy.array([sine, 1.0]), latitude, 0.0, 28 + 365.25 / 4) == pytest.approx([due, 1.0], rel=1e-12)


def test_the_zenith() -> None:
    """The standard atmosphere's pressure as its table has it, and Saastamoinen's 2.2768 mm for a hectopascal at 45 degrees."""
    for height, due in ((0, 1013.25), (1000, 898.75), (5000, 540.20)):
        assert atmosphere.pressure(height) == pytest.approx(due, abs=0.05)
    assert atmosphere.zenith(1013.25, math.pi / 4, 0.0) == pytest.approx(2.3070, abs=1e-4)


# The lines of a job

def in_whole_numbers(coefficients: list[int], knot: int, clock: tuple[int, int, int], rate: int, samples: int) -> int:
    """The delay in 2^-32 sample so many samples behind a polynomial's second, word by word as docs/MODEL.md says.

    clock  its two numbers, and how many samples its second is before the polynomial's
    """
    def at_knot(j: int) -> int:
        h = coefficients[-1]
        for c in coefficients[-2::-1]:
            h = c + h * j // 2 ** 24
        return h + clock[0] + clock[1] * (clock[2] + j * knot) // rate

    j = samples // knot
    r = samples - j * knot
    return at_knot(j) + (at_knot(j + 1) - at_knot(j)) * r // knot


def lines_of(text: str, word: str) -> Iterator[tuple[str, int, list[int]]]:
    """Key, second and numbers of each line of a word."""
    for line in text.splitlines():
        fields = line.split()
        if fields[0] == word:
            yield fields[1], vex.second_of(fields[2]), [int(one) for one in fields[3:]]


def call(folder: Path, *words: str, schedule: str = NIGHT) -> tuple[int, str]:
    """The command's status and the lines that it wrote."""
    (folder / "night.vex").write_text(schedule)
    status = command.main([str(folder / "night.vex"), "-o", str(folder / "model.txt"), *words])
    return status, (folder / "model.txt").read_text() if status == 0 else ""


@pytest.mark.parametrize("stretch", ["40", "600"])
def test_the_lines_are_the_delays(stretch: str, tmp_path: Path, capsys: pytest.CaptureFixture[str]) -> None:
    """Each polynomial in whole numbers, with its clock, is within 1 ps of delay and clock all over its stretch, and what is said of it holds."""
    status, text = call(tmp_path, "--stretch", stretch)
    said = capsys.readouterr()
    assert status == 0 and "left out: the solid earth's tide" in said.err and "earth orientation of $EOP" in said.err
    told = re.search(r"(\d+) polynomials, knot (\d+): residual up to ([\d.]+) ps, whole numbers up to ([\d.]+) ps", said.out)
    assert told is not None
    rate, knot, origin = 2_000_000, int(told.group(2)), theory(air=True)
    assert f"knot {knot}\n" in text
    clocks = list(lines_of(text, "clock"))
    assert [(key, when - vex.second_of("2010y115d08h29m00s")) for key, when, _ in clocks] == [("Ef", 0), ("Ef", 70), ("Ef", 210)]
    assert clocks[0][2] == [round((1.25e-6 + 1740e-12) * rate * 2 ** 32), round(1e-12 * rate * 2 ** 32)]
    polys = list(lines_of(text, "poly"))
    assert len(polys) == int(told.group(1))
    greatest = 0.0
    for part in all_parts():
        own = [one for one in polys if one[0] == part.key and part.begin <= one[1] < part.end]
        assert own[0][1] == part.begin
        for (key, begin, coefficients), end in zip(own, [*(one[1] for one in own[1:]), part.end]):
            clock = max(((when, numbers) for of, when, numbers in clocks if of == key and when <= begin), default=(begin, [0, 0]))
            behind = numpy.linspace(0, end - begin, 14)[:-1] if end - begin > 1 else numpy.zeros(1)
            samples = numpy.floor(behind * rate).astype(int)
            found = [in_whole_numbers(coefficients, knot, (*clock[1], (begin - clock[0]) * rate), rate, int(one)) for one in samples]  # type: ignore[arg-type]
            read = [(clock[1][0] + clock[1][1] * (begin - clock[0] + one / rate)) / (rate * 2 ** 32) for one in samples.tolist()]
            assert abs(read[-1] - early(part.key, begin, float(samples[-1]) / rate)) < 3 * PICO  # a drift is rounded to 6 * 10^-17
            due = origin.late(part, begin - part.begin + samples / rate) + numpy.array(read)
            greatest = max(greatest, float(numpy.abs(numpy.array(found) / (rate * 2.0 ** 32) - due).max()))
    assert greatest < PICO
    assert greatest <= (float(told.group(3)) + float(told.group(4)) + 0.05) * PICO


def early(key: str, begin: int, behind: float) -> float:
    """How far a station's clock is ahead, by what the schedule says of the clock in force at a polynomial's second."""
    if key != "Ef":
        return 0.0
    if begin < vex.second_of("2010y115d08h30m10s"):
        return 1.25e-6 + 1e-12 * (begin - vex.second_of("2010y115d08h00m00s") + behind)
    return 2e-6


def test_parts_of_scans_that_overlap() -> None:
    """The first scan goes on at Sh while Ef is in the second: each polynomial counts to where the station's own next part begins."""
    start = vex.second_of("2010y115d08h29m00s")
    assert [(part.key, part.scan, part.begin - start, part.end - start) for part in all_parts()] == [
        ("Ef", "No0001", 0, 210), ("Sh", "No0001", 0, 240), ("Ef", "No0002", 210, 270), ("Sh", "No0002", 240, 270),
    ]
    both = vex.from_bytes(NIGHT.replace("Sh : 45 sec", "Sh : 20 sec").encode(), "night.vex")
    with pytest.raises(Fault, match="night.vex: station Sh is in the scans No0001 and No0002 at once"):
        model.parts_of(both, both.scans, ("Ef", "Sh"))


def test_parts_are_cut() -> None:
    part = all_parts()[0]
    cases: list[tuple[int, list[int], list[int]]] = [
        (300, [], [0]), (100, [], [0, 70, 140]), (300, [70, -5, 210], [0, 70]), (60, [70], [0, 35, 70, 117, 164]),
    ]
    for longest, at, due in cases:
        made = model.cut(part, longest, [part.begin + one for one in at])
        assert [one.begin - part.begin for one in made] == due
        assert [one.end for one in made] == [*(float(one.begin) for one in made[1:]), part.end]
    short = model.cut(dataclasses.replace(part, end=part.begin + 2.5), 1, [])
    assert [(one.begin - part.begin, one.end - part.begin) for one in short] == [(0, 1.0), (1, 2.0), (2, 2.5)]


def test_the_table(tmp_path: Path, capsys: pytest.CaptureFixture[str]) -> None:
    """A row each ten seconds, whose delay is the model's; between rows a cubic through four is as good."""
    assert call(tmp_path, "--no-atmosphere", "--station", "Ef", "--scan", "No0001")[0] == 0
    rows = [line.split() for line in (tmp_path / "model.txt.uvw").read_text().splitlines() if not line.startswith("#")]
    start = vex.second_of("2010y115d08h29m00s")
    assert [(row[0], row[1], vex.second_of(row[2])) for row in rows] == [("Ef", "3C84", start + 10 * number) for number in range(25)]
    values = numpy.array([[float(one) for one in row[3:]] for row in rows])
    origin, part = theory(), all_parts()[0]
    due, places = origin.places(part, numpy.arange(25) * 10.0)
    assert numpy.abs(values[:, 0] - due).max() < 1e-3 * PICO and numpy.abs(values[:, 1:] - places).max() < 1e-4
    assert numpy.abs(values[:, 3] / LIGHT + values[:, 0]).max() < 2e-4 * 0.0155  # but for aberration
    assert numpy.linalg.norm(values[:, 1:], axis=1) == pytest.approx(numpy.linalg.norm(night().site("Ef").position), abs=1.0)
    between = numpy.array([-1, 9, 9, -1]) / 16 @ values[5:9]
    late, place = origin.places(part, numpy.array([65.0]))
    assert abs(between[0] - late[0]) < 0.01 * PICO and numpy.abs(between[1:] - place[0]).max() < 1e-3


def test_a_low_source_is_told(tmp_path: Path, capsys: pytest.CaptureFixture[str]) -> None:
    assert call(tmp_path, schedule=NIGHT.replace("dec = 41d30'42.104043\"", "dec = -61d30'42.1\""))[0] == 0
    assert re.search(r"station Ef observes in scan No0001 down to -[\d.]+ degrees: its atmosphere is held at that of one degree", capsys.readouterr().err)


@pytest.mark.parametrize("old, new, words, said", [
    ("sample_rate = 2 Ms/sec", "sample_rate = 2 Ms/sec", ["--scan", "No0009"], "no scan No0009"),
    ("sample_rate = 2 Ms/sec", "sample_rate = 2 Ms/sec", ["--station", "Wb"], "no station Wb in the scans"),
    ("mode = M; source = 3C84;\n  station = Ef : 0 sec : 200", "mode = M;\n  station = Ef : 0 sec : 200", [], "scan No0001 has no source"),
    ("ref_coord_frame = J2000", "ref_coord_frame = B1950", [], "source 0316+413 is in the frame B1950; J2000, ICRF, ICRS are known"),
    ("clock_early = 2010y115d00h", "clock_early = 2010y115d09h", [], "the clock of station Ef counts from 2010y115d08h30m10s on"),
    ("def 3C84", "def 3C85", [], "no 3C84 in $SOURCE"),
    ("4033947.2355 m", "4033.9472355 m", [], "is -"),
])
def test_faults_name_the_schedule(old: str, new: str, words: list[str], said: str, tmp_path: Path, capsys: pytest.CaptureFixture[str]) -> None:
    assert NIGHT.count(old) == 1
    assert call(tmp_path, *words, schedule=NIGHT.replace(old, new))[0] == 1
    told = capsys.readouterr().err.splitlines()[-1]
    assert told.startswith(f"vlbi-model: {tmp_path / 'night.vex'}: ") and said in told
    assert not (tmp_path / "model.txt").exists()


# The fringe

def peak(folder: Path, model_lines: list[str], job: str) -> fringe.Fringe:
    """The fringe of a simulated job with these lines for its own."""
    kept = [line for line in job.splitlines() if line.split()[0] not in ("knot", "clock", "poly")]
    (folder / "with.txt").write_text("\n".join([*kept, *model_lines]) + "\n")
    (folder / "with.vis").write_bytes(correlator.correlate(str(folder), "with.txt", "sky.vex"))
    return fringe.of(records.read(str(folder / "with.vis")).scans[0], 0, 0)


def test_the_sign_by_a_fringe(tmp_path: Path) -> None:
    """Stations that are simulated with the delays of this model, late where they are positive, have their fringe at lag 0 by its lines, and not by
    lines of the other sign."""
    start, rate = vex.second_of("2010y115d08h29m00s"), 80_000
    part_a, part_b = all_parts()[:2]
    fits = [theory().fit(dataclasses.replace(part, end=part.begin + 2.0)) for part in (part_a, part_b)]
    knot = model.knot_of(fits, rate)
    lines = model.job_part("", {"Ef": [], "Sh": []}, fits, rate, knot).splitlines()[2:]
    stations = tuple(simulate.Station(fit.part.key, fit.coefficients) for fit in fits)
    sky = simulate.Sky(stations, rate=rate, seconds=1, start=start, frequency=1_400_000_000, common=0.5)
    simulate.simulate(sky, str(tmp_path), lags=64)
    job = (tmp_path / "job.txt").read_text()
    found = peak(tmp_path, lines, job)
    assert abs(found.lag) < 0.5
    turned = [re.sub(r" (-?\d+)(?= |$)", lambda number: f" {-int(number.group(1))}", line) if line.startswith("poly") else line for line in lines]
    assert found.amplitude > 5 * peak(tmp_path, turned, job).amplitude


# The texts of DiFX

def im_text(parts: list[model.Part], origin: delay.Theory, seconds: int = 120, before: int = 30) -> str:
    """A text `.im` of these parts' delays, with its sign and units, in pieces that begin before their scans."""
    keys = sorted({part.key for part in parts})
    lines = ["CALC SERVER:        nowhere", "POLYNOMIAL ORDER:   5", f"INTERVAL (SECS):    {seconds}", f"NUM TELESCOPES:     {len(keys)}"]
    lines += [f"TELESCOPE {number} NAME:   {key.upper()}" for number, key in enumerate(keys)]
    names = list(dict.fromkeys(part.scan for part in parts))
    for scan, name in enumerate(names):
        lines += [f"SCAN {scan} POINTING SRC: 0316+413", f"SCAN {scan} NUM PHS CTRS: 1", f"SCAN {scan} PHS CTR 0 SRC: 0316+413"]
        own = [part for part in parts if part.scan == name]
        begin, end = min(part.begin for part in own) - before, max(part.end for part in own)
        for poly in range(math.ceil((end - begin) / seconds)):
            second = begin + poly * seconds
            lines += [f"SCAN {scan} POLY {poly} MJD:  {second // 86400 + 40587}", f"SCAN {scan} POLY {poly} SEC:  {second % 86400}"]
            for part in own:
                piece = dataclasses.replace(part, begin=second, end=float(second + seconds))
                number = keys.index(part.key)
                terms = [-one * 1e6 for one in origin.fit(piece).coefficients]
                places = origin.places(piece, numpy.arange(5) * 30.0)[1]
                columns = numpy.linalg.solve(numpy.vander(numpy.arange(5) * 30.0, increasing=True), -places).T.tolist()
                lines.append(f"SRC 0 ANT {number} DELAY (us):\t0.0")
                for name, column in zip(("DELAY (us)", "U (m)", "V (m)", "W (m)"), (terms, *columns)):
                    lines.append(f"SRC 1 ANT {number} {name}:\t" + "\t".join(f"{one:.15e}" for one in column))
                lines.append(f"SRC 1 ANT {number} EL GEOM:\t4.5e+01\t1e-3")
    return "\n".join(lines) + "\n"


def test_polynomials_of_an_im_file(tmp_path: Path, capsys: pytest.CaptureFixture[str]) -> None:
    """They come to the same delays and places, with their sign turned and cut to the scans."""
    (tmp_path / "night.im").write_text(im_text(all_parts(), theory()))
    status, text = call(tmp_path, "--im", str(tmp_path / "night.im"))
    assert status == 0, capsys.readouterr()
    knot = int(text.split("knot ")[1].split()[0])
    begins = {key: [begin - vex.second_of("2010y115d08h29m00s") for of, begin, _ in lines_of(text, "poly") if of == key] for key in ("Ef", "Sh")}
    assert begins == {"Ef": [0, 70, 90, 180, 210], "Sh": [0, 90, 180, 210, 240]}
    rate, origin = 2_000_000, theory()
    for part in all_parts():
        for key, begin, coefficients in lines_of(text, "poly"):
            if key == part.key and part.begin <= begin < part.end:
                samples = numpy.array([0, 12_345_678, 39_999_999])
                found = numpy.array([in_whole_numbers(coefficients, knot, (0, 0, 0), rate, int(one)) for one in samples]) / (rate * 2.0 ** 32)
                assert numpy.abs(found - origin.late(part, begin - part.begin + samples / rate)).max() < PICO
    rows = [line.split() for line in (tmp_path / "model.txt.uvw").read_text().splitlines() if not line.startswith("#")]
    for row in rows[:20]:
        part = next(one for one in all_parts() if one.key == row[0])
        late, places = origin.places(part, numpy.array([vex.second_of(row[2]) - float(part.begin)]))
        assert abs(float(row[3]) - late[0]) < PICO and numpy.abs(numpy.array([float(one) for one in row[4:]]) - places[0]).max() < 0.01


@pytest.mark.parametrize("old, new, said", [
    ("TELESCOPE 1 NAME:   SH", "TELESCOPE 1 NAME:   WB", "no telescope Sh"),
    ("INTERVAL (SECS):    120", "INTERVAL (SECS):    60", "no DELAY (us) of Ef for 3C84 from 2010y115d08h29m00s on, which scan No0001 needs"),
    ("INTERVAL (SECS):    120", "INTERVAL (SECS):    x", "line 3: invalid literal for int"),
    ("DELAY (us):\t1", "DELAY (us):\t-1", "is negative at an elevation of 45.0 degrees, and should be positive"),
    ("SCAN 0 POLY", "SCAN 0 PLY", "terms before any SCAN"),
])
def test_faults_name_the_im_file(old: str, new: str, said: str) -> None:
    text = im_text(all_parts(), theory())
    assert old in text
    with pytest.raises(im.ImFault, match="night.im: ") as caught:
        given = im.Given(text.replace(old, new), "night.im", night())
        for part in all_parts():
            for one in model.cut(part, 10 ** 6, given.cuts(part)):
                given.fit(one)
    assert said in str(caught.value)


def test_a_polynomial_of_a_later_begin() -> None:
    terms = tuple(fractions.Fraction(one) for one in (3, -2, 5, 7))
    later = im.moved(terms, fractions.Fraction(10))
    for seconds in (0, 1, -4):
        assert model.value_at(later, fractions.Fraction(seconds)) == model.value_at(terms, fractions.Fraction(seconds + 10))


def test_the_atmosphere_of_an_im_file_stays(tmp_path: Path, capsys: pytest.CaptureFixture[str]) -> None:
    assert call(tmp_path, "--no-atmosphere", "--im", "night.im")[0] == 1
    assert "night.im: the delays of an .im file have their atmosphere" in capsys.readouterr().err


def test_what_one_line_says_is_what_the_job_has() -> None:
    """`job.poly_value` is the definition's."""
    counts = [-133049063524250, -1552378402610404, 8019223329449435, 103716148847010475]
    for samples in (0, 1, 32767, 32768, 987654321):
        assert jobs.poly_value(counts, 32768, samples) == in_whole_numbers(counts, 32768, (0, 0, 0), 2_000_000, samples)
