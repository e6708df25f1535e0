"""`vlbi.fits` and `vlbi-fits`: what stands in the written file, against the record file and the schedule by the plain formulas."""
from __future__ import annotations

import math
import os
import shutil
import struct
import subprocess
import sys
import warnings
from collections.abc import Callable
from pathlib import Path
from typing import Any

import numpy
import pytest
import record_files
import theory
from numpy.typing import NDArray

from vlbi import job, quantiser, records, rotation, spectrum, vex
from vlbi.commands import fits as command
from vlbi.faults import Fault

pytest.importorskip("astropy")
pytest.importorskip("erfa")
from astropy.io import fits  # noqa: E402

from vlbi import geometry  # noqa: E402

Complexes = NDArray[numpy.complex128]
Reals = NDArray[numpy.float64]

LIGHT = 299792458.0
LAGS, INTEGRATION, RATE = 16, 500_000, 1_000_000
START = vex.second_of("2010y115d08h29m00s")
KEYS = ("Ef", "Wb", "On")
BASELINES = ((0, 0), (0, 1), (0, 2), (1, 1), (1, 2), (2, 2))
CHANNELS = {"CH01": "R", "CH02": "L", "CH03": "R", "CH04": "L"}
PRODUCTS = tuple((x, y) for pair in (("CH01", "CH02"), ("CH03", "CH04")) for x in pair for y in pair)
SITES = {"Ef": (4033947.2355, 486990.7943, 4900431.0017), "Wb": (3828763.1, 442448.0, 5064923.0), "On": (3370605.7, 711917.7, 5349830.9)}
SKY = """VEX_rev = 1.5;
$EXPER; def N10; exper_name = N10X; enddef;
$MODE; def M; ref $FREQ = F; ref $IF = I; ref $BBC = B; enddef;
$FREQ; def F; sample_rate = 1 Ms/sec;
  chan_def = : 8400.00 MHz : U : 0.5 MHz : &CH01 : &BBC01 : &NoCal;
  chan_def = : 8400.00 MHz : U : 0.5 MHz : &CH02 : &BBC02 : &NoCal;
  chan_def = : 8416.00 MHz : L : 0.5 MHz : &CH03 : &BBC01 : &NoCal;
  chan_def = : 8416.00 MHz : L : 0.5 MHz : &CH04 : &BBC02 : &NoCal; enddef;
$IF; def I; if_def = &IF_A : A : R : 7650 MHz : U; if_def = &IF_B : B : L : 7650 MHz : U; enddef;
$BBC; def B; BBC_assign = &BBC01 : 01 : &IF_A; BBC_assign = &BBC02 : 02 : &IF_B; enddef;
$STATION;
def Ef; ref $SITE = EF; ref $ANTENNA = EF; enddef;
def Wb; ref $SITE = WB; ref $ANTENNA = WB; enddef;
def On; ref $SITE = ON; enddef;
$SITE;
def EF; site_position = 4033947.2355 m : 486990.7943 m : 4900431.0017 m; enddef;
def WB; site_position = 3828763.1 m : 442448.0 m : 5064923.0 m; enddef;
def ON; site_position = 3370605.7 m : 711917.7 m : 5349830.9 m; enddef;
$ANTENNA;
def EF; antenna_diam = 100.0 m; axis_type = az : el; axis_offset = 0.0135 m; enddef;
def WB; antenna_diam = 25.0 m; axis_type = ha : dec; axis_offset = 4.95 m; enddef;
$SOURCE;
def 3C84; ra = 03h19m48.1600960s; dec = 41d30'42.104043"; ref_coord_frame = J2000; enddef;
def 3C345; source_name = "1641+399"; ra = 16h42m58.8099690s; dec = 39d48'36.993960"; ref_coord_frame = J2000; enddef;
$SCHED;
scan No0001; start = 2010y115d08h29m00s; mode = M; source = 3C84;
  station = Ef : 0 sec : 2.25 sec; station = Wb : 0 sec : 2.25 sec; station = On : 0 sec : 2.25 sec; endscan;
scan No0002; start = 2010y116d00h00m10s; mode = M; source = 3C345;
  station = Ef : 0 sec : 1 sec; station = Wb : 0 sec : 1 sec; station = On : 0 sec : 1 sec; endscan;
"""
SCANS = (("No0001", START, 2_250_000), ("No0002", vex.second_of("2010y116d00h00m10s"), 1_000_000))
CELLS = Callable[[int, int, int, int], NDArray[Any]]


def job_text(bits: int = 2, products: tuple[tuple[str, str], ...] = PRODUCTS, more: str = "") -> str:
    lines = [f"lags {LAGS}", f"integration {INTEGRATION}", "epoch 250000", "auto"]
    lines += [f"station {key} {number} {bits} 4 5032" for number, key in enumerate(KEYS, 1)]
    lines += [f"product {x} {y}" for x, y in products]
    return "\n".join(lines) + "\n" + more


def record_file(cells: CELLS, products: tuple[tuple[str, str], ...] = PRODUCTS, scans: tuple[tuple[str, int, int], ...] = SCANS) -> bytes:
    """A record file whose cells (L,) are those of a scan, an integration, a product and a baseline."""
    parts = [b"VLBIVIS1", struct.pack("<IQQI", LAGS, INTEGRATION, RATE, len(KEYS)), *(record_files.name(key.encode()) for key in KEYS)]
    parts += [struct.pack("<I", len(products)), *(record_files.name(x.encode()) + record_files.name(y.encode()) for x, y in products)]
    parts.append(struct.pack("<I", len(scans)))
    for name, start, samples in scans:
        parts.append(record_files.name(name.encode()) + struct.pack("<QQI", start, samples, len(BASELINES)))
        parts += [struct.pack("<II", *pair) for pair in BASELINES]
    body = [
        struct.pack("<BIQII", 1, scan, m, p, b) + cells(scan, m, p, b).tobytes()
        for scan, (_, _, samples) in enumerate(scans) for m in range(-(-samples // INTEGRATION)) for p in range(len(products)) for b in range(len(BASELINES))
    ]
    return b"".join([*parts, *body, struct.pack("<BQ", 255, len(body))])


def cells_of(means: Complexes, count: int = 10 ** 9) -> NDArray[Any]:
    """Cells with these means of so many pairs."""
    made = numpy.zeros(LAGS, records.CELL)
    made["re"], made["im"], made["count"] = numpy.rint(means.real * count), numpy.rint(means.imag * count), count
    return made


def random_cells(scan: int, m: int, p: int, b: int) -> NDArray[Any]:
    """Random cells: those of the second integration lack a product, and in one baseline all."""
    random = numpy.random.default_rng([scan, m, p, b])
    made = numpy.zeros(LAGS, records.CELL)
    made["re"], made["im"] = random.integers(-10 ** 6, 10 ** 6, (2, LAGS))
    made["count"] = random.integers(1, INTEGRATION, LAGS)
    if m == 1 and (p == 3 or b == 2):
        made[:] = 0
    return made


class Folder:
    """A folder with a record file sky.vis, a job job.txt and a schedule sky.vex."""

    def __init__(self, path: Path) -> None:
        self.path = path
        (path / "sky.vex").write_text(SKY)
        (path / "job.txt").write_text(job_text())

    def write(self, file: bytes, *words: str, vex_words: tuple[str, ...] = ("--vex", "sky.vex")) -> None:
        (self.path / "sky.vis").write_bytes(file)
        assert command.main(["sky.vis", "--job", "job.txt", *vex_words, "-o", "sky.fits", *words]) == 0

    def tables(self) -> dict[str, Any]:
        with warnings.catch_warnings(), fits.open(self.path / "sky.fits", memmap=False) as file:
            warnings.filterwarnings("ignore", "Field 3 has a repeat count of 0")  # ORBPARM, which no station on earth has
            for table in file[1:]:
                assert table.data is not None  # it is read once it is asked for
            return {table.name: table for table in file}

    def rows(self) -> tuple[NDArray[Any], Complexes]:
        """The rows of UV_DATA, and their visibilities (rows, bands, channels, stokes)."""
        table = self.tables()["UV_DATA"]
        head = table.header
        shape = tuple(head[f"MAXIS{axis}"] for axis in (4, 3, 2, 1))
        assert [head[f"CTYPE{axis}"] for axis in (4, 3, 2, 1)] == ["BAND", "FREQ", "STOKES", "COMPLEX"]
        flux = table.data["FLUX"].reshape(-1, *shape)
        return table.data, flux[..., 0] + 1j * flux[..., 1]

    def frequencies(self) -> Reals:
        """The sky frequencies of the file's channels in hertz, (bands, channels)."""
        table = self.tables()["FREQUENCY"]
        row, channels = table.data[0], numpy.arange(table.header["NO_CHAN"]) + 1 - table.header["REF_PIXL"]
        made: Reals = table.header["REF_FREQ"] + numpy.atleast_1d(row["BANDFREQ"])[:, None] + (
            numpy.atleast_1d(row["SIDEBAND"] * row["CH_WIDTH"]).astype(numpy.float64)[:, None] * channels)
        return made


@pytest.fixture
def folder(tmp_path: Path, monkeypatch: pytest.MonkeyPatch) -> Folder:
    monkeypatch.chdir(tmp_path)
    return Folder(tmp_path)


def plain_spectrum(cells: NDArray[Any], side: str) -> Complexes:
    """The spectrum of a record's cells by the sum that it is, channel by channel from the band's edge on; a lower sideband's runs down from there."""
    found = numpy.zeros(LAGS // 2, numpy.complex128)
    for k in range(LAGS // 2):
        for place in range(LAGS):
            if cells["count"][place] > 0:
                turn = (k * (place - LAGS // 2) % LAGS) / LAGS
                found[k] += complex(cells["re"][place], cells["im"][place]) / float(cells["count"][place]) * numpy.exp(2j * numpy.pi * turn)
    return found if side == "U" else found.conj()[::-1]


def due_rows() -> list[tuple[int, int, int]]:
    """Scan, integration and baseline of the rows that are due."""
    made = [(scan, m, b) for scan, many in enumerate((5, 2)) for m in range(many) for b in range(len(BASELINES))]
    return [(scan, m, b) for scan, m, b in made if not (m == 1 and b == 2)]


def test_visibilities_weights_and_times(folder: Folder, monkeypatch: pytest.MonkeyPatch) -> None:
    folder.write(record_file(random_cells))
    rows, found = folder.rows()
    due = due_rows()
    assert len(rows) == len(due) and found.shape == (len(due), 2, LAGS // 2, 4)
    stokes = {"RR": 0, "LL": 1, "RL": 2, "LR": 3}
    weights = rows["WEIGHT"].reshape(-1, 2, 4)
    for row, (scan, m, b) in enumerate(due):
        a, other = BASELINES[b]
        assert rows["BASELINE"][row] == 256 * (a + 1) + other + 1
        length = min(INTEGRATION, SCANS[scan][2] - m * INTEGRATION) / RATE
        begin = SCANS[scan][1] + m * INTEGRATION / RATE
        assert rows["INTTIM"][row] == pytest.approx(length)
        # 8 h 29 min on 25 April 2010, Julian date 2455311.5 at midnight, and 10 seconds past the next midnight
        assert rows["DATE"][row] == 2455311.5 + scan and rows["SOURCE_ID"][row] == scan + 1
        assert rows["TIME"][row] * 86400 == pytest.approx(begin + length / 2 - (1272153600 + 86400 * scan), abs=1e-6)
        for p, (x, y) in enumerate(PRODUCTS):
            cells = random_cells(scan, m, p, b)
            band, place = p // 4, stokes[CHANNELS[x] + CHANNELS[y]]
            plain = plain_spectrum(cells, "UL"[band])
            if a == other and x == y:
                plain = plain.real + 0j
            seen = float(cells["count"][LAGS // 2]) / INTEGRATION
            assert weights[row, band, place] == pytest.approx(seen)
            assert abs(found[row, band, :, place] - plain * (seen > 0)).max() <= 2e-6 * max(1, abs(plain).max())
    assert rows["FREQID"].tolist() == [1] * len(rows)
    whole = (folder.path / "sky.fits").read_bytes()
    monkeypatch.setattr("vlbi.fits.BLOCK", 1)
    folder.write(record_file(random_cells))
    assert (folder.path / "sky.fits").read_bytes() == whole  # however many integrations are taken at once
    assert len(whole) % 2880 == 0


def test_tables(folder: Folder) -> None:
    folder.write(record_file(random_cells))
    tables = folder.tables()
    assert list(tables) == ["PRIMARY", "ARRAY_GEOMETRY", "ANTENNA", "FREQUENCY", "SOURCE", "UV_DATA"]
    sites, antennas, bands, sources = (tables[name].data for name in ("ARRAY_GEOMETRY", "ANTENNA", "FREQUENCY", "SOURCE"))
    assert sites["ANNAME"].tolist() == antennas["ANNAME"].tolist() == list(KEYS)
    assert sites["NOSTA"].tolist() == antennas["ANTENNA_NO"].tolist() == [1, 2, 3]
    assert [tuple(row) for row in sites["STABXYZ"]] == list(SITES.values())
    assert sites["MNTSTA"].tolist() == [0, 1, 0] and sites["DIAMETER"].tolist() == [100, 25, 0]
    assert sites["STAXOF"][:, 0] == pytest.approx([0.0135, 4.95, 0])
    assert antennas["NO_LEVELS"].tolist() == [4, 4, 4] and antennas["POLTYA"].tolist() == ["R"] * 3 and antennas["POLTYB"].tolist() == ["L"] * 3
    assert bands["SIDEBAND"].tolist() == [[1, 1]] and bands["BANDFREQ"].tolist() == [[0, 16e6 - 7 * 62500]]
    assert bands["CH_WIDTH"].tolist() == [[62500, 62500]] and bands["TOTAL_BANDWIDTH"].tolist() == [[500_000, 500_000]]
    assert folder.frequencies()[0].tolist() == [8400e6 + 62500 * k for k in range(8)]
    assert folder.frequencies()[1].tolist() == [8416e6 - 62500 * k for k in reversed(range(8))]
    assert sources["SOURCE"].tolist() == ["3C84", "1641+399"] and sources["SOURCE_ID"].tolist() == [1, 2]
    assert sources["RAEPO"] == pytest.approx([15 * (3 + 19 / 60 + 48.160096 / 3600), 15 * (16 + 42 / 60 + 58.809969 / 3600)], abs=1e-11)
    assert sources["DECEPO"] == pytest.approx([41 + 30 / 60 + 42.104043 / 3600, 39 + 48 / 60 + 36.99396 / 3600], abs=1e-11)
    # ten years of precession and less than 20 arc seconds of aberration, along the right ascension
    assert sources["RAAPP"][0] - sources["RAEPO"][0] == pytest.approx(10.31 * 3.9 / 240, abs=0.01)
    head = tables["ARRAY_GEOMETRY"].header
    assert (head["FRAME"], head["TIMSYS"], head["RDATE"], head["IATUTC"], head["OBSCODE"]) == ("GEOCENTRIC", "UTC", "2010-04-25", 34.0, "N10X")
    assert (head["NO_BAND"], head["NO_CHAN"], head["NO_STKD"], head["STK_1"], head["REF_FREQ"]) == (2, 8, 4, -1, 8400e6)
    assert head["GSTIA0"] == pytest.approx(212.95, abs=0.1)  # 14h 12m on 25 April


def celestial(key: str, seconds: Reals) -> Reals:
    """A station's place in the celestial frame by the coordinates of astropy, in metres (N, 3)."""
    from astropy import units
    from astropy.coordinates import EarthLocation
    from astropy.time import Time
    from astropy.utils import iers

    with iers.conf.set_temp("auto_download", False):
        when = Time(seconds, format="unix", scale="utc")
        place, _ = EarthLocation.from_geocentric(*SITES[key], unit=units.m).get_gcrs_posvel(when)
        found: Reals = place.xyz.to_value(units.m).T
        return found


def direction(right_ascension: float, declination: float) -> Reals:
    return numpy.array([
        math.cos(declination) * math.cos(right_ascension), math.cos(declination) * math.sin(right_ascension), math.sin(declination),
    ])


def middles(scan: int) -> Reals:
    begins = numpy.arange(0, SCANS[scan][2], INTEGRATION)
    made: Reals = SCANS[scan][1] + (begins + numpy.minimum(begins + INTEGRATION, SCANS[scan][2])) / (2 * RATE)
    return made


def test_u_v_and_w(folder: Folder) -> None:
    """Of the first antenna less the second, at the middles of the integrations: along the source's direction, and as it moves east and north."""
    folder.write(record_file(random_cells))
    rows, _ = folder.rows()
    places = {(scan, key): celestial(key, middles(scan)) for scan in (0, 1) for key in KEYS}
    sources = list(vex.from_bytes(SKY.encode()).sources.values())
    step = 1e-4
    for row, (scan, m, b) in zip(rows, due_rows()):
        a, d = sources[scan].right_ascension, sources[scan].declination
        apart = (places[scan, KEYS[BASELINES[b][0]]][m] - places[scan, KEYS[BASELINES[b][1]]][m]) / LIGHT
        u = apart @ (direction(a + step, d) - direction(a - step, d)) / (2 * step * math.cos(d))
        v = apart @ (direction(a, d + step) - direction(a, d - step)) / (2 * step)
        assert [row["UU"], row["VV"], row["WW"]] == pytest.approx([u, v, apart @ direction(a, d)], abs=1e-10)  # 3 cm


def test_u_v_and_w_of_a_table(folder: Folder) -> None:
    lines = ["# a model", ""]
    for name, start, source in (("No0001", START, "3C84"), ("No0002", SCANS[1][1], "3C345")):
        for number, key in enumerate(KEYS):
            for t in (0, 1, 2, 3):
                lines.append(f"{key} {source} {vex.vex_time(start + t)} 1e-3 {1e6 * number + t ** 3} {2e6 * number - t} {3e6 * number + t * t} # {name}")
    (folder.path / "model.uvw").write_text("\n".join(lines) + "\n")
    folder.write(record_file(random_cells), "--uvw", "model.uvw")
    rows, _ = folder.rows()
    for row, (scan, m, b) in zip(rows, due_rows()):
        apart = BASELINES[b][0] - BASELINES[b][1]
        assert numpy.array([row["UU"], row["VV"], row["WW"]]) * LIGHT == pytest.approx([1e6 * apart, 2e6 * apart, 3e6 * apart], abs=1e-3)
    table = geometry.read_table("model.uvw")
    target = geometry.Target("3C84", vex.Source("3C84", 0.0, 0.0, "J2000"))
    assert table.uvw("Ef", target, numpy.array([START + 0.5, START + 2.25]))[:, 0] == pytest.approx([0.125, 2.25 ** 3], abs=1e-6)


def test_u_v_and_w_of_a_model(folder: Folder) -> None:
    """The table of `vlbi-model` has the places that are computed from the same sites."""
    from vlbi import earth
    from vlbi.commands import model

    assert model.main(["sky.vex", "-o", "model.txt", "--station", "Ef", "--station", "Wb"]) == 0
    read, table = vex.read("sky.vex"), geometry.read_table("model.txt.uvw")
    computed = geometry.Computed({key: read.site(key) for key in ("Ef", "Wb")}, earth.of_tables())
    for scan, name in enumerate(("3C84", "3C345")):
        target = geometry.Target(name, read.source(name))
        for key in ("Ef", "Wb"):
            assert abs(table.uvw(key, target, middles(scan)) - computed.uvw(key, target, middles(scan))).max() < 1e-3
    with pytest.raises(Fault, match="model.txt.uvw: no rows of station On and source 3C84 at 2010y115d08h29m00s"):
        table.uvw("On", geometry.Target("3C84", read.source("3C84")), middles(0))


EOP = """$EOP; def A; TAI-UTC = 34 sec; eop_ref_epoch = 2010y114d; num_eop_points = 4; eop_interval = 24 hr;
  ut1-utc = 0.5 sec : 0.5 sec : 0.5 sec : 0.5 sec;
  x_wobble = 0 asec : 0 asec : 0 asec : 0 asec; y_wobble = 0 asec : 0 asec : 0 asec : 0 asec; enddef;
"""


@pytest.mark.parametrize("more, ut1_utc", [("", -0.0164), (EOP, 0.5)])
def test_the_earth_is_turned_as_the_schedule_says(folder: Folder, more: str, ut1_utc: float) -> None:
    (folder.path / "sky.vex").write_text(SKY + more)
    folder.write(record_file(random_cells))
    head = folder.tables()["ARRAY_GEOMETRY"].header
    assert head["UT1UTC"] == pytest.approx(ut1_utc, abs=3e-3)
    rows, _ = folder.rows()
    # by as much further round as UT1 is ahead of what the tables say
    angle = (ut1_utc + 0.0164) * 2 * math.pi / 86164
    apart = (celestial("Ef", middles(0)) - celestial("Wb", middles(0)))[0] / LIGHT
    turned = apart + angle * numpy.cross([0, 0, 1], apart)
    source = vex.from_bytes(SKY.encode()).sources["3C84"]
    assert rows["WW"][1] == pytest.approx(turned @ direction(source.right_ascension, source.declination), abs=2e-9)


def test_days_of_which_nobody_knows_the_earth_are_turned_by_utc() -> None:
    found = geometry.orientation_of(None, 4_000_000_000 // 86400 * 86400, 4_000_000_000)
    day = geometry.day_of(4_000_000_000 // 86400 * 86400, found)
    assert abs(day.ut1_utc) < 1e-9 and day.pole == (0, 0) and found.origin == geometry.UNKNOWN


def wave(turns: Callable[[Reals], Complexes], side: str) -> Complexes:
    """The means over lags whose spectrum is this function of the places in the band, hertz: nothing in the mirror's half."""
    made = numpy.zeros(LAGS, numpy.complex128)
    places = numpy.arange(LAGS // 2) * RATE / LAGS
    values = turns(places) if side == "U" else turns(places).conj()
    for place in range(LAGS):
        made[place] = (values * numpy.exp(-2j * numpy.pi * places * (place - LAGS // 2) / RATE)).sum() / LAGS
    return made


@pytest.mark.parametrize("late", [3, -2])
def test_a_fringe_at_a_lag_turns_the_phase_over_the_band(folder: Folder, late: int) -> None:
    """The second station `late` samples late: the peak of the upper sideband stands at that lag, and the phase is that of 2 pi f times the delay."""
    def cells(scan: int, m: int, p: int, b: int) -> NDArray[Any]:
        a, other = BASELINES[b]
        means = numpy.zeros(LAGS, numpy.complex128)
        means[LAGS // 2 + (late if (a, other) == (0, 1) else 0)] = 0.1
        return cells_of(means)

    folder.write(record_file(cells))
    rows, found = folder.rows()
    delay = late / RATE
    chosen = found[rows["BASELINE"] == 258][:, :, :, 0]
    for band, edge in enumerate((8400e6, 8416e6)):
        due = numpy.exp(2j * numpy.pi * (folder.frequencies()[band] - edge) * delay)
        assert abs(chosen[:, band] / 0.1 - due).max() < 1e-6


@pytest.mark.parametrize("known, side", [("blind", "U"), ("blind", "L"), ("job", "U"), ("job", "L")])
def test_simulated_stations_have_the_phase_of_the_sky_frequency(folder: Folder, known: str, side: str) -> None:
    """Recordings in which the wave reaches the second station late: at each channel the phase is 2 pi times its sky frequency times the delay.

    A job that knows the delay takes it out, but for a quarter of a sample: with that corrected no phase is left.
    """
    import correlator

    from vlbi import simulate

    rate, lags, delay = 20_000, 32, 3.25 / 20_000
    stations = simulate.Station("Ef"), simulate.Station("Wb", delay=(delay,))
    sky = simulate.Sky(stations, rate=rate, seconds=1, sideband=side, common=0.9, frequency=8_400_001_234)
    simulate.simulate(sky, "day", lags=lags, integration=rate, blind_integration=rate)
    (folder.path / "day" / "sky.vis").write_bytes(correlator.correlate("day", f"{known}.txt", "sky.vex"))
    words = ["day/sky.vis", "--job", f"day/{known}.txt", "--vex", "day/sky.vex", "-o", "sky.fits", "--correct"]
    words += ["--source", "S", "--ra", "03h19m48s", "--dec", "41d30'42\""]
    delay = 0.0 if known == "job" else delay
    assert command.main([*words, *(word for key in ("Ef", "Wb") for word in ("--site", f"{key}={','.join(map(str, SITES[key]))}"))]) == 0
    _, found = folder.rows()
    frequencies = folder.frequencies()[0]
    places = rate / lags * numpy.arange(lags // 2)
    assert frequencies == pytest.approx(sky.frequencies[0] + places if side == "U" else sky.frequencies[0] - places[::-1], abs=1e-6)
    inner = places > 0 if side == "U" else places[::-1] > 0  # the channel at the edge lies half in the mirror image
    off = numpy.angle(found[0, 0, inner, 0] * numpy.exp(-2j * numpy.pi * (frequencies[inner] * delay)), deg=True)
    assert abs(off).max() < 20 and abs(off.mean()) < 4


def test_a_source_off_the_phase_centre_comes_out_where_it_was_put(folder: Folder) -> None:
    """A point 2 arc seconds west and 3 north of 3C84, by straight rays to where the stations are; the phases of all rows and channels say where."""
    centre = vex.from_bytes(SKY.encode()).sources["3C84"]
    second = math.pi / 648000
    l, m_ = -2 * second, 3 * second
    put = direction(centre.right_ascension + l / math.cos(centre.declination), centre.declination + m_)
    there = direction(centre.right_ascension, centre.declination)
    later = {key: -celestial(key, middles(0)) @ (put - there) / LIGHT for key in KEYS}  # than from the phase centre

    def cells(scan: int, m: int, p: int, b: int) -> NDArray[Any]:
        first, other = (later[KEYS[one]][m] if scan == 0 else 0.0 for one in BASELINES[b])
        edge, sign, side = ((8400e6, 1, "U"), (8416e6, -1, "L"))[p // 4]
        def turns(places: Reals) -> Complexes:
            made: Complexes = 0.1 * numpy.exp(2j * numpy.pi * (edge + sign * places) * (other - first))
            return made

        return cells_of(wave(turns, side))

    folder.write(record_file(cells))
    rows, found = folder.rows()
    chosen = (rows["SOURCE_ID"] == 1) & (rows["BASELINE"] // 256 != rows["BASELINE"] % 256)
    frequencies, phases = folder.frequencies(), found[chosen][..., 0]
    u, v = rows["UU"][chosen], rows["VV"][chosen]
    assert abs(abs(phases) - 0.1).max() < 1e-5

    def off(east: float, north: float) -> Reals:
        made: Reals = numpy.angle(phases * numpy.exp(-2j * numpy.pi * frequencies * (u * east + v * north)[:, None, None])).ravel()
        return made

    # from near the place: of a straight line's least squares what is left over is turned in no more than half a turn
    east, north = l + 3e-9, m_ - 4e-9
    for _ in range(3):
        design = 2 * numpy.pi * numpy.stack([(frequencies * axis[:, None, None]).ravel() for axis in (u, v)], axis=1)
        step = numpy.linalg.lstsq(design, off(east, north), rcond=None)[0]
        east, north = east + step[0], north + step[1]
    assert [east / second, north / second] == pytest.approx([-2, 3], abs=5e-5)
    assert abs(off(east, north)).max() < 0.02


# By casacore's reader

READER = """#include <casacore/msfits/MSFits/MSFitsIDI.h>

int main(int, char** names) { return casacore::MSFitsIDI(names[1], names[2], casacore::True).fillMS() ? 0 : 1; }
"""
LIBRARIES = ("msfits", "ms", "measures", "tables", "fits", "casa")
CORRELATIONS = {5: "RR", 6: "RL", 7: "LR", 8: "LL"}  # casacore's numbers of them


def test_a_measurement_set(folder: Folder) -> None:
    """Its rows are those of the file, band by band; its phases are turned round, as casacore has them."""
    casacore = pytest.importorskip("casacore.tables")
    if shutil.which("g++") is None or not Path("/usr/include/casacore/msfits/MSFits/MSFitsIDI.h").exists():
        pytest.skip("there is no g++, or casacore's headers are not there")
    folder.write(record_file(random_cells))
    (folder.path / "reader.cpp").write_text(READER)
    subprocess.run(["g++", "-std=c++17", "reader.cpp", "-o", "reader", *(f"-lcasa_{name}" for name in LIBRARIES)], check=True)
    subprocess.run(["./reader", "sky.fits", "sky.ms"], check=True, capture_output=True)

    def column(name: str, of: str = "") -> Any:
        with casacore.table(f"sky.ms{of}", ack=False) as table:
            return table.getcol(name)

    assert column("NAME", "/ANTENNA") == list(KEYS) and column("POSITION", "/ANTENNA").tolist() == [list(site) for site in SITES.values()]
    assert column("NAME", "/FIELD") == ["3C84", "1641+399"]
    places = column("PHASE_DIR", "/FIELD").reshape(2, 2) % (2 * math.pi)
    sources = list(vex.from_bytes(SKY.encode()).sources.values())
    assert abs(places - [[one.right_ascension, one.declination] for one in sources]).max() < 1e-12
    frequencies = column("CHAN_FREQ", "/SPECTRAL_WINDOW")
    assert frequencies.tolist() == [[8400e6 + 62500 * k for k in range(8)], [8416e6 - 62500 * k for k in reversed(range(8))]]
    assert (column("CHAN_WIDTH", "/SPECTRAL_WINDOW") == 62500).all()

    rows, _ = folder.rows()
    found, stokes = column("DATA"), [CORRELATIONS[one] for one in column("CORR_TYPE", "/POLARIZATION")[0]]
    assert len(found) == 2 * len(rows)
    for name, due in {
        "ANTENNA1": rows["BASELINE"] // 256 - 1, "ANTENNA2": rows["BASELINE"] % 256 - 1, "FIELD_ID": rows["SOURCE_ID"] - 1, "EXPOSURE": rows["INTTIM"],
        "TIME": (rows["DATE"] - 2400000.5 + rows["TIME"]) * 86400, "UVW": numpy.stack([rows["UU"], rows["VV"], rows["WW"]], axis=1) * LIGHT,
    }.items():
        assert abs(column(name) - numpy.repeat(due, 2, axis=0)).max() < 1e-4
    assert column("DATA_DESC_ID").tolist() == [0, 1] * len(rows)
    for row, (scan, m, b) in enumerate(due_rows()):
        for p, (x, y) in enumerate(PRODUCTS):
            cells = random_cells(scan, m, p, b)
            plain = plain_spectrum(cells, "UL"[p // 4]) * (cells["count"][LAGS // 2] > 0)
            plain = plain.real + 0j if BASELINES[b][0] == BASELINES[b][1] and x == y else plain
            assert abs(found[2 * row + p // 4, :, stokes.index(CHANNELS[x] + CHANNELS[y])] - plain.conj()).max() <= 2e-6 * max(1, abs(plain).max())


# Amplitudes

@pytest.mark.parametrize("bits", [1, 2, 4])
def test_weak_correlations_are_corrected_for_quantisation(folder: Folder, bits: int) -> None:
    """No delays are taken out: the mean product of levels is what theory says of a correlation of 0.05."""
    (folder.path / "job.txt").write_text(job_text(bits))
    amplitude = float(theory.level_product(0.05, bits))

    def cells(scan: int, m: int, p: int, b: int) -> NDArray[Any]:
        means = numpy.zeros(LAGS, numpy.complex128)
        same = BASELINES[b][0] == BASELINES[b][1]
        means[LAGS // 2] = amplitude if not same else theory.level_power(bits)
        return cells_of(means)

    folder.write(record_file(cells), "--correct")
    rows, found = folder.rows()
    same = rows["BASELINE"] // 256 == rows["BASELINE"] % 256
    assert abs(found[~same] - 0.05).max() < 1e-4
    assert abs(found[same][..., :2] - 1).max() < 1e-6
    folder.write(record_file(cells))
    assert abs(folder.rows()[1][~same] - amplitude).max() < 1e-7


@pytest.mark.parametrize("bits, step", [(2, 0.7), (4, 0.2), (4, 0.6)])
def test_thresholds_are_those_of_the_power(folder: Folder, bits: int, step: float) -> None:
    """The thresholds of one station stand at another step than the best one: its own power tells, and the gain is that of this step."""
    (folder.path / "job.txt").write_text(job_text(bits))
    amplitude = 0.01 * quantiser.gain(bits, step) * quantiser.gain(bits)

    def cells(scan: int, m: int, p: int, b: int) -> NDArray[Any]:
        means = numpy.zeros(LAGS, numpy.complex128)
        means[LAGS // 2] = {(0, 0): theory.level_power(bits, step), (1, 1): theory.level_power(bits)}.get(BASELINES[b], amplitude)
        return cells_of(means)

    folder.write(record_file(cells), "--correct")
    rows, found = folder.rows()
    assert abs(found[rows["BASELINE"] == 258] - 0.01).max() < 1e-6
    assert quantiser.step_of(bits, theory.level_power(bits, step)) == pytest.approx(step, abs=1e-9)
    assert quantiser.step_of(bits, 0.5) == quantiser.step_of(bits, 226) == quantiser.BEST[bits]


def test_a_channel_as_it_was_recorded() -> None:
    """A tone at `tone` turns a sample, of a station whose delay grows by 0.001 samples in each, is recorded lower by the fringe's turns in a sample. Its
    sample at the whole delay, turned back by the fringe's exact phase, has on the mean what `rests` says of that recorded frequency."""
    tone, edge, start, growth = 0.3, 40.0, 0.2, 0.001
    number = numpy.arange(1700.0)
    late = start + growth * number
    taken = number + numpy.floor(late + 0.5)
    wave = (taken - start) / (1 + growth)  # the wave that is in sample `taken`: wave + its delay = taken
    lead = taken - wave
    values = numpy.exp(2j * numpy.pi * (tone * wave - edge * lead)) * numpy.exp(2j * numpy.pi * edge * late)
    found = (values * numpy.exp(-2j * numpy.pi * tone * number)).mean()
    ends = numpy.array([[start, start + growth * len(number)]])
    assert abs(rotation.rests(ends, numpy.array([tone - edge * growth]))[0, 0] - found) < 2e-3
    assert abs(rotation.rests(ends, numpy.array([tone]))[0, 0] - found) > 0.02


def test_the_gain_of_levels_is_their_slope() -> None:
    for bits in (1, 2, 4):
        assert quantiser.gain(bits) ** 2 == pytest.approx(float(theory.level_product(1e-4, bits)) / 1e-4, rel=1e-6)


@pytest.mark.parametrize("products, edge, sign, side", [((("CH01", "CH01"),), 8400e6, 1, "U"), ((("CH04", "CH04"),), 8416e6, -1, "L")])
def test_rotation_and_whole_delays_are_corrected(folder: Folder, products: tuple[tuple[str, str], ...], edge: float, sign: int, side: str) -> None:
    """The second station's fringe turns fast and its delay runs through whole samples, the third one's stand: amplitudes by theory and by sums."""
    delays = {"Wb": [1e-7, 2e-7], "On": [0.3e-10]}
    lines = [job.poly_line(key, START - 10, delay, RATE) for key, delay in delays.items()]
    (folder.path / "job.txt").write_text(job_text(products=products, more="\n".join(lines) + "\n"))
    stands = sign * edge * 0.3e-10
    parts = {
        (0, 1): 2 * theory.rotated_amplitude(0.02, numpy.zeros(1), 2),  # at lag 0 half of the band's spectrum adds up
        (0, 2): 0.02 * quantiser.gain(2) ** 2 * numpy.conj(theory.three_levels(stands) * numpy.exp(-2j * numpy.pi * stands)),
    }

    def cells(scan: int, m: int, p: int, b: int) -> NDArray[Any]:
        begin, end = (min(samples, SCANS[0][2]) / RATE for samples in (m * INTEGRATION, (m + 1) * INTEGRATION))
        late = RATE * (1e-7 + 2e-7 * (10 + begin + (end - begin) * (numpy.arange(5000) + 0.5) / 5000))
        early = (numpy.floor(late + 0.5) - late) / RATE if BASELINES[b] == (0, 1) else 3e-11 * numpy.array([-1.0]) * (BASELINES[b] == (0, 2))

        def turns(places: Reals) -> Complexes:
            made: Complexes = parts.get(BASELINES[b], 0j) * numpy.exp(-2j * numpy.pi * places[:, None] * early).mean(axis=1)
            return made

        # `wave` turns a lower sideband's phases round, which these are not: they are those of what was recorded
        return cells_of(wave(turns if side == "U" else lambda places: turns(places).conj(), side))

    folder.write(record_file(cells, products, SCANS[:1]), "--correct")
    rows, found = folder.rows()
    assert len(rows) == 5 * len(BASELINES) and abs(found[rows["BASELINE"] == 258] - 0.02).max() < 4e-4
    assert abs(found[rows["BASELINE"] == 259] - 0.02).max() < 1e-5


def test_what_the_rotation_leaves() -> None:
    """By the sum over many places of a fringe, and its mean square."""
    places = numpy.array([[0.3, 0.3], [0.26, 0.27], [-3.9, 0.35], [1e6, 1e6 + 1234.5]])
    fine = [begin + (end - begin) * (numpy.arange(200_000) + 0.5) / 200_000 for begin, end in places]
    due = [(theory.three_levels(one) * numpy.exp(-2j * numpy.pi * one)).mean() for one in fine]
    assert abs(rotation.gain(places) - due).max() < 1e-4
    assert abs(rotation.power(places) - [(abs(theory.three_levels(one)) ** 2).mean() for one in fine]).max() < 1e-3


def test_what_whole_delays_leave() -> None:
    delays = numpy.array([[0.3, 0.3], [0.2, 0.7], [-3.9, 0.35], [1e5 + 0.5, 1e5 + 123.4], [2.6, -0.6]])
    bands = numpy.array([0, 0.1, 0.4375])
    fine = [begin + (end - begin) * (numpy.arange(100_000) + 0.5) / 100_000 for begin, end in delays]
    due = [numpy.exp(2j * numpy.pi * (numpy.floor(late + 0.5) - late)[:, None] * bands).mean(axis=0) for late in fine]
    assert abs(rotation.rests(delays, bands) - due).max() < 1e-4


def test_delays_of_a_job() -> None:
    """Against the correlator beside this file, which has them in whole numbers."""
    import correlator

    text = job_text(more="\n".join([
        "rate 1000", "scan S 2010y115d08h29m00s 3000", "knot 100", "poly Ef 2010y115d08h28m50s 12345678901 222222222222 -3333333333333",
        "poly Ef 2010y115d08h29m01s -5000000000 7777777777777", "clock Ef 2010y115d08h28m00s 4294967296 1000000", "clock Ef 2010y115d08h29m01s 99999 0",
    ]) + "\n")
    whole = correlator.Job(text.encode(), None)
    due = correlator.delays(whole, whole.stations["Ef"], whole.scans[0]) / 2 ** 32
    edges = numpy.stack([numpy.arange(0, 3000), numpy.arange(0, 3000) + 0.5], axis=1) / 1000
    found = rotation.Delays(job.job_lines(text.encode()), 1000).samples("Ef", START, edges)
    assert abs(found[:, 0] - due).max() < 1e-5


# What is not said in the schedule, and what is wrong

INLINE = f"rate {RATE}\nscan No0001 2010y115d08h29m00s 2250000\nscan No0002 2010y116d00h00m10s 1000000\nband CH01 8400000000 U\nband CH03 8416000000 L\n"
INLINE_WORDS = ("--source", "3C84", "--ra", "03h19m48.16s", "--dec", "41d30'42.1\"", *(
    word for key, site in SITES.items() for word in ("--site", f"{key}={','.join(map(str, site))}")))
PARALLEL = (("CH01", "CH01"), ("CH03", "CH03"))


def test_a_job_that_states_its_scans(folder: Folder) -> None:
    (folder.path / "job.txt").write_text(job_text(products=PARALLEL, more=INLINE))
    folder.write(record_file(random_cells, PARALLEL), *INLINE_WORDS, "--polarisation", "CH01=L", "--polarisation", "CH03=L", vex_words=())
    tables = folder.tables()
    assert (tables["UV_DATA"].header["STK_1"], tables["UV_DATA"].header["NO_STKD"], tables["UV_DATA"].header["NO_BAND"]) == (-2, 1, 2)
    assert tables["SOURCE"].data["SOURCE"].tolist() == ["3C84"]
    assert folder.frequencies()[1].tolist() == [8416e6 - 62500 * k for k in reversed(range(8))]
    assert "HISTORY" not in tables["PRIMARY"].header or not any("assumed" in line for line in tables["PRIMARY"].header["HISTORY"])


def test_a_band_that_is_narrower_than_the_samples(folder: Folder) -> None:
    (folder.path / "sky.vex").write_text(SKY.replace("0.5 MHz", "0.25 MHz"))
    folder.write(record_file(random_cells))
    assert folder.tables()["FREQUENCY"].data["TOTAL_BANDWIDTH"].tolist() == [[250_000, 250_000]]
    assert folder.rows()[1].shape[2] == 4
    assert [spectrum.channels(64, 4_000_000, width) for width in (None, 2_000_000, 1_000_000, 100, 3_000_000)] == [32, 32, 16, 1, 32]


@pytest.mark.parametrize("old, new, words, said", [
    ("", "", ("--uvw", "none.uvw"), "none.uvw: No such file or directory"),
    ("", "", ("--uvw", "job.txt"), "job.txt: line 1 is no row of station, source, time, delay, u, v and w"),
    ("", "", ("--ra", "03h19m48s"), "--ra and --dec go together, with --source"),
    ("", "", ("--source", "S", "--ra", "3h", "--dec", "41d30'42\""), "--ra, --dec: no angle in hours: 3h"),
    ("source = 3C84", "source = 3C85", (), "sky.vex: nobody says where source 3C85 is: --ra and --dec do"),
    ("source = 3C84;", "", (), "sky.vex: a scan has no source: --source names it"),
    ("scan No0001", "scan No0003", (), "sky.vex: no scan No0001 that starts at 2010y115d08h29m00s, as that of the records does"),
    ("ref $IF = I;", "", (), "scan No0001: the products CH01 CH01 and CH01 CH02 have one frequency and one polarisation; "
                             "--polarisation CHANNEL=R, L, X or Y says which they have"),
    (": B : L :", ": B : X :", (), "product CH01 CH02: FITS has no polarisations R with X"),
    ("def On; ref $SITE = ON; enddef;", "", (), "sky.vex: nobody says where station On is: --site On=X,Y,Z does"),
    ("site_position = 3370605.7 m", "site_position = 3370605.7 miles", (), "sky.vex: def ON of $SITE at byte"),
    ("ref_coord_frame = J2000;", "ref_coord_frame = B1950;", (),
     "sky.vex: source 3C84 is in the frame B1950, not in J2000: --source 3C84 with --ra and --dec states it"),
    ("8416.00 MHz : L : 0.5", "8416.00 MHz : L : 0.25", (), "the scans have no band, or not equally many, or bands of more than one bandwidth"),
])
def test_what_is_wrong_is_one_line(folder: Folder, capsys: pytest.CaptureFixture[str], old: str, new: str, words: tuple[str, ...], said: str) -> None:
    (folder.path / "sky.vex").write_text(SKY.replace(old, new))
    (folder.path / "sky.vis").write_bytes(record_file(random_cells))
    status = command.main(["sky.vis", "--job", "job.txt", "--vex", "sky.vex", "-o", "sky.fits", *words])
    err = capsys.readouterr().err
    assert status == 1 and err.count("\n") == 1 and err.startswith("vlbi-fits: ") and said in err
    assert not [name for name in os.listdir(folder.path) if name.startswith("sky.fits")]


@pytest.mark.parametrize("text, said", [
    (job_text().replace(f"lags {LAGS}", "lags 32"), f"job.txt: the records are of another job: their lags are {LAGS}, the job's 32"),
    (job_text(products=PARALLEL), "job.txt: the records are of another job: their products are"),
    ("lags 16\n", "job.txt: the job has no line `integration` with a number"),
])
def test_another_job(folder: Folder, capsys: pytest.CaptureFixture[str], text: str, said: str) -> None:
    (folder.path / "job.txt").write_text(text)
    (folder.path / "sky.vis").write_bytes(record_file(random_cells))
    assert command.main(["sky.vis", "--job", "job.txt", "--vex", "sky.vex", "-o", "sky.fits"]) == 1
    assert said in capsys.readouterr().err
    assert command.main(["sky.vis", "--job", "job.txt", "-o", "sky.fits"]) == 1


def test_a_file_that_cannot_be_written(folder: Folder, capsys: pytest.CaptureFixture[str]) -> None:
    (folder.path / "sky.vis").write_bytes(record_file(random_cells))
    assert command.main(["sky.vis", "--job", "job.txt", "--vex", "sky.vex", "-o", "nodir/sky.fits"]) == 1
    assert capsys.readouterr().err == "vlbi-fits: nodir/sky.fits.part: No such file or directory\n"


@pytest.mark.parametrize("words", [
    ("--site", "Ef=1,2"), ("--site", "Ef"), ("--polarisation", "CH01"), ("--polarisation", "CH01=C"), ("--polarisation", "=R"),
])
def test_options_that_are_none(words: tuple[str, ...]) -> None:
    with pytest.raises(SystemExit) as caught:
        command.main(["sky.vis", "--job", "job.txt", "-o", "sky.fits", *words])
    assert caught.value.code == 2


def test_version_and_help() -> None:
    import vlbi

    for word, begin in (("--version", f"vlbi-fits {vlbi.__version__}\n"), ("--help", "usage: vlbi-fits ")):
        done = subprocess.run([sys.executable, "-m", "vlbi.commands.fits", word], capture_output=True, text=True,
                              env={**os.environ, "PYTHONPATH": str(Path(command.__file__).parents[2])})
        assert (done.returncode, done.stderr) == (0, "") and done.stdout.startswith(begin)
