"""`vlbi.certificate`: texts written by hand are read or refused; the program writes and accepts them; and a blind search mends a clock."""
from __future__ import annotations

import struct
from pathlib import Path

import program
import pytest
import record_files

from vlbi import certificate, fringe, job, records, simulate
from vlbi.certificate import CertificateFault

Series = list[list[tuple[int, int]]]  # by integration and lag, `re` and `im`

GRID = b"grid 4 1\n"
PEAK = b"peak 0 0 0 1 4 6553600 0\n"
LAGS = b"lag -2 bound\nlag -1 bound\nlag 0 bound\nlag 1 grid\n"
TURNING = GRID + PEAK + LAGS
QUARTERS: Series = [[(0, 0)] * 3 + [cell] for cell in ((100, 0), (0, 100), (-100, 0), (0, -100))]


def file_of(scans: list[list[Series]], products: int = 1) -> bytes:
    """A record file of four lags, ten samples an integration and 40 a second: in each scan the Series of each product and, in it, each baseline.

    The stations are A, B and C; the baselines of a scan are A-B, and behind it A-C.
    """
    parts = [b"VLBIVIS1", struct.pack("<IQQI", 4, 10, 40, 3), *map(record_files.name, (b"A", b"B", b"C"))]
    parts += [struct.pack("<I", products), *[record_files.name(b"X")] * (2 * products), struct.pack("<I", len(scans))]
    body = []
    for number, scan in enumerate(scans):
        baselines, integrations = len(scan) // products, len(scan[0])
        parts += [record_files.name(b"S%d" % number), struct.pack("<QQI", 0, 10 * integrations, baselines)]
        parts += [struct.pack("<II", 0, other + 1) for other in range(baselines)]
        for m in range(integrations):
            for place, series in enumerate(scan):
                body.append(struct.pack("<BIQII", 1, number, m, *divmod(place, baselines)))
                body += [struct.pack("<qqQ", *cell, 10) for cell in series[m]]
    return b"".join([*parts, *body, struct.pack("<BQ", 255, len(body) // 5)])


def test_a_peak_in_the_units_of_the_field() -> None:
    """A quarter of a turn each integration, of a quarter of a second: one hertz, as `vlbi.fringe` finds it too."""
    found = records.from_bytes(file_of([[QUARTERS]]))
    read = certificate.from_bytes(TURNING, found)
    assert (read.rates, read.divide, list(read.peaks)) == (4, 1, [(0, 0, 0)])
    peak = read.peaks[0, 0, 0]
    assert (peak.lag, peak.step, peak.re, peak.im) == (1, 4, 6553600, 0)
    assert (peak.microseconds, peak.rate, peak.phase) == (25000, 1, 0)
    seen = fringe.of(found.scans[0], 0, 0)
    assert seen.lags[seen.nearest] == 1 and seen.rate == pytest.approx(1)


@pytest.mark.parametrize("re, im, degrees", [(1, 0, 0), (0, 5, 90), (-3, 0, 180), (0, -2 ** 63 + 1, -90), (7, 7, 45), (0, 0, 0)])
def test_phases(re: int, im: int, degrees: float) -> None:
    text = GRID + b"peak 0 0 0 -2 -4 %d %d\n" % (re, im) + LAGS
    peak = certificate.from_bytes(text, records.from_bytes(file_of([[QUARTERS]]))).peaks[0, 0, 0]
    assert peak.phase == pytest.approx(degrees) and (peak.microseconds, peak.rate) == (-50000, -1)


def test_a_fringe_and_its_mirror_image() -> None:
    """Real cells whose fringe turns a quarter each integration and, in the middle of the band, back by a quarter each lag."""
    rows = [(-100, 0, 100, 0), (0, -100, 0, 100), (100, 0, -100, 0), (0, 100, 0, -100)]
    scan = records.from_bytes(file_of([[[[(re, 0) for re in row] for row in rows]]])).scans[0]
    assert not fringe.is_mirrored(scan, 0, 0, 1) and fringe.is_mirrored(scan, 0, 0, -1)


NONE: Series = [[(0, 0)] * 4]
MANY: list[list[Series]] = [[NONE] * 4, [[], []], [QUARTERS, NONE * 4]]  # two baselines, a scan without samples, one baseline; two products
NOTHING = b"lag -2 grid\nlag -1 grid\nlag 0 grid\nlag 1 grid\n"
PLACES = [(0, 0, 0), (0, 0, 1), (0, 1, 0), (0, 1, 1), (1, 0, 0), (1, 1, 0), (2, 0, 0), (2, 1, 0)]
OF_MANY = GRID + b"".join(
    b"peak %d %d %d 1 4 6553600 0\n" % place + LAGS if place == (2, 0, 0) else b"peak %d %d %d -2 -4 0 0\n" % place + NOTHING for place in PLACES
)


def test_the_order_of_scans_products_and_baselines() -> None:
    read = certificate.from_bytes(OF_MANY, records.from_bytes(file_of(MANY, 2)))
    assert list(read.peaks) == PLACES
    assert [place for place, peak in read.peaks.items() if peak.step == 4] == [(2, 0, 0)]


@pytest.mark.parametrize("text, line, why", [
    (b"", 1, "the text ends where `grid W D` is due"),
    (b"grid 4 1", 1, "`grid 4 1` has no line feed"),
    (b"grid 4\n", 1, "`grid 4` stands where `grid W D` is due"),
    (b"grid 4 1 1\n", 1, "`grid 4 1 1` stands where `grid W D` is due"),
    (b"grid  4 1\n", 1, "`grid  4 1` stands where `grid W D` is due"),
    (b"grid 04 1\n", 1, "`grid 04 1` stands where `grid W D` is due"),
    (b"grid 4 1\r\n", 1, "`grid 4 1\r` stands where `grid W D` is due"),
    (b"grids 4 1\n", 1, "`grids 4 1` stands where `grid W D` is due"),
    (b"grid 4097 1\n", 1, "W is 4097, and goes from 0 to 4096"),
    (b"grid 4 0\n", 1, "D is 0, and goes from 1 to 65536"),
    (GRID, 2, "the text ends where `peak 0 0 0 LAG RATE RE IM` is due"),
    (GRID + LAGS, 2, "`lag -2 bound` stands where `peak 0 0 0 LAG RATE RE IM` is due"),
    (GRID + b"peak 0 0 1 1 4 6553600 0\n", 2, "`peak 0 0 1 1 4 6553600 0` stands where `peak 0 0 0 LAG RATE RE IM` is due"),
    (GRID + b"peak 0 0 0 1 4 6553600 -0\n", 2, "`peak 0 0 0 1 4 6553600 -0` stands where `peak 0 0 0 LAG RATE RE IM` is due"),
    (GRID + b"peak 0 0 0 2 4 6553600 0\n", 2, "LAG is 2, and goes from -2 to 1"),
    (GRID + b"peak 0 0 0 1 -5 6553600 0\n", 2, "RATE is -5, and goes from -4 to 4"),
    (GRID + b"peak 0 0 0 1 4 0 9223372036854775808\n", 2, "IM is 9223372036854775808, and goes from -9223372036854775807 to 9223372036854775807"),
    (GRID + PEAK + b"lag -1 bound\n", 3, "`lag -1 bound` stands where `lag -2 bound` or `lag -2 grid` is due"),
    (TURNING[:-1], 6, "`lag 1 grid` has no line feed"),
    (TURNING[:-len(b"lag 1 grid\n")], 6, "the text ends where `lag 1 bound` or `lag 1 grid` is due"),
    (TURNING + b"\n", 7, "no line is due any more"),
    (GRID + b"\xff" * 99 + b"\n", 2, "`" + "\N{REPLACEMENT CHARACTER}" * 60 + "` stands where `peak 0 0 0 LAG RATE RE IM` is due"),
])
def test_what_is_no_certificate(tmp_path: Path, text: bytes, line: int, why: str) -> None:
    found = records.from_bytes(file_of([[QUARTERS]]))
    (tmp_path / "a.peaks").write_bytes(text)
    with pytest.raises(CertificateFault) as refused:
        certificate.read(str(tmp_path / "a.peaks"), found)
    assert (refused.value.line, refused.value.why) == (line, why)
    assert str(refused.value) == f"{tmp_path}/a.peaks: no certificate of these records: line {line}: {why}"


@pytest.mark.parametrize("file, text", [(file_of([[QUARTERS]]), TURNING), (file_of(MANY, 2), OF_MANY)], ids=["turning", "many"])
def test_the_program_writes_and_accepts_them(tmp_path: Path, file: bytes, text: bytes) -> None:
    program.needs("fringe")
    program.needs("verify")
    (tmp_path / "a.vis").write_bytes(file)
    (tmp_path / "a.peaks").write_bytes(text)
    assert program.call("journal", "fringe", "a.vis", "--rates", "4", "--divide", "1", folder=tmp_path) == (0, text, b"")
    assert program.call("journal", "verify", "a.vis", "a.peaks", folder=tmp_path) == (0, b"right\n", b"")


class Search:
    """A folder of two stations, the clock of the second 74.2 microseconds ahead and gaining 10^-9, and the search for its fringe."""

    def __init__(self, folder: Path, side: str) -> None:
        self.folder = folder
        stations = (simulate.Station("Ef"), simulate.Station("Wb", clock=(74.2e-6, 1e-9)))
        self.sky = simulate.Sky(stations, rate=200_000, seconds=4, sideband=side)
        simulate.simulate(self.sky, str(folder), blind_integration=4000)
        self.middle = self.sky.frequencies[0] + (50_000 if side == "U" else -50_000)

    def peak(self, name: str, rates: int, divide: int) -> tuple[certificate.Peak, bool]:
        """The certified peak of the job of this name, and whether it is in the mirror image."""
        words = (f"{name}.journal", "run", "--job", f"{name}.txt", "--vex", "sky.vex", "--workers", "2", "--piece", "1000")
        self.write(f"{name}.vis", *words)
        self.write(f"{name}.peaks", "journal", "fringe", f"{name}.vis", "--rates", str(rates), "--divide", str(divide))
        assert program.call("journal", "verify", f"{name}.vis", f"{name}.peaks", folder=self.folder) == (0, b"right\n", b"")
        found = records.read(str(self.folder / f"{name}.vis"))
        peak = certificate.read(str(self.folder / f"{name}.peaks"), found).peaks[0, 0, 0]
        return peak, fringe.is_mirrored(found.scans[0], 0, 0, peak.rate)

    def write(self, name: str, *words: str) -> None:
        status, out, err = program.call(*words, folder=self.folder)
        assert (status, err) == (0, b"")
        (self.folder / name).write_bytes(out)

    def mend(self, name: str, microseconds: float, drift: float) -> None:
        """A job with this clock, in integrations of half a second."""
        text = (self.folder / "blind.txt").read_text().replace("integration 4000\n", "integration 100000\n")
        (self.folder / f"{name}.txt").write_text(text + job.clock_line("Wb", self.sky.start, microseconds, drift, self.sky.rate) + "\n")


@pytest.mark.parametrize("side", ["U", "L"])
def test_a_blind_search_mends_the_clock(tmp_path: Path, side: str) -> None:
    """14.84 samples; 10^-9 of 8.4 gigahertz are 8.4 hertz, 67.2 of the grid's steps of 0.125, the other way in the lower sideband."""
    for command in ("run", "fringe", "verify"):
        program.needs(command)
    search = Search(tmp_path, side)
    peak, mirrored = search.peak("blind", 200, 25)
    assert (peak.lag, abs(peak.step), peak.microseconds, abs(peak.rate)) == (15, 67, 75, 8.375)
    drift = (-peak.rate if mirrored else peak.rate) / search.middle * (1 if side == "U" else -1)
    assert drift == pytest.approx(1e-9, abs=0.0625 / search.middle)
    search.mend("mended", peak.microseconds, drift)
    peak, mirrored = search.peak("mended", 8, 1)
    assert (peak.lag, peak.step, mirrored) == (0, 0, False)
    search.mend("wrong", 75, -drift)
    peak, mirrored = search.peak("wrong", 8, 1)
    assert (peak.lag, peak.step, mirrored) == (0, 0, True)
