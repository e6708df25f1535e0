"""`vlbi.fringe`, `vlbi.plot` and `vlbi-plot`: the peak of a fringe that is put into a file is found, pictures are written, faults are lines."""
from __future__ import annotations

import os
import re
import struct
import subprocess
import sys
from pathlib import Path

import numpy
import pytest
import record_files
from matplotlib.figure import Figure

from vlbi import certificate
from vlbi import fringe as fringes
from vlbi import plot as drawing
from vlbi import records
from vlbi.commands import plot

LAGS, INTEGRATION, RATE, MANY = 16, 50_000, 1_000_000, 40
BASELINES = [(a, b) for a in range(5) for b in range(a + 1, 5)]
KEYS = (b"Ef", b"Wb", b"On", b"Mc", b"Tr")
PNG = b"\x89PNG\r\n\x1a\n"


def fringe_file(integrations: int = MANY, baselines: list[tuple[int, int]] = BASELINES, products: int = 1) -> bytes:
    """A record file in which each baseline has a fringe, at `lag_of` and `rate_of` its number, in a little noise."""
    random = numpy.random.default_rng(1)
    parts = [b"VLBIVIS1", struct.pack("<IQQI", LAGS, INTEGRATION, RATE, len(KEYS)), *map(record_files.name, KEYS)]
    parts += [struct.pack("<I", products), *(record_files.name(b"CH%02d" % (number + 1)) * 2 for number in range(products))]
    parts += [struct.pack("<I", 1), record_files.name(b"No0001")]
    parts += [struct.pack("<QQI", 1262304000, integrations * INTEGRATION, len(baselines)), *(struct.pack("<II", *it) for it in baselines)]
    lags = numpy.arange(LAGS) - LAGS // 2
    for m in range(integrations):
        for product in range(products):
            for number in range(len(baselines)):
                turns = rate_of(number) * (m - (integrations - 1) / 2) * INTEGRATION / RATE
                cells = 10_000 * numpy.sinc((lags - lag_of(number)) / 2) * numpy.exp(2j * numpy.pi * (turns + number / 20))
                cells = cells + random.normal(0, 300, LAGS) + 1j * random.normal(0, 300, LAGS)
                parts.append(struct.pack("<BIQII", 1, 0, m, product, number))
                parts += [struct.pack("<qqQ", int(cell.real), int(cell.imag), INTEGRATION) for cell in cells]
    parts.append(struct.pack("<BQ", 255, integrations * products * len(baselines)))
    return b"".join(parts)


def lag_of(number: int) -> float:
    return number - 4.0


def rate_of(number: int) -> float:
    return 0.7 * (number - 4.5)


def test_peaks() -> None:
    scan = records.from_bytes(fringe_file()).scans[0]
    for number in range(len(BASELINES)):
        found = fringes.of(scan, 0, number)
        assert found.lag == pytest.approx(lag_of(number), abs=0.1)
        assert found.rate == pytest.approx(rate_of(number), abs=0.02)
        assert found.amplitude == pytest.approx(0.2, abs=0.01)
        assert found.phase == pytest.approx(number * 18, abs=3)
        assert found.snr == pytest.approx(10_000 / (300 / MANY ** 0.5), abs=60)
        assert found.lags[found.nearest] == lag_of(number)


def test_one_integration_and_none() -> None:
    found = fringes.of(records.from_bytes(fringe_file(1)).scans[0], 0, 3)
    assert (found.rate, found.map.shape) == (0, (1, LAGS))
    assert numpy.isnan(fringes.of(records.from_bytes(fringe_file(0)).scans[0], 0, 3).lag)


def test_a_fringe_is_shown_in_one_line() -> None:
    shown = repr(fringes.of(records.from_bytes(fringe_file()).scans[0], 0, 3))
    assert "\n" not in shown and len(shown) < 200 and shown.startswith("Fringe(lag=-")


class Folder:
    """A folder with a record file `sky.vis`, in which the command is called."""

    def __init__(self, path: Path, capsys: pytest.CaptureFixture[str], monkeypatch: pytest.MonkeyPatch) -> None:
        self.path, self.capsys = path, capsys
        monkeypatch.chdir(path)
        monkeypatch.setenv("MPLCONFIGDIR", str(path / "config"))

    def call(self, file: bytes, *words: str) -> tuple[int, list[str], str]:
        """Calls the command on these records: its status, the pictures that are there now, what it said on standard error."""
        (self.path / "sky.vis").write_bytes(file)
        status = plot.main(["--dpi", "30", *words])
        pictures = sorted(name for name in os.listdir(self.path) if name.startswith("picture"))
        said = self.capsys.readouterr()
        if status == 0:
            assert all(line in pictures for line in said.out.splitlines())
        return status, pictures, said.err


@pytest.fixture
def folder(tmp_path: Path, capsys: pytest.CaptureFixture[str], monkeypatch: pytest.MonkeyPatch) -> Folder:
    return Folder(tmp_path, capsys, monkeypatch)


@pytest.mark.parametrize("what", ["page", "lags", "time", "map"])
def test_each_kind(folder: Folder, what: str) -> None:
    assert folder.call(fringe_file(8, BASELINES[:2]), "--what", what, "sky.vis", "picture.png") == (0, ["picture.png"], "")
    assert (folder.path / "picture.png").read_bytes().startswith(PNG)


@pytest.mark.parametrize("integrations", [1, 2])
def test_small_ones(folder: Folder, integrations: int) -> None:
    assert folder.call(fringe_file(integrations, BASELINES[:1]), "sky.vis", "picture.png") == (0, ["picture.png"], "")


def certificate_of(*peaks: tuple[int, int], divide: int = 1) -> bytes:
    """A certificate of `fringe_file` with these lags and rates of its baselines' peaks, and each sum of the phase 90."""
    lags = b"".join(b"lag %d grid\n" % lag for lag in range(-LAGS // 2, LAGS // 2))
    return b"grid 16 %d\n" % divide + b"".join(b"peak 0 0 %d %d %d 0 5\n" % (number, *peak) + lags for number, peak in enumerate(peaks))


@pytest.mark.parametrize("what", ["page", "lags", "time", "map"])
def test_each_kind_with_a_certificate(folder: Folder, what: str) -> None:
    (folder.path / "sky.peaks").write_bytes(certificate_of((-4, -3), (-3, -2)))
    words = ("--what", what, "--certificate", "sky.peaks", "sky.vis", "picture.png")
    assert folder.call(fringe_file(8, BASELINES[:2]), *words) == (0, ["picture.png"], "")


def marks(file: bytes, text: bytes, what: str) -> list[tuple[list[float], list[float]]]:
    """The places of all marks of certified peaks in the picture of a file with one fringe."""
    found = records.from_bytes(file)
    pairs = drawing.pairs_of(found.scans[0], [], [], False)
    drawing.certify(pairs, certificate.from_bytes(text, found), 0)
    lines = [line for axes in drawing.figure_of(pairs, what, "").axes for line in axes.lines if line.get_color() == drawing.CERTIFIED]
    return [(list(line.get_xdata()), list(line.get_ydata())) for line in lines]


def test_where_certified_peaks_are_marked() -> None:
    """Integrations of 1/20 second: a rate of 3 sixteenths of a turn is 3.75 hertz, one of 13 cannot be told from -3."""
    file = fringe_file(4, BASELINES[:1])
    assert marks(file, certificate_of((-4, -3)), "map") == [([-4], [-3.75])]
    assert marks(file, certificate_of((7, 13)), "map") == [([7], [-3.75])]
    assert marks(file, certificate_of((7, 6), divide=2), "map") == [([7], [3.75])]
    assert marks(file, certificate_of((-4, -3)), "lags") == [([-4, -4], [0, 1])] * 2
    (times, phases), = marks(file, certificate_of((-4, -3)), "time")
    assert times == pytest.approx([0.025, 0.075, 0.125, 0.175]) and phases == pytest.approx([90, 22.5, -45, -112.5])
    (times, phases), = marks(file, certificate_of((-4, 2)), "time")
    assert phases == pytest.approx([90, 135, -180, -135])


def test_no_pairs(folder: Folder) -> None:
    file = numpy.frombuffer(fringe_file(2, BASELINES[:1]), numpy.uint8).copy()
    size = records.PLACE.itemsize + LAGS * records.CELL.itemsize
    first = len(file) - 9 - 2 * size
    for record in range(2):
        file[first + record * size + records.PLACE.itemsize:first + (record + 1) * size] = 0
    scan = records.from_bytes(file.tobytes()).scans[0]
    assert numpy.isnan(fringes.of(scan, 0, 0).lag) and drawing.Pair(scan, 0, 0).peak_words == "no pairs"
    assert folder.call(file.tobytes(), "sky.vis", "picture.png") == (0, ["picture.png"], "")


@pytest.fixture
def empty_figures(monkeypatch: pytest.MonkeyPatch) -> None:
    """Figures without anything in them, which take no time."""
    monkeypatch.setattr(drawing, "figure_of", lambda *_: Figure())


def test_one_picture_of_many_fringes(folder: Folder, empty_figures: None) -> None:
    """180 fringes, 10 baselines of 18 products: one picture, and a line that says how to get the others."""
    status, pictures, said = folder.call(fringe_file(2, products=18), "sky.vis", "picture.png")
    assert (status, pictures) == (0, ["picture.png"])
    assert said == "vlbi-plot: sky.vis: the first 10 of 180 fringes; --baseline and --product choose others, --pages draws all on 18 pages\n"


def test_pages_hold_ten_rows() -> None:
    pairs = drawing.pairs_of(records.from_bytes(fringe_file(2, products=18)).scans[0], [], [], False)
    for what, sizes in (("page", [10] * 18), ("map", [30] * 6), ("lags", [180]), ("time", [180])):
        pages = drawing.pages(pairs, what)
        assert [len(page) for page in pages] == sizes
        assert {(pair.baseline, pair.product) for page in pages for pair in page} == {(pair.baseline, pair.product) for pair in pairs}


def test_all_pages(folder: Folder, monkeypatch: pytest.MonkeyPatch, empty_figures: None) -> None:
    monkeypatch.setattr(drawing, "ROWS", 1)
    file = fringe_file(1, BASELINES[:3])
    assert folder.call(file, "--pages", "sky.vis", "picture.pdf") == (0, ["picture.pdf"], "")
    assert len(re.findall(rb"/Type /Page\b", (folder.path / "picture.pdf").read_bytes())) == 3
    assert folder.call(file, "--pages", "sky.vis", "picture.png") == (0, ["picture-2.png", "picture-3.png", "picture.pdf", "picture.png"], "")


FILE = fringe_file(1)


@pytest.mark.parametrize("words, said", [
    (["sky.vis", "picture.xyz"], "picture.xyz: no picture has this ending: take .png, .pdf or .svg"),
    (["sky.vis", "picture"], "picture: no picture has this ending: take .png, .pdf or .svg"),
    (["sky.vis", "nodir/picture.png"], "nodir/picture.png: there is no folder nodir"),
    (["sky.vis", "folder.png"], "folder.png: this is a folder"),
    (["none.vis", "picture.png"], "none.vis: No such file or directory"),
    (["--scan", "No0002", "sky.vis", "picture.png"], "sky.vis: no scan No0002 among No0001"),
    (["--scan", "7", "sky.vis", "picture.png"], "sky.vis: no scan 7 among No0001"),
    (["--baseline", "Ef-Wb", "--baseline", "Wb-Ef", "sky.vis", "picture.png"], "sky.vis: scan No0001 has no baseline Wb-Ef among Ef-Wb, Ef-On, "),
    (["--product", "CH01,CH02", "sky.vis", "picture.png"], "sky.vis: scan No0001 has no product CH01,CH02 among CH01,CH01"),
    (["--certificate", "none.peaks", "sky.vis", "picture.png"], "none.peaks: No such file or directory"),
    (["--certificate", "sky.vis", "sky.vis", "picture.png"], "sky.vis: no certificate of these records: line 1: `VLBIVIS1"),
    (["cut.vis", "picture.png"], f"cut.vis: no record file: Short at byte {len(FILE) - 1}"),
    (["empty.vis", "picture.png"], "empty.vis: scan No0001 has no samples"),
    (["sky.vis"], "sky.vis: there are no windows here: name a picture"),
])
def test_what_is_wrong_is_one_line(folder: Folder, monkeypatch: pytest.MonkeyPatch, words: list[str], said: str) -> None:
    monkeypatch.setenv("MPLBACKEND", "agg")
    import matplotlib

    matplotlib.use("agg")
    (folder.path / "cut.vis").write_bytes(FILE[:-1])
    (folder.path / "empty.vis").write_bytes(fringe_file(0))
    (folder.path / "folder.png").mkdir()
    status, pictures, err = folder.call(FILE, *words)
    assert (status, pictures) == (1, [])
    assert err.startswith(f"vlbi-plot: {said}") and err.count("\n") == 1


def test_a_picture_that_cannot_be_written(folder: Folder) -> None:
    os.symlink("/dev/full", folder.path / "full.png")
    status, _, err = folder.call(FILE, "--baseline", "Ef-Wb", "sky.vis", "full.png")
    assert (status, err) == (1, "vlbi-plot: full.png: No space left on device\n")


def called(*words: str, **environment: str) -> tuple[int, str, str]:
    """A call of the command in a process of its own."""
    done = subprocess.run([sys.executable, "-m", "vlbi.commands.plot", *words], capture_output=True, text=True,
                          env={**os.environ, "PYTHONPATH": str(Path(plot.__file__).parents[2]), **environment})
    return done.returncode, done.stdout, done.stderr


def test_windows(tmp_path: Path) -> None:
    """A backend that draws nothing stands for windows."""
    (tmp_path / "sky.vis").write_bytes(fringe_file(2))
    assert called("--baseline", "Ef-Wb", str(tmp_path / "sky.vis"), MPLBACKEND="template") == (0, "", "")


def test_version_help_and_where() -> None:
    import vlbi

    assert called("--version") == (0, f"vlbi-plot {vlbi.__version__}\n", "")
    assert called("--where") == (0, f"{Path(vlbi.__file__).parents[1]}\n", "")
    status, out, err = called("--help")
    assert (status, err) == (0, "") and "--pages" in out
    assert called("--dpi", "0", "a.vis")[0] == 2


def test_a_package_that_is_not_there(tmp_path: Path) -> None:
    """A module that cannot be found stands for one that is not installed."""
    (tmp_path / "matplotlib.py").write_text("raise ModuleNotFoundError(\"No module named 'matplotlib'\", name='matplotlib')\n")
    path = f"{tmp_path}:{Path(plot.__file__).parents[2]}"
    assert called("a.vis", PYTHONPATH=path) == (1, "", "vlbi-plot: needs the Python package matplotlib: Debian's python3-matplotlib\n")
    assert called("--version", PYTHONPATH=path)[0] == 0
