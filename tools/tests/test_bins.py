"""The cells of a pulse's bins: the second correlator makes their text by phase lines, `vlbi.records` reads it, and a pulsed source stands in the bins
in which theory has it.
"""
from __future__ import annotations

import dataclasses
import struct
from pathlib import Path

import broken_texts
import correlator
import numpy
import pytest
import record_files
import theory
from numpy.typing import NDArray

from vlbi import fringe as fringes
from vlbi import job as jobs
from vlbi import plot as drawing
from vlbi import records, simulate
from vlbi.commands import plot
from vlbi.simulate import Pulse, Sky, Station

DEMO = Path(__file__).resolve().parents[2] / "demo"
START = jobs.second_of("2010y001d00h00m00s")
TIME = "2010y001d00h00m00s"


def binned(folder: Path, phases: str, job: str = "job.txt", schedule: str | None = None) -> bytes:
    """The text of the cells of bins of a folder's job, by the second correlator."""
    (folder / "phases.txt").write_text(phases)
    return correlator.correlate(str(folder), job, schedule, "phases.txt")


def demo(folder: Path, phases: str) -> bytes:
    """That of the small job of `demo`: 64 samples of 3 at two stations, two lags, and knots of 64 samples, which are a second."""
    for name in ("a.vdif", "b.vdif"):
        (folder / name).write_bytes((DEMO / name).read_bytes())
    (folder / "job.txt").write_bytes((DEMO / "job.txt").read_bytes() + b"knot 64\n")
    return binned(folder, phases)


# The second correlator, by hand

@pytest.mark.parametrize("phases, cells", [
    # a turn a second: the first half of the samples, of which the first has no partner at lag -1, and the second half
    (f"bins 2\nphase {TIME} 0 {2 ** 56}\n", [[(279, 0, 31), (288, 0, 32)], [(288, 0, 32), (288, 0, 32)]]),
    # a phase just below 0 is in the last bin
    (f"bins 2 # two\n\nphase {TIME} -1\n", [[(0, 0, 0), (0, 0, 0)], [(567, 0, 63), (576, 0, 64)]]),
    # a third of a turn in 64/3 samples: 22, 21 and 21 of them
    (f"phase {TIME} 0 {2 ** 56}\nbins 3", [[(189, 0, 21), (198, 0, 22)], [(189, 0, 21), (189, 0, 21)], [(189, 0, 21), (189, 0, 21)]]),
    # the phase falls by half a turn: sample 0 alone is not below 0
    (f"bins 2\nphase {TIME} 0 {-2 ** 55}\n", [[(0, 0, 0), (9, 0, 1)], [(567, 0, 63), (567, 0, 63)]]),
    # the latest entry that has begun counts
    (f"bins 2\nphase {TIME} {2 ** 31}\nphase 2009y365d23h59m59s 0\nphase 2010y001d00h00m01s 0",
     [[(0, 0, 0), (0, 0, 0)], [(567, 0, 63), (576, 0, 64)]]),
])
def test_bins_by_hand(tmp_path: Path, phases: str, cells: list[list[tuple[int, int, int]]]) -> None:
    found = records.bins_from_bytes(demo(tmp_path, phases))
    assert found.bins == len(cells) and found.scans[0].cells.shape == (1, 1, 1, len(cells), 2)
    assert found.scans[0].cells[0, 0, 0].tolist() == cells


def test_the_text_by_hand(tmp_path: Path) -> None:
    """By docs/FORMATS.md."""
    head = b"VLBIBIN1" + struct.pack("<IIQQ", 2, 2, 64, 64) + struct.pack("<IH1sH1s", 2, 1, b"A", 1, b"B") + struct.pack("<IH1sH1s", 1, 1, b"X", 1, b"X")
    head += struct.pack("<IH1sQQI", 1, 1, b"S", START, 64, 1) + struct.pack("<II", 0, 1)
    rows = [struct.pack("<BIQIII6q", 2, 0, 0, 0, 0, number, *cells) for number, cells in enumerate(((279, 0, 31, 288, 0, 32), (288, 0, 32, 288, 0, 32)))]
    assert demo(tmp_path, f"bins 2\nphase {TIME} 0 {2 ** 56}\n") == head + b"".join(rows) + struct.pack("<BQ", 255, 2)


# Its reader

def shown(found: records.BinRecords) -> bytes:
    """The lines of a text, as `record_files.random_file` has them."""
    lines = list(records.text(dataclasses.replace(found.summed, scans=())))
    for number, scan in enumerate(found.scans):
        lines.append(b"scan %d %s %d %d\n" % (number, scan.name.encode("utf-8", "surrogateescape"), scan.start, scan.samples))
        lines += [b"baseline %d %d %d %d\n" % (number, place, a, b) for place, (a, b) in enumerate(scan.baselines)]
    for number, scan in enumerate(found.scans):
        for place in numpy.ndindex(scan.cells.shape):
            cell = (number, *place[:-1], place[-1] - found.head.lags // 2, *scan.cells[place].tolist())
            lines.append(b" ".join(b"%d" % one for one in cell) + b"\n")
    return b"".join(lines)


def test_random_texts() -> None:
    for draw in record_files.cases("bins", 40):
        bins = draw.choice((2, 3, 5, 64))
        text, lines = record_files.random_file(draw, bins)
        found = records.bins_from_bytes(text)
        assert found.bins == bins and shown(found) == lines


def fault_of(text: bytes) -> tuple[str, int]:
    with pytest.raises(records.BinsFault) as caught:
        records.bins_from_bytes(text)
    return caught.value.kind, caught.value.at


def test_each_front_of_a_text(tmp_path: Path) -> None:
    text = demo(tmp_path, f"bins 2\nphase {TIME} 0\n")
    for _, size, front in broken_texts.fronts(text):
        assert fault_of(front) == ("Short", size)
    assert fault_of(text + b"\0") == ("AfterEnd", len(text))


# Where the fields of the text of `demo` begin, and their bytes: those of its head, of its two records of 73 bytes behind it, and of its end.
HEAD = {"magic": (0, 8), "bins": (8, 4), "lags": (12, 4), "integration": (16, 8), "rate": (24, 8), "stations": (32, 4), "A": (36, 2), "B": (39, 2),
        "products": (42, 4), "x": (46, 2), "y": (49, 2), "scans": (52, 4), "S": (56, 2), "start": (59, 8), "samples": (67, 8), "baselines": (75, 4),
        "a": (79, 4), "b": (83, 4)}
RECORD = {"mark": (0, 1), "scan": (1, 4), "integration": (5, 8), "product": (13, 4), "baseline": (17, 4), "bin": (21, 4)}
FIRST, SECOND, END = 87, 87 + 73, 87 + 2 * 73


@pytest.mark.parametrize("field, number, kind", [
    ("magic", int.from_bytes(b"VLBIVIS1", "little"), "Magic"),
    ("bins", 1, "Head"), ("bins", 65, "Head"), ("bins", 0, "Head"), ("bins", 2 ** 32 - 1, "Head"),
    ("lags", 3, "Head"), ("lags", 0, "Head"), ("lags", 1026, "Head"),
    ("integration", 0, "Head"), ("integration", 2 ** 36 + 1, "Head"),
    ("rate", 0, "Head"), ("rate", 2 ** 32, "Head"),
    ("stations", 0, "Head"), ("stations", 33, "Head"), ("products", 0, "Head"), ("products", 257, "Head"),
    ("A", 0, "Head"), ("A", 256, "Head"), ("y", 0, "Head"), ("S", 256, "Head"),
    ("start", 2 ** 32, "Head"), ("samples", 2 ** 40 + 1, "Head"),
    ("baselines", 0, "Head"), ("baselines", 529, "Head"), ("a", 2, "Head"), ("b", 2, "Head"),
])
def test_numbers_of_a_head(tmp_path: Path, field: str, number: int, kind: str) -> None:
    text = demo(tmp_path, f"bins 2\nphase {TIME} 0\n")
    place, size = HEAD[field]
    assert fault_of(text[:place] + number.to_bytes(size, "little") + text[place + size:]) == (kind, place)


@pytest.mark.parametrize("first, bin_due", [(FIRST, 0), (SECOND, 1)])
def test_numbers_of_a_record(tmp_path: Path, first: int, bin_due: int) -> None:
    text = demo(tmp_path, f"bins 2\nphase {TIME} 0\n")
    for field, (place, size) in RECORD.items():
        for number in {0, 1, 2, 255, 256 ** size - 1} - {{"mark": 2, "bin": bin_due}.get(field, 0)}:
            broken = text[:first + place] + number.to_bytes(size, "little") + text[first + place + size:]
            assert fault_of(broken) == ("Order", first + place)
            # the same where the text ends inside the record
            assert fault_of(broken[:first + place + size]) == ("Order", first + place)
            assert fault_of(broken[:first + place + size - 1]) == ("Short", first + place + size - 1)


def test_numbers_of_an_end(tmp_path: Path) -> None:
    text = demo(tmp_path, f"bins 2\nphase {TIME} 0\n")
    assert fault_of(text[:END] + b"\2" + text[END + 1:]) == ("Order", END)
    assert fault_of(text[:END + 1] + b"\1" + text[END + 2:]) == ("Order", END + 1)
    assert fault_of(text[:END] + text[SECOND:]) == ("Order", END)  # a third record


def test_the_first_of_two_faults(tmp_path: Path) -> None:
    text = demo(tmp_path, f"bins 2\nphase {TIME} 0\n")
    assert fault_of(text[:12] + b"\3" + text[13:SECOND + 21] + b"\0" + text[SECOND + 22:]) == ("Head", 12)
    assert fault_of(text[:FIRST + 21] + b"\1" + text[FIRST + 22:END] + b"\0") == ("Order", FIRST + 21)


def test_faults_name_the_file(tmp_path: Path) -> None:
    (tmp_path / "cut.bins").write_bytes(demo(tmp_path, f"bins 2\nphase {TIME} 0\n")[:-1])
    for read in (records.read_bins, records.read_either):
        with pytest.raises(records.RecordFault) as caught:
            read(str(tmp_path / "cut.bins"))
        assert str(caught.value) == f"{tmp_path}/cut.bins: no text of the cells of bins: Short at byte {END + 8}"
    with pytest.raises(records.RecordFault) as other:
        records.read(str(tmp_path / "cut.bins"))
    assert str(other.value) == f"{tmp_path}/cut.bins: no record file: Magic at byte 0"


def test_either_kind_of_file(tmp_path: Path) -> None:
    (tmp_path / "a.bins").write_bytes(demo(tmp_path, f"bins 2\nphase {TIME} 0\n"))
    (tmp_path / "a.vis").write_bytes(correlator.correlate(str(tmp_path), "job.txt"))
    assert isinstance(records.read_either(str(tmp_path / "a.bins")), records.BinRecords)
    assert isinstance(records.read_either(str(tmp_path / "a.vis")), records.Records)
    (tmp_path / "a.txt").write_bytes(b"VLBI")
    with pytest.raises(records.RecordFault, match="a.txt: no record file: Short at byte 4"):
        records.read_either(str(tmp_path / "a.txt"))


# A pulsed source

def pulsed(sky: Sky, folder: Path, phases: str, lags: int = 4, integration: int | None = None, auto: bool = False) -> tuple[records.BinRecords, bytes]:
    """The cells of bins of a simulated sky, and its record file, which is their sum."""
    simulate.simulate(sky, str(folder), lags, integration or sky.rate, auto=auto)
    found = records.bins_from_bytes(binned(folder, phases, "job.txt", "sky.vex"))
    whole = correlator.correlate(str(folder), "job.txt", "sky.vex")
    assert b"".join(records.text(found.summed)) == b"".join(records.text(records.from_bytes(whole)))
    return found, whole


def means(scan: records.BinScan, product: int, baseline: int) -> NDArray[numpy.complex128]:
    """The mean product over a scan of each bin and lag."""
    cells = scan.cells[:, product, baseline]
    mean: NDArray[numpy.complex128] = (cells["re"] + 1j * cells["im"]).sum(axis=0) / cells["count"].sum(axis=0)
    return mean


def phase_text(bins: int, sky: Sky, pulse: Pulse) -> str:
    """The text of the phases of a pulse, for a simulated sky's job."""
    epoch = sky.start if pulse.epoch is None else pulse.epoch
    return f"bins {bins}\n{jobs.phase_line(sky.start, pulse.period, pulse.derivative, epoch, sky.rate, sky.knot)}\n"


def test_a_pulse_stands_in_its_bins(tmp_path: Path) -> None:
    """Of eight bins it fills the first two and half of the third; there it correlates as a source that is always on, and elsewhere not at all."""
    pulse = Pulse("0.0213", 0.3125)
    sky = Sky((Station("A"), Station("B")), rate=200_000, seconds=2, common=0.5, pulse=pulse)
    found, _ = pulsed(sky, tmp_path, phase_text(8, sky, pulse))
    scan = found.scans[0]
    on = numpy.array([1, 1, 0.5, 0, 0, 0, 0, 0])
    due = numpy.zeros((8, 4))
    due[:, 2] = on * theory.level_product(0.5, 2)
    noise = theory.level_power(2) / numpy.sqrt(400_000 / 8)
    numpy.testing.assert_allclose(means(scan, 0, 0), due, atol=5 * noise, rtol=0)
    counts = scan.cells["count"].sum(axis=(0, 1, 2))[:, 2]
    numpy.testing.assert_allclose(counts, 50_000, rtol=0.02)
    assert counts.sum() == 400_000


def test_the_bins_are_those_of_the_wave(tmp_path: Path) -> None:
    """The pulses of a pulsar that slows down come to two stations late, and are turned back with their fringe: they fill the first two of five bins. By
    phases that do not slow down they are all over."""
    stations = (Station("Ef", delay=(7.3e-3,)), Station("Wb", delay=(3.1e-3, 0.9e-6), clock=(12.5e-6, 1e-9)))
    pulse = Pulse("0.01", 0.4, START - 100, "2e-5")
    sky = Sky(stations, rate=200_000, seconds=2, common=0.4, frequency=5_000_000_000, sideband="L", pulse=pulse)
    found, _ = pulsed(sky, tmp_path, phase_text(5, sky, pulse), 2)
    lead = (stations[1].lead(numpy.linspace(0, 2, 401)) - stations[0].lead(numpy.zeros(401))) * sky.rate
    due = theory.rotated_amplitude(0.4, lead - numpy.floor(lead + 0.5), 2)
    amplitudes = abs(means(found.scans[0], 0, 0)[:, 1])
    assert amplitudes[:2] == pytest.approx([due, due], rel=0.07) and max(amplitudes[2:]) < 0.06 * due
    slow = phase_text(5, sky, dataclasses.replace(pulse, derivative=0, epoch=START))
    spread = abs(means(records.bins_from_bytes(binned(tmp_path, slow, "job.txt", "sky.vex")).scans[0], 0, 0)[:, 1])
    assert max(spread) < 0.8 * due and min(spread) > 0.1 * due


def test_the_sum_over_bins(tmp_path: Path) -> None:
    """It is the cell without bins, in each integration, product and baseline, with stations by themselves, and with frames that are missing."""
    stations = (Station("A"), Station("B", delay=(1e-4, 1.1e-6)), Station("C", clock=(1e-5,)))
    pulse = Pulse("0.017", 0.2)
    sky = Sky(stations, rate=80_000, seconds=2, channels=2, sideband="UL", common=0.5, missing=0.2, invalid=0.1, pulse=pulse)
    found, whole = pulsed(sky, tmp_path, phase_text(7, sky, pulse), 8, 30_000, auto=True)
    scan, of_records = found.scans[0], records.from_bytes(whole).scans[0]
    assert scan.cells.shape == (6, 2, 6, 7, 8)
    for field in ("re", "im", "count"):
        numpy.testing.assert_array_equal(scan.cells[field].sum(axis=3), of_records.cells[field])
    assert scan.of_bin(3).cells.tolist() == scan.cells[:, :, :, 3].tolist()
    assert found.of_bin(3).scans[0].times.tolist() == of_records.times.tolist()
    assert scan.means(0, 1).shape == (6, 7, 8)


# Its pictures

@pytest.fixture(scope="module")
def pulsar(tmp_path_factory: pytest.TempPathFactory) -> bytes:
    """Two stations and two products of a source that is on in the bin 5 of 8, three samples late and with a residual rate of 2 hertz by a clock."""
    folder = tmp_path_factory.mktemp("pulsar")
    pulse = Pulse("0.02", 0.125, START + 0.0125)
    sky = Sky((Station("Ef"), Station("Wb")), rate=80_000, seconds=2, channels=2, common=0.5, frequency=10 ** 9, pulse=pulse)
    simulate.simulate(sky, str(folder), 16, 8000)
    text = (folder / "job.txt").read_text().replace(f"poly Wb {TIME} 0", f"{jobs.poly_line('Wb', START, [-3 / 80_000, -2e-9], 80_000, sky.knot)}")
    (folder / "job.txt").write_text(text)
    return binned(folder, phase_text(8, sky, dataclasses.replace(pulse, epoch=START)), "job.txt", "sky.vex")


def test_where_a_pulse_is_drawn(pulsar: bytes) -> None:
    """At its lag and rate, bin and amplitude; the sum over the bins has an eighth of it."""
    scan = records.bins_from_bytes(pulsar).scans[0]
    turning = abs((theory.three_levels(theory.PHASES) * numpy.exp(-2j * numpy.pi * theory.PHASES)).mean())
    due = float(theory.level_product(0.5, 2) * turning * numpy.sinc(2 * 8000 / 80_000))
    for pair in drawing.pairs_of(scan, [], [], False):
        assert isinstance(pair, drawing.BinPair)
        heights = pair.over_bins()
        assert divmod(int(heights.argmax()), 16) == (5, 8 + 3) and pair.strongest[0] == 5
        assert pair.fringe.lag == pytest.approx(3, abs=0.2) and pair.fringe.rate == pytest.approx(2, abs=0.1)
        assert heights[5, 11] == pytest.approx(due, rel=0.1) and numpy.delete(heights, 5, axis=0).max() < 0.15 * due
        assert pair.peak_words.startswith("bin 5,  lag +")
        assert fringes.of(scan.summed, pair.product, pair.baseline).amplitude == pytest.approx(due / 8, rel=0.15)
        (axes, *_) = drawing.figure_of([pair], "bins", "").axes
        (image,) = axes.images
        assert image.get_array().argmax() == 5 * 16 + 11 and tuple(image.get_extent()) == (-8.5, 7.5, -0.5, 7.5)
        (ring,) = axes.lines
        assert ring.get_xdata()[0] == pytest.approx(3, abs=0.2) and ring.get_ydata()[0] == 5


@pytest.mark.parametrize("words, said", [
    ([], ""), (["--what", "bins", "--product", "CH02,CH02"], ""), (["--what", "page"], ""), (["--what", "lags"], ""), (["--scan", "No0001"], ""),
    (["--scan", "No0002"], "pulsar.bins: no scan No0002 among No0001"),
    (["--certificate", "a.peaks"], "pulsar.bins: this is a text of the cells of bins, and a certificate is of a record file"),
])
def test_pictures_of_bins(
    tmp_path: Path, monkeypatch: pytest.MonkeyPatch, capsys: pytest.CaptureFixture[str], pulsar: bytes, words: list[str], said: str
) -> None:
    monkeypatch.chdir(tmp_path)
    (tmp_path / "pulsar.bins").write_bytes(pulsar)
    assert plot.main(["--dpi", "30", *words, "pulsar.bins", "picture.png"]) == (1 if said else 0)
    assert capsys.readouterr() == (("", f"vlbi-plot: {said}\n") if said else ("picture.png\n", ""))
    assert (tmp_path / "picture.png").exists() == (not said)


def test_bins_without_pairs(tmp_path: Path) -> None:
    """One bin has all pairs; or none has any."""
    scan = records.bins_from_bytes(demo(tmp_path, f"bins 2\nphase {TIME} 0\n")).scans[0]
    (pair,) = drawing.pairs_of(scan, [], [], False)
    assert isinstance(pair, drawing.BinPair) and pair.strongest[0] == 0
    assert pair.over_bins()[0].tolist() == [9, 9] and numpy.isnan(pair.over_bins()[1]).all()
    drawing.figure_of([pair], "bins", "")
    none = dataclasses.replace(scan, cells=numpy.zeros(scan.cells.shape, records.CELL))
    (pair,) = drawing.pairs_of(none, [], [], False)
    assert pair.peak_words == "no pairs"
    drawing.figure_of([pair], "bins", "")


def test_a_record_file_has_no_bins(tmp_path: Path, capsys: pytest.CaptureFixture[str]) -> None:
    demo(tmp_path, f"bins 2\nphase {TIME} 0\n")
    (tmp_path / "a.vis").write_bytes(correlator.correlate(str(tmp_path), "job.txt"))
    assert plot.main(["--what", "bins", str(tmp_path / "a.vis"), str(tmp_path / "a.png")]) == 1
    assert capsys.readouterr().err == f"vlbi-plot: {tmp_path}/a.vis: this is a record file, and --what bins is for a text of the cells of bins\n"
