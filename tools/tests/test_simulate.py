"""`vlbi.simulate` and `vlbi-simulate`: what is written is what was asked, and the fringes in it are those that theory asks for.

The fringes are found by the program where VLBI names one, and else by the correlator in numpy beside this file.
"""
from __future__ import annotations

import dataclasses
import hashlib
from fractions import Fraction
from pathlib import Path

import correlator
import fringe
import numpy
import program
import pytest
import theory
from numpy.typing import NDArray

from vlbi import fringe as fringes
from vlbi import commands, job, quantiser, records, vex
from vlbi.commands import simulate as command
from vlbi.faults import Fault
from vlbi.simulate import BLOCK, CommonNoise, Pulse, Sky, SkyFault, Station, codes_of, simulate, wave_at
from vlbi.vdif import packed

SMALL = Sky((Station("A"), Station("B")), rate=80_000, seconds=2)
ROOT = Path(__file__).resolve().parents[2]


def frames_of(path: Path, size: int) -> tuple[NDArray[numpy.uint32], NDArray[numpy.uint8]]:
    """The headers of a recording's frames, (frames, 4), and their data, (frames, bytes)."""
    frames = numpy.fromfile(path, numpy.uint8).reshape(-1, size)
    return frames[:, :16].copy().view(numpy.dtype("<u4")), frames[:, 32:]


# Samples

@pytest.mark.parametrize("bits, efficiency", [(1, 0.6366), (2, 0.8812), (4, 0.9885)])
def test_the_thresholds_are_the_best(bits: int, efficiency: float) -> None:
    if bits > 1:
        assert quantiser.BEST[bits] == pytest.approx(theory.best_step(bits), abs=5e-5)
    assert quantiser.thresholds(bits) == theory.thresholds(bits)
    assert quantiser.gain(bits) ** 2 == pytest.approx(float(theory.level_product(1e-4, bits)) / 1e-4, rel=1e-6)
    assert quantiser.power(bits) == pytest.approx(theory.level_power(bits), rel=1e-9)
    assert round(theory.efficiency(bits), 4) == round(quantiser.efficiency(bits), 4) == efficiency


def test_codes() -> None:
    voltage = numpy.array([-1.0, -0.99, -0.01, 0.0, 0.99, 1.0])
    assert codes_of(voltage, 2).tolist() == [0, 1, 1, 2, 2, 3]
    assert codes_of(voltage, 1).tolist() == [0, 0, 0, 1, 1, 1]
    assert codes_of(voltage, 4).tolist() == [5, 5, 7, 8, 10, 10]
    # code q from q - 8 to q - 7 steps: an outer level goes on past the last threshold
    assert codes_of(0.3352 * numpy.array([-20, -7.01, -6.99, -1, 0.99, 7, 20]), 4).tolist() == [0, 0, 1, 7, 8, 15, 15]


def test_the_lowest_bits_come_first() -> None:
    assert packed(numpy.array([0, 1, 2, 3, 3, 0, 0, 0], numpy.uint8), 2).tolist() == [0xE4, 0x03]
    assert packed(numpy.array([0, 1, 0, 1, 0, 1, 0, 1], numpy.uint8), 1).tolist() == [0xAA]
    assert packed(numpy.array([0, 1, 15, 8], numpy.uint8), 4).tolist() == [0x10, 0x8F]


def test_common_noise() -> None:
    noise = CommonNoise(3, 0)
    places = numpy.arange(-1000, 2 * BLOCK, dtype=numpy.float64)
    at = noise.at(places)
    assert (abs(at) ** 2).mean() == pytest.approx(1, abs=0.02)
    for later in (0.3, 1.0, 2.5):
        found = (noise.at(places + later) * at.conj()).mean()
        assert abs(found - theory.coherence(later)) < 0.02


def test_a_wave_comes_late() -> None:
    station = Station("A", delay=(0.02, 1e-6, 1e-9), clock=(-3e-6, 1e-10))
    recorded = numpy.array([0.0, 1e6, 2e7])
    wave, lead = wave_at(SMALL, station, recorded)
    numpy.testing.assert_allclose(wave + SMALL.rate * station.lead(wave / SMALL.rate), recorded, rtol=0, atol=1e-6)
    numpy.testing.assert_allclose(lead, station.lead(wave / SMALL.rate), rtol=0, atol=1e-13)
    numpy.testing.assert_allclose(station.lead(numpy.array([2.0])), 0.02 + 2e-6 + 4e-9 - 3e-6 + 2e-10, rtol=0, atol=1e-17)


# Pulses

@pytest.mark.parametrize("pulse, seconds", [
    (Pulse("0.5", 0.25), [(0.0, 0.125), (0.5, 0.625)]),
    (Pulse("0.5", 0.25, SMALL.start + Fraction(1, 8)), [(0.125, 0.25), (0.625, 0.75)]),
    (Pulse(0.5, 0.25, SMALL.start - 10 ** 6 - Fraction(1, 16)), [(0.0, 0.0625), (0.4375, 0.5625), (0.9375, 1.0)]),
    (Pulse(Fraction(1, 3), 0.0), []),
    (Pulse("0.7", 1.0), [(0.0, 1.0)]),
    # a frequency of 2 hertz that falls by 1 each second: a turn is past at 2 - sqrt 2 seconds
    (Pulse(0.5, 0.5, None, 0.25), [(0.0, 2 - 3 ** 0.5), (2 - 2 ** 0.5, 1.0)]),
])
def test_when_a_source_is_on(pulse: Pulse, seconds: list[tuple[float, float]]) -> None:
    places = (numpy.arange(997) + 0.5) / 997
    due = numpy.zeros(997, bool)
    for begin, end in seconds:
        due |= (begin <= places) & (places < end)
    numpy.testing.assert_array_equal(pulse.gate(SMALL.start, SMALL.start).is_on(places), due)


def test_pulses_go_on_from_scan_to_scan() -> None:
    pulse = Pulse("0.7", 0.1)
    first, later = pulse.gate(SMALL.start, SMALL.start), pulse.gate(SMALL.start + 100, SMALL.start)
    places = (numpy.arange(997) + 0.5) / 997
    numpy.testing.assert_array_equal(later.is_on(places), first.is_on(places + 100))
    assert first.is_on(numpy.array([-1e-20])).tolist() == [True]  # no phase is a whole turn past the last whole turn


def test_the_knot_of_a_pulse() -> None:
    """2^24 knots hold less than 2^26 turns, so a knot is shorter than four periods: 5,440 samples of the first one here, and 32 of the last."""
    for period, knot in (("0.017", 4096), ("0.5", 32768), ("0.0001", 16)):
        sky = dataclasses.replace(SMALL, pulse=Pulse(period))
        assert sky.knot == knot
        line = job.phase_line(sky.start, period, 0, sky.start, sky.rate, sky.knot)
        assert job.poly_value([int(one) for one in line.split()[2:]], knot, 80_000) == pytest.approx(2 ** 32 / float(period), abs=3)


def codes_in(path: Path, sky: Sky = SMALL) -> NDArray[numpy.uint8]:
    """The codes of a recording of one channel."""
    _, data = frames_of(path, sky.frames.size)
    codes: NDArray[numpy.uint8] = (data[..., None] >> numpy.arange(0, 8, sky.bits, dtype=numpy.uint8) & 2 ** sky.bits - 1).astype(numpy.uint8)
    return codes.ravel()


def test_pulsed_recordings(tmp_path: Path) -> None:
    """In a pulse they are those of a source that is always on, else those of one that never is; the pulse comes late with the wave."""
    stations = (Station("A"), Station("B", delay=(3.1e-3,), clock=(10e-6,)))
    made = {}
    pulsed = Pulse(0.01, 0.25, SMALL.start - Fraction("103e-6"))
    for name, pulse in (("always", None), ("all", Pulse(0.01, 1.0)), ("never", Pulse(0.01, 0.0)), ("pulsed", pulsed)):
        simulated(tmp_path, stations=stations, common=0.5, pulse=pulse)
        made[name] = [codes_in(tmp_path / f"{key}.vdif") for key in "AB"]
    for station, late in enumerate((0.0, 3.11e-3)):
        past = (numpy.arange(160_000) / 80_000 - late + 103e-6) / 0.01 % 1  # no sample lies at the edge of a pulse
        due = numpy.where(past < 0.25, made["always"][station], made["never"][station])
        assert (made["always"][station] != made["never"][station]).mean() > 0.2
        numpy.testing.assert_array_equal(made["pulsed"][station], due)
        numpy.testing.assert_array_equal(made["all"][station], made["always"][station])


def test_the_station_goes_on_when_the_source_is_off(tmp_path: Path) -> None:
    """With half of its power: the outer levels are as rare as it makes them."""
    simulated(tmp_path, common=0.5, pulse=Pulse(1, 0.0))
    levels = numpy.bincount(codes_in(tmp_path / "A.vdif"), minlength=4) / 160_000
    outer = (1 - theory.normal_between(quantiser.BEST[2] * 2 ** 0.5)) / 2
    numpy.testing.assert_allclose(levels, [outer, 0.5 - outer, 0.5 - outer, outer], atol=0.01)


def test_without_pulses_recordings_are_those_of_before(tmp_path: Path) -> None:
    """Two recordings, made before there were pulses."""
    stations = (Station("A"), Station("B", delay=(3.1e-3, 0.9e-6, -2e-9), clock=(12.5e-6, 1e-9)))
    simulated(tmp_path, stations=stations, channels=2, sideband="LU", common=0.3, missing=0.1, invalid=0.1)
    assert [hashlib.sha256((tmp_path / f"{key}.vdif").read_bytes()).hexdigest()[:16] for key in "AB"] == ["c67ec40ece232b48", "f982f8eedf0a5bc4"]


# Recordings, schedules, jobs

def simulated(folder: Path, **changes: object) -> Sky:
    sky = dataclasses.replace(SMALL, **changes)
    simulate(sky, str(folder))
    return sky


def test_frames(tmp_path: Path) -> None:
    second = job.second_of("2013y200d01h02m03s")
    sky = simulated(tmp_path, start=second, channels=2)
    headers, data = frames_of(tmp_path / "B.vdif", sky.frames.size)
    a_second = sky.rate // sky.frames.samples
    assert len(headers) == 2 * a_second
    july = job.second_of("2013y182d00h00m00s")
    assert headers[:, 0].tolist() == [second - july] * a_second + [second - july + 1] * a_second
    assert headers[:, 1].tolist() == [27 << 24 | number for number in range(a_second)] * 2
    assert set(headers[:, 2]) == {1 << 24 | sky.frames.size // 8}
    assert set(headers[:, 3]) == {1 << 26 | 2}
    assert data.shape[1] * 8 == sky.frames.samples * 2 * 2
    levels = numpy.bincount((data[..., None] >> numpy.array([0, 2, 4, 6], numpy.uint8) & 3).ravel(), minlength=4) / (2 * 2 * 80_000)
    outer = (1 - theory.normal_between(quantiser.BEST[2])) / 2
    numpy.testing.assert_allclose(levels, [outer, 0.5 - outer, 0.5 - outer, outer], atol=0.01)


@pytest.mark.parametrize("bits", [1, 2, 4])
def test_levels_keep_of_a_correlation_what_theory_says(tmp_path: Path, bits: int) -> None:
    sky = simulated(tmp_path, rate=400_000, seconds=4, common=0.3, bits=bits)
    a, b = (2.0 * codes_in(tmp_path / f"{key}.vdif", sky) - (2 ** bits - 1) for key in "AB")
    square = theory.level_power(bits)
    assert [(levels ** 2).mean() / square for levels in (a, b)] == pytest.approx([1, 1], abs=0.005)
    kept = (a * b).mean() / square
    assert kept == pytest.approx(float(theory.level_product(0.3, bits)) / square, abs=0.003)
    assert kept / 0.3 == pytest.approx(theory.efficiency(bits), abs=0.02)


def test_four_bits_in_a_frame(tmp_path: Path) -> None:
    """Two samples in a byte, and those of 64 channels in four words; the header says four bits, the job too."""
    sky = simulated(tmp_path, bits=4)
    headers, data = frames_of(tmp_path / "A.vdif", sky.frames.size)
    assert set(headers[:, 3]) == {3 << 26 | 1} and data.shape[1] * 2 == sky.frames.samples
    assert f"station A 1 4 1 {sky.frames.size}\n" in (tmp_path / "job.txt").read_text()
    found = numpy.bincount(codes_in(tmp_path / "A.vdif", sky), minlength=16) / 160_000
    inside = numpy.diff([0.0, *(theory.normal_between(t) for t in theory.thresholds(4) if t > 0), 1.0]) / 2
    numpy.testing.assert_allclose(found, [*inside[::-1], *inside], atol=0.004)
    assert dataclasses.replace(sky, channels=64, rate=64_000_000).frames.samples == 250


def test_threads_apart(tmp_path: Path) -> None:
    sky = simulated(tmp_path, channels=3, apart=True, bits=1)
    headers, _ = frames_of(tmp_path / "A.vdif", sky.frames.size)
    assert (headers[:, 3] >> 16 & 1023).tolist() == [0, 1, 2] * (len(headers) // 3)
    assert set(headers[:, 2] >> 24) == {0}


def test_missing_and_invalid(tmp_path: Path) -> None:
    sky = simulated(tmp_path, seconds=20, missing=0.2, invalid=0.1)
    headers, _ = frames_of(tmp_path / "A.vdif", sky.frames.size)
    due = sky.seconds * sky.rate // sky.frames.samples
    assert len(headers) / due == pytest.approx(0.8, abs=0.15)
    assert (headers[:, 0] >> 31).mean() == pytest.approx(0.1, abs=0.08)


def test_same_seed_same_bytes(tmp_path: Path) -> None:
    read = []
    for seed in (1, 1, 2):
        simulated(tmp_path, seed=seed)
        read.append((tmp_path / "A.vdif").read_bytes())
    assert read[0] == read[1] != read[2]


def test_a_sideband_for_each_channel(tmp_path: Path) -> None:
    """Bands of 40 kHz side by side from 1 MHz on, as the reader of schedules and `check` of the edges see them."""
    sky = simulated(tmp_path, channels=4, sideband="ULLU", frequency=1_000_000)
    (only,) = vex.read(str(tmp_path / "sky.vex")).scans
    assert [(one.name, one.hertz, one.side, one.bandwidth) for one in only.passes[0].setup.channels] == [
        ("CH01", 1_000_000, "U", 40_000), ("CH02", 1_080_000, "L", 40_000), ("CH03", 1_120_000, "L", 40_000), ("CH04", 1_120_000, "U", 40_000),
    ]
    assert dataclasses.replace(sky, sideband="L").frequencies == (1_000_000, 1_040_000, 1_080_000, 1_120_000)
    assert dataclasses.replace(sky, sideband="U").frequencies == (1_000_000, 1_040_000, 1_080_000, 1_120_000)
    assert dataclasses.replace(sky, sideband="LUUL").frequencies == (1_000_000, 1_000_000, 1_040_000, 1_120_000)


@pytest.mark.parametrize("changes, said", [
    ({"rate": 1_000_003}, "no frame goes evenly into a second of 1000003 samples"),
    ({"channels": 3}, "3 channels cannot stand in one frame"),
    ({"channels": 65}, "at most 32 stations and 64 channels"),
    ({"stations": ()}, "there are no stations"),
    ({"seconds": 0}, "there are no stations, samples, seconds or channels"),
    ({"stations": (Station("A"), Station("B"), Station("A"))}, "two stations have the key A"),
    ({"stations": (Station("A b"),)}, "a station's key is made of letters, digits"),
    ({"stations": (Station("../A"),)}, "a station's key is made of letters, digits"),
    ({"stations": (Station(""),)}, "a station's key is made of letters, digits"),
    ({"stations": tuple(Station(f"S{number}") for number in range(33))}, "at most 32 stations"),
    ({"bits": 3}, "1, 2 or 4 bits"),
    ({"common": 1.5}, "a part lies between 0 and 1"),
    ({"missing": -0.1}, "a part lies between 0 and 1"),
    ({"sideband": "UL"}, "one for all channels or one for each of 1: UL"),
    ({"sideband": "X"}, "sidebands are U or L"),
    ({"frequency": 2 ** 40}, "a sky frequency past its range"),
    ({"pulse": {"period": 0}}, "a period is above 0 seconds: 0"),
    ({"pulse": {"period": "0.1", "duty": -0.1}}, "a part lies between 0 and 1"),
    ({"pulse": {"period": "1e-6"}}, "no phase line can hold the phases of this pulse"),
    ({"start": 0}, "no VDIF reference epoch in the year 1970"),
    ({"stations": (Station("A", delay=(0.0, 0.0, 1e9)),)}, "no job can hold these delays"),
])
def test_what_cannot_be_simulated(tmp_path: Path, changes: dict[str, object], said: str) -> None:
    """Nothing is written then."""
    with pytest.raises(Fault, match=said):
        if isinstance(pulse := changes.get("pulse"), dict):
            changes = {**changes, "pulse": Pulse(**pulse)}
        simulated(tmp_path / "sky", **changes)
    assert not (tmp_path / "sky").exists()


def test_jobs_that_the_program_takes(tmp_path: Path) -> None:
    for lags, integration in ((3, 100), (0, 100), (1026, 100), (2, 0), (2, 2 ** 36 + 1)):
        with pytest.raises(SkyFault):
            simulate(SMALL, str(tmp_path / "sky"), lags, integration)
    # 64 channels of two bits are two words
    many = dataclasses.replace(SMALL, channels=64, stations=tuple(Station(f"S{number}") for number in range(32)), rate=64_000_000)
    assert many.frames.samples == 500
    from vlbi.simulate import job_text

    epoch = int(job.job_lines(job_text(many, 2, 8_000_000).encode())["epoch"][0][0])
    assert 32 * 64 * epoch <= 2 ** 28 and epoch > 100_000


# The command

def test_words_of_the_command() -> None:
    assert command.station_of("Wb,delay=4.5:0.25,clock=-2") == ("Wb", (4.5e-6, 0.25e-6), (-2e-6,))
    for words in ("Wb,late=2", "Wb,delay=x", "Wb,clock=1:2:3", "Wb,delay=1,delay=2"):
        with pytest.raises(Exception):
            command.station_of(words)


def test_the_command(tmp_path: Path, capsys: pytest.CaptureFixture[str]) -> None:
    folder = str(tmp_path / "sky")
    small = ["--rate", "80000", "--seconds", "1", folder]
    assert command.main([*small, "--channels", "2", "--sideband", "UL"]) == 0
    assert capsys.readouterr() == ("".join(f"{folder}/{name}\n" for name in ("sky.vex", "job.txt", "blind.txt", "Ef.vdif", "Wb.vdif")), "")
    assert "L : 0.040000 MHz : &CH02" in (tmp_path / "sky" / "sky.vex").read_text()
    for words, said in (
        (["--station", "A", "--station", "A"], "vlbi-simulate: two stations have the key A\n"),
        (["--start", "noon"], "vlbi-simulate: --start: no time: noon\n"),
        (["--lags", "3"], "vlbi-simulate: the number of lags is even, 2 to 1024: 3\n"),
        (["--duty", "0.5"], "vlbi-simulate: --duty goes with --period\n"),
        (["--pulse-epoch", "55197"], "vlbi-simulate: --pulse-epoch goes with --period\n"),
        (["--period-derivative", "0"], "vlbi-simulate: --period-derivative goes with --period\n"),
        (["--period", "0.1", "--duty", "2"], "vlbi-simulate: a part lies between 0 and 1\n"),
        (["--period", "-0.1"], "vlbi-simulate: a period is above 0 seconds: -1/10\n"),
    ):
        assert command.main([*small, *words]) == 1
        assert capsys.readouterr() == ("", said)
    (tmp_path / "file").write_text("")
    assert command.main([*small[:-1], str(tmp_path / "file" / "x")]) == 1
    assert capsys.readouterr().err == f"vlbi-simulate: {tmp_path}/file/x: Not a directory\n"


def test_the_command_with_pulses(tmp_path: Path, capsys: pytest.CaptureFixture[str]) -> None:
    small = ["--quiet", "--rate", "80000", "--seconds", "1", "--station", "A"]
    words = ["--period", "0.05", "--duty", "0.3", "--pulse-epoch", "55196.9999999", "--period-derivative", "1e-3"]
    assert command.main([*small, *words, str(tmp_path / "by_words")]) == 0
    pulse = Pulse("0.05", 0.3, SMALL.start - Fraction(864, 10 ** 5), Fraction(1, 1000))
    simulated(tmp_path, stations=(Station("A"),), seconds=1, pulse=pulse)
    assert (tmp_path / "by_words" / "A.vdif").read_bytes() == (tmp_path / "A.vdif").read_bytes()
    assert command.main([*small, "--period", "0.05", str(tmp_path / "by_words")]) == 0
    simulated(tmp_path, stations=(Station("A"),), seconds=1, pulse=Pulse(0.05))
    assert (tmp_path / "by_words" / "A.vdif").read_bytes() == (tmp_path / "A.vdif").read_bytes()
    for word in ("x", "1/0"):
        with pytest.raises(SystemExit):
            command.main([*small, "--period", word, str(tmp_path)])
        assert f"argument --period: no number: {word}\n" in capsys.readouterr().err


def test_progress(capsys: pytest.CaptureFixture[str], monkeypatch: pytest.MonkeyPatch, tmp_path: Path) -> None:
    """A line each time that so many seconds have gone by; in a terminal one line that changes."""
    monkeypatch.setattr(commands.Progress, "EVERY", 0.0)
    assert command.main(["--rate", "80000", "--seconds", "2", str(tmp_path)]) == 0
    lines = capsys.readouterr().err.splitlines()
    assert len(lines) == 3 and lines[0] == "vlbi-simulate: 0.8 of 2 seconds are made" and lines[-1] == "vlbi-simulate: 2.0 of 2 seconds are made"
    assert command.main(["--quiet", "--rate", "80000", "--seconds", "2", str(tmp_path)]) == 0
    assert capsys.readouterr().err == ""
    shown = commands.Progress("vlbi-simulate", "seconds are made")
    shown.shown, shown.last = True, float("-inf")
    shown.say(1.0, 2)
    shown.say(2.0, 2)
    assert capsys.readouterr().err == "\rvlbi-simulate: 1.0 of 2 seconds are made\rvlbi-simulate: 2.0 of 2 seconds are made\n"


# Fringes

@pytest.mark.parametrize("name, schedule", [("two_integrations", False), ("clock", False), ("growing", False), ("three_stations", True)])
def test_the_other_correlator_is_right(tmp_path: Path, name: str, schedule: bool) -> None:
    """It makes the bytes of the record files that are stored of the program."""
    for folder in (ROOT / "demo", ROOT / ".ci" / "runs"):
        for path in folder.iterdir():
            (tmp_path / path.name).write_bytes(path.read_bytes())
    found = correlator.correlate(str(tmp_path), f"{name}.txt", f"{name}.vex" if schedule else None)
    assert found == (ROOT / ".ci" / "runs" / f"{name}.vis").read_bytes()


def correlated(sky: Sky, folder: Path, lags: int = 32, integration: int | None = None, auto: bool = False) -> records.Records:
    """The records of a simulated sky: by `run`, when `plain` agrees, or where there is no program by the other correlator."""
    simulate(sky, str(folder), lags, integration or sky.rate // 4, auto=auto)
    if not program.PROGRAM:
        return records.from_bytes(correlator.correlate(str(folder), "job.txt", "sky.vex"))
    found = fringe.correlate(program.PROGRAM, str(folder), "job", "sky.vis")
    by_run = (folder / "sky.vis").read_bytes()
    assert program.call("journal", "plain", "--job", "job.txt", "--vex", "sky.vex", folder=folder) == (0, by_run, b"")
    return found


def standing(scan: records.Scan, product: int, baseline: int) -> float:
    """The amplitude of the mean over a scan at lag 0, not turned back."""
    cells = scan.cells[:, product, baseline, scan.head.lags // 2]
    return float(abs((cells["re"] + 1j * cells["im"]).sum()) / cells["count"].sum())


def rests(station: Station, sky: Sky) -> NDArray[numpy.float64]:
    """What whole samples leave over of a station's delay and clock, at places all over the scan."""
    lead = station.lead(numpy.linspace(0, sky.seconds, 401)) * sky.rate
    left: NDArray[numpy.float64] = lead - numpy.floor(lead + 0.5)
    return left


def check_fringes(sky: Sky, folder: Path) -> None:
    """Each fringe between two stations stands at lag and rate 0 with the amplitude of theory."""
    scan = correlated(sky, folder).scans[0]
    for baseline, (a, b) in enumerate(scan.baselines):
        due = theory.rotated_amplitude(sky.common, rests(sky.stations[b], sky) - rests(sky.stations[a], sky), sky.bits, both=a > 0)
        for product in range(sky.channels):
            seen = fringes.of(scan, product, baseline)
            assert abs(seen.lag) < 0.5 and abs(seen.rate) < 1 / sky.seconds and seen.snr > 20
            assert standing(scan, product, baseline) == pytest.approx(due, rel=0.05)


def test_three_stations_in_both_sidebands(tmp_path: Path) -> None:
    stations = (
        Station("Ef"),
        Station("Wb", delay=(3.1e-3, 0.9e-6, -2e-9), clock=(12.5e-6, 1e-9)),
        Station("Mc", delay=(-1.7e-3, -0.5e-6), clock=(-4e-6,)),
    )
    check_fringes(Sky(stations, rate=400_000, seconds=2, channels=2, sideband="LU", common=0.4, frequency=5_000_000_000), tmp_path)


def test_threads_apart_with_frames_missing(tmp_path: Path) -> None:
    stations = (Station("Ef"), Station("Wb", delay=(1e-4, 1.1e-6), clock=(1e-6,)))
    check_fringes(Sky(stations, rate=400_000, seconds=2, channels=3, apart=True, common=0.3, missing=0.1, invalid=0.1), tmp_path)


@pytest.mark.parametrize("bits", [1, 4])
def test_one_bit_and_four(tmp_path: Path, bits: int) -> None:
    check_fringes(Sky((Station("Ef"), Station("Wb", delay=(1e-4, 1.1e-6))), rate=400_000, seconds=2, bits=bits, common=0.3), tmp_path)


def test_what_the_rest_of_a_sample_costs(tmp_path: Path) -> None:
    """The figures of docs/GUIDE.md: of theory, and in recordings in which the delays of two stations run through whole samples."""
    assert [round(100 * theory.loss_of_rests(stations), 1) for stations in (1, 2)] == [12.7, 22.6]
    assert [round(100 * theory.loss_of_rests(stations, 0.25), 1) for stations in (1, 2)] == [3.4, 6.5]
    assert [round(100 * theory.loss_in_each(stations), 1) for stations in (1, 2)] == [3.4, 6.5]
    assert [round(100 * float(1 - abs(theory.coherence(rest))), 1) for rest in (0.1, 0.25, 0.5)] == [0.4, 2.6, 10.0]
    stations = (Station("A"), Station("B", delay=(1e-5, 12.5e-6)), Station("C", delay=(2e-5, -8.75e-6)))
    sky = Sky(stations, rate=400_000, seconds=2, common=0.4, frequency=400_000_000)
    scan = correlated(sky, tmp_path, 2, 8000).scans[0]
    for baseline, (a, b) in enumerate(scan.baselines):
        whole = theory.rotated_amplitude(sky.common, numpy.zeros(1), sky.bits, both=a > 0)
        runs = 2 if a > 0 else 1
        assert 1 - standing(scan, 0, baseline) / whole == pytest.approx(theory.loss_of_rests(runs), abs=0.02)


@pytest.mark.parametrize("sideband", ["U", "L"])
def test_the_phase_of_a_rest(tmp_path: Path, sideband: str) -> None:
    """A rest of a quarter of a sample at the second station turns the phase by 90 / 4 degrees, in either sideband."""
    sky = Sky((Station("A"), Station("B", delay=(0.25 / 400_000, 1e-8))), rate=400_000, seconds=1, common=0.5, sideband=sideband)
    cells = correlated(sky, tmp_path, 2, 100_000).scans[0].cells[:, 0, 0, 1]
    assert numpy.angle((cells["re"] + 1j * cells["im"]).sum(), deg=True) == pytest.approx(22.5, abs=2)


def test_what_is_missing_is_counted(tmp_path: Path) -> None:
    sky = Sky(SMALL.stations, rate=80_000, seconds=10, missing=0.3, invalid=0.2)
    scan = correlated(sky, tmp_path, 2, auto=True).scans[0]
    counts = {}
    for station in ("A", "B"):
        headers, _ = frames_of(tmp_path / f"{station}.vdif", sky.frames.size)
        counts[station] = len(headers), int((headers[:, 0] >> 31).sum())
    if program.PROGRAM:
        lines = [f"station {key} slots {slots} doubled 0 invalid {invalid} foreign 0 late 0\n" for key, (slots, invalid) in counts.items()]
        said = "scans 1\nepochs 40\n" + "".join(lines)
        assert program.call("journal", "check", "--job", "job.txt", "--vex", "sky.vex", folder=tmp_path) == (0, said.encode(), b"")
    for number, key in enumerate(("A", "B")):
        slots, invalid = counts[key]
        paired = scan.cells[:, 0, scan.baselines.index((number, number)), 1]["count"].sum()
        assert int(paired) == (slots - invalid) * sky.frames.samples
        assert fringes.power(scan, number, "CH01") == pytest.approx(theory.level_power(2), abs=0.05)
