"""`vlbi.scheduled`, `vlbi.wavefront` and `vlbi-simulate --sky`: the recordings of a schedule that moves as on the sky."""
from __future__ import annotations

from pathlib import Path

import numpy
import pytest

pytest.importorskip("erfa")
pytest.importorskip("astropy")

import sky
from numpy.typing import NDArray

from vlbi import delay, earth, model, scheduled, vdif, vex, wavefront
from vlbi.commands import simulate as command
from vlbi.faults import Fault

PICO = 1e-12
SHORT = sky.SCHEDULE.replace(": 150 sec", ": 3 sec").replace("Hh : 10 sec", "Hh : 1.25 sec").replace(": 60 sec", ": 2 sec")


def schedule(old: str = "", new: str = "", text: str = SHORT) -> vex.Schedule:
    assert old in text
    return vex.from_bytes(text.replace(old, new).encode(), "night.vex")


@pytest.mark.parametrize("air, baselines, apart", [(False, 0.2, 0.3), (True, 20.0, 30.0)])
def test_two_evaluations_of_a_delay(air: bool, baselines: float, apart: float) -> None:
    """A front that a station meets at a moment was at the centre of the earth before, by the delay that the formula has at that earlier moment: within
    0.2 ps on baselines of up to 8,000 km without air, and 20 ps by two laws of the air, above 25 degrees."""
    night = schedule(text=sky.SCHEDULE)
    orientation = earth.of_schedule(night)
    assert orientation is not None
    theory = delay.Theory(night, orientation, air)
    off: dict[tuple[str, str], NDArray[numpy.float64]] = {}
    for part in model.parts_of(night, night.scans, ("Ef", "Wb", "Hh")):
        front = wavefront.Front(night, part.key, part.source, part.begin, air)
        seconds = numpy.linspace(0, part.seconds, 12)
        found = front.late(seconds)
        assert numpy.abs(found - front.exact(seconds)).max() < 1e-3 * PICO
        off[part.scan, part.key] = found - theory.late(part, seconds - found)
        assert numpy.abs(off[part.scan, part.key]).max() < apart * PICO
    for scan in ("No0001", "No0002"):
        for a, b in (("Ef", "Wb"), ("Ef", "Hh"), ("Wb", "Hh")):
            assert numpy.abs(off[scan, b] - off[scan, a]).max() < baselines * PICO


def test_orientation_of_the_tables() -> None:
    """Without $EOP both take the tables of astropy, one by a curve through days and with the celestial pole: they are 5 mm apart, 20 ps."""
    night = schedule("$EOP;", "$EOPS;")
    theory = delay.Theory(night, earth.of_tables(), False)
    part = model.parts_of(night, night.scans, ("Hh",))[0]
    found = wavefront.Front(night, "Hh", part.source, part.begin, False).late(numpy.array([0.0]))
    assert 0 < numpy.abs(found - theory.late(part, -found)).max() < 20 * PICO
    with pytest.raises(Fault, match="night.vex: .EOP has the days 55312 to 55316, which lack 55310.85"):
        late = schedule("eop_ref_epoch = 2010y113d", "eop_ref_epoch = 2010y116d")
        wavefront.Front(late, "Hh", part.source, part.begin - 86400, False).late(numpy.array([0.0]))


def test_clocks() -> None:
    """The clock of Hh is 31.7 microseconds behind at 08:00 and loses 0.4 picoseconds a second; from 20:31 on it is 31.6 behind."""
    night = schedule(text=sky.SCHEDULE)
    start = vex.second_of("2010y115d20h30m00s")
    arrival = scheduled.Arrival(night, "Hh", night.source("3C279"), start, False)
    early = arrival.early(numpy.array([0.0, 59.0, 60.0, 100.0]))
    assert early == pytest.approx([-31.7e-6 - 4e-13 * (45000 + 0), -31.7e-6 - 4e-13 * 45059, -31.6e-6, -31.6e-6], abs=1e-17)
    seconds = numpy.array([10.0, 20.0])
    late = arrival.front.late(seconds)
    assert arrival.lead(seconds + arrival.early(seconds)) == pytest.approx(late + arrival.early(seconds), abs=1e-15)
    without = schedule("def Hh; clock_early", "def Ho; clock_early", SHORT.replace("ref $CLOCK = Hh;", ""))
    assert scheduled.Arrival(without, "Hh", night.source("3C279"), start, False).early(seconds).tolist() == [0, 0]


def test_the_files(tmp_path: Path, capsys: pytest.CaptureFixture[str]) -> None:
    """Each station has the frames of its parts of the scans, of half a second each; the job lacks the delays alone."""
    (tmp_path / "night.vex").write_text(SHORT)
    folder = str(tmp_path / "day")
    assert command.main(["--sky", str(tmp_path / "night.vex"), "--auto", "--lags", "32", "--bits", "1", folder]) == 0
    assert capsys.readouterr().out == "".join(f"{folder}/{name}\n" for name in ("stations.txt", "Ef.vdif", "Wb.vdif", "Hh.vdif"))
    assert (tmp_path / "day" / "stations.txt").read_text().splitlines() == [
        "lags 32", "integration 64000", "epoch 64000", "auto",
        "station Ef 1 1 1 8032", "file Ef Ef.vdif", "chan Ef CH01 0 0", "station Wb 2 1 1 8032", "file Wb Wb.vdif", "chan Wb CH01 0 0",
        "station Hh 3 1 1 8032", "file Hh Hh.vdif", "chan Hh CH01 0 0", "product CH01 CH01",
    ]
    second, behind = (vex.second_of(f"2010y115d20h3{minute}m00s") - vex.second_of("2010y001d00h00m00s") for minute in (0, 3))
    for number, key, first in ((1, "Ef", 0), (2, "Wb", 0), (3, "Hh", 1)):  # 1.25 seconds lie in the frame of the second 1
        heads = numpy.fromfile(tmp_path / "day" / f"{key}.vdif", numpy.uint8).reshape(-1, 8032)[:, :16].copy().view(numpy.dtype("<u4"))
        assert heads[:, 0].tolist() == [*range(second + first, second + 3), behind, behind + 1]
        assert set(heads[:, 1]) == {20 << 24} and set(heads[:, 2]) == {8032 // 8} and set(heads[:, 3]) == {number}


def test_sources_that_pulse(tmp_path: Path) -> None:
    """Hh gets the pulses of the second scan as they pass the centre of the earth, in phase with those of the first, though its own clock is behind."""
    (tmp_path / "night.vex").write_text(SHORT)
    made = {}
    for name, pulses in (("always", ""), ("never", "--period 1 --duty 0"), ("pulsed", "--period 0.07 --duty 0.3")):
        folder, words = tmp_path / name, "--quiet --common 0.5 --bits 1 " + pulses
        assert command.main(["--sky", str(tmp_path / "night.vex"), *words.split(), str(folder)]) == 0
        frames = numpy.fromfile(folder / "Hh.vdif", numpy.uint8).reshape(-1, 8032)
        made[name] = numpy.unpackbits(frames[-2:, 32:], bitorder="little")
    night = schedule()
    arrival = scheduled.Arrival(night, "Hh", night.source("3C279"), vex.second_of("2010y115d20h33m00s"), True)
    seconds = numpy.arange(128_000) / 64_000
    past = (180 + seconds - arrival.lead(seconds)) / 0.07 % 1
    clear = numpy.minimum(abs(past - 0.3), numpy.minimum(past, 1 - past)) > 1e-6
    assert clear.mean() > 0.999 and (made["always"] != made["never"]).mean() > 0.1
    numpy.testing.assert_array_equal(made["pulsed"][clear], numpy.where(past < 0.3, made["always"], made["never"])[clear])


def test_scans_that_are_chosen(tmp_path: Path) -> None:
    night = schedule()
    one = scheduled.Night(night, vex.chosen_scans(night, ["No0002"]))
    assert one.seconds == 2 and one.job_text().splitlines()[-1] == "take No0002"
    assert one.frames == vdif.Frames(64_000, 1, 2)


@pytest.mark.parametrize("old, new, said", [
    ("source = 3C279;", "", "scan No0002 has no source"),
    ("source = 3C279;", "source = 3C345;", "no 3C345 in $SOURCE"),
    (": U : 0.032 MHz", ": U : 0.016 MHz", "channel CH01 of scan No0001 has a bandwidth that is not half of the 64000 samples a second"),
    ("start = 2010y115d20h33m00s", "start = 2010y115d20h30m02s", "station Ef is in scan No0002 and the one before it at once"),
    ("2010y115d20h33m", "1999y115d20h33m", "no VDIF reference epoch in the year 1999"),
    ("ref $SITE = HARTRAO;", "", "station Hh has no ref $SITE"),
    ("axis_type = az : el", "axis_type = alt : az", "axes that are not known: alt : az"),
    ("ref_coord_frame = J2000", "ref_coord_frame = B1950", "source 3C273B is in the frame B1950, not in J2000"),
])
def test_what_cannot_be_recorded(old: str, new: str, said: str, tmp_path: Path, capsys: pytest.CaptureFixture[str]) -> None:
    """The fault names the schedule, and nothing is written."""
    assert old in SHORT
    (tmp_path / "night.vex").write_text(SHORT.replace(old, new))
    assert command.main(["--sky", str(tmp_path / "night.vex"), str(tmp_path / "day")]) == 1
    assert capsys.readouterr().err == f"vlbi-simulate: {tmp_path / 'night.vex'}: {said}\n"
    assert not (tmp_path / "day").exists()


@pytest.mark.parametrize("words, said", [
    (["--sky", "night.vex", "--seconds", "3"], "--seconds does not go with --sky: the schedule says that"),
    (["--sky", "night.vex", "--station", "Ef"], "--station does not go with --sky: the schedule says that"),
    (["--scan", "No0001"], "--scan goes with --sky"),
    (["--no-atmosphere"], "--no-atmosphere goes with --sky"),
    (["--sky", "night.vex", "--duty", "0.5"], "--duty goes with --period"),
    (["--sky", "none.vex"], "none.vex: No such file or directory"),
])
def test_words_of_the_command(words: list[str], said: str, tmp_path: Path, capsys: pytest.CaptureFixture[str]) -> None:
    assert command.main([*words, str(tmp_path / "day")]) == 1
    assert capsys.readouterr().err == f"vlbi-simulate: {said}\n"
