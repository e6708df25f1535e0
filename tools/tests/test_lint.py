"""`vlbi.lint` and `vlbi-lint`: a job that is as it should be has no finding, and each change of it has its own, with its line and what to write."""
from __future__ import annotations

import os
import struct
from pathlib import Path

import pytest

from vlbi import coverage, joined, simulate
from vlbi import lint as linting
from vlbi import words as known
from vlbi.commands import lint

RATE, SECONDS = 80_000, 2
SKY = simulate.Sky((simulate.Station("Ef"), simulate.Station("Wb", delay=(1e-3,), clock=(2.5e-6,))), rate=RATE, seconds=SECONDS)
MACHINE = linting.Machine(workers=1)
START = "2010y001d00h00m00s"


@pytest.fixture(scope="module")
def night(tmp_path_factory: pytest.TempPathFactory) -> Path:
    folder = tmp_path_factory.mktemp("night")
    simulate.simulate(SKY, str(folder), lags=64, integration=10_000)
    return folder


@pytest.fixture
def folder(night: Path, tmp_path: Path, monkeypatch: pytest.MonkeyPatch) -> Path:
    for name in os.listdir(night):
        (tmp_path / name).write_bytes((night / name).read_bytes())
    monkeypatch.chdir(tmp_path)
    return tmp_path


def change(folder: Path, old: str, new: str, name: str = "job.txt") -> None:
    text = (folder / name).read_text()
    assert old in text
    (folder / name).write_text(text.replace(old, new))


def found(machine: linting.Machine = MACHINE, schedule: str | None = "sky.vex") -> list[str]:
    return [str(one) for one in linting.findings(coverage.Night(joined.read("job.txt", schedule)), machine)]


def number(folder: Path, front: str) -> int:
    """The number of the first line of the job that begins so."""
    return next(at for at, line in enumerate((folder / "job.txt").read_text().split("\n"), 1) if line.startswith(front))


def test_a_good_job_has_no_finding(folder: Path) -> None:
    assert found() == []
    asked = joined.read("job.txt", "sky.vex")
    night = coverage.Night(asked)
    assert list(linting.tables(night, MACHINE)) == [
        "recording Ef.vdif of Ef: 8 slots, 2010y001d00h00m00s to 2010y001d00h00m02s",
        "recording Wb.vdif of Wb: 8 slots, 2010y001d00h00m00s to 2010y001d00h00m02s",
        # Wb is read 80 samples later, of 160,000
        "scan No0001 2010y001d00h00m00s Ef: of 160000 samples CH01 100 %",
        "scan No0001 2010y001d00h00m00s Wb: of 160000 samples CH01 99.95 %",
        "slots 16 of 67108864",
        # 64 lags of 24 bytes in 16 integrations, and a gate and 28 bytes of the range, or 21 bytes of the record's place
        f"epochs 16, journal {16 * (64 * 24 + 1 + 28)} bytes, records {16 * (64 * 24 + 21)} bytes",
    ]


C0 = 80 * 2 ** 32  # 1 millisecond at 80,000 samples a second

LINES = [
    # what is changed, the line that is named, what is said, what is written instead
    ("epoch 10000", "epoch 3000", "epoch", "an integration of 10000 samples is no whole number of epochs: the last one of each has 1000", "write: epoch 2500"),
    ("clock Wb 2010y001d00h00m00s 858993459 0", "clock Wb 2010y001d00h00m00s 858993459 3436", "clock Wb",
     "the clock of Wb gains 1e-11 seconds a second, and masers stay below 1e-12",
     "measure it again; 1e-12 is written: clock Wb 2010y001d00h00m00s 858993459 344"),
    (f"poly Wb {START} {C0}\n", "", "station Wb", "Wb has no `poly` line and Ef has one: its delay is taken as 0",
     "write, where that is meant: poly Wb 2010y001d00h00m00s 0"),
    (f"poly Wb {START} {C0}\n", f"poly Wb {START} {C0}\npoly Wb 2010y001d00h00m01s {2 * C0}\n", "poly Wb 2010y001d00h00m01s",
     "the delay of Wb jumps by 80 samples (1000 microseconds) inside scan No0001", f"the line before it goes on as: poly Wb 2010y001d00h00m01s {C0}"),
    ("chan Wb CH01 0 0\n", "", "station Wb", "Wb has no `chan` line of CH01, which a product has", "write: chan Wb CH01 THREAD INDEX"),
    ("chan Wb CH01 0 0\n", "chan Wb CH1 0 0\n", "station Wb", "Wb has no `chan` line of CH01, which a product has; is `CH1` meant?",
     "write: chan Wb CH01 THREAD INDEX"),
    ("chan Wb CH01 0 0\n", "chan Wb CH01 3 0\n", "chan Wb", "the recordings of Wb have no frame of thread 3: they have the threads 0",
     "write: chan Wb CH01 0 0"),
    ("file Wb Wb.vdif\n", "", "station Wb", "Wb has no recording", "write: file Wb NAME"),
    ("file Wb Wb.vdif\n", "file Wb WB.vdif\n", "file Wb", "WB.vdif: there is no such file in {folder}; is `Wb.vdif` meant?",
     "correct the name: file Wb WB.vdif"),
    ("station Wb 2 2 1 5032", "station Wb 2 2 2 5032", "station Wb", "no slot of Wb.vdif has the shape of `station Wb 2 2 2 5032`",
     "its first frame is: station Wb 2 2 1 5032"),
]


@pytest.mark.parametrize("old, new, line, what, instead", LINES, ids=[row[3][:40] for row in LINES])
def test_lines_of_a_job(folder: Path, old: str, new: str, line: str, what: str, instead: str) -> None:
    change(folder, old, new)
    assert f"job.txt:{number(folder, line)}: {what.format(folder=folder)}\n    {instead}" in found()


def test_lags_and_clocks(folder: Path) -> None:
    # 64 lags reach 32 samples of 12.5 microseconds; two clocks of 300 microseconds are off by 48 samples
    assert found(linting.Machine(1, known=300.0)) == [
        "job.txt:1: 64 lags reach 400 microseconds to either side; two clocks that are known to 300 microseconds each may be off by 600 (--known)\n"
        "    write: lags 96",
    ]


def test_a_fringe_that_turns_too_fast(folder: Path) -> None:
    # a microsecond a second: 2^24 knots of 32,768 samples are 6,871,948 seconds; the fringe turns 8,400 times a second, so that a sector lasts 0.6 samples:
    # 8,400 * 16 * 4 samples a second would have four
    change(folder, f"poly Wb {START} {C0}", f"poly Wb {START} {C0} {round(1e-6 * RATE * 2 ** 32 * (2 ** 24 * 32768 / RATE))}")
    said = "the fringe of Wb CH01 turns 8400 times a second in scan No0001: a sector lasts 0.6 samples; its delay grows by 1e-06 seconds a second"
    assert any(said in it and "from 537600 samples a second on a sector lasts 4" in it for it in found())


def test_workers_that_idle(folder: Path) -> None:
    # an epoch of 10,000 samples of one baseline and one product has three pieces of 4,096
    said = found(linting.Machine(8))
    assert said == ["job.txt:3: an epoch of 10000 samples leaves 5 of 8 workers idle: an epoch has 3 pieces\n    write: --workers 3, or a longer `epoch`"]
    assert "a piece of 10000 samples leaves 1 of 2 workers idle" in found(linting.Machine(2, 10_000))[0]


def test_a_channel_that_the_schedule_has_not(folder: Path) -> None:
    for old, new in (("chan Wb CH01", "chan Wb CH1"), ("chan Ef CH01", "chan Ef CH1"), ("product CH01 CH01", "product CH1 CH1")):
        change(folder, old, new)
    said = found()
    line = number(folder, "chan Wb")
    assert f"job.txt:{line}: the channel CH1 of Wb is not in the schedule, where it has CH01\n    write its name there; is `CH01` meant?" in said
    assert said[-1].startswith("job.txt: this run would have no pairs at all: all of its 1 scans, baselines and products are without one")


def test_an_empty_recording(folder: Path) -> None:
    (folder / "Wb.vdif").write_bytes(b"")
    said = found()
    assert said[0].startswith(f"job.txt:{number(folder, 'file Wb')}: the recording Wb.vdif of Wb is empty")
    assert "no pairs at all" in said[-1]


def moved(path: Path, seconds: int) -> None:
    """The recording, so many seconds later."""
    frames = bytearray(path.read_bytes())
    for at in range(0, len(frames), 5032):
        struct.pack_into("<I", frames, at, struct.unpack_from("<I", frames, at)[0] + seconds)
    path.write_bytes(bytes(frames))


@pytest.mark.parametrize("seconds, said", [
    (100, "it begins 98 s behind the end of scan No0001; name"),
    (3600, "it begins 3598 s behind the end of scan No0001; it begins +1 hours from it: is its time, or that of the schedule, another one?"),
])
def test_a_recording_that_is_late(folder: Path, seconds: int, said: str) -> None:
    moved(folder / "Wb.vdif", seconds)
    words = found()
    assert "Wb.vdif holds nothing of a scan that is taken: it goes from " in words[0] and said in words[0]
    assert "Wb CH01 has 0 % of its 160000 samples in scan No0001" in words[1] and f"+{seconds} s from the scan's begin" in words[1]
    assert "no pairs at all" in words[-1]


def test_a_recording_that_is_cut_off(folder: Path) -> None:
    # three of eight frames, and ten bytes more; each frame is a quarter of a second
    (folder / "Wb.vdif").write_bytes((folder / "Wb.vdif").read_bytes()[:3 * 5032 + 10])
    said = found()
    assert said[0].startswith(f"job.txt:{number(folder, 'file Wb')}: Wb.vdif has 15106 bytes: 3 frames of 5032 bytes and 10 bytes more")
    # 60,000 samples, less the 80 that the delay skips
    assert "Wb CH01 has 37.45 % of its 160000 samples in scan No0001" in said[1]
    assert "0 s are missing at the begin, 1.251 s at the end, 0 s between" in said[1]
    assert len(said) == 2


def test_a_job_of_too_many_slots_is_split(folder: Path, monkeypatch: pytest.MonkeyPatch) -> None:
    monkeypatch.setattr(known, "MOST_SLOTS", 15)
    said = found(schedule="sky.vex")
    assert said[0].startswith("job.txt: the recordings have 16 slots, and a job may have 15\n    split it, and name in each the files of its scans alone: ")
    assert said[0].endswith("job 1: take No0001 (16 slots); scan No0001 alone has too many: cut it in the schedule")
    # Each file has four frames, of a second. Scan A goes on for the 80 samples by which Wb is late into its second file.
    text = (folder / "job.txt").read_text() + f"rate {RATE}\nscan A {START} 80000\nscan B 2010y001d00h00m01s 80000\nband CH01 8400000000 U\n"
    for key in ("Ef", "Wb"):
        frames = (folder / f"{key}.vdif").read_bytes()
        for half in (0, 1):
            (folder / f"{key}{half}.vdif").write_bytes(frames[half * 4 * 5032:(half + 1) * 4 * 5032])
        text = text.replace(f"file {key} {key}.vdif\n", f"file {key} {key}0.vdif\nfile {key} {key}1.vdif\n")
    (folder / "job.txt").write_text(text)
    assert found(schedule=None)[0].endswith("job 1: take A (12 slots); job 2: take B (8 slots)")


def test_a_disk_that_is_too_small(folder: Path) -> None:
    assert found(linting.Machine(1, free=49_000)) == [
        "job.txt:2: records of 24912 bytes and a journal of 25040 bytes are more than the 49000 that are free here\n"
        "    take a longer `integration` and `epoch`, fewer lags, or some scans by `take` lines; or work on another disk",
    ]


def test_epochs_of_which_the_syncs_dominate(folder: Path) -> None:
    change(folder, "epoch 10000", "epoch 100")
    said = found()
    # 1,600 epochs; 100 samples of one baseline at 64 lags
    assert said[0].startswith("job.txt:3: an epoch of 100 samples is summed in some 0.0004 ms, and keeping each of the 1600 in the journal takes some 10 ms")
    assert "write: epoch 10000" in said[0]


def test_epochs_of_another_length_than_the_jobs(folder: Path) -> None:
    asked = joined.read("job.txt", "sky.vex")
    machine = linting.Machine(1, epoch=4000)
    assert list(linting.tables(coverage.Night(asked), machine))[-1].startswith(f"epochs 48, journal {48 * (64 * 24 + 1 + 28)} bytes, ")
    # an integration has 10,000 samples: the line of the job is not to blame, nor is it what is changed
    assert found(machine) == [
        "job.txt: an integration of 10000 samples is no whole number of epochs: the last one of each has 2000\n    write: --epoch 2500",
    ]
    assert found(linting.Machine(1, epoch=10_000)) == []
    assert found(linting.Machine(1, epoch=100))[0].endswith("write: --epoch 10000")


def test_a_job_that_states_its_scans(folder: Path) -> None:
    own = f"rate {RATE}\nscan A {START} 80000\nscan B 2010y001d01h00m00s 80000\nband CH01 8400000000 U\n"
    (folder / "job.txt").write_text((folder / "job.txt").read_text() + own)
    said = found(schedule=None)
    assert [line.split("\n")[0].split(": ", 1)[1] for line in said] == [
        "Ef CH01 has 0 % of its 80000 samples in scan B (2010y001d01h00m00s to 2010y001d01h00m01s)",
        "Wb CH01 has 0 % of its 80000 samples in scan B (2010y001d01h00m00s to 2010y001d01h00m01s)",
        "no pairs in scan B on Ef-Wb CH01,CH01",
    ]


PROGRAM = "#!/bin/sh\nprintf '%b' \"$SAID\"\nprintf '%b' \"$NOTE\" >&2\nexit $STATUS\n"


@pytest.fixture
def stand_in(folder: Path, monkeypatch: pytest.MonkeyPatch) -> Path:
    """A program that says what the environment holds."""
    path = folder / "vlbi"
    path.write_text(PROGRAM)
    path.chmod(0o755)
    for name, value in (("SAID", "scans 1\\n"), ("NOTE", ""), ("STATUS", "0")):
        monkeypatch.setenv(name, value)
    return path


def test_the_command(stand_in: Path, capsys: pytest.CaptureFixture[str], monkeypatch: pytest.MonkeyPatch) -> None:
    words = ["job.txt", "--vex", "sky.vex", "--workers", "1", "--program", str(stand_in)]
    assert lint.main(words) == 0
    assert capsys.readouterr().out.endswith("nothing to look at\n")
    assert lint.main([*words, "--quiet"]) == 0 and capsys.readouterr().out == ""
    monkeypatch.setenv("SAID", "scans 1\\nepochs 2\\nstation Wb slots 400 doubled 0 invalid 3 foreign 0 late 0\\n")
    assert lint.main([*words, "--quiet"]) == 1
    assert capsys.readouterr().out == "job.txt: 3 of 400 slots of Wb are marked invalid\n1 thing to look at\n"


def test_what_the_program_refuses(stand_in: Path, capsys: pytest.CaptureFixture[str], monkeypatch: pytest.MonkeyPatch) -> None:
    (stand_in.parent / "job.txt").write_text("lags 64\nlag 3\n")
    monkeypatch.setenv("STATUS", "4")
    monkeypatch.setenv("NOTE", "vlbi: job: Unknown in line 2\\n")
    assert lint.main(["job.txt", "--program", str(stand_in)]) == 1
    assert capsys.readouterr().out == (
        "job.txt: vlbi: job: Unknown in line 2\n    job.txt:2: lag 3\n    `lag` is no word of a job here; is `lags` meant?\n1 thing to look at\n"
    )
    assert lint.main(["none.txt", "--program", str(stand_in.parent / "none")]) == 1
