"""`vlbi.splitting`: a day of ten stations, planned as it is and correlated at a thousandth of its length."""
from __future__ import annotations

import io
import os
import random
import struct
import subprocess
from pathlib import Path

import numpy
import pytest
import stand_in
from test_cluster import call, program

from vlbi import cluster, joined, records, splitting, vdif, words
from vlbi.faults import Fault
from vlbi.job import vex_time

START = 1262304000  # 2010-01-01
KEYS = [f"S{number}" for number in range(10)]


def job_of(rate: int, frame: int, scans: list[tuple[int, int]]) -> str:
    """A job of ten stations, each with a recording for each scan of so many seconds from a second on."""
    lines = ["lags 2", f"integration {rate}", f"epoch {rate}"]
    for number, key in enumerate(KEYS, 1):
        lines += [f"station {key} {number} 2 1 {frame}", *(f"file {key} {key}_{scan}.vdif" for scan in range(len(scans))), f"chan {key} X 0 0"]
    lines += ["product X X", f"rate {rate}", "band X 1000000 U"]
    return "\n".join([*lines, *(f"scan No{number} {vex_time(begin)} {seconds * rate}" for number, (begin, seconds) in enumerate(scans))]) + "\n"


def test_a_day_of_ten_stations(tmp_path: Path, monkeypatch: pytest.MonkeyPatch) -> None:
    """144 scans of 560 seconds, at 2,000 frames a second: the recordings are holes but for the headers at their ends."""
    monkeypatch.chdir(tmp_path)
    scans = [(START + 600 * number, 560) for number in range(144)]
    text = job_of(64_000_000, 8032, scans)
    Path("job.txt").write_text(text)
    for station, key in enumerate(KEYS, 1):
        for scan, (begin, seconds) in enumerate(scans):
            with open(f"{key}_{scan}.vdif", "wb") as file:
                for frame in (0, 2000 * seconds - 1):
                    file.seek(8032 * frame)
                    file.write(struct.pack("<4I", begin - START + frame // 2000, 20 << 24 | frame % 2000, 1004, 1 << 26 | station))
                file.truncate(8032 * 2000 * seconds)
    found = cluster.plan("job.txt", None, 8)
    taken = [[line.split()[1] for line in one.decode().splitlines() if line.startswith("take")] for one in found.texts]
    assert [name for names in taken for name in names] == [f"No{number}" for number in range(144)]
    assert [len(names) for names in taken] == [5] * 28 + [4]  # 11,200,000 slots each
    for one, names in zip(found.texts, taken):
        files = [line.split()[2] for line in one.decode().splitlines() if line.startswith("file")]
        assert files == [f"{key}_{name[2:]}.vdif" for key in KEYS for name in names]
        assert sum(os.path.getsize(name) // 8032 for name in files) <= words.MOST_SLOTS
    assert [len(found.of_job(number)) for number in range(29)] == [8] * 29
    assert sum(shard.end - shard.begin for shard in found.shards) == 144 * 560


def recorded(rate: int, frames: vdif.Frames, scans: list[tuple[int, int]]) -> None:
    draw = numpy.random.default_rng(1)
    for station, key in enumerate(KEYS, 1):
        for scan, (begin, seconds) in enumerate(scans):
            with open(f"{key}_{scan}.vdif", "wb") as file:
                made = vdif.Recording(frames, station, file)
                made.go_to(begin, 0)
                made.add(draw.integers(0, 4, (seconds * rate, 1)).astype(numpy.uint8))


def test_a_thousandth_of_it(tmp_path: Path, monkeypatch: pytest.MonkeyPatch) -> None:
    """86 seconds in twelve scans, with a thousandth of the slots that a job may have: the records are those of the whole job."""
    monkeypatch.chdir(tmp_path)
    rate, scans = 32, [(START + 7 * number, 6) for number in range(12)]
    frames = vdif.Frames(rate, 1, 2)
    text = job_of(rate, frames.size, scans)
    Path("job.txt").write_text(text)
    recorded(rate, frames, scans)
    slots = sum(os.path.getsize(path) // frames.size for path in Path(".").glob("*.vdif"))
    program(tmp_path / "vlbi")
    made = cluster.plan("job.txt", None, 2, most=slots // 3)
    assert len(made.texts) == 3 and len(made.shards) == 6
    cluster.write(made, "night", str(tmp_path / "vlbi"), 1, 64)
    running = [subprocess.Popen(["night/shard", str(shard.number)], stdout=subprocess.DEVNULL) for shard in made.shards]
    assert [one.wait() for one in running] == [0] * 6
    assert call("night/merge") == (0, "", "")
    whole = subprocess.run(["./vlbi", "journal", "plain", "--job", "job.txt"], capture_output=True).stdout
    assert Path("night/records.vis").read_bytes() == whole


SMALL = """lags 2
integration 64
epoch 64
station A 1 2 1 40
station B 2 2 1 40
station C 3 2 1 40
file A a0.vdif
file A a1.vdif   # of the second scan
file B b0.vdif
file B none.vdif
file C c1.vdif
chan A X 0 0
chan B X 0 0
chan C X 0 0
product X X
take S
take T
rate 64
scan S 2010y001d00h00m00s 128
scan T 2010y001d00h00m02s 128
scan U 2010y001d00h00m04s 128
band X 1000 U
"""


@pytest.fixture
def small(tmp_path: Path, monkeypatch: pytest.MonkeyPatch) -> Path:
    """Recordings of two seconds, four slots each: of scan S those with 0, of scan T those with 1."""
    monkeypatch.chdir(tmp_path)
    for name in ("a0", "a1", "b0", "c1"):
        heads = [(int(name[1]) * 2 + frame // 2, 20 << 24 | frame % 2, 5, 1 << 26 | "abc".index(name[0]) + 1) for frame in range(4)]
        Path(f"{name}.vdif").write_bytes(b"".join(struct.pack("<4I", *head) + bytes(24) for head in heads))
    Path("job.txt").write_text(SMALL)
    return tmp_path


def lines_of(text: bytes, word: str) -> list[str]:
    return [line.split("#")[0].strip() for line in text.decode().splitlines() if line.startswith(word + " ")]


def test_the_lines_of_the_parts(small: Path) -> None:
    """A file that is not there stays in every job; what is not taken is in none."""
    text = SMALL.encode()
    asked = joined.read("job.txt")
    assert splitting.split(asked, text, 16) == [text]
    first, second = splitting.split(asked, text, 15)
    assert (lines_of(first, "file"), lines_of(first, "take")) == (["file A a0.vdif", "file B b0.vdif", "file B none.vdif"], ["take S"])
    assert (lines_of(second, "file"), lines_of(second, "take")) == (["file A a1.vdif", "file B none.vdif", "file C c1.vdif"], ["take T"])
    for word in ("station", "chan", "scan", "band", "rate", "lags"):
        assert lines_of(first, word) == lines_of(text, word) == lines_of(second, word)
    with pytest.raises(Fault, match="^job.txt: the recordings of scan S alone have 8 slots, and a job may have 7: "):
        splitting.split(asked, text, 7)


def test_a_recording_without_a_header(small: Path) -> None:
    Path("a1.vdif").write_bytes(bytes(160))
    texts = splitting.split(joined.read("job.txt"), SMALL.encode(), 15)
    assert [lines_of(one, "file")[:2] for one in texts] == [["file A a0.vdif", "file A a1.vdif"], ["file A a1.vdif", "file B none.vdif"]]


def record_file(stations: list[str], scans: list[tuple[str, list[tuple[int, int]]]], seed: int, lags: int = 2) -> bytes:
    """A record file of scans of three integrations and one product, with random cells."""
    draw = random.Random(seed)
    text = b"VLBIVIS1" + struct.pack("<IQQI", lags, 10, 64, len(stations)) + b"".join(map(splitting.name, stations))
    text += struct.pack("<I", 1) + splitting.name("X") * 2 + struct.pack("<I", len(scans))
    for name, baselines in scans:
        text += splitting.name(name) + struct.pack("<QQI", 5, 30, len(baselines)) + b"".join(struct.pack("<II", *pair) for pair in baselines)
    count = 0
    for number, (_, baselines) in enumerate(scans):
        for record in range(3 * len(baselines)):
            text += struct.pack("<BIQII", 1, number, record // len(baselines), 0, record % len(baselines)) + draw.randbytes(24 * lags)
            count += 1
    return text + struct.pack("<BQ", 255, count)


def test_record_files_that_are_joined(tmp_path: Path) -> None:
    """Of stations that each has some of: the numbers are those of all."""
    paths = [str(tmp_path / name) for name in ("0", "1")]
    Path(paths[0]).write_bytes(record_file(["A", "C"], [("S", [(0, 1)]), ("T", [(0, 1)])], 1))
    Path(paths[1]).write_bytes(record_file(["A", "B", "C"], [("U", [(0, 1), (1, 2)])], 2))
    out = io.BytesIO()
    splitting.join(paths, ("A", "B", "C"), out)
    found, (first, second) = records.from_bytes(out.getvalue()), map(records.read, paths)
    assert [(scan.name, scan.baselines) for scan in found.scans] == [("S", ((0, 2),)), ("T", ((0, 2),)), ("U", ((0, 1), (1, 2)))]
    assert [scan.cells.tobytes() for scan in found.scans] == [scan.cells.tobytes() for scan in (*first.scans, *second.scans)]
    for other in (record_file(["A", "C"], [], 1, lags=4), record_file(["C", "A"], [], 1), record_file(["D"], [], 1)):
        Path(paths[1]).write_bytes(other)
        with pytest.raises(Fault, match="/1: it has other lags, integrations, rate, products or stations$"):
            splitting.join(paths, ("A", "B", "C"), io.BytesIO())
