"""`vlbi.records` on journals of both versions and of parts of a job: files made by `checkpoint_journals`, which knows their bytes alone, and by the program."""
from __future__ import annotations

import os
import struct
from collections.abc import Iterator
from pathlib import Path

import checkpoint_journals as made
import numpy
import program
import pytest

from vlbi import job as jobs
from vlbi import records
from vlbi.faults import Fault

ROOT = Path(__file__).resolve().parents[2]
DEMO, RUNS = ROOT / "demo", ROOT / ".ci" / "runs"

# Three stations, so three baselines, in scans of 7, 0 and 3 samples, integrations of 5 and epochs of 2.
TEXT = b"""lags 2
integration 5
epoch 2
station A 1 2 1 40
station B 2 2 1 40
station C 3 2 1 40
chan A X 0 0
product X X
product X Y
rate 64
scan S 2010y001d00h00m00s 7
scan T 2010y001d01h00m00s 0
scan U 2010y001d02h00m00s 3
band X 0 U
"""
RECORDINGS = [80, 120]
JOB = made.Job(made.identity(b"", TEXT, RECORDINGS), 5, 2, 2, [made.Scan(7, 2, 3), made.Scan(0, 2, 3), made.Scan(3, 2, 3)])
CELLS = 24 * 2 * 3 * 2  # bytes of an epoch's cells
FRONT = 1 + len(JOB.identity)


def appended(file: bytes, lengths: list[int], job: made.Job = JOB) -> bytes:
    """A file opened as a journal of the job, or of a part of it, and epochs of these lengths appended."""
    disk = made.Disk(file)
    journal = made.open_journal(job, disk)
    for samples in lengths:
        made.append(job, disk, journal, samples)
    return disk.seen


# A journal with ranges, an old one, and an old one that goes on with ranges; with what each keeps.
NEW = appended(b"", [1, 3, 4, 2, 1])
OLD = made.old_journal(JOB, 3)
MARKED = appended(OLD, [1, 1, 2, 9])
Ranges = list[tuple[int, int, int, int]]
FILES: dict[str, tuple[bytes, Ranges]] = {
    "of ranges": (NEW, [(0, 0, 0, 1), (0, 0, 1, 4), (0, 0, 4, 5), (0, 1, 5, 7), (2, 0, 0, 1)]),
    "old": (OLD, [(0, 0, 0, 2), (0, 0, 2, 4), (0, 0, 4, 5)]),
    "old and whole": (made.old_journal(JOB, 6), [(0, 0, 0, 2), (0, 0, 2, 4), (0, 0, 4, 5), (0, 1, 5, 7), (2, 0, 0, 2), (2, 0, 2, 3)]),
    "marked": (MARKED, [(0, 0, 0, 2), (0, 0, 2, 4), (0, 0, 4, 5), (0, 1, 5, 6), (0, 1, 6, 7), (2, 0, 0, 2), (2, 0, 2, 3)]),
    "marked at once": (appended(made.old_journal(JOB, 0), [5]), [(0, 0, 0, 5)]),
    "marked, and nothing behind": (appended(made.old_journal(JOB, 1), []), [(0, 0, 0, 2)]),
    "without an epoch": (appended(b"", []), []),
}


def read(path: Path, data: bytes) -> list[records.KeptEpoch]:
    path.write_bytes(data)
    return records.kept_epochs(str(path))


def faulty(path: Path, data: bytes) -> str:
    """What is said of a file that is no journal."""
    path.write_bytes(data)
    said = []
    for number in range(3):
        with pytest.raises(records.JournalFault) as caught:
            read_by(number, str(path))
        assert caught.value.path == str(path)
        said.append(f"{caught.value.kind} at {caught.value.at}")
    assert len(set(said)) == 1
    return said[0]


def read_by(number: int, path: str) -> None:
    """Reads a journal in one of three ways."""
    if number == 0:
        records.kept_epochs(path)
    elif number == 1:
        records.journal(path)
    else:
        records.Follower(path).look()


@pytest.mark.parametrize("name", FILES)
def test_the_epochs_that_are_kept(name: str, tmp_path: Path) -> None:
    file, due = FILES[name]
    kept = read(tmp_path / "journal", file)
    assert [one.epoch for one in kept] == due
    for one in kept:
        assert one.cells.shape == (2, 3, 2) and not one.cells.flags.writeable
        # groups of cells stand by product and then by baseline, in each the lags from the lowest on
        assert one.cells.reshape(-1).tolist() == JOB.rule(made.Epoch(*one.epoch))
    found = records.journal(str(tmp_path / "journal"))
    samples = sum(end - begin for _, _, begin, end in due)
    assert (found.kept, found.kept_samples, found.samples, found.recordings) == (len(due), samples, 10, (80, 120))
    assert found.job == TEXT and found.schedule == b"" and found.whole == (samples == 10) == (found.next is None)


@pytest.mark.parametrize("epoch, said", [(None, "5 of 6 epochs kept"), (1, "5 of 7 epochs kept"), (9, "5 of 6 epochs kept")])
def test_how_many_are_left(epoch: int | None, said: str, tmp_path: Path) -> None:
    """Two samples behind the first of the last scan."""
    path = tmp_path / "journal"
    path.write_bytes(NEW)
    found = records.journal(str(path), epoch)
    assert str(found) == said and found.next == (2, 0, 1)


# The job has three integrations: of 5 and 2 samples in the first scan, and of 3 in the last one.
PARTS: list[tuple[int, int, list[int], Ranges]] = [
    (1, 3, [1, 9, 2, 1], [(0, 1, 5, 6), (0, 1, 6, 7), (2, 0, 0, 2), (2, 0, 2, 3)]),
    (1, 2, [9], [(0, 1, 5, 7)]),
    (0, 1, [2, 3], [(0, 0, 0, 2), (0, 0, 2, 5)]),
    (2, 3, [1], [(2, 0, 0, 1)]),
    (0, 3, [9, 9, 2], [(0, 0, 0, 5), (0, 1, 5, 7), (2, 0, 0, 2)]),
    (1, 3, [], []),
]


@pytest.mark.parametrize("begin, end, lengths, due", PARTS)
def test_the_epochs_of_a_part(begin: int, end: int, lengths: list[int], due: Ranges, tmp_path: Path) -> None:
    path, part = tmp_path / "journal", made.Part(JOB, begin, end)
    file = appended(b"", lengths, part)
    kept = read(path, file)
    assert [one.epoch for one in kept] == due
    assert all(one.cells.reshape(-1).tolist() == JOB.rule(made.Epoch(*one.epoch)) for one in kept)
    samples, all_samples = sum(one[3] - one[2] for one in due), sum(one.end - one.begin for one in part.walk(part.first(), 9))
    place = part.after(made.Epoch(*due[-1])) if due else part.first()
    for epoch, left in ((None, 2), (1, 1), (9, 9)):
        found = records.journal(str(path), epoch)
        assert (found.part, found.kept, found.kept_samples, found.samples, found.recordings) == ((begin, end), len(due), samples, all_samples, (80, 120))
        assert (found.next, found.whole, found.epochs) == (place, place is None, len(due) + len(part.walk(place, left)))
    follower = records.Follower(str(path))
    rows = follower.look()
    assert rows is not None and rows.plan.pairs == all_samples * 12 and rows.kept_pairs == samples * 12
    for size in range(2, len(file)):
        assert faulty(path, file[:size]) == f"the end at {size}"


def test_a_journal_of_a_part_is_never_old(tmp_path: Path) -> None:
    """A mark stands for no epoch of it: of integration 1 the first sample is 5."""
    file = appended(b"", [], made.Part(JOB, 1, 3))
    assert faulty(tmp_path / "journal", file[:-1] + b"\1" + made.MARK + b"\0") == f"an epoch that is not due at {len(file) + 4}"
    assert faulty(tmp_path / "journal", file[:8] + b"2" + file[9:]) == "another mark at 1"


def test_a_follower_goes_on_behind_a_mark(tmp_path: Path) -> None:
    path = tmp_path / "journal"
    follower = records.Follower(str(path))
    seen = []
    for file in (OLD, appended(OLD, []), appended(OLD, [1]), MARKED):
        path.write_bytes(file)
        rows = follower.look()
        assert rows is not None
        seen.append((rows.kept, rows.kept_samples, rows.kept_pairs, rows.ranged, rows.epochs()))
    assert seen == [(3, 5, 60, False, 6), (3, 5, 60, True, 6), (4, 6, 72, True, 7), (7, 10, 120, True, 7)]


@pytest.mark.parametrize("name", FILES)
def test_a_file_that_is_cut(name: str, tmp_path: Path) -> None:
    """Each part of a journal from its head gate on is none, but where it ends with a gate that was closed."""
    file = FILES[name][0]
    for size in (*range(2, FRONT, 50), *range(FRONT - 1, len(file), 5), len(file) - 1):
        assert faulty(tmp_path / "journal", file[:size]) == f"the end at {size}"
    for size in (0, 1):
        path = tmp_path / "journal"
        path.write_bytes(file[:size])
        assert records.journal(str(path)).blank and records.kept_epochs(str(path)) == []


def torn(file: bytes) -> Iterator[bytes]:
    """What a crash may leave behind the last gate of a file, which stays closed."""
    record = bytes(4) + b"\7" * (24 + CELLS) + b"\1"
    for size in (1, 4, 28, 29, len(record) - 1, len(record)):
        yield file + record[:size]
    yield file + b"\1" * len(record)
    yield file[:-1] + b"\7"


@pytest.mark.parametrize("name", FILES)
def test_a_record_that_is_torn(name: str, tmp_path: Path) -> None:
    """What stands behind a closed gate plays no part."""
    file, due = FILES[name]
    for data in torn(file):
        assert [one.epoch for one in read(tmp_path / "journal", data)] == due
        assert records.journal(str(tmp_path / "journal")).kept == len(due)


def test_gates_that_are_closed(tmp_path: Path) -> None:
    """The epochs of the open gates in a row: those of a whole journal, whose gates are closed one by one."""
    first, turn = 1 + 28 + CELLS, FRONT + 3 * (1 + CELLS)
    for file, gates in ((NEW, [FRONT + number * first for number in range(6)]), (MARKED, [turn, turn + 25, turn + 25 + first])):
        for number, gate in enumerate(gates):
            closed = file[:gate] + b"\0" + file[gate + 1:]
            assert len(read(tmp_path / "journal", closed)) == (number if file is NEW else 3 + max(number - 1, 0))


@pytest.mark.parametrize("at, size, number, said", [
    (0, 4, 1, 0),             # another scan
    (0, 4, 1 << 24, 3),
    (4, 8, 1, 4),             # another integration
    (12, 8, 0, 12),           # another sample
    (12, 8, 257, 13),
    (20, 8, 1, 20),           # no sample
    (20, 8, 6, 20),           # past the integration
    (20, 8, 2 ** 63 + 4, 20),
])
def test_a_range_that_is_not_due(at: int, size: int, number: int, said: int, tmp_path: Path) -> None:
    """The second record of a journal has samples 1 to 3 of the first integration. Of a place the first byte that differs is told, of an end its first."""
    place = FRONT + 1 + 28 + CELLS + 1
    file = NEW[:place + at] + number.to_bytes(size, "little") + NEW[place + at + size:]
    assert faulty(tmp_path / "journal", file) == f"an epoch that is not due at {place + said}"


def test_an_epoch_that_is_too_long(tmp_path: Path) -> None:
    """4,194,304 samples are the most."""
    text = TEXT.replace(b"integration 5", b"integration 9000000").replace(b" 7\n", b" 9000000\n")
    front = b"\1" + made.identity(b"", text, RECORDINGS) + b"\1"
    for end, kept in ((4_194_304, 1), (4_194_305, 0)):
        file = front + struct.pack("<IQQQ", 0, 0, 0, end) + bytes(CELLS) + b"\0"
        if kept:
            assert [one.epoch for one in read(tmp_path / "journal", file)] == [(0, 0, 0, end)]
        else:
            assert faulty(tmp_path / "journal", file) == f"an epoch that is not due at {len(front) + 20}"


def test_other_files(tmp_path: Path) -> None:
    path = tmp_path / "journal"
    assert faulty(path, NEW[:1] + b"VLBIJRN3" + NEW[9:]) == "another mark at 1"
    assert faulty(path, b"\1VLBIJRN2" + b"\xff" * 8) == "the end at 17"
    # a mark in a journal with ranges is the range of no epoch that is due; its first byte that differs is that of the sample
    file = appended(b"", [])[:-1] + b"\1" + made.MARK + b"\0"
    assert faulty(path, file) == f"an epoch that is not due at {FRONT + 1 + 16}"
    # a second mark is none either: of scan 0, integration 1 and sample 5
    file = appended(OLD, [])[:-1] + b"\1" + made.MARK + b"\0"
    assert faulty(path, file) == f"an epoch that is not due at {FRONT + 3 * (1 + CELLS) + 25 + 1 + 4}"


def test_a_journal_by_hand(tmp_path: Path) -> None:
    """By docs/FORMATS.md: the job of demo/ in epochs of 16 samples, as many as are kept, in both versions."""
    job = (DEMO / "job.txt").read_bytes().replace(b"epoch 64", b"epoch 16")
    assert b"epoch 16" in job
    numbers = struct.pack("<QQQ", 0, len(job), 2) + struct.pack("<QQ", 80, 80) + job
    path = tmp_path / "journal"
    for kept in range(5):
        ranges = [struct.pack("<IQQQ", 0, 0, 16 * number, 16 * number + 16) for number in range(kept)]
        for version, heads in ((b"VLBIJRN1", [b""] * kept), (b"VLBIJRN2", ranges)):
            path.write_bytes(b"\1" + version + numbers + b"".join(b"\1" + head + bytes(48) for head in heads) + b"\0")
            found = records.journal(str(path))
            assert str(found) == f"{kept} of 4 epochs kept"
            assert (found.kept_samples, found.samples, found.recordings, found.whole) == (16 * kept, 64, (80, 80), kept == 4)


def test_blank_journals(tmp_path: Path) -> None:
    path = tmp_path / "journal"
    for content in (b"", b"\1", b"\7" + 300 * b"\xff"):
        path.write_bytes(content)
        assert str(records.journal(str(path))) == "a blank journal"


# The program

JOBS = [
    (DEMO, "job.txt", None),
    (RUNS, "growing.txt", None),
    (RUNS, "two_integrations.txt", None),
    (RUNS, "three_stations.txt", "three_stations.vex"),
    (DEMO, "sky.txt", "sky.vex"),
]


@pytest.fixture
def folder(tmp_path: Path) -> Path:
    for name in {*os.listdir(DEMO), *os.listdir(RUNS)}:
        os.symlink((DEMO if (DEMO / name).exists() else RUNS) / name, tmp_path / name)
    return tmp_path


def words_of(job: str, schedule: str | None, epoch: int | None = None) -> list[str]:
    return ["--job", job] + (["--vex", schedule] if schedule else []) + (["--epoch", str(epoch)] if epoch else [])


@pytest.mark.parametrize("at, job, schedule", JOBS)
@pytest.mark.parametrize("epoch", [None, 13])
def test_a_journal_at_each_of_its_epochs(at: Path, job: str, schedule: str | None, epoch: int | None, folder: Path) -> None:
    """As `status` and `journal` see it."""
    program.needs("run")
    words = words_of(job, schedule, epoch)
    length = 4_000 if epoch and job == "sky.txt" else epoch
    assert program.call("journal", "run", *words_of(job, schedule, length), "--workers", "2", "--piece", "64", folder=folder)[0] == 0
    path = folder / "journal"
    kept = path.read_bytes()
    whole = records.journal(str(path), epoch)
    assert whole.whole and whole.kept_samples == whole.samples
    assert whole.job == (at / job).read_bytes()
    for size in range(len(kept), max(len(kept) - 600, 0), -7):
        path.write_bytes(kept[:size])
        status, line, _ = program.call("journal", "status", *words, folder=folder)
        if status == 10:
            with pytest.raises(records.JournalFault):
                records.journal(str(path), epoch)
        elif size > 1:
            assert (status, line) == (0, f"{records.journal(str(path), epoch)}\n".encode())
    path.write_bytes(kept)
    gates = gates_of(whole, records.kept_epochs(str(path)))
    assert gates[-1] == len(kept) - 1
    for number, gate in enumerate(gates):
        path.write_bytes(kept[:gate] + b"\0" + kept[gate + 1:])
        found = records.journal(str(path), epoch)
        assert found.kept == number
        assert program.call("journal", "status", *words, folder=folder) == (0, f"{found}\n".encode(), b"")


def gates_of(journal: records.Journal, kept: list[records.KeptEpoch]) -> list[int]:
    """The places of the gates of a journal with ranges."""
    places = [33 + 8 * len(journal.recordings) + len(journal.schedule) + len(journal.job)]
    for one in kept:
        places.append(places[-1] + 1 + 28 + one.cells.nbytes)
    return places


@pytest.mark.parametrize("at, job, schedule", JOBS)
def test_the_cells_of_a_journal_add_up_to_the_records(at: Path, job: str, schedule: str | None, folder: Path) -> None:
    """Those of the epochs of an integration to the records of that integration, of whatever length the epochs are, and behind an old journal's too."""
    program.needs("run")
    path = folder / "journal"
    for epoch in (None, 40_000 if job == "sky.txt" else 7):
        path.unlink(missing_ok=True)
        words = [*words_of(job, schedule, epoch), "--workers", "2", "--piece", "64"]
        status, said, _ = program.call("journal", "run", *words, folder=folder)
        assert status == 0 and added(path, said) == []
    # the first epoch of an old journal, without its range, and behind it epochs of another length
    path.unlink()
    assert program.call("journal", "run", *words_of(job, schedule), "--workers", "1", "--piece", "64", folder=folder)[0] == 0
    new = path.read_bytes()
    gate = gates_of(records.journal(str(path)), records.kept_epochs(str(path))[:1])
    path.write_bytes(new[:1] + b"VLBIJRN1" + new[9:gate[0] + 1] + new[gate[0] + 29:gate[1]] + b"\0")
    assert records.journal(str(path)).kept == 1
    words = [*words_of(job, schedule, 50_000 if job == "sky.txt" else 9), "--workers", "2", "--piece", "64"]
    status, again, _ = program.call("journal", "run", *words, folder=folder)
    assert status == 0 and again == said and added(path, again) == [] and path.read_bytes()[1:9] == b"VLBIJRN1"


@pytest.mark.parametrize("at, job, schedule", JOBS)
def test_the_parts_of_a_job_have_its_epochs(at: Path, job: str, schedule: str | None, folder: Path) -> None:
    """Two parts that follow one another keep what a run keeps."""
    program.needs("run")
    program.needs("shard")
    words = [*words_of(job, schedule), "--workers", "2", "--piece", "64"]
    assert program.call("journal", "run", *words, folder=folder)[0] == 0
    texts = (at / job).read_bytes(), (at / schedule).read_bytes() if schedule else b""
    count, kept = jobs.plan(*texts).integrations, []
    for begin, end in {(0, count // 2), (count // 2, count)} - {(0, 0)}:
        ends = ["--from", str(begin), "--to", str(end)]
        path = folder / f"part{begin}"
        assert program.call(path.name, "shard", *words, *ends, folder=folder) == (0, f"shard {begin} {end} done\n".encode(), b"")
        found = records.journal(str(path))
        assert found.part == (begin, end) and found.whole and (found.job, found.schedule) == texts
        assert program.call(path.name, "status", *words_of(job, schedule), folder=folder)[0] == 10
        kept += [(one.epoch, one.cells.tobytes()) for one in records.kept_epochs(str(path))]
    assert sorted(kept) == [(one.epoch, one.cells.tobytes()) for one in records.kept_epochs(str(folder / "journal"))]
    past = ["--from", "0", "--to", str(count + 1)]
    assert program.call("past", "shard", *words, *past, folder=folder) == (6, b"", f"vlbi: limit: shard {count + 1}\n".encode())


def added(path: Path, said: bytes) -> list[str]:
    """The scans in which the cells of a journal do not add up to those of a record file."""
    kept, wrong = records.kept_epochs(str(path)), []
    for number, scan in enumerate(records.from_bytes(said).scans):
        sums = numpy.zeros(scan.cells.shape, records.CELL)
        for one in (one for one in kept if one.epoch.scan == number):
            for field in records.CELL.names or ():
                sums[field][one.epoch.integration] += one.cells[field]
        if (sums != scan.cells).any():
            wrong.append(scan.name)
    return wrong


def test_a_job_that_cannot_be_read(tmp_path: Path) -> None:
    path = tmp_path / "journal"
    path.write_bytes(b"\1" + made.identity(b"", b"lags 4\n", []) + b"\0")
    with pytest.raises(jobs.JobFault) as caught:
        records.journal(str(path))
    assert isinstance(caught.value, Fault) and caught.value.path == str(path)
