"""`vlbi-run`, `vlbi-watch` and `vlbi.refusal`: a program that stands in for `vlbi` keeps epochs, ends with a status or waits for a signal."""
from __future__ import annotations

import os
import re
import signal
import struct
import subprocess
import sys
import time
from pathlib import Path

import pytest

from vlbi import progress, records, refusal
from vlbi.words import COMMANDS
from vlbi.commands import run, watch

RATE = 1000
JOB = b"""lags 4
integration 1000
epoch 500
station A 1 2 1 40
file A a.vdif
station B 2 2 1 40
file B b.vdif
chan A X 0 0
chan B X 0 0
product X X
rate 1000
scan S 2010y001d00h00m00s 4000
band X 0 U
"""
CELLS = 4 * 24

# Keeps the epochs of $KEEP, then ends with $STATUS, or waits for a signal.
PROGRAM = f"""#!{sys.executable}
import os, signal, struct, sys, time
journal, words = sys.argv[1], sys.argv[2:]
print(" ".join(words), flush=True)
job = open(words[words.index("--job") + 1], "rb").read()
with open(journal, "wb") as file:
    file.write(b"\\1VLBIJRN2" + struct.pack("<QQQQQ", 0, len(job), 2, 80, 80) + job + b"\\0")
    for number in range(int(os.environ.get("KEEP", "0"))):
        file.seek(-1, 2)
        file.write(b"\\1" + struct.pack("<IQQQ", 0, number // 2, 500 * number, 500 * number + 500) + bytes({CELLS}) + b"\\0")
        file.flush()
print(os.environ.get("NOTE", ""), end="", file=sys.stderr, flush=True)
if os.environ.get("WAIT"):
    open("waits", "w").close()
    while True:
        time.sleep(0.1)
sys.exit(int(os.environ.get("STATUS", "0")))
"""


@pytest.fixture
def folder(tmp_path: Path, monkeypatch: pytest.MonkeyPatch) -> Path:
    monkeypatch.chdir(tmp_path)
    (tmp_path / "vlbi").write_text(PROGRAM)
    (tmp_path / "vlbi").chmod(0o755)
    (tmp_path / "job.txt").write_bytes(JOB)
    for name in ("a.vdif", "b.vdif"):
        (tmp_path / name).write_bytes(bytes(80))
    monkeypatch.setattr(run, "LOOK", 0.05)
    return tmp_path


def test_words_are_handed_on_and_chosen(folder: Path, capfd: pytest.CaptureFixture[str], monkeypatch: pytest.MonkeyPatch) -> None:
    monkeypatch.setenv("KEEP", "8")
    assert run.main(["--program", "./vlbi", "j", "--job", "job.txt", "--workers", "3", "--piece", "64"]) == 0
    said = capfd.readouterr()
    assert said.out == "run --job job.txt --workers 3 --piece 64\n"
    assert "vlbi-run: 8 of 8 epochs kept" in said.err and "vlbi-run: all 8 epochs are kept and the records written, in 0:0" in said.err
    assert run.main(["--program", "./vlbi", "--quiet", "j", "run", "--job=job.txt", "--job", "b", "--fly"]) == 0
    workers = len(os.sched_getaffinity(0))
    assert capfd.readouterr() == (f"run --job job.txt --job b --fly --workers {workers} --piece 4096\n", "")


def test_epochs_of_another_length(folder: Path, capfd: pytest.CaptureFixture[str], monkeypatch: pytest.MonkeyPatch) -> None:
    # 2,000 samples of 4,000 are kept; 100 at a time, 20 are left
    monkeypatch.setenv("KEEP", "4")
    assert run.main(["--program", "./vlbi", "j", "--job", "job.txt", "--epoch", "100", "--workers", "1"]) == 0
    said = capfd.readouterr()
    assert said.out == "run --job job.txt --epoch 100 --workers 1 --piece 4096\n"
    assert said.err.startswith("vlbi-run: 4 of 24 epochs kept")
    # the program says what is wrong with a number, and the job's own line counts for what is shown
    for word in ("0", "x", "4194305"):
        run.main(["--program", "./vlbi", "j", "--job", "job.txt", "--epoch", word, "--workers", "1"])
        said = capfd.readouterr()
        assert said.out == f"run --job job.txt --epoch {word} --workers 1 --piece 4096\n" and "vlbi-run: 4 of 8 epochs kept" in said.err


def test_a_status_is_handed_on_and_explained(folder: Path, capfd: pytest.CaptureFixture[str], monkeypatch: pytest.MonkeyPatch) -> None:
    monkeypatch.setenv("STATUS", "8")
    monkeypatch.setenv("NOTE", "vlbi: journal fault, 5 epochs kept\n")
    assert run.main(["--program", "./vlbi", "--quiet", "j", "--job", "job.txt"]) == 8
    said = capfd.readouterr().err.splitlines()
    assert said[:2] == ["vlbi: journal fault, 5 epochs kept", "vlbi-run: 5 epochs are safe."] and "bytes left" in said[2]


@pytest.mark.parametrize("number", [signal.SIGTERM, signal.SIGINT, signal.SIGHUP])
def test_signals_are_handed_on(folder: Path, number: signal.Signals) -> None:
    words = [sys.executable, "-m", "vlbi.commands.run", "--program", "./vlbi", "j", "--job", "job.txt"]
    environment = {**os.environ, "PYTHONPATH": str(Path(run.__file__).parents[2]), "WAIT": "1", "KEEP": "2"}
    process = subprocess.Popen(words, stdout=subprocess.PIPE, stderr=subprocess.PIPE, env=environment)
    until = time.monotonic() + 60
    while not os.path.exists("waits") and time.monotonic() < until:
        time.sleep(0.02)
    process.send_signal(number)
    said = process.communicate(timeout=60)[1].decode()
    if number == signal.SIGINT:  # the stand-in is a Python that says so, and ends by it
        assert "KeyboardInterrupt" in said
    assert process.returncode == -number
    assert said.endswith(f"vlbi-run: stopped by {number.name}; the same command goes on behind the epochs that are kept\n")


def test_no_program(folder: Path, capsys: pytest.CaptureFixture[str], monkeypatch: pytest.MonkeyPatch) -> None:
    monkeypatch.setenv("PATH", "")
    assert run.main(["j", "--job", "job.txt"]) == 1
    assert capsys.readouterr().err == f"vlbi-run: {run.NO_PROGRAM}\n"


# Progress

def journal(path: Path, kept: int, job: bytes = JOB, epoch: int = 500) -> None:
    """A journal of the job that keeps so many epochs."""
    identity = b"\1VLBIJRN2" + struct.pack("<QQQQQ", 0, len(job), 2, 80, 80) + job
    begins = (epoch * number for number in range(kept))
    records = (b"\1" + struct.pack("<IQQQ", 0, begin // 1000, begin, begin + epoch) + bytes(CELLS) for begin in begins)
    path.write_bytes(identity + b"".join(records) + b"\0")


def part_journal(path: Path, begin: int, end: int, kept: int, job: bytes = JOB) -> None:
    """A journal of a part of the job that keeps so many epochs of half an integration each."""
    identity = b"\1VLBISHD1" + struct.pack("<QQQQQQQ", begin, end, 0, len(job), 2, 80, 80) + job
    begins = (1000 * begin + 500 * number for number in range(kept))
    records = (b"\1" + struct.pack("<IQQQ", 0, at // 1000, at, at + 500) + bytes(CELLS) for at in begins)
    path.write_bytes(identity + b"".join(records) + b"\0")


def old_journal(path: Path, kept: int) -> None:
    """The same without ranges."""
    path.write_bytes(b"\1VLBIJRN1" + struct.pack("<QQQQQ", 0, len(JOB), 2, 80, 80) + JOB + (b"\1" + bytes(CELLS)) * kept + b"\0")


def test_how_far_it_is(folder: Path) -> None:
    one = progress.Watch("j")
    assert one.look(0.0) is None
    (folder / "j").write_bytes(b"\0")
    assert one.look(1.0) is None
    journal(folder / "j", 2)
    state = one.look(2.0)
    assert state is not None and (state.words, state.whole) == ("2 of 8 epochs kept", False)
    journal(folder / "j", 4)
    # two epochs of 500 samples and four lags in two seconds; four more are left
    state = one.look(4.0)
    assert state == progress.State(4, 8, 500.0, 2000.0, 0.5, 4.0, 0.0)
    assert state.words == "4 of 8 epochs kept, 500 samples/s (0.5 times real time), 2 kpairs/s, 0:04 left"
    state = one.look(68.0)
    assert state is not None and state.still == 64.0 and "nothing kept for 1:04" in state.words
    journal(folder / "j", 8)
    state = one.look(70.0)
    assert state is not None and state.whole and "left" not in state.words


def test_how_far_it_is_by_other_epochs(folder: Path) -> None:
    """Of 4,000 samples 400 are kept, 100 at a time; 3,600 are left: an epoch of 600 samples to the end of the integration, and three integrations."""
    journal(folder / "j", 4, epoch=100)
    for epoch, epochs in ((None, 4 + 2 + 6), (100, 40), (400, 4 + 2 + 9), (4194304, 4 + 1 + 3)):
        state = progress.Watch("j", epoch=epoch).look(0.0)
        assert state is not None and state.front == f"4 of {epochs} epochs kept"


def test_how_far_an_old_journal_is(folder: Path) -> None:
    old_journal(folder / "j", 3)
    for epoch, front in ((None, "3 of 8 epochs kept"), (100, "3 of 28 epochs kept")):
        state = progress.Watch("j", epoch=epoch).look(0.0)
        assert state is not None and state.front == front


def test_how_far_a_part_is(folder: Path) -> None:
    """Of the last three integrations of four, one and a half are kept."""
    part_journal(folder / "j", 1, 4, 3)
    for epoch, front in ((None, "3 of 6 epochs kept"), (100, "3 of 18 epochs kept"), (4194304, "3 of 5 epochs kept")):
        state = progress.Watch("j", epoch=epoch).look(0.0)
        assert state is not None and state.front == front
    one = progress.Watch("j")
    one.look(0.0)
    part_journal(folder / "j", 1, 4, 5)
    # 1,000 samples and four lags in two seconds; 500 samples are left
    assert one.look(2.0) == progress.State(5, 6, 500.0, 2000.0, 0.5, 1.0, 0.0)
    assert progress.Watch("j", (JOB, b"")).look(0.0) is None


def test_a_speed_is_that_of_the_last_minute(folder: Path) -> None:
    one = progress.Watch("j")
    for kept, now in ((0, 0.0), (2, 10.0), (2, 100.0), (3, 110.0)):
        journal(folder / "j", kept)
        state = one.look(now)
    # from the 10th second on, the last look that is a minute old
    assert state is not None and state.samples == 500 / 100


def test_another_jobs_journal_is_not_shown(folder: Path) -> None:
    journal(folder / "j", 3, JOB + b"# another\n")
    one = progress.Watch("j", (JOB, b""))
    assert one.look(0.0) is None
    journal(folder / "j", 3)
    state = one.look(1.0)
    assert state is not None and state.kept == 3


def test_a_follower_goes_on_where_it_was(folder: Path) -> None:
    follower = records.Follower("j")
    for kept in (0, 1, 5, 8):
        journal(folder / "j", kept)
        rows = follower.look()
        assert rows is not None and (rows.kept, rows.kept_samples, rows.kept_pairs) == (kept, 500 * kept, 2000 * kept)
        assert records.journal("j").kept == kept


def test_numbers_in_words() -> None:
    assert [progress.scaled(number) for number in (0, 0.5, 999, 1000, 1.6e6, 2.5e9)] == ["0 ", "0.5 ", "999 ", "1 k", "1.6 M", "2.5 G"]
    assert [progress.clock(seconds) for seconds in (0, 59.6, 3599, 7384)] == ["0:00", "1:00", "59:59", "2:03:04"]


def test_watching(folder: Path, capsys: pytest.CaptureFixture[str]) -> None:
    assert watch.main(["--once", "j"]) == 0
    assert capsys.readouterr().out == "nothing is kept yet\n"
    journal(folder / "j", 3)
    assert watch.main(["--once", "j"]) == 0
    assert capsys.readouterr().out == "3 of 8 epochs kept\n"
    assert watch.main(["--once", "--epoch", "1000", "j"]) == 0
    assert capsys.readouterr().out == "3 of 6 epochs kept\n"
    journal(folder / "j", 8)
    assert watch.main(["j"]) == 0
    assert capsys.readouterr().err == "vlbi-watch: 8 of 8 epochs kept\n"
    (folder / "j").write_bytes(b"\1text of another kind")
    assert watch.main(["--once", "j"]) == 1
    assert capsys.readouterr().err == "vlbi-watch: j: no journal: another mark at byte 1\n"


def test_a_terminal_has_one_line(folder: Path) -> None:
    """In a terminal of its own the bar of tqdm."""
    pytest.importorskip("tqdm")
    import fcntl
    import pty
    import termios

    journal(folder / "j", 8)
    parent, child = pty.openpty()
    fcntl.ioctl(child, termios.TIOCSWINSZ, struct.pack("HHHH", 24, 100, 0, 0))
    words = [sys.executable, "-m", "vlbi.commands.watch", "j"]
    done = subprocess.run(words, stderr=child, env={**os.environ, "PYTHONPATH": str(Path(run.__file__).parents[2])})
    os.close(child)
    said = os.read(parent, 10000).decode()
    assert done.returncode == 0 and "100 %|" in said and "8 of 8 epochs" in said and said.count("\n") == 1


# What to do after a status

SCHEDULE = b"""VEX_rev = 1.5;
$MODE; def M; ref $FREQ = G; enddef;
$FREQ; def F; sample_rate = 1 Ms/sec; enddef;
$SCHED; scan S; start = 2010y001d00h00m00s; mode = M; station = A : 0 sec : 1 sec; endscan;
"""


def told(status: int, note: str, *words: str, journal: str = "j") -> list[str]:
    return refusal.advice(refusal.Call(journal, words or ("run", "--job", "job.txt")), status, note)


WORDS = [
    (("run", "--job", "job.txt", "--piece", "64"), ["--workers is missing"]),
    (("run", "--job", "a", "--workers", "65", "--piece", "64"), ["--workers 65: it is a whole number, 1 to 64"]),
    (("run", "--job", "a", "--workers", "x", "--piece", "63"), [
        "--workers x: it is a whole number, 1 to 64", "--piece 63: it is a whole number, 64 to 4194304"]),
    (("check", "--job", "a", "--epoch", "4194305"), ["--epoch 4194305: it is a whole number, 1 to 4194304"]),
    (("plain", "--job", "a", "--epoch", "64"), [
        "`--epoch` is no option of `plain`: --job, --vex", "`64` is no option of `plain`: --job, --vex"]),
    (("plain", "--job", "a", "--job", "b"), ["--job is given 2 times"]),
    (("plain", "--jbo", "a"), [
        "--job is missing", "`--jbo` is no option of `plain`: --job, --vex; is `--job` meant?", "`a` is no option of `plain`: --job, --vex"]),
    (("rnu", "--job", "a"), ["`rnu` is no command: run, plain, check, status, dump, gen, fringe, verify, bins, shard, merge; is `run` meant?"]),
    (("gen", "--seed=7", "--seconds", "61", "--workers", "1", "--piece", "64"), ["--seconds 61: it is a whole number, 1 to 60"]),
    (("dump",), ["`dump` takes the name of one record file"]),
    (("fringe", "a", "--rates", "4097"), ["--rates 4097: it is a whole number, 0 to 4096", "--divide is missing"]),
    (("verify", "a"), ["`verify` takes the name of one record file and that of one certificate"]),
    (("shard", "--job", "a", "--workers", "1", "--piece", "64", "--from", "2", "--to", "2"), [
        "--to 2: the part has the integrations from --from up to, not including, --to, which is above --from"]),
    (("shard", "--job", "a", "--workers", "1", "--piece", "64", "--from", "-1", "--to", "18446744073709551616"), [
        "--from has no value", "--to 18446744073709551616: it is a whole number, 0 to 18446744073709551615"]),
    (("shard", "--job", "a", "--workers", "1", "--piece", "64", "--to", "2"), ["--from is missing"]),
    (("merge", "--job", "a"), ["`merge` takes the name of one journal of a part, or those of more"]),
    (("merge", "p", "--job", "a", "q", "--epoch", "1", "--workers", "2", "r"), [
        "`--epoch` is no option of `merge`: --job, --vex", "`--workers` is no option of `merge`: --job, --vex"]),
    (("merge", "p", "--vex", "v", "q", "--", "--job", "--r"), ["--job is missing"]),
    (("plain", "--job", "a", "--", "b"), ["`--` is no option of `plain`: --job, --vex", "`b` is no option of `plain`: --job, --vex"]),
]


def test_the_commands_are_those_of_the_program() -> None:
    top = Path(__file__).resolve().parents[2]
    order, page, checked = ((top / name).read_text(encoding="utf-8") for name in ("crates/run_words/src/order.rt", "man/vlbi.1", ".ci/tools"))
    commands = re.findall(r'if command == "(\w+)"', order)
    assert list(COMMANDS) == commands
    assert re.findall(r"^\.It Cm (\w+)$", page, re.MULTILINE) == commands
    assert re.findall(r'^export VLBI_COMMANDS="(.*)"$', checked, re.MULTILINE) == [" ".join(commands)]


@pytest.mark.parametrize("words, said", WORDS, ids=[row[1][0] for row in WORDS])
def test_words_of_a_call(words: tuple[str, ...], said: list[str]) -> None:
    assert told(2, "vlbi: words: Option", *words) == said


@pytest.mark.parametrize("names", [("p",), ("p", "q"), ("p", "q", "p"), ("--", "-p", "--job")])
def test_words_of_a_merge(names: tuple[str, ...]) -> None:
    call = refusal.Call("j", ("merge", "--job", "job.txt", *names))
    assert list(refusal.of_words(call, "")) == [] and call.names == [name for name in names if name != "--"] and call.job == "job.txt"


def test_a_line_of_a_certificate(folder: Path) -> None:
    (folder / "c").write_bytes(b"grid 1 1\npeak 0 0 0 0 0 9 0\n")
    due = "the text was changed or cut short, or it is the certificate of another record file: `fringe` writes that of r.vis"
    assert told(13, "vlbi: certificate at byte 9", "verify", "r.vis", "c") == [
        "c:2: `peak 0 0 0 0 0 9 0` is not the line that is due here, or not true", due]
    assert told(13, "vlbi: certificate at byte 28", "verify", "r.vis", "c") == ["c:3: a line is missing here", due]


PHASES = [
    ("bins: Range in line 2", b"# of two\nbins 65\n", ["p:2: bins 65", "write: bins B, 2 to 64"]),
    ("bins: Double in line 2", b"bins 2\nbins 65\n", ["p:2: bins 65", "this is said in an earlier line already"]),
    ("bins: Line in line 1", b"bin 2\n", ["p:1: bin 2", "`bin` is no word of a text of phases; is `bins` meant?"]),
    ("bins: Line in line 1", b"phase 0 0\n", [
        "p:1: phase 0 0", "write: phase TIME C0 .. C5, one to six numbers: the sum of their magnitudes below 2^58",
        "a time is written 2010y113d20h29m00s, of a day that its year has"]),
    ("bins: Missing in line 0", b"bins 2\n", [
        "p: the text lacks a line `phase`: phase TIME C0 .. C5, one to six numbers: the sum of their magnitudes below 2^58"]),
    ("bins: NoPhase for S", b"", [
        "p: a sample of the scan S has no phase",
        "a `phase` line has to begin before the scan, and the scan to end before the line is 2^24 knots of the job old"]),
]


@pytest.mark.parametrize("note, text, said", PHASES, ids=[row[0] for row in PHASES])
def test_a_text_of_phases(folder: Path, note: str, text: bytes, said: list[str]) -> None:
    (folder / "p").write_bytes(text)
    assert told(12, f"vlbi: {note}", "bins", "--job", "job.txt", "--phase", "p", "--workers", "1", "--piece", "64") == said


def test_a_byte_of_a_schedule(folder: Path) -> None:
    (folder / "sky.vex").write_bytes(SCHEDULE)
    at = SCHEDULE.index(b"ref $FREQ")
    assert told(3, f"vlbi: schedule: UnknownRef at byte {at}", "run", "--job", "job.txt", "--vex", "sky.vex") == [
        "sky.vex:2: the def that this names is not there",
        "    $MODE; def M; ref $FREQ = G; enddef;",
        "                  ^",
        "the defs of $FREQ: F",
    ]


JOBS = [
    ("job: Missing in line 0", JOB.replace(b"epoch 500\n", b"").replace(b"rate 1000\n", b""), [
        "job.txt: the job lacks a line `epoch`: epoch SAMPLES, 1 to 4194304",
        "job.txt: the job lacks a line `rate`: rate R, 1 to 2^32 - 1, without a schedule only, or --vex SCHEDULE in its place"]),
    ("job: Range in line 1", JOB.replace(b"lags 4", b"lags 3"), ["job.txt:1: lags 3", "write: lags L, L even, 2 to 1024"]),
    ("job: Unknown in line 2", JOB.replace(b"integration", b"integration:"), [
        "job.txt:2: integration: 1000", "`integration:` is no word of a job here; is `integration` meant?"]),
    ("job: Unknown in line 5", JOB.replace(b"file A", b"file C"), [
        "job.txt:5: file C a.vdif", "a name here is not in an earlier line", "no `station` line before this one has C: there are A"]),
    ("job: Unknown in line 5", JOB.replace(b"file A", b"file B"), [
        "job.txt:5: file B a.vdif", "a name here is not in an earlier line",
        "no `station` line before this one has B: there are A; its `station` line comes later: put it in front"]),
    ("job: Double in line 10", JOB.replace(b"product X X\n", b"chan B X 1 0\n"), ["job.txt:10: chan B X 1 0", "this is said in an earlier line already"]),
    ("job: Line in line 12", JOB.replace(b"2010y001d00h00m00s", b"2010-01-01"), [
        "job.txt:12: scan S 2010-01-01 4000", "write: scan NAME TIME SAMPLES, 0 to 2^40 samples, without a schedule only",
        "a time is written 2010y113d20h29m00s, of a day that its year has"]),
    # 32 samples in a frame do not go into 1000 samples a second
    ("job: FrameRate for A", JOB, [
        "a frame of A holds 32 complete samples, and 1000 samples a second are no whole number of such frames",
        "`station A 1 2 1 40`: look at bits, channels and the bytes of a frame"]),
    ("job: NoModel for A", JOB + b"poly A 2010y001d00h00m01s 0\n", [
        "the first `poly` line of A is of 2010y001d00h00m01s, its first scan begins at 2010y001d00h00m00s",
        # 2^24 knots of 32768 samples
        "the last one is of 2010y001d00h00m01s and counts for 549755814 seconds (2^24 knots)",
        "all samples of a scan need one, also those before a station that comes late: `vlbi-model` writes them"]),
]


@pytest.mark.parametrize("note, job, said", JOBS, ids=[row[0] for row in JOBS])
def test_lines_of_a_job(folder: Path, note: str, job: bytes, said: list[str]) -> None:
    (folder / "job.txt").write_bytes(job)
    assert told(4, f"vlbi: {note}") == said


def test_job_and_schedule(folder: Path) -> None:
    (folder / "sky.vex").write_bytes(SCHEDULE.replace(b"= G", b"= F"))
    words = ("run", "--job", "job.txt", "--vex", "sky.vex")
    assert told(4, "vlbi: job: UnknownStation for B", *words)[0] == "no scan that is taken has the station B: there are A"
    assert told(4, "vlbi: job: UnknownScan for T", *words) == ["`take T` names no scan of sky.vex: there are S"]
    assert told(4, "vlbi: job: RateDiffers for S", *words)[0] == "scan S, station A: 1000000 samples a second"


def test_the_first_frame_of_a_recording(folder: Path) -> None:
    # two channels, 2 bits, 80 bytes, station 7, thread 0
    (folder / "a.vdif").write_bytes(struct.pack("<IIII", 0, 20 << 24, 1 << 24 | 10, 1 << 26 | 7) + bytes(64))
    assert told(5, "vlbi: recording: A Length") == [
        "job.txt:4: station A 1 2 1 40", "the first frame of a.vdif differs in Length; it is of the shape", "    station A 7 2 2 80",
        "correct the line, or the name in the `file` line",
    ]


def test_files_and_limits(folder: Path) -> None:
    (folder / "b.vdif").unlink()
    assert told(11, "vlbi: no file b.vdif") == [f"b.vdif: there is no such file in {folder}; is `a.vdif` meant?"]
    assert told(7, "vlbi: read fault")[0] == f"b.vdif: there is no such file in {folder}; is `a.vdif` meant?"
    (folder / "c.vdif").mkdir()
    assert refusal.why_not("c.vdif") == ["c.vdif: Is a directory"]
    assert told(6, "vlbi: limit: load 400000000") == [
        "load 400000000: the greatest is 268435456",
        "take a shorter epoch, by `--epoch` or in the job: stations times channels times its samples may come to that"]
    shard = ("shard", "--job", "job.txt", "--workers", "1", "--piece", "64", "--from", "0", "--to", "5")
    assert told(6, "vlbi: limit: shard 5", *shard) == [
        "--to 5: the greatest is 4, the number of the job's integrations",
        "they are counted from 0 through all scans that are correlated, one behind the other"]
    assert told(9, "vlbi: write fault", *shard)[1] == "Call the same command again: it only writes its line anew, from the journal."
    assert told(8, "vlbi: journal fault", journal="none/j") == ["none/j: there is no folder none"]
    assert told(5, "vlbi: records: Short at byte 160", "dump", "a.vis")[0].startswith("it is cut off")
    assert told(0, "") == []


def test_the_journal_of_another_job(folder: Path) -> None:
    journal(folder / "j", 3, JOB.replace(b"epoch 500", b"epoch 250"))
    assert told(10, "vlbi: other journal at byte 77: kept 32, ours 35") == [
        "the job differs in line 3:", "    job.txt: epoch 500", "    the journal's: epoch 250",
        "epochs of another length need no other job: leave that line as the journal has it, and call with --epoch",
        "Name another journal, or remove this one to begin anew."]
    journal(folder / "j", 3, JOB.replace(b"lags 4", b"lags 8"))
    assert told(10, "vlbi: other journal at byte 54: kept 38, ours 34") == [
        "the job differs in line 1:", "    job.txt: lags 4", "    the journal's: lags 8", "Name another journal, or remove this one to begin anew."]
    shard = ("shard", "--job", "job.txt", "--workers", "1", "--piece", "64", "--from", "0", "--to", "2")
    end = "Name another journal, or remove this one to begin anew."
    part_journal(folder / "j", 0, 3, 1)
    assert told(10, "vlbi: other journal at byte 17", *shard) == ["the journal is of the part from 0 to 3, and the call is of the part from 0 to 2", end]
    assert told(10, "vlbi: other journal at byte 5") == ["the journal is of the part from 0 to 3, and the call is of the whole job", end]
    journal(folder / "j", 3)
    assert told(10, "vlbi: other journal at byte 5", *shard) == ["the journal is of the whole job, and the call is of the part from 0 to 2", end]
    (folder / "b.vdif").write_bytes(bytes(120))
    assert told(10, "vlbi: other journal at byte 33")[0] == "the recording b.vdif has 120 bytes, and had 80 when the journal was begun"
    (folder / "sky.vex").write_bytes(SCHEDULE.replace(b"= G", b"= F"))
    assert told(10, "vlbi: other journal at byte 9", "run", "--job", "job.txt", "--vex", "sky.vex")[0] == (
        "the journal was begun without a schedule, and the call is with one")


# Journals of parts that are merged

MERGE = ("merge", "--job", "job.txt", "first", "second")
NEXT = "Name the journal that `shard` made of this job, copy it whole, or sum its part anew into another one."


def test_files_and_limits_of_a_merge(folder: Path) -> None:
    part_journal(folder / "first", 0, 2, 1)
    assert told(7, "vlbi: read fault", *MERGE) == [
        f"second: there is no such file in {folder}", "Then call the same command again: it begins anew."]
    assert told(11, "vlbi: no file second", *MERGE) == [f"second: there is no such file in {folder}"]
    assert told(9, "vlbi: write fault", *MERGE)[1] == "Call the same command again: it only writes the records anew, from the journals."
    assert told(1, "vlbi: out of memory", *MERGE)[1] == "Else call the same command again once memory is free."
    assert told(6, "vlbi: limit: epochs 5000000000", *MERGE) == [
        "epochs 5000000000: the greatest is 4294967296", "take a longer epoch, by `--epoch` or in the job, or some scans by `take` lines",
        "`merge` has no `--epoch`: it goes by the job's own line",
        "The journals of parts are of the job as it is: with a job that is changed sum them anew."]


def changed(path: Path, at: int, byte: int) -> None:
    """A file with another byte at a place."""
    text = path.read_bytes()
    path.write_bytes(text[:at] + bytes([byte]) + text[at + 1:])


def test_files_that_are_no_journals_of_parts(folder: Path) -> None:
    first = folder / "first"
    journal(first, 3)
    assert told(14, "vlbi: merge: NotShard first at byte 5", *MERGE) == ["first: it is the journal of a `run`, and `merge` takes those of `shard`", NEXT]
    first.write_bytes(JOB)
    assert told(14, "vlbi: merge: NotShard first at byte 1", *MERGE) == ["first: it is no journal, and `merge` takes those of `shard`", NEXT]
    part_journal(first, 0, 5, 1)
    assert told(14, "vlbi: merge: NotShard first at byte 9", *MERGE) == ["first: it is of the part from 0 to 5, and the job has 4 integrations", NEXT]
    part_journal(first, 0, 2, 2)
    whole = first.read_bytes()
    for length in (5, 9, 100, len(whole) - 1):
        first.write_bytes(whole[:length])
        assert told(14, f"vlbi: merge: NotShard first at byte {length}", *MERGE) == [f"first: it is cut off behind {length} bytes", NEXT]
    first.write_bytes(whole)
    changed(first, 38, 1)  # the length of the job
    assert told(14, "vlbi: merge: NotShard first at byte 38", *MERGE) == ["first: a byte of its front was changed", NEXT]
    first.write_bytes(whole)
    changed(first, 65 + len(JOB) + 1, 1)  # the scan of the first epoch
    assert told(14, f"vlbi: merge: NotShard first at byte {66 + len(JOB)}", *MERGE) == [
        "first: an epoch in it is not the one that is due: it was changed", NEXT]


def test_journals_of_parts_of_another_job(folder: Path) -> None:
    part_journal(folder / "first", 0, 2, 1, JOB.replace(b"lags 4", b"lags 8"))
    assert told(14, "vlbi: merge: NotShard first at byte 70", *MERGE) == [
        "first: it is of another job", "the job differs in line 1:", "    job.txt: lags 4", "    the journal's: lags 8", NEXT]
    part_journal(folder / "first", 0, 2, 1, JOB.replace(b"epoch 500", b"epoch 250"))
    assert told(14, "vlbi: merge: NotShard first at byte 93", *MERGE) == [
        "first: it is of another job", "the job differs in line 3:", "    job.txt: epoch 500", "    the journal's: epoch 250",
        "epochs of another length need no other job: leave that line as the journal has it", NEXT]
    part_journal(folder / "first", 0, 2, 1)
    (folder / "b.vdif").write_bytes(bytes(120))
    assert told(14, "vlbi: merge: NotShard first at byte 57", *MERGE) == [
        "first: it is of another job", "the recording b.vdif has 120 bytes, and had 80 when the journal was begun", NEXT]


def test_an_integration_that_no_journal_covers(folder: Path) -> None:
    part_journal(folder / "first", 0, 2, 3)
    part_journal(folder / "second", 1, 3, 0)
    assert told(14, "vlbi: merge: Uncovered 1", *MERGE) == [
        "integration 1 is number 1 of scan S", "first: it keeps 1500 of the 2000 samples of the part from 0 to 2: call its `shard` again",
        "second: it keeps 0 of the 2000 samples of the part from 1 to 3: call its `shard` again"]
    (folder / "second").write_bytes(b"\0")
    assert told(14, "vlbi: merge: Uncovered 2", *MERGE) == [
        "integration 2 is number 2 of scan S", "No journal that is named is of a part with it: name that one too, or sum the part by `shard`.",
        "second: it is blank, and its `shard` has kept nothing"]


def test_cells_in_which_journals_differ(folder: Path) -> None:
    """The third product of a scan with three baselines, of which the second is that of both stations."""
    job = JOB.replace(b"product X X\n", b"chan A Y 1 0\nchan B Y 1 0\nproduct X X\nproduct X Y\nproduct Y X\nauto\n")
    job += b"scan T 2010y001d00h00m05s 2000\nband Y 0 U\n"
    (folder / "job.txt").write_bytes(job)
    for name, begin, end in (("first", 0, 6), ("second", 5, 6), ("third", 0, 5)):
        part_journal(folder / name, begin, end, 0, job)
    assert told(14, "vlbi: merge: Differs 5 7 -1 144 0 16 145 -2 16", *MERGE, "third") == [
        "integration 5 is number 1 of scan T; group 7 is the product Y X of A B",
        "real part, imaginary part and count at lag -1: 144 0 16 in the first journal that covers it, 145 -2 16 in another",
        "journals of a part with it: first, second",
        "A recording of one machine is another one of the same length, or a journal was changed: find out which, and sum that part anew into a new journal."]
