"""`vlbi-cluster`: plans, the text and the work of their scripts, and what stands of shards.

Scripts stand in for Slurm, and `stand_in` for `vlbi`; from a plan to the records it is also the program itself, where there is one.
"""
from __future__ import annotations

import os
import random
import shlex
import signal
import subprocess
import sys
import time
from pathlib import Path

import checkpoint_journals as made
import pytest
import stand_in
from program import PROGRAM, needs

from vlbi import cluster
from vlbi import job as jobs
from vlbi.commands import cluster as command
from vlbi.faults import Fault

TOOLS = Path(__file__).resolve().parents[1]

# Scans of 7, 0 and 3 seconds; integrations of a second, the last of the third scan half as long.
JOB = b"""lags 4
integration 64
epoch 24
station A 1 2 1 40
station B 2 2 1 40
file A a.vdif
file B b.vdif
chan A X 0 0
chan B X 0 0
product X X
rate 64
scan S 2010y001d00h00m00s 448
scan T 2010y001d00h00m07s 0
scan U 2010y001d00h00m07s 160
band X 1000 U
"""


@pytest.fixture
def folder(tmp_path: Path, monkeypatch: pytest.MonkeyPatch) -> Path:
    """A folder with the job, its recordings and a program."""
    monkeypatch.chdir(tmp_path)
    draw = random.Random(1)
    for station, name in ((1, "a.vdif"), (2, "b.vdif")):
        heads = [(second, 20 << 24 | number, 5, 1 << 26 | station) for second in range(10) for number in range(2)]
        Path(name).write_bytes(b"".join(b"".join(map(word, head)) + bytes(16) + draw.randbytes(8) for head in heads))
    Path("job.txt").write_bytes(JOB)
    program(tmp_path / "vlbi")
    return tmp_path


def word(number: int) -> bytes:
    return number.to_bytes(4, "little")


def program(path: Path) -> None:
    """The program's place is taken by `stand_in`."""
    script(path, f'PYTHONPATH={shlex.quote(str(TOOLS))} exec {shlex.quote(sys.executable)} {shlex.quote(stand_in.__file__)} "$@"')


def script(path: Path, text: str) -> None:
    path.parent.mkdir(exist_ok=True)
    path.write_text(f"#!/bin/sh\n{text}\n")
    path.chmod(0o755)


def plan(*words: str) -> None:
    assert command.main(["plan", "job.txt", "--program", "./vlbi", "--workers", "2", "--piece", "64", *words]) == 0


def call(*words: str | Path) -> tuple[int, str, str]:
    done = subprocess.run([str(one) for one in words], capture_output=True, text=True)
    return done.returncode, done.stdout, done.stderr


@pytest.mark.parametrize("nodes, due", [
    (1, [(0, 10)]),
    (2, [(0, 5), (5, 10)]),
    (3, [(0, 3), (3, 6), (6, 10)]),
    (9, [(0, 1), (1, 2), (2, 3), (3, 4), (4, 5), (5, 6), (6, 7), (7, 8), (8, 10)]),
    (10, [(number, number + 1) for number in range(10)]),
    (1000, [(number, number + 1) for number in range(10)]),
])
def test_shares(nodes: int, due: list[tuple[int, int]]) -> None:
    assert cluster.shares(jobs.plan(JOB), nodes) == due


def test_shares_are_even_in_their_work() -> None:
    """Scans of three baselines and of one: of a share of the second one there are three times as many integrations."""
    whole = jobs.Plan(2, 10, 10, ("A", "B", "C"), (("X", "X"),), (jobs.Scan("S", 100, ((0, 1), (0, 2), (1, 2))), jobs.Scan("T", 300, ((0, 1),))))
    assert cluster.shares(whole, 4) == [(0, 5), (5, 10), (10, 25), (25, 40)]


@pytest.mark.parametrize("seed", range(30))
def test_shares_of_any_plan(seed: int) -> None:
    draw = random.Random(seed)
    scans = [jobs.Scan(str(number), draw.choice((0, draw.randint(1, 300))), ((0, 1),) * draw.randint(1, 4)) for number in range(draw.randint(1, 6))]
    whole = jobs.Plan(2, draw.randint(1, 60), 10, ("A", "B"), (("X", "X"),), (*scans, jobs.Scan("last", 1, ((0, 1),))))
    nodes = draw.randint(1, 50)
    found = cluster.shares(whole, nodes)
    assert len(found) == min(nodes, whole.integrations) and all(begin < end for begin, end in found)
    assert [begin for begin, _ in found] == [0, *(end for _, end in found[:-1])] and found[-1][1] == whole.integrations
    assert sum(whole.limited(*part).pairs for part in found) == whole.pairs
    greatest = max(min(whole.integration, scan.samples) * whole.cells_of(scan) for scan in whole.scans)
    if whole.pairs > 2 * len(found) * greatest:
        assert all(abs(whole.limited(*part).pairs - whole.pairs / len(found)) < greatest + 1 for part in found)


def test_a_job_without_integrations() -> None:
    with pytest.raises(Fault, match="^the job has no integration$"):
        cluster.shares(jobs.plan(JOB.replace(b" 448", b" 0").replace(b" 160", b" 0")), 3)


def test_a_plan(folder: Path, capsys: pytest.CaptureFixture[str]) -> None:
    plan("--nodes", "3", "--out", "night", "--epoch", "30")
    assert capsys.readouterr().out == "3 shards of 1 job in night\n"
    assert sorted(os.listdir("night")) == ["array", "job.txt", "merge", "plan.json", "shard", "submit"]
    found = cluster.read("night")
    assert (found.texts, found.schedule, found.at, found.epoch) == ((JOB,), b"", str(folder), 30)
    assert found.shards == (cluster.Shard(0, 0, 0, 3), cluster.Shard(1, 0, 3, 6), cluster.Shard(2, 0, 6, 10))
    text = Path("night/array").read_text()
    for line in ("#SBATCH --array=0-2", "#SBATCH --requeue", "#SBATCH --open-mode=append", "#SBATCH --cpus-per-task=2"):
        assert line in text.splitlines()
    for name in ("array", "merge", "shard", "submit"):
        assert call("bash", "-n", f"night/{name}") == (0, "", "") and os.access(f"night/{name}", os.X_OK)


@pytest.mark.parametrize("epoch, line", [(None, "load"), (64, "load"), (64, "epochs")])
def test_a_job_that_could_not_be_merged(epoch: int | None, line: str, folder: Path, capsys: pytest.CaptureFixture[str]) -> None:
    """By its own epochs it is past a limit: 2 stations and 64 channels, and 2 ** 32 + 1 epochs of a sample."""
    channels = b"".join(b"chan %c C%d 0 %d\n" % (key, number, number) for key in b"AB" for number in range(64))
    products = b"".join(b"product C%d C%d\n" % (number, number) for number in range(64))
    texts = {
        "load": JOB.replace(b"epoch 24\n", b"epoch 2097153\n").replace(b"product X X\n", channels + products),
        "epochs": JOB.replace(b"integration 64\nepoch 24\n", b"integration 16777216\nepoch 1\n").replace(b" 448\n", b" %d\n" % (2 ** 32 + 1 - 160)),
    }
    said = {
        "load": "load 268435584 by its line `epoch 2097153`, and the greatest is 268435456: `merge` has no --epoch and goes by that line, so its parts could "
                "be summed and not merged; write a shorter epoch in it",
        "epochs": "epochs 4294967297 by its line `epoch 1`, and the greatest is 4294967296: `merge` has no --epoch and goes by that line, so its parts could "
                  "be summed and not merged; write a longer epoch in it",
    }
    Path("job.txt").write_bytes(texts[line])
    words = ["plan", "job.txt", "--program", "./vlbi", "--nodes", "3", "--out", "night", *(["--epoch", str(epoch)] if epoch else [])]
    assert command.main(words) == (1 if epoch else 0)
    assert capsys.readouterr().err == (f"vlbi-cluster: job.txt: {said[line]}\n" if epoch else "")
    assert os.path.exists("night") == (epoch is None)


@pytest.fixture(params=["stand_in", "vlbi"])
def either(request: pytest.FixtureRequest, folder: Path) -> str:
    """The program of a plan: `stand_in`, and that which tests run."""
    if request.param == "stand_in":
        return str(folder / "vlbi")
    for word in ("plain", "shard", "merge"):
        needs(word)
    return PROGRAM


def test_from_a_plan_to_the_records(either: str, folder: Path, capsys: pytest.CaptureFixture[str], monkeypatch: pytest.MonkeyPatch) -> None:
    """The shards in any order, from another folder: the records are those of `plain`."""
    plan("--nodes", "3", "--out", "a night", "--program", either)
    capsys.readouterr()
    assert command.main(["status", "a night"]) == 0
    assert capsys.readouterr().out.splitlines() == [
        "shard 0: integrations 0 to 3, 0 of 9 epochs kept", "shard 1: integrations 3 to 6, 0 of 9 epochs kept",
        "shard 2: integrations 6 to 10, 0 of 11 epochs kept", "a night/records.vis: not there",
    ]
    monkeypatch.chdir("/")
    for number, said in ((2, "shard 6 10 done\n"), (0, "shard 0 3 done\n")):
        assert call(folder / "a night/shard", str(number)) == (0, said, "")
    assert call(folder / "a night/merge") == (11, "", f"vlbi: no file {folder}/a night/1.journal\n")
    Path(folder, "a night/1.journal").write_bytes(journal_of(JOB, 3, 6, []))
    assert call(folder / "a night/merge") == (14, "", "vlbi: merge: Uncovered 3\n")
    assert call(folder / "a night/shard", "1") == (0, "shard 3 6 done\n", "")
    assert call(folder / "a night/merge") == (0, "", "")
    monkeypatch.chdir(folder)
    written = Path("a night/records.vis").read_bytes()
    assert subprocess.run([either, "journal", "plain", "--job", "job.txt"], capture_output=True).stdout == written
    assert command.main(["status", "a night"]) == 0
    assert capsys.readouterr().out.splitlines()[1:] == [
        "shard 1: integrations 3 to 6, 9 of 9 epochs kept, done", "shard 2: integrations 6 to 10, 11 of 11 epochs kept, done",
        f"a night/records.vis: {len(written)} bytes",
    ]
    assert call("a night/shard", "3") == (2, "", "shard: there is no shard 3\n")


def journal_of(text: bytes, begin: int, end: int, lengths: list[int]) -> bytes:
    """The journal of a part of the job of a text, with epochs of these lengths."""
    whole = made.Job(made.identity(b"", text, [800, 800]), 64, 24, 4, [made.Scan(448, 1, 1), made.Scan(0, 1, 1), made.Scan(160, 1, 1)])
    part, disk = made.Part(whole, begin, end), made.Disk(b"")
    journal = made.open_journal(part, disk)
    for samples in lengths:
        made.append(part, disk, journal, samples)
    return disk.seen


def test_what_stands_of_shards(folder: Path) -> None:
    plan("--nodes", "3", "--out", "night")
    found = cluster.read("night")
    files = {"0.journal": journal_of(JOB, 0, 3, [24, 64, 10]), "1.journal": journal_of(JOB, 3, 6, [64] * 3), "2.journal": b"\0"}
    for name, file in files.items():
        Path("night", name).write_bytes(file)
    looks = [cluster.look("night", found, shard) for shard in found.shards]
    assert list(map(str, looks)) == ["3 of 9 epochs kept", "3 of 3 epochs kept, done", "0 of 11 epochs kept"]
    assert cluster.left("night", found) == [0, 2]
    for other in (journal_of(JOB, 0, 4, []), journal_of(JOB.replace(b"1000 U", b"1000 L"), 0, 3, []), b"\1VLBIJRN3" + bytes(40), b"\1no journal"):
        Path("night/0.journal").write_bytes(other)
        assert str(cluster.look("night", found, found.shards[0])) == "another journal"
    assert cluster.left("night", found) == [0, 2]


def test_a_folder_with_journals(folder: Path, capsys: pytest.CaptureFixture[str]) -> None:
    """They stay with their plan: the same is planned again, another is not."""
    plan("--nodes", "3", "--out", "night")
    Path("night/0.journal").write_bytes(journal_of(JOB, 0, 3, [24]))
    plan("--nodes", "3", "--out", "night", "--workers", "4")
    assert "--workers 4" in Path("night/shard").read_text()
    assert command.main(["plan", "job.txt", "--program", "./vlbi", "--nodes", "2", "--out", "night"]) == 1
    assert capsys.readouterr().err == "vlbi-cluster: night: it has journals of another plan: remove them, or name another folder\n"
    assert len(cluster.read("night").shards) == 3


def test_what_is_refused(folder: Path, capsys: pytest.CaptureFixture[str], monkeypatch: pytest.MonkeyPatch) -> None:
    assert command.main(["plan", "job.txt", "--program", "./vlbi", "--nodes", "2"]) == 1
    assert command.main(["plan", "no.txt", "--program", "./vlbi", "--nodes", "2", "--out", "night"]) == 1
    assert command.main(["status", "night"]) == 1
    plan("--nodes", "2", "--out", "night")
    monkeypatch.setenv("PATH", "/nowhere")
    assert command.main(["submit", "night"]) == 1
    Path("night/plan.json").write_text("{}")
    assert command.main(["status", "night"]) == 1
    assert capsys.readouterr().err.splitlines() == [
        "vlbi-cluster: plan needs --nodes and --out", "vlbi-cluster: no.txt: No such file or directory",
        "vlbi-cluster: night/plan.json: No such file or directory", f"vlbi-cluster: {command.NO_SLURM}",
        "vlbi-cluster: night/plan.json: it is no plan of vlbi-cluster",
    ]


@pytest.mark.parametrize("numbers, due", [
    ([0, 1, 2], ["0:0-2"]), ([5], ["0:5"]), ([0, 2, 3, 4, 7], ["0:0,2-4,7"]), ([], []), ([999, 1000, 1001, 2000], ["0:999", "1000:0-1", "2000:0"]),
])
def test_arrays(numbers: list[int], due: list[str]) -> None:
    assert cluster.arrays(numbers) == due


@pytest.fixture
def slurm(folder: Path, monkeypatch: pytest.MonkeyPatch) -> Path:
    """Commands that say what they got, and a number, or end with a status; `srun` says that it waits where it is asked to wait."""
    script(folder / "slurm/sbatch", f'echo "sbatch $*" >> {folder}/calls; wc -l < {folder}/calls')
    script(folder / "slurm/scontrol", f'echo "scontrol $*" >> {folder}/calls')
    wait = f'{{ echo $$ > {folder}/waits; exec sleep 600 > /dev/null 2>&1; }}'
    script(folder / "slurm/srun", f'echo "srun $*" >> {folder}/calls; [ "$STATUS" != wait ] || {wait}; exit "$STATUS"')
    monkeypatch.setenv("PATH", f"{folder}/slurm:{os.environ['PATH']}")
    return folder / "calls"


def test_submit(folder: Path, slurm: Path, capfd: pytest.CaptureFixture[str]) -> None:
    """All shards first, then those that are not done, then the merge alone."""
    plan("--nodes", "3", "--out", "night")
    merge = "--parsable --job-name=vlbi-merge --requeue --open-mode=append --output=merge.log"
    capfd.readouterr()
    assert command.main(["submit", "night"]) == 0
    assert capfd.readouterr().out == "shards 0:0-2: job 1\nmerge: job 2\n"
    assert slurm.read_text().splitlines() == [
        "sbatch --parsable --array=0-2 --export=ALL,VLBI_FIRST=0 array",
        f"sbatch {merge} --dependency=afterok:1 --kill-on-invalid-dep=yes --wrap=./merge",
    ]
    Path("night/1.journal").write_bytes(journal_of(JOB, 3, 6, [64] * 3))
    slurm.unlink()
    assert command.main(["submit", "night"]) == 0
    assert slurm.read_text().splitlines()[0] == "sbatch --parsable --array=0,2 --export=ALL,VLBI_FIRST=0 array"
    Path("night/0.journal").write_bytes(journal_of(JOB, 0, 3, [64] * 3))
    Path("night/2.journal").write_bytes(journal_of(JOB, 6, 10, [64] * 4))
    slurm.unlink()
    assert command.main(["submit", "night"]) == 0
    assert slurm.read_text().splitlines() == [f"sbatch {merge} --wrap=./merge"]


def task(restarts: int, status: str, monkeypatch: pytest.MonkeyPatch) -> None:
    """Goes where Slurm starts the script of task 1 of the second array, after so many restarts; `srun` ends with this status."""
    plan("--nodes", "3", "--out", "night")
    names = {"SLURM_ARRAY_JOB_ID": "12", "SLURM_ARRAY_TASK_ID": "1", "SLURM_RESTART_COUNT": str(restarts), "STATUS": status, "VLBI_FIRST": "1000"}
    for name, value in names.items():
        monkeypatch.setenv(name, value)
    monkeypatch.chdir("night")


def called(again: bool) -> list[str]:
    """What that script calls."""
    return ["srun --ntasks=1 --cpus-per-task=2 --kill-on-bad-exit=0 ./shard 1001", *(["scontrol requeue 12_1"] * again)]


@pytest.mark.parametrize("status, restarts, again", [
    (0, 0, False), (7, 0, True), (7, 20, False), (8, 3, True), (8, 20, False), (137, 19, True), (137, 20, False), (137, 21, False),
    (4, 0, False), (1, 0, False), (143, 0, False), (10, 0, False), (14, 0, False),
])
def test_a_task_is_queued_again(status: int, restarts: int, again: bool, folder: Path, slurm: Path, monkeypatch: pytest.MonkeyPatch) -> None:
    task(restarts, str(status), monkeypatch)
    said = f"shard 1001: status {status}, queued again\n" if again else ""
    assert call("bash", "array") == (status, said, "")
    assert slurm.read_text().splitlines() == called(again)


def test_a_task_of_a_first_start(folder: Path, slurm: Path, monkeypatch: pytest.MonkeyPatch) -> None:
    """Slurm counts no restarts then; and of the first array the numbers are those of the shards."""
    task(0, "137", monkeypatch)
    for name in ("SLURM_RESTART_COUNT", "VLBI_FIRST"):
        monkeypatch.delenv(name)
    assert call("bash", "array") == (137, "shard 1: status 137, queued again\n", "")
    assert slurm.read_text().splitlines() == [line.replace("1001", "1") for line in called(True)]


@pytest.mark.parametrize("restarts, again", [(0, True), (19, True), (20, False)])
def test_a_task_whose_time_is_over(restarts: int, again: bool, folder: Path, slurm: Path, monkeypatch: pytest.MonkeyPatch) -> None:
    """The script gets a signal while its program still sums."""
    task(restarts, "wait", monkeypatch)
    running = subprocess.Popen(["bash", "array"], stdout=subprocess.PIPE, stderr=subprocess.PIPE, text=True)
    waits = number_in(folder / "waits")
    try:
        running.send_signal(signal.SIGUSR1)
        said = running.communicate(timeout=60)
    finally:
        os.kill(waits, signal.SIGKILL)
    assert (running.returncode, *said) == (124, "shard 1001: status 124, queued again\n" if again else "", "")
    assert slurm.read_text().splitlines() == called(again)


def number_in(path: Path) -> int:
    """The number that a file has, once it is there; a minute may pass."""
    until = time.monotonic() + 60
    while not (path.exists() and path.read_text().endswith("\n")) and time.monotonic() < until:
        time.sleep(0.02)
    return int(path.read_text())
