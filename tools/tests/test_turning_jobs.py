"""The table of whole calls, by the definitions alone."""
from __future__ import annotations

from collections import Counter
from pathlib import Path

import by_definition
import turning_jobs
import whole_calls

CASES = Path(__file__).resolve().parents[2] / "crates" / "vlbi_cases"


def test_random_jobs_whose_fringes_turn() -> None:
    """They are the last lines of the table, and what is printed for them are its last answers."""
    lines = turning_jobs.lines()
    answers = turning_jobs.answers(lines)
    pulsed = len(turning_jobs.ROWS) - turning_jobs.PULSED
    restarts = (2 * turning_jobs.RESTARTS + 1) * len(turning_jobs.ROWS)
    assert len(answers) == 2 * turning_jobs.PULSED + 4 * pulsed + restarts + 3 * len(turning_jobs.PARTS) + turning_jobs.MERGED * len(turning_jobs.MERGES)
    assert (CASES / "stdin").read_text().splitlines()[-len(lines) :] == lines
    assert (CASES / "stdout").read_text().splitlines()[-len(answers) :] == answers


def test_the_other_jobs_that_state_their_scans() -> None:
    """Each record file that the table has of one of few samples and lags."""
    told = (CASES / "stdout").read_text().splitlines()
    found = 0
    for name, files, word, words in whole_calls.Table().calls((CASES / "stdin").read_text().splitlines()):
        command, options = ("plain", words) if word == "runs" else ("".join(words[:1]), words[1:])
        begun = f"{name}, by each run: 0 " if word == "runs" else f"{name}: 0 "
        answers = [line for line in told if line.startswith(begun) and ("hex " in line or "md5 " in line)]
        if word == "count" or command not in ("plain", "run") or options[:2] != ["--job", "j"] or "--vex" in options or not answers:
            continue
        job = by_definition.Job(files["j"].decode())
        work = sum(scan.samples for scan in job.scans) * job.numbers["lags"] * len(by_definition.baselines(job))
        if 0 < work < 100_000:
            there = {file: files.get(file, b"") for station in job.stations.values() for file in station.files}
            assert begun[:-2] + whole_calls.told(*by_definition.records(job, there)) in answers
            found += 1
    assert found > 80


def test_the_other_bins_of_jobs_that_state_their_scans() -> None:
    """Each text of the cells of bins that the table has of such a job: the answers of the calls of a case stand in their order."""
    told = (CASES / "stdout").read_text().splitlines()
    calls: Counter[str] = Counter()
    found = 0
    for name, files, word, words in whole_calls.Table().calls((CASES / "stdin").read_text().splitlines()):
        if word != "call":
            continue
        calls[name] += 1
        options = dict(zip(words[1::2], words[2::2]))
        if words[:1] != ["bins"] or name.startswith("random job") or "--vex" in options:
            continue
        answer = [line for line in told if line.startswith(f"{name}: ")][calls[name] - 1]
        job = by_definition.Job(files.get(options["--job"], b"").decode())
        if answer.startswith(f"{name}: 0 ") and by_definition.baselines(job):
            pulsed = by_definition.pulse(files[options["--phase"]].decode())
            assert answer == f"{name}: {whole_calls.told_bins(by_definition.bin_records(job, files, pulsed)[0])}"
            found += 1
    assert found > 12
