"""The journals of the table of whole calls, by the definitions alone."""
from __future__ import annotations

import re
from pathlib import Path

import by_definition
import whole_calls
import whole_journals
import whole_parts

CASES = Path(__file__).resolve().parents[2] / "crates" / "vlbi_cases"
MOST = 10_000  # samples times lags and stations of a job that is summed
ROW = 232  # place of the first gate in a journal of the table's first job


def test_what_is_printed_of_runs_and_journals() -> None:
    """Each call of `run` and `status` on a small job without a schedule that gives its output or says that the journal is another job's, and each
    journal that is shown; any other call leaves the journal as it is. Those beside parts of jobs are with these."""
    table, told, found = whole_calls.Table(), iter((CASES / "stdout").read_text().splitlines()), 0
    jobs: dict[str, whole_journals.SummedJob] = {}
    lines, _ = whole_parts.section((CASES / "stdin").read_text().splitlines())
    for name, files, word, words in table.calls(lines):
        kind = {"runs": ", by each run", "show": ", journal", "count": r", \d+ pieces", "call": ""}[word]
        line = next(line for line in told if re.match(f"{re.escape(name)}{kind}: ", line))
        if word == "show":
            assert line == f"{name}, journal: {whole_journals.shown(table.journal)}"
            found += 1
        elif words[0:1] in (["run"], ["status"]) and "--vex" not in words and re.match(f"{re.escape(name)}{kind}: (0|10) ", line):
            job = jobs.setdefault(name, whole_journals.SummedJob(files["j"], files))
            if words[0] == "run" and sum(scan.samples for scan in job.scans) * job.lags * len(job.plan.stations) > MOST:
                continue
            records = f"0{line.partition(': 0')[2]}"
            if by_definition.baselines(job.plan) and words[0] == "run":
                records = whole_calls.told(*by_definition.records(job.plan, files))
            answer, pieces, table.journal = whole_journals.call(job, table.journal, words, records)
            assert line == (f"{name}, {pieces} pieces: {answer}" if word == "count" else f"{name}: {answer}")
            found += 1
    assert found > 140


def test_a_journal_by_hand() -> None:
    """The first job of the table: one epoch of its 64 samples, whose cells are 567, 0, 63 and 576, 0, 64."""
    text = next(line for line in (CASES / "stdout").read_text().splitlines() if line.startswith("a run, and a second one, journal: 310 bytes hex "))
    journal = bytes.fromhex(text.rpartition(" ")[2])
    record = "00000000 0000000000000000 0000000000000000 4000000000000000"
    cells = "3702000000000000 0000000000000000 3f00000000000000 4002000000000000 0000000000000000 4000000000000000"
    assert journal[:ROW].startswith(b"\1VLBIJRN2") and journal[:ROW].endswith(b"band X 0 U\n")
    assert journal[ROW:] == bytes.fromhex(f"01 {record} {cells} 00")
