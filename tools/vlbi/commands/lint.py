"""The command `vlbi-lint`: what is wrong or unwise with a job, before hours are spent.

    vlbi-lint job.txt --vex sky.vex
"""
from __future__ import annotations

import argparse
import shutil
import subprocess
import sys
from collections.abc import Iterator, Sequence
from typing import TYPE_CHECKING

from vlbi import commands
from vlbi.commands import parser_of, told, whole_number
from vlbi.faults import Fault

if TYPE_CHECKING:
    from vlbi.joined import Asked
    from vlbi.lint import Finding

NAME = "vlbi-lint"
COUNTS = {
    "doubled": "hold a frame that is there already, and do not count",
    "invalid": "are marked invalid",
    "foreign": "have another shape than its `station` line says",
    "late": "stand behind a later frame, which does no harm",
}


def main(words: Sequence[str] | None = None) -> int:
    given = parser().parse_args(words)
    return told(NAME, lambda: lint(given))


def parser() -> argparse.ArgumentParser:
    made = parser_of(NAME, "Says what is wrong or unwise with a job of the correlator vlbi, before it is run.")
    made.add_argument("job", help="the job")
    made.add_argument("--vex", metavar="SCHEDULE", help="its schedule, where it has one")
    made.add_argument("--epoch", type=whole_number(1, 4194304), metavar="SAMPLES", help="samples of an epoch that the run will have (as the job's line says)")
    made.add_argument("--workers", type=whole_number(1, 64), help="threads that the run will have (as many as there are processors)")
    made.add_argument("--piece", type=whole_number(64, 4194304), help="samples of a piece that the run will have (vlbi-run chooses)")
    made.add_argument("--known", type=float, default=1.0, metavar="MICROSECONDS", help="how well each clock is known (1)")
    made.add_argument("--program", help="the program vlbi (that beside this command, or on the path)")
    made.add_argument("--quiet", action="store_true", help="findings alone, without the tables")
    return made


def lint(given: argparse.Namespace) -> int:
    """Prints what is found, and the tables; 1 where anything was found."""
    refused = list(of_program(given))
    found = 0
    for one in refused:
        print(one)
        found += 1
    try:
        found += of_job(given)
    except (Fault, ValueError, LookupError):
        if not refused:
            raise
    if not given.quiet or found:
        print("nothing to look at" if found == 0 else f"{found} {'thing' if found == 1 else 'things'} to look at")
    return 1 if found else 0


def of_job(given: argparse.Namespace) -> int:
    """Prints what is found beside what the program says, and the tables; how many were found."""
    from vlbi import coverage, joined, work
    from vlbi import lint as linting

    asked = joined.read(given.job, given.vex)
    night = coverage.Night(asked)
    machine = linting.Machine(given.workers or work.workers(), given.piece or 0, given.known, shutil.disk_usage(".").free, given.epoch or 0)
    found = 0
    for finding in linting.findings(night, machine):
        print(finding)
        found += 1
    if not given.quiet:
        for line in linting.tables(night, machine):
            print(line)
    return found


def of_program(given: argparse.Namespace) -> Iterator[Finding]:
    """What `check` of the program finds."""
    from vlbi import refusal
    from vlbi.lint import Finding

    program = commands.program(given.program)
    if program is None:
        print(f"{NAME}: the program vlbi is not there: what its `check` finds is left out", file=sys.stderr)
        return
    words = ["check", "--job", given.job, *(["--vex", given.vex] if given.vex else []), *(["--epoch", str(given.epoch)] if given.epoch else [])]
    done = subprocess.run([program, "journal", *words], capture_output=True)
    if done.returncode != 0:
        note = done.stderr.decode("utf-8", "surrogateescape").strip()
        more = "\n    ".join(refusal.advice(refusal.Call("journal", tuple(words)), done.returncode, note))
        yield Finding(given.job, None, note, more)
        return
    yield from of_counts(given.job, done.stdout.decode("utf-8", "surrogateescape"))


def of_counts(job: str, said: str) -> Iterator[Finding]:
    """The counts of `check` that are not 0."""
    from vlbi.lint import Finding

    for fields in (line.split() for line in said.splitlines() if line.startswith("station ")):
        counts = dict(zip(fields[2::2], map(int, fields[3::2])))
        for word, what in COUNTS.items():
            if counts.get(word):
                yield Finding(job, None, f"{counts[word]} of {counts['slots']} slots of {fields[1]} {what}", "")


if __name__ == "__main__":
    sys.exit(main())
