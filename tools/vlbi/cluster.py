"""A job over several machines: its integrations shared out, a shard of it to a node, and what stands of each.

    made = cluster.plan("job.txt", "sky.vex", nodes=3)
    cluster.write(made, "night", program="/usr/bin/vlbi", workers=4, piece=65536)
    for shard in made.shards:
        print(shard.number, shard.begin, shard.end, cluster.look("night", made, shard))

`write` makes a folder: the job and its schedule, plan.json, and scripts. `shard NUMBER` sums one shard, wherever it is called; `merge` makes the
record file of all; `array` is the first for Slurm, and `submit` gives both to it.
"""
from __future__ import annotations

import dataclasses
import json
import os
import shlex
import sys
from collections.abc import Iterator, Sequence
from itertools import accumulate, groupby

import vlbi
from vlbi import job as jobs
from vlbi import joined, records, splitting, words, work
from vlbi.faults import Fault

PLAN = "plan.json"
SCHEDULE = "schedule.vex"
RECORDS = "records.vis"
AGAIN = 20          # how often a task is queued again
TASKS = 1000        # of an array, where Slurm's MaxArraySize is as it comes
FAULTS = (7, 8)     # statuses of faults that may pass: of a file and of the journal


@dataclasses.dataclass(frozen=True)
class Shard:
    """A part of a job: its number among all, the number of the job, and its integrations from `begin` up to, not including, `end`."""

    number: int
    job: int
    begin: int
    end: int

    @property
    def journal(self) -> str:
        """The name of its journal in the folder."""
        return f"{self.number}.journal"


@dataclasses.dataclass(frozen=True)
class Cluster:
    """A job, or the jobs that it is split into, in shards.

    texts     the texts of the jobs
    schedule  the schedule's text, empty where there is none
    at        the folder in which the names of the recordings stand
    epoch     the samples of an epoch where they are not those of the job's own line
    shards    the Shards, by job
    stations  the keys of all stations
    """

    texts: tuple[bytes, ...]
    schedule: bytes
    at: str
    epoch: int | None
    shards: tuple[Shard, ...]
    stations: tuple[str, ...]

    def name(self, job: int) -> str:
        """The name of a job in the folder."""
        return "job.txt" if len(self.texts) == 1 else f"job{job}.txt"

    def records(self, job: int) -> str:
        """The name of a job's record file."""
        return RECORDS if len(self.texts) == 1 else f"job{job}.vis"

    def of_job(self, job: int) -> list[Shard]:
        return [shard for shard in self.shards if shard.job == job]

    def epochs(self, shard: Shard) -> int:
        """The epochs of a shard."""
        return jobs.plan(self.texts[shard.job], self.schedule).by(self.epoch).limited(shard.begin, shard.end).epochs


def plan(job: str, schedule: str | None, nodes: int, epoch: int | None = None, most: int = words.MOST_SLOTS) -> Cluster:
    """The Cluster of a job and its schedule over so many nodes; Fault where they cannot be read, OSError where a file cannot.

    epoch  the samples of an epoch for `shard`; the line of the job has to be within the limits all the same, since `merge` goes by it
    most   the slots that a job may have: one whose recordings have more is split by its scans, and each of the jobs is over all nodes
    """
    asked = joined.read(job, schedule)
    texts = splitting.split(asked, content(job), most)
    of_schedule = content(schedule) if schedule is not None else b""
    if epoch is not None:
        for text in texts:
            mergeable(jobs.plan(text, of_schedule), job)
    parts = [(number, begin, end) for number, text in enumerate(texts) for begin, end in shares(jobs.plan(text, of_schedule), nodes)]
    shards = tuple(Shard(number, *part) for number, part in enumerate(parts))
    return Cluster(tuple(texts), of_schedule, os.getcwd(), epoch, shards, asked.plan.stations)


def mergeable(whole: jobs.Plan, path: str) -> None:
    """Fault where a job is past a limit by the epochs of its own line, by which `merge` goes, whatever those are by which its parts are summed."""
    for what, count, better in (("load", work.load(whole), "shorter"), ("epochs", whole.epochs, "longer")):
        greatest = words.GREATEST[what][0]
        if count > greatest:
            raise Fault(f"{what} {count} by its line `epoch {whole.epoch}`, and the greatest is {greatest}: `merge` has no --epoch and goes by that line, "
                        f"so its parts could be summed and not merged; write a {better} epoch in it", path)


def shares(whole: jobs.Plan, nodes: int) -> list[tuple[int, int]]:
    """The integrations in so many shares of even work, which is samples times cells; in fewer where there are fewer integrations."""
    count = whole.integrations
    many = min(nodes, count)
    if many == 0:
        raise Fault("the job has no integration")
    ends = [0]
    for number in range(1, many):
        ends.append(min(max(place_of(whole, whole.pairs * number // many), ends[-1] + 1), count - many + number))
    return list(zip(ends, [*ends[1:], count]))


def place_of(whole: jobs.Plan, pairs: int) -> int:
    """The number of integrations, through all scans, of which the first ones have so many pairs, or closest to that."""
    before = 0
    for scan in whole.scans:
        cells = whole.cells_of(scan)
        if pairs < whole.samples_of(scan) * cells:
            return before + round(pairs / (whole.integration * cells))
        pairs -= whole.samples_of(scan) * cells
        before += whole.integrations_of(scan)
    return before


def content(path: str) -> bytes:
    with open(path, "rb") as file:
        return file.read()


# The folder

def write(made: Cluster, folder: str, program: str, workers: int, piece: int) -> None:
    """Writes the folder of a Cluster; Fault where journals of another one stand there.

    program         the program `vlbi` as the nodes find it
    workers, piece  its options
    """
    text = json.dumps(told(made), indent=1) + "\n"
    files = {PLAN: text.encode(), **{made.name(number): one for number, one in enumerate(made.texts)}, **({SCHEDULE: made.schedule} if made.schedule else {})}
    os.makedirs(folder, exist_ok=True)
    if any(name.endswith(".journal") for name in os.listdir(folder)) and not all(stands(folder, name, one) for name, one in files.items()):
        raise Fault("it has journals of another plan: remove them, or name another folder", folder)
    for name, one in files.items():
        put(os.path.join(folder, name), one)
    for name, lines in scripts(made, folder, program, workers, piece).items():
        path = os.path.join(folder, name)
        put(path, lines.encode("utf-8", "surrogateescape"))
        os.chmod(path, 0o755)


def stands(folder: str, name: str, text: bytes) -> bool:
    """Whether a file of the folder has this text."""
    path = os.path.join(folder, name)
    return os.path.isfile(path) and content(path) == text


def put(path: str, text: bytes) -> None:
    with open(path, "wb") as file:
        file.write(text)


def told(made: Cluster) -> dict[str, object]:
    """A Cluster as plan.json has it: the texts stand beside it."""
    return {
        "at": made.at, "jobs": [made.name(number) for number in range(len(made.texts))], "schedule": SCHEDULE if made.schedule else None,
        "epoch": made.epoch, "stations": made.stations, "shards": [[shard.job, shard.begin, shard.end] for shard in made.shards],
    }


def read(folder: str) -> Cluster:
    """The Cluster of a folder; Fault where it is none."""
    path = os.path.join(folder, PLAN)
    try:
        said = json.loads(content(path))
        texts = tuple(content(os.path.join(folder, name)) for name in said["jobs"])
        schedule = content(os.path.join(folder, SCHEDULE)) if said["schedule"] else b""
        shards = tuple(Shard(number, *part) for number, part in enumerate(said["shards"]))
        return Cluster(texts, schedule, said["at"], said["epoch"], shards, tuple(said["stations"]))
    except (ValueError, LookupError, TypeError) as error:
        raise Fault("it is no plan of vlbi-cluster", path) from error


# What stands of a shard

@dataclasses.dataclass(frozen=True)
class State:
    """What stands of a shard: the epochs that its journal keeps, these with those that are left, and whether it is another's journal."""

    kept: int
    epochs: int
    other: bool = False

    @property
    def done(self) -> bool:
        return self.kept == self.epochs and not self.other

    def __str__(self) -> str:
        if self.other:
            return "another journal"
        return f"{self.kept} of {self.epochs} epochs kept{', done' * self.done}"


def look(folder: str, made: Cluster, shard: Shard) -> State:
    """The State of a shard, by its journal alone; a task may write it meanwhile."""
    follower = records.Follower(os.path.join(folder, shard.journal))
    try:
        rows = follower.look()
    except Fault:
        return State(0, made.epochs(shard), other=True)
    if rows is None or follower.identity is None:
        return State(0, made.epochs(shard))
    ours = (made.texts[shard.job], made.schedule, (shard.begin, shard.end))
    if (follower.identity.job, follower.identity.schedule, follower.identity.part) != ours:
        return State(0, made.epochs(shard), other=True)
    return State(rows.kept, rows.epochs(made.epoch))


def left(folder: str, made: Cluster) -> list[int]:
    """The numbers of the shards that are not done."""
    return [shard.number for shard in made.shards if not look(folder, made, shard).done]


def arrays(numbers: Sequence[int]) -> list[str]:
    """The arrays of Slurm for these shards, as `submit` takes them: the number of the first of a thousand, and behind a colon those from it on."""
    return [f"{first * TASKS}:{ranges([number - first * TASKS for number in own])}" for first, own in groupby(numbers, lambda number: number // TASKS)]


def ranges(numbers: Sequence[int]) -> str:
    """Rising numbers as `0-2,5`."""
    rows = [[number for _, number in row] for _, row in groupby(enumerate(numbers), lambda pair: pair[1] - pair[0])]
    return ",".join(f"{row[0]}-{row[-1]}" if len(row) > 1 else str(row[0]) for row in rows)


def join(folder: str) -> None:
    """Joins the record files of a folder's jobs, into its place once it is whole."""
    made = read(folder)
    path = os.path.join(folder, RECORDS)
    with open(f"{path}.part", "wb") as out:
        splitting.join([os.path.join(folder, made.records(number)) for number in range(len(made.texts))], made.stations, out)
    os.replace(f"{path}.part", path)


# Scripts

def scripts(made: Cluster, folder: str, program: str, workers: int, piece: int) -> dict[str, str]:
    """The scripts of the folder by their names."""
    return {
        "shard": SHARD.format(
            at=shlex.quote(made.at), cases="\n".join(case_of(made, shard) for shard in made.shards), program=shlex.quote(program), vex=vex_words(made),
            epoch=f" --epoch {made.epoch}" if made.epoch is not None else "", workers=workers, piece=piece,
        ),
        "array": ARRAY.format(numbers=ranges(range(min(len(made.shards), TASKS))), workers=workers, again=AGAIN, faults=" | ".join(map(str, FAULTS))),
        "merge": MERGE.format(at=shlex.quote(made.at), merges="\n".join(merges(made, program)), join=join_words(made)),
        "submit": SUBMIT.format(arrays=" ".join(arrays(range(len(made.shards))))),
    }


def case_of(made: Cluster, shard: Shard) -> str:
    """What the script `shard` knows of a shard."""
    return f"  {shard.number}) job={made.name(shard.job)} from={shard.begin} to={shard.end} ;;"


def vex_words(made: Cluster) -> str:
    return f' --vex "$folder/{SCHEDULE}"' if made.schedule else ""


def merges(made: Cluster, program: str) -> Iterator[str]:
    """The lines that merge each job, its record file in its place once it is whole."""
    for number in range(len(made.texts)):
        journals = " ".join(f'"$folder/{shard.journal}"' for shard in made.of_job(number))
        name = made.records(number)
        yield f'{shlex.quote(program)} "$folder/merge.journal" merge --job "$folder/{made.name(number)}"{vex_words(made)} {journals} > "$folder/{name}.part"'
        yield f'mv "$folder/{name}.part" "$folder/{name}"'


def join_words(made: Cluster) -> str:
    """The line that joins the record files of several jobs."""
    if len(made.texts) == 1:
        return ""
    package = os.path.dirname(os.path.dirname(os.path.abspath(vlbi.__file__)))
    return f'PYTHONPATH={shlex.quote(package)} {shlex.quote(sys.executable)} -m vlbi.commands.cluster join "$folder"\n'


SHARD = """#!/bin/sh
# Sums the shard of this number into its journal, or goes on with it: shard NUMBER
set -eu
folder=$(cd "$(dirname "$0")" && pwd)
case ${{1-}} in
{cases}
  *) echo "shard: there is no shard ${{1-}}" >&2; exit 2 ;;
esac
cd {at}
exec {program} "$folder/$1.journal" shard --job "$folder/$job"{vex}{epoch} --workers {workers} --piece {piece} --from $from --to $to
"""

ARRAY = """#!/bin/bash
#SBATCH --job-name=vlbi-shard
#SBATCH --array={numbers}
#SBATCH --nodes=1
#SBATCH --ntasks=1
#SBATCH --cpus-per-task={workers}
#SBATCH --requeue
#SBATCH --open-mode=append
#SBATCH --output=%A_%a.log
#SBATCH --signal=B:USR1@60
# A task sums a shard. It is queued again, and goes on from its journal, where a read or the journal failed ({faults}), its program was killed, or
# its time is over; where its node fails Slurm does that itself.
number=$((${{VLBI_FIRST:-0}} + SLURM_ARRAY_TASK_ID))
again() {{ # after a status
  if [ "${{SLURM_RESTART_COUNT:-0}}" -lt {again} ]; then
    echo "shard $number: status $1, queued again"
    scontrol requeue "${{SLURM_ARRAY_JOB_ID}}_$SLURM_ARRAY_TASK_ID"
  fi
  exit "$1"
}}
trap 'again 124' USR1
srun --ntasks=1 --cpus-per-task={workers} --kill-on-bad-exit=0 ./shard "$number" &
wait $!
status=$?
case $status in
  {faults} | 137) again $status ;;
esac
exit $status
"""

MERGE = """#!/bin/sh
# Makes the record file of all shards, once they are done.
set -eu
folder=$(cd "$(dirname "$0")" && pwd)
cd {at}
{merges}
{join}"""

SUBMIT = """#!/bin/sh
# Gives the shards to Slurm, and behind them the merge: submit [FIRST:NUMBERS ..]. NUMBERS are as Slurm writes them, 0-2,5, counted from the shard
# FIRST on; all shards where none are named. With the word merge alone: the merge alone.
set -eu
cd "$(dirname "$0")"
after=
[ $# -gt 0 ] || set -- {arrays}
[ "$1" != merge ] || shift
for array in "$@"; do
  id=$(sbatch --parsable --array="${{array#*:}}" --export=ALL,VLBI_FIRST="${{array%%:*}}" array)
  after=$after:${{id%%;*}}
  echo "shards $array: job ${{id%%;*}}"
done
id=$(sbatch --parsable --job-name=vlbi-merge --requeue --open-mode=append --output=merge.log \\
  ${{after:+--dependency=afterok$after --kill-on-invalid-dep=yes}} --wrap=./merge)
echo "merge: job ${{id%%;*}}"
"""
