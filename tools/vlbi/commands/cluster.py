"""The command `vlbi-cluster`: a job over several machines, by Slurm or by hand.

    vlbi-cluster plan job.txt --vex sky.vex --nodes 3 --out night
    vlbi-cluster submit night
    vlbi-cluster status night
"""
from __future__ import annotations

import argparse
import os
import shutil
import subprocess
import sys
from collections.abc import Sequence
from typing import TYPE_CHECKING

from vlbi import commands
from vlbi.commands import parser_of, told, whole_number
from vlbi.faults import Fault

if TYPE_CHECKING:
    from vlbi.cluster import Cluster, Shard

NAME = "vlbi-cluster"
NO_PROGRAM = "the program vlbi is neither beside this command nor on the path: --program names it"
NO_SLURM = "sbatch of Slurm is not on the path; without it call `shard NUMBER` of the folder for each shard, and `merge` behind them"


def main(words: Sequence[str] | None = None) -> int:
    given = parser().parse_args(words)
    return told(NAME, lambda: {"plan": plan, "submit": submit, "status": status, "join": join}[given.what](given))


def parser() -> argparse.ArgumentParser:
    made = parser_of(NAME, "Shares a job of the correlator vlbi out over several machines, gives it to Slurm, and says how far it is.")
    made.add_argument("what", choices=("plan", "submit", "status", "join"),
                      help="plan a job into a folder, submit the folder to Slurm, say how far it is, or join the record files of a split job")
    made.add_argument("word", metavar="JOB|FOLDER", help="of plan the job, else the folder")
    made.add_argument("--vex", metavar="SCHEDULE", help="of plan: the job's schedule, where it has one")
    made.add_argument("--nodes", type=whole_number(1, 100000), metavar="N", help="of plan: how many nodes share a job")
    made.add_argument("--out", dest="folder", metavar="FOLDER", help="of plan: the folder that is written, on a disk that all nodes see")
    made.add_argument("--workers", type=whole_number(1, 64), metavar="N", help="of plan: threads that sum on each node (as many as this machine has processors)")
    made.add_argument("--piece", type=whole_number(64, 4194304), metavar="SAMPLES",
                      help="of plan: samples that one sums at once (as many as keep all busy)")
    made.add_argument("--epoch", type=whole_number(1, 4194304), metavar="SAMPLES",
                      help="of plan: samples that are summed and kept at once (as the job's line says)")
    made.add_argument("--program", help="of plan: the program vlbi, as the nodes find it (that beside this command, or on the path)")
    return made


def plan(given: argparse.Namespace) -> int:
    """Writes the folder, and says what to do with it; the exit status."""
    from vlbi import cluster, job, work

    if given.nodes is None or given.folder is None:
        raise Fault("plan needs --nodes and --out")
    program = commands.program(given.program)
    if program is None:
        raise Fault(NO_PROGRAM)
    made = cluster.plan(given.word, given.vex, given.nodes, given.epoch)
    workers = given.workers or work.workers()
    piece = given.piece or work.piece(job.plan(made.texts[0], made.schedule).by(given.epoch), workers)
    cluster.write(made, given.folder, program, workers, piece)
    print(f"{many(len(made.shards), 'shard')} of {many(len(made.texts), 'job')} in {given.folder}")
    return 0


def many(count: int, what: str) -> str:
    return f"{count} {what}{'s' * (count != 1)}"


def submit(given: argparse.Namespace) -> int:
    """Gives the shards that are not done to Slurm, and the merge; the exit status."""
    from vlbi import cluster

    made = cluster.read(given.word)
    if shutil.which("sbatch") is None:
        raise Fault(NO_SLURM)
    words = cluster.arrays(cluster.left(given.word, made)) or ["merge"]
    return subprocess.run([os.path.join(os.path.abspath(given.word), "submit"), *words], check=False).returncode


def status(given: argparse.Namespace) -> int:
    """Prints how far each shard is, and whether the records are there; the exit status."""
    from vlbi import cluster

    made = cluster.read(given.word)
    for shard in made.shards:
        print(f"shard {shard.number}: integrations {shard.begin} to {shard.end}{of_job(made, shard)}, {cluster.look(given.word, made, shard)}")
    path = os.path.join(given.word, cluster.RECORDS)
    print(f"{path}: {f'{os.path.getsize(path)} bytes' if os.path.exists(path) else 'not there'}")
    return 0


def of_job(made: Cluster, shard: Shard) -> str:
    """Of which job a shard is, where there are several."""
    return f" of {made.name(shard.job)}" if len(made.texts) > 1 else ""


def join(given: argparse.Namespace) -> int:
    """Joins the record files of a split job, which the script `merge` asks for; the exit status."""
    from vlbi import cluster

    cluster.join(given.word)
    return 0


if __name__ == "__main__":
    sys.exit(main())
