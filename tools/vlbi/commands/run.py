"""The command `vlbi-run`: `vlbi JOURNAL run`, and how far it is, and what to do after a status.

    vlbi-run night.journal --job job.txt --vex sky.vex > sky.vis
"""
from __future__ import annotations

import argparse
import contextlib
import signal
import subprocess
import sys
import threading
import time
from collections.abc import Iterator, Sequence
from typing import IO, TYPE_CHECKING

from vlbi import commands
from vlbi.commands import parser_of, told
from vlbi.faults import Fault

if TYPE_CHECKING:
    from vlbi import progress
    from vlbi.refusal import Call

NAME = "vlbi-run"
LOOK = 1.0  # seconds between two looks at the journal
HANDED = (signal.SIGINT, signal.SIGTERM, signal.SIGHUP, signal.SIGQUIT, signal.SIGUSR1, signal.SIGUSR2)
OPTIONS = ("job", "vex", "epoch", "workers", "piece")
NO_PROGRAM = "the program vlbi is neither beside this command nor on the path: --program names it"


def main(words: Sequence[str] | None = None) -> int:
    given, rest = parser().parse_known_args(words)
    return told(NAME, lambda: run(given, rest))


def parser() -> argparse.ArgumentParser:
    made = parser_of(NAME, "Runs a job by `vlbi JOURNAL run`, says how far it is, and what to do after a status.")
    made.add_argument("journal", help="the journal")
    made.add_argument("--job", action="append", default=[], help="the job")
    made.add_argument("--vex", action="append", default=[], metavar="SCHEDULE", help="its schedule, where it has one")
    made.add_argument("--epoch", action="append", default=[], metavar="SAMPLES", help="samples that are summed and kept at once (as the job's line says)")
    made.add_argument("--workers", action="append", default=[], metavar="N", help="threads that sum (as many as there are processors)")
    made.add_argument("--piece", action="append", default=[], metavar="SAMPLES", help="samples that one sums at once (as many as keep all busy)")
    made.add_argument("--program", help="the program vlbi (that beside this command, or on the path)")
    made.add_argument("--quiet", action="store_true", help="do not say how far it is")
    return made


def run(given: argparse.Namespace, rest: Sequence[str]) -> int:
    """Runs the program; its exit status, or its end by a signal."""
    from vlbi import progress


    program = commands.program(given.program)
    if program is None:
        raise Fault(NO_PROGRAM)
    call = call_of(given, rest)
    watch = progress.Watch(given.journal, texts(given), epoch(given))
    show = progress.shown(NAME, given.quiet)
    begun = time.monotonic()
    with handed_on() as hand:
        process = subprocess.Popen([program, call.journal, *call.words], stderr=subprocess.PIPE)
        hand.append(process)
        notes = Notes(process.stderr)
        state = follow(process, watch, show)
    show.close()
    said = notes.whole()
    if process.returncode == 0 and state is not None and not given.quiet:
        print(f"{NAME}: all {state.epochs} epochs are kept and the records written, in {progress.clock(time.monotonic() - begun)}", file=sys.stderr)
    return ended(call, process.returncode, said)


def call_of(given: argparse.Namespace, rest: Sequence[str]) -> Call:
    """The call of the program: the words that were given, and workers and piece where they were not."""
    from vlbi import refusal, work

    words = ["run"]
    for option in OPTIONS:
        for value in getattr(given, option):
            words += [f"--{option}", value]
    words += [word for number, word in enumerate(rest) if (number, word) != (0, "run")]
    workers = int(given.workers[0]) if given.workers and given.workers[0].isdecimal() else work.workers()
    if not given.workers:
        words += ["--workers", str(workers)]
    if not given.piece:
        words += ["--piece", str(chosen_piece(given, max(workers, 1)))]
    return refusal.Call(given.journal, tuple(words))


def chosen_piece(given: argparse.Namespace, workers: int) -> int:
    """The samples of a piece for the job; some good number where it cannot be read, which the program will say."""
    from vlbi import joined, work

    try:
        return work.piece(joined.read(given.job[0], given.vex[0] if given.vex else None).plan.by(epoch(given)), workers)
    except (Fault, OSError, ValueError, LookupError):
        return work.GOOD_PIECE


def epoch(given: argparse.Namespace) -> int | None:
    """The samples of an epoch that are asked for; None where the job's own line counts, and where they are no such number, which the program will say."""
    from vlbi import job

    number = int(given.epoch[0]) if given.epoch and given.epoch[0].isdecimal() else 0
    return number if 1 <= number <= job.MOST_EPOCH else None


def texts(given: argparse.Namespace) -> tuple[bytes, bytes]:
    """The texts of job and schedule; empty where they cannot be read."""
    found = []
    for paths in (given.job, given.vex):
        try:
            with open(paths[0], "rb") as file:
                found.append(file.read())
        except (OSError, IndexError):
            found.append(b"")
    return found[0], found[1]


@contextlib.contextmanager
def handed_on() -> Iterator[list[subprocess.Popen[bytes]]]:
    """Inside it signals are handed on to the processes of the list."""
    hand: list[subprocess.Popen[bytes]] = []

    def on(number: int, frame: object) -> None:
        for process in hand:
            process.send_signal(number)

    before = {number: signal.signal(number, on) for number in HANDED}
    try:
        yield hand
    finally:
        for number, handler in before.items():
            signal.signal(number, handler)


class Notes:
    """What a process says on standard error, which is passed on as it comes."""

    def __init__(self, source: IO[bytes] | None) -> None:
        self.source = source
        self.parts: list[bytes] = []
        self.reader = threading.Thread(target=self.read, daemon=True)
        self.reader.start()

    def read(self) -> None:
        for line in self.source or ():
            self.parts.append(line)

    def whole(self) -> str:
        self.reader.join()
        return b"".join(self.parts).decode("utf-8", "surrogateescape")


def follow(process: subprocess.Popen[bytes], watch: progress.Watch, show: progress.Show) -> progress.State | None:
    """Shows how far a process is until it ends; its last state."""
    state = None
    while True:
        try:
            process.wait(LOOK)
        except subprocess.TimeoutExpired:
            pass
        try:
            state = watch.look(time.monotonic()) or state
        except (Fault, OSError):
            state = None  # another file; the program says so
        show.show(state, "the recordings are read")
        if process.returncode is not None:
            return state


def ended(call: Call, status: int, said: str) -> int:
    """Says what to do after a status; after a signal this process ends by it too."""
    from vlbi import refusal

    sys.stderr.write(said.encode("utf-8", "surrogateescape").decode("utf-8", "replace"))
    for line in refusal.advice(call, status, said.strip()):
        print(f"{NAME}: {line}", file=sys.stderr)
    if status < 0:
        print(f"{NAME}: stopped by {signal.Signals(-status).name}; the same command goes on behind the epochs that are kept", file=sys.stderr)
        sys.stderr.flush()
        signal.signal(-status, signal.SIG_DFL)
        signal.raise_signal(-status)
    return status


if __name__ == "__main__":
    sys.exit(main())
