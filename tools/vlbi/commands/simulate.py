"""The command `vlbi-simulate`: recordings with a true fringe, their schedule and jobs.

    vlbi-simulate FOLDER --station Ef --station Wb,delay=4.95:0.01,clock=2.5

writes into FOLDER a recording KEY.vdif of each station, the schedule sky.vex, the job job.txt, which takes the delays and clocks out,
and the job blind.txt, which knows nothing of them. Then, in FOLDER,

    vlbi journal run --job job.txt --vex sky.vex --workers 4 --piece 65536 > sky.vis
    vlbi-plot sky.vis

    vlbi-simulate --sky night.vex FOLDER

writes into FOLDER a recording KEY.vdif of each station of the schedule night.vex, as it and the sources move on the sky, and stations.txt,
the job that lacks the lines of vlbi-model.
"""
from __future__ import annotations

import argparse
import sys
from collections.abc import Callable, Sequence
from fractions import Fraction
from typing import TYPE_CHECKING, NamedTuple

from vlbi import quantiser
from vlbi.commands import Progress, parser_of, told
from vlbi.faults import Fault

if TYPE_CHECKING:
    from vlbi.simulate import Pulse

NAME = "vlbi-simulate"
STATED = {           # what a schedule says, and what is taken without one
    "station": None, "seconds": 10, "rate": 2_000_000, "start": "2010y001d00h00m00s", "channels": 1, "frequency": 8_400_000_000, "sideband": "U",
    "apart": False, "blind_integration": None,
}
OF_SKY = ("scan", "no_atmosphere")  # what counts with a schedule alone
OF_PULSES = ("duty", "pulse_epoch", "period_derivative")  # what counts with a period alone


class Asked(NamedTuple):
    """A station as the command is given it: its key, and its delay and its clock's lead in seconds by powers of seconds."""

    key: str
    delay: tuple[float, ...] = (0.0,)
    clock: tuple[float, ...] = (0.0,)


def main(words: Sequence[str] | None = None) -> int:
    given = parser().parse_args(words)
    return told(NAME, lambda: simulate(given) if given.sky is None else observe(given))


def parser() -> argparse.ArgumentParser:
    made = parser_of(NAME, "Makes recordings with a true fringe, their schedule and jobs.")
    made.add_argument("folder", help="where the files are written")
    made.add_argument("--sky", metavar="SCHEDULE", help="the recordings of this VEX schedule, whose stations and sources move as on the sky; "
                      "it says itself what --station, --seconds, --rate, --start, --channels, --frequency, --sideband and --apart say without it")
    made.add_argument("--scan", action="append", default=[], metavar="NAME", help="a scan of the schedule, more than once for more (all)")
    made.add_argument("--no-atmosphere", action="store_true", help="the schedule's stations have no dry atmosphere above them")
    made.add_argument("--station", type=station_of, action="append", metavar="KEY[,delay=US[:US/s[:..]]][,clock=US[:US/s]]",
                      help="a station, with its delay and its clock's lead in microseconds, by powers of seconds (Ef and Wb where not said)")
    made.add_argument("--seconds", type=int, help="length of the scan (10)")
    made.add_argument("--rate", type=int, help="samples a second (2000000)")
    made.add_argument("--start", help="start of the scan (2010y001d00h00m00s)")
    made.add_argument("--channels", type=int, help="number of channels (1)")
    made.add_argument("--frequency", type=int, metavar="HZ", help="sky frequency of the first channel's edge (8400000000)")
    made.add_argument("--sideband", metavar="U|L..", help="of all channels, or a letter for each, as UULL (U)")
    made.add_argument("--common", type=float, default=0.1, help="part of a station's power that all have in common (0.1)")
    made.add_argument("--period", type=exact_number, metavar="S", help="the source pulses, with this period in seconds; else it is always on")
    made.add_argument("--duty", type=float, metavar="PART", help="part of each period in which it is on (0.1)")
    made.add_argument("--pulse-epoch", type=exact_number, metavar="MJD",
                      help="modified julian date in UTC at which a pulse begins (the start of the first scan)")
    made.add_argument("--period-derivative", type=exact_number, metavar="S/S", help="seconds that the period gains in each second (0)")
    made.add_argument("--bits", type=int, choices=quantiser.BITS, default=2, help="bits in a sample (2)")
    made.add_argument("--apart", action="store_true", default=None, help="each channel in a thread of its own; so it is where their number is no power of two")
    made.add_argument("--missing", type=float, default=0, help="part of the frames that are left out (0)")
    made.add_argument("--invalid", type=float, default=0, help="part of the frames that are marked invalid (0)")
    made.add_argument("--seed", type=int, default=1, help="of all noise (1)")
    made.add_argument("--lags", type=int, default=64, help="lags of the jobs (64)")
    made.add_argument("--integration", type=int, metavar="SAMPLES", help="integration of job.txt (an eighth of a second), or stations.txt (a second)")
    made.add_argument("--blind-integration", type=int, metavar="SAMPLES", help="integration of blind.txt (a 500th of a second)")
    made.add_argument("--auto", action="store_true", help="the jobs correlate each station with itself too")
    made.add_argument("--quiet", action="store_true", help="do not say how far it is")
    return made


def station_of(words: str) -> Asked:
    """A station as the command is given it: KEY, and behind commas `delay=` and `clock=` in microseconds by powers of seconds."""
    key, *parts = words.split(",")
    numbers: dict[str, tuple[float, ...]] = {}
    for part in parts:
        name, _, values = part.partition("=")
        if name not in ("delay", "clock"):
            raise argparse.ArgumentTypeError(f"neither delay= nor clock=: {part}")
        if name in numbers:
            raise argparse.ArgumentTypeError(f"{name}= twice: {words}")
        try:
            numbers[name] = tuple(float(value) * 1e-6 for value in values.split(":"))
        except ValueError:
            raise argparse.ArgumentTypeError(f"no numbers: {part}") from None
    made = Asked(key, **numbers)
    if len(made.delay) > 6 or len(made.clock) > 2:
        raise argparse.ArgumentTypeError(f"more than six numbers of a delay, or than two of a clock: {words}")
    return made


def exact_number(word: str) -> Fraction:
    """A number as it is written, with all its digits."""
    try:
        return Fraction(word)
    except (ValueError, ZeroDivisionError):
        raise argparse.ArgumentTypeError(f"no number: {word}") from None


def pulse_of(given: argparse.Namespace) -> Pulse | None:
    """How the source pulses; None where it does not."""
    from vlbi import job
    from vlbi.simulate import Pulse

    if given.period is None:
        for word in OF_PULSES:
            if getattr(given, word) is not None:
                raise Fault(f"{option(word)} goes with --period")
        return None
    return Pulse(
        given.period, 0.1 if given.duty is None else given.duty, None if given.pulse_epoch is None else job.mjd_second(given.pulse_epoch),
        given.period_derivative or 0,
    )


def simulate(given: argparse.Namespace) -> int:
    """Makes what is asked; the exit status."""
    from vlbi import job
    from vlbi import simulate as made

    for word in OF_SKY:
        if getattr(given, word):
            raise Fault(f"{option(word)} goes with --sky")
    for word, taken in STATED.items():
        if getattr(given, word) is None:
            setattr(given, word, taken)
    stations = [made.Station(*one) for one in given.station or (Asked("Ef"), station_of("Wb,delay=4.95:0.01,clock=2.5"))]
    try:
        start = job.second_of(given.start)
    except ValueError as error:
        raise Fault(f"--start: {error}") from None
    sky = made.Sky(
        stations=tuple(stations), rate=given.rate, seconds=given.seconds, start=start, channels=given.channels, frequency=given.frequency,
        sideband=given.sideband, common=given.common, bits=given.bits, apart=given.apart or given.channels & (given.channels - 1) != 0,
        missing=given.missing, invalid=given.invalid, seed=given.seed, pulse=pulse_of(given),
    )
    paths = made.simulate(
        sky, given.folder, given.lags, given.integration, given.blind_integration, given.auto, progress_of(given, sky.seconds)
    )
    for path in paths:
        print(path)
    return 0


def observe(given: argparse.Namespace) -> int:
    """Makes the recordings of a schedule; the exit status."""
    from vlbi import scheduled, vex

    for word in STATED:
        if getattr(given, word) is not None:
            raise Fault(f"{option(word)} does not go with --sky: the schedule says that")
    pulse = pulse_of(given)
    schedule = vex.read(given.sky)
    asked = scheduled.Asked(given.common, given.bits, given.missing, given.invalid, given.seed, not given.no_atmosphere, pulse)
    night = scheduled.Night(schedule, vex.chosen_scans(schedule, given.scan), asked)
    text = night.job_text(given.lags, given.integration, given.auto)
    for path in night.write(given.folder, text, progress_of(given, night.seconds)):
        print(path)
    return 0


def option(word: str) -> str:
    return f"--{word.replace('_', '-')}"


def progress_of(given: argparse.Namespace, seconds: float) -> Callable[[float], None]:
    """What says how far it is, of so many seconds."""
    progress = Progress(NAME, "seconds are made", given.quiet)
    return lambda made: progress.say(made, seconds)


if __name__ == "__main__":
    sys.exit(main())
