"""The command `vlbi-fits`: a FITS-IDI file of a record file, for the astronomers' programs.

    vlbi-fits sky.vis --job job.txt --vex sky.vex -o sky.fits
"""
from __future__ import annotations

import argparse
import sys
from collections.abc import Sequence
from typing import TYPE_CHECKING

from vlbi.commands import parser_of, told
from vlbi.faults import Fault

if TYPE_CHECKING:
    from vlbi.observation import Stated

NAME = "vlbi-fits"


def main(words: Sequence[str] | None = None) -> int:
    given = parser().parse_args(words)
    return told(NAME, lambda: convert(given))


def parser() -> argparse.ArgumentParser:
    made = parser_of(NAME, "Makes a FITS-IDI file of a record file of the correlator vlbi.")
    made.add_argument("records", help="the record file")
    made.add_argument("--job", required=True, help="the job of which the records are")
    made.add_argument("--vex", metavar="SCHEDULE", help="its schedule, where it has one")
    made.add_argument("--output", "-o", required=True, metavar="FILE", help="the file that is written")
    made.add_argument("--correct", action="store_true",
                      help="coefficients of correlation: correct for what quantisation, fringe rotation and whole delays leave of a weak correlation")
    made.add_argument("--uvw", metavar="TABLE", help="a table of u, v and w, as vlbi-model writes it (computed from the sites)")
    made.add_argument("--source", metavar="NAME", help="the source of scans that name none")
    made.add_argument("--ra", metavar="HhMmSs", help="its right ascension, as 03h19m48.16s, in J2000 (that of the schedule)")
    made.add_argument("--dec", metavar="DdM'S\"", help="its declination, as 41d30'42.1\"; one below 0 as --dec=-05d00'00\" (that of the schedule)")
    made.add_argument("--site", type=site_of, action="append", default=[], metavar="KEY=X,Y,Z",
                      help="the position of a station in metres, more than once for more (those of the schedule)")
    made.add_argument("--polarisation", type=polarisation_of, action="append", default=[], metavar="CHANNEL=P",
                      help="that of a channel, R, L, X or Y, more than once for more (those of the schedule, else R)")
    return made


def site_of(words: str) -> tuple[str, tuple[float, float, float]]:
    """A site as the command is given it: KEY=X,Y,Z in metres."""
    key, _, numbers = words.partition("=")
    try:
        x, y, z = (float(number) for number in numbers.split(","))
    except ValueError:
        raise argparse.ArgumentTypeError(f"no KEY=X,Y,Z: {words}") from None
    return key, (x, y, z)


def polarisation_of(words: str) -> tuple[str, str]:
    """A polarisation as the command is given it: CHANNEL=P."""
    channel, _, hand = words.rpartition("=")
    if not channel or hand not in ("R", "L", "X", "Y"):
        raise argparse.ArgumentTypeError(f"no CHANNEL=R, L, X or Y: {words}")
    return channel, hand


def convert(given: argparse.Namespace) -> int:
    """Writes what is asked, and prints the file's name; the exit status."""
    from vlbi import fits, geometry, observation, records

    seen = observation.of(records.read(given.records), given.job, given.vex, stated(given))
    place: geometry.Geometry
    if given.uvw is not None:
        place = geometry.read_table(given.uvw)
    else:
        place = geometry.Computed({one.key: one.site for one in seen.stations}, seen.orientation)
    if seen.assumed:
        note(f"nobody says the polarisation of {', '.join(seen.assumed)}: R is taken, --polarisation says another")
    if seen.orientation.origin == geometry.UNKNOWN:
        note("nobody says how the earth is turned on these days: UT1-UTC and the pole are taken as 0, $EOP of the schedule says them")
    try:
        fits.write(given.output, seen, place, given.correct)
    except Fault as fault:
        fault.name_file(given.records)
        raise
    print(given.output)
    return 0


def note(words: str) -> None:
    print(f"{NAME}: {words}", file=sys.stderr)


def stated(given: argparse.Namespace) -> Stated:
    """What the options say of the observation."""
    from vlbi import observation, vex

    if (given.ra is None) != (given.dec is None) or given.ra is not None and given.source is None:
        raise Fault("--ra and --dec go together, with --source")
    try:
        place = (None, None) if given.ra is None else (vex.hours(given.ra), vex.degrees(given.dec))
    except ValueError as error:
        raise Fault(f"--ra, --dec: {error}") from None
    return observation.Stated(given.source, *place, dict(given.site), dict(given.polarisation))


if __name__ == "__main__":
    sys.exit(main())
