"""The command `vlbi-model`: from a schedule to the lines `knot`, `clock` and `poly` of a job.

    vlbi-model night.vex -o model.txt
    cat stations.txt model.txt > job.txt

It writes the lines into model.txt, and a table of delays, u, v and w into model.txt.uvw.
"""
from __future__ import annotations

import argparse
import sys
from collections.abc import Sequence
from typing import TYPE_CHECKING

from vlbi.commands import parser_of, told, whole_number
from vlbi.faults import Fault

if TYPE_CHECKING:
    from vlbi.model import Fit, Origin
    from vlbi.vex import Schedule

NAME = "vlbi-model"
PICO = 1e12
LONGEST = 2 ** 30  # seconds: longer than any polynomial of a file
LEFT_OUT = "left out: the solid earth's tide (some 0.3 m, 1 ns), water vapour (0.1 to 0.3 m at the zenith), the pressure of the day (0.1 m), the ionosphere"
TABLE = """The table JOBPART.uvw has a row for each station and moment: station, source (the name of its def), time (UTC), delay in seconds (positive
where the station gets the wave later than the centre of the earth; without the clock), and u, v and w in metres: the station's position
against the centre of the earth in J2000 axes, u to the east and v to the north of the source, w towards it. Lines with # are comments.
Those of a baseline A-B are B's less A's. Between rows a cubic through four of them is as good as the rows."""


def main(words: Sequence[str] | None = None) -> int:
    given = parser().parse_args(words)
    return told(NAME, lambda: make(given))


def parser() -> argparse.ArgumentParser:
    made = parser_of(NAME, "From a VEX schedule to the delays and clocks of a job of the correlator vlbi.")
    made.epilog = f"{TABLE} {made.epilog}"
    made.add_argument("schedule", help="the VEX schedule")
    made.add_argument("-o", "--output", required=True, metavar="JOBPART", help="where the lines are written; the table is JOBPART.uvw")
    made.add_argument("--station", action="append", default=[], metavar="KEY", help="a station, more than once for more (all)")
    made.add_argument("--scan", action="append", default=[], metavar="NAME", help="a scan, more than once for more (all)")
    made.add_argument("--stretch", type=whole_number(1, 3600), default=120, metavar="SECONDS", help="greatest length of a polynomial, 1 to 3600 (120)")
    made.add_argument("--step", type=whole_number(1, 3600), default=10, metavar="SECONDS", help="from one row of the table to the next, 1 to 3600 (10)")
    made.add_argument("--no-atmosphere", action="store_true", help="without the delay of the dry atmosphere")
    made.add_argument("--im", metavar="FILE", help="take the polynomials of this .im file of DiFX")
    return made


def make(given: argparse.Namespace) -> int:
    """Makes what is asked, and prints what each polynomial is like; the exit status."""
    from vlbi import model, vex

    schedule = vex.read(given.schedule)
    try:
        scans = vex.chosen_scans(schedule, given.scan)
        keys = vex.chosen_stations(schedule, scans, given.station)
        rate = vex.rate_of(schedule, scans, keys)
        origin = origin_of(schedule, given)
        parts = model.parts_of(schedule, scans, keys)
        clocks = model.clocks_of(schedule, parts, rate)
        changes = {key: model.clock_seconds(schedule, key) for key in keys}
        cut = model.all_cut(parts, LONGEST if given.im else given.stretch, lambda part: [*changes[part.key], *origin.cuts(part)])
        fits = [origin.fit(part) for part in cut]
        knot = model.knot_of(fits, rate)
        text = model.job_part(origin.words, clocks, fits, rate, knot)
        table = "\n".join(model.table(origin, parts, given.step)) + "\n"
    except Fault as fault:
        fault.name_file(given.schedule)
        raise
    for path, content in ((given.output, text), (f"{given.output}.uvw", table)):
        with open(path, "w") as out:
            out.write(content)
    for words in origin.notes:
        note(words)
    tell(fits, rate, knot)
    for path in (given.output, f"{given.output}.uvw"):
        print(path)
    return 0


def origin_of(schedule: Schedule, given: argparse.Namespace) -> Origin:
    """Where the delays are from; a line on standard error says it."""
    if given.im is not None:
        if given.no_atmosphere:
            raise Fault("the delays of an .im file have their atmosphere: --no-atmosphere cannot take it out", given.im)
        from vlbi import im

        note(f"delays of {given.im}")
        return im.read(given.im, schedule)
    from vlbi import delay, earth

    orientation = earth.of_schedule(schedule) or earth.of_tables()
    note(f"earth orientation {orientation.origin}")
    note(LEFT_OUT)
    return delay.Theory(schedule, orientation, not given.no_atmosphere)


def note(words: str) -> None:
    print(f"{NAME}: {words}", file=sys.stderr)


def tell(fits: Sequence[Fit], rate: int, knot: int) -> None:
    """Prints of each polynomial how far it is from what it stands for, and what the job's whole numbers add; then the greatest of both."""
    from vlbi import model

    greatest, greatest_whole = 0.0, 0.0
    for fit in fits:
        whole = model.whole_numbers(fit, rate, knot)
        print(f"{fit.part} {fit.part.seconds:g} s: {len(fit.coefficients)} terms, residual {fit.residual * PICO:.3f} ps, whole numbers {whole * PICO:.3f} ps")
        greatest, greatest_whole = max(greatest, fit.residual), max(greatest_whole, whole)
    print(f"{len(fits)} polynomials, knot {knot}: residual up to {greatest * PICO:.3f} ps, whole numbers up to {greatest_whole * PICO:.3f} ps")
    if greatest > model.WANTED:
        note("a residual is above 1 ps: take a shorter --stretch")
    if greatest_whole > model.WANTED_WHOLE:
        note("what the whole numbers add is above 10 ps")


if __name__ == "__main__":
    sys.exit(main())
