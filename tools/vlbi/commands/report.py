"""The command `vlbi-report`: a page of all fringes of a night.

    vlbi-report sky.vis --job job.txt --vex sky.vex -o page.html
"""
from __future__ import annotations

import argparse
import os
import sys
from collections.abc import Sequence

from vlbi.commands import Progress, parser_of, told

NAME = "vlbi-report"


def main(words: Sequence[str] | None = None) -> int:
    given = parser().parse_args(words)
    return told(NAME, lambda: report(given))


def parser() -> argparse.ArgumentParser:
    made = parser_of(NAME, "Makes a page of the fringes of record files of the correlator vlbi.")
    made.add_argument("records", nargs="+", help="the record files")
    made.add_argument("--output", "-o", required=True, metavar="PAGE", help="the HTML file that is written")
    made.add_argument("--job", help="the job of which the records are: for the lines that mend clocks, and the samplers' levels")
    made.add_argument("--vex", metavar="SCHEDULE", help="its schedule, where it has one")
    made.add_argument("--title", help="the page's title (the names of the record files)")
    made.add_argument("--quiet", action="store_true", help="do not say how far it is")
    return made


def report(given: argparse.Namespace) -> int:
    """Writes the page, prints its name and what stands at its top; the exit status."""
    from vlbi import page
    from vlbi import report as reporting

    progress = Progress(NAME, "fringes", given.quiet)
    night = reporting.read(given.records, given.job, given.vex, progress.say)
    page.write(given.output, night, given.title or ", ".join(map(os.path.basename, given.records)))
    for _, said, lines in reporting.words_of(night):
        print(said, *lines, sep="\n    ")
    print(given.output)
    return 0


if __name__ == "__main__":
    sys.exit(main())
