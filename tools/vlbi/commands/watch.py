"""The command `vlbi-watch`: how far a run is that someone else started.

    vlbi-watch night.journal
"""
from __future__ import annotations

import argparse
import sys
import time
from collections.abc import Sequence

from vlbi.commands import parser_of, told, whole_number

NAME = "vlbi-watch"


def main(words: Sequence[str] | None = None) -> int:
    given = parser().parse_args(words)
    return told(NAME, lambda: watch(given))


def parser() -> argparse.ArgumentParser:
    made = parser_of(NAME, "Says how far a run of the correlator vlbi is, by its journal, until all its epochs are kept.")
    made.add_argument("journal", help="the journal")
    made.add_argument("--every", type=whole_number(1, 3600), default=2, metavar="SECONDS", help="between two looks, 1 to 3600 (2)")
    made.add_argument("--epoch", type=whole_number(1, 4194304), metavar="SAMPLES", help="the epochs of the run (as the job's line says)")
    made.add_argument("--once", action="store_true", help="print how far it is now, and end")
    return made


def watch(given: argparse.Namespace) -> int:
    """Shows how far a run is, until all is kept; the exit status."""
    from vlbi import progress

    one = progress.Watch(given.journal, epoch=given.epoch)
    if given.once:
        state = one.look(time.monotonic())
        print(state.front if state else "nothing is kept yet")
        return 0
    show = progress.shown(NAME, False)
    try:
        while True:
            state = one.look(time.monotonic())
            show.show(state, "nothing is kept yet")
            if state is not None and state.whole:
                return 0
            time.sleep(given.every)
    finally:
        show.close()


if __name__ == "__main__":
    sys.exit(main())
