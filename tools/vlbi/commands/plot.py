"""The command `vlbi-plot`: pictures of a record file, or of a text of the cells of bins.

    vlbi-plot sky.vis                    in a window
    vlbi-plot sky.vis sky.png            into a file
    vlbi-plot --what map --baseline Ef-Wb --product CH01,CH01 sky.vis sky.png
    vlbi-plot --certificate sky.peaks sky.vis sky.png
    vlbi-plot pulsar.bins pulsar.png
"""
from __future__ import annotations

import argparse
import os
import sys
import time
from collections.abc import Sequence
from typing import TYPE_CHECKING

from vlbi.commands import parser_of, told, whole_number
from vlbi.faults import Fault

if TYPE_CHECKING:
    from vlbi.plot import Pair
    from vlbi.records import BinRecords, Records, Scan

NAME = "vlbi-plot"
NAMED = 12  # names in a line that says which there are


def main(words: Sequence[str] | None = None) -> int:
    given = parser().parse_args(words)
    return told(NAME, lambda: plot(given))


def parser() -> argparse.ArgumentParser:
    made = parser_of(NAME, "Pictures of a record file of the correlator vlbi.")
    made.add_argument("records", help="the record file, or the text of the cells of bins")
    made.add_argument("picture", nargs="?", help="a PNG, PDF or SVG that is written; a window where none is named")
    made.add_argument("--what", choices=("page", "lags", "time", "map", "bins"),
                      help="all three in a row for each fringe (page); amplitude and phase over lag; over time; lag against residual rate; of a text of "
                      "the cells of bins, amplitude over bin and lag (bins), where the others draw the sum over its bins")
    made.add_argument("--scan", default="0", help="a scan by its name, or by its number from 0 (0)")
    made.add_argument("--baseline", action="append", default=[], metavar="A-B", help="a baseline, more than once for more (all)")
    made.add_argument("--product", action="append", default=[], metavar="X,Y", help="a product, more than once for more (all)")
    made.add_argument("--certificate", metavar="FILE", help="a certificate that `vlbi JOURNAL fringe` wrote of the records: its peaks are marked")
    made.add_argument("--auto", action="store_true", help="stations with themselves too")
    made.add_argument("--pages", action="store_true", help="all fringes, on as many pages as they need; else the first page alone")
    made.add_argument("--dpi", type=whole_number(10, 1200), default=100, help="dots an inch of the picture, 10 to 1200 (100)")
    return made


def plot(given: argparse.Namespace) -> int:
    """Draws what is asked, into files whose names are printed, or into windows; the exit status."""
    from vlbi import certificate, records
    from vlbi import plot as pictures

    if given.picture:
        pictures.check_picture(given.picture)
    found = records.read_either(given.records)
    what = given.what or ("bins" if isinstance(found, records.BinRecords) else "page")
    check_kind(found, what, given)
    certified = certificate.read(given.certificate, found) if given.certificate and isinstance(found, records.Records) else None
    try:
        scan = chosen_scan(found, given.scan)
        pairs = chosen_pairs(scan.summed if isinstance(scan, records.BinScan) and what != "bins" else scan, given)
        if certified and isinstance(found, records.Records):
            pictures.certify(pairs, certified, found.scans.index(scan))
        pages = pictures.pages(pairs, what)
        if len(pages) > 1 and not given.pages:
            print(f"{NAME}: {given.records}: the first {len(pages[0])} of {len(pairs)} fringes; --baseline and --product choose others, "
                  f"--pages draws all on {len(pages)} pages", file=sys.stderr)
            pages = pages[:1]
        begins = time.strftime("%Y-%m-%d %H:%M:%S", time.gmtime(scan.start))
        title = f"{os.path.basename(given.records)}   scan {scan.name}   {begins} UTC   {scan.samples / found.head.rate:g} s"
        if given.picture:
            for path in pictures.save(pages, what, title, given.picture, given.dpi):
                print(path)
        else:
            pictures.show(pages, what, title)
    except Fault as fault:
        fault.name_file(given.records)
        raise
    return 0


def check_kind(found: Records | BinRecords, what: str, given: argparse.Namespace) -> None:
    """Fault where what is asked is not for a file of this kind."""
    from vlbi.records import BinRecords

    if what == "bins" and not isinstance(found, BinRecords):
        raise Fault("this is a record file, and --what bins is for a text of the cells of bins", given.records)
    if given.certificate and isinstance(found, BinRecords):
        raise Fault("this is a text of the cells of bins, and a certificate is of a record file", given.records)


def chosen_scan(found: Records | BinRecords, name: str) -> Scan:
    """The scan of this name, or else of this number; Fault where there is none, or nothing in it."""
    try:
        scan = found.scan(name)
    except LookupError:
        if not (name.isdigit() and int(name) < len(found.scans)):
            raise Fault(f"no scan {name} among {listed([scan.name for scan in found.scans])}") from None
        scan = found.scan(int(name))
    if scan.samples == 0:
        raise Fault(f"scan {scan.name} has no samples")
    return scan


def chosen_pairs(scan: Scan, given: argparse.Namespace) -> list[Pair]:
    """The fringes that are asked for; Fault where one is not there."""
    from vlbi.plot import pairs_of

    baselines = ["-".join(keys) for keys in scan.baseline_keys]
    products = [",".join(channels) for channels in scan.head.products]
    for asked, there, what in ((given.baseline, baselines, "baseline"), (given.product, products, "product")):
        for name in asked:
            if name not in there:
                raise Fault(f"scan {scan.name} has no {what} {name} among {listed(there)}")
    pairs = pairs_of(scan, given.baseline, given.product, given.auto)
    if not pairs:
        raise Fault(f"scan {scan.name} has only stations with themselves: --auto draws them")
    return pairs


def listed(names: Sequence[str]) -> str:
    """Names in words, the first ones of many."""
    more = f", .. ({len(names)})" if len(names) > NAMED else ""
    return (", ".join(names[:NAMED]) or "none") + more


if __name__ == "__main__":
    sys.exit(main())
