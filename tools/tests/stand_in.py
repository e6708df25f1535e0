"""Stands in for the program `vlbi`: its commands `plain`, `shard` and `merge` on small jobs, by the definitions that `correlator` and
`checkpoint_journals` have.

    stand_in.py JOURNAL shard --job JOB [--vex SCHEDULE] [--epoch E] --workers N --piece P --from A --to B

VLBI_PAUSE is a time in seconds that it takes for each epoch besides.
"""
from __future__ import annotations

import argparse
import fcntl
import os
import struct
import sys
import time
from collections.abc import Sequence

import checkpoint_journals as journals
import correlator
import numpy
from numpy.typing import NDArray

Sums = dict[tuple[int, int], NDArray[numpy.void]]
CELL = numpy.dtype([("re", "<i8"), ("im", "<i8"), ("count", "<u8")])


class Calls:
    """What the options of a call come to: the job as both definitions have it, and the values of its stations once they are asked for."""

    def __init__(self, given: argparse.Namespace) -> None:
        text, self.schedule = correlator.read(given.job), correlator.read(given.vex) if given.vex else b""
        self.job = correlator.Job(text, self.schedule or None)
        self.scans = correlator.listed_scans(self.job)
        sizes = [os.path.getsize(name) for station in self.job.stations.values() for name in station.files]
        numbers = self.job.numbers
        self.whole = journals.Job(
            journals.identity(self.schedule, text, sizes), numbers["integration"], given.epoch or numbers["epoch"], numbers["lags"],
            [journals.Scan(scan.samples, len(self.job.products), len(baselines)) for scan, baselines in self.scans],
        )
        self.known: dict[tuple[int, str, str], correlator.Values] = {}

    def values(self, scan: int, key: str, channel: str) -> correlator.Values:
        if (scan, key, channel) not in self.known:
            self.known[scan, key, channel] = correlator.values(self.job, key, channel, self.scans[scan][0], ".")
        return self.known[scan, key, channel]

    def cells(self, epoch: journals.Epoch) -> bytes:
        """The cells of an epoch: product, baseline, lag."""
        keys = list(self.job.stations)
        return b"".join(
            correlator.cells_of(self.values(epoch.scan, keys[a], x), self.values(epoch.scan, keys[b], y), epoch.begin, epoch.end, self.whole.lags)
            for x, y in self.job.products for a, b in self.scans[epoch.scan][1]
        )


def main(words: Sequence[str]) -> int:
    made = argparse.ArgumentParser()
    made.add_argument("journal")
    made.add_argument("command", choices=("plain", "shard", "merge"))
    made.add_argument("--job", required=True)
    made.add_argument("--vex")
    for option in ("epoch", "workers", "piece", "from", "to"):
        made.add_argument(f"--{option}", type=int)
    given, files = made.parse_known_args(words)
    given.files = files
    return {"plain": plain, "shard": shard, "merge": merge}[given.command](given)


def plain(given: argparse.Namespace) -> int:
    sys.stdout.buffer.write(correlator.records(Calls(given).job, "."))
    return 0


def shard(given: argparse.Namespace) -> int:
    """Sums the epochs that the journal does not keep."""
    calls = Calls(given)
    begin, end = getattr(given, "from"), given.to
    part = journals.Part(calls.whole, begin, end)
    file = os.open(given.journal, os.O_RDWR | os.O_CREAT, 0o644)
    try:
        fcntl.flock(file, fcntl.LOCK_EX | fcntl.LOCK_NB)
    except OSError:
        print("vlbi: journal fault", file=sys.stderr)
        return 8
    found = journals.find(part, correlator.read(given.journal))
    if found is None:
        put(file, 0, b"\1" + part.identity + b"\0")
        found = journals.Journal([], part.first(), 1 + len(part.identity), True)
    while found.due is not None:
        epoch = part.cut(found.due, part.epoch)
        time.sleep(float(os.environ.get("VLBI_PAUSE", "0")))
        record = struct.pack("<IQQQ", *epoch) + calls.cells(epoch)
        put(file, found.gate + 1, record + b"\0")
        put(file, found.gate, b"\1")
        found.gate, found.due = found.gate + 1 + len(record), part.after(epoch)
    print(f"shard {begin} {end} done")
    return 0


def put(file: int, place: int, text: bytes) -> None:
    """Writes a text at a place of a file, and syncs."""
    os.pwrite(file, text, place)
    os.fsync(file)


def merge(given: argparse.Namespace) -> int:
    """Writes the records from the journals of parts; of an integration the first journal that covers it counts."""
    calls = Calls(given)
    sums: Sums = {}
    for name in given.files:
        if not os.path.exists(name):
            print(f"vlbi: no file {name}", file=sys.stderr)
            return 11
        sums = {**covered(calls, name), **sums}
    places = list(calls.whole.begins(0, calls.whole.integrations()))
    for number, place in enumerate(places):
        if place[:2] not in sums:
            print(f"vlbi: merge: Uncovered {number}", file=sys.stderr)
            return 14
    records = []
    for place in places:
        for number, cells in enumerate(sums[place[:2]].reshape(-1, calls.whole.lags)):
            product, baseline = divmod(number, calls.whole.scans[place.scan].baselines)
            records.append(struct.pack("<BIQII", 1, place.scan, place.m, product, baseline) + cells.tobytes())
    sys.stdout.buffer.write(b"".join([b"VLBIVIS1", correlator.head(calls.job), *records, struct.pack("<BQ", 255, len(records))]))
    return 0


def covered(calls: Calls, name: str) -> Sums:
    """The cells of the integrations that the journal of a part covers, by scan and integration."""
    image = correlator.read(name)
    found = journals.find(journals.Part(calls.whole, *struct.unpack_from("<QQ", image, 9)), image)
    assert found is not None
    sums: Sums = {}
    for one in found.kept:
        if found.due is None or one.epoch[:2] != found.due[:2]:
            cells = numpy.array(one.cells, CELL)
            before = sums.setdefault(one.epoch[:2], numpy.zeros_like(cells))
            for field in CELL.names or ():
                before[field] += cells[field]
    return sums


if __name__ == "__main__":
    sys.exit(main(sys.argv[1:]))
