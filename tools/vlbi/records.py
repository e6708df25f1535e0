"""The record files and journals of the correlator `vlbi`, for numpy.

    found = records.read("sky.vis")
    scan = found.scans[0]
    scan.cells["re"][integration, product, baseline, lag]

`read` gives a record file's head and cells, `text` the lines that `vlbi JOURNAL dump FILE` prints of it, `journal` how far a
journal is, `kept_epochs` the epochs that it keeps. `read_bins` gives a text of the cells of a pulse's bins:

    found = records.read_bins("pulsar.bins")
    found.scans[0].cells["re"][integration, product, baseline, bin, lag]
    found.summed.scans[0].cells["re"][integration, product, baseline, lag]

Names are texts; a byte that is no UTF-8 is kept as Python keeps it in file names (`surrogateescape`).
"""
from __future__ import annotations

import contextlib
import dataclasses
import math
import mmap
import os
import stat
import struct
from collections.abc import Iterator, Sequence
from typing import BinaryIO, TypeVar, Union

import numpy
from numpy.typing import NDArray

from vlbi import job as jobs
from vlbi.faults import Fault, PlacedFault

MAGIC = b"VLBIVIS1"
BINS_MAGIC = b"VLBIBIN1"
JOURNAL_MAGIC = b"VLBIJRN2"      # of a journal whose records have the range of their epoch
OLD_JOURNAL_MAGIC = b"VLBIJRN1"  # of one whose records have none, up to a mark
PART_MAGIC = b"VLBISHD1"         # of one of a part of a job, whose records have the range too
JOURNAL_MAGICS = (JOURNAL_MAGIC, OLD_JOURNAL_MAGIC, PART_MAGIC)
RANGE = 28                       # bytes of the range of an epoch
MARK_COUNT = 2 ** 64 - 1         # which no cell has, in place of the first count behind a gate
AXES = ("integration", "product", "baseline", "lag")
BIN_AXES = ("integration", "product", "baseline", "bin", "lag")
CELL = numpy.dtype([("re", "<i8"), ("im", "<i8"), ("count", "<u8")])
PLACE = numpy.dtype([("mark", "u1"), ("scan", "<u4"), ("integration", "<u8"), ("product", "<u4"), ("baseline", "<u4")])
BIN_PLACE = numpy.dtype([*PLACE.descr, ("bin", "<u4")])
MOST_BINS = 64
CHECKED = 1 << 16  # records whose marks and numbers are looked at in one go


Data = Union[bytes, mmap.mmap]
Shape = tuple[int, ...]  # the last axis is that of the lags, the others count records
Baselines = tuple[tuple[int, int], ...]
S = TypeVar("S", bound="Scan")


class RecordFault(PlacedFault):
    """A file that is no record file: the first rule that it breaks, from the front.

    `kind` is `Magic`, `Short`, `Head`, `Order` or `AfterEnd`, `at` the place in bytes; both are those that `dump` answers.
    """

    FRONT = "no record file: "


class BinsFault(RecordFault):
    """A file that is no text of the cells of bins: the first rule that it breaks, as a RecordFault."""

    FRONT = "no text of the cells of bins: "


class JournalFault(PlacedFault):
    """A file that is not blank and no journal: `kind` says what is there, `at` is the place in bytes at which it is none."""

    FRONT = "no journal: "


@dataclasses.dataclass(frozen=True)
class Head:
    """What a record file says of all its scans.

    lags         L, the number of lags
    integration  I, the samples of an integration
    rate         samples a second
    stations     the stations' keys, in the job's order
    products     P pairs of names of channels: that of a baseline's first station and that of its second
    """

    lags: int
    integration: int
    rate: int
    stations: tuple[str, ...]
    products: tuple[tuple[str, str], ...]

    @property
    def lag_numbers(self) -> NDArray[numpy.int64]:
        """The lags in samples, int64 of the shape (L,), from -L/2 on: at lag l the second station's sample n + l goes with n."""
        return numpy.arange(self.lags, dtype=numpy.int64) - self.lags // 2

    @property
    def lag_times(self) -> NDArray[numpy.float64]:
        """The lags in microseconds, float64 of the shape (L,)."""
        return self.lag_numbers.astype(numpy.float64) * (1e6 / self.rate)


@dataclasses.dataclass(frozen=True, eq=False)
class Scan:
    """A scan of a record file.

    head       the file's Head
    name       its name
    start      its start, in seconds since 1970-01-01
    samples    its length N in samples
    baselines  its B baselines, each two numbers (a, b) of stations with a <= b
    cells      an array of the dtype CELL and the shape (M, P, B, L), axes as in AXES: M = ceil(N / I) integrations, the last one
               perhaps shorter than I samples; products; baselines; lags from the lowest on. `re` and `im` are sums of products of
               levels, `count` is the number of pairs in them. It is read only, and stands on the file where that is mapped.
    """

    head: Head
    name: str
    start: int
    samples: int
    baselines: tuple[tuple[int, int], ...]
    cells: NDArray[numpy.void] = dataclasses.field(repr=False)

    @property
    def baseline_keys(self) -> tuple[tuple[str, str], ...]:
        """The keys of each baseline's two stations, B pairs of texts."""
        return tuple((self.head.stations[a], self.head.stations[b]) for a, b in self.baselines)

    @property
    def begins(self) -> NDArray[numpy.int64]:
        """The first sample of each integration, int64 of the shape (M,)."""
        return numpy.arange(self.cells.shape[0], dtype=numpy.int64) * self.head.integration

    @property
    def times(self) -> NDArray[numpy.float64]:
        """The middle of each integration in seconds from the scan's start, float64 of the shape (M,)."""
        begins = self.begins
        middles: NDArray[numpy.float64] = (begins + numpy.minimum(begins + self.head.integration, self.samples)) / (2 * self.head.rate)
        return middles

    def means(self, product: int, baseline: int) -> NDArray[numpy.complex128]:
        """The mean product of a pair's levels, complex128 of the shape (M, L); NaN where a cell has no pair.

        product, baseline  numbers from 0
        """
        cells = self.cells[:, product, baseline]
        with numpy.errstate(invalid="ignore"):
            found: NDArray[numpy.complex128] = (cells["re"] + 1j * cells["im"]) / numpy.where(cells["count"] == 0, numpy.nan, cells["count"])
        return found


@dataclasses.dataclass(frozen=True, eq=False)
class Records:
    """A record file: its Head, and a Scan for each scan that has a baseline, in the schedule's order."""

    head: Head
    scans: tuple[Scan, ...]

    def scan(self, name: str | int) -> Scan:
        """The first Scan of this name, or the one of this number from 0; LookupError where there is none."""
        return named(self.scans, name)


def named(scans: Sequence[S], name: str | int) -> S:
    """The first of these scans that has this name, or the one of this number from 0; LookupError where there is none."""
    if isinstance(name, int):
        return scans[name]
    for scan in scans:
        if scan.name == name:
            return scan
    raise LookupError(f"no scan {name}")


@dataclasses.dataclass(frozen=True, eq=False)
class BinScan(Scan):
    """A scan of a text of the cells of bins: a Scan whose `cells` have the shape (M, P, B, Z, L), axes as in BIN_AXES.

    Bin z of Z has the pairs whose first sample is of a phase from z / Z turns up to (z + 1) / Z. The `means` of a pair have the shape (M, Z, L).
    """

    def of_bin(self, number: int) -> Scan:
        """The Scan of the bin of this number from 0."""
        return Scan(self.head, self.name, self.start, self.samples, self.baselines, self.cells[..., number, :])

    @property
    def summed(self) -> Scan:
        """The Scan of all bins together, whose cells are those without bins."""
        cells = numpy.zeros(self.cells.shape[:3] + self.cells.shape[4:], CELL)
        for field in CELL.fields or ():
            self.cells[field].sum(axis=3, out=cells[field])
        return Scan(self.head, self.name, self.start, self.samples, self.baselines, cells)


@dataclasses.dataclass(frozen=True, eq=False)
class BinRecords:
    """A text of the cells of bins: the number of bins in a turn, its Head, and a BinScan for each scan that has a baseline."""

    bins: int
    head: Head
    scans: tuple[BinScan, ...]

    def scan(self, name: str | int) -> BinScan:
        """The first BinScan of this name, or the one of this number from 0; LookupError where there is none."""
        return named(self.scans, name)

    def of_bin(self, number: int) -> Records:
        """The Records of the bin of this number from 0."""
        return Records(self.head, tuple(scan.of_bin(number) for scan in self.scans))

    @property
    def summed(self) -> Records:
        """The Records of all bins together."""
        return Records(self.head, tuple(scan.summed for scan in self.scans))


def read(path: str) -> Records:
    """The Records of the record file at a path.

    A regular file is mapped, so that only what is looked at is read; anything else (a pipe, say) is read to its end. All the
    marks and numbers of the file are looked at before the answer, its cells are not.

    RecordFault where it is no record file; OSError where it cannot be read. A file that is changed while it is looked at has no
    defined content.
    """
    with open(path, "rb") as file:
        return from_bytes(content(file), path)


def read_bins(path: str) -> BinRecords:
    """The BinRecords of the text of the cells of bins at a path, read as `read` reads a record file; BinsFault where it is none."""
    with open(path, "rb") as file:
        return bins_from_bytes(content(file), path)


def read_either(path: str) -> Records | BinRecords:
    """What is at a path: BinRecords where it begins with the mark of a text of the cells of bins, else Records; RecordFault where it is neither."""
    with open(path, "rb") as file:
        data = content(file)
    return bins_from_bytes(data, path) if data[:len(BINS_MAGIC)] == BINS_MAGIC else from_bytes(data, path)


def content(file: BinaryIO) -> Data:
    """The bytes of an open file: a map of a regular file that is not empty, else what it gives."""
    state = os.fstat(file.fileno())
    if stat.S_ISREG(state.st_mode) and state.st_size > 0:
        return mmap.mmap(file.fileno(), 0, access=mmap.ACCESS_READ)
    return file.read()


def from_bytes(data: Data, path: str | None = None) -> Records:
    """The Records whose file has these bytes (`bytes`, or a map); RecordFault where it is none, which names the path."""
    try:
        return read_records(Front(data))
    except RecordFault as fault:
        fault.name_file(path)
        raise


def bins_from_bytes(data: Data, path: str | None = None) -> BinRecords:
    """The BinRecords whose text has these bytes; BinsFault where it is none, which names the path."""
    try:
        return read_bin_records(BinFront(data))
    except BinsFault as fault:
        fault.name_file(path)
        raise


def read_records(front: Front) -> Records:
    """The Records of a whole file."""
    front.magic()
    head = read_head(front)
    scans = read_scans(front, head)
    cells = read_all_cells(front, [shape_of(head, samples, baselines) + (head.lags,) for _, _, samples, baselines in scans])
    return Records(head, tuple(Scan(head, *scan, of_scan) for scan, of_scan in zip(scans, cells)))


def read_bin_records(front: BinFront) -> BinRecords:
    """The BinRecords of a whole text."""
    front.magic()
    bins = front.number(4, 2, MOST_BINS)
    head = read_head(front)
    scans = read_scans(front, head)
    cells = read_all_cells(front, [shape_of(head, samples, baselines) + (bins, head.lags) for _, _, samples, baselines in scans])
    return BinRecords(bins, head, tuple(BinScan(head, *scan, of_scan) for scan, of_scan in zip(scans, cells)))


def shape_of(head: Head, samples: int, baselines: Baselines) -> Shape:
    """The integrations, products and baselines of a scan."""
    return -(-samples // head.integration), len(head.products), len(baselines)


class Front:
    """The bytes of a file, read from the front, and the place up to which they are read."""

    MAGIC, MARK, PLACE = MAGIC, 1, PLACE  # what it begins with, what each record begins with, and its numbers
    FAULT: type[RecordFault] = RecordFault

    def __init__(self, data: Data) -> None:
        self.data = data
        self.at = 0

    def piece(self, size: int) -> bytes:
        """The next bytes. `Short` at the file's length where it ends before."""
        if len(self.data) - self.at < size:
            raise self.FAULT("Short", len(self.data))
        self.at += size
        return self.data[self.at - size:self.at]

    def magic(self) -> None:
        """The mark with which the file begins. `Magic` at 0 where it is another one."""
        if self.piece(8) != self.MAGIC:
            raise self.FAULT("Magic", 0)

    def number(self, size: int, least: int, greatest: int) -> int:
        """The next whole number of so many bytes. `Head` at its first byte where it is out of this range."""
        number = int.from_bytes(self.piece(size), "little")
        if not least <= number <= greatest:
            raise self.FAULT("Head", self.at - size)
        return number

    def name(self) -> str:
        """The next name: its length in two bytes, and its bytes."""
        return self.piece(self.number(2, 1, 255)).decode("utf-8", "surrogateescape")


class BinFront(Front):
    """The bytes of a text of the cells of bins."""

    MAGIC, MARK, PLACE = BINS_MAGIC, 2, BIN_PLACE
    FAULT = BinsFault


def read_head(front: Front) -> Head:
    """The Head, up to the number of scans."""
    lags = front.number(4, 2, 1024)
    if lags % 2 != 0:
        raise front.FAULT("Head", front.at - 4)
    integration = front.number(8, 1, 2 ** 36)
    rate = front.number(8, 1, 2 ** 32 - 1)
    stations = tuple(front.name() for _ in range(front.number(4, 1, 32)))
    products = tuple((front.name(), front.name()) for _ in range(front.number(4, 1, 256)))
    return Head(lags, integration, rate, stations, products)


def read_scans(front: Front, head: Head) -> list[tuple[str, int, int, Baselines]]:
    """Of each scan its name, start, samples and baselines."""
    return [read_scan(front, len(head.stations)) for _ in range(front.number(4, 0, 2 ** 32 - 1))]


def read_scan(front: Front, stations: int) -> tuple[str, int, int, Baselines]:
    """A scan's name, start, samples and baselines."""
    name = front.name()
    start = front.number(8, 0, 2 ** 32 - 1)
    samples = front.number(8, 0, 2 ** 40)
    baselines: list[tuple[int, int]] = []
    for _ in range(front.number(4, 1, 528)):
        before = baselines[-1] if baselines else (0, -1)
        a = front.number(4, before[0], stations - 1)
        b = front.number(4, before[1] + 1 if a == before[0] and baselines else a, stations - 1)
        baselines.append((a, b))
    return name, start, samples, tuple(baselines)


def read_all_cells(front: Front, shapes: Sequence[Shape]) -> list[NDArray[numpy.void]]:
    """The cells of each scan, of these shapes, and the end behind them."""
    cells = [read_cells(front, number, shape) for number, shape in enumerate(shapes)]
    read_end(front, sum(math.prod(shape[:-1]) for shape in shapes))
    return cells


def read_cells(front: Front, scan: int, shape: Shape) -> NDArray[numpy.void]:
    """The cells of a scan's records, of this shape, when each record has been found to be the one that is due."""
    size = front.PLACE.itemsize + shape[-1] * CELL.itemsize
    due = math.prod(shape[:-1])
    whole = min(due, (len(front.data) - front.at) // size)
    begins = front.at
    check_places(front, scan, shape, whole, size)
    if whole < due:
        check_part(front, scan, shape, whole)
    if due == 0:
        return numpy.zeros(shape, CELL)
    strides = (*(size * math.prod(shape[axis + 1:-1]) for axis in range(len(shape) - 1)), CELL.itemsize)
    return numpy.ndarray(shape, CELL, front.data, begins + front.PLACE.itemsize, strides)


def check_places(front: Front, scan: int, shape: Shape, whole: int, size: int) -> None:
    """Goes over so many whole records. `Order` at the first mark or number that is not the one due."""
    names = front.PLACE.names or ()
    for first in range(0, whole, CHECKED):
        count = min(CHECKED, whole - first)
        places: NDArray[numpy.void] = numpy.ndarray((count,), front.PLACE, front.data, front.at, (size,))
        due = places_due(front, scan, shape, numpy.arange(first, first + count, dtype=numpy.uint64))
        wrong = numpy.stack([places[name] != numbers for name, numbers in zip(names, due)], axis=1)
        if wrong.any():
            record, field = divmod(int(wrong.ravel().argmax()), len(names))
            raise front.FAULT("Order", front.at + record * size + sum(front.PLACE[before].itemsize for before in range(field)))
        front.at += count * size


def places_due(front: Front, scan: int, shape: Shape, records: NDArray[numpy.uint64]) -> list[NDArray[numpy.uint64]]:
    """The marks and each of the numbers of a scan's records of these numbers, uint64 of their shape."""
    due = []
    for many in reversed(shape[1:-1]):
        due.append(records % numpy.uint64(many))
        records = records // numpy.uint64(many)
    return [numpy.full_like(records, front.MARK), numpy.full_like(records, scan), records, *reversed(due)]


def check_part(front: Front, scan: int, shape: Shape, record: int) -> None:
    """Goes over the first part of a record, of this number, behind which the file ends: `Order`, or else `Short` at the file's length."""
    due = places_due(front, scan, shape, numpy.array([record], numpy.uint64))
    for field, numbers in enumerate(due):
        due_number(front, front.PLACE[field].itemsize, int(numbers[0]))
    raise front.FAULT("Short", len(front.data))


def due_number(front: Front, size: int, due: int) -> None:
    """Reads the next number. `Order` at its first byte where it is not the one due."""
    if int.from_bytes(front.piece(size), "little") != due:
        raise front.FAULT("Order", front.at - size)


def read_end(front: Front, records: int) -> None:
    """Reads the end, with the number of records, and nothing behind it."""
    due_number(front, 1, 0xFF)
    due_number(front, 8, records)
    if front.at < len(front.data):
        raise front.FAULT("AfterEnd", front.at)


def text(records: Records) -> Iterator[bytes]:
    """The lines that `dump` prints of a record file, each with its line feed, as an iterator of `bytes`."""
    def raw(name: str) -> bytes:
        return name.encode("utf-8", "surrogateescape")

    head = records.head
    yield b"lags %d integration %d rate %d\n" % (head.lags, head.integration, head.rate)
    for number, key in enumerate(head.stations):
        yield b"station %d %s\n" % (number, raw(key))
    for number, (x, y) in enumerate(head.products):
        yield b"product %d %s %s\n" % (number, raw(x), raw(y))
    for number, scan in enumerate(records.scans):
        yield b"scan %d %s %d %d\n" % (number, raw(scan.name), scan.start, scan.samples)
        for place, (a, b) in enumerate(scan.baselines):
            yield b"baseline %d %d %d %d\n" % (number, place, a, b)
    for number, scan in enumerate(records.scans):
        for record in numpy.ndindex(scan.cells.shape[:3]):
            for lag, (re, im, count) in zip(head.lag_numbers.tolist(), scan.cells[record].tolist()):
                yield b"%d %d %d %d %d %d %d %d\n" % (number, *record, lag, re, im, count)


@dataclasses.dataclass(frozen=True)
class Journal:
    """How far a journal is.

    blank         whether it is blank: it keeps nothing, and says nothing of its job
    kept          the epochs that it keeps, the first ones of the job or of its part
    epochs        these, and those that are left behind them, by the length that was asked for; None where it is blank
    kept_samples  the samples of the epochs that it keeps
    samples       the samples of the job's scans, or of its part, None where it is blank
    job           the job's text, bytes
    schedule      the schedule's text, bytes; empty where there is none
    recordings    the lengths of the recordings in bytes: by the job's stations, and of each by its files
    next          the place where the next epoch begins, None where it is blank or whole
    part          the numbers of the part's first integration and of that behind its last, None where it is blank or of all of the job
    """

    blank: bool
    kept: int = 0
    epochs: int | None = None
    kept_samples: int = 0
    samples: int | None = None
    job: bytes = b""
    schedule: bytes = b""
    recordings: tuple[int, ...] = ()
    next: jobs.Place | None = None
    part: tuple[int, int] | None = None

    @property
    def whole(self) -> bool:
        """Whether what it keeps covers its job or its part."""
        return not self.blank and self.next is None

    def __str__(self) -> str:
        return "a blank journal" if self.blank else f"{self.kept} of {self.epochs} epochs kept"


def journal(path: str, epoch: int | None = None) -> Journal:
    """How far the journal at a path is, a Journal. It may be asked while a `run` or a `shard` works on it; nothing is written.

    epoch  the samples of an epoch in force, as `--epoch` of `run`, `shard` and `status` says; those of the job's own line where it is left out

    JournalFault where the file is not blank and no journal; job.JobFault where its job and schedule cannot be read;
    OSError where the file cannot be read.
    """
    with journal_front(path) as front:
        found = read_identity(front)
        if found is None:
            return Journal(blank=True)
        rows = Rows(found, front.at)
        rows.go(front)
        return Journal(
            False, rows.kept, rows.epochs(epoch), rows.kept_samples, rows.plan.samples, found.job, found.schedule, found.recordings, rows.next, found.part,
        )


@dataclasses.dataclass(frozen=True, eq=False)
class KeptEpoch:
    """An epoch that a journal keeps.

    epoch  its job.Epoch: the numbers of its scan and integration, the sample at which it begins and the one before which it ends
    cells  an array of the dtype CELL and the shape (P, B, L): products, baselines, and lags from the lowest on. It is read only, and stands
           on the file.
    """

    epoch: jobs.Epoch
    cells: NDArray[numpy.void] = dataclasses.field(repr=False)


def kept_epochs(path: str) -> list[KeptEpoch]:
    """The epochs that the journal at a path keeps, each a KeptEpoch, in the job's order; none where it is blank. Else as `journal`."""
    with journal_front(path) as front:
        kept: list[KeptEpoch] = []
        found = read_identity(front)
        if found is not None:
            Rows(found, front.at).go(front, kept)
        return kept


@dataclasses.dataclass(frozen=True)
class Identity:
    """What a journal says of its job: its version's mark, the texts of job and schedule, the lengths of the recordings, and of a part of it the
    numbers of its first integration and of that behind its last."""

    magic: bytes
    job: bytes
    schedule: bytes
    recordings: tuple[int, ...]
    part: tuple[int, int] | None = None


def identity(path: str) -> Identity | None:
    """The Identity of the journal at a path; None where it is blank. JournalFault where it is no journal."""
    with journal_front(path) as front:
        return read_identity(front)


def read_identity(front: JournalFront) -> Identity | None:
    """The Identity with which a journal begins; None where it is blank. The first gate is next then."""
    if len(front.data) <= 1 or front.data[0] != 1:
        return None
    front.at = 1
    magic = bytes(front.piece(8))
    if magic not in JOURNAL_MAGICS:
        raise JournalFault("another mark", 1)
    part = (front.word(), front.word()) if magic == PART_MAGIC else None
    lengths = [front.word() for _ in range(3)]
    recordings = tuple(front.word() for _ in range(lengths.pop()))
    schedule, job = (bytes(front.piece(length)) for length in lengths)
    return Identity(magic, job, schedule, recordings, part)


@contextlib.contextmanager
def journal_front(path: str) -> Iterator[JournalFront]:
    """The bytes of the journal at a path. A fault that comes of them names it."""
    with open(path, "rb") as file:
        front = JournalFront(content(file))
    try:
        yield front
    except Fault as fault:
        fault.name_file(path)
        raise


class JournalFront(Front):
    """The bytes of a journal, read from the front."""

    def piece(self, size: int) -> bytes:
        if len(self.data) - self.at < size:
            raise JournalFault("the end", len(self.data))
        return super().piece(size)

    def word(self) -> int:
        return int.from_bytes(self.piece(8), "little")

    def range_at(self, plan: jobs.Plan, place: jobs.Place) -> jobs.Epoch:
        """The next range, of 28 bytes. JournalFault at its first byte that is none of the place, or at its end where no epoch of the job ends so."""
        ours = struct.pack("<IQQ", *place)
        for at, one in enumerate(self.data[self.at:self.at + len(ours)]):
            if one != ours[at]:
                raise JournalFault("an epoch that is not due", self.at + at)
        self.piece(len(ours))
        end = self.word()
        if not place.sample < end <= min(place.sample + jobs.MOST_EPOCH, plan.integration_end(place)):
            raise JournalFault("an epoch that is not due", self.at - 8)
        return jobs.Epoch(*place, end)


class Rows:
    """The epochs of a journal, gone over from the front: in the job's order, each behind its gate.

    Where the journal is of the second version or of a part of the job, a record begins with the range of its epoch. In one of the first version an
    epoch is that of the job's own line, up to a mark behind which records have their range.

    plan          what its job or its part comes to
    kept          the epochs that were found to be kept
    kept_samples  the samples in them
    kept_pairs    the pairs of samples, times lags, of all their baselines and products
    next          the place where the next one begins; None where they cover the job
    ranged        whether the next record has a range
    at            the place of the next gate in the file
    """

    def __init__(self, found: Identity, at: int) -> None:
        plan = jobs.plan(found.job, found.schedule)
        self.plan = plan.limited(*found.part) if found.part is not None else plan
        self.kept = 0
        self.kept_samples = 0
        self.kept_pairs = 0
        self.next = self.plan.first()
        self.ranged = found.magic != OLD_JOURNAL_MAGIC
        self.at = at

    def epochs(self, epoch: int | None = None) -> int:
        """The epochs that are kept, and those of so many samples that are left behind them; of the job's own line where no number is given."""
        return self.kept + self.plan.by(epoch).left(self.next)

    def go(self, front: JournalFront, kept: list[KeptEpoch] | None = None) -> None:
        """Goes on over what is kept by now, which joins a list, where there is one. JournalFault where it is no journal."""
        front.at = self.at
        while self.next is not None and front.at < len(front.data) and front.data[front.at] == 1:
            front.at += 1
            if self.ranged or not self.turns(front):
                self.keep(front, self.next, kept)
            self.at = front.at
        front.piece(1)

    def turns(self, front: JournalFront) -> bool:
        """Goes past a mark, behind which records have their range; whether there is one."""
        if int.from_bytes(front.data[front.at + 16:front.at + 24], "little") != MARK_COUNT:
            return False
        front.piece(CELL.itemsize)
        self.ranged = True
        return True

    def keep(self, front: JournalFront, place: jobs.Place, kept: list[KeptEpoch] | None) -> None:
        """Goes past the record of an epoch that begins at a place."""
        epoch = front.range_at(self.plan, place) if self.ranged else self.plan.cut(place)
        scan = self.plan.scans[epoch.scan]
        size = self.plan.cells_of(scan) * CELL.itemsize
        if len(front.data) - front.at < size:
            raise JournalFault("the end", len(front.data))
        if kept is not None:
            shape = len(self.plan.products), len(scan.baselines), self.plan.lags
            kept.append(KeptEpoch(epoch, numpy.ndarray(shape, CELL, front.data, front.at)))
        front.at += size
        self.kept += 1
        self.kept_samples += epoch.end - epoch.begin
        self.kept_pairs += (epoch.end - epoch.begin) * self.plan.cells_of(scan)
        self.next = self.plan.after(epoch)


class Follower:
    """Looks again and again at a journal that grows, and each time only at what is new.

    path  the journal, which need not be there yet
    """

    def __init__(self, path: str) -> None:
        self.path = path
        self.identity: Identity | None = None
        self.rows: Rows | None = None

    def look(self) -> Rows | None:
        """How far the journal is now; None where it is not there or blank. JournalFault where it is no journal."""
        try:
            with open(self.path, "rb") as file:
                front = JournalFront(content(file))
        except FileNotFoundError:
            return None
        try:
            if self.rows is None:
                self.identity = read_identity(front)
                if self.identity is None:
                    return None
                self.rows = Rows(self.identity, front.at)
            self.rows.go(front)
        except JournalFault as fault:
            if fault.kind == "the end" and os.path.getsize(self.path) > len(front.data):
                return self.rows  # it grew while it was looked at
            fault.name_file(self.path)
            raise
        except Fault as fault:
            fault.name_file(self.path)
            raise
        return self.rows
