"""Journals of parts of a job that are merged, by the definitions alone: what each keeps, whether they make the job together, and its record file.

It knows the form of a journal by `checkpoint_journals` and that of a record file by `by_definition`, and shares no line with the program.
"""
from __future__ import annotations

import struct
from collections.abc import Sequence
from typing import Optional

import by_definition
import whole_calls
from by_definition import Cell
from checkpoint_journals import Job, Kept, Other, Part, Place, difference, find
from whole_journals import SummedJob

MARK = b"VLBISHD1"
NUMBERS = 1 + len(MARK)  # place of the numbers of the part's first integration and of the first one behind it
FRONT = NUMBERS + 16


class NotMerged(Exception):
    """Journals that are not merged, and why."""

    def __str__(self) -> str:
        return f"14 vlbi: merge: {self.args[0]}"


def part_of(job: Job, image: bytes) -> Optional[Part]:
    """The part of a job of which a file says that it is the journal; none where it is blank."""
    if len(image) <= 1 or image[0] != 1:
        return None
    at = difference(image, 1, MARK)
    if at is None and len(image) < FRONT:
        at = len(image)
    if at is not None:
        raise Other(image, at)
    begin, end = struct.unpack_from("<QQ", image, NUMBERS)
    if not begin < end <= job.integrations():
        raise Other(image, NUMBERS)
    return Part(job, begin, end)


def kept_by(job: Job, name: str, image: bytes) -> list[Kept]:
    """The epochs that a file of this name keeps: none where it is blank."""
    try:
        part = part_of(job, image)
        journal = find(part, image) if part is not None else None
    except Other as other:
        raise NotMerged(f"NotShard {name} at byte {other.at}") from None
    return journal.kept if journal is not None else []


def epochs_in(kept: Sequence[Kept], place: Place) -> list[Kept]:
    """Those of the integration that begins at a place."""
    return [one for one in kept if one.epoch[:2] == place[:2]]


def covers(job: Job, kept: Sequence[Kept], place: Place) -> bool:
    """Whether kept epochs follow one another from a place to the end of its integration."""
    at = place.sample
    for one in epochs_in(kept, place):
        if one.epoch.begin != at:
            return False
        at = one.epoch.end
    return at == job.end(place)


def cells_in(kept: Sequence[Kept], place: Place) -> list[Cell]:
    """The cells of an integration that is covered: what those of its epochs add up to."""
    return [wrapped(*map(sum, zip(*cells))) for cells in zip(*(one.cells for one in epochs_in(kept, place)))]


def wrapped(re: int, im: int, count: int) -> Cell:
    """A cell of 64 bits each."""
    return (re + 2**63) % 2**64 - 2**63, (im + 2**63) % 2**64 - 2**63, count % 2**64


def covering(job: Job, keeps: Sequence[Sequence[Kept]], place: Place) -> list[list[Cell]]:
    """The cells of an integration in each journal that covers it."""
    return [cells_in(kept, place) for kept in keeps if covers(job, kept, place)]


def compare(job: Job, number: int, there: Sequence[Sequence[Cell]]) -> None:
    """Looks whether journals agree in an integration, by its cells in those that cover it."""
    if not there:
        raise NotMerged(f"Uncovered {number}")
    first = there[0]
    differing = [(at, other) for at in range(len(first)) for other in range(len(there)) if there[other][at] != first[at]]
    if differing:
        at, other = differing[0]
        cells = " ".join(str(one) for cell in (first[at], there[other][at]) for one in cell)
        raise NotMerged(f"Differs {number} {at // job.lags} {at % job.lags - job.lags // 2} {cells}")


def record_file(job: SummedJob, named: Sequence[tuple[str, bytes]]) -> tuple[bytes, list[Cell]]:
    """The record file, and its cells, that files make together which have these names and bytes."""
    keeps = [kept_by(job, name, image) for name, image in named]
    merged = []
    for number, place in enumerate(job.begins(0, job.integrations())):
        there = covering(job, keeps, place)
        compare(job, number, there)
        merged.append((place.scan, place.m, there[0]))
    return by_definition.record_file(job.plan, merged)


def merge(job: SummedJob, named: Sequence[tuple[str, bytes]]) -> str:
    """What is printed of a call that merges these."""
    try:
        return whole_calls.told(*record_file(job, named))
    except NotMerged as fault:
        return str(fault)
