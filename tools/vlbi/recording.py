"""Recordings: the shape of a station's frames, which frames a file holds and when they are of.

    shape = recording.Shape("Ef", 1, 2, 1, 5032, False)
    found = recording.look("Ef.vdif", shape, 2_000_000)
    found.frames[0]   # those of thread 0

A slot counts as the correlator counts it: it agrees with the shape and is not marked invalid (docs/MODEL.md).
"""
from __future__ import annotations

import calendar
import dataclasses
from collections.abc import Sequence

import numpy
from numpy.typing import NDArray

from vlbi.records import Data, content

Integers = NDArray[numpy.int64]
Words = NDArray[numpy.uint32]

LOOKED = 1 << 18    # headers that are looked at in one go
EPOCHS = numpy.array([calendar.timegm((2000 + number // 2, 7 if number % 2 else 1, 1, 0, 0, 0)) for number in range(64)], numpy.int64)


@dataclasses.dataclass(frozen=True)
class Shape:
    """What all frames of a station have alike: the fields of its `station` line."""

    key: str
    number: int
    bits: int
    channels: int
    frame: int
    legacy: bool = False

    @property
    def head(self) -> int:
        """The bytes of a header."""
        return 16 if self.legacy else 32

    @property
    def samples(self) -> int:
        """The complete samples in a frame."""
        return (self.frame - self.head) * 8 // (self.bits * self.channels)

    def line(self) -> str:
        """The job's line."""
        return f"station {self.key} {self.number} {self.bits} {self.channels} {self.frame}" + " legacy" * self.legacy


@dataclasses.dataclass(frozen=True, eq=False)
class Recording:
    """A file of a station's recording.

    path    its name
    size    its length in bytes
    slots   the whole slots in it, and `rest` the bytes behind the last one
    agree   how many of the slots that were looked at agree with the shape
    frames  by thread the numbers of its valid frames, rising and each once: frames since 1970-01-01
    a_second  the frames in a second
    """

    path: str
    size: int
    slots: int
    rest: int
    agree: int
    frames: dict[int, Integers] = dataclasses.field(repr=False)
    a_second: int

    @property
    def times(self) -> tuple[float, float] | None:
        """The seconds since 1970-01-01 at which its first frame begins and its last one ends; None where it has none."""
        there = [numbers for numbers in self.frames.values() if len(numbers)]
        if not there:
            return None
        return min(int(one[0]) for one in there) / self.a_second, (max(int(one[-1]) for one in there) + 1) / self.a_second


def look(path: str, shape: Shape, rate: int, ends: bool = False) -> Recording:
    """The Recording at a path; OSError where it cannot be read.

    rate  samples a second
    ends  look at the first and the last slots alone
    """
    with open(path, "rb") as file:
        data = content(file)
    slots, rest = divmod(len(data), shape.frame)
    a_second = max(rate // max(shape.samples, 1), 1)
    places = [range(0, slots)] if not ends or slots <= 2 * LOOKED else [range(0, LOOKED), range(slots - LOOKED, slots)]
    agree = 0
    found: dict[int, list[Integers]] = {}
    for place in places:
        for first in range(place.start, place.stop, LOOKED):
            words = headers(data, shape, first, min(LOOKED, place.stop - first))
            here = agreeing(words, shape, a_second)
            agree += int(here.sum())
            for thread, numbers in by_thread(words[here], a_second).items():
                found.setdefault(thread, []).append(numbers)
    frames = {thread: numpy.unique(numpy.concatenate(numbers)) for thread, numbers in sorted(found.items())}
    return Recording(path, len(data), slots, rest, agree, frames, a_second)


def headers(data: Data, shape: Shape, first: int, many: int) -> Words:
    """The first four words of so many slots: uint32 (N, 4)."""
    if many == 0:
        return numpy.zeros((0, 4), numpy.uint32)
    return numpy.ndarray((many, 4), numpy.dtype("<u4"), data, first * shape.frame, (shape.frame, 4)).astype(numpy.uint32)


def agreeing(words: Words, shape: Shape, a_second: int) -> NDArray[numpy.bool_]:
    """Which of these headers agree with a shape."""
    fields = numpy.stack([words[:, 0] >> 30 & 1, words[:, 2] & 0xFFFFFF, words[:, 2] >> 24 & 31, words[:, 3] >> 31,
                          words[:, 3] >> 26 & 31, words[:, 3] & 0xFFFF], axis=1)
    due = (int(shape.legacy), shape.frame // 8, shape.channels.bit_length() - 1, 0, shape.bits - 1, shape.number)
    found: NDArray[numpy.bool_] = (fields == numpy.array(due, numpy.uint32)).all(axis=1) & ((words[:, 1] & 0xFFFFFF) < a_second)
    return found


def by_thread(words: Words, a_second: int) -> dict[int, Integers]:
    """The numbers of the frames of these headers that are not marked invalid, by thread: frames since 1970-01-01."""
    valid = words[words[:, 0] >> 31 == 0].astype(numpy.int64)
    seconds = EPOCHS[valid[:, 1] >> 24 & 63] + (valid[:, 0] & 0x3FFFFFFF)
    numbers = seconds * a_second + (valid[:, 1] & 0xFFFFFF)
    threads = valid[:, 3] >> 16 & 1023
    return {int(thread): numbers[threads == thread] for thread in numpy.unique(threads)}


def first_shape(path: str, key: str) -> tuple[Shape, bool] | None:
    """The Shape that the first header of a file has, and whether its samples are complex; None where it has no header."""
    with open(path, "rb") as file:
        head = file.read(16)
    if len(head) < 16:
        return None
    words = [int.from_bytes(head[at:at + 4], "little") for at in range(0, 16, 4)]
    shape = Shape(key, words[3] & 0xFFFF, (words[3] >> 26 & 31) + 1, 1 << (words[2] >> 24 & 31), (words[2] & 0xFFFFFF) * 8, bool(words[0] >> 30 & 1))
    return shape, bool(words[3] >> 31)


def joined(recordings: Sequence[Recording], thread: int) -> Integers:
    """The numbers of a thread's frames in several files, rising and each once."""
    there = [one.frames[thread] for one in recordings if thread in one.frames]
    return numpy.unique(numpy.concatenate(there)) if there else numpy.zeros(0, numpy.int64)
