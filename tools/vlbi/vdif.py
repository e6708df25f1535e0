"""VDIF recordings: the frames of a station's samples, as they are written.

    frames = vdif.Frames(rate=2_000_000, channels=1, bits=2)
    recording = vdif.Recording(frames, 1, file)
    recording.go_to(start, 0)
    recording.add(codes)
"""
from __future__ import annotations

import calendar
import dataclasses
import struct
import time
from typing import BinaryIO

import numpy
from numpy.typing import NDArray

from vlbi.faults import Fault

Codes = NDArray[numpy.uint8]

HEAD_BYTES = 32
MOST_DATA = 8000  # bytes of data in a frame, at most


@dataclasses.dataclass(frozen=True)
class Frames:
    """What all frames of a recording have alike.

    rate      complete samples a second
    channels  their number
    bits      of a sample, 1, 2 or 4
    apart     whether each channel has a thread of its own
    """

    rate: int
    channels: int
    bits: int
    apart: bool = False

    @property
    def in_frame(self) -> int:
        """The channels in one frame: all, or one where each has a thread of its own."""
        return 1 if self.apart else self.channels

    @property
    def samples(self) -> int:
        """The complete samples in a frame: the most that fill whole words, go evenly into a second and are few enough bytes."""
        if self.in_frame not in (1, 2, 4, 8, 16, 32, 64):
            raise Fault(f"{self.in_frame} channels cannot stand in one frame: their number is a power of two up to 64, or they stand apart")
        word = max(1, 64 // (self.bits * self.in_frame))
        fits = [many for many in range(word, MOST_DATA * 8 // (self.bits * self.in_frame) + 1, word) if self.rate % many == 0]
        if not fits:
            raise Fault(f"no frame goes evenly into a second of {self.rate} samples")
        return fits[-1]

    @property
    def size(self) -> int:
        """The bytes of a frame, with its header."""
        return HEAD_BYTES + self.samples * self.bits * self.in_frame // 8


def packed(codes: Codes, bits: int) -> Codes:
    """The bytes of codes in their order, uint8: the lowest bits of a byte come first."""
    in_byte = 8 // bits
    shifts = numpy.arange(in_byte, dtype=numpy.uint8) * bits
    together: Codes = numpy.bitwise_or.reduce(codes.reshape(-1, in_byte) << shifts, axis=1)
    return together


class Recording:
    """A station's recording, to which frames are added in their order.

    number            that of the station in the headers
    missing, invalid  the parts of the frames that are left out, and that are marked invalid
    seed              of which frames these are
    """

    def __init__(self, frames: Frames, number: int, file: BinaryIO, missing: float = 0.0, invalid: float = 0.0, seed: int = 1) -> None:
        self.frames = frames
        self.number = number
        self.file = file
        self.missing, self.invalid = missing, invalid
        self.random = numpy.random.default_rng([seed, 2 ** 20 + number])
        self.start, self.next = 0, 0

    def go_to(self, start: int, frame: int) -> None:
        """The next frame is the one so many frames behind this second since 1970-01-01."""
        self.start, self.next = start, frame

    def add(self, codes: Codes) -> None:
        """Adds the frames of these codes, uint8 of the shape (complete samples, channels), of whole frames."""
        frames = self.frames
        for frame in codes.reshape(-1, frames.samples, frames.channels):
            if frames.apart:
                for channel in range(frames.channels):
                    self.add_frame(channel, packed(frame[:, channel], frames.bits))
            else:
                self.add_frame(0, packed(frame.ravel(), frames.bits))
            self.next += 1

    def add_frame(self, thread: int, data: Codes) -> None:
        frames = self.frames
        missing, invalid = self.random.random(2) < (self.missing, self.invalid)
        if not missing:
            second, number = divmod(self.next, frames.rate // frames.samples)
            epoch, epoch_second = reference_epoch(self.start)
            self.file.write(struct.pack(
                "<IIII16x",
                int(invalid) << 31 | self.start + second - epoch_second,
                epoch << 24 | number,
                (frames.in_frame.bit_length() - 1) << 24 | frames.size // 8,
                (frames.bits - 1) << 26 | thread << 16 | self.number,
            ))
            self.file.write(data.tobytes())


def reference_epoch(second: int) -> tuple[int, int]:
    """The number of the VDIF reference epoch in which a second since 1970-01-01 lies, and the second with which it begins."""
    year, month = time.gmtime(second)[:2]
    half = int(month > 6)
    if not 2000 <= year < 2032:
        raise Fault(f"no VDIF reference epoch in the year {year}")
    return 2 * (year - 2000) + half, calendar.timegm((year, 7 if half else 1, 1, 0, 0, 0))
