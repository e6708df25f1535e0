"""The certificates that `vlbi JOURNAL fringe` writes of the peaks of a record file.

    found = certificate.read("sky.peaks", records.read("sky.vis"))
    peak = found.peaks[scan, product, baseline]
    print(peak.lag, peak.microseconds, peak.rate, peak.phase)

A certificate is read beside the record file that it is of, and refused at the first line that is not of the form that is due there.
Whether the lines are true is not looked at: that is `vlbi JOURNAL verify`.
"""
from __future__ import annotations

import dataclasses
import io
import itertools
import math
import re
from collections.abc import Iterable, Iterator

from vlbi.faults import Fault
from vlbi.records import Head, Records
from vlbi.words import RANGES

SECTORS = 16  # of a turn
SUMS = (1 - 2 ** 63, 2 ** 63 - 1)  # the range of each part of a sum
SHOWN = 60    # characters of a wrong line that are shown
NUMBER = re.compile("0|-?[1-9][0-9]{0,19}")


class CertificateFault(Fault):
    """A text that is no certificate of a record file.

    line  the number of the first line that is not the one due, from 1
    why   what is wrong with it, in words
    """

    def __init__(self, line: int, why: str) -> None:
        super().__init__(f"no certificate of these records: line {line}: {why}")
        self.line = line
        self.why = why


@dataclasses.dataclass(frozen=True)
class Peak:
    """The point of greatest power of a scan, product and baseline, where the certificate is right.

    head    the Head of the record file
    divide  the grid's divisor
    lag     in samples
    step    the rate on the grid: from one integration to the next it turns by step / (16 * divide) of a turn
    re, im  the sum at this lag and rate
    """

    head: Head = dataclasses.field(repr=False)
    divide: int = dataclasses.field(repr=False)
    lag: int
    step: int
    re: int
    im: int

    @property
    def microseconds(self) -> float:
        """The lag in microseconds: how much later than the job says the second station got the wave, or how much further its clock is ahead."""
        return self.lag * 1e6 / self.head.rate

    @property
    def rate(self) -> float:
        """The residual rate in hertz, of the sign of `vlbi.fringe`; rates a whole turn each integration apart are one to the records."""
        return self.step * self.head.rate / (SECTORS * self.divide * self.head.integration)

    @property
    def phase(self) -> float:
        """The phase of the sum in degrees, that of the fringe in the first integration.

        Cells are turned back by whole sectors, rounded down: that leaves up to 11.25 degrees more than a fringe of this very rate has.
        """
        return math.degrees(math.atan2(self.im, self.re))


@dataclasses.dataclass(frozen=True)
class Certificate:
    """A certificate of a record file.

    rates   W of its grid: its rates are the steps from -W to W
    divide  the grid's divisor
    peaks   the Peak of each scan, product and baseline, by their numbers from 0
    """

    rates: int
    divide: int
    peaks: dict[tuple[int, int, int], Peak] = dataclasses.field(repr=False)


def read(path: str, records: Records) -> Certificate:
    """The Certificate in the file at a path, of these Records; CertificateFault where it is none, which names the path."""
    try:
        with open(path, "rb") as file:
            return from_lines(file, records)
    except Fault as fault:
        fault.name_file(path)
        raise


def from_bytes(text: bytes, records: Records) -> Certificate:
    """The Certificate with this text, of these Records; CertificateFault where it is none."""
    return from_lines(io.BytesIO(text), records)


def from_lines(given: Iterable[bytes], records: Records) -> Certificate:
    """The Certificate with these lines, each with its line feed."""
    lines = Lines(given)
    rates, divide = lines.numbers("grid", {"W": RANGES["--rates"], "D": RANGES["--divide"]})
    half = records.head.lags // 2
    ranges = {"LAG": (-half, half - 1), "RATE": (-rates, rates), "RE": SUMS, "IM": SUMS}
    peaks = {}
    for place in places(records):
        peaks[place] = Peak(records.head, divide, *lines.numbers("peak {} {} {}".format(*place), ranges))
        for lag in range(-half, half):
            lines.either(f"lag {lag} bound", f"lag {lag} grid")
    lines.end()
    return Certificate(rates, divide, peaks)


def places(records: Records) -> Iterator[tuple[int, int, int]]:
    """The numbers of each scan, product and baseline, in the order of the records."""
    for number, scan in enumerate(records.scans):
        for product, baseline in itertools.product(range(len(records.head.products)), range(len(scan.baselines))):
            yield number, product, baseline


class Lines:
    """The lines of a certificate, read from the front."""

    def __init__(self, given: Iterable[bytes]) -> None:
        self.given = iter(given)
        self.number = 0

    def next(self, due: str) -> str:
        """The next line without its line feed, where `due` is due."""
        self.number += 1
        line = next(self.given, b"").decode("utf-8", "replace")
        if line.endswith("\n"):
            return line[:-1]
        raise CertificateFault(self.number, f"`{line[:SHOWN]}` has no line feed" if line else f"the text ends where `{due}` is due")

    def numbers(self, front: str, ranges: dict[str, tuple[int, int]]) -> list[int]:
        """The numbers of the next line: behind these words those of these names, each in its range."""
        due = " ".join([front, *ranges])
        line = self.next(due)
        words = line[len(front) + 1:].split(" ") if line.startswith(f"{front} ") else []
        if len(words) != len(ranges) or not all(map(NUMBER.fullmatch, words)):
            raise self.fault(line, due)
        numbers = list(map(int, words))
        for number, (name, (least, greatest)) in zip(numbers, ranges.items()):
            if not least <= number <= greatest:
                raise CertificateFault(self.number, f"{name} is {number}, and goes from {least} to {greatest}")
        return numbers

    def either(self, *due: str) -> None:
        """Goes past the next line, which is one of these."""
        said = "` or `".join(due)
        line = self.next(said)
        if line not in due:
            raise self.fault(line, said)

    def fault(self, line: str, due: str) -> CertificateFault:
        return CertificateFault(self.number, f"`{line[:SHOWN]}` stands where `{due}` is due")

    def end(self) -> None:
        """Finds no line more."""
        if next(self.given, b""):
            raise CertificateFault(self.number + 1, "no line is due any more")
