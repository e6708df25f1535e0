"""Delays of the text `.im` of the correlator DiFX, for `vlbi.model`.

    given = im.read("night.im", schedule)

Its delays are polynomials in microseconds, each for some seconds from a modified Julian day and a second of it on, and positive where the
station gets the wave *earlier* than the centre of the earth; they have the atmosphere that the file's program gave them. Here they are in
seconds and positive where it is late. Of several phase centres the first counts.
"""
from __future__ import annotations

import dataclasses
import fractions
import math
import re
from collections.abc import Sequence

import numpy

from vlbi import model, vex
from vlbi.faults import Fault
from vlbi.job import MOST_TERMS

Reals = model.Reals
Terms = tuple[fractions.Fraction, ...]

UNIX_MJD = 40587
UP = 2.0                # degrees of elevation above which the sign of a delay is certain
DELAY, PLACES, ELEVATIONS = "DELAY (us)", ("U (m)", "V (m)", "W (m)"), ("EL GEOM", "EL CORR")


class ImFault(Fault):
    """A text that is no `.im` text, or that lacks what is asked of it."""


@dataclasses.dataclass
class Piece:
    """A polynomial's stretch: its begin and end in seconds since 1970-01-01, its scan's number.

    terms  by the numbers of phase centre and telescope and the quantity's name, as the file has them
    """

    begin: int
    end: int
    scan: int
    terms: dict[tuple[int, int, str], Terms] = dataclasses.field(default_factory=dict)

    def of(self, telescope: int, quantity: str) -> Terms | None:
        """The terms of a telescope: those of the first phase centre, or else of where the antennas point."""
        return self.terms.get((1, telescope, quantity)) or self.terms.get((0, telescope, quantity))


class Reader:
    """Goes over the lines of a text and keeps its pieces."""

    def __init__(self) -> None:
        self.telescopes: dict[str, int] = {}
        self.targets: dict[int, set[str]] = {}
        self.seconds = 0
        self.day = 0
        self.pieces: list[Piece] = []

    def take(self, word: str, value: str) -> None:
        """One more line, in its two parts; ValueError where a number is none."""
        found = re.fullmatch(r"TELESCOPE (\d+) NAME", word)
        if found:
            self.telescopes[value.lower()] = int(found.group(1))
        found = re.fullmatch(r"SCAN (\d+) (?:POINTING SRC|PHS CTR \d+ SRC)", word)
        if found:
            self.targets.setdefault(int(found.group(1)), set()).add(value.lower())
        found = re.fullmatch(r"SCAN (\d+) POLY \d+ (MJD|SEC)", word)
        if found:
            self.begin(int(found.group(1)), found.group(2), int(value))
        found = re.fullmatch(r"SRC (\d+) ANT (\d+) (.+)", word)
        if found:
            self.terms(int(found.group(1)), int(found.group(2)), found.group(3), value)
        if word == "INTERVAL (SECS)":
            self.seconds = int(value)

    def begin(self, scan: int, word: str, number: int) -> None:
        if word == "MJD":
            self.day = number
        else:
            second = (self.day - UNIX_MJD) * 86400 + number
            self.pieces.append(Piece(second, second + self.seconds, scan))

    def terms(self, centre: int, telescope: int, quantity: str, value: str) -> None:
        if not self.pieces:
            raise ValueError("terms before any SCAN .. POLY .. SEC")
        if quantity in (DELAY, *PLACES, *ELEVATIONS):
            self.pieces[-1].terms[centre, telescope, quantity] = tuple(fractions.Fraction(one) for one in value.split())


def pieces_of(text: str, path: str) -> Reader:
    """What a text states; ImFault names the line that cannot be read."""
    reader = Reader()
    for number, line in enumerate(text.splitlines(), 1):
        word, _, value = line.partition(":")
        try:
            reader.take(word.strip(), value.strip())
        except ValueError as error:
            raise ImFault(f"line {number}: {error}", path) from None
    if not reader.pieces or not reader.telescopes or reader.seconds < 1:
        raise ImFault("no .im text: it lacks TELESCOPE, INTERVAL (SECS) or SCAN .. POLY lines", path)
    return reader


class Given:
    """The delays of a text `.im`."""

    def __init__(self, text: str, path: str, schedule: vex.Schedule) -> None:
        self.path = path
        self.schedule = schedule
        self.found = pieces_of(text, path)

    @property
    def words(self) -> str:
        return f"the delays of {self.path} against the centre of the earth"

    @property
    def notes(self) -> tuple[str, ...]:
        return ()

    def telescope(self, key: str) -> int:
        """The number of a station: of the telescope of its key, or of its site's name."""
        names = [key.lower()]
        if key.lower() not in self.found.telescopes and key in self.schedule.stations:
            names.append(self.schedule.site(key).name.lower())
        for name in names:
            if name in self.found.telescopes:
                return self.found.telescopes[name]
        raise ImFault(f"no telescope {key}", self.path)

    def pieces(self, part: model.Part) -> list[Piece]:
        """The pieces of a part's source and station that reach into it, by time."""
        telescope = self.telescope(part.key)
        names = {part.target.lower(), part.source.name.lower()}
        return sorted(
            (one for one in self.found.pieces if one.begin < part.end and one.end > part.begin and one.of(telescope, DELAY)
             and names & self.found.targets.get(one.scan, set())),
            key=lambda one: one.begin,
        )

    def cuts(self, part: model.Part) -> list[int]:
        return [one.begin for one in self.pieces(part)]

    def terms(self, part: model.Part, quantity: str) -> Terms:
        """The terms of a quantity over a part that has been cut, by powers of the seconds behind its begin."""
        for piece in reversed(self.pieces(part)):
            terms = piece.of(self.telescope(part.key), quantity)
            if piece.begin <= part.begin and piece.end >= part.end and terms:
                return moved(terms, fractions.Fraction(part.begin - piece.begin))
        raise self.lacking(part, quantity)

    def fit(self, part: model.Part) -> model.Fit:
        terms = self.terms(part, DELAY)
        if len(terms) > MOST_TERMS:
            raise ImFault(f"polynomials have {len(terms)} terms, and a job's at most {MOST_TERMS}", self.path)
        self.check_sign(part, terms)
        coefficients = tuple(float(-term / 10 ** 6) for term in terms)
        return model.Fit(part, coefficients, 0.0)

    def check_sign(self, part: model.Part, terms: Terms) -> None:
        """ImFault where a source is up and the station gets its wave later than the centre: then the sign is another one."""
        for piece in self.pieces(part)[:1]:
            for quantity in ELEVATIONS:
                elevation = piece.of(self.telescope(part.key), quantity)
                delay = piece.of(self.telescope(part.key), DELAY)
                if elevation and delay and elevation[0] > UP and delay[0] < 0:
                    high = f"{float(elevation[0]):.1f} degrees"
                    raise ImFault(f"the delay of {part.key} is negative at an elevation of {high}, and should be positive", self.path)

    def places(self, part: model.Part, behind: Reals) -> tuple[Reals, Reals]:
        """The delay, and u, v and w, w being towards the source; behind the last piece they go on as in it."""
        pieces = self.pieces(part)
        if not pieces:
            raise self.lacking(part, DELAY)
        reached = numpy.maximum(numpy.searchsorted([one.begin for one in pieces], part.begin + behind, side="right") - 1, 0)
        found = numpy.empty((len(behind), 1 + len(PLACES)))
        for number, piece in enumerate(pieces):
            rows = reached == number
            for column, quantity in enumerate((DELAY, *PLACES)):
                terms = piece.of(self.telescope(part.key), quantity)
                if terms is None:
                    raise self.lacking(part, quantity)
                found[rows, column] = model.polynomial([float(term) for term in terms], behind[rows] + (part.begin - piece.begin))
        delays, places = -found[:, 0] / 1e6, found[:, 1:]
        # w is the light way by which a station is nearer to the source: some programs write all three with the other sign
        return delays, places if numpy.sum(places[:, 2] * delays) <= 0 else -places

    def lacking(self, part: model.Part, quantity: str) -> ImFault:
        return ImFault(f"no {quantity} of {part.key} for {part.target} from {vex.vex_time(part.begin)} on, which scan {part.scan} needs", self.path)


def moved(terms: Terms, by: fractions.Fraction) -> Terms:
    """The same polynomial by powers of what is behind a later begin."""
    return tuple(
        sum((math.comb(power, down) * terms[power] * by ** (power - down) for power in range(down, len(terms))), fractions.Fraction(0))
        for down in range(len(terms))
    )


def read(path: str, schedule: vex.Schedule) -> Given:
    """The Given of a file; ImFault where it is none of its kind, OSError where it cannot be read."""
    with open(path, encoding="latin-1") as file:
        return Given(file.read(), path, schedule)
