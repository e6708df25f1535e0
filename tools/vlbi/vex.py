"""Schedules in VEX 1.5: what the correlator reads of them, and the sites, antennas, sources, clocks and earth orientation beside.

    schedule = vex.read("sky.vex")
    for scan in schedule.scans:
        print(scan.name, scan.start, [one.key for one in scan.passes])
    schedule.site("Ef").position

Tokens, statements and scans follow docs/VEX.md rule by rule, with the faults of the proved program and their bytes. The rest is read
when it is asked for. Names are texts; a byte that is no UTF-8 is kept as Python keeps it in file names (`surrogateescape`).
"""
from __future__ import annotations

import calendar
import dataclasses
import fractions
import functools
import math
import re
import time
from collections.abc import Callable, Iterable, Iterator, Mapping, Sequence
from typing import TypeVar

from vlbi.faults import Fault, PlacedFault

T = TypeVar("T")

SIGNS = {b"=": "Equals", b":": "Colon", b";": "Semicolon"}
FRAMING = ("def", "enddef", "scan", "endscan")
LONGEST_NAME = 255  # bytes
MOST_PARTS = 2 ** 62
LINEAR = {"H": "X", "V": "Y"}  # names of linear polarisations


class VexFault(PlacedFault):
    """A text that is no schedule: the first rule that it breaks, one of those of docs/VEX.md, and the byte at which."""


@dataclasses.dataclass(frozen=True)
class Token:
    """A token: its kind (`Word`, `Quoted`, `Literal`, `Equals`, `Colon` or `Semicolon`), its first byte, and its bytes."""

    kind: str
    at: int
    raw: bytes

    @property
    def text(self) -> str:
        return self.raw.decode("utf-8", "surrogateescape")

    @property
    def inner(self) -> str:
        """What a quoted text says, or a word."""
        return self.text[1:-1] if self.kind == "Quoted" else self.text


Value = tuple[Token, ...]  # the words and quoted texts between two colons


@dataclasses.dataclass(frozen=True)
class Statement:
    """An assignment, or a ref to a block: its word (`ref` for a ref), the block of a ref, its values, its first byte."""

    word: str
    target: str | None
    values: tuple[Value, ...]
    at: int


@dataclasses.dataclass
class Item:
    """A def or a scan: its name, its statements in their order, its first byte."""

    name: str
    at: int
    statements: list[Statement] = dataclasses.field(default_factory=list)

    def all(self, word: str, target: str | None = None) -> list[Statement]:
        """The assignments of this word, or the refs to this block."""
        return [one for one in self.statements if (one.word, one.target) == (word, target)]

    def first(self, word: str) -> Statement:
        """The first assignment of this word; ValueError where there is none."""
        for one in self.all(word):
            return one
        raise ValueError(f"there is no {word}")


@dataclasses.dataclass
class Block:
    """A block: what stands loose in it, its defs and its scans by name, in their order."""

    loose: list[Statement] = dataclasses.field(default_factory=list)
    defs: dict[str, Item] = dataclasses.field(default_factory=dict)
    scans: dict[str, Item] = dataclasses.field(default_factory=dict)


# Tokens

SPACE = re.compile(rb"[\t-\r ]+")
COMMENT = re.compile(rb"\*[^\n]*")
WORD = re.compile(rb"[^\x00- =:;*\x7f]+")
LITERAL = re.compile(rb"start_literal\(([^)\t-\r =:;]*)\)")
QUOTE_END = re.compile(rb'(?<!\\)"')


def tokens(text: bytes) -> Iterator[Token]:
    """The tokens of a text; VexFault at the first place that breaks a rule."""
    at = 0
    while at < len(text):
        passed = SPACE.match(text, at) or COMMENT.match(text, at)
        if passed:
            at = passed.end()
            continue
        token = token_at(text, at)
        yield token
        at += len(token.raw)


def token_at(text: bytes, at: int) -> Token:
    """The token that begins at this byte, which is no white space and no comment."""
    first = text[at:at + 1]
    if first in SIGNS:
        return Token(SIGNS[first], at, first)
    if first == b'"':
        end = QUOTE_END.search(text, at + 1)
        if not end:
            raise VexFault("OpenQuote", at)
        return Token("Quoted", at, text[at:end.end()])
    if text.startswith(b"start_literal(", at):
        return literal_at(text, at)
    word = WORD.match(text, at)
    if not word:
        raise VexFault("BadByte", at)
    return Token("Word", at, word.group())


def literal_at(text: bytes, at: int) -> Token:
    """The literal that begins at this byte."""
    begin = LITERAL.match(text, at)
    if begin:
        close = b"end_literal(" + begin.group(1) + b")"
        end = text.find(close, begin.end())
        if end >= 0:
            return Token("Literal", at, text[at:end + len(close)])
    raise VexFault("OpenLiteral", at)


# Statements

class Reader:
    """Goes over the statements of a text and keeps its blocks."""

    def __init__(self) -> None:
        self.blocks: dict[str, Block] = {}
        self.block: Block | None = None
        self.item: Item | None = None
        self.in_scan = False
        self.begun = False

    def take(self, statement: list[Token]) -> None:
        """One more statement, without its semicolon."""
        if not statement or len(statement) == 1 and statement[0].kind == "Literal":
            return
        at = statement[0].at
        if not self.begun:
            self.begun = True
            if [(token.kind, token.raw) for token in statement] != [("Word", b"VEX_rev"), ("Equals", b"="), ("Word", b"1.5")]:
                raise VexFault("Revision", at)
            return
        first, words = statement[0].text, [token.kind for token in statement]
        if words == ["Word"] and first.startswith("$"):
            self.open_block(first, at)
        elif words == ["Word", "Word"] and first in ("def", "scan"):
            self.open_item(first, statement[1].text, at)
        elif words == ["Word"] and first in ("enddef", "endscan"):
            self.close_item(first, at)
        else:
            entry = entry_of(statement)
            if entry:
                self.keep(entry)
            elif words[0] == "Word" and (first in FRAMING or first.startswith("$")):
                raise VexFault("Statement", at)

    def open_block(self, name: str, at: int) -> None:
        if self.item:
            raise VexFault("OpenDef", at)
        self.block = self.blocks.setdefault(name, Block())

    def open_item(self, word: str, name: str, at: int) -> None:
        if self.item:
            raise VexFault("OpenDef", at)
        if self.block is None:
            raise VexFault("Outside", at)
        self.in_scan = word == "scan"
        items = self.block.scans if self.in_scan else self.block.defs
        if name in items:
            raise VexFault("DoubleScan" if self.in_scan else "DoubleDef", at)
        self.item = items[name] = Item(name, at)

    def close_item(self, word: str, at: int) -> None:
        if self.item is None:
            raise VexFault("Outside", at)
        if self.in_scan != (word == "endscan"):
            raise VexFault("OpenDef", at)
        self.item = None

    def keep(self, entry: Statement) -> None:
        if self.block is None:
            raise VexFault("Outside", entry.at)
        (self.item.statements if self.item else self.block.loose).append(entry)

    def end(self, rest: list[Token], length: int) -> None:
        """The text's end: the tokens that are left behind the last semicolon, and its length in bytes."""
        if not self.begun and not rest:
            raise VexFault("Revision", length)
        if rest:
            raise VexFault("Statement", rest[0].at)
        if self.item:
            raise VexFault("OpenDef", length)


def entry_of(statement: list[Token]) -> Statement | None:
    """The ref or the assignment that a statement is; None where it is neither."""
    first = statement[0]
    kinds = [token.kind for token in statement]
    if kinds[:3] == ["Word", "Word", "Equals"] and first.text == "ref" and statement[1].text.startswith("$"):
        target, rest = statement[1].text, statement[3:]
    elif kinds[:2] == ["Word", "Equals"] and first.text not in (*FRAMING, "ref"):
        target, rest = None, statement[2:]
    else:
        return None
    if any(token.kind not in ("Word", "Quoted", "Colon") for token in rest):
        return None
    return Statement(first.text, target, tuple(values_of(rest)), first.at)


def values_of(row: Iterable[Token]) -> Iterator[Value]:
    """The values that colons part."""
    value: list[Token] = []
    for token in row:
        if token.kind == "Colon":
            yield tuple(value)
            value = []
        else:
            value.append(token)
    yield tuple(value)


def blocks_of(text: bytes) -> dict[str, Block]:
    """The blocks of a text by name, in the order in which they begin; VexFault where it breaks a rule of tokens or statements."""
    reader = Reader()
    statement: list[Token] = []
    for token in list(tokens(text)):
        if token.kind == "Semicolon":
            reader.take(statement)
            statement = []
        else:
            statement.append(token)
    reader.end(statement, len(text))
    return reader.blocks


# Words, numbers, times

def word_of(value: Value) -> str | None:
    """The word that a value is; None where it is no single word."""
    return value[0].text if len(value) == 1 and value[0].kind == "Word" else None


def decimal(number: str) -> fractions.Fraction:
    """A number as jobs and schedules write it: a sign, digits, at most one point; ValueError where it is none."""
    if not re.fullmatch(r"[+-]?(\d+\.?\d*|\.\d+)", number, re.ASCII):
        raise ValueError(f"no number: {number}")
    return fractions.Fraction(number.removesuffix("."))


def quantity(value: Value, units: Mapping[str, int]) -> int:
    """The whole number of parts of a quantity; each unit has so many parts. ValueError where it is none, or not whole, or too large."""
    words = [token.text for token in value if token.kind == "Word"]
    if len(words) != len(value) or not 1 <= len(words) <= 2:
        raise ValueError("no quantity")
    if len(words) == 1:
        front = re.match(r"[-+.0-9]*", words[0])
        split = front.end() if front else 0
        words = [words[0][:split], words[0][split:]]
    number = decimal(words[0])
    if words[1] not in units or (number * 10 ** 6).denominator != 1:
        raise ValueError(f"no such unit, or too many places: {' '.join(words)}")
    parts = number * units[words[1]]
    if parts.denominator != 1 or abs(parts) >= MOST_PARTS:
        raise ValueError(f"no whole number: {' '.join(words)}")
    return int(parts)


HERTZ = {"Hz": 1, "kHz": 10 ** 3, "MHz": 10 ** 6, "GHz": 10 ** 9}
SAMPLES_A_SECOND = {"Ms/sec": 10 ** 6}
MICROSECONDS = {"sec": 10 ** 6}


def vex_time(second: int) -> str:
    """The time `YYYYyDDDdHHhMMmSSs` of a whole second since 1970-01-01."""
    return time.strftime("%Yy%jd%Hh%Mm%Ss", time.gmtime(second))


def second_of(text: str) -> int:
    """The whole second since 1970-01-01 of a time `YYYYyDDDdHHhMMmSSs`; ValueError where it is none of 1970 to 2099."""
    found = re.fullmatch(r"(\d{4})y(\d{3})d(\d\d)h(\d\d)m(\d\d)(?:\.0+)?s", text, re.ASCII)
    if not found:
        raise ValueError(f"no time: {text}")
    year, day, hour, minute, second = (int(part) for part in found.groups())
    if not (1970 <= year <= 2099 and 1 <= day <= 365 + calendar.isleap(year) and hour < 24 and minute < 60 and second < 60):
        raise ValueError(f"no time from 1970 to 2099: {text}")
    return calendar.timegm((year, 1, 1, hour, minute, second)) + (day - 1) * 86400


# The scans

@dataclasses.dataclass(frozen=True)
class Channel:
    """A channel: its name, the sky frequency of its edge in hertz, its sideband `U` or `L`, its bandwidth in hertz."""

    name: str
    hertz: int
    side: str
    bandwidth: int


@dataclasses.dataclass(frozen=True)
class Setup:
    """What a station records in a mode: samples a second, and the channels in their order."""

    rate: int
    channels: tuple[Channel, ...]


@dataclasses.dataclass(frozen=True)
class Pass:
    """A station's part of a scan: its key, begin and end in microseconds behind the scan's start, and what it records."""

    key: str
    begin: int
    end: int
    setup: Setup


@dataclasses.dataclass(frozen=True)
class Scan:
    """A scan: its name, its start in seconds since 1970-01-01, the names of its mode and sources, its passes in their order."""

    name: str
    start: int
    mode: str
    sources: tuple[str, ...]
    passes: tuple[Pass, ...]

    def ends(self, keys: Iterable[str]) -> dict[str, int]:
        """The sample before which the part of each of these stations ends, of those that stand in the scan, by the passes' order."""
        wanted = set(keys)
        return {one.key: one.end * one.setup.rate // 10 ** 6 for one in self.passes if one.key in wanted}


@dataclasses.dataclass(frozen=True)
class Site:
    """A site: position in metres and velocity in metres a year (None where there is none), both earth-fixed x, y, z.

    epoch  when it stands at the position, as a modified Julian day; None where the schedule does not say
    """

    name: str
    position: tuple[float, float, float]
    velocity: tuple[float, float, float] | None
    epoch: float | None


@dataclasses.dataclass(frozen=True)
class Antenna:
    """An antenna: its axes (`az`, `el` or `ha`, `dec` ..), the offset between them in metres, its diameter in metres or None."""

    name: str
    axes: tuple[str, str]
    offset: float
    diameter: float | None


@dataclasses.dataclass(frozen=True)
class Source:
    """A source: right ascension and declination in radians, and the frame that they are in, as `J2000`."""

    name: str
    right_ascension: float
    declination: float
    frame: str


@dataclasses.dataclass(frozen=True)
class Clock:
    """A clock that is ahead: from the second `since` on it is so many seconds early at `at`, and gains `rate` seconds in each.

    since, at  seconds since 1970-01-01
    """

    since: float
    early: float
    at: float
    rate: float


@dataclasses.dataclass(frozen=True)
class EarthOrientation:
    """A day's earth orientation: the modified Julian day, TAI-UTC and UT1-UTC in seconds, the pole's x and y in radians."""

    day: float
    tai_utc: float
    ut1_utc: float
    pole_x: float
    pole_y: float


class Schedule:
    """A schedule: its `blocks` by name, and what they say. `path` is the file that faults name."""

    def __init__(self, blocks: dict[str, Block], path: str | None = None) -> None:
        self.blocks = blocks
        self.path = path

    def __repr__(self) -> str:
        return f"Schedule(path={self.path!r}, blocks={list(self.blocks)})"

    @functools.cached_property
    def scans(self) -> tuple[Scan, ...]:
        """The scans, in their order; VexFault for the first rule that one breaks."""
        if "$SCHED" not in self.blocks:
            raise VexFault("NoSched", 0, self.path)
        try:
            return tuple(self.scan_of(item) for item in self.blocks["$SCHED"].scans.values())
        except VexFault as fault:
            fault.name_file(self.path)
            raise

    def defs(self, block: str) -> dict[str, Item]:
        """The defs of a block by name; none where it is not there."""
        return self.blocks[block].defs if block in self.blocks else {}

    def scan_of(self, item: Item) -> Scan:
        if byte_length(item.name) > LONGEST_NAME:
            raise VexFault("BadValue", item.at)
        start = only(item, "start")
        second = checked(start, lambda: second_of(single(lone(start))))
        named = only(item, "mode")
        mode = checked(named, lambda: single(lone(named)))
        if mode not in self.defs("$MODE"):
            raise VexFault("UnknownRef", named.at)
        parts = parts_of(item)
        passes = tuple(Pass(key, begin, end, self.setup(mode, key)) for key, (begin, end) in parts.items())
        sources = (word_of(one.values[0]) for one in item.all("source"))
        return Scan(item.name, second, mode, tuple(name for name in sources if name is not None), passes)

    def setup(self, mode: str, key: str) -> Setup:
        """What a station records in a mode."""
        return self.read_setup(self.covering(self.defs("$MODE")[mode], "$FREQ", key))

    def covering(self, mode: Item, target: str, key: str) -> Item:
        """The def of a block to which the one ref of a mode leads that covers a station."""
        refs = [ref for ref in mode.all("ref", target) if len(ref.values) == 1 or any(word_of(value) == key for value in ref.values[1:])]
        if not refs:
            raise VexFault("MissingStatement", mode.at)
        if len(refs) > 1:
            raise VexFault("DoubleStatement", refs[1].at)
        name = checked(refs[0], lambda: single(refs[0].values[0]))
        if name not in self.defs(target):
            raise VexFault("UnknownRef", refs[0].at)
        return self.defs(target)[name]

    def read_setup(self, item: Item) -> Setup:
        said = only(item, "sample_rate")
        rate = checked(said, lambda: within(quantity(lone(said), SAMPLES_A_SECOND), 1, 2 ** 32))
        channels: dict[str, Channel] = {}
        for one in item.all("chan_def"):
            channel = checked(one, functools.partial(channel_of, one))
            if channel.name in channels:
                raise VexFault("DoubleStatement", one.at)
            channels[channel.name] = channel
        return Setup(rate, tuple(channels.values()))

    # What the correlator does not read. A Fault names the def.

    @property
    def stations(self) -> tuple[str, ...]:
        """The keys of the block `$STATION`."""
        return tuple(self.defs("$STATION"))

    def of_station(self, key: str, target: str) -> Item | None:
        """The def of a block to which a station's ref leads; None where it has none."""
        station = self.named("$STATION", key)
        refs = station.all("ref", target)
        return self.named(target, word_of(refs[0].values[0]) or "") if refs else None

    def named(self, block: str, name: str) -> Item:
        if name not in self.defs(block):
            raise Fault(f"no {name} in {block}", self.path)
        return self.defs(block)[name]

    def site(self, key: str) -> Site:
        """The Site of a station of `$STATION`."""
        item = self.of_station(key, "$SITE")
        if item is None:
            raise Fault(f"station {key} has no ref $SITE", self.path)
        with Naming(self, "$SITE", item):
            velocity = item.all("site_velocity")
            epoch = item.all("site_position_epoch")
            return Site(
                first_text(item, "site_name") or item.name,
                three(item.first("site_position"), {"m": 1.0, "km": 1e3}),
                three(velocity[0], {"m/yr": 1.0, "cm/yr": 1e-2, "mm/yr": 1e-3}) if velocity else None,
                day_of(epoch[0].values[0]) if epoch else None,
            )

    def antenna(self, key: str) -> Antenna:
        """The Antenna of a station of `$STATION`."""
        item = self.of_station(key, "$ANTENNA")
        if item is None:
            raise Fault(f"station {key} has no ref $ANTENNA", self.path)
        with Naming(self, "$ANTENNA", item):
            axes = [single(value) for value in item.first("axis_type").values]
            offset, diameter = item.all("axis_offset"), item.all("antenna_diam")
            return Antenna(
                item.name,
                (axes[0], axes[1]),
                measured(offset[0].values[-1], LENGTHS) if offset else 0.0,
                measured(diameter[0].values[0], LENGTHS) if diameter else None,
            )

    def polarisations(self, mode: str, key: str) -> dict[str, str]:
        """The polarisation of each channel that a station records in a mode, `R`, `L`, `X` or `Y`, by the channel's name.

        It is that of the IF which `$BBC` and `$IF` say behind the channel; a channel of which they say none is not among them.
        """
        item = self.named("$MODE", mode)
        found = {}
        with Naming(self, "$MODE", item):
            feeds = {row[0]: row[2] for row in self.rows_for(item, "$IF", "if_def", key) if len(row) > 2}
            converters = {row[0]: feeds.get(row[2]) for row in self.rows_for(item, "$BBC", "BBC_assign", key) if len(row) > 2}
            for row in self.rows_for(item, "$FREQ", "chan_def", key):
                feed = converters.get(row[5]) if len(row) > 5 else None
                if feed is not None and len(row[4]) > 0:
                    found[row[4].removeprefix("&")] = LINEAR.get(feed, feed)
        return found

    def rows_for(self, mode: Item, target: str, word: str, key: str) -> list[list[str]]:
        """The values, as texts, of the assignments of a word in the first def of a block to which a ref of a mode leads that covers a station."""
        for ref in mode.all("ref", target):
            if len(ref.values) == 1 or any(word_of(value) == key for value in ref.values[1:]):
                item = self.named(target, word_of(ref.values[0]) or "")
                return [[" ".join(token.inner for token in value) for value in one.values] for one in item.all(word)]
        return []

    @property
    def sources(self) -> dict[str, Source]:
        """The Sources of the block `$SOURCE` by the names of their defs."""
        return {name: self.source(name) for name in self.defs("$SOURCE")}

    def source(self, name: str) -> Source:
        item = self.named("$SOURCE", name)
        with Naming(self, "$SOURCE", item):
            return Source(
                first_text(item, "source_name") or name,
                hours(single(item.first("ra").values[0])),
                degrees(single(item.first("dec").values[0])),
                first_text(item, "ref_coord_frame") or "J2000",
            )

    def clocks(self, key: str) -> tuple[Clock, ...]:
        """The Clocks of a station in their order: of the def to which its ref $CLOCK leads, or else of the def of its key."""
        item = self.of_station(key, "$CLOCK") if key in self.defs("$STATION") else None
        item = item or self.defs("$CLOCK").get(key)
        if item is None:
            return ()
        with Naming(self, "$CLOCK", item):
            return tuple(clock_of(one.values) for one in item.all("clock_early"))

    @property
    def earth_orientation(self) -> tuple[EarthOrientation, ...]:
        """The earth orientation of all defs of the block `$EOP`, by rising day; a day that stands twice counts once."""
        days: dict[float, EarthOrientation] = {}
        for item in self.defs("$EOP").values():
            with Naming(self, "$EOP", item):
                for one in orientation_of(item):
                    days.setdefault(one.day, one)
        return tuple(days[day] for day in sorted(days))


class Naming:
    """Inside it a value of another form, or one that is not there, is a Fault that names the def and the file."""

    def __init__(self, schedule: Schedule, block: str, item: Item) -> None:
        self.path, self.words = schedule.path, f"def {item.name} of {block} at byte {item.at}"

    def __enter__(self) -> None:
        return None

    def __exit__(self, kind: object, error: BaseException | None, trace: object) -> None:
        if isinstance(error, (ValueError, LookupError)) and not isinstance(error, Fault):
            said = str(error) if isinstance(error, ValueError) else "a value that is wanted is not there"
            raise Fault(f"{self.words}: {said}", self.path) from error


def read(path: str) -> Schedule:
    """The Schedule at a path; VexFault where it breaks a rule of tokens or statements, OSError where it cannot be read."""
    with open(path, "rb") as file:
        return from_bytes(file.read(), path)


def from_bytes(text: bytes, path: str | None = None) -> Schedule:
    """The Schedule of a text; VexFault where it breaks a rule of tokens or statements, which names the path."""
    try:
        return Schedule(blocks_of(text), path)
    except VexFault as fault:
        fault.name_file(path)
        raise


def chosen_scans(schedule: Schedule, names: Sequence[str]) -> list[Scan]:
    """The scans of these names, or all; Fault where there is none of a name."""
    there = {scan.name for scan in schedule.scans}
    for name in names:
        if name not in there:
            raise Fault(f"no scan {name}", schedule.path)
    return [scan for scan in schedule.scans if not names or scan.name in names]


def chosen_stations(schedule: Schedule, scans: Sequence[Scan], keys: Sequence[str]) -> list[str]:
    """These stations, or all of the scans, in the order in which they come; Fault where one is in none."""
    there = list(dict.fromkeys(one.key for scan in scans for one in scan.passes))
    for key in keys:
        if key not in there:
            raise Fault(f"no station {key} in the scans", schedule.path)
    return [key for key in there if not keys or key in keys]


def rate_of(schedule: Schedule, scans: Sequence[Scan], keys: Sequence[str]) -> int:
    """The samples a second of all these stations in all these scans; Fault where they differ, or where there is nothing."""
    rates = {one.setup.rate for scan in scans for one in scan.passes if one.key in keys}
    if len(rates) != 1:
        raise Fault(f"a job has one sample rate: these scans have {', '.join(map(str, sorted(rates))) or 'none'}", schedule.path)
    return rates.pop()


def byte_length(name: str) -> int:
    return len(name.encode("utf-8", "surrogateescape"))


def lone(statement: Statement) -> Value:
    """The one value of a statement; ValueError where it has more."""
    if len(statement.values) != 1:
        raise ValueError("more than one value")
    return statement.values[0]


def single(value: Value) -> str:
    """The word that a value is; ValueError where it is no single word."""
    word = word_of(value)
    if word is None:
        raise ValueError(f"no single word: {' '.join(token.text for token in value)}")
    return word


def within(number: int, least: int, past: int) -> int:
    if not least <= number < past:
        raise ValueError(f"out of range: {number}")
    return number


def only(item: Item, word: str) -> Statement:
    """The one assignment of this word."""
    found = item.all(word)
    if not found:
        raise VexFault("MissingStatement", item.at)
    if len(found) > 1:
        raise VexFault("DoubleStatement", found[1].at)
    return found[0]


def parts_of(item: Item) -> dict[str, tuple[int, int]]:
    """Begin and end of each station's part of a scan in microseconds behind its start, by key, in their order."""
    parts: dict[str, tuple[int, int]] = {}
    for one in item.all("station"):
        key, begin, end = checked(one, functools.partial(part_of, one.values))
        if key in parts:
            raise VexFault("StationTwice", one.at)
        if not 0 <= begin <= end:
            raise VexFault("BadRange", one.at)
        parts[key] = (begin, end)
    return parts


def part_of(values: tuple[Value, ...]) -> tuple[str, int, int]:
    """Key, begin and end of a `station` statement; IndexError or ValueError where it has another form."""
    return single(values[0]), quantity(values[1], MICROSECONDS), quantity(values[2], MICROSECONDS)


def channel_of(statement: Statement) -> Channel:
    """The channel of a `chan_def` statement; IndexError or ValueError where it has another form."""
    values = statement.values
    frequency = within(quantity(values[1], HERTZ), 0, 2 ** 40)
    side = single(values[2])
    bandwidth = within(quantity(values[3], HERTZ), 0, 2 ** 40)
    link = single(values[4])
    name = link[1:] if link.startswith("&") else link
    if side not in ("U", "L") or not 1 <= byte_length(name) <= LONGEST_NAME:
        raise ValueError("no channel")
    return Channel(name, frequency, side, bandwidth)


def clock_of(values: tuple[Value, ...]) -> Clock:
    """The clock of a `clock_early` statement: valid from, how early, and perhaps the epoch of that and its rate."""
    since = loose_second(single(values[0]))
    rated = len(values) > 3 and len(values[3]) > 0
    return Clock(
        since,
        measured(values[1], DURATIONS),
        loose_second(single(values[2])) if len(values) > 2 and values[2] else since,
        measured(values[3], RATES) if rated else 0.0,
    )


def orientation_of(item: Item) -> Iterator[EarthOrientation]:
    """The days of a def of `$EOP`."""
    first = day_of(item.first("eop_ref_epoch").values[0])
    step = measured(item.first("eop_interval").values[0], DURATIONS) / 86400 if item.all("eop_interval") else 1.0
    tai_utc = measured(item.first("TAI-UTC").values[0], DURATIONS)
    rows = [item.first(word).values for word in ("ut1-utc", "x_wobble", "y_wobble")]
    for number in range(len(rows[0])):
        yield EarthOrientation(
            first + number * step,
            tai_utc,
            measured(rows[0][number], DURATIONS),
            measured(rows[1][number], ANGLES),
            measured(rows[2][number], ANGLES),
        )


def checked(statement: Statement, read_value: Callable[[], T]) -> T:
    """What a value comes to; `BadValue` at the statement where it has another form."""
    try:
        return read_value()
    except (IndexError, ValueError):
        raise VexFault("BadValue", statement.at) from None


# Quantities that the correlator does not read: numbers may have exponents

ARC_SECOND = math.pi / 648000
LENGTHS = {"m": 1.0, "km": 1e3, "cm": 1e-2, "mm": 1e-3}
DURATIONS = {"sec": 1.0, "s": 1.0, "msec": 1e-3, "usec": 1e-6, "nsec": 1e-9, "min": 60.0, "hr": 3600.0, "day": 86400.0}
RATES = {"sec/sec": 1.0, "usec/sec": 1e-6, "nsec/sec": 1e-9, "psec/sec": 1e-12, "": 1.0}
ANGLES = {"asec": ARC_SECOND, "arcsec": ARC_SECOND, "masec": ARC_SECOND / 1e3, "mas": ARC_SECOND / 1e3, "deg": math.pi / 180, "rad": 1.0}


def measured(value: Value, units: Mapping[str, float]) -> float:
    """A number with its unit, in one word or two, in parts of which each unit has so many; ValueError where it is none."""
    text = "".join(token.text for token in value)
    found = re.fullmatch(r"([-+]?(?:\d+\.?\d*|\.\d+)(?:[eE][-+]?\d+)?)(.*)", text, re.ASCII)
    if not found or found.group(2) not in units:
        raise ValueError(f"no number in {', '.join(unit or 'no unit' for unit in units)}: {' '.join(token.text for token in value)}")
    # through fractions, so that 2.5 usec is the number nearest to 2.5e-6
    return float(fractions.Fraction(found.group(1)) * fractions.Fraction(str(units[found.group(2)])))


def three(statement: Statement, units: Mapping[str, float]) -> tuple[float, float, float]:
    x, y, z = (measured(value, units) for value in statement.values)
    return x, y, z


def first_text(item: Item, word: str) -> str | None:
    """The first value of the first assignment of this word, as one text; None where there is none."""
    found = item.all(word)
    return " ".join(token.inner for token in found[0].values[0]) if found else None


def hours(text: str) -> float:
    """An angle `03h19m48.16s` in radians."""
    found = re.fullmatch(r"([-+]?)(\d+)h(\d+)m(\d+\.?\d*)s", text, re.ASCII)
    if not found:
        raise ValueError(f"no angle in hours: {text}")
    return sexagesimal(found) * math.pi / 12


def degrees(text: str) -> float:
    """An angle `41d30'42.1"` in radians."""
    found = re.fullmatch(r"""([-+]?)(\d+)d(\d+)'(\d+\.?\d*)\"""", text, re.ASCII)
    if not found:
        raise ValueError(f"no angle in degrees: {text}")
    return sexagesimal(found) * math.pi / 180


def sexagesimal(found: re.Match[str]) -> float:
    sign, whole, minutes, seconds = found.groups()
    size = int(whole) + int(minutes) / 60 + float(seconds) / 3600
    return -size if sign == "-" else size


def loose_second(text: str) -> float:
    """The second since 1970-01-01 of a time that may end early or have parts of a second: `2010y113d`, `2010y113d20h29m00.5s`."""
    found = re.fullmatch(r"(\d{4})y(\d{3})d(?:(\d\d)h(?:(\d\d)m(?:(\d\d\.?\d*)s)?)?)?", text, re.ASCII)
    if not found:
        raise ValueError(f"no time: {text}")
    year, day, hour, minute = (int(part or 0) for part in found.groups()[:4])
    return calendar.timegm((year, 1, 1, hour, minute, 0)) + (day - 1) * 86400 + float(found.group(5) or 0)


def day_of(value: Value) -> float:
    """A modified Julian day, given as a number or as a time."""
    text = single(value)
    return float(text) if re.fullmatch(r"\d+\.?\d*", text, re.ASCII) else loose_second(text) / 86400 + 40587
