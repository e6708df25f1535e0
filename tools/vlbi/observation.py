"""What was observed: the sky frequencies, polarisations, stations and sources of a record file, by its job and its schedule.

    seen = observation.of(records.read("sky.vis"), "job.txt", "sky.vex")
    seen.setups[0].bands
"""
from __future__ import annotations

import dataclasses
from collections.abc import Mapping, Sequence
from typing import Protocol, TypeVar

from vlbi import earth, geometry, vex
from vlbi import job as jobs
from vlbi.faults import Fault
from vlbi.geometry import Target
from vlbi.records import Records, Scan

T = TypeVar("T")

Vector = tuple[float, float, float]

FRAMES = ("J2000", "ICRF", "ICRS")  # in which the files' sources are
# Stokes parameters of products of two polarisations, by their numbers in FITS
STOKES = {"RR": -1, "LL": -2, "RL": -3, "LR": -4, "XX": -5, "YY": -6, "XY": -7, "YX": -8}


@dataclasses.dataclass(frozen=True)
class Band:
    """A band of the sky: the frequency of its edge in hertz, its sideband `U` or `L`, its bandwidth in hertz."""

    hertz: int
    side: str
    bandwidth: int

    @property
    def lowest(self) -> int:
        """Its lowest sky frequency in hertz."""
        return self.hertz - (self.side == "L") * self.bandwidth

    @property
    def sign(self) -> int:
        """1 where its sky frequencies rise with the recorded ones, -1 where they fall."""
        return 1 if self.side == "U" else -1


@dataclasses.dataclass(frozen=True)
class Setup:
    """What is recorded in a scan.

    bands     its Bands, by rising frequency
    places    of each product the number of its band and that of its Stokes parameter in FITS; None where no station has its channels
    """

    bands: tuple[Band, ...]
    places: tuple[tuple[int, int] | None, ...]


@dataclasses.dataclass(frozen=True)
class Station:
    """A station: its key, its site, and its antenna where that is known."""

    key: str
    site: vex.Site
    antenna: vex.Antenna | None


@dataclasses.dataclass(frozen=True)
class Stated:
    """What is said where the schedule does not say it.

    source         the name of the source of scans that name none
    right_ascension, declination  its place in radians, both or neither
    sites          positions of stations, earth-fixed x, y, z in metres
    polarisations  `R`, `L`, `X` or `Y`, by the names of channels
    """

    source: str | None = None
    right_ascension: float | None = None
    declination: float | None = None
    sites: Mapping[str, Vector] = dataclasses.field(default_factory=dict)
    polarisations: Mapping[str, str] = dataclasses.field(default_factory=dict)


@dataclasses.dataclass(frozen=True)
class Observation:
    """What was observed.

    records      the Records
    job          the lines of the job, as `job.job_lines` gives them
    code         the experiment's name; empty where the schedule has none
    stations     a Station for each of the records' stations, in their order
    sources      the Targets, each once
    setups       the Setups, each once
    scan_sources, scan_setups  numbers of a source and a setup, for each scan of the records
    bits         the bits of each station's samples
    orientation  the earth's orientation on its days
    assumed      the channels whose polarisation nobody says: R is taken
    """

    records: Records
    job: dict[str, list[list[str]]]
    code: str
    stations: tuple[Station, ...]
    sources: tuple[Target, ...]
    setups: tuple[Setup, ...]
    scan_sources: tuple[int, ...]
    scan_setups: tuple[int, ...]
    bits: tuple[int, ...]
    orientation: earth.Orientation
    assumed: tuple[str, ...]


def of(records: Records, job: str, schedule: str | None = None, stated: Stated = Stated()) -> Observation:
    """The Observation of records, by the job and the schedule of which they are, named by their paths.

    Fault, which names the file, where the records are not of these, or where something is not said in any of them; OSError where one cannot
    be read.
    """
    with open(job, "rb") as file:
        lines = jobs.job_lines(file.read())
    read = vex.read(schedule) if schedule is not None else None
    try:
        check_job(records, lines)
        table = scans_of(records, lines, read)
    except Fault as fault:
        fault.name_file(job)
        raise
    naming = Polarisations(stated.polarisations)
    sources: list[Target] = []
    setups: list[Setup] = []
    scan_sources, scan_setups = [], []
    for scan in records.scans:
        scan_sources.append(number_of(sources, source_of(table.source(scan), read, stated)))
        scan_setups.append(number_of(setups, setup_of(records, scan, table, naming)))
    return Observation(
        records, lines, experiment(read), tuple(station_of(key, read, stated) for key in records.head.stations), tuple(sources), tuple(setups),
        tuple(scan_sources), tuple(scan_setups), tuple(int(fields[2]) for fields in lines["station"]),
        orientation(records, read), tuple(naming.assumed),
    )


def scans_of(records: Records, lines: dict[str, list[list[str]]], schedule: vex.Schedule | None) -> Scans:
    """The scans of the schedule, or where there is none those of the job."""
    if schedule is not None:
        return ScheduledScans(records, schedule)
    if "scan" not in lines:
        raise Fault("the job has no scans of its own: --vex names its schedule")
    return InlineScans(records, lines)


def number_of(rows: list[T], one: T) -> int:
    """The number of a row, which is added where it is not there."""
    if one not in rows:
        rows.append(one)
    return rows.index(one)


def check_job(records: Records, lines: dict[str, list[list[str]]]) -> None:
    """Fault where the records are not of this job's stations, products, lags and integrations."""
    head = records.head
    told = {
        "stations": (head.stations, tuple(fields[0] for fields in lines.get("station", []))),
        "products": (head.products, tuple((fields[0], fields[1]) for fields in lines.get("product", []))),
        "lags": (head.lags, jobs.only_number(lines, "lags")),
        "integration": (head.integration, jobs.only_number(lines, "integration")),
    }
    for word, (found, due) in told.items():
        if found != due:
            raise Fault(f"the records are of another job: their {word} are {found}, the job's {due}")


# The scans, by a schedule or by the job

class Scans(Protocol):
    """What is known of the scans of records."""

    def source(self, scan: Scan) -> str | None:
        """The name of its first source; None where it names none."""

    def band(self, scan: Scan, channel: str) -> Band | None:
        """The band of a channel; None where no station has it."""

    def polarisation(self, scan: Scan, channel: str) -> str | None:
        """The polarisation of a channel; None where nobody says it."""


class ScheduledScans:
    """The scans of a schedule, by name."""

    def __init__(self, records: Records, schedule: vex.Schedule) -> None:
        self.schedule = schedule
        self.scans = {scan.name: scan for scan in schedule.scans}
        for scan in records.scans:
            if scan.name not in self.scans or self.scans[scan.name].start != scan.start:
                raise Fault(f"no scan {scan.name} that starts at {vex.vex_time(scan.start)}, as that of the records does", schedule.path)

    def source(self, scan: Scan) -> str | None:
        names = self.scans[scan.name].sources
        return names[0] if names else None

    def band(self, scan: Scan, channel: str) -> Band | None:
        for one in self.scans[scan.name].passes:
            for has in one.setup.channels:
                if has.name == channel and one.key in scan.head.stations:
                    if one.setup.rate != scan.head.rate:
                        raise Fault(f"scan {scan.name}: {one.setup.rate} samples a second, the records have {scan.head.rate}", self.schedule.path)
                    return Band(has.hertz, has.side, min(has.bandwidth, scan.head.rate // 2) or scan.head.rate // 2)
        return None

    def polarisation(self, scan: Scan, channel: str) -> str | None:
        """The polarisation of a channel, by the first station for which the schedule says it."""
        of = self.scans[scan.name]
        for one in of.passes:
            found = self.schedule.polarisations(of.mode, one.key).get(channel)
            if found is not None:
                return found
        return None


class InlineScans:
    """The scans of a job that states them itself."""

    def __init__(self, records: Records, lines: dict[str, list[list[str]]]) -> None:
        self.bands = {fields[0]: (jobs.whole(fields[1]), fields[2]) for fields in lines.get("band", [])}
        starts = {fields[0]: vex.second_of(fields[1]) for fields in lines["scan"]}
        for scan in records.scans:
            if starts.get(scan.name) != scan.start:
                raise Fault(f"no scan {scan.name} that starts at {vex.vex_time(scan.start)}, as that of the records does")

    def source(self, scan: Scan) -> None:
        return None

    def band(self, scan: Scan, channel: str) -> Band | None:
        return Band(*self.bands[channel], scan.head.rate // 2) if channel in self.bands else None

    def polarisation(self, scan: Scan, channel: str) -> None:
        return None


class Polarisations:
    """The polarisations that are stated, and the channels of which nobody says one."""

    def __init__(self, stated: Mapping[str, str]) -> None:
        self.stated = stated
        self.assumed: dict[str, None] = {}

    def of(self, scan: Scan, channel: str, table: Scans) -> str:
        found = self.stated.get(channel) or table.polarisation(scan, channel)
        if found is None:
            self.assumed[channel] = None
        return found or "R"


def setup_of(records: Records, scan: Scan, table: Scans, naming: Polarisations) -> Setup:
    """The Setup of a scan."""
    found: list[tuple[Band, int] | None] = []
    for x, y in records.head.products:
        band = table.band(scan, x)
        if band is None or table.band(scan, y) is None:
            found.append(None)
            continue
        hands = naming.of(scan, x, table) + naming.of(scan, y, table)
        if hands not in STOKES:
            raise Fault(f"product {x} {y}: FITS has no polarisations {hands[0]} with {hands[1:]}")
        found.append((band, STOKES[hands]))
    check_places(records, scan, found)
    bands = sorted({it[0] for it in found if it}, key=lambda band: (band.lowest, band.side, band.bandwidth))
    return Setup(tuple(bands), tuple((bands.index(it[0]), it[1]) if it else None for it in found))


def check_places(records: Records, scan: Scan, found: Sequence[tuple[Band, int] | None]) -> None:
    """Fault where two products of a scan have the same band and polarisations."""
    for number, it in enumerate(found):
        if it is not None and it in found[:number]:
            other, one = (" ".join(records.head.products[place]) for place in (found.index(it), number))
            raise Fault(f"scan {scan.name}: the products {other} and {one} have one frequency and one polarisation; "
                        "--polarisation CHANNEL=R, L, X or Y says which they have")


# Stations and sources

def station_of(key: str, schedule: vex.Schedule | None, stated: Stated) -> Station:
    """The Station of a key: at a stated position, or that of the schedule."""
    known = schedule is not None and key in schedule.stations
    antenna = schedule.antenna(key) if schedule is not None and known and schedule.of_station(key, "$ANTENNA") else None
    if key in stated.sites:
        return Station(key, vex.Site(key, stated.sites[key], None, None), antenna)
    if schedule is None or not known:
        raise Fault(f"nobody says where station {key} is: --site {key}=X,Y,Z does", schedule.path if schedule is not None else None)
    return Station(key, schedule.site(key), antenna)


def source_of(name: str | None, schedule: vex.Schedule | None, stated: Stated) -> Target:
    """The Target of a scan that names this one, or none."""
    name = name or stated.source
    if name is None:
        raise Fault("a scan has no source: --source names it", schedule.path if schedule is not None else None)
    if name == stated.source and stated.right_ascension is not None and stated.declination is not None:
        return Target(name, vex.Source(name, stated.right_ascension, stated.declination, "J2000"))
    if schedule is None or name not in schedule.defs("$SOURCE"):
        raise Fault(f"nobody says where source {name} is: --ra and --dec do", schedule.path if schedule is not None else None)
    found = schedule.source(name)
    if found.frame not in FRAMES:
        raise Fault(f"source {name} is in the frame {found.frame}, not in J2000: --source {name} with --ra and --dec states it", schedule.path)
    return Target(name, found)


def orientation(records: Records, schedule: vex.Schedule | None) -> earth.Orientation:
    """The earth's orientation from the first scan's day to a minute behind the last scan."""
    first = min((scan.start for scan in records.scans), default=0) // 86400 * 86400
    last = max((scan.start + scan.samples // records.head.rate for scan in records.scans), default=0)
    return geometry.orientation_of(schedule, first, last + 60)


def experiment(schedule: vex.Schedule | None) -> str:
    """The name of the first experiment of a schedule; empty where there is none."""
    if schedule is not None:
        for item in schedule.defs("$EXPER").values():
            return vex.first_text(item, "exper_name") or item.name
    return ""
