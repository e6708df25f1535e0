"""What a night's records say of it: fringes, stations without any, clocks that look off, samples that are missing, the samplers' levels.

    night = report.read(["sky.vis"], "job.txt", "sky.vex")
    for row in night.scans[0].rows:
        print(row.name, row.state, row.snr, row.lag)

`vlbi.page` makes a page of it; both together are the command `vlbi-report`.
"""
from __future__ import annotations

import dataclasses
import math
import os
from collections.abc import Callable, Iterable, Iterator, Sequence

import numpy
from numpy.typing import NDArray

from vlbi import fringe as fringes
from vlbi import job as jobs
from vlbi import joined, network, plot, quantiser, records, rotation, spectrum, vex
from vlbi.faults import Fault
from vlbi.fringe import Fringe
from vlbi.records import Records, Scan

Reals = NDArray[numpy.float64]
Complexes = NDArray[numpy.complex128]

SURE = 1e-4      # the chance that noise alone is taken for a fringe
PERHAPS = 0.01   # and for what may be one
OFF = 0.25       # samples from which on a clock looks off,
OFF_BLIND = 1.0  # and where nobody says what whole delays leave
SPREAD = 1.0     # samples by which lags may differ from what clocks make of them
THERE = 0.99     # the part of the samples below which some are said to be missing

# Of two and four bits' samples the parts at the outer levels that are too few, best and too many: at either end a fiftieth of the signal to noise is lost.
OUTER = {2: (0.20, 0.32, 0.45), 4: (0.00003, 0.019, 0.12)}

POINTS = 64      # places of a picture to a side
SHADES = 16
RESTS = 257      # moments of a scan at which the rest of a whole delay is taken
PIECES = 16      # stretches of an integration in which a rotation is taken

FRINGE, MAYBE, NONE, UNKNOWN, NO_PAIRS = "fringe", "perhaps", "none", "unknown", plot.NO_PAIRS


@dataclasses.dataclass(frozen=True, eq=False)
class Row:
    """A baseline and a product of a scan.

    state      `fringe`, `perhaps`, `none`, `unknown` where there are too few cells to tell, or `no pairs`
    lag, rate  of the peak in microseconds and hertz; NaN where there are no pairs
    amplitude  of the peak, in `unit`
    share      the part of the samples in which both stations stand that were there, 0 to 1; of the scan's where nobody says the job
    rest       the part of the lag in microseconds that the job's whole delays leave; None where nobody says the job
    hertz      the sky frequency of the band's middle, negative in the lower sideband; None where nobody says it
    turned     whether the job turns it, so that its rate has a sign
    lags, times  means over lag and over time, of at most POINTS places
    map        amplitudes over rate and lag from the lowest of the `rates` to the highest, uint8 in SHADES steps, at most POINTS a side
    """

    keys: tuple[str, str]
    product: tuple[str, str]
    state: str
    snr: float
    lag: float
    rate: float
    amplitude: float
    unit: str
    share: float
    rest: float | None
    hertz: float | None
    turned: bool
    lags: Complexes = dataclasses.field(repr=False)
    times: Complexes = dataclasses.field(repr=False)
    map: NDArray[numpy.uint8] = dataclasses.field(repr=False)
    rates: tuple[float, float]

    @property
    def name(self) -> str:
        return "-".join(self.keys)

    @property
    def channels(self) -> str:
        x, y = self.product
        return x if x == y else f"{x} \N{MULTIPLICATION SIGN} {y}"


@dataclasses.dataclass(frozen=True, eq=False)
class Sampler:
    """A station's channel in a scan, by its correlation with itself.

    powers  the spectrum, by rising frequency in the band
    bits    of a sample; None where nobody says how many there are
    outer   the part of the samples at the outer levels; None where nobody says how many bits there are, or there is one
    """

    key: str
    channel: str
    powers: Reals = dataclasses.field(repr=False)
    bits: int | None
    outer: float | None

    @property
    def words(self) -> str:
        """The levels in words; empty where nothing is known of them."""
        if self.outer is None or self.bits is None:
            return ""
        few, best, many = OUTER[self.bits]
        judged = "too weak" if self.outer < few else "too strong" if self.outer > many else "right"
        return f"{judged}: {self.outer * 100:.0f} % of the samples at the outer levels, {best * 100:.0f} % is best"

    @property
    def is_right(self) -> bool:
        return not self.words or self.words.startswith("right")


@dataclasses.dataclass(frozen=True, eq=False)
class Seen:
    """A scan of a record file: its file, its name, start and length in seconds, half of its lags in microseconds, its Rows and its Samplers."""

    path: str
    name: str
    start: int
    seconds: float
    sample: float
    reach: float
    rows: tuple[Row, ...]
    samplers: tuple[Sampler, ...]

    @property
    def keys(self) -> tuple[str, ...]:
        """The keys of the stations of its rows, in their order."""
        return tuple(dict.fromkeys(key for row in self.rows for key in row.keys))

    def of_station(self, key: str) -> list[Row]:
        return [row for row in self.rows if key in row.keys]

    def share(self, key: str) -> float:
        """The part of a station's samples that was there, as far as its best baseline says."""
        return max((row.share for row in self.of_station(key)), default=0.0)

    def has_fringe(self, key: str) -> bool:
        return any(row.state == FRINGE for row in self.of_station(key))


@dataclasses.dataclass(frozen=True)
class Clock:
    """A station's clock that looks off.

    ahead   microseconds that it is further ahead than the job says, against most others, at the second `at`
    drift   seconds a second that it gains more; None where no rate says it
    lines   the job's `clock` lines that mend it
    rows    the fringes that say so
    """

    key: str
    ahead: float
    at: float
    drift: float | None
    lines: tuple[str, ...]
    rows: int


@dataclasses.dataclass(frozen=True)
class Night:
    """What the records of a night say.

    scans    the scans
    clocks   the clocks that look off
    spread   the furthest that a lag is from what clocks make of it, in samples
    has_job  whether their job was named
    """

    scans: tuple[Seen, ...]
    clocks: tuple[Clock, ...]
    spread: float
    has_job: bool


def read(paths: Sequence[str], job: str | None = None, schedule: str | None = None, progress: Callable[[int, int], None] = lambda done, of: None) -> Night:
    """The Night of record files, with the job and the schedule of which they are where these are known.

    progress  is told again and again how many fringes of how many were looked for
    Fault, which names the file, where one is no such file; OSError where one cannot be read.
    """
    asked = joined.read(job, schedule) if job is not None else None
    found = [(path, records.read(path)) for path in paths]
    if asked is not None:
        for path, one in found:
            check(one, asked, path)
    total = sum(len(plot.pairs_of(scan, [], [], False)) for _, one in found for scan in one.scans)
    done = 0
    scans = []
    for path, one in found:
        for scan in one.scans:
            pairs = plot.pairs_of(scan, [], [], False)[::-1]
            rows = []
            while pairs:
                rows.append(row_of(pairs.pop(), asked))
                done += 1
                progress(done, total)
            head = scan.head
            scans.append(Seen(os.path.basename(path), scan.name, scan.start, scan.samples / head.rate, 1e6 / head.rate, head.lags * 5e5 / head.rate,
                              tuple(rows), tuple(samplers(scan, asked))))
    clocks, spread = clocks_of(scans, asked, [one.head.rate for _, one in found])
    return Night(tuple(scans), clocks, spread, asked is not None)


def check(one: Records, asked: joined.Asked, path: str) -> None:
    """Fault where records are not of a job."""
    head, plan = one.head, asked.plan
    if (head.lags, head.integration, head.rate, head.stations, head.products) != (plan.lags, plan.integration, asked.rate, plan.stations, plan.products):
        raise Fault(f"the records are of another job than {asked.path}: its lags, integration, rate, stations or products are others", path)


def row_of(pair: plot.Pair, asked: joined.Asked | None) -> Row:
    """The Row of a baseline and product."""
    scan, fringe = pair.scan, pair.fringe
    cells = scan.cells[:, pair.product, pair.baseline]
    keys, product = scan.baseline_keys[pair.baseline], scan.head.products[pair.product]
    best = float(cells["count"].sum(axis=0, dtype=numpy.float64).max(initial=0))
    times = pair.over_time() if pair.has_pairs else numpy.zeros(len(cells), numpy.complex128)
    return Row(
        keys, product, state_of(fringe, pair.has_pairs), fringe.snr, fringe.lag * 1e6 / scan.head.rate, fringe.rate,
        fringe.amplitude * pair.scale, pair.unit,
        share=min(1.0, best / max(due(scan, keys, asked), 1)),
        rest=rest_between(scan, keys, asked),
        hertz=middle(scan, keys[0], product[0], asked),
        turned=bool(cells["im"].any()),
        lags=fewer(pair.over_lags()), times=fewer(times), map=shaded(fringe.map),
        rates=(float(fringe.rates[0]), float(fringe.rates[-1])) if len(fringe.rates) else (0.0, 0.0),
    )


def fewer(means: Complexes) -> Complexes:
    """At most POINTS of these: each the first of the greatest of those that it stands for. What is not there is 0."""
    there = numpy.nan_to_num(means)
    each = -(-len(there) // POINTS)
    if each <= 1:
        return there
    padded = numpy.pad(there, (0, -len(there) % each)).reshape(-1, each)
    found: Complexes = numpy.take_along_axis(padded, abs(padded).argmax(axis=1)[:, None], axis=1)[:, 0]
    return found


def shaded(heights: Reals) -> NDArray[numpy.uint8]:
    """A map in SHADES steps of its heights, each place the greatest of those that it stands for."""
    if heights.size == 0:
        return numpy.zeros((1, 1), numpy.uint8)
    few = plot.shrunk(plot.shrunk(heights, POINTS).T, POINTS).T
    found: NDArray[numpy.uint8] = numpy.minimum(few / max(few.max(), 1e-300) * SHADES, SHADES - 1).astype(numpy.uint8)
    return found


def state_of(fringe: Fringe, has_pairs: bool) -> str:
    """Whether there is a fringe, by the chance that the highest place of so many of noise is as high."""
    if not has_pairs:
        return NO_PAIRS
    if not math.isfinite(fringe.snr):
        return UNKNOWN
    return FRINGE if fringe.snr >= needed(fringe.map.size, SURE) else MAYBE if fringe.snr >= needed(fringe.map.size, PERHAPS) else NONE


def needed(places: int, chance: float) -> float:
    """The signal to noise that the highest of so many places of noise exceeds with this chance."""
    return math.sqrt(2 * math.log(places / chance))


def due(scan: Scan, keys: tuple[str, str], asked: joined.Asked | None) -> int:
    """The samples of a scan in which both stations stand; all where nobody says it."""
    stays = stays_of(scan, asked)
    if not all(key in stays for key in keys):
        return scan.samples
    return min(stays[key].end for key in keys) - max(stays[key].begin for key in keys)


def stays_of(scan: Scan, asked: joined.Asked | None) -> dict[str, joined.Stay]:
    """The stations' parts of a scan; none where nobody says them."""
    for one in asked.scans if asked else ():
        if (one.name, one.start) == (scan.name, scan.start):
            return one.stays
    return {}


def rest_between(scan: Scan, keys: tuple[str, str], asked: joined.Asked | None) -> float | None:
    """What whole delays leave of the second station's delay less the first's, in microseconds, in the mean over a scan."""
    if asked is None:
        return None
    delays = rotation.Delays(asked.by_word, scan.head.rate)
    seconds = numpy.linspace(0, scan.samples / scan.head.rate, RESTS)
    late = [delays.samples(key, scan.start, numpy.stack([seconds, seconds], axis=1))[:, 0] for key in keys]
    first, second = (float((one - numpy.floor(one + 0.5)).mean()) for one in late)
    return (second - first) * 1e6 / scan.head.rate


def middle(scan: Scan, key: str, channel: str, asked: joined.Asked | None) -> float | None:
    """The sky frequency in hertz of the middle of a station's channel, negative in the lower sideband; None where nobody says it."""
    band = band_of(scan, key, channel, asked)
    if band is None:
        return None
    hertz, side = band
    return hertz + scan.head.rate / 4 if side == "U" else -(hertz - scan.head.rate / 4)


def band_of(scan: Scan, key: str, channel: str, asked: joined.Asked | None) -> tuple[int, str] | None:
    """Sky frequency and sideband of a station's channel in a scan; None where nobody says them."""
    stays = stays_of(scan, asked)
    return stays[key].bands.get(channel) if key in stays else None


# Stations with themselves

def samplers(scan: Scan, asked: joined.Asked | None) -> Iterator[Sampler]:
    """The Samplers of the stations that were correlated with themselves."""
    for baseline, (a, b) in enumerate(scan.baselines):
        for product, (x, y) in enumerate(scan.head.products):
            if a != b or x != y or not fringes.has_pairs(scan, product, baseline):
                continue
            cells, key = scan.cells[:, product, baseline], scan.head.stations[a]
            counts = numpy.maximum(cells["count"].sum(axis=0, dtype=numpy.float64), 1)
            means = (cells["re"].sum(axis=0, dtype=numpy.float64) + 1j * cells["im"].sum(axis=0, dtype=numpy.float64)) / counts
            band = band_of(scan, key, x, asked)
            powers = spectrum.of_lags(means, band[1] if band else "U", spectrum.channels(scan.head.lags, scan.head.rate)).real
            bits = asked.shapes[key].bits if asked else None
            yield Sampler(key, x, powers, bits, outer_part(scan, key, x, float(means[scan.head.lags // 2].real), asked))


def outer_part(scan: Scan, key: str, channel: str, power: float, asked: joined.Asked | None) -> float | None:
    """The part of two or four bits' samples at the outer levels, by the mean square of the values, of which the rotation has its part."""
    band = band_of(scan, key, channel, asked)
    if asked is None or band is None or asked.shapes[key].bits not in OUTER:
        return None
    begins = scan.begins / scan.head.rate
    ends = numpy.minimum(scan.begins + scan.head.integration, scan.samples) / scan.head.rate
    late = rotation.Delays(asked.by_word, scan.head.rate).samples(key, scan.start, rotation.stretches(begins, ends, PIECES))
    turns = late * (band[0] / scan.head.rate)
    return quantiser.outer_part(asked.shapes[key].bits, power / float(rotation.power(turns).mean()))


# Clocks

def clocks_of(scans: Sequence[Seen], asked: joined.Asked | None, rates: Sequence[int]) -> tuple[tuple[Clock, ...], float]:
    """The clocks that look off, and the furthest that a lag is from what they make of it, in samples."""
    rows = [(scan, row) for scan in scans for row in scan.rows if row.state == FRINGE]
    if not rows:
        return (), 0.0
    keys = list(dict.fromkeys(key for _, row in rows for key in row.keys))
    ahead = network.solved(keys, [(row.keys, row.lag - (row.rest or 0.0), row.snr) for _, row in rows])
    rated = [(row.keys, row.rate / row.hertz, row.snr * abs(row.hertz)) for _, row in rows if row.hertz and row.turned]
    drifts = network.solved(keys, rated) if rated else {}
    sample = max(scan.sample for scan in scans)
    spread = max(abs(row.lag - (row.rest or 0.0) - (ahead[row.keys[1]] - ahead[row.keys[0]])) / scan.sample for scan, row in rows)
    at = sum(scan.start + scan.seconds / 2 for scan, _ in rows) / len(rows)
    longest = max(scan.seconds for scan, _ in rows)
    found = []
    for key in keys:
        seen = [row for _, row in rows if key in row.keys]
        hertz = max((abs(row.hertz) for row in seen if row.hertz), default=0.0)
        drift = drifts.get(key, 0.0) if abs(drifts.get(key, 0.0)) * hertz * longest > 0.5 else None
        if abs(ahead[key]) > (OFF if asked else OFF_BLIND) * sample:
            lines = mending(key, ahead[key], at, drift or 0.0, asked, max(rates), int(min(scan.start for scan in scans)))
            found.append(Clock(key, ahead[key], at, drift, tuple(lines), len(seen)))
    return tuple(found), spread


def mending(key: str, ahead: float, at: float, drift: float, asked: joined.Asked | None, rate: int, start: int) -> Iterator[str]:
    """The `clock` lines that mend a clock: those of the job with what it is off, or one at a start where the job has none.

    ahead, at, drift  microseconds that it is further ahead at a second, and seconds that it gains more in each
    """
    lines = [(vex.second_of(line.fields[1]), jobs.whole(line.fields[2]), jobs.whole(line.fields[3])) for line in asked.of_word("clock", key)] if asked else []
    for when, c0, c1 in lines or [(start, 0, 0)]:
        more = (ahead * 1e-6 + drift * (when - at)) * rate * 2 ** 32
        yield f"clock {key} {vex.vex_time(when)} {c0 + round(more)} {c1 + round(drift * rate * 2 ** 32)}"


# In words

def words_of(night: Night) -> Iterator[tuple[str, str, tuple[str, ...]]]:
    """What a night's staff should know, in words: each a kind (`good`, `bad` or `note`), what is said, and lines of a job that go with it."""
    rows = [row for scan in night.scans for row in scan.rows]
    there = sum(row.state == FRINGE for row in rows)
    scans = f"{len(night.scans)} scan{'s' * (len(night.scans) != 1)}"
    yield "good" if there == len(rows) and rows else "note", f"{there} of {len(rows)} baselines and products have a fringe, in {scans}.", ()
    yield from without_fringe(night)
    empty = sum(row.state == NO_PAIRS for row in rows)
    if empty:
        yield "bad", f"{empty} of {len(rows)} baselines and products have no pairs: vlbi-lint says why.", ()
    for clock in night.clocks:
        yield "bad", clock_words(clock, night.has_job), clock.lines
    if night.spread > SPREAD:
        yield "note", f"Lags are up to {night.spread:.1f} samples from what clocks make of them: more is off than clocks.", ()
    yield from missing(night)
    yield from levels(night)


def without_fringe(night: Night) -> Iterator[tuple[str, str, tuple[str, ...]]]:
    """The scans without any fringe, and the stations without one in scans that have some."""
    judged = [scan for scan in night.scans if any(row.state not in (UNKNOWN, NO_PAIRS) for row in scan.rows)]
    dark = [scan.name for scan in judged if not any(row.state == FRINGE for row in scan.rows)]
    if dark:
        yield "bad", f"There is no fringe at all in {listed(dark, len(night.scans))}.", ()
    lit = [scan for scan in judged if scan.name not in dark]
    for key in dict.fromkeys(key for scan in lit for key in scan.keys):
        own = [scan for scan in lit if key in scan.keys]
        where = [scan.name for scan in own if not scan.has_fringe(key)]
        if where:
            yield "bad", f"Station {key} has no fringe on any baseline in {listed(where, len(own))}{' with fringes' if dark else ''}.", ()


def listed(names: Sequence[str], of: int) -> str:
    """The names of scans, in words: all, or the first ones."""
    if len(names) == of:
        return "all scans" if of > 1 else f"scan {names[0]}"
    more = f" and {len(names) - 6} more" if len(names) > 6 else ""
    return f"scan{'s' if len(names) > 1 else ''} {', '.join(names[:6])}{more} of {of}"


def clock_words(clock: Clock, has_job: bool) -> str:
    """A clock that looks off, in words."""
    off = f"{abs(clock.ahead):.3f} {plot.MICROSECONDS} {'further' if clock.ahead > 0 else 'less'} ahead than the job says"
    gains = f", and gains {plot.signed(clock.drift * 1e12, 2)}e-12 seconds more in each" if clock.drift else ""
    mend = "to mend it" if has_job else "to mend it, where the job has no `clock` line of it (--job adds it to those that there are)"
    return f"The clock of {clock.key}, or its delay, is {off}{gains}, by {clock.rows} fringe{'s' * (clock.rows != 1)}; {mend}:"


def missing(night: Night) -> Iterator[tuple[str, str, tuple[str, ...]]]:
    """The stations of which samples are missing."""
    for key in dict.fromkeys(key for scan in night.scans for key in scan.keys):
        shares = [(scan.share(key), scan.name) for scan in night.scans if key in scan.keys]
        low = [(share, name) for share, name in shares if share < THERE]
        if low:
            worst = min(low)
            where = listed([name for _, name in low], len(shares))
            yield "bad", f"Station {key}: samples are missing in {where}; in {worst[1]} {worst[0] * 100:.1f} % are there.", ()


def levels(night: Night) -> Iterator[tuple[str, str, tuple[str, ...]]]:
    """The samplers' levels that are not right."""
    told: dict[tuple[str, str], list[tuple[str, Sampler]]] = {}
    for scan in night.scans:
        for one in scan.samplers:
            if one.outer is not None:
                told.setdefault((one.key, one.channel), []).append((scan.name, one))
    wrong = {place: [row for row in rows if not row[1].is_right] for place, rows in told.items()}
    for (key, channel), rows in wrong.items():
        if rows:
            yield "bad", f"Sampler of {key} {channel}, {listed([name for name, _ in rows], len(told[key, channel]))}: {rows[0][1].words}.", ()
    if told and not any(wrong.values()):
        yield "good", f"The samplers' levels are right: {len(told)} of {len(told)} stations and channels.", ()
