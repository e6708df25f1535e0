"""The jobs of the correlator `vlbi`: lines of a job's text from what a station has, and what a job comes to.

    job.clock_line("Wb", time, 2.5, 1e-12, 16_000_000)
    job.poly_line("Wb", time, [0.0123, 1.1e-6, -3e-11], 16_000_000)
    job.knot_line([[0.0123, 1.1e-6, -3e-11]], 16_000_000)
    job.phase_line(time, "0.7145196997258", "2.04835e-15", job.mjd_second("55197.25"), 16_000_000)

`plan` reads a job that the program has accepted, with its schedule, to its scans and epochs. It is no judge of a job: that is
`vlbi JOURNAL check`.
"""
from __future__ import annotations

import dataclasses
import fractions
from collections.abc import Callable, Iterable, Sequence
from typing import NamedTuple, Union

from vlbi import vex
from vlbi.faults import Fault
from vlbi.vex import second_of as second_of
from vlbi.vex import vex_time as vex_time

KNOT = 32768          # the job's knot where it has no line `knot`
KNOTS = 2 ** 24       # for which a polynomial counts
MOST_TERMS = 6
MOST_POLY = 2 ** 58   # of the sum of the magnitudes of a `poly` line, and of a `phase` line
TURN = 2 ** 32        # the units of a `phase` line in a turn
MOST_EPOCH = 2 ** 22  # samples of an epoch
MJD_1970 = 40587      # the modified julian date of 1970-01-01

Number = Union[float, str, fractions.Fraction]  # a text stands for the number that it writes


class JobFault(Fault):
    """A job or a schedule that cannot be read, or a number that no line of a job can hold."""


def clock_line(key: str, when: int, offset: float | str, drift: float | str, rate: int) -> str:
    """The `clock` line of a station whose clock is ahead.

    when    the second since 1970-01-01 from which on it counts
    offset  microseconds that the clock is ahead then; negative where it is behind
    drift   seconds that it gains in each second
    rate    samples a second

    JobFault where a number is past what the line may hold.
    """
    c0 = round(exact(offset) * rate * 2 ** 32 / 10 ** 6)
    c1 = round(exact(drift) * rate * 2 ** 32)
    if abs(c0) >= 2 ** 57 or abs(c1) >= 2 ** 25:
        raise JobFault(f"station {key}: a clock offset or drift past its greatest: {offset} microseconds, {drift}")
    return f"clock {key} {vex_time(when)} {c0} {c1}"


def poly_line(key: str, when: int, coefficients: Sequence[float | str], rate: int, knot: int = KNOT) -> str:
    """The `poly` line of a station that gets the wave late.

    when          the second since 1970-01-01 from which on it counts, and from which its powers are counted
    coefficients  one to six numbers: the delay `t` seconds behind `when` is c[0] + c[1]*t + c[2]*t*t + .. seconds
    rate          samples a second
    knot          samples from one knot to the next: the number of the job's `knot` line, of which a job has one for all stations

    It counts for 2^24 knots. JobFault where the numbers are past what the line may hold; it names a knot with which they are not, if
    there is one.
    """
    if not 1 <= len(coefficients) <= MOST_TERMS:
        raise JobFault(f"station {key}: a delay has one to six numbers: {list(coefficients)}")
    counts = poly_counts(coefficients, rate, knot)
    if not fits(counts):
        less = largest_knot([coefficients], rate)
        help_words = "it is past the greatest delay" if less is None else f"with a knot of {less} samples, in the job's `knot` line too, they do"
        raise JobFault(f"station {key}: these delays do not go into a poly line with a knot of {knot} samples; {help_words}: {list(coefficients)}")
    return " ".join(["poly", key, vex_time(when), *(str(count) for count in counts)])


def poly_counts(coefficients: Iterable[float | str], rate: int, knot: int) -> list[int]:
    """The coefficients in 2^-32 sample, by powers of 2^24 knots."""
    return [round(count * rate * 2 ** 32) for count in by_knots(coefficients, rate, knot)]


def by_knots(coefficients: Iterable[Number], rate: int, knot: int) -> list[fractions.Fraction]:
    """Coefficients by powers of seconds, as those by powers of 2^24 knots."""
    step = fractions.Fraction(KNOTS * knot, rate)
    return [exact(c) * step ** power for power, c in enumerate(coefficients)]


def fits(counts: Iterable[int]) -> bool:
    """Whether a `poly` or a `phase` line may hold these numbers."""
    return sum(abs(count) for count in counts) < MOST_POLY


def poly_value(counts: Sequence[int], knot: int, samples: int) -> int:
    """The delay of a `poly` line in 2^-32 sample, so many samples behind its second, as docs/MODEL.md has it: without a clock.

    The same is the phase of a `phase` line, in 2^-32 turn.
    """
    number, rest = divmod(samples, knot)
    here, next_one = (nested(counts, one) for one in (number, number + 1))
    return here + (next_one - here) * rest // knot


def nested(counts: Sequence[int], number: int) -> int:
    """The polynomial at the knot of this number."""
    total = 0
    for count in reversed(counts):
        total = count + total * number // KNOTS
    return total


def largest_knot(delays: Sequence[Sequence[float | str]], rate: int) -> int | None:
    """The largest knot, 32768 samples or a smaller power of two, with which the `poly` lines of all these delays can be written.

    delays  the coefficients of each line
    None where there is none.
    """
    return largest(lambda knot: all(fits(poly_counts(coefficients, rate, knot)) for coefficients in delays))


def largest(does: Callable[[int], bool]) -> int | None:
    """The largest knot that does, 32768 samples or a smaller power of two; None where there is none."""
    knot = KNOT
    while knot >= 1:
        if does(knot):
            return knot
        knot //= 2
    return None


def knot_line(delays: Sequence[Sequence[float | str]], rate: int) -> str:
    """The job's `knot` line for these delays of all its stations, each the coefficients of a `poly` line.

    A polynomial counts for 2^24 of these knots, which is `knot_seconds`. JobFault where no knot is short enough.
    """
    knot = largest_knot(delays, rate)
    if knot is None:
        raise JobFault("a delay is past its greatest with every knot")
    return f"knot {knot}"


def knot_seconds(knot: int, rate: int) -> float:
    """How many seconds a polynomial counts with this knot, in samples."""
    return KNOTS * knot / rate


def phase_line(when: int, period: Number, derivative: Number, epoch: Number, rate: int, knot: int = KNOT) -> str:
    """The `phase` line of a pulsar, by its ephemeris; its phase is that of `phase_turns`, less the whole turns at `when`.

    when        the second since 1970-01-01 from which on it counts, as the start of a scan
    period      seconds from a pulse to the next at the epoch
    derivative  seconds that the period gains in each second
    epoch       the time at which the phase is 0, before `when` or behind it, in seconds since 1970-01-01: `mjd_second` has them of a date
    rate, knot  samples a second, and samples from one knot to the next, those of the job

    The phase that the line has at a sample is off the ephemeris by -4.5 to 1.5 units of 2^-32 turn, by rounding, and by what a straight line
    between two knots leaves: up to derivative / period^2 / 8 turns times the square of the seconds between them. It counts for `knot_seconds`.
    JobFault as for `turns_line`.
    """
    return turns_line(when, phase_turns(when, period, derivative, epoch), rate, knot)


def turns_line(when: int, turns: Sequence[Number], rate: int, knot: int = KNOT) -> str:
    """The `phase` line of a pulse whose phase `t` seconds behind `when` is turns[0] + turns[1]*t + turns[2]*t*t + .. turns, of one to six numbers.

    when        the second since 1970-01-01 from which on it counts
    rate, knot  samples a second, and samples from one knot to the next, those of the job

    Of turns[0] what is past its last whole turn stands in the line. JobFault where the numbers are past what the line may hold; it names a
    knot with which they are not, if there is one.
    """
    if not 1 <= len(turns) <= MOST_TERMS:
        raise JobFault(f"a phase has one to six numbers: {len(turns)}")
    counts = phase_counts(turns, rate, knot)
    if not fits(counts):
        less = largest_phase_knot([turns], rate)
        help_words = "it turns too fast for any knot" if less is None else f"with a knot of {less} samples, in the job's `knot` line too, it does"
        raise JobFault(f"this phase does not go into a phase line with a knot of {knot} samples; {help_words}")
    return " ".join(["phase", vex_time(when), *(str(count) for count in counts)])


def phase_counts(turns: Iterable[Number], rate: int, knot: int) -> list[int]:
    """The coefficients of a phase in 2^-32 turn, by powers of 2^24 knots; the first is past its last whole turn."""
    first, *more = (round(count * TURN) for count in by_knots(turns, rate, knot))
    return [first % TURN, *more]


def largest_phase_knot(turns: Sequence[Sequence[Number]], rate: int) -> int | None:
    """The largest knot, 32768 samples or a smaller power of two, with which the `phase` lines of all these phases can be written.

    turns  the coefficients of each line, as `phase_turns` gives them
    None where there is none. A job has one knot, for its delays too: the lesser of this one and `largest_knot`.
    """
    return largest(lambda knot: all(fits(phase_counts(coefficients, rate, knot)) for coefficients in turns))


def phase_turns(when: Number, period: Number, derivative: Number, epoch: Number) -> tuple[fractions.Fraction, ...]:
    """The phase of a pulsar in turns by powers of the seconds since `when`, of which `phase_line` says what the others are; exact.

    As pulsar timing has it, the frequency 1 / period changes evenly, by -derivative / period^2 each second: `t` seconds behind the epoch the
    phase is t / period - derivative * t^2 / (2 * period^2). JobFault where the period is not above 0.
    """
    if exact(period) <= 0:
        raise JobFault(f"a period is above 0 seconds: {period}")
    spin = 1 / exact(period)
    change = -exact(derivative) * spin * spin
    since = exact(when) - exact(epoch)
    turns = (spin * since + change * since * since / 2, spin + change * since, change / 2)
    return turns if change else turns[:2]


def mjd_second(day: Number) -> fractions.Fraction:
    """The seconds since 1970-01-01 of a modified julian date in UTC, as "55197.25"; exact."""
    return (exact(day) - MJD_1970) * 86400


def exact(number: Number) -> fractions.Fraction:
    """A number as it is written, `1e-6` a millionth; a text as "2.5" too."""
    return fractions.Fraction(str(number))


class Place(NamedTuple):
    """A sample of an integration of a scan, at which an epoch begins: the numbers of the scan and of the integration, and the sample in the scan."""

    scan: int
    integration: int
    sample: int


class Epoch(NamedTuple):
    """The samples from `begin` up to, not including, `end` of an integration of a scan, by the numbers of both."""

    scan: int
    integration: int
    begin: int
    end: int


@dataclasses.dataclass(frozen=True)
class Scan:
    """A scan of a plan, or what a part of a job has of it.

    name       its name
    samples    its length in samples; of a part the sample before which its last integration ends, 0 where the part has none
    baselines  pairs of numbers of the job's stations
    first      the number of its first integration, 0 but in a part
    """

    name: str
    samples: int
    baselines: tuple[tuple[int, int], ...]
    first: int = 0


@dataclasses.dataclass(frozen=True)
class Plan:
    """What a job comes to.

    lags, integration, epoch  the numbers of these lines, the last two in samples
    stations                  the stations' keys
    products                  pairs of names of channels
    scans                     a Scan for each scan that has a baseline
    """

    lags: int
    integration: int
    epoch: int
    stations: tuple[str, ...]
    products: tuple[tuple[str, str], ...]
    scans: tuple[Scan, ...]

    def by(self, epoch: int | None) -> Plan:
        """The plan with epochs of so many samples, as `--epoch` of the program asks for; the same one where there is no number."""
        return self if epoch is None else dataclasses.replace(self, epoch=epoch)

    def limited(self, begin: int, end: int) -> Plan:
        """A part of it: its integrations from a number up to, not including, another, counted from 0 through all scans."""
        scans = []
        for scan in self.scans:
            count = self.integrations_of(scan)
            first, last = scan.first + max(begin, 0), scan.first + min(end, count)
            samples = min(scan.samples, last * self.integration)
            scans.append(dataclasses.replace(scan, samples=samples, first=first) if first < last else dataclasses.replace(scan, samples=0, first=0))
            begin, end = begin - count, end - count
        return dataclasses.replace(self, scans=tuple(scans))

    def first(self, scan: int = 0) -> Place | None:
        """The first sample from the scan of this number on; None where there is no further one."""
        rest = ((number, self.scans[number]) for number in range(scan, len(self.scans)))
        return next((Place(number, one.first, one.first * self.integration) for number, one in rest if one.samples), None)

    def integration_end(self, place: Place) -> int:
        """The end of a place's integration."""
        return min((place.integration + 1) * self.integration, self.scans[place.scan].samples)

    def cut(self, place: Place) -> Epoch:
        """The epoch that begins at a place: it has the plan's length, or ends with its integration."""
        return Epoch(*place, min(place.sample + self.epoch, self.integration_end(place)))

    def after(self, epoch: Epoch) -> Place | None:
        """The place behind an epoch; None behind the last one of the job."""
        if epoch.end == self.scans[epoch.scan].samples:
            return self.first(epoch.scan + 1)
        return Place(epoch.scan, epoch.integration + (epoch.end == (epoch.integration + 1) * self.integration), epoch.end)

    def left(self, place: Place | None) -> int:
        """The number of epochs of the plan's length from a place to the end of the job."""
        if place is None:
            return 0
        end = self.integration_end(place)
        behind = self.epochs_in(self.scans[place.scan].samples - end)
        return -(-(end - place.sample) // self.epoch) + behind + sum(map(self.epochs_of, self.scans[place.scan + 1:]))

    def epochs_in(self, samples: int) -> int:
        """The number of epochs of so many samples, from the begin of an integration on."""
        whole, rest = divmod(samples, self.integration)
        return whole * -(-self.integration // self.epoch) - (-rest // self.epoch)

    def epochs_of(self, scan: Scan) -> int:
        """The number of epochs of a scan."""
        return self.epochs_in(self.samples_of(scan))

    def samples_of(self, scan: Scan) -> int:
        """The samples of a scan, from its first integration on."""
        return scan.samples - scan.first * self.integration

    def integrations_of(self, scan: Scan) -> int:
        """The number of integrations of a scan."""
        return -(-self.samples_of(scan) // self.integration)

    def cells_of(self, scan: Scan) -> int:
        """The cells of an epoch of a scan: baselines times products times lags."""
        return len(scan.baselines) * len(self.products) * self.lags

    @property
    def pairs(self) -> int:
        """The samples of all scans, each times the cells of its scan."""
        return sum(self.samples_of(scan) * self.cells_of(scan) for scan in self.scans)

    @property
    def epochs(self) -> int:
        return sum(self.epochs_of(scan) for scan in self.scans)

    @property
    def samples(self) -> int:
        return sum(map(self.samples_of, self.scans))

    @property
    def integrations(self) -> int:
        return sum(map(self.integrations_of, self.scans))


def plan(job: bytes, schedule: bytes = b"") -> Plan:
    """The Plan of a job's text and its schedule's, empty where there is none; JobFault where they cannot be read."""
    lines = job_lines(job)
    return plan_of(lines, schedule_ends(schedule, keys_of(lines)) if schedule else inline_ends(lines, keys_of(lines)))


def keys_of(lines: dict[str, list[list[str]]]) -> tuple[str, ...]:
    """The keys of the stations."""
    return tuple(fields[0] for fields in lines.get("station", []) if fields)


def plan_of(lines: dict[str, list[list[str]]], ends: Iterable[tuple[str, dict[str, int]]]) -> Plan:
    """The Plan of a job's lines, as `job_lines` gives them.

    ends  all scans: each one's name, and the sample before which the part of each of the job's stations in it ends
    """
    keys = keys_of(lines)
    taken = {fields[0] for fields in lines.get("take", []) if fields}
    made = []
    for name, last in ends:
        standing = [number for number, key in enumerate(keys) if key in last and (not taken or name in taken)]
        baselines = tuple((a, b) for a in standing for b in standing if a < b or a == b and "auto" in lines)
        if baselines:
            made.append(Scan(name, max(last.values()), baselines))
    products = tuple((fields[0], fields[1]) for fields in lines.get("product", []) if len(fields) == 2)
    lags, integration, epoch = (only_number(lines, word) for word in ("lags", "integration", "epoch"))
    return Plan(lags, integration, epoch, keys, products, tuple(made))


def schedule_ends(schedule: bytes, keys: Iterable[str]) -> list[tuple[str, dict[str, int]]]:
    """The scans of a schedule: each one's name, and the sample before which the part of each of these stations in it ends."""
    try:
        return [(scan.name, scan.ends(keys)) for scan in vex.from_bytes(schedule).scans]
    except vex.VexFault as fault:
        raise JobFault(f"the schedule: {fault}") from fault


def inline_ends(lines: dict[str, list[list[str]]], keys: Sequence[str]) -> list[tuple[str, dict[str, int]]]:
    """The same of a job that states its scans itself: all stations stand in each."""
    return [(fields[0], dict.fromkeys(keys, whole(fields[2]))) for fields in lines.get("scan", []) if len(fields) == 3]


def only_number(lines: dict[str, list[list[str]]], word: str) -> int:
    """The number of a line that every job has."""
    if not lines.get(word) or not lines[word][0]:
        raise JobFault(f"the job has no line `{word}` with a number")
    return whole(lines[word][0][0])


def job_lines(text: bytes) -> dict[str, list[list[str]]]:
    """The lines of a job by their words, each as a list of the fields behind its word."""
    lines: dict[str, list[list[str]]] = {}
    for _, fields in numbered_lines(text):
        lines.setdefault(fields[0], []).append(fields[1:])
    return lines


def numbered_lines(text: bytes) -> list[tuple[int, list[str]]]:
    """The lines of a job that have a field, each with its number from 1, and its fields with its word in front."""
    rows = ((number, line.split("#")[0].split()) for number, line in enumerate(text.decode("latin-1").split("\n"), 1))
    return [(number, fields) for number, fields in rows if fields]


def whole(number: str) -> int:
    """A whole number as jobs write it: `64`, `+64`, `064`, `64.00`. JobFault where it is none."""
    try:
        value = vex.decimal(number)
    except ValueError as error:
        raise JobFault(f"the job: {error}") from None
    if value.denominator != 1:
        raise JobFault(f"the job: no whole number: {number}")
    return int(value)
