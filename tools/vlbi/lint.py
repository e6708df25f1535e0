"""What is wrong or unwise with a job before hours are spent: its lines, its delays and clocks, its recordings, what it will cost.

    asked = joined.read("job.txt", "sky.vex")
    night = coverage.Night(asked)
    for finding in lint.findings(night, lint.Machine(workers=4)):
        print(finding)

It is the command `vlbi-lint`. What the proved program refuses is found by the program itself, `vlbi JOURNAL check`.
"""
from __future__ import annotations

import dataclasses
import math
from collections.abc import Callable, Iterator, Sequence

import numpy

from vlbi import job as jobs
from vlbi import recording, refusal, rotation, vex, words, work
from vlbi.coverage import Night, moment
from vlbi.joined import Asked, Line, Scan, Stay
from vlbi.recording import Recording
from vlbi.records import CELL, PLACE, RANGE

SECTOR = 4            # samples: a sector that lasts less is turned too fast
EARTH = 1.6e-6        # seconds a second: a delay against the earth's centre grows by less
MASER = 1e-12         # seconds a second: masers drift less
JUMP = 1.0            # samples
COVERED = 0.99        # the part of a scan that a recording should have
HOUR = 3600
LISTED = 6            # places that are named in a line


@dataclasses.dataclass(frozen=True)
class Finding:
    """Something to look at.

    path     the file in which it is, and `line` the number of its line where it is a line of the job
    what     what it is, with its number
    instead  what to write instead
    """

    path: str
    line: int | None
    what: str
    instead: str

    def __str__(self) -> str:
        place = self.path if self.line is None else f"{self.path}:{self.line}"
        return f"{place}: {self.what}" + (f"\n    {self.instead}" if self.instead else "")


@dataclasses.dataclass(frozen=True)
class Machine:
    """On what the job will run.

    workers  threads, and `piece` the samples of a piece; 0 where it is chosen
    epoch    the samples of an epoch by the option; 0 where those of the job's own line count
    known    how well clocks are known, in microseconds
    free     the bytes that are free where records and journal are written; None where nobody knows
    """

    workers: int
    piece: int = 0
    known: float = 1.0
    free: int | None = None
    epoch: int = 0

    def plan(self, asked: Asked) -> jobs.Plan:
        """What the job comes to, by the epochs that it will have."""
        return asked.plan.by(self.epoch or None)

    def line(self, asked: Asked) -> Line | None:
        """The line of the job that says how long these are."""
        return None if self.epoch else asked.line_of("epoch")

    def write(self, epoch: int) -> str:
        """What to write so that they have so many samples."""
        return f"write: {'--epoch' if self.epoch else 'epoch'} {epoch}"


def findings(night: Night, machine: Machine) -> Iterator[Finding]:
    """All that is to be looked at, from the job's lines to the disk."""
    asked = night.asked
    rows: tuple[Callable[[], Iterator[Finding]], ...] = (
        lambda: epochs(asked, machine), lambda: lags(asked, machine), lambda: syncs(asked, machine), lambda: pieces(asked, machine),
        lambda: clocks(asked), lambda: missing_models(asked), lambda: joints(night), lambda: sectors(night),
        lambda: slots(night), lambda: files(night), lambda: places(night), lambda: coverage(night), lambda: pairs(night),
        lambda: disk(asked, machine),
    )
    for row in rows:
        yield from row()


def named(names: Sequence[str]) -> str:
    """Names in words, the first ones of many."""
    return ", ".join(names[:LISTED]) + (f" and {len(names) - LISTED} more" if len(names) > LISTED else "")


def of_line(asked: Asked, line: Line | None, what: str, instead: str = "") -> Finding:
    """A Finding in a line of the job."""
    return Finding(asked.path, line.number if line else None, what, instead)


# Numbers of the job

def epochs(asked: Asked, machine: Machine) -> Iterator[Finding]:
    """An integration that is no whole number of epochs."""
    plan = machine.plan(asked)
    if plan.integration % min(plan.epoch, plan.integration):
        last = plan.integration % plan.epoch
        yield of_line(asked, machine.line(asked), f"an integration of {plan.integration} samples is no whole number of epochs: the last one of each has {last}",
                      machine.write(work.even_epoch(plan.integration, plan.epoch)))


def lags(asked: Asked, machine: Machine) -> Iterator[Finding]:
    """Lags that reach less far than two clocks may be off."""
    wanted = 2 * machine.known
    reach = asked.plan.lags / 2 / asked.rate * 1e6
    if reach < wanted:
        many = 2 * math.ceil(wanted * asked.rate / 1e6)
        most = f"write: lags 1024, which reach {512e6 / asked.rate:.3g} microseconds, or find the clocks by few seconds first"
        instead = f"write: lags {many}" if many <= 1024 else most
        yield of_line(asked, asked.line_of("lags"), f"{asked.plan.lags} lags reach {reach:.3g} microseconds to either side; two clocks that are known to "
                      f"{machine.known:g} microseconds each may be off by {wanted:g} (--known)", instead)


def syncs(asked: Asked, machine: Machine) -> Iterator[Finding]:
    """Epochs that are summed faster than the journal keeps them."""
    plan = machine.plan(asked)
    if plan.epochs * work.SYNCS < 1:
        return
    seconds = work.epoch_seconds(plan, machine.workers)
    if seconds < work.SYNCS:
        epoch = work.good_epoch(plan, asked.rate, len(asked.shapes), machine.workers)
        instead = machine.write(epoch) if epoch > plan.epoch else "take a longer `integration` if the residual rate allows it, and an epoch as long"
        yield of_line(asked, machine.line(asked), f"an epoch of {plan.epoch} samples is summed in some {seconds * 1e3:.2g} ms, and keeping each of the "
                      f"{plan.epochs} in the journal takes some {work.SYNCS * 1e3:g} ms", instead)


def pieces(asked: Asked, machine: Machine) -> Iterator[Finding]:
    """A piece with which workers idle, or draw more than they sum."""
    plan, piece = machine.plan(asked), machine.piece
    chosen = work.piece(plan, machine.workers)
    many = work.pieces(plan, piece or chosen)
    if many < machine.workers and plan.scans:
        cause = f"a piece of {piece} samples" if piece else f"an epoch of {plan.epoch} samples"
        other = work.pieces(plan, chosen) >= machine.workers
        instead = f"write: --piece {chosen}" if piece and other else f"write: --workers {many}, or a longer `epoch`"
        yield of_line(asked, machine.line(asked),
                      f"{cause} leaves {machine.workers - many} of {machine.workers} workers idle: an epoch has {many} pieces", instead)
    if piece and piece < work.LEAST_PIECE and chosen > piece:
        yield of_line(asked, None, f"pieces of {piece} samples are so short that workers draw more than they sum", f"write: --piece {chosen}")


# Clocks and delays

def clocks(asked: Asked) -> Iterator[Finding]:
    """Clocks that drift more than masers do, and stations of which no clock is given."""
    for line in asked.of_word("clock"):
        key, when, offset, counts = line.fields
        most = round(MASER * asked.rate * 2 ** 32)
        if abs(jobs.whole(counts)) > most:
            drift = jobs.whole(counts) / (asked.rate * 2 ** 32)
            number = most if drift > 0 else -most
            yield of_line(asked, line, f"the clock of {key} gains {drift:.3g} seconds a second, and masers stay below {MASER:g}",
                          f"measure it again; {MASER:g} is written: clock {key} {when} {offset} {number}")


def missing_models(asked: Asked) -> Iterator[Finding]:
    """Stations without the `poly` or `clock` lines that others have."""
    first = min((scan.start for scan in asked.scans), default=0)
    for word, zero, is_then in (("poly", "0", "its delay is taken as 0"), ("clock", "0 0", "its clock is taken as right")):
        having = {line.fields[0] for line in asked.of_word(word)}
        others = f"{named(sorted(having))} {'has' if len(having) == 1 else 'have'} one"
        for key in asked.shapes:
            if having and key not in having:
                yield of_line(asked, asked.line_of("station", key), f"{key} has no `{word}` line and {others}: {is_then}",
                              f"write, where that is meant: {word} {key} {vex.vex_time(first)} {zero}")


def joints(night: Night) -> Iterator[Finding]:
    """Delays that jump by more than a sample where one polynomial follows another inside a scan."""
    asked = night.asked
    for key, polys in night.delays.polys.items():
        for (before, old), (when, new) in zip(polys, polys[1:]):
            scan = next((one for one in asked.scans if key in one.stays and one.start < when < one.start + one.samples / asked.rate), None)
            if scan is None:
                continue
            left, right = (night.delays.of_entry(key, at, counts, numpy.array([float(when - at)]))[0] for at, counts in ((before, old), (when, new)))
            jump = float(right - left) / 2 ** 32
            if abs(jump) > JUMP:
                line = next(one for one in asked.of_word("poly", key) if vex.second_of(one.fields[1]) == when)
                whole = " ".join(map(str, [new[0] - round(float(right - left)), *new[1:]]))
                size = f"{jump:.6g} samples ({jump / asked.rate * 1e6:.4g} microseconds)"
                yield of_line(asked, line, f"the delay of {key} jumps by {size} inside scan {scan.name}",
                              f"the line before it goes on as: poly {key} {line.fields[1]} {whole}")


def sectors(night: Night) -> Iterator[Finding]:
    """Fringes that turn so fast that a sector lasts less than a few samples."""
    asked = night.asked
    told = set()
    for scan in asked.scans:
        for key, stay in scan.stays.items():
            rate = delay_rate(night, scan, key, stay)
            for channel in night.channels:
                hertz = stay.bands[channel][0] if channel in stay.bands and night.place(key, channel) else 0
                turns = abs(hertz * rate)
                if turns and asked.rate / (rotation.SECTORS * turns) < SECTOR and (key, channel) not in told:
                    told.add((key, channel))
                    yield fast_turn(asked, scan, key, channel, rate, turns)


def delay_rate(night: Night, scan: Scan, key: str, stay: Stay) -> float:
    """The greatest rate of a station's delay in a scan, in seconds a second: that of the begin, the middle and the end."""
    places = numpy.linspace(stay.begin, max(stay.end, stay.begin + 1), 3)
    step = max(1.0, min(float(night.asked.rate), (stay.end - stay.begin) / 4))
    edges = numpy.stack([places - step / 2, places + step / 2], axis=1) / night.asked.rate
    late = night.delays.samples(key, scan.start, edges)
    rates = (late[:, 1] - late[:, 0]) / step
    return float(rates[abs(rates).argmax()])


def fast_turn(asked: Asked, scan: Scan, key: str, channel: str, rate: float, turns: float) -> Finding:
    lasts = asked.rate / (rotation.SECTORS * turns)
    line = asked.line_of("poly", key) or asked.line_of("clock", key)
    wanted = round(turns * rotation.SECTORS * SECTOR)
    slower = f"so fast the earth turns: the sums are right, and take longer; from {wanted} samples a second on a sector lasts {SECTOR}"
    wrong = f"the earth's turning makes at most {EARTH:g}: were the coefficients made for another rate, knot or unit?"
    return of_line(asked, line, f"the fringe of {key} {channel} turns {turns:.4g} times a second in scan {scan.name}: a sector lasts {lasts:.2g} samples; "
                   f"its delay grows by {rate:.3g} seconds a second", slower if abs(rate) <= EARTH else wrong)


# Recordings

def slots(night: Night) -> Iterator[Finding]:
    """More slots than a job may have, and how to split it."""
    if night.slots <= words.MOST_SLOTS:
        return
    groups = list(split(night))
    said = [f"job {number}: {', '.join(f'take {scan.name}' for scan in group)} ({many} slots)" for number, (group, many) in enumerate(groups, 1)]
    said += [f"scan {group[0].name} alone has too many: cut it in the schedule" for group, many in groups if many > words.MOST_SLOTS]
    yield Finding(night.asked.path, None, f"the recordings have {night.slots} slots, and a job may have {words.MOST_SLOTS}",
                  f"split it, and name in each the files of its scans alone: {'; '.join(said)}")


def split(night: Night) -> Iterator[tuple[list[Scan], int]]:
    """The scans in groups, each with the slots of the files that it needs: as many as go into a job, and at least one."""
    group: list[Scan] = []
    many = 0
    for scan in night.asked.scans:
        more = sum(one.slots for one in needed([*group, scan], night))
        if group and more > words.MOST_SLOTS:
            yield group, many
            group, more = [], sum(one.slots for one in needed([scan], night))
        group, many = [*group, scan], more
    if group:
        yield group, many


def needed(scans: Sequence[Scan], night: Night) -> list[Recording]:
    """The recordings that hold something of these scans."""
    return [one for key, recordings in night.recordings.items() for one in recordings if any(night.overlaps(one, scan, key) for scan in scans)]


def files(night: Night) -> Iterator[Finding]:
    """Recordings that are empty, cut off, of another shape or of another time than the scans."""
    asked = night.asked
    for key, named in asked.files.items():
        if not named:
            yield of_line(asked, asked.line_of("station", key), f"{key} has no recording", f"write: file {key} NAME")
        for path, line in named:
            wrong = refusal.why_not(path)
            if wrong:
                yield of_line(asked, line, wrong[0], f"correct the name: {line}")
    for key, recordings in night.recordings.items():
        lines = {path: line for path, line in asked.files[key]}
        for one in recordings:
            yield from of_file(night, key, one, lines[one.path])


def of_file(night: Night, key: str, one: Recording, line: Line) -> Iterator[Finding]:
    asked = night.asked
    shape = asked.shapes[key]
    if one.size == 0:
        yield of_line(asked, line, f"the recording {one.path} of {key} is empty", "name the right file, or leave the line out")
        return
    if one.rest:
        yield of_line(asked, line, f"{one.path} has {one.size} bytes: {one.slots} frames of {shape.frame} bytes and {one.rest} bytes more",
                      "was it cut off while it was copied, or does it begin inside a frame?")
    if one.slots and not one.agree:
        seen = recording.first_shape(one.path, key)
        yield of_line(asked, asked.line_of("station", key), f"no slot of {one.path} has the shape of `{shape.line()}`",
                      f"its first frame is: {seen[0].line()}" if seen else "")
    elif one.times and asked.scans and not any(night.overlaps(one, scan, key) for scan in asked.scans):
        yield of_line(asked, line, f"{one.path} holds nothing of a scan that is taken: it goes from {moment(one.times[0])} to {moment(one.times[1])}",
                      nearest(night, key, one))


def nearest(night: Night, key: str, one: Recording) -> str:
    """How far a recording's time is from the nearest scan of its station."""
    asked = night.asked
    if one.times is None:
        return ""
    begins, ends = one.times
    gaps = []
    for scan in (scan for scan in asked.scans if key in scan.stays):
        stay = scan.stays[key]
        first, last = scan.start + stay.begin / asked.rate, scan.start + stay.end / asked.rate
        gaps.append((begins - last if begins >= last else ends - first, begins - first, scan))
    if not gaps:
        return f"{key} is in no scan that is taken: leave the line out"
    gap, shift, scan = min(gaps, key=lambda row: abs(row[0]))
    off = round(shift / HOUR)
    hours = f"; it begins {off:+d} hours from it: is its time, or that of the schedule, another one?" if off and abs(shift - off * HOUR) < 10 else ""
    return f"it {'begins' if gap >= 0 else 'ends'} {abs(gap):.6g} s {'behind the end' if gap >= 0 else 'before the begin'} of scan {scan.name}{hours}" \
           "; name the right file, or leave the line out"


def places(night: Night) -> Iterator[Finding]:
    """Channels of products that a station does not have: no `chan` line, another name, another thread."""
    asked = night.asked
    for key in asked.shapes:
        scans = [scan for scan in asked.scans if key in scan.stays]
        bands = list(dict.fromkeys(channel for scan in scans for channel in scan.stays[key].bands))
        own = [line.fields[1] for line in asked.of_word("chan", key)]
        threads = sorted({thread for one in night.recordings[key] for thread in one.frames})
        for channel in night.channels if scans else ():
            at = night.place(key, channel)
            line = asked.line_of("chan", key, channel)
            if at is None:
                yield of_line(asked, asked.line_of("station", key), f"{key} has no `chan` line of {channel}, which a product has{refusal.likely(channel, own)}",
                              f"write: chan {key} {channel} THREAD INDEX")
            elif channel not in bands:
                where = f"the schedule, where it has {named(bands)}" if asked.schedule else "a `band` line"
                yield of_line(asked, line, f"the channel {channel} of {key} is not in {where}", f"write its name there{refusal.likely(channel, bands)}")
            elif threads and at[0] not in threads:
                there = named([str(thread) for thread in threads])
                yield of_line(asked, line, f"the recordings of {key} have no frame of thread {at[0]}: they have the threads {there}",
                              f"write: chan {key} {channel} {threads[0]} {at[1]}" if len(threads) == 1 else f"write one of these in: {line}")


def coverage(night: Night) -> Iterator[Finding]:
    """Scans of which a station's recordings have less than all."""
    asked = night.asked
    for scan in asked.scans:
        for key, stay in scan.stays.items():
            seen = [channel for channel in night.channels if channel in stay.bands and night.place(key, channel)]
            if not seen or not any(one.frames for one in night.recordings[key]):
                continue
            low = min(seen, key=lambda channel: night.share(scan, key, channel))
            if night.share(scan, key, low) < COVERED:
                yield gap_of(night, scan, key, stay, low)


def gap_of(night: Night, scan: Scan, key: str, stay: Stay, channel: str) -> Finding:
    """What of a scan is not there."""
    asked, covered = night.asked, night.covered(scan, key, channel)
    share, line = night.share(scan, key, channel), asked.line_of("file", key)
    first, last = (moment(scan.start + at / asked.rate) for at in (stay.begin, stay.end))
    what = f"{key} {channel} has {share * 100:.4g} % of its {stay.end - stay.begin} samples in scan {scan.name} ({first} to {last})"
    if not len(covered.begins):
        times = [one.times for one in night.recordings[key] if one.times]
        edges = min((begin for begin, _ in times), default=0.0), max((end for _, end in times), default=0.0)
        span = f"its recordings go from {moment(edges[0])} to {moment(edges[1])}" if times else "its recordings hold nothing"
        shift = min((begin - scan.start - stay.begin / asked.rate for begin, _ in times), key=abs, default=0.0)
        return of_line(asked, line, what, f"{span}, {shift:+.6g} s from the scan's begin: name the right file, or correct the schedule's time or the delay")
    begins, ends = (float(edge) / asked.rate for edge in (covered.begins[0] - stay.begin, stay.end - covered.ends[-1]))
    inside = (stay.end - stay.begin - covered.samples) / asked.rate - begins - ends
    return of_line(asked, line, what, f"{begins:.4g} s are missing at the begin, {ends:.4g} s at the end, {max(inside, 0):.4g} s between: "
                   f"is a file of {key} not named?")


def pairs(night: Night) -> Iterator[Finding]:
    """Scans, baselines and products without a pair; and whether the whole run has none."""
    asked = night.asked
    rows = [(scan, baseline, product) for scan in asked.scans for baseline in scan.baselines for product in asked.plan.products]
    empty = [row for row in rows if not night.has_pairs(*row)]
    if len(empty) == len(rows):
        why = "no scan that is taken has a baseline" if not rows else f"all of its {len(rows)} scans, baselines and products are without one"
        yield Finding(asked.path, None, f"this run would have no pairs at all: {why}; its status would be 0, and its records all zero",
                      "mend what is said above" if rows else "write `auto`, or name stations of the schedule's scans")
        return
    by_scan: dict[str, list[str]] = {}
    for scan, (a, b), (x, y) in empty:
        by_scan.setdefault(scan.name, []).append(f"{a}-{b} {x},{y}")
    for name, said in by_scan.items():
        yield Finding(asked.path, None, f"no pairs in scan {name} on {named(said)}",
                      "mend what is said above of these stations, or leave the scan out by `take` lines of the others")


# The disk

def record_bytes(asked: Asked) -> int:
    """The bytes of the records, without their head."""
    plan = asked.plan
    one = PLACE.itemsize + plan.lags * CELL.itemsize
    return sum(-(-scan.samples // plan.integration) * len(plan.products) * len(scan.baselines) * one for scan in plan.scans)


def journal_bytes(plan: jobs.Plan) -> int:
    """The bytes of the journal's epochs, each with its gate and its range."""
    return sum(plan.epochs_of(scan) * (1 + RANGE + plan.cells_of(scan) * CELL.itemsize) for scan in plan.scans)


def disk(asked: Asked, machine: Machine) -> Iterator[Finding]:
    """Records and journal that are larger than the disk."""
    kept = journal_bytes(machine.plan(asked))
    total = record_bytes(asked) + kept
    if machine.free is not None and total > machine.free:
        both = f"records of {record_bytes(asked)} bytes and a journal of {kept} bytes"
        yield of_line(asked, asked.line_of("integration"), f"{both} are more than the {machine.free} that are free here",
                      "take a longer `integration` and `epoch`, fewer lags, or some scans by `take` lines; or work on another disk")


# What there is

def tables(night: Night, machine: Machine) -> Iterator[str]:
    """The recordings with their times, the covered part of each scan, station and channel, and what the run comes to."""
    asked = night.asked
    for key, recordings in night.recordings.items():
        for one in recordings:
            span = f"{moment(one.times[0])} to {moment(one.times[1])}" if one.times else "no frame that counts"
            yield f"recording {one.path} of {key}: {one.slots} slots, {span}"
    for scan in asked.scans:
        for key, stay in scan.stays.items():
            shares = [f"{channel} {night.share(scan, key, channel) * 100:.4g} %" for channel in night.channels]
            yield f"scan {scan.name} {vex.vex_time(scan.start)} {key}: of {stay.end - stay.begin} samples {', '.join(shares)}"
    yield f"slots {night.slots} of {words.MOST_SLOTS}"
    plan = machine.plan(asked)
    yield f"epochs {plan.epochs}, journal {journal_bytes(plan)} bytes, records {record_bytes(asked)} bytes"
