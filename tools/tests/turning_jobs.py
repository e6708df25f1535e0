"""Random jobs whose fringes turn, as cases of the table of whole calls, with what their calls print by the definitions alone.

    turning_jobs.py lines      the last lines of crates/vlbi_cases/stdin
    turning_jobs.py answers    the last lines of crates/vlbi_cases/stdout
"""
from __future__ import annotations

import dataclasses
import math
import random
import sys
from collections.abc import Iterator
from dataclasses import dataclass

import by_definition
import merged_journals
import whole_calls
import whole_journals
from checkpoint_journals import Part

FIRST = "# Random jobs whose fringes turn: tools/tests/turning_jobs.py writes these lines, and what is printed for them by the definitions."
MOST = 7_500_000  # samples times lags, products and baselines of all cases
YEAR = by_definition.second_of("2010y001d00h00m00s")
KINDS = ("missing", "invalid", "invalid and good", "doubled", "foreign", "late")  # of a frame that is not as it should be
RESTARTS = 2  # of the journal of each job
PARTS = (0, 4, 5, 7, 9, 11, 12, 24, 27, 30, 34, 40)  # rows of which a part in shorter integrations is summed too
MERGES = (0, 1, 3, 4, 5, 7, 8, 10, 11, 13, 24, 25, 26, 28, 30, 32, 35, 36, 37, 39, 40, 43)  # rows of which parts are merged
MERGED = 8  # calls of each of these
KNOTS = (1, 2, 7, 10, 33, 100, 333, 1000, 4096)  # samples
SKY_KNOTS = (7, 33, 1000, 32768, 1000000)

# Lags, samples, and for each station how many samples a sector lasts; 0 where the station's delay stands still.
ROWS: list[tuple[int, int, tuple[float, ...]]] = [
    (2, 700, (0, 1)),
    (2, 2600, (3, 0)),
    (2, 9000, (1, 2500)),
    (2, 1300, (0, 0)),
    (4, 900, (7, 16)),
    (4, 1500, (0, 0.4, 33)),
    (4, 12500, (5000, 64)),
    (6, 800, (100, 0)),
    (6, 1100, (2, 5, 1)),
    (6, 5300, (333, 1000)),
    (10, 700, (1, 1)),
    (10, 1900, (16, 0, 700)),
    (10, 13000, (23, 23, 0)),
    (64, 900, (1, 0)),
    (64, 9000, (23, 0)),
    (64, 6000, (12, 900)),
    (64, 700, (3, 64, 0)),
    (130, 600, (0, 2)),
    (130, 4600, (128, 5000)),
    (130, 900, (0, 0)),
    (512, 500, (10, 0.7)),
    (512, 640, (0, 1500)),
    (1024, 420, (1, 0)),
    (1024, 700, (77, 400)),
    (2, 5000, (8, 64)),
    (10, 900, (1, 16)),
    (64, 700, (32, 0)),
    (130, 600, (2, 256)),
    (2, 900, (3, 0, 1)),
    (6, 4300, (1, 64)),
    (10, 700, (0, 16, 2)),
    (64, 4200, (100, 0)),
    (64, 700, (0, 0, 7)),
    (130, 700, (33, 0)),
    (512, 500, (12, 1000)),
    (2, 700, (1, 0)),
    (2, 3100, (0, 64)),
    (4, 1500, (5, 0.4)),
    (6, 4700, (100, 0)),
    (10, 900, (0, 2, 33)),
    (10, 2300, (16, 700)),
    (64, 400, (3, 0)),
    (130, 600, (0, 128)),
    (6, 1300, (0, 7, 1)),
    (256, 420, (40, 1)),
]
ROUND = 24  # from this row on all numbers are powers of two, so that delays come to whole sectors and to halves of a sample exactly
WIDE = 28  # from this row on the first station has samples of four bits, and the others of one, two or four
PULSED = 35  # from this row on samples have one or two bits again, and their sums are sorted by the bins of a pulse


def time(second: int) -> str:
    return f"2010y001d00h{(second - YEAR) // 60:02}m{(second - YEAR) % 60:02}s"


@dataclass
class Shape:
    """How a station records: the bits of a sample, the channels of a frame, its words of data, the threads of its channels."""

    bits: int
    chans: int
    words: int
    places: dict[str, tuple[int, int]]
    seeds: dict[int, int]

    @property
    def frame_samples(self) -> int:
        return self.words * 64 // (self.bits * self.chans)


@dataclass
class Row:
    """A job that is made: its random numbers, what `ROWS` says of it, its numbers, and of each station its shape and its delay in whole samples."""

    draw: random.Random
    lags: int
    samples: int
    turns: tuple[float, ...]
    channels: list[str]
    shapes: list[Shape]
    offsets: list[int]
    rate: int
    knot: int
    start: int
    hertz: int
    is_round: bool


def shape(draw: random.Random, samples: int, channels: list[str], widths: tuple[int, ...]) -> Shape:
    """A shape of some twenty to sixty frames in a scan."""
    bits, chans = draw.choice(widths), draw.choice((1, 1, 2, 4))
    threads = draw.choice((1, 2)) if chans > 1 else len(channels)
    places = {channel: (number % threads, draw.randrange(chans) if threads > 1 else number) for number, channel in enumerate(channels)}
    words = max(1, samples * bits * chans // 64 // draw.randint(20, 60))
    return Shape(bits, chans, words, places, {thread: draw.randint(1, 9999) for thread in range(threads)})


def shapes(draw: random.Random, samples: int, channels: list[str], stations: int, is_wide: bool) -> list[Shape]:
    """Those of some stations: all alike, with the same samples, or each another one; three wide ones of each width."""
    if is_wide and stations == 3:
        return [shape(draw, samples, channels, (bits,)) for bits in (4, 1, 2)]
    first = shape(draw, samples, channels, (4,) if is_wide else (1, 2))
    widths = (1, 2, 4) if is_wide else (1, 2)
    return [first if number == 0 or draw.random() < 0.4 else shape(draw, samples, channels, widths) for number in range(stations)]


def row(number: int) -> Row:
    """A job by its number: some have sample rates and sky frequencies as on the sky, the others delays that change faster."""
    lags, samples, turns = ROWS[number]
    draw = random.Random(f"turning {number}")
    channels = ["X", "Y"][: draw.choice((1, 2)) if samples * lags * len(turns) < 120_000 else 1]
    recorded = shapes(draw, samples, channels, len(turns), WIDE <= number < PULSED)
    is_round, is_sky = ROUND <= number < WIDE, not ROUND <= number < WIDE and number % 5 in (1, 3)
    if is_round:
        recorded = [dataclasses.replace(one, words=2 ** (one.words.bit_length() - 1)) for one in recorded]
    least = math.lcm(*(one.frame_samples for one in recorded))
    rate = max(1, (draw.choice((4, 16, 32, 64)) * 10**6 if is_sky else draw.randint(samples // 6, 2 * samples)) // least) * least
    rate = 2 ** (rate.bit_length() - 1) if is_round else rate
    offsets = [draw.randint(-rate // 50, rate // 50) if is_sky else draw.randint(-4, 4) for _ in turns]
    fastest = min((one for one in turns if one), default=100)
    steps = draw.choice((0.003, 0.02, 2) if is_sky else (0.02, 0.6, 3, 10, 40))  # of the whole delay, by the station that turns fastest
    steps = samples / (16 * fastest) if is_round else steps
    hertz = min(max(1, round(rate * samples / (16 * fastest * steps))), 2**40 - 1)
    knot = draw.choice([one for one in (SKY_KNOTS if is_sky else KNOTS) if one * steps < samples])
    return Row(draw, lags, samples, turns, channels, recorded, offsets, rate, knot, YEAR + draw.randint(2, 40), hertz, is_round)


def delay_lines(of: Row, number: int) -> Iterator[str]:
    """The clock and the polynomials of a station: entries before the scan's start, and where it lasts some seconds one behind it."""
    draw, turn, key = of.draw, of.turns[number], "ABC"[number]
    if draw.random() < 0.4 and not of.is_round:
        yield f"clock {key} {time(of.start - 2)} {draw.randint(-3 * 2**32, 3 * 2**32)} {draw.choice((0, draw.randint(-(2**24), 2**24)))}"
    delay = of.offsets[number] * 2**32 + (draw.randint(-8, 8) * 2**28 if of.is_round else draw.randint(-(2**31), 2**31))
    if not turn:
        if of.offsets[number] or draw.random() < 0.5:
            yield poly(of, key, -1, delay, 0)
        return
    slope = of.rate * 2**32 / (16 * turn * of.hertz) * draw.choice((-1, 1))  # 2^-32 sample a sample
    begun = draw.choice((0, 0, -1))
    yield poly(of, key, begun, delay + slope * of.rate * begun, slope)
    if of.samples > 2 * of.rate:
        turned = draw.randint(1, (of.samples - 1) // of.rate)
        yield poly(of, key, turned, delay + slope * of.rate * turned, slope * draw.choice((-1, 1)))


def poly(of: Row, key: str, second: int, delay: float, slope: float) -> str:
    """A polynomial that begins so many seconds behind the scan's start, with this delay and slope there, and maybe more coefficients."""
    first = round(slope * of.knot * 2**24)
    coefficients = [round(delay), *([first] if first else [])]
    if first and not of.is_round and of.draw.random() < 0.6:
        knots = (of.samples - second * of.rate) // of.knot + 1
        most = min(abs(first) * 2**24 * of.samples // (of.knot * knots**2), 2**55)
        coefficients += [of.draw.randint(-most, most)]
        coefficients += [of.draw.randint(-(2**32), 2**32) for _ in range(of.draw.randint(0, 3))]
    return " ".join(["poly", key, time(of.start + second), *map(str, coefficients)])


def job_lines(of: Row) -> Iterator[str]:
    draw = of.draw
    yield f"lags {of.lags}"
    yield f"integration {draw.choice((of.samples, of.samples * 2 // 3, draw.randint(of.samples // 4, of.samples)))}"
    yield f"epoch {draw.choice((of.samples, of.samples, 4096, 1000, draw.randint(of.samples // 9, of.samples)))}"
    yield f"knot {of.knot}"
    if of.samples * of.lags < 20_000 and draw.random() < 0.4:
        yield "auto"
    delays: list[str] = []
    for number, (key, recorded) in enumerate(zip("ABC", of.shapes)):
        yield f"station {key} {number + 1} {recorded.bits} {recorded.chans} {32 + 8 * recorded.words}"
        yield from (f"file {key} {name}" for name in files(recorded, key))
        yield from (f"chan {key} {channel} {thread} {index}" for channel, (thread, index) in recorded.places.items())
        delays += delay_lines(of, number)
    yield from delays
    side = draw.choice("UL")
    other = (of.hertz, side) if draw.random() < 0.6 else (of.hertz * 3 // 4, "L" if side == "U" else "U")
    yield from (f"product {x} {x}" for x in of.channels)
    if other == (of.hertz, side):
        yield from (f"product {x} {y}" for x in of.channels for y in of.channels if x != y)
    yield f"rate {of.rate}"
    yield f"scan S {time(of.start)} {of.samples}"
    yield from (f"band {x} {hertz} {s}" for x, (hertz, s) in zip(of.channels, ((of.hertz, side), other)))


def phase_lines(of: Row) -> Iterator[str]:
    """A text of phases: 2 to 7 bins, and entries whose phase rises and falls by turns, or from one knot to the next, in any order."""
    draw = of.draw
    bins = f"bins {draw.randint(2, 7)}"
    begun, past = draw.choice((0, -1)), (of.samples - 1) // of.rate + 1
    rises = draw.choice((-1, 1))
    rows = []
    for second in [begun, *range(1, past)]:
        turn = max(draw.choice((5, 64, 300, of.samples)) + draw.random(), of.knot / 2)  # samples a turn
        first = round(rises * 2**56 * of.knot / turn)
        most = min(abs(first) * 2**24 * of.knot // of.samples, 2**56)
        further = [draw.randint(-most, most) for _ in range(draw.choice((0, 0, 1)))]
        rows.append(" ".join(["phase", time(of.start + second), *map(str, [draw.randint(-(2**34), 2**34), first, *further])]))
        rises = -rises
    draw.shuffle(rows)
    yield from [bins, *rows] if draw.random() < 0.5 else [*rows, bins]


def files(recorded: Shape, key: str) -> list[str]:
    """The names of a station's files, one for each thread."""
    return [f"{key.lower()}{thread}.vdif" for thread in sorted(recorded.seeds)]


def recording_lines(of: Row, recorded: Shape, number: int) -> Iterator[str]:
    """The files of a station: in each the frames of a thread, from a little before the scan to a little behind it."""
    margin = 1 + 80 // recorded.frame_samples
    for (thread, seed), file in zip(recorded.seeds.items(), files(recorded, "ABC"[number])):
        fields = f"thread={thread} bits={recorded.bits} chans={recorded.chans.bit_length() - 1} noise={recorded.words}"
        offset = of.offsets[number] // recorded.frame_samples
        first, past = offset + (-margin if of.draw.random() < 0.7 else 1), offset + of.samples // recorded.frame_samples + margin
        places = [divmod(k * recorded.frame_samples, of.rate) for k in range(first, past)]
        frames = [(of.start - YEAR + second, place // recorded.frame_samples) for second, place in places]
        yield from file_lines(of.draw, frames, f"station={number + 1} {fields}", f"station=99 {fields}", seed)
        yield f"file {file}"


def file_lines(draw: random.Random, frames: list[tuple[int, int]], fields: str, foreign: str, seed: int) -> Iterator[str]:
    """Frames by their seconds and numbers, some of which are not as they should be."""
    chance = draw.choice((0, 0.04, 0.15))
    run: list[tuple[int, int]] = []
    late: list[str] = []
    for frame in frames:
        kind = draw.choice(KINDS) if draw.random() < chance else "good"
        if run and (kind != "good" or frame[0] != run[0][0]):
            yield frames_line(run, fields, seed)
            run = []
        if kind == "good":
            run.append(frame)
        if kind in ("invalid", "invalid and good"):
            yield frames_line([frame], f"invalid {fields}", seed + 1)
        if kind in ("invalid and good", "doubled"):
            yield frames_line([frame], fields, seed)
        if kind == "doubled":
            yield frames_line([frame], fields, seed + 1)
        if kind == "foreign":
            yield frames_line([frame], foreign, seed)
        if kind == "late":
            late.append(frames_line([frame], fields, seed))
    if run:
        yield frames_line(run, fields, seed)
    yield from late


def frames_line(run: list[tuple[int, int]], fields: str, seed: int) -> str:
    return f"frames {len(run)} second={run[0][0]} number={run[0][1]} {fields} seed={seed}"


def case_lines(number: int) -> Iterator[str]:
    of = row(number)
    text = list(job_lines(of))
    turns = " and ".join(f"every {turn}" if turn else "never" for turn in of.turns)
    yield f"case random job {number + 1}, {of.lags} lags, {of.samples} samples, sectors that turn {turns}"
    yield from (f"| {line}" for line in text)
    yield "file j"
    for station, recorded in enumerate(of.shapes):
        yield from recording_lines(of, recorded, station)
    if number >= PULSED:
        yield from (f"| {line}" for line in phase_lines(of))
        yield "file p"
    yield "call |plain|--job|j"
    if number < PULSED:
        yield f"call |run|--job|j|{threads(of.draw)}"
    else:
        yield from (f"call |bins|--job|j|--phase|p|{threads(of.draw)}" for _ in range(2))
    yield from restart_lines(number, "".join(f"{line}\n" for line in text))
    if number in PARTS:
        yield from part_lines(of, number, text)
    if number in MERGES:
        yield from merge_lines(of, number, text)


def threads(draw: random.Random) -> str:
    """How the sums of a call are shared out."""
    return f"--workers|{draw.choice((1, 2, 3, 64))}|--piece|{draw.choice((64, 100, 127, 1000, 4096, 4194304))}"


def restart_lines(number: int, text: str) -> Iterator[str]:
    """The job's journal is cut back and carried on, each time by epochs of another length. What a stop leaves is its front up to a gate that is
    closed, and maybe bytes behind it."""
    draw = random.Random(f"restarts {number}")
    job = whole_journals.SummedJob(text.encode())
    epochs = job.walk(job.first(), job.epoch)
    if number >= PULSED:
        epochs = job.walk(job.first(), samples := a_length(draw, job))
        yield f"call |run|--job|j|--epoch|{samples}|{threads(draw)}"
    for restart in range(1, RESTARTS + 1):
        kept = epochs[: draw.randrange(len(epochs))]
        samples = a_length(draw, job)
        yield from cut_lines(draw, f"R{number + 1}-{restart}", job.size(kept))
        yield f"call |status|--job|j|--epoch|{samples}"
        yield f"call |run|--job|j|--epoch|{samples}|{threads(draw)}"
        epochs = kept + job.walk(job.after(kept[-1]) if kept else job.first(), samples)
    yield "show"


def cut_lines(draw: random.Random, piece: str, size: int) -> Iterator[str]:
    """The journal is kept as a piece, and cut back to so many bytes, of which the last one is a closed gate."""
    yield f"keep {piece}"
    yield f"use {piece}"
    yield f"cut {size - 1}"
    yield f"bytes {draw.choice(('00', 'FF'))}{draw.choice(('', ',00*9', ',01*40', ',07*400', ',FF*70'))}"
    yield "journal"


def part_lines(of: Row, number: int, text: list[str]) -> Iterator[str]:
    """A part of the job, in shorter integrations and several scans, is summed into a journal of its own, which is cut back and carried on by epochs
    of another length."""
    draw = random.Random(f"parts {number}")
    lines = list(parted_lines(draw, of, text))
    job = whole_journals.SummedJob("".join(f"{line}\n" for line in lines).encode())
    half = job.integrations() // 2
    begin, end = draw.randint(0, half), draw.randint(half + 1, job.integrations())
    part = Part(job, begin, end)
    words = f"--from|{begin}|--to|{end}"
    yield from (f"| {line}" for line in lines)
    yield "file k"
    yield "journal"
    samples = part_length(draw, job)
    yield f"call |shard|--job|k|--epoch|{samples}|{threads(draw)}|{words}"
    epochs = part.walk(part.first(), samples)
    yield from cut_lines(draw, f"P{number + 1}", part.size(epochs[: draw.randrange(len(epochs))]))
    yield f"call |shard|--job|k|--epoch|{part_length(draw, job)}|{threads(draw)}|{words}"
    yield "show"


def merge_lines(of: Row, number: int, text: list[str]) -> Iterator[str]:
    """Three parts of the job, in shorter integrations and several scans, are summed, and merged: as they are, with a byte of a cell of one of them
    set, beside that one itself and in its place, and without it."""
    draw = random.Random(f"merges {number}")
    lines = list(parted_lines(draw, of, text))
    job = whole_journals.SummedJob("".join(f"{line}\n" for line in lines).encode())
    ranges, changed = overlapping(draw, job.integrations()), draw.randrange(3)
    yield from (f"| {line}" for line in lines)
    yield "file m"
    yield "call |plain|--job|m"
    for at, (begin, end) in enumerate(ranges):
        samples = part_length(draw, job)
        yield "journal"
        yield f"call |shard|--job|m|--epoch|{samples}|{threads(draw)}|--from|{begin}|--to|{end}"
        yield f"keep M{number + 1}-{at}"
        yield from [f"use M{number + 1}-{at}", f"file m{at}"]
        if at == changed:
            yield from [f"use M{number + 1}-{at}", byte_line(draw, Part(job, begin, end), samples), "file x"]
    names = ["m0", "m1", "m2"]
    others = [name for name in names if name != f"m{changed}"]
    for chosen in (names, [*names, "x"], [*others, "x"], others):
        yield f"call |merge|--job|m|{'|'.join(draw.sample(chosen, len(chosen)))}"


def overlapping(draw: random.Random, count: int) -> list[tuple[int, int]]:
    """Three ranges of so many integrations, of which each is in one at least."""
    cuts = [0, *sorted(draw.sample(range(1, count), 2)), count]
    return [(max(begin - draw.randint(0, 2), 0), min(end + draw.randint(0, 2), count)) for begin, end in zip(cuts, cuts[1:])]


def byte_line(draw: random.Random, part: Part, samples: int) -> str:
    """A byte of a cell is set in the journal of a part that was summed by epochs of so many samples."""
    epochs = part.walk(part.first(), samples)
    number = draw.randrange(len(epochs))
    cells = part.size(epochs[:number]) + 28
    return f"byte {cells + draw.randrange(24 * part.count(epochs[number]))} {draw.choice(('01', '5A', '80', 'FE'))}"


def parted_lines(draw: random.Random, of: Row, text: list[str]) -> Iterator[str]:
    """The lines of a job with shorter integrations, and with its scan cut in two at a whole second, where it has one, and a scan without a sample
    before the second of the two."""
    seconds = (of.samples - 1) // of.rate
    cut = draw.randint(1, seconds) if seconds else 0
    for line in text:
        word = line.split()[0]
        if word == "integration":
            yield f"integration {draw.randint(of.samples // 12, of.samples // 4)}"
        elif word == "scan":
            yield from [f"scan S {time(of.start)} {cut * of.rate - draw.choice((0, 7))}"] if cut else []
            yield f"scan T {time(of.start + cut)} 0"
            yield f"scan U {time(of.start + cut)} {of.samples - cut * of.rate}"
        else:
            yield line


def part_length(draw: random.Random, job: whole_journals.SummedJob) -> int:
    """Of the epochs of a job of short integrations."""
    return draw.choice((draw.randint(job.integration // 6, job.integration), draw.randint(job.integration // 2, 2 * job.integration), 4194304))


def a_length(draw: random.Random, job: whole_journals.SummedJob) -> int:
    """Of the epochs of a job of one scan: so that the scan has no more than some twenty."""
    samples = job.scans[0].samples
    return draw.choice((draw.randint(samples // 20, samples // 5), draw.randint(samples // 5, samples), job.integration, 4194304))


def lines() -> list[str]:
    """The lines of all cases."""
    return [FIRST, *(line for number in range(len(ROWS)) for line in case_lines(number))]


def binned(job: by_definition.Job, texts: by_definition.Files, cells: list[by_definition.Cell]) -> str:
    """What is printed of the bins of a pulse, whose cells add up to those of the job."""
    text, sorted_cells = by_definition.bin_records(job, texts, by_definition.pulse(texts["p"].decode()))
    assert [tuple(map(sum, zip(*bins))) for bins in sorted_cells] == cells
    assert any(sum(1 for bin_cell in bins if bin_cell[2]) > 1 for bins in sorted_cells)
    return whole_calls.told_bins(text)


def answers(asked: list[str]) -> list[str]:
    """What is printed for these lines."""
    found: list[str] = []
    jobs: dict[bytes, whole_journals.SummedJob] = {}
    work = 0
    table = whole_calls.Table()
    for name, texts, word, words in table.calls(asked):
        if word == "show":
            found.append(f"{name}, journal: {whole_journals.shown(table.journal)}")
            continue
        text = texts[words[words.index("--job") + 1]]
        if text not in jobs:
            jobs[text] = whole_journals.SummedJob(text, texts)
        if words[0] == "plain":
            job = jobs[text].plan
            work += sum(scan.samples for scan in job.scans) * job.numbers["lags"] * len(job.products) * len(by_definition.baselines(job))
            records, cells = by_definition.records(job, texts)
            told = whole_calls.told(records, cells)
            told_bins = binned(job, texts, cells) if "p" in texts and text == texts["j"] else ""
        answer = told_bins if words[0] == "bins" else told
        if words[0] in ("run", "status", "shard"):
            answer, _, table.journal = whole_journals.call(jobs[text], table.journal, words, told)
        if words[0] == "merge":
            answer = merged_journals.merge(jobs[text], [(file, texts[file]) for file in words[3:]])
        found.append(f"{name}: {answer}")
    assert work < MOST, work
    return found


if __name__ == "__main__":
    print("\n".join(lines() if sys.argv[1:] == ["lines"] else answers(lines())))
