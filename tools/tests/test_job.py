"""`vlbi.job`: the lines of a job, and what a job comes to."""
from __future__ import annotations

import math
import random
from fractions import Fraction

import pytest

from vlbi import job as jobs


def test_lines_from_what_a_station_has() -> None:
    # worked out in docs/FORMATS.md
    assert jobs.clock_line("Wb", 1262304000, 2.5, 1e-12, 16_000_000) == "clock Wb 2010y001d00h00m00s 171798691840 68719"
    assert jobs.poly_line("Wb", 1262304000, [1e-6, 1e-6], 16_000_000) == "poly Wb 2010y001d00h00m00s 68719476736 2361183241434823"
    assert jobs.poly_line("Wb", 1262304000, ["1e-6", "0.000001"], 16_000_000) == "poly Wb 2010y001d00h00m00s 68719476736 2361183241434823"


def test_the_value_of_a_line() -> None:
    # worked out in docs/MODEL.md: a delay that grows by a sample in 128, and one that falls
    for sample in (0, 63, 64, 127):
        assert jobs.poly_value([0, 2 ** 56], 128, sample) == sample * 2 ** 25
        assert jobs.poly_value([2 ** 32, -2 ** 56], 128, sample) == 2 ** 32 - sample * 2 ** 25


def test_numbers_past_their_greatest() -> None:
    with pytest.raises(jobs.JobFault, match="station Wb: a clock offset or drift past its greatest"):
        jobs.clock_line("Wb", 0, 1e12, 0, 16_000_000)
    with pytest.raises(jobs.JobFault, match="station Wb: a delay has one to six numbers"):
        jobs.poly_line("Wb", 0, [], 16_000_000)
    with pytest.raises(jobs.JobFault, match="it is past the greatest delay"):
        jobs.poly_line("Wb", 0, [1e9], 16_000_000)
    with pytest.raises(jobs.JobFault, match="past its greatest with every knot"):
        jobs.knot_line([[0], [1e9]], 16_000_000)


def earth(late: float, phase: float) -> list[float]:
    """The first six coefficients of a station's delay as the earth turns: late * cos(w t + phase)."""
    w = 2 * math.pi / 86164.1
    return [late * w ** k / math.factorial(k) * math.cos(phase + k * math.pi / 2) for k in range(6)]


@pytest.mark.parametrize("rate, knot", [(1_000_000, 8192), (2_000_000, 16384), (4_000_000, 16384), (8_000_000, 32768), (128_000_000, 32768)])
def test_a_real_delay_names_its_knot(rate: int, knot: int) -> None:
    """The 21 milliseconds of the earth's radius, at the worst of many phases, go into every job with the knot that is named."""
    delays = [earth(0.021, phase / 10) for phase in range(63)]
    found = jobs.largest_knot(delays, rate)
    assert found == knot
    assert jobs.knot_line(delays, rate) == f"knot {found}"
    for delay in delays:
        jobs.poly_line("Wb", 1262304000, delay, rate, found)
    if found < jobs.KNOT:
        with pytest.raises(jobs.JobFault, match=f"with a knot of {found} samples, in the job's `knot` line too, they do"):
            for delay in delays:
                jobs.poly_line("Wb", 1262304000, delay, rate, 2 * found)


START = 1262304000  # 2010y001d00h00m00s


@pytest.mark.parametrize("period, derivative, epoch, counts", [
    (1, 0, START, "0 72057594037927936"),                                    # a turn a second: 2^56 in 2^24 knots of a second
    ("0.5", "0", START, "0 144115188075855872"),
    (4, 0, START - 1, "1073741824 18014398509481984"),                       # a quarter of a turn is past, 2^30
    (4, 0, START + 1, "3221225472 18014398509481984"),                       # a quarter of a turn is due
    (4, 0, START - 4 * 10 ** 9 - 1, "1073741824 18014398509481984"),         # whole turns are left out
    (1, Fraction(1, 2 ** 30), START, "0 72057594037927936 -562949953421312"),   # after 2^24 seconds 2^48 / 2^30 / 2 turns, 2^17, are lost
    (1, Fraction(1, 2 ** 30), START - 2 ** 15, "2147483648 72055395014672384 -562949953421312"),  # 1/2 turn is lost, and 2^-15 of the frequency
])
def test_phase_lines(period: jobs.Number, derivative: jobs.Number, epoch: int, counts: str) -> None:
    """Of 64 samples a second and knots of 64 samples, by docs/FORMATS.md."""
    assert jobs.phase_line(START, period, derivative, epoch, 64, 64) == f"phase 2010y001d00h00m00s {counts}"


def test_six_terms_of_a_phase() -> None:
    turns: list[jobs.Number] = [Fraction(-1, 4), 1, Fraction(1, 2 ** 30), Fraction(1, 2 ** 50), 0, Fraction(-1, 2 ** 120)]
    line = jobs.turns_line(START, turns, 64, 64)
    assert line == f"phase 2010y001d00h00m00s {3 * 2 ** 30} {2 ** 56} {2 ** 50} {2 ** 54} 0 {-2 ** 32}"


def test_the_phase_of_a_line_at_samples() -> None:
    """It is as near to the ephemeris as is said, for pulsars of all kinds."""
    draw = random.Random(1)
    for _ in range(300):
        period, derivative = Fraction(repr(10 ** draw.uniform(-2.8, 1))), Fraction(repr(10 ** draw.uniform(-21, -9) * draw.choice((1, 1, -1, 0))))
        epoch = START + Fraction(draw.randint(-10 ** 12, 10 ** 12), 10 ** 4)
        rate = draw.choice((64_000, 2_000_000, 32_000_000, 1_048_576))
        knot = jobs.largest_phase_knot([jobs.phase_turns(START, period, derivative, epoch)], rate)
        if knot is None:
            continue
        counts = [int(count) for count in jobs.phase_line(START, period, derivative, epoch, rate, knot).split()[2:]]
        chord = abs(derivative) / period ** 2 / 8 * Fraction(knot, rate) ** 2 * 2 ** 32
        for sample in (0, 1, knot, draw.randrange(2 ** 24 * knot), draw.randrange(rate * 1000), (2 ** 24 - 1) * knot - 1):
            t = START + Fraction(sample, rate) - epoch
            due = (t / period - derivative * t * t / (2 * period * period)) * 2 ** 32
            off = (jobs.poly_value(counts, knot, sample) - due + 2 ** 31) % 2 ** 32 - 2 ** 31
            assert Fraction(-9, 2) - chord <= off <= Fraction(3, 2) + chord


def test_phases_past_their_greatest() -> None:
    """A pulsar of 1.5 milliseconds at 2 Ms/s: 2^24 knots of 8,192 samples hold 4.6 * 10^7 turns, and 2^26 turns are too many."""
    turns = jobs.phase_turns(START, "0.0015", 0, START)
    assert jobs.largest_phase_knot([turns], 2_000_000) == 8192
    assert jobs.phase_line(START, "0.0015", 0, START, 2_000_000, 8192).startswith("phase 2010y001d00h00m00s 0 ")
    with pytest.raises(jobs.JobFault, match="knot of 16384 samples; with a knot of 8192 samples, in the job's `knot` line too, it does"):
        jobs.phase_line(START, "0.0015", 0, START, 2_000_000, 16384)
    with pytest.raises(jobs.JobFault, match="it turns too fast for any knot"):
        jobs.phase_line(START, "1e-9", 0, START, 1)
    with pytest.raises(jobs.JobFault, match="a period is above 0 seconds: 0"):
        jobs.phase_line(START, 0, 0, START, 64)
    with pytest.raises(jobs.JobFault, match="a phase has one to six numbers: 7"):
        jobs.turns_line(START, [0] * 7, 64)


def test_dates() -> None:
    days: list[jobs.Number] = ["40587", 55197, "55197.25", "55197.00000000001"]
    assert [jobs.mjd_second(day) for day in days] == [0, START, START + 21600, START + Fraction(864, 10 ** 9)]


def test_epochs_of_a_schedule() -> None:
    schedule = b"""VEX_rev = 1.5; * a schedule
$MODE; def M; ref $FREQ = F : Wb; ref $FREQ = G : Ef:On; ref $FREQ = F : Mc; enddef;
$FREQ; def F; sample_rate = 16.0Ms/sec; enddef; def G; sample_rate = 16 Ms/sec; x = "scan T; ; endscan;"; enddef;
$SCHED;
scan A; start = 2010y001d00h00m00s; mode = M; start_literal(x); scan B; end_literal(x);
station = Ef : 0 sec : 2.5 sec; station = Wb : 1 sec : 3 sec : : :; station = Mc : 0 sec : 9 sec; endscan;
scan B; start = 2010y001d01h00m00s; mode = M; station = Ef : 0 sec : 2 sec; endscan;
scan C; start = 2010y001d02h00m00s; mode = M; station = On : 0 sec : 1 sec; station = Wb : 0 sec : 1sec; endscan;
"""
    job = b"lags 4\nintegration 32000000 # two seconds\nepoch 3000000\nstation Ef 1 2 1 40\nstation Wb 2 2 1 40\nstation On 3 2 1 40\nproduct X X\n"
    plan = jobs.plan(job, schedule)
    assert [(scan.name, scan.samples, scan.baselines) for scan in plan.scans] == [("A", 48_000_000, ((0, 1),)), ("C", 16_000_000, ((1, 2),))]
    assert [plan.epochs_of(scan) for scan in plan.scans] == [11 + 6, 6]
    assert [scan.name for scan in jobs.plan(job + b"take C\n", schedule).scans] == ["C"]


def test_the_epochs_of_a_job_one_by_one() -> None:
    """Scans of 7, 0 and 3 samples in integrations of 5."""
    scans = (("A", 7), ("B", 0), ("C", 3))
    plan = jobs.Plan(4, 5, 2, ("Ef", "Wb"), (("X", "X"),), tuple(jobs.Scan(name, samples, ((0, 1),)) for name, samples in scans))
    cuts = {
        1: [(0, 0, 0, 1), (0, 0, 1, 2), (0, 0, 2, 3), (0, 0, 3, 4), (0, 0, 4, 5), (0, 1, 5, 6), (0, 1, 6, 7), (2, 0, 0, 1), (2, 0, 1, 2), (2, 0, 2, 3)],
        2: [(0, 0, 0, 2), (0, 0, 2, 4), (0, 0, 4, 5), (0, 1, 5, 7), (2, 0, 0, 2), (2, 0, 2, 3)],
        3: [(0, 0, 0, 3), (0, 0, 3, 5), (0, 1, 5, 7), (2, 0, 0, 3)],
        9: [(0, 0, 0, 5), (0, 1, 5, 7), (2, 0, 0, 3)],
    }
    for epoch, due in cuts.items():
        by, place, found = plan.by(epoch), plan.first(), []
        assert by.epochs == by.left(place) == len(due)
        while place is not None:
            found.append(by.cut(place))
            place = by.after(found[-1])
            assert by.left(place) == len(due) - len(found)
        assert found == due
    # behind an epoch of another length, in the midst of an integration
    assert [plan.by(epoch).left(jobs.Place(0, 0, 1)) for epoch in (None, 1, 3, 9)] == [5, 9, 4, 3]
    assert plan.by(None) is plan and plan.left(None) == 0 and plan.first(3) is None


def test_the_parts_of_a_job() -> None:
    """Scans of 7, 0 and 8 samples in integrations of 5: two in the first and two in the last one."""
    scans = (("A", 7), ("B", 0), ("C", 8))
    plan = jobs.Plan(4, 5, 2, ("Ef", "Wb"), (("X", "X"),), tuple(jobs.Scan(name, samples, ((0, 1),)) for name, samples in scans))
    integrations = [[(0, 0, 0, 2), (0, 0, 2, 4), (0, 0, 4, 5)], [(0, 1, 5, 7)], [(2, 0, 0, 2), (2, 0, 2, 4), (2, 0, 4, 5)], [(2, 1, 5, 7), (2, 1, 7, 8)]]
    assert plan.integrations == 4 and plan.limited(0, 4) == plan
    for begin in range(5):
        for end in range(begin, 7):
            part, due = plan.limited(begin, end), [epoch for epochs in integrations[begin:end] for epoch in epochs]
            place, found = part.first(), []
            assert part.epochs == part.left(place) == len(due) and part.integrations == len(integrations[begin:end])
            assert part.samples == sum(last - first for _, _, first, last in due) == part.pairs // 4
            while place is not None:
                found.append(part.cut(place))
                place = part.after(found[-1])
                assert part.left(place) == len(due) - len(found)
            assert found == due
            assert part.limited(1, 2) == plan.limited(begin + 1, min(begin + 2, end))


@pytest.mark.parametrize("job, schedule, said", [
    (b"lags 4\n", b"", "the job has no line `integration` with a number"),
    (b"lags 4\nintegration 4.5\nepoch 1\n", b"", "the job: no whole number: 4.5"),
    (b"lags x\nintegration 4\nepoch 1\n", b"", "the job: no number: x"),
    (b"lags 4\n", b"VEX_rev = 2.0;", "the schedule: Revision at byte 0"),
    (b"lags 4\n", b"VEX_rev = 1.5;", "the schedule: NoSched at byte 0"),
])
def test_jobs_that_cannot_be_read(job: bytes, schedule: bytes, said: str) -> None:
    with pytest.raises(jobs.JobFault) as caught:
        jobs.plan(job, schedule)
    assert str(caught.value) == said
