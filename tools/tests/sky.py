#!/usr/bin/python3
"""Three stations look at two sources, in the upper sideband and in the lower: recordings that move as on the sky, the job of vlbi-model, records,
pictures, FITS-IDI.

    sky.py PROGRAM FOLDER

The recordings are made by one evaluation of the delay, `vlbi.wavefront`, and correlated by another, `vlbi.delay`: where both are right the fringe
has no lag, rate and phase. FOLDER gets all files, and the pictures No0001.png, No0002.png and phases.png. The exit status is 1 where a number is
not what theory says.
"""
from __future__ import annotations

import os
import sys
from typing import Any

import numpy

if __name__ == "__main__":
    sys.path.insert(0, os.path.dirname(os.path.dirname(os.path.abspath(__file__))))

from fringe import Comparison, Reals, run_job
from numpy.typing import NDArray

from vlbi import records
from vlbi.commands import fits, model, plot, simulate

SCHEDULE = """VEX_rev = 1.5;
$STATION;
def Ef; ref $SITE = EFLSBERG; ref $ANTENNA = EFLSBERG; ref $CLOCK = Ef; enddef;
def Wb; ref $SITE = WSTRBORK; ref $ANTENNA = WSTRBORK; ref $CLOCK = Wb; enddef;
def Hh; ref $SITE = HARTRAO; ref $ANTENNA = HARTRAO; ref $CLOCK = Hh; enddef;
$SITE;
def EFLSBERG; site_position = 4033947.2355 m : 486990.7943 m : 4900431.0017 m;
  site_velocity = -0.0143 m/yr : 0.0170 m/yr : 0.0102 m/yr; site_position_epoch = 51544; enddef;
def WSTRBORK; site_position = 3828445.4180 m : 445223.9030 m : 5064921.7230 m; enddef;
def HARTRAO; site_position = 5085442.7800 m : 2668263.4830 m : -2768696.7440 m; enddef;
$ANTENNA;
def EFLSBERG; axis_type = az : el; axis_offset = 0.013 m; enddef;
def WSTRBORK; axis_type = ha : dec; axis_offset = 4.95 m; enddef;
def HARTRAO; axis_type = ha : dec; axis_offset = 6.695 m; enddef;
$SOURCE;
def 3C273B; ra = 12h29m06.6997s; dec = 02d03'08.598"; ref_coord_frame = J2000; enddef;
def 3C279; ra = 12h56m11.1666s; dec = -05d47'21.525"; ref_coord_frame = J2000; enddef;
$CLOCK;
def Ef; clock_early = 2010y115d00h00m00s : 1.25 usec; enddef;
def Wb; clock_early = 2010y115d00h00m00s : 2.5 usec : 2010y115d08h00m00s : 1e-12; enddef;
def Hh; clock_early = 2010y115d00h00m00s : -31.7 usec : 2010y115d08h00m00s : -4e-13; clock_early = 2010y115d20h31m00s : -31.6 usec; enddef;
$EOP;
def A; TAI-UTC = 34 sec; eop_ref_epoch = 2010y113d; num_eop_points = 5; eop_interval = 24 hr;
  ut1-utc = -0.0109741 sec : -0.0127474 sec : -0.0146273 sec : -0.0165350 sec : -0.0183205 sec;
  x_wobble = -0.069994 asec : -0.070343 asec : -0.070748 asec : -0.071127 asec : -0.070811 asec;
  y_wobble = 0.371843 asec : 0.374067 asec : 0.376327 asec : 0.378538 asec : 0.380923 asec; enddef;
$MODE;
def X; ref $FREQ = X; ref $BBC = X; ref $IF = X; enddef;
def Y; ref $FREQ = Y; ref $BBC = X; ref $IF = X; enddef;
$FREQ;
def X; sample_rate = 0.064 Ms/sec; chan_def = : 8400.00 MHz : U : 0.032 MHz : &CH01 : &BBC01 : &NoCal; enddef;
def Y; sample_rate = 0.064 Ms/sec; chan_def = : 8400.00 MHz : L : 0.032 MHz : &CH01 : &BBC01 : &NoCal; enddef;
$BBC;
def X; BBC_assign = &BBC01 : 01 : &IF_A; enddef;
$IF;
def X; if_def = &IF_A : A : R : 8080 MHz : U; enddef;
$SCHED;
scan No0001; start = 2010y115d20h30m00s; mode = X; source = 3C273B;
  station = Ef : 0 sec : 150 sec; station = Wb : 0 sec : 150 sec; station = Hh : 10 sec : 150 sec; endscan;
scan No0002; start = 2010y115d20h33m00s; mode = Y; source = 3C279;
  station = Ef : 0 sec : 60 sec; station = Wb : 0 sec : 60 sec; station = Hh : 0 sec : 60 sec; endscan;
"""
RATE, HERTZ, COMMON = 64_000, 8.4e9, 0.2
KEPT = 0.8        # of the signal to noise, by two bits and two rotations of three levels
SIGMAS = 6.0      # of a median
BETWEEN = 0.3e-12  # seconds: how far two evaluations of a delay on one baseline may be apart


def found_in(path: str) -> dict[tuple[str, str], tuple[Reals, NDArray[numpy.complex128]]]:
    """Seconds and spectra by baseline and source, of a FITS-IDI file."""
    from astropy.io import fits as files

    with files.open(path) as file:
        keys = [str(name) for name in file["ANTENNA"].data["ANNAME"]]
        sources = [str(name) for name in file["SOURCE"].data["SOURCE"]]
        rows: Any = file["UV_DATA"].data
        flux = rows["FLUX"].reshape(len(rows), -1, 2).astype(numpy.float64)
        seconds, seen = rows["TIME"] * 86400.0, flux[..., 0] + 1j * flux[..., 1]
        found = {}
        for baseline in sorted(set(rows["BASELINE"].tolist())):
            for source in sorted(set(rows["SOURCE_ID"].tolist())):
                chosen = (rows["BASELINE"] == baseline) & (rows["SOURCE_ID"] == source)
                found["-".join(keys[one - 1] for one in divmod(baseline, 256)), sources[source - 1]] = seconds[chosen], seen[chosen]
    return found


def middle(seen: NDArray[numpy.complex128], axis: int) -> NDArray[numpy.complex128]:
    """The median of real and imaginary parts: where a whole delay changes in the midst of an integration, the upper end of the band has noise alone."""
    found: NDArray[numpy.complex128] = numpy.median(seen.real, axis=axis) + 1j * numpy.median(seen.imag, axis=axis)
    return found


def compare(said: Comparison, name: str, seconds: Reals, seen: NDArray[numpy.complex128]) -> None:
    """Compares the fringe of a baseline and a source with none."""
    snr = KEPT * COMMON * numpy.sqrt(RATE * len(seconds))
    inner = seen[:, 1:-1]  # of the channel at the edge half is in the band
    mean = middle(inner, 0).mean()
    places = numpy.arange(inner.shape[1]) / (2 * seen.shape[1])  # turns a sample
    slope, _ = numpy.polyfit(places, numpy.angle(middle(inner, 0) / mean) / (2 * numpy.pi), 1)
    rate, _ = numpy.polyfit(seconds, numpy.angle(middle(inner, 1) / mean) / (2 * numpy.pi), 1)
    of_noise = SIGMAS * numpy.sqrt(12) / (2 * numpy.pi * snr)
    length = len(seconds)
    said.line(f"{name}: lag (samples)", 0, slope, 2 * of_noise)
    said.line(f"{name}: rate (microhertz)", 0, rate * 1e6, (of_noise / length + HERTZ * BETWEEN / length) * 1e6)
    said.line(f"{name}: phase (deg)", 0, float(numpy.angle(mean, deg=True)), numpy.degrees(SIGMAS / snr) + 360 * HERTZ * BETWEEN)
    said.line(f"{name}: coherence", COMMON, float(abs(mean)), 0.02 * COMMON + SIGMAS * COMMON / snr)


def draw(path: str, found: dict[tuple[str, str], tuple[Reals, NDArray[numpy.complex128]]]) -> None:
    """A picture of all phases over time."""
    import matplotlib

    matplotlib.use("Agg")
    from matplotlib import pyplot

    figure, axes = pyplot.subplots(len(found), 1, sharex=True, sharey=True, figsize=(9, 9), constrained_layout=True)
    start = min(seconds[0] for seconds, _ in found.values())
    for one, ((baseline, source), (seconds, seen)) in zip(axes, found.items()):
        one.plot(seconds - start, numpy.angle(middle(seen, 1), deg=True), ".", markersize=3)
        one.set(ylim=(-30, 30), ylabel="degrees")
        one.set_title(f"{baseline}   {source}", loc="left", fontsize=9)
    axes[-1].set_xlabel("seconds")
    figure.savefig(path, dpi=100)


def main(program: str, folder: str) -> int:
    os.makedirs(folder, exist_ok=True)
    at = {name: os.path.join(folder, name) for name in ("night.vex", "stations.txt", "model.txt", "job.txt", "sky.vis", "sky.fits", "phases.png")}
    with open(at["night.vex"], "w") as out:
        out.write(SCHEDULE)
    simulate.main(["--sky", at["night.vex"], "--no-atmosphere", "--common", str(COMMON), "--quiet", folder])
    model.main([at["night.vex"], "--no-atmosphere", "-o", at["model.txt"]])
    with open(at["job.txt"], "w") as out:
        for name in ("stations.txt", "model.txt"):
            with open(at[name]) as lines:
                out.write(lines.read())
    run_job(os.path.abspath(program), folder, "job", "sky.vis", "night.vex")
    for scan in records.read(at["sky.vis"]).scans:
        plot.main(["--scan", scan.name, at["sky.vis"], os.path.join(folder, f"{scan.name}.png")])
    fits.main([at["sky.vis"], "--job", at["job.txt"], "--vex", at["night.vex"], "--correct", "-o", at["sky.fits"]])
    found = found_in(at["sky.fits"])
    draw(at["phases.png"], found)
    said = Comparison()
    for (baseline, source), (seconds, seen) in found.items():
        compare(said, f"{baseline} {source}", seconds, seen)
    return int(said.failed)


if __name__ == "__main__":
    sys.exit(main(*sys.argv[1:]))
