#!/usr/bin/python3
"""Simulates two stations for ten seconds, correlates them with their delays and without, draws both, and compares with theory.

    fringe.py PROGRAM FOLDER [SECONDS]

FOLDER gets the recordings, the records sky.vis and blind.vis, and the pictures sky.png and blind.png. The exit status is 1 where a
number is not what theory says.
"""
from __future__ import annotations

import os
import subprocess
import sys

import numpy

if __name__ == "__main__":
    sys.path.insert(0, os.path.dirname(os.path.dirname(os.path.abspath(__file__))))

import theory
from numpy.typing import NDArray

from vlbi import fringe as fringes
from vlbi import records, simulate
from vlbi.commands import plot

Reals = NDArray[numpy.float64]

STATIONS = (simulate.Station("Ef"), simulate.Station("Wb", delay=(4.95e-6, 1e-8), clock=(2.5e-6,)))


def correlate(program: str, folder: str, job: str, out_name: str) -> records.Records:
    """The records of a job of a folder with the schedule sky.vex, which go into a file there."""
    run_job(program, folder, job, out_name, "sky.vex")
    return records.read(os.path.join(folder, out_name))


def run_job(program: str, folder: str, job: str, out_name: str, schedule: str) -> None:
    """Runs a job of a folder by `run` with four workers; what it prints goes into a file there."""
    journal = os.path.join(folder, f"{job}.journal")
    if os.path.exists(journal):
        os.remove(journal)
    words = [program, f"{job}.journal", "run", "--job", f"{job}.txt", "--vex", schedule, "--workers", "4", "--piece", "65536"]
    with open(os.path.join(folder, out_name), "wb") as out:
        subprocess.run(words, cwd=folder, stdout=out, check=True)


class Comparison:
    """Numbers found and due, a line each; `failed` once one is further off than it may be."""

    def __init__(self) -> None:
        self.failed = False
        print(f"{'':34} {'theory':>10} {'found':>10} {'may differ by':>14}")

    def line(self, what: str, due: float, found: float, most: float) -> None:
        wrong = not abs(found - due) <= most
        self.failed = self.failed or wrong
        print(f"{what:34} {due:10.4f} {found:10.4f} {most:14.4f}{'  WRONG' * wrong}")


def compare(sky: simulate.Sky, found: records.Records, blind: records.Records) -> bool:
    """Compares the fringes of both jobs with theory; whether all is as due."""
    lead = STATIONS[1].lead(numpy.linspace(0, sky.seconds, 201)) * sky.rate
    residuals = lead - numpy.floor(lead + 0.5)
    slope = STATIONS[1].delay[1]
    bin_width = 1 / sky.seconds
    # the middle of the band turns by its own sky frequency
    middle = sky.frequency + sky.rate / 4
    said = Comparison()

    fringe = fringes.of(found.scans[0], 0, 0)
    said.line("with delays: lag (samples)", 0, fringe.lag, 0.5)
    said.line("with delays: rate (Hz)", 0, fringe.rate, bin_width)
    due = theory.rotated_amplitude(sky.common, residuals, sky.bits)
    said.line("with delays: amplitude", due, fringe.amplitude, 0.05 * due)
    phases = numpy.angle(found.scans[0].means(0, 0)[:, fringe.nearest], deg=True)
    said.line("with delays: furthest phase (deg)", 0, float(numpy.abs(phases).max()), 25)

    fringe = fringes.of(blind.scans[0], 0, 0)
    said.line("without: lag (samples)", lead.mean(), fringe.lag, 0.5)
    # both values are real, so a fringe turns one way as much as the other
    said.line("without: rate, either way (Hz)", middle * slope, abs(fringe.rate), bin_width)
    due = theory.blind_amplitude(sky.common, lead - round(lead.mean()), sky.bits, middle * slope * blind.head.integration / sky.rate)
    said.line("without: amplitude", due, fringe.amplitude, 0.05 * due)
    return not said.failed


def main(program: str, folder: str, seconds: str = "10") -> int:
    program = os.path.abspath(program)
    sky = simulate.Sky(STATIONS, seconds=int(seconds))
    simulate.simulate(sky, folder)
    found = correlate(program, folder, "job", "sky.vis")
    blind = correlate(program, folder, "blind", "blind.vis")
    for name in ("sky", "blind"):
        plot.main([os.path.join(folder, f"{name}.vis"), os.path.join(folder, f"{name}.png")])
    return 0 if compare(sky, found, blind) else 1


if __name__ == "__main__":
    sys.exit(main(*sys.argv[1:]))
