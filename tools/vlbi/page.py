"""A page of a night's fringes: one HTML file that stands for itself, for a screen, a telephone and paper.

    page.write("night.html", report.read(["sky.vis"]), "sky.vis")

Pictures are small maps of lag against rate inside the page; the large one of a fringe is drawn by the page itself when it is asked for,
from the numbers that stand beside the small one.
"""
from __future__ import annotations

import base64
import functools
import html
import io
import math
import os
import time
from collections.abc import Iterator

import matplotlib
import numpy
from numpy.typing import NDArray
from PIL import Image

import vlbi
from vlbi import plot, report
from vlbi.report import FRINGE, MAYBE, NO_PAIRS, NONE, UNKNOWN, Night, Row, Sampler, Seen

CLASSES = {FRINGE: "good", MAYBE: "maybe", NONE: "bad", UNKNOWN: "unknown", NO_PAIRS: "empty"}
HEADS = ("baseline", "product", "", "fringe", "SNR", f"lag ({plot.MICROSECONDS})", "rate (Hz)", "amplitude", "samples (%)")  # of amplitudes the unit is said
WIDE, HIGH = 96, 40  # of a small picture, in points

STYLE, SCRIPT = "page.css", "page.js"  # beside this module


def write(path: str, night: Night, title: str) -> None:
    """Writes the page of a night; OSError where it cannot be written."""
    with open(path, "w", encoding="utf-8") as out:
        out.writelines(parts(night, title))


def parts(night: Night, title: str) -> Iterator[str]:
    """The page, piece by piece."""
    begins = min((scan.start for scan in night.scans), default=0)
    yield "<!DOCTYPE html>\n<html lang=\"en\"><head><meta charset=\"utf-8\"><meta name=\"viewport\" content=\"width=device-width, initial-scale=1\">"
    yield f"<title>{html.escape(title)}</title><style>\n{beside(STYLE)}</style></head>\n<body>\n<h1>{html.escape(title)}</h1>\n"
    yield f"<p class=\"of\">From {moment(begins)} UTC on; made by vlbi-report {vlbi.__version__}. "
    yield "<span>A click on a picture draws it large, one on a column's head sorts.</span></p>\n"
    yield from summary(night)
    yield from overview(night)
    yield "<noscript>The tables of the scans are shown where scripts may run.</noscript>\n"
    for number, scan in enumerate(night.scans):
        yield from section(number, scan)
    yield f"<div id=\"large\"><div></div></div>\n<script>\n{beside(SCRIPT)}</script>\n</body></html>\n"


def beside(name: str) -> str:
    """The text of a file beside this module."""
    with open(os.path.join(os.path.dirname(__file__), name), encoding="utf-8") as file:
        return file.read()


def moment(second: int) -> str:
    return time.strftime("%Y-%m-%d %H:%M:%S", time.gmtime(second))


def summary(night: Night) -> Iterator[str]:
    """What is to be known, in words."""
    yield "<ul class=\"words\">\n"
    for kind, said, lines in report.words_of(night):
        code = f"<code>{html.escape(chr(10).join(lines))}</code>" if lines else ""
        yield f"<li class=\"{kind}\">{html.escape(said)}{code}</li>\n"
    yield "</ul>\n"


def overview(night: Night) -> Iterator[str]:
    """A table of scans and stations: how many of a station's baselines and products have a fringe."""
    keys = list(dict.fromkeys(key for scan in night.scans for key in scan.keys))
    yield "<h2>Fringes by scan and station</h2>\n<div class=\"wide\"><table><thead><tr><th>scan</th><th>begin</th><th>length (s)</th>"
    yield "".join(f"<th>{html.escape(key)}</th>" for key in keys) + "</tr></thead>\n<tbody>\n"
    for number, scan in enumerate(night.scans):
        yield f"<tr><td><a href=\"#s{number}\">{html.escape(scan.name)}</a></td><td>{moment(scan.start)}</td><td>{scan.seconds:g}</td>"
        yield "".join(station_cell(scan, key) for key in keys) + "</tr>\n"
    yield "</tbody></table></div>\n"


def station_cell(scan: Seen, key: str) -> str:
    """How many of a station's rows have a fringe, coloured by it."""
    states = [row.state for row in scan.of_station(key)]
    if not states:
        return "<td></td>"
    there = states.count(FRINGE)
    kind = "good" if there == len(states) else "empty" if set(states) == {NO_PAIRS} else "unknown" if UNKNOWN in states else "maybe" if there else "bad"
    return f"<td class=\"{kind}\">{there} of {len(states)}</td>"


def section(number: int, scan: Seen) -> Iterator[str]:
    """A scan: the table of its baselines and products, and its spectra."""
    heads = [scan.rows[0].unit if head == "amplitude" and scan.rows else head for head in HEADS]
    yield f"<section id=\"s{number}\" data-reach=\"{scan.reach:.6g}\" data-seconds=\"{scan.seconds:.6g}\">\n"
    yield f"<h2>{html.escape(scan.path)} {html.escape(scan.name)}, {moment(scan.start)}, {scan.seconds:g} s</h2>\n"
    yield "<div class=\"wide\"><table class=\"rows\"><thead><tr>" + "".join(f"<th>{head}</th>" for head in heads)
    yield "</tr></thead>\n<tbody></tbody></table></div>\n"
    yield "<script type=\"text/html\">\n"
    yield from map(table_row, scan.rows)
    yield "</script>\n"
    if scan.samplers:
        yield "<h2>Stations with themselves</h2>\n<div class=\"spectra\">" + "".join(map(spectrum_of, scan.samplers)) + "</div>\n"
    yield "</section>\n"


def table_row(row: Row) -> str:
    kind = CLASSES[row.state]
    numbers = [shown(row.snr, "{:.1f}"), signed(row.lag), signed(row.rate), shown(row.amplitude, "{:.4g}"), f"{row.share * 100:.1f}"]
    low = " class=\"bad\"" if row.share < report.THERE else ""
    cells = "".join(f"<td>{one}</td>" for one in numbers[:-1])
    return (f"<tr class=\"{kind}\"><td>{html.escape(row.name)}</td><td>{html.escape(row.channels)}</td><td>{small(row)}</td>"
            f"<td class=\"{kind}\">{row.state}</td>{cells}<td{low}>{numbers[-1]}</td></tr>\n")


def shown(number: float, form: str) -> str:
    return form.format(number) if math.isfinite(number) else ""


def signed(number: float) -> str:
    return plot.signed(number, 4) if math.isfinite(number) else ""


def small(row: Row) -> str:
    """The small picture, and the numbers of the large one; nothing where there are no pairs."""
    if row.state == NO_PAIRS:
        return ""
    top, late = (float(abs(means).max(initial=0)) for means in (row.lags, row.times))
    raw = b"".join((levels(row.lags, top), phases(row.lags), levels(row.times, late), phases(row.times)))
    numbers = f"{len(row.lags)} {len(row.times)} {row.rates[0]:.4g} {row.rates[1]:.4g} {top:.4g} {late:.4g}"
    return (f"<a class=\"p\" href=\"#\" data-n=\"{numbers}\" data-u=\"{html.escape(row.unit)}\" data-d=\"{base64.b64encode(raw).decode()}\">"
            f"<img alt=\"{html.escape(row.name)}\" width=\"{WIDE}\" height=\"{HIGH}\" loading=\"lazy\" decoding=\"async\" src=\"{picture(row.map)}\"></a>")


def levels(means: NDArray[numpy.complex128], top: float) -> bytes:
    """Amplitudes in steps of 1/255 of the greatest."""
    return (abs(means) * (255 / max(top, 1e-300))).round().astype(numpy.uint8).tobytes()


def phases(means: NDArray[numpy.complex128]) -> bytes:
    """Phases in steps of 1/255 of a turn, from half a turn back to half a turn on."""
    return ((numpy.angle(means) / (2 * numpy.pi) + 0.5) * 255).round().astype(numpy.uint8).tobytes()


def picture(shades: NDArray[numpy.uint8]) -> str:
    """A map as a picture inside the page, the highest rate above."""
    high, wide = shades.shape
    made = Image.frombytes("P", (wide, high), numpy.ascontiguousarray(shades[::-1]).tobytes())
    made.putpalette(palette())
    out = io.BytesIO()
    made.save(out, "PNG", bits=4)
    return "data:image/png;base64," + base64.b64encode(out.getvalue()).decode()


@functools.lru_cache(maxsize=None)
def palette() -> bytes:
    """The colours of the shades, from dark to light, three bytes each."""
    table = matplotlib.colormaps["viridis"](numpy.linspace(0, 1, report.SHADES))
    return bytes((table[:, :3] * 255).round().astype(numpy.uint8).ravel())


def spectrum_of(one: Sampler) -> str:
    """A spectrum, and the sampler's levels in words."""
    powers = numpy.maximum(one.powers, 0)
    top = 1.1 * float(powers.max(initial=0)) or 1.0
    points = " ".join(f"{180 * (place + 0.5) / len(powers):.1f},{60 - 60 * power / top:.1f}" for place, power in enumerate(powers.tolist()))
    words = f": {html.escape(one.words)}" if one.words else ""
    drawn = f"<svg viewBox=\"0 0 180 60\"><polyline fill=\"none\" stroke=\"#1f5fa8\" points=\"{points}\"/></svg>"
    said = f"<figcaption>{html.escape(one.key)} {html.escape(one.channel)}{words}</figcaption>"
    return f"<figure class=\"{'good' if one.is_right else 'bad'}\">{drawn}{said}</figure>"
