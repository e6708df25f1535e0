"""Pictures of the fringes of a record file: over lag, over time, and over lag and residual rate; and of a text of the cells of bins: over the bins
of a pulse and lag. It is the command `vlbi-plot`."""
from __future__ import annotations

import functools
import itertools
import os
from collections.abc import Callable, Iterable, Iterator, Sequence
from typing import Any

import matplotlib
import numpy
from matplotlib import backend_bases, colors, text
from matplotlib.figure import Figure
from numpy.typing import NDArray

from vlbi import fringe as fringes
from vlbi.certificate import Certificate, Peak
from vlbi.faults import Fault
from vlbi.records import BinScan, Scan

# matplotlib has no types
Axes = Any
Place = Any
NewFigure = Callable[..., Figure]

ROWS = 10        # rows of a page
COLUMNS = {"page": 1, "lags": 2, "time": 2, "map": 3, "bins": 2}  # places in a row
MOST_ROWS = 512  # rows of a map that are drawn
COLOURS = ("#1f5fa8", "#c8501e", "#2e8b57", "#8a4fa3", "#b8860b", "#00868b", "#a0305a", "#5a6b1f")
PEAK = "#e8502a"
CERTIFIED = "#d6006f"
SMALL = 8        # points of the letters
MINUS = "\N{MINUS SIGN}"
NO_PAIRS = "no pairs"
MICROSECONDS = "\N{MICRO SIGN}s"


class Pair:
    """A baseline and a product of a scan, numbers from 0, with its fringe.

    scale      what a mean product of levels is multiplied by to be drawn, and `unit` what it is then: per cent of correlation where
               both stations were correlated with themselves, else as it is
    certified  its peak by a certificate, which is marked where there is one
    """

    def __init__(self, scan: Scan, baseline: int, product: int) -> None:
        self.scan = scan
        self.baseline = baseline
        self.product = product
        self.certified: Peak | None = None
        (a, b), (x, y) = scan.baselines[baseline], scan.head.products[product]
        power = float(numpy.sqrt(fringes.power(scan, a, x) * fringes.power(scan, b, y)))
        self.scale, self.unit = (100 / power, "correlation (%)") if power > 0 else (1.0, "mean product")

    @functools.cached_property
    def fringe(self) -> fringes.Fringe:
        """The fringe, which is looked for when it is asked for."""
        return fringes.of(self.scan, self.product, self.baseline)

    @property
    def baseline_name(self) -> str:
        return "\N{EN DASH}".join(self.scan.baseline_keys[self.baseline])

    @property
    def product_name(self) -> str:
        x, y = self.scan.head.products[self.product]
        return x if x == y else f"{x} \N{MULTIPLICATION SIGN} {y}"

    @functools.cached_property
    def has_pairs(self) -> bool:
        return fringes.has_pairs(self.scan, self.product, self.baseline)

    @property
    def peak_words(self) -> str:
        """The peak's lag, residual rate and signal to noise in words, or that there is none."""
        if not self.has_pairs:
            return NO_PAIRS
        fringe = self.fringe
        lag = f"lag {signed(fringe.lag, 2)} samples ({signed(fringe.lag * 1e6 / self.scan.head.rate, 3)} {MICROSECONDS})"
        return ",  ".join([lag, f"rate {signed(fringe.rate, 3)} Hz", f"SNR {fringe.snr:.0f}" if numpy.isfinite(fringe.snr) else "SNR unknown"])

    def over_lags(self) -> NDArray[numpy.complex128]:
        """The mean over the scan at each lag, turned back at the peak's rate: complex128 (L,), 0 where it has no pair."""
        cells = self.scan.cells[:, self.product, self.baseline]
        sums = (cells["re"] + 1j * cells["im"]) * fringes.back(self.scan.times, self.fringe.rate if self.has_pairs else 0.0)[:, None]
        means: NDArray[numpy.complex128] = self.scale * sums.sum(axis=0) / numpy.maximum(cells["count"].sum(axis=0), 1)
        return means

    def over_time(self) -> NDArray[numpy.complex128]:
        """The mean at the lag nearest to the peak in each integration: complex128 (M,), NaN where it has no pair."""
        return self.scale * self.scan.means(self.product, self.baseline)[:, self.fringe.nearest]


class BinPair(Pair):
    """A baseline and a product of a scan whose pairs stand in the bins of a pulse, with the fringe of its strongest bin.

    binned  the BinScan, of which `scan` is the sum over all bins
    """

    def __init__(self, binned: BinScan, summed: Scan, baseline: int, product: int) -> None:
        super().__init__(summed, baseline, product)
        self.binned = binned

    @functools.cached_property
    def strongest(self) -> tuple[int, fringes.Fringe]:
        """The bin, and its fringe, whose amplitude is the greatest against the noise of as many pairs as it has."""
        found = [fringes.of(self.binned.of_bin(number), self.product, self.baseline) for number in range(self.binned.cells.shape[3])]
        pairs = self.binned.cells["count"][:, self.product, self.baseline].sum(axis=0, dtype=numpy.float64).max(axis=1)
        strength = [numpy.nan_to_num(fringe.amplitude) * many ** 0.5 for fringe, many in zip(found, pairs)]
        number = int(numpy.argmax(strength))
        return number, found[number]

    @functools.cached_property
    def fringe(self) -> fringes.Fringe:
        return self.strongest[1]

    @property
    def peak_words(self) -> str:
        return f"bin {self.strongest[0]},  {super().peak_words}" if self.has_pairs else NO_PAIRS

    def over_bins(self) -> NDArray[numpy.float64]:
        """The amplitude of the mean over the scan in each bin and at each lag, turned back at the peak's rate: float64 (Z, L), NaN without a pair."""
        cells = self.binned.cells[:, self.product, self.baseline]
        counts = cells["count"].sum(axis=0, dtype=numpy.float64)
        turned = (cells["re"] + 1j * cells["im"]) * fringes.back(self.scan.times, self.fringe.rate if self.has_pairs else 0.0)[:, None, None]
        heights: NDArray[numpy.float64] = self.scale * numpy.abs(turned.sum(axis=0)) / numpy.where(counts > 0, counts, numpy.nan)
        return heights


def signed(number: float, places: int) -> str:
    """A number with its sign, and a zero with none."""
    written = f"{number:+.{places}f}"
    return written[1:] if float(written) == 0 else written.replace("-", MINUS)


def pairs_of(scan: Scan, baselines: Sequence[str], products: Sequence[str], auto: bool) -> list[Pair]:
    """The Pairs of these baselines (`Ef-Wb`) and products (`CH01,CH01`), of all where none is named; BinPairs of a BinScan.

    Those of a station with itself stand among them where they are named, or with `auto`.
    """
    def has(baseline: int) -> bool:
        a, b = scan.baselines[baseline]
        return "-".join(scan.baseline_keys[baseline]) in baselines if baselines else auto or a != b

    new: Callable[[int, int], Pair] = functools.partial(Pair, scan)
    if isinstance(scan, BinScan):
        new = functools.partial(BinPair, scan, scan.summed)
    return [
        new(baseline, product)
        for baseline in range(len(scan.baselines)) if has(baseline)
        for product, channels in enumerate(scan.head.products) if not products or ",".join(channels) in products
    ]


def certify(pairs: Iterable[Pair], certificate: Certificate, scan: int) -> None:
    """Gives the Pairs of the scan of this number their peaks by a certificate."""
    for pair in pairs:
        pair.certified = certificate.peaks[scan, pair.product, pair.baseline]


def draw_phases(axes: Axes, places: NDArray[numpy.float64], means: NDArray[numpy.complex128], colour: str) -> None:
    """Phases in degrees as points, the fainter the smaller their amplitude."""
    amplitudes = numpy.abs(means)
    there = amplitudes > 0
    strength = numpy.clip(amplitudes[there] / amplitudes[there].max(initial=1e-300), 0.1, 1)
    size = 9 if len(places) <= 400 else 3
    if there.any():
        axes.scatter(places[there], numpy.angle(means[there], deg=True), s=size, color=colour, alpha=strength, linewidths=0)
    axes.set_ylim(-190, 190)
    axes.set_yticks((-180, -90, 0, 90, 180))
    axes.grid(axis="y", color="#dddddd", linewidth=0.6)
    axes.set_axisbelow(True)


def draw_amplitudes(axes: Axes, places: NDArray[numpy.float64], means: NDArray[numpy.complex128], colour: str, label: str) -> None:
    """Amplitudes as a line, with points where there are few; the axis goes from 0 past the greatest of all that it shows."""
    amplitudes = numpy.abs(means)
    style: dict[str, Any] = {"marker": "o", "markersize": 2.5} if len(places) <= 100 else {}
    before = axes.get_ylim()[1] if axes.lines else 0
    axes.plot(places, amplitudes, color=colour, linewidth=0.9 if len(places) <= 1000 else 0.25, label=label, **style)
    axes.set_ylim(0, max(before, 1.12 * numpy.nanmax(amplitudes, initial=0)) or 1)
    axes.grid(axis="y", color="#eeeeee", linewidth=0.6)
    axes.set_axisbelow(True)


def draw_lags(upper: Axes, lower: Axes, pairs: Sequence[Pair]) -> None:
    """Amplitude above and phase below, over lag, of the products of a baseline."""
    lags = pairs[0].fringe.lags
    for pair, colour in zip(pairs, itertools.cycle(COLOURS)):
        means = pair.over_lags()
        draw_amplitudes(upper, lags, means, colour, pair.product_name)
        draw_phases(lower, lags, means, colour)
        if pair.certified:
            for axes in (upper, lower):
                axes.axvline(pair.certified.lag, color=mark_colour(pairs, colour), linestyle="--", linewidth=1)
    say_certified(upper, pairs)
    for axes in (upper, lower):
        axes.set_xlim(lags[0] - 0.5, lags[-1] + 0.5)
    microsecond_axis(upper, pairs[0].scan.head.rate)
    lower.set_xlabel("lag (samples)", fontsize=SMALL, labelpad=1)


def draw_time(upper: Axes, lower: Axes, pairs: Sequence[Pair]) -> None:
    """Amplitude above and phase below, of the lag nearest to the peak, over the seconds of the scan, of the products of a baseline."""
    scan = pairs[0].scan
    for pair, colour in zip(pairs, itertools.cycle(COLOURS)):
        means = pair.over_time()
        draw_amplitudes(upper, scan.times, means, colour, pair.product_name)
        draw_phases(lower, scan.times, means, colour)
        if pair.certified:
            turned = pair.certified.phase + 360 * pair.certified.rate * (scan.times - scan.times[0])
            lower.plot(scan.times, (turned + 180) % 360 - 180, "_", color=mark_colour(pairs, colour), markersize=4)
    say_certified(upper, pairs)
    for axes in (upper, lower):
        axes.set_xlim(0, max(scan.samples, 1) / scan.head.rate)
    lower.set_xlabel("time in the scan (s)", fontsize=SMALL, labelpad=1)


def draw_map(figure: Figure, place: Place, pair: Pair) -> None:
    """The amplitude over lag and residual rate in a place of a grid, with the peak ringed and a scale beside it."""
    fringe = pair.fringe
    inner = place.subgridspec(1, 3, width_ratios=(40, 1.2, 4.5), wspace=0.05)
    axes = figure.add_subplot(inner[0])
    axes.tick_params(labelsize=SMALL)
    axes.set_xlabel("lag (samples)", fontsize=SMALL, labelpad=1)
    axes.set_ylabel("residual rate (Hz)", fontsize=SMALL, labelpad=2)
    axes.set_xlim(fringe.lags[0] - 0.5, fringe.lags[-1] + 0.5)
    microsecond_axis(axes, pair.scan.head.rate)
    if len(fringe.rates) < 2 or not pair.has_pairs:
        said = "one integration has no rates" if pair.has_pairs else NO_PAIRS
        axes.text(0.5, 0.5, said, transform=axes.transAxes, ha="center", va="center", color="#777777")
        axes.set_yticks([])
        return
    step = fringe.rates[1] - fringe.rates[0]
    extent = (*axes.get_xlim(), fringe.rates[0] - step / 2, fringe.rates[-1] + step / 2)
    # the root of the amplitude, so that sidelobes and noise are seen beside the peak
    image = axes.imshow(pair.scale * shrunk(fringe.map), extent=extent, origin="lower", aspect="auto", cmap="viridis",
                        interpolation="nearest", norm=colors.PowerNorm(0.5, vmin=0))
    bar = figure.colorbar(image, cax=figure.add_subplot(inner[1]))
    bar.ax.tick_params(labelsize=SMALL - 1, length=2)
    bar.set_label(pair.unit, fontsize=SMALL, labelpad=3)
    axes.plot(fringe.lag, fringe.rate, marker="o", markersize=12, markerfacecolor="none", markeredgecolor=PEAK, markeredgewidth=1.6)
    if pair.certified:
        lowest, turn = fringe.rates[0], len(fringe.rates) * step
        axes.plot(pair.certified.lag, (pair.certified.rate - lowest) % turn + lowest, marker="+", markersize=12, color=CERTIFIED, markeredgewidth=1.6)
    say_certified(axes, [pair])
    axes.set_xlim(extent[:2])
    axes.set_ylim(extent[2:])


def draw_bins(figure: Figure, place: Place, pair: BinPair) -> None:
    """The amplitude over lag and bin in a place of a grid, with the peak ringed and a scale beside it, and over the bins at the peak's lag."""
    inner = place.subgridspec(1, 5, width_ratios=(30, 1.2, 6, 13, 3), wspace=0.05)
    axes, profile = figure.add_subplot(inner[0]), figure.add_subplot(inner[3])
    heights = pair.over_bins()
    bins, fringe = len(heights), pair.fringe
    for one, label in ((axes, "lag (samples)"), (profile, pair.unit)):
        one.tick_params(labelsize=SMALL)
        one.set_xlabel(label, fontsize=SMALL, labelpad=1)
        one.set_ylim(-0.5, bins - 0.5)
        one.yaxis.get_major_locator().set_params(integer=True)
    axes.set_ylabel("bin", fontsize=SMALL, labelpad=2)
    extent = (fringe.lags[0] - 0.5, fringe.lags[-1] + 0.5, -0.5, bins - 0.5)
    axes.set_xlim(extent[:2])
    microsecond_axis(axes, pair.scan.head.rate)
    profile.tick_params(labelleft=False)
    turns = profile.secondary_yaxis("right", functions=(lambda number: (number + 0.5) / bins, lambda turn: turn * bins - 0.5))
    turns.tick_params(labelsize=SMALL - 1, pad=0, length=2)
    turns.set_ylabel("phase (turns)", fontsize=SMALL - 1, labelpad=2)
    if not pair.has_pairs:
        axes.text(0.5, 0.5, NO_PAIRS, transform=axes.transAxes, ha="center", va="center", color="#777777")
        return
    image = axes.imshow(heights, extent=extent, origin="lower", aspect="auto", cmap="viridis", interpolation="nearest", vmin=0)
    figure.colorbar(image, cax=figure.add_subplot(inner[1])).ax.tick_params(labelsize=SMALL - 1, length=2)
    axes.plot(fringe.lag, pair.strongest[0], marker="o", markersize=12, markerfacecolor="none", markeredgecolor=PEAK, markeredgewidth=1.6)
    axes.set_xlim(extent[:2])
    axes.set_ylim(extent[2:])
    profile.barh(numpy.arange(bins), numpy.nan_to_num(heights[:, fringe.nearest]), height=1, color=COLOURS[0])


def mark_colour(pairs: Sequence[Pair], colour: str) -> str:
    """The colour of the mark of a certified peak: with several Pairs that in which its own is drawn."""
    return CERTIFIED if len(pairs) == 1 else colour


def say_certified(axes: Axes, pairs: Sequence[Pair]) -> None:
    """Says in a corner where the certified peak of a lone Pair is; with several, or none, nothing."""
    peak = pairs[0].certified if len(pairs) == 1 else None
    if peak:
        said = f"certified: lag {signed(peak.lag, 0)}, rate {signed(peak.rate, 3)} Hz"
        axes.text(0.015, 0.965, said, transform=axes.transAxes, ha="left", va="top", fontsize=SMALL - 1, color=CERTIFIED,
                  bbox={"facecolor": "white", "alpha": 0.8, "linewidth": 0, "pad": 1.5})


def shrunk(heights: NDArray[numpy.float64], most: int = MOST_ROWS) -> NDArray[numpy.float64]:
    """A map of at most so many rows, each the greatest of those that it stands for, so that no peak is lost."""
    times = -(-len(heights) // most)
    padded = numpy.pad(heights, ((0, -len(heights) % times), (0, 0)))
    greatest: NDArray[numpy.float64] = padded.reshape(-1, times, heights.shape[1]).max(axis=1)
    return greatest


def microsecond_axis(axes: Axes, rate: int) -> None:
    """A second axis above, of lags in microseconds."""
    above = axes.secondary_xaxis("top", functions=(lambda lag: lag * 1e6 / rate, lambda us: us * rate / 1e6))
    above.tick_params(labelsize=SMALL - 1, pad=0, length=2)
    above.set_xlabel(f"lag ({MICROSECONDS})", fontsize=SMALL - 1, labelpad=2)


def stacked(figure: Figure, place: Place, unit: str) -> tuple[Axes, Axes]:
    """Two axes in a place of a grid, one above the other, for amplitude and phase."""
    inner = place.subgridspec(2, 1, height_ratios=(3, 2), hspace=0.1)
    upper, lower = figure.add_subplot(inner[0]), figure.add_subplot(inner[1])
    for axes in (upper, lower):
        axes.tick_params(labelsize=SMALL)
    upper.tick_params(labelbottom=False)
    upper.set_ylabel(f"amplitude,\n{unit}", fontsize=SMALL)
    lower.set_ylabel("phase (\N{DEGREE SIGN})", fontsize=SMALL, labelpad=0)
    return upper, lower


class Sheet:
    """A figure of rows and columns of places of one size, in inches, each with a line of words above it."""

    TOP, GAP, BELOW, LEFT, RIGHT, BETWEEN = 0.45, 0.62, 0.42, 0.75, 0.25, 0.8

    def __init__(self, new: NewFigure, title: str, rows: int, widths: Sequence[float], height: float) -> None:
        self.height = height
        self.size = (self.LEFT + sum(widths) + self.BETWEEN * (len(widths) - 1) + self.RIGHT, self.TOP + rows * (self.GAP + height + self.BELOW))
        self.widths = widths
        self.figure = new(figsize=self.size)
        self.figure.text(self.LEFT / self.size[0], 1 - 0.3 / self.size[1], title, fontsize=12, va="center")

    def left(self, column: int) -> float:
        return self.LEFT + sum(self.widths[:column]) + self.BETWEEN * column

    def bottom(self, row: int) -> float:
        return self.size[1] - self.TOP - (row + 1) * (self.GAP + self.height) - row * self.BELOW

    def place(self, row: int, column: int) -> Place:
        """The place of this row and column, as a place of a grid."""
        wide, high = self.size
        left, bottom = self.left(column), self.bottom(row)
        return self.figure.add_gridspec(1, 1, left=left / wide, right=(left + self.widths[column]) / wide, bottom=bottom / high,
                                        top=(bottom + self.height) / high)[0]

    def words(self, row: int, column: int, bold: str, more: str = "") -> None:
        """The line above a place: a name, and what is said of it."""
        across, up = self.left(column) / self.size[0], (self.bottom(row) + self.height + 0.42) / self.size[1]
        name = self.figure.text(across, up, bold, fontsize=10, fontweight="bold", va="center")
        if more:
            behind = text.Annotation(more, (1, 0.5), xycoords=name, xytext=(8, 0), textcoords="offset points", fontsize=9, va="center")
            self.figure.add_artist(behind)


def draw_page(new: NewFigure, pairs: Sequence[Pair], title: str) -> Figure:
    """A row of each fringe: over lag, over time, and the map."""
    sheet = Sheet(new, title, len(pairs), (3.9, 4.2, 4.7), 2.1)
    for row, pair in enumerate(pairs):
        sheet.words(row, 0, f"{pair.baseline_name}  {pair.product_name}", pair.peak_words)
        draw_lags(*stacked(sheet.figure, sheet.place(row, 0), pair.unit), [pair])
        draw_time(*stacked(sheet.figure, sheet.place(row, 1), pair.unit), [pair])
        draw_map(sheet.figure, sheet.place(row, 2), pair)
    return sheet.figure


def draw_sheet(new: NewFigure, pairs: Sequence[Pair], title: str, draw: Callable[[Axes, Axes, Sequence[Pair]], None]) -> Figure:
    """A place for each baseline, its products drawn in colours by `draw`."""
    by_baseline = grouped(pairs)
    columns = min(len(by_baseline), COLUMNS["lags"])
    sheet = Sheet(new, title, -(-len(by_baseline) // columns), (6.0,) * columns, 2.4)
    for number, group in enumerate(by_baseline):
        row, column = divmod(number, columns)
        upper, lower = stacked(sheet.figure, sheet.place(row, column), group[0].unit)
        sheet.words(row, column, group[0].baseline_name, group[0].peak_words if len(group) == 1 else "")
        draw(upper, lower, group)
        if len(pairs) > len(by_baseline):
            upper.legend(fontsize=SMALL - 1, loc="upper right", ncol=2, framealpha=0.8)
    return sheet.figure


def draw_maps(new: NewFigure, pairs: Sequence[Pair], title: str) -> Figure:
    """A map of each fringe, those of a baseline beside each other, up to three."""
    columns = min(len(pairs), COLUMNS["map"])
    sheet = Sheet(new, title, -(-len(pairs) // columns), (5.2,) * columns, 2.8)
    for number, pair in enumerate(pairs):
        row, column = divmod(number, columns)
        sheet.words(row, column, f"{pair.baseline_name}  {pair.product_name}", pair.peak_words)
        draw_map(sheet.figure, sheet.place(row, column), pair)
    return sheet.figure


def draw_bin_maps(new: NewFigure, pairs: Sequence[BinPair], title: str) -> Figure:
    """The bins of each fringe, two beside each other."""
    columns = min(len(pairs), COLUMNS["bins"])
    sheet = Sheet(new, title, -(-len(pairs) // columns), (6.6,) * columns, 2.8)
    for number, pair in enumerate(pairs):
        row, column = divmod(number, columns)
        sheet.words(row, column, f"{pair.baseline_name}  {pair.product_name}", pair.peak_words)
        draw_bins(sheet.figure, sheet.place(row, column), pair)
    return sheet.figure


def grouped(pairs: Iterable[Pair]) -> list[list[Pair]]:
    """The Pairs of each baseline together."""
    by_baseline: dict[int, list[Pair]] = {}
    for pair in pairs:
        by_baseline.setdefault(pair.baseline, []).append(pair)
    return list(by_baseline.values())


def pages(pairs: Sequence[Pair], what: str) -> list[list[Pair]]:
    """The Pairs of each page: as many as ROWS rows hold. A place is a Pair's, or with `lags` and `time` those of a baseline together."""
    places = grouped(pairs) if what in ("lags", "time") else [[pair] for pair in pairs]
    size = ROWS * COLUMNS[what]
    return [list(itertools.chain(*places[first:first + size])) for first in range(0, len(places), size)]


def figure_of(pairs: Sequence[Pair], what: str, title: str, new: NewFigure = Figure) -> Figure:
    """The figure of a page: `what` is page, lags, time or map, or for BinPairs bins. `new` makes it: of its own, or in a window."""
    if what == "page":
        return draw_page(new, pairs, title)
    if what == "map":
        return draw_maps(new, pairs, title)
    if what == "bins":
        return draw_bin_maps(new, [pair for pair in pairs if isinstance(pair, BinPair)], title)
    return draw_sheet(new, pairs, title, {"lags": draw_lags, "time": draw_time}[what])


def check_picture(path: str) -> None:
    """Fault where no picture can be written under this name: an ending that is no kind of picture, a folder that is not there."""
    kinds = backend_bases.FigureCanvasBase.get_supported_filetypes()
    ending = os.path.splitext(path)[1].removeprefix(".").lower()
    if ending not in kinds:
        raise Fault(f"no picture has this ending: take .png, .pdf or .svg (or one of {', '.join(sorted(kinds))})", path)
    folder = os.path.dirname(path) or "."
    if not os.path.isdir(folder):
        raise Fault(f"there is no folder {folder}", path)
    if os.path.isdir(path):
        raise Fault("this is a folder", path)


def save(groups: Sequence[Sequence[Pair]], what: str, title: str, path: str, dpi: int) -> Iterator[str]:
    """Writes a picture of each page, and gives its path once it is written: `path`, then with -2, -3 .. before its ending.

    A PDF has them all as pages of one file. Fault where it cannot be written.
    """
    check_picture(path)
    try:
        if path.lower().endswith(".pdf"):
            save_pages(groups, what, title, path)
            yield path
            return
        for number, pairs in enumerate(groups):
            named = numbered(path, number)
            figure_of(pairs, what, title).savefig(named, dpi=dpi)
            yield named
    except (OSError, ValueError) as error:  # a full disk; a picture of more dots than there may be
        if isinstance(error, Fault):
            raise
        raise Fault(str(getattr(error, "strerror", None) or error), path) from error


def save_pages(groups: Sequence[Sequence[Pair]], what: str, title: str, path: str) -> None:
    """Writes the pages of a PDF."""
    from matplotlib.backends.backend_pdf import PdfPages

    with PdfPages(path) as file:
        for pairs in groups:
            file.savefig(figure_of(pairs, what, title))


def show(groups: Sequence[Sequence[Pair]], what: str, title: str) -> None:
    """Shows each page in a window, until all are closed; Fault where there are no windows."""
    from matplotlib import pyplot

    if matplotlib.get_backend().lower() == "agg":
        raise Fault("there are no windows here: name a picture")
    for pairs in groups:
        figure_of(pairs, what, title, pyplot.figure)
    pyplot.show()


def numbered(path: str, number: int) -> str:
    """The path of the picture of this number from 0: that given, then with -2, -3 .. before its ending."""
    front, end = os.path.splitext(path)
    return path if number == 0 else f"{front}-{number + 1}{end}"
