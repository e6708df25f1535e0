"""FITS-IDI files of the records of the correlator `vlbi`, as the astronomers' programs read them (AIPS Memo 114).

    seen = observation.of(records.read("sky.vis"), "job.txt", "sky.vex")
    fits.write("sky.fits", seen, geometry.Computed({one.key: one.site for one in seen.stations}, seen.orientation))

A visibility of the antennas A and B is the mean of A's signal times the conjugate of B's, and u, v and w are A's less B's, in seconds of
light. So a wave that reaches B `d` seconds late has the phase +2 pi f d at the sky frequency f, in either sideband, and a source that lies l
to the east and m to the north of the place that the delays were made for has 2 pi f (u l + v m).

It needs the Python package astropy.
"""
from __future__ import annotations

import dataclasses
import os
import time
import warnings
from collections.abc import Iterator
from typing import Any, BinaryIO

import numpy
from astropy.io import fits
from numpy.typing import NDArray

from vlbi import __version__, geometry, quantiser, rotation, spectrum
from vlbi.earth import LIGHT, UNIX_DAY, UNIX_MJD
from vlbi.faults import Fault
from vlbi.geometry import Geometry
from vlbi.observation import Band, Observation, Setup
from vlbi.records import Scan

Reals = NDArray[numpy.float64]
Complexes = NDArray[numpy.complex128]

DAY = 86400
BLOCK = 1 << 20      # cells that are transformed at once
FITS_BLOCK = 2880    # bytes
PIECES = 4           # stretches of an integration in each of which a delay is taken to change evenly
MOUNTS = {("az", "el"): 0, ("ha", "dec"): 1, ("x", "yew"): 3, ("x", "yns"): 3}
DEGREES_PER_DAY = 360.9856473354  # that the earth turns


@dataclasses.dataclass(frozen=True)
class Shape:
    """What all rows of a file have alike.

    stokes    the Stokes parameters by their numbers in FITS, each one less than the one before it
    bands     the number of bands
    channels  the channels of a band
    width     that of a channel in hertz
    reference  the sky frequency in hertz from which those of the bands are counted
    day       the first second of the first scan's day, since 1970-01-01
    """

    stokes: tuple[int, ...]
    bands: int
    channels: int
    width: float
    reference: float
    day: int

    @property
    def date(self) -> str:
        return time.strftime("%Y-%m-%d", time.gmtime(self.day))


def shape_of(seen: Observation) -> Shape:
    """The Shape of an observation's file; Fault where its scans do not go into one."""
    head = seen.records.head
    bands = {len(setup.bands) for setup in seen.setups}
    widths = {band.bandwidth for setup in seen.setups for band in setup.bands}
    if len(bands) != 1 or len(widths) != 1:
        raise Fault("the scans have no band, or not equally many, or bands of more than one bandwidth: they go into no one file of FITS")
    day = min(scan.start for scan in seen.records.scans) // DAY * DAY
    channels, width = spectrum.channels(head.lags, head.rate, widths.pop()), head.rate / head.lags
    first = seen.setups[0].bands[0]
    reference = spectrum.first_channel(first.hertz, first.side, channels, width)
    return Shape(stokes_of(seen.setups), bands.pop(), channels, width, reference, day)


def stokes_of(setups: tuple[Setup, ...]) -> tuple[int, ...]:
    """The Stokes parameters of these setups, in a row: one or both of two equal hands, or all four of two hands."""
    codes = {place[1] for setup in setups for place in setup.places if place is not None}
    least, greatest = min(codes), max(codes)
    if least < -4 <= greatest:
        raise Fault("there are circular and linear polarisations: they go into no one file of FITS")
    first = -1 if greatest >= -4 else -5
    if least < first - 1:
        return tuple(range(first, first - 4, -1))
    return tuple(range(greatest, least - 1, -1))


def write(path: str, seen: Observation, place: Geometry, correct: bool = False) -> int:
    """Writes the FITS-IDI file of an observation; the number of its rows of visibilities.

    correct  whether visibilities are coefficients of correlation, else mean products of levels (`Amplitudes`)

    Fault where the observation goes into no such file; then, and where the file cannot be written, none is left.
    """
    shape = shape_of(seen)
    if not any(scan.cells.size for scan in seen.records.scans):
        raise Fault("there are no records in it")
    part = f"{path}.part"
    try:
        with open(part, "wb") as out:
            rows = write_to(out, seen, shape, place, Amplitudes(seen, correct))
        os.replace(part, path)
    finally:
        if os.path.exists(part):
            os.remove(part)
    return rows


def write_to(out: BinaryIO, seen: Observation, shape: Shape, place: Geometry, amplitudes: Amplitudes) -> int:
    """Writes the file; the number of its rows of visibilities."""
    with warnings.catch_warnings():
        warnings.filterwarnings("ignore", "Field . has a repeat count of 0")  # ORBPARM, which no station on earth has
        tables = [array_geometry(seen, shape), antennas(seen, shape), frequencies(seen, shape), sources(seen, shape)]
        fits.HDUList([primary(seen, shape, amplitudes.words), *tables]).writeto(out)
    rows = sum(int(kept(scan).sum()) for scan in seen.records.scans)
    out.write(visibility_header(seen, shape, rows).tostring().encode("ascii"))
    size = 0
    for number, scan in enumerate(seen.records.scans):
        for block in blocks(seen, shape, number, scan, place, amplitudes):
            size += out.write(block.tobytes())
    out.write(bytes(-size % FITS_BLOCK))
    return rows


# The tables before the visibilities

def primary(seen: Observation, shape: Shape, words: list[str]) -> Any:
    """The primary header, which has no data."""
    made = fits.PrimaryHDU()
    made.header.update({
        "GROUPS": True, "GCOUNT": 0, "PCOUNT": 0, "OBJECT": "BINARYTB", "TELESCOP": "VLBI", "OBSERVER": seen.code, "CORRELAT": "VLBI",
        "FXCORVER": __version__, "DATE-OBS": shape.date, "DATE-MAP": time.strftime("%Y-%m-%d", time.gmtime()), "ORIGIN": "vlbi-fits",
    })
    for word in words:
        made.header["HISTORY"] = word
    return made


def table(name: str, seen: Observation, shape: Shape, revision: int, columns: list[Any]) -> Any:
    """A table of these columns, with the keywords that all tables have."""
    made = fits.BinTableHDU.from_columns(columns, name=name)
    made.header.update({
        "EXTVER": 1, "TABREV": revision, "NO_STKD": len(shape.stokes), "STK_1": shape.stokes[0], "NO_BAND": shape.bands, "NO_CHAN": shape.channels,
        "REF_FREQ": shape.reference, "CHAN_BW": shape.width, "REF_PIXL": 1.0, "OBSCODE": seen.code, "ARRNAM": "VLBI", "RDATE": shape.date,
    })
    return made


def column(name: str, form: str, rows: Any, unit: str | None = None) -> Any:
    return fits.Column(name=name, format=form, unit=unit, array=numpy.array(rows))


def array_geometry(seen: Observation, shape: Shape) -> Any:
    """The stations' sites, at the first scan's day."""
    sites = [one.site for one in seen.stations]
    offsets = [one.antenna.offset if one.antenna else 0.0 for one in seen.stations]
    made = table("ARRAY_GEOMETRY", seen, shape, 1, [
        column("ANNAME", "8A", [one.key for one in seen.stations]),
        column("STABXYZ", "3D", [geometry.position(site, shape.day / DAY + UNIX_MJD) for site in sites], "METERS"),
        column("DERXYZ", "3E", [numpy.array(site.velocity or (0, 0, 0)) / (geometry.YEAR * DAY) for site in sites], "M/SEC"),
        fits.Column(name="ORBPARM", format="0D"),
        column("NOSTA", "1J", range(1, len(sites) + 1)),
        column("MNTSTA", "1J", [MOUNTS.get(one.antenna.axes, 0) if one.antenna else 0 for one in seen.stations]),
        column("STAXOF", "3E", [(offset, 0, 0) for offset in offsets], "METERS"),
        column("DIAMETER", "1E", [(one.antenna.diameter if one.antenna else None) or 0.0 for one in seen.stations], "METERS"),
    ])
    day = geometry.day_of(shape.day, seen.orientation)
    made.header.update({
        "FRAME": "GEOCENTRIC", "ARRAYX": 0.0, "ARRAYY": 0.0, "ARRAYZ": 0.0, "NUMORB": 0, "FREQ": shape.reference, "TIMSYS": "UTC",
        "GSTIA0": day.sidereal, "DEGPDY": DEGREES_PER_DAY, "UT1UTC": day.ut1_utc, "IATUTC": day.tai_utc, "POLARX": day.pole[0], "POLARY": day.pole[1],
    })
    return made


def antennas(seen: Observation, shape: Shape) -> Any:
    """The stations' polarisations and bits, for each setup."""
    hands = "RL" if shape.stokes[0] >= -4 else "XY"
    rows = [(setup, number) for setup in range(1, len(seen.setups) + 1) for number in range(len(seen.stations))]
    scans = seen.records.scans
    begin = (min(scan.start for scan in scans) - shape.day) / DAY
    end = (max(scan.start + scan.samples / scan.head.rate for scan in scans) - shape.day) / DAY
    angles = f"{shape.bands}E"
    made = table("ANTENNA", seen, shape, 1, [
        column("TIME", "1D", [(begin + end) / 2] * len(rows), "DAYS"),
        column("TIME_INTERVAL", "1E", [end - begin] * len(rows), "DAYS"),
        column("ANNAME", "8A", [seen.stations[number].key for _, number in rows]),
        column("ANTENNA_NO", "1J", [number + 1 for _, number in rows]),
        column("ARRAY", "1J", [1] * len(rows)),
        column("FREQID", "1J", [setup for setup, _ in rows]),
        column("NO_LEVELS", "1J", [2 ** seen.bits[number] for _, number in rows]),
        column("POLTYA", "1A", [hands[0]] * len(rows)),
        column("POLAA", angles, numpy.zeros((len(rows), shape.bands)), "DEGREES"),
        column("POLTYB", "1A", [hands[1]] * len(rows)),
        column("POLAB", angles, numpy.zeros((len(rows), shape.bands)), "DEGREES"),
    ])
    made.header["NOPCAL"] = 0
    return made


def frequencies(seen: Observation, shape: Shape) -> Any:
    """The bands of each setup, in each the channels by rising frequency, those of a lower sideband too: not all readers look at SIDEBAND."""
    setups = [setup.bands for setup in seen.setups]
    firsts = [[spectrum.first_channel(band.hertz, band.side, shape.channels, shape.width) for band in bands] for bands in setups]
    return table("FREQUENCY", seen, shape, 2, [
        column("FREQID", "1J", range(1, len(setups) + 1)),
        column("BANDFREQ", f"{shape.bands}D", [[first - shape.reference for first in row] for row in firsts], "HZ"),
        column("CH_WIDTH", f"{shape.bands}E", numpy.full((len(setups), shape.bands), shape.width), "HZ"),
        column("TOTAL_BANDWIDTH", f"{shape.bands}E", numpy.full((len(setups), shape.bands), shape.width * shape.channels), "HZ"),
        column("SIDEBAND", f"{shape.bands}J", numpy.ones((len(setups), shape.bands))),
        column("BB_CHAN", f"{shape.bands}J", [list(range(1, shape.bands + 1)) for _ in setups]),
    ])


def sources(seen: Observation, shape: Shape) -> Any:
    """The sources' places, in J2000 and as they appear on the first scan's day."""
    many = len(seen.sources)
    all_sources = [one.source for one in seen.sources]
    places = [geometry.apparent(one, shape.day) for one in all_sources]
    none = numpy.zeros((many, shape.bands))
    each, exact = f"{shape.bands}E", f"{shape.bands}D"
    return table("SOURCE", seen, shape, 2, [
        column("SOURCE_ID", "1J", range(1, many + 1)),
        column("SOURCE", "16A", [one.name for one in all_sources]),
        column("QUAL", "1J", [0] * many),
        column("CALCODE", "4A", [""] * many),
        column("FREQID", "1J", [seen.scan_setups[seen.scan_sources.index(number)] + 1 for number in range(many)]),
        column("IFLUX", each, none, "JY"),
        column("QFLUX", each, none, "JY"),
        column("UFLUX", each, none, "JY"),
        column("VFLUX", each, none, "JY"),
        column("ALPHA", each, none),
        column("FREQOFF", each, none, "HZ"),
        column("RAEPO", "1D", [numpy.degrees(one.right_ascension) for one in all_sources], "DEGREES"),
        column("DECEPO", "1D", [numpy.degrees(one.declination) for one in all_sources], "DEGREES"),
        column("EQUINOX", "8A", ["J2000"] * many),
        column("RAAPP", "1D", [place[0] for place in places], "DEGREES"),
        column("DECAPP", "1D", [place[1] for place in places], "DEGREES"),
        column("SYSVEL", exact, none, "M/SEC"),
        column("VELTYP", "8A", ["GEOCENTR"] * many),
        column("VELDEF", "8A", ["OPTICAL"] * many),
        column("RESTFREQ", exact, none, "HZ"),
        column("PMRA", "1D", [0.0] * many, "DEG/DAY"),
        column("PMDEC", "1D", [0.0] * many, "DEG/DAY"),
        column("PARALLAX", "1E", [0.0] * many, "ARCSEC"),
        column("EPOCH", "1D", [2000.0] * many, "YEARS"),
    ])


# The visibilities

def row_type(shape: Shape) -> Any:
    """A row of the table UV_DATA; its columns' units are `row_units`."""
    return numpy.dtype([
        ("UU", ">f8"), ("VV", ">f8"), ("WW", ">f8"), ("DATE", ">f8"), ("TIME", ">f8"), ("BASELINE", ">i4"), ("ARRAY", ">i4"), ("SOURCE_ID", ">i4"),
        ("FREQID", ">i4"), ("INTTIM", ">f4"), ("WEIGHT", ">f4", (shape.bands, len(shape.stokes))),
        ("FLUX", ">f4", (shape.bands, shape.channels, len(shape.stokes), 2)),
    ])


ROW_UNITS = {"UU": "SECONDS", "VV": "SECONDS", "WW": "SECONDS", "DATE": "DAYS", "TIME": "DAYS", "INTTIM": "SECONDS", "FLUX": "UNCALIB"}


def visibility_header(seen: Observation, shape: Shape, rows: int) -> Any:
    """The header of the table UV_DATA."""
    rowed = row_type(shape)
    letters = {"f8": "D", "i4": "J", "f4": "E"}
    columns = []
    for name in rowed.names:
        base, dimensions = rowed[name].base, rowed[name].shape
        form = f"{int(numpy.prod(dimensions, dtype=int))}{letters[base.str[1:]]}"
        columns.append(fits.Column(name=name, format=form, unit=ROW_UNITS.get(name)))
    header = table("UV_DATA", seen, shape, 2, columns).header
    header.update({"NAXIS2": rows, "NMATRIX": 1, "MAXIS": 6, f"TMATX{len(columns)}": True})
    first = seen.sources[0].source
    axes = (
        (2, "COMPLEX", 1.0, 1.0), (len(shape.stokes), "STOKES", -1.0, float(shape.stokes[0])), (shape.channels, "FREQ", shape.width, shape.reference),
        (shape.bands, "BAND", 1.0, 1.0), (1, "RA", 1.0, float(numpy.degrees(first.right_ascension))),
        (1, "DEC", 1.0, float(numpy.degrees(first.declination))),
    )
    for number, (size, name, step, at) in enumerate(axes, 1):
        header.update({f"MAXIS{number}": size, f"CTYPE{number}": name, f"CDELT{number}": step, f"CRPIX{number}": 1.0, f"CRVAL{number}": at})
    header.update({
        "TELESCOP": "VLBI", "OBSERVER": seen.code, "DATE-OBS": shape.date, "EQUINOX": 2000.0, "WEIGHTYP": "NORMAL", "SORT": "TB", "VIS_SCAL": 1.0,
    })
    return header


def kept(scan: Scan) -> NDArray[numpy.bool_]:
    """Which integrations and baselines of a scan have pairs in some product, (M, B): the others have no row."""
    there: NDArray[numpy.bool_] = (scan.cells["count"][..., scan.head.lags // 2] > 0).any(axis=1)
    return there


def blocks(seen: Observation, shape: Shape, number: int, scan: Scan, place: Geometry, amplitudes: Amplitudes) -> Iterator[NDArray[Any]]:
    """The rows of a scan, by integrations and in each by baselines, some at a time."""
    step = max(1, BLOCK // max(1, scan.cells[:1].size))
    target = seen.sources[seen.scan_sources[number]]
    stations = {one for pair in scan.baselines for one in pair}
    places = {one: place.uvw(scan.head.stations[one], target, scan.start + scan.times) / LIGHT for one in stations} if len(scan.cells) else {}
    for first in range(0, len(scan.cells), step):
        chosen = slice(first, min(first + step, len(scan.cells)))
        rows = numpy.zeros((chosen.stop - first, len(scan.baselines)), row_type(shape))
        fill_places(rows, seen, number, scan, chosen, places)
        fill_visibilities(rows, seen.setups[seen.scan_setups[number]], shape, scan, chosen, amplitudes)
        yield rows[kept(scan)[chosen]]


def fill_places(rows: NDArray[Any], seen: Observation, number: int, scan: Scan, chosen: slice, places: dict[int, Reals]) -> None:
    """Fills in when and where the rows of some integrations are, by u, v and w of each station in seconds."""
    seconds = scan.start + scan.times[chosen]
    for baseline, (a, b) in enumerate(scan.baselines):
        rows["UU"][:, baseline], rows["VV"][:, baseline], rows["WW"][:, baseline] = (places[a][chosen] - places[b][chosen]).T
        rows["BASELINE"][:, baseline] = 256 * (a + 1) + b + 1
    midnights = numpy.floor(seconds / DAY)
    lasts = numpy.minimum(scan.begins[chosen] + scan.head.integration, scan.samples)
    rows["DATE"] = (midnights + UNIX_DAY)[:, None]
    rows["TIME"] = (seconds / DAY - midnights)[:, None]
    rows["INTTIM"] = ((lasts - scan.begins[chosen]) / scan.head.rate)[:, None]
    rows["ARRAY"] = 1
    rows["SOURCE_ID"] = seen.scan_sources[number] + 1
    rows["FREQID"] = seen.scan_setups[number] + 1


def fill_visibilities(rows: NDArray[Any], setup: Setup, shape: Shape, scan: Scan, chosen: slice, amplitudes: Amplitudes) -> None:
    """Fills in the visibilities of some integrations, and their weights: the pairs at lag 0 over the samples of a whole integration."""
    for product, at in enumerate(setup.places):
        if at is None:
            continue
        band, stokes = at[0], shape.stokes.index(at[1])
        cells = scan.cells[chosen, product]
        means = (cells["re"] + 1j * cells["im"]) / numpy.maximum(cells["count"], 1)
        found = spectrum.of_lags(means, setup.bands[band].side, shape.channels)
        weights: Reals = cells["count"][..., scan.head.lags // 2] / scan.head.integration
        found = amplitudes.scaled(found, scan, chosen, product, setup.bands[band])
        found = numpy.where(weights[..., None] > 0, found, 0)
        for baseline, (a, b) in enumerate(scan.baselines):
            if a == b and scan.head.products[product][0] == scan.head.products[product][1]:
                found[:, baseline] = found[:, baseline].real  # what is there comes from the lag -L/2 alone, which has no partner
        rows["FLUX"][..., band, :, stokes, 0] = found.real
        rows["FLUX"][..., band, :, stokes, 1] = found.imag
        rows["WEIGHT"][..., band, stokes] = weights


def stretches(scan: Scan, chosen: slice) -> Reals:
    """Begins and ends of PIECES stretches of each of some integrations, in seconds behind the scan's start."""
    begins = scan.begins[chosen]
    ends = numpy.minimum(begins + scan.head.integration, scan.samples)
    return rotation.stretches(begins / scan.head.rate, ends / scan.head.rate, PIECES)


class Amplitudes:
    """What visibilities are: mean products of levels, or coefficients of correlation.

    Of a weak correlation the mean product of levels is a known part: that of the quantisation, by each station's bits and thresholds, and
    those of the three-level fringe rotation and of whole delays, by each station's delays. A coefficient is the mean product over this part; where
    both stations of a baseline have delays, each is taken to run by itself. The thresholds of two and four bits are those that the power of the
    station's own samples tells, where the job has `auto`, and else the best ones. A station with itself is no weak correlation: it is divided by its
    power.
    """

    def __init__(self, seen: Observation, correct: bool) -> None:
        self.seen = seen
        self.correct = correct
        self.delays = rotation.Delays(seen.job, seen.records.head.rate)
        self.found: dict[tuple[int, int, int, int], float] = {}

    @property
    def words(self) -> list[str]:
        """What the file says of its amplitudes."""
        said = ["Visibilities are mean products of levels."]
        if self.correct:
            said = ["Visibilities are coefficients of correlation: mean products of levels over"]
            said += ["what quantisation, rotation and whole delays leave of a weak one."]
        said += ["Weights are pairs of samples over the samples of an integration.", f"Earth orientation {self.seen.orientation.origin}."]
        if self.seen.assumed:
            said.append(f"Polarisation R is assumed of {', '.join(self.seen.assumed)}.")
        return said

    def scaled(self, found: Complexes, scan: Scan, chosen: slice, product: int, band: Band) -> Complexes:
        """The visibilities of some integrations of a product, complex128 (M, B, K), in this band."""
        if not self.correct:
            return found
        made = numpy.zeros_like(found)
        stations = {one for pair in scan.baselines for one in pair}
        gains = {one: self.gain(scan, one, band, chosen, found.shape[-1]) for one in stations}
        x, y = scan.head.products[product]
        for baseline, (a, b) in enumerate(scan.baselines):
            if (a, x) == (b, y):
                own = scan.cells[chosen, product, baseline, scan.head.lags // 2]
                made[:, baseline] = found[:, baseline] * (own["count"] / numpy.maximum(own["re"], 1))[:, None]
                continue
            levels = self.levels(scan, a, x, band) * self.levels(scan, b, y, band)
            kept_part = gains[a] * numpy.conj(gains[b]) if a != b else self.squares(scan, a, band, chosen)[:, None]
            made[:, baseline] = found[:, baseline] / (levels * kept_part)
        return made

    def late(self, scan: Scan, station: int, chosen: slice) -> Reals:
        """A station's delay in samples at the begins and the ends of the stretches of some integrations, PIECES in each."""
        return self.delays.samples(scan.head.stations[station], scan.start, stretches(scan, chosen))

    def gain(self, scan: Scan, station: int, band: Band, chosen: slice, many: int) -> Complexes:
        """What rotation and whole delays leave of a station's signal, in each integration and channel: complex128 (M, K).

        As it was recorded a channel lies lower than it does without its fringe, by the fringe's turns in a sample.
        """
        late = self.late(scan, station, chosen)
        turns = late * (band.sign * band.hertz / scan.head.rate)
        in_sample = numpy.diff(turns, axis=1) / (numpy.diff(stretches(scan, chosen), axis=1) * scan.head.rate)
        rested = rotation.rests(late, numpy.arange(many) / scan.head.lags - in_sample).reshape(-1, PIECES, many).mean(axis=1)
        turned = rotation.gain(turns).reshape(-1, PIECES).mean(axis=1)
        found: Complexes = turned[:, None] * rested
        return found if band.side == "U" else numpy.conj(found)[:, ::-1]

    def squares(self, scan: Scan, station: int, band: Band, chosen: slice) -> Reals:
        """The mean square of a station's rotation in each integration: float64 (M,)."""
        turns = self.late(scan, station, chosen) * (band.sign * band.hertz / scan.head.rate)
        found: Reals = rotation.power(turns).reshape(-1, PIECES).mean(axis=1)
        return found

    def levels(self, scan: Scan, station: int, channel: str, band: Band) -> float:
        """The gain of a station's levels in a channel."""
        bits, pairs = self.seen.bits[station], (channel, channel)
        if bits == 1 or (station, station) not in scan.baselines or pairs not in scan.head.products:
            return quantiser.gain(bits)
        key = self.seen.records.scans.index(scan), station, scan.head.products.index(pairs), band.sign * band.hertz
        if key not in self.found:
            cells = scan.cells[:, key[2], scan.baselines.index((station, station)), scan.head.lags // 2]
            turned = float((cells["count"] * self.squares(scan, station, band, slice(0, len(scan.cells)))).sum())
            mean = float(cells["re"].sum(dtype=numpy.float64)) / turned if turned > 0 else 0.0
            self.found[key] = quantiser.gain(bits, quantiser.step_of(bits, mean))
        return self.found[key]
