"""`vlbi.report`, `vlbi.page` and `vlbi-report`: what is put into a file is told in words and stands on the page, and a browser can use it."""
from __future__ import annotations

import html.parser
import json
import os
import re
import shutil
import struct
import subprocess
from collections.abc import Callable
from pathlib import Path
from typing import Any

import numpy
import pytest
import record_files
import theory

from vlbi import records, report
from vlbi.commands import report as command

LAGS, INTEGRATION, RATE, MANY = 32, 50_000, 1_000_000, 16
START = 1262304000  # 2010y001d00h00m00s
KEYS = ("Ef", "Wb", "On", "Mc")
BROWSER = shutil.which("chromium") or shutil.which("chromium-browser") or shutil.which("google-chrome")


def night_file(lag: Callable[[int, int], float | None], power: float = 3.56, keys: tuple[str, ...] = KEYS, products: int = 1, scans: int = 1,
               empty: tuple[int, ...] = (), share: float = 1.0, many: int = MANY, rate: float = 0.0) -> bytes:
    """A record file of all baselines and stations with themselves: a fringe at `lag` of two stations, none where that is None.

    power  the mean square of the stations' values
    empty  stations without any pair
    share  the part of the samples that are there
    rate   the fringes' rate in hertz
    """
    random = numpy.random.default_rng(1)
    baselines = [(a, b) for a in range(len(keys)) for b in range(a, len(keys))]
    head = [b"VLBIVIS1", struct.pack("<IQQI", LAGS, INTEGRATION, RATE, len(keys)), *(record_files.name(key.encode()) for key in keys)]
    head += [struct.pack("<I", products), *(record_files.name(b"CH%02d" % (one + 1)) * 2 for one in range(products)), struct.pack("<I", scans)]
    for scan in range(scans):
        head.append(record_files.name(b"No%04d" % (scan + 1)) + struct.pack("<QQI", START + 600 * scan, many * INTEGRATION, len(baselines)))
        head += [struct.pack("<II", *pair) for pair in baselines]
    rows = numpy.zeros((scans, many, products, len(baselines)), numpy.dtype([("place", records.PLACE), ("cells", records.CELL, (LAGS,))]))
    rows["place"]["mark"] = 1
    for axis, field in enumerate(("scan", "integration", "product", "baseline")):
        rows["place"][field] = numpy.arange(rows.shape[axis]).reshape([-1 if one == axis else 1 for one in range(4)])
    lags = numpy.arange(LAGS) - LAGS // 2
    turns = numpy.exp(2j * numpy.pi * rate * (numpy.arange(many) + 0.5) * INTEGRATION / RATE)[:, None, None]
    for number, (a, b) in enumerate(baselines):
        cells, at = rows["cells"][:, :, :, number], lag(a, b)
        noise = random.normal(0, 300, cells.shape) + 1j * random.normal(0, 300, cells.shape)
        if a == b:
            sums = INTEGRATION * share * power * (lags == 0) + noise.real
        else:
            sums = noise + (0 if at is None else 5000 * numpy.sinc((lags - at) / 2) * turns)
        if a not in empty and b not in empty:
            cells["re"], cells["im"], cells["count"] = sums.real.round(), sums.imag.round(), round(INTEGRATION * share)
    return b"".join(head) + rows.tobytes() + struct.pack("<BQ", 255, rows.size)


JOB = f"lags {LAGS}\nintegration {INTEGRATION}\nepoch {INTEGRATION}\nauto\nrate {RATE}\n" + "".join(
    f"station {key} {number} 2 1 40\nchan {key} CH01 0 0\n" for number, key in enumerate(KEYS, 1)
) + f"product CH01 CH01\nscan No0001 2010y001d00h00m00s {MANY * INTEGRATION}\nband CH01 2000000 U\n"


@pytest.fixture
def folder(tmp_path: Path, monkeypatch: pytest.MonkeyPatch) -> Path:
    monkeypatch.chdir(tmp_path)
    monkeypatch.setenv("MPLCONFIGDIR", str(tmp_path / "config"))
    return tmp_path


def seen(folder: Path, file: bytes, job: str | None = None) -> tuple[report.Night, list[str]]:
    """What a record file says, and in words."""
    (folder / "sky.vis").write_bytes(file)
    if job is not None:
        (folder / "job.txt").write_text(job)
    night = report.read([str(folder / "sky.vis")], None if job is None else str(folder / "job.txt"))
    return night, ["\n".join((said, *lines)) for _, said, lines in report.words_of(night)]


def late(ahead: dict[int, float]) -> Callable[[int, int], float]:
    return lambda a, b: ahead.get(b, 0.0) - ahead.get(a, 0.0)


def test_all_is_well(folder: Path) -> None:
    night, words = seen(folder, night_file(late({})), JOB)
    assert words == ["6 of 6 baselines and products have a fringe, in 1 scan.", "The samplers' levels are right: 4 of 4 stations and channels."]
    row = night.scans[0].rows[0]
    # 5000 of 50000 pairs is 0.1, of a power of 3.56: 2.81 per cent, and 0.04 of noise
    assert (row.name, row.channels, row.unit, row.share) == ("Ef-Wb", "CH01", "correlation (%)", 1.0)
    assert row.amplitude == pytest.approx(2.81, abs=0.13) and row.lag == pytest.approx(0, abs=0.05) and row.rate == pytest.approx(0, abs=0.05)
    # the noise of 16 integrations is 300 * 4, the fringe 5000 * 16
    assert row.snr == pytest.approx(5000 * 16 / (300 * 4), rel=0.2)


def test_a_clock_that_is_off(folder: Path) -> None:
    """On is 3 samples, 3 microseconds, ahead; the others agree."""
    night, words = seen(folder, night_file(late({2: 3.0})))
    assert [clock.key for clock in night.clocks] == ["On"] and night.clocks[0].ahead == pytest.approx(3, abs=0.02) and night.clocks[0].rows == 3
    said = re.fullmatch(r"The clock of On, or its delay, is (\S+) µs further ahead than the job says, by 3 fringes; to mend it, where the job has no .*:\n"
                        r"clock On 2010y001d00h00m00s (\d+) 0", words[1])
    assert said and float(said.group(1)) == pytest.approx(3, abs=0.02) and int(said.group(2)) == pytest.approx(3 * 2 ** 32, abs=0.02 * 2 ** 32)


def test_a_clock_line_that_is_there_is_mended(folder: Path) -> None:
    """Wb is 2 samples behind; the job has it a sample ahead a minute earlier, so that it says one behind."""
    night, words = seen(folder, night_file(late({1: -2.0})), JOB.replace("product", f"clock Wb 2009y365d23h59m00s {2 ** 32} 5\nproduct"))
    assert "is 2.0" in words[1] and "less ahead than the job says, by 3 fringes; to mend it:" in words[1]
    line = words[1].split("\n")[1].split()
    assert line[:3] == ["clock", "Wb", "2009y365d23h59m00s"] and line[4] == "5" and int(line[3]) == pytest.approx(-2 ** 32, abs=0.02 * 2 ** 32)


def test_what_whole_delays_leave_is_no_clock(folder: Path) -> None:
    """Wb's delay of 1.4 samples is taken out by one; the rest is its lag."""
    job = JOB.replace("product", f"poly Wb 2010y001d00h00m00s {round(1.4 * 2 ** 32)}\nproduct")
    night, _ = seen(folder, night_file(late({1: 0.4})), job)
    assert night.clocks == () and night.scans[0].rows[0].rest == pytest.approx(0.4, abs=1e-6)
    assert seen(folder, night_file(late({1: 0.4})))[0].clocks == ()


def test_of_two_stations_the_first_is_right(folder: Path) -> None:
    night, _ = seen(folder, night_file(late({0: 2.0}), keys=KEYS[:2]))
    assert [(clock.key, round(clock.ahead)) for clock in night.clocks] == [("Wb", -2)]


def test_a_drift_by_the_rate(folder: Path) -> None:
    """At 2.25 megahertz, the band's middle, a rate of 3 hertz is 1.333e-6 seconds in each; it counts from the middle of the 0.8 seconds on."""
    night, words = seen(folder, night_file(lambda a, b: 4.0, keys=KEYS[:2], rate=3.0),
                        "\n".join(line for line in JOB.split("\n") if not re.match("(station|chan) (On|Mc)", line)))
    (clock,) = night.clocks
    assert clock.drift == pytest.approx(3 / 2.25e6, rel=0.02) and "e-12 seconds more in each" in words[1]
    _, _, _, c0, c1 = clock.lines[0].split()
    assert int(c1) == pytest.approx(3 / 2.25e6 * RATE * 2 ** 32, rel=0.02)
    assert int(c0) == pytest.approx((4 - 0.4 * 3 / 2.25) * 2 ** 32, rel=0.02)


def test_a_station_without_a_fringe(folder: Path) -> None:
    night, words = seen(folder, night_file(lambda a, b: None if 3 in (a, b) else 0.0))
    assert words[:2] == ["3 of 6 baselines and products have a fringe, in 1 scan.", "Station Mc has no fringe on any baseline in scan No0001."]
    assert {row.state for row in night.scans[0].of_station("Mc")} == {"none"}


def test_no_fringe_at_all(folder: Path) -> None:
    assert seen(folder, night_file(lambda a, b: None, scans=2))[1][1] == "There is no fringe at all in all scans."


def test_no_pairs(folder: Path) -> None:
    night, words = seen(folder, night_file(late({}), empty=(1,)))
    assert [row.state for row in night.scans[0].rows] == ["no pairs", "fringe", "fringe", "no pairs", "no pairs", "fringe"]
    assert "3 of 6 baselines and products have no pairs: vlbi-lint says why." in words
    assert "Station Wb: samples are missing in scan No0001; in No0001 0.0 % are there." in words


def test_samples_that_are_missing(folder: Path) -> None:
    assert "Station Ef: samples are missing in scan No0001; in No0001 80.0 % are there." in seen(folder, night_file(late({}), share=0.8))[1]


def test_a_station_that_comes_late_lacks_nothing(folder: Path) -> None:
    """Wb stands in the last 0.6 of 0.8 seconds."""
    (folder / "sky.vex").write_text("""VEX_rev = 1.5; $MODE; def M; ref $FREQ = F; enddef;
$FREQ; def F; sample_rate = 1 Ms/sec; chan_def = : 2 MHz : U : 0.5 MHz : &CH01; enddef;
$SCHED; scan No0001; start = 2010y001d00h00m00s; mode = M; station = Ef : 0 sec : 0.8 sec; station = Wb : 0.2 sec : 0.8 sec; endscan;
""")
    (folder / "job.txt").write_text("\n".join(line for line in JOB.split("\n") if not re.match("(station|chan) (On|Mc)|rate|scan|band", line)))
    (folder / "sky.vis").write_bytes(night_file(late({}), keys=KEYS[:2], share=0.75))
    assert report.read(["sky.vis"], "job.txt", "sky.vex").scans[0].rows[0].share == 1.0
    assert report.read(["sky.vis"]).scans[0].rows[0].share == 0.75


@pytest.mark.parametrize("outer, judged", [(0.05, "too weak: 5 %"), (0.7, "too strong: 70 %")])
def test_levels(folder: Path, outer: float, judged: str) -> None:
    """Of two bits' levels the mean square is 1 inside and 9 outside."""
    words = seen(folder, night_file(late({}), power=1 + 8 * outer), JOB)[1]
    assert f"Sampler of Ef CH01, scan No0001: {judged} of the samples at the outer levels, 32 % is best." in words


@pytest.mark.parametrize("step, judged", [(0.7, "too weak: 0 %"), (0.2, "too strong: 16 %"), (0.58, ""), (0.23, "")])
def test_levels_of_four_bits(folder: Path, step: float, judged: str) -> None:
    """The part at the outer levels is that of the step of the thresholds that the power tells; a fiftieth of the signal to noise is what counts."""
    words = seen(folder, night_file(late({}), power=theory.level_power(4, step)), JOB.replace(" 2 1 40", " 4 1 40"))[1]
    if judged:
        assert f"Sampler of Ef CH01, scan No0001: {judged} of the samples at the outer levels, 2 % is best." in words
    assert ("The samplers' levels are right: 4 of 4 stations and channels." in words) == (not judged)
    assert (theory.efficiency(4, step) < 0.98 * theory.efficiency(4)) == bool(judged)


def test_too_few_cells_to_tell(folder: Path) -> None:
    night, words = seen(folder, night_file(late({}), many=1))
    assert {row.state for row in night.scans[0].rows} == {"unknown"} and words == ["0 of 6 baselines and products have a fringe, in 1 scan."]


def test_records_of_another_job(folder: Path, capsys: pytest.CaptureFixture[str]) -> None:
    (folder / "sky.vis").write_bytes(night_file(late({})))
    (folder / "job.txt").write_text(JOB.replace(f"lags {LAGS}", "lags 64"))
    assert command.main(["sky.vis", "--job", "job.txt", "-o", "page.html"]) == 1
    assert capsys.readouterr().err == (
        "vlbi-report: sky.vis: the records are of another job than job.txt: its lags, integration, rate, stations or products are others\n")
    assert not os.path.exists("page.html")


class Tags(html.parser.HTMLParser):
    """The tags of a page, which close as they open; its ids, its links, and what it would load."""

    VOID = ("meta", "img", "br")

    def __init__(self, page: str) -> None:
        super().__init__()
        self.open: list[str] = []
        self.ids: list[str] = []
        self.links: list[str] = []
        self.loaded: list[str] = []
        self.feed(page)
        assert self.open == []

    def handle_starttag(self, tag: str, attrs: list[tuple[str, str | None]]) -> None:
        self.open += [tag] if tag not in self.VOID else []
        given = dict(attrs)
        self.ids += [given["id"] or ""] if "id" in given else []
        self.links += [given["href"] or ""] if tag == "a" else []
        self.loaded += [given["src"] or ""] if "src" in given else []
        assert tag != "link"

    def handle_endtag(self, tag: str) -> None:
        assert self.open.pop() == tag


def test_the_page_stands_for_itself(folder: Path, capsys: pytest.CaptureFixture[str]) -> None:
    (folder / "sky.vis").write_bytes(night_file(late({2: 3.0}), products=2, scans=2, empty=(3,)))
    assert command.main(["sky.vis", "--quiet", "-o", "page.html", "--title", "a <night>"]) == 0
    assert capsys.readouterr().out.splitlines()[-1] == "page.html"
    page = (folder / "page.html").read_text()
    tags = Tags(page)
    rows = [Tags(rows) for rows in re.findall('<script type="text/html">(.*?)</script>', page, re.DOTALL)]
    assert "<title>a &lt;night&gt;</title>" in page and page.count("<td class=\"empty\">no pairs</td>") == 2 * 2 * 3
    assert tags.links == ["#s0", "#s1"] and {"s0", "s1"} <= set(tags.ids) and tags.loaded == []
    # six baselines of two products in two scans, half of them without pairs
    loaded = [one for table in rows for one in table.loaded]
    assert len(loaded) == 12 and all(one.startswith("data:image/png;base64,") for one in loaded)
    assert not re.findall(r"(?:src|href)=.?(?:https?:)?//", page) and "@import" not in page


USED = """sections.forEach(fill);
  const all = which => [...document.querySelectorAll(which)], cell = () => document.querySelector('#s1 tbody td:nth-child(5)').textContent;
  const head = all('#s1 table.rows th').find(one => one.textContent === 'SNR');
  said.rows = all('table.rows tbody tr').length;
  said.links = all('a[href^="#s"]').filter(one => all(one.getAttribute('href')).length === 1).length;
  head.click(); said.low = +cell(); head.click(); said.high = +cell();
  const box = document.getElementById('large'), look = () => getComputedStyle(box).display;
  said.before = look(); document.querySelector('#s1 tbody a.p').click(); said.large = look();
  said.curves = all('#large polyline').length; said.points = all('#large circle').length; said.words = box.querySelector('h2').textContent;
  box.querySelector('button').click(); said.closed = look()"""
OPENED = "said.seconds = (performance.timing.loadEventEnd - performance.timing.navigationStart) / 1000"


def browse(path: Path, folder: Path, script: str) -> dict[str, Any]:
    """What a script says that a browser runs in a page once it is loaded."""
    assert BROWSER is not None
    words = [BROWSER, "--headless", "--no-sandbox", "--disable-gpu", f"--user-data-dir={folder}/profile", "--timeout=60000", "--dump-dom"]
    said = f"const said = {{}}; {script}; document.title = JSON.stringify(said);"
    probe = f"<script>addEventListener('load', () => setTimeout(() => {{ {said} }}, 0));</script></body>"
    (folder / "probed.html").write_text(path.read_text().replace("</body>", probe))
    made = subprocess.run([*words, (folder / "probed.html").as_uri()], capture_output=True, timeout=300).stdout.decode()
    title = re.search("<title>(.*?)</title>", made)
    assert title
    found: dict[str, Any] = json.loads(title.group(1))
    return found


@pytest.mark.skipif(BROWSER is None, reason="there is no browser")
def test_in_a_browser(folder: Path) -> None:
    """45 baselines, 4 products and 20 scans: sorted, drawn large, and open within two seconds, where the machine has nothing else to do."""
    keys = tuple(f"S{number}" for number in range(10))
    (folder / "sky.vis").write_bytes(night_file(late({2: 3.0}), keys=keys, products=4, scans=20))
    assert command.main(["sky.vis", "--quiet", "-o", "page.html"]) == 0
    said = browse(folder / "page.html", folder, USED)
    assert (said["rows"], said["links"]) == (45 * 4 * 20, 20)
    assert said["low"] < said["high"]
    assert (said["before"], said["large"], said["closed"]) == ("none", "block", "none")
    # the amplitudes over 32 lags and 16 integrations are lines, their phases points
    assert (said["curves"], said["points"]) == (2, LAGS + MANY) and "No0002" in said["words"]
    seconds = [browse(folder / "page.html", folder, OPENED)["seconds"] for _ in range(3)]
    assert min(seconds) < 2 or os.getloadavg()[0] > (os.cpu_count() or 1)
