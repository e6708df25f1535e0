"""`vlbi.vex` against what the proved program reads, on every text of its cases, and the blocks that the program does not read."""
from __future__ import annotations

import itertools
import math
import re
from collections.abc import Iterator
from pathlib import Path

import broken_texts
import pytest

from vlbi import vex
from vlbi.faults import Fault

ROOT = Path(__file__).resolve().parents[2]
CASES = ROOT / "crates" / "vex_cases"


class Pieces:
    """The texts that the lines of the cases write, by the rules in the head of their file `stdin`."""

    def __init__(self) -> None:
        self.pieces: dict[str, bytes] = {}
        self.last = ""

    def cases(self, lines: list[str]) -> Iterator[tuple[str, str, bytes, int | None]]:
        """Each case: its line, what is asked, the text, the place that is marked in it."""
        for line in lines:
            if line.startswith("piece "):
                self.last, _, rest = line.removeprefix("piece ").partition(" ")
                self.pieces[self.last] = self.text(rest)[0]
            elif line.startswith("|"):
                self.pieces[self.last] += self.text(line[1:])[0] + b"\n"
            elif line and not line.startswith("#"):
                word, _, rest = line.partition(" ")
                yield (line, word, *self.text(rest))

    def text(self, line: str) -> tuple[bytes, int | None]:
        made, mark = b"", None
        for part in re.split(r"(\{[^}]*\}|\\n|\\x..|@)", line):
            if part == "@":
                mark = len(made)
            elif part.startswith("{"):
                name, _, count = part[1:-1].partition("*")
                made += self.pieces[name] * int(count or 1)
            elif part == "\\n":
                made += b"\n"
            elif part.startswith("\\x"):
                made += bytes([int(part[2:], 16)])
            else:
                made += part.encode()
        return made, mark


def put(text: str | bytes) -> str:
    raw = text if isinstance(text, bytes) else text.encode("utf-8", "surrogateescape")
    return "".join(chr(byte) if 0x20 <= byte < 0x7F else f"\\x{byte:02x}" for byte in raw)


def told_statements(statements: list[vex.Statement]) -> str:
    def told(one: vex.Statement) -> str:
        values = "".join("[" + " ".join(put(token.raw) for token in value) + "]" for value in one.values)
        return f"{put(one.word)}{'>' + put(one.target) if one.target else ''}={values};"

    return "".join(told(one) for one in statements)


def told_items(word: str, items: dict[str, vex.Item]) -> str:
    return "".join(f"{word} {put(item.name)}({told_statements(item.statements)})" for item in items.values())


def told_file(blocks: dict[str, vex.Block]) -> str:
    return "".join(
        f"{put(name)}{{{told_statements(block.loose)}{told_items('def', block.defs)}{told_items('scan', block.scans)}}}" for name, block in blocks.items()
    )


def told_places(blocks: dict[str, vex.Block]) -> str:
    def places(statements: list[vex.Statement]) -> str:
        return "".join(f" {one.at}" for one in statements)

    def of_items(items: dict[str, vex.Item]) -> str:
        return "".join(f" {put(item.name)} {item.at} ({places(item.statements)} )" for item in items.values())

    return "".join(f"{put(name)}{places(block.loose)}{of_items(block.defs)}{of_items(block.scans)}; " for name, block in blocks.items())


def told_schedule(schedule: vex.Schedule) -> str:
    def channel(one: vex.Channel) -> str:
        return f" [{put(one.name)} {one.hertz} {one.side} {one.bandwidth}]"

    def part(one: vex.Pass) -> str:
        return f" ({put(one.key)} {one.begin} {one.end} {one.setup.rate}{''.join(map(channel, one.setup.channels))})"

    return "".join(f"{put(scan.name)} {scan.start}{''.join(map(part, scan.passes))}; " for scan in schedule.scans)


def answer(word: str, text: bytes, mark: int | None) -> str:
    """What the table prints for a text."""
    try:
        if word == "tokens":
            return "".join(f"{token.kind} {token.at} {len(token.raw)}, " for token in vex.tokens(text))
        if word == "texts":
            return "".join(f"[{put(token.raw)}]" for token in vex.tokens(text))
        schedule = vex.from_bytes(text)
        return {"read": told_file, "places": told_places}[word](schedule.blocks) if word != "schedule" else told_schedule(schedule)
    except vex.VexFault as fault:
        kind = f"Lex({fault.kind})" if word in ("read", "schedule") and fault.kind in ("OpenQuote", "OpenLiteral", "BadByte") else fault.kind
        return f"{kind} at {'@' if fault.at == mark else f'byte {fault.at}'}"


def difference(whole: str, told: str) -> str:
    """An answer to a broken text, by the words in which it differs from that to the whole text."""
    old, new = whole.split(" "), told.split(" ")
    if old == new:
        return "the same"

    def alike(one: list[str], other: list[str]) -> int:
        return len(list(itertools.takewhile(lambda pair: pair[0] == pair[1], zip(one, other))))

    front = alike(old, new)
    back = min(alike(old[::-1], new[::-1]), min(len(old), len(new)) - front)
    if front + back == 0:
        return told
    end = len(old) - back
    return f"without {front}..{end}" if front + back == len(new) else f"{front}..{end} is {' '.join(new[front : len(new) - back])}"


def broken(word: str, text: bytes) -> Iterator[str]:
    """What the table prints for a text, and below it for the text broken."""
    whole = answer(word, text, None)
    yield whole
    ways = itertools.chain(broken_texts.fronts(text), broken_texts.changed(text))
    for line in broken_texts.runs((words, place, difference(whole, answer(word, file, place))) for words, place, file in ways):
        yield f"  {line}"


def lines_of(line: str, word: str, text: bytes, mark: int | None, pieces: Pieces) -> Iterator[str]:
    """What the table prints for a case."""
    if word != "broken":
        yield f"{line}: {answer(word, text, mark)}"
        return
    asked, _, rest = line.removeprefix("broken ").partition(" ")
    first, *more = broken(asked, pieces.text(rest)[0])
    yield f"{line}: {first}"
    yield from more


def test_every_text_of_the_cases() -> None:
    pieces = Pieces()
    told = (CASES / "stdout").read_text().splitlines()
    cases = pieces.cases((CASES / "stdin").read_text().splitlines())
    answers = [one for case in cases for one in lines_of(*case, pieces)]
    assert len(told) > 1000
    assert answers == told


SKY = b"""VEX_rev = 1.5;
$STATION;
def Ef; ref $SITE = EFLSBERG; ref $ANTENNA = EFLSBERG; ref $CLOCK = Ef; enddef;
def Sh; ref $SITE = SESHAN25; ref $ANTENNA = SESHAN25; enddef;
$SITE;
def EFLSBERG; site_type = fixed; site_name = "EF LSBERG"; site_ID = Ef;
  site_position = 4033947.2355 m : 486990.7943m : 4900.43100170 km;
  site_velocity = -0.0155 m/yr : 1.69 cm/yr : 8 mm/yr; site_position_epoch = 51544.0; enddef;
def SESHAN25; site_position = -2831687.2 m : 4675733.9 m : 3275327.7 m; site_position_epoch = 2000y001d; enddef;
$ANTENNA;
def EFLSBERG; antenna_diam = 100.0 m; axis_type = az : el; axis_offset = 0.0135 m; enddef;
def SESHAN25; axis_type = ha : dec; axis_offset = el : 2.5e0 m; enddef;
$SOURCE;
def 3C84; source_name = "0316 +413"; ra = 03h19m48.1600960s; dec = 41d30'42.104043"; ref_coord_frame = J2000; enddef;
def S; ra = 12h00m00s; dec = -00d30'00"; enddef;
$CLOCK;
def Ef; clock_early = 2010y112d00h00m00s : 2.5 usec : 2010y113d00h : 1e-12; clock_early = 2010y114d : -1 msec; enddef;
def Sh; clock_early = 2010y112d : 3e-6sec : : 0.5 usec/sec; enddef;
$EOP;
def A; TAI-UTC = 34 sec; eop_ref_epoch = 2010y112d; num_eop_points = 2; eop_interval = 24 hr;
  ut1-utc = -0.02 sec : -0.021 sec; x_wobble = 0.1 asec : 0.2 asec; y_wobble = 300 masec : 0.4 asec; enddef;
def B; TAI-UTC = 34 sec; eop_ref_epoch = 2010y113d; ut1-utc = 9 sec; x_wobble = 9 asec; y_wobble = 9 asec; enddef;
$SCHED;
"""


def test_sites_and_antennas() -> None:
    schedule = vex.from_bytes(SKY, "sky.vex")
    assert schedule.stations == ("Ef", "Sh")
    assert schedule.site("Ef") == vex.Site("EF LSBERG", (4033947.2355, 486990.7943, 4900431.0017), (-0.0155, 0.0169, 0.008), 51544.0)
    assert schedule.site("Sh") == vex.Site("SESHAN25", (-2831687.2, 4675733.9, 3275327.7), None, 51544.0)
    assert schedule.antenna("Ef") == vex.Antenna("EFLSBERG", ("az", "el"), 0.0135, 100.0)
    assert schedule.antenna("Sh") == vex.Antenna("SESHAN25", ("ha", "dec"), 2.5, None)


def test_sources() -> None:
    sources = vex.from_bytes(SKY).sources
    # 3h 19m 48.160096s is 11988.160096 seconds of 86400 in a turn, 41d 30' 42.104043" is 149442.104043 of 1296000
    assert sources["3C84"].name == "0316 +413"
    assert sources["3C84"].right_ascension == pytest.approx(2 * math.pi * 11988.160096 / 86400, abs=1e-14)
    assert sources["3C84"].declination == pytest.approx(2 * math.pi * 149442.104043 / 1296000, abs=1e-14)
    assert sources["S"] == vex.Source("S", math.pi, -math.pi / 360, "J2000")


def test_clocks() -> None:
    schedule = vex.from_bytes(SKY)
    day = 86400.0
    midnight = 1271894400.0  # 22 April 2010
    assert schedule.clocks("Ef") == (
        vex.Clock(midnight, 2.5e-6, midnight + day, 1e-12),
        vex.Clock(midnight + 2 * day, -1e-3, midnight + 2 * day, 0.0),
    )
    assert schedule.clocks("Sh") == (vex.Clock(midnight, 3e-6, midnight, 5e-7),)
    assert schedule.clocks("Wb") == ()


def test_earth_orientation() -> None:
    found = vex.from_bytes(SKY).earth_orientation
    second = math.pi / 648000
    assert [one.day for one in found] == [55308.0, 55309.0]
    assert [(one.tai_utc, one.ut1_utc) for one in found] == [(34.0, -0.02), (34.0, -0.021)]
    assert [one.pole_x for one in found] == pytest.approx([0.1 * second, 0.2 * second])
    assert [one.pole_y for one in found] == pytest.approx([0.3 * second, 0.4 * second])


@pytest.mark.parametrize("old, new, asked, said", [
    (b"4900.43100170 km", b"4900 miles", lambda it: it.site("Ef"),
     f"sky.vex: def EFLSBERG of $SITE at byte {SKY.index(b'def EFLSBERG; site')}: no number in m, km: 4900 miles"),
    (b"ref $SITE = EFLSBERG;", b"", lambda it: it.site("Ef"), "sky.vex: station Ef has no ref $SITE"),
    (b"ref $SITE = EFLSBERG;", b"", lambda it: it.site("On"), "sky.vex: no On in $STATION"),
    (b"ra = 03h", b"ra = 3 h", lambda it: it.sources, "no single word: 3 h19m48.1600960s"),
    (b"dec = -00d30'00\"", b"dec = 0.5", lambda it: it.sources, "no angle in degrees: 0.5"),
    (b"ra = 12h00m00s;", b"", lambda it: it.sources, f"def S of $SOURCE at byte {SKY.index(b'def S;')}: there is no ra"),
    (b"$EOP;\ndef A; TAI-UTC = 34 sec;", b"$EOP;\ndef A;", lambda it: it.earth_orientation, "there is no TAI-UTC"),
    (b"axis_type = az : el", b"axis_type = az", lambda it: it.antenna("Ef"), "a value that is wanted is not there"),
    (b"$SCHED;", b"", lambda it: it.scans, "sky.vex: NoSched at byte 0"),
])
def test_faults_name_file_def_and_value(old: bytes, new: bytes, asked: object, said: str) -> None:
    assert callable(asked) and SKY.count(old) == 1
    with pytest.raises(Fault) as caught:
        asked(vex.from_bytes(SKY.replace(old, new), "sky.vex"))
    assert said in str(caught.value) and str(caught.value).startswith("sky.vex: ")


def test_times() -> None:
    for second in (0, 1262304000, 1272054540, 1330560000, 4102444799):
        assert vex.second_of(vex.vex_time(second)) == second
    assert vex.second_of("2012y366d00h00m00.00s") == 1356912000
    for text in ("2011y366d00h00m00s", "2010y001d24h00m00s", "2100y001d00h00m00s", "2010y1d00h00m00s", "2010y001d00h00m00.5s"):
        with pytest.raises(ValueError):
            vex.second_of(text)
