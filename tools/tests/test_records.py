"""`vlbi.records`: record files."""
from __future__ import annotations

import os
import struct
import subprocess
from collections.abc import Iterator
from pathlib import Path

import broken_texts
import numpy
import program
import pytest
import record_files

from vlbi import records
from vlbi.faults import Fault

ROOT = Path(__file__).resolve().parents[2]
CASES, DEMO, RUNS = ROOT / "crates" / "record_cases", ROOT / "demo", ROOT / ".ci" / "runs"


def answer(file: bytes) -> str:
    """What the table of record files prints of one."""
    try:
        found = records.from_bytes(file)
    except records.RecordFault as fault:
        return f"{fault.kind} at byte {fault.at}"
    head = found.head
    words = f"lags {head.lags} integration {head.integration} rate {head.rate} stations {len(head.stations)} products {len(head.products)} "
    cells = [str(number) for scan in found.scans for cell in scan.cells.reshape(-1).tolist() for number in cell]
    return " ".join([words + f"scans {len(found.scans)} cells", *cells])


def shown(file: bytes) -> list[str]:
    """What the table prints for the lines that show a file: where they are no text, their bytes."""
    try:
        lines = b"".join(records.text(records.from_bytes(file)))
    except records.RecordFault as fault:
        return [f"dump: {fault.kind} at byte {fault.at}"]
    try:
        return ["dump:", *lines.decode().splitlines()]
    except UnicodeDecodeError:
        return ["dump:", lines.hex()]


def escaped(line: bytes) -> str:
    """A line as the table writes one that may be no text."""
    signs = {9: "\\t", 10: "\\n", 13: "\\r", 34: '\\"', 39: "\\'", 92: "\\\\"}
    return "".join(signs.get(byte) or (chr(byte) if 32 <= byte < 127 else f"\\x{byte:02x}") for byte in line)


def beside(good: bytes, file: bytes) -> str:
    """What the table prints of a good file that is broken: where it cannot be read, or the lines that are others."""
    try:
        lines = b"".join(records.text(records.from_bytes(file))).split(b"\n")
    except records.RecordFault as fault:
        return f"{fault.kind} at {'the end' if fault.at == len(file) else f'byte {fault.at}'}"
    there = b"".join(records.text(records.from_bytes(good))).split(b"\n")
    others = " and ".join(escaped(line) for place, line in enumerate(lines) if there[place : place + 1] != [line])
    told = f"with {others}" if others else ""
    return told + (" and no more" if len(there) > len(lines) else "") or "the same"


def answers(lines: list[str]) -> Iterator[str]:
    """What the table of record files prints for its lines, which the head of its file `stdin` explains."""
    text = b""
    for line in lines:
        word, _, rest = line.partition(" ")
        if word == "text":
            text = bytes.fromhex(rest)
        elif word == "more":
            text += bytes.fromhex(rest)
        elif word == "whole":
            yield f"{line}: {answer(text)}"
        elif word == "dump":
            yield from shown(text)
        elif word == "broken":
            name, good = rest.split()[0], bytes.fromhex(rest.split()[1])
            yield f"broken {name}, {len(good)} bytes"
            ways = [*broken_texts.fronts(good), ("prefix", len(good), good), *broken_texts.changed(good)]
            yield from broken_texts.runs((words, place, beside(good, file)) for words, place, file in ways)
        elif word == "byte":
            place, byte = rest.split()
            yield f"{line}: {answer(text[:int(place)] + bytes.fromhex(byte) + text[int(place) + 1:])}"


def test_table_of_record_files() -> None:
    assert list(answers((CASES / "stdin").read_text().splitlines())) == (CASES / "stdout").read_text().splitlines()


def test_random_files() -> None:
    for draw in record_files.cases("whole", 200):
        file, lines = record_files.random_file(draw)
        assert b"".join(records.text(records.from_bytes(file))) == lines


def test_a_fault_far_behind() -> None:
    many = 70000
    head = b"VLBIVIS1" + struct.pack("<IQQI", 2, 1, 1, 1) + record_files.name(b"A") + struct.pack("<I", 1)
    head += record_files.name(b"X") * 2 + struct.pack("<I", 1) + record_files.name(b"S") + struct.pack("<QQIII", 0, many, 1, 0, 0)
    body = numpy.zeros(many, numpy.dtype([("place", records.PLACE), ("cells", records.CELL, 2)]))
    body["place"]["mark"] = 1
    body["place"]["integration"] = numpy.arange(many)
    body["place"]["product"][many - 2] = 1
    with pytest.raises(records.RecordFault) as caught:
        records.from_bytes(head + body.tobytes() + struct.pack("<BQ", 255, many))
    assert (caught.value.kind, caught.value.at) == ("Order", len(head) + (many - 2) * 69 + 13)


def test_a_fault_names_its_file(tmp_path: Path) -> None:
    path = tmp_path / "cut.vis"
    path.write_bytes((RUNS / "clock.vis").read_bytes()[:-1])
    with pytest.raises(records.RecordFault) as caught:
        records.read(str(path))
    assert str(caught.value) == f"{path}: no record file: Short at byte 160"
    path.write_bytes(b"\1VLBIVIS1" + bytes(40))
    with pytest.raises(records.JournalFault) as missed:
        records.journal(str(path))
    assert str(missed.value) == f"{path}: no journal: another mark at byte 1"
    path.write_bytes(b"\1VLBIJRN1" + struct.pack("<QQQ", 0, 6, 0) + b"lags 4\0")
    with pytest.raises(Fault) as unread:
        records.journal(str(path))
    assert str(unread.value) == f"{path}: the job has no line `integration` with a number"


def test_a_file_is_mapped_and_a_pipe_is_read(tmp_path: Path) -> None:
    file, lines = record_files.random_file(next(record_files.cases("pipe", 1)))
    path, pipe = tmp_path / "file", tmp_path / "pipe"
    path.write_bytes(file)
    os.mkfifo(pipe)
    with subprocess.Popen(["cp", path, pipe]):
        piped = records.read(str(pipe))
    for found in (records.read(str(path)), piped):
        assert b"".join(records.text(found)) == lines


def test_axes_times_and_means() -> None:
    found = records.read(str(RUNS / "two_integrations.vis"))
    scan = found.scan("S")
    assert (found.head.stations, found.head.products, scan.baseline_keys) == (("A", "B"), (("X", "X"),), (("A", "B"),))
    assert scan.cells.shape == (2, 1, 1, 2)
    assert scan.cells["re"][:, 0, 0].tolist() == [[423, 432], [144, 144]]
    assert scan.times.tolist() == [24 / 64, 56 / 64]
    assert found.head.lag_numbers.tolist() == [-1, 0]
    assert found.head.lag_times.tolist() == [-1e6 / 64, 0]
    assert scan.means(0, 0).tolist() == [[9, 9], [9, 9]]
    assert not scan.cells.flags.writeable
    assert len(repr(found)) < 400
    with pytest.raises(LookupError):
        found.scan("T")


def test_dump_says_the_same(tmp_path: Path) -> None:
    program.needs("dump")
    for number, draw in enumerate(record_files.cases("dump", 300)):
        file, _ = record_files.random_file(draw)
        if number % 3 != 0:
            file = record_files.changed(draw, file)
        (tmp_path / "file").write_bytes(file)
        try:
            due = 0, b"".join(records.text(records.read(str(tmp_path / "file")))), b""
        except records.RecordFault as fault:
            due = 5, b"", f"vlbi: records: {fault.kind} at byte {fault.at}\n".encode()
        assert program.call("journal", "dump", "file", folder=tmp_path) == due


def test_gen_says_what_the_manual_says() -> None:
    program.needs("gen")
    told = b"records 24\nbytes 19088\npairs 116732006\nre -55854\nim -3582\n"
    for workers, piece in (("1", "64"), ("3", "1000")):
        assert program.call("journal", "gen", "--seed", "7", "--seconds", "2", "--workers", workers, "--piece", piece) == (0, told, b"")
