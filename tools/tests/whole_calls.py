"""The table of whole calls, `crates/vlbi_cases`: the files that its lines describe, as the head of its `stdin` says, and what it prints of records."""
from __future__ import annotations

import hashlib
import struct
from collections.abc import Iterable, Iterator
from dataclasses import dataclass, field

from by_definition import Cell, Files

FIELDS = {"epoch": 20, "second": 0, "number": 0, "station": 1, "thread": 0, "bits": 2, "chans": 0, "seed": 0, "noise": 0}
MARKS = ("invalid", "legacy", "complex")
CALLS = ("call", "count", "runs", "show")
ASKING = (*CALLS, "meets", "told", "stop", "fail", "broken", "refused", "disk", "left", "stops", "reads", "writes", "cuts")


def runs(text: str) -> bytes:
    """Runs of bytes as the lines write them: `HH*N,HH,..`."""
    pairs = (run.partition("*") for run in text.split(","))
    return b"".join(bytes([int(byte, 16)]) * int(count or 1) for byte, _, count in pairs)


def escaped(text: str) -> bytes:
    """A text of a line, with \\n for a line feed and \\x for a byte of two hexadecimal digits."""
    first, *parts = text.split("\\")
    return first.encode() + b"".join(b"\n" + part[1:].encode() if part[0] == "n" else bytes.fromhex(part[1:3]) + part[3:].encode() for part in parts)


def noise(state: int, words: int) -> Iterator[bytes]:
    """So many words of SplitMix64 that begins with this state."""
    for _ in range(words):
        state = (state + 0x9E3779B97F4A7C15) % 2**64
        word = (state ^ state >> 30) * 0xBF58476D1CE4E5B9 % 2**64
        word = (word ^ word >> 27) * 0x94D049BB133111EB % 2**64
        yield struct.pack("<Q", word ^ word >> 31)


def frames(text: str, count: int) -> bytes:
    """So many frames of a line, numbered on."""
    fields, marks, data = dict(FIELDS), dict.fromkeys(MARKS, 0), b""
    for word in text.split():
        key, _, value = word.partition("=")
        if key == "data":
            data += runs(value)
        elif key in MARKS:
            marks[key] = 1
        else:
            fields[key] = int(value)
    if not data and fields["noise"] == 0:
        data = b"\xff" * 8
    rest = bytes(0 if marks["legacy"] else 16)
    units = (16 + len(rest) + len(data) + 8 * fields["noise"]) // 8
    words = [marks["invalid"] << 31 | marks["legacy"] << 30 | fields["second"], fields["epoch"] << 24, fields["chans"] << 24 | units]
    words.append(marks["complex"] << 31 | (fields["bits"] - 1) << 26 | fields["thread"] << 16 | fields["station"])
    made = []
    for number in range(fields["number"], fields["number"] + count):
        state = fields["seed"] << 32 | fields["second"] % 2**16 << 16 | number % 2**16
        made += [struct.pack("<4I", words[0], words[1] | number, *words[2:]), rest, data, *noise(state, fields["noise"])]
    return b"".join(made)


@dataclass
class Table:
    """The bytes so far, the pieces, the files of all cases, and of the last case its name, its files, its journal and the bytes that the output
    takes in one write. What calls leave of the journal is for who asks for them to say."""

    text: bytes = b""
    name: str = ""
    pieces: Files = field(default_factory=dict)
    common: Files = field(default_factory=dict)
    files: Files = field(default_factory=dict)
    journal: bytes = b""
    most: int = 1_000_000

    def calls(self, lines: Iterable[str]) -> Iterator[tuple[str, Files, str, list[str]]]:
        """The name and the files of the case of each line that makes calls over devices which do not fail, or shows the journal, its first word,
        and the parts between its bars."""
        return ((name, files, word, rest.split("|")[1:]) for name, files, word, rest in self.asked(lines) if word in CALLS)

    def asked(self, lines: Iterable[str]) -> Iterator[tuple[str, Files, str, str]]:
        """The name and the files of the case of each line that asks for an answer, its first word, and what stands behind that."""
        for line in lines:
            word, _, rest = line.partition(" ")
            if word == "case":
                self.name, self.files, self.journal, self.most = rest, {}, b"", 1_000_000
            elif word in ASKING:
                yield self.name, {**self.common, **self.files}, word, rest
            elif word == "most":
                self.most = int(rest)
            elif word in ("piece", "common", "file"):
                {"piece": self.pieces, "common": self.common, "file": self.files}[word][rest] = self.text
                self.text = b""
            elif word == "journal":
                self.journal, self.text = self.text, b""
            elif word == "keep":
                self.pieces[rest] = self.journal
            elif line and word != "#":
                self.describe(word, rest)

    def describe(self, word: str, rest: str) -> None:
        """A line of a file's bytes; others are passed over."""
        count, _, behind = rest.partition(" ")
        if word == "|":
            self.text += escaped(rest) + b"\n"
        elif word == "lines":
            self.text += b"".join(behind.replace("{}", str(number)).encode() + b"\n" for number in range(int(count)))
        elif word == "bytes":
            self.text += runs(rest)
        elif word == "frame":
            self.text += frames(rest, 1)
        elif word == "frames":
            self.text += frames(behind, int(count))
        elif word == "use":
            self.text += b"".join(self.pieces[name] for name in rest.split())
        elif word == "cut":
            self.text = self.text[: int(rest)]
        elif word == "byte":
            self.text = self.text[: int(count)] + bytes.fromhex(behind) + self.text[int(count) + 1 :]
        elif word == "change":
            old, _, new = rest.partition(" => ")
            self.text = self.text.replace(escaped(old), escaped(new), 1)


def told(records: bytes, cells: list[Cell]) -> str:
    """What is printed of a call that gives this record file: its cells where they are few, its bytes or their digest."""
    listed = "".join(f" {re},{im},{count}" for re, im, count in cells)
    return f"0 {len(records)} bytes{f' cells{listed}' if len(cells) <= 64 else ''} {shown(records)}"


def told_bins(text: bytes) -> str:
    """The same of the text of the cells of bins: its bytes or their digest."""
    return f"0 {len(text)} bytes {shown(text)}"


def shown(text: bytes) -> str:
    return f"hex {text.hex()}" if len(text) <= 200 else f"md5 {hashlib.md5(text).hexdigest()}"
