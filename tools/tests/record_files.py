"""Record files of random content, made field by field, and changed."""
from __future__ import annotations

import itertools
import random
import struct
from collections.abc import Iterator


def name(text: bytes) -> bytes:
    return struct.pack("<H", len(text)) + text


def random_name(draw: random.Random) -> bytes:
    return bytes(draw.choice(b"ABCXYZabc0189_\xc3\xa9\xff") for _ in range(draw.randint(1, 6)))


def random_file(draw: random.Random, bins: int | None = None) -> tuple[bytes, bytes]:
    """A record file of few cells, by this random.Random: its bytes, and the lines that `dump` prints of it.

    bins  with so many bins a text of the cells of bins, in whose lines of cells the bin stands before the lag
    """
    lags = 2 * draw.randint(1, 4)
    integration = draw.randint(1, 50)
    rate = draw.randint(1, 2 ** 32 - 1)
    keys = [random_name(draw) for _ in range(draw.randint(1, 4))]
    products = [(random_name(draw), random_name(draw)) for _ in range(draw.randint(1, 3))]
    head = [b"VLBIVIS1" if bins is None else b"VLBIBIN1" + struct.pack("<I", bins)]
    head += [struct.pack("<IQQ", lags, integration, rate), struct.pack("<I", len(keys)), *map(name, keys)]
    head += [struct.pack("<I", len(products)), *(name(x) + name(y) for x, y in products)]
    lines = [b"lags %d integration %d rate %d" % (lags, integration, rate)]
    lines += [b"station %d %s" % it for it in enumerate(keys)]
    lines += [b"product %d %s %s" % (number, x, y) for number, (x, y) in enumerate(products)]
    scans = draw.randint(0, 3)
    head.append(struct.pack("<I", scans))
    body: list[bytes] = []
    cells: list[bytes] = []
    records = 0
    for scan in range(scans):
        scan_name, start, samples = random_name(draw), draw.randint(0, 2 ** 32 - 1), draw.choice((0, draw.randint(1, 150)))
        all_pairs = [(a, b) for a in range(len(keys)) for b in range(a, len(keys))]
        baselines = sorted(draw.sample(all_pairs, draw.randint(1, len(all_pairs))))
        head.append(name(scan_name) + struct.pack("<QQI", start, samples, len(baselines)))
        head += [struct.pack("<II", *pair) for pair in baselines]
        lines.append(b"scan %d %s %d %d" % (scan, scan_name, start, samples))
        lines += [b"baseline %d %d %d %d" % (scan, number, a, b) for number, (a, b) in enumerate(baselines)]
        for m in range((samples + integration - 1) // integration):
            for product in range(len(products)):
                for baseline, of_bin in itertools.product(range(len(baselines)), [None] if bins is None else range(bins)):
                    records += 1
                    body.append(struct.pack("<BIQII", 1 if of_bin is None else 2, scan, m, product, baseline))
                    body.append(b"" if of_bin is None else struct.pack("<I", of_bin))
                    place = (scan, m, product, baseline) if of_bin is None else (scan, m, product, baseline, of_bin)
                    for lag in range(-lags // 2, lags // 2):
                        re, im = (draw.choice((0, draw.randint(-9, 9), draw.randint(-2 ** 63, 2 ** 63 - 1))) for _ in range(2))
                        count = draw.choice((0, 7, 2 ** 64 - 1))
                        body.append(struct.pack("<qqQ", re, im, count))
                        cells.append(b" ".join(b"%d" % number for number in (*place, lag, re, im, count)))
    end = struct.pack("<BQ", 255, records)
    return b"".join(head + body + [end]), b"".join(line + b"\n" for line in lines + cells)


def changed(draw: random.Random, file: bytes) -> bytes:
    """The file with a byte changed, its end cut off, or bytes behind it."""
    kind = draw.randrange(4)
    if kind == 0:
        return file[:draw.randrange(len(file))]
    if kind == 1:
        return file + random_name(draw)
    at = draw.randrange(len(file) if kind == 2 else min(len(file), 120))
    return file[:at] + bytes([draw.choice((0, 1, 2, 255, draw.randrange(256)))]) + file[at + 1:]


def cases(seed: str, count: int) -> Iterator[random.Random]:
    """So many random.Random, each for a case of its own."""
    return (random.Random(f"{seed} {number}") for number in range(count))
