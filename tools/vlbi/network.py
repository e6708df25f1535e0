"""What differences on baselines say of stations: clocks of lags, drifts of rates."""
from __future__ import annotations

from collections.abc import Iterable, Sequence

import numpy


def solved(keys: Sequence[str], rows: Sequence[tuple[tuple[str, str], float, float]]) -> dict[str, float]:
    """The numbers of stations whose differences, the second's less the first's, are those of the rows, by least squares.

    rows  the baselines' keys, the difference, its weight
    Stations that rows join are told against the one in the middle of them; of two against the first.
    """
    weights = numpy.array([weight for _, _, weight in rows])
    matrix = numpy.array([[(key == second) - (key == first) for key in keys] for (first, second), _, _ in rows], numpy.float64)
    due = numpy.array([difference for _, difference, _ in rows])
    found = numpy.linalg.lstsq(matrix * weights[:, None], due * weights, rcond=None)[0]
    made = dict.fromkeys(keys, 0.0)
    for group in groups(keys, [pair for pair, _, _ in rows]):
        values = {key: float(found[keys.index(key)]) for key in group}
        reference = values[group[0]] if len(group) < 3 else sorted(values.values())[(len(group) - 1) // 2]
        made.update({key: value - reference for key, value in values.items()})
    return made


def groups(keys: Sequence[str], pairs: Iterable[tuple[str, str]]) -> list[list[str]]:
    """The stations that pairs join, each group in the order of the keys."""
    of = {key: {key} for key in keys}
    for first, second in pairs:
        both = of[first] | of[second]
        for key in both:
            of[key] = both
    return [[key for key in keys if key in group] for group in {id(group): group for group in of.values()}.values()]
