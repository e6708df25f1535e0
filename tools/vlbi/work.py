"""How the work of a job is cut: epochs, pieces and workers.

An epoch is cut into pieces of a baseline and a product each, which workers draw one after the other; then the journal keeps it.
"""
from __future__ import annotations

import os

from vlbi.job import MOST_EPOCH, Plan

MOST_WORKERS = 64
MOST_LOAD = 1 << 28    # stations times channels times samples of an epoch
LEAST_PIECE = 4096     # samples: shorter ones cost more to draw than to sum
GOOD_PIECE = 65536
PAIRS = 16e9           # pairs of samples times lags that a worker sums in a second, some
SYNCS = 0.01           # seconds that the journal takes to keep an epoch, some
GOOD_EPOCH = 0.2       # seconds of work in an epoch, beside which its syncs do not count


def workers() -> int:
    """As many workers as this process may use processors."""
    return max(1, min(MOST_WORKERS, len(os.sched_getaffinity(0))))


def cells(plan: Plan) -> int:
    """The most pairs of a baseline and a product of a scan."""
    return max((len(scan.baselines) for scan in plan.scans), default=0) * len(plan.products)


def channels(plan: Plan) -> int:
    """The names of channels in the products."""
    return len({channel for product in plan.products for channel in product})


def load(plan: Plan) -> int:
    """Stations times channels times the samples of an epoch, which may come to MOST_LOAD."""
    return len(plan.stations) * channels(plan) * plan.epoch


def pieces(plan: Plan, piece: int) -> int:
    """The pieces of an epoch."""
    return cells(plan) * -(-min(plan.epoch, plan.integration) // piece)


def piece(plan: Plan, many: int) -> int:
    """The samples of a piece with which so many workers have enough to draw, and not too much."""
    epoch = min(plan.epoch, plan.integration)
    shared = epoch * max(cells(plan), 1) // (4 * many)
    return max(LEAST_PIECE, min(GOOD_PIECE, shared))


def epoch_seconds(plan: Plan, many: int) -> float:
    """How long so many workers sum an epoch, some."""
    return min(plan.epoch, plan.integration) * cells(plan) * plan.lags / (PAIRS * many)


def good_epoch(plan: Plan, rate: int, stations: int, many: int) -> int:
    """The samples of an epoch whose work is long against its syncs, as far as a job may have them and its integration is."""
    most = min(plan.integration, MOST_EPOCH, MOST_LOAD // max(stations * channels(plan), 1))
    wanted = GOOD_EPOCH * PAIRS * many / max(cells(plan) * plan.lags, 1)
    return even_epoch(plan.integration, max(1, min(most, int(wanted))))


def even_epoch(integration: int, most: int) -> int:
    """The longest epoch of at most so many samples of which an integration is a whole number."""
    smallest = -(-integration // most)
    for many in range(smallest, min(integration, smallest * 4 + 64) + 1):
        if integration % many == 0:
            return integration // many
    return most
