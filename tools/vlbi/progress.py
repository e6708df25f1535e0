"""How far a run of the program `vlbi` is, by its journal: epochs, speed, time left.

    watch = progress.Watch("night.journal")
    state = watch.look(time.monotonic())
    print(state.words if state else "nothing is kept yet")
"""
from __future__ import annotations

import collections
import dataclasses
import math
import os
import sys
import time
from typing import Any, Protocol

from vlbi import joined, vex
from vlbi.faults import Fault
from vlbi.records import Follower, Identity

WINDOW = 60.0        # seconds over which a speed is taken
EVERY = 60.0         # seconds between two lines where there is no terminal
PREFIXES = ("", "k", "M", "G", "T", "P")


@dataclasses.dataclass(frozen=True)
class State:
    """How far a run is.

    kept, epochs    the epochs that are kept, and these with those that are left
    samples, pairs  a second, the second by baselines, products and lags; None where nothing was kept while it was watched
    times           how much faster that is than the samples were recorded; None where the rate is not known
    left            seconds that are left
    still           seconds since an epoch was kept last, while it was watched
    """

    kept: int
    epochs: int
    samples: float | None = None
    pairs: float | None = None
    times: float | None = None
    left: float | None = None
    still: float = 0.0

    @property
    def whole(self) -> bool:
        return self.kept == self.epochs

    @property
    def front(self) -> str:
        return f"{self.kept} of {self.epochs} epochs kept"

    @property
    def speed(self) -> str:
        """The speed and the time left, in words."""
        said = []
        if self.samples is not None and self.pairs is not None:
            real = f" ({self.times:.3g} times real time)" if self.times is not None else ""
            said = [f"{scaled(self.samples)}samples/s{real}", f"{scaled(self.pairs)}pairs/s"]
        if self.left is not None and not self.whole:
            said.append(f"{clock(self.left)} left")
        if self.still > WINDOW and not self.whole:
            said.append(f"nothing kept for {clock(self.still)}")
        return ", ".join(said)

    @property
    def words(self) -> str:
        return ", ".join(filter(None, (self.front, self.speed)))


def scaled(number: float) -> str:
    """A number of three digits and its prefix of a thousand, as `1.60 M`."""
    place = min(len(PREFIXES) - 1, max(0, int(math.log10(number) // 3))) if number >= 1 else 0
    return f"{number / 1000 ** place:.3g} {PREFIXES[place]}"


def clock(seconds: float) -> str:
    """A time as `0:12` or `2:03:04`."""
    minutes, rest = divmod(round(seconds), 60)
    hours, minutes = divmod(minutes, 60)
    return f"{hours}:{minutes:02d}:{rest:02d}" if hours else f"{minutes}:{rest:02d}"


class Watch:
    """Looks at a journal that grows.

    ours   the texts of job and schedule of which it has to be, and of no part of the job; any where they are not told
    epoch  the samples of an epoch in force; those of the job's own line where they are not told
    """

    def __init__(self, path: str, ours: tuple[bytes, bytes] | None = None, epoch: int | None = None) -> None:
        self.follower = Follower(path)
        self.ours = ours
        self.epoch = epoch
        self.rate: int | None = None
        self.seen: collections.deque[tuple[float, int, int]] = collections.deque()
        self.grown = 0.0  # when an epoch was kept last

    def look(self, now: float) -> State | None:
        """How far it is at a moment in seconds; None where there is no journal, none of this job, or a blank one."""
        rows = self.follower.look()
        identity = self.follower.identity
        if rows is None or identity is None:
            return None
        if self.ours is not None and (identity.job, identity.schedule, identity.part) != (*self.ours, None):
            self.follower = Follower(self.follower.path)
            return None
        if not self.seen:
            self.rate = rate_of(identity)
        if not self.seen or self.seen[-1][1] != rows.kept_samples:
            self.grown = now
        self.seen.append((now, rows.kept_samples, rows.kept_pairs))
        while len(self.seen) > 2 and self.seen[1][0] < now - WINDOW:
            self.seen.popleft()
        return self.state(rows.kept, rows.epochs(self.epoch), rows.plan.pairs)

    def state(self, kept: int, epochs: int, all_pairs: int) -> State:
        """The State by what was seen."""
        (first, samples, pairs), (last, samples_now, pairs_now) = self.seen[0], self.seen[-1]
        if last <= first or samples_now == samples:
            return State(kept, epochs, still=last - self.grown)
        speed, pair_speed = (samples_now - samples) / (last - first), (pairs_now - pairs) / (last - first)
        times = speed / self.rate if self.rate else None
        return State(kept, epochs, speed, pair_speed, times, (all_pairs - pairs_now) / pair_speed if pair_speed else None, last - self.grown)


def rate_of(identity: Identity) -> int | None:
    """The samples a second of a journal's job; None where its texts do not say it."""
    try:
        schedule = vex.from_bytes(identity.schedule) if identity.schedule else None
        return joined.of_text("job", "schedule" if schedule else None, identity.job, schedule).rate
    except (Fault, ValueError, LookupError):
        return None


class Show(Protocol):
    """Shows how far a run is."""

    def show(self, state: State | None, waits: str) -> None:
        """The state now; where there is none, what is waited for."""

    def close(self) -> None:
        """Nothing more is shown."""


class Silent:
    """Shows nothing."""

    def show(self, state: State | None, waits: str) -> None:
        return None

    def close(self) -> None:
        return None


class Lines:
    """Shows it in a line each minute, and the last state."""

    def __init__(self, name: str) -> None:
        self.name = name
        self.last = time.monotonic()
        self.now = self.said = ""
        self.begun = False  # whether there is a state

    def show(self, state: State | None, waits: str) -> None:
        self.begun = self.begun or state is not None
        self.now = state.words if state else waits
        if time.monotonic() - self.last >= EVERY:
            self.say()

    def say(self) -> None:
        self.last, self.said = time.monotonic(), self.now
        print(f"{self.name}: {self.now}", file=sys.stderr, flush=True)

    def close(self) -> None:
        if self.begun and self.now != self.said:
            self.say()


class Bar:
    """Shows it in one line of a terminal that changes, by tqdm."""

    def __init__(self, name: str, bar: Any) -> None:
        self.name = name
        self.make = bar
        self.bar: Any = None

    def show(self, state: State | None, waits: str) -> None:
        if state is None:
            return
        if self.bar is None:
            told = os.get_terminal_size(sys.stderr.fileno()).columns > 0  # else 80 columns
            self.bar = self.make(total=state.epochs, initial=state.kept, file=sys.stderr, dynamic_ncols=told, ncols=None if told else 80, mininterval=0.5,
                                 bar_format="{percentage:3.0f} %|{bar:12}| {n_fmt} of {total_fmt} epochs{postfix}")
        self.bar.n = state.kept
        self.bar.set_postfix_str(state.speed)

    def close(self) -> None:
        if self.bar is not None:
            self.bar.close()


def shown(name: str, quiet: bool) -> Show:
    """What shows how far a run is: a bar in a terminal, where tqdm is there; else lines."""
    if quiet:
        return Silent()
    if sys.stderr.isatty():
        try:
            from tqdm import tqdm
        except ModuleNotFoundError:
            return Lines(name)
        return Bar(name, tqdm)
    return Lines(name)
