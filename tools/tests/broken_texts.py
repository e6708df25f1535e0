"""Texts broken in all places, as the tables of cases break them."""
from __future__ import annotations

import itertools
from collections.abc import Callable, Iterable, Iterator

# What stands in a byte's place, by the words that a line has for it.
OTHERS: dict[str, Callable[[int], int]] = {"00 at": lambda byte: 0, "FF at": lambda byte: 255, "+1 at": lambda byte: (byte + 1) % 256}


def fronts(text: bytes) -> Iterator[tuple[str, int, bytes]]:
    """Each front of a text that is shorter, with the words that a line has for it, and its length."""
    return (("prefix", size, text[:size]) for size in range(len(text)))


def changed(text: bytes) -> Iterator[tuple[str, int, bytes]]:
    """The text with each byte set to 0, to 255 and to one more, with the words that a line has for it, and the byte's place."""
    for words, other in OTHERS.items():
        for place, byte in enumerate(text):
            yield words, place, text[:place] + bytes([other(byte)]) + text[place + 1 :]


def runs(answers: Iterable[tuple[str, int, str]]) -> Iterator[str]:
    """The lines of equal answers in a row, each with its words and place."""
    for (words, answer), run in itertools.groupby(answers, key=lambda told: (told[0], told[2])):
        places = [place for _, place, _ in run]
        yield f"{words} {places[0]}{f' to {places[-1]}' if len(places) > 1 else ''}: {answer}"
