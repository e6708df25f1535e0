"""What the table of whole calls, `crates/vlbi_cases`, prints of journals of parts that are merged, by the definitions alone.

    whole_merges.py < crates/vlbi_cases/stdin     what is printed for the lines of merges

These lines are those from `FIRST` on, up to the random jobs. Calls of them are of `merge`, and beside it of `shard`, `run`, `status` and `plain`.
"""
from __future__ import annotations

import sys
from collections.abc import Iterator, Sequence
from typing import Optional

import merged_journals
import turning_jobs
import whole_calls
import whole_parts
from merged_journals import NotMerged
from whole_journals import SummedJob
from whole_parts import each, words_of

FIRST = whole_parts.PAST
OPTIONS = ("--job", "--vex")


class Merges(whole_parts.Calls):
    """Calls over the files of a case, of which some are merges."""

    def called(self, words: Sequence[str], image: bytes) -> tuple[str, int, bytes]:
        if words[0] != "merge":
            return super().called(words, image)
        return self.wrong(words) or merged_journals.merge(*self.named(words)), 0, image

    def wrong(self, words: Sequence[str]) -> Optional[str]:
        """What is wrong with a merge before a journal is read."""
        found = order_of(words)
        if found is None:
            return "2 vlbi: words: Option"
        options, names = found
        return self.refused(["status", *options]) or next(iter(self.missing(names)), None)

    def named(self, words: Sequence[str]) -> tuple[SummedJob, list[tuple[str, bytes]]]:
        """The job of a merge whose words have no fault, and the names and the bytes of its journals."""
        options, names = order_of(words) or ([], [])
        return self.job(["status", *options]), [(name, self.files.get(name, b"")) for name in names]

    def records(self, words: Sequence[str]) -> bytes:
        """What a merge appends where nothing fails."""
        try:
            return b"" if self.wrong(words) else merged_journals.record_file(*self.named(words))[0]
        except NotMerged:
            return b""


def order_of(words: Sequence[str]) -> Optional[tuple[list[str], list[str]]]:
    """The options of a merge with their values, and the names of its journals; none where its words have a fault."""
    options: list[str] = []
    names: list[str] = []
    rest = iter(words[1:])
    for word in rest:
        if word in OPTIONS and word not in options[::2]:
            options += [word, next(rest, "-")]
        else:
            names.append(word)
    is_whole = "--job" in options[::2] and names and not any(one.startswith("-") for one in [*options[1::2], *names])
    return (options, names) if is_whole else None


# What is printed for each kind of line, behind the name of its case.

def disk(calls: whole_parts.Calls, rest: str, table: whole_calls.Table) -> Iterator[str]:
    """The journal of the call is not used."""
    yield f", each disk call failing: none, then {calls.answer(words_of(rest), table.journal)}"


def cuts(calls: whole_parts.Calls, rest: str, table: whole_calls.Table) -> Iterator[str]:
    """A file with each length that is less than its own."""
    name, _, line = rest.partition(" ")
    words = words_of(line)
    for length in range(len(calls.files[name])):
        answer = Merges({**calls.files, name: calls.files[name][:length]}).answer(words, table.journal)
        if answer != f"14 vlbi: merge: NotShard {name} at byte {length}":
            yield f", {length} bytes of {name}: {answer}"
    yield f", other fronts of {name}: NotShard at their ends, then {calls.answer(words, table.journal)}"


def stop(calls: whole_parts.Calls, rest: str, table: whole_calls.Table) -> Iterator[str]:
    """A write of the output, of which each takes so many bytes."""
    assert isinstance(calls, Merges)
    first, _, line = rest.partition(" ")
    whole = calls.records(words_of(line))
    written = whole[: int(first) * table.most]
    there = f" {len(written)} bytes {whole_calls.shown(written)}" if written else ""
    yield f", write {first} failing: " + (calls.answer(words_of(line), b"") if written == whole else f"9 vlbi: write fault{there}")


def broken(calls: whole_parts.Calls, rest: str, table: whole_calls.Table) -> Iterator[str]:
    """Two calls of the shelf read a job, and each further one tells the size of a file, up to the first that is not there."""
    assert isinstance(calls, Merges)
    first, _, line = rest.partition(" ")
    words = words_of(line)
    job, named = calls.named(words)
    files = [*whole_parts.names_of(job.plan), *(name for name, _ in named)]
    is_told = any(name not in calls.files for name in files[: max(0, int(first) - 2)])
    yield f", reads from {first} on failing: {calls.answer(words, b'') if is_told else '7 vlbi: read fault'}"


def writes(calls: whole_parts.Calls, rest: str, table: whole_calls.Table) -> Iterator[str]:
    """Each write of the output fails once; where nothing is appended there is none."""
    assert isinstance(calls, Merges)
    words = words_of(rest)
    yield f", each write failing: {'faults' if calls.records(words) else 'none'}, then {calls.answer(words, table.journal)}"


LINES = {
    **{word: whole_parts.LINES[word] for word in ("call", "show")}, "disk": disk, "cuts": cuts, "stop": stop, "broken": broken,
    "reads": each("read"), "writes": writes,
}


def section(lines: list[str]) -> tuple[list[str], list[str]]:
    """The lines of the table before those of merges, and these."""
    first = lines.index(FIRST)
    return lines[:first], lines[first : lines.index(turning_jobs.FIRST)]


def answers(lines: list[str]) -> Iterator[str]:
    """What is printed for the lines of merges."""
    table = whole_calls.Table()
    before, asked = section(lines)
    for _ in table.asked(before):
        pass
    calls = Merges({})
    for name, files, word, rest in table.asked(asked):
        if files != calls.files:
            calls = Merges(files)
        yield from (f"{name}{told}" for told in LINES[word](calls, rest, table))


if __name__ == "__main__":
    print("\n".join(answers(sys.stdin.read().splitlines())))
