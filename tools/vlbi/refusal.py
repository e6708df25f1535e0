"""What the statuses of the program `vlbi` ask for, and what its one line has no room for.

    call = refusal.Call("night.journal", ("run", "--job", "job.txt", "--vex", "sky.vex"))
    for line in refusal.advice(call, 3, "vlbi: schedule: UnknownRef at byte 912"):
        print(line)

It looks at the files that the call names, and writes nothing.
"""
from __future__ import annotations

import dataclasses
import difflib
import os
import re
import shutil
import stat
from collections.abc import Callable, Iterable, Iterator, Sequence

from vlbi import job as jobs
from vlbi import joined, recording, records, vex
from vlbi.faults import Fault
from vlbi.words import COMMANDS, FORMS, GREATEST, NAMED, PHASE_FORMS, RANGES, RECORD_RULES, REPEATED, SCHEDULE_FAULTS, WANTED, WANTED_INLINE

SHOWN = 100  # characters of a line that is shown
KEEPING = ("run", "shard")  # the commands that go on from their journal
TIME_WORDS = "a time is written 2010y113d20h29m00s, of a day that its year has"


@dataclasses.dataclass(frozen=True)
class Call:
    """A call of the program: its journal, and the words behind."""

    journal: str
    words: tuple[str, ...]

    @property
    def command(self) -> str:
        return self.words[0] if self.words else ""

    def values(self, option: str) -> list[str]:
        """What stands behind each of these options, up to a word `--`; empty where nothing does."""
        found = []
        for place, word in enumerate(self.words):
            if word == "--":
                break
            if word == option:
                found.append(self.words[place + 1] if place + 1 < len(self.words) else "")
            elif word.startswith(option + "="):
                found.append(word[len(option) + 1:])
        return found

    @property
    def names(self) -> list[str]:
        """The words that are no options and no values of them; behind a word `--` each is one."""
        found: list[str] = []
        rest = list(self.words[1:])
        while rest:
            word = rest.pop(0)
            if word == "--":
                return found + rest
            if word in COMMANDS.get(self.command, {}):
                rest[:1] = []
            elif not word.startswith("-"):
                found.append(word)
        return found

    @property
    def job(self) -> str | None:
        return next(iter(self.values("--job")), None)

    @property
    def schedule(self) -> str | None:
        return next(iter(self.values("--vex")), None)

    @property
    def phases(self) -> str | None:
        return next(iter(self.values("--phase")), None)

    @property
    def part(self) -> tuple[int, int] | None:
        """The ends of the part of the job that `shard` sums; None where the call is of all of it."""
        ends = [value for option in ("--from", "--to") for value in self.values(option)[:1] if is_number(option, value)]
        return (int(ends[0]), int(ends[1])) if self.command == "shard" and len(ends) == 2 else None


def advice(call: Call, status: int, note: str) -> list[str]:
    """What to do after a status of a call, and its line on standard error: lines, none for the status 0."""
    handlers: dict[int, Callable[[Call, str], Iterable[str]]] = {
        1: memory, 2: of_words, 3: of_schedule, 4: of_job, 5: of_content, 6: of_limit, 7: of_read, 8: of_journal, 9: of_output, 10: of_other, 11: of_name,
        12: of_phases, 13: of_certificate, 14: of_merge,
    }
    if status not in handlers:
        return []
    try:
        return list(handlers[status](call, note))
    except (Fault, OSError, ValueError, LookupError) as error:  # a file that was there a moment ago
        return [f"what is wrong cannot be looked at: {error}"]


def memory(call: Call, note: str) -> Iterator[str]:
    if call.command == "merge":
        yield "It has two integrations in memory, and the list of the epochs of each journal: merge the same journals on a machine that has more of it."
        yield "Else call the same command again once memory is free."
        return
    yield "A smaller `--epoch` needs less memory, and so does a new job of fewer products, lags or stations."
    yield "Else call the same command again once memory is free: what the journal keeps is not lost."


# The words

def of_words(call: Call, note: str) -> Iterator[str]:
    """What is wrong with the words of a call."""
    if call.command not in COMMANDS:
        yield f"`{call.command}` is no command: {', '.join(COMMANDS)}{likely(call.command, COMMANDS)}"
        return
    known = COMMANDS[call.command]
    for option, wanted in known.items():
        given = call.values(option)
        if wanted and not given:
            yield f"{option} is missing"
        if len(given) > 1:
            yield f"{option} is given {len(given)} times"
        yield from wrong_values(option, given)
    if call.part is not None and call.part[0] >= call.part[1]:
        yield f"--to {call.part[1]}: the part has the integrations from --from up to, not including, --to, which is above --from"
    yield from unknown_words(call, known)


def wrong_values(option: str, given: Iterable[str]) -> Iterator[str]:
    for value in given:
        if value.startswith("-") and value != "-" or value == "" and option in RANGES:
            yield f"{option} has no value"
        elif option in RANGES and not is_number(option, value):
            least, greatest = RANGES[option]
            yield f"{option} {value}: it is a whole number, {least} to {greatest}"


def is_number(option: str, value: str) -> bool:
    """Whether a value is a number in the range of its option."""
    least, greatest = RANGES[option]
    return re.fullmatch(r"\d{1,20}", value, re.ASCII) is not None and least <= int(value) <= greatest


def unknown_words(call: Call, known: Iterable[str]) -> Iterator[str]:
    """The words that are no options of the command and no values of them."""
    rest, wanted = list(call.words[1:]), NAMED.get(call.command, ())
    if len(call.names) < len(wanted) or wanted and len(call.names) > len(wanted) and call.command not in REPEATED:
        yield f"`{call.command}` takes the name of {' and that of '.join(wanted)}"
    while rest:
        word = rest.pop(0)
        if word == "--" and wanted:
            return
        if word in known:
            rest[:1] = []
        elif word.split("=")[0] not in known and not (wanted and word in call.names):
            yield f"`{word}` is no option of `{call.command}`: {', '.join(known)}{likely(word, known)}"


def likely(word: str, known: Iterable[str]) -> str:
    """Which of the known words is like this one."""
    near = difflib.get_close_matches(word, list(known), 1, 0.6)
    return f"; is `{near[0]}` meant?" if near else ""


# Texts

def of_schedule(call: Call, note: str) -> Iterator[str]:
    found = re.search(r"(\w+) at byte (\d+)", note)
    if not found or call.schedule is None:
        return
    kind, at = found.group(1), int(found.group(2))
    with open(call.schedule, "rb") as file:
        text = file.read()
    yield f"{call.schedule}:{line_number(text, at)}: {SCHEDULE_FAULTS.get(kind, kind)}"
    yield from shown(text, at)
    yield from more_of_schedule(kind, text, at)


def line_number(text: bytes, at: int) -> int:
    """The number of the line, from 1, in which a byte stands."""
    return text.count(b"\n", 0, at) + 1


def shown(text: bytes, at: int) -> Iterator[str]:
    """The line in which a byte stands, with a mark below it."""
    begin = text.rfind(b"\n", 0, at) + 1
    end = text.find(b"\n", at)
    line = text[begin:len(text) if end < 0 else end].decode("utf-8", "replace").replace("\t", " ").rstrip("\r")
    place = len(text[begin:at].decode("utf-8", "replace"))
    cut = max(0, place - SHOWN // 2)
    yield f"    {line[cut:cut + SHOWN]}"
    yield "    " + " " * (place - cut) + "^"


def more_of_schedule(kind: str, text: bytes, at: int) -> Iterator[str]:
    """The names that a ref to a def which is not there may mean."""
    if kind != "UnknownRef":
        return
    blocks = vex.blocks_of(text)
    statement = re.match(rb"ref\s+(\$\w+)\s*=\s*([^:;\s]+)|mode\s*=\s*([^:;\s]+)", text[at:])
    if statement:
        block = (statement.group(1) or b"$MODE").decode()
        name = (statement.group(2) or statement.group(3)).decode("utf-8", "replace")
        there = list(blocks[block].defs) if block in blocks else []
        yield f"the defs of {block}: {', '.join(there[:12]) or 'none'}{likely(name, there)}"


def of_job(call: Call, note: str) -> Iterator[str]:
    if call.job is None:
        return
    with open(call.job, "rb") as file:
        text = file.read()
    of_line = re.search(r"(\w+) in line (\d+)", note)
    of_pair = re.search(r"job: (\w+) for (.*)", note)
    if of_line and of_line.group(2) == "0":
        yield from missing_lines(call, text)
    elif of_line:
        yield from of_one_line(call, text, of_line.group(1), int(of_line.group(2)))
    elif of_pair:
        yield from of_both(call, of_pair.group(1), of_pair.group(2))


def missing_lines(call: Call, text: bytes) -> Iterator[str]:
    lines = jobs.job_lines(text)
    for word in (*WANTED, *(WANTED_INLINE if call.schedule is None else ())):
        if word not in lines:
            more = ", or --vex SCHEDULE in its place" if word in WANTED_INLINE else ""
            yield f"{call.job}: the job lacks a line `{word}`: {FORMS[word]}{more}"


def of_one_line(call: Call, text: bytes, kind: str, number: int) -> Iterator[str]:
    """A line of the job, and what is wrong with it."""
    lines = text.decode("utf-8", "replace").split("\n")
    line = lines[number - 1].rstrip("\r") if number <= len(lines) else ""
    fields = line.split("#")[0].split()
    word = fields[0] if fields else ""
    yield f"{call.job}:{number}: {line[:SHOWN]}"
    known = [one for one in FORMS if call.schedule is None or one not in ("rate", "scan", "band")]
    if word not in known:
        beside = "; it stands in a job without a schedule only" if word in FORMS else likely(word, known)
        yield f"`{word}` is no word of a job here{beside}"
        return
    words = {"Double": "this is said in an earlier line already", "Unknown": "a name here is not in an earlier line"}
    yield f"{words[kind]}" if kind in words else f"write: {FORMS[word]}"
    if kind == "Unknown":
        yield from unknown_names(text, number, fields)
    if kind in ("Line", "Range") and word in ("clock", "poly", "scan"):
        yield TIME_WORDS


def unknown_names(text: bytes, number: int, fields: Sequence[str]) -> Iterator[str]:
    """The names of a line that no line before it has."""
    before = [row for at, row in jobs.numbered_lines(text) if at < number]
    behind = [row for at, row in jobs.numbered_lines(text) if at > number]
    word, place, asked = ("chan", 2, fields[1:3]) if fields[0] == "product" else ("station", 1, fields[1:2])
    known = {row[place] for row in before if row[0] == word and len(row) > place}
    later = {row[place] for row in behind if row[0] == word and len(row) > place}
    for name in asked:
        if name not in known:
            more = f"; its `{word}` line comes later: put it in front" if name in later else likely(name, known)
            yield f"no `{word}` line before this one has {name}: there are {', '.join(sorted(known)) or 'none'}{more}"


# Job and schedule

def of_both(call: Call, kind: str, name: str) -> Iterator[str]:
    """What does not go together in job and schedule."""
    schedule = vex.read(call.schedule) if call.schedule is not None else None
    with open(call.job or "", "rb") as file:
        lines = jobs.job_lines(file.read())
    keys = jobs.keys_of(lines)
    scans = schedule.scans if schedule is not None else ()
    if kind == "UnknownScan":
        names = [scan.name for scan in scans]
        yield f"`take {name}` names no scan of {call.schedule}: there are {', '.join(names[:12])}{likely(name, names)}"
    elif kind == "UnknownStation":
        there = list(dict.fromkeys(one.key for scan in scans for one in scan.passes))
        yield f"no scan that is taken has the station {name}: there are {', '.join(there)}{likely(name, there)}"
        yield f"write the schedule's key in its `station` line, or leave the lines of {name} out"
    elif kind == "FrameRate":
        yield from frame_rate(call, name)
    elif kind in ("NoModel", "NoClock"):
        yield from no_entry(call, kind, name)
    else:
        yield from differing(kind, name, [scan for scan in scans if scan.name == name], keys, lines)


def frame_rate(call: Call, name: str) -> Iterator[str]:
    asked = joined.read(call.job or "", call.schedule)
    shape = asked.shapes[name]
    yield f"a frame of {name} holds {shape.samples} complete samples, and {asked.rate} samples a second are no whole number of such frames"
    yield f"`{shape.line()}`: look at bits, channels and the bytes of a frame"


def no_entry(call: Call, kind: str, name: str) -> Iterator[str]:
    """The scans that a station's `poly` or `clock` lines do not cover."""
    asked = joined.read(call.job or "", call.schedule)
    word = "poly" if kind == "NoModel" else "clock"
    times = sorted(vex.second_of(line.fields[1]) for line in asked.of_word(word, name))
    starts = [scan.start for scan in asked.scans if name in scan.stays]
    yield f"the first `{word}` line of {name} is of {vex.vex_time(times[0])}, its first scan begins at {vex.vex_time(min(starts))}"
    if kind == "NoModel":
        knot = jobs.only_number(asked.by_word, "knot") if "knot" in asked.by_word else jobs.KNOT
        yield f"the last one is of {vex.vex_time(times[-1])} and counts for {jobs.knot_seconds(knot, asked.rate):.0f} seconds (2^24 knots)"
        yield "all samples of a scan need one, also those before a station that comes late: `vlbi-model` writes them"
    else:
        yield "a `clock` line has to be in force at the time of each `poly` line: begin no later than the first of them"


def differing(kind: str, name: str, scans: Sequence[vex.Scan], keys: Sequence[str], lines: dict[str, list[list[str]]]) -> Iterator[str]:
    """What the stations of a scan have that is not alike."""
    channels = {channel for fields in lines.get("product", []) for channel in fields}
    if kind == "ProductDiffers":
        yield "the two channels of a product have to have one frequency, sideband and bandwidth:"
    for scan in scans:
        for one in scan.passes:
            if one.key in keys:
                rows = [f"{it.name} {it.hertz} Hz {it.side} {it.bandwidth} Hz" for it in one.setup.channels if it.name in channels]
                yield f"scan {scan.name}, station {one.key}: " + (f"{one.setup.rate} samples a second" if kind == "RateDiffers" else ", ".join(rows))
    yield "take stations and scans that are alike into one job (`take`), and the others into another"


# Files

def of_content(call: Call, note: str) -> Iterator[str]:
    found = re.search(r"records: (\w+)", note)
    if found:
        yield RECORD_RULES.get(found.group(1), found.group(1))
        return
    of_station = re.fullmatch(r"vlbi: recording: (.*) (\w+)", note)
    if not of_station:
        return
    asked = joined.read(call.job or "", call.schedule)
    yield from of_recording(asked, *of_station.groups())


def of_recording(asked: joined.Asked, key: str, field: str) -> Iterator[str]:
    """What the first frame of a station's recording is, against its line."""
    line = asked.line_of("station", key)
    yield f"{asked.path}:{line.number if line else 0}: {asked.shapes[key].line()}"
    for path, _ in asked.files[key]:
        seen = recording.first_shape(path, key)
        if seen is None:
            continue
        shape, is_complex = seen
        yield f"the first frame of {path} differs in {field}; it is of the shape"
        yield f"    {shape.line()}" + (", with complex samples, which are not correlated" if is_complex else "")
        yield "correct the line, or the name in the `file` line"
        return


def of_limit(call: Call, note: str) -> Iterator[str]:
    found = re.search(r"limit: (\w+) (\d+)", note)
    if found and found.group(1) in GREATEST:
        greatest, words = GREATEST[found.group(1)]
        yield f"{found.group(1)} {found.group(2)}: the greatest is {greatest}"
        yield words
        if "--epoch" in words and "--epoch" not in COMMANDS.get(call.command, {}):
            yield f"`{call.command}` has no `--epoch`: it goes by the job's own line"
        if call.command == "merge":
            yield "The journals of parts are of the job as it is: with a job that is changed sum them anew."
    elif found and found.group(1) == "shard":
        plan = joined.read(call.job or "", call.schedule).plan
        yield f"--to {found.group(2)}: the greatest is {plan.integrations}, the number of the job's integrations"
        yield "they are counted from 0 through all scans that are correlated, one behind the other"


def of_phases(call: Call, note: str) -> Iterator[str]:
    """Which line of a text of phases is wrong, or which scan lacks a phase."""
    if call.phases is None:
        return
    of_line = re.search(r"bins: (\w+) in line (\d+)", note)
    if of_line is None:
        yield f"{call.phases}: a sample of the scan {note.rsplit(' for ', 1)[-1]} has no phase"
        yield "a `phase` line has to begin before the scan, and the scan to end before the line is 2^24 knots of the job old"
        return
    with open(call.phases, "rb") as file:
        lines = file.read().decode("utf-8", "replace").split("\n")
    kind, number = of_line.group(1), int(of_line.group(2))
    if number == 0:
        words = {line.split("#")[0].split()[0] for line in lines if line.split("#")[0].split()}
        yield from (f"{call.phases}: the text lacks a line `{word}`: {form}" for word, form in PHASE_FORMS.items() if word not in words)
        return
    line = lines[number - 1].rstrip("\r") if number <= len(lines) else ""
    word = (line.split("#")[0].split() or [""])[0]
    yield f"{call.phases}:{number}: {line[:SHOWN]}"
    if word not in PHASE_FORMS:
        yield f"`{word}` is no word of a text of phases{likely(word, PHASE_FORMS)}"
        return
    yield "this is said in an earlier line already" if kind == "Double" else f"write: {PHASE_FORMS[word]}"
    if kind in ("Line", "Range") and word == "phase":
        yield TIME_WORDS


def of_certificate(call: Call, note: str) -> Iterator[str]:
    """Which line of a certificate is wrong."""
    at = int(note.rsplit(" ", 1)[1])
    path = call.names[1]
    with open(path, "rb") as file:
        text = file.read()
    number = text.count(b"\n", 0, at) + 1
    line = text[at:].split(b"\n", 1)[0].decode("utf-8", "replace")
    yield f"{path}:{number}: " + (f"`{line[:80]}` is not the line that is due here, or not true" if at < len(text) else "a line is missing here")
    yield f"the text was changed or cut short, or it is the certificate of another record file: `fringe` writes that of {call.names[0]}"


def of_read(call: Call, note: str) -> Iterator[str]:
    wrong = [words for path in named_files(call) for words in why_not(path)]
    yield from wrong or ["All files that the call names can be opened now: look at the disk they are on."]
    yield f"Then call the same command again: it {'goes on from the epochs that are kept' if call.command in KEEPING else 'begins anew'}."


def of_name(call: Call, note: str) -> Iterator[str]:
    name = note.removeprefix("vlbi: no file ")
    yield from why_not(name) or [f"{name} can be opened now: call the same command again"]


def named_files(call: Call) -> list[str]:
    """The files that a call reads: schedule, job, text of phases, and the recordings that the job names."""
    given = [path for path in (call.schedule, call.job, call.phases) if path is not None]
    if call.command in NAMED:
        given += call.names
    if call.job is not None and os.path.isfile(call.job) and os.access(call.job, os.R_OK):
        with open(call.job, "rb") as file:
            given += [os.fsdecode(fields[1].encode("latin-1")) for fields in jobs.job_lines(file.read()).get("file", []) if len(fields) == 2]
    return list(dict.fromkeys(given))


def why_not(path: str) -> list[str]:
    """Why a file cannot be opened and read, in words; nothing where it can."""
    try:
        with open(path, "rb") as file:
            if not stat.S_ISREG(os.fstat(file.fileno()).st_mode):
                return [f"{path}: it is no regular file"]
            file.read(1)
        return []
    except FileNotFoundError:
        return [f"{path}: there is no such file in {os.path.abspath(os.path.dirname(path) or '.')}{neighbour(path)}"]
    except OSError as error:
        return [f"{path}: {error.strerror}"]


def neighbour(path: str) -> str:
    """The file beside it whose name is like this one's."""
    folder = os.path.dirname(path) or "."
    if not os.path.isdir(folder):
        return "; nor is there that folder"
    return likely(os.path.basename(path), os.listdir(folder))


def of_journal(call: Call, note: str) -> Iterator[str]:
    found = re.search(r"(\d+) epochs kept", note)
    if found:
        yield f"{found.group(1)} epochs are safe."
    folder = os.path.dirname(call.journal) or "."
    if not os.path.isdir(folder):
        yield f"{call.journal}: there is no folder {folder}"
        return
    if os.path.exists(call.journal) and not os.path.isfile(call.journal):
        yield f"{call.journal}: it is no regular file"
    elif not os.access(call.journal if os.path.exists(call.journal) else folder, os.R_OK | os.W_OK):
        yield f"{call.journal}: it may not be written by you"
    yield f"the disk of {folder} has {shutil.disk_usage(folder).free} bytes left"
    yield "Then call the same command again: it goes on from the epochs that are kept."


def of_output(call: Call, note: str) -> Iterator[str]:
    yield f"Standard output could not be written; the disk of this folder has {shutil.disk_usage('.').free} bytes left. What was written is not whole."
    written, kept = ("its line" if call.command == "shard" else "the records"), ("journals" if call.command == "merge" else "journal")
    yield f"Call the same command again: it only writes {written} anew, from the {kept}."


# Another job's journal

def of_other(call: Call, note: str) -> Iterator[str]:
    """In what the journal's job, schedule and recordings are others than those of the call."""
    kept = records.identity(call.journal)
    found = list(differences(call, kept)) if kept is not None else []
    yield from found or [f"{call.journal} is no journal of this form, or its rest is cut off: was it written by another program?"]
    yield "Name another journal, or remove this one to begin anew."


def differences(call: Call, kept: records.Identity) -> Iterator[str]:
    if kept.part != call.part:
        yield f"the journal is of {told_part(kept.part)}, and the call is of {told_part(call.part)}"
    yield from other_job(call, kept)


def other_job(call: Call, kept: records.Identity) -> Iterator[str]:
    """In what a journal's texts, and the lengths of its recordings, are others than those of the call."""
    pairs = (("schedule", kept.schedule, call.schedule), ("job", kept.job, call.job))
    for what, text, path in pairs:
        ours = b""
        if path is not None:
            with open(path, "rb") as file:
                ours = file.read()
        if text != ours:
            yield from first_difference(call, what, text, ours, path)
    asked = joined.read(call.job or "", call.schedule)
    paths = [path for files in asked.files.values() for path, _ in files]
    if len(paths) != len(kept.recordings):
        yield f"the journal is of {len(kept.recordings)} recordings, the job names {len(paths)}"
        return
    for path, size in zip(paths, kept.recordings):
        now = os.stat(path).st_size
        if now != size:
            yield f"the recording {path} has {now} bytes, and had {size} when the journal was begun"


def told_part(part: tuple[int, int] | None) -> str:
    return "the whole job" if part is None else f"the part from {part[0]} to {part[1]}"


def first_difference(call: Call, what: str, kept: bytes, ours: bytes, path: str | None) -> Iterator[str]:
    """The first line in which two texts differ."""
    if not kept or not ours:
        yield f"the journal was begun {'with' if kept else 'without'} a {what}, and the call is {'with' if ours else 'without'} one"
        return
    theirs, own = kept.split(b"\n"), ours.split(b"\n")
    number = next((at for at, pair in enumerate(zip(theirs, own)) if pair[0] != pair[1]), min(len(theirs), len(own)))
    yield f"the {what} differs in line {number + 1}:"
    for front, rows in ((f"    {path}: ", own), ("    the journal's: ", theirs)):
        yield front + (rows[number].decode("utf-8", "replace")[:SHOWN] if number < len(rows) else "(it has no such line)")
    if all(number < len(rows) and rows[number].split()[:1] == [b"epoch"] for rows in (theirs, own)):
        more = ", and call with --epoch" if "--epoch" in COMMANDS.get(call.command, {}) else ""
        yield f"epochs of another length need no other job: leave that line as the journal has it{more}"


# Journals of parts that are merged

def of_merge(call: Call, note: str) -> Iterator[str]:
    """Which file is no journal of a part, which integration is not covered, or in which cell two journals differ."""
    not_shard = re.fullmatch(r"vlbi: merge: NotShard (.*) at byte (\d+)", note, re.DOTALL)
    uncovered = re.fullmatch(r"vlbi: merge: Uncovered (\d+)", note)
    differs = re.fullmatch(r"vlbi: merge: Differs (\d+) (\d+) (-?\d+) (-?\d+ -?\d+ \d+) (-?\d+ -?\d+ \d+)", note)
    if not_shard:
        yield from of_file(call, not_shard.group(1), int(not_shard.group(2)))
    elif uncovered:
        yield from of_uncovered(call, int(uncovered.group(1)))
    elif differs:
        integration, group, lag = map(int, differs.groups()[:3])
        yield from of_cells(call, integration, group, lag, differs.groups()[3:])


def of_file(call: Call, name: str, at: int) -> Iterator[str]:
    """What a file is that is no journal of a part of the job."""
    with open(name, "rb") as file:
        mark = file.read(9)[1:]
    if os.path.getsize(name) <= at:
        yield f"{name}: it is cut off behind {at} bytes"
    elif at < 9:
        yield f"{name}: it is {'the journal of a `run`' if mark in records.JOURNAL_MAGICS else 'no journal'}, and `merge` takes those of `shard`"
    else:
        yield from other_part(call, name)
    yield "Name the journal that `shard` made of this job, copy it whole, or sum its part anew into another one."


def other_part(call: Call, name: str) -> Iterator[str]:
    """In what the journal of a part is not one of this job."""
    plan = joined.read(call.job or "", call.schedule).plan
    try:
        kept = records.identity(name)
    except Fault:  # lengths past its end
        kept = None
    if kept is None or kept.part is None:
        yield f"{name}: a byte of its front was changed"
    elif not kept.part[0] < kept.part[1] <= plan.integrations:
        yield f"{name}: it is of {told_part(kept.part)}, and the job has {plan.integrations} integrations"
    else:
        found = list(other_job(call, kept))
        yield f"{name}: {'it is of another job' if found else 'an epoch in it is not the one that is due: it was changed'}"
        yield from found


def of_uncovered(call: Call, number: int) -> Iterator[str]:
    """Which journals are of a part with an integration that none covers, and how far they are."""
    scan, place = place_of(call, number)
    yield f"integration {number} is number {place.integration} of scan {scan.name}"
    there = parts_with(call, number)
    for name in there:
        found = records.journal(name)
        yield f"{name}: it keeps {found.kept_samples} of the {found.samples} samples of {told_part(found.part)}: call its `shard` again"
    if not there:
        yield "No journal that is named is of a part with it: name that one too, or sum the part by `shard`."
        yield from (f"{name}: it is blank, and its `shard` has kept nothing" for name in dict.fromkeys(call.names) if records.identity(name) is None)


def of_cells(call: Call, number: int, group: int, lag: int, cells: Sequence[str]) -> Iterator[str]:
    """What a cell is of in which two journals differ, and which journals may have it."""
    scan, place = place_of(call, number)
    plan = joined.read(call.job or "", call.schedule).plan
    product, baseline = divmod(group, len(scan.baselines))
    keys = " ".join(plan.stations[station] for station in scan.baselines[baseline])
    yield f"integration {number} is number {place.integration} of scan {scan.name}; group {group} is the product {' '.join(plan.products[product])} of {keys}"
    yield f"real part, imaginary part and count at lag {lag}: {cells[0]} in the first journal that covers it, {cells[1]} in another"
    yield f"journals of a part with it: {', '.join(parts_with(call, number))}"
    yield "A recording of one machine is another one of the same length, or a journal was changed: find out which, and sum that part anew into a new journal."


def place_of(call: Call, number: int) -> tuple[jobs.Scan, jobs.Place]:
    """The scan in which an integration of the job begins, and where."""
    part = joined.read(call.job or "", call.schedule).plan.limited(number, number + 1)
    place = part.first()
    if place is None:
        raise Fault(f"the job has no integration {number}", call.job)
    return part.scans[place.scan], place


def parts_with(call: Call, number: int) -> list[str]:
    """The journals of a call that are of a part with an integration."""
    parts = {name: kept.part for name in call.names if (kept := records.identity(name)) is not None}
    return [name for name, part in parts.items() if part is not None and part[0] <= number < part[1]]
