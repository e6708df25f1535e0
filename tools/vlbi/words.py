"""The words of the program `vlbi`: its commands and their options, the lines of a job, its faults and limits, each with what it asks for."""
from __future__ import annotations

MOST_SLOTS = 1 << 26

JOB_OPTIONS = {"--job": True, "--vex": False}
CUT_OPTIONS = {**JOB_OPTIONS, "--epoch": False}
WORK_OPTIONS = {"--workers": True, "--piece": True}
COMMANDS: dict[str, dict[str, bool]] = {  # the options of each, and whether it needs them
    "run": {**CUT_OPTIONS, **WORK_OPTIONS},
    "plain": JOB_OPTIONS,
    "check": CUT_OPTIONS,
    "status": CUT_OPTIONS,
    "dump": {},
    "gen": {"--seed": True, "--seconds": True, **WORK_OPTIONS},
    "fringe": {"--rates": True, "--divide": True},
    "verify": {},
    "bins": {**JOB_OPTIONS, "--phase": True, **WORK_OPTIONS},
    "shard": {**CUT_OPTIONS, **WORK_OPTIONS, "--from": True, "--to": True},
    "merge": JOB_OPTIONS,
}
NAMED = {  # without an option
    "dump": ("one record file",),
    "fringe": ("one record file",),
    "verify": ("one record file", "one certificate"),
    "merge": ("one journal of a part, or those of more",),
}
REPEATED = ("merge",)  # the commands that may have more names than these
RANGES = {"--epoch": (1, 4194304), "--workers": (1, 64), "--piece": (64, 4194304), "--seed": (0, 2 ** 64 - 1), "--seconds": (1, 60), "--rates": (0, 4096),
          "--divide": (1, 65536), "--from": (0, 2 ** 64 - 1), "--to": (0, 2 ** 64 - 1)}

# The lines of a job: how they are written, and the ranges of their fields.
FORMS = {
    "lags": "lags L, L even, 2 to 1024",
    "integration": "integration SAMPLES, 1 to 2^36",
    "epoch": "epoch SAMPLES, 1 to 4194304",
    "knot": "knot SAMPLES, 1 to 2^24",
    "auto": "auto, and nothing behind it",
    "station": "station KEY ID BITS CHANS FRAME [legacy]: ID 0 to 65535; BITS 1, 2 or 4; CHANS a power of two, 1 to 64; FRAME a multiple of 8 from 40 "
               "(legacy 24) to 131072, whose data holds whole complete samples",
    "file": "file KEY NAME",
    "chan": "chan KEY CHANNEL THREAD INDEX: THREAD 0 to 1023, INDEX below the station's CHANS",
    "clock": "clock KEY TIME C0 C1: magnitudes below 2^57 and 2^25",
    "poly": "poly KEY TIME C0 .. C5, one to six numbers: the sum of their magnitudes below 2^58",
    "product": "product X Y, two channels that chan lines name",
    "take": "take SCAN",
    "rate": "rate R, 1 to 2^32 - 1, without a schedule only",
    "scan": "scan NAME TIME SAMPLES, 0 to 2^40 samples, without a schedule only",
    "band": "band CHANNEL HERTZ U or L: HERTZ 0 to 2^40 - 1, without a schedule only",
}
PHASE_FORMS = {"bins": "bins B, 2 to 64", "phase": "phase TIME C0 .. C5, one to six numbers: the sum of their magnitudes below 2^58"}
WANTED = ("lags", "integration", "epoch", "station", "product")
WANTED_INLINE = ("rate", "scan")

# The faults of a schedule, and what stands at their byte.
SCHEDULE_FAULTS = {
    "OpenQuote": "a quoted text begins here and has no end",
    "OpenLiteral": "a literal begins here and has no end, or its tag is none",
    "BadByte": "a control character stands here",
    "Revision": "the first statement has to be `VEX_rev = 1.5;`",
    "Statement": "this statement has none of the forms, or the last one has no semicolon",
    "OpenDef": "a def or a scan is not closed before this",
    "Outside": "this stands outside a block, or closes what is not open",
    "DoubleDef": "a def of this name is there already",
    "DoubleScan": "a scan of this name is there already",
    "NoSched": "there is no block $SCHED",
    "MissingStatement": "of what begins here a statement is missing: `start` or `mode` of a scan, a ref to $FREQ of a mode for each station, `sample_rate`",
    "DoubleStatement": "this is there already",
    "UnknownRef": "the def that this names is not there",
    "BadValue": "a value has another form, another unit or is out of its range",
    "StationTwice": "this station is in the scan already",
    "BadRange": "an offset is negative, or the first is behind the second",
}

# The rules of a record file, and what breaks them.
RECORD_RULES = {
    "Magic": "it is no record file: its first eight bytes are not VLBIVIS1",
    "Short": "it is cut off: call `vlbi JOURNAL run` again, which writes it anew from the journal",
    "Head": "a number of its head is out of its range",
    "Order": "a record is not the one that is due",
    "AfterEnd": "there are bytes behind its end",
}

# The quantities of a job, the greatest of each, and what to do where it is past that.
GREATEST = {
    "stations": (32, "take fewer stations in a job: several jobs, each with some of the baselines"),
    "products": (256, "take fewer products in a job"),
    "channels": (64, "take fewer products in a job"),
    "samples": (2 ** 40, "cut the scan in the schedule"),
    "seconds": (134217728, "cut the scan in the schedule"),
    "cells": (4194304, "take fewer lags, products or stations"),
    "load": (268435456, "take a shorter epoch, by `--epoch` or in the job: stations times channels times its samples may come to that"),
    "epochs": (2 ** 32, "take a longer epoch, by `--epoch` or in the job, or some scans by `take` lines"),
    "schedule": (8388608, "leave out of the schedule what the correlator does not read (docs/VEX.md)"),
    "job": (4194304, "cut the job by scans, each with the `poly` lines that it needs"),
    "records": (1073741824, "read it with the Python module vlbi.records"),
    "certificate": (1073741824, "look at the name: a certificate has a line for each lag of each scan, product and baseline"),
    "amplitude": (2 ** 49 - 1, "the magnitudes of a lag add up to more than is searched: cut the scan, or take fewer samples an integration"),
    "phase": (65536, "look at the name: a text of phases has a line for the bins, and one for each entry"),
    "bincells": (4194304, "take fewer bins, lags, products or stations"),
    "slots": (MOST_SLOTS, "cut the job by `take` lines, and name in each the files that its scans need: `vlbi-lint JOB` says which"),
}
