"""Tries the drivers on faulty programs, each of which has to be seen."""

import os
import shlex
import subprocess
import sys
import tempfile
from collections import namedtuple

from . import programs
from .asked_faults import ASKED_FAULTS, CHECK_FAULTS
from .batch_faults import BATCH_FAULTS
from .driver import Difference
from .fit_faults import FIT_FAULTS
from .picture_faults import PICTURE_FAULTS
from .stand_in import LATE

# What a stand-in can do wrong with words that are over, or with chunks that are smaller than what is split off.
OVER = ["tail", "four", "six", "ten", "alloc", "grow", "shrink", "keeps", "room", "small", "skips"]

# What it can do wrong besides in a resize, a move, or the realloc that is made of them.
ANOTHER_LENGTH = ["cut", "link", "wipe", "early", "less", "all", "asked", "stays", "moves", "never", "order", "lacks",
                  "stores"]

# Some of what it can do wrong in best fit or next fit.
ANOTHER_FIT = ["lastequal", "pastrover", "inside", "backwards", "lacking", "pastwhole"]

# What it can do wrong in any report. (A list followed for 255 links only, "manylinks", takes a longer list to be seen.)
ANOTHER_COUNT = ["lastlink", "last", "header"]

# What it can do wrong so that a sure request is refused: under first fit or any, under best fit, under next fit, and
# where a block is to have another length.
SURE_REFUSED = ["exact", "hoards", "needs", "skips", "small", "inexact", "noround", "notlowest", "atend", "aboveend",
                "elsewhere", "never"]

# Some of what it can do wrong with the words that were asked for: in the check, and in what is stored.
CHECKED = ["nonepasses", "morepasses", "notone", "notall"]
STORED = ["exactkeeps", "cutkeeps", "growthkeeps", "movekeeps", "storesneed", "storeseven", "storesgranted"]

# A driver, how much it compares here, a program, and the faults of a stand-in for it that the driver has to see.
Trial = namedtuple("Trial", "driver count program faults")

# The drivers that run more than one program, and which.
DOCUMENT, ASKED_FOR = "test_document_rows", "test_asked"
SEVERAL = {DOCUMENT: ("board", "cases"), ASKED_FOR: ("cases", "picture_cases", "batch_cases")}

# The trials, by what the drivers compare: rows by hand, long runs of lines, calls on many arenas, single ones or in
# runs, the words asked for, pictures, batches of plain words. (Batches from C are tried on spoiled copies.)
ROWS = [
    Trial(DOCUMENT, 1, "board", ["digit", "missing", "extra", "tail", "four", "six", "alloc", "small", "skips",
                                 *ANOTHER_COUNT]),
    Trial(DOCUMENT, 1, "cases", ["word", "missing", "extra", "storesneed", "movekeeps", *ANOTHER_COUNT]),
    Trial("test_pages", 1, "board", ["digit", "missing", "tail", "four", *ANOTHER_COUNT]),
    Trial("test_call_rows", 1, "cases", ["word", "missing", "extra", "believe", "clear", "byte", "manylinks",
                                         *ANOTHER_COUNT, *OVER, *ANOTHER_LENGTH, *STORED]),
    Trial("test_fit_rows", 1, "cases", ["word", "missing", "extra", "best", "next", "storesneed", "bestgranted",
                                        "nextgranted", *FIT_FAULTS]),
]
LINES = [
    Trial("test_random_lines", 3000, "board", ["digit", "missing", "extra", "link", "early", "never", LATE, *OVER,
                                               *ANOTHER_COUNT]),
    Trial("test_full_board", 1, "board", ["digit", "manylinks", "six", "shrink"]),
]
ARENAS = [
    Trial("test_small_arenas", 10000, "cases", ["word", "missing", "extra", "clear", "atend", *ANOTHER_COUNT, *OVER,
                                                *ANOTHER_LENGTH, *ANOTHER_FIT, "exactkeeps", "grantedtwice"]),
    Trial("test_damaged_arenas", 3000, "cases", ["word", "missing", "extra", "believe", "clear", "manylinks", "best",
                                                 "next", "lowbits", "shut", "nextgate", "nextlinks", *ANOTHER_COUNT,
                                                 *OVER, *ANOTHER_LENGTH, *ANOTHER_FIT, *CHECKED, "onemore", "oldmark",
                                                 "exactkeeps", "grantedtwice", "askedtwice", "viewsasked"]),
    Trial("test_fit_runs", 2000, "cases", ["word", "togranted", "ownrover", "movebest", "movekeeps", *ANOTHER_FIT]),
    Trial("test_promise", 900, "cases", ["word", "missing", "ten", "lastgap", "lastblock", *ANOTHER_COUNT,
                                         *SURE_REFUSED]),
    Trial("test_combs", 1, "cases", ["word", "exact", "hoards", "shares", "lowestfits", "keeps", "manylinks",
                                     "bestlinks", "nextlinks"]),
    Trial("test_plans", 2000, "cases", ["word", "ten", "hoards", "needs", "elsewhere", "never"]),
]
ASKED = [
    Trial(ASKED_FOR, 600, "cases", ["word", "missing", "clear", *ASKED_FAULTS]),
    Trial(ASKED_FOR, 600, "picture_cases", ["word", "missing", *CHECK_FAULTS]),
    Trial(ASKED_FOR, 600, "batch_cases", ["word", "missing", "unasked", "askedtwice", "grantedtwice", "blockasked"]),
]
BATCHES = [Trial("test_batch", 12, "batch_cases", ["word", "missing", *BATCH_FAULTS])]
PICTURES = [Trial("test_pictures", 300, "picture_cases", ["word", "missing", "extra", *CHECKED, *PICTURE_FAULTS])]


def sees_difference(trial, fault, seed, folder):
    """Whether a driver tells of a difference on stand-ins; None when it says neither, or when a stand-in broke down."""
    command = [sys.executable, os.path.join(programs.TESTS, trial.driver + ".py")]
    command += ["--seed", str(seed), "--count", str(trial.count), "--keep", folder]
    command += ["--patience", "0.5" if fault == LATE else "10"]
    several = SEVERAL.get(trial.driver)
    for program in several or (trial.program,):
        words = [sys.executable, "-m", "support.stand_in", program]
        words += [fault] if fault and program == trial.program else []
        command += ["--program-" + program if several else "--program", shlex.join(words)]
    ended = subprocess.run(command, stdout=subprocess.PIPE, env=dict(os.environ, PYTHONPATH=programs.TESTS))
    if b"the program ended with status" in ended.stdout:
        return None
    return {(0, False): False, (1, True): True}.get((ended.returncode, b": DIFFERENCE " in ended.stdout))


def check_drivers(trials, seed):
    """Each driver must see a difference on a stand-in with a fault and none on a true one; gives how many faults."""
    with tempfile.TemporaryDirectory() as folder:
        for trial in trials:
            for fault in ["", *trial.faults]:
                if sees_difference(trial, fault, seed, folder) is not (fault != ""):
                    told = f"a {trial.program} with the fault '{fault or 'none'}'"
                    raise Difference(f"{trial.driver} is wrong about {told}")
    return sum(len(trial.faults) for trial in trials)
