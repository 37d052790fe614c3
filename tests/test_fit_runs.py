"""Holds long random runs of calls, in which the three fits take turns, to the model and to a ledger.

Each new block is asked for under all three fits, and the run goes on with one of them; the rover is carried from call
to call.
"""

from collections import Counter
from random import Random

from support import cases, driver, fits, ledger
from support.comparing import replies_in, run_cases
from support.lesson import Lesson

CALLS = 30000

# So many turns are made on one arena, unless few calls are asked for.
TURNS = 250

# Lengths of the arenas, in turn; the first holds a single block.
LENGTHS = [6, 12, 26, 40, 64, 100, 120, 150, 180, 200, 250, 300, 350, 400, 500, 600]

# What a run must have met to mean anything: every call with every code that it can have on a sound arena.
CODES = {"alloc": (0, 4, 5, 6), "alloc_best": (0, 4, 5, 6), "alloc_next": (0, 4, 5, 6), "free": (0, 3),
         "realloc": (0, 3, 4, 5, 6), "resize": (0, 3, 4, 5, 8), "relocate": (0, 3, 4, 5, 6), "report": (0,)}

# And where a rover lies that next fit left, once other calls were made.
CARRIED = [("carried", place) for place in ("at a gap", "in a gap", "at a live chunk", "in a live chunk")]


def compare_turns(command, turns):
    """Makes these turns: the program's replies are held to the model, and to the ledger that they make.

    Gives how many calls they are.
    """
    asked = [case for turn in turns for case in turn.asked]
    got = run_cases(command, asked, [answer for turn in turns for answer in turn.answers])
    replies = map(cases.answer_in, replies_in(asked, got))
    held = {}
    for turn in turns:
        held = [ledger.noted(held, case, next(replies)) for case in turn.asked][turn.followed]
        for block, at, word in turn.stores:
            held[block].words[at] = word
    return len(asked)


def wanted():
    """What all runs together have to meet; what the three fits have to show is told in fits.py."""
    return [*((name, "code", code) for name, codes in CODES.items() for code in codes), *CARRIED, *fits.WANTED]


def compare(chosen):
    """One lesson after the other; the last line counts calls."""
    random = Random(chosen.seed)
    met = Counter()
    done = runs = 0
    while done < chosen.count:
        lessons = [Lesson(random, length) for length in LENGTHS]
        count = min(TURNS, chosen.count // len(LENGTHS))
        turns = [turn for lesson in lessons for turn in lesson.turns(count)]
        met += sum((lesson.met for lesson in lessons), Counter())
        done += compare_turns(chosen.cases, turns)
        runs += len(lessons)
    if chosen.count >= CALLS:
        driver.check_met(met, wanted(), 3, "calls")
    apart = sum(met[what] for what in fits.PARTED[1:])
    around = sum(count for what, count in met.items() if what[:2] == ("next", "round"))
    told = f"{done:,} calls in {runs} runs compared with all their words and with the ledger"
    return f"{told}; the fits parted {apart:,} times, and next fit went round {around:,} times"


if __name__ == "__main__":
    driver.finish("test_fit_runs", compare, driver.options(__doc__, CALLS, named=("cases",)))
