"""Holds the program to the promise of item 8: what is sure by its own report is granted, under each of the three fits.

Random runs ask for what is just sure, and for just more. All answers are held to the model besides, with all their
words. Arenas at the bound are those of test_combs.py, and what is sure for planning is tried by test_plans.py.
"""

from collections import Counter
from random import Random

from support import cases, driver, fits, ledger, model, promise
from support.looks import MAY_MOVE, Looking, is_promised, requests_on, run_looks

CALLS = 60000

# So many turns are made on one arena, unless few calls are asked for: a turn takes about so many.
TURNS = 150
CALLS_IN_TURN = 7

# Lengths of the arenas, in turn; the first holds a single block.
LENGTHS = [6, 8, 12, 18, 26, 40, 64, 100, 120, 150, 200, 250, 300, 400, 600, 4000]

# How often a turn comes with requests that are aimed at the bounds, with how many of them, and how often besides with a
# sure length for a block that is held.
AIMED, AT_ONCE, ANOTHER_LENGTH = 0.3, 3, 0.5

# What the runs must have met to mean anything: each call, sure in each way, or not sure and granted or refused; the new
# blocks that a run asks for of its own, likewise; and the first request that is not sure.
OUTCOMES = [*((how, "granted") for how in promise.SURE), (promise.NOT_SURE, "granted"), (promise.NOT_SURE, "refused")]
WANTED = [(name, *outcome) for name in ("own", *map(cases.name_of, cases.FITS + MAY_MOVE)) for outcome in OUTCOMES]
WANTED += [("first not sure", outcome) for outcome in ("granted", "refused")]


def requests_about(random, report, length):
    """Some of these: the last request that is sure and the first that is not, by each bound; 1, 2, and any other."""
    last = {promise.largest_sure(report), promise.largest_as_asked(report)}
    about = {1, 2, random.randint(1, length - 4), *last, *(asked + 1 for asked in last)} - {0}
    return random.sample(sorted(about), min(len(about), AT_ONCE))


class Aiming(Looking):
    """A lesson that asks besides for what is just sure, and for just more."""

    def looks(self, count):
        """A start, and so many turns."""
        yield self.begun()
        for _ in range(count):
            more = list(self.aimed()) if self.random.random() < AIMED else []
            yield self.go_on(*self.calls(), more)

    def aimed(self):
        """Requests about the bounds, under each fit, next fit with two rovers; and perhaps for a block that is held."""
        held, length = self.held(), len(self.words)
        report = promise.Report(*ledger.report_due(held, length))
        starts = [gap for gap, room in ledger.gaps_of(held, length)] + [block - model.HEADER for block in held]
        for asked in requests_about(self.random, report, length):
            rover, another = [fits.rover_for(self.random, length, starts) for _ in range(2)]
            yield from requests_on(self.words, [asked], [rover])
            yield cases.Case(cases.ALLOC_NEXT, another, asked, self.words)
        sure = promise.largest_sure(report)
        if held and sure > 0 and self.random.random() < ANOTHER_LENGTH:
            block, asked = self.random.choice(list(held)), self.random.choice([sure, self.random.randint(1, sure)])
            yield from (cases.Case(call, block, asked, self.words) for call in cases.TOGETHER)


def met_by(look, heads):
    """What a look shows: how sure each lawful request is, and what came of it; the run's own comes first."""
    if look.held is None:
        return
    report, length = promise.Report(*heads[0].fields), len(look.asked[0].words)
    for place, (case, got) in enumerate(zip(look.asked, heads)):
        if is_promised(case, look.held) and 1 <= case.asked <= length - 4:
            shown = promise.how_sure(case.asked, report, length), "refused" if got.code else "granted"
            yield cases.name_of(case.call), *shown
            if place == 1 and case.call == cases.ALLOC:
                yield "own", *shown
            if case.asked == promise.largest_sure(report) + 1:
                yield "first not sure", shown[1]


def compare_runs(command, random, turns):
    """A run of so many turns for each length; gives what was met, and how many calls it took."""
    looks = [look for length in LENGTHS for look in Aiming(random, length).looks(turns)]
    judged = run_looks(command, looks)
    met = Counter(shown for look, heads in zip(looks, judged) for shown in met_by(look, heads))
    return met + Counter({"calls": sum(map(len, judged))})


def told_of_own(met):
    """How often the promise covers the new blocks that runs ask for of their own, and how often these are granted."""
    own = Counter({what[1:]: count for what, count in met.items() if what[0] == "own"})
    lawful = sum(own.values())
    as_asked = own[promise.AS_ASKED, "granted"]
    covered = sum(own[how, "granted"] for how in promise.SURE)
    granted = covered + own[promise.NOT_SURE, "granted"]
    shares = [f"{count:,} ({count / max(lawful, 1):.0%})" for count in (covered, as_asked, granted)]
    return (f"of {lawful:,} lawful requests that the runs made the promise covered {shares[0]}, the bound as it was"
            f" asked for {shares[1]}, and {shares[2]} were granted")


def compare(chosen):
    """Runs of all lengths, one round after the other; the last line says how often the promise covers a request."""
    random = Random(chosen.seed)
    turns = min(TURNS, chosen.count // len(LENGTHS) // CALLS_IN_TURN)
    met = driver.met_in_rounds(lambda: compare_runs(chosen.cases, random, turns), "calls", chosen.count)
    if chosen.count >= CALLS:
        driver.check_met(met, WANTED, 3, "requests")
    return f"{met['calls']:,} calls compared; {told_of_own(met)}"


if __name__ == "__main__":
    driver.finish("test_promise", compare, driver.options(__doc__, CALLS, named=("cases",)))
