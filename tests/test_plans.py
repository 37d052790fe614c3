"""Holds the program to plans: runs that keep to the table of docs/BOARD.md, and never have a new block refused.

The table has to be on the page as the promise makes it. All answers are held to the model besides, with all their
words.
"""

import os
from collections import Counter
from itertools import takewhile, zip_longest
from random import Random

from support import cases, driver, model, programs, promise
from support.looks import MAY_MOVE, Looking, run_looks

CALLS = 12000

# The page with the table, from the repository's top; and the table: how many blocks of so many words are always to be
# had in an arena of N words.
PAGE = "docs/BOARD.md"
TABLE_HEAD = "| N | of 4 words | of 10 | of 20 | of 50 | of 100 | of 500 |"
LENGTHS = (64, 256, 1024, 4096, 16384)
REQUESTS = (4, 10, 20, 50, 100, 500)

# The cells of the table that are tried: those of up to 1,024 words that have a block, and some of the others.
CELLS = [(length, asked) for length in (64, 256, 1024) for asked in REQUESTS if promise.blocks(length, asked)]
CELLS += [(4096, 50), (4096, 100), (4096, 500), (16384, 500)]

# So many turns at most are made in a run, unless few calls are asked for: a turn takes two, of which one is a report.
TURNS = 300
CALLS_IN_TURN = 2


def table_rows():
    """The rows of the table below its head."""
    for length in LENGTHS:
        cells = [f"{count:,}" if count > 0 else "-" for count in (promise.blocks(length, asked) for asked in REQUESTS)]
        yield f"| {length:,} | {' | '.join(cells)} |"


def check_table(root):
    """Complains about a page that does not have the table."""
    with open(os.path.join(root, PAGE), encoding="utf-8") as file:
        lines = file.read().split("\n")
    if TABLE_HEAD not in lines:
        raise driver.Difference(f"{PAGE} has no table that begins with {TABLE_HEAD}")
    below = lines[lines.index(TABLE_HEAD) + 2:]
    rows = takewhile(lambda line: line.startswith("|"), below)
    for row, due in zip_longest(rows, table_rows(), fillvalue="no row"):
        if row != due:
            raise driver.Difference(f"in the table of {PAGE}: expected {due}, got {row}")


class Planned(Looking):
    """A lesson that keeps to a cell of the table: never more blocks than it says, and none asked with more words."""

    def __init__(self, random, length, longest):
        super().__init__(random, length)
        self.longest = longest
        self.most = self.aim = promise.blocks(length, longest)
        self.reached = 0

    def call(self):
        """A call and its numbers: towards as many blocks as are aimed at now, or for another length of one."""
        held, random = list(self.granted), self.random
        if len(held) == self.aim:
            self.aim = random.choice([self.most, random.randint(0, self.most)])
        asked = random.choice([self.longest, random.randint(1, self.longest)])
        if held and random.random() < 0.2:
            return random.choice(cases.TOGETHER), random.choice(held), asked
        if held and len(held) >= self.aim:
            return cases.FREE, random.choice(held), asked
        rover = self.rover if random.random() < 0.8 else random.randrange(len(self.words) + 4)
        return random.choice(cases.FITS), rover, asked

    def step(self):
        """A look with one call. It has to be done, but for a resize, and for any other length once the last is held."""
        call, number, asked = self.call()
        before = len(self.granted)
        sure = call in (*cases.FITS, cases.FREE) or call in MAY_MOVE and before < self.most
        look = self.go_on([call], number, asked, due=model.DONE if sure else None)
        self.reached += before < self.most == len(self.granted)
        return look

    def looks(self, count):
        """A start, and so many calls."""
        return [self.begun(), *(self.step() for _ in range(count))]


def compare_plans(command, random, turns):
    """A run of at most so many turns for each cell that is tried; gives how often its last block was had, and calls."""
    plans = [Planned(random, *cell) for cell in CELLS]
    looks = [look for plan in plans for look in plan.looks(min(turns, 4 * plan.most + 20))]
    calls = sum(map(len, run_looks(command, looks)))
    return Counter({"calls": calls, **{cell: plan.reached for cell, plan in zip(CELLS, plans)}})


def compare(chosen):
    """The table, then runs for all cells, one round after the other; the last line counts calls and last blocks."""
    check_table(chosen.root)
    random = Random(chosen.seed)
    turns = min(TURNS, chosen.count // len(CELLS) // CALLS_IN_TURN)
    met = driver.met_in_rounds(lambda: compare_plans(chosen.cases, random, turns), "calls", chosen.count)
    if chosen.count >= CALLS:
        driver.check_met(met, CELLS, 3, "plans")
    full = sum(met[cell] for cell in CELLS)
    return f"{met['calls']:,} calls of {len(CELLS)} plans compared; the last block of a plan was had {full:,} times"


if __name__ == "__main__":
    driver.finish("test_plans", compare, driver.options(__doc__, CALLS, named=("cases",), root=programs.ROOT))
