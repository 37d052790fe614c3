"""What every driver does: its options, its last line, and what it leaves behind at a difference."""

import argparse
import os
import sys
from collections import Counter

from . import programs

# The seed of the gate; other seeds are for trying by hand.
GATE_SEED = 20241

# Where the input that shows a difference is kept.
DIFFERENCES = os.path.join(programs.ROOT, "target", "differences")


class Difference(Exception):
    """Expected and got are not the same; it may carry the input that shows it and the output expected."""

    def __init__(self, message, text=None, expected=None):
        super().__init__(message)
        self.text = text
        self.expected = expected


def options(what, count, named=("board",), root=None):
    """Reads the options of a driver that compares so many cases by default with the programs named, or a repository."""
    parser = argparse.ArgumentParser(description=what)
    parser.add_argument("--seed", type=int, default=GATE_SEED, help="where the random numbers start")
    parser.add_argument("--count", type=int, default=count, help="how many are compared, at least")
    parser.add_argument("--patience", type=float, default=30, help="how many seconds a reply that is due may take")
    parser.add_argument("--keep", default=DIFFERENCES, help="the folder for the input that shows a difference")
    for name in named:
        flag = "--program" if len(named) == 1 else "--program-" + name
        parser.add_argument(flag, dest=name, metavar="CMD", help=f"a command to run instead of {name}")
    if root is not None:
        parser.add_argument("--root", default=root, help="the top folder of the repository that is looked at")
    chosen = parser.parse_args()
    for name in named:
        setattr(chosen, name, programs.command_for(name, getattr(chosen, name)))
    return chosen


def met_in_rounds(compare_round, what, count):
    """What all rounds meet together: one comes after the other until so many of `what` are compared."""
    met = Counter()
    while met[what] < count:
        met += compare_round()
    return met


def check_met(met, wanted, least, what):
    """A comparison means little where something that is wanted was hardly met."""
    missing = [kind for kind in wanted if met[kind] < least]
    if missing:
        raise Difference(f"the {what} are too few or too alike: hardly met {missing}")


def keep(folder, name, content):
    """Writes what shows a difference to a file and gives its path, seen from the repository's folder."""
    os.makedirs(folder, exist_ok=True)
    path = os.path.join(folder, name)
    with open(path, "wb") as file:
        file.write(content)
    return os.path.relpath(path, programs.ROOT)


def finish(name, compare, chosen):
    """Runs a comparison that gives its last line; a difference is told, kept, and ends with status 1."""
    try:
        print(f"{name}: {compare(chosen)}")
    except Difference as found:
        print(f"{name}: DIFFERENCE with --seed {chosen.seed} --count {chosen.count}: {found}")
        if found.text is not None:
            print(f"{name}: the input is in {keep(chosen.keep, name + '.input', found.text)}")
        if found.expected is not None:
            print(f"{name}: the expected output is in {keep(chosen.keep, name + '.expected', found.expected)}")
        sys.exit(1)
