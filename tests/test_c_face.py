"""Holds the calls for C to the model, through C programs over the header, and the examples to what they print."""

import os

import test_asked
import test_call_rows
import test_damaged_arenas
import test_fit_rows
import test_fit_runs
import test_pictures
from support import c_programs, driver, programs
from support.comparing import run_lines

CALLS = 20000

# The drivers whose cases and rows are made through C.
DRIVERS = [test_damaged_arenas, test_call_rows, test_fit_rows, test_fit_runs, test_pictures, test_asked]

# The examples, each with the words behind the command that runs it: the first is run without a name.
EXAMPLES = {"sampling": [], "experiment": ["experiment"]}


def compare_example(root, name):
    """Builds and runs an example; gives how many lines it printed."""
    with open(os.path.join(root, "examples", name + ".stdout"), "rb") as file:
        expected = file.read()
    try:
        run_lines(["bash", os.path.join(root, "examples", "run"), *EXAMPLES[name]], b"", expected=expected)
    except driver.Difference as found:
        raise driver.Difference(f"the example {name}: {found}") from found
    return expected.count(b"\n")


def build(root, name):
    """Builds a program of the tests from its source, and gives the words that start it."""
    return c_programs.build(name, "c99", os.path.join(root, "tests", "support", name + ".c"), root)


def compare(chosen):
    """The examples, then the cases and the rows of other drivers; the last line has what these say."""
    try:
        chosen.cases, chosen.picture_cases = build(chosen.root, "c_cases"), build(chosen.root, "c_pictures")
        chosen.batch_cases = build(chosen.root, "c_batch")
    except c_programs.NotHere as told:
        return f"nothing was compared{c_programs.skipped([str(told)])}"
    lines = sum(compare_example(chosen.root, name) for name in EXAMPLES)
    told = [each.compare(chosen) for each in DRIVERS]
    return "; ".join([*told, f"{len(EXAMPLES)} examples printed their {lines} lines"])


if __name__ == "__main__":
    driver.finish("test_c_face", compare, driver.options(__doc__, CALLS, named=(), root=programs.ROOT))
