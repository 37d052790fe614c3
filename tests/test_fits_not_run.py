"""Holds tools/fits to what it says of lists that are not run, and of drawings and tables that cannot be written.

It then ends with status 1, and has said one line.
"""

import os
import shlex
import subprocess
from collections import namedtuple

from support import driver, fit_lists, programs
from test_fits_tool import run_list

# A list that is run, one whose first case is more than a program is handed at once, and two that are no text.
GOOD, LONG = b"96 words\nA 12\n", b"16384 words\n"
NO_TEXTS = [b"96 words\n\xff 12\n", b"\xff\xfe9\x006\x00\n\x00"]


def answering(code):
    """A command that takes the start of a case and answers with this code, and many words that are 0."""
    answer = f"import sys; sys.stdin.buffer.read(16); print(chr({code}) + 9999 * chr(0))"
    return shlex.join([*programs.PYTHON, "-c", answer])


# Commands that are no program of cases, each with what is then said.
NO_PROGRAMS = [("false", "the program cases "), ("head -c 99", "the program cases gives no whole reply"),
               ("/no/such/program", "No such file"), ("", "the command has no words"),
               (" ", "the command has no words"),
               ("cases 'of words", "the command \"cases 'of words\" cannot be read: No closing quotation"),
               (answering(7), "the program cases does not know call 1;"),
               (answering(9), "the program cases answers call 1 with code 9, which stands for no reason")]

# One that neither reads nor writes for a while, and what is said where nobody waits for it.
ASLEEP = ["--program", "sleep 9", "--patience", "0"]
STUCK = "the program cases does nothing for 0 seconds"

# What no drawing can be written to, and what no table can, open as it says; each with the reason.
NO_DRAWINGS = [("/no/such/folder/drawing", "No such file or directory"), ("/", "Is a directory"),
               ("", "No such file or directory")]
NO_TABLES = [(os.devnull, "rb", "Bad file descriptor"), ("/dev/full", "wb", "No space left on device")]

# What is tried: a list, other words for the tool, and what is then said.
Tried = namedtuple("Tried", "content words told")


def compare_said(chosen, tried, output=subprocess.PIPE):
    """The tool has to end with status 1, without a table, and to say what is told, in one line; gives what it did."""
    ended = run_list(chosen.root, tried.content, tried.words, output)
    if ended.status != 1 or ended.table or tried.told not in ended.said or ended.said.count("\n") != 1:
        raise driver.Difference(f"of the list {tried.content!r} with {tried.words} came {ended}", tried.content)
    return ended


def compare_not_run(chosen, rows):
    """Lists that are not run, nor drawn; gives how many they are."""
    for tried in rows:
        ended = compare_said(chosen, tried)
        if " is not run: " not in ended.said or ended.drawing is not None:
            raise driver.Difference(f"the list {tried.content!r} with {tried.words} is drawn: {ended}", tried.content)
    return len(rows)


def compare_not_written(chosen, given):
    """Drawings and tables that cannot be written; gives how many they are."""
    for path, reason in NO_DRAWINGS:
        compare_said(chosen, Tried(GOOD, [*given, "--drawing", path], f"{path} cannot be written: {reason}\n"))
    tables = [row for row in NO_TABLES if os.path.exists(row[0])]
    for path, mode, reason in tables:
        with open(path, mode) as output:
            compare_said(chosen, Tried(GOOD, given, f"standard output cannot be written: {reason}\n"), output)
    return len(NO_DRAWINGS) + len(tables)


def compare(chosen):
    """Lists of each kind, other programs, what cannot be written, and more lists; the last line counts them."""
    given = ["--program", shlex.join(chosen.cases)]
    rows = [Tried(text.encode(), given, told) for text, told in fit_lists.BAD]
    rows += [Tried(content, given, "can't decode byte") for content in NO_TEXTS]
    rows += [Tried(GOOD, ["--program", program], told) for program, told in NO_PROGRAMS]
    rows += [Tried(content, ASLEEP, STUCK) for content in (LONG, GOOD)]
    not_run = compare_not_run(chosen, rows)
    not_written = compare_not_written(chosen, given)
    not_run += compare_not_run(chosen, [Tried(text.encode(), given, told) for text, told in fit_lists.MORE_BAD])
    return f"{not_run} lists that are not run compared, and {not_written} drawings and tables that cannot be written"


if __name__ == "__main__":
    driver.finish("test_fits_not_run", compare, driver.options(__doc__, 1, ("cases",), programs.ROOT))
