"""Holds the program to the examples of README.md and docs/BOARD.md: what a page says is answered, is answered."""

import os
import re

from support import driver, programs
from support.comparing import run_lines

# A row of a table that shows a line and its reply.
ROW = re.compile(r"\| `([0-9A-F]+)` \| `([0-9A-F]+)` \|")

# How many rows the examples have: those of docs/BOARD.md, and the one to paste.
LENGTHS = [6, 15, 10, 4]

# The example to paste, and the replies below it.
PASTED = re.compile(r"printf '((?:[0-9A-F]+\\n)+)' \| bash run\n")
REPLY = re.compile(r"^    ([0-9A-F]+)$", re.MULTILINE)


def page(*path):
    """The text of a page."""
    with open(os.path.join(programs.ROOT, *path), encoding="utf-8") as file:
        return file.read()


def tables_of(text):
    """The rows of each table that shows lines and replies; a table is a run of lines that begin with a bar."""
    tables = [[]]
    for line in text.split("\n"):
        if not line.startswith("|"):
            tables.append([])
        tables[-1] += ROW.findall(line)
    return [rows for rows in tables if rows]


def pasted_rows(text):
    """The lines of the example to paste, each with the reply below."""
    found = PASTED.search(text)
    if not found:
        return []
    return list(zip(found.group(1).split("\\n"), REPLY.findall(text, found.end())))


def example_command(chosen):
    """The command of README.md, or the one that is run instead of the program."""
    another = chosen.board != programs.command_for("board")
    return chosen.board if another else ["bash", os.path.join(programs.ROOT, "run")]


def compare(chosen):
    """Every example is a run of its own; the last line counts the rows."""
    examples = [*tables_of(page("docs", "BOARD.md")), pasted_rows(page("README.md"))]
    if [len(rows) for rows in examples] != LENGTHS:
        raise driver.Difference(f"examples of {[len(rows) for rows in examples]} rows were found, not of {LENGTHS}")
    commands = [*[chosen.board] * (len(LENGTHS) - 1), example_command(chosen)]
    for command, rows in zip(commands, examples):
        text = "".join(line + "\n" for line, reply in rows).encode()
        run_lines(command, text, expected="".join(reply + "\n" for line, reply in rows).encode())
    return f"{sum(map(len, examples))} rows of the pages compared"


if __name__ == "__main__":
    driver.finish("test_pages", compare, driver.options(__doc__, 1))
