"""Holds tools/fits to the model, and the lesson docs/FITS.md to both: tables, drawings, and the page's own command.

Each list of the lesson has to be one that its own fit alone serves to the end. The list of the promise, whose drawing
docs/BOARD.md shows, is one that all fits serve alike. To make the drawings anew: python3 tests/test_fits_tool.py
--count 0.
"""

import os
import re
import shlex
import subprocess
import sys
import tempfile
from collections import Counter, namedtuple
from random import Random

from support import c_programs, driver, fit_lists, programs
from support.fit_drawings import compare_drawing

LISTS = 40
TOOL, PAGE = "tools/fits", "docs/FITS.md"

# The lists of the lesson, by the fit that alone serves the last request, and the one whose table the page has.
LESSON = {"first fit": "docs/fits-first.txt", "best fit": "docs/fits-best.txt", "next fit": "docs/fits-next.txt"}
SHOWN = LESSON["best fit"]

# The list of the promise, the page that shows its drawing, and which of its last requests each fit grants.
PROMISE, PROMISE_PAGE = "docs/promise.txt", "docs/BOARD.md"
PROMISED = {"E 12": [False] * 3, "F 10": [True] * 3}

# The list that the page has to start from; and what the page says of another order: all three then serve all requests.
EXAMPLE = re.compile(r"\n\n    (\d+ words\n(?:    .+\n)+)")
ORDER, OTHER_ORDER = "E 10\nreport\nF 28", "F 28\nreport\nE 10"

# What random lists must have met to mean anything: words in a cell, and whether the fits came to the same arena.
MET = ["freed", "-", "Zero", "TooLarge", "NoRoom", "fits alike", "fits apart", "granted apart"]

# What the tool did: its status, its table, its drawing, and what it said besides.
Ended = namedtuple("Ended", "status table drawing said")


def run(command, output=subprocess.PIPE, folder=None):
    """Runs the tool by a command, in a folder."""
    try:
        ended = subprocess.run(command, stdout=output, stderr=subprocess.PIPE, timeout=programs.PATIENCE, cwd=folder)
    except subprocess.TimeoutExpired as stuck:
        raise driver.Difference(f"the tool did not end within {programs.PATIENCE} seconds: {command}") from stuck
    return Ended(ended.returncode, (ended.stdout or b"").decode(), None, ended.stderr.decode())


def run_list(root, content, words, output=subprocess.PIPE):
    """Runs the tool of a repository on a list, to be drawn unless the words say something else."""
    with tempfile.TemporaryDirectory() as folder:
        source, target = os.path.join(folder, "list"), os.path.join(folder, "drawing")
        with open(source, "wb") as file:
            file.write(content)
        ended = run([*programs.PYTHON, os.path.join(root, TOOL), source, "--drawing", target, *words], output)
        return ended._replace(drawing=content_of(folder, "drawing") if os.path.exists(target) else None)


def content_of(root, path):
    """The bytes of a file, by its path from a folder."""
    with open(os.path.join(root, path), "rb") as file:
        return file.read()


def drawing_path(path):
    """Where the drawing of a list of the lesson is."""
    return path.replace(".txt", ".svg")


def compare_rows(rows, due):
    """Complains about the first row of a table that is not the model's."""
    for at in range(max(len(rows), len(due))):
        have, want = rows[at:at + 1], due[at:at + 1]
        if have != want:
            raise driver.Difference(f"row {at + 1} of the table: expected {want}, got {have}")


def check_columns(table):
    """What is asked begins below its column's name, and the last number of a line ends below its own."""
    fits, columns, *lines = table.split("\n")[2:]
    begin = columns.index("request")
    for line in filter(None, lines):
        end = len(columns if line.split()[0].isdigit() else fits)
        if len(line) != end or line[begin - 1] != " " or line[begin] == " ":
            raise driver.Difference(f"the table has this line out of its columns: {line!r}")


def compare_list(chosen, text):
    """A list that is run: its table and its drawing against the model. Gives both, and the rows."""
    status, table, drawing, said = run_list(chosen.root, text.encode(), ["--program", shlex.join(chosen.cases)])
    if status != 0 or said:
        raise driver.Difference(f"a list is not run: {said}", text.encode())
    due, moments = fit_lists.run_of(text)
    try:
        compare_rows(fit_lists.rows_in(table), due)
        check_columns(table)
        compare_drawing(drawing, moments)
    except (driver.Difference, ValueError, IndexError, TypeError, AttributeError) as found:
        raise driver.Difference(f"of a list: {found}", text.encode()) from found
    return table, drawing, due


def check_served(fit, due):
    """The last request of a list of the lesson is granted by this fit alone, and as many words were free for each."""
    before, last = due[-3:-1]
    granted = {name for name, cell in zip(fit_lists.FITS, last.cells) if isinstance(cell, tuple)}
    if granted != {fit} or len({numbers[0] for numbers in before.numbers}) != 1:
        raise driver.Difference(f"the last request of {LESSON[fit]} is granted by {sorted(granted)}: {before} {last}")


def summary_rows(path, due):
    """The two rows of the page that tell of a list's last request, and of the report before it."""
    before, last = due[-3:-1]
    numbers = [f"{free}, {largest}" for free, largest, *others in before.numbers]
    cells = [f"block {cell[0]}" if isinstance(cell, tuple) else cell for cell in last.cells]
    yield f"| `{path}` | free words, largest request | {' | '.join(numbers)} |\n"
    yield f"| | {last.told} | {' | '.join(cells)} |\n"


def check_page(root, path, table, due):
    """The page has the rows of a list, its drawing and, of one, its table and the command that prints it."""
    page = content_of(root, PAGE).decode()
    shown = [f"]({os.path.basename(drawing_path(path))})", *summary_rows(path, due)]
    if path == SHOWN:
        command = f"    python3 {TOOL} {path}\n"
        shown += [command, "\n" + "".join(f"    {line}".rstrip() + "\n" for line in table.splitlines()) + "\n"]
    for wanted in shown:
        if wanted not in page:
            raise driver.Difference(f"{PAGE} does not have of {path}: {wanted}")


def compare_on_page(chosen):
    """The page's own list is run, and in the other order that it tells of nothing is refused."""
    examples = EXAMPLE.findall(content_of(chosen.root, PAGE).decode())
    if len(examples) != 1:
        raise driver.Difference(f"{PAGE} has {len(examples)} lists to start from, not one")
    compare_list(chosen, examples[0].replace("\n    ", "\n"))
    shown = content_of(chosen.root, SHOWN).decode()
    rows = compare_list(chosen, shown.replace(ORDER, OTHER_ORDER))[2]
    refused = [row for row in rows if isinstance(row, fit_lists.Made) and "NoRoom" in row.cells]
    if ORDER not in shown or refused:
        raise driver.Difference(f"in another order {SHOWN} is not served by all fits: {refused}")


def compare_command(chosen, table):
    """The page's own command prints the table that the page shows. It runs the program that is built, and no other.

    Gives what is missing for that, if anything is.
    """
    if chosen.cases != programs.command_for("cases"):
        return ["the page's own command (another program is given)"]
    if not os.path.exists(os.path.join(chosen.root, programs.BUILT_CASES)):
        return [f"the page's own command ({programs.BUILT_CASES} is not built)"]
    ended = run([sys.executable, TOOL, SHOWN], folder=chosen.root)
    if ended != Ended(0, table, None, ""):
        raise driver.Difference(f"{PAGE} does not show what its own command does: {ended}")
    return []


def check_drawing(chosen, path, drawing):
    """The drawing of a page's list is what is drawn of it; it is made anew where nothing is counted."""
    if chosen.count == 0:
        with open(os.path.join(chosen.root, drawing_path(path)), "wb") as file:
            file.write(drawing)
    if content_of(chosen.root, drawing_path(path)) != drawing:
        raise driver.Difference(f"{drawing_path(path)} is not what is drawn of {path}", expected=drawing)


def compare_promise(chosen):
    """The list of the promise: of its last requests one is refused under every fit, and the other granted."""
    table, drawing, due = compare_list(chosen, content_of(chosen.root, PROMISE).decode())
    granted = {row.told: [isinstance(cell, tuple) for cell in row.cells] for row in due[-3:-1]}
    if granted != PROMISED:
        raise driver.Difference(f"the last requests of {PROMISE} came to {granted}")
    check_drawing(chosen, PROMISE, drawing)
    if f"]({os.path.basename(drawing_path(PROMISE))})" not in content_of(chosen.root, PROMISE_PAGE).decode():
        raise driver.Difference(f"{PROMISE_PAGE} does not show the drawing of {PROMISE}")


def compare_lesson(chosen):
    """The lists of the lesson: each is served to the end by its fit alone, and the page and the drawings show it.

    Gives what is missing for the page's own command, if anything is.
    """
    tables = {}
    for fit, path in LESSON.items():
        table, drawing, due = compare_list(chosen, content_of(chosen.root, path).decode())
        check_served(fit, due)
        check_drawing(chosen, path, drawing)
        check_page(chosen.root, path, table, due)
        tables[path] = table
    compare_on_page(chosen)
    return compare_command(chosen, tables[SHOWN])


def met_by(due):
    """What the rows of a list show."""
    for row in due:
        if isinstance(row, fit_lists.Reported):
            yield "fits alike" if len(set(row.numbers)) == 1 else "fits apart"
            continue
        yield from (cell for cell in row.cells if isinstance(cell, str))
        if len(set(map(type, row.cells))) == 2:
            yield "granted apart"


def compare(chosen):
    """The list with much in it, which shows most faults, the lesson, and others; the last line counts the lists."""
    compare_list(chosen, fit_lists.MUCH)
    missing = compare_lesson(chosen)
    compare_promise(chosen)
    random = Random(chosen.seed)
    lists = fit_lists.SHORT + [fit_lists.random_list(random) for _ in range(chosen.count)]
    met = Counter(what for text in lists for what in met_by(compare_list(chosen, text)[2]))
    if chosen.count >= LISTS:
        driver.check_met(met, MET, 1, "lists")
    return f"{len(LESSON)} lists of the lesson and {len(lists) + 2} others compared{c_programs.skipped(missing)}"


if __name__ == "__main__":
    driver.finish("test_fits_tool", compare, driver.options(__doc__, LISTS, ("cases",), programs.ROOT))
