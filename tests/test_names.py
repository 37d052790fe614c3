"""Holds the pages to the repository: each name in backticks is there, and the page of wrong programs is as it is made.

The pages are README.md and those of docs/, but for the notes of docs/landings/, which tell of the past.
"""

import os
import re
import subprocess
import sys

from support import driver, names, programs

PAGE = re.compile(r"README\.md|docs/[^/]*\.md")
EDIT = re.compile(r"crates/\w+/must-fail/(\w+)\.edit")

# The page that a script makes: its tables stand between two marks, and each row begins with a label.
MADE_PAGE = "docs/WRONG-PROGRAMS.md"
MADE = re.compile(r"^<!-- .*: begin -->\n(.*)^<!-- .*: end -->\n", re.MULTILINE | re.DOTALL)
LABEL = re.compile(r"^\| `(\w+)` \|", re.MULTILINE)

# With fewer names than this on the pages something is wrong with how they are found.
LEAST = 500


def text_of(root, path):
    """The text of a file of the repository."""
    with open(os.path.join(root, path), encoding="utf-8") as file:
        return file.read()


def faults_in_names(pages, known):
    """Each name that a page has and the repository has not, with its page and line."""
    for page, text in pages.items():
        for number, told in names.unknown_on_page(text, known):
            yield f"{page}:{number}: there is no {told}"
    count = sum(len(names.spans_of(text)) for text in pages.values())
    if count < LEAST:
        yield f"only {count} names were found on the pages, not {LEAST} or more"


def faults_in_tables(root, labels):
    """What is wrong with the page of wrong programs: it has what its script prints, and that has each edit once."""
    script = os.path.join(root, "tools", "wrong_programs")
    printed = subprocess.run([sys.executable, script], stdout=subprocess.PIPE, check=True).stdout.decode()
    made = MADE.search(text_of(root, MADE_PAGE))
    if made is None or made.group(1) != printed:
        yield f"{MADE_PAGE} is not as it is made; to make it: python3 tools/wrong_programs --write"
    if sorted(LABEL.findall(printed)) != sorted(labels):
        yield "tools/wrong_programs does not print each must-fail edit once"


def compare(chosen):
    """The names on all pages, then the page that is made; the last line counts names and edits."""
    known = names.known_below(chosen.root)
    pages = {path: text_of(chosen.root, path) for path in known.paths if PAGE.fullmatch(path)}
    labels = [EDIT.fullmatch(path).group(1) for path in known.paths if EDIT.fullmatch(path)]
    faults = [*faults_in_names(pages, known), *faults_in_tables(chosen.root, labels)]
    if faults:
        raise driver.Difference("on the pages:\n  " + "\n  ".join(faults))
    count = sum(len(names.spans_of(text)) for text in pages.values())
    return f"{count} names on {len(pages)} pages are there, and the page of {len(labels)} wrong programs is as made"


if __name__ == "__main__":
    driver.finish("test_names", compare, driver.options(__doc__, 1, named=(), root=programs.ROOT))
