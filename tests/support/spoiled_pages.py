"""What spoils the pages of a repository, or the sources that they name."""

from . import names
from .spoiling import added, edited, replaced

DRIVER = "test_names"


def renamed_everywhere(old, new):
    """A name of the sources is another one in all of them."""
    def spoil(root):
        for path in names.paths_below(root):
            if path.startswith("crates/") and path.endswith((".rt", ".antt")):
                edited(root, path, lambda text: text.replace(old, new))

    return spoil


# What spoils a copy, and what the driver then has to tell.
SPOILED = [
    (added("README.md", "See `alloc-invented`."), "there is no `alloc-invented`"),
    (added("docs/BOARD.md", "See `passes::places::first_invented`."), "there is no `passes::places::first_invented`"),
    (added("docs/DECISIONS.md", "See `arena::places::first_fit`."), "there is no `arena::places::first_fit`"),
    (added("docs/PROMISES.md", "See `crates/*/specs/Invented.antt`."), "there is no `crates/*/specs/Invented.antt`"),
    (added("docs/DECISIONS.md", "Type `python3 tests/invented.py --seed 7`."), "there is no `tests/invented.py`"),
    (added("docs/DECISIONS.md", "See `need."), "there is no second backtick on the line"),
    (added("docs/BOARD.md", "See `FFFFFFF`."), "there is no `FFFFFFF`"),
    (renamed_everywhere("alloc_on", "alloc_at"), "there is no `alloc_on`"),
    (replaced("docs/WRONG-PROGRAMS.md", "| `odd_length` |", "| `small_chunk` |"), "is not as it is made"),
    (replaced("crates/layout/must-fail/odd_length.edit", "# ", "# Here "), "is not as it is made"),
    (replaced("tools/wrong_programs", '"*.edit"', '"[a-r]*.edit"'), "does not print each must-fail edit once"),
]
