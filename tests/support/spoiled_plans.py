"""What spoils the table of docs/BOARD.md that says how many blocks are always to be had."""

from .spoiling import replaced

DRIVER = "test_plans"


def page(old, new):
    """The page has other words in one place."""
    return replaced("docs/BOARD.md", old, new)


# What spoils a copy, and what the driver then has to tell.
SPOILED = [
    (page("| N | of 4 words |", "| N | of 4 |"), "docs/BOARD.md has no table that begins with | N | of 4 words |"),
    (page("| 64 | 4 |", "| 64 | 4.0 |"), "in the table of docs/BOARD.md: expected | 64 | 4 |"),
    (page("| 1,024 | 64 |", "| 1,024 | 65 |"), "in the table of docs/BOARD.md: expected | 1,024 | 64 |"),
    (page("| 5 | 2 | 1 | - |", "| 5 | 2 | 1 | 1 |"), "| 5 | 2 | 1 | - |, got | 256 | 16 | 9 | 5 | 2 | 1 | 1 |"),
    (page("| 256 | 16 | 9 | 5 | 2 | 1 | - |\n", ""), "expected | 256 | 16 | 9 | 5 | 2 | 1 | - |, got | 1,024 |"),
    (page("| 16,384 | 1,024 |", "16,384 | 1,024 |"), "| 585 | 341 | 152 | 79 | 16 |, got no row"),
    (page("| 79 | 16 |\n", "| 79 | 16 |\n| 32,768 |\n"), "expected no row, got | 32,768 |"),
]
