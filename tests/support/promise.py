"""The promise of item 8: when a request is sure to be granted, by the numbers of a report alone, and where that ends.

No two free chunks lie side by side, so there is at most one more of them than there are live blocks. Where all of them
are two words short of a need, or more, the free words are at most the need less two for each: with more free words than
that one of them has the need. Nothing here looks for a chunk.
"""

from collections import namedtuple

from .model import FIRST_CHUNK, HEADER, LEAST_CHUNK, LEAST_SPLIT_OFF

# The numbers of a report.
Report = namedtuple("Report", "free_words largest live_blocks free_chunks")

# How a request can be sure: by the bound that item 8 asks for, by the sharp one alone, or because it is one of the
# least requests, which every free chunk holds.
AS_ASKED, SHARP, LEAST = "by the bound asked for", "by the sharp bound alone", "as one of the least"
SURE = (AS_ASKED, SHARP, LEAST)
NOT_SURE = "not sure"


def even(asked):
    """A number of words, rounded up to an even one."""
    return asked + asked % 2


def need(asked):
    """The words that a chunk must have for a request, header counted."""
    return even(asked) + HEADER


def bound(asked, live_blocks):
    """No more words than this are free beside so many live blocks where no free chunk has the need."""
    return (need(asked) - 2) * (live_blocks + 1)


def sure_by_bound(asked, report):
    """Whether more words are free than where no free chunk has the need."""
    return asked >= 1 and report.free_words > bound(asked, report.live_blocks)


def sure_as_asked(asked, report, length):
    """Whether a request is sure as item 8 has it: the need, times the live blocks plus one, is at most the free words.

    The request has to be one that an arena of this length could ever grant.
    """
    return 1 <= asked <= length - 4 and need(asked) * (report.live_blocks + 1) <= report.free_words


def least_and_free(asked, report):
    """Whether one word is asked for, or two, and any word is free."""
    return 1 <= asked <= LEAST_CHUNK - HEADER and report.free_words > 0


def how_sure(asked, report, length):
    """How a request is sure in an arena of this length that has this report; it is told by the first that applies."""
    if sure_as_asked(asked, report, length):
        return AS_ASKED
    if sure_by_bound(asked, report):
        return SHARP
    return LEAST if least_and_free(asked, report) else NOT_SURE


def largest_sure(report):
    """The largest request that is sure, 0 if none is: by the sharp bound, or two words if that is more."""
    if report.free_words == 0:
        return 0
    share = (report.free_words - 1) // (report.live_blocks + 1)
    return max(share - share % 2, LEAST_CHUNK - HEADER)


def largest_as_asked(report):
    """The largest request that is sure as item 8 has it, 0 if none is."""
    share = report.free_words // (report.live_blocks + 1)
    return max(share - share % 2 - HEADER, 0)


# Planning: what is sure whatever was asked for and given back before.


def most_granted(asked):
    """The most words that are granted to a request: fewer than are split off can be over."""
    return even(asked) + LEAST_SPLIT_OFF - 2


def sure_by_plan(asked, length, held, granted):
    """Whether a request is sure where at most so many blocks are held, each with at most so many granted words."""
    return FIRST_CHUNK + held * (HEADER + granted) + bound(asked, held) < length


def blocks(length, asked):
    """How many blocks of so many words are always to be had in an arena of this length, if no others are held."""
    count = 0
    while sure_by_plan(asked, length, count, most_granted(asked)):
        count += 1
    return count
