"""Holds the program `cases` and the model to rows of the three fits, worked out by hand with all their words.

First fit is alloc, best fit alloc_best and next fit alloc_next, which has a rover.
"""

from support import driver, model
from support.cases import ALLOC, ALLOC_BEST, ALLOC_NEXT, FITS, FREE, RELOCATE, Case
from support.comparing import run_rows
from test_call_rows import NO_ARENAS, SHORT_GAP, counted, done, lost_lists, words

# Rovers far above every arena; some are like a chunk's start in their lowest bits.
FAR_ABOVE = [65536, 65538, 65560, 65574, 2**31 - 1, 2**31, 2**31 + 24, 2**32 - 8, 2**32 - 2, 2**32 - 1]


def granted(call, rover, asked, before, found, fields, after):
    """A request that is granted of the chunk that starts at the word `found`: next fit answers this, as the rover.

    Arenas are texts here, as test_call_rows.py has them.
    """
    told = (*fields, found) if call == ALLOC_NEXT else fields
    return Case(call, rover, asked, words(before)), model.Answer(0, told, [], words(after, asked))


def refused(rover, asked, before, code):
    """A request that each fit refuses: block and granted words are 0, the rover and every word stay."""
    for call in FITS:
        told = (0, 0, rover) if call == ALLOC_NEXT else (0, 0)
        yield Case(call, rover, asked, words(before)), model.Answer(code, told, [], words(before))


def alike(rovers, requests, before, found, fields, after):
    """Requests for which each fit takes the same chunk, next fit with each of the rovers."""
    for asked in requests:
        yield granted(ALLOC, 0, asked, before, found, fields, after)
        yield granted(ALLOC_BEST, 0, asked, before, found, fields, after)
        for rover in rovers:
            yield granted(ALLOC_NEXT, rover, asked, before, found, fields, after)


# Four free chunks of which the fits take different ones.


def four_gaps(head="62 2", lowest=f"18 24 {counted(4, 19)}", second=f"8 38 {counted(26, 31)}",
              third=f"12 54 {counted(40, 49)}", last=f"8 0 {counted(56, 61)}"):
    """Free chunks of 18 words at word 2, 8 at 24, 12 at 38 and 8 at 54, or what became of them, live ones between."""
    return (f"{head} | {lowest} | 4 live 1022 1023 | {second} | 6 live {counted(34, 37)} | {third}"
            f" | 4 live 1052 1053 | {last}")


FOUR_GAPS = four_gaps()

# What is answered and left where a chunk is granted whole, by its start; and where its last words are, by need and
# start.
WHOLE = {
    2: ((4, 16), four_gaps("62 24", lowest=f"18 new {counted(4, 19)}")),
    24: ((26, 6), four_gaps(lowest=f"18 38 {counted(4, 19)}", second=f"8 new {counted(26, 31)}")),
    38: ((40, 10), four_gaps(second=f"8 54 {counted(26, 31)}", third=f"12 new {counted(40, 49)}")),
    54: ((56, 6), four_gaps(third=f"12 0 {counted(40, 49)}", last=f"8 new {counted(56, 61)}")),
}
SPLIT = {
    (4, 2): ((18, 2), four_gaps(lowest=f"14 24 {counted(4, 15)} | 4 new 1018 1019")),
    (6, 2): ((16, 4), four_gaps(lowest=f"12 24 {counted(4, 13)} | 6 new {counted(16, 19)}")),
    (8, 2): ((14, 6), four_gaps(lowest=f"10 24 {counted(4, 11)} | 8 new {counted(14, 19)}")),
    (10, 2): ((12, 8), four_gaps(lowest=f"8 24 {counted(4, 9)} | 10 new {counted(12, 19)}")),
    (4, 38): ((48, 2), four_gaps(third=f"8 54 {counted(40, 45)} | 4 new 1048 1049")),
}

# The chunk that next fit finds with each rover: where all four fit, the two longest, and the longest alone. From the
# word above a chunk's start on it is passed over, and behind the last that fits it goes round.
FOUR_FIT = {2: [0, 1, 2, *range(55, 68), *FAR_ABOVE], 24: range(3, 25), 38: range(25, 39), 54: range(39, 55)}
TWO_FIT = {2: [0, 1, 2, *range(39, 68), *FAR_ABOVE], 38: range(3, 39)}
ONE_FITS = {2: [*range(68), *FAR_ABOVE]}

# With these rovers an odd number of words is asked for as well, which needs as many as the even one above it.
ODD_REQUESTS = (0, 2, 3, 24, 25, 38, 39, 54, 55, 62)

# The chunk that best fit finds, and the chunks that next fit finds, by the need; first fit always finds the lowest.
FOUND = {4: (24, FOUR_FIT), 6: (24, FOUR_FIT), 8: (24, FOUR_FIT), 10: (38, TWO_FIT), 12: (38, TWO_FIT),
         14: (2, ONE_FITS), 16: (2, ONE_FITS), 18: (2, ONE_FITS)}


def four_gap_rows():
    """Every need with every rover: at a chunk's start, in a free chunk or a live one, odd, at the end, far above it."""
    for need, (best, following) in FOUND.items():
        finds = [(ALLOC, 0, 2), (ALLOC_BEST, 0, best)]
        finds += [(ALLOC_NEXT, rover, found) for found, rovers in following.items() for rover in rovers]
        for call, rover, found in finds:
            fields, after = SPLIT.get((need, found), WHOLE[found])
            yield granted(call, rover, need - 2, FOUR_GAPS, found, fields, after)
            if rover in ODD_REQUESTS:
                yield granted(call, rover, need - 3, FOUR_GAPS, found, fields, after)
    for asked in (17, 18, 58):
        for rover in [*ODD_REQUESTS, *FAR_ABOVE]:
            yield from refused(rover, asked, FOUR_GAPS, 6)


def move_row():
    """A move stays with first fit: it takes the last words of the lowest chunk, where best fit would find the second.

    The old block lies between two free chunks, which are joined with it.
    """
    after = four_gaps(lowest=f"10 24 {counted(4, 11)} | 8 new {counted(34, 37)} 1018 1019",
                      second=f"26 54 {counted(26, 31)}")
    return done(RELOCATE, 34, 6, FOUR_GAPS, (14, 6), after)


# Six free chunks, some of one size.


def six_gaps(list_word, first, second, third, fourth, fifth, sixth):
    """Chunks of 10 words at word 2, 6 at 16, 14 at 26, 6 at 44, 10 at 54 and 6 at 68, free ones with these links.

    A link may be what a live one has in its place; and the third may be the text of what became of that chunk. Live
    ones lie between them.
    """
    third = third if "|" in str(third) else f"14 {third} {counted(28, 39)}"
    return (f"74 {list_word} | 10 {first} {counted(4, 11)} | 4 live 1014 1015 | 6 {second} {counted(18, 21)}"
            f" | 4 live 1024 1025 | {third} | 4 live 1042 1043 | 6 {fourth} {counted(46, 49)}"
            f" | 4 live 1052 1053 | 10 {fifth} {counted(56, 63)} | 4 live 1066 1067 | 6 {sixth} {counted(70, 73)}")


def cut(link, above="live"):
    """The third chunk once its last six words are granted: what its other words have as a link, and what those have."""
    return f"8 {link} {counted(28, 33)} | 6 {above} {counted(36, 39)}"


ALL_FREE = six_gaps(2, 16, 26, 44, 54, 68, 0)
ALL_LIVE = six_gaps(0, "live4", "live", cut("live4"), "live", "live4", "live")

# Best fit for four words, again and again: where the chunk found starts, block and granted words, the words left.
# Equals are taken from the lowest to the last; the longest, split, is then the shortest.
BEST_FITS = [
    (16, (18, 4), six_gaps(2, 26, "new", 44, 54, 68, 0)),
    (44, (46, 4), six_gaps(2, 26, "live", 54, "new", 68, 0)),
    (68, (70, 4), six_gaps(2, 26, "live", 54, "live", 0, "new")),
    (2, (4, 8), six_gaps(26, "new", "live", 54, "live", 0, "live")),
    (54, (56, 8), six_gaps(26, "live4", "live", 0, "live", "new", "live")),
    (26, (36, 4), six_gaps(26, "live4", "live", cut(0, "new"), "live", "live4", "live")),
    (26, (28, 6), six_gaps(0, "live4", "live", cut("new"), "live", "live4", "live")),
]

# Next fit for four words likewise, with a rover that is 0 at first: a chunk that is split is found twice.
NEXT_FITS = [
    (2, (4, 8), six_gaps(16, "new", 26, 44, 54, 68, 0)),
    (16, (18, 4), six_gaps(26, "live4", "new", 44, 54, 68, 0)),
    (26, (36, 4), six_gaps(26, "live4", "live", cut(44, "new"), 54, 68, 0)),
    (26, (28, 6), six_gaps(44, "live4", "live", cut("new"), 54, 68, 0)),
    (44, (46, 4), six_gaps(54, "live4", "live", cut("live4"), "new", 68, 0)),
    (54, (56, 8), six_gaps(68, "live4", "live", cut("live4"), "live", "new", 0)),
    (68, (70, 4), six_gaps(0, "live4", "live", cut("live4"), "live", "live4", "new")),
]


def lesson_rows(call, grants):
    """Grants of one fit one after the other, from six free chunks on; next fit carries its rover along.

    Each is asked with three words, too; the lesson goes on as with four.
    """
    before, rover = ALL_FREE, 0
    for found, fields, after in grants:
        for asked in (3, 4):
            yield granted(call, rover, asked, before, found, fields, after)
        before, rover = after.replace("new", "live4"), found


def full_turn_rows():
    """A full arena refuses each fit; a block is freed, and next fit goes from the last chunk round to that one."""
    one_free = six_gaps(16, "live4", 0, cut("live4"), "live", "live4", "live")
    taken = six_gaps(0, "live4", "new", cut("live4"), "live", "live4", "live")
    for rover in (0, 16, 68, 2**32 - 1):
        for asked in (1, 70):
            yield from refused(rover, asked, ALL_LIVE, 6)
        yield from refused(rover, 71, ALL_LIVE, 5)
        yield from refused(rover, 0, ALL_LIVE, 4)
    yield done(FREE, 18, 0, ALL_LIVE, (), one_free)
    yield from alike([68, 0, 16, 17, 21, 22, 74], (1, 2, 3, 4), one_free, 16, (18, 4), taken)


def equal_rows():
    """Best fit for other needs: the lowest of two chunks of ten words, and the only one of fourteen."""
    lowest = six_gaps(16, "new", 26, 44, 54, 68, 0)
    only = six_gaps(2, 16, 44, "new", 54, 68, 0)
    second = six_gaps(2, 26, "new", 44, 54, 68, 0)
    for requests, found, fields, after in (((1, 2), 16, (18, 4), second), ((5, 6, 7, 8), 2, (4, 8), lowest),
                                           ((9, 10, 11, 12), 26, (28, 12), only)):
        for asked in requests:
            yield granted(ALLOC_BEST, 0, asked, ALL_FREE, found, fields, after)
            yield granted(ALLOC_BEST, found + 1, asked, ALL_FREE, found, fields, after)
    for rover in (0, 27, 68, 75):
        yield from refused(rover, 13, ALL_FREE, 6)


# One free chunk or two, in the shortest arena and the longest.


def only_gap_rows():
    """Of an only free chunk all fits take the same, with any rover: it is granted whole, or its last words."""
    least = "6 2 | 4 0 1004 1005"
    yield from alike([*range(9), *FAR_ABOVE], (1, 2), least, 2, (4, 2), "6 0 | 4 new 1004 1005")
    whole = "16 0 | 6 live3 1004 1005 1006 1007 | 4 new 1010 1011 | 4 live 1014 1015"
    yield from alike([*range(19), *FAR_ABOVE], (1, 2), SHORT_GAP, 8, (10, 2), whole)
    before = f"26 8 | 6 live {counted(4, 7)} | 14 0 {counted(10, 21)} | 4 live 1024 1025"
    upper = f"6 new {counted(18, 21)} | 4 live 1024 1025"
    split = f"26 8 | 6 live {counted(4, 7)} | 8 0 {counted(10, 15)} | {upper}"
    yield from alike([*range(29), *FAR_ABOVE], (3, 4), before, 8, (18, 4), split)


def long_gap_rows():
    """Of two long free chunks the upper is the shorter, but not in its low byte, nor in its low 13 bits."""
    def gaps(lower=f"8196 8202 {counted(4, 8197)}", upper=f"8182 0 {counted(8204, 16383)}"):
        return f"16384 2 | {lower} | 4 live 9200 9201 | {upper}"

    before = gaps()
    of_lower = gaps(lower=f"194 8202 {counted(4, 195)} | 8002 new {counted(198, 8197)}")
    of_upper = gaps(upper=f"180 0 {counted(8204, 8381)} | 8002 new {counted(8384, 16383)}")
    all_upper = gaps(f"8196 0 {counted(4, 8197)}", f"8182 new {counted(8204, 16383)}")
    longest = gaps(lower=f"12 8202 {counted(4, 13)} | 8184 new {counted(16, 8197)}")
    yield granted(ALLOC, 0, 8000, before, 2, (198, 8000), of_lower)
    yield granted(ALLOC_BEST, 0, 8000, before, 8202, (8384, 8000), of_upper)
    for rover in (2, 8203, 65536 + 8202):
        yield granted(ALLOC_NEXT, rover, 8000, before, 2, (198, 8000), of_lower)
    for rover in (3, 4096, 8202):
        yield granted(ALLOC_NEXT, rover, 8000, before, 8202, (8384, 8000), of_upper)
    yield granted(ALLOC_BEST, 0, 8180, before, 8202, (8204, 8180), all_upper)
    yield granted(ALLOC_NEXT, 8202, 8180, before, 8202, (8204, 8180), all_upper)
    yield from alike([8202], [8181], before, 2, (16, 8182), longest)
    yield from refused(8202, 8195, before, 6)


def long_list_rows():
    """The longest list, 2,047 free chunks of four words and a last one of six at word 16,378: only that holds four."""
    pairs = " | ".join(f"4 {start + 8} 1004 1005 | 4 live 1008 1009" for start in range(2, 16378, 8))
    before = f"16384 2 | {pairs} | 6 0 1004 1005 1006 1007"

    def taken(found, link_word, link):
        """The chunk is live, and the word that named it names the next one."""
        after = before.replace("|", " ").split()
        after[link_word], after[found + 1] = str(link), "new"
        return " ".join(after)

    yield from alike((0, 16379), [3], before, 16378, (16380, 4), taken(16378, 16371, 0))
    yield granted(ALLOC_BEST, 0, 2, before, 2, (4, 2), taken(2, 1, 10))
    yield granted(ALLOC_NEXT, 16379, 2, before, 2, (4, 2), taken(2, 1, 10))
    yield granted(ALLOC_NEXT, 8187, 2, before, 8194, (8196, 2), taken(8194, 8187, 8202))
    yield granted(ALLOC_NEXT, 16371, 2, before, 16378, (16380, 4), taken(16378, 16371, 0))
    yield from refused(8194, 5, before, 6)


def refused_rows():
    """The lowest number that applies is given, whatever the rover is, and the rover stays."""
    for rover in (0, 1, 2, 7, 8, 9, 16, 17, 65544, 2**32 - 1):
        for asked, code in ((0, 4), (13, 5), (65537, 5), (2**32 - 1, 5), (3, 6), (12, 6)):
            yield from refused(rover, asked, SHORT_GAP, code)
    damaged = [(2, before) for before in lost_lists()]
    for code, before in [*NO_ARENAS, *damaged]:
        for rover in (0, 3, 12, 2**32 - 1):
            for asked in (0, 1, 13):
                yield from refused(rover, asked, before, code)


def compare(chosen):
    """Every row through the model and through the program; the last line counts the rows."""
    rows = [*four_gap_rows(), move_row(), *lesson_rows(ALLOC_BEST, BEST_FITS), *lesson_rows(ALLOC_NEXT, NEXT_FITS),
            *full_turn_rows(), *equal_rows(), *only_gap_rows(), *long_gap_rows(), *long_list_rows(), *refused_rows()]
    return f"{run_rows(chosen.cases, rows):,} rows of the three fits compared with all their words"


if __name__ == "__main__":
    driver.finish("test_fit_rows", compare, driver.options(__doc__, 1, named=("cases",)))
