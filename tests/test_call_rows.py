"""Holds the program `cases` and the model to rows of calls, worked out by hand with all their words.

The calls are alloc, free, resize, the move, realloc and report.
"""

from support import driver, model
from support.cases import ALLOC, FREE, REALLOC, RELOCATE, REPORT, RESIZE, Case
from support.comparing import run_rows

# Arenas with which more than one function of rows begins.
BESIDE_FREE = "18 12 | 10 live7 1004 1005 1006 1007 1008 1009 1010 1011 | 6 0 1014 1015 1016 1017"
SHORT_GAP = "16 8 | 6 live3 1004 1005 1006 1007 | 4 0 1010 1011 | 4 live 1014 1015"

# Arenas that are none: damaged, and of lengths that no arena has.
NO_ARENAS = [
    (2, "16 0 | 6 live 1004 1005 1006 1007 | 4 0 1010 1011 | 4 live 1014 1015"),
    (2, "6 2 | 6 0 1004 1005"),
    (1, "15 8 | 6 live 1004 1005 1006 1007 | 4 0 1010 1011 | 3 live 1014"),
    (1, "5 2 | 3 0 1004"),
    (1, "2 2"),
    (1, ""),
]


def words(text, asked=0):
    """The words of an arena as they are written here, with a bar before each chunk.

    The second word of a live one is `live` where all its words were asked for, `live3` where three were, for instance,
    and `new` where as many were as the row asks for.
    """
    found = []
    for word in text.replace("|", " ").split():
        if word.startswith("live"):
            found.append(model.LIVE_MARK + int(word[len("live"):] or found[-1] - model.HEADER))
        else:
            found.append(model.LIVE_MARK + asked if word == "new" else int(word))
    return found


def done(call, block, asked, before, fields, after):
    """A case that is done, with the numbers that are answered, and the words that it leaves."""
    return Case(call, block, asked, words(before)), model.Answer(0, fields, [], words(after, asked))


def refused(call, block, asked, before, code):
    """A case that is refused: its numbers are 0, and every word stays."""
    return Case(call, block, asked, words(before)), model.Answer(code, (0, 0), [], words(before))


def reported(before, fields):
    """A report that is done, with free words, largest request, live blocks and free chunks: every word stays."""
    return done(REPORT, 0, 0, before, fields, before)


def counted(first, last):
    """The words of these numbers, each 1000 more than its number, as they are written here."""
    return " ".join(str(1000 + at) for at in range(first, last + 1))


def live_neighbour_rows():
    """A resize that would move leaves every word, and realloc moves: a live chunk or the end comes after the block."""
    before = f"24 2 | 14 0 {counted(4, 15)} | 4 live 1018 1019 | 4 live 1022 1023"
    whole = f"24 16 | 14 new 1018 1019 {counted(6, 15)} | 4 0 1018 1019 | 4 live 1022 1023"
    split = f"24 2 | 8 20 {counted(4, 9)} | 6 new 1022 1023 1014 1015 | 4 live 1018 1019 | 4 0 1022 1023"
    yield refused(RESIZE, 18, 5, before, 8)
    yield done(RELOCATE, 18, 5, before, (4, 12), whole)
    yield done(REALLOC, 18, 5, before, (4, 12), whole)
    yield refused(RESIZE, 22, 3, before, 8)
    yield done(RELOCATE, 22, 3, before, (12, 4), split)
    yield done(REALLOC, 22, 3, before, (12, 4), split)


def short_neighbour_rows():
    """A free chunk after the block is enough for 6 words and two short for 7, and no gap holds those."""
    before = "20 2 | 4 10 1004 1005 | 4 live 1008 1009 | 4 0 1012 1013 | 6 live 1016 1017 1018 1019"
    grown = "20 2 | 4 0 1004 1005 | 8 new 1008 1009 4 0 1012 1013 | 6 live 1016 1017 1018 1019"
    yield refused(RESIZE, 8, 7, before, 8)
    yield refused(RELOCATE, 8, 7, before, 6)
    yield refused(REALLOC, 8, 7, before, 6)
    yield done(RESIZE, 8, 6, before, (8, 6), grown)
    yield refused(RELOCATE, 8, 6, before, 6)
    yield done(REALLOC, 8, 6, before, (8, 6), grown)


def passed_neighbour_rows():
    """A free chunk after the block is too short for 7 words, and the block moves to a gap that holds them."""
    before = ("24 2 | 10 16 1004 1005 1006 1007 1008 1009 1010 1011 | 4 live 1014 1015 | 4 0 1018 1019"
              " | 4 live 1022 1023")
    moved = ("24 12 | 10 new 1014 1015 1006 1007 1008 1009 1010 1011 | 8 0 1014 1015 4 0 1018 1019"
             " | 4 live 1022 1023")
    yield refused(RESIZE, 14, 7, before, 8)
    yield done(RELOCATE, 14, 7, before, (4, 8), moved)
    yield done(REALLOC, 14, 7, before, (4, 8), moved)


def lowest_gap_rows():
    """A move takes the lowest gap that fits, not the closest fit above; no resize grows into that: it is not next."""
    before = ("32 2 | 4 10 1004 1005 | 4 live 1008 1009 | 8 26 1012 1013 1014 1015 1016 1017 | 4 live 1020 1021"
              " | 4 live 1024 1025 | 6 0 1028 1029 1030 1031")
    moved = ("32 2 | 4 18 1004 1005 | 4 live 1008 1009 | 8 new 1020 1021 1014 1015 1016 1017 | 4 26 1020 1021"
             " | 4 live 1024 1025 | 6 0 1028 1029 1030 1031")
    yield refused(RESIZE, 20, 3, before, 8)
    yield done(RELOCATE, 20, 3, before, (12, 6), moved)
    yield done(REALLOC, 20, 3, before, (12, 6), moved)


def grow_rows():
    """A block grows by all of a short free chunk after it, up to four words over, and by part of a long one."""
    full = "18 0 | 16 new 1004 1005 1006 1007 1008 1009 1010 1011 6 0 1014 1015 1016 1017"
    for asked in (9, 10, 11, 12, 13, 14):
        yield done(RESIZE, 4, asked, BESIDE_FREE, (4, 14), full)
    before_long = f"28 12 | 10 live {counted(4, 11)} | 16 0 {counted(14, 27)}"
    part = f"28 20 | 18 new {counted(4, 11)} 16 0 {counted(14, 19)} | 8 0 {counted(22, 27)}"
    whole = f"28 0 | 26 new {counted(4, 11)} 16 0 {counted(14, 27)}"
    yield done(RESIZE, 4, 15, before_long, (4, 16), part)
    yield done(RESIZE, 4, 16, before_long, (4, 16), part)
    yield done(RESIZE, 4, 17, before_long, (4, 24), whole)
    yield done(RESIZE, 4, 24, before_long, (4, 24), whole)


def given_up_rows():
    """Before a free chunk all words over go to it, two as well as six; its old header keeps both its words."""
    two = "18 10 | 8 new 1004 1005 1006 1007 1008 1009 | 8 0 6 0 1014 1015 1016 1017"
    kept = "18 12 | 10 new 1004 1005 1006 1007 1008 1009 1010 1011 | 6 0 1014 1015 1016 1017"
    six = "18 6 | 4 new 1004 1005 | 12 0 1008 1009 1010 1011 6 0 1014 1015 1016 1017"
    least = "14 8 | 6 new 1004 1005 1006 1007 | 6 0 4 0 1012 1013"
    for call in (RESIZE, REALLOC):
        yield done(call, 4, 5, BESIDE_FREE, (4, 6), two)
        yield done(call, 4, 6, BESIDE_FREE, (4, 6), two)
        yield done(call, 4, 7, BESIDE_FREE, (4, 8), BESIDE_FREE)
        yield done(call, 4, 8, BESIDE_FREE, (4, 8), kept)
        yield done(call, 4, 2, BESIDE_FREE, (4, 2), six)
        yield done(call, 4, 4, "14 10 | 8 live 1004 1005 1006 1007 1008 1009 | 4 0 1012 1013", (4, 4), least)


def list_place_rows():
    """The link that named the free chunk names its new start, be it the first, the middle or the last of the list."""
    before = ("36 8 | 6 live 1004 1005 1006 1007 | 4 18 1010 1011 | 6 live 1014 1015 1016 1017 | 4 28 1020 1021"
              " | 6 live 1024 1025 1026 1027 | 4 0 1030 1031 | 4 live 1034 1035")
    first = ("36 6 | 4 new 1004 1005 | 6 18 4 18 1010 1011 | 6 live 1014 1015 1016 1017 | 4 28 1020 1021"
             " | 6 live 1024 1025 1026 1027 | 4 0 1030 1031 | 4 live 1034 1035")
    middle = ("36 8 | 6 live 1004 1005 1006 1007 | 4 16 1010 1011 | 4 new 1014 1015 | 6 28 4 28 1020 1021"
              " | 6 live 1024 1025 1026 1027 | 4 0 1030 1031 | 4 live 1034 1035")
    last = ("36 8 | 6 live 1004 1005 1006 1007 | 4 18 1010 1011 | 6 live 1014 1015 1016 1017 | 4 26 1020 1021"
            " | 4 new 1024 1025 | 6 0 4 0 1030 1031 | 4 live 1034 1035")
    kept = ("36 8 | 6 live 1004 1005 1006 1007 | 4 18 1010 1011 | 6 live 1014 1015 1016 1017 | 4 28 1020 1021"
            " | 6 live 1024 1025 1026 1027 | 4 0 1030 1031 | 4 new 1034 1035")
    for call in (RESIZE, REALLOC):
        yield done(call, 4, 2, before, (4, 2), first)
        yield done(call, 14, 2, before, (14, 2), middle)
        yield done(call, 24, 1, before, (24, 2), last)
        yield done(call, 34, 1, before, (34, 2), kept)


def long_resize_rows():
    """In the longest arena a block of 8,190 words beside a free chunk grows, is cut to 100, cut by two, or kept.

    It grows by part of the free chunk with eight words over, and by all of it with six.
    """
    before = f"16384 8194 | 8192 live {counted(4, 8193)} | 8190 0 {counted(8196, 16383)}"
    grown = (f"16384 12004 | 12002 new {counted(4, 8193)} 8190 0 {counted(8196, 12003)}"
             f" | 4380 0 {counted(12006, 16383)}")
    joined = f"16384 104 | 102 new {counted(4, 103)} | 16280 0 {counted(106, 8193)} 8190 0 {counted(8196, 16383)}"
    yield done(RESIZE, 4, 12000, before, (4, 12000), grown)
    yield done(RESIZE, 4, 100, before, (4, 100), joined)
    two = f"16384 8192 | 8190 new {counted(4, 8191)} | 8192 0 8190 0 {counted(8196, 16383)}"
    yield done(RESIZE, 4, 8187, before, (4, 8188), two)
    yield done(RESIZE, 4, 8189, before, (4, 8190), before.replace("live", "new"))
    eight = (f"16384 16376 | 16374 new {counted(4, 8193)} 8190 0 {counted(8196, 16375)}"
             f" | 8 0 {counted(16378, 16383)}")
    yield done(RESIZE, 4, 16372, before, (4, 16372), eight)
    whole = f"16384 0 | 16382 new {counted(4, 8193)} 8190 0 {counted(8196, 16383)}"
    yield done(RESIZE, 4, 16373, before, (4, 16380), whole)


def shorter_move_rows():
    """A move to a shorter block copies that many words: the size after them, another's or the old one's, stays."""
    below_other = f"26 2 | 12 0 {counted(4, 13)} | 4 live 1016 1017 | 8 live {counted(20, 25)}"
    after_other = f"26 2 | 8 18 {counted(4, 9)} | 4 new 1020 1021 | 4 live 1016 1017 | 8 0 {counted(20, 25)}"
    yield done(RELOCATE, 20, 2, below_other, (12, 2), after_other)
    yield done(RELOCATE, 20, 1, below_other, (12, 2), after_other)
    below_old = f"28 2 | 14 0 {counted(4, 15)} | 8 live {counted(18, 23)} | 4 live 1026 1027"
    after_old = f"28 2 | 8 16 {counted(4, 9)} | 6 new {counted(18, 21)} | 8 0 {counted(18, 23)} | 4 live 1026 1027"
    yield done(RELOCATE, 18, 4, below_old, (12, 4), after_old)


def long_move_rows():
    """A block of 8,188 words moves to one of 8,190 with all its words, or to one of 8,182 or 4,000 with as many."""
    old = counted(8196, 16383)
    before = f"16384 2 | 8192 0 {counted(4, 8193)} | 8190 live {old}"
    whole = f"16384 8194 | 8192 new {old} 9192 9193 | 8190 0 {old}"
    shorter = f"16384 2 | 4190 8194 {counted(4, 4191)} | 4002 new {counted(8196, 12195)} | 8190 0 {old}"
    yield refused(RESIZE, 8196, 8189, before, 8)
    yield done(RELOCATE, 8196, 8189, before, (4, 8190), whole)
    yield done(REALLOC, 8196, 8189, before, (4, 8190), whole)
    yield done(RELOCATE, 8196, 4000, before, (4194, 4000), shorter)
    eight = f"16384 2 | 8 8194 {counted(4, 9)} | 8184 new {counted(8196, 16377)} | 8190 0 {old}"
    yield done(RELOCATE, 8196, 8182, before, (12, 8182), eight)
    yield done(RELOCATE, 8196, 8183, before, (4, 8190), whole)


def equal_move_rows():
    """A move to a block as long copies all words, however few were asked for; the old words join the gap below them."""
    before = "22 2 | 8 0 1004 1005 1006 1007 1008 1009 | 4 live 1012 1013 | 8 live 1016 1017 1018 1019 1020 1021"
    after = "22 14 | 8 new 1016 1017 1018 1019 1020 1021 | 4 live 1012 1013 | 8 0 1016 1017 1018 1019 1020 1021"
    for asked in (1, 2, 3, 6):
        yield done(RELOCATE, 16, asked, before, (4, 6), after)
    between_free = "22 2 | 4 12 1004 1005 | 6 live3 1008 1009 1010 1011 | 6 0 1014 1015 1016 1017 | 4 live 1020 1021"
    joined = "22 2 | 10 0 1004 1005 6 live3 1008 1009 1010 1011 | 6 new 1008 1009 1010 1011 | 4 live 1020 1021"
    yield done(RELOCATE, 8, 4, between_free, (14, 4), joined)


def gap_above_rows():
    """A move takes the top of the free chunk after its block, or all of it, where a resize would grow into that."""
    before = f"24 6 | 4 live 1004 1005 | 14 0 {counted(8, 19)} | 4 live 1022 1023"
    grown = f"24 8 | 6 new 1004 1005 14 0 | 12 0 {counted(10, 19)} | 4 live 1022 1023"
    top = f"24 2 | 12 0 1004 1005 8 0 {counted(8, 13)} | 6 new 1004 1005 1018 1019 | 4 live 1022 1023"
    whole = f"24 2 | 4 0 1004 1005 | 14 new 1004 1005 {counted(10, 19)} | 4 live 1022 1023"
    yield done(RESIZE, 4, 4, before, (4, 4), grown)
    yield done(RELOCATE, 4, 4, before, (16, 4), top)
    yield done(REALLOC, 4, 4, before, (4, 4), grown)
    yield done(RELOCATE, 4, 5, before, (8, 12), whole)


def swallowed_header_rows():
    """A header that a move's free swallows keeps what it had after the alloc: the words asked for, or a new link."""
    between_free = ("30 2 | 8 14 1004 1005 1006 1007 1008 1009 | 4 live 1012 1013 | 4 26 1016 1017"
                    " | 8 live4 1020 1021 1022 1023 1024 1025 | 4 0 1028 1029")
    joined = ("30 14 | 8 new 1020 1021 1022 1023 1024 1025 | 4 live 1012 1013 | 16 0 1016 1017"
              "   8 live4 1020 1021 1022 1023 1024 1025   4 0 1028 1029")
    yield done(RELOCATE, 20, 5, between_free, (4, 6), joined)
    before_free = "22 6 | 4 live 1004 1005 | 4 14 1008 1009 | 4 live 1012 1013 | 8 0 1016 1017 1018 1019 1020 1021"
    moved = "22 2 | 8 0 1004 1005 4 0 1008 1009 | 4 live 1012 1013 | 8 new 1004 1005 1018 1019 1020 1021"
    grown = "22 14 | 8 new 1004 1005 4 14 1008 1009 | 4 live 1012 1013 | 8 0 1016 1017 1018 1019 1020 1021"
    yield done(RELOCATE, 4, 6, before_free, (16, 6), moved)
    yield done(RESIZE, 4, 6, before_free, (4, 6), grown)


def refused_move_rows():
    """A move lacks room where no gap holds the need, though the block could grow, or has that many words already."""
    grown = "16 0 | 10 new 1004 1005 1006 1007 4 0 1010 1011 | 4 live 1014 1015"
    kept = "16 8 | 6 new 1004 1005 1006 1007 | 4 0 1010 1011 | 4 live 1014 1015"
    moved = "16 2 | 6 0 1004 1005 1006 1007 | 4 new 1004 1005 | 4 live 1014 1015"
    yield refused(RELOCATE, 4, 6, SHORT_GAP, 6)
    yield done(RESIZE, 4, 6, SHORT_GAP, (4, 8), grown)
    yield refused(RELOCATE, 4, 4, SHORT_GAP, 6)
    yield done(RESIZE, 4, 4, SHORT_GAP, (4, 4), kept)
    yield done(RELOCATE, 4, 2, SHORT_GAP, (10, 2), moved)
    full = "12 0 | 6 live 1004 1005 1006 1007 | 4 live 1010 1011"
    yield refused(RELOCATE, 4, 1, full, 6)
    yield done(RESIZE, 4, 1, full, (4, 4), "12 0 | 6 new 1004 1005 1006 1007 | 4 live 1010 1011")


def order_rows():
    """The lowest number that applies is given, and 8 comes after 5: no request above N-4 is told to move."""
    damaged = "16 0 | 6 live 1004 1005 1006 1007 | 4 0 1010 1011 | 4 live 1014 1015"
    odd = "15 8 | 6 live 1004 1005 1006 1007 | 4 0 1010 1011 | 3 live 1014"
    imitated = "16 0 | 10 live 1004 1005 4 live 1008 1009 1010 1011 | 4 live 1014 1015"
    for call, last in ((RESIZE, 8), (RELOCATE, 6), (REALLOC, 6)):
        yield refused(call, 4, 12, SHORT_GAP, last)
        yield refused(call, 4, 13, SHORT_GAP, 5)
        yield refused(call, 4, 4294967295, SHORT_GAP, 5)
        yield refused(call, 4, 65540, SHORT_GAP, 5)
        yield refused(call, 65540, 4, SHORT_GAP, 3)
        yield refused(call, 0, 4, SHORT_GAP, 3)
        yield refused(call, 4, 0, SHORT_GAP, 4)
        yield refused(call, 6, 0, SHORT_GAP, 3)
        yield refused(call, 10, 13, SHORT_GAP, 3)
        yield refused(call, 8, 1, imitated, 3)
        yield refused(call, 6, 0, damaged, 2)
        yield refused(call, 4, 4, damaged, 2)
        yield refused(call, 6, 0, odd, 1)
        yield refused(call, 4, 4, odd, 1)


# Words that are over: two, four or six are granted with the need, eight or ten are split off, but before a free chunk
# a block gives up any number. Each row is asked with an even number of words, and with the odd one below it.


def rows_asked(calls, block, before, left):
    """Each of the calls, asked for each number of words; `left` has the numbers, the answer and the words left."""
    for call in calls:
        for numbers, fields, after in left:
            for asked in numbers:
                yield done(call, block, asked, before, fields, after)


def over_in_alloc_rows():
    """Alloc takes a free chunk of 14 words whole with up to six over, and its last words with eight or ten over."""
    before = f"20 2 | 14 0 {counted(4, 15)} | 4 live 1018 1019"
    whole = f"20 0 | 14 new {counted(4, 15)} | 4 live 1018 1019"
    eight = f"20 2 | 8 0 {counted(4, 9)} | 6 new {counted(12, 15)} | 4 live 1018 1019"
    ten = f"20 2 | 10 0 {counted(4, 11)} | 4 new 1014 1015 | 4 live 1018 1019"
    left = [(range(5, 13), (4, 12), whole), ((3, 4), (12, 4), eight), ((1, 2), (14, 2), ten)]
    yield from rows_asked([ALLOC], 0, before, left)


def over_before_live_rows():
    """A block before a live chunk keeps up to six words that are over; eight or ten become a free chunk."""
    before = f"20 0 | 14 live9 {counted(4, 15)} | 4 live 1018 1019"
    kept = f"20 0 | 14 new {counted(4, 15)} | 4 live 1018 1019"
    eight = f"20 8 | 6 new {counted(4, 7)} | 8 0 {counted(10, 15)} | 4 live 1018 1019"
    ten = f"20 6 | 4 new 1004 1005 | 10 0 {counted(8, 15)} | 4 live 1018 1019"
    left = [(range(5, 13), (4, 12), kept), ((3, 4), (4, 4), eight), ((1, 2), (4, 2), ten)]
    yield from rows_asked([RESIZE, REALLOC], 4, before, left)


def over_at_end_rows():
    """A block at the end keeps up to six words that are over; eight or ten become the last free chunk."""
    before = f"20 2 | 4 0 1004 1005 | 14 live {counted(8, 19)}"
    kept = f"20 2 | 4 0 1004 1005 | 14 new {counted(8, 19)}"
    eight = f"20 2 | 4 12 1004 1005 | 6 new {counted(8, 11)} | 8 0 {counted(14, 19)}"
    ten = f"20 2 | 4 10 1004 1005 | 4 new 1008 1009 | 10 0 {counted(12, 19)}"
    left = [(range(5, 13), (8, 12), kept), ((3, 4), (8, 4), eight), ((1, 2), (8, 2), ten)]
    yield from rows_asked([RESIZE, REALLOC], 8, before, left)


def over_before_four_rows():
    """A block before a free chunk of four words gives it all that are over, and takes nothing of it."""
    before = f"20 16 | 14 live11 {counted(4, 15)} | 4 0 1018 1019"
    left = [((11, 12), (4, 12), f"20 16 | 14 new {counted(4, 15)} | 4 0 1018 1019"),
            ((9, 10), (4, 10), f"20 14 | 12 new {counted(4, 13)} | 6 0 4 0 1018 1019"),
            ((7, 8), (4, 8), f"20 12 | 10 new {counted(4, 11)} | 8 0 1014 1015 4 0 1018 1019"),
            ((5, 6), (4, 6), f"20 10 | 8 new {counted(4, 9)} | 10 0 {counted(12, 15)} 4 0 1018 1019"),
            ((3, 4), (4, 4), f"20 8 | 6 new {counted(4, 7)} | 12 0 {counted(10, 15)} 4 0 1018 1019"),
            ((1, 2), (4, 2), f"20 6 | 4 new 1004 1005 | 14 0 {counted(8, 15)} 4 0 1018 1019")]
    yield from rows_asked([RESIZE, REALLOC], 4, before, left)


def over_before_ten_rows():
    """A block before a free chunk of ten words gives it all that are over; its link goes with its start."""
    behind = f"10 30 {counted(18, 25)} | 4 live 1028 1029 | 4 0 1032 1033"
    before = f"34 16 | 14 live {counted(4, 15)} | {behind}"
    left = [((11, 12), (4, 12), f"34 16 | 14 new {counted(4, 15)} | {behind}"),
            ((9, 10), (4, 10), f"34 14 | 12 new {counted(4, 13)} | 12 30 {behind}"),
            ((7, 8), (4, 8), f"34 12 | 10 new {counted(4, 11)} | 14 30 1014 1015 {behind}"),
            ((5, 6), (4, 6), f"34 10 | 8 new {counted(4, 9)} | 16 30 {counted(12, 15)} {behind}"),
            ((3, 4), (4, 4), f"34 8 | 6 new {counted(4, 7)} | 18 30 {counted(10, 15)} {behind}"),
            ((1, 2), (4, 2), f"34 6 | 4 new 1004 1005 | 20 30 {counted(8, 15)} {behind}")]
    yield from rows_asked([RESIZE, REALLOC], 4, before, left)


def over_in_grow_rows():
    """A block grows by a whole free chunk of 14 words with up to six over; eight or ten over stay free at the top."""
    behind = "4 live 1022 1023 | 4 0 1026 1027"
    before = f"28 6 | 4 live 1004 1005 | 14 24 {counted(8, 19)} | {behind}"
    whole = f"28 24 | 18 new 1004 1005 14 24 {counted(8, 19)} | {behind}"
    eight = f"28 12 | 10 new 1004 1005 14 24 {counted(8, 11)} | 8 24 {counted(14, 19)} | {behind}"
    ten = f"28 10 | 8 new 1004 1005 14 24 1008 1009 | 10 24 {counted(12, 19)} | {behind}"
    left = [(range(9, 17), (4, 16), whole), ((7, 8), (4, 8), eight), ((5, 6), (4, 6), ten)]
    yield from rows_asked([RESIZE, REALLOC], 4, before, left)


def over_in_move_rows():
    """A move takes a free chunk of 16 words whole with up to six over, and its last words with eight or ten over."""
    before = f"22 2 | 16 0 {counted(4, 17)} | 4 live 1020 1021"
    whole = f"22 18 | 16 new 1020 1021 {counted(6, 17)} | 4 0 1020 1021"
    eight = f"22 2 | 8 18 {counted(4, 9)} | 8 new 1020 1021 {counted(14, 17)} | 4 0 1020 1021"
    ten = f"22 2 | 10 18 {counted(4, 11)} | 6 new 1020 1021 1016 1017 | 4 0 1020 1021"
    for asked in range(3, 15):
        yield refused(RESIZE, 20, asked, before, 8)
    left = [(range(7, 15), (4, 14), whole), ((5, 6), (12, 6), eight), ((3, 4), (14, 4), ten)]
    yield from rows_asked([RELOCATE, REALLOC], 20, before, left)


def short_gap_rows():
    """Free chunks of four and of six words are granted where they fit, and passed over where they do not."""
    low, high = "4 live 1008 1009", "4 live 1018 1019"
    six, last = counted(12, 15), counted(22, 35)
    before = f"36 2 | 4 10 1004 1005 | {low} | 6 20 {six} | {high} | 16 0 {last}"
    split = f"8 0 {counted(22, 27)} | 8 new {counted(30, 35)}"
    for asked, fields, after in (
            (2, (4, 2), f"36 10 | 4 new 1004 1005 | {low} | 6 20 {six} | {high} | 16 0 {last}"),
            (4, (12, 4), f"36 2 | 4 20 1004 1005 | {low} | 6 new {six} | {high} | 16 0 {last}"),
            (6, (30, 6), f"36 2 | 4 10 1004 1005 | {low} | 6 20 {six} | {high} | {split}"),
            (8, (22, 14), f"36 2 | 4 10 1004 1005 | {low} | 6 0 {six} | {high} | 16 new {last}")):
        yield done(ALLOC, 0, asked, before, fields, after)
        yield done(ALLOC, 0, asked - 1, before, fields, after)
    yield refused(ALLOC, 0, 15, before, 6)


def lowest_short_gap_rows():
    """A free chunk of six words is granted whole to a request that needs four, though one of four lies above it."""
    before = f"20 2 | 6 12 {counted(4, 7)} | 4 live 1010 1011 | 4 0 1014 1015 | 4 live 1018 1019"
    taken = f"20 12 | 6 new {counted(4, 7)} | 4 live 1010 1011 | 4 0 1014 1015 | 4 live 1018 1019"
    yield done(ALLOC, 0, 1, before, (4, 4), taken)
    yield done(ALLOC, 0, 2, before, (4, 4), taken)


def short_gap_move_rows():
    """A block moves to a free chunk of six words, which it needs, or with two words over."""
    before = f"16 2 | 6 0 {counted(4, 7)} | 4 live 1010 1011 | 4 live 1014 1015"
    needed = "16 8 | 6 new 1010 1011 1006 1007 | 4 0 1010 1011 | 4 live 1014 1015"
    two_over = "16 12 | 6 new 1014 1015 1006 1007 | 4 live 1010 1011 | 4 0 1014 1015"
    kept = f"16 2 | 6 0 {counted(4, 7)} | 4 live 1010 1011 | 4 new 1014 1015"
    yield done(RELOCATE, 10, 3, before, (4, 4), needed)
    yield done(REALLOC, 10, 3, before, (4, 4), needed)
    yield done(RELOCATE, 14, 1, before, (4, 4), two_over)
    yield done(REALLOC, 14, 1, before, (14, 2), kept)


def small_free_rows():
    """A block of four words or six that is freed between live ones is a free chunk of that size, which others join."""
    lower, upper = counted(12, 15), counted(18, 23)
    before = f"24 0 | 4 live 1004 1005 | 4 live 1008 1009 | 6 live1 {lower} | 8 live {upper}"
    four = f"24 6 | 4 live 1004 1005 | 4 0 1008 1009 | 6 live1 {lower} | 8 live {upper}"
    six = f"24 10 | 4 live 1004 1005 | 4 live 1008 1009 | 6 0 {lower} | 8 live {upper}"
    yield done(FREE, 8, 0, before, (), four)
    yield done(FREE, 12, 0, before, (), six)
    yield refused(FREE, 8, 0, four, 3)
    yield done(FREE, 12, 0, four, (), f"24 6 | 4 live 1004 1005 | 10 0 1008 1009 6 live1 {lower} | 8 live {upper}")
    yield done(FREE, 8, 0, six, (), f"24 6 | 4 live 1004 1005 | 10 0 1008 1009 6 0 {lower} | 8 live {upper}")
    yield done(FREE, 4, 0, six, (), f"24 2 | 4 10 1004 1005 | 4 live 1008 1009 | 6 0 {lower} | 8 live {upper}")


def report_rows():
    """A report of several free chunks, of which the first, the last or the middle one is the largest, or two are."""
    first = ("28 2 | 8 14 1004 1005 1006 1007 1008 1009 | 4 live 1012 1013 | 4 22 1016 1017 | 4 live 1020 1021"
             " | 6 0 1024 1025 1026 1027")
    last = ("28 2 | 4 10 1004 1005 | 4 live 1008 1009 | 4 18 1012 1013 | 4 live 1016 1017"
            " | 10 0 1020 1021 1022 1023 1024 1025 1026 1027")
    middle = ("28 2 | 4 10 1004 1005 | 4 live 1008 1009 | 8 22 1012 1013 1014 1015 1016 1017 | 4 live 1020 1021"
              " | 6 0 1024 1025 1026 1027")
    two = "18 2 | 6 12 1004 1005 1006 1007 | 4 live 1010 1011 | 6 0 1014 1015 1016 1017"
    yield reported(first, (18, 6, 2, 3))
    yield reported(last, (18, 8, 2, 3))
    yield reported(middle, (18, 6, 2, 3))
    yield reported(two, (12, 4, 1, 2))


def short_list_rows():
    """A report of one free chunk, or of none, whatever lies in the chunks and looks like a header or a link."""
    yield reported("6 2 | 4 0 1004 1005", (4, 2, 0, 1))
    yield reported(f"16384 2 | 16382 0 {counted(4, 16383)}", (16382, 16380, 0, 1))
    yield reported(SHORT_GAP, (4, 2, 2, 1))
    yield reported(BESIDE_FREE, (6, 4, 1, 1))
    yield reported("12 0 | 6 live 1004 1005 1006 1007 | 4 live 1010 1011", (0, 0, 2, 0))
    yield reported("16 0 | 10 live 1004 1005 4 0 1008 1009 1010 1011 | 4 live 1014 1015", (0, 0, 2, 0))
    yield reported("16 2 | 10 0 4 live 1006 1007 4 12 1010 1011 | 4 live 1014 1015", (10, 8, 1, 1))


def long_list_rows():
    """A report of the longest list, the last or the first of its 2,048 chunks the largest, and of 4,095 live blocks."""
    pairs = " | ".join(f"4 {start + 8} 1004 1005 | 4 live 1008 1009" for start in range(2, 16378, 8))
    yield reported(f"16384 2 | {pairs} | 6 0 1004 1005 1006 1007", (8194, 4, 2047, 2048))
    pairs = " | ".join(f"4 live 1004 1005 | 4 {start + 8} 1008 1009" for start in range(12, 16380, 8))
    yield reported(f"16384 2 | 6 12 1004 1005 1006 1007 | {pairs} | 4 live 1004 1005 | 4 0 1008 1009",
                   (8194, 4, 2047, 2048))
    blocks = "4 live 1004 1005 | " * 4094
    yield reported(f"16384 0 | {blocks} 6 live 1004 1005 1006 1007", (0, 0, 4095, 0))


def long_gap_rows():
    """A report of two long free chunks: the larger one is the smaller in its low byte, and in its low 13 bits."""
    before = f"16384 2 | 8196 8202 {counted(4, 8197)} | 4 live 9200 9201 | 8182 0 {counted(8204, 16383)}"
    yield reported(before, (16378, 8194, 1, 2))


def lost_lists():
    """Arenas whose list leaves out a free chunk, falls, goes round, or leads to a live chunk or elsewhere.

    Each has word 1 and the links of the two free chunks; 2, 12 and 0 would be right. Then come two free neighbours,
    rightly linked.
    """
    for list_word, left, right in ((0, 12, 0), (12, 12, 0), (12, 0, 2), (2, 0, 0), (2, 12, 2), (2, 12, 12), (2, 8, 0),
                                   (2, 14, 0)):
        chunks = f"6 {left} 1004 1005 1006 1007 | 4 live 1010 1011 | 6 {right} 1014 1015 1016 1017"
        yield f"18 {list_word} | {chunks}"
    yield "14 2 | 4 6 1004 1005 | 4 0 1008 1009 | 4 live 1012 1013"


def lost_list_rows():
    """A list that is not the free chunks in rising order is damage; the reason of an odd length comes first."""
    for before in lost_lists():
        yield refused(REPORT, 0, 0, before, 2)
    yield refused(REPORT, 0, 0, "15 8 | 6 live 1004 1005 1006 1007 | 4 0 1010 1011 | 3 live 1014", 1)


ROWS = [live_neighbour_rows, short_neighbour_rows, passed_neighbour_rows, lowest_gap_rows, grow_rows, given_up_rows,
        list_place_rows, long_resize_rows, shorter_move_rows, long_move_rows, equal_move_rows, gap_above_rows,
        swallowed_header_rows, refused_move_rows, order_rows, over_in_alloc_rows, over_before_live_rows,
        over_at_end_rows, over_before_four_rows, over_before_ten_rows, over_in_grow_rows, over_in_move_rows,
        short_gap_rows, lowest_short_gap_rows, short_gap_move_rows, small_free_rows, report_rows, short_list_rows,
        long_list_rows, long_gap_rows, lost_list_rows]


def compare(chosen):
    """Every row through the model and through the program; the last line counts the rows."""
    count = run_rows(chosen.cases, [row for rows in ROWS for row in rows()])
    return f"{count} rows of alloc, free, resize, the move, realloc and report compared with all their words"


if __name__ == "__main__":
    driver.finish("test_call_rows", compare, driver.options(__doc__, 1, named=("cases",)))
