"""Holds what is kept of the words asked for, item 9 of document 02, to rows by hand, to the model, and to a ledger.

A live chunk's second word is 2,147,483,648 and the words that were asked for, from one to all that are granted; any
other number above that is damage. Size answers both numbers, in a batch as well, and a picture keeps them.
"""

from collections import Counter
from itertools import accumulate
from random import Random

from support import arenas, batches, cases, driver, model, picture_cases, pictures
from support.asking import WANTED, Asking, compare_turns
from support.cases import ALLOC, ALLOC_NEXT, FITS, FREE, REALLOC, RELOCATE, REPORT, RESIZE, SIZE, TOGETHER, VIEW
from support.cases import VIEW_MUT, Case
from support.comparing import run_rows
from support.older import BARE_SHOWN, BARE_WORDS, HELD_SHOWN, HELD_WORDS, OLD_MARK
from support.picture_cases import CHECK, READ, WRITE
from test_batch import row
from test_call_rows import NO_ARENAS, counted, done, refused, words

CALLS = 40000

# So many turns are made on one arena, unless few calls are asked for: a turn takes about so many.
TURNS = 120
CALLS_IN_TURN = 10

# Lengths of the arenas of runs, in turn; the first holds a single block.
LENGTHS = [6, 12, 26, 40, 64, 100, 150, 200, 250, 300]

# The number that live chunks have in their second words, here by itself.
MARK = 2147483648

# The sizes of chunks whose second words are tried, and what lies below and above a live one, and a free one: a minus is
# for a free chunk.
SIZES = [4, 6, 8, 10, 14, 40]
AROUND_LIVE = [([], []), ([-4], []), ([], [-6]), ([4], [4]), ([-6], [-8]), ([6, -4], [4, -4]), ([-4], [8])]
AROUND_FREE = [([], []), ([4], []), ([], [6]), ([4], [4]), ([-4, 6], [4, -8])]

# The longest arena has the longest chunk, which lies alone.
LONGEST = model.LONGEST_ARENA - model.FIRST_CHUNK

# A run of requests on a started arena of 40 words, with the size of its block asked after each: what is asked, kind, b
# and n, and code, block and granted words, worked out by hand. The chunks are as in test_batch.py.
REQUESTS = [
    ((batches.ALLOC, 0, 11), (0, 28, 12)),      # 24 [14]
    ((batches.SIZE, 28, 0), (0, 11, 12)),
    ((batches.RESIZE, 28, 12), (0, 28, 12)),    # the same
    ((batches.SIZE, 28, 0), (0, 12, 12)),
    ((batches.REALLOC, 28, 11), (0, 28, 12)),   # the same
    ((batches.SIZE, 28, 0), (0, 11, 12)),
    ((batches.RESIZE, 28, 5), (0, 28, 12)),     # the same: six over are kept
    ((batches.SIZE, 28, 0), (0, 5, 12)),
    ((batches.RESIZE, 28, 3), (0, 28, 4)),      # 24 [6] 8: eight over are cut off
    ((batches.SIZE, 28, 0), (0, 3, 4)),
    ((batches.RESIZE, 28, 13), (8, 0, 0)),
    ((batches.SIZE, 28, 0), (0, 3, 4)),
    ((batches.REALLOC, 28, 13), (0, 12, 14)),   # 8 [16] 14
    ((batches.SIZE, 12, 0), (0, 13, 14)),
    ((batches.SIZE, 28, 0), (3, 0, 0)),
    ((batches.RELOCATE, 12, 9), (0, 28, 12)),   # 24 [14]: two over are granted
    ((batches.SIZE, 28, 12), (0, 9, 12)),
    ((batches.ALLOC, 0, 17), (0, 4, 22)),       # [24] [14]: four over are granted
    ((batches.SIZE, 4, 0), (0, 17, 22)),
    ((batches.SIZE, 28, 0), (0, 9, 12)),
    ((batches.SIZE, 0, 0), (3, 0, 0)),
]
REQUESTS_BEFORE = f"40 2 | 38 0 {counted(4, 39)}"
REQUESTS_AFTER = (f"40 0 | 24 live17 {counted(4, 9)} 16 live13 {counted(28, 31)} {counted(16, 25)}"
                  f" | 14 live9 {counted(28, 31)} {counted(16, 23)}")


# Rows by hand: behind each call that is granted comes the size of its block.


def sized(block, arena, asked, granted):
    """The size of a block: every word stays."""
    return done(SIZE, block, 0, arena, (asked, granted), arena)


def granted_rows(call, number, asked, before, fields, after):
    """A call that is granted, and the size of its block; the number is that of a block, or a rover."""
    yield done(call, number, asked, before, fields, after)
    yield sized(fields[0], after.replace("new", f"live{asked}"), asked, fields[1])


def one_word_rows():
    """Another number with the same need, or with up to six words over that are kept: one word of the arena changes.

    A free chunk comes after the block, and takes all words over; or a live one comes after it, or the end.
    """
    for before, block, requests in ((f"22 16 | 14 live11 {counted(4, 15)} | 6 0 {counted(18, 21)}", 4, (11, 12)),
                                    (f"20 0 | 14 live11 {counted(4, 15)} | 4 live1 1018 1019", 4, range(5, 13)),
                                    (f"20 2 | 4 0 1004 1005 | 14 live11 {counted(8, 19)}", 8, range(5, 13)),
                                    (f"16 0 | 14 live11 {counted(4, 15)}", 4, range(5, 13))):
        yield sized(block, before, 11, 12)
        for call in (RESIZE, REALLOC):
            for asked in requests:
                yield from granted_rows(call, block, asked, before, (block, 12), before.replace("live11", "new"))


def given_up_rows():
    """Words that a block gives up: two or ten to the free chunk after it, and eight that become a free chunk."""
    beside = f"22 16 | 14 live11 {counted(4, 15)} | 6 0 {counted(18, 21)}"
    two = f"22 14 | 12 new {counted(4, 13)} | 8 0 6 0 {counted(18, 21)}"
    ten = f"22 6 | 4 new 1004 1005 | 16 0 {counted(8, 15)} 6 0 {counted(18, 21)}"
    alone = f"20 0 | 14 live11 {counted(4, 15)} | 4 live1 1018 1019"
    eight = f"20 8 | 6 new {counted(4, 7)} | 8 0 {counted(10, 15)} | 4 live1 1018 1019"
    for call in (RESIZE, REALLOC):
        for requests, before, fields, after in (((9, 10), beside, (4, 10), two), ((1, 2), beside, (4, 2), ten),
                                                ((3, 4), alone, (4, 4), eight)):
            for asked in requests:
                yield from granted_rows(call, 4, asked, before, fields, after)


def grown_rows():
    """A block that grows by all of the free chunk after it, with up to four words over, or by part of a longer one."""
    short = f"22 16 | 14 live11 {counted(4, 15)} | 6 0 {counted(18, 21)}"
    whole = f"22 0 | 20 new {counted(4, 15)} 6 0 {counted(18, 21)}"
    long = f"34 16 | 14 live11 {counted(4, 15)} | 18 0 {counted(18, 33)}"
    part = f"34 22 | 20 new {counted(4, 15)} 18 0 {counted(18, 21)} | 12 0 {counted(24, 33)}"
    for call in (RESIZE, REALLOC):
        for asked in range(13, 19):
            yield from granted_rows(call, 4, asked, short, (4, 18), whole)
        for asked in (17, 18):
            yield from granted_rows(call, 4, asked, long, (4, 18), part)


def moved_rows():
    """A block that moves, to a longer one or a shorter one: its old header is swallowed, and keeps the old number."""
    before = f"36 2 | 16 22 {counted(4, 17)} | 4 live1 1020 1021 | 4 0 1024 1025 | 10 live5 {counted(28, 35)}"
    left = f"4 live1 1020 1021 | 14 0 1024 1025 10 live5 {counted(28, 35)}"
    whole = f"36 22 | 16 new {counted(28, 35)} {counted(12, 17)} | {left}"
    split = f"36 2 | 8 22 {counted(4, 9)} | 8 new {counted(28, 33)} | {left}"
    for asked in range(7, 15):
        yield from granted_rows(RELOCATE, 28, asked, before, (4, 14), whole)
    for asked in (5, 6):
        yield from granted_rows(RELOCATE, 28, asked, before, (12, 6), split)
    for asked in range(9, 15):
        yield from granted_rows(REALLOC, 28, asked, before, (4, 14), whole)


def alloc_rows():
    """A chunk that each fit grants whole, with up to six words over, or in part: a few words are asked for, or many."""
    before = f"20 2 | 14 0 {counted(4, 15)} | 4 live1 1018 1019"
    whole = f"20 0 | 14 new {counted(4, 15)} | 4 live1 1018 1019"
    part = f"20 2 | 8 0 {counted(4, 9)} | 6 new {counted(12, 15)} | 4 live1 1018 1019"
    least, taken = "6 2 | 4 0 1004 1005", "6 0 | 4 new 1004 1005"
    for call in FITS:
        for requests, arena, fields, after in ((range(5, 13), before, (4, 12), whole), ((3, 4), before, (12, 4), part),
                                               ((1, 2), least, (4, 2), taken)):
            for asked in requests:
                yield from granted_rows(call, 0, asked, arena, (*fields, 2) if call == ALLOC_NEXT else fields, after)


def freed_rows():
    """A block that is freed has no size any more; its header keeps the number where it is swallowed, or has a link."""
    before = f"20 2 | 4 0 1004 1005 | 10 live7 {counted(8, 15)} | 4 live1 1018 1019"
    swallowed = f"20 2 | 14 0 1004 1005 10 live7 {counted(8, 15)} | 4 live1 1018 1019"
    linked = f"20 2 | 4 16 1004 1005 | 10 live7 {counted(8, 15)} | 4 0 1018 1019"
    for block, asked, granted, after in ((8, 7, 8, swallowed), (18, 1, 2, linked)):
        yield sized(block, before, asked, granted)
        yield done(FREE, block, 0, before, (), after)
        yield refused(SIZE, block, 0, after, 3)


def refused_rows():
    """A call that is refused leaves the number as it was; a size that is refused answers two zeros."""
    before = f"20 0 | 14 live11 {counted(4, 15)} | 4 live1 1018 1019"
    for call, asked, code in ((RESIZE, 13, 8), (REALLOC, 13, 6), (RELOCATE, 1, 6), (RESIZE, 0, 4), (REALLOC, 17, 5)):
        yield refused(call, 4, asked, before, code)
        yield sized(4, before, 11, 12)
    for block in (0, 2, 3, 5, 6, 16, 20, 65540, MARK + 4, 2**32 - 1):
        yield refused(SIZE, block, 0, before, 3)
    for code, none in NO_ARENAS:
        yield refused(SIZE, 4, 0, none, code)


# Second words about their bounds, in chunks of several sizes and in several places.


def arena_around(size, below, above):
    """A sound arena with a chunk of this size between others, and where that chunk starts."""
    sizes = [*below, size, *above]
    *starts, length = accumulate(map(abs, sizes), initial=model.FIRST_CHUNK)
    arena = [1000 + at for at in range(length)]
    arenas.store_headers(arena, [arenas.Piece(start, abs(each), each > 0) for start, each in zip(starts, sizes)])
    return arena, starts[len(below)]


def with_word(arena, at, word):
    """The same arena with another word in one place."""
    return [*arena[:at], word, *arena[at + 1:]]


def asked_about(size):
    """Numbers of words asked for about their bounds, of a chunk of this size."""
    return sorted({0, 1, 2, size - 3, size - 2, size - 1, size, size + 1, 2 * size, 65537, 2**31 - 2, 2**31 - 1})


def judged_arenas():
    """Arenas whose chunk of some size has each of these numbers; with the block, its granted words, and the number."""
    places = [(size, *around) for size in SIZES for around in AROUND_LIVE] + [(LONGEST, [], [])]
    for size, below, above in places:
        arena, start = arena_around(size, below, above)
        for asked in asked_about(size):
            yield with_word(arena, start + 1, MARK + asked), start + model.HEADER, size - model.HEADER, asked


def free_arenas():
    """Sound arenas with a free chunk of some size, and where it starts."""
    yield from (arena_around(-size, *around) for size in SIZES for around in AROUND_FREE)


def misplaced_arenas():
    """Damaged arenas: with a word right below the mark, at it or above it where a free chunk or the list has a link.

    And with one right below the mark or at it where a live chunk has what was asked for.
    """
    for arena, start in free_arenas():
        for word in (MARK - 1, MARK, MARK + 1, MARK + arena[start] - model.HEADER, OLD_MARK):
            yield with_word(arena, start + 1, word)
            yield with_word(arena, 1, word)
    for size in SIZES:
        for around in AROUND_LIVE:
            arena, start = arena_around(size, *around)
            yield from (with_word(arena, start + 1, word) for word in (MARK - 1, MARK))


def damaged_rows(arena, block):
    """Every call that looks at the words of a damaged arena: all are refused, and a view is empty."""
    for call, fields in ((ALLOC, 2), (FREE, 0), (SIZE, 2), (REPORT, 4), *((call, 2) for call in TOGETHER)):
        yield Case(call, block, 1, arena), model.Answer(model.DAMAGED, (0,) * fields, [], arena)
    yield Case(ALLOC_NEXT, block, 1, arena), model.Answer(model.DAMAGED, (0, 0, block), [], arena)
    for call in (VIEW, VIEW_MUT):
        yield Case(call, block, 1, arena), model.Answer(model.DONE, (), [], arena)


def judged_rows():
    """The size and the view of a block where the number is one that can be, and every call where it is not."""
    for arena, block, granted, asked in judged_arenas():
        if not 1 <= asked <= granted:
            yield from damaged_rows(arena, block)
            continue
        yield Case(SIZE, block, 0, arena), model.Answer(model.DONE, (asked, granted), [], arena)
        yield Case(VIEW, block, 0, arena), model.Answer(model.DONE, (), arena[block:block + granted], arena)
    for arena in misplaced_arenas():
        yield from damaged_rows(arena, 4)


# Pictures.


def picture_rows(arena, code):
    """An arena that has this code: it is checked as bytes, written, and read."""
    spelled, shown = cases.packed(arena), pictures.picture_of(arena)
    other = [7] * len(arena)
    sound = code == model.DONE
    room = bytes(len(shown))
    yield picture_cases.Case(CHECK, spelled, []), pictures.Answer(code, 0, spelled, [])
    yield (picture_cases.Case(WRITE, room, arena),
           pictures.Answer(code, len(shown) if sound else 0, shown if sound else room, arena))
    yield picture_cases.Case(READ, shown, other), pictures.Answer(code, 0, shown, arena if sound else other)


def judged_picture_rows():
    """The same second words, seen by the check of bytes, the writing and the reading."""
    for arena, block, granted, asked in judged_arenas():
        yield from picture_rows(arena, model.DONE if 1 <= asked <= granted else model.DAMAGED)
    for arena, start in free_arenas():
        yield from picture_rows(arena, model.DONE)
    for arena in misplaced_arenas():
        yield from picture_rows(arena, model.DAMAGED)


# The older picture with a block, and its words, as they are now where two words were asked for.
NEW_SHOWN = HELD_SHOWN.replace(b"FFFFFFFF", b"80000002")
NEW_WORDS = [MARK + 2 if word == OLD_MARK else word for word in HELD_WORDS]


def old_picture_rows():
    """An old picture with a live chunk is refused, as bytes too; without one it is read, and written as it was."""
    lent = [7] * len(NEW_WORDS)
    yield picture_cases.Case(READ, HELD_SHOWN, lent), pictures.Answer(2, 0, HELD_SHOWN, lent)
    yield picture_cases.Case(READ, NEW_SHOWN, lent), pictures.Answer(0, 0, NEW_SHOWN, NEW_WORDS)
    yield from picture_rows(HELD_WORDS, model.DAMAGED)
    lent = [7] * len(BARE_WORDS)
    yield picture_cases.Case(READ, BARE_SHOWN, lent), pictures.Answer(0, 0, BARE_SHOWN, BARE_WORDS)
    room = b"." * len(BARE_SHOWN)
    yield picture_cases.Case(WRITE, room, BARE_WORDS), pictures.Answer(0, len(BARE_SHOWN), BARE_SHOWN, BARE_WORDS)


def as_before(arena, count):
    """An arena as it was before item 9: so many of its live chunks have the old mark."""
    old = list(arena.words)
    for piece in [piece for piece in arena.chunks if piece.live][:count]:
        old[piece.start + 1] = OLD_MARK
    return old


def random_old_rows(random, count):
    """Random arenas of which one block or all are as before item 9, and arenas without blocks."""
    for _ in range(count):
        arena = arenas.sound_arena(random, 2 * random.randrange(3, 100))
        blocks = sum(piece.live for piece in arena.chunks)
        for old in {1, blocks}:
            yield from picture_rows(as_before(arena, old), model.DAMAGED if blocks else model.DONE)


# Batches.


def batch_rows():
    """The run of requests in one list, and each of them by itself, on the words that those before it leave."""
    yield row(REQUESTS_BEFORE, REQUESTS, REQUESTS_AFTER)
    lent = model.Lent(words(REQUESTS_BEFORE))
    for (kind, b, n), answer in REQUESTS:
        before = list(lent.words)
        model.served(lent, kind, b, n)
        record = batches.Record(kind, b, n, 7001, 7002, 7003)
        answered = batches.Record(kind, b, n, *answer)
        yield batches.Case([record], [], before), batches.Answer([answered], [], list(lent.words))


# The comparison.


def compare_rows(chosen, random):
    """All rows through the model and the programs; gives how many there are of calls, pictures and batches."""
    by_hand = [*one_word_rows(), *given_up_rows(), *grown_rows(), *moved_rows(), *alloc_rows(), *freed_rows(),
               *refused_rows()]
    old = list(random_old_rows(random, min(chosen.count // 40, 300)))
    return (run_rows(chosen.cases, by_hand), run_rows(chosen.cases, list(judged_rows())),
            run_rows(chosen.picture_cases, [*judged_picture_rows(), *old_picture_rows(), *old], picture_cases),
            run_rows(chosen.batch_cases, list(batch_rows()), batches))


def compare_runs(chosen, random):
    """A run for each length; gives what was met, how many calls these were, and how many of them sizes."""
    lessons = [Asking(random, length) for length in LENGTHS]
    count = min(TURNS, max(chosen.count // len(LENGTHS) // CALLS_IN_TURN, 1))
    turns = [turn for lesson in lessons for turn in lesson.turns(count)]
    sizes = compare_turns(chosen.cases, chosen.picture_cases, turns)
    met = sum((lesson.met for lesson in lessons), Counter())
    return met + Counter({"calls": sum(len(turn.asked) for turn in turns), "sizes": sizes, "runs": len(lessons)})


def compare(chosen):
    """Rows, then runs; the last line counts them."""
    random = Random(chosen.seed)
    calls, judged, shown, batched = compare_rows(chosen, random)
    met = driver.met_in_rounds(lambda: compare_runs(chosen, random), "calls", chosen.count)
    if chosen.count >= CALLS:
        driver.check_met(met, WANTED, 3, "calls")
    told = f"{calls} rows by hand, {judged:,} of second words, {shown:,} of pictures and {batched} of batches compared"
    return f"{told}; {met['calls']:,} calls in {met['runs']} runs, {met['sizes']:,} of them sizes by the ledger"


if __name__ == "__main__":
    programs = ("cases", "picture_cases", "batch_cases")
    driver.finish("test_asked", compare, driver.options(__doc__, CALLS, named=programs))
