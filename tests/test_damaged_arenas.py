"""Holds every call on random arenas, sound, spoiled and of any words, to the model: answers and all words."""

from collections import Counter
from random import Random

from support import arenas, cases, driver, fits, model, over
from support.comparing import run_cases
from support.pupil import way

CALLS = 170000
AT_ONCE = 4000
BATCHES = 10
BIG = [0, 1, 2, 65536, 65540, 2**31 - 1, 2**31, 2**32 - 4, 2**32 - 3, 2**32 - 2, 2**32 - 1]

# Numbers of no call, some of which are like a call's in their lowest bits.
NO_CALLS = [0, 13, 14, 257, 258, 265, 266, 267, 268, 2**16 + 2, 2**16 + 12, 2**31 + 3, 2**32 - 1]

# What a run must have met to mean anything: every call with every code that it can give.
CODES = {"start": (0, 1), "alloc": (0, 1, 2, 4, 5, 6), "free": (0, 1, 2, 3), "realloc": (0, 1, 2, 3, 4, 5, 6),
         "report": (0, 1, 2), "size": (0, 1, 2, 3), "view": (0,), "view_mut": (0,), "another": (7,),
         "resize": (0, 1, 2, 3, 4, 5, 8), "relocate": (0, 1, 2, 3, 4, 5, 6), "alloc_best": (0, 1, 2, 4, 5, 6),
         "alloc_next": (0, 1, 2, 4, 5, 6)}
PARTS = ("view empty", "view whole", "view_mut empty", "view_mut whole")

# And every way to be done, with the change it makes in the number of free chunks.
WAYS = {"alloc": (-1, 0), "alloc_best": (-1, 0), "alloc_next": (-1, 0), "free": (-1, 0, 1),
        "realloc kept": (0,), "realloc cut": (0, 1), "realloc grown": (-1, 0), "realloc moved": (-2, -1, 0, 1),
        "resize kept": (0,), "resize cut": (0, 1), "resize grown": (-1, 0),
        "relocate longer": (-2, -1, 0, 1), "relocate shorter": (-2, -1, 0, 1), "relocate equal": (-2, -1, 0, 1)}

# And for a move every place of the gap that it takes, seen from the old block, and how much of it is taken.
GAPS = [(place, much) for place in ("right below", "right above", "elsewhere") for much in ("whole", "in part")]

# And how many words it copies, by the bits of that number: from 2 words to 1,024 and more.
COPIED = [("words copied", bits) for bits in range(2, 12)]


def block_for(random, arena):
    """A block's number: mostly a true one, else a gap's, an imitation's, one beside these, or any number."""
    length = len(arena.words)
    kind = random.random()
    if arena.chunks and kind < 0.85:
        live = [piece for piece in arena.chunks if piece.live and kind < 0.7]
        block = random.choice(live or arena.chunks).start + 2
        return block if kind < 0.79 else max(block + random.choice([-4, -2, -1, 1, 2, 4, 65536, 2**31]), 0)
    imitated = [at + 2 for at in range(2, length - 1) if arena.words[at + 1] >= model.LIVE_MARK]
    if imitated and kind < 0.95:
        return random.choice(imitated)
    return random.choice(BIG + [3, 4, 5, length, length + 2, random.getrandbits(32), random.randrange(length + 3)])


def request_leaving_few(random, words):
    """A request that leaves none to twelve of so many words over, a header counted."""
    most = words - model.HEADER
    return random.randint(max(most - 13, 1), most)


def asked_for(random, arena):
    """A number of words: near what the chunks have, near the limit, small, or any number."""
    length = len(arena.words)
    kind = random.random()
    gaps = [piece.size for piece in arena.chunks if not piece.live]
    if gaps and kind < 0.3:
        return request_leaving_few(random, random.choice(gaps))
    if arena.chunks and kind < 0.6:
        place = random.randrange(len(arena.chunks))
        together = sum(piece.size for piece in arena.chunks[place:place + random.choice([1, 1, 2])])
        return max(together - 2 + random.randint(-7, 4), 0)
    if kind < 0.8:
        return random.randint(1, 12)
    return random.choice(BIG + [max(length - 4 + change, 0) for change in (-2, -1, 0, 1, 2)] + [random.getrandbits(32)])


def asked_for_block(random, arena, block):
    """A number of words for this block: near what it has, or has with the chunk after it, or as for any other."""
    places = [at for at, piece in enumerate(arena.chunks) if piece.start + model.HEADER == block]
    if not places or random.random() < 0.5:
        return asked_for(random, arena)
    together = arena.chunks[places[0]:places[0] + random.choice([1, 1, 2])]
    return request_leaving_few(random, sum(piece.size for piece in together))


def cases_for(random, number):
    """A call with its numbers and its arena, or three calls together."""
    arena = arenas.arena_for(random, number)
    call = random.choice([cases.START, cases.REPORT, cases.SIZE, cases.VIEW, cases.VIEW_MUT, 0]
                         + [cases.ALLOC] * 2 + [cases.FREE] * 3 + [cases.REALLOC] * 6)
    return cases_on(random, arena, call or random.choice(NO_CALLS))


def fits_on(random, arena):
    """The three fits on this arena, with some rover and request."""
    rover = fits.rover_for(random, len(arena.words), [piece.start for piece in arena.chunks])
    asked = asked_for(random, arena)
    return [cases.Case(call, rover, asked, arena.words) for call in cases.FITS]


def cases_on(random, arena, call):
    """The call on this arena with some numbers; a realloc comes together with the two calls that it is made of.

    An alloc comes together with the two other fits.
    """
    if call == cases.ALLOC:
        return fits_on(random, arena)
    block = block_for(random, arena)
    asked = asked_for_block(random, arena, block)
    calls = cases.TOGETHER if call == cases.REALLOC else [call]
    return [cases.Case(each, block, asked, arena.words) for each in calls]


def short_cases(random, count):
    """The fits, and three calls for each block, on so many arenas of short blocks and gaps: few words are over."""
    for _ in range(count):
        arena = arenas.short_arena(random)
        yield from fits_on(random, arena)
        for block in [piece.start + model.HEADER for piece in arena.chunks if piece.live]:
            asked = asked_for_block(random, arena, block)
            yield from (cases.Case(call, block, asked, arena.words) for call in cases.TOGETHER)


def gapped_cases(random, count):
    """The fits, with two requests and two rovers, on so many arenas of several gaps, where they often part."""
    for _ in range(count):
        arena = arenas.gapped_arena(random)
        for _ in range(2):
            yield from fits_on(random, arena)


def long_cases(random, count):
    """The fits, three calls and a report on so many arenas of long blocks and gaps: some move thousands of words."""
    for _ in range(count):
        arena = arenas.long_arena(random)
        yield from fits_on(random, arena)
        yield from cases_on(random, arena, cases.REALLOC)
        yield cases.Case(cases.REPORT, 0, 0, arena.words)


def full_cases(random):
    """Every call on arenas with as many chunks as there can be, for the first block, the last and others."""
    for arena in (arenas.full_arena(False), arenas.full_arena(True)):
        live = [piece for piece in arena.chunks if piece.live]
        for asked, piece in enumerate([live[0], live[-1], *random.sample(live, 4)], 1):
            for call in cases.CALLS:
                yield cases.Case(call, piece.start + 2, asked, arena.words)


def way_of(case, answer):
    """How a call that was done was done: its name, and what became of the block if it was to have another length."""
    name = cases.name_of(case.call)
    if case.call not in cases.TOGETHER:
        return name
    old_granted = case.words[case.block - model.HEADER] - model.HEADER
    block, granted = answer.fields
    if case.call == cases.RELOCATE:
        return f"{name} {'longer' if granted > old_granted else 'shorter' if granted < old_granted else 'equal'}"
    return f"{name} {way(case.block, old_granted, block, granted)}"


def gap_taken(case, answer, gaps):
    """Which of the gaps a move took, seen from the old block, and how much of it."""
    block, granted = answer.fields
    start = case.block - model.HEADER
    end = start + case.words[start]
    gap, room = over.gap_around(block, gaps)
    place = "right below" if gap + room == start else "right above" if gap == end else "elsewhere"
    return place, "whole" if room == granted + model.HEADER else "in part"


def words_copied(case, answer):
    """How many words a move copied: as many as the shorter of the two blocks has."""
    return min(case.words[case.block - model.HEADER] - model.HEADER, answer.fields[1])


def met_by(case, answer):
    """What this case shows, for the count of what was met."""
    name = cases.name_of(case.call) if case.call in cases.CALLS else "another"
    yield name, "code", answer.code
    if case.call in (cases.VIEW, cases.VIEW_MUT):
        yield f"{name} {'whole' if answer.part else 'empty'}"
    if case.call in (*cases.FITS, cases.FREE, *cases.TOGETHER) and answer.code == model.DONE:
        yield from met_by_done(case, answer)


def met_by_done(case, answer):
    """What a call that was done and can change the chunks shows besides."""
    gaps, gaps_after = [model.live_and_gaps(words)[1] for words in (case.words, answer.words)]
    yield way_of(case, answer), "free chunks", len(gaps_after) - len(gaps)
    if case.call != cases.FREE:
        yield from over.over_in(case, answer, gaps)
    if case.call == cases.RELOCATE:
        yield gap_taken(case, answer, gaps)
        yield "words copied", words_copied(case, answer).bit_length()


def met_together(asked, answers):
    """The codes of each three calls that were asked together, and what the fits show besides."""
    for at in cases.asked_together(asked, cases.TOGETHER):
        yield "together", tuple(answer.code for answer in answers[at:at + 3])
    for at in cases.asked_together(asked, cases.FITS):
        yield from fits.met_by(asked[at], answers[at:at + 3])


def unfinished(random, number):
    """Bytes after the last case that are no case: nothing, a case cut short, or one longer than is allowed."""
    whole = cases.case_bytes(cases_for(random, 12)[0])
    too_long = [cases.packed([cases.REPORT, 0, 0, length]) for length in (16401, 2**30, 2**31, 2**32 - 1)]
    kinds = cases.cut_short(random, whole, 16) + [start + bytes(4 * 16401) + whole for start in too_long]
    return kinds[number % len(kinds)]


def wanted():
    """What a run has to meet: codes of one call and of three together, ways to be done, words over, gaps taken, views.

    How many words are over, and where, is told in over.py; what the three fits have to show, in fits.py.
    """
    codes = [(name, "code", code) for name, codes in CODES.items() for code in codes]
    ways = [(way, "free chunks", change) for way, changes in WAYS.items() for change in changes]
    together = [("together", codes) for codes in cases.CODES_TOGETHER]
    return [*codes, *ways, *together, *over.WANTED, *fits.WANTED, *GAPS, *COPIED, *PARTS]


def compare(chosen):
    """Batches of cases, each run at once; the last line counts calls."""
    random = Random(chosen.seed)
    met = Counter()
    done = 0
    batch = 0
    while done < chosen.count or batch < BATCHES:
        numbers = range(done, done + min(AT_ONCE, max(chosen.count // BATCHES, 1)))
        asked = [case for number in numbers for case in cases_for(random, number)]
        asked += full_cases(random) if batch == BATCHES - 1 else []
        asked += short_cases(random, len(numbers) // 15)
        asked += gapped_cases(random, len(numbers) // 20)
        asked += long_cases(random, len(numbers) // 45)
        answers = [cases.answer_to(case) for case in asked]
        run_cases(chosen.cases, asked, answers, unfinished(random, batch))
        for case, answer in zip(asked, answers):
            met.update(met_by(case, answer))
        met.update(met_together(asked, answers))
        done += len(asked)
        batch += 1
    if chosen.count >= CALLS:
        driver.check_met(met, wanted(), 10, "cases")
    refused = sum(count for what, count in met.items() if what[1] == "code" and what[2] != model.DONE)
    return f"{done:,} calls compared with all their words; {refused:,} of them were refused"


if __name__ == "__main__":
    driver.finish("test_damaged_arenas", compare, driver.options(__doc__, CALLS, named=("cases",)))
