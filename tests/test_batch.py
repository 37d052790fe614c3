"""Holds batches of requests to the model, and to the same requests made singly: all records and all words."""

import os
from collections import Counter
from random import Random

from support import arenas, batches, c_programs, cases, driver, model, pictures, programs
from support.batches import ALLOC, FREE, REALLOC, RELOCATE, RESIZE, SIZE, Answer, Case, Record
from support.comparing import compare_own_cases, run_cases, run_rows
from test_call_rows import NO_ARENAS, SHORT_GAP, counted, words
from test_damaged_arenas import asked_for, block_for

BATCHES = 3000
AT_ONCE = 250

# A random list has up to so many records; so many lists with at least so many are cut in two at every place.
LONGEST = 60
CUT = 20
LEAST_CUT = 40

# The lab so often one after the other, so that its records cannot be counted in one byte, or in two.
ROUNDS = 7
MANY_ROUNDS = 1650

# Numbers of no kind, some of which are like a kind's in their lowest bits.
NO_KINDS = [0, 7, 8, 11, 12, 255, 256, 257, 258, 261, 2**16 + 2, 2**24 + 6, 2**31 + 3, 2**32 - 2, 2**32 - 1]

# What a number that is not used can hold, blocks' numbers among others; and what an answer held before.
UNUSED = [0, 4, 14, 2**32 - 1]
OLD_ANSWER = (7001, 7002, 7003)

# Lengths that no arena has.
UNLAWFUL = [0, 2, 5, 7, 16386]

# Which kinds do not use b, and which do not use n.
WITHOUT_B = [ALLOC]
WITHOUT_N = [FREE, SIZE]

# A lab of forty requests on a started arena of 64 words: what each asks, kind, b and n, and its code, block and granted
# words, worked out by hand; a size has the words asked for in the place of the block. The chunks are as the comment
# behind each change has them, the live ones in brackets; where words are over, it says what becomes of them.
LAB_BEFORE = f"64 2 | 62 0 {counted(4, 63)}"
LAB = [
    ((ALLOC, 0, 10), (0, 54, 10)),          # 50 [12]
    ((ALLOC, 54, 7), (0, 44, 8)),           # 40 [10] [12]
    ((SIZE, 54, 0), (0, 10, 10)),
    ((ALLOC, 2**32 - 1, 0), (4, 0, 0)),
    ((ALLOC, 0, 61), (5, 0, 0)),
    ((ALLOC, 0, 60), (6, 0, 0)),
    ((0, 54, 10), (7, 0, 0)),
    ((FREE, 54, 2**32 - 1), (0, 0, 0)),     # 40 [10] 12
    ((SIZE, 54, 0), (3, 0, 0)),
    ((FREE, 54, 0), (3, 0, 0)),
    ((RESIZE, 44, 12), (0, 44, 12)),        # 40 [14] 8: eight over stay free
    ((RESIZE, 44, 20), (0, 44, 20)),        # 40 [22]
    ((RESIZE, 44, 21), (8, 0, 0)),
    ((REALLOC, 44, 21), (0, 20, 22)),       # 16 [24] 22
    ((7, 20, 4), (7, 0, 0)),
    ((RELOCATE, 20, 4), (0, 14, 4)),        # 10 [6] 46
    ((ALLOC, 0, 1), (0, 4, 8)),             # [10] [6] 46: six over are granted
    ((ALLOC, 0, 3), (0, 60, 4)),            # [10] [6] 40 [6]
    ((ALLOC, 0, 40), (6, 0, 0)),
    ((REALLOC, 60, 0), (4, 0, 0)),
    ((REALLOC, 61, 5), (3, 0, 0)),
    ((REALLOC, 60, 61), (5, 0, 0)),
    ((REALLOC, 60, 39), (6, 0, 0)),
    ((REALLOC, 60, 38), (0, 20, 38)),       # [10] [6] [40] 6
    ((RESIZE, 20, 36), (0, 20, 36)),        # [10] [6] [38] 8: two over go to the free chunk
    ((SIZE, 20, 2**32 - 1), (0, 36, 36)),
    ((2**32 - 1, 20, 36), (7, 0, 0)),
    ((RELOCATE, 14, 2), (0, 58, 6)),        # [10] 6 [38] [8]: four over are granted
    ((RELOCATE, 58, 6), (6, 0, 0)),
    ((ALLOC, 20, 2), (0, 14, 4)),           # [10] [6] [38] [8]: two over are granted, with a chunk of six
    ((ALLOC, 0, 1), (6, 0, 0)),
    ((RESIZE, 20, 30), (0, 20, 36)),        # [10] [6] [38] [8]: six over are kept
    ((RESIZE, 20, 28), (0, 20, 28)),        # [10] [6] [30] 8 [8]: eight over are cut off
    ((RESIZE, 20, 38), (8, 0, 0)),
    ((REALLOC, 20, 29), (0, 20, 36)),       # [10] [6] [38] [8]: six over are granted
    ((FREE, 14, 0), (0, 0, 0)),             # [10] 6 [38] [8]
    ((FREE, 20, 20), (0, 0, 0)),            # [10] 44 [8]
    ((SIZE, 20, 0), (3, 0, 0)),
    ((ALLOC, 0, 34), (0, 22, 34)),          # [10] 8 [36] [8]: eight over stay free
    ((SIZE, 4, 0), (0, 1, 8)),
]
LAB_AFTER = (f"64 12 | 10 live1 {counted(4, 11)}"
             f" | 8 0 {counted(44, 47)} 38 live29"
             f" | 36 live 1062 1063 {counted(48, 51)} 12 0 1054 1055 8 0 {counted(58, 63)}"
             f"   1040 1041 22 0 {counted(44, 47)} 8 0 1050 1051 12 0 1054 1055"
             f" | 8 live2 {counted(44, 47)} 1062 1063")

# What a run must have met to mean anything: every kind with every code that it can give.
CODES = {"alloc": (0, 1, 2, 4, 5, 6), "free": (0, 1, 2, 3), "realloc": (0, 1, 2, 3, 4, 5, 6),
         "resize": (0, 1, 2, 3, 4, 5, 8), "relocate": (0, 1, 2, 3, 4, 5, 6), "size": (0, 1, 2, 3), "another": (7,)}

# And unknown kinds on arenas of each code, requests that are done after one refused for each reason, every number that
# is not used as the greatest there is, and lists of every length, with every number of words over.
UNKNOWN = [("unknown on", code) for code in (0, 1, 2)]
WENT_ON = [("done after", code) for code in (3, 4, 5, 6, 7, 8)]
IGNORED = [("ignored", name) for name in ("alloc", "free", "size")]
LENGTHS = [("records", count) for count in range(LONGEST + 1)]
OVER = [("words over", count) for count in range(batches.RECORD_WORDS)]


# Rows by hand.


def row(before, requests, after):
    """A row: the words before, what each request asks and its answer, and the words after.

    What is `new` there was asked for by the last request.
    """
    asked = [Record(*request, *OLD_ANSWER) for request, answer in requests]
    answered = [Record(*request, *answer) for request, answer in requests]
    last = asked[-1].n if asked else 0
    return Case(asked, [], words(before)), Answer(answered, [], words(after, last))


def lab_row():
    """The lab of forty requests."""
    return row(LAB_BEFORE, LAB, LAB_AFTER)


def single_rows(before, request, answer, after):
    """Rows of one request, each with other numbers where it does not use its own: an unknown kind uses none."""
    kind, b, n = request
    unknown = kind not in batches.NAMES
    for each_b in UNUSED if unknown or kind in WITHOUT_B else [b]:
        for each_n in UNUSED if unknown or kind in WITHOUT_N else [n]:
            yield row(before, [((kind, each_b, each_n), answer)], after)


def done_rows():
    """Lists of one request that is done, for each kind."""
    granted = "16 0 | 6 live3 1004 1005 1006 1007 | 4 new 1010 1011 | 4 live 1014 1015"
    freed = "16 2 | 10 0 1004 1005 1006 1007 4 0 1010 1011 | 4 live 1014 1015"
    grown = "16 0 | 10 new 1004 1005 1006 1007 4 0 1010 1011 | 4 live 1014 1015"
    cut = "16 6 | 4 new 1004 1005 | 6 0 4 0 1010 1011 | 4 live 1014 1015"
    moved = "16 2 | 6 0 1004 1005 1006 1007 | 4 new 1004 1005 | 4 live 1014 1015"
    for request, answer, after in (((ALLOC, 0, 2), (0, 10, 2), granted), ((FREE, 4, 0), (0, 0, 0), freed),
                                   ((REALLOC, 4, 6), (0, 4, 8), grown), ((RESIZE, 4, 2), (0, 4, 2), cut),
                                   ((RELOCATE, 4, 2), (0, 10, 2), moved), ((SIZE, 4, 0), (0, 3, 4), SHORT_GAP)):
        yield from single_rows(SHORT_GAP, request, answer, after)


def refused_requests():
    """What is refused on a sound arena, and with which code: each kind for each reason that it can have there."""
    yield from (((ALLOC, 0, n), code) for n, code in ((0, 4), (13, 5), (2**32 - 1, 5), (3, 6), (12, 6)))
    for kind in (FREE, SIZE):
        yield from (((kind, b, 0), 3) for b in (0, 2, 10, 16, 65540, 2**32 - 1))
    for kind, last in ((REALLOC, 6), (RESIZE, 8), (RELOCATE, 6)):
        yield from (((kind, b, n), 3) for b in (0, 10, 2**32 - 1) for n in (0, 4, 13))
        yield from (((kind, 4, n), code) for n, code in ((0, 4), (13, 5), (2**32 - 1, 5), (9, last), (12, last)))
    yield from (((kind, 4, 2), 7) for kind in NO_KINDS)


def refused_rows():
    """Lists of one request that is refused: for its own reasons or, unless its kind is unknown, the arena's."""
    for request, code in refused_requests():
        yield from single_rows(SHORT_GAP, request, (code, 0, 0), SHORT_GAP)
    for code, before in NO_ARENAS:
        for kind in batches.NAMES:
            yield from single_rows(before, (kind, 4, 2), (code, 0, 0), before)
        for kind in NO_KINDS:
            yield from single_rows(before, (kind, 4, 2), (model.FRAME, 0, 0), before)


def list_rows():
    """The lab of forty requests, and lists that change nothing: empty ones, and whole lists of unknown kinds."""
    yield lab_row()
    unknown = [((kind, 4, 2), (model.FRAME, 0, 0)) for kind in NO_KINDS]
    for before in (LAB_BEFORE, SHORT_GAP, *(none for code, none in NO_ARENAS)):
        yield row(before, [], before)
        yield row(before, unknown, before)


# Random batches.


def pieces_now(lent, before):
    """The chunks of an arena as it is now; those that it was made of, where it is not sound."""
    try:
        live, gaps = lent.chunks()
    except model.Refused:
        return before
    return sorted([arenas.Piece(*chunk, True) for chunk in live] + [arenas.Piece(*gap, False) for gap in gaps])


def random_record(random, arena):
    """A request whose numbers suit this arena; what it does not use, and its old answer, are any numbers."""
    kind = random.choice([ALLOC] * 4 + [FREE] * 2 + [REALLOC, RESIZE, RELOCATE] * 3 + [SIZE] * 2 + [0])
    b, n, *old = [random.choice([0, 4, 2**32 - 1, random.getrandbits(32)]) for _ in range(5)]
    if kind not in WITHOUT_B:
        b = block_for(random, arena)
    if kind not in WITHOUT_N:
        n = asked_for(random, arena)
    return Record(kind or random.choice(NO_KINDS), b, n, *old)


def random_records(random, arena, count):
    """So many records; the numbers of each suit the arena as those before it left it."""
    lent = model.Lent(list(arena.words))
    records = []
    for _ in range(count):
        record = random_record(random, arenas.Arena(lent.words, pieces_now(lent, arena.chunks)))
        model.served(lent, *batches.asked_in(record))
        records.append(record)
    return records


def started_arena(random, length):
    """An arena of this lawful length that was started over words of any kind."""
    lent = model.Lent(arenas.some_words(random, length, length))
    model.start(lent)
    return arenas.Arena(lent.words, [arenas.Piece(model.FIRST_CHUNK, length - model.FIRST_CHUNK, False)])


def arena_for(random, number):
    """An arena for a batch: just started, long, of a length that no arena has, sound or damaged."""
    if number % 5 == 0:
        return started_arena(random, 2 * random.randrange(3, 100))
    if number % 50 == 1:
        return arenas.long_arena(random)
    if number % 20 == 2:
        return arenas.any_arena(random, UNLAWFUL[number // 20 % len(UNLAWFUL)])
    return arenas.arena_for(random, number)


def random_case(random, number):
    """A batch of up to sixty requests on such an arena, with any words left over behind its records."""
    arena = arena_for(random, number)
    over = [random.choice([0, ALLOC, FREE, 2**32 - 1]) for _ in range(random.randrange(batches.RECORD_WORDS))]
    return Case(random_records(random, arena, number % (LONGEST + 1)), over, arena.words)


def unfinished(random, number, longest):
    """Bytes after the last case that are no case: nothing, a case cut short, or one longer than a program takes."""
    whole = batches.case_bytes(lab_row()[0])
    listed, length = longest + 1, batches.LONGEST_ARENA + 1
    too_long = [cases.packed([listed, 0]) + bytes(4 * listed), cases.packed([0, length]) + bytes(4 * length)]
    too_long += [cases.packed(lengths) for lengths in ([2**31, 0], [2**32 - 1, 0], [0, 2**30], [0, 2**32 - 1])]
    kinds = cases.cut_short(random, whole, batches.CASE_HEAD) + [start + whole for start in too_long]
    return kinds[number % len(kinds)]


def met_by(case, answer):
    """What this batch shows, for the count of what was met."""
    yield "records", len(case.records)
    yield "words over", len(case.over)
    refused = set()
    for record in answer.records:
        name = batches.NAMES.get(record.kind, "another")
        yield name, "code", record.code
        if name == "another":
            yield "unknown on", pictures.judged(case.words)
        if record.code != model.DONE:
            refused.add(record.code)
            continue
        yield from (("done after", code) for code in refused)
        unused = record.b if record.kind in WITHOUT_B else record.n if record.kind in WITHOUT_N else 0
        if unused == 2**32 - 1:
            yield "ignored", name


def wanted():
    """What a run has to meet: codes, unknown kinds, refusals that stop nothing, unused numbers, lists of any length."""
    codes = [(name, "code", code) for name, codes in CODES.items() for code in codes]
    return [*codes, *UNKNOWN, *WENT_ON, *IGNORED, *LENGTHS, *OVER]


# The comparison.


def compare_random(command, random, count, longest):
    """So many random batches, some of them at once, for a program that takes so long lists; gives what was met."""
    met = Counter()
    for done in range(0, count, AT_ONCE):
        asked = [random_case(random, number) for number in range(done, min(done + AT_ONCE, count))]
        answers = list(map(batches.answer_to, asked))
        run_cases(command, asked, answers, unfinished(random, done // AT_ONCE, longest), batches)
        for case, answer in zip(asked, answers):
            met.update(met_by(case, answer))
    return met


def replies_to(command, asked):
    """What the program replies to these batches, each of them held to the model."""
    got = run_cases(command, asked, list(map(batches.answer_to, asked)), form=batches)
    return batches.replies_in(asked, got)


def compare_cuts(command, random):
    """The lab and others, each cut in two at every place: the rest is asked on the arena that the program left.

    Gives how many cuts were made.
    """
    whole = [lab_row()[0]]
    whole += [random_case(random, number) for number in range(LEAST_CUT, LEAST_CUT + CUT)]
    cuts = [(number, at) for number, case in enumerate(whole) for at in range(len(case.records) + 1)]
    first = replies_to(command, [Case(whole[number].records[:at], [], whole[number].words) for number, at in cuts])
    rest = [whole[number]._replace(records=whole[number].records[at:], words=reply.words)
            for (number, at), reply in zip(cuts, first)]
    second = replies_to(command, rest)
    uncut = replies_to(command, whole)
    for (number, at), begun, ended in zip(cuts, first, second):
        if ended._replace(records=begun.records + ended.records) != uncut[number]:
            told = batches.told_of(whole[number])
            raise driver.Difference(f"{told} comes to something else where it is cut in two after {at} records")
    return len(cuts)


def compare_long(command, rounds):
    """The lab so often in one list; gives how many requests that are."""
    case, answer = lab_row()
    replies_to(command, [case._replace(records=case.records * rounds)])
    return rounds * len(LAB)


def compare_program(command, chosen, rounds, longest):
    """Rows by hand, a long list, batches cut in two, random batches; gives a line that counts them."""
    random = Random(chosen.seed)
    rows = run_rows(command, [*list_rows(), *done_rows(), *refused_rows()], batches)
    in_one = compare_long(command, rounds)
    cuts = compare_cuts(command, random)
    met = compare_random(command, random, chosen.count, longest)
    if chosen.count >= BATCHES:
        driver.check_met(met, wanted(), 10, "batches")
    requests = sum(count for what, count in met.items() if what[1] == "code")
    told = f"{requests:,} requests in {chosen.count:,} batches compared with all records and words"
    return f"{told}; {rows:,} lists by hand, one of {in_one:,} requests, and {cuts:,} cuts of a batch in two"


def compare_from_c(chosen):
    """All of that through the C program, which makes each request singly, too; few batches go with a shorter list."""
    source = os.path.join(chosen.root, "tests", "support", "c_batch.c")
    try:
        command = c_programs.build("c_batch", "c99", source, chosen.root)
    except c_programs.NotHere as told:
        return f"nothing from C{c_programs.skipped([str(told)])}"
    rounds = MANY_ROUNDS if chosen.count >= BATCHES else ROUNDS
    compare_program(command, chosen, rounds, batches.LONGEST_LIST_IN_C)
    return "from C each batch was the same requests made singly, in lists of records"


def compare(chosen):
    """All of that from C, and then through the program whose records are plain words."""
    from_c = compare_from_c(chosen)
    told = compare_program(chosen.batch_cases, chosen, ROUNDS, batches.LONGEST_LIST)
    own = compare_own_cases("batch_cases", batches)
    return f"{told}; {own} cases of the program's own; {from_c}"


if __name__ == "__main__":
    driver.finish("test_batch", compare, driver.options(__doc__, BATCHES, named=("batch_cases",), root=programs.ROOT))
