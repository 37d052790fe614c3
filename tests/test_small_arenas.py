"""Holds grants, frees, sizes and reports on arenas of up to 26 words to the model: all lists, blocks and requests.

Each list of chunks that fills an arena of such a length comes once, with its other words filled in one way, and each
block has one word more than was asked for. With 26 words eight can be split off between two free chunks, before a live
one: free 4, live 12, live 4, free 4. Where there are two free chunks or three, next fit is asked with every rover up to
two words above the end.
"""

from support import arenas, cases, driver, model
from support.comparing import run_cases

LONGEST = 26

# In arenas of up to so many words next fit is asked with every rover where there is a single free chunk, too.
EVERY_ROVER = 16

# More calls than there are on all these arenas: with a smaller --count it ends with a shorter length.
ALL = 10**6


def layouts(start, length, after_free):
    """Every way to fill the words from `start` on with chunks, no two free ones side by side."""
    if start == length:
        yield []
    for size in range(model.LEAST_CHUNK, length - start + 1, 2):
        for live in (True,) if after_free else (True, False):
            for rest in layouts(start + size, length, not live):
                yield [arenas.Piece(start, size, live), *rest]


def next_cases_on(words, gaps):
    """Next fit on an arena with free chunks of these sizes: each need that one of them has, with every rover."""
    if len(gaps) > 1 or len(words) <= EVERY_ROVER:
        for asked in range(1, max(gaps, default=0) - model.HEADER, 2):
            for rover in range(len(words) + 3):
                yield cases.Case(cases.ALLOC_NEXT, rover, asked, words)


def cases_on(length, pieces):
    """On an arena of these chunks: a report, a free and the size of each, and every request from 0 to one too large.

    The requests are made of the arena, of which the fits have the number asked for as the rover, and of each of its
    chunks, the free ones too.
    """
    words = [1000 + at for at in range(length)]
    arenas.store_headers(words, pieces, lambda piece: arenas.granted_in(piece) - 1)
    yield from next_cases_on(words, [piece.size for piece in pieces if not piece.live])
    for asked in range(length - 2):
        yield from (cases.Case(call, asked, asked, words) for call in cases.FITS)
        for piece in pieces:
            for call in cases.TOGETHER:
                yield cases.Case(call, piece.start + model.HEADER, asked, words)
    for piece in pieces:
        yield from (cases.Case(call, piece.start + model.HEADER, 0, words) for call in (cases.FREE, cases.SIZE))
    yield cases.Case(cases.REPORT, 0, 0, words)


def compare(chosen):
    """All lists of chunks for one length are run at once; the last line counts calls and lists."""
    list_count = call_count = 0
    for length in range(model.LEAST_ARENA, LONGEST + 1, 2):
        filled = list(layouts(model.FIRST_CHUNK, length, False))
        asked = [case for pieces in filled for case in cases_on(length, pieces)]
        run_cases(chosen.cases, asked, [cases.answer_to(case) for case in asked])
        list_count += len(filled)
        call_count += len(asked)
        if call_count >= chosen.count:
            break
    if length < LONGEST and chosen.count == ALL:
        raise driver.Difference(f"the calls on up to {length} words are as many as were to be made for all lengths")
    told = f"{list_count} lists of chunks, every one that fills up to {length} words"
    return f"{call_count:,} calls on {told}, compared with all their words"


if __name__ == "__main__":
    driver.finish("test_small_arenas", compare, driver.options(__doc__, ALL, named=("cases",)))
