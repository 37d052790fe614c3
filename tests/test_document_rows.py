"""Holds the programs and the model to document 01's rows, as items 6 and 9 of document 02 leave them, written out here.

Item 9 changes no line: what was asked for stands in the words, and in what size answers.
"""

from support import cases, driver, lines, model, programs
from support.cases import Case
from support.comparing import compare_own_cases, compare_replies, run_lines, run_rows

# The second words of live chunks for which two words were asked, and six.
TWO, SIX = model.LIVE_MARK + 2, model.LIVE_MARK + 6

# "A whole run": input on the left, output on the right. From 02000A on the replies are those of item 6 of document 02,
# worked out again by hand: the six words that this request leaves over are granted with it, and so block 10 never is.
WHOLE_RUN = """
010020      0100
020005      0200001A0006
020001      020000160002
02000A      020000040010
05          05000000000000030000
030016      0300
030016      0303
020004      020600000000
04000A000D  040300000000
05          05000004000200020001
020001      020000160002
04001A0007  040600000000
03000A      0303
02000B      020600000000
02001D      020500000000
020000      020400000000
0Z          0007
"""

# "More, run and compared", as far as lines show it: the lengths, six words, and the move.
LENGTHS = "010004 0101 014002 0101 010006 0100 014000 0100"
SIX_WORDS = "010006 0100 020003 020500000000 020002 020000040002 020003 020500000000"
THE_MOVE = "010020 0100 020002 0200001E0002 020002 0200001A0002 04001A0006 040000120006 05 05000012000C00020002"


def check_own_files():
    """The programs' own input and output, which the gate runs besides: the whole run, and cases with true answers."""
    text, expected = line_rows(WHOLE_RUN)
    if programs.own_files("board") != (text, expected):
        raise driver.Difference("the own files of board are not the whole run")
    return compare_own_cases("cases", cases)


def line_rows(table):
    """The input and the output of a table whose words are line and reply in turn."""
    words = table.encode().split()
    return b"".join(b"%s\n" % line for line in words[0::2]), b"".join(b"%s\n" % reply for reply in words[1::2])


def arena(length, *stores):
    """An arena whose words are 1000 more than their numbers, but for the words stored: pairs of number and word."""
    words = [1000 + at for at in range(length)]
    for at, word in stores:
        words[at] = word
    return words


def answer(code, fields, words):
    """An answer as the document has it; these calls hand back no part."""
    return model.Answer(code, fields, [], words)


def length_cases():
    """N of 4 and of 16,386 give 1; N of 6 and of 16,384 are taken."""
    for length in (4, 16386):
        yield Case(cases.START, 0, 0, arena(length)), answer(1, (), arena(length))
    for length in (6, 16384):
        started = arena(length, (0, length), (1, 2), (2, length - 2), (3, 0))
        yield Case(cases.START, 0, 0, arena(length)), answer(0, (), started)


def six_word_cases():
    """Six words hold one block of two, and no request for three."""
    fresh = [6, 2, 4, 0, 1004, 1005]
    full = [6, 0, 4, TWO, 1004, 1005]
    yield Case(cases.START, 0, 0, arena(6)), answer(0, (), fresh)
    yield Case(cases.ALLOC, 0, 2, fresh), answer(0, (4, 2), full)
    yield Case(cases.ALLOC, 0, 3, fresh), answer(5, (0, 0), fresh)
    yield Case(cases.ALLOC, 0, 3, full), answer(5, (0, 0), full)


def move_cases():
    """A block of two between a gap and a live block moves down to have six; its words go with it."""
    fresh = arena(32, (0, 32), (1, 2), (2, 30), (3, 0))
    upper = ((28, 4), (29, TWO))
    one = arena(32, (0, 32), (1, 2), (2, 26), (3, 0), *upper)
    two = arena(32, (0, 32), (1, 2), (2, 22), (3, 0), (24, 4), (25, TWO), *upper)
    moved = arena(32, (0, 32), (1, 2), (2, 14), (3, 24), (16, 8), (17, SIX), (18, 1026), (19, 1027),
                  (24, 4), (25, 0), *upper)
    yield Case(cases.START, 0, 0, arena(32)), answer(0, (), fresh)
    yield Case(cases.ALLOC, 0, 2, fresh), answer(0, (30, 2), one)
    yield Case(cases.ALLOC, 0, 2, one), answer(0, (26, 2), two)
    yield Case(cases.REALLOC, 26, 6, two), answer(0, (18, 6), moved)
    yield Case(cases.SIZE, 18, 0, moved), answer(0, (6, 6), moved)
    yield Case(cases.REPORT, 0, 0, moved), answer(0, (18, 12, 2, 2), moved)


def compare(chosen):
    """Every row through the model and through a program; the last line counts the rows."""
    line_count = 0
    for table in (WHOLE_RUN, LENGTHS, SIX_WORDS, THE_MOVE):
        text, expected = line_rows(table)
        compare_replies(text, expected, lines.output_for(text))
        run_lines(chosen.board, text, expected=expected)
        line_count += text.count(b"\n")
    row_count = run_rows(chosen.cases, [*length_cases(), *six_word_cases(), *move_cases()])
    own = check_own_files()
    rows = f"{line_count} line rows and {row_count} rows with their words"
    return f"{rows} compared, and {own} cases of the program's own"


if __name__ == "__main__":
    driver.finish("test_document_rows", compare, driver.options(__doc__, 1, named=("board", "cases")))
