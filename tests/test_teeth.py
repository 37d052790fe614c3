"""Shows that the comparers complain, and the drivers of names and of long runs: each has to see what is wrong.

The other drivers are tried by test_teeth_rows.py, test_teeth_arenas.py, test_teeth_pictures.py, test_teeth_fits.py and
test_teeth_c.py.
"""

import glob
import os

from support import asking, batches, cases, driver, ledger, lines, looks, model, picture_cases, pictures, programs
from support import spoiled_batch, spoiled_c, spoiled_desk, spoiled_drawing, spoiled_fits, spoiled_headers
from support import spoiled_not_run, spoiled_pages, spoiling, teeth
from support.comparing import compare_answers, compare_replies, compare_together

LINES = b"010020\n020005\n020001\n05\n03001A\n0Z\n"
ONE, TWO = model.LIVE_MARK + 1, model.LIVE_MARK + 2
SOUND = [12, 6, 4, ONE, 77, 78, 6, 0, 79, 80, 81, 82]
CASES = [cases.Case(cases.ALLOC, 0, 2, SOUND), cases.Case(cases.VIEW, 4, 0, SOUND), cases.Case(cases.FREE, 4, 0, SOUND)]
PICTURE = [picture_cases.Case(picture_cases.WRITE, bytes(range(125)), SOUND),
           picture_cases.Case(picture_cases.READ, pictures.picture_of(SOUND), [5] * len(SOUND)),
           picture_cases.Case(picture_cases.CHECK, cases.packed(SOUND), [])]
BATCHES = [batches.Case([batches.Record(batches.ALLOC, 5, 2, 6, 7, 8), batches.Record(0, 5, 2, 6, 7, 8)], [9], SOUND),
           batches.Case([], [], SOUND[:5]), batches.Case([batches.Record(batches.SIZE, 4, 5, 6, 7, 8)], [], SOUND)]
BETWEEN_LIVE = [16, 2, 6, 0, 71, 72, 73, 74, 4, TWO, 75, 76, 4, TWO, 77, 78]
THREE_GAPS = [26, 2, 6, 12, 71, 72, 73, 74, 4, TWO, 75, 76, 4, 20, 77, 78, 4, TWO, 79, 80, 6, 0, 81, 82, 83, 84]

# What the ledger of the first of these arenas has, and a look at that arena: requests for two words, all of them sure.
HELD = {4: ledger.Entry(1, [77, 78])}
LOOK = looks.look_at(SOUND, HELD, [cases.Case(call, 4, 2, SOUND) for call in (*cases.FITS, *looks.MAY_MOVE)])


def complains(comparer, *arguments):
    """Whether a comparer sees a difference."""
    try:
        comparer(*arguments)
    except (driver.Difference, model.Astray):
        return True
    return False


def keep_other_chunks():
    """A board of the model whose words are not those of the chunks that it keeps; it must not get through its lines."""
    board = lines.Board()
    for line in lines.lines_of(LINES):
        board.reply(line)
    board.lent.words[board.lent.kept[0][0][0]] += 2
    for line in [b"0Z"] * (lines.LINES_UNCHECKED + 1):
        board.reply(line)


def wrong_replies(true):
    """Replies to the lines above, each wrong in one thing."""
    replies = true.splitlines(keepends=True)
    yield "a digit changed", true.replace(b"001A", b"001B", 1)
    yield "a letter in lower case", true.replace(b"001A", b"001a", 1)
    yield "a reply missing", b"".join(replies[:2] + replies[3:])
    yield "the last reply missing", b"".join(replies[:-1])
    yield "a reply too many", b"".join(replies + replies[-1:])
    yield "the last LF missing", true[:-1]
    yield "nothing at all", b""


def wrong_answers(true):
    """Replies to the cases above, each wrong in one thing."""
    for at in range(0, len(true), 4):
        yield f"word {at // 4} of the replies changed", true[:at] + bytes([true[at] ^ 1]) + true[at + 1:]
    yield "the last byte missing", true[:-1]
    yield "a word too many", true + bytes(4)
    yield "nothing at all", b""


def together(block, asked, words, calls=cases.TOGETHER):
    """Three calls asked together on these words, and the true replies to them."""
    three = [cases.Case(call, block, asked, words) for call in calls]
    return three, [cases.reply_bytes(cases.answer_to(case)) for case in three]


def wrong_together():
    """Three calls asked together, and replies to them of which one or more are wrong."""
    three, (resized, relocated, reallocated) = together(4, 3, SOUND)
    yield "a resize that moves", three, [relocated, relocated, relocated]
    yield "a relocate that stays", three, [resized, resized, resized]
    yield "a realloc that moves and need not", three, [resized, relocated, relocated]
    yield "a realloc with another word than its resize", three, [resized, relocated, reallocated[:-4] + resized[:4]]
    three, (refused, relocated, reallocated) = together(10, 3, BETWEEN_LIVE)
    too_large = cases.packed([model.TOO_LARGE]) + refused[4:]
    yield "a realloc refused with 8", three, [refused, relocated, refused]
    yield "a realloc with another word than its move", three, [refused, relocated, reallocated[:-4] + refused[:4]]
    yield "a resize that would move what is too large", three, [refused, too_large, too_large]


def replaced(reply, place, number):
    """A reply with another word in one place: 0 is the code's, 1 to 4 are those of the fields."""
    return reply[:4 * place] + cases.packed([number]) + reply[4 * place + 4:]


def wrong_fits():
    """The three fits asked together, and replies to them of which one or more are wrong."""
    three, (first, best, following) = together(13, 2, THREE_GAPS, cases.FITS)
    yield "a best fit below first fit", three, [best, first, following]
    yield "a next fit below first fit", three, [best, best, replaced(first, 3, 2)]
    yield "another word in the same block", three, [first, replaced(first, 30, 5), following]
    yield "another rover than the chunk's start", three, [first, best, replaced(following, 3, 22)]
    yield "a rover outside the arena", three, [first, best, replaced(following, 3, 26)]
    yield "a chunk below the rover that is not first fit's", three, [first, best, replaced(best, 3, 12)]
    three, (refused, *_, unmoved) = together(13, 5, THREE_GAPS, cases.FITS)
    yield "a fit that is refused alone", three, [first, refused, following]
    yield "a refusal that moves the rover", three, [refused, refused, replaced(unmoved, 3, 12)]
    yield "a refusal with other words", three, [refused, replaced(refused, 30, 5), unmoved]
    yield "a reason that no fit has", three, [replaced(reply, 0, 3) for reply in (refused, refused, unmoved)]


def wrong_notes():
    """Calls on an arena whose ledger has one block, and answers that no ledger allows."""
    calls = (*cases.FITS, cases.FREE, cases.RELOCATE, cases.REPORT, cases.SIZE)
    asked = {call: cases.Case(call, 4, 3, SOUND) for call in calls}
    true = {call: cases.answer_to(case) for call, case in asked.items()}
    lost = [*SOUND[:4], 70, *SOUND[5:]]
    for call in cases.FITS:
        yield "a block that overlaps another", asked[call], true[call]._replace(fields=(4, 4, 2))
        yield "a block that overlaps the end", asked[call], true[call]._replace(fields=(10, 4, 2))
        yield "a refusal though a gap has the need", asked[call], model.Answer(6, (0, 0, 0), [], SOUND)
        yield "a grant though no gap has the need", asked[call]._replace(asked=5), true[call]
        yield "a changed word of a holder", asked[call], true[call]._replace(words=lost)
        yield "a changed word at a refusal", asked[call]._replace(asked=5), model.Answer(6, (0, 0, 0), [], lost)
    yield "a move without the words", asked[cases.RELOCATE], true[cases.RELOCATE]._replace(words=SOUND)
    yield "a free of a block that is held, refused", asked[cases.FREE], model.Answer(3, (), [], SOUND)
    yield "a free of a block that is not held", asked[cases.FREE]._replace(block=8), true[cases.FREE]
    yield "another sum of words", asked[cases.REPORT], true[cases.REPORT]._replace(fields=(8, 4, 1, 1))
    yield "another number of words asked for", asked[cases.SIZE], true[cases.SIZE]._replace(fields=(2, 2))
    yield "another number of granted words", asked[cases.SIZE], true[cases.SIZE]._replace(fields=(1, 4))
    yield "a size of a block that is held, refused", asked[cases.SIZE], model.Answer(3, (0, 0), [], SOUND)
    yield "a size of a block that is not held", asked[cases.SIZE]._replace(block=8), true[cases.SIZE]


def judged_notes():
    """Whether the ledger complains about each wrong answer, and takes the true ones."""
    for what, case, wrong in wrong_notes():
        yield f"by the ledger: {what}", complains(ledger.noted, HELD, case, wrong)
        yield f"by the ledger: no {what}", not complains(ledger.noted, HELD, case, cases.answer_to(case))
    yield "by the ledger: the true picture", ledger.pictured(SOUND) == HELD


def judged_mails():
    """Whether the ledger complains about a picture of its arena that shows other words, or another number asked for."""
    for what, at, word in (("another number asked for", 3, TWO), ("another word of a holder", 5, 79)):
        shown = [*SOUND[:at], word, *SOUND[at + 1:]]
        written = pictures.Answer(model.DONE, 0, pictures.picture_of(shown), SOUND)
        for own, told in ((True, "of its own arena"), (False, "of any other arena")):
            mail = asking.Mail(PICTURE[:1], [written], own)
            yield f"by the ledger: {what} {told}", complains(asking.ledger_mailed, HELD, mail, written) is own


def answered(place, **parts):
    """The true answers to the look, of which one has other parts."""
    return [*LOOK.answers[:place], LOOK.answers[place]._replace(**parts), *LOOK.answers[place + 1:]]


def wrong_looks():
    """The look, or another one at the same arena, and answers to it that are not as promised."""
    yield "another sum of words", LOOK, answered(0, fields=(8, 4, 1, 1))
    yield "a report that is refused", LOOK, answered(0, code=model.DAMAGED)
    yield "another report than is due", LOOK._replace(report=(8, 4, 1, 1)), LOOK.answers
    yield "another code than is due", LOOK._replace(due=model.NO_ROOM), LOOK.answers
    for place, case in enumerate(LOOK.asked[1:], 1):
        name = cases.name_of(case.call)
        yield f"a sure request refused by {name}", LOOK, answered(place, code=model.NO_ROOM)
        yield f"ten words granted for two by {name}", LOOK, answered(place, fields=(8, 10))


def judged_looks():
    """Whether the promise complains about each wrong answer, and takes the true ones."""
    for what, look, wrong in wrong_looks():
        yield f"by the promise: {what}", complains(looks.judge, [look], b"".join(map(cases.reply_bytes, wrong)))
    true = b"".join(map(cases.reply_bytes, LOOK.answers))
    yield "by the promise: the true answers", not complains(looks.judge, [LOOK], true)


def judged_answers(form, asked):
    """Whether each wrong output for these cases of a form is seen, and the true one taken."""
    answers = [form.answer_to(case) for case in asked]
    true = b"".join(map(form.reply_bytes, answers))
    for what, wrong in wrong_answers(true):
        yield what, complains(compare_answers, asked, answers, wrong, form)
    yield "the true answers", not complains(compare_answers, asked, answers, true, form)


def check_comparers():
    """Each wrong output must be seen, and the true ones taken; gives how many were tried."""
    replies = lines.output_for(LINES)
    tried = [(what, complains(compare_replies, LINES, replies, wrong)) for what, wrong in wrong_replies(replies)]
    tried += [("the true replies", not complains(compare_replies, LINES, replies, replies))]
    tried += [*judged_answers(cases, CASES), *judged_answers(picture_cases, PICTURE), *judged_answers(batches, BATCHES)]
    for what, three, wrong in [*wrong_together(), *wrong_fits()]:
        tried += [(what, complains(compare_together, three, b"".join(wrong)))]
    for three, true in (together(4, 3, SOUND), together(10, 3, BETWEEN_LIVE), together(13, 2, THREE_GAPS, cases.FITS),
                        together(21, 2, THREE_GAPS, cases.FITS), together(13, 5, THREE_GAPS, cases.FITS)):
        tried += [("the true replies together", not complains(compare_together, three, b"".join(true)))]
    tried += [*judged_notes(), *judged_mails(), *judged_looks()]
    tried += [("a board that keeps other chunks than its words have", complains(keep_other_chunks))]
    wrong_about = [what for what, right in tried if not right]
    if wrong_about:
        raise driver.Difference(f"the comparers are wrong about: {wrong_about}")
    return len(tried)


def check_all_tried():
    """Each driver is tried by a row of faults, or on spoiled copies, but for those that try the others."""
    named = {os.path.basename(path)[:-len(".py")] for path in glob.glob(os.path.join(programs.TESTS, "test_*.py"))}
    tried = {trial.driver for trial in teeth.ROWS + teeth.LINES + teeth.ARENAS + teeth.ASKED + teeth.PICTURES}
    tried |= {spoiled.DRIVER for spoiled in (spoiled_pages, spoiled_drawing, spoiled_fits, spoiled_not_run,
                                             spoiled_headers, spoiled_c, spoiled_batch, spoiled_desk)}
    untried = sorted(name for name in named - tried if not name.startswith("test_teeth"))
    if untried:
        raise driver.Difference(f"nothing tries whether these complain: {untried}")


def compare(chosen):
    """The comparers first, then the drivers; the last line counts what they were tried on."""
    check_all_tried()
    judged = check_comparers()
    pages = sum(spoiling.check_driver(spoiled.DRIVER, spoiled.SPOILED) for spoiled in (spoiled_pages, spoiled_drawing))
    seen = teeth.check_drivers(teeth.LINES, chosen.seed)
    outputs = f"{judged} outputs, wrong and true, were judged rightly"
    return f"{outputs}, and all {seen} faulty programs and {pages} spoiled pages were seen"


if __name__ == "__main__":
    driver.finish("test_teeth", compare, driver.options(__doc__, 1, named=()))
