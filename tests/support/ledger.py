"""The ledger of demand 3: blocks written down from calls and answers alone, each with the words that its holder left.

A ledger is a table here, of the block's number, the words that were asked for, and the words that it holds. What it
says of an answer does not depend on which chunk a call took, nor on what the model answers.
"""

from collections import namedtuple

from . import cases, model
from .driver import Difference

# What a ledger has of a block: how many words were asked for when it was granted last, and the words that it holds.
Entry = namedtuple("Entry", "asked words")

# The calls that grant a block, those that end one, and those that name one: a call for another length does all three.
GRANT = (*cases.FITS, *cases.TOGETHER)
END = (cases.FREE, *cases.TOGETHER)
OF_BLOCK = (*END, cases.SIZE)


def pictured(words):
    """The ledger after the reading of a picture with these words: its blocks, as the picture has them."""
    live, gaps = model.live_and_gaps(words)
    return {start + model.HEADER: Entry(words[start + 1] - model.LIVE_MARK, words[start + model.HEADER:start + size])
            for start, size in live}


def gaps_of(held, length):
    """The gaps that the blocks and their headers leave in an arena of this length."""
    live = sorted((block - model.HEADER, len(entry.words) + model.HEADER) for block, entry in held.items())
    return model.gaps_between(live, model.FIRST_CHUNK, length)


def room_of(held, block, length):
    """The words of a block with its header, joined with the gap right above it."""
    above = [other - model.HEADER for other in held if other > block]
    return min(above, default=length) - (block - model.HEADER)


def code_due(held, case):
    """With which code a call of numbers alone has to be answered: a need goes into a gap, or into the block's room."""
    length = len(case.words)
    if case.call in OF_BLOCK and case.block not in held:
        return model.NOT_A_BLOCK
    if case.call not in GRANT:
        return model.DONE
    try:
        need = model.need_of(case.asked, length)
    except model.Refused as refusal:
        return refusal.code
    rooms = [] if case.call == cases.RESIZE else [room for gap, room in gaps_of(held, length)]
    if case.call in (cases.RESIZE, cases.REALLOC):
        rooms.append(room_of(held, case.block, length))
    lacking = model.WOULD_MOVE if case.call == cases.RESIZE else model.NO_ROOM
    return model.DONE if need <= max(rooms, default=0) else lacking


def report_due(held, length):
    """What a report has to say: free words, blocks and headers make the arena less its two control words."""
    rooms = [room for gap, room in gaps_of(held, length)]
    used = sum(len(entry.words) + model.HEADER for entry in held.values())
    largest = max(rooms) - model.HEADER if rooms else 0
    return length - model.FIRST_CHUNK - used, largest, len(held), len(rooms)


def size_due(held, block):
    """What a size has to say of a block that is held: the words asked for, and those granted."""
    return held[block].asked, len(held[block].words)


def ended_and_granted(held, case, answer):
    """What a call that was done leaves of the ledger, the words of the block that it ended, and the block granted."""
    others = {} if case.call == cases.START else dict(held)
    old = others.pop(case.block).words if case.call in END else []
    block, granted = answer.fields[:2] if case.call in GRANT else (0, 0)
    return others, old, {block: Entry(case.asked, answer.words[block:block + granted])} if granted > 0 else {}


def complaints_of_done(held, case, answer):
    """What is wrong with the answer to a call that was done, as far as a ledger can show it."""
    length = len(case.words)
    others, old, new = ended_and_granted(held, case, answer)
    blocks = sorted([*others.items(), *new.items()])
    ends = [model.FIRST_CHUNK, *(block + len(entry.words) for block, entry in blocks)]
    if any(block - model.HEADER < end for (block, entry), end in zip(blocks, ends)):
        yield f"the block {answer.fields[0]} overlaps another"
    if case.call in GRANT and [len(entry.words) for entry in new.values()] != [answer.fields[1]]:
        yield f"the block {answer.fields[0]} has no words, or goes beyond the end"
    if any(entry.words[:len(old)] != old[:len(entry.words)] for entry in new.values()):
        yield "the new block does not have the words of the old one"
    if any(answer.words[block:block + len(entry.words)] != entry.words for block, entry in others.items()):
        yield "a block does not have the words that its holder left"
    if case.call == cases.REPORT and answer.fields != report_due(held, length):
        yield f"expected {report_due(held, length)} in the report, got {answer.fields}"
    if case.call == cases.SIZE and answer.fields[:2] != size_due(held, case.block):
        yield f"expected {size_due(held, case.block)}, asked and granted, got {answer.fields[:2]}"


def complaints(held, case, answer):
    """What is wrong with the answer to a call on the arena of this ledger; refused, it has not changed a word."""
    due = code_due(held, case)
    if answer.code != due:
        yield f"expected code {due}, got {answer.code}"
    elif due == model.DONE:
        yield from complaints_of_done(held, case, answer)
    elif answer.words != case.words:
        yield "a word has changed"


def noted(held, case, answer):
    """The ledger after a call that was answered so; complains about an answer that cannot be."""
    for told in complaints(held, case, answer):
        raise Difference(f"by the ledger, {cases.told_of(case)}: {told}", cases.case_bytes(case))
    if answer.code != model.DONE:
        return held
    others, old, new = ended_and_granted(held, case, answer)
    return {**others, **new}
