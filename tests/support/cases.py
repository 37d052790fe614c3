"""Cases for the program `cases`: how one is written, and what the model replies to it.

A case is one call on one arena: the words call, b, n, length, then the arena. The reply is the code, four
fields, the length of the part that a view handed back, that part, and the arena after the call. For next fit b is the
rover, and the third field is the rover after the call, which is told of a refused call as well.
"""

import struct
from collections import namedtuple

from . import model
from .telling import differences

START, ALLOC, FREE, REALLOC, REPORT, SIZE, VIEW, VIEW_MUT, RESIZE, RELOCATE, ALLOC_BEST, ALLOC_NEXT = range(1, 13)
NAMES = ["?", "start", "alloc", "free", "realloc", "report", "size", "view", "view_mut", "resize", "relocate",
         "alloc_best", "alloc_next"]
LONGEST_CASE = 16400
FIELDS = 4

# Three calls that are asked together, with the same numbers and arena: the last is done as the first is or, where that
# would move the block, as the second is.
TOGETHER = (RESIZE, RELOCATE, REALLOC)

# The codes that the three can have then.
CODES_TOGETHER = [(code, code, code) for code in range(6)] + [(0, 6, 0), (8, 0, 0), (8, 6, 6)]

# Three others: the fits, which refuse in the same cases. The rover is that of the last; the others do not look at b.
FITS = (ALLOC, ALLOC_BEST, ALLOC_NEXT)

# The codes that the fits can have.
CODES_OF_FITS = [(code, code, code) for code in (0, 1, 2, 4, 5, 6)]

Case = namedtuple("Case", "call block asked words")

CALLS = {
    START: lambda case: model.on_words(model.start, case.words),
    ALLOC: lambda case: model.on_words(model.alloc, case.words, case.asked),
    FREE: lambda case: model.on_words(model.free, case.words, case.block),
    REALLOC: lambda case: model.on_words(model.realloc, case.words, case.block, case.asked),
    REPORT: lambda case: model.on_words(model.report, case.words),
    SIZE: lambda case: model.on_words(model.size, case.words, case.block),
    VIEW: lambda case: seen(case),
    VIEW_MUT: lambda case: overwritten(case),
    RESIZE: lambda case: model.on_words(model.resize, case.words, case.block, case.asked),
    RELOCATE: lambda case: model.on_words(model.relocate, case.words, case.block, case.asked),
    ALLOC_BEST: lambda case: model.on_words(model.alloc_best, case.words, case.asked),
    ALLOC_NEXT: lambda case: model.on_words(model.alloc_next, case.words, case.block, case.asked),
}


def seen(case):
    """A view: the part of the arena that is the block, and no word changed."""
    return model.Answer(model.DONE, (), model.view(model.Lent(case.words), case.block), case.words)


def overwritten(case):
    """A view to write into: every word of the part handed back becomes the number asked."""
    answer = seen(case)
    after = list(case.words)
    after[case.block:case.block + len(answer.part)] = [case.asked] * len(answer.part)
    return answer._replace(words=after)


def answer_to(case):
    """What the model answers; a call of another number is malformed and changes nothing."""
    if case.call not in CALLS:
        return model.Answer(model.FRAME, (), [], case.words)
    return CALLS[case.call](case)


def asked_together(asked, calls):
    """Where among these cases three calls are asked together."""
    for at in range(len(asked) - 2):
        if asked[at].call == calls[0]:
            three = asked[at:at + 3]
            if tuple(case.call for case in three) == calls and three[0][1:] == three[1][1:] == three[2][1:]:
                yield at


def packed(words):
    """Words as bytes, the low byte first."""
    return struct.pack(f"<{len(words)}I", *words)


def case_bytes(case):
    """A case as the program reads it."""
    return packed([case.call, case.block, case.asked, len(case.words), *case.words])


def cases_in(text):
    """The cases that these bytes hold, up to one that is cut short."""
    found = []
    at = 0
    while at + 16 <= len(text):
        call, block, asked, length = struct.unpack_from("<4I", text, at)
        if at + 16 + 4 * length > len(text):
            break
        found.append(Case(call, block, asked, list(struct.unpack_from(f"<{length}I", text, at + 16))))
        at += 16 + 4 * length
    return found


def cut_short(random, whole, head):
    """Bytes that are no case: nothing, or a whole case that is cut before, in, or behind its first `head` bytes."""
    return [b"", b"\1", whole[:head - 1], whole[:head], whole[:-1], whole[:random.randrange(head, len(whole))]]


def reply_bytes(answer):
    """A reply as the program writes it."""
    fields = list(answer.fields) + [0] * (FIELDS - len(answer.fields))
    return packed([answer.code, *fields, len(answer.part), *answer.part, *answer.words])


def answer_in(reply):
    """The answer that a reply holds, with all its fields."""
    code, *rest = struct.unpack(f"<{len(reply) // 4}I", reply)
    part_end = FIELDS + 1 + rest[FIELDS]
    return model.Answer(code, tuple(rest[:FIELDS]), rest[FIELDS + 1:part_end], rest[part_end:])


def name_of(call):
    """The call's name, for messages."""
    return NAMES[call] if call in CALLS else f"call number {call}"


def told_of(case):
    """A case for messages; its words only where they are few."""
    words = case.words if len(case.words) <= 100 else "as in the input"
    return f"{name_of(case.call)} b={case.block} n={case.asked} on {len(case.words)} words ({words})"


def difference_in_reply(answer, reply):
    """Says in which part a reply is not the expected one."""
    expected = reply_bytes(answer)
    if len(reply) < len(expected):
        return f"expected {len(expected)} bytes of reply, got {len(reply)}"
    want = struct.unpack(f"<{len(expected) // 4}I", expected)
    have = struct.unpack(f"<{len(expected) // 4}I", reply)
    top = 2 + FIELDS
    if want[:top] != have[:top]:
        return f"code, fields and length of the part: expected {want[:top]}, got {have[:top]}"
    arena = top + len(answer.part)
    if want[top:arena] != have[top:arena]:
        return "in the part handed back: " + differences("word", want[top:arena], have[top:arena])
    return "in the arena afterwards: " + differences("word", want[arena:], have[arena:])
