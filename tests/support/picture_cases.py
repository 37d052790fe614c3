"""Cases for the program `picture_cases`: how one is written, and what the model replies to it.

A case is one call on one text and one arena: the words call, bytes of the text, words of the arena, then the text and
the arena. The reply is the code, the number answered, the text after the call, and the arena after it. For a check the
text is the bytes that are checked.
"""

import struct
from collections import namedtuple

from . import model, pictures
from .cases import packed
from .telling import differences, shown

WRITE, READ, CHECK = range(1, 4)
NAMES = {WRITE: "write", READ: "read", CHECK: "check"}

LONGEST_TEXT = 600000
LONGEST_ARENA = 66000

# The bytes before the text in a case, and in a reply.
CASE_HEAD = 12
REPLY_HEAD = 8

Case = namedtuple("Case", "call text words")

CALLS = {
    WRITE: lambda case: pictures.write(case.text, case.words),
    READ: lambda case: pictures.read(case.text, case.words),
    CHECK: lambda case: pictures.check(case.text, case.words),
}


def answer_to(case):
    """What the model answers; a call of another number is malformed and changes nothing."""
    if case.call not in CALLS:
        return pictures.Answer(model.FRAME, 0, case.text, case.words)
    return CALLS[case.call](case)


def case_bytes(case):
    """A case as the program reads it."""
    return packed([case.call, len(case.text), len(case.words)]) + case.text + packed(case.words)


def cases_in(content):
    """The cases that these bytes hold, up to one that is cut short or too long."""
    found = []
    at = 0
    while at + CASE_HEAD <= len(content):
        call, text_length, length = struct.unpack_from("<3I", content, at)
        arena = at + CASE_HEAD + text_length
        end = arena + 4 * length
        if text_length > LONGEST_TEXT or length > LONGEST_ARENA or end > len(content):
            break
        found.append(Case(call, content[at + CASE_HEAD:arena], list(struct.unpack_from(f"<{length}I", content, arena))))
        at = end
    return found


def reply_bytes(answer):
    """A reply as the program writes it."""
    return packed([answer.code, answer.field]) + answer.text + packed(answer.words)


def reply_in(case, reply):
    """The answer that a reply to this case holds: a call changes neither the text's length nor the arena's."""
    arena = REPLY_HEAD + len(case.text)
    words = list(struct.unpack_from(f"<{len(case.words)}I", reply, arena))
    return pictures.Answer(*struct.unpack_from("<2I", reply), reply[REPLY_HEAD:arena], words)


def replies_in(asked, got):
    """The answers to these cases that a program wrote."""
    replies = []
    begin = 0
    for case in asked:
        end = begin + REPLY_HEAD + len(case.text) + 4 * len(case.words)
        replies.append(reply_in(case, got[begin:end]))
        begin = end
    return replies


def name_of(call):
    """The call's name, for messages."""
    return NAMES.get(call, f"call number {call}")


def told_of(case):
    """A case for messages; its words only where they are few."""
    words = case.words if len(case.words) <= 50 else "as in the input"
    text = f"{len(case.text)} bytes ({shown(case.text)})"
    return f"{name_of(case.call)} with a text of {text} and {len(case.words)} words ({words})"


def difference_in_reply(answer, reply):
    """Says in which part a reply is not the expected one."""
    expected = reply_bytes(answer)
    if len(reply) < len(expected):
        return f"expected {len(expected)} bytes of reply, got {len(reply)}"
    have = reply_in(answer, reply)
    if have[:2] != answer[:2]:
        return f"code and number answered: expected {answer[:2]}, got {have[:2]}"
    if have.text != answer.text:
        return "in the text afterwards: " + differences("byte", answer.text, have.text)
    return "in the arena afterwards: " + differences("word", answer.words, have.words)
