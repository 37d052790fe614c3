"""Cases of batches: how one is written for a program, and what the model replies to it.

A case is one batch on one arena: the words length of the list, length of the arena, then the list and the arena. The
list has records of six words each, behind which up to five words may be left over. The reply is the list after the
batch, and the arena after it.
"""

import struct
from collections import namedtuple

from . import model
from .cases import packed
from .telling import differences

ALLOC, FREE, REALLOC, RESIZE, RELOCATE, SIZE = range(1, 7)
NAMES = {ALLOC: "alloc", FREE: "free", REALLOC: "realloc", RESIZE: "resize", RELOCATE: "relocate", SIZE: "size"}

# The most words of a list, for the program batch_cases and for the one in C, and of an arena; the bytes before the list
# in a case, and the words of a record.
LONGEST_LIST = 4096
LONGEST_LIST_IN_C = 420000
LONGEST_ARENA = 16400
CASE_HEAD = 8
RECORD_WORDS = 6

# A record, of which the first three numbers are asked and the others answered. A case: records, the words left over
# behind them, and the arena's words. What comes of it, which has the same form.
Record = namedtuple("Record", "kind b n code block granted")
Case = namedtuple("Case", "records over words")
Answer = namedtuple("Answer", "records over words")


def asked_in(record):
    """What a record asks: its kind, b and n."""
    return record[:3]


def answer_to(case):
    """What the model answers: the records keep what they ask, and their answers are filled in."""
    lent = model.Lent(list(case.words))
    answers = model.batch(lent, map(asked_in, case.records))
    lent.check()
    records = [Record(*asked_in(record), *answer) for record, answer in zip(case.records, answers)]
    return Answer(records, case.over, lent.words)


def list_words(case):
    """The words of a list: its records', and those left over."""
    return [*(word for record in case.records for word in record), *case.over]


def case_bytes(case):
    """A case as a program reads it."""
    listed = list_words(case)
    return packed([len(listed), len(case.words), *listed, *case.words])


def records_in(listed):
    """The records that a list's words spell, and the words left over."""
    whole = len(listed) - len(listed) % RECORD_WORDS
    return [Record(*listed[at:at + RECORD_WORDS]) for at in range(0, whole, RECORD_WORDS)], listed[whole:]


def cases_in(content):
    """The cases that these bytes hold, up to one that is cut short or too long."""
    found = []
    at = 0
    while at + CASE_HEAD <= len(content):
        listed, length = struct.unpack_from("<2I", content, at)
        end = at + CASE_HEAD + 4 * (listed + length)
        if listed > LONGEST_LIST or length > LONGEST_ARENA or end > len(content):
            break
        words = list(struct.unpack_from(f"<{listed + length}I", content, at + CASE_HEAD))
        found.append(Case(*records_in(words[:listed]), words[listed:]))
        at = end
    return found


def reply_bytes(answer):
    """A reply as a program writes it."""
    return packed([*list_words(answer), *answer.words])


def reply_in(case, reply):
    """The answer that a reply to this case holds: a batch changes neither the length of the list nor the arena's."""
    listed = len(list_words(case))
    words = list(struct.unpack_from(f"<{listed + len(case.words)}I", reply))
    return Answer(*records_in(words[:listed]), words[listed:])


def replies_in(asked, got):
    """The answers to these cases that a program wrote."""
    replies = []
    begin = 0
    for case in asked:
        end = begin + 4 * (len(list_words(case)) + len(case.words))
        replies.append(reply_in(case, got[begin:end]))
        begin = end
    return replies


def name_of(kind):
    """The kind's name, for messages."""
    return NAMES.get(kind, f"kind {kind}")


def told_of(case):
    """A case for messages; its requests and its words only where they are few."""
    words = case.words if len(case.words) <= 50 else "as in the input"
    told = ", ".join(f"{name_of(record.kind)} b={record.b} n={record.n}" for record in case.records)
    requests = told if len(case.records) <= 10 else "as in the input"
    over = f" and {len(case.over)} words" if case.over else ""
    return f"a batch of {len(case.records)} records{over} ({requests}) on {len(case.words)} words ({words})"


def difference_in_reply(answer, reply):
    """Says in which record a reply is not the expected one, or in which words behind the records or of the arena."""
    expected = reply_bytes(answer)
    if len(reply) < len(expected):
        return f"expected {len(expected)} bytes of reply, got {len(reply)}"
    have = reply_in(answer, reply)
    for number, (due, got) in enumerate(zip(answer.records, have.records), 1):
        if got != due:
            return f"in record {number} afterwards: expected {due}, got {got}"
    if have.over != answer.over:
        return "behind the records afterwards: " + differences("word", answer.over, have.over)
    return "in the arena afterwards: " + differences("word", answer.words, have.words)
