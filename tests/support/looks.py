"""Looks at an arena: a report, with requests on the same words; and how the answers are judged by the promise."""

import struct
from collections import namedtuple

from . import cases, ledger, model, promise
from .comparing import run_cases
from .driver import Difference
from .lesson import Lesson

# A look at an arena: what its ledger has, the cases asked on it, of which the first is a report, and the model's
# answers; and where they are known, the code that the others have to have, and the report. A start has no ledger yet.
Look = namedtuple("Look", "held asked answers due report", defaults=(None, None))

# What a reply begins with.
Head = namedtuple("Head", "code fields")

# The calls for another length of which something is promised; a resize may well have to be refused with 8.
MAY_MOVE = (cases.RELOCATE, cases.REALLOC)


def requests_on(words, requests, rovers):
    """These requests under each fit, with each of the rovers."""
    return [cases.Case(call, rover, asked, words) for asked in requests for rover in rovers for call in cases.FITS]


def look_at(words, held, requests, due=None, report=None):
    """A look at an arena of these words and this ledger: a report, and these requests."""
    asked = [cases.Case(cases.REPORT, 0, 0, words), *requests]
    return Look(held, asked, list(map(cases.answer_to, asked)), due, report)


class Looking(Lesson):
    """A lesson that has a look at its arena before each turn."""

    def begun(self):
        """The start, before which there is no arena to look at."""
        turn = self.turn([cases.START], 0, 0)
        return Look(None, turn.asked, turn.answers)

    def held(self):
        """What the ledger has: each block, with the words that were asked for and those that it holds."""
        return {block: ledger.Entry(self.asked_for[block], self.words[block:block + granted])
                for block, granted in self.granted.items()}

    def go_on(self, calls, number, asked, more=(), due=None):
        """A look with the calls of a turn, from one of which the run goes on, and with more requests."""
        words, held = self.words, self.held()
        turn = self.turn(calls, number, asked)
        return look_at(words, held, [*turn.asked, *more], due)


# What is judged.


def is_promised(case, held):
    """Whether something is promised of a call: a new block, or another length, moved if need be, of a held one."""
    return case.call in cases.FITS or case.call in MAY_MOVE and case.block in held


def linked_chunks(words):
    """The free chunks to which the links lead, from word 1 on: where each starts, and its size."""
    start = words[1]
    while start != 0:
        yield start, words[start]
        start = words[start + 1]


def complaints_of_report(look, got):
    """What is wrong with a report: it has to be the ledger's, and the one that is due, and to have few free chunks."""
    words = look.asked[0].words
    for due in (ledger.report_due(look.held, len(words)), look.report):
        if due is not None and got != (model.DONE, due):
            yield f"expected code 0 and {tuple(due)}, got code {got.code} and {got.fields}"
    report = promise.Report(*got.fields)
    if report.free_chunks > report.live_blocks + 1:
        yield f"there are {report.free_chunks} free chunks beside {report.live_blocks} live blocks"
    if list(linked_chunks(words)) != ledger.gaps_of(look.held, len(words)):
        yield "the free chunks are not the gaps of the ledger"


def complaints_of_request(look, report, case, got):
    """What is wrong with the answer to a request, where the program has told this report."""
    how = promise.how_sure(case.asked, report, len(case.words))
    if is_promised(case, look.held) and how in promise.SURE and got.code != model.DONE:
        yield f"it is sure {how}, and got code {got.code}"
    if look.due not in (None, got.code):
        yield f"expected code {look.due}, got {got.code}"
    if case.call in ledger.GRANT and got.fields[1] > promise.most_granted(case.asked):
        yield f"{promise.most_granted(case.asked)} words are the most that are granted, got {got.fields[1]}"


def check_look(look, heads):
    """Complains about the first answer that is not as promised; a start is held to the model alone."""
    if look.held is None:
        return
    report = promise.Report(*heads[0].fields)
    told = [(look.asked[0], each) for each in complaints_of_report(look, heads[0])]
    for case, got in zip(look.asked[1:], heads[1:]):
        told += [(case, each) for each in complaints_of_request(look, report, case, got)]
    for case, each in told:
        text = b"".join(map(cases.case_bytes, look.asked))
        raise Difference(f"by the promise, {cases.told_of(case)} with {report}: {each}", text)


def reply_size(case):
    """How many bytes the reply to a case has; none of a look hands back a part."""
    return 4 * (2 + cases.FIELDS + len(case.words))


def heads_in(looks, got):
    """How the replies of each look begin."""
    begin = 0
    for look in looks:
        heads = []
        for case in look.asked:
            code, *fields = struct.unpack_from(f"<{1 + cases.FIELDS}I", got, begin)
            heads.append(Head(code, tuple(fields)))
            begin += reply_size(case)
        yield heads


def judge(looks, got):
    """Judges what the program answered by the promise; replies of another length than is due are left to the model."""
    if len(got) == sum(reply_size(case) for look in looks for case in look.asked):
        for look, heads in zip(looks, heads_in(looks, got)):
            check_look(look, heads)


def run_looks(command, looks):
    """Runs the program on these looks: its answers are judged by the promise, then held to the model.

    Gives how the replies of each look begin.
    """
    asked = [case for look in looks for case in look.asked]
    answers = [answer for look in looks for answer in look.answers]
    got = run_cases(command, asked, answers, judge=lambda output: judge(looks, output))
    return list(heads_in(looks, got))
