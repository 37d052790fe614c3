"""Holds what a program wrote to what the model, or the document, says."""

import struct

from . import cases, lines, model, programs
from .driver import Difference
from .telling import shown


def compare_replies(text, expected, got):
    """Complains about the first reply to these lines that is not the expected one, or of a wrong number of replies."""
    if got == expected:
        return
    asked = lines.lines_of(text)
    wanted, written = expected.split(b"\n"), got.split(b"\n")
    same = 0
    while same < min(len(wanted), len(written)) and wanted[same] == written[same]:
        same += 1
    line = shown(asked[same]) if same < len(asked) else "the end of the input"
    want = shown(wanted[same]) if same < len(wanted) else "nothing more"
    have = shown(written[same]) if same < len(written) else "nothing more"
    raise Difference(f"line {same + 1}, {line}: expected {want}, got {have}", text, expected)


def compare_answers(asked, answers, got, form=cases):
    """Complains about the first of these cases whose reply is not the expected one, or of too many replies.

    `form` is the module that says how these cases and their replies are written, and tells of them.
    """
    begin = 0
    for number, (case, answer) in enumerate(zip(asked, answers)):
        expected = form.reply_bytes(answer)
        reply = got[begin:begin + len(expected)]
        if reply != expected:
            text = b"".join(map(form.case_bytes, asked[:number + 1]))
            replies = b"".join(map(form.reply_bytes, answers[:number + 1]))
            told = form.difference_in_reply(answer, reply)
            raise Difference(f"case {number + 1}, {form.told_of(case)}: {told}", text, replies)
        begin += len(expected)
    if begin != len(got):
        text = b"".join(map(form.case_bytes, asked))
        raise Difference(f"{len(got) - begin} bytes more than the replies to {len(asked)} cases", text)


def replies_in(asked, got):
    """The replies to these cases that a program wrote, taken apart by the lengths that they name themselves."""
    replies = []
    begin = 0
    for case in asked:
        part_length, = struct.unpack_from("<I", got, begin + 4 * (1 + cases.FIELDS))
        end = begin + 4 * (2 + cases.FIELDS + part_length + len(case.words))
        replies.append(got[begin:end])
        begin = end
    return replies


def lengths_go_together(case, resized, relocated, reallocated):
    """Whether resize kept the block's number, relocate did not, and realloc did as the one or, after 8, the other."""
    heads = [struct.unpack_from("<2I", reply) for reply in (resized, relocated, reallocated)]
    codes = tuple(code for code, number in heads)
    kept = codes[0] != model.DONE or heads[0][1] == case.block
    moved = codes[1] != model.DONE or heads[1][1] != case.block
    due = relocated if codes[0] == model.WOULD_MOVE else resized
    return codes in cases.CODES_TOGETHER and kept and moved and reallocated == due


def fits_go_together(case, first, best, following):
    """Whether the fits were refused alike and the rover stayed; or done, each in a chunk and with a rover that can be.

    No fit takes a lower chunk than first fit. Next fit takes the last words of the chunk where the rover is then, and
    a chunk below the old rover only if that is first fit's.
    """
    heads = [struct.unpack_from("<4I", reply) for reply in (first, best, following)]
    alike = following[:12] + bytes(4) + following[16:]
    code, block, granted, rover = heads[2]
    if tuple(head[0] for head in heads) not in cases.CODES_OF_FITS:
        return False
    if code != model.DONE:
        return first == best == alike and rover == case.block
    lowest = all(reply == first or head[1] > heads[0][1] for head, reply in zip(heads, (first, best, alike)))
    at_chunk = rover < len(case.words) and rover + case.words[rover] == block + granted
    return lowest and at_chunk and (rover >= case.block or alike == first)


# What is held to each other, whatever the model answers: three calls, and how their replies to one case are judged.
HELD_TOGETHER = [(cases.TOGETHER, lengths_go_together), (cases.FITS, fits_go_together)]


def compare_together(asked, got):
    """Complains about replies to three calls asked together that do not go together, whatever the model answers."""
    replies = replies_in(asked, got)
    for calls, go_together in HELD_TOGETHER:
        for at in cases.asked_together(asked, calls):
            case, three = asked[at], replies[at:at + 3]
            if not go_together(case, *three):
                names = ", ".join(map(cases.name_of, calls))
                told = [struct.unpack_from("<4I", reply) for reply in three]
                text = b"".join(map(cases.case_bytes, asked[at:at + 3]))
                raise Difference(
                    f"cases {at + 1} to {at + 3}, {names} with b={case.block} n={case.asked} on the same"
                    f" {len(case.words)} words, do not go together: their codes and first fields are {told}", text)


def run_lines(command, text, pieces=None, expected=None):
    """Runs the program on lines and compares its replies with the expected ones, or else with the model's."""
    wanted = lines.output_for(text) if expected is None else expected
    try:
        got = programs.output_of(command, [text] if pieces is None else pieces)
    except programs.ProgramFailed as failure:
        raise Difference(f"{failure} (after {failure.output.count(10)} replies)", text, wanted) from failure
    compare_replies(text, wanted, got)


def run_cases(command, asked, answers, rest=b"", form=cases, judge=lambda got: None):
    """Runs the program on cases, followed by bytes that are no case, and compares its replies with the answers.

    Gives the replies, of which a judge may complain before they are compared.
    """
    text = b"".join(map(form.case_bytes, asked)) + rest
    try:
        got = programs.output_of(command, [text])
    except programs.ProgramFailed as failure:
        raise Difference(f"{failure} (after {len(failure.output)} bytes of replies)", text) from failure
    judge(got)
    compare_answers(asked, answers, got, form)
    if form is cases:
        compare_together(asked, got)
    return got


def run_rows(command, rows, form=cases):
    """Holds the model and the program to rows of case and answer, and gives how many they are."""
    asked, answers = zip(*rows)
    try:
        compare_answers(asked, answers, b"".join(form.reply_bytes(form.answer_to(case)) for case in asked), form)
    except Difference as found:
        raise Difference(f"the model, not the program: {found}", found.text, found.expected) from found
    run_cases(command, asked, answers, form=form)
    return len(rows)


def compare_own_cases(name, form):
    """Holds what a program has to write for cases of its own to the model, and gives how many they are."""
    given, written = programs.own_files(name)
    asked = form.cases_in(given)
    compare_answers(asked, list(map(form.answer_to, asked)), written, form)
    return len(asked)
