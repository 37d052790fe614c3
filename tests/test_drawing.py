"""Holds each drawing of docs/ to its tool, and what is drawn to the library: the morning's picture, and the experiment.

docs/morning.txt has to be what the library writes after line 8 of the morning; docs/BOARD.md has to show it, and both
drawings. What examples/experiment.stdout answers, which test_c_face.py holds to the program, has to be what the model
answers. To make docs/morning.txt and the drawings anew: python3 tests/test_drawing.py --count 0.
"""

import os
import struct
import subprocess
import sys
import tempfile
from collections import Counter

from support import batches, cases, driver, model, picture_cases, programs

# The files, from the repository's top: what is drawn, its drawing, and the tool that draws it.
TEXT, DRAWING, TOOL = "docs/morning.txt", "docs/morning.svg", "tools/draw_arena"
LAB, LAB_DRAWING, LAB_TOOL = "examples/experiment.stdout", "docs/experiment.svg", "tools/draw_batch"
PAGE = "docs/BOARD.md"

# The morning up to line 8, as calls: a start with 64 words, three blocks, and the first of them given back.
MORNING = [(cases.START, 0, 0), (cases.ALLOC, 0, 10), (cases.ALLOC, 0, 20), (cases.ALLOC, 0, 3), (cases.FREE, 54, 0)]
WORDS = 64

# What the motor's group has stored by then: the block, and its readings.
MOTOR = 32
READINGS = [200 + 25 * at - at * at for at in range(20)]

# Texts that are not drawn, each with a word of the complaint.
NOT_DRAWN = [(b"", "picture"), (b"060006\n", "picture"), (b"06\xff", "ascii"), (b"060000\n", "number of its words"),
             (b"060002\n0700000000000200000000\n", "number of its words"),
             (b"060006\n070000000000070000000200000004000000000000000000000000\n", "number of its words"),
             (b"060006\n070000000000060000000200000002000000000000000000000000\n", "no chunk at word 2"),
             (b"060006\n070000000000060000000000000004FFFFFFFF0000000000000000\n", "granted for 2147483647 words"),
             (b"060006\n070000000000060000000000000004800000030000000000000000\n", "granted for 3 words"),
             (b"060006\n070000000000060000000000000004800000000000000000000000\n", "granted for 0 words")]

# How many requests a lab has, and what else makes it one: each kind done, and the refusals that a pupil meets.
REQUESTS = 40
MET = [*((name, model.DONE) for name in batches.NAMES.values()), ("alloc", model.ZERO), ("alloc", model.NO_ROOM),
       ("free", model.NOT_A_BLOCK), ("resize", model.WOULD_MOVE)]

# Lines of batches that are drawn, without requests and with an unknown one, and such that are not.
HEAD = b"an arena of 16 words\nrequest kind b n code block granted\n"
FIRST = HEAD + b"1 alloc 0 4 0 12 4\n"
LAB_DRAWN = [HEAD, HEAD + b"1 unknown 4 4 7 0 0\n"]
LAB_NOT_DRAWN = [(b"", "first two lines"), (HEAD[:21], "first two lines"), (HEAD[:-8] + b"\n", "first two lines"),
                 (b"\xff", "ascii"), (HEAD.replace(b"16", b"2"), "more words"),
                 (HEAD + b"2 alloc 0 4 0 12 4\n", "no record of request 1"),
                 (HEAD + b"1 allot 0 4 0 12 4\n", "no record of request 1"),
                 (HEAD + b"1 alloc 0 4 0 12\n", "no record of request 1"),
                 (HEAD + b"1 alloc 0 4 0 12 4 0\n", "no record of request 1"),
                 (HEAD + b"1 alloc 0 -4 0 12 4\n", "no number"), (HEAD + b"1 alloc 0 4 0 12 6\n", "none of this arena"),
                 (HEAD + b"1 alloc 0 4 0 3 4\n", "none of this arena"),
                 (HEAD + b"1 alloc 0 4 0 12 0\n", "none of this arena"),
                 (FIRST + b"2 alloc 0 4 0 7 4\n", "overlaps block 12"),
                 (FIRST + b"2 relocate 12 4 0 7 4\n", "overlaps block 12"),
                 (FIRST + b"2 free 10 0 0 0 0\n", "not held"), (FIRST + b"2 size 12 0 0 4 6\n", "another size"),
                 (FIRST + b"2 size 12 0 0 3 4\n", "another size"),
                 (FIRST + b"2 free 12 0 0 0 0\n3 resize 12 2 0 12 2\n", "not held"),
                 (FIRST + b"2 alloc 0 4 6 6 4\n", "no answer of a refused"),
                 (FIRST + b"2 alloc 0 4 9 0 0\n", "no answer of a refused"),
                 (FIRST + b"2 unknown 12 4 0 0 0\n", "unknown kind")]


def words_after(command, words, call, block, asked):
    """The words that a call leaves, by the program of cases."""
    reply = programs.output_of(command, [cases.case_bytes(cases.Case(call, block, asked, words))])
    return list(struct.unpack(f"<{WORDS}I", reply[-4 * WORDS:]))


def text_of_morning(chosen):
    """The picture that the library writes of the arena after these calls, with the motor's readings in it."""
    words = [0] * WORDS
    for call in MORNING:
        words = words_after(chosen.cases, words, *call)
    words[MOTOR:MOTOR + len(READINGS)] = READINGS
    case = picture_cases.Case(picture_cases.WRITE, bytes(20 * WORDS), words)
    reply = programs.output_of(chosen.picture_cases, [picture_cases.case_bytes(case)])
    written = picture_cases.reply_in(case, reply)
    return written.text[:written.field]


def lab_in(text):
    """The batch whose records these lines have, on a started arena."""
    first, columns, *rows = text.decode().splitlines()
    lent = model.Lent([0] * int(first.split()[3]))
    model.start(lent)
    numbers = {name: kind for kind, name in batches.NAMES.items()}
    fields = [row.split()[1:] for row in rows]
    return batches.Case([batches.Record(numbers[name], *map(int, rest)) for name, *rest in fields], [], lent.words)


def compare_lab(text):
    """The records of the lab against the model's answers; gives how many they are."""
    lab = lab_in(text)
    for number, (due, have) in enumerate(zip(batches.answer_to(lab).records, lab.records), 1):
        if have != due:
            raise driver.Difference(f"{LAB}: request {number} has {have}, and the model {due}")
    if len(lab.records) != REQUESTS:
        raise driver.Difference(f"{LAB} has {len(lab.records)} requests, and a lab has {REQUESTS}")
    met = Counter((batches.NAMES[record.kind], record.code) for record in lab.records)
    driver.check_met(met, MET, 1, "requests of the lab")
    return len(lab.records)


def drawn(root, tool, text):
    """What a tool of a repository draws of a text, and what it says where it does not."""
    with tempfile.TemporaryDirectory() as folder:
        source, target = os.path.join(folder, "text"), os.path.join(folder, "drawing")
        with open(source, "wb") as file:
            file.write(text)
        command = [sys.executable, os.path.join(root, tool), source, target]
        ended = subprocess.run(command, stderr=subprocess.PIPE, text=True)
        if ended.returncode != 0:
            return None, ended.stderr
        with open(target, "rb") as file:
            return file.read(), ended.stderr


def drawing_of(root, tool, text, what):
    """What a tool draws of a text that has to be drawn."""
    drawing, said = drawn(root, tool, text)
    if drawing is None:
        raise driver.Difference(f"{what} is not drawn: {said}", text=text)
    return drawing


def content(root, path):
    """The bytes of a file of a repository."""
    with open(os.path.join(root, path), "rb") as file:
        return file.read()


def make_anew(root, path, made):
    """Writes a file."""
    with open(os.path.join(root, path), "wb") as file:
        file.write(made)


def check_shown(root, path):
    """The page has to show a drawing of its own folder."""
    if f"]({os.path.basename(path)})".encode() not in content(root, PAGE):
        raise driver.Difference(f"{PAGE} does not show {path}")


def compare_not_drawn(root, tool, texts):
    """The tool has to complain of these texts; gives how many they are."""
    for bad, word in texts:
        drawing, said = drawn(root, tool, bad)
        if drawing is not None or word not in said:
            raise driver.Difference(f"of the text {bad!r} it was said: {said!r}", text=bad)
    return len(texts)


def compare_morning(chosen):
    """The morning's text against the library's, its drawing against the tool's, and the page that shows the text."""
    root, text = chosen.root, text_of_morning(chosen)
    drawing = drawing_of(root, TOOL, text, "the picture of the morning")
    if chosen.count == 0:
        make_anew(root, TEXT, text)
        make_anew(root, DRAWING, drawing)
    if content(root, TEXT) != text:
        raise driver.Difference(f"{TEXT} is not what the library writes", expected=text)
    if content(root, DRAWING) != drawing:
        raise driver.Difference(f"{DRAWING} is not what is drawn of {TEXT}", expected=drawing)
    if b"\n" + b"".join(b"    " + line + b"\n" for line in text.splitlines()) not in content(root, PAGE):
        raise driver.Difference(f"{PAGE} does not show {TEXT}")
    check_shown(root, DRAWING)


def compare_experiment(chosen):
    """The experiment's lines against the model, and its drawing against the tool's; gives how many requests it has."""
    root, text = chosen.root, content(chosen.root, LAB)
    drawing = drawing_of(root, LAB_TOOL, text, LAB)
    requests = compare_lab(text)
    if chosen.count == 0:
        make_anew(root, LAB_DRAWING, drawing)
    if content(root, LAB_DRAWING) != drawing:
        raise driver.Difference(f"{LAB_DRAWING} is not what is drawn of {LAB}", expected=drawing)
    check_shown(root, LAB_DRAWING)
    for lines in LAB_DRAWN:
        drawing_of(root, LAB_TOOL, lines, "a short batch")
    return requests


def compare(chosen):
    """Both drawings, and what is not drawn."""
    compare_morning(chosen)
    requests = compare_experiment(chosen)
    texts = compare_not_drawn(chosen.root, TOOL, NOT_DRAWN) + compare_not_drawn(chosen.root, LAB_TOOL, LAB_NOT_DRAWN)
    told = f"the drawings of the morning's picture and of an experiment of {requests} requests compared"
    return f"{told}, and {texts} texts that are not drawn"


if __name__ == "__main__":
    named = ("cases", "picture_cases")
    driver.finish("test_drawing", compare, driver.options(__doc__, 1, named, programs.ROOT))
