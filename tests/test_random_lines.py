"""Holds long random runs of lines through the program `board` to the model, handed over in pieces of any size."""

from collections import Counter
from random import Random

from support import driver, lines, programs
from support.comparing import compare_replies, run_lines
from support.pupil import Pupil
from support.strange_inputs import strange_inputs

LINES = 200000
RUNS = 12
TYPED_LINES = 400

# What the runs must have met to mean anything.
CODES = {"01": (0, 1), "02": (0, 1, 4, 5, 6), "03": (0, 1, 3), "04": (0, 1, 3, 4, 5, 6), "05": (0, 1), "00": (7,)}
WAYS = ("kept", "cut", "grown", "moved")

# And how many words a new block, or a longer one, has besides those that it needs; and what became of those that a
# shorter request left over, where ten stands for any more.
BESIDES = [(done, "besides", count) for done in ("alloc", "grown", "moved") for count in (0, 2, 4, 6)]
OVER = [("over", over, "kept") for over in (0, 2, 4, 6)] + [("over", over, "given up") for over in (2, 4, 6, 8, 10)]

# How long the pieces are at most, in one run after the other.
PIECES = [1, 3, 20, 500, 5000, 70000, 10**7]


def asked_and_replied(random, count, met):
    """The input and the replies of a pupil who types so many lines, the last one without its LF now and then."""
    pupil = Pupil(random)
    turns = [pupil.turn() for _ in range(count)]
    met.update(pupil.met)
    text = b"".join(line + b"\n" for line, reply in turns)
    replies = b"".join(reply + b"\n" for line, reply in turns)
    if random.random() < 0.5:
        last = random.choice([b"05", b"0", b"020001", b"0400", b"04000A", b"\r"])
        text, replies = text + last, replies + pupil.board.reply(last) + b"\n"
    pupil.board.check()
    return text, replies


def pieces_of(random, text, longest):
    """The input cut anywhere into pieces of at most this length."""
    at = 0
    while at < len(text):
        end = at + random.randint(1, longest)
        yield text[at:end]
        at = end


def typed(random, chosen, count):
    """Types lines byte by byte and waits now and then for the replies that are due, as a person would."""
    text, expected = asked_and_replied(random, count, Counter())
    running = programs.Running(chosen.board)
    due = 0
    for at in range(len(text)):
        if not running.write(text[at:at + 1]):
            break
        if text[at:at + 1] != b"\n":
            continue
        due = expected.index(b"\n", due) + 1
        if random.random() < 0.3 and not running.wait_for(due, chosen.patience):
            running.process.kill()
            told = f"no reply came to line {text[:at].count(10) + 1} though it is complete"
            raise driver.Difference(told, text, expected)
    try:
        got = running.end()
    except programs.ProgramFailed as failure:
        raise driver.Difference(str(failure), text, expected) from failure
    compare_replies(text, expected, got)
    return text.count(b"\n")


def compare(chosen):
    """Long runs, lines typed byte by byte, and inputs of odd shapes; the last line counts them."""
    random = Random(chosen.seed)
    met = Counter()
    done = 0
    for run in range(RUNS):
        text, expected = asked_and_replied(random, -(-chosen.count // RUNS), met)
        pieces = pieces_of(random, text, PIECES[run % len(PIECES)])
        run_lines(chosen.board, text, pieces, expected)
        done += len(lines.lines_of(text))
    if chosen.count >= LINES:
        codes = [(request, code) for request, codes in CODES.items() for code in codes]
        driver.check_met(met, [*codes, *WAYS, *BESIDES, *OVER], 3, "lines")
    done += typed(random, chosen, min(TYPED_LINES, chosen.count))
    strange = list(strange_inputs(random))
    for text in strange:
        run_lines(chosen.board, text, pieces_of(random, text, 100000))
    return f"{done:,} lines in {RUNS + 1} runs and {len(strange)} inputs of odd shapes compared"


if __name__ == "__main__":
    driver.finish("test_random_lines", compare, driver.options(__doc__, LINES))
