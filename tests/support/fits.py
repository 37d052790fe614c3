"""The three fits asked together: with which rovers, and what their answers show, which a random run must have met."""

from . import model
from .over import gap_around

# The least rovers, those at the ends of 16 and of 31 bits, and the greatest.
OUTERMOST = [0, 1, 2, 3, 65535, 65536, 2**31 - 1, 2**31, 2**32 - 2, 2**32 - 1]

# Where a rover can lie, and whether it is even: every chunk starts at an even word, and so does the end.
ROVERS = [("rover", place, parity) for place in ("below the chunks", "in a gap", "in a live chunk", "above the end")
          for parity in ("even", "odd")]
ROVERS += [("rover", place, "even") for place in ("at a gap", "at a live chunk", "at the end")]

# How next fit comes to the gap that it takes.
TURNS = [("next", turn) for turn in ("at the rover", "right above the rover", "above the rover, past others")]
TURNS += [("next", "round", above, below) for above in ("from the end", "past others above")
          for below in ("to the lowest", "past others below")]

# Which gap best fit takes, how many are as large, and how many words are over.
BEST = [("best", place, equals, over) for place in ("the first that fits", "a later one")
        for equals in ("alone", "of equals") for over in ("none over", "some over")]

# Which of the fits take the same gap; and refusals of a request that no gap holds.
PARTED = [("fits", how) for how in ("alike", "first apart", "best apart", "next apart", "all apart")]
REFUSED = [("no room", where) for where in ("in gaps", "without gaps")]

WANTED = [*ROVERS, *TURNS, *BEST, *PARTED, *REFUSED]


def rover_for(random, length, starts):
    """A rover: mostly one about where a chunk starts, else about the end, an outermost one, or any number."""
    kind = random.random()
    if starts and kind < 0.65:
        return random.choice(starts) + random.choice([-2, -1, 0, 0, 1, 2, 3])
    if starts and kind < 0.7:
        return random.choice(starts) + random.choice([65536, 2**31])
    if kind < 0.9:
        return random.randrange(length + 4)
    return random.choice([*OUTERMOST, length, length, random.getrandbits(32)])


def place_of(rover, length, chunks):
    """Where a rover lies in an arena of this length; the chunks are those of each kind."""
    if rover < model.FIRST_CHUNK:
        return "below the chunks"
    if rover >= length:
        return "at the end" if rover == length else "above the end"
    for kind, those in chunks.items():
        for start, size in those:
            if start <= rover < start + size:
                return f"at {kind}" if rover == start else f"in {kind}"


def turn_to(found, rover, gaps):
    """How next fit came from the rover to the gap that it took."""
    starts = [start for start, room in gaps]
    if found == rover:
        return "at the rover",
    if found > rover:
        others = [start for start in starts if rover <= start < found]
        return "above the rover, past others" if others else "right above the rover",
    above = "past others above" if starts[-1] >= rover else "from the end"
    return "round", above, "to the lowest" if found == starts[0] else "past others below"


def best_of(found, lowest, need, gaps):
    """Which gap best fit took, beside the lowest that fits."""
    room = dict(gaps)[found]
    equals = [start for start, other in gaps if other == room]
    return ("the first that fits" if found == lowest else "a later one", "alone" if len(equals) == 1 else "of equals",
            "none over" if room == need else "some over")


def parted(first, best, following):
    """Which of the fits took the same gap."""
    how = {(True, True): "alike", (True, False): "next apart", (False, True): "best apart"}
    return how.get((first == best, first == following), "first apart" if best == following else "all apart")


def met_by(case, answers):
    """What the answers of the three fits to this case show."""
    if answers[0].code in (model.LENGTH, model.DAMAGED):
        return
    live, gaps = model.live_and_gaps(case.words)
    length = len(case.words)
    place = place_of(case.block, length, {"a live chunk": live, "a gap": gaps})
    yield "rover", place, "odd" if case.block % 2 == 1 else "even"
    if answers[0].code == model.NO_ROOM:
        yield "no room", "in gaps" if gaps else "without gaps"
    if answers[0].code == model.DONE:
        first, best, following = [gap_around(answer.fields[0], gaps)[0] for answer in answers]
        yield "fits", parted(first, best, following)
        yield "next", *turn_to(following, case.block, gaps)
        yield "best", *best_of(best, first, model.need_of(case.asked, length), gaps)
