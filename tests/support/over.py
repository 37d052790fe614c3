"""How many words are over in a call that was done, and where: what a run of random calls must have met."""

from . import cases, model

# How many are over. Fewer than eight are granted with the need, but for those that a block gives up to a free chunk.
COUNTS = ("none", "two", "four", "six", "eight", "ten or more")

# What comes right after a block whose own words are enough: a free chunk is told by its place in the list, and by how
# many words it has.
AFTER = ("a live chunk", "the end", "the only free chunk", "the last free chunk", "a free chunk before others",
         "four free words", "six free words", "more free words")

# Where words can be over.
PLACES = ["alloc", "alloc_best", "alloc_next", "relocate", "realloc moved", "resize grown", "realloc grown",
          *(f"{name} before {after}" for name in ("resize", "realloc") for after in AFTER)]

WANTED = [("over", place, count) for place in PLACES for count in COUNTS]


def gap_around(block, gaps):
    """The gap in which a new block came to lie, and its room."""
    return [(gap, room) for gap, room in gaps if gap < block < gap + room][0]


def comes_after(end, length, gaps):
    """What begins at a chunk's end, in an arena of this length."""
    rooms = dict(gaps)
    if end == length:
        return ["the end"]
    if end not in rooms:
        return ["a live chunk"]
    others = "a free chunk before others" if end < max(rooms) else "the last free chunk"
    place = "the only free chunk" if len(rooms) == 1 else others
    return [place, {4: "four free words", 6: "six free words"}.get(rooms[end], "more free words")]


def words_at_hand(case, answer, need, gaps):
    """The names of the place where a call that was done took its need, and how many words were there."""
    name = cases.name_of(case.call)
    block = answer.fields[0]
    if case.call in (*cases.FITS, cases.RELOCATE):
        return [name], gap_around(block, gaps)[1]
    size = case.words[case.block - model.HEADER]
    end = case.block - model.HEADER + size
    if need <= size:
        return [f"{name} before {after}" for after in comes_after(end, len(case.words), gaps)], size
    if block != case.block:
        return [f"{name} moved"], gap_around(block, gaps)[1]
    return [f"{name} grown"], size + dict(gaps)[end]


def over_in(case, answer, gaps):
    """How many words are over in a call that was done, by each name of the place; the gaps are those before it."""
    need = model.need_of(case.asked, len(case.words))
    places, words = words_at_hand(case, answer, need, gaps)
    count = COUNTS[min((words - need) // 2, len(COUNTS) - 1)]
    return [("over", place, count) for place in places]
