"""The rules for one arena, document 01's with Items 1, 3, 5 to 7 and 9 of document 02: answers, and every word left.

The model shares nothing with the library. It reads an arena as the stretches of words that are live; what lies
between them is free. A rule looks at these stretches and says what is answered and which of them change; around each
change the gaps are taken anew, and the headers there are stored. A chunk is a pair here: the word where it starts,
and its size in words, header counted; how many words were asked for is read off its header.
"""

import bisect
from collections import namedtuple

# A live chunk's second word is this number and the words that were asked for; a free chunk's is below it.
LIVE_MARK = 2147483648

FIRST_CHUNK = 2
HEADER = 2
LEAST_CHUNK = 4
LEAST_ARENA = 6
LONGEST_ARENA = 16384

# So many words that are over, or more, are split off; fewer are a crumb, though a chunk may have 4 words, or 6.
LEAST_SPLIT_OFF = 8

DONE, LENGTH, DAMAGED, NOT_A_BLOCK, ZERO, TOO_LARGE, NO_ROOM, FRAME, WOULD_MOVE = range(9)
TEXT_ROOM = 11

# What a call on some words gives: the code, the numbers answered, the words of a view, and all words afterwards.
Answer = namedtuple("Answer", "code fields part words")


class Refused(Exception):
    """A call that can't be met, with the number of its reason."""

    def __init__(self, code):
        super().__init__(code)
        self.code = code


class Astray(Exception):
    """A fault of the model itself: it kept other chunks of an arena than its words have."""


def check_length(length):
    """Refuses a length that no arena has."""
    if length % 2 == 1 or not LEAST_ARENA <= length <= LONGEST_ARENA:
        raise Refused(LENGTH)


def gaps_between(live, low, high):
    """The stretches from the word `low` to the word `high` that none of these live chunks covers."""
    gaps = []
    for start, size in live:
        if start > low:
            gaps.append((low, start - low))
        low = start + size
    if low < high:
        gaps.append((low, high - low))
    return gaps


def could_ask(asked, size):
    """Whether so many words can have been asked for of a live chunk of this size: some, and no more than it grants."""
    return 1 <= asked <= size - HEADER


def chunks_met(words):
    """The live and the free chunks met on the walk from word 2, or None where the walk fails."""
    live, free = [], []
    length = len(words)
    start = FIRST_CHUNK
    while start < length:
        size, second = words[start:start + HEADER]
        if size < LEAST_CHUNK or size % 2 == 1 or size > length - start:
            return None
        if second >= LIVE_MARK and not could_ask(second - LIVE_MARK, size):
            return None
        kind = live if second >= LIVE_MARK else free
        kind.append((start, size))
        start += size
    return live, free


def live_and_gaps(words):
    """The live chunks of a sound arena and the gaps between them, in rising order; refuses one that is not sound."""
    length = len(words)
    check_length(length)
    met = chunks_met(words) if words[0] == length else None
    if met is None:
        raise Refused(DAMAGED)
    live, free = met
    if free != gaps_between(live, FIRST_CHUNK, length):
        raise Refused(DAMAGED)
    links = [words[1]] + [words[start + 1] for start, size in free]
    if links != [start for start, size in free] + [0]:
        raise Refused(DAMAGED)
    return live, free


class Lent:
    """A lent slice of words, on which calls are made.

    What was read of a sound one, its live chunks and its gaps, is kept from call to call and changed with the words.
    """

    def __init__(self, words):
        self.words = words
        self.kept = None

    def chunks(self):
        """The live chunks and the gaps; refuses a slice that is no sound arena."""
        if self.kept is None:
            self.kept = live_and_gaps(self.words)
        return self.kept

    def check(self):
        """Holds what is kept to the words, which are read anew."""
        try:
            astray = self.kept is not None and self.kept != live_and_gaps(self.words)
        except Refused as refusal:
            raise Astray("the model stored words that are no sound arena") from refusal
        if astray:
            raise Astray("the chunks that the model kept are not those of its words")

    def answer(self, rule, field_count, *numbers):
        """The code and the numbers of a call. Where its rule refuses, the numbers are 0 and nothing changes."""
        try:
            fields, changes = rule(self, *numbers)
        except Refused as refusal:
            return refusal.code, (0,) * field_count
        for change, *given in changes:
            change(self, *given)
        return DONE, fields

    # The changes that a rule can ask for.

    def begin(self):
        """The whole arena becomes one free chunk; it is read anew at the next call."""
        length = len(self.words)
        self.words[:4] = [length, FIRST_CHUNK, length - FIRST_CHUNK, 0]
        self.kept = None

    def become(self, start, size, asked):
        """The live chunk that starts here, which may be new, has this size from now on; with size 0 there is none.

        Its second word says how many words were asked for.
        """
        live = self.kept[0]
        place = bisect.bisect_left(live, (start, 0))
        was_live = place < len(live) and live[place][0] == start
        here = [(start, size)] if size > 0 else []
        live[place:place + was_live] = here
        low = sum(live[place - 1]) if place > 0 else FIRST_CHUNK
        high = live[place + len(here)][0] if place + len(here) < len(live) else len(self.words)
        if here:
            self.words[start:start + HEADER] = size, LIVE_MARK + asked
        self.settle(here, low, high)

    def settle(self, live, low, high):
        """Takes the gaps around these live chunks anew, up to the live ones before and behind, and stores the gaps."""
        gaps = self.kept[1]
        first, last = bisect.bisect_left(gaps, (low, 0)), bisect.bisect_left(gaps, (high, 0))
        link_word = gaps[first - 1][0] + 1 if first > 0 else 1
        following = gaps[last][0] if last < len(gaps) else 0
        gaps[first:last] = around = gaps_between(live, low, high)
        for start, size in around:
            self.words[link_word] = start
            self.words[start] = size
            link_word = start + 1
        self.words[link_word] = following

    def copy(self, block, old_block, count):
        """The first so many words of the old block are those of this one, too."""
        self.words[block:block + count] = self.words[old_block:old_block + count]


def place_of(live, block):
    """Where the chunk of this block stands among the live chunks."""
    place = bisect.bisect_left(live, (block - HEADER, 0))
    if place == len(live) or live[place][0] != block - HEADER:
        raise Refused(NOT_A_BLOCK)
    return place


def need_of(asked, length):
    """The words a chunk must have for a request, header counted."""
    if asked == 0:
        raise Refused(ZERO)
    if asked > length - 4:
        raise Refused(TOO_LARGE)
    return asked + asked % 2 + HEADER


def taken_from(room, need):
    """How much of the room a request takes: all of it when the rest would be a crumb."""
    over = room - need
    return room if over < LEAST_SPLIT_OFF else need


def block_and_grant(start, size):
    """The two numbers by which a granted block is answered."""
    return start + HEADER, size - HEADER


# The fits. Each gives the gaps in the order in which it tries them; the first that fits is taken.


def first_fit(gaps):
    """The lowest first."""
    return gaps


def best_fit(gaps):
    """The smallest first, of equals the lowest."""
    return sorted(gaps, key=lambda chunk: (chunk[1], chunk[0]))


def next_fit(gaps, rover):
    """Once round, from the lowest that starts at or above the rover."""
    turn = bisect.bisect_left(gaps, (rover, 0))
    return gaps[turn:] + gaps[:turn]


# The rules. Each gives the numbers that are answered and the changes to be made, or refuses; it changes nothing itself.


def start_rule(lent):
    """The whole arena becomes one free chunk."""
    check_length(len(lent.words))
    return (), [(Lent.begin,)]


def grant_from(lent, asked, fit, *numbers):
    """The last words of the gap that this fit finds become a live chunk, or all its words do; the gap's start besides.

    A fit may take numbers besides the gaps.
    """
    live, gaps = lent.chunks()
    need = need_of(asked, len(lent.words))
    for gap, room in fit(gaps, *numbers):
        if room >= need:
            size = taken_from(room, need)
            start = gap + room - size
            return block_and_grant(start, size), [(Lent.become, start, size, asked)], gap
    raise Refused(NO_ROOM)


def alloc_rule(lent, asked):
    """A new block by first fit."""
    grant, changes, gap = grant_from(lent, asked, first_fit)
    return grant, changes


def alloc_best_rule(lent, asked):
    """A new block by best fit."""
    grant, changes, gap = grant_from(lent, asked, best_fit)
    return grant, changes


def alloc_next_rule(lent, rover, asked):
    """A new block by next fit, and the rover: it is where the gap started of which the block was taken."""
    grant, changes, gap = grant_from(lent, asked, next_fit, rover)
    return (*grant, gap), changes


def free_rule(lent, block):
    """The chunk is no longer live: its words fall to the gap around it."""
    live, gaps = lent.chunks()
    start, size = live[place_of(live, block)]
    return (), [(Lent.become, start, 0, 0)]


def kept_of(size, room, need):
    """How much a block keeps that grows into its room, or shrinks: a gap right above then takes all the rest."""
    if need > size:
        return taken_from(room, need)
    return need if room > size else taken_from(size, need)


def stayed(lent, block, asked):
    """The block is cut, kept or grown where it stands, and asked for anew; None where it can't have its need there."""
    live, gaps = lent.chunks()
    place = place_of(live, block)
    need = need_of(asked, len(lent.words))
    start, size = live[place]
    above = live[place + 1][0] if place + 1 < len(live) else len(lent.words)
    room = above - start
    if need > room:
        return None
    keeps = kept_of(size, room, need)
    return block_and_grant(start, keeps), [(Lent.become, start, keeps, asked)]


def resize_rule(lent, block, asked):
    """The block stays where it stands, or the call is refused."""
    outcome = stayed(lent, block, asked)
    if outcome is None:
        raise Refused(WOULD_MOVE)
    return outcome


def move_rule(lent, block, asked):
    """An alloc, a copy of as many words as the shorter block has, and a free; refused as size is, else as alloc is."""
    (old_asked, old_granted), nothing = size_rule(lent, block)
    (new_block, new_granted), alloc_changes = alloc_rule(lent, asked)
    nothing, free_changes = free_rule(lent, block)
    copy = (Lent.copy, new_block, block, min(old_granted, new_granted))
    return (new_block, new_granted), [*alloc_changes, copy, *free_changes]


def realloc_rule(lent, block, asked):
    """The block stays where it stands; failing that it moves, with all its words, since it has to become longer."""
    return stayed(lent, block, asked) or move_rule(lent, block, asked)


def size_rule(lent, block):
    """The words that were asked for when the block was granted last, and its granted words."""
    live, gaps = lent.chunks()
    start, size = live[place_of(live, block)]
    return (lent.words[start + 1] - LIVE_MARK, size - HEADER), []


def report_rule(lent):
    """Free words, the largest request that would be granted now, live blocks, free chunks."""
    live, gaps = lent.chunks()
    sizes = [size for start, size in gaps]
    largest = max(sizes) - HEADER if sizes else 0
    return (sum(sizes), largest, len(live), len(sizes)), []


# The calls on a lent slice. Each changes it and gives its code and the numbers answered.


def start(lent):
    return lent.answer(start_rule, 0)


def alloc(lent, asked):
    return lent.answer(alloc_rule, 2, asked)


def alloc_best(lent, asked):
    return lent.answer(alloc_best_rule, 2, asked)


def alloc_next(lent, rover, asked):
    """The third number is the rover after the call: a refused one leaves it where it was."""
    code, (block, granted, found) = lent.answer(alloc_next_rule, 3, rover, asked)
    return code, (block, granted, found if code == DONE else rover)


def free(lent, block):
    return lent.answer(free_rule, 0, block)


def realloc(lent, block, asked):
    return lent.answer(realloc_rule, 2, block, asked)


def resize(lent, block, asked):
    return lent.answer(resize_rule, 2, block, asked)


def relocate(lent, block, asked):
    return lent.answer(move_rule, 2, block, asked)


def size(lent, block):
    return lent.answer(size_rule, 2, block)


def report(lent):
    return lent.answer(report_rule, 4)


def view(lent, block):
    """The words of the block, as many as are granted; none where its size would be refused."""
    code, (asked, granted) = size(lent, block)
    return lent.words[block:block + granted] if code == DONE else []


# The kinds of request in a batch: the call, which of the numbers b and n it takes, and the fields of its record that
# have its answer; those of a size have the words asked for in the field of the block.
KINDS = {
    1: (alloc, ["n"], ["block", "granted"]),
    2: (free, ["b"], []),
    3: (realloc, ["b", "n"], ["block", "granted"]),
    4: (resize, ["b", "n"], ["block", "granted"]),
    5: (relocate, ["b", "n"], ["block", "granted"]),
    6: (size, ["b"], ["block", "granted"]),
}


def served(lent, kind, b, n):
    """Makes one request of a batch; gives code, block and granted, 0 for what is not answered."""
    if kind not in KINDS:
        return FRAME, 0, 0
    call, taken, answered = KINDS[kind]
    numbers = {"b": b, "n": n}
    code, fields = call(lent, *(numbers[name] for name in taken))
    answer = dict(zip(answered, fields))
    return code, answer.get("block", 0), answer.get("granted", 0)


def batch(lent, requests):
    """Makes requests in order, each a kind, b and n; gives code, block and granted of each."""
    return [served(lent, *request) for request in requests]


def on_words(call, words, *numbers):
    """The answer to a single call on words of any kind, which stay as they are."""
    lent = Lent(list(words))
    code, fields = call(lent, *numbers)
    return Answer(code, fields, [], lent.words)
