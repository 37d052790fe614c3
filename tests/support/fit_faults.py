"""What a stand-in for the program `cases` can do wrong in best fit and next fit: wrong functions put into the model."""

import bisect

from . import model

true_best = model.best_fit


def see_only(rule, seen):
    """A rule of the model sees no other gaps than `seen` leaves of them, given the need."""
    true_rule = getattr(model, rule)

    def spoiled(lent, *numbers):
        live, gaps = lent.chunks()
        need = model.need_of(numbers[-1], len(lent.words))
        partly = model.Lent(lent.words)
        partly.kept = live, seen(gaps, need)
        return true_rule(partly, *numbers)

    setattr(model, rule, spoiled)


def best_by(order):
    """Best fit tries the gaps in another order."""
    model.best_fit = order


def best_of(seen):
    """Best fit sees no other gaps than these."""
    see_only("alloc_best_rule", seen)


def next_by(order):
    """Next fit tries the gaps in another order, made of those at or above the rover and those below it."""
    def next_fit(gaps, rover):
        turn = bisect.bisect_left(gaps, (rover, 0))
        return order(gaps[turn:], gaps[:turn])

    model.next_fit = next_fit


def next_from(start):
    """Next fit starts at the gap of the place that `start` says, and goes round."""
    def next_fit(gaps, rover):
        turn = start(gaps, rover)
        return gaps[turn:] + gaps[:turn]

    model.next_fit = next_fit


def rover_to(moved):
    """The rover after a call is what `moved` makes of the code, the old rover, block, granted words and chunk found."""
    true_alloc = model.alloc_next

    def alloc_next(lent, rover, asked):
        code, (block, granted, found) = true_alloc(lent, rover, asked)
        return code, (block, granted, moved(code, rover, block, granted, found))

    model.alloc_next = alloc_next


def rover_of_refusal(*codes, to=0):
    """A call that is refused with one of these codes moves the rover."""
    rover_to(lambda code, rover, block, granted, found: to if code in codes else found)


def rover_of_grant(moved):
    """A call that is granted moves the rover elsewhere."""
    rover_to(lambda code, rover, block, granted, found: found if code else moved(rover, block, granted, found))


def refuse_rovers(wrong):
    """Next fit refuses a rover that is `wrong` in an arena of these live chunks, gaps and length."""
    true_rule = model.alloc_next_rule

    def alloc_next_rule(lent, rover, asked):
        outcome = true_rule(lent, rover, asked)
        if wrong(rover, *lent.chunks(), len(lent.words)):
            raise model.Refused(model.NOT_A_BLOCK)
        return outcome

    model.alloc_next_rule = alloc_next_rule


def request_first(rule):
    """A rule of the model looks at the request before it looks at the arena."""
    true_rule = getattr(model, rule)

    def spoiled(lent, *numbers):
        model.need_of(numbers[-1], len(lent.words))
        return true_rule(lent, *numbers)

    setattr(model, rule, spoiled)


def room_first(rule):
    """A rule of the model refuses what is too large for want of room."""
    true_rule = getattr(model, rule)

    def spoiled(lent, *numbers):
        try:
            return true_rule(lent, *numbers)
        except model.Refused as refusal:
            raise model.Refused(model.NO_ROOM if refusal.code == model.TOO_LARGE else refusal.code) from refusal

    setattr(model, rule, spoiled)


def move_by_best():
    """A move takes its new place by best fit."""
    true_move, true_alloc = model.move_rule, model.alloc_rule

    def move_rule(*given):
        model.alloc_rule = model.alloc_best_rule
        try:
            return true_move(*given)
        finally:
            model.alloc_rule = true_alloc

    model.move_rule = move_rule


def own_rover():
    """Next fit keeps a rover of its own, from one call to the other, and does not look at the caller's."""
    true_rule = model.alloc_next_rule
    kept = [0]

    def alloc_next_rule(lent, rover, asked):
        fields, changes = true_rule(lent, kept[0], asked)
        kept[0] = fields[2]
        return fields, changes

    model.alloc_next_rule = alloc_next_rule


def list_from_rover():
    """Next fit turns the list, too: word 1 names the chunk found, where that stays free."""
    true_rule = model.alloc_next_rule

    def turn(lent, found):
        lent.words[1] = found

    def alloc_next_rule(lent, rover, asked):
        (block, granted, found), changes = true_rule(lent, rover, asked)
        stays = block - model.HEADER > found
        return (block, granted, found), [*changes, *([(turn, found)] if stays else [])]

    model.alloc_next_rule = alloc_next_rule


# Which chunk best fit takes: the first that fits; the last of equals; the largest; none but the smallest of all; none
# but a larger one than the need; none where the lowest does not fit; the smallest by its low byte.
BEST_FAULTS = {
    "bestfirst": lambda: best_by(list),
    "lastequal": lambda: best_by(lambda gaps: sorted(gaps, key=lambda chunk: (chunk[1], -chunk[0]))),
    "largest": lambda: best_by(lambda gaps: true_best(gaps)[::-1]),
    "smallest": lambda: best_of(lambda gaps, need: true_best(gaps)[:1]),
    "inexact": lambda: best_of(lambda gaps, need: [chunk for chunk in gaps if chunk[1] > need]),
    "lowestfits": lambda: best_of(lambda gaps, need: gaps if gaps and gaps[0][1] >= need else []),
    "lowbyte": lambda: best_by(lambda gaps: sorted(gaps, key=lambda chunk: (chunk[1] % 256, chunk[0]))),
}

# Which chunk next fit takes: as first fit does; the one at the rover last of all; the one in which the rover lies; none
# below the rover; of those below it the highest; from the last one on; not the one right below the rover; not the
# lowest, once it has gone round; by the low 16 bits of the rover; by a rover of its own. And a list that is turned.
NEXT_FAULTS = {
    "nextfirst": lambda: next_from(lambda gaps, rover: 0),
    "pastrover": lambda: next_from(lambda gaps, rover: bisect.bisect_left(gaps, (rover + 1, 0))),
    "inside": lambda: next_from(lambda gaps, rover: sum(sum(chunk) <= rover for chunk in gaps)),
    "noround": lambda: next_by(lambda above, below: above),
    "backwards": lambda: next_by(lambda above, below: above + below[::-1]),
    "fromlast": lambda: next_from(lambda gaps, rover: -1),
    "shortturn": lambda: next_by(lambda above, below: above + below[:-1]),
    "notlowest": lambda: next_by(lambda above, below: above + below[1:]),
    "lowbits": lambda: next_from(lambda gaps, rover: bisect.bisect_left(gaps, (rover % 65536, 0))),
    "ownrover": own_rover,
    "list": list_from_rover,
}

# Where the rover is after a call: moved by any refusal, by one for want of room, by one that the arena is the reason
# of; and by a grant to the block, the chunk that is granted, or the chunk's end; to the end of one that is granted
# whole; not at all; not to a chunk below.
ROVER_FAULTS = {
    "cleared": lambda: rover_of_refusal(*range(1, 7)),
    "lacking": lambda: rover_of_refusal(model.NO_ROOM, to=model.FIRST_CHUNK),
    "shut": lambda: rover_of_refusal(model.LENGTH, model.DAMAGED),
    "toblock": lambda: rover_of_grant(lambda rover, block, granted, found: block),
    "togranted": lambda: rover_of_grant(lambda rover, block, granted, found: block - model.HEADER),
    "toend": lambda: rover_of_grant(lambda rover, block, granted, found: block + granted),
    "pastwhole": lambda: rover_of_grant(
        lambda rover, block, granted, found: block + granted if block - model.HEADER == found else found),
    "unmoved": lambda: rover_of_grant(lambda rover, block, granted, found: rover),
    "onlyup": lambda: rover_of_grant(lambda rover, block, granted, found: max(rover, found)),
}

# Which rovers next fit refuses: odd ones, those inside a live chunk, those below the chunks, the end, those above it.
REFUSED_ROVERS = {
    "oddrover": lambda: refuse_rovers(lambda rover, live, gaps, length: rover % 2 == 1),
    "inblock": lambda: refuse_rovers(
        lambda rover, live, gaps, length: any(start < rover < start + size for start, size in live)),
    "below": lambda: refuse_rovers(lambda rover, live, gaps, length: rover < model.FIRST_CHUNK),
    "atend": lambda: refuse_rovers(lambda rover, live, gaps, length: rover == length),
    "aboveend": lambda: refuse_rovers(lambda rover, live, gaps, length: rover > length),
}

# What else can be wrong: the order of the reasons, no more than 255 links followed, a move that takes its place by best
# fit.
OTHER_FAULTS = {
    "bestgate": lambda: request_first("alloc_best_rule"),
    "nextgate": lambda: request_first("alloc_next_rule"),
    "nextlarge": lambda: room_first("alloc_next_rule"),
    "bestlinks": lambda: see_only("alloc_best_rule", lambda gaps, need: gaps[:255]),
    "nextlinks": lambda: see_only("alloc_next_rule", lambda gaps, need: gaps[:255]),
    "movebest": move_by_best,
}

FIT_FAULTS = {**BEST_FAULTS, **NEXT_FAULTS, **ROVER_FAULTS, **REFUSED_ROVERS, **OTHER_FAULTS}
