"""What a stand-in can do wrong with the words that were asked for: each fault puts a wrong function into the model."""

from . import model

true_could_ask, true_become, true_size = model.could_ask, model.Lent.become, model.size_rule


def pass_asked(could_ask):
    """Holds other numbers of words asked for to be sound, or fewer, by the number and the chunk's size."""
    model.could_ask = could_ask


def store_asked(stored):
    """Stores what `stored` makes of the arena, the chunk that is live from now on, and the words asked for.

    The chunk is its start and its size.
    """
    def become(lent, start, size, asked):
        true_become(lent, start, size, stored(lent, (start, size), asked))

    model.Lent.become = become


def store_in(rule, stored):
    """Stores what `stored` makes of the words asked for and the chunk's size, but only in this rule of the model."""
    true_rule = getattr(model, rule)

    def spoiled(lent, *numbers):
        fields, ((become, start, size, asked), *others) = true_rule(lent, *numbers)
        return fields, [(become, start, size, stored(asked, size)), *others]

    setattr(model, rule, spoiled)


def asked_before(lent, chunk):
    """The words that were asked for of a chunk that is live already, with some size; None of any other."""
    start, size = chunk
    before = [other for other, size in lent.kept[0] if other == start]
    return lent.words[start + 1] - model.LIVE_MARK if before else None


def keep_old(when):
    """Keeps the number of before in a block that stays, where `when` holds of its size then and of its new one."""
    def stored(lent, chunk, asked):
        before = asked_before(lent, chunk)
        return asked if before is None or not when(lent.words[chunk[0]], chunk[1]) else before

    store_asked(stored)


def keep_in_move():
    """Keeps the old number in a block that moves."""
    true_move = model.move_rule

    def move_rule(lent, block, asked):
        (old_asked, old_granted), nothing = model.size_rule(lent, block)
        fields, ((become, start, size, new_asked), *others) = true_move(lent, block, asked)
        return fields, [(become, start, size, old_asked), *others]

    model.move_rule = move_rule


def tell_size(told):
    """Answers a size with what `told` makes of the words asked for and granted."""
    def size_rule(lent, block):
        fields, nothing = true_size(lent, block)
        return told(*fields), nothing

    model.size_rule = size_rule


def view_asked():
    """Hands back no more words in a view than were asked for."""
    def view(lent, block):
        code, (asked, granted) = model.size(lent, block)
        return lent.words[block:block + asked] if code == model.DONE else []

    model.view = view


def need(asked):
    """The need of a request that is granted."""
    return asked + asked % 2 + model.HEADER


# Which numbers the check passes: none asked for as well; more than are granted, however many, or one more, or as many
# as the chunk has; the old mark, which is that of the most words; not one word; not all that are granted.
CHECK_FAULTS = {
    "nonepasses": lambda: pass_asked(lambda asked, size: 0 <= asked <= size - model.HEADER),
    "morepasses": lambda: pass_asked(lambda asked, size: asked >= 1),
    "onemore": lambda: pass_asked(lambda asked, size: 1 <= asked < size),
    "wholechunk": lambda: pass_asked(lambda asked, size: 1 <= asked <= size and asked != size - 1),
    "oldmark": lambda: pass_asked(lambda asked, size: true_could_ask(asked, size) or asked == model.LIVE_MARK - 1),
    "notone": lambda: pass_asked(lambda asked, size: 2 <= asked <= size - model.HEADER),
    "notall": lambda: pass_asked(lambda asked, size: 1 <= asked < size - model.HEADER or size == model.LEAST_CHUNK),
}

# Which number is stored: the old one in a resize or a realloc that keeps the block's words, that cuts it, that grows
# it; the old one in a move; wherever a block is granted the need, the number rounded up to even, or the granted words;
# the granted words in best fit alone, in next fit alone, in a resize alone.
STORE_FAULTS = {
    "exactkeeps": lambda: keep_old(lambda old, new: old == new),
    "cutkeeps": lambda: keep_old(lambda old, new: old > new),
    "growthkeeps": lambda: keep_old(lambda old, new: old < new),
    "movekeeps": keep_in_move,
    "storesneed": lambda: store_asked(lambda lent, chunk, asked: need(asked)),
    "storeseven": lambda: store_asked(lambda lent, chunk, asked: asked + asked % 2),
    "storesgranted": lambda: store_asked(lambda lent, chunk, asked: chunk[1] - model.HEADER),
    "bestgranted": lambda: store_in("alloc_best_rule", lambda asked, size: size - model.HEADER),
    "nextgranted": lambda: store_in("alloc_next_rule", lambda asked, size: size - model.HEADER),
    "resizegranted": lambda: store_in("resize_rule", lambda asked, size: size - model.HEADER),
}

# What a size answers: the granted words twice, the words asked for twice, the two the other way round; and a view that
# has the words asked for alone.
TOLD_FAULTS = {
    "grantedtwice": lambda: tell_size(lambda asked, granted: (granted, granted)),
    "askedtwice": lambda: tell_size(lambda asked, granted: (asked, asked)),
    "swapped": lambda: tell_size(lambda asked, granted: (granted, asked)),
    "viewsasked": view_asked,
}

ASKED_FAULTS = {**CHECK_FAULTS, **STORE_FAULTS, **TOLD_FAULTS}
