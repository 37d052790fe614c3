"""Holds the program to combs: arenas with as many free words as the promise's bound, in which the request is refused.

All free chunks of a comb are two words short of the need. Once a block has given two words to one of them, the request
is granted, under each of the three fits. All answers are held to the model besides, with all their words.
"""

from collections import Counter
from itertools import accumulate
from random import Random

from support import arenas, cases, driver, fits, ledger, model, promise
from support.looks import Looking, look_at, requests_on, run_looks

COMBS = 200

# The requests of combs, each with how many teeth: by hand, two of them in almost the longest arena; and made by calls.
BY_HAND = [(asked, count) for asked in (3, 4, 5, 8, 9, 20, 61) for count in (1, 2, 3, 7, 20)]
BY_HAND += [(3, 2047), (61, 247)]
BY_CALLS = [(asked, count) for asked in (3, 5, 7, 8, 9, 20, 61) for count in (1, 2, 5, 12)] + [(2000, 7)]

# A comb of more teeth than this has no others than the least, and is asked with one rover.
MANY_TEETH = 100

# The calls by which a start with 18 words becomes the least comb, worked out by hand: four free words on each side of
# block 8, which has six.
LEAST_COMB = [(cases.ALLOC, 0, 14), (cases.RESIZE, 4, 2), (cases.ALLOC, 0, 2), (cases.ALLOC, 0, 2), (cases.FREE, 4),
              (cases.FREE, 16)]

# What the combs must have met to mean anything: refusals, and each way by which next fit comes to the chunk that fits.
WANTED = [("no room", "in gaps"), *fits.TURNS]


def comb_look(random, asked, words, held, over=0):
    """A look at a comb: the need is refused where all gaps lack two words, and granted where one has two words over.

    The need is that of an odd request and an even one, with rovers at some gap, behind that, and far above the end.
    """
    need, count = promise.need(asked), len(held)
    gap, room = random.choice(ledger.gaps_of(held, len(words)))
    rovers = [gap + 1, gap, 2**32 - 1][:1 if count > MANY_TEETH else 3]
    report = promise.Report(promise.bound(asked, count) + over, need - 4 + over, count, count + 1)
    requests = requests_on(words, [need - 3, need - 2], rovers)
    return look_at(words, held, requests, model.DONE if over else model.NO_ROOM, report)


# By hand.


def comb(gaps, teeth):
    """The words of a comb, and what its ledger has: live chunks of these sizes, free ones before, between and behind.

    There is one gap more than there are teeth.
    """
    sizes = [size for pair in zip(gaps, teeth) for size in pair] + gaps[-1:]
    *starts, length = accumulate(sizes, initial=model.FIRST_CHUNK)
    pieces = [arenas.Piece(start, size, at % 2 == 1) for at, (start, size) in enumerate(zip(starts, sizes))]
    words = [1000 + at for at in range(length)]
    arenas.store_headers(words, pieces)
    blocks = [(start + model.HEADER, start + size) for start, size, live in pieces if live]
    return words, {block: ledger.Entry(end - block, words[block:end]) for block, end in blocks}


def comb_looks(random, asked, count):
    """A comb of so many teeth; then combs in which a tooth has given two words to a gap."""
    gaps = [promise.need(asked) - 2] * (count + 1)
    teeth = [model.LEAST_CHUNK + 2 * random.randrange(1 if count > MANY_TEETH else 5) for _ in range(count)]
    thick = random.randrange(count)
    teeth[thick] = max(teeth[thick], model.LEAST_CHUNK + 2)
    yield comb_look(random, asked, *comb(gaps, teeth))
    teeth[thick] -= 2
    for place in (0, random.randrange(count), count):
        wider = [gap + 2 * (at == place) for at, gap in enumerate(gaps)]
        yield comb_look(random, asked, *comb(wider, teeth), 2)


# By calls.


class Making(Looking):
    """A lesson that comes to a comb by calls alone, all of which have to be done; the looks at it are kept."""

    def __init__(self, random, length):
        super().__init__(random, length)
        self.kept = [self.begun()]

    def make(self, call, number, asked=0):
        """Makes a call, and gives the numbers that are answered."""
        self.kept.append(self.go_on([call], number, asked, due=model.DONE))
        return self.kept[-1].answers[1].fields

    def grant(self, asked):
        """Asks for a new block under one of the fits, and gives the block."""
        return self.make(self.random.choice(cases.FITS), self.rover, asked)[0]

    def lowest_two(self, gap):
        """Takes all that is left for the lowest tooth and, below it, a block that leaves such a gap.

        Fewer than eight words are not split off; so a block of eight, header counted, is cut to them beside a free one.
        """
        if gap >= model.LEAST_SPLIT_OFF:
            return self.grant(4), self.grant(gap - model.HEADER)
        above, below = self.grant(2), self.grant(6)
        self.make(cases.FREE, above)
        self.make(cases.RESIZE, below, gap - model.HEADER)
        return self.grant(10 - gap), below

    def looks(self, asked, tooth):
        """All looks, and those at the comb as it is now, and once this tooth has given two words to a gap."""
        self.kept.append(comb_look(self.random, asked, self.words, self.held()))
        self.make(cases.RESIZE, tooth, self.granted[tooth] - 2)
        return [*self.kept, comb_look(self.random, asked, self.words, self.held(), 2)]


def made_looks(random, asked, count):
    """A start that becomes a comb of so many teeth: blocks for gaps and teeth in turn, and then gaps of the first."""
    gap = promise.need(asked) - 2
    lowest_tooth = 6 if gap >= model.LEAST_SPLIT_OFF else 12 - gap
    lesson = Making(random, model.FIRST_CHUNK + gap * (count + 1) + 4 * (count - 1) + lowest_tooth)
    between = [lesson.grant(gap - model.HEADER)]
    for _ in range(count - 1):
        lesson.grant(2)
        between.append(lesson.grant(gap - model.HEADER))
    tooth, below = lesson.lowest_two(gap)
    for block in random.sample([*between, below], count + 1):
        lesson.make(cases.FREE, block)
    return lesson.looks(asked, tooth)


def least_comb_looks(random):
    """The least comb, by the calls that were worked out by hand."""
    lesson = Making(random, 18)
    for call in LEAST_COMB:
        lesson.make(*call)
    return lesson.looks(3, 8)


# The comparison.


def met_by(look):
    """What the requests show that are made under all three fits."""
    for at in cases.asked_together(look.asked, cases.FITS):
        yield from fits.met_by(look.asked[at], look.answers[at:at + 3])


def compare_combs(command, random):
    """Each comb once; gives what was met, and how many combs and calls these were."""
    looks = [look for each in BY_HAND for look in comb_looks(random, *each)]
    looks += [look for each in BY_CALLS for look in made_looks(random, *each)]
    looks += least_comb_looks(random)
    calls = sum(map(len, run_looks(command, looks)))
    met = Counter(shown for look in looks for shown in met_by(look))
    return met + Counter({"combs": len(BY_HAND) + len(BY_CALLS) + 1, "calls": calls})


def compare(chosen):
    """All combs, one round after the other; the last line counts combs and calls."""
    random = Random(chosen.seed)
    met = driver.met_in_rounds(lambda: compare_combs(chosen.cases, random), "combs", chosen.count)
    if chosen.count >= COMBS:
        driver.check_met(met, WANTED, 3, "combs")
    told = f"{met['combs']} combs refused at the bound, and granted with two words more"
    return f"{told}; {met['calls']:,} calls compared"


if __name__ == "__main__":
    driver.finish("test_combs", compare, driver.options(__doc__, COMBS, named=("cases",)))
