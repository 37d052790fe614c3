"""A lesson: a random run of calls on one arena, in which the three fits take turns and one rover is carried along."""

from collections import Counter, namedtuple

from . import arenas, cases, fits, ledger, model

# A turn of a run: the cases asked on one arena, with the model's answers, the place of the one that the run goes on
# with, and what holders store then: block, place in the block, word.
Turn = namedtuple("Turn", "asked answers followed stores")


class Lesson:
    """A class that asks one arena for blocks under the three fits, gives them back, and has one rover."""

    def __init__(self, random, length):
        self.random = random
        self.words = arenas.some_words(random, length, length)
        self.granted = {}
        self.asked_for = {}
        self.given_back = 4
        self.usual = random.randint(2, max(length // 15, 8))
        self.filling = True
        self.rover, self.carried = 0, False
        self.met = Counter()

    def block(self):
        """Mostly a block that is held; else one given back, or one beside."""
        if self.granted and self.random.random() < 0.95:
            return self.random.choice(list(self.granted))
        return self.given_back + self.random.choice([0, 0, 2, 1])

    def asked(self, now):
        """A number of words: the usual ones mostly, else near what there is now, near the limit, or 0."""
        kind = self.random.random()
        if kind < 0.7:
            return self.random.randint(1, self.usual)
        if kind < 0.9:
            return max(now + self.random.randint(-9, 9), 0)
        return max(len(self.words) - 4 + self.random.randint(-6, 1), 0) if kind < 0.97 else 0

    def calls(self):
        """What is asked in one turn: the calls, which share their numbers, b and n."""
        kind = self.random.random()
        if kind < (0.55 if self.filling else 0.3):
            live, gaps = model.live_and_gaps(self.words)
            if self.random.random() < 0.15:
                starts = [start for start, size in live + gaps]
                self.rover, self.carried = fits.rover_for(self.random, len(self.words), starts), False
            return cases.FITS, self.rover, self.asked(self.random.choice(gaps)[1] - model.HEADER if gaps else 8)
        block = self.block()
        asked = self.asked(self.granted.get(block, 4))
        if kind < 0.8:
            return [cases.FREE], block, asked
        return [self.random.choice([cases.REPORT, *cases.TOGETHER])], block, asked

    def turns(self, count):
        """A start, and so many turns."""
        yield self.turn([cases.START], 0, 0)
        for _ in range(count):
            yield self.turn(*self.calls())

    def turn(self, calls, number, asked):
        """Asks, goes on with one of the answers, and lets holders store."""
        those = [cases.Case(call, number, asked, self.words) for call in calls]
        answers = [cases.answer_to(case) for case in those]
        self.count(those, answers)
        followed = self.random.randrange(len(calls))
        self.follow(those[followed], answers[followed])
        return Turn(those, answers, followed, list(self.stores()))

    def count(self, asked, answers):
        """Counts what the answers show."""
        self.met.update((cases.name_of(case.call), "code", answer.code) for case, answer in zip(asked, answers))
        if len(asked) == len(cases.FITS):
            shown = list(fits.met_by(asked[0], answers))
            self.met.update(shown)
            self.met.update(("carried", place) for what, place, *_ in shown if what == "rover" and self.carried)

    def follow(self, case, answer):
        """Goes on from what a call left: its words, the blocks that are held, and the rover."""
        self.words = answer.words
        if answer.code == model.NO_ROOM:
            self.filling = False
        elif not self.granted or self.random.random() < 0.1:
            self.filling = True
        if answer.code != model.DONE:
            return
        if case.call in ledger.END:
            self.given_back = case.block
            del self.granted[case.block], self.asked_for[case.block]
        if case.call in ledger.GRANT:
            block, granted = answer.fields[:2]
            self.granted[block], self.asked_for[block] = granted, case.asked
        if case.call == cases.ALLOC_NEXT:
            self.rover, self.carried = answer.fields[2], True

    def stores(self):
        """Some holders store words into their blocks, such as look like headers."""
        self.words = list(self.words)
        for block, granted in self.granted.items():
            if self.random.random() < 0.1:
                at = self.random.randrange(granted)
                self.words[block + at], = arenas.some_words(self.random, 1, len(self.words))
                yield block, at, self.words[block + at]
