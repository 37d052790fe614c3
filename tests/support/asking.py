"""Runs in which the size of every block is asked after each call, and the arena is mailed as a picture now and then."""

from collections import namedtuple

from . import arenas, cases, ledger, model, picture_cases, pictures
from .comparing import replies_in, run_cases
from .driver import Difference
from .lesson import Lesson, Turn

# An arena that is mailed: the cases of a write, and of a read of what was written; the model's answers; and whether it
# is the arena of the run.
Mail = namedtuple("Mail", "asked answers own")

# How often a turn asks for another length of a block that is held, besides those of any lesson; and how often an arena
# is mailed.
ANOTHER_LENGTH, MAILED = 0.35, 0.04

# What a run must have met to mean anything: how many words are granted beyond those asked for, by each call that
# grants; calls after which the words asked for are all that has changed; sizes; and arenas that are mailed.
BEYOND = [(cases.name_of(call), "beyond", count) for call in ledger.GRANT for count in range(8)]
ONE_WORD = [(cases.name_of(call), "one word") for call in (cases.RESIZE, cases.REALLOC)]
SIZES = [("size", "code", code) for code in (model.DONE, model.NOT_A_BLOCK)]
MAILS = [("mailed", own) for own in (True, False)]

WANTED = [*BEYOND, *ONE_WORD, *SIZES, *MAILS]


def words_changed(case, answer):
    """How many words of the arena a call has changed."""
    return sum(before != after for before, after in zip(case.words, answer.words))


class Asking(Lesson):
    """A lesson in which the sizes of all blocks are asked after each turn, and that of one that was given back."""

    def calls(self):
        """What is asked in one turn: more often than in other lessons another length of a block that is held."""
        if self.granted and self.random.random() < ANOTHER_LENGTH:
            block = self.block()
            return [self.random.choice(cases.TOGETHER)], block, self.asked(self.granted.get(block, 4))
        return super().calls()

    def count(self, asked, answers):
        """Counts what the answers show."""
        super().count(asked, answers)
        for case, answer in zip(asked, answers):
            if case.call in ledger.GRANT and answer.code == model.DONE:
                name = cases.name_of(case.call)
                self.met[name, "beyond", answer.fields[1] - case.asked] += 1
                self.met[name, "one word"] += words_changed(case, answer) == 1

    def sizes(self):
        """A turn in which the sizes are asked."""
        asked = [cases.Case(cases.SIZE, block, 0, self.words) for block in {*self.granted, self.given_back}]
        answers = [cases.answer_to(case) for case in asked]
        self.met.update(("size", "code", answer.code) for answer in answers)
        return Turn(asked, answers, 0, [])

    def mail(self):
        """The arena is mailed, or another one comes by mail: the run goes on with what the picture shows."""
        own = self.random.random() < 0.5
        sent = self.words if own else arenas.sound_arena(self.random, len(self.words)).words
        room = self.random.randbytes(len(pictures.picture_of(sent)))
        write = picture_cases.Case(picture_cases.WRITE, room, sent)
        written = picture_cases.answer_to(write)
        read = picture_cases.Case(picture_cases.READ, written.text, arenas.any_arena(self.random, len(sent)).words)
        self.met["mailed", own] += 1
        self.follow_picture(sent)
        return Mail([write, read], [written, picture_cases.answer_to(read)], own)

    def follow_picture(self, shown):
        """Goes on from the words that a picture shows."""
        held = ledger.pictured(shown)
        self.words = shown
        self.granted = {block: len(entry.words) for block, entry in held.items()}
        self.asked_for = {block: entry.asked for block, entry in held.items()}

    def turns(self, count):
        """A start, and so many turns, each with the sizes after it."""
        yield self.turn([cases.START], 0, 0)
        for _ in range(count):
            yield self.mail() if self.random.random() < MAILED else self.turn(*self.calls())
            yield self.sizes()


def ledger_mailed(held, mail, written):
    """The ledger after a reading, by the text that was written: a picture of the run's arena has to show its ledger."""
    shown = ledger.pictured(pictures.words_in(written.text))
    if mail.own and shown != held:
        raise Difference("by the ledger: a picture shows other blocks", picture_cases.case_bytes(mail.asked[0]))
    return shown


def replies_to(command, turns, form, split):
    """The replies of a program to the cases of these turns, held to the model; `split` takes them apart."""
    asked = [case for turn in turns for case in turn.asked]
    got = run_cases(command, asked, [answer for turn in turns for answer in turn.answers], form=form)
    return iter(split(asked, got))


def compare_turns(calls, mails, turns):
    """Makes these turns by two programs, of calls and of pictures: all replies are held to the model and to the ledger.

    Gives how many sizes were asked.
    """
    kinds = [[turn for turn in turns if isinstance(turn, kind)] for kind in (Turn, Mail)]
    replies = map(cases.answer_in, replies_to(calls, kinds[0], cases, replies_in))
    pictured = replies_to(mails, kinds[1], picture_cases, picture_cases.replies_in)
    held = {}
    for turn in turns:
        if isinstance(turn, Mail):
            written, read = next(pictured), next(pictured)
            held = ledger_mailed(held, turn, written)
            continue
        held = [ledger.noted(held, case, next(replies)) for case in turn.asked][turn.followed]
        for block, at, word in turn.stores:
            held[block].words[at] = word
    return sum(case.call == cases.SIZE for turn in kinds[0] for case in turn.asked)
