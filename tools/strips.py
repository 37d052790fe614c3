"""Draws arenas as strips, moment by moment, as an SVG picture: a strip has the chunks of an arena from left to right.

A live chunk's header is black, and its block has a fill of its own, with its name and its granted words; a free chunk
is white, with all its words; the two control words are striped. Where a label has no room it is left out. An arrow
points to a word of interest. It can be printed in black and white, on A4 with the long side down.
"""

import textwrap
from collections import namedtuple

from drawing import BROAD, CONTROL_WORDS, HEADER_WORDS, NotDrawn
from drawing import chunks_in, filled, line, patterns, picture, rectangle, text, title, width_of

# An arena to be drawn: what it is called, its words, the names of its blocks by their numbers, the word to which an
# arrow points and what that is called, if there is one, and what is said of it. A moment has a heading and such strips.
Strip = namedtuple("Strip", "name words blocks arrow said")
Moment = namedtuple("Moment", "heading strips")

# Where a strip begins, how wide and how high it is; then how much room a strip takes, a heading, and one line of it.
LEFT, WIDTH, HEIGHT, STRIP_ROOM, HEAD_ROOM, LINE_ROOM = 84, 880, 30, 62, 32, 15

# The sizes of letters: of what is said of a strip, of labels, and of headings; and the letters of a heading's line.
SAID, LABEL, HEADING = 10, 11, 12
LETTERS = int(WIDTH / (BROAD * HEADING))

# From each word that is numbered to the next is one step, and a strip has at most so many.
MOST_STEPS = 12


def pointer(x, y):
    """An arrow that points down to a place."""
    return f'<polygon points="{x:g},{y:g} {x - 4:g},{y - 9:g} {x + 4:g},{y - 9:g}"/>'


def fitting(sayings, width, size):
    """The first of these sayings that is not wider than that; nothing, where all are."""
    return next((said for said in sayings if width_of(said, size) <= width), "")


def labelled(x, y, width, sayings):
    """The first of these sayings that has room in this part of a strip, on white."""
    said = fitting(sayings, width - 6, LABEL)
    if not said:
        return []
    room, middle = width_of(said, LABEL) + 4, x + width / 2
    return [rectangle(middle - room / 2, y + 7, room, LABEL + 5, "white", "none"),
            text(middle, y + 19, said, "middle", LABEL)]


def titled(said, parts):
    """Parts that show this where they are pointed at."""
    return ["<g>", f"<title>{said}</title>", *parts, "</g>"]


class Drawing:
    """The drawing of some moments, in arenas of so many words; these are the names of blocks, in the order of fills."""

    def __init__(self, words, names, moments):
        self.words = words
        self.fills = {name: number for number, name in enumerate(names)}
        self.moments = moments

    def x(self, word):
        """Where a word begins."""
        return LEFT + word * WIDTH / self.words

    def run(self, start, count, y, fill):
        """A run of words: of one colour or, by its number, with a fill."""
        place = self.x(start), y, self.x(start + count) - self.x(start), HEIGHT
        return filled(*place, fill) if isinstance(fill, int) else [rectangle(*place, fill)]

    def label(self, start, count, y, sayings):
        """What is said of a run of words."""
        return labelled(self.x(start), y, self.x(start + count) - self.x(start), sayings)

    def live(self, start, size, name, y):
        """A live chunk."""
        block, granted = start + HEADER_WORDS, size - HEADER_WORDS
        if name not in self.fills:
            raise NotDrawn(f"block {block} has no name")
        parts = self.run(start, HEADER_WORDS, y, "black") + self.run(block, granted, y, self.fills[name])
        return titled(f"{name}: block {block}, {granted} words",
                      parts + self.label(block, granted, y, [f"{name} {granted}", name]))

    def gap(self, start, size, y):
        """A free chunk."""
        parts = self.run(start, size, y, "white")
        return titled(f"free: chunk {start}, {size} words",
                      parts + self.label(start, size, y, [f"{size} free", str(size)]))

    def arrow(self, word, name, y):
        """The arrow, with its name and its word on the side where there is room."""
        x = self.x(word)
        aside, anchor = (6, "start") if word < self.words / 2 else (-6, "end")
        return [pointer(x, y - 1), text(x + aside, y - 3, f"{name} {word}", anchor, SAID)]

    def strip(self, strip, y):
        """An arena."""
        yield from self.run(0, CONTROL_WORDS, y, "url(#stripes)")
        for start, size, asked in chunks_in(strip.words):
            name = strip.blocks.get(start + HEADER_WORDS)
            yield from self.live(start, size, name, y) if asked else self.gap(start, size, y)
        if strip.arrow:
            yield from self.arrow(*strip.arrow, y)
        yield text(LEFT - 8, y + HEIGHT / 2 + 4, strip.name, "end", LABEL)
        yield text(LEFT, y + HEIGHT + 12, fitting(strip.said, WIDTH, SAID), size=SAID)

    def axis(self, y):
        """The numbers of some words."""
        step = 2
        while self.words > MOST_STEPS * step:
            step *= 2
        yield text(LEFT - 8, y, "word", "end")
        for word in range(0, self.words + 1, step):
            yield text(self.x(word), y, word, "middle")
            yield line(self.x(word), y + 3, self.x(word), y + 7)

    def moment(self, moment, y):
        """A moment, from there down: all its parts, and where they end."""
        heading = textwrap.wrap(moment.heading, LETTERS)
        parts = [text(LEFT, y + LINE_ROOM * at, said, size=HEADING) for at, said in enumerate(heading)]
        y += LINE_ROOM * len(heading)
        parts += self.axis(y + 3)
        y += HEAD_ROOM
        for strip in moment.strips:
            parts += self.strip(strip, y)
            y += STRIP_ROOM
        return parts, y + 6

    def legend(self, y, arrow):
        """What the marks mean, the arrow too."""
        places = [LEFT + across for across in (0, 118, 198, 436, 700)]
        marks = ["url(#stripes)", "black", 0, "white"]
        said = ["control words", "header", "block: its name, its granted words",
                "free chunk: its words, header counted", arrow]
        for x, mark in zip(places, marks):
            yield from filled(x, y - 9, 22, 12, mark) if mark == 0 else [rectangle(x, y - 9, 22, 12, mark)]
        yield pointer(places[-1] + 11, y + 1)
        yield from (text(x + 28, y, each, size=SAID) for x, each in zip(places, said))

    def picture(self, called, arrow):
        """The whole drawing, called so; what the arrow is comes last in the legend."""
        parts = [title(LEFT, 26, called)]
        y = 54
        for moment in self.moments:
            more, y = self.moment(moment, y)
            parts += more
        return picture(LEFT + WIDTH + 24, y + 12, [*parts, *self.legend(y, arrow)], patterns())
