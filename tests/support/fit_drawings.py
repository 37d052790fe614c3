"""Reads the drawings of tools/fits: headings, chunks, labels, arrows, what is said, and whether texts keep apart."""

from collections import namedtuple
from xml.etree import ElementTree

from . import model
from .driver import Difference
from .fit_lists import NUMBERS, Chunk

SPACE = "{http://www.w3.org/2000/svg}"

# What a drawing has of a moment: the texts of its heading and of its axis, and its strips; of a strip: the mark of its
# control words, its chunks, arrows, and texts.
DrawnMoment = namedtuple("DrawnMoment", "heading axis strips")
Drawn = namedtuple("Drawn", "control chunks arrows texts")
PARTS = {"g": "chunks", "polygon": "arrows", "text": "texts"}

# How far two places may lie apart that have to be one, since few digits are written.
NEAR = 0.02

# About how wide a letter is for its size, and how far it goes up and down.
BROAD, UP, DOWN = 0.6, 0.8, 0.2

# The sizes of letters, and by how much a chunk has to be wider than its label; the most steps of an axis.
HEADING, LABEL, SAID, MARGIN = 12, 11, 10, 6
MOST_STEPS = 12


def numbers_of(element, names):
    """Some attributes of an element, as numbers."""
    return [float(element.get(name)) for name in names.split()]


def texts_of(elements):
    """What texts say."""
    return [element.text for element in elements]


def first_in(width, size, sayings):
    """The first of these sayings that is not wider than that, in letters of this size; None, where all are."""
    return next((said for said in sayings if BROAD * size * len(said) <= width), None)


def moments_in(drawing):
    """The moments of a drawing, in its order; each begins with its heading. The last strip is the legend's."""
    moments = []
    for part in drawing:
        tag = part.tag[len(SPACE):]
        heading = part.get("font-size") == str(HEADING)
        if heading and (not moments or moments[-1].strips):
            moments.append(DrawnMoment([], [], []))
        if heading:
            moments[-1].heading.append(part)
        elif part.get("fill") == "url(#stripes)":
            moments[-1].strips.append(Drawn(part, [], [], []))
        elif moments and moments[-1].strips and tag in PARTS:
            getattr(moments[-1].strips[-1], PARTS[tag]).append(part)
        elif moments and tag == "text":
            moments[-1].axis.append(part)
    moments[-1].strips.pop()
    return moments


def check_label(group, chunk, width):
    """A chunk has to have the longest label that has room in it, of which so much is not header; or none has room."""
    name, words = chunk.name, str(chunk.size - model.HEADER if chunk.name else chunk.size)
    sayings = [f"{name} {words}", name] if name else [f"{words} free", words]
    labels = texts_of(group.findall(SPACE + "text"))
    due = [first_in(width - MARGIN + near, LABEL, sayings) for near in (-NEAR, NEAR)]
    if (labels or [None]) not in [[label] for label in due]:
        raise Difference(f"the drawing has {chunk} with the labels {labels}, and {due[0]!r} is due")


def chunk_in(group, left, word_width):
    """The chunk that a group of parts shows, by its title, with which its label and its parts have to agree."""
    kind, place, size = group.find(SPACE + "title").text.replace(",", ":").split(": ")
    number, size = int(place.split(" ")[1]), int(size.split(" ")[0])
    live = place.startswith("block ")
    chunk = Chunk(kind, number - model.HEADER, size + model.HEADER) if live else Chunk(None, number, size)
    first, second, *others = group.findall(SPACE + "rect") + [None]
    spans = [(first, chunk.start, model.HEADER), (second, number, size)] if live else [(first, number, size)]
    for rectangle, start, count in spans:
        x, width = numbers_of(rectangle, "x width")
        if abs(x - left - start * word_width) > NEAR or abs(width - count * word_width) > NEAR:
            raise Difference(f"the drawing has {chunk} at {x:g} and {width:g} wide")
    if (first.get("fill") == "black") != live or (first.get("fill") == "white") == live:
        raise Difference(f"the drawing has {chunk} with the fill {first.get('fill')}")
    check_label(group, chunk, size * word_width)
    return chunk


def said_of(due, width):
    """What has to be said of a strip that is so wide: what was refused or, if that is too wide, how much."""
    numbers = ", ".join(f"{what} {number}" for what, number in zip(NUMBERS, due.numbers))
    if not due.refused:
        return numbers
    counted = "1 request" if len(due.refused) == 1 else f"{len(due.refused)} requests"
    return first_in(width, SAID, [f"{numbers}; refused: {told}" for told in (", ".join(due.refused), counted)])


def check_strip(drawn, due):
    """A strip has to show the chunks that are due, and all that is said of them."""
    left, width = numbers_of(drawn.control, "x width")
    word_width = width / model.FIRST_CHUNK
    chunks = [chunk_in(group, left, word_width) for group in drawn.chunks]
    if chunks != due.chunks:
        raise Difference(f"the drawing has the chunks {chunks} for {due.name}, and the model {due.chunks}")
    tips = [float(arrow.get("points").split(",")[0]) for arrow in drawn.arrows]
    rovers = [] if due.rover is None else [left + due.rover * word_width]
    if len(tips) != len(rovers) or any(abs(tip - rover) > NEAR for tip, rover in zip(tips, rovers)):
        raise Difference(f"the drawing has arrows at {tips} for {due.name}, and the rover is {due.rover}")
    said = [f"rover {due.rover}"] * len(rovers) + [due.name, said_of(due, word_width * words_of(due))]
    if texts_of(drawn.texts) != said:
        raise Difference(f"the drawing does not say {said}, but {texts_of(drawn.texts)}")


def words_of(due):
    """The words of a strip's arena."""
    return due.chunks[-1].start + due.chunks[-1].size


def check_moment(drawn, due):
    """A moment has to have the heading that is due, numbers where their words begin, and the strips that are due."""
    if " ".join(texts_of(drawn.heading)) != due.heading:
        raise Difference(f"the drawing has the heading {texts_of(drawn.heading)}, and {due.heading!r} is due")
    if len(drawn.strips) != len(due.strips):
        raise Difference(f"the drawing has {len(drawn.strips)} strips at a report, and there are {len(due.strips)}")
    left, width = numbers_of(drawn.strips[0].control, "x width")
    numbers = [int(text.text) for text in drawn.axis[1:]]
    if numbers != [*range(0, words_of(due.strips[0]) + 1, numbers[1])] or len(numbers) > MOST_STEPS + 1:
        raise Difference(f"the drawing has the numbers {numbers}")
    for text, number in zip(drawn.axis[1:], numbers):
        if abs(float(text.get("x")) - left - number * width / model.FIRST_CHUNK) > NEAR:
            raise Difference(f"the drawing has the number {number} at {text.get('x')}")
    for strip, due_strip in zip(drawn.strips, due.strips):
        check_strip(strip, due_strip)


def box_of(text):
    """About where a text lies: left, right, top and bottom."""
    x, y, size = numbers_of(text, "x y font-size")
    width = BROAD * size * len(text.text)
    left = x - {"start": 0, "middle": width / 2, "end": width}[text.get("text-anchor")]
    return left, left + width, y - UP * size, y + DOWN * size


def check_texts(drawing):
    """No text lies on another, or outside the paper, or outside the chunk that it is the label of."""
    right, bottom = map(float, drawing.get("viewBox").split(" ")[2:])
    texts = [(text, box_of(text)) for text in drawing.iter(SPACE + "text")]
    for at, (text, box) in enumerate(texts):
        if box[0] < 0 or box[1] > right or box[2] < 0 or box[3] > bottom:
            raise Difference(f"the text {text.text!r} lies outside the paper")
        for other, that in texts[:at]:
            if box[0] < that[1] and that[0] < box[1] and box[2] < that[3] and that[2] < box[3]:
                raise Difference(f"the texts {other.text!r} and {text.text!r} overlap")
    for group in drawing.iter(SPACE + "g"):
        words = [part for part in group.findall(SPACE + "rect") if part.get("stroke") != "none"]
        x, width = numbers_of(words[-1], "x width")
        for text in group.findall(SPACE + "text"):
            if box_of(text)[0] < x or box_of(text)[1] > x + width:
                raise Difference(f"the label {text.text!r} is wider than its chunk")


def compare_drawing(content, due):
    """Holds a drawing to the moments that are due."""
    try:
        drawing = ElementTree.fromstring(content)
    except ElementTree.ParseError as fault:
        raise Difference(f"the drawing is not well formed: {fault}") from fault
    moments = moments_in(drawing)
    if len(moments) != len(due):
        raise Difference(f"the drawing has {len(moments)} moments, and there are {len(due)}")
    for drawn, moment in zip(moments, due):
        check_moment(drawn, moment)
    check_texts(drawing)
