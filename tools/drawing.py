"""What the tools that draw share: the chunks that an arena's words have, and the parts of an SVG picture."""

LIVE_MARK = 2147483648
CONTROL_WORDS = HEADER_WORDS = 2

DONE = 0
REASONS = {1: "Length", 2: "Damaged", 3: "NotABlock", 4: "Zero", 5: "TooLarge", 6: "NoRoom", 7: "Frame", 8: "WouldMove"}

# The sizes of letters, and about how wide a letter is for its size, by the wider fonts.
SMALL, LARGE, BROAD = 9, 15, 0.6

STRIPES = ('<pattern id="stripes" width="6" height="6" patternUnits="userSpaceOnUse" patternTransform="rotate(45)">'
           '<rect width="6" height="6" fill="white"/><rect width="2" height="6" fill="black"/></pattern>')

# The fills of blocks, and then from the first again: colours, and lines that tell them apart without these.
RISING, FALLING = "M-2 2L2 -2M0 8L8 0M6 10L10 6", "M-2 6L2 10M0 0L8 8M6 -2L10 2"
FILLS = [("#fbd9b0", RISING), ("#c6def5", "M0 4H8"), ("#cdeac3", "M2.5 4H5.5M4 2.5V5.5"), ("#f8ccd2", FALLING),
         ("#d9d9d9", "M0 0"), ("#fff0a3", "M4 0V8"), ("#dccff0", RISING + FALLING), ("#bfe8e4", "M0 4H8M4 0V8")]


class NotDrawn(Exception):
    """Why something cannot be drawn."""


def asked_in(start, size, second):
    """The words that were asked for, by a chunk's second word; 0 where the chunk is free."""
    asked = second - LIVE_MARK
    if asked < 0:
        return 0
    if not 1 <= asked <= size - HEADER_WORDS:
        raise NotDrawn(f"the chunk at word {start} cannot have been granted for {words_of(asked)}")
    return asked


def chunks_in(words):
    """The chunks of an arena: where each begins, its size, and the words that were asked for, 0 where it is free."""
    if len(words) <= CONTROL_WORDS or words[0] != len(words):
        raise NotDrawn("its first word is not the number of its words")
    chunks = []
    start = CONTROL_WORDS
    while start < len(words):
        size = words[start]
        if size < 2 * HEADER_WORDS or start + size > len(words):
            raise NotDrawn(f"there is no chunk at word {start}, where the one before it ends")
        chunks.append((start, size, asked_in(start, size, words[start + 1])))
        start += size
    return chunks


def rectangle(x, y, width, height, fill, stroke="black"):
    place = f'x="{x:g}" y="{y:g}" width="{width:g}" height="{height:g}"'
    return f'<rect {place} fill="{fill}" stroke="{stroke}" stroke-width="0.8"/>'


def line(x1, y1, x2, y2, stroke="black", width=1):
    return f'<line x1="{x1:g}" y1="{y1:g}" x2="{x2:g}" y2="{y2:g}" stroke="{stroke}" stroke-width="{width}"/>'


def text(x, y, said, anchor="start", size=SMALL, more=""):
    return f'<text x="{x:g}" y="{y:g}" font-size="{size}" text-anchor="{anchor}"{more}>{said}</text>'


def title(x, y, said):
    """What a picture is called."""
    return text(x, y, said, size=LARGE, more=' font-weight="bold"')


def width_of(said, size=SMALL):
    """About how wide a text is."""
    return BROAD * size * len(said)


def words_of(count):
    return "1 word" if count == 1 else f"{count} words"


def pattern(number, path):
    """The lines of a fill."""
    lines = f'<path d="{path}" fill="none" stroke="black" stroke-width="0.6"/>'
    return f'<pattern id="lines{number}" width="8" height="8" patternUnits="userSpaceOnUse">{lines}</pattern>'


def patterns():
    """The lines of all fills."""
    return [pattern(number, path) for number, (colour, path) in enumerate(FILLS)]


def filled(x, y, width, height, number):
    """A rectangle with the fill of this number."""
    number %= len(FILLS)
    return [rectangle(x, y, width, height, fill) for fill in (FILLS[number][0], f"url(#lines{number})")]


def picture(width, height, parts, patterned=()):
    """A whole picture of this size, on white, with these patterns besides the stripes."""
    head = f'<svg xmlns="http://www.w3.org/2000/svg" viewBox="0 0 {width:g} {height:g}" font-family="sans-serif">'
    paper = f'<rect width="{width:g}" height="{height:g}" fill="white"/>'
    return "\n".join([head, STRIPES, *patterned, paper, *parts, "</svg>\n"])
