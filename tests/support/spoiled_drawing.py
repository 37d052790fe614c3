"""What spoils the morning's picture, the experiment's lines, their drawings, the page, or the tools that draw."""

from .spoiling import replaced

DRIVER = "test_drawing"


def lab(old, new):
    """The experiment's lines have other words in one place."""
    return replaced("examples/experiment.stdout", old, new)


def lab_tool(old, new):
    """The tool that draws a batch has other words in one place."""
    return replaced("tools/draw_batch", old, new)


def shared(old, new):
    """What the tools that draw share has other words in one place."""
    return replaced("tools/drawing.py", old, new)


# What spoils a copy, and what the driver then has to tell.
SPOILED = [
    (replaced("docs/morning.txt", "060040", "060042"), "docs/morning.txt is not what the library writes"),
    (replaced("docs/morning.svg", "black", "grey"), "docs/morning.svg is not what is drawn"),
    (replaced("docs/BOARD.md", "    060040", "    060042"), "docs/BOARD.md does not show docs/morning.txt"),
    (replaced("docs/BOARD.md", "(morning.svg)", "(evening.svg)"), "docs/BOARD.md does not show docs/morning.svg"),
    (replaced("docs/BOARD.md", "(experiment.svg)", "(lab.svg)"), "docs/BOARD.md does not show docs/experiment.svg"),
    (shared("LIVE_MARK = 2147483648", "LIVE_MARK = 0"), "the picture of the morning is not drawn"),
    (shared("LIVE_MARK = 2147483648", "LIVE_MARK = 4294967295"), "docs/morning.svg is not what is drawn"),
    (shared("not 1 <= asked", "not 0 <= asked"), "of the text"),
    (shared("asked <= size - HEADER_WORDS", "asked <= size"), "of the text"),
    (replaced("tools/draw_arena", "at < block + asked", "at <= block + asked"),
     "docs/morning.svg is not what is drawn"),
    (replaced("tools/draw_arena", "if picture_of(words) != text.upper():", "if not words and not text:"),
     "of the text"),
    (shared("size < 2 * HEADER_WORDS or", "size < 1 or"), "of the text"),
    (shared("words[0] != len(words)", "False"), "of the text"),
    (shared('patternUnits="userSpaceOnUse">{lines}', 'patternUnits="objectBoundingBox">{lines}'),
     "docs/experiment.svg is not what is drawn"),
    (replaced("docs/experiment.svg", "black", "grey"), "docs/experiment.svg is not what is drawn"),
    (lab("size        64    0     0     40       40", "size        64    0     0     40       38"),
     "experiment.stdout is not drawn"),
    (lab("size       106    0     0      7        8", "size       106    0     0      8        8"),
     "experiment.stdout is not drawn"),
    (lab("22   56     6", "22   56     8"), "experiment.stdout: request 34 has Record("),
    (lab("     40  realloc     90   30     0     90       30\n", ""), "experiment.stdout has 39 requests"),
    (lab_tool("record, old.alloc", "record, 0"), "docs/experiment.svg is not what is drawn"),
    (lab_tool("0.7 * new.granted", "0.6 * new.granted"), "docs/experiment.svg is not what is drawn"),
    (lab_tool("if record.code == DONE:", "if record:"), "experiment.stdout is not drawn"),
    (lab_tool("fields[0] != str(number)", "False"), "of the text"),
    (lab_tool("if start < other.block + other.granted and", "if False and"), "of the text"),
    (lab_tool("end > self.words or", ""), "of the text"),
    (lab_tool("(entry.asked, entry.granted) != (record.block, record.granted)", "entry.asked != record.block"),
     "of the text"),
    (lab_tool("(entry.asked, entry.granted) != (record.block, record.granted)", "entry.granted != record.granted"),
     "of the text"),
    (lab_tool("or record.block or record.granted", ""), "of the text"),
    (lab_tool('"unknown": "unknown"', '"other": "other"'), "a short batch is not drawn"),
]
