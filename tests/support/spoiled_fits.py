"""What spoils the lesson on the three fits: its page, its lists, its drawings, or the tool that makes them."""

from .spoiling import replaced

DRIVER = "test_fits_tool"


def tool(old, new):
    """The tool has other words in one place."""
    return replaced("tools/fits", old, new)


def strips(old, new):
    """What the tool draws with has other words in one place."""
    return replaced("tools/strips.py", old, new)


def page(old, new):
    """The page has other words in one place."""
    return replaced("docs/FITS.md", old, new)


# What spoils a copy, and what the driver then has to tell.
SPOILED = [
    (page("| 70, 24 | 70, 28 |", "| 70, 28 | 70, 28 |"), "does not have of docs/fits-best.txt: | `docs/fits-best.txt`"),
    (page("| | H 24 | block 72 |", "| | H 24 | block 74 |"), "does not have of docs/fits-first.txt: | | H 24"),
    (page("      7 E 10                  22", "      7 E 10                  20"),
     "does not have of docs/fits-best.txt: "),
    (page("    python3 tools/fits docs/fits-best.txt", "    python3 tools/fits"),
     "fits-best.txt:     python3 tools/fits"),
    (page("](fits-next.svg)", "](next-fits.svg)"), "does not have of docs/fits-next.txt: ](fits-next.svg)"),
    (page("    light 4\n", "    light four\n"), "a list is not run: "),
    (page("    64 words\n", "    64 words are enough\n"), "docs/FITS.md has 0 lists to start from"),
    (replaced("docs/fits-best.txt", "F 28", "F 24"), "the last request of docs/fits-best.txt is granted by"),
    (replaced("docs/fits-next.txt", "G 6", "G 8"), "the last request of docs/fits-next.txt is granted by"),
    (replaced("docs/fits-first.txt", "free A\nfree C", "free C\nfree A"), "docs/fits-first.svg is not what is drawn"),
    (replaced("docs/fits-next.svg", "black", "grey"), "docs/fits-next.svg is not what is drawn"),
    (replaced("docs/promise.txt", "E 12", "E 10"), "the last requests of docs/promise.txt came to"),
    (replaced("docs/promise.txt", "F 10", "F 8"), "the last requests of docs/promise.txt came to"),
    (replaced("docs/promise.svg", "black", "grey"), "docs/promise.svg is not what is drawn"),
    (replaced("docs/BOARD.md", "](promise.svg)", "](promises.svg)"), "docs/BOARD.md does not show the drawing of"),
    (tool('"best fit": 11', '"best fit": 2'), "of a list: row 36 of the table"),
    (tool("NEXT_FIT: 12", "NEXT_FIT: 11"), "of a list: row 2 of the table"),
    (tool("self.rover or 0,", "0,"), "of a list: row 8 of the table"),
    (tool("fields[ROVER]", "self.rover"), "of a list: row 2 of the table"),
    (tool("fields[ROVER]", "fields[0]"), "of a list: row 2 of the table"),
    (tool("self.rover = 0 if", "self.rover = 1 if"), "of a list: the drawing has arrows at"),
    (tool('return Outcome("-", None, self.rover)', 'return Outcome("freed", None, self.rover)'), "of a list: row"),
    (tool("self.held.pop(step.name)", "self.held[step.name]"), "of a list: row 34 of the table"),
    (tool("row.outcomes[-1].rover", "row.outcomes[0].rover or 0"), "of a list: row"),
    (tool('"free words", "largest request"', '"largest request", "free words"'), "of a list: "),
    (tool("runs = {fit: Run(calls, fit, started)", "runs = {fit: Run(calls, NEXT_FIT, started)"), "of a list: row 36"),
    (tool("listed.steps[-1:] != [REPORT_STEP]", "not listed.steps"), "of a list: row"),
    (tool('told.split("#")[0]', "told"), "a list is not run"),
    (tool("if told and words is None:", "if words is None:"), "a list is not run"),
    (tool("name=\"all three\"", "name=\"each\""), "of a list: the drawing does not say ['rover 0', 'all three'"),
    (tool("if alike else strips", "if strips else strips"), "of a list: the drawing has"),
    (tool("other == first for", "other.words == first.words for"),
     "of a list: the drawing has 1 strips at a report, and there are 3"),
    (tool("; refused: {', '.join(stand.refused)}", ""), "of a list: the drawing does not say"),
    (tool("refused, self.refused = self.refused, []", "refused = list(self.refused)"),
     "of a list: the drawing does not say"),
    (tool("return [f\"{numbers}; refused: {', '.join(stand.refused)}\", ", "return ["),
     "of a list: the drawing does not say"),
    (tool('"1 request" if count == 1 else ', ""), "of a list: the drawing does not say"),
    (tool("            since = []", "            pass"), "of a list: the drawing has the heading ['After request"),
    (tool("After request {row.number}", "After request {len(row.steps)}"),
     "of a list: the drawing has the heading ['After request 1: LLL"),
    (tool('if row.number else "Before the first request"', ""), "the drawing has the heading ['After request 0']"),
    (tool("{row.number:>{digits}}", "{row.number:>3}"), "of a list: the table has this line out of its columns"),
    (tool("utf-8-sig", "utf-8"), "a list is not run: "),
    (tool('"program"), "cases"]', '"program"), "case"]'), "docs/FITS.md does not show what its own command does"),
    (tool("None if chosen.drawing is None else ", ""), "docs/FITS.md does not show what its own command does"),
    (tool("    put(table_of(listed, rows)", "    drawing and put(table_of(listed, rows)"),
     "docs/FITS.md does not show what its own command does"),
    (tool('(stand.rover, "rover")', '(2, "rover")'), "of a list: the drawing has arrows at"),
    (replaced("tools/drawing.py", '6: "NoRoom"', '6: "Full"'), "of a list: row"),
    (strips("word * WIDTH / self.words", "word * WIDTH / (self.words + 2)"),
     "docs/fits-first.svg is not what is drawn"),
    (strips("block, granted = start + HEADER_WORDS, size", "block, granted = start, size"),
     "of a list: the drawing has"),
    (strips("size - HEADER_WORDS", "size"), "of a list: the drawing has"),
    (strips("if asked else self.gap(start, size, y)", "if name else []"), "of a list: the drawing has"),
    (strips('[f"{name} {granted}", name]', '[f"{name} {size}", name]'), "with the labels ['C 42'], and 'C 40' is due"),
    (strips('[f"{name} {granted}", name]', '[f"{name} {granted}"]'), "with the labels [], and 'A' is due"),
    (strips('f"{size} free"', 'f"{size - HEADER_WORDS} free"'), "with the labels ['996 free'], and '998 free' is due"),
    (strips('[f"{size} free", str(size)]', '[f"{size} free"]'), "with the labels [], and '26' is due"),
    (strips("width - 6, LABEL", "width + 20, LABEL"), "of a list: the drawing has"),
    (strips("fitting(strip.said, WIDTH, SAID)", "strip.said[0]"), "of a list: the drawing does not say"),
    (strips("textwrap.wrap(moment.heading, LETTERS)", "[moment.heading]"), "of a list: the text"),
    (strips("in enumerate(heading)]", "in enumerate(heading[:1])]"), "of a list: the drawing has the heading"),
    (strips("self.x(word), y, word,", "self.x(word), y, word + 2,"), "of a list: the drawing has the numbers"),
    (strips("text(self.x(word), y, word,", "text(self.x(word + 2), y, word,"),
     "of a list: the drawing has the number 0"),
    (strips("y += STRIP_ROOM", "y += HEIGHT"), "of a list: the texts"),
    (strips("word < self.words / 2", "word < self.words"), "docs/fits-first.svg is not what is drawn"),
    (strips('"</g>"', '""'), "of a list: the drawing is not well formed"),
]
