"""The driving program of document 01 over the model: bytes in, bytes out."""

import re

from . import model

BUFFER_WORDS = 16384
MALFORMED = b"0007"

# The five requests; nothing else is a line.
DIGITS = rb"([0-9A-Fa-f]{4})"
REQUESTS = [
    (b"01", re.compile(b"01" + DIGITS)),
    (b"02", re.compile(b"02" + DIGITS)),
    (b"03", re.compile(b"03" + DIGITS)),
    (b"04", re.compile(b"04" + DIGITS + DIGITS)),
    (b"05", re.compile(b"05")),
]

CALLS = {b"02": model.alloc, b"03": model.free, b"04": model.realloc, b"05": model.report}

# After so many lines what the model keeps of its arena is held to the words.
LINES_UNCHECKED = 50


class Board:
    """The program between two lines: the words of its buffer that are lent, and those behind them."""

    def __init__(self):
        self.lent = model.Lent([])
        self.behind = [0] * BUFFER_WORDS
        self.unchecked = 0

    def start(self, length):
        """Lends another arena; a refused start keeps the former one."""
        if length > BUFFER_WORDS:
            return model.LENGTH
        buffer = self.lent.words + self.behind
        lent = model.Lent(buffer[:length])
        code, nothing = model.start(lent)
        if code == model.DONE:
            self.check()
            self.lent, self.behind = lent, buffer[length:]
        return code

    def check(self):
        """Holds what the model keeps of its arena to the words: now and then, before a start, at the end."""
        self.lent.check()
        self.unchecked = 0

    def reply(self, line):
        """The reply to one line; neither has its LF."""
        self.unchecked += 1
        if self.unchecked > LINES_UNCHECKED:
            self.check()
        for request, form in REQUESTS:
            match = form.fullmatch(line)
            if match:
                numbers = [int(digits, 16) for digits in match.groups()]
                return self.reply_to(request, numbers)
        return MALFORMED

    def reply_to(self, request, numbers):
        """The reply to a line that is well formed."""
        if request == b"01":
            code, fields = self.start(numbers[0]), ()
        else:
            code, fields = CALLS[request](self.lent, *numbers)
        return request + b"%02X" % code + b"".join(b"%04X" % field for field in fields)


def lines_of(text):
    """The lines of an input: LF ends a line, and a last line without LF counts if it is not empty."""
    lines = text.split(b"\n")
    if lines[-1] == b"":
        lines.pop()
    return lines


def output_for(text):
    """All that the program writes for an input."""
    board = Board()
    output = b"".join(board.reply(line) + b"\n" for line in lines_of(text))
    board.check()
    return output
