"""Pictures of arenas, item 4 of document 02: what a text shows, and what the three calls answer.

The model shares nothing with the library. It writes a picture by cutting one long run of digits into frames, and reads
one line by line, by the form of each; so the two check each other.
"""

import re
import struct
from collections import namedtuple

from . import model

FRAME_WORDS = 8
WORD_DIGITS = 8
WORD_BYTES = 4

# The lines of a picture, without their LF, and the words of a frame.
HEAD = re.compile(rb"06([0-9A-Fa-f]{4})")
FRAME = re.compile(rb"07([0-9A-Fa-f]{4})((?:[0-9A-Fa-f]{8}){1,8})")
WORD = re.compile(rb"[0-9A-Fa-f]{8}")

# What a call gives: the code, the number answered (0 where there is none), the text and the words afterwards.
Answer = namedtuple("Answer", "code field text words")


def picture_of(words):
    """The picture of some words, in upper case."""
    digits = struct.pack(f">{len(words)}I", *words).hex().upper().encode()
    width = FRAME_WORDS * WORD_DIGITS
    frames = [b"07%04X%s\n" % (at // WORD_DIGITS, digits[at:at + width]) for at in range(0, len(digits), width)]
    return b"06%04X\n" % len(words) + b"".join(frames)


def words_in(text):
    """The words of which a text is the picture, with digits of either case; None where the text is bad."""
    *lines, rest = text.split(b"\n")
    head = HEAD.fullmatch(lines[0]) if lines else None
    frames = [FRAME.fullmatch(line) for line in lines[1:]]
    if rest or head is None or None in frames:
        return None
    words = []
    for frame in frames:
        if len(words) % FRAME_WORDS != 0 or int(frame.group(1), 16) != len(words):
            return None
        words += [int(word, 16) for word in WORD.findall(frame.group(2))]
    return words if len(words) == int(head.group(1), 16) else None


def words_spelled(content):
    """The words that these bytes spell, four to a word, the low byte first."""
    return list(struct.unpack(f"<{len(content) // WORD_BYTES}I", content))


def judged(words):
    """The code for these words: that of a sound arena, or of the reason why they are none."""
    try:
        model.live_and_gaps(words)
    except model.Refused as refusal:
        return refusal.code
    return model.DONE


# The calls on a text and an arena, both of which stay as they are: the answer has what becomes of them.


def write(text, words):
    """The picture of the arena at the start of the text, and how long it is; the rest of the text stays."""
    picture = picture_of(words)
    code = judged(words)
    if code == model.DONE and len(text) < len(picture):
        code = model.TEXT_ROOM
    if code != model.DONE:
        return Answer(code, 0, text, words)
    return Answer(code, len(picture), picture + text[len(picture):], words)


def read(text, words):
    """The words of the picture in the place of the arena's, which may be any; the picture's are judged."""
    shown = words_in(text)
    if shown is None:
        code = model.FRAME
    else:
        code = judged(shown) if len(shown) == len(words) else model.LENGTH
    return Answer(code, 0, text, shown if code == model.DONE else words)


def check(text, words):
    """Whether the bytes of the text spell a sound arena; no arena is lent."""
    code = judged(words_spelled(text)) if len(text) % WORD_BYTES == 0 else model.LENGTH
    return Answer(code, 0, text, words)
