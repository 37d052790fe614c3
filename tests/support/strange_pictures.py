"""Texts for the reading of pictures: such as are still good, and pictures spoiled in every way that was thought of.

Each function is given words and yields texts. A text that comes out as the true picture is no spoiled one and is left
out by `spoiled_texts`. A frame is a pair here: the index in it, and its words.
"""

from itertools import combinations

from .pictures import FRAME_WORDS, picture_of

# Bytes that are set between others: digits, what is almost one, and what could pass for a space or the end of a line.
BYTES_BETWEEN = b"0fFgG/:@`+-_xX \t\r\n\v\f\0\x1a\x7f\x85\xa0\xff"

# What a line could end with instead of LF, or CR and LF.
OTHER_ENDS = [b"\r", b"\n\r", b"\0", b" \n", b"\t\n", b"\0\n", b"\\n", b"", b"\n\n"]

# What could stand before a picture, or behind one.
BESIDE = [b" ", b"\r", b"\n", b"\0", b"\0\0\0\0", b"\x1a", b"\xef\xbb\xbf", b"0", b"05\n", b"060000\n", b"070000\n"]


def framed(words, width=FRAME_WORDS, begin=0):
    """The frames of some words, all full but the last; the words before `begin` are left out."""
    return [(at, words[at:at + width]) for at in range(begin, len(words), width)]


def drawn(count, frames, head=b"06", mark=b"07"):
    """The text with this number of words in its first line, and these frames."""
    lines = [mark + b"%04X" % index + b"".join(b"%08X" % word for word in words) for index, words in frames]
    return b"".join(line + b"\n" for line in [head + b"%04X" % count, *lines])


def with_lines(change, words):
    """The picture with each of its lines, one at a time, changed; then with all of them changed."""
    lines = picture_of(words).splitlines(keepends=True)
    for at, line in enumerate(lines):
        yield b"".join(lines[:at]) + change(line) + b"".join(lines[at + 1:])
    yield b"".join(map(change, lines))


def in_either_case(random, text):
    """The text with each of its letters a small one or a capital one."""
    return bytes(random.choice(pair) for pair in zip(text.lower(), text.upper()))


# Texts that are still good.


def as_it_is(random, words):
    """The picture itself."""
    yield picture_of(words)


def lower_case(random, words):
    """Every digit that is a letter is a small one."""
    yield picture_of(words).lower()


def mixed_case(random, words):
    """Each digit that is a letter is a small one or a capital one."""
    yield in_either_case(random, picture_of(words))


GOOD = {"as it is": as_it_is, "lower case": lower_case, "mixed case": mixed_case}


# Texts that are bad: frames.


def frame_too_few(words):
    """One frame is missing, or all are."""
    frames = framed(words)
    for at in range(len(frames)):
        yield drawn(len(words), frames[:at] + frames[at + 1:])
    yield drawn(len(words), [])


def frame_too_many(words):
    """Behind the last frame comes another, with one word or more."""
    frames = framed(words)
    for index in (len(words), FRAME_WORDS * len(frames)):
        for more in ([0], words[:1], words[:FRAME_WORDS]):
            yield drawn(len(words), [*frames, (index, more)])


def frame_twice(words):
    """One frame comes a second time."""
    frames = framed(words)
    for at in range(len(frames)):
        yield drawn(len(words), frames[:at + 1] + frames[at:])


def another_order(words):
    """Two frames have changed places, or all stand the other way round."""
    frames = framed(words)
    for low, high in combinations(range(len(frames)), 2):
        order = list(frames)
        order[low], order[high] = order[high], order[low]
        yield drawn(len(words), order)
    yield drawn(len(words), frames[::-1])


def short_frame(words):
    """A frame lacks its last word; or its last word begins the next frame, and the indexes go with that."""
    frames = framed(words)
    for at, (index, held) in enumerate(frames):
        short, behind = [*frames[:at], (index, held[:-1])], frames[at + 1:]
        yield drawn(len(words), short + behind)
        yield drawn(len(words), short + framed(words, begin=index + len(held) - 1))
        if behind:
            yield drawn(len(words) - 1, short + behind)


def long_frame(words):
    """A frame has one word more: one of its own, or the first of the next frame."""
    frames = framed(words)
    for at, (index, held) in enumerate(frames):
        yield drawn(len(words), [*frames[:at], (index, held + [0]), *frames[at + 1:]])
        yield drawn(len(words), [*frames[:at], (index, words[index:index + FRAME_WORDS + 1]),
                                 *framed(words, begin=index + FRAME_WORDS + 1)])


def another_width(words):
    """All frames but the last have another number of words than eight."""
    for width in (1, 2, 4, 7, 9, 16, len(words)):
        yield drawn(len(words), framed(words, width))


def empty_frame(words):
    """A frame without words stands before another."""
    frames = framed(words)
    for at, (index, held) in enumerate(frames):
        yield drawn(len(words), [*frames[:at], (index, []), *frames[at:]])


def empty_last_frame(words):
    """A frame without words stands at the end."""
    frames = framed(words)
    for index in (len(words), FRAME_WORDS * len(frames)):
        yield drawn(len(words), [*frames, (index, [])])


def padded_last_frame(words):
    """The last frame is filled up to eight words."""
    *frames, (index, held) = framed(words)
    for word in (0, words[-1], 2**32 - 1):
        yield drawn(len(words), [*frames, (index, held + [word] * (FRAME_WORDS - len(held)))])


def wrong_index(words):
    """A frame has another index; or the indexes count frames, bytes, or words from 1."""
    frames = framed(words)
    for at, (index, held) in enumerate(frames):
        others = [index - 1, index + 1, index - 8, index + 8, index + 256, at, at + 1, 4 * index, len(words), 65535]
        for other in others:
            yield drawn(len(words), [*frames[:at], (max(other, 0), held), *frames[at + 1:]])
    for other in (lambda index: index // 8, lambda index: 4 * index, lambda index: index + 1, lambda index: 0):
        yield drawn(len(words), [(other(index), held) for index, held in frames])


def another_number(words):
    """The first line has another number of words than the frames hold."""
    count = len(words)
    for change in (-8, -2, -1, 1, 2, 8, 256, 4096):
        yield drawn(max(count + change, 0), framed(words))
    for number in (0, 6, 4 * count, len(framed(words)), 65535):
        yield drawn(number, framed(words))


# Texts that are bad: lines.


def another_mark(words):
    """The lines begin with other digits than 06 and 07, or with those of each other."""
    frames = framed(words)
    for head, mark in ((b"07", b"07"), (b"06", b"06"), (b"07", b"06"), (b"05", b"07"), (b"06", b"08"), (b"6", b"7"),
                       (b"60", b"70"), (b"16", b"17"), (b"0x06", b"0x07"), (b"", b""), (b"006", b"007")):
        yield drawn(len(words), frames, head, mark)
    yield from with_lines(lambda line: {b"06": b"07", b"07": b"06"}[line[:2]] + line[2:], words)


def another_head(words):
    """The first line is missing, comes twice, stands at the end, or comes before each frame."""
    head, *frames = picture_of(words).splitlines(keepends=True)
    yield from (b"".join(frames), head + head + b"".join(frames), b"".join(frames) + head)
    yield b"".join(head + frame for frame in frames)


def other_ends(words):
    """A line, or each of them, ends with something else than LF alone."""
    for end in OTHER_ENDS:
        yield from with_lines(lambda line, end=end: line[:-1] + end, words)


def carriage_returns(words):
    """A line, or each of them, ends with CR and LF."""
    yield from with_lines(lambda line: line[:-1] + b"\r\n", words)


def no_last_end(words):
    """The last line has no LF."""
    yield picture_of(words)[:-1]


def empty_line(words):
    """An empty line stands before a line, or at the end."""
    yield from with_lines(lambda line: b"\n" + line, words)
    yield picture_of(words) + b"\n"


def spaces(words):
    """A line, or each of them, has a space before it, behind it, or between its fields."""
    for at in (0, 2, 6, -1):
        yield from with_lines(lambda line, at=at: line[:at] + b" " + line[at:], words)


def something_beside(words):
    """Something stands before the picture, or behind it; the picture itself comes twice, or in lower case as well."""
    picture = picture_of(words)
    yield from (other + picture for other in BESIDE)
    yield from (picture + other for other in BESIDE)
    yield from (picture + picture, picture + picture.lower(), picture.upper() + picture[:7])


def no_text(words):
    """Nothing at all, or not even a first line."""
    yield from (b"", b"\n", b"\n\n", b"0", b"06", b"06\n", b"0600", b"060\n", b"07\n", b"0000\n", b"\0" * 7)


# Texts that are bad: bytes.


def cut_short(words):
    """The picture cut at every byte."""
    picture = picture_of(words)
    yield from (picture[:at] for at in range(len(picture)))


def front_cut_off(words):
    """The picture without its first bytes, however many."""
    picture = picture_of(words)
    yield from (picture[at:] for at in range(1, len(picture)))


def byte_missing(words):
    """One byte is missing, wherever it stood."""
    picture = picture_of(words)
    yield from (picture[:at] + picture[at + 1:] for at in range(len(picture)))


def byte_inserted(words):
    """One byte more, of those above, stands anywhere."""
    picture = picture_of(words)
    for at in range(len(picture) + 1):
        yield from (picture[:at] + bytes([byte]) + picture[at:] for byte in BYTES_BETWEEN)


BAD = {
    "a frame too few": frame_too_few, "a frame too many": frame_too_many, "a frame twice": frame_twice,
    "frames in another order": another_order, "a short frame": short_frame, "a long frame": long_frame,
    "frames of another width": another_width, "an empty frame": empty_frame, "an empty last frame": empty_last_frame,
    "a padded last frame": padded_last_frame, "a wrong index": wrong_index, "another number": another_number,
    "another mark": another_mark, "another head": another_head, "other ends": other_ends, "CR LF": carriage_returns,
    "no LF at the end": no_last_end, "an empty line": empty_line, "spaces": spaces,
    "something beside": something_beside, "no text": no_text,
}

BAD_BYTES = {"cut short": cut_short, "front cut off": front_cut_off, "a byte missing": byte_missing,
             "a byte inserted": byte_inserted}


def spoiled_texts(spoils, words):
    """Every text that these spoils make of the picture of some words, with what was done to it."""
    picture = picture_of(words)
    for kind, spoil in spoils.items():
        yield from ((kind, text) for text in spoil(words) if text != picture)


def byte_changed(words):
    """The picture with every byte in the place of each of its bytes: some of these texts are good."""
    picture = picture_of(words)
    for at in range(len(picture)):
        for byte in range(256):
            yield picture[:at] + bytes([byte]) + picture[at + 1:]


def random_text(random):
    """Digits, ends of lines and what is almost one, or lines that begin as they should."""
    kind = random.randrange(4)
    if kind == 0:
        return random.randbytes(random.randrange(60))
    if kind == 1:
        return bytes(random.choices(b"0123456789ABCDEFabcdef\n67", k=random.randrange(120)))
    if kind == 2:
        return bytes(random.choices(b"067\n", k=random.randrange(30)))
    count = random.randrange(20)
    frames = [(random.choice([8 * at, 8 * at, random.randrange(20)]), [0] * random.choice([8, 8, 8, 1, 4, 9]))
              for at in range(random.randrange(4))]
    return drawn(count, frames)


def mutated(random, text):
    """The text changed in one to four places: bytes are left out, come twice, or are others."""
    for _ in range(random.choice([1, 1, 2, 3, 4])):
        at = random.randrange(len(text) + 1)
        end = at + random.choice([0, 1, 1, 8])
        other = bytes([random.choice(BYTES_BETWEEN)])
        text = text[:at] + random.choice([b"", text[at:end] * 2, other, b"%X" % random.randrange(16)]) + text[end:]
    return text
