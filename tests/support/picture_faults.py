"""What a stand-in for the program `picture_cases` can do wrong: each fault puts a wrong function into the model."""

import struct

from . import model, pictures
from .pictures import FRAME_WORDS

true_picture, true_words = pictures.picture_of, pictures.words_in
true_write, true_read, true_check = pictures.write, pictures.read, pictures.check


def spoil_write(spoil):
    """Makes of each write what `spoil` makes of the text, the arena and the true answer."""
    pictures.write = lambda text, words: spoil(text, words, true_write(text, words))


def spoil_read(spoil):
    """Makes of each read what `spoil` makes of the text, the arena and the true answer."""
    pictures.read = lambda text, words: spoil(text, words, true_read(text, words))


def spoil_check(spoil):
    """Makes of each check what `spoil` makes of the bytes and the true code."""
    def check(text, words):
        answer = true_check(text, words)
        return answer._replace(code=spoil(text, answer.code))

    pictures.check = check


def accept(mended):
    """Reads a text that is bad as the text that `mended` makes of it."""
    def words_in(text):
        words = true_words(text)
        return true_words(mended(text)) if words is None else words

    pictures.words_in = words_in


def head_and_frames(text):
    """The first line of a text and the others, each with its LF."""
    lines = text.splitlines(keepends=True)
    return b"".join(lines[:1]), lines[1:]


def words_held(frames):
    """How many words these frames hold, by their lengths."""
    return sum((len(frame) - 7) // 8 for frame in frames)


# Faults of writing.


def end_with_zero():
    """Writes a zero byte behind the picture, where there is room for it."""
    def spoil(text, words, answer):
        end = answer.field
        return answer._replace(text=answer.text[:end] + b"\0" + text[end + 1:]) if 0 < end < len(text) else answer

    spoil_write(spoil)


def clear_rest():
    """Clears the rest of the text."""
    spoil_write(lambda text, words, answer: answer._replace(
        text=answer.text[:answer.field].ljust(len(text), b"\0") if answer.code == model.DONE else text))


def write_small_letters():
    """Writes digits in lower case."""
    pictures.picture_of = lambda words: true_picture(words).lower()


def write_before_room():
    """Fills as much of the text as there is before it says that the room is too little."""
    spoil_write(lambda text, words, answer: answer._replace(
        text=true_picture(words)[:len(text)] if answer.code == model.TEXT_ROOM else answer.text))


def lose_last_byte():
    """Is done, but for the last LF, where the text is one byte too short for the picture."""
    def spoil(text, words, answer):
        picture = true_picture(words)
        if answer.code == model.TEXT_ROOM and len(text) == len(picture) - 1:
            return pictures.Answer(model.DONE, len(picture), picture[:-1], words)
        return answer

    spoil_write(spoil)


def want_more_room():
    """Refuses a text that is just as long as the picture."""
    def spoil(text, words, answer):
        if answer.code == model.DONE and len(text) == answer.field:
            return pictures.Answer(model.TEXT_ROOM, 0, text, words)
        return answer

    spoil_write(spoil)


def room_before_damage():
    """Says that the room is too little before it looks at the arena's words."""
    spoil_write(lambda text, words, answer: answer._replace(
        code=model.TEXT_ROOM if answer.code == model.DAMAGED and len(text) < len(true_picture(words)) else answer.code))


def answer_room():
    """Answers how much room there is, and not how long the picture is."""
    spoil_write(lambda text, words, answer: answer._replace(field=len(text) if answer.code == model.DONE else 0))


def answer_wanted_room():
    """Answers the length of the picture in a refusal for want of room, too."""
    spoil_write(lambda text, words, answer: answer._replace(
        field=len(true_picture(words)) if answer.code == model.TEXT_ROOM else answer.field))


def write_padded():
    """Fills up the last frame with zeros."""
    def picture_of(words):
        missing = -len(words) % FRAME_WORDS
        return true_picture(words)[:-1] + b"0" * (8 * missing) + b"\n"

    pictures.picture_of = picture_of


def write_empty_frame():
    """Writes an empty last frame where the others are full."""
    def picture_of(words):
        return true_picture(words) + (b"07%04X\n" % len(words) if len(words) % FRAME_WORDS == 0 else b"")

    pictures.picture_of = picture_of


def write_index(index_of):
    """Writes what `index_of` makes of a frame's number in the place of its index."""
    def picture_of(words):
        head, frames = head_and_frames(true_picture(words))
        return head + b"".join(b"07%04X" % index_of(number) + frame[6:] for number, frame in enumerate(frames))

    pictures.picture_of = picture_of


# Faults of reading: what is refused, and with which reason.


def store_before_check():
    """Stores the words of the picture before it looks whether they are a sound arena."""
    spoil_read(lambda text, words, answer: answer._replace(
        words=true_words(text) if answer.code == model.DAMAGED else answer.words))


def store_frame_by_frame():
    """Stores the words of each frame before it has read the next one."""
    def spoil(text, words, answer):
        first = text[:78]
        held = true_words(b"060008" + first[6:]) if answer.code == model.FRAME and len(text) > 78 else None
        return answer._replace(words=(held + words[8:])[:len(words)]) if held else answer

    spoil_read(spoil)


def judge_lent_words():
    """Looks at the words that are lent, and not at those of the picture."""
    def spoil(text, words, answer):
        if answer.code not in (model.DONE, model.DAMAGED):
            return answer
        code = pictures.judged(words)
        return pictures.Answer(code, 0, text, true_words(text) if code == model.DONE else words)

    spoil_read(spoil)


def refuse_first(code):
    """Refuses a bad text with this code where it holds of the words that are lent."""
    spoil_read(lambda text, words, answer: answer._replace(
        code=code if answer.code == model.FRAME and pictures.judged(words) == code else answer.code))


def damage_before_length():
    """Says that the picture's words are damaged before it looks at how many are lent."""
    def spoil(text, words, answer):
        damaged = answer.code == model.LENGTH and pictures.judged(true_words(text)) == model.DAMAGED
        return answer._replace(code=model.DAMAGED if damaged else answer.code)

    spoil_read(spoil)


def bad_where(unlawful):
    """Takes a text for bad whose number of words is unlawful so."""
    def words_in(text):
        words = true_words(text)
        return None if words is None or unlawful(len(words)) else words

    pictures.words_in = words_in


def fill_longer_arena():
    """Stores the picture at the start of a longer arena, too."""
    def spoil(text, words, answer):
        shown = true_words(text)
        if answer.code == model.LENGTH and len(shown) < len(words) and pictures.judged(shown) == model.DONE:
            return pictures.Answer(model.DONE, 0, text, shown + words[len(shown):])
        return answer

    spoil_read(spoil)


def answer_words():
    """Answers how many words it has read."""
    spoil_read(lambda text, words, answer: answer._replace(field=len(words) if answer.code == model.DONE else 0))


def raise_letters():
    """Makes the letters of a text that it has read capital ones."""
    spoil_read(lambda text, words, answer: answer._replace(text=text.upper()))


# Faults of reading: what is good.


def capitals_only():
    """Takes a text with small letters for bad."""
    pictures.words_in = lambda text: true_words(text) if text == text.upper() else None


def any_index(digits):
    """Does not look at the first digits, so many, of the index of a frame."""
    def mended(text):
        head, frames = head_and_frames(text)
        due = [b"%04X" % (8 * at) for at in range(len(frames))]
        return head + b"".join(frame[:2] + index[:digits] + frame[2 + digits:] for frame, index in zip(frames, due))

    accept(mended)


def any_mark():
    """Does not look at the first two digits of a line."""
    def mended(text):
        head, frames = head_and_frames(text)
        return b"06" + head[2:] + b"".join(b"07" + frame[2:] for frame in frames)

    accept(mended)


def any_width():
    """Takes frames of any number of words, as long as their indexes go with that."""
    def mended(text):
        head, frames = head_and_frames(text)
        for at, frame in enumerate(frames):
            if frame[:6].upper() != b"07%04X" % words_held(frames[:at]):
                return text
        digits = b"".join(frame[6:-1] for frame in frames)
        return head + b"".join(b"07%04X%s\n" % (at // 8, digits[at:at + 64]) for at in range(0, len(digits), 64))

    accept(mended)


def padding():
    """Takes a last frame that is filled up with other words."""
    def mended(text):
        shorter = (text[:-1 - 8 * more] + text[-1:] for more in range(1, FRAME_WORDS))
        return next((other for other in shorter if true_words(other) is not None), text)

    accept(mended)


def empty_frame():
    """Takes an empty frame at the end."""
    accept(lambda text: text[:-7] if text[-7:-5] == b"07" else text)


def no_last_end():
    """Takes a text whose last line has no LF."""
    accept(lambda text: text + b"\n")


def carriage_returns():
    """Takes lines that end with CR and LF."""
    accept(lambda text: text.replace(b"\r\n", b"\n"))


def spaces():
    """Passes over spaces."""
    accept(lambda text: text.replace(b" ", b""))


def empty_lines():
    """Passes over empty lines."""
    accept(lambda text: b"".join(line for line in text.splitlines(keepends=True) if line != b"\n"))


def anything_behind():
    """Does not look at what comes behind the last frame."""
    def mended(text):
        lines = text.splitlines(keepends=True)
        fronts = (b"".join(lines[:count]) for count in range(len(lines)))
        return next((front for front in fronts if true_words(front) is not None), text)

    accept(mended)


def any_number(digits):
    """Does not look at the first digits, so many, of the number of words that the frames hold."""
    def mended(text):
        head, frames = head_and_frames(text)
        return head[:2] + (b"%04X" % words_held(frames))[:digits] + head[2 + digits:] + b"".join(frames)

    accept(mended)


# Faults of the check.


def high_byte_first():
    """Takes the high byte of a word first."""
    pictures.words_spelled = lambda content: list(struct.unpack(f">{len(content) // 4}I", content))


def length_by_four_only():
    """Refuses a number of bytes with 1 only where it is no multiple of four."""
    spoil_check(lambda text, code: model.DAMAGED if code == model.LENGTH and len(text) % 4 == 0 else code)


def bytes_over():
    """Passes over the bytes that make no whole word."""
    spoil_check(lambda text, code: pictures.judged(pictures.words_spelled(text[:len(text) // 4 * 4])))


def bytes_over_damage():
    """Takes bytes over for damage."""
    spoil_check(lambda text, code: model.DAMAGED if len(text) % 4 != 0 else code)


PICTURE_FAULTS = {
    # Writing.
    "zero": end_with_zero, "clears": clear_rest, "small": write_small_letters, "fills": write_before_room,
    "loses": lose_last_byte, "roomy": want_more_room, "roomfirst": room_before_damage, "room": answer_room,
    "tells": answer_wanted_room, "pads": write_padded, "endframe": write_empty_frame,
    "numbers": lambda: write_index(lambda number: number),
    "indexbyte": lambda: write_index(lambda number: 8 * number % 256),
    # Reading: what is refused, and with which reason.
    "soon": store_before_check, "frames": store_frame_by_frame, "lent": judge_lent_words,
    "onefirst": lambda: refuse_first(model.LENGTH), "twofirst": lambda: refuse_first(model.DAMAGED),
    "damagefirst": damage_before_length, "badzero": lambda: bad_where(lambda length: length == 0),
    "badodd": lambda: bad_where(lambda length: length % 2 == 1),
    "badlong": lambda: bad_where(lambda length: length > model.LONGEST_ARENA), "longer": fill_longer_arena,
    "counts": answer_words, "raises": raise_letters,
    # Reading: what is good.
    "capitals": capitals_only, "anyindex": lambda: any_index(4), "lowindex": lambda: any_index(2),
    "anynumber": lambda: any_number(4), "lownumber": lambda: any_number(2), "anymark": any_mark, "anywidth": any_width,
    "padded": padding, "emptyframe": empty_frame, "nolast": no_last_end, "returns": carriage_returns,
    "spaces": spaces, "emptylines": empty_lines, "behind": anything_behind,
    # The check.
    "highfirst": high_byte_first, "byfour": length_by_four_only, "over": bytes_over, "overdamage": bytes_over_damage,
}
