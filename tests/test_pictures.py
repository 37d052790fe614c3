"""Holds the writing and reading of pictures, and the check of bytes, to the model: codes, all bytes and all words."""

from collections import Counter
from itertools import islice
from random import Random

from support import arenas, cases, driver, model, picture_cases, pictures, strange_pictures
from support.comparing import compare_own_cases, run_cases, run_rows
from support.picture_cases import CHECK, READ, WRITE, Case
from support.pictures import Answer

RANDOM_CASES = 20000
AT_ONCE = 4000

# The longest arena and one too long, other long ones, up to what a picture can show, and some beyond that.
LONGEST = [16384, 16386]
LONG = [64, 100, 255, 256, 257, 1000, 4096, 16380, 16382, 16383, 16385, 16400, 32768, 40000, 65534, 65535]
TOO_LONG = [65536, 65537, 65536 + 10, 66000]

# Pictures of so many words are spoiled: of one frame, full or not, of two and of three.
SPOILED = [6, 8, 10, 16, 22]

# Numbers of no call, some of which are like a call's in their lowest bits.
NO_CALLS = [0, 4, 5, 257, 258, 259, 2**16 + 1, 2**31 + 2, 2**32 - 1]

# Two sound arenas and one that is not, and their pictures, all written out by hand.
SIX = [6, 2, 4, 0, 1004, 1005]
SIX_SHOWN = b"060006\n07000000000006000000020000000400000000000003EC000003ED\n"
TEN = [10, 6, 4, 2147483649, 3735928559, 17, 4, 0, 1008, 1009]
TEN_SHOWN = (b"06000A\n"
             b"0700000000000A000000060000000480000001DEADBEEF000000110000000400000000\n"
             b"070008000003F0000003F1\n")
TEN_SPELLED = bytes.fromhex("0a000000 06000000 04000000 01000080 efbeadde 11000000 04000000 00000000 f0030000 f1030000")
DAMAGED = [6, 0, 4, 0, 1004, 1005]
DAMAGED_SHOWN = b"060006\n07000000000006000000000000000400000000000003EC000003ED\n"

# What a run must have met to mean anything: every call with every code that it can give.
CODES = {"write": (0, 1, 2, 11), "read": (0, 1, 2, 7), "check": (0, 1, 2), "another": (7,)}

# And texts that are too short, exact and too long for a picture, arenas too short and too long for one, by so much.
ROOMS = [("room", over) for over in (-2, -1, 0, 1, 2)]
LENT = [("lent", over) for over in (-2, -1, 0, 1, 2)]

# And lent words and shown words that are, each, a sound arena or not; bad texts with lent words of each code; and
# bytes over with each code.
JUDGED = [("judged", lent, shown) for lent in (0, 2) for shown in (0, 2)]
BAD_TEXTS = [("bad text", code) for code in (0, 1, 2)]
OVER = [("bytes over", 0, code) for code in (0, 1, 2)] + [("bytes over", over, 1) for over in (1, 2, 3)]


def written_rows():
    """Rows of write: the rest of the text stays; 1 and 2 come before 11, and a refusal changes nothing."""
    yield Case(WRITE, b"." * 62, SIX), Answer(0, 62, SIX_SHOWN, SIX)
    yield Case(WRITE, b"." * 65, SIX), Answer(0, 62, SIX_SHOWN + b"...", SIX)
    yield Case(WRITE, b"." * 101, TEN), Answer(0, 101, TEN_SHOWN, TEN)
    for text, words, code in ((b"." * 61, SIX, 11), (b"", SIX, 11), (b"." * 100, TEN, 11), (b"." * 62, DAMAGED, 2),
                              (b"", DAMAGED, 2), (b"." * 99, SIX[:5], 1), (b"", [6] * 7, 1), (b"....", [], 1)):
        yield Case(WRITE, text, words), Answer(code, 0, text, words)


def read_rows():
    """Rows of read: 7 comes before 1 and 1 before 2; the picture's words are judged, and a refusal changes nothing."""
    for text in (TEN_SHOWN, TEN_SHOWN.lower(), TEN_SHOWN.replace(b"DEAD", b"dEaD")):
        for lent in (TEN, [0] * 10):
            yield Case(READ, text, lent), Answer(0, 0, text, TEN)
    for text, lent, code in ((SIX_SHOWN, TEN, 1), (SIX_SHOWN, [], 1), (b"060000\n", [], 1), (b"060000\n", SIX, 1),
                             (DAMAGED_SHOWN, SIX, 2), (DAMAGED_SHOWN, TEN, 1), (b"", SIX, 7), (b"", [], 7),
                             (b"060001\n07000000000001\n", [5], 1), (b"060001\n07000100000001\n", [5], 7),
                             (SIX_SHOWN[:-1], SIX, 7), (DAMAGED_SHOWN + b"\n", SIX, 7), (TEN_SHOWN[:-1], SIX, 7)):
        yield Case(READ, text, lent), Answer(code, 0, text, lent)


def check_rows():
    """Rows of check, whatever arena is there besides; and a call of no such number."""
    rows = [(TEN_SPELLED, 0), (TEN_SPELLED[:-1], 1), (TEN_SPELLED + b"\0", 1), (TEN_SPELLED + bytes(4), 1),
            (TEN_SPELLED + bytes(8), 2), (TEN_SPELLED[:16], 1), (TEN_SPELLED[:24], 2), (b"", 1), (bytes(24), 2)]
    for content, code in rows:
        for lent in ([], SIX):
            yield Case(CHECK, content, lent), Answer(code, 0, content, lent)
    yield Case(4, SIX_SHOWN, TEN), Answer(7, 0, SIX_SHOWN, TEN)


# The cases, each with what was done to its text, if anything was.


def lent_words(random, length):
    """Words to be lent: a sound arena, a spoiled one, or words of any kind."""
    return arenas.arena_of_length(random, length).words


def good_cases(random, lengths):
    """Pictures of every one of these lengths, read into as many words and into a few more or less."""
    for length in lengths:
        words = lent_words(random, length)
        for kind, texts in strange_pictures.GOOD.items():
            for text in texts(random, words):
                yield kind, Case(READ, text, lent_words(random, length))
        for other in (length - 2, length - 1, length + 1, length + 2, 0):
            yield None, Case(READ, pictures.picture_of(words), lent_words(random, max(other, 0)))


def around_cases(random):
    """Pictures of some lengths, read into as many words, sound or not, and into every other number of words near it."""
    for length in (6, 10, 16, 24):
        for words in (arenas.sound_arena(random, length).words, arenas.any_arena(random, length).words):
            picture = pictures.picture_of(words)
            for other in [*range(length + 12), 16384, 16386]:
                yield None, Case(READ, picture, lent_words(random, other))
            yield None, Case(READ, picture, arenas.sound_arena(random, length).words)
            yield None, Case(READ, picture, arenas.any_arena(random, length).words)


def long_cases(random, lengths):
    """Arenas of these lengths, which a picture can show, written, read and checked."""
    for length in lengths:
        words = arenas.sound_arena(random, length).words if length <= model.LONGEST_ARENA else [length] * length
        picture = pictures.picture_of(words)
        yield None, Case(WRITE, random.randbytes(len(picture) + 5), words)
        yield None, Case(WRITE, random.randbytes(len(picture) - 1), words)
        yield "lower case", Case(READ, picture.lower(), [7] * length)
        yield "as it is", Case(READ, picture, [7] * (length - 2))
        yield "no LF at the end", Case(READ, picture[:-1], [7] * length)
        yield None, Case(CHECK, cases.packed(words), [])


def too_long_cases(random, lengths):
    """Arenas of these lengths, longer than any that a picture can show, begun as a sound one is; and as long a text."""
    for length in lengths:
        words = TEN + [7] * (length - len(TEN))
        yield None, Case(WRITE, random.randbytes(picture_cases.LONGEST_TEXT), words)
        yield "as it is", Case(READ, TEN_SHOWN, words)
        yield None, Case(CHECK, cases.packed(words), [])
        yield None, Case(WRITE, random.randbytes(length), TEN)


def spoiled_cases(random, spoils, lengths):
    """Spoiled pictures of sound arenas and of damaged ones, read into as many words, and into others now and then."""
    for length in lengths:
        for words in (arenas.sound_arena(random, length).words, arenas.any_arena(random, length).words):
            for kind, text in strange_pictures.spoiled_texts(spoils, words):
                other = random.choice([length, length, length, 0, length + 1, 2 * random.randrange(30)])
                yield kind, Case(READ, text, lent_words(random, other))


def changed_cases(random, count):
    """A picture with every byte in the place of each of its bytes; some of these where fewer are wanted."""
    words = arenas.sound_arena(random, 10).words
    texts = list(strange_pictures.byte_changed(words))
    for text in random.sample(texts, min(count, len(texts))):
        yield "a byte changed", Case(READ, text, lent_words(random, len(words)))


def short_checks(random):
    """A check of every number of bytes up to 100: of any bytes, and of the first bytes of a sound arena."""
    for length in range(101):
        yield None, Case(CHECK, random.randbytes(length), [])
        yield None, Case(CHECK, cases.packed(arenas.sound_arena(random, 26).words)[:length], [])


def other_calls(random):
    """Calls of numbers that no call has."""
    for call in NO_CALLS:
        words = lent_words(random, 10)
        yield None, Case(call, pictures.picture_of(words), words)
        yield None, Case(call, b"", [])


def random_write(random, words):
    """A write into a text with just the room for it, somewhat more or less, or anything else."""
    exact = len(pictures.picture_of(words))
    length = random.choice([exact, exact, exact - 1, exact - 2, exact + 1, exact + 2, exact + random.randrange(40),
                            random.randrange(exact + 1), 0])
    return Case(WRITE, random.randbytes(length), words)


def random_read(random, words):
    """A read of the picture, as it is or changed in a few places, or of a text of any kind."""
    picture = pictures.picture_of(words)
    text = random.choice([picture, picture, picture, strange_pictures.mutated(random, picture),
                          strange_pictures.mutated(random, picture), strange_pictures.random_text(random)])
    length = random.choice([len(words)] * 4 + [random.randrange(40)])
    return Case(READ, text, lent_words(random, length))


def random_check(random, words):
    """A check of the words, of a few bytes more or less, or of the words with the high byte first."""
    content = cases.packed(words)
    other = b"".join(content[at:at + 4][::-1] for at in range(0, len(content), 4))
    over = random.randrange(1, 4)
    content = random.choice([content] * 4 + [content + random.randbytes(over), content[:-over], other])
    return Case(CHECK, content, random.choice([[], [], words[:3]]))


def random_cases(random, count):
    """So many calls, each on an arena that is sound, spoiled or of any words."""
    for number in range(count):
        words = arenas.arena_for(random, number).words
        yield None, random.choice([random_write, random_read, random_check])(random, words)


def all_cases(random, count):
    """All cases, in the order in which they are asked; with a small count some are left out."""
    yield from good_cases(random, range(41))
    yield from around_cases(random)
    yield from long_cases(random, LONGEST)
    yield from spoiled_cases(random, strange_pictures.BAD, SPOILED)
    yield from short_checks(random)
    yield from other_calls(random)
    if count >= RANDOM_CASES:
        yield from long_cases(random, LONG)
        yield from too_long_cases(random, TOO_LONG)
        yield from spoiled_cases(random, strange_pictures.BAD_BYTES, [10])
    yield from changed_cases(random, 2 * count)
    yield from random_cases(random, count)


# What the cases show.


def near(number):
    """A number, or 2 or -2 where it is farther from 0."""
    return max(-2, min(number, 2))


def met_by(kind, case, answer):
    """What this case shows, for the count of what was met."""
    if kind is not None:
        yield "spoiled", kind
    yield picture_cases.NAMES.get(case.call, "another"), "code", answer.code
    if case.call == WRITE and answer.code in (model.DONE, model.TEXT_ROOM):
        yield "room", near(len(case.text) - len(pictures.picture_of(case.words)))
    if case.call == READ:
        yield from met_by_read(case, answer)
    if case.call == CHECK:
        yield "bytes over", len(case.text) % 4, answer.code


def met_by_read(case, answer):
    """What a read shows besides."""
    if answer.code == model.FRAME:
        yield "bad text", pictures.judged(case.words)
        return
    shown = pictures.words_in(case.text)
    yield "lent", near(len(case.words) - len(shown))
    if answer.code != model.LENGTH:
        yield "judged", pictures.judged(case.words), pictures.judged(shown)


def wanted():
    """What a run has to meet: codes, spoiled pictures of every kind, and texts and arenas of all sorts."""
    codes = [(name, "code", code) for name, codes in CODES.items() for code in codes]
    kinds = [*strange_pictures.GOOD, *strange_pictures.BAD, *strange_pictures.BAD_BYTES, "a byte changed"]
    return [*codes, *(("spoiled", kind) for kind in kinds), *ROOMS, *LENT, *JUDGED, *BAD_TEXTS, *OVER]


def check_kind(kind, case):
    """A text that is good or bad by the way it was made has to be so in the model."""
    bad = kind in strange_pictures.BAD or kind in strange_pictures.BAD_BYTES
    if (bad or kind in strange_pictures.GOOD) and (pictures.words_in(case.text) is None) != bad:
        raise driver.Difference(f"the model, not the program, is wrong about {kind}: {picture_cases.told_of(case)}")


def unfinished(random, number):
    """Bytes after the last case that are no case: nothing, a case cut short, or one longer than is allowed."""
    whole = picture_cases.case_bytes(Case(READ, SIX_SHOWN, TEN))
    text, arena = picture_cases.LONGEST_TEXT + 1, picture_cases.LONGEST_ARENA + 1
    too_long = [cases.packed([WRITE, text, 0]) + bytes(text), cases.packed([READ, 0, arena]) + bytes(4 * arena)]
    too_long += [cases.packed([CHECK, *lengths]) for lengths in ((2**31, 0), (2**32 - 1, 0), (0, 2**30), (0, 2**31))]
    kinds = cases.cut_short(random, whole, picture_cases.CASE_HEAD) + [start + whole for start in too_long]
    return kinds[number % len(kinds)]


# The comparison.


def compare_cases(command, random, count, met):
    """All cases, so many at once, each run followed by bytes that are no case; gives how many cases they were."""
    labelled = all_cases(random, count)
    done = batch = 0
    while True:
        some = list(islice(labelled, AT_ONCE))
        if not some:
            return done
        asked = [case for kind, case in some]
        answers = [picture_cases.answer_to(case) for case in asked]
        run_cases(command, asked, answers, unfinished(random, batch), picture_cases)
        for (kind, case), answer in zip(some, answers):
            check_kind(kind, case)
            met.update(met_by(kind, case, answer))
        done += len(asked)
        batch += 1


def compare_round_trip(command, random, count):
    """What the program wrote it has to read, into any words, as the arena that was, and to write once more the same.

    Every text that is handed on is the program's own, the second time with digits of either case.
    """
    sound = [arenas.sound_arena(random, 2 * random.randrange(3, 200)).words for _ in range(count)]
    rooms = [random.randbytes(len(pictures.picture_of(words)) + random.randrange(9)) for words in sound]
    first = written(command, rooms, sound)
    mixed = [strange_pictures.in_either_case(random, text) for text in first]
    for texts in (first, mixed):
        asked = [Case(READ, text, lent_words(random, len(words))) for text, words in zip(texts, sound)]
        answers = [Answer(model.DONE, 0, text, words) for text, words in zip(texts, sound)]
        got = run_cases(command, asked, answers, form=picture_cases)
        read = [reply.words for reply in picture_cases.replies_in(asked, got)]
        if written(command, rooms, read) != [text.upper() for text in texts]:
            raise driver.Difference("a picture that is read and written again is not the same text in upper case")
    return count


def written(command, rooms, arenas_lent):
    """The pictures that the program writes of these arenas into these rooms."""
    asked = [Case(WRITE, room, words) for room, words in zip(rooms, arenas_lent)]
    got = run_cases(command, asked, list(map(picture_cases.answer_to, asked)), form=picture_cases)
    return [reply.text[:reply.field] for reply in picture_cases.replies_in(asked, got)]


def compare(chosen):
    """Rows by hand, cases of all kinds, round trips; the last line counts them."""
    random = Random(chosen.seed)
    met = Counter()
    rows = run_rows(chosen.picture_cases, [*written_rows(), *read_rows(), *check_rows()], picture_cases)
    done = compare_cases(chosen.picture_cases, random, chosen.count, met)
    if chosen.count >= RANDOM_CASES:
        driver.check_met(met, wanted(), 10, "cases")
    trips = compare_round_trip(chosen.picture_cases, random, min(chosen.count, 300))
    own = compare_own_cases("picture_cases", picture_cases)
    bad = sum(count for what, count in met.items() if what[0] == "bad text")
    calls = f"{done:,} calls on pictures compared with all bytes and words, {bad:,} of them on bad texts"
    return f"{calls}; {rows} rows by hand, {trips} pictures read back, and {own} cases of the program's own"


if __name__ == "__main__":
    driver.finish("test_pictures", compare, driver.options(__doc__, RANDOM_CASES, named=("picture_cases",)))
