"""Random arenas: sound ones, sound ones spoiled in a few words, and words of any kind."""

from collections import namedtuple

from .model import HEADER, LIVE_MARK, LEAST_ARENA, LEAST_CHUNK, FIRST_CHUNK, LONGEST_ARENA

# An arena's words and its chunks, each with start, size and whether it is live.
Arena = namedtuple("Arena", "words chunks")
Piece = namedtuple("Piece", "start size live")

HUGE = [2**31 - 1, 2**31, 2**31 + 4, 2**32 - 4, 2**32 - 2, 2**32 - 1, 65536, 65540, 2**30]
EDGES = [6, 8, 16380, 16382, 16383, 16384, 16385, 16386, 16400]


def some_words(random, count, length):
    """Words that lie about: small numbers, numbers near the arena's length, second words, and any 32 bits."""
    pool = [0, 1, 2, 3, 4, 4, 6, 8, 10, LIVE_MARK + 1, LIVE_MARK + 2, length, max(length - 2, 0), length + 2]
    pool += [2 * random.randrange(length // 2 + 1) for _ in range(4)]
    pool += [random.getrandbits(32) for _ in range(4)]
    kinds = len(pool)
    return [pool[byte % kinds] for byte in random.randbytes(count)]


def pieces_of(random, sizes, share):
    """Chunks of these sizes, about this share of them live, no two free ones side by side."""
    pieces = []
    start = FIRST_CHUNK
    for size in sizes:
        after_free = pieces and not pieces[-1].live
        pieces.append(Piece(start, size, bool(after_free) or random.random() < share))
        start += size
    return pieces


def random_pieces(random, length):
    """Chunks that fill an arena of this lawful length, no two free ones side by side."""
    most = random.choice([0, 2, 5, 8, 8, 8, 8, 20, length // 8, length // 2])
    sizes = []
    left = length - FIRST_CHUNK
    while left > 0:
        more = int(random.random() * (most + 1)) if random.random() < 0.5 else 0
        size = LEAST_CHUNK + 2 * more
        sizes.append(size if size + LEAST_CHUNK <= left else left)
        left -= sizes[-1]
    return pieces_of(random, sizes, random.choice([0.1, 0.4, 0.4, 0.6, 0.9, 1]))


def granted_in(piece):
    """The words that a live chunk grants."""
    return piece.size - HEADER


def some_asked(random, size):
    """How many words can have been asked for of a live chunk of this size: all, one less, the least, or any number."""
    most = max(size - HEADER, 1)
    return random.choice([most, most, max(most - 1, 1), 1, 1 + int(random.random() * most)])


def store_headers(words, pieces, asked_of=granted_in):
    """Stores the control words and the header of every chunk, the free ones linked in rising order.

    `asked_of` says how many words were asked for of a live one: all that it grants, if nothing else is said.
    """
    words[0] = len(words)
    following = 0
    for piece in reversed(pieces):
        words[piece.start] = piece.size
        words[piece.start + 1] = LIVE_MARK + asked_of(piece) if piece.live else following
        following = following if piece.live else piece.start
    words[1] = following


def store_some_headers(random, words, pieces):
    """Stores the headers of these chunks, the live ones with some number of words that were asked for."""
    store_headers(words, pieces, lambda piece: some_asked(random, piece.size))


def store_imitations(random, words, pieces):
    """Stores inside some blocks what looks like the header of a live chunk."""
    for piece in pieces:
        if piece.size >= 8 and random.random() < 0.3:
            at = piece.start + 2 * random.randrange(1, piece.size // 2 - 1)
            words[at] = random.choice([4, 4, 6, piece.start + piece.size - at])
            words[at + 1] = LIVE_MARK + some_asked(random, words[at])


def long_pieces(random, length):
    """Two to seven chunks that fill an arena of this lawful length of at least 128 words; every second one is free."""
    others = range(FIRST_CHUNK + LEAST_CHUNK, length - LEAST_CHUNK + 1, LEAST_CHUNK)
    bounds = [FIRST_CHUNK, *sorted(random.sample(others, random.randint(1, 6))), length]
    live = random.randrange(2)
    return [Piece(start, end - start, at % 2 == live) for at, (start, end) in enumerate(zip(bounds, bounds[1:]))]


def arena_of(random, length, pieces):
    """An arena of these chunks; what lies in its blocks and gaps is random."""
    words = some_words(random, length, length)
    store_imitations(random, words, pieces)
    store_some_headers(random, words, pieces)
    return Arena(words, pieces)


def sound_arena(random, length):
    """A sound arena of this lawful length."""
    return arena_of(random, length, random_pieces(random, length))


def short_arena(random):
    """A sound arena of one to six chunks, each of 4 to 18 words."""
    sizes = [random.randrange(LEAST_CHUNK, 20, 2) for _ in range(random.randint(1, 6))]
    return arena_of(random, FIRST_CHUNK + sum(sizes), pieces_of(random, sizes, 0.5))


def gapped_arena(random):
    """A sound arena of 3 to 15 chunks of few sizes, most of every second one free: some free ones are as large."""
    sizes = random.choices([random.randrange(LEAST_CHUNK, 30, 2) for _ in range(3)], k=random.randint(3, 15))
    return arena_of(random, FIRST_CHUNK + sum(sizes), pieces_of(random, sizes, 0.1))


def long_arena(random):
    """A sound arena of 128 to 16,384 words in a few chunks, most of them long."""
    length = 2 * random.randrange(64, 2 ** random.randint(7, 13) + 1)
    return arena_of(random, length, long_pieces(random, length))


def any_arena(random, length):
    """Words of any kind; word 0 is mostly the length, so that the rest matters."""
    words = some_words(random, length, length)
    if words and random.random() < 0.8:
        words[0] = length
    return Arena(words, [])


def wrong_size(random, arena):
    """The size of one chunk: odd, too small, huge, past the end, or another chunk's."""
    piece = random.choice(arena.chunks)
    left = len(arena.words) - piece.start
    near = [piece.size + change for change in (-4, -2, -1, 1, 2, 4)]
    arena.words[piece.start] = random.choice([0, 1, 2, 3, left, left + 2, left + 4, *near, random.choice(HUGE)])


def wrong_link(random, arena):
    """Word 1 or the second word of one chunk: nowhere, itself, another chunk, inside a block, or that of a live one."""
    place = random.choice([0] + [piece.start for piece in arena.chunks]) + 1
    other = random.choice(arena.chunks).start
    length = len(arena.words)
    arena.words[place] = random.choice(
        [0, 1, 2, other, other, other, other + 1, other + 2, place - 1, length, length + 2, LIVE_MARK + 1,
         random.choice(HUGE)])


def wrong_asked(random, arena):
    """The second word of one chunk is that of a live one, with words asked for that are about their bounds, or any."""
    piece = random.choice(arena.chunks)
    near = [piece.size + change for change in (-4, -3, -2, -1, 0, 1)]
    asked = random.choice([0, 0, 1, *near, len(arena.words), LIVE_MARK - 1, random.getrandbits(31)])
    arena.words[piece.start + 1] = LIVE_MARK + asked


def wrong_length_word(random, arena):
    """Word 0 is not the length."""
    length = len(arena.words)
    near = [length + change for change in (-2, -1, 1, 2)]
    arena.words[0] = random.choice([0, *near, 16384, length + 65536, LIVE_MARK + length])


def wrong_any_word(random, arena):
    """Any word at all, often one inside a block: then the arena may well stay sound."""
    at = random.randrange(len(arena.words))
    arena.words[at] = some_words(random, 1, len(arena.words))[0]


def neighbours_free(random, arena):
    """Two free chunks side by side, with the links that would be right."""
    place = random.randrange(len(arena.chunks))
    pieces = [piece._replace(live=False) if place <= at <= place + 1 else piece
              for at, piece in enumerate(arena.chunks)]
    store_some_headers(random, arena.words, pieces)


def boundary_moved(random, arena):
    """The boundary of two chunks lies elsewhere, at an odd word perhaps, and all headers and links agree with that."""
    if len(arena.chunks) < 2:
        return
    place = random.randrange(len(arena.chunks) - 1)
    lower, upper = arena.chunks[place:place + 2]
    start = min(max(upper.start + random.choice([-3, -2, -1, 1, 2, 3]), lower.start + 2), upper.start + upper.size - 2)
    moved = [lower._replace(size=start - lower.start),
             upper._replace(start=start, size=upper.start + upper.size - start)]
    store_some_headers(random, arena.words, arena.chunks[:place] + moved + arena.chunks[place + 2:])


def mark_changed(random, arena):
    """A live chunk has no mark, or a free one has the second word of a live one, and the links are not told."""
    piece = random.choice(arena.chunks)
    arena.words[piece.start + 1] = 0 if piece.live else LIVE_MARK + some_asked(random, piece.size)


def wrong_order(random, arena):
    """The list names the free chunks in another order, leaves one out, or runs in a loop."""
    free = [piece.start for piece in arena.chunks if not piece.live]
    if not free:
        return
    named = list(free)
    kind = random.randrange(3)
    if kind == 0:
        random.shuffle(named)
    elif kind == 1:
        named.remove(random.choice(named))
    following = named + ([random.choice(free)] if kind == 2 else [0])
    arena.words[1] = following[0]
    for start, after in zip(named, following[1:]):
        arena.words[start + 1] = after


# Those that store all headers anew come first, so that they do not undo the others.
ANEW = [neighbours_free, boundary_moved]
SPOILS = [wrong_size, wrong_size, wrong_link, wrong_link, wrong_asked, wrong_asked, wrong_length_word, wrong_any_word,
          wrong_any_word, mark_changed, wrong_order]


def spoiled_arena(random, length):
    """A sound arena with one to three things spoiled."""
    arena = sound_arena(random, length)
    chosen = random.choices(ANEW + SPOILS, k=random.choice([1, 1, 1, 2, 3]))
    for spoil in sorted(chosen, key=lambda spoil: spoil not in ANEW):
        spoil(random, arena)
    return arena


def arena_of_length(random, length):
    """An arena that is sound, spoiled, or of any words; a length that no arena can have gets words of any kind."""
    lawful = length % 2 == 0 and LEAST_ARENA <= length <= LONGEST_ARENA
    kind = random.random()
    if lawful and kind < 0.9:
        return sound_arena(random, length) if kind < 0.55 else spoiled_arena(random, length)
    return any_arena(random, length)


def arena_for(random, number):
    """Such an arena of every length from 0 to 95 in turn, lawful ones more often; some are longer, up to 16,400."""
    if number % 200 == 77:
        return arena_of_length(random, random.choice(EDGES + [2 * random.randrange(40, 8193)]))
    if number % 4 == 0:
        return arena_of_length(random, number // 4 % 96)
    return arena_of_length(random, 2 * random.randrange(3, 200 if number % 4 == 1 else 48))


def full_arena(every_second_free):
    """An arena of the most words with the most chunks there can be: all live, or the first and every second free."""
    words = [LIVE_MARK + 1, 77, 78, LEAST_CHUNK] * (LONGEST_ARENA // LEAST_CHUNK)
    starts = range(FIRST_CHUNK, LONGEST_ARENA - LEAST_CHUNK, LEAST_CHUNK)
    pieces = [Piece(start, LEAST_CHUNK, at % 2 == 1 or not every_second_free) for at, start in enumerate(starts)]
    pieces[-1] = pieces[-1]._replace(size=LEAST_CHUNK + 2)
    store_headers(words, pieces)
    return Arena(words, pieces)
