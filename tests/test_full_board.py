"""Holds a board with the most chunks that it can have to the model: filled, then freed in every way of joining."""

from collections import Counter
from random import Random

from support import driver, lines
from support.comparing import run_lines

# Of the 16,382 words behind the control words 4,093 blocks of four leave ten, which go to one block: six words over are
# not split off. No requests lead from a start to 4,095 chunks, though such an arena is sound: to split off the last one
# takes a chunk of twelve words, beside 4,093 others of four.
MOST_CHUNKS = 4094

# Which block of every four is freed when. Of four in a row the second is freed first, between live ones; the third
# then joins the free chunk before it, the first the one after it, and the last joins those on both its sides.
ORDER = [(1, "neither side"), (2, "the left"), (0, "the right"), (3, "both sides")]


class Talk:
    """Lines and the model's replies to them, written down."""

    def __init__(self):
        self.board = lines.Board()
        self.text = bytearray()
        self.replies = bytearray()

    def say(self, line):
        """Writes down a line and gives the reply to it."""
        reply = self.board.reply(line)
        self.text += line + b"\n"
        self.replies += reply + b"\n"
        return reply


def fill(random, talk):
    """Asks for one word or two until there is no room, and gives the blocks in rising order."""
    blocks = []
    while True:
        reply = talk.say(random.choice([b"020001", b"020002"]))
        if reply == b"020600000000":
            break
        blocks.append(int(reply[4:8], 16))
        if len(blocks) % 500 == 0:
            talk.say(b"05")
    if len(blocks) != MOST_CHUNKS:
        raise driver.Difference(f"the model filled the board with {len(blocks)} chunks, not {MOST_CHUNKS}")
    return sorted(blocks)


def take_largest(talk):
    """Asks for the largest request that the report names, and gives it back: the search has to go that far."""
    largest = int(talk.say(b"05")[8:12], 16)
    block = int(talk.say(b"02%04X" % largest)[4:8], 16)
    talk.say(b"03%04X" % block)


def ask_other_lengths(random, talk, blocks):
    """Asks a full board for other lengths: what a block has is kept, and for more there is no room.

    The lowest block has eight words, with those that were over; the others have two.
    """
    for asked in range(1, 11):
        talk.say(b"04%04X%04X" % (blocks[0], asked))
    for block in random.sample(blocks, 30):
        talk.say(b"04%04X%04X" % (block, random.randint(1, 6)))


def side_joined(freed, place):
    """On which sides a block joins free chunks, when its neighbours lie right beside it."""
    return {(False, False): "neither side", (True, False): "the left", (False, True): "the right",
            (True, True): "both sides"}[place - 1 in freed, place + 1 in freed]


def check_free_chunks(talk, sides):
    """A free that joins nothing makes one more free chunk, one that joins both sides makes one fewer."""
    wanted = sides["neither side"] - sides["both sides"]
    told = int(talk.say(b"05")[16:20], 16)
    if told != wanted:
        raise driver.Difference(f"the model reports {told} free chunks where the joins counted leave {wanted}")


def empty(random, talk, blocks):
    """Frees all blocks in the order above, shuffled within each part, and counts on which sides each joined."""
    sides = Counter()
    freed = set()
    for part, side in ORDER:
        places = list(range(part, len(blocks), 4))
        random.shuffle(places)
        for turn, place in enumerate(places):
            talk.say(b"03%04X" % blocks[place])
            sides[side_joined(freed, place)] += 1
            freed.add(place)
            if turn % 100 == 0:
                check_free_chunks(talk, sides)
                take_largest(talk)
                talk.say(b"023FFC")
        if sides[side] != len(places):
            raise driver.Difference(f"{sides[side]} of {len(places)} frees joined {side}")
    return sides


def compare(chosen):
    """As many rounds of filling and emptying as asked for; the last line says how the frees joined."""
    random = Random(chosen.seed)
    talk = Talk()
    sides = Counter()
    for _ in range(chosen.count):
        talk.say(b"014000")
        blocks = fill(random, talk)
        talk.say(b"05")
        ask_other_lengths(random, talk, blocks)
        sides += empty(random, talk, blocks)
        talk.say(b"023FFC")
    talk.board.check()
    run_lines(chosen.board, bytes(talk.text), expected=bytes(talk.replies))
    frees = sum(sides.values())
    shares = ", ".join(f"{count / frees:.1%} {side}" for side, count in sides.items())
    return f"{talk.text.count(10):,} lines on a board of {MOST_CHUNKS:,} chunks compared; of its frees joined {shares}"


if __name__ == "__main__":
    driver.finish("test_full_board", compare, driver.options(__doc__, 1))
