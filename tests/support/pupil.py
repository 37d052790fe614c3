"""A pupil who asks the board for buffers, line by line, follows its replies, and mistypes now and then."""

from collections import Counter

from . import lines

LENGTHS = [6, 8, 10, 16, 20, 32, 64, 100, 200, 300, 500, 800, 1000, 2000, 4000, 8000, 16000, 16382, 16384, 16384]
UNLAWFUL_LENGTHS = [0, 1, 2, 4, 5, 7, 33, 4097, 16383, 16385, 16386, 32768, 65534, 65535]
ALMOST_DIGITS = b"/:@G`g\x00\r\t -+xXOolI\x7f" + bytes(range(128, 256))


class Pupil:
    """Holds blocks, gives them back, asks for others, and keeps count of the replies met."""

    def __init__(self, random):
        self.random = random
        self.board = lines.Board()
        self.granted = {}
        self.given_back = [4]
        self.usual = 8
        self.filling = True
        self.met = Counter()

    def turn(self):
        """One line and the reply that the model gives to it."""
        line = self.line()
        if self.random.random() < 0.05:
            line = mistyped(self.random, line)
        reply = self.board.reply(line)
        self.follow(line, reply)
        return line, reply

    def line(self):
        """A line with a request, its digits in either case."""
        kind = self.random.random()
        if self.random.random() < 1 / (20 + len(self.board.lent.words) // 20):
            text = "01%04X" % self.length()
        elif kind < 0.07:
            text = "05"
        elif kind < 0.32:
            text = "04%04X%04X" % self.block_and_other_length()
        elif kind < (0.8 if self.filling else 0.5):
            text = "02%04X" % self.asked()
        else:
            text = "03%04X" % self.block()
        return "".join(self.random.choice([digit, digit.lower()]) for digit in text).encode()

    def length(self):
        """An arena's length, lawful mostly, and the usual request that goes with it."""
        if self.random.random() < 0.3:
            return self.random.choice(UNLAWFUL_LENGTHS + [self.random.getrandbits(16)])
        length = self.random.choice(LENGTHS + [2 * self.random.randrange(3, 100)])
        self.usual = max(length // self.random.choice([4, 10, 30, 100, 300, 1000]), 3)
        return length

    def block(self):
        """Mostly a block that is held; else one given back, one beside, or any number."""
        kind = self.random.random()
        if self.granted and kind < 0.93:
            block = self.random.choice(list(self.granted))
            return block if kind < 0.9 else max(block + self.random.choice([-4, -2, -1, 1, 2, 4]), 0)
        if kind < 0.96:
            return self.random.choice(self.given_back)
        return self.random.choice([0, 1, 2, 3, 4, 65535, self.random.getrandbits(16), self.random.randrange(40)])

    def asked(self):
        """A number of words: the usual size mostly, else near the limit of the arena, 0, or any number."""
        kind = self.random.random()
        if kind < 0.9:
            return self.random.randint(1, self.usual)
        limit = max(len(self.board.lent.words) - 4, 0)
        return self.random.choice([0, limit, limit + 1, limit + 2, self.usual * 3, 65535, self.random.getrandbits(16)])

    def block_and_other_length(self):
        """A block and the length it is to have: about the same, shorter, somewhat longer, or as for a new one."""
        block = self.block()
        now = self.granted.get(block, 4)
        kind = self.random.random()
        if kind < 0.25:
            return block, max(now + self.random.randint(-3, 3), 0)
        if kind < 0.5:
            return block, self.random.randint(1, now)
        if kind < 0.85:
            return block, min(now + self.random.randint(1, self.usual), 65535)
        return block, self.asked()

    def follow(self, line, reply):
        """Takes the reply into account: which blocks are held, and whether the arena is to be filled further."""
        request, code = reply[:2], int(reply[2:4])
        self.met[request.decode(), code] += 1
        if code == 0:
            self.follow_done(request, line, reply)
        if self.random.random() < (0.1 if code == 6 else 0.005):
            self.filling = self.random.random() < 0.6
        if not self.granted:
            self.filling = True

    def follow_done(self, request, line, reply):
        """Takes a call that was done into account."""
        if request == b"01":
            self.given_back = (self.given_back + list(self.granted))[-50:]
            self.granted = {}
            return
        if request in (b"03", b"04"):
            old_block = int(line[2:6], 16)
            old_granted = self.granted.pop(old_block)
            self.given_back = self.given_back[-50:] + [old_block]
        if request in (b"02", b"04"):
            block, granted = int(reply[4:8], 16), int(reply[8:12], 16)
            self.granted[block] = granted
            asked = int(line[-4:], 16)
        if request == b"02":
            self.met[granted_besides("alloc", granted, asked)] += 1
        if request == b"04":
            done = way(old_block, old_granted, block, granted)
            longer = done in ("grown", "moved")
            self.met[done] += 1
            self.met[granted_besides(done, granted, asked) if longer else left_over(old_granted, granted, asked)] += 1


def way(old_block, old_granted, block, granted):
    """By which way a block was given another length, as far as the answer shows it."""
    if block != old_block:
        return "moved"
    return "kept" if granted == old_granted else "grown" if granted > old_granted else "cut"


def granted_besides(done, granted, asked):
    """How many words a new block, or a longer one, has besides those that it needs: eight would have stayed free."""
    return done, "besides", granted - asked - asked % 2


def left_over(old_granted, granted, asked):
    """How many words a shorter request left over, ten for any more, and what became of them.

    Eight or more are given up, and fewer only to a gap right above.
    """
    over = min(old_granted - asked - asked % 2, 10)
    return "over", over, "kept" if granted == old_granted else "given up"


def mistyped(random, line):
    """The line spoiled in one of many ways; it never has an LF."""
    at = random.randrange(len(line))
    almost = bytes([random.choice(ALMOST_DIGITS)])
    anything = bytes(random.choice(range(11, 256)) for _ in range(random.randrange(1, 30)))
    return random.choice([
        line[:-1], line[1:], line[:at], line[:at] + line[at + 1:], line + b"0", b"0" + line, line + b"0000",
        line[:at] + almost + line[at:], line[:at] + almost + line[at + 1:], line + almost, almost + line,
        line + b"\r", b" " + line, line + b" ", line[:2] + b" " + line[2:], line + line, b"", b"\r", almost, anything,
        b"%02X" % random.getrandbits(8) + line[2:], b"0%c" % random.choice(b"0:6789ABFf") + line[2:], b"1" + line[1:],
    ])
