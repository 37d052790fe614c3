"""Inputs of an odd shape for the program `board`: empty, unfinished, any byte anywhere, lines of megabytes."""

MEGABYTE = 1000000
GOOD = b"010020\n020005\n"
GOOD_AFTER = b"\n05\n03001a\n05\n"


def short_inputs():
    """Inputs of a few bytes, with and without a last LF."""
    yield from (b"", b"\n", b"\n" * 5000, b"0", b"05", b"05\n", b"010020", b"\n05", b"05\n\n05")
    yield from (b"\r", b"\r\n05\r\n", b"\0", b"\0\n05\0\n05\n\0")
    for last in (b"0", b"02", b"02000", b"020005", b"02000A0", b"04001A000", b"04001A0009", b"\r", b"02000A\r"):
        yield GOOD + last


def every_byte_in_every_place():
    """Each request with every byte but LF in the place of each of its digits, and behind it."""
    text = GOOD
    for line in (b"010020", b"020005", b"03001A", b"04001A0006", b"05"):
        for at in range(len(line) + 1):
            for byte in [*range(10), *range(11, 256)]:
                text += line[:at] + bytes([byte]) + line[at + 1:] + b"\n"
    return text


def lengths_at_edges():
    """Lines whose lengths lie around powers of two, where a count or a buffer may end."""
    text = GOOD
    for power in (3, 4, 5, 6, 7, 8, 10, 12, 13, 14, 15, 16, 17):
        for change in (-1, 0, 1, 2, 6):
            text += b"0" * (2**power + change - 2) + b"05\n"
            text += b"020001" + b"0" * (2**power + change - 6) + b"\n"
    return text + GOOD_AFTER


def long_lines(random):
    """Lines of megabytes between good ones: digits, zeros, anything, and a request behind or before a megabyte."""
    anything = random.randbytes(2 * MEGABYTE).replace(b"\n", b"\r")
    yield GOOD + random.randbytes(3 * MEGABYTE // 2).hex().encode() + GOOD_AFTER
    yield GOOD + b"0" * (2 * MEGABYTE) + GOOD_AFTER
    yield GOOD + anything + GOOD_AFTER
    yield GOOD + b"0" * MEGABYTE + b"020005" + GOOD_AFTER
    yield GOOD + b"020005" + b"0" * MEGABYTE + GOOD_AFTER
    yield GOOD + b"05" + b"\0" * MEGABYTE


def strange_inputs(random):
    """All of them."""
    yield from short_inputs()
    yield every_byte_in_every_place()
    yield lengths_at_edges()
    yield from long_lines(random)
