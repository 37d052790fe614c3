"""What spoils the C program through which batches are compared: each copy does wrong what a batch could."""

from .spoiling import replaced

DRIVER = "test_batch"

PROGRAM = "tests/support/c_batch.c"


def fault(name):
    """The program has one of its faults, and holds it to the same requests made singly."""
    return replaced(PROGRAM, "#define FAULT NONE", f"#define FAULT {name}")


def unheld(name):
    """The program has one of its faults, which only the model can see."""
    def spoil(root):
        fault(name)(root)
        replaced(PROGRAM, "#define HELD true", "#define HELD false")(root)

    return spoil


# What spoils a copy, and what the driver then has to tell.
SPOILED = [
    (fault("STOPS_AT_REFUSAL"), "c_batch: a batch is not the same requests made singly: see record 5"),
    (fault("WORD_OF_REFUSAL"), "c_batch: a batch is not the same requests made singly: see the arena's word 23"),
    (unheld("STOPS_AT_REFUSAL"), "in record 5 afterwards: expected Record(kind=1, b=0, n=61, code=5, block=0"),
    (unheld("STOPS_AT_UNKNOWN"), "in record 8 afterwards: expected Record(kind=2, b=54"),
    (unheld("BACKWARDS"), "in record 1 afterwards: expected Record(kind=1"),
    (unheld("SKIPS_LAST"), "in record 40 afterwards: expected Record(kind=6, b=4, n=0, code=0, block=1, granted=8)"),
    (unheld("COUNTS_IN_A_BYTE"), "in record 25 afterwards: expected Record(kind="),
    (unheld("NEXT_RECORD"), "in record 1 afterwards: expected Record(kind=1"),
    (unheld("BYTE_OF_KIND"), "in record 8 afterwards: expected Record(kind=257"),
    (unheld("SWAPPED_KINDS"), "in record 13 afterwards: expected Record(kind=4, b=44, n=21, code=8"),
    (unheld("SWAPPED_NUMBERS"), "in record 1 afterwards: expected Record(kind=1"),
    (unheld("LOOKS_AT_B"), "in record 4 afterwards: expected Record(kind=1, b=4294967295, n=0, code=4"),
    (unheld("LOOKS_AT_N"), "in record 3 afterwards: expected Record(kind=6, b=54, n=0, code=0, block=10, granted=10)"),
    (unheld("LENGTH_FIRST"), "code=7, block=0, granted=0), got Record(kind=0, b=4, n=2, code=1"),
    (unheld("DAMAGE_FIRST"), "code=7, block=0, granted=0), got Record(kind=0, b=4, n=2, code=2"),
    (unheld("BLOCK_OF_FREE"), "in record 8 afterwards: expected Record(kind=2, b=54, n=4294967295, code=0, block=0"),
    (unheld("SIZE_AS_BLOCK"), "in record 40 afterwards: expected Record(kind=6, b=4, n=0, code=0, block=1, granted=8)"),
    (fault("LEAVES_OUT_ASKED"), "c_batch: a batch is not the same requests made singly: see record 3"),
    (unheld("LEAVES_OUT_ASKED"), "in record 3 afterwards: expected Record(kind=6, b=54, n=0, code=0, block=10"),
    (unheld("KEEPS_OLD_ANSWER"), "in record 4 afterwards: expected Record(kind=1"),
    (unheld("OVERWRITES_KIND"), "in record 1 afterwards: expected Record(kind=1"),
    (unheld("OVERWRITES_B"), "in record 1 afterwards: expected Record(kind=1, b=0, n=10"),
    (unheld("OVERWRITES_N"), "in record 2 afterwards: expected Record(kind=1, b=54, n=7"),
    (unheld("WORD_OF_REFUSAL"), "in the arena afterwards: word 23 expected 1063 got 1062"),
    (fault("ONE_TOO_MANY"), "c_batch: a call changed a byte behind the list"),
    (fault("BEFORE_LIST"), "c_batch: a call changed a byte before the list"),
    (fault("BEHIND_LIST"), "c_batch: a call changed a byte behind the list"),
    (fault("BEFORE_ARENA"), "c_batch: a call changed a byte before the arena"),
    (fault("BEHIND_ARENA"), "c_batch: a call changed a byte behind the arena"),
]
