"""What spoils the C programs through which the calls for C are compared, or the examples."""

from .spoiling import replaced

DRIVER = "test_c_face"


def fault(program, name):
    """A program has one of its faults."""
    return replaced(f"tests/support/{program}.c", "#define FAULT NONE", f"#define FAULT {name}")


def example(name, old, new):
    """An example does something else in one place."""
    return replaced(f"examples/{name}.c", old, new)


def printed(name, old, new):
    """What an example has to print is something else in one place."""
    return replaced(f"examples/{name}.stdout", old, new)


# What spoils a copy, and what the driver then has to tell.
SPOILED = [
    (fault("c_cases", "SWAPPED_FIELDS"), "code, fields and length of the part: expected"),
    (fault("c_cases", "FIELD_OF_REFUSAL"), "code, fields and length of the part: expected"),
    (fault("c_cases", "BEFORE_ANSWER"), "c_cases: a call changed a byte before the answer"),
    (fault("c_cases", "BEHIND_ANSWER"), "c_cases: a call changed a byte behind the answer"),
    (fault("c_cases", "BEFORE_ARENA"), "c_cases: a call changed a byte before the arena"),
    (fault("c_cases", "BEHIND_ARENA"), "c_cases: a call changed a byte behind the arena"),
    (fault("c_cases", "BEST_AS_FIRST"), "code, fields and length of the part: expected"),
    (fault("c_cases", "NEXT_AS_FIRST"), "code, fields and length of the part: expected"),
    (fault("c_cases", "ROVER_IGNORED"), "code, fields and length of the part: expected"),
    (fault("c_cases", "ROVER_KEPT"), "code, fields and length of the part: expected"),
    (fault("c_cases", "ROVER_AT_BLOCK"), "code, fields and length of the part: expected"),
    (fault("c_cases", "ROVER_AT_GRANT"), "code, fields and length of the part: expected"),
    (fault("c_cases", "ROVER_OF_REFUSAL"), "code, fields and length of the part: expected"),
    (fault("c_cases", "BEFORE_ROVER"), "c_cases: a call changed a byte before the rover"),
    (fault("c_cases", "BEHIND_ROVER"), "c_cases: a call changed a byte behind the rover"),
    (fault("c_cases", "GRANTED_TWICE"), "code, fields and length of the part: expected"),
    (fault("c_cases", "ASKED_TWICE"), "code, fields and length of the part: expected"),
    (fault("c_pictures", "FIELD_OF_REFUSAL"), "code and number answered: expected"),
    (fault("c_pictures", "TEXT_OF_REFUSAL"), "in the text afterwards: byte"),
    (fault("c_pictures", "WORD_OF_REFUSAL"), "in the arena afterwards: word"),
    (fault("c_pictures", "BEFORE_ANSWER"), "c_pictures: a call changed a byte before the answer"),
    (fault("c_pictures", "BEHIND_ANSWER"), "c_pictures: a call changed a byte behind the answer"),
    (fault("c_pictures", "BEFORE_TEXT"), "c_pictures: a call changed a byte before the text"),
    (fault("c_pictures", "BEHIND_TEXT"), "c_pictures: a call changed a byte behind the text"),
    (fault("c_pictures", "BEFORE_ARENA"), "c_pictures: a call changed a byte before the arena"),
    (fault("c_pictures", "BEHIND_ARENA"), "c_pictures: a call changed a byte behind the arena"),
    (example("sampling", "buffer->block = answer[ZV_BLOCK];", "buffer->block = 56;"),
     "the example sampling: the program ended"),
    (example("sampling", "900 - 5 * turn", "900 - 6 * turn"), "the example sampling: line 7"),
    (printed("sampling", "block 28", "block 30"), "the example sampling: line 3"),
    (example("experiment", "{.kind = ZV_FREE, .b = 54}", "{.kind = ZV_SIZE, .b = 54}"),
     "the example experiment: line 15"),
    (example("experiment", "zv_batch(arena, WORDS, lab, REQUESTS)", "zv_batch(arena, WORDS, lab, REQUESTS - 1)"),
     "the example experiment: line 42"),
    (printed("experiment", "64   64     0     64       64", "64   64     8      0        0"),
     "the example experiment: line 22"),
    (replaced("examples/run", "${1:-sampling}", "sampling"), "the example experiment: line 1"),
    (replaced("examples/run", ":-sampling", ":-experiment"), "the example sampling: line 1"),
]
