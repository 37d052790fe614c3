"""Holds the header of the calls for C to the sources and the static library, and compiles it alone as C and as C++."""

import os
import struct

from support import c_header, c_programs, driver, programs
from support.comparing import run_lines

# The languages in which the header has to compile, and a program of each: it has the header twice, and nothing else.
LANGUAGES = ["c99", "c11", "c++11"]
ALONE = """#include "zandervlecht.h"
#include "zandervlecht.h"
static uint32_t arena[ZV_LEAST_WORDS], answer[2], sized[2];
static struct zv_rover rover = {0};
static struct zv_request request = {ZV_FREE, 0, 0, ZV_FRAME, 0, 0};
int main(void)
{
    zv_start(arena, ZV_LEAST_WORDS);
    zv_alloc_next(arena, ZV_LEAST_WORDS, &rover, 1, answer);
    zv_size(arena, ZV_LEAST_WORDS, answer[ZV_BLOCK], sized);
    request.b = answer[ZV_BLOCK];
    zv_batch(arena, ZV_LEAST_WORDS, &request, 1);
    return request.code != ZV_DONE || sized[ZV_ASKED] != 1 || sized[ZV_GRANTED] != answer[ZV_GRANTED];
}
"""

# How an archive with an index of its symbols begins; the index is its first member, and that has a head of 60 bytes.
ARCHIVE = b"!<arch>\n/ "
INDEX_SIZE = slice(56, 66)
INDEX_BEGINS = 68


def compile_alone(root, language):
    """Builds the program of a language, and runs it: it ends with status 0 where a block was granted, sized, freed."""
    command = c_programs.build_text("alone_" + language, language, ALONE, root)
    run_lines(command, b"", expected=b"")


def symbols_in(archive):
    """The names in the index of an archive: what it has for others to link."""
    if not archive.startswith(ARCHIVE):
        raise driver.Difference("the static library has no index of its symbols")
    index = archive[INDEX_BEGINS:INDEX_BEGINS + int(archive[INDEX_SIZE])]
    count, = struct.unpack_from(">I", index)
    return [name.decode() for name in index[4 + 4 * count:].split(b"\0")[:count]]


def check_symbols(root):
    """The library has the functions that the code exports, all and no others."""
    path = os.path.join(root, c_programs.LIBRARY)
    if not os.path.exists(path):
        raise c_programs.NotHere(f"{c_programs.LIBRARY} is not built")
    with open(path, "rb") as file:
        found = symbols_in(file.read())
    wanted = [name for name, parameters, returned in c_header.exports(root)]
    if sorted(found) != sorted(wanted):
        raise driver.Difference(f"the static library has {sorted(found)}, and the code exports {sorted(wanted)}")


def compare(chosen):
    """The texts first, then what a compiler and the library say; the last line counts the declarations."""
    faults, declarations = c_header.look(chosen.root)
    if faults:
        raise driver.Difference(f"in {c_header.HEADER}:\n  " + "\n  ".join(faults))
    passed, missing = [], []
    checks = [(language, compile_alone, [language]) for language in LANGUAGES]
    for name, check, given in [*checks, ("the symbols of the library", check_symbols, [])]:
        try:
            check(chosen.root, *given)
            passed.append(name)
        except c_programs.NotHere as told:
            missing.append(f"{name} ({told})")
    told = f"all {len(declarations)} declarations of the header are those of the sources; tried: {', '.join(passed)}"
    return told + c_programs.skipped(missing)


if __name__ == "__main__":
    driver.finish("test_header", compare, driver.options(__doc__, 1, named=(), root=programs.ROOT))
