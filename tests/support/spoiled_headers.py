"""What spoils the header of the calls for C, or what it has to agree with: the sources and the library."""

import re

from .c_header import HEADER
from .c_programs import LIBRARY
from .spoiling import edited, edited_bytes, replaced

DRIVER = "test_header"

CALLS = "crates/zandervlecht/src/lib.rt"
LAYOUT = "crates/layout/src/lib.rt"
ANSWERS = "crates/answers/src/lib.rt"
RULES = "crates/rules/src/lib.rt"
BATCH = "crates/batch/src/lib.rt"


def header(old, new):
    """The header has other words in one place."""
    return replaced(HEADER, old, new)


def swapped(one, other):
    """Two words of the header have changed places."""
    def edit(text):
        return text.replace(one, "\0").replace(other, one).replace("\0", other)

    return lambda root: edited(root, HEADER, edit)


def unlinkable(root):
    """No language is told that the functions are those of C."""
    edited(root, HEADER, lambda text: text.replace("__cplusplus", "NO_LANGUAGE"))


def renamed_symbol(root):
    """The library has another function than the code exports."""
    edited_bytes(root, LIBRARY, lambda content: content.replace(b"zv_relocate\0", b"zv_relocete\0"))


def unlike_c(record):
    """A record of the code lies in memory as the compiler likes."""
    marked = re.compile(rf"#\[repr\(C\)\]\n((?:#\[derive\([^\n]*\)\]\n)*pub struct {record} \{{)")
    return lambda root: edited(root, RULES, lambda text: marked.sub(r"\1", text))


# What spoils a copy, and what the driver then has to tell.
SPOILED = [
    (swapped("ZV_ZERO", "ZV_TOO_LARGE"), "the header lacks: enum zv_code: ZV_ZERO = 4"),
    (header("    ZV_FRAME = 7,\n", ""), "the header lacks: enum zv_code: ZV_FRAME = 7"),
    (header("ZV_WOULD_MOVE = 8", "ZV_WOULD_MOVE = 8, ZV_BUSY = 9"), "the sources have not: enum zv_code: ZV_BUSY = 9"),
    (header("ZV_WOULD_MOVE = 8", "ZV_WOULD_MOVE"), "the sources have not: enum zv_code: ZV_WOULD_MOVE"),
    (header("ZV_TEXT_ROOM = 11", "ZV_TEXT_ROOM = 9"), "the header lacks: enum zv_code: ZV_TEXT_ROOM = 11"),
    (swapped("ZV_BLOCK", "ZV_GRANTED"), "the header lacks: enum zv_granted: ZV_BLOCK = 0"),
    (swapped("ZV_LARGEST", "ZV_LIVE_BLOCKS"), "the header lacks: enum zv_reported: ZV_LIVE_BLOCKS = 2"),
    (header("LEAST_WORDS 6", "LEAST_WORDS 8"), "the header lacks: #define ZV_LEAST_WORDS 6"),
    (header("WORDS 16384", "WORDS 16386"), "the header lacks: #define ZV_GREATEST_WORDS 16384"),
    (header("#define ZV_LEAST", "#define ZV_MOST 9\n#define ZV_LEAST"), "the sources have not: #define ZV_MOST 9"),
    (header("uint32_t zv_free(uint32_t *arena, size_t words, uint32_t b);", ""), "the header lacks: uint32_t zv_free("),
    (header("/* Frees", "int zv_test(void);\n/* Frees"), "the sources have not: int zv_test(void)"),
    (header("/* Frees", "uint32_t zv_start(uint32_t *arena, size_t words);\n/* Frees"), "more than once"),
    (header("answer[4]", "answer[3]"), "the sources have not: uint32_t zv_report("),
    (header("uint32_t b, uint32_t answer[2]", "uint32_t b, uint32_t answer[1]"), "the header lacks: uint32_t zv_size("),
    (header("words, uint32_t b, uint32_t n", "words, uint32_t n, uint32_t b"), "the header lacks: uint32_t zv_resize("),
    (header("zv_size(const ", "zv_size("), "the header lacks: uint32_t zv_size("),
    (header("*arena, size_t words)", "*arena, int words)"), "the header lacks: uint32_t zv_start("),
    (header("uint32_t zv_free", "void zv_free"), "the header lacks: uint32_t zv_free("),
    (header("uint8_t *text, size_t bytes, ", "char *text, size_t bytes, "), "the header lacks: uint32_t zv_write("),
    (header("zv_read(const ", "zv_read("), "the header lacks: uint32_t zv_read("),
    (header("*spelled, size_t bytes", "*spelled, size_t words"), "the header lacks: uint32_t zv_check("),
    (swapped("zv_resize(", "zv_realloc("), "in another order"),
    (swapped("ZV_REALLOC =", "ZV_RESIZE ="), "the header lacks: enum zv_kind: ZV_REALLOC = 3"),
    (header("ZV_RELOCATE = 5", "ZV_RELOCATE = 7"), "the header lacks: enum zv_kind: ZV_RELOCATE = 5"),
    (header("    ZV_FREE = 2,\n", ""), "the header lacks: enum zv_kind: ZV_FREE = 2"),
    (header("ZV_SIZE = 6", "ZV_SIZE = 6, ZV_REPORT = 7"), "the sources have not: enum zv_kind: ZV_REPORT = 7"),
    (swapped("uint32_t b;", "uint32_t n;"), "in another order"),
    (swapped("uint32_t block;", "uint32_t granted;"), "in another order"),
    (header("    uint32_t granted;\n", ""), "the header lacks: struct zv_request: uint32_t granted"),
    (header("uint32_t code;", "uint32_t code, more;"), "the sources have not: struct zv_request: uint32_t code, more"),
    (header("uint32_t kind;", "enum zv_kind kind;"), "the header lacks: struct zv_request: uint32_t kind"),
    (header("*requests, size_t count", "*requests, uint32_t count"), "the header lacks: void zv_batch("),
    (header("void zv_batch", "uint32_t zv_batch"), "the header lacks: void zv_batch("),
    (header("struct zv_request *requests", "const struct zv_request *requests"), "the header lacks: void zv_batch("),
    (header("uint32_t at;", "uint32_t *at;"), "the header lacks: struct zv_rover: uint32_t at"),
    (header("uint32_t at;", "uint32_t at, from;"), "the sources have not: struct zv_rover: uint32_t at, from"),
    (header("words, struct zv_rover *rover", "words, uint32_t *rover"), "the header lacks: uint32_t zv_alloc_next("),
    (header("words, struct zv_rover *rover", "words, const struct zv_rover *rover"),
     "the header lacks: uint32_t zv_alloc_next("),
    (header("words, struct zv_rover *rover", "words, struct zv_rover rover"),
     "the header lacks: uint32_t zv_alloc_next("),
    (header("struct zv_rover *rover, uint32_t n,", "uint32_t n, struct zv_rover *rover,"),
     "the header lacks: uint32_t zv_alloc_next("),
    (header("uint32_t zv_alloc_best(uint32_t *arena, size_t words, uint32_t n, uint32_t answer[2]);", ""),
     "the header lacks: uint32_t zv_alloc_best("),
    (swapped("zv_alloc(", "zv_alloc_best("), "in another order"),
    (header("The call was done.", "The call was done. Go on."), "before ZV_DONE stands no comment"),
    (header("    /* The request is for no words. */\n", ""), "before ZV_ZERO stands no comment"),
    (header("/* Frees block b. */\n", ""), "before zv_free stands no comment"),
    (header("ZV_LENGTH, the last also where the bytes make no whole number of words.\n", "ZV_LENGTH\n"),
     "before zv_check stands no comment"),
    (header("    /* The code, as the call would return it. */\n", ""), "before code stands no comment"),
    (header("    /* The word from which on the search begins: where", "    /* where"), "before at stands no comment"),
    (header("/* Does as zv_alloc does, but takes the smallest", "/* the smallest"),
     "before zv_alloc_best stands no comment"),
    (header("zv_relocate and zv_realloc. */", "zv_relocate. */"), "the comment before zv_granted does not name"),
    (header("zv_alloc_best, zv_alloc_next, zv_resize", "zv_alloc_next, zv_resize"),
     "the comment before zv_granted does not name"),
    (header("one struct zv_rover,", "one struct zv_rovers,"), "a comment names zv_rovers"),
    (header("It is zv_resize with", "It is zv_realloc with"), "before ZV_RESIZE does not name zv_resize, b, n, block"),
    (header("zv_free with b", "zv_free with n"), "the comment before ZV_FREE does not name zv_free, b alone"),
    (header("in block, and granted.", "and granted."), "before ZV_SIZE does not name zv_size, b, block, granted alone"),
    (header("answer of zv_size;", "answer of zv_report;"),
     "the comment before zv_sized does not name ZV_GRANTED, zv_size alone"),
    (header("at ZV_GRANTED as after", "as after"), "comment before zv_sized does not name ZV_GRANTED, zv_size alone"),
    (header("zv_relocate and zv_realloc. */", "zv_relocate, zv_realloc and zv_size. */"),
     "the comment before zv_granted does not name"),
    (header("ZV_ASKED = 0", "ZV_ASKED = 1"), "the header lacks: enum zv_sized: ZV_ASKED = 0"),
    (header("ZV_ASKED = 0", "ZV_ASKED = 0, ZV_GRANTED_WORDS = 1"),
     "the sources have not: enum zv_sized: ZV_GRANTED_WORDS = 1"),
    (header("    /* The words that were asked for when the block", "    /* when the block"),
     "before ZV_ASKED stands no comment"),
    (header("enum zv_kind;", "enum zv_kinds;"), "a comment names zv_kinds"),
    (header("ZV_DONE or ZV_LENGTH", "ZV_DONE or ZV_LONG"), "a comment names ZV_LONG"),
    (header("docs/BOARD.md", "docs/BOARDS.md"), "a comment names docs/BOARDS.md"),
    (header("below ZV_LEAST_WORDS", "below 6"), "a comment has the number 6"),
    (replaced(LAYOUT, "    Zero = 4,\n", "    Zero = 9,\n"), "the header lacks: enum zv_code: ZV_ZERO = 9"),
    (replaced(LAYOUT, "    WouldMove = 8,\n", "    WouldMove = 8,\n    Busy,\n"),
     "the header lacks: enum zv_code: ZV_BUSY"),
    (replaced(LAYOUT, "usize = 16384", "usize = 32768"), "the header lacks: #define ZV_GREATEST_WORDS 32768"),
    (replaced(ANSWERS, "largest: u32", "longest: u32"), "the header lacks: enum zv_reported: ZV_LONGEST = 1"),
    (replaced(ANSWERS, "    pub asked: u32,\n    pub granted: u32,\n", "    pub granted: u32,\n    pub asked: u32,\n"),
     "the header lacks: enum zv_sized: ZV_GRANTED = 0"),
    (replaced(ANSWERS, "    pub asked: u32,\n    pub granted: u32,\n", "    pub asked: u32,\n    pub given: u32,\n"),
     "the header lacks: enum zv_sized: ZV_GIVEN = 1"),
    (replaced(CALLS, "fn zv_free", "fn zv_release"), "the header lacks: uint32_t zv_release("),
    (replaced(CALLS, "zv_free(a: &mut [u32]", "zv_free(a: &[u32]"), "zv_free(const uint32_t *arena"),
    (replaced(CALLS, "zv_check(spelled: &[u8]", "zv_check(spelled: &mut [u8]"), "zv_check(uint8_t *spelled"),
    (replaced(CALLS, "requests: &mut [Request]", "requests: &[Request]"), "words, const struct zv_request *requests"),
    (replaced(CALLS, "rover: &mut Rover", "rover: &Rover"), "words, const struct zv_rover *rover"),
    (replaced(CALLS, "rover: &mut Rover", "rover: &mut [u32; 1]"), "words, uint32_t rover[1]"),
    (replaced(CALLS, "rover: &mut Rover,\n    n: u32,\n", "n: u32,\n    rover: &mut Rover,\n"),
     "uint32_t n, struct zv_rover *rover"),
    (replaced(CALLS, "fn zv_alloc_best", "fn zv_alloc_worst"), "the header lacks: uint32_t zv_alloc_worst("),
    (replaced(CALLS, "#[unsafe(no_mangle)]\n", "#[unsafe(no_mangle)]\n#[inline]\n"),
     "times, and 13 functions were read there"),
    (unlike_c("Request"), "the header lacks: struct zv_request: of no fields"),
    (unlike_c("Rover"), "the header lacks: struct zv_rover: of no fields"),
    (replaced(RULES, "at: u32", "at: u64"), "the header lacks: struct zv_rover: u64 at"),
    (replaced(RULES, "at: u32", "word: u32"), "the header lacks: struct zv_rover: uint32_t word"),
    (replaced(RULES, "    pub b: u32,\n    pub n: u32,\n", "    pub n: u32,\n    pub b: u32,\n"), "in another order"),
    (replaced(RULES, "    pub n: u32,\n", "    pub n: u64,\n"), "the header lacks: struct zv_request: u64 n"),
    (replaced(RULES, "    pub n: u32,\n", "    pub n: [u32; 2],\n"), "the header lacks: struct zv_request: [u32; 2] n"),
    (replaced(RULES, "    pub granted: u32,\n", ""), "the sources have not: struct zv_request: uint32_t granted"),
    (replaced(BATCH, "        4 => ", "        9 => "), "the header lacks: enum zv_kind: ZV_RESIZE = 9"),
    (replaced(BATCH, "arena::alloc(a, n)", "arena::alloc(a, b)"), "before ZV_ALLOC does not name zv_alloc, b, block"),
    (replaced(BATCH, "        _ => ", "        7 => grow(a, b),\n        _ => "), "this is not read: 7 => grow(a, b),"),
    (replaced(BATCH, "Reason::Frame)", "Reason::Zero)"), "this is not read: _ => answers::refusal_numbers("),
    (replaced(BATCH, "fn call(", "fn make_call("), "this is not read: none at all"),
]

# The same, of what a compiler for one of the languages, and the library that it links, have to show.
COMPILED = {
    "c99": [
        (header("#include <stddef.h>\n", ""), "the program alone_c99 cannot be built"),
        (header("#define ZANDERVLECHT_H\n", ""), "the program alone_c99 cannot be built"),
        (renamed_symbol, "the static library has"),
    ],
    "c++11": [(unlinkable, "the program alone_c++11 cannot be built")],
}
