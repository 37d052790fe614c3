"""The header of the calls for C, taken apart, and what it has to declare by the sources of the crates.

A declaration is one line of text here: a constant, an entry of an enum, a field of a struct, or a function.
"""

import os
import re

HEADER = "include/zandervlecht.h"
GUARD = "#define ZANDERVLECHT_H"

# A function of the crate that C can call: its name, its parameters, and the type that it returns.
EXPORT = re.compile(r'#\[unsafe\(no_mangle\)\]\npub extern "C" fn (\w+)\((.*?)\)(?: -> (\w+))?\s', re.DOTALL)

# A lent slice or, with a number, a lent array; and a lent record.
LENT = re.compile(r"&(mut )?\[(\w+)(?:; (\d+))?\]")
LENT_RECORD = re.compile(r"&(mut )?(\w+)")

# The records of the code that C can see, in the order of the header, and what they are called there.
RECORDS = {"Request": "zv_request", "Rover": "zv_rover"}

# The types of the code in C, and what the header calls a lent slice and how many words, bytes or records it has.
C_TYPES = {"u32": "uint32_t", "u8": "uint8_t", **{code: f"struct {name}" for code, name in RECORDS.items()}}
SLICE_NAMES = {"a": ("arena", "words"), "text": ("text", "bytes"), "spelled": ("spelled", "bytes"),
               "requests": ("requests", "count")}

# The constants of the header and those of the code.
CONSTANTS = {"ZV_LEAST_WORDS": "LEAST_LENGTH", "ZV_GREATEST_WORDS": "GREATEST_LENGTH"}

# What a call of the code answers: the name of this, and what is told where the call is done; and a struct of the code,
# with its fields.
ANSWER = re.compile(r"^pub type (\w+) = Result<(.*), Reason>;", re.MULTILINE)
TOLD = re.compile(r"pub struct (\w+) \{(.*?)\}", re.DOTALL)

# A record of the code that lies in memory as C has it, with its fields, and one of these.
RECORD = re.compile(r"#\[repr\(C\)\]\n(?:#\[derive\([^\n]*\)\]\n)*pub struct (\w+) \{(.*?)\}", re.DOTALL)
FIELD = re.compile(r"(\w+): (.+?),?\s*$", re.MULTILINE)

# What makes the call of a kind, and its lines: for each kind the number, the call and what that takes.
KINDS = re.compile(r"\nfn call\(.*?match kind \{(.*?)\n    \}", re.DOTALL)
KIND = re.compile(r"(\d+) => answers::in_numbers\(arena::(\w+)\(a(?:, (\w+(?:, \w+)*))?\)\),")
UNKNOWN_KIND = "_ => answers::refusal_numbers(0, Reason::Frame),"

# The fields that a record has of each answer: a size has the words asked for in the place of the block.
ANSWERED = {"granted": ["block", "granted"], "sized": ["block", "granted"], "finish": []}

# Where a function of the code begins, with its name; a call, with the type that it answers; and where one is made.
FUNCTION = re.compile(r"\bfn (\w+)\(")
CALL = re.compile(r"^pub fn (\w+)\(.*\) -> (\w+)$", re.MULTILINE)
CALLED = re.compile(r"\barena::(\w+)\(")

COMMENT = re.compile(r"/\*(.*?)\*/", re.DOTALL)
LINKAGE = re.compile(r'extern "C" \{(.*)\}', re.DOTALL)
ENUM = re.compile(r"enum (\w+) \{ (.*?),? \}")
STRUCT = re.compile(r"\bstruct (\w+) \{(.*?)\};", re.DOTALL)

# A comment and the name before which it stands, and the star that begins a line of a long one.
COMMENTED = re.compile(r"/\*((?:(?!\*/).)*)\*/\s*(?:enum |struct |uint32_t |void )?(\w+)", re.DOTALL)
STAR = re.compile(r"^ \*", re.MULTILINE)

ONE_SENTENCE = re.compile(r"[A-Z][^.]*\.")
SENTENCES = re.compile(r"[A-Z].*\.")

# What a comment can name: something that is declared, a path, a number. Of numbers only these are nobody's constant.
NAME = re.compile(r"\b(?:zv|ZV)_\w+")
ASKED_OR_ANSWERED = re.compile(r"\b(?:b|n|block|granted)\b")
PATH = re.compile(r"\b(?:crates|docs|include)/[\w./]*\w")
NUMBER = re.compile(r"\d[\d,]*")
PLAIN_NUMBERS = {"0", "32"}


def text_of(root, path):
    """The text of a file of the repository."""
    with open(os.path.join(root, path), encoding="utf-8") as file:
        return file.read()


def source_of(root, crate):
    """The code of a crate."""
    return text_of(root, f"crates/{crate}/src/lib.rt")


def one_line(text):
    """The words of a text with one space between them."""
    return " ".join(text.split())


# What the sources ask for.


def upper(name):
    """A name of the code in capitals: NotABlock is NOT_A_BLOCK."""
    return re.sub(r"(?<!^)([A-Z])", r"_\1", name).upper()


def pointed_to(mutable, unit):
    """What a pointer of C points to, where the code is lent such a unit."""
    return ("" if mutable else "const ") + C_TYPES.get(unit, unit)


def c_parameters(parameter):
    """What a parameter of the code is in C: a lent slice is two, a pointer and how many words or bytes it points to."""
    name, kind = parameter.split(": ")
    lent, record = LENT.fullmatch(kind), LENT_RECORD.fullmatch(kind)
    if record:
        return [f"{pointed_to(*record.groups())} *{name}"]
    if lent is None:
        return [f"{C_TYPES.get(kind, kind)} {name}"]
    mutable, unit, count = lent.groups()
    kind = pointed_to(mutable, unit)
    if count:
        return [f"{kind} {name}[{count}]"]
    pointer, number = SLICE_NAMES.get(name, (name, f"{name}_words"))
    return [f"{kind} *{pointer}", f"size_t {number}"]


def prototype(name, parameters, returned):
    """An exported function as C declares it."""
    each = [parameter for parameter in one_line(parameters).rstrip(",").split(", ") if parameter]
    listed = ", ".join(word for parameter in each for word in c_parameters(parameter))
    return f"{C_TYPES.get(returned, returned) if returned else 'void'} {name}({listed or 'void'})"


def exports(root):
    """The functions that C can call."""
    return EXPORT.findall(source_of(root, "zandervlecht"))


def constants(layout):
    """The constants of the header, with the numbers of the code."""
    for name, known_as in CONSTANTS.items():
        number = re.search(rf"^pub const {known_as}: usize = (\d+);", layout, re.MULTILINE)
        yield f"#define {name} {number.group(1) if number else 'of no number'}"


def codes(layout):
    """The codes: done, and the reasons in the code's order, with their numbers."""
    reasons = re.search(r"pub enum Reason \{(.*?)\}", layout, re.DOTALL).group(1)
    yield "enum zv_code: ZV_DONE = 0"
    for reason, number in re.findall(r"(\w+)(?: = (\d+))?,", reasons):
        yield f"enum zv_code: ZV_{upper(reason)} = {number or 'of no number'}"


def entries_in(inside):
    """The fields that a struct has, as entries of an enum of C, counted from 0."""
    return [f"ZV_{field.upper()} = {at}" for at, field in enumerate(re.findall(r"(\w+): u32", inside))]


def entries_of(answers):
    """The entries of each answer that has fields with names."""
    inside = dict(TOLD.findall(answers))
    return {f"zv_{name.lower()}": entries_in(inside[told]) for name, told in ANSWER.findall(answers) if told in inside}


def fields(answers):
    """The entries of each answer; one that another answer has before, in the same place, is not declared again."""
    before = set()
    for enum, entries in entries_of(answers).items():
        yield from (f"enum {enum}: {entry}" for entry in entries if entry not in before)
        before.update(entries)


def functions_in(source):
    """The functions of some code: the name of each, and its text up to the next one."""
    head, *parts = FUNCTION.split(source)
    return dict(zip(parts[::2], parts[1::2]))


def answers_of(root):
    """The answer of each call; of one that tells more besides, that which it has in a field."""
    answers = source_of(root, "answers")
    known, inside = dict(ANSWER.findall(answers)), dict(TOLD.findall(answers))
    for call, answered in CALL.findall(source_of(root, "arena")):
        words = re.findall(r"\w+", inside.get(answered, answered))
        yield from ((call, word.lower()) for word in words if word in known)


def answering(root, answer):
    """The functions for C that tell this answer: they make a call that answers so."""
    answers = dict(answers_of(root))
    for name, text in functions_in(source_of(root, "zandervlecht")).items():
        if answer in map(answers.get, CALLED.findall(text)):
            yield name


def kind_lines(root):
    """The lines by which the call of a kind is made, each with one space between its words."""
    lines = KINDS.search(source_of(root, "batch"))
    return [one_line(line) for line in lines.group(1).split("\n") if line.strip()] if lines else []


def kinds(root):
    """The kinds of request: of each its number, what it answers, its call, and what that takes besides the arena."""
    answers = dict(answers_of(root))
    found = filter(None, map(KIND.fullmatch, kind_lines(root)))
    return [(number, ANSWERED.get(answers.get(call), [call]), call, taken.split(", ") if taken else [])
            for number, call, taken in (kind.groups() for kind in found)]


def kind_entries(root):
    """The kinds of request, each called after its call."""
    for number, answered, call, taken in kinds(root):
        yield f"enum zv_kind: ZV_{call.upper()} = {number}"


def record_fields(rules):
    """The fields of each record, in the order in which they lie in memory."""
    inside = dict(RECORD.findall(rules))
    for record, known_as in RECORDS.items():
        if record not in inside:
            yield f"struct {known_as}: of no fields, since none of the code lie in memory as C has them"
        for name, kind in FIELD.findall(inside.get(record, "")):
            yield f"struct {known_as}: {C_TYPES.get(kind, kind)} {name}"


def due(root):
    """All that the header has to declare, in this order."""
    layout = source_of(root, "layout")
    answers = [*codes(layout), *fields(source_of(root, "answers"))]
    requests = [*kind_entries(root), *record_fields(source_of(root, "rules"))]
    return [*constants(layout), *answers, *requests, *(prototype(*export) for export in exports(root))]


# What the header has.


def fields_apart(struct):
    """The fields of a struct as statements of their own."""
    name, inside = struct.groups()
    return "".join(f"struct {name}: {field};" for field in map(one_line, inside.split(";")) if field)


def declared(text):
    """All that the header declares, in its order."""
    lines = COMMENT.sub("", text).split("\n")
    defined = [one_line(line) for line in lines if line.startswith("#define")]
    code = LINKAGE.sub(r"\1", "\n".join(line for line in lines if not line.startswith("#")))
    found = [line for line in defined if line != GUARD]
    for statement in map(one_line, STRUCT.sub(fields_apart, code).split(";")):
        entries = ENUM.fullmatch(statement)
        if entries:
            found += [f"enum {entries.group(1)}: {entry}" for entry in entries.group(2).split(", ")]
        elif statement:
            found.append(statement)
    return found


def name_of(declaration):
    """The name that a declaration makes known; that of a field comes last."""
    if declaration.startswith("struct "):
        return declaration.split(" ")[-1]
    return NAME.search(declaration.split(": ")[-1]).group()


def types_in(found, word):
    """The names of all that is declared entry by entry, or field by field, behind this word."""
    return {line.split(" ")[1].rstrip(":") for line in found if line.startswith(word + " ")}


def said_before(text):
    """What the comment before each name says."""
    return {name: one_line(STAR.sub("", said)) for said, name in COMMENTED.findall(text)}


# What is wrong.


def wrong_marks(root):
    """Functions that are marked for C in a way that is not read here."""
    source, count = source_of(root, "zandervlecht"), len(exports(root))
    for mark in ("#[unsafe(no_mangle)]", 'extern "C"'):
        if source.count(mark) != count:
            yield f"{mark} is in the code {source.count(mark)} times, and {count} functions were read there"


def wrong_kinds(root):
    """Lines by which the call of a kind is made in a way that is not read here."""
    for line in kind_lines(root) or ["none at all"]:
        if not KIND.fullmatch(line) and line != UNKNOWN_KIND:
            yield f"of the lines that make the call of a kind this is not read: {line}"


def wrong_declarations(wanted, found):
    """What the header lacks, what it has besides, and whether all stands once and in the order of the sources."""
    yield from (f"the header lacks: {line}" for line in wanted if line not in found)
    yield from (f"the header has, and the sources have not: {line}" for line in found if line not in wanted)
    if set(wanted) == set(found) and wanted != found:
        yield "the header has all that the sources have, but in another order or more than once"


def wrong_comments(said, found):
    """Entries of an enum and fields of a struct without a comment of one sentence, and functions without a comment."""
    for line in found:
        form = ONE_SENTENCE if line.startswith(("enum ", "struct ")) else SENTENCES
        name = name_of(line)
        if not line.startswith("#define") and not form.fullmatch(said.get(name, "")):
            yield f"before {name} stands no comment of one sentence"


def wrong_lists(root, said, found):
    """Enums of fields whose comment does not name the functions that answer so, those and no others.

    A field of such an answer that is declared in another enum has to be named besides.
    """
    for enum, entries in entries_of(source_of(root, "answers")).items():
        elsewhere = [name_of(entry) for entry in entries if f"enum {enum}: {entry}" not in found]
        due_names = {*answering(root, enum[len("zv_"):]), *elsewhere}
        if set(NAME.findall(said.get(enum, ""))) != due_names:
            yield f"the comment before {enum} does not name {', '.join(sorted(due_names))} alone"


def wrong_kind_comments(root, said):
    """Kinds whose comment does not name the call, what that takes and what it answers, in this order and no others."""
    for number, answered, call, taken in kinds(root):
        comment = said.get(f"ZV_{call.upper()}", "")
        due_names = [f"zv_{call}", *taken, *answered]
        if NAME.findall(comment) + ASKED_OR_ANSWERED.findall(comment) != due_names:
            yield f"the comment before ZV_{call.upper()} does not name {', '.join(due_names)} alone"


def wrong_words(root, text, found):
    """Names and paths in comments that are not there, and numbers, which the header is to call by name."""
    comments = " ".join(COMMENT.findall(text))
    known = {name_of(line) for line in found} | types_in(found, "enum") | types_in(found, "struct")
    for name in NAME.findall(comments):
        if name not in known:
            yield f"a comment names {name}, which is not declared"
    for path in PATH.findall(comments):
        if not os.path.exists(os.path.join(root, path)):
            yield f"a comment names {path}, which is not there"
    for number in sorted(set(NUMBER.findall(comments)) - PLAIN_NUMBERS):
        yield f"a comment has the number {number}: no test holds it to the sources"


def look(root):
    """All that is wrong with the header of a repository, and all that it declares."""
    text = text_of(root, HEADER)
    found = declared(text)
    faults = [*wrong_marks(root), *wrong_kinds(root), *wrong_declarations(due(root), found)]
    if not faults:
        said = said_before(text)
        faults = [*wrong_comments(said, found), *wrong_lists(root, said, found), *wrong_kind_comments(root, said),
                  *wrong_words(root, text, found)]
    return faults, found
