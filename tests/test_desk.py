"""Holds the desk tool to the model: what it prints of files of bytes and of pictures, its status, its complaints."""

import os
import subprocess
import tempfile
from collections import Counter, namedtuple
from random import Random

from support import arenas, c_programs, cases, driver, model, older, pictures, programs, strange_pictures
from support.telling import shown

FILES = 50

# What each code means, with the number of words that it speaks of.
MEANINGS = {
    model.DONE: "a sound arena of {} words",
    model.LENGTH: "no arena has this length: it is an even number of words from 6 to 16384, as bytes four to a word",
    model.DAMAGED: "these {} words are no sound arena",
    model.FRAME: "these lines are no picture of an arena",
}

# The statuses where there is no code: not told what to do, not read, not written.
NOT_TOLD, NOT_READ, NOT_WRITTEN = 64, 66, 74

# What the tool asks for, and what complaints say besides.
SAY = "say bash desk/run FILE, or bash desk/run --picture FILE"
OPTION = f"there is no such option; {SAY}"
ONE_FILE = f"one file at a time; {SAY}"

# What a run must have met to mean anything.
WANTED = [("bytes", code) for code in (0, 1, 2)] + [("picture", code) for code in (0, 1, 2, 7)]

# What a program did: its status, and what it wrote to standard output and to standard error.
Ended = namedtuple("Ended", "status written said")


def run(command, words, given=b"", output=subprocess.PIPE):
    """Runs the tool with these words and this standard input."""
    ended = subprocess.run([*command, *words], input=given, stdout=output, stderr=subprocess.PIPE,
                           timeout=programs.PATIENCE)
    return Ended(ended.returncode, ended.stdout, ended.stderr)


def hold(words, expected, got):
    """Complains where the tool did something else than expected."""
    if got != expected:
        raise driver.Difference(f"the desk tool with {words}: expected {expected}, got {got}")


def found(code, words):
    """What the tool does where it finds this code, for so many words."""
    return Ended(code, f"{code}: {MEANINGS[code].format(words)}\n".encode(), b"")


def complained(status, what, complaint):
    """What the tool does where it has no code to tell."""
    return Ended(status, b"", f"desk/check: {what}: {complaint}\n".encode())


# The files.


def arenas_of_all_kinds(random, count):
    """Words: sound arenas and damaged ones, the longest among them, and numbers of words that no arena has."""
    yield from (arenas.arena_for(random, number).words for number in range(count))
    yield from (arenas.sound_arena(random, length).words for length in (6, 32, 16384))
    yield arenas.full_arena(True).words
    yield [*arenas.full_arena(True).words[:-1], 7]
    for length in (0, 1, 4, 5, 7, 16383, 16385, 16386, 65536):
        yield arenas.any_arena(random, length).words


def files_of_bytes(random, count):
    """Files of bytes: words of all kinds, without and with bytes over, and the longest arena with more behind it."""
    for words in arenas_of_all_kinds(random, count):
        yield cases.packed(words)
        yield cases.packed(words) + random.randbytes(random.randrange(1, 4))
    longest = cases.packed(arenas.sound_arena(random, model.LONGEST_ARENA).words)
    yield from (longest[:-1], longest + b"\0", longest + bytes(4), longest + bytes(8), longest * 2, bytes(10**6))


def files_of_pictures(random, count):
    """Files of pictures of words of all kinds, spoiled ones, and the longest picture with nothing or more behind it."""
    for words in arenas_of_all_kinds(random, count):
        if len(words) <= 65535:
            yield pictures.picture_of(words)
            yield strange_pictures.mutated(random, pictures.picture_of(words).lower())
    for kind, text in strange_pictures.spoiled_texts(strange_pictures.BAD, arenas.sound_arena(random, 10).words):
        if random.random() < 0.2:
            yield text
    longest = pictures.picture_of([65535] * 65535)
    yield from (longest, longest[:-1], longest + b"\n", longest * 2, b"06-001\n", b"060x1F\n", b"06+00A\n", b"06FFFF\n")


# The comparison.


def code_of_bytes(content):
    """The code of these bytes, and of how many words it speaks."""
    return pictures.check(content, []).code, len(content) // pictures.WORD_BYTES


def code_of_picture(content):
    """The code of this text, and of how many words it speaks."""
    words = pictures.words_in(content)
    return (model.FRAME, 0) if words is None else (pictures.judged(words), len(words))


def compare_file(command, folder, options, content, due):
    """Holds what the tool says of a file to the code and the number of words that are due."""
    path = os.path.join(folder, "file")
    with open(path, "wb") as file:
        file.write(content)
    try:
        hold([*options, "FILE"], found(*due), run(command, [*options, path]))
    except driver.Difference as difference:
        raise driver.Difference(f"{difference}; the file holds {shown(content)}", content) from difference
    with open(path, "rb") as file:
        if file.read() != content:
            raise driver.Difference(f"the desk tool with {[*options, 'FILE']} changed the file", content)


def compare_files(command, folder, random, count):
    """Files of both kinds; gives how often each code was met in each."""
    met = Counter()
    for content in files_of_bytes(random, count):
        due = code_of_bytes(content)
        compare_file(command, folder, [], content, due)
        met["bytes", due[0]] += 1
    for content in files_of_pictures(random, count):
        due = code_of_picture(content)
        compare_file(command, folder, ["--picture"], content, due)
        met["picture", due[0]] += 1
    return met


def compare_older(command, folder):
    """Files of before item 9, of bytes and of pictures: with a block and without; gives how many were tried."""
    rows = [(older.HELD_WORDS, older.HELD_SHOWN, model.DAMAGED), (older.BARE_WORDS, older.BARE_SHOWN, model.DONE)]
    for words, text, code in rows:
        compare_file(command, folder, [], cases.packed(words), (code, len(words)))
        compare_file(command, folder, ["--picture"], text, (code, len(words)))
    return 2 * len(rows)


def compare_input(command):
    """A file called - is standard input; gives how many were tried."""
    content = cases.packed(arenas.full_arena(False).words)
    hold(["-"], found(model.DONE, model.LONGEST_ARENA), run(command, ["-"], content))
    hold(["-"], found(model.LENGTH, 0), run(command, ["-"]))
    hold(["--picture", "-"], found(model.DAMAGED, 8), run(command, ["--picture", "-"], pictures.picture_of([8] * 8)))
    return 3


def compare_complaints(command, folder):
    """Words that name no file, or one that cannot be read; gives how many were tried."""
    missing = os.path.join(folder, "missing")
    rows = [
        ([], NOT_TOLD, "no file is named", SAY), (["--picture"], NOT_TOLD, "no file is named", SAY),
        (["--pictures", "-"], NOT_TOLD, "--pictures", OPTION), (["-x"], NOT_TOLD, "-x", OPTION),
        (["--picture", "--picture"], NOT_TOLD, "--picture", OPTION),
        (["-", "--picture"], NOT_TOLD, "--picture", OPTION),
        (["-", missing], NOT_TOLD, missing, ONE_FILE), (["--picture", "-", "-"], NOT_TOLD, "-", ONE_FILE),
        ([missing], NOT_READ, missing, "No such file or directory"), ([""], NOT_READ, "", "No such file or directory"),
        (["--picture", missing], NOT_READ, missing, "No such file or directory"),
        ([folder], NOT_READ, folder, "Is a directory"), (["--picture", folder], NOT_READ, folder, "Is a directory"),
    ]
    for words, status, what, complaint in rows:
        hold(words, complained(status, what, complaint), run(command, words))
    return len(rows)


def compare_unwritable(command):
    """A line that cannot be written, here since its output is open for reading alone, is no success; gives 1."""
    with open(os.devnull, "rb") as unwritable:
        got = run(command, ["-"], cases.packed(arenas.full_arena(False).words), unwritable)
    hold(["-"], complained(NOT_WRITTEN, "standard output", "Bad file descriptor")._replace(written=None), got)
    return 1


def compare(chosen):
    """What is no file first, through the script that builds the tool, too; then files; the last line counts them."""
    script = ["bash", os.path.join(chosen.root, "desk", "run")]
    try:
        command = c_programs.build("desk_check", "c99", os.path.join(chosen.root, "desk", "check.c"), chosen.root)
    except c_programs.NotHere as told:
        return f"nothing was compared{c_programs.skipped([str(told)])}"
    with tempfile.TemporaryDirectory() as folder:
        others = compare_complaints(command, folder) + compare_unwritable(command) + compare_input(script)
        by_hand = compare_older(command, folder)
        met = compare_files(command, folder, Random(chosen.seed), chosen.count)
    if chosen.count >= FILES:
        driver.check_met(met, WANTED, 3, "files")
    told = f"{sum(met.values())} files of bytes and of pictures compared, {by_hand} older ones by hand"
    return f"{told}, and {others} other words and inputs: what is printed, and the status"


if __name__ == "__main__":
    driver.finish("test_desk", compare, driver.options(__doc__, FILES, named=(), root=programs.ROOT))
