"""Names in backticks: those that a page has, and those that the repository knows."""

import os
import re
from collections import namedtuple

# A name of the sources: a letter, then letters, digits and _, joined by hyphens; it may end in primes.
NAME = re.compile(r"(?<!\w)[^\W\d]\w*(?:-\w+)*'*")

# Comments in the sources, which name nothing into being.
COMMENTS = {".rt": re.compile(r"//.*"), ".antt": re.compile(r"--.*"), ".h": re.compile(r"/\*.*?\*/", re.DOTALL)}

# A name of the code with the crate that it is in.
QUALIFIED = re.compile(r"(?<![\w:])(\w+)((?:::\w+)+)")

# What stands in backticks on one line of a page.
SPAN = re.compile(r"`([^`]+)`")

# Lines and numbers of the board are digits; eight of them, a word, may all be letters. A path is one word with a slash
# in it, or with the ending of a file; a star in it stands for any name. A command begins with the name of a program
# that is not in the repository.
DIGITS = re.compile(r"(?=.*\d)[0-9A-F]+|[0-9A-F]{8}")
PATH = re.compile(r"[\w.*+-]+/[\w.*+/-]*|[\w*+-]+\.(?:antt|edit|md|py|rt|txt)")
COMMAND = re.compile(r"(bash|python3|rt)(?: (.*))?")

# The folders that are no part of the repository.
OUTSIDE = {".git", "out", "target", "__pycache__"}

# All names, all paths, and the names in the code of each crate.
Known = namedtuple("Known", "names paths code")


def paths_below(root):
    """All files and folders of a repository, as they are called from its top; a folder ends in a slash."""
    found = []
    for folder, folders, files in os.walk(root):
        folders[:] = sorted(set(folders) - OUTSIDE)
        inside = os.path.relpath(folder, root).replace(os.sep, "/") + "/"
        inside = "" if inside == "./" else inside
        found += [inside + name + "/" for name in folders] + [inside + name for name in sorted(files)]
    return found


def names_in_source(path):
    """The names that occur in a source outside its comments."""
    with open(path, encoding="utf-8") as file:
        text = COMMENTS[os.path.splitext(path)[1]].sub("", file.read())
    return set(NAME.findall(text))


def known_below(root):
    """What a page may name: all that occurs in the sources of the crates or the header, and every file and folder."""
    paths = paths_below(root)
    names = set()
    code = {}
    for path in paths:
        last = path.rstrip("/").split("/")[-1]
        names |= {last, os.path.splitext(last)[0]}
        if path.startswith(("crates/", "include/")) and path.endswith(tuple(COMMENTS)):
            found = names_in_source(os.path.join(root, path))
            names |= found
            if path.endswith(".rt"):
                code.setdefault(path.split("/")[1], {os.path.splitext(last)[0]}).update(found)
    return Known(names, paths, code)


def is_path(word, known):
    """Whether this is a path from the repository's top, or the end of one; the slash behind a folder may be missing."""
    form = re.compile("(?:.*/)?" + "[^/]*".join(map(re.escape, word.rstrip("/").split("*"))) + "/?")
    return any(form.fullmatch(path) and (path.endswith("/") or not word.endswith("/")) for path in known.paths)


def unknown_in_command(program, rest, known):
    """The file that a command runs, where there is none; what the Rattle kit's own command is told is passed over."""
    words = (rest or "").split()
    return [word for word in words[:1] if program != "rt" and word not in known.paths]


def unknown_qualified(span, known):
    """The names with their crate, such as arena::alloc, whose crate has no code with the rest of the name."""
    for crate, rest in QUALIFIED.findall(span):
        if not set(rest.split("::")[1:]) <= known.code.get(crate, set()):
            yield crate + rest


def unknown_in(span, known):
    """The parts of what stands in backticks that are not known: a path, a command's file, or the names one by one."""
    if DIGITS.fullmatch(span):
        return []
    if PATH.fullmatch(span):
        return [] if is_path(span, known) else [span]
    command = COMMAND.fullmatch(span)
    if command:
        return unknown_in_command(*command.groups(), known)
    plain = QUALIFIED.sub(" ", span)
    return [*unknown_qualified(span, known), *(name for name in NAME.findall(plain) if name not in known.names)]


def prose_of(text):
    """The lines of a page with their numbers, but for code: between fences, or four spaces in after an empty line."""
    fenced = code = False
    above = ""
    for number, line in enumerate(text.split("\n"), 1):
        fence = line.startswith("```")
        fenced = fenced != fence
        code = line.startswith("    ") and (code or not above.strip())
        above = line
        if not (fenced or fence or code):
            yield number, line


def spans_of(text):
    """What stands in backticks on a page, each with the number of its line."""
    return [(number, span) for number, line in prose_of(text) for span in SPAN.findall(line)]


def unknown_on_page(text, known):
    """What a page names and is not there, each with its line: a name that is not known, or a second backtick."""
    for number, span in spans_of(text):
        for name in unknown_in(span, known):
            yield number, f"`{name}`" if name == span else f"`{name}` in `{span}`"
    for number, line in prose_of(text):
        if line.count("`") % 2 == 1:
            yield number, "second backtick on the line"
