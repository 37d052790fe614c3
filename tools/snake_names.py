#!/usr/bin/env python3
"""Brings the repository's own definitions and lemmas to snake case, in every crate, edit and page.

usage: python3 tools/snake_names.py    at the top of the repository, right after the kit's port.py, once

A name counts where specs/ or proofs/ of a crate declares it, as a definition, a lemma, a field or a constructor; so does
each variable in camel case there. Functions of src/, names of the library and names that a proof of one function alone
has keep their spelling. Where two names would fall together, CHOSEN says what one of them is called.
"""

import glob
import re

CHOSEN = {
    "request-gate": "request_gate_lem",
    "answers-alone": "answers_alone_lem",
    "resize-reallocates": "resize_reallocates_lem",
    "loses-two-words": "loses_two_words_lem",
    "keeps-old-number": "keeps_old_number_lem",
    "copies-nothing": "copies_nothing_lem",
    "live-blocks": "live_blocks_lem",
    "place-from": "place_from_lem",
    "lent-for": "lent_for_lem",
    "refused-for": "refused_for_lem",
    "line-length": "line_length_lem",
    "picture-length": "picture_length_lem",
    "standing-count": "standing_count_lem",
    "room-words": "room_words_lem",
    "firstFit": "first_fit_policy",
    "bestFit": "best_fit_policy",
    "nextFit": "next_fit_policy",
    "chunk_count": "chunk_count_lem",
}
WORD = re.compile(r"(?<![\w'-])[A-Za-z_][\w'-]*")
NAME = r"[^\s(){}\[\],;:.]+"


def snake(name):
    return re.sub(r"(?<=[a-z0-9])([A-Z])", r"_\1", name).lower().replace("-", "_")


def read(path):
    with open(path, encoding="utf-8") as file:
        return file.read()


def declared():
    """The names that specs/ and the lemma files of proofs/ declare."""
    names = set()
    for path in glob.glob("crates/*/specs/**/*.antt", recursive=True) + glob.glob("crates/*/proofs/*.antt"):
        for line in read(path).split("\n"):
            top = re.match(r"((?:pub |abbrev |unfoldable )*)(" + NAME + r")( [^:]*)? :( |$)", line)
            field = re.match(r"\s+(?:pub )?(" + NAME + r")( [^:=]*)? : ", line)
            if top:
                names.add(top.group(2))
            elif field:
                names.add(field.group(1))
    return {name for name in names if re.fullmatch(r"[a-z][\w'-]*", name)}


def camel_words():
    """The words in camel case that begin small, of specs/ and proofs/ and of the imports of src/."""
    words = set()
    for path in glob.glob("crates/**/*.antt", recursive=True):
        words |= set(WORD.findall(re.sub(r"--[^\n]*", "", read(path))))
    for path in glob.glob("crates/*/src/**/*.rt", recursive=True):
        words |= {word for line in re.findall(r"^ghost use [^\n]*", read(path), re.M) for word in re.findall(r"\bas (\w+)", line)}
    return {word for word in words if re.fullmatch(r"[a-z][\w']*[A-Z][\w']*", word)}


def renamed():
    """What each name is called from now on."""
    own = declared()
    odd = {name for name in own if "-" in name} | camel_words()
    names = {name: CHOSEN.get(name, snake(name)) for name in odd | (set(CHOSEN) & own)}
    # a name with a word in camel case before a dash was made of the name of a definition
    return {old: new for old, new in names.items() if old != new}


def turned(text, names, known=frozenset()):
    """The text with the new names; a word that port.py has already turned elsewhere is one of `known`."""

    def new(match):
        word = match.group(0)
        if word in names:
            return names[word]
        return snake(word) if snake(word) in known and re.search("[A-Z-]", word) and word[0].islower() else word

    return WORD.sub(new, text)


def rewrite(path, names, known=frozenset(), only=None):
    old = read(path)
    lines = old.split("\n")
    new = "\n".join(turned(line, names, known) if only is None or only(line) else line for line in lines)
    if new != old:
        with open(path, "w", encoding="utf-8") as file:
            file.write(new)


def main():
    names = renamed()
    before = declared()
    known = {name for name in before if "_" in name}
    fallen = {}
    for old, new in names.items():
        fallen.setdefault(new, set()).add(old)
    for new, olds in sorted(fallen.items()):
        if len(olds) > 1 or (new in before and new not in names):
            print(f"falls together: {sorted(olds)} as {new}")
    camel = {old: new for old, new in names.items() if "-" not in old}
    for path in sorted(glob.glob("crates/**/*.antt", recursive=True)):
        rewrite(path, names)
    for path in sorted(glob.glob("crates/*/src/**/*.rt", recursive=True)):
        rewrite(path, {old: new for old, new in camel.items() if old not in CHOSEN or old[0].islower() and "_" not in old})
    for path in sorted(glob.glob("crates/*/must-fail/*.edit")):
        rewrite(path, names, known, lambda line: line.startswith(("old:", "new:", "#")))
    for path in ["README.md"] + sorted(glob.glob("docs/*.md")):
        pages(path, names, known)
    print(f"{len(names)} names")


def pages(path, names, known):
    """In a page only what stands between backquotes is a name."""
    old = read(path)
    new = re.sub(r"`[^`\n]*`", lambda match: turned(match.group(0), names, known), old)
    if new != old:
        with open(path, "w", encoding="utf-8") as file:
            file.write(new)


if __name__ == "__main__":
    main()
