"""Tries a driver on spoiled copies of the repository, each of which it has to see."""

import os
import shutil
import subprocess
import tempfile
from concurrent.futures import ThreadPoolExecutor

from . import names, programs
from .c_programs import LIBRARY
from .driver import Difference

# What is built, and is copied with the repository: the static library, and the program that tools/fits runs.
BUILT = [LIBRARY, programs.BUILT_CASES]


def edited_bytes(root, path, edit):
    """Puts what `edit` makes of a file's bytes in its place: into a new file, since copies share theirs."""
    place = os.path.join(root, path)
    with open(place, "rb") as file:
        content = file.read()
    os.remove(place)
    with open(place, "wb") as file:
        file.write(edit(content))


def edited(root, path, edit):
    """Puts what `edit` makes of a file's text in its place."""
    edited_bytes(root, path, lambda content: edit(content.decode()).encode())


def added(path, line):
    """A page gets one line more."""
    return lambda root: edited(root, path, lambda text: f"{text}\n{line}\n")


def replaced(path, old, new):
    """A file has other words in one place."""
    return lambda root: edited(root, path, lambda text: text.replace(old, new, 1))


def copy_repository(copy, without):
    """Copies what the repository has of its own and, as if built a moment ago, what drivers run in a copy."""
    shutil.copytree(programs.ROOT, copy, ignore=shutil.ignore_patterns(*names.OUTSIDE, *without))
    for path in BUILT:
        if os.path.exists(os.path.join(programs.ROOT, path)):
            os.makedirs(os.path.dirname(os.path.join(copy, path)))
            shutil.copy(os.path.join(programs.ROOT, path), os.path.join(copy, path))


def complaints(driver, words):
    """What a driver tells where it holds something to be wrong; nothing where it does not."""
    command = [*programs.PYTHON, os.path.join(programs.TESTS, driver + ".py"), *words]
    ended = subprocess.run(command, stdout=subprocess.PIPE)
    return ended.stdout.decode() if ended.returncode == 1 else ""


def check_driver(driver, spoiled, words=(), without=(), at_once=1):
    """The driver must tell of each spoiled copy, and not of one that is not spoiled so; gives how many were tried.

    `spoiled` has pairs: what spoils a copy, and what the driver then has to tell. The words are given to the driver,
    and the copies are without the folders that it does not look at; so many of them are tried at a time.
    """
    with tempfile.TemporaryDirectory() as folder:
        true = os.path.join(folder, "true")
        copy_repository(true, without)

        def told_of(name, spoil):
            copy = os.path.join(folder, name)
            shutil.copytree(true, copy, copy_function=os.link)
            spoil(copy)
            return complaints(driver, ["--root", copy, "--keep", os.path.join(folder, "kept" + name), *words])

        with ThreadPoolExecutor(at_once) as pool:
            spoils = [lambda copy: None, *(spoil for spoil, told in spoiled)]
            before, *said = pool.map(told_of, map(str, range(len(spoils))), spoils)
        missed = [told for (spoil, told), each in zip(spoiled, said) if told in before or told not in each]
    if missed:
        raise Difference(f"{driver} is wrong about copies of which it has to tell: {missed}")
    return len(spoiled)
