"""How a driver builds a program in C or C++ over the library, where the tools for that are on this machine."""

import os
import subprocess
import tempfile

from . import programs
from .driver import Difference

# What a compiler is told besides the language: to complain about whatever it can.
STRICT = ["-pedantic", "-Wall", "-Wextra", "-Werror", "-O2"]

# The static library, from the repository's top.
LIBRARY = os.path.join("target", "staticlib", "libzandervlecht.a")

# The status with which tools/c_program ends where a tool is not on this machine.
NOT_HERE = 3


class NotHere(Exception):
    """A tool is not on this machine: what needs it is skipped, and the driver's last line says so."""


def build(name, language, source, root=programs.ROOT):
    """Builds a program from a source in a language, such as c99 or c++11, and gives the words that start it."""
    tool = ["bash", os.path.join(root, "tools", "c_program")]
    command = [*tool, "build", name, source, "-std=" + language, *STRICT]
    ended = subprocess.run(command, stdin=subprocess.DEVNULL, stdout=subprocess.PIPE, stderr=subprocess.STDOUT,
                           text=True)
    said = ended.stdout.strip()
    if ended.returncode == NOT_HERE:
        raise NotHere(said.split("\n")[-1])
    if ended.returncode != 0:
        raise Difference(f"the program {name} cannot be built: {said}")
    return [*tool, "run", name]


def build_text(name, language, text, root=programs.ROOT):
    """Builds a program that is only this text."""
    with tempfile.TemporaryDirectory() as folder:
        source = os.path.join(folder, "text.cc" if "++" in language else "text.c")
        with open(source, "w", encoding="utf-8") as file:
            file.write(text)
        return build(name, language, source, root)


def skipped(missing):
    """The end of a driver's last line, which says what was skipped, if anything was."""
    return f"; SKIPPED: {'; '.join(missing)}" if missing else ""
