"""How a driver runs a program of the repository, hands it input and takes what it writes."""

import os
import shlex
import subprocess
import sys
import tempfile
import threading

# The folders of the tests and of the repository.
TESTS = os.path.dirname(os.path.dirname(os.path.abspath(__file__)))
ROOT = os.path.dirname(TESTS)

# The program of cases that is built, from the repository's top.
BUILT_CASES = os.path.join("crates", "cases", "out", "cases")

# Python, without what is installed besides it: no driver or tool needs that, and to look for it takes time.
PYTHON = [sys.executable, "-S"]

# A program that has not ended after this many seconds counts as stuck.
PATIENCE = 240


class ProgramFailed(Exception):
    """A program that could not be run, ended badly, or did not end; what it wrote until then is kept."""

    def __init__(self, message, output):
        super().__init__(message)
        self.output = output


def command_for(name, other=None):
    """The words that start a program: the built one of this name, or another command given instead."""
    if other:
        return shlex.split(other)
    return ["bash", os.path.join(ROOT, "tools", "program"), name]


def own_files(name):
    """The input of a program's own that the gate runs it on, and the output that it then has to write."""
    contents = []
    for file_name in ("stdin", "stdout"):
        with open(os.path.join(ROOT, "crates", name, file_name), "rb") as file:
            contents.append(file.read())
    return tuple(contents)


class Running:
    """A program at work: a thread drains what it writes while the driver hands it input piece by piece."""

    def __init__(self, command):
        self.complaints = tempfile.TemporaryFile()
        self.process = subprocess.Popen(
            command, stdin=subprocess.PIPE, stdout=subprocess.PIPE, stderr=self.complaints, bufsize=0
        )
        self.output = bytearray()
        self.ended = False
        self.grown = threading.Condition()
        self.drain = threading.Thread(target=self._drain, daemon=True)
        self.drain.start()
        self.guard = threading.Timer(PATIENCE, self.process.kill)
        self.guard.daemon = True
        self.guard.start()

    def _drain(self):
        while True:
            piece = os.read(self.process.stdout.fileno(), 65536)
            with self.grown:
                self.output += piece
                self.ended = not piece
                self.grown.notify_all()
            if not piece:
                return

    def write(self, piece):
        """Hands over one piece of input; false when the program no longer reads."""
        rest = memoryview(piece)
        try:
            while rest:
                rest = rest[os.write(self.process.stdin.fileno(), rest):]
        except BrokenPipeError:
            return False
        return True

    def wait_for(self, count, patience):
        """Waits so many seconds for so many bytes to have been written; false when they do not come."""
        with self.grown:
            self.grown.wait_for(lambda: len(self.output) >= count or self.ended, timeout=patience)
            return len(self.output) >= count

    def end(self):
        """Ends the input and gives all that the program wrote."""
        self.process.stdin.close()
        status = self.process.wait()
        stuck = not self.guard.is_alive()
        self.guard.cancel()
        self.drain.join()
        self.process.stdout.close()
        self.complaints.seek(0)
        said = self.complaints.read().decode("utf-8", "replace").strip()
        self.complaints.close()
        if stuck:
            raise ProgramFailed(f"the program did not end within {PATIENCE} seconds", self.output)
        if status != 0:
            raise ProgramFailed(f"the program ended with status {status}; it said: {said or 'nothing'}", self.output)
        return bytes(self.output)


def output_of(command, pieces):
    """All that a program writes when it is handed these pieces of input."""
    running = Running(command)
    for piece in pieces:
        if not running.write(piece):
            break
    return running.end()
