"""Runs every driver, tests/test_*.py, as many at a time as there are cores; ends nonzero if any fails."""

import argparse
import glob
import os
import subprocess
import sys
import time
from concurrent.futures import ThreadPoolExecutor, as_completed

TESTS = os.path.dirname(os.path.abspath(__file__))

# Those that take longest begin first, the first of them because it builds the library for C; the others follow by name.
LONGEST = ["test_teeth_c", "test_teeth_pictures", "test_teeth_arenas", "test_teeth", "test_teeth_rows",
           "test_teeth_fits", "test_damaged_arenas", "test_c_face", "test_small_arenas", "test_random_lines",
           "test_promise", "test_asked", "test_fit_runs"]


def drivers():
    """The names of all drivers, in the order in which they begin."""
    names = sorted(os.path.basename(path)[:-len(".py")] for path in glob.glob(os.path.join(TESTS, "test_*.py")))
    return sorted(names, key=lambda name: LONGEST.index(name) if name in LONGEST else len(LONGEST))


def cores():
    """How many processors this may use."""
    return len(os.sched_getaffinity(0)) if hasattr(os, "sched_getaffinity") else os.cpu_count() or 1


def run(name, words):
    """Runs a driver: its name, whether it passed, all that it said, and how many seconds it took.

    A driver that passes ends with a line that begins with its name: a file that compares nothing has none.
    """
    begun = time.monotonic()
    command = [sys.executable, os.path.join(TESTS, name + ".py"), *words]
    ended = subprocess.run(command, stdout=subprocess.PIPE, stderr=subprocess.STDOUT, text=True)
    said = ended.stdout.strip()
    passed = ended.returncode == 0 and said.split("\n")[-1].startswith(name + ": ")
    return name, passed, said, time.monotonic() - begun


def main():
    """Runs them with the seed given, if one is, and prints what each said once it has ended."""
    parser = argparse.ArgumentParser(description=__doc__)
    parser.add_argument("--seed", type=int, help="where the random numbers start, for every driver")
    seed = parser.parse_args().seed
    words = [] if seed is None else ["--seed", str(seed)]
    failed = [] if drivers() else ["there are none"]
    with ThreadPoolExecutor(max_workers=cores()) as pool:
        for ended in as_completed([pool.submit(run, name, words) for name in drivers()]):
            name, passed, said, seconds = ended.result()
            print(f"{said} ({seconds:.1f} s)" if passed else f"{said}\n{name}: FAILED ({seconds:.1f} s)", flush=True)
            failed += [] if passed else [name]
    if failed:
        print(f"tests: FAILED: {' '.join(sorted(failed))}")
        sys.exit(1)


if __name__ == "__main__":
    main()
