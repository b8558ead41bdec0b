#!/usr/bin/env python3
"""Runs the tests of large groups, and measures their memory: tests/library/large.py TESTS

TESTS is the built tests of gix_refspec_tests. The peak of each of tests::large is the most memory that the kernel counted for
its process, and it may have some one and a half times what it takes. A bound on the address space would not do: where memory
runs out an index is left out. Each may have some twenty times the processor time that it takes.
"""
import ctypes
import os
import subprocess
import sys
from pathlib import Path

sys.path.insert(0, str(Path(__file__).resolve().parents[1]))
from helpers import paths, stop

SECONDS = 2
# The tests, and their peaks in megabytes.
TESTS = [
    ("maps_many_full_names", 34),
    ("maps_many_refs", 20),
    ("maps_one_name_listed_often", 13),
    ("maps_one_long_name_by_many_patterns", 8),
    ("maps_nested_prefixes", 8),
]
PR_SET_CHILD_SUBREAPER = 36


def run(tests, name):
    """The status of a test, what it wrote, and its peak in kilobytes."""
    # The kernel counts what a process had before it became another program. That is a shell here, as Python has more than
    # most tests; and once the shell ends, the test is a child of this process.
    script = f'ulimit -t {SECONDS}; "$0" "$1" 2>&1 &'
    with subprocess.Popen(["sh", "-c", script, tests, f"tests::large::{name}"], stdout=subprocess.PIPE) as shell:
        written = shell.stdout.read()
    _, status, usage = os.wait3(0)
    return os.waitstatus_to_exitcode(status), written, usage.ru_maxrss


def main():
    tests = paths(__doc__, "tests")
    ctypes.CDLL(None).prctl(PR_SET_CHILD_SUBREAPER, 1, 0, 0, 0)
    peaks = []
    for name, room in TESTS:
        status, written, peak = run(tests, name)
        if status != 0:
            stop(f"{name}: status {status}: {written.decode(errors='replace')}")
        if peak > room << 10:
            stop(f"{name}: took {peak >> 10} MB, and may take {room}")
        peaks.append(f"{name} {peak / 1024:.1f} MB")
    print("large: " + ", ".join(peaks) + f", in {SECONDS} seconds each")


if __name__ == "__main__":
    main()
