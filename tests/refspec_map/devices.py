#!/usr/bin/env python3
"""Fails one read or one write of a program: tests/refspec_map/devices.py PROGRAM

A small input takes two reads, of which the second finds its end, and an output one write. After a read that
fails nothing more is read, and after a write that fails just the fault is written. After an answer the program
ends: it reads and writes nothing more.
"""
import sys
from pathlib import Path

sys.path.insert(0, str(Path(__file__).resolve().parents[1]))
from helpers import paths, programs, stop

ID = b"1" * 40
LINES = b"spec refs/heads/*:x/*\nspec x:y\nref " + ID + b" refs/heads/a\nref " + ID + b" x/b\n"
# Words, an input, its output and status.
RUNS = [
    ("canon fetch", b"main\n\n", b"ok main\nok HEAD\n", 0),
    ("canon push", b"main\n\n", b"ok main:main\nerr Empty\n", 1),
    ("canon push", b"", b"", 0),
    ("lhs", LINES, b"map\t0\t0\trefs/heads/a\tx/a\n", 0),
    ("lhs", b"spec\n", b"line 1 is malformed\n", 1),
    ("rhs", LINES, b"map\t0\t1\trefs/heads/b\tx/b\n", 0),
    ("plan", LINES, b"fix\tx/a\trefs/heads/*:x/*\n", 0),
    ("plan", b"spec main\n", b"", 0),
]


def calls_of(given, output):
    """The calls of a run with no failure: its reads, and its writes."""
    return "rr" if given else "r", "w" if output else ""


def check(program, library, case, failing, wanted):
    words, given, *_ = RUNS[case]
    ended, told = programs.run_with(library, [program, *words.split()], failing, input=given)
    made = ended.stdout, ended.returncode, told.decode()
    if made != wanted:
        stop(f"{words} of {given!r}, {failing or 'nothing fails'}: {made}, not {wanted}")


def check_run(program, library, case):
    """How many failures were tried."""
    _, given, output, status = RUNS[case]
    reads, writes = calls_of(given, output)
    check(program, library, case, {}, (output, status, reads + writes))
    for number in range(1, len(reads) + 1):
        told = "r" * (number - 1) + "Rw"
        check(program, library, case, {"CALLS_READ": str(number)}, (b"read failed\n", 3, told))
    if writes:
        # A fault of the input is the only line there is.
        told = b"" if output.startswith(b"line ") else b"write failed\n"
        wanted = (told, 1, reads + "W") if not told else (told, 3, reads + "Ww")
        check(program, library, case, {"CALLS_WRITE": "1"}, wanted)
    return len(reads) + len(writes)


def main():
    program = paths(__doc__, "program")
    with programs.library("calls", "-ldl") as library:
        failures = sum(check_run(program, library, case) for case in range(len(RUNS)))
    print(f"devices: {len(RUNS)} inputs, and {failures} reads and writes that fail, each alone")


if __name__ == "__main__":
    main()
