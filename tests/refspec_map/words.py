#!/usr/bin/env python3
"""Runs a program with words that name no command, and with inputs and outputs that fail:
tests/refspec_map/words.py PROGRAM
"""
import os
import subprocess
import sys
import tempfile
from pathlib import Path

sys.path.insert(0, str(Path(__file__).resolve().parents[1]))
from helpers import paths, programs, stop

USAGE = b"usage: refspec_map canon fetch | canon push | lhs | rhs | plan\n"
# Arguments that name no command.
OTHERS = [
    [], [""], ["", ""], ["canon"], ["fetch"], ["push"], ["--help"], ["-h"],
    # a word of the other kind, or none after `canon`
    ["canon", ""], ["canon", "pull"], ["canon", "canon"], ["canon", "lhs"], ["canon", "rhs"],
    ["canon", "plan"], ["lhs", "rhs"], ["lhs", "fetch"], ["plan", "push"], ["fetch", "canon"],
    ["push", "canon"], ["rhs", "canon"],
    # an extra word: before, between or after
    ["", "canon", "fetch"], ["x", "canon", "push"], ["--", "canon", "push"], ["canon", "", "push"],
    ["canon", "fetch", ""], ["canon", "fetch", "push"], ["canon", "push", "push"], ["", "lhs"],
    ["x", "rhs"], ["lhs", "x"], ["lhs", ""], ["lhs", "lhs"], ["rhs", ""], ["rhs", "x"],
    ["plan", "x"], ["plan", ""],
    # words in one, or with a space
    ["canon fetch"], ["canon push"], ["canonfetch"], ["canon\tfetch"], ["canon", "fetch "],
    ["canon", " push"], [" canon", "fetch"], ["canon ", "push"], ["canon", "push\n"], ["lhs "],
    [" rhs"], ["plan\n"],
    # another case, a byte less and a byte more
    ["Canon", "fetch"], ["canon", "FETCH"], ["canon", "Fetch"], ["canon", "Push"],
    ["CANON", "push"], ["Lhs"], ["RHS"], ["Plan"], ["cano", "fetch"], ["canon", "fetc"],
    ["canon", "pus"], ["canons", "push"], ["canon", "fetchs"], ["lh"], ["lhss"], ["rh"], ["hs"],
    ["pla"], ["plans"],
    # not UTF-8
    [b"\xff"], ["canon", b"\xff"], ["lhs", b"\xff"],
]
COMMAND = ["canon", "push"]
# The standard input, the output and the status.
INPUTS = [("a folder", b"read failed\n", 3), ("closed", b"read failed\n", 3), ("empty", b"", 0)]
# Arguments, an input, and the status if the output can't be written.
OUTPUTS = [
    (COMMAND, b"main\n", 3),
    (COMMAND, b"\n", 3),
    (COMMAND, b"main\n" * 100_000, 3),
    (COMMAND, b"a" * 1_048_577, 3),
    (["canon", "fetch"], b"main", 3),
    (["lhs"], b"spec main\nref " + b"1" * 40 + b" refs/heads/main\n", 3),
    (["rhs"], b"spec", 1),
    (["plan"], b"spec *:*\nref " + b"1" * 40 + b" HEAD\n", 3),
    ([], b"main\n", 2),
    (["canon"], b"main\n", 2),
]


def fail(words, what, made):
    stop(f"words {words}, {what}: status {made.returncode}, output {(made.stdout or b'')[:60]!r}")


def check_others(program):
    """Other arguments print the usage line, and nothing of the input is read."""
    for words in OTHERS:
        with tempfile.TemporaryFile() as text:
            text.write(b"main\n")
            text.seek(0)
            made = subprocess.run([program, *words], stdin=text, stdout=subprocess.PIPE, check=False)
            if (made.stdout, made.returncode) != (USAGE, 2):
                fail(words, "no command", made)
            if os.lseek(text.fileno(), 0, os.SEEK_CUR) != 0:
                fail(words, "the input was read", made)


def check_inputs(program):
    for kind, answer, status in INPUTS:
        descriptor = os.open("/" if kind == "a folder" else os.devnull, os.O_RDONLY)
        before = (lambda: os.close(0)) if kind == "closed" else None
        made = subprocess.run([program, *COMMAND], stdin=descriptor, stdout=subprocess.PIPE,
                              preexec_fn=before, check=False)
        os.close(descriptor)
        if (made.stdout, made.returncode) != (answer, status):
            fail(COMMAND, f"the input is {kind}", made)


def check_outputs(program):
    for words, text, status in OUTPUTS:
        for kind in programs.OUTPUTS:
            made = programs.run_to(kind, 1, [program, *words], text)
            if made.returncode != status:
                fail(words, f"{len(text)} bytes of input, the output is {kind}", made)


def main():
    program = paths(__doc__, "program")
    check_others(program)
    check_inputs(program)
    check_outputs(program)
    print(f"words: {len(OTHERS)} calls that name no command, {len(INPUTS)} inputs,"
          f" {len(programs.OUTPUTS) * len(OUTPUTS)} outputs that fail")


if __name__ == "__main__":
    main()
