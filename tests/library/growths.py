#!/usr/bin/env python3
"""Refuses each growth of the library's calls in turn: tests/library/growths.py TESTS

TESTS is the built tests of gix_refspec_tests. A test of tests::growths makes a call between two marks, and fails
where the call answers or leaves anything else than it should. It prints `answered` or `refused`. Here the first
growth between the marks is refused, the second, and so on, until a run meets no refusal; and so once more with
all later ones refused too. The last run has to print `answered`.
"""
import subprocess
import sys
from pathlib import Path

sys.path.insert(0, str(Path(__file__).resolve().parents[1]))
from helpers import paths, programs, stop

# As tests/growths.rt of gix_refspec_tests has it.
MARK = 1_048_573
# The tests, and how many growths their calls ask for, at the least.
CALLS = [
    ("texts::refuses_several_stars", 1),
    ("texts::checks_long_patterns", 1),
    ("texts::prints_specs", 1),
    ("texts::prints_instructions", 1),
    ("texts::expands_partial_names", 8),
    ("texts::asks_for_a_group", 11),
    ("copies::owns_specs", 2),
    ("copies::clones_specs", 2),
    ("copies::owns_names", 1),
    ("copies::clones_names", 1),
    ("copies::owns_sources", 1),
    ("copies::clones_sources", 1),
    ("copies::clones_mappings", 2),
    ("copies::clones_fixes", 3),
    ("copies::gathers_fetches", 1),
    ("copies::gathers_pushes", 1),
    ("copies::clones_groups", 1),
    ("matching::maps_from_left_to_right", 50),
    ("matching::maps_from_right_to_left", 46),
    ("matching::maps_nothing", 1),
    ("matching::clones_outcomes", 7),
    ("matching::validates_and_fixes", 8),
    ("matching::leaves_bad_names_out", 3),
    ("matching::validates_and_reports", 11),
    ("alike::maps_pairs_of_one_hash", 25),
    ("alike::reports_among_pairs_of_one_hash", 14),
]
# Calls that ask for none.
NO_GROWTH = ["texts::reads_long_patterns"]


def growths(tests, library, name, later):
    """How many growths were refused in turn, and how many of these ended the call."""
    call, ended = 1, 0
    while True:
        made, refused = programs.run_refusing(library, [tests, f"tests::growths::{name}"], call, later, MARK,
                                          stderr=subprocess.STDOUT)
        says = [word for word in (b"answered", b"refused") if word in made.stdout.split()]
        if made.returncode != 0 or len(says) != 1 or says == [b"refused"] and not refused:
            kind = "and all later ones" if later else "alone"
            stop(f"{name}, growth {call} {kind} refused: {made.stdout.decode(errors='replace')}")
        if not refused:
            return call - 1, ended
        ended += says == [b"refused"]
        call += 1


def check(tests, library, name, least, ends):
    counts = [growths(tests, library, name, later) for later in (False, True)]
    for count, ended in counts:
        if count < least or ends != (ended > 0):
            stop(f"{name}: {count} growths were refused, and {ended} of these ended the call;"
                 f" {least} are expected at the least")
    return counts[0][0]


def main():
    tests = paths(__doc__, "tests")
    with programs.library("refuse") as library:
        told = [(name, check(tests, library, name, least, True)) for name, least in CALLS]
        for name in NO_GROWTH:
            told.append((name, check(tests, library, name, 0, False)))
            if told[-1][1] != 0:
                stop(f"{name} asks for {told[-1][1]} growths")
    print("growths: " + ", ".join(f"{count} of {name.partition('::')[2]}" for name, count in told))


if __name__ == "__main__":
    main()
