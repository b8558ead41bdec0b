#!/usr/bin/env python3
"""Refuses each growth of a program in turn: tests/refspec_map/memory.py PROGRAM

Each run ends in its whole answer, or in the line `out of memory` with status 3. The runs of an
input end with the first that asks for no more growths than were granted.
"""
import sys
from pathlib import Path

sys.path.insert(0, str(Path(__file__).resolve().parents[1]))
from helpers import paths, programs, stop

LONG = b"a" * 300
ID = b"1" * 40
NAMES = [b"refs/heads/" + name for name in (
    b"0MvFc4\xd2\xba\xab\xf23\xeda\xd8a\x8a\xee>d\xcdaaaaaaaaaaaaaaaaa",
    b"FtOkcaa\x85\xcb\x9b\xb1\xc12\x9e08z\x99(\xb6aaaaaaaaaaaaaaaaa",
)]
ORIGIN = b"refs/remotes/origin/"
# The pairs that its pattern makes of the two names have one hash.
COLLIDING = b"refs/heads/*:" + ORIGIN + b"*"
TRACKED = [ORIGIN + name.removeprefix(b"refs/heads/") for name in NAMES]


def lines(specs, names):
    """The lines of specs, and of refs with these names."""
    return b"".join(b"spec %s\n" % spec for spec in specs) + b"".join(b"ref %s %s\n" % (ID, name) for name in names)


# Patterns, full and partial names and an id on both sides, repeats, pairs of one hash, and negative names and patterns.
SPECS = [COLLIDING, b"refs/heads/a:refs/y/a", b"v:refs/z/v", b"v:w", ID + b":refs/i", b"refs/heads/a:refs/y/a", b"q:u",
         b"refs/tags/t:" + b"2" * 40, b"^refs/heads/n", b"^refs/heads/p*"]
LEFT = lines(SPECS, [NAMES[1], NAMES[0], b"refs/heads/a", b"refs/heads/n", b"refs/heads/p1", b"refs/heads/a",
                     b"refs/heads/v", b"refs/tags/v", b"refs/q", NAMES[1], NAMES[0]])
RIGHT = lines(SPECS, [TRACKED[1], TRACKED[0], b"refs/y/a", ORIGIN + b"n", b"refs/z/v", b"w", b"refs/heads/w",
                      b"refs/tags/w", b"refs/heads/u", b"refs/i", TRACKED[1], TRACKED[0]])
FIXED = lines([b"refs/heads/*:foo/*", b"+refs/heads/*:refs/x/*"], [b"refs/heads/a", b"refs/heads/b"])
# A repeat, pairs of one hash, and two conflicts, one of them of three sources.
CONTESTED = lines([COLLIDING, b"refs/tags/*:" + ORIGIN + b"*", b"refs/notes/c:" + ORIGIN + b"c", COLLIDING],
                  [b"refs/heads/b", b"refs/tags/b", b"refs/heads/c", b"refs/tags/c", b"refs/notes/c", *NAMES, *NAMES])
CONFLICTS = b"".join(b"conflict\t%s%s%s\n" % (ORIGIN, name, b"".join(
    b"\t%s\t%s" % claim for claim in claims)) for name, claims in [
        (b"b", [(b"refs/heads/b", COLLIDING), (b"refs/tags/b", b"refs/tags/*:" + ORIGIN + b"*")]),
        (b"c", [(b"refs/heads/c", COLLIDING), (b"refs/tags/c", b"refs/tags/*:" + ORIGIN + b"*"),
                (b"refs/notes/c", b"refs/notes/c:" + ORIGIN + b"c")]),
    ])
# Nothing is mapped, so a match call that finds no memory for its look-ups answers all the same.
NOTHING = lines([b"refs/heads/a:refs/x/a", b"v:refs/x/v"], [b"refs/heads/b", b"refs/notes/v"])


def maps(rows):
    return b"".join(b"map\t%s\n" % b"\t".join(row) for row in rows)


MAPPED = maps([
    (b"4", b"-", ID, b"refs/i"), (b"0", b"0", NAMES[1], TRACKED[1]), (b"0", b"1", NAMES[0], TRACKED[0]),
    (b"0", b"2", b"refs/heads/a", ORIGIN + b"a"), (b"0", b"6", b"refs/heads/v", ORIGIN + b"v"),
    (b"1", b"2", b"refs/heads/a", b"refs/y/a"), (b"2", b"7", b"refs/tags/v", b"refs/z/v"),
    (b"3", b"7", b"refs/tags/v", b"refs/heads/w"), (b"6", b"8", b"refs/q", b"refs/heads/u"),
])
FOUND = maps([
    (b"0", b"0", NAMES[1], TRACKED[1]), (b"0", b"1", NAMES[0], TRACKED[0]), (b"1", b"2", b"refs/heads/a", b"refs/y/a"),
    (b"2", b"4", b"refs/heads/v", b"refs/z/v"), (b"3", b"5", b"refs/heads/v", b"w"),
    (b"3", b"6", b"refs/heads/v", b"refs/heads/w"), (b"3", b"7", b"refs/heads/v", b"refs/tags/w"),
    (b"4", b"9", b"refs/heads/" + ID, b"refs/i"), (b"6", b"8", b"refs/heads/q", b"refs/heads/u"),
])
# Words, input, answer, status, and how many growths the run asks for, at the least.
CASES = [
    ("canon push", b"main\n\n+:x", b"ok main:main\nerr Empty\nok :x\n", 1, 11),
    ("canon fetch", b"main\n\n+a:b", b"ok main\nok HEAD\nok +a:b\n", 0, 11),
    ("canon push", b"refs/" + LONG + b"/*:x/*", b"ok refs/" + LONG + b"/*:x/*\n", 0, 11),
    ("canon fetch", b"+refs/" + LONG + b"*:" + LONG + b"/*", b"ok +refs/" + LONG + b"*:" + LONG + b"/*\n", 0, 11),
    ("canon fetch", LONG + b".lock/*:x/*", b"err ReferenceName\n", 1, 11),
    ("canon push", b"a*b*:c", b"err PatternUnsupported\n", 1, 12),
    ("canon fetch", b"a*" + LONG + b"*:c*", b"err PatternUnsupported\n", 1, 12),
    ("canon fetch", LONG + b"*:c", b"err PatternUnbalanced\n", 1, 11),
    ("canon fetch", b"", b"", 0, 7),
    ("canon push", (LONG + b"\n") * 60, (b"ok " + LONG + b":" + LONG + b"\n") * 60, 0, 17),
    ("lhs", LEFT, MAPPED, 0, 70),
    ("rhs", RIGHT, FOUND, 0, 70),
    ("lhs", NOTHING, b"", 0, 22),
    ("rhs", NOTHING, b"", 0, 15),
    ("plan", FIXED, maps([(b"1", b"0", b"refs/heads/a", b"refs/x/a"), (b"1", b"1", b"refs/heads/b", b"refs/x/b")])
     + b"fix\tfoo/a\trefs/heads/*:foo/*\nfix\tfoo/b\trefs/heads/*:foo/*\n", 0, 28),
    ("plan", CONTESTED, CONFLICTS, 1, 68),
    ("lhs", b"spec a*b*\n", b"line 1: PatternUnsupported\n", 1, 8),
    # Refused lines take no memory of their own: only the input and the output grow.
    ("canon push", b"\n" * 200_000, b"err Empty\n" * 200_000, 1, 27),
]


def fail(case, call, later, what):
    words, text, *_ = CASES[case]
    kind = "and all later ones" if later else "alone"
    stop(f"case {case}, {words} of {len(text)} bytes {text[:20]!r}..,"
         f" call {call} {kind} refused: {what}")


def check(program, library, case, later):
    """The number of runs in which a growth was refused, and of those that ended early."""
    words, text, answer, status, _ = CASES[case]
    call, early = 1, 0
    while True:
        made, refused = programs.run_refusing(library, [program, *words.split()], call, later, input=text)
        if (made.stdout, made.returncode) == (b"out of memory\n", 3) and refused:
            early += 1
        elif (made.stdout, made.returncode) != (answer, status):
            fail(case, call, later, f"status {made.returncode}, {made.stdout[:60]!r}")
        if not refused:
            return call - 1, early
        call += 1


def main():
    program = paths(__doc__, "program")
    told = []
    with programs.library("refuse") as library:
        for case, (words, *_, least) in enumerate(CASES):
            for later in (False, True):
                refused, early = check(program, library, case, later)
                if refused < least or early == 0:
                    fail(case, 1, later, f"{refused} growths were refused, of at least {least}, and {early} runs ended early")
            told.append(f"{refused} of {words}")
    print("memory: each growth refused alone, and with all later ones: " + ", ".join(told))


if __name__ == "__main__":
    main()
