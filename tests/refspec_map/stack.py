#!/usr/bin/env python3
"""Runs a program on inputs up to the limit: tests/refspec_map/stack.py PROGRAM

Each run has a stack of 64 kB, 64 MB of memory, some three times what the largest one needs, and 4 seconds of
processor time, some ten times what the longest one takes.
"""
import resource
import subprocess
import sys
from pathlib import Path

sys.path.insert(0, str(Path(__file__).resolve().parents[1]))
from helpers import paths, stop

LIMIT = 1_048_576
STACK = 64 * 1024
ROOM = 64 * 1024 * 1024
SECONDS = 4
SLASHES = b"a/" * (LIMIT // 2 - 1) + b"aa"
HALF = b"b" * (LIMIT // 2 - 2)
REFS = [b"ref " + b"1" * 40 + b" refs/%05d\n" % number for number in range(18_000)]
MAPS = [b"map\t0\t%d\trefs/%05d\trefs/x/%05d\n" % (number, number, number) for number in range(18_000)]
BACK = [b"map\t0\t%d\tx/%05d\trefs/%05d\n" % (number, number, number) for number in range(18_000)]
FIXES = [b"fix\tx/%05d\trefs/*:x/*\n" % number for number in range(18_000)]
TWO_SIDES = [b"ref " + b"1" * 40 + b" refs/%s/%04d\n" % (side, number) for side in (b"a", b"b") for number in range(8_000)]
CONFLICTS = [b"conflict\trefs/x/%04d\trefs/a/%04d\trefs/a/*:refs/x/*\trefs/b/%04d\trefs/b/*:refs/x/*\n"
             % (number, number, number) for number in range(8_000)]
LONG = b"b" * (LIMIT - 100)
# Sources that are asked for one by one, all with one destination.
CLAIMS = [(b"spec refs/%05d:refs/x\n" % number, b"\trefs/%05d\trefs/%05d:refs/x" % (number, number))
          for number in range(12_000)]
# One name that a server lists again and again, and specs that take it.
NAME = b"ref " + b"1" * 40 + b" refs/heads/main\n"


def patterns(count):
    return b"".join(b"spec refs/heads/*:refs/%d/*\n" % number for number in range(count))


def full_names(count):
    return b"".join(b"spec refs/heads/main:refs/%d/main\n" % number for number in range(count))


def once_each(count):
    """The mapping of each of so many specs, which take the first item."""
    return b"".join(b"map\t%d\t0\trefs/heads/main\trefs/%d/main\n" % (number, number) for number in range(count))


# what it is, words, input, answer, status
CASES = [
    ("one long line", "canon fetch", b"a" * LIMIT, b"ok " + b"a" * LIMIT + b"\n", 0),
    ("one long line", "canon push", b"a" * LIMIT, b"ok " + b"a" * LIMIT + b":" + b"a" * LIMIT + b"\n", 0),
    ("newlines", "canon fetch", b"\n" * LIMIT, b"ok HEAD\n" * LIMIT, 0),
    ("newlines", "canon push", b"\n" * LIMIT, b"err Empty\n" * LIMIT, 1),
    ("short specs", "canon fetch", b"a\n" * (LIMIT // 2), b"ok a\n" * (LIMIT // 2), 0),
    ("short specs", "canon push", b"a\n" * (LIMIT // 2), b"ok a:a\n" * (LIMIT // 2), 0),
    ("one name with slashes", "canon fetch", SLASHES, b"ok " + SLASHES + b"\n", 0),
    ("one name with slashes", "canon push", SLASHES, b"ok " + SLASHES + b":" + SLASHES + b"\n", 0),
    ("slashes alone", "canon fetch", b"/" * LIMIT, b"err ReferenceName\n", 1),
    ("stars", "canon fetch", b"*" * LIMIT, b"err PatternUnsupported\n", 1),
    ("stars", "canon push", b"*" * LIMIT, b"err PatternUnsupported\n", 1),
    ("two long patterns", "canon fetch", HALF + b"*:*" + HALF, b"ok " + HALF + b"*:*" + HALF + b"\n", 0),
    ("two long patterns", "canon push", HALF + b"*:*" + HALF, b"ok " + HALF + b"*:*" + HALF + b"\n", 0),
    ("colons", "canon push", b":" * LIMIT, b"err PushToEmpty\n", 1),
    ("many refs", "lhs", b"spec refs/*:refs/x/*\n" + b"".join(REFS), b"".join(MAPS), 0),
    ("many refs", "rhs", b"spec x/*:refs/*\n" + b"".join(REFS), b"".join(BACK), 0),
    ("equal refs", "lhs", b"spec refs/*:refs/x/*\n" + REFS[0] * 18_000, MAPS[0], 0),
    ("one name, 20 patterns", "lhs", patterns(20) + NAME * 17_000, once_each(20), 0),
    ("one name, 100 specs of it", "lhs", full_names(100) + NAME * 17_000, once_each(100), 0),
    ("one name, 2000 specs of it", "lhs", full_names(2_000) + NAME * 2_000, once_each(2_000), 0),
    ("one name, 500 specs of it", "lhs", full_names(500) + NAME * 8_000, once_each(500), 0),
    ("2000 equal specs", "lhs", b"spec refs/*:refs/x/*\n" * 2_000 + b"".join(REFS[:10_000]), b"".join(MAPS[:10_000]), 0),
    ("2000 equal specs", "rhs", b"spec x/*:refs/*\n" * 2_000 + b"".join(REFS[:10_000]), b"".join(BACK[:10_000]), 0),
    ("many refs", "plan", b"spec refs/*:refs/x/*\n" + b"".join(REFS), b"".join(MAPS), 0),
    ("many fixes", "plan", b"spec refs/*:x/*\n" + b"".join(REFS), b"".join(FIXES), 0),
    ("many conflicts", "plan", b"spec refs/a/*:refs/x/*\nspec refs/b/*:refs/x/*\n" + b"".join(TWO_SIDES),
     b"".join(CONFLICTS), 1),
    ("specs alone", "lhs", b"spec a\n" * (LIMIT // 7), b"", 0),
    ("one long name", "lhs", b"spec refs/*:x/*\nref " + b"1" * 40 + b" refs/" + LONG + b"\n",
     b"map\t0\t0\trefs/" + LONG + b"\tx/" + LONG + b"\n", 0),
    ("one long name", "plan", b"spec refs/*:x/*\nref " + b"1" * 40 + b" refs/" + LONG + b"\n",
     b"fix\tx/" + LONG + b"\trefs/*:x/*\n", 0),
    ("one destination", "plan", b"".join(spec for spec, _ in CLAIMS) + b"".join(REFS[:12_000]),
     b"conflict\trefs/x" + b"".join(claim for _, claim in CLAIMS) + b"\n", 1),
    ("a byte too many", "canon push", b"a" * (LIMIT + 1), b"input too long\n", 3),
]


def bounds():
    for what, most in [(resource.RLIMIT_STACK, STACK), (resource.RLIMIT_AS, ROOM), (resource.RLIMIT_CPU, SECONDS)]:
        resource.setrlimit(what, (most, most))


def main():
    program = paths(__doc__, "program")
    for what, words, text, answer, status in CASES:
        made = subprocess.run([program, *words.split()], input=text, stdout=subprocess.PIPE,
                              env={}, preexec_fn=bounds, check=False)
        if (made.stdout, made.returncode) != (answer, status):
            stop(f"{words}, {what}: status {made.returncode},"
                 f" {len(made.stdout)} bytes {made.stdout[:60]!r}")
    print(f"stack: {len(CASES)} inputs of up to {LIMIT} bytes, answered with a stack of {STACK} bytes, in {ROOM >> 20} MB and"
          f" less than {SECONDS} seconds each")


if __name__ == "__main__":
    main()
