#!/usr/bin/env python3
"""Matches random groups both ways over a program: tests/refspec_map/agree.py PROGRAM

Each spec of two sides has two patterns, or two sides that begin refs/. So of the names on the left and
on the right, `lhs` over the left ones and `rhs` over the right ones have to map the same pairs. The groups
are from a fixed seed. A stored group with another spec shows that without the condition they differ.
"""
import random
import subprocess
import sys
from pathlib import Path

sys.path.insert(0, str(Path(__file__).resolve().parents[1]))
from helpers import paths, stop

GROUPS = 300
ID = b"1" * 40
# What precedes and follows a star, and what it stands for.
FRONTS = [b"refs/heads/", b"refs/heads/", b"refs/tags/", b"refs/x/", b"refs/y/a", b"refs/", b"", b"a", b"heads/"]
BACKS = [b"", b"", b"", b"a", b"/a", b"aa", b"-x"]
WORDS = [b"", b"a", b"aa", b"b", b"main", b"a/b", b"a-x", b"*", b"\xc3\xa9", b" "]
NAMES = [b"refs/heads/a", b"refs/heads/main", b"refs/tags/a", b"refs/x/a", b"refs/x/aa", b"refs/y/aa", b"refs/a"]
# With one side a spec maps to no name, whatever the side is.
ALONE = [b"main", b"HEAD", b"refs/heads/a", b"", b"a" * 40]
# A spec that doesn't go both ways, names on the left and on the right, and the pairs of both calls.
OTHER = ([b"main:refs/x/main"], [b"refs/tags/main"], [b"refs/x/main"],
         {(b"refs/tags/main", b"refs/x/main")}, {(b"refs/heads/main", b"refs/x/main")})


def pattern(random_):
    return random_.choice(FRONTS) + b"*" + random_.choice(BACKS)


def spec(random_):
    kind = random_.random()
    sign = random_.choice([b"", b"+"])
    if kind < 0.5:
        return sign + pattern(random_) + b":" + pattern(random_)
    if kind < 0.7:
        return sign + random_.choice(NAMES) + b":" + random_.choice(NAMES)
    if kind < 0.8:
        return sign + random_.choice(ALONE)
    return b"^" + random_.choice([pattern(random_), random_.choice(NAMES)])


def names(random_, sides):
    """Names that sides match, some of them twice."""
    made = [random_.choice(sides or NAMES).replace(b"*", random_.choice(WORDS)) or b"a" for _ in range(8)]
    return made + random_.sample(made, 2) + random_.sample(NAMES, 2)


def mapped(program, command, specs, refs):
    """The pairs that a call maps."""
    text = b"".join(b"spec %s\n" % one for one in specs) + b"".join(b"ref %s %s\n" % (ID, one) for one in refs)
    made = subprocess.run([program, command], input=text, stdout=subprocess.PIPE, check=False)
    fields = [line.split(b"\t")[3:] for line in made.stdout.splitlines()]
    if made.returncode != 0:
        stop(f"{command}: status {made.returncode}, {made.stdout!r} for {text!r}")
    return {tuple(pair) for pair in fields}


def check_group(program, specs, left, right):
    """How many pairs both calls map between the names."""
    forward = {pair for pair in mapped(program, "lhs", specs, left) if pair[1:] and pair[1] in right}
    backward = {pair for pair in mapped(program, "rhs", specs, right) if pair[0] in left}
    if forward != backward:
        stop(f"{specs} with {left} and {right}: only lhs maps {forward - backward}, only rhs"
             f" {backward - forward}")
    return len(forward)


def check_other(program):
    specs, left, right, forward, backward = OTHER
    if (mapped(program, "lhs", specs, left), mapped(program, "rhs", specs, right)) != (forward, backward):
        stop(f"{specs} with {left} and {right} isn't mapped as stored")


def main():
    program = paths(__doc__, "program")
    random_ = random.Random(1)
    counts = []
    for _ in range(GROUPS):
        specs = [spec(random_) for _ in range(random_.randint(1, 5))]
        sides = [one.lstrip(b"+^").split(b":") for one in specs]
        left = names(random_, [side[0] for side in sides])
        right = names(random_, [side[1] for side in sides if side[1:]])
        counts.append(check_group(program, specs, left, right))
    if 2 * counts.count(0) > GROUPS:
        stop(f"{counts.count(0)} groups of {GROUPS} map nothing between their names")
    check_other(program)
    print(f"agree: {sum(counts)} pairs of {GROUPS} groups, the same both ways, and a stored group where they differ")


if __name__ == "__main__":
    main()
