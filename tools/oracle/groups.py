"""Groups of specs for a fetch, and refs to match with them, from a fixed seed: for comparisons.

A group is an input of the commands `lhs`, `rhs` and `plan`, and ends with a newline.
"""
import itertools
import random

import specs  # beside this script

BASES = [b"refs/heads/"] * 4 + [b"refs/tags/", b"refs/remotes/o/", b"refs/x/", b"refs/", b"", b"tags/", b"remotes/", b"heads/"]
LEAVES = [b"a", b"aa", b"ab", b"ba", b"b", b"main", b"x/a", b"a/b", b"v1.0", b"HEAD"]
# What precedes and follows a star, mostly nothing.
EDGES = [b""] * 5 + [b"a", b"aa", b"ab", b"b", b"a/", b"/a", b"-x", b"x/"]
BETWEEN = [b"", b"a", b"b", b"main", b"a/b", b"aa", b"\xc3\xa9", b"*", b" x"]
# What a partial name may be short for, in the order in which these are tried.
CANDIDATES = [(b"", b""), (b"refs/", b""), (b"refs/tags/", b""), (b"refs/heads/", b""), (b"refs/remotes/", b""),
              (b"refs/remotes/", b"/HEAD")]
# The original takes what a spec of WIDE makes of one of these for what it makes of the other.
TWINS = [b"ce9518687c2ca417", b"4b2c557329ca4bff"]
WIDE = b"refs/heads/*:refs/x/*"
# With these sides, and names of the letter a alone, each small group is given.
SMALL_SIDES = [b"*", b"a*", b"*a", b"a*a", b"aa*a", b"a*aa", b"a", b"aa"]
ZERO = b"0" * 40


def an_id(random_):
    digits = random_.choice([b"0123456789abcdef", b"01"])
    return bytes(random_.choice(digits) for _ in range(random_.choice([40, 40, 40, 64])))


def other_case(random_, text):
    return random_.choice([text, text, text.upper()])


def pattern(random_):
    edge = random_.choice(EDGES)
    return random_.choice(BASES) + edge.lstrip(b"/") + b"*" + random_.choice(EDGES + [edge, b"/head"]).rstrip(b"/")


def plain_side(random_, ids):
    kind = random_.random()
    if kind < 0.15:
        return other_case(random_, random_.choice(ids))
    if kind < 0.25:
        return random_.choice([b"HEAD", b"@", b"main", b"origin", b"heads/a", b"tags/a", b"remotes/o/a"])
    return random_.choice(BASES) + random_.choice(LEAVES)


def spec(random_, ids, earlier):
    kind = random_.random()
    sign = random_.choice([b"", b"", b"+"])
    if kind < 0.10 and earlier:
        return sign + random_.choice(earlier).lstrip(b"+")
    if kind < 0.42:
        return sign + pattern(random_) + b":" + pattern(random_)
    if kind < 0.66:
        return sign + plain_side(random_, ids) + b":" + plain_side(random_, ids)
    if kind < 0.76:
        return sign + plain_side(random_, ids)
    if kind < 0.82:
        return b"^" + pattern(random_)
    if kind < 0.87:
        return b"^" + random_.choice(BASES) + random_.choice(LEAVES)
    if kind < 0.95:
        return b"^" + narrowed(random_, random_.choice(earlier or specs.REAL))
    if kind < 0.98:
        return sign + random_.choice([b"", b":", b":refs/heads/a", b":a", b"main:", WIDE])
    return random_.choice(specs.REAL)


def narrowed(random_, text):
    """A name that the source of a spec matches, or a narrower pattern."""
    source = sides(text)[0]
    if b"*" not in source:
        return fitting(random_, source)
    return source.replace(b"*", random_.choice([b"a", b"main", b"a*", b"*a", b"*"]))


def sides(text):
    """The sides of a spec that are there, and the source in any case."""
    source, *others = text.lstrip(b"+^").split(b":")
    return [source or b"HEAD", *filter(None, others)]


def overlapped(before, behind):
    """A text that begins with one and ends with the other, and has no room for both, where there is one."""
    for shared in range(1, min(len(before), len(behind)) + 1):
        if before.endswith(behind[:shared]):
            return before + behind[shared:]
    return before + behind


def fitting(random_, side):
    """A name that a side matches, or that it nearly does."""
    if side.count(b"*") == 1:
        before, behind = side.split(b"*")
        if random_.random() < 0.12:
            return overlapped(before, behind)
        return before + random_.choice(BETWEEN + [random_.choice(LEAVES)]) + behind
    if side.startswith(b"refs/"):
        return side
    before, behind = random_.choice(CANDIDATES)
    return before + (b"HEAD" if side == b"@" else side) + behind


def nearly(random_, name):
    at = random_.randint(0, len(name))
    return random_.choice([name[:at], name[:at] + b"a" + name[at:], name[:at] + name[at + 1:], name + b"/HEAD",
                           name[5:] if name.startswith(b"refs/") else b"refs/" + name, name.swapcase(), name + b"\r"])


def name(random_, texts, earlier):
    kind = random_.random()
    every = [side for text in texts for side in sides(text)]
    if kind < 0.10 and earlier:
        return random_.choice(earlier)
    if kind < 0.90 and every:
        found = fitting(random_, random_.choice(every))
        return nearly(random_, found) if kind > 0.75 else found
    return random_.choice(BASES) + random_.choice(LEAVES)


def ref(random_, ids, name_):
    chosen = [other_case(random_, random_.choice(ids)) for _ in range(2)]
    return b"tag %s %s %s" % (*chosen, name_) if random_.random() < 0.25 else b"ref %s %s" % (chosen[0], name_)


def bad_line(random_, ids):
    """A line that for the most part has no form, or a spec that is refused."""
    one = random_.choice(ids)
    return random_.choice([
        b"", b"spec", b"ref", b"tag", b"map", b" spec a", b"Spec a", b"specs a", b"ref  " + one + b" a", b"ref 12 refs/x",
        b"ref " + one, b"ref " + one + b" ", b"ref " + one[:39] + b" a", b"ref " + one + b"0 a", b"ref " + one[:39] + b"g a",
        b"tag " + one + b" a", b"tag " + one + b" " + one, b"tag " + one + b" " + one + b" ", b"ref\t" + one + b" a",
        b"spec ", b"spec  ", b"spec a*", b"spec ^", b"spec ^" + one, b"spec a..b", b"spec a*b*:c", b"spec a*:b", b"\x00", b"\xff",
    ])


def group(random_):
    ids = [an_id(random_) for _ in range(3)]
    texts, names = [], []
    for _ in range(random_.randint(1, 6)):
        texts.append(spec(random_, ids, texts))
    if random_.random() < 0.02:
        texts.insert(0, WIDE)
        base = random_.choice([b"refs/heads/", b"refs/x/"])
        names += [base + twin for twin in random_.sample(TWINS, 2)]
    for _ in range(random_.randint(0, 12 - len(names))):
        names.append(name(random_, texts, names).translate(None, b"\t\n"))
    random_.shuffle(names)
    lines = [b"spec " + text for text in texts] + [ref(random_, ids, one) for one in names]
    if random_.random() < 0.04:
        lines.insert(random_.randint(0, len(lines)), bad_line(random_, ids))
    if random_.random() < 0.10:
        random_.shuffle(lines)
    return b"".join(line + b"\n" for line in lines)


def small():
    """Groups of one or two short specs and one short name, and the twins."""
    positive = [text for side in SMALL_SIDES
                for text in ([b"*:" + side, side + b":*"] if b"*" in side else [b"a:" + side, side])]
    for text, negative, count in itertools.product(positive, [b""] + SMALL_SIDES, range(1, 4)):
        excluding = b"spec ^%s\n" % negative if negative else b""
        yield b"spec %s\n%sref %s %s\n" % (text, excluding, ZERO, b"a" * count)
    for base in (b"refs/heads/", b"refs/x/"):
        refs = b"".join(b"ref %s %s%s\n" % (ZERO, base, twin) for twin in TWINS)
        yield b"spec %s\n%s" % (WIDE, refs)


def rows():
    """The groups of tests, where each ref points to one id."""
    for line in specs.stored(b"= "):
        texts, names = line.split(b"\t")
        yield b"".join([*(b"spec %s\n" % text for text in texts.split(b" ")),
                        *(b"ref %s %s\n" % (b"1" * 40, name_) for name_ in names.split(b" "))])


def generated(count, seed):
    """The small groups, and so many random ones."""
    yield from small()
    random_ = random.Random(seed)
    for _ in range(count):
        yield group(random_)
