"""Specs and names of refs for the measures of matching, from a fixed seed."""
import random
import re

ONE_PATTERN = [b"+refs/heads/*:refs/remotes/origin/*"]
WITH_NEGATIVES = [
    b"+refs/heads/*:refs/remotes/origin/*", b"^refs/heads/topic-1*", b"refs/tags/*:refs/tags/*",
    b"+refs/pull/*:refs/remotes/pull/*", b"^refs/pull/*/merge",
]
UNFORCED = [b"refs/heads/*:refs/remotes/origin/*"]
ONE_NAME = [b"refs/heads/main:refs/remotes/origin/main"]
USUAL = [
    b"+refs/heads/*:refs/remotes/origin/*", b"refs/heads/main:refs/x/main", b"refs/heads/next:refs/x/next",
    b"refs/notes/commits:refs/notes/origin", b"tags/v1.0:refs/tags/v1.0",
]


def swapped(specs):
    """The specs with the sides of each swapped, but for the negative ones."""
    return [re.sub(rb"^(\+?)([^:^]+):(.+)$", rb"\1\3:\2", spec) for spec in specs]


def short(random_, number):
    return b"topic-%d/%d" % (random_.randrange(50), number)


def advertised(count, seed):
    """What a server shows, in random order: of ten refs seven are branches, two are tags and one is a pull request."""
    random_ = random.Random(seed)
    names = []
    for number in range(count):
        if number % 10 < 7:
            names.append(b"refs/heads/" + short(random_, number))
        elif number % 10 < 9:
            names.append(b"refs/tags/" + short(random_, number))
        else:
            names.append(b"refs/pull/%d/%s" % (number, random_.choice([b"head", b"merge"])))
    random_.shuffle(names)
    return names


def repeated(count, each, seed):
    """Names of branches in random order, each of which stands there so many times."""
    random_ = random.Random(seed)
    names = [b"refs/heads/" + short(random_, number) for number in range(count // each)] * each
    random_.shuffle(names)
    return names


def to_one_destination(count):
    """Specs that ask for so many objects by their ids, all for one destination: so these take no matching."""
    return [b"%040x:refs/x" % number for number in range(count)]


def full(names, count, seed):
    """Specs for so many full names, half of them among the names."""
    random_ = random.Random(seed)
    there = random_.sample(names, count // 2)
    others = [b"refs/heads/other-%d/%d" % (random_.randrange(50), number) for number in range(count - count // 2)]
    asked = there + others
    random_.shuffle(asked)
    return [name + b":refs/x/" + name[len(b"refs/"):] for name in asked]


def partial(names, count, seed):
    """Specs for so many partial names, half of them of branches among the names."""
    random_ = random.Random(seed)
    prefix = b"refs/heads/"
    branches = [name[len(prefix):] for name in names if name.startswith(prefix)]
    asked = random_.sample(branches, count // 2) + [b"other-%d" % number for number in range(count - count // 2)]
    random_.shuffle(asked)
    return [name + b":refs/x/" + name for name in asked]


def patterns(count):
    """Specs of so many patterns, of which each ref matches one at most."""
    return [b"refs/heads/topic-%d/*:refs/x/%d/*" % (number, number) for number in range(count)]


def without(names, count, seed):
    """A spec for all refs, and negative ones for so many full names, half of them among the names."""
    sources = [line.partition(b":")[0] for line in full(names, count, seed)]
    return [b"refs/*:refs/x/*"] + [b"^" + name for name in sources]


def long_names(count, length, seed):
    """Specs for so many full and so many partial names, each of so many bytes."""
    random_ = random.Random(seed)
    words = [b"%030x" % random_.getrandbits(120) for _ in range(2 * count)]
    sources = [word * (length // len(word)) for word in words]
    sources[:count] = [b"refs/heads/" + name for name in sources[:count]]
    return [name + b":refs/x/%d" % place for place, name in enumerate(sources)]


def as_long_as(name, count, seed):
    """Names of branches that are as long as a name, which isn't among them."""
    random_ = random.Random(seed)
    prefix = b"refs/heads/"
    size = len(name) - len(prefix)
    letters = b"abcdefghijklnopqrstuvwxyz"
    made = [prefix + bytes(random_.choice(letters) for _ in range(size)) for _ in range(count)]
    return [other for other in made if other != name]


def in_file(path):
    """The names in the lines of a file."""
    with open(path, "rb") as file:
        return [name for name in file.read().split(b"\n") if name]
