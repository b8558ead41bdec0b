"""Texts that look like refspecs, from a fixed seed: for comparisons and measures."""
import itertools
import os
import random
import re

HERE = os.path.dirname(os.path.abspath(__file__))
# Pieces of names and specs that some rule of the grammar speaks of.
PIECES = [
    b"refs/heads/", b"refs/tags/", b"refs/remotes/origin/", b"refs/", b"heads/", b"main", b"feature/one", b"v1.0",
    b"HEAD", b"head", b"@", b"@{", b"{", b"}", b"*", b"/", b"//", b".", b"..", b".lock", b".lock/", b"lock", b":",
    b"+", b"^", b"~", b"?", b"[", b"]", b"\\", b" ", b"\t", b"\x00", b"\x1f", b"\x7f", b"\x80", b"\xff", b"-", b"a", b"b",
]
REAL = [
    b"+refs/heads/*:refs/remotes/origin/*", b"refs/heads/main:refs/heads/main", b"refs/tags/*:refs/tags/*", b"HEAD",
    b"^refs/heads/wip/*", b"^refs/heads/private", b"+refs/pull/*/head:refs/remotes/origin/pr/*", b":refs/heads/gone",
    b"main", b"+main:next", b"@", b"@:main", b":", b"+:", b"refs/heads/a*b:refs/x/c*d", b"v1.0:refs/tags/v1.0",
    b"1234567890123456789012345678901234567890:refs/heads/fixed", b"refs/notes/*:refs/notes/*", b"+HEAD:refs/heads/head",
]
# Of these bytes each text of up to four is given.
SMALL = b"+^:*@/.a{\x00H"


def hex_run(random_, least=38, most=66):
    digits = random_.choice(["0123456789abcdef", "0123456789ABCDEF", "0123456789abcdefABCDEF", "0", "g0"])
    length = random_.choice([39, 40, 41, 63, 64, 65, random_.randint(least, most)])
    return "".join(random_.choice(digits) for _ in range(length)).encode()


def pieces(random_, most):
    return b"".join(random_.choice(PIECES) for _ in range(random_.randint(1, most)))


def name(random_):
    return random_.choice([b"refs/heads/", b"refs/tags/", b"refs/", b""]) + b"/".join(
        random_.choice([b"main", b"x", b"one-two", b"v1.2", b"HEAD", b"wip"]) for _ in range(random_.randint(1, 3)))


def with_star(random_, text):
    at = random_.randint(0, len(text))
    return text[:at] + b"*" + text[at:]


def long_side(random_):
    """A side of about 256 bytes, the room in which a star is replaced without memory."""
    text = (name(random_) + b"/").ljust(random_.randint(250, 260), random_.choice([b"a", b"b/", b"c."])[:1])
    return with_star(random_, text) if random_.random() < 0.7 else text


def junk(random_):
    return bytes(random_.randrange(256) for _ in range(random_.randint(1, 6)))


def side(random_):
    kind = random_.random()
    if kind < 0.08:
        return b""
    if kind < 0.14:
        return random_.choice([b"@", b"HEAD", b"*", b"refs/*", b"+", b"^"])
    if kind < 0.34:
        return name(random_)
    if kind < 0.54:
        return with_star(random_, name(random_))
    if kind < 0.60:
        return hex_run(random_)
    if kind < 0.64:
        return long_side(random_)
    if kind < 0.70:
        return name(random_) + junk(random_)
    return pieces(random_, 5)


def built(random_):
    sign = random_.choice([b""] * 6 + [b"+", b"+", b"^", b"^", b"++", b"^+", b"+^"])
    sides = random_.choice([1, 1, 1, 2, 2, 2, 2, 3])
    return sign + b":".join(side(random_) for _ in range(sides))


def mutated(random_):
    return changed(random_, random_.choice(REAL))


def changed(random_, text, most=3):
    """A text with up to so many changes."""
    text = bytearray(text)
    for _ in range(random_.randint(1, most)):
        at = random_.randint(0, len(text))
        piece = random_.choice(PIECES) if random_.random() < 0.6 else junk(random_)[:1]
        change = random_.randrange(4)
        if change == 0:
            text[at:at] = piece
        elif change == 1:
            del text[at:at + 1]
        elif change == 2:
            text[at:at + 1] = piece
        else:
            text[at:at] = text[max(0, at - random_.randint(1, 4)):at]
    return bytes(text)


def stored(mark):
    """The lines of the file rows beside this script that begin so, without that."""
    with open(os.path.join(HERE, "rows"), "rb") as file:
        for line in file:
            if line.startswith(mark):
                yield re.sub(rb"\\x([0-9a-f]{2})", lambda found: bytes([int(found[1], 16)]), line[len(mark):].rstrip(b"\n"))


def rows():
    """The texts of tests: those of rows, and each byte but the newline before, between and after letters."""
    yield from stored(b"< ")
    for byte in (bytes([code]) for code in range(256) if code != 10):
        yield from (byte + b"a", b"a" + byte + b"b", b"a" + byte)


def generated(count, seed):
    """Each text of up to four bytes of SMALL, and then so many random texts; none has a newline."""
    for length in range(5):
        for text in itertools.product(SMALL, repeat=length):
            yield bytes(text)
    random_ = random.Random(seed)
    for _ in range(count):
        text = mutated(random_) if random_.random() < 0.35 else built(random_)
        yield text.replace(b"\n", b"\r")


def realistic(count, seed):
    """Lines as a configuration may have them, of some 40 bytes; one in twenty is refused."""
    random_ = random.Random(seed)
    words = [b"main", b"feature", b"fix", b"topic", b"release", b"docs", b"build", b"team", b"next"]

    def branch():
        return b"/".join([random_.choice(words), b"%d" % random_.randrange(10_000)])

    for _ in range(count):
        kind = random_.random()
        one = branch()
        if kind < 0.35:
            yield b"+refs/heads/" + one + b"*:refs/remotes/origin/" + one + b"*"
        elif kind < 0.60:
            yield b"refs/heads/" + one + b":refs/remotes/origin/" + one
        elif kind < 0.75:
            yield b"refs/heads/" + one
        elif kind < 0.85:
            yield b"refs/tags/v" + one + b":refs/tags/v" + one
        elif kind < 0.95:
            yield b"^refs/heads/" + one + b"*"
        else:
            yield random_.choice([b"refs/heads/" + one + b".lock", b"refs/heads/" + one + b"*:x", one + b"..x"])


def sized(kind, size, count, seed):
    """Specs of about as many bytes: names, patterns, or names that are refused for a byte somewhere."""
    random_ = random.Random(f"{kind}{size}{seed}")

    def side(length):
        text = bytearray(random_.choice(b"abcdefghijlmnopqrstuvwxyz0123456789-") for _ in range(length))
        for at in range(random_.randint(2, 6), length - 2, random_.randint(5, 9)):
            text[at:at + 1] = b"/"
        return text

    for _ in range(count):
        sides = [side(size // 2), side(size - size // 2 - 1)]
        if kind == "patterns":
            for text in sides:
                text[-1:] = b"*"
        if kind == "refused":
            text = random_.choice(sides)
            text[random_.randrange(len(text))] = random_.choice(b" ~^?[\\")
        yield b":".join(map(bytes, sides))
