#!/usr/bin/env python3
"""Puts inputs of harness.c into a folder, a file each, or the files of a folder into the sample of tests:

    tools/fuzz/corpus.py unpack FOLDER     # the stored inputs
    tools/fuzz/corpus.py seed FOLDER       # inputs that are made of the other samples, to begin with
    tools/fuzz/corpus.py pack FOLDER
"""
import hashlib
import os
import re
import sys

SAMPLES = os.path.join(os.path.dirname(os.path.abspath(__file__)), os.pardir, os.pardir, "tests", "samples")
STORED = os.path.join(SAMPLES, "fuzz.sample")
HEAD = """\
# Inputs of tools/fuzz/harness.c, separated by empty lines: few that reach the blocks of the library which all that were tried
# reach. tests/library/corpus.sh replays them. A byte beyond the printable ones of ASCII, the backslash, and a space at the end of a line
# are written \\xHH. Packed by tools/fuzz/corpus.py; tools/fuzz/README.md says how they are found.
"""
LETTERS = {"given": b"g", "configured": b"c", "merge": b"m", "local": b"l"}


def escaped(line):
    text = "".join(chr(byte) if 32 <= byte < 127 and byte != 92 else f"\\x{byte:02x}" for byte in line)
    return re.sub(" $", r"\\x20", text)


def plain(line):
    return re.sub(rb"\\x([0-9a-f]{2})", lambda found: bytes([int(found[1], 16)]), line)


def blocks_of(path):
    with open(path, "rb") as file:
        text = re.sub(rb"(?m)^#.*\n", b"", file.read())
    return [block.strip(b"\n").split(b"\n") for block in text.split(b"\n\n") if block.strip(b"\n")]


def stored():
    return [[plain(line) for line in block] for block in blocks_of(STORED)] if os.path.exists(STORED) else []


def of_group(lines):
    """A group of `lhs`: its specs as given and configured ones, and its names on both sides."""
    for line in lines:
        word, _, rest = line.partition(b" ")
        if word == b"spec":
            yield from (b"g" + rest, b"c" + rest)
        elif word in (b"ref", b"tag"):
            name = rest.split(b" ", 2 if word == b"tag" else 1)[-1]
            yield from (b"n" + name, b"l" + name)


def of_plan(lines):
    for line in lines:
        word, _, rest = line.partition(b" ")
        if word == b"tags":
            yield b"t"
        elif word == b"ref":
            yield b"n" + rest.partition(b" ")[2]
        elif word.decode() in LETTERS:
            yield LETTERS[word.decode()] + rest


def seeds():
    """The texts of canon.sample, some at a time, and the groups and plans of the others."""
    texts = [plain(line.split(b"\t")[1]) for block in blocks_of(os.path.join(SAMPLES, "canon.sample")) for line in block]
    for at in range(0, len(texts), 8):
        yield [b"g" + text for text in texts[at:at + 8]]
    for name, made in (("lhs", of_group), ("rhs", of_group), ("plan", of_group), ("git-plans", of_plan)):
        for number, block in enumerate(blocks_of(os.path.join(SAMPLES, name + ".sample"))):
            # Now and then memory is refused too, which takes long.
            refusing = [b"f"] if number % 8 == 0 else []
            yield [*made(plain(line[2:]) for line in block if line.startswith(b"< ")), *refusing]


def unpack(folder, inputs):
    os.makedirs(folder, exist_ok=True)
    for lines in inputs:
        text = b"".join(line + b"\n" for line in lines if line)
        with open(os.path.join(folder, hashlib.sha1(text).hexdigest()), "wb") as file:
            file.write(text)


def pack(folder):
    inputs = set()
    for name in os.listdir(folder):
        with open(os.path.join(folder, name), "rb") as file:
            inputs.add(tuple(line for line in file.read().split(b"\n") if line))
    ordered = sorted(filter(None, inputs), key=lambda lines: (sum(map(len, lines)), lines))
    with open(STORED, "w", encoding="ascii") as file:
        file.write(HEAD + "".join("\n" + "".join(escaped(line) + "\n" for line in lines) for lines in ordered))


def main():
    if len(sys.argv) != 3 or sys.argv[1] not in ("unpack", "seed", "pack"):
        sys.exit(__doc__)
    word, folder = sys.argv[1:]
    if word == "pack":
        pack(folder)
    else:
        unpack(folder, stored() if word == "unpack" else seeds())


if __name__ == "__main__":
    main()
