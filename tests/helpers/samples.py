"""The stored samples of tests/samples: lines of bytes, in which `\\xHH` stands for one that can't be printed."""
import re
from dataclasses import dataclass

from . import TESTS

FOLDER = TESTS / "samples"
COMMENT = b"#"


def plain(field):
    """The bytes that a field stands for."""
    return re.sub(rb"\\x([0-9a-f]{2})", lambda found: bytes([int(found[1], 16)]), field)


def escaped(text):
    """The field that stands for some bytes."""
    return re.sub(rb"[^ -~]|\\(?=x|\Z)| \Z", lambda found: b"\\x%02x" % found[0][0], text)


def lines(name):
    """The numbers of the lines that are no comment, and these."""
    for number, line in enumerate((FOLDER / name).read_bytes().splitlines(), 1):
        if not line.startswith(COMMENT):
            yield number, line


@dataclass
class Text:
    """A text of canon.sample, its answer, and in what the original differs."""
    number: int
    operation: str
    given: bytes
    answer: bytes
    kinds: list


def texts():
    for number, line in lines("canon.sample"):
        operation, given, answer, *kinds = line.split(b"\t")
        yield Text(number, operation.decode(), plain(given), plain(answer), kinds)


@dataclass
class Group:
    """A group of a sample: the number of the empty line before it, its input, its answer, and in what the original differs."""
    number: int
    given: bytes = b""
    answer: bytes = b""
    kinds: bytes = b""


def groups(name):
    """The groups of lhs.sample, of rhs.sample or of plan.sample."""
    found, parts = [], {b"< ": "given", b"> ": "answer", b"! ": "kinds"}
    for number, line in lines(name):
        if line == b"":
            found.append(Group(number))
        else:
            part = parts[line[:2]]
            setattr(found[-1], part, getattr(found[-1], part) + plain(line[2:]) + b"\n")
    return found


class Blocks:
    """The blocks of lines of a sample, with an empty line between them. They are replaced as a run is recorded."""

    def __init__(self, name):
        self.path = FOLDER / name
        self.blocks = [block.split(b"\n") for block in self.path.read_bytes().rstrip(b"\n").split(b"\n\n")]

    def write(self):
        self.path.write_bytes(b"\n\n".join(b"\n".join(block) for block in self.blocks) + b"\n")
