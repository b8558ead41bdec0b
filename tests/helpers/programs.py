"""Runs of a program: with outputs that fail, with calls of the C library that fail, and on a terminal."""
import contextlib
import os
import pty
import subprocess
import tempfile
from pathlib import Path

HERE = Path(__file__).resolve().parent
OUTPUTS = ("full", "closed", "unread")


def run_to(kind, number, words, text, other=None):
    """A run whose standard output (1) or error (2) is a full device, closed, or a pipe that nobody reads; `other` is
    where the other of the two goes."""
    if kind == "full":
        descriptor = os.open("/dev/full", os.O_WRONLY)
    elif kind == "closed":
        descriptor = os.open(os.devnull, os.O_WRONLY)
    else:
        reading, descriptor = os.pipe()
        os.close(reading)
    before = (lambda: os.close(number)) if kind == "closed" else None
    output, error = (descriptor, other) if number == 1 else (other, descriptor)
    made = subprocess.run(words, input=text, stdout=output, stderr=error, preexec_fn=before, check=False)
    os.close(descriptor)
    return made


def on_terminal(words, text=None, **options):
    """What a run writes to a terminal: all of it, or with a text for its input only its messages."""
    ours, theirs = pty.openpty()
    if text is None:
        streams = {"stdin": theirs, "stdout": theirs}
    else:
        streams = {"stdin": subprocess.PIPE, "stdout": subprocess.DEVNULL}
    with subprocess.Popen(words, stderr=theirs, **streams, **options) as process:
        os.close(theirs)
        if text is not None:
            with contextlib.suppress(BrokenPipeError), process.stdin:
                process.stdin.write(text)
        told = read_terminal(ours)
    return told


def read_terminal(descriptor):
    """What was written to a terminal until nobody had it any more. Its newlines are those of a file."""
    told = b""
    while True:
        try:
            part = os.read(descriptor, 65536)
        except OSError:
            part = b""
        if not part:
            os.close(descriptor)
            return told.replace(b"\r\n", b"\n")
        told += part


@contextlib.contextmanager
def library(name, *options):
    """The library of NAME.c beside this file, to be loaded before a program."""
    with tempfile.TemporaryDirectory() as folder:
        built = Path(folder) / f"{name}.so"
        subprocess.run(["gcc", "-O1", "-shared", "-fPIC", "-o", built, HERE / f"{name}.c", *options], check=True)
        yield built


def run_with(loaded, words, variables, **options):
    """A run with such a library, and the bytes that this wrote to the descriptor in TELL."""
    reading, writing = os.pipe()
    made = subprocess.run(words, stdout=subprocess.PIPE, env={"LD_PRELOAD": loaded, "TELL": str(writing), **variables},
                          pass_fds=[writing], check=False, **options)
    os.close(writing)
    with os.fdopen(reading, "rb") as told:
        return made, told.read()


def run_refusing(loaded, words, call, later, mark=0, **options):
    """A run with refuse.c, which refuses a growth, and with `later` each later one too; and whether it refused one."""
    variables = {"REFUSE_CALL": str(call), "REFUSE_ON": "yes" if later else "", "REFUSE_MARK": str(mark)}
    made, told = run_with(loaded, words, variables, **options)
    return made, told != b""
