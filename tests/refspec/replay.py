#!/usr/bin/env python3
"""Replays the runs of refspec.sample over the program refspec: tests/refspec/replay.py [--record] PROGRAM

With --record the answers of the program are put into the sample, to be read before they are committed.
"""
import concurrent.futures
import os
import re
import subprocess
import sys
import tempfile
from pathlib import Path

sys.path.insert(0, str(Path(__file__).resolve().parents[1]))
from helpers import add_path, parser, stop
from helpers.samples import COMMENT, Blocks, escaped, plain

ANSWERS = (b">", b"!", b"?")


def joined(lines):
    """The bytes that lines stand for. One that ends with a backslash has no newline."""
    return b"".join(plain(line[:-1]) if line.endswith(b"\\") else plain(line) + b"\n" for line in lines)


def parted(mark, text):
    """The lines that stand for bytes, each after a mark. One ends after a newline or a zero byte."""
    parts = re.findall(rb"[^\n\0]*[\n\0]|[^\n\0]+", text)
    lines = (escaped(part[:-1]) if part.endswith(b"\n") else escaped(part) + b"\\" for part in parts)
    return [mark + b" " + line if line else mark for line in lines]


def files_of(lines):
    """The names of the files of a run, each with its bytes."""
    files = {}
    for line in lines:
        if line.startswith(b"@"):
            name = plain(line[2:])
            files[name] = []
        elif line.startswith(b"|"):
            files[name].append(line[2:])
    return {name: joined(content) for name, content in files.items()}


def answer(program, lines):
    """The lines of what the program answers to a run."""
    words = [b"" if word == b'""' else plain(word) for word in lines[0][1:].split()]
    given = joined(line[2:] for line in lines if line.startswith(b"<"))
    with tempfile.TemporaryDirectory() as folder:
        for name, content in files_of(lines).items():
            (Path(folder) / os.fsdecode(name)).write_bytes(content)
        # Messages on arguments name the program as it is called.
        made = subprocess.run([b"refspec", *words], executable=program, input=given, cwd=folder, capture_output=True,
                              check=False)
    status = [b"? %d" % made.returncode] if made.returncode else []
    return parted(b">", made.stdout) + parted(b"!", made.stderr) + status


def record(sample, runs, answers):
    for (number, _), made in zip(runs, answers):
        sample.blocks[number] = [line for line in sample.blocks[number] if not line.startswith(ANSWERS)] + made
    sample.write()


def compare(runs, answers):
    others = [(lines, made) for (_, lines), made in zip(runs, answers)
              if [line for line in lines if line.startswith(ANSWERS)] != made]
    if others:
        lines, made = others[0]
        first = b"\n".join([*lines, b"", b"Now it is answered:", *made]).decode()
        stop(f"{len(others)} of {len(runs)} runs are answered otherwise; the first:\n{first}")


def main():
    arguments = parser(__doc__)
    arguments.add_argument("--record", action="store_true")
    add_path(arguments, "program")
    options, sample = arguments.parse_args(), Blocks("refspec.sample")
    uncommented = [[line for line in block if not line.startswith(COMMENT)] for block in sample.blocks]
    runs = [(number, lines) for number, lines in enumerate(uncommented) if lines]
    with concurrent.futures.ThreadPoolExecutor() as pool:
        answers = list(pool.map(lambda run: answer(options.program, run[1]), runs))
    if options.record:
        record(sample, runs, answers)
    else:
        compare(runs, answers)
    print(f"replay-refspec: {len(runs)} runs {'recorded' if options.record else 'answered as stored'}")


if __name__ == "__main__":
    main()
