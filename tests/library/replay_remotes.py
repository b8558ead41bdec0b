#!/usr/bin/env python3
"""Asks for the answers of remotes.sample again: tests/library/replay_remotes.py [REFSPEC]

Those of `upstream`, `prefetch`, `rename` and `why` are the program's. Without it those of `branch` are asked for, through Python, with
the library for C that it finds.
"""
import concurrent.futures
import sys
from pathlib import Path

sys.path.insert(0, str(Path(__file__).resolve().parents[1]))
from helpers import ORACLE, add_path, parser, samples, stop, use

use(ORACLE)
import gitfetch
import remotecalls

SAMPLE = samples.FOLDER / "remotes.sample"


def compare(stored, call, answering):
    said = call.said(answering, stored.given)
    if said != stored.answer:
        lines = b"\n".join([*stored.given, b"", b"Now it is answered:", *said]).decode()
        stop(f"line {stored.number} of remotes.sample: {stored.command}:\n{lines}")


def main():
    arguments = parser(__doc__)
    add_path(arguments, "refspec", nargs="?")
    program = arguments.parse_args().refspec
    answering = remotecalls.Program(str(program)) if program else remotecalls.library()
    if answering is None:
        stop("there is no library for C")
    calls = {call.word: call for call in remotecalls.CALLS if (call is remotecalls.Branches) != bool(program)}
    mine = [stored for stored in gitfetch.stored_lists(SAMPLE) if stored.command in calls]
    with concurrent.futures.ThreadPoolExecutor() as pool:
        list(pool.map(lambda one: compare(one, calls[one.command], answering), mine))
    counts = ", ".join(f"{sum(one.command == word for one in mine)} of {word}" for word in calls)
    print(f"replay-remotes: answered as stored: {counts}")


if __name__ == "__main__":
    main()
