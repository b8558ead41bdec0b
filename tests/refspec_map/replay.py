#!/usr/bin/env python3
"""Replays stored answers over a program: tests/refspec_map/replay.py PROGRAM

They are the original's, and where it is known to answer otherwise, this program's own. Each text of
canon.sample is given alone, and those of an operation together. The groups of lhs.sample, of rhs.sample
and of plan.sample are given alone.
"""
import subprocess
import sys
from pathlib import Path

sys.path.insert(0, str(Path(__file__).resolve().parents[1]))
from helpers import paths, samples, stop


def say(what, cases):
    own = sum(bool(case.kinds) for case in cases)
    print(f"replay: {len(cases)} stored {what}; {own} answers are this program's own, the others the original's")


def replay(program, operation, cases, what):
    text = b"".join(case.given + b"\n" for case in cases)
    made = subprocess.run([program, "canon", operation], input=text, stdout=subprocess.PIPE, check=False)
    given = made.stdout.split(b"\n")
    for case, answer in zip(cases, given):
        if case.answer != answer:
            stop(f"line {case.number} of canon.sample, {what}: {case.given!r} is answered {answer!r}, not {case.answer!r}")
    status = int(any(case.answer.startswith(b"err ") for case in cases))
    if len(given) != len(cases) + 1 or given[-1] != b"" or made.returncode != status:
        stop(f"{what}, from line {cases[0].number} of canon.sample: {len(given) - 1} answers to {len(cases)} texts,"
             f" status {made.returncode} and not {status}")


def replay_texts(program):
    cases = list(samples.texts())
    for operation in ("fetch", "push"):
        alike = [case for case in cases if case.operation == operation]
        if not alike:
            stop(f"canon.sample has no text for {operation}")
        replay(program, operation, alike, "all together")
        for case in alike:
            replay(program, operation, [case], "alone")
    say("texts, alone and together, answered as stored", cases)


def replay_groups(program, command):
    name = f"{command}.sample"
    groups = samples.groups(name)
    if not groups:
        stop(f"{name} has no group")
    for group in groups:
        made = subprocess.run([program, command], input=group.given, stdout=subprocess.PIPE, check=False)
        if (made.stdout, made.returncode) != (group.answer, int(group.answer.startswith((b"line ", b"conflict\t")))):
            stop(f"the group behind line {group.number} of {name}: status {made.returncode}, {made.stdout!r},"
                 f" not {group.answer!r}")
    say(f"groups for {command}, answered as stored", groups)


def main():
    program = paths(__doc__, "program")
    replay_texts(program)
    for command in ("lhs", "rhs", "plan"):
        replay_groups(program, command)


if __name__ == "__main__":
    main()
