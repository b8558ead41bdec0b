#!/usr/bin/env python3
"""Gives a program small inputs, and those at its limit, and compares its answers: tests/refspec_map/answers.py PROGRAM

The answers were written down by hand, from the manual page. Each input is given a second time, a byte a call. The texts
that a canon command accepts are given once more in their canonical form, which doesn't change.
"""
import re
import subprocess
import sys
from pathlib import Path

sys.path.insert(0, str(Path(__file__).resolve().parents[1]))
from helpers import paths, programs, stop

# The longest input, in bytes.
LIMIT = 1_048_576
# Inputs of canon, and what it writes.
PUSHES = [
    (b"", b""),
    (b"\n", b"err Empty\n"),
    (b"@\n@:x\n:\n", b"ok HEAD:HEAD\nok HEAD:x\nok :\n"),
    (b"main\n\n+:x", b"ok main:main\nerr Empty\nok :x\n"),
    (b"a:b\n^c", b"ok a:b\nok ^c\n"),
    (b"a*b*\nc", b"err PatternUnsupported\nok c:c\n"),
    (b"^a:b\n", b"err NegativeWithDestination\n"),
    (b"a:\n", b"err PushToEmpty\n"),
    (b"a*b*\n", b"err PatternUnsupported\n"),
    (b"a..b\n", b"err ReferenceName\n"),
]
FETCHES = [
    (b"", b""),
    (b"\n", b"ok HEAD\n"),
    (b"++foo\n", b"ok ++foo\n"),
    (b"a\r\n", b"err ReferenceName\n"),
    (b"++foo\n\na*:b\n+refs/heads/*:refs/remotes/origin/*\n",
     b"ok ++foo\nok HEAD\nerr PatternUnbalanced\nok +refs/heads/*:refs/remotes/origin/*\n"),
    (b"a*\n", b"err PatternUnbalanced\n"),
    (b"^\n", b"err NegativeEmpty\n"),
    (b"^0123456789012345678901234567890123456789\n", b"err NegativeObjectHash\n"),
]
# Groups, with an id for each `$`, and what the matching commands write.
FORWARD = [
    (b"", b""),
    (b"spec main", b""),
    (b"ref $ refs/heads/main\n", b""),
    (b"spec refs/heads/*:refs/remotes/origin/*\nspec ^refs/heads/x*\nref $ refs/heads/main\nref $ refs/heads/x1\n",
     b"map\t0\t0\trefs/heads/main\trefs/remotes/origin/main\n"),
    (b"spec main\nref $ refs/heads/main\n", b"map\t0\t0\trefs/heads/main\n"),
    (b"spec \nref $ HEAD\n", b"map\t0\t0\tHEAD\n"),
    (b"spec refs/heads/*:refs/x/*\nspec refs/heads/a:refs/x/a\nref $ refs/heads/a\n",
     b"map\t0\t0\trefs/heads/a\trefs/x/a\n"),
    (b"spec refs/heads/a:refs/y/a\nspec AAAAAAAAAAAAAAAAAAAAAAAAAAAAAAAAAAAAAAAA:x\nref $ refs/heads/a\n",
     b"map\t1\t-\taaaaaaaaaaaaaaaaaaaaaaaaaaaaaaaaaaaaaaaa\trefs/heads/x\nmap\t0\t0\trefs/heads/a\trefs/y/a\n"),
    (b"tag $ $ refs/tags/a\nspec ^refs/tags/b\nref $ refs/tags/b\nspec refs/tags/*:x/*",
     b"map\t1\t0\trefs/tags/a\tx/a\n"),
    (b"spec *:refs/x/*\nref $  refs/x\nref $ \n", b"map\t0\t0\t refs/x\trefs/x/ refs/x\nmap\t0\t1\t\trefs/x/\n"),
]
BACKWARD = [
    (b"", b""),
    (b"spec main:refs/remotes/origin/main\nref $ refs/remotes/origin/main\n",
     b"map\t0\t0\trefs/heads/main\trefs/remotes/origin/main\n"),
    (b"spec refs/heads/*:refs/remotes/origin/*\nspec ^refs/heads/x\nref $ refs/remotes/origin/x\n"
     b"ref $ refs/remotes/origin/y\n",
     b"map\t0\t1\trefs/heads/y\trefs/remotes/origin/y\n"),
    (b"spec main:aaaaaaaaaaaaaaaaaaaaaaaaaaaaaaaaaaaaaaaa\ntag $ AAAAAAAAAAAAAAAAAAAAAAAAAAAAAAAAAAAAAAAA refs/q\n",
     b"map\t0\t0\trefs/heads/main\trefs/q\n"),
    (b"spec main\nref $ refs/heads/main\n", b""),
]
PLANS = [
    (b"", b""),
    (b"spec main\n", b""),
    (b"spec main:refs/remotes/origin/main\nref $ refs/tags/main\nref $ refs/heads/main\n",
     b"map\t0\t0\trefs/tags/main\trefs/remotes/origin/main\n"),
    (b"spec *:*\nref $ HEAD\nref $ main\n", b"map\t0\t0\tHEAD\tHEAD\nfix\tmain\t*:*\n"),
    (b"spec refs/heads/*:foo/*\nref $ refs/heads/a\n", b"fix\tfoo/a\trefs/heads/*:foo/*\n"),
    (b"spec refs/heads/main:HEAD\nref $ refs/heads/main\n", b"map\t0\t0\trefs/heads/main\trefs/heads/HEAD\n"),
    (b"spec main\nspec +@:refs/x/head\nref $ HEAD\nref $ refs/heads/main\n",
     b"map\t0\t1\trefs/heads/main\nmap\t1\t0\tHEAD\trefs/x/head\n"),
    (b"spec +refs/heads/*:foo/*\nspec refs/heads/*:refs/x/*\nspec refs/heads/b:bar\nref $ refs/heads/b\n"
     b"ref $ refs/heads/a\n",
     b"map\t1\t0\trefs/heads/b\trefs/x/b\nmap\t1\t1\trefs/heads/a\trefs/x/a\n"
     b"map\t2\t0\trefs/heads/b\trefs/heads/bar\nfix\tfoo/b\t+refs/heads/*:foo/*\nfix\tfoo/a\t+refs/heads/*:foo/*\n"),
    (b"spec refs/heads/*:refs/x/*\nspec refs/heads/a:refs/x/a\nref $ refs/heads/a\n",
     b"map\t0\t0\trefs/heads/a\trefs/x/a\n"),
    (b"spec AAAAAAAAAAAAAAAAAAAAAAAAAAAAAAAAAAAAAAAA:x\n",
     b"map\t0\t-\taaaaaaaaaaaaaaaaaaaaaaaaaaaaaaaaaaaaaaaa\trefs/heads/x\n"),
]
CONFLICTS = [
    (b"spec tags/main:refs/remotes/origin/main\nspec heads/main:refs/remotes/origin/main\nref $ refs/tags/main\n"
     b"ref $ refs/heads/main\n",
     b"conflict\trefs/remotes/origin/main\trefs/tags/main\ttags/main:refs/remotes/origin/main\trefs/heads/main"
     b"\theads/main:refs/remotes/origin/main\n"),
    (b"spec refs/heads/*:refs/x/*\nspec refs/tags/*:refs/x/*\nref $ refs/heads/a\ntag $ $ refs/tags/a\n",
     b"conflict\trefs/x/a\trefs/heads/a\trefs/heads/*:refs/x/*\trefs/tags/a\trefs/tags/*:refs/x/*\n"),
    (b"spec refs/heads/*:foo/*\nspec refs/tags/*:foo/*\nref $ refs/heads/a\nref $ refs/tags/a\n",
     b"conflict\tfoo/a\trefs/heads/a\trefs/heads/*:foo/*\trefs/tags/a\trefs/tags/*:foo/*\n"),
    (b"spec refs/heads/*:refs/x/*\nspec refs/tags/*:refs/x/*\nref $ refs/heads/b\nref $ refs/heads/a\n"
     b"ref $ refs/tags/a\nref $ refs/tags/b\n",
     b"conflict\trefs/x/a\trefs/heads/a\trefs/heads/*:refs/x/*\trefs/tags/a\trefs/tags/*:refs/x/*\n"
     b"conflict\trefs/x/b\trefs/heads/b\trefs/heads/*:refs/x/*\trefs/tags/b\trefs/tags/*:refs/x/*\n"),
    (b"spec +@:refs/x/h\nspec AAAAAAAAAAAAAAAAAAAAAAAAAAAAAAAAAAAAAAAA:refs/x/h\nspec refs/heads/*:foo/*\n"
     b"ref $ HEAD\nref $ refs/heads/a\n",
     b"conflict\trefs/x/h\taaaaaaaaaaaaaaaaaaaaaaaaaaaaaaaaaaaaaaaa"
     b"\tAAAAAAAAAAAAAAAAAAAAAAAAAAAAAAAAAAAAAAAA:refs/x/h\tHEAD\t+HEAD:refs/x/h\n"),
]
# Groups that each matching command refuses, and why.
FAULTS = [
    (b"tag $ refs/x\n", b"line 1 is malformed"),
    (b"ref $ refs/heads/main\nref 12 refs/x\n", b"line 2 is malformed"),
    (b"spec refs/heads/*\n", b"line 1: PatternUnbalanced"),
    (b"spec a\r\n", b"line 1: ReferenceName"),
    (b"ref $1 refs/x", b"line 1 is malformed"),
    (b"ref 111111111111111111111111111111111111111g refs/x", b"line 1 is malformed"),
    (b"ref $", b"line 1 is malformed"),
    (b"ref  $ refs/x", b"line 1 is malformed"),
    (b"tag $  $ refs/x", b"line 1 is malformed"),
    (b"spec", b"line 1 is malformed"),
    (b"ref", b"line 1 is malformed"),
    (b"\n", b"line 1 is malformed"),
    (b"spec main\n\n", b"line 2 is malformed"),
    (b" spec main\n", b"line 1 is malformed"),
    (b"Spec main\n", b"line 1 is malformed"),
    (b"spec\tmain\n", b"line 1 is malformed"),
    (b"map $ refs/x\n", b"line 1 is malformed"),
    (b"spec a:b*\nref 1 x\n", b"line 1: PatternUnbalanced"),
    (b"ref 1 x\nspec a:b*\n", b"line 1 is malformed"),
    (b"spec a\nref $ b\nspec ^\nspec a:b*\n", b"line 3: NegativeEmpty"),
]

ID = b"1" * 40


def fail(words, given, made):
    stop(f"{words} of {given[:80]!r}: {made}")


def made_of(program, words, given):
    ended = subprocess.run([program, *words.split()], input=given, stdout=subprocess.PIPE, check=False)
    return ended.stdout, ended.returncode


def check(program, library, words, given, wanted):
    """An input at once; and a byte a call: each byte is read, and then the end, and each is written."""
    made = made_of(program, words, given)
    if made != wanted:
        fail(words, given, f"{made}, not {wanted}")
    ended, told = programs.run_with(library, [program, *words.split()], {"CALLS_MOST": "1"}, input=given)
    calls = b"r" * (len(given) + 1) + b"w" * len(wanted[0])
    if (ended.stdout, ended.returncode, told) != (*wanted, calls):
        fail(words, given, f"a byte a call {ended.stdout}, status {ended.returncode}, by {told}, not {wanted}, by {calls}")


def check_canon(program, library, words, rows):
    for given, answer in rows:
        check(program, library, words, given, (answer, int(b"err " in answer)))
        accepted = b"".join(line[3:] + b"\n" for line in answer.splitlines() if line.startswith(b"ok "))
        again = made_of(program, words, accepted)
        if again != (re.sub(rb"(?m)^(?=.)", b"ok ", accepted), 0):
            fail(words, accepted, f"{again}, which isn't the same")


def check_groups(program, library, words, status, rows):
    for given, answer in rows:
        check(program, library, words, given.replace(b"$", ID), (answer, status))


def check_limit(program, library):
    """As much as an input may have, whose answer is written at once; and a byte more, which is read last."""
    given = b"a" * LIMIT
    ended, told = programs.run_with(library, [program, "canon", "fetch"], {}, input=given)
    if (ended.stdout, ended.returncode, told.lstrip(b"r")) != (b"ok " + given + b"\n", 0, b"w"):
        fail("canon fetch", given, f"{ended.stdout[:80]}, status {ended.returncode}, by {told[:80]}")
    for most, reads in (LIMIT, 2), (LIMIT // 4, 5):
        ended, told = programs.run_with(library, [program, "canon", "fetch"], {"CALLS_MOST": str(most)}, input=given + b"a")
        if (ended.stdout, ended.returncode) != (b"input too long\n", 3) or told.count(b"r") < reads:
            fail("canon fetch", given + b"a", f"{ended.stdout[:80]}, status {ended.returncode}, by {told[:80]}")


def check_faults(program, library):
    """Calls that fail after others, and what was written before them."""
    given, output = b"main\n\n+:x", b"ok main:main\nerr Empty\nok :x\n"
    reads, lost = b"r" * (len(given) + 1), b"write failed\n"
    for variables, wanted in [
        # an interrupted read isn't tried again
        ({"CALLS_READ": "1", "CALLS_INTERRUPT": "1"}, (b"read failed\n", 3, b"Rw")),
        ({"CALLS_READ": "2", "CALLS_INTERRUPT": "1"}, (b"read failed\n", 3, b"rRw")),
        # a write that takes a part of the output is followed by others
        ({"CALLS_MOST": "10"}, (output, 1, b"rr" + b"www")),
        ({"CALLS_MOST": "10", "CALLS_WRITE": "2"}, (output[:10] + lost, 3, b"rr" + b"wWww")),
        ({"CALLS_MOST": "1", "CALLS_WRITE": "1"}, (lost, 3, reads + b"W" + b"w" * len(lost))),
    ]:
        ended, told = programs.run_with(library, [program, "canon", "push"], variables, input=given)
        if (ended.stdout, ended.returncode, told) != wanted:
            fail("canon push", given, f"with {variables} {ended.stdout}, status {ended.returncode}, by {told}, not {wanted}")


def main():
    program = paths(__doc__, "program")
    faults = [(given, answer + b"\n") for given, answer in FAULTS]
    with programs.library("calls", "-ldl") as library:
        check_canon(program, library, "canon push", PUSHES)
        check_canon(program, library, "canon fetch", FETCHES)
        for words, status, rows in [
            ("lhs", 0, FORWARD), ("rhs", 0, BACKWARD), ("plan", 0, PLANS), ("plan", 1, CONFLICTS),
            ("lhs", 1, faults), ("rhs", 1, faults), ("plan", 1, faults),
        ]:
            check_groups(program, library, words, status, rows)
        check_limit(program, library)
        check_faults(program, library)
    rows = [PUSHES, FETCHES, FORWARD, BACKWARD, PLANS, CONFLICTS, FAULTS]
    print(f"answers: {sum(map(len, rows))} inputs, at once and a byte a call, and one at the limit")


if __name__ == "__main__":
    main()
