#!/usr/bin/env python3
"""Times a program and the original on hostile inputs: tools/bench/limits.py PROGRAM ORIGINAL [--colliding FILE] [--rows TEXT]

For each input up to the program's limit it prints our processor time, its ratio to the original's, and the peak of
our memory for each byte of the input; at the end the greatest of each. The shortest of seven runs counts. An original
that takes longer than a minute is given up. FILE has names of branches whose hashes collide, one in each line.
"""
import argparse
import os
import re
import subprocess
import sys
import tempfile

sys.dont_write_bytecode = True
sys.path.insert(0, os.path.join(os.path.dirname(os.path.abspath(__file__)), os.pardir, "oracle"))
import names  # beside this script
import original  # in tools/oracle

LIMIT = original.LIMIT
ID = b"1" * 40
PATIENCE = 60
RUNS = 7


def spec_lines(specs):
    return b"".join(b"spec %s\n" % spec for spec in specs)


def ref_lines(ref_names):
    return b"".join(b"ref %s %s\n" % (ID, name) for name in ref_names)


def numbered(start, count):
    return [b"%s%05d" % (start, number) for number in range(count)]


def asked(sources, destinations):
    return [b":".join(sides) for sides in zip(sources, destinations)]


def matching_inputs(colliding):
    """What it is, and its lines, for the commands that match."""
    remote = numbered(b"refs/heads/", 16_500)
    local = numbered(b"refs/x/", 10_000)
    half = numbered(b"refs/heads/", 9_000)
    both = [b"refs/heads/*:refs/x/*", b"refs/tags/*:refs/x/*"]
    yield "one pattern, many refs", spec_lines(names.UNFORCED) + ref_lines(remote)
    yield "one name, many refs", spec_lines(names.ONE_NAME) + ref_lines(remote)
    yield "many full names", spec_lines(asked(remote, local)) + ref_lines(half)
    yield "many partial names", spec_lines(numbered(b"", 10_000)) + ref_lines(half)
    yield "many patterns", spec_lines(name + b"*:refs/x/*" for name in numbered(b"refs/heads/", 1_000)) + ref_lines(half)
    yield "many negative names", spec_lines(names.UNFORCED + [b"^" + name for name in half[:8_000]]) + ref_lines(half)
    yield "one long name", spec_lines([b"refs/*:x/*"]) + ref_lines([b"refs/" + b"b" * (LIMIT - 100)])
    yield "one destination", spec_lines(asked(half, [b"refs/x"] * 9_000)) + ref_lines(half)
    yield "many conflicts", spec_lines(both) + ref_lines(half[:8_000] + numbered(b"refs/tags/", 8_000))
    yield "one ref, again and again", spec_lines(names.UNFORCED) + ref_lines(remote[:1] * 16_500)
    yield "one spec, again and again", spec_lines(names.UNFORCED * 200) + ref_lines(remote[:1_000])
    yield "one spec and one ref, again and again", spec_lines(names.ONE_NAME * 2_000) + ref_lines([b"refs/heads/main"] * 2_000)
    yield "patterns of all, many refs", spec_lines([b"*:*"] * 100) + ref_lines(remote[:10_000])
    if colliding:
        taken = names.in_file(colliding)[:10_000]
        yield "names of one hash", spec_lines(names.UNFORCED) + ref_lines(taken)


def canon_inputs():
    yield "one long name", b"a" * LIMIT
    yield "one name with slashes", b"a/" * (LIMIT // 2 - 1) + b"aa"
    yield "two long patterns", b"b" * (LIMIT // 2 - 2) + b"*:*" + b"b" * (LIMIT // 2 - 2)
    yield "newlines", b"\n" * LIMIT
    yield "short specs", b"a\n" * (LIMIT // 2)
    yield "stars", b"*" * LIMIT
    yield "patterns", b"refs/heads/*:refs/remotes/origin/*\n" * (LIMIT // 35)


def inputs(colliding):
    for operation in ("fetch", "push"):
        for what, text in canon_inputs():
            yield f"canon {operation}", what, text
    for command in ("lhs", "rhs", "plan"):
        for what, text in matching_inputs(colliding):
            yield command, what, reversed_sides(text) if command == "rhs" else text


def reversed_sides(text):
    """The same with the sides of each positive spec swapped, where both are there."""
    return re.sub(rb"(?m)^spec ([^:^\n]+):(.+)$", rb"spec \2:\1", text)


def seconds(program, words, path):
    """The processor time of one run, or nothing where it takes too long."""
    with open(path, "rb") as given:
        child = subprocess.Popen(["timeout", str(PATIENCE), program, *words], stdin=given, stdout=subprocess.DEVNULL)
        _, status, usage = os.wait4(child.pid, 0)
        child.returncode = os.waitstatus_to_exitcode(status)
    return None if child.returncode == 124 else usage.ru_utime + usage.ru_stime


def shortest(program, words, path):
    runs = [seconds(program, words, path) for _ in range(RUNS)]
    return None if None in runs else min(runs)


def peak(program, words, path):
    """The peak of a run's memory in bytes."""
    with open(path, "rb") as given:
        made = subprocess.run(["/usr/bin/time", "-f", "%M", program, *words], stdin=given, stdout=subprocess.DEVNULL,
                              stderr=subprocess.PIPE, check=False)
    return int(made.stderr.split()[-1]) * 1024


def main():
    parser = argparse.ArgumentParser(description=__doc__, formatter_class=argparse.RawDescriptionHelpFormatter)
    parser.add_argument("program")
    parser.add_argument("original")
    parser.add_argument("--colliding", metavar="FILE")
    parser.add_argument("--rows", metavar="TEXT", default="", help="only the inputs whose names have this text")
    options = parser.parse_args()
    original.need("limits", options.program, options.original)
    ratios, rooms = [], []
    with tempfile.NamedTemporaryFile() as file:
        for command, what, text in inputs(options.colliding):
            assert len(text) <= LIMIT, what
            if options.rows not in what:
                continue
            file.seek(0)
            file.truncate()
            file.write(text)
            file.flush()
            words = command.split()
            ours = shortest(options.program, words, file.name)
            theirs = shortest(options.original, words, file.name)
            room = peak(options.program, words, file.name) / len(text)
            ratio = ours / theirs if theirs else 0
            shown = f"{ratio:.2f}" if theirs else "less, the original takes more than a minute"
            print(f"{command}, {what}, {len(text)} bytes: {ours * 1000:.0f} ms, {shown}; {room:.0f} bytes a byte", flush=True)
            ratios.append((ratio, command, what))
            rooms.append((room, command, what))
    print("longest: %.2f of the original's time, %s, %s" % max(ratios))
    print("most memory: %.0f bytes for a byte of input, %s, %s" % max(rooms))


if __name__ == "__main__":
    main()
