"""Runs the examples of the bindings in random situations: examples.py LINTER.. -- PLANNER..

Each planner, a program or a file of Python, has to write the same bytes to each stream and to end with the same status, in
150 runs over 0 to 100 names or more. Each linter has to report the lines that the module in Python refuses, in 101 runs over
0 to 100 lines. Names and specs are any bytes, and many are refused.
"""
import random
import subprocess
import sys

import gix_refspec

RUNS = 150
PLACES = [b"refs/heads/", b"refs/tags/", b"refs/remotes/o/", b"refs/pull/", b"refs/", b"", b"other/"]
WORDS = [b"main", b"v1", b"a", b"b", b"a/b", b"topic-7", b"b\xe4d", "\u00e9t\u00e9".encode(), b"HEAD", b"x" * 300]
BAD_WORDS = [b"a..b", b"a b", b"a.lock", b"a//b", b".a", b"a\x01", b"a.", b"a@{b", b"[a"]
IDS = [b"1" * 40, b"AbCdEf0123" * 4, b"2" * 64]
BAD_SPECS = [b"^", b"^a:b", b"^" + b"1" * 40, b"a*b*:c", b"a*:b", b"refs/heads/*", b"a:b:c", b"++a"]
# Some write to one destination, or may.
RIVALS = [b"+refs/heads/*:refs/x/*", b"refs/tags/*:refs/x/*", b"a:refs/x/b", b"b", b"refs/heads/main:refs/x/a",
          b"+v1:refs/x/main"]
SPECS = [b"refs/heads/*:refs/x/*", b"^refs/heads/a*", b"", b"@", b"+@:refs/x/HEAD", b"+*:*", b"refs/heads/*:other/*",
         b"refs/heads/b*:refs/y/*", b"^refs/tags/v1", b"refs/*ck:refs/z/*", b"+v1", b"gone", b"+gone", *RIVALS, *RIVALS]
# Names that the specs above map, so that plans aren't mostly of what is missing.
COMMON = [b"refs/heads/a", b"refs/heads/b", b"refs/heads/main", b"refs/tags/v1", b"refs/tags/a", b"HEAD",
          b"refs/heads/b\xe4d"]
# What some run has to show, so that the situations stay as varied as they are.
WANTED = {b"write", b"force", b"fetch", b"left out", b"conflict", b"overruled", b"missing", b"refused"}


def some_name(source):
    return source.choice(PLACES) + source.choice(WORDS if source.random() < 0.9 else BAD_WORDS)


def some_spec(source, bad=0.0):
    """A text of a spec, with this probability one that is refused."""
    if source.random() < bad:
        return source.choice(BAD_SPECS + BAD_WORDS)
    if source.random() < 0.7:
        return source.choice(SPECS)
    name = source.choice(IDS) if source.random() < 0.1 else source.choice(PLACES) + source.choice(WORDS)
    if source.random() < 0.4:
        return source.choice([b"", b"+"]) + name
    return source.choice([b"", b"+"]) + name + b":" + source.choice(PLACES) + source.choice(WORDS)


def some_line(source):
    """A line of `git ls-remote`, at times one that it doesn't print."""
    if source.random() < 0.05:
        return source.choice([b"", b"\t", b"no tab", b"^{}", b"\t^{}", b"1\t2\t3", b"\0\t\0", b"1\trefs/heads/a\0b",
                              b"1\trefs/heads/a\r"])
    return b"%040x\t%s%s" % (source.getrandbits(160), some_name(source), b"^{}" if source.random() < 0.1 else b"")


def some_lines(source, count):
    """So many lines, mostly with names that specs map."""
    lines = [some_line(source) for _ in range(count)]
    if source.random() < 0.8:
        lines[:len(COMMON)] = [b"%040x\t%s" % (source.getrandbits(160), name) for name in COMMON][:count]
    source.shuffle(lines)
    return lines


def joined(source, lines):
    """The lines, the last one at times without a newline."""
    return b"\n".join(lines) + (b"\n" if lines and source.random() < 0.8 else b"")


def some_words(source):
    bad = 0.1 if source.random() < 0.3 else 0.0
    given, configured = ([some_spec(source, bad) for _ in range(source.randrange(5))] for _ in range(2))
    if source.random() < 0.3:
        return given
    return given + [b"--"] + configured + ([b"--"] if source.random() < 0.05 else [])


def run(program, words, given):
    command = [sys.executable, "-B", program] if program.endswith(".py") else [program]
    ended = subprocess.run(command + words, input=given, stdout=subprocess.PIPE, stderr=subprocess.PIPE, check=False)
    return ended.returncode, ended.stdout, ended.stderr


def shown_by(told):
    status, out, err = told
    return {line.split(b"\t")[0] for line in out.split(b"\n")} | ({b"refused"} if status == 1 and err else set())


def compare_planners(programs):
    source, shown = random.Random(1), set()
    for count in range(RUNS):
        names = count if count <= 100 else source.randrange(400)
        words, given = some_words(source), joined(source, some_lines(source, names))
        told = [run(program, words, given) for program in programs]
        for program, other in zip(programs, told):
            if other != told[0]:
                sys.exit(f"bindings: over {words} and {given}\n{programs[0]} tells {told[0]}\n{program} tells {other}")
        shown |= shown_by(told[0])
    if not WANTED <= shown:
        sys.exit(f"bindings: no run of the planners shows {sorted(WANTED - shown)}")
    print(f"bindings: {len(programs)} planners, the same in {RUNS} random runs")


def refusal(line):
    try:
        gix_refspec.parse(line, gix_refspec.Operation.FETCH)
    except gix_refspec.RefspecError as error:
        return str(error).encode()
    return None


def try_linters(programs):
    source = random.Random(2)
    for count in range(101):
        lines = [some_spec(source, source.choice([0.0, 0.02, 0.3])) for _ in range(count)]
        given = joined(source, lines)
        # A last line without a newline is none if it is empty.
        refused = [(index, refusal(line)) for index, line in enumerate(lines, 1)]
        wanted = b"".join(b"%d: %s\n" % (index, sentence) for index, sentence in refused if sentence)
        for program in programs:
            told = run(program, [], given)
            if told != (int(wanted != b""), wanted, b""):
                sys.exit(f"bindings: over {given} {program} tells {told}, not {wanted}")
    print("bindings: the linter reports what is refused, over 0 to 100 lines")


if __name__ == "__main__":
    split = sys.argv.index("--")
    try_linters(sys.argv[1:split])
    compare_planners(sys.argv[split + 1:])
