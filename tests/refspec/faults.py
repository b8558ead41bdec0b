#!/usr/bin/env python3
"""Makes memory, reads and writes of the program refspec fail in each of its commands, and at each step of `git refspec`, and gives
it a small stack: tests/refspec/faults.py PROGRAM

Each growth of memory is refused in turn, alone and with all later ones; each read and each write in turn fails, is
interrupted, and takes one byte, and all of them take one byte; each file in turn can't be opened for want of memory. A run answers as ever, or
writes nothing but what failed, and ends with status 3. On a stack of 64 kB, long texts and many refs are answered.
"""
import collections
import concurrent.futures
import os
import resource
import subprocess
import sys
import tempfile
from pathlib import Path

sys.path.insert(0, str(Path(__file__).resolve().parents[1]))
from helpers import paths, programs, scripted, stop

STACK = 64 * 1024
NO_MEMORY = b"refspec: out of memory\n"
NOT_READ = b"refspec: the input could not be read to its end\n"
NOT_WRITTEN = b"refspec: the output could not be written\n"
ID = b"1" * 40
REFS = b"".join(b"%s\t%s\n" % (ID, name) for name in (b"refs/heads/a", b"refs/tags/a", b"refs/heads/a..b", b"x"))
LOCAL = b"refs/x/gone \nrefs/x/a \n"
# The arguments, the files and the input of a run. A run of `git` has the files of a folder.
Case = collections.namedtuple("Case", "words files input", defaults=({}, b""))
Answer = collections.namedtuple("Answer", "output messages status asked")
COMMANDS = [
    Case(["check", "-v", "--json", "b", "--specs", "-"], {}, b"a\na:\na..b\na*b*\n"),
    Case(["check"], {}, b"a" * 300 + b"..*:b..*\n"),
    Case(["check"], {}, b"a" * 300 + b"*:b* c:d\n"),
    Case(["check", "--config"], {}, b"file:c\0remote.o.fetch\na..b\0file:c\0remote.o.push\nb\0"),
    Case(["check", "--config", "--json"], {}, b"file:c\0remote.o.fetch\0"),
    Case(["check"], {}, b"refs/heads/*:refs/x/*\nrefs/pull/*/head:refs/x/pr/*\nrefs/heads/a:refs/x/a\nmain:x\n^main\n^refs/y\n"),
    Case(["check", "--json"], {}, b"refs/heads/*:refs/x/*\nrefs/tags/*:refs/x/*\nmain:x\n^main\n"),
    Case(["explain", "--json"], {}, b"main:x\n\xff\n"),
    Case(["canon", "--push"], {}, b"main\n\n:\"\n"),
    Case(["plan", "refs/heads/*:refs/x/*", "main"], {}, REFS + b"bad\n"),
    Case(["plan", "--json", "refs/heads/*:refs/x/*", "refs/tags/*:refs/x/*"], {}, REFS + b"bad\n"),
    Case(["plan", "--long", "refs/heads/*:refs/x/*", "main"], {}, REFS),
    Case(["plan", "--configured", "specs", "--local", "local", "--refs", "refs", "--merge", "refs/tags/a", "--tags", "-z"],
         {"specs": b"refs/heads/*:refs/x/*\n^refs/heads/a\n", "local": LOCAL, "refs": REFS}),
    Case(["stale", "--json", "--local", "local", "refs/heads/*:refs/x/*", "^refs/heads/gone"], {"local": LOCAL}, REFS),
    Case(["stale", "--local", "local", "refs/heads/*:refs/x/*"], {"local": LOCAL}, REFS),
    Case(["prefixes", "refs/*:refs/*", "refs/heads/*:refs/x/*"]),
    Case(["prefixes", "main", "*:refs/x/*"]),
    Case(["prefixes", "--tags", "--head", "--merge", "dev", "--merge", "refs/heads/a", "refs/heads/*:refs/x/*"]),
    Case(["prefixes", "--push", "--json", "main", "a/*:refs/heads/*"]),
    Case(["track", "--json", "--ref", "refs/x/a", "--ref", "y", "refs/heads/*:refs/x/*", "a:" + "1" * 40]),
    Case(["upstream", "--merge", "refs/heads/a", "--merge", "refs/heads/b", "refs/heads/a*:refs/x/*", "^refs/tags/a"]),
    Case(["upstream", "--json", "--merge", "refs/heads/a", "--merge", "refs/tags/a", "refs/heads/*:refs/x/*", "^refs/heads/a"]),
    Case(["prefetch"], {}, b"+refs/heads/*:refs/x/*\nrefs/tags/*:refs/tags/*\nmain\n^refs/heads/a\na..b\n"),
    Case(["prefetch", "--json"], {}, b"+refs/heads/*:refs/x/*\nrefs/tags/*:refs/tags/*\n"),
    Case(["rename", "o", "p", "+refs/heads/*:refs/remotes/o/*", "main:refs/x", "a:refs/remotes/o/a"]),
    Case(["rename", "--json", "o", "p"], {}, b"+refs/heads/*:refs/remotes/o/*\nmain\n"),
    Case(["why", "--ref", "refs/heads/a", "--refs", "-", "refs/heads/*:refs/x/*", "refs/tags/*:refs/x/*", "b", "^refs/heads/b*"], {}, REFS),
    Case(["why", "--json", "--ref", "refs/heads/a", "refs/heads/b*:refs/x/*", "^refs/heads/a"]),
    Case(["why", "--ref", "refs/heads/aa", "--refs", "refs", "main"], {"refs": REFS}),
    Case(["why", "--local", "refs/x/a", "--refs", "-", "refs/heads/*:refs/x/*", "refs/tags/*:refs/x/*", "a:refs/x/a", "^refs/heads/b*"], {}, REFS),
    Case(["why", "--json", "--local", "refs/x/a", "--refs", "refs", "refs/nosuch/*:refs/x/*", "1" * 40 + ":refs/x/a"], {"refs": REFS}),
    Case(["plan", "--help"]),
    Case(["plan", "--no"]),
]
# The arguments of `git refspec`.
CALLS = [
    ["check", "-v"], ["plan", "--prune", "--json", "origin"], ["plan", "origin", "main", "nosuch"], ["stale", "origin"],
    ["track", "@{u}", "origin/main", "--json"], ["upstream"], ["upstream", "--json", "main", "HEAD"],
    ["why", "main", "origin"], ["why", "--json", "nosuch"], ["why", "refs/remotes/origin/main"],
    ["why", "--json", "refs/remotes/origin/gone"], ["prefixes", "--patterns"], ["plan", "--no"],
]
JSON = ([], ["--json"])
MANY = b"".join(b"%s\trefs/heads/%06d\n" % (ID, number) for number in range(20_000))
LONG = b"a" * 500_000
# On a small stack: a long text, many texts and many refs for each command.
LARGE = [
    *(Case([*words, *json], {}, text) for json in JSON
      for words in (["check", "--no-warnings"], ["explain"], ["canon"], ["prefixes"], ["prefetch"], ["rename", "o", "p"],
                    ["upstream", "--merge", "refs/heads/a"])
      for text in (LONG, b"refs/" + LONG + b"/*:refs/x/*" + LONG, b"/".join([b"a"] * 100_000), b"+a:b\n" * 20_000, b"\n" * 20_000)),
    *(Case(["check", *words], {}, b"".join(b"refs/heads/%d*:refs/x/%d*\n" % (number, number % 20) for number in range(40)))
      for words in JSON),
    *(Case([*words, *json, "refs/heads/*:refs/x/*", "refs/heads/000001:refs/x/000002", "^refs/heads/00001*"], {"local": MANY}, MANY)
      for words in (["plan"], ["plan", "--local", "local"], ["stale", "--local", "local"],
                    ["why", "--ref", "refs/heads/000001", "--refs", "-"], ["why", "--ref", "refs/heads/nosuch", "--refs", "-"],
                    ["why", "--local", "refs/x/000002", "--refs", "-"], ["why", "--local", "refs/x/nosuch", "--refs", "-"])
      for json in JSON),
    *(Case([*words, *json, "--specs", "-"], {}, b"refs/heads/*:refs/x/*\n" * 20_000)
      for words in (["why", "--ref", "refs/heads/a"], ["track", "--ref", "refs/x/a"]) for json in JSON),
    *(Case(["why", "--local", "refs/x/a", *json, "--specs", "-"], {}, b"refs/heads/*:refs/x/*\n" * 500) for json in JSON),
    *(Case(["prefixes", *words, *json], {}, b"".join(b"refs/heads/%d/*\n" % number for number in range(20_000)))
      for words in (["--push"], ["--tags", "--head", "--merge", "dev", "--merge", "refs/heads/a"]) for json in JSON),
    *(Case(["check", "--config", *json], {}, b"".join(b"file:c\0remote.r%d.fetch\na:b\0" % number for number in range(5_000)))
      for json in JSON),
]
LARGE_ANSWERS = {
    **scripted.USUAL, "lines": MANY, "local": MANY.replace(ID + b"\t", b"").replace(b"\n", b" \n"),
    "config": scripted.USUAL["config"] + b"file:.git/config\0remote.origin.fetch\nrefs/tags/*:refs/tags/*\0" * 300,
}


def fail(case, what, told):
    stop(f"{' '.join(case.words)} of {case.input[:40]!r} and {sorted(case.files)}: {what}: {told}")


def end_of(case, message):
    """What a failed run writes of what failed."""
    return b"git " + message if case.words[0] == "git" else message


def failures(*messages):
    """The answers of a run that fails with one of these messages."""
    return [Answer(b"", message, 3, b"") for message in messages]


class Runner:
    """Runs a case in a folder of its own, with its files."""

    def __init__(self, program, folder, case):
        folder = Path(folder)
        self.program, self.folder, self.case, self.asked = program, folder, case, folder / "asked"
        for name, text in case.files.items():
            (folder / name).write_bytes(text)

    def run(self, run=lambda words, **options: subprocess.run(words, stdout=subprocess.PIPE, check=False, **options), **options):
        """What a run by some call writes, and what else that call returns."""
        self.asked.write_bytes(b"")
        made = run([self.program, *self.case.words], input=self.case.input, stderr=subprocess.PIPE, cwd=self.folder, **options)
        made, *others = made if isinstance(made, tuple) else (made,)
        return Answer(made.stdout, made.stderr, made.returncode, self.asked.read_bytes()), *others

    def expect(self, answer, wanted, what):
        if answer not in wanted:
            fail(self.case, what, answer)


def refuse_growths(runner, library, whole):
    """Each growth refused in turn: a run says just that, or answers as ever."""
    # Before it knows its arguments it speaks of refspec.
    early = failures(NO_MEMORY, end_of(runner.case, NO_MEMORY))
    count = 0
    for later in (False, True):
        refused, call, ended = True, 1, 0
        while refused:
            answer, refused = runner.run(lambda words, **options: programs.run_refusing(library, words, call, later, **options))
            ended += refused and answer in early
            runner.expect(answer, [whole, *early] if refused else [whole], f"growth {call} is refused")
            count, call = count + refused, call + 1
        if ended == 0:
            fail(runner.case, "growths are refused", "no run ends early")
    return count


def fail_calls(runner, library, whole):
    """Each read and each write in turn fails, is interrupted, and takes one byte; and all of them take one byte."""
    def run(**variables):
        return runner.run(lambda words, **options: programs.run_with(library, words, {"CALLS_ALL": "yes", **variables}, **options))

    answer, told = run()
    runner.expect(answer, [whole], "its calls are counted")
    runner.expect(run(CALLS_MOST="1")[0], [whole], "reads and writes of one byte")
    named = (b'refspec: cannot read "%s"\n' % name.encode() for name in runner.case.files)
    unread = failures(end_of(runner.case, NOT_READ), *named)
    for number in range(1, told.count(b"r") + 1):
        answer, _ = run(CALLS_READ=str(number))
        runner.expect(answer, unread, f"read {number} fails")
        runner.expect(run(CALLS_READ=str(number), CALLS_INTERRUPT="yes")[0], [whole, answer], f"read {number} is interrupted")
        runner.expect(run(CALLS_READ=str(number), CALLS_SHORT="yes")[0], [whole], f"read {number} takes one byte")
    for number in range(1, told.count(b"w") + 1):
        answer, _ = run(CALLS_WRITE=str(number))
        is_begun = whole.output.startswith(answer.output) and answer.status == 3 and answer.asked == b""
        is_said = whole.messages.startswith(answer.messages) or answer.messages.endswith(end_of(runner.case, NOT_WRITTEN))
        if not is_begun or not is_said:
            fail(runner.case, f"write {number} fails", answer)
        runner.expect(run(CALLS_WRITE=str(number), CALLS_INTERRUPT="yes")[0], [whole, answer], f"write {number} is interrupted")
        runner.expect(run(CALLS_WRITE=str(number), CALLS_SHORT="yes")[0], [whole], f"write {number} takes one byte")
    return len(told)


def refuse_files(runner, library, whole):
    """Each file can't be opened for want of memory in turn: a run says just that, or doesn't need the file."""
    refused = failures(end_of(runner.case, NO_MEMORY))
    is_git = runner.case.words[0] == "git"
    names = [*runner.case.files, *(["asked"] if is_git else [])]
    for name in names:
        answer, _ = runner.run(lambda words, **options: programs.run_with(library, words, {"CALLS_OPEN": name}, **options))
        needs = not is_git or name == "words" or name == "asked" and whole.asked
        runner.expect(answer, refused if needs else [whole, *refused], f"{name} can't be opened")
    return len(names)


def check(program, libraries, case):
    with tempfile.TemporaryDirectory() as folder:
        runner = Runner(program, folder, case)
        whole, = runner.run()
        if whole.status not in (0, 1, 2):
            fail(case, "it runs", whole)
        refuse, calls = libraries
        return refuse_growths(runner, refuse, whole), fail_calls(runner, calls, whole), refuse_files(runner, calls, whole)


def check_stack(program, case):
    """The answer on a small stack is the one on a usual stack."""
    def bound():
        resource.setrlimit(resource.RLIMIT_STACK, (STACK, STACK))

    with tempfile.TemporaryDirectory() as folder:
        runner = Runner(program, folder, case)
        whole, = runner.run()
        answer, = runner.run(preexec_fn=bound, env={})
        runner.expect(answer, [whole], f"a stack of {STACK} bytes")


def steps(program, words, answers):
    """What `git refspec` runs the program on, from the first step to the answer."""
    files = {"words": b"".join(word.encode() + b"\0" for word in words)}
    while True:
        case = Case(["git", "."], dict(files))
        yield case
        with tempfile.TemporaryDirectory() as folder:
            asked = Runner(program, folder, case).run()[0].asked
        if not asked or asked.startswith(b"-\n"):
            return
        for command in asked.split(b"\n\n")[:-1]:
            name = command.split(b"\n")[0].decode()
            files[name] = answers[name.partition(".")[0]]


def main():
    program = paths(__doc__, "program")
    cases = COMMANDS + [case for words in CALLS for case in steps(program, words, scripted.USUAL)]
    calls = dict.fromkeys(tuple(word for word in words if word != "--json") for words in CALLS)
    large = LARGE + [case for words in calls for json in JSON for case in steps(program, [*words, *json], LARGE_ANSWERS)]
    with programs.library("refuse") as refuse, programs.library("calls", "-ldl") as calls:
        with concurrent.futures.ThreadPoolExecutor(os.cpu_count()) as pool:
            counts = list(pool.map(lambda case: check(program, (refuse, calls), case), cases))
            list(pool.map(lambda case: check_stack(program, case), large))
    growths, failed, unopened = map(sum, zip(*counts))
    print(f"faults: {len(cases)} runs of refspec and steps of git refspec, with {growths} growths and {unopened} files refused and"
          f" {failed} reads and writes failed, interrupted and shortened, each in turn; {len(large)} large ones on a stack of {STACK} bytes")


if __name__ == "__main__":
    main()
