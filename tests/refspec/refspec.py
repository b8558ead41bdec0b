#!/usr/bin/env python3
"""Runs the program refspec where no stored run can: inputs and outputs that fail, the line that sums a plan up on a terminal,
the options of its manual page, and its time: tests/refspec/refspec.py PROGRAM

All else is in tests/samples/refspec.sample, which tests/refspec/replay.py replays.
"""
import os
import re
import subprocess
import sys
import tempfile
import time
from pathlib import Path

sys.path.insert(0, str(Path(__file__).resolve().parents[1]))
from helpers import ROOT, paths, programs, stop

PAGE = ROOT / "man" / "refspec.1"
COMMANDS = ("check", "explain", "canon", "plan", "stale", "track", "prefixes")
NOT_READ = b"refspec: the input could not be read to its end\n"
NOT_WRITTEN = b"refspec: the output could not be written\n"
ID = "1" * 40


def expect(made, words, what, message=None, status=3):
    """The run has the status, and says only the message, or nothing where that can't be written."""
    if made.returncode != status or made.stdout or made.stderr != message:
        stop(f"{words}: {what}: status {made.returncode}, output {made.stdout!r},"
             f" messages {made.stderr!r}")


def check_outputs(program):
    """Results and messages that can't be written. If nobody reads them, a run ends quietly, as one by SIGPIPE does."""
    for kind in programs.OUTPUTS:
        message, status = (b"", 141) if kind == "unread" else (NOT_WRITTEN, 3)
        for words in (["canon", "a"], ["plan", "--json", "1" * 40], ["--help"], ["--version"]):
            made = programs.run_to(kind, 1, [program, *words], b"", subprocess.PIPE)
            expect(made, words, f"the output is {kind}", message, status)
        made = programs.run_to(kind, 2, [program, "check"], b"a..b\n", subprocess.PIPE)
        expect(made, ["check"], f"the standard error is {kind}", status=status)


def check_inputs(program):
    """An input that can't be read to its end."""
    for words in (["canon"], ["plan", "a"], ["check", "--specs", "-", "a"],
                  ["plan", "--specs", "-", "--refs", os.devnull]):
        folder = os.open("/", os.O_RDONLY)
        made = subprocess.run([program, *words], stdin=folder, capture_output=True, check=False)
        os.close(folder)
        expect(made, words, "the input is a folder", NOT_READ)
        made = subprocess.run([program, *words], preexec_fn=lambda: os.close(0), capture_output=True, check=False)
        expect(made, words, "the input is closed", NOT_READ)


def check_summary(program):
    """On a terminal a plan is summed up, once, and not where there is a conflict or no line is shown."""
    refs = "".join(f"{ID}\t{name}\n" for name in ("HEAD", "refs/heads/a", "refs/heads/b", "refs/heads/wip/c",
                                                  "refs/tags/v1")).encode()
    for words, wanted in (
            (["+refs/heads/*:refs/o/*"], b"3 refs by 1 spec\n"),
            (["refs/heads/*:refs/o/*", "refs/tags/*:refs/tags/*", "^refs/heads/wip/*"],
             b"3 refs by 2 specs; 1 left out by negative specs\n"),
            (["refs/heads/a:refs/o/a", "refs/heads/a"], b"1 ref by 2 specs\n"),
            (["--tags", "refs/heads/*:refs/o/*", "^refs/heads/wip/*"],
             b"3 refs by 2 specs; 1 left out by negative specs\n"),
            (["1" * 40], b"1 ref by 1 spec\n"),
            (["--merge", "refs/heads/a"], b"1 ref by 1 spec\n"),
            (["--merge", "refs/heads/a", "refs/heads/b:refs/o/b"], b"1 ref by 1 spec\n"),
            (["refs/x/*:refs/y/*"], b"0 refs by 0 specs\n"),
            (["-z", "--read-z", "refs/x/*:refs/y/*"], None),
            (["--json", "refs/heads/*:refs/o/*"], None),
            (["refs/heads/a:refs/o/a", "refs/heads/b:refs/o/a"], None)):
        told = programs.on_terminal([program, "plan", *words], refs)
        if told != wanted and (wanted is not None or re.search(rb"refs? by [0-9]", told)):
            stop(f"plan {words} on a terminal: {told!r}")
    with tempfile.NamedTemporaryFile() as file:
        file.write(b"refs/heads/b:refs/o/b\n")
        file.flush()
        told = programs.on_terminal([program, "plan", "--configured", file.name, "--merge", "refs/heads/a"], refs)
    if told != b"2 refs by 2 specs\n":
        stop(f"a plan of a value and of what a branch merges on a terminal: {told!r}")
    told = programs.on_terminal([program, "plan", "refs/heads/*:refs/o/*"], refs + f"{ID}\trefs/heads/a..b\n".encode())
    if not told.endswith(b"\n3 refs by 1 spec; 1 left out for an invalid name\n"):
        stop(f"a plan with an invalid name on a terminal: {told!r}")


def check_page(program):
    """Each long option that a page of help has stands in the manual page."""
    page = PAGE.read_text(encoding="utf-8")
    known = set(re.findall(r"--([a-z][a-z-]*)", page)) | set(re.findall(r"\bFl Fl ([a-z][a-z-]*)", page))
    for words in ([], *([command] for command in COMMANDS)):
        made = subprocess.run([program, *words, "--help"], capture_output=True, text=True, check=True)
        missing = set(re.findall(r"--([a-z][a-z-]*)", made.stdout)) - known
        if missing:
            stop(f"man/refspec.1 has no {sorted(missing)} of {[*words, '--help']}")


def check_many(program):
    """Many values that add nothing: equal ones may go, and among many that can write the same refs it is left open."""
    equal = ["+refs/heads/*:refs/x/*"] * 100
    alike = [f"+refs/{number}/*:refs/x/*" for number in range(70)] + ["^refs/*"]
    for values, words, count in ((equal, b"    Remove it.\n", 99), (alike, b" What else depends on it is left open.", 69)):
        made = subprocess.run([program, "check"], input="\n".join(values).encode(), capture_output=True, check=True, timeout=300)
        if made.stderr.count(words) != count:
            stop(f"check of {values[-2:]} and more says {words!r} {made.stderr.count(words)} times")


# Groups of so many values, each with few that differ.
REPEATED = (
    lambda count: ["+a:b"] * count,
    lambda count: ["+a:b", "a:b"] * (count // 2),
    lambda count: ["+refs/heads/*:refs/remotes/origin/*"] * count,
    lambda count: ["^refs/heads/a"] + ["refs/heads/a:refs/x/a"] * count,
    lambda count: ["topic/*:refs/x/*"] * count,
    lambda count: ["refs/heads/*:refs/x/*"] + ["^refs/notes/a"] * count,
)


def seconds_of(program, values):
    """The least processor time of three checks of some values."""
    times = []
    for _ in range(3):
        begun = os.times()
        subprocess.run([program, "check"], input="\n".join(values).encode(), capture_output=True, check=True, timeout=300)
        ended = os.times()
        times.append(ended.children_user - begun.children_user)
    return min(times)


def check_growth(program):
    """Repeated values are looked at once: four times as many take some four times as long, and not sixteen times."""
    for number, values_of in enumerate(REPEATED):
        few, many = (seconds_of(program, values_of(count)) for count in (5_000, 20_000))
        if many > 10 * few + 0.2:
            stop(f"check of 20,000 values as {values_of(1)[-1:]} ({number}) takes {many:.2f} s, of 5,000"
                 f" {few:.2f} s")


def check_time(program):
    refs = "".join(f"{number:040x}\trefs/heads/topic/{number * 7919 % 200_000:06d}\n" for number in range(200_000))
    with tempfile.NamedTemporaryFile() as file:
        file.write(refs.encode())
        file.flush()
        taken = []
        for words in (["sort", file.name], [program, "plan", "--refs", file.name, "refs/heads/*:refs/x/*",
                                            "^refs/heads/topic/1*", "refs/tags/*:refs/tags/*"]):
            best = 1e9
            for _ in range(3):
                begun = time.monotonic()
                subprocess.run(words, stdout=subprocess.DEVNULL, check=True)
                best = min(best, time.monotonic() - begun)
            taken.append(best)
    if taken[1] > 4 * taken[0] + 1:
        stop(f"200,000 refs take {taken[1]:.2f} s, and sort {taken[0]:.2f} s")
    return taken


def main():
    program = paths(__doc__, "program")
    for check in (check_outputs, check_inputs, check_summary, check_page, check_many, check_growth):
        check(program)
    taken = check_time(program)
    print(f"refspec: inputs and outputs that fail; 200,000 refs in {taken[1]:.2f} s, sort in {taken[0]:.2f} s")


if __name__ == "__main__":
    main()
