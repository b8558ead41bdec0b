#!/usr/bin/env python3
"""Takes the advice of `refspec upstream` and `refspec why`, and asks Git: tests/refspec/git_advice.py REFSPEC [--cases N] [--seed N]

The situations are the runs of refspec.sample and the cases of remotes.sample, and so many generated ones. Where there is no upstream, or
a ref isn't fetched, and the message says which value to add, to leave out or to change, or what to name instead, that is done, step by
step. Then Git has to resolve `@{upstream}` of the branch, or fetch the ref. Each way out that is offered is tried. Advice that is known
not to help is counted. Without a git on the PATH nothing is tried.
"""
import argparse
import collections
import concurrent.futures
import json
import os
import random
import re
import shutil
import subprocess
import sys
import tempfile
from pathlib import Path

sys.path.insert(0, str(Path(__file__).resolve().parents[1]))
from helpers import ORACLE, samples, stop, use

use(ORACLE)
import gitfates
import gitfetch
import gitlists
import gitremotes
import remotecalls
import remotevalues

MOST_STEPS = 4
NOT_SO = "not so"
TEXT = r'("(?:[^"\\]|\\.)*"|\S+)'
ADD = re.compile(rf"[Aa]dd a spec such as {TEXT}\.$")
LEAVE_OUT = re.compile(rf"^Leave out {TEXT}(?:, and add .*|, or let it exclude less\.|\.(?: The remote has {TEXT}\.)?)$")
FULL_NAME = re.compile(rf"^Give the full name of the merged ref, such as {TEXT}: Git compares names as they are written\.$")
NEARER = re.compile(rf"^It has {TEXT}\.$")
RIVAL = re.compile(rf"(?:written from|what is written from) {TEXT} too by ")
BELOW_REFS = "Write a destination below refs/."
IN_CONFLICT = "Exclude the other source, or give one of the specs another destination."
TWO_SOURCES = re.compile(rf"^{TEXT} is written from {TEXT} and {TEXT}: exclude one of these, or give one of the specs another destination\.$")
LIST = "List what it has by `git ls-remote`."
# What can't be done to a value: there is no such name, or it is for the remote to do.
NOTHING_TO_DO = ("Give the name of a ref: this is none.", "Give the ref another name on the remote.")
# The word of the call, the values, the refs of the remote, and the name that is asked about.
Situation = collections.namedtuple("Situation", "word values refs name")


def unquoted(text):
    """A text of a message."""
    return (text[1:-1].replace('\\"', '"') if text.startswith('"') else text).encode()


class Advice:
    """A program whose advice is taken, and repositories."""

    def __init__(self, program, folder):
        self.program = os.path.abspath(program)
        self.remotes = gitremotes.Remotes(os.path.join(folder, "remotes"))
        self.fates = gitfates.Fates(os.path.join(folder, "fates"))

    def objects(self, *words, text=b""):
        made = subprocess.run([self.program, words[0], "--json", *words[1:]], input=text, capture_output=True, check=False)
        return [json.loads(line) for line in made.stdout.splitlines()]

    def asked(self, situation):
        """What the program says: an object for each spec, and the one that there is something to do."""
        if situation.word == "upstream":
            found = self.objects("upstream", "--merge", situation.name, "--", *situation.values)
        else:
            listed = b"".join(b"%s %s\n" % (b"1" * 40, name) for name in situation.refs)
            found = self.objects("why", "--ref", situation.name, "--refs", "-", "--", *situation.values, text=listed)
        return found, next((one for one in found if one["kind"] in ("no_upstream", "not_fetched")), None)

    def without(self, values, text):
        """The values without those of a canonical text."""
        canonical = [one["canonical"].encode() for one in self.objects("canon", "--", *values)]
        return [value for value, one in zip(values, canonical) if one != text]

    def ways(self, situation, found, advice):
        """The situations after the advice, by each way out."""
        values = situation.values
        for pattern, changed in ((FULL_NAME, "name"), (NEARER, "name")):
            if pattern.match(advice):
                return [situation._replace(**{changed: unquoted(pattern.match(advice)[1])})]
        if LEAVE_OUT.match(advice) or ADD.search(advice):
            if LEAVE_OUT.match(advice):
                values = self.without(values, unquoted(LEAVE_OUT.match(advice)[1]))
            if ADD.search(advice):
                values = [*values, unquoted(ADD.search(advice)[1])]
            return [situation._replace(values=values)]
        if advice == BELOW_REFS:
            return [situation._replace(values=[self.redirected(one, found, "invalid_destination") for one in values])]
        if advice == IN_CONFLICT:
            kinds = ("conflict", "directory_conflict")
            rivals = [RIVAL.search(one["message"]) for one in found if one.get("fate") in kinds]
            excluding = [b"^" + unquoted(one[1]) for one in rivals if one]
            excluded = [*values, *dict.fromkeys(excluding)]
            return [situation._replace(values=excluded)] * bool(excluding) + [
                situation._replace(values=[self.redirected(one, found, *kinds) for one in values])]
        if TWO_SOURCES.match(advice):
            sources = map(unquoted, TWO_SOURCES.match(advice).groups()[1:])
            return [situation._replace(values=[*values, b"^" + source]) for source in sources if source != situation.name]
        stop(f"{situation}: {advice!r} isn't known")

    def redirected(self, value, found, *fates):
        """The value with a destination of its own below refs/, if the program says such a fate of it."""
        canonical, = [one["canonical"] for one in self.objects("canon", "--", value)]
        if not any(one.get("fate") in fates and one["spec"] == canonical for one in found):
            return value
        source, _, far = canonical.encode().rpartition(b":")
        return source + b":refs/other/" + (b"*" if b"*" in far else b"ref")

    def listed(self, situation):
        """What `git ls-remote` shows where the remote is said to lack the ref."""
        remote, _ = self.fates.remote(tuple(situation.refs))
        lines = self.fates.store.done(remote, "ls-remote", remote).splitlines()
        is_there = situation.name in [line.partition(b"\t")[2] for line in lines]
        return f"{NOT_SO}: {situation}" if is_there else "to a list without the ref"

    def outcome(self, situation):
        """What Git says of the situation: that there is an upstream, or that the ref is fetched."""
        if situation.word == "upstream":
            found = self.remotes.upstreams(situation.values, [situation.name])[0]
            if found and not gitremotes.can_be_there(found):
                return "to an upstream that no ref can be"
            # An empty source is HEAD for the program, and not for Git.
            side = None if found else remotecalls.empty_side_of(situation.values, situation.name)
            if side == "an empty source":
                return f"to nothing, as Git takes {side} otherwise"
            return "to an upstream" if found else f"{NOT_SO}: {situation}"
        names, values = tuple(situation.refs), tuple(situation.values)
        _, heads, failure = self.fates.fetched(names, values)
        if failure and failure[0] != "nested":
            return f"to a fetch that something else stops ({failure[0]})"
        return "to a fetch of the ref" if self.fates.remote(names)[1].get(situation.name) in heads else f"{NOT_SO}: {situation}"

    def taken(self, situation, steps=0):
        """What comes of the advice, by each way: how many steps it takes, or what there is left to say."""
        found, lack = self.asked(situation)
        if lack is None:
            return [f"in {steps} step{'s' * (steps > 1)} {self.outcome(situation)}"]
        if lack["advice"] in NOTHING_TO_DO:
            return ["with nothing to do"]
        if lack["advice"] == LIST:
            return [self.listed(situation)]
        if steps == MOST_STEPS:
            return [f"{NOT_SO} after {steps} steps: {situation}: {lack['advice']}"]
        return [it for way in self.ways(situation, found, lack["advice"]) for it in self.taken(way, steps + 1)]


def of_runs():
    """The situations of refspec.sample."""
    with open(samples.FOLDER / "refspec.sample", "rb") as file:
        blocks = file.read().split(b"\n\n")
    for block in blocks:
        lines = [line for line in block.split(b"\n") if not line.startswith(b"#")]
        words = [b"" if word == b'""' else gitfetch.plain(word) for word in lines[0][1:].split()] if lines else []
        if words[:1] not in ([b"upstream"], [b"why"]):
            continue
        option = b"--merge" if words[0] == b"upstream" else b"--ref"
        names = [following for word, following in zip(words, words[1:]) if word == option]
        values = [word for before, word in zip(words, words[1:])
                  if not word.startswith(b"-") and before not in (b"--merge", b"--ref", b"--refs")]
        given, listed = ([line[2:] for line in lines if line.startswith(mark)] for mark in (b"<", b"|"))
        refs = [line.rpartition(b" ")[2] for line in ([*listed, *given] if b"--refs" in words else [])]
        for name in names:
            yield Situation(words[0].decode(), values or given, refs or names, name)


def of_cases(word, cases):
    """The situations of cases, by the lines of each."""
    for given in cases:
        for name in remotecalls.texts_of(given, b"merge" if word == "upstream" else b"name"):
            yield Situation(word, remotecalls.values_of(given), remotecalls.texts_of(given, b"ref"), name)


def generated(call, options):
    """The lines of so many cases."""
    made = (call.made(random.Random(f"{options.seed} {call.word} {number}")) for number in range(options.cases))
    return filter(None, made)


def situations(options):
    """The situations that a repository can have."""
    stored = gitfetch.stored_lists(samples.FOLDER / "remotes.sample")
    found = list(of_runs())
    for call in (remotecalls.Upstreams, remotecalls.Fates):
        found += of_cases(call.word, [one.given for one in stored if one.command == call.word])
        found += of_cases(call.word, generated(call, options))
    return list({repr(one): one for one in found if one.word == "upstream" or can_be_there(one.refs)}.values())


def can_be_there(refs):
    """Whether a remote can have refs of these names."""
    return all(map(remotevalues.is_name, refs)) and gitlists.apart(refs) == refs


def outcomes(advice, situation):
    """What comes of taking the advice in a situation; nothing if there is none. Values without their sources are left out."""
    if situation.word == "why":
        values = advice.fates.complete(tuple(situation.refs), tuple(situation.values))
        situation = situation._replace(values=list(values or []))
    found, lack = advice.asked(situation)
    if lack is None or any(one["kind"] == "refused" for one in found):
        return []
    return advice.taken(situation)


def main():
    parser = argparse.ArgumentParser(description=__doc__, formatter_class=argparse.RawDescriptionHelpFormatter)
    parser.add_argument("program")
    parser.add_argument("--cases", type=int, default=0, help="how many situations are made for each of the two")
    parser.add_argument("--seed", type=int, default=1)
    options = parser.parse_args()
    if shutil.which("git") is None:
        print("git-advice: left out, as there is no git on the PATH")
        return
    with tempfile.TemporaryDirectory() as folder, concurrent.futures.ThreadPoolExecutor() as pool:
        advice, mine = Advice(options.program, folder), situations(options)
        found = [it for one in pool.map(lambda one: outcomes(advice, one), mine) for it in one]
    counts = collections.Counter(found)
    wrong = [it for it in found if NOT_SO in it]
    if wrong:
        stop("\n".join(["", *wrong]))
    print(f"git-advice: {len(found)} ways out of {len(mine)} situations: "
          + ", ".join(f"{count} {text}" for text, count in sorted(counts.items())))


if __name__ == "__main__":
    main()
