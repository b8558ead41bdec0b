#!/usr/bin/env python3
"""Compares `refspec why --local` with the installed Git: tools/oracle/compare-locals.py PROGRAM [--cases N] [--seed N]

A case is some values of a remote and its refs, as those of compare-fates.py; in some of them a value lacks its source. Of each local
ref that a fetch by them writes, of names that differ from these by a byte, and of those that the values make of refs that the
remote has or lacks, the program is to tell that it is written exactly if the fetch writes it, and from a ref with its commit.
Where Git writes one of two refs, of which one is a directory of the other, the program is to tell a conflict.
"""
import argparse
import collections
import importlib
import json
import os
import random
import subprocess
import sys
import tempfile
from concurrent.futures import ThreadPoolExecutor

sys.dont_write_bytecode = True
import gitfates  # beside this script

cases_of_fates = importlib.import_module("compare-fates")
LACKING = [b"refs/heads/nosuch:refs/remotes/o/nosuch", b"nosuch:refs/x/nosuch"]
WORDS = [b"main", b"dev", b"a", b"a/b", b"wip/a", b"7", b"nosuch"]
Told = collections.namedtuple("Told", "status fates")


def case_of(fates, random_):
    """A case; in one of ten some value lacks its source, so that Git fetches nothing."""
    case = cases_of_fates.case_of(fates, random_)
    if case and random_.random() < 0.1:
        return case._replace(texts=(*case.texts, random_.choice(LACKING)))
    return case


def destination_of(text, word):
    """What the destination of a value is for this word; None without one."""
    source, _, far = text.removeprefix(b"+").rpartition(b":")
    if text.startswith(b"^") or not source or not far:
        return None
    return far.replace(b"*", word) if far.startswith(b"refs/") or b"*" in far else b"refs/heads/" + far


def asked(case, written, random_):
    """The local refs that are asked for."""
    near = [name[:-1] + b"_" for name in written] + [name[1:] for name in written]
    made = [destination_of(text, random_.choice(WORDS)) for text in case.texts for _ in range(2)]
    return sorted({*written, *random_.sample(near, min(2, len(near))), *filter(None, made)})


def told(program, case, name):
    """What the program tells of a local ref."""
    refs = b"".join(b"%s %s\n" % (b"1" * 40, one) for one in case.names)
    made = subprocess.run([program, "why", "--json", "--local", name, "--refs", "-", "--", *case.texts], input=refs, capture_output=True,
                          check=False)
    if made.returncode not in (0, 1) or made.stderr:
        sys.exit(f"compare-locals: {case}, {name}: the program ends with {made.returncode}: {made.stderr!r}")
    objects = [json.loads(line) for line in made.stdout.splitlines()]
    return Told(made.returncode, [one for one in objects if one["kind"] == "fate"])


def difference(fates, case, fetched, name, answer):
    """What Git does otherwise with a local ref; None if it does as told."""
    refs, _, failure = fetched
    kinds = {one["fate"] for one in answer.fates if one["destination"] is not None}
    if failure and failure[0] == "nested" and "directory_conflict" in kinds:
        return None
    if (answer.status == 0) != (name in refs):
        return f"git {'writes' if name in refs else 'does not write'} it, {failure}"
    sources = [one["name"].encode() for one in answer.fates if one["fate"] == "fetched"]
    commits = fates.remote(case.names)[1]
    if name in refs and sources and refs[name] not in [commits.get(source) for source in sources]:
        return f"git writes it from another ref than {sources}"
    return None


def compared(program, fates, case, random_):
    """The words that are told of the refs of a case, and what Git does otherwise."""
    fetched = fates.fetched(case.names, case.texts)
    words, found = collections.Counter(), []
    for name in asked(case, fetched[0], random_):
        answer = told(program, case, name)
        words.update(one["fate"] for one in answer.fates)
        words["refs"] += 1
        words["written"] += answer.status == 0
        text = difference(fates, case, fetched, name, answer)
        if text:
            found.append(f"{name} by {case.texts} of {case.names}: {answer}: {text}")
    return words, found


def main():
    parser = argparse.ArgumentParser(description=__doc__, formatter_class=argparse.RawDescriptionHelpFormatter)
    parser.add_argument("program")
    parser.add_argument("--cases", type=int, default=500)
    parser.add_argument("--seed", type=int, default=1)
    parser.add_argument("--jobs", type=int, default=2, help="how many repositories are made at a time")
    parser.add_argument("--shown", type=int, default=5, help="how many differences are shown")
    options = parser.parse_args()
    program = os.path.abspath(options.program)

    def one(number):
        random_ = random.Random(f"{options.seed} {number}")
        case = case_of(fates, random_)
        return compared(program, fates, case, random_) if case else None

    with tempfile.TemporaryDirectory() as folder, ThreadPoolExecutor(options.jobs) as pool:
        fates, made, number = gitfates.Fates(os.path.join(folder, "git")), [], 0
        while len(made) < options.cases:
            made += filter(None, pool.map(one, range(number, number + options.cases)))
            number += options.cases
        made = made[:options.cases]
    words = sum((words for words, _ in made), collections.Counter())
    unknown = [text for _, found in made for text in found]
    for text in unknown[:options.shown]:
        print(f"compare-locals: unknown: {text}")
    print(f"compare-locals: {len(made)} cases, seed {options.seed}; {dict(words)}; {len(unknown)} unknown differences")
    sys.exit(1 if unknown else 0)


if __name__ == "__main__":
    main()
