#!/usr/bin/env python3
"""Gives the stored cases of git-plans.sample and situations.sample to git and to the program refspec:
tests/refspec/git_plans.py REFSPEC

The program, and `git refspec` in a situation, has to answer what is stored: what a fetch writes, or which local refs a pruning
fetch deletes. Git has to do so. Where it is known to do otherwise, it may also do what is stored, or differ by the kinds that are
stored. Without a git on the PATH nothing is compared.
"""
import collections
import os
import shutil
import sys
import tempfile
from concurrent.futures import ThreadPoolExecutor
from pathlib import Path

sys.path.insert(0, str(Path(__file__).resolve().parents[1]))
from helpers import ORACLE, paths, samples, stop, use

use(ORACLE)
import gitfetch
import gitplans
import trials

SAMPLE, SITUATIONS = [samples.FOLDER / f"{name}.sample" for name in ("git-plans", "situations")]


def fail(stored, what, sample=SAMPLE):
    stop(f"the case at line {stored.number} of {sample.name}: {what}")


def case_of(store, stored):
    """The case that is stored; the objects of its refs are then in the store."""
    lines = collections.defaultdict(list)
    for word, text in (line.partition(b" ")[::2] for line in stored.given):
        lines[word].append(text)
    refmap = [one for one in lines[b"refmap"] if one] if b"refmap" in lines else None
    wish = gitplans.Wish(lines[b"given"], lines[b"configured"], refmap, lines[b"merge"], b"tags" in lines)
    tagged = [text.split(b" ")[-1] for text in lines[b"tag"]]
    refs = store.refs([text.split(b" ")[-1] for text in lines[b"ref"]] + tagged, tagged)
    case = gitplans.Case(stored.command, wish, refs, store.refs(lines[b"local"]))
    if gitplans.lines_of(case) != stored.given:
        fail(stored, f"git has other ids, or the lines another order: {gitplans.lines_of(case)}")
    return case


def check(store, program, stored):
    """Whether git does what the program answers."""
    case = case_of(store, stored)
    lines = gitplans.answered(program, case)
    if lines != stored.answer:
        fail(stored, f"{lines}, not {stored.answer}")
    remote = store.remote(case.refs)
    if stored.command == "plan":
        fetched = gitplans.fetch(store, remote, case.wish)
        done = gitplans.fetched_lines(fetched)
        alike = gitplans.is_as_planned(fetched, gitplans.read_plan(lines, gitplans.applied(case.wish), case.refs))
    else:
        deleted, failure = gitplans.prune(store, remote, case.wish, case.local)
        done = gitplans.pruned_lines(deleted, failure)
        alike = deleted == gitplans.stale_names(lines)
    if not alike and (not stored.kinds or done != stored.done):
        fail(stored, f"git did {done}, not what {stored.command} says, {lines}, nor what is stored, {stored.done}")
    return stored.command if alike else "known"


def check_situation(tried, stored):
    """Whether git does in a situation what `git refspec` says."""
    result = tried.result([line.decode() for line in stored.given], stored.command)
    answer = [line.encode() for line in trials.answer_of(result.said)]
    if answer != stored.answer:
        fail(stored, f"{answer}, not {stored.answer}", SITUATIONS)
    kinds = None if result.kinds is None else [kind.text for kind in result.kinds]
    if kinds is None or not set(kinds) <= set(stored.kinds.split(", ")):
        fail(stored, f"git did {result.done}, which differs by {kinds}, not {stored.kinds!r}", SITUATIONS)
    return "situation, otherwise" if kinds else "situation"


def main():
    program = paths(__doc__, "refspec")
    if shutil.which("git") is None:
        print("git-plans: left out, as there is no git on the PATH")
        return
    lists = gitfetch.stored_lists(SAMPLE)
    with tempfile.TemporaryDirectory() as folder, ThreadPoolExecutor(os.cpu_count()) as pool:
        store = gitfetch.Store(folder)
        counts = collections.Counter(pool.map(lambda stored: check(store, program, stored), lists))
        tried = trials.Trials(folder, program)
        counts.update(pool.map(lambda stored: check_situation(tried, stored), gitfetch.stored_lists(SITUATIONS)))
    if not (counts["plan"] and counts["stale"]):
        stop("git-plans.sample has no fetch that git does as is answered, or no pruning fetch")
    print(f"git-plans: {len(lists)} stored cases: {counts['plan']} fetched by git as refspec plan says, {counts['stale']} pruned"
          f" as refspec stale says, and {counts['known']} otherwise in known ways; in {counts['situation']} situations"
          f" git does as git refspec says, and in {counts['situation, otherwise']} otherwise in known ways")


if __name__ == "__main__":
    main()
