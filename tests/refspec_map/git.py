#!/usr/bin/env python3
"""Gives the stored lists of git.sample to git and to a program: tests/refspec_map/git.py PROGRAM

The program has to answer what is stored, and git has to fetch or to track what that says. Where git is known to do
otherwise, it may also do what is stored. Without a git on the PATH nothing is compared.
"""
import collections
import shutil
import sys
import tempfile
from pathlib import Path

sys.path.insert(0, str(Path(__file__).resolve().parents[1]))
from helpers import ORACLE, paths, samples, stop, use

use(ORACLE)
import gitfetch

SAMPLE = samples.FOLDER / "git.sample"


def read_given(store, stored):
    """The specs of a list, and its refs, whose objects are then in the store."""
    specs = [line[5:] for line in stored.given if line.startswith(b"spec ")]
    lines = [line for line in stored.given if not line.startswith(b"spec ")]
    names = [line.split(b" ")[-1] for line in lines]
    refs = store.refs(names, [name for name, line in zip(names, lines) if line.startswith(b"tag ")])
    if gitfetch.lines_of([], refs) != lines:
        stop(f"the list at line {stored.number} of git.sample: git has other ids, {refs}")
    return specs, refs


def check_program(program, stored, specs, refs):
    lines = gitfetch.answered(program, stored.command, specs, refs)
    if lines != stored.answer:
        stop(f"the list at line {stored.number} of git.sample: {lines}, not {stored.answer}")


def check_git(store, stored, specs, refs):
    """Whether git does what the answer says."""
    if stored.command == "plan":
        fetched = store.fetched(store.remote(refs), specs)
        done = gitfetch.fetched_lines(fetched)
        alike = gitfetch.is_as_planned(fetched, gitfetch.read_plan(stored.answer, refs))
    else:
        sources = store.tracked(specs, refs)
        done = gitfetch.source_lines(sources, refs)
        alike = sources == gitfetch.first_sources(stored.answer, refs)
    if not alike and (not stored.kinds or done != stored.done):
        stop(f"the list at line {stored.number} of git.sample: git did {done}, which isn't what"
             f" {stored.command} says, {stored.answer}, nor what is stored, {stored.done}")
    return alike


def main():
    program = paths(__doc__, "program")
    if shutil.which("git") is None:
        print("git: left out, as there is no git on the PATH")
        return
    lists = gitfetch.stored_lists(SAMPLE)
    alike = collections.Counter()
    with tempfile.TemporaryDirectory() as folder:
        store = gitfetch.Store(folder)
        for stored in lists:
            specs, refs = read_given(store, stored)
            check_program(program, stored, specs, refs)
            alike[stored.command] += check_git(store, stored, specs, refs)
    if not (alike["plan"] and alike["rhs"]):
        stop("git.sample has no list that git fetches, or none that it tracks, as is answered")
    print(f"git: {len(lists)} stored lists: {alike['plan']} fetched by git as plan says, {alike['rhs']} tracked as"
          f" rhs says, and {len(lists) - alike['plan'] - alike['rhs']} otherwise in known ways")


if __name__ == "__main__":
    main()
