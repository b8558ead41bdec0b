#!/usr/bin/env python3
"""Compares git with `git refspec plan` and `git refspec stale` in whole situations: compare-situations.py REFSPEC

A situation is the repositories, their refs and settings, and the words of a fetch, as people have them; each is made from the
seed and its number. What `git fetch` writes there, into refs and FETCH_HEAD, has to be what the plan says, and so has its
failure; what `git fetch --prune` deletes has to be what `stale` lists. What a plan leaves to Git, and where else Git is known to
differ, a rule of gitleft.py tells from the situation. Any other difference is shown, made smaller, and is a failure.

With --record FILE it puts the answers into situations.sample, the situations that tests/refspec/git_plans.py tries, to be read before
they are committed. With --try FILE it tries the situation whose lines are in the file, or on the standard input for `-`.
"""
import argparse
import collections
import concurrent.futures
import json
import os
import shutil
import subprocess
import sys
import tempfile

sys.dont_write_bytecode = True
import gitfetch  # beside this script, as the next two
import gitleft
import trials

SAMPLE_HEAD = """\
# Situations and fetches in them, separated by empty lines, as tools/oracle/repositories.py describes them after `< `. Each
# begins with the command after `= `, and the kinds of tools/oracle/gitleft.py by which a fetch differs. After `> ` is what
# `git refspec` says: its status, and of each object the kind and other members, split by tabs. To add one, write its lines, and
# have tools/oracle/compare-situations.py REFSPEC --record FILE put its answer behind them. Made with {git}.
"""


def shown(result, program, seed):
    """A situation, what was said and done, and the command that repeats it."""
    rows = [json.dumps(row, ensure_ascii=False) for row in result.said.rows]
    repeat = f"{program} --only {result.command} --seed {seed} --first {result.number} --cases 1"
    return "\n".join([
        f"unknown: compare-situations.py {repeat}; its lines:",
        *("    " + line for line in result.lines), f"  git refspec {result.command}, status {result.said.status}:",
        *("    " + line for line in [*rows, *result.said.messages.splitlines()]), f"  git fetch, status {result.done.status}:",
        *("    " + line for line in result.done.said.splitlines()), f"    {result.done.refs} {result.done.heads}"])


def report(command, results):
    alike, known = sum(result.kinds == [] for result in results), sum(bool(result.kinds) for result in results)
    failed = sum(result.done.status not in (0, 1) for result in results)
    changed = sum(bool(result.done.refs) for result in results)
    print(f"compare-situations: {len(results)} for {command}: {alike} as said, {known} differ in known ways; git wrote or deleted"
          f" refs in {changed}, and failed in {failed}")
    times = collections.Counter(kind.text for result in results for kind in result.kinds or [])
    for text, count in times.most_common():
        print(f"compare-situations: {count} times {text}")


def record(comparison, path, git):
    """Puts the answers into a sample: of the smallest situation of each kind, and of the others that it has."""
    wanted = dict.fromkeys((kind.command, kind.lines) for kind in gitleft.KINDS)
    for stored in gitfetch.stored_lists(path):
        wanted[stored.command, tuple(line.decode() for line in stored.given)] = None
    lists = []
    for command, lines in wanted:
        result = comparison.result(list(lines), command)
        if result.kinds is None:
            sys.exit(shown(result, comparison.program, 0))
        lists.append(gitfetch.Stored(None, command, ", ".join(kind.text for kind in result.kinds), [line.encode() for line in lines],
                                     [line.encode() for line in trials.answer_of(result.said)], []))
    gitfetch.store_lists(path, SAMPLE_HEAD.format(git=git), lists)
    print(f"compare-situations: {len(lists)} situations, in {path}")


def compare(options, comparison):
    """Gives the number of unknown differences."""
    unknown = 0
    with concurrent.futures.ThreadPoolExecutor(options.jobs) as pool:
        for command, cases in (("plan", options.cases), ("stale", options.cases if options.stale is None else options.stale)):
            if options.only not in (None, command):
                continue
            numbers = range(options.first, options.first + cases)
            results = list(pool.map(lambda number: comparison.of_number(command, options.seed, number), numbers))
            report(command, results)
            mine = sorted((result for result in results if result.kinds is None), key=lambda result: len(result.lines))
            for result in mine[:options.shown]:
                print(shown(comparison.shrunk(result), options.program, options.seed), flush=True)
            unknown += len(mine)
    return unknown


def check_kinds(comparison):
    """Each kind has to be what its smallest situation differs by."""
    for kind in gitleft.KINDS:
        made = comparison.result(list(kind.lines), kind.command)
        if made.kinds != [kind]:
            sys.exit(f"compare-situations: doesn't differ just as {kind.text!r} says: {shown(made, comparison.program, 0)}")


def main():
    parser = argparse.ArgumentParser(description=__doc__, formatter_class=argparse.RawDescriptionHelpFormatter)
    parser.add_argument("program")
    parser.add_argument("--cases", type=int, default=500, help="how many situations are made for each of the two")
    parser.add_argument("--stale", type=int, help="how many of them for stale refs, if other")
    parser.add_argument("--only", choices=["plan", "stale"], help="leave out the other")
    parser.add_argument("--seed", type=int, default=1)
    parser.add_argument("--first", type=int, default=0, help="the number of the first situation")
    parser.add_argument("--jobs", type=int, default=2)
    parser.add_argument("--shown", type=int, default=1, help="how many unknown differences are shown")
    parser.add_argument("--record", metavar="FILE")
    parser.add_argument("--try", dest="tried", metavar="FILE")
    options = parser.parse_args()
    git = subprocess.run(["git", "version"], stdout=subprocess.PIPE, check=True).stdout.decode().strip()
    print(f"compare-situations: {git}, seed {options.seed}", flush=True)
    folder = tempfile.mkdtemp(dir="/dev/shm" if os.path.isdir("/dev/shm") else None)
    try:
        comparison = trials.Trials(folder, os.path.abspath(options.program))
        if options.tried:
            with open(0 if options.tried == "-" else options.tried, encoding="utf-8") as file:
                result = comparison.result(file.read().splitlines(), options.only or "plan")
            print(shown(result, options.program, options.seed) if result.kinds is None else [kind.text for kind in result.kinds])
            sys.exit(result.kinds is None)
        if options.record:
            sys.exit(record(comparison, options.record, git))
        check_kinds(comparison)
        unknown = compare(options, comparison)
    finally:
        shutil.rmtree(folder)
    if unknown:
        sys.exit(f"compare-situations: {unknown} unknown differences")


if __name__ == "__main__":
    main()
