#!/usr/bin/env python3
"""Tries the advice of `git refspec check` by taking it: compare-advice.py REFSPEC

For generated configurations of a remote, each piece of advice in the JSON output is carried out in a copy. Then `git fetch
--prune`, `git fetch` of single refs and what `git pull` would merge are compared between both, on remotes that differ: with all
refs that are spoken of, with one of them gone, with a tag more, and with the refs of the warning. Where a value is removed,
nothing may change; where one is added or written in another way, only what it announces. The example of two values in conflict
has to be so too: Git writes nothing, or one of both refs.
"""
import argparse
import collections
import concurrent.futures
import os
import shutil
import subprocess
import sys
import tempfile

sys.dont_write_bytecode = True
import advice  # beside this script


def shown(number, config, piece, found, options):
    """A piece of advice that changes more than it says, and the command that repeats it."""
    head = [f"compare-advice.py {options.program} --seed {options.seed} --first {number} --cases 1",
            f"    values {' '.join(config.values)}; settings {' '.join(config.settings) or 'none'}",
            f"    {piece.warning['name']}: {piece.warning['message']} {piece.warning['advice']}",
            f"    after it: {' '.join(piece.config.values)}; {' '.join(piece.config.settings) or 'none'}"]
    if isinstance(found, list):
        return "\n".join([*head, f"    git refspec check then says {found}"])
    refs, words, before, after = found
    return "\n".join([
        *head,
        f"    git fetch {' '.join(words)} from {' '.join(refs)}: status {before.status} {before.said}, then {after.status}"
        f" {after.said}; other refs: {' '.join(sorted(advice.changed(before, after))) or 'none'}; FETCH_HEAD has"
        f" {len(before.heads)} and {len(after.heads)} ids, {count_merged(before)} and {count_merged(after)} to be merged"])


def count_merged(done):
    return sum(is_merged for _, is_merged in done.heads)


def main():
    parser = argparse.ArgumentParser(description=__doc__, formatter_class=argparse.RawDescriptionHelpFormatter)
    parser.add_argument("program")
    parser.add_argument("--cases", type=int, default=300)
    parser.add_argument("--seed", type=int, default=1)
    parser.add_argument("--first", type=int, default=0)
    parser.add_argument("--jobs", type=int, default=2)
    parser.add_argument("--shown", type=int, default=1, help="how many of each warning are shown whose advice changes more")
    options = parser.parse_args()
    git = subprocess.run(["git", "version"], stdout=subprocess.PIPE, check=True).stdout.decode().strip()
    print(f"compare-advice: {git}, seed {options.seed}", flush=True)
    folder = tempfile.mkdtemp(dir="/dev/shm" if os.path.isdir("/dev/shm") else None)
    warned, taken, wrong = collections.Counter(), collections.Counter(), collections.defaultdict(list)
    try:
        advised = advice.Advised(folder, os.path.abspath(options.program))
        with concurrent.futures.ThreadPoolExecutor(options.jobs) as pool:
            numbers = range(options.first, options.first + options.cases)
            tried = pool.map(lambda number: advised.of_number(options.seed, number), numbers)
            for number, config, warnings, pieces, found in tried:
                warned.update(warning["name"] for warning in warnings)
                taken.update(piece.warning["name"] for piece in pieces)
                for piece, difference in found:
                    wrong[piece.warning["name"]].append((number, config, piece, difference))
    finally:
        shutil.rmtree(folder)
    for name in sorted(warned):
        print(f"compare-advice: {warned[name]} times {name}: {taken[name]} pieces of advice taken, {len(wrong[name])} otherwise")
        for one in sorted(wrong[name], key=lambda one: len(one[1].values))[:options.shown]:
            print(shown(*one, options))
    if any(wrong.values()):
        sys.exit("compare-advice: advice that changes more than it announces")


if __name__ == "__main__":
    main()
