#!/usr/bin/env python3
"""Makes the tables of conformance/ anew: tools/conformance/make.py REFSPEC_MAP REFSPEC [KIND..]

The cases are chosen from examples.py and pools.py, so that each has a border of its own by borders.py, and answered by the reference.
Git is asked as gitanswers.py has it; where it differs and no rule says why, the table stays as it is. Read what changes before you
commit it.
"""
import collections
import os
import sys
from concurrent.futures import ThreadPoolExecutor

sys.dont_write_bytecode = True
import borders  # beside this script, as the next three
import examples
import gitanswers
import pools
import tables


def smallest(kind, watched):
    """Of the cases with the same borders the smallest one, with its answer; the smallest of all first."""
    found = {}
    for given in examples.CASES.get(kind, []) + pools.POOLS[kind]():
        answer, decisions = watched.decisions(kind, given)
        cells = tables.given_cells(kind, given)
        key = decisions, frozenset(borders.classes(kind, given, answer))
        size = not gitanswers.can_be_asked(kind, given), sum(map(len, cells)), cells
        if key not in found or size < found[key][0]:
            found[key] = size, given, answer
    for (decisions, more), (_, given, answer) in sorted(found.items(), key=lambda one: one[1][0]):
        yield borders.sets_of(kind, decisions) | more, given, answer


def chosen(kind, watched):
    """The smallest cases that have a new border each, without those all of whose borders others have."""
    seen, taken = set(), []
    for mine, given, answer in smallest(kind, watched):
        if not mine <= seen:
            seen |= mine
            taken.append((mine, given, answer))
    counts = collections.Counter(one for mine, *_ in taken for one in mine)
    kept = []
    for mine, given, answer in reversed(taken):
        if any(counts[one] == 1 for one in mine):
            kept.append((given, answer))
        else:
            counts.subtract(mine)
    return kept


def make(kind, git, watched):
    cases = chosen(kind, watched)
    asked = [("-", "-")] * len(cases)
    if tables.KINDS[kind].has_git:
        with ThreadPoolExecutor(2) as pool:
            asked = list(pool.map(lambda case: git.answer(kind, *case), cases))
    unknown = [(given, done) for (given, _), (done, rule) in zip(cases, asked) if rule is None]
    for given, done in unknown[:20]:
        print(f"make: {kind}: no rule for {done}: {tables.given_cells(kind, given)}")
    if not unknown:
        made = [tables.Case(given, answer, *done) for (given, answer), done in zip(cases, asked)]
        with open(tables.path_of(kind), "w", encoding="ascii") as file:
            file.writelines(line + "\n" for line in tables.lines_of(kind, git.version, made))
    rules = collections.Counter(rule for _, rule in asked)
    print(f"make: {kind}: {len(cases)} cases; rules: {dict(rules)}", flush=True)
    return len(unknown)


def main():
    if len(sys.argv) < 3 or not set(sys.argv[3:]) <= set(tables.KINDS):
        sys.exit(__doc__)
    watched = borders.Watched()
    with gitanswers.opened(*map(os.path.abspath, sys.argv[1:3])) as git:
        unknown = sum(make(kind, git, watched) for kind in sys.argv[3:] or tables.KINDS)
    sys.exit(int(unknown > 0))


if __name__ == "__main__":
    main()
