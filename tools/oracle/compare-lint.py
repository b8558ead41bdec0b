#!/usr/bin/env python3
"""Compares what `refspec check` warns of with brute force:

    tools/oracle/compare-lint.py REFSPEC [--groups N] [--seed S] [--samples FOLDER]

For random groups of fetch specs it takes the warnings on conflicts, directory conflicts and idle specs from the JSON of the
program. Brute force, of lint.py, tries all lists of one and two refs over a small alphabet. No conflict may be missed, each
example has to show its conflict, and exactly the specs that never do anything have to be called idle, each for its reason. Negative specs that
exclude nothing have no such warning if they may exclude a tag, or have the warning that they exclude no branch. Prints
counts by kind.

With --samples FOLDER it writes lint.sample for tests/refspec/lint.py: the shortest group of each class, by its warnings and its kinds
of sides, and others.
"""
import argparse
import collections
import concurrent.futures
import os
import random
import sys

import gitfetch
import lint
import warned

STORED = 300
DIGITS = str.maketrans("", "", "0123456789")
SAMPLE_HEAD = """\
# Groups of fetch specs, separated by empty lines. After `< ` are the specs; after `> ` what `refspec check` warns of: two specs
# that can conflict; two of which the second can write in a directory of the first one's name; an idle spec and its reason; or a
# negative spec that excludes nothing. Specs are counted from 1. Made by
#   tools/oracle/compare-lint.py REFSPEC --groups {options.groups} --seed {options.seed} --samples FOLDER
"""

def source_of(text):
    return ("id" if lint.is_id(text) else "name", text)


def is_example(group, first, second, example):
    """Whether both specs map one of the two sources to the destination, and both mappings are kept."""
    one, other, destination = example
    sources = [source_of(one), source_of(other)]
    refs = [source for kind, source in sources if kind == "name"]
    kept = {(mapping[1], mapping[2]) for mapping in lint.kept(group, refs)}
    made = [lint.makes(group[index], refs) for index in (first, second)]
    return (one != other and all((source, destination) in kept for source in sources)
            and any((a, destination) in made[0] and (b, destination) in made[1] for a, b in (sources, sources[::-1])))


def is_nesting(group, upper, lower, example):
    """Whether the specs map two sources, or the only one, to a directory and to a ref in it, and both mappings are kept."""
    one, other, directory, nested = example
    first, second = (source_of(one), directory), (source_of(other or one), nested)
    refs = list(dict.fromkeys(source for (kind, source), _ in (first, second) if kind == "name"))
    kept = {(mapping[1], mapping[2]) for mapping in lint.kept(group, refs)}
    return (one != other and nested.startswith(directory + "/") and lint.can_stand_together(refs)
            and {first, second} <= kept and lint.sound(first) and lint.sound(second)
            and first in lint.makes(group[upper], refs) and second in lint.makes(group[lower], refs))


def wrong_examples(group, examples, is_shown, counts):
    """The pairs whose example doesn't show what is said of them."""
    wrong = []
    for pair, example in examples.items():
        if example is None:
            counts["examples of another form"] += 1
        elif not is_shown(group, *pair, example):
            wrong.append(("no example", pair, example))
        else:
            counts["examples"] += 1
    return wrong


def differences(program, group):
    """What differs in a group, and counts."""
    counts = collections.Counter()
    found = warned.warned(program, [warned.text_of(spec) for spec in group])
    if found is None:
        counts["groups with a refused spec"] += 1
        return [], counts, None
    (conflicts, idle, idle_negative), nestings = lint.brute(group), lint.brute_nestings(group)
    counts["groups"] += 1
    counts["conflicts"] += len(conflicts)
    counts["directory conflicts"] += len(nestings)
    counts["idle negative specs"] += len(idle_negative)
    for reason in idle.values():
        counts["idle specs: " + reason] += 1
    wrong = wrong_examples(group, found.conflicts, is_example, counts) + wrong_examples(group, found.nestings, is_nesting, counts)
    if set(found.conflicts) != conflicts:
        wrong.append(("conflicts", set(found.conflicts), conflicts))
    if {tuple(sorted(pair)) for pair in found.nestings} != nestings:
        wrong.append(("directory conflicts", set(found.nestings), nestings))
    if found.idle != idle:
        wrong.append(("idle specs", found.idle, idle))
    silent = {index for index in idle_negative if warned.is_silent(found, group, index)}
    if found.idle_negative - idle_negative or idle_negative - silent - found.idle_negative:
        wrong.append(("idle negative specs", found.idle_negative, idle_negative))
    return wrong, counts, warned.lines_of(found)


def class_of(group, lines):
    """The words of the warnings, and the kinds of the specs."""
    return (sorted({line.translate(DIGITS) for line in lines}),
            sorted({("^" if negative else "") + lint.kind(source) + ("" if destination is None else ":" + lint.kind(destination))
                    for negative, source, destination in group}))


def write_sample(results, options):
    """The shortest of each class, or of so many of them, and others beside them."""
    chooser = random.Random(options.seed)
    classes, others = {}, []
    for group, lines in sorted(results, key=lambda result: sum(len(warned.text_of(spec)) for spec in result[0])):
        if classes.setdefault(repr(class_of(group, lines)), (group, lines))[0] is not group:
            others.append((group, lines))
    words = sorted(chooser.sample(sorted(classes), min(STORED * 5 // 6, len(classes))))
    chosen = [classes[word] for word in words]
    chosen += chooser.sample(others, min(STORED - len(chosen), len(others)))
    gitfetch.store_lists(os.path.join(options.samples, "lint.sample"), SAMPLE_HEAD.format(options=options), [
        gitfetch.Stored(None, "lint", "", [warned.text_of(spec).encode() for spec in group], [line.encode() for line in lines], [])
        for group, lines in chosen])


def main():
    parser = argparse.ArgumentParser(description=__doc__, formatter_class=argparse.RawDescriptionHelpFormatter)
    parser.add_argument("program")
    parser.add_argument("--groups", type=int, default=2000)
    parser.add_argument("--seed", type=int, default=1)
    parser.add_argument("--jobs", type=int, default=os.cpu_count())
    parser.add_argument("--samples", help="a folder to write lint.sample into")
    options = parser.parse_args()
    generator = random.Random(options.seed)
    groups = [lint.rnd_group(generator) for _ in range(options.groups)]
    total, failed, results = collections.Counter(), 0, []
    with concurrent.futures.ProcessPoolExecutor(options.jobs) as pool:
        programs = [options.program] * len(groups)
        for group, (wrong, counts, lines) in zip(groups, pool.map(differences, programs, groups, chunksize=50)):
            total += counts
            if lines is not None:
                results.append((group, lines))
            for one in wrong:
                failed += 1
                if failed <= 20:
                    print("compare-lint:", *[warned.text_of(spec) for spec in group], *one)
    for kind, count in sorted(total.items()):
        print(f"compare-lint: {count} {kind}")
    if options.samples and not failed:
        write_sample(results, options)
    sys.exit(1 if failed else 0)


if __name__ == "__main__":
    main()
