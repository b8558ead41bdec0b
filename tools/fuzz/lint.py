#!/usr/bin/env python3
"""Looks for specs that `refspec check` passes and that still conflict:

    tools/fuzz/lint.py REFSPEC [--groups N] [--seed S] [--jobs J] [--library FILE]

Of each group of fetch specs, `refspec check` tells which two can conflict, or can be in a directory conflict. Where it tells
of none, no plan of the library may have such a conflict, over names that the specs match; one of two refs that one spec writes
is left out of directory conflicts. Groups with a refused spec are counted. Prints its seed, and ends at the first group that
conflicts. A third of the groups is random; a third is what people set up, or close to it; and a third is changed from these and
from the groups of tests/samples/lint.sample, as a fuzzer does.
"""
import argparse
import collections
import importlib
import json
import multiprocessing
import os
import random
import sys

sys.dont_write_bytecode = True
HERE = os.path.dirname(os.path.abspath(__file__))
TOP = os.path.join(HERE, os.pardir, os.pardir)
SAMPLE = os.path.join(TOP, "tests", "samples", "lint.sample")
sys.path[:0] = [os.path.join(TOP, "tools", "oracle"), os.path.join(TOP, "bindings", "python")]
import gitfetch
import groups
import original
import remotevalues
import specs
from processes import Failed, Program

# So many groups are checked in one process, and planned over so many lists of names.
SHARE, LISTS = 25, 6
SECONDS = 3600
KINDS = {"possible_conflict": "CONTESTED", "directory_conflict": "DIRECTORY_CONFLICT"}


def random_group(random_):
    """Specs of a few kinds."""
    ids, found = [groups.an_id(random_)], []
    for _ in range(random_.randint(2, 6)):
        found.append(groups.spec(random_, ids, found))
    return found


def with_destination_of(text, other):
    """A spec that stores where another one does."""
    source, colon, _ = text.partition(b":")
    return source + colon + other.rpartition(b":")[2] if colon else text


def changed_group(random_, texts):
    """A group with a few changes."""
    texts = list(texts)
    for _ in range(random_.randint(1, 3)):
        at, other, kind = random_.randrange(len(texts)), random_.choice(texts), random_.randrange(6)
        if kind == 0:
            texts[at] = specs.changed(random_, texts[at], 1)
        elif kind == 1:
            texts[at] = with_destination_of(texts[at], other)
        elif kind == 2:
            texts.insert(at, b"^" + remotevalues.source_of(other))
        elif kind == 3:
            texts.insert(at, random_.choice([other, remotevalues.spec(random_)]))
        elif kind == 4:
            texts[at] = texts[at].replace(b"*", b"*" + random_.choice(groups.LEAVES), random_.randint(1, 2))
        elif len(texts) > 1:
            del texts[at]
    return texts


def group_of(random_, stored):
    """A group without empty texts, and without the bytes that end a setting."""
    kind = random_.randrange(3)
    if kind == 0:
        found = random_group(random_)
    else:
        found = list(filter(None, remotevalues.set_up(random_))) or [b"main"]
    if kind == 2:
        found = changed_group(random_, found if random_.random() < 0.5 else random_.choice(stored))
    return list(filter(None, (text.translate(None, b"\n\0") for text in found)))


def source_with(text, word):
    """The full name of a source with this word for its star."""
    name = groups.sides(text)[0].replace(b"*", word)
    return name if name.startswith(b"refs/") else b"refs/heads/" + name


def names_of(random_, texts):
    """Names that a remote can have at once, which the specs match for the most part, often with one word."""
    names, word = [], random_.choice(groups.LEAVES)
    alike = [source_with(text, word) for text in texts]
    for _ in range(random_.randint(2, 8)):
        name = random_.choice(alike) if random_.random() < 0.4 else groups.name(random_, texts, names)
        if not any(one == name or one.startswith(name + b"/") or name.startswith(one + b"/") for one in names):
            names.append(name)
    return names


class Lint:
    def __init__(self, options):
        os.environ["GIX_REFSPEC_LIBRARY"] = options.library
        self.options, self.program = options, Program(options.program, SECONDS)
        self.module = importlib.import_module("gix_refspec")
        self.stored = [one.given for one in gitfetch.stored_lists(SAMPLE)]

    def told(self, lists, number):
        """Of each group the kinds of its warnings, or None if one of its specs is refused."""
        entries = b"".join(b"file:c\0remote.r%d.fetch\n%s\0" % (at, text) for at, texts in enumerate(lists) for text in texts)
        made = self.program.run("check --config --json", entries, number)
        if made.status not in (0, 1):
            raise Failed(number, "check", entries, f"status {made.status}: {made.messages[:200]!r}")
        told = [set() for _ in lists]
        for one in map(json.loads, made.output.splitlines()):
            at = int(one["place"].removeprefix("file:c: remote.r").partition(".")[0])
            told[at] = None if one["kind"] == "refused" or told[at] is None else told[at] | {one.get("name")}
        return told

    def conflicts(self, texts, names):
        """The kinds of conflicts in the plan of a fetch."""
        verdicts, updates = self.module.Verdict, self.module.plan([], names, configured=texts).updates
        found = {kind for kind, name in KINDS.items() if any(one.verdict == verdicts[name] for one in updates)}
        nested = [one for one in updates if one.verdict == verdicts.DIRECTORY_CONFLICT]
        if "directory_conflict" in found and all(
                one.origin == other.origin for one in nested for other in nested
                if other.destination.startswith(one.destination + b"/")):
            found.remove("directory_conflict")
        return found

    def share(self, number):
        counts, random_ = collections.Counter(), random.Random(f"{self.options.seed} {number}")
        lists = [group_of(random_, self.stored) for _ in range(SHARE)]
        try:
            told = self.told(lists, number)
        except Failed as failed:
            return counts, f"groups from {number * SHARE} on: {failed.args[3]}"
        for texts, kinds in zip(lists, told):
            if kinds is None:
                counts["groups with a refused spec"] += 1
                continue
            counts["groups"] += 1
            counts["groups without such a warning"] += not kinds & set(KINDS)
            for _ in range(LISTS):
                names = names_of(random_, texts)
                found = self.conflicts(texts, names)
                counts["plans with a conflict"] += bool(found)
                if found - kinds:
                    return counts, f"{texts} over {names}: {sorted(found - kinds)}, and check warns of {sorted(kinds)}"
        return counts, None


def begin(options):
    global LINT
    LINT = Lint(options)


def share(number):
    return LINT.share(number)


def main():
    parser = argparse.ArgumentParser(description=__doc__, formatter_class=argparse.RawDescriptionHelpFormatter)
    parser.add_argument("program", metavar="REFSPEC")
    parser.add_argument("--groups", type=int, default=2_000, metavar="N")
    parser.add_argument("--seed", type=int, default=1, metavar="S")
    parser.add_argument("--jobs", type=int, default=os.cpu_count(), metavar="J")
    parser.add_argument("--library", default=os.path.join(TOP, "out", "lib", "libgix_refspec.so"), metavar="FILE")
    options = parser.parse_args()
    options.program, options.library = os.path.abspath(options.program), os.path.abspath(options.library)
    original.need("lint", options.program)
    total = collections.Counter()
    with multiprocessing.Pool(options.jobs, begin, [options]) as pool:
        for counts, failure in pool.imap(share, range(-(-options.groups // SHARE))):
            total += counts
            if failure:
                sys.exit(f"lint: seed {options.seed}: {failure}")
    print(f"lint: seed {options.seed}: " + ", ".join(f"{count} {what}" for what, count in sorted(total.items())))


if __name__ == "__main__":
    main()
