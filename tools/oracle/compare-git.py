#!/usr/bin/env python3
"""Compares git with a program, over lists of fetch specs. What `git fetch` writes into an empty repository, refs
and FETCH_HEAD, has to be what `plan` says of the specs and the refs of the remote. What a branch tracks that
`git branch --track` makes from a local ref has to be the first source that `rhs` gives for this ref. Where git is
known to do otherwise, a rule of gitknown.py has to tell all that it does. Any other difference is a failure.

The lists are generated from a seed, so many for each of the two. They leave out what git refuses only as it
writes refs: a name that is a folder for another, and an annotated tag as a branch. A partial source is fetched with
each set of its candidates too. It needs git and python3, and no network.

With --samples FOLDER it writes git.sample for tests/refspec_map/git.py: the smallest list of each known kind, and lists of many
forms among those where both agree.
"""
import argparse
import collections
import os
import random
import subprocess
import sys
import tempfile
from concurrent.futures import ThreadPoolExecutor

sys.dont_write_bytecode = True
import gitfetch  # beside this script, as the next two
import gitknown
import gitlists

# How many lists of each of the two are made for one remote.
LISTS_OF_A_REMOTE = 8
# A list, the lines of git and of the program, and the kinds by which they differ; `None` where these are unknown.
Result = collections.namedtuple("Result", "command specs refs theirs ours kinds")
SAMPLE_HEAD = """\
# Lists of specs and refs, separated by empty lines. A list begins with the command after `= `; what git is known to
# do otherwise follows. After `< ` are the lines of an input, after `> ` those that the command answers, and
# after `! ` what git did where it did otherwise: `ref` with an id and a name that it wrote, `head` with an id of
# FETCH_HEAD, `fails` and why, or `tracks` with a ref and what a branch made from it tracks. A space at the end of
# a line is written \\x20. Made with {git} by
#   tools/oracle/compare-git.py PROGRAM --lists {options.lists} --seed {options.seed} --samples FOLDER
"""
# How many of the lists where both agree are stored.
STORED = {"plan": 26, "rhs": 14}


class Comparison:
    """Git in a folder, and a program."""

    def __init__(self, folder, program):
        self.store = gitfetch.Store(folder)
        self.program = program

    def result(self, command, specs, refs):
        if command == "rhs":
            return self.track(specs, refs)
        return self.fetch(self.store.remote(refs), specs, refs)

    def fetch(self, remote, specs, refs):
        fetched = self.store.fetched(remote, specs)
        lines = gitfetch.answered(self.program, "plan", specs, refs)
        kinds = []
        if not gitfetch.is_as_planned(fetched, gitfetch.read_plan(lines, refs)):
            kinds = self.fetch_kinds(remote, specs, refs, fetched)
        return Result("plan", specs, refs, gitfetch.fetched_lines(fetched), lines, kinds)

    def fetch_kinds(self, remote, specs, refs, fetched):
        """The kinds of a difference, with those of what is left after a failure."""
        kind, rest = gitknown.failing_kind(fetched, specs, refs)
        if kind is None:
            return gitknown.fetch_kinds(self.program, fetched, specs, refs)
        if not any(gitknown.is_positive(gitknown.split(one)) for one in rest):
            return [kind]
        more = self.fetch(remote, rest, refs).kinds
        return None if more is None else [kind, *more]

    def track(self, specs, refs):
        sources = self.store.tracked(specs, refs)
        lines = gitfetch.answered(self.program, "rhs", specs, refs)
        kinds = []
        for ref, source, first in zip(refs, sources, gitfetch.first_sources(lines, refs)):
            if source == first:
                continue
            found = gitknown.track_kinds(self.program, source, specs, ref)
            kinds = None if None in (found, kinds) else kinds + [kind for kind in found if kind not in kinds]
        return Result("rhs", specs, refs, gitfetch.source_lines(sources, refs), lines, kinds)

    def in_scope(self, specs, refs):
        """The specs, without the last ones where git would refuse to write a ref."""
        while specs:
            rest = gitknown.without_failing(specs, refs)
            planned = gitknown.predicted(self.program, gitknown.REWRITTEN, rest, refs)
            if gitlists.can_be_written(planned.refs, refs):
                return specs
            specs = specs[:-1]
        return [b"HEAD"]

    def of_remote(self, number, lists, seed):
        """The results for lists of one remote, fetched and tracked."""
        random_ = random.Random(f"{seed} {number}")
        refs = self.store.refs(*gitlists.remote_names(random_))
        remote = self.store.remote(refs)
        results = []
        for _ in range(lists):
            results.append(self.fetch(remote, self.in_scope(gitlists.fetch_specs(random_, refs), refs), refs))
            specs, names = gitlists.track_list(random_, refs)
            results.append(self.track(specs, self.store.refs(names)))
        return results

    def of_candidates(self, given):
        """The results for a partial source and a set of its candidates: alone, and with the first one excluded."""
        source, names = given
        refs = self.store.refs(names)
        remote = self.store.remote(refs)
        specs = [source + b":refs/q/x", source]
        return [self.fetch(remote, specs, refs), self.fetch(remote, [*specs, b"^" + names[0]], refs)]

    def smallest(self, command, kind):
        """The result for the smallest list of a kind."""
        refs = self.store.refs(kind.names)
        id_ = refs[0].id
        specs = [one.replace(b"<id>", id_).replace(b"<ID>", id_.upper()) for one in kind.specs]
        return self.result(command, specs, refs)

    def shrunk(self, result):
        """The result for the list without what isn't needed for the difference."""
        for part in [*result.specs, *result.refs]:
            specs = [one for one in result.specs if one is not part]
            refs = [one for one in result.refs if one is not part]
            made = self.result(result.command, specs, refs) if specs and refs else result
            if made.kinds is None:
                result = made
        return result


def size_of(result):
    return sum(map(len, gitfetch.lines_of(result.specs, result.refs)))


def shown(result):
    """The list and both answers, with names for ids."""
    specs, names = b" ".join(result.specs), b" ".join(ref.name for ref in result.refs)
    theirs, ours = [b"; ".join(lines) or b"nothing" for lines in (result.theirs, result.ours)]
    text = b"%s with %s; git: %s; %s: %s" % (specs, names, theirs, result.command.encode(), ours)
    for ref in result.refs:
        text = text.replace(ref.id, b"<%s>" % ref.name).replace(ref.id.upper(), b"<%s>" % ref.name.upper())
    return text.decode().replace("\t", " ")


def report(command, results):
    """Prints how many lists were compared, how many agreed, and what there was to compare."""
    alike, known = sum(result.kinds == [] for result in results), sum(bool(result.kinds) for result in results)
    words = collections.Counter(line.split()[0] for result in results for line in result.theirs)
    ours = collections.Counter(line.split(b"\t")[0] for result in results for line in result.ours)
    if command == "plan":
        choices = sum(map(has_choice, results))
        what = (f"{choices} have a choice for a partial source; git wrote {words[b'ref']} refs and"
                f" {words[b'head']} lines of FETCH_HEAD, and failed at {words[b'fails']} lists; planned are"
                f" {ours[b'map']} mappings, {ours[b'conflict']} conflicts and {ours[b'fix']} fixes")
    else:
        followed = sum(line.count(b"\t") == 2 for result in results for line in result.theirs)
        what = f"git tracks something from {followed} of {words[b'tracks']} refs; rhs finds {ours[b'map']} mappings"
    print(f"compare-git: {len(results)} lists for {command}: {alike} agree, {known} differ in known ways; {what}")


def check_candidates(results):
    """Prints how often a partial source was compared with a set of its candidates, where both have to agree."""
    for result in results:
        if result.kinds != []:
            sys.exit(f"compare-git: not the first candidate, or not it alone: {shown(result)}")
    print(f"compare-git: {len(results)} lists of a partial source, with each set of its candidates, agree")


def check_kinds(comparison, command, kinds, results):
    """Prints each kind with its smallest list, which has to differ by that kind alone; gives these results."""
    found = []
    for kind in kinds:
        smallest = comparison.smallest(command, kind)
        if smallest.kinds != [kind]:
            sys.exit(f"compare-git: doesn't differ just as {kind.text!r} says: {shown(smallest)}")
        times = sum(kind in (result.kinds or []) for result in results)
        print(f"compare-git: {times} times {kind.text}; the smallest: {shown(smallest)}")
        found.append(smallest)
    return found


def has_choice(result):
    """Whether several refs have names that a partial source may stand for."""
    names = {ref.name for ref in result.refs}
    sources = [spec.source for spec in map(gitknown.split, result.specs) if gitknown.is_single(spec)]
    partial = [gitknown.named(source) for source in sources if gitknown.is_partial(source)]
    return any(sum(form % source in names for form in gitknown.CANDIDATES) > 1 for source in partial)


def form_of(side):
    """How a side is written, in a word."""
    if side in (b"", b"@", b"HEAD"):
        return "HEAD" if side else "none"
    if b"*" in side:
        return "pattern"
    return "id" if gitknown.is_id(side) else "full name" if side.startswith(b"refs/") else "partial"


def class_of(result):
    """Alike lists: whether there is such a choice, the words of the answer, the forms of the positive specs, and
    whether some are negative."""
    specs = [gitknown.split(one) for one in result.specs]
    forms = {(form_of(spec.source), form_of(spec.destination)) for spec in specs if gitknown.is_positive(spec)}
    words = {line.split(b"\t")[0] for line in result.ours}
    return has_choice(result), sorted(words), sorted(forms), any(not gitknown.is_positive(spec) for spec in specs)


def chosen_of(results, wanted, chooser):
    """The smallest of each class, half of them of classes with a choice for a partial source."""
    classes = {}
    for result in sorted(results, key=size_of):
        classes.setdefault(repr(class_of(result)), result)
    words = sorted(classes)
    chooser.shuffle(words)
    words.sort(key=lambda word: not word.startswith("(True") or not classes[word].ours)
    half, rest = words[:wanted // 2], words[wanted // 2:]
    return [classes[word] for word in half + chooser.sample(rest, min(wanted - len(half), len(rest)))]


def stored(result):
    kinds = ", ".join(kind.text for kind in result.kinds)
    done = result.theirs if result.kinds else []
    return gitfetch.Stored(None, result.command, kinds, gitfetch.lines_of(result.specs, result.refs), result.ours, done)


def write_sample(results, options, git):
    path = os.path.join(options.samples, "git.sample")
    gitfetch.store_lists(path, SAMPLE_HEAD.format(options=options, git=git), map(stored, results))
    print(f"compare-git: {len(results)} lists, in {path}")


def compare(options, git):
    """Gives the number of unknown differences."""
    remotes = -(-options.lists // LISTS_OF_A_REMOTE)
    with tempfile.TemporaryDirectory() as folder, ThreadPoolExecutor(options.jobs) as pool:
        comparison = Comparison(folder, os.path.abspath(options.program))
        of_candidates = pool.map(comparison.of_candidates, gitlists.candidate_sets())
        check_candidates([result for some in of_candidates for result in some])
        counts = [min(LISTS_OF_A_REMOTE, options.lists - LISTS_OF_A_REMOTE * number) for number in range(remotes)]
        made = pool.map(comparison.of_remote, range(remotes), counts, [options.seed] * remotes)
        results = [result for some in made for result in some]
        chosen, unknown = [], [result for result in results if result.kinds is None]
        for command, kinds in (("plan", gitknown.FAILING + gitknown.REWRITTEN), ("rhs", gitknown.BACKWARD)):
            mine = [result for result in results if result.command == command]
            report(command, mine)
            chosen += check_kinds(comparison, command, kinds, mine)
            alike = [result for result in mine if result.kinds == []]
            if options.samples:
                chosen += chosen_of(alike, STORED[command], random.Random(options.seed))
        if unknown:
            print(f"compare-git: unknown: {shown(comparison.shrunk(min(unknown, key=size_of)))}")
        elif options.samples:
            write_sample(chosen, options, git)
    return len(unknown)


def main():
    parser = argparse.ArgumentParser(description=__doc__, formatter_class=argparse.RawDescriptionHelpFormatter)
    parser.add_argument("program")
    parser.add_argument("--lists", type=int, default=500, help="how many lists are generated for each of the two")
    parser.add_argument("--seed", type=int, default=1)
    parser.add_argument("--jobs", type=int, default=2, help="how many remotes are fetched from at a time")
    parser.add_argument("--samples", help="a folder to write git.sample into")
    options = parser.parse_args()

    git = subprocess.run(["git", "version"], stdout=subprocess.PIPE, check=True).stdout.decode().strip()
    print(f"compare-git: {git}, seed {options.seed}")
    unknown = compare(options, git)
    if unknown:
        sys.exit(f"compare-git: {unknown} differences of unknown kinds")


if __name__ == "__main__":
    main()
