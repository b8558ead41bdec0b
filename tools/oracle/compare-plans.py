#!/usr/bin/env python3
"""Compares git with the program `refspec`, over whole fetches: given and configured specs, merge refs and tags.

What `git fetch` writes into an empty repository, refs and FETCH_HEAD, has to be what `refspec plan` says; so has a
warning that a ref usually tracks another, and the failure where a source is missing or in conflict. What `git fetch
--prune --dry-run` would delete has to be what `refspec stale` lists. Where git is known to do otherwise, a rule of
gitknown.py has to tell all that it does. Any other difference is a failure.

The cases are generated from a seed, so many for each of the two. They leave out what git refuses only as it writes
refs: a name that is a folder for another, and an annotated tag as a branch. It needs git and python3, and no network.

With --samples FOLDER it writes git-plans.sample for tests/refspec/git_plans.py: the smallest case of each known kind, and cases
of many forms among those where both agree.
"""
import argparse
import collections
import os
import random
import shutil
import subprocess
import sys
import tempfile
from concurrent.futures import ThreadPoolExecutor

sys.dont_write_bytecode = True
import gitfetch  # beside this script, as the next three
import gitknown
import gitlists
import gitplans

# How many cases of each of the two are made for one remote.
CASES_OF_A_REMOTE = 8
# A case, the lines of git and of the program, and the kinds by which they differ; `None` where these are unknown.
Result = collections.namedtuple("Result", "case theirs ours kinds")
KINDS = {
    "plan": gitknown.FAILING_FETCHES + gitknown.REWRITTEN_FETCHES,
    "stale": gitknown.REWRITTEN_PRUNINGS,
}
# How many cases are stored of each.
STORED = {"plan": 60, "stale": 60}
SAMPLE_HEAD = """\
# Whole fetches, separated by empty lines. A case begins with the command after `= `; what git is known to do otherwise
# follows. After `< ` are its specs, given or configured, or those of --refmap, merge refs, `tags` if all tags are asked
# for, refs of the remote, and local ones; after `> ` the answer of the program, its fields split by tabs; and after `! `
# what git did where it did otherwise: `ref` with an id and a name that it wrote, `head` with an id of FETCH_HEAD,
# `overruled` with a ref and what it usually tracks, `fails` and why, or `deleted` and a local ref. A space at the end of
# a line is written \\x20. Made with {git} by
#   tools/oracle/compare-plans.py REFSPEC --cases {options.cases} --seed {options.seed} --samples FOLDER
"""


class Comparison:
    """Git in a folder, and a program."""

    def __init__(self, folder, program):
        self.store = gitfetch.Store(folder)
        self.program = program

    def result(self, case):
        remote = self.store.remote(case.refs)
        made = self.fetch(remote, case) if case.command == "plan" else self.prune(remote, case)
        shutil.rmtree(remote)
        return made

    def fetch(self, remote, case):
        fetched = gitplans.fetch(self.store, remote, case.wish)
        lines = gitplans.answered(self.program, case)
        planned = gitplans.read_plan(lines, gitplans.applied(case.wish), case.refs)
        kinds = [] if gitplans.is_as_planned(fetched, planned) else self.fetch_kinds(remote, case, fetched)
        return Result(case, gitplans.fetched_lines(fetched), lines, kinds)

    def fetch_kinds(self, remote, case, fetched):
        """The kinds of a difference, with those of what is left after a failure."""
        # Git refuses configured values also where `--refmap` replaces them.
        for wish in (case.wish, gitplans.applied(case.wish)):
            kind, rest = gitknown.failing_fetch_kind(gitknown.FAILING_FETCHES, fetched.failure, wish, case.refs)
            if kind is not None:
                break
        else:
            return gitknown.wish_kinds(self.program, fetched, case.wish, case.refs)
        return self.with_kinds([kind], self.fetch, remote, case._replace(wish=rest))

    @staticmethod
    def with_kinds(kinds, compare, remote, case):
        """The kinds, and those of what is left, if that has something to map. Without given specs `--refmap` is refused."""
        is_refused = case.wish.refmap is not None and not case.wish.given
        if is_refused or not gitknown.positive_ones(gitknown.asked_of(case.wish)):
            return kinds
        more = compare(remote, case).kinds
        return None if more is None else kinds + [kind for kind in more if kind not in kinds]

    def prune(self, remote, case):
        deleted, failure = gitplans.prune(self.store, remote, case.wish, case.local)
        lines = gitplans.answered(self.program, case)
        stale = gitplans.stale_names(lines)
        if failure:
            kinds = [] if gitplans.is_stopped(lines) else self.failed_prune_kinds(remote, case, stale, failure)
        else:
            kinds = []
            for local in case.local:
                if (local.name in deleted) != (local.name in stale) or refuses(lines):
                    asked = gitknown.asked_of(case.wish)
                    found = gitknown.pruning_kinds(self.program, local.name in deleted, asked, case.refs, local)
                    kinds = None if None in (found, kinds) else kinds + [kind for kind in found if kind not in kinds]
        return Result(case, gitplans.pruned_lines(deleted, failure), lines, kinds)

    def failed_prune_kinds(self, remote, case, stale, failure):
        kind, rest = gitknown.failing_fetch_kind(gitknown.FAILING_FETCHES, failure, case.wish, case.refs)
        if kind is None:
            return None
        return self.with_kinds([kind] * bool(stale), self.prune, remote, case._replace(wish=rest))

    def compared(self, remote, case):
        """The result, without the last specs where git refuses to write a ref, or prunes nothing for a conflict."""
        compare = self.fetch if case.command == "plan" else self.prune
        result = compare(remote, case)
        while result.kinds is None and self.is_out_of_scope(result):
            case = case._replace(wish=with_fewer(case.wish))
            result = compare(remote, case)
        return result

    def is_out_of_scope(self, result):
        """Whether git would refuse to write a ref, or would prune nothing for a conflict: if it fails so, or may once the
        specs are away that it failed at."""
        case, failure = result.case, result.theirs[0].split()[1] if result.theirs[:1] else b""
        rest = gitknown.without_failing_specs(case.wish, case.refs)
        if case.command == "stale":
            rest, _ = gitknown.missing_in_wish(rest, case.refs)
            may_be = failure in (b"conflict", b"tracks") or rest != case.wish
            return may_be and bool(self.predicted(rest, case.refs).conflicts)
        planned = self.predicted(rest, case.refs)
        return ((failure == b"other" or rest != case.wish) and not planned.missing and not planned.conflicts
                and not gitlists.can_be_written(planned.refs, case.refs))

    def predicted(self, wish, refs):
        return gitknown.predicted_fetch(self.program, gitknown.REWRITTEN_FETCHES, wish, refs)

    def of_remote(self, number, counts, seed):
        """The results for cases of one remote."""
        random_ = random.Random(f"{seed} {number}")
        refs = self.store.refs(*gitlists.remote_names(random_))
        remote = self.store.remote(refs)
        made = [self.compared(remote, gitplans.Case("plan", gitlists.wish(random_, refs), refs, []))
                for _ in range(counts["plan"])]
        made += [self.compared(remote, self.stale_case(random_, refs)) for _ in range(counts["stale"])]
        shutil.rmtree(remote)
        return made

    def stale_case(self, random_, refs):
        """A case with specs and local refs."""
        wish, names = gitplans.Wish(), []
        while not names or not gitknown.asked_of(wish):
            wish = gitlists.wish(random_, refs)._replace(refmap=None, merges=[], tags=False)
            names = gitlists.lost_names(random_, refs, gitknown.asked_of(wish))
        return gitplans.Case("stale", wish, refs, self.store.refs(names))

    def smallest(self, command, kind):
        """The result for the smallest case of a kind."""
        refs = self.store.refs(kind.names)
        id_ = refs[0].id
        lists = {name: value if value is True else [one.replace(b"<id>", id_).replace(b"<ID>", id_.upper()) for one in value]
                 for name, value in kind.wish.items()}
        wish = gitplans.Wish()._replace(**lists)
        return self.result(gitplans.Case(command, wish, refs, self.store.refs(kind.local)))

    def shrunk(self, result):
        """The result for the case without what isn't needed for the difference."""
        parts = [(name, part) for name in ("given", "configured", "refmap", "merges")
                 for part in getattr(result.case.wish, name) or []]
        parts += [(name, ref) for name in ("refs", "local") for ref in getattr(result.case, name)]
        for name, part in parts:
            holder = result.case if name in ("refs", "local") else result.case.wish
            fewer = holder._replace(**{name: [one for one in getattr(holder, name) if one is not part]})
            case = fewer if holder is result.case else result.case._replace(wish=fewer)
            if is_whole(case):
                made = self.result(case)
                result = made if made.kinds is None and not self.is_out_of_scope(made) else result
        return result


def with_fewer(wish):
    """The wish without the last of its specs, and without --refmap where none is given."""
    name = next(name for name in ("configured", "refmap", "given") if getattr(wish, name))
    fewer = wish._replace(**{name: getattr(wish, name)[:-1]})
    return fewer if fewer.given else fewer._replace(refmap=None)


def is_whole(case):
    """Whether there is something to fetch from and, for a pruning fetch, specs and a local ref; and specs for --refmap."""
    is_asked = bool(gitknown.asked_of(case.wish) and case.local)
    return bool(case.refs) and (case.command == "plan" or is_asked) and (case.wish.refmap is None or bool(case.wish.given))


def refuses(lines):
    return any(line.startswith(b"refused\t") for line in lines)


def size_of(result):
    return sum(map(len, gitplans.lines_of(result.case)))


def shown(result):
    """The case and both answers, with names for ids."""
    lines = [line for line in gitplans.lines_of(result.case) if not line.startswith((b"ref ", b"tag "))]
    names = b" ".join(ref.name for ref in result.case.refs)
    theirs, ours = [b"; ".join(lines) or b"nothing" for lines in (result.theirs, result.ours)]
    given, command = b", ".join(lines), result.case.command.encode()
    text = b"%s with %s; git: %s; refspec %s: %s" % (given, names, theirs, command, ours)
    for ref in result.case.refs:
        text = text.replace(ref.id, b"<%s>" % ref.name).replace(ref.id.upper(), b"<%s>" % ref.name.upper())
    return text.decode().replace("\t", " ")


def report(command, results):
    """Prints how many cases were compared, how many agreed, and what there was to compare."""
    alike, known = sum(result.kinds == [] for result in results), sum(bool(result.kinds) for result in results)
    words = collections.Counter(line.split()[0] for result in results for line in result.theirs)
    failures = collections.Counter(line.split()[1] for result in results for line in result.theirs if line[:6] == b"fails ")
    failed = ", ".join(f"{failures[word]} for {word.decode()}" for word in sorted(failures)) or "none"
    ours = collections.Counter(line.split(b"\t")[0] for result in results for line in result.ours)
    if command == "plan":
        what = (f"git wrote {words[b'ref']} refs and {words[b'head']} ids into FETCH_HEAD, and {words[b'overruled']} times another"
                f" ref than usual; planned are {ours[b'mapping']} mappings, {ours[b'overruled']} are overruled, and"
                f" {ours[b'left_out']} left out")
    else:
        count = sum(len(result.case.local) for result in results)
        what = (f"git would delete {words[b'deleted']} of {count} local refs; {ours[b'stale']} are stale, and {ours[b'kept']}"
                " kept")
    print(f"compare-plans: {len(results)} cases for {command}: {alike} agree, {known} differ in known ways; git failed at"
          f" {failed}; {what}", flush=True)


def check_kinds(comparison, command, results):
    """Prints each kind with its smallest case, which has to differ by that kind alone; gives these results."""
    found = []
    for kind in KINDS[command]:
        smallest = comparison.smallest(command, kind)
        if smallest.kinds != [kind]:
            sys.exit(f"compare-plans: doesn't differ just as {kind.text!r} says: {shown(smallest)}")
        times = sum(kind in (result.kinds or []) for result in results)
        print(f"compare-plans: {times} times {kind.text}; the smallest: {shown(smallest)}")
        found.append(smallest)
    return found


def class_of(result):
    """Alike cases: which lists there are, whether some specs are negative, what is answered, and how git fails."""
    wish = result.case.wish
    negative = [any(one.startswith(b"^") for one in specs) for specs in (wish.given, wish.configured)]
    answers = {b" ".join(line.split(b"\t")[:2] if line.startswith((b"mapping", b"missing")) else line.split(b"\t")[:1])
               for line in result.ours}
    done = [line.split()[0] for line in result.theirs[:1]]
    return [bool(part) for part in wish], wish.refmap is None, negative, sorted(answers), done


def chosen_of(results, wanted, chooser):
    """The smallest of each class, or of so many of them; where there are fewer classes, others beside them."""
    classes, others = {}, []
    for result in sorted(results, key=size_of):
        if classes.setdefault(repr(class_of(result)), result) is not result:
            others.append(result)
    words = sorted(chooser.sample(sorted(classes), min(wanted, len(classes))))
    return [classes[word] for word in words] + chooser.sample(others, min(wanted - len(words), len(others)))


def stored(result):
    kinds = ", ".join(kind.text for kind in result.kinds)
    done = result.theirs if result.kinds else []
    return gitfetch.Stored(None, result.case.command, kinds, gitplans.lines_of(result.case), result.ours, done)


def write_sample(results, options, git):
    path = os.path.join(options.samples, "git-plans.sample")
    gitfetch.store_lists(path, SAMPLE_HEAD.format(options=options, git=git), map(stored, results))
    print(f"compare-plans: {len(results)} cases, in {path}")


def counts_of(options, number):
    """How many cases of each of the two are made for one remote."""
    wanted = {"plan": options.cases, "stale": options.cases if options.stale is None else options.stale}
    return {command: min(CASES_OF_A_REMOTE, max(0, count - CASES_OF_A_REMOTE * number)) for command, count in wanted.items()}


def compare(options, git):
    """Gives the number of unknown differences."""
    remotes = -(-max(options.cases, options.stale or 0) // CASES_OF_A_REMOTE)
    with tempfile.TemporaryDirectory() as folder, ThreadPoolExecutor(options.jobs) as pool:
        comparison = Comparison(folder, os.path.abspath(options.program))
        counts = [counts_of(options, number) for number in range(remotes)]
        made = pool.map(comparison.of_remote, range(remotes), counts, [options.seed] * remotes)
        results = [result for some in made for result in some]
        chosen, unknown = [], [result for result in results if result.kinds is None]
        for result in sorted(unknown, key=size_of)[:options.shown]:
            print(f"compare-plans: unknown: {shown(comparison.shrunk(result))}", flush=True)
        for command, kinds in KINDS.items():
            mine = [result for result in results if result.case.command == command]
            report(command, mine)
            smallest = check_kinds(comparison, command, mine)
            alike = [result for result in mine if result.kinds == []]
            chosen += smallest + chosen_of(alike, STORED[command] - len(smallest), random.Random(options.seed))
        if options.samples and not unknown:
            write_sample(chosen, options, git)
    return len(unknown)


def main():
    parser = argparse.ArgumentParser(description=__doc__, formatter_class=argparse.RawDescriptionHelpFormatter)
    parser.add_argument("program")
    parser.add_argument("--cases", type=int, default=500, help="how many cases are generated for each of the two")
    parser.add_argument("--stale", type=int, help="how many of them for stale refs, if other")
    parser.add_argument("--seed", type=int, default=1)
    parser.add_argument("--jobs", type=int, default=2, help="how many remotes are fetched from at a time")
    parser.add_argument("--shown", type=int, default=1, help="how many unknown differences are shown")
    parser.add_argument("--samples", help="a folder to write git-plans.sample into")
    options = parser.parse_args()

    git = subprocess.run(["git", "version"], stdout=subprocess.PIPE, check=True).stdout.decode().strip()
    print(f"compare-plans: {git}, seed {options.seed}")
    unknown = compare(options, git)
    if unknown:
        sys.exit(f"compare-plans: {unknown} differences of unknown kinds")


if __name__ == "__main__":
    main()
