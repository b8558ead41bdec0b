#!/usr/bin/env python3
"""Compares what is answered about the fetch values of a remote with the installed Git: compare-remotes.py REFSPEC [CALL..]

For each call so many cases are generated, of values as people set them up, and Git does what is answered:

upstream  `git for-each-ref` prints the ref as %(upstream) of the branch; once that ref is there, `git rev-parse` resolves
          BRANCH@{upstream} to it; and where there is none, both find none, also if another remote has values
prefetch  `git fetch --prefetch` by the values writes what a fetch by the texts does that are applied in their place
rename    `git remote rename` leaves the values as they are printed, and warns of those that it doesn't change
why       a fetch from a remote with some refs stores each of those asked about where it is said to be stored, or nowhere
branch    `git remote add` and `git remote set-branches` write what gix_refspec_remote_value gives; what that refuses, Git
          refuses at once or at the next fetch. It is asked through Python, with the library that GIX_REFSPEC_LIBRARY names

Where Git differs, a kind of remotecalls.py says why, and its smallest case shows it. Any other difference is made smaller, shown,
and is a failure. With --record FILE 60 cases of each call are put into remotes.sample, to be read before they are committed.
With --try FILE the case is tried whose lines are in the file: `upstream` or another word, and the lines of the case.
"""
import argparse
import collections
import concurrent.futures
import itertools
import os
import random
import shutil
import subprocess
import sys
import tempfile

sys.dont_write_bytecode = True
import gitfetch  # beside this script, as the next two
import gitremotes
import remotecalls

STORED = 60
SAMPLE_HEAD = """\
# Cases of tools/oracle/remotecalls.py, separated by empty lines. Each begins with the word of its call after `= `, and the kind by
# which Git differs. After `< ` are the lines of the case, after `> ` those of the answer, and after `! ` what {git}
# does. tests/library/replay_remotes.py asks for the answers again, and tests/library/git_remotes.py gives the cases to Git. Made by
# tools/oracle/compare-remotes.py REFSPEC --cases {options.cases} --seed {options.seed} --record FILE
"""


class Comparison:
    """A call with what answers it."""

    def __init__(self, call, answering):
        self.call, self.answering = call, answering

    def tried(self, given):
        return self.call.tried(self.answering, given)

    def of_number(self, seed, number):
        given = self.call.made(random.Random(f"{seed} {self.call.word} {number}"))
        return given and self.tried(given)

    def cases(self, options, pool):
        """So many trials of what is generated."""
        found, number = [], options.first
        while len(found) < options.cases:
            numbers = range(number, number + options.cases - len(found))
            found += filter(None, pool.map(lambda one: self.of_number(options.seed, one), numbers))
            number = numbers.stop
        return found

    def is_unknown(self, trial):
        return trial is not None and self.call.differs(trial) and self.call.kind_of(trial) is None

    def is_like(self, trial):
        """Tells whether Git does as answered in another trial of the same class."""
        return lambda other: other is not None and not self.call.differs(other) and class_of(other) == class_of(trial)

    def shrunk(self, trial, is_meant):
        """The trial without the lines that what is meant doesn't need."""
        index = len(trial.given) - 1
        while index >= 0:
            given = trial.given[:index] + trial.given[index + 1:]
            words = {line.partition(b" ")[0] for line in trial.given}
            smaller = self.tried(given) if words == {line.partition(b" ")[0] for line in given} else None
            trial = smaller if is_meant(smaller) else trial
            index -= 1
        return trial

    def check_kinds(self):
        """Each kind has to be how Git differs in its smallest case."""
        for kind in self.call.kinds:
            trial = self.tried(kind.lines)
            if not self.call.differs(trial) or self.call.kind_of(trial) != kind:
                sys.exit(f"compare-remotes: doesn't differ just as {kind.text!r} says: {shown(self.call, trial)}")


def shown(call, trial):
    """A trial in lines."""
    marked = [("", [call.word.encode()]), ("< ", trial.given), ("> ", trial.said), ("should ", trial.wanted), ("git ", trial.done)]
    return "\n".join(f"    {mark}{line.decode()}" for mark, lines in marked for line in lines)


def cell_of(row):
    """An object of an answer, but for names: with the word for a fate, or the first byte of the spec that is the reason."""
    kind, *fields = row.split(b"\t")
    if kind == b"fate":
        return kind, fields[0]
    return kind, fields[1][:1] if kind == b"no_upstream" and fields[1:] else b""


def class_of(trial):
    """What tells a stored case from others: its answer, but for names, which signs and stars its values have, and how many refs are
    asked about that the remote lacks."""
    values, names, refs = (remotecalls.texts_of(trial.given, word) for word in (b"value", b"name", b"ref"))
    answers = set(map(cell_of, trial.said))
    starred = any(b"*" in value and not value.endswith(b"*") for value in values)
    signs = [any(value.startswith(sign) for value in values) for sign in (b"^", b"+")]
    return sorted(answers), signs, starred, len(set(names) - set(refs))


def chosen_of(trials, chooser):
    """So many of the trials: of each class the shortest first, in turn, and then any of its shorter half."""
    classes = collections.defaultdict(list)
    for trial in sorted(trials, key=lambda one: sum(map(len, one.given)) + 20 * len(one.given)):
        found = classes[repr(class_of(trial))]
        if all(trial.given != other.given for other in found):
            found.append(trial)
    for found in classes.values():
        shorter = found[1:(len(found) + 3) // 2]
        found[1:] = chooser.sample(shorter, len(shorter))
    turns = itertools.zip_longest(*(classes[name] for name in sorted(classes)))
    return [trial for turn in turns for trial in turn if trial][:2 * STORED]


def stored_of(comparison, trials, seed, pool):
    """The blocks of a sample: each kind by its smallest case, and others in which Git does as answered, made smaller, and as they are
    where too few of those are distinct."""
    call = comparison.call
    known = [(kind.text, comparison.tried(kind.lines)) for kind in call.kinds]
    alike = chosen_of([trial for trial in trials if not call.differs(trial)], random.Random(seed))
    smaller = list(pool.map(lambda trial: comparison.shrunk(trial, comparison.is_like(trial)), alike))
    distinct = {repr(trial.given): trial for trial in smaller + alike}.values()
    chosen = (known + [("", trial) for trial in distinct])[:STORED]
    return [gitfetch.Stored(None, call.word, text, list(trial.given), trial.said, trial.done) for text, trial in chosen]


def compare(comparison, options, pool):
    """Gives the trials, and the number of unknown differences."""
    call = comparison.call
    comparison.check_kinds()
    trials = comparison.cases(options, pool)
    differing = [trial for trial in trials if call.differs(trial)]
    known = collections.Counter(kind.text for kind in map(call.kind_of, differing) if kind)
    unknown = [trial for trial in differing if call.kind_of(trial) is None]
    rows = collections.Counter(line.split(b"\t")[0].decode() for trial in trials for line in trial.said)
    print(f"compare-remotes: {call.word}: {len(trials)} cases, seed {options.seed}; answers {dict(rows)}; {len(unknown)} unknown"
          f" differences, known ones {dict(known)}", flush=True)
    for trial in sorted(unknown, key=lambda one: len(one.given))[:options.shown]:
        print(f"compare-remotes: unknown:\n{shown(call, comparison.shrunk(trial, comparison.is_unknown))}", flush=True)
    return trials, len(unknown)


def try_file(comparisons, path):
    """Tries the case of a file; gives the status."""
    with open(0 if path == "-" else path, "rb") as file:
        word, *given = file.read().splitlines()
    comparison = next(one for one in comparisons if one.call.word == word.decode())
    trial = comparison.tried(given)
    kind = comparison.call.kind_of(trial) if comparison.call.differs(trial) else None
    print(shown(comparison.call, trial), kind.text if kind else "", sep="\n")
    return comparison.is_unknown(trial)


def comparisons_in(folder, options):
    """The calls that are compared, with what answers them."""
    remotes, library = gitremotes.Remotes(folder), remotecalls.library()
    program = remotecalls.Program(options.program)
    if library is None:
        print("compare-remotes: branch: left out, as there is no library for C")
    made = [Comparison(call(remotes), library if call is remotecalls.Branches else program) for call in remotecalls.CALLS]
    return [one for one in made if one.answering and (not options.calls or one.call.word in options.calls)]


def main():
    parser = argparse.ArgumentParser(description=__doc__, formatter_class=argparse.RawDescriptionHelpFormatter)
    parser.add_argument("program")
    parser.add_argument("calls", nargs="*", metavar="CALL", help="of these calls alone")
    parser.add_argument("--cases", type=int, default=500)
    parser.add_argument("--seed", type=int, default=1)
    parser.add_argument("--first", type=int, default=0, help="the number of the first case")
    parser.add_argument("--jobs", type=int, default=2)
    parser.add_argument("--shown", type=int, default=1, help="how many unknown differences of a call are shown")
    parser.add_argument("--record", metavar="FILE")
    parser.add_argument("--try", dest="tried", metavar="FILE")
    options = parser.parse_args()
    folder = tempfile.mkdtemp(dir="/dev/shm" if os.path.isdir("/dev/shm") else None)
    try:
        comparisons = comparisons_in(folder, options)
        if options.tried:
            sys.exit(try_file(comparisons, options.tried))
        with concurrent.futures.ThreadPoolExecutor(options.jobs) as pool:
            compared = [(one, *compare(one, options, pool)) for one in comparisons]
            unknown = sum(count for _, _, count in compared)
            if options.record and not unknown:
                git = subprocess.run(["git", "version"], stdout=subprocess.PIPE, check=True).stdout.decode().strip()
                blocks = [block for one, trials, _ in compared for block in stored_of(one, trials, options.seed, pool)]
                gitfetch.store_lists(options.record, SAMPLE_HEAD.format(git=git, options=options), blocks)
    finally:
        shutil.rmtree(folder)
    sys.exit(unknown > 0)


if __name__ == "__main__":
    main()
