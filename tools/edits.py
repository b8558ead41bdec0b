#!/usr/bin/env python3
"""Tries wrong bodies, which the checker has to refuse: tools/edits.py [--after LOG] [CRATE [NAME..]]

An edit, a file of crates/CRATE/edits, changes a function so that it answers something else, and names it behind `at:`. It is
refused if the checker doesn't prove that function, unless the edit is bad: the checker says only that a proof file cites a name
that the edit took away, or that it ran into a limit of its own (of steps, memory or stack; bounds of tactics don't count). Neither
says anything of the contract. A line names each edit that is bad or not refused, and then the status is 1.
A proof goes by what other functions promise, and not by their bodies, so many edits are tried at once, in rounds: one of a
function, and those of functions that call a changed one, or of which the checker says nothing, in a later round. An edit with
`alone:` changes more than bodies. It has a round of its own, in which each error of the checker counts as one of `at:`.

Without CRATE all are tried, several crates at a time, those with the longest proofs first. NAME is what the names of edits begin
with. The libraries below a crate are those that `make test` left proved; with --after, those that a run of it, with the log LOG,
proves meanwhile. The first round proves what the functions stand on, which takes as long as the rounds after it: the checker's
work is kept for the next run on this machine.
"""
import os
import re
import shutil
import sys
import tempfile
import time
from concurrent.futures import ThreadPoolExecutor

sys.dont_write_bytecode = True
import kit  # beside this script

# What the checker says of a function that is proved, of one that isn't because of those that it calls, and of one that it
# didn't decide.
PROVED = re.compile(r"proved\b")
BY_OTHERS = re.compile(r".*\bit calls ")
UNDECIDED = re.compile(r"could not tell\b")


class Edit:
    def __init__(self, path):
        said, self.changes = kit.read_edit(path)
        self.name = os.path.basename(path).removesuffix(".edit")
        self.at, self.is_alone = said.get("at"), "alone" in said
        if not self.at or not self.changes:
            raise kit.Failure(f"{path}: it has no `at:`, or no `old:` and `new:`")

    def applied(self, crate, texts):
        """The changed texts, by file, with this edit too; None where another has changed the same line."""
        texts = dict(texts)
        for file, old, new in self.changes:
            if file not in texts:
                with open(f"{crate.folder}/{file}", encoding="utf-8") as text:
                    texts[file] = text.read()
            if texts[file].count(old) != 1:
                return None
            texts[file] = texts[file].replace(old, new)
        return texts


def next_round(crate, edits):
    """Edits to try at once, and the changed texts."""
    chosen, texts = [], {}
    for edit in edits:
        if edit.is_alone and chosen or edit.at in [it.at for it in chosen]:
            continue
        applied = edit.applied(crate, texts)
        if applied is None and not chosen:
            raise kit.Failure(f"{crate.name}/{edit.name}: an `old:` isn't once in its file")
        if applied is not None:
            texts = applied
            chosen.append(edit)
        if edit.is_alone:
            break
    return chosen, texts


def said_of(crate, texts, functions, kept, jobs):
    """What the checker says of these functions, with these texts, and its errors."""
    with tempfile.TemporaryDirectory(prefix="edits-") as copy:
        for part in ("src", "specs", "proofs"):
            if os.path.isdir(f"{crate.folder}/{part}"):
                shutil.copytree(f"{crate.folder}/{part}", f"{copy}/{part}")
        for file, text in texts.items():
            with open(f"{copy}/{file}", "w", encoding="utf-8") as changed:
                changed.write(text)
        text = crate.check(copy, kept, [word for name in functions for word in ("--only", name)], jobs)
    said = dict(re.findall(rf"^fn {crate.name}::(\S+): (.*)$", text, re.M))
    if not re.search(r"^only=\d+ proved=\d+", text, re.M) or not said.keys() & functions:
        raise kit.Failure(f"{crate.name}: {' '.join(functions - said.keys())}: the checker said:\n{text[-2000:]}")
    return said, kit.errors(text)


def fault_of(edit, said, errors):
    """Why the edit isn't refused, or is bad; None if it is refused as it should be."""
    if PROVED.match(said):
        return f"NOT REFUSED: {edit.at} is still proved"
    folder = f"proofs/{edit.at.replace('::', '/')}/"
    own = [it for it in errors if not it.above and (edit.is_alone or it.path.startswith(folder))]
    if UNDECIDED.match(said) or own and all(it.is_limit for it in own):
        return f"BAD EDIT: the checker ran into a limit: {own[0] if own else said}"
    if own and all(it.is_limit or it.is_unread for it in own):
        return f"BAD EDIT: its proof no longer reads: {next(it for it in own if it.is_unread)}"
    return None


def try_all(crate, edits, jobs):
    """How many of the edits are refused. Prints a line for each other. A round takes as many jobs as `jobs` says then."""
    left, rounds, missed = sorted(edits, key=lambda it: it.is_alone), 0, 0
    with crate.work() as kept:
        while left:
            tried, texts = next_round(crate, left)
            said, errors = said_of(crate, texts, {it.at for it in tried}, kept, jobs())
            decided = [it for it in tried if it.at in said and (it.is_alone or not BY_OTHERS.match(said[it.at]))]
            if not decided:
                raise kit.Failure(f"{crate.name}: each calls a changed function: {' '.join(it.name for it in tried)}")
            for edit in decided:
                fault = fault_of(edit, said[edit.at], errors)
                if fault:
                    missed += 1
                    print(f"edits: {crate.name}/{edit.name}: {fault}", flush=True)
            left = [it for it in left if it not in decided]
            rounds += 1
    print(f"edits: {crate.name}: {len(edits) - missed} of {len(edits)} refused, in {rounds} rounds", flush=True)
    return len(edits) - missed


def refused_of(crate, paths, jobs):
    """How many of the edits are refused; none, and a line that says why, where the crate's can't be tried."""
    try:
        return try_all(crate, [Edit(path) for path in paths], jobs)
    except kit.Failure as failure:
        print(f"edits: {failure}", flush=True)
        return 0


def in_turn(left, log, call):
    """Calls `call` with each of the crates and the jobs that it may use, as soon as a run with this log, if there is one, has proved
    what is below it, and yields what it returns: for several crates at a time, first for those with the longest proofs. While
    that run proves, half of the processors are used, and then all but the one for the changed definitions."""
    processors, running = os.cpu_count() or 1, []
    left.sort(key=lambda it: it.size(), reverse=True)

    def lanes():
        return max(1, processors // 2 if log and not kit.has_ended(log) else processors - 1)

    def jobs():
        return max(1, lanes() // max(1, len(running)) if not left else 1)

    with ThreadPoolExecutor(processors) as pool:
        while left or running:
            for crate in list(left):
                try:
                    if len(running) < lanes() and (not log or kit.are_proved(crate.below, log)):
                        left.remove(crate)
                        running.append(pool.submit(call, crate, jobs))
                except kit.Failure as failure:
                    left.remove(crate)
                    print(f"edits: {failure}", flush=True)
            time.sleep(1)
            done = [it for it in running if it.done()]
            running = [it for it in running if it not in done]
            yield from (it.result() for it in done)


def main():
    parser = kit.parser(__doc__)
    parser.add_argument("--after", metavar="LOG")
    parser.add_argument("crate", nargs="?")
    parser.add_argument("names", nargs="*")
    given = parser.parse_args()
    crates = kit.crates()
    if given.crate and given.crate not in crates:
        parser.error(f"there is no crate {given.crate}")
    crates = [crates[given.crate]] if given.crate else crates.values()
    paths = {crate: crate.edits("edits", given.names) for crate in crates}
    tried = sum(map(len, paths.values()))
    if not tried:
        parser.error("there is no such edit")
    refused = sum(in_turn(list(filter(paths.get, crates)), given.after, lambda crate, jobs: refused_of(crate, paths[crate], jobs)))
    print(f"edits: {refused} of {tried} refused")
    sys.exit(refused != tried)


if __name__ == "__main__":
    main()
