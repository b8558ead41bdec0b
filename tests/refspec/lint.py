#!/usr/bin/env python3
"""Gives the stored groups of lint.sample to the program refspec: tests/refspec/lint.py REFSPEC [LIBRARY]

It has to warn of what is stored, and of nothing else. Then the plans of the library for C are asked: the refs of each example have
to conflict, and over lists of refs of a small alphabet (each ref alone, two refs with one destination or with one in the other's
directory, and a ref beside up to three candidates of partial names) just the stored specs conflict, or never do anything. LIBRARY
is that of out/lib if it isn't given; where it isn't built, only the stored warnings are compared.
"""
import concurrent.futures
import importlib
import os
import sys
from pathlib import Path

sys.path.insert(0, str(Path(__file__).resolve().parents[1]))
from helpers import ORACLE, PYTHON, ROOT, add_path, parser, samples, stop, use

use(ORACLE, PYTHON)
import gitfetch
import lint
import warned

SAMPLE = samples.FOLDER / "lint.sample"
LIBRARY = ROOT / "out" / "lib" / "libgix_refspec.so"


def spec_of(text):
    """A spec without a sign, as lint.py has them."""
    source, colon, destination = text.removeprefix("^").partition(":")
    return lint.completed((text.startswith("^"), source, destination if colon else None))


class Planner:
    """The plans of the library, as mappings of lint.py."""

    def __init__(self, library):
        os.environ["GIX_REFSPEC_LIBRARY"] = str(library)
        self.module = importlib.import_module("gix_refspec")
        verdict = self.module.Verdict
        self.valid = {verdict.WRITTEN, verdict.CONTESTED, verdict.DIRECTORY_CONFLICT}

    def plan(self, group, refs):
        return self.module.plan([], refs, configured=[warned.text_of(spec) for spec in group]).updates

    def kept_validly(self, group, refs):
        return [(one.origin.index, ("id" if one.item is None else "name", one.source.decode()),
                 one.destination and one.destination.decode())
                for one in self.plan(group, refs) if one.verdict in self.valid]

    def has(self, verdict, group, refs):
        """Whether a plan has an update with a verdict."""
        return any(one.verdict == verdict for one in self.plan(group, refs))


def differences(program, library, stored):
    """What differs from what is stored of a group."""
    texts = [text.decode() for text in stored.given]
    group = [spec_of(text) for text in texts]
    answer = [line.decode() for line in stored.answer]
    found = warned.warned(program, texts)
    if warned.lines_of(found) != answer:
        return f"{program} warns of {warned.lines_of(found)}"
    if library is None:
        return None
    planner = Planner(library)
    verdicts = planner.module.Verdict
    for verdict, examples in ((verdicts.CONTESTED, found.conflicts), (verdicts.DIRECTORY_CONFLICT, found.nestings)):
        for pair, (one, other, *_) in examples.items():
            refs = [name for name in (one, other) if name and not lint.is_id(name)]
            if not planner.has(verdict, [group[index] for index in pair] + [spec for spec in group if spec[0]], refs):
                return f"{one} and {other} don't conflict"
    nestings = lint.brute_nestings(group, planner.kept_validly)
    if {tuple(sorted(pair)) for pair in found.nestings} != nestings:
        return f"the library makes the directory conflicts {nestings}"
    conflicts, idle, idle_negative = lint.brute(group, planner.kept_validly)
    if set(found.conflicts) != conflicts or found.idle != idle:
        return f"the library makes the conflicts {conflicts} and the idle specs {idle}"
    silent = {index for index in idle_negative if warned.is_silent(found, group, index)}
    if idle_negative - silent != found.idle_negative - silent or found.idle_negative - idle_negative:
        return f"the library makes the idle negative specs {idle_negative}"
    return None


def main():
    arguments = parser(__doc__)
    add_path(arguments, "refspec")
    add_path(arguments, "library", nargs="?", default=LIBRARY)
    options = arguments.parse_args()
    program, library = options.refspec, options.library
    if not library.exists():
        print("lint: left out is what the library makes, as it isn't built")
        library = None
    groups = gitfetch.stored_lists(SAMPLE)
    with concurrent.futures.ProcessPoolExecutor(os.cpu_count()) as pool:
        found = list(pool.map(differences, [program] * len(groups), [library] * len(groups), groups, chunksize=5))
    wrong = [f"the group at line {stored.number} of lint.sample: {what}" for stored, what in zip(groups, found) if what]
    if wrong:
        stop("\n".join(wrong))
    count = sum(bool(stored.answer) for stored in groups)
    print(f"lint: {len(groups)} stored groups, {count} of them with what is warned of, as the program and the library say")


if __name__ == "__main__":
    main()
