#!/usr/bin/env python3
"""Compares gix_refspec_why with the installed Git: tools/oracle/compare-fates.py [--cases N] [--seed N]

A case is some values of a remote and its refs. Of each of these, and of one that isn't there, the program tells what each spec
does with it. Where it says that the ref is written, a fetch of all specs writes it, and where not, it doesn't; where it tells a
conflict, git fails at one; and by each spec alone git takes just the refs that its source matches, or excludes them. What git
doesn't show is compared with the texts: how many bytes agree, what a star stands for, and which spec and which ref are named.

It needs git, python3 and the toolchain: `rt try` runs why.rt.txt over the crate, without proof; rt takes no other file of sources here.
"""
import argparse
import collections
import os
import random
import re
import shutil
import subprocess
import sys
import tempfile
from concurrent.futures import ThreadPoolExecutor

sys.dont_write_bytecode = True
import gitfates  # beside this script

HERE = os.path.dirname(os.path.abspath(__file__))
CRATES = os.path.join(HERE, os.pardir, os.pardir, "crates")
LIBRARY = ("gix_refspec_text", "gix_refspec_match", "gix_refspec", "gix_refspec_plan", "gix_refspec_why")
# What people set up: a whole clone, one branch, a mirror, reviews, tags, what is left out, and short names.
USUAL = [
    [b"+refs/heads/*:refs/remotes/o/*"],
    [b"+refs/heads/main:refs/remotes/o/main"],
    [b"+refs/heads/main:refs/remotes/o/main", b"+refs/heads/dev:refs/remotes/o/dev"],
    [b"+refs/*:refs/*"],
    [b"+refs/heads/*:refs/heads/*"],
    [b"+refs/heads/*:refs/remotes/o/*", b"+refs/pull/*/head:refs/remotes/o/pr/*"],
    [b"+refs/heads/*:refs/remotes/o/*", b"+refs/merge-requests/*/head:refs/remotes/o/merge-requests/*"],
    [b"+refs/heads/*:refs/remotes/o/*", b"+refs/tags/*:refs/tags/*"],
    [b"+refs/heads/*:refs/remotes/o/*", b"^refs/heads/wip/*"],
    [b"+refs/heads/*:refs/remotes/o/*", b"^refs/heads/dev"],
    [b"+refs/heads/*:refs/remotes/o/*", b"+refs/tags/*:refs/remotes/o/*"],
    [b"main:main", b"heads/dev:refs/x/dev", b"dev"],
    [b"refs/heads/main:refs/remotes/o/main", b"refs/heads/main"],
]
SPECS = [
    b"main", b"main:refs/x/main", b"dev:heads/x", b"heads/main:y", b"HEAD", b"@:refs/x/HEAD", b"refs/heads/main", b"refs/heads/x:refs/x/main",
    b"refs/heads/*", b"refs/heads/m*:refs/x/m*", b"refs/heads/m*n:refs/x/*", b"refs/heads/a*a:refs/x/*", b"refs/*/main:refs/x/*",
    b"refs/pull/*/head:refs/x/*", b"refs/heads/*:x/*", b"refs/heads/*:refs/x/*.lock", b"refs/tags/*:refs/x/*", b"refs/tags/*:refs/remotes/o/*",
    b"refs/heads/*:refs/x/*/y", b"refs/heads/*:refs/x/*", b"+refs/heads/main:refs/x", b"^refs/heads/main", b"^main", b"^refs/heads/m*",
    b"^refs/heads/*a", b"^refs/heads/a*a", b"^refs/tags/*", b"^refs/*/main", b"^HEAD", b"^refs/pull/*/head",
]
NAMES = [
    b"HEAD", b"refs/heads/main", b"refs/heads/dev", b"refs/heads/x", b"refs/heads/a/b", b"refs/heads/main-x", b"refs/heads/wip/a", b"refs/heads/a",
    b"refs/heads/aa", b"refs/heads/aba", b"refs/heads/pr/7", b"refs/heads/7", b"refs/tags/main", b"refs/tags/v1", b"refs/tags/dev",
    b"refs/tags/x/y", b"refs/x/main", b"refs/pull/7/head", b"refs/pull/7/merge", b"refs/pull/7/bread", b"refs/pull/head",
    b"refs/merge-requests/7/head", b"refs/remotes/o/x", b"refs/remotes/main/HEAD", b"refs/main",
]
EFFECTS = re.compile(rb"Effects \{ item_index: (None|Some\((\d+)\)), of_specs: \[(.*)\] \}")
EFFECT = re.compile(rb'Effect \{ destination: (?:None|Some\("(.*?)"\)), fate: (.*?) \}(?=, Effect|$)')
Case = collections.namedtuple("Case", "texts names lacking")


def speaks_of(text, name):
    """Whether the source of a value matches a ref, or is a part of it."""
    source = gitfates.source_of(text.removeprefix(b"^"))
    return pattern_mismatch(source, name) is None if b"*" in source else name.endswith(source)


def case_of(fates, random_):
    """A case of values that git takes, and of which none lacks its source; None if nothing is left."""
    texts = list(random_.choice(USUAL)) if random_.random() < 0.6 else []
    for _ in range(random_.randint(not texts, 3)):
        texts.insert(random_.randint(0, len(texts)), random_.choice(SPECS))
    # mostly refs that the values speak of
    spoken = [[name for name in NAMES if speaks_of(text, name)] or NAMES for text in texts]
    chosen = {*random_.sample(NAMES, random_.randint(1, 5)), *(random_.choice(found) for found in spoken for _ in range(2))}
    chosen = sorted(chosen)
    random_.shuffle(chosen)
    # a ref has no directory that is another one
    names = tuple(name for name in chosen if not any(other.startswith(name + b"/") for other in chosen))
    lacking = random_.choice([name for name in NAMES if name not in names])
    texts = fates.complete(names, texts)
    return Case(texts, names, lacking) if texts and any(not text.startswith(b"^") for text in texts) else None


def questions(case):
    """The refs that are asked for, and what the remote has: those of the remote, and the one that it lacks, also if it had it."""
    return [*((name, case.names) for name in case.names), (case.lacking, case.names), (case.lacking, (*case.names, case.lacking))]


def words_of(debug):
    """A fate as the tests write it."""
    numbers = re.findall(rb"\d+", debug)
    kind, _, inner = debug.partition(b"(")
    word = b" " + b"+".join(numbers[-2:]) if b"StarWord" in debug else b""
    if kind == b"Unmatched":
        return b" ".join([re.sub(rb"(?<=[a-z])(?=[A-Z])", b" ", inner.partition(b"(")[0].rstrip(b")")).lower(), *numbers])
    if kind == b"Excludes":
        return b"excludes" + word
    if kind == b"Excluded":
        return b"excluded by " + numbers[0] + word
    if kind == b"Duplicate":
        return b"duplicate of " + numbers[0]
    rival = b" ".join(numbers + [b"-"] * (len(numbers) < 2))
    return {b"InvalidName": b"invalid name", b"InvalidDestination": b"invalid destination", b"Written": b"written",
            b"InConflict": b"conflict " + rival, b"DirectoryConflict": b"directory conflict " + rival}[kind]


def effects_of(line):
    found = EFFECTS.fullmatch(line)
    if not found:
        sys.exit(f"compare-fates: the program says {line!r}")
    index = None if found[2] is None else int(found[2])
    return gitfates.Effects(index, [(words_of(debug).decode(), far or None) for far, debug in EFFECT.findall(found[3])])


def answered(folder, cases):
    """The effects for each question of each case."""
    for crate in LIBRARY:
        shutil.copytree(os.path.join(CRATES, crate), os.path.join(folder, "crates", crate), ignore=shutil.ignore_patterns("out"))
    own = os.path.join(folder, "crates", "refspec_why")
    os.makedirs(os.path.join(own, "src"))
    shutil.copyfile(os.path.join(HERE, "why.rt.txt"), os.path.join(own, "src", "main.rt"))
    with open(os.path.join(CRATES, os.pardir, "crates.txt"), encoding="utf-8") as lines:
        table = [line for line in lines if line.split(":")[0] in LIBRARY]
    with open(os.path.join(folder, "crates.txt"), "w", encoding="utf-8") as file:
        file.write("".join(table) + "refspec_why: gix_refspec_why gix_refspec bstr\n")
    lines = [b"\t".join((name, b" ".join(case.texts), b" ".join(names))) for case in cases for name, names in questions(case)]
    made = subprocess.run(["rt", "try", "--seconds", "3000"], cwd=own, input=b"\n".join(lines) + b"\n", capture_output=True, check=False)
    found = made.stdout.split(b"\n")[:-1]
    if made.returncode or len(found) != len(lines):
        sys.exit(f"compare-fates: the program failed: {made.stdout[-2000:]!r} {made.stderr[-4000:]!r}")
    answers = iter(map(effects_of, found))
    return [[next(answers) for _ in questions(case)] for case in cases]


def agreeing(one, other):
    """With how many equal bytes two texts begin."""
    return len(os.path.commonprefix([one, other]))


def pattern_mismatch(pattern, name):
    """Why a pattern doesn't match a name; None if it does."""
    before, after = pattern.split(b"*")
    if not name.startswith(before):
        return f"prefix {agreeing(before, name)}"
    if not name.endswith(after):
        return f"suffix {agreeing(after[::-1], name[::-1])}"
    return "overlap" if len(name) < len(before) + len(after) else None


def told_otherwise(case, names, name, effects, all_effects):
    """What the words of the effects say otherwise than texts and indexes."""
    if effects.index != (names.index(name) if name in names else None):
        yield f"index {effects.index}"
    excluding = []
    for k, (text, (fate, far)) in enumerate(zip(case.texts, effects.of_specs)):
        source, words = gitfates.source_of(text.removeprefix(b"^")), fate.split()
        if b"*" in source and words[0] in ("prefix", "suffix", "overlap") and fate != pattern_mismatch(source, name):
            yield f"{text}: {fate}, not {pattern_mismatch(source, name)}"
        if words[0] == "excludes":
            before, _, after = source.partition(b"*")
            star = f" {len(before)}+{len(name) - len(before) - len(after)}" if b"*" in source else ""
            excluding.append(f"excluded by {k}{star}")
            if fate != "excludes" + star:
                yield f"{text}: {fate}, not{star}"
        if words[0] == "duplicate":
            first = next(j for j, other in enumerate(effects.of_specs) if other[1] == far and not text_excludes(case.texts[j], other[0]))
            if first >= k or int(words[-1]) != first:
                yield f"{text}: {fate}, not of {first}"
        if words[0] in ("conflict", "directory") and words[-1] != "-":
            spec, item = map(int, words[-2:])
            rival = all_effects[item].of_specs[spec][1]
            nested = rival and (rival.startswith(far + b"/") or far.startswith(rival + b"/"))
            if words[0] == "conflict" and (rival != far or item == effects.index) or words[0] == "directory" and not nested:
                yield f"{text}: {fate} is {rival}"
        if words[0] == "earlier" and candidate(source, names[int(words[-1])]) >= candidate(source, name):
            yield f"{text}: {fate}"
    for fate, far in effects.of_specs:
        if fate.startswith("excluded") and fate != excluding[0]:
            yield f"{fate}, not {excluding[0]}"


def text_excludes(text, fate):
    """Whether the spec maps nothing."""
    return text.startswith(b"^") or fate.split()[0] in ("prefix", "suffix", "overlap", "other", "object", "no", "earlier")


def candidate(source, name):
    """The index of a candidate of a partial name."""
    source = b"HEAD" if source == b"@" else source
    forms = [b"%s", b"refs/%s", b"refs/tags/%s", b"refs/heads/%s", b"refs/remotes/%s", b"refs/remotes/%s/HEAD"]
    return [form % source for form in forms].index(name)


def differences(fates, case, answers):
    asked = questions(case)
    *_, lacking, listed = answers
    if lacking.of_specs != listed.of_specs:
        yield f"{case.lacking} by {case.texts}: {lacking}, and if it were there {listed}"
    for (name, names), effects in zip(asked, answers):
        found = list(told_otherwise(case, names, name, effects, answers[:-2] + answers[-1:]))
        if names == case.names and name in names:
            found += fates.differences(names, case.texts, name, effects)
        for text in found:
            yield f"{name} by {case.texts} of {names}: {effects}: {text}"


def main():
    parser = argparse.ArgumentParser(description=__doc__, formatter_class=argparse.RawDescriptionHelpFormatter)
    parser.add_argument("--cases", type=int, default=500)
    parser.add_argument("--seed", type=int, default=1)
    parser.add_argument("--jobs", type=int, default=2, help="how many repositories are made at a time")
    parser.add_argument("--shown", type=int, default=5, help="how many differences are shown")
    options = parser.parse_args()
    with tempfile.TemporaryDirectory() as folder, ThreadPoolExecutor(options.jobs) as pool:
        fates, cases, number = gitfates.Fates(os.path.join(folder, "git")), [], 0
        while len(cases) < options.cases:
            wanted = range(number, number + options.cases)
            number += options.cases
            cases += filter(None, pool.map(lambda k: case_of(fates, random.Random(f"{options.seed} {k}")), wanted))
        cases = cases[:options.cases]
        answers = answered(folder, cases)
        found = list(pool.map(lambda one: list(differences(fates, *one)), zip(cases, answers)))
        words = collections.Counter(re.sub(r"[^a-z]+", " ", fate).strip() for one in answers for effects in one for fate, _ in effects.of_specs)
        unknown = [text for one in found for text in one]
        for text in unknown[:options.shown]:
            print(f"compare-fates: unknown: {text}")
        print(f"compare-fates: {len(cases)} cases, seed {options.seed}, {sum(map(len, answers))} refs; fates {dict(words)};"
              f" {len(unknown)} unknown differences")
    sys.exit(1 if unknown else 0)


if __name__ == "__main__":
    main()
