#!/usr/bin/env python3
"""Asks a real server by the ref prefixes of `refspec prefixes`: tools/oracle/compare-prefixes.py REFSPEC [--cases N] [--seed N]
[--sample FILE]

REFSPEC is the built program. For each generated group of specs, none of them negative, of refs, and of options:

- what `git upload-pack` lists for the ref prefixes has each ref that a spec takes; with --push each destination, or candidate of a
  partial one; and what the options promise: with --tags each tag, with --head `HEAD`, and with --merge the merged ref;
- no ref prefix begins with another one;
- without any one of them, a repository with a single such ref doesn't list it. A partial name is a candidate of its own outside
  `refs/`, where no server has refs but `HEAD`: for these no repository can be made.

Then it asks for 65,535 ref prefixes, which the server heeds, and for one more, for which it lists every ref; and for one that just fits
into a packet line. --sample writes the groups for tests/library/git_prefixes.py. It needs git and python3.
"""
import argparse
import collections
import os
import random
import subprocess
import sys
import tempfile

sys.dont_write_bytecode = True
import gitprefixes  # beside this script

WORDS = [b"main", b"a", b"ab", b"a/b", b"a.b", b"v1", b"HEAD", b"x"]
FOLDERS = [b"refs/heads/", b"refs/tags/", b"refs/remotes/", b"refs/", b"refs/x/", b"refs/heads/a/"]
PATTERNS = [b"*", b"*", b"*", b"a*", b"a/*", b"*/b", b"a*b", b"m*n"]
MERGES = [b"HEAD", b"refs/heads/main", b"refs/heads/a/b", b"refs/tags/v1", b"main", b"v1"]
OTHERS = [b"HEAD", b"@:refs/q/HEAD", b"refs/*:refs/q/*", b"e69de29bb2d1d6434b8b29ae775ad8c2e48c5391", b":refs/q/x"]
MOST = 65535
LONGEST = 65516 - len(b"ref-prefix ")


def spec(random_):
    kind = random_.random()
    if kind < 0.1:
        return random_.choice(OTHERS)
    if kind < 0.4:
        return random_.choice(WORDS)
    if kind < 0.7:
        return random_.choice(FOLDERS) + random_.choice(WORDS)
    text = random_.choice(FOLDERS) + random_.choice(PATTERNS)
    return b"+" + text + b":refs/q/" + random_.choice([b"*", b"x/*"])


def push(random_):
    """A spec of a push."""
    kind = random_.random()
    if kind < 0.05:
        return random_.choice([b":", b"main", b"refs/heads/main"])
    if kind < 0.3:
        return random_.choice([b"", b"refs/heads/m", b"+v1"]) + b":" + random_.choice(WORDS)
    if kind < 0.6:
        return random_.choice([b"", b"HEAD", b"+refs/heads/m"]) + b":" + random_.choice(FOLDERS) + random_.choice(WORDS)
    return b"refs/q/" + random_.choice([b"*", b"x/*"]) + b":" + random_.choice(FOLDERS) + random_.choice(PATTERNS)


def options_of(random_):
    """Half of the calls have options, and half of these are of a push."""
    if random_.random() < 0.5:
        return []
    chosen = [option for option in (b"--tags", b"--head", b"--push") if random_.random() < 0.5]
    return chosen + [b"--merge=" + random_.choice(MERGES) for _ in range(random_.choice([0, 0, 1, 2]))]


def refs(random_):
    names = {random_.choice(FOLDERS) + random_.choice(WORDS) + random_.choice([b"", b"", b"/HEAD", b"b"])
             for _ in range(random_.randrange(1, 12))}
    kept = []
    for name in sorted(names):
        if not any(name.startswith(other + b"/") for other in kept):
            kept.append(name)
    return kept + [b"HEAD"] * random_.randrange(2)


def prefixes(program, specs, options):
    """The ref prefixes for some specs; `[]` if no request is needed, and None if all refs are to be requested."""
    made = subprocess.run([program, "prefixes", "-z", *options, "--", *specs], capture_output=True, check=False)
    if made.returncode:
        sys.exit(f"compare-prefixes.py: {options} {specs}: {made.stderr!r}")
    found = made.stdout.split(b"\0")[:-1]
    return None if found == [b""] else found


def try_borders(folder):
    """How many ref prefixes a server heeds, and how long one may be."""
    path = os.path.join(folder, "borders")
    gitprefixes.repository(path, [b"refs/heads/a", b"refs/heads/b"])
    many = [b"refs/heads/a"] + [b"refs/tags/%d" % index for index in range(MOST)]
    for count, wanted in [(MOST, {b"refs/heads/a"}), (MOST + 1, {b"refs/heads/a", b"refs/heads/b"})]:
        if gitprefixes.listed(path, many[:count]) != wanted:
            sys.exit(f"compare-prefixes.py: {count} ref prefixes")
    if gitprefixes.listed(path, [b"refs/heads/a", b"refs/tags/".ljust(LONGEST, b"a")]) != {b"refs/heads/a"}:
        sys.exit("compare-prefixes.py: the longest ref prefix")


def sample(groups):
    for group in groups:
        for name, lines in zip(("spec", "ref", "prefix", "option"), group):
            yield from (name.encode() + b" " + line for line in lines)
        yield b""


def main():
    options = argparse.ArgumentParser()
    options.add_argument("refspec")
    options.add_argument("--cases", type=int, default=200)
    options.add_argument("--seed", type=int, default=1)
    options.add_argument("--sample")
    options = options.parse_args()
    random_, counts, groups = random.Random(options.seed), collections.Counter(), []
    with tempfile.TemporaryDirectory() as folder:
        for case in range(options.cases):
            chosen = options_of(random_)
            make = push if b"--push" in chosen else spec
            specs = [make(random_) for _ in range(random_.randrange(1, 5))]
            found = prefixes(options.refspec, specs, chosen)
            counts["all" if found is None else "listed" if found else "nothing"] += 1
            if found is None:
                continue
            groups.append(gitprefixes.Group(specs, refs(random_), found, chosen))
            for fault in gitprefixes.faults(groups[-1], os.path.join(folder, str(case))):
                print(f"{chosen} {specs}: {fault.decode(errors='backslashreplace')}")
                counts["faults"] += 1
        try_borders(folder)
    if options.sample:
        with open(options.sample, "wb") as file:
            file.write(b"\n".join(sample(groups)))
    print(", ".join(f"{count} {name}" for name, count in sorted(counts.items())))
    return min(counts["faults"], 1)


if __name__ == "__main__":
    sys.exit(main())
