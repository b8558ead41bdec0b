"""The fetch values of remotes as people set them up, and what is asked about them, by a given chooser. All texts are bytes.

The values are those of a remote `o`. None is made for a rule.
"""
import re

import gitlists  # beside this script

WORDS = [b"main", b"dev", b"x", b"a/b", b"main-x", b"wip/a", b"7"]
FOLDERS = [b"refs/heads/", b"refs/tags/", b"refs/remotes/o/", b"refs/x/", b"heads/", b""]
PATTERNS = [b"*", b"x*", b"*x", b"a/*", b"ma*n", b"*/b", b"m*"]
NAMES = [b"o", b"origin", b"a/b", b"o.x", b"oo", b"up-stream", b"refs", b"heads"]
# A whole clone, one branch, a mirror, reviews, tags, and branches that are left out.
USUAL = [
    [b"+refs/heads/*:refs/remotes/o/*"],
    [b"+refs/heads/main:refs/remotes/o/main"],
    [b"+refs/heads/main:refs/remotes/o/main", b"+refs/heads/dev:refs/remotes/o/dev"],
    [b"+refs/*:refs/*"],
    [b"+refs/heads/*:refs/heads/*"],
    [b"+refs/heads/*:refs/remotes/o/*", b"+refs/pull/*/head:refs/remotes/o/pr/*"],
    [b"+refs/heads/*:refs/remotes/o/*", b"+refs/merge-requests/*/head:refs/remotes/o/merge-requests/*"],
    [b"+refs/heads/*:refs/remotes/o/*", b"+refs/tags/*:refs/tags/*"],
    [b"+refs/heads/*:refs/remotes/o/*", b"^refs/heads/wip/*"],
    [b"+refs/heads/*:refs/remotes/o/*", b"^refs/heads/dev"],
    [b"refs/heads/main:refs/remotes/o/main", b"refs/heads/main"],
]
OTHERS = [b"@", b"HEAD", b"", b"@:x", b"HEAD:refs/remotes/o/HEAD", b":refs/x/y", b"refs/heads/x:", b"main:", b"1" * 40 + b":refs/x/id"]
# What else is set up: parts of a folder, partial names, stars in the middle, HEAD, reviews of other hosts, and what was written by hand.
RARE = [
    [b"+refs/heads/main:refs/remotes/o/main", b"+refs/tags/*:refs/tags/*"],
    [b"+refs/heads/release/*:refs/remotes/o/release/*", b"+refs/heads/main:refs/remotes/o/main"],
    [b"+refs/heads/m*:refs/remotes/o/m*"],
    [b"+refs/heads/*/b:refs/remotes/o/*/b"],
    [b"+refs/heads/ma*n:refs/remotes/o/ma*n", b"+refs/heads/dev:refs/remotes/o/dev"],
    [b"+refs/pull/*:refs/remotes/o/pull/*", b"+refs/heads/*:refs/remotes/o/*"],
    [b"+refs/heads/*:refs/remotes/o/*", b"+refs/pull/7/head:refs/heads/pr-7"],
    [b"+refs/changes/*:refs/remotes/o/changes/*", b"+refs/heads/*:refs/remotes/o/*"],
    [b"+refs/heads/*:refs/remotes/o/*", b"+refs/notes/*:refs/notes/*"],
    [b"+refs/heads/*:refs/remotes/o/*", b"^refs/heads/wip/*", b"^refs/heads/*-x"],
    [b"+refs/heads/*:refs/remotes/o/*", b"^refs/pull/*", b"+refs/pull/*/merge:refs/remotes/o/merge/*"],
    [b"+refs/*:refs/*", b"^refs/pull/*"],
    [b"+refs/heads/*:refs/heads/*", b"+refs/tags/*:refs/tags/*", b"^refs/heads/wip/*"],
    [b"+HEAD:refs/remotes/o/HEAD"],
    [b"+HEAD:refs/remotes/o/HEAD", b"+refs/heads/main:refs/remotes/o/main"],
    [b"main:refs/remotes/o/main", b"dev:refs/remotes/o/dev"],
    [b"+main:main"],
    [b"main"],
    [b"heads/main:refs/remotes/o/main", b"^refs/heads/dev"],
    [b"tags/v1:tags/v1", b"+refs/heads/*:refs/remotes/o/*"],
    [b"refs/heads/*:refs/remotes/o/*"],
    [b"+refs/heads/*:refs/remotes/o/*", b"+refs/tags/*:refs/remotes/o/*"],
    [b"+refs/heads/*:refs/remotes/o/*", b"+refs/tags/*:refs/remotes/o/tags/*"],
    [b"+refs/heads/*:refs/remotes/o/heads/*", b"+refs/tags/*:refs/remotes/o/tags/*", b"^refs/tags/*-rc"],
    [b"+refs/heads/*:refs/x/*"],
    [b"refs/heads/main:main", b"refs/heads/dev:heads/dev"],
]
# The values of another remote of the repository: mostly below its own folder.
BESIDE = [[], [], [], [b"+refs/heads/*:refs/remotes/p/*"], [b"+refs/heads/main:refs/remotes/p/main"], [b"+refs/heads/*:refs/remotes/o/*"],
          [b"+refs/heads/*:refs/remotes/p/*", b"^refs/heads/dev"], [b"+refs/*:refs/p/*"]]
# Texts that no refspec is.
INVALID = [b"refs/heads/*:refs/remotes/o/", b"refs/heads/a..b", b"^refs/heads/x:refs/x", b"refs/heads/*:refs/*/*", b"main:refs/x/", b"a b"]
REFS = [b"HEAD", b"refs/heads/main", b"refs/heads/dev", b"refs/heads/x", b"refs/heads/a/b", b"refs/heads/main-x", b"refs/heads/wip/a",
        b"refs/tags/main", b"refs/tags/v1", b"refs/x/main", b"refs/pull/7/head", b"refs/merge-requests/7/head", b"refs/remotes/o/x"]
# What else a remote has, beside what values name.
ON_REMOTE = [b"refs/heads/main", b"refs/heads/dev", b"refs/heads/main-x", b"refs/heads/wip/a", b"refs/heads/release/1.0", b"refs/tags/v1",
             b"refs/tags/v1-rc", b"refs/tags/main", b"refs/pull/7/head", b"refs/pull/7/merge", b"refs/changes/34/1234/1", b"refs/notes/commits"]
CANDIDATES = [b"refs/heads/%s"] * 6 + [b"refs/tags/%s"] * 2 + [b"refs/%s", b"refs/remotes/%s"]
REMOTE_NAMES = [b"a:b", b"@", b"x.lock", b"..", b"a b", b"-o", b"a/"]
BRANCHES = [*WORDS, *PATTERNS, b"heads/main", b"heads/*", b"a..b", b"@", b"a:b", b"", b"*/*", b"+x"]


def name(random_):
    return random_.choice(FOLDERS[:2] * 3 + FOLDERS) + random_.choice(WORDS)


def pattern(random_):
    return random_.choice(FOLDERS[:4] * 3 + FOLDERS) + random_.choice(PATTERNS[:1] * 4 + PATTERNS)


def spec(random_):
    sign, kind = random_.choice([b"", b"+"]), random_.random()
    if kind < 0.2:
        return b"^" + random_.choice([name, pattern])(random_)
    if kind < 0.55:
        return sign + pattern(random_) + b":" + pattern(random_)
    if kind < 0.8:
        return sign + name(random_) + b":" + name(random_)
    if kind < 0.92:
        return sign + name(random_)
    return sign + random_.choice(OTHERS)


def values(random_, most=4):
    """The fetch values of a remote: usual ones, mostly with a few others beside them, or only such."""
    found = list(random_.choice(USUAL)) if random_.random() < 0.5 else [spec(random_)]
    for _ in range(random_.randint(0, most - 1)):
        found.insert(random_.randint(0, len(found)), spec(random_))
    return found


def set_up(random_):
    """The fetch values of a remote: mostly what is set up and nothing else; now and then with a text that no refspec is."""
    kind = random_.random()
    found = values(random_) if kind < 0.35 else list(random_.choice(USUAL + RARE * 2))
    if kind > 0.8:
        found.insert(random_.randint(0, len(found)), spec(random_))
    if random_.random() < 0.02:
        found.append(random_.choice(INVALID))
    return found


def source_of(value):
    return value.lstrip(b"+^").rpartition(b":")[0] or value.lstrip(b"+^").rstrip(b":")


def merged(random_, texts):
    """A merged ref: often a source of the values, with a word for its star."""
    source = source_of(random_.choice(texts))
    if random_.random() < 0.6 and source:
        return source.replace(b"*", random_.choice(WORDS))
    return random_.choice([name(random_), name(random_), b"HEAD", b"@", b"1" * 40, b"refs/heads/*"])


def named_by(random_, text):
    """The name of a ref that a value may speak of; empty if it names none."""
    source = source_of(text).replace(b"*", random_.choice(WORDS)) or b"HEAD"
    if source in (b"@", b"HEAD"):
        return b"HEAD"
    return source if source.startswith(b"refs/") else random_.choice(CANDIDATES) % source


def is_name(text):
    """Whether a repository can have a ref of this name."""
    return text == b"HEAD" or re.fullmatch(rb"refs(/[a-zA-Z0-9]+([.+-][a-zA-Z0-9]+)*)+", text) is not None


def refs_for(random_, texts):
    """The refs of a remote with such values: mostly what these name, and others."""
    found = [named_by(random_, text) for text in texts * 2 if random_.random() < 0.8]
    found += random_.sample(ON_REMOTE, random_.randint(1, 5))
    return gitlists.apart([one for one in found if is_name(one)])
