"""Lists of fetch specs, and refs to fetch, to track or to prune with them, by a given chooser: for compare-git.py and
compare-plans.py.

The names share words, so that a partial name may stand for several refs.
"""
import itertools

import gitknown  # beside this script, as the next one
import gitplans

# What names of refs are made of.
WORDS = [b"main", b"a", b"b", b"ab", b"a.b", b"x1", b"v1", b"origin"]
FRONTS = [b"refs/heads/"] * 6 + [b"refs/tags/"] * 3 + [b"refs/remotes/"] * 2 + [
    b"refs/", b"refs/remotes/origin/", b"refs/x/", b"refs/heads/heads/", b"refs/heads/tags/",
    b"refs/heads/remotes/", b"refs/heads/refs/", b"refs/heads/refs/heads/", b"refs/tags/heads/", b"refs/tags/tags/",
    b"refs/tags/refs/tags/", b"refs/remotes/heads/", b"refs/remotes/refs/heads/", b"refs/refs/heads/",
    b"refs/heads/a/"]
BACKS = [b""] * 6 + [b"/HEAD", b"/b", b"/a.b", b"-b"]
# Names that some patterns turn into no name.
ODD = [b"refs/heads/{b", b"refs/heads/lock", b"refs/tags/lock"]
DIGITS = b"0123456789abcdef" * 4
# What a partial name may lack.
SHORT = [b"refs/heads/", b"refs/tags/", b"refs/remotes/", b"refs/"]
# What destinations are made of, and destinations with a star.
NEW = [b"new", b"m", b"a", b"b", b"a/b", b"c"]
FAR_FRONTS = [b"refs/q/"] * 4 + [b"refs/heads/"] * 2 + [b"refs/remotes/origin/"] * 2 + [
    b"refs/", b"", b"", b"heads/", b"tags/", b"remotes/origin/"]
FAR_PATTERNS = [b"refs/remotes/origin/*"] * 4 + [b"refs/q/*"] * 4 + [
    b"refs/heads/*", b"refs/*", b"*", b"refs/q*", b"refs/q/a*", b"refs/q/*/head", b"refs/q/*-b", b"refs/q/@*",
    b"refs/q/x.*", b"foo/*", b"foo/*", b"q*", b"heads/*", b"*"]
# The sides of specs that are read from right to left, for the most part such that they overlap.
FRONT_PATTERNS = [b"refs/heads/*", b"refs/tags/*", b"refs/f/*", b"*"]
NEAR_PATTERNS = [b"refs/remotes/origin/*", b"refs/r/*", b"refs/r/*", b"refs/r/a/*", b"refs/r/*/b", b"refs/*", b"*",
                 b"refs/heads/*"]
NEAR_NAMES = [b"refs/remotes/origin/a", b"refs/r/a/b", b"refs/r/b", b"refs/x/main", b"refs/heads/b",
              b"refs/heads/a", b"side", b"heads/b", b"tags/b", b"remotes/origin/a"]
NEAR_WORDS = [b"a", b"b", b"main", b"a/b", b"b/b"]


def name(random_):
    return random_.choice(FRONTS) + random_.choice(WORDS) + random_.choice(BACKS)


def clash(one, other):
    """Whether two names can't both be refs, as one is a folder for the other."""
    return one.startswith(other + b"/") or other.startswith(one + b"/")


def apart(names):
    """The names without repeats, and without those that clash with an earlier one."""
    kept = []
    for one in names:
        if one not in kept and not any(clash(one, other) for other in kept):
            kept.append(one)
    return kept


def can_be_written(written, refs):
    """Whether git can write these refs: it refuses a name that is a folder for another, and a tag as a branch."""
    tags = {ref.id for ref in refs if ref.object}
    return (len(apart(written)) == len(written)
            and not any(one.startswith(b"refs/heads/") and id_ in tags for one, id_ in written.items()))


def candidate_sets():
    """A partial source and names of refs, for each set of its candidates that a repository can have."""
    for source_, forms in ((b"a", gitknown.CANDIDATES[1:]), (b"HEAD", gitknown.CANDIDATES)):
        names = [form % source_ for form in forms]
        sets = itertools.chain(*(itertools.combinations(names, size) for size in range(1, len(names) + 1)))
        yield from ((source_, chosen) for chosen in sets if len(apart(chosen)) == len(chosen))


def remote_names(random_):
    """Names of refs, with several that a partial name may stand for, and those of annotated tags."""
    names = [name(random_) for _ in range(random_.randint(3, 9))]
    for word in random_.sample([*WORDS, b"HEAD"], 2):
        names += [form % word for form in gitknown.CANDIDATES[1:] if random_.random() < 0.5]
    names += [one for one in ODD if random_.random() < 0.06]
    if random_.random() < 0.10:
        names.append(random_.choice(SHORT) + DIGITS)
    random_.shuffle(names)
    names = apart(names + [b"HEAD"] * (random_.random() < 0.8))
    return names, [one for one in names if one.startswith(b"refs/tags/") and random_.random() < 0.3]


def shortened(random_, one):
    """A partial name for a ref, if there is one."""
    between = gitknown.word_of(b"refs/remotes/*/HEAD", one)
    if between and random_.random() < 0.7:
        return between
    forms = [front for front in SHORT if one.startswith(front)]
    return one[len(random_.choice(forms)):] if forms else one


def starred(random_, one):
    """A pattern that the name fits."""
    if random_.random() < 0.45:
        return one[:one.rfind(b"/") + 1] + b"*"
    if random_.random() < 0.05:
        return b"*"
    start = random_.randint(0, len(one))
    end = random_.choice([len(one), random_.randint(start, len(one))])
    return one[:start] + b"*" + one[end:].rstrip(b"/").removesuffix(b".")


def source(random_, refs):
    """The source of a single spec."""
    kind, ref = random_.random(), random_.choice(refs)
    if kind < 0.40:
        return ref.name
    if kind < 0.82:
        return shortened(random_, ref.name)
    if kind < 0.91:
        return random_.choice([b"HEAD", b"@", b""])
    if kind < 0.97:
        return random_.choice([ref.id, ref.id, ref.id.upper()])
    return random_.choice([name(random_), shortened(random_, name(random_)), DIGITS])


def destination(random_):
    """The destination of a single spec, or none."""
    kind = random_.random()
    if kind < 0.28:
        return b""
    if kind < 0.30:
        return random_.choice([DIGITS[:40], DIGITS[:40].upper(), DIGITS.upper()])
    if kind < 0.305:
        return b"@"
    return random_.choice(FAR_FRONTS) + random_.choice(NEW)


def again(random_, one):
    """The same spec, or with another text of its id."""
    spec = gitknown.split(one)
    if gitknown.is_id(spec.source) and random_.random() < 0.7:
        return gitknown.joined(spec._replace(sign=b"", source=spec.source.swapcase()))
    return one.lstrip(b"+")


def far_of(random_, earlier):
    """The destination of a pattern that was given, so that there may be conflicts."""
    found = [spec.destination for spec in map(gitknown.split, earlier) if b"*" in spec.destination]
    return random_.choice(found) if found else None


def positive(random_, refs, earlier):
    sign, kind = random_.choice([b"", b"", b"+"]), random_.random()
    if kind < 0.10 and earlier:
        return sign + again(random_, random_.choice(earlier))
    if kind < 0.38:
        near = starred(random_, random_.choice(refs).name)
        return sign + near + b":" + random_.choice([random_.choice(FAR_PATTERNS), far_of(random_, earlier) or near])
    if kind < 0.40:
        return sign + random_.choice(refs).id + b":" + random_.choice(NEW)
    far = destination(random_)
    colon = b":" if far or random_.random() < 0.1 else b""
    return sign + source(random_, refs) + colon + far


def negative(random_, refs):
    kind, ref = random_.random(), random_.choice(refs)
    if kind < 0.35:
        return b"^" + ref.name
    if kind < 0.70:
        return b"^" + starred(random_, ref.name)
    if kind < 0.90:
        return b"^" + shortened(random_, ref.name)
    return random_.choice([b"^@", b"^HEAD", b"^*", b"^*", b"^refs/*", b"^%s*" % ref.id[:1], b"^" + DIGITS[:41]])


def fetch_specs(random_, refs):
    specs = []
    for _ in range(random_.choice([1, 1, 2, 2, 3, 4, 5])):
        specs.append(positive(random_, refs, specs))
    specs += [negative(random_, refs) for _ in range(random_.choice([0, 0, 0, 1, 1, 2]))]
    random_.shuffle(specs)
    return specs


def track_spec(random_, refs, earlier):
    sign, kind, ref = random_.choice([b"", b"+"]), random_.random(), random_.choice(refs)
    if kind < 0.10 and earlier:
        return sign + random_.choice(earlier).lstrip(b"+")
    if kind < 0.55:
        front = random_.choice([starred(random_, ref.name), random_.choice(FRONT_PATTERNS)])
        return sign + front + b":" + random_.choice(NEAR_PATTERNS)
    near = random_.choice([random_.choice(NEAR_NAMES), near_name(random_)])
    front = random_.choice([ref.name, ref.name, random_.choice(NEAR_NAMES[:4]), source(random_, refs)])
    return sign + front + (b":" + near if random_.random() < 0.9 else b"")


def near_name(random_):
    """A name that one of the patterns fits."""
    made = gitknown.filled(random_.choice(NEAR_PATTERNS[:6]), random_.choice(NEAR_WORDS))
    return made.replace(b"refs/heads/", b"refs/q/")


def track_names(random_, specs):
    """Names of local refs, for the most part those that the specs give."""
    names = []
    for far in (gitknown.split(one).destination for one in specs):
        if b"*" in far:
            names.append(gitknown.filled(far, random_.choice(NEAR_WORDS)))
        elif far:
            names.append(random_.choice([far, gitknown.full_name(far)]))
    names += [near_name(random_), random_.choice(NEAR_NAMES[:6]), random_.choice([b"refs/r/a/a", b"refs/heads/x1"])]
    random_.shuffle(names)
    return apart(one for one in names if one.startswith(b"refs/") and gitknown.is_ref_name(one))[:6]


def track_negative(random_, specs, names):
    """A negative spec, for the most part for a source of one of the names."""
    spec, one = gitknown.split(random_.choice(specs)), random_.choice(names)
    word = gitknown.word_of(spec.destination, one) if b"*" in spec.destination else None
    excluded = gitknown.filled(spec.source, random_.choice(NEAR_WORDS) if word is None else word)
    if excluded == b"" or len(excluded) >= 40:
        excluded = one
    return b"^" + (starred(random_, excluded) if random_.random() < 0.3 else excluded)


def track_list(random_, refs):
    """Specs and names of local refs."""
    specs = []
    for _ in range(random_.choice([1, 2, 2, 3, 4])):
        specs.append(track_spec(random_, refs, specs))
    names = track_names(random_, specs)
    specs += [track_negative(random_, specs, names) for _ in range(random_.choice([0, 0, 1, 1, 2]))]
    return specs, names


# Values of a remote: those of a clone, and none.
USUAL_VALUES = [[b"+refs/heads/*:refs/remotes/origin/*"]] * 2 + [[b"+refs/heads/*:refs/remotes/origin/*", b"^refs/heads/a"], []]
# Words of local refs that the remote may lack.
LOST_WORDS = [b"a", b"b", b"main", b"gone", b"a/b", b"lost/head", b"x-b"]


def values(random_, refs):
    """Fetch values of a remote; an empty one can't be in a file with one a line."""
    made = list(random_.choice(USUAL_VALUES)) if random_.random() < 0.5 else fetch_specs(random_, refs)
    if random_.random() < 0.15:
        made += contest(random_, refs, made)
    return [one if one.strip(b"+") else b":" for one in made]


def contest(random_, refs, specs):
    """A spec from another ref to a destination of these specs, if there is one; and the ref that they give it from."""
    pairs = [pair for one in gitknown.positive_ones(specs) for pair in gitknown.pairs_of(gitknown.split(one), refs)
             if pair[1].startswith(b"refs/") and gitknown.is_ref_name(pair[1])]
    if not pairs:
        return []
    taken, far = random_.choice(pairs)
    return random_.sample([taken, source(random_, refs) + b":" + far], 2)


def merge(random_, refs):
    """A value of branch.<name>.merge, for the most part a full name."""
    kind, ref = random_.random(), random_.choice(refs).name
    if kind < 0.65:
        return ref
    return shortened(random_, ref) if kind < 0.85 else name(random_)


def wish(random_, refs):
    """What a fetch is asked for."""
    given = fetch_specs(random_, refs) if random_.random() < 0.6 else []
    configured = values(random_, refs)
    refmap = random_.choice([[], values(random_, refs)]) if given and random_.random() < 0.25 else None
    if given and random_.random() < 0.25:
        given += contest(random_, refs, configured)
    merges = [merge(random_, refs) for _ in range(random_.choice([0, 0, 0, 1, 1, 2]))]
    return gitplans.Wish(given, configured, refmap, merges, random_.random() < 0.3)


def lost_names(random_, refs, specs):
    """Names of local refs, for the most part those that the specs give of refs that the remote has or lacks."""
    names = [name(random_) for _ in range(3)]
    for spec in filter(gitknown.is_positive, map(gitknown.split, specs)):
        if b"*" in spec.destination:
            words = [gitknown.word_of(spec.source, ref.name) for ref in refs]
            kept = [word for word in words if word is not None and random_.random() < 0.5]
            names += [gitknown.filled(spec.destination, word) for word in kept + random_.sample(LOST_WORDS, 3)]
        elif spec.destination:
            names.append(gitknown.full_name(spec.destination))
    random_.shuffle(names)
    return told_apart(apart(one for one in names if one.startswith(b"refs/") and gitknown.is_ref_name(one)))


def told_apart(names):
    """The names without those that git tells as an earlier one."""
    kept = {}
    for one in names:
        kept.setdefault(gitplans.USUAL.sub(b"", one), one)
    return list(kept.values())
