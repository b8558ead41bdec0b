#!/usr/bin/env python3
"""Holds the procedure of `gix_refspec_lint` against brute force: tools/oracle/lint.py GROUPS [SEED]

For random groups of specs it asks the procedure which specs can conflict, which can be in a directory conflict, and which are
idle, and tries all lists of one and two refs over a small alphabet, and for idle specs those with up to three other candidates
of partial names. Nothing printed but counts: no difference. Each example of a conflict is mapped too. No list has a ref and
another one in a directory of its name where conflicts are looked for. Some groups have merged refs, or all tags are asked for.
Of an idle spec it also asks which earlier one maps all that it fetches, and whether a fetch needs its source.

A spec is (negative, source, destination or None); texts are str. Mapping is that of a plan of configured specs: destinations
completed as git-fetch does, mappings with an invalid side left out, equal mappings of earlier specs dropped, sources of negative
specs excluded. The free byte is `c`, as no text has it.
"""
import collections
import itertools
import random
import sys

HEX = set("0123456789abcdefABCDEF")

def is_name(x):
    if not x or x.startswith("/") or x.endswith("/") or "//" in x or x.endswith(".") or ".." in x or "@{" in x:
        return False
    if any(ord(c) < 32 or c in "\x7f ~^:?[\\*" for c in x):
        return False
    return all(c and not c.startswith(".") and not c.endswith(".lock") for c in x.split("/"))

def is_ref_name(x):
    return x == "HEAD" or (x.startswith("refs/") and is_name(x))

def can_be_written(d):
    return d is None or (d.startswith("refs/") and is_name(d))

def is_id(x):
    return len(x) in (40, 64) and all(c in HEX for c in x)

def kind(x):
    if "*" in x:
        return "pattern"
    if x.startswith("refs/"):
        return "full"
    return "object" if is_id(x) else "partial"

def candidates(x):
    return [x, "refs/" + x, "refs/tags/" + x, "refs/heads/" + x, "refs/remotes/" + x, "refs/remotes/" + x + "/HEAD"]

def written_name(d):
    if d.startswith("refs/"):
        return d
    return ("refs/" if d.startswith(("heads/", "tags/", "remotes/")) else "refs/heads/") + d

def word_between(p, n):
    a, b = p.split("*")
    if len(n) >= len(a) + len(b) and n.startswith(a) and n.endswith(b):
        return n[len(a):len(n) - len(b)]
    return None

def fill(p, w):
    return p.replace("*", "\0").replace("\0", w) if p is not None else None

def completed(spec):
    neg, s, d = spec
    return (neg, s, d if d is None or "*" in d else written_name(d))

ALL_TAGS = (False, "refs/tags/*", "refs/tags/*")

def asked(g, tags):
    """The specs that a fetch applies: those of all tags behind the values."""
    return g + [ALL_TAGS] if tags else g

def merged_refs(merges):
    """The refs that a fetch may take for merged ones."""
    return [n for value in merges for n in candidates(value or "HEAD") if is_ref_name(n)]

def can_stand_together(refs):
    """Whether a repository can have refs of these names."""
    return not any(other.startswith(one + "/") for one in refs for other in refs)

def makes(spec, refs):
    """The pairs that a completed positive spec makes of the refs: (source, destination); ids are ('id', hex)."""
    neg, s, d = spec
    if neg:
        return []
    k = kind(s)
    if k == "object":
        return [(("id", s.lower()), d)]
    if k == "full":
        return [(("name", s), d)] if s in refs else []
    if k == "partial":
        for c in candidates(s):
            if c in refs:
                return [(("name", c), d)]
        return []
    out = []
    for n in refs:
        w = word_between(s, n)
        if w is not None:
            out.append((("name", n), fill(d, w)))
    return out

def excludes(neg, n):
    s = neg[1]
    return word_between(s, n) is not None if "*" in s else s == n

def excluded(g, source):
    return source[0] == "name" and any(x[0] and excludes(x, source[1]) for x in g)

def sound(pair):
    (k, n), d = pair
    return (k == "id" or is_ref_name(n)) and can_be_written(d)

def kept(g, refs):
    """All kept mappings (spec, source, destination) over the refs, by simulation."""
    all_ = []
    for ids in (True, False):
        for i, x in enumerate(g):
            if not x[0] and (kind(x[1]) == "object") == ids:
                all_ += [(i, s, d) for s, d in makes(x, refs)]
    seen, out = set(), []
    for i, s, d in all_:
        if (s, d) in seen:
            continue
        seen.add((s, d))
        if not excluded(g, s):
            out.append((i, s, d))
    return out

# ---- the procedure

SHORT = ["", "r", "re", "ref", "refs", "refs/", "e", "ef", "efs", "efs/", "f", "fs", "fs/", "s", "s/", "/",
         "H", "HE", "HEA", "HEAD", "E", "EA", "EAD", "A", "AD", "D"]
ENDINGS = ["refs/"[i:] for i in (5, 4, 3, 2, 1, 0)]

def common_names(p1, p2, z):
    """Names that decide what fits both patterns."""
    a, b = p1.split("*")
    c, d = p2.split("*")
    P, Q = (a, c) if len(a) >= len(c) else (c, a)
    T, U = (b, d) if len(b) >= len(d) else (d, b)
    if not P.startswith(Q) or not T.endswith(U):
        return
    for r in ENDINGS:
        yield P + r + z + T
    for w in SHORT:
        yield P + w + T
    for k in range(1, len(T) + 1):
        yield P + T[k:]

def sources_for(x, d):
    """The sources from which a positive completed spec may write d (None: any spec without destination)."""
    s, dd = x[1], x[2]
    k = kind(s)
    if k == "pattern":
        w = word_between(dd, d)
        return [("name", fill(s, w))] if w is not None else []
    if dd != d:
        return []
    if k == "object":
        return [("id", s.lower())]
    if k == "full":
        return [("name", s)]
    return [("name", c) for c in candidates(s)]

def takes(x, source, other):
    """Whether over a list of the refs of these two sources the spec takes the first."""
    s = x[1]
    if kind(s) != "partial" or source[0] == "id" or other is None or other[0] == "id":
        return True
    cs = candidates(s)
    return not (other[1] in cs and cs.index(other[1]) < cs.index(source[1]))

def conflict_of(g, i, j, z):
    x, y = g[i], g[j]
    if x[2] is None or y[2] is None:
        return None
    if "*" in x[2] and "*" in y[2]:
        ds = common_names(x[2], y[2], z)
    else:
        ds = [x[2] if "*" not in x[2] else y[2]]
    for d in ds:
        if not can_be_written(d):
            continue
        for s in sources_for(x, d):
            for t in sources_for(y, d):
                if s != t and sound((s, d)) and sound((t, d)) and not excluded(g, s) and not excluded(g, t) \
                        and takes(x, s, t) and takes(y, t, s) \
                        and can_stand_together([n for k, n in (s, t) if k == "name"]):
                    return (s, t, d)
    return None

def can_nest_at(g, i, j, d, e):
    """The sources from which the spec at i writes d, and that at j writes e in its directory, on a remote with both, or None."""
    if not can_be_written(d) or not can_be_written(e) or not e.startswith(d + "/"):
        return None
    for s in sources_for(g[i], d):
        for t in sources_for(g[j], e):
            if sound((s, d)) and sound((t, e)) and not excluded(g, s) and not excluded(g, t) \
                    and takes(g[i], s, t) and takes(g[j], t, s) \
                    and can_stand_together([n for k, n in (s, t) if k == "name"]):
                return (s, t, d, e)
    return None

def nested_names(x, y, z):
    """The names that decide where the spec x writes a directory of what y writes: pairs of destinations."""
    if "*" not in y[2]:
        parts = [y[2][:k] for k in range(len(y[2])) if y[2][k] == "/"]
        return [(d, y[2]) for d in (parts if "*" in x[2] else [x[2]])]
    if "*" not in x[2]:
        return [(x[2], e) for e in common_names(x[2] + "/*", y[2], z)]
    before, after = y[2].split("*")
    out = []
    for k in range(len(before)):
        if before[k] == "/" and word_between(x[2], before[:k]) is not None:
            out += [(before[:k], e) for e in common_names(before[:k] + "/*", y[2], z)]
    rests = [("", "/" + z + after)] + [(after[:k], after[k:]) for k in range(len(after)) if after[k] == "/"]
    return out + [(d, d + rest) for end, rest in rests for d in common_names(x[2], before + "*" + end, z)]

def nesting_of(g, i, j, z):
    """An example of a directory conflict of two specs, in either order: (upper, lower, sources and destinations), or None."""
    for a, b in ((i, j), (j, i)):
        if g[a][0] or g[b][0] or g[a][2] is None or g[b][2] is None:
            continue
        for d, e in nested_names(g[a], g[b], z):
            found = can_nest_at(g, a, b, d, e)
            if found:
                return (a, b, *found)
    return None

def own_pairs(x, z):
    """The pairs that decide what a positive spec does."""
    s, d = x[1], x[2]
    k = kind(s)
    if k == "pattern":
        for n in common_names(s, s, z):
            w = word_between(s, n)
            if w is not None:
                yield ("name", n), fill(d, w)
        return
    if k == "object":
        yield ("id", s.lower()), d
    elif k == "full":
        yield ("name", s), d
    else:
        for c in candidates(s):
            yield ("name", c), d

def always_makes(h, i, pair):
    """Whether h makes the pair over each list of valid refs over which i does."""
    (k, n), d = pair
    if (k == "id") != (kind(h[1]) == "object"):
        return False
    if k == "id":
        return n == h[1].lower() and d == h[2]
    kh = kind(h[1])
    if kh == "pattern":
        w = word_between(h[1], n)
        return w is not None and fill(h[2], w) == d
    if h[2] != d:
        return False
    if kh == "full":
        return h[1] == n
    cs = candidates(h[1])
    if n not in cs:
        return False
    absent = []
    if kind(i[1]) == "partial":
        ci = candidates(i[1])
        absent = ci[:ci.index(n)]
    return all(not is_ref_name(c) or c in absent for c in cs[:cs.index(n)])

def idle_reason(g, i, z):
    """None if at work, else the reason."""
    reason = "invalid"
    for pair in own_pairs(g[i], z):
        if not sound(pair):
            continue
        if excluded(g, pair[0]):
            if reason == "invalid":
                reason = "excluded"
            continue
        if any(not h[0] and always_makes(h, g[i], pair) for h in g[:i]):
            reason = "duplicate"
            continue
        return None
    return reason

def covers(g, h, i, z):
    """Whether the spec at h maps all that the one at i fetches."""
    return not g[h][0] and all(always_makes(g[h], g[i], pair) for pair in own_pairs(g[i], z)
                               if sound(pair) and not excluded(g, pair[0]))

def named(x):
    """The valid refs that the source of a positive spec names. None if it is never missing."""
    if x[0] or kind(x[1]) in ("pattern", "object"):
        return None
    names = [x[1]] if kind(x[1]) == "full" else candidates(x[1])
    return {n for n in names if is_ref_name(n)}

def is_required(g, i):
    """Whether some remote lacks the source of a spec, and of no other."""
    own = named(g[i])
    others = [named(x) for j, x in enumerate(g) if j != i]
    return own is not None and all(names is None or names - own for names in others)

def idle_negative(g, k, z, merges=()):
    text = g[k][1]
    if any(excludes(g[k], n) for n in merged_refs(merges)):
        return False
    for x in g:
        if x[0]:
            continue
        if kind(x[1]) == "object":
            continue
        if kind(x[1]) == "pattern":
            if "*" in text:
                names = common_names(text, x[1], z)
            else:
                names = [text]
            for n in names:
                w = word_between(x[1], n)
                if w is not None and excludes(g[k], n) and sound((("name", n), fill(x[2], w))):
                    return False
        else:
            for (_, n), d in own_pairs(x, z):
                if excludes(g[k], n) and sound((("name", n), d)):
                    return False
    return True

# ---- brute force

def words(alphabet, upto):
    for k in range(upto + 1):
        for t in itertools.product(alphabet, repeat=k):
            yield "".join(t)

BASE = ["HEAD"] + ["refs/" + w for w in words("abc/", 3)]
for f in ("tags/", "heads/", "remotes/"):
    BASE += ["refs/" + f + w for w in words("abc", 2)]
BASE += ["refs/remotes/" + w + "/HEAD" for w in words("ab", 2)]
BASE = [n for n in BASE if is_ref_name(n)]
FILL = [w for w in words("abc/", 3)] + SHORT + [r + w for r in ENDINGS for w in ("a", "b", "c", "ab", "ba", "ca", "ac")]

def universe(g):
    u = set(BASE)
    for x in g:
        for side in x[1:2]:
            if "*" in side:
                for w in FILL:
                    u.add(fill(side, w))
            elif kind(side) == "partial":
                u.update(candidates(side))
            else:
                u.add(side)
    # destinations that two specs share, by the overlap of their texts
    ds = [x[2] for x in g if not x[0] and x[2] and "*" in x[2]]
    for x in g:
        if not x[0] and x[2] and "*" in x[2]:
            for p in ds:
                for d in [fill(p, w) for w in FILL] + overlaps(p, x[2]):
                    w = word_between(x[2], d)
                    if w is not None:
                        u.add(fill(x[1], w))
            for y in g:
                if not y[0] and y[2] and "*" not in y[2]:
                    w = word_between(x[2], y[2])
                    if w is not None:
                        u.add(fill(x[1], w))
    for x in g:
        for y in g:
            if "*" in x[1] and "*" in y[1]:
                u.update(overlaps(x[1], y[1]))
    return sorted(n for n in u if is_ref_name(n))

def overlaps(p, q):
    """Short names that fit both patterns, by enumeration of lengths."""
    out = []
    for (a, b) in ((p, q), (q, p)):
        A, B = a.split("*")[0], b.split("*")[1]
        for k in range(len(B) + 1):
            out.append(A + B[k:])
            for w in ("a", "b", "c"):
                out.append(A + w + B[k:])
    return [n for n in out if word_between(p, n) is not None and word_between(q, n) is not None]

def witnesses(g, z="c"):
    """The names that the procedure looks at: added to the universe, so that brute force judges its answers."""
    out = set()
    for x in g:
        for y in g:
            if "*" in x[1] and "*" in y[1]:
                out.update(common_names(x[1], y[1], z))
            if not x[0] and not y[0] and x[2] and y[2] and "*" in x[2] and "*" in y[2]:
                for d in common_names(x[2], y[2], z):
                    out.update(s[1] for s in sources_for(x, d) + sources_for(y, d))
    return {n for n in out if is_ref_name(n)}

def kept_validly(g, refs):
    """The kept mappings whose sides are valid."""
    return [m for m in kept(g, refs) if sound(m[1:])]

def brute(g, kept_validly=kept_validly, merges=(), tags=False):
    """The pairs of specs that can conflict, the idle specs with their reasons, and the idle negative specs, by trying lists of
    refs with what gives the valid kept mappings (spec, source, destination) of a group over refs."""
    values, g = g, asked(g, tags)
    names = sorted(set(universe(g)) | witnesses(g))
    pos = [i for i, x in enumerate(g) if not x[0]]
    negatives = [x for x in g if x[0]]
    can = {}            # the pairs of each positive spec over some list, with the list
    free = {}           # those that no negative spec excludes
    table = {}          # destination -> [(i, source)]
    for i in pos:
        lists = [[]] if kind(g[i][1]) == "object" else [[n] for n in names]
        can[i] = [(m[1:], refs) for refs in lists for m in kept_validly([g[i]], refs)]
        free[i] = [pair for pair, refs in can[i] if not negatives or kept_validly([g[i]] + negatives, refs)]
        for source, destination in free[i]:
            if destination is not None:
                table.setdefault(destination, []).append((i, source))
    conflicts = set()
    for d, l in table.items():
        for (i, s), (j, t) in itertools.combinations(l, 2):
            if s == t or (min(i, j), max(i, j)) in conflicts:
                continue
            refs = [x[1] for x in (s, t) if x[0] == "name"]
            if not can_stand_together(refs):
                continue
            if (0, s, d) in kept_validly([g[i]], refs) and (0, t, d) in kept_validly([g[j]], refs):
                assert i != j
                conflicts.add((min(i, j), max(i, j)))
    # lists that can free a spec of earlier partial ones
    extra = sorted({c for x in g if not x[0] and kind(x[1]) == "partial" for c in candidates(x[1]) if is_ref_name(c)})
    idle = {}
    for i in pos:
        if i < len(values) and not any(is_at_work(g, i, pair, extra, kept_validly) for pair in free[i]):
            idle[i] = "invalid" if not can[i] else "excluded" if not free[i] else "duplicate"
    idle_neg = set()
    for k, x in enumerate(g):
        if x[0] and all(kept_validly([g[i], x], refs) for i in pos for _, refs in can[i]) \
                and not any(excludes(x, n) for n in merged_refs(merges)):
            idle_neg.add(k)
    return conflicts, idle, idle_neg

def nesting_universe(g):
    """Names that may be sources of two destinations of which one is a directory of the other."""
    names = set(universe(g)) | witnesses(g)
    pos = [x for x in g if not x[0] and x[2]]
    written = {d for x in pos for n in (names if kind(x[1]) == "pattern" else [x[1]]) for _, d in makes(x, [n])}
    written |= {x[2] for x in pos if "*" not in x[2]}
    for y in pos:
        for x in pos:
            if "*" in y[2]:
                names.update(s[1] for d, e in (nested_names(x, y, "c") if x[2] else []) for s in sources_for(y, e))
            if "*" in x[2]:
                names.update(s[1] for d, e in nested_names(x, y, "c") for s in sources_for(x, d))
        if "*" in y[2]:
            before, after = y[2].split("*")
            ends = [w + after for w in ("", "a", "b", "c", "a/b")] + [after[k + 1:] for k in range(len(after)) if after[k] == "/"]
            names.update(s[1] for d in written for end in ends for s in sources_for(y, d + "/" + end))
        elif y[2]:
            parts = [y[2][:k] for k in range(len(y[2])) if y[2][k] == "/"]
            names.update(s[1] for x in pos if "*" in x[2] for d in parts for s in sources_for(x, d))
    return sorted(n for n in names if is_ref_name(n))

def brute_nestings(g, kept_validly=kept_validly, tags=False):
    """The pairs of specs that can be in a directory conflict, by trying lists of one and two refs."""
    g = asked(g, tags)
    names = nesting_universe(g)
    negatives = [x for x in g if x[0]]
    written = collections.defaultdict(set)      # destination -> {(i, source)}
    for i, x in enumerate(g):
        if x[0] or x[2] is None:
            continue
        for refs in [[]] if kind(x[1]) == "object" else [[n] for n in names]:
            for _, source, destination in kept_validly([x] + negatives, refs):
                if destination is not None:
                    written[destination].add((i, source))
    found = set()
    for e in written:
        for k in range(len(e)):
            if e[k] != "/" or e[:k] not in written:
                continue
            for i, s in written[e[:k]]:
                for j, t in written[e]:
                    pair = (min(i, j), max(i, j))
                    refs = list(dict.fromkeys(x[1] for x in (s, t) if x[0] == "name"))
                    if i != j and pair not in found and can_stand_together(refs) \
                            and (0, s, e[:k]) in kept_validly([g[i]], refs) and (0, t, e) in kept_validly([g[j]], refs):
                        found.add(pair)
    return found

def brute_covering(g, i):
    """The first earlier spec that alone maps all that an idle one fetches, or None, by trying lists of refs."""
    negatives = [x for x in g if x[0]]
    extra = sorted({c for x in g if not x[0] and kind(x[1]) == "partial" for c in candidates(x[1]) if is_ref_name(c)})
    names = sorted(set(universe(g)) | witnesses(g))
    lists = [[]] if kind(g[i][1]) == "object" else [[n] for n in names]
    pairs = [m[1:] for refs in lists for m in kept_validly([g[i]] + negatives, refs)]
    for h in range(i):
        if not g[h][0] and not any(is_at_work([g[h], g[i]] + negatives, 1, pair, extra, kept_validly) for pair in pairs):
            return h
    return None

def lacks(x, refs):
    """Whether no ref has the source of a positive spec that names one."""
    names = named(x)
    return names is not None and not names & set(refs)

def brute_required(g, i):
    """Whether some list of one candidate of each other spec lacks the source of this one alone."""
    if named(g[i]) is None:
        return False
    others = [x for j, x in enumerate(g) if j != i]
    choices = [sorted(named(x)) or [None] for x in others if named(x) is not None]
    return any(lacks(g[i], refs) and not any(lacks(x, refs) for x in others) for refs in itertools.product(*choices))

def is_at_work(g, i, pair, extra, kept_validly):
    """Whether a spec maps a pair in a list of its source and up to three more refs."""
    source = [pair[0][1]] if pair[0][0] == "name" else []
    return any((i, *pair) in kept_validly(g, list(dict.fromkeys(source + list(more))))
               for k in range(min(len(extra), 3) + 1) for more in itertools.combinations(extra, k))

def procedure(g, z="c", merges=(), tags=False):
    values, g = g, asked(g, tags)
    n = len(g)
    conflicts = {}
    for i in range(n):
        for j in range(i + 1, n):
            if not g[i][0] and not g[j][0]:
                c = conflict_of(g, i, j, z)
                if c:
                    conflicts[(i, j)] = c
    idle = {i: r for i in range(len(values)) if not g[i][0] for r in [idle_reason(g, i, z)] if r}
    idle_neg = {k for k in range(n) if g[k][0] and idle_negative(g, k, z, merges)}
    return conflicts, idle, idle_neg

# ---- random groups

ID = ["a" * 40, "B" * 40, "ab" * 32]

def pattern_ok(p):
    return p.count("*") == 1 and is_name(p.replace("*", "a"))

def rnd_word(r, n=3, alpha="ab/"):
    return "".join(r.choice(alpha) for _ in range(r.randrange(n + 1)))

def rnd_pattern(r, anywhere):
    while True:
        m = r.random()
        if anywhere and m < 0.5:
            cut = r.randrange(6)
            p = "refs/"[:cut] + "*" + r.choice(["", "", "/", "s/", "fs/", "refs/", "/a", "s/a", "AD", "D", "EAD"]) + rnd_word(r, 2)
            if r.random() < 0.15:
                p = r.choice(["H*D", "HE*", "*D", "*AD", "H*", "*", "*HEAD", "*HEAD/a", "HEAD*", "a*", "*a"])
        elif m < 0.75:
            p = "refs/" + rnd_word(r) + "*" + rnd_word(r)
        elif m < 0.9:
            p = "refs/" + r.choice(["heads/", "tags/", "remotes/", "heads/a", "a/"]) + "*" + rnd_word(r, 1)
        else:
            p = "refs/" + rnd_word(r, 4, "ab") + "*" + rnd_word(r, 4, "ab")
        if pattern_ok(p):
            return p

def rnd_name(r):
    while True:
        m = r.random()
        if m < 0.35:
            n = "refs/" + r.choice(["", "heads/", "tags/", "remotes/", "remotes/a/"]) + rnd_word(r, 2)
        elif m < 0.8:
            n = r.choice(["a", "b", "a/b", "ab", "heads/a", "tags/a", "remotes/a", "a/HEAD", "HEAD", "b/HEAD", "remotes/a/HEAD"])
        elif m < 0.87:
            n = "HEAD"
        elif m < 0.92:
            n = r.choice(["refs/remotes/a/HEAD", "refs/heads/HEAD"])
        else:
            n = rnd_word(r, 3)
        if is_name(n):
            return n

def rnd_dest(r, pool):
    if pool and r.random() < 0.6:
        return r.choice(pool)
    return r.choice(["refs/x/a", "refs/x/b", "x", "heads/a", "refs/a/b", "a", "refs/aa", rnd_name(r)])

def rnd_group(r):
    n = r.randrange(2, 6)
    anywhere = r.random() < 0.4
    g, pool, ppool = [], [], []
    for _ in range(n):
        m = r.random()
        if g and r.random() < 0.08:
            g.append(r.choice(g))
            continue
        if len(ppool) > 1 and m < 0.15:
            # excludes what ends as another destination does: so short overlaps of destinations decide
            (s, _), (_, d) = r.choice(ppool), r.choice(ppool)
            p = s.split("*")[0] + "*" + d.split("*")[1] + s.split("*")[1]
            g.append((True, p if pattern_ok(p) else rnd_pattern(r, anywhere), None))
        elif m < 0.22:
            g.append((True, rnd_pattern(r, anywhere) if r.random() < 0.6 else rnd_name(r), None))
        elif m < 0.62:
            s = rnd_pattern(r, anywhere)
            if ppool and r.random() < 0.2:
                s = r.choice(ppool)[0]
            d = rnd_pattern(r, anywhere)
            if ppool and r.random() < 0.3:
                d = r.choice(ppool)[1]
            elif ppool and r.random() < 0.4:
                # comparable with an earlier destination
                q, u = r.choice(ppool)[1].split("*")
                x, y = rnd_word(r, 2, "ab"), rnd_word(r, 2, "ab")
                d = r.choice([q + x + "*", q + "*" + x + u, q + x + "*" + y + u, q + "*" + y])
                if not pattern_ok(d):
                    d = rnd_pattern(r, anywhere)
            if r.random() < 0.1:
                d = None
            if d:
                ppool.append((s, d))
            g.append((False, s, d if d else None) if d or r.random() < 0.5 else (False, rnd_name(r), None))
            # a pattern without destination isn't read for a fetch, but for a push
        elif m < 0.95:
            d = rnd_dest(r, pool) if r.random() < 0.9 else None
            if d:
                pool.append(d)
            g.append((False, rnd_name(r), d))
        else:
            g.append((False, r.choice(ID), rnd_dest(r, pool)))
    return [completed(x) for x in g]

def main(count, seed):
    r = random.Random(seed)
    c = collections.Counter()
    for k in range(count):
        g = rnd_group(r)
        merges = [rnd_name(r) if r.random() < 0.9 else "" for _ in range(r.randrange(3))] if r.random() < 0.3 else []
        tags = r.random() < 0.2
        pc, pi, pn = procedure(g, merges=merges, tags=tags)
        bc, bi, bn = brute(g, merges=merges, tags=tags)
        c["groups"] += 1
        c["conflicts"] += len(bc); c["groups with conflicts"] += bool(bc)
        for v in bi.values(): c["idle " + v] += 1
        c["idle negative"] += len(bn)
        c["positive"] += sum(not x[0] for x in g); c["negative"] += sum(x[0] for x in g)
        for i, reason in bi.items():
            if reason == "duplicate":
                one = next((h for h in range(i) if covers(g, h, i, "c")), None)
                c["idle by several"] += one is None
                if one != brute_covering(g, i):
                    print("COVERING", g, i, "procedure", one, "brute", brute_covering(g, i)); c["bad"] += 1
            c["idle, required"] += is_required(g, i)
            if is_required(g, i) != brute_required(g, i):
                print("REQUIRED", g, i, "procedure", is_required(g, i)); c["bad"] += 1
        whole = asked(g, tags)
        pairs = {(i, j): nesting_of(whole, i, j, "c") for i, j in itertools.combinations(range(len(whole)), 2)}
        nested = {pair for pair, example in pairs.items() if example}
        c["directory conflicts"] += len(nested)
        if nested != brute_nestings(g, tags=tags):
            print("NESTINGS", g, "procedure", nested, "brute", brute_nestings(g, tags=tags)); c["bad"] += 1
        for (i, j), (s, t, d) in pc.items():
            refs = [x[1] for x in (s, t) if x[0] == "name"]
            whole = asked(g, tags)
            ks = {(m[1], m[2]) for m in kept(whole, refs)}
            ok = (s, d) in ks and (t, d) in ks and s != t and (s, d) in makes(whole[i], refs) and (t, d) in makes(whole[j], refs)
            ok = ok and can_stand_together(refs)
            if not ok: print("BAD EXAMPLE", g, (i, j), (s, t, d)); c["bad"] += 1
        if set(pc) != bc:
            print("CONFLICTS", g, "procedure", pc, "brute", bc); c["bad"] += 1
        if pi != bi:
            print("IDLE", g, "procedure", pi, "brute", bi); c["bad"] += 1
        if pn != bn:
            print("NEG", g, "procedure", pn, "brute", bn); c["bad"] += 1
        if c["bad"] > 10: break
    print(dict(c))
    return 1 if c["bad"] else 0


if __name__ == "__main__":
    sys.exit(main(int(sys.argv[1]), int(sys.argv[2]) if len(sys.argv) > 2 else 0))
