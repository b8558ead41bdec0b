"""How git is known to treat a list of specs, or a whole fetch, otherwise than the program, told by its specs and refs.

Each kind of difference has a rule. Where git fails at the whole list, the rule names the failure and takes away
the specs at fault, and the rest is compared again. For any other kind the rule rewrites the specs, so that the
program's answer to the new ones is what git did with the old ones, all of it.
"""
import collections
import re

import gitfetch  # beside this script, as the next one
import gitplans

# What git does, in words; the rule; and the smallest list, as specs and names of refs. There <id> is the id of the
# first ref, and <ID> the same in capitals.
Kind = collections.namedtuple("Kind", "text rule specs names")
# The sign, and the sides; an empty destination is none.
Spec = collections.namedtuple("Spec", "sign source destination")
# What a partial name may stand for, in order.
CANDIDATES = [b"%s", b"refs/%s", b"refs/tags/%s", b"refs/heads/%s", b"refs/remotes/%s", b"refs/remotes/%s/HEAD"]
# Below it each one-sided spec gets a destination, which isn't compared.
ASIDE = b"refs/one-sided/"
# With it a source becomes a full name, and is told without it.
AS_WRITTEN = b"refs/written/x"


def split(text):
    sign = text[:1] if text[:1] in (b"+", b"^") else b""
    source, colon, destination = text[len(sign):].rpartition(b":")
    return Spec(sign, source, destination) if colon else Spec(sign, destination, b"")


def joined(spec):
    return spec.sign + spec.source + (b":" + spec.destination if spec.destination else b"")


def is_positive(spec):
    return spec.sign != b"^"


def is_single(spec):
    """Whether the spec is positive and has no star."""
    return is_positive(spec) and b"*" not in spec.source


def is_partial(side):
    return not side.startswith(b"refs/")


def is_id(text):
    """Whether git takes the text for an id, in a repository with ids of 40 digits."""
    return re.fullmatch(rb"[0-9a-fA-F]{40}", text) is not None


def named(source):
    return b"HEAD" if source in (b"", b"@") else source


def word_of(pattern, name):
    """What the star of a pattern stands for in a name, or `None`."""
    before, _, behind = pattern.partition(b"*")
    if name.startswith(before) and name.endswith(behind) and len(name) >= len(before) + len(behind):
        return name[len(before):len(name) - len(behind)]
    return None


def filled(pattern, word):
    return pattern.replace(b"*", word, 1)


def is_excluded(name, specs):
    """Whether a negative spec excludes the name."""
    negative = [named(spec.source) for spec in map(split, specs) if not is_positive(spec)]
    return any(one == name or b"*" in one and word_of(one, name) is not None for one in negative)


def first_candidate(source, refs):
    """The name of the ref that git takes for a source without a star, or `None`."""
    return first_name(source, {ref.name for ref in refs})


def first_name(source, names):
    return next((form % named(source) for form in CANDIDATES if form % named(source) in names), None)


def full_name(destination):
    """What git makes of a destination without a star."""
    if not is_partial(destination):
        return destination
    below_refs = destination.startswith((b"heads/", b"tags/", b"remotes/"))
    return (b"refs/" if below_refs else b"refs/heads/") + destination


def is_ref_name(name):
    """Whether git-check-ref-format(1) takes the name."""
    parts = name.split(b"/")
    if len(parts) < 2 or name.endswith(b".") or re.search(rb"\.\.|@\{|[\x00-\x20\x7f~^:?*\[\\]", name):
        return False
    return all(part and not part.startswith(b".") and not part.endswith(b".lock") for part in parts)


# Rules of what git fails at. Each gives the specs that aren't at fault, and the failure.

def at_as_destination(specs, _refs):
    bad = [one for one in specs if is_single(split(one)) and split(one).destination == b"@"]
    return [one for one in specs if one not in bad], ("invalid", *bad[:1])


def missing_source(specs, refs):
    single = [(one, split(one).source) for one in specs if is_single(split(one)) and not is_id(split(one).source)]
    bad = {one: named(source) for one, source in single if first_candidate(source, refs) is None}
    return [one for one in specs if one not in bad], ("missing", *list(bad.values())[:1])


def two_spellings(specs, _refs):
    ids = [(one, split(one)) for one in specs if is_id(split(one).source) and is_positive(split(one))]
    ids = [(one, spec) for one, spec in ids if spec.destination and not is_excluded(spec.source, specs)]
    for _, first in ids:
        place = (first.source.lower(), full_name(first.destination))
        same = [(one, spec) for one, spec in ids if (spec.source.lower(), full_name(spec.destination)) == place]
        bad = [one for one, spec in same if spec.source != first.source]
        if bad:
            failure = ("conflict", first.source, split(bad[0]).source, place[1])
            return [one for one in specs if one not in bad], failure
    return specs, None


# Rules that rewrite. Most give a spec for each positive one, or `None` to take it away.

def for_each(rule):
    def rewriting(specs, refs):
        made = [rule(split(one), specs, refs) if is_positive(split(one)) else split(one) for one in specs]
        return [old if new == split(old) else joined(new) for old, new in zip(specs, made) if new]
    return rewriting


def without_long_negative(specs, _refs):
    return [one for one in specs if not re.fullmatch(rb"\^[0-9a-fA-F]{41,}", one)]


def without_excluded_id(spec, specs, _refs):
    return None if is_id(spec.source) and is_excluded(spec.source, specs) else spec


def of_long_digits(spec, _specs, refs):
    if re.fullmatch(rb"[0-9a-fA-F]{64}", spec.source):
        return spec._replace(source=first_candidate(spec.source, refs) or spec.source)
    return spec


def of_full_name(spec, _specs, refs):
    if is_single(spec) and not is_partial(spec.source):
        return spec._replace(source=first_candidate(spec.source, refs) or spec.source)
    return spec


def to_heads(spec, _specs, _refs):
    if is_single(spec) and spec.destination.startswith(b"heads/"):
        return spec._replace(destination=full_name(spec.destination))
    return spec


def to_digits(spec, _specs, _refs):
    if re.fullmatch(rb"[0-9a-fA-F]{40}|[0-9a-fA-F]{64}", spec.destination):
        return spec._replace(destination=full_name(spec.destination))
    return spec


def pairs_of(spec, refs):
    """The names that a pattern takes, with their destinations."""
    words = [(ref.name, word_of(spec.source, ref.name)) for ref in refs]
    return [(name, filled(spec.destination, word)) for name, word in words if word is not None]


def without_ignored(is_meant):
    """Gives single names for a pattern with such a destination, without those that come to nothing. As the
    destinations of single names they would be others."""
    def rewriting(specs, refs):
        made = []
        for one in specs:
            spec = split(one)
            pairs = pairs_of(spec, refs) if is_positive(spec) and b"*" in spec.source else []
            if any(is_meant(destination, specs, refs) for _, destination in pairs):
                valid = [pair for pair in pairs if not is_partial(pair[1]) and is_ref_name(pair[1])]
                made += [joined(Spec(spec.sign, *pair)) for pair in valid]
            else:
                made.append(one)
        return made
    return rewriting


def is_invalid(destination, _specs, _refs):
    return not is_partial(destination) and not is_ref_name(destination)


def is_head(destination, _specs, _refs):
    return destination == b"HEAD"


def is_contested_outside(destination, specs, refs):
    """Whether the destination is outside refs/, and patterns map several names to it."""
    patterns = [spec for spec in map(split, specs) if is_positive(spec) and b"*" in spec.source]
    names = {name for spec in patterns for name, far in pairs_of(spec, refs) if far == destination}
    included = [name for name in names if not is_excluded(name, specs)]
    return is_partial(destination) and destination != b"HEAD" and len(included) > 1


def one_sided_aside(specs, _refs):
    """Gives each one-sided spec a destination of its own, so that none is a repeat."""
    made = []
    for place, one in enumerate(specs):
        spec = split(one)
        if is_single(spec) and spec.destination == b"":
            one = joined(spec._replace(source=named(spec.source), destination=ASIDE + b"%d" % place))
        made.append(one)
    return made


def same(specs, _refs):
    """Rewrites nothing: the answer is put in the order of specs."""
    return specs


# Rules that rewrite for one local ref.

def negative_ones(specs):
    return [one for one in specs if not is_positive(split(one))]


def none_if_excluded_by_pattern(specs, ref):
    patterns = [spec for spec in map(split, specs) if is_positive(spec) and b"*" in spec.source]
    words = [(spec.source, word_of(spec.destination, ref.name)) for spec in patterns]
    sources = [filled(source, word) for source, word in words if word is not None]
    return negative_ones(specs) if any(is_excluded(source, specs) for source in sources) else specs


def none_if_excluded_itself(specs, ref):
    sources = [spec.source for spec in map(split, specs) if is_single(spec)]
    return negative_ones(specs) if ref.name in sources and is_excluded(ref.name, specs) else specs


def without_partial_destination(spec, _specs, _ref):
    return None if is_single(spec) and spec.destination and is_partial(spec.destination) else spec


def without_negative(specs, ref):
    if any(is_single(split(one)) and split(one).destination == ref.name for one in specs):
        return [one for one in specs if is_positive(split(one))]
    return specs


def as_written(spec, is_meant):
    if is_single(spec) and is_meant(spec.source):
        return spec._replace(source=AS_WRITTEN + (b"HEAD" if spec.source == b"@" else spec.source))
    return spec


def partial_as_written(spec, _specs, _ref):
    return as_written(spec, lambda source: source != b"" and is_partial(source))


def empty_as_written(spec, _specs, _ref):
    return as_written(spec, lambda source: source == b"")


def known(text, rule, specs, names):
    return Kind(f"git {text} (known)", rule, specs.encode().split(b" "), names.encode().split(b" "))


# In the order in which git comes to fail.
FAILING = [
    known("refuses `@` as a destination", at_as_destination, "a:@", "refs/a"),
    known("fails where a source matches no ref", missing_source, "a", "refs/b"),
    known("takes two spellings of one id for a conflict", two_spellings, "<id>:a <ID>:a", "refs/a"),
]
BY_SPEC = known("lists ids in FETCH_HEAD in the order of specs", same, "b <id>", "refs/a refs/b")
# In the order in which they are applied, as for the next list.
REWRITTEN = [
    known("accepts a negative spec of more than 40 hex digits", without_long_negative, "^" + 41 * "1", "refs/a"),
    known("lets a negative spec exclude an id by its text", for_each(without_excluded_id), "<id> ^*", "refs/a"),
    known("takes 64 hex digits as a source for a name", for_each(of_long_digits), 64 * "1", "refs/" + 64 * "1"),
    known("takes a source that begins refs/ for a partial name too", for_each(of_full_name), "refs/a",
          "refs/refs/a"),
    known("takes a destination that begins heads/ for one below refs/", for_each(to_heads), "a:heads/b", "refs/a"),
    known("keeps the capitals of hex digits in a destination", for_each(to_digits), "a:" + 40 * "A", "refs/a"),
    known("ignores invalid names below refs/ as destinations", without_ignored(is_invalid), "refs/a*:refs/b/*",
          "refs/a"),
    known("ignores HEAD as the destination of a pattern", without_ignored(is_head), "*:*", "HEAD"),
    known("ignores destinations outside refs/ before it looks for conflicts", without_ignored(is_contested_outside),
          "refs/a*:b* refs/b*:b*", "refs/a refs/b"),
    known("lists a one-sided spec in FETCH_HEAD as often as it is given", one_sided_aside, "a a", "refs/a"),
    BY_SPEC,
]
BACKWARD = [
    known("tracks nothing where a pattern gives an excluded source", none_if_excluded_by_pattern,
          "*:* refs/a:refs/b ^refs/b", "refs/b"),
    known("tracks nothing where the ref itself is named as a source and excluded", none_if_excluded_itself,
          "refs/a refs/b:refs/a ^refs/a", "refs/a"),
    known("matches no ref with a partial destination", for_each(without_partial_destination), "refs/a:a",
          "refs/heads/a"),
    known("excludes no source of a spec without a star", without_negative, "refs/a:refs/b ^refs/a", "refs/b"),
    known("tracks a partial source as it is written", for_each(partial_as_written), "a:refs/a", "refs/a"),
    known("tracks an empty source as it is written", for_each(empty_as_written), ":refs/a", "refs/a"),
]


def without_failing(specs, refs):
    """The specs that aren't at fault where git fails."""
    for kind in FAILING:
        specs, _ = kind.rule(specs, refs)
    return specs


def failing_kind(fetched, specs, refs):
    """The kind that git failed by, or `None`, and the specs that aren't at fault."""
    for kind in FAILING:
        rest, failure = kind.rule(specs, refs)
        if rest != specs and fetched.failure == failure:
            return kind, rest
    return None, specs


def rewritten(kinds, specs, given):
    for kind in kinds:
        specs = kind.rule(specs, given)
    return specs


def has_late_id(specs):
    """Whether an id follows another source."""
    ids = [is_id(spec.source) for spec in map(split, specs) if is_positive(spec)]
    return ids != sorted(ids, reverse=True)


def applying(kinds, specs, given):
    """The kinds that rewrite something, each after those before it, for all refs or for a local one."""
    found = []
    for kind in kinds:
        made = kind.rule(specs, given)
        if made != specs or kind is BY_SPEC and has_late_id(specs):
            found.append(kind)
        specs = made
    return found


def needed(found, explains):
    """Those of the kinds without which the others don't explain what git did; `None` where all of them don't."""
    if not found or not explains(found):
        return None
    return [kind for kind in found if not explains([one for one in found if one is not kind])] or found


def predicted(program, kinds, specs, refs):
    """What `plan` would say if the program did these things as git does."""
    lines = gitfetch.answered(program, "plan", rewritten(kinds, specs, refs), refs)
    planned = gitfetch.read_plan(lines, refs, BY_SPEC in kinds)
    return planned._replace(refs={name: id_ for name, id_ in planned.refs.items() if not name.startswith(ASIDE)})


def fetch_kinds(program, fetched, specs, refs):
    """The kinds by which git fetched otherwise than is planned, or `None`."""
    return needed(applying(REWRITTEN, specs, refs),
                  lambda kinds: gitfetch.is_as_planned(fetched, predicted(program, kinds, specs, refs)))


def predicted_source(program, kinds, specs, ref):
    """The first source of `rhs` for a local ref if the program did these things as git does."""
    lines = gitfetch.answered(program, "rhs", rewritten(kinds, specs, ref), [ref])
    source = gitfetch.first_sources(lines, [ref])[0]
    return source and source.removeprefix(AS_WRITTEN)


def track_kinds(program, source, specs, ref):
    """The kinds by which git tracks this source from a local ref, or `None`."""
    return needed(applying(BACKWARD, specs, ref),
                  lambda kinds: predicted_source(program, kinds, specs, ref) == source)


# Rules for a whole fetch. Those for failures give the wish without the specs at fault, and what the failure may be.

def positive_ones(specs):
    return [one for one in specs if is_positive(split(one))]


def asked_of(wish):
    """The specs that map refs of the remote."""
    return wish.given or wish.configured


def with_asked(wish, specs):
    return wish._replace(given=specs) if wish.given else wish._replace(configured=specs)


def at_in_wish(wish, refs):
    lists = {name: getattr(wish, name) or [] for name in ("given", "configured", "refmap")}
    made = {name: at_as_destination(specs, refs) for name, specs in lists.items()}
    rest = wish._replace(**{name: rest for name, (rest, _) in made.items() if rest != lists[name]})
    return rest, [failure for _, failure in made.values() if failure[1:]]


def missing_in_wish(wish, refs):
    rest, failure = missing_source(asked_of(wish), refs)
    return with_asked(wish, rest), [failure]


def digits_in_wish(wish, refs):
    digits = [one for one in asked_of(wish) if re.fullmatch(rb"[0-9a-fA-F]{64}", split(one).source)]
    rest, failure = missing_source(digits, refs)
    bad = [one for one in digits if one not in rest]
    return with_asked(wish, [one for one in asked_of(wish) if one not in bad]), [failure]


def spellings_in_wish(wish, refs):
    """Two spellings of an id among the specs that map refs, or among those that apply to what these take."""
    rest, failure = two_spellings(asked_of(wish), refs)
    if failure:
        return with_asked(wish, rest), [failure]
    rest, failure = two_spellings(positive_ones(wish.configured) + negative_ones(wish.given), refs)
    if not wish.given or not failure:
        return wish, []
    _, first, second, far = failure
    kept = [one for one in wish.configured if one in rest or not is_positive(split(one))]
    return wish._replace(configured=kept), [("tracks", far, first, second)]


def mapped_names(specs, refs):
    """The names of the refs that positive specs map to what can be written, whatever others exclude."""
    names = set()
    for spec in map(split, positive_ones(specs)):
        pairs = pairs_of(spec, refs)
        if is_single(spec):
            far = spec.destination and full_name(spec.destination)
            pairs = [(None if is_id(spec.source) else first_candidate(spec.source, refs), far)]
        names |= {name for name, far in pairs if name and (far == b"" or not is_partial(far) and is_ref_name(far))}
    return names


def for_wish(rule):
    """The rule for the specs that map refs of the remote, and for those that apply to the refs that these take."""
    def rewriting(wish, refs):
        made = with_asked(wish, rule(asked_of(wish), refs))
        if not wish.given:
            return made
        names = mapped_names(wish.given, refs)
        taken = [ref for ref in refs if ref.name in names]
        positive = rule(positive_ones(wish.configured) + negative_ones(wish.given), taken)
        besides = positive_ones(positive) + negative_ones(rule(wish.configured, taken))
        changed = sorted(besides) != sorted(wish.configured)
        return made._replace(configured=besides) if changed else made
    return rewriting


def long_negative_below_refs(specs, _refs):
    """With refs/ before them they exclude no ref either, and a list of them isn't empty."""
    return [b"^refs/" + one[1:] if re.fullmatch(rb"\^[0-9a-fA-F]{41,}", one) else one for one in specs]


def as_name_of_digits(spec, _specs, refs):
    """Gives 64 hex digits as a source the name that they stand for, or that of no ref."""
    if re.fullmatch(rb"[0-9a-fA-F]{64}", spec.source):
        return spec._replace(source=first_candidate(spec.source, refs) or b"refs/" + spec.source)
    return spec


def ids_as_names(wish, _refs):
    """Gives a configured spec of its own for each given id that a configured pattern takes as a name."""
    ids = [spec.source for spec in map(split, positive_ones(wish.given)) if is_id(spec.source)]
    patterns = [spec for spec in map(split, positive_ones(wish.configured)) if not is_single(spec)]
    made = []
    for id_, spec in ((id_, spec) for id_ in ids for spec in patterns):
        word = word_of(spec.source, id_)
        far = None if word is None else filled(spec.destination, word)
        if far and not is_partial(far) and is_ref_name(far):
            made.append(id_ + b":" + far)
    return wish._replace(configured=wish.configured + made)


def listed_refs(wish, refs):
    """The refs that a server lists for the specs and merge refs of a configuration."""
    prefixes = [*wish.merges, *[b"refs/tags/"] * wish.tags]
    for spec in map(split, positive_ones(wish.configured)):
        if not is_single(spec):
            prefixes.append(spec.source.partition(b"*")[0])
        elif not is_id(spec.source):
            # An empty source is HEAD, but asks for all refs.
            prefixes += [form % spec.source.replace(b"@", b"HEAD") for form in CANDIDATES] if spec.source else [b""]
    return [ref for ref in refs if ref.name.startswith(tuple(prefixes))]


def merges_as_listed(wish, refs):
    """Gives each merge ref the name of the listed ref that it may stand for, and leaves it out where a spec takes one."""
    if wish.given or not wish.merges:
        return wish
    listed, made = listed_refs(wish, refs), []
    taken = mapped_names(wish.configured, listed)
    for one in wish.merges:
        found = first_candidate(one, listed)
        if one in taken or found is None:
            made.append(one)
        elif not any(form % one in taken for form in CANDIDATES):
            made.append(found)
            taken.add(found)
    return wish._replace(merges=made)


def head_as_listed(wish, refs):
    """Gives a merge ref `HEAD` the name of no ref where none is listed that it may stand for."""
    if wish.given or first_candidate(b"HEAD", listed_refs(wish, refs)):
        return wish
    return wish._replace(merges=[AS_WRITTEN + one if one == b"HEAD" else one for one in wish.merges])


def spelled_otherwise(wish):
    """The destinations of given ids that a configured spec gives too, with the same id in another spelling."""
    given = [split(one) for one in wish.given if is_id(split(one).source)]
    configured = [split(one) for one in positive_ones(wish.configured) if is_id(split(one).source)]
    return {(full_name(other.destination), other.source.lower()) for one in given for other in configured
            if other.destination and full_name(one.destination) == full_name(other.destination)
            and one.source != other.source and one.source.lower() == other.source.lower()
            and not is_excluded(other.source, wish.given) and not is_excluded(one.source, wish.given)}


# Rules that rewrite the specs of a pruning fetch for one local ref, given that and the names of the remote.

LocalRef = collections.namedtuple("LocalRef", "name there")


def is_excluded_by_pattern(specs, local):
    return none_if_excluded_by_pattern(specs, local) != specs


def lose(is_meant):
    """Gives sources that the remote lacks to the specs without a star that write the ref and are meant."""
    def rewriting(specs, local):
        return [lost(one) if is_single(split(one)) and split(one).destination == local.name
                and is_meant(split(one).source, specs, local) else one for one in specs]
    return rewriting


def lost(text):
    """The spec as a pattern, since a source without a star that is missing would stop the fetch."""
    spec = split(text)
    return joined(spec._replace(source=AS_WRITTEN + named(spec.source) + b"*", destination=spec.destination + b"*"))


def is_found_as_partial(source, _specs, local):
    """Whether a full name isn't on the remote, but is as a partial one."""
    return not is_partial(source) and source not in local.there and first_name(source, local.there) is not None


def full_names_as_partial(specs, local):
    """Such a source doesn't stop the fetch, but what it writes is deleted."""
    made = lose(is_found_as_partial)(specs, local)
    return [one for one in made if not is_single(split(one)) or not is_found_as_partial(split(one).source, specs, local)]


def is_excluded_id(source, specs, _local):
    return is_id(source) and is_excluded(source, specs)


def is_long_digits(source, _specs, _local):
    return re.fullmatch(rb"[0-9a-fA-F]{64}", source) is not None


def is_excluded_source(source, specs, _local):
    return not is_id(source) and is_excluded(named(source), specs)


def is_partial_source(source, _specs, local):
    return source != b"" and is_partial(source) and not is_id(source) and named(source) not in local.there


def is_empty_source(source, _specs, _local):
    return source == b""


def kept_if_excluded_itself(specs, local):
    """Adds a pattern that gives the ref itself as a source."""
    if none_if_excluded_itself(specs, local) == specs:
        return specs
    return [b"%s*:%s*" % (local.name, local.name), *specs]


# A kind that the smallest case shows: a wish, names of the remote, and local ones.
WishKind = collections.namedtuple("WishKind", "text rule wish names local")


def known_fetch(text, rule, names, local="", **wish):
    """A kind with its smallest case, whose lists are words."""
    made = {field: value if value is True else value.encode().split(b" ") for field, value in wish.items()}
    return WishKind(f"git {text} (known)", rule, made, names.encode().split(b" "), local.encode().split())


AT_IN_WISH = known_fetch("refuses `@` as a destination", at_in_wish, "refs/a", given="a:@")
SPELLINGS_IN_WISH = known_fetch("takes two spellings of one id for a conflict", spellings_in_wish, "refs/a",
                                given="<id>:a <ID>:a")
DIGITS_IN_WISH = known_fetch("takes 64 hex digits as a source for a name that is missing", digits_in_wish, "refs/a",
                             given=64 * "1")
FAILING_FETCHES = [AT_IN_WISH, DIGITS_IN_WISH, SPELLINGS_IN_WISH]
SPELLED_OTHERWISE = known_fetch("says that a destination usually tracks an id if it is spelled otherwise",
                                lambda wish, _refs: wish, "refs/a", given="<id>:a", configured="<ID>:a")
# In the order in which they are applied, as for the next list.
REWRITTEN_FETCHES = [
    known_fetch("accepts a negative spec of more than 40 hex digits", for_wish(long_negative_below_refs), "refs/a",
                given="^" + 41 * "1"),
    known_fetch("takes a given id for a name, as configured patterns apply to it", ids_as_names, "refs/a", given="<id>",
                configured="*:refs/x/*"),
    known_fetch("lets a negative spec exclude an id by its text", for_wish(for_each(without_excluded_id)), "refs/a",
                given="<id> ^*"),
    known_fetch("takes 64 hex digits as a source for a name", for_wish(for_each(as_name_of_digits)), "refs/" + 64 * "1",
                given=64 * "1"),
    known_fetch("takes a source that begins refs/ for a partial name too", for_wish(for_each(of_full_name)),
                "refs/refs/a", given="refs/a"),
    known_fetch("takes a merge ref HEAD only for what is listed", head_as_listed, "refs/tags/HEAD", merges="HEAD"),
    known_fetch("takes a merge ref for a partial name, among the refs that are listed", merges_as_listed, "refs/a refs/b",
                configured="refs/*b:refs/x/*b", merges="a"),
    SPELLED_OTHERWISE,
]
REWRITTEN_PRUNINGS = [
    known_fetch("accepts a negative spec of more than 40 hex digits", long_negative_below_refs, "refs/a", "refs/x/b",
                given="refs/*:refs/x/* ^" + 41 * "1"),
    known_fetch("takes a source that begins refs/ for a partial name too, but not as it prunes", full_names_as_partial,
                "refs/refs/a", "refs/x", given="refs/a:refs/x"),
    known_fetch("keeps a ref that is itself a source and excluded", kept_if_excluded_itself, "refs/b", "refs/b",
                given="refs/b refs/x/*:refs/* ^refs/b"),
    known_fetch("compares 64 hex digits as a source as a name, as they are written", lose(is_long_digits),
                "refs/" + 64 * "1", "refs/x", given=64 * "1" + ":refs/x"),
    known_fetch("writes no ref by a partial destination, as far as it prunes", for_each(without_partial_destination),
                "refs/a", "refs/heads/b", given="a:b refs/*:refs/heads/*"),
    known_fetch("prunes a ref of an id that a negative spec excludes by its text", lose(is_excluded_id), "refs/a", "refs/x",
                given="<id>:refs/x ^*"),
    known_fetch("prunes a ref whose source has no star and is excluded", lose(is_excluded_source), "refs/a", "refs/x",
                given="refs/a:refs/x ^refs/a"),
    known_fetch("compares a partial source as it is written", lose(is_partial_source), "refs/a", "refs/x", given="a:refs/x"),
    known_fetch("compares an empty source as it is written", lose(is_empty_source), "HEAD", "refs/x", given=":refs/x"),
]


def failing_fetch_kind(kinds, failure, wish, refs):
    """The kind that git failed by, or `None`, and the wish without the specs at fault."""
    for kind in kinds:
        rest, failures = kind.rule(wish, refs)
        if rest != wish and failure in failures:
            return kind, rest
    return None, wish


def without_failing_specs(wish, refs):
    for kind in FAILING_FETCHES:
        wish, _ = kind.rule(wish, refs)
    return wish


def applying_to_fetch(wish, refs):
    found = []
    for kind in REWRITTEN_FETCHES:
        made = kind.rule(wish, refs)
        if made != wish or kind is SPELLED_OTHERWISE and spelled_otherwise(wish):
            found.append(kind)
        wish = made
    return found


def predicted_fetch(program, kinds, wish, refs):
    """What the program would plan if it did these things as git does."""
    made = rewritten(kinds, gitplans.applied(wish), refs)
    planned = gitplans.read_plan(gitplans.answered(program, gitplans.Case("plan", made, refs, [])), made, refs)
    return planned._replace(overruled=planned.overruled | spelled_otherwise(made)) if SPELLED_OTHERWISE in kinds else planned


def wish_kinds(program, fetched, wish, refs):
    """The kinds by which git fetched otherwise than is planned, or `None`."""
    return needed(applying_to_fetch(gitplans.applied(wish), refs),
                  lambda kinds: gitplans.is_as_planned(fetched, predicted_fetch(program, kinds, wish, refs)))


def about(specs, local):
    """The specs without those that write other refs, which may conflict once negative ones are away."""
    def writes(spec):
        if is_single(spec):
            return full_name(spec.destination) == local.name
        return word_of(spec.destination, local.name) is not None
    return [one for one in specs if not is_positive(split(one)) or writes(split(one))]


def is_predicted_stale(program, kinds, specs, refs, local):
    """Whether a local ref would be stale if the program did these things as git does."""
    there = LocalRef(local.name, {ref.name for ref in refs})
    made = about(rewritten(kinds, specs, there), local)
    if any(AS_WRITTEN in one for one in made) and not is_excluded_by_pattern(specs, there):
        # Only patterns keep what is excluded.
        made = positive_ones(made)
    case = gitplans.Case("stale", gitplans.Wish(made), refs, [local])
    return bool(made) and local.name in gitplans.stale_names(gitplans.answered(program, case))


def pruning_kinds(program, is_deleted, specs, refs, local):
    """The kinds by which git deletes a local ref that isn't stale, or keeps one that is, or `None`."""
    given = LocalRef(local.name, {ref.name for ref in refs})
    found = []
    made = specs
    for kind in REWRITTEN_PRUNINGS:
        if kind.rule(made, given) != made:
            found.append(kind)
        made = kind.rule(made, given)
    return needed(found, lambda kinds: is_predicted_stale(program, kinds, specs, refs, local) == is_deleted)
