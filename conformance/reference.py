#!/usr/bin/env python3
"""A reference for the tables: it answers each case by the definitions, plainly and slowly. Run as a program, it reads cases as lines
of JSON and answers them, as README.md has it:

    conformance/run --json conformance/reference.py
"""
import collections
import sys

sys.dont_write_bytecode = True
import tables  # beside this file

# The mode is `+`, `^` or empty; a side is None if there is none.
Spec = collections.namedtuple("Spec", "operation mode source destination")
# The index of the ref is None for an object that is requested by its id.
Mapping = collections.namedtuple("Mapping", "spec item source destination")
# A spec that maps refs in a plan, and where it comes from.
Asked = collections.namedtuple("Asked", "spec origin")

HEX = frozenset(b"0123456789abcdefABCDEF")
REFUSED = frozenset(range(33)) | frozenset(b"\x7f~^:?[\\*")
ALL_TAGS = Spec("fetch", b"", b"refs/tags/*", b"refs/tags/*")


# Names

def is_name(text):
    """git-check-ref-format(1) with --allow-onelevel, but `@` is a name."""
    if b".." in text or b"@{" in text or text.endswith(b"."):
        return False
    for part in text.split(b"/"):
        if part == b"" or part.startswith(b".") or part.endswith(b".lock"):
            return False
    return not any(byte in REFUSED for byte in text)


def is_pattern(text):
    return text.count(b"*") == 1 and is_name(text.replace(b"*", b"a"))


def is_ref_name(text):
    return text == b"HEAD" or text.startswith(b"refs/") and is_name(text)


def is_hex(text):
    return all(byte in HEX for byte in text)


def is_id(text):
    return (len(text) == 40 or len(text) == 64) and is_hex(text)


# Texts

def parts_of(text):
    """The sign, the source, and the destination if there is a colon: what follows the last one."""
    mode = text[:1] if text.startswith(b"+") or text.startswith(b"^") else b""
    source, colon, destination = text[len(mode):].rpartition(b":")
    return (mode, source, destination) if colon else (mode, destination, None)


def fault_of(side):
    if side.count(b"*") > 1:
        return "PatternUnsupported"
    return None if is_name(side.replace(b"*", b"a")) else "ReferenceName"


def reasons(operation, text):
    """Why a text is no refspec: all reasons, in order."""
    mode, source, destination = parts_of(text)
    is_push, found = operation == "push", []
    if is_push and text == b"":
        found.append("Empty")
    if mode == b"^" and destination is not None:
        found.append("NegativeWithDestination")
    if is_push and source and destination == b"":
        found.append("PushToEmpty")
    # The source of a push with a destination may be any expression for an object.
    is_expression = is_push and destination is not None and b"*" not in source
    if source and not is_expression:
        found.append(fault_of(source))
    if destination:
        found.append(fault_of(destination))
    is_single_push = is_push and not destination
    if mode != b"^" and not is_single_push and (b"*" in source) != (b"*" in (destination or b"")):
        found.append("PatternUnbalanced")
    if mode == b"^" and source == b"":
        found.append("NegativeEmpty")
    if mode == b"^" and len(source) >= 40 and is_hex(source):
        found.append("NegativeObjectHash")
    return [reason for reason in found if reason is not None]


def refusal(operation, text):
    """The first reason why a text is no refspec, or None."""
    return next(iter(reasons(operation, text)), None)


def read(operation, text):
    """The spec of a text that isn't refused."""
    mode, source, destination = parts_of(text)
    if source == b"@":
        source = b"HEAD"
    if source == b"":
        source = b"HEAD" if operation == "fetch" else None
    return Spec(operation, mode, source, destination or None)


def canonical(spec):
    if spec.mode == b"^":
        return b"^" + spec.source
    if spec.operation == "fetch" and spec.destination is None:
        return (b"+" if spec.source.startswith(b"+") else b"") + spec.source
    if spec.source is None:
        return b":" + spec.destination if spec.destination else spec.mode + b":"
    return spec.mode + spec.source + b":" + (spec.destination or spec.source)


# Matching

def candidates(name):
    return [name, b"refs/" + name, b"refs/tags/" + name, b"refs/heads/" + name, b"refs/remotes/" + name,
            b"refs/remotes/" + name + b"/HEAD"]


def is_full(side):
    return side.startswith(b"refs/")


def word_of(pattern, name):
    """What the star of a pattern stands for in a name, or None. Prefix and suffix never overlap."""
    before, _, after = pattern.partition(b"*")
    if len(name) < len(before) + len(after) or not name.startswith(before) or not name.endswith(after):
        return None
    return name[len(before):len(name) - len(after)]


def filled(side, word):
    """What a side becomes where the other one matched, a pattern with this word."""
    if b"*" in side:
        return side.replace(b"*", word)
    if is_full(side):
        return side
    if is_id(side):
        return b"refs/heads/" + side.lower()
    return (b"refs/" if side.startswith(b"tags/") or side.startswith(b"remotes/") else b"refs/heads/") + side


def first_candidate(source, names):
    for name in candidates(source):
        if name in names:
            return name
    return None


def taken(source, names):
    """The names that a source takes, each with the word for its star: those of a pattern, or one."""
    if b"*" in source:
        return {name: word_of(source, name) for name in names if word_of(source, name) is not None}
    if is_id(source):
        return {}
    name = source if is_full(source) else first_candidate(source, names)
    return {name: None} if name in names else {}


def matched(destination, ref):
    """Whether a destination matches a ref, and the word for its star."""
    if b"*" in destination:
        word = word_of(destination, ref.name)
        return word is not None, word
    if is_id(destination):
        return destination.lower() in (ref.id.lower(), (ref.object or b"").lower()), None
    if is_full(destination):
        return ref.name == destination, None
    return ref.name in candidates(destination), None


def excludes(spec, name):
    if spec.mode != b"^":
        return False
    return word_of(spec.source, name) is not None if b"*" in spec.source else spec.source == name


def is_excluded(specs, name):
    return any(excludes(spec, name) for spec in specs)


def positive(specs):
    return [spec for spec in specs if spec.mode != b"^"]


def kept(specs, found):
    """Mappings without those that a negative spec excludes, and of equal pairs the first."""
    seen, made = set(), []
    for one in found:
        pair = (one.item is None, one.source, one.destination)
        if one.item is not None and is_excluded(specs, one.source):
            continue
        if pair not in seen:
            seen.add(pair)
            made.append(one)
    return made


def forward(specs, refs):
    """The mappings from left to right: ids first, then by spec and ref."""
    names = [ref.name for ref in refs]
    found = []
    for index, spec in enumerate(specs):
        if spec.mode != b"^" and is_id(spec.source):
            far = None if spec.destination is None else filled(spec.destination, None)
            found.append(Mapping(index, None, spec.source.lower(), far))
    for index, spec in enumerate(specs):
        if spec.mode == b"^":
            continue
        words = taken(spec.source, names)
        for item, name in enumerate(names):
            if name in words:
                far = None if spec.destination is None else filled(spec.destination, words[name])
                found.append(Mapping(index, item, name, far))
    return kept(specs, found)


def backward(specs, refs):
    """The mappings from right to left, by spec and ref."""
    found = []
    for index, spec in enumerate(specs):
        if spec.mode == b"^" or spec.destination is None:
            continue
        for item, ref in enumerate(refs):
            is_matched, word = matched(spec.destination, ref)
            if is_matched:
                found.append(Mapping(index, item, filled(spec.source, word), ref.name))
    return kept(specs, found)


# Validation

def conflicts_of(found):
    """The destinations of several sources, each with these in order."""
    sources = {}
    for one in found:
        if one.destination is not None:
            claims = sources.setdefault(one.destination, [])
            if (one.item is None, one.source) not in claims:
                claims.append((one.item is None, one.source))
    return {far: [source for _, source in claims] for far, claims in sorted(sources.items()) if len(claims) > 1}


def survives(one):
    return one.destination is None or one.destination.startswith(b"refs/") or one.destination == b"HEAD"


# Plans

def written_name(destination):
    """What a fetch writes for a destination without a star."""
    if is_full(destination):
        return destination
    if destination.startswith(b"heads/") or destination.startswith(b"tags/") or destination.startswith(b"remotes/"):
        return b"refs/" + destination
    return b"refs/heads/" + destination


def completed(spec):
    if spec.destination is None or b"*" in spec.destination:
        return spec
    return spec._replace(destination=written_name(spec.destination))


def mapped(asked, refs):
    return forward([completed(one.spec) for one in asked], refs)


def is_sound(one):
    """Whether both sides are valid: the source is an id or a ref name, and the destination a ref below `refs/`."""
    if one.item is not None and not is_ref_name(one.source):
        return False
    return one.destination is None or is_full(one.destination) and is_name(one.destination)


def are_nested(one, other):
    return one.startswith(other + b"/") or other.startswith(one + b"/")


def asked_by_default(configured, merges, refs):
    """The specs of a fetch without given ones, without that of all tags."""
    if not configured and not merges:
        return [Asked(Spec("fetch", b"", b"HEAD", None), "default")]
    asked = [Asked(spec, "configured") for spec in configured]
    covered = {one.source for one in mapped(asked, refs) if one.item is not None and is_sound(one)}
    wanted = [name for name in dict.fromkeys(merges) if is_ref_name(name) and name not in covered]
    return asked + [Asked(Spec("fetch", b"", name, None), "merge") for name in wanted]


def tracking(given, configured, refs):
    """The specs that apply to the refs that given ones take, and these refs."""
    takes = mapped([Asked(spec, "given") for spec in positive(given)], refs)
    items = {one.item for one in takes if one.item is not None and is_sound(one)}
    asked = [Asked(spec, "configured") for spec in positive(configured)]
    asked += [Asked(spec, "given") for spec in given if spec.mode == b"^"]
    return asked, [ref for item, ref in enumerate(refs) if item in items]


def lacks_source(spec, names):
    if spec.mode == b"^" or b"*" in spec.source or is_id(spec.source):
        return False
    return not taken(spec.source, names)


def verdict(one, rivals, overruling, every):
    """What becomes of an update: of those of its kind, those that overrule it, and all."""
    if not is_sound(one):
        return "left_out"
    if one.destination is None:
        return "updates"
    if any(is_sound(other) and other.destination == one.destination for other in overruling):
        return "overruled"
    if any(is_sound(other) and other.destination == one.destination and other.source != one.source for other in rivals):
        return "conflicts"
    if any(is_sound(other) and other.destination and are_nested(one.destination, other.destination) for other in every):
        return "nested"
    return "updates"


def plan(given, configured, merges, tags, refs):
    """What a fetch writes, by column; or alone what stops it."""
    asked = [Asked(spec, "given") for spec in given] or asked_by_default(configured, merges, refs)
    if tags:
        asked.append(Asked(ALL_TAGS, "tags"))
    besides, taken_refs = tracking(given, configured, refs) if given else ([], [])
    firsts, seconds = mapped(asked, refs), mapped(besides, taken_refs)
    names = [ref.name for ref in refs]
    missing = [one for one in asked if one.origin != "merge" and lacks_source(one.spec, names)]
    pairs = {(one.source, one.destination) for one in firsts}
    updates = [(asked[one.spec].origin, one, verdict(one, firsts, [], firsts + seconds)) for one in firsts]
    for one in seconds:
        if one.destination is not None and (one.source, one.destination) not in pairs:
            updates.append((besides[one.spec].origin, one, verdict(one, seconds, firsts, firsts + seconds)))
    found = {word: [row_of(one, origin.encode()) for origin, one, says in updates if says == word] for word in
             ("updates", "left_out", "overruled", "nested", "conflicts")}
    found["missing"] = [canonical(one.spec) for one in missing]
    if found["missing"] or found["conflicts"]:
        found.update(updates=[], left_out=[], overruled=[], nested=[])
    return found


# Stale refs

def can_write(spec, name):
    """Whether a positive spec can write a local ref, and the word for its star."""
    if spec.mode == b"^" or spec.destination is None:
        return False, None
    return matched(completed(spec).destination, tables.Ref(name, b"", None))


def possible_sources(spec, name):
    is_written, word = can_write(spec, name)
    if not is_written or is_id(spec.source):
        return []
    if b"*" in spec.source:
        return [filled(spec.source, word)]
    return [spec.source] if is_full(spec.source) else candidates(spec.source)


def stale(specs, remote, local):
    """The local refs to delete, and those that a negative spec keeps."""
    names = {ref.name for ref in remote}
    fetched = {one.destination for one in forward([completed(spec) for spec in specs], remote)}
    deleted, held = [], []
    for name in dict.fromkeys(local):
        writing = [spec for spec in specs if can_write(spec, name)[0]]
        sources = [source for spec in specs for source in possible_sources(spec, name)]
        is_kept = any(is_excluded(specs, source) for source in sources)
        is_left = not any(is_id(spec.source) for spec in writing) and not any(source in names for source in sources)
        if writing and is_left and not is_kept:
            deleted.append(name)
        if is_kept and name not in fetched:
            held.append(name)
    return deleted, held


# Ref prefixes

# A server ignores them if there are more, and what fits into a packet line behind `ref-prefix `.
MOST_PREFIXES = 65535
LONGEST_PREFIX = 65505


def prefixes(specs):
    """The ref prefixes to send to a server; None if only a request for all refs is safe."""
    found = []
    for spec in positive(specs):
        before, star, _ = spec.source.partition(b"*")
        if star:
            if not before.startswith(b"refs/") or before == b"refs/" or b"]" in before:
                return None
            found.append(before)
        elif is_full(spec.source):
            found.append(spec.source)
        elif not is_id(spec.source):
            found += candidates(spec.source)
    found = shortest(found)
    return found if len(found) <= MOST_PREFIXES and all(len(one) <= LONGEST_PREFIX for one in found) else None


def shortest(prefixes):
    """Those that don't begin with another one, each once and in order. In the order of their bytes, what begins with one follows it."""
    needed, last = set(), None
    for one in sorted(prefixes):
        if last is None or not one.startswith(last):
            needed.add(one)
            last = one
    return [one for one in dict.fromkeys(prefixes) if one in needed]


# Upstreams

def text_word(side, name):
    """Whether a side, as it is written, is a name, and the word for its star."""
    if b"*" in side:
        word = word_of(side, name)
        return word is not None, word
    return side == name, None


def asks_for(spec, name):
    """The ref of which Git asks whether it is excluded, or None."""
    if b"*" not in spec.source:
        return name if spec.source == name else None
    if spec.destination is None:
        return None
    is_read, word = text_word(spec.destination, name)
    return spec.source.replace(b"*", word) if is_read else None


def upstream(specs, merge):
    """The ref that the first spec stores a merged ref in, or None."""
    for spec in positive(specs):
        asked = asks_for(spec, merge)
        if asked is not None and is_excluded(specs, asked):
            return None
    for spec in positive(specs):
        is_fetched, word = text_word(spec.source, merge)
        if is_fetched and spec.destination is not None:
            return spec.destination if word is None else spec.destination.replace(b"*", word)
    return None


# Cases

def specs_of(texts, operation="fetch"):
    return [read(operation, text) for text in texts]


def row_of(one, *front):
    """The parts of a mapping, with the destination if there is one, even an empty one."""
    return (*front, one.source) if one.destination is None else (*front, one.source, one.destination)


def pairs_of(found):
    return list(map(row_of, found))


def word(is_so):
    return "yes" if is_so else "no"


def answer_validity(operation, text):
    reason = refusal(operation, text)
    return {"valid": word(reason is None), "reason": reason or "-"}


def answer_name(form, text):
    return {"valid": word((is_name if form == "name" else is_pattern)(text))}


def answer_canonical(operation, text):
    return {"canonical": canonical(read(operation, text))}


def answer_equality(operation, one, other):
    return {"equal": word(canonical(read(operation, one)) == canonical(read(operation, other)))}


def answer_forward(specs, refs):
    found = forward(specs_of(specs), refs)
    return {"mappings": pairs_of(found), "spec": [one.spec for one in found]}


def answer_backward(specs, refs):
    found = backward(specs_of(specs), refs)
    return {"mappings": pairs_of(found), "spec": [one.spec for one in found]}


def answer_candidate(source, refs):
    found = forward(specs_of([source]), refs)
    return {"ref": [one.source for one in found]}


def answer_validation(specs, refs):
    found = forward(specs_of(specs), refs)
    conflicts = [(far, *sources) for far, sources in conflicts_of(found).items()]
    fixes = [] if conflicts else [one.destination for one in found if not survives(one)]
    return {"mappings": [] if conflicts else pairs_of(filter(survives, found)), "fixes": fixes, "conflicts": conflicts}


def answer_plan(given, configured, merges, tags, refs):
    return plan(specs_of(given), specs_of(configured), merges, tags == "yes", refs)


def answer_stale(specs, remote, local):
    deleted, held = stale(specs_of(specs), remote, local)
    return {"stale": deleted, "kept": held}


def answer_prefixes(specs):
    found = prefixes(specs_of(specs))
    ask = "all" if found is None else "some" if found else "nothing"
    return {"ask": ask, "prefixes": found or []}


def answer_upstream(values, merge):
    found = upstream(specs_of(values), merge)
    return {"upstream": [] if found is None else [found]}


ANSWERS = {
    "validity": answer_validity, "names": answer_name, "canonical": answer_canonical, "equality": answer_equality,
    "forward": answer_forward, "backward": answer_backward, "candidates": answer_candidate,
    "validation": answer_validation, "plans": answer_plan, "stale": answer_stale, "prefixes": answer_prefixes,
    "upstreams": answer_upstream,
}


def answer(kind, given):
    """The answer to a case, by column."""
    return ANSWERS[kind](*given.values())


if __name__ == "__main__":
    tables.serve(answer)
