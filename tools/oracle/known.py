"""What the original is known to answer otherwise to a text and to a group, told by these themselves, and what `plan` makes of
mappings. `versus` has its kinds from here: build.sh takes each line `NAME = "it .."`.
"""
import functools
import re

import groups  # beside this script

PANIC = (b"panic\n", 101)
PLUS = "it prints a lone source that begins with + as it is"
FILLED = "it panics where the ends of a pattern overlap in a name"
EXCLUDED = "it excludes names in which the ends of a pattern overlap"
HASHED = "it takes two mappings with one hash for a repeat"
LATER = "it maps every candidate of a partial source, not the first alone"
# Of a single positive spec without a destination, forward. Among `lhs` and `rhs` there is no push, and a fetch of that kind has no star;
# so `versus` alone meets it.
TAKEN = "it maps a name in which the ends of a one-sided push pattern overlap"
KINDS = (FILLED, EXCLUDED, HASHED, LATER)
# Source and destination of two mappings that have one hash there.
TWINS = [[b"refs/heads/" + twin, b"refs/x/" + twin] for twin in groups.TWINS]
# A spec without a match, which takes the place of another.
IDLE = b"refs/idle"


def is_plus(operation, text, theirs, ours):
    """Whether the canonical texts of a text differ as PLUS says."""
    return operation == "fetch" and text.startswith(b"++") and theirs.startswith(b"+") and ours == b"+" + theirs


def sides(text):
    """Source and destination of a positive spec, empty where there is none."""
    text = text.removeprefix(b"+")
    source, colon, destination = text.rpartition(b":")
    return (source, destination) if colon else (text, b"")


def form_of(side):
    """How a side is written, in a word."""
    if b"*" in side:
        return "pattern"
    if side.startswith(b"refs/"):
        return "full name"
    return "id" if re.fullmatch(rb"[0-9a-fA-F]{40}|[0-9a-fA-F]{64}", side) else "partial" if side else "none"


def overlaps(side, name):
    """Whether a name begins and ends as a pattern does, and has no room for both."""
    before, star, behind = side.partition(b"*")
    fits = star != b"" and name.startswith(before) and name.endswith(behind)
    return fits and len(name) < len(before) + len(behind)


def candidates(text):
    """The names that the source of a positive spec may stand for, in order; none if it isn't partial."""
    source = sides(text)[0]
    name = b"HEAD" if source in (b"", b"@") else source
    return [before + name + behind for before, behind in groups.CANDIDATES] if form_of(name) == "partial" else []


def lines(texts, *refs):
    return b"".join(line + b"\n" for line in [*(b"spec " + text for text in texts), *refs])


def mappings(answer):
    """The fields of each line of a mapping, but the first; no generated name holds a tab."""
    return [line.split(b"\t")[1:] for line in answer.split(b"\n") if line.startswith(b"map\t")]


class Group:
    """A group without a bad line, and the command it is for."""

    def __init__(self, command, text):
        self.command = command
        given = text.split(b"\n")[:-1]
        self.specs = [line[5:] for line in given if line.startswith(b"spec ")]
        self.refs = [line for line in given if not line.startswith(b"spec ")]
        self.names = [line.split(b" ", 3 if line.startswith(b"tag ") else 2)[-1] for line in self.refs]

    def panics_at(self, text, name):
        """Whether the original panics as it fills a side of a spec for a name."""
        return not text.startswith(b"^") and overlaps(sides(text)[self.command == "rhs"], name)

    def panics(self):
        return any(self.panics_at(text, name) for text in self.specs for name in self.names)

    def comes_later(self, text, name):
        """Whether a partial source has this candidate, and some ref is named as an earlier one."""
        if self.command != "lhs" or text.startswith(b"^"):
            return False
        return name in [one for one in candidates(text) if one in self.names][1:]

    def excludes_too_much(self, name):
        return any(text.startswith(b"^") and overlaps(text[1:], name) for text in self.specs)

    def pieced(self, ask, *is_left_out):
        """The mappings of the original by pieces: those of no ref, and then of each alone, without the
        specs that are left out for its name."""
        found = mappings(ask(self.command, lines(self.specs))[0])
        for item, (line, name) in enumerate(zip(self.refs, self.names)):
            texts = [IDLE if any(test(text, name) for test in is_left_out) else text for text in self.specs]
            answer, status = ask(self.command, lines(texts, line))
            if status != 0:
                return None
            found += [[spec, b"%d" % item, *ends] for spec, at, *ends in mappings(answer) if at != b"-"]
        found.sort(key=lambda one: (one[1] != b"-", int(one[0])))
        return without_repeats(found)


def without_repeats(found):
    seen, kept = [], []
    for spec, item, *ends in found:
        if [item == b"-", ends] not in seen:
            seen.append([item == b"-", ends])
            kept.append([spec, item, *ends])
    return kept


def without_later_twin(found):
    """The mappings without the later of the two that have one hash, or all where they aren't both there."""
    ends = [one[2:] for one in found]
    later = max(ends.index(twin) for twin in TWINS) if all(twin in ends for twin in TWINS) else len(found)
    return found[:later] + found[later + 1:]


def kinds_of(ask, command, text, theirs, ours):
    """The kinds of known differences that, together, make the original's answer of this one's; none
    where they don't. An answer is a text and a status."""
    if ours[1] != 0 or theirs[1] != 0 and theirs != PANIC:
        return []
    group, kinds = Group(command, text), []
    if group.panics() != (theirs == PANIC):
        return []
    ask = functools.lru_cache(None)(ask)
    every = group.pieced(ask, group.panics_at)
    first = group.pieced(ask, group.panics_at, group.comes_later)
    found = mappings(ours[0])
    kept = [one for one in found if one[1] == b"-" or not group.excludes_too_much(one[2])]
    if every is None or kept != first:
        return []
    if theirs == PANIC:
        kinds.append(FILLED)
    elif mappings(theirs[0]) != every:
        if mappings(theirs[0]) != without_later_twin(every):
            return []
        kinds.append(HASHED)
    return kinds + [EXCLUDED] * (kept != found) + [LATER] * (first != every)


def maps_later(ask, command, text, answer):
    """Whether an answer, which both programs give, maps a later candidate, as only the original does."""
    group = Group(command, text)
    if answer[1] != 0 or not any(group.comes_later(one, name) for one in group.specs for name in group.names):
        return False
    return mappings(answer[0]) != group.pieced(ask, group.comes_later)


def is_writable(destination):
    return destination.startswith(b"refs/") or destination == b"HEAD"


def plan_of(found, texts):
    """The answer of `plan` to mappings, with the canonical texts of the specs."""
    to = {}
    for spec, item, source, *destination in found:
        for one in destination:
            to.setdefault(one, {}).setdefault((item == b"-", source), texts[int(spec)])
    made = [[b"conflict", one, *(field for (_, source), text in claims.items() for field in (source, text))]
            for one, claims in sorted(to.items()) if len(claims) > 1]
    status = int(made != [])
    if not made:
        removed = [one for one in found if not all(map(is_writable, one[3:]))]
        made = [[b"map", *one] for one in found if one not in removed]
        made += [[b"fix", one[3], texts[int(one[0])]] for one in removed]
    return b"".join(b"\t".join(fields) + b"\n" for fields in made), status
