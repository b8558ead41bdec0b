"""Parses, prints, compares and matches Git refspecs, lists the ref prefixes to request from a server, plans fetches, tells why a
ref is fetched or not, and finds stale refs, upstreams and the fetch values of remotes, by libgix_refspec.

A text is bytes-like (`bytes`, `bytearray` or `memoryview`), or a `str` that is encoded as UTF-8 with `surrogateescape`, as
`os.fsencode` does. What is returned is `bytes`.

>>> parse("+@:refs/remotes/origin/HEAD", Operation.FETCH).canonical
b'+HEAD:refs/remotes/origin/HEAD'
"""
import ctypes
import enum
import functools
import os
from dataclasses import dataclass
from typing import Callable, Iterable, List, Optional, Tuple, Union

__version__ = "0.3.0"
__all__ = ["Direction", "Effect", "Effects", "Fate", "Kind", "Mapping", "Mismatch", "Mode", "Operation", "Origin", "OriginKind",
           "Outcome", "Plan", "RefspecError", "RemoteValue", "Request", "Side", "Sides", "Spec", "StaleRef", "Update",
           "Upstream", "UpstreamKind", "Validity", "Verdict", "compare", "explanation", "from_parts", "library_version",
           "matches", "parse", "plan", "prefetched", "prefixes", "read", "remote_value", "renamed", "stale", "upstream",
           "validate", "why"]

# The soname, so that no library is loaded that this module wasn't written for.
_SONAME = "libgix_refspec.so.0.3"

Text = Union[bytes, bytearray, memoryview, str]


class Operation(enum.IntEnum):
    """What a refspec is for."""
    FETCH = 1
    PUSH = 2


class Outcome(enum.IntEnum):
    """What a call returns: OK, or why it failed. Those from EMPTY to NAME_INVALID_BYTE say what is wrong with a text;
    NAME_EMPTY and NAME_ASTERISK aren't returned."""
    OK = 0
    EMPTY = 1
    NEGATIVE_WITH_DESTINATION = 2
    NEGATIVE_EMPTY = 3
    NEGATIVE_OBJECT_HASH = 4
    PUSH_TO_EMPTY = 5
    PATTERN_UNSUPPORTED = 6
    PATTERN_UNBALANCED = 7
    NAME_EMPTY = 8
    NAME_EMPTY_COMPONENT = 9
    NAME_STARTS_WITH_DOT = 10
    NAME_LOCK_SUFFIX = 11
    NAME_ENDS_WITH_DOT = 12
    NAME_REPEATED_DOT = 13
    NAME_REFLOG_PORTION = 14
    NAME_ASTERISK = 15
    NAME_INVALID_BYTE = 16
    NO_LIST = 17
    TOO_SMALL = 18
    NO_MEMORY = 19
    NO_OPERATION = 20
    NEEDS_IDS = 21
    IN_CONFLICT = 22
    MISSING_SOURCE = 23
    INVALID_ID = 24
    OTHER_PARTS = 25


class Request(enum.Enum):
    """What to request from a server without ref prefixes: nothing, so that no request is to be sent, or all refs."""
    NOTHING = enum.auto()
    ALL = enum.auto()


class Mode(enum.IntEnum):
    """What the sign of a refspec says: none, `+` or `^`."""
    NORMAL = 1
    FORCED = 2
    NEGATIVE = 3


class Side(enum.IntEnum):
    """A side of a refspec: what comes before the last colon, without the sign, or what follows it."""
    SOURCE = 1
    DESTINATION = 2


class Kind(enum.IntEnum):
    """What the instruction of a refspec is."""
    PUSH_ALL_MATCHING = 1
    PUSH_DELETE = 2
    PUSH_MATCHING = 3
    PUSH_EXCLUDE = 4
    FETCH_ONLY = 5
    FETCH_EXCLUDE = 6
    FETCH_AND_UPDATE = 7


class Direction(enum.IntEnum):
    """Which sides of fetches are matched: the sources, or the destinations."""
    FORWARD = 1
    BACKWARD = 2


class OriginKind(enum.IntEnum):
    """What makes an update: a given spec, a configured one or a merged ref; HEAD, if nothing is asked for; or all tags, if
    asked for."""
    GIVEN = 1
    CONFIGURED = 2
    MERGE = 3
    DEFAULT = 4
    ALL_TAGS = 5


class Verdict(enum.IntEnum):
    """What becomes of an update.

    WRITTEN: if the plan is carried out, it is fetched, and written to its destination if any.
    INVALID_SOURCE: left out: the source is neither a valid ref name nor an id.
    INVALID_DESTINATION: left out: the destination isn't a valid ref name, or is HEAD.
    INVALID_SIDES: left out: both.
    CONTESTED: another source has the same destination, so nothing is fetched.
    OVERRULED: not written: a given spec or all tags write its destination.
    DIRECTORY_CONFLICT: the destination of another update is a directory of this one's, or the other way round. Git writes
    one of them, and ends with status 1.
    """
    WRITTEN = 1
    INVALID_SOURCE = 2
    INVALID_DESTINATION = 3
    INVALID_SIDES = 4
    CONTESTED = 5
    OVERRULED = 6
    DIRECTORY_CONFLICT = 8


# Of these two the library for C has the numbers under longer names.
_FATE_UNMATCHED = 1
_FATE_EXCLUDES = 2
_FATE_EXCLUDED = 3
_FATE_INVALID_NAME = 4
_FATE_INVALID_DESTINATION = 5
_FATE_DUPLICATE = 6
_FATE_IN_CONFLICT = 7
_FATE_DIRECTORY_CONFLICT = 8
_FATE_WRITTEN = 9
_MISMATCH_NO_SOURCE = 1
_MISMATCH_PREFIX = 2
_MISMATCH_SUFFIX = 3
_MISMATCH_OVERLAP = 4
_MISMATCH_OTHER_NAME = 5
_MISMATCH_OBJECT = 6
_MISMATCH_NO_CANDIDATE = 7
_MISMATCH_EARLIER_CANDIDATE = 8


class Fate(enum.IntEnum):
    """What becomes of a ref by one spec: the first of these that applies.

    UNMATCHED: the source doesn't match the name, for the reason in mismatch.
    EXCLUDES: the spec is negative, and excludes the ref.
    EXCLUDED: the first negative spec that does excludes the ref.
    INVALID_NAME: the name isn't a valid ref name, so a fetch leaves it out.
    INVALID_DESTINATION: the destination isn't a valid name below refs/, so a fetch leaves it out.
    DUPLICATE: an earlier spec, the first that does, maps the ref to the same destination.
    IN_CONFLICT: another source has the same destination, so nothing is fetched.
    DIRECTORY_CONFLICT: another source has a directory of the destination, or the other way round: Git writes one of both.
    WRITTEN: if the plan is carried out, it is fetched, and written to its destination if any.
    """
    UNMATCHED = _FATE_UNMATCHED
    EXCLUDES = _FATE_EXCLUDES
    EXCLUDED = _FATE_EXCLUDED
    INVALID_NAME = _FATE_INVALID_NAME
    INVALID_DESTINATION = _FATE_INVALID_DESTINATION
    DUPLICATE = _FATE_DUPLICATE
    IN_CONFLICT = _FATE_IN_CONFLICT
    DIRECTORY_CONFLICT = _FATE_DIRECTORY_CONFLICT
    WRITTEN = _FATE_WRITTEN


class Mismatch(enum.IntEnum):
    """Why a source doesn't match a name.

    NO_SOURCE: there is none.
    PREFIX: the name doesn't begin with the pattern's prefix; count says how many bytes agree.
    SUFFIX: it does, but doesn't end with the suffix; count says how many of the last bytes agree.
    OVERLAP: it does both, but the two would overlap.
    OTHER_NAME: the source is another name.
    OBJECT: it is an object id.
    NO_CANDIDATE: it is a partial name, of which the name is no candidate.
    EARLIER_CANDIDATE: the name is one, but the item is an earlier one, and so the spec takes that.
    """
    NO_SOURCE = _MISMATCH_NO_SOURCE
    PREFIX = _MISMATCH_PREFIX
    SUFFIX = _MISMATCH_SUFFIX
    OVERLAP = _MISMATCH_OVERLAP
    OTHER_NAME = _MISMATCH_OTHER_NAME
    OBJECT = _MISMATCH_OBJECT
    NO_CANDIDATE = _MISMATCH_NO_CANDIDATE
    EARLIER_CANDIDATE = _MISMATCH_EARLIER_CANDIDATE


class UpstreamKind(enum.IntEnum):
    """What an upstream is, or why there is none.

    TRACKED: the spec, the first that can, stores the merged ref in the one that the upstream names.
    EXCLUDED: excluded_by excludes the merged ref, as Git looks for that, from the spec.
    NOT_STORED: the spec, the first that does, fetches the merged ref, and none stores it.
    NOT_FETCHED: no positive spec fetches the merged ref.
    """
    TRACKED = 1
    EXCLUDED = 2
    NOT_STORED = 3
    NOT_FETCHED = 4


class RemoteValue(enum.IntEnum):
    """A value of remote.<name>.fetch that Git writes, or one for reviews.

    BRANCH: +refs/heads/<branch>:refs/remotes/<remote>/<branch>, as after `git remote add`.
    MIRROR: +refs/<branch>:refs/<branch>, as after `git remote add --mirror=fetch`.
    PULL_REQUESTS: those of GitHub, to refs/remotes/<remote>/pr/.
    MERGE_REQUESTS: those of GitLab, to refs/remotes/<remote>/merge-requests/.
    """
    BRANCH = 1
    MIRROR = 2
    PULL_REQUESTS = 3
    MERGE_REQUESTS = 4


class RefspecError(ValueError):
    """Why a text isn't a refspec, or why a call fails: `outcome` is an `Outcome`, or a number that this module
    doesn't know. It prints as a sentence.

    `parse` sets `side` to the side that is wrong, and `position` to the index of the first wrong byte in the text (of a
    `str`, in what it is encoded as). Both are None if something is missing rather than wrong: at EMPTY, PUSH_TO_EMPTY
    and NEGATIVE_EMPTY, and at NEGATIVE_WITH_DESTINATION if nothing follows the colon; and for every other call."""

    def __init__(self, outcome: int) -> None:
        super().__init__(outcome)
        self.outcome: int = Outcome(outcome) if outcome in _OUTCOMES else outcome
        self.side: Optional[Side] = None
        self.position: Optional[int] = None

    def __str__(self) -> str:
        return explanation(self.outcome) or f"The library ended with outcome {self.outcome}, which it doesn't explain."


@functools.total_ordering
@dataclass(frozen=True)
class Spec:
    """A refspec. Two are equal exactly if operation and canonical text are equal. They are ordered as `compare` orders
    them, and pushes come before fetches."""
    operation: Operation
    canonical: bytes
    kind: Kind
    forced: bool
    source: Optional[bytes]
    destination: Optional[bytes]

    def __lt__(self, other: object) -> bool:
        if not isinstance(other, Spec):
            return NotImplemented
        return self._key() < other._key()

    def map(self, name: Text) -> "Optional[Mapping]":
        """The mapping that it makes of a name, which is the source, by itself: negative specs exclude nothing here, and
        a partial name takes each of its six candidates. None if the source doesn't match the name, as an object id
        never does. The indexes are 0.

        >>> parse("refs/heads/*:refs/x/*", Operation.FETCH).map("refs/heads/main").destination
        b'refs/x/main'
        """
        source = _encoded(name)
        made, destination = _made(_library.gix_refspec_map, self, source)
        if not made.mapped:
            return None
        return Mapping(0, 0, source, destination if made.has_destination else None, self.forced)

    def map_back(self, name: Text) -> "Optional[Mapping]":
        """The mapping that it makes of a name, which is the destination. None if the destination doesn't match the
        name, or there is none. All else is as in `map`.

        >>> parse("refs/heads/*:refs/x/*", Operation.FETCH).map_back("refs/x/main").source
        b'refs/heads/main'
        """
        destination = _encoded(name)
        made, source = _made(_library.gix_refspec_map_back, self, destination)
        return Mapping(0, 0, source, destination, self.forced) if made.mapped else None

    def _key(self) -> Tuple[int, bytes, bytes, bool]:
        # Of one kind all have the same sides.
        return self.kind, self.source or b"", self.destination or b"", self.forced


@dataclass(frozen=True)
class Sides:
    """What the text of a refspec says: its mode, and the sides that it has. The source is HEAD for `@`, and where a fetch
    has none."""
    mode: Mode
    source: Optional[bytes]
    destination: Optional[bytes]


# Fetches to match by: texts, or what parse made of them.
Fetches = Iterable[Union[Text, Spec]]


@dataclass(frozen=True)
class Mapping:
    """A mapping: the indexes of its spec and of its name, None for an object requested by its id; its sides; and whether
    its spec is forced."""
    spec: int
    item: Optional[int]
    source: bytes
    destination: Optional[bytes]
    forced: bool = False


@dataclass(frozen=True)
class Validity:
    """What becomes of a mapping: whether it is kept; and in a conflict, the index of the first mapping to its destination.
    One that is neither kept nor in a conflict is removed, as its destination neither begins with refs/ nor is HEAD."""
    is_kept: bool
    first: Optional[int] = None


@dataclass(frozen=True)
class Origin:
    """What makes an update, and its index among the given specs, the configured ones or the merged refs: None for DEFAULT
    and ALL_TAGS."""
    kind: OriginKind
    index: Optional[int] = None


@dataclass(frozen=True)
class Update:
    """A ref or an object that a spec fetches: the index of its name, None for an object requested by its id; its sides;
    what makes it; what becomes of it; and whether its spec is forced."""
    item: Optional[int]
    source: bytes
    destination: Optional[bytes]
    origin: Origin
    verdict: Verdict
    forced: bool = False


@dataclass(frozen=True)
class Plan:
    """What a fetch does: its updates, last those that configured specs add to given ones; and the specs whose source the
    remote lacks."""
    updates: Tuple[Update, ...]
    missing: Tuple[Origin, ...]

    @property
    def is_carried_out(self) -> bool:
        """Whether no source is missing, and no update is in conflict."""
        return not self.missing and all(one.verdict != Verdict.CONTESTED for one in self.updates)


@dataclass(frozen=True)
class StaleRef:
    """A local ref that looks stale: the index of its name, and that of a negative spec that keeps it, as it excludes a ref
    from which it could be written: any one, if there are several. If None, a pruning fetch should delete it."""
    item: int
    kept_by: Optional[int] = None


@dataclass(frozen=True)
class Effect:
    """What a spec does with a ref: what becomes of it; the local ref that the spec maps it to, written or not; and what decides
    that: why the source doesn't match; the part of the name that the star of a pattern that excludes it stands for; the indexes
    of another spec and another name, None for an object; and how many bytes agree. What doesn't decide it is None."""
    fate: Fate
    destination: Optional[bytes] = None
    mismatch: Optional[Mismatch] = None
    word: Optional[bytes] = None
    spec: Optional[int] = None
    item: Optional[int] = None
    count: Optional[int] = None


@dataclass(frozen=True)
class Effects:
    """What specs do with a ref: the index of its name, None if the remote lacks it; and the effect of each spec, or the one that
    it would have."""
    item: Optional[int]
    of_specs: Tuple[Effect, ...]


@dataclass(frozen=True)
class Upstream:
    """The upstream of a branch, or why it has none: the index of a spec, None at NOT_FETCHED; that of the negative spec that
    excludes the merged ref, None at all but EXCLUDED; and the tracking ref, None at all but TRACKED."""
    kind: UpstreamKind
    spec: Optional[int] = None
    excluded_by: Optional[int] = None
    name: Optional[bytes] = None


def parse(text: Text, operation: Operation) -> Spec:
    """Parses a text. Raises RefspecError if it isn't a refspec, and ValueError if there is no such operation.

    >>> try:
    ...     parse("+a:b..c", Operation.FETCH)
    ... except RefspecError as error:
    ...     print(error.side.name, error.position, error)
    DESTINATION 4 A ref name must not have two dots in a row.
    """
    operation, one = Operation(operation), _bytes(text)
    try:
        canonical = _filled(_library.gix_refspec_canonical, *one, operation)
    except RefspecError as error:
        if Outcome.EMPTY <= error.outcome <= Outcome.NAME_INVALID_BYTE:
            error.side, error.position = _located(*one, operation)
        raise
    parts = _Parts(0, 0, _Told.empty(), _Told.empty())
    # The sides are places in the canonical text, or constants of the library.
    _check(_library.gix_refspec_parts(canonical, len(canonical), operation, ctypes.byref(parts)))
    return Spec(operation, canonical, Kind(parts.kind), parts.forced == 1, parts.source.value() or None,
                parts.destination.value() or None)


def read(text: Text, operation: Operation) -> Sides:
    """The mode of a refspec and its sides, as the text has them: a deletion keeps its sign, and a push of `main` has no
    destination. Raises RefspecError if it isn't a refspec.

    >>> read("+main", Operation.FETCH)
    Sides(mode=<Mode.FORCED: 2>, source=b'main', destination=None)
    """
    sides, one = _Sides(0, 0, 0, _Told.empty(), _Told.empty()), _bytes(text)
    # The sides are places in the text, or constants of the library.
    _check(_library.gix_refspec_read(*one, Operation(operation), ctypes.byref(sides)))
    return Sides(Mode(sides.mode), sides.source.value() if sides.has_source else None,
                 sides.destination.value() if sides.has_destination else None)


def from_parts(sides: Sides, operation: Operation) -> bytes:
    """The canonical text of the refspec with this mode and these sides: that of a text of the sign, the source, and a colon and
    the destination if there is one. Raises RefspecError, with OTHER_PARTS if that text has another mode or other sides.

    >>> from_parts(Sides(Mode.FORCED, b"main", b"refs/x"), Operation.FETCH)
    b'+main:refs/x'
    """
    source, destination = _encoded(sides.source or b""), _encoded(sides.destination or b"")
    given = _GivenSides(Mode(sides.mode), int(sides.source is not None), int(sides.destination is not None),
                        _Text(source, len(source)), _Text(destination, len(destination)))
    return _filled(_library.gix_refspec_from_parts, ctypes.byref(given), Operation(operation))


def remote_value(value: RemoteValue, remote: Text = b"", branch: Text = b"*") -> bytes:
    """The canonical text of a value of remote.<name>.fetch: for all branches, if none is given. The branch doesn't count for
    reviews, and the remote not for a mirror. Raises RefspecError as `from_parts` does.

    >>> remote_value(RemoteValue.BRANCH, "origin")
    b'+refs/heads/*:refs/remotes/origin/*'
    """
    return _filled(_library.gix_refspec_remote_value, RemoteValue(value), *_bytes(remote), *_bytes(branch))


def compare(a: Text, b: Text, operation: Operation) -> int:
    """How two texts compare as refspecs: -1, 0 or 1; 0 exactly if their canonical texts are equal.

    >>> compare("main", "main:main", Operation.PUSH)
    0
    """
    order = ctypes.c_int32()
    _check(_library.gix_refspec_compare(*_bytes(a), *_bytes(b), Operation(operation), ctypes.byref(order)))
    return order.value


def prefixes(fetches: Fetches) -> Union[Request, List[bytes]]:
    """The ref prefixes to send to a server, so that it lists each ref that fetches, texts or specs, map; none begins with
    another one. To follow tags, send b"refs/tags/" too, and for a clone b"HEAD". Or else Request.NOTHING or Request.ALL. The
    list isn't empty."""
    try:
        lines = _filled(_library.gix_refspec_prefixes, *_texts(_fetches(fetches)), Operation.FETCH)
    except RefspecError as error:
        if error.outcome == Outcome.NO_LIST:
            return Request.ALL
        raise
    return lines.split(b"\n")[:-1] or Request.NOTHING


def matches(fetches: Fetches, names: Iterable[Text], direction: Direction) -> List[Mapping]:
    """How fetches, texts or specs, map names, forward or backward. Raises RefspecError if a text isn't a refspec, and
    backward if a destination is an id."""
    direction = Direction(direction)
    items = _items(names)
    told, text = _listed(_library.gix_refspec_match, len(items), *_texts(_fetches(fetches)), *_texts(items), direction)
    return [_mapping(one, items, text, direction) for one in told]


def validate(mappings: Iterable[Mapping]) -> List[Validity]:
    """What becomes of mappings, such as those of `matches` that were changed: they are in conflict if another source has their
    destination. Whether names are valid isn't checked.

    >>> found = matches(["refs/heads/*:refs/x/*", "b:refs/x/a"], ["refs/heads/a", "refs/heads/b"], Direction.FORWARD)
    >>> [one.first for one in validate(found)]
    [0, None, 0]
    """
    sides = [(one.source, one.destination, one.item is None) for one in mappings]
    pairs = (_Pair * max(1, len(sides)))(*(
        _Pair(_Text(source, len(source)), _Text(destination or b"", len(destination or b"")), int(is_id),
              int(destination is not None)) for source, destination, is_id in sides))
    told = (_PairVerdict * max(1, len(sides)))()
    outcome = _library.gix_refspec_validate(pairs, len(sides), told, len(sides))
    if outcome not in (Outcome.OK, Outcome.IN_CONFLICT):
        raise RefspecError(outcome)
    return [Validity(one.verdict == _PAIR_KEPT, _index(one.first)) for one in told[:len(sides)]]


def plan(given: Fetches, names: Iterable[Text], configured: Fetches = (), merges: Iterable[Text] = (),
         tags: bool = False) -> Plan:
    """What `git fetch` writes, if the remote has these names: `given` are its arguments, `configured` the values of
    remote.<name>.fetch, both texts or specs; `merges` the values of branch.<name>.merge of the current branch, if its remote
    is this one; `tags` whether to fetch all tags. Without given specs the configured ones are fetched; else these also map
    what the given ones fetch. Raises RefspecError if a text isn't a refspec.

    A merge is a full name, or HEAD. Any other value is ignored; Git takes a ref for a partial name only if the server
    happens to list it. For an empty value Git fetches HEAD, so pass that.

    >>> fetch = plan(["main"], ["refs/heads/main"], configured=["+refs/heads/*:refs/remotes/origin/*"])
    >>> [(one.destination, one.origin.kind.name) for one in fetch.updates]
    [(None, 'GIVEN'), (b'refs/remotes/origin/main', 'CONFIGURED')]
    """
    items = _items(names)
    wish = _Wish(*_texts(_fetches(given)), *_texts(_fetches(configured)), *_texts(_items(merges)), int(bool(tags)))
    told, text = _listed(_library.gix_refspec_plan, len(items), ctypes.byref(wish), *_texts(items))
    return Plan(tuple(_update(one, items, text) for one in told if one.verdict != _MISSING),
                tuple(_origin(one) for one in told if one.verdict == _MISSING))


def stale(fetches: Fetches, remote: Iterable[Text], local: Iterable[Text]) -> List[StaleRef]:
    """The local refs that look stale by fetches, texts or specs, if the remote has these names, in order; of equal names
    only the first. Symbolic refs are like others here, so leave them out of the local ones. Raises RefspecError if a text
    isn't a refspec.

    >>> stale(["refs/heads/*:refs/x/*"], ["refs/heads/main"], ["refs/x/gone", "refs/x/main"])
    [StaleRef(item=0, kept_by=None)]
    """
    given = (*_texts(_fetches(fetches)), *_texts(_items(remote)), *_texts(_items(local)))
    count, room = ctypes.c_size_t(), 16
    while True:
        found = (_StaleRef * room)()
        outcome = _library.gix_refspec_stale(*given, found, room, ctypes.byref(count))
        if outcome == Outcome.OK:
            return [StaleRef(one.item, _index(one.kept_by)) for one in found[:count.value]]
        if outcome != Outcome.TOO_SMALL:
            raise RefspecError(outcome)
        room = count.value


def why(fetches: Fetches, names: Iterable[Text], name: Text) -> Effects:
    """What each of some fetches, texts or specs, does with the ref of one name, if the remote has these names, and so why it is
    fetched or not. Raises RefspecError if a text isn't a refspec.

    >>> [one.fate.name for one in why(["refs/heads/*:refs/x/*", "^refs/heads/a"], ["refs/heads/a"], "refs/heads/a").of_specs]
    ['EXCLUDED', 'EXCLUDES']
    """
    texts, encoded = _fetches(fetches), _encoded(name)
    given = (*_texts(texts), *_texts(_items(names)), *_bytes(encoded))
    effects, room = (_Effect * max(1, len(texts)))(), 256
    item, size = ctypes.c_size_t(), ctypes.c_size_t()
    while True:
        buffer = ctypes.create_string_buffer(room)
        outcome = _library.gix_refspec_why(*given, effects, len(texts), buffer, room, ctypes.byref(item), ctypes.byref(size))
        if outcome != Outcome.TOO_SMALL:
            break
        room = size.value
    _check(outcome)
    return Effects(_index(item.value), tuple(_effect(one, encoded, buffer.raw) for one in effects[:len(texts)]))


def upstream(fetches: Fetches, merge: Text) -> Upstream:
    """The upstream of a branch that merges a ref, by the fetches of its remote, texts or specs: what `git rev-parse` makes of
    <branch>@{upstream}. `merge` is the first value of branch.<name>.merge. Git compares sides as they are written: main isn't
    refs/heads/main here. Raises RefspecError if a text isn't a refspec.

    >>> upstream(["+refs/heads/*:refs/remotes/origin/*"], "refs/heads/main").name
    b'refs/remotes/origin/main'
    """
    told, room, given = _UpstreamRef(), 256, (*_texts(_fetches(fetches)), *_bytes(merge))
    while True:
        buffer = ctypes.create_string_buffer(room)
        outcome = _library.gix_refspec_upstream(*given, buffer, room, ctypes.byref(told))
        if outcome != Outcome.TOO_SMALL:
            break
        room = told.len
    _check(outcome)
    kind = UpstreamKind(told.kind)
    name = buffer.raw[:told.len] if kind == UpstreamKind.TRACKED else None
    return Upstream(kind, _index(told.spec), _index(told.excluded_by), name)


def prefetched(fetch: Union[Text, Spec]) -> Optional[bytes]:
    """The canonical text of what `git fetch --prefetch` applies in place of a fetch, a text or a spec: of a negative one as it
    is, and of one that stores refs forced and below refs/prefetch/. None if it ignores the fetch, as that stores nothing, or
    its source begins with refs/tags/. Raises RefspecError if the text isn't a refspec.

    >>> prefetched("refs/heads/*:refs/remotes/origin/*")
    b'+refs/heads/*:refs/prefetch/remotes/origin/*'
    """
    text, = _fetches([fetch])
    return _filled(_library.gix_refspec_prefetched, *_bytes(text)) or None


def renamed(value: Text, old_name: Text, new_name: Text) -> Optional[bytes]:
    """What `git remote rename` makes of a value of remote.<old_name>.fetch: the first :refs/remotes/<old_name>/ in it gets the
    new name. None if the value doesn't have that: Git then leaves it. Neither the value nor the names are checked.

    >>> renamed("+refs/heads/*:refs/remotes/origin/*", "origin", "up")
    b'+refs/heads/*:refs/remotes/up/*'
    """
    return _filled(_library.gix_refspec_renamed, *_bytes(value), *_bytes(old_name), *_bytes(new_name)) or None


def explanation(outcome: int) -> Optional[str]:
    """The sentence for an outcome. None for a number that is no outcome of the library.

    >>> explanation(Outcome.NAME_REPEATED_DOT)
    'A ref name must not have two dots in a row.'
    """
    sentence = _Told.empty()
    if not 0 <= outcome < 1 << 32 or _library.gix_refspec_explanation(outcome, ctypes.byref(sentence)) != Outcome.OK:
        return None
    return sentence.value().decode()


def library_version() -> str:
    """The version of the library that is loaded, such as "0.3.0"."""
    return _version_of(_library)


_OUTCOMES = frozenset(Outcome)
# What becomes of a mapping that is validated.
_PAIR_KEPT = 1
_PAIR_REMOVED = 2
_PAIR_IN_CONFLICT = 3
# The verdict on a spec whose source is missing, and the index of what isn't there.
_MISSING = 7
_NO_INDEX = ctypes.c_size_t(-1).value


class _Text(ctypes.Structure):
    _fields_ = [("bytes", ctypes.c_char_p), ("len", ctypes.c_size_t)]


class _Told(ctypes.Structure):
    """A text from the library, which may have a NUL in it or behind it."""
    _fields_ = [("bytes", ctypes.POINTER(ctypes.c_char)), ("len", ctypes.c_size_t)]

    @classmethod
    def empty(cls) -> "_Told":
        return cls(ctypes.cast(ctypes.create_string_buffer(1), ctypes.POINTER(ctypes.c_char)), 0)

    def value(self) -> bytes:
        return bytes(self.bytes[:self.len])


class _Parts(ctypes.Structure):
    _fields_ = [("kind", ctypes.c_uint32), ("forced", ctypes.c_uint32), ("source", _Told), ("destination", _Told)]


class _Sides(ctypes.Structure):
    _fields_ = [("mode", ctypes.c_uint32), ("has_source", ctypes.c_uint32), ("has_destination", ctypes.c_uint32),
                ("source", _Told), ("destination", _Told)]


class _GivenSides(ctypes.Structure):
    _fields_ = [("mode", ctypes.c_uint32), ("has_source", ctypes.c_uint32), ("has_destination", ctypes.c_uint32),
                ("source", _Text), ("destination", _Text)]


class _Pair(ctypes.Structure):
    _fields_ = [("source", _Text), ("destination", _Text), ("source_is_id", ctypes.c_uint32),
                ("has_destination", ctypes.c_uint32)]


class _PairVerdict(ctypes.Structure):
    _fields_ = [("verdict", ctypes.c_uint32), ("first", ctypes.c_size_t)]


class _UpstreamRef(ctypes.Structure):
    _fields_ = [("kind", ctypes.c_uint32), ("spec", ctypes.c_size_t), ("excluded_by", ctypes.c_size_t),
                ("len", ctypes.c_size_t)]


class _Effect(ctypes.Structure):
    _fields_ = [("fate", ctypes.c_uint32), ("mismatch", ctypes.c_uint32), ("has_destination", ctypes.c_uint32),
                ("has_word", ctypes.c_uint32), ("spec", ctypes.c_size_t), ("item", ctypes.c_size_t), ("count", ctypes.c_size_t),
                ("word_at", ctypes.c_size_t), ("word_len", ctypes.c_size_t), ("made_at", ctypes.c_size_t),
                ("made_len", ctypes.c_size_t)]


class _Span(ctypes.Structure):
    _fields_ = [("side", ctypes.c_uint32), ("start", ctypes.c_size_t), ("len", ctypes.c_size_t)]


class _Made(ctypes.Structure):
    _fields_ = [("mapped", ctypes.c_uint32), ("has_destination", ctypes.c_uint32), ("len", ctypes.c_size_t)]


class _Mapping(ctypes.Structure):
    _fields_ = [("spec", ctypes.c_size_t), ("item", ctypes.c_size_t), ("has_destination", ctypes.c_uint32),
                ("forced", ctypes.c_uint32), ("origin", ctypes.c_uint32), ("verdict", ctypes.c_uint32),
                ("id_at", ctypes.c_size_t), ("id_len", ctypes.c_size_t), ("made_at", ctypes.c_size_t),
                ("made_len", ctypes.c_size_t)]


class _Wish(ctypes.Structure):
    _fields_ = [("given", ctypes.POINTER(_Text)), ("given_count", ctypes.c_size_t),
                ("configured", ctypes.POINTER(_Text)), ("configured_count", ctypes.c_size_t),
                ("merges", ctypes.POINTER(_Text)), ("merges_count", ctypes.c_size_t), ("tags", ctypes.c_uint32)]


class _StaleRef(ctypes.Structure):
    _fields_ = [("item", ctypes.c_size_t), ("kept_by", ctypes.c_size_t)]


def _load() -> ctypes.CDLL:
    """The library that GIX_REFSPEC_LIBRARY names, or that of this package, or the installed one. Raises ImportError if it
    is missing, another library, or one of another version."""
    own = os.path.join(os.path.dirname(os.path.abspath(__file__)), _SONAME)
    file = os.environ.get("GIX_REFSPEC_LIBRARY") or (own if os.path.exists(own) else _SONAME)
    try:
        library = ctypes.CDLL(file)
    except OSError as error:
        raise ImportError(f"{error}; install the library, or name the file in GIX_REFSPEC_LIBRARY") from error
    wanted = f"this module is for version {__version__}: install that, or name its file in GIX_REFSPEC_LIBRARY"
    try:
        version = _version_of(library)
    except AttributeError as error:
        raise ImportError(f"{file} isn't libgix_refspec, and {wanted}") from error
    if not f"libgix_refspec.so.{version}.".startswith(f"{_SONAME}."):
        raise ImportError(f"{file} is version {version} of libgix_refspec, and {wanted}")
    try:
        _declare(library)
    except AttributeError as error:
        raise ImportError(f"{file} is version {version} of libgix_refspec, and {wanted}; {error}") from error
    return library


def _version_of(library: ctypes.CDLL) -> str:
    """The version that a library tells. Raises AttributeError if it isn't libgix_refspec."""
    call, version = library.gix_refspec_version, _Told.empty()
    call.argtypes, call.restype = [ctypes.POINTER(_Told)], ctypes.c_uint32
    _check(call(ctypes.byref(version)))
    return version.value().decode()


def _declare(library: ctypes.CDLL) -> None:
    """Declares the parameters of the calls. Raises AttributeError if the library lacks one."""
    text, number, size = ctypes.c_char_p, ctypes.c_uint32, ctypes.c_size_t
    sizes, one, many = ctypes.POINTER(size), [text, size], [ctypes.POINTER(_Text), size]
    lists = [ctypes.POINTER(_Mapping), size, text, size, sizes, sizes]
    for name, types in (
            ("parts", [*one, number, ctypes.POINTER(_Parts)]),
            ("read", [*one, number, ctypes.POINTER(_Sides)]),
            ("from_parts", [ctypes.POINTER(_GivenSides), number, text, size, sizes]),
            ("locate", [*one, number, ctypes.POINTER(_Span)]),
            ("canonical", [*one, number, text, size, sizes]),
            ("compare", [*one, *one, number, ctypes.POINTER(ctypes.c_int32)]),
            ("map", [*one, number, *one, text, size, ctypes.POINTER(_Made)]),
            ("map_back", [*one, number, *one, text, size, ctypes.POINTER(_Made)]),
            ("prefixes", [*many, number, text, size, sizes]),
            ("match", [*many, *many, number, *lists]),
            ("validate", [ctypes.POINTER(_Pair), size, ctypes.POINTER(_PairVerdict), size]),
            ("plan", [ctypes.POINTER(_Wish), *many, *lists]),
            ("stale", [*many, *many, *many, ctypes.POINTER(_StaleRef), size, sizes]),
            ("why", [*many, *many, *one, ctypes.POINTER(_Effect), size, text, size, sizes, sizes]),
            ("upstream", [*many, *one, text, size, ctypes.POINTER(_UpstreamRef)]),
            ("prefetched", [*one, text, size, sizes]),
            ("renamed", [*one, *one, *one, text, size, sizes]),
            ("remote_value", [number, *one, *one, text, size, sizes]),
            ("explanation", [number, ctypes.POINTER(_Told)])):
        call = getattr(library, f"gix_refspec_{name}")
        call.argtypes, call.restype = types, number


def _check(outcome: int) -> None:
    if outcome != Outcome.OK:
        raise RefspecError(outcome)


_library = _load()


def _encoded(text: Text) -> bytes:
    """The bytes that there are of a text, as plain `bytes`: a subclass may tell another length, or encode to one that does."""
    if type(text) is bytes:
        return text
    if isinstance(text, str):
        return str.encode(text, "utf-8", "surrogateescape")
    if isinstance(text, (bytes, bytearray, memoryview)):
        return bytes(memoryview(text))
    raise TypeError(f"a text is bytes-like or str, not {type(text).__name__}")


def _bytes(text: Text) -> Tuple[bytes, int]:
    encoded = _encoded(text)
    return encoded, len(encoded)


def _located(text: bytes, size: int, operation: Operation) -> Tuple[Optional[Side], Optional[int]]:
    """The side of a refused text that is wrong, and the index of the first wrong byte."""
    span = _Span()
    _check(_library.gix_refspec_locate(text, size, operation, ctypes.byref(span)))
    return (Side(span.side), span.start) if span.side else (None, None)


def _fetches(fetches: Fetches) -> List[bytes]:
    """The texts of fetches."""
    if isinstance(fetches, (str, bytes, bytearray, memoryview, Spec)):
        raise TypeError(f"fetches are a list, not one {type(fetches).__name__}")
    texts = []
    for one in fetches:
        if isinstance(one, Spec) and one.operation != Operation.FETCH:
            raise ValueError(f"a push is among the fetches: {one.canonical!r}")
        texts.append(_encoded(one.canonical if isinstance(one, Spec) else one))
    return texts


def _items(names: Iterable[Text]) -> List[bytes]:
    """The bytes of names."""
    if isinstance(names, (str, bytes, bytearray, memoryview)):
        raise TypeError(f"names are a list, not one {type(names).__name__}")
    return [_encoded(name) for name in names]


def _texts(texts: List[bytes]) -> "Tuple[ctypes.Array[_Text], int]":
    """A list for the library, whose pointer is never null."""
    return (_Text * max(1, len(texts)))(*(_Text(text, len(text)) for text in texts)), len(texts)


def _filled(call: Callable[..., int], *words: object) -> bytes:
    """The answer of a call that fills a buffer, which is made as large as the call says that it has to be."""
    size, room = ctypes.c_size_t(), 256
    while True:
        buffer = ctypes.create_string_buffer(room)
        outcome = call(*words, buffer, room, ctypes.byref(size))
        if outcome == Outcome.OK:
            return buffer.raw[:size.value]
        if outcome != Outcome.TOO_SMALL:
            raise RefspecError(outcome)
        room = size.value


def _made(call: Callable[..., int], spec: Spec, name: bytes) -> Tuple[_Made, bytes]:
    """What a call tells of a name, and the name that it makes."""
    made, room = _Made(), 256
    while True:
        buffer = ctypes.create_string_buffer(room)
        outcome = call(*_bytes(spec.canonical), spec.operation, name, len(name), buffer, room, ctypes.byref(made))
        if outcome == Outcome.OK:
            return made, buffer.raw[:made.len]
        if outcome != Outcome.TOO_SMALL:
            raise RefspecError(outcome)
        room = made.len


def _listed(call: Callable[..., int], items: int, *given: object) -> "Tuple[List[_Mapping], bytes]":
    """What a call over so many names tells, and its texts: it fills two lists, which are made as large as it says that they
    have to be."""
    count, size, rooms = ctypes.c_size_t(), ctypes.c_size_t(), (items + 8, 64 * items + 256)
    while True:
        mappings, buffer = (_Mapping * rooms[0])(), ctypes.create_string_buffer(rooms[1])
        outcome = call(*given, mappings, rooms[0], buffer, rooms[1], ctypes.byref(count), ctypes.byref(size))
        if outcome in (Outcome.OK, Outcome.IN_CONFLICT, Outcome.MISSING_SOURCE):
            return mappings[:count.value], buffer.raw[:size.value]
        if outcome != Outcome.TOO_SMALL:
            raise RefspecError(outcome)
        rooms = (max(rooms[0], count.value), max(rooms[1], size.value))


def _index(number: int) -> Optional[int]:
    return None if number == _NO_INDEX else number


def _effect(one: _Effect, name: bytes, text: bytes) -> Effect:
    mismatch = Mismatch(one.mismatch) if one.mismatch else None
    return Effect(
        Fate(one.fate), text[one.made_at:one.made_at + one.made_len] if one.has_destination else None, mismatch,
        name[one.word_at:one.word_at + one.word_len] if one.has_word else None, _index(one.spec), _index(one.item),
        one.count if mismatch in (Mismatch.PREFIX, Mismatch.SUFFIX) else None)


def _sides(one: _Mapping, names: List[bytes], text: bytes) -> Tuple[Optional[int], bytes, bytes]:
    """The index of the name, the name or the id, and the name that the spec makes."""
    item = _index(one.item)
    name = text[one.id_at:one.id_at + one.id_len] if item is None else names[item]
    return item, name, text[one.made_at:one.made_at + one.made_len]


def _mapping(one: _Mapping, names: List[bytes], text: bytes, direction: Direction) -> Mapping:
    item, name, made = _sides(one, names, text)
    source, other = (name, made) if direction == Direction.FORWARD else (made, name)
    return Mapping(one.spec, item, source, other if one.has_destination else None, one.forced == 1)


def _update(one: _Mapping, names: List[bytes], text: bytes) -> Update:
    item, source, made = _sides(one, names, text)
    return Update(item, source, made if one.has_destination else None, _origin(one), Verdict(one.verdict), one.forced == 1)


def _origin(one: _Mapping) -> Origin:
    return Origin(OriginKind(one.origin), _index(one.spec))
