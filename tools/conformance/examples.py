"""The smallest cases of each difference between Git and this project that tools/oracle/gitknown.py knows, by kind of table."""
import hashlib
import os
import sys

HERE = os.path.dirname(os.path.abspath(__file__))
sys.dont_write_bytecode = True
sys.path[:0] = [os.path.join(HERE, os.pardir, os.pardir, "conformance"), os.path.join(HERE, os.pardir, "oracle")]
import gitfetch
import gitknown
import reference
import tables

Ref = tables.Ref


def id_of(name):
    """The id of the object that a ref of this name points to in tools/oracle/gitfetch.py, unless it is a tag."""
    text = gitfetch.COMMIT % name
    return hashlib.sha1(b"commit %d\0%s" % (len(text), text)).hexdigest().encode()


def advertised(names):
    return [Ref(name, id_of(name), None) for name in sorted(names)]


def without_needless_ids(values, refs):
    """The refs, with an id only if a spec names it."""
    named = {side.lower() for value in values for side in reference.parts_of(value)[1:] if side and reference.is_id(side)}
    return [ref if {part.lower() for part in ref[1:] if part} & named else Ref(ref.name, None, None) for ref in refs]


def group_case(values, names):
    return {"specs": values, "refs": without_needless_ids(values, advertised(names))}


def plan_case(given, configured, merges, tags, names):
    return {"given": given, "configured": configured, "merges": merges, "tags": "yes" if tags else "no",
            "refs": without_needless_ids(given + configured, advertised(names))}


def stale_case(values, names, local):
    return {"specs": values, "remote": without_needless_ids(values, advertised(names)), "local": local}


def with_id(values, names):
    id_ = id_of(names[0])
    return [value.replace(b"<id>", id_).replace(b"<ID>", id_.upper()) for value in values]


def plan_of(kind):
    lists = {name: value if value is True else with_id(value, kind.names) for name, value in kind.wish.items()}
    return plan_case(*(lists.get(name, []) for name in ("given", "configured", "merges")), False, kind.names)


def cases():
    groups = [group_case(with_id(kind.specs, kind.names), kind.names) for kind in gitknown.FAILING + gitknown.REWRITTEN]
    return {
        "forward": groups, "validation": groups,
        "backward": [group_case(kind.specs, kind.names) for kind in gitknown.BACKWARD],
        "plans": [plan_of(kind) for kind in gitknown.FAILING_FETCHES + gitknown.REWRITTEN_FETCHES],
        "stale": [stale_case(with_id(kind.wish["given"], kind.names), kind.names, kind.local) for kind in gitknown.REWRITTEN_PRUNINGS],
    }


def is_valid(case):
    specs = [spec for column in ("specs", "given", "configured") for spec in case.get(column, [])]
    return all(reference.refusal("fetch", spec) is None for spec in specs)


CASES = {kind: list(filter(is_valid, found)) for kind, found in cases().items()}
CELLS = {kind: {tuple(tables.given_cells(kind, case)) for case in found} for kind, found in CASES.items()}
