#!/usr/bin/env python3
"""Answers cases as lines of JSON by the module gix_refspec, and so by the library for C:

    GIX_REFSPEC_LIBRARY=out/lib/libgix_refspec.so PYTHONPATH=bindings/python conformance/run --json conformance/drivers/python.py

It leaves out validation, which the lines of refspec_map and the Rust crate have, and destinations that are ids.
"""
import os
import sys

sys.dont_write_bytecode = True
sys.path.insert(0, os.path.join(os.path.dirname(os.path.abspath(__file__)), os.pardir))
import gix_refspec
import tables
from gix_refspec import Direction, Operation, Outcome, RefspecError, Request, Verdict

COLUMNS = {Verdict.WRITTEN: "updates", Verdict.INVALID_SOURCE: "left_out", Verdict.INVALID_DESTINATION: "left_out",
           Verdict.INVALID_SIDES: "left_out", Verdict.CONTESTED: "conflicts", Verdict.OVERRULED: "overruled",
           Verdict.DIRECTORY_CONFLICT: "nested"}
ORIGINS = {"GIVEN": b"given", "CONFIGURED": b"configured", "MERGE": b"merge", "DEFAULT": b"default", "ALL_TAGS": b"tags"}
STOPPED = ("updates", "left_out", "overruled", "nested")


def parse(operation, text):
    return gix_refspec.parse(text, Operation[operation.upper()])


def reason_of(outcome):
    """The name of a reason, as the reference has it."""
    name = Outcome(outcome).name
    return "ReferenceName" if name.startswith("NAME_") else "".join(word.capitalize() for word in name.split("_"))


def validity(operation, text):
    try:
        parse(operation, text)
    except RefspecError as error:
        return {"valid": "no", "reason": reason_of(error.outcome)}
    return {"valid": "yes", "reason": "-"}


def names(form, name):
    """A name as the destination of a fetch, and so a pattern; an empty one, and one with a colon, can't be asked for."""
    if name == b"" or b":" in name:
        return None
    return {"valid": validity("fetch", {"name": b"x:", "pattern": b"x*:"}[form] + name)["valid"]}


def canonical(operation, text):
    return {"canonical": parse(operation, text).canonical}


def equality(operation, one, other):
    order = gix_refspec.compare(one, other, Operation[operation.upper()])
    if (order == 0) != (parse(operation, one) == parse(operation, other)):
        return {"fails": "compare and == differ"}
    return {"equal": "yes" if order == 0 else "no"}


def row_of(one, *front):
    return (*front, one.source, *([] if one.destination is None else [one.destination]))


def matches(specs, refs, direction):
    try:
        found = gix_refspec.matches(specs, [ref.name for ref in refs], direction)
    except RefspecError as error:
        if error.outcome == Outcome.NEEDS_IDS:
            return None
        raise
    return {"mappings": [row_of(one) for one in found], "spec": [one.spec for one in found]}


def forward(specs, refs):
    return matches(specs, refs, Direction.FORWARD)


def backward(specs, refs):
    return matches(specs, refs, Direction.BACKWARD)


def candidates(source, refs):
    found = gix_refspec.matches([source], [ref.name for ref in refs], Direction.FORWARD)
    return {"ref": [one.source for one in found]}


def plans(given, configured, merges, tags, refs):
    plan = gix_refspec.plan(given, [ref.name for ref in refs], configured, merges, tags == "yes")
    found = {column: [] for column in (*STOPPED, "conflicts")}
    for one in plan.updates:
        found[COLUMNS[one.verdict]].append(row_of(one, ORIGINS[one.origin.kind.name]))
    lists = {"GIVEN": given, "CONFIGURED": configured, "DEFAULT": ["HEAD"], "ALL_TAGS": ["refs/tags/*:refs/tags/*"]}
    specs = [lists[one.kind.name][one.index or 0] for one in plan.missing]
    found["missing"] = [parse("fetch", spec).canonical for spec in specs]
    if not plan.is_carried_out:
        found.update({column: [] for column in STOPPED})
    return found


def stale(specs, remote, local):
    found = gix_refspec.stale(specs, [ref.name for ref in remote], local)
    return {"stale": [local[one.item] for one in found if one.kept_by is None],
            "kept": [local[one.item] for one in found if one.kept_by is not None]}


def prefixes(specs):
    found = gix_refspec.prefixes(specs)
    if isinstance(found, Request):
        return {"ask": found.name.lower(), "prefixes": []}
    return {"ask": "some", "prefixes": found}


def upstreams(values, merge):
    found = gix_refspec.upstream(values, merge).name
    return {"upstream": [] if found is None else [found]}


CALLS = {"validity": validity, "names": names, "canonical": canonical, "equality": equality, "forward": forward,
         "backward": backward, "candidates": candidates, "plans": plans, "stale": stale, "prefixes": prefixes,
         "upstreams": upstreams}


def answer(kind, given):
    return CALLS[kind](**given) if kind in CALLS else None


tables.serve(answer)
