#!/usr/bin/env python3
"""Answers cases as lines of JSON by dulwich (Debian's python3-dulwich):

    conformance/run --json --known conformance/known/dulwich.tsv conformance/drivers/dulwich.py

dulwich 0.21 has no stars and no negative specs, and doesn't check a text as such. So it answers names, first candidates, and
what single specs without either map.
"""
import os
import sys

sys.dont_write_bytecode = True
HERE = os.path.dirname(os.path.abspath(__file__))
sys.path = [folder for folder in sys.path if os.path.abspath(folder or ".") != HERE]  # this file is no module dulwich
sys.path.insert(0, os.path.join(HERE, os.pardir))
import tables
from dulwich.objectspec import parse_ref, parse_reftuple
from dulwich.refs import check_ref_format


def names(form, name):
    return {"valid": "yes" if check_ref_format(name) else "no"} if form == "name" and name else None


def candidates(source, refs):
    try:
        return {"ref": [parse_ref([ref.name for ref in refs], source)]}
    except KeyError:
        return {"ref": []}


def forward(specs, refs):
    if len(specs) > 1 or b"*" in specs[0] or specs[0].startswith(b"^"):
        return None
    try:
        source, destination, _ = parse_reftuple([ref.name for ref in refs], [], specs[0])
    except KeyError:
        return {"fails": "missing"}
    return {"mappings": [tuple(part for part in (source, destination) if part is not None)]}


CALLS = {"names": names, "candidates": candidates, "forward": forward}
tables.serve(lambda kind, given: CALLS[kind](**given) if kind in CALLS else None)
