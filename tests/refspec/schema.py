#!/usr/bin/env python3
"""Holds each JSON line of the samples of refspec and git refspec against docs/refspec.schema.json: tests/refspec/schema.py

Each object of the schema has to occur, with each of its members and each value that the schema lists, and none may have
other members. Left out where there is no Python package jsonschema, which Debian has as python3-jsonschema.
"""
import json
import sys
from pathlib import Path

sys.path.insert(0, str(Path(__file__).resolve().parents[1]))
from helpers import parser, samples, stop
from helpers.schema import jsonschema, listed, loaded, validator

# The samples, each with what begins a call, and whether its bytes are escaped.
SAMPLES = (("refspec.sample", b"= ", True), ("git-refspec.sample", b"$ ", False))
# What only a call with 65,536 specs prints, which no sample has.
LARGE = {"kind": "all",
         "message": "There are more than 65,535 prefixes, which a server ignores, or one is too long for a packet line. So ask for all refs."}


def objects(name, call, is_escaped):
    """The lines that the calls of a sample with --json print, each with its number and its object. Of a call whose
    lines another command reads, only those that are objects."""
    is_json, is_piped = False, False
    for number, line in enumerate((samples.FOLDER / name).read_bytes().splitlines(), 1):
        if line.startswith(call):
            is_json, is_piped = b"--json" in line.split(b" -- ")[0], b"|" in line
        elif is_json and line.startswith(b"> {" if is_piped else b">"):
            yield number, object_of(name, number, samples.plain(line[2:]) if is_escaped else line[2:])


def object_of(name, number, text):
    try:
        return json.loads(text)
    except ValueError:
        return stop(f"{name}:{number}: not JSON: {text!r}")


def held(value, path=()):
    """The members of an object and their values, each behind the members that lead to it."""
    for name, member in value.items():
        yield *path, name
        for one in member if isinstance(member, list) else [member]:
            if isinstance(one, dict):
                yield from held(one, (*path, name))
            else:
                yield *path, name, one


def main():
    parser(__doc__).parse_args()
    if jsonschema is None:
        print("schema: left out, as there is no python3-jsonschema")
        return
    schema = loaded()
    jsonschema.Draft202012Validator.check_schema(schema)
    whole, parts, count = validator(schema), [(validator(part), part, set()) for part in schema["oneOf"]], 0
    for sample in SAMPLES:
        for number, value in objects(*sample):
            if not whole.is_valid(value):
                stop(f"{sample[0]}:{number}: not one object of the schema: {value}")
            next(found for part, _, found in parts if part.is_valid(value)).update(held(value))
            count += 1
    next(found for part, _, found in parts if part.is_valid(LARGE)).update(held(LARGE))
    for _, part, found in parts:
        lacking = [path for path in listed(part) if path not in found]
        if lacking:
            stop(f"no line of a sample has {lacking} of {part['properties']['kind']}")
    print(f"schema: {count} lines are each one of {len(parts)} objects of the schema")


if __name__ == "__main__":
    main()
