"""The objects that docs/refspec.schema.json allows. Without the package jsonschema, Debian's python3-jsonschema, each object is."""
import json

from . import ROOT, stop

try:
    import jsonschema
except ImportError:
    jsonschema = None

SCHEMA = ROOT / "docs" / "refspec.schema.json"


def loaded():
    return json.loads(SCHEMA.read_text(encoding="utf-8"))


def validator(part):
    """What holds an object against a schema, or against a part of one."""
    return jsonschema and jsonschema.Draft202012Validator(part)


def listed(schema, path=()):
    """The members of a part of a schema and the values that it lists, each behind the members that lead to it."""
    if "properties" in schema and schema.get("additionalProperties") is not False:
        stop(f"the schema allows other members than {list(schema['properties'])}")
    for name, part in schema.get("properties", {}).items():
        yield *path, name
        values = part.get("enum", [part["const"]] if "const" in part else [])
        for value in values + ([None] if "null" in part.get("type", []) else []):
            yield *path, name, value
        yield from listed(part.get("items", {}), (*path, name))


class Objects:
    """The objects that the schema allows. Those with members of the same kinds, and the same values where the schema lists
    them, are alike, and only the first of them is held against it."""

    def __init__(self):
        schema = loaded()
        self.validator, self.known = validator(schema), {}
        self.enumerated = {path[-2] for part in schema["oneOf"] for path in listed(part) if len(path) > 1}

    def kind_of(self, value, name=None):
        if isinstance(value, dict):
            return tuple(sorted((key, self.kind_of(member, key)) for key, member in value.items()))
        if isinstance(value, list):
            return list, frozenset(self.kind_of(member, name) for member in value)
        is_shown = name in self.enumerated or not isinstance(value, str) and (isinstance(value, bool) or value is None or value < 1)
        return repr(value) if is_shown else type(value).__name__

    def allow(self, line):
        """Whether a line is an object that is allowed."""
        try:
            value = json.loads(line)
        except ValueError:
            return False
        if not isinstance(value, dict):
            return False
        kind = self.kind_of(value)
        if kind not in self.known:
            self.known[kind] = self.validator is None or self.validator.is_valid(value)
        return self.known[kind]
