#!/usr/bin/env python3
"""Answers cases as lines of JSON by the program refspec: conformance/run --json conformance/drivers/refspec.py REFSPEC

It answers canonical texts, plans, stale refs, prefixes and upstreams; a single process of refspec_map answers the rest.
"""
import collections
import json
import os
import subprocess
import sys
import tempfile

sys.dont_write_bytecode = True
sys.path.insert(0, os.path.join(os.path.dirname(os.path.abspath(__file__)), os.pardir))
import tables

COLUMNS = {"mapping": "updates", "left_out": "left_out", "overruled": "overruled", "directory_conflict": "nested"}


class Refspec:
    """The program, and a folder for its files."""

    def __init__(self, program, folder):
        self.program, self.folder = program, folder

    def file(self, name, texts):
        """A file with records that end with a zero byte."""
        path = os.path.join(self.folder, name)
        with open(path, "wb") as file:
            file.write(b"".join(text + b"\0" for text in texts))
        return path

    def objects(self, command, specs, *options):
        """What a command prints for specs, by kind."""
        words = [self.program, command, "--json", "--read-z", *options, "--specs", self.file("specs", specs)]
        made = subprocess.run(words, input=b"", stdout=subprocess.PIPE, stderr=subprocess.DEVNULL, check=False)
        found = collections.defaultdict(list)
        for line in made.stdout.decode("utf-8", "surrogateescape").splitlines():
            one = json.loads(line)
            found[one.pop("kind")].append({name: unquoted(value) for name, value in one.items()})
        return found

    def canonical(self, operation, text):
        found = self.objects("canon", [text], *["--push"] * (operation == "push"))
        return {"canonical": found["canonical"][0]["canonical"]}

    def plans(self, given, configured, merges, tags, refs):
        options = ["--refs", self.refs("refs", refs), "--configured", self.file("configured", configured)]
        options += [word for name in merges for word in ("--merge", name)] + ["--tags"] * (tags == "yes")
        found = self.objects("plan", given, *options)
        made = {column: [row_of(one) for one in found[kind]] for kind, column in COLUMNS.items()}
        made["conflicts"] = [row_of({**source, "destination": one["destination"]})
                             for one in found["conflict"] for source in one["sources"]]
        made["missing"] = [one["spec"] for one in found["missing"]]
        if made["missing"] or made["conflicts"]:
            made.update({column: [] for column in COLUMNS.values()})
        return {**made, "ordered": False}

    def refs(self, name, refs):
        return self.file(name, [ref.id + b"\t" + ref.name for ref in refs])

    def stale(self, specs, remote, local):
        """A fetch that is stopped deletes nothing, and the program says why instead; so that is left out."""
        found = self.objects("stale", specs, "--refs", self.refs("refs", remote), "--local",
                             self.refs("local", [tables.Ref(name, b"1" * 40, None) for name in local]))
        if found["missing"] or found["conflict"]:
            return None
        return {"stale": [one["name"] for one in found["stale"]], "kept": [one["name"] for one in found["kept"]]}

    def prefixes(self, specs):
        """Of a star directly after `refs/` the program lists `refs/`, where the library lists nothing; so that is left out."""
        found = self.objects("prefixes", specs)
        listed = [one["prefix"] for one in found["prefix"]]
        if b"refs/" in listed:
            return None
        ask = "all" if found["all"] else "some" if listed else "nothing"
        return {"ask": ask, "prefixes": [] if found["all"] else listed}

    def upstreams(self, values, merge):
        found = self.objects("upstream", values, "--merge", merge)
        return {"upstream": [one["name"] for one in found["upstream"]]}


def unquoted(value):
    """The bytes of a text of the program, which are quoted as Git quotes paths if they aren't UTF-8."""
    if isinstance(value, list):
        return [{name: unquoted(part) for name, part in one.items()} if isinstance(one, dict) else one for one in value]
    if not isinstance(value, str):
        return value
    if value.startswith('"'):
        return value[1:-1].encode("latin-1", "replace").decode("unicode_escape").encode("latin-1")
    return value.encode("utf-8", "surrogateescape")


def row_of(one):
    return tuple(one[name] for name in ("origin", "source", "destination") if one[name] is not None)


def main():
    if len(sys.argv) != 2:
        sys.exit(__doc__)
    with tempfile.TemporaryDirectory() as folder:
        program = Refspec(os.path.abspath(sys.argv[1]), folder)
        calls = {"canonical": program.canonical, "plans": program.plans, "stale": program.stale, "prefixes": program.prefixes,
                 "upstreams": program.upstreams}
        tables.serve(lambda kind, given: calls[kind](**given) if kind in calls else None)


if __name__ == "__main__":
    main()
