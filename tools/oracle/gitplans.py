"""What git does at a whole fetch, with given and configured specs, merge refs and tags; which local refs a pruning
fetch deletes; and what the program `refspec` says of both.

A case is a wish, refs of the remote and, for a pruning fetch, names of local refs.
"""
import collections
import functools
import json
import os
import re
import shutil
import subprocess
import sys
import tempfile

import gitfetch  # beside this script

# The specs of the call, the fetch values of the remote, those that replace them (`None`, or a list for `--refmap`), the
# values of branch.<current>.merge, and whether all tags are asked for.
Wish = collections.namedtuple("Wish", "given configured refmap merges tags", defaults=([], [], None, [], False))
# The command is plan or stale.
Case = collections.namedtuple("Case", "command wish refs local")
# What a fetch did: the refs it wrote with their ids, the ids of FETCH_HEAD, the destinations of which git says that they
# usually track another ref, each with this; or why it failed.
Fetched = collections.namedtuple("Fetched", "refs heads overruled failure")
# What is planned: the same, or the missing sources, or by its destination the sources of each conflict with how it fails, or
# that specs are refused.
Planned = collections.namedtuple("Planned", "refs heads overruled missing conflicts refused nested")

USUALLY = re.compile(rb"^warning: (.*) usually tracks (.*), not .*$", re.M)
# A ref that git doesn't write, as another one is its directory or in it.
NESTED = re.compile(rb"^error: cannot lock ref '(.*)': '.*' exists; cannot create '.*'$", re.M)
DELETED = re.compile(rb"^ - \[deleted\] +\(none\) +-> (.*)$", re.M)
# What git leaves out of a name that it tells.
USUAL = re.compile(rb"^refs/(heads|tags|remotes)/")
STATUSES = (0, 1)


def applied(wish):
    """The wish with the values that count."""
    return wish if wish.refmap is None else wish._replace(configured=wish.refmap, refmap=None)


def quoted(text):
    return b'"' + text.replace(b"\\", b"\\\\").replace(b'"', b'\\"') + b'"'


def config_of(remote, wish):
    """The configuration of a remote `origin`, and of the current branch."""
    # Since 2.48 a fetch also makes refs/remotes/origin/HEAD, if it may.
    lines = [b'[remote "origin"]', b"url = " + os.fsencode(remote), b"followRemoteHEAD = never"]
    lines += [b"fetch = " + quoted(one) for one in wish.configured]
    if wish.merges:
        lines += [b'[branch "unborn"]', b"remote = origin"] + [b"merge = " + quoted(one) for one in wish.merges]
    return b"".join(line + b"\n" for line in lines)


def fetch(store, remote, wish):
    """What git fetches by a wish into a repository without refs."""
    client = store.repository(config=config_of(remote, wish))
    refmap = [b"--refmap=" + one for one in wish.refmap or [b""]] if wish.refmap is not None else []
    made = store.git(client, "fetch", "--tags" if wish.tags else "--no-tags", *refmap, "--", "origin", *wish.given)
    written = store.done(client, "for-each-ref", "--format=%(refname) %(objectname)")
    refs, heads = dict(line.split(b" ") for line in written.splitlines()), set()
    nested = NESTED.findall(made.stderr) if made.returncode == 1 else []
    if made.returncode == 0 or nested:
        with open(os.path.join(client, "FETCH_HEAD"), "rb") as file:
            heads = {line.split(b"\t")[0] for line in file}
    shutil.rmtree(client)
    if made.returncode == 0 or nested:
        usually = {lowered(pair) for pair in USUALLY.findall(made.stderr)}
        return Fetched(refs, heads, usually, ("nested", *sorted(nested)) if nested else None)
    return Fetched(refs, heads, set(), gitfetch.failure_of(made.stderr) if not refs else ("other", made.stderr))


def lowered(pair):
    """A destination and its source, an id in lower case."""
    return pair[0], pair[1].lower() if re.fullmatch(rb"[0-9a-fA-F]{40}", pair[1]) else pair[1]


def prune(store, remote, wish, local):
    """The local refs that git would delete at a pruning fetch, and why it fails, if it does."""
    client = store.repository(config=config_of(remote, wish))
    store.write_refs(client, local)
    told = {USUAL.sub(b"", ref.name): ref.name for ref in local}
    made = store.git(client, "fetch", "--prune", "--dry-run", "--no-tags", "--", "origin", *wish.given)
    shutil.rmtree(client)
    deleted = DELETED.findall(made.stderr)
    if len(told) != len(local) or not set(deleted) <= set(told):
        sys.exit(f"git fetch --prune --dry-run: {made.stderr!r} for {local}")
    failure = gitfetch.failure_of(made.stderr) if b"fatal: " in made.stderr else None
    return {told[name] for name in deleted}, failure


@functools.lru_cache(maxsize=1000)
def run_program(program, command, given, text, files, options):
    """The lines for the objects that the program writes for refs and files."""
    with tempfile.TemporaryDirectory() as folder:
        words = [program, command, "--json", *options]
        for name, lines in files:
            path = os.path.join(folder, name)
            with open(path, "wb") as file:
                file.write(lines)
            words += ["--" + name, path]
        made = subprocess.run([*words, "--", *given], input=text, capture_output=True, check=False)
    if made.returncode not in STATUSES or made.stderr:
        sys.exit(f"{words}: status {made.returncode}, {made.stderr!r} for {given}, {text!r} and {files}")
    return [line_of(json.loads(line)) for line in made.stdout.splitlines()]


def planned_lines(program, wish, refs, local=None):
    """The answer of `plan`, with what a pruning fetch deletes if there are local refs."""
    files = [("configured", b"".join(one + b"\n" for one in wish.configured))]
    files += [("local", listed(local))] if local is not None else []
    options = [word for name in wish.merges for word in ("--merge", name)] + ["--tags"] * wish.tags
    return run_program(program, "plan", tuple(wish.given), listed(refs), tuple(files), tuple(options))


def listed(refs):
    """Refs as git ls-remote prints them."""
    return b"".join(b"%s\t%s\n" % (ref.id, ref.name) for ref in refs)


def answered(program, case):
    """The answer of the program, a line with fields for each object: of `stale` what stops the fetch, or stale refs before
    those that are kept. A missing destination is an empty field."""
    wish = applied(case.wish)
    if case.command == "plan":
        return planned_lines(program, wish, case.refs)
    lines = run_program(program, "stale", tuple(wish.given or wish.configured), listed(case.refs),
                        (("local", listed(case.local)),), ())
    # A plan says the same of them. Merged refs and all tags, which are in it alone, may stop it too.
    planned = planned_lines(program, wish, case.refs, case.local)
    found = [line for line in planned if line.startswith((b"stale\t", b"kept\t"))]
    stale = [line for line in lines if line.startswith((b"stale\t", b"kept\t"))]
    if found != ([] if is_stopped(planned) else stale):
        sys.exit(f"{program}: stale says {lines}, and plan {planned}, for {case}")
    return sorted(lines, key=lambda line: line.startswith(b"kept\t"))


def is_stopped(lines):
    """Whether the program says that nothing is fetched."""
    return any(line.startswith((b"missing\t", b"conflict\t", b"refused\t")) for line in lines)


def line_of(one):
    fields = [one.get(name) or "" for name in ("origin", "source", "destination", "spec")]
    if one["kind"] == "conflict":
        sources = [source[name] for source in one["sources"] for name in ("origin", "source", "spec")]
        fields = [one["destination"], *sources]
    elif one["kind"] == "missing":
        fields = [one["origin"], one["spec"]]
    elif one["kind"] in ("stale", "kept"):
        fields = [one[name] for name in ("name", "spec") if name in one]
    elif one["kind"] == "refused":
        fields = [one["text"]]
    elif one["kind"] not in ("mapping", "overruled", "left_out", "directory_conflict"):
        sys.exit(f"refspec: an object of an unknown kind: {one}")
    return "\t".join([one["kind"], *fields]).encode()


def read_plan(lines, wish, refs):
    """What the lines of a plan say of these refs."""
    rows = [line.split(b"\t") for line in lines]
    found = collections.defaultdict(list)
    for word, *fields in rows:
        found[word].append(fields)
    ids = {ref.name: ref.id for ref in refs}
    written = [(origin, ids.get(source, source), far) for origin, source, far, _ in found[b"mapping"]]
    nested = [(origin, ids.get(source, source), far) for origin, source, far, _ in found[b"directory_conflict"]]
    besides = bool(wish.given)
    heads = {id_ for origin, id_, _ in written + nested if not (besides and origin == b"configured")}
    overruled = {(far, source) for _, source, far, _ in found[b"overruled"]}
    conflicts = {}
    for far, *claims in found[b"conflict"]:
        word = "tracks" if besides and claims[0] == b"configured" else "conflict"
        conflicts[far] = word, set(claims[1::3])
    # What precedes the colon of a text, without a sign.
    missing = [spec.removeprefix(b"+").rpartition(b":")[0] or spec.removeprefix(b"+") for _, spec in found[b"missing"]]
    return Planned({far: id_ for _, id_, far in written if far}, heads, overruled, missing, conflicts, found[b"refused"],
                   {far: id_ for _, id_, far in nested})


def is_as_planned(fetched, planned):
    """Whether git did what was planned, or failed at the first missing source or at one of the conflicts."""
    if planned.refused:
        return False
    if planned.missing:
        return fetched.failure == ("missing", planned.missing[0])
    if not planned.conflicts and planned.nested:
        return is_nested_as_planned(fetched, planned)
    if not planned.conflicts:
        return fetched == Fetched(planned.refs, planned.heads, planned.overruled, None)
    word, *names = fetched.failure or ("none",)
    if word not in ("conflict", "tracks"):
        return False
    far = names.pop(0 if word == "tracks" else 2)
    wanted, sources = planned.conflicts.get(far, ("none", set()))
    return word == wanted and {lowered((far, name))[1] for name in names} <= sources


def is_nested_as_planned(fetched, planned):
    """Whether git wrote what was planned, and of the refs in each other's directories some, but not those that it tells."""
    word, *failed = fetched.failure or ("none",)
    written = {far: id_ for far, id_ in planned.nested.items() if far not in failed}
    return (word == "nested" and set(failed) < set(planned.nested) and fetched.refs == {**planned.refs, **written}
            and fetched.heads == planned.heads and fetched.overruled == planned.overruled)


def fetched_lines(fetched):
    """What a fetch did, as a sample shows it."""
    if fetched.failure:
        return [b" ".join([b"fails", fetched.failure[0].encode(), *fetched.failure[1:]])]
    return ([b"ref %s %s" % (id_, name) for name, id_ in sorted(fetched.refs.items())]
            + [b"head " + id_ for id_ in sorted(fetched.heads)]
            + [b"overruled %s %s" % pair for pair in sorted(fetched.overruled)])


def pruned_lines(deleted, failure):
    """What a pruning fetch would delete, as a sample shows it."""
    failed = [b" ".join([b"fails", failure[0].encode(), *failure[1:]])] if failure else []
    return failed + [b"deleted " + name for name in sorted(deleted)]


def stale_names(lines):
    return {line.split(b"\t")[1] for line in lines if line.startswith(b"stale\t")}


def lines_of(case):
    """The lines of a case in a sample."""
    wish = case.wish
    lines = [b"given " + one for one in wish.given] + [b"configured " + one for one in wish.configured]
    if wish.refmap is not None:
        lines += [b"refmap " + one for one in wish.refmap or [b""]]
    lines += [b"merge " + one for one in wish.merges] + [b"tags"] * wish.tags
    return lines + [gitfetch.line_of(ref) for ref in case.refs] + [b"local " + ref.name for ref in case.local]
