"""What Git answers to a case of a table, and the rule by which it differs, by the modules of tools/oracle.

An answer is a cell: `=` if it is that of the table, `-` if Git has none, else what Git does.
"""
import collections
import contextlib
import os
import re
import subprocess
import sys
import tempfile

HERE = os.path.dirname(os.path.abspath(__file__))
sys.dont_write_bytecode = True
sys.path[:0] = [os.path.join(HERE, os.pardir, os.pardir, folder) for folder in ("conformance", os.path.join("tools", "oracle"))]
import gitfetch
import gitknown
import gitlists
import gitplans
import gitremotes
import reference
import remotecalls
import scripts
import tables

SAME, NONE, UNASKED = "=", "nothing", ("-", "-")
# The rules of README.md, by the texts of tools/oracle/gitknown.py; the order of FETCH_HEAD isn't compared.
RULES = {
    "refuses `@` as a destination": "at-destination",
    "fails where a source matches no ref": "missing-source",
    "takes two spellings of one id for a conflict": "two-spellings",
    "accepts a negative spec of more than 40 hex digits": "negative-hex",
    "lets a negative spec exclude an id by its text": "excluded-id",
    "takes 64 hex digits as a source for a name": "sha256-as-name",
    "takes 64 hex digits as a source for a name that is missing": "sha256-as-name",
    "takes a source that begins refs/ for a partial name too": "full-as-partial",
    "takes a destination that begins heads/ for one below refs/": "heads-destination",
    "keeps the capitals of hex digits in a destination": "hex-capitals",
    "ignores invalid names below refs/ as destinations": "funny-ref",
    "ignores HEAD as the destination of a pattern": "funny-head",
    "ignores destinations outside refs/ before it looks for conflicts": "funny-first",
    "lists a one-sided spec in FETCH_HEAD as often as it is given": "one-sided-twice",
    "tracks nothing where a pattern gives an excluded source": "excluded-by-pattern",
    "tracks nothing where the ref itself is named as a source and excluded": "excluded-itself",
    "matches no ref with a partial destination": "partial-destination",
    "excludes no source of a spec without a star": "excluded-single",
    "tracks a partial source as it is written": "partial-as-written",
    "tracks an empty source as it is written": "empty-as-written",
    "takes a given id for a name, as configured patterns apply to it": "id-as-name",
    "takes a merge ref HEAD only for what is listed": "merge-as-listed",
    "takes a merge ref for a partial name, among the refs that are listed": "merge-as-listed",
    "says that a destination usually tracks an id if it is spelled otherwise": "two-spellings",
    "takes a source that begins refs/ for a partial name too, but not as it prunes": "full-as-partial",
    "keeps a ref that is itself a source and excluded": "excluded-itself",
    "compares 64 hex digits as a source as a name, as they are written": "sha256-as-name",
    "writes no ref by a partial destination, as far as it prunes": "partial-destination",
    "prunes a ref of an id that a negative spec excludes by its text": "excluded-id",
    "prunes a ref whose source has no star and is excluded": "excluded-single",
    "compares a partial source as it is written": "partial-as-written",
    "compares an empty source as it is written": "empty-as-written",
    "an empty source": "empty-as-written",
    "an empty destination": "empty-destination",
}


def rule_of(kinds):
    """The rules of kinds of tools/oracle, each once; None if a difference is of no known kind."""
    if kinds is None:
        return None
    texts = [kind.text.removeprefix("git ").removesuffix(" (known)") for kind in kinds]
    return ",".join(dict.fromkeys(RULES[text] for text in texts if text in RULES)) or None


def rows_cell(rows):
    return tables.cell_of("rows", sorted(rows)) if rows else NONE


def texts_cell(found):
    return tables.cell_of("texts", found) if found else NONE


def failed(failure):
    """The row of a fetch that fails."""
    return [(b"fails", *(part.encode() if isinstance(part, str) else part for part in failure))]


def fetched_rows(fetched, refs, specs):
    """The sources and destinations of what a fetch by these specs did. An object that a spec asks for has no name."""
    if fetched.failure:
        return failed(fetched.failure)
    ids = {reference.parts_of(spec)[1].lower() for spec in specs}
    names = {ref.id: ref.name for ref in refs if ref.id not in ids}
    heads = collections.Counter(names.get(id_, id_) for id_ in fetched.heads)
    written = [(names.get(id_, id_), name) for name, id_ in fetched.refs.items()]
    heads.subtract(source for source, _ in written)
    return written + [(source,) for source in heads.elements()]


def can_be_refs(names):
    """Whether a repository can have refs of all these names."""
    below = all(name == b"HEAD" or name.startswith(b"refs/") and gitknown.is_ref_name(name) for name in names)
    return below and len(gitlists.apart(names)) == len(names)


def lists_of(given):
    return [text for sort in given.values() if isinstance(sort, list) for text in sort if isinstance(text, bytes)]


def asks_for_objects(given):
    """Whether a spec asks for an object that no ref points to, which a server refuses."""
    specs = [spec for column in ("specs", "given", "configured") for spec in given.get(column, [])]
    ids = {ref.id for column in ("refs", "remote") for ref in given.get(column, [])}
    sources = [reference.parts_of(spec)[1].lower() for spec in specs if not spec.startswith(b"^")]
    return any(gitknown.is_id(source) and source not in ids for source in sources)


def can_be_asked(kind, given):
    """Whether Git can be given the case: what it has as refs, can be refs, and no argument has a zero byte."""
    texts = [value for value in given.values() if isinstance(value, bytes)] + lists_of(given)
    if any(b"\0" in text for text in texts) or kind not in ("backward", "prefixes") and asks_for_objects(given):
        return False
    if kind == "names":
        return not given["name"].startswith(b"-")
    names = [[ref.name for ref in given[column]] for column in ("refs", "remote") if column in given] + [given.get("local", [])]
    return all(map(can_be_refs, names)) and not (kind == "backward" and any(name == b"HEAD" for name in names[0]))


class Texts:
    """The installed Git in an empty folder, for what it answers without a fetch."""

    def __init__(self, folder):
        self.folder = folder
        self.version = self.run("version").stdout.decode().split()[2]
        self.remotes = gitremotes.Remotes(self.below("remotes"))

    def below(self, name):
        """A new folder."""
        path = os.path.join(self.folder, name)
        os.mkdir(path)
        return path

    def run(self, *words):
        return subprocess.run(["git", *words], cwd=self.folder, env=gitfetch.environment(self.folder), capture_output=True, check=False)

    def answer(self, kind, given, answer):
        """Git's answer as a cell, and the rule by which it differs: None if there is no rule for that."""
        if not can_be_asked(kind, given):
            return UNASKED
        return getattr(self, kind)(answer, **given)

    def validity(self, answer, operation, text):
        """Whether Git takes a text as a value of a remote, as it reads the configuration."""
        made = self.run("-c", b"remote.o.%s=%s" % (operation.encode(), text), "ls-remote", "--get-url", "o")
        return self.compared(answer, made.returncode == 0, validity_rule(operation, text))

    def names(self, answer, form, name):
        options = ["--refspec-pattern"] * (form == "pattern") + ["--allow-onelevel"]
        is_accepted = self.run("check-ref-format", *options, name).returncode == 0 and (form == "name" or b"*" in name)
        return self.compared(answer, is_accepted, "at-name" if name == b"@" else None)

    def upstreams(self, answer, values, merge):
        done = self.remotes.upstreams(list(values), [merge])
        if done is None:
            return UNASKED
        found = [done[0]] if done[0] else []
        if found == answer["upstream"]:
            return SAME, "-"
        rule = remotecalls.empty_side_of(list(values), merge)
        return texts_cell(found), rule and RULES[rule]

    @staticmethod
    def compared(answer, is_accepted, rule):
        said = reference.word(is_accepted)
        return (SAME, "-") if said == answer["valid"] else (said, rule)


def validity_rule(operation, text):
    mode, source, destination = reference.parts_of(text)
    if destination == b"@":
        return "at-destination"
    if operation == "push" and text == b"+":
        return "push-plus"
    return "negative-hex" if mode == b"^" and len(source) > 40 and reference.is_hex(source) else None


class Git(Texts):
    """Git with repositories, and the programs with which tools/oracle tells the kinds of differences."""

    def __init__(self, folder, refspec_map, refspec):
        super().__init__(folder)
        self.of_lists = scripts.module("compare-git").Comparison(self.below("lists"), refspec_map)
        self.of_plans = scripts.module("compare-plans").Comparison(self.below("plans"), refspec)

    def refs(self, given):
        """The refs of a case with their ids, in the order of Git; None if the case names other ids."""
        refs = self.of_lists.store.refs([ref.name for ref in given])
        ids = {ref.name: ref.id for ref in refs}
        return None if any(ref.id not in (None, ids[ref.name]) or ref.object for ref in given) else refs

    def forward(self, answer, specs, refs):
        made = self.refs(refs)
        if made is None or self.of_lists.in_scope(list(specs), made) != list(specs):
            return UNASKED
        result = self.of_lists.result("plan", list(specs), made)
        fetched = self.of_lists.store.fetched(self.of_lists.store.remote(made), specs)
        rows = fetched_rows(fetched, made, specs)
        if result.kinds == [] or sorted(rows) == sorted(answer["mappings"]):
            return SAME, "-"
        return rows_cell(rows), rule_of(result.kinds)

    def validation(self, answer, specs, refs):
        return self.forward(answer, specs, refs)

    def candidates(self, answer, source, refs):
        cell, rule = self.forward({"mappings": [(name,) for name in answer["ref"]]}, [source], refs)
        return (SAME, "-") if cell.startswith("fails:missing:") and not answer["ref"] else (cell, rule)

    def backward(self, answer, specs, refs):
        made = self.refs(refs)
        if made is None:
            return UNASKED
        made.sort(key=lambda ref: [one.name for one in refs].index(ref.name))
        result = self.of_lists.result("rhs", list(specs), made)
        if result.kinds == []:
            return SAME, "-"
        if any(reference.parts_of(spec)[2] == b"@" for spec in specs):
            return "fails:invalid", "at-destination"
        tracked = [(source, ref.name) for source, ref in zip(self.of_lists.store.tracked(specs, made), made) if source is not None]
        return rows_cell(tracked), rule_of(result.kinds)

    def plans_case(self, command, wish, refs, local):
        made = self.refs(refs)
        if made is None:
            return None, None
        case = gitplans.Case(command, wish, made, self.of_plans.store.refs(local))
        self.of_plans.store.refs([ref.name for ref in made])  # which puts their objects there
        result = self.of_plans.result(case)
        return case, None if result.kinds is None and self.of_plans.is_out_of_scope(result) else result

    def plans(self, answer, given, configured, merges, tags, refs):
        wish = gitplans.Wish(list(given), list(configured), None, list(merges), tags == "yes")
        case, result = self.plans_case("plan", wish, refs, [])
        if result is None:
            return UNASKED
        if result.kinds == []:
            return SAME, "-"
        fetched = gitplans.fetch(self.of_plans.store, self.of_plans.store.remote(case.refs), wish)
        rows = failed(fetched.failure) if fetched.failure else fetched_rows(
            gitfetch.Fetched(fetched.refs, sorted(fetched.heads), None), case.refs, given + configured)
        return rows_cell(rows), rule_of(result.kinds)

    def stale(self, answer, specs, remote, local):
        case, result = self.plans_case("stale", gitplans.Wish(list(specs)), remote, local)
        if result is None:
            return UNASKED
        if result.kinds == []:
            return SAME, "-"
        deleted, failure = gitplans.prune(self.of_plans.store, self.of_plans.store.remote(case.refs), case.wish, case.local)
        return (rows_cell(failed(failure)) if failure else texts_cell(sorted(deleted))), rule_of(result.kinds)

    def prefixes(self, answer, specs):
        """The arguments `ref-prefix` of a fetch that don't begin with another one. An empty one asks for all refs, as none does."""
        remote = self.remotes.store.remote(self.remotes.store.refs([b"refs/heads/main"]))
        client = self.remotes.store.repository()
        environment = {**self.remotes.store.environment, "GIT_TRACE_PACKET": "1"}
        made = subprocess.run(["git", "--git-dir", client, "fetch", "--no-tags", "--refmap=", "--", remote, *specs], env=environment,
                              cwd=self.folder, capture_output=True, check=False)
        if b"fatal: invalid refspec" in made.stderr:
            return "fails:invalid", "at-destination"
        found = reference.shortest(re.findall(rb"fetch> ref-prefix (.*)", made.stderr))
        if sorted(found) == sorted(answer["prefixes"]) and answer["ask"] != "all":
            return SAME, "-"
        return texts_cell(found), prefixes_rule(specs)


def prefixes_rule(specs):
    rules = set()
    for mode, source, _ in map(reference.parts_of, specs):
        before, star, _ = source.partition(b"*")
        if mode == b"^":
            continue
        if star and (not before.startswith(b"refs/") or before == b"refs/" or b"]" in before):
            rules.add("wide-pattern")
        elif source == b"":
            rules.add("empty-as-written")
        elif source.startswith(b"refs/") and not star:
            rules.add("full-as-partial")
        elif re.fullmatch(rb"[0-9a-fA-F]{64}", source):
            rules.add("sha256-as-name")
    return ",".join(sorted(rules)) or None


@contextlib.contextmanager
def opened(refspec_map, refspec):
    with tempfile.TemporaryDirectory() as folder:
        yield Git(folder, refspec_map, refspec)
