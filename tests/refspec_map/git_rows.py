#!/usr/bin/env python3
"""Tries the rows of docs/GIT.md that tests/refspec_map/git.py doesn't, each with the input of the row:
tests/refspec_map/git_rows.py [PROGRAM]

PROGRAM is the built refspec_map, which has to answer as the row says, and so has the Git on the PATH. Left out where
there is none. Without PROGRAM only the rows that speak of Git alone are tried.
"""
import re
import shutil
import sys
import tempfile
from pathlib import Path

sys.path.insert(0, str(Path(__file__).resolve().parents[1]))
from helpers import ROOT, add_path, parser, repositories, stop

PATTERN = "refs/heads/*:refs/x/*"
TRACKING = "+refs/heads/*:refs/remotes/origin/*"
BRANCHES = "+refs/heads/*:refs/x/*"


def expect(row, seen, wanted):
    if seen != wanted:
        stop(f"{row}: {seen!r}, and not {wanted!r}")


class Tried:
    """New repositories below a folder, and the program."""

    def __init__(self, folder, program):
        self.folder, self.count = Path(folder), 0
        self.env = repositories.variables(folder)
        if program:
            (self.folder / "refspec_map").symlink_to(program)

    def run(self, words, folder=None, given=b""):
        return repositories.run(folder or self.folder, words, self.env, input=given)

    def git(self, folder, *words):
        return repositories.git(folder, self.env, *words).decode().strip()

    def repository(self, *words, commit=False):
        self.count += 1
        path = str(self.folder / str(self.count))
        self.git(self.folder, "init", "-q", "-b", "main", *words, path)
        if commit:
            self.git(path, "commit", "-q", "--allow-empty", "-m", "one")
        return path

    def refs(self, folder):
        return self.git(folder, "for-each-ref", "--format=%(refname)").split()

    def written(self, remote, *specs, words=("--no-tags",)):
        """The refs of a new repository after a fetch, and what the fetch said."""
        local = self.repository()
        made = self.run(["git", "fetch", *words, remote, *specs], local)
        return self.refs(local), made.returncode, made.stderr.decode()

    def pushed(self, spec, *refs):
        """The refs of a new remote that has these of the local one's commit, after a push; or why it fails."""
        local, remote = self.repository(commit=True), self.repository("--bare")
        for ref in refs:
            self.git(local, "push", "-q", remote, "HEAD:" + ref)
        made = self.run(["git", "push", remote, spec], local)
        return self.refs(remote) if made.returncode == 0 else made.stderr.decode()

    def beside(self, remote, *values, own=(), settings=()):
        """A new repository whose origin is this remote: its fetch values, refs to a commit of its own, and settings."""
        local = self.repository()
        values = [("remote.origin.fetch", value) for value in values]
        # Since 2.48 a fetch also makes refs/remotes/origin/HEAD, if it may.
        always = [("remote.origin.url", remote), ("remote.origin.followRemoteHEAD", "never")]
        for name, value in [*always, *values, *settings]:
            self.git(local, "config", "--add", name, value)
        if own:
            self.git(local, "commit", "-q", "--allow-empty", "-m", "own")
        for ref in own:
            self.git(local, "update-ref", ref, "HEAD")
        return local

    def values(self, folder):
        lines = self.git(folder, "for-each-ref", "--format=%(refname) %(objectname)").splitlines()
        return dict(line.split() for line in lines)

    def changed(self, local, *words, at=None):
        """The refs that a call of Git writes, with a `-` those that it deletes, here or at a remote; and what it says."""
        before = self.values(at or local)
        made = self.run(["git", *words], local)
        after = self.values(at or local)
        written = [name for name in after if after[name] != before.get(name)]
        return sorted(written + ["-" + name for name in before if name not in after]), made.stderr.decode()

    def fetched(self, local, *words):
        """The branches in FETCH_HEAD after a fetch, the refs that it writes or deletes, and what it says."""
        written, said = self.changed(local, "fetch", *words)
        path = Path(local) / ".git" / "FETCH_HEAD"
        heads = path.read_text(encoding="utf-8") if path.exists() else ""
        return re.findall(r"\t(?:branch '(.*)' of )?[^\t]*\n", heads), written, said

    def answer(self, command, *lines):
        made = self.run(["refspec_map", *command.split()], given="".join(line + "\n" for line in lines).encode())
        return made.stdout.decode().splitlines()


def accepts(tried, operation, text, *words):
    """Whether Git takes a text as a value of a remote."""
    local = tried.repository(*words)
    tried.git(local, "config", "remote.o.url", local)
    tried.git(local, "config", "remote.o." + operation, text)
    made = tried.run(["git", operation, "--dry-run", "o"] + (["--no-tags"] if operation == "fetch" else []), local)
    return b"invalid refspec" not in made.stderr


def try_texts(tried):
    digits = "a" * 40
    for operation in ("fetch", "push"):
        for text in ("a:@", ":@"):
            expect(f"{operation} `{text}`", accepts(tried, operation, text), False)
        expect(f"{operation} `@`", tried.answer("canon " + operation, "a:@"), ["ok a:@"])
    expect("push `+`", accepts(tried, "push", "+"), False)
    expect("push `+`", tried.answer("canon push", "+"), ["ok +:"])
    for operation in ("fetch", "push"):
        expect("40 digits", accepts(tried, operation, "^" + digits), False)
        expect("40 digits, SHA-256", accepts(tried, operation, "^" + digits, "--object-format=sha256"), True)
        expect("41 digits", accepts(tried, operation, "^a" + digits), True)
        answers = tried.answer("canon " + operation, "^" + digits, "^a" + digits)
        expect("digits here", answers, ["err NegativeObjectHash"] * 2)
    remote = tried.repository(commit=True)
    tried.git(remote, "tag", "v1")
    expect("tag v1", tried.written(remote, "tag", "v1")[:2], (["refs/tags/v1"], 0))
    expect("tag v1", tried.answer("canon fetch", "tag v1"), ["err ReferenceName"])
    for text in ("refs/heads/*", "^refs/heads/dev"):
        expect("push " + text, accepts(tried, "push", text), True)
        expect("push " + text, tried.answer("canon push", text)[0][:2], "ok")
    checked = tried.run(["git", "check-ref-format", "--refspec-pattern", "foo/bar*baz/"])
    expect("foo/bar*baz/", checked.returncode, 1)
    expect("foo/bar*baz/", tried.answer("canon fetch", "^foo/bar*baz/"), ["err ReferenceName"])


def try_fetches(tried):
    remote = tried.repository(commit=True)
    commit = tried.git(remote, "rev-parse", "HEAD")
    # A bundle names its refs in lines of text, whatever these are.
    tried.git(remote, "bundle", "create", "-q", "good.bundle", "main")
    good, bad = (Path(remote) / f"{name}.bundle" for name in ("good", "bad"))
    bad.write_bytes(good.read_bytes().replace(b" refs/heads/main\n", b" refs/heads/../../../y\n", 1))
    refs, _, said = tried.written(str(bad), PATTERN)
    expect("a funny ref", (refs, "gnoring funny ref" in said), ([], True))
    expect("a funny ref", tried.answer("lhs", "spec " + PATTERN, f"ref {commit} refs/heads/../../../y"),
           ["map\t0\t0\trefs/heads/../../../y\trefs/x/../../../y"])
    # A symbolic ref at the destination.
    local = tried.repository()
    tried.git(local, "symbolic-ref", "refs/x/main", "refs/x/other")
    tried.git(local, "fetch", "-q", remote, PATTERN)
    expect("a symbolic ref", tried.git(local, "symbolic-ref", "refs/x/main"), "refs/x/other")
    expect("a symbolic ref", tried.refs(local), [])
    local = tried.repository()
    tried.git(local, "symbolic-ref", "refs/x/main", "refs/x/other")
    expect("an exact spec", tried.changed(local, "fetch", remote, "main:refs/x/main")[0], ["refs/x/main", "refs/x/other"])
    expect("an exact spec", tried.git(local, "symbolic-ref", "refs/x/main"), "refs/x/other")
    # Short destinations.
    for name, here in (("heads/m", "refs/heads/heads/m"), ("tags/m", "refs/tags/m"), ("remotes/m", "refs/remotes/m")):
        expect(name, tried.written(remote, "main:" + name)[0], ["refs/" + name])
        expect(name, tried.answer("lhs", "spec main:" + name, f"ref {commit} refs/heads/main"),
               ["map\t0\t0\trefs/heads/main\t" + here])
    # The local HEAD is symbolic, or else no destination of a pattern.
    for words, funny in ((("symbolic-ref", "HEAD", "refs/heads/work"), False), (("checkout", "-q", "--detach"), True)):
        local = tried.beside(remote, own=("refs/heads/work",))
        tried.git(local, *words)
        heads, written, said = tried.fetched(local, "--no-tags", "origin", "HEA*:HEA*")
        expect("HEAD of a pattern", (heads, written, "Ignoring funny ref 'HEAD'" in said), ([], [], funny))


def try_looks_back(tried):
    remote = tried.repository(commit=True)
    local = str(tried.folder / "clone")
    tried.git(tried.folder, "clone", "-q", remote, local)
    expect("refs/remotes/origin/HEAD", "refs/remotes/origin/HEAD" in tried.refs(local), True)
    id_of_main = tried.git(remote, "rev-parse", "main")
    expect("refs/remotes/origin/HEAD", tried.answer("rhs", "spec +refs/heads/*:refs/remotes/origin/*",
           f"ref {id_of_main} refs/remotes/origin/HEAD"), ["map\t0\t0\trefs/heads/HEAD\trefs/remotes/origin/HEAD"])
    # The pipes, as docs/GIT.md has them.
    pipes = re.findall(r"^```sh\n(.*?)^```$", (ROOT / "docs" / "GIT.md").read_text(encoding="utf-8"), re.M | re.S)
    tried.git(remote, "tag", "-a", "-m", "note", "v1")
    mapping = b"map\t0\t%d\trefs/heads/main\trefs/remotes/origin/main\n"
    expect("pipes", [tried.run(["bash", "-c", pipe], local).stdout for pipe in pipes], [mapping % 1, mapping % 0])


def listed(tried, remote, *prefixes):
    """What a server lists for these `ref-prefix` lines, by version 2 of the protocol."""
    lines = [b"command=ls-refs\n", None, *(f"ref-prefix {prefix}\n".encode() for prefix in prefixes)]
    sent = b"".join(b"0001" if line is None else b"%04x%s" % (len(line) + 4, line) for line in lines) + b"0000"
    tried.env["GIT_PROTOCOL"] = "version=2"
    made = tried.run(["git", "upload-pack", "--stateless-rpc", remote], given=sent)
    del tried.env["GIT_PROTOCOL"]
    return re.findall(rb"HEAD|refs/[a-z/]*", made.stdout)


def asked(tried, local, *words):
    """The `ref-prefix` lines of a fetch."""
    tried.env["GIT_TRACE_PACKET"] = "1"
    made = tried.run(["git", "fetch", *words], local)
    del tried.env["GIT_TRACE_PACKET"]
    return re.findall(r"fetch> ref-prefix (.*)", made.stderr.decode())


def try_prefixes(tried):
    remote = tried.repository(commit=True)
    expect("ref-prefix refs/*", listed(tried, remote, "refs/*"), [])
    expect("ref-prefix refs/", listed(tried, remote, "refs/"), [b"refs/heads/main"])
    for spec, prefix in (("refs/*:refs/*", "refs/"), ("refs/heads/a*:refs/x/*", "refs/heads/a")):
        expect(spec, asked(tried, tried.repository(), "--no-tags", remote, spec), [prefix])


def try_pushes(tried):
    for spec, there, wanted in (
            ("HEAD", (), ["refs/heads/main"]), ("HEAD:HEAD", (), ["refs/heads/HEAD"]),
            ("heads/main", (), ["refs/heads/main"]), ("heads/main:heads/main", (), ["refs/heads/heads/main"]),
            ("main", ("refs/tags/main",), ["refs/heads/main", "refs/tags/main"]),
            ("main:main", ("refs/tags/main",), ["refs/tags/main"])):
        expect("push " + spec, tried.pushed(spec, *there), wanted)
    expect("equal pushes", tried.answer("canon push", "HEAD", "heads/main", "main"),
           ["ok HEAD:HEAD", "ok heads/main:heads/main", "ok main:main"])


def two_branches(tried):
    """A remote whose branches `main` and `dev` have commits of their own."""
    remote = tried.repository(commit=True)
    tried.git(remote, "branch", "dev")
    tried.git(remote, "commit", "-q", "--allow-empty", "-m", "two")
    return remote


def try_values(tried):
    remote, none = two_branches(tried), [[], []]
    main, dev, other = "refs/remotes/origin/main", "refs/remotes/origin/dev", "+refs/heads/dev:refs/remotes/origin/main"
    for words, values, heads, written, said in (
            (["main"], [TRACKING], ["main"], [main], ""),
            (["main"], [TRACKING, "^refs/heads/main"], ["main"], [main], ""),
            (["main", "dev", "^refs/heads/main"], [TRACKING], ["dev"], [dev], ""),
            (["main", "dev:" + main], [TRACKING], ["main", "dev"], [dev, main], "usually tracks refs/heads/main, not"),
            (["main", "dev"], [TRACKING, other], *none, "tracks both refs/heads/main and refs/heads/dev"),
            (["--refmap=refs/heads/*:refs/y/*", "main"], [TRACKING], ["main"], ["refs/y/main"], ""),
            (["--refmap=", "main"], [TRACKING], ["main"], [], ""),
            ([], [], [""], [], ""),
            ([], ["^refs/heads/main"], *none, "")):
        local = tried.beside(remote, *values)
        seen = tried.fetched(local, "--no-tags", "origin", *words)
        expect(f"fetch {words} by {values}", (*seen[:2], said in seen[2]), (heads, written, True))
        if "usually" in said:
            expect("a destination that is given", tried.values(local)[main], tried.git(remote, "rev-parse", "dev"))
    merge = [("branch.main.remote", "origin"), ("branch.main.merge", "refs/heads/dev")]
    for words, values, heads, written in (
            ([], ["refs/heads/main:" + main], ["dev", "main"], [main]),
            ([], [TRACKING], ["dev", "main"], [dev, main]),
            ([], [TRACKING, "^refs/heads/dev"], ["main"], [main]),
            (["origin", "main"], [TRACKING], ["main"], [main]),
            ([], [], ["dev"], [])):
        seen = tried.fetched(tried.beside(remote, *values, settings=merge), "--no-tags", *words)
        expect(f"branch.main.merge, fetch {words} by {values}", seen[:2], (heads, written))


def try_tags(tried):
    remote = two_branches(tried)
    for name, commit in (("old", "dev"), ("new", "main")):
        tried.git(remote, "tag", "-a", "-m", "note", name, commit)
    old, new, dev = "refs/tags/old", "refs/tags/new", "refs/remotes/origin/dev"
    spec = ["origin", "dev:" + dev]
    for words, values, settings, written in (
            (spec, [], [], [dev, old]), (["origin", "dev"], [], [], []), (["origin", "dev"], [TRACKING], [], [dev]),
            (["origin"], ["dev:" + dev], [], [dev, old]), (["--no-tags", *spec], [], [], [dev]),
            (["--tags", *spec], [], [], [dev, new, old]), (spec, [], ["--tags"], [dev, new, old]),
            (spec, [], ["--no-tags"], [dev]), (["--no-tags", *spec], [], ["--tags"], [dev])):
        local = tried.beside(remote, *values, settings=[("remote.origin.tagOpt", value) for value in settings])
        expect(f"tags of {words} by {values} {settings}", tried.changed(local, "fetch", *words)[0], written)
    # A tag of an object that is here already; and one whose name is here.
    local = tried.beside(remote)
    tried.git(local, "fetch", "-q", "--no-tags", "origin", "main:refs/y")
    expect("tags of what is here", tried.changed(local, "fetch", *spec)[0], [dev, new, old])
    local = tried.beside(remote, own=[old])
    expect("a tag that is here", tried.changed(local, "fetch", *spec)[0], [dev])
    # An update that would be a fast-forward.
    tried.git(remote, "tag", "light", "dev")
    local = tried.beside(remote)
    tried.git(local, "fetch", "-q", "origin", "tag", "light")
    tried.git(remote, "tag", "-f", "light", "main")
    clobbered = tried.changed(local, "fetch", "--no-tags", "origin", "tag", "light")
    expect("a tag that is here", (clobbered[0], "would clobber existing tag" in clobbered[1]), ([], True))
    forced = tried.changed(local, "fetch", "--no-tags", "origin", "+refs/tags/light:refs/tags/light")
    expect("a forced tag", forced[0], ["refs/tags/light"])
    tried.git(local, "checkout", "-q", "--detach", "light")
    tried.git(local, "commit", "-q", "--allow-empty", "-m", "three")
    for sign, written in (("", []), ("+", ["refs/tags/light"])):
        seen = tried.changed(local, "push", "origin", sign + "HEAD:refs/tags/light", at=remote)
        expect("a pushed tag", (seen[0], "already exists" in seen[1]), (written, not sign))


def try_refusals(tried):
    remote = two_branches(tried)
    tried.git(remote, "tag", "-a", "-m", "note", "v1")
    ok, all_main = "dev:refs/x/ok", "+refs/heads/main:refs/heads/main"
    for specs, own, said, written in (
            (["main:refs/x/main"], ["refs/x/main"], "non-fast-forward", ["refs/x/ok"]),
            (["+main:refs/x/main"], ["refs/x/main"], "forced update", ["refs/x/main", "refs/x/ok"]),
            (["main:refs/x/main"], ["refs/x/main/y"], "exists", ["refs/x/ok"]),
            (["main:refs/x/main/y"], ["refs/x/main"], "exists", ["refs/x/ok"]),
            (["v1:refs/heads/v1"], [], "trying to write non-commit object", ["refs/x/ok"]),
            (["refs/tags/v1:refs/tags/v1"], ["refs/tags/v1"], "would clobber existing tag", ["refs/x/ok"]),
            (["--atomic", "main:refs/x/main"], ["refs/x/main"], "non-fast-forward", []),
            (["none:refs/x/none"], [], "couldn't find remote ref none", []),
            (["none:refs/x/none", "^none", "^refs/heads/none"], [], "couldn't find remote ref none", []),
            (["main:refs/x/main", "v1:refs/x/main"], [], "Cannot fetch both", []),
            ([all_main], ["refs/x/main"], "refusing to fetch into branch", [])):
        local = tried.beside(remote, own=own)
        seen = tried.changed(local, "fetch", "--no-tags", "origin", ok, *specs)
        expect(f"fetch {specs}, {own} being here", (seen[0], said in seen[1]), (written, True))
    local = tried.beside(remote)
    tried.git(local, "fetch", "-q", "origin", "main")
    tried.git(local, "reset", "-q", "--hard", "FETCH_HEAD")
    seen = tried.changed(local, "fetch", "origin", all_main)
    expect("the branch as it is", "refusing to fetch into branch" in seen[1], True)
    seen = tried.changed(tried.repository("--bare"), "fetch", "--no-tags", remote, all_main)
    expect("a bare repository", seen[0], ["refs/heads/main"])
    # A blob in place of a commit and of a blob, and a commit in place of a blob.
    local = tried.beside(remote, own=["refs/b"])
    for folder, text, ref in ((remote, b"a", "refs/b"), (local, b"b", "refs/d")):
        blob = tried.run(["git", "hash-object", "-w", "--stdin"], folder, given=text).stdout.decode().strip()
        tried.git(folder, "update-ref", ref, blob)
    for spec in ("refs/b:refs/b", "refs/b:refs/d", "main:refs/d"):
        expect("a blob, " + spec, tried.changed(local, "fetch", "--no-tags", "origin", spec)[0], [spec.partition(":")[2]])


def try_pruning(tried):
    remote, prune = tried.repository(commit=True), ("fetch", "--prune", "origin")
    main = "refs/remotes/origin/main"
    local = tried.beside(remote, "main:" + main)
    seen = [tried.changed(local, *prune)[0] for _ in range(4)]
    expect("a partial source", seen, [[main], ["-" + main], [main], ["-" + main]])
    local = tried.beside(remote, "refs/heads/main:" + main)
    expect("a full source", [tried.changed(local, *prune)[0] for _ in range(2)], [[main], []])
    # A destination that isn't below refs/ is pruned only once it is written in full.
    for destination, pruned in (("side", False), ("refs/heads/side", True)):
        tried.git(remote, "update-ref", "refs/heads/gone", "HEAD")
        local = tried.beside(remote, "refs/heads/gone:" + destination)
        tried.git(local, "fetch", "-q", "origin")
        tried.git(remote, "update-ref", "-d", "refs/heads/gone")
        tried.git(local, "remote", "prune", "origin")
        expect(f"pruning of the destination {destination}", "refs/heads/side" in tried.refs(local), not pruned)
    gone = ["refs/remotes/origin/a", "refs/remotes/origin/b"]
    for values, deleted in (
            ([TRACKING], gone), ([TRACKING, "^refs/heads/b"], gone[:1]), (["refs/heads/a:" + gone[0]], []),
            (["refs/heads/main:" + gone[0], "^refs/heads/main"], gone[:1]),
            ([TRACKING, "HEAD:refs/y", "refs/heads/main:refs/y"], [])):
        local = tried.beside(remote, *values, own=gone)
        tried.git(local, "symbolic-ref", "refs/remotes/origin/s", "refs/heads/main")
        seen = tried.changed(local, *prune)[0]
        expect(f"pruning by {values}", [name for name in seen if name[0] == "-"], ["-" + name for name in deleted])
    for values, words, written in (
            (["refs/tags/*:refs/tags/*"], [], ["-refs/tags/own"]), ([], ["--tags"], []),
            ([], ["--prune-tags"], ["-refs/tags/own"])):
        local = tried.beside(remote, *values, own=["refs/tags/own"])
        expect(f"tags, pruned by {values} {words}", tried.changed(local, "fetch", "--prune", *words, "origin")[0], written)
    local = tried.beside(remote, TRACKING, own=[*gone, "refs/y/a"])
    seen = tried.changed(local, *prune, "refs/heads/*:refs/y/*")[0]
    expect("pruning by what is given", [name for name in seen if name[0] == "-"], ["-refs/y/a"])


def try_look_ups(tried):
    remote = two_branches(tried)
    main = "refs/remotes/origin/main"
    merge = [("branch.main.remote", "origin"), ("branch.main.merge", "refs/heads/main"), ("push.default", "current")]
    for source, found in (("main", False), ("refs/heads/main", True)):
        local = tried.beside(remote, f"{source}:{main}", settings=merge)
        tried.git(local, "fetch", "-q", "origin")
        tried.git(local, "reset", "-q", "--hard", main)
        for look_up in ("@{upstream}", "@{push}"):
            seen = tried.run(["git", "rev-parse", "--symbolic-full-name", look_up], local).stdout.decode().strip()
            expect(f"{look_up} by {source}", seen == main, found)
        tried.git(local, "checkout", "-q", "--detach")
        tried.git(local, "branch", "-D", "main")
        made = tried.run(["git", "switch", "main"], local)
        expect(f"switch main by {source}", made.returncode == 0, found)
    # Two remotes that write one ref.
    two = [("remote.two.url", remote), ("remote.two.fetch", TRACKING)]
    local = tried.beside(remote, TRACKING, settings=two)
    tried.git(local, "fetch", "-q", "origin")
    for words, said in ((["branch", "--track", "b", main], "ambiguous information"),
                        (["switch", "main"], "matched multiple (2) remote tracking branches")):
        made = tried.run(["git", *words], local)
        expect(f"two remotes, {words}", (made.returncode != 0, said in made.stderr.decode()), (True, True))


def try_asking(tried):
    remote = tried.repository(commit=True)
    tags, heads = "refs/tags/", "refs/heads/"
    merge = [("branch.main.remote", "origin"), ("branch.main.merge", "refs/heads/dev")]
    for words, values, settings, wanted in (
            ([], [TRACKING], [], [heads, tags]), (["--no-tags"], [TRACKING], [], [heads]),
            ([], [TRACKING], merge, [heads, "refs/heads/dev", tags]), ([], [], merge, ["refs/heads/dev", tags]),
            ([], [], [], []), (["origin", "^refs/heads/a"], [TRACKING], [], []),
            (["--no-tags", "origin", "*:refs/x/*"], [], [], [""])):
        seen = asked(tried, tried.beside(remote, *values, settings=settings), *words)
        expect(f"ref-prefix of {words} by {values} {settings}", seen, wanted)
    everything, none = [b"HEAD", b"refs/heads/main"], "refs/none"
    for prefixes, wanted in (([], everything), ([""], everything), ([none] * 65535, []), ([none] * 65536, everything)):
        expect(f"{len(prefixes)} prefixes", listed(tried, remote, *prefixes), wanted)


def try_excluding_pushes(tried):
    local = tried.repository(commit=True)
    for name in ("a/1", "a/2", "b/2"):
        tried.git(local, "branch", name)
    below_b, both = "refs/heads/a/*:refs/heads/b/*", ["a/1", "refs/heads/a/2:refs/heads/b/2"]
    one, two, other = "refs/heads/a/1", "refs/heads/a/2", "refs/heads/b/2"
    for specs, written in (
            ([below_b, "^" + two], ["refs/heads/b/1", other]), ([below_b, "^" + other], ["refs/heads/b/1"]),
            ([*both, "^" + two], [one, other]), ([*both, "^" + other], [one]), ([*both, "^a/1"], [one, other])):
        remote = tried.repository("--bare")
        expect(f"push {specs}", tried.changed(local, "push", remote, *specs, at=remote)[0], written)
    remote = tried.repository("--bare")
    tried.git(local, "push", "-q", remote, "refs/heads/a/*:refs/heads/a/*")
    tried.git(local, "commit", "-q", "--allow-empty", "-m", "two")
    for name in ("a/1", "a/2"):
        tried.git(local, "branch", "-f", name)
    expect("push :", tried.changed(local, "push", remote, ":", "^" + two, at=remote)[0], [one])
    tried.git(local, "checkout", "-q", "--detach")
    made = tried.changed(local, "push", remote, "HEAD", at=remote)
    expect("push HEAD, detached", (made[0], "is not a full refname" in made[1]), ([], True))


def try_warnings(tried):
    """What Git does where `refspec check` and `git refspec check` warn, by the examples of their messages."""
    remote, main = tried.repository(commit=True), "refs/remotes/origin/main"
    for name in ("refs/heads/pr/7", "refs/pull/7/head", "refs/heads/topic", "refs/tags/v1"):
        tried.git(remote, "update-ref", name, "HEAD")
    pull, pr, topic = "+refs/pull/*/head:refs/remotes/origin/pr/*", "refs/remotes/origin/pr/7", "refs/remotes/origin/topic"
    fetch = ("fetch", "--no-tags", "origin")
    for values, written, said in (
            ([TRACKING, pull], [], "Cannot fetch both refs/heads/pr/7 and refs/pull/7/head to " + pr),
            ([TRACKING, pull, "^refs/heads/pr/*"], [main, pr, topic], ""),
            ([TRACKING, "^main"], [main, pr, topic], ""), ([TRACKING, "^topic/*"], [main, pr, topic], ""),
            (["heads/*:refs/x/*"], [], ""), (["refs/heads/*:x/*"], [], "Ignoring funny ref 'x/main'"),
            (["main:@"], [], "invalid refspec"), (["main:side"], ["refs/heads/side"], ""),
            (["main:tags/y"], ["refs/tags/y"], ""), (["main:HEAD"], ["refs/heads/HEAD"], ""), ([], [], "FETCH_HEAD")):
        seen, told = tried.changed(tried.beside(remote, *values), *fetch)
        expect(f"a fetch by {values}", (seen, said in told), (written, True))
    # The sign of a later spec that maps the same does nothing, and that of an earlier one stays.
    for values, written in ((["refs/heads/*:refs/x/*", "+refs/heads/*:refs/x/*"], []),
                            (["+refs/heads/*:refs/x/*", "refs/heads/*:refs/x/*"], ["refs/x/main"])):
        local = tried.beside(remote, *values)
        tried.git(local, *fetch, "-q")
        tried.git(remote, "commit", "-q", "--amend", "--allow-empty", "-m", written and "two" or "three")
        expect(f"a later change by {values}", tried.changed(local, *fetch)[0], written)
    # Tags that are followed come back, and those of --tags don't.
    for settings, written in (([], ["refs/remotes/origin/topic", "refs/tags/v1"]),
                              ([("remote.origin.tagOpt", "--tags")], ["refs/remotes/origin/topic"])):
        local = tried.beside(remote, "refs/heads/topic:" + topic, "^refs/tags/*", settings=settings)
        expect(f"excluded tags by {settings}", tried.changed(local, "fetch", "origin")[0], written)
    own, on = ["refs/heads/mine", "refs/tags/mine"], [("fetch.prune", "true")]
    for values, settings, deleted in (
            ([TRACKING], on, []), ([TRACKING, "refs/tags/*:refs/tags/*"], on, own[1:]),
            ([TRACKING], [*on, ("fetch.pruneTags", "true")], own[1:]),
            ([TRACKING], [("fetch.pruneTags", "true")], []),
            (["+refs/heads/*:refs/heads/*"], [("remote.origin.prune", "true")], own[:1]),
            (["+refs/heads/*:refs/heads/*"], [*on, ("remote.origin.prune", "false")], [])):
        local = tried.beside(remote, *values, own=own, settings=settings)
        tried.git(local, "checkout", "-q", "--detach")
        tried.git(local, "update-ref", "-d", "refs/heads/main")
        seen = tried.changed(local, "fetch", "origin")[0]
        expect(f"pruned by {values} {settings}", [name for name in seen if name[0] == "-"], ["-" + name for name in deleted])
    local, other = tried.repository(commit=True), tried.repository("--bare")
    expect("push ^main", tried.changed(local, "push", other, "refs/heads/*:refs/heads/*", "^main", at=other)[0],
           ["refs/heads/main"])
    tried.git(tried.folder, "clone", "-q", "--mirror", remote, "mirror")
    expect("a mirror", tried.git(tried.folder / "mirror", "config", "remote.origin.mirror"), "true")


NO_TAGS = [("remote.origin.tagOpt", "--no-tags")]
PULLS, PULLED = "+refs/pull/*/head:refs/remotes/origin/pr/*", ["refs/remotes/origin/pr", "refs/remotes/origin/pr/7"]
# The fetch values of a remote and other settings, and two refs of which one is a directory of the other.
NESTED = [
    ([TRACKING, PULLS], NO_TAGS, PULLED),
    (["refs/heads/main:refs/x/a", "refs/heads/main:refs/x/a/b"], NO_TAGS, ["refs/x/a", "refs/x/a/b"]),
    (["refs/heads/main:refs/tags/v1/x"], [("remote.origin.tagOpt", "--tags")], ["refs/tags/v1", "refs/tags/v1/x"]),
    # By one value alone, of which `check` doesn't warn.
    (["+refs/merge-requests/*/head:refs/x/*"], NO_TAGS, ["refs/x/7", "refs/x/7/a"]),
]


def try_directory_conflicts(tried):
    """What Git does where `refspec check` warns of a directory conflict, and if an exclusion is taken."""
    remote = tried.repository(commit=True)
    for name in ("refs/heads/pr", "refs/pull/7/head", "refs/merge-requests/7/head", "refs/merge-requests/7/a/head", "refs/tags/v1"):
        tried.git(remote, "update-ref", name, "HEAD")
    for values, settings, both in NESTED:
        local = tried.beside(remote, *values, settings=settings)
        made = tried.run(["git", "fetch", "origin"], local)
        written = set(both) & set(tried.refs(local))
        expect(f"a fetch by {values}", (made.returncode, len(written), b"cannot lock ref" in made.stderr), (1, 1, True))
    # Then a tag of an older commit is followed only at the next fetch.
    tried.git(remote, "commit", "-q", "--allow-empty", "-m", "two")
    for name in ("refs/heads/pr", "refs/pull/7/head"):
        tried.git(remote, "update-ref", name, "HEAD")
    local = tried.beside(remote, TRACKING, PULLS)
    for followed in ([], ["refs/tags/v1"]):
        tried.run(["git", "fetch", "origin"], local)
        expect("tags after a directory conflict", [name for name in tried.refs(local) if name[:10] == "refs/tags/"], followed)
    # The ref that is excluded stays in the way of the other one, until it is deleted by hand.
    local = tried.beside(remote, TRACKING, PULLS, "^refs/heads/pr", own=PULLED[:1], settings=NO_TAGS)
    for words in (["fetch", "--prune", "origin"], ["remote", "prune", "origin"], ["fetch", "origin"]):
        tried.run(["git", *words], local)
        expect(f"{words}", set(PULLED) & set(tried.refs(local)), set(PULLED[:1]))
    tried.git(local, "update-ref", "-d", PULLED[0])
    expect("a fetch without the excluded ref", tried.changed(local, "fetch", "origin")[0], PULLED[1:])


def try_settings(tried):
    """How a fetch finds its remote, and reads booleans."""
    remote, on, tag = two_branches(tried), "fetch.pruneTags", "refs/tags/light"
    tried.git(remote, "tag", "light")
    for values, written in ((("true", "YES", "oN", "1", "-1", "+1", "1k", "1G", " 1", "0x1F", "0X1k", "010", "2147483647"), [tag]),
                            (("", "false", "No", "OFF", "0", "-0k", "0x0", "00"), []),
                            (("maybe", "tru", "08", "0x", "k", "2g", "2147483648", "1 ", "1kk", "+-1", "1t"), None)):
        for value in values:
            local = tried.beside(remote, settings=[(on, value)])
            seen, said = tried.changed(local, "fetch", "--no-tags", "origin")
            expect(f"{on} = {value!r}", None if "bad boolean config value" in said else seen, written)
    for key in ("prune", "pruneTags", "mirror", "skipDefaultUpdate", "skipFetchAll"):
        local = tried.beside(remote, TRACKING, settings=[("remote.other." + key, "maybe"), ("remote.other." + key, "true")])
        for words in (["fetch", "origin"], ["ls-remote", "origin"]):
            expect(f"a bad {key}, {words}", "bad boolean config value" in tried.changed(local, *words)[1], True)
    local = tried.beside(remote, TRACKING, settings=[("fetch.prune", "maybe"), ("fetch.prune", "true")])
    expect("a bad fetch.prune", "bad boolean config value" in tried.changed(local, "fetch")[1], True)
    others = [setting for name in ("two", "three")
              for setting in ((f"remote.{name}.url", remote), (f"remote.{name}.fetch", f"+refs/heads/*:refs/{name}/*"))]
    two, three = ["refs/two/dev", "refs/two/main"], ["refs/three/dev", "refs/three/main"]
    for name, members, written in (("g", "two three", three + two), ("origin", "two\tthree", three + two), ("two", "three", two)):
        local = tried.beside(remote, TRACKING, settings=[*others, ("remotes." + name, members)])
        expect(f"the group {name} of {members}", tried.changed(local, "fetch", "--no-tags", name)[0], written)
    for settings in ([], [("remote.origin.fetch", TRACKING)], [("remote.two.prune", "true")]):
        local = tried.repository()
        for name, value in settings:
            tried.git(local, "config", name, value)
        made = tried.run(["git", "fetch"], local)
        expect(f"no URL of a remote, {settings}", (made.returncode, made.stderr, tried.refs(local)), (0, b"", []))
    # A remote in a file, without and with a URL in the configuration.
    for settings, written in (([("remote.x.prune", "true")], ["refs/old"]), ([("remote.x.url", remote)], [])):
        local = tried.repository()
        folder = Path(local) / ".git" / "remotes"
        folder.mkdir()
        (folder / "x").write_text(f"URL: {remote}\nPull: refs/heads/main:refs/old\n", encoding="utf-8")
        for name, value in settings:
            tried.git(local, "config", name, value)
        expect(f"a remote in a file, and {settings}", tried.changed(local, "fetch", "--no-tags", "x")[0], written)


def try_left_to_git(tried):
    """What a plan doesn't show, as it depends on objects, on refs here or on the server."""
    remote, pattern = two_branches(tried), "refs/heads/*:refs/x/*"
    tried.git(remote, "tag", "main", "refs/heads/main")
    tried.git(tried.folder, "clone", "-q", "--depth", "1", "file://" + remote, "shallow")
    shallow = str(tried.folder / "shallow")
    for words, written in (([], []), (["--update-shallow"], ["refs/x/main"])):
        seen, said = tried.changed(tried.beside(shallow), "fetch", "--no-tags", *words, "origin", pattern)
        expect(f"a shallow remote {words}", (seen, "shallow roots" in said), (written, not words))
    local = tried.repository("--object-format=sha256")
    seen, said = tried.changed(local, "fetch", remote, pattern)
    expect("another object format", (seen, "mismatched algorithms" in said), ([], True))
    # What a pattern maps to a symbolic ref conflicts with nothing.
    for spec, written in (("refs/heads/m*:refs/x/m*", []), ("refs/heads/main:refs/x/main", ["refs/x/main", "refs/x/other"])):
        local = tried.beside(remote)
        tried.git(local, "symbolic-ref", "refs/x/main", "refs/x/other")
        seen, said = tried.changed(local, "fetch", "--no-tags", "origin", spec, "refs/tags/*:refs/x/*")
        expect(f"a symbolic ref at a destination of {spec}", (seen, "Cannot fetch both" in said), (written, False))
    # An empty value of branch.<name>.merge.
    local = tried.beside(remote, settings=[("branch.main.remote", "origin"), ("branch.main.merge", "")])
    expect("an empty merge ref", tried.fetched(local, "--no-tags")[:2], ([""], []))
    # HEAD at a ref outside refs/heads/.
    local = tried.beside(remote)
    tried.git(local, "symbolic-ref", "HEAD", "refs/x/main")
    tried.git(local, "commit", "-q", "--allow-empty", "-m", "own")
    seen, said = tried.changed(local, "fetch", "--no-tags", "origin", "+refs/heads/*:refs/x/*")
    expect("a checked-out ref that isn't a branch", (seen, "checked-out branch" in said), (["refs/x/dev"], True))
    # An upstream that two remotes write, set before.
    local = tried.beside(remote, TRACKING, settings=[("branch.main.remote", "origin"), ("branch.main.merge", "refs/heads/main"),
                                                     ("remote.two.url", remote), ("remote.two.fetch", TRACKING)])
    tried.git(local, "fetch", "-q", "origin")
    tried.git(local, "reset", "-q", "--hard", "refs/remotes/origin/main")
    expect("an upstream of two remotes", tried.git(local, "rev-parse", "--symbolic-full-name", "@{upstream}"), "refs/remotes/origin/main")
# What still depends on a value that adds nothing to a fetch: the values, its index, refs here, a call, and what that writes or says
# with the value and without it.
REMOVED = [
    ([BRANCHES, "+refs/heads/gone:refs/x/gone"], 1, [], ["fetch", "--no-tags", "origin"],
     "couldn't find remote ref refs/heads/gone", ["refs/x/dev", "refs/x/main"]),
    ([BRANCHES, "+refs/tags/*:refs/x/*", "^refs/tags/*"], 1, ["refs/x/a"], ["fetch", "--no-tags", "--prune", "origin"],
     ["refs/x/dev", "refs/x/main"], ["-refs/x/a", "refs/x/dev", "refs/x/main"]),
    (["refs/tags/*:refs/t/*", "heads/*:refs/x/*"], 1, ["refs/x/a"], ["fetch", "--no-tags", "--prune", "origin"],
     ["-refs/x/a", "refs/t/v1", "refs/t/v1-rc"], ["refs/t/v1", "refs/t/v1-rc"]),
    (["+refs/heads/main:refs/x/main", "+refs/heads/dev*:refs/x/dev*", "^refs/heads/dev*"], 1, [],
     ["fetch", "--no-tags", "origin", "dev"], ["refs/x/dev"], []),
    (["HEAD", "refs/heads/*:a/*"], 1, [], ["fetch", "origin"], ["refs/tags/v1", "refs/tags/v1-rc"], []),
    (["refs/heads/main", "refs/heads/*:refs/x/*"], 0, [], ["pull", "--no-tags", "origin"],
     ["refs/heads/main", "refs/x/dev", "refs/x/main"], "you must specify a branch on the command line"),
    # Nothing does.
    ([BRANCHES, BRANCHES], 1, ["refs/x/a"], ["fetch", "--no-tags", "--prune", "origin"],
     ["-refs/x/a", "refs/x/dev", "refs/x/main"], ["-refs/x/a", "refs/x/dev", "refs/x/main"]),
    (["refs/heads/*:refs/x/*", "+refs/heads/main:refs/x/main"], 1, [], ["fetch", "--no-tags", "origin", "main"],
     ["refs/x/main"], ["refs/x/main"]),
]
# The same of negative values, with other settings, for `git fetch`: what it writes, or the branches in FETCH_HEAD.
MERGES_DEV = [("branch.main.remote", "origin"), ("branch.main.merge", "refs/heads/dev")]
EXCLUDED = [
    (["+refs/heads/main:refs/x/main", "^refs/*-rc"], [("remote.origin.tagOpt", "--tags")],
     ["refs/tags/v1", "refs/x/main"], ["refs/tags/v1", "refs/tags/v1-rc", "refs/x/main"]),
    (["+refs/heads/main:refs/x/main", "^refs/heads/dev"], [*MERGES_DEV, ("remote.origin.tagOpt", "--no-tags")],
     ["refs/x/main"], ["refs/x/main"]),
    # Tags that are followed are left out in the first step alone, where they may be in conflict.
    (["+refs/heads/*:refs/tags/*", "^refs/tags/v1"], [], ["refs/tags/dev", "refs/tags/main", "refs/tags/v1", "refs/tags/v1-rc"],
     "Cannot fetch both refs/heads/v1 and refs/tags/v1"),
]


def try_advice(tried):
    """What a value does that adds nothing to a fetch, by taking the advice to remove it."""
    remote = tried.repository(commit=True)
    for name in ("refs/heads/dev", "refs/tags/v1", "refs/tags/v1-rc"):
        tried.git(remote, "update-ref", name, "HEAD")

    def expect_of(values, settings, own, words, wanted):
        local = tried.beside(remote, *values, own=own, settings=settings)
        if own:
            tried.git(local, "update-ref", "-d", "refs/heads/main")
        seen, said = tried.changed(local, *words)
        expect(f"{words} by {values} {settings}", wanted in said if isinstance(wanted, str) else seen,
               True if isinstance(wanted, str) else wanted)

    for values, index, own, words, before, after in REMOVED:
        expect_of(values, [], own, words, before)
        expect_of(values[:index] + values[index + 1:], [], own, words, after)
    tried.git(remote, "update-ref", "refs/heads/v1", "HEAD")
    for values, settings, before, after in EXCLUDED:
        expect_of(values, settings, [], ["fetch", "origin"], before)
        expect_of(values[:-1], settings, [], ["fetch", "origin"], after)
    for values, heads in ((["+refs/heads/main:refs/x/main", "^refs/heads/dev"], ["main"]),
                          (["+refs/heads/main:refs/x/main"], ["dev", "main"])):
        local = tried.beside(remote, *values, settings=[*MERGES_DEV, ("remote.origin.tagOpt", "--no-tags")])
        expect(f"a merged ref by {values}", sorted(tried.fetched(local, "origin")[0]), heads)


def try_settings_of_remotes(tried):
    """What Git does with the settings of remotes that `git refspec check` warns of, or doesn't."""
    remote, own = tried.repository(commit=True), ["refs/heads/mine", "refs/tags/mine"]
    on, all_branches = [("fetch.prune", "true")], "+refs/heads/*:refs/heads/*"
    for values, settings, deleted in (
            ([], [*on, ("fetch.pruneTags", "true")], own[1:]),
            ([all_branches, "^refs/heads/*"], on, []), ([all_branches, "^refs/heads/m*"], on, []),
            ([all_branches, "^refs/heads/t*"], on, own[:1]),
            ([TRACKING, "^refs/tags/*"], [*on, ("fetch.pruneTags", "true")], [])):
        local = tried.beside(remote, *values, own=own, settings=settings)
        tried.git(local, "checkout", "-q", "--detach")
        tried.git(local, "update-ref", "-d", "refs/heads/main")
        seen = tried.changed(local, "fetch", "origin")[0]
        expect(f"pruned by {values} {settings}", [name for name in seen if name[0] == "-"], ["-" + name for name in deleted])
    # A ref that two remotes write is the upstream of no branch.
    for ours, theirs, name in (
            (["+refs/heads/*:refs/x/*", "^refs/heads/t*"], ["+refs/heads/*:refs/x/*", "^refs/heads/t*"], "refs/x/main"),
            (["+refs/heads/*:refs/x/*", "+refs/tags/*/q:refs/x/a*/q"], ["+refs/heads/*/z:refs/x/ab*/z"], "refs/x/ab/z")):
        settings = [("remote.p.url", remote), *[("remote.p.fetch", value) for value in theirs]]
        local = tried.beside(remote, *ours, own=[name], settings=settings)
        made = tried.run(["git", "branch", "--track", "new", name], local)
        expect(f"an upstream by {ours} {theirs}", b"ambiguous" in made.stderr, True)
    tried.git(tried.folder, "init", "-q", "--bare", "added")
    added = tried.folder / "added"
    tried.git(added, "remote", "add", "--mirror=fetch", "origin", remote)
    made = tried.run(["git", "config", "remote.origin.mirror"], added)
    expect("a mirror that is added", (tried.git(added, "config", "remote.origin.fetch"), made.returncode), ("+refs/*:refs/*", 1))


WITH_PROGRAM = (try_texts, try_fetches, try_looks_back, try_prefixes, try_pushes)
GIT_ALONE = (try_values, try_tags, try_refusals, try_pruning, try_look_ups, try_asking, try_excluding_pushes,
             try_warnings, try_directory_conflicts, try_settings, try_left_to_git, try_advice, try_settings_of_remotes)


def main():
    arguments = parser(__doc__)
    add_path(arguments, "program", nargs="?")
    program = arguments.parse_args().program
    if not shutil.which("git"):
        print("git-rows: left out, as there is no git on the PATH")
        return
    for part in (WITH_PROGRAM if program else ()) + GIT_ALONE:
        with tempfile.TemporaryDirectory() as folder:
            part(Tried(folder, program))
    left_out = "" if program else ", but those that need the program"
    print("git-rows: the other rows of docs/GIT.md, as Git does them" + left_out)


if __name__ == "__main__":
    main()
