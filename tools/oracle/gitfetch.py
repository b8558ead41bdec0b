"""What git does with fetch specs, in repositories made for it, and what a program answers to the same lists.

A list is specs and refs. A ref is a name, the id that it points to, and for an annotated tag the id of what
was tagged. Each ref points to an object of its own, made from its name, so that what a fetch wrote tells which
refs it took. All repositories borrow their objects from one, and so no fetch sends any.
"""
import collections
import functools
import itertools
import os
import re
import shutil
import subprocess
import sys

Ref = collections.namedtuple("Ref", "name id object")
# What a fetch did: the refs it wrote with their ids, and the ids of FETCH_HEAD in order; or why it failed.
Fetched = collections.namedtuple("Fetched", "refs heads failure")
# What `plan` says: the same, or the sources of each conflict by its destination, or the refusal of a line.
Planned = collections.namedtuple("Planned", "refs heads conflicts refusal")

COMMIT = b"""\
tree 4b825dc642cb6eb9a060e54bf8d69288fbee4904
author A <a@example.com> 0 +0000
committer A <a@example.com> 0 +0000

%s
"""
TAG = b"""\
object %s
type commit
tag annotated
tagger A <a@example.com> 0 +0000

%s
"""
CONFIG = b"""\
[core]
repositoryformatversion = 0
bare = true
warnAmbiguousRefs = false
[gc]
auto = 0
[maintenance]
auto = false
[protocol "file"]
allow = always
"""
NO_BRANCH = b"ref: refs/heads/unborn"
# A list of a sample: the number of its first line, its command, the known kinds, and its lines: those of the input, the
# answer of the program, and what git did.
Stored = collections.namedtuple("Stored", "number command kinds given answer done")
# Why git fails at a whole list, with the names that it tells.
FAILURES = [
    ("missing", re.compile(rb"^fatal: couldn't find remote ref (.*)$", re.M)),
    ("conflict", re.compile(rb"^fatal: Cannot fetch both (.*) and (.*) to (.*)$", re.M)),
    ("tracks", re.compile(rb"^fatal: (.*) tracks both (.*) and (.*)$", re.M)),
    ("invalid", re.compile(rb"^fatal: invalid refspec '(.*)'$", re.M)),
]


def environment(folder):
    """The variables of this process, without those that change what git reads or does."""
    kept = {key: value for key, value in os.environ.items() if not key.startswith(("GIT_", "LC_", "XDG_"))}
    return dict(kept, HOME=folder, LC_ALL="C", LANGUAGE="C", GIT_CONFIG_GLOBAL=os.devnull, GIT_CONFIG_NOSYSTEM="1",
                GIT_TERMINAL_PROMPT="0")


def failure_of(message):
    for word, pattern in FAILURES:
        found = pattern.search(message)
        if found:
            return (word, *found.groups())
    # Two processes say it, in any order.
    return "other", b"\n".join(sorted(message.splitlines()))


class Store:
    """A folder of repositories, which is empty at first."""

    def __init__(self, folder):
        self.folder = os.path.abspath(folder)
        self.environment = environment(self.folder)
        self.numbers = itertools.count()
        self.lender = None
        self.lender = self.repository()
        self.objects("tree", [b""])

    def git(self, repository, *words, text=b""):
        return subprocess.run(["git", "--git-dir", repository, *words], input=text, env=self.environment,
                              cwd=self.folder, capture_output=True, check=False)

    def done(self, repository, *words, text=b""):
        """What git prints for words that it never fails at."""
        made = self.git(repository, *words, text=text)
        if made.returncode != 0:
            sys.exit(f"git {words}: status {made.returncode}, {made.stderr!r}")
        return made.stdout

    def repository(self, head=NO_BRANCH, config=b""):
        """A new bare repository without refs."""
        path = os.path.join(self.folder, f"{next(self.numbers)}.git")
        os.makedirs(os.path.join(path, "objects", "info"))
        os.mkdir(os.path.join(path, "refs"))
        files = {"HEAD": head + b"\n", "config": CONFIG + config}
        if self.lender:
            files["objects/info/alternates"] = os.path.join(self.lender, "objects").encode() + b"\n"
        for name, text in files.items():
            with open(os.path.join(path, name), "wb") as file:
                file.write(text)
        return path

    def objects(self, kind, texts):
        """The ids of new objects."""
        paths = [os.path.join(self.folder, f"{next(self.numbers)}.object") for _ in texts]
        for path, text in zip(paths, texts):
            with open(path, "wb") as file:
                file.write(text)
        listed = "\n".join(paths).encode()
        printed = self.done(self.lender, "hash-object", "-w", "-t", kind, "--stdin-paths", text=listed)
        for path in paths:
            os.remove(path)
        return printed.split()

    def refs(self, names, tagged=()):
        """A ref for each name, an annotated tag for those in tagged: HEAD first, as git advertises them."""
        names, tagged = list(names), list(tagged)
        ids = dict(zip(names, self.objects("commit", [COMMIT % name for name in names])))
        tags = dict(zip(tagged, self.objects("tag", [TAG % (ids[name], name) for name in tagged])))
        made = [Ref(name, tags[name], ids[name]) if name in tags else Ref(name, ids[name], None) for name in names]
        return sorted(made, key=lambda ref: (ref.name != b"HEAD", ref.name))

    def write_refs(self, repository, refs):
        text = b"".join(b"create %s\0%s\0" % ref[:2] for ref in refs if ref.name != b"HEAD")
        self.done(repository, "update-ref", "-z", "--stdin", text=text)

    def remote(self, refs):
        """A repository that advertises these refs."""
        path = self.repository(next((ref.id for ref in refs if ref.name == b"HEAD"), NO_BRANCH))
        self.write_refs(path, refs)
        told = [line.split(b"\t") for line in self.done(path, "ls-remote", path).splitlines()]
        peeled = {name[:-3]: id_ for id_, name in told if name.endswith(b"^{}")}
        advertised = [Ref(name, id_, peeled.get(name)) for id_, name in told if not name.endswith(b"^{}")]
        if advertised != refs:
            sys.exit(f"git ls-remote: {advertised}, not {refs}")
        return path

    def fetched(self, remote, specs):
        """What git fetches into a repository without refs."""
        client = self.repository()
        made = self.git(client, "fetch", "--no-tags", "--refmap=", "--", remote, *specs)
        written = self.done(client, "for-each-ref", "--format=%(refname) %(objectname)")
        refs = dict(line.split(b" ") for line in written.splitlines())
        heads = []
        if made.returncode == 0:
            with open(os.path.join(client, "FETCH_HEAD"), "rb") as file:
                heads = [line.split(b"\t")[0] for line in file]
        shutil.rmtree(client)
        if made.returncode == 0:
            return Fetched(refs, heads, None)
        return Fetched(refs, heads, failure_of(made.stderr) if not refs else ("other", made.stderr))

    def tracked(self, specs, refs):
        """What a branch that `git branch --track` makes from each ref tracks on a remote with these specs."""
        quoted = [one.replace(b"\\", b"\\\\").replace(b'"', b'\\"') for one in specs]
        lines = b"".join(b'fetch = "%s"\n' % one for one in quoted)
        client = self.repository(config=b'[remote "origin"]\nurl = none\n' + lines)
        self.write_refs(client, refs)
        for place, ref in enumerate(refs):
            self.git(client, "branch", "--track", f"tracking-{place}", ref.name)
        printed = self.git(client, "config", "-z", "--get-regexp", r"^branch\.tracking-").stdout
        shutil.rmtree(client)
        told = dict(entry.split(b"\n", 1) for entry in printed.split(b"\0")[:-1])
        keys = [b"branch.tracking-%d." % place for place in range(len(refs))]
        return [told.get(key + b"merge") if told.get(key + b"remote") == b"origin" else None for key in keys]


def line_of(ref):
    """The line of a ref in an input of the program."""
    if ref.object is None:
        return b"ref %s %s" % (ref.id, ref.name)
    return b"tag %s %s %s" % (ref.id, ref.object, ref.name)


def lines_of(specs, refs):
    return [b"spec " + one for one in specs] + [line_of(ref) for ref in refs]


@functools.lru_cache(maxsize=1000)
def answer(program, command, text):
    """What a program prints, and its status."""
    made = subprocess.run([program, command], input=text, stdout=subprocess.PIPE, check=False)
    return made.stdout, made.returncode


def answered(program, command, specs, refs):
    """The lines that a program answers, with a status that fits them."""
    text = b"".join(line + b"\n" for line in lines_of(specs, refs))
    printed, status = answer(program, command, text)
    if status != printed.startswith((b"line ", b"conflict\t")):
        sys.exit(f"{program} {command}: status {status}, {printed!r} for {text!r}")
    return printed.split(b"\n")[:-1]


def mappings(lines):
    """The fields of each line of a mapping, after the word; no generated name holds a tab."""
    return [line.split(b"\t")[1:] for line in lines if line.startswith(b"map\t")]


def read_plan(lines, refs, by_spec=False):
    """What the lines of `plan` say of these refs; if asked so, with FETCH_HEAD in the order of specs."""
    if lines and lines[0].startswith(b"line "):
        return Planned({}, [], {}, lines[0])
    fields = [line.split(b"\t")[1:] for line in lines if line.startswith(b"conflict\t")]
    if fields:
        return Planned({}, [], {one[0]: one[1::2] for one in fields}, None)
    found = mappings(lines)
    if by_spec:
        found.sort(key=lambda one: int(one[0]))
    ids = [source if item == b"-" else refs[int(item)].id for _, item, source, *_ in found]
    return Planned({one[3]: id_ for one, id_ in zip(found, ids) if one[3:]}, ids, {}, None)


def is_as_planned(fetched, planned):
    """Whether git did what was planned, or failed at one of the conflicts."""
    if planned.refusal or not planned.conflicts:
        return not planned.refusal and fetched == Fetched(planned.refs, planned.heads, None)
    if not fetched.failure or fetched.failure[0] != "conflict":
        return False
    *sources, destination = fetched.failure[1:]
    claims = planned.conflicts.get(destination, [])
    return all(source in claims or source.lower() in claims for source in sources)


def first_sources(lines, refs):
    """For each ref the source of its first mapping in the lines of `rhs`, or `None`."""
    found = {}
    for _, item, source, _ in mappings(lines):
        found.setdefault(int(item), source)
    return [found.get(item) for item in range(len(refs))]


def fetched_lines(fetched):
    """What a fetch did, as a sample shows it."""
    if fetched.failure:
        return [b" ".join([b"fails", fetched.failure[0].encode(), *fetched.failure[1:]])]
    written = [b"ref %s %s" % (id_, name) for name, id_ in sorted(fetched.refs.items())]
    return written + [b"head " + id_ for id_ in fetched.heads]


def source_lines(sources, refs):
    """What branches track that are made from refs, as a sample shows it."""
    fields = [[b"tracks", ref.name] + ([] if source is None else [source]) for ref, source in zip(refs, sources)]
    return list(map(b"\t".join, fields))


def escaped(line):
    """A line for a sample, where a space at the end would be lost."""
    return re.sub(rb" $", rb"\\x20", line)


def plain(line):
    return re.sub(rb"\\x([0-9a-f]{2})", lambda found: bytes([int(found[1], 16)]), line)


def store_lists(path, head, lists):
    """Writes lists into a sample, below its head."""
    with open(path, "wb") as file:
        file.write(head.encode())
        for stored in lists:
            named = ", ".join([stored.command, *filter(None, [stored.kinds])]).encode()
            marked = [(b"= ", [named]), (b"< ", stored.given), (b"> ", stored.answer), (b"! ", stored.done)]
            lines = [escaped(mark + line) + b"\n" for mark, part in marked for line in part]
            file.write(b"\n" + b"".join(lines))


def stored_lists(path):
    """The lists of a sample."""
    lists = []
    with open(path, "rb") as file:
        for number, line in enumerate(file, 1):
            mark, text = line[:2], plain(line[2:].rstrip(b"\n"))
            if mark == b"= ":
                command, _, kinds = text.decode().partition(", ")
                lists.append(Stored(number, command, kinds, [], [], []))
            elif mark in (b"< ", b"> ", b"! "):
                lists[-1][3 + b"<>!".index(mark[0])].append(text)
    return lists
