"""Repositories that lines describe, made by writing their files alone: no process of Git runs for it.

A line is about `here`, where calls run, or about a remote repository such as `o`:

    o format sha256                     the ids that it has; those of SHA-1 without such a line
    o ref refs/heads/main [OBJECT]      a ref, to the object that is called as the ref, or to another one
    o symref refs/heads/a refs/heads/b  a symbolic ref
    o head refs/heads/main              what HEAD points to, whether or not it exists; this one without such a line
    o detached OBJECT                   or its object
    o bare                              it has no work tree: always so for a remote one
    o shallow                           the commits of its refs have no parents there
    o config KEY=VALUE, o config KEY    a line of its configuration; the second has no value
    o include KEY=VALUE                 one of a file that the configuration includes
    here env KEY=VALUE                  a setting that the variables of GIT_CONFIG_COUNT give
    here remotes NAME LINE              a line of .git/remotes/NAME; likewise for branches
    here worktree refs/heads/x          calls run in a linked worktree, whose HEAD points there
    call WORD ..                        the words of a fetch

An object is a commit, called by any name. `NAME~` is its parent, which has none, and `tag:NAME` an annotated tag of it. In a
value or a word `<o>` stands for the path of a repository, and `<id:OBJECT>` for the id of an object.
"""
import collections
import hashlib
import os
import re
import subprocess
import zlib

import gitfetch  # beside this script

PERSON = "A <a@example.com> 0 +0000"
HASHES = {"sha1": hashlib.sha1, "sha256": hashlib.sha256}
CORE = """\
[core]
repositoryformatversion = {version}
bare = {bare}
warnAmbiguousRefs = false
[gc]
auto = 0
[maintenance]
auto = false
[protocol "file"]
allow = always
[advice]
fetchShowForcedUpdates = false
"""
PACKED = "# pack-refs with: peeled fully-peeled sorted \n"
HERE = "here"
NAMED_ID = re.compile(r"<id:([^>]*)>")
# The refs of a repository, by name: an id, or `-> ` and a name; and of each line of FETCH_HEAD the id, and whether `git pull`
# merges it.
State = collections.namedtuple("State", "refs heads")
# What a fetch did: its status, its messages, and the state that it left.
Done = collections.namedtuple("Done", "status said refs heads")


class Objects:
    """Loose objects of one format in a folder, from which repositories link theirs."""

    def __init__(self, folder, format_):
        self.folder, self.hash = os.path.join(folder, format_), HASHES[format_]
        self.ids = {}

    def id_of(self, name):
        if name not in self.ids:
            self.ids[name] = self.written(*self.body_of(name))
        return self.ids[name]

    def body_of(self, name):
        if name == "":
            return "tree", ""
        if name.startswith("tag:"):
            inner = name.removeprefix("tag:")
            return "tag", f"object {self.id_of(inner)}\ntype commit\ntag annotated\ntagger {PERSON}\n\n{inner}\n"
        parent = "" if name.endswith("~") else f"parent {self.id_of(name + '~')}\n"
        return "commit", f"tree {self.id_of('')}\n{parent}author {PERSON}\ncommitter {PERSON}\n\n{name}\n"

    def written(self, kind, body):
        data = body.encode()
        data = b"%s %d\0" % (kind.encode(), len(data)) + data
        id_ = self.hash(data).hexdigest()
        path = os.path.join(self.folder, id_[:2], id_[2:])
        if not os.path.exists(path):
            os.makedirs(os.path.dirname(path), exist_ok=True)
            with open(path, "wb") as file:
                file.write(zlib.compress(data))
        return id_

    @staticmethod
    def needed(name, is_shallow=False):
        """The names of an object and of those that it needs."""
        inner = name.removeprefix("tag:")
        parents = set() if is_shallow or inner.endswith("~") else {inner + "~"}
        return {name, inner, ""} | parents

    def link(self, names, folder):
        for id_ in {self.id_of(name) for name in names}:
            os.makedirs(os.path.join(folder, id_[:2]), exist_ok=True)
            path = os.path.join(folder, id_[:2], id_[2:])
            if not os.path.exists(path):
                os.link(os.path.join(self.folder, id_[:2], id_[2:]), path)


def object_of(words):
    """The object of a line `ref NAME [OBJECT]`."""
    return words[1] if len(words) > 1 else words[0]


class Repository:
    """What the lines say of one repository."""

    def __init__(self, name, lines):
        self.name = name
        self.lines = [line.split(" ", 2)[1:] for line in lines if line.split(" ", 1)[0] == name]
        self.format = next(iter(self.all("format")), "sha1")
        self.is_bare = name != HERE or any(line == ["bare"] for line in self.lines)
        self.is_shallow = any(line == ["shallow"] for line in self.lines)
        self.objects = {words[0]: object_of(words) for words in map(str.split, self.all("ref"))}
        self.symrefs = dict(text.split() for text in self.all("symref"))

    def all(self, word):
        return [line[1] for line in self.lines if line[0] == word and len(line) > 1]

    def head(self):
        """The ref that HEAD points to, or `None`."""
        return None if self.all("detached") else next(iter(self.all("head")), "refs/heads/main")

    def needed(self):
        return set().union(*(Objects.needed(name, self.is_shallow)
                             for name in [*self.objects.values(), *self.all("detached"), *self.all("object")]))

    def names(self):
        """The refs that it advertises with their objects."""
        found = dict(self.objects)
        head = {"HEAD": self.head()} if self.head() else {}
        for _ in range(3):
            for name, target in {**self.symrefs, **head}.items():
                if target in found:
                    found[name] = found[target]
        return {**found, "HEAD": self.all("detached")[0]} if self.all("detached") else found


class World:
    """The repositories of one situation, in a new folder."""

    def __init__(self, folder, lines, stores):
        self.folder, self.lines, self.stores = folder, lines, stores
        names = dict.fromkeys([HERE, *(line.split(" ", 1)[0] for line in lines)])
        self.repositories = {name: Repository(name, lines) for name in names if name != "call"}
        self.call = next((line.split()[1:] for line in lines if line.split()[0] == "call"), [])
        for repository in self.repositories.values():
            self.make(repository)

    @property
    def here(self):
        return self.repositories[HERE]

    @property
    def remotes(self):
        return [repository for name, repository in self.repositories.items() if name != HERE]

    def path(self, name):
        return os.path.join(self.folder, name)

    def git_dir(self, repository):
        return self.path(repository.name) if repository.is_bare else os.path.join(self.path(repository.name), ".git")

    def id_of(self, repository, name):
        return self.stores[repository.format].id_of(name)

    def filled(self, text):
        for name in self.repositories:
            text = text.replace(f"<{name}>", self.path(name))
        return NAMED_ID.sub(lambda found: self.stores[self.here.format].id_of(found[1]), text)

    def make(self, repository):
        path, is_sha256 = self.git_dir(repository), repository.format == "sha256"
        os.makedirs(os.path.join(path, "objects"))
        os.mkdir(os.path.join(path, "refs"))
        config = CORE.format(version=int(is_sha256), bare=str(repository.is_bare).lower())
        config += "[extensions]\nobjectFormat = sha256\n" if is_sha256 else ""
        config += "[include]\npath = more\n" if repository.all("include") else ""
        files = {"config": config + self.settings(repository.all("config")), "more": self.settings(repository.all("include"))}
        head = repository.head()
        files["HEAD"] = "ref: " + head if head else self.id_of(repository, repository.all("detached")[0])
        files["packed-refs"] = PACKED + "".join(self.packed(repository, *pair) for pair in sorted(repository.objects.items()))
        for name, target in repository.symrefs.items():
            files[name] = "ref: " + target
        if repository.is_shallow:
            commits = {name.removeprefix("tag:") for name in [*repository.objects.values(), *repository.all("detached")]}
            files["shallow"] = "".join(self.id_of(repository, name) + "\n" for name in sorted(commits))
        for folder in ("remotes", "branches"):
            for name, line in (text.split(" ", 1) for text in repository.all(folder)):
                files[f"{folder}/{name}"] = files.get(f"{folder}/{name}", "") + self.filled(line) + "\n"
        for head in repository.all("worktree"):
            place = self.path("worktree")
            os.mkdir(place)
            files.update({"worktrees/w/HEAD": "ref: " + head, "worktrees/w/commondir": "../..",
                          "worktrees/w/gitdir": os.path.join(place, ".git"),
                          os.path.join(place, ".git"): "gitdir: " + os.path.join(path, "worktrees", "w")})
        for name, text in files.items():
            file = os.path.join(path, name)
            os.makedirs(os.path.dirname(file), exist_ok=True)
            with open(file, "w", encoding="utf-8") as out:
                out.write(text if text.endswith("\n") else text + "\n")
        self.stores[repository.format].link(repository.needed(), os.path.join(path, "objects"))

    def settings(self, lines):
        """Lines of a configuration file."""
        made = []
        for line in lines:
            key, equals, value = self.filled(line).partition("=")
            section, _, name = key.rpartition(".")
            kind, _, middle = section.partition(".")
            escape = str.maketrans({"\\": "\\\\", '"': '\\"'})
            made.append(f'[{kind}{middle and " " + chr(34) + middle.translate(escape) + chr(34)}]\n{name}'
                        + (f' = "{value.translate(escape)}"\n' if equals else "\n"))
        return "".join(made)

    def packed(self, repository, name, object_):
        peeled = f"^{self.id_of(repository, object_.removeprefix('tag:'))}\n" if object_.startswith("tag:") else ""
        return f"{self.id_of(repository, object_)} {name}\n{peeled}"

    def environment(self):
        made = gitfetch.environment(self.folder)
        settings = self.here.all("env")
        for number, line in enumerate(settings):
            key, _, value = self.filled(line).partition("=")
            made.update({f"GIT_CONFIG_KEY_{number}": key, f"GIT_CONFIG_VALUE_{number}": value})
        return {**made, "GIT_CONFIG_COUNT": str(len(settings))}

    def run(self, *words, **more):
        """Runs a command where calls run."""
        place = self.path("worktree") if self.here.all("worktree") else self.path(HERE)
        variables = {**self.environment(), **more}
        return subprocess.run(words, cwd=place, env=variables, stdin=subprocess.DEVNULL, capture_output=True, check=False)

    def fetch(self, *words):
        """What a fetch does with these words."""
        made = self.run("git", "fetch", *map(self.filled, words))
        state = self.state()
        return Done(made.returncode, made.stderr.decode(errors="replace"), state.refs, state.heads)

    def state(self):
        """The refs here, and FETCH_HEAD."""
        path = self.git_dir(self.here)
        refs = {}
        for line in lines_of(os.path.join(path, "packed-refs")):
            if line[0] not in "#^":
                refs[line.split()[1]] = line.split()[0]
        for folder, _, names in os.walk(os.path.join(path, "refs")):
            for name in names:
                file = os.path.join(folder, name)
                text = "".join(lines_of(file))
                refs[os.path.relpath(file, path)] = "-> " + text[5:] if text.startswith("ref: ") else text
        place = os.path.join(path, "worktrees", "w") if self.here.all("worktree") else path
        heads = [line.split("\t")[:2] for line in lines_of(os.path.join(place, "FETCH_HEAD"))]
        heads = [(id_, mark != "not-for-merge") for id_, mark in heads]
        return State({name: id_ for name, id_ in refs.items() if not name.endswith(".lock")}, heads)


def lines_of(path):
    if not os.path.exists(path):
        return []
    with open(path, encoding="utf-8", errors="surrogateescape") as file:
        return file.read().splitlines()


def stores_in(folder):
    """Stores of objects of each format."""
    return {format_: Objects(os.path.join(folder, "objects"), format_) for format_ in HASHES}
