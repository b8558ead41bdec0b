"""What git does with the fetch values of one remote: the upstreams of branches, what a prefetch fetches, what `git remote rename`
makes of the values, and which ones `git remote add` and `git remote set-branches` write. All texts are bytes.
"""
import os
import re
import shutil
import sys

import gitfetch  # beside this script
import gitplans

NOWHERE = b"/nowhere"
NOTHING = gitfetch.Fetched({}, [], None)
LEFT = re.compile(rb"^warning: Not updating non-default fetch refspec\n\t(.*)$", re.M)


def section(kind, name, *lines):
    """A section of a configuration, with lines of a key and a value."""
    return b"[%s %s]\n" % (kind, gitplans.quoted(name)) + b"".join(b"\t%s = %s\n" % (key, gitplans.quoted(value)) for key, value in lines)


def remote_of(name, url, values):
    # Since 2.48 a fetch also makes refs/remotes/origin/HEAD, if it may.
    return section(b"remote", name, (b"url", url), (b"followRemoteHEAD", b"never"), *[(b"fetch", value) for value in values])


def can_be_there(name):
    """Whether git can store a ref of this name, and resolves it by that."""
    return name.startswith(b"refs/") and not re.search(rb"[*]|//|@[{]|/$", name)


class Remotes:
    """A folder of repositories."""

    def __init__(self, folder):
        self.store = gitfetch.Store(folder)
        self.commit = self.store.refs([b"refs/heads/any"])[0].id

    def client(self, config=b"", refs=()):
        """A repository with refs to one commit, which git needn't write."""
        path = self.store.repository(config=config)
        with open(os.path.join(path, "packed-refs"), "wb") as file:
            file.write(b"".join(b"%s %s\n" % (self.commit, name) for name in refs))
        return path

    def upstreams(self, values, merges, others=()):
        """The upstream of a branch for each merged ref, empty without one; `None` if git refuses a value. If such a ref is
        there, git resolves `@{upstream}` to it, and without one to nothing. Another remote has other values."""
        branches = [b"b%d" % number for number in range(len(merges))]
        config = remote_of(b"o", NOWHERE, values) + (remote_of(b"p", NOWHERE, others) if others else b"") + b"".join(
            section(b"branch", branch, (b"remote", b"o"), (b"merge", merge)) for branch, merge in zip(branches, merges))
        names = [b"refs/heads/" + branch for branch in branches]
        client = self.client(config, names)
        made = self.store.git(client, "for-each-ref", "--format=%(upstream)", *[name.decode() for name in names])
        shutil.rmtree(client)
        if made.returncode:
            return None
        found = made.stdout.split(b"\n")[:-1]
        refs = {one: branch for one, branch in zip(found, branches) if can_be_there(one)}
        client = self.client(config, {*names, *refs})
        self.expect_resolved(client, refs.values(), list(refs), 0)
        for branch in [branch for one, branch in zip(found, branches) if not one]:
            self.expect_resolved(client, [branch], [], 128)
        shutil.rmtree(client)
        return found

    def expect_resolved(self, client, branches, wanted, status):
        """Ends the run unless git resolves the upstreams of branches to these refs."""
        words = [f"{branch.decode()}@{{upstream}}" for branch in branches]
        if not words:
            return
        made = self.store.git(client, "rev-parse", "--symbolic-full-name", *words)
        # What isn't resolved is printed as it is.
        found = [one for one in made.stdout.splitlines() if one.decode() not in words]
        if (found, made.returncode) != (wanted, status):
            sys.exit(f"git rev-parse {words}: {made}, and not {wanted}")

    def renamed(self, values, old, new):
        """The values under the new name, and those that git warns to leave; `None` if git refuses."""
        client = self.client(remote_of(old, NOWHERE, values))
        made = self.store.git(client, "remote", "rename", old, new)
        after = self.store.git(client, "config", "-z", "--get-all", b"remote.%s.fetch" % new).stdout
        shutil.rmtree(client)
        return None if made.returncode else (after.split(b"\0")[:-1], LEFT.findall(made.stderr))

    def fetched(self, remote, values, *words):
        """What a fetch by these values writes."""
        client = self.client(remote_of(b"o", os.fsencode(remote), values))
        made = self.store.git(client, "fetch", "--no-tags", *words, "o")
        written = self.store.done(client, "for-each-ref", "--format=%(refname) %(objectname)")
        refs, heads = dict(line.split(b" ") for line in written.splitlines()), []
        path = os.path.join(client, "FETCH_HEAD")
        if made.returncode == 0 and os.path.exists(path):
            with open(path, "rb") as file:
                heads = [line.split(b"\t")[0] for line in file]
        shutil.rmtree(client)
        return gitfetch.Fetched(refs, heads, gitfetch.failure_of(made.stderr) if made.returncode else None)

    def prefetched(self, remote, values):
        """What a prefetch by these values writes."""
        return self.fetched(remote, values, "--prefetch")

    def added(self, name, branches, is_mirror):
        """The values of a new remote; `None` if git refuses its name."""
        client = self.client()
        options = ["--mirror=fetch"] * is_mirror + [word for branch in branches for word in (b"-t", branch)]
        made = self.store.git(client, "remote", "add", *options, "--", name, NOWHERE)
        values = self.store.git(client, "config", "-z", "--get-all", b"remote.%s.fetch" % name).stdout
        shutil.rmtree(client)
        return None if made.returncode else values.split(b"\0")[:-1]

    def set(self, name, branches, is_mirror, before=(b"refs/heads/any",)):
        """The values of a remote after `git remote set-branches`; `None` if git ends with another status than 0."""
        lines = [(b"url", NOWHERE)] + [(b"fetch", value) for value in before] + [(b"mirror", b"true")] * is_mirror
        client = self.client(section(b"remote", name, *lines))
        made = self.store.git(client, "remote", "set-branches", "--", name, *branches)
        values = self.store.git(client, "config", "-z", "--get-all", b"remote.%s.fetch" % name).stdout
        shutil.rmtree(client)
        return None if made.returncode else values.split(b"\0")[:-1]

    def accepts(self, value):
        """Whether git takes this value for a fetch."""
        failure = self.fetched(NOWHERE, [value]).failure
        return failure[0] != "invalid"
