"""What git does with one ref of a remote by each of some specs, as far as it shows: what a fetch of all specs writes, or why it fails,
and what a fetch of each spec alone takes. All texts are bytes.

Effects are where the ref is among the refs, with None if it isn't, and for each spec a fate and a destination, with None without
one. A fate is its words, as the tests of gix_refspec_why write it.
"""
import collections
import functools
import os
import shutil

import gitfetch  # beside this script
import gitplans
import gitremotes

Effects = collections.namedtuple("Effects", "index of_specs")
# The fates of a spec that takes the ref, and whose destination, if it has one, is valid.
TAKEN = ("written", "conflict", "directory", "duplicate")


class Fates:
    """A folder of repositories, in which each ref has a commit of its own."""

    def __init__(self, folder):
        self.store = gitfetch.Store(folder)
        self.fetched = functools.lru_cache(maxsize=1000)(self.fetched)
        self.remote = functools.lru_cache(maxsize=1000)(self.remote)

    def can_be_there(self, name):
        """Whether git stores a ref of this name."""
        return self.store.git(self.store.lender, "check-ref-format", "--allow-onelevel", name).returncode == 0

    def remote(self, names):
        """A repository with refs of these names, and the commit of each."""
        refs = self.store.refs(names)
        return self.store.remote(refs), {ref.name: ref.id for ref in refs}

    def fetched(self, names, texts):
        """What a fetch by these values writes and takes: refs with their commits, commits of FETCH_HEAD, the failure."""
        remote, _ = self.remote(names)
        client = self.store.repository(config=gitremotes.remote_of(b"o", os.fsencode(remote), texts))
        made = self.store.git(client, "fetch", "--no-tags", "o")
        written = self.store.done(client, "for-each-ref", "--format=%(refname) %(objectname)")
        refs, heads, path = dict(line.split(b" ") for line in written.splitlines()), set(), os.path.join(client, "FETCH_HEAD")
        nested = gitplans.NESTED.findall(made.stderr)
        if (made.returncode == 0 or nested) and os.path.exists(path):
            with open(path, "rb") as file:
                heads = {line.split(b"\t")[0] for line in file}
        shutil.rmtree(client)
        if made.returncode == 0:
            return refs, heads, None
        return refs, heads, ("nested", *nested) if nested else gitfetch.failure_of(made.stderr)

    def complete(self, names, texts):
        """The values that a fetch of all of them doesn't fail at, for want of a source; None if git refuses one."""
        texts = list(texts)
        while texts:
            failure = self.fetched(names, tuple(texts))[2] or ("none",)
            if failure[0] == "invalid":
                return None
            if failure[0] != "missing":
                break
            kept = [text for text in texts if text.startswith(b"^") or source_of(text) != failure[1]]
            if kept == texts:
                return None
            texts = kept
        return tuple(texts)

    def differences(self, names, texts, name, effects):
        """What git does otherwise with a ref that it has. No value lacks its source."""
        commit, fates = self.remote(names)[1][name], [fate.split()[0] for fate, _ in effects.of_specs]
        yield from self.differences_alone(names, texts, name, effects)
        refs, heads, failure = self.fetched(names, texts)
        word = (failure or ("none",))[0]
        if word == "conflict":
            told = {far for (fate, far) in effects.of_specs if fate.startswith("conflict")}
            if name in failure[1:3] and failure[3] not in told:
                yield f"git {failure}"
            return
        if word not in ("none", "nested"):
            yield f"git {failure}"
            return
        if "conflict" in fates:
            yield "git has no conflict"
        written = {far for far, one in refs.items() if one == commit}
        wanted = {far for fate, far in effects.of_specs if fate == "written" and far}
        nested = {far for fate, far in effects.of_specs if fate.startswith("directory")}
        if not wanted <= written <= wanted | nested or nested and word != "nested":
            yield f"git writes {sorted(written)}, {failure}"
        if (commit in heads) != bool({"written", "directory"} & set(fates)):
            yield f"git {'takes' if commit in heads else 'takes nothing of'} it"

    def differences_alone(self, names, texts, name, effects):
        """What git does otherwise by each value alone."""
        commit, fates = self.remote(names)[1][name], [fate.split()[0] for fate, _ in effects.of_specs]
        for text, fate in zip(texts, fates):
            if text.startswith(b"^"):
                if name.startswith(b"refs/"):
                    refs = self.fetched(names, (b"refs/*:refs/all/*", text))[0]
                    if (commit in refs.values()) == (fate == "excludes"):
                        yield f"git by {text} alone {'keeps' if fate == 'excludes' else 'excludes'} it"
            elif fate != "excluded":
                heads = self.fetched(names, (text,))[1]
                if (commit in heads) != (fate in TAKEN):
                    yield f"git by {text} alone takes {'it' if commit in heads else 'something else'}"


def source_of(text):
    """The source of a value, as git tells it."""
    return text.removeprefix(b"+").rpartition(b":")[0] or text.removeprefix(b"+")
