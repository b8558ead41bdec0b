"""What a server lists for ref prefixes: `git upload-pack`, asked by `ls-refs` of protocol v2 over a pipe. And for which refs a client
asks, by git-fetch(1), git-push(1) and gitrevisions(7), told apart from the library.

A group is specs without negative ones, refs, the ref prefixes that a program sends for the specs, and the options of its call.
"""
import collections
import hashlib
import os
import subprocess
import zlib

Group = collections.namedtuple("Group", "specs refs prefixes options", defaults=[()])
# For which refs a client asks: those that a pattern matches, the one of this name, the first candidate, or each candidate.
Ask = collections.namedtuple("Ask", "kind text")
CANDIDATES = [b"%s", b"refs/%s", b"refs/tags/%s", b"refs/heads/%s", b"refs/remotes/%s", b"refs/remotes/%s/HEAD"]
TREE = b"tree 0\0"
CONFIG = "[core]\nrepositoryformatversion = 0\nbare = true\n[protocol]\nversion = 2\n"
ENV = {**os.environ, "GIT_CONFIG_GLOBAL": os.devnull, "GIT_CONFIG_NOSYSTEM": "1", "GIT_PROTOCOL": "version=2", "LC_ALL": "C"}


def repository(path, refs):
    """Makes a bare repository with these refs, each at the empty tree. `HEAD` is that of `refs/heads/HEAD-is`, or missing."""
    os.makedirs(os.path.join(path, "refs"))
    id_ = hashlib.sha1(TREE).hexdigest()
    folder = os.path.join(path, "objects", id_[:2])
    os.makedirs(folder)
    with open(os.path.join(folder, id_[2:]), "wb") as file:
        file.write(zlib.compress(TREE))
    with open(os.path.join(path, "config"), "w", encoding="ascii") as file:
        file.write(CONFIG)
    with open(os.path.join(path, "HEAD"), "w", encoding="ascii") as file:
        file.write(id_ + "\n" if b"HEAD" in refs else "ref: refs/heads/unborn\n")
    with open(os.path.join(path, "packed-refs"), "wb") as file:
        for name in sorted(set(refs) - {b"HEAD"}):
            file.write(id_.encode() + b" " + name + b"\n")


def packet(line):
    return b"%04x" % (len(line) + 4) + line


def packets(data):
    """The lines of packets up to the flush."""
    at = 0
    while data[at:at + 4] != b"0000":
        size = int(data[at:at + 4], 16)
        yield data[at + 4:at + size]
        at += size


def listed(path, prefixes):
    """The names that the server lists for these ref prefixes, or all for none."""
    asked = packet(b"command=ls-refs\n") + b"0001" + b"".join(packet(b"ref-prefix " + prefix) for prefix in prefixes) + b"0000"
    made = subprocess.run(["git", "upload-pack", "--stateless-rpc", path], input=asked, env=ENV, capture_output=True, check=True)
    return {line.rstrip(b"\n").split(b" ")[1] for line in packets(made.stdout)}


def source(spec):
    """The source of the text of a spec that isn't negative: `@` and nothing are short for `HEAD`."""
    text = spec[1:] if spec.startswith(b"+") else spec
    text = text.rpartition(b":")[0] if b":" in text else text
    return b"HEAD" if text in (b"", b"@") else text


def is_id(text):
    return len(text) in (40, 64) and all(byte in b"0123456789abcdefABCDEF" for byte in text)


def asks(group):
    """For which refs a client asks by specs and options."""
    is_push = b"--push" in group.options
    for spec in group.specs:
        text = spec.rpartition(b":")[2] if is_push else source(spec)
        if b"*" in text:
            yield Ask("pattern", text)
        elif text.startswith(b"refs/"):
            yield Ask("name", text)
        elif not is_id(text):
            yield Ask("each" if is_push else "first", text)
    for option in group.options:
        if option == b"--tags":
            yield Ask("pattern", b"refs/tags/*")
        elif option == b"--head":
            yield Ask("name", b"HEAD")
        elif option.startswith(b"--merge="):
            text = option.partition(b"=")[2]
            yield Ask("name" if text == b"HEAD" or text.startswith(b"refs/") else "first", text)


def taken(ask, refs):
    """The names among the refs for which a client asks."""
    if ask.kind == "pattern":
        before, after = ask.text.split(b"*")
        return {name for name in refs
                if len(name) >= len(before + after) and name.startswith(before) and name.endswith(after)}
    if ask.kind == "name":
        return {ask.text} & set(refs)
    found = [name % ask.text for name in CANDIDATES if name % ask.text in refs]
    return set(found if ask.kind == "each" else found[:1])


def mapped(group):
    return set().union(*(taken(ask, group.refs) for ask in asks(group)))


def example(group, prefix):
    """A ref that a server can have, for which a client asks if there is no other, and whose name begins with the prefix; if there is
    one."""
    for ask in asks(group):
        names = [ask.text.replace(b"*", b"a")] if b"*" in ask.text else [ask.text, *(name % ask.text for name in CANDIDATES)]
        for name in names:
            if name.startswith(prefix) and (name == b"HEAD" or name.startswith(b"refs/")) and taken(ask, [name]):
                return name
    return None


def faults(group, path):
    """Says what is wrong with the ref prefixes of a group. Makes repositories at `path`, which mustn't exist."""
    for one in group.prefixes:
        if any(one is not other and one.startswith(other) for other in group.prefixes):
            yield b"%s begins with another one" % one
    repository(path, group.refs)
    lost = mapped(group) - (listed(path, group.prefixes) if group.prefixes else set())
    if lost:
        yield b"not listed: " + b" ".join(sorted(lost))
    for index, prefix in enumerate(group.prefixes):
        name = example(group, prefix)
        if name is None:
            # No server has such a ref: a partial name is a ref of its own only outside `refs/`.
            if prefix == b"HEAD" or prefix.startswith(b"refs/"):
                yield b"%s begins no ref that is taken" % prefix
            continue
        alone = f"{path}-{index}"
        repository(alone, [name])
        others = group.prefixes[:index] + group.prefixes[index + 1:]
        if name not in listed(alone, group.prefixes):
            yield b"%s isn't listed" % name
        if others and name in listed(alone, others):
            yield b"%s isn't needed for %s" % (prefix, name)
