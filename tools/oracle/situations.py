"""Situations in which people fetch, by a given chooser: the lines of repositories.py.

They are what is set up: hosts with their refs, clones with their settings, and what is typed. None is made for a rule.
"""
import gitlists  # beside this script

BRANCHES = ["main", "main", "main", "dev", "dev", "topic/a", "topic/b", "wip/x", "release/1.0", "v1", "7", "gh-pages", "fix-1",
            "a/b/c"]
ODD_BRANCHES = ["HEAD", "refs/heads/main", "refs/heads/dev", "origin/main", "tags/v1", "heads/main", "topic", "\u00e9t\u00e9",
                "pr/7"]
TAGS = ["v1", "v1.0", "v1-rc", "v2", "release/1.0", "release", "topic", "main", "nightly"]
HOSTED = [[], [], [], ["refs/pull/7/head", "refs/pull/7/merge", "refs/pull/8/head"], ["refs/merge-requests/3/head"],
          ["refs/changes/34/1234/1", "refs/changes/34/1234/meta", "refs/meta/config"], ["refs/notes/commits"],
          ["refs/remotes/up/main", "refs/stash"]]
TRACKING = "+refs/heads/*:refs/remotes/{}/*"
# Fetch values of a remote with such a name.
VALUES = [[TRACKING]] * 6 + [
    ["+refs/heads/main:refs/remotes/{}/main"], [TRACKING, "+refs/pull/*/head:refs/remotes/{}/pr/*"],
    [TRACKING, "+refs/tags/*:refs/tags/*"], [TRACKING, "^refs/heads/wip/*"], [TRACKING, "refs/notes/*:refs/notes/*"], [],
    ["+refs/*:refs/*"], ["+refs/heads/*:refs/heads/*"], ["refs/heads/*:refs/remotes/{}/*", "refs/tags/*:refs/tags/*"],
    ["main:refs/remotes/{}/main", "dev:refs/remotes/{}/dev"], ["+refs/heads/release/*:refs/remotes/{}/release/*"],
    [TRACKING, "+refs/merge-requests/*/head:refs/remotes/{}/mr/*"], ["+refs/changes/*:refs/remotes/{}/changes/*", TRACKING]]
# Values that are written behind these.
MORE_VALUES = ["^refs/heads/dev", "^refs/heads/topic/*", "^refs/tags/*-rc", "^main", "HEAD", "main", "refs/heads/dev",
               "refs/heads/main:refs/heads/main", "+refs/tags/*:refs/remotes/{}/*", "+refs/tags/*:refs/remotes/{}/tags/*",
               "+HEAD:refs/remotes/{}/HEAD", "refs/heads/*:refs/x/*", "refs/tags/v1:refs/tags/v1", "+refs/heads/*:refs/tags/*",
               "refs/heads/topic/*:refs/remotes/{}/topic/*", "+refs/heads/dev:refs/remotes/{}/main/x", "main:main", "tags/v1:v1",
               "+refs/heads/gone:refs/remotes/{}/gone", "refs/heads/refs/*:refs/x/*", TRACKING]
# What is typed behind the name of a remote.
GIVEN = ["main", "main", "dev", "v1", "topic/a", "HEAD", "tag v1", "tag nightly", "refs/heads/main", "refs/tags/v1",
         "main:refs/x/main", "main:tmp", "+dev:dev", "dev:refs/remotes/{}/dev", "refs/pull/7/head:pr/7", "pull/7/head",
         "+refs/heads/*:refs/remotes/{}/*", "refs/heads/*:refs/heads/*", "+refs/tags/*:refs/tags/*", "main:refs/tags/v1",
         "dev:refs/remotes/{}/main", "nosuch", "^refs/heads/dev", "^refs/heads/wip/*", "refs/heads/*:refs/x/*",
         "+refs/*:refs/copy/*", "main:", ":refs/x/head", "HEAD:refs/x/head", "@", "+refs/tags/*:refs/remotes/{}/*",
         "refs/heads/t*:refs/x/y/*"]
REFMAPS = ["", "+refs/heads/*:refs/y/*", "refs/heads/main:refs/y", "+refs/heads/*:refs/remotes/{}/*"]
TRUE = ["true", "yes", "on", "1", "-1", "1k", "0x1", "+1", "TRUE", "Yes", "2", None]
FALSE = ["false", "no", "off", "0", "", "No", "0x0", "+0"]
BAD = ["maybe", "1x", "tru", "k", "99999999999999999999", " 1"]
NAMES = ["origin"] * 8 + ["o", "up/stream", "up.x", "main", "all"]
HERE_WORDS = ["main", "dev", "gone", "topic/a", "topic", "release/1.0", "v1", "pr/7", "wip/old", "main/x", "HEAD"]
OWN_REFS = ["refs/heads/main", "refs/heads/dev", "refs/heads/mine", "refs/tags/v1", "refs/tags/mine", "refs/tags/nightly",
            "refs/x/main", "refs/x/gone", "refs/x/topic", "refs/notes/commits", "refs/heads/topic", "refs/pull/7/head",
            "refs/tags/release", "refs/copy/heads/gone"]
MERGES = ["refs/heads/main"] * 5 + ["refs/heads/dev"] * 2 + [
    "refs/heads/gone", "main", "refs/pull/7/head", "refs/tags/v1", "HEAD", ""]
# Where HEAD points on a remote, and here, if not to the branch main; what a remote hides; lines of an old file.
THEIR_HEADS = ["refs/heads/unborn", "refs/heads/dev", "refs/meta/config", "refs/remotes/up/main", "refs/tags/v1"]
HEADS = ["refs/heads/dev"] * 2 + ["refs/heads/mine", "refs/heads/unborn", "refs/x/main", "refs/remotes/origin/main"]
HIDDEN = ["uploadpack.hideRefs=refs/pull", "transfer.hideRefs=refs/heads/wip", "uploadpack.hideRefs=refs/tags"]
PULLS = ["Pull: refs/heads/main:refs/remotes/old/main", "Pull: dev", "Pull: +refs/heads/*:refs/old/*"]


class Chooser:
    """Choices from a random source, and the lines that they make."""

    def __init__(self, random_):
        self.random, self.lines = random_, []

    def may(self, chance):
        return self.random.random() < chance

    def one(self, words):
        return self.random.choice(words)

    def some(self, words, most):
        return self.random.sample(words, min(len(words), self.random.randint(0, most)))

    def add(self, repository, *words):
        self.lines.append(" ".join([repository, *words]))

    def boolean(self):
        forms = self.one([TRUE, TRUE, TRUE, FALSE, FALSE, BAD] if self.may(0.3) else [["true"], ["true"], ["false"]])
        value = self.one(forms)
        return "" if value is None else "=" + value

    def setting(self, text):
        """Adds a setting to the configuration, in one of the places that it is read from."""
        places = ["include", "env"] if "=" in text else ["include"]
        self.add("here", self.one(places) if self.may(0.12) else "config", text)


def host(choose, name):
    """A repository to fetch from; gives its refs."""
    words = sorted(set(choose.some(BRANCHES, 8)) | ({"main"} if choose.may(0.93) else set()))
    words += choose.some(ODD_BRANCHES, 2) if choose.may(0.2) else []
    names = ["refs/heads/" + word for word in words] + ["refs/tags/" + word for word in choose.some(TAGS, 4)]
    names += choose.one(HOSTED)
    kept = [one.decode() for one in gitlists.apart([one.encode() for one in names])]
    for one in kept:
        annotated = one.startswith("refs/tags/") and choose.may(0.4)
        inner = "refs/heads/main" if one.startswith("refs/tags/") and choose.may(0.5) else one
        object_ = ("tag:" if annotated else "") + inner + ("" if name == "o" or choose.may(0.5) else "@" + name)
        choose.add(name, "ref", one, *([] if object_ == one else [object_]))
    if choose.may(0.06):
        alias = choose.one(["refs/heads/latest", "refs/tags/latest", "refs/remotes/up/HEAD"])
        choose.add(name, "symref", alias, "refs/heads/main")
    kind = choose.random.random()
    if kind < 0.05:
        choose.add(name, "detached", choose.one(kept) if kept and choose.may(0.5) else "elsewhere")
    elif kind < 0.09:
        choose.add(name, "head", choose.one(THEIR_HEADS))
    if choose.may(0.02):
        choose.add(name, "shallow")
    if choose.may(0.03):
        choose.add(name, "config", choose.one(HIDDEN))
    return kept


def remote_settings(choose, name, repository):
    """The settings of a remote; gives its fetch values."""
    at = "remote." + name
    values = [value.format(name) for value in choose.one(VALUES)]
    if choose.may(0.3):
        values += [value.format(name) for value in choose.some(MORE_VALUES, 2)]
    if choose.may(0.04):
        choose.random.shuffle(values)
    if choose.may(0.02):
        values.append(choose.one(["refs/heads/*:refs/x", "a b", "refs/heads/..", "@{u}", ""]))
    if choose.may(0.96):
        choose.add("here", "config", f"{at}.url=<{repository}>" if choose.may(0.95) else f"{at}.url=short:{repository}")
    else:
        legacy(choose, name, repository)
    if choose.may(0.03):
        choose.add("here", "config", f"{at}.url=<p>")
    for value in values:
        choose.setting(f"{at}.fetch={value}")
    for key, chance in (("prune", 0.12), ("pruneTags", 0.08), ("skipFetchAll", 0.03), ("mirror", 0.02)):
        if choose.may(chance):
            choose.setting(f"{at}.{key}{choose.boolean()}")
    if values == ["+refs/*:refs/*"]:
        choose.add("here", "config", f"{at}.mirror=true")
    if choose.may(0.12):
        choose.setting(f"{at}.tagOpt={choose.one(['--tags', '--no-tags', '--no-tags', '--TAGS', ''])}")
    return values


def legacy(choose, name, repository):
    """A remote in a file of its own, as Git of 2005 had it."""
    if choose.may(0.7):
        choose.add("here", "remotes", name, f"URL: <{repository}>")
        for value in choose.some(PULLS, 2):
            choose.add("here", "remotes", name, value)
    else:
        choose.add("here", "branches", name, f"<{repository}>" + choose.one(["", "#main", "#dev"]))


def local_state(choose, name, values, refs):
    """What earlier fetches and the work of a user left here."""
    names = choose.some(OWN_REFS, 5) if choose.may(0.6) else []
    for value in values:
        source, _, far = value.lstrip("+").rpartition(":")
        if "*" in far and not value.startswith("^"):
            before, _, behind = source.partition("*")
            words = [one[len(before):len(one) - len(behind)] for one in refs if one.startswith(before) and one.endswith(behind)]
            names += [far.replace("*", word) for word in [*choose.some(words, 4), *choose.some(HERE_WORDS, 3)]]
        elif far.startswith("refs/") and choose.may(0.4):
            names.append(far)
    valid = [one.encode() for one in names if one.startswith("refs/") and "*" not in one]
    kept = [one.decode() for one in gitlists.apart(valid)]
    for one in kept:
        word = one.rpartition("/")[2]
        source = next((ref for ref in refs if ref.endswith("/" + word)), one)
        choose.add("here", "ref", one, choose.one([source + "~", source + "~", source, source, "own"]))
    if f"refs/remotes/{name}/HEAD" not in kept and choose.may(0.5):
        branch = choose.one(["main", "main", "dev", "gone"])
        choose.add("here", "symref", f"refs/remotes/{name}/HEAD", f"refs/remotes/{name}/{branch}")
    # A symbolic ref is a file, so no word of its name is a folder such as `..`.
    files = [one for one in kept if not {".", ".."} & set(one.split("/"))]
    if choose.may(0.03) and files:
        one = choose.one(files)
        choose.lines.remove(next(line for line in choose.lines if line.startswith(f"here ref {one} ")))
        choose.add("here", "symref", one, choose.one(["refs/heads/other", "refs/x/other"]))
    kind = choose.random.random()
    if kind < 0.12:
        choose.add("here", "detached", "own")
    elif kind < 0.30:
        choose.add("here", "head", choose.one(HEADS))
    if choose.may(0.15 if values != ["+refs/*:refs/*"] else 0.8):
        choose.add("here", "bare")
    elif choose.may(0.05):
        choose.add("here", "worktree", choose.one(["refs/heads/dev", "refs/heads/side"]))


def branch_settings(choose, name):
    for branch in ["main"] + ["dev"] * choose.may(0.3):
        if not choose.may(0.6):
            continue
        choose.setting(f"branch.{branch}.remote=" + choose.one([name] * 8 + ["other", ".", "<p>", "<o>"]))
        for merge in [choose.one(MERGES)] * choose.may(0.9) + [choose.one(MERGES)] * choose.may(0.08):
            choose.setting(f"branch.{branch}.merge={merge}")


def typed(choose, name, refs, command):
    """The words of a fetch."""
    place = choose.random.random()
    if place < 0.40:
        return []
    remote = name
    if place > 0.86:
        remote = choose.one(["<o>", "file://<o>", "../o", "short:o", "other", "all", "both", "<p>"])
    words = []
    for spec in choose.some(GIVEN, 3) if choose.may(0.6) else []:
        words += spec.format(name).split(" ")
    if choose.may(0.06):
        object_ = choose.one(refs) if refs and choose.may(0.6) else choose.one(["elsewhere", "refs/heads/main~", "own"])
        words.append(f"<id:{object_}>" + choose.one(["", ":refs/x/id", ":id"]))
    if words and command == "plan" and choose.may(0.08):
        return [f"--refmap={choose.one(REFMAPS).format(name)}", remote, *words]
    return [remote, *words]


def situation(random_, command):
    """The lines of a situation for a plan, or for a list of stale refs."""
    choose = Chooser(random_)
    name = choose.one(NAMES)
    refs = host(choose, "o")
    host(choose, "p")
    values = remote_settings(choose, name, "o")
    if choose.may(0.3):
        remote_settings(choose, "other", "p")
    if choose.may(0.06):
        # Git runs without end where a group has its own name in it.
        group = choose.one(["all", "both", name])
        members = choose.some([one for one in (name, "other", "<p>") if one != group], 3)
        choose.setting(f"remotes.{group}={' '.join(members)}")
    local_state(choose, name, values, refs)
    branch_settings(choose, name)
    for key, chance in (("fetch.prune", 0.10), ("fetch.pruneTags", 0.08)):
        if choose.may(chance):
            choose.setting(key + choose.boolean())
    if choose.may(0.04):
        choose.setting("protocol.version=" + choose.one(["0", "1"]))
    if any("=short:" in line for line in choose.lines) or choose.may(0.05):
        choose.add("here", "config", "url.<o>.insteadOf=short:o")
    kind = choose.random.random()
    if kind < 0.03:
        choose.lines += [f"{repository} format sha256" for repository in ("here", "o", "p")]
    elif kind < 0.035:
        choose.lines.append("here format sha256")
    words = typed(choose, name, refs, command)
    pruning = ["--prune"] if command == "stale" or choose.may(0.2) else ["--no-prune"] * choose.may(0.5)
    choose.add("call", *pruning, *words)
    return choose.lines
