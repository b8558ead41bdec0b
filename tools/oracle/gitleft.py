"""What a fetch does in a situation otherwise than `git refspec` says, told by the lines of the situation.

A plan leaves some things to Git, as docs/GIT.md lists them, and it refuses what it can't tell. Each kind has a rule, which
holds where a ref, or a whole fetch, is concerned; and the smallest situation that shows it.
"""
import collections
import re

import gitknown  # beside this script

# What is so, in words, and its smallest situation, by its lines and its command.
Kind = collections.namedtuple("Kind", "text lines command")
# What `git refspec` says: its status, the objects of its lines, and its messages.
Said = collections.namedtuple("Said", "status rows messages")
# What is said to stop a fetch, and how Git says it.
STOPPING = {"missing": "couldn't find remote ref", "conflict": "Cannot fetch both|tracks both", "refused": "invalid refspec"}
ORIGIN = ["here config remote.o.url=<o>", "o ref refs/heads/main"]
TRACKING = "here config remote.o.fetch=refs/heads/*:refs/x/*"


def kind(text, *lines, words="o", command="plan"):
    return Kind(text, (*ORIGIN, *lines, f"call {words}".strip()), command)


def prunes(text, *lines, words="--prune o"):
    return kind(text, *lines, words=words, command="stale")


FORCED = kind("an update that isn't a fast-forward is refused", TRACKING, "here ref refs/x/main own")
CLOBBERED = kind("a tag that is here is updated only by force", "o ref refs/tags/v1", "here ref refs/tags/v1 own",
                 words="o refs/tags/v1:refs/tags/v1")
FOLDER = kind("a ref that is here is a directory of a destination or below one", TRACKING, "here ref refs/x/main/y own")
FOLDERS = kind("one destination is a directory of another", "o ref refs/heads/dev", words="o main:refs/x/a dev:refs/x/a/b")
TAG_AS_BRANCH = kind("a tag object is refused as a branch", "o ref refs/tags/v1 tag:v1", "here config remote.o.tagOpt=--no-tags",
                     words="o tags/v1:refs/heads/v1")
LEFT_ALONE = kind("a pattern leaves a symbolic ref alone", TRACKING, "here symref refs/x/main refs/x/other")
THROUGH = kind("a spec without a star writes through a symbolic ref", "here symref refs/x/main refs/x/other",
               words="o main:refs/x/main")
THROUGH_BOTH = kind("a spec without a star writes through a symbolic ref that a pattern leaves alone", TRACKING,
                    "here config remote.o.fetch=refs/heads/main:refs/x/main", "here symref refs/x/main refs/x/other")
THROUGH_TWICE = kind("a symbolic ref whose target is updated too is refused", TRACKING, "here config remote.o.fetch=HEAD:refs/x/HEAD",
                     "here ref refs/x/main refs/heads/main~", "here symref refs/x/HEAD refs/x/main")
DANGLING = kind("a symbolic ref whose target is pruned isn't written", TRACKING,
                "here config remote.o.fetch=HEAD:refs/x/HEAD", "here ref refs/x/gone own",
                "here symref refs/x/HEAD refs/x/gone", words="--prune o")
FOLLOWED = kind("tags are followed", TRACKING, "o ref refs/tags/v1 refs/heads/main")
REFUSED_TAG = kind("a followed tag is refused beside a tag that is here", "here config remote.o.fetch=refs/heads/*:refs/x/*",
                   "o ref refs/tags/v1/a refs/heads/main", "here ref refs/tags/v1 own")
TAG_BESIDE = kind("a followed tag is a directory of a destination or below one", "o ref refs/tags/v1 refs/heads/main",
                  words="o main:refs/tags/v1/a")
FOLLOWED_THROUGH = kind("a followed tag is written through a symbolic ref that points nowhere", TRACKING,
                        "o ref refs/tags/v1 refs/heads/main", "here symref refs/tags/v1 refs/heads/other")
FOLLOWED_CONFLICT = kind("a followed tag has the destination of another ref", "o ref refs/tags/v1 refs/heads/main",
                         "o ref refs/heads/dev", words="o main:refs/x/main dev:refs/tags/v1")
FOLLOWED_OVER = kind("a followed tag has the destination of a configured spec, and wins", "o ref refs/tags/main tag:refs/heads/main",
                     "here config remote.o.fetch=+refs/heads/*:refs/tags/*", words="o +refs/*:refs/copy/*")
CHECKED_OUT = kind("a branch that is checked out isn't fetched into", words="o main:main")
HEAD_ASIDE = kind("a ref outside refs/heads/ that HEAD points to isn't updated", TRACKING, "here ref refs/x/main refs/heads/main~",
                  "here head refs/x/main")
NOT_OURS = kind("the remote lacks an id", words="o <id:elsewhere>:refs/x")
UNADVERTISED = kind("an id that no ref of the remote has is refused over protocol v0", "here config protocol.version=0",
                    words="o <id:refs/heads/main~>")
SHALLOW = kind("a shallow remote updates no ref", "o shallow", TRACKING)
SHALLOW_TWICE = kind("a ref of a shallow remote that is fetched twice stops the fetch", "o shallow",
                     words="o main:refs/x/a main:refs/x/b")
SHORT_MERGE = kind("a partial name that the branch merges is found where its ref is listed", "o ref refs/tags/v1",
                   "here config branch.main.remote=o", "here config branch.main.merge=v1", words="")
FORMATS = kind("the remote has ids of another format", "here format sha256", TRACKING)
DELETED_FIRST = kind("a ref is pruned and then not written", "here config remote.o.fetch=refs/heads/*:refs/x/*",
                     "here ref refs/x/main refs/heads/main~", words="--prune o refs/tags/*:refs/x/* main")
PARTIAL = prunes("a pruning fetch compares a partial name as it is written", "here ref refs/x/main refs/heads/main",
                 "here config remote.o.fetch=main:refs/x/main")
EXCLUDED = prunes("a pruning fetch keeps a ref for an excluded source only if a pattern writes it", "here ref refs/x/main own",
                  "here config remote.o.fetch=refs/heads/main:refs/x/main", "here config remote.o.fetch=^refs/heads/main")
GROUP = kind("a group of remotes is refused", "here config remote.p.url=<p>", "p ref refs/heads/main",
             "here config remotes.g=o p", words="g")
OLD_FORM = Kind("a remote that is only in .git/remotes or .git/branches is refused",
                ("o ref refs/heads/main", "here remotes o URL: <o>", "call o"), "plan")
FULL_NAME = kind("a full name is also taken for a partial one", "o ref refs/heads/refs/heads/dev",
                 words="o refs/heads/dev")
BOOLEAN_FIRST = kind("a value that isn't a boolean is told before one that isn't a refspec",
                     "here config remote.o.fetch=a..b", "here config fetch.prune=maybe")
KINDS = [FORCED, CLOBBERED, FOLDER, FOLDERS, TAG_AS_BRANCH, LEFT_ALONE, THROUGH, THROUGH_BOTH, THROUGH_TWICE, DANGLING, FOLLOWED,
         FOLLOWED_THROUGH, REFUSED_TAG, TAG_BESIDE, FOLLOWED_CONFLICT, FOLLOWED_OVER, CHECKED_OUT, HEAD_ASIDE, NOT_OURS, UNADVERTISED,
         SHALLOW, SHALLOW_TWICE, SHORT_MERGE, FORMATS, DELETED_FIRST, PARTIAL, EXCLUDED, GROUP, OLD_FORM,
         FULL_NAME, BOOLEAN_FIRST]
# Those by which Git ends with status 1, or may.
FAILING = {FORCED, CLOBBERED, FOLDER, FOLDERS, TAG_AS_BRANCH, THROUGH_TWICE, DANGLING, REFUSED_TAG, TAG_BESIDE, HEAD_ASIDE}
UNSURE = {DELETED_FIRST, PARTIAL, EXCLUDED}
# Those by which tags are in FETCH_HEAD.
FOLLOWING = {FOLLOWED, FOLLOWED_OVER, FOLLOWED_THROUGH, REFUSED_TAG, TAG_BESIDE, SHALLOW}
# What stops a fetch though its plan can be carried out: how Git says it, and the kind of note by which a plan has to tell it.
FATAL = [(CHECKED_OUT, re.compile(r"refusing to fetch into branch '(.*)' checked out"), None),
         (NOT_OURS, re.compile("not our ref"), "unlisted"),
         (UNADVERTISED, re.compile("Server does not allow request for unadvertised object"), "unlisted"),
         (FOLLOWED_CONFLICT, re.compile(r"Cannot fetch both .* and .* to (refs/tags/.*)"), "followed"),
         (SHALLOW_TWICE, re.compile("did not send all necessary objects"), None),
         (FORMATS, re.compile("mismatched algorithms|does not support this repository's object format"), None)]
SHALLOW_ROOTS = "because shallow roots are not allowed to be updated"
BAD_BOOLEAN = re.compile("bad (boolean|numeric) config value")
SPECS_OF_GROUP = re.compile("fetching a group and specifying refspecs")
# What is refused that Git takes, by the message.
REFUSED = [(GROUP, re.compile("is a group of remotes")), (OLD_FORM, re.compile("is configured in .*(remotes|branches)"))]


class Trial:
    """A situation, what was said of it, and what a fetch did. The command is plan or stale."""

    def __init__(self, command, world, said, before, done):
        self.command, self.world, self.said, self.before, self.done = command, world, said, before, done
        self.given = [word for word in world.call if not word.startswith("-")][1:]

    def rows(self, *kinds):
        return [row for row in self.said.rows if row["kind"] in kinds]

    def kinds(self):
        """The kinds by which the fetch differs from what was said; `None` where these are unknown."""
        if not self.said.rows and self.said.status != 0:
            return self.kinds_of_refusal()
        if self.rows(*STOPPING):
            return self.kinds_of_stop()
        if self.done.status not in (0, 1) or any(pattern.search(self.done.said) for _, pattern, _ in FATAL):
            return self.kinds_of_failure()
        if self.command == "stale":
            return self.kinds_of_prunings()
        found = [self.kinds_by(remote, prunes) for remote in self.remotes() for prunes in self.prunings()]
        return min((kinds for kinds in found if kinds is not None), key=len, default=None)

    def kinds_of_refusal(self):
        """A call that is refused has to be one that Git refuses too, and for a boolean that it refuses."""
        found = [one for one, pattern in REFUSED if pattern.search(self.said.messages)]
        stops = self.done.status not in (0, 1) and self.done.refs == self.before.refs
        is_boolean = "is not a boolean" in self.said.messages
        is_same = stops and (not is_boolean or BAD_BOOLEAN.search(self.done.said))
        return found or ([] if is_same else None)

    def kinds_of_stop(self):
        """A fetch that is said to write nothing has to fail so, at one of the reasons: in a group with status 1."""
        said = self.done.said
        if all(self.is_partial_of_other(row) for row in self.rows(*STOPPING)):
            stops = [one for one, pattern, note in FATAL if note is None and pattern.search(said)]
            if self.done.status in (0, 1) or stops and self.done.refs == self.before.refs:
                return [one for one in KINDS if one in (FULL_NAME, *stops)]
        fails = self.done.status not in (0, 1) or "error: could not fetch" in said
        if not fails or self.done.refs != self.before.refs:
            return None
        if any(re.search(STOPPING[row["kind"]], said) for row in self.rows(*STOPPING)):
            return []
        firsts = [one for one, pattern in ((BOOLEAN_FIRST, BAD_BOOLEAN), (GROUP, SPECS_OF_GROUP)) if pattern.search(said)]
        return firsts if self.rows("refused") and firsts else None

    def is_partial_of_other(self, row):
        """Whether a full name that is said to be missing is a partial name of a ref of the remote."""
        source = gitknown.split(row.get("spec", "").encode()).source
        listed = [{name.encode() for name in remote.names()} for remote in self.remotes()]
        found = [gitknown.first_name(source, names) for names in listed]
        is_full = row["kind"] == "missing" and source.startswith(b"refs/")
        return is_full and any(one not in (None, source) for one in found)

    def kinds_of_failure(self):
        """The kinds by which a fetch fails that is said to write something. It may prune before it fails."""
        lost = set(self.before.refs) - set(self.done.refs)
        kept = {name: id_ for name, id_ in self.before.refs.items() if name not in lost}
        found = {self.kind_of_pruning(name) for name in lost - {row["name"] for row in self.rows("stale")}}
        stops = next((one for one, pattern, note in FATAL if pattern.search(self.done.said)
                      and (self.command == "stale" or self.is_told(one, note))), None)
        found.add(stops)
        return [one for one in KINDS if one in found] if self.done.refs == kept and None not in found else None

    def is_told(self, one, note):
        """Whether a plan shows that a fetch may be stopped so."""
        if one is SHALLOW_TWICE:
            return any(remote.is_shallow and self.are_twice(remote) for remote in self.remotes())
        if one is UNADVERTISED and self.has_peeled_source():
            return True
        return note is None or bool(self.rows(note))

    def has_peeled_source(self):
        """Whether the source of a mapping is an id that only a tag object of the remote points to."""
        ids = {self.world.id_of(remote, object_) for remote in self.remotes() for object_ in remote.names().values()}
        return any(re.fullmatch("[0-9a-f]{40}|[0-9a-f]{64}", row["source"]) and row["source"] not in ids for row in self.rows("mapping"))

    def are_twice(self, remote):
        """Whether a ref has two places or two specs of the call. FETCH_HEAD counts, and that of a followed tag."""
        rows = self.rows("mapping", "directory_conflict")
        places = {(row["source"], row["destination"]) for row in rows} | {(tag, tag) for tag in self.followed(remote)}
        asked = self.single(self.specs()) if self.given else []
        shown = [row for row in rows if row["origin"] == "given" and "*" not in row["spec"]]
        return len({source for source, _ in places}) < len(places) or len(shown) < len(asked)

    def kinds_of_prunings(self):
        """The kinds by which a pruning fetch deletes other refs than those that are said to be stale."""
        stale = {row["name"] for row in self.rows("stale")}
        deleted = set(self.before.refs) - set(self.done.refs)
        found = {self.kind_of_pruning(name) if name in deleted else None for name in stale ^ deleted}
        return None if None in found else [one for one in KINDS if one in found]

    def kind_of_pruning(self, name):
        """Why Git deletes a ref that isn't said to be stale."""
        sides = self.single(self.specs())
        partial = [far for source, far in sides if far and not (source.startswith("refs/") and far.startswith("refs/"))]
        if any(name.endswith(far) for far in partial):
            return PARTIAL
        return EXCLUDED if any(far == name for _, far in sides) and any(spec.startswith("^") for spec in self.specs()) else None

    def remotes(self):
        """The repositories that may be the remote: this one too if a branch pulls from it."""
        return self.world.remotes + [self.world.here] * any(line.endswith(".remote=.") for line in self.world.lines)

    def values(self, pattern):
        """The values of the settings whose key matches a regular expression."""
        printed = self.world.run("git", "config", "-z", "--get-regexp", pattern).stdout.decode()
        return [entry.partition("\n")[2] for entry in printed.split("\0")[:-1]]

    def specs(self):
        """The specs of the call, or else the fetch values of all remotes."""
        given = re.sub(r"(?<!\S)tag (\S+)", r"refs/tags/\1:refs/tags/\1", " ".join(self.given)).split()
        return given or self.values(r"^remote\..*\.fetch$")

    def single(self, specs):
        """The sides of those without a star that aren't negative."""
        return [spec.lstrip("+").rpartition(":")[::2] for spec in specs if "*" not in spec and not spec.startswith("^")]

    def prunings(self):
        """Whether the fetch prunes: what is configured is left to Git."""
        return [True] if "--prune" in self.world.call else [False] if "--no-prune" in self.world.call else [False, True]

    def kinds_by(self, remote, prunes):
        """The kinds if this is the remote."""
        names, updates, heads = remote.names(), {}, set()
        alone = self.left_alone()
        for row in self.rows("mapping", "directory_conflict"):
            if row["origin"] == "configured" and row["source"] in alone or self.is_unlisted_merge(row, remote):
                continue
            source, far = row["source"], row["destination"]
            id_ = self.world.id_of(remote, names[source]) if source in names else source
            if not (self.given and row["origin"] == "configured"):
                heads.add(id_)
            if far:
                updates[far] = (id_, row["spec"])
        expected = dict(self.before.refs)
        for row in self.rows("stale") if prunes else []:
            expected.pop(row["name"], None)
        tags = self.followed(remote, {name for name in self.before.refs if name not in expected})
        found = {}
        for far, (id_, spec) in updates.items():
            target = expected.get(far, "").partition("-> ")[2]
            if self.is_rejected_as_shallow(remote, far):
                found[far] = SHALLOW
            elif target:
                found[far] = self.kind_of_symbolic(far, target, spec, expected)
                if target in updates and f"cannot lock ref '{target}': is at" in self.done.said:
                    found[target] = THROUGH_TWICE
            if found.get(far) not in (SHALLOW, LEFT_ALONE, DANGLING, THROUGH_TWICE, TAG_AS_BRANCH):
                expected[target or far] = id_
        for name in set(expected) | set(self.done.refs):
            if expected.get(name) != self.done.refs.get(name):
                found[name] = self.kind_of(remote, name, updates, tags)
        if None in found.values():
            return None
        kinds = [one for one in KINDS if one in found.values()]
        kinds += [one for one in self.kinds_of_tags(tags, updates) if one not in kinds]
        if remote.is_shallow and SHALLOW not in kinds and SHALLOW_ROOTS in self.done.said:
            kinds.append(SHALLOW)
        merged = self.short_merges(remote) & {id_ for id_, _ in self.done.heads} - heads
        kinds += [SHORT_MERGE] * (bool(merged) or any(self.is_unlisted_merge(row, remote) for row in self.rows("mapping")))
        return kinds if self.is_status(kinds) and self.are_heads(heads | merged, kinds, updates, tags) else None

    def is_no_commit(self, branch):
        """Whether Git refuses to write another object than a commit to a branch."""
        return re.search(f"non-commit object .* to branch '{re.escape(branch)}'", self.done.said) is not None

    def is_rejected_as_shallow(self, remote, far):
        """Whether the update isn't made: a tag that is rejected may be followed afterwards."""
        is_rejected = remote.is_shallow and f"rejected {far} {SHALLOW_ROOTS}" in self.done.said
        return is_rejected and self.done.refs.get(far) == self.before.refs.get(far)

    def left_alone(self):
        """The sources of a call all of whose destinations are symbolic refs that patterns leave alone: no configured spec applies to
        them then."""
        given = [row for row in self.rows("mapping") if row["origin"] == "given"]
        kept = {row["source"] for row in given
                if "*" not in row["spec"] or not self.before.refs.get(row["destination"], "").startswith("-> ")}
        return {row["source"] for row in given} - kept

    def is_unlisted_merge(self, row, remote):
        """Whether a partial name that the branch merges wasn't found, as its ref isn't listed."""
        name = remote.names().get(row["source"])
        is_partial = row["origin"] == "merge" and row["spec"] != row["source"] and name is not None
        return is_partial and self.world.id_of(remote, name) not in {id_ for id_, _ in self.done.heads}

    def kind_of_symbolic(self, far, target, spec, expected):
        """The kind by which a symbolic ref isn't updated itself."""
        single = self.single([*self.specs(), *self.values(r"^remote\..*\.fetch$")])
        if "*" in spec and not any(gitknown.full_name(place.encode()) == far.encode() for _, place in single):
            return LEFT_ALONE
        if target in self.before.refs and target not in expected:
            return DANGLING
        if f"cannot lock ref '{far}': is at" in self.done.said:
            return THROUGH_TWICE
        if self.is_no_commit(target):
            return TAG_AS_BRANCH
        return THROUGH_BOTH if "*" in spec else THROUGH

    def short_merges(self, remote):
        """The ids of the refs of which the current branch merges a partial name."""
        head = next(iter(self.world.here.all("worktree")), self.world.here.head()) or ""
        merges = self.values(rf"^branch\.{re.escape(head.removeprefix('refs/heads/'))}\.merge$")
        names = {name.encode(): object_ for name, object_ in remote.names().items()}
        partial = [merge.encode() for merge in merges if merge not in ("", "HEAD") and not merge.startswith("refs/")]
        found = [gitknown.first_name(merge, names) for merge in partial]
        return {self.world.id_of(remote, names[name]) for name in found if name is not None}

    def kinds_of_tags(self, tags, updates):
        """The kind by which a followed tag can't be written. A tag that was pruned before may be followed anew."""
        locked = [tag for tag in tags if f"cannot lock ref '{tag}'" in self.done.said]
        found = [one for one, names in ((REFUSED_TAG, self.before.refs), (TAG_BESIDE, updates))
                 if any(clash(tag, name) for tag in locked for name in names)][:1]
        targets = [self.before.refs.get(tag, "").partition("-> ")[2] for tag in tags]
        return found or [TAG_AS_BRANCH] * any(target and self.is_no_commit(target) for target in targets)

    def kind_of(self, remote, name, updates, tags):
        """The kind by which a ref isn't as expected."""
        was, is_ = self.before.refs.get(name), self.done.refs.get(name)
        if name not in updates and was and is_ is None:
            return self.kind_of_pruning(name)
        if name not in updates:
            through = [id_ for tag, id_ in tags.items() if self.before.refs.get(tag) == f"-> {name}"]
            return FOLLOWED if is_ == tags.get(name, "") else FOLLOWED_THROUGH if is_ in through else None
        id_, spec = updates[name]
        if is_ not in (was, None):
            return FOLLOWED_OVER if self.given and is_ == tags.get(name) else None
        if was and is_ is None:
            return DELETED_FIRST if any(row["name"] == name for row in self.rows("pruned")) else self.kind_of_pruning(name)
        if name == self.world.here.head() and "can't fetch into checked-out branch" in self.done.said:
            return HEAD_ASIDE
        others = {other for other in {**self.before.refs, **self.done.refs} if clash(name, other)}
        if others:
            return FOLDERS if others & set(updates) else TAG_BESIDE if others & set(tags) else FOLDER
        if name.startswith("refs/heads/") and id_ in self.tags(remote) and "non-commit object" in self.done.said:
            return TAG_AS_BRANCH
        if was and not spec.startswith("+"):
            return CLOBBERED if name.startswith("refs/tags/") else FORCED if "non-fast-forward" in self.done.said else None
        return None

    def tags(self, remote):
        return {self.world.id_of(remote, name) for name in remote.names().values() if name.startswith("tag:")}

    def followed(self, remote, pruned=frozenset()):
        """The tags of the remote that are missing here, or were pruned, with their ids, if a spec has a destination: they may be
        followed."""
        if not any(":" in spec and not spec.endswith(":") for spec in self.specs()):
            return {}
        return {name: self.world.id_of(remote, object_) for name, object_ in remote.names().items()
                if name.startswith("refs/tags/") and (name in pruned or not self.is_here(name))}

    def is_here(self, name):
        """Whether the ref was here before: a symbolic ref that points nowhere is none."""
        return (self.before.refs.get(name, "").partition("-> ")[2] or name) in self.before.refs

    def is_status(self, kinds):
        return self.done.status == int(bool(FAILING & set(kinds))) or bool(UNSURE & set(kinds))

    def are_heads(self, heads, kinds, updates, tags):
        """Whether FETCH_HEAD has these ids, besides those of followed tags, and but for what is left alone."""
        done = {id_ for id_, _ in self.done.heads}
        optional = {id_ for id_, _ in updates.values()} if {LEFT_ALONE, SHALLOW} & set(kinds) else set()
        optional |= heads if SHALLOW in kinds else set()
        followed = set(tags.values()) if FOLLOWING & set(kinds) else set()
        return heads - done <= optional and done - heads <= followed


def clash(one, other):
    return one.startswith(other + "/") or other.startswith(one + "/")
