"""Configurations of a remote, the advice of `git refspec check` on them, and what changes if it is taken."""
import collections
import json
import os
import random
import re
import sys
import tempfile

import gitknown  # beside this script, as the next four
import gitleft
import repositories
import trials
import warned

SOURCES = ["refs/heads/*"] * 4 + ["refs/tags/*"] * 2 + ["refs/heads/dev*", "refs/heads/topic/*", "refs/pull/*/head", "refs/*"]
SINGLE = ["refs/heads/main", "refs/heads/dev", "refs/heads/gone", "refs/heads/topic/a", "refs/tags/v1", "main", "dev", "HEAD",
          "tags/v1", "gone"]
ODD = ["heads/*:refs/x/*", "refs/heads/*:a/*", "refs/heads/.*:refs/x/*", "HEAD*:refs/x/*"]
PATTERNS = ["refs/x/*"] * 3 + ["refs/remotes/o/*"] * 4 + ["refs/tags/*", "refs/heads/*", "refs/x/y/*"]
PLACES = ["refs/x/main", "refs/x/dev", "refs/remotes/o/main", "refs/remotes/o/dev", "refs/x/gone", "refs/tags/v1", "side",
          "tags/v1"]
NEGATIVE = ["^refs/heads/dev", "^refs/heads/dev*", "^refs/heads/main", "^refs/heads/*", "^refs/tags/*", "^refs/tags/*-rc",
            "^main", "^dev*", "^refs/heads/wip/*", "^refs/heads/topic/*", "^refs/*", "^HEAD", "^refs/pull/*",
            "^refs/heads/gone"]
# Values of which one writes in the directory of one branch, and no other.
BELOW = [["refs/tags/v1:refs/x/y/v1", "^refs/heads/y/*"], ["refs/heads/dev2:refs/x/dev/a/b", "^refs/heads/dev/*"],
         ["+refs/pull/*/head:refs/x/y/*", "^refs/heads/y/*"], ["+refs/tags/*:refs/x/y/z/*", "^refs/heads/y/*"],
         ["refs/tags/v1:refs/x/main/v1"], ["+refs/pull/*/head:refs/x/dev/*"]]
REFS = ["refs/heads/main", "refs/heads/dev", "refs/heads/dev2", "refs/heads/topic/a", "refs/heads/v1", "refs/tags/v1",
        "refs/tags/v1-rc", "refs/tags/main", "refs/pull/7/head", "refs/heads/y", "refs/heads/gone"]
LOCAL = ["refs/x/main", "refs/x/dev", "refs/x/mine", "refs/x/gone", "refs/x/y/mine", "refs/remotes/o/old", "refs/remotes/o/dev",
         "refs/tags/mine", "refs/heads/mine", "refs/heads/side"]
FETCHED = ["main", "dev", "dev2", "refs/heads/topic/a", "tag v1", "v1", "HEAD", "refs/pull/7/head"]
# A configuration: the fetch values, and other settings.
Config = collections.namedtuple("Config", "values settings")
# A piece of advice: its warning, the configuration after it, and whether it announces what differs between two fetches.
Advice = collections.namedtuple("Advice", "warning config announces")
# The object of the refs here before a fetch.
OWN = "own"
NAMES = re.compile(r"refs/[^\s,*^:]*[^\s,*^:.]")
REMOVE = re.compile(r"\b[Rr]emove it\b")
ONLY_IF = re.compile(r"\b[Rr]emove it (only )?if ")
PLUS = re.compile(r"write `\+` before the earlier")
EXCLUDE = re.compile(r"(?:by|and) (\^\S+)")
EXCLUDE_FIRST = re.compile(r"Exclude the first source by \^(\S+)")
BOTH = re.compile(r"both sides in full: (\S+:\S+), if")
STOPPED = re.compile(r" \(git fetch from such a remote stops first, for want of \S+\)$")
WRITE = re.compile(r"[Ww]rite (\^?refs/\S*?)(?:,|\.|;|$| )")
SETTING = re.compile(r"git config (\S+) (?:'([^']*)'|(\S+))")


def value(random_):
    """A fetch value of a remote."""
    sign, kind = random_.choice(["", "+", "+"]), random_.random()
    if kind < 0.22:
        return random_.choice(NEGATIVE)
    if kind < 0.28:
        return random_.choice(ODD)
    if kind < 0.62:
        source = random_.choice(SOURCES)
        return sign + source + ":" + random_.choice([source, *PATTERNS])
    source = random_.choice(SINGLE)
    place = random_.choice([*PLACES, f"refs/x/{source.rpartition('/')[2]}"])
    return sign + source + (":" + place if random_.random() < 0.75 else "")


def configuration(random_):
    values = [random_.choice(["+refs/heads/*:refs/remotes/o/*", "+refs/heads/*:refs/x/*"])] * (random_.random() < 0.5)
    values += [value(random_) for _ in range(random_.choice([1, 2, 2, 3, 3]))]
    if random_.random() < 0.2:
        values.append(random_.choice(values))
    if random_.random() < 0.2:
        values += ["+refs/heads/*:refs/x/*", *random_.choice(BELOW)]
    if random_.random() < 0.3:
        random_.shuffle(values)
    settings = [setting for setting, chance in (
        ("remote.o.tagOpt=--tags", 0.12), ("remote.o.tagOpt=--no-tags", 0.05), ("remote.o.prune=true", 0.15),
        ("fetch.pruneTags=true", 0.08),
        ("branch.main.merge=refs/heads/dev", 0.10), ("branch.main.merge=refs/heads/main", 0.10)) if random_.random() < chance]
    return Config(values, settings + ["branch.main.remote=o"] * any("merge" in one for one in settings))


def lines_of(config):
    return [f"here config remote.o.fetch={one}" for one in config.values] + [f"here config {one}" for one in config.settings]


def covers(pattern, name):
    return pattern == name or "*" in pattern and gitknown.word_of(pattern.encode(), name.encode()) is not None


# What is announced of a fetch by such words from a remote with these refs: that nothing changes, that refs are kept which were
# deleted, what becomes of certain refs of the remote, or what a message says of a value that does nothing else.

def nothing(*_):
    return False


def keeps_more(_words, refs, before, after):
    """Refs are kept, and what isn't written would be above or below one of them; nor are then the tags that come last."""
    kept, lost = set(after.refs) - set(before.refs), set(before.refs) - set(after.refs)
    stopped = {one for one in lost if any(gitleft.clash(one, other) for other in kept)}
    is_worse = after.status > before.status
    is_status = not is_worse or bool(stopped) and after.status == 1
    return is_status and all(is_worse and one.startswith("refs/tags/") and one in refs for one in lost - stopped)


def about(*sources):
    def announces(words, refs, before, after):
        return keeps_more(words, refs, before, after) or any(covers(one, name) for one in sources for name in [*refs, "HEAD"])
    return announces


def dropped(values, name):
    """What differs by a ref that is no longer fetched: where it would be written, and what is in the way of that; a line of
    FETCH_HEAD; all that a fetch does which died before, and the tags that Git follows only after it has written all else."""
    def announces(words, refs, before, after):
        if name not in [*refs, "HEAD"]:
            return keeps_more(words, refs, before, after)
        if before.said:
            is_still = bool(after.said) and not changed(before, after)
            return is_still and after.said == before.said or "Cannot fetch both" in before.said[0] and (is_still or not after.said)
        is_mended = after.status < before.status
        followed = [one for one in refs if one.startswith("refs/tags/") and (is_mended or one == name)]
        places = {*destinations(values, name, refs), *followed}
        is_near = all(any(one == place or gitleft.clash(one, place) for place in places) for one in changed(before, after))
        lost, gained = before.heads - after.heads, after.heads - before.heads
        return after.status <= before.status and is_near and len(lost) < 2 and (is_mended or not gained)
    return announces


def destinations(values, name, refs):
    """Where positive values write a ref of a remote."""
    names = {one.encode() for one in [*refs, "HEAD"]}
    for spec in filter(gitknown.is_positive, (gitknown.split(one.encode()) for one in values)):
        if b"*" in spec.source:
            word = gitknown.word_of(spec.source, name.encode())
            found = None if word is None else gitknown.filled(spec.destination, word)
        else:
            is_source = name.encode() in (spec.source, gitknown.first_name(spec.source, names))
            found = gitknown.full_name(spec.destination) if is_source else None
        if found:
            yield found.decode()


def in_full(source, full):
    """Besides that less is pruned, what differs where the remote's ref of a partial name is another one."""
    def announces(words, refs, before, after):
        found = gitknown.first_name(source.encode(), {name.encode() for name in [*refs, "HEAD"]})
        return found != full.encode() or keeps_more(words, refs, before, after)
    return announces


def in_full_or_told(warning, text):
    """What differs where the remote's ref of a partial name is another one, and what the message says."""
    source, partial = (gitknown.split(one.encode()).source.decode() for one in (text, warning["specs"][0]["text"]))
    is_other, is_told = in_full(partial, source), as_told(warning["message"])
    return lambda *fetch: is_other(*fetch) or is_told(*fetch)


def stronger(_words, _refs, before, after):
    """What is forced now changes values of refs."""
    return before.said == after.said and set(before.refs) == set(after.refs)


def changed(before, after):
    return {name for name in {**before.refs, **after.refs} if before.refs.get(name) != after.refs.get(name)}


def prunes_others(before, after):
    """Whether refs differ, and after one of both fetches each is gone or as it was. The other may write it again."""
    names = changed(before, after)
    return bool(names) and all({OWN, None} & {before.refs.get(name), after.refs.get(name)} for name in names)


# By what a message says: whether it is about what differs.
TOLD = {
    "stops each fetch": lambda words, before, after: any("couldn't find remote ref" in line for line in before.said),
    "still writes": lambda words, before, after: words[0] != "--prune",
    "ags are followed": lambda words, before, after: all(name.startswith("refs/tags/") for name in changed(before, after)),
    "followed only because of it": lambda words, before, after: all(name.startswith("refs/tags/") for name in changed(before, after)),
    "--prune": lambda words, before, after: words[0] == "--prune" and prunes_others(before, after),
    "git pull": lambda words, before, after: not changed(before, after),
    "fetches HEAD": lambda words, before, after: True,
}


def as_told(message):
    told = [is_told for text, is_told in TOLD.items() if text in message]
    return lambda words, _refs, before, after: any(is_told(words, before, after) for is_told in told)


def place_of(values, text, rank):
    """The place of a value in the list; of equal values that of this rank, or the last one."""
    places = [place for place, one in enumerate(values) if one == text]
    return places[rank if 0 <= rank < len(places) else -1]


def ranked(warnings):
    """The warnings, each with the number of earlier ones of its name on equal values."""
    earlier = collections.Counter()
    for warning in warnings:
        key = (warning["name"], *(spec["text"] for spec in warning["specs"]))
        yield warning, earlier[key]
        earlier[key] += 1


def pieces(config, warning, rank):
    """The ways to take the advice of a warning on the value of this rank among equal ones."""
    values, texts, advice = config.values, [spec["text"] for spec in warning["specs"]], warning["advice"]
    for key, quoted, plain in SETTING.findall(advice):
        is_pruning = warning["name"].startswith("prunes_")
        made = config._replace(settings=[*config.settings, f"{key}={quoted or plain}"])
        yield Advice(warning, made, keeps_more if is_pruning else lambda *_: True)
    if not texts or any(text not in values for text in texts) or warning["name"].startswith("prunes_"):
        return
    place = place_of(values, texts[0], -1 if warning["name"] == "idle_duplicate" else rank)
    if REMOVE.search(advice):
        yield removal(config, warning, place)
    if added := EXCLUDE.findall(advice):
        first = EXCLUDE_FIRST.fullmatch(advice)
        announces = dropped(values, first[1]) if first else about(*(one[1:] for one in added))
        yield Advice(warning, config._replace(values=[*values, *added]), announces)
    for text in BOTH.findall(advice):
        yield Advice(warning, config._replace(values=[*values[:place], text, *values[place + 1:]]), in_full_or_told(warning, text))
    for written in WRITE.findall(advice):
        spec = gitknown.split(texts[0].encode())
        is_far = warning["name"] == "destination_outside_refs"
        sign, source, far = (part.decode() for part in spec)
        source, far = (source, written) if is_far else (written.lstrip("^"), far)
        text = sign + source + (":" + far if far else "")
        is_announced = (as_told(warning["message"]) if is_far else in_full(spec.source.decode(), source) if warning["name"] == "partial_source"
                        else about(spec.source.decode(), source))
        yield Advice(warning, config._replace(values=[*values[:place], text, *values[place + 1:]]), is_announced)


def removal(config, warning, place):
    """The advice to remove a value."""
    fewer = [*config.values[:place], *config.values[place + 1:]]
    if not PLUS.search(warning["advice"]):
        announces = as_told(warning["message"]) if ONLY_IF.search(warning["advice"]) else nothing
        return Advice(warning, config._replace(values=fewer), announces)
    earlier = warning["specs"][1]["text"]
    at = place_of(fewer, earlier, 0)
    fewer[at] = "+" + earlier.lstrip("+")
    return Advice(warning, config._replace(values=fewer), stronger)


def own_refs(values):
    """Local refs that the values may prune, also from what they exclude."""
    specs = [gitknown.split(one.encode()) for one in values]
    excluded = [spec.source.replace(b"*", b"x") for spec in specs if not gitknown.is_positive(spec)]
    found = []
    for spec in filter(gitknown.is_positive, specs):
        words = [gitknown.word_of(spec.source, name) for name in excluded] if b"*" in spec.source else []
        found += [gitknown.filled(spec.destination, word) for word in [*words, b"old"] if word is not None]
    return [name.decode() for name in found if name.startswith(b"refs/") and gitknown.is_ref_name(name)]


def taken_by(values, names):
    """Each value that names its source, with the ref that it takes."""
    there = {name.encode() for name in names}
    found = ((one, gitknown.first_name(gitknown.split(one.encode()).source, there)) for one in values if "*" not in one)
    return {(one, name) for one, name in found if name}


def without_clashes(names):
    """The names without those that can't both be refs with an earlier one."""
    kept = []
    for one in names:
        if not any(one == other or gitleft.clash(one, other) for other in kept):
            kept.append(one)
    return kept


def with_required(values, names):
    """These names, and a ref for each value that names its source and finds none, if a remote can have that too and these names are
    still what the values take."""
    kept = list(names)
    for source in (gitknown.split(one.encode()).source.decode() for one in values if "*" not in one and not one.startswith("^")):
        if gitknown.first_name(source.encode(), {name.encode() for name in kept}):
            continue
        found = (one for one in places_of(source) if without_clashes([*kept, one])[-1] == one
                 and not taken_by(values, names) - taken_by(values, [*kept, one]))
        kept += [one for one in [next(found, None)] if one]
    return kept


def places_of(source):
    """Refs of a remote that a source without a star may mean."""
    if source == "HEAD":
        return ["refs/heads/main", "refs/tags/HEAD"]
    if source.startswith("refs/"):
        return [source]
    return ["refs/" + folder + source for folder in ([""] if source.startswith("tags/") else []) + ["heads/", "tags/", "remotes/"]]


class Advised:
    """A folder for repositories, and a program."""

    def __init__(self, folder, program):
        self.folder, self.program = folder, program
        self.stores = repositories.stores_in(folder)

    def world(self, folder, lines):
        return repositories.World(folder, lines, self.stores)

    def warnings(self, config):
        """The warnings on a configuration, or `None` if it is refused."""
        with tempfile.TemporaryDirectory(dir=self.folder) as folder:
            world = self.world(folder, ["here config remote.o.url=<o>", "o head refs/heads/main", *lines_of(config)])
            made = world.run(trials.SCRIPT, "check", "--json", "o", GIT_REFSPEC_PROGRAM=self.program)
        rows = [json.loads(line) for line in (made.stdout + made.stderr).decode().splitlines() if line.startswith("{")]
        if made.returncode not in (0, 1):
            sys.exit(f"git refspec check: {config}: status {made.returncode}, {made.stderr!r}")
        return None if any(row["kind"] == "refused" for row in rows) else [row for row in rows if row["kind"] == "warning"]

    def remotes(self, random_, warning):
        """Lists of refs: of remotes that differ."""
        spoken = NAMES.findall(warning["message"] + " " + warning["advice"])
        spoken = [name for name in spoken if name[:13] != "refs/remotes/" and gitknown.is_ref_name(name.encode())]
        some = random_.sample(REFS[:-1], random_.randint(2, 7))
        found = [REFS, REFS[:-1], some, without_clashes(["refs/heads/main", *some[:2], *spoken]), without_clashes(spoken)]
        return [list(one) for one in dict.fromkeys(tuple(sorted(set(one))) for one in found if one)]

    def done(self, config, refs, local, words):
        """What a fetch does by a configuration, with these refs of the remote and here."""
        with tempfile.TemporaryDirectory(dir=self.folder) as folder:
            lines = [f"o ref {name}" for name in refs] + [f"here object {name}" for name in REFS + refs]
            lines += [f"here ref {name} {OWN}" for name in local]
            lines += ["here config remote.o.url=<o>", "here bare", *lines_of(config)]
            made = self.world(folder, lines).fetch(*words)
        failure = [line for line in made.said.splitlines() if line.startswith("fatal: ")][:1]
        # an object that is fetched twice is merged if one of both is
        own = self.stores["sha1"].id_of(OWN)
        refs = {name: OWN if id_ == own else id_ for name, id_ in made.refs.items()}
        return made._replace(said=failure, refs=refs, heads={(id_, (id_, True) in made.heads) for id_, _ in made.heads})

    def fetches(self, random_, warning, refs):
        """The words of fetches that may show a difference."""
        if warning["name"].startswith("prunes_"):
            return [["o"]]
        source = gitknown.split(warning["specs"][0]["text"].encode()).source.decode() if warning["specs"] else ""
        taken = [name.removeprefix("refs/heads/") for name in refs if covers(source, name)]
        given = [random_.choice(some) for some in (taken, FETCHED) if some]
        return [["--prune", "o"], *(["o", *one.split()] for one in given)]

    def differences(self, random_, config, advice):
        """The refs and words for which the advice changes something that it doesn't announce, with both results."""
        local = without_clashes([*own_refs(config.values), *LOCAL])
        for refs in self.remotes(random_, advice.warning):
            for words in self.fetches(random_, advice.warning, refs):
                before, after = self.done(config, refs, local, words), self.done(advice.config, refs, local, words)
                if before != after and not advice.announces(words, refs, before, after):
                    return refs, words, before, after
        return None

    def unshown(self, config, warning, warnings):
        """The refs of a warning's example, and what a fetch does with them, if that isn't what the message says."""
        if warning["name"] not in ("possible_conflict", "directory_conflict"):
            return None
        is_conflict = warning["name"] == "possible_conflict"
        example = (warned.EXAMPLE if is_conflict else warned.NESTED).fullmatch(warning["message"])
        if not example:
            return None if '"' in warning["message"] else ["a message without its example"]
        one, other, *written = example.groups()
        # a remote has HEAD here, so the value `HEAD` takes no other ref of that name, as one without it would
        names = [name for name in (one, other) if name]
        if any(name.endswith("/HEAD") for name in names):
            return None
        done = self.done(config, with_required(config.values, names), [], ["o"])
        # a remote with the example may lack what a value requires, and Git misses that first
        is_stopped = any("couldn't find remote ref" in line for line in done.said)
        if is_stopped or STOPPED.search(warning["advice"]):
            return None if is_stopped and STOPPED.search(warning["advice"]) else (names, ["o"], done, done)
        # Git names one conflict: this one, another of two values, or one with a tag that is followed
        both = [line for line in done.said if "Cannot fetch both" in line]
        if is_conflict:
            has_others = sum(one["name"] == "possible_conflict" for one in warnings) > 1
            is_so = any(has_others or line.endswith(" to " + written[0]) or " to refs/tags/" in line for line in both)
        else:
            is_so = bool(both) or done.status == 1 and len(set(written) & set(done.refs)) == 1
        return None if is_so else (names, ["o"], done, done)

    def left_warnings(self, config, advice):
        """The warnings that are left: this one, after an exclusion that a spec does nothing which did something, or that a value is
        refused."""
        def told(rows):
            return {(row["name"], *(spec["text"] for spec in row["specs"])) for row in rows}
        rows, mine = self.warnings(advice.config), told([advice.warning])
        if rows is None:
            return ["refused"]
        is_exclusion = EXCLUDE.search(advice.warning["advice"])
        earlier = self.warnings(config)
        idle = {one[1] for one in told(earlier) if one[0].startswith("idle_")}
        new = {one for one in told(rows) - told(earlier) if one[1:2] and one[1] not in idle} if is_exclusion else set()
        count = sum(told([row]) == mine for row in earlier)
        is_left = sum(told([row]) == mine for row in rows) >= count
        return sorted([one for one in new if one[0].startswith("idle_")] + [one for one in mine if is_left])

    def of_number(self, seed, number):
        """The warnings on a configuration, the pieces of advice, and those that change more than they say, with what."""
        random_ = random.Random(f"{seed} {number}")
        config = configuration(random_)
        warnings = self.warnings(config)
        if warnings is None:
            return number, config, [], [], []
        taken = [advice for warning, rank in ranked(warnings) for advice in pieces(config, warning, rank)]
        found = [(advice, self.differences(random_, config, advice) or self.left_warnings(config, advice)) for advice in taken]
        found += [(Advice(warning, config, nothing), self.unshown(config, warning, warnings)) for warning in warnings]
        return number, config, warnings, taken, [one for one in found if one[1]]
