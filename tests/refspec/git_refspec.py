#!/usr/bin/env python3
"""Tries `git refspec`: tests/refspec/git_refspec.py [--record | --stored] PROGRAM

Replays the calls of samples/git-refspec.sample in repositories that are made here, each in a UTF-8 locale and in C. Compares
what `git refspec plan` and `git refspec stale` say with what `git fetch --dry-run`, `git fetch` and `git fetch --prune` do.
Runs the synopses and the examples of the manual page, looks at the line that a terminal gets after two seconds, and completes
words in bash, zsh and fish, if they are there. With --record the answers are put into the sample, to be read before they are
committed; with --stored the sample is replayed, and no more.

PROGRAM is the built program refspec. Left out where there is no Git.
"""
import concurrent.futures
import difflib
import json
import os
import re
import resource
import shutil
import subprocess
import sys
import tempfile
from pathlib import Path

sys.path.insert(0, str(Path(__file__).resolve().parents[1]))
from helpers import ROOT, add_path, parser, programs, repositories, samples, scripted, stop

SCRIPT = ROOT / "bin" / "git-refspec"
LOCALES = ("C.UTF-8", "C")
BRANCHES = 5_000
# Branches beside these: with quotes, bytes of UTF-8, and below folders.
ODD = ["main", 'quo"te', "tab-less", "b/c/d", "\u00e9t\u00e9", "wip/a", "wip/b"]
# The fetch values of a remote.
PLANS = [
    ["+refs/heads/*:refs/remotes/origin/*"],
    ["+refs/heads/*:refs/remotes/origin/*", "^refs/heads/wip/*"],
    ["+refs/heads/main:refs/remotes/origin/main", "+refs/tags/*:refs/tags/*"],
    ["refs/heads/b/*:refs/x/*", "main:refs/y/main"],
]
BRANCH_VALUES = ["+refs/heads/*:refs/remotes/origin/*"]
MERGE = {"branch.main.remote": "origin", "branch.main.merge": "refs/heads/main"}
# The fetch values of a remote, other settings, and the words of a fetch from it.
FETCHES = [
    (BRANCH_VALUES, {}, ["main"]),
    (BRANCH_VALUES, {}, ["main", "wip/a", "wip/b", "^refs/heads/wip/a"]),
    ([*BRANCH_VALUES, "^refs/heads/main"], {}, ["main"]),
    ([*BRANCH_VALUES, "^refs/heads/main"], MERGE, []),
    (BRANCH_VALUES, {}, ["main:refs/remotes/origin/wip/a", "wip/a"]),
    (BRANCH_VALUES, {}, ["--refmap=refs/heads/*:refs/y/*", "main"]),
    (BRANCH_VALUES, {}, ["--refmap=", "main"]),
    (BRANCH_VALUES, {}, ["nosuch", "main"]),
    (BRANCH_VALUES, {}, ["refs/heads/main:refs/x/y", "refs/heads/wip/a:refs/x/y"]),
    (["+refs/heads/main:refs/x/y", "+refs/heads/wip/a:refs/x/y"], {}, ["main", "wip/a"]),
    (["+refs/heads/nosuch:refs/x/y"], {}, ["main"]),
    (["+refs/heads/nosuch:refs/x/y"], {}, []),
    (BRANCH_VALUES, {"remote.origin.tagOpt": "--tags"}, ["main"]),
    (BRANCH_VALUES, {"remote.origin.tagOpt": "--TAGS"}, []),
    (BRANCH_VALUES, {"remote.origin.pruneTags": "true"}, []),
    (BRANCH_VALUES, {"fetch.pruneTags": "1"}, ["main"]),
    (BRANCH_VALUES, {"fetch.pruneTags": "true", "remote.origin.pruneTags": "off"}, []),
    (["+refs/heads/wip/*:refs/remotes/origin/wip/*"], MERGE, []),
    (["+refs/heads/wip/*:refs/remotes/origin/wip/*"], {**MERGE, "branch.main.merge": "main"}, []),
    (["+refs/heads/wip/*:refs/remotes/origin/wip/*"], {**MERGE, "branch.main.merge": "refs/heads/nosuch"}, []),
    ([], MERGE, []),
    ([], {}, []),
    (BRANCH_VALUES, {}, ["main:heads/x", "wip/a:tags/x", "wip/b:remotes/x", "b/c/d:x"]),
    (BRANCH_VALUES, {}, ["refs/heads/*:x/*"]),
]
ALL_BUT_WIP = [*BRANCH_VALUES, "^refs/heads/wip/*"]
GONE, WIP = "refs/remotes/origin/gone", "refs/remotes/origin/wip/gone"
# The fetch values of a remote, other settings, the specs of a fetch, refs here, and those of them that a pruning fetch deletes.
PRUNED = [
    (BRANCH_VALUES, {}, [], [GONE, "refs/remotes/origin/main", "refs/heads/mine"], {GONE}),
    (ALL_BUT_WIP, {}, [], [GONE, WIP], {GONE}),
    ([*BRANCH_VALUES, "+refs/tags/*:refs/remotes/origin/*"], {}, [], ["refs/remotes/origin/noted", GONE], {GONE}),
    (["+refs/tags/*:refs/tags/*"], {}, [], ["refs/tags/mine", GONE], {"refs/tags/mine"}),
    (BRANCH_VALUES, {"fetch.pruneTags": "true"}, [], ["refs/tags/mine", GONE], {"refs/tags/mine", GONE}),
    (BRANCH_VALUES, {"fetch.pruneTags": "true"}, ["main"], ["refs/tags/mine", GONE], set()),
    (BRANCH_VALUES, {}, ["refs/heads/wip/*:refs/y/*"], [GONE, "refs/y/gone"], {"refs/y/gone"}),
    (BRANCH_VALUES, {}, ["refs/heads/*:refs/y/*", "^refs/heads/wip/*"], [GONE, "refs/y/gone", "refs/y/wip/gone"], {"refs/y/gone"}),
    (["+refs/heads/gone:refs/remotes/origin/gone"], {}, [], [GONE], set()),
    ([*BRANCH_VALUES, "+refs/heads/gone:refs/x/gone"], {}, [], [GONE, "refs/x/gone"], set()),
    ([*BRANCH_VALUES, "+refs/tags/noted:refs/remotes/origin/main"], {}, [], [GONE], set()),
]
# The fetch values of the remotes of branches.
REMOTE_VALUES = {
    "origin": ["+refs/heads/*:refs/remotes/origin/*", "^refs/heads/wip/*"],
    "mirror": ["+refs/heads/*:refs/heads/*", "^refs/heads/x"],
    "few": ["refs/heads/main:refs/x/main", "refs/heads/other", "dev:refs/x/dev", "refs/heads/*:refs/y/*"],
    "out": ["+refs/heads/main:refs/z/main", "^refs/heads/main"],
    "none": [],
}
# The values of branch.NAME.remote and branch.NAME.merge of branches, whose upstreams Git has to find as they are listed.
BRANCHES_OF = [
    (["origin"], ["refs/heads/main"]), (["origin"], ["refs/heads/wip/a"]), (["origin"], ["main"]), (["origin"], ["refs/tags/v1"]),
    (["origin"], ["refs/heads/b", "refs/heads/c"]), (["none", "origin"], ["refs/heads/main"]), (["origin", "none"], ["refs/heads/main"]),
    (["mirror"], ["refs/heads/x"]), (["mirror"], ["refs/heads/z"]), (["few"], ["refs/heads/main"]), (["few"], ["refs/heads/other"]),
    (["few"], ["refs/heads/dev"]), (["few"], ["dev"]), (["out"], ["refs/heads/main"]), (["nosuch"], ["refs/heads/main"]),
    (["https://h/x"], ["refs/heads/main"]), ([], ["refs/heads/main"]), (["origin"], []), (["origin"], [""]), ([""], ["refs/heads/main"]),
    (["."], ["refs/heads/here"]), (["."], ["refs/heads/nosuch"]), (["."], ["refs/tags/t"]), (["."], ["nosuch"]),
]
# What FETCH_HEAD calls a ref.
KINDS = ((b"branch '", b"refs/heads/"), (b"tag '", b"refs/tags/"), (b"remote-tracking branch '", b"refs/remotes/"), (b"'", b""))
# A line of a dry run: what becomes of a ref, its name on the remote and the one here, both without the usual folders.
TOLD = re.compile(rb" [ +*] (?:\[.*?\]|\S+) +(\S+) +-> (\S+)")
USUAL = re.compile(rb"^refs/(heads|tags|remotes)/")


def environment(program, locale="C"):
    return repositories.variables(SCRIPT.parent, locale=locale, GIT_REFSPEC_PROGRAM=str(program), GIT_ADVICE="0")


def shell(command, folder, variables):
    return subprocess.run(["sh", "-c", command], cwd=folder, env=variables, stdin=subprocess.DEVNULL, capture_output=True,
                          timeout=50, check=False)


def make_remote(path, variables):
    """The repository that the parts of the sample find beside their folders."""
    made = shell(f"""set -e; git init -q -b main '{path}'; cd '{path}'; git commit -q --allow-empty -m one; git branch dev
        git branch topic/a; git tag -a -m note v1; git tag v2; git pack-refs --all; rm -rf .git/hooks .git/logs""", None, variables)
    if made.returncode:
        stop(f"no remote: {made.stderr!r}")


class Sample(samples.Blocks):
    """The parts of the sample, as lists of lines."""

    def __init__(self, program, remote):
        super().__init__("git-refspec.sample")
        self.program, self.remote = program, remote

    def parts(self):
        return [number for number, block in enumerate(self.blocks) if block[0].startswith(b"= ")]

    def calls(self, number):
        """The commands of a part, each with its mark and the lines of its answer."""
        calls = []
        for line in self.blocks[number][1:]:
            if line[:2] in (b"+ ", b"$ "):
                calls.append([line, []])
            else:
                calls[-1][1].append(line)
        return calls

    def replay(self, number, locale):
        """The lines of a part as they are answered now."""
        variables = environment(self.program, locale)
        lines = [self.blocks[number][0]]
        with tempfile.TemporaryDirectory() as folder:
            here = Path(folder) / "here"
            here.mkdir()
            shutil.copytree(self.remote, Path(folder) / "remote")
            for call, _ in self.calls(number):
                made = shell(os.fsdecode(call[2:]), here, variables)
                if call.startswith(b"+"):
                    if made.returncode:
                        stop(f"{call!r}: status {made.returncode}: {made.stderr!r}")
                    lines.append(call)
                    continue
                if call.startswith(b"$ git refspec") and b"--json" in call and b"|" not in call:
                    self.check_json(call, made.stdout)
                lines += [call, *marked(b">", made.stdout, folder), *marked(b"!", made.stderr, folder)]
                lines += [b"? %d" % made.returncode] if made.returncode else []
        return lines

    @staticmethod
    def check_json(call, output):
        for line in output.splitlines():
            if "kind" not in json.loads(line):
                stop(f"{call!r}: an object without a kind: {line!r}")

    def replay_all(self, record):
        parts = self.parts()
        with concurrent.futures.ThreadPoolExecutor(os.cpu_count()) as pool:
            runs = {(number, locale): pool.submit(self.replay, number, locale) for number in parts for locale in LOCALES}
        wrong = 0
        for (number, locale), run in runs.items():
            lines = run.result()
            if record and locale == LOCALES[0]:
                self.blocks[number] = lines
            elif lines != self.blocks[number]:
                wrong += 1
                print(f"git-refspec: in {locale}:", file=sys.stderr)
                show_difference(self.blocks[number], lines)
        if record:
            self.write()
        if wrong:
            stop(f"{wrong} parts of the sample are answered otherwise")
        return sum(len([call for call, _ in self.calls(number) if call.startswith(b"$")]) for number in parts)


def marked(mark, text, folder):
    """The lines of an answer, each after a mark, with the folder of the part left out of paths."""
    text = text.replace(os.fsencode(os.path.realpath(folder)), b"").replace(os.fsencode(folder), b"")
    lines = text.split(b"\n")
    if lines[-1] == b"":
        lines.pop()
    return [mark + b" " + line if line else mark for line in lines]


def show_difference(wanted, found):
    texts = ([ascii(line)[2:-1] for line in lines] for lines in (wanted, found))
    print("\n".join(difflib.unified_diff(*texts, "wanted", "found", lineterm="")), file=sys.stderr)


class Repositories:
    """A remote with many refs, and local repositories that know it as `origin`."""

    def __init__(self, folder, program):
        self.folder, self.environment = Path(folder), environment(program)
        self.remote = self.folder / "remote"
        subprocess.run(["git", "init", "-q", "-b", "main", self.remote], env=self.environment, check=True)
        self.git(self.remote, "commit", "-q", "--allow-empty", "-m", "one")
        commit = self.git(self.remote, "rev-parse", "HEAD").decode().strip()
        names = [f"refs/heads/topic/{number}" for number in range(BRANCHES)] + [f"refs/heads/{name}" for name in ODD[1:]]
        lines = "".join(f"create {name}\0{commit}\0" for name in names)
        subprocess.run(["git", "-C", self.remote, "update-ref", "-z", "--stdin"], input=lines.encode(),
                       env=self.environment, check=True)
        self.git(self.remote, "tag", "light")
        self.git(self.remote, "tag", "-a", "-m", "note", "noted")
        self.git(self.remote, "pack-refs", "--all")

    def run(self, folder, *words):
        return repositories.run(folder, ["git", *words], self.environment)

    def git(self, folder, *words, status=0):
        return repositories.git(folder, self.environment, *words, status=status)

    def local(self, name, specs, settings=()):
        """A new local repository whose remote has these fetch values, with these settings."""
        path = self.folder / name
        subprocess.run(["git", "init", "-q", "-b", "main", path], env=self.environment, check=True)
        self.git(path, "config", "remote.origin.url", str(self.remote))
        self.git(path, "config", "remote.origin.tagOpt", "--no-tags")
        for spec in specs:
            self.git(path, "config", "--add", "remote.origin.fetch", spec)
        for key, value in dict(settings).items():
            self.git(path, "config", "--add", key, value)
        return path

    def compare(self, path, specs):
        """What is planned is what a dry run tells and what Git writes. Returns how many refs that are."""
        fields = self.git(path, "refspec", "plan", "-z").split(b"\0")[:-1]
        theirs = dict(reversed(line.split(b"\t")) for line in self.git(path, "ls-remote", "origin").splitlines())
        ours = self.refs(path)
        # A dry run tells changes alone.
        changes = {(USUAL.sub(b"", source), USUAL.sub(b"", name)) for source, name in zip(fields[::4], fields[1::4])
                   if theirs.get(source, b"") != ours.get(name)}
        dry = self.run(path, "-c", "fetch.output=full", "fetch", "--dry-run")
        rows = [TOLD.fullmatch(line) for line in dry.stderr.splitlines() if line[:1] == b" "]
        if dry.returncode != 0 or None in rows:
            stop(f"{specs}: a dry run: status {dry.returncode}: {dry.stderr[-500:]!r}")
        self.differ(specs, "a dry run", changes, {row.groups() for row in rows})
        self.git(path, "fetch", "-q")
        written = self.refs(path)
        self.differ(specs, "a fetch", {(name, theirs.get(source, b"")) for source, name in zip(fields[::4], fields[1::4])},
                    set(written.items()))
        return len(written)

    def fetch(self, path, words):
        """What is planned of a call is what it writes; it fails where the plan says so, and then nothing is written."""
        options = [word for word in words if word.startswith("--")]
        specs = [word for word in words if not word.startswith("--")]
        planned = self.run(path, "refspec", "plan", "-z", *options, "origin", *specs)
        fields = planned.stdout.split(b"\0")[:-1]
        theirs = dict(reversed(line.split(b"\t")) for line in self.git(path, "ls-remote", "origin").splitlines())
        made = self.run(path, "fetch", "-q", *options, "origin", *specs)
        is_refused = b"missing: " in planned.stderr or b"conflict: " in planned.stderr
        if is_refused != (made.returncode != 0):
            stop(f"{words}: the plan and a fetch: {planned.stderr!r}, {made.stderr!r}")
        self.differ(words, "a fetch", {(name, theirs[source]) for source, name in zip(fields[::4], fields[1::4]) if name},
                    set(self.refs(path).items()))
        # Values that are applied to what given specs take aren't in FETCH_HEAD.
        beside = b"configured" if specs else b""
        self.differ(words, "FETCH_HEAD", {source for source, origin in zip(fields[::4], fields[3::4]) if origin != beside},
                    set() if is_refused else self.fetched(path))

    @staticmethod
    def fetched(path):
        """The refs that FETCH_HEAD has."""
        notes = [line.split(b"\t", 2)[2] for line in (path / ".git" / "FETCH_HEAD").read_bytes().splitlines(keepends=True)]
        names = set()
        for note in notes:
            kinds = [(kind, folder) for kind, folder in KINDS if note.startswith(kind)]
            names |= {folder + note[len(kind):].split(b"' of ")[0] for kind, folder in kinds[:1]} or {b"HEAD"}
        return names

    def prune(self, path, specs, names, stale):
        """What `stale` lists, and a plan too, is what a pruning fetch deletes."""
        self.git(path, "fetch", "-q", "origin", "refs/heads/main:refs/kept")
        for name in names:
            self.git(path, "update-ref", name, "refs/kept")
        self.git(path, "symbolic-ref", "refs/remotes/origin/symbolic", "refs/kept")
        listed = self.run(path, "refspec", "stale", "-z", "origin", *specs)
        told = set(listed.stdout.split(b"\0")[:-1])
        planned = self.run(path, "refspec", "plan", "-z", "--prune", "origin", *specs)
        fields = planned.stdout.split(b"\0")[:-1]
        self.differ(names, "a plan", {name for name, what in zip(fields[1::4], fields[3::4]) if what == b"stale"}, told)
        before = set(self.refs(path))
        made = self.run(path, "fetch", "-q", "--prune", "origin", *specs)
        if {listed.returncode, planned.returncode} != {int(made.returncode != 0)}:
            stop(f"{names}: stale, a plan and a pruning fetch: {listed!r}, {planned!r}, {made!r}")
        self.differ(names, "a pruning fetch", told, before - set(self.refs(path)))
        self.differ(names, "the table", told, {os.fsencode(name) for name in stale})

    def refs(self, path):
        """The refs of a local repository, and what each points to."""
        lines = self.git(path, "for-each-ref", "--format=%(refname) %(objectname)").splitlines()
        return dict(line.split(b" ") for line in lines)

    @staticmethod
    def differ(specs, what, planned, written):
        if planned != written:
            stop(f"{specs}: the plan and {what} differ by {sorted(planned ^ written)[:5]}")


def check_upstreams(program):
    """The upstreams of branches are those that Git finds."""
    with tempfile.TemporaryDirectory() as folder:
        made = Repositories(folder, program)
        settings = [(f"remote.{name}.fetch", value) for name, values in REMOTE_VALUES.items() for value in values]
        for number, (remotes, merges) in enumerate(BRANCHES_OF):
            settings += [(f"branch.b{number}.remote", remote) for remote in remotes]
            settings += [(f"branch.b{number}.merge", merge) for merge in merges]
        path = made.local("upstreams", [])
        made.git(path, "commit", "-q", "--allow-empty", "-m", "one")
        for key, value in settings:
            made.git(path, "config", "--add", key, value)
        names = ["here", *(f"b{number}" for number in range(len(BRANCHES_OF)))]
        for name in names:
            made.git(path, "update-ref", f"refs/heads/{name}", "HEAD")
        lines = made.git(path, "for-each-ref", "--format=%(refname:lstrip=2)%00%(upstream)", "refs/heads").splitlines()
        found = {tuple(line.split(b"\0")) for line in lines if not line.endswith(b"\0")}
        for words in ([], names):
            fields = made.run(path, "refspec", "upstream", "-z", *words).stdout.split(b"\0")[:-1]
            made.differ(words, "Git", set(zip(fields[::4], fields[1::4])), found)
    return len(found)


def check_plans(program):
    with tempfile.TemporaryDirectory() as folder:
        made = Repositories(folder, program)
        locals_ = [(made.local(f"plan{number}", specs), specs) for number, specs in enumerate(PLANS)]
        written = sum(made.compare(*one) for one in locals_)
        for number, (values, settings, words) in enumerate(FETCHES):
            made.fetch(made.local(f"fetch{number}", values, settings), words)
        for number, (values, settings, specs, names, stale) in enumerate(PRUNED):
            made.prune(made.local(f"prune{number}", values, settings), specs, names, stale)
        # Then one branch of the remote changes.
        made.git(made.remote, "commit", "-q", "--allow-empty", "-m", "two")
        for one in locals_:
            made.compare(*one)
    return written


# What a call may take of a processor, in seconds: ten times what it takes, or more. One that looks at each pair of remotes or at
# each pair of bytes takes longer.
BOUND = 2
LETTERS = "a" * 100_000
ONE_REMOTE = '[remote "origin"]\n\turl = x\n'
REMOTE = '[remote "r{0}"]\n\turl = x\n\tfetch = +refs/heads/*:refs/remotes/r{0}/*\n'
VALUES = "\tfetch = refs/heads/b{0}:refs/remotes/origin/b{0}\n\tfetch = +refs/heads/t{0}/*:refs/remotes/origin/t{0}/*\n"
FETCHED = "\tfetch = +refs/heads/b{0}:refs/remotes/origin/b{0}\n"
MERGING = '[branch "b{0}"]\n\tremote = origin\n\tmerge = refs/heads/b{0}\n'
OVERLAPPING = f"\tfetch = ^refs/heads/*\n\tfetch = refs/heads/*:refs/x/{LETTERS}*\n\tfetch = refs/tags/*:refs/x/*{LETTERS}\n"
# What a configuration has, what it says, a call, and whether it answers well: a tracking ref is told of 200 remotes, a remote of
# 1,000 values is checked, and two patterns that overlap in up to 100,000 equal letters; and the upstreams of 1,000 branches are
# found by as many values.
SOON = (
    ("200 remotes", "".join(map(REMOTE.format, range(200))), "track r77/main",
     lambda made: made.stdout == b"r77  refs/remotes/r77/main  refs/heads/main  +refs/heads/*:refs/remotes/r77/*\n"),
    ("1,000 values", ONE_REMOTE + "".join(map(VALUES.format, range(500))), "check",
     lambda made: not (made.returncode or made.stdout or made.stderr)),
    ("two long values", ONE_REMOTE + OVERLAPPING, "check",
     lambda made: not (made.returncode or made.stdout) and made.stderr.count(b"warning: ") == 1),
    ("1,000 branches and values", ONE_REMOTE + "\tfetch = ^refs/heads/wip/*\n" + "".join(map(FETCHED.format, range(1000)))
     + "".join(map(MERGING.format, range(1000))), "upstream -z",
     lambda made: not made.returncode and made.stdout.split(b"\0")[3996:4000] == [
         b"b999", b"refs/remotes/origin/b999", b"refs/heads/b999", b"+refs/heads/b999:refs/remotes/origin/b999"]),
)


def check_soon(program, what, configuration, call, is_answered):
    """A call is answered soon, whatever the configuration has."""
    with tempfile.TemporaryDirectory() as folder:
        variables = environment(program)
        subprocess.run(["git", "init", "-q", folder], env=variables, check=True)
        with (Path(folder) / ".git" / "config").open("a", encoding="ascii") as file:
            file.write(configuration)
        before = resource.getrusage(resource.RUSAGE_CHILDREN)
        made = shell(f"git refspec {call}", folder, variables)
        after = resource.getrusage(resource.RUSAGE_CHILDREN)
        if not is_answered(made):
            stop(f"{call} of {what}: status {made.returncode}, {made.stdout[:200]!r}, {made.stderr[:200]!r}")
        took = after.ru_utime + after.ru_stime - before.ru_utime - before.ru_stime
        if took > BOUND:
            stop(f"{call} of {what} took {took:.2f} seconds")


# Calls in a repository with one fetch value and one merged ref, each with the end of what it writes to a terminal.
TERMINAL = (
    (["check"], b"git refspec: 1 checked, all good\n"),
    (["check", "--remote", "origin", "dev"], b"git refspec: 2 checked, all good\n"),
    (["check", "-v"], b"remote.origin.fetch: refs/heads/main:refs/x/main\n"),
    (["check", "^dev"], b"Write ^refs/heads/dev\n"),
    (["plan"], b"\n2 refs by 2 specs\n"),
    (["plan", "origin", "main"], b"\n1 ref by 2 specs\n"),
    (["plan", "--json", "origin", "main"], b"}\n"),
)


def check_terminal(program, remote):
    """A terminal alone is told of a slow remote, of a check that finds nothing, and of the size of a plan."""
    with tempfile.TemporaryDirectory() as folder:
        variables = environment(program)
        here = Path(folder) / "here"
        shell(f"git clone -q '{remote}' here", folder, variables)
        slow = {**variables, "GIT_SSH_COMMAND": "sleep 3; exit 1"}
        told = programs.on_terminal(["git", "refspec", "plan", "ssh://host/path"], cwd=here, env=slow)
        if not told.startswith(b"git refspec: waiting for git ls-remote -- ssh://host/path\n"):
            stop(f"a slow remote on a terminal: {told!r}")
        untold = subprocess.run(["git", "refspec", "plan", "ssh://host/path"], cwd=here, env=slow, capture_output=True, check=False)
        if b"waiting" in untold.stderr or untold.returncode != 128:
            stop(f"a slow remote without a terminal: {untold!r}")
        shell("git config remote.origin.fetch refs/heads/main:refs/x/main; git config branch.main.merge refs/heads/dev",
              here, variables)
        for words, end in TERMINAL:
            told = programs.on_terminal(["git", "refspec", *words], cwd=here, env=variables)
            if not told.endswith(end):
                stop(f"{words} on a terminal: {told!r}")


def check_old_git(program):
    """Where Git doesn't know an option, the last line says which Git does."""
    with scripted.Repository(program, {**scripted.USUAL, "config": 129}) as repository:
        made = subprocess.run([scripted.SCRIPT, "check"], env=repository.variables(), capture_output=True, check=False)
        if made.returncode != 129 or not made.stderr.endswith(b"; install Git 2.8 or later\n") or repository.left():
            stop(f"an old Git: {made!r}")


def check_manual(program, remote):
    """The synopses of the manual page run, and its examples print what the page says."""
    page = (ROOT / "man" / "git-refspec.1").read_text(encoding="utf-8")
    variables = environment(program)
    with tempfile.TemporaryDirectory() as folder:
        here = Path(folder) / "here"
        shutil.copytree(remote, Path(folder) / "remote")
        shell("git clone -q remote here", folder, variables)
        count = 0
        for command in synopses(page.split(".Sh DESCRIPTION")[0]):
            made = shell(command, here, variables)
            if made.returncode or made.stderr:
                stop(f"the synopsis {command!r}: {made!r}")
            count += 1
        for command, output in examples(page.split(".Sh EXAMPLES")[1]):
            made = shell(command, here, variables)
            if (made.stdout + made.stderr).decode() != output:
                stop(f"the example {command!r}: {made!r}")
            count += 1
        shown = shell("git refspec --help", here, {**variables, "MANPATH": ROOT / "man", "PAGER": "cat"})
        if b"GIT-REFSPEC" not in shown.stdout and shutil.which("man") and b"No manual entry" not in shown.stderr:
            stop(f"--help: {shown!r}")
        return count


# What stands for the arguments of a synopsis.
ARGUMENTS = {"remote": "origin", "spec": "refs/heads/main:refs/x/main", "ref": "origin/main", "name": "origin",
             "remote-ref": "main"}


def synopses(text):
    """The shortest and the longest command of each synopsis."""
    commands = []
    for line in text.split(".Sh SYNOPSIS")[1].strip().split("\n"):
        words = line.split()
        if words[0] == ".Nm":
            commands.append((["git", "refspec"], ["git", "refspec"]))
            continue
        short, long = commands[-1]
        optional = words[0] == ".Op"
        rest, made = " ".join(words[1:] if optional else words).lstrip("."), []
        for mark, word in re.findall(r"(Cm|Fl Fl|Fl|Ar) ([^ ]+)", rest):
            made.append({"Cm": word, "Fl Fl": "--" + word, "Fl": "-" + word, "Ar": ARGUMENTS.get(word, "")}[mark])
        long += made
        if not optional:
            short += made
    return [" ".join(words) for pair in commands for words in pair]


def examples(text):
    """The commands of a page, each with what it prints."""
    found = []
    for line in text.split(".Bd -literal")[1].split("\n", 1)[1].split(".Ed")[0].split("\n")[:-1]:
        if line.startswith("$ "):
            found.append([line[2:].replace("\\e", "\\"), ""])
        else:
            found[-1][1] += line.replace("\\e", "\\") + "\n"
    return found


# Words, with the last one to complete, and some of what they are completed to.
COMPLETIONS = (
    ("git refspec ", ("check", "plan", "prefixes", "track", "upstream", "why")),
    ("git refspec pl", ("plan",)),
    ("git refspec plan or", ("origin",)),
    ("git refspec plan --j", ("--json",)),
    ("git refspec check --v", ("--verbose",)),
    ("git refspec check --st", ("--strict",)),
    ("git refspec prefixes --pat", ("--patterns",)),
    ("git refspec track origin/d", ("origin/dev",)),
    ("git refspec track --json refs/remotes/origin/t", ("refs/remotes/origin/topic/a",)),
    ("git refspec upstream ma", ("main",)),
    ("git refspec why de", ("dev",)),
    ("git refspec why dev or", ("origin",)),
    ("git refspec plan --remote or", ("origin",)),
    ("git -C ../here refspec prefixes or", ("origin",)),
    ("git -C ../here refspec track origin/d", ("origin/dev",)),
)
BASH = r"""
. "$git" && . "$ours"
line=$1; COMP_LINE=$line; COMP_POINT=${#line}; read -ra COMP_WORDS <<<"$line"
[[ $line != *' ' ]] || COMP_WORDS+=("")
COMP_CWORD=$((${#COMP_WORDS[@]} - 1)); COMPREPLY=()
__git_wrap__git_main && printf '%s\n' "${COMPREPLY[@]}"
"""


def check_completion(program, remote):
    """What shells complete words to. Returns their names."""
    tried = []
    with tempfile.TemporaryDirectory() as folder:
        variables = environment(program)
        here = Path(folder) / "here"
        shell(f"git clone -q '{remote}' here", folder, variables)
        for name, complete in (("bash", complete_in_bash), ("zsh", complete_in_zsh), ("fish", complete_in_fish)):
            if not shutil.which(name) or not complete("git refspec ", here, variables):
                continue
            tried.append(name)
            for line, wanted in COMPLETIONS:
                found = complete(line, here, variables)
                if not set(wanted) <= set(found):
                    stop(f"{name} completes {line!r} to {found!r}")
    return tried


def complete_in_bash(line, folder, variables):
    git = Path("/usr/share/bash-completion/completions/git")
    if not git.exists():
        return []
    ours = ROOT / "completions" / "git-refspec.bash"
    made = subprocess.run(["bash", "-c", BASH, "bash", line], cwd=folder, env={**variables, "git": git, "ours": ours},
                          capture_output=True, check=False)
    return [word.strip() for word in made.stdout.decode().split("\n")]


def complete_in_zsh(line, folder, variables):
    """By a completion widget that notes what is added."""
    script = r"""
zmodload zsh/zpty
zpty -b z "zsh -f -i"
zpty -w z "PS1=; fpath=(${ours:h} \$fpath); autoload -Uz compinit; compinit -u -D; cd $PWD"
zpty -w z 'noted() { local -a found; builtin compadd -O found "$@"; print -rl -- $found >>'"$out"'; builtin compadd "$@"; }'
zpty -w z 'functions[compadd]=$functions[noted]; bindkey "^I" complete-word; print ready >'"$out.ready"
for i in {1..200}; do [[ -e $out.ready ]] && break; sleep 0.05; done
zpty -n -w z "$line"$'\t'
for i in {1..60}; do sleep 0.05; [[ -s $out ]] && { sleep 0.3; break }; done
zpty -d z
"""
    with tempfile.TemporaryDirectory() as notes:
        out, ours = Path(notes) / "out", ROOT / "completions" / "_git-refspec"
        subprocess.run(["zsh", "-f", "-c", script], cwd=folder, capture_output=True, check=False, stdin=subprocess.DEVNULL,
                       env={**variables, "out": out, "ours": ours, "line": line, "HOME": notes, "TERM": "dumb"})
        return out.read_text(encoding="utf-8").split("\n") if out.exists() else []


def complete_in_fish(line, folder, variables):
    ours = ROOT / "completions" / "git-refspec.fish"
    made = subprocess.run(["fish", "-c", f"source '{ours}'; complete -C '{line}'"], cwd=folder,
                          env={**variables, "HOME": folder}, capture_output=True, check=False)
    return [word.split("\t")[0] for word in made.stdout.decode().split("\n")]


def main():
    arguments = parser(__doc__)
    only = arguments.add_mutually_exclusive_group()
    for name in ("--record", "--stored"):
        only.add_argument(name, action="store_true")
    add_path(arguments, "program")
    options = arguments.parse_args()
    if not shutil.which("git"):
        print("git-refspec: left out, as there is no git")
        return
    program = options.program
    with tempfile.TemporaryDirectory() as folder:
        remote = Path(folder) / "remote"
        make_remote(remote, environment(program))
        calls = Sample(program, remote).replay_all(options.record)
        if options.record or options.stored:
            print(f"git-refspec: {calls} calls in {len(LOCALES)} locales {'recorded' if options.record else 'answered as stored'}")
            return
        for row in SOON:
            check_soon(program, *row)
        commands = check_manual(program, remote)
        check_terminal(program, remote)
        check_old_git(program)
        shells = check_completion(program, remote)
    upstreams = check_upstreams(program)
    written = check_plans(program)
    print(f"git-refspec: {calls} calls in {len(LOCALES)} locales; {commands} commands of the manual page; {len(PLANS)} plans as a "
          f"dry run tells and Git fetches, of {written} refs; {upstreams} upstreams as Git finds them; completed in {', '.join(shells) or 'no shell'}")


if __name__ == "__main__":
    main()
