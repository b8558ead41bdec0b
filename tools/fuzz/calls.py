#!/usr/bin/env python3
"""Calls the program refspec, and git refspec with a script in the place of Git, with random arguments and inputs:

    tools/fuzz/calls.py REFSPEC [--calls N] [--git N] [--seed S] [--jobs J] [--keep FOLDER]

Inputs are made of texts that look like refspecs, of names that they match, and of records that are broken now and then; Git's
answers are broken, cut, or a failure. A run may end with a status from 0 to 3, with 141 if nobody reads its output, or with that
of a failing Git; never by a signal. What it writes ends with an end of line, and what it says of a status other than 0 is there.
Each line of a call with `--json` is an object that docs/refspec.schema.json allows, and `git refspec` leaves no file behind.
Otherwise the call is kept, and its number ends the run. One seed and number always give the same call.
"""
import argparse
import collections
import json
import multiprocessing
import os
import random
import signal
import sys
import tempfile

sys.dont_write_bytecode = True
HERE = os.path.dirname(os.path.abspath(__file__))
TOP = os.path.join(HERE, os.pardir, os.pardir)
sys.path[:0] = [os.path.join(TOP, "tools", "oracle"), os.path.join(TOP, "tests")]
import groups
import original
import specs
from helpers import scripted
from helpers.schema import Objects
from processes import Failed, Program

SHARE = 250
SECONDS = 3600
CLOSED = 141
OPTIONS = {
    "check": ["-v", "--json", "--push", "--config", "--strict", "--no-warnings", "-z", "--read-z", "--specs"],
    "explain": ["--json", "--push", "-z", "--read-z", "--specs"],
    "canon": ["--json", "--push", "-z", "--read-z", "--specs"],
    "plan": ["--json", "--long", "--all", "-z", "--read-z", "--tags", "--refs", "--configured", "--merge", "--local", "--specs"],
    "stale": ["--json", "-z", "--read-z", "--refs", "--local", "--specs"],
    "track": ["--json", "-z", "--read-z", "--ref", "--specs"],
    "prefixes": ["--json", "--patterns", "--push", "--tags", "--head", "--merge", "-z", "--read-z", "--specs"],
    "upstream": ["--json", "-z", "--read-z", "--merge", "--specs"],
    "prefetch": ["--json", "-z", "--read-z", "--specs"],
    "rename": ["--json", "-z", "--read-z", "--specs"],
    "why": ["--json", "-z", "--read-z", "--ref", "--local", "--refs", "--specs"],
}
GIT_OPTIONS = {
    "check": ["-v", "-z", "--json", "--push", "--strict", "--no-warnings", "--remote"],
    "plan": ["-z", "--json", "--long", "--all", "--prune", "--refmap", "--remote"],
    "stale": ["-z", "--json", "--remote"],
    "track": ["-z", "--json", "--remote"],
    "upstream": ["-z", "--json"],
    "why": ["-z", "--json", "--remote"],
    "prefixes": ["-z", "--json", "--patterns", "--head", "--remote"],
}
FILES = ("--specs", "--refs", "--configured", "--local")
# Without these two kinds of specs and names, a call is of a group that is as people have them.
NEEDED = {"stale": "--local", "track": "--ref", "upstream": "--merge", "why": "--ref"}
REMOTES = [b"origin", b"origin", b"origin", b"r", b"up/stream", b"../remote", b"a b", b""]


# What calls are made of

def lines(records, random_, end=b"\n"):
    """Records with their ends; a broken one now and then."""
    text = b"".join(record + end for record in records)
    kind = random_.random()
    if kind < 0.03 and text:
        return text[:random_.randrange(len(text))]
    if kind < 0.06 and text:
        at = random_.randrange(len(text))
        return text[:at] + random_.choice([b"\xff", b"\0", b"\n", b"\t", b" ", b"\n\n"]) + text[at + random_.randrange(2):]
    return text


class Call:
    """What a call is made of: a group of specs and names."""

    def __init__(self, random_):
        self.random = random_
        ids = [groups.an_id(random_) for _ in range(2)]
        self.specs, self.names = [], []
        for _ in range(random_.choice([0, 1, 1, 2, 3, 5, 8])):
            if random_.random() < 0.85:
                self.specs.append(groups.spec(random_, ids, self.specs))
            else:
                self.specs.append(specs.mutated(random_) if random_.random() < 0.5 else specs.built(random_))
        for _ in range(random_.choice([0, 1, 2, 5, 10])):
            self.names.append(groups.name(random_, self.specs, self.names))
        self.ids = ids

    def some_specs(self):
        return [text for text in self.specs if self.random.random() < 0.7]

    def refs(self):
        """The lines of a remote's refs."""
        found = []
        for name in self.names:
            one = self.random.choice(self.ids)
            found.append(one + b"\t" + name)
            if self.random.random() < 0.1:
                found.append(one + b"\t" + name + b"^{}")
        return found

    def local(self, separator=b" "):
        """The lines of local refs: what specs make of the names, more or less."""
        found = []
        for text in self.specs:
            side = groups.sides(text)[-1]
            word = self.random.choice(groups.LEAVES)
            found.append(side.replace(b"*", word) + separator + self.random.choice([b"", b"", b"", b"refs/heads/main"]))
        return found

    def config(self):
        """The settings of a repository, each behind its file."""
        remotes = [self.random.choice(REMOTES) for _ in range(2)]
        entries = [(b"remote." + remote + b".url", b"../remote") for remote in remotes]
        for text in self.specs:
            key = self.random.choice([b"fetch", b"fetch", b"fetch", b"push"])
            entries.append((b"remote." + self.random.choice(remotes) + b"." + key, text))
        for key, values in ((b"branch.main.remote", [*remotes, b"."]), (b"branch.main.merge", [*self.names, b"refs/heads/main", b"HEAD"]),
                            (b"remote.origin.tagopt", [b"--tags", b"--no-tags", b"x"]), (b"fetch.prunetags", [b"true", b"no", b"7", b"x"]),
                            (b"remote.origin.prunetags", [b"", b"on"]), (b"remotes.default", [b"origin r"])):
            if self.random.random() < 0.25:
                entries.append((key, self.random.choice(values)))
        self.random.shuffle(entries)
        records = []
        for key, value in entries:
            records += [b"file:.git/config", key + (b"\n" + value if self.random.random() < 0.98 else b"")]
        return lines(records, self.random, b"\0")


def as_argument(text):
    """A text that can be an argument: without zero bytes, and mostly UTF-8."""
    return os.fsdecode(text.replace(b"\0", b"\1"))


class Given:
    """The words, the files and the input of a call of refspec, from a seed and a number."""

    def __init__(self, seed, number):
        random_ = self.random = random.Random(f"{seed} {number}")
        call = Call(random_)
        command = random_.choice([*OPTIONS, "plan", "check"])
        chosen = [option for option in OPTIONS[command] if random_.random() < 0.22]
        if command in NEEDED and random_.random() < 0.95:
            chosen.append(NEEDED[command])
        if random_.random() < 0.02:
            chosen.append(random_.choice(["--help", "--nosuch", "-x", "--version", "--json", "-", "--", ""]))
        self.end = b"\0" if {"-z", "--read-z"} & set(chosen) else b"\n"
        self.words, self.files = [], {}
        arguments = [as_argument(text) for text in call.some_specs()] if random_.random() < 0.6 else []
        if command == "rename" and random_.random() < 0.95:
            arguments[:0] = [as_argument(random_.choice(REMOTES)) for _ in range(2)]
        if command == "why" and {"--ref", "--local"} <= set(chosen) and random_.random() < 0.95:
            chosen.remove(random_.choice(["--ref", "--local"]))
        for option in chosen:
            self.words += [option, *self.value(option, call, command)]
        for word in arguments:
            self.words.insert(random_.randint(0, len(self.words)) if random_.random() < 0.2 else len(self.words), word)
        self.words.insert(0, command)
        self.input = self.contents("--refs" if command in ("plan", "stale", "why") else "--specs", call)
        if "--config" in chosen:
            self.input = call.config()
        self.is_json = "--json" in self.words
        self.is_unread = random_.random() < 0.01

    def value(self, option, call, command):
        if option in FILES and (command, option) != ("why", "--local"):
            if self.random.random() < 0.05:
                return [self.random.choice(["-", "/nosuch", "/", ""])]
            name = option.lstrip("-")
            self.files[name] = self.contents(option, call)
            return [name]
        if option in ("--ref", "--merge", "--local"):
            return [as_argument(self.random.choice([*call.names, b"refs/heads/main", b"HEAD", b"main"]))]
        return []

    def contents(self, option, call):
        if option == "--refs":
            return lines(call.refs(), self.random, self.end)
        if option == "--local":
            return lines(call.local(), self.random, self.end)
        return lines([text.replace(b"\n", b"") for text in call.some_specs()], self.random, self.end)


class GivenGit:
    """The words of a call of git refspec, and Git's answers, from a seed and a number."""

    def __init__(self, seed, number):
        random_ = self.random = random.Random(f"{seed} git {number}")
        call = Call(random_)
        command = random_.choice(list(GIT_OPTIONS))
        self.words = [command]
        for option in GIT_OPTIONS[command]:
            if random_.random() < 0.2:
                self.words.append(option)
                if option == "--remote":
                    self.words.append(random_.choice(["origin", "r"]))
                if option == "--refmap":
                    self.words.append(as_argument(random_.choice([*call.specs, b""])))
        has_remote = "--remote" in self.words or command in ("track", "why")
        if not has_remote and random_.random() < 0.6:
            self.words.append(as_argument(random_.choice(REMOTES)))
        if random_.random() < (0.9 if command in ("track", "why") else 0.3):
            refs = {"track": [b"main", b"@{u}", b"HEAD", b"origin/main"], "why": [b"main", b"HEAD", b"origin"]}.get(command)
            some = call.names + refs if refs else call.some_specs() + [b"tag"]
            self.words += [as_argument(random_.choice(some)) for _ in range(random_.randint(1, 3))]
        if random_.random() < 0.02:
            self.words.append(random_.choice(["--help", "--nosuch", "-x", "--version", "-", "--", ""]))
        self.answers = {
            "folder": b".git\n", "config": call.config(), "head": b"refs/heads/main\n", "lines": lines(call.refs(), random_),
            "refs": lines(call.local(), random_), "local": lines(call.local(), random_),
            "name": b"".join(name + b"\n" for name in call.names[:1]), "manual": b"a page\n",
        }
        for name in self.answers:
            if random_.random() < 0.03:
                self.answers[name] = random_.choice([1, 2, 5, 128, 129, b"", b"\n", b"\0", b"\xff\xfe\n", random_.randbytes(40)])
        self.is_json = "--json" in self.words
        self.is_unread = random_.random() < 0.02


# Runs

class Runs:
    """Makes calls of a share, in a folder of its own."""

    def __init__(self, options):
        self.options, self.objects = options, Objects()
        self.folder = tempfile.TemporaryDirectory(dir="/dev/shm" if os.path.isdir("/dev/shm") else None)
        os.chdir(self.folder.name)
        self.program = Program(options.program, SECONDS)
        self.repository = scripted.Repository(os.path.abspath(options.program))
        self.script = Program(scripted.SCRIPT, SECONDS)
        self.counts = collections.Counter()

    def share(self, kind, first, count):
        self.counts = collections.Counter()
        make = {"refspec": self.call, "git refspec": self.call_git}[kind]
        for number in range(first, first + count):
            try:
                make(number)
            except Failed as failed:
                return self.counts, failed.args
        return self.counts, None

    def call(self, number):
        given = Given(self.options.seed, number)
        for name, text in given.files.items():
            with open(name, "wb") as file:
                file.write(text)
        made = self.run(self.program, given, number, given.input)
        self.judge(given, made, number, (0, 1, 2, 3))

    def call_git(self, number):
        given = GivenGit(self.options.seed, number)
        self.repository.answer(given.answers)
        made = self.run(self.script, given, number, b"", self.repository.variables())
        failures = {answer for answer in given.answers.values() if isinstance(answer, int)}
        self.judge(given, made, number, {0, 1, 2, 3, *failures})
        if self.repository.left():
            raise Failed(number, given, made, f"it leaves {self.repository.left()}")

    def run(self, program, given, number, text, variables=None):
        try:
            made = program.run(given.words, text, number, variables, given.is_unread)
        except Failed as failed:
            raise Failed(number, given, None, failed.args[3]) from None
        self.counts[f"status {made.status}"] += 1
        self.counts[given.words[0]] += 1
        return made

    def judge(self, given, made, number, statuses):
        def expect(holds, what):
            if not holds:
                raise Failed(number, given, made, what)

        if given.is_unread:
            expect(made.status in (CLOSED, *statuses) and (made.status != CLOSED or made.messages == b""), f"status {made.status}, unread")
            return
        expect(made.status in statuses, f"status {made.status}")
        is_raw = "-z" in given.words
        # The manual is what Git prints.
        is_git = isinstance(given, GivenGit) and "--help" in given.words
        for text in () if is_git else (made.output, made.messages):
            expect(text == b"" or text.endswith((b"\n", b"\0") if is_raw else b"\n"), f"no end of line in {text[-60:]!r}")
        expect(made.status == 0 or made.messages or given.is_json and made.output, f"status {made.status} without a message")
        if given.is_json and not {"--help", "--version"} & set(given.words):
            for line in made.output.split(b"\n")[:-1]:
                expect(self.objects.allow(line), f"no object of the schema: {line[:300]!r}")
                self.counts["objects"] += 1


def begin(options):
    global RUNS
    signal.signal(signal.SIGINT, signal.SIG_IGN)
    RUNS = Runs(options)


def share(task):
    return RUNS.share(*task)


def kept(failure, options):
    number, given, made, what = failure
    path = os.path.join(options.keep, f"calls-{options.seed}-{number}.json")
    shown = {name: value for name, value in vars(given).items() if name != "random"}
    with open(path, "w", encoding="utf-8") as file:
        json.dump({"what": what, "given": shown, "made": made and made._asdict()}, file, indent=1, default=repr)
    return f"calls: call {number}, {given.words}: {what}; it is kept in {path}"


def tasks(kind, count):
    return [(kind, first, min(SHARE, count - first)) for first in range(0, count, SHARE)]


def main():
    parser = argparse.ArgumentParser(description=__doc__, formatter_class=argparse.RawDescriptionHelpFormatter)
    parser.add_argument("program", metavar="REFSPEC")
    parser.add_argument("--calls", type=int, default=2_000, metavar="N", help="calls of refspec")
    parser.add_argument("--git", type=int, default=200, metavar="N", help="calls of git refspec")
    parser.add_argument("--seed", type=int, default=1, metavar="S")
    parser.add_argument("--jobs", type=int, default=os.cpu_count(), metavar="J")
    parser.add_argument("--keep", default=".", metavar="FOLDER", help="where a call goes at which it stops")
    options = parser.parse_args()
    options.program, options.keep = os.path.abspath(options.program), os.path.abspath(options.keep)
    original.need("calls", options.program)
    with multiprocessing.Pool(options.jobs, begin, [options]) as pool:
        for kind, count in (("refspec", options.calls), ("git refspec", options.git)):
            counts, done = collections.Counter(), 0
            for made, failure in pool.imap(share, tasks(kind, count)):
                counts += made
                done += SHARE
                if done % (40 * SHARE) == 0:
                    print(f"calls: {done} of {kind}", file=sys.stderr, flush=True)
                if failure:
                    sys.exit(kept(failure, options))
            shown = ", ".join(f"{number} {what}" for what, number in sorted(counts.items()))
            print(f"calls: {count} of {kind}, seed {options.seed}: {shown}", flush=True)


if __name__ == "__main__":
    main()
