"""What is asked about the fetch values of a remote: the upstreams of branches, prefetches, new names, what happens to a ref, and the
values of new remotes. Of each the generated cases, what is answered here, what Git does, and where both are known to differ.

A case, an answer and what Git does are lines: a word, and a text behind a space. An answer begins with the exit status, and has the
fields of each object behind its kind, split by tabs. From a case and its answer follows what Git should do, in lines as well.
"""
import collections
import json
import os
import subprocess
import sys
import tempfile

import gitfates  # beside this script, as the next three
import gitknown
import gitlists
import remotevalues

HERE = os.path.dirname(os.path.abspath(__file__))
SOME_ID = b"1" * 40
REFUSED = [b"refused"]
# What an answer tells of an object.
FIELDS = ("fate", "merge", "name", "destination", "text", "spec", "prefetch", "renamed")
# What is so, in words, its smallest case, and whether that is how Git differs in a case.
Kind = collections.namedtuple("Kind", "text lines holds")
# A case, its answer, what should follow from that, and what Git does.
Trial = collections.namedtuple("Trial", "given said wanted done")


def texts_of(lines, word):
    """The texts of the lines with a word."""
    return [line.partition(b" ")[2] for line in lines if line.partition(b" ")[0] == word]


def lines_for(word, texts):
    return [word + b" " + text for text in texts]


def values_of(lines):
    return texts_of(lines, b"value")


def rows_of(said, kind):
    """The fields of the objects of a kind."""
    return [row.split(b"\t")[1:] for row in said if row.partition(b"\t")[0] == kind]


def row_of(object_):
    """An object of the program as a line; null is an empty field, or none at the end."""
    fields = [object_["kind"], *(object_[name] for name in FIELDS if name in object_)]
    while fields[-1] is None:
        del fields[-1]
    return "\t".join(field or "" for field in fields).encode()


class Program:
    """The program `refspec`."""

    def __init__(self, path):
        self.path = os.path.abspath(path)

    def answer(self, *words):
        """The lines of an answer."""
        made = subprocess.run([self.path, words[0], "--json", *words[1:]], input=b"", capture_output=True, check=False)
        if made.returncode not in (0, 1) or made.stderr:
            sys.exit(f"refspec: status {made.returncode}, {made.stderr!r} for {words}")
        return [b"status %d" % made.returncode, *map(row_of, map(json.loads, made.stdout.splitlines()))]


class Call:
    """What is asked, by a word of the program or of a sample."""
    word, kinds = "", ()

    def differs(self, trial):
        """Whether Git does otherwise than follows from the answer."""
        return trial.wanted != trial.done

    def kind_of(self, trial):
        """The known kind of a difference."""
        return next((kind for kind in self.kinds if kind.holds(trial)), None)

    def tried(self, answering, given):
        """A case that is tried; None if Git can't have it."""
        done = self.done(given)
        if done is None:
            return None
        said = self.said(answering, given)
        return Trial(given, said, self.wanted(given, said), done)


class Upstreams(Call):
    """The upstreams of branches that merge refs, by the values of their remote; those of another one count for nothing."""
    word = "upstream"

    def __init__(self, remotes):
        self.remotes = remotes
        self.kinds = [
            Kind("an empty source isn't HEAD to Git", [b"value :refs/y/x", b"merge HEAD"], self.is_about("an empty source")),
            Kind("an empty destination stores to the empty name in Git",
                 [b"value refs/heads/x:", b"value refs/heads/*:refs/y/*", b"merge refs/heads/x"], self.is_about("an empty destination"))]

    @staticmethod
    def made(random_):
        values = remotevalues.set_up(random_)
        merges = list(dict.fromkeys(remotevalues.merged(random_, values) for _ in range(random_.randint(1, 4))))
        if random_.random() < 0.2:
            excluded = random_.choice([random_.choice(merges), remotevalues.pattern(random_)])
            values.insert(random_.randint(0, len(values)), b"^" + excluded)
        beside = random_.choice(remotevalues.BESIDE)
        return lines_for(b"value", values) + lines_for(b"other", beside) + lines_for(b"merge", merges)

    @staticmethod
    def said(program, given):
        merges = [word for merge in texts_of(given, b"merge") for word in (b"--merge", merge)]
        return program.answer(b"upstream", *merges, b"--", *values_of(given))

    def done(self, given):
        found = self.remotes.upstreams(values_of(given), texts_of(given, b"merge"), texts_of(given, b"other"))
        return REFUSED if found is None else [b"upstream " + one if one else b"none" for one in found]

    @staticmethod
    def wanted(given, said):
        if rows_of(said, b"refused"):
            return REFUSED
        found = {fields[0]: fields[1] for fields in rows_of(said, b"upstream")}
        return [b"upstream " + found[merge] if merge in found else b"none" for merge in texts_of(given, b"merge")]

    @staticmethod
    def is_about(side):
        """Tells whether all merged refs whose upstreams differ do so for an empty side, the first for this one."""
        def holds(trial):
            merges = texts_of(trial.given, b"merge")
            differing = [merge for merge, one, other in zip(merges, trial.wanted, trial.done) if one != other]
            sides = [empty_side_of(values_of(trial.given), merge) for merge in differing]
            return REFUSED not in (trial.wanted, trial.done) and None not in sides and sides[:1] == [side]
        return holds


def empty_side_of(values, merge):
    """The empty side for which Git finds another upstream of a branch; None without one."""
    bare = [text.removeprefix(b"+") for text in values]
    if merge in (b"HEAD", b"") and any(text[:1] in (b"", b":") for text in bare):
        return "an empty source"
    if merge + b":" in bare or merge == b"HEAD" and b"@:" in bare:
        return "an empty destination"
    return None


class Prefetches(Call):
    """What a prefetch writes: the same as a fetch by the texts that are applied."""
    word = "prefetch"

    def __init__(self, remotes):
        self.remotes = remotes
        refs = remotes.store.refs(remotevalues.REFS)
        self.remote, self.names = remotes.store.remote(refs), {ref.id: ref.name for ref in refs}
        self.kinds = [Kind("a prefetch fails if the remote lacks a source with an empty destination", [b"value gone:"],
                           self.lacks_ignored)]

    @staticmethod
    def made(random_):
        return lines_for(b"value", remotevalues.set_up(random_))

    @staticmethod
    def said(program, given):
        return program.answer(b"prefetch", b"--", *values_of(given))

    def done(self, given):
        return self.lines_of(self.remotes.prefetched(self.remote, values_of(given)))

    def wanted(self, _, said):
        made = [fields[-1] for fields in rows_of(said, b"prefetch")]
        if rows_of(said, b"refused"):
            return REFUSED
        return self.lines_of(self.remotes.fetched(self.remote, made)) if made else []

    def lines_of(self, fetched):
        """What a fetch wrote, by the refs of the remote; or why it failed."""
        if fetched.failure:
            word, *names = fetched.failure
            return REFUSED if word == "invalid" else [b" ".join([b"fails", word.encode(), *names[:1 if word == "missing" else 0]])]
        written = [b"ref %s %s" % (self.names[id_], name) for name, id_ in sorted(fetched.refs.items())]
        return written + [b"head " + self.names[id_] for id_ in fetched.heads]

    @staticmethod
    def lacks_ignored(trial):
        source = b"".join(texts_of(trial.done, b"fails")).removeprefix(b"missing ")
        return source + b":" in [text.removeprefix(b"+") for text in values_of(trial.given)]


class Renames(Call):
    """The values of a remote with a new name, and those that Git warns to leave."""
    word = "rename"

    def __init__(self, remotes):
        self.remotes = remotes
        self.kinds = [
            Kind("an empty value gives way to the next one", [b"value ", b"value a", b"old o", b"new n"], self.loses_empty_values),
            Kind("Git renames no remote with a value that isn't a refspec", [b"value a..b", b"old o", b"new n"],
                 lambda trial: trial.done == REFUSED)]

    @staticmethod
    def made(random_):
        old, new = random_.sample(remotevalues.NAMES, 2)
        folder = b"refs/remotes/" + old
        values = [text.replace(b"refs/remotes/o", folder) for text in remotevalues.set_up(random_)]
        if random_.random() < 0.2:
            values.append(random_.choice([b"a:" + folder, b"%s/*:%s/%s/*" % (folder, folder, old), b"a:x/%s/b" % folder,
                                          b"^%s/x" % folder]))
        return lines_for(b"value", values) + [b"old " + old, b"new " + new]

    @staticmethod
    def said(program, given):
        return program.answer(b"rename", b"--", *texts_of(given, b"old"), *texts_of(given, b"new"), *values_of(given))

    def done(self, given):
        found = self.remotes.renamed(values_of(given), *texts_of(given, b"old"), *texts_of(given, b"new"))
        return REFUSED if found is None else lines_for(b"value", found[0]) + lines_for(b"left", found[1])

    @staticmethod
    def wanted(_, said):
        rows = [row.split(b"\t") for row in said[1:]]
        return lines_for(b"value", [row[-1] for row in rows]) + lines_for(b"left", [row[1] for row in rows if row[0] == b"unchanged"])

    @staticmethod
    def loses_empty_values(trial):
        values = values_of(trial.wanted)
        kept = [value for value, following in zip(values, [*values[1:], None]) if value or following is None]
        return trial.done == lines_for(b"value", kept) + lines_for(b"left", texts_of(trial.wanted, b"left"))


class Fates(Call):
    """What becomes of refs of a remote: where a fetch by the values stores each, and whether FETCH_HEAD has it. Of one that is alone
    there, it isn't told what the remote has."""
    word = "why"

    def __init__(self, remotes):
        self.fates = gitfates.Fates(os.path.join(remotes.store.folder, "fates"))
        tracking = b"value refs/heads/*:refs/x/*"
        main, asked = b"ref refs/heads/main", b"name refs/heads/main"
        self.kinds = [
            Kind("a source that the remote lacks stops the fetch, of which it isn't told",
                 [tracking, b"value gone", main, asked, b"alone"], self.lacks_source),
            Kind("an object that the remote lacks stops the fetch", [tracking, b"value " + SOME_ID, main, asked], self.lacks_object),
            Kind("of two refs in a directory conflict Git may write one",
                 [tracking, b"value refs/heads/b:refs/x/a/y", b"ref refs/heads/a", b"ref refs/heads/b", b"name refs/heads/a",
                  b"name refs/heads/b"], self.writes_one_of_nested)]

    @staticmethod
    def made(random_):
        values = remotevalues.set_up(random_)
        refs = remotevalues.refs_for(random_, values)
        asked = random_.sample(refs, min(len(refs), random_.randint(1, 3)))
        if all(text.startswith(b"^") for text in values):
            return None
        if random_.random() < 0.15:
            return [*lines_for(b"value", values), b"ref " + asked[0], b"name " + asked[0], b"alone"]
        if random_.random() < 0.1:
            asked += [one for one in random_.sample(remotevalues.ON_REMOTE, 1) if one not in refs]
        return lines_for(b"value", values) + lines_for(b"ref", refs) + lines_for(b"name", asked)

    @staticmethod
    def said(program, given):
        with tempfile.NamedTemporaryFile() as file:
            file.write(b"".join(SOME_ID + b"\t" + name + b"\n" for name in texts_of(given, b"ref")))
            file.flush()
            listed = [] if b"alone" in given else [b"--refs", file.name]
            answers = [program.answer(b"why", b"--ref", name, *listed, b"--", *values_of(given)) for name in texts_of(given, b"name")]
        return [line for answer in answers for line in answer]

    def done(self, given):
        names = tuple(texts_of(given, b"ref"))
        if not names or gitlists.apart(names) != list(names):
            return None
        refs, heads, failure = self.fates.fetched(names, tuple(values_of(given)))
        if failure and failure[0] == "invalid":
            return REFUSED
        commits = self.fates.remote(names)[1]
        lines = [b" ".join([b"fails", failure[0].encode(), *(failure[1:] if failure[0] != "other" else [])])] if failure else []
        for name in texts_of(given, b"name"):
            if name in commits:
                lines += [b"ref %s %s" % (name, far) for far, id_ in sorted(refs.items()) if id_ == commits[name]]
                lines += [b"head " + name] * (commits[name] in heads)
        return lines

    @staticmethod
    def wanted(given, said):
        lines, answers = [], []
        for line in said:
            if line.startswith(b"status "):
                answers.append([])
            answers[-1].append(line)
        for name, answer in zip(texts_of(given, b"name"), answers):
            if rows_of(answer, b"refused"):
                return REFUSED
            fetched = [fields for fields in rows_of(answer, b"fate") if fields[0] == b"fetched"]
            if not rows_of(answer, b"not_fetched"):
                lines += sorted(b"ref %s %s" % (name, fields[2]) for fields in fetched if fields[2])
                lines.append(b"head " + name)
        return lines

    def differs(self, trial):
        """As above; but a fetch that should store nothing may fail, unless a ref isn't said to be in conflict."""
        done = [line for line in trial.done if trial.wanted or not line.startswith(b"fails ")]
        return trial.wanted != done or bool(self.untold(trial))

    @staticmethod
    def failure(trial, word):
        """The names in a failure with this word that keeps Git from all; None if there is none such."""
        found = trial.done[0].split(b" ") if len(trial.done) == 1 else []
        return found[2:] if found[:2] == [b"fails", word] else None

    def untold(self, trial):
        """The refs asked about by whose conflict Git fails, though none is said."""
        told = {row[1] for row in rows_of(trial.said, b"fate") if row[0] == b"conflict"}
        *sources, _ = self.failure(trial, b"conflict") or [b""]
        return [name for name in texts_of(trial.given, b"name") if name in sources and name not in told]

    def lacks_source(self, trial):
        names = self.failure(trial, b"missing")
        refs = texts_of(trial.given, b"ref")
        return b"alone" in trial.given and bool(names) and not any(form % names[0] in refs for form in gitknown.CANDIDATES)

    @staticmethod
    def lacks_object(trial):
        return trial.done == [b"fails other"] and any(SOME_ID in value for value in values_of(trial.given))

    @staticmethod
    def writes_one_of_nested(trial):
        nested = [fields for fields in rows_of(trial.said, b"fate") if fields[0] == b"directory_conflict"]
        told = {b"ref %s %s" % (fields[1], fields[2]) for fields in nested} | {b"head " + fields[1] for fields in nested}
        done = [line for line in trial.done if not line.startswith(b"fails nested")]
        return len(done) < len(trial.done) and set(trial.wanted) <= set(done) <= set(trial.wanted) | told


class Branches(Call):
    """The values of new remotes, and of remotes whose branches are set; those that Git then doesn't use are refused here."""
    word = "branch"

    def __init__(self, remotes):
        self.remotes, self.kinds = remotes, []

    @staticmethod
    def made(random_):
        is_mirror, is_set = random_.random() < 0.3, random_.random() < 0.4
        names = remotevalues.NAMES + [] if is_mirror else remotevalues.NAMES * 2 + remotevalues.REMOTE_NAMES
        branches = [random_.choice(remotevalues.BRANCHES) for _ in range(random_.randint(is_set, 3))]
        made = [b"remote " + random_.choice(names), *lines_for(b"branch", branches)]
        return made + [b"mirror"] * is_mirror + [b"set"] * is_set

    @staticmethod
    def said(library, given):
        remote, = texts_of(given, b"remote")
        value = library.RemoteValue.MIRROR if b"mirror" in given else library.RemoteValue.BRANCH
        lines = []
        for branch in texts_of(given, b"branch") or [b"*"]:
            try:
                lines.append(b"value\t" + library.remote_value(value, remote, branch))
            except library.RefspecError as error:
                lines.append(b"refused\t" + error.outcome.name.encode())
        return lines

    def done(self, given):
        remote, = texts_of(given, b"remote")
        write = self.remotes.set if b"set" in given else self.remotes.added
        values = write(remote, texts_of(given, b"branch"), b"mirror" in given)
        lines = [b"value " + value if self.remotes.accepts(value) else b"refused" for value in values or []]
        return self.told_once(lines)

    def wanted(self, _, said):
        return self.told_once([b"refused" if line.startswith(b"refused") else line.replace(b"\t", b" ") for line in said])

    @staticmethod
    def told_once(lines):
        """The lines; but that all is refused is told once, as Git does of the name of a remote."""
        return lines if set(lines) - set(REFUSED) else REFUSED


CALLS = (Upstreams, Prefetches, Renames, Fates, Branches)


def library():
    """The module in Python; None where no library for C is found."""
    sys.path.insert(0, os.path.join(HERE, os.pardir, os.pardir, "bindings", "python"))
    try:
        import gix_refspec
    except (ImportError, OSError):
        return None
    return gix_refspec

