#!/usr/bin/env python3
"""Tries slight changes of definitions: tools/definitions.py [--after LOG] [CRATE [NAME..]]

A file of crates/*/changed-definitions/ changes a definition as one of edits/ changes code. Its line `what:` says how, and its
line `fact:` what notices it: facts, as FILE.NAME, that are false then, or no longer follow from a law that says less; or the
lemma of a law, with its path. So a wrong definition is noticed even where the code follows it.

A fact notices a change if the checker still reads its statement, and refuses its proof for what has to be proved. A change is
bad, and fails like one that isn't noticed, if a proof cites a name that it took away, or if the checker ran into a limit of
its own: so it keeps names and fields, and changes what is said of them. Whether such a fact is false, and not only its proof
another one, was looked at by reading.

Changes are tried on a copy of the crate, over the libraries that `make test` left proved; with --after, those that a run of it,
with the log LOG, proves meanwhile. Many are tried at once, if no fact rests on what another one changes.
"""
import os
import re
import shutil
import sys
import tempfile

sys.dont_write_bytecode = True
import kit  # beside this script

FOLDER = "changed-definitions"
# What precedes a declared name at the margin of a file, and what isn't part of a name.
MARKS = {"pub", "abbrev", "unfoldable", "pattern", "record", "data", "ruleset"}
WORD = re.compile(r"[^\s(){}\[\],;.]+")


def imported(text):
    """The paths that the text of an import names, and by which words."""
    head, brace, rest = text.partition("{")
    if not brace:
        path, _, alias = text.strip().partition(" as ")
        return [(path, alias or path.rpartition(".")[2])]
    found, depth, part = [], 0, ""
    for letter in rest.rpartition("}")[0] + ",":
        depth += (letter == "{") - (letter == "}")
        if letter == "," and depth == 0:
            found += [(head.strip() + path, word) for path, word in imported(part) if path]
            part = ""
        else:
            part += letter
    return found


class File:
    """The declarations of a file of specs/ or proofs/: parts of it that begin at the margin."""

    def __init__(self, path):
        with open(path, encoding="utf-8") as lines:
            self.lines = lines.read().split("\n")
        self.names, self.words, self.owners, self.uses = [], {}, {}, {}
        name, code = "", [re.sub(r"^--.*| -- .*", "", it) for it in self.lines]
        for line in code:
            if line[:1] not in ("", " ", ")", "}", "]"):
                name = next((it for it in line.split() if it not in MARKS), "")
            self.names.append(name)
        # a line that says what the next declaration unfolds is part of it
        for number in range(len(self.lines) - 2, -1, -1):
            if self.names[number] == "unfolding":
                self.names[number] = self.names[number + 1]
        for name, line in zip(self.names, code):
            self.words.setdefault(name, set()).update(WORD.findall(line))
            # a field or a constructor stands for its type
            for inner in re.findall(r"^  (?:pub )?([^\s:]+) : ", line):
                self.owners.setdefault(inner, name)
        for use in re.findall(r"^(?:pub )?use ((?:[^{\n]*\{[^;]*?\}+(?=\n))|[^{\n]*)", "\n".join(code) + "\n", re.M):
            self.uses.update({word: path for path, word in imported(" ".join(use.split()))})

    def changed(self, old):
        """The declaration that contains a text."""
        return self.names["\n".join(self.lines).split(old)[0].count("\n")]

    def body(self, name):
        """The number of the line with which the proof of a declaration begins."""
        lines = [number for number, it in enumerate(self.names, 1) if it == name]
        return next((it for it in lines if self.lines[it - 1].startswith(f"{name} ") and it > lines[0]), lines[0])


class Change:
    def __init__(self, path, files):
        said, self.replacements = kit.read_edit(path)
        self.name = os.path.basename(path).removesuffix(".edit")
        self.facts, self.beneath = said.get("fact", "").split(), set()
        for place, old, _ in self.replacements:
            if "\n".join(files[place].lines).count(old) != 1:
                raise kit.Failure(f"{self.name}: in {place} not once: {old}")
        self.changed = {(place, files[place].changed(old)) for place, old, _ in self.replacements}
        # another import can change any declaration of its file
        self.is_alone = any(name == "use" for _, name in self.changed)


class Copy:
    """A copy of a crate, in which definitions are changed."""

    def __init__(self, crate, room):
        self.crate, self.room = crate, room
        for part in ("src", "specs", "proofs"):
            shutil.copytree(f"{crate.folder}/{part}", f"{room}/{part}")
        # what the edits left of the checker's work serves here too
        kit.copied(kit.KEPT / crate.name, f"{room}/kept")
        paths = [f"{folder}/{it}" for part in ("specs", "proofs") for folder, _, names in os.walk(f"{room}/{part}") for it in names]
        self.files = {os.path.relpath(path, room): File(path) for path in paths if path.endswith(".antt")}
        # the checker reads the facts if the function that it is to prove cites them
        self.answers = min((path for path in paths if path.endswith("/Answers.antt") and "+" not in path), key=os.path.getsize)
        self.function = os.path.relpath(os.path.dirname(self.answers), f"{room}/proofs").replace("/", "::")

    def place(self, fact):
        """The file of a fact."""
        place = f"proofs/{fact.rpartition('.')[0].replace('.', '/')}.antt"
        return place if place in self.files else place.replace("proofs/", "proofs/facts/")

    def declared(self, place, word):
        """The file and the name of what a word of a file stands for; None if that isn't of this crate."""
        file = self.files[place]
        if word in file.words or word in file.owners:
            return place, word if word in file.words else file.owners[word]
        parts = file.uses.get(word, "").removeprefix(f"Rattle.{self.crate.name}.").split(".")
        for end in range(len(parts) - 1, 0, -1):
            module = f"{'/'.join(parts[:end])}.antt"
            if module in self.files and module != place:
                return self.declared(module, parts[end])
        return None

    def beneath(self, fact):
        """All that a fact may rest on: the declarations that its text names, those that theirs name, and so on."""
        found, left = set(), [(self.place(fact), fact.rpartition(".")[2])]
        while left:
            one = left.pop()
            if one not in found:
                found.add(one)
                words = self.files[one[0]].words.get(one[1], ())
                left += filter(None, (self.declared(one[0], it) for it in words))
        return found

    def errors(self, facts, replacements):
        """The errors of the checker with these replacements; those facts that it didn't admit; and what it said."""
        texts = {place: "\n".join(self.files[place].lines) for place, _, _ in replacements}
        for place, old, new in replacements:
            texts[place] = texts[place].replace(old, new)
        answers = os.path.relpath(self.answers, self.room)
        modules = [self.place(it).removesuffix(".antt").replace("/", ".") for it in facts]
        cited = [f"use Rattle.{self.crate.name}.{module}.{{{it.rpartition('.')[2]} as cited-{number}}}"
                 for number, (it, module) in enumerate(zip(facts, modules))]
        seen = [f"\nseen-{number} : truth\nseen-{number} = let it = cited-{number} in tt" for number in range(len(facts))]
        own = "\n".join(self.files[answers].lines)
        texts[answers] = "\n".join(["use Rattle.std.specs.Prelude.{⊤ as truth}", *cited, own, *seen, ""])
        for place, text in texts.items():
            with open(f"{self.room}/{place}", "w", encoding="utf-8") as file:
                file.write(text)
        output = self.crate.check(self.room, f"{self.room}/kept", ["--only", self.function])
        for place in texts:
            with open(f"{self.room}/{place}", "w", encoding="utf-8") as file:
                file.write("\n".join(self.files[place].lines))
        errors = kit.errors(output)
        above = {name for it in errors for name in it.above}
        if not re.search(r"^only=\d+ proved=\d+", output, re.M):
            raise kit.Failure(f"{self.crate.name}: the checker said:\n{output[-2000:]}")
        return errors, [it for number, it in enumerate(facts) if f"seen-{number}" in above]

    def fault(self, fact, errors):
        """Why a fact that isn't admitted doesn't notice the change; None if it does."""
        placed = [(it, (it.path, self.files[it.path].names[it.line - 1])) for it in errors if it.path in self.files and not it.above]
        own = [(it, one) for it, one in placed if one == (self.place(fact), fact.rpartition(".")[2])]
        beneath = self.beneath(fact)
        shown = own or [(it, one) for it, one in placed if one in beneath]
        for error, one in shown:
            if error.is_limit:
                return f"the checker ran into a limit: {error}"
            if error.is_unread or error.path.startswith("specs/") or error.line < self.files[error.path].body(one[1]):
                return f"it is no longer read: {error}"
        return None if shown else "the checker doesn't say why it isn't admitted"

    def tried(self, changes):
        """For each of these changes, made at once, why it isn't noticed; None if it is."""
        facts = sorted({fact for it in changes for fact in it.facts})
        errors, refused = self.errors(facts, [one for it in changes for one in it.replacements])
        said = {}
        for change in changes:
            faults = [(it, self.fault(it, errors) if it in refused else "still proved") for it in change.facts]
            faults = [f"{fact}: {fault}" for fact, fault in faults if fault]
            said[change.name] = "; ".join(faults) if change.facts else "it names no fact"
        return said


def next_round(copy, changes):
    """Changes to make at once: no fact of one rests on what another changes."""
    chosen = []
    for change in changes:
        beneath = set().union(*map(copy.beneath, change.facts))
        if all(not (change.is_alone or it.is_alone or beneath & it.changed or change.changed & it.beneath) for it in chosen):
            change.beneath = beneath
            chosen.append(change)
    return chosen


def try_all(crate, paths):
    """How many of the changes are noticed. Prints a line for each other."""
    rounds = missed = 0
    with tempfile.TemporaryDirectory(prefix="definitions-") as room:
        copy = Copy(crate, room)
        changes = left = [Change(path, copy.files) for path in paths]
        facts = sorted({fact for it in changes for fact in it.facts})
        errors, refused = copy.errors(facts, [])
        if errors or refused:
            raise kit.Failure(f"{crate.name}: not all facts are admitted as the definitions are: {' '.join(map(str, errors))}")
        while left:
            tried = next_round(copy, left)
            said = copy.tried(tried)
            rounds += 1
            for change in tried:
                fault = said[change.name]
                # alone, so that it is no other change's fault
                if fault and len(tried) > 1:
                    fault, rounds = copy.tried([change])[change.name], rounds + 1
                if fault:
                    missed += 1
                    print(f"definitions: {crate.name}/{change.name}: NOT NOTICED: {fault}", flush=True)
            left = [it for it in left if it not in tried]
    print(f"definitions: {crate.name}: {len(changes) - missed} of {len(changes)} noticed, in {rounds} rounds", flush=True)
    return len(changes) - missed


def main():
    parser = kit.parser(__doc__)
    parser.add_argument("--after", metavar="LOG")
    parser.add_argument("crate", nargs="?")
    parser.add_argument("names", nargs="*")
    given = parser.parse_args()
    crates = kit.crates()
    if given.crate and given.crate not in crates:
        parser.error(f"there is no crate {given.crate}")
    tried = noticed = 0
    for crate in [crates[given.crate]] if given.crate else crates.values():
        paths = crate.edits(FOLDER, given.names)
        if not paths:
            continue
        tried += len(paths)
        try:
            if given.after:
                kit.wait_for(crate.below, given.after)
            noticed += try_all(crate, paths)
        except kit.Failure as failure:
            print(f"definitions: {failure}", flush=True)
    if not tried:
        parser.error("there is no such change")
    print(f"definitions: {noticed} of {tried} changes noticed")
    sys.exit(noticed != tried)


if __name__ == "__main__":
    main()
