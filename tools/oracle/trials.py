"""Situations that are tried: what `git refspec` says of a fetch, and what the fetch does."""
import collections
import json
import os
import random
import tempfile

import gitleft  # beside this script, as the next two
import repositories
import situations

SCRIPT = os.path.join(os.path.dirname(os.path.abspath(__file__)), os.pardir, os.pardir, "bin", "git-refspec")
# What is told of an object in a sample.
FIELDS = ("origin", "source", "destination", "name", "spec", "text")
# The lines of a situation, its command, its number, what was said and done, and the kinds by which these differ.
Result = collections.namedtuple("Result", "lines command number said done kinds")


class Trials:
    """A folder for repositories, and a program."""

    def __init__(self, folder, program):
        self.folder, self.program = folder, program
        self.stores = repositories.stores_in(folder)

    def said(self, world, command, words):
        """What `git refspec` says of a fetch by these words."""
        refspec = ["--refmap", words[0].partition("=")[2]] if words and words[0].startswith("--refmap=") else []
        words = [world.filled(word) for word in words[len(refspec) // 2:]]
        prune = ["--prune"] if command == "plan" else []
        split = [*words[:1], "--", *words[1:]] if words else []
        made = world.run(SCRIPT, command, "--json", *prune, *refspec, *split, GIT_REFSPEC_PROGRAM=self.program)
        rows = [json.loads(line) for line in made.stdout.decode(errors="replace").splitlines() if line.startswith("{")]
        return gitleft.Said(made.returncode, rows, made.stderr.decode(errors="replace"))

    def result(self, lines, command, number=None):
        with tempfile.TemporaryDirectory(dir=self.folder) as folder:
            world = repositories.World(folder, lines, self.stores)
            before = world.state()
            words = [word for word in world.call if word not in ("--prune", "--no-prune")]
            said = self.said(world, command, words)
            done = world.fetch(*world.call)
            kinds = gitleft.Trial(command, world, said, before, done).kinds()
            return Result(lines, command, number, said, shortened(done, before, folder), kinds)

    def of_number(self, command, seed, number):
        random_ = random.Random(f"{seed} {command} {number}")
        return self.result(situations.situation(random_, command), command, number)

    def shrunk(self, result, is_meant=None):
        """The result without the lines and the words of the call that what is meant doesn't need: such an unknown difference."""
        is_meant = is_meant or is_unknown_as(result)
        place = len(result.lines) - 1
        while place >= 0:
            made = (self.result(lines, result.command, result.number) for lines in shorter(result.lines, place))
            smaller = next((one for one in made if is_meant(one)), None)
            if smaller is None or not result.lines[place].startswith("call "):
                place -= 1
            result = smaller or result
        return result


def is_unknown_as(result):
    """Tells whether another result differs in unknown ways too, with the same statuses and kinds of objects."""
    def classed(one):
        return one.said.status, one.done.status, {row["kind"] for row in one.said.rows}
    return lambda made: made.kinds is None and classed(made) == classed(result)


def shorter(lines, place):
    """The lines without one of them, or with a call of a word less."""
    if not lines[place].startswith("call "):
        return [[*lines[:place], *lines[place + 1:]]]
    words = lines[place].split(" ")
    return [[*lines[:place], " ".join(words[:at] + words[at + 1:]), *lines[place + 1:]] for at in range(1, len(words))]


def shortened(done, before, folder):
    """What a fetch did, by what it changed."""
    changed = {name: done.refs.get(name) for name in {**before.refs, **done.refs} if before.refs.get(name) != done.refs.get(name)}
    return done._replace(refs=changed, said=done.said.replace(folder, ""))


def answer_of(said):
    """What was said, as a sample shows it."""
    rows = ["\t".join([row["kind"], *(row[name] for name in FIELDS if row.get(name))]) for row in said.rows]
    return [f"status {said.status}", *rows]
