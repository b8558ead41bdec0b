#!/usr/bin/env python3
"""Compares two programs, the original crate behind the commands of this one and this one: `canon fetch` and
`canon push` over texts, `lhs`, `rhs` and `plan` over groups of specs and refs, those of tests and generated
ones. It sorts what they answer differently into kinds. A kind that is not known is a failure. So are a plan
that isn't made of what this program's `lhs` maps, and an answer that has both programs alike where a partial
source has to make them differ.

With --samples FOLDER it writes the texts and groups of tests and a part of the generated ones, with the
original's answers, for tests/refspec_map/replay.py. Where the two differ in known kinds, it writes these kinds and this
program's answer.
"""
import argparse
import os
import random
import re
import subprocess
import sys
from concurrent.futures import ThreadPoolExecutor

sys.dont_write_bytecode = True
import groups  # beside this script, as the next three
import known
import original
import specs

# Groups are long where, with their answers, they have more bytes.
LONG_GROUP = 450
SAME = "both map every candidate of a partial source"
UNPLANNED = "this plan is not made of what lhs maps"
MADE = """\
# The other answers are those of the Rust crate gix-refspec 0.45.1, with small stand-ins for gix-hash and
# gix-validate, behind the commands of refspec_map.
# {things} chosen by
#   tools/oracle/compare.py ORIGINAL PROGRAM --specs {options.specs} --groups {options.groups} --seed {options.seed} --samples FOLDER
"""
TEXTS = """\
The texts are those of tools/oracle/rows, each byte but the newline before, between and after letters, and
# others that are"""
GROUPS = "The groups are those of tools/oracle/rows, and others that are"
CANON_HEAD = """\
# Lines of three fields, separated by tabs: the operation, a text, and what `canon` answers to it. A byte
# beyond the printable ones of ASCII, and the backslash, are written \\xHH.
# A fourth field, after `! `, says what the Rust crate is known to do otherwise. The answer is then that of
# this program.
""" + MADE
GROUP_HEAD = """\
# Groups, separated by empty lines: the lines of an input after `< `, and those that `{command}` answers
# after `> `. A byte beyond the printable ones of ASCII, except the tabs of an answer, the backslash, and
# a space at the end of a line are written \\xHH.
# A line after `! ` says what the Rust crate is known to do otherwise. The answer is then that of this
# program.
""" + MADE


def answers(program, operation, batch):
    text = b"".join(one + b"\n" for one in batch)
    made = subprocess.run([program, "canon", operation], input=text, stdout=subprocess.PIPE, check=False)
    lines = made.stdout.split(b"\n")
    if made.returncode not in (0, 1) or lines.pop() != b"" or len(lines) != len(batch):
        sys.exit(f"compare: {program} canon {operation}: status {made.returncode},"
                 f" {len(lines)} lines for {len(batch)} texts, the last {lines[-1:]!r}")
    if made.returncode != any(line.startswith(b"err ") for line in lines):
        sys.exit(f"compare: {program} canon {operation}: status {made.returncode} does not fit the lines")
    return lines


def group_answer(program, command, text):
    """What is printed, and the status."""
    made = subprocess.run([program, command], input=text, stdout=subprocess.PIPE, check=False)
    return made.stdout, made.returncode


def kind_of(operation, text, theirs, ours):
    if theirs.startswith(b"ok ") and ours.startswith(b"ok ") and known.is_plus(operation, text, theirs[3:], ours[3:]):
        return known.PLUS
    words = [answer.decode("latin-1") if answer.startswith(b"err ") else "ok with a text" for answer in (theirs, ours)]
    return f"{operation}: the original has {words[0]}, this has {words[1]}"


def escaped(text):
    return "".join(chr(byte) if 32 <= byte < 127 and byte != 92 else f"\\x{byte:02x}" for byte in text)


def class_of(operation, text, answer, kinds):
    """Alike answers: a refusal, or the form of an accepted text; long texts are few."""
    if kinds:
        return operation, *kinds
    if len(text) > 100:
        return operation, "long"
    if answer.startswith(b"err "):
        return operation, answer
    return operation, text[:1] if text[:1] in (b"+", b"^") else b"", text.count(b":"), text.count(b"*")


def class_of_group(text, answer, kinds):
    """Alike answers: of known kinds; a bad line; whether there are several conflicts, and of how many sources;
    whether there are several fixes, and mappings beside them; or the forms of the last spec that maps a ref,
    whether there are several mappings, and whether a spec excludes or stands twice; long groups without
    conflicts are few."""
    if kinds:
        return (*kinds, len(text) + len(answer) > LONG_GROUP)
    if answer.startswith(b"conflict\t"):
        sources = max(line.count(b"\t") // 2 for line in answer.split(b"\n"))
        return ("conflicts", answer.count(b"\n") > 1, sources, len(text) > LONG_GROUP)
    if len(text) + len(answer) > LONG_GROUP:
        return ("long",)
    if answer.startswith(b"line "):
        return ("bad line", answer.split(b" ", 2)[2])
    texts = [line[5:].lstrip(b"+") for line in text.split(b"\n") if line.startswith(b"spec ")]
    kind = (any(one.startswith(b"^") for one in texts), len(set(texts)) < len(texts))
    fixes = sum(line.startswith(b"fix\t") for line in answer.split(b"\n"))
    if fixes:
        return ("fixes", fixes > 1, answer.startswith(b"map\t"), *kind)
    found = known.mappings(answer)
    if not found:
        return ("none", *kind)
    return (*map(known.form_of, known.sides(texts[int(found[-1][0])])), len(found) > 1, *kind)


def chosen_of(classes, wanted, chooser):
    """A fixed choice, with as many of each class as there are, up to a share."""
    chosen = []
    while len(chosen) < wanted and any(classes.values()):
        for members in classes.values():
            if members and len(chosen) < wanted:
                chosen.append(members.pop(chooser.randrange(len(members))))
    return sorted(chosen)


def classes_by(class_of_one, answered):
    """The classes, first those of known kinds."""
    classes = {}
    for one in sorted(answered, key=lambda one: (one[-1] == (), one)):
        classes.setdefault(class_of_one(*one), []).append(one)
    return classes


def sampled(answered, is_of_tests, class_of_one, wanted, options):
    """What is of tests, with a choice of what isn't, and words on how many these are."""
    of_tests = [one for one in answered if is_of_tests(one)]
    classes = classes_by(class_of_one, (one for one in answered if not is_of_tests(one)))
    chosen = chosen_of(classes, wanted, random.Random(options.seed))
    own = sum(one[-1] != () for one in of_tests + chosen)
    return sorted(of_tests + chosen), (f"{len(of_tests)} of tests and {len(chosen)} of {len(classes)} classes,"
                                       f" {own} of them with this program's answer")


def write_canon_sample(answered, options):
    rows = set(specs.rows())
    stored, words = sampled(answered, lambda one: one[1] in rows, class_of, options.sample_size, options)
    path = os.path.join(options.samples, "canon.sample")
    with open(path, "w", encoding="ascii") as file:
        file.write(CANON_HEAD.format(things=TEXTS, options=options))
        for operation, text, answer, kinds in stored:
            fields = [operation, escaped(text), escaped(answer), *(f"! {kind}" for kind in kinds)]
            file.write("\t".join(fields) + "\n")
    print(f"compare: texts, {words}, in {path}")


def stored_line(fields):
    return re.sub(" $", r"\\x20", "\t".join(map(escaped, fields))) + "\n"


def write_group_sample(command, answered, options):
    rows = set(groups.rows())
    stored, words = sampled(answered, lambda one: one[0] in rows, class_of_group, options.sample_size // 4, options)
    path = os.path.join(options.samples, f"{command}.sample")
    with open(path, "w", encoding="ascii") as file:
        file.write(GROUP_HEAD.format(command=command, things=GROUPS, options=options))
        for text, answer, kinds in stored:
            file.write("\n")
            file.writelines("< " + stored_line([line]) for line in text.split(b"\n")[:-1])
            file.writelines(f"! {kind}\n" for kind in kinds)
            file.writelines("> " + stored_line(line.split(b"\t")) for line in answer.split(b"\n")[:-1])
    print(f"compare: groups, {words}, in {path}")


def report(kinds):
    """Prints each kind, and gives the number of differences of unknown ones."""
    unknown = 0
    for kind, found in sorted(kinds.items()):
        is_known = kind in (known.PLUS, *known.KINDS)
        unknown += 0 if is_known else len(found)
        _, text, their, our = min(found)
        print(f"compare: {len(found)} times {kind}{' (known)' * is_known}; the smallest {escaped(text)!r}:"
              f" {escaped(their)!r}, {escaped(our)!r}")
    return unknown


def alike(answered):
    return sum(one[-1] == () for one in answered)


def compare_texts(options):
    texts = sorted({*specs.rows(), *specs.generated(options.specs, options.seed)})
    kinds, answered, refused = {}, [], 0
    for operation in ("fetch", "push"):
        for batch in original.batches(texts):
            theirs = answers(options.original, operation, batch)
            ours = answers(options.program, operation, batch)
            for text, their, our in zip(batch, theirs, ours):
                refused += their.startswith(b"err ")
                kind = None if their == our else kind_of(operation, text, their, our)
                if kind in (None, known.PLUS):
                    answered.append((operation, text, our, (kind,) if kind else ()))
                if kind:
                    kinds.setdefault(kind, []).append((len(text), text, their, our))
    print(f"compare: {len(texts)} texts in 2 operations; {alike(answered)} answered alike; the original refuses {refused}")
    if options.samples:
        write_canon_sample(answered, options)
    return report(kinds)


def planned(text, mapped, options):
    """What `plan` has to answer where the program's `lhs` answers so."""
    if mapped[1] != 0:
        return mapped
    canonical = answers(options.program, "fetch", known.Group("plan", text).specs)
    return known.plan_of(known.mappings(mapped[0]), [line.removeprefix(b"ok ") for line in canonical])


def kinds_of_answers(ask, command, text, theirs, ours, options):
    """In what the answers to a group differ. A plan does only where the mappings of `lhs` do, and is made of
    them."""
    mapped = ours
    if command == "plan":
        mapped = group_answer(options.program, "lhs", text)
        if ours != planned(text, mapped, options):
            return [UNPLANNED]
    if theirs == ours and ours[1] == ours[0].startswith((b"line ", b"conflict\t")):
        return [SAME] if known.maps_later(ask, command, text, ours) else []
    unknown = [f"{command}: status {theirs[1]} there and {ours[1]} here"]
    if command == "plan":
        command, theirs = "lhs", ask("lhs", text)
    return known.kinds_of(ask, command, text, theirs, mapped) or unknown


def compare_groups(command, options):
    def ask(of, text):
        return group_answer(options.original, of, text)

    def both(text):
        """A text, both answers, and the kinds of their difference."""
        theirs, ours = ask(command, text), group_answer(options.program, command, text)
        return text, theirs, ours, kinds_of_answers(ask, command, text, theirs, ours, options)

    texts = sorted({*groups.rows(), *groups.generated(options.groups, options.seed)})
    kinds, answered, mapped, bad = {}, [], 0, 0
    with ThreadPoolExecutor(options.jobs) as pool:
        for text, theirs, ours, found in pool.map(both, texts):
            bad += ours[0].startswith(b"line ")
            mapped += ours[0].count(b"map\t")
            if set(found) <= set(known.KINDS):
                answered.append((text, ours[0], tuple(found)))
            for kind in found:
                kinds.setdefault(kind, []).append((len(text), text, theirs[0], ours[0]))
    print(f"compare: {len(texts)} groups for {command}; {alike(answered)} answered alike; this program finds"
          f" {mapped} mappings, and {bad} groups with a bad line")
    if options.samples:
        write_group_sample(command, answered, options)
    return report(kinds)


def main():
    parser = argparse.ArgumentParser(description=__doc__, formatter_class=argparse.RawDescriptionHelpFormatter)
    parser.add_argument("original")
    parser.add_argument("program")
    parser.add_argument("--specs", type=int, default=40_000, help="how many random texts")
    parser.add_argument("--groups", type=int, default=20_000, help="how many random groups")
    parser.add_argument("--seed", type=int, default=1)
    parser.add_argument("--jobs", type=int, default=2, help="how many groups are asked about at a time")
    parser.add_argument("--samples", help="a folder to write the samples for tests/refspec_map/replay.py into")
    parser.add_argument("--sample-size", type=int, default=600, help="texts of the one; a quarter as many groups")
    options = parser.parse_args()
    original.need("compare", options.original, options.program)

    unknown = compare_texts(options)
    for command in ("lhs", "rhs", "plan"):
        unknown += compare_groups(command, options)
    if unknown:
        sys.exit(f"compare: {unknown} differences of unknown kinds")


if __name__ == "__main__":
    main()
