#!/usr/bin/env python3
"""Checks the tables of conformance/: tools/conformance/check.py

Each is well-formed: its columns are those of its kind, each cell is in its one form, the lines are in order, and no case is a
duplicate; there is a rule exactly where Git differs, and README.md there explains it. The Git on the PATH, if it is the one that was
asked or a later one, still answers so to single texts and names, and to fetch values and merged refs.
"""
import collections
import glob
import os
import re
import shutil
import sys
import tempfile
from concurrent.futures import ThreadPoolExecutor

sys.dont_write_bytecode = True
import gitanswers  # beside this script
import tables

ENOUGH = 2500
CHEAP = ("validity", "names", "upstreams")


def fail(kind, number, what):
    sys.exit(f"tools/conformance/check.py: line {number} of {kind}.tsv: {what}")


def check_line(kind, number, line, rules):
    case = tables.case_of(kind, line)
    cells = line.split("\t")
    sorts = {**tables.KINDS[kind].given, **tables.KINDS[kind].answers}
    written = [tables.cell_of(sort, value) for sort, value in zip(sorts.values(), [*case.given.values(), *case.answer.values()])]
    if cells[:len(written)] != written:
        fail(kind, number, f"{cells}, and not {written}")
    if (case.rule == "-") != (case.git in ("-", "=")):
        fail(kind, number, f"the rule {case.rule} for Git's answer {case.git}")
    for rule in case.rule.split(","):
        if rule not in rules:
            fail(kind, number, f"README.md doesn't explain the rule {rule}")
    return case


def check_table(kind, rules):
    head, *lines = tables.read_lines(kind)
    version = re.search(r"\tgit-(\S+)\t", head)
    if head.split("\t") != tables.columns_of(kind, version and version[1]):
        fail(kind, 1, "other columns than those of its kind")
    if lines != sorted(lines):
        fail(kind, 1, "the lines aren't in order")
    cases = [check_line(kind, number, line, rules) for number, line in enumerate(lines, 2)]
    counts = collections.Counter(tuple(tables.given_cells(kind, case.given)) for case in cases)
    duplicates = [given for given, count in counts.items() if count > 1]
    if duplicates:
        fail(kind, 1, f"{duplicates[0]} is a duplicate")
    return version and version[1], cases


def check_known(rules):
    """Checks that the rules of known differences are explained too, and no other ones."""
    used = set()
    for path in glob.glob(os.path.join(tables.HERE, "known", "*.tsv")):
        with open(path, encoding="ascii") as file:
            used |= {line.split("\t")[1] for line in file.read().split("\n")[1:-1]}
    if used != rules:
        sys.exit(f"tools/conformance/check.py: README.md explains other known rules than there are: {sorted(used ^ rules)}")


def rules_of(page, heading):
    """The rules that a section of the page explains."""
    section = re.search(rf"^## {heading}$(.*?)^## ", page, re.M | re.S)[1]
    return set(re.findall(r"^`([a-z0-9-]+)` \|", section, re.M))


def numbers(version):
    return [int(part) for part in re.findall(r"\d+", version)]


def check_git(kind, cases, git):
    with ThreadPoolExecutor(2) as pool:
        answers = list(pool.map(lambda case: git.answer(kind, case.given, case.answer)[0], cases))
    for case, answer in zip(cases, answers):
        if case.git != answer:
            sys.exit(f"tools/conformance/check.py: {kind}: {case.given}: Git {git.version} answers {answer}, and the table has {case.git}")
    return sum(case.git != "-" for case in cases)


def main():
    with open(os.path.join(tables.HERE, "README.md"), encoding="utf-8") as file:
        page = file.read()
    rules = {"-", *rules_of(page, "Rules")}
    check_known(rules_of(page, "Drivers"))
    read = {kind: check_table(kind, rules) for kind in tables.KINDS}
    count = sum(len(cases) for _, cases in read.values())
    if count < ENOUGH:
        sys.exit(f"tools/conformance/check.py: {count} cases, and not {ENOUGH}")
    judged = sum(case.git != "-" for _, cases in read.values() for case in cases)
    used = {rule for _, cases in read.values() for case in cases for rule in case.rule.split(",")}
    if rules - used:
        sys.exit(f"tools/conformance/check.py: README.md explains rules that no case has: {sorted(rules - used)}")
    print(f"conformance: {count} cases in {len(read)} tables, {judged} of them with Git's answer, well-formed")
    if shutil.which("git") is None:
        print("conformance: Git isn't asked, as there is none on the PATH")
        return
    with tempfile.TemporaryDirectory() as folder:
        git = gitanswers.Texts(folder)
        stored = read["validity"][0]
        if numbers(git.version) < numbers(stored):
            print(f"conformance: Git isn't asked, as {git.version} is older than {stored}")
            return
        asked = {kind: check_git(kind, read[kind][1], git) for kind in CHEAP}
        print(f"conformance: Git {git.version} answers so to", ", ".join(f"{number} cases of {kind}" for kind, number in asked.items()))


if __name__ == "__main__":
    main()
