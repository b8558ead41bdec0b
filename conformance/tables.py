"""The tables of this folder: their kinds, columns and cells, and the lines of JSON of a case. README.md says what the columns mean.

A cell is a word, a text, a list of texts, of refs, of rows or of numbers. An element of a list has no space, and a part of a row no
colon. A byte that isn't printable ASCII, a backslash, and a byte that a list would split at are written \\xHH, an empty text
`\\e`, and an empty list, or no value, `-`.
"""
import collections
import json
import os
import re
import sys

HERE = os.path.dirname(os.path.abspath(__file__))
GIT = "git-"  # begins the column of Git's answers, whose version follows
# The columns of a kind: what is given, and what is answered, each with what its cells are. Of the answers `optional` are those that a
# program may leave out. Of an unordered kind the lists of an answer may have any order.
Kind = collections.namedtuple("Kind", "given answers optional has_git")
Ref = collections.namedtuple("Ref", "name id object")
# A case: the cells that are given and answered by their columns, Git's answer as a cell, and the rule by which it differs.
Case = collections.namedtuple("Case", "given answer git rule")

LISTS = {"specs": "texts", "refs": "refs"}
KINDS = {
    "validity": Kind({"operation": "word", "text": "text"}, {"valid": "word", "reason": "word"}, ["reason"], True),
    "names": Kind({"form": "word", "name": "text"}, {"valid": "word"}, [], True),
    "canonical": Kind({"operation": "word", "text": "text"}, {"canonical": "text"}, [], False),
    "equality": Kind({"operation": "word", "one": "text", "other": "text"}, {"equal": "word"}, [], False),
    "forward": Kind(LISTS, {"mappings": "rows", "spec": "numbers"}, ["spec"], True),
    "backward": Kind(LISTS, {"mappings": "rows", "spec": "numbers"}, ["spec"], True),
    "candidates": Kind({"source": "text", "refs": "refs"}, {"ref": "texts"}, [], True),
    "validation": Kind(LISTS, {"mappings": "rows", "fixes": "texts", "conflicts": "rows"}, [], True),
    "plans": Kind({"given": "texts", "configured": "texts", "merges": "texts", "tags": "word", "refs": "refs"},
                  {"updates": "rows", "left_out": "rows", "overruled": "rows", "nested": "rows", "conflicts": "rows",
                   "missing": "texts"}, [], True),
    "stale": Kind({"specs": "texts", "remote": "refs", "local": "texts"}, {"stale": "texts", "kept": "texts"}, ["kept"], True),
    "prefixes": Kind({"specs": "texts"}, {"ask": "word", "prefixes": "texts"}, [], True),
    "upstreams": Kind({"values": "texts", "merge": "text"}, {"upstream": "texts"}, [], True),
}


# Cells

def escaped(text, more=b""):
    made = "".join(chr(byte) if 32 < byte < 127 and byte not in b"\\" + more else f"\\x{byte:02x}" for byte in text)
    return "\\e" if made == "" else "\\x2d" if made == "-" else made


def plain(cell):
    if cell == "\\e":
        return b""
    return re.sub(r"\\x([0-9a-f]{2})", lambda found: chr(int(found[1], 16)), cell).encode("latin-1")


def ref_cell(ref):
    return "=".join(escaped(part, b"=") for part in ref if part is not None)


def ref_of(cell):
    name, *ids = map(plain, cell.split("="))
    return Ref(name, *ids, *[None] * (2 - len(ids)))


def element_of(sort, cell):
    if sort == "refs":
        return ref_of(cell)
    if sort == "rows":
        return tuple(map(plain, cell.split(":")))
    return int(cell) if sort == "numbers" else plain(cell)


def element_cell(sort, value):
    if sort == "refs":
        return ref_cell(value)
    if sort == "rows":
        return ":".join(escaped(part, b":") for part in value)
    return str(value) if sort == "numbers" else escaped(value)


def cell_of(sort, value):
    if sort == "word":
        return value
    if sort == "text":
        return escaped(value)
    return " ".join(element_cell(sort, one) for one in value) or "-"


def value_of(sort, cell):
    if sort == "word":
        return cell
    if sort == "text":
        return plain(cell)
    return [] if cell == "-" else [element_of(sort, one) for one in cell.split(" ")]


# Tables

def path_of(kind):
    return os.path.join(HERE, kind + ".tsv")


def columns_of(kind, version):
    made = [*KINDS[kind].given, *KINDS[kind].answers]
    return [*made, GIT + version, "rule"] if KINDS[kind].has_git else made


def given_cells(kind, given):
    return [cell_of(sort, given[column]) for column, sort in KINDS[kind].given.items()]


def lines_of(kind, version, cases):
    """The lines of a table, in the order of what is given."""
    lines = []
    for case in cases:
        cells = given_cells(kind, case.given) + [cell_of(sort, case.answer[column]) for column, sort in KINDS[kind].answers.items()]
        lines.append("\t".join(cells + [case.git, case.rule] * KINDS[kind].has_git))
    return ["\t".join(columns_of(kind, version)), *sorted(lines)]


def case_of(kind, line):
    cells = line.split("\t")
    columns = KINDS[kind]
    split = len(columns.given), len(columns.given) + len(columns.answers)
    given = {column: value_of(sort, cell) for (column, sort), cell in zip(columns.given.items(), cells)}
    answer = {column: value_of(sort, cell) for (column, sort), cell in zip(columns.answers.items(), cells[split[0]:])}
    git, rule = cells[split[1]:] if columns.has_git else ("-", "-")
    return Case(given, answer, git, rule)


def read_lines(kind):
    with open(path_of(kind), encoding="ascii") as file:
        return file.read().split("\n")[:-1]


def read_table(kind):
    """The version of Git, or None, and the cases of a table."""
    head, *lines = read_lines(kind)
    version = re.search(r"\tgit-(\S+)\trule$", head)
    return version and version[1], [case_of(kind, line) for line in lines]


# JSON

def json_value(sort, value):
    """A value for JSON, whose strings have a character for each byte."""
    if sort in ("word", "numbers"):
        return value
    if sort == "text":
        return value.decode("latin-1")
    if sort == "texts":
        return [one.decode("latin-1") for one in value]
    if sort == "rows":
        return [[part.decode("latin-1") for part in row] for row in value]
    return [{name: part.decode("latin-1") for name, part in ref._asdict().items() if part is not None} for ref in value]


def from_json(sort, value):
    if sort in ("word", "numbers"):
        return value
    if sort == "text":
        return value.encode("latin-1")
    if sort == "texts":
        return [one.encode("latin-1") for one in value]
    if sort == "rows":
        return [tuple(part.encode("latin-1") for part in row) for row in value]
    return [Ref(*(ref[name].encode("latin-1") if name in ref else None for name in Ref._fields)) for ref in value]


def with_ids(given):
    """What is given, with an id for each ref that has none: 40 digits, of the number of the ref."""
    return {column: [ref if ref.id else ref._replace(id=b"%040d" % number) for number, ref in enumerate(value, 1)]
            if column in ("refs", "remote") else value for column, value in given.items()}


def request_of(kind, given):
    made = {column: json_value(KINDS[kind].given[column], value) for column, value in with_ids(given).items()}
    return json.dumps({"kind": kind, **made})


def serve(answer):
    """Answers the cases of the standard input by a function of the kind and what is given. It returns the answer by column, or None
    if the program has none to give."""
    for line in sys.stdin:
        request = json.loads(line)
        kind = request.pop("kind")
        given = {column: from_json(KINDS[kind].given[column], value) for column, value in request.items()}
        made = answer(kind, given)
        sorts = KINDS[kind].answers
        print(json.dumps(made and {column: json_value(sorts[column], value) if column in sorts else value
                                   for column, value in made.items()}), flush=True)
