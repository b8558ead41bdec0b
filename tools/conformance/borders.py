#!/usr/bin/env python3
"""Looks at whether the tables are minimal, by the reference of conformance/: tools/conformance/borders.py [--mistakes]

The reference is run with each of its conditions watched: a decision is a condition, from where it is asked, and how it ended. The
borders of a case are the sets of so many decisions as STRENGTH says that it takes, and the classes of what is given. Each case has to
have a border that no other case of its table has, so none can be left out. The reference has to answer each case as its table does.

With --mistakes it also tries each small mistake in the reference (a condition negated, a comparison or a constant changed), and says
how many of them the tables notice, and which not. That takes some minutes.
"""
import argparse
import ast
import collections
import itertools
import os
import re
import sys

HERE = os.path.dirname(os.path.abspath(__file__))
CONFORMANCE = os.path.join(HERE, os.pardir, os.pardir, "conformance")
sys.dont_write_bytecode = True
sys.path[:0] = [HERE, CONFORMANCE, os.path.join(HERE, os.pardir, "oracle")]
import examples
import known
import reference
import tables

FAULTS = [("empty component", rb"\A/|//|/\Z"), ("dot first", rb"(\A|/)\."), ("lock", rb"\.lock(/|\Z)"), ("dot last", rb"\.\Z"),
          ("two dots", rb"\.\."), ("reflog", rb"@\{"), ("byte", rb"[\x00-\x20\x7f~^:?\[\\]")]
STRENGTH = {"validity": 2, "names": 3, "canonical": 3, "equality": 2, "forward": 2, "backward": 2, "candidates": 3, "validation": 2,
            "plans": 2, "stale": 2, "prefixes": 2, "upstreams": 2}
MANY = 1 << 16  # decisions, at most
# The bounds of comparisons, moved by one.
COMPARISONS = {ast.Lt: ast.LtE, ast.LtE: ast.Lt, ast.Gt: ast.GtE, ast.GtE: ast.Gt}


def source():
    with open(os.path.join(CONFORMANCE, "reference.py"), encoding="utf-8") as file:
        return ast.parse(file.read())


def conditions(tree):
    """The places of the conditions of a program, each with its node: what a branch, a filter or `and`, `or` and `not` asks."""
    functions = [node for node in tree.body if isinstance(node, ast.FunctionDef)]
    for node in itertools.chain(*map(ast.walk, functions)):
        for field, value in ast.iter_fields(node):
            if field == "test" or field == "operand" and isinstance(node.op, ast.Not):
                yield node, field, None, value
            elif field == "ifs" or field == "values" and isinstance(node, ast.BoolOp):
                for index, one in enumerate(value):
                    yield node, field, index, one
            elif isinstance(value, ast.Call) and getattr(value.func, "id", "") == "any" and isinstance(value.args[0], ast.GeneratorExp):
                yield value.args[0], "elt", None, value.args[0].elt


def put(place, made):
    node, field, index, _ = place
    if index is None:
        setattr(node, field, made)
    else:
        getattr(node, field)[index] = made


def run(tree):
    names = {"__name__": "reference"}
    exec(compile(ast.fix_missing_locations(tree), "reference.py", "exec"), names)
    return names["answer"]


class Watched:
    """The reference, with its conditions watched. One that is asked from several places is several ones."""

    def __init__(self):
        tree, self.seen, self.numbers = source(), set(), {}
        for number, place in enumerate(list(conditions(tree))):
            call = ast.Call(ast.Name("_see", ast.Load()), [ast.Constant(number), place[3]], [])
            put(place, call)
        names = {"__name__": "reference", "_see": self.see}
        exec(compile(ast.fix_missing_locations(tree), "reference.py", "exec"), names)
        self.answer = names["answer"]

    def see(self, number, value):
        calls, frame = [], sys._getframe(1)
        while frame.f_code.co_name != "answer":
            calls.append(frame.f_lineno)
            frame = frame.f_back
        decision = (number, bool(value), *calls)
        self.seen.add(self.numbers.setdefault(decision, len(self.numbers)))
        return value

    def decisions(self, kind, given):
        self.seen.clear()
        answer = self.answer(kind, tables.with_ids(given))
        return answer, frozenset(self.seen)

    def answered(self, kind, given):
        """The answer to a case, and its borders."""
        answer, decisions = self.decisions(kind, given)
        return answer, sets_of(kind, decisions) | classes(kind, given, answer)


def kind_of_side(side):
    """What a side is, in words: what git-check-ref-format(1) and gitrevisions(7) tell apart."""
    if not side or side in (b"@", b"HEAD"):
        return "none" if side is None else side.decode()
    if side.count(b"*") > 1:
        return "several stars"
    fault = next((word for word, pattern in FAULTS if re.search(pattern, side.replace(b"*", b"a"))), None)
    hex_ = re.fullmatch(rb"[0-9a-fA-F]{40,}", side) and ("id" if len(side) in (40, 64) else "long hex")
    return (fault or hex_ or ("full" if side.startswith(b"refs/") else "partial")) + " pattern" * (b"*" in side)


def form_of(text):
    """The sign of a text, and what its sides are."""
    mode, *sides = reference.parts_of(text)
    return (mode, *map(kind_of_side, sides))


def outline_of(text):
    """The sign of a text, and which of its sides stand for other ones or are missing."""
    return tuple(part if part in ("", "@", "HEAD", "none", b"", b"+", b"^") else "other" for part in form_of(text))


def classes(kind, given, answer):
    """Borders of what is given itself: those of its kind, and to be the smallest case of a known difference from Git."""
    cells = tuple(tables.given_cells(kind, given))
    return classes_of_kind(kind, given, answer) | ({cells} if cells in examples.CELLS.get(kind, ()) else set())


def classes_of_kind(kind, given, answer):
    """The classes of a case: of a text the kinds of its sides, and its sign with the first; of a pair the outlines of both;
    of a name the byte between two letters; of a group the form of each spec, and whether it maps nothing, one ref or several, and the kinds
    of two sides that are matched; of a partial source which two of its candidates there are; of other lists what their texts are,
    and what the answer is."""
    if kind in ("validity", "canonical"):
        mode, source, destination = form_of(given["text"])
        signed = (mode, source, destination) if source == "" else (mode, source)
        return {(given["operation"], source, destination), (given["operation"], *signed)}
    if kind == "equality":
        return {(given["operation"], outline_of(given["one"]), outline_of(given["other"]))}
    if kind == "names":
        is_byte = given["form"] == "name" and re.fullmatch(rb"x/a.b", given["name"], re.S)
        return {(given["form"], kind_of_side(given["name"])), is_byte and given["name"]}
    if kind in ("forward", "backward"):
        forms = [form_of(text) for text in given["specs"]]
        mapped = {(*form, min(answer["spec"].count(index), 2)) for index, form in enumerate(forms)}
        needles = [form[1] if kind == "forward" or form[0] == b"^" else form[2] for form in forms]
        return mapped | set(itertools.combinations(needles, 2)) | {faults_of(kind, given, answer)}
    if kind == "plans":
        return {(column, row[0], kind_of_side(row[1]), kind_of_side(row[2] if row[2:] else None))
                for column in ("updates", "left_out", "overruled", "nested", "conflicts") for row in answer[column]}
    if kind == "stale":
        return {(*form_of(text)[1:], bool(answer["stale"]), bool(answer["kept"])) for text in given["specs"]}
    if kind == "validation":
        return {(*form_of(text)[1:], min(len(answer[column]), 2)) for text in given["specs"] for column in ("fixes", "conflicts")}
    if kind == "prefixes":
        return {(form_of(text)[1:][0], answer["ask"]) for text in given["specs"]}
    if kind == "upstreams":
        merge, is_found = given["merge"], bool(answer["upstream"])
        named = {(*form_of(text), reference.parts_of(text)[1] == merge, is_found) for text in given["values"]}
        return named | {(kind_of_side(merge), is_found)}
    if kind == "candidates":
        names = [ref.name for ref in given["refs"]]
        there = [(index, name in names) for index, name in enumerate(reference.candidates(given["source"]))]
        return {(given["source"], *two) for two in itertools.combinations(there, 2)}
    return set()


def faults_of(kind, given, answer):
    """The known faults of the Rust crate that a group shows: a pattern whose ends overlap in a name, also one that excludes, and mappings
    with one hash."""
    command, names = {"forward": "lhs", "backward": "rhs"}[kind], [ref.name for ref in given["refs"]]
    text = known.lines(given["specs"], *(b"ref 1 " + name for name in names))
    group = known.Group(command, text)
    excluded = any(group.excludes_too_much(row[0]) for row in answer["mappings"])
    return group.panics(), excluded, all(tuple(twin) in answer["mappings"] for twin in known.TWINS)


def sets_of(kind, decisions):
    """The borders of decisions, each set as a number."""
    made = set()
    for some in itertools.combinations(sorted(decisions), min(STRENGTH[kind], len(decisions))):
        number = 0
        for one in some:
            number = number * MANY + one + 1
        made.add(number)
    return made


def without_borders(kind, cases, watched):
    """The cases that have no border of their own, and the number of borders."""
    found, counts = [], collections.Counter()
    for case in cases:
        answer, mine = watched.answered(kind, case.given)
        if answer != case.answer:
            sys.exit(f"borders: {kind} {case.given}: the reference answers {answer}, and the table {case.answer}")
        found.append(mine)
        counts.update(mine)
    return [case for case, mine in zip(cases, found) if not any(counts[one] == 1 for one in mine)], len(counts)


def changed_constant(value):
    if isinstance(value, bool) or value is None:
        return None
    if isinstance(value, int):
        return value + 1
    if isinstance(value, bytes):
        return value + b"x"
    return None


def mistakes():
    """The function of each small mistake, what it is, and the reference with it."""
    for number, place in enumerate(list(conditions(source()))):
        tree = source()
        put(list(conditions(tree))[number], ast.UnaryOp(ast.Not(), place[3]))
        yield function_at(tree, place[3]), f"line {place[3].lineno}: not {ast.unparse(place[3])}", tree
    for number, node in enumerate(ast.walk(source())):
        tree = source()
        mine = list(ast.walk(tree))[number]
        if isinstance(node, ast.Compare) and type(node.ops[0]) in COMPARISONS:
            mine.ops[0] = COMPARISONS[type(node.ops[0])]()
            yield function_at(tree, node), f"line {node.lineno}: {ast.unparse(mine)}", tree
        elif isinstance(node, ast.Constant) and changed_constant(node.value) is not None:
            mine.value = changed_constant(node.value)
            yield function_at(tree, node), f"line {node.lineno}: {node.value!r} changed", tree


def function_at(tree, node):
    """The name of the function around a node, or None."""
    return next((one.name for one in tree.body if isinstance(one, ast.FunctionDef) and one.lineno <= node.lineno <= one.end_lineno), None)


def functions_of(cases, kind):
    """The names of the functions that the reference calls for cases."""
    answer, called = run(source()), {None}

    def see(frame, event, _):
        if event == "call" and frame.f_code.co_filename == "reference.py":
            called.add(frame.f_code.co_name)
    sys.setprofile(see)
    for case in cases:
        answer(kind, tables.with_ids(case.given))
    sys.setprofile(None)
    return called


def is_noticed(tree, every):
    """Whether a mistaken reference answers some case otherwise, or fails."""
    try:
        answer = run(tree)
        return any(answer(kind, tables.with_ids(case.given)) != case.answer for kind, cases in every.items() for case in cases)
    except Exception:
        return True


def try_mistakes(every):
    """Prints how many mistakes the tables notice, and the others."""
    called, unnoticed, count = {kind: functions_of(cases, kind) for kind, cases in every.items()}, [], 0
    for function, words, tree in mistakes():
        count += 1
        if not is_noticed(tree, {kind: cases for kind, cases in every.items() if function in called[kind]}):
            unnoticed.append(words)
    print(f"borders: {count - len(unnoticed)} of {count} mistakes in the reference are noticed; not these:")
    print(*(f"    {words}" for words in unnoticed), sep="\n")


def main():
    parser = argparse.ArgumentParser(description=__doc__, formatter_class=argparse.RawDescriptionHelpFormatter)
    parser.add_argument("--mistakes", action="store_true", help="try mistakes in the reference too")
    options = parser.parse_args()
    watched, every, failed = Watched(), {}, False
    for kind in tables.KINDS:
        every[kind] = tables.read_table(kind)[1]
        needless, count = without_borders(kind, every[kind], watched)
        print(f"borders: {kind}: {len(every[kind])} cases, {count} borders, {len(needless)} cases without one of their own")
        for case in needless[:3]:
            print(f"    {case.given}")
        failed |= bool(needless)
    if options.mistakes:
        try_mistakes(every)
    sys.exit(int(failed))


if __name__ == "__main__":
    main()
