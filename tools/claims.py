#!/usr/bin/env python3
"""Checks what docs/ says of the crates' contracts: tools/claims.py [--write]

An edit of edits/ says in lines of its own what it shows: `claim:`, then the `function:`, the `clause:` if it has a name, and the
`test:`. With `claim: as EDIT` it belongs to the first claim of that edit. docs/CLAIMS-TABLE.md has a row of each claim, with the
names of its edits; --write writes these rows anew, where they are, and puts a new one behind the others of its crate. Rows whose
edits are `none`, the laws and the order of the rows are the page's own.

Without --write the page has to have these rows already. Each function, clause and test in it has to exist. Each text that an
edit of code or of a definition replaces has to be in its file once, and the facts that a changed definition names have to exist.
Each block of docs/CALLING.md and docs/C.md that begins with the path of a file has to be in that file, in one piece or in pieces
between lines of `...`.
"""
import collections
import re
import sys
from pathlib import Path

sys.dont_write_bytecode = True
import kit  # beside this script

TABLE = kit.ROOT / "docs" / "CLAIMS-TABLE.md"
QUOTING = [kit.ROOT / "docs" / name for name in ("CALLING.md", "C.md")]
COLUMNS = ["Claim", "Function", "Clause", "Wrong bodies", "Test"]
SPAN = re.compile(r"`([^`]+)`")
QUOTE = re.compile(r"^```\w*\n(?://|--|#) ((?:crates|bindings)/\S+)\n(.*?)^```$", re.M | re.S)
LINE = re.compile(r"(claim|function|clause|test): (.*)")


class Fault(Exception):
    pass


def read(path):
    return path.read_text(encoding="utf-8")


def named(path):
    """The path of a file as messages have it."""
    return path.relative_to(kit.ROOT)


class Claim:
    """A row of the table: what an edit says, and the other edits that belong to it."""

    def __init__(self, edit, crate, words):
        self.edit, self.crate, self.cells, self.others = edit, crate, {"claim": words}, []

    def row(self):
        edits = " ".join(f"`{name}`" for name in [self.edit, *sorted(self.others)])
        cells = [self.cells["claim"], self.cells["function"], self.cells.get("clause", ""), edits, self.cells["test"]]
        return re.sub("  +", " ", " | ".join(cells))


def claims_of(path):
    """The claims of an edit, and the edits whose first claims it belongs to."""
    own, others, crate = [], [], path.parent.parent.name
    for line in read(path).splitlines():
        key, text = LINE.fullmatch(line).groups() if LINE.fullmatch(line) else (None, "")
        if key == "claim" and text.startswith("as "):
            others.append(text.removeprefix("as "))
        elif key == "claim":
            own.append(Claim(path.stem, crate, text))
        elif key:
            if not own:
                raise Fault(f"{named(path)}: `{key}:` belongs to no claim")
            own[-1].cells[key] = text
    for claim in own:
        if not {"function", "test"} <= set(claim.cells):
            raise Fault(f"{named(path)}: a claim has no `function:` or no `test:`")
    if not own and not others:
        raise Fault(f"{named(path)}: it has no `claim:`")
    return own, others


def claims_of_all(paths):
    """The claims of all edits, by the names of the edits that have them."""
    found, followed = {}, []
    for path in paths:
        if path.stem in found:
            raise Fault(f"{named(path)}: another edit has this name")
        found[path.stem], others = claims_of(path)
        followed += [(path, name) for name in others]
    for path, name in followed:
        if not found.get(name):
            raise Fault(f"{named(path)}: no edit {name} has a claim")
        found[name][0].others.append(path.stem)
    return found


def rows(lines):
    """The rows of tables: the number of each line, and its cells by the column's name."""
    columns = None
    for number, line in enumerate(lines):
        cells = [cell.strip() for cell in line.strip("|").split("|")]
        if len(cells) < 2:
            columns = None
        elif columns is None:
            columns = cells
        elif not set(line) <= set("-| "):
            yield number, dict(zip(columns, cells))


def written(page, claims):
    """The page with the rows of these claims."""
    lines, left = page.split("\n"), {edit: list(own) for edit, own in claims.items()}
    crates, gone = collections.defaultdict(list), []
    for number, row in rows(lines):
        edits = SPAN.findall(row.get("Wrong bodies", ""))
        if edits and left.get(edits[0]):
            claim = left[edits[0]].pop(0)
            lines[number] = claim.row()
            crates[claim.crate].append(number)
        elif edits:
            gone.append(number)
    new = [claim for own in left.values() for claim in own]
    for claim in new:
        if claim.crate not in crates:
            raise Fault(f"{named(TABLE)}: no row is of {claim.crate}: write that of {claim.edit} where it belongs")
        lines[crates[claim.crate][-1]] += "\n" + claim.row()
    return "\n".join(line for number, line in enumerate(lines) if number not in gone)


def misplaced(path):
    """What is wrong with the places that an edit names: a text to replace is in its file once."""
    text = ""
    for line in read(path).split("\n"):
        if line.startswith("file: "):
            text = read(path.parent.parent / line.removeprefix("file: ").strip())
        elif line.startswith("old: ") and text.count(line.removeprefix("old: ")) != 1:
            yield f"{named(path)}: in its file not once: {line.removeprefix('old: ').strip()}"


def unknown_facts(path):
    """The facts that a changed definition names, and that aren't there; or that it names none."""
    names = " ".join(re.findall(r"^fact:(.*)$", read(path), re.M)).split()
    if not names:
        yield f"{named(path)}: it names no fact"
    for name in names:
        *module, fact = name.split(".")
        places = [path.parents[1].joinpath("proofs", *folder, *module).with_suffix(".antt") for folder in ((), ("facts",))]
        place = next((it for it in places if it.exists()), None)
        if not place or not re.search(rf"^pub {re.escape(fact)} :", read(place), re.M):
            yield f"{named(path)}: there is no fact {name}"


def wrong_quotes(page):
    """The pieces of the quotes on a page that aren't in the files that they name."""
    found = QUOTE.findall(read(page))
    if not found:
        yield f"{named(page)}: there is no quote"
    for path, lines in found:
        text = kit.read(path)
        for piece in re.split(r"^\.\.\.\n", lines, flags=re.M):
            if piece.strip("\n") not in text:
                yield f"{named(page)}: not in {path}: {piece.strip().splitlines()[0]}"


class Code:
    """The names in the sources of the crates."""

    def __init__(self, folders):
        paths = sorted(path for folder in folders for path in (folder / "src").rglob("*.rt"))
        text = "\n".join(read(path) for path in paths)
        self.words, self.functions = (set(re.findall(pattern, text)) for pattern in (r"\b[A-Z]\w*", r"\bfn (\w+)"))
        self.clauses = set(re.findall(r"\bensures (\w+) \{", text) + re.findall(r"\bghost (\w+) =", text))
        self.tests = set(re.findall(r"#\[test\]\s*\n\s*fn (\w+)", text))
        self.modules = {path.stem for path in paths if path.parent.name == "tests"}

    def has_function(self, name):
        last = name.split("::")[-1]
        return name == "==" or last in (self.words if last[:1].isupper() else self.functions)

    def has_clause(self, name):
        return name in self.clauses

    def has_test(self, name):
        if name.startswith("tests::"):
            return name.removeprefix("tests::") in self.modules
        return (kit.ROOT / name).exists() if "/" in name else name in self.tests


def unknown_names(page, code):
    """The functions, clauses and tests of the page that don't exist."""
    checks = {"Function": code.has_function, "Clause": code.has_clause, "Test": code.has_test}
    for number, row in rows(page.split("\n")):
        for column, exists in checks.items():
            for name in SPAN.findall(row.get(column, "")):
                if not exists(name):
                    yield f"{named(TABLE)}:{number + 1}: {column}: there is no {name}"


def faults(folders, page):
    edits, changes = ([path for folder in folders for path in sorted((folder / name).glob("*.edit"))]
                      for name in ("edits", "changed-definitions"))
    yield from unknown_names(page, Code(folders))
    for path in [*edits, *changes]:
        yield from misplaced(path)
    for path in changes:
        yield from unknown_facts(path)
    for quoting in QUOTING:
        yield from wrong_quotes(quoting)


def main():
    arguments = kit.parser(__doc__)
    arguments.add_argument("--write", action="store_true", help="write the rows of the table anew")
    options = arguments.parse_args()
    folders = [Path(crate.folder) for crate in kit.crates().values()]
    try:
        page = read(TABLE)
        wanted = written(page, claims_of_all([path for folder in folders for path in sorted((folder / "edits").glob("*.edit"))]))
    except Fault as fault:
        sys.exit(str(fault))
    found = list(faults(folders, wanted))
    if options.write:
        TABLE.write_text(wanted, encoding="utf-8")
    elif page != wanted:
        found.append(f"{named(TABLE)}: not what the edits say: run tools/claims.py --write, and read the difference")
    print(*found, sep="\n", end="\n" if found else "")
    return 1 if found else 0


if __name__ == "__main__":
    sys.exit(main())
