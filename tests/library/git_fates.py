#!/usr/bin/env python3
"""Gives the rows of the tests of gix_refspec_why to the installed Git: tests/library/git_fates.py

The tests hold the library against these rows, and Git has to do what they say of a ref: that it is written, taken by a spec,
excluded or in conflict. Values whose source the remote lacks are left out, as Git fails at these. Without a git on the PATH nothing
is compared.
"""
import re
import shutil
import sys
import tempfile
from pathlib import Path

sys.path.insert(0, str(Path(__file__).resolve().parents[1]))
from helpers import ORACLE, ROOT, parser, stop, use

use(ORACLE)
import gitfates

ROWS = ROOT / "crates" / "gix_refspec_why_tests" / "src" / "tests" / "fates.rt"

TABLE = re.compile(r"const ROWS: &\[\(&str, &str, &str, &str\)\] = &\[(.*?)^\];", re.M | re.S)
CELL = re.compile(r'"((?:[^"\\]|\\.)*)"')


def rows():
    """The rows of the table: specs, refs of the remote, a ref, and its effects."""
    found = TABLE.search(ROWS.read_text(encoding="utf-8"))
    cells = CELL.findall(re.sub(r"^ *//.*\n", "", found[1], flags=re.M)) if found else []
    if not cells or len(cells) % 4:
        stop(f"{len(cells)} texts in the table, whose rows have 4")
    return [cells[index:index + 4] for index in range(0, len(cells), 4)]


def effects_of(text):
    """The effects that a row tells."""
    index, *lines = text.replace("\\n", "\n").splitlines()
    parts = [line.partition(": ") for line in lines]
    return gitfates.Effects(None if index == "-" else int(index), [(fate, far.encode() or None) for fate, _, far in parts])


def tried(fates, row):
    """Whether git shows the fate of the row's ref: it stores no invalid name. Ends the run if it does otherwise."""
    specs, names, name, text = (cell.encode() for cell in row)
    effects, specs, names = effects_of(text.decode()), specs.split(), tuple(dict.fromkeys([*names.split(), name]))
    if not all(fates.can_be_there(one) for one in names):
        return False
    kept = fates.complete(names, specs)
    shown = effects._replace(of_specs=[one for spec, one in zip(specs, effects.of_specs) if spec in kept])
    for difference in fates.differences(names, kept, name, shown):
        stop(f"{row}: {difference}")
    return True


def main():
    parser(__doc__).parse_args()
    if shutil.which("git") is None:
        print("git-fates: left out, as there is no git on the PATH")
        return
    with tempfile.TemporaryDirectory() as folder:
        fates = gitfates.Fates(folder)
        shown = [tried(fates, row) for row in rows()]
    print(f"git-fates: git does with {sum(shown)} refs what the rows of the tests say; {shown.count(False)} more have invalid names")


if __name__ == "__main__":
    main()
