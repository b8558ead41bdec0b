#!/usr/bin/env python3
"""Gives the rows of the tests of gix_refspec_remote and the cases of remotes.sample to the installed Git:
tests/library/git_remotes.py

The tests hold the library against these rows, and Git has to do what they say: which upstream a branch has, what a prefetch
fetches, what `git remote rename` makes of a value, and which values `git remote add` writes. With a case of the sample it has to do
what is stored, and that is what follows from the stored answer, unless Git is known to differ so. Without a git on the PATH nothing
is compared.
"""
import concurrent.futures
import os
import re
import shutil
import sys
import tempfile
from pathlib import Path

sys.path.insert(0, str(Path(__file__).resolve().parents[1]))
from helpers import ORACLE, ROOT, parser, samples, stop, use

use(ORACLE)
import gitfetch
import gitremotes
import remotecalls

ROWS = ROOT / "crates" / "gix_refspec_remote_tests" / "src" / "tests"
SAMPLE = samples.FOLDER / "remotes.sample"
TABLE = re.compile(r"^ *const (\w+): &\[\((.*?)\)\] = &\[(.*?)^ *\];", re.M | re.S)
CELL = re.compile(r'"((?:[^"\\]|\\.)*)"|(None)')
REFS = [b"HEAD", b"refs/heads/main", b"refs/heads/x", b"refs/tags/t", b"refs/remotes/o/x"]


def rows(name, table="ROWS"):
    """The rows of a table in a file of tests: their texts, with None for a missing one."""
    text = (ROWS / f"{name}.rt").read_text(encoding="utf-8")
    types, lines = next(found[1:] for found in TABLE.findall(text) if found[0] == table)
    cells, width = [None if none else text.encode() for text, none in CELL.findall(lines)], types.count("&str")
    if not cells or len(cells) % width:
        stop(f"{len(cells)} texts in the table {table} of {name}.rt, whose rows have {width}")
    return [cells[index:index + width] for index in range(0, len(cells), width)]


def expect(row, seen, wanted):
    if seen != wanted:
        stop(f"{row}: git {seen!r}, and not {wanted!r}")


def try_upstreams(remotes):
    for row in rows("upstreams"):
        merge, specs, answer = row
        found = re.fullmatch(rb"(\S+) by \d+", answer)
        expect(row, remotes.upstreams(specs.split(), [merge]), [found[1] if found else b""])
    for row in rows("upstreams", "OTHERWISE"):
        expect(row, remotes.upstreams(row[1].split(), row[:1]), [b""])


def try_prefetches(remotes):
    remote = remotes.store.remote(remotes.store.refs(REFS))
    for row in rows("prefetching"):
        value, made = row
        wanted = remotes.fetched(remote, [made]) if made else gitremotes.NOTHING
        expect(row, remotes.prefetched(remote, [value]), wanted)
    expect("main:", remotes.prefetched(remote, [b"main:"]), gitremotes.NOTHING)
    expect("gone:", remotes.prefetched(remote, [b"gone:"]).failure, ("missing", b"gone"))


def try_renames(remotes):
    for row in rows("renames"):
        value, old, new, made = row
        expect(row, remotes.renamed([value], old, new), ([made or value], [] if made else [value]))
    row = [b"", b"refs/heads/*:refs/remotes/o/*"]
    expect(row, remotes.renamed(row, b"o", b"n"), ([b"refs/heads/*:refs/remotes/n/*"], [b""]))


def try_remotes(remotes):
    for row in rows("remotes"):
        remote, branch, made = row
        values = remotes.added(remote or b"any", [branch], not remote)
        if made:
            expect(row, values, [made])
        elif values:
            expect(row, remotes.accepts(values[0]), False)
    expect("set-branches", remotes.set(b"o", [b"x"], False), [b"+refs/heads/x:refs/remotes/o/x"])
    expect("set-branches without a value", remotes.set(b"o", [b"x"], False, before=()), None)


def try_stored(stored, call):
    """Tries a case of the sample."""
    trial = remotecalls.Trial(stored.given, stored.answer, call.wanted(stored.given, stored.answer), call.done(stored.given))
    kind = call.kind_of(trial).text if call.differs(trial) and call.kind_of(trial) else ""
    if trial.done != stored.done or call.differs(trial) != bool(kind) or kind != stored.kinds:
        stop(f"line {stored.number} of remotes.sample: git {trial.done}, and not {stored.done}, where by the"
                 f" answer it should {trial.wanted}; {kind}")


def try_sample(remotes):
    """Tries the cases of the sample; gives how many there are of each call."""
    calls = {call.word: call(remotes) for call in remotecalls.CALLS}
    cases = gitfetch.stored_lists(SAMPLE)
    with concurrent.futures.ThreadPoolExecutor() as pool:
        list(pool.map(lambda one: try_stored(one, calls[one.command]), cases))
    return ", ".join(f"{sum(one.command == word for one in cases)} of {word}" for word in calls)


def main():
    parser(__doc__).parse_args()
    if shutil.which("git") is None:
        print("git-remotes: left out, as there is no git on the PATH")
        return
    with tempfile.TemporaryDirectory() as folder:
        remotes = gitremotes.Remotes(folder)
        for part in (try_upstreams, try_prefetches, try_renames, try_remotes):
            part(remotes)
        counts = try_sample(remotes)
    tables = [len(rows(name)) for name in ("upstreams", "prefetching", "renames", "remotes")]
    print("git-remotes: git does what the rows of the tests say: {} upstreams, {} prefetches, {} renames, {} specs of remotes".format(*tables))
    print(f"git-remotes: and what is stored: {counts}")


if __name__ == "__main__":
    main()
