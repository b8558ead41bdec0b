"""Prints what a fetch would do: git ls-remote origin | python3 planner.py [SPEC..] [-- CONFIGURED..]

Without SPEC the configured refspecs are fetched, those of `git config --get-all remote.origin.fetch`. Ends with status 1 if a
source is missing, refs are in conflict, or a text isn't a refspec.
"""
import os
import sys
from typing import Dict, List

from gix_refspec import Origin, OriginKind, RefspecError, Update, Verdict, plan

WORDS: Dict[Verdict, bytes] = {
    Verdict.WRITTEN: b"write", Verdict.INVALID_SOURCE: b"left out", Verdict.INVALID_DESTINATION: b"left out",
    Verdict.INVALID_SIDES: b"left out", Verdict.CONTESTED: b"conflict", Verdict.OVERRULED: b"overruled",
    Verdict.DIRECTORY_CONFLICT: b"directory conflict"}


def read_names() -> List[bytes]:
    """The names that `git ls-remote` prints: an id, a tab and a name. A line that ends with `^{}` names no ref."""
    lines = sys.stdin.buffer.read().split(b"\n")
    return [line.partition(b"\t")[2] for line in lines if b"\t" in line and not line.endswith(b"^{}")]


def shown(update: Update) -> bytes:
    word = WORDS[update.verdict]
    if update.verdict == Verdict.WRITTEN:
        word = b"fetch" if update.destination is None else b"force" if update.forced else b"write"
    return b"\t".join([word, update.source, b"-" if update.destination is None else update.destination]) + b"\n"


def shown_missing(origin: Origin, given: List[bytes], configured: List[bytes]) -> bytes:
    texts = {OriginKind.GIVEN: given, OriginKind.CONFIGURED: configured}.get(origin.kind, [b"HEAD"])
    return b"missing\t" + texts[origin.index or 0] + b"\t-\n"


def main() -> int:
    texts = [os.fsencode(text) for text in sys.argv[1:]] + [b"--"]
    split = texts.index(b"--")
    given, configured = texts[:split], texts[split + 1:-1]
    try:
        fetch = plan(given, read_names(), configured)
    except RefspecError as error:
        print(error, file=sys.stderr)
        return 1
    sys.stdout.buffer.writelines(map(shown, fetch.updates))
    sys.stdout.buffer.writelines(shown_missing(origin, given, configured) for origin in fetch.missing)
    return int(not fetch.is_carried_out)


if __name__ == "__main__":
    sys.exit(main())
