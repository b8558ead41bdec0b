"""The programs that a tool takes: this one, and the original crate behind the same commands."""
import os
import sys

HOW = "tools/oracle/README.md says how the original is built"
# An input may have so many bytes.
LIMIT = 1_048_576


def need(tool, *paths):
    """Ends with one line where a program is missing."""
    for path in paths:
        if not os.access(path, os.X_OK):
            sys.exit(f"{tool}: there is no program {path}; {HOW}, and `make build` builds this one")


def batches(texts):
    """The texts in lists that fit into one input each."""
    batch, size = [], 0
    for text in texts:
        if size + len(text) + 1 > LIMIT:
            yield batch
            batch, size = [], 0
        batch.append(text)
        size += len(text) + 1
    if batch:
        yield batch
