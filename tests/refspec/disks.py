#!/usr/bin/env python3
"""Runs `git refspec` with its files on disks that become full: tests/refspec/disks.py PROGRAM

The disk has room for so many pages, or for so many files, from none to as many as a call needs. Each time the call answers as ever,
or tells no answer, but a message, and ends with a status other than 0; and it leaves no file behind. Says so where no such disk can
be mounted.
"""
import concurrent.futures
import os
import subprocess
import sys
from pathlib import Path

sys.path.insert(0, str(Path(__file__).resolve().parents[1]))
from helpers import paths, scripted, stop

CALLS = (["plan", "--prune", "origin"], ["check"], ["stale"], ["track", "@{u}", "origin/main"], ["upstream"], ["why", "main"],
         ["why", "refs/remotes/origin/main"], ["prefixes"])
PAGES = 64
# Mounts a disk with an option at TMPDIR, fills so many of its pages, runs the other words, and lists what is left in the file LEFT.
ON_DISK = r"""
mount -t tmpfs -o "$1" none "$TMPDIR" || exit 99
[ "$2" = 0 ] || head -c "$(($2 * 4096))" /dev/zero >"$TMPDIR/full"
shift 2
"$@"
status=$?
ls -A "$TMPDIR" >"$LEFT"
exit "$status"
"""
MOUNTING = ["unshare", "--mount", "sh", "-c", ON_DISK, "sh"]


def run(repository, option, filled, words):
    """A run on a disk, and what it leaves there."""
    left = repository.path("left")
    left.write_bytes(b"")
    made = subprocess.run([*MOUNTING, option, str(filled), *words], env=repository.variables(LEFT=str(left)), input=b"",
                          capture_output=True, check=False)
    return (made.stdout, made.stderr, made.returncode), [name for name in left.read_bytes().split() if name != b"full"]


def disks():
    """The options and the filled pages of disks with more and more room, by kinds."""
    yield [(f"size={PAGES * 4}k", PAGES - free) for free in range(PAGES)]
    yield [(f"nr_inodes={count}", 0) for count in range(1, PAGES)]


def try_call(program, words):
    """Gives how many disks were too small for a call."""
    count, words = 0, [str(scripted.SCRIPT), *words]
    with scripted.Repository(program) as repository:
        whole, _ = run(repository, "size=1m", 0, words)
        for kind in disks():
            for option, filled in kind:
                made, left = run(repository, option, filled, words)
                if left:
                    stop(f"{words} with {option}, {filled} pages filled: it leaves {left}")
                if made == whole:
                    break
                count += 1
                output, messages, status = made
                if output or not messages.endswith(b"\n") or status in (0, 2):
                    stop(f"{words} with {option}, {filled} pages filled: {made}")
            else:
                stop(f"{words}: no disk has room enough")
    return count


def main():
    program = paths(__doc__, "program")
    with scripted.Repository(program) as repository:
        made, _ = run(repository, "size=1m", 0, ["true"])
    if made[2]:
        print(f"disks: left out, as no disk can be mounted: {made[1].decode().strip()}")
        return
    with concurrent.futures.ThreadPoolExecutor(os.cpu_count()) as pool:
        count = sum(pool.map(lambda words: try_call(program, words), CALLS))
    print(f"disks: {len(CALLS)} calls of git refspec on {count} disks that are too small: each ends with a message, and leaves no file")


if __name__ == "__main__":
    main()
