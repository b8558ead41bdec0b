#!/usr/bin/env python3
"""Asks the installed Git for stored groups by the ref prefixes of `refspec prefixes`: tests/library/git_prefixes.py REFSPEC

REFSPEC is the built program, which has to print the ref prefixes of prefixes.sample. What `git upload-pack` lists for them has each
ref that a spec takes or an option asks for, and without any one of them it hasn't. tools/oracle/compare-prefixes.py made the sample. Without a git on
the PATH only the program is asked.
"""
import shutil
import subprocess
import sys
import tempfile
from pathlib import Path

sys.path.insert(0, str(Path(__file__).resolve().parents[1]))
from helpers import ORACLE, paths, samples, stop, use

use(ORACLE)
import gitprefixes


def stored():
    for lines in (samples.FOLDER / "prefixes.sample").read_bytes().rstrip(b"\n").split(b"\n\n"):
        cells = [line.split(b" ", 1) for line in lines.split(b"\n")]
        yield gitprefixes.Group(*([text for name, text in cells if name == wanted] for wanted in (b"spec", b"ref", b"prefix", b"option")))


def main():
    program, count = paths(__doc__, "refspec"), 0
    with tempfile.TemporaryDirectory() as folder:
        for group in stored():
            made = subprocess.run([program, "prefixes", "-z", *group.options, "--", *group.specs], capture_output=True, check=False)
            found = made.stdout.split(b"\0")[:-1]
            if made.returncode or found != group.prefixes:
                stop(f"{group.options} {group.specs}: {found}, and not {group.prefixes}")
            if shutil.which("git"):
                for fault in gitprefixes.faults(group, str(Path(folder, str(count)))):
                    stop(f"{group.options} {group.specs}: {fault.decode(errors='backslashreplace')}")
            count += 1
    print(f"git_prefixes: {count} groups" + ("" if shutil.which("git") else ", without git"))


if __name__ == "__main__":
    main()
