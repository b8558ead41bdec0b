"""What the scripts of tests/ share: their arguments and messages, stored samples, programs that are run, and repositories.

A script puts the folder above this one on its path, and is run by itself, from any folder.
"""
import argparse
import sys
from pathlib import Path

TESTS = Path(__file__).resolve().parents[1]
ROOT = TESTS.parent
ORACLE = ROOT / "tools" / "oracle"
PYTHON = ROOT / "bindings" / "python"


def parser(text):
    """A parser of arguments, whose page of help is the docstring of a script."""
    return argparse.ArgumentParser(description=text, formatter_class=argparse.RawDescriptionHelpFormatter)


def add_path(made, name, **options):
    """An argument that is the path of a file or a folder."""
    made.add_argument(name, type=lambda path: Path(path).absolute(), metavar=name.strip("-").upper(), **options)


def paths(text, *names):
    """The paths that a script with this docstring is called with, one for each of these names."""
    made = parser(text)
    for name in names:
        add_path(made, name)
    found = [getattr(made.parse_args(), name) for name in names]
    return found[0] if len(found) == 1 else found


def stop(what):
    """Ends the script with a message that names it."""
    script = Path(sys.argv[0]).resolve()
    sys.exit(f"{script.relative_to(ROOT) if ROOT in script.parents else script.name}: {what}")


def use(*folders):
    """Lets a script import the modules of these folders."""
    sys.path[:0] = [str(folder) for folder in folders]
