"""Calls of `git refspec` with a script in the place of Git, for the scripts of tests/ and those of tools/fuzz."""
import os
import tempfile
from pathlib import Path

from . import ROOT

SCRIPT = ROOT / "bin" / "git-refspec"
# At the step whose number is in STEP, counted from 1 over both scripts, the file `reached` appears, and nothing goes on before the
# file `go` does.
STEPS = r"""#!/bin/sh
room=${0%/*}
if [ -n "${STEP-}" ]; then
    echo >>"$room/steps"
    if [ "$(wc -l <"$room/steps")" -eq "$STEP" ]; then
        : >"$room/reached"
        until [ -e "$room/go" ]; do sleep 0.01; done
    fi
fi
"""
# Git prints the file of its answer, and ends with the status beside it, if there is one, or with 128 if it can't print all. It says
# nothing of a detached HEAD.
GIT = STEPS + r"""
case "$1 $2" in
    "rev-parse --git-common-dir") name=folder ;;
    rev-parse*) name=name ;;
    config*) name=config ;;
    symbolic-ref*) name=head ;;
    ls-remote*) name=lines ;;
    for-each-ref*) [ $# -gt 2 ] && name=refs || name=local ;;
    help*) name=manual ;;
esac
cat "$room/$name" || { [ "$?" -eq 141 ] && exit 141; exit 128; }
if [ -e "$room/$name.status" ]; then
    status=$(cat "$room/$name.status")
    [ "$name $status" = "head 1" ] || echo "fatal: no $name" >&2
    exit "$status"
fi
"""
PROGRAM = STEPS + r"""
exec "$REFSPEC" "$@"
"""
ID = b"1" * 40
# The answers of a Git in a usual repository.
USUAL = {
    "folder": b".git\n",
    "config": b"file:.git/config\0remote.origin.url\n../remote\0file:.git/config\0remote.origin.fetch\n"
              b"+refs/heads/*:refs/remotes/origin/*\0file:.git/config\0branch.main.remote\norigin\0"
              b"file:.git/config\0branch.main.merge\nrefs/heads/main\0",
    "head": b"refs/heads/main\n",
    "lines": b"".join(ID + b"\t" + name + b"\n" for name in (b"HEAD", b"refs/heads/main", b"refs/heads/dev")),
    "refs": b"refs/remotes/origin/gone \nrefs/remotes/origin/main \n",
    "local": b"refs/heads/main \nrefs/remotes/origin/gone \nrefs/remotes/origin/main \n",
    "name": b"refs/remotes/origin/main\n",
    "manual": b"a page\n",
}


class Repository:
    """A folder with the two scripts and the answers of Git, and an empty one for what `git refspec` makes."""

    def __init__(self, program, answers=None):
        self.folder = tempfile.TemporaryDirectory()
        self.room, self.temporary = (Path(self.folder.name) / name for name in ("room", "temporary"))
        for folder in (self.room, self.temporary):
            folder.mkdir()
        for name, script in (("git", GIT), ("refspec", PROGRAM)):
            self.write(name, script.encode())
            self.path(name).chmod(0o755)
        self.answer(USUAL if answers is None else answers)
        self.program = program

    def __enter__(self):
        return self

    def __exit__(self, *_):
        self.folder.cleanup()

    def path(self, name):
        return self.room / name

    def write(self, name, text):
        self.path(name).write_bytes(text)

    def answer(self, answers):
        """Takes answers by their files. One that is a number is the status with which Git fails."""
        for name, answer in answers.items():
            is_failure = isinstance(answer, int)
            self.write(name, b"" if is_failure else answer)
            self.path(name + ".status").unlink(missing_ok=True)
            if is_failure:
                self.write(name + ".status", b"%d" % answer)

    def variables(self, **others):
        path = os.pathsep.join([str(self.room), os.environ["PATH"]])
        return {"PATH": path, "GIT_REFSPEC_PROGRAM": str(self.path("refspec")), "REFSPEC": str(self.program),
                "TMPDIR": str(self.temporary), "LC_ALL": "C", **others}

    def left(self):
        """What `git refspec` left behind."""
        return [path.name for path in self.temporary.iterdir()]
