"""The files of the repository, the crates of crates.txt, calls of the checker over the libraries that `make test` left proved, its
errors, and files of edits, for the tools beside this file."""
import argparse
import contextlib
import functools
import os
import re
import shutil
import subprocess
import tempfile
import time
from pathlib import Path

ROOT = Path(__file__).resolve().parents[1]

# What the checker kept of its work, by crate, for the next run on this machine. No verdict rests on it: it saves time alone.
KEPT = Path(os.environ.get("XDG_CACHE_HOME") or Path.home() / ".cache", "gix_refspec", "checked")

ERROR = re.compile(r"^(?:\./)?(\S+?):(\d+):\d+: error: (?:`([^`]*)`: )?(.*(?:\n  .*)?)$", re.M)
# What an error says, without what it quotes: a name is gone, or a text can't be read; the checker met a limit of its own.
UNREAD = re.compile(r"is not in scope|no constructor +is in scope|has no field|has no +that can be named|is no name|is private"
                    r"|operand is missing|expected the end|cannot continue")
LIMIT = re.compile(r"ran out of|outgrew the memory limit|went over this check's|stopped at (a resource|the step) limit")
RESTS = re.compile(r"declarations? that depends? on `[^`]*`, which was (?:not admitted|rejected), (?:was|were) not checked: (.*)")


class Failure(Exception):
    pass


def parser(text):
    """A parser of arguments, whose page of help is the docstring of a tool."""
    return argparse.ArgumentParser(description=text, formatter_class=argparse.RawDescriptionHelpFormatter)


def read(path):
    """The text of a file, by its path from the root."""
    return (ROOT / path).read_text(encoding="utf-8", errors="replace")


def files(folder=".", without=("out",)):
    """The paths from the root of the files below a folder, in order, but for those in folders of these names."""
    for place, folders, names in os.walk(ROOT / folder):
        folders[:] = sorted(name for name in folders if name not in without)
        for name in sorted(names):
            yield str(Path(place, name).relative_to(ROOT))


class Error:
    """An error of the checker: where it is, the declaration that it is about, if it is about one, and what it says."""

    def __init__(self, path, line, name, text):
        self.path, self.line, self.name, self.text = path, int(line), name, text
        rests = RESTS.search(text)
        # the declarations that weren't checked, as they rest on one with an error
        self.above = re.findall(r"[^\s,]+", re.sub(r"\(via [^)]*\)", "", rests[1])) if rests else []
        said = re.sub(r"`[^`]*`", "", text)
        self.is_unread = not rests and bool(UNREAD.search(said) or not name)
        self.is_limit = not rests and bool(LIMIT.search(said))

    def __str__(self):
        return f"{self.path}:{self.line}: {' '.join(self.text.split())[:200]}"


def errors(output):
    return [Error(*found) for found in ERROR.findall(output)]


@functools.lru_cache(maxsize=None)
def kit():
    """The folder of the toolchain."""
    return os.path.dirname(subprocess.run(["rt", "doc"], stdout=subprocess.PIPE, text=True, check=True).stdout.strip())


class Crate:
    """A crate: the libraries that it names, and all below it, lowest first."""

    def __init__(self, name, kind, uses, earlier):
        self.name, self.folder = name, f"{ROOT}/crates/{name}"
        self.is_static = bool(kind)
        self.uses = uses
        self.below = []
        for crate in (earlier[it] for it in uses if it in earlier):
            self.below += [it for it in [*crate.below, crate.name] if it not in self.below]

    def edits(self, folder, starts):
        """The paths of the edits in a folder of the crate whose names begin so, all without `starts`."""
        if not os.path.isdir(f"{self.folder}/{folder}"):
            return []
        names = sorted(it for it in os.listdir(f"{self.folder}/{folder}") if it.endswith(".edit"))
        return [f"{self.folder}/{folder}/{it}" for it in names if not starts or it.startswith(tuple(starts))]

    def size(self):
        """How long its proofs are, in bytes."""
        return sum(os.path.getsize(ROOT / path) for path in files(f"crates/{self.name}/proofs"))

    @contextlib.contextmanager
    def work(self):
        """A folder for what the checker keeps of its work on copies of the crate. It begins with what the last run on this
        machine left, and is left for the next one."""
        KEPT.mkdir(parents=True, exist_ok=True)
        with tempfile.TemporaryDirectory(prefix=f".{self.name}-", dir=KEPT) as room:
            copied(KEPT / self.name, f"{room}/new")
            yield f"{room}/new"
            self.leave(f"{room}/new")

    def leave(self, kept):
        """Leaves what the checker kept of its work on the crate for the next run on this machine."""
        KEPT.mkdir(parents=True, exist_ok=True)
        with tempfile.TemporaryDirectory(prefix=f".{self.name}-", dir=KEPT) as room, contextlib.suppress(OSError):
            copied(kept, f"{room}/new")
            with contextlib.suppress(OSError):
                os.rename(KEPT / self.name, f"{room}/old")
            os.rename(f"{room}/new", KEPT / self.name)

    def call(self, verb, copy, kept, words, jobs=1):
        """A call of the checker, `check` or `build`, on a copy of the crate. It keeps what it proved in the folder `kept`."""
        root = "src/main.rt" if os.path.exists(f"{copy}/src/main.rt") else "src/lib.rt"
        call = [f"{kit()}/bin/rattle", verb, "--crate-name", self.name, root, "--links", f"{self.name}=", "--jobs", str(jobs)]
        call += ["--antt-project", f"{kit()}/rattle/logic/antt-project.json", "--logic-built", f"{kit()}/logic_built"]
        call += ["--incremental", kept, "-L", f"dependency={kit()}/rlibs"]
        call += ["--crate-type", "staticlib"] if self.is_static else []
        for name in ("std", *self.uses):
            folder = f"{ROOT}/crates/{name}/out/rlib" if name in self.below else f"{kit()}/rlibs"
            call += ["--extern", f"{name}={folder}/{name}.rlib"]
        for name in self.below:
            call += ["-L", f"dependency={ROOT}/crates/{name}/out/rlib"]
        how = {"stdin": subprocess.DEVNULL, "stdout": subprocess.PIPE, "stderr": subprocess.STDOUT}
        return subprocess.run([*call, *words], cwd=copy, text=True, errors="replace", check=False, **how)

    def check(self, copy, kept, words, jobs=1):
        """What the checker says of a copy of the crate."""
        return self.call("check", copy, kept, words, jobs).stdout


def crates():
    """The crates by their names, each behind those that it uses."""
    found = {}
    for line in read("crates.txt").splitlines():
        row = re.match(r"(\w+)( staticlib)?: *(.*)", line)
        if row:
            found[row[1]] = Crate(row[1], row[2], row[3].split(), found)
    return found


def copied(kept, to):
    """Copies what the checker kept, if there is anything: by links where it makes such a file anew and changes none."""
    def copy(one, other):
        (os.link if one.endswith(".oantt") else shutil.copy2)(one, other)

    try:
        shutil.copytree(kept, to, copy_function=copy)
    except (OSError, shutil.Error):
        shutil.rmtree(to, ignore_errors=True)
        os.mkdir(to)


def has_ended(log):
    """Whether a run of `make test` with this log has proved all that it does, or failed."""
    return bool(re.search(r"^\d+ passed, |^rt: FAILED", Path(log).read_text(encoding="utf-8"), re.M))


def are_proved(names, log):
    """Whether a run of `make test` has proved these crates; a failure if it has ended without that."""
    has_stopped = has_ended(log)
    text = Path(log).read_text(encoding="utf-8")
    if all(re.search(rf"^rt: {name} (proved|is kept)", text, re.M) for name in names):
        return True
    if has_stopped:
        raise Failure(f"not all of {' '.join(names)} are proved")
    return False


def wait_for(names, log):
    """Waits until a run of `make test` has proved these crates."""
    while not are_proved(names, log):
        time.sleep(2)


def read_edit(path):
    """What the lines of an edit say by their first words, and its changes: a file, and an old and a new text."""
    said, changes, file, old = {}, [], None, None
    with open(path, encoding="utf-8") as lines:
        for line in lines:
            kind, _, text = line.rstrip("\n").partition(":")
            text = text.removeprefix(" ")
            if kind == "file":
                file = text
            elif kind == "old":
                old = text
            elif kind == "new":
                changes.append((file, old, text))
            else:
                said[kind] = f"{said[kind]} {text}" if kind in said else text
    return said, changes
