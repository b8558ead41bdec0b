#!/usr/bin/env python3
"""Runs the examples of README.md and of the manual pages refspec.1 and refspec_map.1, and compares what they print:
tests/packages/readme.py PROGRAM REFSPEC

PROGRAM is the built program refspec_map, and REFSPEC the built program refspec. The program in Rattle is run without
proof, over a copy of the library; the lines of C, Rust and Python over out/lib, as `make lib` leaves it. Says what it
leaves out for want of Git, rt, gcc, cargo or that archive. tests/refspec/git_refspec.py runs the examples of git-refspec.1.
"""
import os
import re
import shutil
import subprocess
import sys
import tempfile
from pathlib import Path

sys.path.insert(0, str(Path(__file__).resolve().parents[1]))
from helpers import PYTHON, ROOT, paths, repositories, stop

ARCHIVE = ROOT / "out" / "lib"
# What stands around the lines of a language.
C_PROGRAM = """#include <gix_refspec.h>
#include <string.h>
static uint32_t outcome_of(const char *line)
{
    const uint8_t *text = (const uint8_t *)line;
    size_t length = strlen(line);
%s    return outcome;
}
int main(void)
{
    return outcome_of("+refs/heads/*:refs/x/*") != 0 || outcome_of("a..b") == 0;
}
"""
RUST_PROGRAM = """fn main() -> Result<(), refspec::Error> {
%s    Ok(())
}
"""
CARGO = """[package]
name = "example"
version = "0.0.0"
edition = "2021"
[dependencies]
refspec = { path = "%s" }
"""
# The refs of the remote whose clone the lines of `git refspec` and of refspec.1 run in, beside a branch `main`; a fetch value
# that the clone gets, and a ref that only the clone has.
REFS = ["refs/heads/dev", "refs/pull/7/head"]
VALUE = "+refs/pull/*/head:refs/remotes/origin/pr/*"
OLD = "refs/remotes/origin/old"


def blocks(text, language, start=""):
    """The code blocks of README.md in a language whose text begins so."""
    found = re.findall(rf"^```{language}\n(.*?)^```$", text, re.M | re.S)
    return [block for block in found if block.startswith(start)]


def block(text, language, start=""):
    found = blocks(text, language, start)
    if len(found) != 1:
        stop(f"{len(found)} blocks of {language} begin {start!r}")
    return found[0]


def compare(name, made, wanted):
    if made != wanted:
        stop(f"{name}\nprinted:\n{made}in the document:\n{wanted}")


def manual_examples(page):
    """The lines of the examples of a manual page, each block by itself."""
    text = (ROOT / "man" / page).read_text(encoding="utf-8")
    text = re.search(r"^\.Sh EXAMPLES\n(.*?)^\.Sh ", text, re.M | re.S)[1]
    found = re.findall(r"^\.Bd -literal[^\n]*\n(.*?)^\.Ed$", text, re.M | re.S)
    return [lines.replace("\\e", "\\").replace("\\&", "") for lines in found]


def run(words, folder, name, **more):
    """Runs a command that has to end well, and gives what it printed."""
    made = subprocess.run(words, cwd=folder, text=True, capture_output=True, check=False, **more)
    if made.returncode:
        stop(f"{name}: status {made.returncode}:\n{made.stdout}{made.stderr}")
    return made.stdout


def run_lines(lines, folder, env):
    """Runs each command of a console block, and compares both its streams with the lines below it."""
    commands = re.findall(r"^\$ (.*)\n((?:(?!\$ ).*\n)*)", lines, re.M)
    if not commands:
        stop(f"no command in {lines!r}")
    for command, wanted in commands:
        made = subprocess.run(["bash", "-c", command], cwd=folder, env=env, text=True, stdout=subprocess.PIPE,
                              stderr=subprocess.STDOUT, check=False)
        compare(command, made.stdout, wanted)
    return len(commands)


def git_folder(folder, programs):
    """A clone with the values and refs above, and variables for calls there."""
    env = repositories.variables(programs, ROOT / "bin")
    remote, local = folder / "remote", folder / "local"
    run(["git", "init", "-q", "-b", "main", remote], folder, "git init", env=env)
    run(["git", "commit", "-q", "--allow-empty", "-m", "one"], remote, "git commit", env=env)
    for name in REFS:
        run(["git", "update-ref", name, "HEAD"], remote, "git update-ref", env=env)
    run(["git", "clone", "-q", remote, local], folder, "git clone", env=env)
    run(["git", "config", "--add", "remote.origin.fetch", VALUE], local, "git config", env=env)
    run(["git", "update-ref", OLD, "HEAD"], local, "git update-ref", env=env)
    return local, env


def run_shown(lines, folder, env):
    """Runs each line of a block without output: it has to print something, and to end with status 0, or 1 for a warning."""
    for command in lines.splitlines():
        made = subprocess.run(["bash", "-c", command], cwd=folder, env=env, text=True, stdout=subprocess.PIPE,
                              stderr=subprocess.STDOUT, check=False)
        if made.returncode > 1 or not made.stdout:
            stop(f"{command}: status {made.returncode}:\n{made.stdout}")
    return len(lines.splitlines())


def lines_in_a_clone(text, folder, refspec, programs):
    """The lines of README.md that begin with `git refspec`, and those of refspec.1."""
    if not shutil.which("git"):
        return "left out are `git refspec` and refspec.1, as there is no Git"
    local, env = git_folder(folder, programs)
    env.update(GIT_REFSPEC_PROGRAM=str(refspec))
    lines = [block(text, "console", "$ git refspec"), *manual_examples("refspec.1")]
    count = sum(run_lines(one, local, env) for one in lines) + run_shown(block(text, "sh", "git refspec"), local, env)
    return f"{count} commands of git refspec and refspec.1"


def lines_alone(text, folder, programs):
    """The other lines of README.md, and those of refspec_map.1."""
    env = {**os.environ, "PATH": f"{programs}{os.pathsep}{os.environ['PATH']}"}
    lines = [one for one in blocks(text, "console") if not one.startswith("$ git")] + manual_examples("refspec_map.1")
    return f"{sum(run_lines(one, folder, env) for one in lines)} commands of the programs and refspec_map.1"


def rattle_program(text, folder):
    """The program in Rattle, over copies of the library's crates with what is kept of their checks."""
    if not shutil.which("rt"):
        return "left out is the program in Rattle, as there is no rt"
    for crate in ("gix_refspec_text", "gix_refspec_match", "gix_refspec"):
        shutil.copytree(ROOT / "crates" / crate, folder / "crates" / crate)
    source = folder / "crates" / "spec_check" / "src"
    source.mkdir(parents=True)
    (folder / "crates.txt").write_text(block(text, "text", "gix_refspec_text:"), encoding="utf-8")
    (source / "main.rt").write_text(block(text, "rust", "//!"), encoding="utf-8")
    printed = re.search(r"^It prints `(.*?)`", text, re.M)
    compare("the program in Rattle", run(["rt", "try"], source.parent, "rt try"), printed[1] + "\n")
    return "the program in Rattle"


def indented(lines, width=4):
    return "".join(" " * width + line for line in lines.splitlines(keepends=True))


def lines_of_c(text, folder):
    if not shutil.which("gcc"):
        return "left out are the lines of C, as there is no gcc"
    (folder / "example.c").write_text(C_PROGRAM % indented(block(text, "c")), encoding="utf-8")
    include = ROOT / "crates" / "gix_refspec_c" / "include"
    run(["gcc", "-Wall", "-Wextra", "-Werror", f"-I{include}", "-o", "example", "example.c", ARCHIVE / "libgix_refspec.a"],
        folder, "gcc")
    run(["./example"], folder, "the lines of C")
    return "the lines of C"


def lines_of_rust(text, folder):
    if not shutil.which("cargo"):
        return "left out are the lines of Rust, as there is no cargo"
    [lines] = [found for found in blocks(text, "rust") if not found.startswith("//!")]
    (folder / "src").mkdir()
    (folder / "lib").symlink_to(ARCHIVE)
    (folder / "Cargo.toml").write_text(CARGO % (ROOT / "bindings" / "rust" / "refspec"), encoding="utf-8")
    (folder / "src" / "main.rs").write_text(RUST_PROGRAM % indented(lines), encoding="utf-8")
    run(["cargo", "run", "--quiet", "--offline"], folder, "the lines of Rust",
        env={**os.environ, "GIX_REFSPEC_FOLDER": str(folder)})
    return "the lines of Rust"


def lines_of_python(text, folder):
    env = {**os.environ, "PYTHONPATH": str(PYTHON), "PYTHONDONTWRITEBYTECODE": "1",
           "GIX_REFSPEC_LIBRARY": str(ARCHIVE / "libgix_refspec.so")}
    run([sys.executable, "-c", "import gix_refspec\n" + block(text, "python")], folder, "the lines of Python", env=env)
    return "the lines of Python"


def main():
    program, refspec = paths(__doc__, "program", "refspec")
    text = (ROOT / "README.md").read_text(encoding="utf-8")
    examples = [rattle_program]
    if (ARCHIVE / "libgix_refspec.so").exists():
        examples += [lines_of_c, lines_of_rust, lines_of_python]
    else:
        print("readme: left out are the lines of C, Rust and Python, as `make lib` has not built out/lib")
    with tempfile.TemporaryDirectory() as programs:
        (Path(programs) / "refspec_map").symlink_to(program)
        (Path(programs) / "refspec").symlink_to(refspec)
        with tempfile.TemporaryDirectory() as folder:
            done = [lines_alone(text, Path(folder), programs)]
        with tempfile.TemporaryDirectory() as folder:
            done.append(lines_in_a_clone(text, Path(folder), refspec, programs))
    for example in examples:
        with tempfile.TemporaryDirectory() as folder:
            done.append(example(text, Path(folder)))
    print("readme: " + ", ".join(done))


if __name__ == "__main__":
    main()
