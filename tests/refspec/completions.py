#!/usr/bin/env python3
"""Compares the completions of refspec with its pages of help: tests/refspec/completions.py PROGRAM

Bash is asked for each command; the files for zsh and fish have to be those that tools/completions.py makes, and those shells
are asked for some words. Says which shells it leaves out, as they aren't there.
"""
import os
import pty
import re
import select
import shutil
import subprocess
import sys
import tempfile
import time
from pathlib import Path

sys.path.insert(0, str(Path(__file__).resolve().parents[1]))
from helpers import ROOT, paths, stop

FOLDER = ROOT / "completions"
BASH = '. "$0"; COMP_WORDS=("$@"); COMP_CWORD=$(($# - 1)); _refspec; printf "%s\\n" "${COMPREPLY[@]}"'
ROWS = [(["plan", "--re"], {"--read-z", "--refs"}), (["check", "--verb"], {"--verbose"}), (["exp"], {"explain"})]


def help_page(program, *words):
    return subprocess.run([program, *words, "--help"], stdout=subprocess.PIPE, text=True, check=True).stdout


def commands_of(program):
    return re.findall(r"^  ([a-z][a-z-]*) {2,}", help_page(program), re.M)


def check_bash(program):
    def told(*words):
        made = subprocess.run(["bash", "-c", BASH, FOLDER / "refspec.bash", "refspec", *words],
                              stdout=subprocess.PIPE, text=True, check=False)
        return set(made.stdout.split())

    commands = commands_of(program)
    if not set(commands) <= told(""):
        stop(f"bash lacks the commands {sorted(set(commands) - told(''))}")
    for command in commands:
        options = set(re.findall(r"(?<![\w-])--?[a-z][a-z-]*", " ".join(
            re.findall(r"^ {2,6}(-.*?) {2,}", help_page(program, command), re.M))))
        if not {one for one in options if one.startswith("--")} <= told(command, "--"):
            stop(f"for {command} bash lacks {sorted(options - told(command, '--'))}")
        if told(command, "--") - options:
            stop(f"for {command} bash has {sorted(told(command, '--') - options)}, which help hasn't")
    return len(commands)


def check_fish(path):
    for words, wanted in ROWS:
        script = f"set -p fish_complete_path {FOLDER}; complete -C 'refspec {' '.join(words)}'"
        made = subprocess.run(["fish", "--no-config", "-c", script], stdout=subprocess.PIPE, text=True, check=False,
                              env={**os.environ, "PATH": path})
        told = {line.split("\t")[0] for line in made.stdout.splitlines()}
        if told != wanted:
            stop(f"fish completes {words} to {told}, not {wanted}")


class Zsh:
    """A shell with completion, at a terminal."""

    def __init__(self, path, folder):
        self.child, self.terminal = pty.fork()
        if self.child == 0:
            os.execvpe("zsh", ["zsh", "-f", "-i"], {**os.environ, "PATH": path, "HOME": folder, "TERM": "dumb"})
        setup = f"PS1= ; fpath=({FOLDER} $fpath); autoload -Uz compinit; compinit -u -D; bindkey '^I' list-choices"
        self.ask(f"{setup}; setopt no_always_last_prompt; print rea''dy\r", lambda told: "ready" in told)

    def ask(self, text, is_answer):
        """What is printed after a text was typed, until that is an answer, or for a while."""
        os.write(self.terminal, text.encode())
        told, end = b"", time.monotonic() + 30
        while time.monotonic() < end and not is_answer(told.decode(errors="replace")):
            if select.select([self.terminal], [], [], 0.2)[0]:
                told += os.read(self.terminal, 65536)
        return told.decode(errors="replace")

    def end(self):
        os.close(self.terminal)
        os.waitpid(self.child, 0)


def check_zsh(path, folder):
    subprocess.run(["zsh", "-n", FOLDER / "_refspec"], check=True)
    shell = Zsh(path, folder)
    for words, wanted in ROWS:
        line = f"refspec {' '.join(words)}"

        def has_all(told, line=line, last=words[-1], wanted=wanted):
            listed = told.partition(line)[2]
            # Of one candidate alone the rest may be written after the line.
            return all(word in listed or listed.strip().startswith(word[len(last):]) for word in wanted)

        told = shell.ask(f"{line}\t", has_all)
        if not has_all(told):
            stop(f"zsh completes {words} to {told!r}, not {wanted}")
        shell.ask("\x15print do''ne\r", lambda told: "done" in told)
    shell.end()


def check_git_refspec(program):
    """Each command and each long option of the page of `git refspec` is in its three files."""
    page = subprocess.run([ROOT / "bin" / "git-refspec", "-h"], capture_output=True, text=True, check=True,
                          env={**os.environ, "GIT_REFSPEC_PROGRAM": program}).stdout
    options = set(re.findall(r"^    (?:-\w, )?--([a-z]+)", page, re.MULTILINE))
    commands = set(re.findall(r"^    ([a-z]+)  ", page, re.MULTILINE))
    if len(options) < 6 or len(commands) < 4:
        stop(f"the page of git refspec has {options} and {commands}")
    for name in ("git-refspec.bash", "_git-refspec", "git-refspec.fish"):
        words = set(re.findall(r"[a-z]+", (FOLDER / name).read_text(encoding="utf-8")))
        lacking = sorted((options | commands) - words)
        if lacking:
            stop(f"{name} lacks {lacking}")


def main():
    program, left_out = paths(__doc__, "program"), []
    if subprocess.run([ROOT / "tools" / "completions.py", program, "--check"], check=False).returncode:
        sys.exit(1)
    count = check_bash(program)
    check_git_refspec(program)
    with tempfile.TemporaryDirectory() as folder:
        # Fish completes only the words of commands that are there.
        os.symlink(program, os.path.join(folder, "refspec"))
        path = folder + os.pathsep + os.environ["PATH"]
        for shell, check in (("fish", lambda: check_fish(path)), ("zsh", lambda: check_zsh(path, folder))):
            if shutil.which(shell):
                check()
            else:
                left_out.append(shell)
    print(f"completions: {count} commands as their pages of help" + "".join(f"; left out: no {one}" for one in left_out))


if __name__ == "__main__":
    main()
