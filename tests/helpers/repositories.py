"""Git for the scripts of tests/: with nobody's configuration, and the same commits each time."""
import os
import subprocess

from . import stop

DATE = "2020-01-01T00:00:00Z"
PEOPLE = {f"GIT_{who}_{what}": value for who in ("AUTHOR", "COMMITTER")
          for what, value in (("NAME", "a"), ("EMAIL", "a@b"), ("DATE", DATE))}


def variables(*folders, locale="C", **others):
    """The variables of a process that runs Git, with these folders before the others on the PATH."""
    kept = {name: value for name, value in os.environ.items() if not name.startswith(("GIT_", "LC_", "LANG"))}
    path = os.pathsep.join([*map(str, folders), os.environ["PATH"]])
    return {**kept, **PEOPLE, "GIT_CONFIG_GLOBAL": os.devnull, "GIT_CONFIG_NOSYSTEM": "1", "GIT_TERMINAL_PROMPT": "0",
            "LC_ALL": locale, "PATH": path, **others}


def run(folder, words, env, **options):
    return subprocess.run(words, cwd=folder, env=env, capture_output=True, check=False, **options)


def git(folder, env, *words, status=0):
    """What a call of Git prints that has to end with this status."""
    made = run(folder, ["git", *words], env)
    if made.returncode != status:
        stop(f"git {words}: status {made.returncode}: {made.stderr!r}")
    return made.stdout
