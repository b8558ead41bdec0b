#!/usr/bin/env python3
"""Ends `git refspec` at each of its steps: tests/refspec/interrupted.py PROGRAM

At each call of Git and of the program refspec it gets HUP, INT or TERM, or loses the reader of its output. Each time it has to
leave no file behind, and no process.
"""
import concurrent.futures
import contextlib
import os
import pty
import signal
import subprocess
import sys
import time
from pathlib import Path

sys.path.insert(0, str(Path(__file__).resolve().parents[1]))
from helpers import paths, scripted, stop

SIGNALS = (signal.SIGHUP, signal.SIGINT, signal.SIGTERM)
CALLS = (["plan", "--prune", "origin"], ["check"], ["stale"], ["track", "@{u}", "origin/main"], ["upstream"], ["why", "main"], ["prefixes"], ["--help"])
# How long anything may take, in seconds.
LONG = 600
MARK = "GIT_REFSPEC_INTERRUPTED"


def fail(words, step, what, told):
    stop(f"{words}, step {step}, {what}: {told}")


def wait_until(holds):
    until = time.monotonic() + LONG
    while time.monotonic() < until:
        if holds():
            return True
        time.sleep(0.01)
    return False


def processes(mark):
    """The processes that a call began, by the variable that they have."""
    found = []
    for name in filter(str.isdigit, os.listdir("/proc")):
        try:
            if f"{MARK}={mark}".encode() in Path(f"/proc/{name}/environ").read_bytes().split(b"\0"):
                found.append(name)
        except OSError:
            continue
    return found


class Call:
    """A call that waits at a step, with its outputs, or with a terminal for its messages."""

    def __init__(self, program, words, step, has_terminal=False):
        self.repository, self.mark = scripted.Repository(program), f"{os.getpid()}-{time.monotonic_ns()}"
        self.terminal, errors = pty.openpty() if has_terminal else (None, subprocess.PIPE)
        self.process = subprocess.Popen([scripted.SCRIPT, *words], stdin=subprocess.DEVNULL, stdout=subprocess.PIPE, stderr=errors,
                                        env=self.repository.variables(STEP=str(step), **{MARK: self.mark}))
        if has_terminal:
            os.close(errors)

    def is_reached(self):
        """Whether it comes to its step, and doesn't end before."""
        wait_until(lambda: self.repository.path("reached").exists() or self.process.poll() is not None)
        return self.repository.path("reached").exists()

    def go_on(self):
        self.repository.write("go", b"")

    def lose_readers(self):
        for stream in (self.process.stdout, self.process.stderr):
            stream.close()

    def fault(self, statuses):
        """What is wrong with its end, if something is."""
        if not wait_until(lambda: self.process.poll() is not None):
            return "it doesn't end"
        if self.process.returncode not in statuses:
            return f"status {self.process.returncode}"
        if self.repository.left():
            return f"it leaves {self.repository.left()}"
        # A process has no variables for a moment while it becomes another program.
        if not wait_until(lambda: not processes(self.mark) and not processes(self.mark)):
            return f"it leaves the processes {processes(self.mark)}"
        return None

    def close(self):
        for number in processes(self.mark):
            with contextlib.suppress(ProcessLookupError):
                os.kill(int(number), signal.SIGKILL)
        self.process.wait()
        if self.terminal is not None:
            os.close(self.terminal)
        self.repository.__exit__()


def steps_of(program, words):
    """How many steps a call has."""
    with scripted.Repository(program) as repository:
        subprocess.run([scripted.SCRIPT, *words], env=repository.variables(STEP="0"), capture_output=True, check=False)
        return len(repository.path("steps").read_bytes().splitlines())


def end_by(program, words, step, number, has_terminal):
    call = Call(program, words, step, has_terminal)
    if not call.is_reached():
        fail(words, step, number.name, "it isn't reached")
    call.process.send_signal(number)
    told = call.fault((128 + number, -number))
    call.close()
    if told:
        fail(words, step, number.name, told)


def end_by_closed_pipe(program, words, step):
    """Without readers it may still end well, where nothing is to be written."""
    call = Call(program, words, step)
    if not call.is_reached():
        fail(words, step, "a closed pipe", "it isn't reached")
    call.lose_readers()
    call.go_on()
    told = call.fault((0, 141, -signal.SIGPIPE))
    call.close()
    if told:
        fail(words, step, "a closed pipe", told)


def end_at(program, words, step):
    for number in SIGNALS:
        for has_terminal in (False, True):
            end_by(program, words, step, number, has_terminal)
    end_by_closed_pipe(program, words, step)


def main():
    program = paths(__doc__, "program")
    # Whoever runs this in the background may have it ignore some, and then no script below it can heed them.
    for number in SIGNALS:
        signal.signal(number, signal.SIG_DFL)
    with concurrent.futures.ThreadPoolExecutor(os.cpu_count()) as pool:
        steps = [(words, step) for words in CALLS for step in range(1, steps_of(program, words) + 1)]
        list(pool.map(lambda one: end_at(program, *one), steps))
    print(f"interrupted: {len(CALLS)} calls of git refspec, ended at {len(steps)} steps by {len(SIGNALS)} signals and by a closed"
          " pipe, leave no file and no process")


if __name__ == "__main__":
    main()
