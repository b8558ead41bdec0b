"""Programs that are run often, on inputs in memory, and what is wrong with a run."""
import collections
import os
import select
import signal

Answer = collections.namedtuple("Answer", "output messages status seconds")


class Failed(Exception):
    """The number of an input, the words of a command, what it was given, and what is wrong."""


class Program:
    """A program that is run on inputs in memory, within so many seconds on the clock."""

    def __init__(self, path, seconds):
        self.path, self.seconds = os.path.abspath(path), seconds
        self.files = [os.memfd_create(name) for name in ("given", "output", "messages")]
        reading, self.unread = os.pipe()
        os.close(reading)

    def run(self, words, text, number, variables=None, is_unread=False):
        """The answer to an input of a number, with these words or the words of a text; without a reader of its output, if that
        is unread."""
        for file in self.files:
            os.ftruncate(file, 0)
        if os.pwrite(self.files[0], text, 0) != len(text):
            raise OSError("no room for an input")
        for file in self.files:
            os.lseek(file, 0, os.SEEK_SET)
        duplicates = [(os.POSIX_SPAWN_DUP2, file, place) for place, file in enumerate(self.files)]
        if is_unread:
            duplicates[1] = (os.POSIX_SPAWN_DUP2, self.unread, 1)
        arguments = words.split() if isinstance(words, str) else words
        process = os.posix_spawn(self.path, [self.path, *arguments], variables or {}, file_actions=duplicates,
                                 setsigdef=[signal.SIGPIPE, signal.SIGXFSZ])
        has_ended = self.wait(process)
        if not has_ended:
            os.kill(process, signal.SIGKILL)
        _, status, used = os.wait4(process, 0)
        output, messages = (os.pread(file, os.fstat(file).st_size, 0) for file in self.files[1:])
        if not has_ended:
            raise Failed(number, words, text, f"no end within {self.seconds} seconds")
        return Answer(output, messages, os.waitstatus_to_exitcode(status), used.ru_utime + used.ru_stime)

    def wait(self, process):
        """Whether a process ends in time. The seconds are counted one by one, since all may be paused together."""
        handle = os.pidfd_open(process)
        poll = select.poll()
        poll.register(handle, select.POLLIN)
        has_ended = any(poll.poll(1000) for _ in range(self.seconds))
        os.close(handle)
        return has_ended
