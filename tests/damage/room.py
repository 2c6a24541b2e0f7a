"""A folder for one call after another: what a call answers there, which files it leaves, and how long it takes."""
import os
import resource
import sys
import tempfile
from collections import namedtuple
from pathlib import Path

from kinds import OLDER, WRITTEN, needed

TOP = Path(__file__).resolve().parent.parent.parent
SECONDS = 60  # of a processor, behind which the system ends a call
PLAIN = {**os.environ, "WCC_PLAIN": "1"}
TOOLS = {it: (sys.executable, "-I", "-S", "-B", str(TOP / it / f"{it}.py")) for it in ("show", "counts", "prepare", "explain")}

Ended = namedtuple("Ended", "status out error left took")


def read(name):
    with open(name, "rb") as file:
        return file.read()


class Room:
    """A folder of its own, which becomes the working one of this process."""

    def __init__(self, program, parent):
        self.program = program
        os.chdir(tempfile.mkdtemp(dir=parent))
        self.said = [tempfile.TemporaryFile(dir=parent) for _ in range(2)]

    def words(self, kind, line):
        """The words of the call, from the program on; with a line, of the call that explains it."""
        if line is not None:
            return [*TOOLS["explain"], line, *kind.words]
        if kind.tool in TOOLS and kind.tool != "explain":
            return [*TOOLS[kind.tool], *([self.program] if kind.tool in ("show", "counts") else []), *kind.words[1:]]
        return [self.program, *kind.words]

    def call(self, kind, files, line=None):
        """What a call answers on these files, and which files lie there then."""
        for name, data in given_to(kind, files).items():
            with open(name, "wb") as file:
                file.write(data)
        status, out, error, took = self.run(self.words(kind, line))
        left = {it: read(it) for it in os.listdir()}
        for name in left:
            os.unlink(name)
        return Ended(status, out, error, left, took)

    def run(self, words):
        """The status, what was printed and said, and the seconds of a processor."""
        for it in self.said:
            it.truncate(0)
            it.seek(0)
        to = [(os.POSIX_SPAWN_OPEN, 0, os.devnull, os.O_RDONLY, 0), *((os.POSIX_SPAWN_DUP2, it.fileno(), at) for at, it in enumerate(self.said, 1))]
        child = os.posix_spawn(words[0], words, PLAIN, file_actions=to)
        resource.prlimit(child, resource.RLIMIT_CPU, (SECONDS, SECONDS))
        _, ended, used = os.wait4(child, 0)
        out, error = (it.seek(0) or it.read() for it in self.said)
        return os.waitstatus_to_exitcode(ended), out, error, used.ru_utime + used.ru_stime


def given_to(kind, files):
    """The files of a call before it: what it reads, and something older where it writes, but for a new image."""
    older = {it: OLDER for it in WRITTEN if it in kind.words and it != "b.elf"}
    return older | {it: files[it] for it in needed(kind) if it in files}
