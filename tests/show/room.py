"""A folder in which a built wcc is called, and the list of what is tried there."""
import subprocess
from pathlib import Path
from subprocess import DEVNULL, PIPE

from evaluation import PLAIN

TOP = Path(__file__).resolve().parent.parent.parent
SECONDS = 600


class Wrong(Exception):
    """What isn't as it should be."""


def hold(is_so, what):
    if not is_so:
        raise Wrong(what)


class Room:
    """A folder of files, in which a built wcc is called."""

    def __init__(self, wcc, folder):
        self.wcc, self.here, self.top = wcc, Path(folder), TOP

    def call(self, *words):
        """The status and what is printed."""
        ran = subprocess.run([self.wcc, *words], cwd=self.here, stdin=DEVNULL, stdout=PIPE, stderr=PIPE, timeout=SECONDS, env=PLAIN)
        hold(not ran.stderr, f"{words}: standard error is {ran.stderr!r}")
        return ran.returncode, ran.stdout.decode()

    def show(self, *words, status=0):
        ended, said = self.call("show", *words)
        hold(ended == status, f"show {words} ended with {ended}: {said}")
        return said

    def write(self, name, data):
        (self.here / name).write_bytes(data if isinstance(data, bytes) else data.encode())

    def read(self, name):
        return (self.here / name).read_bytes()

    def make(self, source, *words):
        """Compiles a source into a.elf and a.txt."""
        self.write("a.c", source)
        status, line = self.call("compile", "a.c", "a.elf", "a.txt", *words)
        hold(status == 0, f"compile says {line!r}")


CHECKS = []


def check(function):
    CHECKS.append((function.__name__.replace("_", " "), function))
    return function
