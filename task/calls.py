"""What is asked of the program and of the tools beside it. They run as processes of their own, which an interrupt ends."""
import os
import subprocess
import sys
import threading
from dataclasses import dataclass
from pathlib import Path
from subprocess import DEVNULL, PIPE

from task.files import Fault

TOP = Path(__file__).resolve().parent.parent
PLAIN = {**os.environ, "WCC_PLAIN": "1"}
PYTHON = (sys.executable, "-I", "-S", "-B")


@dataclass(frozen=True)
class Said:
    """How a call ended, and what it said."""
    status: int
    line: str
    errors: bytes = b""

    def words(self) -> list[str]:
        return self.line.split()


class Running:
    """The processes that run now, so that all can be ended."""

    def __init__(self) -> None:
        self.lock, self.processes, self.is_over = threading.Lock(), set[subprocess.Popen[bytes]](), False

    def call(self, words: list[str], **other: object) -> Said:
        with self.lock:
            if self.is_over:
                return Said(130, "")
            try:
                process = subprocess.Popen(words, stdin=DEVNULL, stdout=PIPE, stderr=PIPE, env=PLAIN)
            except (OSError, ValueError) as error:
                raise Fault(70, "no program", f"wcc: `{words[0]}` can't be run: {getattr(error, 'strerror', error)}.") from None
            self.processes.add(process)
        try:
            out, errors = process.communicate()
        finally:
            with self.lock:
                self.processes.discard(process)
            process.kill()
            process.wait()
        return Said(process.returncode, out.decode(errors="replace").rstrip("\n"), errors)

    def end(self) -> None:
        with self.lock:
            self.is_over = True
            for it in self.processes:
                it.terminate()


RUNNING = Running()


def ask(program: str, *words: str | Path) -> Said:
    """Has the program answer. One that was killed has no line."""
    said = RUNNING.call([program, *map(str, words)])
    if said.status < 0:
        raise Fault(70, "ended", f"wcc: the program was ended by signal {-said.status}.")
    return said


def tool(folder: str, *words: str | Path) -> Said:
    return RUNNING.call([*PYTHON, str(TOP / folder / f"{folder}.py"), *map(str, words)])


def named(path: str | Path) -> str:
    """A name that is no option."""
    return f"./{path}" if str(path).startswith("-") else str(path)
