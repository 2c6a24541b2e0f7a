"""What the program says of an image and its report. It is given the bytes that are shown, and not the files again."""
import os
import re
import subprocess
from collections.abc import Iterator
from contextlib import ExitStack, contextmanager
from subprocess import DEVNULL, PIPE

import explain
from files import Failed
from places import printable

NOTHING_AT_HAND = 70
YES = re.compile(r"yes [0-9]+(?: greatest)?")
HANDED = "/proc/self/fd"


@contextmanager
def handed(name: str, data: bytes) -> Iterator[str]:
    """A name under which a program that is started reads these bytes: those of the file itself where there is no other way."""
    if not hasattr(os, "memfd_create") or not os.path.isdir(HANDED):
        yield name
        return
    with os.fdopen(os.memfd_create("wcc"), "wb") as file:
        file.write(data)
        file.flush()
        os.set_inheritable(file.fileno(), True)
        yield f"{HANDED}/{file.fileno()}"


def ran(program: str, words: list[str], seconds: float | None = None) -> subprocess.CompletedProcess[bytes]:
    """The program's answer to words, in which the files are handed on."""
    try:
        return subprocess.run([program, *words], stdin=DEVNULL, stdout=PIPE, stderr=DEVNULL, close_fds=False, timeout=seconds,
                              env={**os.environ, "WCC_PLAIN": "1"})
    except OSError as error:
        raise Failed(NOTHING_AT_HAND, f"wcc: `{printable(program)}` can't be run: {error.strerror}.") from None


def accept(program: str, files: list[tuple[str, bytes]], table: tuple[str, bytes] | None) -> None:
    """Has the program check a report, and stops with its line and status unless it says yes. `files` are the image and the report."""
    named = [*files, *([table] if table else [])]
    with ExitStack() as stack:
        names = [stack.enter_context(handed(*it)) for it in named]
        answer = ran(program, ["check", *(["--table", names[2]] if table else []), "--", *names[:2]])
    line = answer.stdout.decode(errors="replace").rstrip("\n")
    if answer.returncode > 0:
        words = ["check", *(["--table", table[0]] if table else []), "--", *(name for name, _ in files)]
        said = explain.quietly(lambda: explain.explained(explain.entries(), line, words)) if line else []
        raise Failed(answer.returncode, *([line] if line else []), *(said or []))
    if answer.returncode < 0 or not YES.fullmatch(line):
        raise Failed(NOTHING_AT_HAND, f"wcc: `{printable(program)}` gives no answer of `check`.")
