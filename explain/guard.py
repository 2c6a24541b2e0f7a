"""How a tool ends: with a line and a status, whatever happens, and never with a traceback.

A tool imports this first and hands its `main` to `run`. A closed stream is one that can't be written or read, an interrupt is status
130, want of memory `memory` and status 6, and a fault of the tool itself one line with its place and status 71.
"""
import os
import sys
from collections.abc import Callable

WRITE_FAULT, MEMORY, OWN_FAULT, INTERRUPTED = 5, 6, 71, 130


def occupy() -> None:
    """Has no file that is opened take the number of a stream that is closed: what is written there fails, and nothing can be read."""
    for number, way in enumerate((os.O_RDONLY, os.O_WRONLY, os.O_WRONLY)):
        try:
            os.fstat(number)
        except OSError:
            opened = os.open(("/", "/dev/full", os.devnull)[number], way)
            if opened != number:
                os.dup2(opened, number)
                os.close(opened)
    if sys.stdout is None:
        sys.stdout = open(1, "w", encoding="utf-8", errors="replace", closefd=False)
    if sys.stderr is None:
        sys.stderr = open(2, "w", encoding="utf-8", errors="replace", closefd=False)
    for it in (sys.stdout, sys.stderr):
        it.reconfigure(errors="replace")


def note(text: str) -> None:
    """Says a line on standard error, where that can be had."""
    try:
        os.write(2, ("".join(it if it.isprintable() else "?" for it in text) + "\n").encode(errors="replace"))
    except OSError:
        pass


def leave(status: int) -> None:
    """Ends with a status, or as a write fault where all else is done and what was said can't be written."""
    for it in (sys.stdout, sys.stderr):
        try:
            it.flush()
        except (OSError, ValueError):
            if it is sys.stdout:
                status = status or WRITE_FAULT
    os._exit(status)


def status_of(error: BaseException) -> int:
    """What a call that was ended by an error ends with; it says why."""
    if isinstance(error, SystemExit):
        return error.code if isinstance(error.code, int) else 1 if error.code else 0
    if isinstance(error, KeyboardInterrupt):
        return INTERRUPTED
    if isinstance(error, MemoryError):
        note("memory")
        return MEMORY
    if isinstance(error, BrokenPipeError):
        return WRITE_FAULT
    frame = error.__traceback__
    while frame is not None and frame.tb_next is not None:
        frame = frame.tb_next
    place = f"{frame.tb_frame.f_code.co_filename}:{frame.tb_lineno}" if frame else sys.argv[0]
    note(f"wcc: a fault of this tool, which is not yours, at {place}: {type(error).__name__}: {error}")
    return OWN_FAULT


def ended_by(kind: type[BaseException], error: BaseException, trace: object) -> None:
    leave(status_of(error))


def run(main: Callable[[list[str]], int]) -> None:
    """Runs the tool on its words, and ends with its status."""
    try:
        status = main(sys.argv[1:])
    except BaseException as error:
        status = status_of(error)
    leave(status)


occupy()
# What is imported behind this may fail too.
sys.excepthook = ended_by
