"""Sees that the program stands for the sources of this checkout: program.py [prove].

What stands is taken where it was made of the same sources, whatever the times of their files. Else the shipped program is unpacked
where that was, and else all is proved and built here. With `prove` that is done in any case, and what is built is compared
with the shipped program. The exit status is 0, or 70 where there is no program, or where the two differ.
"""
import fcntl
import os
import shutil
import signal
import sys
import time
from collections.abc import Iterator
from contextlib import contextmanager, suppress
from pathlib import Path
from subprocess import CalledProcessError

sys.path[:0] = [str(Path(__file__).resolve().parent)]
from checkout import Checkout, Damaged  # noqa: E402
from crates import PROGRAM, ROOT, text_of  # noqa: E402
from prove import NotBuilt, Proving, end_with_the_caller  # noqa: E402

FOLDER = ROOT / "crates" / PROGRAM
# A folder that rt takes for a library's, and the program is none: rt looks for no sources there, and keeps it over rt ci.
ROOM = FOLDER / "out/rlib"
NO_PROGRAM = 70
SECONDS_BETWEEN_LINES = 60
WHAT_TO_DO = ". `git status crates crates.txt release` says what was changed, and `git restore` takes it back"


def write(text: str) -> None:
    """Writes on standard error, where that can be had: nothing depends on it."""
    with suppress(OSError):
        os.write(2, text.encode())


def say(text: str) -> None:
    write(f"wcc: {text}\n")


class Line:
    """A line on standard error that is kept current: on a terminal it is written over, elsewhere it comes once a minute."""

    def __init__(self) -> None:
        self.is_terminal, self.shown, self.next = os.isatty(2), "", time.monotonic()

    def show(self, text: str) -> None:
        if self.is_terminal and text != self.shown:
            write(f"\r\x1b[Kwcc: {text}")
            self.shown = text
        elif not self.is_terminal and time.monotonic() >= self.next:
            say(text)
            self.next = time.monotonic() + SECONDS_BETWEEN_LINES

    def clear(self) -> None:
        if self.shown:
            write("\r\x1b[K")


@contextmanager
def alone() -> Iterator[None]:
    """Waits until no other call, and no rt, works in the crate's folder, and keeps others out."""
    held = os.open(FOLDER, os.O_RDONLY)
    try:
        fcntl.flock(held, fcntl.LOCK_EX | fcntl.LOCK_NB)
    except BlockingIOError:
        say(f"waiting for another call, or for rt, that works in {FOLDER}")
        fcntl.flock(held, fcntl.LOCK_EX)
    try:
        yield
    finally:
        os.close(held)


def build(why: str, anew: bool = False) -> Checkout:
    """Proves and builds the program here, unless another call has done so meanwhile, and returns the checkout that it stands for."""
    with alone():
        here = Checkout()
        if here.standing() and not anew:
            return here
        if not here.toolchain:
            raise NotBuilt(f"there is no program to run{why}; and it cannot be built here, since rt, the command of the Rattle toolchain, "
                           f"is not on PATH{WHAT_TO_DO * (why != '')}")
        proving, line = Proving(here.crates, here.toolchain, PROGRAM, ROOM), Line()
        say(f"proving and building{why}: about an hour on four processors, with 5 GB of disk. A call after an interrupt goes on")
        try:
            program = proving.run(line.show)
        finally:
            line.clear()
        here.place(program.read_bytes(), proving.stated(PROGRAM))
        shutil.rmtree(ROOM)
        say("built")
        return here


def see_that_it_stands() -> None:
    here = Checkout()
    found, why = here.standing(), here.why_not_shipped()
    if found:
        # Where it can't be noted, the next call asks again.
        with suppress(OSError):
            here.note_down(*found)
        return
    if here.is_replaced():
        say("the program in crates/wcc/out is not the one that was made or shipped, and isn't run. Where rt built it of these sources, "
            "`building/release compare` takes it")
    try:
        if not why:
            here.place(here.shipped(), text_of(here.sources))
            say("this is the shipped program, which was built of these sources: ./wcc prove builds it here, and compares")
            return
    except Damaged as error:
        why = str(error)
    build(f", since {why}")


def prove() -> int:
    here = build("", anew=True)
    if here.why_not_shipped():
        say(f"release isn't current, so there is nothing to compare: {here.why_not_shipped()}")
        return 0
    is_same = here.shipped() == here.program.read_bytes()
    say(f"the program that was built here {'equals' if is_same else 'differs from'} the shipped one{', byte for byte' * is_same}")
    return 0 if is_same else NO_PROGRAM


def main(words: list[str]) -> int:
    if sys.stderr is None:
        # It is closed, and no other file may take its number.
        os.dup2(os.open(os.devnull, os.O_WRONLY), 2)
    for it in (signal.SIGTERM, signal.SIGHUP):
        if signal.getsignal(it) != signal.SIG_IGN:
            signal.signal(it, signal.default_int_handler)
    # Where the launcher alone is ended.
    end_with_the_caller(signal.SIGTERM)
    try:
        if words == ["prove"]:
            return prove()
        see_that_it_stands()
        return 0
    except KeyboardInterrupt:
        say("interrupted: a later call goes on from here")
    except (NotBuilt, Damaged, OSError, CalledProcessError) as error:
        say(str(error))
    return NO_PROGRAM


if __name__ == "__main__":
    sys.exit(main(sys.argv[1:]))
