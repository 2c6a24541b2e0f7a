"""The files of a call: what is read is read once, and what is written is whole, or as it was."""
import os
import stat
import tempfile

from places import printable

USAGE, READ_FAULT, WRITE_FAULT = 2, 4, 5
# What is begun and not yet in its place: it goes where the call ends before.
BEGUN: set[str] = set()


class Failed(Exception):
    """The lines to say and the status."""

    def __init__(self, status: int, *lines: str) -> None:
        super().__init__(*lines)
        self.status, self.lines = status, lines


def why(error: Exception) -> str:
    return getattr(error, "strerror", None) or str(error)


def read(name: str, most: int) -> bytes:
    """The bytes of a file, or one more than there may be."""
    try:
        with open(name, "rb") as file:
            return file.read(most + 1)
    except (OSError, ValueError) as error:
        raise Failed(READ_FAULT, f"wcc: `{printable(name)}` can't be read: {why(error)}.") from None


def write(name: str, data: bytes) -> None:
    try:
        put(name, data)
    except (OSError, ValueError) as error:
        raise Failed(WRITE_FAULT, f"wcc: `{printable(name)}` isn't written: {why(error)}.") from None


def put(name: str, data: bytes) -> None:
    """Writes a plain file beside its place, and puts it there once it is whole; a device or a pipe is written as it is."""
    name = os.path.realpath(name) if os.path.islink(name) else name
    kept = os.stat(name) if os.path.exists(name) else None
    if kept is not None and (not stat.S_ISREG(kept.st_mode) or not os.access(os.path.dirname(name) or ".", os.W_OK)):
        with open(name, "wb") as file:
            file.write(data)
        return
    number, beside = tempfile.mkstemp(prefix=".wcc-", dir=os.path.dirname(name) or ".")
    BEGUN.add(beside)
    try:
        with open(number, "wb") as file:
            file.write(data)
            os.fchmod(file.fileno(), stat.S_IMODE(kept.st_mode) if kept else 0o666 & ~mask())
        os.replace(beside, name)
        BEGUN.discard(beside)
    finally:
        forget()


def mask() -> int:
    """The permissions that new files don't get."""
    found = os.umask(0o077)
    os.umask(found)
    return found


def forget() -> None:
    """Clears away what was begun, at the end of a call too."""
    while BEGUN:
        try:
            os.unlink(BEGUN.pop())
        except OSError:
            pass


# Names

def is_one_file(one: str, other: str) -> bool:
    try:
        return os.path.samefile(one, other)
    except (OSError, ValueError):
        return os.path.realpath(one) == os.path.realpath(other)


def refuse_aliases(read_names: list[str], written: list[str]) -> None:
    """No file that is written is another one that is named."""
    for number, name in enumerate(written):
        for other in read_names + written[:number]:
            if is_one_file(name, other) and (not os.path.exists(name) or os.path.isfile(name)):
                raise Failed(USAGE, f"wcc: `{printable(other)}` and `{printable(name)}` are one file, and `{printable(name)}` is written. "
                                    "Nothing is changed.")
