"""Files that are written whole or not at all, and what their bytes are known by."""
import hashlib
import os
import signal
import stat
import subprocess
from collections.abc import Iterable, Iterator
from contextlib import contextmanager, suppress
from pathlib import Path

HELD = (signal.SIGINT, signal.SIGTERM, signal.SIGHUP)


class Fault(Exception):
    """Why a call ends, in lines for people, and its status. `line` is what a program reads."""

    def __init__(self, status: int, line: str, *said: str) -> None:
        super().__init__(line)
        self.status, self.line, self.said = status, line, said


def why(error: Exception) -> str:
    return getattr(error, "strerror", None) or str(error)


def read(path: str | Path) -> bytes:
    try:
        return Path(path).read_bytes()
    except (OSError, ValueError) as error:
        raise Fault(4, "read fault", f"wcc: `{path}` can't be read: {why(error)}.") from None


def digest(data: bytes) -> str:
    return hashlib.sha256(data).hexdigest()


def digest_of(path: str | Path) -> str:
    """That of a file, or nothing where it can't be read."""
    try:
        return digest(Path(path).read_bytes())
    except (OSError, ValueError):
        return ""


@contextmanager
def held() -> Iterator[None]:
    """Lets no interrupt come between what belongs together."""
    before = signal.pthread_sigmask(signal.SIG_BLOCK, HELD)
    try:
        yield
    finally:
        signal.pthread_sigmask(signal.SIG_SETMASK, before)


@contextmanager
def locked(folder: Path) -> Iterator[None]:
    """Has no other call put its files into a folder meanwhile. Where it can't be locked, or isn't free in ten seconds, that is no matter."""
    number = -1
    try:
        with suppress(OSError):
            number = os.open(folder, os.O_RDONLY)
            subprocess.run(["flock", "-w", "10", str(number)], stdin=subprocess.DEVNULL, stderr=subprocess.DEVNULL, pass_fds=[number])
        yield
    finally:
        if number >= 0:
            os.close(number)


def put(made: Path, path: Path) -> None:
    """Puts a file that was made apart into its place, with the rights of the one that was there."""
    place = Path(os.path.realpath(path))
    with suppress(OSError):
        made.chmod(stat.S_IMODE(place.stat().st_mode))
    os.replace(made, place)


def place(room: Path, folder: Path, names: Iterable[str]) -> None:
    """Puts files from a room beside it into a folder."""
    for name in names:
        try:
            put(room / name, folder / name)
        except OSError as error:
            raise Fault(5, "write fault", f"wcc: `{folder / name}` isn't written: {why(error)}.") from None


def place_changed(room: Path, folder: Path, names: Iterable[str]) -> None:
    """Those of the files that are there, and not what stands already."""
    place(room, folder, [it for it in names if (room / it).is_file() and digest_of(room / it) != digest_of(folder / it)])


def is_one(one: str | Path, other: str | Path) -> bool:
    try:
        return os.path.samefile(one, other)
    except (OSError, ValueError):
        return os.path.realpath(one) == os.path.realpath(other)
