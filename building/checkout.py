"""The sources of a checkout, the program that stands for them, and the one that is shipped."""
import hashlib
import os
import shutil
import subprocess
import time
from pathlib import Path
from subprocess import DEVNULL, PIPE, CalledProcessError

from crates import PROGRAM, ROOT, Crates, stated, text_of
from toolchain import Toolchain

# So many seconds the times of files may lie behind the clock: what was changed later than this before a reading, and what is changed
# after it, can't be told apart by their times.
LAG = 0.1
# So often a checkout is read anew at most, until what was changed last lies back.
READINGS = 3
# What tells a file from another one and from itself once it's changed, as the launcher asks for it.
IDENTITY = ("stat", "-c", "%i %s %.Y %.Z", "--")
# By this a program dies with the launcher, where it is a setpriv that knows how.
KEEPER = ("--pdeathsig", "KILL", "--", "true")


class Damaged(Exception):
    """Why there is no shipped program to be had."""


def digest_of(data: bytes) -> str:
    return hashlib.sha256(data).hexdigest()


def xz(how: str, data: bytes) -> bytes:
    return subprocess.run(["xz", how, "--stdout", "--threads=1"], input=data, stdout=PIPE, stderr=PIPE, check=True).stdout


def unpacked(data: bytes) -> bytes | None:
    """What xz packed, by the command, or by Python where that is missing; or nothing where it isn't whole."""
    if shutil.which("xz"):
        try:
            return xz("--decompress", data)
        except CalledProcessError:
            return None
    try:
        import lzma
    except ImportError:
        raise Damaged("no xz is on PATH, which unpacks the shipped program: install it, as by `apt install xz-utils`") from None
    try:
        return lzma.decompress(data, lzma.FORMAT_XZ)
    except lzma.LZMAError:
        return None


def write(path: Path, data: bytes, mode: int = 0o644, changed: float | None = None) -> None:
    """Writes a file apart and then puts it in its place, so that nobody meets half of it."""
    path.parent.mkdir(parents=True, exist_ok=True)
    apart = path.with_name(f"{path.name}.{os.getpid()}")
    try:
        apart.write_bytes(data)
        apart.chmod(mode)
        if changed:
            os.utime(apart, (changed, changed))
        os.replace(apart, path)
    finally:
        apart.unlink(missing_ok=True)


def keeper() -> str:
    """The setpriv by which a program dies with the launcher, or nothing where there is none that can."""
    found = shutil.which("setpriv")
    can = found and subprocess.run([found, *KEEPER], stdin=DEVNULL, stdout=DEVNULL, stderr=DEVNULL).returncode == 0
    return found if can else ""


class Checkout:
    """As it is when this is made."""

    def __init__(self, root: Path = ROOT) -> None:
        self.began, self.crates, self.toolchain = time.time(), Crates(root), Toolchain()
        self.digest = self.crates.digest(PROGRAM)
        self.program = self.crates.folder(PROGRAM) / "out" / PROGRAM
        self.note, self.looked_at = self.program.with_suffix(".made"), self.program.with_suffix(".files")
        self.packed, self.sources = root / "release" / f"{PROGRAM}.xz", root / "release/sources"
        self.sum = root / "release" / f"{PROGRAM}.sha256"

    def is_of(self, text: str) -> bool:
        """Whether what is stated is of these sources, and of this toolchain where there is one."""
        return text == stated(self.toolchain.identity or text.partition("\n")[0], self.digest)

    def place(self, data: bytes, text: str) -> None:
        """Has this be the program that stands."""
        write(self.program, data, 0o755)
        self.note_down(data, text)

    def names(self) -> list[bytes]:
        """Those by whose times a change shows, the toolchain's command among them, from the root on."""
        return [*self.crates.looked_at(PROGRAM), *([os.fsencode(self.toolchain.command)] if self.toolchain else [])]

    def settled(self) -> "Checkout":
        """The checkout as it is once the last change lies further back than the times of files lag: it's waited for, and then all is read
        anew. Where times are ahead of the clock, or changes don't end, it's as it is by then."""
        here = self
        for _ in range(READINGS):
            changed, now = self.crates.last_change(here.names()), time.time()
            if changed < here.began - LAG or changed > now + LAG:
                break
            # A hundredth is more than the grain of the times.
            time.sleep(max(0, changed + LAG + 0.01 - now))
            here = Checkout(self.crates.root)
        return here

    def note_down(self, data: bytes, text: str) -> None:
        """Notes that the program which stands was made so. The launcher takes it while it and all that it was made of are as they are now,
        by the numbers and times of the files: it compares times with that of the note. Where something has changed since this was read,
        or has a time that is ahead, the note is older than that, and the next call asks again."""
        settled = self.settled()
        here = settled if settled.is_of(text) else self
        write(self.looked_at, b"".join(it + b"\0" for it in here.names()))
        asked = subprocess.run([*IDENTITY, self.program, self.looked_at], stdin=DEVNULL, stdout=PIPE, check=True)
        lines = f"{here.toolchain.command}\n{text}{digest_of(data)}\n".encode() + asked.stdout + f"{keeper()}\n".encode()
        write(self.note, lines, changed=here.began - LAG)

    def standing(self) -> tuple[bytes, str] | None:
        """The program that stands, and what is stated of it, if it is the one that was made of these sources."""
        _, *lines = text_of(self.note).splitlines(keepends=True) or [""]
        text, data = "".join(lines[:2]), self.program.read_bytes() if self.program.is_file() else b""
        is_noted = lines[2:3] == [f"{digest_of(data)}\n"]
        return (data, text) if is_noted and self.is_of(text) else None

    def is_replaced(self) -> bool:
        """Whether a program stands there that isn't the one that was noted, whatever that was made of."""
        _, *lines = text_of(self.note).splitlines() or [""]
        return self.program.is_file() and lines[2:3] != [digest_of(self.program.read_bytes())]

    def why_not_shipped(self) -> str:
        """Why the shipped program isn't that of this checkout, or nothing where it is."""
        text, system = text_of(self.sources), os.uname()
        if (system.sysname, system.machine) != ("Linux", "x86_64"):
            return "the shipped program is for Linux on x86-64"
        if text != stated(text.partition("\n")[0], self.digest):
            return "the sources are not those of the shipped program"
        return "" if self.is_of(text) else "the toolchain is not that of the shipped program"

    def shipped(self) -> bytes:
        """What is packed there, whatever it's of. It must be what its digest says."""
        try:
            data = unpacked(self.packed.read_bytes())
        except OSError as error:
            raise Damaged(f"release/{self.packed.name} cannot be unpacked: {error.strerror}") from error
        if data is None:
            raise Damaged(f"release/{self.packed.name} cannot be unpacked: it is cut or damaged, so get the release anew")
        if text_of(self.sum) != sum_line(data):
            raise Damaged(f"release/{self.packed.name} is not the program that release/{self.sum.name} is of, so get the release anew")
        return data


def sum_line(data: bytes) -> str:
    """The digest of a program as `sha256sum -c` reads it, for one that it's given on standard input."""
    return f"{digest_of(data)}  -\n"
