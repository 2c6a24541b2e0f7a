"""The Rattle toolchain on PATH."""
import shutil
import subprocess
from pathlib import Path
from subprocess import DEVNULL, PIPE


def asked(word: str) -> str:
    return subprocess.run(["rt", word], stdin=DEVNULL, stdout=PIPE, stderr=DEVNULL, text=True).stdout.strip()


class Toolchain:
    """`command` is where rt stands, and `identity` what it calls itself. Both are empty where there is none."""

    def __init__(self) -> None:
        self.command = shutil.which("rt") or ""
        self.identity = asked("version") if self.command else ""

    def __bool__(self) -> bool:
        return bool(self.command)

    def folder(self) -> Path:
        """Where its compiler and its libraries lie."""
        return Path(asked("doc")).parent

    def strip(self, program: Path, stripped: Path) -> None:
        """Writes a program without the names that only a debugger reads."""
        words = ["llvm-strip", "-o", stripped, program]
        subprocess.run(words, executable=self.folder() / "toolchain/bin/clang", stdin=DEVNULL, check=True)
