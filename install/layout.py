"""What is installed, and where: the names below a prefix, what each file holds, and its rights."""
import os
import sys
from collections.abc import Iterator
from dataclasses import dataclass
from pathlib import Path

sys.path[:0] = [str(Path(__file__).resolve().parent.parent)]
from install import manual  # noqa: E402
from task.files import Fault, read  # noqa: E402

TOP = Path(__file__).resolve().parent.parent
LIBRARY, PROGRAM, LIST = "lib/wcc", "crates/wcc/out/wcc", "lib/wcc/installed"
# What the launcher calls and what that reads.
FOLDERS = ("counts", "evaluator", "explain", "include", "install", "prepare", "show", "simulator", "task")
PAGES = ("docs", "examples")
DOCUMENTS = "share/doc/wcc"
PLAIN, EXECUTABLE = 0o644, 0o755


@dataclass(frozen=True)
class File:
    """A file below the prefix. Of a link `data` is where it leads."""
    name: str
    data: bytes
    mode: int = PLAIN
    is_link: bool = False


def within(folder: str) -> Iterator[Path]:
    """The files of a folder of the checkout, without what Python keeps beside them."""
    for at, folders, files in os.walk(TOP / folder):
        folders[:] = sorted(it for it in folders if it != "__pycache__")
        yield from (Path(at, it) for it in sorted(files) if not it.endswith(".pyc"))


def copied(path: Path, name: str) -> File:
    return File(name, read(path), EXECUTABLE if os.access(path, os.X_OK) else PLAIN)


def files(program: Path) -> Iterator[File]:
    """All that is installed but for the list of it."""
    yield copied(TOP / "wcc", f"{LIBRARY}/wcc")
    yield File(f"{LIBRARY}/{PROGRAM}", read(program), EXECUTABLE)
    for folder in FOLDERS:
        yield from (copied(it, f"{LIBRARY}/{it.relative_to(TOP)}") for it in within(folder))
    if (sources := TOP / "release/sources").is_file():
        yield copied(sources, f"{LIBRARY}/release/sources")
    yield File("bin/wcc", b"../lib/wcc/wcc", is_link=True)
    yield from documents()
    helps = manual.helps(TOP / "wcc")
    yield File("share/man/man1/wcc.1", manual.page(helps).encode())
    yield File("share/bash-completion/completions/wcc", manual.for_bash(helps).encode())
    yield File("share/zsh/site-functions/_wcc", manual.for_zsh(helps).encode())


def documents() -> Iterator[File]:
    """The pages and the examples: of an installed wcc they are those that stand there."""
    top = TOP.parent.parent / DOCUMENTS if is_installed() else TOP
    for name in ("README.md", "SECURITY.md"):
        yield copied(top / name, f"{DOCUMENTS}/{name}")
    for folder in PAGES:
        yield from (copied(it, f"{DOCUMENTS}/{it.relative_to(top)}") for it in within(str(top / folder)))


def is_installed() -> bool:
    return (TOP / "installed").is_file()


def listed(prefix: Path) -> list[str]:
    """The names that an install in a prefix has, files and behind them their folders, or none where there is none."""
    try:
        lines = (prefix / LIST).read_text().splitlines()
    except (FileNotFoundError, NotADirectoryError):
        return []
    except (OSError, UnicodeDecodeError) as error:
        raise Fault(4, "read fault", f"wcc: `{prefix / LIST}` can't be read: {error}.") from None
    return [it for it in lines if it and ".." not in Path(it).parts and not Path(it).is_absolute()]
