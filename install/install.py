"""Installs wcc below a prefix: install.py PROGRAM PREFIX, where PROGRAM is a built wcc. docs/COMMANDS.md says more."""
import os
import signal
import sys
from collections.abc import Callable
from contextlib import suppress
from pathlib import Path

sys.path[:0] = [str(Path(__file__).resolve().parent.parent), str(Path(__file__).resolve().parent.parent / "explain")]
import guard  # noqa: E402
from install.layout import DOCUMENTS, LIST, PLAIN, File, files, listed  # noqa: E402
from task.files import Fault, why  # noqa: E402

DONE, USAGE, READ_FAULT, WRITE_FAULT, INTERRUPTED = 0, 2, 4, 5, 130
CALLED = "wcc install PREFIX"
HELP = [
    "Installs below PREFIX the program and its launcher, as bin/wcc and lib/wcc, the headers and tools, the man page wcc.1, completions",
    "for bash and zsh, and in share/doc/wcc the pages and examples. What is installed there already is replaced; a file of another's is",
    "left alone, and then nothing is installed. `wcc uninstall PREFIX` takes all of it away.",
    "The status is 0; 2 where the words are wrong or another's file is in the way, 4 where something can't be read, 5 where it can't be",
    "written, 70 where there is no program or no Python, and 130 after an interrupt: then `uninstall` takes away what is there.",
]


def say(*lines: str) -> None:
    with suppress(OSError):
        sys.stderr.write("".join(f"{it}\n" for it in lines))
        sys.stderr.flush()


def is_plain() -> bool:
    return os.environ.get("WCC_PLAIN") == "1"


def put(prefix: Path, file: File) -> None:
    """Makes a file apart and puts it in its place."""
    path = prefix / file.name
    apart = path.with_name(f".{path.name}.{os.getpid()}")
    try:
        path.parent.mkdir(parents=True, exist_ok=True)
        try:
            if file.is_link:
                apart.symlink_to(file.data.decode())
            else:
                apart.write_bytes(file.data)
                apart.chmod(file.mode)
            os.replace(apart, path)
        finally:
            apart.unlink(missing_ok=True)
    except OSError as error:
        raise Fault(WRITE_FAULT, "write fault", f"wcc: `{path}` can't be written: {why(error)}.") from None


def folders_of(prefix: Path, names: list[str], before: list[str]) -> list[str]:
    """The folders that the install makes, the deepest first: an uninstall takes them away where they are empty."""
    found = {str(it) for name in names for it in Path(name).parents if str(it) != "."}
    made = {it for it in found if not (prefix / it).is_dir() or f"{it}/" in before}
    return sorted((f"{it}/" for it in made), key=lambda it: (-it.count("/"), it))


def refuse_others(prefix: Path, names: list[str], before: list[str]) -> None:
    """Nothing that somebody else has put there is replaced."""
    for name in names:
        if name not in before and os.path.lexists(prefix / name):
            raise Fault(USAGE, "usage", f"wcc: `{prefix / name}` is there already, and of no install of wcc. Nothing is installed.")


def install(program: Path, prefix: Path) -> None:
    before, made = listed(prefix), list(files(program))
    names = [it.name for it in made] + [LIST]
    refuse_others(prefix, names, before)
    folders = folders_of(prefix, names, before)
    gone = [it for it in before if it not in names and not it.endswith("/")]
    # First the list of all that may be there, so that an uninstall finds it whenever this ends.
    put(prefix, File(LIST, lines([*names, *gone], folders), PLAIN))
    for it in made:
        put(prefix, it)
    for it in gone:
        with suppress(OSError):
            (prefix / it).unlink()
    put(prefix, File(LIST, lines(names, folders), PLAIN))


def lines(names: list[str], folders: list[str]) -> bytes:
    return "".join(f"{it}\n" for it in (*names, *folders)).encode()


def told(words: list[str]) -> int:
    if words[1:] in (["--help"], ["-h"]):
        print("\n".join([CALLED, *HELP]))
        return DONE
    if len(words) != 2 or words[1].startswith("-") or not words[1]:
        say(f"It is called so: {CALLED}")
        return USAGE
    prefix = Path(os.path.abspath(words[1]))
    install(Path(words[0]), prefix)
    print(f"installed {prefix / 'bin/wcc'}", flush=True)
    if not is_plain():
        say(f"The man page is {prefix / 'share/man/man1/wcc.1'}, the pages are in {prefix / DOCUMENTS}.",
            *([] if str(prefix / "bin") in os.environ.get("PATH", "").split(":") else [f"{prefix / 'bin'} isn't on PATH yet."]))
    return DONE


def main(words: list[str], work: Callable[[list[str]], int] = told) -> int:
    for it in (signal.SIGINT, signal.SIGTERM, signal.SIGHUP):
        if signal.getsignal(it) != signal.SIG_IGN:
            signal.signal(it, signal.default_int_handler)
    try:
        return work(words)
    except Fault as fault:
        say(*fault.said)
        return fault.status
    except OSError:
        os.dup2(os.open(os.devnull, os.O_WRONLY), sys.stdout.fileno())
        return WRITE_FAULT
    except KeyboardInterrupt:
        return INTERRUPTED


if __name__ == "__main__":
    guard.run(main)
