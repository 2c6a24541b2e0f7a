"""Takes away what `wcc install PREFIX` has put there: uninstall.py [PREFIX]. docs/COMMANDS.md says more."""
import os
import sys
from contextlib import suppress
from pathlib import Path

sys.path[:0] = [str(Path(__file__).resolve().parent.parent), str(Path(__file__).resolve().parent.parent / "explain")]
import guard  # noqa: E402
from install.install import DONE, READ_FAULT, USAGE, WRITE_FAULT, main, say  # noqa: E402
from install.layout import LIST, TOP, is_installed, listed  # noqa: E402
from task.files import Fault, why  # noqa: E402

CALLED = "wcc uninstall [PREFIX]"
HELP = [
    "Takes away the files that `wcc install PREFIX` has put there, and their folders where nothing else is in them. An installed wcc",
    "needs no PREFIX. The status is 0; 2 where the words are wrong, 4 where nothing is installed, and 5 where a file can't be removed.",
]


def uninstall(prefix: Path) -> int:
    """Removes what is listed, the list last, and says how many files that were."""
    names = listed(prefix)
    if not names:
        raise Fault(READ_FAULT, "read fault", f"wcc: Nothing is installed in `{prefix}`.")
    files = [it for it in names if not it.endswith("/") and it != LIST]
    for it in (*files, LIST):
        try:
            (prefix / it).unlink(missing_ok=True)
        except OSError as error:
            raise Fault(WRITE_FAULT, "write fault", f"wcc: `{prefix / it}` can't be removed: {why(error)}.") from None
    for it in names:
        if it.endswith("/"):
            with suppress(OSError):
                (prefix / it).rmdir()
    return len(files) + 1


def told(words: list[str]) -> int:
    if words in (["--help"], ["-h"]):
        print("\n".join([CALLED, *HELP]))
        return DONE
    if len(words) > 1 or not words and not is_installed() or words and (words[0].startswith("-") or not words[0]):
        say(f"It is called so: {CALLED}")
        return USAGE
    prefix = Path(os.path.abspath(words[0])) if words else TOP.parent.parent
    print(f"removed {uninstall(prefix)} files from {prefix}", flush=True)
    return DONE


if __name__ == "__main__":
    guard.run(lambda words: main(words, told))
