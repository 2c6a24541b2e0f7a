"""The program of a crate for tests, proved and built first where that isn't done yet."""
import os
import subprocess
import time
from pathlib import Path
from subprocess import DEVNULL, STDOUT

ROOT = Path(__file__).resolve().parent.parent.parent


def is_current(program):
    """Whether it is built, and newer than all that it is built from."""
    if not program.is_file():
        return False
    parts = [part for crate in (ROOT / "crates").iterdir() for part in (crate / "src", crate / "specs", crate / "proofs")]
    sources = [ROOT / "crates.txt", *(it for part in parts for it in part.rglob("*"))]
    return all(it.stat().st_mtime <= program.stat().st_mtime for it in sources)


def built(name="try_forms"):
    """Its path."""
    crate = ROOT / "crates" / name
    program, log = crate / "out" / name, crate / "out/build.log"
    if not is_current(program):
        started = time.time()
        log.parent.mkdir(exist_ok=True)
        program.unlink(missing_ok=True)
        with open(log, "wb") as told:
            subprocess.run(["rt", "run"], cwd=crate, stdin=DEVNULL, stdout=told, stderr=STDOUT)
        if not program.is_file():
            raise SystemExit(f"There is no {name} to run: {log} says why.\n0 passed, 1 failed")
        # So that a source which changed during the build is newer than the program.
        os.utime(program, (started, started))
    return program
