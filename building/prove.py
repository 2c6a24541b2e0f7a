"""Proves and builds a program and the libraries below it, as many at once as processors and memory allow.

Each begins as soon as those that it names stand, those with the longest rows of others above them first. The compiler is called
as `rt lib` and `rt run` call it. `rt` itself locks every library below the one that it works on, so that its calls would wait for
each other. What is built lies in a folder of its own, each library beside the digest of what it is made of, so that a call goes
on where an interrupted one stopped.
"""
import ctypes
import os
import re
import shutil
import signal
import subprocess
import time
from collections.abc import Callable
from math import ceil
from pathlib import Path
from subprocess import DEVNULL, PIPE, STDOUT
from typing import Any

from crates import Crates, stated, text_of
from toolchain import Toolchain

TARGET = "x86_64-unknown-linux-gnu"
GB_OF_A_PROVER = 2.5
MOST_JOBS = 4
# About how long a proof takes, by the lines of code. The pace of those that have ended corrects it.
SECONDS, SECONDS_OF_A_LINE = 10, 0.11
SECONDS_BEFORE_PACE = 300
PAUSE = 0.1
# The compiler's allocator keeps what the system has given it: to hand it back and ask anew takes some percent of a proof's time.
KEEPING = {"MIMALLOC_PURGE_DELAY": "-1"}

LIBC = ctypes.CDLL(None)
PR_SET_PDEATHSIG = 1


class NotBuilt(Exception):
    """Why there is no program."""


def end_with_the_caller(how: int = signal.SIGKILL) -> None:
    """Has this process get a signal when the one that started it ends, however that ends."""
    LIBC.prctl(PR_SET_PDEATHSIG, how)


def numbers(file: str) -> list[int]:
    """The numbers that a file of a control group begins with: none where it sets no limit."""
    try:
        return [int(it) for it in re.match(r"(?:\d+\s*)*", Path("/sys/fs/cgroup", file).read_text())[0].split()]
    except OSError:
        return []


def workers() -> int:
    """How many provers there are processors and memory for."""
    quota, limit = numbers("cpu.max"), numbers("memory.max")
    processors = len(os.sched_getaffinity(0))
    if quota:
        processors = min(processors, ceil(quota[0] / quota[1]))
    memory = min([os.sysconf("SC_PAGE_SIZE") * os.sysconf("SC_PHYS_PAGES"), *limit])
    return max(1, min(processors, int(memory / 2**30 / GB_OF_A_PROVER)))


def remove(path: Path) -> None:
    if path.is_dir():
        shutil.rmtree(path)
    else:
        path.unlink(missing_ok=True)


class Job:
    """A run of the compiler on a crate."""

    def __init__(self, name: str, jobs: int, words: list[str], **where: Any) -> None:
        self.name, self.jobs, self.begun = name, jobs, time.monotonic()
        self.run = subprocess.Popen(words, stdin=DEVNULL, stderr=STDOUT, preexec_fn=end_with_the_caller, **where)

    def seconds(self) -> float:
        return time.monotonic() - self.begun

    def stop(self) -> None:
        self.run.kill()
        self.run.wait()


class Proving:
    """What stands in the folder `room`, what is being proved, and what is left of a program and the libraries below it."""

    def __init__(self, crates: Crates, toolchain: Toolchain, program: str, room: Path) -> None:
        self.crates, self.toolchain, self.kit = crates, toolchain, toolchain.folder()
        self.program, self.room, self.names = program, room, crates.up_to(program)
        self.weights = {it: SECONDS + SECONDS_OF_A_LINE * crates.lines(it) for it in self.names}
        self.rows = {}
        for name in reversed(self.names):
            above = [self.rows[it] for it in self.rows if name in crates.libraries(it)]
            self.rows[name] = self.weights[name] + max(above, default=0)
        self.left = sorted(self.names, key=lambda it: -self.rows[it])
        self.standing, self.running, self.killed, self.workers = set(), {}, set(), workers()
        self.weight_ended, self.seconds_of_ended = SECONDS_BEFORE_PACE, SECONDS_BEFORE_PACE

    def built(self, name: str) -> Path:
        return self.room / (f"{name}.o" if name == self.program else f"{name}.rlib")

    def note(self, name: str) -> Path:
        return self.room / f"{name}.sources"

    def stated(self, name: str) -> str:
        return stated(self.toolchain.identity, self.crates.digest(name))

    def is_ready(self, name: str) -> bool:
        return self.standing.issuperset(self.crates.libraries(name))

    def take_what_stands(self) -> None:
        """Takes what an earlier call built of the same libraries, and removes all else, such as what an interrupted one left."""
        self.room.mkdir(parents=True, exist_ok=True)
        for name in self.names:
            is_same = self.built(name).exists() and text_of(self.note(name)) == self.stated(name)
            if is_same and self.is_ready(name):
                self.standing.add(name)
                self.left.remove(name)
        kept = {path for name in self.standing for path in (self.built(name), self.note(name))}
        for it in self.room.iterdir():
            if it not in kept:
                remove(it)

    def words(self, name: str, jobs: int) -> list[str]:
        """The compiler's words for a crate, in whose folder it runs."""
        is_program = name == self.program
        words = [f"{self.kit}/bin/rattle", "build", "--crate-name", name, "src/main.rt" if is_program else "src/lib.rt"]
        for it in self.crates.of_toolchain(name):
            words += ["--extern", f"{it}={self.kit}/rlibs/{it}.rlib"]
        for it in self.crates.libraries(name):
            words += ["--extern", f"{it}={self.built(it)}"]
        words += ["-L", f"dependency={self.kit}/rlibs", "-L", f"dependency={self.room}"]
        words += ["--antt-project", f"{self.kit}/rattle/logic/antt-project.json", "--logic-built", f"{self.kit}/logic_built"]
        words += ["--jobs", str(jobs), "--links", f"{name}=", "-o", f"{self.room}/{name}.part"]
        # Those above a library read what it states, and not its proofs, as in the gate.
        return [*words, *(["--toolchain", f"{self.kit}/toolchain", "--backend", "llvm"] if is_program else ["--statements"])]

    def begin(self) -> None:
        ready = [it for it in self.left if self.is_ready(it)]
        for number, name in enumerate(ready):
            idle = self.workers - sum(it.jobs for it in self.running.values())
            if idle < 1:
                break
            jobs = max(1, min(MOST_JOBS, idle // (len(ready) - number)))
            self.left.remove(name)
            with open(self.room / f"{name}.log", "wb") as log:
                where = {"cwd": self.crates.folder(name), "stdout": log, "env": {**os.environ, **KEEPING, "TMPDIR": str(self.room)}}
                self.running[name] = Job(name, jobs, self.words(name, jobs), **where)

    def end(self) -> None:
        """Takes what has been built since the last call."""
        for job in [it for it in self.running.values() if it.run.poll() is not None]:
            del self.running[job.name]
            if job.run.returncode == -signal.SIGKILL:
                self.begin_again(job.name)
            elif job.run.returncode:
                raise NotBuilt(f"{job.name} is not proved: {self.room}/{job.name}.log says why")
            else:
                self.keep(job)

    def begin_again(self, name: str) -> None:
        """Where a proof was killed, most likely for memory, fewer are proved at once."""
        if self.workers == 1 and name in self.killed:
            raise NotBuilt(f"the proof of {name} was killed, most likely for memory")
        self.killed.add(name)
        self.workers = max(1, self.workers // 2)
        self.left.insert(0, name)

    def keep(self, job: Job) -> None:
        name = job.name
        if not Crates(self.crates.root).is_as_in(self.crates, name):
            raise NotBuilt(f"{name} was changed while it was proved")
        os.replace(self.room / f"{name}.part", self.built(name))
        self.note(name).write_text(self.stated(name))
        (self.room / f"{name}.log").unlink()
        self.standing.add(name)
        self.weight_ended += self.weights[name]
        self.seconds_of_ended += job.seconds()

    def seconds_left(self) -> float:
        pace = self.seconds_of_ended / self.weight_ended
        been = {it.name: it.seconds() for it in self.running.values()}
        open_ones = [it for it in self.names if it not in self.standing]
        work = sum(max(0, pace * self.weights[it] - been.get(it, 0)) for it in open_ones)
        longest = max(pace * self.rows[it] - been.get(it, 0) for it in open_ones)
        return max(work / self.workers, longest)

    def progress(self) -> str:
        number, minutes = min(len(self.standing) + 1, len(self.names)), max(1, ceil(self.seconds_left() / 60))
        newest = max(self.running.values(), key=lambda it: it.begun).name
        return f"proving {number} of {len(self.names)}, {newest}, about {minutes} minute{'s' * (minutes > 1)} left"

    def run(self, tell: Callable[[str], None]) -> Path:
        """Builds the program, and returns where it stands. Now and then it tells how far it is."""
        self.take_what_stands()
        try:
            while self.left or self.running:
                self.begin()
                tell(self.progress())
                time.sleep(PAUSE)
                self.end()
        finally:
            for it in self.running.values():
                it.stop()
        return self.linked()

    def linked(self) -> Path:
        """The program, linked and without the names that only a debugger reads."""
        whole, stripped = self.room / f"{self.program}.linked", self.room / self.program
        words = [f"{self.kit}/bin/rattle-link", "--target", TARGET, "--toolchain", f"{self.kit}/toolchain", "-o", whole]
        words += [self.built(self.program), f"{self.kit}/c/libos_c.a", f"{self.kit}/c/liblibc_c.a"]
        ran = subprocess.run(words, stdin=DEVNULL, stdout=PIPE, stderr=STDOUT, text=True)
        if ran.returncode:
            raise NotBuilt(f"{self.program} is not linked: {ran.stdout.strip()}")
        self.toolchain.strip(whole, stripped)
        return stripped
