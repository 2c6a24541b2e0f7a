"""Calls of a built wcc in which one call of the system is refused, and what must hold of them."""
import os
import subprocess
import sys
import tempfile
from collections import namedtuple
from concurrent.futures import ThreadPoolExecutor
from contextlib import contextmanager
from pathlib import Path
from subprocess import DEVNULL, PIPE

HERE = Path(__file__).resolve().parent
sys.path.insert(0, str(HERE.parent))
from evaluation import behind  # noqa: E402

EXAMPLES = HERE.parent.parent / "examples"
SECONDS = 60
WORST = 10  # how many calls of a command are told that did not end as they must
TOGETHER = 32  # calls
TASKS = b"task first 4000 first.elf first.txt\ntask crc16 900000 crc16.elf crc16.txt\n"
OLDER = b"an older content\n" * 400
READ = ("first.c", "crc16.c", "pid.c", "thermistor.c", "fft.c", "fir.c", "frame.c", "gate.c", "costs.toml")
QUICK = "/dev/shm"  # a folder in memory, where there is one
BYSTANDER = "fft.c"
# The words of each command, and the files that it writes in the order in which it does: those with small files first.
COMMANDS = (
    ("compile first.c b.elf b.txt", ("b.elf", "b.txt")),
    ("eval crc16.c a.in b.out", ("b.out",)),
    ("run first.elf a.in b.out --table costs.toml --limit 1000", ("b.out",)),
    ("check crc16.elf crc16.txt --table costs.toml", ()),
    ("respond tasks --table costs.toml", ()),
    ("make 1 b.c b.elf b.txt", ("b.c", "b.elf", "b.txt")),
    ("compile thermistor.c b.elf b.txt --derive", ("b.elf", "b.txt")),
    ("compile fft.c b.elf b.txt --table costs.toml", ("b.elf", "b.txt")),
    ("compile fir.c b.elf b.txt", ("b.elf", "b.txt")),
    ("compile frame.c b.elf b.txt", ("b.elf", "b.txt")),
    ("compile gate.c b.elf b.txt --spm 4096 --inline 200 --unroll 4 --derive --table costs.toml", ("b.elf", "b.txt")),
    ("compile broken.c b.elf b.txt", ()),
    ("eval thermistor.c a.in b.out --derive", ("b.out",)),
    ("run crc16.elf a.in b.out", ("b.out",)),
    ("check pid.elf pid.txt", ()),
    ("check large.elf large.txt", ()),
    ("report pid.txt", ()),
    ("report large.txt", ()),
    ("respond tasks", ()),
    ("compile first.c", ()),
    ("help", ()),
)
# The images and reports that are compiled before, the last of them a report of more than 100,000 bytes.
COMPILED = {"first": "first.c", "crc16": "crc16.c", "pid": "pid.c", "large": "pid.c --inline 10000 --unroll 64"}
# The statuses with which a call may end where a call of the system is refused, and the line.
ENDS = {
    "memory": {6: b"memory\n"},
    "open": {4: b"read fault\n", 5: b"write fault\n"},
    "seek": {4: b"read fault\n"},
    "read": {4: b"read fault\n"},
    "write": {5: b"write fault\n"},
}
Ended = namedtuple("Ended", "status out error files refused")


@contextmanager
def shim():
    """The shared object, built for as long as it is wanted."""
    with tempfile.TemporaryDirectory(prefix="wcc-shim-") as folder:
        made = str(Path(folder, "shim.so"))
        subprocess.run(["cc", "-O1", "-Wall", "-Werror", "-shared", "-fPIC", "-o", made, HERE / "shim.c"], check=True)
        yield made


class Room:
    """The files that the commands read, and those that they write, which have an older content."""

    def __init__(self, program, made):
        self.program, self.made = program, made
        self.files = {it: (EXAMPLES / it).read_bytes() for it in READ}
        self.files |= {"a.in": bytes(range(1, 100)), "tasks": TASKS, "broken.c": b"int main(void) { return 1 2; }\n"}
        self.files |= {it: OLDER for it in ("b.c", "b.elf", "b.txt", "b.out")}
        for name, words in COMPILED.items():
            source, *options = words.split()
            left = self.call(" ".join(("compile", source, "b.elf", "b.txt", *options))).files
            self.files |= {f"{name}.elf": left["b.elf"], f"{name}.txt": left["b.txt"]}
        assert len(self.files["large.txt"]) > 100_000

    def needed(self, words):
        """The files that a call names, those that its list of tasks does, and one that has nothing to do with it."""
        listed = TASKS.decode().split() if "tasks" in words else []
        return {it: self.files[it] for it in (*words, *listed, BYSTANDER) if it in self.files}

    def call(self, words, refused=None, step=None):
        """One call in a fresh folder, in which the call of the system `refused`, as KIND:N, fails, and none moves more bytes than step."""
        words = words.split()
        with tempfile.TemporaryDirectory(prefix="wcc-refused-", dir=QUICK if os.access(QUICK, os.W_OK) else None) as folder:
            for name, data in self.needed(words).items():
                Path(folder, name).write_bytes(data)
            told, tell = os.pipe()
            with open(told, "rb") as answer:
                how = {"LD_PRELOAD": self.made, "PROGRAM": self.program, "REFUSE": refused, "TELL": str(tell)} if refused else {}
                how |= {"STEP": str(step)} if refused and step else {}
                ran = subprocess.run([self.program, *words], cwd=folder, stdin=DEVNULL, stdout=PIPE, stderr=PIPE, timeout=SECONDS,
                                     env=how, pass_fds=[tell])
                os.close(tell)
                was_refused = answer.read() == b"!"
            files = {it.name: it.read_bytes() for it in Path(folder).iterdir()}
            return Ended(ran.returncode, ran.stdout, ran.stderr, files, was_refused)


def is_named(kind, plain, ended):
    """Whether the status says what was refused: a line that can't be put is a fault only where all else was done, and stays cut off."""
    if kind == "put":
        return ended.status == (plain.status or 5) and plain.out.startswith(ended.out)
    return ended.out == ENDS[kind].get(ended.status)


def faults(kind, plain, ended, written):
    """What is not as it must be of a call in which one was refused, in words."""
    if ended._replace(refused=False) == plain:
        return
    if not is_named(kind, plain, ended) or ended.error:
        yield f"status {ended.status}, {ended.out[:100]!r} and {ended.error[:100]!r}"
    begun = [it for it in written if ended.files.get(it) != OLDER]
    for name in ended.files.keys() | plain.files.keys():
        data, whole = ended.files.get(name), plain.files.get(name)
        if name not in written and data != whole:
            yield f"{name} was changed"
        elif name in begun and data != whole and (name != begun[-1] or data is None or not whole.startswith(data)):
            yield f"{name} is neither whole, nor a first part, nor as it was"
    if begun != [*written[:len(begun)]]:
        yield f"{begun} were written, and not those before"


def refusals(room, pool, kind, step, words, written):
    """How a command ends as it is, how many of its calls of a kind were refused, and what was not as it must be."""
    plain, at, bad = room.call(words), 1, []
    while True:
        numbers = range(at, at + TOGETHER)
        for number, ended in zip(numbers, pool.map(lambda it: room.call(words, f"{kind}:{it}", step), numbers)):
            if not ended.refused:
                return plain, number - 1, bad + ([] if ended == plain else [f"{words}: not the same twice"])
            bad += (f"{words}, {kind} {number}: {it}" for it in faults(kind, plain, ended, written))
        at = numbers[-1] + 1


def refuse_all(path, tries):
    """Refuses each call of these kinds in turn, with each step, and says how many were, and how many calls did not end as they must."""
    refused, failed = 0, 0
    with shim() as made, ThreadPoolExecutor(len(os.sched_getaffinity(0))) as pool:
        room = Room(behind(path), made)
        for kind, step, most in tries:
            for words, written in COMMANDS[:most]:
                plain, count, bad = refusals(room, pool, kind, step, words, written)
                print(f"{words}: status {plain.status}, {count} refused of {kind}{f' in steps of {step} bytes' if step else ''}")
                print(*bad[:WORST], sep="\n", end="\n" if bad else "", flush=True)
                refused, failed = refused + count, failed + len(bad)
    print(f"{refused - failed} passed, {failed} failed")
    return 0 if refused and not failed else 1
