"""Kills calls at random moments, and looks what is left: each output whole, or as it was, and a report never without its image."""
import os
import random
import signal
import subprocess
import time
from contextlib import suppress
from pathlib import Path
from subprocess import DEVNULL

OLDER = b"an older content\n" * 40
EXAMPLES = Path(__file__).resolve().parent.parent.parent / "examples"
# The words of a call, and what it writes, in its order.
CALLS = (
    ("compile fft.c b.elf b.txt", ("b.elf", "b.txt")),
    ("compile first.c b.elf b.txt --derive", ("b.elf", "b.txt")),
    ("make 60 b.c b.elf b.txt", ("b.c", "b.elf", "b.txt")),
    ("run crc16.elf in b.out", ("b.out",)),
    ("eval crc16.c in b.out", ("b.out",)),
    ("prepare first.c -o b.c", ("b.c",)),
)
READ = ("fft.c", "first.c", "crc16.c")
SIGNALS = (signal.SIGKILL, signal.SIGKILL, signal.SIGTERM, signal.SIGINT, signal.SIGHUP)
SECONDS = 300


def heed():
    """Has a call take the signals that end it, whatever is ignored where the tests are started."""
    for it in (signal.SIGINT, signal.SIGTERM, signal.SIGHUP):
        signal.signal(it, signal.SIG_DFL)


def is_running(session):
    """Whether a process of a session hasn't ended."""
    for it in Path("/proc").iterdir():
        with suppress(OSError, ValueError, IndexError):
            state, _, _, its_session = (it / "stat").read_text().rpartition(")")[2].split()[:4]
            if it.name.isdigit() and int(its_session) == session and state != "Z":
                return True
    return False


class Kills:
    """Calls in a folder, by draws of a seed."""

    def __init__(self, wcc, folder, seed):
        self.wcc, self.room, self.draw = wcc, Path(folder), random.Random(seed)
        for name in READ:
            (self.room / name).write_bytes((EXAMPLES / name).read_bytes())
        (self.room / "in").write_bytes(bytes(range(99)))
        self.call("compile crc16.c crc16.elf crc16.txt").wait()
        self.known = {words: self.whole(words, written) for words, written in CALLS}

    def call(self, words):
        return subprocess.Popen([self.wcc, *words.split()], cwd=self.room, stdin=DEVNULL, stdout=DEVNULL, stderr=DEVNULL, start_new_session=True,
                                preexec_fn=heed)

    def whole(self, words, written):
        """How long a call takes, and what it writes."""
        begun = time.monotonic()
        self.call(words).wait()
        return time.monotonic() - begun, [(self.room / it).read_bytes() for it in written]

    def once(self):
        """What is wrong after one call that is killed."""
        words, written = self.draw.choice(CALLS)
        seconds, wholes = self.known[words]
        was = {it: self.draw.choice((None, OLDER)) for it in written}
        for name, data in was.items():
            (self.room / name).unlink(missing_ok=True)
            if data is not None:
                (self.room / name).write_bytes(data)
        number, after = self.draw.choice(SIGNALS), self.draw.random() * 1.1 * seconds
        ran = self.call(words)
        time.sleep(after)
        ran.send_signal(number)
        status, ends = ran.wait(SECONDS), time.monotonic() + SECONDS
        # A file may be on its way to its place when the launcher is killed.
        while is_running(ran.pid) and time.monotonic() < ends:
            time.sleep(0.01)
        found = [(self.room / it).read_bytes() if (self.room / it).exists() else None for it in written]
        for name, data, whole in zip(written, found, wholes):
            if data not in (was[name], whole):
                yield f"{words} after {after:.3f} seconds by {number}: {name} has {data and len(data)} bytes of {len(whole)}"
        # In the order of the words: what stands behind isn't new without what stands before.
        is_new = [data == whole for data, whole in zip(found, wholes)]
        if is_new != sorted(is_new, reverse=True) or status == 0 and not all(is_new):
            yield f"{words} after {after:.3f} seconds by {number} ended with {status}: {is_new}"
        if number != signal.SIGKILL and [it for it in os.listdir(self.room) if it.startswith(".wcc-")]:
            yield f"{words} after {after:.3f} seconds by {number} leaves {os.listdir(self.room)}"
        for it in self.room.glob(".wcc-*"):
            it.unlink()

    def run(self, count):
        return [it for _ in range(count) for it in self.once()]
