"""Runs `eval` on a source: by the evaluator, or by a built wcc. Both answer the line, the exit status and the output.

The output is None where no file was written. A built wcc also compiles a source, checks the report, and runs the image.
"""
import os
import resource
import subprocess
import sys
import tempfile
from collections import namedtuple
from pathlib import Path

sys.path.insert(0, str(Path(__file__).resolve().parent.parent))
from evaluator import answer  # noqa: E402

SECONDS = 120
# The deepest legal chain of calls must be evaluated within it.
STACK = 8 * 1024 * 1024
PLAIN = {**os.environ, "WCC_PLAIN": "1"}
# What a call of wcc answers.
Answer = namedtuple("Answer", "line status output")
STATUSES = {"value": 0, "refused": 1, "limit": 3, "undefined": 8, "broken": 8}


def by_evaluator(source, data=b"", derive=False):
    found = answer(source, data, derive)
    return found.line, found.status, found.output


def limit_stack():
    resource.setrlimit(resource.RLIMIT_STACK, (STACK, resource.getrlimit(resource.RLIMIT_STACK)[1]))


def built(path):
    """The path of a program; ./wcc builds it first where that is needed, which takes its time. What is called from now on has
    a stack of 8 MiB."""
    limit_stack()
    path = str(Path(path).resolve())
    subprocess.run([path], stdin=subprocess.DEVNULL, stdout=subprocess.DEVNULL, env=PLAIN)
    return path


def behind(path):
    """The program that a launcher runs, which is built first where that is needed; or the program itself that is named."""
    path = Path(built(path))
    program = path.parent / "crates/wcc/out/wcc"
    return str(program if program.exists() else path)


def call(path, room, *words):
    """One call in a folder, without the words for people on standard error."""
    (room / "a.out").unlink(missing_ok=True)
    ran = subprocess.run([path, *words], cwd=room, stdout=subprocess.PIPE, env=PLAIN, timeout=SECONDS)
    output = (room / "a.out").read_bytes() if (room / "a.out").is_file() else None
    return Answer(ran.stdout.decode("latin-1").removesuffix("\n"), ran.returncode, output)


def in_fresh_folder(source, data, calls):
    with tempfile.TemporaryDirectory() as folder:
        room = Path(folder)
        (room / "a.c").write_bytes(source)
        (room / "a.in").write_bytes(data)
        return calls(room)


def by_program(path, *flags):
    """`PATH eval` on a source and an input, with these flags."""
    path = built(path)

    def run(source, data=b""):
        return tuple(in_fresh_folder(source, data, lambda room: call(path, room, "eval", "a.c", "a.in", "a.out", *flags)))
    return run


def by_compiler(path):
    """What `PATH compile` answers on a source with options, and behind it `check` and `run`, by the names of the commands.

    By `files` it has the image and the report, or None where there are none.
    """
    path = built(path)

    def run(source, data=b"", options=()):
        calls = (("compile", "a.c", "a.elf", "a.txt", *options), ("check", "a.elf", "a.txt"), ("run", "a.elf", "a.in", "a.out"))
        return in_fresh_folder(source, data, lambda room: {words[0]: call(path, room, *words) for words in calls} | {"files": made_in(room)})
    return run


def made_in(room):
    """The image and the report that lie in a folder, or None."""
    files = [room / it for it in ("a.elf", "a.txt")]
    return tuple(it.read_bytes() for it in files) if all(it.is_file() for it in files) else None


def chosen(words):
    """The way of running that the words of a script ask for: a program's path, or nothing for the evaluator."""
    return by_program(words[0]) if words else by_evaluator
