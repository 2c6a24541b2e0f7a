"""Builds and runs sources of ordinary C with gcc for 32 bits, for expected values that come from no program of this repository.

Nothing of a C library is needed: `getchar` and `putchar` are system calls. The sanitizer's findings stop the run. It finds no read of
what was never written; for that, and for an index behind an array parameter, there is no second witness here.
"""
import subprocess
import tempfile
from pathlib import Path

HERE = Path(__file__).resolve().parent
TOP = HERE.parent.parent
GCC = ["gcc", "-m32", "-std=c11", "-funsigned-char", "-ffreestanding", "-fno-pic", "-fno-stack-protector", "-nostdinc", "-I", TOP / "include"]
# The bits of a signed value that is shifted left are kept, as gcc has it.
SANITIZING = ["-O0", "-fsanitize=undefined", "-fsanitize=bounds-strict", "-fsanitize-undefined-trap-on-error", "-fno-sanitize=shift-base"]
PLAIN = ["-O2", "-fwrapv"]
WARNING = ["-Wall", "-Wextra", "-Werror"]
SECONDS = 20


def preprocessed(source):
    """A file's text behind the preprocessor, with the headers of include/."""
    return subprocess.run([*GCC, "-undef", "-E", "-P", source], capture_output=True, check=True).stdout


def build(source, program, *flags):
    """Makes a program of a text behind the preprocessor. Whether gcc takes it."""
    with tempfile.TemporaryDirectory() as folder:
        room = Path(folder)
        (room / "a.i").write_bytes(b"int getchar(void); int putchar(int);\n" + source)
        made = subprocess.run([*GCC, *(flags or ["-w"]), "-Dmain=program", "-x", "c", "-c", room / "a.i", "-o", room / "a.o"], capture_output=True)
        if made.returncode:
            return made.stderr.decode()
        subprocess.run([*GCC, "-O1", "-nostdlib", "-static", "-no-pie", HERE / "caller.c", room / "a.o", "-o", program], check=True)
    return None


def run(program, data):
    """The value and the output; None where the sanitizer stopped the run; what was said where a loop's bound was passed."""
    ran = subprocess.run([program], input=data, capture_output=True, timeout=SECONDS)
    if ran.returncode < 0:
        return None
    said = ran.stderr.decode()
    return (said if ran.returncode else int(said)), ran.stdout
