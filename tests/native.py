"""Builds and runs sources of the language with gcc, for expected values that don't come from wcc.

It takes Debian's gcc-multilib. The prelude is `#include <stdio.h>`. The program's `main` is called from one of ours, which
shows its whole value and not only the low eight bits of an exit status.
"""
import subprocess
import tempfile
from pathlib import Path

FLAGS = ["-m32", "-std=c11", "-funsigned-char", "-w", "-include", "stdio.h"]
WRAPPING = ["-fwrapv", "-O1"]
# Signed overflow is found only where it doesn't wrap.
SANITIZING = ["-O0", "-fsanitize=undefined", "-fno-sanitize-recover=all"]
CALLER = """
#include <stdio.h>
int program(void);
int main(void) { int value = program(); fflush(stdout); fprintf(stderr, "%d", value); return 0; }
"""
SECONDS = 60


def build(source, program, flags=WRAPPING):
    """Makes a program of a source. Only its object file is renamed, so that the end of `main` still gives 0."""
    with tempfile.TemporaryDirectory() as folder:
        room = Path(folder)
        (room / "caller.c").write_text(CALLER)
        subprocess.run(["gcc", *FLAGS, *flags, "-x", "c", "-c", source, "-o", room / "a.o"], check=True)
        subprocess.run(["objcopy", "--redefine-sym", "main=program", room / "a.o"], check=True)
        subprocess.run(["gcc", *FLAGS, *flags, room / "caller.c", room / "a.o", "-o", program], check=True)


def run(program, data, *words):
    """The value and the output, or None and the message where the program stopped."""
    ran = subprocess.run([program, *words], input=data, capture_output=True, timeout=SECONDS)
    if ran.returncode:
        return None, ran.stderr
    return int(ran.stderr), ran.stdout


def line_of(value, output):
    """The line of `wcc eval` for a run that ends."""
    return f"value {value} bytes {len(output)}\n"
