"""The processor time of a command, which must print just what is wanted, as the best of some runs."""
import resource
import subprocess
import sys
from subprocess import DEVNULL, PIPE

RUNS = 3


def seconds(command, folder, wanted):
    """The processor time of one run."""
    before = resource.getrusage(resource.RUSAGE_CHILDREN)
    ran = subprocess.run(command, cwd=folder, stdin=DEVNULL, stdout=PIPE)
    after = resource.getrusage(resource.RUSAGE_CHILDREN)
    if ran.returncode or ran.stdout != wanted:
        sys.exit(f"{command[0]} ended with status {ran.returncode} and printed {ran.stdout!r}")
    return after.ru_utime - before.ru_utime + after.ru_stime - before.ru_stime


def best_seconds(command, folder, wanted=b""):
    return min(seconds(command, folder, wanted) for _ in range(RUNS))
