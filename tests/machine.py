#!/usr/bin/env python3
"""Runs an image on the machine of simulator/, which was written from docs/MACHINE.md and docs/FORMATS.md alone.

    machine.py IMAGE INPUT OUTPUT [LIMIT [STALL]]

It does what `wcc run IMAGE INPUT OUTPUT` must do: it reads both files, runs the image at the default costs, writes what
the image put to OUTPUT, prints the line and ends with the status. It takes seconds for a million steps. STALL is the
cost of that name, 0 where it isn't given.
"""
import os
import sys
from collections import Counter
from pathlib import Path

sys.path.append(str(Path(__file__).resolve().parent.parent))
from simulator import reports  # noqa: E402
from simulator.costs import DEFAULT  # noqa: E402
from simulator.images import BadImage, R, Segment, W, X, read_image  # noqa: E402, F401
from simulator.machine import LIMIT, Ending, Machine, ending_of  # noqa: E402

FILE_MOST = 16_777_216  # bytes of an image and of an input
REFUSED, USAGE, PASSED, READ_FAULT, WRITE_FAULT = 1, 2, 3, 4, 5  # the statuses of what is no run


def read_file(name, word):
    try:
        with open(name, "rb") as file:
            data = file.read(FILE_MOST + 1)
    except OSError:
        raise Ending("read fault", READ_FAULT) from None
    if len(data) > FILE_MOST:
        raise Ending(f"limit {word} {len(data)}", PASSED)
    return data


def write_file(name, data):
    try:
        with open(name, "wb", buffering=0) as file:
            while data:
                data = data[file.write(data):]
    except OSError:
        raise Ending("write fault", WRITE_FAULT) from None


class Counting(Machine):
    """A machine that counts the visits of each address."""

    def __init__(self, *given):
        super().__init__(*given)
        self.visits = Counter()

    def step(self):
        self.visits[self.pc] += 1
        super().step()

    def counts_of(self, report):
        """How often each function and marker of a report came, by the addresses of its copies."""
        return {name: sum(self.visits[at] for at in places) for name, places in reports.read(report).copies}


def machine_of(image, given, limit=LIMIT, stall=0):
    """The machine before its first step."""
    try:
        return Machine(*read_image(image), given, limit, DEFAULT.with_stall(stall))
    except BadImage as bad:
        raise Ending(f"refused image-{bad.cause} at {bad.index}", REFUSED) from None


def run(image, given, output, limit=LIMIT, stall=0):
    if len({image, given, output}) < 3:
        raise Ending("usage", USAGE)
    image_data, input_data = read_file(image, "image"), read_file(given, "input")
    machine = machine_of(image_data, input_data, int(limit), int(stall))
    ending = ending_of(machine)
    write_file(output, machine.output)
    raise ending


def tell(ending):
    """Prints the line; where it can't be printed, a run that was done ends as a write fault."""
    try:
        os.write(1, f"{ending.line}\n".encode())
    except OSError:
        return ending.status or WRITE_FAULT
    return ending.status


def main(words):
    try:
        if len(words) not in (3, 4, 5):
            raise Ending("usage", USAGE)
        run(*words)
    except Ending as ending:
        return tell(ending)


if __name__ == "__main__":
    sys.exit(main(sys.argv[1:]))
