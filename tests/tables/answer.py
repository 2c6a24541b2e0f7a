#!/usr/bin/env python3
"""What a table of costs comes to, by Python's own reader of TOML and docs/FORMATS.md.

    answer.py FILE

prints the fifteen costs, or why the file is no table: `no TOML`, `key N` or `number N`. Python reads
TOML 1.0, and the compiler 1.1: what is new there (such as line ends in inline tables) is refused here.
"""

import sys
import tomllib

KEYS = ["fetch_flash", "fetch_spm", "alu", "mul", "div", "load", "store", "branch", "branch_taken",
        "jump", "ecall", "data_flash", "data_ram", "data_spm", "stall"]


def least(key):
    return 1 if key.startswith("fetch_") else 0


def answer(text):
    try:
        table = tomllib.loads(text.decode())
    except (UnicodeDecodeError, tomllib.TOMLDecodeError):
        return "no TOML"
    # Python's integers have no end
    if any(type(v) is int and not -2**63 <= v < 2**63 for v in table.values()):
        return "no TOML"
    for number, key in enumerate(KEYS, 1):
        if key not in table and key != "stall":
            return f"key {number}"
    if any(key not in KEYS for key in table):
        return "key 0"
    table.setdefault("stall", 0)
    for number, key in enumerate(KEYS, 1):
        if type(table[key]) is not int or not least(key) <= table[key] <= 1000:
            return f"number {number}"
    return " ".join(str(table[key]) for key in KEYS)


if __name__ == "__main__":
    with open(sys.argv[1], "rb") as file:
        print(answer(file.read()))
