"""What a step costs, by docs/MACHINE.md: the default costs, and those of a table."""
from dataclasses import dataclass, replace

KEYS = ("fetch_flash", "fetch_spm", "alu", "mul", "div", "load", "store", "branch", "branch_taken", "jump", "ecall", "data_flash",
        "data_ram", "data_spm", "stall")


@dataclass(frozen=True)
class Costs:
    fetch: dict  # by region
    access: dict  # by region
    of: dict  # by class
    stall: int = 0

    def with_stall(self, stall):
        return replace(self, stall=stall)


def costs_of(table):
    """The costs of a table from keys to numbers, in which only `stall` may be missing."""
    return Costs({"flash": table["fetch_flash"], "spm": table["fetch_spm"]},
                 {"flash": table["data_flash"], "ram": table["data_ram"], "spm": table["data_spm"]},
                 {key: table[key] for key in KEYS[2:11]}, table.get("stall", 0))


DEFAULT = costs_of(dict(zip(KEYS, (3, 1, 1, 3, 34, 1, 1, 1, 2, 2, 10, 3, 2, 1, 0))))
