"""What `build` says of its records: a line for programs, and what it means for people, unless WCC_PLAIN is 1."""
import json
import os
import sys
from collections.abc import Iterable, Iterator
from typing import Any

from task.files import Fault

PLACES = 3
IS_PLAIN = os.environ.get("WCC_PLAIN") == "1"
MEANS = {
    "greatest": "No run that keeps the annotations takes more than {:,} cycles, and no smaller bound follows from them.",
    "wide": "No run that keeps the annotations takes more than {:,} cycles. The restrictions stopped the search, so it may be less.",
    "spent": "No run that keeps the annotations takes more than {:,} cycles. The restrictions stopped the search, so it may be less.",
    "empty": "No run keeps the annotations: bounds or restrictions contradict each other.",
}


class Unwritten(Exception):
    """Standard output can't be written."""


def tell(lines: Iterable[str], stream: Any = None) -> None:
    stream = stream or sys.stdout
    try:
        for line in lines:
            stream.buffer.write((line + "\n").encode(errors="replace"))
        stream.buffer.flush()
    except OSError:
        # Else Python would write at its end what is left.
        os.dup2(os.open(os.devnull, os.O_WRONLY), stream.fileno())
        if stream is sys.stdout:
            raise Unwritten from None


def refused(fault: Fault) -> int:
    """Tells why a call ends that came to no source: the line of the fault alone, as the program's commands do, and to people the rest."""
    if not IS_PLAIN:
        tell(fault.said, sys.stderr)
    try:
        tell((fault.line,))
    except Unwritten:
        pass
    return fault.status


def printable(text: str) -> str:
    return "".join(it if it.isprintable() else "?" for it in text)


def head(record: dict[str, Any]) -> str:
    return f"{printable(record['source'])}: {record['line']}"


def size_text(sizes: dict[str, int]) -> str:
    parts = [(sizes["flash"], "bytes in flash"), (sizes["spm"], "in the scratchpad"), (sizes["ram"], "in RAM")]
    return ", ".join(f"{count:,} {what}" for count, what in parts if count or what == "bytes in flash")


def place_text(it: dict[str, Any]) -> str:
    where = f"{printable(it['file'])}:{it['line']}: " if "file" in it else ""
    return f"    {it['share'] * 100:5.1f}%  {it['cycles']:>13,}  {where}{it['what']}"


def tries_text(tries: dict[str, Any], bound: int) -> str:
    if "cycles" not in tries:
        return f"Of {tries['inputs']:,} inputs that were tried none keeps the annotations, or each is undefined."
    ratio = f"the bound is {bound / tries['cycles']:.2f} times as much" if tries["cycles"] else "the bound is more"
    return (f"The slowest of {tries['inputs']:,} inputs that were tried, of which {tries['kept']:,} keep the annotations, takes "
            f"{tries['cycles']:,} cycles, and {ratio}: {printable(tries['file'])}.")


def screen(record: dict[str, Any]) -> Iterator[str]:
    """What a bound means, how large the image is, and where the time goes."""
    yield f"  {MEANS[record['kind']].format(record['cycles'])}"
    if record["cycles"] > record.get("at_most", record["cycles"]):
        yield f"  That is {record['cycles'] - record['at_most']:,} above the budget of {record['at_most']:,}."
    yield f"  Image: {size_text(record['bytes'])}."
    if record["places"]:
        yield "  Most of the time goes here:"
    yield from map(place_text, record["places"][:PLACES])
    if "tries" in record:
        yield f"  {tries_text(record['tries'], record['cycles'])}"
    made = record["made"]
    if record["is_new"]:
        yield f"  Written: {', '.join(printable(made[it]) for it in ('image', 'report', 'page'))}."
    else:
        yield "  Nothing has changed, and nothing is written."
    if not set(record["options"]) - {"--derive"}:
        yield f"  `./wcc tune {printable(record['source'])}` tries the options that lower a bound."


def one(record: dict[str, Any]) -> None:
    """Of one source all there is to say."""
    tell([head(record)])
    if IS_PLAIN:
        return
    tell(record["said"], sys.stderr)
    if "cycles" in record:
        tell(screen(record))


def row(record: dict[str, Any], wide: int) -> None:
    """Of one source among many a line, and why it failed."""
    if IS_PLAIN or "cycles" not in record:
        tell([head(record)])
    else:
        note = "" if record["is_new"] else ", unchanged"
        tell([f"{head(record):<{wide}}  {size_text(record['bytes'])}{note}"])
    if not IS_PLAIN:
        tell(record["said"], sys.stderr)


def as_json(records: list[dict[str, Any]]) -> None:
    tell([json.dumps(records, indent=1)])
