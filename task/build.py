"""Builds sources: build.py PROGRAM SOURCE .. [OPTION ..], where PROGRAM is a built wcc.

Each source is prepared, compiled and checked; its image, report, page and record are written. docs/COMMANDS.md says more.
"""
# The part of `signal` that takes no time: while the rest is read there is nothing to clear away.
import _signal
if _signal.getsignal(_signal.SIGINT) == _signal.default_int_handler:
    _signal.signal(_signal.SIGINT, _signal.SIG_DFL)
import json  # noqa: E402
import os  # noqa: E402
import signal  # noqa: E402
import sys  # noqa: E402
from concurrent.futures import ThreadPoolExecutor
from pathlib import Path
from typing import Any

sys.path[:0] = [str(Path(__file__).resolve().parent.parent), str(Path(__file__).resolve().parent.parent / "explain")]
import guard  # noqa: E402
from task import screen  # noqa: E402
from task.calls import PYTHON, RUNNING, Said  # noqa: E402
from task.files import HELD, Fault, is_one  # noqa: E402
from task.making import Task, build, failed, tried  # noqa: E402
from task.settings import INLINE, SPM, STATUSES, UNROLL, USAGE, Parser, Words, add_shared, given_in, number_in  # noqa: E402

WRITE_FAULT, INTERRUPTED = 5, 130
ABOUT = ("Prepares, compiles and checks each SOURCE, a C file, and writes NAME.elf, NAME.txt, NAME.html and NAME.json, and the prepared "
         "source NAME.i. Loops that count need no bound. Where nothing has changed, nothing is done. NAME.toml beside the source may "
         "hold the options. docs/COMMANDS.md says more.")


def parser() -> Parser:
    known = Parser("wcc build", description=ABOUT, epilog=f"{STATUSES} Of several sources it is the first that isn't 0.", allow_abbrev=False)
    known.add_argument("sources", metavar="SOURCE", nargs="+", help="a C file, or NAME.i, which is taken as it is")
    known.add_argument("--inline", metavar="N", type=number_in(INLINE), help="put functions of at most N nodes in place of their calls")
    known.add_argument("--unroll", metavar="K", type=number_in(UNROLL), help="make K starts of innermost loops one")
    known.add_argument("--spm", metavar="B", type=number_in(SPM), help="the bytes of scratchpad that there are")
    known.add_argument("--no-derive", dest="derive", action="store_false", default=None, help="want a bound of loops that count, too")
    known.add_argument("--try", dest="tries", metavar="N", type=number_in(range(1, 1000001)),
                       help="run the image on N inputs that are made up, and tell the slowest")
    add_shared(known)
    return known


def words_of(given: list[str]) -> Words:
    asked = parser().parse_intermixed_args(given)
    return Words(asked.sources, given_in(asked), asked.jobs or len(os.sched_getaffinity(0)), asked.json, asked.tries)


def record_of(program: str, source: str, words: Words) -> dict[str, Any]:
    try:
        task = Task(source, words.settings(source))
        record = build(program, task)
        return record if words.tries is None else {**record, "tries": tried(program, task, words.tries, words.jobs)}
    except Fault as fault:
        return failed(source, fault)


# Many sources

def refuse_twins(words: Words) -> None:
    """No two sources are built into files of one name."""
    tasks: list[Task] = []
    for it in words.sources:
        task = Task(it, words.settings(it))
        twin = next((other for other in tasks if other.stem == task.stem and is_one(other.folder, task.folder)), None)
        if twin:
            raise Fault(USAGE, "usage", f"wcc: `{twin.source}` and `{task.source}` would both be built into `{task.made('.elf')}`. "
                                        "Nothing is changed.")
        tasks.append(task)


def alone(program: str, source: str, options: list[str]) -> tuple[dict[str, Any], bytes]:
    """A source that a process of its own builds."""
    said: Said = RUNNING.call([*PYTHON, __file__, program, "--json", *options, "--", source])
    try:
        return json.loads(said.line)[0], said.errors
    except (ValueError, LookupError):
        return failed(source, Fault(said.status or 70, "ended")), said.errors


def many(program: str, words: Words) -> list[dict[str, Any]]:
    """Builds so many at once, and says of each in the order of the words how it ended."""
    refuse_twins(words)
    wide = max(map(len, words.sources)) + len(": cycles 123456789 greatest")
    records: list[dict[str, Any]] = []
    progress(f"0 of {len(words.sources)}")
    with ThreadPoolExecutor(words.jobs) as pool:
        try:
            for record, errors in pool.map(lambda it: alone(program, it, words.options()), words.sources):
                records.append(record)
                progress("")
                os.write(2, errors)
                if not words.json:
                    screen.row(record, wide)
                progress(f"{len(records)} of {len(words.sources)}")
        except BaseException:
            pool.shutdown(wait=False, cancel_futures=True)
            RUNNING.end()
            raise
        finally:
            progress("")
    return records


def progress(text: str) -> None:
    """A line on a terminal that is written over."""
    if os.isatty(2) and not screen.IS_PLAIN:
        os.write(2, f"\r\x1b[K{text}".encode())


# The call

def told(program: str, given: list[str]) -> int:
    words = words_of(given)
    if len(words.sources) > 1:
        records = many(program, words)
    else:
        records = [record_of(program, words.sources[0], words)]
    if words.json:
        screen.as_json(records)
    elif len(records) == 1:
        screen.one(records[0])
    return next((it["status"] for it in records if it["status"]), 0)


def ended_by_interrupts() -> None:
    for it in HELD:
        if signal.getsignal(it) != signal.SIG_IGN:
            signal.signal(it, signal.default_int_handler)


def main(words: list[str]) -> int:
    ended_by_interrupts()
    try:
        return told(words[0], words[1:])
    except Fault as fault:
        return screen.refused(fault)
    except screen.Unwritten:
        return WRITE_FAULT
    except KeyboardInterrupt:
        return INTERRUPTED


if __name__ == "__main__":
    guard.run(main)
