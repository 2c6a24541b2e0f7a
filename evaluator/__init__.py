"""A second opinion on `wcc eval`: the source language in Python, written from the pages of docs/ alone."""
import sys
import threading

from .answer import Answer, answer


DEEP = 1 << 29


def with_deep_stack(work):
    """Runs the work where recursion may go as deep as the deepest legal chain of calls wants. What it gives or raises is handed on."""
    sys.setrecursionlimit(1000000)
    threading.stack_size(DEEP)
    ended = []

    def run():
        try:
            ended.append((work(), None))
        except BaseException as error:
            ended.append((None, error))

    thread = threading.Thread(target=run, daemon=True)
    try:
        thread.start()
    except RuntimeError:
        raise MemoryError("there is no room for a deep stack") from None
    thread.join()
    result, error = ended[0]
    if error is not None:
        raise error
    return result
