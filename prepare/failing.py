"""Why no source is written, and the status."""
REFUSED, WRONG_WORDS, LIMIT, READ_FAULT, WRITE_FAULT, NOTHING_AT_HAND = 1, 2, 3, 4, 5, 70


class Failed(Exception):
    """Why no source is written, and the status."""

    def __init__(self, status: int, text: str) -> None:
        super().__init__(text)
        self.status = status


def why(error: OSError) -> str:
    return error.strerror or str(error)


def printable(text: str) -> str:
    """What of a text can be shown without a terminal taking it for a command."""
    return "".join(it if it.isprintable() else "?" for it in text)
