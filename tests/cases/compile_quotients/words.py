"""The words that are divided, and the powers of two that they are divided by."""

POWERS = [1 << k for k in range(31)]
WORDS = sorted({(sign * (power + by) + 2**31) % 2**32 - 2**31
                for power in POWERS + [1 << 31] for sign in (1, -1) for by in (-1, 0, 1)})


def word(value):
    return (value % 2**32).to_bytes(4, "big")


def quotient(value, by):
    """Rounded towards zero."""
    return -(-value // by) if value < 0 else value // by
