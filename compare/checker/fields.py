"""Fields: one tag byte, two length bytes (high byte first), then the value."""

HEADER = 3
LONGEST_NAME = 32

LETTERS = frozenset(b"ABCDEFGHIJKLMNOPQRSTUVWXYZabcdefghijklmnopqrstuvwxyz")
NAME_BYTES = LETTERS | frozenset(b"0123456789_")


def field_at(data, at, end):
    """The tag, start and end of the value at a place; None where it passes the end."""
    if at + HEADER > end:
        return None
    start = at + HEADER
    stop = start + (data[at + 1] << 8) + data[at + 2]
    return None if stop > end else (data[at], start, stop)


def is_name(value):
    """A name has 1 to 32 bytes, a letter then letters, digits or underscores."""
    return 1 <= len(value) <= LONGEST_NAME and value[0] in LETTERS and NAME_BYTES.issuperset(value)
