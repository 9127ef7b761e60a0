"""The words of the line protocol of compare/README.md, and what a question is."""

from collections import namedtuple

# A function of the question's words to its values and the numbers it writes into the buffer;
# whether the question borrows a buffer, and a workspace.
Question = namedtuple("Question", "answer buffer workspace", defaults=(False, False))


def data_of(word):
    """The bytes of a word."""
    return b"" if word == "-" else bytes.fromhex(word)


def numbers_of(word):
    """The u16 numbers of a word."""
    data = data_of(word)
    return [data[at] << 8 | data[at + 1] for at in range(0, len(data), 2)]


def hex_bytes(data):
    """A word of bytes."""
    return data.hex() or "-"


def hex_numbers(numbers):
    """A word of u16 numbers."""
    return "".join(f"{number:04x}" for number in numbers) or "-"
