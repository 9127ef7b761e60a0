"""Rows of 13 numbers as sets of indices, and back; their refusals 15 and 12."""

from .refusal import Refused

ROW = 13
MOST_NAMES = 12
MOST_PARTS = 128
INDICES = 256


def part_of(row):
    """The set that a row tells; None where the row is bad or cut."""
    if len(row) != ROW or row[0] > MOST_NAMES:
        return None
    indices, padding = row[1:row[0] + 1], row[row[0] + 1:]
    rising = all(low < high for low, high in zip(indices, indices[1:]))
    if not rising or any(index >= INDICES for index in indices) or any(padding):
        return None
    return frozenset(indices)


def read_list(numbers):
    """The parts of a list operand, in its order."""
    parts = []
    for at in range(0, len(numbers), ROW):
        part = part_of(numbers[at:at + ROW])
        if part is None or len(parts) == MOST_PARTS:
            raise Refused(15, len(parts))
        parts.append(part)
    return parts


def read_part(numbers):
    """The part of an operand that must be exactly one row."""
    part = part_of(numbers[:ROW])
    if part is None:
        raise Refused(15, 0)
    if len(numbers) > ROW:
        raise Refused(15, 1)
    return part


def read_lists(counts, numbers):
    """Lists that stand one after another, with the number of rows of each."""
    lists, row = [], 0
    for count in counts:
        parts = []
        for _ in range(count):
            part = part_of(numbers[row * ROW:(row + 1) * ROW])
            if part is None or len(parts) == MOST_PARTS:
                raise Refused(15, row)
            parts.append(part)
            row += 1
        lists.append(parts)
    if row * ROW < len(numbers):
        raise Refused(15, row)
    return lists


def read_new(numbers):
    """The part of indices that never fall; neighbouring repeats are one."""
    for at, index in enumerate(numbers):
        if index >= INDICES or (at > 0 and index < numbers[at - 1]):
            raise Refused(15, at)
    part = frozenset(numbers)
    if len(part) > MOST_NAMES:
        raise Refused(11)
    return part


def rows_of(parts, room):
    """The numbers that a list's rows write into a buffer with this room."""
    if ROW * len(parts) > room:
        raise Refused(12)
    return [number for part in parts for number in _row_of(part)]


def _row_of(part):
    padding = [0] * (MOST_NAMES - len(part))
    return [len(part), *sorted(part), *padding]
