"""Lists of parts: `+ & - /`, ONEOF, AND and ANDOR, by trying every choice."""

from itertools import combinations

from .refusal import Refused
from .rows import MOST_NAMES, MOST_PARTS

MOST_FACTORS = 12


def part_order(part):
    """Fewer names first, then the index lists compared."""
    return len(part), sorted(part)


def tidy(parts):
    """Sorted, without repeats."""
    return sorted(set(parts), key=part_order)


def compare(left, right):
    """-1, 0 or 1."""
    left, right = part_order(left), part_order(right)
    return (left > right) - (left < right)


def within_limits(parts):
    """These parts without repeats; 11 where they are too many or too large."""
    parts = set(parts)
    if len(parts) > MOST_PARTS or any(len(part) > MOST_NAMES for part in parts):
        raise Refused(11)
    return parts


def join_each(left, right):
    """Each part joined with each."""
    return within_limits(p | q for p in left for q in right)


def add(left, right):
    """The parts of either list."""
    return tidy(within_limits([*left, *right]))


def bitand(left, right):
    """The joins of both lists' parts."""
    return tidy(join_each(left, right))


def sub(left, right):
    """The left parts that equal no right one, in their order."""
    return [part for part in left if part not in right]


def div(left, right):
    """The left parts that contain some right one, in their order."""
    return [part for part in left if any(part >= inner for inner in right)]


def oneof(lists):
    """A part of any of the lists."""
    return within_limits(part for parts in lists for part in parts)


def and_(lists):
    """A part of each list, joined; every prefix keeps within the limits."""
    if len(lists) < 2:
        raise Refused(9)
    return joined(lists)


def joined(lists):
    """The joins of one part of each list."""
    result = set(lists[0])
    for parts in lists[1:]:
        result = join_each(result, parts)
    return result


def andor(factors):
    """The joins over every nonempty choice of factors."""
    if not factors:
        raise Refused(9)
    if len(factors) > MOST_FACTORS:
        raise Refused(10)
    result = set()
    for size in range(1, len(factors) + 1):
        for choice in combinations(factors, size):
            # small choices come first, so a choice's prefixes are in the result already
            result = within_limits(result | joined(choice))
    return result
