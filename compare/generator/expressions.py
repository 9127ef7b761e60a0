"""Questions `eval`."""

from . import coding as c
from .limits import round_about
from .sheets import shape, wide_shape

OPERATORS = (c.andor, c.and_, c.oneof)


def of_size(nodes):
    """Every expression of so many nodes over three names."""
    if nodes == 1:
        yield from map(c.number_ref, range(3))
    for terms in _terms_of_size(nodes - 1):
        for make in OPERATORS:
            yield make(terms)


def _terms_of_size(nodes):
    """Every row of expressions of so many nodes together, already joined."""
    if nodes == 0:
        yield b""
    for first in range(1, nodes + 1):
        for head in of_size(first):
            for tail in _terms_of_size(nodes - first):
                yield head + tail


def numbers(count, first=0):
    """References to so many numbers in a row."""
    return [c.number_ref(first + number) for number in range(count)]


def limits():
    """Round 12 factors, 12 names and 128 parts."""
    for count in (1, 2, 6, 7, 8, *round_about(12)):
        for make in OPERATORS:
            yield make(*numbers(count))
            yield make(*numbers(1) * count)
            yield make(*numbers(count), c.oneof())
            yield make(*numbers(count), make())
            yield make(*numbers(count, 256 - count))
    for count in round_about(128):
        yield c.oneof(*numbers(count))
        yield c.and_(c.oneof(*numbers(count)), c.number_ref(200))
        yield c.andor(c.oneof(*numbers(count)))
    for left, right in ((1, 63), (1, 64), (2, 42), (10, 10), (10, 11), (11, 10), (8, 16)):
        lists = c.oneof(*numbers(left)), c.oneof(*numbers(right, 100))
        yield c.and_(*lists)
        yield c.andor(*lists)
    yield c.oneof(c.andor(*numbers(7)), c.number_ref(0))
    yield c.oneof(c.andor(*numbers(7)), c.number_ref(7))
    yield c.oneof(c.andor(*numbers(7)), *numbers(2, 7))


def refusals_in_order():
    """Which of 9, 10 and 11 comes first."""
    bad = [c.andor(), c.and_(), c.andor(*numbers(1) * 13), c.andor(*numbers(8)),
           c.and_(*numbers(13))]
    for make in OPERATORS:
        for first in bad:
            yield make(first)
            for second in bad:
                yield make(first, second)
            yield make(*numbers(13), first)
    seven = c.andor(*numbers(7))
    yield c.and_(seven, c.oneof(*numbers(2, 7)), c.and_(*numbers(9)))
    yield c.and_(*numbers(13), c.oneof())
    yield c.and_(c.oneof(), *numbers(13))


def deep():
    """Six deep, and 513 nodes."""
    for make in OPERATORS:
        tree = c.oneof(*numbers(2))
        for _ in range(4):
            tree = make(tree, c.number_ref(5))
        yield tree
        yield make(*numbers(1) * 512)


def corners():
    """The fixed questions of this group."""
    for nodes in (1, 2, 3, 4):
        for tree in of_size(nodes):
            yield c.question("eval", tree, c.FULL)
    for make in (limits, refusals_in_order, deep):
        for tree in make():
            yield c.question("eval", tree, c.FULL)
    for room in (0, 12, 13, 38, 39, 40):
        yield c.question("eval", c.andor(*numbers(2)), room)
        yield c.question("eval", c.oneof(), room)


def more(rng):
    """Random expressions of every depth, in buffers of every length."""
    wide = rng.random() < 0.05
    names = 14 if wide else rng.choice([2, 3, 5, 8])

    def leaf():
        return c.number_ref(rng.randrange(names))

    tree = wide_shape(rng, leaf) if wide else shape(rng, leaf, rng.randrange(1, 7))
    room = c.FULL if rng.random() < 0.9 else 13 * rng.randrange(12) + rng.randrange(3)
    yield c.question("eval", tree, room)
