"""Questions on rows that are bad, cut, missing or surplus, and on buffers of every length."""

from itertools import product

from . import coding as c
from .limits import round_about
from .operands import OPERANDS, SEVERAL, part, parts, several, singles

GOOD = c.row([1, 2])
BAD_ROWS = [
    [13, *range(12)], [65535] + [0] * 12, [2, 2, 1] + [0] * 10, [2, 1, 1] + [0] * 10,
    [1, 256] + [0] * 11, [1, 65535] + [0] * 11, [1, 1, 1] + [0] * 10, [0] * 12 + [1],
    [0, 1] + [0] * 11, [12, *range(11), 3], [3, 0, 1, 0] + [0] * 9, list(range(40000, 40013)),
]
GOOD_EDGES = [[0] * 13, c.row([0]), c.row([255]), c.row(list(range(12))), c.row([0, 255])]
PART_OPERANDS = BAD_ROWS + GOOD_EDGES + [
    [], [0], GOOD[:12], GOOD + [0], GOOD + GOOD, BAD_ROWS[0] + GOOD, GOOD + BAD_ROWS[0], GOOD * 3]
LIST_OPERANDS = BAD_ROWS + [
    [], [0], GOOD[:12], GOOD + [0], GOOD + BAD_ROWS[2], GOOD * 2 + GOOD[:5], GOOD * 129]
ROOMS = (0, 1, 12, 13, 14, 25, 26, 27)


def bad_operands():
    """Every bad operand on either side of every question."""
    operands = {"p": PART_OPERANDS, "l": LIST_OPERANDS}
    both = OPERANDS | {"compare": "pp"}
    for asked, (left, right) in both.items():
        room = () if asked == "compare" else (c.FULL,)
        for operand in operands[left]:
            yield c.question(asked, operand, GOOD, *room)
        for operand in operands[right]:
            yield c.question(asked, GOOD, operand, *room)
        yield c.question(asked, GOOD + GOOD[:3], BAD_ROWS[0], *room)
        yield c.question(asked, BAD_ROWS[0], GOOD + GOOD[:3], *room)
    for operand in (GOOD * 127 + BAD_ROWS[2], GOOD * 128 + [0], GOOD * 128 + BAD_ROWS[0]):
        yield c.question("sub", GOOD, operand, c.FULL)


def bad_lists():
    """Counts and rows that do not fit each other."""
    two = c.rows([[1], [2]])
    cases = [([], []), ([], GOOD), ([], [0]), ([0], []), ([0], GOOD), ([1], []), ([1], GOOD[:12]),
             ([1], GOOD + [0]), ([2], GOOD), ([2], GOOD + GOOD[:12]), ([1, 1], two), ([2], two),
             ([1, 1], two + [0]), ([1, 1, 1], two), ([0, 0, 2], two), ([0, 0, 3], two),
             ([1, 1], GOOD + BAD_ROWS[2]), ([1, 1], BAD_ROWS[2] + GOOD), ([65535], two),
             ([0] * 13, []), ([0] * 13, [1]), ([1, 65535], two), ([2, 1], two + BAD_ROWS[0])]
    for asked in SEVERAL:
        for counts, numbers in cases:
            yield c.question(asked, counts, numbers, c.FULL)
    for count in round_about(128):
        yield c.question("oneof", [count], GOOD * count, c.FULL)
        yield c.question("and", [1, count], GOOD * (count + 1), c.FULL)
        yield c.question("andor", [count], GOOD * 128, c.FULL)
        yield c.question("oneof", [count, 1], GOOD * 129 + [0], c.FULL)
    for row in BAD_ROWS:
        yield c.question("oneof", [2], GOOD + row, c.FULL)
        yield c.question("andor", [1, 1], row + GOOD, c.FULL)


def bad_indices():
    """`new` and `single` of falling or too large indices."""
    twelve = list(range(12))
    for indices in ([65535], [1, 2, 1], [5, 5, 4], twelve + [11], twelve + [12], twelve + [256],
                    twelve + [12, 12, 3], [0] * 1000 + [1], [1] * 1000 + [0], list(range(256)),
                    list(range(257))):
        yield c.question("new", indices, c.FULL)
    for count in (1, 2, 3):
        for indices in product((0, 1, 255, 256), repeat=count):
            yield c.question("new", list(indices), c.FULL)
    for index in (255, 256, 257, 40000, 65535):
        yield c.question("single", index, c.FULL)
    for room in ROOMS:
        yield c.question("new", [], room)
        yield c.question("new", [3, 4], room)
        yield c.question("new", list(range(13)), room)
        yield c.question("new", [2, 1], room)
        yield c.question("single", 9, room)
        yield c.question("single", 256, room)


def rooms():
    """Buffers round the length of results of no, one and two rows, and of refused ones."""
    operands = {"p": [GOOD, c.row([])], "l": [GOOD, [], c.rows([[1, 2], [3]]), BAD_ROWS[0]]}
    few = [[], [[[1]]], [[[1]], [[1]]], [[[1]], [[2]]], [[], []], [[[1], [2]], [[1]]]]
    for room in ROOMS:
        for asked, (left, right) in OPERANDS.items():
            for one in operands[left]:
                for other in operands[right][:2]:
                    yield c.question(asked, one, other, room)
        for asked in SEVERAL:
            for lists in few:
                yield several(asked, lists, room)
    for room in (c.FULL - 1, c.FULL):
        yield c.question("add", c.rows(singles(64)), c.rows(singles(64, 64)), room)
        yield c.question("add", c.rows(singles(64)), c.rows(singles(65, 64)), room)


def corners():
    """The fixed questions of this group."""
    for make in (bad_indices, bad_lists, bad_operands, rooms):
        yield from make()


def more(rng):
    """Random operands with one number changed, or cut, and any room."""
    room = rng.choice([c.FULL, 13 * rng.randrange(8), 13 * rng.randrange(8) + 12])
    for asked, kinds in OPERANDS.items():
        operands = [c.row(part(rng)) if kind == "p" else c.rows(parts(rng, 4)) for kind in kinds]
        side = rng.randrange(2)
        operands[side] = _spoilt(rng, operands[side])
        yield c.question(asked, *operands, room)
    yield c.question("compare", c.row(part(rng)), _spoilt(rng, c.row(part(rng))))
    for asked in SEVERAL:
        made = parts(rng, 4)
        counts = [rng.randrange(3) for _ in range(rng.randrange(4))]
        yield c.question(asked, counts, _spoilt(rng, c.rows(made)), room)
    indices = _spoilt(rng, sorted(rng.choices(range(30), k=rng.randrange(20))))
    yield c.question("new", indices, room)
    yield c.question("single", rng.randrange(65536), room)


def _spoilt(rng, numbers):
    """Numbers with one changed, taken or added; sometimes none."""
    kind = rng.randrange(4)
    at = rng.randrange(len(numbers) + 1)
    if kind == 0:
        return numbers
    if kind == 1:
        return numbers[:at]
    if kind == 2:
        return numbers + [0] * rng.randrange(1, 15)
    return numbers[:at] + [rng.choice([0, 1, 2, 13, 255, 256, 65535])] + numbers[at + 1:]
