"""Questions on well-formed rows, with room enough."""

from . import coding as c
from .limits import round_about
from .operands import OPERANDS, SEVERAL, pairs, part, parts, several, singles

ABOUT = [[], [1], [2], [1, 2], [3], [1, 3], [0, 255]]
LISTS = [[], [[]], [[1]], [[1], [1, 2]], [[1, 2], [1]], [[1], [1]], [[2], [1, 3], [1]]]


SIZES = [[0], [255], [0, 1], [0, 2], [1, 2], [254, 255], [0, 1, 2], list(range(12)),
         list(range(1, 13))]


FOUR_NAMES = [[name for name in range(4) if choice >> name & 1] for choice in range(16)]


def orders():
    """`compare` of parts of every size."""
    for left in SIZES:
        for right in SIZES:
            yield c.question("compare", c.row(left), c.row(right))


def pairs_of_parts():
    """`compare` and `join` of every two parts over four names."""
    for left in FOUR_NAMES:
        for right in FOUR_NAMES:
            yield c.question("compare", c.row(left), c.row(right))
            yield c.question("join", c.row(left), c.row(right), c.FULL)


def small_operands():
    """Every question on every small operand."""
    for left in ABOUT:
        for right in ABOUT:
            yield c.question("join", c.row(left), c.row(right), c.FULL)
            yield c.question("compare", c.row(left), c.row(right))
    chosen = {"p": ABOUT, "l": LISTS}
    for asked, (left_kind, right_kind) in OPERANDS.items():
        for left in chosen[left_kind] if asked != "join" else ():
            for right in chosen[right_kind]:
                yield c.question(asked, coded(left_kind, left), coded(right_kind, right), c.FULL)


def coded(kind, operand):
    """The numbers of a part or a list."""
    return c.row(operand) if kind == "p" else c.rows(operand)


def several_lists():
    """ONEOF, AND and ANDOR of every small choice of lists."""
    for asked in SEVERAL:
        yield several(asked, [])
        for first in LISTS:
            yield several(asked, [first])
            for second in LISTS:
                yield several(asked, [first, second])
        for count in (3, 7, 8, *round_about(12)):
            yield several(asked, [[[1]]] * count)
            yield several(asked, [[one] for one in singles(count)])
            yield several(asked, [[one] for one in singles(count)] + [[]])


def large_results():
    """Results round 128 parts and 12 names."""
    for count in round_about(128):
        half = singles(64)
        yield c.question("add", c.rows(half), c.rows(singles(count - 64, 100)), c.FULL)
        yield several("oneof", [half, singles(count - 64, 100)])
    full = c.rows(pairs(128))
    for asked, part_operand in (("add_part", [200]), ("add_part", [0, 16]), ("bitand_part", [200]),
                                ("sub_part", [0, 16]), ("div_part", [16])):
        yield c.question(asked, full, c.row(part_operand), c.FULL)
    yield c.question("part_add", c.row([200]), full, c.FULL)
    yield c.question("part_bitand", c.row([200]), full, c.FULL)
    for left, right in ((8, 16), (11, 12), (43, 3), (1, 128)):
        operands = singles(left), singles(right, 128)
        yield c.question("bitand", *map(c.rows, operands), c.FULL)
        yield several("and", operands)
        yield several("andor", operands)
    yield c.question("bitand", c.rows(singles(16)), c.rows(singles(16)), c.FULL)
    yield c.question("sub", c.rows(pairs(128)), c.rows(pairs(127)), c.FULL)
    yield c.question("div", c.rows(pairs(128)), c.rows(pairs(128)), c.FULL)


def large_parts():
    """Parts round 12 names."""
    for left, right in ((6, 5), (6, 6), (6, 7), (12, 0), (12, 1), (0, 12), (12, 12)):
        halves = list(range(left)), list(range(100, 100 + right))
        yield c.question("join", *map(c.row, halves), c.FULL)
        yield c.question("bitand", *[c.rows([half]) for half in halves], c.FULL)
        yield c.question("bitand_part", c.rows([halves[0]]), c.row(halves[1]), c.FULL)
        yield c.question("part_bitand", c.row(halves[0]), c.rows([halves[1]]), c.FULL)
        yield several("and", [[half] for half in halves])
        yield several("andor", [[half] for half in halves])


def made_parts():
    """`new` and `single` of good indices."""
    for index in range(256):
        yield c.question("single", index, c.FULL)
    for indices in ABOUT + [[1, 1], [0, 0, 0, 5, 5, 255, 255], [7] * 300, list(range(12)),
                            list(range(13)), list(range(11)) + [11] * 9, list(range(244, 256))]:
        yield c.question("new", indices, c.FULL)


def corners():
    """The fixed questions of this group."""
    for make in (orders, pairs_of_parts, small_operands, several_lists, large_results, large_parts,
                 made_parts):
        yield from make()


def more(rng):
    """Every question on random operands."""
    most = rng.choice([2, 3, 3, 8])
    for asked, kinds in OPERANDS.items():
        operands = [c.row(part(rng)) if kind == "p" else c.rows(parts(rng, most)) for kind in kinds]
        yield c.question(asked, *operands, c.FULL)
    yield c.question("compare", c.row(part(rng, 4)), c.row(part(rng, 4)))
    for asked in SEVERAL:
        count = rng.choice([1, 2, 2, 3, 3, 4, 5])
        yield several(asked, [parts(rng, 3 if count < 4 else 2) for _ in range(count)])
    indices = sorted(rng.choices(range(rng.choice([5, 20, 256])), k=rng.randrange(15)))
    yield c.question("new", indices, c.FULL)
    yield c.question("single", rng.randrange(256), c.FULL)
