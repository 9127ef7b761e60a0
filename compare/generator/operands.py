"""The questions on rows, and parts and lists to put to them."""

from . import coding as c

OPERANDS = {  # p: a part, l: a list
    "join": "pp", "add": "ll", "add_part": "lp", "part_add": "pl", "bitand": "ll",
    "bitand_part": "lp", "part_bitand": "pl", "sub": "ll", "sub_part": "lp", "div": "ll",
    "div_part": "lp",
}
SEVERAL = ("oneof", "and", "andor")


def part(rng, names=6, most=4):
    """A part of some of the first names."""
    return sorted(rng.sample(range(names), rng.randrange(min(most, names) + 1)))


def parts(rng, most, names=6):
    """A list in any order, with repeats."""
    made = [part(rng, names) for _ in range(rng.randrange(most + 1))]
    if made and rng.random() < 0.3:
        made.append(rng.choice(made))
    return made


def singles(count, first=0):
    """So many parts of one name each."""
    return [[first + number] for number in range(count)]


def pairs(count):
    """So many different parts of two names each."""
    return [[number % 16, 16 + number // 16] for number in range(count)]


def several(asked, lists, room=c.FULL):
    """A question on any number of lists."""
    together = [part for parts_of_one in lists for part in parts_of_one]
    return c.question(asked, [len(one) for one in lists], c.rows(together), room)
