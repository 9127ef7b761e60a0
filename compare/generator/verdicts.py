"""Questions `verdict`."""

from . import coding as c
from . import limits
from .corner_sheets import cam
from .damage import byte_changes, perhaps_damaged, truncations
from .sheets import sheet

A, S = b"a", b"s"
NAME_A = c.name(A)
TAGS = {0x01: NAME_A, 0x10: A, 0x20: NAME_A + c.field(0x22), 0x21: b"\0", 0x22: b"", 0x23: A,
        0x24: b"", 0x30: NAME_A, 0x31: c.ref(A), 0x32: b"", 0x33: b"", 0x34: NAME_A, 0x40: NAME_A,
        0x50: A, 0x51: b"", 0x52: c.ref(A), 0x53: b"", 0x00: b"", 0x02: b"", 0x54: b"", 0x60: A,
        0xff: b""}

WRAPPED_BY = {  # how each kind of parent comes to stand in a sheet
    0x01: lambda parent: parent,
    0x20: lambda parent: c.schema(S, parent),
    0x30: lambda parent: c.schema(S, parent),
    0x31: lambda parent: c.schema(S, c.entity(A, parent)),
    0x33: lambda parent: c.schema(S, c.entity(A, parent)),
    0x34: lambda parent: c.schema(S, c.entity(A, parent)),
    0x40: lambda parent: c.schema(S, parent),
    0x51: lambda parent: c.schema(S, c.constraint(A, parent)),
    0x52: lambda parent: c.schema(S, c.entity(A, c.rule(parent))),
    0x53: lambda parent: c.schema(S, c.entity(A, c.field(0x33, parent))),
}
FRONTS = {  # what may stand in a parent before the field that is tried
    0x01: [b"", NAME_A, NAME_A + c.other(A), NAME_A + c.entity(A), NAME_A + c.constraint(A)],
    0x20: [b"", NAME_A, NAME_A + c.field(0x24)],
    0x30: [b"", NAME_A, NAME_A + c.field(0x32), NAME_A + c.field(0x34)],
    0x31: [b"", c.ref(A)],
    0x33: [b"", c.ref(A)],
    0x34: [b"", NAME_A],
    0x40: [b"", NAME_A, NAME_A + c.ref(A)],
    0x51: [b"", c.ref(A)],
    0x52: [c.ref(A)],
    0x53: [c.oneof()],
}


def every_tag():
    """Every tag under every parent, after everything that may stand before it."""
    for tag, value in TAGS.items():
        yield c.field(tag, value)
        for parent, fronts in FRONTS.items():
            for front in fronts:
                yield WRAPPED_BY[parent](c.field(parent, front + c.field(tag, value)))
    for parent, fronts in FRONTS.items():
        for front in fronts:
            yield WRAPPED_BY[parent](c.field(parent, front))


def rich():
    """A sheet with every kind of field."""
    return c.schema(S, c.simple(b"n"), c.enumeration(b"m"), c.alias(b"k", b"n"), c.other(b"o"),
                    c.entity(A, c.rule(c.oneof(c.ref(b"b"), c.ref(b"d")))),
                    c.entity(b"b", c.field(0x32), c.subtype_of(A)),
                    c.entity(b"d", c.field(0x33, c.and_()), c.subtype_of(A, b"b")),
                    c.constraint(b"b", c.andor(c.ref(b"d")))) + c.schema(b"t")


def small_sheets():
    """Sheets of some bytes only: a schema alone, with an entity, with a simple type."""
    return c.schema(S), c.schema(S, c.entity(A)), c.schema(S, c.simple(b"n"))


def every_corner():
    """Every limit, every tag, every front part of two sheets, every byte of small ones changed."""
    yield b""
    yield from limits.small()
    yield from every_tag()
    yield from truncations(cam())
    yield from truncations(rich())
    yield from limits.large()
    yield from limits.lengths()
    for data in small_sheets():
        yield from byte_changes(data)


def corners():
    """The fixed questions of this group."""
    for data in every_corner():
        yield c.question("verdict", data)


def more(rng):
    """Random sheets, most of them damaged."""
    data = rich() if rng.random() < 0.2 else sheet(rng).data
    once = perhaps_damaged(rng, 0.7, data)
    yield c.question("verdict", perhaps_damaged(rng, 0.1, once))
