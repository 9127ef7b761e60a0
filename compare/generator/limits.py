"""Sheets with every limit at, one below and one above."""

from . import coding as c

S, A = b"s", b"a"
EMPTY_ENTITY = c.entity(A)


def round_about(limit):
    """One below, at, one above."""
    return limit - 1, limit, limit + 1


def schemas():
    """8 schemas."""
    for count in round_about(8):
        yield c.schema(S) * count
    yield c.schema(S) * 8 + c.field(0x01, c.name(b"9"))  # the ninth comes before what is in it


def declarations():
    """256 types and entities together."""
    for count in round_about(256):
        yield c.schema(S, c.other(A) * count)
        yield c.schema(S, EMPTY_ENTITY * count)
        yield c.schema(S, c.other(A) * 100) + c.schema(S, EMPTY_ENTITY * (count - 100))
    yield c.schema(S, EMPTY_ENTITY * 256, c.field(0x30))


def constraints():
    """64 fields 40."""
    for count in round_about(64):
        yield c.schema(S, EMPTY_ENTITY, c.constraint(A) * count)
    yield c.schema(S, c.constraint(A) * 40) + c.schema(S, c.constraint(A) * 25)


def expressions():
    """512 expressions and names in 34 together."""
    for count in round_about(512):
        many = c.ref(A) * (count - 1)
        yield c.schema(S, c.entity(A, c.rule(c.oneof(many))))
        yield c.schema(S, c.entity(A, c.field(0x33, c.andor(many))))
        yield c.schema(S, c.constraint(A, c.and_(many)))
        yield c.schema(S, c.entity(A, c.subtype_of(*[A] * count)))
        yield c.schema(S, c.entity(A, c.rule(c.ref(A)), c.subtype_of(*[A] * (count - 2))),
                       c.constraint(A, c.ref(A)))
    full = c.subtype_of(*[A] * 512)
    yield c.schema(S, c.entity(A, full), c.constraint(A, c.ref(b"1")))
    yield c.schema(S, c.entity(A, full), c.constraint(A, c.oneof(c.ref(b"1"))))
    yield c.schema(S, c.entity(A, c.subtype_of(*[A] * 512, b"1")))


def depths():
    """Depth 5, a lone reference being 1."""
    for depth in round_about(5):
        for wrap in (c.oneof, c.and_, c.andor):
            for innermost in (c.ref(A), c.ref(b""), c.oneof()):
                deep = innermost
                for _ in range(depth - 1):
                    deep = wrap(deep)
                yield c.schema(S, c.entity(A, c.rule(deep)))
                yield c.schema(S, c.entity(A, c.field(0x33, deep)))
                yield c.schema(S, c.constraint(A, deep))


NAMES = [b"", b"a", b"Z", b"ab", b"_", b"_a", b"1", b"1a", b"a1", b"a_", b"a-", b"a b", b"a\0",
         b"\x80", b"a\xff", b"@", b"[", b"`", b"{", b"a/", b"a:", b"a@", b"a[", b"a`", b"a{",
         b"a" * 31, b"a" * 32, b"a" * 33, b"a" * 300]


def names():
    """Names of every length and byte, in every field that holds one."""
    for text in NAMES:
        yield c.schema(text)
        yield c.schema(S, c.other(text))
        yield c.schema(S, c.alias(A, text))
        yield c.schema(S, c.entity(text))
        yield c.schema(S, c.entity(A, c.subtype_of(A, text)))
        yield c.schema(S, c.constraint(text))
        yield c.schema(S, c.entity(A, c.rule(c.ref(text))))
        yield c.schema(S, c.constraint(A, c.oneof(c.ref(text))))


def values():
    """Lengths and bytes of 21, 22, 24 and 32."""
    for value in (b"", *[bytes([place]) for place in (0, 1, 5, 6, 7, 255)], b"\0\0"):
        for tag in (0x21, 0x22, 0x24):
            yield c.schema(S, c.field(0x20, c.name(A) + c.field(tag, value)))
        yield c.schema(S, c.entity(A, c.field(0x32, value)))


def lengths():
    """65,535 bytes, and one more; no sheet so long is accepted."""
    yield bytes(65535)
    yield bytes(65536)


def longest():
    """The longest accepted sheet, 39,315 bytes: every limit met with names of 32 bytes."""
    text = b"a" * 32
    last = c.entity(text, c.field(0x33, c.ref(text)), c.subtype_of(*[text] * 511))
    return c.schema(text) * 7 + c.schema(text, c.alias(text, text) * 255, last,
                                         c.constraint(text) * 64)


def small():
    """Every limit that small sheets can show."""
    for make in (schemas, depths, names, values):
        yield from make()


def large():
    """The other limits."""
    for make in (declarations, constraints, expressions):
        yield from make()
    yield longest()
