"""Sheets for the corners of document 01, and paths worth asking for."""

from . import coding as c

A, B, C, D, X, H, Z = b"a", b"b", b"c", b"d", b"x", b"h", b"zz"
S, T = b"s", b"t"


def refs(texts):
    """References to these names."""
    return [c.ref(text) for text in texts]


def numbered(count):
    """So many names: e0, e1 and on."""
    return [b"e%d" % number for number in range(count)]


def ruled(expression, count):
    """Schema s: so many entities, then x with a rule."""
    return c.schema(S, *map(c.entity, numbered(count)), c.entity(X, c.rule(expression)))


def cam():
    """Document 01's sheet of 102 bytes."""
    frame, exposed, planned = b"frame", b"exposed", b"planned"
    sub = c.subtype_of(frame)
    return c.schema(b"cam", c.entity(frame), c.entity(exposed, sub), c.entity(planned, sub),
                    c.constraint(frame, c.oneof(*refs([exposed, planned]))))


def merging():
    """Constraints, rules and subtypes of one entity, in every pairing."""
    plain = [c.entity(A), c.entity(B), c.entity(C), c.entity(D)]
    shapes = [c.oneof(*refs([A, B])), c.andor(*refs([C, D])), c.ref(A), c.andor(), c.oneof(),
              c.and_(*refs([A, D]))]
    for first in shapes:
        for second in shapes:
            yield c.schema(S, *plain, c.entity(X, c.rule(first)), c.constraint(X, second))
            yield c.schema(S, *plain, c.entity(X), c.constraint(X, first), c.constraint(X, second))
        sub = c.subtype_of(X)
        yield c.schema(S, c.entity(A, sub), c.entity(B, sub), c.entity(C, sub), c.entity(D),
                       c.entity(X, c.rule(first)))
        yield c.schema(S, c.entity(A, sub), c.entity(B), c.entity(C), c.entity(D, sub),
                       c.entity(X), c.constraint(X, first))


def doubles():
    """Schemas, types and entities that share a name."""
    yield (c.schema(S, c.entity(A), c.entity(B))
           + c.schema(S, c.entity(B), c.entity(A), c.entity(C, c.rule(c.oneof(*refs([A, B]))))))
    yield c.schema(S, c.simple(X), c.entity(A), c.entity(X, c.subtype_of(A)),
                   c.constraint(A, c.oneof(c.ref(X))))
    yield c.schema(S, c.simple(A), c.entity(A), c.entity(B, c.subtype_of(A)),
                   c.entity(C, c.subtype_of(A)))
    yield c.schema(S, c.enumeration(A), c.entity(A, c.rule(c.ref(B))), c.entity(B, c.subtype_of(A)))
    yield c.schema(S, c.entity(A, c.subtype_of(B)), c.entity(B)) + c.schema(S)
    yield c.schema(S) + c.schema(S, c.entity(A, c.subtype_of(B)), c.entity(B))
    yield c.schema(S, c.entity(B), c.entity(A, c.rule(c.ref(B)))) + c.schema(S, c.entity(B))
    yield c.schema(S, c.entity(A, c.rule(c.ref(A)))) + c.schema(T, c.entity(A, c.rule(c.ref(A))))
    yield c.schema(S, c.entity(A, c.rule(c.ref(A)))) + c.schema(S, c.entity(A, c.rule(c.ref(A))))
    yield c.schema(S, c.entity(A, c.rule(c.ref(A))), c.entity(A, c.rule(c.ref(Z))))
    yield c.schema(S, c.entity(A, c.rule(c.ref(A))), c.entity(A, c.subtype_of(A)))
    yield c.schema(S, c.entity(A, c.subtype_of(B)), c.entity(A, c.subtype_of(B)), c.entity(B))


def refused_gathering():
    """Sheets with several faults of gathering: the steps tell which comes first."""
    bad = c.ref(Z)
    yield c.schema(S, c.entity(A), c.constraint(Z, bad)) + c.schema(T, c.entity(A, c.rule(bad)))
    yield c.schema(S, c.entity(A, c.subtype_of(Z))) + c.schema(T, c.entity(A), c.constraint(A, bad))
    yield c.schema(S, c.entity(A), c.constraint(Z))
    yield c.schema(S, c.entity(A), c.constraint(Z, c.ref(A)))
    yield c.schema(S, c.entity(A), c.constraint(A, c.oneof(c.ref(A), c.and_(), bad)))
    yield c.schema(S, c.entity(A, c.field(0x33, bad)), c.entity(B, c.subtype_of(A)))
    yield c.schema(S, c.entity(A, c.subtype_of(B, Z, Z)), c.entity(B))
    yield c.schema(S, c.entity(A)) + c.schema(T, c.entity(B, c.subtype_of(A)))
    yield c.schema(S, c.entity(A, c.rule(c.ref(A))), c.entity(A, c.rule(c.ref(A)))) + c.schema(
        T, c.entity(B, c.rule(bad)))


def evaluation():
    """Expressions round refusals 9, 10 and 11."""
    for count in (6, 7, 8, 12, 13):
        everyone = refs(numbered(count))
        yield ruled(c.andor(*everyone), count)
        yield ruled(c.and_(*everyone), count)
        yield ruled(c.oneof(*everyone), count)
        yield ruled(c.and_(*everyone, c.oneof()), count)
        yield ruled(c.andor(*refs([b"e0"] * count)), count)
        same = c.subtype_of(*[X] * count)
        yield c.schema(S, c.entity(X), c.entity(A, same))
    first_seven = c.andor(*refs(numbered(7)))
    yield ruled(c.and_(first_seven, c.oneof(*refs([b"e7", b"e8"])), c.and_(*refs(numbered(9)))), 9)
    yield ruled(c.and_(first_seven, first_seven), 7)
    yield ruled(c.andor(c.andor(*refs(numbered(8))), c.and_()), 8)
    yield ruled(c.and_(c.andor(*refs(numbered(8)))), 8)
    yield ruled(c.andor(c.and_(), *refs(numbered(12))), 12)
    yield ruled(c.andor(*refs(numbered(13)), c.andor(*refs(numbered(8)))), 13)


def mixed_refusals():
    """One supertype's refusal beside another's list."""
    yield c.schema(S, c.entity(A, c.rule(c.andor())), c.entity(B, c.rule(c.ref(A))),
                   c.entity(C, c.subtype_of(B)), c.entity(D, c.subtype_of(B)))
    yield c.schema(S, c.entity(A, c.rule(c.andor())), c.entity(B, c.subtype_of(A)))
    yield c.schema(S, c.alias(H, H), c.enumeration(T), c.entity(A, c.rule(c.and_(c.ref(A)))))
    yield c.schema(S, c.entity(A, c.rule(c.oneof())), c.entity(B))


def deepest():
    """Combined expressions: one six deep, one of 513 nodes."""
    deep = c.ref(A)
    for _ in range(4):
        deep = c.oneof(deep)
    yield c.schema(S, c.entity(A), c.entity(X, c.rule(deep)), c.constraint(X, deep))
    half = c.oneof(*refs([A] * 255))
    yield c.schema(S, c.entity(A), c.entity(X, c.rule(half)), c.constraint(X, half))


def wide():
    """256 declarations: the last names are numbers 253 to 255."""
    entities = [c.entity(X)] + [c.entity(text) for text in numbered(255)]
    yield c.schema(S, *entities, c.constraint(X, c.andor(*refs([b"e252", b"e253", b"e254"]))))


def long_names():
    """Names of 32 bytes everywhere."""
    schema, item, sub = b"s" * 32, b"A" * 31 + b"_", b"b" + b"9" * 31
    yield c.schema(schema, c.alias(sub, item), c.entity(item), c.entity(sub, c.subtype_of(item)),
                   c.constraint(item, c.oneof(c.ref(sub))))


def types():
    """Alias chains and loops."""
    yield c.schema(S, c.alias(H, H))
    yield c.schema(S, c.alias(A, B), c.alias(B, C), c.alias(C, A), c.alias(D, A))
    yield c.schema(S, c.enumeration(A), c.alias(B, A), c.alias(C, B))
    yield c.schema(S, c.simple(A, 0), c.simple(B, 6), c.alias(C, B), c.other(D), c.alias(H, D))
    yield c.schema(S, c.alias(A, B), c.entity(B))
    yield c.schema(S, c.alias(A, B), c.other(B), c.entity(B))
    yield c.schema(S, c.alias(A, Z), c.alias(B, A))
    yield c.schema(S, c.simple(A), c.enumeration(A), c.alias(B, A))
    yield c.schema(S, c.alias(A, B), c.simple(B)) + c.schema(S, c.alias(B, A), c.simple(A))
    yield c.schema(S, c.alias(A, B)) + c.schema(S, c.alias(B, A))
    yield c.schema(S, c.alias(A, B), c.simple(B)) + c.schema(S)
    yield c.schema(S, c.alias(A, B)) + c.schema(T, c.simple(B))
    yield c.schema(S, c.alias(A, B), c.enumeration(B)) + c.schema(S, c.other(B))


def long_chains():
    """256 types, each named after the next; the last is simple, or named after the first."""
    chain = [c.alias(b"t%d" % number, b"t%d" % (number + 1)) for number in range(255)]
    yield c.schema(S, *chain, c.simple(b"t255"))
    yield c.schema(S, *chain, c.alias(b"t255", b"t0"))


def of_x():
    """Sheets whose supertype is x."""
    for make in (merging, evaluation, deepest, wide):
        yield from make()


def of_any():
    """Sheets with other supertypes, or none."""
    yield b""
    yield c.schema(S)
    for make in (doubles, refused_gathering, mixed_refusals, long_names):
        yield from make()


OF_X = c.path(S, c.ENTITY, X)
SUPERTYPE_PATHS = [OF_X, c.path(S, c.ENTITY, A), c.path(S, c.ENTITY, B),
                   c.path(S, c.ENTITY, C), c.path(S, c.TYPE, A)]
TYPE_PATHS = [c.path(S, c.TYPE, text) for text in (A, B, C, D, H, Z)] + [
    c.path(T, c.TYPE, B), c.path(S, c.ENTITY, A), c.path(S, c.ENTITY, Z), c.path(S, c.SCHEMA, A),
    c.path(S, 0x68, A), c.steps((c.TYPE, A)), c.steps((c.ENTITY, A)),
    c.steps((c.SCHEMA, S), (c.ENTITY, A), (c.TYPE, A))]
