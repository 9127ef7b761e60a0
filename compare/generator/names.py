"""Questions `resolve`, `get`, `as_path`, `schema_name`, `item_name` and `scope_order`."""

from . import coding as c
from .corner_sheets import cam, doubles, types
from .damage import perhaps_damaged, truncations
from .limits import NAMES
from .sheets import ITEM_NAMES, SCHEMA_NAMES, sheet, supertype_path, type_path

A, S = b"a", b"s"
STEP_TAGS = range(0x60, 0x6a)
GOOD = c.schema(S, c.simple(A), c.entity(A), c.entity(b"b")) + c.schema(b"t", c.entity(A))
BAD_SHEET = b"\x01\0\0"


def malformed(last, tag):
    """Queries of every length and damage; good ones end with this last field, of this tag."""
    step = c.field(c.SCHEMA, S)
    for count in range(6):
        yield step * count + last
        yield step * count
        yield step * count + last + last
        yield step * count + last + b"\0"
    for other in (0x00, 0x10, 0x5f, *STEP_TAGS, 0x6a, 0xff):
        yield c.field(other, S) + last
        yield step + c.field(other, A)
    for text in NAMES:
        yield c.field(c.SCHEMA, text) + last
        yield step + c.field(tag, text)
    yield from truncations(step + last)


def scopes():
    """Scope queries that start each other, or don't."""
    yield b""
    for tag in (c.SCHEMA, c.ENTITY):
        for text in (S, b"t", b"S"):
            yield c.steps((tag, text))
            yield c.steps((c.SCHEMA, S), (tag, text))
            yield c.steps((c.SCHEMA, S), (c.ENTITY, A), (tag, text))


def scope_orders():
    """Every pair of scopes; every malformed query on either side."""
    for left in scopes():
        for right in scopes():
            yield c.question("scope_order", left, right)
    for bad in malformed(b"", c.SCHEMA):
        yield c.question("scope_order", bad, c.steps((c.SCHEMA, S)))
        yield c.question("scope_order", c.steps((c.SCHEMA, S)), bad)
    yield c.question("scope_order", b"\0", b"\x67\0")


def indexed(data):
    """The three questions on a number, round the count of declarations."""
    for asked in ("as_path", "schema_name", "item_name"):
        for index in (0, 1, 2, 3, 4, 5, 255, 256, 65535):
            yield c.question(asked, data, index)


def corners():
    """The fixed questions of this group."""
    for query in malformed(c.name(A), 0x10):
        yield c.question("resolve", GOOD, query)
    for query in malformed(c.field(c.ENTITY, A), c.ENTITY):
        yield c.question("get", GOOD, query)
    yield from scope_orders()
    for data in (b"", BAD_SHEET, GOOD, cam(), *doubles()):
        yield from indexed(data)
        for text in (A, b"b", b"c", b"x"):
            for scope in (b"", c.steps((c.SCHEMA, S)), c.steps((c.SCHEMA, b"t"), (c.ENTITY, A))):
                yield c.question("resolve", data, scope + c.name(text))
            for tag in (c.ENTITY, c.TYPE):
                yield c.question("get", data, c.path(S, tag, text))
    for data in types():
        yield from indexed(data)
    yield c.question("resolve", BAD_SHEET, b"")
    yield c.question("get", BAD_SHEET, b"")


def more(rng):
    """Every question of the group on a random sheet."""
    made = sheet(rng)
    data = perhaps_damaged(rng, 0.05, made.data)
    scope = _scope(rng)
    path = rng.choice([supertype_path, type_path])(rng, made)
    reference = scope + c.name(rng.choice(ITEM_NAMES))
    yield c.question("resolve", data, perhaps_damaged(rng, 0.1, reference))
    yield c.question("get", data, perhaps_damaged(rng, 0.1, path))
    for asked in ("as_path", "schema_name", "item_name"):
        yield c.question(asked, data, rng.randrange(14))
    pair = [scope, rng.choice([scope, scope[:4], _scope(rng), c.steps((c.SCHEMA, b"s")) + scope])]
    rng.shuffle(pair)
    yield c.question("scope_order", *[perhaps_damaged(rng, 0.1, query) for query in pair])


def _scope(rng):
    """A scope query, mostly of a schema."""
    tags = [c.SCHEMA] * 6 + list(STEP_TAGS)
    count = rng.choice([0, 1, 1, 1, 1, 2, 3])
    return c.steps(*[(rng.choice(tags), rng.choice(SCHEMA_NAMES)) for _ in range(count)])
