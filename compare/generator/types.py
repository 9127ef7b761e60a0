"""Questions `from_path`."""

from . import coding as c
from . import corner_sheets as corner
from .damage import perhaps_damaged, truncations
from .limits import round_about
from .sheets import sheet, type_path


def corners():
    """The fixed questions of this group."""
    for data in (corner.cam(), *corner.types(), *corner.of_any()):
        for query in corner.TYPE_PATHS:
            yield c.question("from_path", data, query, c.WORKSPACE)
    for data in corner.long_chains():
        yield c.question("from_path", data, c.path(b"s", c.TYPE, b"t0"), c.WORKSPACE)
    chain = c.schema(b"s", c.alias(b"a", b"b"), c.simple(b"b"))
    for tag in range(0x5f, 0x6b):
        yield c.question("from_path", chain, c.path(b"s", tag, b"a"), c.WORKSPACE)
    for query in truncations(c.path(b"s", c.TYPE, b"a")):
        yield c.question("from_path", chain, query, c.WORKSPACE)
    for workspace in (0, *round_about(c.WORKSPACE), 65535):
        yield c.question("from_path", chain, c.path(b"s", c.TYPE, b"a"), workspace)
        yield c.question("from_path", b"\0", b"\0", workspace)


def more(rng):
    """Random sheets with many types."""
    made = sheet(rng, most_types=7, most_entities=3)
    data = perhaps_damaged(rng, 0.03, made.data)
    query = perhaps_damaged(rng, 0.03, type_path(rng, made))
    workspace = c.WORKSPACE if rng.random() < 0.98 else rng.choice([0, 32767, 32769])
    yield c.question("from_path", data, query, workspace)
