"""Questions `listing`."""

from . import coding as c
from . import limits
from .corner_sheets import cam, long_chains, of_any, of_x, types
from .damage import perhaps_damaged, truncations
from .sheets import sheet, wide_sheet


def every_corner():
    """What names and types can do, every limit, every front part of a sheet."""
    yield b""
    for made in (of_any(), of_x(), types(), long_chains()):
        yield from made
    yield from truncations(cam())
    for made in (limits.small(), limits.large(), limits.lengths()):
        yield from made


def corners():
    """The fixed questions of this group."""
    for data in (cam(), *every_corner()):
        yield c.question("listing", data)


def more(rng):
    """Random sheets, some damaged."""
    made = wide_sheet(rng) if rng.random() < 0.03 else sheet(rng, most_types=4)
    yield c.question("listing", perhaps_damaged(rng, 0.1, made.data))
