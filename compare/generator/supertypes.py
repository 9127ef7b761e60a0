"""Questions `is_supertype`, `supertype`, `list`, `number_of` and `set_at`."""

from . import coding as c
from .corner_sheets import OF_X, SUPERTYPE_PATHS, cam, numbered, of_any, of_x, refs, ruled
from .damage import perhaps_damaged, truncations
from .limits import round_about
from .sheets import sheet, supertype_path, wide_sheet

FRAME = c.path(b"cam", c.ENTITY, b"frame")
SECOND = c.row([2])
BAD_ROW = [13] + [0] * 12
NUMBERS = (0, 1, 2, 10, 11, 126, 127, 128, 65535)


def every_question(data, query, row, number, workspace=c.WORKSPACE, room=c.FULL):
    """The five questions with the same sheet, query and loans."""
    yield c.question("is_supertype", data, query, workspace)
    yield c.question("supertype", data, number, workspace)
    yield c.question("list", data, query, workspace, room)
    yield c.question("number_of", data, query, row, workspace)
    yield c.question("set_at", data, query, number, workspace, room)


def loans():
    """Workspaces and buffers of every length, the sheet, query and row good or bad."""
    for workspace in (0, 1, *round_about(c.WORKSPACE), 65535):
        yield from every_question(cam(), FRAME, SECOND, 1, workspace)
        yield from every_question(b"\0", b"\0", BAD_ROW, 9, workspace)
    yield c.question("list", bytes(65536), FRAME, 0, 0)  # 1 comes before 2
    for room in (0, 12, 13, 14, 25, 26, 27):
        yield from every_question(cam(), FRAME, SECOND, 1, room=room)
        yield from every_question(cam(), FRAME, SECOND, 2, room=room)
    for room in (0, 1):
        yield from every_question(ruled(c.oneof(), 0), OF_X, [0] * 13, 0, room=room)


def malformed():
    """Bad queries, bad rows, and both."""
    for query in (*truncations(FRAME), FRAME + FRAME, FRAME + FRAME + b"\0", FRAME * 3,
                  FRAME + c.name(b"a"), c.steps((c.SCHEMA, b"1"))):
        yield from every_question(cam(), query, BAD_ROW, 0)
    for row in ([], [0], [1, 2], SECOND + [0], SECOND * 2, BAD_ROW, [0] * 13, c.row([1, 2]),
                [2, 2, 1] + [0] * 10, [1, 2, 3] + [0] * 10, c.row([255]), [1, 256] + [0] * 11):
        yield c.question("number_of", cam(), FRAME, row, c.WORKSPACE)
        yield c.question("number_of", cam(), c.path(b"cam", c.ENTITY, b"zz"), row, c.WORKSPACE)


def corners():
    """The fixed questions of this group."""
    for data in of_x():
        yield c.question("list", data, OF_X, c.WORKSPACE, c.FULL)
        yield c.question("number_of", data, OF_X, c.row([0]), c.WORKSPACE)
        yield c.question("set_at", data, OF_X, 2, c.WORKSPACE, c.FULL)
    for data in of_any():
        for number, query in enumerate(SUPERTYPE_PATHS):
            yield c.question("is_supertype", data, query, c.WORKSPACE)
            yield c.question("list", data, query, c.WORKSPACE, c.FULL)
            yield c.question("supertype", data, number, c.WORKSPACE)
    seven = ruled(c.andor(*refs(numbered(7))), 7)
    for number in NUMBERS:
        yield c.question("set_at", seven, OF_X, number, c.WORKSPACE, c.FULL)
        yield c.question("number_of", seven, OF_X, c.row([number % 7]), c.WORKSPACE)
    yield from loans()
    yield from malformed()


def more(rng):
    """One of the questions on a random sheet, mostly about one of its paths."""
    made = wide_sheet(rng) if rng.random() < 0.03 else sheet(rng)
    data = perhaps_damaged(rng, 0.03, made.data)
    query = perhaps_damaged(rng, 0.02, supertype_path(rng, made))
    row = c.row(sorted(rng.sample(range(9), rng.choice([1, 1, 1, 2, 2, 3]))))
    workspace = c.WORKSPACE if rng.random() < 0.97 else rng.choice([0, 32767, 32769, 50000])
    room = c.FULL if rng.random() < 0.95 else 13 * rng.randrange(6) + rng.randrange(2)
    asked = list(every_question(data, query, row, rng.randrange(5), workspace, room))
    yield asked[rng.choice([0, 1, 2, 2, 3, 4])]
