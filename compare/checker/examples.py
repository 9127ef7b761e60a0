"""Document 01's examples, indices as names, and the places it and our readings tell."""

from .protocol import hex_bytes, hex_numbers

FULL = str(128 * 13)
WORKSPACE = "32768"


def field(tag, *values):
    """A field that holds bytes, or other fields."""
    value = b"".join(values)
    return bytes([tag]) + len(value).to_bytes(2, "big") + value


def name(text):
    """A field 10."""
    return field(0x10, text)


def expression(tag, reference):
    """A maker of ANDOR, AND or ONEOF, whose plain terms are references."""
    def make(*terms):
        return field(tag, *[term if isinstance(term, bytes) else reference(term)
                            for term in terms])
    return make


def by_number(index):
    """A reference as `eval` has it."""
    return field(0x50, index.to_bytes(2, "big"))


def by_name(text):
    """A reference as a sheet has it."""
    return field(0x50, text.encode())


ANDOR, AND, ONEOF = (expression(tag, by_number) for tag in (0x51, 0x52, 0x53))
ANDOR_NAMED, ONEOF_NAMED = (expression(tag, by_name) for tag in (0x51, 0x53))


def rows(*parts):
    """Rows of sets."""
    return [number for part in parts
            for number in [len(part), *sorted(part)] + [0] * (12 - len(part))]


def evaluated(tree, expected):
    """An expression and its parts, or the number of its refusal."""
    if isinstance(expected, int):
        said = f"refused {expected} 0 out -"
    else:
        said = f"ok {len(expected)} out {hex_numbers(rows(*expected))}"
    return f"eval {hex_bytes(tree)} {FULL}", said


def subsets(names):
    """The nonempty subsets, fewer names first, then by the names."""
    names = list(names)
    chosen = [[name for at, name in enumerate(names) if mask >> at & 1]
              for mask in range(1, 2 ** len(names))]
    return [set(part) for part in sorted(chosen, key=lambda part: (len(part), part))]


STARRED_AND_COUNTED = [
    evaluated(ANDOR(1, 1), [{1}]),
    evaluated(ONEOF(), []),
    evaluated(ANDOR(), 9),
    evaluated(AND(1), 9),
    evaluated(AND(1, ONEOF()), []),
    evaluated(AND(ONEOF(1, 2), 3), [{1, 3}, {2, 3}]),
    evaluated(ANDOR(ONEOF(1, 2), 3), [{1}, {2}, {3}, {1, 3}, {2, 3}]),
    evaluated(AND(ANDOR(1, 2), ANDOR(1, 2)), [{1}, {2}, {1, 2}]),
    evaluated(ANDOR(*range(7)), subsets(range(7))),
    evaluated(ANDOR(*range(8)), 11),
    evaluated(ANDOR(*[1] * 12), [{1}]),
    evaluated(ANDOR(*[1] * 13), 10),
    evaluated(AND(*range(12)), [set(range(12))]),
    evaluated(AND(*range(13)), 11),
    evaluated(AND(*range(13), ONEOF()), 11),
]

ONE_AND_ONE_TWO = hex_numbers(rows({1}, {1, 2}))
ROWS = [
    (f"compare {hex_numbers(rows({3}))} {hex_numbers(rows({1, 2}))}", "ok -1"),
    (f"div {ONE_AND_ONE_TWO} - {FULL}", "ok 0 out -"),
    (f"div_part {ONE_AND_ONE_TWO} {hex_numbers(rows(set()))} {FULL}",
     f"ok 2 out {ONE_AND_ONE_TWO}"),
]

FOUR = b"".join(field(0x30, name(b"e%d" % number)) for number in range(1, 5))
RULE_AND_CONSTRAINT = field(
    0x01, name(b"s"), field(0x30, name(b"e0"), field(0x31, ONEOF_NAMED("e1", "e2"))), FOUR,
    field(0x40, name(b"e0"), ANDOR_NAMED("e3", "e4")))
ELEVEN = [{1}, {2}, {3}, {4}, {1, 3}, {1, 4}, {2, 3}, {2, 4}, {3, 4}, {1, 3, 4}, {2, 3, 4}]

TYPES = field(0x01, name(b"s"), field(0x20, name(b"e"), field(0x22)),
              field(0x20, name(b"f"), field(0x23, b"e")),
              field(0x20, name(b"h"), field(0x23, b"h")))

OF_FRAME = field(0x34, name(b"frame"))
CAM = field(0x01, name(b"cam"), field(0x30, name(b"frame")),
            field(0x30, name(b"exposed"), OF_FRAME), field(0x30, name(b"planned"), OF_FRAME),
            field(0x40, name(b"frame"), ONEOF_NAMED("exposed", "planned")))
CAM_LISTING = b"supertype cam.frame 2\n0 cam.exposed\n1 cam.planned\n"


def path(tag, item):
    """The query of an item in schema s."""
    return hex_bytes(field(0x67, b"s") + field(tag, item))


SHEETS = [
    (f"list {hex_bytes(RULE_AND_CONSTRAINT)} {path(0x60, b'e0')} {WORKSPACE} {FULL}",
     f"ok 11 out {hex_numbers(rows(*ELEVEN))} ws zero"),
    evaluated(ANDOR(ONEOF(1, 2), 3, 4), ELEVEN),
    (f"from_path {hex_bytes(TYPES)} {path(0x69, b'f')} {WORKSPACE}", "ok named 1 0 ws zero"),
    (f"from_path {hex_bytes(TYPES)} {path(0x69, b'h')} {WORKSPACE}", "refused 13 0 ws zero"),
    (f"listing {hex_bytes(CAM)}", f"ok {hex_bytes(CAM_LISTING)}"),
    ("listing -", "ok -"),
]

DOUBLES = (field(0x01, name(b"s"), field(0x30, name(b"a")), field(0x30, name(b"b")))
           + field(0x01, name(b"s"), field(0x30, name(b"b")), field(0x30, name(b"a")),
                   field(0x30, name(b"c"), field(0x31, ONEOF_NAMED("a", "b")))))

READINGS = [
    ("verdict 010000", "refused 3 3"),
    ("verdict 010003300000", "refused 3 3"),
    (f"new {hex_numbers([*range(13), 12, 3])} {FULL}", "refused 15 14 out -"),
    (f"single 256 {FULL}", "refused 15 0 out -"),
    (f"resolve {hex_bytes(DOUBLES)} {hex_bytes(field(0x67, b's') + name(b'a'))}", "ok 3"),
    (f"get {hex_bytes(DOUBLES)} {path(0x60, b'a')}", "ok 0"),
    (f"list {hex_bytes(DOUBLES)} {path(0x60, b'c')} {WORKSPACE} {FULL}",
     f"ok 2 out {hex_numbers(rows({0}, {1}))} ws zero"),
    evaluated(AND(ANDOR(*range(7)), ONEOF(7, 8), AND(*range(9))), 11),
]

EXAMPLES = STARRED_AND_COUNTED + ROWS + SHEETS + READINGS

assert len(CAM) == 102
