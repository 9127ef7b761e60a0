"""Writes sheets, queries, rows and the protocol's words."""

ENTITY, SCHEMA, TYPE = 0x60, 0x67, 0x69  # tags of a query's steps
ROW = 13
FULL = 128 * ROW  # the room of the longest list
WORKSPACE = 32768


def field(tag, value=b""):
    """One field."""
    return bytes([tag]) + len(value).to_bytes(2, "big") + value


def name(text):
    """A field that holds a name."""
    return field(0x10, text)


def schema(text, *inside):
    """A schema with its declarations and constraints, already coded."""
    return field(0x01, name(text) + b"".join(inside))


def simple(text, place=2):
    """A type that is a simple one."""
    return field(0x20, name(text) + field(0x21, bytes([place])))


def enumeration(text):
    """A type that is an enumeration."""
    return field(0x20, name(text) + field(0x22))


def alias(text, target):
    """A type named after another."""
    return field(0x20, name(text) + field(0x23, target))


def other(text):
    """A type of any other kind."""
    return field(0x20, name(text) + field(0x24))


def subtype_of(*supertypes):
    """SUBTYPE OF these."""
    return field(0x34, b"".join(map(name, supertypes)))


def rule(expression):
    """An entity's supertype rule."""
    return field(0x31, expression)


def entity(text, *marks):
    """An entity with its marks, already coded."""
    return field(0x30, name(text) + b"".join(marks))


def constraint(text, expression=b""):
    """A subtype constraint, with or without an expression."""
    return field(0x40, name(text) + expression)


def ref(text):
    """A reference by name."""
    return field(0x50, text)


def number_ref(index):
    """A reference by index, as `eval` has it."""
    return field(0x50, index.to_bytes(2, "big"))


def andor(*terms):
    """ANDOR of coded expressions."""
    return field(0x51, b"".join(terms))


def and_(*terms):
    """AND of coded expressions."""
    return field(0x52, b"".join(terms))


def oneof(*terms):
    """ONEOF of coded expressions."""
    return field(0x53, b"".join(terms))


def steps(*pairs):
    """A query's steps, (tag, name) each."""
    return b"".join(field(tag, text) for tag, text in pairs)


def path(schema_text, tag, item):
    """The query of an item in a schema."""
    return steps((SCHEMA, schema_text), (tag, item))


def row(indices):
    """The row of rising indices."""
    return [len(indices), *indices] + [0] * (ROW - 1 - len(indices))


def rows(parts):
    """The numbers of several rows."""
    return [number for part in parts for number in row(part)]


def word(value):
    """A word of the protocol: bytes, u16 numbers, or a decimal number."""
    if isinstance(value, int):
        return str(value)
    if isinstance(value, list):
        return "".join(f"{number:04x}" for number in value) or "-"
    return value.hex() or "-"


def question(asked, *values):
    """A line of question."""
    return " ".join([asked, *map(word, values)])
