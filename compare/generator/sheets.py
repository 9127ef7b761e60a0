"""Random sheets, small and of every shape that document 01 allows."""

from collections import namedtuple

from . import coding as c

SCHEMA_NAMES = [b"s", b"t", b"S"]
ITEM_NAMES = [b"a", b"b", b"c", b"d", b"e", b"f", b"A", b"a_1"]
SCHEMA_COUNTS = [1] * 15 + [0, 2, 2, 2, 2, 3, 3, 3, 8]
DEEPEST = 5
UNKNOWN = [b"zz", b"zzz", b"ZZ"]

Schema = namedtuple("Schema", "name types entities supertypes")
Sheet = namedtuple("Sheet", "data schemas")
NO_SCHEMA = Schema(b"s", [], [], [])


def sheet(rng, most_types=3, most_entities=6):
    """A sheet that the verdict accepts, and what it declares."""
    schemas = [Schema(rng.choice(SCHEMA_NAMES), _names(rng, most_types),
                      _names(rng, most_entities), [])
               for _ in range(rng.choice(SCHEMA_COUNTS))]
    data = b"".join(_coded(rng, schema, schemas) for schema in schemas)
    return Sheet(data, schemas)


def _names(rng, most):
    """Some names, seldom the same twice."""
    chosen = rng.sample(ITEM_NAMES, rng.randrange(most + 1))
    if chosen and rng.random() < 0.08:
        chosen.append(rng.choice(chosen))
    return chosen


def _coded(rng, schema, schemas):
    """One schema; its names are mostly those that the last of its name declares."""
    last = [other for other in schemas if other.name == schema.name][-1]
    known = (last.entities * 3 + last.types) or UNKNOWN
    types = [_type(rng, name, last) for name in schema.types]
    entities = [_entity(rng, name, known, schema.supertypes) for name in schema.entities]
    constraints = [_constraint(rng, known, schema.supertypes)
                   for _ in range(rng.choice([0, 0, 0, 1, 1, 2, 3]))]
    return c.schema(schema.name, *types, *entities, *constraints)


def _pick(rng, known):
    """A name that is nearly always known."""
    return rng.choice(UNKNOWN if rng.random() < 0.006 else known)


def _type(rng, name, last):
    kind = rng.randrange(8)
    if kind == 0:
        return c.simple(name, rng.randrange(7))
    if kind == 1:
        return c.enumeration(name)
    if kind == 2:
        return c.other(name)
    return c.alias(name, _pick(rng, last.types * 3 + last.entities or UNKNOWN))


def _entity(rng, name, known, supertypes):
    """An entity; notes which names it makes supertypes."""
    marks = []
    kind = rng.randrange(8)
    if kind <= 1:
        marks.append(c.rule(expression(rng, known)))
        supertypes.append(name)
    elif kind == 2:
        marks.append(c.field(0x32))
    elif kind == 3:
        marks.append(c.field(0x33, expression(rng, known) if rng.random() < 0.5 else b""))
    if rng.random() < 0.6:
        above = [_pick(rng, known) for _ in range(rng.choice([0, 1, 1, 1, 2, 3]))]
        marks.append(c.subtype_of(*above))
        supertypes.extend(above)
    return c.entity(name, *marks)


def _constraint(rng, known, supertypes):
    """A constraint; notes its entity among the supertypes."""
    name = _pick(rng, known)
    supertypes.append(name)
    return c.constraint(name, expression(rng, known) if rng.random() < 0.85 else b"")


def expression(rng, known):
    """A random expression over known names."""
    return shape(rng, lambda: c.ref(_pick(rng, known)), DEEPEST)


def shape(rng, leaf, depth):
    """A random expression over leaves, at most so deep; empty and lone terms are rare."""
    if depth == 1 or rng.random() < 0.35:
        return leaf()
    make = rng.choice([c.andor, c.and_, c.oneof])
    count = rng.choice([2, 2, 2, 2, 2, 2, 3, 3, 3, 4] if rng.random() < 0.94 else [0, 1, 5, 6])
    return make(*[shape(rng, leaf, depth - 1 if rng.random() < 0.6 else min(depth - 1, 2))
                  for _ in range(count)])


def wide_shape(rng, leaf):
    """A random expression round 12 factors, 12 names and 128 parts."""
    make, most = rng.choice([(c.andor, 9), (c.and_, 14), (c.oneof, 14)])
    wide = make(*[leaf() for _ in range(rng.randrange(5, most + 1))])
    if rng.random() < 0.5:
        return wide
    return rng.choice([c.and_, c.oneof, c.andor])(wide, shape(rng, leaf, 3))


def wide_sheet(rng):
    """Schema s: fourteen entities, then x with a rule round the limits of lists."""
    names = [b"e%d" % number for number in range(14)]
    rule = c.rule(wide_shape(rng, lambda: c.ref(rng.choice(names))))
    data = c.schema(b"s", *map(c.entity, names), c.entity(b"x", rule))
    return Sheet(data, [Schema(b"s", [], [b"x"], [b"x"])])


def supertype_path(rng, made):
    """A query for a path of the sheet, mostly a supertype's."""
    schema = _some_schema(rng, made)
    names = schema.supertypes if rng.random() < 0.9 else schema.entities
    item = _some_name(rng, names)
    is_type = item in schema.types and rng.random() < 0.7
    return c.path(schema.name, _some_tag(rng, c.TYPE if is_type else c.ENTITY), item)


def type_path(rng, made):
    """A query for a path of the sheet, mostly a type's."""
    schema = _some_schema(rng, made)
    tag, names = ((c.TYPE, schema.types), (c.ENTITY, schema.entities))[rng.random() < 0.1]
    return c.path(schema.name, _some_tag(rng, tag), _some_name(rng, names))


def _some_schema(rng, made):
    return rng.choice(made.schemas) if made.schemas else NO_SCHEMA


def _some_name(rng, names):
    return rng.choice(names) if names and rng.random() < 0.97 else rng.choice(ITEM_NAMES)


def _some_tag(rng, tag):
    return tag if rng.random() < 0.95 else rng.randrange(0x60, 0x6a)
