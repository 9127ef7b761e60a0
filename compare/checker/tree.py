"""An accepted sheet as schemas, types, entities and constraints."""

from collections import namedtuple

from . import verdict as v
from .fields import HEADER

Name = namedtuple("Name", "text place")  # the place of its first byte
Schema = namedtuple("Schema", "name types entities constraints")
Type = namedtuple("Type", "name kind target")  # the target of a named type
Entity = namedtuple("Entity", "name place rule supertypes")
Constraint = namedtuple("Constraint", "entity expression")
Expression = namedtuple("Expression", "tag name terms")


def read(data):
    """The schemas of a sheet; raises its first refusal."""
    return [_schema(field) for field in v.check(data)]


def _named(field):
    return Name(field.value, field.place + HEADER)


def _of_tags(fields, *tags):
    return [field for field in fields if field.tag in tags]


def _schema(field):
    return Schema(
        _named(field.inside[0]),
        [_type(inner) for inner in _of_tags(field.inside, v.TYPE)],
        [_entity(inner) for inner in _of_tags(field.inside, v.ENTITY)],
        [_constraint(inner) for inner in _of_tags(field.inside, v.CONSTRAINT)],
    )


def _type(field):
    name, underlying = field.inside
    target = _named(underlying) if underlying.tag == v.NAMED else None
    return Type(_named(name), underlying.tag, target)


def _entity(field):
    """Fields 32 and 33 give no rule."""
    rules = [_only_expression(mark) for mark in _of_tags(field.inside, v.RULE)]
    supertypes = [_named(name) for part in _of_tags(field.inside, v.SUBTYPE_OF)
                  for name in part.inside]
    return Entity(_named(field.inside[0]), field.place, rules[0] if rules else None, supertypes)


def _constraint(field):
    return Constraint(_named(field.inside[0]), _only_expression(field))


def _only_expression(field):
    found = _of_tags(field.inside, *v.EXPRESSIONS)
    return _expression(found[0]) if found else None


def _expression(field):
    name = _named(field) if field.tag == v.REFERENCE else None
    return Expression(field.tag, name, [_expression(term) for term in field.inside])
