"""What kinds of accepted sheet there are, to count by."""

from . import verdict as v
from .names import scope_of
from .queries import TYPE
from .refusal import Refused
from .sheet_questions import sheet_of
from .type_refs import type_flags


def kinds_of(word):
    """The names of the kinds that an accepted sheet belongs to."""
    sheet = sheet_of(word)
    return [kind for kind, holds in KINDS.items() if holds(sheet)]


def _repeats(items):
    items = list(items)
    return len(set(items)) < len(items)


def _double_paths(sheet):
    return _repeats(declaration.path for declaration in sheet.names.declarations)


def _types_and_entities_share(sheet):
    return any({item.name.text for item in schema.types}
               & {item.name.text for item in schema.entities} for schema in sheet.schemas)


def _constraint_on_type(sheet):
    return any(sheet.names.seen[scope_of(schema)].get(constraint.entity.text)
               in _type_numbers(sheet) for schema in sheet.schemas
               for constraint in schema.constraints)


def _type_numbers(sheet):
    declared = enumerate(sheet.names.declarations)
    return {number for number, declaration in declared if declaration.path.kind == TYPE}


def _expressions(sheet):
    waiting = [entity.rule for schema in sheet.schemas for entity in schema.entities]
    waiting += [made.expression for schema in sheet.schemas for made in schema.constraints]
    while waiting:
        expression = waiting.pop()
        if expression is not None:
            yield expression
            waiting += expression.terms


def _with_empty(tag):
    return lambda sheet: any(expression.tag == tag and not expression.terms
                             for expression in _expressions(sheet))


def _alias_loop(sheet):
    return any(_loops(sheet, declaration.path) for declaration in sheet.names.declarations)


def _loops(sheet, path):
    if path.kind != TYPE:
        return False
    try:
        type_flags(path, sheet.names)
    except Refused as refusal:
        return refusal.number == 13
    return False


KINDS = {
    "no schema": lambda sheet: not sheet.schemas,
    "several schemas": lambda sheet: len(sheet.schemas) > 1,
    "schemas that share a name": lambda sheet: _repeats(map(scope_of, sheet.schemas)),
    "two declarations of a path": _double_paths,
    "a type and an entity that share a name": _types_and_entities_share,
    "a constraint on a type": _constraint_on_type,
    "a supertype rule": lambda sheet: any(entity.rule for schema in sheet.schemas
                                          for entity in schema.entities),
    "SUBTYPE OF": lambda sheet: any(entity.supertypes for schema in sheet.schemas
                                    for entity in schema.entities),
    "an empty ONEOF": _with_empty(v.ONEOF),
    "an empty AND": _with_empty(v.AND),
    "an empty ANDOR": _with_empty(v.ANDOR),
    "an alias": lambda sheet: any(made.target for schema in sheet.schemas for made in schema.types),
    "an alias loop": _alias_loop,
}
