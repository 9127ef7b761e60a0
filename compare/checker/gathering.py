"""Gathering: the combined expression of every supertype, by steps b, d and c."""

from collections import namedtuple

from . import verdict as v
from .names import scope_of
from .queries import ENTITY, Path
from .refusal import Refused

Expression = namedtuple("Expression", "tag reference terms")  # the reference is a path


def gather(schemas, names):
    """Expressions by path, in order of first entry (b, d, c)."""
    combined = {}
    _rules(schemas, names, combined)
    _constraints(schemas, names, combined)
    _subtypes(schemas, names, combined)
    return combined


def _rules(schemas, names, combined):
    """Step b: each rule gives its entity an expression; a second one is refused."""
    for schema in schemas:
        for entity in schema.entities:
            if entity.rule is None:
                continue
            expression = _resolved(schema, entity.rule, names)
            path = Path(scope_of(schema), ENTITY, entity.name.text)
            if path in combined:
                raise Refused(8, entity.place)
            combined[path] = expression


def _constraints(schemas, names, combined):
    """Step d: each constraint with an expression is merged into its entity's."""
    for schema in schemas:
        for constraint in schema.constraints:
            if constraint.expression is None:
                continue
            path = names.resolve_path(schema, constraint.entity)
            expression = _resolved(schema, constraint.expression, names)
            combined[path] = merged(combined.get(path), expression)


def _subtypes(schemas, names, combined):
    """Step c: subtypes that do not occur in the expression are merged as one ANDOR."""
    subtypes = {}
    for schema in schemas:
        for entity in schema.entities:
            for name in entity.supertypes:
                supertype = names.resolve_path(schema, name)
                subtype = Path(scope_of(schema), ENTITY, entity.name.text)
                subtypes.setdefault(supertype, []).append(subtype)
    for supertype, paths in subtypes.items():
        known = combined.get(supertype)
        missing = [path for path in paths if known is None or not occurs(path, known)]
        if missing:
            terms = [Expression(v.REFERENCE, path, []) for path in missing]
            combined[supertype] = merged(known, Expression(v.ANDOR, None, terms))


def _resolved(schema, expression, names):
    """An expression of the sheet with its names resolved, left to right."""
    if expression.tag == v.REFERENCE:
        return Expression(v.REFERENCE, names.resolve_path(schema, expression.name), [])
    terms = [_resolved(schema, term, names) for term in expression.terms]
    return Expression(expression.tag, None, terms)


def occurs(path, expression):
    """The path is named somewhere in the expression."""
    return expression.reference == path or any(occurs(path, term) for term in expression.terms)


def merged(old, new):
    """ANDORs are joined, others become factors of one; nothing takes the new as it is."""
    if old is None:
        return new
    return Expression(v.ANDOR, None, _factors(old) + _factors(new))


def _factors(expression):
    return expression.terms if expression.tag == v.ANDOR else [expression]
