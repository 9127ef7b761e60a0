"""The question `from_path` on a declared or undeclared path."""

from . import verdict as v
from .queries import ENTITY, TYPE
from .refusal import Refused

SIMPLE_ENDS = (v.SIMPLE, v.ENUMERATION)


def from_path(path, names, supertypes):
    """The words that tell what a path refers to."""
    if path.kind == ENTITY:
        return ["entity", flag(path in supertypes)]
    if path.kind != TYPE:
        raise Refused(14)
    return ["named", *type_flags(path, names)]


def type_flags(path, names):
    """A type's simple flag, and its enumeration flag, which looks at the first type only."""
    simple = _ends_simple(path, names)
    first = names.declaration(names.get(path)).item
    return [flag(simple), flag(first.kind == v.ENUMERATION)]


def _ends_simple(path, names):
    """The walk through named types: simple at 21 and 22, not at 24 or an entity."""
    met = set()
    while path.kind == TYPE:
        if path in met:
            raise Refused(13)
        met.add(path)
        declaration = names.declaration(names.get(path))
        if declaration.item.kind != v.NAMED:
            return declaration.item.kind in SIMPLE_ENDS
        path = names.resolve_path(declaration.schema, declaration.item.target)
    return False


def flag(truth):
    """0 or 1."""
    return "1" if truth else "0"
