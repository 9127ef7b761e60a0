"""Path queries, scope queries and `resolve` queries; their refusal 15."""

from collections import namedtuple

from .fields import HEADER, field_at, is_name
from .refusal import Refused

FIRST_STEP, LAST_STEP, NAME = 0x60, 0x69, 0x10
ENTITY, SCHEMA, TYPE = 0, 7, 9  # places in ScopeType's declaration
MOST_IN_SCOPE = 3

Path = namedtuple("Path", "scope kind name")  # the scope is steps of kind and name


def _good_field(query, at, tags):
    """The tag, name and end of a query's field; 15 where it is bad."""
    found = field_at(query, at, len(query))
    if found is None or found[0] not in tags or not is_name(query[found[1]:found[2]]):
        raise Refused(15, at)
    return found[0], query[found[1]:found[2]], found[2]


def _steps(query, most, more_tags=()):
    """Up to so many steps from the front, and the place after them."""
    steps, at = [], 0
    while at < len(query) and len(steps) < most and query[at] not in more_tags:
        tag, name, at = _good_field(query, at, range(FIRST_STEP, LAST_STEP + 1))
        steps.append((tag - FIRST_STEP, name))
    return tuple(steps), at


def scope(query):
    """The scope that a scope query tells."""
    steps, at = _steps(query, MOST_IN_SCOPE)
    if at < len(query):
        raise Refused(15, at)
    return steps


def path(query):
    """The path that a path query tells."""
    steps, at = _steps(query, MOST_IN_SCOPE + 1)
    if at < len(query) or not steps:
        raise Refused(15, at)
    return Path(steps[:-1], *steps[-1])


def reference(query):
    """The scope, name and name's place that a `resolve` query tells."""
    steps, at = _steps(query, MOST_IN_SCOPE, (NAME,))
    if at == len(query):
        raise Refused(15, at)
    _, name, end = _good_field(query, at, (NAME,))
    if end < len(query):
        raise Refused(15, end)
    return steps, name, at + HEADER


def order(left, right):
    """A scope is greater than every longer scope that starts with it; else none."""
    if left == right:
        return "0"
    if right[:len(left)] == left:
        return "1"
    return "-1" if left[:len(right)] == right else "none"
