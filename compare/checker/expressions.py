"""What an expression can build."""

from . import verdict as v
from .algebra import and_, andor, oneof, tidy
from .fields import field_at

OPERATORS = {v.ONEOF: oneof, v.AND: and_, v.ANDOR: andor}


def evaluate(expression, number_of):
    """The sorted list of an expression of (tag, reference, terms)."""
    return tidy(_value(expression, number_of))


def _value(expression, number_of):
    """Children left to right, then 9, 10, 11 at the node."""
    tag, reference, terms = expression
    if tag == v.REFERENCE:
        return {frozenset([number_of(reference)])}
    return OPERATORS[tag]([_value(term, number_of) for term in terms])


def of_indices(data):
    """An expression in the sheet's field coding, whose references hold an index each."""
    return _inside(data, 0, len(data))[0]


def _inside(data, at, end):
    terms = []
    while at < end:
        tag, start, stop = field_at(data, at, end)
        if tag == v.REFERENCE:
            terms.append((tag, int.from_bytes(data[start:stop], "big"), []))
        else:
            terms.append((tag, None, _inside(data, start, stop)))
        at = stop
    return terms
