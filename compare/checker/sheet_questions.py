"""The questions on sheets: names, supertypes, types and the listing."""

from collections import namedtuple
from functools import lru_cache

from . import queries, rows, type_refs
from .expressions import evaluate
from .gathering import gather
from .listing import listing
from .names import Names
from .protocol import Question, data_of, hex_bytes, numbers_of
from .refusal import Refused
from .row_questions import list_answer, one_row
from .tree import read
from .verdict import LONGEST_SHEET

LEAST_WORKSPACE = 32768

Sheet = namedtuple("Sheet", "schemas names")


@lru_cache(maxsize=8)  # neighbouring questions often share a sheet
def _accepted(word):
    schemas = read(data_of(word))
    return Sheet(schemas, Names(schemas))


def sheet_of(word, room=None):
    """An accepted sheet: 1, then 2 where a workspace is lent, then the sheet's faults."""
    if len(data_of(word)) > LONGEST_SHEET:
        raise Refused(1)
    if room is not None and int(room) < LEAST_WORKSPACE:
        raise Refused(2)
    return _accepted(word)


def verdict(sheet):
    """Whether the sheet is accepted."""
    sheet_of(sheet)
    return [], []


def resolve(sheet, query):
    """The number of the declaration that a name in a scope stands for."""
    names = sheet_of(sheet).names
    return [str(names.resolve(*queries.reference(data_of(query))))], []


def get(sheet, query):
    """The number of the first declaration with a path."""
    names = sheet_of(sheet).names
    return [str(names.get(queries.path(data_of(query))))], []


def as_path(sheet, index):
    """Whether a number is declared."""
    sheet_of(sheet).names.declaration(int(index))
    return [], []


def _name_or_nothing(sheet, index, choose):
    """A name's part of the sheet; refused, the part is empty."""
    try:
        return [hex_bytes(choose(sheet_of(sheet).names.declaration(int(index))))], []
    except Refused:
        return ["-"], []


def schema_name(sheet, index):
    """The name of a declaration's schema."""
    return _name_or_nothing(sheet, index, lambda declared: declared.schema.name.text)


def item_name(sheet, index):
    """The name of a declaration."""
    return _name_or_nothing(sheet, index, lambda declared: declared.item.name.text)


def scope_order(left, right):
    """The order of two scopes."""
    left, right = (queries.scope(data_of(word)) for word in (left, right))
    return [queries.order(left, right)], []


def _gathered(sheet):
    return gather(sheet.schemas, sheet.names)


def _supertype_list(sheet, path):
    expression = _gathered(sheet).get(path)
    if expression is None:
        raise Refused(16)
    return evaluate(expression, sheet.names.get)


def is_supertype(sheet, query, room):
    """Whether a path has an expression."""
    sheet = sheet_of(sheet, room)
    path = queries.path(data_of(query))
    return [type_refs.flag(path in _gathered(sheet))], []


def supertype(sheet, number, room):
    """The number of the supertype that entered at this place."""
    sheet = sheet_of(sheet, room)
    paths = list(_gathered(sheet))
    if int(number) >= len(paths):
        raise Refused(17)
    return [str(sheet.names.get(paths[int(number)]))], []


def list_of_supertype(sheet, query, room, buffer):
    """The list of a supertype."""
    sheet = sheet_of(sheet, room)
    path = queries.path(data_of(query))
    return list_answer(_supertype_list(sheet, path), buffer)


def number_of(sheet, query, row, room):
    """Row to number."""
    sheet = sheet_of(sheet, room)
    path = queries.path(data_of(query))
    part = rows.read_part(numbers_of(row))
    parts = _supertype_list(sheet, path)
    if part not in parts:
        raise Refused(17)
    return [str(parts.index(part))], []


def set_at(sheet, query, number, room, buffer):
    """Number to row."""
    sheet = sheet_of(sheet, room)
    path = queries.path(data_of(query))
    parts = _supertype_list(sheet, path)
    if int(number) >= len(parts):
        raise Refused(17)
    return one_row(parts[int(number)], buffer)


def from_path(sheet, query, room):
    """What a path refers to."""
    sheet = sheet_of(sheet, room)
    path = queries.path(data_of(query))
    return type_refs.from_path(path, sheet.names, _gathered(sheet)), []


def listing_text(sheet):
    """What the listing program prints."""
    return [hex_bytes(listing(data_of(sheet)).encode("ascii"))], []


QUESTIONS = {
    "verdict": Question(verdict),
    "resolve": Question(resolve),
    "get": Question(get),
    "as_path": Question(as_path),
    "schema_name": Question(schema_name),
    "item_name": Question(item_name),
    "scope_order": Question(scope_order),
    "is_supertype": Question(is_supertype, workspace=True),
    "supertype": Question(supertype, workspace=True),
    "list": Question(list_of_supertype, buffer=True, workspace=True),
    "number_of": Question(number_of, workspace=True),
    "set_at": Question(set_at, buffer=True, workspace=True),
    "from_path": Question(from_path, workspace=True),
    "listing": Question(listing_text),
}
