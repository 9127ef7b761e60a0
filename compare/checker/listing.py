"""The text of the listing program."""

from .expressions import evaluate
from .gathering import gather
from .names import Names
from .queries import TYPE
from .refusal import Refused
from .tree import read
from .type_refs import type_flags


def listing(data):
    """The lines for a sheet; a refusal before the first item prints that alone."""
    try:
        schemas = read(data)
        names = Names(schemas)
        combined = gather(schemas, names)
    except Refused as refusal:
        return f"refused {refusal.number} {refusal.place}\n"
    lines = []
    for path, expression in combined.items():
        lines += _supertype_lines(path, expression, names)
    for declaration in names.declarations:
        if declaration.path.kind == TYPE:
            lines.append(_type_line(declaration.path, names))
    return "".join(line + "\n" for line in lines)


def _supertype_lines(path, expression, names):
    try:
        parts = evaluate(expression, names.get)
    except Refused as refusal:
        return [f"supertype {_shown(path)} refused {refusal.number}"]
    numbered = [f"{number} {_shown_part(part, names)}" for number, part in enumerate(parts)]
    return [f"supertype {_shown(path)} {len(parts)}", *numbered]


def _shown_part(part, names):
    return ",".join(_shown(names.declaration(index).path) for index in sorted(part))


def _type_line(path, names):
    try:
        flags = " ".join(type_flags(path, names))
    except Refused as refusal:
        flags = f"refused {refusal.number}"
    return f"type {_shown(path)} {flags}"


def _shown(path):
    steps = [name for _, name in path.scope]
    return b".".join([*steps, path.name]).decode("ascii")
