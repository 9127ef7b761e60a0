"""The numbering of declarations, `resolve` and `get`."""

from collections import namedtuple

from .queries import ENTITY, SCHEMA, TYPE, Path
from .refusal import Refused

Declaration = namedtuple("Declaration", "path schema item")


def scope_of(schema):
    """The scope in which a schema's names stand."""
    return ((SCHEMA, schema.name.text),)


class Names:
    """The declarations of a sheet, numbered from 0: by schema, types then entities."""

    def __init__(self, schemas):
        self.declarations = []
        self.numbers = {}  # of the first declaration of a path
        self.seen = {}  # by scope, of the last schema with that name
        for schema in schemas:
            self.seen[scope_of(schema)] = {}
            for kind, items in ((TYPE, schema.types), (ENTITY, schema.entities)):
                for item in items:
                    self._declare(schema, kind, item)

    def _declare(self, schema, kind, item):
        scope, name = scope_of(schema), item.name.text
        path, number = Path(scope, kind, name), len(self.declarations)
        self.declarations.append(Declaration(path, schema, item))
        self.numbers.setdefault(path, number)
        self.seen[scope].setdefault(name, number)

    def resolve(self, scope, name, place):
        """The number of the first equal name in the scope, else one step further out."""
        for length in range(len(scope), -1, -1):
            number = self.seen.get(scope[:length], {}).get(name)
            if number is not None:
                return number
        raise Refused(6, place)

    def resolve_path(self, schema, name):
        """The path that a name in a schema of the sheet stands for."""
        return self.declarations[self.resolve(scope_of(schema), *name)].path

    def get(self, path):
        """The number of the first declaration with an equal path."""
        if path not in self.numbers:
            raise Refused(7)
        return self.numbers[path]

    def declaration(self, index):
        """The declaration of a number."""
        if index >= len(self.declarations):
            raise Refused(15)
        return self.declarations[index]
