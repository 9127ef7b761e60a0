"""The verdict on a sheet: refusals 1, 3, 4 and 5, or its fields as they nest."""

from collections import Counter, namedtuple

from .fields import field_at, is_name
from .refusal import Refused

LONGEST_SHEET = 65535

SHEET = None  # the parent of the schemas
SCHEMA, NAME, TYPE, ENTITY, CONSTRAINT = 0x01, 0x10, 0x20, 0x30, 0x40
SIMPLE, ENUMERATION, NAMED, OTHER = 0x21, 0x22, 0x23, 0x24
RULE, ABSTRACT_ENTITY, ABSTRACT_SUPERTYPE, SUBTYPE_OF = 0x31, 0x32, 0x33, 0x34
REFERENCE, ANDOR, AND, ONEOF = 0x50, 0x51, 0x52, 0x53
EXPRESSIONS = (REFERENCE, ANDOR, AND, ONEOF)

Slot = namedtuple("Slot", "tags least most")
MANY = LONGEST_SHEET


def one(*tags):
    """A slot that needs one field of these tags."""
    return Slot(tags, 1, 1)


def maybe(*tags):
    """A slot for at most one field of these tags."""
    return Slot(tags, 0, 1)


def many(*tags):
    """A slot for any number of fields of these tags."""
    return Slot(tags, 0, MANY)


SLOTS = {
    SHEET: (many(SCHEMA),),
    SCHEMA: (one(NAME), many(TYPE), many(ENTITY), many(CONSTRAINT)),
    TYPE: (one(NAME), one(SIMPLE, ENUMERATION, NAMED, OTHER)),
    ENTITY: (one(NAME), maybe(RULE, ABSTRACT_ENTITY, ABSTRACT_SUPERTYPE), maybe(SUBTYPE_OF)),
    RULE: (one(*EXPRESSIONS),),
    ABSTRACT_SUPERTYPE: (maybe(*EXPRESSIONS),),
    SUBTYPE_OF: (many(NAME),),
    CONSTRAINT: (one(NAME), maybe(*EXPRESSIONS)),
    ANDOR: (many(*EXPRESSIONS),),
    AND: (many(*EXPRESSIONS),),
    ONEOF: (many(*EXPRESSIONS),),
}

HOLDS_NAME = (NAME, NAMED, REFERENCE)
HOLDS_NOTHING = (ENUMERATION, OTHER, ABSTRACT_ENTITY)
SIMPLE_TYPES = 7

LIMITS = {"schemas": 8, "declarations": 256, "constraints": 64, "expressions": 512}
DEEPEST = 5

Field = namedtuple("Field", "tag place value inside")


def check(data):
    """The fields of an accepted sheet; raises its first refusal."""
    if len(data) > LONGEST_SHEET:
        raise Refused(1)
    return _Walk(data).inside(SHEET, 0, len(data), 0)


class _Walk:
    """One walk over a sheet, depth first, counting what has a limit."""

    def __init__(self, data):
        self.data = data
        self.counts = Counter()

    def inside(self, parent, at, end, depth):
        """The fields from a place to the parent's end."""
        slots = _Slots(SLOTS[parent])
        fields = []
        while at < end:
            found = field_at(self.data, at, end)
            if found is None or not slots.admit(found[0]):
                raise Refused(3, at)
            tag, start, stop = found
            fields.append(self.field(parent, at, tag, (start, stop), depth))
            at = stop
        if not slots.complete():
            raise Refused(3, end)
        return fields

    def field(self, parent, at, tag, span, depth):
        """One field that may stand here: 3, 4, 5 at it, then what is inside it."""
        value = self.data[slice(*span)]
        _check_value(tag, value, at)
        self.count(parent, tag, at)
        if tag in EXPRESSIONS:
            depth += 1
            if depth > DEEPEST:
                raise Refused(5, at)
        inside = self.inside(tag, *span, depth) if tag in SLOTS else []
        return Field(tag, at, value, inside)

    def count(self, parent, tag, at):
        """Refuses the first field beyond a counted limit."""
        kind = _counted_as(parent, tag)
        if kind is None:
            return
        self.counts[kind] += 1
        if self.counts[kind] > LIMITS[kind]:
            raise Refused(5, at)


class _Slots:
    """Which of a parent's slots the fields have reached."""

    def __init__(self, slots):
        self.slots = slots
        self.at = 0
        self.used = 0

    def admit(self, tag):
        """Takes a field of this tag into its slot, if it may come next."""
        while self.at < len(self.slots):
            slot = self.slots[self.at]
            if tag in slot.tags and self.used < slot.most:
                self.used += 1
                return True
            if self.used < slot.least:
                return False
            self.at, self.used = self.at + 1, 0
        return False

    def complete(self):
        """No needed field is missing."""
        later = self.slots[self.at + 1:]
        here_done = self.at == len(self.slots) or self.used >= self.slots[self.at].least
        return here_done and all(slot.least == 0 for slot in later)


def _check_value(tag, value, at):
    """Lengths and bytes of a field's own value: 3, or 4 for a name."""
    if tag == SIMPLE and (len(value) != 1 or value[0] >= SIMPLE_TYPES):
        raise Refused(3, at)
    if tag in HOLDS_NOTHING and value:
        raise Refused(3, at)
    if tag in HOLDS_NAME and not is_name(value):
        raise Refused(4, at)


def _counted_as(parent, tag):
    """The limit that a field counts for."""
    if tag in EXPRESSIONS or parent == SUBTYPE_OF:
        return "expressions"
    return {SCHEMA: "schemas", TYPE: "declarations", ENTITY: "declarations",
            CONSTRAINT: "constraints"}.get(tag)
