"""What tools/compare makes for canonical decoding: of an encoding other spellings of the same message, each with one change."""
from google.protobuf.descriptor import FieldDescriptor as Field

from compare_inputs import DELIMITED, FIXED64, GROUP, VARINT, Walk, is_map, padded, records, varint, varint_at, written_record

FIXED = {Field.TYPE_FIXED32: 4, Field.TYPE_SFIXED32: 4, Field.TYPE_FLOAT: 4, Field.TYPE_FIXED64: 8, Field.TYPE_SFIXED64: 8, Field.TYPE_DOUBLE: 8}
IN_BYTES = (Field.TYPE_STRING, Field.TYPE_BYTES, Field.TYPE_MESSAGE, Field.TYPE_GROUP)


def is_list(field):
    return field.label == Field.LABEL_REPEATED and not is_map(field)


class Respelled(Walk):
    """Changes the records of one of the messages that are met, of those that a change is for."""

    def __init__(self, chance, encoded, change):
        super().__init__(chance, encoded)
        self.change, self.at, self.met = change, None, 0

    def message(self, kind, encoding):
        made = kind and self.change(self.chance, self.encoded, kind, list(records(encoding)))
        if not made:
            return super().message(kind, encoding)
        self.met += 1
        return made if self.met - 1 == self.at else super().message(kind, encoding)


class Longer(Walk):
    """Writes one tag or length in one byte more."""

    def __init__(self, chance, encoded):
        super().__init__(chance, encoded)
        self.at, self.met = None, 0

    def tag(self, tag):
        self.met += 1
        made = varint(tag)
        return padded(made, len(made) + 1) if self.met - 1 == self.at else made

    length = tag


def record_text(number, wire, payload):
    return written_record(number, wire, payload) + (varint(number << 3 | 4) if wire == GROUP else b"")


def text_of(found):
    return b"".join(record_text(*it) for it in found)


def longer_value(chance, encoded, kind, found):
    """A number in one byte more."""
    places = [at for at, (_, wire, payload) in enumerate(found) if wire == VARINT and len(payload) < 10]
    if not places:
        return b""
    at = chance.choice(places)
    number, wire, payload = found[at]
    return text_of([*found[:at], (number, wire, padded(payload, len(payload) + 1)), *found[at + 1 :]])


def swapped(chance, encoded, kind, found):
    """Two fields that stand beside each other swapped, of two numbers or of a map."""
    fields = kind.fields_by_number
    places = [at for at, (one, other) in enumerate(zip(found, found[1:])) if one[0] != other[0] or one[0] in fields and is_map(fields[one[0]])]
    if not places:
        return b""
    at = chance.choice(places)
    return text_of([*found[:at], found[at + 1], found[at], *found[at + 2 :]])


def twice(chance, encoded, kind, found):
    """A field twice that is no element of a list; one that is held as an encoding has one for each time that it came."""
    fields = kind.fields_by_number
    places = [at for at, it in enumerate(found) if it[0] in fields and not is_list(fields[it[0]]) and fields[it[0]].full_name not in encoded]
    if not places:
        return b""
    at = chance.choice(places)
    return text_of([*found[: at + 1], *found[at:]])


def default(chance, encoded, kind, found):
    """A default that stands where none is written."""
    there = {it[0] for it in found}
    absent = [it for it in kind.fields if it.label != Field.LABEL_REPEATED and not it.has_presence and it.number not in there]
    if not absent or kind.GetOptions().map_entry:
        return b""
    field = chance.choice(absent)
    size = FIXED.get(field.type)
    wire = DELIMITED if field.type in IN_BYTES else VARINT if not size else FIXED64 if size == 8 else 5
    payload = b"" if wire == DELIMITED else bytes(size or 1)
    return text_of(sorted([*found, (field.number, wire, payload)], key=lambda it: it[0]))


def parted(chance, encoded, kind, found):
    """A packed list in two, or one that holds nothing before it."""
    places = []
    for at, (number, wire, _) in enumerate(found):
        field = kind.fields_by_number.get(number)
        if field and is_list(field) and wire == DELIMITED and field.type not in IN_BYTES:
            places.append(at)
    if not places:
        return b""
    at = chance.choice(places)
    number, wire, payload = found[at]
    end = FIXED.get(kind.fields_by_number[number].type) or varint_at(payload, 0)[1]
    cut = chance.choice((0, end))
    return text_of([*found[:at], (number, wire, payload[:cut]), (number, wire, payload[cut:]), *found[at + 1 :]])


CHANGES = {"longer value": longer_value, "swapped": swapped, "twice": twice, "default": default, "parted": parted}


def spellings(chance, encoded, kind, encoding):
    """Other spellings of a message, each with the name of its change; none of a change that nothing in it is for."""
    for name in ("longer", *CHANGES):
        made = Longer(chance, encoded) if name == "longer" else Respelled(chance, encoded, CHANGES[name])
        made.message(kind, encoding)
        if made.met:
            made.at, made.met = chance.randrange(made.met), 0
            yield name, made.message(kind, encoding)
