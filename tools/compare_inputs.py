"""The inputs of tools/compare: instances of messages by chance, and what is made of their encodings."""
import collections
import random
import struct
from typing import NamedTuple, Optional

from google.protobuf.descriptor import FieldDescriptor as Field

INTEGERS = {
    **dict.fromkeys((Field.TYPE_INT32, Field.TYPE_SINT32, Field.TYPE_SFIXED32), (-(2**31), 2**31 - 1)),
    **dict.fromkeys((Field.TYPE_INT64, Field.TYPE_SINT64, Field.TYPE_SFIXED64), (-(2**63), 2**63 - 1)),
    **dict.fromkeys((Field.TYPE_UINT32, Field.TYPE_FIXED32), (0, 2**32 - 1)),
    **dict.fromkeys((Field.TYPE_UINT64, Field.TYPE_FIXED64), (0, 2**64 - 1)),
}
REALS = {Field.TYPE_FLOAT: "<f", Field.TYPE_DOUBLE: "<d"}
TEXTS = ("", "a", "\0", "\x7f\x80\u07ff\u0800", "\ufffd\uffff", "\U00010000\U0010ffff", "long " * 60)
MOST_VALUES, MOST_LEVELS, MOST_TRIES = 200, 3, 100
VARINT, FIXED64, DELIMITED, GROUP, END, FIXED32 = range(6)
# A tag or a length of more bytes is refused by Google's; no varint has more than the second.
MOST_THERE, MOST_BYTES_OF_VARINT = 5, 10


class Input(NamedTuple):
    """Bytes for a message, and what they are read as here and by Google's: other bytes, or None where they have to be refused. What
    isn't told is read alike, or refused by both. `kept` is written behind here, and `cut` by Google's in its place, but `again` where
    it reads what is written here."""

    name: str
    kind: str
    encoding: bytes
    is_told: bool = False
    here: Optional[bytes] = None
    there: Optional[bytes] = None
    kept: bytes = b""
    cut: bytes = b""
    again: bytes = b""


def varint(number):
    number, made = number % 2**64, bytearray()
    while number > 127:
        made.append(number & 127 | 128)
        number >>= 7
    return bytes(made + bytes([number]))


def padded(made, width):
    """A varint with zeros behind, in more bytes."""
    return made if width <= len(made) else made[:-1] + bytes([made[-1] | 128]) + b"\x80" * (width - len(made) - 1) + b"\0"


def varint_at(encoding, at):
    end = at
    while encoding[end] > 127:
        end += 1
    return sum((byte & 127) << 7 * i for i, byte in enumerate(encoding[at : end + 1])), end + 1


def record_at(encoding, at):
    """The record that begins somewhere: its number, its wire type, its payload, of a group what is in it, and where it ends."""
    tag, at = varint_at(encoding, at)
    number, wire, end = tag >> 3, tag & 7, at
    if wire == GROUP:
        while varint_at(encoding, end)[0] != number << 3 | END:
            end = record_at(encoding, end)[3]
        return number, wire, encoding[at:end], varint_at(encoding, end)[1]
    if wire == VARINT:
        end = varint_at(encoding, at)[1]
    elif wire == DELIMITED:
        size, at = varint_at(encoding, at)
        end = at + size
    else:
        end = at + (8 if wire == FIXED64 else 4)
    return number, wire, encoding[at:end], end


def written_record(number, wire, payload):
    return varint(number << 3 | wire) + (varint(len(payload)) if wire == DELIMITED else b"") + payload


def records(encoding):
    """The records of an encoding that a reader takes."""
    at = 0
    while at < len(encoding):
        number, wire, payload, at = record_at(encoding, at)
        yield number, wire, payload


def is_map(field):
    return bool(field.message_type) and field.message_type.GetOptions().map_entry


def is_open(field):
    """Whether Google's Python takes any number for an enum: one of proto3, in a message of proto3."""
    return {field.enum_type.file.syntax, field.containing_type.file.syntax} == {"proto3"}


def is_closed(field):
    """Whether a number that an enum doesn't declare is kept among the fields that aren't declared: not in a oneof."""
    return bool(field.enum_type) and field.enum_type.file.syntax != "proto3" and not field.containing_oneof


def reached(kind, found=None):
    """The fields of a message, and of those inside it, by their full names."""
    found = {} if found is None else found
    for field in kind.fields:
        if field.full_name not in found:
            found[field.full_name] = field
            if field.message_type:
                reached(field.message_type, found)
    return found


class Maker:
    """Makes instances by chance, with about MOST_VALUES values."""

    def __init__(self, chance, google, has_extensions=True):
        self.chance, self.google, self.has_extensions, self.left = chance, google, has_extensions, 0

    def instance(self, name, at):
        message, self.left = self.google.blank(name), MOST_VALUES
        if at:
            self.fill(message, 0, 1 if at == 1 else self.chance.choice((0.3, 0.6, 0.9)))
        return message

    def fill(self, message, level, share):
        """Sets members of a message: of each oneof one at most."""
        kind = message.DESCRIPTOR
        alone = [[it] for it in kind.fields if not it.containing_oneof] + [one.fields for one in kind.oneofs]
        alone += [[it] for it in self.google.pool.FindAllExtensions(kind) if self.has_extensions]
        share = min(share, 6 / max(1, len(alone))) if level else share
        for fields in self.chance.sample(alone, len(alone)):
            if (self.left > 0 or share == 1) and self.chance.random() < share:
                self.set(message, self.chance.choice(fields), level)

    def set(self, message, field, level):
        holder, key = (message.Extensions, field) if field.is_extension else (message, field.name)
        held = holder[key] if field.is_extension else getattr(message, key)
        if field.label == Field.LABEL_REPEATED:
            for _ in range(self.chance.choice((1, 2, 3) if level else (1, 2, 5, 20))):
                self.add(held, field, level)
        elif field.message_type:
            held.SetInParent()
            self.inside(held, level)
        elif field.is_extension:
            message.Extensions[field] = self.value(field)
        else:
            setattr(message, key, self.value(field))

    def add(self, held, field, level):
        """Adds an element to a list, or an entry to a map."""
        if is_map(field):
            key, value = (field.message_type.fields_by_name[it] for it in ("key", "value"))
            at = self.value(key)
            if value.message_type:
                self.inside(held[at], level)
            else:
                held[at] = self.value(value)
        elif field.message_type:
            self.inside(held.add(), level)
        else:
            held.append(self.value(field))

    def inside(self, message, level):
        self.left -= 1
        if level + 1 < MOST_LEVELS:
            self.fill(message, level + 1, self.chance.choice((0.2, 0.9)))

    def value(self, field):
        self.left -= 1
        chance, kind = self.chance, field.type
        if kind == Field.TYPE_BOOL:
            return chance.random() < 0.7
        if kind in INTEGERS:
            return self.number(*INTEGERS[kind])
        if kind in REALS:
            some = chance.choice((0.0, -0.0, 1.5, float("inf"), float("-inf"), float("nan"), None, None))
            size = struct.calcsize(REALS[kind])
            return struct.unpack(REALS[kind], chance.randbytes(size))[0] if some is None else some
        if kind == Field.TYPE_ENUM:
            known = chance.choice(field.enum_type.values).number
            return chance.choice((known, self.number(-(2**31), 2**31 - 1))) if is_open(field) else known
        if kind == Field.TYPE_STRING:
            return chance.choice(TEXTS) + str(chance.randrange(100)) * chance.randrange(2)
        return chance.randbytes(chance.choice((0, 1, 2, 200)))

    def number(self, least, most):
        chance = self.chance
        some = chance.randint(least, most) >> chance.randrange(64)
        return chance.choice((least, most, 0, 1, 127, 128, some, some))

    def unknown(self, kind):
        """Some records that a message doesn't declare, or that have a number that a closed enum doesn't declare."""
        numbers = [self.free_number(kind) for _ in range(self.chance.choice((0, 1, 3)))]
        made = b"".join(self.record(it) for it in numbers if it)
        for field in filter(is_closed, kind.fields):
            if self.chance.random() < 0.3:
                number = self.number(-(2**31), 2**31 - 1)
                if number not in field.enum_type.values_by_number:
                    made += varint(field.number << 3) + varint(number)
        return made

    def free_number(self, kind):
        """A number that isn't declared, nor one of an extension: none, where a message gives all away to extensions."""
        for _ in range(MOST_TRIES):
            number = self.chance.choice((2**29 - 1, self.chance.randint(1, 20), self.chance.randint(1, 2**29 - 1)))
            if number not in kind.fields_by_number and not any(a <= number < b for a, b in kind.extension_ranges):
                return number
        return None

    def record(self, number, level=0):
        chance, tag = self.chance, number << 3
        wire = chance.choice((VARINT, FIXED64, DELIMITED, GROUP, FIXED32) if level < 2 else (VARINT, FIXED64, DELIMITED, FIXED32))
        if wire == GROUP:
            inside = b"".join(self.record(chance.randint(1, 2**29 - 1), level + 1) for _ in range(chance.randrange(3)))
            return varint(tag | GROUP) + inside + varint(tag | END)
        some = chance.randbytes(chance.choice((0, 1, 130)))
        payload = {
            VARINT: varint(self.number(0, 2**64 - 1)),
            FIXED64: chance.randbytes(8),
            DELIMITED: varint(len(some)) + some,
            FIXED32: chance.randbytes(4),
        }
        return varint(tag | wire) + payload[wire]


class Walk:
    """Writes an encoding again, with what a kind of inputs changes: of what is read it sees each tag, length and entry. What is in
    extensions, in a MessageSet, or in what is held as an encoding isn't read, and stays."""

    def __init__(self, chance, encoded):
        self.chance, self.encoded = chance, encoded

    def tag(self, tag):
        return varint(tag)

    def length(self, size):
        return varint(size)

    def entry(self, field, payload):
        return self.message(None if field.full_name in self.encoded else field.message_type, payload)

    def message(self, kind, encoding):
        """The encoding of a message, of which it may be unknown what it declares."""
        made = b""
        for number, wire, payload in records(encoding):
            inside = self.inside(kind and kind.fields_by_number.get(number), wire, payload)
            made += self.tag(number << 3 | wire)
            made += self.length(len(inside)) if wire == DELIMITED else b""
            made += inside
            made += self.tag(number << 3 | END) if wire == GROUP else b""
        return made

    def inside(self, field, wire, payload):
        kind = field and field.message_type
        if not kind:
            return self.message(None, payload) if wire == GROUP else payload
        if is_map(field):
            return self.entry(field, payload)
        is_kept = field.full_name in self.encoded or kind.GetOptions().message_set_wire_format
        return payload if is_kept else self.message(kind, payload)


class Padded(Walk):
    """Tags and lengths with zeros behind, of some bytes at most; it remembers how many the longest has."""

    def __init__(self, chance, encoded, most):
        super().__init__(chance, encoded)
        self.most, self.widest = most, 0

    def tag(self, tag):
        made = varint(tag)
        width = self.chance.randint(len(made), self.most) if self.chance.random() < 0.4 else len(made)
        self.widest = max(self.widest, width)
        return padded(made, width)

    length = tag


class Past(Walk):
    """One tag of five bytes above 2^32 - 1, of those that are met; it remembers how many these are."""

    def __init__(self, chance, encoded, at):
        super().__init__(chance, encoded)
        self.at, self.met = at, 0

    def tag(self, tag):
        self.met += 1
        return varint(tag + (self.chance.randint(1, 7) << 32) if self.met - 1 == self.at else tag)


class Entries(Walk):
    """Map entries with the records of another entry between their own, or of such only the last key and value."""

    def __init__(self, chance, encoded, pool, is_last):
        super().__init__(chance, encoded)
        self.pool, self.is_last, self.changed = pool, is_last, 0

    def entry(self, field, payload):
        if self.chance.random() < 0.3:
            return super().entry(field, payload)
        self.changed += 1
        both = list(records(payload)) + list(records(self.chance.choice(self.pool[field.full_name])))
        both = self.chance.sample(both, len(both))
        if self.is_last and field.full_name in self.encoded:
            both = list({number: (number, wire, it) for number, wire, it in both}.values())
        return b"".join(written_record(*it) for it in both)


class Pool(Walk):
    """All entries that are met, by the full names of their fields."""

    def __init__(self, encoded):
        super().__init__(None, encoded)
        self.entries = collections.defaultdict(list)

    def entry(self, field, payload):
        self.entries[field.full_name].append(payload)
        return super().entry(field, payload)


def cut(number):
    """What is left of a number in 32 bits."""
    return (number + 2**31) % 2**32 - 2**31


class Wide:
    """Records with numbers of 64 bits for the enums of a message: what they are read as, and what is kept of them, whole, or cut as
    Google's does, which cuts no packed ones, nor is any packed when it is written again."""

    def __init__(self, chance, kind):
        self.chance, self.encoding, self.here, self.kept, self.cut, self.again = chance, b"", b"", b"", b"", b""
        for field in kind.fields:
            if field.enum_type and (is_closed(field) or is_open(field)) and chance.random() < 0.6:
                self.add(field)

    def add(self, field):
        numbers = [self.number(field) for _ in range(self.chance.choice((1, 2, 3)))]
        is_packed = field.label == Field.LABEL_REPEATED and self.chance.random() < 0.5
        tag = varint(field.number << 3)
        whole = [varint(it) for it in numbers]
        self.encoding += written_record(field.number, DELIMITED, b"".join(whole)) if is_packed else b"".join(tag + it for it in whole)
        for number in numbers:
            left = cut(number)
            if is_open(field) or left in field.enum_type.values_by_number:
                self.here += tag + varint(left)
            else:
                self.kept += tag + varint(number)
                self.cut += tag + varint(number if is_packed else left)
                self.again += tag + varint(left)

    def number(self, field):
        """A number of 64 bits, of which the lower 32 are by chance those of a declared one."""
        chance = self.chance
        low = chance.choice((chance.choice(field.enum_type.values).number, chance.randint(-(2**31), 2**31 - 1)))
        return chance.choice((low + (chance.randint(1, 2**31 - 1) << 32), low + 2**32, chance.randint(-(2**63), 2**63 - 1)))


class Inputs:
    """The inputs of a message, from the encodings of its instances."""

    def __init__(self, name, kind, made, encoded, maker):
        self.name, self.kind, self.made, self.encoded, self.maker, self.chance = name, kind, made, encoded, maker, maker.chance
        inside = reached(kind)
        self.is_joined = not any(it.containing_oneof for full, it in inside.items() if full in encoded)
        self.pool = Pool(encoded)
        for it in made:
            self.pool.message(kind, it)

    def all(self, otherwise):
        """All inputs. `otherwise` packs the lists of an encoding that aren't, and the other way round."""
        for at, it in enumerate(self.made):
            yield Input(self.name, "written", it)
            yield Input(self.name, "packed", otherwise(it))
            yield Input(self.name, "unknown", self.maker.unknown(self.kind) + it + self.maker.unknown(self.kind))
            if self.is_joined:
                yield Input(self.name, "joined", it + self.made[(at + 1) % len(self.made)])
                yield from self.entries(it)
            yield self.padded(it)
            yield from self.past(it)
            yield from self.numbers(it)
            if it:
                place, other = self.chance.randrange(len(it)), self.chance.randrange(1, 256)
                yield Input(self.name, "cut", it[:place])
                yield Input(self.name, "changed", it[:place] + bytes([it[place] ^ other]) + it[place + 1 :])

    def padded(self, it):
        it += self.maker.unknown(self.kind)
        walk = Padded(self.chance, self.encoded, self.chance.choice((MOST_THERE, MOST_BYTES_OF_VARINT)))
        made = walk.message(self.kind, it)
        return Input(self.name, "padded", made, True, it, it if walk.widest <= MOST_THERE else None)

    def past(self, it):
        it = self.maker.unknown(self.kind) + it
        counted = Past(self.chance, self.encoded, None)
        counted.message(self.kind, it)
        if counted.met:
            made = Past(self.chance, self.encoded, self.chance.randrange(counted.met)).message(self.kind, it)
            yield Input(self.name, "past", made, True, None, it)

    def entries(self, it):
        seed = self.chance.random()
        walks = [Entries(random.Random(seed), self.encoded, self.pool.entries, is_last) for is_last in (False, True)]
        made, here = (walk.message(self.kind, it) for walk in walks)
        if walks[0].changed:
            yield Input(self.name, "entries", made, True, here, made)

    def numbers(self, it):
        before, behind = Wide(self.chance, self.kind), Wide(self.chance, self.kind)
        if before.encoding or behind.encoding:
            here, made = before.here + it + behind.here, before.encoding + it + behind.encoding
            kept = (before.kept + behind.kept, before.cut + behind.cut, before.again + behind.again)
            yield Input(self.name, "numbers", made, True, here, here, *kept)
