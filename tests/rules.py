"""A second reading of the rules, which shares no line with the crates.

Written from the encoding guide and from what the documents say of maps, extensions and Items: how a varint, a tag and
a payload are read, in which order faults are told, what an entry costs, what is kept. `second_reading.py` judges the
rows of vectors/ by it.
"""
VARINT, EIGHT, DELIMITED, START, END, FOUR = range(6)
# Kinds of values: their wire type, and what one costs in units.
KINDS = {
    "int32": (VARINT, 4), "uint32": (VARINT, 4), "sint32": (VARINT, 4), "bool": (VARINT, 1), "old": (VARINT, 4),
    "new": (VARINT, 4), "open": (VARINT, 8), "int64": (VARINT, 8), "uint64": (VARINT, 8), "sint64": (VARINT, 8),
    "fixed32": (FOUR, 4), "sfixed32": (FOUR, 4), "fixed64": (EIGHT, 8), "sfixed64": (EIGHT, 8),
    "float": (FOUR, 4), "double": (EIGHT, 8),
    "string": (DELIMITED, 24), "own-string": (DELIMITED, 24), "word": (DELIMITED, 24), "bytes": (DELIMITED, 24),
    "own-bytes": (DELIMITED, 24), "shared-bytes": (DELIMITED, 32), "flat": (DELIMITED, 4), "two": (DELIMITED, 32),
    "keep": (DELIMITED, 24), "tree": (DELIMITED, 32), "count": (DELIMITED, 8), "node": (DELIMITED, 96),
    "set": (DELIMITED, 24), "unit": (VARINT, 4),
}
STRINGS = {"string", "own-string", "word"}
BYTES = {"bytes", "own-bytes", "shared-bytes"}
BLANKS = {
    "flat": 0, "two": (0, 0), "keep": b"", "tree": (0, {}), "count": 0, "bool": False, "node": ({}, {}, {}, b""), "set": (),
    "unit": 1,
}
MESSAGES = {"flat", "two", "keep", "tree", "count", "node", "set"}
# Types of messages that are made of a list of their members, by `member_reading.py`.
BY_MEMBERS = {}
DECLARED = {"old": (0, 1), "open": (0, 1), "new": (0, 1, 2), "unit": (1, 2)}
CLOSED = ("old", "new", "unit")
# The map fields of a node; shades are declared as the values of the kind `old` are.
NODE_MAPS = {1: ("string", "int32"), 2: ("int32", "node"), 3: ("int32", "old")}
MOST_UNKNOWN, MOST_UNITS, MOST_BYTES, MOST_LEVELS = 1_000_000, 268_435_456, 2**31 - 1, 100


class Fault(Exception):
    """What a call tells in place of a value."""


def mismatch(number, expected, actual):
    return Fault(f"WireTypeMismatch {number} {expected} {actual}")


def varint_encoding(number):
    if number < 128:
        return bytes((number,))
    out = bytearray()
    while number > 127:
        out.append(number & 127 | 128)
        number >>= 7
    return bytes(out) + bytes([number])


def tag_encoding(number, wire):
    return varint_encoding(number * 8 + wire)


def delimited(text):
    return varint_encoding(len(text)) + text


class Bytes:
    """Bytes that are read from their front."""

    def __init__(self, text):
        self.text, self.at = text, 0

    def unread(self):
        return len(self.text) - self.at

    def take(self, count):
        if count > self.unread():
            raise Fault("UnexpectedEof")
        self.at += count
        return self.text[self.at - count : self.at]

    def varint(self):
        if self.at < len(self.text) and self.text[self.at] < 128:
            self.at += 1
            return self.text[self.at - 1]
        number = 0
        for place in range(10):
            byte = self.take(1)[0]
            if place == 9 and byte > 1:
                break
            number += (byte & 127) << 7 * place
            if byte < 128:
                return number
        raise Fault("VarintTooLong")

    def tag(self):
        number = self.varint()
        if number >= 2**32 or number < 8:
            raise Fault("InvalidFieldNumber")
        if number % 8 > 5:
            raise Fault(f"InvalidWireType {number % 8}")
        return number // 8, number % 8


class Budget:
    """Unknown fields that may still be kept, and units of element memory."""

    def __init__(self, unknown=MOST_UNKNOWN, units=MOST_UNITS):
        self.unknown, self.units = unknown, units

    def take_unknown(self):
        if self.unknown == 0:
            raise Fault("UnknownFieldLimitExceeded")
        self.unknown -= 1

    def take_units(self, count):
        if count > self.units:
            raise Fault("ElementMemoryLimitExceeded")
        self.units -= count


def skip(buf, number, wire, depth):
    if wire == VARINT:
        buf.varint()
    elif wire in (EIGHT, FOUR):
        buf.take(8 if wire == EIGHT else 4)
    elif wire == DELIMITED:
        buf.take(buf.varint())
    elif wire == END:
        raise Fault(f"InvalidEndGroup {number}")
    else:
        if depth == 0:
            raise Fault("RecursionLimitExceeded")
        while (tag := buf.tag()) != (number, END):
            skip(buf, *tag, depth - 1)


def keep(buf, number, wire, depth, budget):
    """The encoding of a field that is kept, in shortest spellings."""
    if wire == END:
        raise Fault(f"InvalidEndGroup {number}")
    budget.take_unknown()
    tag = tag_encoding(number, wire)
    if wire == VARINT:
        return tag + varint_encoding(buf.varint())
    if wire == DELIMITED:
        return tag + delimited(buf.take(buf.varint()))
    if wire in (EIGHT, FOUR):
        return tag + buf.take(8 if wire == EIGHT else 4)
    if depth == 0:
        raise Fault("RecursionLimitExceeded")
    found = [tag]
    while (inner := buf.tag()) != (number, END):
        found.append(keep(buf, *inner, depth - 1, budget))
    return b"".join(found) + tag_encoding(number, END)


def records(text, depth=MOST_LEVELS, each=False):
    """The records that bytes are: number, wire type, encoding; of one budget, or each of its own."""
    buf, budget, found = Bytes(text), Budget(), []
    while buf.unread():
        number, wire = buf.tag()
        found.append((number, wire, keep(buf, number, wire, depth, Budget() if each else budget)))
    return found


def signed(number, bits):
    number %= 1 << bits
    return number - (1 << bits) if number >> bits - 1 else number


def blank(kind):
    return BLANKS.get(kind, b"" if kind in STRINGS | BYTES else 0)


def value(kind, buf, old):
    """The value that a payload makes of an old one, and whether it is declared."""
    if kind in STRINGS | BYTES:
        text = buf.take(buf.varint())
        try:
            text.decode("utf-8" if kind in STRINGS else "latin-1")
        except UnicodeDecodeError:
            raise Fault("InvalidUtf8") from None
        return text, True
    wire = KINDS[kind][0]
    if wire != VARINT:
        bits = 32 if wire == FOUR else 64
        number = int.from_bytes(buf.take(bits // 8), "little")
        return signed(number, bits) if kind[0] == "s" else number, True
    number = buf.varint()
    if kind == "bool":
        return number != 0, True
    if kind in ("uint32", "sint32"):
        number %= 2**32
    if kind[0] == "s":
        return (number >> 1) ^ -(number & 1), True
    if kind in ("uint32", "uint64"):
        return number, True
    number = signed(number, 64 if kind == "int64" else 32)
    is_declared = kind not in CLOSED or number in DECLARED[kind]
    return number if is_declared else old, is_declared


def payload(kind, given):
    if kind in STRINGS | BYTES:
        return delimited(given)
    wire = KINDS[kind][0]
    if wire != VARINT:
        bits = 32 if wire == FOUR else 64
        return (given % (1 << bits)).to_bytes(bits // 8, "little")
    if kind in ("sint32", "sint64"):
        return varint_encoding(2 * given if given >= 0 else -2 * given - 1)
    return varint_encoding(int(given) % 2**64)


def int32_member(buf, number, wire):
    if wire != VARINT:
        raise mismatch(number, VARINT, wire)
    return value("int32", buf, 0)[0]


def kept_field(buf, number, wire, depth, budget):
    """What is refused spends no unknown field."""
    own = Budget(budget.unknown)
    text = keep(buf, number, wire, depth, own)
    budget.unknown = own.unknown
    return text


def node_field(node, buf, number, wire, depth, budget):
    """What one field makes of a node: its maps by their numbers, then what is kept."""
    *maps, kept = node
    if number not in NODE_MAPS:
        return *maps, kept + kept_field(buf, number, wire, depth, budget)
    if wire != DELIMITED:
        raise mismatch(number, DELIMITED, wire)
    pairs, undeclared = dict(maps[number - 1]), []
    merge_entry(NODE_MAPS[number], pairs, buf, depth, budget, number, undeclared)
    maps[number - 1] = pairs
    return *maps, kept + b"".join(undeclared)


def set_field(found, buf, number, wire, depth, budget):
    """What one field makes of the records of a MessageSet: an Item, a level deeper, is one of its type id. What is
    refused spends no unknown field."""
    own = Budget(budget.unknown)
    if (number, wire) == (1, START):
        if depth == 0:
            raise Fault("RecursionLimitExceeded")
        number, message = read_item(buf, depth - 1, own)
        wire, text = DELIMITED, tag_encoding(number, DELIMITED) + delimited(message)
    else:
        text = keep(buf, number, wire, depth, own)
    budget.unknown = own.unknown
    return *found, (number, wire, text)


def merge_field(kind, message, buf, number, wire, depth, budget):
    """What one field makes of a message."""
    if kind in BY_MEMBERS:
        return BY_MEMBERS[kind].merged(message, buf, number, wire, depth, budget)
    if kind == "keep":
        return message + kept_field(buf, number, wire, depth, budget)
    if kind in ("node", "set"):
        return (node_field if kind == "node" else set_field)(message, buf, number, wire, depth, budget)
    if kind == "flat" and number == 1:
        return int32_member(buf, number, wire)
    if kind == "two" and number in (1, 2):
        found = int32_member(buf, number, wire)
        return (found, message[1]) if number == 1 else (message[0], found)
    if kind == "count" and number == 9:
        int32_member(buf, number, wire)
        return message + 1
    if kind == "tree" and number == 1:
        return int32_member(buf, number, wire), message[1]
    if kind == "tree" and number == 2:
        if wire != DELIMITED:
            raise mismatch(number, DELIMITED, wire)
        children = dict(message[1])
        merge_entry(("int32", "tree"), children, buf, depth, budget, number, None)
        return message[0], children
    skip(buf, number, wire, depth)
    return message


def merge(kind, message, text, depth, budget):
    buf, kept = Bytes(text), []
    while buf.unread():
        if kind == "keep":
            kept.append(kept_field(buf, *buf.tag(), depth, budget))
        else:
            message = merge_field(kind, message, buf, *buf.tag(), depth, budget)
    return message + b"".join(kept) if kind == "keep" else message


def item_encoding(record):
    """The encoding of a record of a MessageSet: of a delimited one whose number is a type id an Item, of any other the record."""
    number, wire, text = record
    if wire != DELIMITED or not 0 < number < 2**31:
        return text
    return b"\x0b\x10" + varint_encoding(number) + b"\x1a" + delimited(inside(record)) + b"\x0c"


def message_text(kind, message):
    if kind in BY_MEMBERS:
        return BY_MEMBERS[kind].text(message)
    if kind == "keep":
        return message
    if kind == "set":
        return b"".join(map(item_encoding, message))
    if kind == "node":
        fields = [field_encoding(NODE_MAPS[at], at, sorted(message[at - 1].items())) for at in NODE_MAPS]
        return b"".join(fields) + message[3]
    if kind == "count":
        return message * (tag_encoding(9, VARINT) + b"\0")
    numbers = {"flat": lambda it: [it], "two": list, "tree": lambda it: [it[0]]}[kind](message)
    text = b"".join(tag_encoding(1 + i, VARINT) + payload("int32", it) for i, it in enumerate(numbers) if it)
    return text + (field_encoding(("int32", "tree"), 2, sorted(message[1].items())) if kind == "tree" else b"")


def field_encoding(kinds, number, pairs):
    """The encoding of a map field of these pairs."""
    text = b""
    for key, held in pairs:
        is_message = kinds[1] in MESSAGES
        inner = delimited(message_text(kinds[1], held)) if is_message else payload(kinds[1], held)
        entry = tag_encoding(1, KINDS[kinds[0]][0]) + payload(kinds[0], key) + tag_encoding(2, KINDS[kinds[1]][0]) + inner
        text += tag_encoding(number, DELIMITED) + delimited(entry)
    return text


def put(kind, pairs, key, held):
    """The stored key stays; words are one key whatever the case of their letters."""
    for old in pairs:
        if old == key or kind == "word" and old.lower() == key.lower():
            key = old
    pairs[key] = held


def merge_entry(kinds, pairs, buf, depth, budget, number, kept):
    """An entry behind its tag; `kept` is the list for undeclared ones, or none."""
    text = buf.take(buf.varint())
    budget.take_units(KINDS[kinds[0]][1] + KINDS[kinds[1]][1])
    found, is_declared, inner = [blank(kinds[0]), blank(kinds[1])], True, Bytes(text)
    while inner.unread():
        place, wire = inner.tag()
        if place not in (1, 2):
            skip(inner, place, wire, depth)
            continue
        kind = kinds[place - 1]
        if wire != KINDS[kind][0]:
            raise mismatch(place, KINDS[kind][0], wire)
        if kind in MESSAGES:
            if depth == 0:
                raise Fault("RecursionLimitExceeded")
            found[1] = merge(kind, found[1], inner.take(inner.varint()), depth - 1, budget)
            continue
        found[place - 1], declares = value(kind, inner, found[place - 1])
        is_declared = declares if place == 2 else is_declared
    if is_declared:
        put(kinds[0], pairs, *found)
    elif kept is not None:
        budget.take_unknown()
        kept.append(tag_encoding(number, DELIMITED) + delimited(text))


def read_run(kinds, pairs, buf, depth, budget, number, kept):
    while buf.unread():
        found, wire = buf.tag()
        if found != number:
            raise Fault(f"UnexpectedField {found}")
        if wire != DELIMITED:
            raise mismatch(number, DELIMITED, wire)
        merge_entry(kinds, pairs, buf, depth, budget, number, kept)


def read_item(buf, depth, budget):
    budget.take_unknown()
    type_id, message = None, bytearray()
    while (tag := buf.tag()) != (1, END):
        if tag == (2, VARINT):
            type_id = buf.varint()
            if not 1 <= type_id < 2**31:
                raise Fault("InvalidMessageSet type_id out of range")
        elif tag == (3, DELIMITED):
            message += buf.take(buf.varint())
        else:
            skip(buf, *tag, depth)
    if type_id is None:
        raise Fault("InvalidMessageSet missing type_id")
    return type_id, bytes(message)


def word(kind, held):
    """A value as a table has it."""
    if kind in BY_MEMBERS:
        return BY_MEMBERS[kind].word(held)
    if kind in STRINGS and (not held or held.isalnum() and held.isascii()):
        return f'"{held.decode()}"'
    if kind in STRINGS | BYTES | {"keep"}:
        return f"x{held.hex()}"
    if kind == "tree":
        return tree_word(held, 9)
    if kind == "node":
        return node_word(held)
    if kind == "set":
        return f"x{b''.join(it[2] for it in held).hex()}"
    if kind == "bool":
        return str(held).lower()
    if kind == "open":
        return f"{'' if held in DECLARED[kind] else '?'}{held}"
    return "{},{}".format(*held) if kind == "two" else str(held)


def tree_word(tree, levels):
    if levels == 0:
        return ".."
    children = "".join(f"{key}:{tree_word(child, levels - 1)};" for key, child in sorted(tree[1].items()))
    return f"{tree[0]}({children})"


def node_word(node):
    maps = [
        ",".join(f"{word(key, one)}={word(other, held)}" for one, held in sorted(node[at - 1].items()))
        for at, (key, other) in NODE_MAPS.items()
    ]
    return f"({'|'.join(maps)}|{node[3].hex()})"


def of_word(kind, said):
    if kind in STRINGS and said[0] == '"':
        return said[1:-1].encode()
    if kind in STRINGS | BYTES | {"keep"}:
        return bytes.fromhex(said[1:])
    if kind == "bool":
        return said == "true"
    return tuple(map(int, said.split(","))) if kind == "two" else int(said.lstrip("?"))


# Extensions: a codec's kind of number or text, or a message, as bytes or as a group.


def plain(codec):
    return {"number": "int32", "enum": "open"}.get(codec, codec.removesuffix("-group"))


def inside(record):
    """The bytes of a delimited record, or the encoding of a group's records."""
    number, wire, text = record
    buf = Bytes(text)
    buf.varint()
    if wire == DELIMITED:
        return buf.take(buf.varint())
    return text[buf.at : len(text) - len(tag_encoding(number, END))]


def read_record(codec, record, depth, budget):
    """What a record is read as, or none."""
    kind = plain(codec)
    wanted = START if codec.endswith("-group") else KINDS[kind][0]
    if record[1] != wanted:
        return None
    try:
        if kind in MESSAGES:
            return merge(kind, blank(kind), inside(record), depth, budget)
        buf = Bytes(record[2])
        buf.varint()
        return value(kind, buf, None)[0]
    except Fault:
        return None


def packed(codec, text):
    """The values before the first that is malformed."""
    kind, buf, found = plain(codec), Bytes(text), []
    if KINDS[kind][0] == DELIMITED:
        return found
    try:
        while buf.unread():
            found.append(value(kind, buf, None)[0])
    except Fault:
        pass
    return found


def read_list(codec, mine):
    budget, found = Budget(), []
    for record in mine:
        one = read_record(codec, record, MOST_LEVELS, budget)
        if one is not None:
            found.append(one)
        elif record[1] == DELIMITED:
            found += packed(codec, inside(record))
    return found


def read_one(codec, mine):
    """The last record that is read, or all messages merged; or none."""
    kind = plain(codec)
    if kind not in MESSAGES:
        found = [read_record(codec, it, MOST_LEVELS, None) for it in mine]
        return next((it for it in reversed(found) if it is not None), None)
    wanted, budget, message = START if codec.endswith("-group") else DELIMITED, Budget(), None
    for record in mine:
        if record[1] == wanted:
            try:
                message = merge(kind, blank(kind) if message is None else message, inside(record), MOST_LEVELS, budget)
            except Fault:
                return None
    return message


def record_encoding(codec, number, held):
    kind = plain(codec)
    if kind not in MESSAGES:
        return tag_encoding(number, KINDS[kind][0]) + payload(kind, held)
    if kind == "count" and 2 * held > MOST_BYTES:
        raise Fault("MessageTooLarge")
    text = message_text(kind, held)
    if not codec.endswith("-group"):
        return tag_encoding(number, DELIMITED) + delimited(text)
    try:
        records(text)
    except Fault as fault:
        raise Fault(f"GroupRefused {fault}") from None
    return tag_encoding(number, START) + text + tag_encoding(number, END)
