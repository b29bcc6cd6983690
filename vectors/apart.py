"""Why Google's protobuf may make something else of bytes than our readers, by what is in the bytes.

The makers beside this file ask it of every input. It walks a message as C++ classes of protobuf 3.21.12 read it, which
pass over what ours refuse; a walk ends where no reader goes on.
"""
VARINT, EIGHT, DELIMITED, START, END, FOUR = range(6)
WIRES = {
    "fixed64": EIGHT, "sfixed64": EIGHT, "fixed32": FOUR, "sfixed32": FOUR, "string": DELIMITED, "bytes": DELIMITED,
    "float": FOUR, "double": EIGHT,
}
REASONS = {
    "number": "a type id is cut to 32 bits, and isn't refused",
    "first": "the first type id of an Item counts, and its first message alone",
    "inside": "other fields of an Item are kept as fields of the set, and so are its own in long spellings of their tags",
    "part": "an Item without a type id or without a message is passed over",
    "wire": "a field, or a part of an entry, with another wire type is passed over, or kept",
    "text": "a string of proto2 may be no UTF-8",
    "bool": "a bool in an entry is read of its low 32 bits",
    "again": "an undeclared entry of a closed enum is kept as key and value, encoded again",
    "closed": "a closed enum keeps a number that it doesn't declare as a field; ours is an open one",
    "blank": "a member of proto2 that is written though it is its default; ours has no presence",
    "cut": "of a tag no bits above 32 are looked at, of any other varint none above 64",
    "long": "a tag or a length in more than five bytes is refused",
    "levels": "an entry is a level of its own, beside the message in it",
}
# Why they refuse what we may take, and what we refuse in any case; all reasons but the first are of bytes that they take.
REFUSED = {"levels", "long"}
OURS = {"number", "wire", "text", "cut"}


class Ended(Exception):
    """No reader goes on: the bytes end in a field, or there is no such tag."""


def spelled(number):
    out = b""
    while number > 127:
        out, number = out + bytes([number % 128 + 128]), number >> 7
    return out + bytes([number])


class Types:
    """Types of messages: of each its members by their numbers, as how often one stands, the kind of a key, the kind of a
    value. Groups are types; a closed enum has the numbers that it declares, those in `opened` are open ones of ours; of types
    in `strict` all texts are UTF-8."""

    def __init__(self, members, groups=(), closed=None, opened=(), strict=()):
        self.members, self.groups, self.closed, self.opened, self.strict = members, groups, closed or {}, opened, strict

    def wire(self, kind):
        return START if kind in self.groups else DELIMITED if kind in self.members else WIRES.get(kind, VARINT)


class Walk:
    """Bytes that are walked from their front, and the reasons that are found, which its parts share."""

    def __init__(self, types, text, found, levels=0):
        self.types, self.text, self.at, self.found, self.levels = types, text, 0, found, levels
        if levels > 100:
            found.add("levels")

    def part(self, text, levels=0):
        return Walk(self.types, text, self.found, self.levels + levels)

    def is_left(self):
        return self.at < len(self.text)

    def take(self, count):
        if count > len(self.text) - self.at:
            raise Ended
        self.at += count
        return self.text[self.at - count : self.at]

    def varint(self, most=10, bits=64):
        number = 0
        for place in range(10):
            byte = self.take(1)[0]
            number |= (byte & 127) << 7 * place
            if byte < 128:
                if number >> bits:
                    self.found.add("cut")
                elif place >= most:
                    self.found.add("long")
                if place >= most:
                    raise Ended
                return number % 2**bits
        raise Ended

    def tag(self):
        tag = self.varint(5, 32)
        if tag < 8 or tag % 8 > 5:
            raise Ended
        return tag // 8, tag % 8

    def delimited(self):
        return self.take(self.varint(5))

    def skip(self, number, wire):
        """Passes over the rest of a field."""
        if wire == END:
            raise Ended
        if wire == START:
            self.fields(number, self.skip)
        elif wire == VARINT:
            self.varint()
        elif wire == DELIMITED:
            self.delimited()
        else:
            self.take(8 if wire == EIGHT else 4)

    def fields(self, end, one):
        """Fields up to the end of the bytes, or those of a group, a level deeper, up to its end tag."""
        self.levels += end is not None
        if self.levels > 100:
            self.found.add("levels")
        while self.is_left() or end is not None:
            number, wire = self.tag()
            if (number, wire) == (end, END):
                break
            one(number, wire)
        self.levels -= end is not None

    def message(self, kind, end=None):
        self.fields(end, lambda number, wire: self.field(kind, number, wire))

    def field(self, kind, number, wire):
        """The rest of a field of a message."""
        if kind == "set":
            self.found_in_set(number, wire)
        elif number not in self.types.members[kind]:
            self.skip(number, wire)
        else:
            often, key, inner = self.types.members[kind][number]
            own = DELIMITED if key else self.types.wire(inner)
            if own != wire == DELIMITED and often == "repeated" and own != START:
                packed = self.part(self.delimited())
                while packed.is_left():
                    packed.value(kind, inner)
            elif own != wire:
                self.found.add("wire")
                self.skip(number, wire)
            elif key:
                self.part(self.delimited(), 1).entry(kind, key, inner)
            elif own == START:
                self.message(inner, number)
            elif is_blank(inner, self.value(kind, inner)) and often == "default":
                self.found.add("blank")

    def value(self, kind, inner):
        """A value in a message of a kind: a number or a text."""
        own = self.types.wire(inner)
        if own == DELIMITED:
            text = self.delimited()
            if inner in self.types.members:
                self.part(text, 1).message(inner)
            elif inner == "string" and kind not in self.types.strict and not is_text(text):
                self.found.add("text")
            return text
        if own != VARINT:
            return self.take(8 if own == EIGHT else 4)
        number = self.varint()
        if inner in self.types.opened and number % 2**32 not in self.types.closed[inner]:
            self.found.add("closed")
        return number

    def entry(self, kind, key, inner):
        """The parts of an entry of a map in a message of a kind."""
        wire = self.types.wire(key)
        blank = {DELIMITED: b"", EIGHT: bytes(8), FOUR: bytes(4)}.get(wire, 0)
        parts, is_closed = {1: blank, 2: 0}, inner in self.types.closed

        def part(place, wire):
            if place > 2:
                self.skip(place, wire)
            elif wire != self.types.wire((key, inner)[place - 1]):
                self.found.add("wire")
                self.skip(place, wire)
            else:
                parts[place] = self.value(kind, (key, inner)[place - 1])
                if (key, inner)[place - 1] == "bool" and parts[place] > 0 == parts[place] % 2**32:
                    self.found.add("bool")

        self.fields(None, part)
        if is_closed and parts[2] % 2**32 not in self.types.closed[inner]:
            again = spelled(8 + wire) + payload(key, wire, parts[1]) + b"\x10" + payload("int32", VARINT, parts[2])
            if again != self.text:
                self.found.add("again")

    def found_in_set(self, number, wire):
        if (number, wire) != (1, START):
            return self.skip(number, wire)
        ids, messages = [], []

        def one(number, wire):
            is_short = self.text[self.at - 1] == number * 8 + wire
            if is_short and (number, wire) == (2, VARINT):
                ids.append(self.varint())
            elif is_short and (number, wire) == (3, DELIMITED):
                messages.append(self.delimited())
            else:
                self.found.add("inside")
                self.skip(number, wire)

        self.fields(1, one)
        if not ids or not messages:
            self.found.add("part")
        if len({*ids}) > 1 or any(it != b"".join(messages) for it in messages):
            self.found.add("first")
        if not all(0 < it < 2**31 for it in ids):
            self.found.add("number")


def is_text(text):
    try:
        return text.decode() is not None
    except UnicodeDecodeError:
        return False


def low_of(kind, number):
    """What is read of a varint: of numbers of 32 bits the low ones."""
    return number % 2**32 if kind.endswith("32") else int(number > 0) if kind == "bool" else number


def is_blank(kind, part):
    return low_of(kind, part) == 0 if isinstance(part, int) else not any(part)


def payload(kind, wire, part):
    """A part of an entry as it is written."""
    if wire != VARINT:
        return spelled(len(part)) + part if wire == DELIMITED else part
    low = low_of(kind, part)
    return spelled(low + 2**64 - 2**32 if kind == "int32" and low >= 2**31 else low)


def apart(types, kind, text, is_refused):
    """Why what Google's protobuf makes of the bytes, of which it is known whether they refuse them, may be another thing;
    nothing where it can't be."""
    found = set()
    try:
        Walk(types, text, found).message(kind)
    except Ended:
        pass
    if is_refused:
        found = found & REFUSED if not found & OURS else set()
    return next((it for it in REASONS if it in found - (set() if is_refused else REFUSED)), "")


def reasons_in(lines):
    """The reasons that stand in the lines of a table, for its head."""
    found = {mark[4:] for line in lines for mark in line.split("\t") if mark.startswith("own ")}
    return "".join(f"# {it:6}  {REASONS[it]}\n" for it in REASONS if it in found)
