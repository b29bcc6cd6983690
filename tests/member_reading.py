"""What messages that are made of a list of their members read, hold and write, beside the rules of `rules.py`.

Written from the encoding guide and from the table of member types in docs/BY_HAND.md: a plain member is written unless it is the
default, an optional one where it is there; elements of a list come one in a field, or packed; a message that stands is
merged into, an element of a list and a value of a map is new; a group is its fields and its end tag. A field of a case of a
oneof sets that case and clears the others; a message is merged into the one that stands, if that is of its case, else into a
new one; the case that is there is written, also where it is the default. Of a closed enum what isn't declared goes behind what
the message keeps: a number as a field of its own, of a packed list too, an entry of a map as it came.
A required member is read as an optional one: its message is whole where it is there, in the messages of its members too.
`second_reading.py` judges rows on them by it.
"""
from rules import (
    BLANKS, BY_MEMBERS, CLOSED, DECLARED, DELIMITED, END, KINDS, MESSAGES, START, VARINT, Bytes, Fault, blank, delimited,
    field_encoding, kept_field, merge, merge_entry, merge_field, message_text, mismatch, payload, signed, skip, tag_encoding, value,
    varint_encoding, word,
)

NUMBERS = (
    "int32", "int64", "uint32", "uint64", "sint32", "sint64", "bool", "fixed32", "fixed64", "sfixed32", "sfixed64",
)

# The defaults of members that start out as no value of their kind.
STARTS = (("optional group case", lambda _: None), ("repeated packed groups", lambda _: ()), ("map ordered", lambda _: {}))

# A map keeps the order in which its keys came; an ordered one is walked in the order of its keys.
MAPS = ("map", "ordered")


def walked(how, pairs):
    return sorted(pairs.items()) if how == "ordered" else pairs.items()


def merge_group(kind, message, buf, number, depth, budget):
    """What the fields up to the end tag of a group make of a message."""
    while (tag := buf.tag()) != (number, END):
        if tag[1] == END:
            raise Fault(f"InvalidEndGroup {tag[0]}")
        message = merge_field(kind, message, buf, *tag, depth, budget)
    return message


def sifted(kind, number, buf, budget, kept):
    """The declared numbers of the varints that bytes are; a field of each other one is kept."""
    found = []
    while buf.unread():
        found.append(buf.varint())
    for it in found:
        if signed(it, 32) not in DECLARED[kind]:
            budget.take_unknown()
            kept.append(tag_encoding(number, VARINT) + varint_encoding(it))
    return tuple(signed(it, 32) for it in found if signed(it, 32) in DECLARED[kind])


class ByMembers:
    """A type of messages: its members by their numbers, each with how it stands and of which kind it is. They are written in
    this order. Members that are each a `case` are those of one oneof, of which one is there at most. Some numbers may be required,
    and some have defaults, which a call says where the member isn't there."""

    def __init__(self, members, keeps=False, required=(), defaults=None):
        self.members, self.keeps, self.required, self.defaults = members, keeps, required, defaults or {}

    def blank(self):
        """The members' defaults, then what is kept."""
        starts = {how: start for hows, start in STARTS for how in hows.split()}
        return (*(starts.get(how, blank)(kind) for _, how, kind in self.members), b"")

    def merged(self, message, buf, number, wire, depth, budget):
        """What one field makes of a message."""
        *parts, kept = message
        for at, (own, how, kind) in enumerate(self.members):
            if own == number and (kind in CLOSED or how in MAPS and kind[1] in CLOSED):
                parts[at], aside = self.closed_part(how, kind, parts[at], buf, number, wire, depth, budget)
                return *parts, kept + aside
            if own == number:
                parts[at] = self.part(how, kind, parts[at], buf, number, wire, depth, budget)
                return *(self.alone(at, parts) if how == "case" else parts), kept
        if self.keeps:
            return *parts, kept + kept_field(buf, number, wire, depth, budget)
        skip(buf, number, wire, depth)
        return message

    def alone(self, at, parts):
        """The parts where the case at a place has been read, which clears the others."""
        return [None if how == "case" and it != at else parts[it] for it, (_, how, _) in enumerate(self.members)]

    def closed_part(self, how, kind, old, buf, number, wire, depth, budget):
        """A member of a closed enum, and what is kept of its field; what is refused spends no unknown field."""
        unknown, kept = budget.unknown, []
        try:
            if how in MAPS and wire == DELIMITED:
                pairs = dict(old)
                merge_entry(kind, pairs, buf, depth, budget, number, kept)
                return pairs, b"".join(kept)
            if how in MAPS or wire != VARINT and (how == "optional" or wire != DELIMITED):
                raise mismatch(number, DELIMITED if how in MAPS else VARINT, wire)
            text = buf.take(buf.varint()) if wire == DELIMITED else varint_encoding(buf.varint())
            found = sifted(kind, number, Bytes(text), budget, kept)
        except Fault:
            budget.unknown = unknown
            raise
        if how == "optional":
            return found[-1] if found else old, b"".join(kept)
        return (*old, *found), b"".join(kept)

    def part(self, how, kind, old, buf, number, wire, depth, budget):
        own = {"map": DELIMITED, "ordered": DELIMITED, "group": START, "groups": START}.get(how) or KINDS[kind][0]
        if how in ("repeated", "packed") and wire == DELIMITED != own:
            found, inner = list(old), Bytes(buf.take(buf.varint()))
            while inner.unread():
                found.append(value(kind, inner, None)[0])
            return tuple(found)
        if wire != own:
            raise mismatch(number, own, wire)
        if how in MAPS:
            pairs = dict(old)
            merge_entry(kind, pairs, buf, depth, budget, number, None)
            return pairs
        if kind not in MESSAGES:
            found = value(kind, buf, None)[0]
            return (*old, found) if how in ("repeated", "packed") else found
        # an element, or a message of the type itself in a box
        if how in ("repeated", "groups") or how == "optional" and BY_MEMBERS[kind] is self:
            budget.take_units(KINDS[kind][1])
        if depth == 0:
            raise Fault("RecursionLimitExceeded")
        found = old if how in ("optional", "group", "case") and old is not None else blank(kind)
        if own == DELIMITED:
            found = merge(kind, found, buf.take(buf.varint()), depth - 1, budget)
        else:
            found = merge_group(kind, found, buf, number, depth - 1, budget)
        return (*old, found) if how in ("repeated", "groups") else found

    def texts(self, message):
        """The encoding of each member's fields."""
        for (number, how, kind), part in zip(self.members, message):
            if how in MAPS:
                yield field_encoding(kind, number, walked(how, part))
                continue
            if how == "packed":
                yield tag_encoding(number, DELIMITED) + delimited(b"".join(payload(kind, it) for it in part)) if part else b""
                continue
            there = [part] * (part is not None and (how in ("optional", "group", "case") or part != blank(kind)))
            for one in part if how in ("repeated", "groups") else there:
                if how in ("group", "groups"):
                    yield tag_encoding(number, START) + message_text(kind, one) + tag_encoding(number, END)
                    continue
                inner = delimited(message_text(kind, one)) if kind in MESSAGES else payload(kind, one)
                yield tag_encoding(number, KINDS[kind][0]) + inner

    def text(self, message):
        return b"".join(self.texts(message)) + message[-1]

    def held(self, message):
        """The messages in a message, each behind its type."""
        for (_, how, kind), part in zip(self.members, message):
            inner = kind[1] if how in MAPS else kind
            if inner in MESSAGES:
                whole = [it for _, it in walked(how, part)] if how in MAPS else part
                for one in whole if how in (*MAPS, "repeated", "groups") else [part] * (part is not None):
                    yield inner, one

    def slots(self, message):
        """The slots of the messages in a message: of each the length of its encoding, then its own slots."""
        found = []
        for inner, one in self.held(message):
            found += [len(message_text(inner, one)), *BY_MEMBERS[inner].slots(one)]
        return found

    def is_whole(self, message):
        """Whether all that is required is there, in the messages of the members too."""
        lacking = [number for (number, _, _), part in zip(self.members, message) if number in self.required and part is None]
        return not lacking and all(BY_MEMBERS[inner].is_whole(one) for inner, one in self.held(message))

    def said(self, message):
        """What the calls of the members with defaults say."""
        for (number, _, kind), part in zip(self.members, message):
            if number in self.defaults:
                yield word(kind, self.defaults[number] if part is None else part)

    def word(self, message):
        words = []
        for (_, how, kind), part in zip(self.members, message):
            if how in MAPS:
                words.append("{" + ",".join(sorted(f"{word(kind[0], key)}={word(kind[1], it)}" for key, it in part.items())) + "}")
            elif how in ("repeated", "packed", "groups"):
                words.append("[" + ",".join(word(kind, it) for it in part) + "]")
            else:
                words.append("none" if part is None else word(kind, part))
        words += [message[-1].hex()] * self.keeps + [*self.said(message)]
        words += ["whole" if self.is_whole(message) else "lacks"] * bool(self.required)
        return "(" + "|".join(words) + ")"


def declare(kind, cost, members, keeps=False, required=(), defaults=None):
    """Declares a type, and what one of its messages costs in units where it is an element."""
    BY_MEMBERS[kind] = ByMembers(members, keeps, required, defaults)
    KINDS[kind] = (DELIMITED, cost)
    MESSAGES.add(kind)
    BLANKS[kind] = BY_MEMBERS[kind].blank()


def numbers(how, places):
    return [(number, how, kind) for number, kind in zip(places, NUMBERS)]


declare("inventory", 96, [(1, "plain", "int32"), (2, "plain", "string"), (3, "optional", "bool"), (5, "map", ("string", "int32"))], True)
declare("parcel", 112, [(1, "plain", "int64"), (2, "optional", "inventory")])
declare("depot", 56, [(1, "plain", "string"), (2, "repeated", "parcel")])
declare("pallet", 160, [(1, "plain", "string"), (2, "group", "inventory"), (3, "groups", "inventory")])
declare("store", 72, [(1, "plain", "string"), (2, "map", ("string", "inventory"))])
declare("ledger", 96, [
    (1, "ordered", ("string", "int32")), (2, "ordered", ("int32", "inventory")), (3, "ordered", ("bool", "bytes")),
], True)
declare("load", 56, [(1, "optional", "int32"), (2, "optional", "string")], True)
declare("wagon", 392, [
    (1, "optional", "load"), (2, "repeated", "load"), (3, "group", "load"), (4, "groups", "load"),
    (5, "map", ("string", "load")), (6, "ordered", ("int32", "load")), (7, "plain", "int64"), (8, "optional", "string"),
    (9, "optional", "open"), (10, "packed", "int32"), (11, "repeated", "string"), (12, "map", ("string", "int32")),
    (13, "ordered", ("int32", "int32")),
], True)
declare("order", 256, [
    (1, "plain", "int64"), (2, "plain", "string"), (3, "optional", "bool"), (4, "plain", "open"),
    (5, "map", ("string", "int32")), (6, "plain", "bytes"), (7, "packed", "sint32"), (8, "optional", "string"),
    (9, "optional", "fixed64"), (10, "map", ("int32", "string")), (11, "repeated", "string"), (12, "optional", "int32"),
])
declare("train", 72, [(1, "map", ("int32", "wagon")), (2, "repeated", "wagon")])
declare("implicit", 80, numbers("plain", range(1, 12)))
declare("explicit", 160, numbers("optional", [1, 2, 3, 4, 5, 6, 7, 8, 15, 16, 2**29 - 1]), True)
declare("separate", 264, numbers("repeated", range(1, 12)))
declare("joined", 288, numbers("packed", [1, 2, 3, 4, 5, 6, 7, 15, 16, 2047, 2048]), True)
declare("assorted", 216, [
    (1, "optional", "bytes"), (2, "optional", "open"), (3, "repeated", "bytes"), (4, "repeated", "open"),
    (5, "packed", "open"), (6, "map", ("bool", "bytes")), (7, "map", ("int64", "open")), (8, "plain", "bytes"),
], True)
declare("swatch", 64, [(1, "optional", "old"), (2, "repeated", "old")], True)
declare("palette", 256, [
    (1, "plain", "int32"), (3, "map", ("int32", "old")), (4, "optional", "old"), (5, "repeated", "old"), (6, "packed", "old"),
    (7, "ordered", ("int32", "old")), (8, "optional", "swatch"), (9, "group", "swatch"),
], True)
declare("branch", 96, [(1, "plain", "string"), (2, "repeated", "int32"), (3, "repeated", "branch")], True)
declare("settings", 96, [(1, "plain", "string"), (2, "ordered", ("string", "settings")), (3, "repeated", "int32")], True)
declare("failure", 88, [(1, "plain", "string"), (2, "optional", "failure"), (3, "repeated", "int32")], True)
declare("transfer", 56, [(1, "plain", "string"), (2, "plain", "int32")], True)
declare("payment", 128, [
    (1, "plain", "int32"), (2, "case", "string"), (3, "case", "int32"), (4, "case", "transfer"), (5, "plain", "string"),
], True)

# The defaults of real numbers are their bits: those of -1.5, and of 0.25.
declare(
    "spot", 72, [(1, "optional", "float"), (2, "optional", "float"), (3, "optional", "float")], True,
    required={1, 2}, defaults={3: 0xBFC00000},
)
declare("measure", 384, [
    (1, "optional", "string"), (2, "optional", "double"), (3, "optional", "unit"), (4, "packed", "float"),
    (5, "repeated", "double"), (6, "map", ("int32", "double")), (7, "optional", "spot"), (8, "repeated", "spot"),
    (9, "optional", "string"),
], True, required={1}, defaults={2: 0x3FD0000000000000, 3: 2, 9: b"calm"})
