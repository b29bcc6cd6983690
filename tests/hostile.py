#!/usr/bin/env python3
"""Makes bytes for messages as one does who wishes a reader ill: tests/hostile.py write puts rows of them into vectors/cases/hostile.tsv,
and without a word it says whether that is what stands there.

For each member of each type that is made of a list of its members: lengths past all bytes, varints of eleven bytes, tags past 2^32, the
longest spellings, and a field twice. For each type: a message of all members, and messages in one another, at each of their limits and
past it by one. The answers are those of `rules.py`; `conformance.py` sees whether the programs give them, cut and cut off at each
place. `memory.py` takes bytes from here, too.
"""
import sys

sys.dont_write_bytecode = True
from rules import (
    BY_MEMBERS, DELIMITED, EIGHT, END, KINDS, MESSAGES, MOST_LEVELS, MOST_UNITS, MOST_UNKNOWN, NODE_MAPS, START, VARINT, delimited,
    tag_encoding, varint_encoding,
)
from second_reading import TOP, Row

TABLE = f"{TOP}/vectors/cases/hostile.tsv"
HEAD = """# Hostile bytes for messages from their fields, made by tests/hostile.py. Columns as in members.tsv.
"""
# Varints of so many bytes are read, and of so many they aren't; a number that no type declares; and how deep chains go.
LONGEST, TOO_LONG, FREE, LEVELS = 10, 11, 500, 3
# Types that aren't made of a list of their members, with what one costs, and members as those of the others.
OTHERS = {
    "node": (96, [(1, "map", NODE_MAPS[1]), (2, "map", NODE_MAPS[2]), (3, "map", NODE_MAPS[3])]),
    "set": (24, [(1, "item", "")]),
}


def members_of(kind):
    return OTHERS[kind][1] if kind in OTHERS else BY_MEMBERS[kind].members


def keeps_unknown(kind):
    return kind == "node" or kind in BY_MEMBERS and BY_MEMBERS[kind].keeps


def wire_of(how, kind):
    return {"map": DELIMITED, "ordered": DELIMITED, "group": START, "groups": START}.get(how) or KINDS[kind][0]


def inner_of(member):
    """The kind of what a member holds: of a map its values."""
    _, how, kind = member
    return kind[1] if how in ("map", "ordered") else kind


def digits(number):
    """A short text for a number, another for each."""
    made = []
    while number:
        made.append(number % 127 + 1)
        number //= 127
    return bytes(made)


def smallest(kind, at):
    """The shortest payload of a value, and for another place another one."""
    wire = KINDS[kind][0]
    if wire == VARINT:
        return varint_encoding(at)
    if wire == DELIMITED:
        return delimited(digits(at))
    return at.to_bytes(8 if wire == EIGHT else 4, "little")


class Maker:
    """Fields of a message; in the messages in it there is what a function of their type says."""

    def __init__(self, inside):
        self.inside = inside

    def payload(self, kind, at):
        return delimited(self.inside(kind)) if kind in MESSAGES else smallest(kind, at)

    def entry(self, kinds, at):
        """An entry of a key of its own; where the value is the default it has none."""
        key = tag_encoding(1, KINDS[kinds[0]][0]) + smallest(kinds[0], at) if at else b""
        inner = self.inside(kinds[1]) if kinds[1] in MESSAGES else b""
        return delimited(key + (tag_encoding(2, DELIMITED) + delimited(inner) if inner else b""))

    def field(self, member, at=0):
        number, how, kind = member
        if how in ("map", "ordered"):
            return tag_encoding(number, DELIMITED) + self.entry(kind, at)
        if how in ("group", "groups"):
            return tag_encoding(number, START) + self.inside(kind) + tag_encoding(number, END)
        if how == "item":
            return b"\x0b\x10" + varint_encoding(at + 1) + b"\x1a\x00\x0c"
        return tag_encoding(number, KINDS[kind][0]) + self.payload(kind, 0)

    def fields(self, member, count):
        """So many fields of a member, the last keys first."""
        return b"".join(self.field(member, at) for at in reversed(range(count)))

    def each(self, kind):
        """A field of each member, and of one that isn't declared, if such are kept."""
        free = tag_encoding(FREE, VARINT) + b"\0" if keeps_unknown(kind) else b""
        return b"".join(self.field(it) for it in members_of(kind)) + free


EMPTY = Maker(lambda _: b"")


def deep(kind, level):
    """A field of each member, and so in the messages in it, to some level."""
    return Maker(lambda inner: deep(inner, level - 1)).each(kind) if level else b""


def chain(kind, member, level, beside=True):
    """Messages in one another by one member, with a field of each other member in each, or without."""
    others = b"".join(EMPTY.field(it) for it in members_of(kind) if beside and it != member)
    made = b""
    for _ in range(level):
        made = others + Maker(lambda _, made=made: made).field(member)
    return made


def padded(made, width):
    """A varint with zeros behind, in so many bytes."""
    return made[:-1] + bytes([made[-1] | 128]) + b"\x80" * (width - len(made) - 1) + b"\0"


def of_member(member):
    """Bytes for a member, and what they show."""
    number, how, kind = member
    wire = wire_of(how, kind)
    tag, whole = tag_encoding(number, wire), EMPTY.field(member)
    behind = whole[len(tag) :]
    yield "a tag of ten bytes", padded(tag, LONGEST) + behind
    yield "a tag of eleven bytes", padded(tag, TOO_LONG) + behind
    yield "a tag past 2^32", varint_encoding((number << 3 | wire) + 2**32) + behind
    yield "a field twice", whole + whole
    if wire == START:
        yield "an end of ten bytes", tag + padded(behind, LONGEST)
        yield "an end of eleven bytes", tag + padded(behind, TOO_LONG)
        yield "two starts and an end", tag + whole
    if wire == DELIMITED:
        yield "a length of 2^64 - 1", tag + varint_encoding(2**64 - 1)
        yield "a length of 2^31", tag + varint_encoding(2**31)
    if wire in (VARINT, DELIMITED):
        what = "a length" if wire else "a number"
        yield f"{what} of ten bytes", tag + padded(behind[:1], LONGEST) + behind[1:]
        yield f"{what} of eleven bytes", tag + padded(behind[:1], TOO_LONG) + behind[1:]
        yield f"{what} whose tenth byte is 2", tag + b"\x80" * (LONGEST - 1) + b"\x02"


def row_of(kind, what, text, depth=MOST_LEVELS, unknown=MOST_UNKNOWN, units=MOST_UNITS):
    """A row, and what is left of its budget."""
    row = f"{kind}, {what}\tmerge\t{kind}\tdepth={depth} unknown={unknown} units={units}\t-\t{text.hex() or '-'}"
    read = Row(f"{row}\t-\t-")
    answer, after = read.outcome(False)
    return f"{row}\t{answer}\t{after}", answer, read.budget


def at_limits(kind, what, text):
    """Rows of bytes at each of their limits, and past it by one."""
    _, _, left = row_of(kind, what, text)
    depth = next(it for it in range(MOST_LEVELS + 1) if row_of(kind, what, text, depth=it)[1] == "ok")
    limits = {"depth": depth, "unknown": MOST_UNKNOWN - left.unknown, "units": MOST_UNITS - left.units}
    yield row_of(kind, f"{what}, at its limits", text, **limits)[0]
    for name, most in limits.items():
        if most:
            said = {"depth": "a level", "unknown": "an unknown field", "units": "a unit"}[name]
            yield row_of(kind, f"{what}, and {said} too few", text, **{**limits, name: most - 1})[0]


def rows():
    """All rows of the table."""
    for kind in sorted(BY_MEMBERS):
        for member in members_of(kind):
            yield from (row_of(kind, f"{what} of {member[0]}", text)[0] for what, text in of_member(member))
            if inner_of(member) == kind:
                yield from at_limits(kind, f"in one another by {member[0]}", chain(kind, member, LEVELS))
                yield row_of(kind, f"a hundred in one another by {member[0]}", chain(kind, member, MOST_LEVELS, False))[0]
                yield row_of(kind, f"one more in one another by {member[0]}", chain(kind, member, MOST_LEVELS + 1, False))[0]
        yield from at_limits(kind, "all members", deep(kind, 1))
        if any(inner_of(it) in MESSAGES for it in members_of(kind)):
            yield from at_limits(kind, "all members and theirs", deep(kind, 2))


def main(words):
    made = HEAD + "".join(f"{it}\n" for it in rows())
    if words == ["write"]:
        with open(TABLE, "w", encoding="utf-8") as it:
            it.write(made)
        return 0
    with open(TABLE, encoding="utf-8") as it:
        if it.read() == made:
            return 0
    print("hostile: vectors/cases/hostile.tsv isn't what tests/hostile.py writes: run tests/hostile.py write")
    return 1


if __name__ == "__main__":
    sys.exit(main(sys.argv[1:]))
