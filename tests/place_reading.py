"""Where bytes are refused, beside the rules of `rules.py` and `member_reading.py`: the fields around the first refused record, and its offset.

Written from what GUIDE says of places, as one reading that stops at the first fault and knows where it is. Where it stops in a
message, as an element of a list, a group, a case of a oneof or the value of an entry, the place is that of the record there.
Of an entry this holds for the first value: where reading stops in a key, in another value or in another field, the place is
that of the entry. A group without its end tag, or with one of another number, is refused itself; so is a message for which
no level or no unit is left.
"""
from member_reading import MAPS
from rules import BY_MEMBERS, DELIMITED, END, KINDS, MESSAGES, START, Budget, Bytes, Fault, blank, merge_field, mismatch, skip, value


class Place:
    """The numbers of the fields, each with the index of one of many; the offset of the refused record; and its fault."""

    def __init__(self, path, offset, fault):
        self.path, self.offset, self.fault = path, offset, fault

    def word(self):
        steps = "".join(f".{number}" if index is None else f".{number}[{index}]" for number, index in self.path)
        return f"{steps} at {self.offset}: {self.fault}"


class Stopped(Exception):
    """Reading stopped in a message, at a place in it."""

    def __init__(self, place):
        super().__init__(place.word())
        self.place = place


class Reader:
    """Reads the fields of messages, under one budget."""

    def __init__(self, budget):
        self.budget = budget

    def read(self, kind, buf, base, depth, group=None):
        """Reads the fields of a message; those of a group up to its end tag. `base` is where the bytes begin in all of them."""
        counts = {}
        while buf.unread() or group:
            at = buf.at
            try:
                number, wire = buf.tag()
            except Fault as fault:
                # behind its last byte a group lacks its end
                raise Stopped(Place([], base + at, str(fault))) if at < len(buf.text) else fault
            if group and wire == END:
                if number != group:
                    raise Fault(f"InvalidEndGroup {number}")
                return
            how, of = next(((how, of) for own, how, of in BY_MEMBERS[kind].members if own == number), (None, None))
            is_one_of_many = how in (*MAPS, "repeated", "groups") and (of[1] if how in MAPS else of) in MESSAGES
            step = number, counts.get(number, 0) if is_one_of_many else None
            try:
                self.field(kind, how, of, buf, base, number, wire, depth)
            except Fault as fault:
                raise Stopped(Place([step], base + at, str(fault))) from None
            except Stopped as it:
                raise Stopped(Place([step, *it.place.path], it.place.offset, it.place.fault)) from None
            counts[number] = counts.get(number, 0) + 1

    def field(self, kind, how, of, buf, base, number, wire, depth):
        if how in MAPS and of[1] in MESSAGES:
            self.entry(of, buf, base, number, wire, depth)
            return
        if of not in MESSAGES:
            merge_field(kind, blank(kind), buf, number, wire, depth, self.budget)
            return
        own = START if how in ("group", "groups") else DELIMITED
        if wire != own:
            raise mismatch(number, own, wire)
        if how in ("repeated", "groups") or how == "optional" and of == kind:
            self.budget.take_units(KINDS[of][1])
        if depth == 0:
            raise Fault("RecursionLimitExceeded")
        if own == START:
            self.read(of, buf, base, depth - 1, number)
        else:
            self.inner(of, buf, base, depth)

    def inner(self, kind, buf, base, depth):
        """A message behind its length, one level down."""
        text = buf.take(buf.varint())
        self.read(kind, Bytes(text), base + buf.at - len(text), depth - 1)

    def entry(self, kinds, buf, base, number, wire, depth):
        """An entry whose value is a message."""
        if wire != DELIMITED:
            raise mismatch(number, DELIMITED, wire)
        text = buf.take(buf.varint())
        self.budget.take_units(KINDS[kinds[0]][1] + KINDS[kinds[1]][1])
        inner, is_first = Bytes(text), True
        while inner.unread():
            place, wire = inner.tag()
            if place not in (1, 2):
                skip(inner, place, wire, depth)
                continue
            if wire != KINDS[kinds[place - 1]][0]:
                raise mismatch(place, KINDS[kinds[place - 1]][0], wire)
            if place == 1:
                value(kinds[0], inner, blank(kinds[0]))
                continue
            if depth == 0:
                raise Fault("RecursionLimitExceeded")
            try:
                self.inner(kinds[1], inner, base + buf.at - len(text), depth)
            except Stopped as it:
                raise it if is_first else Fault(it.place.fault) from None
            is_first = False


def place(kind, text, depth, unknown, units):
    """Where bytes are refused as a message of this type, in words, or that they are read."""
    try:
        Reader(Budget(unknown, units)).read(kind, Bytes(text), 0, depth)
    except Stopped as it:
        return it.place.word()
    return "read"
