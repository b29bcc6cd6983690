"""Messages of payment.proto, checked by a library that is proved; made by c_library.

It loads out/libsample_payment_c.so beside it, which `make` builds.
"""
import ctypes
import os
import struct
import typing

_LIBRARY = ctypes.CDLL(os.path.join(os.path.dirname(os.path.abspath(__file__)), "out", "libsample_payment_c.so"))
_BYTES = [ctypes.c_char_p, ctypes.c_size_t]
_OUT = [ctypes.c_char_p, ctypes.c_size_t, ctypes.POINTER(ctypes.c_size_t)]


class Refused(ValueError):
    """Why bytes were refused: `answer` is a number of the library's, such as INVALID_UTF8."""

    def __init__(self, answer):
        super().__init__(NAMES[answer] if answer < len(NAMES) else str(answer))
        self.answer = answer


def _call(name, more):
    made = getattr(_LIBRARY, name)
    made.argtypes, made.restype = _BYTES + more, ctypes.c_uint32
    return made


def _answered(answer):
    if answer == OUT_OF_MEMORY:
        raise MemoryError
    if answer:
        raise Refused(answer)


def _copied(call, data, room, *there):
    out, written = ctypes.create_string_buffer(max(room, 1)), ctypes.c_size_t()
    _answered(call(data, len(data), *there, out, room, ctypes.byref(written)))
    return out.raw[: written.value]


def _canonical(call, room, data):
    try:
        return _copied(call, data, len(data))
    except Refused as it:
        if it.answer != NO_ROOM:
            raise
    return _copied(call, data, _measured(room, data))


def _measured(call, data):
    room = ctypes.c_size_t()
    _answered(call(data, len(data), ctypes.byref(room)))
    return room.value


def _told(call, kind, data):
    value = kind()
    _answered(call(data, len(data), ctypes.byref(value)))
    return value.value


def _told_if(call, kind, data):
    there, value = ctypes.c_bool(), kind()
    _answered(call(data, len(data), ctypes.byref(there), ctypes.byref(value)))
    return value.value if there.value else None


def _copied_if(call, data):
    there = ctypes.c_bool()
    made = _copied(call, data, len(data), ctypes.byref(there))
    return made if there.value else None


def _real(bits, whole, real):
    return None if bits is None else struct.unpack(real, struct.pack(whole, bits))[0]


def _text(data):
    return None if data is None else data.decode()


class Step(typing.NamedTuple):
    """A field on the way to the place at which bytes are refused."""

    number: int
    index: typing.Optional[int]  # how many of this number are in front of it, in a list or a map
    name: typing.Optional[str]  # where the message declares it

    def __str__(self):
        return (self.name or str(self.number)) + ("" if self.index is None else f"[{self.index}]")


class Place(typing.NamedTuple):
    """Where bytes are refused: the fields from the outside in, where the refused record begins, and the number of the fault."""

    path: tuple
    offset: int
    fault: int

    def __str__(self):
        path = ".".join(map(str, self.path))
        return f"{path}{' ' if path else ''}at byte {self.offset}: {NAMES[self.fault]}"


class _Step(ctypes.Structure):
    _fields_ = [("number", ctypes.c_uint32), ("listed", ctypes.c_uint32), ("index", ctypes.c_size_t)]


_SIZE = ctypes.POINTER(ctypes.c_size_t)
_LIMITS = [ctypes.c_size_t, ctypes.c_uint32, ctypes.c_size_t, ctypes.c_size_t]
_PLACE = _LIMITS + [ctypes.POINTER(_Step), ctypes.c_size_t, _SIZE, _SIZE]


def _placed(call, message, data, limits):
    steps, offset, room = ctypes.c_size_t(16), ctypes.c_size_t(), 0
    while steps.value > room:
        room = steps.value
        path = (_Step * room)()
        answer = call(data, len(data), *limits, path, room, ctypes.byref(steps), ctypes.byref(offset))
    if answer in (OUT_OF_MEMORY, TOO_LONG):
        _answered(answer)
    return Place(tuple(_named(message, path[: steps.value])), offset.value, answer) if answer else None


def _named(message, path):
    for step in path:
        name, message = _FIELDS[message].get(step.number, (None, None)) if message is not None else (None, None)
        yield Step(step.number, step.index if step.listed else None, name)


UNEXPECTED_EOF = 1
VARINT_TOO_LONG = 2
INVALID_FIELD_NUMBER = 3
INVALID_WIRE_TYPE = 4
WIRE_TYPE_MISMATCH = 5
INVALID_UTF8 = 6
MESSAGE_TOO_LARGE = 7
RECURSION_LIMIT_EXCEEDED = 8
UNKNOWN_FIELD_LIMIT_EXCEEDED = 9
ELEMENT_MEMORY_LIMIT_EXCEEDED = 10
INVALID_END_GROUP = 11
INVALID_MESSAGE_SET = 12
UNEXPECTED_FIELD = 13
OUT_OF_MEMORY = 14
TOO_LONG = 15
NOT_CANONICAL = 16
MISSING_REQUIRED = 17
NO_ROOM = 18
TOO_LARGE = 19
NAMES = ("ACCEPTED", "UNEXPECTED_EOF", "VARINT_TOO_LONG", "INVALID_FIELD_NUMBER", "INVALID_WIRE_TYPE", "WIRE_TYPE_MISMATCH", "INVALID_UTF8", "MESSAGE_TOO_LARGE", "RECURSION_LIMIT_EXCEEDED", "UNKNOWN_FIELD_LIMIT_EXCEEDED", "ELEMENT_MEMORY_LIMIT_EXCEEDED", "INVALID_END_GROUP", "INVALID_MESSAGE_SET", "UNEXPECTED_FIELD", "OUT_OF_MEMORY", "TOO_LONG", "NOT_CANONICAL", "MISSING_REQUIRED", "NO_ROOM", "TOO_LARGE")

# Of each message its fields by their numbers: their names, and which of these messages is in them.
_FIELDS = (
    {1: ("amount", None), 2: ("card", None), 3: ("cash", None), 4: ("transfer", 1), 5: ("note", None)},
    {1: ("to", None), 2: ("day", None)},
)

_payment_check = _call("payment_check", [])
_payment_check_within = _call("payment_check_within", [ctypes.c_size_t, ctypes.c_uint32, ctypes.c_size_t, ctypes.c_size_t])
_payment_place = _call("payment_place", _PLACE)
_payment_canonical = _call("payment_canonical", _OUT)
_payment_room = _call("payment_room", [ctypes.POINTER(ctypes.c_size_t)])
_payment_is_canonical = _call("payment_is_canonical", [])
_payment_canonical_declared = _call("payment_canonical_declared", _OUT)
_payment_amount = _call("payment_amount", [ctypes.POINTER(ctypes.c_int32)])
_payment_note = _call("payment_note", _OUT)

_transfer_check = _call("transfer_check", [])
_transfer_check_within = _call("transfer_check_within", [ctypes.c_size_t, ctypes.c_uint32, ctypes.c_size_t, ctypes.c_size_t])
_transfer_place = _call("transfer_place", _PLACE)
_transfer_canonical = _call("transfer_canonical", _OUT)
_transfer_room = _call("transfer_room", [ctypes.POINTER(ctypes.c_size_t)])
_transfer_is_canonical = _call("transfer_is_canonical", [])
_transfer_canonical_declared = _call("transfer_canonical_declared", _OUT)
_transfer_to = _call("transfer_to", _OUT)
_transfer_day = _call("transfer_day", [ctypes.POINTER(ctypes.c_int32)])


def payment_check(data):
    """Raises Refused where the bytes aren't accepted as buffa.sample.Payment."""
    _answered(_payment_check(data, len(data)))


def payment_check_within(data, longest=2**31 - 1, depth=100, unknown=1_000_000, units=2**28):
    """The same under limits of yours."""
    _answered(_payment_check_within(data, len(data), longest, depth, unknown, units))


def payment_place(data, longest=2**31 - 1, depth=100, unknown=1_000_000, units=2**28):
    """The Place at which the bytes are refused, or None where they are accepted."""
    return _placed(_payment_place, 0, data, (longest, depth, unknown, units))


def payment_canonical(data):
    """The encoding of what the bytes mean."""
    return _canonical(_payment_canonical, _payment_room, data)


def payment_room(data):
    """How many bytes that encoding has."""
    return _measured(_payment_room, data)


def payment_is_canonical(data):
    """Raises Refused where the bytes aren't the encoding of what they mean."""
    _answered(_payment_is_canonical(data, len(data)))


def payment_canonical_declared(data):
    """The encoding of what is left without the fields that aren't declared, in the messages inside, too."""
    return _canonical(_payment_canonical_declared, _payment_room, data)


def payment_amount(data):
    """The member amount of what the bytes mean."""
    return _told(_payment_amount, ctypes.c_int32, data)


def payment_note(data):
    """The member note of what the bytes mean."""
    return _text(_copied(_payment_note, data, len(data)))


def transfer_check(data):
    """Raises Refused where the bytes aren't accepted as buffa.sample.Transfer."""
    _answered(_transfer_check(data, len(data)))


def transfer_check_within(data, longest=2**31 - 1, depth=100, unknown=1_000_000, units=2**28):
    """The same under limits of yours."""
    _answered(_transfer_check_within(data, len(data), longest, depth, unknown, units))


def transfer_place(data, longest=2**31 - 1, depth=100, unknown=1_000_000, units=2**28):
    """The Place at which the bytes are refused, or None where they are accepted."""
    return _placed(_transfer_place, 1, data, (longest, depth, unknown, units))


def transfer_canonical(data):
    """The encoding of what the bytes mean."""
    return _canonical(_transfer_canonical, _transfer_room, data)


def transfer_room(data):
    """How many bytes that encoding has."""
    return _measured(_transfer_room, data)


def transfer_is_canonical(data):
    """Raises Refused where the bytes aren't the encoding of what they mean."""
    _answered(_transfer_is_canonical(data, len(data)))


def transfer_canonical_declared(data):
    """The encoding of what is left without the fields that aren't declared, in the messages inside, too."""
    return _canonical(_transfer_canonical_declared, _transfer_room, data)


def transfer_to(data):
    """The member to of what the bytes mean."""
    return _text(_copied(_transfer_to, data, len(data)))


def transfer_day(data):
    """The member day of what the bytes mean."""
    return _told(_transfer_day, ctypes.c_int32, data)
