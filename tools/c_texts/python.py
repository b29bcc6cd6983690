"""A module over a library, for Python, by ctypes."""
from header import ANSWERS

HEAD = '''"""Messages of {files}, checked by a library that is proved; made by c_library.

It loads out/lib{crate}.so beside it, which `make` builds.
"""
import ctypes
import os
import struct

_LIBRARY = ctypes.CDLL(os.path.join(os.path.dirname(os.path.abspath(__file__)), "out", "lib{crate}.so"))
_BYTES = [ctypes.c_char_p, ctypes.c_size_t]
_OUT = [ctypes.c_char_p, ctypes.c_size_t, ctypes.POINTER(ctypes.c_size_t)]


class Refused(ValueError):
    """Why bytes were refused: `answer` is a number of the library's, such as INVALID_UTF8."""

    def __init__(self, answer):
        super().__init__(NAMES[answer] if answer < len(NAMES) else str(answer))
        self.answer = answer


def _call(name, more):
    made = getattr(_LIBRARY, name)
    made.argtypes, made.restype = _BYTES + more, ctypes.c_uint32
    return made


def _answered(answer):
    if answer == OUT_OF_MEMORY:
        raise MemoryError
    if answer:
        raise Refused(answer)


def _copied(call, data, room, *there):
    out, written = ctypes.create_string_buffer(max(room, 1)), ctypes.c_size_t()
    _answered(call(data, len(data), *there, out, room, ctypes.byref(written)))
    return out.raw[: written.value]


def _canonical(call, room, data):
    try:
        return _copied(call, data, len(data))
    except Refused as it:
        if it.answer != NO_ROOM:
            raise
    return _copied(call, data, _measured(room, data))


def _measured(call, data):
    room = ctypes.c_size_t()
    _answered(call(data, len(data), ctypes.byref(room)))
    return room.value


def _told(call, kind, data):
    value = kind()
    _answered(call(data, len(data), ctypes.byref(value)))
    return value.value


def _told_if(call, kind, data):
    there, value = ctypes.c_bool(), kind()
    _answered(call(data, len(data), ctypes.byref(there), ctypes.byref(value)))
    return value.value if there.value else None


def _copied_if(call, data):
    there = ctypes.c_bool()
    made = _copied(call, data, len(data), ctypes.byref(there))
    return made if there.value else None


def _real(bits, whole, real):
    return None if bits is None else struct.unpack(real, struct.pack(whole, bits))[0]


def _text(data):
    return None if data is None else data.decode()
'''


PLACES = '''

class Step(typing.NamedTuple):
    """A field on the way to the place at which bytes are refused."""

    number: int
    index: typing.Optional[int]  # how many of this number are in front of it, in a list or a map
    name: typing.Optional[str]  # where the message declares it

    def __str__(self):
        return (self.name or str(self.number)) + ("" if self.index is None else f"[{self.index}]")


class Place(typing.NamedTuple):
    """Where bytes are refused: the fields from the outside in, where the refused record begins, and the number of the fault."""

    path: tuple
    offset: int
    fault: int

    def __str__(self):
        path = ".".join(map(str, self.path))
        return f"{path}{' ' if path else ''}at byte {self.offset}: {NAMES[self.fault]}"


class _Step(ctypes.Structure):
    _fields_ = [("number", ctypes.c_uint32), ("listed", ctypes.c_uint32), ("index", ctypes.c_size_t)]


_SIZE = ctypes.POINTER(ctypes.c_size_t)
_LIMITS = [ctypes.c_size_t, ctypes.c_uint32, ctypes.c_size_t, ctypes.c_size_t]
_PLACE = _LIMITS + [ctypes.POINTER(_Step), ctypes.c_size_t, _SIZE, _SIZE]


def _placed(call, message, data, limits):
    steps, offset, room = ctypes.c_size_t(16), ctypes.c_size_t(), 0
    while steps.value > room:
        room = steps.value
        path = (_Step * room)()
        answer = call(data, len(data), *limits, path, room, ctypes.byref(steps), ctypes.byref(offset))
    if answer in (OUT_OF_MEMORY, TOO_LONG):
        _answered(answer)
    return Place(tuple(_named(message, path[: steps.value])), offset.value, answer) if answer else None


def _named(message, path):
    for step in path:
        name, message = _FIELDS[message].get(step.number, (None, None)) if message is not None else (None, None)
        yield Step(step.number, step.index if step.listed else None, name)
'''


def fields(library):
    """The names of fields, by the numbers of messages and of fields."""
    made = ["", "# Of each message its fields by their numbers: their names, and which of these messages is in them.", "_FIELDS = ("]
    for message in library.fields:
        made += [f"    {{{', '.join(f'{number}: ({quoted(name)}, {inside})' for number, name, inside in message)}}},"]
    return made + [")"]


def quoted(name):
    return f'"{name}"'


def bound(gate, numbers):
    """The library's calls."""
    made = {"check": "[]", "check_within": "[ctypes.c_size_t, ctypes.c_uint32, ctypes.c_size_t, ctypes.c_size_t]"}
    made |= {"place": "_PLACE"} if gate.is_located else {}
    made |= {"canonical": "_OUT", "room": "[ctypes.POINTER(ctypes.c_size_t)]", "is_canonical": "[]"}
    made |= {"canonical_declared": "_OUT"} if gate.is_discarding else {}
    for told in gate.told:
        there = "[ctypes.POINTER(ctypes.c_bool)] + " * told.is_optional
        made[told.name] = there + ("_OUT" if told.is_text else f"[ctypes.POINTER(ctypes.{numbers[told.number][2]})]")
    return [f'_{gate.prefix}_{name} = _call("{gate.prefix}_{name}", {more})' for name, more in made.items()]


def function(name, parameters, said, body):
    return ["", "", f"def {name}({parameters}):", f'    """{said}"""', f"    {body}"]


def tell(gate, told, numbers):
    call, optional = f"_{gate.prefix}_{told.name}", "_if" * told.is_optional
    if told.is_text:
        body = f"_copied_if({call}, data)" if told.is_optional else f"_copied({call}, data, len(data))"
        body = f"_text({body})" if told.is_utf8 else body
    else:
        body = f"_told{optional}({call}, ctypes.{numbers[told.number][2]}, data)"
        whole, real = {"f32": ("<I", "<f"), "f64": ("<Q", "<d")}.get(told.real, ("", ""))
        body = f'_real({body}, "{whole}", "{real}")' if told.real else body
    said = f"The member {told.name} of what the bytes mean" + (", or None." if told.is_optional else ".")
    return function(f"{gate.prefix}_{told.name}", "data", said, f"return {body}")


def functions(gate, numbers, at):
    name = gate.prefix
    made = function(f"{name}_check", "data", f"Raises Refused where the bytes aren't accepted as {gate.full}.", f"_answered(_{name}_check(data, len(data)))")
    limits = "longest=2**31 - 1, depth=100, unknown=1_000_000, units=2**28"
    body = f"_answered(_{name}_check_within(data, len(data), longest, depth, unknown, units))"
    made += function(f"{name}_check_within", f"data, {limits}", "The same under limits of yours.", body)
    if gate.is_located:
        said = "The Place at which the bytes are refused, or None where they are accepted."
        made += function(f"{name}_place", f"data, {limits}", said, f"return _placed(_{name}_place, {at}, data, (longest, depth, unknown, units))")
    made += function(f"{name}_canonical", "data", "The encoding of what the bytes mean.", f"return _canonical(_{name}_canonical, _{name}_room, data)")
    made += function(f"{name}_room", "data", "How many bytes that encoding has.", f"return _measured(_{name}_room, data)")
    said = "Raises Refused where the bytes aren't the encoding of what they mean."
    made += function(f"{name}_is_canonical", "data", said, f"_answered(_{name}_is_canonical(data, len(data)))")
    if gate.is_discarding:
        said = "The encoding of what is left without the fields that aren't declared, in the messages inside, too."
        made += function(f"{name}_canonical_declared", "data", said, f"return _canonical(_{name}_canonical_declared, _{name}_room, data)")
    for told in gate.told:
        made += tell(gate, told, numbers)
    return made


def text(library, numbers):
    head = HEAD.format(files=", ".join(library.files), crate=library.crate)
    made = [(head.replace("import struct\n", "import struct\nimport typing\n") + PLACES if library.is_located else head).rstrip("\n"), "", ""]
    made += [f"{name} = {at}" for at, (name, _) in enumerate(ANSWERS, 1)]
    made += [f"NAMES = ({', '.join(repr(name) for name in ['ACCEPTED'] + [it for it, _ in ANSWERS])})".replace("'", '"')]
    made += fields(library) if library.is_located else []
    for gate in library.gates:
        made += [""] + bound(gate, numbers)
    for at, gate in enumerate(library.gates):
        made += functions(gate, numbers, at)
    return "\n".join(made) + "\n"
