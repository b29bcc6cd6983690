"""Writes vectors/extensions.tsv by Google's protobuf; rows.py in vectors/google makes rows of it.

It needs python3-protobuf (3.21.12 was used): python3 vectors/extensions.py, at the top.
"""
from pathlib import Path

from google.protobuf import descriptor_pb2, descriptor_pool, message_factory
from google.protobuf.message import DecodeError

SOURCE = Path(__file__).resolve().parent / "extensions.tsv"

FIELD = descriptor_pb2.FieldDescriptorProto

# The values of each scalar type.
I32 = [0, 1, -1, 300, 2**31 - 1, -(2**31)]
I64 = [0, 1, -1, 300, 2**63 - 1, -(2**63)]
U32 = [0, 1, 127, 128, 2**32 - 1]
U64 = [0, 1, 127, 128, 2**64 - 1]
SCALARS = {
    "int32": I32,
    "int64": I64,
    "uint32": U32,
    "uint64": U64,
    "sint32": I32,
    "sint64": I64,
    "bool": [False, True],
    "fixed32": U32,
    "fixed64": U64,
    "sfixed32": I32,
    "sfixed64": I64,
    "enum": [0, 1],
}
OTHERS = {
    "string": ["", "x" * 130, "ok", "h\u00e9"],
    "bytes": [b"", b"\x00\xff", b"\x80" * 3],
    "two": [(0, 0), (3, -1), (0, 7), (5, 0)],
    "two-group": [(0, 0), (3, -1), (0, 7), (5, 0)],
}
# What no reader takes for a message: cut off in a tag, a number, a length or a group; a field of number 0, of wire type 7, or
# that ends what doesn't begin; and a number of eleven bytes.
MALFORMED = ["80", "08", "080580", "1a0561", "1b0805", "0005", "0f", "1c", "08ffffffffffffffffffff01"]
# Packed bytes that are cut off in a number, by the lengths of numbers: of varints, of eight bytes, of four.
CUT_OFF = {0: "05ac", 8: "010000000000000002000000", 4: "01000000020000"}
# How an extension is declared: a word of the table, a label, and whether it is packed.
WAYS = [
    ("one", FIELD.LABEL_OPTIONAL, False),
    ("all", FIELD.LABEL_REPEATED, False),
    ("packed", FIELD.LABEL_REPEATED, True),
]


def declared():
    """A message with a range for extensions, and an extension of each kind and way, by its number."""
    file = descriptor_pb2.FileDescriptorProto(name="vectors.proto", package="vectors", syntax="proto2")
    shade = file.enum_type.add(name="Shade")
    shade.value.add(name="A", number=0)
    shade.value.add(name="B", number=1)
    file.message_type.add(name="Carrier").extension_range.add(start=1, end=536870912)
    two = file.message_type.add(name="Two")
    for number, name in ((1, "a"), (2, "b")):
        two.field.add(name=name, number=number, type=FIELD.TYPE_INT32, label=FIELD.LABEL_OPTIONAL)
    by_kind = {}
    for at, kind in enumerate([*SCALARS, *OTHERS]):
        for step, (way, label, packed) in enumerate(WAYS):
            if packed and kind in OTHERS:
                continue
            # numbers with tags of one byte and of two, and of five
            number = 1 + at * 3 + step if at else 536870909 + step
            one = file.extension.add(name=f"x{number}", number=number, label=label, extendee=".vectors.Carrier")
            if kind == "enum":
                one.type, one.type_name = FIELD.TYPE_ENUM, ".vectors.Shade"
            elif kind == "two":
                one.type, one.type_name = FIELD.TYPE_MESSAGE, ".vectors.Two"
            elif kind == "two-group":
                one.type, one.type_name = FIELD.TYPE_GROUP, ".vectors.Two"
            else:
                one.type = getattr(FIELD, "TYPE_" + kind.upper())
            if packed:
                one.options.packed = True
            by_kind[kind, way] = number
    pool = descriptor_pool.DescriptorPool()
    pool.Add(file)
    factory = message_factory.MessageFactory(pool)
    carrier = factory.GetPrototype(pool.FindMessageTypeByName("vectors.Carrier"))
    found = {}
    for key, number in by_kind.items():
        found[key] = number, pool.FindExtensionByName(f"vectors.x{number}")
        factory.GetPrototype(pool.FindMessageTypeByName("vectors.Two"))
        carrier.RegisterExtension(found[key][1])
    return carrier, found


CARRIER, FOUND = declared()


def word(kind, value):
    if kind == "bool":
        return str(value).lower()
    if kind == "string":
        return "x" + value.encode().hex()
    if kind == "bytes":
        return "x" + value.hex()
    if kind in ("two", "two-group"):
        return f"{value.a},{value.b}"
    return str(value)


def fill(target, kind, value):
    """Puts a pair into a message; a 0 stays unset, as it is written by those who don't write blanks."""
    target.SetInParent()
    for name, number in zip("ab", value):
        if number:
            setattr(target, name, number)


def put(carrier, kind, way, values):
    ext = FOUND[kind, way][1]
    held = carrier.Extensions
    for value in values:
        if kind in ("two", "two-group"):
            fill(held[ext] if way == "one" else held[ext].add(), kind, value)
        elif way == "one":
            held[ext] = value
        else:
            held[ext].append(value)


def text(kind, way, values):
    carrier = CARRIER()
    put(carrier, kind, way, values)
    return carrier.SerializeToString(deterministic=True)


def words(kind, way, held):
    """What the extension holds once the bytes are read."""
    carrier = CARRIER.FromString(held)
    ext = FOUND[kind, way][1]
    if way == "one":
        return word(kind, carrier.Extensions[ext]) if carrier.HasExtension(ext) else "none"
    return " ".join(word(kind, value) for value in carrier.Extensions[ext]) or "none"


def spelled(value):
    left = b""
    while value > 127:
        left, value = left + bytes([value & 127 | 128]), value >> 7
    return left + bytes([value])


def is_refused(held):
    try:
        CARRIER.FromString(held)
    except DecodeError:
        return True
    return False


def renumbered(held, old, new):
    """The records of one number under another, by way of a message that knows neither."""
    out, at = b"", 0

    def varint(place):
        value = shift = 0
        while True:
            byte = held[place]
            value |= (byte & 127) << shift
            place, shift = place + 1, shift + 7
            if byte < 128:
                return value, place

    while at < len(held):
        tag, start = varint(at)
        wire = tag & 7
        if wire == 0:
            _, end = varint(start)
        elif wire == 2:
            length, end = varint(start)
            end += length
        else:
            end = start + (8 if wire == 1 else 4)
        assert tag >> 3 == old
        out, at = out + spelled(new << 3 | wire) + held[start:end], end
    return out


def rows():
    for (kind, way), (number, _) in FOUND.items():
        values = {**SCALARS, **OTHERS}[kind]
        if way == "one":
            # the last two values, written alone, and both one after the other
            for value in values[-2:]:
                yield kind, way, number, "both", text(kind, way, [value])
            yield kind, way, number, "read", text(kind, way, values[-1:]) + text(kind, way, values[-2:-1])
            continue
        yield kind, way, number, "both", text(kind, way, values)
        if kind in SCALARS:
            # what is declared packed is read where it isn't, and the other way round
            other = "packed" if way == "all" else "all"
            begun = text(kind, way, values[:2])
            yield kind, way, number, "read", begun + renumbered(text(kind, other, values), FOUND[kind, other][0], number)


def malformed():
    """Records that are refused, before and behind others of the extension: messages, and packed numbers."""
    for (kind, way), (number, _) in FOUND.items():
        if kind in SCALARS and way != "one":
            length = 8 if kind.endswith("64") else 4
            texts = [CUT_OFF[length if "fixed" in kind else 0]]
        else:
            texts = MALFORMED if kind == "two" else []
        good = text(kind, way, {**SCALARS, **OTHERS}[kind][1:2])
        for inner in map(bytes.fromhex, texts):
            bad = spelled(number * 8 + 2) + spelled(len(inner)) + inner
            for held in (bad, bad + good, good + bad):
                assert is_refused(held), f"{kind} {way}: {held.hex()}"
                yield kind, way, number, "refused", held


def main():
    lines = []
    for kind, way, number, how, held in rows():
        lines.append("\t".join([kind, way, str(number), how, held.hex() or "-", words(kind, way, held)]))
    for kind, way, number, how, held in malformed():
        lines.append("\t".join([kind, way, str(number), how, held.hex(), "none"]))
    SOURCE.write_text(
        "# Extensions that protobuf 3.21.12 (Python) wrote, or read, or refused to read.\n"
        "# kind, one or all or packed, number, both (written and read) or read or refused, bytes in hex, what is then held\n"
        + "".join(line + "\n" for line in lines),
        encoding="ascii",
    )


if __name__ == "__main__":
    main()
