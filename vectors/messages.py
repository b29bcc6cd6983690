"""Writes vectors/messages.tsv by Google's protobuf; rows.py in vectors/google makes rows of it.

It needs python3-protobuf (3.21.12 was used): python3 vectors/messages.py, at the top. A seed may be given as an argument.
"""
import random
import sys
from pathlib import Path

from google.protobuf import descriptor_pb2, descriptor_pool, message, message_factory

SOURCE = Path(__file__).resolve().parent / "messages.tsv"

FIELD = descriptor_pb2.FieldDescriptorProto


def field(owner, name, number, kind, label=FIELD.LABEL_OPTIONAL, of=None):
    one = owner.field.add(name=name, number=number, type=kind, label=label)
    if of is not None:
        one.type_name = ".vectors." + of
    return one


def entries(owner, name, number, of):
    """A map<int32, of> field."""
    entry = owner.nested_type.add(name=name.capitalize() + "Entry")
    entry.options.map_entry = True
    field(entry, "key", 1, FIELD.TYPE_INT32)
    field(entry, "value", 2, FIELD.TYPE_MESSAGE, of=of)
    path = owner.name + "." + entry.name
    field(owner, name, number, FIELD.TYPE_MESSAGE, FIELD.LABEL_REPEATED, path)


def types():
    file = descriptor_pb2.FileDescriptorProto(name="vectors.proto", package="vectors", syntax="proto3")
    flat = file.message_type.add(name="Flat")
    field(flat, "value", 1, FIELD.TYPE_INT32)
    two = file.message_type.add(name="Two")
    field(two, "a", 1, FIELD.TYPE_INT32)
    field(two, "b", 2, FIELD.TYPE_INT32)
    count = file.message_type.add(name="Count")
    field(count, "n", 9, FIELD.TYPE_INT32, FIELD.LABEL_REPEATED).options.packed = False
    tree = file.message_type.add(name="Tree")
    field(tree, "label", 1, FIELD.TYPE_INT32)
    entries(tree, "children", 2, "Tree")
    entries(file.message_type.add(name="Flats"), "map", 4, "Flat")
    entries(file.message_type.add(name="Twos"), "map", 5, "Two")
    pool = descriptor_pool.DescriptorPool()
    pool.Add(file)
    factory = message_factory.MessageFactory(pool)
    return [factory.GetPrototype(pool.FindMessageTypeByName("vectors." + m.name)) for m in file.message_type]


FLAT, TWO, COUNT, TREE, FLATS, TWOS = types()
DRAW = random.Random(int(sys.argv[1]) if len(sys.argv) > 1 else 8)
NUMBERS = [0, 0, 1, -1, 127, 128, 300, -7, 2**31 - 1, -(2**31)]


def number():
    return DRAW.choice(NUMBERS + [DRAW.randrange(-(2**31), 2**31)])


def text(value):
    return value.SerializeToString(deterministic=True)


def words(value):
    """What a message holds, as the tests print it."""
    name = value.DESCRIPTOR.name
    if name == "Flat":
        return f"{value.value}"
    if name == "Two":
        return f"{value.a},{value.b}"
    if name == "Count":
        return f"{len(value.n)}"
    if name == "Tree":
        inner = "".join(f"{key}:{words(value.children[key])} " for key in sorted(value.children))
        return f"{value.label}({inner})".replace(" ", ";")
    return "".join(f"{key}={words(value.map[key])};" for key in sorted(value.map)) or ";"


def tree(levels):
    new = TREE(label=number())
    if levels:
        for _ in range(DRAW.randrange(3)):
            new.children[number()].CopyFrom(tree(levels - 1))
    return new


def samples():
    for _ in range(6):
        yield FLAT(value=number())
        yield TWO(a=number(), b=number())
        yield COUNT(n=[0] * DRAW.randrange(5))
        yield tree(3)
        flats, twos = FLATS(), TWOS()
        for _ in range(DRAW.randrange(4)):
            flats.map[number()].value = number()
            twos.map[number()].CopyFrom(TWO(a=number(), b=number()))
        yield flats
        yield twos


# Fields that no message declares: a varint, four and eight bytes, bytes, a group with a field.
UNKNOWN = ["5805", "6501020304", "690102030405060708", "72026869", "7b080a7c"]


def rows():
    for sample in samples():
        kind = type(sample)
        whole = text(sample)
        yield kind, "both", whole, words(sample)
        # A later message is merged into an earlier one, and other fields are passed over; fields of maps alone
        # are read as runs, which have no other fields.
        if kind in (FLATS, TWOS):
            joined = whole + text(next(other for other in samples() if type(other) is kind))
        else:
            other = {FLAT: FLAT(value=5), TWO: TWO(b=9), COUNT: COUNT(n=[0]), TREE: tree(2)}[kind]
            joined = whole + bytes.fromhex(DRAW.choice(UNKNOWN)) + text(other)
        yield kind, "read", joined, words(kind.FromString(joined))
        for cut in sorted({DRAW.randrange(len(joined)) for _ in range(3)} if joined else ()):
            begun = joined[:cut]
            try:
                yield kind, "read", begun, words(kind.FromString(begun))
            except message.DecodeError:
                yield kind, "refused", begun, "-"


def main():
    lines = []
    for kind, mode, held, said in rows():
        line = "\t".join([kind.DESCRIPTOR.name.lower(), mode, held.hex() or "-", said])
        if line not in lines:
            lines.append(line)
    SOURCE.write_text(
        "# Messages that protobuf 3.21.12 (Python) wrote, in deterministic order, or read, or refused to read.\n"
        "# message, both (written and read) or read or refused, bytes in hex (- for none), what it then holds\n"
        + "".join(line + "\n" for line in lines),
        encoding="ascii",
    )


if __name__ == "__main__":
    main()
