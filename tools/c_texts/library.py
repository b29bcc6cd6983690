"""What a library for other languages has: its messages, and the members that calls tell."""
from google.protobuf.descriptor_pb2 import FieldDescriptorProto as Field

from blocks import blocks
from names import KEYWORDS, snake
from oneof import OneOf
from world import MESSAGES

# What a number is in C, in Rust, and in Python's ctypes.
NUMBERS = {
    "i32": ("int32_t", "i32", "c_int32"),
    "i64": ("int64_t", "i64", "c_int64"),
    "u32": ("uint32_t", "u32", "c_uint32"),
    "u64": ("uint64_t", "u64", "c_uint64"),
    "bool": ("bool", "bool", "c_bool"),
}
REALS = {"FloatBits": ("u32", "f32"), "DoubleBits": ("u64", "f64")}
# The calls of each message beside those of its members.
CALLS = "check check_within place canonical canonical_declared room is_canonical".split()


class Told:
    """A member that a call tells: a number, or bytes that are copied into the caller's room."""

    def __init__(self, gate, member, at):
        self.member = member
        self.is_optional = member.rust.startswith("Option<")
        held = member.rust[7:-1] if self.is_optional else member.rust
        self.is_text = held in ("String", "Vec<u8>", "Bytes")
        self.is_utf8 = held == "String"
        self.is_enum = held.startswith("EnumValue<")
        self.real = REALS.get(held, ("", ""))[1]
        self.number = "i32" if self.is_enum else REALS.get(held, (held,))[0]
        self.path = "m" + ".1" * at + ".0"
        self.name = member.name.rstrip("_")
        while f"{gate.prefix}_{self.name}" in gate.taken:
            self.name += "_"
        gate.taken.add(f"{gate.prefix}_{self.name}")
        # What it is called in Rust, in a module of its message.
        self.name_in_rust = self.name + "_" * (self.name in KEYWORDS)


def is_told(member):
    """Whether a call can tell it: a single number, text, bytes or open enum."""
    if isinstance(member, OneOf) or member.itself or member.is_encoded or member.it.label == Field.LABEL_REPEATED:
        return False
    held = member.rust[7:-1] if member.rust.startswith("Option<") else member.rust
    return held in NUMBERS or held in REALS or held in ("String", "Vec<u8>", "Bytes") or held.startswith("EnumValue<")


class Gate:
    """A message, and what calls say of its bytes."""

    def __init__(self, message, types, told):
        self.message, self.rust, self.snake, self.full = message, message.rust, snake(message.rust), message.name.full
        # Whether its type says which of its fields hold messages, so that a place can be told; and whether it takes out what isn't declared.
        self.is_located, self.is_discarding = "places" in told, "discard" in told and message.discards
        self.prefix = self.snake.rstrip("_")
        self.path, self.file = "::".join([types, self.snake]), message.name.file.shown
        self.is_asked, self.told = bool(message.asked), []

    def find_told(self, taken):
        """Finds the members that calls tell, and gives each call a name that no other export has."""
        self.taken = taken
        if not self.message.holds_itself and not blocks(self.message):
            self.told = [Told(self, member, at) for at, member in enumerate(self.message.members) if is_told(member)]


class Library:
    """All that a run makes: the crate's name, its messages, and the .proto files that they are from."""

    def __init__(self, crate, messages, types, told):
        self.crate, self.gates, self.is_located = crate, [Gate(it, types, told) for it in messages], "places" in told
        self.files = sorted({it.file for it in self.gates})
        taken = {f"{gate.prefix}_{name}" for gate in self.gates for name in CALLS}
        for gate in self.gates:
            gate.find_told(taken)

    def find_fields(self, world):
        """Finds the fields by which a place is named, of each message, its own first: their numbers, their names, and which message is in them."""
        order, made = [it.full for it in self.gates], []
        for full in order:
            fields = [(it.number, it.name, held(world, it)) for it in sorted(world.found[full].it.field, key=lambda it: it.number)]
            order += [it for it in dict.fromkeys(inside for _, _, inside in fields) if it and it not in order]
            made.append([(number, name, order.index(inside) if inside else None) for number, name, inside in fields])
        self.fields = made


def held(world, field):
    """The message that a field holds, in a map, too, or none."""
    full = world.target(field) if field.type in MESSAGES else None
    return full if full and hasattr(world.found[full].it, "field") else None
