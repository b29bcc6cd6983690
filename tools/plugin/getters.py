"""A getter for each optional member: what the member holds, or its default where nothing is there."""
import struct

from google.protobuf.descriptor_pb2 import FieldDescriptorProto as Field

import recursive
from files import clean
from names import TAKEN

LONGEST = 120
ESCAPES = {"n": 10, "r": 13, "t": 9, '"': 34, "'": 39, "\\": 92}
TEXTS = (Field.TYPE_STRING, Field.TYPE_BYTES)
REALS = (Field.TYPE_FLOAT, Field.TYPE_DOUBLE)
OTHERS = (Field.TYPE_MESSAGE, Field.TYPE_GROUP, Field.TYPE_ENUM)


def unescaped(text):
    """The bytes of a default of bytes, which a descriptor has with octal escapes."""
    made, at = [], 0
    while at < len(text):
        if text[at] != "\\":
            made += text[at].encode()
            at += 1
        elif text[at + 1 : at + 2] in ESCAPES:
            made.append(ESCAPES[text[at + 1]])
            at += 2
        else:
            made.append(int(text[at + 1 : at + 4], 8))
            at += 4
    return made


def is_plain(codes):
    """Whether bytes are text that a literal has as it is."""
    return all(32 <= it < 127 for it in codes)


def literal(codes, is_text):
    """Bytes as a literal of the language."""
    if is_text and not is_plain(codes):
        parts = [it if it.isascii() and it.isprintable() else f"\\u{{{ord(it):x}}}" for it in bytes(codes).decode()]
        return '"' + "".join("\\" + it if it in '"\\' else it for it in parts) + '"'
    parts = [chr(it) if 32 <= it < 127 else f"\\x{it:02x}" for it in codes]
    return ("" if is_text else "b") + '"' + "".join("\\" + it if it in '"\\' else it for it in parts) + '"'


def in_contract(codes):
    """Bytes as contracts write them, and the words in that."""
    if not codes:
        return "[]", {"[]"}
    if is_plain(codes):
        return "(codes " + '"' + "".join("\\" + chr(it) if chr(it) in '"\\' else chr(it) for it in codes) + '")', {"codes"}
    return f"({' ∷ '.join(map(str, codes))} ∷ [])", {"[]", "◌∷◌"}


def has_getter(member):
    """Whether a member has a getter: one that is optional, and holds neither a message nor an encoding, nor bytes that are shared."""
    if not member.rust.startswith("Option<") or member.is_case or member.itself or member.told & {"optional", "shared"}:
        return False
    if member.it.type != Field.TYPE_ENUM:
        return member.it.type not in OTHERS
    # A clause about a closed enum cites the crate that the enum stands in.
    return bool(member.world.crate) or is_open(member) or not member.world.module_of(full_of(member)).startswith("crate")


def is_open(member):
    return member.rust.startswith("Option<EnumValue<")


def full_of(member):
    """The full name of the type of a member that is an enum."""
    return member.it.type_name.lstrip(".")


def said_by(member, enums):
    """The default, as a descriptor has it: the declared one, or that of the type."""
    if member.it.HasField("default_value"):
        return member.it.default_value
    if member.it.type == Field.TYPE_ENUM:
        return enums[full_of(member)].name.it.value[0].name
    return "" if member.it.type in TEXTS else "false" if member.it.type == Field.TYPE_BOOL else "0"


def scalar(member):
    """The default of a number or a bool: as the language has it, as contracts have it, and the words in that."""
    said = said_by(member, None)
    if member.it.type == Field.TYPE_BOOL:
        word = "true" if said == "true" else "false"
        return word, word, {word}
    number = int(said)
    if not member.rust.startswith("Option<i"):
        return str(number), str(number), set()
    word = "pos" if number >= 0 else "negsuc"
    return str(number), f"({word} {number if number >= 0 else -number - 1})", {word}


def bits(member):
    """The default of a real number as its bits, as protoc has it: the nearest double, and for a float the nearest float to that."""
    number = float(said_by(member, None))
    if member.it.type == Field.TYPE_DOUBLE:
        return struct.unpack("<Q", struct.pack("<d", number))[0]
    try:
        return struct.unpack("<I", struct.pack("<f", number))[0]
    except OverflowError:
        return 0x7F800000 if number > 0 else 0xFF800000


def variant(member, enums):
    """The default of an enum, as the name of the value."""
    return enums[full_of(member)].by_name[said_by(member, enums)][1]


def number_of(member, enums):
    """The number of the default of an enum, as contracts write it."""
    number = enums[full_of(member)].by_name[said_by(member, enums)][0].it.number
    return f"pos {number}" if number >= 0 else f"negsuc {-number - 1}"


def with_getter(message):
    return [k for k in message.members if k.has_getter]


def variants_used(message, enums):
    """By their enums, the values of closed enums that are defaults."""
    found = {}
    for member in with_getter(message):
        if member.it.type == Field.TYPE_ENUM and not is_open(member) and not message.holds_itself:
            found.setdefault(full_of(member), set()).add(variant(member, enums))
    return found


def in_clause(message, full, value, enums):
    """What a clause calls a value of an enum: a type that the file imports may have the name, and so may a value of another enum."""
    others = [it for other, of in variants_used(message, enums).items() if other != full for it in of]
    is_taken = value in {*message.world.types.values(), *TAKEN, *others}
    return f"{value}Of{message.world.types[full]}" if is_taken else value


def declared(world, full):
    """The module in which contracts find the values of an enum."""
    parts = world.module_of(full).split("::")
    crate = world.crate if parts[0] == "crate" else parts[0]
    return ".".join(["Rattle", crate, "specs.declared", *parts[1:], world.types[full], "TheVariants"])


def words(message, enums):
    """The words of std that the clauses of the getters have."""
    found = {"◌≡◌", "unwrap_or"} if with_getter(message) else set()
    for member in with_getter(message):
        kind, mapped = member.it.type, set() if message.holds_itself else {"option_map"}
        if kind in TEXTS:
            found |= in_contract(codes_of(member))[1] | mapped | ({"string_bytes"} if is_text(member) and mapped else set())
        elif kind in REALS:
            found |= mapped
        elif kind == Field.TYPE_ENUM:
            found |= {number_of(member, enums).split()[0]} if message.holds_itself or is_open(member) else set()
            found |= {"true"} | mapped if is_open(member) else set()
        else:
            found |= scalar(member)[2]
    return found


def is_text(member):
    """Whether a member is a text, and not one that is held as bytes."""
    return member.it.type == Field.TYPE_STRING and not member.is_bytes


def codes_of(member):
    said = said_by(member, None)
    return unescaped(said) if member.it.type == Field.TYPE_BYTES else list(said.encode())


def text_getter(member, held):
    """A getter of text or bytes: its type, its clause, and the lines of its body."""
    name, codes, is_string = member.name, codes_of(member), is_text(member)
    clause = f"result.now ≡ unwrap_or {held} {in_contract(codes)[0]}"
    call = "as_str" if is_string else "as_slice"
    body = [f"match &self.{name} {{", f"    Some(it) => it.{call}(),", f"    None => {literal(codes, is_string)},", "}"]
    return "&str" if is_string else "&[u8]", clause, body


def real_getter(member, held):
    """A getter of a real number: its type, its clause, and the lines of its body."""
    rust, number = member.rust[len("Option<") : -1], bits(member)
    # As rt fmt lays it out: on one line up to 18 letters between the braces.
    held_bits = f"bits: {number}"
    default = [f"    None => {rust} {{ {held_bits} }},"] if len(held_bits) <= 18 else [f"    None => {rust} {{", f"        {held_bits},", "    },"]
    body = [f"match &self.{member.name} {{", "    Some(it) => *it,", *default, "}"]
    return rust, f"result.bits ≡ unwrap_or {held} {number}", body


def enum_getter(message, member, held, enums):
    """A getter of an enum: its type, its clause, and the lines of its body."""
    rust, value = member.rust[len("Option<") : -1], variant(member, enums)
    name = member.world.types[full_of(member)]
    if is_open(member):
        clause = f"⟦<{rust} as Blank>⟧.meaning result ≡ unwrap_or {held} (true, {number_of(member, enums)})"
        return rust, clause, [f"match &self.{member.name} {{", "    Some(it) => *it,", f"    None => EnumValue::Known({name}::{value}),", "}"]
    if message.holds_itself:
        clause = f"⟦<{rust} as Blank>⟧.meaning result ≡ unwrap_or {held} ({number_of(member, enums)})"
    else:
        clause = f"result ≡ unwrap_or {held} {in_clause(message, full_of(member), value, enums)}"
    return rust, clause, [f"self.{member.name}.unwrap_or({name}::{value})"]


def held_by(message, member, at):
    """What a message, which contracts call `at`, has for a member."""
    if message.holds_itself:
        return f"(rest_of {at}){recursive.at(message, member)}"
    held = f"{at}.{member.in_contract}"
    if member.it.type == Field.TYPE_ENUM and is_open(member):
        return f"(option_map ⟦<{member.rust[len('Option<') : -1]} as Blank>⟧.meaning {held})"
    part = "(λ it. it.bits)" if member.it.type in REALS else "string_bytes" if is_text(member) else "(λ it. it.items)"
    return f"(option_map {part} {held})" if member.it.type in (*TEXTS, *REALS) else held


def getter(message, member, at, enums):
    """The getter of one member of a message, which contracts call `at`."""
    name, held = member.name, held_by(message, member, at)
    if member.it.type in TEXTS:
        rust, clause, body = text_getter(member, held)
    elif member.it.type in REALS:
        rust, clause, body = real_getter(member, held)
    elif member.it.type == Field.TYPE_ENUM:
        rust, clause, body = enum_getter(message, member, held, enums)
    else:
        rust, (value, means, _) = member.rust[len("Option<") : -1], scalar(member)
        clause, body = f"result ≡ unwrap_or {held} {means}", [f"self.{name}.unwrap_or({value})"]
    default = member.default() if member.it.HasField("default_value") else said_by(member, enums) or "empty"
    said = "its default" if member.it.HasField("default_value") else "the default of its type"
    made = [f"    /// `{name}`, or {said} where it isn't there: {clean(default)}.", f"    pub fn {member.getter}(&self) -> {rust}"]
    is_long = len(clause) > LONGEST - len("        ensures is {  }")
    lines = [f"        ensures is {{ {clause} }}"]
    if is_long:
        left, _, right = clause.partition(" ≡ ")
        lines = [f"        ensures is {{ {left}", f"            ≡ {right} }}"]
    return made + lines + ["    {"] + [f"        {it}" for it in body] + ["    }"]


def uses(message, enums):
    """The lines of an impl by which the clauses of its getters know the values of enums."""
    made = []
    for full, of in variants_used(message, enums).items():
        called = {it: in_clause(message, full, it, enums) for it in sorted(of)}
        names = [it if name == it else f"{it} as {name}" for it, name in called.items()]
        made.append(f"    ghost use {declared(message.world, full)}.{{{', '.join(names)}}};")
    return sorted(made)


def getters(message, enums):
    """The getters of a message, one after the other."""
    at = "self.entry.now" if any(k.name == "now" for k in message.members) else "self.now"
    return [getter(message, member, at, enums) for member in with_getter(message)]
