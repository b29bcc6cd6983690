"""Writes vectors/members.tsv by Google's protobuf; rows.py in vectors/google makes rows of it.

It needs protoc, g++ and libprotobuf-dev (3.21.12 was used): python3 vectors/members.py, at the top. A seed may be given
as an argument. Asked are messages of each type of members.proto, wagons.proto, palettes.proto and measures.proto, which are
drawn by its kinds of fields: values of each kind, many entries of a map, fields at random, beginnings of them, and bytes that
no reader takes; and the bytes of the rows of vectors/cases/members.tsv, but for those on limits. Where Google's answer may be
another one stands in the table, with why, as `apart.py` finds it in the bytes.
"""
import re
import subprocess
import tempfile
from pathlib import Path

from apart import Types, Walk, apart, reasons_in
from enums import varint
from nodes import DRAW, at_random

HERE = Path(__file__).resolve().parent
PROTOS = ["members.proto", "wagons.proto", "palettes.proto", "measures.proto"]
STRICT, *LOOSE = ((HERE / name).read_text(encoding="ascii") for name in PROTOS)
TEXT = "".join([STRICT, *LOOSE])
GROUP = re.compile(r"group (\w+) = (\d+) {(.*?)}", re.DOTALL)
GROUPS = {name: body for name, _, body in GROUP.findall(TEXT)}
ONEOF = re.compile(r"oneof \w+ {(.*?)}", re.DOTALL)
# The messages; a group in one is a member of its own type, and so is each case of a oneof.
MESSAGES = dict(re.findall(r"message (\w+) {(.*?)}", ONEOF.sub(r"\1", GROUP.sub(r"\1 it = \2;", TEXT)), re.DOTALL))
MEMBER = re.compile(
    r"(?:(optional|required|repeated) )?(?:map<(\w+), (\w+)>|(\w+)) \w+ = (\d+)"
    r"(?: \[(?:(default) = 0|(?:packed|default) = [^\]]+)\])?;"
)
# The types, of each its members: how often one stands, the kind of a key, the kind of a value, the number. One with a
# default of 0 is told as that where it isn't there, and is asked of no field that is its default; one with another default is as
# any optional one.
TYPES = {
    name: [(default or often, key, value or kind, int(number)) for often, key, value, kind, number, default in MEMBER.findall(body)]
    for name, body in (MESSAGES | GROUPS).items()
}
VARINT, EIGHT, DELIMITED, START, END, FOUR = range(6)
WIRES = {
    "fixed64": EIGHT, "sfixed64": EIGHT, "fixed32": FOUR, "sfixed32": FOUR, "string": DELIMITED, "bytes": DELIMITED,
    "float": FOUR, "double": EIGHT,
}
# The numbers that are spelled for a value; of varints some that have more bits than a number of 32.
NUMBERS = {
    VARINT: [0, 1, 2**64 - 1, 2**31 - 1, 2**31, 2**32 - 1, 2**32 + 5, 2**63 - 1, 2**63],
    FOUR: [0, 1, 2**31 - 1, 2**31, 2**32 - 1],
    EIGHT: [0, 1, 2**63 - 1, 2**63, 2**64 - 1],
}
# Closed enums: one that is an open one of ours is asked of the values that it declares, the others of any.
DECLARED = [0, 1]
CLOSED = {
    "Closed": DECLARED * 5, "Tone": [0, 1, 2, 1, 2**64 - 5, 0, 2**32 + 1, 99, 2**32 + 7],
    "Unit": [1, 2, 0, 1, 2**64 - 5, 2, 2**32 + 1, 99, 2**32 + 7],
}
TEXTS = ["", "a", "b", "ab", "Z", "\u00e9", "a b", "x" * 130]

# The same, as `apart` takes them.
KNOWN = Types(
    {name: {it[3]: it[:3] for it in members} for name, members in TYPES.items()}, GROUPS,
    dict.fromkeys(CLOSED, DECLARED) | {"Unit": [1, 2]}, {"Closed"},
    strict=set(re.findall(r"message (\w+)", STRICT)),
)

# Types with maps that are written in the order of their keys.
IN_ORDER = {"Ledger", "Wagon", "Palette", "Settings"}

# Types with a oneof.
WITH_CASES = {"Payment"}

# Types that hold themselves; then the one with a oneof, behind the type of one of its cases; and those of measures.proto. They are
# drawn last, in this order, so that what is drawn of the others stays.
LAST = ["Branch", "Settings", "Failure", "Transfer", "Payment", "Measure", "Spot"]


def wire(kind):
    return START if kind in GROUPS else DELIMITED if kind in TYPES else WIRES.get(kind, VARINT)


def delimited(text):
    return varint(len(text)) + text


def payload(kind, at, levels):
    """The payload of a value: one of the numbers or texts, or a message of fewer levels."""
    if kind in TYPES:
        return delimited(message(kind, levels - 1))
    if wire(kind) == VARINT:
        number = CLOSED.get(kind, NUMBERS[VARINT])[at % 9]
        return varint(number, 1 if DRAW.randrange(9) == 0 and number < 2**32 else 0)
    if wire(kind) == DELIMITED:
        text = TEXTS[at % 8].encode()
        return delimited(text if kind == "string" else text[::-1])
    return NUMBERS[wire(kind)][at % 5].to_bytes(4 if wire(kind) == FOUR else 8, "little")


def field(number, wire_type, text):
    return varint(number * 8 + wire_type) + text


def entry(key, value, at, levels):
    """An entry: key and value, the value first, one of them or none, twice, or with another field."""
    # a bool of 2^32 and more is another one to them
    first = field(1, wire(key), payload(key, at % 2 if key == "bool" else at, levels))
    second = field(2, wire(value), payload(value, at + 1, levels))
    shapes = [second + first, first, second, b"", first + second + first, first + b"\x1d1234" + second]
    return delimited((shapes + [first + second] * 6)[at % 12])


def member(often, key, kind, number, at, levels):
    """A field of a member; of a list one element, or packed ones where the kind can be packed."""
    if key:
        return field(number, DELIMITED, entry(key, kind, at, levels))
    if kind in GROUPS:
        return field(number, START, message(kind, levels - 1) + varint(number * 8 + END))
    if often == "default" and at % 9 == 0:
        at += 1
    if often == "repeated" and wire(kind) != DELIMITED and at % 2:
        return field(number, DELIMITED, delimited(b"".join(payload(kind, at + it, levels) for it in range(at % 4))))
    return field(number, wire(kind), payload(kind, at, levels))


def other(members):
    """A field of no member."""
    number = DRAW.choice([it for it in (13, 14, 17, 999, 2**29 - 2) if it not in members])
    shapes = [
        field(number, VARINT, varint(DRAW.choice([0, 7, 2**64 - 1]))), field(number, FOUR, b"1234"),
        field(number, EIGHT, b"12345678"), field(number, DELIMITED, DRAW.choice([b"\0", b"\3xyz"])),
    ]
    group = DRAW.choice(shapes) + DRAW.choice([b"", b"\x13\x08\x05\x14"]) + varint(number * 8 + END)
    return DRAW.choice([*shapes, field(number, START, group)])


def one_field(kind, levels):
    members = TYPES[kind]
    if DRAW.randrange(6) == 0:
        return other({it[3] for it in members})
    often, key, inner, number = DRAW.choice([it for it in members if levels or it[2] not in TYPES])
    return member(often, key, inner, number, DRAW.randrange(72), levels)


def message(kind, levels):
    return b"".join(one_field(kind, levels) for _ in range(DRAW.randrange(4)))


def all_members(kind):
    """Messages with a field of each member: of each number and text in turn, then three times, in any order."""
    for at in range(9):
        yield b"".join(member(*it, at, 1) for it in TYPES[kind])
    for most in (6, 9):
        fields = [member(*it, at, 1) for it in TYPES[kind] for at in range(most - 3, most)]
        DRAW.shuffle(fields)
        yield b"".join(fields)


def many_entries(kind):
    """Messages with four entries of one of the maps and a field of each other member, in any order."""
    for one in [it for it in TYPES[kind] if it[1]] * 2:
        fields = [member(*it, DRAW.randrange(72), 1) for it in TYPES[kind] for _ in range(4 if it == one else 1)]
        DRAW.shuffle(fields)
        yield b"".join(fields)


def many_cases(kind):
    """Messages with some fields of the cases of a oneof, between others, and beginnings of them."""
    for _ in range(16):
        text = b"".join(one_field(kind, 1) for _ in range(DRAW.randrange(4, 9)))
        yield text
        yield text[: DRAW.randrange(len(text))]


def inputs(kind):
    members = [b"", *all_members(kind)]
    if kind in IN_ORDER:
        members += many_entries(kind)
    members += at_random(20 if kind in ("Wagon", *LAST) else 9, lambda: one_field(kind, 4 if kind in LAST else 2))
    if kind in WITH_CASES:
        members += many_cases(kind)
    return [(kind.lower(), it.hex()) for it in members]


def by_hand():
    """What the rows of vectors/cases/members.tsv read, with their answers."""
    found = {}
    for line in (HERE / "cases" / "members.tsv").read_text(encoding="ascii").splitlines():
        fields = line.split("\t")
        if line.startswith("#") or fields[1] not in ("merge", "encode") or "Limit" in fields[6]:
            continue
        if fields[2].capitalize() not in MESSAGES:
            continue
        name, call, kind, _, before, given, answer, after = fields
        after = "refused" if answer != "ok" else after.split("; ")[call == "encode"].removeprefix("text ")
        found.setdefault((kind, (before + given).replace("-", "")), []).append((name, call, after))
    return found


def ask(asked):
    """What the C++ classes make of messages, as their words."""
    lines = "".join(f"{kind.capitalize()} {given}\n" for kind, given in asked)
    done = subprocess.run([f"{AT}/members"], input=lines, capture_output=True, text=True, check=True)
    return dict(zip(asked, (it.split("\t") for it in done.stdout.splitlines())))


def mark_of(told, why, rows):
    """`same`, or `many` where a map without order has more than one pair; or why their answer may be another one: it is on
    the rows by hand."""
    for name, call, after in rows:
        theirs = told[1] if call == "encode" and told != ["refused"] else told[0]
        assert why or theirs == after or call == "encode" and told[2] == "many", f"{name}: {theirs}"
        assert not why or theirs != after, f"{name}: Google agrees"
    if why:
        return f"own {why}"
    return "refused" if told == ["refused"] else "same" if told[2] == "one" else "many"


HEAD = """\
# Messages of members.proto, wagons.proto, palettes.proto and measures.proto as C++ classes of protobuf 3.21.12 read and write them,
# in deterministic order; those that keep no other field are written without these. Those with required fields say at last what the
# calls of members with defaults do, and whether all is there that is required.
# type, bytes in hex (- for none), a mark, what the message then holds, what it is written as. Marks: same; many, a map in it
# that ours writes in no order has more than one pair, and they are in the order of their keys; refused; own and why:
"""


def build():
    """Builds the program."""
    subprocess.run(["protoc", f"-I{HERE}", f"--cpp_out={AT}", *(str(HERE / it) for it in PROTOS)], check=True)
    sources = [str(HERE / "members.cc"), *(f"{AT}/{it.replace('.proto', '.pb.cc')}" for it in PROTOS)]
    subprocess.run(["g++", f"-I{AT}", "-o", f"{AT}/members", *sources, "-lprotobuf", "-lpthread"], check=True)


def main():
    build()
    rows = by_hand()
    kinds = [*(it for it in MESSAGES if it not in LAST), *LAST]
    asked = [*rows, *(it for kind in kinds for it in inputs(kind))]
    told = ask(list(dict.fromkeys(asked)))
    # what they wrote is read to the same, and written alike
    wrote = {it: (it[0], words[1].strip("-")) for it, words in told.items() if words != ["refused"]}
    back = ask(list(dict.fromkeys(wrote.values())))
    lines = []
    for (kind, given), words in told.items():
        why = apart(KNOWN, kind.capitalize(), bytes.fromhex(given), words == ["refused"])
        mark = mark_of(words, why, rows.get((kind, given), []))
        assert words == ["refused"] or back[wrote[(kind, given)]][:2] == words[:2], given
        lines.append("\t".join([kind, given or "-", mark, *([] if mark == "refused" else words[:2])]) + "\n")
    (HERE / "members.tsv").write_text(HEAD + reasons_in(lines) + "".join(lines), encoding="ascii")


if __name__ == "__main__":
    with tempfile.TemporaryDirectory() as AT:
        main()
