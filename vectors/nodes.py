"""Writes vectors/nodes.tsv and sets.tsv by Google's protobuf; rows.py in vectors/google makes rows of them.

It needs protoc, g++ and libprotobuf-dev (3.21.12 was used): python3 vectors/nodes.py, at the top. A seed may be given
as an argument. Asked are the bytes of the rows of vectors/cases/nodes.tsv and sets.tsv, but for those on limits, and
bytes made at random. Where Google's answer may be another one stands in the table, with why, as `apart.py` finds it in the
bytes.
"""
import random
import subprocess
import sys
import tempfile
from pathlib import Path

from apart import Types, apart, reasons_in
from enums import varint

HERE = Path(__file__).resolve().parent
DRAW = random.Random(int(sys.argv[1]) if len(sys.argv) > 1 else 10)

# A node's members, as `apart` takes them, and its enum.
TYPES = Types(
    {"Node": {1: ("", "string", "int32"), 2: ("", "int32", "Node"), 3: ("", "int32", "Shade")}}, closed={"Shade": [0, 1]},
)
KINDS = {"node": "Node", "set": "set"}


def delimited(number, held):
    return varint(number * 8 + 2) + varint(len(held)) + held


def spelled(number):
    """A varint, now and then by a byte more than it needs."""
    return varint(number % 2**64, 1 if DRAW.randrange(9) == 0 and number < 2**32 else 0)


def number():
    return DRAW.choice([0, 1, 1, 7, 127, 128, 300, 2**31 - 1, -1, -(2**31), DRAW.randrange(2**31)])


def a_key():
    return b"\x08" + spelled(DRAW.choice([0, 1, 1, 2, 128, -1, -(2**31)]))


def a_text():
    return delimited(1, DRAW.choice(["", "a", "a", "b", "ab", "Z", "\u00e9", "x" * 130]).encode())


def entry(number_of_field, a_key_of, a_value_of):
    """An entry: key and value, the value first, one of them or none, twice, or with another field."""
    key, value = a_key_of(), a_value_of()
    shapes = [value + key, key, value, b"", key + value + a_key_of() + a_value_of(), key + b"\x1d1234" + value]
    return delimited(number_of_field, DRAW.choice(shapes + [key + value] * 9))


def shade():
    """An entry of field 3, an undeclared one as Google writes it."""
    if DRAW.randrange(3) == 0:
        key = b"\x08" + varint(DRAW.choice([1, 2, 2**64 - 1]))
        return delimited(3, key + b"\x10" + varint(DRAW.choice([2, 99, 2**64 - 5])))
    return entry(3, a_key, lambda: b"\x10" + spelled(DRAW.choice([0, 1, 2**32 + 1])))


def other(least):
    """A field of no meaning, its number at least so much."""
    tag = DRAW.choice([least, least + 1, 15, 16, 999, 2**29 - 1]) * 8
    shapes = [
        varint(tag) + spelled(number()), varint(tag + 5) + b"1234", varint(tag + 1) + b"12345678",
        delimited(tag // 8, DRAW.choice([b"", b"xyz", b"\xff" * 130])),
    ]
    group = varint(tag + 3) + DRAW.choice(shapes) + DRAW.choice([b"", b"\x13\x08\x05\x14"]) + varint(tag + 4)
    return DRAW.choice([*shapes, group])


def node(levels):
    fields = []
    for _ in range(DRAW.randrange(5)):
        shape = DRAW.randrange(4 if levels else 3)
        if shape == 0:
            fields.append(entry(1, a_text, lambda: b"\x10" + spelled(number())))
        if shape == 3:
            fields.append(entry(2, a_key, lambda: delimited(2, node(levels - 1))))
        if shape in (1, 2):
            fields.append(shade() if shape == 1 else other(4))
    return b"".join(fields)


def item():
    """An Item, its message in front now and then; a delimited field, which is one too; or another field."""
    type_id = DRAW.choice([1, 2, 5, 5, 6, 127, 128, 1000, 1000, 2**29 - 1])
    shape = DRAW.randrange(9)
    if shape < 2:
        return delimited(type_id, b"") if shape else other(2)
    message = DRAW.choice([b"", b"\x08\x07\x12\x01a", b"\x08\x05", b"\x12\x01b", b"\x0a\x05\x0a\x01a\x10\x01", b"\x20\x00"])
    parts = [b"\x10" + spelled(type_id), delimited(3, message)]
    return b"\x0b" + b"".join(parts if shape < 8 else parts[::-1]) + b"\x0c"


# What neither reader takes: ends without a start, number 0, wire types that aren't there, too long or too short.
FAULTS = ["0c", "24", "00", "0200", "26", "27", "2bff", "2b34", "2880808080808080808080800100", "2a0561", "2d0102", "2900"]


def at_random(count, make):
    """Bytes that a maker makes, and by turns a beginning of them, or them with a fault between two of their parts."""
    for at in range(count):
        parts = [make() for _ in range(DRAW.randrange(1, 4))]
        whole = b"".join(parts)
        yield whole
        if at % 2:
            yield whole[: DRAW.randrange(len(whole) + 1)]
            continue
        parts.insert(DRAW.randrange(len(parts) + 1), bytes.fromhex(DRAW.choice(FAULTS)))
        yield b"".join(parts)


def by_hand(table, kind):
    """What the rows of a table of vectors/cases read: the bytes, and their answers."""
    found = {}
    for line in (HERE / "cases" / f"{table}.tsv").read_text(encoding="ascii").splitlines():
        fields = line.split("\t")
        if line.startswith("#") or fields[1] not in ("merge", "encode") or fields[2] != kind or "Limit" in fields[6]:
            continue
        name, call, _, _, before, given, answer, after = fields
        after = "refused" if answer != "ok" else after.split("; ")[call == "encode"].removeprefix("text ")
        found.setdefault((before + given).replace("-", ""), []).append((name, call, after))
    return found


def answers(lines):
    """What the C++ classes make of the lines, as their words."""
    told = subprocess.run([f"{AT}/nodes"], input="".join(it + "\n" for it in lines), capture_output=True, text=True, check=True)
    return [it.split("\t") for it in told.stdout.splitlines()]


def ask(kind, inputs):
    return dict(zip(inputs, answers([f"{kind} {it}" for it in inputs])))


def mark_of(told, is_whole, why, rows):
    """`same`, or `held` where not all that is held is written; or why their answer may be another one: it is on the rows
    by hand."""
    for name, call, after in rows:
        theirs = told[1] if call == "encode" and told != ["refused"] else told[0]
        assert why or theirs == after or call == "encode" and not is_whole, f"{name}: {theirs}"
        assert not why or theirs != after, f"{name}: Google agrees"
    if why:
        return f"own {why}"
    return "refused" if told == ["refused"] else "same" if is_whole else "held"


def table(kind, cases, random_inputs):
    rows = by_hand(cases, kind)
    told = ask(kind, list(dict.fromkeys([*rows, *(it.hex() for it in random_inputs)])))
    if kind == "set":
        # what Declaring wrote, which has each Item that it knows once
        wrote = [it[2].strip("-") for given, it in told.items() if given not in rows and it != ["refused"]]
        told |= ask(kind, [it for it in dict.fromkeys(wrote) if it != "refused" and it not in told])
    back = ask(kind, [it[1].strip("-") for it in told.values() if it != ["refused"]])
    lines = []
    for given, words in told.items():
        is_whole = words == ["refused"] or back[words[1].strip("-")][0] == words[0]
        why = apart(TYPES, KINDS[kind], bytes.fromhex(given), words == ["refused"])
        mark = mark_of(words, is_whole, why, rows.get(given, []))
        # the extension of what Declaring wrote itself
        words = words[:2] + ([words[3]] if words[2:3] == [given] else [])
        lines.append("\t".join([given or "-", mark, *([] if mark == "refused" else words)]) + "\n")
    return lines


def build():
    """Builds the program."""
    subprocess.run(["protoc", f"-I{HERE}", f"--cpp_out={AT}", str(HERE / "nodes.proto")], check=True)
    for source in (HERE / "nodes.cc", f"{AT}/nodes.pb.cc"):
        subprocess.run(["g++", f"-I{AT}", "-c", str(source), "-o", f"{AT}/{Path(source).stem}.o"], check=True)
    objects = [f"{AT}/nodes.o", f"{AT}/nodes.pb.o"]
    subprocess.run(["g++", *objects, "-lprotobuf", "-pthread", "-o", f"{AT}/nodes"], check=True)


NODES = """\
# Nodes as C++ classes of protobuf 3.21.12 read and write them, in deterministic order.
# bytes in hex (- for none), a mark, what the node then holds, what it is written as. Marks: same; refused; own and why:
"""
SETS = """\
# MessageSets as C++ classes of protobuf 3.21.12 read and write them, in deterministic order.
# bytes in hex (- for none), a mark, what the set then holds, what it is written as, and, of what a class that declares
# the extension 5 wrote, the bytes of that. Marks: same; held, whose encoding has no records but Items; refused; own and why:
"""


def main():
    build()
    nodes = table("node", "nodes", at_random(16, lambda: node(3)))
    sets = table("set", "sets", at_random(20, item))
    (HERE / "nodes.tsv").write_text(NODES + reasons_in(nodes) + "".join(nodes), encoding="ascii")
    (HERE / "sets.tsv").write_text(SETS + reasons_in(sets) + "".join(sets), encoding="ascii")


if __name__ == "__main__":
    with tempfile.TemporaryDirectory() as AT:
        main()
