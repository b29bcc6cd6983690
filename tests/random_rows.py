#!/usr/bin/env python3
"""Runs the programs of `conformance.py` on random rows, with ample memory and with memory refused: tests/random_rows.py [SEED [ROWS]].

Fields, entries, runs, Items, messages and records are made at random, well formed or with a byte changed, cut or put in;
`rules.py` says what must come of each. The program that knows a row runs it in all storages, cut at every place, and
beginning by beginning. Needs gcc, and the programs as `rt ci` or `rt run` left them.
"""
import os
import random
import subprocess
import sys
import tempfile

sys.dont_write_bytecode = True
from conformance import PROGRAMS, all_hold, program_of
from rules import (
    BYTES, DELIMITED, EIGHT, END, FOUR, KINDS, MESSAGES, NODE_MAPS, START, STRINGS, VARINT, Fault, delimited, of_word, plain,
    put, read_list, records, tag_encoding, varint_encoding, word,
)
from second_reading import BY_MEMBERS, TOP, Row

PAIRS = (
    "string,int32 int32,int32 int32,bool int32,uint32 int32,string int32,bytes int32,shared-bytes own-string,own-bytes "
    "word,int32 int32,old int32,new int32,open string,old word,old word,new int32,flat int32,two int32,keep int32,tree "
    "old,int32"
).split()
NUMBERS = "int32 int64 uint32 uint64 sint32 sint64 bool fixed32 fixed64 sfixed32 sfixed64 float double number enum".split()
OTHERS = "string bytes flat two count keep two-group count-group keep-group".split()
CALLS = (
    "entry entry entry entry unlisted run run rewrite item skip unknown records varint merge merge get get one set steps "
    "merge-delimited payload decode decode tag equal"
).split()
SCALARS = NUMBERS[:-4] + "string own-string word bytes own-bytes shared-bytes".split()
VALUES = {
    "bool": "true", "string": '"q"', "bytes": "x01", "own-bytes": "x01", "shared-bytes": "x01", "open": "?7", "flat": "4",
    "two": "4,5", "keep": "x0805", "old": "1", "new": "2", "int32": "6", "uint32": "6",
}
STANDING = {
    "flat": "0809", "two": "08051007", "count": "4800", "keep": "0805", "tree": "0807", "set": "0b10051a01780c",
    "node": "0a0012001a002001",
}
TEXTS = [b"", b"a", b"A", b"b", b"Bee", b"BEE", b"x y", b"\xc3\xa9", b"\xff", b"\xc0\x80", b"\xed\xa0\x80", b"\0", b"z" * 130]
AT_LIMITS = [0, 1, 2, 3, 5, 99, 127, 128, 2**31 - 1, 2**31, 2**32 - 1, 2**32, 2**32 + 1, 2**63, 2**64 - 2**31, 2**64 - 1]


class Maker:
    """Bytes at random."""

    def __init__(self, seed):
        self.any = random.Random(seed)

    def pick(self, *choices):
        return self.any.choice(choices)

    def is_one_in(self, count):
        return self.any.random() * count < 1

    def varint(self, number):
        text = bytearray(varint_encoding(number))
        while self.is_one_in(10) and len(text) < 11:
            text[-1] |= 128
            text.append(0)
        return bytes(text)

    def number(self):
        return self.pick(self.any.choice(AT_LIMITS), self.any.getrandbits(self.any.randint(1, 64)))

    def bytes(self, most):
        return self.any.randbytes(self.any.randint(0, most))

    def field(self, number, wire, levels):
        tag = self.varint(number * 8 + wire)
        if wire == VARINT:
            return tag + self.varint(self.number())
        if wire in (EIGHT, FOUR):
            return tag + self.any.randbytes(8 if wire == EIGHT else 4)
        if wire == DELIMITED:
            text = self.pick(self.any.choice(TEXTS), self.bytes(4), self.fields(levels - 1))
            return tag + self.varint(len(text)) + text
        if wire == START:
            return tag + self.fields(levels - 1) + self.varint((number + self.is_one_in(15)) * 8 + END)
        return tag

    def fields(self, levels, most=3):
        """Some fields; none where no level is left."""
        count = self.any.randint(0, most) if levels > 0 else 0
        numbers, wires = [1, 1, 2, 2, 3, 9, 536870911], [VARINT, VARINT, DELIMITED, DELIMITED, START, EIGHT, FOUR]
        return b"".join(
            self.field(self.any.choice(numbers), END if self.is_one_in(50) else self.any.choice(wires), levels)
            for _ in range(count)
        )

    def of_kind(self, kind, number, levels=3):
        """A field that holds a value of a kind."""
        return self.varint(number * 8 + KINDS[kind][0]) + self.payload(kind, levels)

    def payload(self, kind, levels=3):
        wire = KINDS[kind][0]
        if wire == VARINT:
            return self.varint(self.pick(0, 1, 2, 99, self.number()))
        if wire in (EIGHT, FOUR):
            return self.any.randbytes(8 if wire == EIGHT else 4)
        text = self.message(kind, levels) if kind in MESSAGES else self.any.choice(TEXTS)
        return self.varint(len(text)) + text

    def node_field(self, levels):
        number = self.pick(1, 2, 3, 3, 4)
        if number == 4 or levels == 0:
            return self.field(self.pick(3, 4, 5), self.pick(VARINT, EIGHT, DELIMITED, START, FOUR), levels)
        if number != 2:
            return self.varint(number * 8 + DELIMITED) + self.entry(NODE_MAPS[number])
        child = b"" if self.is_one_in(3) else b"\x12" + delimited(self.message("node", levels - 1))
        return b"\x12" + delimited(self.of_kind("int32", 1) + child)

    def member_field(self, kind, levels):
        """A field of one of the members, packed too where it is a list; or one of any wire type, or of no member."""
        number, how, inner = self.any.choice(BY_MEMBERS[kind].members)
        if self.is_one_in(4):
            return self.field(self.pick(number, 13, 14), self.pick(VARINT, EIGHT, DELIMITED, START, FOUR), levels)
        if how in ("map", "ordered"):
            return tag_encoding(number, DELIMITED) + self.entry(inner, levels - 1)
        if how in ("group", "groups"):
            end = self.pick(number, number, number, 3) * 8 + END
            return tag_encoding(number, START) + self.message(inner, levels - 1) + self.varint(end)
        if how in ("repeated", "packed") and KINDS[inner][0] != DELIMITED and self.is_one_in(2):
            return tag_encoding(number, DELIMITED) + delimited(b"".join(self.payload(inner) for _ in range(self.any.randint(0, 3))))
        return tag_encoding(number, KINDS[inner][0]) + self.payload(inner, levels - 1)

    def message(self, kind, levels):
        """Some fields; none of a message from its fields where no level is left."""
        text = b""
        for _ in range(self.any.randint(0, 3) if levels > 0 or kind not in BY_MEMBERS else 0):
            if kind in BY_MEMBERS:
                text += self.member_field(kind, levels)
            elif kind == "node":
                text += self.node_field(levels)
            elif kind == "set" and self.is_one_in(2):
                text += b"\x0b" + self.item()
            elif kind == "tree" and levels > 0 and self.is_one_in(2):
                child = b"" if self.is_one_in(3) else b"\x12" + delimited(self.message("tree", levels - 1))
                text += b"\x12" + delimited(self.of_kind("int32", 1) + child)
            elif kind != "set" and self.is_one_in(2):
                number = {"count": 9, "two": self.pick(1, 2)}.get(kind, 1)
                text += tag_encoding(number, VARINT) + self.varint(self.number())
            else:
                text += self.field(self.pick(3, 4, 5), self.pick(VARINT, EIGHT, DELIMITED, START, FOUR), levels)
        return text

    def mutated(self, text):
        """The bytes, or with one of them changed, put in or taken out, or cut off."""
        if not text or self.is_one_in(2):
            return text
        at = self.any.randrange(len(text))
        before, byte, after = text[:at], text[at : at + 1], text[at + 1 :]
        bit = bytes([byte[0] ^ 1 << self.any.randrange(8)])
        return self.pick(before, before + self.any.randbytes(1) + after, before + bit + after, before + bit + byte + after, before + after)

    def entry(self, kinds, levels=3):
        text = b""
        for _ in range(self.pick(1, 2, 2, 2, 3, 4)):
            other = self.field(self.pick(3, 4, 16), self.pick(VARINT, EIGHT, DELIMITED, START, FOUR), 3)
            one, another = (self.of_kind(kinds[1], 2, levels) for _ in range(2))
            text += self.pick(self.of_kind(kinds[0], 1), one, another, other)
        text = self.mutated(text) if self.is_one_in(3) else text
        length = len(text) if not self.is_one_in(20) else abs(len(text) + self.pick(-1, 1))
        return self.varint(length) + text

    def item(self):
        text = b""
        for _ in range(self.any.randint(0, 4)):
            text += self.pick(
                self.varint(16) + self.varint(self.pick(1, 5, 127, 128, 2**31 - 1, 2**31, 0)),
                b"\x10" + self.varint(5),
                self.field(3, DELIMITED, 2),
                self.field(self.pick(1, 2, 3, 4), self.pick(VARINT, EIGHT, DELIMITED, START, FOUR), 2),
            )
        return text + self.pick(b"\x0c", b"\x0c", b"\x0c\xff", b"\x14", b"")

    def record(self, codec):
        """A record of number 1: of the codec, packed, or any other."""
        kind = plain(codec)
        if self.is_one_in(4):
            return self.field(self.pick(1, 1, 2), self.pick(VARINT, EIGHT, DELIMITED, START, FOUR), 2)
        if codec.endswith("-group"):
            return b"\x0b" + self.pick(b"", self.message(kind, 1)) + b"\x0c"
        if kind in MESSAGES:
            return b"\x0a" + delimited(self.mutated(self.message(kind, 3)))
        if kind in STRINGS | BYTES or not self.is_one_in(3):
            return self.of_kind(kind, 1)
        return b"\x0a" + delimited(self.mutated(b"".join(self.of_kind(kind, 1)[1:] for _ in range(self.any.randint(0, 3)))))

    def settings(self):
        said = [f"depth={self.pick(0, 1, 2, 3, 4, 10, 10, 10)}"]
        said += [f"unknown={self.pick(0, 1, 2, 3, 9)}"] if self.is_one_in(3) else []
        said += [f"units={self.pick(0, 7, 8, 27, 28, 35, 36, 56, 57, 72, 100, 1000)}"] if self.is_one_in(3) else []
        return said

    def standing(self, kinds):
        """The pairs of a map, none twice."""
        if kinds[1] not in VALUES or self.is_one_in(2):
            return "-"
        pairs = {}
        for _ in range(self.pick(1, 2)):
            key = self.pick('"a"', '"Bee"', '"z"', "xc3a9") if kinds[0] in STRINGS else self.pick("0", "1")
            put(kinds[0], pairs, of_word(kinds[0], key), f"{key}={VALUES[kinds[1]]}")
        return " ".join(pairs.values())

    def map_row(self, call):
        types = self.any.choice([it for it in PAIRS if call != "rewrite" or it.split(",")[1] not in MESSAGES])
        kinds, number, settings = types.split(","), self.pick(5, 5, 1, 16, 536870911), self.settings()
        settings += [f"number={number}"]
        settings += [self.pick("list=-", "list=3a0107")] if call in ("entry", "run") and self.is_one_in(2) else []
        settings += ["in=indexed"] if call == "rewrite" and kinds[0] != "old" else []
        if call in ("entry", "unlisted"):
            text = self.entry(kinds) + self.pick(b"", b"", b"\xff")
        else:
            text = b"".join(
                self.field(self.pick(number, 6), self.any.randrange(6), 2)
                if self.is_one_in(15)
                else self.varint(number * 8 + DELIMITED) + self.entry(kinds)
                for _ in range(self.any.randint(0, 4))
            )
        return types, settings, self.standing(kinds), self.mutated(text)

    def extension_row(self, call):
        codec = self.any.choice(NUMBERS + OTHERS)
        text = b"".join(self.record(codec) for _ in range(self.any.randint(1, 4)))
        before = "".join(it[2].hex() for it in records(text)) or "-"
        if call == "one":
            settings = [f"depth={self.pick(0, 1, 2)}", f"unknown={self.pick(0, 1, 2, 9)}"]
            return self.pick("decode-one-ctx", "check-element"), codec, settings, before
        how = self.pick("", "how=all", "how=packed" if codec in NUMBERS else "how=all")
        return self.pick(call, "decode-of", "read", "read", "decode-strictly"), codec, ["number=1", how], before

    def values_row(self):
        """A set of a value or a list of them, or their records behind others."""
        codec = self.any.choice(NUMBERS + OTHERS)
        texts = [b"".join(self.record(codec) for _ in range(self.any.randint(1, 4))) for _ in range(2)]
        before, given = (records(text) for text in texts)
        values = [word(plain(codec), it) for it in read_list(codec, given)]
        how = self.pick("", "how=all", "how=packed" if codec in NUMBERS else "how=all")
        if not values and not how:
            raise Fault("no value")
        call = self.pick("set", "encode-into", "set-then-read")
        settings = [self.pick("number=1", "number=2"), how, self.pick("", "by=try")]
        return call, codec, settings, "".join(it[2].hex() for it in before) or "-", " ".join(values if how else values[:1])

    def steps(self):
        """Sets and clears of some numbers."""
        said = [f"{self.any.randint(1, 3)}{self.pick('', '=' + self.mutated(self.fields(2)).hex())}" for _ in range(self.any.randint(0, 4))]
        for step in said:
            records(bytes.fromhex(step.partition("=")[2]))
        return " ".join(said)

    def scalar_row(self, call):
        """A payload or a tag by itself, or two lists of records."""
        wire, behind = self.any.randrange(6), self.pick(b"", b"\x07")
        if call == "decode":
            kind = self.any.choice(SCALARS)
            return kind, [], "-", self.mutated(self.payload(kind)) + behind
        if call == "tag":
            settings = self.pick([], [f"expect={self.pick(wire, self.any.randrange(6))}"])
            number = self.pick(1, 5, 15, 16, 536870911, self.number())
            return "-", settings, "-", self.mutated(self.varint((number * 8 + wire) % 2**64)) + behind
        text = self.fields(3)
        one, other = (b"".join(it[2] for it in records(it)) for it in (text, self.pick(text, self.mutated(text))))
        return "-", [], one.hex() or "-", other

    def row(self):
        """A row without its answer."""
        call, types, settings, before, text, given = self.any.choice(CALLS), "-", [], "-", b"", ""
        if call in ("entry", "unlisted", "run", "rewrite"):
            types, settings, before, text = self.map_row(call)
        elif call in ("get", "one"):
            call, types, settings, before = self.extension_row(call)
        elif call == "set":
            call, types, settings, before, given = self.values_row()
        elif call == "steps":
            before = "".join(it[2].hex() for it in records(self.fields(2))) or "-"
            given = self.steps()
        elif call in ("merge", "merge-delimited"):
            types, settings = self.any.choice(sorted(MESSAGES if call == "merge" else STANDING)), self.settings()
            before, text = self.pick("-", STANDING.get(types, "-")), self.message(types, 3)
            text = self.mutated(self.varint(len(text)) + text if call == "merge-delimited" else text)
        elif call == "payload":
            types, settings = self.any.choice(sorted(set(KINDS) - set(BY_MEMBERS) - {"unit"})), self.settings()
            before = "-" if types in MESSAGES else '"q"' if types in STRINGS else VALUES.get(types, "6")
            text = self.mutated(self.payload(types) + self.pick(b"", b"", b"\xff"))
        elif call in ("decode", "tag", "equal"):
            types, settings, before, text = self.scalar_row(call)
        elif call == "item":
            settings, text = self.settings(), self.mutated(self.item())
        elif call == "varint":
            text = self.mutated(self.varint(self.number()))
        else:
            settings = self.settings() if call == "unknown" else [f"depth={self.pick(0, 1, 2, 3)}"]
            text = self.mutated(self.fields(3) + self.pick(b"", b"\x07"))
        return "\t".join(["random", call, types, " ".join(it for it in settings if it) or "-", before, given or text.hex() or "-"])


def made(seed, count):
    """So many different rows, with their answers."""
    maker, found = Maker(seed), set()
    while len(found) < count:
        try:
            line = maker.row()
        except Fault:
            continue
        row = Row(f"{line}\t-\t-")
        in_order = row.kinds[0] == "old"
        answer, after = row.outcome(in_order)
        if len(line) < 4000:
            found.add(f"{line}\t{answer}\t{after}")
    return "".join(f"{line}\n" for line in sorted(found))


def main():
    seed, count = (int(it) for it in (sys.argv[1:] + ["1", "20000"][len(sys.argv) - 1 :])[:2])
    rows, failed = {name: b"" for name in PROGRAMS}, False
    for row in made(seed, count).encode().splitlines():
        rows[program_of(row)] += row + b"\n"
    with tempfile.TemporaryDirectory(prefix="random-rows-") as room:
        library = f"{room}/refuse.so"
        subprocess.run(["gcc", "-O2", "-shared", "-fPIC", "-o", library, f"{TOP}/tests/refuse.c"], check=True)
        for words, env in (([], None), (["refused"], {"LD_PRELOAD": library, "REFUSE_CALLS": "1"})):
            for name, text in rows.items():
                command = [f"{TOP}/crates/{name}/out/{name}", *words]
                done = subprocess.run(command, input=text, env=env, capture_output=True, timeout=600, check=False)
                what = f"{name}, random rows, seed {seed}{', memory refused' if words else ''}"
                print(f"{what}: {done.stdout.decode()[-3000:].strip()}")
                failed |= done.returncode != 0 or not done.stdout.endswith(all_hold(text))
    return 1 if failed else 0


if __name__ == "__main__":
    sys.exit(main())
