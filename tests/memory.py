#!/usr/bin/env python3
"""Measures the most memory that reading a message takes, beside the bound of GUIDE's "Bytes from strangers": tests/memory.py [-v].

Of each type of messages that the programs of `conformance.py` read, `hostile.py` makes bytes that take as much memory as they can for
their length and for what they spend: a great many of the smallest element of each list, of the smallest entry of each map, and of
fields that are kept; one of each member; the same in each element of a list or a map, and in messages that are deep in one another. The
counts are just past those at which a list or a map grows. `rules.py` says what the bytes spend. `refuse.c` counts the bytes that
`merge` holds at a time, blocks as malloc gives them out. Needs gcc, and the programs as `rt ci` or `rt run` left them; prints what
came next to the bound, and with -v the worst of each type.

It measures the stack, too, that a level of messages in one another takes where they are read, written and dropped, and prints it.
"""
import multiprocessing.pool
import os
import subprocess
import sys
import tempfile
import time

sys.dont_write_bytecode = True
from conformance import all_hold, program_of
from hostile import EMPTY, FREE, OTHERS, Maker, chain, deep, inner_of, keeps_unknown, members_of
from rules import (
    BY_MEMBERS, CLOSED, DELIMITED, END, KINDS, MESSAGES, MOST_LEVELS, MOST_UNITS, MOST_UNKNOWN, START, VARINT, delimited, tag_encoding,
)
from second_reading import TOP, Row

# The bytes that the bound has for a byte of input, for an unknown field that was spent, and for a unit.
OF_BYTE, OF_UNKNOWN, OF_UNIT = 64, 192, 16
# Lists have room for 4 elements, of one byte for 8, and maps for 9 or for 15 pairs; then for twice as many.
COUNTS = (1, 2, 5, 9, 10, 17, 19, 33, 73, 129, 577, 1025)
# The most of one thing that is full of others, and the most bytes of stack that a level may take.
MOST_FULL, MOST_STACK = 40, 4096
DEEP, SHALLOW = MOST_LEVELS - 2, 10


def packed(member, count, byte):
    """A packed field of so many numbers."""
    number, _, kind = member
    size = {VARINT: 1, 1: 8, 5: 4}[KINDS[kind][0]]
    return tag_encoding(number, DELIMITED) + delimited(bytes([byte]) * count * size)


def kept(count):
    """Fields that aren't declared: so many numbers, so many groups with one in each, so many texts, and groups in one another."""
    start, end = tag_encoding(FREE, START), tag_encoding(FREE, END)
    yield f"{count} numbers kept", (tag_encoding(FREE, VARINT) + b"\0") * count
    yield f"{count} groups kept", (start + b"\x08\0" + end) * count
    yield f"{count} texts kept", (tag_encoding(FREE, DELIMITED) + b"\1\0") * count
    yield f"{min(count, DEEP)} groups kept in one another", start * min(count, DEEP) + end * min(count, DEEP)


def of_member(member, count):
    """So many of a member, in each way in which they come."""
    number, how, kind = member
    yield f"{count} of {number}", EMPTY.fields(member, count)
    if inner_of(member) in MESSAGES and count <= MOST_FULL:
        for level in (1, 2):
            yield f"{count} of {number}, full", Maker(lambda inner, level=level: deep(inner, level)).fields(member, count)
    if how in ("repeated", "packed") and KINDS[kind][0] != DELIMITED:
        yield f"{count} of {number}, packed", packed(member, count, 0)
    if kind in CLOSED:
        yield f"{count} of {number}, undeclared", (tag_encoding(number, VARINT) + b"\x63") * count
        yield f"{count} of {number}, undeclared and packed", packed(member, count, 0x63) if how != "optional" else b""


def inputs(kind):
    """Bytes for a type, and what they show."""
    yield "all members", deep(kind, 3)
    for member in members_of(kind):
        for count in COUNTS:
            yield from of_member(member, count)
        if inner_of(member) == kind:
            yield f"in one another by {member[0]}", chain(kind, member, DEEP)
    for count in COUNTS if keeps_unknown(kind) else ():
        yield from kept(count)


def measured(library, row):
    """Runs a row; the most bytes of memory and of stack that its call took, and what is wrong."""
    program = program_of(row)
    reads, writes = os.pipe()
    env = {"LD_PRELOAD": library, "REFUSE_CALLS": "1", "MEASURE_TELL": str(writes)}
    command = [f"{TOP}/crates/{program}/out/{program}", "refused"]
    done = subprocess.run(command, input=row, env=env, pass_fds=[writes], capture_output=True, timeout=60, check=False)
    os.close(writes)
    with os.fdopen(reads) as told:
        found = [tuple(map(int, it.split())) for it in told]
    if not done.stdout.endswith(all_hold(row)) or done.stderr or not found:
        return (0, 0), f"{row[:300]!r}: {done.stdout[-200:]!r} {done.stderr[-200:]!r}"
    return tuple(map(max, zip(*found))), ""


def row_of(name, call, kind, settings, before, text):
    """A row with its answer, and the row as it is read."""
    line = f"{name}\t{call}\t{kind}\t{settings} ways=once\t{before.hex() or '-'}\t{text.hex() or '-'}"
    read = Row(f"{line}\t-\t-")
    answer, after = read.outcome(False)
    return f"{line}\t{answer}\t{after}\n".encode(), answer, read


class Held:
    """Bytes that are read, how much memory they may take, and how much they took."""

    def __init__(self, kind, what, text):
        self.kind, self.what, self.text, self.took = kind, what, text, 0
        settings = f"depth={MOST_LEVELS} unknown={MOST_UNKNOWN} units={MOST_UNITS}"
        self.row, self.answer, read = row_of(f"{kind}, {what}", "merge", kind, settings, b"", text)
        cost = OTHERS[kind][0] if kind in OTHERS else KINDS[kind][1]
        units, unknown = MOST_UNITS - read.budget.units, MOST_UNKNOWN - read.budget.unknown
        self.may = OF_UNIT * (cost + units) + OF_UNKNOWN * unknown + OF_BYTE * len(text)

    def measure(self, library):
        """Runs the row, and returns what is wrong."""
        (self.took, _), wrong = measured(library, self.row)
        if self.took > self.may:
            return f"{self.kind}, {self.what}: {self.took} bytes were held, and {self.may} may be: {self.text[:40].hex()}"
        return wrong or ("" if self.answer == "ok" else f"{self.kind}, {self.what}: the bytes aren't read")


def levels(library):
    """The bytes of stack that a level takes where messages are read, written and dropped, by type and member, and what is wrong."""
    found, wrong = {}, []
    for kind in sorted({*BY_MEMBERS, *OTHERS}):
        for member in (it for it in members_of(kind) if inner_of(it) == kind):
            deepest, least = (chain(kind, member, it, False) for it in (DEEP, SHALLOW))
            for call in ("merge", "encode", "message-clear"):
                took = []
                for text in (deepest, least):
                    before, given = (b"", text) if call == "merge" else (text, b"")
                    row, _, _ = row_of(f"{kind}, levels", call, kind, f"depth={MOST_LEVELS}", before, given)
                    (_, stack), fault = measured(library, row)
                    took.append(stack)
                    wrong += [fault] * bool(fault)
                found.setdefault((kind, member[0]), []).append((took[0] - took[1]) // (DEEP - SHALLOW))
    wrong += [f"{kind}, a level by {number}: {took} bytes of stack" for (kind, number), took in found.items() if max(took) > MOST_STACK]
    return found, wrong


def main(words):
    start = time.time()
    held = [Held(kind, *it) for kind in sorted({*BY_MEMBERS, *OTHERS}) for it in inputs(kind)]
    with tempfile.TemporaryDirectory(prefix="memory-") as room:
        library = f"{room}/refuse.so"
        subprocess.run(["gcc", "-O2", "-Wall", "-Werror", "-shared", "-fPIC", "-o", library, f"{TOP}/tests/refuse.c"], check=True)
        with multiprocessing.pool.ThreadPool() as pool:
            wrong = [it for it in pool.map(lambda it: it.measure(library), held) if it]
        stack, more = levels(library)
        wrong += more
    worst = {}
    for it in sorted(held, key=lambda it: it.took / it.may):
        worst[it.kind] = it
    for it in worst.values() if "-v" in words else ():
        print(f"  {it.kind}, {it.what}: {it.took} bytes of {it.may}")
    for (kind, number), took in stack.items():
        print("memory: a level of {} by {} takes {} bytes of stack to read, {} to write, {} to drop".format(kind, number, *took))
    print(f"memory: {len(held)} inputs, {time.time() - start:.1f} seconds; next to the bound: {it.kind}, {it.what}: {it.took} bytes of {it.may}")
    for it in wrong[:20]:
        print(f"  {it}")
    print("memory: FAILED" if wrong else "memory: passed")
    return 1 if wrong else 0


if __name__ == "__main__":
    sys.exit(main(sys.argv[1:]))
