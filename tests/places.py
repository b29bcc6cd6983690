#!/usr/bin/env python3
"""Where bytes are refused: compares `vectors/places.tsv`, and bytes at random, with what the second reading finds.

    tests/places.py                        compares the table, and the program's input and output
    tests/places.py gather                 writes them anew
    tests/places.py random [SEED [ROWS]]   has the program tell the places of so many refused inputs; `rt run` or `rt ci` leaves it

The table has each refused row of the tables whose types the program `conformance_of_places` has: the type, the levels, unknown
fields and units that reading may take, the bytes in hexadecimal, and the place, the numbers of the fields with the index of one
of many, the offset, and the fault.
"""
import glob
import os
import subprocess
import sys

sys.dont_write_bytecode = True
import place_reading
from random_rows import Maker
from rules import MOST_LEVELS, MOST_UNITS, MOST_UNKNOWN
from second_reading import TOP, Row

TABLE = f"{TOP}/vectors/places.tsv"
PROGRAM = f"{TOP}/crates/conformance_of_places"
TYPES = (
    "assorted branch depot failure inventory ledger load order pallet parcel payment settings store train transfer wagon"
).split()
# Those that hold messages, which most random inputs are of.
HOLDERS = "branch depot failure ledger pallet parcel payment settings store train wagon".split()
HEAD = """\
# Where bytes are refused, of the refused rows of the other tables, by `tests/places.py gather`.
# type, levels, unknown fields and units that reading may take, bytes in hex, the fields by their numbers with the index of one of
# many, the offset of the refused record and its fault.
"""


def inputs():
    """The inputs of the refused rows, each once: of the cases, of what Google's protobuf answered, and of random rows of it."""
    found = {}
    for path in sorted(glob.glob(f"{TOP}/vectors/cases/*.tsv") + glob.glob(f"{TOP}/vectors/google/*.tsv")):
        for line in lines_of(path):
            row = Row(line)
            if row.types in TYPES and row.call == "merge" and row.answer != "ok":
                found[(row.types, row.depth, row.budget.unknown, row.budget.units, row.given)] = None
    for line in lines_of(f"{TOP}/vectors/members.tsv"):
        kind, text, mark = line.split("\t")[:3]
        if kind in TYPES and mark != "same":
            found[(kind, MOST_LEVELS, MOST_UNKNOWN, MOST_UNITS, text.strip("-"))] = None
    return list(found)


def lines_of(path):
    with open(path, encoding="utf-8") as table:
        return [it for it in table.read().splitlines() if it and not it.startswith("#")]


def placed(kind, depth, unknown, units, text):
    return place_reading.place(kind, bytes.fromhex(text), depth, unknown, units)


def made():
    """The table, and the program's input and output, by their files."""
    rows = [(it, placed(*it)) for it in inputs()]
    rows = [(given, place) for given, place in rows if place != "read"]
    given = "".join("\t".join(map(str, it)) + "\n" for it, _ in rows)
    table = HEAD + "".join("\t".join(map(str, (*it, place))) + "\n" for it, place in rows)
    return {TABLE: table, f"{PROGRAM}/stdin": given, f"{PROGRAM}/stdout": "".join(f"{place}\n" for _, place in rows)}


def refused_inputs(seed, count):
    """So many refused inputs at random, with their places."""
    maker, found = Maker(seed), {}
    while len(found) < count:
        kind = maker.any.choice(TYPES if maker.is_one_in(5) else HOLDERS)
        text = maker.mutated(maker.message(kind, 4)).hex()
        limits = maker.pick(0, 1, 2, 3, 10, 10, 10), maker.pick(0, 1, 2, 9, 99, 99), maker.pick(0, 100, 500, 1000, 99999, 99999)
        given = (kind, *limits, text)
        place = placed(*given)
        if place != "read" and len(text) < 4000:
            found[given] = place
    return found


def run_random(seed, count):
    found = refused_inputs(seed, count)
    text = "".join("\t".join(map(str, it)) + "\n" for it in found)
    program = f"{PROGRAM}/out/conformance_of_places"
    done = subprocess.run([program], input=text, capture_output=True, text=True, timeout=600, check=False)
    places = done.stdout.splitlines()
    wrong = [(it, ours, theirs) for (it, ours), theirs in zip(found.items(), places) if ours != theirs]
    for given, ours, theirs in wrong[:20]:
        print(f"{given}: the program says {theirs}, the second reading {ours}")
    deep = sum(place.count(".") > 1 for place in found.values())
    print(f"places: {len(places)} refused inputs at random, {deep} of them refused in a message inside, {len(wrong)} with another place")
    return 1 if wrong or len(places) != len(found) or done.returncode else 0


def main():
    words = sys.argv[1:]
    if words[:1] == ["random"]:
        return run_random(*(int(it) for it in (words[1:] + ["1", "10000"][len(words) - 1 :])[:2]))
    failed = False
    for path, text in made().items():
        if words == ["gather"]:
            with open(path, "w", encoding="utf-8") as it:
                it.write(text)
        elif not os.path.isfile(path) or open(path, encoding="utf-8").read() != text:
            print(f"places: {os.path.relpath(path, TOP)} isn't what the tables are: run tests/places.py gather")
            failed = True
    print("places: FAILED" if failed else f"places: {len(lines_of(TABLE))} rows")
    return 1 if failed else 0


if __name__ == "__main__":
    sys.exit(main())
