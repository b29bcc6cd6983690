"""Writes vectors/enums.tsv by Google's protobuf; rows.py in vectors/google makes rows of it.

It needs protoc, g++ and libprotobuf-dev (3.21.12 was used): python3 vectors/enums.py, at the top. A seed may be given
as an argument. C++ classes that protoc generates are asked, since those that Python makes at run time read an
undeclared value of a map as the default.
"""
import random
import subprocess
import sys
import tempfile
from pathlib import Path

HERE = Path(__file__).resolve().parent
SOURCE = HERE / "enums.tsv"
DRAW = random.Random(int(sys.argv[1]) if len(sys.argv) > 1 else 9)


def varint(number, spare=0):
    """A spelling of a number, by so many bytes more than it needs."""
    out = []
    while number > 127:
        out.append(number % 128 + 128)
        number //= 128
    out.append(number)
    for _ in range(spare):
        out[-1] += 128
        out.append(0)
    return bytes(out)


def key():
    return bytes([0x08]) + varint(DRAW.choice([1, 1, 2, 2**64 - 1]))


def value():
    return bytes([0x10]) + varint(DRAW.choice([0, 1, 1, 2, 2, 99, 2**64 - 5]))


def entry():
    """An entry, and whether a writer would have written it so."""
    shape = DRAW.randrange(18)
    if shape == 0:
        return key(), False
    if shape == 1:
        return value() + key(), False
    if shape == 2:
        return key() + value() + value(), False
    if shape == 3:
        return key() + bytes([0x18, 0x05]) + value(), False
    if shape == 4:
        return key() + bytes([0x10]) + varint(DRAW.choice([1, 2, 99]), 1), False
    return key() + value(), True


def runs():
    for _ in range(48):
        entries = [entry() for _ in range(DRAW.randrange(1, 5))]
        run = b"".join(bytes([0x2A]) + varint(len(held)) + held for held, _ in entries)
        yield run, all(plain for _, plain in entries)


def answers(lines):
    """What the C++ classes make of the lines."""
    with tempfile.TemporaryDirectory() as at:
        subprocess.run(["protoc", f"-I{HERE}", f"--cpp_out={at}", str(HERE / "enums.proto")], check=True)
        sources = [str(HERE / "enums.cc"), f"{at}/enums.pb.cc"]
        subprocess.run(["g++", f"-I{at}", *sources, "-lprotobuf", "-pthread", "-o", f"{at}/enums"], check=True)
        told = subprocess.run([f"{at}/enums"], input="\n".join(lines), capture_output=True, text=True, check=True)
        return told.stdout.splitlines()


def main():
    rows = list(dict.fromkeys(runs()))
    told = answers([run.hex() for run, _ in rows])
    lines = []
    for (run, plain), answer in zip(rows, told):
        lines.append("\t".join([run.hex(), "same" if plain else "own", answer]))
    SOURCE.write_text(
        "# Runs of map<int32, Old> and map<int32, New>, closed enums, as C++ classes of protobuf 3.21.12 read and write them.\n"
        "# They encode an entry with an undeclared value again; so a rewrite is theirs byte for byte only where each entry\n"
        "# was written as they write it (same), else the kept entries have our own spelling, which is the run's (own).\n"
        "# run in hex, same or own, pairs to the older, pairs to the newer, the older's encoding, that encoding to the newer\n"
        + "".join(line + "\n" for line in lines),
        encoding="ascii",
    )


if __name__ == "__main__":
    main()
