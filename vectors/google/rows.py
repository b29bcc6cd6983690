#!/usr/bin/env python3
"""Writes the rows of this folder of what Google's protobuf answered: python3 vectors/google/rows.py.

What it answered stands in vectors/maps.tsv, enums.tsv, messages.tsv, extensions.tsv, nodes.tsv, sets.tsv and members.tsv,
made by the programs beside them.
Run it after a change of these, and then tests/conformance.py gather.
"""
from pathlib import Path

HERE = Path(__file__).resolve().parent
# Kinds whose values are read without memory.
NUMBERS = {"int32", "int64", "uint32", "uint64", "sint32", "sint64", "bool", "fixed32", "fixed64", "sfixed32", "sfixed64", "enum"}
COLUMNS = "# Columns as in vectors/cases: name, call, types, settings, before, input, answer, after.\n"


def answered(name):
    """The lines of a table, as their words."""
    text = (HERE.parent / f"{name}.tsv").read_text(encoding="ascii")
    return [line.split("\t") for line in text.splitlines() if line and not line.startswith("#")]


def row(call, types, settings, before, given, answer, after):
    return "\t".join(["of protobuf", call, types, settings or "-", before or "-", given or "-", answer, after or "-"]) + "\n"


def text_word(digits):
    """A text of letters and digits stands in quotation marks, any other in hexadecimal behind an x."""
    text = bytes.fromhex(digits)
    plain = text == b"" or text.isalnum()
    return f'"{text.decode()}"' if plain else f"x{digits}"


def word(kind, said):
    return {"string": text_word, "bytes": lambda digits: f"x{digits}"}.get(kind, str)(said)


def maps():
    out = [
        "# Map fields that protobuf 3.21.12 (Python over C++, deterministic order) wrote, and read back to the same map. Each is\n",
        "# read to these pairs, in this order, and written back to these bytes.\n",
    ]
    for key, value, number, field, pairs in answered("maps"):
        words = [it.split("=") for it in pairs.split(" ")] if pairs else []
        told = " ".join(f"{word(key, one)}={word(value, other)}" for one, other in words)
        out.append(row("field", f"{key},{value}", f"number={number}", "", field, "ok", told))
    return out


def pairs_of(told):
    return told.strip(";").replace(";", " ")


def enums():
    out = [
        "# Runs of map<int32, Old> and map<int32, New>, closed enums, as C++ classes of protobuf 3.21.12 read and write them. They\n",
        "# encode an entry with an undeclared value again; so a rewrite is theirs byte for byte only where each entry was written\n",
        "# as they write it; what they wrote is read in any case.\n",
    ]
    some = "in=ordered,hashed"
    for run, mark, older, newer, text, again in answered("enums"):
        out.append(row("run", "int32,old", some, "", run, "ok", pairs_of(older)))
        out.append(row("run", "int32,new", some, "", run, "ok", pairs_of(newer)))
        if mark == "same":
            out.append(row("rewrite", "int32,old", "in=ordered", "", run, "ok", f"{pairs_of(older) or '-'}; text {text or '-'}"))
        out.append(row("run", "int32,new", some, "", text, "ok", pairs_of(again)))
    return out


def messages():
    out = [
        "# Messages and map fields of messages that protobuf 3.21.12 (Python) wrote, in deterministic order, or read, or refused to\n",
        "# read: `refused` is any fault but want of memory.\n",
    ]
    fields = {"flats": ("flat", 4), "twos": ("two", 5)}
    for kind, how, given, held in answered("messages"):
        given = given.strip("-")
        answer = "refused" if how == "refused" else "ok"
        told = "" if how == "refused" else pairs_of(held) if kind in fields else held
        if kind in fields:
            of, number = fields[kind]
            out.append(row("run", f"int32,{of}", f"number={number} depth=100 in=ordered,hashed", "", given, answer, told))
            if how == "both":
                out.append(row("write-messages", of, f"number={number} in=ordered", given, "", "ok", f"{len(given) // 2}; text {given or '-'}"))
        else:
            out.append(row("merge", kind, "depth=100", "", given, answer, told))
            if how == "both":
                out.append(row("encode", kind, "", given, "", "ok", f"-; text {given or '-'}"))
    return out


def extensions():
    out = [
        "# Extensions that protobuf 3.21.12 (Python) wrote, or read: what `get` reads, and a strict reading, `read`. What it refused\n",
        "# to read is refused by a strict reading: `refused` is any fault but want of memory.\n",
    ]
    for kind, how, number, mode, records, held in answered("extensions"):
        records = records.strip("-")
        if mode == "refused":
            settings = f"number={number}" + ("" if how == "one" else f" how={how}")
            out.append(row("read", kind, settings, records, "", "refused", ""))
            continue
        words = "" if held == "none" else held
        if kind == "string":
            words = " ".join(text_word(it[1:]) for it in words.split(" "))
        told = words or ("none" if how == "one" else "-")
        settings = f"number={number}" + ("" if how == "one" else f" how={how}")
        after = f"{told}; records {records or '-'}"
        free = " memory=none" if how == "one" and kind in NUMBERS else ""
        out.append(row("get", kind, settings + free, records, "", "ok", after))
        out.append(row("read", kind, settings + free, records, "", "ok", after))
        if mode == "both":
            out.append(row("set", kind, settings, "", words, "ok", after))
    return out


def read_and_written(kind, table):
    """What is read, and what is written of it where Google writes all of it; rows of our own have no answer of Google's."""
    for given, mark, *told in answered(table):
        given = given.strip("-")
        if mark == "refused":
            yield row("merge", kind, "depth=100", "", given, "refused", "")
        if mark in ("same", "held"):
            yield row("merge", kind, "depth=100", "", given, "ok", told[0])
        if mark == "same":
            yield row("encode", kind, "", given, "", "ok", f"-; text {told[1]}")
        if len(told) > 2:
            yield row("get", f"{kind},bytes", "number=5", given, "", "ok", f"{told[2]}; text {told[1]}")


def nodes():
    return [
        "# Nodes as C++ classes of protobuf 3.21.12 read and write them, in deterministic order; `refused` is any fault but want of\n",
        "# memory. Left out are bytes of which they make something else (vectors/nodes.tsv has them, with why): an undeclared\n",
        "# entry that isn't spelled as they write it, since they encode it again; a field or a part of an entry with another wire\n",
        "# type, which they pass over or keep; a key that isn't in UTF-8; levels, of which an entry is one of its own to them.\n",
        *read_and_written("node", "nodes"),
    ]


def sets():
    return [
        "# MessageSets as C++ classes of protobuf 3.21.12 read and write them, in deterministic order; `refused` is any fault but\n",
        "# want of memory. They write Items alone, so what has other records is only read here. Left out are bytes of which they\n",
        "# make something else (vectors/sets.tsv has them, with why): Items of two type ids or messages, of which they take the\n",
        "# first; without one, which they pass over; with other fields, which they keep; of a type id above 2147483647, which they\n",
        "# cut; with tags in long spellings.\n",
        *read_and_written("set", "sets"),
    ]


def members():
    out = [
        "# Messages from their fields as C++ classes of protobuf 3.21.12 read and write them, in deterministic order; `refused` is\n",
        "# any fault but want of memory. What a map of more than one pair is written as is asked of what they wrote, in the order\n",
        "# of keys, unless the type writes it in that order too. Left out are bytes of which they make something else\n",
        "# (vectors/members.tsv has them, with why): a field or a part of an entry with another wire type, which they pass over\n",
        "# or keep; a bool of 2^32 or more in an entry; an undeclared entry that isn't spelled as they write it. What a closed\n",
        "# enum doesn't declare they keep in the order in which it came, as we do.\n",
    ]
    for kind, given, mark, *told in answered("members"):
        given = given.strip("-")
        if mark == "refused":
            out.append(row("merge", kind, "depth=100", "", given, "refused", ""))
        if mark in ("same", "many"):
            out.append(row("merge", kind, "depth=100", "", given, "ok", told[0]))
            out.append(row("message-size", kind, "", given, "", "ok", str(len(told[1].strip("-")) // 2)))
            out.append(row("encode", kind, "", given if mark == "same" else told[1], "", "ok", f"-; text {told[1]}"))
    return out


def main():
    for make in (maps, enums, messages, extensions, nodes, sets, members):
        text = make()
        at = next(i for i, line in enumerate(text) if not line.startswith("#"))
        text.insert(at, COLUMNS)
        (HERE / f"{make.__name__}.tsv").write_text("".join(text), encoding="ascii")


if __name__ == "__main__":
    main()
