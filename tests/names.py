#!/usr/bin/env python3
"""Checks that each definition of specs/ has a name of its own in all crates, and that no relation has small letters.

Definitions are what a file of specs/ hands out: `abbrev`, `unfoldable`, `record`, `data`, and lemmas. A relation is
what answers a `Type`. Fields of records, ghosts, clauses and code aren't looked at. What a file hands on of another one
keeps its name, so that a word is the same wherever it is cited. So does an item of code, but for the modules of laws in
the facade, and for a codec that has two names; laws say which these are. The words that the plugin wrote for the members of messages
aren't looked at: a contract imports those of one message from its own file. REFUSED has changes by which a word would stand for
another one: the script sees that it refuses each.
"""
import collections
import glob
import os
import re
import sys

TOP = os.path.dirname(os.path.dirname(os.path.abspath(__file__)))
WORD = re.compile(r"( *)(?:pattern )?(?:(abbrev|unfoldable) )?pub (?:(abbrev|unfoldable|record|data) )?([A-Za-z_][^\s:({]*)(.*)")
NO_WORD = {"use", "mod", "module", "open"}
# what a file of code hands on, and an item of it under another name
HANDED = re.compile(r"^ *pub use [^;]*;", re.M)
RENAMED = re.compile(r"\w+ as \w+")
SAID_BY_LAWS = {"crates/buffa/src/laws.rt": r"\w+ as \w+", "crates/buffa_ext/src/codecs.rt": "Int32 as EnumI32"}
# what a relation answers, at the end of its type
RELATION = re.compile(r"Type [01]\s*$")

# a file, and texts in it with what stands in their place
FACADE = "crates/buffa/specs/"
GIVES = "FullOnlyIf, Gives, GivesUnlessFull}"
REFUSED = [
    (FACADE + "Wire.antt", (GIVES, GIVES.replace("Gives, GivesUnlessFull", "Gives as GivesUnlessFull, GivesUnlessFull as Gives"))),
    (FACADE + "Wire.antt", (" uint32_at,", " uint32_at as uint64_at,"), (" uint64_at,", " uint64_at as uint32_at,")),
    (FACADE + "Extensions.antt", ("{Adds, AddsSome,", "{Adds as AddsSome, AddsSome as Adds,")),
    (
        FACADE + "Extensions.antt",
        ("RecordsOfNumber.{sub, tagged, without}", "RecordsOfNumber.{sub, tagged}\n\nabbrev pub without : ℕ → List (ℕ × FieldData) → List (ℕ × FieldData)\nwithout n rs = rs\n"),
    ),
    (FACADE + "Items.antt", ("HasMessage, IsTypeId,", "HasMessage,"), ("pub use", "pub use Rattle.buffa_bytes.specs.Number.{IsNumber as IsTypeId}\npub use")),
    (FACADE + "Items.antt", (" item_encoding}", " body_encoding as item_encoding}")),
    (FACADE + "MapFields.antt", ("Merge.{MergesEntry, ReadsRun,", "Merge.{MergesEntry as ReadsRun, ReadsRun as MergesEntry,")),
    (FACADE + "MapFields.antt", (" record_encoding, saturated}", " record_encoding}\n\nabbrev pub saturated : ℕ → ℕ\nsaturated n = n\n")),
    (
        "crates/buffa/src/samples.rt",
        ("node::{Node,", "node::{Node as SetMsg,"),
        ("sample_set_msg::SetMsg;", "sample_set_msg::SetMsg as Node;"),
    ),
]


def signature(lines, at):
    """What stands from a word's colon to its definition."""
    space = len(lines[at]) - len(lines[at].lstrip())
    text = lines[at]
    for line in lines[at + 1 : at + 12]:
        if len(line) - len(line.lstrip()) <= space:
            break
        text += " " + line.strip()
    return text


def words_of(text):
    """The words of a file: name, line, whether it is a definition, and its type."""
    lines = text.split("\n")
    inside, mutual = None, None
    for at, line in enumerate(lines):
        space = len(line) - len(line.lstrip())
        if line.strip() and inside is not None and space <= inside:
            inside = None
        if line.strip() and mutual is not None and space <= mutual:
            mutual = None
        if line.strip() in ("abbrev mutual", "unfoldable mutual"):
            mutual = space
        found = WORD.fullmatch(line)
        if not found or found[4] in NO_WORD or inside is not None:
            continue
        kind = found[2] or found[3] or ("abbrev" if mutual is not None else None)
        yield found[4], at + 1, kind, signature(lines, at)
        if kind in ("record", "data"):
            inside = space


def renamed(path, text):
    """The items of code that a file hands on under another name, but for those of which laws say what they are."""
    for handed in HANDED.finditer(text):
        for item in RENAMED.findall(handed[0]):
            if not re.fullmatch(SAID_BY_LAWS.get(path, "$."), item):
                yield f"{path}:{text.count(chr(10), 0, handed.start()) + 1}: {item}: an item is handed on under another name"


def look(code, specs):
    """What is wrong in these files, by their paths; and the words of specs."""
    wrong, places = [], collections.defaultdict(list)
    for path, text in code.items():
        wrong += renamed(path, text)
    for path, text in specs.items():
        for at, line in enumerate(text.split("\n"), 1):
            if line.startswith("pub use ") and " as " in line:
                wrong.append(f"{path}:{at}: a word is handed on under another name")
    for path, text in specs.items():
        for name, line, kind, type_ in words_of(text):
            places[name].append(f"{path}:{line}")
            if kind in ("abbrev", "unfoldable") and name[0].islower() and RELATION.search(type_):
                wrong.append(f"{path}:{line}: {name} is a relation")
    for name, found in places.items():
        if len(found) > 1:
            wrong.append(f"{name}: {', '.join(found)}")
    return wrong, places


def files(pattern):
    """The files of crates, by their paths."""
    found = {}
    for file in sorted(glob.glob(f"{TOP}/crates/*/{pattern}", recursive=True)):
        with open(file, encoding="utf-8") as it:
            found[os.path.relpath(file, TOP)] = it.read()
    return found


def let_through(code, specs):
    """The changes of REFUSED that can't be made, or that this script doesn't refuse."""
    for path, *changes in REFUSED:
        text = (code.get(path) or specs.get(path)) or ""
        for old, new in changes:
            if old not in text:
                yield f"{path}: {old!r} isn't there, so a change that is refused can't be tried"
            text = text.replace(old, new, 1)
        if not look({**code, path: text} if path in code else code, {**specs, path: text} if path in specs else specs)[0]:
            yield f"{path}: {changes[0][1]!r} isn't refused"


def main():
    code, specs = files("src/**/*.rt"), files("specs/**/*.antt")
    specs = {path: text for path, text in specs.items() if not text.partition("\n")[0].endswith(" by protoc-gen-buffa.")}
    wrong, places = look(code, specs)
    wrong += let_through(code, specs) if not wrong else []
    for it in wrong:
        print(f"names: {it}")
    print(f"names: {len(places)} words of specs, {len(wrong)} that mean two things, are handed on under another name or are relations in small letters")
    return 1 if wrong or not places else 0


if __name__ == "__main__":
    sys.exit(main())
