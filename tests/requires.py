#!/usr/bin/env python3
"""Sees that no public call asks more of who calls it than tests/requires.txt says.

That file has, for each file of the product and of the samples that hand calls on, what it shows to others, and each public call and law with
its types, their bounds and its `requires`; and last the definitions that a `requires` cites, and those that these cite. A condition
that is added to a call, or made stronger, is a difference, and so is a bound, a parameter, or a call that is gone. No proof fails for
these: a caller that happens to meet the condition is still proved.

    tests/requires.py          lists what differs; status 1 where anything does
    tests/requires.py write    writes tests/requires.txt

Before you write it, read the lines that the first form prints: what a call asks is a promise to those who call it. PLANTED has changes by
which a call asks more: the script sees that each is a difference.

The last line says how many calls, clauses and definitions there are, and how many lines differ.
"""
import difflib
import glob
import os
import re
import sys

from index import CALL, HEAD, TOP, listed, owner_of, read
from names import words_of

TABLE = "tests/requires.txt"
PRODUCT = re.compile(r"buffa|sample_node$|sample_set_msg$")
CLAUSE = re.compile(r"[\s,]*(?:where\s+)?(requires|ensures|decreases)\*?(?: [a-z_0-9]+)? \{")
# what a function's types end at
BODY = re.compile(r"\s*(\{|;|(?:where\s+)?(?:requires|ensures|decreases)\b)")
SHOWN = re.compile(r"^pub (?:mod|use) [^;]*;", re.M)
TYPE = re.compile(r"^pub (?:struct|enum|type) [^{;(]*", re.M)
IMPORT = re.compile(r"^\s*(?:unfoldable )?(?:pub )?(?:ghost )?use ([^;\n]*)", re.M)
NAME = re.compile(r"(?<![.\w])[^\W\d][\w\-]*")

# A file, and texts in it with what stands in their place.
NODE = "crates/sample_node/src/node.rt"
PLANTED = [
    # a call may be made at depths up to 50 alone
    (NODE, ("    depth: u32,\n    budget: &mut Budget,\n) -> Result<(), DecodeError>\n    ensures merged { IsMerged", "    depth: u32,\n    budget: &mut Budget,\n) -> Result<(), DecodeError>\n    requires { depth ≤ 50 }\n    ensures merged { IsMerged")),
    # a call may be made on an empty sink alone
    (NODE, ("    requires { IsNext (node_slots", "    requires small { S.written sink.old ≡ [] }\n    requires next { IsNext (node_slots")),
    # a clause that is there asks more
    ("crates/buffa_bytes/src/buf.rt", ("requires { n ≤ length (unread self.old) }", "requires { n < length (unread self.old) }")),
    # a word asks more, and one that it cites
    ("crates/buffa_bytes/specs/Number.antt", ("IsNumber f = (0 < f) × (f ≤ 536870911)", "IsNumber f = (0 < f) × (f ≤ 18999)")),
    ("crates/buffa_wire/specs/Cache.antt", ("left c = drop c.next c.slots", "left c = drop (c.next + 1) c.slots")),
    # a type has to have more
    ("crates/buffa_map/src/run.rt", ("pub fn read_map_field<\n    KC: MapCodec,", "pub fn read_map_field<\n    KC: MapCodec + Copy,")),
    # a call has one parameter more, or isn't there
    ("crates/buffa_wire/src/budget.rt", ("pub fn take_unknown(&mut self)", "pub fn take_unknown(&mut self, most: usize)")),
    ("crates/buffa_wire/src/budget.rt", ("pub fn take_unknown(&mut self)", "pub(crate) fn take_unknown(&mut self)")),
    # a law asks more
    ("crates/buffamap/src/laws.rt", ("pub fn one_reply_to_read(number: u32)\n", "pub fn one_reply_to_read(number: u32)\n    requires { IsNumber number }\n")),
    # a module isn't shown
    ("crates/buffa_bytes/src/lib.rt", ("pub mod varint;", "mod varint;")),
]


def plain(text):
    """A text in one line, without comments, however it was laid out."""
    line = " ".join(re.sub(r"(?m)^\s*//.*$", "", text).split())
    return re.sub(r",? ([)}>])", r"\1", re.sub(r"([(<]) ", r"\1", line)) if not line.startswith("requires") else line


def closed(text, at):
    """Where the braces close that open at this place."""
    depth = 0
    for place in range(at, len(text)):
        depth += (text[place] == "{") - (text[place] == "}")
        if depth == 0:
            return place + 1
    return len(text)


def clauses_of(text, at):
    """The `requires` of a function whose types end at this place."""
    found = []
    while True:
        clause = CLAUSE.match(text, at)
        if not clause:
            return found
        end = closed(text, clause.end() - 1)
        if clause[1] == "requires":
            found.append(plain(text[clause.start(1) : end]))
        at = end


def calls_of(text):
    """What stands round each public function, its types, and its `requires`; of an impl of a trait, a function that asks for something."""
    found, holder, in_trait, is_of_trait, at = [], "", False, False, 0
    for line in text.split("\n"):
        begin, at = at, at + len(line) + 1
        head = HEAD.match(line)
        if head:
            holder = plain(text[begin:].partition("{")[0])
            is_of_trait = owner_of(head[2] + text[begin + head.end(2) :].partition("{")[0])[1] and head[1] == "impl"
            in_trait = line.startswith("pub trait")
        elif line == "}":
            holder, in_trait, is_of_trait = "", False, False
        call = CALL.match(line.strip())
        if not call or line.startswith("        "):
            continue
        end = types_end(text, begin)
        clauses = clauses_of(text, end)
        if in_trait or call[1] and not is_of_trait or is_of_trait and clauses:
            found.append((holder, plain(text[begin:end]), clauses))
    return found


def types_end(text, begin):
    """Where the types of the function that begins at this place end."""
    at, end = begin, len(text)
    while at < end:
        stop = text.find("\n", at)
        line = text[at:stop]
        if at > begin and BODY.match(line):
            return at
        if line.rstrip().endswith((" {", ";")):
            return at + len(line.rstrip()) - (2 if line.rstrip().endswith("{") else 1)
        at = stop + 1
    return end


def imported(text):
    """The words that a file names of others."""
    return {word for it in IMPORT.findall(text) for word in re.findall(r"[^\s.{},]+", it)}


def definitions(texts):
    """Each definition of specs/: its file, its text, and the words that stand for others there."""
    found = {}
    for path, text in texts.items():
        if not path.endswith(".antt"):
            continue
        lines, heads, others = text.split("\n"), list(words_of(text)), imported(text)
        for name, line, _, _ in heads:
            space, end = len(lines[line - 1]) - len(lines[line - 1].lstrip()), line
            while end < len(lines) and lines[end].strip() and not re.match(rf" {{0,{space}}}--", lines[end]):
                end += 1
            found[name] = path, [it.rstrip() for it in lines[line - 1 : end]], others | {it[0] for it in heads}
    return found


def cited(text, known, words):
    """The definitions that a text cites, of the words that stand for something in its file."""
    return {it for it in NAME.findall(text) if it in known and it in words}


def table(texts):
    """The lines of the table, and how many calls, clauses and definitions it has."""
    out, known, first, calls, clauses = [], definitions(texts), set(), 0, 0
    for path, text in texts.items():
        if not path.endswith(".rt") or "#[cfg(test)]" in text:
            continue
        shown = [plain(it) for it in [*SHOWN.findall(text), *TYPE.findall(text)]]
        found = calls_of(text)
        if shown or found:
            out += ["", path]
        out += [f"  {it}" for it in shown]
        words, last = imported(text), None
        for holder, types, asked in found:
            if holder and holder != last:
                out.append(f"  {holder}")
            last = holder
            out += [f"  {'  ' if holder else ''}{types}", *(f"      {it}" for it in asked)]
            calls, clauses = calls + 1, clauses + len(asked)
            first |= cited(" ".join(asked), known, words)
    second = {word for it in first for word in cited("\n".join(known[it][1]), known, known[it][2])}
    for name in sorted(first | second, key=lambda it: (known[it][0], it)):
        out += ["", f"{known[name][0]}: {name}", *(f"  {it}" for it in known[name][1])]
    return out[1:], (calls, clauses, len(first | second))


def sources():
    """The files that the table is of, by their paths: those of specs/ of all crates, and the code of the product."""
    found = {}
    for crate in listed():
        for part in ["specs/**/*.antt", *(["src/**/*.rt"] if PRODUCT.match(crate) else [])]:
            for file in sorted(glob.glob(f"{TOP}/crates/{crate}/{part}", recursive=True)):
                path = os.path.relpath(file, TOP)
                found[path] = read(path)
    return found


def let_through(texts, lines):
    """The changes of PLANTED that can't be made, or that are no difference."""
    for path, *changes in PLANTED:
        text = texts.get(path, "")
        for old, new in changes:
            if text.count(old) != 1:
                yield f"{path}: {old!r} isn't there once, so that what is planted can't be tried"
            text = text.replace(old, new)
        if table({**texts, path: text})[0] == lines:
            yield f"{path}: {changes[0][1]!r} is no difference"


def main():
    texts = sources()
    lines, (calls, clauses, words) = table(texts)
    old = read(TABLE).split("\n")[:-1] if os.path.exists(f"{TOP}/{TABLE}") else []
    if sys.argv[1:] == ["write"]:
        with open(f"{TOP}/{TABLE}", "w", encoding="utf-8") as it:
            it.write("\n".join(lines) + "\n")
        old = lines
    wrong = [*difflib.unified_diff(old, lines, TABLE, "the sources", lineterm="", n=1), *let_through(texts, lines)]
    for it in wrong:
        print(f"requires: {it}")
    print(f"requires: {calls} calls, {clauses} clauses, {words} definitions, {len(wrong)} lines that differ")
    return 1 if wrong or not clauses else 0


if __name__ == "__main__":
    sys.exit(main())
