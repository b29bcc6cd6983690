#!/usr/bin/env python3
"""Judges the rows of vectors/ by a second reading of the rules: tests/second_reading.py [TABLE..].

`rules.py` has the rules, in Python, and shares no line with the crates. Each row's answer and state have to be what it
finds; so an answer that was taken from the program's own output would be seen, unless both are wrong alike.
`random_rows.py` makes rows by it.
"""
import glob
import multiprocessing
import os
import re
import sys

sys.dont_write_bytecode = True
import extension_reading
from member_reading import BY_MEMBERS
from rules import (
    EIGHT, FOUR, KINDS, MESSAGES, MOST_BYTES, MOST_LEVELS, MOST_UNITS, MOST_UNKNOWN, Budget, Bytes, Fault, blank, delimited,
    field_encoding, keep, merge, merge_entry, merge_field, message_text, mismatch, of_word, payload, put, read_item,
    read_run, records, skip, tag_encoding, value, varint_encoding, word,
)

TOP = os.path.dirname(os.path.dirname(os.path.abspath(__file__)))
# Limits: what one more is refused with, and the limit.
LIMITS = {
    "depth": ("RecursionLimitExceeded", str(MOST_LEVELS)), "unknown": ("UnknownFieldLimitExceeded", str(MOST_UNKNOWN)),
    "units": ("ElementMemoryLimitExceeded", str(MOST_UNITS)), "number": ("ok", str(2**29 - 1)),
    "bytes": ("ok", str(MOST_BYTES)),
}


def slots_of(kind, message):
    """The slots of a message: of each child the length of its encoding, then its own slots."""
    if kind in BY_MEMBERS:
        return BY_MEMBERS[kind].slots(message)
    children = sorted(message[1].items()) if kind in ("tree", "node") else []
    return [it for _, child in children for it in [len(message_text(kind, child)), *slots_of(kind, child)]]


def expanded(line):
    """The line with each `(TEXT*N)` as the text N times: digits, or words with spaces between them."""
    return re.sub(r"\(([0-9a-z: ]+)\*(\d+)\)", lambda found: found[1] * int(found[2]), line)


class Row:
    """A row, and what comes of it: an answer, and what stands after."""

    def __init__(self, line):
        fields = expanded(line).split("\t")
        self.name, self.call, self.types, said, before, given, self.answer, self.after = fields
        self.settings = dict(it.split("=", 1) for it in said.split(" ") if "=" in it)
        self.before, self.given = before.strip() if before != "-" else "", given if given != "-" else ""
        self.kinds = tuple(self.types.split(","))
        self.number, self.depth = self.setting("number", 5), self.setting("depth", 10)
        self.budget = Budget(self.setting("unknown", MOST_UNKNOWN), self.setting("units", MOST_UNITS))

    def setting(self, name, other):
        return int(self.settings.get(name, other))

    def told(self, *parts, unread=0):
        """The state in words, with what is left of unknown fields, units and bytes, where the settings or bytes ask for it."""
        left = [f"{self.budget.unknown} unknown"] if "unknown" in self.settings else []
        left += [f"{self.budget.units} units"] if "units" in self.settings else []
        left += [f"{unread} unread"] if unread else []
        return "; ".join([*parts, *left])

    def pairs(self):
        found = {}
        for pair in self.before.split():
            key, held = (of_word(kind, it) for kind, it in zip(self.kinds, pair.split("=", 1)))
            put(self.kinds[0], found, key, held)
        return found

    def of_map(self, in_order):
        """Reads entries or a run into a map; its pairs are told in the order of their keys, or as they came."""
        pairs, buf = {} if self.call == "rewrite" else self.pairs(), Bytes(bytes.fromhex(self.given))
        old = self.settings.get("list")
        kept = [] if old is not None or self.call == "rewrite" else None
        answer = "ok"
        if self.call == "field":
            self.depth, self.budget = self.setting("depth", 0), Budget(self.setting("unknown", 0), self.budget.units)
        try:
            reads = merge_entry if self.call in ("entry", "unlisted") else read_run
            reads(self.kinds, pairs, buf, self.depth, self.budget, self.number, kept)
        except Fault as fault:
            answer = str(fault)
        order = sorted(pairs.items()) if in_order else list(pairs.items())
        words = " ".join(f"{word(self.kinds[0], key)}={word(self.kinds[1], held)}" for key, held in order) or "-"
        unread = buf.unread() if answer == "ok" else 0
        if self.call == "field":
            written = answer != "ok" or field_encoding(self.kinds, self.number, order) == buf.text
            return answer if written else "not written back", self.told(words)
        if self.call == "rewrite":
            text = (field_encoding(self.kinds, self.number, order) + b"".join(kept)).hex() if answer == "ok" else ""
            return answer, self.told(words, f"text {text or '-'}")
        lists = [f"list {(old.strip('-') + b''.join(kept).hex()) or '-'}"] if old is not None else []
        return answer, self.told(words, *lists, unread=unread)

    def of_written_map(self, in_order):
        pairs = self.pairs()
        order = sorted(pairs.items()) if in_order else list(pairs.items())
        text = field_encoding(self.kinds, self.number if self.call != "size" else 1, order)
        if self.call == "size":
            return "ok", f"{len(text) + len(pairs) * (self.number - 1)} {len(pairs)} 0"
        return "ok", f"{len(text)} {len(pairs)}; text {text.hex() or '-'}"

    def of_bytes(self, _in_order):
        """Reads a varint, a field or an Item."""
        buf = Bytes(bytes.fromhex(self.given))

        def told(words):
            return self.told(words, unread=buf.unread())

        try:
            if self.call == "varint":
                return "ok", told(str(buf.varint()))
            if self.call == "item":
                type_id, message = read_item(buf, self.depth, self.budget)
                return "ok", told(f"{type_id} x{message.hex()}")
            tag = buf.tag()
            if self.call == "skip":
                skip(buf, *tag, self.depth)
                return "ok", told("-")
            return "ok", told(keep(buf, *tag, self.depth, self.budget).hex())
        except Fault as fault:
            return str(fault), self.told("-")

    def of_records(self, _in_order):
        text = bytes.fromhex(self.given or self.before)
        if self.call == "write-item":
            text = b"\x0b\x10" + varint_encoding(self.number) + b"\x1a" + delimited(bytes.fromhex(self.given)) + b"\x0c"
            return "ok", f"{len(text)}; text {text.hex()}"
        try:
            found = records(text)
        except Fault as fault:
            return str(fault), "0; records -"
        if self.call == "retain":
            found = [it for it in found if it[0] != self.number]
        text = b"".join(it[2] for it in found) * (2 if self.call == "twice" else 1)
        return "ok", f"{len(text)}; records {text.hex() or '-'}"

    def of_message(self, in_order):
        kind, before = self.types, bytes.fromhex(self.before)
        if self.call in ("size-messages", "write-messages"):
            pairs = {}
            read_run(("int32", kind), pairs, Bytes(before), MOST_LEVELS, Budget(), self.number, None)
            order = sorted(pairs.items()) if in_order else list(pairs.items())
            text = field_encoding(("int32", kind), self.number, order)
            slots = [it for _, held in order for it in [len(message_text(kind, held)), *slots_of(kind, held)]]
            written = [f"text {text.hex() or '-'}"] if self.call == "write-messages" else []
            return "ok", "; ".join([str(len(text)), *self.cache(slots), *written])
        message = merge(kind, blank(kind), before, MOST_LEVELS, Budget(MOST_UNKNOWN * 10))
        if self.call == "message-clear":
            return "ok", word(kind, blank(kind))
        text = message_text(kind, message)
        if self.call == "message-size":
            return "ok", "; ".join([str(len(text)), *self.cache(slots_of(kind, message))])
        if self.call == "encode":
            return "ok", f"-; text {text.hex() or '-'}"
        return self.merged(message, Bytes(bytes.fromhex(self.given)))

    def cache(self, slots):
        """The slots of a size cache in words, where the row tells them."""
        slots = [7] * self.setting("reserved", 0) + slots
        return [f"cache {' '.join(map(str, slots)) or '-'}"] if self.settings.get("cache") == "told" else []

    def merged(self, message, buf):
        """A message, and what the bytes make of it: all, those of a length, or one field."""
        if self.settings.get("how") == "alone":
            self.depth, self.budget = MOST_LEVELS, Budget()
        kind, depth, inner = self.types, self.depth, buf
        try:
            if self.call == "merge-delimited":
                if depth == 0:
                    raise Fault("RecursionLimitExceeded")
                inner, depth = Bytes(buf.take(buf.varint())), depth - 1
            is_first = True
            while inner.unread() or self.call == "merge-field" and is_first:
                message = merge_field(kind, message, inner, *inner.tag(), depth, self.budget)
                is_first = False
                if self.call == "merge-field":
                    break
        except Fault as fault:
            is_told = self.settings.get("state") == "told" or kind in ("node", "set") and self.call != "merge-delimited"
            return str(fault), self.told(word(kind, message) if is_told else "-")
        return "ok", self.told(word(kind, message), unread=buf.unread())

    def of_extension(self, _in_order):
        return extension_reading.outcome(self)

    def of_scalar(self, _in_order):
        """A value that is read, or spelled."""
        kind, is_read = self.types, self.call in ("decode", "copy", "tag", "from-wire", "payload")
        buf = Bytes(bytes.fromhex(self.given) if is_read else b"")
        if self.call == "blank":
            return "ok", word(kind, blank(kind))
        if self.call == "spell":
            text = spelled(kind, self.given)
            return "ok", f"{len(text)}; text {text.hex()}"
        if self.call == "spell-payload":
            text, (wire, cost) = payload(kind, of_word(kind, self.given)), KINDS[kind]
            fixed = len(text) if kind == "bool" or wire in (EIGHT, FOUR) else "-"
            return "ok", f"{len(text)} {cost} {wire} {fixed}; text {text.hex()}"
        if self.call == "payload-len":
            return "ok", str(len(payload(kind, of_word(kind, self.given))))
        if self.call == "zigzag":
            return "ok", f"{Bytes(payload(kind, int(self.given))).varint()} {self.given}"
        try:
            if self.call == "tag":
                number, wire = buf.tag()
                expected = self.setting("expect", wire)
                if wire != expected:
                    raise mismatch(number, expected, wire)
                return "ok", self.told(f"{number} {wire}", f"text {tag_encoding(number, wire).hex()}", unread=buf.unread())
            if self.call == "payload":
                return self.of_payload(kind, buf)
            if self.call == "copy":
                return "ok", self.told(word(kind, buf.take(self.setting("length", 0))), unread=buf.unread())
            if self.call == "from-wire":
                buf = Bytes(delimited(buf.text))
            return "ok", self.told(word(kind, value(kind, buf, None)[0]), unread=buf.unread())
        except Fault as fault:
            is_kept = self.call == "payload" and kind not in MESSAGES
            return str(fault), self.told(self.before if is_kept else "-")

    def of_payload(self, kind, buf):
        old, is_declared = of_word(kind, self.before) if self.before else blank(kind), True
        if kind in MESSAGES:
            if self.depth == 0:
                raise Fault("RecursionLimitExceeded")
            new = merge(kind, old, buf.take(buf.varint()), self.depth - 1, self.budget)
        else:
            new, is_declared = value(kind, buf, old)
        return "ok", self.told(f"{word(kind, new)} {'known' if is_declared else 'unknown'}", unread=buf.unread())

    def of_list(self, _in_order):
        """Records that are put into a list."""
        found = records(bytes.fromhex(self.before))
        if self.call in ("push", "append"):
            found += records(bytes.fromhex(self.given))
            words = str(len(found))
        elif self.call == "equal":
            return "ok", str(found == records(bytes.fromhex(self.given))).lower()
        text = b"".join(it[2] for it in found)
        if self.call == "write-records":
            return "ok", f"{len(text)}; text {text.hex() or '-'}"
        answer = "ok"
        if self.call == "reserve":
            # no address space has room for so many
            answer, words = ("ok", "true") if int(self.given) < 2**57 else ("OutOfMemory", "false")
        return answer, f"{words}; records {text.hex() or '-'}"

    def of_words(self, in_order):
        """Calls that are given words, and what each of them answers."""
        said, answers = self.given.split(), []
        if self.call == "put":
            pairs = self.pairs()
            put(self.kinds[0], pairs, *(of_word(kind, it) for kind, it in zip(self.kinds, self.given.split("=", 1))))
            order = sorted(pairs.items()) if in_order else list(pairs.items())
            words = " ".join(f"{word(self.kinds[0], key)}={word(self.kinds[1], held)}" for key, held in order)
            return "ok", f"{words}; {len(pairs)}"
        if self.call == "normal":
            return "ok", word("open", of_word("open", self.given))
        if self.call == "number":
            return "ok", f"{word('open', int(self.given))} {self.given}"
        if self.call == "item-len":
            length = self.setting("length", 0)
            return "ok", str(4 + len(varint_encoding(self.number)) + len(varint_encoding(length)) + length)
        if self.call == "limits":
            return LIMITS[self.types]
        if self.call == "cache":
            return self.of_cache(said)
        for step in said:
            answers.append(self.of_context(step))
            if answers[-1] == "RecursionLimitExceeded":
                break
        return "ok", self.told(" ".join(answers) or "-", f"depth {self.depth}")

    def of_cache(self, said):
        slots, place, answers = [], 0, []
        for step in [*self.before.split(), "told", *said]:
            front, _, back = step.partition(":")
            if step == "told":
                answers = []
                continue
            if front == "room" and int(back) >= 2**61:
                return "OutOfMemory", " ".join(map(str, answers)) or "-"
            if step == "reserve":
                answers.append(len(slots))
                slots.append(0)
            elif step == "next":
                answers.append(slots[place])
                place += 1
            elif front != "room":
                slots[int(front)] = int(back)
        return "ok", " ".join(map(str, answers)) or "-"

    def of_context(self, step):
        try:
            if step == "unknown":
                self.budget.take_unknown()
            elif step.startswith("units:"):
                self.budget.take_units(int(step[6:]))
            elif self.depth == 0:
                raise Fault("RecursionLimitExceeded")
            else:
                self.depth -= 1
        except Fault as fault:
            return str(fault)
        return "ok"

    def outcome(self, in_order):
        """What comes of the row, by the calls' names in `crates/conformance_rows`."""
        for calls, done in (
            ("entry unlisted run rewrite field", self.of_map),
            ("write size size-and-write", self.of_written_map),
            ("size-messages", self.of_message),
            ("varint item skip unknown", self.of_bytes),
            ("records twice retain write-item", self.of_records),
            ("merge merge-delimited merge-field encode message-size message-clear write-messages", self.of_message),
            (extension_reading.CALLS, self.of_extension),
            ("decode spell zigzag tag payload spell-payload payload-len copy from-wire blank", self.of_scalar),
            ("push append reserve write-records equal", self.of_list),
            ("put normal number item-len cache context limits", self.of_words),
        ):
            if self.call in calls.split():
                return done(in_order)
        return None

    def orders(self):
        """The orders in which storages have the pairs: that of the keys, that of arrival; words have no order."""
        names = self.settings.get("in", "ordered indexed")
        ordered = "ordered" in names and self.kinds[0] != "word" and self.call != "field"
        arrival = "indexed" in names and self.kinds[0] != "old"
        return [True] * ordered + [False] * (arrival or not ordered)


def spelled(kind, said):
    """The encoding of a value, or of a tag: `number:wire type`."""
    if kind == "tag":
        return tag_encoding(*map(int, said.split(":")))
    return varint_encoding(int(said)) if kind in ("varint", "length") else payload(kind, of_word(kind, said))


def with_pairs_in_order(state):
    pairs, *rest = state.split("; ")
    return "; ".join([" ".join(sorted(pairs.split())), *rest])


def wrong(line):
    """What the second reading finds in place of what a row says, or nothing; none where it doesn't know the call."""
    for in_order in Row(line).orders():
        row = Row(line)
        found = row.outcome(in_order)
        if found is None:
            return None
        if row.answer == "refused" and found[0] != "ok":
            continue
        said, (answer, after) = row.after, found
        if in_order and row.call in ("entry", "unlisted", "run", "rewrite", "put"):
            # the pairs may stand in a row as they came
            said, after = with_pairs_in_order(said), with_pairs_in_order(after)
        if (row.answer, said) != (answer, after):
            return f"{answer}\t{found[1]}"
    return ""


def judged(line):
    """As `wrong`; a row on which the rules stop with a fault doesn't hold."""
    try:
        return wrong(line)
    except Exception as fault:  # of any kind: the row is told, and the others are judged
        return f"no answer, but {type(fault).__name__}: {fault}"


def main():
    tables = sys.argv[1:] or sorted(glob.glob(f"{TOP}/vectors/cases/*.tsv") + glob.glob(f"{TOP}/vectors/google/*.tsv"))
    counts, rows = {"held": 0, "didn't": 0, "of calls that it doesn't know": 0}, []
    for path in tables:
        with open(path, encoding="utf-8") as table:
            rows += [(path, it) for it in table.read().splitlines() if it and not it.startswith("#")]
    # one process, beside the proofs of the lowest crates
    with multiprocessing.Pool(1) as pool:
        for (path, line), found in zip(rows, pool.imap(judged, [line for _, line in rows], chunksize=2)):
            counts["of calls that it doesn't know" if found is None else "didn't" if found else "held"] += 1
            if found:
                print(f"{os.path.relpath(path, TOP)}: {line[:500]}\n  it finds {found[:500]}")
    print("second reading: " + ", ".join(f"{count} {what}" for what, count in counts.items()))
    return 1 if counts["didn't"] or not counts["held"] else 0


if __name__ == "__main__":
    sys.exit(main())
