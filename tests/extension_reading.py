"""What extensions and their codecs answer, by the rules of `rules.py`: the calls of `crates/conformance_extensions`.

Each function is given a row, as `second_reading.py` reads it, and finds its answer and what stands after.
"""
from rules import (
    DELIMITED, END, KINDS, MESSAGES, MOST_LEVELS, START, Budget, Bytes, Fault, blank, delimited, inside, merge, message_text,
    mismatch, of_word, packed, payload, plain, read_list, read_one, read_record, record_encoding, records, tag_encoding, value, word,
)

CALLS = (
    "get set default clear has set-then-read decode-of encode-into encode-one decode-one decode-one-ctx pack unpack "
    "hold merge-all merge-in steps replace declared descriptor read decode-strictly check-element"
)


def text_of(found):
    return f"records {b''.join(it[2] for it in found).hex() or '-'}"


def read_as(row, found):
    """What the records of the number are read as, in words."""
    mine, kind = [it for it in found if it[0] == row.number], plain(row.types)
    if "how" in row.settings:
        return " ".join(word(kind, it) for it in read_list(row.types, mine)) or "-"
    one = read_one(row.types, mine)
    return "none" if one is None else word(kind, one)


def records_of_value(row):
    """The records of the row's value or values, and why there are no more."""
    kind, how, new = plain(row.types), row.settings.get("how"), []
    values = [of_word(kind, it) for it in (row.given.split() if how else [row.given])]
    if how == "packed":
        text = b"".join(payload(kind, it) for it in values)
        return [(row.number, DELIMITED, tag_encoding(row.number, DELIMITED) + delimited(text))] if values else [], None
    wire = START if row.types.endswith("-group") else KINDS[kind][0]
    for it in values:
        try:
            new.append((row.number, wire, record_encoding(row.types, row.number, it)))
        except Fault as fault:
            return new, fault
    return new, None


def of_set(row, found):
    """A set: the records of the number go, and the value's stand last; all stay where the value is refused."""
    new, fault = records_of_value(row)
    if fault:
        return str(fault), found
    return "ok", [it for it in found if it[0] != row.number] + new


def of_encode(row, found):
    """A codec puts the value's records behind the others; where it refuses, any beginning of them may stand."""
    new, fault = records_of_value(row)
    if not fault:
        return "ok", found + new
    fronts = [found + new[:count] for count in range(len(new) + 1)]
    return str(fault), next((it for it in fronts if f"-; {text_of(it)}" == row.after), fronts[-1])


def on_set(row):
    """An extension of a MessageSet, of the codec behind `set,`: the records are read of its bytes, its encoding is told."""
    row.types = row.types.removeprefix("set,")
    found = list(merge("set", blank("set"), bytes.fromhex(row.before), MOST_LEVELS, Budget()))
    return on_records(row, found, lambda it: f"text {message_text('set', it).hex() or '-'}")


def on_carrier(row):
    return on_records(row, records(bytes.fromhex(row.before), each=True), text_of)


def on_records(row, found, text_of):
    answer = "ok"
    is_there = any(it[0] == row.number for it in found)
    if row.call == "clear":
        words, found = f"{str(is_there).lower()} false", [it for it in found if it[0] != row.number]
    elif row.call == "has":
        words = str(is_there and row.settings.get("extendee", "test.Carrier") == "test.Carrier").lower()
    elif row.call == "encode-into":
        answer, found = of_encode(row, found)
        words = "-"
    else:
        if row.call in ("set", "set-then-read"):
            answer, found = of_set(row, found)
        words = read_as(row, found)
        if (row.call, words) == ("default", "none"):
            words = row.settings.get("declared", word(plain(row.types), blank(plain(row.types))))
        if row.call == "set-then-read" and answer != "ok":
            words = "-"
    return answer, f"{words}; {text_of(found)}"


def on_record(row):
    """A codec's record of a value, or what it reads of the first record."""
    kind = plain(row.types)
    if row.call == "encode-one":
        try:
            return "ok", f"-; records {record_encoding(row.types, 1, of_word(kind, row.given)).hex()}"
        except Fault as fault:
            return str(fault), "-; records -"
    first = records(bytes.fromhex(row.before))[0]
    one = read_record(row.types, first, row.depth if row.call == "decode-one-ctx" else MOST_LEVELS, row.budget)
    parts = ["none" if one is None else word(kind, one), f"records {row.before}"]
    return "ok", row.told(*parts) if row.settings.get("left") == "told" else "; ".join(parts)


def on_packed(row):
    """Packed bytes of a value behind others, or the values of packed bytes behind others."""
    kind = plain(row.types)
    if row.call == "pack":
        text = bytes.fromhex(row.before) + payload(kind, of_word(kind, row.given))
        return "ok", f"-; records {(tag_encoding(1, DELIMITED) + delimited(text)).hex()}"
    values = row.before.split() + [word(kind, it) for it in packed(row.types, bytes.fromhex(row.given))]
    return "ok", f"{' '.join(values) or '-'}; records -"


def on_messages(row):
    """An encoding in a record, or what the encodings in records make of a message."""
    kind, is_group = plain(row.types), row.types.endswith("-group")
    if row.call == "hold":
        text = bytes.fromhex(row.given)
        try:
            inner = b"".join(it[2] for it in records(text)) + tag_encoding(1, END) if is_group else delimited(text)
        except Fault as fault:
            return f"GroupRefused {fault}", "-; records -"
        return "ok", f"-; records {(tag_encoding(1, START if is_group else DELIMITED) + inner).hex()}"
    found, message, is_there = records(bytes.fromhex(row.before)), of_word(kind, row.given), False
    mine = found[:1] if row.call == "merge-in" else [it for it in found if it[0] == row.number]
    depth = row.depth if row.call == "merge-in" else MOST_LEVELS
    try:
        for record in mine:
            if record[1] == (START if is_group else DELIMITED):
                message, is_there = merge(kind, message, inside(record), depth, row.budget), True
    except Fault as fault:
        return str(fault), row.told("-", text_of(found))
    return "ok", row.told(f"{str(is_there).lower()} {word(kind, message)}", text_of(found))


def judged(row, record, message, budget, is_listed):
    """What a record makes of a message, or a fault where it is of another wire type or malformed. In a list of what isn't
    delimited, bytes are packed values to their end; a value by itself is read as it is spelled."""
    kind = plain(row.types)
    wanted = START if row.types.endswith("-group") else KINDS[kind][0]
    is_packed = is_listed and record[1] == DELIMITED and KINDS[kind][0] != DELIMITED
    if record[1] != wanted and not is_packed:
        raise mismatch(row.number, wanted, record[1])
    if kind in MESSAGES:
        return merge(kind, message, inside(record), MOST_LEVELS, budget)
    buf = Bytes(inside(record) if is_packed else record[2])
    if not is_packed:
        buf.varint()
    while buf.unread():
        value(kind, buf, None)
    return message


def on_strict(row):
    """A strict reading: the records of the number are judged in their order, and one that can't be read is a fault. In a list
    each is an element, and a message is a new one; else messages are merged into one. All are of one budget."""
    found, is_listed = records(bytes.fromhex(row.before), each=True), "how" in row.settings
    new = message = blank(plain(row.types))
    budget = Budget()
    try:
        for record in found:
            if record[0] == row.number:
                message = judged(row, record, new if is_listed else message, budget, is_listed)
    except Fault as fault:
        return str(fault), f"-; {text_of(found)}"
    return "ok", f"{read_as(row, found)}; {text_of(found)}"


def on_element(row):
    """The first record as an element of a list, by the row's budget."""
    found = records(bytes.fromhex(row.before))
    try:
        judged(row, found[0], blank(plain(row.types)), row.budget, True)
    except Fault as fault:
        return str(fault), row.told("-", text_of(found))
    return "ok", row.told("-", text_of(found))


def renumbered(number, text):
    """The encoding of a record under another number."""
    buf = Bytes(text)
    tag = buf.varint()
    rest = text[buf.at :]
    if tag % 8 == START:
        rest = rest[: len(rest) - len(tag_encoding(tag // 8, END))] + tag_encoding(number, END)
    return tag_encoding(number, tag % 8) + rest


def on_list(row):
    """Steps, and records in the place of those of a number."""
    found = records(bytes.fromhex(row.before))
    if row.call == "replace":
        found = [it for it in found if it[0] != row.number] + records(bytes.fromhex(row.given))
        return "ok", f"-; {text_of(found)}"
    for step in row.given.split():
        number, _, said = step.partition("=")
        found = [it for it in found if it[0] != int(number)]
        found += [(int(number), wire, renumbered(int(number), text)) for _, wire, text in records(bytes.fromhex(said))]
    return "ok", f"{len(row.given.split())}; {text_of(found)}"


def outcome(row):
    """What comes of the row, or none where the call is another."""
    if row.call == "descriptor":
        return "ok", " ".join([f"{row.number} test.Carrier"] * 3)
    if row.call == "declared":
        return "ok", row.settings.get("declared", "none")
    if row.types.startswith("set,"):
        return on_set(row)
    for calls, done in (
        ("encode-one decode-one decode-one-ctx", on_record),
        ("pack unpack", on_packed),
        ("hold merge-all merge-in", on_messages),
        ("steps replace", on_list),
        ("read decode-strictly", on_strict),
        ("check-element", on_element),
        (CALLS, on_carrier),
    ):
        if row.call in calls.split():
            return done(row)
    return None
