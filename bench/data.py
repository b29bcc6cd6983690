#!/usr/bin/env python3
"""data.py N..: data/FIELD-N.bin for each field of the tables, the same at each call."""
import random
import sys


def varint(value):
    text = bytearray()
    while value > 127:
        text.append(value & 127 | 128)
        value >>= 7
    text.append(value)
    return bytes(text)


def number(field, value):
    return varint(field * 8) + varint(value)


def delimited(field, payload):
    return varint(field * 8 + 2) + varint(len(payload)) + payload


def maps(n, rng):
    """Entries in random order: a string and an int32, and an int32 and a message."""
    order = list(range(1, n + 1))
    rng.shuffle(order)
    strings, messages = bytearray(), bytearray()
    for key in order:
        value = rng.randrange(1, 1_000_000)
        strings += delimited(1, delimited(1, b"key-%07d" % key) + number(2, value))
        messages += delimited(1, number(1, key) + delimited(2, number(1, value)))
    return strings, messages


def records(n, rng):
    """Of four records two are varints, one has four or eight bytes, and one twelve bytes behind a length; in the
    middle stand one int32 of number 7 and one message of number 8."""
    text = bytearray()
    for at in range(n):
        field = rng.choice((1, 2, 3, 4, 5, 6, 9, 10, 11, 12, 13, 14, 15))
        if at == n // 2:
            text += number(7, 7_000)
        elif at == n // 2 + 1:
            text += delimited(8, number(1, 8_000))
        elif at % 4 < 2:
            text += number(field, rng.randrange(1, 1_000_000))
        elif at % 4 == 2:
            wide = at % 8 == 2
            text += varint(field * 8 + (1 if wide else 5)) + rng.randbytes(8 if wide else 4)
        else:
            text += delimited(field, rng.randbytes(12))
    return text


def lists(n, rng):
    """int32 values, packed and a record each: half of them below 128, the others below a million."""
    values = [rng.randrange(128 if rng.random() < 0.5 else 1_000_000) for _ in range(n)]
    return delimited(1, b"".join(map(varint, values))), b"".join(number(1, value) for value in values)


def message_list(n, rng):
    return b"".join(delimited(1, number(1, rng.randrange(1, 1_000_000))) for _ in range(n))


def two(n, rng):
    """Messages of two int32 behind their lengths: half of the values below 128, the others below a million."""
    value = lambda: rng.randrange(1, 128 if rng.random() < 0.5 else 1_000_000)
    texts = (number(1, value()) + number(2, value()) for _ in range(n))
    return b"".join(varint(len(text)) + text for text in texts)


def items(n, rng):
    """Items with type ids of two bytes, each a message of one int32."""
    ids = (rng.randrange(1_000, 16_000) for _ in range(n))
    return b"".join(
        b"\x0b" + number(2, one) + delimited(3, number(1, rng.randrange(1, 1_000_000))) + b"\x0c" for one in ids
    )


def tree(n, depth, rng):
    """So many nodes below the root, which holds chains of that depth."""
    text, left, key = bytearray(number(1, 1)), n, 0
    while left > 0:
        node = b""
        for level in range(min(depth, left)):
            inner = number(1, rng.randrange(1, 1_000_000)) + (delimited(2, number(1, level + 1) + delimited(2, node)) if level else b"")
            node = inner
        key += 1
        left -= min(depth, left)
        text += delimited(2, number(1, key) + delimited(2, node))
    return text


for n in map(int, sys.argv[1:]):
    texts = {}
    texts["strings"], texts["messages"] = maps(n, random.Random(1))
    texts["records"] = records(n, random.Random(2))
    texts["packed"], texts["repeated"] = lists(n, random.Random(3))
    texts["message_list"] = message_list(n, random.Random(4))
    texts["items"] = items(n, random.Random(5))
    texts["two"] = two(n, random.Random(7))
    for depth in (1, 5, 20):
        texts[f"tree{depth}"] = tree(n, depth, random.Random(6))
    for field, text in texts.items():
        with open(f"data/{field}-{n}.bin", "wb") as file:
            file.write(text)
