#!/usr/bin/env python3
"""table.py FILE: the lines of all passes as the table of real messages in README.md. Of times it takes the least."""
import sys

# message to (who, phase) to the numbers of the passes, and message to its bytes
found, lengths, writers = {}, {}, {}
for line in open(sys.argv[1]):
    message, who, phase, length, number = line.rstrip("\n").split("\t")
    found.setdefault(message, {}).setdefault((who, phase), []).append(float(number))
    lengths[message] = int(length)
    if who not in writers.setdefault(message, []):
        writers[message].append(who)

NAMES = {
    "error_info": "`google.rpc.ErrorInfo`",
    "descriptor": "a `FileDescriptorSet` of one file",
    "metrics": "a Prometheus `MetricFamily` of histograms",
    "range": "an etcd `RangeResponse`",
    "osm": "an OpenStreetMap `PrimitiveBlock`",
    "descriptors": "a `FileDescriptorSet` of many files",
    "places": "the same, with comments and places",
    "onnx": "an ONNX `ModelProto`",
}
FRESH, KEPT, WRITE, CANONICAL = "parse", "parse into one that is kept", "write", "parse canonically"


def told(number):
    """A number with as many digits as tell."""
    return "" if number is None else f"{number:,.{0 if number >= 20 else 1}f}"


def fast(number, length):
    """Megabytes a second, of a time in nanoseconds."""
    return "" if number is None else told(length * 1e3 / number)


HEADS = ["parse ns", "MB/s", "kept ns", "MB/s", "size and write ns", "MB/s", "requests at parse", "at write", "peak bytes at parse"]
counts = [f"instructions {phase}" for phase in (FRESH, KEPT, WRITE)]
is_counted = any(key[1] in counts for cells in found.values() for key in cells)
if is_counted:
    HEADS += ["instructions at parse", "kept", "at size and write"]
for message in (it for it in NAMES if it in found):
    length = lengths[message]
    print(f"\n| {NAMES[message]}, {length:,} bytes | " + " | ".join(HEADS) + " |")
    print("|---" * (len(HEADS) + 1) + "|")
    for who in writers[message]:
        least = {phase: min(numbers) for (it, phase), numbers in found[message].items() if it == who}
        row = [cell for phase in (FRESH, KEPT, WRITE) for cell in (told(least.get(phase)), fast(least.get(phase), length))]
        row += [f"{least[it]:,.0f}" if it in least else "" for it in (f"requests {FRESH}", f"requests {WRITE}", f"peak {FRESH}")]
        row += [f"{least[it]:,.0f}" if it in least else "" for it in counts] if is_counted else []
        print(f"| {who} | " + " | ".join(row) + " |")

print("\n| Ours, canonically, beside its parse and its write together | ns | MB/s | beside, ns | requests | instructions | beside, instructions |")
print("|---" * 7 + "|")
for message in (it for it in NAMES if it in found):
    least = {phase: min(numbers) for (who, phase), numbers in found[message].items() if who == "ours"}
    beside = [f"{least[a] + least[b]:,.0f}" if a in least and b in least else "" for a, b in ((FRESH, WRITE), tuple(f"instructions {it}" for it in (FRESH, WRITE)))]
    counted = [f"{least[it]:,.0f}" if it in least else "" for it in (f"requests {CANONICAL}", f"instructions {CANONICAL}")]
    row = [told(least.get(CANONICAL)), fast(least.get(CANONICAL), lengths[message]), beside[0], *counted, beside[1]]
    print(f"| {NAMES[message]} | " + " | ".join(row) + " |")

WHO = (("ours", FRESH), ("prost", FRESH), ("C++", FRESH), ("C++", KEPT))
print("\n| Parse, MB a second | bytes | " + " | ".join(("ours", "prost", "C++", "C++, into one that is kept")) + " |")
print("|---" * 6 + "|")
for message in (it for it in NAMES if it in found):
    cells = [fast(min(found[message].get(key, [0])) or None, lengths[message]) for key in WHO]
    print(f"| {NAMES[message]} | {lengths[message]:,} | " + " | ".join(cells) + " |")
