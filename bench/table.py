#!/usr/bin/env python3
"""table.py FILE: the lines of all passes as the tables of README.md: the least of them, nanoseconds an entry, and the requests
for memory at the fewest entries."""
import sys

# field to (who to (phase, entries) to the numbers of the passes), and the phases in order; the same of the requests
times, requests, phases, entries = {}, {}, {}, set()
for line in open(sys.argv[1]):
    field, who, phase, n, *numbers = line.rstrip("\n").split("\t")
    is_count = phase.startswith("allocations ")
    phase = phase.removeprefix("allocations ")
    entries.add(int(n))
    cells = (requests if is_count else times).setdefault(field, {}).setdefault(who, {})
    cells.setdefault((phase, int(n)), []).append(float(numbers[0]))
    if phase not in phases.setdefault(field, []):
        phases[field].append(phase)

# What a table is of.
FIELDS = {
    "strings": "`map<string, int32>`",
    "messages": "`map<int32, Msg>`",
    "tree1": "trees 1 deep",
    "tree5": "5 deep",
    "tree20": "20 deep",
    "two": "messages of two int32",
    "records": "unknown fields",
    "packed": "packed int32",
    "repeated": "repeated int32",
    "message_list": "repeated messages",
    "one": "one among records",
    "items": "Items",
}


def told(numbers, is_count=False):
    """The least of numbers, with as many digits as tell."""
    if not numbers:
        return ""
    least = min(numbers)
    digits = 2 if is_count else 0 if least >= 20 else 1
    return f"{least:,.{digits}f}"


few = min(entries)
for field, name in FIELDS.items():
    if field not in times:
        continue
    counted = [
        phase
        for phase in phases[field]
        if any(min(cells.get((phase, few), [0])) > 0 for cells in requests.get(field, {}).values())
    ]
    columns = [(phase, n) for phase in phases[field] for n in sorted(entries)]
    heads = [f"{phase} {n:,}" if n == few else f"{n:,}" for phase, n in columns]
    print(f"\n| {name} | " + " | ".join(heads + [f"requests at {phase}" for phase in counted]) + " |")
    print("|---" * (len(heads) + len(counted) + 1) + "|")
    for who, cells in times[field].items():
        row = [told(cells.get(column, [])) for column in columns]
        row += [told(requests.get(field, {}).get(who, {}).get((phase, few), []), True) for phase in counted]
        print(f"| {who} | " + " | ".join(row) + " |")
