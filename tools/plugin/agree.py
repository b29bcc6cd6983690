#!/usr/bin/python3
"""Says where the messages of one set of descriptors aren't those of another: agree.py [--whole] OURS THEIRS.

Each field of ours has to be there, with the same number, label, type and default; and each of theirs here, but for the
fields of options, and for the messages that ours doesn't have. With --whole ours has all of them. The files have one syntax.
"""
import sys

from google.protobuf.descriptor_pb2 import FileDescriptorSet


def fields_of(file):
    """The fields of the messages in a set, and the values of its enums, by their names: what each is."""
    with open(file, "rb") as it:
        files = FileDescriptorSet.FromString(it.read()).file
    found = {}

    def add(above, message):
        full = f"{above}.{message.name}"
        found[full] = {f.name: (f.number, f.label, f.type, f.type_name, f.default_value) for f in message.field}
        for enum in message.enum_type:
            found[f"{full}.{enum.name}"] = {v.name: v.number for v in enum.value}
        for inner in message.nested_type:
            add(full, inner)

    for each in files:
        found[each.package] = {"syntax": each.syntax}
        for message in each.message_type:
            add(each.package, message)
    return found


def differences(ours, theirs, is_whole):
    for name in theirs:
        if is_whole and name not in ours:
            yield f"{name}: ours isn't there"
    for name, fields in ours.items():
        for field, what in fields.items():
            if theirs.get(name, {}).get(field) != what:
                yield f"{name}.{field}: Google's is {theirs.get(name, {}).get(field, 'not there')}, and ours {what}"
        for field in theirs.get(name, {}):
            if field not in fields and not name.endswith("Options"):
                yield f"{name}.{field}: ours isn't there"


if __name__ == "__main__":
    ours, theirs = map(fields_of, sys.argv[-2:])
    found = list(differences(ours, theirs, "--whole" in sys.argv[1:-2]))
    print("\n".join(found))
    sys.exit(1 if found else 0)
