#!/usr/bin/python3
"""Gives the plugin files that aren't to be trusted, one with each thing that a .proto says: hostile.py PLUGIN.

What a file says may stand in a comment, on a line of its own, or in a literal. It may become no code: the plugin writes it so,
or refuses it. Names and numbers are such as protoc doesn't pass on; another program may.
"""
import importlib.machinery
import importlib.util
import sys

from google.protobuf.compiler import plugin_pb2
from google.protobuf.descriptor_pb2 import FieldDescriptorProto as Field

CODE = "PLANTED"
ENDS = ["\n", "\r", "\r\n", "\v", "\f", "\t", "\0", "\x85", "\u2028", "\u2029", "\u202e", "\ufeff", "*/", '"', "\\", "}", "»"]


def request():
    """A message with an enum, a number, a text, bytes and a bool, each with a default, and a oneof; a service; and three extensions."""
    it = plugin_pb2.CodeGeneratorRequest(file_to_generate=["x.proto"], parameter="crate=cases")
    file = it.proto_file.add(name="x.proto", package="cases", syntax="proto2")
    message = file.message_type.add(name="Host")
    kinds = [("number", Field.TYPE_INT32, "7"), ("text", Field.TYPE_STRING, "a"), ("code", Field.TYPE_BYTES, "a")]
    kinds += [("flag", Field.TYPE_BOOL, "true"), ("kind", Field.TYPE_ENUM, "KIND_NEW")]
    for at, (name, kind, default) in enumerate(kinds):
        message.field.add(name=name, number=at + 1, type=kind, label=Field.LABEL_OPTIONAL, default_value=default)
    message.field[4].type_name = ".cases.Kind"
    message.oneof_decl.add(name="which")
    for at, name in enumerate(("first", "second")):
        message.field.add(name=name, number=at + 10, type=Field.TYPE_INT32, label=Field.LABEL_OPTIONAL, oneof_index=0)
    message.extension_range.add(start=100, end=200)
    enum = file.enum_type.add(name="Kind")
    enum.value.add(name="KIND_OLD", number=0)
    enum.value.add(name="KIND_NEW", number=1)
    file.service.add(name="Reader").method.add(name="Read", input_type=".cases.Host", output_type=".cases.Host")
    for at, (name, kind, default) in enumerate([kinds[0], kinds[1], kinds[4]]):
        more = file.extension.add(name=f"more_{name}", number=at + 100, type=kind, label=Field.LABEL_OPTIONAL, extendee=".cases.Host")
        more.default_value = default
    file.extension[2].type_name = ".cases.Kind"
    return it


def comment(path):
    """Says the text of the thing at this path, before and behind it."""
    def plant(it, text):
        it.proto_file[0].source_code_info.location.add(path=path, span=[1, 0, 1], leading_comments=text, trailing_comments=text)

    return plant


def put(place, name):
    """Writes the text in place of what is said there, behind it."""
    def plant(it, text):
        at = place(it.proto_file[0])
        setattr(at, name, getattr(at, name) + text)

    return plant


WAYS = {
    "a comment of a message": comment([4, 0]),
    "a comment of a field": comment([4, 0, 2, 0]),
    "a comment of a oneof": comment([4, 0, 8, 0]),
    "a comment of a case": comment([4, 0, 2, 5]),
    "a comment of an enum": comment([5, 0]),
    "a comment of a value": comment([5, 0, 2, 0]),
    "a comment of an extension": comment([7, 0]),
    "the name of a message": put(lambda f: f.message_type[0], "name"),
    "the name of a field": put(lambda f: f.message_type[0].field[0], "name"),
    "the name of a oneof": put(lambda f: f.message_type[0].oneof_decl[0], "name"),
    "the name of a case": put(lambda f: f.message_type[0].field[5], "name"),
    "the name of an enum": put(lambda f: f.enum_type[0], "name"),
    "the name of a value": put(lambda f: f.enum_type[0].value[0], "name"),
    "the name of a service": put(lambda f: f.service[0], "name"),
    "the name of an extension": put(lambda f: f.extension[0], "name"),
    "the type of an extension": put(lambda f: f.extension[2], "type_name"),
    "the default of an extension that is of an enum": put(lambda f: f.extension[2], "default_value"),
    "the extendee of an extension": put(lambda f: f.extension[0], "extendee"),
    "the default of an extension that is a number": put(lambda f: f.extension[0], "default_value"),
    "the default of an extension that is a text": put(lambda f: f.extension[1], "default_value"),
    "the name of a package": put(lambda f: f, "package"),
    "the type of a field": put(lambda f: f.message_type[0].field[4], "type_name"),
    "the default of a number": put(lambda f: f.message_type[0].field[0], "default_value"),
    "the default of a text": put(lambda f: f.message_type[0].field[1], "default_value"),
    "the default of bytes": put(lambda f: f.message_type[0].field[2], "default_value"),
    "the default of a bool": put(lambda f: f.message_type[0].field[3], "default_value"),
    "the default of an enum": put(lambda f: f.message_type[0].field[4], "default_value"),
}


def name_of_file(it, text):
    it.proto_file[0].name += text
    it.file_to_generate[0] = it.proto_file[0].name


def parameter(it, text):
    it.parameter += ",module=messages" + text


def is_held(line):
    """Whether what is planted in a line is in a comment or a literal."""
    before = line[: line.index(CODE)]
    is_comment = before.lstrip().startswith("//")
    return is_comment or before.replace("\\\\", "").replace('\\"', "").count('"') % 2 == 1


def loaded(file):
    """The plugin as a module, which answers a request without a process of its own."""
    loader = importlib.machinery.SourceFileLoader("plugin", file)
    plugin = importlib.util.module_from_spec(importlib.util.spec_from_loader("plugin", loader))
    loader.exec_module(plugin)
    return plugin


def why_bad(plugin, plant, text):
    """What is wrong with what the plugin makes of a file with this text."""
    it = request()
    plant(it, text)
    made, notes = plugin.answer(it)
    if any(char in line for line in notes for char in ENDS[1:12]) or any(line.count("\n") > 1 for line in notes):
        return f"it tells {notes!r}"
    if made.error:
        return "it writes what it refuses" if made.file else None
    for file in made.file:
        if CODE in file.name or not file.name.isascii():
            return f"a file is called {file.name!r}"
        for line in file.content.split("\n"):
            if any(char in line for char in ENDS[1:12]) or CODE in line and not is_held(line):
                return f"a line of {file.name} is {line!r}"
    return None


def unknown_syntaxes(plugin):
    """The syntaxes that aren't known, and aren't refused by name."""
    for syntax in ("editions", "proto4", "proto2\n"):
        it = request()
        it.proto_file[0].syntax = syntax
        made, _ = plugin.answer(it)
        if made.file or not made.error.startswith(f"x.proto: its syntax is {syntax.strip()}"):
            yield f"tools/cases/hostile.py: the syntax {syntax!r}: {made.error!r}"


def main(file):
    bad, plugin = [], loaded(file)
    bad += unknown_syntaxes(plugin)
    ways = {**WAYS, "the name of a file": name_of_file, "a parameter": parameter}
    for way, plant in ways.items():
        for end in ENDS:
            why = why_bad(plugin, plant, f"{end} {CODE}")
            bad += [f"tools/cases/hostile.py: {way}, {end!r}: {why}"] * bool(why)
    print("\n".join(bad), end="\n" * bool(bad))
    return 1 if bad else 0


if __name__ == "__main__":
    sys.exit(main(sys.argv[1]))
