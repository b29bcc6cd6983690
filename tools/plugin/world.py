"""What a run is told, and what it is of: its parameters, its files, and the names of their types."""
import os
import re

from google.protobuf.descriptor_pb2 import FieldDescriptorProto as Field

from files import File, Name, Refused, clean
from names import LONGEST_FILE, camel, is_free_type, snake

# Parameters that have a single value.
PARAMETERS = {"any": "all", "clone": "all", "discard": "all", "equal": "all", "maps": "ordered", "names": "all", "places": "all", "strings": "bytes",
              "well_known": "here", "words": "all"}
# Parameters that are of a field.
FIELD_KEYS = ("bytes", "delimited", "encoded", "implicit", "optional", "ordered", "shared")
MESSAGES = (Field.TYPE_MESSAGE, Field.TYPE_GROUP)
PATH = re.compile(r"[a-z_][a-z0-9_]*(::[a-z_][a-z0-9_]*)*")
# The module that has the well-known types, and the files of which they are.
WELL_KNOWN = "buffa_types::messages"
WELL_KNOWN_FILES = {
    f"google/protobuf/{it}.proto" for it in ("any", "duration", "empty", "field_mask", "source_context", "timestamp", "wrappers")
}


class World:
    """All that a run is told: its files, its parameters, and the name of the Rust type of each message and enum."""

    def __init__(self, request):
        self.refused, self.notes, self.types, self.encoded = [], [], {}, set()
        self.read_parameters(request.parameter)
        files = [File(it) for it in request.proto_file]
        self.by_name = {it.name: it for it in files}
        self.asked = [it for it in files if it.name in request.file_to_generate]
        named = set(self.mapped) | {it.name for it in self.asked}
        self.taken = set() if self.well_known == "here" else WELL_KNOWN_FILES & set(self.by_name) - named
        self.mapped.update((name, WELL_KNOWN) for name in self.taken)
        self.found = {it.full: it for f in files for it in f.messages + f.enums}
        self.entries = {name: entry for f in files for name, entry in f.entries.items()}
        self.oneofs = {}
        for message in [it for f in files for it in f.messages]:
            self.add_oneofs(message)
        self.see_names()
        if self.refused:
            raise all_of(self.refused)
        self.order = self.reached()
        for file in {it.name: it for it in [*self.asked, *(it.file for it in self.order)]}.values():
            self.tries(file.see_syntax)
        if self.refused:
            raise all_of(self.refused)

    def add_oneofs(self, message):
        """Notes the oneofs of a message, but those that protoc makes of optional fields of proto3."""
        real = {it.oneof_index for it in message.it.field if it.HasField("oneof_index") and not it.proto3_optional}
        for at, it in enumerate(message.it.oneof_decl):
            if at in real:
                one = Name(message.file, message.path + (8, at), f"{message.full}.{it.name}", it, message)
                one.cases = {f"{message.full}.{f.name}" for f in message.it.field if f.HasField("oneof_index") and f.oneof_index == at}
                self.oneofs.setdefault(message.full, []).append(one)
                self.found[one.full] = one

    def tries(self, make, *args):
        """What a step makes, or nothing where it refuses: all refusals of a run are told at once."""
        try:
            return make(*args)
        except Refused as it:
            self.refused.append(it)
            return None

    def tell(self, line):
        """Says on standard error what is read or left in another way than the .proto has it."""
        self.notes.append(f"protoc-gen-buffa: {line}\n")

    def read_parameters(self, text):
        self.crate, self.module = folder_name(), "messages"
        for key in PARAMETERS:
            setattr(self, key, "")
        self.left, self.dropping, self.costs, self.renamed, self.mapped = set(), set(), {}, {}, {}
        self.fields = {key: set() for key in FIELD_KEYS}
        for word in filter(None, text.split(",")):
            self.tries(self.read_parameter, word)

    def read_parameter(self, word):
        named = {"leave": self.left, "drop": self.dropping, **self.fields}
        key, _, value = word.partition("=")
        cost = re.fullmatch(r"(.*):([1-9][0-9]*)", value)
        renamed = re.fullmatch(r"([\w.]+):([A-Za-z_][A-Za-z0-9_]*)", value, re.ASCII)
        file, _, path = value.rpartition("=")
        if key in named:
            named[key].add(value)
        elif key == "cost" and cost:
            self.costs[cost[1]] = int(cost[2])
        elif key == "rename" and renamed:
            self.renamed[renamed[1]] = renamed[2]
        elif key == "M" and file and PATH.fullmatch(path):
            self.mapped[file] = path
        elif key in ("crate", "module") and re.fullmatch(r"[a-z_][a-z0-9_]*", value) or word == "module=":
            setattr(self, key, value)
        elif PARAMETERS.get(key) == value:
            setattr(self, key, value)
        else:
            raise Refused(f"no parameter is {clean(word)}: PLUGIN --help lists them all")

    def see_names(self):
        """Refuses a parameter that names nothing of the files, or nothing of its kind."""
        messages = {it.full for f in self.by_name.values() for it in f.messages}
        fields = {f"{full}.{f.name}" for full in messages for f in self.found[full].it.field}
        enums = [it for f in self.by_name.values() for it in f.enums]
        values = {f"{it.full}.{v.name}" for it in enums for v in it.it.value}
        known = messages | fields | {it.full for ones in self.oneofs.values() for it in ones} | {it.full for it in enums} | {it.full for f in self.by_name.values() for it in f.services + f.extensions}
        told = [("thing", name) for name in self.left - known] + [("file", name) for name in self.mapped if name not in self.by_name]
        told += [("field", name) for name in set().union(*self.fields.values()) - fields]
        told += [("message", name) for name in (self.dropping | set(self.costs)) - messages]
        told += [("type, field or value", name) for name in set(self.renamed) - known - values]
        for kind, name in sorted(told):
            self.refused.append(Refused(f"no {kind} is called {clean(name)} in these files"))
        for name in sorted((self.left - messages).union(self.dropping, self.costs, self.renamed, *self.fields.values())):
            if self.is_taken(name):
                self.refused.append(Refused(f"{clean(name)}: it is taken as it is from {WELL_KNOWN}: say well_known=here, too, and it is made here"))

    def is_left(self, it):
        return it.full in self.left or (it.outer is not None and self.is_left(it.outer))

    def is_mapped(self, full):
        """Whether a type is taken from a module that has it."""
        return self.found[full].file.name in self.mapped

    def is_taken(self, name):
        """Whether this is the full name of a well-known type that is taken from its crate, or of something in one."""
        return any(name == it.full or name.startswith(f"{it.full}.") for at in self.taken for it in self.by_name[at].messages)

    def target(self, field):
        """The message or enum that a field holds, in a map too, where it isn't left out."""
        entry = self.entries.get(field.type_name)
        full = (entry.field[1] if entry else field).type_name.lstrip(".")
        return full if full in self.found and not self.is_left(self.found[full]) else None

    def reached(self):
        """The messages and enums of the files asked for, and those that they use of imported files, what is left out apart."""
        made = [it for f in self.asked for it in f.messages + f.enums if not self.is_left(it) and not self.is_mapped(it.full)]
        held = [self.target(it.it) for f in self.asked for it in f.extensions if not self.is_left(it)]
        made += [self.found[it] for it in dict.fromkeys(held) if it and self.found[it] not in made]
        seen, at = {it.full for it in made}, 0
        while at < len(made):
            message, at = made[at], at + 1
            for field in getattr(message.it, "field", []):
                name = f"{message.full}.{field.name}"
                full = None if name in self.left | self.fields["encoded"] else self.target(field)
                if full and full not in seen:
                    seen.add(full)
                    made.append(self.found[full])
        return made

    def wanted(self):
        """The messages and enums to be written."""
        return [it for it in self.order if not self.is_mapped(it.full)]

    def name_types(self):
        """Gives each its Rust name, those of other modules first, and sees that no two have one."""
        files = {}
        for it in sorted(self.order, key=lambda it: not self.is_mapped(it.full)):
            self.tries(self.name_type, it, files)
        for one in [one for it in self.order for one in self.oneofs.get(it.full, []) if one.cases - self.left]:
            self.tries(self.name_type, one, files)

    def name_type(self, it, files):
        names, at = [it.it.name], it.outer
        while at:
            names, at = [at.it.name] + names, at.outer
        name = self.renamed.get(it.full) or "".join(camel(n) for n in names)
        way = f"give it another name by --buffa_opt=rename={it.full}:NAME"
        if it.full not in self.renamed:
            is_one = hasattr(it, "cases")
            name = is_free_type(name, "Enum" if hasattr(it.it, "value") else "OneOf" if is_one else "Message")
            if is_one and snake(name) in files:
                other, name = files[snake(name)], name + "OneOf"
                self.tell(f"{it.at()}: its enum is called {name}, since {other.full} has the shorter name")
            if snake(name) in files and files[snake(name)].file.it.package != it.file.it.package:
                other, name = files[snake(name)], camel(it.file.it.package.replace(".", "_")) + name
                self.tell(f"{it.at()}: it is called {name}, since {other.full} has the shorter name")
        elif is_free_type(name, "Message") != name or not name[0].isupper():
            it.refuse(f"no type of one's own can be called {name}", "write another name behind its rename=, one in upper camel case")
        if not self.module and snake(name) in ("lib", "main"):
            it.refuse("its file would be the crate's root", f"say module=NAME, or {way}")
        if len(snake(name)) > LONGEST_FILE:
            it.refuse(f"its file would have a name of {len(snake(name))} letters, of which {LONGEST_FILE} are written", way)
        other = files.setdefault(snake(name), it)
        if other is not it:
            it.refuse(f"the name of its file is that of {other.full}, too", way)
        self.types[it.full] = name

    def type_of(self, field, full):
        """The Rust type of a message or an enum that a field names."""
        full = full.lstrip(".")
        if full not in self.types:
            field.refuse(f"its type {full} is left out")
        return self.types[full]

    def module_of(self, full):
        """The module in which the type of a message or an enum is."""
        file = snake(self.types[full])
        if self.is_mapped(full):
            return f"{self.mapped[self.found[full].file.name]}::{file}"
        return "::".join(it for it in ("crate", self.module, file) if it)

    def tell_empty(self):
        """Says of which files nothing is written, and which files have what they hand on."""
        for file in (it for it in self.asked if not it.messages + it.enums + it.extensions):
            others = ", ".join(clean(file.it.dependency[at]) for at in file.it.public_dependency)
            hint = f": it hands on what others have; name these in the call: {others}" if others else ""
            self.tell(f"{file.shown}: it has no message, no enum and no extension, so nothing is written of it{hint}")

    def tell_passed(self):
        """Says which services are passed over, but those that are left out by a parameter."""
        for service in (it for f in self.asked for it in f.services if not self.is_left(it)):
            self.tell(f"{service.at()}: it is a service, and is passed over: messages, enums and extensions alone are written")


def folder_name():
    """The crate's name where none is told: that of the folder in which the plugin runs, if it has a `src`."""
    name = os.path.basename(os.getcwd())
    return name if os.path.isdir("src") and re.fullmatch(r"[a-z_][a-z0-9_]*", name) else ""


def all_of(refused):
    """All refusals of a run as one, and at its end one parameter that leaves out all that can be left out."""
    leave = sorted({name for it in refused for name in it.leave})
    lines = list(dict.fromkeys(str(it) for it in refused))
    if len(leave) > 1:
        lines.append("All that can be left out is left out by --buffa_opt=" + ",".join(f"leave={name}" for name in leave))
    return Refused("\n".join(lines))
