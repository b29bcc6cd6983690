"""The files of a run: their messages and enums with full names, and what was said of each, as text that can stand in a comment."""
import re
import unicodedata

NAME = re.compile(r"[A-Za-z_][A-Za-z0-9_]*")
# Kinds of characters that no line of a comment has: controls, marks that turn or hide text, ends of lines, and what is no character.
HIDDEN = {"Cc", "Cf", "Cn", "Co", "Cs", "Zl", "Zp"}


class Refused(Exception):
    """What the form can't say: of what, why, and the names of what can be left out in its place."""

    def __init__(self, text, leave=()):
        super().__init__(text)
        self.leave = tuple(leave)


def clean(text):
    """A line as it can stand in a comment: a .proto isn't trusted, and a tab isn't taken by the compiler."""
    return "".join(" " if unicodedata.category(it) in HIDDEN else it for it in text.replace("\t", "    "))


def lines_of(text):
    """The lines of a comment of a .proto, each without the blank in front of it."""
    lines = text.replace("\r\n", "\n").replace("\r", "\n").rstrip().split("\n")
    return [re.sub(r"^ ", "", clean(it)).rstrip() for it in lines] if any(it.strip() for it in lines) else []


def quoted(text):
    """A text in quotes, as a .proto has it on one line."""
    def one(it):
        if it in '"\\':
            return "\\" + it
        if it == "\n":
            return "\\n"
        return "".join(f"\\{b:03o}" for b in it.encode("utf-8", "surrogatepass")) if unicodedata.category(it) in HIDDEN else it

    return '"' + "".join(map(one, text)) + '"'


class Name:
    """Something of a .proto with a full name, in its file, and what was said of it there."""

    def __init__(self, file, path, full, it, outer=None):
        self.file, self.path, self.full, self.it, self.outer = file, path, full, it, outer
        place = file.places.get(path)
        self.line = place.span[0] + 1 if place else 0
        self.said = lines_of(place.leading_comments) + lines_of(place.trailing_comments) if place else []
        if not NAME.fullmatch(it.name):
            raise Refused(f"{file.shown}: {clean(full)}: it is no name of a .proto: write it with letters, digits and `_`")

    def at(self):
        return f"{self.file.shown}:{self.line}: {self.full}"

    def refuse(self, why, way=None):
        """Refuses it: why, and what to write. Where nothing else is said, it can be left out."""
        leave = () if way else (self.full,)
        raise Refused(f"{self.at()}: {why}: {way or f'leave it out by --buffa_opt=leave={self.full}'}", leave)


class File:
    """A .proto: its messages and enums with those inside others."""

    def __init__(self, it):
        self.it, self.name, self.is_closed = it, it.name, it.syntax != "proto3"
        self.shown = clean(it.name)
        if it.package and not all(NAME.fullmatch(part) for part in it.package.split(".")):
            raise Refused(f"{self.shown}: {clean(it.package)}: it is no name of a package: write it with letters, digits, `_` and `.`")
        self.places = {tuple(p.path): p for p in it.source_code_info.location}
        self.messages, self.enums, self.services, self.extensions, self.entries = [], [], [], [], {}
        base = it.package + "." if it.package else ""
        for at, each in enumerate(it.message_type):
            self.add((4, at), base, each, None)
        self.enums += [Name(self, (5, at), base + e.name, e) for at, e in enumerate(it.enum_type)]
        self.services = [Name(self, (6, at), base + e.name, e) for at, e in enumerate(it.service)]
        self.extensions += [Name(self, (7, at), base + e.name, e) for at, e in enumerate(it.extension)]

    def see_syntax(self):
        """Refuses a file of a syntax that isn't known, which would be read as one of proto2."""
        if self.it.syntax not in ("", "proto2", "proto3"):
            raise Refused(f"{self.shown}: its syntax is {clean(self.it.syntax)}, and proto2 and proto3 alone are known: write one of these")

    def add(self, path, base, it, outer):
        """Adds a message and what is inside it; a message that protoc makes of a map field is an entry."""
        if it.options.map_entry:
            self.entries[f".{base}{it.name}"] = it
            return
        name = Name(self, path, base + it.name, it, outer)
        self.messages.append(name)
        for at, each in enumerate(it.nested_type):
            self.add(path + (3, at), name.full + ".", each, name)
        self.enums += [Name(self, path + (4, at), f"{name.full}.{e.name}", e, name) for at, e in enumerate(it.enum_type)]
        self.extensions += [Name(self, path + (6, at), f"{name.full}.{e.name}", e, name) for at, e in enumerate(it.extension)]
