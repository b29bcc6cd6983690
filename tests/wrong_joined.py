"""The wrong bodies of tests/wrong.py that change what a law says of the crate below it.

Laws stand in crates above what they are about. An edit of a definition there would have the whole lower crate proved
with it, before the crate of the law is read at all, and where a definition is wrong some proof of the lower crate fails
first. So the law is tried in the lower crate itself: a copy of that crate gets a module by the name of the law's crate, with the file of
the law and what it needs of its crate (other modules, words of specs/, lemmas, and the law's own answers), and the checker judges
that law alone. Paths are rewritten to what they are there: what named the lower crate names its own crate then, and what the
law's crate has gets that module before it, or that name behind it, so that no two names meet.

That is the lowest crate that has below it all that the edit changes and the law needs; what the edit changes below that one is proved
with it. Where there is none, or the laws aren't proved there as they stand, the edit is tried in the law's own crate.
"""
import copy
import os
import re

from wrong_edits import TOP, below, law_file, listed, module_of, read

NAMES = re.compile(r"(?<![\w.:])(?:Rattle\.(\w+)\.|(\w+)::)")
MODULE = re.compile(r"^(?:pub(?:\(\w+\))? )?mod (\w+);\n", re.M)
COMMENT = re.compile(r"^\s*(?://|--).*", re.M)


def lower_of(crate, edit):
    """The crate below in which the edit is tried with its law: the lowest one that has below it what the edit changes and what the
    law needs. None where that is the crate itself."""
    changed = {file.split("/")[1] for file, _, _ in edit.pairs if file.startswith("../")}
    if not changed or not law_file(crate, edit.name):
        return None
    fit = [it for it in below(crate) - {crate} if changed <= below(it) and Joined(crate, it, [edit]).is_whole()]
    return min(fit, key=lambda it: (len(below(it)), it), default=None)


def write_all(files, folder):
    """Writes files, each by its path in a folder."""
    for file, text in files.items():
        os.makedirs(os.path.dirname(f"{folder}/{file}"), exist_ok=True)
        with open(f"{folder}/{file}", "w", encoding="utf-8") as it:
            it.write(text)


class Joined:
    """A crate with the laws of some edits of an upper crate in it, and what they need there."""

    def __init__(self, upper, lower, edits):
        self.upper, self.lower, self.needed = upper, lower, []
        self.laws = sorted({it.name for it in edits})
        left = [file for it in edits for file, _, _ in it.pairs if not file.startswith("../")]
        for law in self.laws:
            file = law_file(upper, law)
            left += [file, "/".join(["proofs", *module_of(file), law, "Answers.antt"])]
        while left:
            it = left.pop()
            if it not in self.needed and self.text(it):
                self.needed.append(it)
                left += self.named_in(self.text(it))

    def path_of(self, law):
        """The path of a law there, as the checker takes it."""
        return "::".join([self.upper, *module_of(law_file(self.upper, law)), law])

    def text(self, file):
        """A file of the upper crate; nothing where there is none."""
        path = f"{TOP}/crates/{self.upper}/{file}"
        return read(path) if os.path.isfile(path) else ""

    def file_of(self, parts):
        """The file of a module of the upper crate, of which a path has the front part."""
        tries = [f"src/{'/'.join(parts[:end])}{last}" for end in range(len(parts), 0, -1) for last in (".rt", "/mod.rt")]
        return next((it for it in tries if self.text(it)), "src/lib.rt")

    def named_in(self, text):
        """The files of the upper crate that a text of it names."""
        text = COMMENT.sub("", text)
        files = {f"{part}/{name}.antt" for part, name in re.findall(rf"\bRattle\.{self.upper}\.(specs|proofs)\.(\w+)", text)}
        files |= {f"{part}/{name}.antt" for part, name in re.findall(r"\bcrate::(specs|proofs)::(\w+)", text)}
        paths = re.findall(rf"\bRattle\.{self.upper}\.specs\.(?:declared|contracts)\.([\w.]+)", text)
        paths += re.findall(r"\bcrate::(?!specs::|proofs::)([\w:]+)", text)
        return files | {self.file_of(re.split(r"::|\.", it)) for it in paths}

    def is_whole(self):
        """Whether the files name no crate of the repository but the lower one, what it stands on, and the law's own."""
        others = set(listed()) - below(self.lower) - {self.upper}
        texts = [COMMENT.sub("", self.text(it)) for it in self.needed]
        return not any(others & {a or b for a, b in NAMES.findall(it)} for it in texts)

    def place(self, file):
        """Where a file of an edit stands, from the lower crate's folder."""
        if file.startswith("../"):
            return os.path.relpath(file, f"../{self.lower}")
        part, _, rest = file.partition("/")
        if part == "src":
            return f"src/{self.upper}.rt" if rest == "lib.rt" else f"src/{self.upper}/{rest}"
        return f"{part}/{self.upper}/{rest}" if "/" in rest else f"{part}/{self.renamed(rest[:-5])}.antt"

    def renamed(self, word):
        """The name of a file of words or of lemmas of the upper crate."""
        return f"{word}_of_{self.upper}"

    def rewritten(self, text):
        """A text of the upper crate as it is in the lower one."""

        def own(found):
            part, mark, name = found.groups()
            is_file = self.text(f"{part}/{name}.antt")
            return f"{part}{mark}{self.renamed(name)}" if is_file else f"{part}{mark}{name}{mark}{self.upper}" if part == "specs" else f"{part}{mark}{self.upper}{mark}{name}"

        text = re.sub(r"\bcrate::(?!specs::|proofs::)", f"crate::{self.upper}::", text)
        text = re.sub(r"(?<=\bcrate::)(specs|proofs)(::)(\w+)", own, text)
        text = re.sub(rf"(?<=\bRattle\.{self.upper}\.)(specs|proofs)(\.)(\w+)", own, text)
        text = text.replace(f"Rattle.{self.upper}.", f"Rattle.{self.lower}.")
        return re.sub(rf"(?<![\w:.]){self.lower}::", "crate::", re.sub(r"^#!\[.*\n", "", text, flags=re.M))

    def module_text(self, file, text, modules):
        """The text of a file of the upper crate with no module in it but these."""
        at = module_of(file)
        if file in self.needed:
            return MODULE.sub(lambda it: it[0] if (*at, it[1]) in modules else "", text)
        return "".join(f"pub mod {it[-1]};\n" for it in sorted(modules) if it and list(it[:-1]) == at)

    def files(self):
        """What is written into the lower crate: the files that the laws need, and the lines that name them."""
        sources = {it for it in self.needed if it.startswith("src/")}
        sources |= {self.file_of(module_of(it)[:end]) for it in sources for end in range(len(module_of(it)))}
        modules = {tuple(module_of(it)) for it in sources}
        found = {self.place(it): self.rewritten(self.module_text(it, self.text(it), modules)) for it in sources}
        lines = {"src/lib.rt": f"pub mod {self.upper};\n"}
        for file in self.needed:
            part, _, name = file.partition("/")
            if part != "src":
                found[self.place(file)] = self.rewritten(self.text(file))
            if part != "src" and "/" not in name:
                lines[f"{part}/Lib.antt"] = lines.get(f"{part}/Lib.antt", "") + f"pub mod {self.renamed(name[:-5])}\n"
        for file, text in lines.items():
            path = f"{TOP}/crates/{self.lower}/{file}"
            found[file] = (read(path) if os.path.isfile(path) else "").rstrip("\n") + "\n" + text
        return found

    def of_edit(self, edit):
        """The edit as it is in the lower crate."""
        found = copy.copy(edit)
        found.target = None
        found.pairs = [(self.place(file), *((old, new) if file.startswith("../") else map(self.rewritten, (old, new)))) for file, old, new in edit.pairs]
        return found

    def libraries(self):
        """The lower crate's line of crates.txt, with what the law's own line names besides."""
        lines, allowed = listed(), below(self.lower)
        words = lines[self.upper].partition(":")[2].split()
        line = lines[self.lower].split()
        return " ".join([*line, *(it for it in words if it not in line and it != self.lower and (it in allowed or it not in lines))])
