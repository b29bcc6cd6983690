"""The wrong bodies of tests/wrong.py: what an edit changes, and of which functions."""
import glob
import os
import re

TOP = os.path.dirname(os.path.dirname(os.path.abspath(__file__)))
FUNCTION = re.compile(r"^( *)(?:pub(?:\(\w+\))? )?(?:final )?(?:const )?fn (\w+)")
CONTAINER = re.compile(r"^(?:pub(?:\(\w+\))? )?(impl|trait)\b")


class Function:
    """A function in a file: its name, the impl or trait round it, the cycle of calls it is in, and where it stands."""

    def __init__(self, file, name, holder, cycle, start):
        self.file, self.name, self.holder, self.cycle = file, name, holder, cycle
        # the checker may tell a goal at the attributes of the function, which stand before it
        self.head = self.start = self.end = start

    def key(self):
        return self.file, self.holder, self.name


class Edit:
    def __init__(self, path):
        self.path, self.title, self.pairs, self.keys, self.target, self.is_wide = path, os.path.basename(path)[:-5], [], set(), None, False
        # the goal that has to be open
        self.goal = file = old = None
        with open(path, encoding="utf-8") as it:
            for line in it.read().split("\n"):
                if line.startswith("file: "):
                    file = line[6:].strip()
                elif line.startswith("old: "):
                    old = line[5:].replace("⏎", "\n")
                elif line.startswith("new:"):
                    self.pairs.append((file, old, line[5:].replace("⏎", "\n")))
                elif line.startswith("goal: "):
                    self.goal = line[6:].strip()
        self.of, _, self.name = self.title.partition("-")[0].rpartition(".")
        # `rt ci` tries it, whatever its name says
        self.is_of_gate = "/must-fail/" in path

    def locate(self, folder):
        """Finds the functions that the edit changes; says why it can't be applied, if so."""
        texts = {}
        for file, old, new in self.pairs:
            if not os.path.isfile(f"{folder}/{file}"):
                return f"there is no file {file}"
            texts.setdefault(file, read(f"{folder}/{file}"))
            if texts[file].count(old) != 1:
                return f"an old text is in {file} {texts[file].count(old)} times"
            at = texts[file].index(old)
            line = texts[file].count("\n", 0, at)
            # what another crate's text is changed to is judged by a law of this one
            touched = [] if file.startswith("../") else [it for it in functions(file, texts[file]) if it.start <= line <= it.end]
            self.is_wide |= not touched
            self.keys |= {it.key() for it in touched}
            self.target = next((it for it in touched if it.name == self.name and self.of in it.holder), self.target)
            texts[file] = texts[file].replace(old, new)
        if not self.pairs:
            return "it has no pair of an old and a new text"
        if not self.target and not self.is_wide:
            return f"it doesn't change a function {self.name}"
        if not self.target and not self.is_of_gate and not self.has_function(folder):
            return f"there is no function {self.name}"
        return None

    def has_function(self, folder):
        """Whether the crate has a function of its name, or the edit writes one."""
        files = glob.glob(f"{folder}/src/**/*.rt", recursive=True)
        return any(re.search(rf"\bfn {self.name}\b", it) for it in [*map(read, files), *(new for _, _, new in self.pairs)])


def read(path):
    with open(path, encoding="utf-8") as it:
        return it.read()


def functions(file, text):
    """The functions of a file, as rt fmt lays it out; each ends where another item begins."""
    found, holder, cycle, current = [], "", None, None
    lines = text.split("\n")
    for number, line in enumerate(lines):
        begins = FUNCTION.match(line)
        if begins and (not begins[1] or holder and begins[1] == "    "):
            holder = holder if begins[1] else ""
            previous, current = current, Function(file, begins[2], holder, cycle, number)
            while current.head and re.match(r"\s*(#\[|//)", lines[current.head - 1]):
                current.head -= 1
            if previous:
                previous.end = min(previous.end, current.head - 1)
            cycle = None
            found.append(current)
        elif re.match(r"(?!where\b)[a-z]", line):
            is_holder = CONTAINER.match(line)
            holder = " ".join(" ".join(lines[number : number + 6]).partition("{")[0].split()) if is_holder else ""
            current = None
        elif holder and re.match(r"    (pub|ghost|const|type|use)\b", line):
            current = None
        named = re.match(r"\s*#\[cycle\((\w+)\)\]", line)
        cycle = named[1] if named else cycle
        if current:
            current.end = number
    return found


def module_of(path):
    """The modules of a file of src/."""
    return [it for it in re.sub(r"(^src/|/?(\b(lib|main|mod))?\.rt$)", "", path).split("/") if it]


def law_file(crate, name):
    """The file of src/ in which a law stands, by its name."""
    for at, _, names in os.walk(f"{TOP}/crates/{crate}/src"):
        for file in names:
            path = os.path.relpath(f"{at}/{file}", f"{TOP}/crates/{crate}")
            if any(it.name == name and not it.holder for it in functions(path, read(f"{at}/{file}"))):
                return path
    return None


def law_at(crate, name):
    """The path of a law, by its name, as the checker takes it."""
    file = law_file(crate, name)
    return "::".join([*module_of(file), name]) if file else name


def paths_of(crate):
    """The crate's edits, in tests/wrong and in its own must-fail/."""
    return sorted([*glob.glob(f"{TOP}/tests/wrong/{crate}/*.edit"), *glob.glob(f"{TOP}/crates/{crate}/must-fail/*.edit")])


def listed():
    """The lines of crates.txt, by their crates."""
    lines = [it for it in read(f"{TOP}/crates.txt").split("\n") if it.strip() and not it.startswith("#")]
    return {re.match(r"\w+", it)[0]: it for it in lines}


def below(crate):
    """The repository's crates that it stands on, and itself."""
    lines, found, left = listed(), set(), [crate]
    while left:
        it = left.pop()
        if it in lines and it not in found:
            found.add(it)
            left += lines[it].partition(":")[2].split()
    return found
