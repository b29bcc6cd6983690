"""Whether each wrong body of tests/wrong.py can still be tried: its old texts stand once, and its new ones are read.

Edits that don't touch one another are put into one copy of the repository, and the checker reads that copy without
proving anything: names, types, numbers of arguments, moves and borrows. The copy's program holds one error of ours, at
which `rt check` stops before it builds a library. It would build the libraries first where other checks on this machine left
work for each of them, so the program stands on an empty library of ours, too, for which there is none. Clauses aren't read so: each of their words has to stand elsewhere in
the repository or in the kit. A law that the edit leaves as it is may refuse it by its own text: it names a type that
is another one then.
"""
import os
import re
import shutil
import subprocess
import tempfile
from concurrent.futures import ThreadPoolExecutor

from wrong_edits import TOP, Edit, below, functions, listed, paths_of, read

ERROR = re.compile(r"^(\S+?):(\d+):\d+: (error.*)", re.M)
# a library that nobody ever builds
EMPTY = "nothing_built"
# a moved value is what the checker looks for last of all
STOP = "\nfn stops_here(text: std::vec::Vec<u8>) -> std::vec::Vec<u8> {\n    let _moved = text;\n    text\n}\n"
GHOST = re.compile(r"ghost \w+(?:: | = )\{[^;]*\};|(?:requires|ensures)\b[^{]*\{[^{}]*\}|ghost use [^;]*;")


class Look(Edit):
    """An edit of a crate, and where its old texts stand in the files of crates/."""

    def __init__(self, crate, path):
        super().__init__(path)
        self.crate, self.why_not, self.places = crate, self.locate(f"{TOP}/crates/{crate}"), []
        for file, old, new in self.pairs if not self.why_not else []:
            file = os.path.normpath(f"{crate}/{file}")
            at = read(f"{TOP}/crates/{file}").find(old)
            self.places.append((file, at, at + len(old), old, new))

    def is_at(self, place, line, text):
        """Whether the new text stands at this line of the file's text with the edits."""
        at = text.find(place[4])
        return bool(place[4].strip()) and at >= 0 and text.count("\n", 0, at) < line <= text.count("\n", 0, at + len(place[4])) + 1

    def touches(self, other):
        return any(a[0] == b[0] and (a[1] < b[2] and b[1] < a[2] or a[1] < 0 or b[1] < 0) for a in self.places for b in other.places)

    def renames(self):
        """Whether a name that others use stands for something else then."""
        return self.is_wide and any(" as " in GHOST.sub("", new).replace(" as ", " ", old.count(" as ")) for _, old, new in self.pairs)

    def is_refused_by_its_law(self, errors):
        """Whether each error stands in the law of that name, in a file that the edit leaves as it is."""
        edited = {place[0] for place in self.places}
        return not self.target and all(
            file not in edited and any(it.name == self.name and it.start < line <= it.end + 1 for it in functions(file, read(f"{TOP}/crates/{file}")))
            for file, line, _ in errors
        )

    def strange_words(self, known):
        """The words of its clauses that stand nowhere else."""
        found, own = set(), {it for _, _, new in self.pairs for it in re.findall(r"\b(?:struct|enum|fn|pub) (?!struct\b|enum\b|fn\b)(\w+)", new)}
        for file, _, new in self.pairs:
            ghost = " ".join(GHOST.findall(new)) if file.endswith(".rt") else new
            bound = {it for names in re.findall(r"[λ∀]([^.]*)\.", ghost) for it in names.split()}
            found |= {it for it in words(ghost) if it not in known and it not in bound | own}
        return sorted(found)


def words(text):
    return set(re.findall(r"[^\W\d]\w+", text))


def known_words():
    """The words of the crates, and those of the kit's own libraries."""
    kit = os.path.join(os.path.dirname(os.path.dirname(os.path.realpath(shutil.which("rt") or "rt"))), "rattle", "std")
    found = set()
    for top in (f"{TOP}/crates", kit):
        for at, folders, files in os.walk(top):
            folders[:] = [it for it in folders if it not in ("out", "must-fail")]
            for name in files:
                if name.endswith((".rt", ".antt")):
                    found |= words(read(f"{at}/{name}"))
                    found.add(name.partition(".")[0])
            found |= set(folders)
    return found


def copy_to(room, crate, crates):
    """Copies what the checker reads of the crate, which stands on all those crates, and gives it an error of ours."""
    lines, needed = listed(), set().union(*[below(it) for it in [crate, *crates]])
    named = {word for it in needed for word in lines[it].partition(":")[2].split()} | needed - {crate}
    lines[crate] = f"{lines[crate].partition(':')[0]}: {' '.join(sorted(named))} {EMPTY}"
    shutil.copy(f"{TOP}/HANDLES", room)
    with open(f"{room}/crates.txt", "w", encoding="utf-8") as it:
        it.write(f"{EMPTY}:\n" + "".join(f"{lines[name]}\n" for name in lines if name in needed))
    os.makedirs(f"{room}/crates/{EMPTY}/src")
    with open(f"{room}/crates/{EMPTY}/src/lib.rt", "w", encoding="utf-8") as it:
        it.write("//! Nothing.\n#![tactic(auto)]\n")
    for name in needed:
        for part in ("src", "specs", "proofs"):
            if os.path.isdir(f"{TOP}/crates/{name}/{part}"):
                shutil.copytree(f"{TOP}/crates/{name}/{part}", f"{room}/crates/{name}/{part}")
    root = next(it for it in ("src/main.rt", "src/lib.rt") if os.path.isfile(f"{room}/crates/{crate}/{it}"))
    with open(f"{room}/crates/{crate}/{root}", "a", encoding="utf-8") as it:
        it.write(STOP)
    return root


def errors_of(edits, crate, crates):
    """What the checker says of a copy with these edits: file, line and text of each error, but for ours; and the files as they are there."""
    with tempfile.TemporaryDirectory(prefix="look-") as room:
        root = copy_to(room, crate, crates)
        begins = read(f"{room}/crates/{crate}/{root}").count("\n") - STOP.count("\n")
        texts = {}
        for edit in edits:
            for file, _, _, old, new in edit.places:
                texts.setdefault(file, read(f"{room}/crates/{file}"))
                texts[file] = texts[file].replace(old, new, 1)
        for file, text in texts.items():
            with open(f"{room}/crates/{file}", "w", encoding="utf-8") as it:
                it.write(text)
        words = ["rt", "check", "--jobs", "1", "--only", ""]
        for _ in range(2):
            said = subprocess.run(words, cwd=f"{room}/crates/{crate}", stdin=subprocess.DEVNULL, stdout=subprocess.PIPE, stderr=subprocess.STDOUT, text=True, errors="replace", check=False).stdout
            # where it says nothing of the text, it was killed, most likely for memory: once more
            if ERROR.search(said):
                break
    found = [(os.path.normpath(file.partition("/crates/")[2] or f"{crate}/{file}"), int(line), text) for file, line, text in ERROR.findall(said)]
    others = [it for it in found if not (it[0] == f"{crate}/{root}" and it[1] > begins)]
    if not found:
        raise SystemExit(f"wrong: a copy of the crates isn't read as it should be: {said[-1000:]}")
    return others, texts


def of_error(edits, file, line, texts):
    """The edits of which an error may come: the one that stands there; else those of the law that it is in; else of the crates below."""
    text = texts.get(file) or read(f"{TOP}/crates/{file}")
    at = [it for it in edits if any(place[0] == file and it.is_at(place, line, text) for place in it.places)]
    laws = {it.name for it in functions(file, text) if it.start < line <= it.end + 1}
    lower = below(file.split("/")[0])
    return (
        at
        or [it for it in edits if not it.target and it.name in laws]
        or [it for it in edits if it.is_wide and it.crate in lower]
        or [it for it in edits if it.crate in lower]
        or edits
    )


def to_blame(edits, crate, crates):
    """The edits of which errors come, and what each is. What the checker says of many together may be another one's: each half is asked again."""
    errors, texts = errors_of(edits, crate, crates)
    if not errors:
        return []
    if len(edits) == 1:
        return [(edits[0], errors)]
    blamed = {it for file, line, _ in errors for it in of_error(edits, file, line, texts)}
    parts = [it for it in edits if it in blamed], [it for it in edits if it not in blamed]
    if not parts[1]:
        parts = edits[: len(edits) // 2], edits[len(edits) // 2 :]
    return [it for part in parts if part for it in to_blame(part, crate, crates)]


def look(crates, lanes):
    """How many edits can be tried, and what is said of the others."""
    known = known_words()
    edits = [Look(crate, path) for crate in crates for path in paths_of(crate)]
    failed = {it: it.why_not for it in edits if it.why_not}
    failed.update({it: f"no such word stands elsewhere: {' '.join(it.strange_words(known))}" for it in edits if it not in failed and it.strange_words(known)})
    # One program holds the error of ours; an edit of any other is read in a copy of its own.
    programs = [it for it in listed() if os.path.isfile(f"{TOP}/crates/{it}/src/main.rt")]
    program, *others = [it for it in programs if it in crates] or programs
    # nothing can stand on a static library either
    others += [it for it, line in listed().items() if " staticlib" in line.partition(":")[0]]
    together = list(dict.fromkeys([*(it for it in crates if it not in others), program]))
    layers, alone = [], []
    for edit in edits:
        if edit in failed:
            continue
        if edit.renames() or edit.crate in others:
            alone.append(edit)
            continue
        layer = next((it for it in layers if not any(edit.touches(other) for other in it)), None)
        layers.append([edit]) if layer is None else layer.append(edit)
    with ThreadPoolExecutor(lanes) as pool:
        blamed = [it for found in pool.map(lambda it: to_blame(it, program, together), layers) for it, _ in found]
        # what a change of one crate does to those above it is not asked: its own crate has to read it
        for found in pool.map(lambda it: to_blame([it], it.crate, []), [*alone, *blamed]):
            failed.update({edit: "{}:{}: {}".format(*errors[0]) for edit, errors in found if not edit.is_refused_by_its_law(errors)})
    print(f"wrong: {len(edits)} edits in {len(layers)} copies, and {len(alone) + len(blamed)} of them in one each")
    return len(edits) - len(failed), [f"wrong: {it.crate}/{it.title}: BAD EDIT: {why}" for it, why in failed.items()]
