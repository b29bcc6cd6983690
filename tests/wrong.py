#!/usr/bin/env python3
"""Tries wrong bodies, many of a crate in one check, and sees that each is refused at the goal that it names.

    tests/wrong.py [CRATE..]   tries all, or those of some crates
    tests/wrong.py look        proves nothing, and sees in some minutes that each can still be tried
    tests/wrong.py today       tries some twenty of them, others each day, until all had their turn
    tests/wrong.py gate FILE   sees that `rt ci`, which wrote FILE, refused each must-fail edit at its goal
    tests/wrong.py --name ..   writes the goal of each that is tried and names none

A wrong body is an edit, tests/wrong/CRATE/FUNCTION-what_is_wrong.edit: a line 'file: src/x.rt', then pairs of lines
'old: TEXT' and 'new: TEXT', each old text standing once in that file of the crate; '⏎' is the end of a line. A line
'goal: NAME' names the goal that has to be open, as the checker names it. FUNCTION is
the plain name of the function that must not be proved then, or TYPE.FUNCTION. Those that `rt ci` tries too stand in
crates/CRATE/must-fail. Edits of a crate that lie in different functions are applied together, to a copy of the
repository, and checked in one go. An edit outside of functions, or of a crate below (a line 'file: ../CRATE/src/x.rt'),
is tried alone, and only its function, a law, is checked then: one that changes a crate below, in a copy of that crate which has the
law besides, where it needs no crate between (tests/wrong_joined.py says how). A function may be reported for another one's sake (it
calls one that is not proved, or the crate isn't read at all): then it is tried once more, alone.

An edit passes where the goal that it names is not proved. One that names none passes where any goal of its function is open; it is
better named, and not by a precondition of a call: what a call asks says nothing of what is wrong. Where its function is a law that the edit leaves as it
is, and the checker refuses nothing but that law's own text, the law speaks of a type as what the type is no longer: such an
edit passes too, and names the goal 'text'. An edit is
unclear, and fails, where the edited text is not read, or
where only names that its proof file cites went away: change a value and keep the names. It is unclear too where only an
answer of its proof file is refused, since a right body may trip that as well: add a path that is wrong, which has no
answer. A law has no paths: name a law that speaks of what is changed in a clause without an answer.

The crate as it stands is checked first, in its own folder, which leaves its work in out/; that costs little where out/
holds the work of an earlier check. `today`, `gate` and --built go without, for use behind `rt ci`, whose libraries they
take, and check the edited functions alone. Needs python3 and `rt`. The last line is 'N passed, M failed'.
"""
import argparse
import datetime
import os
import random
import re
import shutil
import subprocess
import sys
import tempfile
import threading
import time
from concurrent.futures import ThreadPoolExecutor

from wrong_edits import TOP, Edit, below, functions, law_at, listed, module_of, paths_of, read
from wrong_joined import Joined, lower_of, write_all
from wrong_look import look

# what the checker says of a name in a proof file that isn't there
VANISHED = re.compile(r"has no field|has no `|is not in scope|was not admitted|is no name")
GOAL = re.compile(r"note: (?:\./)?(src/\S+?):(\d+):\d+: it is not proved that(?:.*?\(`([^`]+)`\))?")
# what `rt ci` tells of a refused edit: an open goal, or a fact of a type that doesn't hold
TOLD = re.compile(r"(?:it is not proved that.*?\(|: error: )`([^`]+)(`?)")
# a goal that is a precondition of a call
PRECONDITION = re.compile(r"(^|-)requires(-|$)")
PROOF_ERROR = re.compile(r"(?:\./)?proofs/(\S+)/\w+\.antt:\d+:\d+: error")
SOURCE_ERROR = re.compile(r"(?:\./)?(src/\S+?):(\d+):\d+: error")


def type_name(text, own):
    """A type as the checker spells it: Vec<u8> is VecU8, &[u8] is RefSliceU8, and a type parameter is Any."""
    text = re.sub(r"'\w+", "", text)
    words = re.findall(r"\w+|&|\[", text)
    if words and words[0] in own:
        return "Any"
    names = {"&": "Ref", "[": "Slice"}
    return "".join(names.get(it, it[:1].upper() + it[1:]) for it in words if it not in own)


def without_params(header):
    """What follows the parameters of an impl, and the names of these."""
    rest = re.sub(r"^(pub(\(\w+\))? )?(impl|trait)", "", header).strip()
    depth, own = 0, ""
    if rest.startswith("<"):
        for at, it in enumerate(rest):
            depth += (it == "<") - (it == ">" and rest[at - 1] != "-")
            if depth == 0:
                own, rest = rest[1:at], rest[at + 1 :].strip()
                break
    return rest, set(re.findall(r"(?:^|, )(?:const )?(\w+)(?=:|,|$)", own))


def is_named(function, crate, name):
    """Whether this is how the checker names the function."""
    *front, last = name.split("::")
    if last != function.name or "fn" in front:
        return False
    module = [crate, *module_of(function.file)]
    if not function.holder:
        return front == module
    rest, own = without_params(function.holder)
    rest = rest.partition(" where ")[0]
    if " for " in rest:
        trait, _, of = rest.partition(" for ")
        path = re.match(r"[\w:]+", trait)[0]
        plain = type_name(of, own) + path.rpartition("::")[2]
        # what the trait is of may be in the name: From<DecodeError>
        names = (plain, plain + type_name(trait[len(path) :], own))
        return front[:-1] == module and front[-1].partition("+")[0] in names
    holder = re.match(r"\w+(::\w+)*", rest)[0].rpartition("::")[2]
    return front[-1].partition("+")[0] == holder


def path_of(function):
    """The path of a function as the checker takes it, if it is one that stands alone or in an impl."""
    at = module_of(function.file)
    if function.holder:
        rest, own = without_params(function.holder)
        trait, _, of = rest.partition(" where ")[0].rpartition(" for ")
        # a trait may name those above it
        of = re.split(r":(?!:)", of)[0] if re.match(r"(pub(\(\w+\))? )?trait\b", function.holder) else of
        at.append(type_name(of, own) + re.sub(r"<.*", "", trait).strip().rpartition("::")[2])
    return "::".join([*at, function.name])


class Report:
    """What a check said of each function, of the goals before its line, and of its proof files."""

    def __init__(self, text):
        self.text, self.said, self.goals, self.errors = text, {}, {}, []
        goals = []
        for line in text.split("\n"):
            named, goal = re.match(r"fn (\S+): (.*)", line), GOAL.match(line)
            if goal:
                goals.append((goal[1], int(goal[2]), goal[3] or f"line {goal[2]}"))
            elif named:
                self.said[named[1]], self.goals[named[1]], goals = named[2], goals, []
            elif re.match(r"(impl|trait|struct|enum) \S+: ", line):
                goals = []
        for block in re.split(r"\n(?=\S)", text):
            at = PROOF_ERROR.match(block)
            if at:
                self.errors.append((at[1], bool(VANISHED.search(block))))
        self.was_judged = bool(re.search(r"^(logic|only)=", text, re.M))

    def of_proof(self, name, cycle):
        """Whether each error in the function's proof file is of a name that went away; None where there is no error."""
        parts = name.split("::")[1:]
        folders = {"/".join(parts)} | ({"/".join([*parts[:-1], f"+{cycle}"]), "/".join([*parts[:-2], f"+{cycle}"])} if cycle else set())
        found = [it for folder, it in self.errors if folder in folders]
        return all(found) if found else None

    def names(self, edit, crate):
        """What the checker calls the function that must not be proved."""
        own = [it for it in self.said if it.startswith(f"{crate}::")]
        return [it for it in own if (is_named(edit.target, crate, it) if edit.target else it.split("::")[-1] == edit.name)]

    def is_of_law(self, edit, folder):
        """Whether each error of the text stands in the law of that name, in a file that the edit leaves as it is."""
        edited = {file for file, _, _ in edit.pairs}
        errors = {(file, int(line)) for file, line in SOURCE_ERROR.findall(self.text)}
        return bool(errors) and all(
            file not in edited
            and any(it.name == edit.name and it.start < line <= it.end + 1 for it in functions(file, read(f"{folder}/{file}")))
            for file, line in errors
        )

    def verdict(self, edit, crate, texts, is_alone, folder):
        """passed, failed or again, and what to say."""
        if not self.was_judged and not edit.target and self.is_of_law(edit, folder):
            return at_goal(edit, ["text"])
        if not self.was_judged:
            return "again", "the crate isn't read: " + next((it for it in self.text.split("\n") if ": error" in it), self.text[-200:])[:200]
        names = self.names(edit, crate)
        if len(names) != 1:
            return "failed", f"UNCLEAR: the checker names {len(names)} such functions"
        name = names[0]
        # a closure of the function is one of its own there
        inside = [it for it in self.said if "::fn::" in it and f"::{edit.name}::" in it and self.goals[it]]
        goals = self.goals[name]
        if edit.target and edit.target.cycle and not is_alone:
            # the functions of a cycle are proved together, and each has the goals of all
            goals = [it for it in goals if edit.target.key() in at_line(texts, *it[:2])]
        goals = [*goals, *[goal for it in inside for goal in self.goals[it]]]
        if goals:
            return at_goal(edit, [it[2] for it in goals])
        if self.said[name] == "proved":
            return "failed", "LET THROUGH: it is still proved"
        if edit.target and edit.target.cycle and not is_alone:
            return "again", "another function of its cycle is not proved"
        vanished = self.of_proof(name, edit.target.cycle if edit.target else None)
        if vanished is None:
            return "again", f"{self.said[name][:200]}"
        if vanished:
            return "failed", "UNCLEAR: only names that its proof file cites went away"
        return "failed", "UNCLEAR: an answer of its proof file no longer fits, which may refuse a right body too"


def at_goal(edit, goals):
    """What is said of an edit by which these goals are open."""
    if edit.goal:
        said = f"refused at {edit.goal}" if edit.goal in goals else f"UNCLEAR: refused at {goals[0]}, and not at the goal that it names, {edit.goal}"
        return "passed" if edit.goal in goals else "failed", said
    edit.found = next((it for it in goals if not PRECONDITION.search(it)), None)
    said = f"refused at {edit.found}" if edit.found else f"refused at what a call asks alone: {goals[0]}"
    return "passed", f"{said}; it names no goal"


def batch_of(edits):
    """The edits of one check, and those that are left."""
    if edits[0].is_wide or edits[0].alone:
        return edits[:1], edits[1:]
    taken, left, keys = [], [], set()
    for it in edits:
        if it.is_wide or it.alone or it.keys & keys:
            left.append(it)
        else:
            taken.append(it)
            keys |= it.keys
    return taken, left


def apply(edits, crate, room):
    """Writes the crate's files with the edits; an edit whose old text another one wrote too is left for later. Returns
    those that were made, and the files."""
    texts, held = {}, []
    for edit in edits:
        changed = dict(texts)
        for file, old, new in edit.pairs:
            changed.setdefault(file, read(f"{TOP}/crates/{crate}/{file}"))
            if changed[file].count(old) != 1:
                break
            changed[file] = changed[file].replace(old, new)
        else:
            texts = changed
            held.append(edit)
    for file, text in texts.items():
        with open(f"{room}/crates/{crate}/{file}", "w", encoding="utf-8") as it:
            it.write(text)
    return held, texts


def at_line(texts, file, line):
    """The functions at a line of the edited files, each with its attributes."""
    return {it.key() for it in functions(file, texts.get(file, "")) if it.head < line <= it.end + 1}


def guilty(report, edits, texts):
    """The edit of a batch whose text isn't read."""
    for file, line in SOURCE_ERROR.findall(report.text):
        for edit in edits:
            if edit.keys & at_line(texts, file, int(line)):
                return edit
    return None


def copy_to(room, crate, edits):
    """Copies the crate and those that the edits change, what their checks kept, and the crates below, built."""
    needed, kept = below(crate), {crate, *[file.split("/")[1] for it in edits for file, _, _ in it.pairs if file.startswith("../")]}
    if os.path.isfile(f"{TOP}/HANDLES"):
        shutil.copy(f"{TOP}/HANDLES", room)
    with open(f"{room}/crates.txt", "w", encoding="utf-8") as it:
        it.write("".join(f"{line}\n" for name, line in listed().items() if name in needed))
    for it in needed:
        for part in ["src", "specs", "proofs", "out/rlib", *(["out/incremental"] if it in kept else [])]:
            if os.path.isdir(f"{TOP}/crates/{it}/{part}"):
                shutil.copytree(f"{TOP}/crates/{it}/{part}", f"{room}/crates/{it}/{part}")


def set_line(room, line):
    """Writes a crate's line in the room's crates.txt."""
    lines = [it for it in read(f"{room}/crates.txt").split("\n") if it and it.partition(":")[0] != line.partition(":")[0]]
    with open(f"{room}/crates.txt", "w", encoding="utf-8") as it:
        it.write("\n".join([*lines, line, ""]))


def take_libraries(room):
    """Has `rt check` take the libraries that `rt ci` has just built. It leaves them without a sum of their text, since they
    fit those of the same run alone: so all are taken, or none, and none that is older than its text."""
    sys.path.insert(0, os.path.dirname(os.path.realpath(shutil.which("rt"))))
    import rtlib

    crates = [it for it in rtlib.crates_below(room) if os.path.isdir(it.rlib)]
    for it in crates:
        folder = it.folder.replace(room, TOP)
        texts = [f"{at}/{name}" for part in ("src", "specs", "proofs") for at, _, names in os.walk(f"{folder}/{part}") for name in names]
        if os.path.isfile(f"{it.folder}/out/rlib/stamp") or os.path.getmtime(f"{folder}/out/rlib") < max(map(os.path.getmtime, texts)):
            return
    for it in crates:
        with open(f"{it.folder}/out/rlib/stamp", "w", encoding="utf-8") as to:
            to.write(it.stamp())


def check(folder, options, paths=()):
    words = [options.rt, "check", *(["--jobs", str(options.jobs)] if options.jobs else [])]
    for path in paths:
        words += ["--only", path]
    return subprocess.run(words, cwd=folder, stdin=subprocess.DEVNULL, stdout=subprocess.PIPE, stderr=subprocess.STDOUT, text=True, errors="replace", check=False).stdout


class Tries:
    """The edits of a crate that are left to try, how many passed, and what was said of those that failed."""

    def __init__(self, crate, paths, options):
        self.crate, self.options, self.edits, self.passed, self.failed = crate, options, [], 0, []
        self.saying = threading.Lock()
        for path in paths:
            edit = Edit(path)
            edit.alone, edit.found = False, None
            why = edit.locate(f"{TOP}/crates/{crate}")
            if why:
                self.say(edit, "failed", f"BAD EDIT: {why}")
            else:
                self.edits.append(edit)
        # the checks of laws take what those of the others leave
        self.edits.sort(key=lambda it: it.is_wide)

    def say(self, edit, verdict, text):
        line = f"wrong: {self.crate}/{edit.title}: {text}"
        print(line, flush=True)
        if verdict == "passed":
            with self.saying:
                self.passed += 1
            if self.options.name and not edit.goal and edit.found:
                with open(edit.path, "a", encoding="utf-8") as it:
                    it.write(f"goal: {edit.found}\n")
        else:
            self.failed.append(line)

    def keep(self, batch, report, begun):
        """Writes what a check said of these edits into the folder that was named for that."""
        if self.options.keep:
            with open(f"{self.options.keep}/{self.crate}-{int(begun)}-{batch[0].title}.log", "w", encoding="utf-8") as it:
                it.write("\n".join(edit.title for edit in batch) + "\n" + report.text)

    def is_proved(self):
        """Whether the crate is proved as it stands, in its own folder."""
        begun = time.time()
        text = check(f"{TOP}/crates/{self.crate}", self.options)
        if "\nlogic=proved" in text:
            print(f"wrong: {self.crate} as it stands is proved, {time.time() - begun:.0f} s", flush=True)
            return True
        print(text[-3000:])
        print(f"wrong: {self.crate} isn't proved as it stands", flush=True)
        self.failed += [f"wrong: {self.crate}/{it.title}: not tried" for it in self.edits]
        return False

    def try_batch(self, room):
        """Tries some of the edits together; those that must be tried once more stay among the edits."""
        chosen, self.edits = batch_of(self.edits)
        batch, texts = apply(chosen, self.crate, room)
        for it in chosen:
            if it not in batch:
                it.alone = True
                self.edits.append(it)
        begun = time.time()
        paths = [law_at(self.crate, it.name) for it in batch if it.is_wide]
        if self.options.built and not any(it.target and it.target.cycle for it in batch):
            # no work is kept, so the edited functions alone are checked, where the checker knows them by these names
            paths = [path_of(it.target) if it.target else law_at(self.crate, it.name) for it in batch]
        report = Report(check(f"{room}/crates/{self.crate}", self.options, paths))
        if paths and any(it.target and len(report.names(it, self.crate)) != 1 for it in batch):
            report = Report(check(f"{room}/crates/{self.crate}", self.options))
        print(f"wrong: {self.crate}: {len(batch)} edits in one check, {time.time() - begun:.0f} s", flush=True)
        self.keep(batch, report, begun)
        unread = None if report.was_judged else guilty(report, batch, texts)
        for edit in batch:
            verdict, text = report.verdict(edit, self.crate, texts, len(batch) == 1, f"{room}/crates/{self.crate}")
            if verdict == "again" and (edit is unread or len(batch) == 1):
                self.say(edit, "failed", f"UNCLEAR: {text}")
            elif verdict == "again":
                # with the text that isn't read gone, the others may be tried together once more
                edit.alone = not unread
                self.edits.append(edit)
            else:
                self.say(edit, verdict, text)
        for file in texts:
            shutil.copy(f"{TOP}/crates/{self.crate}/{file}", f"{room}/crates/{self.crate}/{file}")


    def proved_joined(self, joined, folder):
        """The laws that are proved as they stand, in a copy of a crate below."""
        begun = time.time()
        report = Report(check(folder, self.options, [joined.path_of(it) for it in joined.laws]))
        front = f"{joined.lower}::{joined.upper}::"
        proved = {name.split("::")[-1] for name, said in report.said.items() if name.startswith(front) and said == "proved"} & {*joined.laws}
        print(f"wrong: {self.crate}: {len(proved)} laws are proved in {joined.lower}, {time.time() - begun:.0f} s", flush=True)
        for it in sorted({*joined.laws} - proved):
            print(f"wrong: {self.crate}: {it} isn't proved in {joined.lower}, so its edits are tried in {self.crate}", flush=True)
        if not report.was_judged:
            print(report.text[-3000:])
        return proved

    def try_joined(self, lower, edits):
        """Tries edits of a crate below, each with its law in a copy of that crate."""
        joined = Joined(self.crate, lower, edits)
        with tempfile.TemporaryDirectory(prefix="wrong-") as room:
            copy_to(room, lower, edits)
            set_line(room, joined.libraries())
            folder = f"{room}/crates/{lower}"
            write_all(joined.files(), folder)
            if self.options.built:
                take_libraries(room)
            proved = self.proved_joined(joined, folder)
            self.edits += [it for it in edits if it.name not in proved]
            # an edit of a crate that is lower still leaves another library of it
            for edit in sorted(edits, key=lambda it: len({file.split("/")[1] for file, _, _ in it.pairs})):
                if edit.name in proved:
                    self.try_one_joined(joined, edit, folder)

    def try_one_joined(self, joined, edit, folder):
        """Tries an edit with its law in a copy of a crate below."""
        begun, there, texts = time.time(), joined.of_edit(edit), {}
        for file, old, new in there.pairs:
            texts.setdefault(file, read(f"{folder}/{file}"))
            if texts[file].count(old) != 1:
                self.say(edit, "failed", f"UNCLEAR: an old text is in {file} {texts[file].count(old)} times with the law in {joined.lower}")
                return
            texts[file] = texts[file].replace(old, new)
        before = {file: read(f"{folder}/{file}") for file in texts}
        write_all(texts, folder)
        report = Report(check(folder, self.options, [joined.path_of(edit.name)]))
        print(f"wrong: {self.crate}: an edit with its law in {joined.lower}, {time.time() - begun:.0f} s", flush=True)
        self.keep([edit], report, begun)
        verdict, text = report.verdict(there, f"{joined.lower}::{joined.upper}", texts, True, folder)
        edit.found = there.found
        self.say(edit, "failed" if verdict == "again" else verdict, f"UNCLEAR: {text}" if verdict == "again" else text)
        write_all(before, folder)

    def try_all(self):
        """Tries each edit: one of a crate below with its law there, where that can be, and the others in the crate itself."""
        places = [(it, lower_of(self.crate, it)) for it in self.edits]
        self.edits = [it for it, lower in places if not lower]
        for lower in sorted({it for _, it in places if it}):
            edits = sorted((it for it, at in places if at == lower), key=lambda it: it.title)
            copies = min(self.options.copies, len(edits))
            parts = [edits[len(edits) * at // copies : len(edits) * (at + 1) // copies] for at in range(copies)]
            with ThreadPoolExecutor(copies) as pool:
                list(pool.map(lambda part, lower=lower: self.try_joined(lower, part), parts))
        if not self.edits:
            return
        with tempfile.TemporaryDirectory(prefix="wrong-") as room:
            copy_to(room, self.crate, self.edits)
            if self.options.built:
                take_libraries(room)
            while self.edits:
                self.try_batch(room)


def try_crate(crate, paths, options):
    """How many of the crate's edits passed, and what was said of those that failed."""
    tries = Tries(crate, paths, options)
    if options.built or tries.is_proved():
        tries.try_all()
    return tries.passed, tries.failed


def days(crates, most=20):
    """The edits of tests/wrong, in sets of about as many as one day tries: of one crate, or of some that have few, and as
    many of different functions as can be, which take one check."""
    sets = []
    for crate in crates:
        edits = [Edit(it) for it in paths_of(crate) if "/tests/wrong/" in it]
        random.Random(crate).shuffle(edits)
        parts = [[] for _ in range(-(-len(edits) // most))]
        for edit in edits:
            edit.locate(f"{TOP}/crates/{crate}")
            alike = lambda part: sum(it.is_wide if edit.is_wide else bool(it.keys & edit.keys) for _, it in part)
            min(parts, key=lambda part: (alike(part), len(part))).append((crate, edit))
        for part in parts:
            if sets and len(sets[-1]) + len(part) <= most + 5:
                sets[-1] += part
            else:
                sets.append(part)
    return [[(crate, it.path) for crate, it in part] for part in sets]


def chosen(crates, options):
    """The edits to try, by their crates."""
    if options.today:
        sets = days(crates)
        at = options.today % len(sets)
        edits = sets[at]
        print(f"wrong: the edits of day {at + 1} of {len(sets)}: {len(edits)}, of {', '.join(dict.fromkeys(crate for crate, _ in edits))}", flush=True)
    else:
        edits = [(crate, path) for crate in crates for path in paths_of(crate)]
    edits = [it for it in edits if any(word in it[1] for word in options.edit or [""])]
    return {crate: [path for of, path in edits if of == crate] for crate, _ in edits}


def refuses(goal, line):
    """Whether `rt ci` refused an edit that names this goal, by the line that it wrote. It tells the first goal that is open, which may be another
    one of the edit's, and cuts a long line."""
    if not line.startswith("refused, as it must be") or goal and "(only because" in line:
        return False
    seen = TOLD.search(line)
    told, end = seen.groups() if seen else ("", "")
    is_named = goal and (goal == told if end else goal.startswith(told))
    return not goal or is_named or not PRECONDITION.search(told)


def gate(file, options):
    """How many must-fail edits `rt ci` refused at what they name, and what is said of the others: at no precondition of a call, and not for a
    name that is gone. One of which it told first that an answer no longer fits is tried here once more."""
    told = dict(re.findall(r"must-fail (\w+/\S+\.edit): (.*)", read(file)))
    passed, failed, again = 0, [], {}
    for crate, path in ((crate, it) for crate in listed() for it in paths_of(crate) if "/must-fail/" in it):
        goal, line = Edit(path).goal, told.get(f"{crate}/{os.path.basename(path)}", "it wasn't tried")
        if refuses(goal, line):
            passed += 1
        elif goal and re.match(r"refused, as it must be: (\./)?proofs/", line):
            again.setdefault(crate, []).append(path)
        else:
            failed.append(f"wrong: {os.path.relpath(path, TOP)}: its goal is {goal}: {line}")
    for crate, paths in again.items():
        more, others = try_crate(crate, paths, options)
        passed, failed = passed + more, failed + others
    return passed, failed


def main():
    words = argparse.ArgumentParser(description=__doc__, formatter_class=argparse.RawDescriptionHelpFormatter)
    words.add_argument("crate", nargs="*", help="the crates to try, in place of all; or look, today, or gate and a file")
    words.add_argument("--jobs", type=int, help="jobs of one check, in place of what rt chooses")
    words.add_argument("--lanes", type=int, help="crates, or copies, side by side; else a crate for each processor, and copies of one under today alone")
    words.add_argument("--rt", default="rt", help="the command in place of rt")
    words.add_argument("--edit", action="append", metavar="WORD", help="only the edits whose path has this word (may be repeated)")
    words.add_argument("--name", action="store_true", help="write the goal of each edit that is tried and names none")
    words.add_argument("--built", action="store_true", help="try the edits that are chosen behind `rt ci`, as today does")
    words.add_argument("--keep", help="a folder in which what the checks say is kept")
    words.add_argument("--day", type=datetime.date.fromisoformat, default=datetime.date.today(), help="under today, another day, as 2026-11-27")
    options = words.parse_args()
    modes = {"look", "today", "gate"} & {*options.crate}
    crates = [it for it in options.crate if it not in modes and "gate" not in modes] or [it for it in listed() if paths_of(it)]
    options.today = options.day.toordinal() if "today" in modes else 0
    options.built |= "today" in modes
    has_copies = options.lanes or "today" in modes
    options.copies, options.lanes = 1, options.lanes or len(os.sched_getaffinity(0))
    if "gate" in modes:
        options.built = True
        counts = [gate(options.crate[-1], options)]
    elif "look" in modes:
        counts = [look(crates, options.lanes)]
    else:
        edits = chosen(crates, options)
        options.copies = max(1, options.lanes // max(1, len(edits))) if has_copies else 1
        with ThreadPoolExecutor(options.lanes) as pool:
            counts = list(pool.map(lambda it: try_crate(*it, options), edits.items()))
    passed, failed = sum(it[0] for it in counts), [line for it in counts for line in it[1]]
    for line in failed:
        print(f"failed: {line}")
    print(f"{passed} passed, {len(failed)} failed")
    return 0 if passed and not failed else 1


if __name__ == "__main__":
    sys.exit(main())
