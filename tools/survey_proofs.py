"""Proves what the plugin writes of files that others wrote: each file in a crate of its own, in a repository in a temporary folder.
tools/survey calls it.

A crate has what the plugin writes of one .proto and of what that imports, the line of crates.txt that the plugin asks for, and nothing
by hand. What a check prints is kept in the folder of the crate, as `check.log`, where the folder is kept.
"""
import os
import re
import shutil
import signal
import subprocess
import sys
import tempfile
import time

TOP = os.path.dirname(os.path.dirname(os.path.abspath(__file__)))
MADE_BY = f"{TOP}/tools/protoc-gen-buffa"
# The crate that is there to have those below proved.
ALL_BELOW = "all_below"
LACKS = re.compile(r"lacks the line: \w+: *(.*)")
FUNCTION = re.compile(r"^ *fn (\S+): (proved|not proved|no proof|not stated|could not tell)", re.M)
# What a check prints beside what it refuses.
BESIDE = re.compile(r" *(note:|so far:|by-macro:|logic[ =]|only=|statements |incremental |hides |crate \S+: modules |empty contracts:|rt: )|\S+: note: ")
# So many lines are printed of what a file is refused for.
MOST_LINES = 40


class File:
    """A file to be proved: where it is, the words of a call that writes it, and what it has that may not be proved."""

    def __init__(self, file, paths, descriptors):
        self.file, self.paths = file, paths
        self.messages, self.fields, self.inside_itself, self.cases = 0, 0, 0, 0
        last = descriptors.file[-1]
        for message in last.message_type:
            self.see(f".{last.package}".rstrip("."), message)

    def see(self, above, message):
        """Counts a message's fields, those of messages that hold themselves, and the cases of oneofs that are messages."""
        if message.options.map_entry:
            return
        full = f"{above}.{message.name}"
        entries = {f"{full}.{it.name}": it.field[1].type_name for it in message.nested_type if it.options.map_entry}
        held = {entries.get(it.type_name, it.type_name) for it in message.field}
        self.messages += 1
        self.fields += len(message.field)
        self.inside_itself = max(self.inside_itself, len(message.field) * (full in held))
        self.cases += sum(it.HasField("oneof_index") and not it.proto3_optional and it.type in (10, 11) for it in message.field)
        for inner in message.nested_type:
            self.see(full, inner)

    def rank(self):
        """What is proved first: messages that hold themselves, oneofs of messages, and then what is largest."""
        return not self.inside_itself, not self.cases, -self.fields, self.file

    def has(self):
        parts = [f"{self.messages} messages", f"{self.fields} fields"]
        parts += [f"{self.inside_itself} fields in one that holds itself"] * bool(self.inside_itself)
        return ", ".join(parts + [f"{self.cases} cases that are messages"] * bool(self.cases))


def crate_name(file, taken):
    """A crate's name, made of the file's, with a number behind it where another file has that."""
    stem = re.sub(r"[^a-z0-9]+", "_", os.path.basename(file).removesuffix(".proto").lower()).strip("_")
    name, count = f"of_{stem}", 1
    while name in taken:
        count += 1
        name = f"of_{stem}_{count}"
    return name


def write(of, crate):
    """Writes the crate of a file, and answers the crates that it stands on; or none, and what is refused."""
    os.makedirs(f"{crate}/src")
    words = [word for it in [*of.paths, "/usr/include"] for word in ("-I", it)] + [of.file]
    ran = subprocess.run([MADE_BY, f"crate={os.path.basename(crate)}", *words], cwd=crate, capture_output=True, text=True, errors="replace")
    if ran.returncode:
        return None, ran.stderr.strip() or f"status {ran.returncode}"
    line = LACKS.search(ran.stderr)
    return (line[1].split() if line else []), ""


def write_all(files, to):
    """Writes the crates of files into a repository, with one that stands on all that these do, and answers each file's crate."""
    crates, lines = {}, {}
    for of in files:
        name = crate_name(of.file, set(lines))
        below, refused = write(of, f"{to}/crates/{name}")
        if refused:
            print(f"{of.file}: not written\n    {refused}", flush=True)
            continue
        crates[of], lines[name] = f"{to}/crates/{name}", below
    below = sorted(set().union(*lines.values()))
    subprocess.run([f"{TOP}/tools/vendor", to, *[it for it in below if it.startswith("buffa_")], "--built"], check=True, stdout=subprocess.DEVNULL)
    os.makedirs(f"{to}/crates/{ALL_BELOW}/src")
    with open(f"{to}/crates/{ALL_BELOW}/src/lib.rt", "w", encoding="utf-8") as it:
        it.write("//! Stands on all that the files need.\n")
    with open(f"{to}/crates.txt", "a", encoding="utf-8") as it:
        it.writelines(f"{name}: {' '.join(on)}\n" for name, on in {ALL_BELOW: below, **lines}.items())
    return crates


def check(crate, jobs, seconds=None):
    """What a check of a crate prints, its status, or none where it was ended, and how long it took."""
    start = time.monotonic()
    with open(f"{crate}/check.log", "w", encoding="utf-8") as log:
        ran = subprocess.Popen(["rt", "check", "--jobs", str(jobs)], cwd=crate, stdout=log, stderr=subprocess.STDOUT, start_new_session=True)
        try:
            status = ran.wait(seconds)
        except subprocess.TimeoutExpired:
            os.killpg(ran.pid, signal.SIGTERM)
            ran.wait()
            status = None
    with open(f"{crate}/check.log", encoding="utf-8", errors="replace") as it:
        return it.read(), status, round(time.monotonic() - start)


def refusals(text):
    """What is refused: each function that isn't proved, and the lines that say why, each once."""
    said = [it.rstrip() for it in text.split("\n")]
    return list(dict.fromkeys(it for it in said if it and not it.endswith(": proved") and not BESIDE.match(it)))


def result(text, status, seconds):
    """Whether a file is proved, in words, and how many functions."""
    functions = {it[1] for it in FUNCTION.finditer(text)}
    proved = {it[1] for it in FUNCTION.finditer(text) if it[2] == "proved"}
    if status is None:
        return "ended", f"ended after {seconds} s, {len(proved)} functions proved until then"
    if status == 0:
        return "proved", f"proved, {len(functions)} functions, {seconds} s"
    word = {1: "not proved", 3: "could not tell"}.get(status, f"failed with status {status}")
    return word, f"{word}, {len(proved)} of {len(functions)} functions, {seconds} s"


def prove_one(of, crate, jobs, seconds):
    """Proves a file, says what came of it, and answers that in a word."""
    text, status, took = check(crate, jobs, seconds)
    word, said = result(text, status, took)
    print(f"{of.file}: {said} ({of.has()})", flush=True)
    lines = refusals(text) if word != "proved" else []
    print("".join(f"    {it}\n" for it in lines[:MOST_LINES]), end="", flush=True)
    if len(lines) > MOST_LINES:
        print(f"    and {len(lines) - MOST_LINES} lines more", flush=True)
    return word


def prove(files, jobs, seconds, keep=None):
    """Proves files, one after the other, and says of how many what came. Each may take so many seconds."""
    made = keep or tempfile.mkdtemp(prefix="survey.")
    try:
        crates = write_all(files, made)
        text, status, took = check(f"{made}/crates/{ALL_BELOW}", jobs)
        print(f"The crates below: {result(text, status, took)[0]}, {took} s", flush=True)
        if status:
            return 1
        found = {}
        for of, crate in crates.items():
            word = prove_one(of, crate, jobs, seconds)
            found[word] = found.get(word, 0) + 1
        print(f"Of {len(files)} files: {', '.join(f'{count} {word}' for word, count in found.items())}")
        return 0 if found == {"proved": len(files)} else 1
    finally:
        if not keep:
            shutil.rmtree(made, ignore_errors=True)
