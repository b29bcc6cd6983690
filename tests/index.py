#!/usr/bin/env python3
"""Writes docs/INDEX.md from the sources, and sees that the other pages name what is there.

docs/INDEX.md has each public call of the product and of the samples, and each law, with the names of its clauses, marked where they say
a ghost's own text again (said_again.py); for each table of
cases the calls that its rows make; and each wrong body that `rt ci` tries, with the goal that refuses it.

    tests/index.py          sees that docs/INDEX.md is what the sources give; that each name in code that stands in a page of PAGES is
                            there; that each link of README.md and docs/ leads to a file and, behind `#`, to a heading; that
                            the words in code of a link to a file of code, or to the index, stand there; and that each walk of docs/MAP.md names what
                            stands in its file; and that docs/PROMISES.md marks the laws that say a ghost's own text again; status 1 where not
    tests/index.py write    writes docs/INDEX.md

A walk is a list whose lines begin with a file, as "1. `crates/buffamap/src/main.rt`: ..": each name in code in such a line stands in that
file. PLANTED has a line that is wrong: the script sees that it finds the fault.

The last line says how many calls, laws, links and steps of walks there are, and how many things aren't right.
"""
import glob
import os
import re
import sys

from said_again import said_again

TOP = os.path.dirname(os.path.dirname(os.path.abspath(__file__)))
WORD = re.compile(r"[A-Za-z_][A-Za-z_0-9]*")
HEAD = re.compile(r"(?:pub(?:\([a-z]+\))? )?(?:unsafe )?(trait|impl)\b([^{]*)\{?")
CALL = re.compile(r"(pub )?(?:pub\([a-z]+\) )?(?:final |const )*fn ([a-z_0-9]+)")
CLAUSE = re.compile(r"(?:where )?(?:,\s*)?(requires|ensures)\*?(?: ([a-z_0-9]+))? \{")
# Pages whose names in code have to be there.
PAGES = ("docs/PROMISES.md", "docs/MAP.md", "docs/CONTRACTS.md", "docs/DEFINITIONS.md", "docs/DECISIONS.md")
# Behind a clause of a law that says a ghost's own text again, and behind a link of docs/PROMISES.md to a law that has such a clause.
MARK = "°"
STEP = re.compile(r"(?:\d+\.|-) `(crates/[^`]+)`:(.*)")
LINK = re.compile(r"\[([^\]]*)\]\(([^)\s]+)\)")
# A step and a link that are wrong.
PLANTED = "1. `crates/buffa_wire/src/message.rt`: `merge_from_slice` calls `no_such_call`, see [`read_map_field`](../crates/buffa_map/src/entry.rt#x).\n"


def read(path):
    with open(f"{TOP}/{path}", encoding="utf-8") as it:
        return it.read()


def listed():
    """The crates, in the order of crates.txt."""
    return [it.partition(":")[0].split()[0] for it in read("crates.txt").split("\n") if it.strip() and not it.startswith("#")]


def files_of(crate, part, end):
    """The files of a part of a crate, those of the root first."""
    found = glob.glob(f"{TOP}/crates/{crate}/{part}/**/*.{end}", recursive=True)
    found = [os.path.relpath(it, TOP) for it in found]
    roots = ("lib.rt", "main.rt", "Lib.antt")
    return sorted(found, key=lambda it: (os.path.basename(it) not in roots or it.count("/") > 3, it.replace(".", "/")))


class Call:
    """A function: its file, its name with its type or trait, its clauses, and whether it is public."""

    def __init__(self, file, owner, name, is_public):
        self.file, self.owner, self.name, self.is_public, self.clauses = file, owner, name, is_public, []

    def title(self):
        return f"{self.owner}::{self.name}" if self.owner else self.name


def owner_of(head):
    """The type or trait that an impl or a trait is of, and whether it is an impl of a trait."""
    plain = head.split("{")[0].split(" where ")[0]
    while re.search(r"<[^<>]*>", plain):
        plain = re.sub(r"<[^<>]*>", "", plain)
    is_of_trait = " for " in plain
    words = WORD.findall(plain.split(" for ")[-1].split(":")[0])
    return (words[-1] if words else None), is_of_trait


def calls_of(file):
    """The functions of a file."""
    lines = read(file).split("\n")
    found, owner, in_trait, is_of_trait, in_body, is_test = [], None, False, False, False, False
    for at, line in enumerate(lines):
        text = line.strip()
        if text.startswith("//"):
            continue
        is_test |= text == "#[cfg(test)]"
        head = HEAD.match(text)
        if head and not line.startswith(" "):
            whole = head[2]
            for more in lines[at + 1 : at + 8]:
                if "{" in whole or "{" in line:
                    break
                whole += " " + more
            owner, is_of_trait = owner_of(whole)
            in_trait = head[1] == "trait" and text.startswith("pub trait")
            continue
        if line == "}":
            owner, in_trait, is_of_trait = None, False, False
        if text == "{":
            in_body = True
        call = CALL.match(text)
        if call:
            in_body = line.endswith("{")
            is_public = (in_trait or bool(call[1]) and not is_of_trait) and not is_test
            found.append(Call(file, owner, call[2], is_public))
            continue
        clause = CLAUSE.match(text)
        if clause and found and not in_body and clause[1] == "ensures":
            found[-1].clauses.append(clause[2] or "only")
    return found


def is_law(file):
    """Whether a file has laws: its own name says so, or its crate's."""
    return "law" in os.path.relpath(file, "crates")


def laws_said_again():
    """By file and law, the clauses that say a ghost's own text again."""
    files = [file for crate in listed() for file in files_of(crate, "src", "rt")]
    return {law: clauses for law, clauses in said_again({it: read(it) for it in files}).items() if is_law(law[0])}


def rows_of(crate, laws, again):
    """The rows of the calls of a crate, or of its laws."""
    rows = []
    for file in files_of(crate, "src", "rt"):
        if is_law(file) == laws:
            for it in calls_of(file):
                if it.is_public and it.name != "main":
                    marked = again.get((file, it.name), [])
                    clauses = ", ".join(("*only*" if name == "only" else f"`{name}`") + MARK * (name in marked) for name in it.clauses)
                    rows.append(f"[`{it.title()}`](../{file}) | {clauses}".rstrip())
    return rows


def wrong_bodies(crates):
    """A row for each wrong body of a folder must-fail: its function, or its crate, what is wrong, and the goal that refuses it."""
    rows = []
    for path in (it for crate in crates for it in sorted(glob.glob(f"{TOP}/crates/{crate}/must-fail/*.edit"))):
        file = os.path.relpath(path, TOP)
        name, _, wrong = os.path.basename(path)[:-5].rpartition("-")
        name = name or file.split("/")[1]
        goal = re.search(r"^goal: (.*)$", read(file), re.M)
        rows.append(f"[`{name}`](../{file}) | {wrong.replace('_', ' ')} | {f'`{goal[1]}`' if goal else ''}".rstrip())
    return rows


def unmarked(text, again):
    """The links of docs/PROMISES.md to laws that are marked, or aren't, where the others are."""
    laws = {name for _, name in again}
    found = re.findall(r"\[((?:`\w+`(?:, )?)+)\]\(INDEX\.md#laws\)(°?)", text)
    return [f"docs/PROMISES.md: {words} is {'not ' * (not mark)}marked" for words, mark in found if bool(mark) != bool(laws & set(WORD.findall(words)))]


def index(crates, again):
    """The text of docs/INDEX.md, and how many calls and laws it has."""
    out = [
        "# Index of calls, laws and cases",
        "",
        "`tests/index.py write` makes this page from the sources. A clause is a name behind `ensures` in a contract, and *only* a clause",
        "without a name. A call with no clause promises that it returns.",
    ]
    count = {}
    for title, head, is_of_law in (("Calls", "Call", False), ("Laws", "Law", True)):
        out += ["", f"## {title}"]
        if is_of_law:
            out += ["", "A law is a function with nothing to do, whose contract is the law. `buffa::laws` hands on those of the crates below it."]
            out += [f"A clause with the mark {MARK} says a ghost's own text again: it keeps that text from being changed unseen, and is no evidence."]
        count[title] = 0
        for crate in crates:
            rows = rows_of(crate, is_of_law, again)
            count[title] += len(rows)
            if rows:
                out += ["", f"### {title} of `{crate}`", "", f"{head} | Clauses", "---|---", *rows]
    out += ["", "## Cases", "", "The rows of each table of `vectors/cases`, by the call that they make; each table's head says what its words mean.", ""]
    out += ["Table | Calls, each with the number of its rows", "---|---"]
    for path in sorted(glob.glob(f"{TOP}/vectors/cases/*.tsv")):
        rows = {}
        for line in read(os.path.relpath(path, TOP)).split("\n"):
            if line and not line.startswith("#"):
                rows[line.split("\t")[1]] = rows.get(line.split("\t")[1], 0) + 1
        out.append(f"`{os.path.basename(path)}` | " + ", ".join(f"`{name}` {number}" for name, number in sorted(rows.items())))
    out += ["", "## Wrong bodies that the gate tries", "", "The checker refuses each of them, at its goal where it names one: `tests/wrong.py gate`. Others are in `tests/wrong`.", ""]
    out += ["Function | What is wrong | The goal that is open then", "---|---|---", *wrong_bodies(crates)]
    return "\n".join(out) + "\n", count["Calls"], count["Laws"]


def anchors_of(path):
    """The places of a page that a link may lead to: its headings, as GitHub names them."""
    found, inside = set(), False
    for line in read(path).split("\n"):
        inside ^= line.strip().startswith("```")
        if line.startswith("#") and not inside:
            plain = re.sub(r"[`*]|\[|\]\([^)]*\)", "", line.lstrip("#").strip().lower())
            found.add(re.sub(r"[^\w\- ]", "", plain).replace(" ", "-"))
    return found


def wrong_links(path, text):
    """The links of a page that lead nowhere, or to a file that doesn't have the words in code; and how many links there are."""
    wrong, count = [], 0
    for words, target in LINK.findall(text):
        if "://" in target:
            continue
        count += 1
        file, _, anchor = target.partition("#")
        to = os.path.normpath(os.path.join(os.path.dirname(path), file)) if file else path
        if not os.path.exists(f"{TOP}/{to}"):
            wrong.append(f"{path}: no {target}")
        elif anchor and (not to.endswith(".md") or anchor not in anchors_of(to)):
            wrong.append(f"{path}: no heading {target}")
        elif to.endswith((".rt", ".antt", "INDEX.md")):
            there = set(WORD.findall(read(to)))
            named = [it for it in re.findall(r"`([^`]+)`", words) if not to.endswith(it)]
            wrong += [f"{path}: no {it} in {to}" for name in named for it in WORD.findall(name) if it not in there]
    return wrong, count


def wrong_steps(path, text):
    """The names of walks that don't stand in the file of their step; and how many steps there are."""
    wrong, count, step = [], 0, None
    for line in text.split("\n"):
        found = STEP.match(line)
        if found:
            step, count, line = found[1], count + 1, found[2]
            if not os.path.exists(f"{TOP}/{step}"):
                wrong, step = wrong + [f"{path}: no file {step}"], None
        elif not line.startswith("  "):
            step = None
        if step:
            there = set(WORD.findall(read(step)))
            wrong += [f"{path}: no {it} in {step}" for name in re.findall(r"`([^`]+)`", line) for it in WORD.findall(name) if it not in there]
    return wrong, count


def names_there():
    """The words of the sources, of the tables and of the tests."""
    words = set()
    for path in glob.glob(f"{TOP}/crates/*/s*/**/*.*t*", recursive=True) + glob.glob(f"{TOP}/tests/*.*") + glob.glob(f"{TOP}/vectors/**/*.tsv", recursive=True):
        if path.endswith((".rt", ".antt", ".py", ".c", ".tsv")):
            with open(path, encoding="utf-8") as it:
                words |= set(WORD.findall(it.read()))
        words |= set(WORD.findall(os.path.relpath(path, TOP)))
    for name in os.listdir(f"{TOP}/crates"):
        words.add(name)
    for folder, folders, files in os.walk(TOP):
        folders[:] = [it for it in folders if it not in ("out", ".git", "proofs")]
        words |= {part for it in [*folders, *files] for part in WORD.findall(it)}
    return words


def missing(words, path, text):
    """The names in code of a page that are nowhere; what stands between fences is judged by tests/examples.py."""
    found, inside = [], False
    for at, line in enumerate(text.split("\n"), 1):
        inside ^= line.strip().startswith("```")
        if inside or line.startswith("    "):
            continue
        for name in re.findall(r"`([^`]+)`", line):
            for word in WORD.findall(name):
                # two dots stand for any letters
                if word not in words and not (".." in name and any(word in it for it in words)):
                    found.append(f"{path}:{at}: no name {word} in `{name}`")
    return found


def main():
    again = laws_said_again()
    page, calls, laws = index([it for it in listed() if it.startswith(("buffa", "sample"))], again)
    old = read("docs/INDEX.md") if os.path.exists(f"{TOP}/docs/INDEX.md") else ""
    wrong, links, steps = [], 0, 0
    if old != page and sys.argv[1:] == ["write"]:
        with open(f"{TOP}/docs/INDEX.md", "w", encoding="utf-8") as it:
            it.write(page)
    elif old != page:
        wrong.append("docs/INDEX.md is not what the sources give: run tests/index.py write")
    wrong += unmarked(read("docs/PROMISES.md"), again)
    words = names_there()
    for path in ["README.md", *sorted(os.path.relpath(it, TOP) for it in glob.glob(f"{TOP}/docs/*.md"))]:
        text = read(path)
        faults, count = wrong_links(path, text)
        wrong, links = wrong + faults, links + count
        faults, count = wrong_steps(path, text)
        wrong, steps = wrong + faults, steps + count
        if path in PAGES:
            wrong += missing(words, path, text)
    if not wrong_links("docs/MAP.md", PLANTED)[0] or not wrong_steps("docs/MAP.md", PLANTED)[0]:
        wrong.append("what was planted is not found")
    for it in wrong:
        print(f"index: {it}")
    print(f"index: {calls} calls, {laws} laws, {links} links, {steps} steps, {len(wrong)} that aren't right")
    return 1 if wrong or not calls or not steps else 0


if __name__ == "__main__":
    sys.exit(main())
